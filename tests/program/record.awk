# Edits, one to a line (insert KEY POINTER, update POSITION POINTER, keep START END; a number in front is passed over), as
# an edit record: its bytes as printf's %b takes them.
function bits(n, width,    s) {
    s = ""
    while (width-- > 0) {
        s = (n % 2) s
        n = int(n / 2)
    }
    return s
}
function key(hex,    i, s) {
    s = ""
    for (i = 1; i <= length(hex); i++)
        s = s bits(index("0123456789ABCDEF", toupper(substr(hex, i, 1))) - 1, 4)
    return s
}
{
    f = ($1 ~ /^[0-9]+$/) ? 2 : 1
    edits++
    if ($f == "insert")
        all = all "00" key($(f + 1)) bits($(f + 2), 32)
    else if ($f == "update")
        all = all "01" bits($(f + 1), 10) bits($(f + 2), 32)
    else
        all = all "10" bits($(f + 1), 10) bits($(f + 2), 10)
}
END {
    all = bits(edits, 10) all
    while (length(all) % 8)
        all = all "0"
    for (i = 1; i <= length(all); i += 8) {
        byte = 0
        for (j = 0; j < 8; j++)
            byte = 2 * byte + substr(all, i + j, 1)
        printf "\\0%03o", byte
    }
}
