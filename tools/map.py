#!/usr/bin/env python3
"""Draws the map of a page, to scale: which bits are its header, end offsets, prefix, separators, gap and pointers.

    tools/map.py PAGE OUT.svg            write the picture
    tools/map.py PAGE OUT.svg --check    say whether it is what this script writes (exit status 1 if not)

PAGE has 4,096 bytes, and was accepted (`./run check PAGE`). A row of the picture is 64 bytes, a byte's bits from left to
right; neighbouring offsets, separators and pointers differ in shade.
"""
import os
import sys

PAGE, ROW = 4096, 64              # bytes of a page, and of a row
BIT, HEIGHT, STEP = 1.25, 8, 10   # a bit's width, a row's height, and from row to row
LEFT, TOP = 52, 64                # the map's corner

# What a part is called, and its two shades.
PARTS = {
    "header": ("#37474f", "#37474f"),
    "end offsets": ("#1e88e5", "#64b5f6"),
    "prefix": ("#d81b60", "#d81b60"),
    "compressed separators": ("#fb8c00", "#ffcc80"),
    "plain separators": ("#8e24aa", "#ce93d8"),
    "gap": ("#eceff1", "#eceff1"),
    "pointers": ("#2e7d32", "#81c784"),
}


def number(page, at, size):
    return int.from_bytes(page[at:at + size], "little")


def parts(page):
    """The parts of a page: name, first bit, and where each of its pieces ends."""
    n, m, q = number(page, 4, 2), number(page, 6, 2), number(page, 8, 2)
    ends = [number(page, 10 + 2 * i, 2) for i in range(n)]
    bits, pointers = 8 * (10 + 2 * n), 8 * (PAGE - 4 * n)
    first = bits + q
    last = first + (ends[-1] if ends else 0)
    if not 1 <= m <= n or last > pointers or sorted(ends) != ends:
        sys.exit("map: not a page that is accepted")
    middle = first + ends[m - 1]
    return [
        ("header", 0, [32, 48, 64, 80]),
        ("end offsets", 80, [80 + 16 * (i + 1) for i in range(n)]),
        ("prefix", bits, [first]),
        ("compressed separators", first, [first + e for e in ends[:m]]),
        ("plain separators", middle, [first + e for e in ends[m:]]),
        ("gap", last, [pointers]),
        ("pointers", pointers, [pointers + 32 * (i + 1) for i in range(n)]),
    ]


def short(x):
    return ("%.2f" % x).rstrip("0").rstrip(".")


def boxes(start, end):
    """A path's boxes for the bits from start up to end, one for each row that they touch."""
    path = []
    while start < end:
        row = start // (8 * ROW)
        stop = min(end, 8 * ROW * (row + 1))
        wide = short((stop - start) * BIT)
        path.append("M%s %dh%sv%dh-%sz" % (short(LEFT + (start - 8 * ROW * row) * BIT), TOP + STEP * row, wide, HEIGHT, wide))
        start = stop
    return "".join(path)


def size(bits):
    """A size in words: bytes where they are whole."""
    if bits % 8 == 0:
        return "{:,} bytes".format(bits // 8)
    return "{:,} bits".format(bits)


def picture(page, name):
    all_parts = parts(page)
    n, m, q = number(page, 4, 2), number(page, 6, 2), number(page, 8, 2)
    legend = LEFT + 8 * ROW * BIT + 28
    width, height = legend + 214, TOP + STEP * PAGE // ROW + 16
    title = "Page {:,}: n = {:,}, m = {:,}, q = {:,}".format(number(page, 0, 4), n, m, q)
    out = [
        '<svg xmlns="http://www.w3.org/2000/svg" viewBox="0 0 %s %s" font-family="sans-serif" font-size="13" fill="#212121">'
        % (short(width), short(height)),
        "<title>%s</title>" % title,
        '<rect width="100%" height="100%" fill="#ffffff"/>',
        '<text x="%d" y="26" font-size="17">%s</text>' % (LEFT, title),
        '<text x="%d" y="48" fill="#616161">%s, to scale: a row is %d bytes, each of 8 bits from left to right</text>'
        % (LEFT, name, ROW),
    ]
    for row in range(0, PAGE // ROW, 8):
        out.append('<text x="%d" y="%d" font-size="11" text-anchor="end" fill="#616161">%s</text>'
                   % (LEFT - 8, TOP + STEP * row + 8, "{:,}".format(row * ROW)))
    y = TOP + 12
    for part, start, ends in all_parts:
        if not ends:
            continue
        shades = PARTS[part]
        paths, at = ["", ""], start
        for i, end in enumerate(ends):
            paths[i % 2] += boxes(at, end)
            at = end
        for path, shade in zip(paths, shades):
            if path:
                out.append('<path fill="%s" d="%s"/>' % (shade, path))
        many = 0 if part in ("header", "prefix", "gap") else len(ends)
        out.append('<rect x="%s" y="%d" width="16" height="16" fill="%s"/>' % (short(legend), y, shades[0]))
        out.append('<text x="%s" y="%d">%s%s</text>' % (short(legend + 26), y + 8, "{:,} ".format(many) if many else "", part))
        out.append('<text x="%s" y="%d" font-size="11" fill="#616161">%s, from byte %s on</text>'
                   % (short(legend + 26), y + 24, size(at - start),
                      "{:,}".format(start // 8) + (" bit %d" % (start % 8) if start % 8 else "")))
        y += 50
    out.append("</svg>")
    return "\n".join(out) + "\n"


def main():
    words = [w for w in sys.argv[1:] if w != "--check"]
    if len(words) != 2:
        sys.exit(__doc__)
    with open(words[0], "rb") as f:
        page = f.read()
    if len(page) != PAGE:
        sys.exit("map: %s has %d bytes, and a page has %d" % (words[0], len(page), PAGE))
    drawn = picture(page, os.path.basename(words[0]))
    if "--check" in sys.argv[1:]:
        with open(words[1]) as f:
            same = f.read() == drawn
        print("map: %s is %s" % (words[1], "up to date" if same else "not what this script writes"))
        sys.exit(0 if same else 1)
    with open(words[1], "w") as f:
        f.write(drawn)


if __name__ == "__main__":
    main()
