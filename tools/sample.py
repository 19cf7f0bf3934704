#!/usr/bin/env python3
"""Writes crates/replayed/data/cases: cases of the outside vectors, for the program `replayed` to run.

    tools/sample.py VECTORS            write the sample
    tools/sample.py VECTORS --check    say whether it is what this script writes (exit status 1 if not)

VECTORS is the file of outside cases (a case a line, tabs between fields: the operation, its arguments, `=>`, the answer,
all lent memory afterwards); they come from an independent model of document 01. Of each operation the MOST smallest cases
are taken; of pages, which take a check and an entry reading together, PAGES of each pair of answers. Where the vectors
do not show a key that is lent for the answer, it is lent with OUT in it.

The sample, numbers little-endian: how many cases, 4 bytes; then each case: the operation's number, 1 byte, how many bytes
follow, 4 bytes, and the fields, each with its length before it, 4 bytes. A number is a field of 8 bytes. An answer is the
refusal's number, 0 for none, and lent memory afterwards:

    1  sep_len   key  length
    2  shared    a  b  bits
    3  separate  a  b  out  refusal  out
    4  copy      dst  dst_bit  src  src_bit  bits  refusal  dst
    5  rebuild   prefix  prefix_bits  separator  start  bits  out  refusal  out
    6  body      q  sum  n  refusal  size
    7  whole     q  sum  n  first  refusal  size
    8  stored    first  m  others  q  refusal  size
    9  page      page  refusal  number  n  m  q  bits  index  out  refusal  pointer  out
   10  build     base  record  number  page_length  page_byte  undo  refusal  n  m  q  bits  undo_length  page  undo
   11  note      text, which is passed over: where the cases come from

The page that is lent to a build holds one byte all over; afterwards it stands here where the build was accepted.
"""
import os
import sys

MOST = 150
PAGES = 6
OUT = bytes(range(1, 33))
OPERATIONS = {"sep_len": 1, "shared": 2, "separate": 3, "copy": 4, "rebuild": 5, "body": 6, "whole": 7, "stored": 8, "page": 9,
              "build": 10}
NOTE = b"Cases of an independent model of document 01, chosen by tools/sample.py. "
SAMPLE = os.path.join(os.path.dirname(os.path.abspath(__file__)), "..", "crates", "replayed", "data", "cases")


def raw(field):
    return b"" if field == "-" else bytes.fromhex(field)


def number(field):
    return int(field).to_bytes(8, "little")


def refusal_of(answer):
    return int(answer[1]) if answer[0] == "R" else 0


def fields(op, args, answer):
    """The fields of a case, as bytes."""
    refusal = refusal_of(answer)
    if op == "sep_len":
        return [raw(args[0]), number(answer[1])]
    if op == "shared":
        return [raw(args[0]), raw(args[1]), number(answer[1])]
    if op == "separate":
        return [raw(args[0]), raw(args[1]), OUT, number(refusal), OUT if refusal else raw(answer[1])]
    if op == "copy":
        return [raw(args[0]), number(args[1]), raw(args[2]), number(args[3]), number(args[4]), number(refusal), raw(answer[-1])]
    if op == "rebuild":
        return [raw(args[0]), number(args[1]), raw(args[2]), number(args[3]), number(args[4]), OUT, number(refusal),
                OUT if refusal else raw(answer[1])]
    if op == "build":
        return build_fields([raw(args[0]), raw(args[1]), number(args[2])], raw(args[3]), raw(args[4]), refusal, answer)
    return [number(x) for x in args] + [number(refusal), number(0 if refusal else answer[1])]


def build_fields(given, page, undo, refusal, answer):
    """The fields of a build."""
    numbers = [0] * 5 if refusal else answer[1:6]
    page_after, undo_after = raw(answer[-2]), raw(answer[-1])
    if len(set(page)) > 1 or refusal and page_after != page:
        sys.exit("a lent page is not of one byte, or a refused build changes it: the sample has no place for that")
    return (given + [number(len(page)), number(page[0] if page else 0), undo, number(refusal)] + [number(x) for x in numbers]
            + [b"" if refusal else page_after, undo_after])


def page_fields(checked, read):
    """The fields of a page: of a check and of an entry reading of the same page."""
    (page,), check = checked
    (_, index), entry = read
    header = [0] * 5 if refusal_of(check) else check[1:6]
    pointer, key = (0, OUT) if refusal_of(entry) else (entry[2], raw(entry[1]))
    return ([raw(page), number(refusal_of(check))] + [number(x) for x in header]
            + [number(index), OUT, number(refusal_of(entry)), number(pointer), key])


def cases(path):
    """The cases of the vectors: operation, what tells apart those of a kind, fields."""
    last = None
    with open(path) as lines:
        for line in lines:
            parts = line.rstrip("\n").split("\t")
            mark = parts.index("=>")
            op, args, answer = parts[0], parts[1:mark], parts[mark + 1:]
            if op == "check":
                last = args, answer
            elif op == "entry":
                if last and last[0][0] == args[0]:
                    yield "page", (refusal_of(last[1]), refusal_of(answer)), page_fields(last, (args, answer))
            elif op in OPERATIONS:
                yield op, None, fields(op, args, answer)


def sample(path):
    """The smallest cases of each kind, in the order of the file."""
    groups = {}
    for at, (op, kind, parts) in enumerate(cases(path)):
        body = b"".join(len(part).to_bytes(4, "little") + part for part in parts)
        groups.setdefault((op, kind), []).append((len(body), at, body))
    taken = []
    for (op, _), group in groups.items():
        most = PAGES if op == "page" else MOST
        taken += [(at, OPERATIONS[op], body) for _, at, body in sorted(group)[:most]]
    taken.sort()
    note = len(NOTE).to_bytes(4, "little") + NOTE
    out = [(len(taken) + 1).to_bytes(4, "little")]
    for _, op, body in [(0, 11, note)] + taken:
        out += [bytes([op]), len(body).to_bytes(4, "little"), body]
    return len(taken), b"".join(out)


def main():
    if len(sys.argv) not in (2, 3) or sys.argv[2:] not in ([], ["--check"]):
        sys.exit(__doc__)
    count, text = sample(sys.argv[1])
    if sys.argv[2:]:
        with open(SAMPLE, "rb") as old:
            if old.read() != text:
                sys.exit("crates/replayed/data/cases is not what tools/sample.py writes")
        print("tools/sample.py: the sample is as written, %d cases" % count)
        return
    with open(SAMPLE, "wb") as out:
        out.write(text)
    print("%d cases, %d bytes" % (count, len(text)))


main()
