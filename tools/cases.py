#!/usr/bin/env python3
"""Writes crates/vectors/proofs/Vectors.antt: cases of the outside vectors as facts that the checker computes.

    tools/cases.py VECTORS            write the module
    tools/cases.py VECTORS --check    say whether it is what this script writes (exit status 1 if not)

VECTORS is the file of outside cases (a case a line, tabs between fields: the operation, its arguments, `=>`, the answer,
all lent memory afterwards). Of each operation and each answer, a value or a refusal's number, the SMALLEST cases are
taken, by what has to be written down for them, and of accepted builds BUILDS; none that takes over LONGEST characters.
"""
import os
import sys

SMALLEST = 2
BUILDS = 8
LONGEST = 4000
MODULE = os.path.join(os.path.dirname(os.path.abspath(__file__)), "..", "crates", "vectors", "proofs", "Vectors.antt")

HEAD = """\
-- Cases of an independent model of document 01, computed from the definitions. Written by tools/cases.py: change that, not this.
-- Each says what an operation answers, and what lent memory holds afterwards. Line numbers are those of the vectors' file.
-- Assumes nothing.
use mathlib.Core.List.{[], ◌++◌}
use mathlib.Core.Path.{◌≡◌, refl}
use lib.ListN.{replicate}
use Rattle.format.specs.Bits.{bits_of}
use Rattle.format.specs.Key.{separator_length, shared_bits}
use Rattle.format.specs.Answer.{Answer, afterwards}
use Rattle.format.specs.Page.{check_page, read_entry}
use Rattle.format.specs.Sizes.{body_size, whole_from_stored, stored_from_whole}
use Rattle.format.specs.Ranges.{separate, bit_copy, rebuild_key}
use Rattle.format.specs.Build.{build}
use Rattle.format.proofs.Samples.{hex}
"""


def runs(data):
    """The bytes as runs: (byte, how often) where one byte repeats, else the bytes themselves."""
    out, at = [], 0
    while at < len(data):
        end = at
        while end < len(data) and data[end] == data[at]:
            end += 1
        if end - at > 8:
            out.append((data[at], end - at))
        elif out and isinstance(out[-1], bytes):
            out[-1] += data[at:end]
        else:
            out.append(data[at:end])
        at = end
    return out


def raw(field):
    return b"" if field == "-" else bytes.fromhex(field)


def listed(field):
    """A field of hex digits as a term for its bytes."""
    parts = []
    for part in runs(raw(field)):
        if isinstance(part, tuple):
            parts.append("replicate %d %d" % (part[1], part[0]))
        else:
            parts.append("hex %d 0x%s" % (len(part), part.hex()))
    return "(" + " ++ ".join(parts) + ")" if parts else "[]"


def key(field):
    return "(bits_of %s)" % listed(field)


def answer(case, value):
    return "Answer.Value %s" % value(case["values"]) if case["refusal"] == 0 else "Answer.Refused %d" % case["refusal"]


def number(values):
    return values[0]


def key_value(values):
    return key(values[0])


def facts(case):
    """The facts of a case: (what computes, what it is equal to, through which definitions)."""
    op, a = case["op"], case["args"]
    if op == "sep_len":
        return [("separator_length %s" % key(a[0]), case["values"][0], "separator_length bits_of hex")]
    if op == "shared":
        return [("shared_bits %s %s" % (key(a[0]), key(a[1])), case["values"][0], "shared_bits bits_of hex")]
    if op == "separate":
        return [("separate %s %s" % (key(a[0]), key(a[1])), answer(case, key_value), "separate bits_of hex")]
    if op == "copy":
        call = "bit_copy %s %s %s %s %s" % (listed(a[0]), a[1], listed(a[2]), a[3], a[4])
        left = listed(case["memory"][0])
        return [(call, answer(case, lambda values: left), "bit_copy hex"),
                ("afterwards (%s) (λ d. d) %s" % (call, listed(a[0])), left, "afterwards bit_copy hex")]
    if op == "rebuild":
        call = "rebuild_key %s %s %s %s %s" % (listed(a[0]), a[1], listed(a[2]), a[3], a[4])
        return [(call, answer(case, key_value), "rebuild_key bits_of hex")]
    if op == "body":
        return [("body_size %s %s %s" % tuple(a), answer(case, number), "body_size")]
    if op == "whole":
        return [("whole_from_stored %s %s %s %s" % tuple(a), answer(case, number), "whole_from_stored")]
    if op == "stored":
        return [("stored_from_whole %s %s %s %s" % tuple(a), answer(case, number), "stored_from_whole")]
    if op == "check":
        header = "(record { number = %s; n = %s; m = %s; q = %s; bits = %s })"
        return [("check_page %s" % listed(a[0]), answer(case, lambda values: header % tuple(values)), "check_page hex")]
    if op == "entry":
        entry = "(record { key = %s; pointer = %s })"
        return [("read_entry %s %s" % (listed(a[0]), a[1]),
                 answer(case, lambda values: entry % (key(values[0]), values[1])), "read_entry bits_of hex")]
    call = "build %s %s %s %s %s" % (listed(a[0]), listed(a[1]), a[2], listed(a[3]), listed(a[4]))
    numbers = "(record { n = %s; m = %s; q = %s; bits = %s; undo = %s })"
    built = "record { answer = %s; page = %s; undo = %s }"
    return [(call, built % (answer(case, lambda values: numbers % tuple(values)), *map(listed, case["memory"])), "build hex")]


def read(path):
    """The cases of the file, each with the number of its line."""
    cases = []
    with open(path) as lines:
        for line, text in enumerate(lines, 1):
            fields = text.rstrip("\n").split("\t")
            mark = fields.index("=>")
            op, args, rest = fields[0], fields[1:mark], fields[mark + 1:]
            lent = {"copy": 1, "build": 2}.get(op, 0)
            memory = rest[len(rest) - lent:]
            values = rest[1:len(rest) - lent]
            refusal = int(values[0]) if rest[0] == "R" else 0
            cases.append({"line": line, "op": op, "args": args, "values": values, "memory": memory, "refusal": refusal})
    return cases


def written(case):
    """How much has to be written down for a case."""
    return sum(len(left) + len(right) for left, right, _ in facts(case))


def chosen(cases):
    """The smallest cases of each operation and answer, in the order of the file, none twice."""
    groups = {}
    for case in cases:
        groups.setdefault((case["op"], case["refusal"]), []).append(case)
    taken = []
    for (op, refusal), group in groups.items():
        # of lines that say the same, the first
        group = {str(facts(case)): case for case in reversed(group)}.values()
        group = sorted(group, key=lambda case: (written(case), case["line"]))
        most = BUILDS if (op, refusal) == ("build", 0) else SMALLEST
        taken += [case for case in group[:most] if written(case) <= LONGEST]
    return sorted(taken, key=lambda case: case["line"])


def module(cases):
    out = [HEAD]
    for case in cases:
        said = "refusal %d" % case["refusal"] if case["refusal"] else "a value"
        out.append("-- line %d: %s, %s" % (case["line"], case["op"], said))
        parts = facts(case)
        for part, (left, right, through) in enumerate(parts):
            name = "line_%d" % case["line"] + ("" if len(parts) == 1 else "abc"[part])
            out.append("%s : %s ≡ %s" % (name, left, right))
            out.append("unfolding %s" % through)
            out.append("%s = refl" % name)
            out.append("")
    return "\n".join(out)


def main():
    if len(sys.argv) not in (2, 3) or sys.argv[2:] not in ([], ["--check"]):
        sys.exit(__doc__)
    cases = chosen(read(sys.argv[1]))
    text = module(cases)
    if sys.argv[2:]:
        with open(MODULE) as old:
            if old.read() != text:
                sys.exit("crates/vectors/proofs/Vectors.antt is not what tools/cases.py writes")
        print("tools/cases.py: Vectors.antt is as written, %d cases" % len(cases))
        return
    with open(MODULE, "w") as out:
        out.write(text)
    print("%d cases" % len(cases))


main()
