#!/usr/bin/env python3
"""Brings the repository's own definitions and lemmas to today's spelling, after port.py and once: words in snake case, a dash only between
two names, a fact's name with its capital. Source functions, exports, strings, inputs and outputs keep their names.

usage: python3 tools/port_names.py [--list]      at the top of the repository; --list only prints the names, old and new
"""
import glob
import os
import re
import sys

# Words that are names, of std's or of this repository's, beside the definitions that are found below: between two of them a dash stays.
NAMES = set("""length take drop append replicate map set get_or min max pow add mul sub div mod suc zero one nil cons le lt eq
    leb ltb eqb not and or true false some none refl fold filter""".split())
# Names that would fall together with another, or read wrongly.
SPECIAL = {"page-number": "has_number"}
# Words of std inside of names, as std has them now.
PARTS = {"getD": "get_or"}
SPLIT = re.compile(r"([\s(){}\[\],;.`\"·]+)")
KEYWORDS = "(?:unfoldable |abbrev |pub |data |record |ruleset )*"
DECLARED = re.compile(r"^(\s*)(" + KEYWORDS + r")([^\s:(){}\[\],;.]+)(?=\s+(?::|\(|\{))")
RULESET = re.compile(r"^ruleset (\S+) =")
NOT_NAMES = {"use", "let", "in", "where", "λ", "unfolding", "elim", "search", "omega", "module", "grind", "rw", "cc", "simp", "subst", "record", "data"}


def snake(part):
    return re.sub(r"(?<=[a-z0-9])([A-Z])", lambda m: "_" + m.group(1).lower(), part)


def antt():
    return sorted(glob.glob("crates/*/specs/*.antt") + glob.glob("crates/*/proofs/**/*.antt", recursive=True))


def declared():
    """Each name that a file declares, and whether it is a label, a definition of specs/, or a lemma."""
    found = {}
    for path in antt():
        in_record = False
        for line in open(path, encoding="utf-8"):
            if line.strip() and not line[0].isspace():
                in_record = re.match(r"(pub )?record .*", line) is not None
            if line.lstrip().startswith("--") or line.startswith("use ") or "tie." in line:
                continue
            m = DECLARED.match(line) or RULESET.match(line)
            if not m:
                continue
            name = m.group(m.lastindex)
            if name in NOT_NAMES:
                continue
            indented = m.lastindex == 3 and m.group(1)
            label = bool(indented) and in_record
            word = "label" if label else ("spec" if "/specs/" in path else "lemma")
            if found.get(name) != "spec":
                found[name] = word
    return found


def sources():
    """The functions of src/, which keep their names; a definition may have the name of the function that it says."""
    found = {"bit_copy"}
    for path in glob.glob("crates/*/src/**/*.rt", recursive=True):
        found |= set(re.findall(r"\bfn (\w+)", open(path, encoding="utf-8").read()))
    return found


def imported():
    """The names that some file takes from std and from the logic's libraries."""
    own = set(os.listdir("crates"))
    names = set()
    for path in antt() + glob.glob("crates/*/src/**/*.rt", recursive=True):
        text = open(path, encoding="utf-8").read()
        for module, items in re.findall(r"^(?:ghost )?use ([\w.·'-]+)\.\{([^}]*)\}", text, re.M):
            words = module.split(".")
            if words[0] != "Rattle" or words[1] not in own:
                names |= {it.strip() for it in items.split(",")}
    return names


def renamed(found):
    theirs = imported()
    facts = {n for n in found if n[:1].isupper() and found[n] != "label"}
    definitions = {snake(n) for n, word in found.items() if word == "spec" and "-" not in n and n[:1].islower()}
    camel = definitions - set(found) | {d for d in definitions if found.get(d) == "lemma"}
    functions = sources()
    known = NAMES | definitions | functions
    table = {}
    taken = set()
    for name, word in sorted(found.items(), key=lambda it: "-" in it[0]):
        if name in theirs:
            continue
        if name in SPECIAL:
            table[name] = SPECIAL[name]
            continue
        if name.endswith("-spec"):
            table[name] = name.replace("-", "_")
            continue
        if word == "lemma" and name in camel:
            table[name] = name + "_lem"
            continue
        if not re.match(r"[a-z]", name) or not re.search(r"-|[a-z][A-Z]", name):
            continue
        parts = []
        for part in [PARTS.get(p, p) for p in name.split("-")]:
            capital = part[:1].upper() + part[1:]
            parts.append(capital if "-" in name and capital in facts and re.search(r"[A-Z]", part) else snake(part))
        new = parts[0]
        for left, right in zip(parts, parts[1:]):
            both = all(p in known or p[:1].isupper() for p in (left, right))
            new += ("-" if both and word != "label" else "_") + right
        if word != "spec" and (new in definitions or new in functions or name != new and new in taken):
            new += "_lem"
        taken.add(new)
        if new != name:
            table[name] = new
    return table


def turn(text, table):
    return "".join(table.get(piece, piece) for piece in SPLIT.split(text))


def main(argv):
    found = declared()
    table = renamed(found)
    before = {}
    for path in antt() + glob.glob("crates/*/src/**/*.rt", recursive=True):
        for piece in SPLIT.split(open(path, encoding="utf-8").read()):
            before[piece] = before.get(piece, 0) + 1
    bad = 0
    new = {}
    for name, to in table.items():
        if to in before and to not in table and not (found[name] == "spec" and (to in sources() or to + "_lem" in table.values())):
            print(f"look: {name} -> {to}, which stands {before[to]} times already")
            bad += 1
        if to in new:
            print(f"look: {name} and {new[to]} both become {to}")
            bad += 1
        new[to] = name
    if argv[:1] == ["--list"]:
        for name, to in sorted(table.items()):
            print(f"{name} {to} {found[name]}")
        return 0
    if bad:
        return 1
    paths = antt() + glob.glob("crates/*/src/**/*.rt", recursive=True) + glob.glob("crates/*/must-fail/**/*.edit", recursive=True)
    for path in paths + glob.glob("docs/*.md") + ["README.md"]:
        text = open(path, encoding="utf-8").read()
        turned = turn(text, table)
        if turned != text:
            with open(path, "w", encoding="utf-8") as f:
                f.write(turned)
    print(f"port_names: {len(table)} names")
    return 0


if __name__ == "__main__":
    raise SystemExit(main(sys.argv[1:]))
