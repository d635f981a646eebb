#!/usr/bin/env python3
"""tools/spell.py [--names]: brings the repository's own names of definitions and lemmas to Rattle's spelling, words in snake case.

A name that begins with a small letter and goes on in camel case, or a part of it between dashes, becomes snake case: in every .antt file, in the clauses
and `ghost use` lines of every .rt file, in every .edit file, and between backticks in the documents. Rust's own names and types stay. It is run once,
after the kit's port.py; --names prints the names and what they become, and writes nothing."""
import re
import sys
from pathlib import Path

HERE = Path(__file__).resolve().parent.parent
WORD = re.compile(r"(?<![\w'′-])[A-Za-z_][\w'′-]*")
CAMEL = re.compile(r"(?<=[a-z0-9])([A-Z])")
CLAUSE = re.compile(r"^\s*(requires|ensures|ghost)\b")
# A definition that would get a field's name says what it is of; a lemma that would get its definition's name says that it is one.
OWN = {
    "arrayStart": "array_start_of",
    "firstThree": "first_three_of",
    "minTrailerCount": "min_trailer_count_of",
    "reservedZero": "reserved_zero_of",
    "rowBytes": "row_bytes_of",
    "rowCount": "row_count_of",
    "searchLimit": "search_limit_of",
    "spelled_at": "spelled_at_lem",
}
LIKE_STD = {"to_ℕ": "to_ℕ", "getD": "get_or"}


def respelled(name):
    def part(p):
        return CAMEL.sub(lambda m: "_" + m.group(1).lower(), p) if p[:1].islower() else p

    return OWN.get(name) or "-".join(LIKE_STD.get(p, part(p)) for p in name.split("-"))


def turned(text, found):
    def one(m):
        new = respelled(m.group(0))
        if new != m.group(0):
            found[m.group(0)] = new
        return new

    return WORD.sub(one, text)


def clauses(text, found):
    """Of a .rt file only the clauses and the ghost lines."""
    out, depth, inside = [], 0, False
    for line in text.splitlines(keepends=True):
        if line.lstrip().startswith("//"):
            out.append(line)
            continue
        if not inside and CLAUSE.match(line):
            inside, depth = True, 0
        if inside:
            depth += line.count("{") - line.count("}")
            out.append(turned(line, found))
            inside = depth > 0 or (line.lstrip().startswith("ghost use") and ";" not in line)
        else:
            out.append(line)
    return "".join(out)


def files(ending):
    return [p for p in sorted((HERE / "crates").rglob("*" + ending)) if "out" not in p.relative_to(HERE).parts]


def main(argv):
    found = {}
    for ending, turn in ((".antt", turned), (".rt", clauses), (".edit", turned)):
        for p in files(ending):
            text = p.read_text()
            new = turn(text, found)
            if new != text and "--names" not in argv:
                p.write_text(new)
    for p in [HERE / "README.md", *sorted((HERE / "docs").glob("*.md"))]:
        text = p.read_text()
        new = re.sub(r"`[^`\n]*`", lambda m: WORD.sub(lambda w: found.get(w.group(0), w.group(0)), m.group(0)), text)
        if new != text and "--names" not in argv:
            p.write_text(new)
    if "--names" in argv:
        for old, new in sorted(found.items()):
            print(old, new)
    return 0


if __name__ == "__main__":
    raise SystemExit(main(sys.argv[1:]))
