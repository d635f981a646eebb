#!/usr/bin/env python3
"""samples/make.py [FOLDER]: makes the samples, a small archive of bird song and what two rescues of its disc brought back.

birds.db is the undamaged file; birds.img and second.img are what GNU ddrescue (Debian's gddrescue) copied from it where, with -H, the
sectors named below could not be read, and the .map files are what it wrote. Together the two have every sector.
"""
import re
import subprocess
import sys
import tempfile
from pathlib import Path

HERE = Path(__file__).resolve().parent
sys.path.insert(0, str(HERE.parent / "tests"))

import made  # noqa: E402
import maps  # noqa: E402

PAGES = 32
WHOLE = range(made.SECTORS)
FIRST_BAD = {7: [2], 9: [6, 7], 18: [1], 21: [3, 4], 26: WHOLE}
SECOND_BAD = {4: [0], 9: [1], 12: [5, 6], 21: [7], 29: [3]}

TABLES = {
    "recordings": ["number integer", "species integer", "recorded timestamp", "minutes smallint", "tape char(8)"],
    "species": ["number integer", "name varchar(40)", "first_heard date"],
    "tapes": ["label char(8)", "recorder varchar(20)", "speed smallint"],
}


def catalogue():
    rows = [f"table {number} {name}" for number, name in enumerate(TABLES, 1)]
    rows += [f"column {name}.{column}" for name, columns in TABLES.items() for column in columns]
    return [row.encode() for row in rows]


def birds():
    """The pages of birds.db: bookkeeping, the catalogue and recordings; page 10 is read by its neighbours alone, and nothing settles 24."""
    make = made.Maker(seed=1912)
    bv = [0x5A, 0xC3]
    special = {
        1: lambda n, b: make.calibrated(n, b, "M"),
        2: lambda n, b: make.calibrated(n, b, "A", (1, 4, 5, 6)),
        3: lambda n, b: make.verified(n, b, catalogue(), "C"),
        10: make.one_vote,
        24: make.no_vote,
        **{n: make.unallocated for n in (14, 15, 28, 29, 30, 31)},
    }
    pages = [made.superblock(PAGES, lsn=141)]
    pages += [special.get(n, make.verified)(n, bv[n // made.BLOCK]) for n in range(1, PAGES)]
    return pages


def rescued(folder, name, bad):
    """Runs ddrescue on birds.db with `bad` sectors; its map without the hour at which this was done."""
    size = PAGES * made.PAGE
    (folder / "bad.map").write_text(maps.text(maps.unread(size, bad)))
    subprocess.run(["ddrescue", "-q", "-H", "bad.map", "birds.db", f"{name}.img", f"{name}.map"], cwd=folder, check=True)
    image, written = (folder / f"{name}.img").read_bytes(), (folder / f"{name}.map").read_text()
    return image, re.sub(r"(?m)^(# (?:Start|Current) time: +).*$", r"\g<1>2000-01-01 00:00:00", written)


def main():
    out = Path(sys.argv[1]) if len(sys.argv) > 1 else HERE
    data = made.joined(birds())
    (out / "birds.db").write_bytes(data)
    with tempfile.TemporaryDirectory() as scratch:
        folder = Path(scratch)
        (folder / "birds.db").write_bytes(data)
        for name, bad in (("birds", FIRST_BAD), ("second", SECOND_BAD)):
            image, written = rescued(folder, name, bad)
            (out / f"{name}.img").write_bytes(image)
            (out / f"{name}.map").write_text(written)


if __name__ == "__main__":
    main()
