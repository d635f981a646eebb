"""Stored pages and whole page files, made on purpose: each page with what a strict reading must answer to it.

Pages are stored as docs/FORMAT.md says, by code of its own that shares nothing with the library. A block's pages have one bv, as in real
files; where a page's outcome depends on its block, the plan of the file says so.
"""
import random
import struct
import zlib
from dataclasses import dataclass, replace

PAGE, DATA, SECTOR, SECTORS, BLOCK = 4096, 4080, 512, 8, 16
TRAILER = DATA
ROWS_BYTE, TYPE_BYTE, RESERVED_BYTE, CRC_AT = 0xFF0, 0xFF2, 0xFF3, 0xFFC
SEARCHED = 0x300  # the usual search limit
MAGIC = 0xDA7ABA5E
VERSION = (3, 201, 12)
MARKER = b"SAP SE, Copyright (c)2015 17.0.4."

SPECIES = ["Turdus merula", "Sylvia atricapilla", "Erithacus rubecula", "Luscinia megarhynchos", "Parus major", "Fringilla coelebs",
           "Phylloscopus collybita", "Troglodytes troglodytes", "Strix aluco", "Alauda arvensis"]


@dataclass(frozen=True)
class Made:
    """A page, and what a strict reading with its block's anchors answers; `None` where the answer has no such value."""

    stored: bytes
    outcome: str
    answer: int
    source: str | None = None
    confidence: str | None = None
    bv: int | None = None
    rows: tuple = ()  # (offset, bytes), ascending
    row_answer: int | None = None  # of the slot directory; None where the page was not decoded

    @property
    def row_count(self):
        return self.stored[ROWS_BYTE]

    @property
    def type_byte(self):
        return self.stored[TYPE_BYTE]


# --- a stored page

def sealed(page):
    """The page with the CRC that its other bytes ask for."""
    return bytes(page[:CRC_AT]) + struct.pack("<I", zlib.crc32(page[:CRC_AT]))


def stored(number, data, bv, steps, rows=0, kind="E", lsn=0):
    page = bytearray(PAGE)
    for at in range(DATA):
        sector, index = divmod(at, SECTOR)
        offset = number + sector - 4 * (number % BLOCK // 2)
        page[at] = (data[at] + offset + index * steps[sector] + bv) % 256
    page[ROWS_BYTE] = rows
    page[TYPE_BYTE] = ord(kind)
    struct.pack_into("<I", page, 0xFF4, lsn)
    return sealed(page)


def superblock(pages, lsn=1000, flags=0x49, magic=MAGIC):
    page = bytearray(PAGE)
    page[6] = flags
    struct.pack_into("<I", page, 8, lsn)
    struct.pack_into("<IIHHI", page, 0x10, VERSION[0], magic, *VERSION[1:], pages)
    page[0x200:0x200 + len(MARKER)] = MARKER
    page[TYPE_BYTE] = ord("H")
    return Made(sealed(page), "superblock", 0)


# --- plain data

def recording(rng, number):
    day = f"19{rng.randrange(70, 100)}-{rng.randrange(3, 8):02}-{rng.randrange(1, 29):02}"
    return f"recording {number} {rng.choice(SPECIES)} {day} {rng.randrange(3, 22):02}:{rng.randrange(60):02}".encode()


def laid(rows, at=0x40, gap=4, declared=None):
    """Data with these rows at its end and a slot directory, whose count stands at `at` and whose slots come `gap` bytes behind it; and
    where each row lies."""
    data, end, slots = bytearray(DATA), DATA, []
    for row in reversed(rows):
        end -= len(row)
        data[end:end + len(row)] = row
        slots.append(end)
    put_directory(data, at, slots, gap, declared)
    return data, tuple(zip(reversed(slots), rows))


def put_directory(data, at, slots, gap=4, declared=None):
    struct.pack_into("<H", data, at, len(slots) if declared is None else declared)
    struct.pack_into(f"<{len(slots)}H", data, at + gap, *slots)


def noise(rng, zeros=0.4, clean=()):
    """Data whose sectors are not exact, but whose steps are beyond doubt; the sectors of `clean` are zero. Where a slot directory is looked
    for, no two bytes are a row offset."""
    values = [range(0x10, 0x20) if at < SEARCHED else range(1, 256) for at in range(DATA)]
    data = bytearray(0 if rng.random() < zeros else rng.choice(values[at]) for at in range(DATA))
    for sector in clean:
        data[sector * SECTOR:min((sector + 1) * SECTOR, DATA)] = bytes(min(SECTOR, DATA - sector * SECTOR))
    return data


# --- pages, by what must become of them

class Maker:
    """Makes the pages of one file: its own seed, and an LSN that grows with every page."""

    def __init__(self, seed):
        self.rng = random.Random(seed)
        self.lsn = 100
        self.recorded = 0

    def put(self, number, bv, data, rows=0, kind="E"):
        self.lsn += 1
        steps = [self.rng.randrange(256) for _ in range(SECTORS)]
        return stored(number, data, bv, steps, rows, kind, self.lsn)

    def recordings(self, count):
        self.recorded += count
        return [recording(self.rng, n) for n in range(self.recorded - count + 1, self.recorded + 1)]

    def unallocated(self, number, bv):
        return Made(bytes(PAGE), "unallocated", 0, "unallocated", "unallocated", row_answer=0)

    def verified(self, number, bv, rows=None, kind="E", at=0x40, gap=4):
        """The row count stands before a directory: its bv is verified."""
        rows = self.recordings(self.rng.randrange(5, 36)) if rows is None else rows
        data, where = laid(rows, at, gap)
        page = self.put(number, bv, data, len(rows), kind)
        return Made(page, "verified", 0, "trailer row count", "verified", bv, where, 0)

    def calibrated(self, number, bv, kind="A", clean=(2, 3, 6)):
        """No rows; several exact sectors agree."""
        page = self.put(number, bv, noise(self.rng, clean=clean), 0, kind)
        return Made(page, "calibrated", 0, "exact sectors", "calibrated", bv, (), 0)

    def one_vote(self, number, bv, clean=4):
        """One exact sector, for the commonest value: the page is read where an anchor stands by it."""
        page = self.put(number, bv, noise(self.rng, clean=[clean]), 0, "I")
        return Made(page, "corroborated", 0, "corroborated", "corroborated", bv, (), 0)

    def one_vote_alone(self, number, bv):
        """As one_vote, for a block without anchors."""
        return undecided(self.one_vote(number, bv).stored, 6)

    def one_vote_against(self, number, bv, other):
        """As one_vote, with `other` among the commonest values: for a block where `other` is an anchor too."""
        data = noise(self.rng, clean=[4])
        data[0x700:0x780] = bytes([(other - bv) % 256]) * 0x80
        return undecided(self.put(number, bv, data, 0, "I"), 6)

    def no_vote(self, number, bv):
        return undecided(self.put(number, bv, noise(self.rng), 0, "M"), 6)

    def zero_data(self, number, bv):
        """Stored zeros under a trailer: eight exact sectors, and each votes for a value of its own."""
        page = bytearray(PAGE)
        page[TYPE_BYTE] = ord("E")
        return undecided(sealed(page), 5)

    def outvoted(self, number, bv):
        """The row count speaks for bv, the blanks between directory and rows for bv + 0x20."""
        rows = self.recordings(6)
        data, _ = laid(rows)
        end = DATA - sum(len(row) for row in rows)
        data[SECTOR:end] = b" " * (end - SECTOR)
        return undecided(self.put(number, bv, data, len(rows)), 5)

    def in_doubt(self, number, bv):
        """A verified page with a sector that no step fits."""
        data, _ = laid(self.recordings(8))
        data[5 * SECTOR:6 * SECTOR] = self.rng.randbytes(SECTOR)
        return undecided(self.put(number, bv, data, 8), 7)

    def flipped(self, number, bv):
        page = bytearray(self.verified(number, bv).stored)
        page[self.rng.randrange(DATA)] ^= 1 << self.rng.randrange(8)
        return damaged(bytes(page), 3)

    def reserved(self, number, bv):
        page = bytearray(self.verified(number, bv).stored)
        page[self.rng.choice([RESERVED_BYTE, 0xFF8, 0xFFB])] = 7
        return damaged(sealed(page), 4)

    # Decoded, and then the slot directory is refused.

    def unconfirmed(self, number, bv):
        """A directory, and a row count of 0."""
        data, _ = laid(self.recordings(9))
        return self.exact(self.put(number, bv, data, 0), bv, 8)

    def few_rows(self, number, bv):
        """Two rows are too few to confirm a directory."""
        data, _ = laid(self.recordings(2))
        return self.exact(self.put(number, bv, data, 2), bv, 8)

    def no_prelude(self, number, bv):
        return self.exact(self.put(number, bv, noise(self.rng, clean=range(0, 7)), 5), bv, 9)

    def truncated(self, number, bv):
        """Eight slots are declared, the sixth is no row offset."""
        data = bytearray(DATA)
        put_directory(data, 0x40, [0xF00, 0xE00, 0xD00, 0xC00, 0xB00, 0xFFFF], declared=8)
        return self.counted(self.put(number, bv, data, 8), bv, 10)

    def two_preludes(self, number, bv):
        data = bytearray(DATA)
        put_directory(data, 0x40, [0xF00, 0xE00, 0xD00, 0xC00, 0xB00])
        put_directory(data, 0x140, [0xF80, 0xE80, 0xD80, 0xC80, 0xB80])
        return self.counted(self.put(number, bv, data, 5), bv, 11)

    def offset_inside(self, number, bv):
        data = bytearray(DATA)
        put_directory(data, 0x40, [0xF00, 0xE00, 0x4C, 0x48, 0x44])
        return self.counted(self.put(number, bv, data, 5), bv, 12)

    def exact(self, page, bv, row_answer):
        return Made(page, "calibrated", 0, "exact sectors", "calibrated", bv, (), row_answer)

    def counted(self, page, bv, row_answer):
        return Made(page, "verified", 0, "trailer row count", "verified", bv, (), row_answer)


def undecided(page, answer):
    return Made(page, "undecided", answer)


def damaged(page, answer):
    return Made(page, "damaged", answer)


def cut_short(page, length):
    return replace(page, stored=page.stored[:length], outcome="cut short", answer=1, source=None, confidence=None, bv=None, rows=(),
                   row_answer=None)


# --- whole files

def joined(pages):
    return b"".join(page.stored for page in pages)


EACH_KIND = ["verified", "calibrated", "one_vote", "zero_data", "no_vote", "in_doubt", "flipped", "reserved", "unallocated", "unconfirmed",
             "few_rows", "no_prelude", "truncated", "two_preludes", "offset_inside"]
TYPES = "EAMHC@Ieamhci`z\0"


def every_outcome(blocks=20, seed=1987, tail=1000):
    """A file with every outcome of a strict reading, by blocks: a page of each kind; every page type; no anchors; two anchors that
    disagree; nothing but unallocated pages; an anchor from a page that is itself refused for a sector in doubt; then all kinds mixed. A last
    page of `tail` bytes is cut short."""
    make, pages = Maker(seed), []

    def block(kinds, bv):
        first = len(pages)
        pages.extend(getattr(make, kind)(first + k, bv) for k, kind in enumerate(kinds))

    pages.append(superblock(blocks * BLOCK))
    pages.extend(getattr(make, kind)(number, 0x5A) for number, kind in enumerate(EACH_KIND, 1))
    pages.extend(make.verified(BLOCK + k, 0x17, kind=kind) for k, kind in enumerate(TYPES))
    block(["one_vote_alone", "no_vote", "zero_data", "flipped", "reserved"] * 3 + ["unallocated"], 0xC3)
    pages.extend(two_anchors(make, len(pages)))
    block(["unallocated"] * BLOCK, 0)
    block(["in_doubt", "one_vote", "no_vote"] + ["unallocated"] * 13, 0x6E)
    while len(pages) < blocks * BLOCK:
        kinds = make.rng.choices(EACH_KIND + ["outvoted"], k=BLOCK - 1)
        block(["verified"] + kinds, make.rng.randrange(256))
    if tail:
        pages.append(cut_short(make.verified(len(pages), 0x33), tail))
    return pages


def two_anchors(make, first):
    """A block with two values of bv: an anchor that is no candidate does not matter, one that is leaves the page undecided."""
    a, b = 0x20, 0x91
    pages = [make.verified(first, a), make.calibrated(first + 1, b), make.one_vote(first + 2, a), make.one_vote(first + 3, b),
             make.one_vote_against(first + 4, a, b), make.one_vote_against(first + 5, b, a)]
    pages += [make.outvoted(first + 6, a), make.verified(first + 7, b, gap=6), make.calibrated(first + 8, a, clean=(0, 7))]
    return pages + [make.unallocated(first + k, 0) for k in range(9, BLOCK)]
