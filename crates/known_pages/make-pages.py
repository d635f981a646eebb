#!/usr/bin/env python3
"""Makes `stdin` and `stdout` of this program: pages, and what a reader of document 01 must find in them.

The CRC-32 is zlib.crc32, numbers are read by struct, the marker is sought by bytes.find, letters are raised by bytes.upper. Nothing here
comes from the reader's own output. Run it in its folder; the files it writes are kept in the repository.
"""
import struct
import zlib

SIZE = 4096
MARKER = b"SAP SE, Copyright (c)2015 17.0.4."
NAMES = {b"E": "extent", b"A": "alloc", b"M": "map", b"H": "header", b"C": "catalog", b"@": "bootstrap", b"I": "index"}
descriptions, expected = [], []


def seeded(seed, length):
    if seed == 0:
        return bytearray(length)
    x, out = seed, bytearray()
    for _ in range(length):
        x = (x * 1664525 + 1013904223) % 2**32
        out.append(x >> 24)
    return out


def kind(b):
    name = NAMES.get(bytes([b]).upper())
    return (name, bytes([b]).upper()[0]) if name else ("other", b)


def integrity(page, data):
    if len(data) != SIZE:
        return f"1 {len(data)}"
    if data == bytes(SIZE):
        return "0"
    (stored,), computed = struct.unpack_from("<I", data, SIZE - 4), zlib.crc32(data[: SIZE - 4])
    if stored != computed:
        return f"3 {page:016x} {stored:08x} {computed:08x}"
    if page != 0 and (data[0xFF3] or any(data[0xFF8:0xFFC])):
        return f"4 {page:016x}"
    return "0"


def trailer(data):
    if len(data) != SIZE:
        return f"1 {len(data)}"
    rows, _, letter, third, lsn, reserved, crc = struct.unpack("<BBBBIII", data[-16:])
    name, back = kind(letter)
    return (
        f"0 rows {rows:02x} type {name} {back:02x} case {int(bytes([letter]).islower())}"
        f" lsn {lsn:08x} crc {crc:08x} reserved {int(third == 0 and reserved == 0)}"
    )


def superblock(data):
    if len(data) != SIZE:
        return f"1 {len(data)}"
    flags = data[6]
    (lsn,) = struct.unpack_from("<I", data, 8)
    major, magic, a, b, hint = struct.unpack_from("<IIHHI", data, 0x10)
    return (
        f"0 flags {flags:02x} variant {flags & ~0x09:02x} lsn {lsn:08x} version {major}.{a}.{b}"
        f" supported {int((major, a, b) == (3, 201, 12))} magic {magic:08x} hint {hint:08x} marker {int(data.find(MARKER) >= 0)}"
    )


def checked(data):
    if len(data) != SIZE:
        return f"1 {len(data)}"
    (magic,) = struct.unpack_from("<I", data, 0x14)
    return "0" if magic == 0xDA7ABA5E else f"13 {magic:08x}"


def known(remark, page, seed, parts, length=SIZE, crc="good"):
    """A page: the bytes of a seed, written over by parts. Its CRC is good, or a number, or None where it is left as it is."""
    data = seeded(seed, length)
    parts = list(parts)
    for at, part in parts:
        data[at : at + len(part)] = part
    if crc is not None:
        value = zlib.crc32(data[: SIZE - 4]) if crc == "good" else crc
        part = (SIZE - 4, struct.pack("<I", value))
        parts.append(part)
        data[part[0] : part[0] + 4] = part[1]
    assert len(data) == length
    data = bytes(data)
    descriptions.append(f"# {remark}\n{page:016x} {length:04x} {seed:08x}" + "".join(f" {at:04x}:{part.hex()}" for at, part in parts))
    expected.append(
        f"# {remark}\ncrc32 {zlib.crc32(data):08x}\nunallocated {int(data == bytes(SIZE))}\nintegrity {integrity(page, data)}\n"
        f"trailer {trailer(data)}\nsuperblock {superblock(data)}\nchecked {checked(data)}"
    )


def flipped(remark, page, seed, parts, bit):
    """A good page of which one bit was turned over since."""
    data = seeded(seed, SIZE)
    for at, part in parts:
        data[at : at + len(part)] = part
    crc = zlib.crc32(data[: SIZE - 4])
    struct.pack_into("<I", data, SIZE - 4, crc)
    at = bit // 8
    known(remark, page, seed, [*parts, (SIZE - 4, struct.pack("<I", crc)), (at, bytes([data[at] ^ (1 << bit % 8)]))], crc=None)


def end(rows=0, letter=0x45, third=0, lsn=0, reserved=0):
    return (0xFF0, struct.pack("<BBBBII", rows, 0, letter, third, lsn, reserved))


def first(flags=0x09, lsn=0x10, major=3, magic=0xDA7ABA5E, a=201, b=12, hint=0x100):
    return (6, struct.pack("<BxIxxxxIIHHI", flags, lsn, major, magic, a, b, hint))


known('ASCII "123456789"', 0, 0, [(0, b"123456789")], length=9, crc=None)
known("no bytes", 1, 0, [], length=0, crc=None)
known("page 1, zero data, type E, good CRC", 1, 0, [end()])
known("all zero, page 1", 1, 0, [], crc=None)
known("all zero, page 0", 0, 0, [], crc=None)
known("all zero but the last byte", 1, 0, [(4095, b"\x80")], crc=None)
known("zero data, type E, stored CRC 0", 1, 0, [end()], crc=0)
known("4,095 zeros", 1, 0, [], length=4095, crc=None)
known("4,097 zeros", 1, 0, [], length=4097, crc=None)
known("page 2, other data, LSN past 65,535", 2, 0x1234, [end(rows=5, lsn=0x0A0B0C0D)])
known("page 2^64 - 1, other data", 2**64 - 1, 0xBEEF, [end(rows=255, letter=0x41, lsn=0xFFFFFFFF)])
for bit, name in ((0, "first"), (8 * 2048 + 3, "a middle"), (8 * 0xFEF + 7, "the last data"), (8 * 0xFFC, "the CRC's first"), (8 * 0xFFF + 7, "the CRC's last")):
    flipped(f"page 7, {name} bit turned over", 7, 0x77, [end(rows=9, lsn=3)], bit)
known("page 1, trailer byte 3 not zero", 1, 0x55, [end(third=1)])
known("page 0, trailer byte 3 not zero", 0, 0x55, [end(third=1)])
for k in range(4):
    known(f"page 1, trailer byte {8 + k} not zero", 1, 0x55, [end(reserved=1 << 8 * k)])
known("page 0, trailer byte 11 not zero", 0, 0x55, [end(reserved=1 << 24)])
known("page 1, trailer byte 1 not zero, which nothing reserves", 1, 0x55, [end(), (0xFF1, b"\xff")])
known("page 1, trailer byte 3 not zero, and a bad CRC", 1, 0x55, [end(third=1)], crc=1)
for letter in (0x65, 0x60, 0x7A, 0x7B, 0x40, 0x61, 0x6D, 0x68, 0x63, 0x69, 0x47, 0x67, 0xC5, 0x00):
    known(f"type byte {letter:02x}", 3, 0x99, [end(letter=letter)])
known("page 0, a superblock with its marker at 0x400", 0, 0x2015, [first(), (0x400, MARKER)])
known("page 0, flags 49", 0, 0x2015, [first(flags=0x49)])
known("page 0, flags ff", 0, 0x2015, [first(flags=0xFF)])
known("page 0, marker at 0, so that the magic is wrong", 0, 0x2015, [(0, MARKER)])
known("page 0, marker across 511 and 512", 0, 0x2015, [first(), (500, MARKER)])
known("page 0, marker from 511 on", 0, 0x2015, [first(), (511, MARKER)])
known("page 0, marker at the very end, so that the CRC is wrong", 0, 0x2015, [first(), (SIZE - 33, MARKER)], crc=None)
known("page 0, marker's last byte wrong", 0, 0x2015, [first(), (0x400, MARKER[:-1] + b",")])
known("page 0, marker's first byte wrong", 0, 0x2015, [first(), (0x400, b"s" + MARKER[1:])])
known("page 0, marker cut off by the end", 0, 0x2015, [first(), (SIZE - 32, MARKER[:32])], crc=None)
known("page 0, a false start before the marker", 0, 0x2015, [first(), (0x3FD, b"SAP" + MARKER)])
known("page 0, magic off by one", 0, 0x2015, [first(magic=0xDA7ABA5F)])
known("page 0, magic the other way round", 0, 0x2015, [first(magic=0x5EBA7ADA)])
known("page 0, version 3.12.201", 0, 0x2015, [first(a=12, b=201)])
known("page 0, LSN and page hint large", 0, 0x2015, [first(lsn=0xFEDCBA98, hint=0x89ABCDEF)])

back = "".join(f"{kind(b)[1]:02x}" for b in range(256))
case = "".join(str(int(bytes([b]).islower())) for b in range(256))
with open("stdin", "w") as file:
    file.write("\n".join(descriptions) + "\n")
with open("stdout", "w") as file:
    file.write("\n".join([back, case, *expected]) + "\n")
