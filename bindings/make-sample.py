#!/usr/bin/env python3
# Makes bindings/sample.pages, four pages for the examples to read: zero data, a slot directory with five recordings, an unallocated page, and
# page 1 again as page 3, with one byte of it damaged. Stored as document 01 says: each sector shifted by its offset, its step and bv.
import struct
import zlib

BV = 0x5A
STEPS = [3, 250, 17, 128, 0, 91, 7, 200]
ROWS = [b"1 Turdus merula, dawn", b"2 Sylvia atricapilla", b"3 Erithacus rubecula", b"4 Luscinia megarhynchos", b"5 Turdus merula, dusk"]


def stored(number, data, rows):
    page = bytearray(4096)
    for at in range(4080):
        sector, index = divmod(at, 512)
        offset = number + sector - 4 * (number % 16 // 2)
        page[at] = (data[at] + offset + index * STEPS[sector] + BV) % 256
    page[0xFF0] = rows
    page[0xFF2] = ord("E")
    page[0xFFC:] = struct.pack("<I", zlib.crc32(page[:0xFFC]))
    return page


def recordings():
    data = bytearray(4080)
    slots, end = [], 4080
    for row in reversed(ROWS):
        end -= len(row)
        data[end : end + len(row)] = row
        slots.append(end)
    struct.pack_into("<H", data, 0x40, len(slots))
    struct.pack_into("<%dH" % len(slots), data, 0x44, *slots)
    return data


def main():
    damaged = stored(3, recordings(), len(ROWS))
    damaged[100] ^= 1
    pages = [stored(0, bytes(4080), 0), stored(1, recordings(), len(ROWS)), bytes(4096), damaged]
    with open("bindings/sample.pages", "wb") as out:
        out.write(b"".join(bytes(p) for p in pages))


main()
