#!/usr/bin/env python3
"""Writes `stdin` and `stdout` of `report`, `report_empty` and `report_blocks`: lines for the program, and what document 01 answers to them.

The answers come from the model below, which follows document 01 sentence by sentence, with document 02's #106 and #109, and shares nothing
with the crates. It is slow and plain: 256 histograms for each sector. CRC-32 is zlib's.
"""
import os
import random
import zlib

PAGE, DATA, TRAILER = 4096, 4080, 0xFF0
KEYSTREAM, INTEGRITY = 1, 4


# "Offsets, steps, fits"
def offset(page, sector):
    return (page + sector - 4 * (page % 16 // 2)) % 256


def shift(part, off, step):
    return [(b - off - i * step) % 256 for i, b in enumerate(part)]


def modal(values):
    counts = [0] * 256
    for v in values:
        counts[v] += 1
    return max(counts)


def scan(page, stored):
    fits, shifted = [], []
    for s in range(8):
        part, off = stored[s * 512:min(s * 512 + 512, DATA)], offset(page, s)
        counts = [modal(shift(part, off, k)) for k in range(256)]
        peak = max(counts)
        step = counts.index(peak)
        values = shift(part, off, step)
        fits.append((step, peak, sorted(counts)[-2], len(set(values)) == 1, counts.count(peak)))
        shifted.append(values)
    return fits, shifted


# "Slots and rows"
def pair(data, at):
    return data[at] | data[at + 1] << 8


def directory(data, limit):
    best = None
    for start in range(limit):
        pos = start
        if pos + 3 < limit and pair(data, pos) == 0 and 0x20 <= pair(data, pos + 2) < 0xFF0:
            pos += 2
        array, slots, last = pos, [], 0xFF0
        while pos + 1 < limit:
            v = pair(data, pos)
            if 0x20 <= v < 0xFF0 and v < last:
                last = v
            elif not (v == 0 and slots):
                break
            slots.append(v)
            pos += 2
        while slots and slots[-1] == 0:
            slots.pop()
        live = len([v for v in slots if v])
        if live >= 4 and (best is None or (live, len(slots)) > best[:2]):
            best = (live, len(slots), array)
    return best


def row_count_matches(data, count, t, limit):
    found = directory(data, limit)
    if found is None or count < t:
        return False
    return any(found[2] >= back + 2 and data[found[2] - back] == count and data[found[2] - back + 1] == 0 for back in (6, 4))


# "Choosing bv": counts, votes, top and candidates
def assess(shifted):
    values = [v for part in shifted for v in part]
    counts = [values.count(v) for v in range(256)]
    votes = [0] * 256
    for part in shifted:
        if len(set(part)) == 1:
            votes[part[0]] += 1
    ranked = sorted((v for v in range(256) if counts[v]), key=lambda v: (-counts[v], v))
    return counts, votes, ranked[0], sorted(set(ranked[:4]) | {v for v in range(256) if votes[v]})


# an answer, or what was chosen with the number of warnings
def choose(shifted, anchors, count, t, limit, lenient):
    values = [v for part in shifted for v in part]
    counts, votes, top, candidates = assess(shifted)
    verified = {v for v in candidates if count != 0 and row_count_matches([(x - v) % 256 for x in values], count, t, limit)}
    anchored = {v for v in candidates if v in anchors}

    def ambiguous(group):
        if not lenient:
            return 5
        return 3, 2, min(group, key=lambda v: (-votes[v], v not in verified, v not in anchored, -counts[v], v)), 1

    if len(verified) >= 2:
        return ambiguous(verified)
    if verified:
        one, = verified
        rivals = {v for v in candidates if v != one and (votes[v] >= 2 or v in anchored and v == top)}
        return ambiguous(rivals | {one}) if rivals else (1, 5, one, 0)
    voted = [v for v in candidates if votes[v]]
    if len(voted) >= 2:
        return ambiguous(voted)
    if voted and votes[voted[0]] >= 2:
        return 2, 4, voted[0], 0
    if sum(votes) == 1 and votes[top] == 1 and top in anchored and not any(v != top and (votes[v] or v in anchored) for v in candidates):
        return 5, 3, top, 0
    return (3, 2, top, 1) if lenient else 6


# "Decoding order": a refusal's number, or source, confidence, bv, fits, warnings
def decode(page, stored, anchors, options, t, limit):
    if not 8 <= limit <= 2048:
        return 20
    if not any(stored):
        return 6, 1, 0, [(0, 0, 0, True, 0)] * 8, 0
    warnings = 0
    trailer = stored[TRAILER:]
    bad_crc = int.from_bytes(trailer[12:], "little") != zlib.crc32(bytes(stored[:4092]))
    bad_trailer = page != 0 and (trailer[3] or any(trailer[8:12]))
    if bad_crc or bad_trailer:
        if not options & INTEGRITY:
            return 3 if bad_crc else 4
        warnings += 1
    fits, shifted = scan(page, stored)
    chosen = choose(shifted, anchors, trailer[0], t, limit, options & KEYSTREAM)
    if isinstance(chosen, int):
        return chosen
    weak = [f for f in fits if not (f[3] or f[1] >= 24 and f[1] >= f[2] + 12)]
    if weak and not options & KEYSTREAM:
        return 7
    return chosen[0], chosen[1], chosen[2], fits, warnings + chosen[3] + len(weak)


# "The program"
def report(line):
    if len(line) < 26 or any(c not in b"0123456789abcdefABCDEF" for c in line):
        return "11"
    n = int(line[24:26], 16)
    if len(line) != 2 * (13 + n + PAGE):
        return "11"
    frame = bytes.fromhex(line.decode())
    page = int.from_bytes(frame[:8], "big")
    limit = int.from_bytes(frame[10:12], "big")
    answer = decode(page, frame[13 + n:], frame[13:13 + n], frame[8], frame[9], limit)
    if isinstance(answer, int):
        return f"{answer:02x}{page:016x}"
    source, confidence, bv, fits, warnings = answer
    sectors = "".join(f"{step:02x}{peak:04x}{runner_up:04x}{exact:02x}{tied:04x}" for step, peak, runner_up, exact, tied in fits)
    return f"00{page:016x}{source:02x}{confidence:02x}{bv:02x}{sectors}{warnings:02x}"


# The lines
def sealed(data, trailer=(0, 0, 0x45, 0, 1, 2, 3, 4, 0, 0, 0, 0)):
    body = bytes(data) + bytes(trailer)
    return body + zlib.crc32(body).to_bytes(4, "little")


def hidden(page, plain, bv, steps):
    return [(plain[i] + offset(page, i // 512) + i % 512 * steps[i // 512] + bv) % 256 for i in range(DATA)]


def frame(page, stored, options=0, t=4, anchors=b"", limit=768):
    head = page.to_bytes(8, "big") + bytes([options, t]) + limit.to_bytes(2, "big") + bytes([len(anchors)])
    return (head + bytes(anchors) + bytes(stored)).hex().encode()


def rows(count=5, at=0x40):
    plain = [0] * DATA
    plain[at:at + 2] = count, 0
    for i, v in enumerate((0xF00, 0xE00, 0xD00, 0xC80, 0xC00)):
        plain[at + 4 + 2 * i:at + 6 + 2 * i] = v & 255, v >> 8
    return plain


def lines():
    rng = random.Random(7)
    zero, steps = [0] * DATA, [3, 200, 0, 255, 17, 90, 128, 1]
    noise = [0 if rng.random() < 0.4 else rng.randrange(256) for _ in range(DATA)]
    one = [0] * 512 + [0 if rng.random() < 0.4 else rng.randrange(1, 256) for _ in range(DATA - 512)]
    full = [rng.randrange(256) for _ in range(DATA)]
    all_tie = [i * (i + 1) // 2 % 256 for i in range(512)]
    ties = all_tie + [0] * 1280 + list(range(256)) + [0] * 1536 + all_tie[:496]      # all 256 steps in sectors 0 and 7, two in sector 3
    last = 2 ** 64 - 1
    example, ambiguous = frame(5, bytes(PAGE)), frame(1, sealed(zero))
    yield example                                                        # document 01's example line
    yield ambiguous                                                      # its page 1: zero data, type 0x45, good CRC
    yield ambiguous.upper()
    yield frame(1, sealed(zero), KEYSTREAM)
    yield frame(1, sealed(zero), 0xFA)                                   # other option bits mean nothing
    yield frame(77, sealed(hidden(77, zero, 0x5A, steps)))               # eight exact sectors that agree
    yield frame(last, sealed(hidden(last, rows(), 0xC3, steps), (5, 0, 0x45, 0) + 8 * (0,)))   # a row count that matches
    yield frame(9, sealed(hidden(9, rows(), 0xC3, steps), (5, 0, 0x65, 0) + 8 * (0,)), 0, 6)   # and one below T
    yield frame(10, sealed(hidden(10, rows(0), 0xC3, steps)), 0, 0)      # row count 0, before the slots too, at T 0: no candidate is verified
    yield frame(300, sealed(hidden(300, noise, 0xE1, steps)), 0, 4, b"\x01\xe1")               # no vote: unverified
    yield frame(300, sealed(hidden(300, noise, 0xE1, steps)), KEYSTREAM, 4, b"\x01\xe1")
    yield frame(42, sealed(hidden(42, one, 0x17, steps)), 0, 4, b"\x17")                       # one vote, anchored: corroborated
    yield frame(42, sealed(hidden(42, one, 0x17, steps)), 0, 4, bytes(range(255)))             # 255 anchors: others stand against it
    strangers = set(range(256)) - set(assess(scan(42, hidden(42, one, 0x17, steps))[1])[3])
    yield frame(42, sealed(hidden(42, one, 0x17, steps)), 0, 4, bytes(strangers | {0x17}))     # anchors that are no candidates never matter
    yield frame(6, sealed(full), KEYSTREAM)                              # eight sectors in doubt
    yield frame(8, sealed(hidden(8, zero, 1, steps))[:-1] + b"\x00")     # a bad CRC
    yield frame(8, sealed(hidden(8, zero, 1, steps), (0, 0, 0x45, 9) + 8 * (0,)))              # a bad trailer
    yield frame(8, sealed(hidden(8, zero, 1, steps), (0, 0, 0x45, 9) + 8 * (0,)), INTEGRITY)
    yield frame(0, sealed(hidden(0, zero, 1, steps), (0, 0, 0x45, 9) + 8 * (0,)))              # page 0 has no trailer test
    yield b""                                                            # an empty line
    yield b"0"
    yield b"11"
    yield example[:-1]                                                   # odd
    yield example[:-2]                                                   # a byte short
    yield example + b"0"
    yield example + b"00"                                                # an anchor that n does not count
    yield example[:25] + b"1" + example[26:]                             # an anchor counted that is not there
    yield example[:100] + b"g" + example[101:]                           # no digit
    yield example[:100] + b"\x00" + example[101:]
    yield example[:-1] + b"\xff"
    yield example + b"\r"
    yield b" " + example
    yield b"0x" + example
    yield example[:24] + b"ff" + b"0" * (8729 - 26)                      # one character more than the longest frame
    yield b"0" * 70000                                                   # more than a block
    yield frame(123456789, bytes(PAGE), 0, 4, bytes(255))                # the longest frame
    yield frame(9, sealed(ties), KEYSTREAM)                              # steps that tie
    yield frame(last, sealed(hidden(last, ties, 0x33, steps)), KEYSTREAM)                      # 255 and 0 tie in sector 3
    yield frame(last, sealed(hidden(last, ties, 0x33, steps)))           # strictly sector 0 is in doubt
    past = sealed(hidden(9, rows(5, 0x300), 0xC3, steps), (5, 0, 0x45, 0) + 8 * (0,))          # slots from 0x304 to 0x30E
    for limit in (768, 0x30B, 0x30C, 2048):                              # four live slots are enough: they end at 0x30C
        yield frame(9, past, 0, 4, b"", limit)
    yield frame(9, past, 0, 4, b"", 8)                                   # the least limit: nothing is found in eight bytes
    yield frame(9, past, 0, 4, b"", 2049)                                # no limit: 20, before a right page, zeros, a bad CRC
    yield frame(5, bytes(PAGE), 0, 4, b"", 7)
    yield frame(8, sealed(hidden(8, zero, 1, steps))[:-1] + b"\x00", INTEGRITY, 4, bytes(255), 0xFFFF)
    yield frame(last, bytes(PAGE), 0, 4, b"", 0)
    yield frame(2, sealed(hidden(2, zero, 0xFF, steps))).upper()         # and a last line with no newline


def many():
    """Answers that no buffer of 65,536 characters holds, so that it is written in the middle of a block; then frames, one over the block's edge."""
    for _ in range(22000):
        yield b""
    for page in range(8):
        yield frame(page, bytes(PAGE))


def write(crate, data, given):
    here = os.path.join(os.path.dirname(os.path.abspath(__file__)), "..", crate)
    with open(os.path.join(here, "stdin"), "wb") as file:
        file.write(data)
    with open(os.path.join(here, "stdout"), "w") as file:
        known = {}
        file.write("".join(known.setdefault(line, report(line)) + "\n" for line in given))


def main():
    given = list(lines())
    write("report", b"\n".join(given), given)
    write("report_empty", b"", [])
    given = list(many())
    write("report_blocks", b"".join(line + b"\n" for line in given), given)


if __name__ == "__main__":
    main()
