#!/usr/bin/env python3
"""make-stdout.py > stdout: the lines that `known_sectors` must print. Every step is tried and counted, as document 01 has it."""
from collections import Counter

OFFSET, FIRST, LEFT = 200, 17, 165
PLACES = [2, 3, 63, 64, 65, 127, 128, 495, 510, 511]


def sector(n, step, raised):
    return [(FIRST + i * step + (i in raised)) % 256 for i in range(n)]


def shifted(data, step):
    return [(b - OFFSET - i * step) % 256 for i, b in enumerate(data)]


def scanned(data):
    if len(data) > 512:
        return [0] * 5, [LEFT] * len(data)
    counts = [max(Counter(shifted(data, step)).values(), default=0) for step in range(256)]
    peak, runner_up = sorted(counts, reverse=True)[:2]
    step = counts.index(peak)
    out = shifted(data, step)
    return [step, peak, runner_up, int(len(set(out)) <= 1), counts.count(peak)], out


def total(out):
    total = 0
    for b in out:
        total = (31 * total + b) % 65521
    return total


def tell(head, fit, out):
    print("", *head, end=":")
    print("", *fit, total(out), "same")


for n in [0, 1, 2, 3, 5, 63, 64, 65, 495, 496, 511, 512, 513]:
    for step in [0, 1, 127, 128, 129, 255]:
        broken = [(at, at + 1) for at in PLACES if at < n]
        left = [(at, n) for at in [3, 64, 128] if at < n]
        for start, end in [(n, n)] + broken + left:
            tell([n, step, start, end], *scanned(sector(n, step, range(start, end))))
tell(["other", "room"], [0] * 5, [LEFT] * 513)
