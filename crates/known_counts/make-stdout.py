#!/usr/bin/env python3
"""make-stdout.py > stdout: the lines that `known_counts` must print, in a minute. Every step is tried and counted, as document 01 has it."""
from collections import Counter

PAGE = 1000003
OFF, ANOTHER, EITHER, TRIANGULAR, RANDOM = "", ", others on another", ", others on it or above", ", others triangular", ", others random"
PRODUCTS = [[i * step % 256 for i in range(512)] for step in range(256)]


def random_bytes(seed):
    state = seed
    while True:
        state = state * 16807 % 2147483647
        yield state // 256 % 256


def order(n, second, k):
    """The places of sector k, as they come to lie on the line."""
    if second:
        return [(at - k // 8) % n for at in [*range(0, n, 2), *range(1, n, 2)]]
    return [(at - k) % n for at in range(n)]


def sector(n, on, second, rest, k):
    random = random_bytes(k + 1)
    first, other_first, other_step = next(random), next(random), next(random)
    line = [first + i * 89 * k for i in range(n)]
    others = {
        OFF: lambda i, r: line[i] + r % 127 + 1,
        ANOTHER: lambda i, r: other_first + i * other_step,
        EITHER: lambda i, r: line[i] + r % 2,
        TRIANGULAR: lambda i, r: line[i] + i * (i + 1) // 2,
        RANDOM: lambda i, r: r,
    }
    data = [others[rest](i, r) for i, r in zip(range(n), random)]
    for i in order(n, second, k)[:on]:
        data[i] = line[i]
    return [b % 256 for b in data]


def shifted(data, offset, step):
    return [(b - offset - p) % 256 for b, p in zip(data, PRODUCTS[step])]


def scanned(data, offset):
    counts = [max(Counter(shifted(data, offset, step)).values(), default=0) for step in range(256)]
    peak, runner_up = sorted(counts, reverse=True)[:2]
    step = counts.index(peak)
    out = shifted(data, offset, step)
    return [step, peak, runner_up, int(len(set(out)) <= 1), counts.count(peak)], out


def total(numbers):
    total = 0
    for x in numbers:
        total = (31 * total + x) % 4294967291
    return total


def tell(words, sectors):
    numbers, peaks, runners_up = [], [], []
    for k, data in enumerate(sectors):
        fit, out = scanned(data, PAGE + k % 8 - 4 * (PAGE % 16 // 2))
        numbers += fit + out
        peaks.append(fit[1])
        runners_up.append(fit[2])
    print(f"{words}: {len(peaks)} sectors, peaks {min(peaks)} to {max(peaks)}, ", end="")
    print(f"runners-up {min(runners_up)} to {max(runners_up)}, sum {total(numbers)}, all same", flush=True)


def family(n, on, second, rest, count, words):
    tell(f"{n} bytes, {on} on a line{words}", (sector(n, on, second, rest, k) for k in range(count)))


for n in [512, 496]:
    for on in [248, 254, 255, 256, 257]:
        for rest in [OFF, ANOTHER]:
            family(n, on, False, rest, 64, rest)
            family(n, on, True, rest, 64, ", every second one" + rest)
    family(n, n - 1, False, OFF, n, OFF)
    family(n, 256, True, RANDOM, 64, ", every second one" + RANDOM)
    for rest in [EITHER, TRIANGULAR, RANDOM]:
        family(n, 0, False, rest, 64, rest)
tell("512 bytes, 0 on a line, others random, of each length up to this", (sector(n, 0, False, RANDOM, n) for n in range(513)))
