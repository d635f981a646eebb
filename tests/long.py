# Page files of any length, which cli/bench and cli/growth time.
import random

import made

# Offsets repeat after so many pages, so a file is these again and again.
PERIOD = 256


def repeated(path, page, pages):
    period = b"".join(page(number) for number in range(PERIOD))
    with open(path, "wb") as out:
        for first in range(0, pages, PERIOD):
            out.write(period[: (pages - first) * 4096])


def steps(number):
    return [(37 * number + 29 * sector) % 256 for sector in range(8)]


# All data zero, so that each sector is one value.
def exact(number):
    return made.stored(number, bytes(made.DATA), 0x5A, steps(number))


# No sector exact, and rows all over the page.
def dense(number):
    rng = random.Random(number)
    data, _ = made.laid([made.recording(rng, row) for row in range(60)])
    return made.stored(number, data, 0x5A, steps(number), rows=60)


# Written, so that they are read: holes are not.
def zeros(number):
    return bytes(4096)
