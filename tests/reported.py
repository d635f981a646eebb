"""What the proved program `report` answers to each page of a file, with the anchors of its block: the program under test must say the same."""
import os
import subprocess
from dataclasses import dataclass
from pathlib import Path

from made import BLOCK, PAGE

REPORT = Path(os.environ.get("LUMEVIQO_REPORT", Path(__file__).resolve().parent.parent / "target/bin/report"))
KEYSTREAM, DIRECTORY, INTEGRITY = 1, 2, 4
SOURCES = [None, "trailer row count", "exact sectors", "histogram", "supplied", "corroborated", "unallocated"]
CONFIDENCES = [None, "unallocated", "unverified", "corroborated", "calibrated", "verified"]
GIVES_ANCHOR = ("trailer row count", "exact sectors")


@dataclass(frozen=True)
class Reported:
    answer: int
    source: str | None = None
    confidence: str | None = None
    bv: int | None = None
    warnings: int = 0


def frame(number, stored, leniency, min_count, limit, anchors):
    head = number.to_bytes(8, "big") + bytes([leniency, min_count]) + limit.to_bytes(2, "big") + bytes([len(anchors)])
    return (head + bytes(anchors) + stored).hex()


def taken_apart(line):
    answer = bytes.fromhex(line)
    if answer[0] != 0:
        return Reported(answer[0])
    source = SOURCES[answer[9]]
    return Reported(0, source, CONFIDENCES[answer[10]], None if source == "unallocated" else answer[11], answer[-1])


def run(frames):
    lines = subprocess.run([REPORT], input="".join(f + "\n" for f in frames), capture_output=True, text=True, check=True).stdout
    return [taken_apart(line) for line in lines.splitlines()]


def reported(data, leniency=0, min_count=4, limit=768, first=0):
    """By page number, for whole pages; `first` is the number of the first page of `data`."""
    pages = {first + k: data[k * PAGE:(k + 1) * PAGE] for k in range(len(data) // PAGE)}
    alone = run(frame(n, page, KEYSTREAM, min_count, limit, b"") for n, page in pages.items())
    own = {n: answer.bv for n, answer in zip(pages, alone) if n != 0 and answer.source in GIVES_ANCHOR}

    def anchors(number):
        start = number // BLOCK * BLOCK
        return sorted({own[n] for n in range(start, start + BLOCK) if n != number and n in own})

    answers = run(frame(n, page, leniency, min_count, limit, anchors(n)) for n, page in pages.items())
    return dict(zip(pages, answers))
