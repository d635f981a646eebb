"""Runs the program as a real process, and makes the files that it is run on."""
import csv
import io
import json
import os
import shutil
import signal
import subprocess
import tempfile
import unittest
from dataclasses import dataclass
from functools import cache
from pathlib import Path

import made
import maps

ROOT = Path(__file__).resolve().parent.parent
PROGRAM = Path(os.environ.get("LUMEVIQO_PROGRAM", ROOT / "cli/target/release/lumeviqo"))
SAMPLES = ROOT / "samples"
LONGEST = 60  # seconds that any one run may take
# What the program goes by, whoever runs the tests.
ENVIRONMENT = {name: value for name, value in os.environ.items() if name not in ("NO_COLOR", "RUST_BACKTRACE")} | {"TERM": "xterm-256color"}
# A job that a shell puts in the background ignores Ctrl-C, and so would the program.
signal.signal(signal.SIGINT, signal.default_int_handler)

EXISTS = "it is there already, and nothing is written over: choose another name, or remove it first"
PART_EXISTS = "it is there already, from a run that was cut off or still goes on: remove it if it is not needed"


@dataclass(frozen=True)
class Run:
    status: int
    out: bytes
    err: str

    @property
    def text(self):
        return self.out.decode()

    @property
    def lines(self):
        return self.text.splitlines()

    def csv(self):
        return list(csv.DictReader(io.StringIO(self.text)))

    def json(self):
        """The objects of a run that prints one a line."""
        return [json.loads(line) for line in self.lines]


def run(*words, **how):
    """Runs `lumeviqo WORDS`. Standard input is empty."""
    how = {"stdin": subprocess.DEVNULL, "stdout": subprocess.PIPE, "stderr": subprocess.PIPE, "timeout": LONGEST, "env": ENVIRONMENT} | how
    done = subprocess.run([PROGRAM, *map(str, words)], **how)
    return Run(done.returncode, done.stdout or b"", (done.stderr or b"").decode())


@cache
def every_outcome():
    return made.every_outcome()


@cache
def whole_outcomes():
    """A file that is read without a refusal: verified, calibrated, corroborated and unallocated pages, two blocks with a bv each."""
    make = made.Maker(seed=7)
    kinds = ["verified", "calibrated", "one_vote", "unallocated"] * 8
    pages = [getattr(make, kind)(number, 0x11 + 0x80 * (number // made.BLOCK)) for number, kind in enumerate(kinds)]
    return [made.superblock(len(pages)), *pages[1:]]


class ProgramTest(unittest.TestCase):
    """A test with a folder of its own, which is gone afterwards."""

    maxDiff = None

    def setUp(self):
        self.folder = Path(tempfile.mkdtemp(prefix="lumeviqo-test-"))
        self.addCleanup(shutil.rmtree, self.folder, ignore_errors=True)

    def file(self, name, content):
        """A file of bytes, of text, or of made pages."""
        path = self.folder / name
        if isinstance(content, list):
            content = made.joined(content)
        path.write_bytes(content.encode() if isinstance(content, str) else content)
        return path

    def map(self, name, size, bad, status="-"):
        return self.file(name, maps.text(maps.unread(size, bad, status)))

    def left(self):
        """The names in the test's folder."""
        return sorted(path.name for path in self.folder.iterdir())

    def refused(self, ran, message, status=2):
        """The run did nothing: one line on standard error, none on standard output."""
        self.assertEqual((ran.status, ran.err, ran.out), (status, f"lumeviqo: {message}\n", b""))


def lost(data, bad):
    """What a rescue brings back of `data` if the sectors `bad` ({page: [sector, ..]}) could not be read: zeros stand there."""
    image = bytearray(data)
    for page, sectors in bad.items():
        for sector in sectors:
            at = page * made.PAGE + sector * made.SECTOR
            image[at:at + made.SECTOR] = bytes(len(image[at:at + made.SECTOR]))
    return bytes(image)


def ddrescue(folder, source, name, bad, *words):
    """Rescues `source` with the real ddrescue, which can't read the sectors `bad`; the paths of image and map."""
    (folder / f"{name}.bad").write_text(maps.text(maps.unread(source.stat().st_size, bad)))
    image, written = folder / f"{name}.img", folder / f"{name}.map"
    subprocess.run(["ddrescue", "-q", *words, "-H", folder / f"{name}.bad", source, image, written], check=True)
    return image, written
