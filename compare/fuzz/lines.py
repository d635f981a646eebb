#!/usr/bin/env python3
"""Feeds `report` lines that nobody meant, and stops it and its neighbours mid-line, to see that each line still has its one right answer.

lines.py REPORT SECONDS SEED: the program, how long, and what the lines are made from. Its last line says how much was run.
"""
import collections
import os
import random
import re
import signal
import subprocess
import sys
import time
import zlib

PAGE, DATA, HEAD = 4096, 4080, 13
SHORTEST, LONGEST = 2 * (HEAD + PAGE), 2 * (HEAD + PAGE + 255)
INTEGRITY = 4
LIMIT, LEAST_LIMIT, GREATEST_LIMIT = 768, 8, 2048
FRAME = re.compile(rb"[0-9a-fA-F]{%d,%d}\Z" % (SHORTEST, LONGEST))
FIT = rb"[0-9a-f]{2}0[0-2][0-9a-f]{2}0[0-2][0-9a-f]{2}0[01]0[01][0-9a-f]{2}"
ACCEPTED = re.compile(rb"00[0-9a-f]{16}0[1-6]0[1-5][0-9a-f]{2}(" + FIT + rb"){8}0[0-9a]\Z")
UNALLOCATED = b"060100" + b"0000000000010000" * 8 + b"00"
STEPS, FITS, FIT_DIGITS = 256, 24, 16


class Found(Exception):
    """Something that must hold does not: what, and the input that shows it."""


def must(holds, what, given=b""):
    if not holds:
        raise Found(what, given)


# What a line must be answered with, as far as it can be told without a scan

def frame_of(line):
    """The frame's bytes, or None where the line is no frame."""
    if not FRAME.match(line) or len(line) != SHORTEST + 2 * int(line[2 * HEAD - 2:2 * HEAD], 16):
        return None
    return bytes.fromhex(line.decode())


def limit_of(frame):
    return int.from_bytes(frame[10:12], "big")


def refused_by_integrity(frame):
    """3, 4, or None."""
    stored = frame[-PAGE:]
    if frame[8] & INTEGRITY or not any(stored):
        return None
    if int.from_bytes(stored[-4:], "little") != zlib.crc32(stored[:-4]):
        return 3
    bad = stored[DATA + 3] or any(stored[DATA + 8:DATA + 12])
    return 4 if bad and any(frame[:8]) else None


def check_answer(line, answer, tally):
    frame = frame_of(line)
    tally[answer[:2].decode()] += 1
    if frame is None:
        must(answer == b"11", "a line that is no frame is answered 11", line)
        return
    must(answer[2:18] == frame[:8].hex().encode(), "the answer has the frame's page number", line)
    integrity = refused_by_integrity(frame)
    if not LEAST_LIMIT <= limit_of(frame) <= GREATEST_LIMIT:
        must(answer[:2] + answer[18:] == b"14", "a limit out of range is refused, before all else", line)
    elif not any(frame[-PAGE:]):
        must(answer[:2] + answer[18:] == b"00" + UNALLOCATED, "a page of zeros is unallocated", line)
    elif integrity:
        must(len(answer) == 18 and int(answer[:2], 16) == integrity, "bad CRC and trailer are refused", line)
    elif len(answer) == 18:
        must(answer[:2] in (b"05", b"06", b"07"), "a refusal is one of a decoding's", line)
    else:
        must(ACCEPTED.match(answer), "a report is well-formed", line)
        for s in range(8):
            check_scanned_fit(answer[FITS + FIT_DIGITS * s:][:FIT_DIGITS], line)


def check_scanned_fit(fit, line):
    peak, runner_up, tied = (int(fit[at:at + 4], 16) for at in (2, 6, 12))
    must(1 <= tied <= STEPS, "in a scanned sector 1 to 256 steps tie", line)
    must((tied > 1) == (runner_up == peak), "steps tie where the runner-up reaches the peak", line)


# Lines

def sealed(page):
    return page[:-4] + zlib.crc32(page[:-4]).to_bytes(4, "little")


def sector_of(rng, n):
    """Plaintext: most often zeros, else zeros and some bytes, one other value, random, or one in which all steps tie."""
    kind = rng.randrange(16)
    if kind == 0:
        return bytearray(rng.randbytes(n))
    if kind == 5:
        return bytearray(i * (i + 1) // 2 % 256 for i in range(n))
    plain = bytearray([rng.randrange(256) if kind == 1 else 0]) * n
    for _ in range(rng.randrange(200) if 1 < kind < 5 else 0):
        plain[rng.randrange(n)] = rng.randrange(256)
    return plain


def data_of(rng, number, rows):
    """Sectors hidden by steps and a bv, one of those that a limit can come to with a directory of so many rows."""
    bv, data, has_rows = rng.randrange(256), bytearray(), rng.choice((0, 0, 0, 1, 2, 3))
    for s in range(8):
        plain, step = sector_of(rng, min(512, DATA - 512 * s)), rng.randrange(256)
        if s == has_rows and rows:
            plain[0x40:0x44 + 2 * rows] = bytes([rows, 0, 0, 0]) + b"".join((0xF00 - 20 * k).to_bytes(2, "little") for k in range(rows))
        shift = number + s - 4 * (number % 16 // 2) + bv
        data += bytes((b + shift + i * step) % 256 for i, b in enumerate(plain))
    return data


def stored_page(rng, number):
    kind, rows = rng.randrange(8), rng.choice((0, 0, rng.randrange(100)))
    if kind == 0:
        return bytes(PAGE)
    if kind == 1:
        return rng.randbytes(PAGE)
    page = data_of(rng, number, rows) + bytes([rows, 0, 0x45, rng.random() < 0.05]) + rng.randbytes(4) + bytes(8)
    for _ in range(rng.randrange(4) if kind == 2 else 0):
        page[rng.randrange(PAGE)] = rng.randrange(256)
    return bytes(page) if kind == 3 else sealed(bytes(page))


def some_limit(rng):
    """Most often the usual one, else one at or near an end of the range, any in it, or any that two bytes can say."""
    near = rng.choice((0, 3, 7, 8, 9, 10, 767, 769, 1024, 2047, 2048, 2049, 65535))
    return rng.choice((LIMIT, LIMIT, LIMIT, near, rng.randrange(LEAST_LIMIT, GREATEST_LIMIT + 1), rng.randrange(65536)))


def frame_line(rng):
    number = rng.choice((0, 5, 2 ** 64 - 1, rng.randrange(600), rng.randrange(2 ** 64)))
    anchors = rng.randbytes(rng.choice((0, 0, 1, 3, 255)))
    options = bytes([rng.choice((0, 1, 4, 5, 7, rng.randrange(256))), rng.choice((4, rng.randrange(256)))])
    head = number.to_bytes(8, "big") + options + some_limit(rng).to_bytes(2, "big") + bytes([len(anchors)])
    line = (head + anchors + stored_page(rng, number)).hex().encode()
    return line.upper() if rng.random() < 0.1 else line


def spoiled(rng, line):
    """The line with something wrong, or at least strange, in one place."""
    at, kind = rng.randrange(len(line) + 1), rng.randrange(9)
    return [
        lambda: line[:at],
        lambda: line[at:],
        lambda: line[:at] + b"\0" + line[at:],
        lambda: line[:at] + b"\0" + line[at + 1:],
        lambda: line[:at] + bytes([rng.randrange(256)]) + line[at + 1:],
        lambda: line + b"\r",
        lambda: line + rng.choice((b"0", b"00", b" ", b"\0")),
        lambda: line[:at] + b"\n" + line[at:],
        lambda: line[:at] + b"\r\n" + line[at:],
    ][kind]()


def long_line(rng):
    n = rng.choice((LONGEST + 1, 65535, 65536, 65537, 131072, 3_000_000, 9_000_000))
    return rng.choice((b"0", b"\0", b"f", b"\xff")) * n


def some_line(rng):
    kind = rng.randrange(12)
    if kind == 0:
        return rng.choice((b"", b"\0", b"\r", b"11", b"0" * (SHORTEST - 1), b"0" * (SHORTEST + 1), b"\0" * SHORTEST))
    if kind == 1:
        return rng.randbytes(rng.randrange(1, 20000))
    if kind == 2:
        return bytes(rng.choice(b"0123456789abcdefABCDEF") for _ in range(rng.choice((SHORTEST, SHORTEST + 2, LONGEST, rng.randrange(9000)))))
    return spoiled(rng, frame_line(rng)) if kind < 7 else frame_line(rng)


def batch(rng):
    """The bytes of some lines, with a newline behind the last or without."""
    lines = [some_line(rng) for _ in range(rng.randrange(40))]
    if rng.random() < 0.1:
        lines.insert(rng.randrange(len(lines) + 1), long_line(rng))
    return b"\n".join(lines) + rng.choice((b"", b"\n"))


def lines_of(data):
    """A line ends at a newline or the end of input; nothing after the last newline is none."""
    lines = data.split(b"\n")
    return lines if lines[-1] else lines[:-1]


# Runs

class Runs:
    def __init__(self, program, rng):
        self.program, self.rng = program, rng
        self.tally, self.runs, self.seen = collections.Counter(), collections.Counter(), collections.Counter()

    def start(self, **more):
        return subprocess.Popen([self.program], **{"stdin": subprocess.PIPE, "stdout": subprocess.PIPE, "stderr": subprocess.PIPE, **more})

    def finish(self, process, given):
        """What it wrote on, once its input is closed; it must end well and say nothing else."""
        out, err = process.communicate(timeout=60)
        must(process.returncode == 0 and err == b"", f"status 0 and no message, not {process.returncode} and {err!r}", given)
        return out

    def whole(self, data):
        with self.start() as process:
            out, err = process.communicate(data, timeout=60)
        must(process.returncode == 0 and err == b"", f"status 0 and no message, not {process.returncode} and {err!r}", data)
        self.runs["runs"] += 1
        return out

    def lines(self):
        """A batch: one right answer to each line, the same alone, and the same however the input comes."""
        data = batch(self.rng)
        given, out = lines_of(data), self.whole(data)
        answers = out.split(b"\n")
        must(answers.pop() == b"" and len(answers) == len(given), "one line for each", data)
        for line, answer in zip(given, answers):
            check_answer(line, answer, self.tally)
        for k in self.rng.sample(range(len(given)), min(3, len(given))):
            end = b"\n" if self.rng.random() < 0.5 or not given[k] else b""
            must(self.whole(given[k] + end) == answers[k] + b"\n", "a line alone has the answer it has among others", given[k])
        self.in_pieces(data, out)

    def in_pieces(self, data, out):
        with self.start() as process:
            at = 0
            while at < len(data):
                n = self.rng.choice((1, 7, SHORTEST, 65536, self.rng.randrange(1, 200_000)))
                process.stdin.write(data[at:at + n])
                process.stdin.flush()
                at += n
            must(self.finish(process, data) == out, "pieces change nothing", data)
        self.runs["runs"] += 1

    def frames(self, n):
        return [frame_line(self.rng) for _ in range(n)]

    def writer_killed(self):
        """The feeding program is killed in the middle of a line, which is then a line of its own."""
        lines = self.frames(3)
        cut = self.rng.randrange(1, len(lines[-1]))
        data = b"\n".join(lines[:-1] + [lines[-1][:cut]])
        expected = self.whole(data)
        pid, source = waiting_writer(data)
        with self.start(stdin=source) as process:
            os.close(source)
            out = process.stdout.readline() + process.stdout.readline()
            os.kill(pid, signal.SIGKILL)
            os.waitpid(pid, 0)
            out += self.finish(process, data)
        must(out == expected and out.endswith(b"\n11\n"), "what came of a killed writer's line is a line", data)
        self.runs["writer killed"] += 1

    def writer_killed_writing(self):
        """The same while it writes more than a pipe holds, so that nobody knows how far it came."""
        data = b"\n".join(self.frames(8) * 8)
        expected = self.whole(data).splitlines()
        pid, source = waiting_writer(data)
        with self.start(stdin=source) as process:
            os.close(source)
            time.sleep(self.rng.random() * 0.03)
            os.kill(pid, signal.SIGKILL)
            os.waitpid(pid, 0)
            answers = self.finish(process, data).splitlines()
        n = max(0, len(answers) - 1)
        must(answers[:n] == expected[:n] and (not answers or answers[n] in (b"11", expected[n])), "the last line alone may be cut", data)
        self.seen["writers cut mid-line" if answers and answers[n] != expected[n] else "writers cut elsewhere"] += 1
        self.runs["writer killed"] += 1

    def killed(self):
        """`report` itself is killed, in the middle of a line: what it wrote is the beginning of the right output."""
        lines = self.frames(6)
        data = b"\n".join(lines)
        expected, cut = self.whole(data), self.rng.randrange(1, len(data))
        with self.start() as process:
            for at in range(0, cut, 5000):
                process.stdin.write(data[at:min(at + 5000, cut)])
                process.stdin.flush()
                time.sleep(self.rng.random() * 0.002)
            process.kill()
            out = process.stdout.read()
        must(expected.startswith(out), "a killed report wrote the beginning of the right output", data)
        self.seen["killed reports that wrote " + wholeness(out)] += 1
        self.runs["report killed"] += 1

    def reader_gone(self):
        """Nobody reads its output: it ends with a message, since the kit's runtime ignores SIGPIPE."""
        must(self.unread() == (0, b"report: standard output: Broken pipe\n"), "a report without a reader says so")
        self.runs["reader gone"] += 1

    def write_failed(self):
        """A write fails, with SIGPIPE ignored or on a full disc: it ends with a message."""
        with open("/dev/full", "wb") as full:
            ends = (self.unread(restore_signals=False), b"Broken pipe"), (self.unread(stdout=full), b"No space left on device")
        for (status, message), reason in ends:
            must(message == b"report: standard output: " + reason + b"\n", f"a failed write is told, not {message!r}")
            self.seen[f"failed writes that ended with status {status}"] += 1
            self.runs["write failed"] += 1

    def unread(self, **more):
        """Its status and message where it is given a line, and its output is not read."""
        with self.start(**more) as process:
            if process.stdout:
                process.stdout.close()
            process.stdin.write(b"\n")
            process.stdin.close()
            return process.wait(60), process.stderr.read()


def wholeness(out):
    if not out:
        return "nothing"
    return "whole lines" if out.endswith(b"\n") else "a line in part"


def waiting_writer(data):
    """A process that writes the data and then waits, and the pipe it writes to."""
    source, sink = os.pipe()
    pid = os.fork()
    if pid == 0:
        os.close(source)
        while data:
            data = data[os.write(sink, data):]
        signal.pause()
    os.close(sink)
    return pid, source


def told(counter):
    return ", ".join(f"{k}: {n}" for k, n in sorted(counter.items()))


def main():
    program, seconds, seed = sys.argv[1], float(sys.argv[2]), int(sys.argv[3])
    runs, until = Runs(program, random.Random(seed)), time.monotonic() + seconds
    try:
        must(runs.whole(b"") == b"", "empty input has an empty answer")
        while time.monotonic() < until:
            runs.lines()
            runs.rng.choice((runs.writer_killed, runs.writer_killed_writing, runs.killed, runs.reader_gone, runs.write_failed))()
    except Found as found:
        what, given = found.args
        with open("found.lines", "wb") as file:
            file.write(given)
        sys.exit(f"found: not so: {what}; the input is in found.lines")
    print("answers:", told(runs.tally))
    print("seen:", told(runs.seen))
    print(f"lines: seed {seed}, {seconds:.0f} seconds, {sum(runs.tally.values())} lines; {told(runs.runs)}")


if __name__ == "__main__":
    main()
