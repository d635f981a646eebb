"""On a terminal: progress on standard error that leaves nothing behind, a sketch of the file, colours; elsewhere none of these."""
import fcntl
import os
import pty
import re
import struct
import subprocess
import termios
import threading
import unittest

import made
from program import ENVIRONMENT, LONGEST, PROGRAM, ProgramTest, every_outcome, run, whole_outcomes

LONG_RUN = 8 << 30  # bytes of holes, which take a second or so


class Screen:
    """What a terminal of so many columns shows, as far as the program uses one: lines that are written, wrapped and taken away."""

    def __init__(self, columns):
        self.columns, self.lines, self.row, self.column = columns, [""], 0, 0

    def show(self, text):
        for part in re.findall(r"\x1b\[[0-9;?]*[A-Za-z]|[^\x1b]", text):
            self.escape(part[2:-1], part[-1]) if len(part) > 1 else self.put(part)

    def escape(self, number, letter):
        if letter == "K":
            kept = {"2": "", "1": " " * self.column + self.lines[self.row][self.column:]}
            self.lines[self.row] = kept.get(number, self.lines[self.row][:self.column])
        elif letter in "AB":
            self.go(self.row + int(number or 1) * (1 if letter == "B" else -1))
        elif letter not in "mhl":
            raise AssertionError(f"the screen does not know ESC[{number}{letter}")

    def put(self, character):
        if character == "\r":
            self.column = 0
        elif character == "\n":
            self.go(self.row + 1)
        else:
            if self.column == self.columns:
                self.go(self.row + 1)
                self.column = 0
            line = self.lines[self.row].ljust(self.column)
            self.lines[self.row] = line[:self.column] + character + line[self.column + 1:]
            self.column += 1

    def go(self, row):
        self.row = max(row, 0)
        self.lines += [""] * (self.row + 1 - len(self.lines))

    def shown(self):
        return "\n".join(line.rstrip() for line in self.lines).rstrip("\n")


def on_terminal(*words, columns=80, streams=("stdout", "stderr"), env=ENVIRONMENT):
    """Runs the program with these of its streams on a terminal; status, what came there, and the other stream's bytes."""
    near, far = pty.openpty()
    fcntl.ioctl(far, termios.TIOCSWINSZ, struct.pack("HHHH", 25, columns, 0, 0))
    seen = []

    def watch():
        # A terminal whose last writer is gone answers with an error.
        try:
            while part := os.read(near, 65536):
                seen.append(part)
        except OSError:
            pass

    ends = {name: far if name in streams else subprocess.PIPE for name in ("stdout", "stderr")}
    process = subprocess.Popen([PROGRAM, *map(str, words)], stdin=subprocess.DEVNULL, env=env, **ends)
    os.close(far)
    watcher = threading.Thread(target=watch)
    watcher.start()
    out, err = process.communicate(timeout=LONGEST)
    watcher.join()
    os.close(near)
    return process.returncode, b"".join(seen).decode(), out if out is not None else err


class Progress(ProgramTest):
    def holes(self):
        path = self.file("holes.db", made.superblock(1).stored)
        os.truncate(path, LONG_RUN)
        return path

    def test_tells_pages_share_rate_and_time_fits_and_leaves_nothing(self):
        for columns, told in ((80, rf"\d+/{LONG_RUN // made.PAGE} pages +\d+% \d+/s, \d+s left"), (40, r"\d+% \d+/s \d+s")):
            with self.subTest(columns=columns):
                status, seen, _ = on_terminal("survey", self.holes(), "--json", columns=columns, streams=("stderr",))
                self.assertEqual(status, 0)
                self.assertRegex(seen, told)
                drawn = [re.sub(r"\x1b\[[0-9;?]*[A-Za-z]", "", line) for line in re.split(r"[\r\n]", seen)]
                self.assertLessEqual(max(len(line) for line in drawn if not line.startswith("note: ")), columns)
                screen = Screen(columns)
                screen.show(seen)
                self.assertRegex(screen.shown(), r"\Anote: [^\x1b]*\Z")

    def test_counts_what_was_refused(self):
        path = self.file("many.db", made.joined(every_outcome()[:320]) * 20)
        _, seen, _ = on_terminal("survey", path, "--json", streams=("stderr",))
        self.assertRegex(seen, r"\d+ refused")

    def test_none_where_it_is_not_wanted(self):
        _, seen, _ = on_terminal("survey", self.holes(), "--json", "--quiet", streams=("stderr",))
        self.assertEqual(seen, "")

    def test_none_where_standard_error_is_no_terminal(self):
        _, _, err = on_terminal("survey", self.holes(), "--map", self.map("holes.map", LONG_RUN, {}), streams=("stdout",))
        self.assertEqual(err, b"")


class Sketches(ProgramTest):
    def test_ends_a_survey_on_a_terminal_and_fits(self):
        path = self.file("every.db", every_outcome())
        for columns in (80, 40):
            with self.subTest(columns=columns):
                _, seen, _ = on_terminal("survey", path, "-q", "--color", "never", columns=columns, streams=("stdout",))
                _, *lines = seen.replace("\r\n", "\n").splitlines()
                self.assertLessEqual(max(map(len, lines)), columns)
                sketch = "\n".join(lines).split("\n\n")[-1].splitlines()
                self.assertRegex(sketch[0], "^ *0 [\u2580-\u259f\u2573]{32,}$")
                self.assertIn("undecided", sketch[-2] + sketch[-1] + sketch[-3])

    def test_stands_behind_the_words_of_a_pipe(self):
        path = self.file("every.db", every_outcome())
        _, seen, _ = on_terminal("survey", path, "-q", "--color", "never", streams=("stdout",))
        words = run("survey", path, "-q").text.split()
        self.assertEqual(seen.split()[:len(words)], words)

    def test_not_in_a_pipe(self):
        self.assertNotRegex(run("survey", self.file("every.db", every_outcome())).text, "[\u2580-\u259f]")


class Colours(ProgramTest):
    def test_only_where_wanted(self):
        path = self.file("every.db", every_outcome())
        self.assertIn(b"\x1b[", run("survey", path, "--color", "always").out)
        self.assertNotIn(b"\x1b", run("survey", path).out)
        self.assertNotIn(b"\x1b", run("survey", path, "--color", "never").out)
        self.assertIn("\x1b[", on_terminal("survey", path, streams=("stdout",))[1])
        self.assertNotIn("\x1b", on_terminal("survey", path, "--color", "never", streams=("stdout",))[1])

    def test_no_color_of_the_environment(self):
        path = self.file("every.db", every_outcome())
        _, seen, _ = on_terminal("survey", path, streams=("stdout",), env=ENVIRONMENT | {"NO_COLOR": "1"})
        self.assertNotIn("\x1b", seen)

    def test_without_the_colours_the_words_are_the_same(self):
        path = self.file("every.db", every_outcome())
        coloured = run("survey", path, "--color", "always").text
        self.assertEqual(re.sub(r"\x1b\[[0-9;]*m", "", coloured), run("survey", path).text)


if __name__ == "__main__":
    unittest.main()
