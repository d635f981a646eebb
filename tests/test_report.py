"""The program `report`: how it says what it is for. What it answers to frames is proved, and run by the gate."""
import os
import pty
import subprocess
import unittest

from program import LONGEST, ROOT, ProgramTest

REPORT = ROOT / "target/bin/report"
USAGE = "usage: report < FRAMES > LINES, a frame a line in hexadecimal: see README; for a page file use ./lumeviqo\n"


def report(*words, stdin=subprocess.PIPE, given=None):
    done = subprocess.run([REPORT, *words], stdin=None if given is not None else stdin, input=given, stdout=subprocess.PIPE,
                          stderr=subprocess.PIPE, timeout=LONGEST)
    return done.returncode, done.stdout.decode(), done.stderr.decode()


class Usage(ProgramTest):
    def test_with_words_behind_it(self):
        for words in (["x"], [""], ["--help"], ["a", "b"]):
            with self.subTest(words):
                self.assertEqual(report(*words, given=b"00\n"), (0, "", USAGE))

    def test_on_a_terminal(self):
        ours, its = pty.openpty()
        self.addCleanup(os.close, ours)
        self.addCleanup(os.close, its)
        self.assertEqual(report(stdin=its), (0, "", USAGE))

    def test_neither(self):
        self.assertEqual(report(given=b"00\n\n"), (0, "11\n11\n", ""))
        self.assertEqual(report(given=b""), (0, "", ""))


if __name__ == "__main__":
    unittest.main()
