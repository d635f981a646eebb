"""However many threads read, the same bytes are written, in page order; and memory stays small."""
import os
import re
import subprocess
import unittest
from pathlib import Path

import made
from program import PROGRAM, ProgramTest, every_outcome, lost, run

MOST_MEMORY = 64 * 1024  # KiB


class Threads(ProgramTest):
    def setUp(self):
        super().setUp()
        self.data = made.joined(every_outcome()[:320]) * 4
        self.bad = {page: [page % 8] for page in range(3, len(self.data) // made.PAGE, 37)}
        self.path = self.file("many.db", lost(self.data, self.bad))
        self.map_path = self.map("many.map", len(self.data), self.bad)

    def both(self, *words):
        one, eight = (run(*words, "--map", self.map_path, "--threads", threads) for threads in (1, 8))
        self.assertEqual(one, eight)
        return one

    def test_survey(self):
        for words in ([], ["--json"], ["--csv"], ["--pages", "21..1003", "--csv"]):
            with self.subTest(words):
                self.assertEqual(self.both("survey", self.path, *words).status, 1)

    def test_pictures(self):
        for threads in (1, 8):
            run("survey", self.path, "--threads", threads, "--svg", self.folder / f"{threads}.svg")
        self.assertEqual((self.folder / "1.svg").read_bytes(), (self.folder / "8.svg").read_bytes())

    def test_page(self):
        self.both("page", self.path, 3)

    def test_rows(self):
        for form in ("--text", "--csv", "--json"):
            with self.subTest(form):
                self.assertGreater(len(self.both("rows", self.path, form).lines), 1000)

    def test_mend(self):
        copy, told = self.file("copy.db", self.data), []
        for threads in (1, 8):
            out = self.folder / f"{threads}.out"
            ran = run("mend", self.path, "--map", self.map_path, "--copy", copy, "--threads", threads, "-o", out)
            told.append((ran.status, ran.text.replace(str(out), "OUT"), ran.err))
            self.assertTrue(out.read_bytes() == self.data)
        self.assertEqual(told[0], told[1])


class Memory(ProgramTest):
    def greatest(self, *words):
        """The most memory that a run had, in KiB, looked at while it goes on."""
        process, most = subprocess.Popen([PROGRAM, *map(str, words)], stdout=subprocess.DEVNULL, stderr=subprocess.DEVNULL), 0
        status = Path(f"/proc/{process.pid}/status")
        while process.poll() is None:
            held = re.search(r"VmHWM:\s*(\d+)", status.read_text())
            most = max(most, int(held[1]) if held else 0)
            try:
                process.wait(0.01)
            except subprocess.TimeoutExpired:
                pass
        self.assertIn(process.returncode, (0, 1))
        return most

    def test_of_a_long_file_of_holes(self):
        path = self.file("holes.db", made.superblock(1).stored)
        os.truncate(path, 20 << 30)
        self.assertLess(self.greatest("survey", path), MOST_MEMORY)

    def test_of_a_dense_file(self):
        path = self.file("dense.db", made.joined(every_outcome()[:320]) * 10)
        for words in (["survey", path], ["rows", path]):
            with self.subTest(words[0]):
                self.assertLess(self.greatest(*words), MOST_MEMORY)


if __name__ == "__main__":
    unittest.main()
