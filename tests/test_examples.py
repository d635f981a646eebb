"""The two examples, of C and of Rust: what they print of the sample is stored in expected/, and bad input is told in words."""
import os
import shutil
import signal
import subprocess
import tempfile
import unittest
from pathlib import Path

from program import LONGEST, ROOT, ProgramTest

SAMPLE = ROOT / "bindings/sample.pages"
LIBRARY = Path(os.environ.get("LUMEVIQO_LIB", ROOT / "target/staticlib")) / "liblumeviqo.a"
EXPECTED = Path(__file__).resolve().parent / "expected"
BAD_LENIENCY = "LENIENCY is 0, or a sum of 1 (keystream), 2 (directory) and 4 (integrity)"
BAD_LIMIT = "LIMIT is a number from 8 to 2048, usually 768"


class Example:
    """What holds of both; `command` runs the example."""

    command = []
    closed_pipe_status = 0
    system_number = ""  # Rust puts the system's number behind its words

    def run_it(self, *words, stdout=subprocess.PIPE):
        done = subprocess.run([*self.command, *map(str, words)], stdout=stdout, stderr=subprocess.PIPE, timeout=LONGEST)
        return done.returncode, (done.stdout or b"").decode(), done.stderr.decode()

    def fails(self, *words, says, stdout=subprocess.PIPE):
        self.assertEqual(self.run_it(*words, stdout=stdout), (1, "", f"{says}\n"))

    def test_the_sample(self):
        status, out, err = self.run_it(SAMPLE)
        self.assertEqual((status, err), (0, ""))
        self.assertEqual(out, (EXPECTED / self.stored).read_text())

    def test_the_sample_leniently(self):
        status, out, _ = self.run_it(SAMPLE, 7)
        heads = [line for line in out.splitlines() if not line.startswith(" ")]
        self.assertEqual((status, heads[3]), (0, "3: verified, 5 rows, 1 warnings"))

    def test_no_words(self):
        self.fails(says="usage: list_rows FILE [LENIENCY [LIMIT]]")

    def test_a_missing_file_a_directory_and_an_empty_file(self):
        none = self.folder / "none"
        self.fails(none, says=f"{none}: No such file or directory" + self.system_number.format(2))
        self.fails(self.folder, says=f"{self.folder}: Is a directory" + self.system_number.format(21))
        empty = self.file("empty", b"")
        self.fails(empty, says=f"{empty}: the file is empty")

    def test_bad_words(self):
        for word in ("x", "8", "-1", "1x", ""):
            with self.subTest(word):
                self.fails(SAMPLE, word, says=BAD_LENIENCY)
        for word in ("x", "-1", ""):
            with self.subTest(word):
                self.fails(SAMPLE, 0, word, says=BAD_LIMIT)

    def test_a_full_disc(self):
        with open("/dev/full", "wb") as full:
            self.fails(SAMPLE, says="standard output: No space left on device" + self.system_number.format(28), stdout=full)

    def test_a_closed_pipe_ends_it_quietly(self):
        many = self.file("many", SAMPLE.read_bytes() * 200)
        ear, mouth = os.pipe()
        os.close(ear)
        status, _, err = self.run_it(many, stdout=mouth)
        os.close(mouth)
        self.assertEqual((status, err), (self.closed_pipe_status, ""))

    def test_a_page_cut_short(self):
        cut = self.file("cut", SAMPLE.read_bytes()[:5000])
        status, out, _ = self.run_it(cut)
        self.assertEqual(status, 0)
        self.assertRegex(out.splitlines()[-1], r"^1: refused, a page has 4096 bytes, and ")


class OfC(Example, ProgramTest):
    stored = "list_rows_c.txt"
    closed_pipe_status = -signal.SIGPIPE

    @classmethod
    def setUpClass(cls):
        folder = tempfile.mkdtemp(prefix="lumeviqo-test-")
        cls.addClassCleanup(shutil.rmtree, folder)
        program = f"{folder}/list_rows"
        subprocess.run(["cc", "-Wall", "-Wextra", "-Werror", "-I", ROOT / "include", ROOT / "bindings/c/list_rows.c", LIBRARY, "-o", program],
                       check=True)
        cls.command = [program]


class OfRust(Example, ProgramTest):
    stored = "list_rows_rust.txt"
    system_number = " (os error {})"
    command = ["cargo", "run", "--quiet", "--offline", "--manifest-path", ROOT / "bindings/rust/Cargo.toml", "--example", "list_rows", "--"]


if __name__ == "__main__":
    unittest.main()
