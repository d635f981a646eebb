"""What can't be read or written is refused with one line that says what is wrong and what to do, and status 2."""
import os
import shutil
import subprocess
import unittest

import made
from program import PROGRAM, ProgramTest, run, whole_outcomes

COMMANDS = {
    "survey": lambda path: ["survey", path],
    "page": lambda path: ["page", path, 1],
    "rows": lambda path: ["rows", path],
    "mend": lambda path: ["mend", path, "--copy", path, "-o", path.parent / "out.db"],
}
NOBODY = 65534


class Files(ProgramTest):
    def each_refuses(self, path, message):
        for name, words in COMMANDS.items():
            with self.subTest(name):
                self.refused(run(*words(path)), f"{path}: {message}")
                self.assertNotIn("out.db", self.left())

    def test_a_missing_file(self):
        self.each_refuses(self.folder / "none.db", "No such file or directory: look whether the name is right")

    def test_a_directory(self):
        self.each_refuses(self.folder, "this is a directory: name the page file in it")

    def test_an_empty_file(self):
        self.each_refuses(self.file("empty.db", b""), "the file is empty: there is no page in it")

    def test_a_fifo_is_not_waited_for(self):
        os.mkfifo(self.folder / "pipe")
        self.each_refuses(self.folder / "pipe", "this is no file with places to read at: save it to a file, and name that")

    def test_a_device_without_places(self):
        self.refused(run("survey", "/dev/null"), "/dev/null: this is no file with places to read at: save it to a file, and name that")

    def test_a_file_that_may_not_be_read(self):
        path = self.file("secret.db", whole_outcomes())
        path.chmod(0)
        self.folder.chmod(0o755)
        program = shutil.copy(PROGRAM, self.folder / "program")
        user = {"user": NOBODY} if os.geteuid() == 0 else {}
        done = subprocess.run([program, "survey", path], capture_output=True, text=True, cwd="/", **user)
        message = f"lumeviqo: {path}: Permission denied: ask for the right to read it\n"
        self.assertEqual((done.returncode, done.stderr, done.stdout), (2, message, ""))

    def test_a_start_behind_the_end(self):
        path = self.file("small.db", bytes(made.PAGE))
        words = "it has 4096 bytes: --start 4096 is not inside it, and its first page would begin there"
        self.refused(run("survey", path, "--start", 4096), f"{path}: {words}")

    def test_a_page_behind_the_end(self):
        path = self.file("small.db", whole_outcomes())
        self.refused(run("page", path, 32), f"{path}: it has pages 0 to 31, and page 32 was asked for")


class FullDiscs(ProgramTest):
    def test_standard_output(self):
        path = self.file("whole.db", whole_outcomes())
        for words in (["survey", path], ["survey", path, "--csv"], ["survey", path, "--json"], ["page", path, 1], ["rows", path]):
            with self.subTest(words), open("/dev/full", "wb") as full:
                self.refused(run(*words, stdout=full), "standard output: No space left on device: make room, or write to another disc")


class Usage(ProgramTest):
    """A wrong word is status 2, with nothing on standard output and nothing done."""

    def wrong(self, *words, says):
        ran = run(*words)
        self.assertEqual((ran.status, ran.out), (2, b""))
        self.assertIn(says, ran.err)

    def test_numbers_out_of_range(self):
        path = self.file("whole.db", whole_outcomes())
        self.wrong("survey", path, "--limit", 7, says="a number from 8 to 2048 is wanted")
        self.wrong("survey", path, "--limit", 2049, says="a number from 8 to 2048 is wanted")
        self.wrong("survey", path, "--min-count", 256, says="256 is not in 0..=255")
        self.wrong("survey", path, "--threads", 0, says="a number from 1 to 1024 is wanted")
        self.wrong("survey", path, "--start", "4k", says="a number of bytes is wanted, in decimal or as 0x and hexadecimal digits")
        self.wrong("survey", path, "--pages", "5..5", says="pages are wanted as A..B with A below B: 16..32 is 16 to 31")
        self.wrong("page", path, "one", says="a page's number is wanted")

    def test_unknown_words(self):
        path = self.file("whole.db", whole_outcomes())
        self.wrong("survey", path, "--allow", "everything", says="keystream, directory, integrity")
        self.wrong("survey", path, "--color", "blue", says="auto, always, never")
        self.wrong("survey", path, "--bogus", says="--bogus")
        self.wrong("surveys", path, says="surveys")

    def test_words_that_exclude_each_other(self):
        path = self.file("whole.db", whole_outcomes())
        self.wrong("survey", path, "--json", "--csv", says="cannot be used with")
        self.wrong("rows", path, "--json", "--csv", says="cannot be used with")
        self.wrong("rows", path, "--page", 1, "--pages", "1..2", says="cannot be used with")

    def test_words_that_are_missing(self):
        path = self.file("whole.db", whole_outcomes())
        self.wrong("survey", says="<FILE>")
        self.wrong("page", path, says="<NUMBER>")
        self.wrong("mend", path, "-o", self.folder / "out.db", says="--copy")
        self.wrong("mend", path, "--copy", path, says="--out")
        self.wrong(says="Usage")

    def test_a_map_that_goes_with_no_copy(self):
        path = self.file("whole.db", whole_outcomes())
        out = self.folder / "out.db"
        self.wrong("mend", path, "--copy-map", path, "--copy", path, "-o", out, says="has no --copy before it to go with")
        self.wrong("mend", path, "--copy", path, "--copy-map", path, "--copy-map", path, "-o", out, says="has no --copy before it to go with")
        self.wrong("mend", path, "--copy", path, "--new-map", self.folder / "new.map", "-o", out, says="--map")
        self.assertEqual(self.left(), ["whole.db"])


if __name__ == "__main__":
    unittest.main()
