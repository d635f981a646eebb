"""What README shows is what the program prints."""
import re
import shlex
import subprocess
import unittest

from program import LONGEST, PROGRAM, ROOT, SAMPLES, ProgramTest

README = (ROOT / "README.md").read_text()
# A command, and the next block of output before any other command.
SHOWN = re.findall(r"^    (\./lumeviqo [^\n]+)\n(?:(?!^    |^```)[^\n]*\n)*^```text\n(.*?)^```$", README, re.M | re.S)


class Readme(ProgramTest):
    def printed(self, command):
        """What a person sees; files are made in the test's folder."""
        words = [re.sub(r"^(mended\.db|birds\.svg)$", rf"{self.folder}/\1", word) for word in shlex.split(command)[1:]]
        done = subprocess.run([PROGRAM, *words], cwd=ROOT, stdin=subprocess.DEVNULL, stdout=subprocess.PIPE, stderr=subprocess.STDOUT,
                              timeout=LONGEST)
        return done.stdout.decode().replace(f"{self.folder}/", "")

    def test_shows_what_is_printed(self):
        self.assertEqual([command.split()[1] for command, _ in SHOWN], ["survey", "page", "mend"])
        for command, output in SHOWN:
            with self.subTest(command):
                self.assertEqual(self.printed(command), output)

    def test_the_picture_is_that_of_the_first_command(self):
        self.printed(SHOWN[0][0])
        self.assertEqual((self.folder / "birds.svg").read_text(), (SAMPLES / "birds.svg").read_text())

    def test_the_mended_file_is_the_undamaged_one(self):
        self.printed(SHOWN[2][0])
        self.assertTrue((self.folder / "mended.db").read_bytes() == (SAMPLES / "birds.db").read_bytes())


if __name__ == "__main__":
    unittest.main()
