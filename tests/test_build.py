"""What is missing is made or named: the script at the root, and the Rust crate without its library."""
import os
import subprocess
import unittest

from program import LONGEST, ROOT, ProgramTest


class Build(ProgramTest):
    def test_what_is_built_is_not_built_again(self):
        done = subprocess.run([ROOT / "lumeviqo", "--version"], cwd=self.folder, capture_output=True, timeout=LONGEST)
        self.assertEqual((done.returncode, done.stderr), (0, b""))
        self.assertRegex(done.stdout.decode(), r"^lumeviqo [\d.]+ \(library \d+\)\n$")

    def test_the_script_is_found_through_a_link_and_names_are_the_users(self):
        link = self.folder / "link"
        link.symlink_to(ROOT / "lumeviqo")
        (self.folder / "old.db").write_bytes((ROOT / "samples/birds.db").read_bytes())
        done = subprocess.run([link, "survey", "old.db"], cwd=self.folder, capture_output=True, timeout=LONGEST)
        self.assertEqual(done.stdout.split(b"\n")[0], b"old.db: 32 pages of a page file of 131,072 bytes")

    def test_the_crate_without_its_library_says_what_makes_it(self):
        how = os.environ | {"LUMEVIQO_LIB": str(self.folder), "CARGO_TARGET_DIR": str(self.folder / "target")}
        done = subprocess.run(["cargo", "check", "--quiet", "--offline"], cwd=ROOT / "bindings/rust", env=how, capture_output=True,
                              timeout=LONGEST)
        self.assertNotEqual(done.returncode, 0)
        words = "run `tools/build library` in the repository's root, which makes it, or let LUMEVIQO_LIB name the folder that has it"
        self.assertIn(f"there is no {self.folder}/liblumeviqo.a: {words}", done.stderr.decode())


if __name__ == "__main__":
    unittest.main()
