"""The samples of the repository: made by samples/make.py, and what README says of them holds."""
import subprocess
import sys
import unittest

from program import SAMPLES, ProgramTest, run


def told(text):
    """A map without its comments."""
    return [line for line in text.splitlines() if not line.startswith("#")]


class Samples(ProgramTest):
    def test_are_what_make_py_makes(self):
        subprocess.run([sys.executable, SAMPLES / "make.py", self.folder], check=True)
        for name in ("birds.db", "birds.img", "second.img"):
            self.assertTrue((self.folder / name).read_bytes() == (SAMPLES / name).read_bytes(), name)
        for name in ("birds.map", "second.map"):
            self.assertEqual(told((self.folder / name).read_text()), told((SAMPLES / name).read_text()))

    def test_maps_name_no_folder(self):
        for name in ("birds.map", "second.map"):
            self.assertNotIn("/", "\n".join(line for line in (SAMPLES / name).read_text().splitlines() if line.startswith("#")))

    def test_survey_of_the_undamaged_file(self):
        ran = run("survey", SAMPLES / "birds.db", "--json")
        outcomes = {name: count for name, count in ran.json()[0]["outcomes"].items() if count}
        self.assertEqual(outcomes, {"unallocated": 6, "superblock": 1, "verified": 21, "calibrated": 2, "corroborated": 1, "undecided": 1})
        self.assertEqual(ran.status, 1)

    def test_survey_of_what_was_rescued(self):
        ran = run("survey", SAMPLES / "birds.img", "--map", SAMPLES / "birds.map", "--csv")
        unread = {int(line["page"]): line["unread_sectors"] for line in ran.csv() if line["outcome"] == "unread"}
        self.assertEqual(unread, {7: "2", 9: "6 7", 18: "1", 21: "3 4", 26: "0 1 2 3 4 5 6 7"})

    def test_mend_gives_the_undamaged_file(self):
        out = self.folder / "mended.db"
        ran = run("mend", SAMPLES / "birds.img", "--map", SAMPLES / "birds.map", "--copy", SAMPLES / "second.img", "--copy-map",
                  SAMPLES / "second.map", "-o", out)
        self.assertTrue(out.read_bytes() == (SAMPLES / "birds.db").read_bytes())
        self.assertEqual(ran.status, 1)  # page 24 is undecided in the undamaged file too


if __name__ == "__main__":
    unittest.main()
