"""`rows`: every row of every page that is read, in three forms."""
import subprocess
import unittest

import made
from program import ProgramTest, every_outcome, run, whole_outcomes


def expected(pages):
    """What was made: page, row, offset, length, confidence, bytes."""
    return [(number, row, offset, len(content), page.confidence, content)
            for number, page in enumerate(pages) for row, (offset, content) in enumerate(page.rows)]


def of_object(told):
    """A row of the CSV or of the JSON."""
    content = bytes.fromhex(told["bytes"])
    return (int(told["page"]), int(told["row"]), int(told["offset"]), int(told["length"]), told["confidence"], content)


def of_line(line):
    page, row, offset, length, confidence, _, content = line.split(maxsplit=6)
    return (int(page), int(row), int(offset), int(length), confidence, content.encode())


class Forms(ProgramTest):
    def setUp(self):
        super().setUp()
        self.path = self.file("every.db", every_outcome())
        self.rows = expected(every_outcome())

    def test_csv(self):
        ran = run("rows", self.path, "--csv")
        self.assertEqual(ran.lines[0], "page,row,offset,length,confidence,unread,bytes")
        self.assertEqual([of_object(row) for row in ran.csv()], self.rows)

    def test_json_one_object_a_line(self):
        ran = run("rows", self.path, "--json")
        self.assertEqual([of_object(row) for row in ran.json()], self.rows)
        pages = subprocess.run(["jq", "-s", "map(.page) | unique | length"], input=ran.out, capture_output=True, check=True).stdout
        self.assertEqual(int(pages), len({row[0] for row in self.rows}))

    def test_text(self):
        ran = run("rows", self.path)
        self.assertEqual(ran.lines[0].split(), ["page", "row", "offset", "length", "confidence", "unread", "bytes"])
        self.assertEqual([of_line(line) for line in ran.lines[1:]], self.rows)
        self.assertEqual(run("rows", self.path, "--text").out, ran.out)

    def test_bytes_that_are_no_text_are_escaped(self):
        rows = [b"one", b"\x00\x1b[31m\xff", b"a\nb\\", b"four"]
        path = self.file("odd.db", [made.superblock(2), made.Maker(2).verified(1, 3, rows)])
        self.assertEqual([line.split(maxsplit=6)[6] for line in run("rows", path).lines[1:]], ["one", r"\x00\x1b[31m\xff", r"a\nb\\", "four"])
        self.assertEqual([bytes.fromhex(row["bytes"]) for row in run("rows", path, "--json").json()], rows)


class Choice(ProgramTest):
    def test_one_page(self):
        pages = every_outcome()
        path = self.file("every.db", pages)
        rows = run("rows", path, "--page", 1, "--csv").csv()
        self.assertEqual([of_object(row) for row in rows], [row for row in expected(pages) if row[0] == 1])

    def test_a_range_of_pages(self):
        pages = every_outcome()
        path = self.file("every.db", pages)
        rows = run("rows", path, "--pages", "16..20", "--csv").csv()
        self.assertEqual([of_object(row) for row in rows], [row for row in expected(pages) if 16 <= row[0] < 20])

    def test_a_page_that_is_not_there(self):
        path = self.file("whole.db", whole_outcomes())
        self.refused(run("rows", path, "--page", 32), f"{path}: it has pages 0 to 31, and none of those was asked for")

    def test_a_doubtful_directory_is_taken_where_it_is_allowed(self):
        """Page 15 has three slots that point into the directory; leniently they are dropped, and two rows are left."""
        path = self.file("every.db", every_outcome())
        strictly, leniently = run("rows", path, "--page", 15, "--csv"), run("rows", path, "--page", 15, "--csv", "--allow", "directory")
        self.assertEqual(strictly.csv(), [])
        self.assertEqual([(row["offset"], row["length"]) for row in leniently.csv()], [("3584", "256"), ("3840", "240")])

    def test_rows_of_a_damaged_page_are_shown_where_integrity_is_allowed(self):
        path = self.file("every.db", every_outcome())
        self.assertEqual(run("rows", path, "--page", 8).status, 1)
        self.assertGreater(len(run("rows", path, "--page", 8, "--csv", "--allow", "integrity").csv()), 0)


class Status(ProgramTest):
    def test_0_if_all_pages_were_read_and_1_if_not(self):
        self.assertEqual(run("rows", self.file("whole.db", whole_outcomes())).status, 0)
        ran = run("rows", self.file("every.db", every_outcome()))
        self.assertEqual(ran.status, 1)
        unread = sum(page.outcome in ("undecided", "damaged", "cut short") for page in every_outcome())
        self.assertIn(f"note: {unread} pages not read, so rows may be missing", ran.err)

    def test_directories_that_were_refused_are_noted(self):
        refused = sum(bool(page.row_answer) for page in every_outcome())
        ran = run("rows", self.file("every.db", every_outcome()))
        self.assertIn(f"note: the slot directory of {refused} pages is not confirmed", ran.err)
        self.assertEqual(run("rows", self.folder / "every.db", "-q").err, "")


class Unread(ProgramTest):
    def test_a_row_that_touches_an_unread_sector_is_marked(self):
        """The page's CRC is right, so it is read; the map says of sector 7 that it was not."""
        rows = [b"a" * 300, b"b" * 300, b"c" * 300, b"d" * 300]  # from 2880: in sectors 5 and 6, 6, 6 and 7, 7
        page = made.Maker(4).verified(1, 0x66, rows)
        path = self.file("rows.db", [made.superblock(2), page])
        for sector, marks in ((7, [False, False, True, True]), (6, [True, True, True, False]), (5, [True, False, False, False]), (0, [False] * 4)):
            with self.subTest(sector=sector):
                map_path = self.map("rows.map", path.stat().st_size, {1: [sector]})
                told = run("rows", path, "--map", map_path, "--json").json()
                self.assertEqual([row["unread"] for row in told], marks)
                words = run("rows", path, "--map", map_path).lines[1:]
                self.assertEqual([line.split()[5] == "yes" for line in words], marks)
                self.assertEqual([row["unread"] == "true" for row in run("rows", path, "--map", map_path, "--csv").csv()], marks)


class Notes(ProgramTest):
    def test_are_those_of_the_survey_and_where_rows_may_be_missing(self):
        path = self.file("every.db", every_outcome())
        surveyed, ran = run("survey", path).err, run("rows", path).err
        self.assertTrue(ran.startswith(surveyed))
        self.assertIn(f"not read, so rows may be missing: `lumeviqo survey {path}` says why", ran)

    def test_a_directory_is_advised_where_the_crc_is_good_alone(self):
        path = self.file("every.db", every_outcome())
        self.assertIn("none of their rows are listed: `--allow directory` takes it", run("rows", path).err)
        self.assertNotIn("--allow directory", run("rows", path, "--allow", "integrity,keystream").err)

    def test_zeros_without_a_map(self):
        ran = run("rows", self.file("zero.db", bytes(4 * made.PAGE)))
        self.assertIn("note: 4 pages of zeros, taken as unallocated; a page that could not be read is zeros too", ran.err)


if __name__ == "__main__":
    unittest.main()
