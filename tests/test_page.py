"""`page`: one page in words, and the command that may help."""
import re
import unittest

import made
from program import ProgramTest, every_outcome, lost, run, whole_outcomes


class Pages(ProgramTest):
    def setUp(self):
        super().setUp()
        self.pages = every_outcome()
        self.path = self.file("every.db", self.pages)

    def told(self, number, *words):
        """The lines of a page by their name at the left; lines of one name are joined."""
        ran, told = run("page", self.path, number, *words), {}
        name = None
        for line in ran.lines[1:]:
            name = line[:12].strip() or name
            told[name] = f"{told.get(name, '')} {line[12:].strip()}".strip()
        self.assertEqual(ran.lines[0].split(",")[0], f"page {number} of {self.path}")
        return ran, told

    def test_status_and_outcome_are_those_of_the_survey(self):
        for number in [*range(17), 36, 64, 320]:
            with self.subTest(page=number):
                ran, told = self.told(number)
                page = self.pages[number]
                self.assertEqual(told["outcome"].split(":")[0], page.outcome)
                self.assertEqual(ran.status, int(page.outcome in ("undecided", "damaged", "cut short")))

    def test_the_superblocks_fields(self):
        _, told = self.told(0)
        self.assertEqual(told["magic"], "da7aba5e, SQL Anywhere 17's")
        self.assertEqual(told["version"], "3.201.12")
        self.assertEqual(told["pages"], "320 by its own count, 321 in the file")
        self.assertEqual(told["LSN"], "1000")
        self.assertEqual(told["flags"], "49, of which 40 are variant bits")
        self.assertEqual(told["marker"], "the engine's copyright text is there")

    def test_a_page_that_is_read(self):
        _, told = self.told(1)
        page = self.pages[1]
        self.assertEqual(told["trailer"], f"type extent, {page.row_count} rows, LSN 101")
        self.assertTrue(told["bv"].startswith("5a, from the trailer row count: verified"))
        self.assertEqual(told["rows"], f"{page.row_count} rows")
        self.assertIn("row count", told["evidence"])
        self.assertNotIn("may help", told)

    def test_an_anchor_is_evidence_where_another_page_gives_it(self):
        _, told = self.told(1)
        self.assertIn("another page of its block has it", told["evidence"])
        self.path = self.file("alone.db", [made.superblock(2), made.Maker(3).verified(1, 9)])
        _, told = self.told(1)
        self.assertNotIn("another page", told["evidence"])

    def test_the_crc_that_is_stored_and_the_one_that_is_computed(self):
        _, told = self.told(1)
        stored = int.from_bytes(self.pages[1].stored[made.CRC_AT:], "little")
        self.assertEqual(told["CRC"], f"{stored:08x} is stored, as it should be")
        _, told = self.told(7)
        self.assertRegex(told["CRC"], r"^[0-9a-f]{8} is stored, but these bytes have [0-9a-f]{8}$")

    def test_the_eight_fits(self):
        ran, _ = self.told(2)
        fits = re.findall(r"(?m)^ {12}(\d): +(\d+)  (\d+)/(\d+) +(\d+) +(\d+)(, exact)?$", ran.text)
        self.assertEqual([int(fit[0]) for fit in fits], list(range(8)))
        self.assertEqual([int(fit[3]) for fit in fits], [512] * 7 + [496])
        self.assertEqual([int(fit[0]) for fit in fits if fit[6]], [2, 3, 6])

    def test_an_unallocated_page_has_no_fields(self):
        _, told = self.told(9)
        self.assertEqual(set(told), {"outcome", "or unread"})

    def test_a_refusal_says_why_and_what_may_help(self):
        for number, answer, help_words in ((4, 5, "--allow keystream"), (5, 6, "--allow keystream"), (6, 7, "--allow keystream"),
                                           (7, 3, "lumeviqo mend"), (8, 4, "--allow integrity")):
            with self.subTest(answer=answer):
                _, told = self.told(number)
                self.assertTrue(told["refused"].startswith(f"answer {answer}: "))
                self.assertIn(help_words, told["may help"])

    def test_a_directory_that_is_refused(self):
        for number in range(10, 16):
            with self.subTest(page=number):
                ran, told = self.told(number)
                self.assertEqual(ran.status, 0)
                self.assertRegex(told["rows"], r"^not listed, answer \d+: ")
                self.assertIn("--allow directory", told["may help"])

    def test_the_command_that_may_help_can_be_typed_as_it_stands(self):
        for number, outcome in ((4, "unverified"), (5, "unverified"), (6, "verified"), (8, "verified")):
            with self.subTest(page=number):
                _, told = self.told(number)
                command = re.search(r"`lumeviqo ([^`]*--allow [^`]*)`", told["may help"])
                words = command[1] if command else f"page {self.path} {number} --allow keystream"
                self.assertIn(f"outcome     {outcome}", run(*words.split()).text)

    def test_nothing_advises_keystream_after_integrity(self):
        """A page that lost sectors and is read all the same: zeros would mislead the choice."""
        make = made.Maker(23)
        data = lost(made.joined([made.superblock(2), make.no_vote(1, 0x77)]), {1: [2, 5]})
        self.path = self.file("lost.img", data)
        for words in (["--map", self.map("lost.map", len(data), {1: [2, 5]})], []):
            for allowed in ([], ["--allow", "integrity"]):
                ran, told = self.told(1, *words, *allowed)
                self.assertEqual(ran.status, 1)
                self.assertNotIn("keystream", ran.text.lower())
                self.assertIn("lumeviqo mend", told["may help"])

    def test_zeros_in_the_place_of_sectors_mislead_the_choice(self):
        """Why nothing advises it: the two leniencies together take a bv that is none."""
        page = made.Maker(23).no_vote(1, 0x77)
        data = lost(made.joined([made.superblock(2), page]), {1: [2, 5]})
        self.path = self.file("lost.img", data)
        _, told = self.told(1, "--allow", "integrity,keystream")
        self.assertNotEqual(told["bv"].split(",")[0], "77")

    def test_integrity_is_not_needed_where_the_crc_is_good(self):
        _, told = self.told(5, "--allow", "integrity")
        self.assertEqual(told["may help"], f"`lumeviqo page {self.path} 5`: its CRC is good, so it needs no --allow integrity")

    def test_a_superblock_that_is_unread(self):
        data = lost(made.joined(whole_outcomes()), {0: [0]})
        self.path = self.file("lost.img", data)
        ran, told = self.told(0, "--map", self.map("lost.map", len(data), {0: [0]}))
        self.assertEqual((ran.status, told["superblock"]), (1, "its fields lie in sector 0, which is unread"))
        self.assertNotIn("magic", told)

    def test_an_unread_sector_of_a_page_whose_crc_is_good(self):
        self.path = self.file("whole.db", whole_outcomes())
        map_path = self.map("whole.map", len(made.joined(whole_outcomes())), {4: [2]})
        ran, told = self.told(4, "--map", map_path)
        self.assertEqual((ran.status, told["unread"]), (0, "sector 2, by the map; but the CRC is good, so it is what stands there"))

    def test_commands_can_be_typed_with_any_name(self):
        self.path = self.file("it's old.db", every_outcome())
        _, told = self.told(8)
        name = str(self.path).replace("'", "'\\''")
        self.assertEqual(told["may help"], f"`lumeviqo page '{name}' 8 --allow integrity` reads it all the same")

    def test_a_range_is_not_for_one_page(self):
        ran = run("page", self.path, 3, "--pages", "3..4")
        self.assertEqual((ran.status, ran.out), (2, b""))

    def test_a_page_cut_short(self):
        _, told = self.told(320)
        self.assertEqual(told["length"], "1000 of 4096 bytes are there")

    def test_unread_sectors(self):
        data = lost(made.joined(whole_outcomes()), {4: [2, 7]})
        self.path = self.file("lost.img", data)
        map_path = self.map("lost.map", len(data), {4: [2, 7]})
        _, told = self.told(4, "--map", map_path)
        self.assertEqual(told["unread"], "sectors 2 7, by the map: what stands there is no data")
        self.assertIn(f"lumeviqo mend {self.path} --map {map_path}", told["may help"])
        _, told = self.told(5, "--map", map_path)
        self.assertEqual(told["unread"], "none of its sectors, by the map")

    def test_a_start_inside_an_image_shows_the_places_in_the_image(self):
        self.path = self.file("disc.img", bytes(1024) + made.joined(whole_outcomes()))
        ran, _ = self.told(1, "--start", "0x400")
        self.assertTrue(ran.lines[0].endswith("bytes 5,120 to 9,215"))


if __name__ == "__main__":
    unittest.main()
