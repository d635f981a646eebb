"""The map of a rescue: what ddrescue could not read is no data, whatever stands there."""
import unittest

import made
import maps
from program import ProgramTest, ddrescue, lost, run, whole_outcomes

STATUS_LINE = "the status line: position, status and pass, as `0x00000000 ? 1`"
BLOCK = "position, size and status, as `0x00000000 0x00001000 +`"


def octal(number):
    return f"0{number:o}"


class MapTest(ProgramTest):
    def setUp(self):
        super().setUp()
        self.pages = whole_outcomes()
        self.data = made.joined(self.pages)

    def survey(self, path, map_path, *words):
        """Lines of `survey --csv` by page."""
        return {int(line["page"]): line for line in run("survey", path, "--map", map_path, "--csv", *words).csv()}

    def unread(self, lines):
        """The unread sectors of each page that has some."""
        return {page: [int(s) for s in line["unread_sectors"].split()] for page, line in lines.items() if line["unread_sectors"]}

    def outcomes(self, lines, *pages):
        return [lines[page]["outcome"] for page in pages]


class Outcomes(MapTest):
    """Pages 4 and 8 are verified, 3 and 7 unallocated."""

    def test_a_page_that_lost_a_sector_is_unread(self):
        bad = {4: [2], 8: [0, 7]}
        path = self.file("lost.img", lost(self.data, bad))
        lines = self.survey(path, self.map("lost.map", len(self.data), bad))
        self.assertEqual(self.unread(lines), bad)
        self.assertEqual(self.outcomes(lines, 4, 5, 8), ["unread", "calibrated", "unread"])
        self.assertEqual([lines[4][key] for key in ("answer", "source", "bv", "rows", "warnings")], [""] * 5)

    def test_a_page_of_zeros_with_an_unread_sector_is_not_unallocated(self):
        lines = self.survey(self.file("whole.db", self.data), self.map("whole.map", len(self.data), {3: [5]}))
        self.assertEqual(self.outcomes(lines, 3, 7), ["unread", "unallocated"])

    def test_a_page_that_was_never_read_is_not_unallocated(self):
        bad = {4: range(8)}
        lines = self.survey(self.file("lost.img", lost(self.data, bad)), self.map("lost.map", len(self.data), bad))
        self.assertEqual(self.outcomes(lines, 4), ["unread"])

    def test_a_page_whose_crc_is_right_is_read_whatever_the_map_says(self):
        lines = self.survey(self.file("whole.db", self.data), self.map("whole.map", len(self.data), {4: [2], 0: [1]}))
        self.assertEqual(self.outcomes(lines, 0, 4), ["superblock", "verified"])
        self.assertEqual(self.unread(lines), {0: [1], 4: [2]})

    def test_a_damaged_page_with_all_sectors_read_is_damaged(self):
        lines = self.survey(self.file("lost.img", lost(self.data, {4: [2]})), self.map("lost.map", len(self.data), {5: [2]}))
        self.assertEqual(self.outcomes(lines, 4), ["damaged"])

    def test_a_superblock_that_lost_a_sector_is_unread(self):
        bad = {0: [1]}
        lines = self.survey(self.file("lost.img", lost(self.data, bad)), self.map("lost.map", len(self.data), bad))
        self.assertEqual(self.outcomes(lines, 0), ["unread"])

    def test_an_unread_page_gives_no_anchor(self):
        """The block's only page that confirms its bv by itself lost a sector: the page that leans on it is undecided."""
        make = made.Maker(17)
        pages = [made.superblock(3), make.verified(1, 0x44), make.one_vote(2, 0x44)]
        data = lost(made.joined(pages), {1: [4]})
        lines = self.survey(self.file("lost.img", data), self.map("lost.map", len(data), {1: [4]}), "--allow", "integrity")
        self.assertEqual(self.outcomes(lines, 1, 2), ["unread", "undecided"])

    def test_integrity_decodes_an_unread_page_and_it_stays_unread(self):
        bad = {4: [2], 3: [1]}
        lines = self.survey(self.file("lost.img", lost(self.data, bad)), self.map("lost.map", len(self.data), bad), "--allow", "integrity")
        self.assertEqual(self.outcomes(lines, 3, 4), ["unread", "unread"])
        self.assertEqual((lines[4]["answer"], lines[4]["bv"], lines[3]["answer"]), ("0", f"{self.pages[4].bv:02x}", ""))

    def test_counts_sectors(self):
        path = self.file("lost.img", lost(self.data, {4: [2], 8: range(8)}))
        told, = run("survey", path, "--map", self.map("lost.map", len(self.data), {4: [2], 8: range(8)}), "--json").json()
        self.assertEqual((told["unread_sectors"], told["outcomes"]["unread"]), (9, 2))
        self.assertEqual(told["map"], {"read_bytes": len(self.data) - 9 * made.SECTOR, "unread_bytes": 9 * made.SECTOR})


class Places(MapTest):
    def test_a_block_that_overlaps_a_sector_in_part_spoils_it(self):
        path = self.file("whole.db", self.data)
        at = 4 * made.PAGE + 3 * made.SECTOR
        for name, first, end, bad in (("a byte", at, at + 1, [3]), ("two sectors", at - 1, at + 1, [2, 3]), ("one of 512", at, at + 512, [3])):
            with self.subTest(name):
                blocks = [(0, first, "+"), (first, end - first, "-"), (end, len(self.data) - end, "+")]
                lines = self.survey(path, self.file("part.map", maps.text(blocks)))
                self.assertEqual(self.unread(lines), {4: bad})

    def test_what_the_map_does_not_speak_of_is_unread(self):
        path = self.file("whole.db", self.data)
        lines = self.survey(path, self.file("short.map", maps.text([(5 * made.PAGE, 10 * made.PAGE, "+")])))
        self.assertEqual(sorted(self.unread(lines)), [*range(5), *range(15, 32)])

    def test_unread_bytes_behind_the_end_of_the_image_are_unread_pages(self):
        """An image ends with the last sector that was read."""
        cut = 29 * made.PAGE + 3 * made.SECTOR
        bad = {29: range(3, 8), 30: range(8), 31: range(8)}
        path = self.file("cut.img", self.data[:cut])
        lines = self.survey(path, self.map("cut.map", len(self.data), bad))
        self.assertEqual(len(lines), 32)
        self.assertEqual(self.outcomes(lines, 28, 29, 30, 31), ["verified", "unread", "unread", "unread"])

    def test_a_map_that_goes_on_far_behind_the_end(self):
        """A map of a whole disc beside an image of a small part of it: no such number of pages is gone through or kept room for."""
        path = self.file("whole.db", self.data)
        for tail in (0x1000000000000000, 0x7FFFFFFFFFFFFFFF - len(self.data)):
            with self.subTest(tail=hex(tail)):
                ran = run("survey", path, "--map", self.file("disc.map", maps.text([(0, len(self.data), "+"), (len(self.data), tail, "?")])))
                self.assertIn(ran.status, (0, 1, 2))
                self.assertTrue(all(line.startswith(("note: ", "lumeviqo: ")) for line in ran.err.splitlines()), ran.err)

    def test_start_shifts_the_map(self):
        front = 63 * made.SECTOR
        path = self.file("disc.img", bytes(front) + lost(self.data, {4: [2]}))
        at = front + 4 * made.PAGE + 2 * made.SECTOR
        text = maps.text([(0, at, "+"), (at, 512, "-"), (at + 512, front + len(self.data) - at - 512, "+")])
        lines = self.survey(path, self.file("disc.map", text), "--start", front)
        self.assertEqual((self.unread(lines), lines[4]["outcome"]), ({4: [2]}, "unread"))


class Forms(MapTest):
    def setUp(self):
        super().setUp()
        self.path = self.file("lost.img", lost(self.data, {4: [2]}))
        self.blocks = maps.unread(len(self.data), {4: [2]})

    def read(self, text):
        return self.unread(self.survey(self.path, self.file("form.map", text)))

    def test_every_status_but_plus_is_unread(self):
        for status in "?*/-":
            with self.subTest(status):
                self.assertEqual(self.read(maps.text(maps.unread(len(self.data), {4: [2]}, status))), {4: [2]})
        self.assertEqual(self.read(maps.text([(0, len(self.data), "+")])), {})

    def test_numbers_are_decimal_hexadecimal_or_octal(self):
        for number in (str, hex, "0X{:x}".format, octal):
            with self.subTest(number(64)):
                self.assertEqual(self.read(maps.text(self.blocks, f"{number(4096)} ? 1", number)), {4: [2]})

    def test_the_status_line_has_every_status_and_perhaps_a_pass(self):
        for head in [f"0x0 {status} 2" for status in "?*/-FG+"] + ["0 ?"]:
            with self.subTest(head):
                self.assertEqual(self.read(maps.text(self.blocks, head)), {4: [2]})

    def test_comments_blanks_tabs_and_line_ends(self):
        plain = maps.text(self.blocks)
        for name, text in {"comments": "# a\n#\n" + plain.replace("\n", "\n# b\n"), "blank lines": plain.replace("\n", "\n \n\n"),
                           "tabs": plain.replace("  ", "\t\t"), "carriage returns": plain.replace("\n", "\r\n"),
                           "no last newline": plain.rstrip("\n")}.items():
            with self.subTest(name):
                self.assertEqual(self.read(text), {4: [2]})


class BadMaps(MapTest):
    """The message names the map, the line and what was expected there; nothing is read by such a map."""

    def wrong(self, text, line, found, expected):
        path, map_path = self.file("whole.db", self.data), self.file("wrong.map", text)
        found = f"`{found}`" if found else "the end of the map"
        self.refused(run("survey", path, "--map", map_path), f"{map_path}: line {line}: found {found}, expected {expected}")

    def test_a_status_line_that_is_none(self):
        for head in ("0x0", "? 1", "0x0 ? 1 1", "zero ? 1", "-1 ? 1", "0x0 ++ 1"):
            with self.subTest(head):
                self.wrong(f"# Mapfile\n{head}\n0 16 +\n", 2, head, STATUS_LINE)

    def test_a_status_that_no_rescue_has(self):
        expected = "a status that is one of `?`, `*`, `/`, `-`, `F`, `G` and `+`"
        self.wrong("# Mapfile\n0x0 x 1\n0 16 +\n", 2, "0x0 x 1", expected)

    def test_a_pass_that_is_none(self):
        self.wrong("# Mapfile\n0x0 ? one\n0 16 +\n", 2, "0x0 ? one", "a pass that is a decimal number from 1")

    def test_a_block_that_is_none(self):
        for block in ("0x20 +", "0", "0 16 + +", "0 sixteen +", "0 0x +", "0x1g 16 +", "08 16 +", "0 16.5 +"):
            with self.subTest(block):
                self.wrong(f"# Mapfile\n0x0 ? 1\n# pos size status\n{block}\n", 4, block, BLOCK)

    def test_a_status_that_no_block_has(self):
        expected = "a status that is one of `?`, `*`, `/`, `-` and `+`"
        for status in "FGx":
            self.wrong(f"0x0 ? 1\n0 16 {status}\n", 2, f"0 16 {status}", expected)

    def test_a_gap_or_an_overlap(self):
        expected = "a block that begins where the one before it ended"
        self.wrong("0x0 ? 1\n0 16 +\n17 16 -\n", 3, "17 16 -", expected)
        self.wrong("0x0 ? 1\n0 16 +\n15 16 -\n", 3, "15 16 -", expected)

    def test_an_empty_block(self):
        self.wrong("0x0 ? 1\n0 0 +\n", 2, "0 0 +", "a block of at least one byte")

    def test_numbers_that_are_too_large(self):
        expected = "numbers, and a block's end, below 0x8000000000000000"
        for block in ("0 0x8000000000000000 +", "0x7FFFFFFFFFFFFFFF 1 +", "99999999999999999999 1 +", "1 0xFFFFFFFFFFFFFFFF +"):
            with self.subTest(block):
                self.wrong(f"0x0 ? 1\n{block}\n", 2, block, expected)

    def test_a_map_that_ends_too_early(self):
        self.wrong("", 1, "", STATUS_LINE)
        self.wrong("# Mapfile\n", 2, "", STATUS_LINE)
        self.wrong("# Mapfile\n0x0 ? 1\n", 3, "", BLOCK)

    def test_bytes_that_are_no_text(self):
        path, map_path = self.file("whole.db", self.data), self.file("wrong.map", b"\x00\xff\x1b[2J" + bytes(100) + b"\n")
        ran = run("survey", path, "--map", map_path)
        self.assertEqual(ran.status, 2)
        self.assertIn(f"{map_path}: line 1: found `", ran.err)
        self.assertTrue(ran.err.isascii() and ran.err.rstrip("\n").isprintable() and len(ran.err) < 300, ran.err)

    def test_the_image_taken_for_the_map(self):
        path = self.file("whole.db", self.data)
        ran = run("survey", path, "--map", path)
        self.assertEqual((ran.status, ran.out), (2, b""))
        self.assertIn(f"{path}: line 1: found `", ran.err)

    def test_a_missing_map_and_a_directory(self):
        path, none = self.file("whole.db", self.data), self.folder / "none.map"
        self.refused(run("survey", path, "--map", none), f"{none}: No such file or directory: look whether the name is right")
        self.assertEqual(run("survey", path, "--map", self.folder).status, 2)


class RealMaps(MapTest):
    """Images and maps that the real ddrescue wrote."""

    def rescued(self, bad, *words):
        """Whatever the image lacks is unread, never unallocated or damaged."""
        image, map_path = ddrescue(self.folder, self.file("disc", self.data), "rescued", bad, *words)
        data, lines = image.read_bytes(), self.survey(image, map_path)
        for page, line in lines.items():
            here = slice(page * made.PAGE, (page + 1) * made.PAGE)
            if data[here] != self.data[here]:
                self.assertEqual((page, line["outcome"]), (page, "unread"))
        for path in (image, map_path):
            path.unlink()
        return lines

    def test_finished(self):
        bad = {4: [2], 8: [6, 7], 9: [0], 12: list(range(8)), 31: [6]}
        lines = self.rescued(bad)
        self.assertEqual(self.unread(lines), bad)
        self.assertEqual(self.outcomes(lines, 4, 8, 9, 12, 16, 31), ["unread"] * 4 + ["verified", "unread"])

    def test_not_trimmed_and_not_scraped(self):
        """-N leaves `*`, -n `/`: what ddrescue passed over for now is unread as well."""
        bad = {4: [2], 6: [1, 2, 3, 4], 20: [1]}
        for words in (["-N"], ["-n"]):
            with self.subTest(words):
                unread = self.unread(self.rescued(bad, "-c8", *words))
                self.assertTrue(all(set(sectors) <= set(unread[page]) for page, sectors in bad.items()), unread)

    def test_not_tried(self):
        """A rescue of the first half alone, by -s."""
        lines = self.rescued({4: [2]}, f"-s{len(self.data) // 2}")
        self.assertEqual((len(lines), self.unread(lines)), (32, {4: [2]} | {page: list(range(8)) for page in range(16, 32)}))


if __name__ == "__main__":
    unittest.main()
