"""`survey`: the counts of a whole file, the same in words, JSON and CSV."""
import os
import re
import subprocess
import unittest
import xml.etree.ElementTree as xml
from collections import Counter

import made
from program import EXISTS, PART_EXISTS, ProgramTest, every_outcome, lost, run, whole_outcomes

OUTCOMES = ["unallocated", "superblock", "verified", "calibrated", "corroborated", "unverified", "undecided", "damaged", "cut short",
            "unread"]
NAMES = {"E": "extent", "A": "alloc", "M": "map", "H": "header", "C": "catalog", "@": "bootstrap", "I": "index"}


def tallied(values):
    """Counts without what is not there, keys as JSON has them."""
    return {str(key): count for key, count in Counter(values).items() if key is not None}


def without_zeros(counts):
    return {key: count for key, count in counts.items() if count}


class Counts(ProgramTest):
    def setUp(self):
        super().setUp()
        self.pages = every_outcome()
        self.path = self.file("every.db", self.pages)

    def test_json_counts_what_was_made(self):
        told, = run("survey", self.path, "--json").json()
        pages = self.pages
        self.assertEqual(list(told["outcomes"]), OUTCOMES)
        self.assertEqual(without_zeros(told["outcomes"]), tallied(p.outcome for p in pages))
        self.assertEqual(told["answers"], tallied(p.answer for p in pages))
        self.assertEqual(told["sources"], tallied(p.source for p in pages))
        self.assertEqual(told["confidences"], tallied(p.confidence for p in pages))
        self.assertEqual(told["row_answers"], tallied(p.row_answer for p in pages if p.row_answer))
        self.assertEqual(told["rows"], sum(len(p.rows) for p in pages))
        self.assertEqual((told["pages"], told["size"], told["start"]), (len(pages), self.path.stat().st_size, 0))

    def test_csv_says_of_each_page_what_was_made(self):
        lines = run("survey", self.path, "--csv").csv()
        self.assertEqual([int(line["page"]) for line in lines], list(range(len(self.pages))))
        for line, page in zip(lines, self.pages):
            with self.subTest(page=line["page"]):
                self.assertEqual((line["outcome"], line["answer"]), (page.outcome, str(page.answer)))
                self.assertEqual(line["bv"], "" if page.bv is None else f"{page.bv:02x}")
                self.assertEqual(line["row_answer"], str(page.row_answer or ""))
                self.assertEqual(line["rows"], str(len(page.rows)) if page.row_answer == 0 else "")
                self.assertEqual(line["unread_sectors"], "")

    def test_csv_has_these_columns(self):
        head = run("survey", self.path, "--csv").lines[0]
        self.assertEqual(head, "page,outcome,answer,source,confidence,bv,type,trailer_rows,rows,row_answer,warnings,unread_sectors")

    def test_json_is_one_line_that_jq_reads(self):
        ran = run("survey", self.path, "--json")
        self.assertEqual((len(ran.lines), ran.text.count("\n")), (1, 1))
        summed = subprocess.run(["jq", "-r", "[.outcomes[]] | add"], input=ran.out, capture_output=True, check=True).stdout
        self.assertEqual(int(summed), len(self.pages))

    def test_csv_json_and_words_say_the_same(self):
        told, = run("survey", self.path, "--json").json()
        lines = run("survey", self.path, "--csv").csv()
        self.assertEqual(without_zeros(told["outcomes"]), tallied(line["outcome"] for line in lines))
        self.assertEqual(told["types"], tallied(line["type"] or None for line in lines))
        self.assertEqual(told["rows"], sum(int(line["rows"] or 0) for line in lines))
        words = run("survey", self.path).text
        for outcome, count in without_zeros(told["outcomes"]).items():
            self.assertRegex(words, rf"(?m)^ +{count}  {outcome} ")

    def test_page_types_are_told_apart_by_letter_and_case(self):
        make = made.Maker(3)
        pages = [make.verified(number, 9, kind=kind) for number, kind in enumerate("eEiI@`z", 1)]
        lines = run("survey", self.file("types.db", [made.superblock(8), *pages]), "--csv").csv()
        self.assertEqual([line["type"] for line in lines[1:]],
                         ["extent (lower case)", "extent", "index (lower case)", "index", "bootstrap", "other 60", "other 7a (lower case)"])

    def test_the_stored_row_count_is_shown(self):
        lines = run("survey", self.path, "--csv").csv()
        for line, page in zip(lines, self.pages):
            if page.outcome in ("verified", "calibrated", "corroborated"):
                self.assertEqual(int(line["trailer_rows"]), page.row_count)


class Warnings(ProgramTest):
    def test_pages_that_were_taken_in_spite_of_something_are_counted(self):
        pages = whole_outcomes()
        broken = bytearray(pages[4].stored)
        broken[100] ^= 1
        path = self.file("bad.db", made.joined(pages[:4]) + bytes(broken) + made.joined(pages[5:]))
        ran = run("survey", path, "--allow", "integrity")
        self.assertIn("warnings     1 page read with warnings, which `page` and --csv show", ran.lines)


class Status(ProgramTest):
    def test_all_read_is_0(self):
        self.assertEqual(run("survey", self.file("whole.db", whole_outcomes())).status, 0)

    def test_each_outcome_that_is_not_read_is_1(self):
        make = made.Maker(5)
        for kind in ("no_vote", "zero_data", "in_doubt", "flipped", "reserved"):
            with self.subTest(kind):
                path = self.file("one.db", [made.superblock(2), getattr(make, kind)(1, 9)])
                self.assertEqual(run("survey", path).status, 1)

    def test_a_last_page_cut_short_is_1(self):
        data = made.joined(whole_outcomes())
        told, = run("survey", self.file("cut.db", data[:-1]), "--json").json()
        self.assertEqual((told["outcomes"]["cut short"], told["pages"]), (1, 32))
        self.assertEqual(run("survey", self.folder / "cut.db").status, 1)

    def test_an_unread_page_is_1(self):
        pages = whole_outcomes()
        path = self.file("whole.db", pages)
        self.assertEqual(run("survey", path, "--map", self.map("whole.map", path.stat().st_size, {3: [0]})).status, 1)

    def test_a_range_without_bad_pages_is_0(self):
        path = self.file("every.db", every_outcome())
        self.assertEqual((run("survey", path, "--pages", "16..32").status, run("survey", path, "--pages", "15..40").status), (0, 1))


class PageZero(ProgramTest):
    def line(self, page):
        make = made.Maker(29)
        return run("survey", self.file("zero.db", [page, make.verified(1, 7)]), "--csv").csv()[0]

    def test_with_magic_and_crc_is_the_superblock(self):
        line = self.line(made.superblock(2))
        self.assertEqual((line["outcome"], line["answer"], line["bv"]), ("superblock", "0", ""))

    def test_with_the_magic_and_a_bad_crc_is_damaged_whatever_is_allowed(self):
        page = made.damaged(made.superblock(2).stored[:-1] + b"?", 3)
        line = self.line(page)
        self.assertEqual((line["outcome"], line["answer"]), ("damaged", "3"))
        line = run("survey", self.folder / "zero.db", "--csv", "--allow", "keystream,integrity").csv()[0]
        self.assertEqual((line["outcome"], line["bv"]), ("damaged", ""))

    def test_without_the_magic_is_read_as_any_other(self):
        line = self.line(made.Maker(31).calibrated(0, 0x19))
        self.assertEqual((line["outcome"], line["bv"]), ("calibrated", "19"))


class Ranges(ProgramTest):
    def test_the_pages_asked_for_and_no_others(self):
        path = self.file("every.db", every_outcome())
        whole = run("survey", path, "--csv").lines
        for words, wanted in {"16..32": range(16, 32), "5..7": range(5, 7), "..3": range(3), "300..": range(300, 321), "310..=311": range(310, 312),
                              "0x10..0x12": range(16, 18), "318..400": range(318, 321)}.items():
            with self.subTest(words):
                self.assertEqual(run("survey", path, "--csv", "--pages", words).lines, whole[:1] + [whole[1 + n] for n in wanted])

    def test_anchors_come_from_outside_the_range_too(self):
        path = self.file("every.db", every_outcome())
        line, = run("survey", path, "--csv", "--pages", "3..4").csv()
        self.assertEqual(line["outcome"], "corroborated")

    def test_a_range_behind_the_end(self):
        path = self.file("whole.db", whole_outcomes())
        self.refused(run("survey", path, "--pages", "32.."), f"{path}: it has pages 0 to 31, and none of those was asked for")


class Notes(ProgramTest):
    """What looks wrong is said on standard error, and in the JSON; --quiet keeps it off standard error."""

    def notes(self, *words):
        ran = run("survey", *words)
        told, = run("survey", *words, "--json").json()
        said = re.findall(r"(?m)^note: (.*)$", ran.err)
        self.assertEqual(told["notes"], said)
        self.assertEqual(run("survey", *words, "--quiet").err, "")
        return said

    def test_nothing_is_noted_of_a_sound_file(self):
        make = made.Maker(11)
        pages = [made.superblock(16)] + [make.verified(number, 7) for number in range(1, 16)]
        self.assertEqual(self.notes(self.file("sound.db", pages)), [])

    def test_unallocated_pages_without_a_map(self):
        path = self.file("whole.db", whole_outcomes())
        note, = self.notes(path)
        self.assertIn("zeros", note)
        self.assertIn("--map", note)
        self.assertEqual(self.notes(path, "--map", self.map("whole.map", path.stat().st_size, {})), [])

    def test_a_magic_that_is_not_sql_anywhere_17s(self):
        make = made.Maker(11)
        pages = [made.superblock(16, magic=0x12345678)] + [make.verified(number, 7) for number in range(1, 16)]
        note, = self.notes(self.file("other.db", pages))
        self.assertIn("12345678", note)
        self.assertIn("--start", note)

    def test_a_wrong_start(self):
        make = made.Maker(13)
        pages = [made.superblock(64)] + [make.verified(number, 40 + number // 16) for number in range(1, 64)]
        path = self.file("shifted.db", bytes(made.PAGE) + made.joined(pages))
        self.assertTrue(any("bv" in note and "--start" in note for note in self.notes(path)))
        self.assertEqual(self.notes(path, "--start", made.PAGE), [])

    def test_a_file_cut_short(self):
        make = made.Maker(11)
        data = made.joined([made.superblock(16)] + [make.verified(number, 7) for number in range(1, 16)])
        note, = self.notes(self.file("cut.db", data[:-100]))
        self.assertTrue(note.startswith("the last page, 15, has 3996 of 4096 bytes"))


    def test_unread_pages_and_the_command_that_mends_them(self):
        make = made.Maker(11)
        data = made.joined([made.superblock(16)] + [make.verified(number, 7) for number in range(1, 16)])
        path = self.file("lost.img", lost(data, {4: [2], 5: [3]}))
        note, = self.notes(path, "--map", self.map("lost.map", len(data), {4: [2], 5: [3]}))
        self.assertTrue(note.startswith(f"sectors of 2 pages are unread: with a second copy, `lumeviqo mend {path} "), note)

    def test_a_map_of_another_file(self):
        path = self.file("short.db", whole_outcomes()[:8])
        note, = self.notes(path, "--map", self.map("long.map", 32 * made.PAGE, {}))
        self.assertIn("look whether it is the map of this file", note)


class Holes(ProgramTest):
    def test_of_a_sparse_file_read_as_zeros(self):
        """The same bytes with holes and without, also where a page begins in a hole and ends behind it."""
        data = made.joined(every_outcome()[:80]) + bytes(5 << 20) + made.joined(every_outcome()[80:])
        for front in (0, 512, 4096):
            image = bytes(front) + data
            dense, sparse = self.file("dense.db", image), self.file("sparse.db", b"")
            with open(sparse, "r+b") as file:
                for at in range(0, len(image), 4096):
                    if any(image[at:at + 4096]):
                        file.seek(at)
                        file.write(image[at:at + 4096])
                file.truncate(len(image))
            self.assertLess(sparse.stat().st_blocks, dense.stat().st_blocks)
            for words in (["--csv"], ["--csv", "--pages", "70..1400"], ["--csv", "--map", self.map("both.map", len(image), {90: [1], 1000: [2]})]):
                with self.subTest(front=front, words=words):
                    whole = run("survey", dense, "--start", front, "--threads", 2, *words)
                    self.assertEqual(run("survey", sparse, "--start", front, "--threads", 2, *words).out, whole.out)
                    self.assertGreater(len(whole.lines), 1000)


class Names(ProgramTest):
    def test_that_are_no_text(self):
        path = self.folder / os.fsdecode(b"b\xffrds.db")
        path.write_bytes(made.joined(whole_outcomes()))
        for words in ([], ["--json"], ["--svg", self.folder / "birds.svg"]):
            self.assertEqual(run("survey", path, *words).status, 0)
        self.assertEqual(run("survey", path, "--json").json()[0]["pages"], 32)
        xml.parse(self.folder / "birds.svg")


class Pictures(ProgramTest):
    def test_is_xml_with_the_counts_in_its_legend(self):
        path = self.file("every.db", every_outcome())
        run("survey", path, "--svg", self.folder / "every.svg")
        text = " ".join(xml.parse(self.folder / "every.svg").getroot().itertext())
        for outcome, count in Counter(page.outcome for page in every_outcome()).items():
            self.assertRegex(text, rf"{outcome}\D{{0,20}}{count}\b")
        self.assertEqual(self.left(), ["every.db", "every.svg"])

    def test_an_existing_file_is_not_written_over(self):
        path, old = self.file("whole.db", whole_outcomes()), self.file("old.svg", "mine")
        self.refused(run("survey", path, "--svg", old), f"{old}: {EXISTS}")
        self.assertEqual(old.read_text(), "mine")

    def test_a_left_over_part_is_not_written_over(self):
        path, old = self.file("whole.db", whole_outcomes()), self.file("new.svg.part", "mine")
        self.refused(run("survey", path, "--svg", self.folder / "new.svg"), f"{old}: {PART_EXISTS}")
        self.assertEqual((old.read_text(), self.left()), ("mine", ["new.svg.part", "whole.db"]))

    def test_a_picture_of_a_file_with_a_strange_name(self):
        path = self.file("a <b> & \"c\".db", whole_outcomes())
        run("survey", path, "--svg", self.folder / "strange.svg")
        xml.parse(self.folder / "strange.svg")


if __name__ == "__main__":
    unittest.main()
