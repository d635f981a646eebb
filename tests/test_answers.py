"""Every page's answer is that of the proved program `report`, which is lent the anchors of the page's block."""
import unittest

import made
import reported
from program import ProgramTest, every_outcome, run

OPTIONS = {
    "strictly": ([], {}),
    "keystream": (["--allow", "keystream"], {"leniency": reported.KEYSTREAM}),
    "integrity": (["--allow", "integrity"], {"leniency": reported.INTEGRITY}),
    "all": (["--allow", "keystream,directory,integrity"], {"leniency": 7}),
    "a least row count": (["--min-count", 10], {"min_count": 10}),
    "no least row count": (["--min-count", 0], {"min_count": 0}),
    "a short search": (["--limit", 64], {"limit": 64}),
    "the widest search": (["--limit", 2048], {"limit": 2048}),
}


def number(text, base=10):
    return int(text, base) if text else None


def said(line):
    """A line of `survey --csv` in the form of a reported answer."""
    return (number(line["answer"]), line["source"] or None, line["confidence"] or None, number(line["bv"], 16))


def answered(answer):
    return (answer.answer, answer.source, answer.confidence, answer.bv)


class Answers(ProgramTest):
    def compare(self, path, expected, *words):
        lines = {int(line["page"]): line for line in run("survey", path, "--csv", *words).csv()}
        for page, answer in expected.items():
            with self.subTest(page=page):
                self.assertEqual(said(lines[page]), answered(answer))
                self.assertEqual(lines[page]["warnings"], str(answer.warnings) if answer.answer == 0 else "")
        return lines

    def test_of_every_page_under_every_option(self):
        pages = every_outcome()
        path, data = self.file("every.db", pages), made.joined(pages)
        for name, (words, asked) in OPTIONS.items():
            with self.subTest(name):
                expected = reported.reported(data, **asked)
                del expected[0]  # the superblock is not decoded
                lines = self.compare(path, expected, *words)
                self.assertEqual(len(lines), len(pages))

    def test_of_pages_inside_an_image(self):
        data = made.joined(every_outcome()[:64])
        path = self.file("disc.img", b"boot" * 384 + data)
        expected = reported.reported(data)
        del expected[0]
        self.compare(path, expected, "--start", 1536)

    def test_of_pages_under_wrong_numbers(self):
        """With a page skipped the numbers are wrong: the program says what the reader says to those, the anchors too."""
        data = made.joined(every_outcome()[1:80])
        expected = reported.reported(data)
        self.compare(self.file("shifted.db", data), expected)

    def test_made_pages_are_what_they_are_said_to_be(self):
        pages = every_outcome()
        answers = reported.reported(made.joined(pages))
        for page in range(1, len(answers)):
            with self.subTest(page=page):
                self.assertEqual(answered(answers[page]), answered(pages[page]))


if __name__ == "__main__":
    unittest.main()
