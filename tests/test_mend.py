"""`mend`: sectors of further copies in a new file, which is read afresh before it gets its name."""
import os
import random
import subprocess
import unittest

import made
import maps
from program import EXISTS, PART_EXISTS, ProgramTest, ddrescue, lost, run, whole_outcomes

BAD_1 = {4: [2], 8: [6, 7], 9: [0, 1, 2], 12: range(8), 17: [3], 20: [5], 3: [4]}
BAD_2 = {4: [3], 8: [0], 9: [4], 5: [1], 28: [7], 7: [0]}
BAD_3 = {1: [1], 9: [7], 16: [0]}


class MendTest(ProgramTest):
    def setUp(self):
        super().setUp()
        self.pages = whole_outcomes()
        self.data = made.joined(self.pages)
        self.out = self.folder / "out.db"

    def image(self, name, bad):
        """An image that lacks these sectors, and its map."""
        return self.file(f"{name}.img", lost(self.data, bad)), self.map(f"{name}.map", len(self.data), bad)

    def mend(self, image, map_path, *copies, words=()):
        """`copies` are pairs of an image and its map; either map may be None."""
        given = ["--map", map_path] if map_path else []
        for copy, copy_map in copies:
            given += ["--copy", copy] + (["--copy-map", copy_map] if copy_map else [])
        return run("mend", image, *given, "-o", self.out, *words)

    def gives(self, ran, data, status=0):
        """The new file is there, byte for byte, and nothing else was made."""
        self.assertEqual((ran.status, self.out.exists()), (status, True), ran.err)
        self.assertTrue(self.out.read_bytes() == data)
        self.assertFalse([name for name in self.left() if name.endswith(".part")])

    def last_words(self, ran):
        """What the last line says behind the new file's name."""
        name, words = ran.lines[-1].split(": ", 1)
        self.assertEqual(name, str(self.out))
        return words

    def pages_told(self, ran):
        """The numbers of the pages that lines are about, in their order."""
        return [int(line.split()[1].rstrip(":,")) for line in ran.lines if line.startswith("page ")]


class WithMaps(MendTest):
    def test_two_copies_give_the_undamaged_file(self):
        ran = self.mend(*self.image("first", BAD_1), self.image("second", BAD_2))
        self.gives(ran, self.data)
        self.assertEqual(self.pages_told(ran), sorted(BAD_1))

    def test_two_copies_of_the_real_ddrescue(self):
        disc = self.file("disc", self.data)
        first, second = ddrescue(self.folder, disc, "first", BAD_1), ddrescue(self.folder, disc, "second", BAD_2)
        self.gives(self.mend(*first, second), self.data)

    def test_a_third_copy_fills_what_is_left(self):
        bad_2 = BAD_2 | {4: [2], 12: [0, 5]}
        ran = self.mend(*self.image("first", BAD_1), self.image("second", bad_2), self.image("third", BAD_3))
        self.gives(ran, self.data)

    def test_a_copy_without_a_map_is_taken_to_be_whole_where_it_has_data(self):
        second = self.file("second.img", self.data)
        ran = self.mend(*self.image("first", BAD_1), (second, None))
        self.gives(ran, self.data, 1)
        self.assertEqual(ran.lines[0], f"page 3: no copy has sector 4 ({second} has zeros there, and no map): unread")
        self.assertEqual(self.last_words(ran), "6 pages came back, 16 sectors from copies, each read afresh from the new file; 1 page not read")

    def test_zeros_of_a_copy_without_a_map_may_be_unread_there_too(self):
        """As an unallocated page they would come back, and its rows would be lost without a word."""
        both = {8: [3, 4], 12: range(8)}
        second = self.file("second.img", lost(self.data, both))
        ran = self.mend(*self.image("first", both | {4: [2]}), (second, None))
        self.gives(ran, lost(self.data, both), 1)
        zeros = f"({second} has zeros there, and no map): unread"
        self.assertEqual(ran.lines[1:3], [f"page 8: no copy has sectors 3 4 {zeros}", f"page 12: no copy has sectors 0 1 2 3 4 5 6 7 {zeros}"])

    def test_a_copy_of_the_second_map_alone(self):
        """The map behind the second copy is the second copy's."""
        whole = self.file("whole.img", self.data)
        ran = self.mend(*self.image("first", BAD_1), (whole, None), self.image("third", BAD_3))
        self.gives(ran, self.data)

    def test_what_both_lack_stays_unread(self):
        """Page 4 comes back in part: its sectors are in the file, and it is still unread."""
        bad_1, bad_2 = BAD_1 | {4: [2, 3]}, BAD_2
        ran = self.mend(*self.image("first", bad_1), self.image("second", bad_2))
        self.gives(ran, lost(self.data, {4: [3]}), 1)

    def test_the_files_given_stay_as_they_were(self):
        first, second = self.image("first", BAD_1), self.image("second", BAD_2)
        before = [path.read_bytes() for path in (*first, *second)]
        self.mend(*first, second)
        self.assertEqual([path.read_bytes() for path in (*first, *second)], before)
        self.assertEqual(self.left(), ["first.img", "first.map", "out.db", "second.img", "second.map"])

    def test_a_sector_that_spoils_a_good_page_is_not_taken(self):
        """The page's CRC is right although the map has a sector of it as unread: what a copy has there is not needed."""
        first = self.file("first.img", self.data), self.map("first.map", len(self.data), {4: [2]})
        ran = self.mend(*first, (self.file("second.img", lost(self.data, {4: [2]})), None))
        self.gives(ran, self.data)

    def test_a_page_range_alone_is_mended(self):
        ran = self.mend(*self.image("first", BAD_1), self.image("second", BAD_2), words=["--pages", "8..16"])
        left = {page: sectors for page, sectors in BAD_1.items() if not 8 <= page < 16}
        self.gives(ran, lost(self.data, left))
        self.assertEqual(self.pages_told(ran), [8, 9, 12])

    def test_inside_an_image(self):
        front = b"boot" * 256
        size = len(front) + len(self.data)
        first = self.file("first.img", front + lost(self.data, {4: [2]}))
        at = len(front) + 4 * made.PAGE + 2 * made.SECTOR
        first_map = self.file("first.map", maps.text([(0, at, "+"), (at, 512, "-"), (at + 512, size - at - 512, "+")]))
        second = self.file("second.img", b"else" * 256 + self.data)
        ran = self.mend(first, first_map, (second, None), words=["--start", len(front)])
        self.gives(ran, front + self.data)

    def test_pages_behind_the_end_of_the_first_image(self):
        """ddrescue's image ends with the last sector that it read. The last page is unallocated."""
        cut = 29 * made.PAGE + 3 * made.SECTOR
        first = self.file("first.img", self.data[:cut]), self.map("first.map", len(self.data), {29: range(3, 8), 30: range(8), 31: range(8)})
        self.gives(self.mend(*first, self.image("second", {})), self.data)

    def test_the_new_file_ends_with_the_last_page_that_a_copy_gave(self):
        """Behind the first image's end the map has three pages; zeros that nobody read are none of the new file's."""
        tail = {29: range(8), 30: range(8), 31: range(8)}
        first = self.file("first.img", self.data[:29 * made.PAGE]), self.map("first.map", len(self.data), tail)
        middle = {29: range(8), 31: range(8)}
        for copy, data in ((self.image("none", tail), self.data[:29 * made.PAGE]),
                           (self.image("middle", middle), lost(self.data[:31 * made.PAGE], {29: range(8)})),
                           ((self.file("whole.img", self.data), None), self.data[:31 * made.PAGE])):  # the last page of it is zeros, and has no map
            self.gives(self.mend(*first, copy), data, 1)
            self.out.unlink()

    def short(self):
        """An image of ten pages without superblock, and its map: it alone knows of the other pages, which are more than the image has."""
        bad = {0: [0]} | {page: range(8) for page in range(10, 32)}
        return self.file("first.img", lost(self.data, bad)[:10 * made.PAGE]), self.map("first.map", len(self.data), bad)

    def test_pages_that_the_map_and_a_copy_alone_know(self):
        ran = self.mend(*self.short(), self.image("second", {}))
        self.gives(ran, self.data)
        self.assertTrue(self.last_words(ran).endswith("; all pages asked for are read"))

    def test_pages_behind_the_last_of_the_copies(self):
        second, map_path = self.image("second", {})
        os.truncate(second, 20 * made.PAGE)
        ran = self.mend(*self.short(), (second, map_path))
        self.gives(ran, self.data[:20 * made.PAGE], 1)
        self.assertTrue(self.last_words(ran).endswith("; pages may be missing behind the last one"))
        self.assertIn("note: the map has 49,152 unread bytes behind the last page of the copies: pages may be missing there", ran.err)

    def test_a_copy_that_ends_inside_a_page(self):
        end = 20 * made.PAGE + 3 * made.SECTOR
        ran = self.mend(*self.short(), (self.file("second.img", self.data[:end]), None), words=["--pages", "20.."])
        self.assertEqual(ran.lines[0], f"page 20: sectors 0 1 2 from {self.folder}/second.img, no copy has sectors 3 4 5 6 7: unread")
        self.assertEqual(self.out.read_bytes()[10 * made.PAGE:], bytes(10 * made.PAGE) + self.data[20 * made.PAGE:end].ljust(made.PAGE, b"\0"))

    def test_a_copy_that_is_shorter(self):
        first = self.image("first", {4: [2], 28: [1]})
        ran = self.mend(*first, (self.file("second.img", self.data[:10 * made.PAGE]), None))
        self.gives(ran, lost(self.data, {28: [1]}), 1)

    def test_copies_that_disagree_in_unread_sectors(self):
        """The first copy is of another day in one sector, the second in another: one combination has the page's CRC."""
        old = [self.file(f"{sector}.img", flipped(self.data, 4, sector)) for sector in (2, 5)]
        ran = self.mend(*self.image("first", {4: [2, 5]}), *((path, None) for path in old))
        self.gives(ran, self.data)
        rows = self.pages[4].row_count
        self.assertEqual(ran.lines[0], f"page 4: sector 5 from {old[0]}, sector 2 from {old[1]}, which alone gives a good CRC: verified, {rows} rows")

    def test_a_damaged_page_that_the_map_has_as_read(self):
        image, map_path = self.image("first", {4: [2]})
        spoiled = self.file("first.img", flipped(flipped(image.read_bytes(), 8, 3), 9, 1))
        second = self.file("second.img", flipped(self.data, 9, 1))
        ran = self.mend(spoiled, map_path, (second, None))
        self.gives(ran, flipped(self.data, 9, 1), 1)
        rows = self.pages[8].row_count
        self.assertEqual(ran.lines[1:3], [f"page 8: sector 3 from {second}, which alone gives a good CRC: verified, {rows} rows",
                                          "page 9: its CRC is bad, and no copy differs from it: damaged (answer 3)"])

    def test_a_copy_whose_sector_is_another_ones_leaves_the_page_damaged(self):
        """A second copy of another day: the sector is in the new file, and the page's CRC says what it is worth."""
        stale = list(self.pages)
        stale[4] = made.Maker(99).verified(4, self.pages[4].bv)
        ran = self.mend(*self.image("first", {4: [7]}), (self.file("second.img", stale), None))
        self.assertEqual((ran.status, ran.lines[0].rsplit(": ", 1)[1]), (1, "damaged (answer 3)"))

    def test_says_of_each_page_what_came_and_how_it_reads(self):
        first, second, third = self.image("first", {4: [2, 3], 8: [0], 9: [1]}), self.image("second", {4: [3], 9: [1]}), self.image("third", {9: [1]})
        ran = self.mend(*first, second, third)
        rows = [self.pages[page].row_count for page in (4, 8)]
        self.assertEqual(ran.lines[:3], [
            f"page 4: sector 2 from {second[0]}, sector 3 from {third[0]}: verified, {rows[0]} rows",
            f"page 8: sector 0 from {second[0]}: verified, {rows[1]} rows",
            "page 9: no copy has sector 1: unread"])
        self.assertEqual((len(ran.lines), ran.status), (4, 1))
        self.assertTrue(ran.lines[3].startswith(f"{self.out}: 2 pages came back, 3 sectors from copies"))

    def test_a_page_that_was_read_before_does_not_come_back(self):
        """Its CRC is good: by the copy the map knows that the sector is read, too."""
        first = self.file("first.img", lost(self.data, {8: [1]})), self.map("first.map", len(self.data), {4: [2], 8: [1]})
        ran = self.mend(*first, (self.file("second.img", self.data), None))
        self.gives(ran, self.data)
        words = "1 page came back, 2 sectors from copies, each read afresh from the new file; all pages asked for are read"
        self.assertEqual(self.last_words(ran), words)

    def test_nor_does_one_that_was_read_in_spite_of_its_crc(self):
        first, second = self.file("first.img", flipped(self.data, 8, 3)), self.file("second.img", self.data)
        for allowed, back in (([], "1 page"), (["--allow", "integrity"], "0 pages")):
            ran = self.mend(first, None, (second, None), words=allowed)
            self.gives(ran, self.data)
            self.assertTrue(self.last_words(ran).startswith(f"{back} came back, 1 sector from copies"), ran.text)
            self.out.unlink()

    def test_where_no_sector_came(self):
        ran = self.mend(*self.image("first", {4: [2]}), self.image("second", {4: [2]}))
        self.assertEqual(ran.lines, ["page 4: no copy has sector 2: unread", f"{self.out}: nothing was changed; 1 page not read"])
        self.out.unlink()
        ran = self.mend(*self.image("whole", {}), self.image("second", {}))
        self.assertEqual((ran.status, ran.lines), (0, [f"{self.out}: nothing was changed; all pages asked for are read"]))

    def test_an_undecided_page_is_not_passed_over(self):
        """Nothing is done with it, and the status still says that not all pages are read."""
        pages = [*self.pages[:10], made.Maker(3).no_vote(10, 0x55), *self.pages[11:]]
        self.data = made.joined(pages)
        ran = self.mend(*self.image("first", {4: [2]}), (self.file("second.img", self.data), None))
        self.gives(ran, self.data, 1)

    def test_holes_stay_holes(self):
        size = 256 << 20
        first, second = self.image("first", {4: [2]})[0], self.file("second.img", self.data)
        for path in (first, second):
            os.truncate(path, size)
        ran = self.mend(first, self.map("first.map", size, {4: [2]}), (second, None))
        self.assertEqual((ran.status, self.out.stat().st_size), (0, size))
        self.assertLess(self.out.stat().st_blocks * 512, 1 << 20)

    def test_names_without_a_folder(self):
        self.image("first", {4: [2]})
        self.file("second.img", self.data)
        ran = run("mend", "first.img", "--map", "first.map", "--copy", "second.img", "-o", "out.db", cwd=self.folder)
        self.gives(ran, self.data)


class AnyRescues(MendTest):
    """Copies of one disc, each with holes of its own and perhaps cut off: what any of them has is in the new file, and nothing else."""

    def rescue(self, rng, name, front):
        """An image whose pages begin at `front`, its map, and what it lacks: pairs of page and sector."""
        lacks = {(page, sector) for page in rng.sample(range(32), rng.randrange(1, 12)) for sector in rng.sample(range(8), rng.randrange(1, 9))}
        image = b"boot" * (front // 4) + without(self.data, lacks)
        places = sorted(front + page * made.PAGE + sector * made.SECTOR for page, sector in lacks)
        map_path = self.file(f"{name}.map", maps.text(maps.unread(len(image), {0: [place // made.SECTOR for place in places]})))
        end = len(image)
        while rng.random() < 0.7 and end - made.SECTOR in places:  # ddrescue's image ends with the last sector that it read
            end -= made.SECTOR
        return self.file(f"{name}.img", image[:end]), map_path, lacks

    def unread(self, path, map_path, front):
        lines = run("survey", path, "--map", map_path, "--start", front, "--csv").csv()
        return {(int(line["page"]), int(sector)) for line in lines for sector in line["unread_sectors"].split()}

    def test_give_what_any_of_them_has(self):
        rng = random.Random(2024)
        for case in range(40):
            front = rng.choice([0, made.SECTOR, 63 * made.SECTOR])
            (image, map_path, lacks), *others = [self.rescue(rng, name, front) for name in "abc"[:rng.randrange(2, 4)]]
            new = self.folder / "new.map"
            words = ["--start", front, "--new-map", new, "--threads", rng.randrange(1, 4)]
            ran = self.mend(image, map_path, *((copy, copy_map) for copy, copy_map, _ in others), words=words)
            left = lacks.intersection(*(lacks for _, _, lacks in others))
            with self.subTest(case=case):
                self.assertEqual(ran.status, int(bool(left)), ran.err)
                self.assertEqual(self.unread(self.out, new, front), left)
                self.assertTrue(self.out.read_bytes()[front:].ljust(len(self.data), b"\0") == without(self.data, left))
            for name in self.left():
                (self.folder / name).unlink()


class NewMaps(MendTest):
    def test_the_map_that_remains(self):
        bad_1 = BAD_1 | {4: [2, 3]}
        new = self.folder / "new.map"
        self.mend(*self.image("first", bad_1), self.image("second", BAD_2), words=["--new-map", new])
        lines = run("survey", self.out, "--map", new, "--csv").csv()
        self.assertEqual([(line["page"], line["unread_sectors"]) for line in lines if line["unread_sectors"]], [("4", "3")])

    def test_ddrescue_reads_it(self):
        new = self.folder / "new.map"
        self.mend(*self.image("first", BAD_1), self.image("second", BAD_2), words=["--new-map", new])
        done = subprocess.run(["ddrescuelog", "--done-status", new], capture_output=True)
        self.assertEqual((done.returncode, done.stderr), (0, b""))

    def test_an_existing_map_is_not_written_over(self):
        old = self.file("old.map", "mine")
        ran = self.mend(*self.image("first", BAD_1), self.image("second", BAD_2), words=["--new-map", old])
        self.refused(ran, f"{old}: {EXISTS}")
        self.assertEqual((old.read_text(), self.out.exists(), (self.folder / "out.db.part").exists()), ("mine", False, False))

    def test_the_mended_file_is_no_map(self):
        for name in (self.out, f"{self.folder}/../{self.folder.name}/./out.db"):
            ran = self.mend(*self.image("first", BAD_1), self.image("second", BAD_2), words=["--new-map", name])
            self.refused(ran, f"{name}: this is the mended file's name too: give --new-map another")
        self.assertEqual(self.left(), ["first.img", "first.map", "second.img", "second.map"])


class WithoutMaps(MendTest):
    """Only pages with a bad CRC are tried, with the sectors that differ between the copies."""

    def mended(self, first, second):
        return self.mend(self.file("first.img", first), None, (self.file("second.img", second), None))

    def test_the_one_combination_with_a_good_crc_is_taken(self):
        ran = self.mended(lost(self.data, {4: [2, 6], 9: [1]}), lost(self.data, {4: [1, 7], 9: [5]}))
        self.gives(ran, self.data)
        self.assertEqual(self.pages_told(ran), [4, 9])

    def test_all_eight_sectors_may_differ(self):
        first, second = lost(self.data, {4: [0, 2, 4, 6]}), lost(self.data, {4: [1, 3, 5, 7]})
        self.gives(self.mended(first, second), self.data)

    def test_a_page_with_a_good_crc_is_left_alone(self):
        """Page 4 of the copy is good too, and another."""
        other = list(self.pages)
        other[4] = made.Maker(99).verified(4, self.pages[4].bv)
        ran = self.mended(lost(self.data, {9: [1]}), made.joined(other))
        self.gives(ran, self.data)
        self.assertEqual(self.pages_told(ran), [9])

    def test_where_no_combination_fits_nothing_is_taken(self):
        first = lost(self.data, {4: [2], 9: [1]})
        ran = self.mended(first, lost(self.data, {4: [2, 3], 9: [1]}))
        self.gives(ran, first, 1)

    def test_where_two_combinations_fit_nothing_is_taken(self):
        """Sectors whose differences have no share in the CRC: with and without the second, the page's CRC is right."""
        page = self.pages[4].stored
        twin = crc_twin(page, 2)
        first = self.data[:4 * made.PAGE] + spoiled(page, 5) + self.data[5 * made.PAGE:]
        second = self.data[:4 * made.PAGE] + twin + self.data[5 * made.PAGE:]
        ran = self.mended(first, second)
        self.gives(ran, first, 1)
        self.assertEqual(self.pages_told(ran), [4])

    def test_a_third_copy_gives_further_combinations(self):
        copies = [(self.file(f"{n}.img", lost(self.data, {4: bad})), None) for n, bad in enumerate(([2, 6], [1, 2], [1, 6]))]
        ran = self.mend(copies[0][0], None, *copies[1:])
        self.gives(ran, self.data)

    def test_zeros_where_a_copy_has_data_are_noted_and_left(self):
        """A page that was never read is zeros, and so is one that was never written: without a map nobody knows."""
        first = lost(self.data, {4: range(8)})
        ran = self.mended(first, self.data)
        self.gives(ran, first)
        self.assertIn("note: 1 page of zeros where a copy has data: give the ddrescue map of the first with --map", ran.err)

    def test_a_copy_that_is_longer_is_noted(self):
        first, second = self.file("first.img", self.data[:30 * made.PAGE]), self.file("second.img", self.data)
        ran = self.mend(first, None, (second, None))
        self.gives(ran, self.data[:30 * made.PAGE])
        self.assertEqual(ran.err, f"note: {second} goes on for 8,192 bytes behind the end of {first}: {first} may have been cut short\n")


def without(data, sectors):
    """As `lost`, for pairs of page and sector."""
    return lost(data, {page: [s for p, s in sectors if p == page] for page, _ in sectors})


def flipped(data, page, sector):
    """The same with another byte in this sector."""
    at = page * made.PAGE + sector * made.SECTOR + 100
    return data[:at] + bytes([data[at] ^ 1]) + data[at + 1:]


def spoiled(page, sector):
    return lost(page, {0: [sector]})


def crc_twin(page, sector):
    """Another page with the same CRC, which differs in this sector alone."""
    twin = bytearray(page)
    for at, byte in enumerate(POLYNOMIAL, sector * made.SECTOR):
        twin[at] ^= byte
    assert made.sealed(bytes(twin)) == bytes(twin) != page
    return bytes(twin)


# V.42's polynomial, bits of each byte from the low end: XORed anywhere into a message it leaves the CRC as it was.
POLYNOMIAL = (0x1DB710641).to_bytes(5, "little")


class Copies(MendTest):
    def test_the_file_itself_is_no_copy(self):
        first = self.image("first", BAD_1)
        link = self.folder / "link.img"
        os.link(first[0], link)
        for copy in (first[0], link):
            self.refused(self.mend(*first, (copy, None)), f"{copy}: this is the file that is to be mended: name another copy")

    def test_a_copy_that_can_not_be_read(self):
        first, none = self.image("first", BAD_1), self.folder / "none.img"
        self.refused(self.mend(*first, (none, None)), f"{none}: No such file or directory: look whether the name is right")
        empty = self.file("empty.img", b"")
        self.refused(self.mend(*first, (empty, None)), f"{empty}: the file is empty: there is no page in it")
        wrong = self.file("wrong.map", "0 ? 1\n0 16 x\n")
        ran = self.mend(*first, (self.file("second.img", self.data), wrong))
        self.refused(ran, f"{wrong}: line 2: found `0 16 x`, expected a status that is one of `?`, `*`, `/`, `-` and `+`")
        self.assertNotIn("out.db", " ".join(self.left()))


class NotWrittenOver(MendTest):
    def test_an_out_that_exists(self):
        self.file("out.db", "mine")
        ran = self.mend(*self.image("first", BAD_1), self.image("second", BAD_2))
        self.refused(ran, f"{self.out}: {EXISTS}")
        self.assertEqual(self.out.read_text(), "mine")

    def test_an_out_that_is_a_link_to_nothing(self):
        self.out.symlink_to(self.folder / "nothing")
        self.assertEqual(self.mend(*self.image("first", BAD_1), self.image("second", BAD_2)).status, 2)
        self.assertTrue(self.out.is_symlink() and not self.out.exists())

    def test_a_part_that_exists(self):
        part = self.file("out.db.part", "mine")
        ran = self.mend(*self.image("first", BAD_1), self.image("second", BAD_2))
        self.refused(ran, f"{part}: {PART_EXISTS}")
        self.assertEqual((part.read_text(), self.out.exists()), ("mine", False))

    def test_file_and_copies_as_out(self):
        first, second = self.image("first", BAD_1), self.image("second", BAD_2)
        for out in (first[0], second[0]):
            self.out = out
            before = out.read_bytes()
            self.assertEqual(self.mend(*first, second).status, 2)
            self.assertEqual(out.read_bytes(), before)

    def test_a_folder_that_is_not_there(self):
        self.out = self.folder / "none" / "out.db"
        ran = self.mend(*self.image("first", BAD_1), self.image("second", BAD_2))
        self.refused(ran, f"{self.out}.part: No such file or directory: look whether its folder is there")


if __name__ == "__main__":
    unittest.main()
