//! A file's pages by blocks: whole files and cut ones, from any page on, and readers that give little, stop for a while, or fail.
use std::io::{self, Error, ErrorKind, Read};

use lumeviqo::{BLOCK_PAGES, Block, PAGE, Pages};

/// As many bytes, no two pages alike.
fn file(length: usize) -> Vec<u8> {
    (0..length).map(|at| (at / PAGE * 31 + at % 251) as u8).collect()
}

fn blocks(pages: Pages<impl Read>) -> Vec<Block> {
    pages.collect::<io::Result<_>>().unwrap()
}

/// The blocks have all pages in order, each with its number and its bytes, and no block goes past its end.
fn assert_whole(file: &[u8], start: u64, blocks: &[Block]) {
    let pages: Vec<(u64, &[u8])> = blocks.iter().flat_map(Block::pages).collect();
    assert!(pages == (start..).zip(file.chunks(PAGE)).collect::<Vec<_>>());
    for block in blocks {
        let (first, count) = (block.first(), block.pages().len() as u64);
        assert!(count > 0 && block.pages().next().unwrap().0 == first);
        assert_eq!(first / BLOCK_PAGES, (first + count - 1) / BLOCK_PAGES);
    }
    assert!(blocks.iter().skip(1).all(|b| b.first() % BLOCK_PAGES == 0));
}

/// Gives one byte at a time, and before each says that it was interrupted.
struct Slow<'a> {
    rest: &'a [u8],
    interrupted: bool,
}

impl Read for Slow<'_> {
    fn read(&mut self, out: &mut [u8]) -> io::Result<usize> {
        self.interrupted = !self.interrupted;
        if self.interrupted {
            return Err(ErrorKind::Interrupted.into());
        }
        self.rest.take(1).read(out).inspect(|&n| self.rest = &self.rest[n..])
    }
}

/// Gives what it has, then fails at every further reading.
struct Failing<'a>(&'a [u8]);

impl Read for Failing<'_> {
    fn read(&mut self, out: &mut [u8]) -> io::Result<usize> {
        match self.0.read(out) {
            Ok(0) => Err(Error::other("bad disc")),
            read => read,
        }
    }
}

#[test]
fn an_empty_file_has_no_blocks() {
    assert!(blocks(Pages::new(io::empty())).is_empty());
    assert!(blocks(Pages::starting_at(io::empty(), 7)).is_empty());
}

#[test]
fn files_of_any_length() {
    for length in [1, 4_095, PAGE, PAGE + 1, 16 * PAGE - 1, 16 * PAGE, 16 * PAGE + 1, 40 * PAGE + 9] {
        let file = file(length);
        assert_whole(&file, 0, &blocks(Pages::new(&file[..])));
        assert_whole(&file, 0, &blocks(Pages::new(Slow { rest: &file, interrupted: false })));
    }
}

#[test]
fn the_last_page_may_be_cut_short() {
    let blocks = blocks(Pages::new(&file(17 * PAGE + 9)[..]));
    assert_eq!(blocks.iter().map(|b| (b.first(), b.pages().len())).collect::<Vec<_>>(), [(0, 16), (16, 2)]);
    assert_eq!(blocks[1].pages().map(|(number, page)| (number, page.len())).collect::<Vec<_>>(), [(16, PAGE), (17, 9)]);
    assert_eq!(lumeviqo::trailer(blocks[1].pages().last().unwrap().1), Err(lumeviqo::Refusal::WrongPageLength(9)));
}

#[test]
fn a_file_that_starts_in_mid_block() {
    let file = file(40 * PAGE);
    for start in [1, 7, 15, 16, 17, 1 << 40, (1 << 40) + 5] {
        let blocks = blocks(Pages::starting_at(&file[..], start));
        assert_whole(&file, start, &blocks);
        assert_eq!(blocks[0].pages().len() as u64, 16 - start % 16);
    }
}

/// There is no page behind the last number.
#[test]
fn it_ends_with_the_last_number() {
    let file = file(20 * PAGE);
    let blocks = blocks(Pages::starting_at(&file[..], u64::MAX - 2));
    assert_eq!(blocks.iter().flat_map(Block::pages).map(|p| p.0).collect::<Vec<_>>(), [u64::MAX - 2, u64::MAX - 1, u64::MAX]);
}

/// Whole pages before an error are given first.
#[test]
fn it_ends_behind_an_error() {
    for (length, before) in [(0, 0), (9, 0), (PAGE, 1), (3 * PAGE + 9, 3), (16 * PAGE, 16), (20 * PAGE, 20)] {
        let file = file(length);
        let mut pages = Pages::new(Failing(&file));
        let whole: Vec<Block> = pages.by_ref().map_while(Result::ok).collect();
        assert_whole(&file[..before * PAGE], 0, &whole);
        assert!(pages.next().is_none() && pages.next().is_none());
        let errors: Vec<String> = Pages::new(Failing(&file)).filter_map(Result::err).map(|e| e.to_string()).collect();
        assert_eq!(errors, ["bad disc"]);
    }
}

#[test]
fn a_block_is_short_to_look_at() {
    assert_eq!(format!("{:?}", blocks(Pages::new(&file(2 * PAGE)[..]))), "[Block { first: 0, pages: 2, .. }]");
}
