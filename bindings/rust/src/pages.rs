//! A file's pages, a block at a time: a file of any size goes through the memory of one block, and its anchors are at hand.
use std::fmt;
use std::io::{self, Read};
use std::iter::FusedIterator;

use crate::PAGE;

/// Pages of a block. The first has a number that is a multiple of it.
pub const BLOCK_PAGES: u64 = 16;

/// The pages of a file, by blocks. It ends where the file ends, or behind the first error.
///
/// ```
/// use lumeviqo::{Options, PAGE, Pages, decode};
///
/// let mut plain = [0; PAGE];
/// let mut read = 0;
/// for block in Pages::new(std::fs::File::open("../sample.pages")?) {
///     for (number, page) in block?.pages() {
///         read += decode(number, page, &[], Options::default(), &mut plain).is_ok() as u32;
///     }
/// }
/// assert_eq!(read, 3); // of four: the last has a bad CRC
/// # Ok::<(), std::io::Error>(())
/// ```
#[derive(Debug)]
pub struct Pages<R> {
    reader: R,
    /// The number of the next page; none where nothing is left to read.
    next: Option<u64>,
    /// What stopped the reading, while the pages before it are given.
    failure: Option<io::Error>,
}

impl<R: Read> Pages<R> {
    /// From page 0 on.
    pub fn new(reader: R) -> Pages<R> {
        Pages::starting_at(reader, 0)
    }

    /// From page `number` on, which the reader's first byte belongs to. Where that is no multiple of 16 the first block is what is left of
    /// its block.
    pub fn starting_at(reader: R, number: u64) -> Pages<R> {
        Pages { reader, next: Some(number), failure: None }
    }

    /// Pages from `first` on: none at the file's end, and whole ones alone before an error.
    fn read(&mut self, first: u64) -> io::Result<Option<Block>> {
        let count = BLOCK_PAGES - first % BLOCK_PAGES;
        let length = PAGE * count as usize;
        let mut bytes = Vec::with_capacity(length);
        match self.reader.by_ref().take(length as u64).read_to_end(&mut bytes) {
            Ok(_) if bytes.len() == length => self.next = first.checked_add(count),
            Ok(_) => (),
            Err(e) if bytes.len() < PAGE => return Err(e),
            Err(e) => {
                self.failure = Some(e);
                bytes.truncate(bytes.len() / PAGE * PAGE);
            }
        }
        Ok((!bytes.is_empty()).then_some(Block { first, bytes }))
    }
}

impl<R: Read> Iterator for Pages<R> {
    type Item = io::Result<Block>;

    fn next(&mut self) -> Option<io::Result<Block>> {
        match self.failure.take() {
            Some(e) => Some(Err(e)),
            None => self.next.take().and_then(|first| self.read(first).transpose()),
        }
    }
}

impl<R: Read> FusedIterator for Pages<R> {}

/// Pages that stand one behind the other in one block of 16.
#[derive(Clone, PartialEq, Eq)]
pub struct Block {
    first: u64,
    bytes: Vec<u8>,
}

impl Block {
    /// The number of its first page.
    pub fn first(&self) -> u64 {
        self.first
    }

    /// Each page with its number. The last of a file that is cut short has fewer than [`PAGE`] bytes, and is refused as such when it is
    /// decoded.
    pub fn pages(&self) -> impl ExactSizeIterator<Item = (u64, &[u8])> {
        self.bytes.chunks(PAGE).enumerate().map(|(k, page)| (self.first + k as u64, page))
    }
}

/// Without the bytes.
impl fmt::Debug for Block {
    fn fmt(&self, f: &mut fmt::Formatter<'_>) -> fmt::Result {
        f.debug_struct("Block").field("first", &self.first).field("pages", &self.pages().len()).finish_non_exhaustive()
    }
}
