//! What the original answers, as plain data, at any search limit. Its own limit is a constant, and at that one the original is asked as it is; at
//! others a second copy of its files is, in which that constant alone is a number that can be set.
include!(concat!(env!("OUT_DIR"), "/as_it_is.rs"));

mod answers;
mod limit;
pub mod plain;
pub mod timed;

/// The second copy.
mod limited {
    include!(concat!(env!("OUT_DIR"), "/limited.rs"));
}

use std::cell::OnceCell;

pub use crate::answers::{integrity, sector, superblock, superblock_checked, trailer};
pub use crate::plain::{Decoded, Fit, Parsed, Refusal, Superblock, Trailer, Warning};

/// The original's own, SEARCH_LIMIT in its slotted.rs.
pub const SEARCH_LIMIT: usize = 0x300;

pub fn crc32(bytes: &[u8]) -> u32 {
    crc32fast::hash(bytes)
}

pub fn parse(number: u64, plain: &[u8], bits: u8, limit: usize) -> Result<Parsed, Refusal> {
    if limit == SEARCH_LIMIT {
        return answers::parse(number, plain, bits);
    }
    limit::set(limit);
    limited::answers::parse(number, plain, bits)
}

/// Whether the row count of a plain page is that of its directory; the original's T is 4.
pub fn row_count_matches(plain: &[u8], limit: usize) -> bool {
    if limit == SEARCH_LIMIT {
        return answers::row_count_matches(plain);
    }
    limit::set(limit);
    limited::answers::row_count_matches(plain)
}

/// A page with its scan, of which any number of questions can be asked, at any limits.
pub struct Reading<'a> {
    as_it_is: answers::Reading<'a>,
    /// Made where another limit is first asked for.
    limited: OnceCell<limited::answers::Reading<'a>>,
}

impl<'a> Reading<'a> {
    pub fn new(number: u64, bytes: &'a [u8]) -> Result<Self, Refusal> {
        Ok(Reading { as_it_is: answers::Reading::new(number, bytes, None)?, limited: OnceCell::new() })
    }

    /// The page with the summary of another: sectors 0 to 6 in another order.
    pub fn turned(&self) -> Self {
        Reading { as_it_is: self.as_it_is.turned(), limited: self.limited().turned().into() }
    }

    pub fn fits(&self) -> [Fit; 8] {
        self.as_it_is.fits()
    }

    pub fn shifted(&self) -> Vec<u8> {
        self.as_it_is.shifted()
    }

    /// The values of bv that a decoding chooses from, ascending. No limit has a part in them.
    pub fn candidates(&self) -> Vec<u8> {
        self.as_it_is.candidates()
    }

    pub fn decode(&self, anchors: &[u8], bits: u8, limit: usize) -> Result<Decoded, Refusal> {
        if limit == SEARCH_LIMIT {
            return self.as_it_is.decode(anchors, bits);
        }
        limit::set(limit);
        self.limited().decode(anchors, bits)
    }

    /// The original scans anew for a supplied bv.
    pub fn decode_supplied(&self, bv: u8, bits: u8, limit: usize) -> Result<Decoded, Refusal> {
        if limit == SEARCH_LIMIT {
            return self.as_it_is.decode_supplied(bv, bits);
        }
        limit::set(limit);
        self.limited().decode_supplied(bv, bits)
    }

    /// No limit has a part in how many steps tied.
    fn limited(&self) -> &limited::answers::Reading<'a> {
        self.limited.get_or_init(|| {
            let (page, tied) = self.as_it_is.page_and_tied();
            limited::answers::Reading::new(page.index(), page.bytes(), Some(tied)).expect("its length is a page's")
        })
    }
}
