//! Search limits: which are asked for, and the classes that their answers are counted by.
use std::fmt;

use lumeviqo::header as h;
use oracle::plain::{Parsed, Refusal};

use crate::random::Random;

/// The original's, which is asked for most.
pub const USUAL: usize = oracle::SEARCH_LIMIT;
/// Document 02's range, whatever the header says.
pub const LEAST: usize = 8;
pub const GREATEST: usize = 2_048;

/// About the ends of the range and about the usual one, and one between.
pub const NAMED: [usize; 8] = [LEAST, 9, 10, 767, 769, 1_024, 2_047, GREATEST];

/// The neighbours of the range, where shorter numbers end, and what would be the usual one if only its low bytes were read.
pub const OUTSIDE: [usize; 8] = [0, 7, 2_049, 65_535, (1 << 16) + USUAL, 1 << 32, (1 << 32) + USUAL, usize::MAX];

/// One of the range, and not the usual one.
pub fn other(r: &mut Random) -> usize {
    match r.from_to(LEAST, GREATEST) {
        limit if limit == USUAL || r.one_in(2) => r.of(&NAMED),
        limit => limit,
    }
}

/// Document 02's refusal of a limit out of the range.
pub fn refusal(limit: usize) -> Option<Refusal> {
    let refusal = Refusal { number: h::LIMIT_OUT_OF_RANGE as u8, values: vec![limit as u64], candidates: Vec::new() };
    (Class::of(limit) == Class::Outside).then_some(refusal)
}

/// What the original parses, or that refusal, which only a wrong length comes before.
pub fn parsed(number: u64, plain: &[u8], bits: u8, limit: usize) -> Result<Parsed, Refusal> {
    match refusal(limit) {
        Some(refusal) if plain.len() == h::PAGE_LENGTH => Err(refusal),
        _ => oracle::parse(number, plain, bits, limit),
    }
}

#[derive(Debug, Clone, Copy, PartialEq, Eq, PartialOrd, Ord)]
pub enum Class {
    Usual,
    Smaller,
    Larger,
    Outside,
}

impl Class {
    pub const ALL: [Class; 4] = [Class::Usual, Class::Smaller, Class::Larger, Class::Outside];

    pub fn of(limit: usize) -> Class {
        match limit {
            USUAL => Class::Usual,
            LEAST..USUAL => Class::Smaller,
            USUAL..=GREATEST => Class::Larger,
            _ => Class::Outside,
        }
    }

    /// Whether a full run must reach an answer at such a limit. Decodings have wrong lengths at the usual one and outside alone.
    pub fn must_reach(self, answer: u8) -> bool {
        let (of_lengths, of_limit) =
            (matches!(answer as usize, h::WRONG_PAGE_LENGTH | h::WRONG_BUFFER_LENGTH), answer as usize == h::LIMIT_OUT_OF_RANGE);
        match self {
            Class::Usual => !of_limit,
            Class::Smaller | Class::Larger => !of_lengths && !of_limit,
            Class::Outside => of_lengths || of_limit,
        }
    }
}

impl fmt::Display for Class {
    fn fmt(&self, f: &mut fmt::Formatter<'_>) -> fmt::Result {
        f.write_str(match self {
            Class::Usual => "limit 768",
            Class::Smaller => "limits 8 to 767",
            Class::Larger => "limits 769 to 2,048",
            Class::Outside => "limits out of range",
        })
    }
}
