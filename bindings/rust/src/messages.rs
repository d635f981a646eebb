//! Refusals in words: what was wrong, and what may still help. Nothing is advised that was tried, or that would lead astray.
use std::fmt::{Display, Formatter, Result};

use crate::answers::{Asked, Refusal};
use crate::header::{GREATEST_SEARCH_LIMIT, LEAST_SEARCH_LIMIT, PAGE_LENGTH, SEARCH_LIMIT, SECTOR_LENGTH};
use crate::options::Leniency;
use crate::words::Bytes;

const SUPERBLOCK: &str = "page 0 is the superblock and is not shifted: `superblock` reads it";
const REPLACE: &str = "replace damaged sectors from a second copy";
const RAISE: &str = "raise the search limit";
const ANCHORS: &str = "lend anchors (values of bv of other pages of its block: 16 pages, the first a multiple of 16)";
const GUESS: &str = "allow KEYSTREAM to take the likeliest";

impl Display for Refusal {
    fn fmt(&self, f: &mut Formatter<'_>) -> Result {
        What(self).fmt(f)?;
        match self.page() {
            Some(0) => write!(f, ": {SUPERBLOCK}"),
            _ => self.advice(f),
        }
    }
}

impl std::error::Error for Refusal {}

/// What was wrong.
struct What<'a>(&'a Refusal);

impl Display for What<'_> {
    fn fmt(&self, f: &mut Formatter<'_>) -> Result {
        match self.0 {
            Refusal::WrongPageLength(n) => write!(f, "a page has {PAGE_LENGTH} bytes, and {n} were lent"),
            Refusal::WrongBufferLength { buffer, length } => {
                write!(f, "the buffer `{buffer}` takes {} bytes, and {length} were lent", buffer.length())
            }
            Refusal::BadCrc { page, stored, computed } => write!(f, "page {page}: its CRC is {computed:08x}, and {stored:08x} is stored"),
            Refusal::BadTrailer { page } => write!(f, "page {page}: reserved trailer bytes are not zero"),
            Refusal::AmbiguousCalibration { page, candidates, .. } => write!(f, "page {page}: bv may be any of {}", Bytes(candidates)),
            Refusal::KeystreamUnverified { page, bv, asked } => {
                let supplied = if asked.supplied { "the supplied " } else { "" };
                let anchors = if asked.anchors > 0 { ", no anchor either" } else { "" };
                write!(f, "page {page}: nothing confirms {supplied}bv {bv:02x}{anchors}")
            }
            Refusal::LowConfidenceKeystream { page, sector, peak, runner_up, .. } => {
                write!(f, "page {page}, sector {sector}: its step is in doubt, {peak} bytes agree against {runner_up}")
            }
            Refusal::NoSlotDirectory { page, reason } => write!(f, "page {page}: no slot directory, {reason}"),
            Refusal::UnknownPrelude { page } => write!(f, "page {page}: no prelude has its row count"),
            Refusal::SlotDirectoryTruncated { page, found, expected, stop } => {
                write!(f, "page {page}: {found} slots of {expected}, up to offset {stop}")
            }
            Refusal::AmbiguousSlotDirectory { page } => write!(f, "page {page}: several slot directories fit"),
            Refusal::SlotOffsetInDirectory { page, offset, end } => {
                write!(f, "page {page}: slot offset {offset} lies inside the directory, which ends at {end}")
            }
            Refusal::BadMagic(magic) => write!(f, "magic {magic:08x}, not da7aba5e"),
            Refusal::BadReplacement { sector } => write!(f, "sector {sector} cannot be replaced by these bytes"),
            Refusal::NoSuchRow(row) => write!(f, "there is no row {row}"),
            Refusal::LimitOutOfRange(limit) => {
                write!(f, "a search limit is {LEAST_SEARCH_LIMIT} to {GREATEST_SEARCH_LIMIT}, and {limit} was asked for")
            }
            Refusal::Unknown { what, number } => write!(f, "the library gave {what} number {number}, which this crate does not know"),
        }
    }
}

impl Refusal {
    /// What was wrong, in words and without advice, for a program that has its own.
    pub fn what(&self) -> String {
        What(self).to_string()
    }

    /// What may help, behind a colon.
    fn advice(&self, f: &mut Formatter<'_>) -> Result {
        match self {
            Refusal::WrongPageLength(_) | Refusal::WrongBufferLength { .. } => Ok(()),
            Refusal::BadCrc { .. } => write!(
                f,
                ": replace from a second copy the sectors that could not be read, since zeros in their place mislead the choice of bv; \
                 INTEGRITY reads the page all the same"
            ),
            Refusal::BadTrailer { .. } => write!(f, ": allow INTEGRITY to read it"),
            Refusal::AmbiguousCalibration { asked, .. } => asked.against_several(f),
            Refusal::KeystreamUnverified { asked, .. } => one_of(f, &asked.against_none()),
            Refusal::LowConfidenceKeystream { asked, .. } => one_of(f, &asked.against_doubt()),
            Refusal::UnknownPrelude { .. } => write!(f, ": {RAISE}, or allow DIRECTORY to read it"),
            Refusal::NoSlotDirectory { .. } => write!(f, ": allow DIRECTORY to read it"),
            Refusal::SlotDirectoryTruncated { .. } => write!(f, ": allow DIRECTORY to read those"),
            Refusal::AmbiguousSlotDirectory { .. } => write!(f, ": allow DIRECTORY to take one"),
            Refusal::SlotOffsetInDirectory { .. } => write!(f, ": allow DIRECTORY to drop it"),
            Refusal::BadMagic(_) => write!(f, ": this is no page 0 of a SQL Anywhere 17 file"),
            Refusal::BadReplacement { .. } => {
                write!(f, ": sectors are 0 to 7, and a sector takes {SECTOR_LENGTH} bytes, sector 7 with its trailer")
            }
            Refusal::NoSuchRow(_) => write!(f, ": rows are counted from 0"),
            Refusal::LimitOutOfRange(_) => {
                write!(f, ": take the usual {SEARCH_LIMIT}, or up to {GREATEST_SEARCH_LIMIT} where a directory lies further on")
            }
            Refusal::Unknown { .. } => write!(f, ": take both from one commit and build again"),
        }
    }
}

/// A way out, and whether it is still open.
type Way = (bool, &'static str);

impl Asked {
    /// Of several values anchors help KEYSTREAM to take one; by themselves they settle nothing.
    fn against_several(&self, f: &mut Formatter<'_>) -> Result {
        match (self.let_damage_through(), self.may_guess()) {
            (true, _) => write!(f, ": {REPLACE}, since zeros in their place mislead the choice"),
            (_, false) => Ok(()),
            _ if self.anchors > 0 => write!(f, ": {GUESS}"),
            _ => write!(f, ": {ANCHORS} and {GUESS}"),
        }
    }

    fn against_none(&self) -> [Way; 5] {
        [
            (self.let_damage_through(), REPLACE),
            (self.supplied, "supply another bv"),
            (!self.supplied && self.anchors == 0, ANCHORS),
            (self.options.search_limit < GREATEST_SEARCH_LIMIT, RAISE),
            (self.may_guess(), "allow KEYSTREAM to take it"),
        ]
    }

    /// A supplied bv is taken whatever the CRC is.
    fn against_doubt(&self) -> [Way; 2] {
        let unchecked = self.supplied || self.let_damage_through();
        [(unchecked, "replace it from a second copy if it is damaged"), (self.may_guess(), "allow KEYSTREAM to read it")]
    }

    fn let_damage_through(&self) -> bool {
        self.options.leniency.allows(Leniency::INTEGRITY)
    }

    /// Where damage was let through, a guess would go by it too.
    fn may_guess(&self) -> bool {
        !self.let_damage_through() && !self.options.leniency.allows(Leniency::KEYSTREAM)
    }
}

/// The ways that are open, behind a colon; nothing where none is.
fn one_of(f: &mut Formatter<'_>, ways: &[Way]) -> Result {
    let open: Vec<&str> = ways.iter().filter(|way| way.0).map(|way| way.1).collect();
    match open.split_last() {
        None => Ok(()),
        Some((last, [])) => write!(f, ": {last}"),
        Some((last, others)) => write!(f, ": {}, or {last}", others.join(", ")),
    }
}
