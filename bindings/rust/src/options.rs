//! How a page is to be read: which checks are relaxed, and how far a slot directory is looked for.
use crate::header;

/// The checks that are relaxed: a sum of these bits. Other bits mean nothing.
#[derive(Debug, Clone, Copy, Default, PartialEq, Eq)]
pub struct Leniency(pub u8);

impl Leniency {
    /// No check is relaxed.
    pub const STRICT: Leniency = Leniency(header::STRICT as u8);
    /// Take a bv that nothing confirms, and sectors whose step is in doubt.
    pub const KEYSTREAM: Leniency = Leniency(header::LENIENT_KEYSTREAM as u8);
    /// Take a slot directory that no prelude confirms.
    pub const DIRECTORY: Leniency = Leniency(header::LENIENT_DIRECTORY as u8);
    /// Take pages that fail their CRC or trailer check.
    pub const INTEGRITY: Leniency = Leniency(header::LENIENT_INTEGRITY as u8);

    /// Whether every check that `other` relaxes is relaxed.
    pub fn allows(self, other: Leniency) -> bool {
        self.0 & other.0 == other.0
    }
}

impl std::ops::BitOr for Leniency {
    type Output = Leniency;

    fn bitor(self, other: Leniency) -> Leniency {
        Leniency(self.0 | other.0)
    }
}

/// How a page is read. [`Options::default`] is strict, with the original's numbers.
#[derive(Debug, Clone, Copy, PartialEq, Eq)]
pub struct Options {
    /// Which checks are relaxed.
    pub leniency: Leniency,
    /// From which row count on the row-count test counts. It plays no part in a parse and its rows.
    pub min_trailer_count: u8,
    /// How many of a page's first bytes are searched for slots that no prelude declares, and for the count of a prelude: 8 to 2,048.
    pub search_limit: usize,
}

impl Default for Options {
    fn default() -> Self {
        Options { leniency: Leniency::STRICT, min_trailer_count: header::MIN_TRAILER_COUNT as u8, search_limit: header::SEARCH_LIMIT }
    }
}
