//! What became of a page: the one word that a survey counts, a picture shows and the exit status goes by.
use std::fmt;

/// From the best to the worst: a block's colour is that of its worst page.
#[derive(Debug, Clone, Copy, PartialEq, Eq, PartialOrd, Ord)]
#[repr(u8)]
pub enum Outcome {
    Unallocated,
    Superblock,
    Verified,
    Calibrated,
    Corroborated,
    /// Taken under KEYSTREAM alone.
    Unverified,
    /// Answers 5, 6 and 7: nothing settles how the page is read.
    Undecided,
    /// Answers 3 and 4.
    Damaged,
    CutShort,
    /// A sector of it could not be read from the disc, and what stands there is no whole page.
    Unread,
}

impl Outcome {
    pub const COUNT: usize = 10;

    pub const ALL: [Outcome; Self::COUNT] = [
        Outcome::Unallocated,
        Outcome::Superblock,
        Outcome::Verified,
        Outcome::Calibrated,
        Outcome::Corroborated,
        Outcome::Unverified,
        Outcome::Undecided,
        Outcome::Damaged,
        Outcome::CutShort,
        Outcome::Unread,
    ];

    pub fn name(self) -> &'static str {
        match self {
            Outcome::Unallocated => "unallocated",
            Outcome::Superblock => "superblock",
            Outcome::Verified => "verified",
            Outcome::Calibrated => "calibrated",
            Outcome::Corroborated => "corroborated",
            Outcome::Unverified => "unverified",
            Outcome::Undecided => "undecided",
            Outcome::Damaged => "damaged",
            Outcome::CutShort => "cut short",
            Outcome::Unread => "unread",
        }
    }

    pub fn meaning(self) -> &'static str {
        match self {
            Outcome::Unallocated => "all zero, as pages are that were never written",
            Outcome::Superblock => "page 0, the file's own fields",
            Outcome::Verified => "its row count confirms the reading",
            Outcome::Calibrated => "two or more exact sectors agree",
            Outcome::Corroborated => "an exact sector and another page of the block agree",
            Outcome::Unverified => "nothing confirms it; keystream is allowed",
            Outcome::Undecided => "nothing settles how to read it",
            Outcome::Damaged => "its CRC or its trailer is wrong",
            Outcome::CutShort => "the file ends inside it",
            Outcome::Unread => "sectors of it could not be read from the disc",
        }
    }

    /// Whether the page was read: if not, the program ends with status 1.
    pub fn is_read(self) -> bool {
        self < Outcome::Undecided
    }
}

impl fmt::Display for Outcome {
    fn fmt(&self, f: &mut fmt::Formatter<'_>) -> fmt::Result {
        f.pad(self.name())
    }
}
