//! What the reader answers. The numbers behind these are in include/lumeviqo.h.
use crate::header::{PAGE_LENGTH, SECTOR_COUNT, SHIFTED_LENGTH};
use crate::options::Options;

/// Values of bv, ascending.
pub type AmbiguousCandidates = Vec<u8>;

/// The fits of sectors 0 to 7.
pub type Fits = [Fit; SECTOR_COUNT];

/// How well a sector's step is determined.
#[derive(Debug, Clone, Copy, Default, PartialEq, Eq)]
pub struct Fit {
    /// The step: by so much the shift grows from one byte of the sector to the next.
    pub step: u8,
    /// How many shifted bytes agree under the step.
    pub peak: u16,
    /// How many agree under the next best step.
    pub runner_up: u16,
    /// All agree.
    pub exact: bool,
    /// How many of the 256 steps reach the peak, 1 to 256 in a scanned sector; 0 in the decoding of an unallocated page. A decoding from a
    /// summary passes it on as lent.
    pub tied: u16,
}

/// Where a page's bv came from.
#[derive(Debug, Clone, Copy, PartialEq, Eq)]
#[non_exhaustive]
pub enum Source {
    /// Under this bv the trailer's row count stands before a slot directory.
    TrailerRowCount,
    /// Two sectors or more have one value each, and all of them the same.
    ExactSectors,
    /// It is the likeliest, and was let through by leniency.
    Histogram,
    /// The caller gave it.
    Supplied,
    /// One sector has one value, which is the commonest and an anchor.
    Corroborated,
    /// The page has none: it is unallocated.
    Unallocated,
}

/// How far a page's bv can be trusted, the least first.
#[derive(Debug, Clone, Copy, PartialEq, Eq, PartialOrd, Ord)]
pub enum Confidence {
    /// There is no bv: all bytes are zero. A page that was never read from a disc may be all zero too.
    Unallocated,
    /// Nothing confirms it.
    Unverified,
    /// One sector and an anchor agree.
    Corroborated,
    /// Two sectors or more agree.
    Calibrated,
    /// The row count stands before a slot directory.
    Verified,
}

/// What speaks for a page's bv.
#[derive(Debug, Clone, Copy, PartialEq, Eq)]
#[non_exhaustive]
pub enum Evidence {
    /// The trailer's row count stands before a slot directory.
    TrailerRowCount,
    /// Sectors with one value vote.
    ExactSectors {
        /// How many vote for this bv.
        count: u16,
        /// How many vote for another.
        dissent: u16,
    },
    /// It is an anchor.
    BlockAnchor,
    /// Most bytes of a page are zero.
    ZeroMass {
        /// How many bytes decode to zero.
        zeros: u16,
        /// How many more these are than under the best other candidate.
        lead: u16,
    },
    /// All bytes of the page are zero.
    Unallocated,
}

/// A decoded page; its plaintext stands in the buffer that was lent.
#[derive(Debug, Clone, PartialEq, Eq)]
pub struct Decoding {
    /// None on an unallocated page.
    pub bv: Option<u8>,
    /// Where bv came from.
    pub source: Source,
    /// How far bv can be trusted.
    pub confidence: Confidence,
    /// What speaks for bv.
    pub evidence: Vec<Evidence>,
    /// How well the step of each sector is determined.
    pub fits: Fits,
    /// What leniency let through.
    pub warnings: Vec<Warning>,
}

/// Something that was accepted under leniency.
#[derive(Debug, Clone, PartialEq, Eq)]
#[non_exhaustive]
pub struct Warning {
    /// The page's number.
    pub page: u64,
    /// What it was.
    pub kind: WarningKind,
}

/// What was accepted under leniency.
#[derive(Debug, Clone, PartialEq, Eq)]
#[non_exhaustive]
pub enum WarningKind {
    /// The CRC is not the one that is stored.
    BadCrc,
    /// Reserved bytes of the trailer are not zero.
    BadTrailer,
    /// One of several values of bv was taken.
    AmbiguousCalibration {
        /// The one that was taken.
        chosen: u8,
        /// Those that it was preferred to.
        others: AmbiguousCandidates,
    },
    /// Nothing confirms bv.
    UnverifiedKeystream {
        /// The one that was taken.
        bv: u8,
    },
    /// A sector's step is in doubt.
    LowConfidenceSector {
        /// The sector, 0 to 7.
        sector: u8,
        /// How many bytes agree under its step.
        peak: u16,
        /// How many agree under the next best one.
        runner_up: u16,
    },
    /// No prelude confirms the slot directory.
    UnverifiedDirectory,
    /// No prelude has the page's row count.
    UnknownPrelude,
    /// The slot directory breaks off.
    SlotDirectoryTruncated {
        /// How many slots it has.
        found: u64,
        /// How many it should have.
        expected: u64,
    },
    /// Several slot directories fit.
    AmbiguousSlotDirectory,
    /// Slots that point into the directory are left out of the rows.
    SlotOffsetsInDirectory {
        /// How many.
        dropped: u64,
    },
}

/// Why there is no slot directory.
#[derive(Debug, Clone, Copy, PartialEq, Eq)]
pub enum Reason {
    /// A row count below 4 confirms none.
    CountBelowFour,
    /// What looks like one has fewer than 8 live slots.
    FewerThanEightLive,
    /// No prelude confirms what looks like one.
    Unconfirmed,
}

/// A buffer that is lent to be written to or read from.
#[derive(Debug, Clone, Copy, PartialEq, Eq)]
#[non_exhaustive]
pub enum Buffer {
    /// The plain page is written to it.
    Out,
    /// The shifted bytes of a page.
    Shifted,
}

impl Buffer {
    /// How many bytes it takes.
    pub fn length(self) -> usize {
        match self {
            Buffer::Out => PAGE_LENGTH,
            Buffer::Shifted => SHIFTED_LENGTH,
        }
    }
}

/// With what a decoding was asked for: a refusal advises only what may still help.
#[derive(Debug, Clone, Copy, Default, PartialEq, Eq)]
pub struct Asked {
    /// How many anchors were lent.
    pub anchors: usize,
    /// Under which options.
    pub options: Options,
    /// The caller gave bv.
    pub supplied: bool,
}

impl Asked {
    pub(crate) fn with_anchors(anchors: &[u8], options: Options) -> Asked {
        Asked { anchors: anchors.len(), options, supplied: false }
    }

    pub(crate) fn with_bv(options: Options) -> Asked {
        Asked { anchors: 0, options, supplied: true }
    }
}

/// Why nothing was accepted. A refusal leaves every lent buffer as it was.
#[derive(Debug, Clone, PartialEq, Eq)]
#[non_exhaustive]
pub enum Refusal {
    /// Answer 1: a page has another length.
    WrongPageLength(usize),
    /// Answer 2: a lent buffer has another length.
    WrongBufferLength {
        /// Which; where two are wrong, `out`.
        buffer: Buffer,
        /// Its length.
        length: usize,
    },
    /// Answer 3: the CRC is not the one that is stored.
    BadCrc {
        /// The page's number.
        page: u64,
        /// The CRC in its trailer.
        stored: u32,
        /// The CRC of its bytes.
        computed: u32,
    },
    /// Answer 4: reserved bytes of the trailer are not zero.
    BadTrailer {
        /// The page's number.
        page: u64,
    },
    /// Answer 5: more than one value of bv may be the right one.
    AmbiguousCalibration {
        /// The page's number.
        page: u64,
        /// These values.
        candidates: AmbiguousCandidates,
        /// With what it was asked for.
        asked: Asked,
    },
    /// Answer 6: nothing confirms bv.
    KeystreamUnverified {
        /// The page's number.
        page: u64,
        /// The likeliest bv, or the supplied one.
        bv: u8,
        /// With what it was asked for.
        asked: Asked,
    },
    /// Answer 7: a sector's step is in doubt.
    LowConfidenceKeystream {
        /// The page's number.
        page: u64,
        /// The first such sector, 0 to 7.
        sector: u8,
        /// How many bytes agree under its step.
        peak: u16,
        /// How many agree under the next best one.
        runner_up: u16,
        /// With what it was asked for.
        asked: Asked,
    },
    /// Answer 8: no slot directory is confirmed.
    NoSlotDirectory {
        /// The page's number.
        page: u64,
        /// Why not.
        reason: Reason,
    },
    /// Answer 9: no prelude has the page's row count.
    UnknownPrelude {
        /// The page's number.
        page: u64,
    },
    /// Answer 10: the slot directory breaks off.
    SlotDirectoryTruncated {
        /// The page's number.
        page: u64,
        /// How many slots it has.
        found: u64,
        /// How many it should have.
        expected: u64,
        /// Offset of the pair of bytes that is no slot.
        stop: u64,
    },
    /// Answer 11: several slot directories fit.
    AmbiguousSlotDirectory {
        /// The page's number.
        page: u64,
    },
    /// Answer 12: a slot points into the directory.
    SlotOffsetInDirectory {
        /// The page's number.
        page: u64,
        /// Where the first such slot points to.
        offset: u64,
        /// Where the directory ends.
        end: u64,
    },
    /// Answer 13: the magic is not that of SQL Anywhere 17.
    BadMagic(u32),
    /// Answer 14: a sector above 7, or another length than that of a sector.
    BadReplacement {
        /// The sector that was to be replaced.
        sector: usize,
    },
    /// Answer 16: the page has no row of this number.
    NoSuchRow(usize),
    /// Answer 20: the search limit is below 8 or above 2,048.
    LimitOutOfRange(usize),
    /// The library gave a number that this crate does not know: the two are of different commits.
    Unknown {
        /// What it stands for.
        what: &'static str,
        /// The number.
        number: usize,
    },
}

/// A plain page's slot directory.
#[derive(Debug, Clone, PartialEq, Eq)]
pub struct Directory {
    /// Where its array starts.
    pub start: u16,
    /// Where its array ends.
    pub end: u16,
    /// Offsets of rows, strictly falling; deleted ones are 0.
    pub slots: Vec<u16>,
    /// Their number, where a prelude declares it.
    pub declared: Option<u16>,
}

/// What a parse of a plain page gives.
#[derive(Debug, Clone, PartialEq, Eq)]
pub struct Parsed {
    /// The slot directory; none where the page has no rows.
    pub directory: Option<Directory>,
    /// What leniency let through.
    pub warnings: Vec<Warning>,
}

/// A row, as a part of the plain page that was lent.
#[derive(Debug, Clone, Copy, PartialEq, Eq)]
pub struct Row<'a> {
    /// Where it starts in the plain page.
    pub offset: u16,
    /// Its bytes, up to where the next row starts.
    pub bytes: &'a [u8],
}

impl Row<'_> {
    /// Whether the row's length was read from the row itself: never so far, it is where the next row starts.
    pub fn exact(&self) -> bool {
        false
    }
}

/// What a page is for.
#[derive(Debug, Clone, Copy, PartialEq, Eq)]
pub enum PageType {
    /// `E` or `e`.
    Extent,
    /// `A` or `a`.
    Alloc,
    /// `M` or `m`.
    Map,
    /// `H` or `h`.
    Header,
    /// `C` or `c`.
    Catalog,
    /// `@`.
    Bootstrap,
    /// `I` or `i`.
    Index,
    /// Any other byte.
    Other(u8),
}

impl PageType {
    /// The byte that the type is written back as.
    pub fn as_byte(self) -> u8 {
        match self {
            PageType::Extent => b'E',
            PageType::Alloc => b'A',
            PageType::Map => b'M',
            PageType::Header => b'H',
            PageType::Catalog => b'C',
            PageType::Bootstrap => b'@',
            PageType::Index => b'I',
            PageType::Other(byte) => byte,
        }
    }
}

/// The last 16 bytes of a page.
#[derive(Debug, Clone, Copy, PartialEq, Eq)]
pub struct Trailer {
    /// How many rows the page has.
    pub row_count: u8,
    /// What the page is for.
    pub page_type: PageType,
    /// The type byte is a lower case letter.
    pub case_variant: bool,
    /// The log sequence number, which grows with every write.
    pub lsn: u32,
    /// The CRC as it is stored.
    pub crc: u32,
    /// The reserved bytes are zero.
    pub reserved_zero: bool,
}

/// The fields of page 0.
#[derive(Debug, Clone, Copy, PartialEq, Eq)]
pub struct Superblock {
    /// The flags as they are stored.
    pub flags: u8,
    /// The flags without 0x09, which every known file has.
    pub variant_bits: u8,
    /// The log sequence number.
    pub lsn: u32,
    /// The version: 3.201.12 is the one that is known.
    pub major: u32,
    /// The first half of the version.
    pub a: u16,
    /// The second half of the version.
    pub b: u16,
    /// 0xDA7ABA5E in a file of SQL Anywhere 17.
    pub magic: u32,
    /// A number near the number of pages.
    pub page_hint: u32,
    /// The engine's copyright text occurs.
    pub marker: bool,
}
