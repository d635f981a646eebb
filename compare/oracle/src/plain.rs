//! Answers as plain data, by the numbers of document 01: what both sides are turned into, and compared as.

#[derive(Debug, Clone, PartialEq, Eq)]
pub struct Refusal {
    pub number: u8,
    pub values: Vec<u64>,
    /// Of answer 5.
    pub candidates: Vec<u8>,
}

/// A blank one, of a sector that was not scanned, is the default.
#[derive(Debug, Clone, Copy, Default, PartialEq, Eq)]
pub struct Fit {
    pub step: u8,
    pub peak: u16,
    pub runner_up: u16,
    pub exact: bool,
    pub tied: u16,
}

#[derive(Debug, Clone, PartialEq, Eq)]
pub struct Warning {
    pub number: u8,
    pub page: u64,
    pub values: Vec<u64>,
    /// Of warning 5.
    pub others: Vec<u8>,
}

#[derive(Debug, Clone, PartialEq, Eq)]
pub struct Decoded {
    pub bv: Option<u8>,
    pub source: u8,
    pub confidence: u8,
    /// Number and values.
    pub evidence: Vec<(u8, u16, u16)>,
    pub fits: [Fit; 8],
    pub warnings: Vec<Warning>,
    pub plain: Vec<u8>,
}

impl Decoded {
    /// With the numbers of tied steps that its summary has. Of an unallocated page no sector is scanned.
    pub fn with_tied(mut self, tied: [u16; 8]) -> Self {
        if self.bv.is_some() {
            self.fits.iter_mut().zip(tied).for_each(|(fit, tied)| fit.tied = tied);
        }
        self
    }
}

#[derive(Debug, Clone, PartialEq, Eq)]
pub struct Directory {
    pub start: u16,
    pub end: u16,
    pub slots: Vec<u16>,
    pub declared: Option<u16>,
}

#[derive(Debug, Clone, PartialEq, Eq)]
pub struct Row {
    pub offset: u16,
    pub bytes: Vec<u8>,
    pub exact: bool,
}

#[derive(Debug, Clone, PartialEq, Eq)]
pub struct Parsed {
    pub directory: Option<Directory>,
    pub warnings: Vec<Warning>,
    pub rows: Vec<Row>,
}

#[derive(Debug, Clone, PartialEq, Eq)]
pub struct Trailer {
    pub row_count: u8,
    pub type_byte: u8,
    pub type_case: u8,
    pub case_variant: bool,
    pub lsn: u32,
    pub crc: u32,
    pub reserved_zero: bool,
}

#[derive(Debug, Clone, PartialEq, Eq)]
pub struct Superblock {
    pub flags: u8,
    pub variant_bits: u8,
    pub lsn: u32,
    pub major: u32,
    pub a: u16,
    pub b: u16,
    pub magic: u32,
    pub page_hint: u32,
    pub marker: bool,
}
