//! What a copy of the original answers, as plain data: numbers and values of document 01's table, read off the original's types. Each of the two
//! copies has this file as a module beside its own.
use std::collections::BTreeSet;

use super::ap::reached::Scanned;
use super::ap::{self, ApModel, BvSource, Confidence, DeobfuscatedPage, Evidence};
use super::error::Error;
use super::options::{Leniency, ReadOptions};
use super::page::{PAGE_SIZE, Page, PageType};
use super::slotted::SlottedPage;
use super::store::PageStore;
use super::warning::WarningKind;
use crate::plain::{Decoded, Directory, Fit, Parsed, Refusal, Row, Superblock, Trailer, Warning};

pub fn trailer(bytes: &[u8]) -> Result<Trailer, Refusal> {
    let page = page(1, bytes)?;
    let t = page.trailer();
    Ok(Trailer {
        row_count: t.raw()[0],
        type_byte: t.page_type().as_byte(),
        type_case: type_case(t.page_type()),
        case_variant: t.case_variant(),
        lsn: t.lsn(),
        crc: page.stored_crc(),
        reserved_zero: t.reserved_zero(),
    })
}

pub fn integrity(number: u64, bytes: &[u8]) -> Result<(), Refusal> {
    ap::reached::integrity(page(number, bytes)?).map_err(refusal)
}

pub fn superblock(bytes: &[u8]) -> Result<Superblock, Refusal> {
    super::superblock::Superblock::parse(bytes).map(|s| superblock_fields(&s)).map_err(refusal)
}

/// `PageStore::superblock`, for a store of one page. Other lengths are `PageStore`'s own affair, and refused as a page is.
pub fn superblock_checked(bytes: &[u8]) -> Result<Superblock, Refusal> {
    page(0, bytes)?;
    let store = PageStore::from_bytes_unchecked(bytes.to_vec()).map_err(refusal)?;
    store.superblock().map(|s| superblock_fields(&s)).map_err(refusal)
}

/// A page with its scan, of which any number of questions can be asked.
pub struct Reading<'a> {
    page: Page<'a>,
    scanned: Scanned<'a>,
    /// Of each sector, beside its scan.
    tied: [u16; 8],
}

impl<'a> Reading<'a> {
    /// How many steps tied is counted unless it is known.
    pub fn new(number: u64, bytes: &'a [u8], known: Option<[u16; 8]>) -> Result<Self, Refusal> {
        let page = page(number, bytes)?;
        let tied = known.unwrap_or_else(|| std::array::from_fn(|s| tied(page, s)));
        Ok(Reading { page, scanned: Scanned::new(page), tied })
    }

    pub fn page_and_tied(&self) -> (Page<'a>, [u16; 8]) {
        (self.page, self.tied)
    }

    /// The page with the summary of another: sectors 0 to 6 in another order.
    pub fn turned(&self) -> Self {
        let mut tied = self.tied;
        tied[..7].rotate_left(1);
        Reading { page: self.page, scanned: self.scanned.turned(), tied }
    }

    pub fn fits(&self) -> [Fit; 8] {
        let fits = self.scanned.fits();
        std::array::from_fn(|s| fit(fits[s], self.tied[s]))
    }

    pub fn shifted(&self) -> Vec<u8> {
        self.scanned.shifted()
    }

    pub fn candidates(&self) -> Vec<u8> {
        self.scanned.candidates()
    }

    pub fn decode(&self, anchors: &[u8], bits: u8) -> Result<Decoded, Refusal> {
        let anchors: BTreeSet<u8> = anchors.iter().copied().collect();
        self.scanned.deobfuscate(&anchors, &options(bits)).map(|d| decoded(&d).with_tied(self.tied)).map_err(refusal)
    }

    /// The original scans anew for a supplied bv.
    pub fn decode_supplied(&self, bv: u8, bits: u8) -> Result<Decoded, Refusal> {
        ApModel::deobfuscate_with_bv(self.page, bv, &options(bits)).map(|d| decoded(&d).with_tied(self.tied)).map_err(refusal)
    }
}

/// The fit and the shifted bytes of one sector of a page, whose length is right.
pub fn sector(number: u64, bytes: &[u8], s: usize) -> (Fit, Vec<u8>) {
    let page = page(number, bytes).expect("its length is a page's");
    let (scanned, shifted) = ap::reached::sector(page, s);
    (fit(scanned, tied(page, s)), shifted)
}

/// How many steps of a sector tied: the number that the original's shifted bytes give, though it does not count them.
fn tied(page: Page<'_>, s: usize) -> u16 {
    narrow(ap::reached::tied(page, s))
}

pub fn parse(number: u64, plain: &[u8], bits: u8) -> Result<Parsed, Refusal> {
    let parsed = SlottedPage::parse(page(number, plain)?, &options(bits)).map_err(refusal)?;
    Ok(Parsed {
        directory: parsed.directory().map(|d| Directory {
            start: narrow(d.array_start()),
            end: narrow(d.end()),
            slots: d.slots().to_vec(),
            declared: d.declared_count().map(narrow),
        }),
        warnings: parsed.warnings().iter().map(warning).collect(),
        rows: parsed.rows().iter().map(|r| Row { offset: r.offset(), bytes: r.bytes().to_vec(), exact: r.exact() }).collect(),
    })
}

pub fn row_count_matches(plain: &[u8]) -> bool {
    super::verify::trailer_row_count_matches(plain)
}

/// Bits that mean nothing mean nothing in the original either, but for 8, which opening a store alone asks.
pub fn options(bits: u8) -> ReadOptions {
    let mut set = Leniency::STRICT;
    for (bit, flag) in [(1, Leniency::KEYSTREAM), (2, Leniency::DIRECTORY), (4, Leniency::INTEGRITY)] {
        if bits & bit != 0 {
            set |= flag;
        }
    }
    ReadOptions::strict().with_leniency(set)
}

fn page(number: u64, bytes: &[u8]) -> Result<Page<'_>, Refusal> {
    debug_assert_eq!(PAGE_SIZE, 4096);
    Page::from_bytes(number, bytes).map_err(refusal)
}

fn fit((step, peak, runner_up, exact): (u8, usize, usize, bool), tied: u16) -> Fit {
    Fit { step, peak: narrow(peak), runner_up: narrow(runner_up), exact, tied }
}

fn narrow(n: usize) -> u16 {
    n.try_into().expect("a number of a page fits 16 bits")
}

fn type_case(t: PageType) -> u8 {
    match t {
        PageType::Extent => 0,
        PageType::Alloc => 1,
        PageType::Map => 2,
        PageType::Header => 3,
        PageType::Catalog => 4,
        PageType::Bootstrap => 5,
        PageType::Index => 6,
        PageType::Other(_) => 7,
    }
}

fn superblock_fields(s: &super::superblock::Superblock) -> Superblock {
    Superblock {
        flags: s.flags_06(),
        variant_bits: s.flags_06_variant_bits(),
        lsn: s.current_lsn(),
        major: s.format_major(),
        a: s.version_a(),
        b: s.version_b(),
        magic: s.magic(),
        page_hint: s.page_count_hint(),
        marker: s.sa_marker_present(),
    }
}

fn decoded(d: &DeobfuscatedPage) -> Decoded {
    Decoded {
        bv: d.bv(),
        source: source(d.bv_source()),
        confidence: confidence(d.confidence()),
        evidence: d.evidence().iter().map(evidence).collect(),
        fits: d.sectors().map(|f| fit((f.step(), f.peak(), f.runner_up(), f.exact()), 0)),
        warnings: d.warnings().iter().map(warning).collect(),
        plain: d.bytes().to_vec(),
    }
}

pub fn source(s: BvSource) -> u8 {
    match s {
        BvSource::TrailerRowCount => 1,
        BvSource::ExactSectors => 2,
        BvSource::Histogram => 3,
        BvSource::Supplied => 4,
        BvSource::Corroborated => 5,
        BvSource::Unallocated => 6,
    }
}

pub fn confidence(c: Confidence) -> u8 {
    match c {
        Confidence::Unallocated => 1,
        Confidence::Unverified => 2,
        Confidence::Corroborated => 3,
        Confidence::Calibrated => 4,
        Confidence::Verified => 5,
    }
}

fn evidence(e: &Evidence) -> (u8, u16, u16) {
    match *e {
        Evidence::TrailerRowCount => (1, 0, 0),
        Evidence::ExactSectors { count, dissent } => (2, narrow(count), narrow(dissent)),
        Evidence::BlockAnchor => (3, 0, 0),
        Evidence::ZeroMass { zeros, lead } => (4, narrow(zeros), narrow(lead)),
        Evidence::Unallocated => (5, 0, 0),
    }
}

fn warning(w: &super::warning::Warning) -> Warning {
    let page = w.page.expect("a warning of a page names it");
    let plain = |number: u8, values: &[u64]| Warning { number, page, values: values.to_vec(), others: Vec::new() };
    match &w.kind {
        WarningKind::BadCrc => plain(3, &[]),
        WarningKind::BadTrailer => plain(4, &[]),
        WarningKind::AmbiguousCalibration { chosen, others } => Warning { others: others.clone(), ..plain(5, &[*chosen as u64]) },
        WarningKind::UnverifiedKeystream { bv } => plain(6, &[*bv as u64]),
        WarningKind::LowConfidenceSector { peak, runner_up } => {
            plain(7, &[w.sector.expect("a warning of a sector names it") as u64, *peak as u64, *runner_up as u64])
        }
        WarningKind::UnverifiedDirectory => plain(8, &[]),
        WarningKind::UnknownPrelude => plain(9, &[]),
        WarningKind::SlotDirectoryTruncated { found, expected } => plain(10, &[*found as u64, *expected as u64]),
        WarningKind::AmbiguousSlotDirectory => plain(11, &[]),
        WarningKind::SlotOffsetsInDirectory { dropped } => plain(12, &[*dropped as u64]),
        other => panic!("no warning of a page: {other:?}"),
    }
}

pub fn refusal(e: Error) -> Refusal {
    let plain = |number: u8, values: &[u64]| Refusal { number, values: values.to_vec(), candidates: Vec::new() };
    match e {
        Error::WrongBufferLength { got, .. } => plain(1, &[got as u64]),
        Error::BadCrc { page, stored, computed } => plain(3, &[page, stored as u64, computed as u64]),
        Error::BadTrailer { page } => plain(4, &[page]),
        Error::AmbiguousCalibration { page, candidates } => Refusal { candidates, ..plain(5, &[page]) },
        Error::KeystreamUnverified { page, bv } => plain(6, &[page, bv as u64]),
        Error::LowConfidenceKeystream { page, sector, peak, runner_up } => plain(7, &[page, sector as u64, peak as u64, runner_up as u64]),
        Error::NoSlotDirectory { page, reason } => plain(8, &[page, reason_number(reason)]),
        Error::UnknownPrelude { page } => plain(9, &[page]),
        Error::SlotDirectoryTruncated { page, found, expected, stopped_at } => {
            plain(10, &[page, found as u64, expected as u64, stopped_at as u64])
        }
        Error::AmbiguousSlotDirectory { page } => plain(11, &[page]),
        Error::SlotOffsetInDirectory { page, offset, directory_end } => plain(12, &[page, offset as u64, directory_end as u64]),
        Error::BadMagic { got, .. } => plain(13, &[got as u64]),
        other => panic!("no answer about a page: {other:?}"),
    }
}

fn reason_number(reason: &str) -> u64 {
    match reason {
        "a declared count below 4 cannot be confirmed" => 1,
        "fewer than 8 live slots and no confirming prelude" => 2,
        "not confirmed by the page prelude" => 3,
        other => panic!("no known reason: {other}"),
    }
}
