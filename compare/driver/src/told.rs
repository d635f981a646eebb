//! The reader's typed answers as the plain data that both sides are compared as.
use std::fmt::Debug;

use lumeviqo::{Evidence, PageType, Reason, Source, WarningKind};
use oracle::plain::{Decoded, Directory, Fit, Parsed, Refusal, Row, Superblock, Trailer, Warning};

pub fn refusal(r: lumeviqo::Refusal) -> Refusal {
    use lumeviqo::Refusal as R;
    let plain = |number: u8, values: &[u64]| Refusal { number, values: values.to_vec(), candidates: Vec::new() };
    match r {
        R::WrongPageLength(n) => plain(1, &[n as u64]),
        R::WrongBufferLength { length, .. } => plain(2, &[length as u64]),
        R::BadCrc { page, stored, computed } => plain(3, &[page, stored as u64, computed as u64]),
        R::BadTrailer { page } => plain(4, &[page]),
        R::AmbiguousCalibration { page, candidates, .. } => Refusal { candidates, ..plain(5, &[page]) },
        R::KeystreamUnverified { page, bv, .. } => plain(6, &[page, bv as u64]),
        R::LowConfidenceKeystream { page, sector, peak, runner_up, .. } => plain(7, &[page, sector as u64, peak as u64, runner_up as u64]),
        R::NoSlotDirectory { page, reason } => plain(
            8,
            &[
                page,
                match reason {
                    Reason::CountBelowFour => 1,
                    Reason::FewerThanEightLive => 2,
                    Reason::Unconfirmed => 3,
                },
            ],
        ),
        R::UnknownPrelude { page } => plain(9, &[page]),
        R::SlotDirectoryTruncated { page, found, expected, stop } => plain(10, &[page, found, expected, stop]),
        R::AmbiguousSlotDirectory { page } => plain(11, &[page]),
        R::SlotOffsetInDirectory { page, offset, end } => plain(12, &[page, offset, end]),
        R::BadMagic(magic) => plain(13, &[magic as u64]),
        R::BadReplacement { sector } => plain(14, &[sector as u64]),
        R::NoSuchRow(row) => plain(16, &[row as u64]),
        R::LimitOutOfRange(limit) => plain(20, &[limit as u64]),
        other => no_line(other),
    }
}

pub fn fits(fits: lumeviqo::Fits) -> [Fit; 8] {
    fits.map(|f| Fit { step: f.step, peak: f.peak, runner_up: f.runner_up, exact: f.exact, tied: f.tied })
}

fn warning(w: lumeviqo::Warning) -> Warning {
    let page = w.page;
    let plain = |number: u8, values: &[u64]| Warning { number, page, values: values.to_vec(), others: Vec::new() };
    match w.kind {
        WarningKind::BadCrc => plain(3, &[]),
        WarningKind::BadTrailer => plain(4, &[]),
        WarningKind::AmbiguousCalibration { chosen, others } => Warning { others, ..plain(5, &[chosen as u64]) },
        WarningKind::UnverifiedKeystream { bv } => plain(6, &[bv as u64]),
        WarningKind::LowConfidenceSector { sector, peak, runner_up } => plain(7, &[sector as u64, peak as u64, runner_up as u64]),
        WarningKind::UnverifiedDirectory => plain(8, &[]),
        WarningKind::UnknownPrelude => plain(9, &[]),
        WarningKind::SlotDirectoryTruncated { found, expected } => plain(10, &[found, expected]),
        WarningKind::AmbiguousSlotDirectory => plain(11, &[]),
        WarningKind::SlotOffsetsInDirectory { dropped } => plain(12, &[dropped]),
        other => no_line(other),
    }
}

pub fn decoded(d: lumeviqo::Decoding, plain: &[u8]) -> Decoded {
    Decoded {
        bv: d.bv,
        source: match d.source {
            Source::TrailerRowCount => 1,
            Source::ExactSectors => 2,
            Source::Histogram => 3,
            Source::Supplied => 4,
            Source::Corroborated => 5,
            Source::Unallocated => 6,
            other => no_line(other),
        },
        confidence: 1 + d.confidence as u8,
        evidence: d
            .evidence
            .into_iter()
            .map(|e| match e {
                Evidence::TrailerRowCount => (1, 0, 0),
                Evidence::ExactSectors { count, dissent } => (2, count, dissent),
                Evidence::BlockAnchor => (3, 0, 0),
                Evidence::ZeroMass { zeros, lead } => (4, zeros, lead),
                Evidence::Unallocated => (5, 0, 0),
                other => no_line(other),
            })
            .collect(),
        fits: fits(d.fits),
        warnings: d.warnings.into_iter().map(warning).collect(),
        plain: plain.to_vec(),
    }
}

pub fn parsed(p: lumeviqo::Parsed, rows: &[lumeviqo::Row<'_>]) -> Parsed {
    Parsed {
        directory: p.directory.map(|d| Directory { start: d.start, end: d.end, slots: d.slots, declared: d.declared }),
        warnings: p.warnings.into_iter().map(warning).collect(),
        rows: rows.iter().copied().map(row).collect(),
    }
}

pub fn row(r: lumeviqo::Row<'_>) -> Row {
    Row { offset: r.offset, bytes: r.bytes.to_vec(), exact: r.exact() }
}

pub fn trailer(t: lumeviqo::Trailer) -> Trailer {
    Trailer {
        row_count: t.row_count,
        type_byte: t.page_type.as_byte(),
        type_case: match t.page_type {
            PageType::Extent => 0,
            PageType::Alloc => 1,
            PageType::Map => 2,
            PageType::Header => 3,
            PageType::Catalog => 4,
            PageType::Bootstrap => 5,
            PageType::Index => 6,
            PageType::Other(_) => 7,
        },
        case_variant: t.case_variant,
        lsn: t.lsn,
        crc: t.crc,
        reserved_zero: t.reserved_zero,
    }
}

pub fn superblock(s: lumeviqo::Superblock) -> Superblock {
    Superblock {
        flags: s.flags,
        variant_bits: s.variant_bits,
        lsn: s.lsn,
        major: s.major,
        a: s.a,
        b: s.b,
        magic: s.magic,
        page_hint: s.page_hint,
        marker: s.marker,
    }
}

/// The binding's kinds may grow, and each needs its line here before it can be compared.
fn no_line(kind: impl Debug) -> ! {
    panic!("told.rs has no line for {kind:?}")
}
