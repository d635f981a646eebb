//! Every message and word in full: what was wrong, what may still help, and nothing that was tried or would lead astray.
use std::fmt::Display;

use lumeviqo::*;

const KEYSTREAM: Leniency = Leniency::KEYSTREAM;
const INTEGRITY: Leniency = Leniency::INTEGRITY;

fn asked(anchors: usize, leniency: Leniency) -> Asked {
    Asked { anchors, options: Options { leniency, ..Options::default() }, supplied: false }
}

fn supplied(leniency: Leniency) -> Asked {
    Asked { supplied: true, ..asked(0, leniency) }
}

fn several(page: u64, asked: Asked) -> Refusal {
    Refusal::AmbiguousCalibration { page, candidates: vec![8, 0xF9, 0xFA], asked }
}

fn unconfirmed(page: u64, asked: Asked) -> Refusal {
    Refusal::KeystreamUnverified { page, bv: 0x5A, asked }
}

fn doubtful(page: u64, asked: Asked) -> Refusal {
    Refusal::LowConfidenceKeystream { page, sector: 3, peak: 300, runner_up: 290, asked }
}

fn assert_said<T: Display>(cases: impl IntoIterator<Item = (T, &'static str)>) {
    for (said, text) in cases {
        assert_eq!(said.to_string(), text);
    }
}

#[test]
fn lengths_numbers_and_limits() {
    assert_said([
        (Refusal::WrongPageLength(9), "a page has 4096 bytes, and 9 were lent"),
        (Refusal::WrongBufferLength { buffer: Buffer::Out, length: 9 }, "the buffer `out` takes 4096 bytes, and 9 were lent"),
        (Refusal::WrongBufferLength { buffer: Buffer::Shifted, length: 4096 }, "the buffer `shifted` takes 4080 bytes, and 4096 were lent"),
        (Refusal::BadMagic(7), "magic 00000007, not da7aba5e: this is no page 0 of a SQL Anywhere 17 file"),
        (
            Refusal::BadReplacement { sector: 8 },
            "sector 8 cannot be replaced by these bytes: sectors are 0 to 7, and a sector takes 512 bytes, sector 7 with its trailer",
        ),
        (Refusal::NoSuchRow(5), "there is no row 5: rows are counted from 0"),
        (
            Refusal::LimitOutOfRange(7),
            "a search limit is 8 to 2048, and 7 was asked for: take the usual 768, or up to 2048 where a directory lies further on",
        ),
        (
            Refusal::Unknown { what: "page type", number: 8 },
            "the library gave page type number 8, which this crate does not know: take both from one commit and build again",
        ),
    ]);
}

/// The unread sectors come first.
#[test]
fn damage() {
    assert_said([
        (
            Refusal::BadCrc { page: 7, stored: 0x12, computed: 0xFFFF_FFFF },
            "page 7: its CRC is ffffffff, and 00000012 is stored: replace from a second copy the sectors that could not be read, since \
             zeros in their place mislead the choice of bv; INTEGRITY reads the page all the same",
        ),
        (Refusal::BadTrailer { page: 7 }, "page 7: reserved trailer bytes are not zero: allow INTEGRITY to read it"),
    ]);
}

#[test]
fn several_values_of_bv() {
    let mended = "page 7: bv may be any of 08, f9, fa: replace damaged sectors from a second copy, since zeros in their place mislead the \
                  choice";
    assert_said([
        (
            several(7, asked(0, Leniency::STRICT)),
            "page 7: bv may be any of 08, f9, fa: lend anchors (values of bv of other pages of its block: 16 pages, the first a multiple \
             of 16) and allow KEYSTREAM to take the likeliest",
        ),
        (several(7, asked(2, Leniency::DIRECTORY)), "page 7: bv may be any of 08, f9, fa: allow KEYSTREAM to take the likeliest"),
        (several(7, asked(0, INTEGRITY)), mended),
        (several(7, asked(2, INTEGRITY | Leniency::DIRECTORY)), mended),
    ]);
}

#[test]
fn nothing_confirms_bv() {
    assert_said([
        (
            unconfirmed(7, asked(0, Leniency::STRICT)),
            "page 7: nothing confirms bv 5a: lend anchors (values of bv of other pages of its block: 16 pages, the first a multiple of \
             16), raise the search limit, or allow KEYSTREAM to take it",
        ),
        (
            unconfirmed(7, asked(1, Leniency::STRICT)),
            "page 7: nothing confirms bv 5a, no anchor either: raise the search limit, or allow KEYSTREAM to take it",
        ),
        (
            unconfirmed(7, asked(0, INTEGRITY)),
            "page 7: nothing confirms bv 5a: replace damaged sectors from a second copy, lend anchors (values of bv of other pages of its \
             block: 16 pages, the first a multiple of 16), or raise the search limit",
        ),
        (
            unconfirmed(7, asked(1, INTEGRITY)),
            "page 7: nothing confirms bv 5a, no anchor either: replace damaged sectors from a second copy, or raise the search limit",
        ),
        (
            unconfirmed(7, supplied(Leniency::STRICT)),
            "page 7: nothing confirms the supplied bv 5a: supply another bv, raise the search limit, or allow KEYSTREAM to take \
             it",
        ),
        (
            unconfirmed(7, supplied(INTEGRITY)),
            "page 7: nothing confirms the supplied bv 5a: replace damaged sectors from a second copy, supply another bv, or raise the \
             search limit",
        ),
    ]);
}

/// Nothing further can be searched.
#[test]
fn the_greatest_limit_is_not_raised() {
    let options = Options { search_limit: header::GREATEST_SEARCH_LIMIT, ..Options::default() };
    let refusal = unconfirmed(7, Asked { anchors: 1, options, supplied: false });
    assert_eq!(refusal.to_string(), "page 7: nothing confirms bv 5a, no anchor either: allow KEYSTREAM to take it");
}

#[test]
fn a_step_in_doubt() {
    assert_said([
        (
            doubtful(7, asked(0, Leniency::STRICT)),
            "page 7, sector 3: its step is in doubt, 300 bytes agree against 290: allow KEYSTREAM to read it",
        ),
        (
            doubtful(7, asked(0, INTEGRITY)),
            "page 7, sector 3: its step is in doubt, 300 bytes agree against 290: replace it from a second copy if it is damaged",
        ),
        (
            doubtful(7, supplied(Leniency::STRICT)),
            "page 7, sector 3: its step is in doubt, 300 bytes agree against 290: replace it from a second copy if it is damaged, or allow \
             KEYSTREAM to read it",
        ),
        (doubtful(7, asked(0, KEYSTREAM)), "page 7, sector 3: its step is in doubt, 300 bytes agree against 290"),
    ]);
}

#[test]
fn slot_directories() {
    let none = |reason| Refusal::NoSlotDirectory { page: 7, reason };
    assert_said([
        (none(Reason::CountBelowFour), "page 7: no slot directory, a row count below 4 confirms none: allow DIRECTORY to read it"),
        (
            none(Reason::FewerThanEightLive),
            "page 7: no slot directory, what looks like one has fewer than 8 live slots: allow DIRECTORY to read it",
        ),
        (none(Reason::Unconfirmed), "page 7: no slot directory, no prelude confirms what looks like one: allow DIRECTORY to read it"),
        (
            Refusal::UnknownPrelude { page: 7 },
            "page 7: no prelude has its row count: raise the search limit, or allow DIRECTORY to read it",
        ),
        (
            Refusal::SlotDirectoryTruncated { page: 7, found: 5, expected: 9, stop: 78 },
            "page 7: 5 slots of 9, up to offset 78: allow DIRECTORY to read those",
        ),
        (Refusal::AmbiguousSlotDirectory { page: 7 }, "page 7: several slot directories fit: allow DIRECTORY to take one"),
        (
            Refusal::SlotOffsetInDirectory { page: 7, offset: 70, end: 78 },
            "page 7: slot offset 70 lies inside the directory, which ends at 78: allow DIRECTORY to drop it",
        ),
    ]);
}

/// It is not shifted, so no leniency makes sense of it.
#[test]
fn page_0_points_to_the_superblock() {
    let strict = asked(0, Leniency::STRICT);
    assert_said([
        (
            Refusal::BadCrc { page: 0, stored: 1, computed: 2 },
            "page 0: its CRC is 00000002, and 00000001 is stored: page 0 is the superblock and is not shifted: `superblock` reads it",
        ),
        (unconfirmed(0, strict), "page 0: nothing confirms bv 5a: page 0 is the superblock and is not shifted: `superblock` reads it"),
    ]);
    let others = [
        Refusal::BadTrailer { page: 0 },
        several(0, strict),
        doubtful(0, strict),
        Refusal::NoSlotDirectory { page: 0, reason: Reason::Unconfirmed },
        Refusal::UnknownPrelude { page: 0 },
        Refusal::SlotDirectoryTruncated { page: 0, found: 5, expected: 9, stop: 78 },
        Refusal::AmbiguousSlotDirectory { page: 0 },
        Refusal::SlotOffsetInDirectory { page: 0, offset: 70, end: 78 },
    ];
    for text in others.map(|refusal| refusal.to_string()) {
        assert!(text.ends_with(": page 0 is the superblock and is not shifted: `superblock` reads it"), "{text}");
        assert!(!text.contains("allow") && !text.contains("replace"), "{text}");
    }
}

/// In whatever order and with whatever anchors.
#[test]
fn nothing_advises_keystream_after_integrity() {
    for bits in 0..=255 {
        let leniency = Leniency(bits);
        for asked in [asked(0, leniency), asked(3, leniency), supplied(leniency)] {
            for text in [several(7, asked), unconfirmed(7, asked), doubtful(7, asked)].map(|refusal| refusal.to_string()) {
                let (guess, mend) = (text.contains("KEYSTREAM"), text.contains("from a second copy"));
                assert!(!guess || !leniency.allows(INTEGRITY), "{text}");
                assert!(mend || !leniency.allows(INTEGRITY), "{text}");
            }
        }
    }
}

#[test]
fn numbers_of_refusals() {
    let told = |refusal: Refusal| (refusal.number(), refusal.page());
    assert_eq!(told(Refusal::BadTrailer { page: 9 }), (4, Some(9)));
    assert_eq!(told(Refusal::NoSuchRow(9)), (16, None));
    assert_eq!(told(Refusal::LimitOutOfRange(9)), (20, None));
    assert_eq!(told(Refusal::Unknown { what: "answer", number: 21 }), (21, None));
}

#[test]
fn sources_and_confidences() {
    assert_said([
        (Source::TrailerRowCount, "trailer row count"),
        (Source::ExactSectors, "exact sectors"),
        (Source::Histogram, "histogram"),
        (Source::Supplied, "supplied"),
        (Source::Corroborated, "corroborated"),
        (Source::Unallocated, "unallocated"),
    ]);
    assert_said([
        (Confidence::Unallocated, "unallocated"),
        (Confidence::Unverified, "unverified"),
        (Confidence::Corroborated, "corroborated"),
        (Confidence::Calibrated, "calibrated"),
        (Confidence::Verified, "verified"),
    ]);
    assert_eq!(format!("[{:<13}]", Confidence::Verified), "[verified     ]");
}

#[test]
fn evidence() {
    assert_said([
        (Evidence::TrailerRowCount, "the row count stands before a slot directory"),
        (Evidence::ExactSectors { count: 6, dissent: 1 }, "exact sectors vote 6 to 1 for it"),
        (Evidence::BlockAnchor, "another page of its block has it"),
        (Evidence::ZeroMass { zeros: 3_964, lead: 3_952 }, "3964 bytes decode to zero, 3952 more than under the next best"),
        (Evidence::Unallocated, "all bytes are zero"),
    ]);
}

#[test]
fn warnings() {
    assert_said([
        (WarningKind::BadCrc, "its CRC is not the stored one"),
        (WarningKind::BadTrailer, "reserved trailer bytes are not zero"),
        (WarningKind::AmbiguousCalibration { chosen: 0xF9, others: vec![8, 0xFA] }, "bv f9 was taken, and may be 08, fa"),
        (WarningKind::UnverifiedKeystream { bv: 8 }, "nothing confirms bv 08"),
        (
            WarningKind::LowConfidenceSector { sector: 3, peak: 300, runner_up: 290 },
            "the step of sector 3 is in doubt, 300 bytes agree against 290",
        ),
        (WarningKind::UnverifiedDirectory, "no prelude confirms the slot directory"),
        (WarningKind::UnknownPrelude, "no prelude has its row count"),
        (WarningKind::SlotDirectoryTruncated { found: 5, expected: 9 }, "its slot directory has 5 slots of 9"),
        (WarningKind::AmbiguousSlotDirectory, "several slot directories fit"),
        (WarningKind::SlotOffsetsInDirectory { dropped: 2 }, "slots that point into the directory are left out: 2"),
    ]);
    let (mut page, mut out) = ([0; PAGE], [0; PAGE]);
    page[0] = 1;
    let options = Options { leniency: INTEGRITY | KEYSTREAM, ..Options::default() };
    let decoding = decode(7, &page, &[], options, &mut out).unwrap();
    assert_eq!(decoding.warnings[0].to_string(), "page 7: its CRC is not the stored one");
}

#[test]
fn page_types_and_leniencies() {
    assert_said([
        (PageType::Extent, "extent"),
        (PageType::Alloc, "allocation"),
        (PageType::Map, "map"),
        (PageType::Header, "header"),
        (PageType::Catalog, "catalog"),
        (PageType::Bootstrap, "bootstrap"),
        (PageType::Index, "index"),
        (PageType::Other(0x7B), "other 7b"),
    ]);
    assert_said([
        (Leniency::STRICT, "strict"),
        (Leniency(0xF8), "strict"),
        (KEYSTREAM, "KEYSTREAM"),
        (KEYSTREAM | INTEGRITY, "KEYSTREAM + INTEGRITY"),
        (Leniency(7), "KEYSTREAM + DIRECTORY + INTEGRITY"),
    ]);
    assert_said([(Buffer::Out, "out"), (Buffer::Shifted, "shifted")]);
}
