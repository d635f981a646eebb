//! Every question that a case asks, put to the library as C asks it and as Rust does, and to the original. An answer is compared whole, by all
//! its bytes and by the binding's types, and with it every byte that was lent.
use std::fmt::Debug;

use lumeviqo::header as h;
use lumeviqo::{PAGE, SHIFTED};
use oracle::Reading;
use oracle::plain::{Decoded, Fit, Refusal};

use crate::kinds::{Case, MARKER, write_sector};
use crate::lent::{BEFORE, Fault};
use crate::limits::{self, USUAL};
use crate::options::Options;
use crate::plan::data_of;
use crate::questions::Question;
use crate::random::Random;
use crate::shrink::hex;
use crate::summary::{ANY_TIED, Summary};
use crate::tally::Tally;
use crate::{as_c, as_rust, layouts};

/// The first question that the two sides answer differently.
#[derive(Debug)]
pub struct Difference {
    pub question: Question,
    pub detail: String,
    /// The search limit that was asked for, the usual one where none is.
    pub limit: usize,
}

type Checked = Result<(), Difference>;

impl Difference {
    fn new(question: Question, detail: String) -> Self {
        Difference { question, detail, limit: USUAL }
    }

    /// What was asked, where the case does not say it.
    fn asked(self, what: String) -> Self {
        Difference { detail: format!("{}\nasked with {what}", self.detail), ..self }
    }

    fn asked_at(self, limit: usize) -> Self {
        Difference { limit, ..self.asked(format!("limit {limit}")) }
    }
}

pub fn compare(case: &Case, tally: &mut Tally) -> Checked {
    *tally.pages.entry(case.kind).or_default() += 1;
    fields(case, tally)?;
    match Reading::new(case.number, &case.page) {
        Ok(reading) => whole_page(case, &reading, tally)?,
        Err(_) => [(PAGE, SHIFTED), (5, 3)].into_iter().try_for_each(|(room, shifted)| lengths(case, room, shifted, tally))?,
    }
    if let Some(plain) = &case.plain {
        for limit in [USUAL, case.limit, case.outside] {
            rows(case, plain, limit, tally).map_err(|d| d.asked_at(limit))?;
        }
    }
    Ok(())
}

/// By the types of the binding, or a number that C returns.
fn same<A: PartialEq + Debug>(tally: &mut Tally, question: Question, reader: Result<A, Fault>, original: &A) -> Checked {
    tally.asked(question);
    match reader {
        Ok(reader) if reader == *original => Ok(()),
        Ok(reader) => Err(Difference::new(question, format!("reader   {reader:?}\noriginal {original:?}"))),
        Err(detail) => Err(Difference::new(question, detail)),
    }
}

/// By all bytes of the layout.
fn exactly(tally: &mut Tally, question: Question, answer: as_c::Answer, layout: &[u8]) -> Checked {
    tally.asked(question);
    let answer = answer.map_err(|detail| Difference::new(question, detail))?;
    holds(question, "the answer", &answer, layout)
}

fn holds(question: Question, what: &str, reader: &[u8], expected: &[u8]) -> Checked {
    if reader == expected {
        return Ok(());
    }
    let at = reader.iter().zip(expected).take_while(|(a, b)| a == b).count();
    let from = |bytes: &[u8]| hex(&bytes[at..(at + 24).min(bytes.len())]);
    Err(Difference::new(question, format!("{what}, from byte {at}\nreader   {}\nexpected {}", from(reader), from(expected))))
}

fn refused(number: usize, value: usize) -> Refusal {
    Refusal { number: number as u8, values: vec![value as u64], candidates: Vec::new() }
}

/// CRC, trailer, integrity and superblock.
fn fields(case: &Case, tally: &mut Tally) -> Checked {
    let page = &case.page;
    same(tally, Question::Version, Ok(as_c::version() as usize), &h::VERSION)?;
    let mut r = Random::new(case.number, page.len() as u64);
    let from = r.below(page.len() + 1);
    for part in [&page[from..r.from_to(from, page.len())], page] {
        let crc = oracle::crc32(part);
        same(tally, Question::Crc, as_c::crc32(part), &crc)?;
        same(tally, Question::Crc, as_rust::crc32(part), &crc)?;
    }

    let trailer = oracle::trailer(page);
    tally.answer(Question::Trailer, trailer.as_ref().err());
    exactly(tally, Question::Trailer, as_c::trailer(page), &layouts::trailer(&trailer))?;
    same(tally, Question::Trailer, as_rust::trailer(page), &trailer)?;

    let integrity = oracle::integrity(case.number, page);
    tally.answer(Question::Integrity, integrity.as_ref().err());
    exactly(tally, Question::Integrity, as_c::integrity(case.number, page), &layouts::integrity(&integrity))?;
    same(tally, Question::Integrity, as_rust::integrity(case.number, page), &integrity)?;

    superblocks(page, tally)?;
    if page.len() < PAGE {
        return Ok(());
    }
    let (at, marked) = marked(page, &mut r);
    let put = &marked[at..page.len().min(at + MARKER.len())];
    superblocks(&marked, tally).map_err(|d| d.asked(format!("the magic, and at {at}: {}", hex(put))))
}

fn superblocks(page: &[u8], tally: &mut Tally) -> Checked {
    let superblock = oracle::superblock(page);
    tally.answer(Question::Superblock, superblock.as_ref().err());
    exactly(tally, Question::Superblock, as_c::superblock(page), &layouts::superblock(&superblock))?;
    same(tally, Question::Superblock, as_rust::superblock(page), &superblock)?;

    let checked = oracle::superblock_checked(page);
    tally.answer(Question::CheckedSuperblock, checked.as_ref().err());
    exactly(tally, Question::CheckedSuperblock, as_c::superblock_checked(page), &layouts::superblock(&checked))?;
    same(tally, Question::CheckedSuperblock, as_rust::superblock_checked(page), &checked)
}

/// The page with the magic, and with the marker somewhere: a made page has it only where its CRC is not. At times a bit is off, or its end cut off.
fn marked(page: &[u8], r: &mut Random) -> (usize, Vec<u8>) {
    let mut page = page.to_vec();
    let last = page.len() - MARKER.len();
    let at = if r.one_in(2) { r.of(&[0, last - 1, last, last + 1]) } else { r.below(page.len()) };
    let n = MARKER.len().min(page.len() - at);
    page[0x14..0x18].copy_from_slice(&0xDA7A_BA5E_u32.to_le_bytes());
    page[at..at + n].copy_from_slice(&MARKER[..n]);
    if r.one_in(4) {
        page[at + r.below(n)] ^= 1 << r.below(8);
    }
    (at, page)
}

/// Scan, decodings and replacements of a page of the right length.
fn whole_page(case: &Case, reading: &Reading<'_>, tally: &mut Tally) -> Checked {
    let summary = Summary::of(reading);
    tally.scanned(&summary.fits);
    candidates(case, reading, tally)?;
    scan(case, &Ok(&summary), SHIFTED, tally)?;

    for limit in [USUAL, case.limit] {
        decodings(case, reading, &summary, limit, tally).map_err(|d| d.asked_at(limit))?;
    }
    refused_decodings(case, PAGE, SHIFTED, case.outside, tally)?;
    let mut r = Random::new(case.number, case.page[4095] as u64);
    let (room, shifted) = (r.of(&[0, 1, 4079, SHIFTED, 4081, 4095, 4097]), r.of(&[0, 1, 4079, 4081, 4095, PAGE, 4097]));
    [(room, shifted), (room, SHIFTED), (PAGE, shifted)].into_iter().try_for_each(|(room, shifted)| lengths(case, room, shifted, tally))?;
    replacements(case, summary, tally)
}

/// How many the original lists, by what a strict and a lenient decoding make of them. It is proved that there are never more than eight.
fn candidates(case: &Case, reading: &Reading<'_>, tally: &mut Tally) -> Checked {
    let listed = reading.candidates();
    let keystream = h::LENIENT_KEYSTREAM as u8;
    for bits in [case.bits & !keystream, case.bits | keystream] {
        tally.choice(bits & keystream != 0, listed.len(), &reading.decode(&case.anchors, bits, USUAL));
    }
    if listed.len() <= h::MOST_CANDIDATES {
        return Ok(());
    }
    Err(Difference::new(Question::Decoding, format!("the original lists {} candidates: {listed:?}", listed.len())))
}

/// The four decodings at a limit, and the rows of what they give.
fn decodings(case: &Case, reading: &Reading<'_>, summary: &Summary, limit: usize, tally: &mut Tally) -> Checked {
    let (n, page, anchors, options) = (case.number, &case.page[..], &case.anchors[..], Options { bits: case.bits, limit });
    // The case's options and anchors by its own scan, and the summary with those, without anchors, and in full leniency.
    let expected = reading.decode(anchors, options.bits, limit);
    decoding_as_c(tally, Question::Decoding, limit, PAGE, &expected, |o| as_c::decode(n, page, anchors, options, o))?;
    from_summary(tally, Question::SummaryDecoding, case, page, summary, anchors, options, &expected)?;
    for (anchors, bits) in [(anchors, options.bits ^ 1), (&[], 7)] {
        let expected = reading.decode(anchors, bits, limit);
        from_summary(tally, Question::SummaryDecoding, case, page, summary, anchors, Options { bits, limit }, &expected)?;
    }
    many_anchors(case, reading, summary, options, tally)?;
    foreign(case, &reading.turned(), options, tally)?;

    supplied(case, reading, summary, options, tally)?;
    expected.map_or(Ok(()), |d| rows(case, &d.plain, limit, tally))
}

/// The fits and the shifted bytes, or a refusal that writes none.
fn scan(case: &Case, expected: &Result<&Summary, Refusal>, room: usize, tally: &mut Tally) -> Checked {
    let none = Summary { fits: [Fit::default(); 8], shifted: vec![BEFORE; room] };
    let (question, after) = (Question::Scan, expected.as_ref().copied().unwrap_or(&none));
    tally.answer(question, expected.as_ref().err());
    let mut shifted = vec![BEFORE; room];
    let layout = layouts::fits(expected.as_ref().err(), &after.fits);
    exactly(tally, question, as_c::scan(case.number, &case.page, &mut shifted), &layout)?;
    holds(question, "shifted", &shifted, &after.shifted)?;

    shifted.fill(BEFORE);
    let fits = expected.as_ref().map(|s| s.fits).map_err(Clone::clone);
    same(tally, question, as_rust::scan(case.number, &case.page, &mut shifted), &fits)?;
    holds(question, "shifted", &shifted, &after.shifted)
}

/// An answer, and the plaintext in a buffer of so many bytes, which stay as they were where it is a refusal.
fn decoding(
    tally: &mut Tally,
    question: Question,
    limit: usize,
    room: usize,
    expected: &Result<Decoded, Refusal>,
    as_c: impl FnOnce(&mut [u8]) -> as_c::Answer,
    as_rust: impl FnOnce(&mut [u8]) -> as_rust::Answer<Decoded>,
) -> Checked {
    decoding_as_c(tally, question, limit, room, expected, as_c)?;
    let mut out = vec![BEFORE; room];
    same(tally, question, as_rust(&mut out), expected)?;
    holds(question, "out", &out, &plaintext(expected, room))
}

fn decoding_as_c(
    tally: &mut Tally,
    question: Question,
    limit: usize,
    room: usize,
    expected: &Result<Decoded, Refusal>,
    as_c: impl FnOnce(&mut [u8]) -> as_c::Answer,
) -> Checked {
    tally.decoding(limit, question, expected);
    let mut out = vec![BEFORE; room];
    exactly(tally, question, as_c(&mut out), &layouts::decoding(expected))?;
    holds(question, "out", &out, &plaintext(expected, room))
}

fn plaintext(expected: &Result<Decoded, Refusal>, room: usize) -> Vec<u8> {
    expected.as_ref().map_or_else(|_| vec![BEFORE; room], |d| d.plain.clone())
}

#[allow(clippy::too_many_arguments)]
fn from_summary(
    tally: &mut Tally,
    question: Question,
    case: &Case,
    page: &[u8],
    summary: &Summary,
    anchors: &[u8],
    options: Options,
    expected: &Result<Decoded, Refusal>,
) -> Checked {
    let as_c = |o: &mut [u8]| as_c::decode_summary(case.number, page, summary, anchors, options, o);
    let as_rust = |o: &mut [u8]| as_rust::decode_summary(case.number, page, summary, anchors, options, o);
    decoding(tally, question, options.limit, PAGE, expected, as_c, as_rust)
        .map_err(|d| d.asked(format!("options {}, anchors {anchors:?}", options.bits)))
}

/// From the summary of another page, as that is, and with any numbers of tied steps: they are passed on as lent.
fn foreign(case: &Case, other: &Reading<'_>, options: Options, tally: &mut Tally) -> Checked {
    let (question, page, anchors) = (Question::ForeignDecoding, &case.page, &case.anchors);
    let (summary, expected) = (Summary::of(other), other.decode(anchors, options.bits, options.limit));
    from_summary(tally, question, case, page, &summary, anchors, options, &expected)?;
    let (summary, expected) = (summary.with_tied(ANY_TIED), expected.map(|d| d.with_tied(ANY_TIED)));
    from_summary(tally, question, case, page, &summary, anchors, options, &expected).map_err(lent_tied)
}

fn lent_tied(d: Difference) -> Difference {
    d.asked(format!("tied {ANY_TIED:?}"))
}

/// More anchors than a byte counts, for one page in fifty more than two bytes do; those that may decide stand last.
fn many_anchors(case: &Case, reading: &Reading<'_>, summary: &Summary, options: Options, tally: &mut Tally) -> Checked {
    let (n, page, Options { bits, limit }) = (case.number, &case.page[..], options);
    let (idle, times) = (case.bv.wrapping_add(128), if n % 50 == 49 { 65_536 } else { 255 + n as usize % 70 });
    let last = if case.anchors.is_empty() { &[case.bv][..] } else { &case.anchors };
    let anchors = [&vec![idle; times], last].concat();
    let expected = reading.decode(&anchors, bits, limit);
    // Rust has the page scanned, C has the summary: both functions see them all, and a scan is the longest part of a call.
    let as_c = |o: &mut [u8]| as_c::decode_summary(n, page, summary, &anchors, options, o);
    let as_rust = |o: &mut [u8]| as_rust::decode(n, page, &anchors, options, o);
    decoding(tally, Question::ManyAnchors, limit, PAGE, &expected, as_c, as_rust)
        .map_err(|d| d.asked(format!("options {bits}, anchors {times} times {idle}, then {last:?}")))
}

fn supplied(case: &Case, reading: &Reading<'_>, summary: &Summary, options: Options, tally: &mut Tally) -> Checked {
    let (n, page, bv, limit) = (case.number, &case.page[..], case.bv, options.limit);
    let expected = reading.decode_supplied(bv, options.bits, limit);
    let as_c = |o: &mut [u8]| as_c::decode_supplied(n, page, bv, options, o);
    decoding(tally, Question::Supplied, limit, PAGE, &expected, as_c, |o| as_rust::decode_supplied(n, page, bv, options, o))?;
    let (summary, expected) = (summary.clone().with_tied(ANY_TIED), expected.map(|d| d.with_tied(ANY_TIED)));
    let as_c = |o: &mut [u8]| as_c::decode_supplied_summary(n, page, &summary, bv, options, o);
    let as_rust = |o: &mut [u8]| as_rust::decode_supplied_summary(n, page, &summary, bv, options, o);
    decoding(tally, Question::SummarySupplied, limit, PAGE, &expected, as_c, as_rust).map_err(lent_tied)
}

/// By the case's options, and with DIRECTORY the other way.
fn rows(case: &Case, plain: &[u8], limit: usize, tally: &mut Tally) -> Checked {
    for bits in [case.bits, case.bits ^ 2] {
        rows_by(case.number, plain, Options { bits, limit }, tally).map_err(|d| d.asked(format!("options {bits}")))?;
    }
    Ok(())
}

/// The parse of a plain page, its rows, each of them, and some that it has not.
fn rows_by(n: u64, plain: &[u8], options: Options, tally: &mut Tally) -> Checked {
    let expected = limits::parsed(n, plain, options.bits, options.limit);
    tally.parsed(options.limit, &expected);
    exactly(tally, Question::Parse, as_c::parse(n, plain, options), &layouts::parse(&expected))?;
    exactly(tally, Question::RowCount, as_c::row_count(n, plain, options), &layouts::row_count(&expected))?;
    exactly(tally, Question::Rows, as_c::rows(n, plain, options), &layouts::rows(&expected))?;
    same(tally, Question::Rows, as_rust::parse_and_rows(n, plain, options), &expected)?;
    let count = expected.as_ref().map(|p| p.rows.len()).map_err(Clone::clone);
    same(tally, Question::RowCount, as_rust::row_count(n, plain, options), &count)?;

    let count = count.unwrap_or(0);
    for row in (0..=count).chain([1 << 16, 1 << 32, usize::MAX]) {
        let found = layouts::row_of(&expected, row).cloned();
        tally.answer_at(options.limit, Question::Row, found.as_ref().err());
        exactly(tally, Question::Row, as_c::row(n, plain, options, row), &layouts::row(&expected, row))
            .and_then(|()| same(tally, Question::Row, as_rust::row(n, plain, options, row), &found))
            .map_err(|d| d.asked(format!("row {row}")))?;
    }
    Ok(())
}

/// Document 01's checks of lengths, in their order.
fn wrong_length(page: usize, out: Option<usize>, shifted: Option<usize>) -> Option<Refusal> {
    let wrong = |number: usize, length: usize, right: usize| (length != right).then(|| refused(number, length));
    wrong(h::WRONG_PAGE_LENGTH, page, PAGE)
        .or_else(|| wrong(h::WRONG_BUFFER_LENGTH, out?, PAGE))
        .or_else(|| wrong(h::WRONG_BUFFER_LENGTH, shifted?, SHIFTED))
}

/// Each function that takes a page and a buffer, where a length is wrong. The original has no buffers: they are document 01's.
fn lengths(case: &Case, room: usize, shifted: usize, tally: &mut Tally) -> Checked {
    [USUAL, case.outside].into_iter().try_for_each(|limit| refused_decodings(case, room, shifted, limit, tally))?;
    refused_summaries(case, shifted, tally).map_err(|d| d.asked(format!("room for {shifted} shifted bytes")))
}

/// The four decodings, where a length or else the limit is wrong.
fn refused_decodings(case: &Case, room: usize, shifted: usize, limit: usize, tally: &mut Tally) -> Checked {
    by_their_scan(case, room, limit, tally)
        .and_then(|()| by_a_summary(case, room, shifted, limit, tally))
        .map_err(|d| d.asked(format!("room for {room} plain bytes and {shifted} shifted ones")).asked_at(limit))
}

fn by_their_scan(case: &Case, room: usize, limit: usize, tally: &mut Tally) -> Checked {
    let (n, page, anchors, bv, options) = (case.number, &case.page[..], &case.anchors[..], case.bv, Options { bits: case.bits, limit });
    let Some(refusal) = wrong_length(page.len(), Some(room), None).or_else(|| limits::refusal(limit)) else { return Ok(()) };
    let expected = Err(refusal);
    let as_c = |o: &mut [u8]| as_c::decode(n, page, anchors, options, o);
    decoding(tally, Question::Decoding, limit, room, &expected, as_c, |o| as_rust::decode(n, page, anchors, options, o))?;
    let as_c = |o: &mut [u8]| as_c::decode_supplied(n, page, bv, options, o);
    decoding(tally, Question::Supplied, limit, room, &expected, as_c, |o| as_rust::decode_supplied(n, page, bv, options, o))
}

fn by_a_summary(case: &Case, room: usize, shifted: usize, limit: usize, tally: &mut Tally) -> Checked {
    let (n, page, anchors, bv, options) = (case.number, &case.page[..], &case.anchors[..], case.bv, Options { bits: case.bits, limit });
    let wrong = wrong_length(page.len(), Some(room), Some(shifted)).or_else(|| limits::refusal(limit));
    let Some(refusal) = wrong else { return Ok(()) };
    let (expected, summary) = (Err(refusal), &Summary::of_none(vec![BEFORE; shifted]));
    let as_c = |o: &mut [u8]| as_c::decode_summary(n, page, summary, anchors, options, o);
    let as_rust = |o: &mut [u8]| as_rust::decode_summary(n, page, summary, anchors, options, o);
    decoding(tally, Question::SummaryDecoding, limit, room, &expected, as_c, as_rust)?;
    let as_c = |o: &mut [u8]| as_c::decode_supplied_summary(n, page, summary, bv, options, o);
    let as_rust = |o: &mut [u8]| as_rust::decode_supplied_summary(n, page, summary, bv, options, o);
    decoding(tally, Question::SummarySupplied, limit, room, &expected, as_c, as_rust)
}

/// Scan and replacement, where a length is wrong.
fn refused_summaries(case: &Case, shifted: usize, tally: &mut Tally) -> Checked {
    let Some(refusal) = wrong_length(case.page.len(), None, Some(shifted)) else { return Ok(()) };
    scan(case, &Err(refusal), shifted, tally)?;
    for (sector, new) in [(0, &[1; 512][..]), (7, &[1; 512]), (9, &[1; 3])] {
        let (mut page, mut summary) = (case.page.clone(), Summary::of_none(vec![BEFORE; shifted]));
        replacement(tally, Question::Replacement, case.number, &mut page, &mut summary, sector, new)?;
    }
    Ok(())
}

/// The case's replacements one after the other, in its own summary and in one of no page, and some that do not fit.
fn replacements(case: &Case, own: Summary, tally: &mut Tally) -> Checked {
    let n = case.number;
    for (sector, length) in [(8, 512), (256, 512), (1 << 32, 512), (7, 496), (7, 513), (6, 496), (0, 0)] {
        let (mut page, mut summary) = (case.page.clone(), Summary::of_none(own.shifted.clone()));
        replacement(tally, Question::Replacement, n, &mut page, &mut summary, sector, &vec![1; length])?;
    }
    if case.replacements.is_empty() {
        return Ok(());
    }
    let (mut page, mut summary) = (case.page.clone(), own);
    let (mut other_page, mut foreign) = (case.page.clone(), Summary::of_none(Random::new(n, 0).bytes(SHIFTED)));
    for (sector, new) in &case.replacements {
        replacement(tally, Question::Replacement, n, &mut page, &mut summary, *sector, new)?;
        replacement(tally, Question::ForeignReplacement, n, &mut other_page, &mut foreign, *sector, new)?;
    }
    // The summary, and what is read from it, are what a fresh reading of the final page gives.
    let reading = Reading::new(n, &page).expect("its length is as it was");
    same(tally, Question::Replacement, Ok(summary.clone()), &Summary::of(&reading))?;
    for limit in [USUAL, case.limit] {
        for bits in [0, 4, 7] {
            let (options, expected) = (Options { bits, limit }, reading.decode(&case.anchors, bits, limit));
            from_summary(tally, Question::ReplacedDecoding, case, &page, &summary, &case.anchors, options, &expected)
                .map_err(|d| d.asked_at(limit))?;
        }
    }
    Ok(())
}

/// Document 02's replacement, #103, by the original's scan of the sector's data: its fit and its shifted bytes are those, seven stay.
fn replaced(n: u64, page: &[u8], summary: &Summary, sector: usize, new: &[u8]) -> Result<(Vec<u8>, Summary), Refusal> {
    if let Some(refusal) = wrong_length(page.len(), None, Some(summary.shifted.len())) {
        return Err(refusal);
    }
    let (mut page, mut summary) = (page.to_vec(), summary.clone());
    if !write_sector(&mut page, sector, new) {
        return Err(refused(h::BAD_REPLACEMENT, sector));
    }
    let (fit, shifted) = oracle::sector(n, &page, sector);
    summary.fits[sector] = fit;
    summary.shifted[data_of(sector)].copy_from_slice(&shifted);
    Ok((page, summary))
}

fn replacement(
    tally: &mut Tally,
    question: Question,
    n: u64,
    page: &mut Vec<u8>,
    summary: &mut Summary,
    sector: usize,
    new: &[u8],
) -> Checked {
    replacement_held(tally, question, n, page, summary, sector, new)
        .map_err(|d| d.asked(format!("{} new bytes of sector {sector}", new.len())))
}

/// A replacement, and the page and the summary as they then are.
fn replacement_held(
    tally: &mut Tally,
    question: Question,
    n: u64,
    page: &mut Vec<u8>,
    summary: &mut Summary,
    sector: usize,
    new: &[u8],
) -> Checked {
    let expected = replaced(n, page, summary, sector, new);
    let refusal = expected.as_ref().err();
    tally.answer(question, refusal);
    let (after_page, after) = expected.as_ref().cloned().unwrap_or_else(|_| (page.clone(), summary.clone()));
    let (mut stored, mut lent) = (page.clone(), summary.clone());
    exactly(tally, question, as_c::replace(n, &mut stored, &mut lent, sector, new), &layouts::fits(refusal, &after.fits))?;
    holds(question, "stored", &stored, &after_page)?;
    holds(question, "shifted", &lent.shifted, &after.shifted)?;

    let (mut stored, mut lent) = (page.clone(), summary.clone());
    let fits = refusal.map_or(Ok(after.fits), |r| Err(r.clone()));
    same(tally, question, as_rust::replace(n, &mut stored, &mut lent, sector, new), &fits)?;
    holds(question, "stored", &stored, &after_page)?;
    holds(question, "shifted", &lent.shifted, &after.shifted)?;
    (*page, *summary) = (after_page, after);
    Ok(())
}
