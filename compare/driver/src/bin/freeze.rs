//! freeze SEED FOLDER: the questions and answers of the program `frozen`, as FOLDER/stdin and FOLDER/stdout, all from the original; where it
//! has no counterpart (lengths of lent buffers, replacement, row numbers, limits out of range) from documents 01 and 02, and tied steps from the
//! count behind its ap.rs. A question is taken where it shows something that none before it does: a function's answer or reason, a source with
//! its confidence, a row of evidence, a kind of warning, a type of page; at another search limit, that this decides whether a page is accepted;
//! and, on pages that are made for it, how many steps tied, where a directory lies and how long it is, which sector comes to it, or how many
//! candidates it has.
use std::collections::BTreeSet;
use std::fs::write;
use std::path::Path;

use compare::kinds::{Case, KINDS, Kind, MANY_CANDIDATES, PEAKS_ABOUT_255, Replacement, case_among, recrc, write_sector};
use compare::layouts;
use compare::limits::{self, Class, GREATEST, OUTSIDE, USUAL};
use compare::plan::{DATA, Plan, put, triangular};
use compare::shrink::hex;
use oracle::{Decoded, Fit, Parsed, Reading, Refusal, Warning};

/// As the program `frozen` numbers them.
#[derive(Clone, Copy, Debug)]
enum Asked {
    Crc = 1,
    Trailer,
    Integrity,
    Superblock,
    SuperblockChecked,
    Scan,
    Replacement,
    Decoding,
    Supplied,
    Parse,
    RowCount,
    Row,
    Rows,
    SuppliedSummary,
}

#[derive(Clone, Copy)]
struct Question<'a> {
    asked: Asked,
    case: &'a Case,
    page: &'a [u8],
    place: usize,
    limit: usize,
    /// How long the buffer is that the plaintext or the shifted bytes go to.
    room: usize,
    bytes: &'a [u8],
}

/// What a question must be answered, and what it shows.
struct Expected {
    line: String,
    shows: Vec<String>,
}

#[derive(Default)]
struct Frozen {
    shown: BTreeSet<String>,
    stdin: Vec<u8>,
    stdout: String,
    questions: usize,
    /// Those of a limit out of range.
    outside: usize,
}

impl Frozen {
    fn take(&mut self, q: Question<'_>, expected: Expected) {
        let before = self.shown.len();
        self.shown.extend(expected.shows.iter().map(|s| shown_by(q, s)));
        if self.shown.len() > before {
            self.stdin.extend(question(&q));
            self.stdout += &expected.line;
            self.stdout.push('\n');
            self.questions += 1;
            self.outside += (Class::of(q.limit) == Class::Outside) as usize;
        }
    }

    /// A question at the case's other limit, and at one that is out of range, which only a wrong length comes before. Its answer at the usual limit
    /// and at the other one is told, and how the page stands at the usual one.
    fn take_at_limits<T: Clone>(
        &mut self,
        q: Question<'_>,
        standing: &str,
        [usual, other]: [&Result<T, Refusal>; 2],
        line: impl Fn(&Result<T, Refusal>) -> String,
    ) {
        let outside = self.next_outside();
        let refused = limits::refusal(outside).filter(|_| q.page.len() == 4096).map_or_else(|| usual.clone(), Err);
        for (limit, answer) in [(q.case.limit, other), (outside, &refused)] {
            if let Some(shown) = limit_shows(q.case, limit, standing, usual, answer) {
                self.take(Question { limit, ..q }, Expected { line: line(answer), shows: vec![shown] });
            }
        }
    }

    /// Out of range, each in its turn.
    fn next_outside(&self) -> usize {
        OUTSIDE[self.outside % OUTSIDE.len()]
    }
}

fn shown_by(q: Question<'_>, what: &str) -> String {
    format!("{:?}: {what}", q.asked)
}

fn main() {
    let args: Vec<String> = std::env::args().collect();
    let [_, seed, folder] = &args[..] else {
        eprintln!("usage: freeze SEED FOLDER");
        std::process::exit(2);
    };
    let seed = seed.parse().expect("SEED is a number");
    let mut frozen = Frozen::default();
    // Apart or not at all, so that the questions of the other kinds stay as they are.
    let kinds = KINDS.iter().filter(|kind| kind.0 != PEAKS_ABOUT_255);
    let (many, others): (Vec<Kind>, Vec<Kind>) = kinds.partition(|kind| kind.0 == MANY_CANDIDATES);
    for index in 0..6_000 {
        let case = case_among(&others, seed, index);
        fields(&case, &mut frozen);
        page_and_rows(&case, &mut frozen);
    }
    ties().iter().for_each(|case| whole_page(case, &mut frozen));
    wide().iter().for_each(|case| page_and_rows(case, &mut frozen));
    trailers().iter().for_each(|case| whole_page(case, &mut frozen));
    (0..1_000).map(|index| case_among(&many, seed, index)).for_each(|case| whole_page(&case, &mut frozen));
    println!("{} questions, which show {} things", frozen.questions, frozen.shown.len());
    write(Path::new(folder).join("stdin"), frozen.stdin).expect("FOLDER/stdin can be written");
    write(Path::new(folder).join("stdout"), frozen.stdout).expect("FOLDER/stdout can be written");
}

fn page_and_rows(case: &Case, frozen: &mut Frozen) {
    if case.page.len() == 4096 {
        whole_page(case, frozen);
    }
    if let Some(plain) = &case.plain {
        rows(case, plain, frozen);
    }
}

/// A question as the program reads it.
fn question(q: &Question<'_>) -> Vec<u8> {
    let anchors = &q.case.anchors[..q.case.anchors.len().min(255)];
    let mut out = vec![q.asked as u8];
    out.extend(q.case.number.to_le_bytes());
    out.extend([q.case.bits, 4]);
    out.extend((q.limit as u64).to_le_bytes());
    out.push(q.case.bv);
    for n in [q.place, q.page.len(), anchors.len(), q.bytes.len(), q.room] {
        out.extend((n as u16).to_le_bytes());
    }
    for part in [q.page, anchors, q.bytes] {
        out.extend(part);
    }
    out
}

fn about<'a>(asked: Asked, case: &'a Case, page: &'a [u8]) -> Question<'a> {
    Question { asked, case, page, place: 0, limit: USUAL, room: 4096, bytes: &[] }
}

fn crc(bytes: &[u8]) -> String {
    format!(" {:08x}", oracle::crc32(bytes))
}

/// An answer's number, and the reason of answer 8.
fn number<T>(answer: &Result<T, Refusal>) -> String {
    match answer {
        Ok(_) => "answer 0".into(),
        Err(r) if r.number == 8 => format!("answer 8 reason {}", r.values[1]),
        Err(r) => format!("answer {}", r.number),
    }
}

fn refused(number: u8, value: usize) -> Refusal {
    Refusal { number, values: vec![value as u64], candidates: Vec::new() }
}

const TIES: &str = "ties";
const PAST: &str = "a directory past 0x300";
const MOST: &str = "the most slots";
const TRAILERS: &str = "trailers";

fn made(kind: &'static str, bits: u8, limit: usize, page: Vec<u8>) -> Case {
    Case { kind, number: 9, page, bits, anchors: Vec::new(), bv: 0, plain: None, replacements: Vec::new(), limit, outside: OUTSIDE[0] }
}

/// A sector as a page has it, sector 7 with the trailer.
fn sector_of(page: &[u8], s: usize) -> Replacement {
    (s, page[s * 512..][..512].to_vec())
}

/// Zeros, and a trailer that is right.
fn blank() -> Vec<u8> {
    let mut page = vec![0; 4096];
    page[0xFF2] = b'E';
    recrc(&mut page);
    page
}

/// A page of exact sectors, to which come three: all steps tie in 512 and in 496 bytes, and two do. And the page that has them all.
fn ties() -> [Case; 2] {
    let page = blank();
    let two_tie = [vec![0; 256], (0..=255).collect()].concat();
    let last = [&triangular(496), &page[DATA..]].concat();
    let replacements = vec![(0, triangular(512)), (3, two_tie), (7, last)];
    let exact = Case { replacements, ..made(TIES, 7, USUAL, page) };
    let mut tied = Case { page: exact.replaced_page(), replacements: Vec::new(), ..exact.clone() };
    recrc(&mut tied.page);
    [exact, tied]
}

/// Zeros and such slots; no sector is exact.
fn with_slots(start: usize, count: usize, fall: usize) -> Plan {
    let mut plan = Plan { number: 9, data: vec![0; DATA], steps: [3, 250, 17, 128, 0, 91, 7, 200], bv: 0x5A, trailer: [0; 12], off: 0 };
    (0..8).for_each(|s| plan.sector(s)[300] = 1);
    put_slots(&mut plan, start, count, fall);
    plan
}

fn put_slots(plan: &mut Plan, start: usize, count: usize, fall: usize) {
    (0..count).for_each(|k| put(&mut plan.data, start + 2 * k, (0xFE0 - fall * k) as u16));
}

/// 40 slots behind a prelude at 0x400, which alone speak for the bv, since no sector is exact; and the most slots that a search can find. A sector of
/// each is replaced by the bytes that it has.
fn wide() -> [Case; 2] {
    let (mut past, most) = (with_slots(0x404, 40, 7), with_slots(0, 1_024, 1));
    put(&mut past.data, 0x400, 40);
    past.rows(40);
    let case = |(kind, plan): (&'static str, Plan)| {
        let page = plan.stored();
        let replacements = vec![sector_of(&page, 5)];
        Case { bv: plan.bv, plain: Some(plan.plain()), replacements, ..made(kind, 2, GREATEST, page) }
    };
    [(PAST, past), (MOST, most)].map(case)
}

/// A directory of 5 rows, and in sector 1 one of 9 that reads under another bv: the row count, which is 5, says which is taken.
fn two_directories() -> Plan {
    let mut plan = with_slots(0x44, 5, 0x100);
    put(&mut plan.data, 0x40, 5);
    put_slots(&mut plan, 0x244, 9, 0x100);
    put(&mut plan.data, 0x240, 9);
    plan.sector(1).iter_mut().for_each(|b| *b = b.wrapping_add(0x40));
    plan.rows(5);
    plan
}

/// A page that lost sectors 3 and 7, to which comes sector 7 in lengths that are refused, sector 3, sector 7; and the two pages in between, to which
/// comes the other. The whole page, to which comes a trailer with the row count of its other directory, one with a reserved byte set, one with a
/// wrong CRC. And a blank page, to whose trailer come zeros.
fn trailers() -> [Case; 5] {
    let whole = two_directories().stored();
    let without = |lost: &[usize]| {
        let mut page = whole.clone();
        lost.iter().for_each(|s| page[s * 512..][..512].fill(0xFF));
        page
    };
    let last = |change: fn(&mut Plan)| {
        let mut plan = two_directories();
        change(&mut plan);
        sector_of(&plan.stored(), 7)
    };
    let [third, seventh] = [3, 7].map(|s| sector_of(&whole, s));
    let resized = |n: usize| (7, [&seventh.1[..], &[0]].concat()[..n].to_vec());
    let unfit = [0, 495, 496, 511, 513].map(resized);
    let cases = [
        (without(&[3, 7]), [&unfit[..], &[third.clone(), seventh.clone()]].concat()),
        (without(&[3]), vec![third]),
        (without(&[7]), vec![seventh]),
        (whole.clone(), vec![last(|p| p.rows(9)), last(|p| p.trailer[3] = 1), last(|p| p.off = 1)]),
        (blank(), vec![(7, vec![0; 512])]),
    ];
    cases.map(|(page, replacements)| Case { replacements, ..made(TRAILERS, 0, USUAL, page) })
}

/// Every such page is asked about, so its bytes say which it is. Its CRC would not: all pages whose stored CRC is right have the same.
fn of_trailers(case: &Case, asked: &str) -> Option<String> {
    (case.kind == TRAILERS).then(|| format!("{asked} of {}", hex(&case.page)))
}

/// How many steps tied. Other pages have ties that show nothing new.
fn tied(case: &Case, fits: &[Fit; 8]) -> Option<String> {
    (case.kind == TIES).then(|| format!("tied {:?}", fits.map(|f| f.tied)))
}

/// How many candidates there were, and what came of them; a bad CRC or trailer is refused before they are listed.
fn of_many(case: &Case, candidates: &[u8], answer: &Result<Decoded, Refusal>) -> Option<String> {
    let listed = !matches!(answer, Err(Refusal { number: 3 | 4, .. }));
    (case.kind == MANY_CANDIDATES && listed).then(|| format!("{} of {} candidates", number(answer), candidates.len()))
}

/// CRC, trailer, integrity, superblock; on lengths that are no page's too.
fn fields(case: &Case, frozen: &mut Frozen) {
    let page = &case.page[..];
    if page.len() > 4096 + 1 {
        return;
    }
    let shows = vec![format!("{} bytes", page.len())];
    frozen.take(about(Asked::Crc, case, page), Expected { line: crc(page), shows });

    let answer = oracle::trailer(page);
    let mut shows = vec![number(&answer)];
    shows.extend(answer.iter().map(|t| format!("type {} variant {}", t.type_case, t.case_variant)));
    frozen.take(about(Asked::Trailer, case, page), Expected { line: hex(&layouts::trailer(&answer)), shows });

    let answer = oracle::integrity(case.number, page);
    let shows = vec![format!("{} on page 0: {}", number(&answer), case.number == 0)];
    frozen.take(about(Asked::Integrity, case, page), Expected { line: hex(&layouts::integrity(&answer)), shows });

    for (asked, answer) in [(Asked::Superblock, oracle::superblock(page)), (Asked::SuperblockChecked, oracle::superblock_checked(page))] {
        let mut shows = vec![number(&answer)];
        shows.extend(answer.iter().map(|s| format!("marker {}", s.marker)));
        frozen.take(about(asked, case, page), Expected { line: hex(&layouts::superblock(&answer)), shows });
    }
}

/// Scan, decodings, replacement.
fn whole_page(case: &Case, frozen: &mut Frozen) {
    let page = &case.page[..];
    let reading = Reading::new(case.number, page).expect("its length is right");
    let (fits, shifted) = (reading.fits(), reading.shifted());

    let line = hex(&layouts::fits(None, &fits)) + &crc(&shifted);
    let exact = fits.iter().filter(|f| f.exact).count();
    let shows = [format!("{exact} exact")].into_iter().chain(tied(case, &fits)).collect();
    frozen.take(Question { room: 4080, ..about(Asked::Scan, case, page) }, Expected { line, shows });
    let none = [Fit::default(); 8];
    for room in [0, 4079] {
        let refusal = refused(2, room);
        let line = hex(&layouts::fits(Some(&refusal), &none)) + &crc(&vec![0; room]);
        frozen.take(Question { room, ..about(Asked::Scan, case, page) }, Expected { line, shows: vec![format!("room for {room}")] });
    }

    let answer = reading.decode(&case.anchors, case.bits, USUAL);
    let of_kind = of_trailers(case, "decoding").into_iter().chain(of_many(case, &reading.candidates(), &answer));
    let shows = decoding_shows(case, &answer).into_iter().chain(of_kind).collect();
    frozen.take(about(Asked::Decoding, case, page), Expected { line: decoding_line(&answer, 4096), shows });
    let other = reading.decode(&case.anchors, case.bits, case.limit);
    frozen.take_at_limits(about(Asked::Decoding, case, page), standing(&answer), [&answer, &other], |a| decoding_line(a, 4096));
    for limit in [USUAL, frozen.next_outside()] {
        let (answer, class) = (Err(refused(2, 4095)), Class::of(limit));
        let shows = vec![format!("{} of an all-zero page: {}, {class}", number(&answer), page.iter().all(|&b| b == 0))];
        let asked = about(Asked::Decoding, case, page);
        frozen.take(Question { limit, room: 4095, ..asked }, Expected { line: decoding_line(&answer, 4095), shows });
    }
    supplied(case, &reading, frozen);

    for (sector, bytes) in &case.replacements {
        if bytes.len() <= 600 && *sector < 65536 {
            replacement(case, *sector, bytes, &reading, frozen);
        }
    }
}

/// With the case's bv, by its own scan and from a summary.
fn supplied(case: &Case, reading: &Reading<'_>, frozen: &mut Frozen) {
    let [answer, other] = [USUAL, case.limit].map(|limit| reading.decode_supplied(case.bv, case.bits, limit));
    let doubtful = reading.fits().iter().any(|f| !f.exact && (f.peak < 24 || f.peak < f.runner_up + 12));
    let in_doubt = format!("{}, a sector in doubt: {doubtful}", number(&answer));
    let shows = decoding_shows(case, &answer).into_iter().chain([in_doubt]).collect();
    for (asked, shows) in [(Asked::Supplied, shows), (Asked::SuppliedSummary, vec![number(&answer)])] {
        frozen.take(about(asked, case, &case.page), Expected { line: decoding_line(&answer, 4096), shows });
        frozen.take_at_limits(about(asked, case, &case.page), standing(&answer), [&answer, &other], |a| decoding_line(a, 4096));
    }
}

/// What a limit out of range is refused before.
fn standing(usual: &Result<Decoded, Refusal>) -> &'static str {
    match usual {
        Ok(d) if d.bv.is_none() => "an unallocated page",
        Ok(_) => "an accepted page",
        Err(Refusal { number: 3, .. }) => "a bad CRC",
        Err(Refusal { number: 4, .. }) => "a bad trailer",
        Err(_) => "a refused page",
    }
}

/// That a limit out of range is refused; that another decides whether a page is accepted; all that the wide pages have.
fn limit_shows<T>(case: &Case, limit: usize, standing: &str, usual: &Result<T, Refusal>, answer: &Result<T, Refusal>) -> Option<String> {
    let class = Class::of(limit);
    let decides = usual.is_ok() != answer.is_ok();
    match class {
        Class::Outside => Some(format!("{} for {standing}", number(answer))),
        _ if [PAST, MOST].contains(&case.kind) => Some(case.kind.into()),
        _ if decides => Some(format!("accepted {}, {class}", answer.is_ok())),
        _ => None,
    }
}

/// The answer's layout, and the CRC of the plaintext's buffer: zeros unless the page is accepted.
fn decoding_line(answer: &Result<Decoded, Refusal>, room: usize) -> String {
    let out = answer.as_ref().map_or_else(|_| vec![0; room], |d| d.plain.clone());
    hex(&layouts::decoding(answer)) + &crc(&out)
}

fn decoding_shows(case: &Case, answer: &Result<Decoded, Refusal>) -> Vec<String> {
    let mut out = vec![number(answer)];
    if let Ok(d) = answer {
        out.push(format!("residue {}", case.number % 16));
        out.push(format!("source {} confidence {}", d.source, d.confidence));
        out.push(format!("evidence {:?}", d.evidence.iter().map(|e| e.0).collect::<Vec<_>>()));
        out.extend(d.evidence.iter().filter_map(|e| telling(d, e)));
        out.extend(tied(case, &d.fits));
        out.extend(warned(&d.warnings));
    }
    out
}

/// Votes against the bv that is taken; no other candidate to be ahead of.
fn telling(d: &Decoded, &(number, first, second): &(u8, u16, u16)) -> Option<String> {
    match number {
        2 if second > 0 => Some(format!("dissent, confidence {}", d.confidence)),
        4 if first == second => Some("one candidate".into()),
        _ => None,
    }
}

fn warned(warnings: &[Warning]) -> impl Iterator<Item = String> {
    warnings.iter().map(|w| format!("warning {}", w.number))
}

/// The page scanned, a sector replaced, the page decoded from the summary: what a fresh reading of the final page gives.
fn replacement(case: &Case, sector: usize, bytes: &[u8], before: &Reading<'_>, frozen: &mut Frozen) {
    let mut page = case.page.clone();
    let fitting = write_sector(&mut page, sector, bytes);
    let after = Reading::new(case.number, &page).expect("its length is right");
    let (fits, shifted, refusal) =
        if fitting { (after.fits(), after.shifted(), None) } else { (before.fits(), before.shifted(), Some(refused(14, sector))) };
    let [usual, other] = [USUAL, case.limit].map(|limit| after.decode(&case.anchors, case.bits, limit));
    let before = hex(&layouts::fits(refusal.as_ref(), &fits)) + &crc(&page) + &crc(&shifted) + " ";
    let line = |decoded: &Result<Decoded, Refusal>| before.clone() + &decoding_line(decoded, 4096);
    let of_kind = tied(case, &fits).into_iter().chain(of_trailers(case, &format!("sector {sector} {}", hex(bytes))));
    let shows = [format!("fitting {fitting} sector {sector}"), number(&usual)].into_iter().chain(of_kind).collect();
    let question = Question { place: sector, bytes, room: 4080, ..about(Asked::Replacement, case, &case.page) };
    frozen.take(question, Expected { line: line(&usual), shows });
    frozen.take_at_limits(question, standing(&usual), [&usual, &other], line);
}

/// The parse and the rows of a plain page, the last row and the one behind it.
fn rows(case: &Case, plain: &[u8], frozen: &mut Frozen) {
    if plain.len() > 4096 + 1 {
        return;
    }
    let parsed = oracle::parse(case.number, plain, case.bits, USUAL);
    let expected = |line: Vec<u8>| Expected { line: hex(&line), shows: parse_shows(&parsed) };
    frozen.take(about(Asked::Parse, case, plain), expected(layouts::parse(&parsed)));
    let count = parsed.as_ref().map_or(0, |p| p.rows.len());
    let shows = vec![number(&parsed)];
    frozen.take(about(Asked::RowCount, case, plain), Expected { line: hex(&layouts::row_count(&parsed)), shows });
    let expected = Expected { line: hex(&layouts::rows(&parsed)), shows: vec![number(&parsed)] };
    frozen.take(about(Asked::Rows, case, plain), expected);
    for row in [0, count / 2, count.saturating_sub(1), count] {
        let shows = vec![format!("{} last {} beyond {}", number(&parsed), row + 1 == count, row >= count)];
        let asked = about(Asked::Row, case, plain);
        frozen.take(Question { place: row, ..asked }, Expected { line: hex(&layouts::row(&parsed, row)), shows });
    }
    let other = oracle::parse(case.number, plain, case.bits, case.limit);
    let (standing, last) = (if parsed.is_ok() { "an accepted page" } else { "a refused page" }, if case.kind == MOST { 1_023 } else { 0 });
    let answers = [&parsed, &other];
    frozen.take_at_limits(about(Asked::Parse, case, plain), standing, answers, |p| hex(&layouts::parse(p)));
    frozen.take_at_limits(about(Asked::RowCount, case, plain), standing, answers, |p| hex(&layouts::row_count(p)));
    frozen.take_at_limits(about(Asked::Rows, case, plain), standing, answers, |p| hex(&layouts::rows(p)));
    let asked = Question { place: last, ..about(Asked::Row, case, plain) };
    frozen.take_at_limits(asked, standing, answers, |p| hex(&layouts::row(p, last)));
}

fn parse_shows(parsed: &Result<Parsed, Refusal>) -> Vec<String> {
    let mut out = vec![number(parsed)];
    if let Ok(p) = parsed {
        out.push(p.directory.as_ref().map_or("no directory".into(), |d| format!("declared {}", d.declared.is_some())));
        out.extend(warned(&p.warnings));
    }
    out
}
