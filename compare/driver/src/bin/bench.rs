//! bench REPORT [ROUNDS]: both sides' processor times on the same pages, as ratios, after seeing that they answer alike. REPORT is the program
//! `report`. Each round times all sides of every question, one after the other, the first of them changing with the round; `report` is timed in
//! one round of ten. A figure is the median over the rounds. It fails where an answer differs or a ratio is over its limit.
#[cfg(before)]
#[path = "../before.rs"]
mod before;

use std::fs::File;
use std::hint::black_box;
use std::path::{Path, PathBuf};
use std::process::{Command, ExitCode};

use compare::bench_pages::{BITS, COUNT, OPTIONS, Pages, falling, half, near, progressions, random, tables, zero};
use compare::limits::{GREATEST, USUAL};
use compare::shrink::{frame_head, hex};
use compare::timing::{Group, table, time};
use lumeviqo::{Fits, Leniency, Options, PAGE, SHIFTED};
use oracle::{Reading, timed};

/// The limits for a kind of page, of the original's time. A replacement is held to its scan.
#[derive(Clone, Copy)]
struct Limits {
    scan: f64,
    replacement: Option<f64>,
    decoding: Option<f64>,
    /// Of a page scanned before.
    summary: f64,
    report: Option<f64>,
}

/// An exact sector is answered at once, any other by its residue classes; the original makes 256 histograms of each.
const EXACT: Limits = Limits { scan: 0.002, replacement: Some(0.001), decoding: Some(0.003), summary: 0.003, report: Some(0.008) };
const DENSE: Limits = Limits { scan: 0.17, replacement: None, decoding: Some(0.19), summary: 0.006, report: Some(0.2) };
const MIXED: Limits = Limits { scan: 0.18, replacement: None, decoding: Some(0.19), summary: 0.006, report: Some(0.2) };
/// Counts that pass 255 are made again, under two steps.
const NEAR: Limits = Limits { scan: 0.2, replacement: None, decoding: None, summary: 0.01, report: None };
const HALF: Limits = NEAR;
/// In the order of the pages that are scanned.
const LIMITS: [Limits; 5] = [EXACT, DENSE, MIXED, NEAR, HALF];
/// The limits of a parse, by its pages: exact, dense, mixed; 0, 50 and 200 rows; 384 falling slots, random, all zero. Those of all rows: 50 and
/// 200 rows, 384 falling slots. Where a prelude confirms the rows the original has little to do, and that is what the reader must not be slower than.
const STRICT_PARSE: [f64; 9] = [0.87, 0.62, 0.21, 0.51, 0.7, 0.65, 0.0044, 0.61, 0.77];
const DIRECTORY_PARSE: [f64; 9] = [0.88, 0.62, 0.21, 0.50, 0.7, 0.65, 0.0067, 0.61, 0.77];
const ALL_ROWS: [f64; 3] = [0.6, 0.6, 0.0082];
/// That of a search of 2,048 bytes, of the time for 768: 2.7 times the bytes, in one pass.
const WIDEST: f64 = 3.0;
/// That of `report` on pages of zeros.
const ZEROS: f64 = 0.45;
/// Of each kind for `report`: starting a program takes as long as a hundred exact ones.
const FRAMES: usize = 4_000;
/// Both programs take eight seconds for all frames, so these are timed in one round of so many.
const REPORTS: usize = 10;

fn main() -> ExitCode {
    let mut args = std::env::args().skip(1);
    let report = PathBuf::from(args.next().expect("REPORT is the program report"));
    let rounds = args.next().map_or(200, |a| a.parse().expect("ROUNDS is a number"));
    let stored = progressions();
    let others = [near(), half()];
    let scanned: Vec<&Pages> = stored.iter().chain(&others).collect();
    let [falling, widest] = falling();
    let plain: Vec<Pages> = tables().into_iter().chain([falling, random(), zero()]).collect();
    let parsed: Vec<&Pages> = stored.iter().chain(&plain).collect();
    let frames = Frames::all(&stored);
    let alike = scanned
        .iter()
        .copied()
        .chain(&plain)
        .chain([&widest])
        .try_for_each(Pages::check)
        .and_then(|_| frames.iter().try_for_each(|f| f.check(&report)));
    #[cfg(before)]
    let beside = before::questions(&scanned, &parsed);
    #[cfg(before)]
    let alike = alike.and_then(|_| before::check(&beside));
    if let Err(difference) = alike {
        println!("{difference}");
        return ExitCode::FAILURE;
    }

    let mut groups = vec![crc(&stored)];
    groups.extend(scanned.iter().zip(LIMITS).map(|(pages, limits)| scan(pages, limits)));
    #[cfg(before)]
    groups.extend(before::groups(&beside));
    groups.extend(scanned.iter().zip(LIMITS).map(|(pages, limits)| decode(pages, limits)));
    groups.extend(scanned.iter().map(|pages| supplied(pages)));
    for (question, leniency, limits) in
        [("parse, strict", Leniency::STRICT, STRICT_PARSE), ("parse, DIRECTORY", Leniency::DIRECTORY, DIRECTORY_PARSE)]
    {
        groups.extend(parsed.iter().zip(limits).map(|(pages, limit)| parse(question, pages, leniency, limit)));
    }
    groups.extend(plain[1..4].iter().zip(ALL_ROWS).map(|(pages, limit)| rows(pages, limit)));
    groups.extend([&plain[0], &plain[4], &plain[5]].map(|pages| at_greatest(pages, Some(WIDEST))));
    groups.extend([at_greatest(&widest, None), parse_at_greatest(&widest)]);
    groups.push(reports(&frames, &report));
    time(&mut groups, rounds);

    let (table, over) = table(&groups);
    println!("{table}\n");
    if over.is_empty() {
        println!("{rounds} rounds, no ratio is over its limit");
        return ExitCode::SUCCESS;
    }
    println!("{rounds} rounds, over their limit: {}", over.join("; "));
    ExitCode::FAILURE
}

/// Three pages of each kind: they stay in the first cache.
fn crc(kinds: &[Pages]) -> Group<'_> {
    let inputs: Vec<&[u8]> = kinds.iter().flat_map(|k| k.stored[..3].iter().map(|p| &p[..4092])).collect();
    let mut g = Group::default();
    let [reader, with, without] = [lumeviqo::crc32, timed::crc32_pclmulqdq, timed::crc32_baseline].map(|crc| {
        let inputs = inputs.clone();
        g.side(inputs.len(), move || inputs.iter().for_each(|p| _ = black_box(crc(black_box(p)))))
    });
    g.ratio("CRC of 4,092 bytes, beside crc32fast with PCLMULQDQ", "exact, dense, mixed", reader, with, Some(2.2));
    g.ratio("CRC of 4,092 bytes, beside crc32fast without", "exact, dense, mixed", reader, without, Some(0.4));
    g
}

/// A side that asks a question of each of the eight pages.
fn each<'a>(g: &mut Group<'a>, mut ask: impl FnMut(usize) + 'a) -> usize {
    g.side(COUNT, move || (0..COUNT).for_each(&mut ask))
}

/// The original has no replacement: it scans the page anew.
fn scan(pages: &Pages, limits: Limits) -> Group<'_> {
    let p = &pages.stored;
    let mut g = Group::default();
    let mut shifted = [0; SHIFTED];
    let reader = each(&mut g, move |k| drop(black_box(lumeviqo::scan(k as u64, &p[k], &mut shifted))));
    let original = each(&mut g, |k| timed::scan(k as u64, &p[k]));
    let (mut stored, mut summaries) = (p.clone(), summaries(pages));
    let replacement = each(&mut g, move |k| {
        let (fits, shifted) = &mut summaries[k];
        let answer = lumeviqo::replace(k as u64, &mut stored[k], shifted, fits, k, pages.replacement(k));
        *fits = answer.expect("the sector and the lengths are right");
    });
    g.ratio("scan of a page", pages.name, reader, original, Some(limits.scan));
    g.ratio("replacement of a sector, of the original's scan", pages.name, replacement, original, limits.replacement);
    g
}

/// The fits and the shifted bytes of each page.
fn summaries(pages: &Pages) -> Vec<(Fits, [u8; SHIFTED])> {
    let summary = |(k, page): (usize, &Vec<u8>)| {
        let mut shifted = [0; SHIFTED];
        (lumeviqo::scan(k as u64, page, &mut shifted).expect("the lengths are right"), shifted)
    };
    pages.stored.iter().enumerate().map(summary).collect()
}

fn decode(pages: &Pages, limits: Limits) -> Group<'_> {
    let p = &pages.stored;
    let mut g = Group::default();
    let mut out = [0; PAGE];
    let reader = each(&mut g, move |k| drop(black_box(lumeviqo::decode(k as u64, &p[k], &[], OPTIONS, &mut out))));
    let original = each(&mut g, |k| timed::decode(k as u64, &p[k], BITS));
    let summaries = summaries(pages);
    let beside = each(&mut g, move |k| {
        let (fits, shifted) = &summaries[k];
        drop(black_box(lumeviqo::decode_summary(k as u64, &p[k], fits, shifted, &[], OPTIONS, &mut out)));
    });
    g.ratio("decoding", pages.name, reader, original, limits.decoding);
    g.ratio("decoding of a page scanned before, of the original's decoding", pages.name, beside, original, Some(limits.summary));
    g
}

fn supplied(pages: &Pages) -> Group<'_> {
    let p = &pages.stored;
    let mut g = Group::default();
    let mut out = [0; PAGE];
    let reader = each(&mut g, move |k| drop(black_box(lumeviqo::decode_supplied(k as u64, &p[k], pages.bv(k), OPTIONS, &mut out))));
    let original = each(&mut g, |k| timed::decode_supplied(k as u64, &p[k], pages.bv(k), BITS));
    g.ratio("decoding with a supplied bv", pages.name, reader, original, None);
    g
}

fn parse<'a>(question: &'static str, pages: &'a Pages, leniency: Leniency, limit: f64) -> Group<'a> {
    let (p, options) = (&pages.plain, Options { leniency, ..OPTIONS });
    let mut g = Group::default();
    let reader = each(&mut g, move |k| drop(black_box(lumeviqo::parse(k as u64, &p[k], options))));
    let original = each(&mut g, move |k| timed::parse(k as u64, &p[k], leniency.0));
    g.ratio(question, pages.name, reader, original, Some(limit));
    g
}

fn rows(pages: &Pages, limit: f64) -> Group<'_> {
    let p = &pages.plain;
    let mut g = Group::default();
    let reader = each(&mut g, |k| drop(black_box(lumeviqo::rows(k as u64, &p[k], directory(USUAL)))));
    let original = each(&mut g, |k| timed::rows(k as u64, &p[k], Leniency::DIRECTORY.0));
    g.ratio("list of all rows, DIRECTORY", pages.name, reader, original, Some(limit));
    g
}

fn directory(search_limit: usize) -> Options {
    Options { leniency: Leniency::DIRECTORY, search_limit, ..OPTIONS }
}

/// The reader beside itself: the original's limit is one number.
fn at_greatest(pages: &Pages, limit: Option<f64>) -> Group<'_> {
    let p = &pages.plain;
    let mut g = Group::default();
    let [greatest, usual] = [GREATEST, USUAL].map(|searched| {
        let parse = each(&mut g, move |k| drop(black_box(lumeviqo::parse(k as u64, &p[k], directory(searched)))));
        let rows = each(&mut g, move |k| drop(black_box(lumeviqo::rows(k as u64, &p[k], directory(searched)))));
        [parse, rows]
    });
    g.ratio("parse at 2,048, DIRECTORY, of its own time at 768", pages.name, greatest[0], usual[0], limit);
    g.ratio("list of all rows at 2,048, DIRECTORY, of its own time at 768", pages.name, greatest[1], usual[1], limit);
    g
}

/// Beside the original with its one constant set to another number.
fn parse_at_greatest(pages: &Pages) -> Group<'_> {
    let p = &pages.plain;
    let mut g = Group::default();
    let reader = each(&mut g, |k| drop(black_box(lumeviqo::parse(k as u64, &p[k], directory(GREATEST)))));
    let original = each(&mut g, |k| timed::parse_at(GREATEST, k as u64, &p[k], Leniency::DIRECTORY.0));
    g.ratio("parse at 2,048, DIRECTORY, of the original's with its limit changed", pages.name, reader, original, Some(1.0));
    g
}

/// A file of frames for `report`, which goes when this does.
struct Frames {
    name: &'static str,
    limit: Option<f64>,
    file: PathBuf,
    /// Of each page in its turn, the digits of its tied steps.
    tied: Vec<String>,
}

impl Frames {
    /// The pages of each kind again and again, and pages of zeros.
    fn all(kinds: &[Pages]) -> Vec<Frames> {
        let zeros = [vec![0; PAGE]];
        let kinds = kinds.iter().zip(LIMITS).map(|(k, limits)| Frames::new(k.name, &k.stored, limits.report));
        kinds.chain([Frames::new("all zero", &zeros, Some(ZEROS))]).collect()
    }

    fn new(name: &'static str, pages: &[Vec<u8>], limit: Option<f64>) -> Self {
        let frame = |k: usize| {
            let head = frame_head((k % pages.len()) as u64, BITS, USUAL as u16, 0);
            format!("{}{}\n", hex(&head), hex(&pages[k % pages.len()]))
        };
        let file = std::env::temp_dir().join(format!("lumeviqo-{}-{name}", std::process::id()));
        std::fs::write(&file, (0..FRAMES).map(frame).collect::<String>()).expect("a file for the frames");
        Frames { name, limit, file, tied: (0..).zip(pages).map(|(k, page)| tied(k, page)).collect() }
    }

    /// Whether the lines without their tied steps are the original's, and those are what is counted.
    fn check(&self, report: &Path) -> Result<(), String> {
        let text = |program: &Path| String::from_utf8(run(program, &self.file)).expect("digits and newlines");
        let (kept, tied): (Vec<String>, Vec<String>) = text(report).split('\n').map(parted).unzip();
        let counted: String = self.tied.iter().map(String::as_str).cycle().take(FRAMES).collect();
        let alike = kept.join("\n") == text(&original_report()) && kept.len() == FRAMES + 1 && tied.concat() == counted;
        alike.then_some(()).ok_or_else(|| format!("lines of {} frames differ", self.name))
    }
}

/// The digits of a page's tied steps in its line, as they are counted.
fn tied(number: u64, page: &[u8]) -> String {
    let decoded = Reading::new(number, page).and_then(|reading| reading.decode(&[], BITS, USUAL));
    decoded.map_or(String::new(), |d| d.fits.iter().map(|f| format!("{:04x}", f.tied)).collect())
}

/// A line without the digits of tied steps, the last four of each fit's sixteen, and those digits. A refusal has no fits.
fn parted(line: &str) -> (String, String) {
    let (from, to) = (24, 152);
    let Some(fits) = line.get(from..to) else { return (line.to_string(), String::new()) };
    let (kept, tied): (Vec<&str>, Vec<&str>) = (0..8).map(|s| fits[16 * s..16 * s + 16].split_at(12)).unzip();
    (line[..from].to_string() + &kept.concat() + &line[to..], tied.concat())
}

impl Drop for Frames {
    fn drop(&mut self) {
        _ = std::fs::remove_file(&self.file);
    }
}

/// What a program answers to the frames of a file.
fn run(program: &Path, frames: &Path) -> Vec<u8> {
    let frames = File::open(frames).expect("the file was just written");
    let output = Command::new(program).stdin(frames).output().unwrap_or_else(|e| panic!("{}: {e}", program.display()));
    assert!(output.status.success(), "{} failed", program.display());
    output.stdout
}

/// It is built beside this program.
fn original_report() -> PathBuf {
    std::env::current_exe().expect("this program has a path").with_file_name("original_report")
}

/// Both programs on each kind of frames. A page of zeros is not scanned: what is left is what a frame costs.
fn reports<'a>(frames: &'a [Frames], report: &'a Path) -> Group<'a> {
    let mut g = Group::every(REPORTS);
    let sides: Vec<_> = frames
        .iter()
        .map(|f| [report.to_path_buf(), original_report()].map(|program| g.process(FRAMES, move || drop(run(&program, &f.file)))))
        .collect();
    for (f, [reader, original]) in frames.iter().zip(&sides) {
        g.ratio("the program `report`", f.name, *reader, *original, f.limit);
    }
    let ([_, exact], [zero, _]) = (sides[0], sides[3]);
    g.ratio("a frame of zeros, of the original's exact page", "all zero", zero, exact, Some(0.02));
    g
}
