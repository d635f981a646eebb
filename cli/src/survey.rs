//! `lumeviqo survey`: what became of each page of a file.
use lumeviqo::{Refusal, header};
use serde_json::json;

use crate::args::{Common, Survey};
use crate::failure::{Failure, Result};
use crate::newfile::NewFile;
use crate::notes::notes;
use crate::outcome::Outcome;
use crate::output::Output;
use crate::paint::paint;
use crate::picture::{self, Picture};
use crate::progress::Progress;
use crate::reading::{Answer, PageReading};
use crate::sketch::sketch;
use crate::source::Source;
use crate::sweep::{Batch, Sweep};
use crate::tally::{Tally, type_name};
use crate::words::{FIRM, counted, grouped, hanging, sectors};

const COLUMNS: [&str; 12] =
    ["page", "outcome", "answer", "source", "confidence", "bv", "type", "trailer_rows", "rows", "row_answer", "warnings", "unread_sectors"];

/// Columns from which on there is room for what an outcome means.
const WIDE: usize = 80;

/// What is known of a file when it was gone through, or when that was interrupted.
struct Surveyed<'a> {
    source: &'a Source,
    first: u64,
    tally: Tally,
    /// A byte a page, for the pictures.
    outcomes: Vec<Outcome>,
    notes: Vec<String>,
    interrupted: bool,
}

/// What a part of the file gives, made by any thread.
struct Part {
    tally: Tally,
    outcomes: Vec<Outcome>,
    csv: Vec<u8>,
}

pub fn run(asked: &Survey, common: &Common) -> Result<u8> {
    let sweep = Sweep::asked(&asked.file, common)?;
    let svg = asked.svg.as_deref().map(NewFile::create).transpose()?;
    let mut out = Output::new(common);
    if asked.csv {
        out.line(COLUMNS.join(","))?;
    }
    let surveyed = go_through(&sweep, asked.csv, common, &mut out)?;
    if asked.json {
        out.line(surveyed.json())?;
    } else if !asked.csv {
        out.bytes(surveyed.text(&out).as_bytes())?;
    }
    if let Some(file) = svg.filter(|_| !surveyed.interrupted) {
        surveyed.draw(file)?;
    }
    out.notes(&surveyed.notes)?;
    if surveyed.interrupted {
        return Err(Failure::Interrupted);
    }
    Ok(u8::from(surveyed.tally.refused() > 0))
}

fn go_through<'a>(sweep: &'a Sweep, csv: bool, common: &Common, out: &mut Output) -> Result<Surveyed<'a>> {
    let source = &sweep.source;
    let first = sweep.range.start;
    let mut all = Surveyed {
        source,
        first,
        tally: Tally::default(),
        outcomes: Vec::with_capacity((sweep.range.end - first) as usize),
        notes: Vec::new(),
        interrupted: false,
    };
    let progress = Progress::new(sweep.range.end - first, common.quiet);
    let swept = sweep.run(
        Batch::Counts,
        |pages| {
            let readings = pages.read(source, sweep.options);
            progress.read(&readings);
            Ok(part(&readings, csv))
        },
        |part| {
            all.tally.merge(part.tally);
            all.outcomes.extend(part.outcomes);
            out.bytes(&part.csv)
        },
    );
    match swept {
        Err(Failure::Interrupted) => all.interrupted = true,
        other => other?,
    }
    all.notes = notes(source, &all.tally, common)?;
    Ok(all)
}

fn part(readings: &[PageReading], csv: bool) -> Part {
    Part {
        tally: Tally::of(readings),
        outcomes: readings.iter().map(|page| page.outcome).collect(),
        csv: if csv { csv_lines(readings) } else { Vec::new() },
    }
}

fn csv_lines(readings: &[PageReading]) -> Vec<u8> {
    let mut lines = csv::WriterBuilder::new().from_writer(Vec::new());
    for page in readings {
        lines.write_record(record(page)).expect("memory takes every record");
    }
    lines.into_inner().expect("memory takes every record")
}

/// In the order of COLUMNS; empty where there is nothing to say.
fn record(page: &PageReading) -> [String; COLUMNS.len()] {
    let text = |number: Option<usize>| number.map_or(String::new(), |number| number.to_string());
    let mut record = std::array::from_fn(|_| String::new());
    record[0] = page.number.to_string();
    record[1] = page.outcome.to_string();
    record[2] = text(page.answer.number());
    if let Some(trailer) = &page.trailer {
        record[6] = type_name(trailer);
        record[7] = trailer.row_count.to_string();
    }
    match &page.answer {
        Answer::Accepted(accepted) => {
            let decoding = &accepted.decoding;
            record[3] = decoding.source.to_string();
            record[4] = decoding.confidence.to_string();
            record[5] = decoding.bv.map_or(String::new(), |bv| format!("{bv:02x}"));
            record[8] = text(accepted.row_count.as_ref().ok().copied());
            record[9] = text(accepted.row_count.as_ref().err().map(Refusal::number));
            record[10] = decoding.warnings.len().to_string();
        }
        Answer::Unallocated => {
            record[3] = Outcome::Unallocated.to_string();
            record[4] = Outcome::Unallocated.to_string();
            record[8] = "0".into();
            record[10] = "0".into();
        }
        _ => {}
    }
    record[11] = sectors(page.unread);
    record
}

impl Surveyed<'_> {
    fn json(&self) -> String {
        let mut object = serde_json::Map::new();
        object.insert("file".into(), self.source.path().to_string_lossy().into());
        object.insert("size".into(), self.source.size().into());
        object.insert("start".into(), self.source.start().into());
        let map = self.source.map().map(|map| json!({ "read_bytes": map.read_bytes(), "unread_bytes": map.unread_bytes() }));
        object.insert("map".into(), map.into());
        object.insert("first_page".into(), self.first.into());
        object.insert("pages".into(), self.tally.pages().into());
        object.extend(self.tally.json());
        object.insert("interrupted".into(), self.interrupted.into());
        object.insert("notes".into(), json!(self.notes));
        serde_json::Value::Object(object).to_string()
    }

    fn text(&self, out: &Output) -> String {
        let tally = &self.tally;
        let width = out.columns.unwrap_or(usize::MAX);
        let mut lines = vec![self.heading(), String::new()];
        for outcome in Outcome::ALL.into_iter().rev().filter(|outcome| tally.count(*outcome) > 0) {
            let name = paint(outcome, &format!("{outcome:12}"), out.colour);
            let meaning = if width < WIDE { "" } else { outcome.meaning() };
            lines.push(format!("{:>11}  {name}  {meaning}", grouped(tally.count(outcome))).trim_end().into());
        }
        lines.push(String::new());
        let mut say = |name: &str, words: String| lines.push(hanging(name, &words, width));
        say("answers", listed(tally.answers().iter().map(|(number, n)| (answer_words(*number), *n))));
        say("sources", listed(tally.sources()));
        say("confidence", listed(tally.confidences()));
        say("page types", listed(tally.types.clone()));
        say("rows", self.rows());
        if tally.warnings > 0 {
            say("warnings", format!("{} read with warnings, which `page` and --csv show", counted(tally.warnings, "page")));
        }
        if let Some(map) = self.source.map() {
            let sectors = counted(tally.unread_sectors, "sector");
            say("map", format!("{} bytes read; {sectors} of these pages unread", grouped(map.read_bytes())));
        }
        if let Some(columns) = out.columns {
            lines.push(String::new());
            lines.push(sketch(&self.outcomes, self.first, columns, out.colour).trim_end().into());
        }
        lines.join("\n") + "\n"
    }

    fn heading(&self) -> String {
        let interrupted = if self.interrupted { ", interrupted: what was counted so far" } else { "" };
        format!("{}: {}{interrupted}", self.source.name(), self.extent())
    }

    fn extent(&self) -> String {
        let range = if self.first > 0 { format!(" from page {} on", grouped(self.first)) } else { String::new() };
        format!("{}{range} of a page file of {} bytes", counted(self.tally.pages(), "page"), grouped(self.source.size()))
    }

    fn rows(&self) -> String {
        let tally = &self.tally;
        let refused: u64 = tally.row_answers.values().sum();
        let rows = format!("{} in {}", counted(tally.rows, "row"), counted(tally.pages_with_rows, "page"));
        if refused == 0 {
            return rows;
        }
        let why = listed(tally.row_answers.iter().map(|(number, n)| (answer_words(*number), *n)));
        format!("{rows}; not listed of {}: {why}", counted(refused, "page"))
    }

    fn draw(&self, mut file: NewFile) -> Result<()> {
        let name = self.source.path().file_name().unwrap_or_default().to_string_lossy();
        let subtitle = format!("{}, {} not read", self.extent(), grouped(self.tally.refused()));
        let picture = Picture { name: &name, first: self.first, outcomes: &self.outcomes, subtitle: &subtitle };
        picture::write(file.file(), &picture).map_err(|e| Failure::of_writing(file.part(), &e))?;
        file.keep()
    }
}

fn listed(counts: impl IntoIterator<Item = (String, u64)>) -> String {
    let items: Vec<String> = counts.into_iter().map(|(name, n)| format!("{name} {}", grouped(n)).replace(' ', &FIRM.to_string())).collect();
    if items.is_empty() { "none".into() } else { items.join(", ") }
}

/// An answer's number with a word or two.
fn answer_words(number: usize) -> String {
    let words = match number {
        header::ACCEPTED => "accepted",
        header::WRONG_PAGE_LENGTH => "cut short",
        header::BAD_CRC => "bad CRC",
        header::BAD_TRAILER => "bad trailer",
        header::AMBIGUOUS_CALIBRATION => "ambiguous bv",
        header::KEYSTREAM_UNVERIFIED => "unconfirmed bv",
        header::LOW_CONFIDENCE_KEYSTREAM => "sector in doubt",
        header::NO_SLOT_DIRECTORY => "unconfirmed directory",
        header::UNKNOWN_PRELUDE => "unknown prelude",
        header::SLOT_DIRECTORY_TRUNCATED => "truncated directory",
        header::AMBIGUOUS_SLOT_DIRECTORY => "ambiguous directory",
        header::SLOT_OFFSET_IN_DIRECTORY => "offset inside the directory",
        _ => "see README",
    };
    format!("{number} ({words})")
}
