//! `lumeviqo rows`: the rows of every page that can be read.
use std::io::Write;
use std::path::Path;

use lumeviqo::{Options, Row, SECTOR};
use serde_json::json;

use crate::args::{Allowed, Common, PageRange, Rows};
use crate::failure::Result;
use crate::notes::notes;
use crate::output::Output;
use crate::progress::Progress;
use crate::reading::{Accepted, Answer, PageReading};
use crate::sweep::{Batch, Sweep};
use crate::tally::Tally;
use crate::words::counted;

#[derive(Clone, Copy)]
enum Form {
    Text,
    Csv,
    Json,
}

pub fn run(asked: &Rows, common: &Common) -> Result<u8> {
    let form = match (asked.form.csv, asked.form.json) {
        (true, _) => Form::Csv,
        (_, true) => Form::Json,
        _ => Form::Text,
    };
    let sweep = match asked.page {
        Some(page) => Sweep::of_pages(&asked.file, PageRange::one(page), common)?,
        None => Sweep::asked(&asked.file, common)?,
    };
    let mut out = Output::new(common);
    match form {
        Form::Text => out
            .line(format_args!("{:>8} {:>4} {:>6} {:>6}  {:<12} {:<6} bytes", "page", "row", "offset", "length", "confidence", "unread"))?,
        Form::Csv => out.line("page,row,offset,length,confidence,unread,bytes")?,
        Form::Json => {}
    }
    let progress = Progress::new(sweep.range.end - sweep.range.start, common.quiet);
    let mut tally = Tally::default();
    sweep.run(
        Batch::Contents,
        |pages| {
            let readings = pages.read(&sweep.source, sweep.options);
            progress.read(&readings);
            Ok((Tally::of(&readings), lines(&readings, sweep.options, form)))
        },
        |(part, lines)| {
            tally.merge(part);
            out.bytes(&lines)
        },
    )?;
    drop(progress);
    let mut all = notes(&sweep.source, &tally, common)?;
    all.extend(own_notes(&tally, &asked.file, common));
    out.notes(&all)?;
    Ok(u8::from(tally.refused() > 0))
}

fn own_notes(tally: &Tally, file: &Path, common: &Common) -> Vec<String> {
    let mut notes = Vec::new();
    if tally.refused() > 0 {
        let (pages, command) = (counted(tally.refused(), "page"), common.command("survey", file, None));
        notes.push(format!("{pages} not read, so rows may be missing: `{command}` says why"));
    }
    if tally.unconfirmed_directories > 0 && !common.allows(Allowed::Integrity) {
        let pages = counted(tally.unconfirmed_directories, "page");
        notes.push(format!(
            "the slot directory of {pages} is not confirmed, so none of their rows are listed: `--allow directory` takes it"
        ));
    }
    notes
}

fn lines(readings: &[PageReading], options: Options, form: Form) -> Vec<u8> {
    let mut lines = Vec::new();
    for page in readings {
        if let Answer::Accepted(accepted) = &page.answer {
            put_rows(&mut lines, page, accepted, options, form);
        }
    }
    lines
}

fn put_rows(lines: &mut Vec<u8>, page: &PageReading, accepted: &Accepted, options: Options, form: Form) {
    let Ok(rows) = lumeviqo::rows(page.number, accepted.plain.as_slice(), options) else { return };
    for (number, row) in rows.iter().enumerate() {
        let put = match form {
            Form::Text => put_text(lines, page, accepted, number, row),
            Form::Csv => put_csv(lines, page, accepted, number, row),
            Form::Json => put_json(lines, page, accepted, number, row),
        };
        put.expect("memory takes every line");
    }
}

fn put_text(lines: &mut Vec<u8>, page: &PageReading, accepted: &Accepted, number: usize, row: &Row) -> std::io::Result<()> {
    let confidence = accepted.decoding.confidence.to_string();
    let unread = if touches(row, page.unread) { "yes" } else { "no" };
    let (at, length) = (row.offset, row.bytes.len());
    write!(lines, "{:>8} {number:>4} {at:>6} {length:>6}  {confidence:<12} {unread:<6} ", page.number)?;
    writeln!(lines, "{}", row.bytes.escape_ascii())
}

fn put_csv(lines: &mut Vec<u8>, page: &PageReading, accepted: &Accepted, number: usize, row: &Row) -> std::io::Result<()> {
    let unread = touches(row, page.unread);
    let (at, length, confidence) = (row.offset, row.bytes.len(), accepted.decoding.confidence);
    write!(lines, "{},{number},{at},{length},{confidence},{unread},", page.number)?;
    put_hexadecimal(lines, row.bytes);
    writeln!(lines)
}

fn put_json(lines: &mut Vec<u8>, page: &PageReading, accepted: &Accepted, number: usize, row: &Row) -> std::io::Result<()> {
    let mut bytes = Vec::with_capacity(2 * row.bytes.len());
    put_hexadecimal(&mut bytes, row.bytes);
    let object = json!({
        "page": page.number,
        "row": number,
        "offset": row.offset,
        "length": row.bytes.len(),
        "confidence": accepted.decoding.confidence.to_string(),
        "unread": touches(row, page.unread),
        "bytes": String::from_utf8_lossy(&bytes),
    });
    writeln!(lines, "{object}")
}

fn put_hexadecimal(lines: &mut Vec<u8>, bytes: &[u8]) {
    const DIGITS: &[u8; 16] = b"0123456789abcdef";
    lines.extend(bytes.iter().flat_map(|byte| [DIGITS[usize::from(byte >> 4)], DIGITS[usize::from(byte & 15)]]));
}

/// Whether a byte of the row lies in an unread sector.
fn touches(row: &Row, unread: u8) -> bool {
    let first = usize::from(row.offset);
    let last = first + row.bytes.len().max(1) - 1;
    (first / SECTOR..=last / SECTOR).any(|sector| unread >> sector & 1 != 0)
}

#[cfg(test)]
mod tests {
    use super::*;

    #[test]
    fn a_row_touches_the_sectors_that_it_lies_in() {
        let bytes = [0; 600];
        let row = Row { offset: 500, bytes: &bytes[..12] };
        assert!(touches(&row, 0b001) && !touches(&row, 0b110));
        let row = Row { offset: 500, bytes: &bytes[..13] };
        assert!(touches(&row, 0b010) && touches(&row, 0b001) && !touches(&row, 0b100));
        let row = Row { offset: 1024, bytes: &bytes };
        assert!(touches(&row, 0b1000) && touches(&row, 0b0100) && !touches(&row, 0b0010));
    }
}
