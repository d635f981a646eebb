//! Lists the rows of every page of a page file, in the memory of one block: `cargo run --example list_rows FILE [LENIENCY [LIMIT]]`,
//! LENIENCY a sum of 1 (keystream), 2 (directory) and 4 (integrity), LIMIT how many first bytes are searched for a slot directory. Pages
//! are read without anchors.
use std::ffi::OsString;
use std::fs::File;
use std::io::{self, BufWriter, ErrorKind, Write};
use std::process::ExitCode;

use lumeviqo::{Leniency, Options, PAGE, Pages, Refusal, Row};

const USAGE: &str = "usage: list_rows FILE [LENIENCY [LIMIT]]";
const LENIENCY: &str = "LENIENCY is 0, or a sum of 1 (keystream), 2 (directory) and 4 (integrity)";
const LIMIT: &str = "LIMIT is a number from 8 to 2048, usually 768";

fn main() -> ExitCode {
    let words: Vec<OsString> = std::env::args_os().skip(1).collect();
    match run(&words) {
        Ok(()) => ExitCode::SUCCESS,
        Err(message) => {
            eprintln!("{message}");
            ExitCode::FAILURE
        }
    }
}

fn run(words: &[OsString]) -> Result<(), String> {
    let (path, options) = match words {
        [path] => (path, Options::default()),
        [path, leniency] => (path, options(leniency, None)?),
        [path, leniency, limit] => (path, options(leniency, Some(limit))?),
        _ => return Err(USAGE.into()),
    };
    let failed = |e: io::Error| format!("{}: {e}", path.display());
    let mut blocks = Pages::new(File::open(path).map_err(failed)?).peekable();
    if blocks.peek().is_none() {
        return Err(format!("{}: the file is empty", path.display()));
    }
    let mut out = BufWriter::new(io::stdout());
    for block in blocks {
        for (number, page) in block.map_err(failed)?.pages() {
            if let Err(e) = write_page(number, page, options, &mut out) {
                return unwritten(e);
            }
        }
    }
    out.flush().or_else(unwritten)
}

/// A limit that is out of range is left to the library, which refuses it.
fn options(leniency: &OsString, limit: Option<&OsString>) -> Result<Options, &'static str> {
    let number = |word: &OsString| word.to_str()?.parse::<usize>().ok();
    let bits = number(leniency).filter(|&bits| bits < 8).ok_or(LENIENCY)?;
    let search_limit = limit.map_or(Some(Options::default().search_limit), number).ok_or(LIMIT)?;
    Ok(Options { leniency: Leniency(bits as u8), search_limit, ..Options::default() })
}

fn write_page(number: u64, page: &[u8], options: Options, out: &mut impl Write) -> io::Result<()> {
    match read(number, page, options, &mut [0; PAGE]) {
        Err(refusal) => writeln!(out, "{number}: refused, {refusal}"),
        Ok((head, rows)) => {
            writeln!(out, "{number}: {head}")?;
            rows.iter().try_for_each(|row| writeln!(out, "  {:04x} {:4} {}", row.offset, row.bytes.len(), row.bytes.escape_ascii()))
        }
    }
}

fn read<'a>(number: u64, page: &[u8], options: Options, plain: &'a mut [u8]) -> Result<(String, Vec<Row<'a>>), Refusal> {
    let decoding = lumeviqo::decode(number, page, &[], options, plain)?;
    let rows = lumeviqo::rows(number, plain, options)?;
    Ok((format!("{}, {} rows, {} warnings", decoding.confidence, rows.len(), decoding.warnings.len()), rows))
}

/// Whoever closed the pipe has read enough.
fn unwritten(e: io::Error) -> Result<(), String> {
    if e.kind() == ErrorKind::BrokenPipe { Ok(()) } else { Err(format!("standard output: {e}")) }
}
