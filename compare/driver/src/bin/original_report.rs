//! original_report: what `report` does, by the original, but for the number of steps that tied: a fit has 6 bytes. `bench` times the one beside
//! the other. It takes no search limit but the original's own, and ends at a frame that has another.
use std::io::{self, BufRead, BufReader, BufWriter, Write};
use std::process::ExitCode;

use oracle::SEARCH_LIMIT;

/// Characters in a block, as in `report`.
const BLOCK: usize = 65_536;

fn main() -> ExitCode {
    match answers() {
        Ok(()) => ExitCode::SUCCESS,
        Err(e) => {
            eprintln!("original_report: {e}");
            ExitCode::FAILURE
        }
    }
}

/// The answers to all lines.
fn answers() -> io::Result<()> {
    let mut input = BufReader::with_capacity(BLOCK, io::stdin());
    let mut output = BufWriter::with_capacity(BLOCK, io::stdout());
    let mut line = Vec::new();
    while input.read_until(b'\n', &mut line)? > 0 {
        let bytes = bytes(line.strip_suffix(b"\n").unwrap_or(&line));
        let frame = bytes.as_deref().and_then(frame);
        let answer = frame.map_or(Ok(vec![0x11]), |f| answer(&f))?;
        output.write_all(&digits(&answer))?;
        line.clear();
    }
    output.flush()
}

struct Frame<'a> {
    number: u64,
    bits: u8,
    limit: u16,
    anchors: &'a [u8],
    page: &'a [u8],
}

/// None if it is no frame. The original has the row-count test from 4 on, whatever T the frame has.
fn frame(bytes: &[u8]) -> Option<Frame<'_>> {
    let (&number, rest) = bytes.split_first_chunk()?;
    let (&[bits, _, high, low, n], rest) = rest.split_first_chunk()?;
    let (anchors, page) = rest.split_at_checked(n as usize)?;
    let (number, limit) = (u64::from_be_bytes(number), u16::from_be_bytes([high, low]));
    (page.len() == 4096).then_some(Frame { number, bits, limit, anchors, page })
}

fn answer(f: &Frame<'_>) -> io::Result<Vec<u8>> {
    if f.limit as usize != SEARCH_LIMIT {
        let Frame { number, limit, .. } = f;
        return Err(io::Error::other(format!(
            "page {number} asks for the search limit {limit}: the original has {SEARCH_LIMIT} and no other"
        )));
    }
    Ok(oracle::timed::report(f.number, f.page, f.anchors, f.bits))
}

/// None if there is an odd number, or something else than digits.
fn bytes(digits: &[u8]) -> Option<Vec<u8>> {
    let (pairs, []) = digits.as_chunks() else { return None };
    let mut all = 0;
    let value = |&[a, b]: &[u8; 2]| {
        let (high, low) = (VALUES[a as usize], VALUES[b as usize]);
        all |= high | low;
        high << 4 | low
    };
    let out = pairs.iter().map(value).collect();
    (all < 16).then_some(out)
}

/// The value of each digit, of either case; 16 of what is none.
const VALUES: [u8; 256] = {
    let mut values = [16; 256];
    let mut d = 0;
    while d < 16 {
        values[DIGITS[d] as usize] = d as u8;
        values[DIGITS[d].to_ascii_uppercase() as usize] = d as u8;
        d += 1;
    }
    values
};

const DIGITS: &[u8; 16] = b"0123456789abcdef";

fn digits(bytes: &[u8]) -> Vec<u8> {
    let mut out: Vec<u8> = bytes.iter().flat_map(|&b| [b / 16, b % 16]).map(|d| DIGITS[d as usize]).collect();
    out.push(b'\n');
    out
}
