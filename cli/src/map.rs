//! GNU ddrescue's map of a rescue: which bytes of an image were read from the disc. The others are zeros there, as unallocated pages are.
use std::collections::BTreeMap;
use std::fmt;
use std::io::{self, Write};
use std::ops::Range;

const SECTOR: u64 = lumeviqo::SECTOR as u64;
const PAGE: u64 = lumeviqo::PAGE as u64;

const READ: u8 = b'+';
const UNTRIED: u8 = b'?';
const BLOCK_STATUSES: &[u8] = b"?*/-+";
const RESCUE_STATUSES: &[u8] = b"?*/-FG+";

/// ddrescue counts bytes in signed numbers of 64 bits.
const GREATEST: u64 = i64::MAX as u64;

/// A map, with its neighbouring blocks of one status joined to runs.
#[derive(Debug, Clone, PartialEq, Eq)]
pub struct Map {
    position: u64,
    status: u8,
    pass: u64,
    first: u64,
    /// The status of each run, under the byte after its last: the run of a byte is the first with a greater key. A tree, since a mend of
    /// many sectors splits and joins as many runs.
    runs: BTreeMap<u64, u8>,
}

impl Map {
    pub fn parse(text: &[u8]) -> Result<Map, BadLine> {
        let mut lines = numbered(text).filter(|(_, line)| words(line).next().is_some());
        let (number, line) = lines.next().ok_or_else(|| BadLine::end(text, STATUS_LINE))?;
        let mut map = Map::of_status_line(line).map_err(|expected| BadLine::new(number, line, expected))?;
        for (number, line) in lines {
            map.append(line).map_err(|expected| BadLine::new(number, line, expected))?;
        }
        if map.runs.is_empty() {
            return Err(BadLine::end(text, BLOCK));
        }
        map.settle();
        Ok(map)
    }

    /// The byte after the last that the map speaks of.
    pub fn end(&self) -> u64 {
        self.runs.last_key_value().map_or(self.first, |(&end, _)| end)
    }

    pub fn read_bytes(&self) -> u64 {
        self.lengths().filter(|&(_, status)| status == READ).map(|(length, _)| length).sum()
    }

    /// How many bytes from first to end were not read.
    pub fn unread_bytes(&self) -> u64 {
        self.end() - self.first - self.read_bytes()
    }

    /// Whether all of these bytes were read. Bytes outside the map were never asked for.
    pub fn is_read(&self, bytes: Range<u64>) -> bool {
        self.run_of(bytes.start).is_some_and(|(end, status)| status == READ && bytes.end <= end)
    }

    /// Whether any of these bytes was read.
    pub fn has_read(&self, bytes: Range<u64>) -> bool {
        let mut from = self.first;
        self.runs.iter().any(|(&end, &status)| {
            let run = std::mem::replace(&mut from, end)..end;
            status == READ && run.start < bytes.end && bytes.start < run.end
        })
    }

    /// The sectors of the page at this byte that were not wholly read: bit s is sector s.
    pub fn unread_sectors(&self, page_at: u64) -> u8 {
        if self.is_read(page_at..page_at.saturating_add(PAGE)) {
            return 0;
        }
        let starts = (0..PAGE / SECTOR).map(|sector| page_at.saturating_add(SECTOR * sector));
        starts.enumerate().fold(0, |bits, (sector, at)| bits | u8::from(!self.is_read(at..at.saturating_add(SECTOR))) << sector)
    }

    /// From now on these bytes are read. What lies between them and the map's ends becomes part of the map, as never tried.
    pub fn mark_read(&mut self, bytes: Range<u64>) {
        if bytes.is_empty() {
            return;
        }
        self.cover(&bytes);
        self.split_at(bytes.start);
        self.split_at(bytes.end);
        let inside: Vec<u64> = self.runs.range(bytes.start + 1..bytes.end).map(|(&end, _)| end).collect();
        for end in inside {
            self.runs.remove(&end);
        }
        self.runs.insert(bytes.end, READ);
        self.join_at(bytes.start);
        self.join_at(bytes.end);
        self.settle();
    }

    /// Writes the map as ddrescue does, which can go on from it. The program is named with its version.
    pub fn write(&self, out: &mut impl Write, program: &str) -> io::Result<()> {
        writeln!(out, "# Mapfile. Created by {program}")?;
        writeln!(out, "# current_pos  current_status  current_pass")?;
        writeln!(out, "{:#010X}     {}               {}", self.position, char::from(self.status), self.pass)?;
        writeln!(out, "#      pos        size  status")?;
        let mut at = self.first;
        for (length, status) in self.lengths() {
            writeln!(out, "{at:#010X}  {length:#010X}  {}", char::from(status))?;
            at += length;
        }
        Ok(())
    }

    fn of_status_line(line: &[u8]) -> Result<Map, Expected> {
        let mut words = words(line);
        let position = number(words.next().ok_or(STATUS_LINE)?, STATUS_LINE)?;
        let status = one_of(RESCUE_STATUSES, words.next(), STATUS_LINE, RESCUE_STATUS)?;
        let pass = words.next().map_or(Ok(1), pass)?;
        if words.next().is_some() {
            return Err(STATUS_LINE);
        }
        Ok(Map { position, status, pass, first: 0, runs: BTreeMap::new() })
    }

    fn append(&mut self, line: &[u8]) -> Result<(), Expected> {
        let mut words = words(line);
        let at = number(words.next().ok_or(BLOCK)?, BLOCK)?;
        let size = number(words.next().ok_or(BLOCK)?, BLOCK)?;
        let status = one_of(BLOCK_STATUSES, words.next(), BLOCK, BLOCK_STATUS)?;
        if words.next().is_some() {
            return Err(BLOCK);
        }
        if self.runs.is_empty() {
            self.first = at;
        }
        if at != self.end() {
            return Err(CONTIGUOUS);
        }
        if size == 0 {
            return Err(NOT_EMPTY);
        }
        let end = at.checked_add(size).filter(|&end| end <= GREATEST).ok_or(NOT_TOO_LARGE)?;
        self.runs.insert(end, status);
        self.join_at(at);
        Ok(())
    }

    /// Length and status of each run, in order.
    fn lengths(&self) -> impl Iterator<Item = (u64, u8)> {
        self.runs.iter().scan(self.first, |at, (&end, &status)| Some((end - std::mem::replace(at, end), status)))
    }

    /// End and status of the run that the byte lies in.
    fn run_of(&self, byte: u64) -> Option<(u64, u8)> {
        let mut after = self.runs.range(byte.checked_add(1)?..);
        after.next().filter(|_| self.first <= byte).map(|(&end, &status)| (end, status))
    }

    fn cover(&mut self, bytes: &Range<u64>) {
        let (first, end) = (self.first, self.end());
        if bytes.start < first {
            self.first = bytes.start;
            self.runs.insert(first, UNTRIED);
            self.join_at(first);
        }
        if end < bytes.end {
            self.runs.insert(bytes.end, UNTRIED);
            self.join_at(end);
        }
    }

    fn split_at(&mut self, byte: u64) {
        if let Some((_, status)) = self.run_of(byte).filter(|_| self.first < byte) {
            self.runs.entry(byte).or_insert(status);
        }
    }

    /// The runs that meet at this byte become one if they have one status.
    fn join_at(&mut self, byte: u64) {
        if self.runs.get(&byte).is_some_and(|&before| self.run_of(byte).is_some_and(|(_, after)| after == before)) {
            self.runs.remove(&byte);
        }
    }

    /// A rescue that has nothing left to read is finished.
    fn settle(&mut self) {
        if self.runs.values().all(|&status| status == READ) {
            self.status = READ;
        }
    }
}

/// What a line of a map should have been.
type Expected = &'static str;

const STATUS_LINE: Expected = "the status line: position, status and pass, as `0x00000000 ? 1`";
const RESCUE_STATUS: Expected = "a status that is one of `?`, `*`, `/`, `-`, `F`, `G` and `+`";
const PASS: Expected = "a pass that is a decimal number from 1";
const BLOCK: Expected = "position, size and status, as `0x00000000 0x00001000 +`";
const BLOCK_STATUS: Expected = "a status that is one of `?`, `*`, `/`, `-` and `+`";
const CONTIGUOUS: Expected = "a block that begins where the one before it ended";
const NOT_EMPTY: Expected = "a block of at least one byte";
const NOT_TOO_LARGE: Expected = "numbers, and a block's end, below 0x8000000000000000";

/// The first line of a map that does not say what it should.
#[derive(Debug, Clone, PartialEq, Eq)]
pub struct BadLine {
    /// Counted from 1.
    pub line: usize,
    /// The line's beginning; empty at the map's end.
    pub found: String,
    pub expected: &'static str,
}

impl BadLine {
    fn new(line: usize, found: &[u8], expected: Expected) -> BadLine {
        BadLine { line, found: shown(found.trim_ascii()), expected }
    }

    fn end(text: &[u8], expected: Expected) -> BadLine {
        BadLine { line: numbered(text).count(), found: String::new(), expected }
    }
}

impl fmt::Display for BadLine {
    fn fmt(&self, f: &mut fmt::Formatter<'_>) -> fmt::Result {
        match self.found.as_str() {
            "" => write!(f, "line {}: found the end of the map, expected {}", self.line, self.expected),
            found => write!(f, "line {}: found `{found}`, expected {}", self.line, self.expected),
        }
    }
}

impl std::error::Error for BadLine {}

fn numbered(text: &[u8]) -> impl Iterator<Item = (usize, &[u8])> {
    (1..).zip(text.split(|&byte| byte == b'\n'))
}

/// The words of a line before its comment.
fn words(line: &[u8]) -> impl Iterator<Item = &[u8]> {
    line.split(u8::is_ascii_whitespace).filter(|word| !word.is_empty()).take_while(|word| word[0] != b'#')
}

/// A number as C has it: hexadecimal after 0x, octal after 0, otherwise decimal.
fn number(word: &[u8], line: Expected) -> Result<u64, Expected> {
    let (digits, radix) = match word {
        [b'0', b'x' | b'X', digits @ ..] => (digits, 16),
        [b'0', digits @ ..] if !digits.is_empty() => (digits, 8),
        digits => (digits, 10),
    };
    if digits.is_empty() {
        return Err(line);
    }
    let mut value: u64 = 0;
    for &digit in digits {
        let digit = char::from(digit).to_digit(radix).ok_or(line)?;
        value = value.saturating_mul(radix.into()).saturating_add(digit.into());
    }
    if value <= GREATEST { Ok(value) } else { Err(NOT_TOO_LARGE) }
}

fn pass(word: &[u8]) -> Result<u64, Expected> {
    let digits = std::str::from_utf8(word).ok().filter(|word| !word.starts_with('+'));
    digits.and_then(|digits| digits.parse().ok()).filter(|&pass| pass > 0).ok_or(PASS)
}

/// A status. A word of several letters is none: then the line is of another kind.
fn one_of(statuses: &[u8], word: Option<&[u8]>, line: Expected, status: Expected) -> Result<u8, Expected> {
    match word {
        Some(&[letter]) if statuses.contains(&letter) => Ok(letter),
        Some(&[letter]) if !letter.is_ascii_digit() => Err(status),
        _ => Err(line),
    }
}

/// How much of a bad line is shown, in characters.
const SHOWN: usize = 40;

/// A line's beginning as a terminal can show it, whatever its bytes are.
fn shown(line: &[u8]) -> String {
    let characters = line.utf8_chunks().flat_map(|chunk| {
        let invalid = chunk.invalid().iter().map(|byte| format!("\\x{byte:02x}"));
        chunk.valid().chars().map(printable).chain(invalid)
    });
    let mut cut: Vec<String> = characters.take(SHOWN + 1).collect();
    if cut.len() > SHOWN {
        cut[SHOWN] = "...".to_string();
    }
    cut.concat()
}

fn printable(character: char) -> String {
    if matches!(character, '\'' | '"') { character.to_string() } else { character.escape_debug().to_string() }
}

#[cfg(test)]
mod tests {
    use super::*;

    /// Made by GNU ddrescue 1.27 as `ddrescue -n -s 0xF0000 -i 0x1000 -H H image out map`, where H lacks 0x12000 to 0x12A00.
    const REAL: &str = "\
# Mapfile. Created by GNU ddrescue version 1.27
# Command line: ddrescue -n -s 0xF0000 -i 0x1000 -H H image out map
# Start time:   2026-11-16 16:42:44
# Current time: 2026-11-16 16:42:44
# Finished
# current_pos  current_status  current_pass
0x00012A00     +               1
#      pos        size  status
0x00000000  0x00001000  ?
0x00001000  0x00011000  +
0x00012000  0x00000200  -
0x00012200  0x00000600  /
0x00012800  0x00000200  -
0x00012A00  0x000DE600  +
0x000F1000  0x0000F000  ?
";

    fn map(text: &str) -> Map {
        Map::parse(text.as_bytes()).unwrap()
    }

    fn complaint(text: &[u8]) -> String {
        Map::parse(text).unwrap_err().to_string()
    }

    fn written(map: &Map) -> String {
        let mut out = Vec::new();
        map.write(&mut out, "lumeviqo 0.1.0").unwrap();
        String::from_utf8(out).unwrap()
    }

    #[test]
    fn only_plus_is_read() {
        for status in "?*/-".chars() {
            assert!(!map(&format!("0 + 1\n0 8 {status}\n")).is_read(0..8), "{status}");
        }
        assert!(map("0 + 1\n0 8 +\n").is_read(0..8));
    }

    #[test]
    fn a_real_map() {
        let map = map(REAL);
        assert_eq!((map.first, map.end()), (0, 0x100000));
        assert_eq!((map.read_bytes(), map.unread_bytes()), (0xEF600, 0x10A00));
        assert_eq!(map.unread_sectors(0x0000), 0xFF);
        assert_eq!(map.unread_sectors(0x1000), 0);
        assert_eq!(map.unread_sectors(0x11000), 0);
        assert_eq!(map.unread_sectors(0x12000), 0b00011111);
        assert!(map.is_read(0x12A00..0xF1000) && !map.is_read(0x12A00..0xF1001) && !map.is_read(0x129FF..0x12A01));
        let (head, blocks) = (REAL.find("# current_pos").unwrap(), written(&map));
        assert_eq!(blocks, format!("# Mapfile. Created by lumeviqo 0.1.0\n{}", &REAL[head..]));
    }

    #[test]
    fn numbers_are_decimal_hexadecimal_or_octal() {
        let expected = map("8 ? 2\n16 16 +\n32 8 -\n");
        assert_eq!(map("0x8 ? 2\n0x10 0X10 +\n0x20 0x8 -\n"), expected);
        assert_eq!(map("010 ? 2\n020 020 +\n040 00010 -\n"), expected);
        assert_eq!(map("0 ?\n0 0xAbCdEf +\n0xabcdef 1 -").read_bytes(), 0xABCDEF);
    }

    #[test]
    fn blanks_comments_and_line_ends() {
        let expected = map("0 ? 1\n0 8 +\n8 8 -\n");
        assert_eq!(map("0 ?\n0 8 +\n8 8 -"), expected, "an older map has no pass, and the last line no end");
        assert_eq!(map("# made by hand\r\n\r\n0 ? 1\r\n0 8 +\r\n8 8 -\r\n"), expected);
        assert_eq!(map(" # hand\n\t0\t?\t1 # copying\n \n0   8 +\t# good\n8 8 -\n\n#"), expected);
        assert_eq!(map("0 ? 1\n0 4 +\n4 4 +\n8 8 -\n"), expected, "neighbours of one status are joined");
        assert!(Map::parse(b"# caf\xE9\n0 ? 1\n0 8 +\n").is_ok());
    }

    #[test]
    fn every_status_of_a_rescue_is_kept() {
        for status in "?*/-FG+".chars() {
            let map = map(&format!("0 {status} 3\n0 8 +\n8 8 -\n"));
            assert!(written(&map).contains(&format!("0x00000000     {status}               3\n")), "{status}");
        }
    }

    #[test]
    fn a_bad_line_is_named_with_what_was_expected() {
        let good = "# made by hand\n\n0 ? 1\n0 0x10 +\n";
        for (line, expected) in [
            ("0x20 +", BLOCK),
            ("0x10", BLOCK),
            ("0x10 0x10", BLOCK),
            ("0x10 0x10 + +", BLOCK),
            ("0x10 0x10 ++", BLOCK),
            ("0x10 0x10 1", BLOCK),
            ("0x10 0x1G +", BLOCK),
            ("0x10 0x +", BLOCK),
            ("0x10 08 +", BLOCK),
            ("0x10 -1 +", BLOCK),
            ("0x10 +1 +", BLOCK),
            ("0x10 1k +", BLOCK),
            ("0x10 0x10+", BLOCK),
            ("0x10 0x10 F", BLOCK_STATUS),
            ("0x10 0x10 !", BLOCK_STATUS),
            ("0x11 0x10 +", CONTIGUOUS),
            ("0x0F 0x10 +", CONTIGUOUS),
            ("0x10 0 +", NOT_EMPTY),
            ("0x10 0x7FFFFFFFFFFFFFF0 +", NOT_TOO_LARGE),
            ("0x10 0x8000000000000000 +", NOT_TOO_LARGE),
            ("0x10 99999999999999999999999999 +", NOT_TOO_LARGE),
        ] {
            assert_eq!(complaint(format!("{good}{line}\n0x20 1 +\n").as_bytes()), format!("line 5: found `{line}`, expected {expected}"));
        }
        assert!(Map::parse(format!("{good}0x10 0x7FFFFFFFFFFFFFEF +\n").as_bytes()).is_ok());
    }

    #[test]
    fn a_bad_status_line_is_named_with_what_was_expected() {
        for (line, expected) in [
            ("0", STATUS_LINE),
            ("? 1", STATUS_LINE),
            ("0 0x1000 +", STATUS_LINE),
            ("0 1 +", STATUS_LINE),
            ("-1 ? 1", STATUS_LINE),
            ("0 ? 1 1", STATUS_LINE),
            ("0 !", RESCUE_STATUS),
            ("0 ? 0", PASS),
            ("0 ? 0x1", PASS),
            ("0 ? +1", PASS),
            ("0x8000000000000000 ? 1", NOT_TOO_LARGE),
        ] {
            assert_eq!(complaint(format!("# hand\n{line}\n0 8 +\n").as_bytes()), format!("line 2: found `{line}`, expected {expected}"));
        }
    }

    #[test]
    fn a_map_that_ends_too_soon() {
        assert_eq!(complaint(b""), format!("line 1: found the end of the map, expected {STATUS_LINE}"));
        assert_eq!(complaint(b"# a\n\n"), format!("line 3: found the end of the map, expected {STATUS_LINE}"));
        assert_eq!(complaint(b"0 ? 1\n"), format!("line 2: found the end of the map, expected {BLOCK}"));
    }

    #[test]
    fn what_was_found_is_short_and_printable() {
        let found = |line: &[u8]| Map::parse(line).unwrap_err().found;
        assert_eq!(found(b"0\t\x1b[31m \xff\xfe 'caf\xc3\xa9'\0  \r\n"), "0\\t\\u{1b}[31m \\xff\\xfe 'caf\u{e9}'\\0");
        assert_eq!(found(&[b'a'; 40]), "a".repeat(40));
        assert_eq!(found(&[b'a'; 4096]), "a".repeat(40) + "...");
        assert_eq!(found(&[0xff; 4096]), "\\xff".repeat(40) + "...");
    }

    #[test]
    fn a_sector_read_in_part_is_unread() {
        let map = map("0 + 1\n512 512 +\n1024 100 -\n1124 3072 +\n4196 1 ?\n");
        assert_eq!(map.unread_sectors(0), 0b101, "sector 0 lies before the map, sector 2 is spoilt by 100 bytes");
        assert_eq!(map.unread_sectors(512), 0b10000010, "sector 7 reaches over byte 4196");
        assert_eq!(map.unread_sectors(4096), 0xFF, "the map ends in sector 0");
        assert_eq!(map.unread_sectors(u64::MAX - 4096), 0xFF);
        assert_eq!(map.unread_sectors(u64::MAX), 0xFF);
    }

    #[test]
    fn a_mark_joins_its_neighbours() {
        let mut map = map(&REAL.replace("0x00012A00     +", "0x00012A00     *"));
        map.mark_read(0x12000..0x12A00);
        assert!(map.is_read(0x1000..0xF1000));
        assert_eq!(map.runs.len(), 3);
        map.mark_read(0..0x1000);
        assert_eq!(map.status, b'*');
        map.mark_read(0xF1000..0x100000);
        assert_eq!((map.runs.len(), map.unread_bytes()), (1, 0));
        assert!(written(&map).contains("0x00012A00     +               1\n"), "nothing is left, so the rescue is finished");
    }

    #[test]
    fn a_mark_outside_the_map_extends_it() {
        let mut map = map("0 ? 1\n100 8 -\n");
        map.mark_read(10..12);
        map.mark_read(200..204);
        map.mark_read(5..5);
        let blocks: Vec<(u64, u8)> = map.lengths().collect();
        assert_eq!((map.first, blocks), (10, vec![(2, b'+'), (88, b'?'), (8, b'-'), (92, b'?'), (4, b'+')]));
        assert_eq!(Map::parse(written(&map).as_bytes()).unwrap(), map);
    }

    /// A status for each byte: what a map says, as plainly as can be.
    #[test]
    fn marks_equal_those_on_an_array_of_bytes() {
        let mut state = 1u64;
        let mut random = |below: u64| {
            state = state.wrapping_mul(6364136223846793005).wrapping_add(1442695040888963407);
            (state >> 33) % below
        };
        for _ in 0..500 {
            let mut bytes = [b'?'; 64];
            let mut text = "0 ? 1\n".to_string();
            let mut at = 0;
            while at < 64 {
                let (size, status) = ((1 + random(9)).min(64 - at), BLOCK_STATUSES[random(5) as usize]);
                bytes[at as usize..(at + size) as usize].fill(status);
                text += &format!("{at} {size} {}\n", status as char);
                at += size;
            }
            let mut map = map(&text);
            for _ in 0..6 {
                let start = random(64);
                let end = start + random(65 - start);
                map.mark_read(start..end);
                bytes[start as usize..end as usize].fill(READ);
                assert!((0..64).all(|byte| map.is_read(byte..byte + 1) == (bytes[byte as usize] == READ)));
                assert_eq!(map.read_bytes(), bytes.iter().filter(|&&status| status == READ).count() as u64);
                assert!(map.lengths().zip(map.lengths().skip(1)).all(|(before, after)| before.1 != after.1));
                assert_eq!(Map::parse(written(&map).as_bytes()).unwrap(), map);
            }
        }
    }
}
