//! Small words and numbers as people read them.
use std::path::Path;

/// A number in groups of three: 5,242,880.
pub fn grouped(number: u64) -> String {
    let digits = number.to_string();
    let groups: Vec<&str> = digits.as_bytes().rchunks(3).rev().map(|group| std::str::from_utf8(group).unwrap_or_default()).collect();
    groups.join(",")
}

/// A file's name in a message: what would move the cursor, or break the line, is written out.
pub fn name_of(path: &Path) -> String {
    path.to_string_lossy().chars().flat_map(|c| if c.is_control() { c.escape_default().collect() } else { vec![c] }).collect()
}

/// A file's name as a shell takes it.
pub fn quoted(path: &Path) -> String {
    let name = path.to_string_lossy();
    let plain = |c: char| c.is_alphanumeric() || "_-./+=:,@%".contains(c);
    if !name.is_empty() && name.chars().all(plain) { name.into() } else { format!("'{}'", name.replace('\'', "'\\''")) }
}

/// `1 page`, `2 pages`.
pub fn counted(number: u64, thing: &str) -> String {
    format!("{} {thing}{}", grouped(number), if number == 1 { "" } else { "s" })
}

/// `sector 3`, `sectors 0 3 7`.
pub fn named_sectors(bits: u8) -> String {
    format!("sector{} {}", if bits.count_ones() == 1 { "" } else { "s" }, sectors(bits))
}

/// The numbers of the sectors whose bits are set: `0 3 7`.
pub fn sectors(bits: u8) -> String {
    let numbers: Vec<String> = (0..8).filter(|s| bits >> s & 1 != 0).map(|s| s.to_string()).collect();
    numbers.join(" ")
}

/// A blank that no line is broken at, unless what it holds together is longer than a line.
pub const FIRM: char = '\u{a0}';

/// A line with its name at the left; where it is longer than `width`, its words go on below themselves.
pub fn hanging(name: &str, text: &str, width: usize) -> String {
    const INDENT: usize = 13;
    let mut lines = vec![format!("{name:<INDENT$}")];
    let mut used = INDENT;
    let fits = |word: &str| word.chars().count() <= width.saturating_sub(INDENT);
    let words = text.split(' ').flat_map(|words| if fits(words) { vec![words] } else { words.split(FIRM).collect() });
    for word in words {
        let columns = word.chars().count();
        if used > INDENT && used + 1 + columns > width {
            lines.push(" ".repeat(INDENT));
            used = INDENT;
        }
        let blank = if used > INDENT { " " } else { "" };
        if let Some(line) = lines.last_mut() {
            *line += &format!("{blank}{word}");
        }
        used += blank.len() + columns;
    }
    lines.join("\n").replace(FIRM, " ")
}

#[cfg(test)]
mod tests {
    use super::*;

    #[test]
    fn long_lines_go_on_below_their_words() {
        assert_eq!(hanging("rows", "12 rows in 3 pages", 80), "rows         12 rows in 3 pages");
        assert_eq!(hanging("rows", "12 rows in 3 pages", 24), "rows         12 rows in\n             3 pages");
        assert_eq!(hanging("rows", "12 rows", 5), "rows         12\n             rows");
        assert_eq!(hanging("rows", "a 1, b\u{a0}2", 19), "rows         a 1,\n             b 2");
        assert_eq!(hanging("rows", "long\u{a0}words", 18), "rows         long\n             words");
    }

    #[test]
    fn numbers_are_grouped() {
        assert_eq!([0, 7, 999, 1_000, 65_536, 5_242_880].map(grouped), ["0", "7", "999", "1,000", "65,536", "5,242,880"]);
        assert_eq!([counted(1, "page"), counted(0, "page"), counted(1_024, "row")], ["1 page", "0 pages", "1,024 rows"]);
    }

    #[test]
    fn names_are_quoted_where_a_shell_needs_it() {
        let quoted = |name: &str| quoted(Path::new(name));
        assert_eq!([quoted("a/b-1.db"), quoted("a b"), quoted("it's")], ["a/b-1.db", "'a b'", r"'it'\''s'"]);
        assert_eq!(name_of(Path::new("a\nb\x1b[2J ä")), "a\\nb\\u{1b}[2J ä");
    }

    #[test]
    fn sectors_by_their_bits() {
        assert_eq!([sectors(0), sectors(1), sectors(0b1000_1001), sectors(255)], ["", "0", "0 3 7", "0 1 2 3 4 5 6 7"]);
        assert_eq!([named_sectors(2), named_sectors(3)], ["sector 1", "sectors 0 1"]);
    }
}
