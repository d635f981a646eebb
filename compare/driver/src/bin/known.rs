//! known > crates/known_directories/stdout: the lines that `known_directories` must print, by the original, from the same pages.
use std::fmt::Write;

use compare::limits::{self, USUAL};
use compare::plan::put;
use oracle::{Parsed, Refusal};

/// Name, row count, and pairs at offsets.
type Known = (&'static str, u8, Vec<(usize, u16)>);

fn main() {
    for (name, n, pairs) in pages() {
        let page = page(n, &pairs);
        both(name, &page);
        let matches = |t| matches(&page, USUAL, t);
        match name {
            "four rows" => println!("row count at T 5 and 6 {} {}\nits records{}", matches(5), matches(6), records(&page)),
            "earliest scan, counted" => println!("row count at T 4 {}", matches(4)),
            _ => {}
        }
    }
    at_other_limits();
    both("empty", &[0; 4096]);
    both("short", &[0; 4095]);
}

fn page(n: u8, pairs: &[(usize, u16)]) -> Vec<u8> {
    let mut page = vec![0; 4096];
    page[0xFF0] = n;
    pairs.iter().for_each(|&(at, value)| put(&mut page, at, value));
    page
}

fn one(at: usize, value: u16) -> Vec<(usize, u16)> {
    vec![(at, value)]
}

/// Slots at page offsets high * 256, (high - 1) * 256 and so on.
fn fall(at: usize, high: u16, count: u16) -> Vec<(usize, u16)> {
    (0..count).map(|k| (at + 2 * k as usize, (high - k) << 8)).collect()
}

fn pages() -> [Known; 17] {
    // Four slots that are as good a directory a byte before.
    let odd = |at: usize| [0xE0F, 0xC0D, 0xA0B, 0x809].into_iter().enumerate().map(|(k, value)| (at + 2 * k, value)).collect::<Vec<_>>();
    [
        ("four rows", 5, [one(0x40, 5), fall(0x44, 0xF, 3), one(0x4C, 0xC00)].concat()),
        ("count below four", 2, [one(0x40, 2), fall(0x44, 0xF, 2)].concat()),
        ("four live", 0, fall(0x50, 0xF, 4)),
        ("eight live", 0, fall(0x50, 0xF, 8)),
        ("no prelude", 5, vec![]),
        ("truncated", 6, [one(0x40, 6), fall(0x44, 0xF, 5), one(0x4E, 0xFFFF)].concat()),
        ("truncated, a zero counted", 8, [one(0x40, 8), fall(0x44, 0xF, 2), fall(0x4A, 0xD, 2), one(0x4E, 0xF00)].concat()),
        (
            "two truncated alike",
            6,
            [one(0x40, 6), fall(0x44, 0xF, 4), one(0x4C, 0xFFFF), one(0x100, 6), fall(0x104, 0xF, 4), one(0x10C, 0xFFFF)].concat(),
        ),
        ("first slot 0xFF0", 4, [one(0x40, 4), one(0x44, 0xFF0), fall(0x46, 0xF, 3)].concat()),
        ("field 0x2FF", 40, [one(0x2FF, 40), fall(0x303, 0xF, 4)].concat()),
        ("two preludes", 4, [one(0x40, 4), fall(0x44, 0xF, 4), one(0x100, 4), fall(0x106, 0xE, 5)].concat()),
        // A scan would find eight slots.
        ("two preludes of two", 2, [one(0x40, 2), fall(0x44, 0xF, 2), one(0x100, 2), fall(0x104, 0xE, 2), fall(0x200, 0xF, 8)].concat()),
        ("offsets inside", 5, [one(0x40, 5), fall(0x44, 0xF, 2), one(0x48, 0x4C), one(0x4A, 0x48), one(0x4C, 0x44)].concat()),
        ("offsets at the ends", 5, [one(0x40, 5), fall(0x44, 0xF, 3), one(0x4A, 0x4E), one(0x4C, 0x43)].concat()),
        ("scanned, offsets inside", 0, [fall(0x50, 0xF, 4), one(0x58, 0x5A), one(0x5A, 0x52)].concat()),
        ("earliest scan", 0, odd(0x02)),
        ("earliest scan, counted", 4, [one(0x20, 4), one(0x22, 0x107), odd(0x26)].concat()),
    ]
}

/// The first field past 768, and slots that end at 782.
fn at_other_limits() {
    let page = page(5, &[one(0x300, 5), fall(0x304, 0xF, 3), one(0x30C, 0xC00)].concat());
    for (limit, name) in [(768, "768"), (769, "769"), (2_049, "2,049")] {
        both_at(limit, &format!("field 0x300 at {name}"), &page);
    }
    let [a, b, c] = [781, 782, 2_049].map(|limit| matches(&page, limit, 5));
    println!("row count at 781, 782 and 2,049 {a} {b} {c}");
}

fn both(name: &str, plain: &[u8]) {
    both_at(USUAL, name, plain);
}

/// Strictly, and with DIRECTORY.
fn both_at(limit: usize, name: &str, plain: &[u8]) {
    for bits in [0, 2] {
        println!("{name}{}", limits::parsed(7, plain, bits, limit).map_or_else(refused, parsed));
    }
}

/// Whether the row count stands before the directory, at a T, which is 4 in the original; no at a limit out of range.
fn matches(plain: &[u8], limit: usize, t: u8) -> &'static str {
    yes(limits::refusal(limit).is_none() && plain[0xFF0] >= t && oracle::row_count_matches(plain, limit))
}

fn yes(b: bool) -> &'static str {
    if b { "yes" } else { "no" }
}

/// Offset, length and exact mark of each row.
fn records(plain: &[u8]) -> String {
    let rows = oracle::parse(7, plain, 0, USUAL).map_or(Vec::new(), |p| p.rows);
    rows.iter().map(|r| format!(" {} {} {}", r.offset, r.bytes.len(), yes(r.exact))).collect()
}

fn refused(r: Refusal) -> String {
    let answer = numbered(r.number, &r.values);
    format!("{answer} warnings rows then{answer} starts 9 9 of{answer} 0")
}

fn parsed(p: Parsed) -> String {
    let mut out = " 0".to_string();
    if let Some(d) = p.directory {
        let declared = d.declared.map_or("-".to_string(), |n| n.to_string());
        write!(out, " directory {} {} {} {declared}", d.start, d.end, d.slots.len()).expect("a string takes all");
    }
    out += " warnings";
    p.warnings.iter().for_each(|w| out += &numbered(w.number, &w.values));
    out += " rows";
    p.rows.iter().for_each(|r| out += &format!(" {} {}", r.offset, r.bytes.len()));
    let mut starts = [9; 2];
    starts.iter_mut().zip(&p.rows).for_each(|(place, r)| *place = r.offset);
    out + &format!(" then 16 {0} starts {1} {2} of 0 {0}", p.rows.len(), starts[0], starts[1])
}

fn numbered(number: u8, values: &[u64]) -> String {
    let values: String = values.iter().map(|v| format!(" {v}")).collect();
    format!(" {number}{values}")
}
