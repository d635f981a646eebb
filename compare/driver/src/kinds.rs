//! The kinds of input. Each is made from a stream of random numbers alone.
use crate::limits::{self, GREATEST, LEAST, USUAL};
use crate::plan::{DATA, Fill, Plan, data_of, fill, inexact, put, slots, triangular, write_directory};
use crate::random::Random;

/// One input, and what is asked about it.
#[derive(Clone)]
pub struct Case {
    pub kind: &'static str,
    pub number: u64,
    pub page: Vec<u8>,
    pub bits: u8,
    pub anchors: Vec<u8>,
    /// The bv that is supplied.
    pub bv: u8,
    /// A plain page that is parsed besides the decoded one.
    pub plain: Option<Vec<u8>>,
    pub replacements: Vec<Replacement>,
    /// A search limit at which it is asked besides the usual one, and one that is out of range.
    pub limit: usize,
    pub outside: usize,
}

/// A sector and its new bytes.
pub type Replacement = (usize, Vec<u8>);

impl Case {
    /// The page after all replacements.
    pub fn replaced_page(&self) -> Vec<u8> {
        let mut page = self.page.clone();
        for (sector, new) in &self.replacements {
            write_sector(&mut page, *sector, new);
        }
        page
    }

    /// The new bytes of sector 7, where they fit: the last 16 are a trailer.
    fn last_sectors(&mut self) -> impl Iterator<Item = &mut Vec<u8>> {
        self.replacements.iter_mut().filter(|(sector, new)| *sector == 7 && fits_sector(7, new)).map(|(_, new)| new)
    }
}

/// Document 02, #103: whether a sector can be replaced by these bytes.
fn fits_sector(sector: usize, new: &[u8]) -> bool {
    sector < 8 && new.len() == 512
}

/// Where they fit, writes them into a page, the last sector's with the trailer; else false.
pub fn write_sector(page: &mut [u8], sector: usize, new: &[u8]) -> bool {
    let fits = fits_sector(sector, new);
    if fits {
        page[sector * 512..][..512].copy_from_slice(new);
    }
    fits
}

/// The engine's copyright text, which a superblock has somewhere.
pub const MARKER: &[u8; 33] = b"SAP SE, Copyright (c)2015 17.0.4.";

type Maker = fn(&mut Random) -> Case;

/// A kind with its share of the inputs.
pub type Kind = (&'static str, usize, Maker);

pub const MANY_CANDIDATES: &str = "many candidates";
pub const PEAKS_ABOUT_255: &str = "peaks about 255";

/// About the greatest that a byte holds, and that of a sector that is not exact: all but one.
pub const PEAKS: [u16; 5] = [254, 255, 256, 257, 511];

pub const KINDS: &[Kind] = &[
    ("two exact sectors or more", 6, calibrated),
    ("one exact sector", 5, corroborated),
    ("no exact sector", 4, no_exact),
    ("dissenting votes", 5, dissent),
    ("dense sectors", 3, dense),
    ("near the thresholds", 4, near),
    ("tied steps", 3, tied),
    (PEAKS_ABOUT_255, 3, peaks),
    ("prelude", 7, prelude),
    ("truncated prelude", 4, truncated),
    ("several preludes", 4, several),
    ("offsets inside the directory", 4, inside),
    ("scanned directory", 4, scanned),
    ("row count 1 to 3", 4, few_rows),
    ("edges of the search", 4, edges),
    ("words of a directory", 5, words),
    ("two verified", 5, two_verified),
    ("verified and contested", 5, contested),
    (MANY_CANDIDATES, 8, many_candidates),
    ("bad CRC", 3, bad_crc),
    ("bad trailer", 3, bad_trailer),
    ("all zero, or nearly", 2, zero),
    ("superblock", 3, superblock),
    ("random bytes", 2, random_bytes),
    ("wrong lengths", 2, lengths),
    ("replaced sectors", 4, replaced),
    ("damaged copies", 6, damaged),
    ("across another limit", 4, across),
    ("preludes at another limit", 4, at_limit),
    ("past 0x300", 5, past),
    ("1,024 slots", 1, most_slots),
    ("the least limits", 2, least),
];

/// Input number `index` of a seed.
pub fn case(seed: u64, index: u64) -> Case {
    case_among(KINDS, seed, index)
}

/// The same of some kinds.
pub fn case_among(kinds: &[Kind], seed: u64, index: u64) -> Case {
    let mut r = Random::new(seed, index);
    let (name, maker) = pick(kinds, &mut r);
    let mut case = maker(&mut r);
    case.kind = name;
    case
}

fn pick(kinds: &[Kind], r: &mut Random) -> (&'static str, Maker) {
    let mut at = r.below(kinds.iter().map(|k| k.1).sum());
    for &(name, share, maker) in kinds {
        if at < share {
            return (name, maker);
        }
        at -= share;
    }
    unreachable!("the shares sum up")
}

/// The case of a plan, with options, anchors and a supplied bv that often fit it.
fn case_of(r: &mut Random, plan: Plan) -> Case {
    let plain = r.one_in(3).then(|| plan.plain());
    Case {
        kind: "",
        number: plan.number,
        page: plan.stored(),
        bits: bits(r),
        anchors: anchors(r, plan.bv),
        bv: if r.one_in(4) { r.byte() } else { plan.bv },
        plain,
        replacements: Vec::new(),
        limit: limits::other(r),
        outside: r.of(&limits::OUTSIDE),
    }
}

fn bits(r: &mut Random) -> u8 {
    match r.below(4) {
        0 => r.byte(),
        1 => r.below(8) as u8,
        2 => 0,
        _ => r.of(&[1, 1, 3, 7]),
    }
}

/// None, the bv, its neighbours, or any bytes, up to 255.
fn anchors(r: &mut Random, bv: u8) -> Vec<u8> {
    match r.below(8) {
        0..=2 => Vec::new(),
        3 => vec![bv],
        4 => (0..r.below(4)).map(|_| bv.wrapping_add(r.below(4) as u8)).collect(),
        5 => {
            let mut all = r.bytes(4);
            all.extend([bv, bv]);
            all
        }
        6 => {
            let n = r.from_to(1, 255);
            r.bytes(n)
        }
        _ => (0..=254).collect(),
    }
}

/// Any fill in every sector but the first `from`.
fn fill_rest(r: &mut Random, plan: &mut Plan, from: usize) {
    for s in from..8 {
        let how = if r.one_in(2) { Fill::Constant(0) } else { inexact(r) };
        fill(r, plan.sector(s), how);
    }
}

/// So many exact sectors of constant `c`, in random places.
fn exact(r: &mut Random, plan: &mut Plan, from: usize, n: usize, c: u8) {
    for _ in 0..n {
        let s = r.from_to(from, 7);
        fill(r, plan.sector(s), Fill::Constant(c));
    }
}

fn all_inexact(r: &mut Random, plan: &mut Plan) {
    for s in 0..8 {
        let how = if r.one_in(6) { inexact(r) } else { Fill::Sparse(r.from_to(1, 200)) };
        fill(r, plan.sector(s), how);
    }
}

fn calibrated(r: &mut Random) -> Case {
    let mut plan = Plan::new(r);
    all_inexact(r, &mut plan);
    let n = r.from_to(2, 12);
    exact(r, &mut plan, 0, n, 0);
    if r.one_in(3) {
        plan.rows(r.byte());
    }
    case_of(r, plan)
}

/// One exact sector, which corroborates where the bv is top and anchored, and no other candidate is.
fn corroborated(r: &mut Random) -> Case {
    let mut plan = Plan::new(r);
    for s in 0..8 {
        let k = if r.one_in(20) { 400 } else { r.from_to(1, 150) };
        fill(r, plan.sector(s), Fill::Sparse(k));
    }
    let c = if r.one_in(4) { r.byte() } else { 0 };
    exact(r, &mut plan, 0, 1, c);
    let bv = plan.bv;
    let mut case = case_of(r, plan);
    case.anchors = match r.below(6) {
        0 => Vec::new(),
        1 => vec![bv.wrapping_add(1)],
        2 => (0..=255).map(|a: u8| a.wrapping_mul(7)).take(r.from_to(1, 255)).collect(),
        3 => vec![bv, bv.wrapping_add(c), bv],
        _ => vec![bv],
    };
    case
}

fn no_exact(r: &mut Random) -> Case {
    let mut plan = Plan::new(r);
    all_inexact(r, &mut plan);
    case_of(r, plan)
}

fn dissent(r: &mut Random) -> Case {
    let mut plan = Plan::new(r);
    all_inexact(r, &mut plan);
    let n = r.from_to(1, 6);
    exact(r, &mut plan, 0, n, 0);
    for _ in 0..r.from_to(1, 7) {
        let c = r.of(&[1, 32, 255, 128, 3, 4, 5, 6, 7]);
        exact(r, &mut plan, 0, 1, c);
    }
    if r.one_in(4) {
        directory(r, &mut plan);
    }
    case_of(r, plan)
}

fn dense(r: &mut Random) -> Case {
    let mut plan = Plan::new(r);
    fill_rest(r, &mut plan, 0);
    for _ in 0..r.from_to(1, 8) {
        let s = r.below(8);
        let how = if r.one_in(3) { Fill::Text } else { Fill::Dense };
        fill(r, plan.sector(s), how);
    }
    case_of(r, plan)
}

fn near(r: &mut Random) -> Case {
    let mut plan = Plan::new(r);
    for _ in 0..r.from_to(1, 8) {
        let s = r.below(8);
        fill(r, plan.sector(s), Fill::Near);
    }
    case_of(r, plan)
}

/// Steps of some sectors tie, for one page in three all steps of a sector.
fn tied(r: &mut Random) -> Case {
    let mut plan = Plan::new(r);
    for _ in 0..r.from_to(1, 8) {
        let s = r.below(8);
        fill(r, plan.sector(s), Fill::Tied);
    }
    let mut case = case_of(r, plan);
    if r.one_in(3) {
        let data = data_of(r.below(8));
        case.page[data.clone()].copy_from_slice(&triangular(data.len()));
        recrc(&mut case.page);
    }
    case
}

/// In each sector so many bytes agree under one step, or under two.
fn peaks(r: &mut Random) -> Case {
    let mut plan = Plan::new(r);
    for s in 0..8 {
        let count = r.of(&PEAKS) as usize;
        fill(r, plan.sector(s), Fill::Zeros(count));
    }
    case_of(r, plan)
}

/// A prelude with its slots in sectors 0 and 1, its rows behind it; the row count.
fn directory(r: &mut Random, plan: &mut Plan) -> usize {
    let n = match r.below(6) {
        0 => r.from_to(4, 8),
        1 => r.from_to(4, 255),
        _ => r.from_to(4, 60),
    };
    let gap = r.of(&[4, 6]);
    let field = r.below(0x2C0);
    let end = (field + gap + 2 * n).min(4000);
    let list = slots(r, n, end.max(0x20), 0xFF0);
    write_directory(r, &mut plan.data, field, gap, n as u16, &list);
    plan.rows(n as u8);
    n
}

fn prelude(r: &mut Random) -> Case {
    let mut plan = Plan::new(r);
    let from = r.from_to(2, 8);
    fill_rest(r, &mut plan, from);
    if r.one_in(4) {
        for b in plan.data[..USUAL].iter_mut() {
            *b = r.byte();
        }
    }
    directory(r, &mut plan);
    if r.one_in(8) {
        plan.rows(r.byte());
    }
    case_of(r, plan)
}

fn truncated(r: &mut Random) -> Case {
    let mut plan = Plan::new(r);
    let from = r.from_to(2, 8);
    fill_rest(r, &mut plan, from);
    for _ in 0..r.from_to(1, 3) {
        let n = r.from_to(4, 40);
        let (field, gap) = (r.below(0x280), r.of(&[4, 6]));
        let mut list = slots(r, n, 0x400, 0xFF0);
        let at = r.below(n);
        list[at] = r.of(&[0xFF0, 0xFFF, 1, 0x1F, 0xFEF, 0x8000]);
        write_directory(r, &mut plan.data, field, gap, n as u16, &list);
        plan.rows(n as u8);
    }
    case_of_page(r, plan)
}

fn several(r: &mut Random) -> Case {
    let mut plan = Plan::new(r);
    let from = r.from_to(2, 8);
    fill_rest(r, &mut plan, from);
    let n = r.from_to(1, 20);
    for _ in 0..r.from_to(2, 4) {
        let (field, gap) = (r.below(USUAL), r.of(&[4, 6]));
        let list = slots(r, n, 0x400, 0xFF0);
        write_directory(r, &mut plan.data, field, gap, n as u16, &list);
    }
    plan.rows(n as u8);
    case_of_page(r, plan)
}

fn inside(r: &mut Random) -> Case {
    let mut plan = Plan::new(r);
    let from = r.from_to(2, 8);
    fill_rest(r, &mut plan, from);
    let n = r.from_to(4, 120);
    let (field, gap) = (r.from_to(0x20, 0x200), r.of(&[4, 6]));
    let start = field + gap;
    let mut list = slots(r, n, start + 2 * n + 4, 0xFF0);
    // The last few point at the array, its edges, or before it.
    let edge = [start - 2, start, start + 1, start + 2 * n - 1, start + 2 * n, 0x20, 0x1F];
    let mut low: Vec<u16> =
        (0..r.from_to(1, 6)).map(|_| if r.one_in(2) { r.of(&edge) } else { r.from_to(start, start + 2 * n) } as u16).collect();
    low.sort_unstable_by(|a, b| b.cmp(a));
    let k = low.len().min(n - 1);
    list[n - k..].copy_from_slice(&low[..k]);
    let count = if r.one_in(4) { 0 } else { n };
    write_directory(r, &mut plan.data, field, gap, count as u16, &list);
    plan.rows(if r.one_in(4) { 0 } else { n as u8 });
    case_of_page(r, plan)
}

fn scanned(r: &mut Random) -> Case {
    let mut plan = Plan::new(r);
    let from = r.from_to(2, 8);
    fill_rest(r, &mut plan, from);
    for _ in 0..r.from_to(1, 3) {
        let n = r.of(&[3, 4, 5, 7, 8, 9, 30, 120]);
        let at = r.below(USUAL);
        let list = slots(r, n, 0x300, 0xFF0);
        for (k, &s) in list.iter().enumerate() {
            put(&mut plan.data, at + 2 * k, s);
        }
    }
    plan.rows(r.of(&[0, 0, 0, 4, 5, 30, 255]));
    case_of_page(r, plan)
}

fn few_rows(r: &mut Random) -> Case {
    let mut plan = Plan::new(r);
    let from = r.from_to(2, 8);
    fill_rest(r, &mut plan, from);
    let n = r.from_to(1, 3);
    for _ in 0..r.below(4) {
        let list = slots(r, n, 0x300, 0xFF0);
        let (field, gap) = (r.below(USUAL), r.of(&[4, 6]));
        write_directory(r, &mut plan.data, field, gap, n as u16, &list);
    }
    plan.rows(n as u8);
    case_of_page(r, plan)
}

/// Fields about the limit of the search, arrays that cross it, slots about the least and the greatest offset.
fn edges(r: &mut Random) -> Case {
    let mut plan = Plan::new(r);
    let from = r.from_to(3, 8);
    fill_rest(r, &mut plan, from);
    let n = r.of(&[1, 3, 4, 5, 8, 40, 254, 255]);
    let field = r.of(&[0, 1, 2, 0x2F0, 0x2F6, 0x2F7, 0x2F8, 0x2F9, 0x2FA, 0x2FB, 0x2FC, 0x2FD, 0x2FE, 0x2FF, 0x300, 0x301]);
    let (bottom, top) = (r.of(&[0x1E, 0x20, 0x21, 0x400]), r.of(&[0xFEF, 0xFF0, 0xFF1, 0x1000, 0xE00]));
    let list = slots(r, n, bottom, top);
    let gap = r.of(&[4, 6]);
    write_directory(r, &mut plan.data, field, gap, n as u16, &list);
    plan.rows(if r.one_in(6) { 0 } else { n as u8 });
    case_of_page(r, plan)
}

/// The search region from a few kinds of words only: zeros, falling offsets, the row count, others.
fn words(r: &mut Random) -> Case {
    let mut plan = Plan::new(r);
    let from = r.from_to(2, 8);
    fill_rest(r, &mut plan, from);
    let n = r.of(&[0, 1, 2, 4, 4, 5, 6, 8]);
    let mut at = r.below(2);
    let mut prev = 0xFF0;
    while at < USUAL + 8 {
        let w = match r.below(10) {
            0 | 1 => 0,
            2 => n as usize,
            3 => {
                prev = r.from_to(0x20, 0xFEF);
                prev
            }
            4 => r.of(&[0x1F, 0x20, 0xFEF, 0xFF0, 0x101, 0xF00]),
            _ => {
                prev = prev.saturating_sub(r.from_to(0, 40));
                prev
            }
        };
        put(&mut plan.data, at, w as u16);
        at += if r.one_in(20) { 1 } else { 2 };
    }
    plan.rows(n);
    case_of_page(r, plan)
}

/// Two directories, each of which reads under a bv of its own; both are candidates.
fn two_verified(r: &mut Random) -> Case {
    let mut plan = Plan::new(r);
    let n = r.from_to(4, 30);
    let d = r.of(&[0x40, 0x55, 0x80, 0xA0, 0xC0]);
    let second = r.from_to(0x160, 0x200);
    let first = r.below(0x20);
    directory_under(r, &mut plan, first, n, 0);
    directory_under(r, &mut plan, second, n, d);
    for s in 2..8 {
        match r.below(4) {
            0 => fill(r, plan.sector(s), Fill::Constant(d)),
            1 => {
                for b in plan.sector(s).iter_mut().step_by(3) {
                    *b = d;
                }
            }
            2 => fill(r, plan.sector(s), Fill::Sparse(30)),
            _ => {}
        }
    }
    plan.rows(n as u8);
    case_of(r, plan)
}

/// A directory of n rows that reads under bv + d.
fn directory_under(r: &mut Random, plan: &mut Plan, field: usize, n: usize, d: u8) {
    let gap = r.of(&[4, 6]);
    let list = slots(r, n, 0x400, 0xFF0);
    write_directory(r, &mut plan.data, field, gap, n as u16, &list);
    for b in &mut plan.data[field..field + gap + 2 * n] {
        *b = b.wrapping_add(d);
    }
}

/// A directory that reads under bv, and another value that has two votes, or is top and anchored.
fn contested(r: &mut Random) -> Case {
    let mut plan = Plan::new(r);
    let n = r.from_to(4, 60);
    let d = r.byte();
    let list = slots(r, n, 0x400, 0xFF0);
    let (field, gap) = (r.below(0x100), r.of(&[4, 6]));
    write_directory(r, &mut plan.data, field, gap, n as u16, &list);
    for s in 2..8 {
        match r.below(6) {
            0 | 1 => fill(r, plan.sector(s), Fill::Constant(d)),
            2 | 3 => {
                fill(r, plan.sector(s), Fill::Constant(d));
                let k = r.from_to(1, 90);
                for _ in 0..k {
                    let at = r.below(490);
                    plan.sector(s)[at] = r.byte();
                }
            }
            4 => fill(r, plan.sector(s), Fill::Sparse(60)),
            _ => {}
        }
    }
    plan.rows(n as u8);
    let bv = plan.bv;
    let mut case = case_of(r, plan);
    if r.one_in(2) {
        case.anchors = vec![bv.wrapping_add(d)];
    }
    case
}

/// Four to eight exact sectors, each of its own value, which are candidates by their votes; in the sectors that are left other values, which are
/// candidates where they have as many bytes as an exact sector and are smaller, or have more.
fn many_candidates(r: &mut Random) -> Case {
    let mut plan = Plan::new(r);
    let (sectors, values) = (eight_sectors(r), eight_values(r));
    plan.bv = values[0];
    let plain: Vec<u8> = values.iter().map(|v| v.wrapping_sub(plan.bv)).collect();
    sectors.iter().zip(&plain).for_each(|(&s, &value)| plan.sector(s).fill(value));
    let left = &sectors[..r.of(&[0, 1, 2, 3, 3, 4, 4, 4])];
    if left.len() > 1 && !r.one_in(3) {
        exchange(r, &mut plan, left);
        own_directory(r, &mut plan, left, &plain[..left.len()]);
    } else {
        one_less(r, &mut plan, left, &plain);
    }
    if r.one_in(4) {
        plan.rows(r.of(&[0, 0, 4, 255]));
    }
    if r.one_in(12) {
        plan.off = 1 << r.below(32);
    }
    if r.one_in(12) {
        plan.trailer[r.of(&RESERVED)] = 1;
    }
    case_of(r, plan)
}

/// In any order, the last one most often among the last four: where it is left, other values do not have an exact sector's bytes each.
fn eight_sectors(r: &mut Random) -> Vec<usize> {
    let mut sectors: Vec<usize> = (0..8).collect();
    shuffle(r, &mut sectors);
    if !r.one_in(4) {
        let last = sectors.iter().position(|&s| s == 7).expect("it is one of the eight");
        sectors.swap(last, r.from_to(4, 7));
    }
    sectors
}

/// At the ends of the range, any, or each as far from the next; most often ascending, since of equal counts the smaller value's is taken.
fn eight_values(r: &mut Random) -> Vec<u8> {
    let mut values: Vec<u8> = match r.below(6) {
        0 => vec![0, 1, 2, 3, 252, 253, 254, 255],
        1 => {
            let mut all: Vec<u8> = (0..=255).collect();
            shuffle(r, &mut all);
            all[..8].to_vec()
        }
        _ => {
            let (first, apart) = (r.byte(), r.from_to(1, 5) as u8);
            (0..8).map(|k| first.wrapping_add(k * apart)).collect()
        }
    };
    values.sort_unstable();
    if r.one_in(5) {
        shuffle(r, &mut values);
    }
    values
}

/// Bytes of each sector and of the next change places: no sector stays exact, and each value has as many as before.
fn exchange(r: &mut Random, plan: &mut Plan, sectors: &[usize]) {
    for _ in 0..r.of(&[1, 1, 10, 300]) {
        for (k, &s) in sectors.iter().enumerate() {
            let next = sectors[(k + 1) % sectors.len()];
            plan.data.swap(place_in(r, s), place_in(r, next));
        }
    }
}

fn place_in(r: &mut Random, s: usize) -> usize {
    let data = data_of(s);
    r.from_to(data.start, data.end - 1)
}

fn places(sectors: &[usize]) -> Vec<usize> {
    sectors.iter().flat_map(|&s| data_of(s)).collect()
}

/// A directory of no bytes but the sectors' own, which change places for it, so that each value has as many as before.
fn own_directory(r: &mut Random, plan: &mut Plan, sectors: &[usize], values: &[u8]) {
    let Some(s) = sectors.iter().find(|&&s| s < 2) else { return };
    let pairs = values.iter().flat_map(|&high| values.iter().map(move |&low| u16::from_le_bytes([low, high])));
    let mut list: Vec<u16> = pairs.filter(|slot| (0x20..0xFF0).contains(slot) && !r.one_in(8)).collect();
    list.sort_unstable_by(|a, b| b.cmp(a));
    let mut bytes = vec![0; r.of(&[4, 6])];
    bytes[0] = r.of(&values[1..]);
    plan.rows(bytes[0]);
    bytes.extend(list.iter().flat_map(|slot| slot.to_le_bytes()));

    let field = 512 * s + r.below(0x80);
    let directory = field..field + bytes.len();
    let mut others = places(sectors);
    others.retain(|at| !directory.contains(at));
    shuffle(r, &mut others);
    for (at, byte) in directory.zip(bytes) {
        let other = others.iter().find(|&&other| plan.data[other] == byte);
        other.into_iter().for_each(|&other| plan.data.swap(at, other));
    }
}

/// One other value less than there are sectors left, or one, so that each has bytes to spare: for noise, and for directories that read under any
/// of the eight values.
fn one_less(r: &mut Random, plan: &mut Plan, left: &[usize], plain: &[u8]) {
    let (places, others) = (places(left), left.len().saturating_sub(1).max(1));
    places.iter().enumerate().for_each(|(k, &at)| plan.data[at] = plain[k * others / places.len()]);
    exchange(r, plan, left);
    for &s in left {
        for _ in 0..r.from_to(1, 20) {
            plan.data[place_in(r, s)] = r.byte();
        }
    }
    let n = r.from_to(4, 30);
    for &s in left.iter().filter(|&&s| s < 2) {
        let (field, d) = (512 * s + r.below(0x80), r.of(plain));
        directory_under(r, plan, field, n, d);
    }
    plan.rows(n as u8);
}

fn bad_crc(r: &mut Random) -> Case {
    let mut plan = Plan::new(r);
    fill_rest(r, &mut plan, 0);
    plan.off = 1 << r.below(32);
    if r.one_in(3) {
        plan.trailer[3] = 1;
    }
    if r.one_in(3) {
        directory(r, &mut plan);
    }
    case_of(r, plan)
}

/// The bytes of a trailer that are zero, but on page 0.
const RESERVED: [usize; 5] = [3, 8, 9, 10, 11];

fn bad_trailer(r: &mut Random) -> Case {
    let mut plan = Plan::new(r);
    fill_rest(r, &mut plan, 0);
    let at = r.of(&RESERVED);
    plan.trailer[at] = r.from_to(1, 255) as u8;
    if r.one_in(3) {
        directory(r, &mut plan);
    }
    case_of(r, plan)
}

/// All 4,096 bytes zero; or all but the trailer; or all but one byte.
fn zero(r: &mut Random) -> Case {
    let mut case = {
        let plan = Plan::new(r);
        case_of_page(r, plan)
    };
    let trailer = case.page[DATA..].to_vec();
    case.page = vec![0; 4096];
    match r.below(4) {
        0 => {}
        1 => {
            case.page[DATA..].copy_from_slice(&trailer);
            recrc(&mut case.page);
        }
        2 => case.page[r.below(4096)] = r.from_to(1, 255) as u8,
        _ => {
            case.page[0xFF2] = 0x45;
            recrc(&mut case.page);
        }
    }
    case
}

fn superblock(r: &mut Random) -> Case {
    let mut plan = Plan::new(r);
    plan.number = 0;
    for b in plan.data.iter_mut().take(0x40) {
        *b = r.byte();
    }
    let mut case = case_of_page(r, plan);
    if !r.one_in(3) {
        let magic: u32 = if r.one_in(4) { 0xDA7A_BA5E ^ (1 << r.below(32)) } else { 0xDA7A_BA5E };
        case.page[0x14..0x18].copy_from_slice(&magic.to_le_bytes());
    }
    if !r.one_in(3) {
        let at = r.of(&[0, 1, 0x400, 4096 - 33, 4096 - 34, 4096 - 33, 2000]);
        case.page[at..at + 33].copy_from_slice(MARKER);
        if r.one_in(3) {
            case.page[at + r.below(33)] ^= 1;
        }
    }
    recrc(&mut case.page);
    case
}

fn random_bytes(r: &mut Random) -> Case {
    let plan = Plan::new(r);
    let mut case = case_of_page(r, plan);
    case.page = r.bytes(4096);
    if !r.one_in(3) {
        case.page[0xFF3] = 0;
        case.page[0xFF8..0xFFC].fill(0);
        recrc(&mut case.page);
    }
    case.plain = Some(r.bytes(4096));
    case
}

/// About every length that is asked for.
fn lengths(r: &mut Random) -> Case {
    let mut case = calibrated(r);
    let n = r.of(&[0, 1, 2, 3, 495, 496, 511, 512, 4079, 4080, 4081, 4092, 4095, 4097, 8192]);
    case.page.resize(n, 0);
    case.plain = Some(case.page.clone());
    case
}

/// All sectors of another page, or of one of zeros; or some that come from another page, or come back.
fn replaced(r: &mut Random) -> Case {
    let mut case = prelude(r);
    let makers: [Maker; 3] = [calibrated, no_exact, prelude];
    let other = r.of(&makers)(r).page;
    match r.below(8) {
        0 => case.replacements = all_sectors(r, &[0; 4096]),
        1 | 2 => case.replacements = all_sectors(r, &other),
        _ => {
            case.replacements = some_sectors(r, [&case.page, &other]);
            change_trailers(r, &mut case);
        }
    }
    case
}

/// In any order.
fn all_sectors(r: &mut Random, page: &[u8]) -> Vec<Replacement> {
    let mut all: Vec<Replacement> = page.chunks(512).map(<[u8]>::to_vec).enumerate().collect();
    shuffle(r, &mut all);
    all
}

fn shuffle<T>(r: &mut Random, all: &mut [T]) {
    (1..all.len()).for_each(|k| all.swap(k, r.below(k + 1)));
}

/// Of two pages, sector 7 more often than others, some with a number or a length that is refused.
fn some_sectors(r: &mut Random, pages: [&[u8]; 2]) -> Vec<Replacement> {
    let sector = |r: &mut Random| {
        let s = if r.one_in(8) { r.of(&[8, 9, 255, usize::MAX]) } else { r.below(10).min(7) };
        let mut new = r.of(&pages)[s.min(7) * 512..][..512].to_vec();
        if r.one_in(10) {
            new.resize(r.of(&[0, 495, 496, 497, 511, 513]), 0);
        }
        (s, new)
    };
    (0..r.from_to(1, 10)).map(|_| sector(r)).collect()
}

/// Trailers that often differ from the page's, most of them with the CRC of the page that the replacements lead to.
fn change_trailers(r: &mut Random, case: &mut Case) {
    case.last_sectors().for_each(|new| change_trailer(r, &mut new[data_of(7).len()..]));
    if !r.one_in(4) {
        let mut page = case.replaced_page();
        recrc(&mut page);
        case.last_sectors().for_each(|new| new[508..].copy_from_slice(&page[4092..]));
    }
}

/// Another row count, a reserved byte set, zeros, any bytes, or none changed.
fn change_trailer(r: &mut Random, trailer: &mut [u8]) {
    match r.below(8) {
        0 | 1 => trailer[0] = r.byte(),
        2 => trailer[r.of(&RESERVED)] = r.from_to(1, 255) as u8,
        3 => trailer.fill(0),
        4 => trailer.fill_with(|| r.byte()),
        _ => {}
    }
}

/// Another kind's page with some of its bytes changed, the CRC left, or set right.
fn damaged(r: &mut Random) -> Case {
    let makers: [Maker; 8] = [calibrated, corroborated, dissent, prelude, several, two_verified, contested, words];
    let mut case = makers[r.below(makers.len())](r);
    for _ in 0..r.from_to(1, 6) {
        let at = if r.one_in(3) { r.below(USUAL) } else { r.below(4096) };
        let n = r.of(&[1, 1, 2, 4, 16, 200]).min(4096 - at);
        for b in &mut case.page[at..at + n] {
            *b = r.byte();
        }
    }
    if !r.one_in(3) {
        case.page[0xFF3] = 0;
        case.page[0xFF8..0xFFC].fill(0);
        recrc(&mut case.page);
    }
    case
}

/// Slots on both sides of a limit: a scan takes those before it, a prelude declares them all.
fn across(r: &mut Random) -> Case {
    let mut plan = Plan::new(r);
    let limit = limits::other(r);
    let (n, gap) = (r.of(&[4, 5, 8, 30, 120, 255]), r.of(&[4, 6]));
    let before = 2 * r.from_to(1, n) + r.below(2);
    let field = limit.saturating_sub(gap + before);
    let list = slots(r, n, 0xA00, 0xFF0);
    write_directory(r, &mut plan.data, field, gap, n as u16, &list);
    plan.rows(if r.one_in(4) { 0 } else { n as u8 });
    limited_case(r, plan, limit)
}

/// The last field that a limit leaves, the one behind it, and their neighbours; the slots run past the limit.
fn at_limit(r: &mut Random) -> Case {
    let mut plan = Plan::new(r);
    let limit = limits::other(r);
    let (n, gap) = (r.of(&[1, 3, 4, 5, 8, 40, 255]), r.of(&[4, 6]));
    let field = r.of(&[limit - 2, limit - 1, limit - 1, limit, limit, limit + 1]);
    let list = slots(r, n, 0xA00, 0xFF0);
    write_directory(r, &mut plan.data, field, gap, n as u16, &list);
    plan.rows(n as u8);
    limited_case(r, plan, limit)
}

/// A directory that the usual limit keeps from being found, and most often a limit that does not.
fn past(r: &mut Random) -> Case {
    let mut plan = Plan::new(r);
    let (n, gap) = (r.of(&[4, 5, 8, 30, 60, 120]), r.of(&[4, 6]));
    let field = r.from_to(USUAL, GREATEST - 1);
    let limit = if r.one_in(8) { limits::other(r) } else { r.from_to(field + 1, GREATEST) };
    if r.one_in(4) {
        plan.data[..field].fill_with(|| r.byte());
    }
    let list = slots(r, n, 0xA00, 0xFF0);
    write_directory(r, &mut plan.data, field, gap, n as u16, &list);
    plan.rows(if r.one_in(6) { 0 } else { n as u8 });
    limited_case(r, plan, limit)
}

/// As many slots as the greatest limit leaves room for, or nearly; the faster they fall, the more of them point into the directory.
fn most_slots(r: &mut Random) -> Case {
    let mut plan = Plan::new(r);
    let (start, n, steepest, deleting) = (r.below(2), r.of(&[1_024, 1_024, 1_023, 1_000]), r.of(&[1, 1, 2, 3]), r.one_in(2));
    let mut slot = r.from_to(0xFE0, 0xFF0);
    for k in 0..n {
        slot -= r.from_to(1, steepest);
        let deleted = deleting && k > 0 && r.one_in(50);
        put(&mut plan.data, start + 2 * k, if deleted { 0 } else { slot as u16 });
    }
    plan.rows(r.of(&[0, 0, 0, 4, 255]));
    let limit = r.of(&[GREATEST, GREATEST, GREATEST, 2_047, 1_500, 1_024]);
    limited_case(r, plan, limit)
}

/// Limits that leave room for a few slots, and slots at the page's start.
fn least(r: &mut Random) -> Case {
    let mut plan = Plan::new(r);
    let (at, n, limit) = (r.below(6), r.from_to(3, 7), r.from_to(LEAST, LEAST + 8));
    let list = slots(r, n, 0x400, 0xFF0);
    if r.one_in(2) {
        write_directory(r, &mut plan.data, at, 4, n as u16, &list);
        plan.rows(n as u8);
    } else {
        list.iter().enumerate().for_each(|(k, &slot)| put(&mut plan.data, at + 2 * k, slot));
    }
    limited_case(r, plan, limit)
}

/// The case of a plan at such a limit, with fills behind all that a search can come to.
fn limited_case(r: &mut Random, mut plan: Plan, limit: usize) -> Case {
    let from = r.from_to(6, 8);
    fill_rest(r, &mut plan, from);
    Case { limit, ..case_of_page(r, plan) }
}

fn case_of_page(r: &mut Random, plan: Plan) -> Case {
    let plain = plan.plain();
    let mut case = case_of(r, plan);
    case.plain = Some(plain);
    case
}

/// The page with its CRC set right.
pub fn recrc(page: &mut [u8]) {
    let crc = oracle::crc32(&page[..4092]);
    page[4092..4096].copy_from_slice(&crc.to_le_bytes());
}
