//! A page by plan: its plaintext, steps, bv, page number and trailer, and the stored page that they give.
use std::ops::Range;

use crate::random::Random;

pub const DATA: usize = 4080;

pub struct Plan {
    pub number: u64,
    pub data: Vec<u8>,
    pub steps: [u8; 8],
    pub bv: u8,
    /// All of the trailer but the CRC.
    pub trailer: [u8; 12],
    /// What the CRC is off by.
    pub off: u32,
}

impl Plan {
    /// All zero, with random steps and bv.
    pub fn new(r: &mut Random) -> Self {
        let mut trailer = [0; 12];
        trailer[1] = r.byte();
        trailer[2] = if r.one_in(4) { r.byte() } else { r.of(b"EAMHC@IeamhciG`") };
        let lsn = r.next() as u32 >> r.below(32);
        trailer[4..8].copy_from_slice(&lsn.to_le_bytes());
        Plan { number: number(r), data: vec![0; DATA], steps: std::array::from_fn(|_| step(r)), bv: r.byte(), trailer, off: 0 }
    }

    pub fn rows(&mut self, n: u8) {
        self.trailer[0] = n;
    }

    pub fn stored(&self) -> Vec<u8> {
        let mut page: Vec<u8> = (0..DATA)
            .map(|at| {
                let (s, i) = (at / 512, at % 512);
                let shift = offset(self.number, s).wrapping_add((i as u8).wrapping_mul(self.steps[s])).wrapping_add(self.bv);
                self.data[at].wrapping_add(shift)
            })
            .collect();
        page.extend(self.trailer);
        let crc = oracle::crc32(&page) ^ self.off;
        page.extend(crc.to_le_bytes());
        page
    }

    pub fn plain(&self) -> Vec<u8> {
        [&self.data[..], &self.trailer[..], &self.off.to_le_bytes()[..]].concat()
    }

    pub fn sector(&mut self, s: usize) -> &mut [u8] {
        &mut self.data[data_of(s)]
    }
}

/// Where a sector's data stand: of the last one's 512 bytes the trailer takes 16.
pub fn data_of(s: usize) -> Range<usize> {
    s * 512..(s * 512 + 512).min(DATA)
}

/// The offset of document 01.
pub fn offset(number: u64, sector: usize) -> u8 {
    (number as u8).wrapping_add(sector as u8).wrapping_sub(4 * ((number % 16) / 2) as u8)
}

fn number(r: &mut Random) -> u64 {
    match r.below(8) {
        0 => 0,
        1 => u64::MAX - r.below(40) as u64,
        2 => r.next(),
        3 => 1 << r.below(64),
        _ => r.below(600) as u64,
    }
}

fn step(r: &mut Random) -> u8 {
    if r.one_in(4) { r.of(&[0, 1, 2, 127, 128, 129, 254, 255]) } else { r.byte() }
}

/// What a sector's plaintext is filled with.
#[derive(Clone, Copy)]
pub enum Fill {
    Constant(u8),
    /// Zeros, and so many bytes of other values.
    Sparse(usize),
    Dense,
    /// As many equal bytes as make the step just confident, or just not.
    Near,
    /// Two steps or more reach the peak.
    Tied,
    /// So many zeros, or all but one; every second place may get them before the others do.
    Zeros(usize),
    Text,
}

pub fn fill(r: &mut Random, part: &mut [u8], how: Fill) {
    let n = part.len();
    match how {
        Fill::Constant(c) => part.fill(c),
        Fill::Sparse(k) => {
            part.fill(0);
            for _ in 0..k {
                part[r.below(n)] = r.byte();
            }
        }
        Fill::Dense => part.fill_with(|| r.byte()),
        Fill::Near => {
            part.fill_with(|| r.byte());
            // Zeros at even and at odd places: under step + 128 they part.
            let (even, odd) = if r.one_in(2) { (r.from_to(8, 16), r.from_to(8, 60)) } else { (r.from_to(8, 60), r.from_to(8, 16)) };
            let half = n / 2;
            for (count, first) in [(even, 0), (odd, 1)] {
                for _ in 0..count {
                    part[2 * r.below(half) + first] = 0;
                }
            }
        }
        Fill::Tied => {
            let d = r.byte();
            if r.one_in(2) {
                for (i, b) in part.iter_mut().enumerate() {
                    *b = if i < n / 2 { 0 } else { (i as u8).wrapping_mul(d) };
                }
            } else {
                let k = r.from_to(20, 200);
                part.fill_with(|| r.byte());
                for _ in 0..k {
                    part[2 * r.below(n / 2)] = 0;
                }
            }
        }
        Fill::Zeros(count) => {
            let (others, first, step) = (r.below(3), r.byte(), r.byte());
            for (rank, i) in in_turn(r, n).into_iter().enumerate() {
                part[i] = match others {
                    _ if rank < count.min(n - 1) => 0,
                    // Below 128, so that under the step 128 away it is none of them either.
                    0 => r.from_to(1, 127) as u8,
                    1 => first.wrapping_add((i as u8).wrapping_mul(step)),
                    _ => r.byte(),
                };
            }
        }
        Fill::Text => part.fill_with(|| if r.one_in(6) { b' ' } else { b'a' + r.below(26) as u8 }),
    }
}

/// The places of a sector from any on, most often the even ones or the odd ones first.
fn in_turn(r: &mut Random, n: usize) -> Vec<usize> {
    let mut places: Vec<usize> = (0..n).collect();
    places.rotate_left(r.below(n));
    if !r.one_in(3) {
        let first = r.below(2);
        places.sort_by_key(|i| (i + first) % 2);
    }
    places
}

/// Bytes i(i + 1)/2, in a sector of which all 256 steps tie.
pub fn triangular(length: usize) -> Vec<u8> {
    (0..length).map(|i| (i * (i + 1) / 2) as u8).collect()
}

/// A fill that is not exact, most often a confident one.
pub fn inexact(r: &mut Random) -> Fill {
    match r.below(12) {
        0 => Fill::Dense,
        1 => Fill::Near,
        2 => Fill::Tied,
        3 => Fill::Text,
        _ => Fill::Sparse(r.from_to(1, 300)),
    }
}

/// Slots that fall strictly from below `top`, the first of them live, with zeros between.
pub fn slots(r: &mut Random, n: usize, bottom: usize, top: usize) -> Vec<u16> {
    let mut out = Vec::new();
    let mut prev = top;
    for k in 0..n {
        if k > 0 && r.one_in(8) {
            out.push(0);
            continue;
        }
        let left = n - k;
        let room = prev.saturating_sub(bottom + left).max(1);
        let next = prev.saturating_sub(1 + r.below((2 * room / (left + 1)).max(1)));
        out.push(next.max(1) as u16);
        prev = next.max(1);
    }
    out
}

/// A count field, a gap of 4 or 6 to the array, and slots.
pub fn write_directory(r: &mut Random, data: &mut [u8], field: usize, gap: usize, count: u16, slots: &[u16]) {
    put(data, field, count);
    put(data, field + 2, if r.one_in(2) { 0 } else { r.byte() as u16 });
    if gap == 6 {
        put(data, field + 4, 0);
    }
    for (k, &s) in slots.iter().enumerate() {
        put(data, field + gap + 2 * k, s);
    }
}

pub fn put(data: &mut [u8], at: usize, value: u16) {
    for (k, b) in value.to_le_bytes().into_iter().enumerate() {
        if at + k < data.len() {
            data[at + k] = b;
        }
    }
}
