//! The pages that are timed, eight of a kind, stored and plain.
use lumeviqo::{Leniency, Options};
use oracle::timed;

use crate::checks::{Difference, compare};
use crate::kinds::Case;
use crate::limits::{GREATEST, USUAL};
use crate::plan::{DATA, Plan, data_of, put};
use crate::random::Random;
use crate::tally::Tally;

pub const COUNT: usize = 8;
/// KEYSTREAM: pages without rows and exact sectors are decoded to their end.
pub const BITS: u8 = 1;
pub const OPTIONS: Options = Options { leniency: Leniency(BITS), min_trailer_count: 4, search_limit: USUAL };

pub struct Pages {
    pub name: &'static str,
    plans: Vec<Plan>,
    pub stored: Vec<Vec<u8>>,
    pub plain: Vec<Vec<u8>>,
}

impl Pages {
    fn new(name: &'static str, mut make: impl FnMut(&mut Random, &mut Plan)) -> Self {
        let mut r = Random::new(7, 1);
        let plans: Vec<Plan> = (0..COUNT as u64)
            .map(|number| {
                let steps = std::array::from_fn(|_| r.byte());
                let mut plan = Plan { number, data: vec![0; DATA], steps, bv: r.byte(), trailer: [0; 12], off: 0 };
                make(&mut r, &mut plan);
                plan
            })
            .collect();
        Pages { name, stored: plans.iter().map(Plan::stored).collect(), plain: plans.iter().map(Plan::plain).collect(), plans }
    }

    pub fn bv(&self, k: usize) -> u8 {
        self.plans[k].bv
    }

    /// What sector k of page k is replaced by: that of the next page, the last with its trailer.
    pub fn replacement(&self, k: usize) -> &[u8] {
        &self.stored[(k + 1) % COUNT][k * 512..][..512]
    }

    /// Whether both sides answer every question about them alike, with the bits and at the limits that are timed; if not, where they differ.
    pub fn check(&self) -> Result<(), String> {
        for k in 0..COUNT {
            for bits in [BITS, 0] {
                let differ = |d: Difference| format!("{} pages differ at: {}\n{}", self.name, d.question, d.detail);
                compare(&self.case(k, bits), &mut Tally::default()).map_err(differ)?;
            }
            if !self.same_crc(k) {
                return Err(format!("{} pages differ at the CRC of 4,092 bytes", self.name));
            }
        }
        Ok(())
    }

    /// `compare` takes the CRC of other bytes.
    fn same_crc(&self, k: usize) -> bool {
        let [reader, fast, table] = [lumeviqo::crc32, timed::crc32_pclmulqdq, timed::crc32_baseline].map(|f| f(&self.stored[k][..4092]));
        reader == fast && reader == table
    }

    fn case(&self, k: usize, bits: u8) -> Case {
        Case {
            kind: self.name,
            number: k as u64,
            page: self.stored[k].clone(),
            bits,
            anchors: Vec::new(),
            bv: self.bv(k),
            plain: Some(self.plain[k].clone()),
            replacements: vec![(k, self.replacement(k).to_vec())],
            limit: GREATEST,
            outside: GREATEST + 1,
        }
    }
}

/// Progressions, with noise of so many bytes in 256.
pub fn progressions() -> [Pages; 3] {
    [("exact", 0), ("dense", 256), ("mixed", 96)]
        .map(|(name, noise)| counted(name, |r, plan| plan.data.fill_with(|| if r.below(256) < noise { r.byte() } else { 0 })))
}

/// Exact but for the last data byte of each sector: all of a sector is looked at before that shows.
pub fn near() -> Pages {
    counted("near", |r, plan| (0..8).for_each(|s| plan.data[data_of(s).end - 1] = r.from_to(1, 255) as u8))
}

/// The bytes at even places of a sector lie on a line, the others are random: under the line's step, and the one 128 away, half of them agree.
pub fn half() -> Pages {
    counted("half", |r, plan| plan.data.iter_mut().skip(1).step_by(2).for_each(|byte| *byte = r.byte()))
}

/// Extent pages with a row count below 60.
fn counted(name: &'static str, fill: impl Fn(&mut Random, &mut Plan)) -> Pages {
    Pages::new(name, |r, plan| {
        fill(r, plan);
        plan.rows(r.below(60) as u8);
        plan.trailer[2] = b'E';
    })
}

/// Pages with so many rows behind a prelude, random bytes around them.
pub fn tables() -> [Pages; 3] {
    [("0 rows", 0), ("50 rows", 50), ("200 rows", 200)].map(|(name, rows)| {
        Pages::new(name, |r, plan| {
            plan.data = r.bytes(DATA);
            put(&mut plan.data, 0x40, rows as u16);
            (0..rows).for_each(|k| put(&mut plan.data, 0x44 + 2 * k, (0xFE0 - k * 2800 / rows) as u16));
            put(&mut plan.data, 0x44 + 2 * rows, 0xFFFF);
            plan.rows(rows as u8);
        })
    })
}

/// The most slots that the usual limit leaves room for, and the greatest one; each is below the one before, and there is no prelude.
pub fn falling() -> [Pages; 2] {
    [("384 falling slots", 384, 8), ("1,024 falling slots", 1_024, 1)].map(|(name, slots, fall)| {
        Pages::new(name, |_, plan| (0..slots).for_each(|k| put(&mut plan.data, 2 * k, (0xFE0 - fall * k) as u16)))
    })
}

pub fn random() -> Pages {
    Pages::new("random", |r, plan| {
        plan.data = r.bytes(DATA);
        plan.trailer.fill_with(|| r.byte());
    })
}

pub fn zero() -> Pages {
    Pages::new("all zero", |_, _| {})
}
