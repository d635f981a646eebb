//! What a survey counts.
use std::collections::{BTreeMap, BTreeSet};

use lumeviqo::{Source as BvSource, Trailer};
use serde_json::{Map as Object, Value, json};

use crate::outcome::Outcome;
use crate::reading::{Accepted, Answer, PageReading};
use crate::source::BLOCK;

pub type Counts = BTreeMap<String, u64>;

#[derive(Default)]
pub struct Tally {
    outcomes: [u64; Outcome::COUNT],
    /// By number. Unallocated pages, which may be millions, are in none of these: `outcomes` has them.
    answers: BTreeMap<usize, u64>,
    sources: Counts,
    confidences: Counts,
    pub types: Counts,
    pub rows: u64,
    pub pages_with_rows: u64,
    /// Why a page that was read has no directory, by the answer's number.
    pub row_answers: BTreeMap<usize, u64>,
    /// How many of these have a good CRC.
    pub unconfirmed_directories: u64,
    /// Pages that were accepted with a warning.
    pub warnings: u64,
    pub unread_sectors: u64,
    /// Blocks in which two pages or more say their bv by themselves, and of those the ones that say more than one.
    pub blocks: u64,
    pub divided_blocks: u64,
    /// The page that the file ends inside of, and how many bytes it has.
    pub cut_short: Option<(u64, usize)>,
}

impl Tally {
    pub fn of(readings: &[PageReading]) -> Tally {
        let mut tally = Tally::default();
        readings.iter().for_each(|page| tally.note(page));
        readings.chunk_by(|a, b| a.number / BLOCK == b.number / BLOCK).for_each(|block| tally.note_block(block));
        tally
    }

    pub fn count(&self, outcome: Outcome) -> u64 {
        self.outcomes[outcome as usize]
    }

    pub fn pages(&self) -> u64 {
        self.outcomes.iter().sum()
    }

    pub fn refused(&self) -> u64 {
        Outcome::ALL.iter().filter(|outcome| !outcome.is_read()).map(|outcome| self.count(*outcome)).sum()
    }

    pub fn answers(&self) -> BTreeMap<usize, u64> {
        let mut answers = self.answers.clone();
        add(&mut answers, lumeviqo::header::ACCEPTED, self.count(Outcome::Unallocated));
        answers
    }

    pub fn sources(&self) -> Counts {
        self.with_unallocated(&self.sources)
    }

    pub fn confidences(&self) -> Counts {
        self.with_unallocated(&self.confidences)
    }

    fn with_unallocated(&self, counts: &Counts) -> Counts {
        let mut counts = counts.clone();
        add(&mut counts, Outcome::Unallocated.to_string(), self.count(Outcome::Unallocated));
        counts
    }

    pub fn merge(&mut self, other: Tally) {
        self.outcomes.iter_mut().zip(other.outcomes).for_each(|(sum, n)| *sum += n);
        other.answers.into_iter().for_each(|(key, n)| add(&mut self.answers, key, n));
        other.sources.into_iter().for_each(|(key, n)| add(&mut self.sources, key, n));
        other.confidences.into_iter().for_each(|(key, n)| add(&mut self.confidences, key, n));
        other.types.into_iter().for_each(|(key, n)| add(&mut self.types, key, n));
        other.row_answers.into_iter().for_each(|(key, n)| add(&mut self.row_answers, key, n));
        self.rows += other.rows;
        self.pages_with_rows += other.pages_with_rows;
        self.unconfirmed_directories += other.unconfirmed_directories;
        self.warnings += other.warnings;
        self.unread_sectors += other.unread_sectors;
        self.blocks += other.blocks;
        self.divided_blocks += other.divided_blocks;
        self.cut_short = self.cut_short.or(other.cut_short);
    }

    fn note(&mut self, page: &PageReading) {
        self.outcomes[page.outcome as usize] += 1;
        self.unread_sectors += u64::from(page.unread.count_ones());
        if page.outcome == Outcome::Unallocated {
            return;
        }
        if let Some(number) = page.answer.number() {
            add(&mut self.answers, number, 1);
        }
        if let Some(trailer) = &page.trailer {
            add(&mut self.types, type_name(trailer), 1);
        }
        match &page.answer {
            Answer::Accepted(accepted) => {
                self.note_accepted(accepted);
                self.unconfirmed_directories += u64::from(page.trailer.is_some() && accepted.row_count.is_err());
            }
            Answer::CutShort(length) => self.cut_short = Some((page.number, *length)),
            _ => {}
        }
    }

    fn note_accepted(&mut self, accepted: &Accepted) {
        let decoding = &accepted.decoding;
        add(&mut self.sources, decoding.source.to_string(), 1);
        add(&mut self.confidences, decoding.confidence.to_string(), 1);
        self.warnings += u64::from(!decoding.warnings.is_empty());
        match &accepted.row_count {
            Ok(rows) => {
                self.rows += *rows as u64;
                self.pages_with_rows += u64::from(*rows > 0);
            }
            Err(refusal) => add(&mut self.row_answers, refusal.number(), 1),
        }
    }

    /// Anchors play no part in these: such a page confirms its bv by itself.
    fn note_block(&mut self, block: &[PageReading]) {
        let bvs: Vec<u8> = block.iter().filter_map(own_bv).collect();
        let distinct: BTreeSet<u8> = bvs.iter().copied().collect();
        self.blocks += u64::from(bvs.len() > 1);
        self.divided_blocks += u64::from(distinct.len() > 1);
    }

    pub fn json(&self) -> Object<String, Value> {
        let outcomes: Object<String, Value> =
            Outcome::ALL.iter().map(|outcome| (outcome.to_string(), self.count(*outcome).into())).collect();
        let value = json!({
            "outcomes": outcomes,
            "answers": keyed(&self.answers()),
            "sources": self.sources(),
            "confidences": self.confidences(),
            "types": self.types,
            "rows": self.rows,
            "pages_with_rows": self.pages_with_rows,
            "row_answers": keyed(&self.row_answers),
            "pages_with_warnings": self.warnings,
            "unread_sectors": self.unread_sectors,
            "blocks_with_bv": self.blocks,
            "blocks_divided_in_bv": self.divided_blocks,
        });
        match value {
            Value::Object(object) => object,
            _ => Object::new(),
        }
    }
}

fn add<K: Ord>(counts: &mut BTreeMap<K, u64>, key: K, number: u64) {
    if number > 0 {
        *counts.entry(key).or_insert(0) += number;
    }
}

fn keyed(counts: &BTreeMap<usize, u64>) -> Counts {
    counts.iter().map(|(number, count)| (number.to_string(), *count)).collect()
}

fn own_bv(page: &PageReading) -> Option<u8> {
    match &page.answer {
        Answer::Accepted(accepted) => {
            let decoding = &accepted.decoding;
            decoding.bv.filter(|_| matches!(decoding.source, BvSource::TrailerRowCount | BvSource::ExactSectors))
        }
        _ => None,
    }
}

/// The type's name; a lower case letter is a type of its own to whoever counts.
pub fn type_name(trailer: &Trailer) -> String {
    let variant = if trailer.case_variant { " (lower case)" } else { "" };
    format!("{}{variant}", trailer.page_type)
}
