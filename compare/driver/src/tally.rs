//! How often each kind of input, question, answer, search limit, source, confidence, evidence, warning, number of candidates, number of tied steps
//! and peak about 255 was met.
use std::collections::BTreeMap;
use std::fmt;

use oracle::plain::{Decoded, Fit, Parsed, Refusal, Warning};

use crate::kinds::{KINDS, PEAKS};
use crate::limits::{Class, NAMED, OUTSIDE, USUAL};
use crate::questions::Question;

type Counts<K> = BTreeMap<K, u64>;

/// What comes of a page's candidates. KEYSTREAM accepts every choice.
const CHOICES: [&str; 3] = ["accepted strictly", "refused strictly", "accepted leniently"];

/// How many steps reach a peak, and which peaks must be met: 511 bytes agree under one step alone.
const REACHED: [(&str, &[u16]); 2] = [("one step", &PEAKS), ("several steps", &[254, 255, 256, 257])];

#[derive(Default)]
pub struct Tally {
    pub pages: Counts<&'static str>,
    pub questions: Counts<Question>,
    pub answers: Counts<(Question, u8)>,
    /// Of the functions that take a limit, besides.
    pub by_limit: Counts<(Class, Question, u8)>,
    pub limits: Counts<usize>,
    pub sources: Counts<u8>,
    pub confidences: Counts<u8>,
    pub evidence: Counts<u8>,
    pub warnings: Counts<u8>,
    pub reasons: Counts<u8>,
    /// How many a page has, by CHOICES: one whose decodings come to a choice counts once strictly and once leniently.
    pub candidates: [Counts<u8>; CHOICES.len()],
    /// Of scanned sectors.
    pub tied: Counts<u16>,
    /// Those of PEAKS, by REACHED.
    pub peaks: [Counts<u16>; REACHED.len()],
}

impl Tally {
    pub fn asked(&mut self, question: Question) {
        *self.questions.entry(question).or_default() += 1;
    }

    pub fn answer(&mut self, question: Question, refusal: Option<&Refusal>) {
        *self.answers.entry((question, number(refusal))).or_default() += 1;
        if let Some(Refusal { number: 8, values, .. }) = refusal {
            *self.reasons.entry(values[1] as u8).or_default() += 1;
        }
    }

    pub fn answer_at(&mut self, limit: usize, question: Question, refusal: Option<&Refusal>) {
        self.answer(question, refusal);
        *self.by_limit.entry((Class::of(limit), question, number(refusal))).or_default() += 1;
        *self.limits.entry(limit).or_default() += 1;
    }

    pub fn scanned(&mut self, fits: &[Fit; 8]) {
        for fit in fits {
            *self.tied.entry(fit.tied).or_default() += 1;
            if PEAKS.contains(&fit.peak) {
                *self.peaks[(fit.tied > 1) as usize].entry(fit.peak).or_default() += 1;
            }
        }
    }

    /// An unallocated page has no candidates, and a bad CRC or trailer is refused before they are listed.
    pub fn choice(&mut self, lenient: bool, candidates: usize, answer: &Result<Decoded, Refusal>) {
        let choice = match answer {
            Ok(Decoded { bv: Some(_), .. }) if lenient => 2,
            Ok(Decoded { bv: Some(_), .. }) => 0,
            Err(Refusal { number: 5..=7, .. }) => 1,
            _ => return,
        };
        *self.candidates[choice].entry(candidates as u8).or_default() += 1;
    }

    pub fn decoding(&mut self, limit: usize, question: Question, answer: &Result<Decoded, Refusal>) {
        self.answer_at(limit, question, answer.as_ref().err());
        if let Ok(d) = answer {
            *self.sources.entry(d.source).or_default() += 1;
            *self.confidences.entry(d.confidence).or_default() += 1;
            for &(number, ..) in &d.evidence {
                *self.evidence.entry(number).or_default() += 1;
            }
            self.warned(&d.warnings);
        }
    }

    /// The parse, the number of rows and the list of them are refused for the same.
    pub fn parsed(&mut self, limit: usize, answer: &Result<Parsed, Refusal>) {
        for question in [Question::Parse, Question::RowCount, Question::Rows] {
            self.answer_at(limit, question, answer.as_ref().err());
        }
        if let Ok(p) = answer {
            self.warned(&p.warnings);
        }
    }

    fn warned(&mut self, warnings: &[Warning]) {
        for w in warnings {
            *self.warnings.entry(w.number).or_default() += 1;
        }
    }

    pub fn join(&mut self, other: Tally) {
        join(&mut self.pages, other.pages);
        join(&mut self.questions, other.questions);
        join(&mut self.answers, other.answers);
        join(&mut self.by_limit, other.by_limit);
        join(&mut self.limits, other.limits);
        join(&mut self.sources, other.sources);
        join(&mut self.confidences, other.confidences);
        join(&mut self.evidence, other.evidence);
        join(&mut self.warnings, other.warnings);
        join(&mut self.reasons, other.reasons);
        self.candidates.iter_mut().zip(other.candidates).for_each(|(a, b)| join(a, b));
        join(&mut self.tied, other.tied);
        self.peaks.iter_mut().zip(other.peaks).for_each(|(a, b)| join(a, b));
    }

    /// What a full run must reach and this one did not.
    pub fn missing(&self) -> Vec<String> {
        let mut out: Vec<String> = KINDS.iter().filter(|k| !self.pages.contains_key(k.0)).map(|k| format!("kind \"{}\"", k.0)).collect();
        for question in Question::ALL {
            if !self.questions.contains_key(question) {
                out.push(format!("question \"{question}\""));
            }
            let missing = question.answers().iter().filter(|&&n| !self.answers.contains_key(&(*question, n)));
            out.extend(missing.map(|n| format!("answer {n} to \"{question}\"")));
        }
        out.extend(self.missing_by_limit());
        let mut want = |what: &str, met: &Counts<u8>, numbers: std::ops::RangeInclusive<u8>| {
            out.extend(numbers.filter(|n| !met.contains_key(n)).map(|n| format!("{what} {n}")));
        };
        want("reason", &self.reasons, 1..=3);
        want("source", &self.sources, 1..=6);
        want("confidence", &self.confidences, 1..=5);
        want("evidence", &self.evidence, 1..=5);
        want("warning", &self.warnings, 3..=12);
        CHOICES.iter().zip(&self.candidates).for_each(|(choice, met)| want(&format!("candidates of pages {choice}:"), met, 7..=8));
        out.extend([1, 2, 256].iter().filter(|n| !self.tied.contains_key(n)).map(|n| format!("{n} tied steps")));
        for ((reached, peaks), met) in REACHED.iter().zip(&self.peaks) {
            out.extend(peaks.iter().filter(|n| !met.contains_key(n)).map(|n| format!("peak {n} of {reached}")));
        }
        out
    }

    /// Each limit that has a name, and each answer of the eight functions that take one, at limits of each class.
    fn missing_by_limit(&self) -> Vec<String> {
        let limits = NAMED.iter().chain(&OUTSIDE).filter(|limit| !self.limits.contains_key(limit));
        let mut out: Vec<String> = limits.map(|limit| format!("limit {limit}")).collect();
        for &question in Question::ALL.iter().filter(|q| q.takes_limit()) {
            for class in Class::ALL {
                let wanted = question.answers().iter().filter(|&&n| class.must_reach(n));
                let missing = wanted.filter(|&&n| !self.by_limit.contains_key(&(class, question, n)));
                out.extend(missing.map(|n| format!("answer {n} to \"{question}\" at {class}")));
            }
        }
        out
    }

    /// Over all questions.
    fn all_answers(&self) -> Counts<u8> {
        sums(self.answers.iter().map(|(&(_, number), &n)| (number, n)))
    }

    fn answers_at(&self, class: Class) -> Counts<u8> {
        sums(self.by_limit.iter().filter(|(k, _)| k.0 == class).map(|(&(_, _, number), &n)| (number, n)))
    }

    /// Of those that have a name each, then of all others.
    fn limit_counts(&self) -> Vec<String> {
        let named: Vec<usize> = [USUAL].into_iter().chain(NAMED).chain(OUTSIDE).collect();
        let others = self.limits.iter().filter(|(limit, _)| !named.contains(limit)).map(|(_, n)| n).sum::<u64>();
        let count = |limit: &usize| format!("{limit}: {}", self.limits.get(limit).copied().unwrap_or(0));
        named.iter().map(count).chain([format!("others: {others}")]).collect()
    }
}

fn number(refusal: Option<&Refusal>) -> u8 {
    refusal.map_or(0, |r| r.number)
}

fn sums<K: Ord>(counts: impl Iterator<Item = (K, u64)>) -> Counts<K> {
    let mut all = Counts::new();
    for (k, n) in counts {
        *all.entry(k).or_default() += n;
    }
    all
}

fn join<K: Ord>(a: &mut Counts<K>, b: Counts<K>) {
    for (k, n) in b {
        *a.entry(k).or_default() += n;
    }
}

impl fmt::Display for Tally {
    fn fmt(&self, f: &mut fmt::Formatter<'_>) -> fmt::Result {
        writeln!(f, "pages")?;
        for (kind, n) in &self.pages {
            writeln!(f, "  {n:9}  {kind}")?;
        }
        writeln!(f, "compared")?;
        for (question, n) in &self.questions {
            let met: Vec<String> = self.answers.keys().filter(|a| a.0 == *question).map(|a| a.1.to_string()).collect();
            let met = if met.is_empty() { String::new() } else { format!(", answers {}", met.join(" ")) };
            writeln!(f, "  {n:9}  {question}{met}")?;
        }
        writeln!(f, "answers\n  {}", list(&self.all_answers()))?;
        for class in Class::ALL {
            writeln!(f, "answers at {class}\n  {}", list(&self.answers_at(class)))?;
        }
        writeln!(f, "limits\n  {}", self.limit_counts().join(", "))?;
        let tables = [("reasons of 8", &self.reasons), ("sources", &self.sources), ("confidences", &self.confidences)];
        for (what, table) in tables.into_iter().chain([("evidence", &self.evidence), ("warnings", &self.warnings)]) {
            writeln!(f, "{what}\n  {}", list(table))?;
        }
        for (choice, met) in CHOICES.iter().zip(&self.candidates) {
            writeln!(f, "candidates of pages {choice}\n  {}", list(met))?;
        }
        for ((reached, _), met) in REACHED.iter().zip(&self.peaks) {
            writeln!(f, "peaks of {reached}\n  {}", list(met))?;
        }
        writeln!(f, "tied steps\n  {}", list(&self.tied))
    }
}

fn list<K: fmt::Display>(counts: &Counts<K>) -> String {
    counts.iter().map(|(k, n)| format!("{k}: {n}")).collect::<Vec<_>>().join(", ")
}
