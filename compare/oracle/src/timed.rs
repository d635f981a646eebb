//! The original's functions, called as they are: what is timed. Nothing is read off an answer; it is dropped as its caller would drop it.
use std::collections::BTreeSet;
use std::hint::black_box;

use crc32fast::Hasher;

use crate::answers::{confidence, options, refusal, source};
use crate::ap::ApModel;
use crate::ap::reached::{Scanned, deobfuscate};
use crate::page::Page;
use crate::slotted::SlottedPage;
use crate::{limit, limited};

/// crc32fast as it is where the processor has PCLMULQDQ.
pub fn crc32_pclmulqdq(bytes: &[u8]) -> u32 {
    finished(Hasher::internal_new_specialized(0, 0).expect("the processor has PCLMULQDQ"), bytes)
}

/// crc32fast as it is elsewhere: by a table.
pub fn crc32_baseline(bytes: &[u8]) -> u32 {
    finished(Hasher::internal_new_baseline(0, 0), bytes)
}

fn finished(mut hasher: Hasher, bytes: &[u8]) -> u32 {
    hasher.update(bytes);
    hasher.finalize()
}

pub fn scan(number: u64, bytes: &[u8]) {
    black_box(Scanned::new(page(number, bytes)));
}

pub fn decode(number: u64, bytes: &[u8], bits: u8) {
    drop(black_box(deobfuscate(page(number, bytes), &BTreeSet::new(), &options(bits))));
}

pub fn decode_supplied(number: u64, bytes: &[u8], bv: u8, bits: u8) {
    drop(black_box(ApModel::deobfuscate_with_bv(page(number, bytes), bv, &options(bits))));
}

pub fn parse(number: u64, plain: &[u8], bits: u8) {
    drop(black_box(SlottedPage::parse(page(number, plain), &options(bits))));
}

/// All rows: the parse, and the list of them.
pub fn rows(number: u64, plain: &[u8], bits: u8) {
    drop(black_box(SlottedPage::parse(page(number, plain), &options(bits)).map(|p| p.rows())));
}

/// A parse by the second copy.
pub fn parse_at(limit: usize, number: u64, plain: &[u8], bits: u8) {
    limit::set(limit);
    let page = limited::page::Page::from_bytes(number, plain).expect("its length is a page's");
    drop(black_box(limited::slotted::SlottedPage::parse(page, &limited::answers::options(bits))));
}

/// The bytes of a report line, but for those of tied steps, which the original does not count.
pub fn report(number: u64, bytes: &[u8], anchors: &[u8], bits: u8) -> Vec<u8> {
    let anchors = anchors.iter().copied().collect();
    let answer = deobfuscate(page(number, bytes), &anchors, &options(bits)).map_err(refusal);
    let mut out = vec![answer.as_ref().map_or_else(|r| r.number, |_| 0)];
    out.extend(number.to_be_bytes());
    if let Ok(d) = answer {
        out.extend([source(d.bv_source()), confidence(d.confidence()), d.bv().unwrap_or(0)]);
        for f in d.sectors() {
            out.push(f.step());
            out.extend((f.peak() as u16).to_be_bytes());
            out.extend((f.runner_up() as u16).to_be_bytes());
            out.push(f.exact() as u8);
        }
        out.push(d.warnings().len() as u8);
    }
    out
}

fn page(number: u64, bytes: &[u8]) -> Page<'_> {
    Page::from_bytes(number, bytes).expect("its length is a page's")
}
