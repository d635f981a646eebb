//! The functions of bindings/rust, asked as Rust asks them. The answer is plain data.
use lumeviqo::{Decoding, Leniency};
use oracle::plain::{Decoded, Fit, Parsed, Refusal, Row, Superblock, Trailer};

use crate::lent::Buffer::{Read, Written};
use crate::lent::{Fault, lend};
use crate::limits::USUAL;
use crate::options::Options;
use crate::summary::Summary;
use crate::told;

pub type Answer<A> = Result<Result<A, Refusal>, Fault>;

/// By the names that the binding has for them. Other bits mean nothing.
fn leniency(bits: u8) -> Leniency {
    let named = [(1, Leniency::KEYSTREAM), (2, Leniency::DIRECTORY), (4, Leniency::INTEGRITY)];
    let nameless = Leniency::STRICT | Leniency(bits & !7);
    named.into_iter().filter(|(bit, _)| bits & bit != 0).fold(nameless, |all, (_, one)| all | one)
}

/// What is asked for as usual comes from the binding's default.
fn typed(asked: Options) -> lumeviqo::Options {
    let usual = lumeviqo::Options::default();
    let leniency = if asked.bits == 0 { usual.leniency } else { leniency(asked.bits) };
    let search_limit = if asked.limit == USUAL { usual.search_limit } else { asked.limit };
    lumeviqo::Options { leniency, search_limit, ..usual }
}

pub fn crc32(bytes: &[u8]) -> Result<u32, Fault> {
    lend([Read("bytes", bytes)], |[b]| lumeviqo::crc32(b.bytes()))
}

pub fn trailer(page: &[u8]) -> Answer<Trailer> {
    lend([Read("page", page)], |[p]| lumeviqo::trailer(p.bytes()).map(told::trailer).map_err(told::refusal))
}

pub fn integrity(number: u64, stored: &[u8]) -> Answer<()> {
    lend([Read("stored", stored)], |[s]| lumeviqo::integrity(number, s.bytes()).map_err(told::refusal))
}

pub fn superblock(stored: &[u8]) -> Answer<Superblock> {
    lend([Read("stored", stored)], |[s]| lumeviqo::superblock(s.bytes()).map(told::superblock).map_err(told::refusal))
}

pub fn superblock_checked(stored: &[u8]) -> Answer<Superblock> {
    lend([Read("stored", stored)], |[s]| lumeviqo::superblock_checked(s.bytes()).map(told::superblock).map_err(told::refusal))
}

pub fn scan(number: u64, stored: &[u8], shifted: &mut [u8]) -> Answer<[Fit; 8]> {
    let buffers = [Read("stored", stored), Written("shifted", shifted)];
    lend(buffers, |[s, mut m]| lumeviqo::scan(number, s.bytes(), m.bytes_mut()).map(told::fits).map_err(told::refusal))
}

pub fn replace(number: u64, stored: &mut [u8], summary: &mut Summary, sector: usize, new: &[u8]) -> Answer<[Fit; 8]> {
    let fits = summary.typed_fits();
    lend([Written("stored", stored), Written("shifted", &mut summary.shifted), Read("new", new)], |[mut s, mut m, b]| {
        let answer = lumeviqo::replace(number, s.bytes_mut(), m.bytes_mut(), &fits, sector, b.bytes());
        answer.map(told::fits).map_err(told::refusal)
    })
}

fn decoded(answer: Result<Decoding, lumeviqo::Refusal>, out: &[u8]) -> Result<Decoded, Refusal> {
    answer.map(|d| told::decoded(d, out)).map_err(told::refusal)
}

pub fn decode(number: u64, stored: &[u8], anchors: &[u8], options: Options, out: &mut [u8]) -> Answer<Decoded> {
    lend([Read("stored", stored), Read("anchors", anchors), Written("out", out)], |[s, k, mut o]| {
        decoded(lumeviqo::decode(number, s.bytes(), k.bytes(), typed(options), o.bytes_mut()), o.bytes())
    })
}

pub fn decode_summary(number: u64, stored: &[u8], summary: &Summary, anchors: &[u8], options: Options, out: &mut [u8]) -> Answer<Decoded> {
    let fits = summary.typed_fits();
    let buffers = [Read("stored", stored), Read("shifted", &summary.shifted), Read("anchors", anchors), Written("out", out)];
    lend(buffers, |[s, m, k, mut o]| {
        let answer = lumeviqo::decode_summary(number, s.bytes(), &fits, m.bytes(), k.bytes(), typed(options), o.bytes_mut());
        decoded(answer, o.bytes())
    })
}

pub fn decode_supplied(number: u64, stored: &[u8], bv: u8, options: Options, out: &mut [u8]) -> Answer<Decoded> {
    lend([Read("stored", stored), Written("out", out)], |[s, mut o]| {
        decoded(lumeviqo::decode_supplied(number, s.bytes(), bv, typed(options), o.bytes_mut()), o.bytes())
    })
}

pub fn decode_supplied_summary(number: u64, stored: &[u8], summary: &Summary, bv: u8, options: Options, out: &mut [u8]) -> Answer<Decoded> {
    let fits = summary.typed_fits();
    lend([Read("stored", stored), Read("shifted", &summary.shifted), Written("out", out)], |[s, m, mut o]| {
        let answer = lumeviqo::decode_supplied_summary(number, s.bytes(), &fits, m.bytes(), bv, typed(options), o.bytes_mut());
        decoded(answer, o.bytes())
    })
}

/// The parse and all rows, which are two calls; what refuses one refuses both.
pub fn parse_and_rows(number: u64, plain: &[u8], options: Options) -> Answer<Parsed> {
    lend([Read("plain", plain)], |[p]| {
        let parsed = lumeviqo::parse(number, p.bytes(), typed(options));
        let rows = lumeviqo::rows(number, p.bytes(), typed(options));
        assert_eq!(parsed.as_ref().err(), rows.as_ref().err(), "the parse and the rows of one page");
        parsed.and_then(|p| rows.map(|rows| told::parsed(p, &rows))).map_err(told::refusal)
    })
}

pub fn row_count(number: u64, plain: &[u8], options: Options) -> Answer<usize> {
    lend([Read("plain", plain)], |[p]| lumeviqo::row_count(number, p.bytes(), typed(options)).map_err(told::refusal))
}

pub fn row(number: u64, plain: &[u8], options: Options, row: usize) -> Answer<Row> {
    lend([Read("plain", plain)], |[p]| lumeviqo::row(number, p.bytes(), typed(options), row).map(told::row).map_err(told::refusal))
}
