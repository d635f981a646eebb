//! The functions of include/lumeviqo.h, asked as C asks them. The answer is all of its bytes.
use lumeviqo::header as h;
use lumeviqo::sys;

use crate::lent::Buffer::{Read, Written};
use crate::lent::{BEFORE, Buffer, Fault, GUARD, Lent, Part, lend};
use crate::options::Options;
use crate::summary::Summary;

pub type Answer = Result<Vec<u8>, Fault>;

/// A T by which the page's row count is judged as by the original's, which is 4.
pub fn least_count(number: u64, stored: &[u8]) -> u8 {
    match stored.get(h::SHIFTED_LENGTH) {
        Some(&n) if n >= 4 => (number % (n as u64 + 1)) as u8,
        Some(&n) => n + 1 + (number % (255 - n as u64)) as u8,
        None => 4,
    }
}

/// A longer buffer is lent for the answer than it takes: what is behind it must stay.
fn asked<const N: usize>(length: usize, buffers: [Buffer<'_>; N], call: impl FnOnce([Part<'_>; N], *mut u8, usize) -> usize) -> Answer {
    let mut answer = Lent::new(&vec![BEFORE; length]);
    let at = answer.part().at;
    let written = lend(buffers, |parts| call(parts, at, length + GUARD))?;
    if written != length {
        return Err(format!("{written} is returned, and the layout has {length} bytes"));
    }
    answer.inside("the answer").map(<[u8]>::to_vec)
}

pub fn version() -> u32 {
    unsafe { sys::lumeviqo_version() }
}

pub fn crc32(bytes: &[u8]) -> Result<u32, Fault> {
    lend([Read("bytes", bytes)], |[b]| unsafe { sys::lumeviqo_crc32(b.at, b.length) })
}

pub fn trailer(page: &[u8]) -> Answer {
    asked(h::TRAILER_LENGTH, [Read("page", page)], |[p], a, n| unsafe { sys::lumeviqo_trailer(p.at, p.length, a, n) })
}

pub fn integrity(number: u64, stored: &[u8]) -> Answer {
    asked(h::INTEGRITY_LENGTH, [Read("stored", stored)], |[s], a, n| unsafe { sys::lumeviqo_integrity(number, s.at, s.length, a, n) })
}

pub fn superblock(stored: &[u8]) -> Answer {
    asked(h::SUPERBLOCK_LENGTH, [Read("stored", stored)], |[s], a, n| unsafe { sys::lumeviqo_superblock(s.at, s.length, a, n) })
}

pub fn superblock_checked(stored: &[u8]) -> Answer {
    asked(h::SUPERBLOCK_LENGTH, [Read("stored", stored)], |[s], a, n| unsafe { sys::lumeviqo_superblock_checked(s.at, s.length, a, n) })
}

pub fn scan(number: u64, stored: &[u8], shifted: &mut [u8]) -> Answer {
    asked(h::SCAN_LENGTH, [Read("stored", stored), Written("shifted", shifted)], |[s, m], a, n| unsafe {
        sys::lumeviqo_scan(number, s.at, s.length, m.at, m.length, a, n)
    })
}

pub fn replace(number: u64, stored: &mut [u8], summary: &mut Summary, sector: usize, new: &[u8]) -> Answer {
    let fits = summary.lent_fits();
    let buffers = [Written("stored", stored), Written("shifted", &mut summary.shifted), Read("fits", &fits), Read("new", new)];
    asked(h::REPLACEMENT_LENGTH, buffers, |[s, m, f, b], a, n| unsafe {
        sys::lumeviqo_replace(number, s.at, s.length, m.at, m.length, f.at, f.length, sector, b.at, b.length, a, n)
    })
}

pub fn decode(number: u64, stored: &[u8], anchors: &[u8], options: Options, out: &mut [u8]) -> Answer {
    let (t, Options { bits, limit }) = (least_count(number, stored), options);
    let buffers = [Read("stored", stored), Read("anchors", anchors), Written("out", out)];
    asked(h::DECODING_LENGTH, buffers, |[s, k, o], a, n| unsafe {
        sys::lumeviqo_decode(number, s.at, s.length, k.at, k.length, bits, t, limit, o.at, o.length, a, n)
    })
}

pub fn decode_summary(number: u64, stored: &[u8], summary: &Summary, anchors: &[u8], options: Options, out: &mut [u8]) -> Answer {
    let (t, fits, Options { bits, limit }) = (least_count(number, stored), summary.lent_fits(), options);
    let buffers =
        [Read("stored", stored), Read("fits", &fits), Read("shifted", &summary.shifted), Read("anchors", anchors), Written("out", out)];
    asked(h::DECODING_LENGTH, buffers, |[s, f, m, k, o], a, n| unsafe {
        sys::lumeviqo_decode_summary(
            number, s.at, s.length, f.at, f.length, m.at, m.length, k.at, k.length, bits, t, limit, o.at, o.length, a, n,
        )
    })
}

pub fn decode_supplied(number: u64, stored: &[u8], bv: u8, options: Options, out: &mut [u8]) -> Answer {
    let (t, Options { bits, limit }) = (least_count(number, stored), options);
    asked(h::DECODING_LENGTH, [Read("stored", stored), Written("out", out)], |[s, o], a, n| unsafe {
        sys::lumeviqo_decode_supplied(number, s.at, s.length, bv, bits, t, limit, o.at, o.length, a, n)
    })
}

pub fn decode_supplied_summary(number: u64, stored: &[u8], summary: &Summary, bv: u8, options: Options, out: &mut [u8]) -> Answer {
    let (t, fits, Options { bits, limit }) = (least_count(number, stored), summary.lent_fits(), options);
    let buffers = [Read("stored", stored), Read("fits", &fits), Read("shifted", &summary.shifted), Written("out", out)];
    asked(h::DECODING_LENGTH, buffers, |[s, f, m, o], a, n| unsafe {
        sys::lumeviqo_decode_supplied_summary(
            number, s.at, s.length, f.at, f.length, m.at, m.length, bv, bits, t, limit, o.at, o.length, a, n,
        )
    })
}

pub fn parse(number: u64, plain: &[u8], o: Options) -> Answer {
    asked(h::PARSE_LENGTH, [Read("plain", plain)], |[p], a, n| unsafe {
        sys::lumeviqo_parse(number, p.at, p.length, o.bits, o.limit, a, n)
    })
}

pub fn row_count(number: u64, plain: &[u8], o: Options) -> Answer {
    asked(h::ROW_COUNT_LENGTH, [Read("plain", plain)], |[p], a, n| unsafe {
        sys::lumeviqo_row_count(number, p.at, p.length, o.bits, o.limit, a, n)
    })
}

pub fn row(number: u64, plain: &[u8], o: Options, row: usize) -> Answer {
    asked(h::ROW_LENGTH, [Read("plain", plain)], |[p], a, n| unsafe {
        sys::lumeviqo_row(number, p.at, p.length, o.bits, o.limit, row, a, n)
    })
}

pub fn rows(number: u64, plain: &[u8], o: Options) -> Answer {
    asked(h::ROWS_LENGTH, [Read("plain", plain)], |[p], a, n| unsafe { sys::lumeviqo_rows(number, p.at, p.length, o.bits, o.limit, a, n) })
}
