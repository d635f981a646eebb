//! The C functions as they are timed: with nothing around a call, and into buffers that are there already.
use lumeviqo::header as h;
use lumeviqo::{Leniency, PAGE, SHIFTED, sys};

use crate::bench_pages::{BITS, OPTIONS, Pages};

type In = *const u8;
type Out = *mut u8;

/// Functions of a library.
pub struct Library {
    pub scan: unsafe extern "C" fn(u64, In, usize, Out, usize, Out, usize) -> usize,
    pub decode: unsafe extern "C" fn(u64, In, usize, In, usize, u8, u8, usize, Out, usize, Out, usize) -> usize,
    pub decode_summary:
        unsafe extern "C" fn(u64, In, usize, In, usize, In, usize, In, usize, u8, u8, usize, Out, usize, Out, usize) -> usize,
    pub parse: unsafe extern "C" fn(u64, In, usize, u8, usize, Out, usize) -> usize,
}

/// The one that the binding is linked with.
pub const LINKED: Library = Library {
    scan: sys::lumeviqo_scan,
    decode: sys::lumeviqo_decode,
    decode_summary: sys::lumeviqo_decode_summary,
    parse: sys::lumeviqo_parse,
};

/// What a call writes to: shifted bytes or a plain page, and the longest answer.
#[derive(Clone, PartialEq)]
pub struct Lent {
    pub bytes: [u8; PAGE],
    pub answer: [u8; h::PARSE_LENGTH],
}

impl Lent {
    pub fn new() -> Self {
        Lent { bytes: [0xA5; PAGE], answer: [0xA5; h::PARSE_LENGTH] }
    }
}

impl Default for Lent {
    fn default() -> Self {
        Lent::new()
    }
}

/// A page with its summary.
pub struct Case<'a> {
    pub number: u64,
    pub stored: &'a [u8],
    pub plain: &'a [u8],
    pub bv: u8,
    pub fits: Vec<u8>,
    pub shifted: Vec<u8>,
}

impl<'a> Case<'a> {
    pub fn new(pages: &'a Pages, k: usize) -> Self {
        let (stored, plain, bv) = (&pages.stored[k], &pages.plain[k], pages.bv(k));
        assert!(stored.len() == PAGE && plain.len() == PAGE);
        let mut case = Case { number: k as u64, stored, plain, bv, fits: Vec::new(), shifted: Vec::new() };
        let mut lent = Lent::new();
        scan(&LINKED, &case, &mut lent);
        case.fits = lent.answer[h::SCAN_FITS..h::SCAN_LENGTH].to_vec();
        case.shifted = lent.bytes[..SHIFTED].to_vec();
        case
    }
}

/// How many bytes of the answer the library says it has written.
pub type Ask = fn(&Library, &Case<'_>, &mut Lent) -> usize;

pub fn scan(library: &Library, c: &Case<'_>, lent: &mut Lent) -> usize {
    let (shifted, answer) = (lent.bytes.as_mut_ptr(), lent.answer.as_mut_ptr());
    unsafe { (library.scan)(c.number, c.stored.as_ptr(), PAGE, shifted, SHIFTED, answer, h::SCAN_LENGTH) }
}

pub fn decode(library: &Library, c: &Case<'_>, lent: &mut Lent) -> usize {
    let (stored, anchors, t, limit) = (c.stored.as_ptr(), [].as_ptr(), OPTIONS.min_trailer_count, OPTIONS.search_limit);
    let (out, answer) = (lent.bytes.as_mut_ptr(), lent.answer.as_mut_ptr());
    unsafe { (library.decode)(c.number, stored, PAGE, anchors, 0, BITS, t, limit, out, PAGE, answer, h::DECODING_LENGTH) }
}

pub fn decode_summary(library: &Library, c: &Case<'_>, lent: &mut Lent) -> usize {
    let (stored, fits, shifted) = (c.stored.as_ptr(), c.fits.as_ptr(), c.shifted.as_ptr());
    let (anchors, t, limit) = ([].as_ptr(), OPTIONS.min_trailer_count, OPTIONS.search_limit);
    let (out, answer, n) = (lent.bytes.as_mut_ptr(), lent.answer.as_mut_ptr(), h::DECODING_LENGTH);
    let (f, s) = (h::FITS_LENGTH, SHIFTED);
    unsafe { (library.decode_summary)(c.number, stored, PAGE, fits, f, shifted, s, anchors, 0, BITS, t, limit, out, PAGE, answer, n) }
}

pub fn parse(library: &Library, c: &Case<'_>, lent: &mut Lent) -> usize {
    let (bits, limit, answer) = (Leniency::DIRECTORY.0, OPTIONS.search_limit, lent.answer.as_mut_ptr());
    unsafe { (library.parse)(c.number, c.plain.as_ptr(), PAGE, bits, limit, answer, h::PARSE_LENGTH) }
}
