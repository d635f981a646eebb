//! cost [ROUNDS]: what a page costs part by part, by the C functions that give one part each, and beside that the least that any reader could
//! take: one look at the page's bytes, one write of them, one CRC. Processor time of the thread, medians over the rounds.
use std::cell::RefCell;
use std::hint::black_box;
use std::mem::MaybeUninit;

use compare::bench_pages::{BITS, COUNT, OPTIONS, progressions, zero};
use compare::calls::{self, Ask, Case, LINKED, Lent, Library};
use compare::timing::{Group, short, time};
use lumeviqo::header as h;
use lumeviqo::{PAGE, SHIFTED, sys};
use oracle::timed;

/// Pages in memory: a gigabyte, so that no cache has them.
const MANY: usize = 1 << 18;
/// A pass over those takes a second, so they are timed in one round of so many.
const EVERY: usize = 10;

const PARTS: [(&str, Ask); 7] = [
    ("CRC of 4,092 bytes", crc),
    ("integrity: zero test, CRC, reserved bytes", integrity),
    ("scan", calls::scan),
    ("plaintext under a supplied bv, page scanned before", supplied),
    ("decoding of a page scanned before", calls::decode_summary),
    ("decoding", calls::decode),
    ("parse of the plain page, DIRECTORY", calls::parse),
];

/// What is done with a page of this number; the last bytes may be written to.
type Work = fn(u64, &[u8], &mut [u8]);

/// What no reader can do without, and what this one does.
const LEAST: [(&str, Work); 4] = [
    ("one look at 4,096 bytes", |_, page, _| _ = black_box(look(page))),
    ("one look and one write", |_, page, out| look_and_write(page, out)),
    ("CRC of 4,092 bytes, crc32fast with PCLMULQDQ", |_, page, _| _ = black_box(timed::crc32_pclmulqdq(&page[..PAGE - 4]))),
    ("decoding", decode),
];

fn main() {
    let rounds = std::env::args().nth(1).map_or(200, |a| a.parse().expect("ROUNDS is a number"));
    let [exact, dense, mixed] = progressions();
    let mut zero = zero();
    zero.stored.iter_mut().for_each(|page| page.fill(0));
    let kinds = [&exact, &mixed, &dense, &zero];
    let cases = kinds.map(|pages| (0..COUNT).map(|k| Case::new(pages, k)).collect::<Vec<_>>());
    let few = Laid::new(exact.stored.concat());
    let many = Laid::new(few.pages.repeat(MANY / COUNT));

    let mut groups = [Group::default(), Group::every(EVERY)];
    let [cached, far] = &mut groups;
    let parts = PARTS.map(|(_, ask)| cases.each_ref().map(|cases| asked(cached, cases, ask)));
    let (in_cache, from_memory) = (few.sides(cached), many.sides(far));
    time(&mut groups, rounds);

    let [cached, far] = &groups;
    println!("| part | {} |\n|---|{}", kinds.map(|k| k.name).join(" | "), "---|".repeat(kinds.len()));
    for ((part, _), sides) in PARTS.iter().zip(&parts) {
        println!("| {part} | {} |", sides.map(|side| told(cached.median(side))).join(" | "));
    }
    println!("\n| an exact page | in cache | from memory |\n|---|---|---|");
    for (((what, _), side), other) in LEAST.iter().zip(in_cache).zip(from_memory) {
        println!("| {what} | {} | {} |", told(cached.median(side)), told(far.median(other)));
    }
    let [_, both, crc, decoding] = in_cache.map(|side| 1e6 * cached.median(side));
    let [least, times] = [both + crc, decoding / (both + crc)].map(short);
    println!(
        "\n{rounds} rounds: to decode an exact page takes {times} times as long as one look, one write and one CRC, which take {least} µs"
    );
}

/// Of a page: its time, and how many bytes of pages that is in a second.
fn told(seconds: f64) -> String {
    format!("{} µs, {} GB/s", short(1e6 * seconds), short(1e-9 * PAGE as f64 / seconds))
}

fn asked<'a>(g: &mut Group<'a>, cases: &'a [Case<'a>], ask: Ask) -> usize {
    let mut lent = Lent::new();
    g.side(COUNT, move || cases.iter().for_each(|case| _ = black_box(ask(&LINKED, case, &mut lent))))
}

fn crc(_: &Library, c: &Case<'_>, _: &mut Lent) -> usize {
    unsafe { sys::lumeviqo_crc32(c.stored.as_ptr(), PAGE - 4) as usize }
}

fn integrity(_: &Library, c: &Case<'_>, lent: &mut Lent) -> usize {
    unsafe { sys::lumeviqo_integrity(c.number, c.stored.as_ptr(), PAGE, lent.answer.as_mut_ptr(), h::INTEGRITY_LENGTH) }
}

/// Neither integrity nor candidates are looked at.
fn supplied(_: &Library, c: &Case<'_>, lent: &mut Lent) -> usize {
    let (t, limit, out, answer) = (OPTIONS.min_trailer_count, OPTIONS.search_limit, lent.bytes.as_mut_ptr(), lent.answer.as_mut_ptr());
    let (stored, fits, shifted) = (c.stored.as_ptr(), c.fits.as_ptr(), c.shifted.as_ptr());
    let (f, n) = (h::FITS_LENGTH, h::DECODING_LENGTH);
    unsafe {
        sys::lumeviqo_decode_supplied_summary(c.number, stored, PAGE, fits, f, shifted, SHIFTED, c.bv, BITS, t, limit, out, PAGE, answer, n)
    }
}

/// Exact pages one behind the other, and as many bytes to write to.
struct Laid {
    pages: Vec<u8>,
    written: RefCell<Vec<u8>>,
}

impl Laid {
    fn new(pages: Vec<u8>) -> Self {
        Laid { written: RefCell::new(pages.clone()), pages }
    }

    /// A side for each of `LEAST`.
    fn sides<'a>(&'a self, g: &mut Group<'a>) -> [usize; 4] {
        LEAST.map(|(_, work)| {
            g.side(self.pages.len() / PAGE, move || {
                let mut written = self.written.borrow_mut();
                let pages = self.pages.chunks(PAGE).zip(written.chunks_mut(PAGE));
                (0..COUNT as u64).cycle().zip(pages).for_each(|(number, (page, out))| work(number, page, out));
            })
        })
    }
}

fn decode(number: u64, page: &[u8], out: &mut [u8]) {
    let (t, limit, n) = (OPTIONS.min_trailer_count, OPTIONS.search_limit, h::DECODING_LENGTH);
    let mut answer = MaybeUninit::<[u8; h::DECODING_LENGTH]>::uninit();
    let (stored, anchors, out, answer) = (page.as_ptr(), [].as_ptr(), out.as_mut_ptr(), answer.as_mut_ptr().cast());
    unsafe { sys::lumeviqo_decode(number, stored, PAGE, anchors, 0, BITS, t, limit, out, PAGE, answer, n) };
}

/// Sixteen bytes an instruction: the compiler knows of no wider vectors.
fn look(page: &[u8]) -> u8 {
    page.iter().fold(0, |all, byte| all | byte)
}

/// No copy, which the system's library would do by wider ones.
fn look_and_write(page: &[u8], out: &mut [u8]) {
    out.iter_mut().zip(page).for_each(|(out, byte)| *out = byte.wrapping_add(1));
}
