//! A smaller case on which the two sides still differ.
use lumeviqo::header::MIN_TRAILER_COUNT;

use crate::as_c::least_count;
use crate::checks::{Difference, compare};
use crate::kinds::{Case, recrc};
use crate::limits::{NAMED, OUTSIDE, USUAL};
use crate::tally::Tally;

fn differs(case: &Case) -> Option<Difference> {
    compare(case, &mut Tally::default()).err()
}

/// Leaves out anchors, options, replacements and the plain page, takes a limit that has a name, and clears bytes, as long as the same question
/// differs. None where it does not differ when it is asked again.
pub fn shrink(case: &Case) -> Option<(Case, Difference)> {
    let mut best = case.clone();
    let mut found = differs(case)?;
    let question = found.question;
    let mut attempt = |best: &mut Case, change: &dyn Fn(&mut Case)| {
        let mut next = best.clone();
        change(&mut next);
        if let Some(d) = differs(&next).filter(|d| d.question == question) {
            *best = next;
            found = d;
            return true;
        }
        false
    };
    attempt(&mut best, &|c| c.plain = None);
    attempt(&mut best, &|c| c.anchors.clear());
    while !best.anchors.is_empty() && attempt(&mut best, &|c| c.anchors.truncate(c.anchors.len() - 1)) {}
    for k in (0..best.replacements.len()).rev() {
        attempt(&mut best, &|c| drop(c.replacements.remove(k)));
    }
    for k in 0..best.replacements.len() {
        attempt(&mut best, &|c| c.replacements[k].1.fill(0));
    }
    for bits in [0, 1, 2, 4, 7] {
        attempt(&mut best, &|c| c.bits = bits);
    }
    _ = NAMED.iter().any(|&limit| attempt(&mut best, &|c| c.limit = limit));
    _ = OUTSIDE.iter().any(|&limit| attempt(&mut best, &|c| c.outside = limit));
    for number in [0, 1, best.number % 16] {
        attempt(&mut best, &|c| c.number = number);
    }
    let mut size = 2048;
    while size > 0 {
        for at in (0..best.page.len()).step_by(size) {
            let clear = |page: &mut Vec<u8>| {
                let end = (at + size).min(page.len());
                page[at..end].fill(0);
            };
            if best.page[at..].iter().take(size).any(|&b| b != 0) {
                attempt(&mut best, &|c| {
                    clear(&mut c.page);
                    if c.page.len() == 4096 {
                        recrc(&mut c.page);
                    }
                });
                attempt(&mut best, &|c| clear(&mut c.page));
            }
            if best.plain.as_ref().is_some_and(|p| p[at..].iter().take(size).any(|&b| b != 0)) {
                attempt(&mut best, &|c| clear(c.plain.as_mut().expect("just looked at")));
            }
        }
        // Single bytes only where few are left: each attempt reads the page anew.
        size = if size == 16 && best.page.iter().filter(|&&b| b != 0).count() > 400 { 0 } else { size / 2 };
    }
    Some((best, found))
}

/// A case in words and hexadecimal; its page as a frame of `report`, with the limit at which it differs.
pub fn describe(case: &Case, limit: usize) -> String {
    let mut out = format!("kind: {}\npage number: {}\noptions: {}\nsupplied bv: {}\n", case.kind, case.number, case.bits, case.bv);
    out += &format!("search limits: {USUAL}, {} and {}, of which it differs at {limit}\n", case.limit, case.outside);
    out += &format!("T: 4, as C asks {}\n", least_count(case.number, &case.page));
    out += &format!("anchors: {:?}\nstored page, {} bytes: {}\n", case.anchors, case.page.len(), runs(&case.page));
    if let Some(plain) = &case.plain {
        out += &format!("plain page, {} bytes: {}\n", plain.len(), runs(plain));
    }
    for (sector, bytes) in &case.replacements {
        out += &format!("replacement of sector {sector}, {} bytes: {}\n", bytes.len(), runs(bytes));
    }
    if let (Ok(limit), Ok(n)) = (limit.try_into(), case.anchors.len().try_into()) {
        out +=
            &format!("frame: {}{}\n", hex(&frame_head(case.number, case.bits, limit, n)), hex(&[&case.anchors[..], &case.page].concat()));
    }
    out
}

/// What stands before the anchors in a frame of `report`, with the usual T.
pub fn frame_head(number: u64, bits: u8, limit: u16, anchors: u8) -> Vec<u8> {
    [&number.to_be_bytes()[..], &[bits, MIN_TRAILER_COUNT as u8], &limit.to_be_bytes(), &[anchors]].concat()
}

pub fn hex(bytes: &[u8]) -> String {
    bytes.iter().map(|b| format!("{b:02x}")).collect()
}

/// The runs of bytes that are not zero, each behind its offset.
fn runs(bytes: &[u8]) -> String {
    let mut out = String::new();
    let mut at = 0;
    while at < bytes.len() {
        if bytes[at] == 0 {
            at += 1;
            continue;
        }
        let end = (at..bytes.len()).find(|&e| bytes[e..].iter().take(4).all(|&b| b == 0)).unwrap_or(bytes.len());
        out += &format!("{at:03x}:{} ", hex(&bytes[at..end]));
        at = end;
    }
    if out.is_empty() { "all zero".into() } else { out }
}
