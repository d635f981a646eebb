//! The original's answers in the layouts of include/lumeviqo.h, written from that page alone: what the library must give, byte for byte.
use lumeviqo::header as h;
use oracle::plain::{Decoded, Directory, Fit, Parsed, Refusal, Row, Superblock, Trailer, Warning};

#[derive(Default)]
struct Layout {
    bytes: Vec<u8>,
}

impl Layout {
    fn u8(mut self, v: u8) -> Self {
        self.bytes.push(v);
        self
    }

    fn u16(mut self, v: u16) -> Self {
        self.bytes.extend(v.to_le_bytes());
        self
    }

    fn u32(mut self, v: u32) -> Self {
        self.bytes.extend(v.to_le_bytes());
        self
    }

    fn u64(mut self, v: u64) -> Self {
        self.bytes.extend(v.to_le_bytes());
        self
    }

    fn flag(self, v: bool) -> Self {
        self.u8(v as u8)
    }

    /// Zeros up to an offset, at which the next field stands.
    fn at(mut self, offset: usize) -> Self {
        assert!(self.bytes.len() <= offset, "{} bytes stand before offset {offset}", self.bytes.len());
        self.bytes.resize(offset, 0);
        self
    }

    /// Zeros up to the layout's length.
    fn up_to(self, length: usize) -> Vec<u8> {
        self.at(length).bytes
    }

    fn values(self, values: &[u64]) -> Self {
        values.iter().fold(self, |l, &v| l.u64(v))
    }

    fn answer(self, refusal: Option<&Refusal>) -> Self {
        let (number, values) = refusal.map_or((0, &[][..]), |r| (r.number, &r.values[..]));
        let l = self.at(h::ANSWER_NUMBER).u8(number).at(h::ANSWER_VALUE_COUNT).u8(values.len() as u8);
        l.at(h::ANSWER_VALUES).values(values).at(h::ANSWER_LENGTH)
    }

    fn fits(self, fits: &[Fit; 8]) -> Self {
        fits.iter().fold(self, |l, f| l.u8(f.step).u16(f.peak).u16(f.runner_up).flag(f.exact).u16(f.tied))
    }

    fn candidates(self, bvs: &[u8]) -> Self {
        let l = self.at(h::DECODING_CANDIDATE_COUNT).u8(bvs.len() as u8).at(h::DECODING_CANDIDATES);
        bvs.iter().fold(l, |l, &bv| l.u8(bv))
    }

    fn evidence(self, evidence: &[(u8, u16, u16)]) -> Self {
        let l = self.at(h::DECODING_EVIDENCE_COUNT).u8(evidence.len() as u8).at(h::DECODING_EVIDENCE);
        evidence.iter().fold(l, |l, &(number, a, b)| l.u8(number).u16(a).u16(b))
    }

    fn warnings(self, warnings: &[Warning]) -> Self {
        warnings.iter().fold(self, |l, w| {
            let end = l.bytes.len() + h::WARNING_LENGTH;
            l.u8(w.number).u64(w.page).values(&w.values).at(end)
        })
    }
}

fn answered<T>(answer: &Result<T, Refusal>) -> Layout {
    Layout::default().answer(answer.as_ref().err())
}

pub fn integrity(answer: &Result<(), Refusal>) -> Vec<u8> {
    answered(answer).up_to(h::INTEGRITY_LENGTH)
}

pub fn trailer(answer: &Result<Trailer, Refusal>) -> Vec<u8> {
    let mut l = answered(answer);
    if let Ok(t) = answer {
        let page_type = (t.type_case + 1) % 8;
        l = l.at(h::TRAILER_ROW_COUNT).u8(t.row_count).at(h::TRAILER_TYPE_BYTE).u8(t.type_byte).at(h::TRAILER_TYPE).u8(page_type);
        l = l.at(h::TRAILER_CASE_VARIANT).flag(t.case_variant).at(h::TRAILER_LSN).u32(t.lsn).at(h::TRAILER_CRC).u32(t.crc);
        l = l.at(h::TRAILER_RESERVED_ZERO).flag(t.reserved_zero);
    }
    l.up_to(h::TRAILER_LENGTH)
}

pub fn superblock(answer: &Result<Superblock, Refusal>) -> Vec<u8> {
    let mut l = answered(answer);
    if let Ok(s) = answer {
        l = l.at(h::SUPERBLOCK_FLAGS).u8(s.flags).at(h::SUPERBLOCK_VARIANT_BITS).u8(s.variant_bits).at(h::SUPERBLOCK_LSN).u32(s.lsn);
        l = l.at(h::SUPERBLOCK_MAJOR).u32(s.major).at(h::SUPERBLOCK_A).u16(s.a).at(h::SUPERBLOCK_B).u16(s.b);
        l = l.at(h::SUPERBLOCK_MAGIC).u32(s.magic).at(h::SUPERBLOCK_PAGE_HINT).u32(s.page_hint);
        l = l.at(h::SUPERBLOCK_MARKER).flag(s.marker);
    }
    l.up_to(h::SUPERBLOCK_LENGTH)
}

/// As a caller lends them.
pub fn lent_fits(fits: &[Fit; 8]) -> Vec<u8> {
    Layout::default().fits(fits).up_to(h::FITS_LENGTH)
}

/// A scan, or a replacement, of which the fits stand there though it is refused.
pub fn fits(refusal: Option<&Refusal>, fits: &[Fit; 8]) -> Vec<u8> {
    Layout::default().answer(refusal).at(h::SCAN_FITS).fits(fits).up_to(h::SCAN_LENGTH)
}

pub fn decoding(answer: &Result<Decoded, Refusal>) -> Vec<u8> {
    let l = answered(answer);
    let l = match answer {
        Err(r) => l.candidates(&r.candidates),
        Ok(d) => {
            let others = d.warnings.iter().find(|w| w.number as usize == h::WARNED_AMBIGUOUS_CALIBRATION).map_or(&[][..], |w| &w.others);
            let l = l.candidates(others).at(h::DECODING_BV).u8(d.bv.unwrap_or(0)).at(h::DECODING_SOURCE).u8(d.source);
            let l = l.at(h::DECODING_CONFIDENCE).u8(d.confidence).evidence(&d.evidence).at(h::DECODING_FITS).fits(&d.fits);
            l.at(h::DECODING_WARNING_COUNT).u8(d.warnings.len() as u8).at(h::DECODING_WARNINGS).warnings(&d.warnings)
        }
    };
    l.up_to(h::DECODING_LENGTH)
}

pub fn parse(answer: &Result<Parsed, Refusal>) -> Vec<u8> {
    let mut l = answered(answer);
    if let Ok(Parsed { directory, warnings, .. }) = answer {
        l = directory.iter().fold(l, found);
        l = l.at(h::PARSE_WARNING_COUNT).u16(warnings.len() as u16).at(h::PARSE_WARNINGS).warnings(warnings);
    }
    l.up_to(h::PARSE_LENGTH)
}

fn found(l: Layout, d: &Directory) -> Layout {
    let l = l.at(h::PARSE_FOUND).flag(true).at(h::PARSE_START).u16(d.start).at(h::PARSE_END).u16(d.end);
    let l = l.at(h::PARSE_SLOT_COUNT).u16(d.slots.len() as u16).at(h::PARSE_DECLARED).flag(d.declared.is_some());
    let l = l.at(h::PARSE_DECLARED_COUNT).u16(d.declared.unwrap_or(0)).at(h::PARSE_SLOTS);
    d.slots.iter().fold(l, |l, &s| l.u16(s))
}

pub fn row_count(answer: &Result<Parsed, Refusal>) -> Vec<u8> {
    let mut l = answered(answer);
    if let Ok(p) = answer {
        l = l.at(h::ROW_COUNT_ROWS).u16(p.rows.len() as u16);
    }
    l.up_to(h::ROW_COUNT_LENGTH)
}

/// Answer 16 where there is no such row.
pub fn row_of(answer: &Result<Parsed, Refusal>, row: usize) -> Result<&Row, Refusal> {
    let none = Refusal { number: h::NO_SUCH_ROW as u8, values: vec![row as u64], candidates: Vec::new() };
    answer.as_ref().map_err(Clone::clone).and_then(|p| p.rows.get(row).ok_or(none))
}

pub fn row(answer: &Result<Parsed, Refusal>, row: usize) -> Vec<u8> {
    let found = row_of(answer, row);
    let mut l = answered(&found);
    if let Ok(r) = found {
        l = l.at(h::ROW_START).u16(r.offset).at(h::ROW_END).u16(r.offset + r.bytes.len() as u16);
    }
    l.up_to(h::ROW_LENGTH)
}

pub fn rows(answer: &Result<Parsed, Refusal>) -> Vec<u8> {
    let mut l = answered(answer);
    if let Ok(p) = answer {
        l = l.at(h::ROWS_COUNT).u16(p.rows.len() as u16).at(h::ROWS_STARTS);
        l = p.rows.iter().fold(l, |l, r| l.u16(r.offset));
    }
    l.up_to(h::ROWS_LENGTH)
}
