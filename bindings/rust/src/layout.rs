//! The layouts of include/lumeviqo.h, read.
use crate::answers::{
    AmbiguousCandidates, Asked, Buffer, Confidence, Decoding, Directory, Evidence, Fit, Fits, PageType, Parsed, Reason, Refusal, Source,
    Superblock, Trailer, Warning, WarningKind,
};
use crate::header as h;

/// The values of an answer.
type Values = [u64; h::MOST_ANSWER_VALUES];

/// The bytes of an answer.
struct Layout<'a>(&'a [u8]);

impl Layout<'_> {
    fn bytes<const N: usize>(&self, at: usize) -> [u8; N] {
        *self.0[at..].first_chunk().expect("the layout has its length")
    }

    fn u8(&self, at: usize) -> u8 {
        self.0[at]
    }

    fn flag(&self, at: usize) -> bool {
        self.u8(at) != 0
    }

    fn u16(&self, at: usize) -> u16 {
        u16::from_le_bytes(self.bytes(at))
    }

    fn u32(&self, at: usize) -> u32 {
        u32::from_le_bytes(self.bytes(at))
    }

    fn u64(&self, at: usize) -> u64 {
        u64::from_le_bytes(self.bytes(at))
    }

    /// The number of an answer, a kind or a count, in a byte.
    fn number(&self, at: usize) -> usize {
        self.u8(at).into()
    }

    /// A count of two bytes.
    fn count(&self, at: usize) -> usize {
        self.u16(at).into()
    }

    fn fit(&self, at: usize) -> Fit {
        Fit {
            step: self.u8(at + h::FIT_STEP),
            peak: self.u16(at + h::FIT_PEAK),
            runner_up: self.u16(at + h::FIT_RUNNER_UP),
            exact: self.flag(at + h::FIT_EXACT),
            tied: self.u16(at + h::FIT_TIED),
        }
    }

    fn fits(&self, at: usize) -> Fits {
        std::array::from_fn(|s| self.fit(at + h::FIT_LENGTH * s))
    }

    fn slots(&self, at: usize, count: usize) -> impl Iterator<Item = u16> {
        let (slots, _) = self.0[at..][..h::SLOT_LENGTH * count].as_chunks();
        slots.iter().map(|&slot| u16::from_le_bytes(slot))
    }

    fn evidence(&self, at: usize) -> Result<Evidence, Refusal> {
        let [a, b] = [0, 1].map(|k| self.u16(at + h::EVIDENCE_VALUES + size_of::<u16>() * k));
        Ok(match self.number(at + h::EVIDENCE_NUMBER) {
            h::EVIDENT_TRAILER_ROW_COUNT => Evidence::TrailerRowCount,
            h::EVIDENT_EXACT_SECTORS => Evidence::ExactSectors { count: a, dissent: b },
            h::EVIDENT_BLOCK_ANCHOR => Evidence::BlockAnchor,
            h::EVIDENT_ZERO_MASS => Evidence::ZeroMass { zeros: a, lead: b },
            h::EVIDENT_UNALLOCATED => Evidence::Unallocated,
            n => return Err(unknown("evidence", n)),
        })
    }

    fn warning(&self, at: usize, others: &AmbiguousCandidates) -> Result<Warning, Refusal> {
        let v: [u64; h::MOST_WARNING_VALUES] = self.values(at + h::WARNING_VALUES);
        let kind = match self.number(at + h::WARNING_NUMBER) {
            h::WARNED_BAD_CRC => WarningKind::BadCrc,
            h::WARNED_BAD_TRAILER => WarningKind::BadTrailer,
            h::WARNED_AMBIGUOUS_CALIBRATION => WarningKind::AmbiguousCalibration { chosen: v[0] as u8, others: others.clone() },
            h::WARNED_UNVERIFIED_KEYSTREAM => WarningKind::UnverifiedKeystream { bv: v[0] as u8 },
            h::WARNED_LOW_CONFIDENCE_SECTOR => {
                WarningKind::LowConfidenceSector { sector: v[0] as u8, peak: v[1] as u16, runner_up: v[2] as u16 }
            }
            h::WARNED_UNVERIFIED_DIRECTORY => WarningKind::UnverifiedDirectory,
            h::WARNED_UNKNOWN_PRELUDE => WarningKind::UnknownPrelude,
            h::WARNED_SLOT_DIRECTORY_TRUNCATED => WarningKind::SlotDirectoryTruncated { found: v[0], expected: v[1] },
            h::WARNED_AMBIGUOUS_SLOT_DIRECTORY => WarningKind::AmbiguousSlotDirectory,
            h::WARNED_SLOT_OFFSETS_IN_DIRECTORY => WarningKind::SlotOffsetsInDirectory { dropped: v[0] },
            n => return Err(unknown("warning", n)),
        };
        Ok(Warning { page: self.u64(at + h::WARNING_PAGE), kind })
    }

    fn warnings(&self, at: usize, count: usize, others: &AmbiguousCandidates) -> Result<Vec<Warning>, Refusal> {
        each(count, |k| self.warning(at + h::WARNING_LENGTH * k, others))
    }

    fn values<const N: usize>(&self, at: usize) -> [u64; N] {
        std::array::from_fn(|k| self.u64(at + h::VALUE_LENGTH * k))
    }

    /// The answer part: nothing where accepted. `own` reads the answers that tell of what this function was lent.
    fn answer(&self, own: impl FnOnce(usize, Values) -> Option<Refusal>) -> Result<(), Refusal> {
        let v: Values = self.values(h::ANSWER_VALUES);
        debug_assert!(v.iter().skip(self.number(h::ANSWER_VALUE_COUNT)).all(|&v| v == 0));
        Err(match self.number(h::ANSWER_NUMBER) {
            h::ACCEPTED => return Ok(()),
            h::WRONG_PAGE_LENGTH => Refusal::WrongPageLength(v[0] as usize),
            h::BAD_CRC => Refusal::BadCrc { page: v[0], stored: v[1] as u32, computed: v[2] as u32 },
            h::BAD_TRAILER => Refusal::BadTrailer { page: v[0] },
            h::NO_SLOT_DIRECTORY => Refusal::NoSlotDirectory { page: v[0], reason: reason(v[1] as usize)? },
            h::UNKNOWN_PRELUDE => Refusal::UnknownPrelude { page: v[0] },
            h::SLOT_DIRECTORY_TRUNCATED => Refusal::SlotDirectoryTruncated { page: v[0], found: v[1], expected: v[2], stop: v[3] },
            h::AMBIGUOUS_SLOT_DIRECTORY => Refusal::AmbiguousSlotDirectory { page: v[0] },
            h::SLOT_OFFSET_IN_DIRECTORY => Refusal::SlotOffsetInDirectory { page: v[0], offset: v[1], end: v[2] },
            h::BAD_MAGIC => Refusal::BadMagic(v[0] as u32),
            h::BAD_REPLACEMENT => Refusal::BadReplacement { sector: v[0] as usize },
            h::NO_SUCH_ROW => Refusal::NoSuchRow(v[0] as usize),
            h::LIMIT_OUT_OF_RANGE => Refusal::LimitOutOfRange(v[0] as usize),
            n => own(n, v).unwrap_or_else(|| unknown("answer", n)),
        })
    }

    /// The answers of a decoding alone. `buffer` is the first of the lent ones that has another length.
    fn undecoded(&self, number: usize, v: Values, asked: Asked, buffer: Buffer) -> Option<Refusal> {
        let page = v[0];
        Some(match number {
            h::AMBIGUOUS_CALIBRATION => Refusal::AmbiguousCalibration { page, candidates: self.candidates(), asked },
            h::KEYSTREAM_UNVERIFIED => Refusal::KeystreamUnverified { page, bv: v[1] as u8, asked },
            h::LOW_CONFIDENCE_KEYSTREAM => {
                Refusal::LowConfidenceKeystream { page, sector: v[1] as u8, peak: v[2] as u16, runner_up: v[3] as u16, asked }
            }
            _ => return wrong_length(number, v, buffer),
        })
    }

    fn candidates(&self) -> AmbiguousCandidates {
        self.0[h::DECODING_CANDIDATES..][..self.number(h::DECODING_CANDIDATE_COUNT)].to_vec()
    }
}

/// No answer tells of anything that was lent.
fn nothing(_: usize, _: Values) -> Option<Refusal> {
    None
}

fn wrong_length(number: usize, v: Values, buffer: Buffer) -> Option<Refusal> {
    (number == h::WRONG_BUFFER_LENGTH).then_some(Refusal::WrongBufferLength { buffer, length: v[0] as usize })
}

fn unknown(what: &'static str, number: usize) -> Refusal {
    Refusal::Unknown { what, number }
}

/// In one allocation at most.
fn each<T>(count: usize, read: impl Fn(usize) -> Result<T, Refusal>) -> Result<Vec<T>, Refusal> {
    let mut all = Vec::with_capacity(count);
    for k in 0..count {
        all.push(read(k)?);
    }
    Ok(all)
}

fn reason(number: usize) -> Result<Reason, Refusal> {
    Ok(match number {
        h::REASON_COUNT_BELOW_FOUR => Reason::CountBelowFour,
        h::REASON_FEWER_THAN_EIGHT_LIVE => Reason::FewerThanEightLive,
        h::REASON_UNCONFIRMED => Reason::Unconfirmed,
        n => return Err(unknown("reason", n)),
    })
}

fn source(number: usize) -> Result<Source, Refusal> {
    Ok(match number {
        h::SOURCE_TRAILER_ROW_COUNT => Source::TrailerRowCount,
        h::SOURCE_EXACT_SECTORS => Source::ExactSectors,
        h::SOURCE_HISTOGRAM => Source::Histogram,
        h::SOURCE_SUPPLIED => Source::Supplied,
        h::SOURCE_CORROBORATED => Source::Corroborated,
        h::SOURCE_UNALLOCATED => Source::Unallocated,
        n => return Err(unknown("source", n)),
    })
}

fn confidence(number: usize) -> Result<Confidence, Refusal> {
    Ok(match number {
        h::CONFIDENCE_UNALLOCATED => Confidence::Unallocated,
        h::CONFIDENCE_UNVERIFIED => Confidence::Unverified,
        h::CONFIDENCE_CORROBORATED => Confidence::Corroborated,
        h::CONFIDENCE_CALIBRATED => Confidence::Calibrated,
        h::CONFIDENCE_VERIFIED => Confidence::Verified,
        n => return Err(unknown("confidence", n)),
    })
}

fn page_type(number: usize, byte: u8) -> Result<PageType, Refusal> {
    Ok(match number {
        h::TYPE_EXTENT => PageType::Extent,
        h::TYPE_ALLOC => PageType::Alloc,
        h::TYPE_MAP => PageType::Map,
        h::TYPE_HEADER => PageType::Header,
        h::TYPE_CATALOG => PageType::Catalog,
        h::TYPE_BOOTSTRAP => PageType::Bootstrap,
        h::TYPE_INDEX => PageType::Index,
        h::TYPE_OTHER => PageType::Other(byte),
        n => return Err(unknown("page type", n)),
    })
}

pub fn integrity(bytes: &[u8]) -> Result<(), Refusal> {
    Layout(bytes).answer(nothing)
}

pub fn scan(bytes: &[u8]) -> Result<Fits, Refusal> {
    let l = Layout(bytes);
    l.answer(|n, v| wrong_length(n, v, Buffer::Shifted))?;
    Ok(l.fits(h::SCAN_FITS))
}

pub fn replacement(bytes: &[u8]) -> Result<Fits, Refusal> {
    let l = Layout(bytes);
    l.answer(|n, v| wrong_length(n, v, Buffer::Shifted))?;
    Ok(l.fits(h::REPLACEMENT_FITS))
}

pub fn decoding(bytes: &[u8], asked: Asked, buffer: Buffer) -> Result<Decoding, Refusal> {
    let l = Layout(bytes);
    l.answer(|n, v| l.undecoded(n, v, asked, buffer))?;
    let source = source(l.number(h::DECODING_SOURCE))?;
    Ok(Decoding {
        bv: (source != Source::Unallocated).then_some(l.u8(h::DECODING_BV)),
        source,
        confidence: confidence(l.number(h::DECODING_CONFIDENCE))?,
        evidence: each(l.number(h::DECODING_EVIDENCE_COUNT), |k| l.evidence(h::DECODING_EVIDENCE + h::EVIDENCE_LENGTH * k))?,
        fits: l.fits(h::DECODING_FITS),
        warnings: l.warnings(h::DECODING_WARNINGS, l.number(h::DECODING_WARNING_COUNT), &l.candidates())?,
    })
}

pub fn parsed(bytes: &[u8]) -> Result<Parsed, Refusal> {
    let l = Layout(bytes);
    l.answer(nothing)?;
    let directory = l.flag(h::PARSE_FOUND).then(|| Directory {
        start: l.u16(h::PARSE_START),
        end: l.u16(h::PARSE_END),
        slots: l.slots(h::PARSE_SLOTS, l.count(h::PARSE_SLOT_COUNT)).collect(),
        declared: l.flag(h::PARSE_DECLARED).then_some(l.u16(h::PARSE_DECLARED_COUNT)),
    });
    Ok(Parsed { directory, warnings: l.warnings(h::PARSE_WARNINGS, l.count(h::PARSE_WARNING_COUNT), &Vec::new())? })
}

pub fn row_count(bytes: &[u8]) -> Result<usize, Refusal> {
    let l = Layout(bytes);
    l.answer(nothing)?;
    Ok(l.count(h::ROW_COUNT_ROWS))
}

pub fn row(bytes: &[u8]) -> Result<(u16, u16), Refusal> {
    let l = Layout(bytes);
    l.answer(nothing)?;
    Ok((l.u16(h::ROW_START), l.u16(h::ROW_END)))
}

/// Where each row starts, and behind them where the last one ends: with the data of the page.
pub fn row_bounds(bytes: &[u8]) -> Result<Vec<u16>, Refusal> {
    let l = Layout(bytes);
    l.answer(nothing)?;
    Ok(l.slots(h::ROWS_STARTS, l.count(h::ROWS_COUNT)).chain([h::SHIFTED_LENGTH as u16]).collect())
}

pub fn trailer(bytes: &[u8]) -> Result<Trailer, Refusal> {
    let l = Layout(bytes);
    l.answer(nothing)?;
    let byte = l.u8(h::TRAILER_TYPE_BYTE);
    let page_type = page_type(l.number(h::TRAILER_TYPE), byte)?;
    debug_assert_eq!(page_type.as_byte(), byte);
    Ok(Trailer {
        row_count: l.u8(h::TRAILER_ROW_COUNT),
        page_type,
        case_variant: l.flag(h::TRAILER_CASE_VARIANT),
        lsn: l.u32(h::TRAILER_LSN),
        crc: l.u32(h::TRAILER_CRC),
        reserved_zero: l.flag(h::TRAILER_RESERVED_ZERO),
    })
}

pub fn superblock(bytes: &[u8]) -> Result<Superblock, Refusal> {
    let l = Layout(bytes);
    l.answer(nothing)?;
    Ok(Superblock {
        flags: l.u8(h::SUPERBLOCK_FLAGS),
        variant_bits: l.u8(h::SUPERBLOCK_VARIANT_BITS),
        lsn: l.u32(h::SUPERBLOCK_LSN),
        major: l.u32(h::SUPERBLOCK_MAJOR),
        a: l.u16(h::SUPERBLOCK_A),
        b: l.u16(h::SUPERBLOCK_B),
        magic: l.u32(h::SUPERBLOCK_MAGIC),
        page_hint: l.u32(h::SUPERBLOCK_PAGE_HINT),
        marker: l.flag(h::SUPERBLOCK_MARKER),
    })
}

/// Fits as they are lent.
pub fn fits_bytes(fits: &Fits) -> [u8; h::FITS_LENGTH] {
    let mut bytes = [0; h::FITS_LENGTH];
    for (at, f) in bytes.chunks_exact_mut(h::FIT_LENGTH).zip(fits) {
        at[h::FIT_STEP] = f.step;
        at[h::FIT_PEAK..h::FIT_RUNNER_UP].copy_from_slice(&f.peak.to_le_bytes());
        at[h::FIT_RUNNER_UP..h::FIT_EXACT].copy_from_slice(&f.runner_up.to_le_bytes());
        at[h::FIT_EXACT] = f.exact as u8;
        at[h::FIT_TIED..h::FIT_LENGTH].copy_from_slice(&f.tied.to_le_bytes());
    }
    bytes
}

#[cfg(test)]
mod tests {
    use super::*;

    /// Accepted, and zero but for these bytes.
    fn answer<const N: usize>(bytes: &[(usize, usize)]) -> [u8; N] {
        let mut answer = [0; N];
        bytes.iter().for_each(|&(at, number)| answer[at] = number as u8);
        answer
    }

    /// A decoding, whole but for these bytes.
    fn decoded(bytes: &[(usize, usize)]) -> Result<Decoding, Refusal> {
        let whole = [(h::DECODING_SOURCE, h::SOURCE_HISTOGRAM), (h::DECODING_CONFIDENCE, h::CONFIDENCE_UNVERIFIED)];
        decoding(&answer::<{ h::DECODING_LENGTH }>(&[&whole, bytes].concat()), Asked::default(), Buffer::Out)
    }

    /// An answer that no layout has.
    const NO_ANSWER: [usize; 4] = [17, 18, 19, 255];

    #[test]
    fn what_is_known_is_read() {
        assert_eq!(decoded(&[]).unwrap().source, Source::Histogram);
        assert_eq!(trailer(&answer::<{ h::TRAILER_LENGTH }>(&[])).unwrap().page_type, PageType::Other(0));
    }

    #[test]
    fn an_unknown_answer() {
        for n in NO_ANSWER {
            let (refusal, at) = (unknown("answer", n), [(h::ANSWER_NUMBER, n)]);
            assert_eq!(integrity(&answer::<{ h::INTEGRITY_LENGTH }>(&at)), Err(refusal.clone()));
            assert_eq!(scan(&answer::<{ h::SCAN_LENGTH }>(&at)), Err(refusal.clone()));
            assert_eq!(replacement(&answer::<{ h::REPLACEMENT_LENGTH }>(&at)), Err(refusal.clone()));
            assert_eq!(decoded(&at), Err(refusal.clone()));
            assert_eq!(parsed(&answer::<{ h::PARSE_LENGTH }>(&at)), Err(refusal.clone()));
            assert_eq!(row_count(&answer::<{ h::ROW_COUNT_LENGTH }>(&at)), Err(refusal.clone()));
            assert_eq!(row(&answer::<{ h::ROW_LENGTH }>(&at)), Err(refusal.clone()));
            assert_eq!(row_bounds(&answer::<{ h::ROWS_LENGTH }>(&at)), Err(refusal.clone()));
            assert_eq!(trailer(&answer::<{ h::TRAILER_LENGTH }>(&at)), Err(refusal.clone()));
            assert_eq!(superblock(&answer::<{ h::SUPERBLOCK_LENGTH }>(&at)), Err(refusal));
        }
    }

    /// Where nothing was lent and no bv was asked for, nothing can be told of either.
    #[test]
    fn an_answer_of_another_layout_is_unknown() {
        for n in [h::WRONG_BUFFER_LENGTH, h::AMBIGUOUS_CALIBRATION, h::KEYSTREAM_UNVERIFIED, h::LOW_CONFIDENCE_KEYSTREAM] {
            let at = [(h::ANSWER_NUMBER, n)];
            assert_eq!(integrity(&answer::<{ h::INTEGRITY_LENGTH }>(&at)), Err(unknown("answer", n)));
            assert!(!matches!(decoded(&at), Err(Refusal::Unknown { .. })));
        }
    }

    #[test]
    fn an_unknown_source_or_confidence() {
        for n in [0, 7, 255] {
            assert_eq!(decoded(&[(h::DECODING_SOURCE, n)]), Err(unknown("source", n)));
        }
        for n in [0, 6, 255] {
            assert_eq!(decoded(&[(h::DECODING_CONFIDENCE, n)]), Err(unknown("confidence", n)));
        }
    }

    /// Behind a known one.
    #[test]
    fn unknown_evidence() {
        let first = [(h::DECODING_EVIDENCE_COUNT, 2), (h::DECODING_EVIDENCE, h::EVIDENT_BLOCK_ANCHOR)];
        for n in [0, 6, 255] {
            let second = (h::DECODING_EVIDENCE + h::EVIDENCE_LENGTH + h::EVIDENCE_NUMBER, n);
            assert_eq!(decoded(&[first[0], first[1], second]), Err(unknown("evidence", n)));
        }
    }

    #[test]
    fn an_unknown_warning() {
        for n in [0, 2, 13, 255] {
            let warning = [(h::DECODING_WARNING_COUNT, 1), (h::DECODING_WARNINGS + h::WARNING_NUMBER, n)];
            assert_eq!(decoded(&warning), Err(unknown("warning", n)));
            let warning = [(h::PARSE_WARNING_COUNT, 1), (h::PARSE_WARNINGS + h::WARNING_NUMBER, n)];
            assert_eq!(parsed(&answer::<{ h::PARSE_LENGTH }>(&warning)), Err(unknown("warning", n)));
        }
    }

    #[test]
    fn an_unknown_reason() {
        for n in [0, 4, 255] {
            let refused = [(h::ANSWER_NUMBER, h::NO_SLOT_DIRECTORY), (h::ANSWER_VALUE_COUNT, 2)];
            let reason = (h::ANSWER_VALUES + h::VALUE_LENGTH, n);
            assert_eq!(parsed(&answer::<{ h::PARSE_LENGTH }>(&[refused[0], refused[1], reason])), Err(unknown("reason", n)));
        }
    }

    #[test]
    fn an_unknown_page_type() {
        for n in [8, 255] {
            assert_eq!(trailer(&answer::<{ h::TRAILER_LENGTH }>(&[(h::TRAILER_TYPE, n)])), Err(unknown("page type", n)));
        }
    }
}
