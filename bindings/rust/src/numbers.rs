//! The numbers of a refusal, for whoever counts or writes them: that of the answer, and that of the page.
use crate::answers::Refusal;
use crate::header as h;

impl Refusal {
    /// The answer's number, as in include/lumeviqo.h and in a line of `report`. [`Refusal::Unknown`] has the one that is not known.
    pub fn number(&self) -> usize {
        match self {
            Refusal::WrongPageLength(_) => h::WRONG_PAGE_LENGTH,
            Refusal::WrongBufferLength { .. } => h::WRONG_BUFFER_LENGTH,
            Refusal::BadCrc { .. } => h::BAD_CRC,
            Refusal::BadTrailer { .. } => h::BAD_TRAILER,
            Refusal::AmbiguousCalibration { .. } => h::AMBIGUOUS_CALIBRATION,
            Refusal::KeystreamUnverified { .. } => h::KEYSTREAM_UNVERIFIED,
            Refusal::LowConfidenceKeystream { .. } => h::LOW_CONFIDENCE_KEYSTREAM,
            Refusal::NoSlotDirectory { .. } => h::NO_SLOT_DIRECTORY,
            Refusal::UnknownPrelude { .. } => h::UNKNOWN_PRELUDE,
            Refusal::SlotDirectoryTruncated { .. } => h::SLOT_DIRECTORY_TRUNCATED,
            Refusal::AmbiguousSlotDirectory { .. } => h::AMBIGUOUS_SLOT_DIRECTORY,
            Refusal::SlotOffsetInDirectory { .. } => h::SLOT_OFFSET_IN_DIRECTORY,
            Refusal::BadMagic(_) => h::BAD_MAGIC,
            Refusal::BadReplacement { .. } => h::BAD_REPLACEMENT,
            Refusal::NoSuchRow(_) => h::NO_SUCH_ROW,
            Refusal::LimitOutOfRange(_) => h::LIMIT_OUT_OF_RANGE,
            Refusal::Unknown { number, .. } => *number,
        }
    }

    /// The number of the page that was refused; none where the refusal is of no page.
    pub fn page(&self) -> Option<u64> {
        match *self {
            Refusal::BadCrc { page, .. }
            | Refusal::BadTrailer { page }
            | Refusal::AmbiguousCalibration { page, .. }
            | Refusal::KeystreamUnverified { page, .. }
            | Refusal::LowConfidenceKeystream { page, .. }
            | Refusal::NoSlotDirectory { page, .. }
            | Refusal::UnknownPrelude { page }
            | Refusal::SlotDirectoryTruncated { page, .. }
            | Refusal::AmbiguousSlotDirectory { page }
            | Refusal::SlotOffsetInDirectory { page, .. } => Some(page),
            Refusal::WrongPageLength(_)
            | Refusal::WrongBufferLength { .. }
            | Refusal::BadMagic(_)
            | Refusal::BadReplacement { .. }
            | Refusal::NoSuchRow(_)
            | Refusal::LimitOutOfRange(_)
            | Refusal::Unknown { .. } => None,
        }
    }
}
