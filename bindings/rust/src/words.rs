//! The kinds of an answer in words, as they stand inside a sentence.
use std::fmt::{Display, Formatter, Result};

use crate::answers::{Buffer, Confidence, Evidence, PageType, Reason, Source, Warning, WarningKind};
use crate::options::Leniency;

impl Display for Source {
    fn fmt(&self, f: &mut Formatter<'_>) -> Result {
        f.pad(match self {
            Source::TrailerRowCount => "trailer row count",
            Source::ExactSectors => "exact sectors",
            Source::Histogram => "histogram",
            Source::Supplied => "supplied",
            Source::Corroborated => "corroborated",
            Source::Unallocated => "unallocated",
        })
    }
}

impl Display for Confidence {
    fn fmt(&self, f: &mut Formatter<'_>) -> Result {
        f.pad(match self {
            Confidence::Unallocated => "unallocated",
            Confidence::Unverified => "unverified",
            Confidence::Corroborated => "corroborated",
            Confidence::Calibrated => "calibrated",
            Confidence::Verified => "verified",
        })
    }
}

impl Display for Evidence {
    fn fmt(&self, f: &mut Formatter<'_>) -> Result {
        match self {
            Evidence::TrailerRowCount => write!(f, "the row count stands before a slot directory"),
            Evidence::ExactSectors { count, dissent } => write!(f, "exact sectors vote {count} to {dissent} for it"),
            Evidence::BlockAnchor => write!(f, "another page of its block has it"),
            Evidence::ZeroMass { zeros, lead } => write!(f, "{zeros} bytes decode to zero, {lead} more than under the next best"),
            Evidence::Unallocated => write!(f, "all bytes are zero"),
        }
    }
}

impl Display for Warning {
    fn fmt(&self, f: &mut Formatter<'_>) -> Result {
        write!(f, "page {}: {}", self.page, self.kind)
    }
}

impl Display for WarningKind {
    fn fmt(&self, f: &mut Formatter<'_>) -> Result {
        match self {
            WarningKind::BadCrc => write!(f, "its CRC is not the stored one"),
            WarningKind::BadTrailer => write!(f, "reserved trailer bytes are not zero"),
            WarningKind::AmbiguousCalibration { chosen, others } => write!(f, "bv {chosen:02x} was taken, and may be {}", Bytes(others)),
            WarningKind::UnverifiedKeystream { bv } => write!(f, "nothing confirms bv {bv:02x}"),
            WarningKind::LowConfidenceSector { sector, peak, runner_up } => {
                write!(f, "the step of sector {sector} is in doubt, {peak} bytes agree against {runner_up}")
            }
            WarningKind::UnverifiedDirectory => write!(f, "no prelude confirms the slot directory"),
            WarningKind::UnknownPrelude => write!(f, "no prelude has its row count"),
            WarningKind::SlotDirectoryTruncated { found, expected } => write!(f, "its slot directory has {found} slots of {expected}"),
            WarningKind::AmbiguousSlotDirectory => write!(f, "several slot directories fit"),
            WarningKind::SlotOffsetsInDirectory { dropped } => write!(f, "slots that point into the directory are left out: {dropped}"),
        }
    }
}

impl Display for Reason {
    fn fmt(&self, f: &mut Formatter<'_>) -> Result {
        f.pad(match self {
            Reason::CountBelowFour => "a row count below 4 confirms none",
            Reason::FewerThanEightLive => "what looks like one has fewer than 8 live slots",
            Reason::Unconfirmed => "no prelude confirms what looks like one",
        })
    }
}

impl Display for PageType {
    fn fmt(&self, f: &mut Formatter<'_>) -> Result {
        f.pad(match self {
            PageType::Extent => "extent",
            PageType::Alloc => "allocation",
            PageType::Map => "map",
            PageType::Header => "header",
            PageType::Catalog => "catalog",
            PageType::Bootstrap => "bootstrap",
            PageType::Index => "index",
            PageType::Other(byte) => return f.pad(&format!("other {byte:02x}")),
        })
    }
}

impl Display for Buffer {
    fn fmt(&self, f: &mut Formatter<'_>) -> Result {
        f.pad(match self {
            Buffer::Out => "out",
            Buffer::Shifted => "shifted",
        })
    }
}

impl Display for Leniency {
    fn fmt(&self, f: &mut Formatter<'_>) -> Result {
        let names = [(Leniency::KEYSTREAM, "KEYSTREAM"), (Leniency::DIRECTORY, "DIRECTORY"), (Leniency::INTEGRITY, "INTEGRITY")];
        let allowed: Vec<&str> = names.into_iter().filter(|(bit, _)| self.allows(*bit)).map(|(_, name)| name).collect();
        f.pad(&if allowed.is_empty() { "strict".into() } else { allowed.join(" + ") })
    }
}

/// Values of bv, one after the other.
pub struct Bytes<'a>(pub &'a [u8]);

impl Display for Bytes<'_> {
    fn fmt(&self, f: &mut Formatter<'_>) -> Result {
        let digits: Vec<String> = self.0.iter().map(|byte| format!("{byte:02x}")).collect();
        f.write_str(&digits.join(", "))
    }
}
