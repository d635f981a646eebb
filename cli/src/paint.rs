//! The colours of outcomes on a terminal.
use crate::outcome::Outcome;

/// The text in the outcome's colour, if colours are wanted.
pub fn paint(outcome: Outcome, text: &str, colour: bool) -> String {
    if colour { format!("\x1b[{}m{text}\x1b[0m", code(outcome)) } else { text.into() }
}

/// Pages that were read are cool, the others warm, and unread ones have a ground.
fn code(outcome: Outcome) -> &'static str {
    match outcome {
        Outcome::Unallocated => "90",
        Outcome::Superblock => "39",
        Outcome::Verified => "34",
        Outcome::Calibrated => "94",
        Outcome::Corroborated => "36",
        Outcome::Unverified => "32",
        Outcome::Undecided => "33",
        Outcome::Damaged => "95",
        Outcome::CutShort => "35",
        Outcome::Unread => "97;41",
    }
}
