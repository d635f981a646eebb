//! How the program ends when it can't go on, and with which status.
use std::io;
use std::path::Path;

use crate::words::name_of;

pub type Result<T> = std::result::Result<T, Failure>;

#[derive(Debug)]
pub enum Failure {
    /// Nothing was done, or not all: what was wrong, and what to do.
    NotDone(String),
    /// What was written reads otherwise than it was said.
    Differs(String),
    /// Nobody reads the output any more.
    ClosedPipe,
    Interrupted,
}

impl Failure {
    pub fn status(&self) -> u8 {
        match self {
            Failure::ClosedPipe => 0,
            Failure::NotDone(_) => 2,
            Failure::Differs(_) => 3,
            Failure::Interrupted => 130,
        }
    }

    pub fn message(&self) -> Option<&str> {
        match self {
            Failure::NotDone(message) | Failure::Differs(message) => Some(message),
            Failure::Interrupted => Some("interrupted"),
            Failure::ClosedPipe => None,
        }
    }

    /// A file that could not be opened or read.
    pub fn of(path: &Path, error: &io::Error) -> Failure {
        let advice = match error.kind() {
            io::ErrorKind::NotFound => ": look whether the name is right",
            io::ErrorKind::PermissionDenied => ": ask for the right to read it",
            _ if error.raw_os_error() == Some(libc::EIO) => ": rescue the disc with ddrescue first, and read the image with its map",
            _ => "",
        };
        Failure::about(path, &format!("{}{advice}", reason(error)))
    }

    /// A file that could not be made or written.
    pub fn of_writing(path: &Path, error: &io::Error) -> Failure {
        let advice = match error.kind() {
            io::ErrorKind::NotFound => ": look whether its folder is there",
            io::ErrorKind::PermissionDenied | io::ErrorKind::ReadOnlyFilesystem => ": choose a folder that you may write to",
            _ => room(error),
        };
        Failure::about(path, &format!("{}{advice}", reason(error)))
    }

    /// What is wrong with a file.
    pub fn about(path: &Path, words: &str) -> Failure {
        Failure::NotDone(format!("{}: {words}", name_of(path)))
    }

    /// Standard output, which others may close.
    pub fn of_output(error: &io::Error) -> Failure {
        match error.kind() {
            io::ErrorKind::BrokenPipe => Failure::ClosedPipe,
            _ => Failure::NotDone(format!("standard output: {}{}", reason(error), room(error))),
        }
    }
}

/// The system's words without its number.
pub fn reason(error: &io::Error) -> String {
    error.to_string().split(" (os error").next().unwrap_or_default().into()
}

fn room(error: &io::Error) -> &'static str {
    match error.kind() {
        io::ErrorKind::StorageFull | io::ErrorKind::QuotaExceeded | io::ErrorKind::FileTooLarge => ": make room, or write to another disc",
        _ => "",
    }
}
