//! Standard output, which may be closed or full; notes on standard error, which may be unwanted.
use std::fmt::Display;
use std::io::{BufWriter, IsTerminal, StdoutLock, Write};

use crate::args::{Colour, Common};
use crate::failure::{Failure, Result};

pub struct Output {
    out: BufWriter<StdoutLock<'static>>,
    /// Whether colours are wanted.
    pub colour: bool,
    /// How many columns there are, if it is a terminal.
    pub columns: Option<usize>,
    quiet: bool,
}

impl Output {
    pub fn new(common: &Common) -> Output {
        let terminal = std::io::stdout().is_terminal();
        let colour = match common.color {
            Colour::Auto => terminal && std::env::var_os("NO_COLOR").is_none_or(|value| value.is_empty()),
            Colour::Always => true,
            Colour::Never => false,
        };
        let columns = terminal.then(|| console::Term::stdout().size_checked().map_or(80, |(_, columns)| columns.into()));
        Output { out: BufWriter::with_capacity(1 << 16, std::io::stdout().lock()), colour, columns, quiet: common.quiet }
    }

    pub fn line(&mut self, line: impl Display) -> Result<()> {
        writeln!(self.out, "{line}").map_err(|e| Failure::of_output(&e))
    }

    pub fn bytes(&mut self, bytes: &[u8]) -> Result<()> {
        self.out.write_all(bytes).map_err(|e| Failure::of_output(&e))
    }

    /// What was said so far is seen by whoever reads it.
    pub fn flush(&mut self) -> Result<()> {
        self.out.flush().map_err(|e| Failure::of_output(&e))
    }

    /// Notes come behind what they are about.
    pub fn notes(&mut self, notes: &[String]) -> Result<()> {
        self.flush()?;
        if !self.quiet {
            notes.iter().for_each(|note| tell(format_args!("note: {note}")));
        }
        Ok(())
    }
}

/// A line on standard error; if nobody hears it, nobody needs to be told.
pub fn tell(line: impl Display) {
    let _ = writeln!(std::io::stderr(), "{line}");
}
