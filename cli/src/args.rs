//! The words of the command line.
use std::ops::Range;
use std::path::{Path, PathBuf};

use clap::{Args, CommandFactory, FromArgMatches, Parser, Subcommand, ValueEnum};
use lumeviqo::{Leniency, Options, header};

use crate::words::{name_of, quoted};

const EXAMPLES: &str = "\
Examples:
  lumeviqo survey rescued.img --map rescued.map       what a rescued file still holds
  lumeviqo survey rescued.img --map rescued.map --svg rescued.svg
  lumeviqo page rescued.img 17 --map rescued.map      one page, in words
  lumeviqo rows rescued.img --map rescued.map --csv > rows.csv
  lumeviqo mend rescued.img --map rescued.map --copy second.img --copy-map second.map -o mended.db

Status: 0 all pages read; 1 done, but pages are undecided, damaged, unread or cut short; 2 not done;
3 what was written reads otherwise than it was said; 130 interrupted.";

const SURVEY_EXAMPLES: &str = "\
Examples:
  lumeviqo survey old.db
  lumeviqo survey rescued.img --map rescued.map --svg rescued.svg
  lumeviqo survey disc.img --start 0x100000 --map disc.map    the page file begins inside an image
  lumeviqo survey old.db --csv > pages.csv                    a line for each page";

const PAGE_EXAMPLES: &str = "\
Examples:
  lumeviqo page old.db 0                            the superblock
  lumeviqo page rescued.img 17 --map rescued.map
  lumeviqo page old.db 17 --limit 2048              its slot directory is looked for further on";

const ROWS_EXAMPLES: &str = "\
Examples:
  lumeviqo rows old.db
  lumeviqo rows old.db --page 17
  lumeviqo rows old.db --pages 1000..2000 --csv > rows.csv";

const MEND_EXAMPLES: &str = "\
Examples:
  lumeviqo mend rescued.img --map rescued.map --copy second.img --copy-map second.map -o mended.db
  lumeviqo mend a.img --map a.map --copy b.img --copy-map b.map --copy c.db -o new.db --new-map left.map
  lumeviqo mend bad.db --copy other.db -o mended.db           no map: pages whose CRC is bad";

/// Reads SQL Anywhere 17 page files, also those rescued from a bad disc, with a library that is proved to do what its rules say
#[derive(Parser)]
#[command(name = "lumeviqo", after_help = EXAMPLES, subcommand_required = true, arg_required_else_help = true)]
pub struct Words {
    #[command(subcommand)]
    pub command: Command,
    #[command(flatten)]
    pub common: Common,
}

#[derive(Subcommand)]
pub enum Command {
    /// Count what became of each page of a file, and draw it
    #[command(after_help = SURVEY_EXAMPLES)]
    Survey(Survey),
    /// Explain one page in words; of page 0, the superblock
    #[command(after_help = PAGE_EXAMPLES)]
    Page(Page),
    /// List the rows of a file or of a page
    #[command(after_help = ROWS_EXAMPLES)]
    Rows(Rows),
    /// Put sectors from a second copy into a new file, never over an old one
    #[command(after_help = MEND_EXAMPLES)]
    Mend(Mend),
    /// Print the completions of a shell
    Completions {
        #[arg(value_enum)]
        shell: clap_complete::Shell,
    },
    /// Print the manual page, as `man -l -` reads it
    Man,
}

#[derive(Args)]
pub struct Survey {
    /// The page file, or an image that has it inside (see --start)
    pub file: PathBuf,
    /// Print one line of JSON: the counts of the file
    #[arg(long, conflicts_with = "csv")]
    pub json: bool,
    /// Print a line of CSV for each page
    #[arg(long)]
    pub csv: bool,
    /// Draw the file as an SVG picture, into a file that does not exist yet
    #[arg(long, value_name = "OUT")]
    pub svg: Option<PathBuf>,
}

#[derive(Args)]
pub struct Page {
    /// The page file, or an image that has it inside (see --start)
    pub file: PathBuf,
    /// The page's number; the first is 0
    #[arg(value_parser = page, conflicts_with = "pages")]
    pub number: u64,
}

#[derive(Args)]
pub struct Rows {
    /// The page file, or an image that has it inside (see --start)
    pub file: PathBuf,
    /// List the rows of this page alone
    #[arg(long, value_name = "N", conflicts_with = "pages", value_parser = page)]
    pub page: Option<u64>,
    #[command(flatten)]
    pub form: RowForm,
}

#[derive(Args)]
pub struct RowForm {
    /// Print a line of CSV for each row, its bytes in hexadecimal
    #[arg(long, conflicts_with_all = ["json", "text"])]
    pub csv: bool,
    /// Print a line of JSON for each row, its bytes in hexadecimal
    #[arg(long, conflicts_with = "text")]
    pub json: bool,
    /// Print columns, bytes that are no text escaped; this is the usual form
    #[arg(long)]
    pub text: bool,
}

#[derive(Args)]
pub struct Mend {
    /// The page file that lacks sectors; it is opened for reading only
    pub file: PathBuf,
    /// A second copy of it; give the option again for a third, which fills what is left
    #[arg(long, value_name = "SECOND", required = true)]
    pub copy: Vec<PathBuf>,
    /// The ddrescue map of the copy named before it; of a copy without one, zeros are taken only where the CRC is good with them
    #[arg(long, value_name = "M2")]
    pub copy_map: Vec<PathBuf>,
    /// The mended file; it must not exist yet
    #[arg(short, long, value_name = "OUT")]
    pub out: PathBuf,
    /// Write the map that remains into a file that does not exist yet
    #[arg(long, value_name = "MAP", requires = "map")]
    pub new_map: Option<PathBuf>,
    /// For each copy, the map that goes with it
    #[arg(skip)]
    pub maps: Vec<Option<PathBuf>>,
}

#[derive(Args)]
pub struct Common {
    /// The ddrescue map of FILE: sectors that it does not mark as read are not data
    #[arg(long, value_name = "MAP", global = true)]
    pub map: Option<PathBuf>,
    /// Where the page file begins inside an image, in bytes (the map is the image's)
    #[arg(long, value_name = "BYTES", global = true, default_value = "0", hide_default_value = true, value_parser = bytes)]
    pub start: u64,
    /// Only these pages: 16..32 is 16 to 31; 16.. and ..32 and 16..=31 are taken too
    #[arg(long, value_name = "A..B", global = true, default_value = "..", hide_default_value = true, value_parser = pages)]
    pub pages: PageRange,
    /// What to take that is refused otherwise, separated by commas: keystream (a bv that nothing confirms, sectors in doubt), directory (a slot
    /// directory that no prelude confirms), integrity (a bad CRC or trailer; mend unread sectors first, since their zeros mislead)
    #[arg(long, value_name = "LIST", global = true, value_enum, value_delimiter = ',', hide_possible_values = true)]
    pub allow: Vec<Allowed>,
    /// T, the least row count that is tested
    #[arg(long, value_name = "T", global = true, default_value_t = header::MIN_TRAILER_COUNT as u8)]
    pub min_count: u8,
    /// How many of a page's first bytes are searched for its slot directory, 8 to 2048
    #[arg(long, value_name = "N", global = true, default_value_t = header::SEARCH_LIMIT, value_parser = limit)]
    pub limit: usize,
    /// How many threads decode at a time; all cores if not given
    #[arg(long, value_name = "N", global = true, value_parser = threads)]
    pub threads: Option<usize>,
    /// Colours on standard output: auto, always or never
    #[arg(long, value_name = "WHEN", global = true, value_enum, default_value_t = Colour::Auto, hide_default_value = true, hide_possible_values = true)]
    pub color: Colour,
    /// Neither progress nor notes
    #[arg(short, long, global = true)]
    pub quiet: bool,
}

#[derive(Debug, Clone, Copy, PartialEq, Eq, ValueEnum)]
pub enum Allowed {
    Keystream,
    Directory,
    Integrity,
}

impl Allowed {
    /// As it is written on the command line.
    pub fn word(self) -> &'static str {
        match self {
            Allowed::Keystream => "keystream",
            Allowed::Directory => "directory",
            Allowed::Integrity => "integrity",
        }
    }
}

#[derive(Debug, Clone, Copy, PartialEq, Eq, ValueEnum)]
pub enum Colour {
    Auto,
    Always,
    Never,
}

/// Pages from the first on, up to a page that is not among them.
#[derive(Debug, Clone, Copy, PartialEq, Eq)]
pub struct PageRange {
    from: u64,
    to: Option<u64>,
}

impl PageRange {
    pub fn one(page: u64) -> Self {
        PageRange { from: page, to: page.checked_add(1) }
    }

    /// Those that a file of `count` pages has.
    pub fn within(self, count: u64) -> Range<u64> {
        let to = self.to.map_or(count, |to| to.min(count));
        self.from.min(to)..to
    }
}

impl Common {
    pub fn options(&self) -> Options {
        let leniency = self.allow.iter().fold(Leniency::STRICT, |sum, allowed| {
            sum | match allowed {
                Allowed::Keystream => Leniency::KEYSTREAM,
                Allowed::Directory => Leniency::DIRECTORY,
                Allowed::Integrity => Leniency::INTEGRITY,
            }
        });
        Options { leniency, min_trailer_count: self.min_count, search_limit: self.limit }
    }

    /// A command on the same file, to be typed; `page` is the number behind the file's name, or nothing.
    pub fn command(&self, name: &str, file: &Path, page: Option<u64>) -> String {
        let page = page.map_or(String::new(), |page| format!(" {page}"));
        let map = self.map.as_deref().map_or(String::new(), |map| format!(" --map {}", quoted(map)));
        let start = if self.start > 0 { format!(" --start {}", self.start) } else { String::new() };
        format!("lumeviqo {name} {}{page}{map}{start}", quoted(file))
    }

    /// The command that mends it, but for the names of the copy and the new file.
    pub fn mending(&self, file: &Path) -> String {
        let copy_map = if self.map.is_some() { " --copy-map MAP2" } else { "" };
        format!("{} --copy SECOND{copy_map} -o OUT", self.command("mend", file, None))
    }

    pub fn allows(&self, what: Allowed) -> bool {
        self.allow.contains(&what)
    }
}

/// What was asked for. A usage error, --help and --version end the program here.
pub fn asked() -> Words {
    let matches = command().get_matches();
    let mut words = Words::from_arg_matches(&matches).unwrap_or_else(|e| e.exit());
    if let (Command::Mend(mend), Some(matches)) = (&mut words.command, matches.subcommand_matches("mend")) {
        mend.maps = maps_of_copies(mend, matches);
    }
    words
}

pub fn command() -> clap::Command {
    // SAFETY: it takes nothing.
    let library = unsafe { lumeviqo::sys::lumeviqo_version() };
    // Clap wants a text that lives as long as the program.
    let version: &'static str = format!("{} (library {library})", env!("CARGO_PKG_VERSION")).leak();
    Words::command().version(version)
}

/// A map belongs to the copy that stands before it.
fn maps_of_copies(mend: &Mend, matches: &clap::ArgMatches) -> Vec<Option<PathBuf>> {
    let copies: Vec<usize> = matches.indices_of("copy").into_iter().flatten().collect();
    let mut maps = vec![None; mend.copy.len()];
    for (place, map) in matches.indices_of("copy_map").into_iter().flatten().zip(&mend.copy_map) {
        let owner = copies.iter().rposition(|&copy| copy < place);
        match owner.map(|copy| &mut maps[copy]) {
            Some(free @ None) => *free = Some(map.clone()),
            _ => command().error(clap::error::ErrorKind::WrongNumberOfValues, lone_map(map)).exit(),
        }
    }
    maps
}

fn lone_map(map: &Path) -> String {
    format!("--copy-map {} has no --copy before it to go with: write each copy's map behind the copy", name_of(map))
}

fn number(text: &str) -> Option<u64> {
    match text.strip_prefix("0x").or(text.strip_prefix("0X")) {
        Some(digits) => u64::from_str_radix(digits, 16).ok(),
        None => text.parse().ok(),
    }
}

fn bytes(text: &str) -> Result<u64, String> {
    number(text).ok_or_else(|| "a number of bytes is wanted, in decimal or as 0x and hexadecimal digits".into())
}

fn page(text: &str) -> Result<u64, String> {
    number(text).ok_or_else(|| "a page's number is wanted, in decimal or as 0x and hexadecimal digits".into())
}

fn pages(text: &str) -> Result<PageRange, String> {
    let range = || {
        let (from, to) = text.split_once("..")?;
        let from = if from.is_empty() { 0 } else { number(from)? };
        let to = match to.strip_prefix('=') {
            Some(last) => Some(number(last)?.checked_add(1)?),
            None if to.is_empty() => None,
            None => Some(number(to)?),
        };
        to.is_none_or(|to| from < to).then_some(PageRange { from, to })
    };
    range().ok_or_else(|| "pages are wanted as A..B with A below B: 16..32 is 16 to 31".into())
}

fn limit(text: &str) -> Result<usize, String> {
    let (least, greatest) = (header::LEAST_SEARCH_LIMIT, header::GREATEST_SEARCH_LIMIT);
    let fits = |n: &usize| (least..=greatest).contains(n);
    text.parse().ok().filter(fits).ok_or_else(|| format!("a number from {least} to {greatest} is wanted"))
}

fn threads(text: &str) -> Result<usize, String> {
    text.parse().ok().filter(|n| (1..=1_024).contains(n)).ok_or_else(|| "a number from 1 to 1024 is wanted".into())
}

#[cfg(test)]
mod tests {
    use super::*;

    #[test]
    fn clap_agrees_with_the_definitions() {
        command().debug_assert();
    }

    #[test]
    fn ranges_are_as_in_rust() {
        let within = |text: &str| pages(text).unwrap().within(40);
        assert_eq!(
            [within("16..32"), within("16.."), within("..32"), within("16..=31"), within("..")],
            [16..32, 16..40, 0..32, 16..32, 0..40]
        );
        assert_eq!([within("50..60"), within("30..60"), within("0x10..0x20")], [40..40, 30..40, 16..32]);
        for wrong in ["", "5", "a..b", "5..5", "6..5", "-1..4", "1...4", "..=18446744073709551615"] {
            assert!(pages(wrong).is_err(), "{wrong}");
        }
    }

    #[test]
    fn bytes_are_decimal_or_hexadecimal() {
        assert_eq!([bytes("4096"), bytes("0x1000"), bytes("0X10")], [Ok(4096), Ok(4096), Ok(16)]);
        assert!(["", "0x", "4k", "-1", "18446744073709551616"].iter().all(|text| bytes(text).is_err()));
    }
}
