//! `lumeviqo page`: one page in words, and what may help where it was refused.
use lumeviqo::header::GREATEST_SEARCH_LIMIT;
use lumeviqo::{Fits, PAGE, Refusal, Repair, SECTOR, SHIFTED, Superblock, Trailer};

use crate::args::{Allowed, Common, Page};
use crate::failure::{Failure, Result};
use crate::outcome::Outcome;
use crate::output::Output;
use crate::paint::paint;
use crate::reading::{Accepted, Answer, PageReading, read_page};
use crate::source::Source;
use crate::words::{counted, grouped, named_sectors};

/// Everything that is said about a page, line by line.
struct Explanation<'a> {
    source: &'a Source,
    common: &'a Common,
    page: &'a PageReading,
    stored: &'a [u8],
    lines: Vec<String>,
}

pub fn run(asked: &Page, common: &Common) -> Result<u8> {
    let source = Source::open(&asked.file, common.map.as_deref(), common.start)?;
    let (number, count) = (asked.number, source.page_count());
    if number >= count {
        return Err(Failure::about(&asked.file, &format!("it has pages 0 to {}, and page {number} was asked for", count - 1)));
    }
    let (page, stored) = read_page(&source, number, common.options())?;
    let mut out = Output::new(common);
    let mut explanation = Explanation { source: &source, common, page: &page, stored: &stored, lines: Vec::new() };
    explanation.explain(out.colour);
    explanation.lines.iter().try_for_each(|line| out.line(line))?;
    out.flush()?;
    Ok(u8::from(!page.outcome.is_read()))
}

impl Explanation<'_> {
    fn explain(&mut self, colour: bool) {
        let (page, from) = (self.page, self.source.place(self.page.number));
        let to = from + self.stored.len() as u64 - 1;
        self.lines.push(format!("page {} of {}, bytes {} to {}", page.number, self.source.name(), grouped(from), grouped(to)));
        self.say("outcome", format!("{}: {}", paint(page.outcome, page.outcome.name(), colour), page.outcome.meaning()));
        self.unread();
        if self.stored.len() < PAGE {
            self.say("length", format!("{} of {PAGE} bytes are there", self.stored.len()));
            self.say("may help", "look whether the file was copied whole, or whether --start is where its first page begins");
            return;
        }
        if page.number == 0 {
            self.superblock();
        }
        self.trailer();
        match &page.answer {
            Answer::Accepted(accepted) => self.accepted(accepted),
            Answer::Refused(refusal) => self.refused(refusal),
            Answer::Unread => self.never_read(),
            Answer::Superblock | Answer::Unallocated | Answer::CutShort(_) => {}
        }
    }

    /// A line with its name at the left.
    fn say(&mut self, name: &str, words: impl Into<String>) {
        self.lines.push(format!("{name:<10}  {}", words.into()));
    }

    fn unread(&mut self) {
        let unread = named_sectors(self.page.unread);
        match (self.page.unread, self.source.map()) {
            (0, Some(_)) => self.say("unread", "none of its sectors, by the map"),
            (0, None) if self.page.outcome == Outcome::Unallocated => {
                self.say("or unread", "a page that could not be read is zeros too: a ddrescue map (--map) tells which it is");
            }
            (0, None) => {}
            _ if self.page.outcome == Outcome::Unread => self.say("unread", format!("{unread}, by the map: what stands there is no data")),
            _ => self.say("unread", format!("{unread}, by the map; but the CRC is good, so it is what stands there")),
        }
    }

    fn is_unread(&self, sector: u8) -> bool {
        self.page.outcome == Outcome::Unread && self.page.unread >> sector & 1 != 0
    }

    fn superblock(&mut self) {
        if self.is_unread(0) {
            return self.say("superblock", "its fields lie in sector 0, which is unread");
        }
        let Ok(fields) = lumeviqo::superblock(self.stored) else { return };
        let Superblock { flags, variant_bits, lsn, major, a, b, magic, page_hint, marker } = fields;
        let known = if lumeviqo::superblock_checked(self.stored).is_ok() { "SQL Anywhere 17's" } else { "not SQL Anywhere 17's, da7aba5e" };
        self.say("magic", format!("{magic:08x}, {known}"));
        self.say("version", format!("{major}.{a}.{b}"));
        self.say("pages", format!("{} by its own count, {} in the file", grouped(page_hint.into()), grouped(self.source.page_count())));
        self.say("LSN", lsn.to_string());
        self.say("flags", format!("{flags:02x}, of which {variant_bits:02x} are variant bits"));
        self.say("marker", if marker { "the engine's copyright text is there" } else { "the engine's copyright text is not there" });
    }

    fn trailer(&mut self) {
        let Ok(trailer) = lumeviqo::trailer(self.stored) else { return };
        if self.page.outcome == Outcome::Unallocated {
            return;
        }
        if self.is_unread(7) {
            return self.say("trailer", "it lies in sector 7, which is unread");
        }
        let Trailer { row_count, page_type, case_variant, lsn, crc, reserved_zero } = trailer;
        let variant = if case_variant { " in lower case" } else { "" };
        if self.page.number > 0 {
            let reserved = if reserved_zero { "" } else { ", reserved bytes are not zero" };
            self.say("trailer", format!("type {page_type}{variant}, {}, LSN {lsn}{reserved}", counted(row_count.into(), "row")));
        }
        let computed = lumeviqo::crc32(&self.stored[..PAGE - size_of::<u32>()]);
        let verdict = if computed == crc { "as it should be".into() } else { format!("but these bytes have {computed:08x}") };
        self.say("CRC", format!("{crc:08x} is stored, {verdict}"));
    }

    fn accepted(&mut self, accepted: &Accepted) {
        let decoding = &accepted.decoding;
        if let Some(bv) = decoding.bv {
            self.say("bv", format!("{bv:02x}, from the {}: {}", decoding.source, decoding.confidence));
        }
        decoding.evidence.iter().for_each(|evidence| self.say("evidence", evidence.to_string()));
        decoding.warnings.iter().for_each(|warning| self.say("warning", warning.kind.to_string()));
        self.fits(&decoding.fits);
        match &accepted.row_count {
            Ok(rows) => self.say("rows", counted(*rows as u64, "row")),
            Err(refusal) => {
                self.say("rows", format!("not listed, answer {}: {}", refusal.number(), refusal.what()));
                self.help(refusal);
            }
        }
    }

    fn refused(&mut self, refusal: &Refusal) {
        self.say("refused", format!("answer {}: {}", refusal.number(), refusal.what()));
        if !matches!(refusal, Refusal::BadCrc { .. } | Refusal::BadTrailer { .. })
            && let Ok(repair) = Repair::new(self.page.number, self.stored)
        {
            self.fits(repair.fits());
        }
        self.help(refusal);
    }

    fn never_read(&mut self) {
        self.say("refused", "it is not read by a choice of bv: unread sectors are zeros, which mislead the choice");
        self.say("may help", self.mend());
        self.say("or", format!("`{} --allow integrity` to see what the rest gives: do not trust its rows", self.again()));
    }

    fn fits(&mut self, fits: &Fits) {
        self.say("sectors", "   step  agree     next best  tied");
        for (s, fit) in fits.iter().enumerate() {
            let length = if s + 1 == fits.len() { SHIFTED - s * SECTOR } else { SECTOR };
            let exact = if fit.exact { ", exact" } else { "" };
            let unread = if self.page.unread >> s & 1 != 0 { ", unread" } else { "" };
            let agree = format!("{}/{length}", fit.peak);
            self.say("", format!("{s}: {:>4}  {agree:<9} {:<9}  {}{exact}{unread}", fit.step, fit.runner_up, fit.tied));
        }
    }

    /// The command that may help. Where the CRC is bad that is a second copy alone: leniency upon leniency misleads.
    fn help(&mut self, refusal: &Refusal) {
        let widest = self.common.limit >= GREATEST_SEARCH_LIMIT;
        let bad_crc = matches!(lumeviqo::integrity(self.page.number, self.stored), Err(Refusal::BadCrc { .. }));
        let words = match refusal {
            _ if bad_crc => self.mend(),
            Refusal::BadTrailer { .. } => format!("`{} --allow integrity` reads it all the same", self.again()),
            _ if self.common.allows(Allowed::Integrity) => format!("`{}`: its CRC is good, so it needs no --allow integrity", self.again()),
            Refusal::AmbiguousCalibration { .. } | Refusal::LowConfidenceKeystream { .. } => {
                format!("{} takes the likeliest: look at the rows before you trust it", self.allowing(Allowed::Keystream))
            }
            Refusal::KeystreamUnverified { .. } if widest => format!("{} takes it unconfirmed", self.allowing(Allowed::Keystream)),
            Refusal::KeystreamUnverified { .. } => format!("{}; else --allow keystream takes it unconfirmed", self.searching()),
            Refusal::UnknownPrelude { .. } if !widest => format!("{}; else --allow directory takes it unconfirmed", self.searching()),
            _ => format!("{} takes the directory unconfirmed", self.allowing(Allowed::Directory)),
        };
        self.say("may help", words);
    }

    /// The same question with one more thing allowed.
    fn allowing(&self, what: Allowed) -> String {
        let already = self.common.allow.iter().map(|allowed| format!("{},", allowed.word()));
        format!("`{} --allow {}{}`", self.again(), already.collect::<String>(), what.word())
    }

    fn searching(&self) -> String {
        format!("`{} --limit {GREATEST_SEARCH_LIMIT}`, if directories run far", self.again())
    }

    fn mend(&self) -> String {
        format!("with a second copy, `{}`", self.common.mending(self.source.path()))
    }

    /// The same question.
    fn again(&self) -> String {
        self.common.command("page", self.source.path(), Some(self.page.number))
    }
}
