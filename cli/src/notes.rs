//! What looks wrong about a file, and what to do: in the same words whichever command came upon it.
use lumeviqo::{Refusal, header};

use crate::args::Common;
use crate::failure::Result;
use crate::outcome::Outcome;
use crate::source::Source;
use crate::tally::Tally;
use crate::words::{counted, grouped};

/// All notes on what was read of a file.
pub fn notes(source: &Source, tally: &Tally, common: &Common) -> Result<Vec<String>> {
    let rescue = [on_map(source), on_zeros(source, tally), on_unread(source, tally, common)];
    Ok(rescue.into_iter().flatten().chain(on_places(source, tally)?).collect())
}

/// The notes on whether its pages are where they were looked for.
pub fn on_places(source: &Source, tally: &Tally) -> Result<Vec<String>> {
    Ok([on_magic(source)?, on_cut(tally), on_blocks(tally)].into_iter().flatten().collect())
}

/// None where sector 0 of page 0 was never read: what stands there says nothing.
fn on_magic(source: &Source) -> Result<Option<String>> {
    let mut page = Vec::new();
    source.read_pages(0..1, &mut page)?;
    let unread = source.unread_sectors(0) & 1 != 0;
    Ok(match lumeviqo::superblock_checked(&page) {
        Err(Refusal::BadMagic(magic)) if !unread => Some(format!(
            "page 0 has the magic {magic:08x}, and SQL Anywhere 17's is da7aba5e: if the page file begins later in an image, say where with --start"
        )),
        _ => None,
    })
}

fn on_map(source: &Source) -> Option<String> {
    let behind = source.pages_behind_the_end();
    if behind > 0 {
        return Some(format!("{} behind the end of the file are unread by the map, and counted as such", counted(behind, "page")));
    }
    if source.map()?.has_read(source.end()..u64::MAX) {
        return Some("the map has bytes as read that lie behind the end of the file: look whether it is the map of this file".into());
    }
    let missing = source.unread_behind();
    (missing > 0).then(|| format!("the map has {} unread bytes behind the end of the file: pages may be missing there", grouped(missing)))
}

fn on_zeros(source: &Source, tally: &Tally) -> Option<String> {
    let zeros = tally.count(Outcome::Unallocated);
    let unknown = source.map().is_none() && zeros > 0;
    let advice = "if it was rescued from a disc, give its ddrescue map with --map";
    let zeros = counted(zeros, "page");
    unknown.then(|| format!("{zeros} of zeros, taken as unallocated; a page that could not be read is zeros too: {advice}"))
}

fn on_cut(tally: &Tally) -> Option<String> {
    let (page, length) = tally.cut_short?;
    let causes = "the file was cut short, or --start is not where its first page begins";
    Some(format!("the last page, {page}, has {length} of {} bytes: {causes}", header::PAGE_LENGTH))
}

/// Blocks of more than one bv are not rare in sound files, a majority of them is.
fn on_blocks(tally: &Tally) -> Option<String> {
    let (blocks, divided) = (tally.blocks, tally.divided_blocks);
    let reason = "so it is when the page numbers are wrong: look whether --start is where page 0 begins";
    (divided * 2 > blocks).then(|| format!("in {} of {} the pages disagree in bv: {reason}", grouped(divided), counted(blocks, "block")))
}

fn on_unread(source: &Source, tally: &Tally, common: &Common) -> Option<String> {
    let unread = tally.count(Outcome::Unread);
    let command = common.mending(source.path());
    (unread > 0).then(|| format!("sectors of {} are unread: with a second copy, `{command}`", counted(unread, "page")))
}
