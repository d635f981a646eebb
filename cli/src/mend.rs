//! `lumeviqo mend`: sectors of further copies put into a new file, and each changed page of it read afresh before it gets its name.
use std::collections::hash_map::DefaultHasher;
use std::fs::File;
use std::hash::{Hash, Hasher};
use std::io;
use std::ops::Range;
use std::os::unix::fs::{FileExt, MetadataExt};
use std::path::Path;

use lumeviqo::{Leniency, Options, PAGE, SECTOR};
use rayon::prelude::*;

use crate::args::{Common, Mend};
use crate::failure::{Failure, Result};
use crate::map::Map;
use crate::newfile::NewFile;
use crate::notes::on_places;
use crate::output::{Output, tell};
use crate::patch::{Broken, CopyPage, Patch, has_bad_crc, is_good};
use crate::progress::Progress;
use crate::reading::{self, Answer, PageReading, Stored, is_zero, read_block};
use crate::source::{BLOCK, Source, blocks_of};
use crate::sweep::{Batch, Sweep, interrupted};
use crate::tally::Tally;
use crate::words::{counted, name_of};

/// How much of an image is copied at once where no pages were asked for.
const COPIED: u64 = 1 << 20;

pub fn run(asked: &Mend, common: &Common) -> Result<u8> {
    match mend(asked, common) {
        // The file was not made, though nobody is there to be told.
        Err(Failure::ClosedPipe) => Ok(2),
        Err(Failure::Interrupted) => {
            tell("lumeviqo: interrupted: no file was written");
            Ok(Failure::Interrupted.status())
        }
        other => other,
    }
}

fn mend(asked: &Mend, common: &Common) -> Result<u8> {
    refuse_one_name_for_two(asked)?;
    let (source, copies) = open(asked, common)?;
    let sweep = Sweep::of_source(source, common.pages, common)?;
    let mut file = NewFile::create(&asked.out)?;
    let new_map = asked.new_map.as_deref().map(NewFile::create).transpose()?;
    let mut out = Output::new(common);
    let mender = Mender { source: &sweep.source, copies: &copies, options: sweep.options };
    let part = file.part().to_path_buf();
    let mut target = Target { file: file.file(), name: &part, length: sweep.source.end() };
    let done = mender.write(&sweep, &mut target, &mut out, common)?;
    file.sync()?;
    if let Some(page) = done.read_otherwise(&part, &sweep, common)? {
        let kept = file.leave();
        let words = format!("page {page} does not read as it was written: the disc may be bad");
        return Err(Failure::Differs(format!("{}: {words}; this file is left for a look, and has not got its name", name_of(&kept))));
    }
    let new_map = new_map.zip(done.map.as_ref()).map(|(file, map)| write_map(file, map)).transpose()?;
    out.line(format_args!("{}: {}", name_of(&asked.out), done.summary()))?;
    out.notes(&mender.notes(&done)?)?;
    let all_named = give_names(file, new_map)?;
    Ok(u8::from(!done.is_all_read() || !all_named))
}

fn refuse_one_name_for_two(asked: &Mend) -> Result<()> {
    match asked.new_map.as_deref().filter(|map| is_one_place(map, &asked.out)) {
        Some(map) => Err(Failure::about(map, "this is the mended file's name too: give --new-map another")),
        None => Ok(()),
    }
}

/// Whether two names, of files that need not exist, are those of one file.
fn is_one_place(one: &Path, other: &Path) -> bool {
    let folder = |path: &Path| std::fs::canonicalize(Path::new(".").join(path.parent()?)).ok();
    one.file_name() == other.file_name() && folder(one).is_some_and(|one| folder(other) == Some(one))
}

/// The file, as far as its copies go, and the copies.
fn open(asked: &Mend, common: &Common) -> Result<(Source, Vec<Source>)> {
    let mut source = Source::open(&asked.file, common.map.as_deref(), common.start)?;
    let copies = asked.copy.iter().zip(&asked.maps);
    let copies: Vec<Source> = copies.map(|(copy, map)| open_copy(copy, map.as_deref(), &asked.file, common)).collect::<Result<_>>()?;
    for copy in &copies {
        let last = (copy.end() - copy.start()).next_multiple_of(PAGE as u64);
        source.extend_to(source.start() + last);
    }
    Ok((source, copies))
}

fn open_copy(copy: &Path, map: Option<&Path>, file: &Path, common: &Common) -> Result<Source> {
    let source = Source::open(copy, map, common.start)?;
    let place = |path: &Path| std::fs::metadata(path).map(|data| (data.dev(), data.ino())).map_err(|e| Failure::of(path, &e));
    if place(copy)? == place(file)? {
        return Err(Failure::about(copy, "this is the file that is to be mended: name another copy"));
    }
    Ok(source)
}

fn write_map(mut file: NewFile, map: &Map) -> Result<NewFile> {
    let program = format!("lumeviqo {}", env!("CARGO_PKG_VERSION"));
    map.write(file.file(), &program).map_err(|e| Failure::of_writing(file.part(), &e))?;
    file.sync()?;
    Ok(file)
}

/// Whether each got its name. Once the mended file has its own it is made: a map without one is told of, and is no failure.
fn give_names(file: NewFile, map: Option<NewFile>) -> Result<bool> {
    if let Err(Failure::NotDone(words)) = file.keep() {
        let map = map.map(|map| format!("; its map is left as {}", name_of(&map.leave()))).unwrap_or_default();
        return Err(Failure::NotDone(words + &map));
    }
    if let Some(Err(Failure::NotDone(words))) = map.map(NewFile::keep) {
        tell(format_args!("lumeviqo: {words}"));
        return Ok(false);
    }
    Ok(true)
}

/// The file that is made, in which pages of zeros stay holes.
struct Target<'a> {
    file: &'a File,
    name: &'a Path,
    /// Where it ends: with the file that is mended, or behind it with the last page that a copy gave something of.
    length: u64,
}

impl Target<'_> {
    fn put(&self, at: u64, bytes: &[u8]) -> Result<()> {
        let mut pages = bytes.chunks(PAGE).zip((at..).step_by(PAGE)).filter(|(page, _)| !is_zero(page));
        pages.try_for_each(|(page, place)| self.file.write_all_at(page, place)).map_err(|e| self.failed(&e))
    }

    fn reach(&mut self, place: u64) {
        self.length = self.length.max(place);
    }

    /// Holes at its end are part of it, and zeros behind that are not.
    fn end(&self) -> Result<()> {
        self.file.set_len(self.length).map_err(|e| self.failed(&e))
    }

    fn failed(&self, error: &io::Error) -> Failure {
        Failure::of_writing(self.name, error)
    }
}

/// A page as it was said to be, once it is written.
struct Said {
    page: u64,
    /// Bit s is set where sector s is a copy's.
    replaced: u8,
    digest: u64,
}

/// What a part of the file gives, made by any thread.
#[derive(Default)]
struct Part {
    bytes: Vec<u8>,
    lines: Vec<String>,
    said: Vec<Said>,
    came_back: u64,
    /// What became of all its pages, whether a copy was tried or not.
    tally: Tally,
    /// Pages of zeros where a copy has data.
    doubtful: u64,
}

struct Mender<'a> {
    source: &'a Source,
    copies: &'a [Source],
    options: Options,
}

impl Mender<'_> {
    fn write(&self, sweep: &Sweep, target: &mut Target, out: &mut Output, common: &Common) -> Result<Done> {
        let source = self.source;
        let unread_behind = if sweep.range.end == source.page_count() { source.unread_behind() } else { 0 };
        let mut done = Done { map: source.map().cloned(), unread_behind, ..Done::default() };
        let in_file = |page: u64| source.place(page).min(source.end());
        self.copy(0..in_file(sweep.range.start), target)?;
        let progress = Progress::new(sweep.range.end - sweep.range.start, common.quiet);
        let part = |pages: reading::Part| {
            let part = self.part(&pages)?;
            progress.add(pages.wanted.end - pages.wanted.start, part.tally.refused());
            Ok((source.place(pages.wanted.start), part))
        };
        sweep.run(Batch::Contents, part, |(place, part)| {
            target.put(place, &part.bytes)?;
            part.said.last().inspect(|said| target.reach(source.place(said.page + 1)));
            let lines = || part.lines.iter().try_for_each(|line| out.line(line)).and_then(|()| out.flush());
            if !part.lines.is_empty() {
                progress.suspend(lines)?;
            }
            done.add(part, source);
            Ok(())
        })?;
        self.copy(in_file(sweep.range.end)..source.end(), target)?;
        target.end()?;
        Ok(done)
    }

    /// Bytes of the image that no page was asked of.
    fn copy(&self, range: Range<u64>, target: &Target) -> Result<()> {
        let mut bytes = Vec::new();
        for at in range.clone().step_by(COPIED as usize) {
            if interrupted() {
                return Err(Failure::Interrupted);
            }
            self.source.read_bytes(at..(at + COPIED).min(range.end), &mut bytes)?;
            target.put(at, &bytes)?;
        }
        Ok(())
    }

    fn part(&self, pages: &reading::Part) -> Result<Part> {
        let mut part = Part::default();
        pages.blocks().try_for_each(|block| self.block(&block, &mut part))?;
        Ok(part)
    }

    fn block(&self, block: &reading::Part, part: &mut Part) -> Result<()> {
        let (first, wanted) = (block.first, &block.wanted);
        let mut bytes = block.bytes.to_vec();
        let mut patches: Vec<Option<Patch>> = Vec::new();
        for (number, page) in (first..).zip(bytes.chunks_mut(PAGE)) {
            let patch = if wanted.contains(&number) { self.patch(number, page, part)? } else { None };
            if let Some(repair) = patch.as_ref().and_then(|patch| patch.repair.as_ref()) {
                page.copy_from_slice(repair.page());
            }
            patches.push(patch);
        }
        self.tell(block, &bytes, patches, part);
        let places = [wanted.start, wanted.end].map(|page| ((page - first) as usize * PAGE).min(bytes.len()));
        part.bytes.extend_from_slice(&bytes[places[0]..places[1]]);
        Ok(())
    }

    /// What is put into a page; nothing where it needs nothing.
    fn patch(&self, number: u64, page: &[u8], part: &mut Part) -> Result<Option<Patch>> {
        let unread = self.source.unread_sectors(number);
        if page.len() < PAGE {
            return Ok(None);
        }
        if unread == 0 && !has_bad_crc(number, page) {
            part.doubtful += u64::from(self.is_doubtful(number, page)?);
            return Ok(None);
        }
        let patch = Broken { number, page, unread, copies: &self.copies_of(number)? }.patch();
        patch.map(Some).map_err(|refusal| Failure::NotDone(refusal.to_string()))
    }

    /// Whether the page is zeros, with no map that says whether they were read, and a copy has data.
    fn is_doubtful(&self, number: u64, page: &[u8]) -> Result<bool> {
        Ok(self.source.map().is_none() && is_zero(page) && self.copies_of(number)?.iter().any(CopyPage::has_data))
    }

    fn copies_of(&self, number: u64) -> Result<Vec<CopyPage<'_>>> {
        self.copies.iter().filter(|copy| number < copy.page_count()).map(|copy| copy_page(copy, number)).collect()
    }

    /// How each page reads, a patched one from its kept summary, with the anchors of the block as it is now.
    fn tell(&self, block: &reading::Part, bytes: &[u8], mut patches: Vec<Option<Patch>>, part: &mut Part) {
        let first = block.first;
        let read_before = self.read_before(block, &patches);
        let pages = (first..).zip(bytes.chunks(PAGE)).zip(&mut patches);
        let stored = pages.map(|((number, bytes), patch)| {
            let unread = patch.as_ref().map_or_else(|| self.source.unread_sectors(number), |patch| patch.unread);
            Stored::new(number, bytes, unread).with_summary(patch.as_mut().and_then(|patch| patch.repair.take()))
        });
        let readings = read_block(stored, &block.wanted, self.options);
        part.tally.merge(Tally::of(&readings));
        for page in readings {
            let place = (page.number - first) as usize;
            let Some(patch) = &patches[place] else { continue };
            part.lines.push(format!("page {}: {}: {}", page.number, patch.words, summary(&page)));
            if patch.replaced != 0 {
                part.came_back += u64::from(page.outcome.is_read() && !read_before.contains(&page.number));
                let digest = digest(&bytes[place * PAGE..][..PAGE], &page);
                part.said.push(Said { page: page.number, replaced: patch.replaced, digest });
            }
        }
    }

    /// The pages of a block that can be read without its patches. Where no page that gets one can, none is read for it.
    fn read_before(&self, block: &reading::Part, patches: &[Option<Patch>]) -> Vec<u64> {
        let lenient = self.options.leniency.allows(Leniency::INTEGRITY);
        let pages = (block.first..).zip(block.bytes.chunks(PAGE)).zip(patches);
        let mut changed = pages.filter(|(_, patch)| patch.as_ref().is_some_and(|patch| patch.replaced != 0));
        if !changed.any(|((number, page), _)| lenient || is_good(number, page)) {
            return Vec::new();
        }
        let readings = block.read(self.source, self.options);
        readings.iter().filter(|page| page.outcome.is_read()).map(|page| page.number).collect()
    }

    fn notes(&self, done: &Done) -> Result<Vec<String>> {
        let zeros = (done.doubtful > 0).then(|| {
            let pages = counted(done.doubtful, "page");
            format!("{pages} of zeros where a copy has data: give the ddrescue map of the first with --map, and what it has as unread is filled too")
        });
        let behind = (done.unread_behind > 0).then(|| {
            let bytes = counted(done.unread_behind, "unread byte");
            format!("the map has {bytes} behind the last page of the copies: pages may be missing there")
        });
        let places = on_places(self.source, &done.tally)?;
        Ok(zeros.into_iter().chain(behind).chain(self.longer_copies()).chain(places).collect())
    }

    /// A file without a map may have been cut short, and nothing but a copy knows.
    fn longer_copies(&self) -> impl Iterator<Item = String> {
        let (name, end) = (self.source.name(), self.source.end());
        let longer = self.copies.iter().filter(move |copy| self.source.map().is_none() && copy.end() > end);
        longer.map(move |copy| {
            let bytes = counted(copy.end() - end, "byte");
            format!("{} goes on for {bytes} behind the end of {name}: {name} may have been cut short", copy.name())
        })
    }
}

fn copy_page(copy: &Source, number: u64) -> Result<CopyPage<'_>> {
    let mut bytes = Vec::new();
    copy.read_pages(number..number + 1, &mut bytes)?;
    Ok(CopyPage::new(copy.name(), bytes, copy.map().map(|_| copy.unread_sectors(number))))
}

/// A page's outcome with what a reader wants to know first.
fn summary(page: &PageReading) -> String {
    match &page.answer {
        Answer::Accepted(accepted) => match &accepted.row_count {
            Ok(rows) => format!("{}, {}", page.outcome, counted(*rows as u64, "row")),
            Err(refusal) => format!("{}, rows not listed (answer {})", page.outcome, refusal.number()),
        },
        Answer::Refused(refusal) => format!("{} (answer {})", page.outcome, refusal.number()),
        _ => page.outcome.to_string(),
    }
}

/// All that was said of a page, and its bytes, as one number: pages are compared by it when they are read afresh.
fn digest(stored: &[u8], page: &PageReading) -> u64 {
    let mut hasher = DefaultHasher::new();
    (stored, page.outcome.name(), page.unread).hash(&mut hasher);
    match &page.answer {
        Answer::Accepted(accepted) => {
            let said = format!("{:?} {:?}", accepted.decoding, accepted.row_count);
            (said, accepted.plain.as_slice()).hash(&mut hasher);
        }
        Answer::Refused(refusal) => format!("{refusal:?}").hash(&mut hasher),
        _ => {}
    }
    hasher.finish()
}

/// What was done in all.
#[derive(Default)]
struct Done {
    said: Vec<Said>,
    /// The map that remains.
    map: Option<Map>,
    came_back: u64,
    tally: Tally,
    doubtful: u64,
    /// Bytes that the map has as unread behind the last page.
    unread_behind: u64,
}

impl Done {
    fn add(&mut self, part: Part, source: &Source) {
        for said in &part.said {
            let sector = |s: u64| source.place(said.page) + s * SECTOR as u64;
            let replaced = (0..8).filter(|s| said.replaced >> s & 1 != 0);
            if let Some(map) = &mut self.map {
                replaced.for_each(|s| map.mark_read(sector(s)..sector(s + 1)));
            }
        }
        self.said.extend(part.said);
        self.came_back += part.came_back;
        self.tally.merge(part.tally);
        self.doubtful += part.doubtful;
    }

    /// The first changed page of the new file that, read afresh, is not what was said of it.
    fn read_otherwise(&self, part: &Path, sweep: &Sweep, common: &Common) -> Result<Option<u64>> {
        let written = Source::with_map(part, self.map.clone(), sweep.source.start())?;
        written.forget().map_err(|e| Failure::of(part, &e))?;
        let progress = Progress::new(self.said.len() as u64, common.quiet);
        let differing = |said: &[Said]| {
            if interrupted() {
                return Err(Failure::Interrupted);
            }
            let page = differing_page(&written, said, sweep.options)?;
            progress.add(said.len() as u64, 0);
            Ok(page)
        };
        let blocks: Vec<&[Said]> = self.said.chunk_by(|one, next| one.page / BLOCK == next.page / BLOCK).collect();
        let found: Vec<Option<u64>> = sweep.pool()?.install(|| blocks.into_par_iter().map(differing).collect::<Result<_>>())?;
        Ok(found.into_iter().flatten().next())
    }

    fn is_all_read(&self) -> bool {
        self.tally.refused() == 0 && self.unread_behind == 0
    }

    fn summary(&self) -> String {
        let left = match self.tally.refused() {
            0 if self.is_all_read() => "all pages asked for are read".into(),
            0 => "pages may be missing behind the last one".into(),
            refused => format!("{} not read", counted(refused, "page")),
        };
        format!("{}; {left}", self.change())
    }

    fn change(&self) -> String {
        if self.said.is_empty() {
            return "nothing was changed".into();
        }
        let sectors: u64 = self.said.iter().map(|said| u64::from(said.replaced.count_ones())).sum();
        let (pages, sectors) = (counted(self.came_back, "page"), counted(sectors, "sector"));
        format!("{pages} came back, {sectors} from copies, each read afresh from the new file")
    }
}

/// The first of these pages of one block that is not what was said of it; one that is not there any more is another too.
fn differing_page(written: &Source, said: &[Said], options: Options) -> Result<Option<u64>> {
    let (Some(first), Some(last)) = (said.first(), said.last()) else { return Ok(None) };
    if last.page >= written.page_count() {
        return Ok(Some(last.page));
    }
    let (mut bytes, wanted) = (Vec::new(), first.page..last.page + 1);
    written.read_blocks(&wanted, &mut bytes)?;
    let pages: Vec<(u64, &[u8])> = (blocks_of(&wanted).start..).zip(bytes.chunks(PAGE)).collect();
    let stored = pages.iter().map(|(number, bytes)| Stored::new(*number, bytes, written.unread_sectors(*number)));
    let readings = read_block(stored, &wanted, options);
    let differs = |said: &&Said| {
        let reading = &readings[(said.page - first.page) as usize];
        digest(pages[(said.page % BLOCK) as usize].1, reading) != said.digest
    };
    Ok(said.iter().find(differs).map(|said| said.page))
}
