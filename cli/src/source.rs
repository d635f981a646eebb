//! A page file as it lies on disc, opened for reading only, with the map of what was read of it.
use std::fs::File;
use std::io::{self, Seek, SeekFrom};
use std::ops::Range;
use std::os::fd::AsRawFd;
use std::os::unix::fs::{FileExt, FileTypeExt};
use std::path::{Path, PathBuf};
use std::sync::atomic::{AtomicU64, Ordering};

use lumeviqo::PAGE;

use crate::failure::{Failure, Result};
use crate::map::Map;
use crate::words::name_of;

pub const BLOCK: u64 = lumeviqo::BLOCK_PAGES;
const PAGE_BYTES: u64 = PAGE as u64;

/// The pages of the blocks that these lie in; of the last block a file may have fewer.
pub fn blocks_of(pages: &Range<u64>) -> Range<u64> {
    pages.start / BLOCK * BLOCK..pages.end.next_multiple_of(BLOCK)
}

/// Where data was last found, so that the system is not asked again for each part of it. Threads that note at once may lose what they know, and ask.
#[derive(Default)]
struct KnownData {
    from: AtomicU64,
    to: AtomicU64,
}

impl KnownData {
    fn has(&self, range: &Range<u64>) -> bool {
        self.from.load(Ordering::Relaxed) <= range.start && range.end <= self.to.load(Ordering::Relaxed)
    }

    fn note(&self, data: Range<u64>) {
        self.from.store(data.start, Ordering::Relaxed);
        self.to.store(data.end, Ordering::Relaxed);
    }
}

pub struct Source {
    path: PathBuf,
    name: String,
    file: File,
    map: Option<Map>,
    /// Where page 0 begins in the file.
    start: u64,
    /// Where the file ends.
    end: u64,
    /// Where the pages end: with the file, or behind it with those that its map has as unread.
    pages_end: u64,
    data: KnownData,
}

impl Source {
    pub fn open(path: &Path, map: Option<&Path>, start: u64) -> Result<Source> {
        Source::with_map(path, map.map(read_map).transpose()?, start)
    }

    pub fn with_map(path: &Path, map: Option<Map>, start: u64) -> Result<Source> {
        let (file, end) = open_file(path)?;
        if start >= end {
            return Err(Failure::about(
                path,
                &format!("it has {end} bytes: --start {start} is not inside it, and its first page would begin there"),
            ));
        }
        let pages_end = map.as_ref().map_or(end, |map| end_with_unread(&file, map, start, end));
        Ok(Source { path: path.into(), name: name_of(path), file, map, start, end, pages_end, data: KnownData::default() })
    }

    pub fn path(&self) -> &Path {
        &self.path
    }

    /// As it was named, for a line that speaks of it.
    pub fn name(&self) -> &str {
        &self.name
    }

    pub fn map(&self) -> Option<&Map> {
        self.map.as_ref()
    }

    pub fn start(&self) -> u64 {
        self.start
    }

    /// Bytes of the whole file, those before --start too.
    pub fn end(&self) -> u64 {
        self.end
    }

    /// Bytes of the page file, which begins at --start.
    pub fn size(&self) -> u64 {
        self.end - self.start
    }

    /// A last page that is cut short is one too.
    pub fn page_count(&self) -> u64 {
        (self.pages_end - self.start).div_ceil(PAGE_BYTES)
    }

    /// How many pages the file itself has nothing of.
    pub fn pages_behind_the_end(&self) -> u64 {
        self.page_count() - self.size().div_ceil(PAGE_BYTES)
    }

    /// Pages up to this place are there too, if the map has them as unread behind the file's end: a further copy goes on that far.
    pub fn extend_to(&mut self, place: u64) {
        if let Some(map) = self.map.as_ref().filter(|map| !map.has_read(self.end..u64::MAX)) {
            self.pages_end = self.pages_end.max(place.min(map.end()));
        }
    }

    /// How many bytes the map has as unread behind the last page.
    pub fn unread_behind(&self) -> u64 {
        let map = self.map.as_ref().filter(|map| !map.has_read(self.end..u64::MAX));
        map.map_or(0, |map| map.end().saturating_sub(self.pages_end))
    }

    /// Where a page begins in the file.
    pub fn place(&self, page: u64) -> u64 {
        self.start + page * PAGE_BYTES
    }

    /// Bit s is set where sector s of the page was not wholly read.
    pub fn unread_sectors(&self, page: u64) -> u8 {
        self.map.as_ref().map_or(0, |map| map.unread_sectors(self.place(page)))
    }

    /// The bytes of the blocks that these pages lie in; zeros where the map has unread bytes behind the file's end. Whether all of it is a hole.
    pub fn read_blocks(&self, pages: &Range<u64>, bytes: &mut Vec<u8>) -> Result<bool> {
        let blocks = blocks_of(pages);
        self.read_pages(blocks.start..blocks.end.min(self.page_count()), bytes)
    }

    /// The same of these pages alone.
    pub fn read_pages(&self, pages: Range<u64>, bytes: &mut Vec<u8>) -> Result<bool> {
        let (first, behind) = (self.place(pages.start), self.place(pages.end).min(self.pages_end));
        bytes.resize((behind - first) as usize, 0);
        let there = behind.min(self.end).saturating_sub(first) as usize;
        bytes[there..].fill(0);
        self.fill(&mut bytes[..there], first)
    }

    fn fill(&self, bytes: &mut [u8], place: u64) -> Result<bool> {
        let hole = self.is_hole(place..place + bytes.len() as u64);
        if hole {
            bytes.fill(0);
        } else {
            self.file.read_exact_at(bytes, place).map_err(|e| self.unreadable(&e))?;
        }
        Ok(hole)
    }

    /// Whether the system knows that nothing was ever written there: such zeros need not be read, which is ten times as fast on a sparse image.
    /// A file that has become shorter has no holes.
    fn is_hole(&self, range: Range<u64>) -> bool {
        if self.data.has(&range) {
            return false;
        }
        let Some(data) = self.next(range.start, libc::SEEK_DATA) else { return self.is_long_enough(&range) };
        self.data.note(data..self.next(data, libc::SEEK_HOLE).unwrap_or(data));
        data >= range.end && self.is_long_enough(&range)
    }

    /// Where the next data or the next hole begins. The file's own position is not used.
    fn next(&self, place: u64, what: i32) -> Option<u64> {
        // SAFETY: it takes numbers alone.
        let next = unsafe { libc::lseek(self.file.as_raw_fd(), place as i64, what) };
        if next < 0 && io::Error::last_os_error().raw_os_error() != Some(libc::ENXIO) { Some(place) } else { u64::try_from(next).ok() }
    }

    fn is_long_enough(&self, range: &Range<u64>) -> bool {
        self.file.metadata().is_ok_and(|file| file.len() >= range.end)
    }

    /// Bytes of the image, wherever its pages are.
    pub fn read_bytes(&self, range: Range<u64>, bytes: &mut Vec<u8>) -> Result<()> {
        bytes.resize((range.end - range.start) as usize, 0);
        self.fill(bytes, range.start).map(|_| ())
    }

    /// What the system keeps of the file in memory is given up, so that the next reading is from the disc.
    pub fn forget(&self) -> io::Result<()> {
        // SAFETY: it takes numbers alone.
        match unsafe { libc::posix_fadvise(self.file.as_raw_fd(), 0, 0, libc::POSIX_FADV_DONTNEED) } {
            0 => Ok(()),
            error => Err(io::Error::from_raw_os_error(error)),
        }
    }

    fn unreadable(&self, error: &io::Error) -> Failure {
        if error.kind() == io::ErrorKind::UnexpectedEof {
            let words = "it became shorter while it was read: let whatever writes to it end, and begin again";
            return Failure::about(&self.path, words);
        }
        Failure::of(&self.path, error)
    }
}

/// A rescue whose last bytes could not be read leaves an image that ends before them: its map alone knows of them. How many pages there should be
/// the superblock says; where it is lost, a tail as long as the image is believed, and no longer one, which would be the rest of a disc. A map that
/// has bytes there as read is not that of the image.
fn end_with_unread(file: &File, map: &Map, start: u64, end: u64) -> u64 {
    if map.end() <= end || map.has_read(end..map.end()) {
        return end;
    }
    let declared = declared_pages(file, start).map(|pages| start + pages * PAGE_BYTES);
    match declared {
        Some(declared) => declared.min(map.end()).max(end),
        None if map.end() - end <= end - start => map.end(),
        None => end,
    }
}

/// How many pages a sound superblock says that there are.
fn declared_pages(file: &File, start: u64) -> Option<u64> {
    let mut page = [0; PAGE];
    file.read_exact_at(&mut page, start).ok()?;
    lumeviqo::integrity(0, &page).ok()?;
    Some(lumeviqo::superblock_checked(&page).ok()?.page_hint.into())
}

fn read_map(path: &Path) -> Result<Map> {
    let text = std::fs::read(path).map_err(|e| Failure::of(path, &e))?;
    Map::parse(&text).map_err(|e| Failure::about(path, &e.to_string()))
}

/// The file and its length. A pipe has no places to read at, and opening one waits for a writer.
fn open_file(path: &Path) -> Result<(File, u64)> {
    let failure = |e: io::Error| Failure::of(path, &e);
    let kind = std::fs::metadata(path).map_err(failure)?.file_type();
    let wrong = |words: &str| Err(Failure::about(path, words));
    if kind.is_dir() {
        return wrong("this is a directory: name the page file in it");
    }
    if kind.is_fifo() || kind.is_socket() || kind.is_char_device() {
        return wrong("this is no file with places to read at: save it to a file, and name that");
    }
    let mut file = File::open(path).map_err(failure)?;
    match file.seek(SeekFrom::End(0)).map_err(failure)? {
        0 => wrong("the file is empty: there is no page in it"),
        end => Ok((file, end)),
    }
}
