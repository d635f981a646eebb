//! All pages of a range, read and decoded by several threads, and handed on in page order: a batch at a time, so that memory stays the same however
//! long the file is.
use std::mem::MaybeUninit;
use std::ops::Range;
use std::path::Path;
use std::sync::atomic::{AtomicBool, Ordering};
use std::sync::{Condvar, Mutex, PoisonError};

use lumeviqo::{Options, PAGE};
use rayon::prelude::*;

use crate::args::{Common, PageRange};
use crate::failure::{Failure, Result};
use crate::reading::{Part, looks_zero};
use crate::source::{BLOCK, Source, blocks_of};

/// How many blocks are handed on at a time. Waking the threads for a batch must cost little beside it, also where its pages are zeros; but what its
/// pages give must fit into memory.
pub enum Batch {
    /// Of each page little more than a number is kept.
    Counts = 512,
    /// Of each page its bytes or rows are kept.
    Contents = 128,
}

static INTERRUPTED: AtomicBool = AtomicBool::new(false);

/// From now on Ctrl-C and the like are looked at between parts, so that nothing is left half done. What whoever started the program had ignored, as
/// nohup does, stays ignored: it is held back while the handler is set, and what was held back is dropped where it is ignored again.
pub fn watch_for_interrupts() -> Result<()> {
    let ignored: Vec<i32> = [libc::SIGINT, libc::SIGTERM, libc::SIGHUP].into_iter().filter(|signal| is_ignored(*signal)).collect();
    let noted = || INTERRUPTED.store(true, Ordering::Relaxed);
    mask(libc::SIG_BLOCK, &ignored);
    let watched = ctrlc::set_handler(noted);
    for signal in &ignored {
        // SAFETY: to ignore a signal needs no handler that would have to be safe.
        unsafe { libc::signal(*signal, libc::SIG_IGN) };
    }
    mask(libc::SIG_UNBLOCK, &ignored);
    watched.map_err(|e| Failure::NotDone(format!("interrupts can't be watched for: {e}")))
}

/// Holds these signals back from this thread and those that it starts, or no longer.
fn mask(how: i32, signals: &[i32]) {
    let mut set = MaybeUninit::<libc::sigset_t>::zeroed();
    // SAFETY: all of it is written to the place lent for it, an empty set first.
    unsafe {
        libc::sigemptyset(set.as_mut_ptr());
        signals.iter().for_each(|signal| _ = libc::sigaddset(set.as_mut_ptr(), *signal));
        libc::pthread_sigmask(how, set.as_ptr(), std::ptr::null_mut());
    }
}

fn is_ignored(signal: i32) -> bool {
    let mut action = MaybeUninit::<libc::sigaction>::zeroed();
    // SAFETY: it writes the present action to the place lent for it, or nothing, and that is zeros, which is an action.
    unsafe { libc::sigaction(signal, std::ptr::null(), action.as_mut_ptr()) == 0 && action.assume_init().sa_sigaction == libc::SIG_IGN }
}

pub fn interrupted() -> bool {
    INTERRUPTED.load(Ordering::Relaxed)
}

pub struct Sweep {
    pub source: Source,
    pub range: Range<u64>,
    pub options: Options,
    pub threads: usize,
}

impl Sweep {
    /// The pages that were asked for, of which there must be some.
    pub fn asked(file: &Path, common: &Common) -> Result<Sweep> {
        Sweep::of_pages(file, common.pages, common)
    }

    pub fn of_pages(file: &Path, pages: PageRange, common: &Common) -> Result<Sweep> {
        Sweep::of_source(Source::open(file, common.map.as_deref(), common.start)?, pages, common)
    }

    pub fn of_source(source: Source, pages: PageRange, common: &Common) -> Result<Sweep> {
        let range = pages.within(source.page_count());
        if range.is_empty() {
            let last = source.page_count() - 1;
            return Err(Failure::NotDone(format!("{}: it has pages 0 to {last}, and none of those was asked for", source.name())));
        }
        Ok(Sweep { source, range, options: common.options(), threads: common.threads.unwrap_or_else(cores) })
    }

    /// `work` is done on each part by any thread, `each` on what it gives, in order, by this one. Where there is a core to spare, there is one thread
    /// more than may decode at a time, so that one reads meanwhile, and then decodes what it has at hand. Zeros are hardly more work than their
    /// reading, and take no turn.
    pub fn run<T: Send>(&self, batch: Batch, work: impl Fn(Part) -> Result<T> + Sync, mut each: impl FnMut(T) -> Result<()>) -> Result<()> {
        let pool = pool_of(self.threads + usize::from(self.threads < cores()))?;
        let (turns, rooms) = (Turns::new(self.threads), Rooms::default());
        let part = |wanted: Range<u64>| {
            if interrupted() {
                return Err(Failure::Interrupted);
            }
            rooms.lend(|bytes| {
                let hole = self.source.read_blocks(&wanted, bytes)?;
                let zeros: Vec<bool> = bytes.chunks(PAGE).map(|page| hole || looks_zero(page)).collect();
                let part = Part { first: blocks_of(&wanted).start, wanted, bytes, zeros: &zeros };
                if zeros.contains(&false) { turns.take(|| work(part)) } else { work(part) }
            })
        };
        for batch in parts(&self.range, BLOCK * batch as u64) {
            let ranges: Vec<Range<u64>> = parts(&batch, BLOCK).collect();
            let done: Vec<Result<T>> = pool.install(|| ranges.into_par_iter().with_max_len(1).map(part).collect());
            done.into_iter().try_for_each(|done| each(done?))?;
        }
        Ok(())
    }

    pub fn pool(&self) -> Result<rayon::ThreadPool> {
        pool_of(self.threads)
    }
}

fn cores() -> usize {
    std::thread::available_parallelism().map_or(1, |cores| cores.get())
}

fn pool_of(threads: usize) -> Result<rayon::ThreadPool> {
    let pool = rayon::ThreadPoolBuilder::new().num_threads(threads).build();
    pool.map_err(|e| Failure::NotDone(format!("{threads} threads can't be had: {e}")))
}

/// Memory that parts are read into, again and again: what the processor has at hand is not given back to the system.
#[derive(Default)]
struct Rooms(Mutex<Vec<Vec<u8>>>);

impl Rooms {
    fn lend<T>(&self, work: impl FnOnce(&mut Vec<u8>) -> T) -> T {
        let free = || self.0.lock().unwrap_or_else(PoisonError::into_inner);
        let mut room = free().pop().unwrap_or_default();
        let done = work(&mut room);
        free().push(room);
        done
    }
}

/// So many may work at a time.
struct Turns {
    left: Mutex<usize>,
    given_back: Condvar,
}

impl Turns {
    fn new(count: usize) -> Turns {
        Turns { left: Mutex::new(count), given_back: Condvar::new() }
    }

    fn take<T>(&self, work: impl FnOnce() -> T) -> T {
        let left = self.left.lock().unwrap_or_else(PoisonError::into_inner);
        let mut left = self.given_back.wait_while(left, |left| *left == 0).unwrap_or_else(PoisonError::into_inner);
        *left -= 1;
        drop(left);
        let done = work();
        *self.left.lock().unwrap_or_else(PoisonError::into_inner) += 1;
        self.given_back.notify_one();
        done
    }
}

/// The range in parts that end at multiples of `length`.
fn parts(range: &Range<u64>, length: u64) -> impl Iterator<Item = Range<u64>> {
    let end = range.end;
    let mut from = range.start;
    std::iter::from_fn(move || {
        let part = from..(from / length + 1).saturating_mul(length).min(end);
        from = part.end;
        (part.start < part.end).then_some(part)
    })
}

#[cfg(test)]
mod tests {
    use super::*;

    #[test]
    fn parts_cover_a_range_once_and_in_order() {
        let cut = |range: Range<u64>| parts(&range, 32).collect::<Vec<_>>();
        assert_eq!(cut(0..64), [0..32, 32..64]);
        assert_eq!(cut(21..70), [21..32, 32..64, 64..70]);
        assert_eq!(cut(5..6), [5..6]);
        assert!(cut(7..7).is_empty());
    }
}
