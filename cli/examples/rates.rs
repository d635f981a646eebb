//! How fast a page file is read from its beginning to its end, how fast the library decodes pages like its first, and how fast it reads them as pages of
//! a block, each alone: `rates FILE THREADS`, in pages a second. `cli/bench` holds `survey` against the first and the last.
use std::fs::File;
use std::hint::black_box;
use std::os::unix::fs::FileExt;
use std::sync::atomic::{AtomicU64, Ordering};
use std::time::Instant;

use lumeviqo::{Leniency, Options, PAGE, Refusal, Repair};

/// Two blocks of pages.
const PART: usize = 32 * PAGE;

fn main() {
    let mut words = std::env::args().skip(1);
    let (path, threads) = (words.next().expect("a file"), words.next().expect("how many threads").parse().expect("a number"));
    let file = File::open(&path).expect("the file can be opened");
    let pages = file.metadata().expect("the file has a length").len() / PAGE as u64;
    let read = timed(pages, 1, |first, bytes| file.read_exact_at(bytes, first * PAGE as u64).expect("the file can be read"));
    let mut part = vec![0; PART];
    file.read_exact_at(&mut part, 0).expect("the file has 32 pages");
    let [decoded, in_block] = [decode, read_in_block].map(|question| timed(pages, threads, |first, _| each_page(first, &part, question)));
    println!("{read:.0} {decoded:.0} {in_block:.0}");
}

/// Pages a second: the work is done for each part of the file, by any thread.
fn timed(pages: u64, threads: usize, work: impl Fn(u64, &mut [u8]) + Sync) -> f64 {
    let next = AtomicU64::new(0);
    let part = (PART / PAGE) as u64;
    let start = Instant::now();
    std::thread::scope(|scope| {
        for _ in 0..threads {
            scope.spawn(|| {
                let mut bytes = vec![0; PART];
                loop {
                    let first = next.fetch_add(part, Ordering::Relaxed);
                    if first + part > pages {
                        break;
                    }
                    work(first, &mut bytes);
                }
            });
        }
    });
    (pages / part * part) as f64 / start.elapsed().as_secs_f64()
}

/// The pages are the file's first 32 every time, so that nothing but the library is timed.
fn each_page(first: u64, part: &[u8], question: fn(u64, &[u8])) {
    (first..).zip(part.chunks(PAGE)).for_each(|(number, page)| question(number, page));
}

fn decode(number: u64, page: &[u8]) {
    let mut plain = [0; PAGE];
    let _ = black_box(lumeviqo::decode(number, page, &[], Options::default(), &mut plain));
}

/// With no shortcut: its integrity, its own bv for the other pages of the block, its reading with the block's anchors, its rows.
fn read_in_block(number: u64, page: &[u8]) {
    let _ = black_box(row_count(number, page));
}

fn row_count(number: u64, page: &[u8]) -> Result<usize, Refusal> {
    lumeviqo::integrity(number, page)?;
    let repair = Repair::new(number, page)?;
    let own = repair.decode(&[], Options { leniency: Leniency::KEYSTREAM, ..Options::default() })?;
    let reading = repair.decode(own.decoding.bv.as_slice(), Options::default())?;
    lumeviqo::row_count(number, &reading.plain[..], Options::default())
}
