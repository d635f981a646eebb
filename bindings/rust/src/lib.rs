//! Lumeviqo reads SQL Anywhere 17 page files: it undoes the shift of each page's bytes, and finds its rows. Every function of the library
//! behind this crate is proved equal to a definition; this crate only checks lengths and gives the answers types.
//!
//! A page goes through [`decode`], which writes its plaintext to a lent buffer, and the plaintext through [`parse`] or [`rows`]:
//!
//! ```
//! let stored = &std::fs::read("../sample.pages").unwrap()[lumeviqo::PAGE..2 * lumeviqo::PAGE];
//! let mut plain = [0; lumeviqo::PAGE];
//! let decoding = lumeviqo::decode(1, stored, &[], lumeviqo::Options::default(), &mut plain)?;
//! println!("{}", decoding.confidence);
//! for row in lumeviqo::rows(1, &plain, lumeviqo::Options::default())? {
//!     println!("{:04x}: {} bytes", row.offset, row.bytes.len());
//! }
//! # Ok::<(), lumeviqo::Refusal>(())
//! ```
//!
//! A file's pages come from [`Pages`], block by block. A page with sectors that could not be read is mended by a [`Repair`] from a second
//! copy. Do that before you read it with leniency: a sector of zeros in the place of an unread one is exact, and so misleads the choice of
//! bv. An unread page is all zero, and is taken as unallocated: nothing in it tells the two apart.
//!
//! [`scan`], [`replace`], [`decode_summary`] and [`decode_supplied_summary`] do what a [`Repair`] does in buffers that you lend. Nothing
//! checks that a page, its number, its shifted bytes and its fits belong together, so use [`Repair`] unless you need to lend them.
//!
//! Every function panics where the library that is linked is of another version than the header.
#![warn(missing_docs)]
mod answers;
mod layout;
mod messages;
mod numbers;
mod options;
mod pages;
mod repair;
pub mod sys;
mod version;
mod words;

use std::mem::MaybeUninit;

pub use answers::*;
pub use options::{Leniency, Options};
pub use pages::{BLOCK_PAGES, Block, Pages};
pub use repair::{Reading, Repair};

/// The numbers of include/lumeviqo.h: versions, lengths, offsets in layouts, answers and kinds. `header::X` is LUMEVIQO_X there.
#[allow(unused_parens)]
pub mod header {
    include!(concat!(env!("OUT_DIR"), "/header.rs"));
}

/// Bytes of a page.
pub const PAGE: usize = header::PAGE_LENGTH;
/// Bytes of a page that are shifted: all but the trailer.
pub const SHIFTED: usize = header::SHIFTED_LENGTH;
/// Bytes of a sector. Those of the last end with the trailer.
pub const SECTOR: usize = header::SECTOR_LENGTH;

/// CRC-32 as ITU-T V.42 defines it.
pub fn crc32(bytes: &[u8]) -> u32 {
    version::check();
    unsafe { sys::lumeviqo_crc32(bytes.as_ptr(), bytes.len()) }
}

/// The trailer record of a page.
///
/// # Errors
/// [`Refusal::WrongPageLength`].
pub fn trailer(page: &[u8]) -> Result<Trailer, Refusal> {
    asked::<{ header::TRAILER_LENGTH }, _>(layout::trailer, |a, n| unsafe { sys::lumeviqo_trailer(page.as_ptr(), page.len(), a, n) })
}

/// Accepts an unallocated page, and one whose CRC and reserved bytes are right.
///
/// # Errors
/// [`Refusal::WrongPageLength`], [`Refusal::BadCrc`], [`Refusal::BadTrailer`].
pub fn integrity(number: u64, stored: &[u8]) -> Result<(), Refusal> {
    asked::<{ header::INTEGRITY_LENGTH }, _>(layout::integrity, |a, n| unsafe {
        sys::lumeviqo_integrity(number, stored.as_ptr(), stored.len(), a, n)
    })
}

/// The fields of page 0, whatever its magic.
///
/// # Errors
/// [`Refusal::WrongPageLength`].
pub fn superblock(stored: &[u8]) -> Result<Superblock, Refusal> {
    asked::<{ header::SUPERBLOCK_LENGTH }, _>(layout::superblock, |a, n| unsafe {
        sys::lumeviqo_superblock(stored.as_ptr(), stored.len(), a, n)
    })
}

/// The fields of page 0, if it has the magic of SQL Anywhere 17.
///
/// # Errors
/// [`Refusal::WrongPageLength`], [`Refusal::BadMagic`].
pub fn superblock_checked(stored: &[u8]) -> Result<Superblock, Refusal> {
    asked::<{ header::SUPERBLOCK_LENGTH }, _>(layout::superblock, |a, n| unsafe {
        sys::lumeviqo_superblock_checked(stored.as_ptr(), stored.len(), a, n)
    })
}

/// The fits of a stored page; its shifted bytes go to `shifted`.
///
/// What is made of them later must be asked under the same page number. Use [`Repair`], which sees to that, unless you lend buffers.
///
/// # Errors
/// [`Refusal::WrongPageLength`], [`Refusal::WrongBufferLength`].
pub fn scan(number: u64, stored: &[u8], shifted: &mut [u8]) -> Result<Fits, Refusal> {
    asked::<{ header::SCAN_LENGTH }, _>(layout::scan, |a, n| unsafe {
        sys::lumeviqo_scan(number, stored.as_ptr(), stored.len(), shifted.as_mut_ptr(), shifted.len(), a, n)
    })
}

/// Puts 512 new bytes into a sector of a stored page, sector 7 with its trailer. The fits and the shifted bytes are then those of the new
/// page. What is wrong in a trailer shows when the page is decoded.
///
/// The page number must be that of [`scan`], and the fits those of the last step, be it that or a replacement: otherwise what is decoded is
/// of no page, and nothing says so. Use [`Repair`], which sees to that, unless you lend buffers.
///
/// # Errors
/// [`Refusal::WrongPageLength`], [`Refusal::WrongBufferLength`], [`Refusal::BadReplacement`].
pub fn replace(number: u64, stored: &mut [u8], shifted: &mut [u8], fits: &Fits, sector: usize, bytes: &[u8]) -> Result<Fits, Refusal> {
    let fits = layout::fits_bytes(fits);
    asked::<{ header::REPLACEMENT_LENGTH }, _>(layout::replacement, |a, n| unsafe {
        sys::lumeviqo_replace(
            number,
            stored.as_mut_ptr(),
            stored.len(),
            shifted.as_mut_ptr(),
            shifted.len(),
            fits.as_ptr(),
            fits.len(),
            sector,
            bytes.as_ptr(),
            bytes.len(),
            a,
            n,
        )
    })
}

/// Decodes a stored page; the plaintext goes to `out`. `anchors` are values of bv of other pages of the block: 16 pages, the first a
/// multiple of 16. Page 0 is the superblock and is not shifted: see [`superblock`].
///
/// Zeros in the place of a sector that could not be read mislead the choice of bv where INTEGRITY lets the page through: mend it first, by
/// a [`Repair`]. A page of zeros is taken as unallocated, also where it was never read.
///
/// # Errors
/// [`Refusal::WrongPageLength`], [`Refusal::WrongBufferLength`], [`Refusal::LimitOutOfRange`]; without INTEGRITY [`Refusal::BadCrc`],
/// [`Refusal::BadTrailer`]; without KEYSTREAM [`Refusal::AmbiguousCalibration`], [`Refusal::KeystreamUnverified`],
/// [`Refusal::LowConfidenceKeystream`].
pub fn decode(number: u64, stored: &[u8], anchors: &[u8], options: Options, out: &mut [u8]) -> Result<Decoding, Refusal> {
    let (asked_with, wrong) = (Asked::with_anchors(anchors, options), first_wrong(out));
    asked::<{ header::DECODING_LENGTH }, _>(
        |answer| layout::decoding(answer, asked_with, wrong),
        |a, n| unsafe {
            sys::lumeviqo_decode(
                number,
                stored.as_ptr(),
                stored.len(),
                anchors.as_ptr(),
                anchors.len(),
                options.leniency.0,
                options.min_trailer_count,
                options.search_limit,
                out.as_mut_ptr(),
                out.len(),
                a,
                n,
            )
        },
    )
}

/// Decodes a stored page from its summary.
///
/// The page number must be that of [`scan`], and the fits and shifted bytes those of the last step: otherwise what is decoded is of no
/// page, and nothing says so. Use [`Repair`], which sees to that, unless you lend buffers.
///
/// # Errors
/// As [`decode`].
pub fn decode_summary(
    number: u64,
    stored: &[u8],
    fits: &Fits,
    shifted: &[u8],
    anchors: &[u8],
    options: Options,
    out: &mut [u8],
) -> Result<Decoding, Refusal> {
    let (asked_with, wrong) = (Asked::with_anchors(anchors, options), first_wrong(out));
    let fits = layout::fits_bytes(fits);
    asked::<{ header::DECODING_LENGTH }, _>(
        |answer| layout::decoding(answer, asked_with, wrong),
        |a, n| unsafe {
            sys::lumeviqo_decode_summary(
                number,
                stored.as_ptr(),
                stored.len(),
                fits.as_ptr(),
                fits.len(),
                shifted.as_ptr(),
                shifted.len(),
                anchors.as_ptr(),
                anchors.len(),
                options.leniency.0,
                options.min_trailer_count,
                options.search_limit,
                out.as_mut_ptr(),
                out.len(),
                a,
                n,
            )
        },
    )
}

/// Decodes a stored page with a given bv, and no check of its CRC.
///
/// # Errors
/// [`Refusal::WrongPageLength`], [`Refusal::WrongBufferLength`], [`Refusal::LimitOutOfRange`]; without KEYSTREAM
/// [`Refusal::KeystreamUnverified`], [`Refusal::LowConfidenceKeystream`].
pub fn decode_supplied(number: u64, stored: &[u8], bv: u8, options: Options, out: &mut [u8]) -> Result<Decoding, Refusal> {
    let (asked_with, wrong) = (Asked::with_bv(options), first_wrong(out));
    asked::<{ header::DECODING_LENGTH }, _>(
        |answer| layout::decoding(answer, asked_with, wrong),
        |a, n| unsafe {
            sys::lumeviqo_decode_supplied(
                number,
                stored.as_ptr(),
                stored.len(),
                bv,
                options.leniency.0,
                options.min_trailer_count,
                options.search_limit,
                out.as_mut_ptr(),
                out.len(),
                a,
                n,
            )
        },
    )
}

/// The same from its summary.
///
/// The page number must be that of [`scan`], and the fits and shifted bytes those of the last step: otherwise what is decoded is of no
/// page, and nothing says so. Use [`Repair`], which sees to that, unless you lend buffers.
///
/// # Errors
/// As [`decode_supplied`].
pub fn decode_supplied_summary(
    number: u64,
    stored: &[u8],
    fits: &Fits,
    shifted: &[u8],
    bv: u8,
    options: Options,
    out: &mut [u8],
) -> Result<Decoding, Refusal> {
    let (asked_with, wrong) = (Asked::with_bv(options), first_wrong(out));
    let fits = layout::fits_bytes(fits);
    asked::<{ header::DECODING_LENGTH }, _>(
        |answer| layout::decoding(answer, asked_with, wrong),
        |a, n| unsafe {
            sys::lumeviqo_decode_supplied_summary(
                number,
                stored.as_ptr(),
                stored.len(),
                fits.as_ptr(),
                fits.len(),
                shifted.as_ptr(),
                shifted.len(),
                bv,
                options.leniency.0,
                options.min_trailer_count,
                options.search_limit,
                out.as_mut_ptr(),
                out.len(),
                a,
                n,
            )
        },
    )
}

/// The slot directory of a plain page.
///
/// # Errors
/// [`Refusal::WrongPageLength`], [`Refusal::LimitOutOfRange`]; without DIRECTORY [`Refusal::NoSlotDirectory`], [`Refusal::UnknownPrelude`],
/// [`Refusal::SlotDirectoryTruncated`], [`Refusal::AmbiguousSlotDirectory`], [`Refusal::SlotOffsetInDirectory`].
pub fn parse(number: u64, plain: &[u8], options: Options) -> Result<Parsed, Refusal> {
    asked::<{ header::PARSE_LENGTH }, _>(layout::parsed, |a, n| unsafe {
        sys::lumeviqo_parse(number, plain.as_ptr(), plain.len(), options.leniency.0, options.search_limit, a, n)
    })
}

/// How many rows a plain page has.
///
/// # Errors
/// As [`parse`].
pub fn row_count(number: u64, plain: &[u8], options: Options) -> Result<usize, Refusal> {
    asked::<{ header::ROW_COUNT_LENGTH }, _>(layout::row_count, |a, n| unsafe {
        sys::lumeviqo_row_count(number, plain.as_ptr(), plain.len(), options.leniency.0, options.search_limit, a, n)
    })
}

/// A row of a plain page. Rows ascend by offset, and the first is row 0.
///
/// # Errors
/// As [`parse`], and [`Refusal::NoSuchRow`].
pub fn row(number: u64, plain: &[u8], options: Options, row: usize) -> Result<Row<'_>, Refusal> {
    let (offset, end) = asked::<{ header::ROW_LENGTH }, _>(layout::row, |a, n| unsafe {
        sys::lumeviqo_row(number, plain.as_ptr(), plain.len(), options.leniency.0, options.search_limit, row, a, n)
    })?;
    Ok(row_from(plain, offset, end))
}

/// All rows of a plain page, found in one pass.
///
/// # Errors
/// As [`parse`].
pub fn rows(number: u64, plain: &[u8], options: Options) -> Result<Vec<Row<'_>>, Refusal> {
    let bounds = asked::<{ header::ROWS_LENGTH }, _>(layout::row_bounds, |a, n| unsafe {
        sys::lumeviqo_rows(number, plain.as_ptr(), plain.len(), options.leniency.0, options.search_limit, a, n)
    })?;
    Ok(bounds.windows(2).map(|w| row_from(plain, w[0], w[1])).collect())
}

fn row_from(plain: &[u8], offset: u16, end: u16) -> Row<'_> {
    Row { offset, bytes: &plain[offset as usize..end as usize] }
}

/// Which buffer answer 2 is about: the library looks at `out` before `shifted`.
fn first_wrong(out: &[u8]) -> Buffer {
    if out.len() == PAGE { Buffer::Shifted } else { Buffer::Out }
}

/// What is read from the answer of a function, which writes N bytes of it. They are not cleared before, nor copied: for the longest layouts
/// that took a tenth of a call.
fn asked<const N: usize, T>(read: impl FnOnce(&[u8]) -> T, ask: impl FnOnce(*mut u8, usize) -> usize) -> T {
    version::check();
    let mut answer = MaybeUninit::<[u8; N]>::uninit();
    let written = ask(answer.as_mut_ptr().cast(), N);
    assert_eq!(written, N, "the library and this crate differ in a layout");
    // SAFETY: a function that returns N has written N bytes, which is proved of each.
    read(unsafe { answer.assume_init_ref() })
}
