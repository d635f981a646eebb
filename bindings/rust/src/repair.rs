//! A page that is mended sector by sector: its summary cannot be that of another page, of another number or of an earlier step.
use std::fmt;

use crate::answers::{Decoding, Fits, Parsed, Refusal, Row};
use crate::options::Options;
use crate::{PAGE, SHIFTED};

/// A stored page beside the summary of its sectors, which is made once and then kept up to date.
///
/// ```
/// use lumeviqo::{Confidence, Options, PAGE, Refusal, Repair, SECTOR};
///
/// let whole = &std::fs::read("../sample.pages").unwrap()[PAGE..2 * PAGE];
/// let mut rescued = whole.to_vec();
/// rescued[3 * SECTOR..4 * SECTOR].fill(0); // sector 3 could not be read
///
/// let mut repair = Repair::new(1, &rescued)?;
/// assert!(matches!(repair.decode(&[], Options::default()), Err(Refusal::BadCrc { .. })));
/// repair.replace(3, &whole[3 * SECTOR..4 * SECTOR])?; // from a second copy
/// let reading = repair.decode(&[], Options::default())?;
/// assert_eq!(reading.decoding.confidence, Confidence::Verified);
/// assert_eq!(reading.rows(Options::default())?[0].bytes, b"1 Turdus merula, dawn");
/// # Ok::<(), Refusal>(())
/// ```
///
/// Nothing but a replacement changes the page, its number or its fits:
///
/// ```compile_fail,E0616
/// let mut repair = lumeviqo::Repair::new(1, &[0; lumeviqo::PAGE]).unwrap();
/// let other = lumeviqo::Repair::new(2, &[0; lumeviqo::PAGE]).unwrap();
/// repair.fits = *other.fits();
/// ```
#[derive(Clone)]
pub struct Repair {
    number: u64,
    page: [u8; PAGE],
    shifted: [u8; SHIFTED],
    fits: Fits,
}

impl Repair {
    /// Scans a stored page, once.
    ///
    /// # Errors
    /// [`Refusal::WrongPageLength`] where `page` has other than [`PAGE`] bytes.
    pub fn new(number: u64, page: &[u8]) -> Result<Repair, Refusal> {
        let page = *<&[u8; PAGE]>::try_from(page).map_err(|_| Refusal::WrongPageLength(page.len()))?;
        let mut shifted = [0; SHIFTED];
        let fits = crate::scan(number, &page, &mut shifted)?;
        Ok(Repair { number, page, shifted, fits })
    }

    /// Puts 512 new bytes into a sector, sector 7 with its trailer. What is wrong in a trailer shows when the page is decoded.
    ///
    /// # Errors
    /// [`Refusal::BadReplacement`] for a sector above 7 or another length; nothing is changed then.
    pub fn replace(&mut self, sector: usize, bytes: &[u8]) -> Result<(), Refusal> {
        self.fits = crate::replace(self.number, &mut self.page, &mut self.shifted, &self.fits, sector, bytes)?;
        Ok(())
    }

    /// Decodes the page as it stands, from the kept summary. `anchors` are values of bv of other pages of the block.
    ///
    /// # Errors
    /// As [`decode`](crate::decode) refuses the page.
    pub fn decode(&self, anchors: &[u8], options: Options) -> Result<Reading, Refusal> {
        self.reading(|out| crate::decode_summary(self.number, &self.page, &self.fits, &self.shifted, anchors, options, out))
    }

    /// Decodes the page as it stands with a given bv, from the kept summary, and with no check of its CRC.
    ///
    /// # Errors
    /// As [`decode_supplied`](crate::decode_supplied) refuses the page.
    pub fn decode_supplied(&self, bv: u8, options: Options) -> Result<Reading, Refusal> {
        self.reading(|out| crate::decode_supplied_summary(self.number, &self.page, &self.fits, &self.shifted, bv, options, out))
    }

    fn reading(&self, decode: impl FnOnce(&mut [u8]) -> Result<Decoding, Refusal>) -> Result<Reading, Refusal> {
        let mut plain = Box::new([0; PAGE]);
        let decoding = decode(&mut plain[..])?;
        Ok(Reading { decoding, plain, number: self.number })
    }

    /// The page's number.
    pub fn number(&self) -> u64 {
        self.number
    }

    /// The stored page, with all that was replaced.
    pub fn page(&self) -> &[u8; PAGE] {
        &self.page
    }

    /// The fits of its sectors.
    pub fn fits(&self) -> &Fits {
        &self.fits
    }
}

/// Without the bytes.
impl fmt::Debug for Repair {
    fn fmt(&self, f: &mut fmt::Formatter<'_>) -> fmt::Result {
        f.debug_struct("Repair").field("number", &self.number).field("fits", &self.fits).finish_non_exhaustive()
    }
}

/// A page as it was decoded. It knows its number.
#[derive(Clone, PartialEq, Eq)]
pub struct Reading {
    /// What was found, and how far it can be trusted.
    pub decoding: Decoding,
    /// The plain page.
    pub plain: Box<[u8; PAGE]>,
    number: u64,
}

impl Reading {
    /// The page's number.
    pub fn number(&self) -> u64 {
        self.number
    }

    /// The slot directory of the plain page.
    ///
    /// # Errors
    /// As [`parse`](crate::parse) refuses the page.
    pub fn parse(&self, options: Options) -> Result<Parsed, Refusal> {
        crate::parse(self.number, &self.plain[..], options)
    }

    /// All rows of the plain page.
    ///
    /// # Errors
    /// As [`rows`](crate::rows) refuses the page.
    pub fn rows(&self, options: Options) -> Result<Vec<Row<'_>>, Refusal> {
        crate::rows(self.number, &self.plain[..], options)
    }
}

/// Without the bytes.
impl fmt::Debug for Reading {
    fn fmt(&self, f: &mut fmt::Formatter<'_>) -> fmt::Result {
        f.debug_struct("Reading").field("number", &self.number).field("decoding", &self.decoding).finish_non_exhaustive()
    }
}
