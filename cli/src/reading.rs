//! Pages as they are read: block by block, since the other pages of a block say which bv to expect (its anchors, document 02, #101).
use std::ops::Range;

use lumeviqo::{
    Confidence, Decoding, Leniency, Options, PAGE, Reading, Refusal, Repair, SECTOR, SHIFTED, Source as BvSource, Trailer, header,
};

use crate::failure::Result;
use crate::outcome::Outcome;
use crate::source::{BLOCK, Source, blocks_of};

pub struct PageReading {
    pub number: u64,
    pub outcome: Outcome,
    /// Bit s is set where sector s was not wholly read.
    pub unread: u8,
    /// Of a page that is whole by its CRC and was written once.
    pub trailer: Option<Trailer>,
    pub answer: Answer,
}

pub enum Answer {
    CutShort(usize),
    /// Not decoded: what stands in unread sectors is no data.
    Unread,
    Superblock,
    Unallocated,
    Accepted(Box<Accepted>),
    Refused(Refusal),
}

pub struct Accepted {
    pub decoding: Decoding,
    pub plain: Box<[u8; PAGE]>,
    pub row_count: std::result::Result<usize, Refusal>,
}

/// A page before the anchors of its block are known.
enum Look {
    Done(Outcome, Answer),
    /// Whatever they are, it gives this.
    Settled(Box<Accepted>, Option<Trailer>),
    Scanned(Box<Scanned>),
}

struct Scanned {
    repair: Repair,
    trailer: Option<Trailer>,
    /// Its own bv, for the other pages.
    anchor: Option<u8>,
    /// A sector of it is unread, and it was asked for all the same.
    lost: bool,
}

/// Pages of whole blocks: those that are wanted, the first page of the blocks, their bytes, and which of them look like zeros.
pub struct Part<'a> {
    pub wanted: Range<u64>,
    pub first: u64,
    pub bytes: &'a [u8],
    pub zeros: &'a [bool],
}

impl<'a> Part<'a> {
    /// Each block by itself, with those of its pages that are wanted.
    pub fn blocks(&self) -> impl Iterator<Item = Part<'a>> {
        let (wanted, first) = (self.wanted.clone(), self.first);
        let blocks = self.bytes.chunks(BLOCK as usize * PAGE).zip(self.zeros.chunks(BLOCK as usize));
        blocks.enumerate().map(move |(n, (bytes, zeros))| {
            let first = first + n as u64 * BLOCK;
            let wanted = wanted.start.max(first)..wanted.end.min(first + BLOCK);
            Part { wanted, first, bytes, zeros }
        })
    }

    /// The evidence of a page may lack its anchors, where nothing else depends on them.
    pub fn read(&self, source: &Source, options: Options) -> Vec<PageReading> {
        self.read_with(source, options, false)
    }

    fn read_with(&self, source: &Source, options: Options, explained: bool) -> Vec<PageReading> {
        let mut readings = Vec::with_capacity((self.wanted.end - self.wanted.start) as usize);
        for block in self.blocks() {
            let pages = (block.first..).zip(block.bytes.chunks(PAGE)).zip(block.zeros);
            let stored = pages.map(|((number, bytes), zeros)| Stored {
                number,
                bytes,
                unread: source.unread_sectors(number),
                zeros: *zeros,
                repair: None,
                explained,
            });
            readings.extend(read_block(stored, &block.wanted, options));
        }
        readings
    }
}

/// One page, and the bytes that are stored of it.
pub fn read_page(source: &Source, number: u64, options: Options) -> Result<(PageReading, Vec<u8>)> {
    let (mut bytes, wanted) = (Vec::new(), number..number + 1);
    source.read_blocks(&wanted, &mut bytes)?;
    let zeros: Vec<bool> = bytes.chunks(PAGE).map(looks_zero).collect();
    let part = Part { first: blocks_of(&wanted).start, wanted, bytes: &bytes, zeros: &zeros };
    let page = part.read_with(source, options, true).remove(0);
    let at = (number % BLOCK) as usize * PAGE;
    let stored = bytes[at..bytes.len().min(at + PAGE)].to_vec();
    Ok((page, stored))
}

/// A page as it is stored, and its summary where one was kept.
pub struct Stored<'a> {
    number: u64,
    bytes: &'a [u8],
    unread: u8,
    /// It looks like zeros.
    zeros: bool,
    repair: Option<Repair>,
    /// All of its evidence is wanted.
    explained: bool,
}

impl<'a> Stored<'a> {
    pub fn new(number: u64, bytes: &'a [u8], unread: u8) -> Self {
        Stored { number, bytes, unread, zeros: looks_zero(bytes), repair: None, explained: true }
    }

    /// The same with the summary that was kept while its sectors were replaced.
    pub fn with_summary(self, repair: Option<Repair>) -> Self {
        Stored { repair, ..self }
    }
}

/// Those pages of a block that are wanted; the others are looked at for their anchors.
pub fn read_block<'a>(pages: impl Iterator<Item = Stored<'a>>, wanted: &Range<u64>, options: Options) -> Vec<PageReading> {
    let mut zeros = None;
    let looks: Vec<(u64, u8, Look)> = pages.map(|page| (page.number, page.unread, look(page, options, &mut zeros))).collect();
    let anchors: Vec<(u64, u8)> = looks.iter().filter_map(|(number, _, look)| Some((*number, look.anchor()?))).collect();
    let wanted = looks.into_iter().filter(|(number, ..)| wanted.contains(number));
    wanted.map(|(number, unread, look)| look.read(number, unread, &others(&anchors, number), options)).collect()
}

/// The anchors that the other pages of its block give.
fn others(anchors: &[(u64, u8)], number: u64) -> Vec<u8> {
    let mut values: Vec<u8> = anchors.iter().filter(|(page, _)| *page != number).map(|(_, bv)| *bv).collect();
    values.sort_unstable();
    values.dedup();
    values
}

/// `unallocated` is the library's word on a page of zeros, which is asked for once in a block: pages with the same bytes have the same answer.
fn look(stored: Stored, options: Options, unallocated: &mut Option<bool>) -> Look {
    let Stored { number, bytes: page, unread, zeros, explained, .. } = stored;
    if page.len() < PAGE {
        return Look::Done(Outcome::CutShort, Answer::CutShort(page.len()));
    }
    if zeros && is_zero(page) {
        if unread != 0 {
            return Look::Done(Outcome::Unread, Answer::Unread);
        }
        if *unallocated.get_or_insert_with(|| is_unallocated(number, page, options)) {
            return Look::Done(Outcome::Unallocated, Answer::Unallocated);
        }
    }
    if number != 0 && !explained && looks_exact(page) {
        if let Some(look) = settled(number, page, options) {
            return look;
        }
    }
    let sound = lumeviqo::integrity(number, page);
    let lost = unread != 0 && matches!(sound, Err(Refusal::BadCrc { .. }));
    let allowed = options.leniency.allows(Leniency::INTEGRITY);
    if lost && !allowed {
        return Look::Done(Outcome::Unread, Answer::Unread);
    }
    if number == 0 && lumeviqo::superblock_checked(page).is_ok() {
        return superblock(sound, lost);
    }
    match sound {
        Err(refusal) if !allowed => Look::Done(Outcome::Damaged, Answer::Refused(refusal)),
        _ => scanned(stored, sound.is_ok(), lost, options),
    }
}

/// Page 0 is not shifted, so no bv is chosen for it, whatever is allowed.
fn superblock(sound: std::result::Result<(), Refusal>, lost: bool) -> Look {
    match sound {
        Ok(()) => Look::Done(Outcome::Superblock, Answer::Superblock),
        Err(refusal) => Look::Done(if lost { Outcome::Unread } else { Outcome::Damaged }, Answer::Refused(refusal)),
    }
}

fn is_unallocated(number: u64, page: &[u8], options: Options) -> bool {
    lumeviqo::decode(number, page, &[], options, &mut [0; PAGE]).is_ok_and(|decoding| decoding.source == BvSource::Unallocated)
}

/// Exact sectors that agree decide, whatever the anchors and whatever is allowed: so says the theorem `choice-means` of the crate `meanings`.
fn settled(number: u64, page: &[u8], options: Options) -> Option<Look> {
    let mut plain = Box::new([0; PAGE]);
    let decoding = lumeviqo::decode(number, page, &[], alone(options), &mut plain[..]).ok()?;
    let decided = decoding.source == BvSource::ExactSectors && decoding.warnings.is_empty();
    decided.then(|| Look::Settled(Box::new(Accepted::new(number, decoding, plain, options)), lumeviqo::trailer(page).ok()))
}

/// What a page is asked by itself. Sectors in doubt do not matter then, so KEYSTREAM lets them pass.
fn alone(options: Options) -> Options {
    Options { leniency: Leniency::KEYSTREAM, ..options }
}

fn scanned(stored: Stored, sound: bool, lost: bool, options: Options) -> Look {
    let Stored { number, bytes, repair, .. } = stored;
    match repair.map_or_else(|| Repair::new(number, bytes), Ok) {
        Ok(repair) => {
            let anchor = if sound && number != 0 { anchor(&repair, options) } else { None };
            let trailer = lumeviqo::trailer(bytes).ok().filter(|_| sound);
            Look::Scanned(Box::new(Scanned { repair, trailer, anchor, lost }))
        }
        Err(refusal) => Look::Done(Outcome::Undecided, Answer::Refused(refusal)),
    }
}

/// The page's own bv, if row count or exact sectors confirm it without help.
fn anchor(repair: &Repair, options: Options) -> Option<u8> {
    let reading = repair.decode(&[], alone(options)).ok()?;
    let confirmed = matches!(reading.decoding.source, BvSource::TrailerRowCount | BvSource::ExactSectors);
    reading.decoding.bv.filter(|_| confirmed)
}

impl Look {
    fn anchor(&self) -> Option<u8> {
        match self {
            Look::Scanned(scanned) => scanned.anchor,
            Look::Settled(accepted, _) => accepted.decoding.bv,
            Look::Done(..) => None,
        }
    }

    fn read(self, number: u64, unread: u8, anchors: &[u8], options: Options) -> PageReading {
        match self {
            Look::Done(outcome, answer) => PageReading { number, outcome, unread, trailer: None, answer },
            Look::Settled(accepted, trailer) => {
                let outcome = trusted(accepted.decoding.confidence);
                PageReading { number, outcome, unread, trailer, answer: Answer::Accepted(accepted) }
            }
            Look::Scanned(scanned) => {
                let (outcome, answer) = decoded(&scanned.repair, anchors, options);
                let outcome = if scanned.lost { Outcome::Unread } else { outcome };
                PageReading { number, outcome, unread, trailer: scanned.trailer, answer }
            }
        }
    }
}

impl Answer {
    /// Document 01's number; none where the reader was not asked.
    pub fn number(&self) -> Option<usize> {
        match self {
            Answer::Unread => None,
            Answer::CutShort(_) => Some(header::WRONG_PAGE_LENGTH),
            Answer::Superblock | Answer::Unallocated | Answer::Accepted(_) => Some(header::ACCEPTED),
            Answer::Refused(refusal) => Some(refusal.number()),
        }
    }
}

/// What a page gives under these anchors, and how many rows it has.
pub fn decoded(repair: &Repair, anchors: &[u8], options: Options) -> (Outcome, Answer) {
    match repair.decode(anchors, options) {
        Ok(Reading { decoding, plain, .. }) => {
            let accepted = Accepted::new(repair.number(), decoding, plain, options);
            (trusted(accepted.decoding.confidence), Answer::Accepted(Box::new(accepted)))
        }
        Err(refusal) => (refused(&refusal), Answer::Refused(refusal)),
    }
}

impl Accepted {
    fn new(number: u64, decoding: Decoding, plain: Box<[u8; PAGE]>, options: Options) -> Self {
        let row_count = lumeviqo::row_count(number, &plain[..], options);
        Accepted { decoding, plain, row_count }
    }
}

fn trusted(confidence: Confidence) -> Outcome {
    match confidence {
        Confidence::Unallocated => Outcome::Unallocated,
        Confidence::Unverified => Outcome::Unverified,
        Confidence::Corroborated => Outcome::Corroborated,
        Confidence::Calibrated => Outcome::Calibrated,
        Confidence::Verified => Outcome::Verified,
    }
}

fn refused(refusal: &Refusal) -> Outcome {
    match refusal {
        Refusal::BadCrc { .. } | Refusal::BadTrailer { .. } => Outcome::Damaged,
        _ => Outcome::Undecided,
    }
}

/// Whether a page is worth the question: pages that were written begin or end otherwise, with few exceptions.
pub fn looks_zero(page: &[u8]) -> bool {
    page.len() == PAGE && page[..64] == [0; 64] && page[PAGE - 64..] == [0; 64]
}

/// Whether the question is worth its scan: in each sector some bytes, the last among them, lie where the first two point. A wrong guess costs a scan.
fn looks_exact(page: &[u8]) -> bool {
    page[..SHIFTED].chunks(SECTOR).all(|data| {
        let step = data[1].wrapping_sub(data[0]);
        let on_line = |place: usize| data[place] == data[0].wrapping_add(step.wrapping_mul(place as u8));
        on_line(data.len() - 1) && (0..data.len()).step_by(GUESSED).all(on_line)
    })
}

/// One byte in so many is looked at.
const GUESSED: usize = 31;

/// By comparison, which the system's library does with the widest numbers that the processor has.
pub fn is_zero(bytes: &[u8]) -> bool {
    static ZEROS: [u8; PAGE] = [0; PAGE];
    bytes.chunks(PAGE).all(|page| page == &ZEROS[..page.len()])
}

#[cfg(test)]
mod tests {
    use lumeviqo::Evidence;

    use super::*;

    /// A stored page of block 1, with a step for each sector, and a good CRC.
    fn page(number: u64, bv: u8, data: &[u8], rows: u8) -> Vec<u8> {
        let mut page = vec![0; PAGE];
        for (at, byte) in data.iter().enumerate() {
            let (sector, place) = ((at / SECTOR) as u64, (at % SECTOR) as u64);
            let shift = number + sector + 256 - 4 * (number % BLOCK / 2) + place * (37 * number + 29 * sector);
            page[at] = byte.wrapping_add(shift as u8).wrapping_add(bv);
        }
        page[0xFF0] = rows;
        page[0xFF2] = b'E';
        let crc = lumeviqo::crc32(&page[..PAGE - 4]);
        page[PAGE - 4..].copy_from_slice(&crc.to_le_bytes());
        page
    }

    /// Zeros, so that each sector has one value.
    fn level() -> Vec<u8> {
        vec![0; SHIFTED]
    }

    /// Zeros but for four slots that end behind 0x300, and their number before them.
    fn listed() -> Vec<u8> {
        let mut data = level();
        data[0x2FA] = 4;
        (0..4).for_each(|slot| data[0x2FF + 2 * slot] = 0xF - slot as u8);
        data
    }

    /// Noise from place `from` on, which no step fits, where `looks_exact` does not look.
    fn noisy(from: usize, to: usize) -> Vec<u8> {
        let mut data = level();
        let mut x: u32 = 9;
        for (place, byte) in (0..SECTOR).cycle().zip(&mut data).take(to).skip(from) {
            x = x.wrapping_mul(1_664_525).wrapping_add(1_013_904_223);
            *byte = if place % GUESSED == 0 || place == 1 || place == SECTOR - 1 { 0 } else { (x >> 24) as u8 };
        }
        data
    }

    /// A vote for bv in the last sector alone, and zeros that make it the commonest value.
    fn one_vote() -> Vec<u8> {
        let mut data = noisy(0, 7 * SECTOR);
        [0, 1].into_iter().for_each(|first| data.iter_mut().skip(first).step_by(5).for_each(|byte| *byte = 0));
        data
    }

    /// The slots speak for bv, one sector votes for it, and the commonest value is another.
    fn contested(other: u8) -> Vec<u8> {
        let mut data = listed();
        data[2 * SECTOR..].fill(other);
        data[2 * SECTOR..].chunks_mut(SECTOR).for_each(|sector| sector[7] = 0);
        data
    }

    fn readings(pages: &[(u64, Vec<u8>)], options: Options, explained: bool) -> Vec<PageReading> {
        let stored = pages.iter().map(|(number, bytes)| Stored { explained, ..Stored::new(*number, bytes, 0) });
        read_block(stored, &(BLOCK..2 * BLOCK), options)
    }

    /// All that is told of a page, but for its evidence.
    fn told(page: &PageReading) -> String {
        let answer = match &page.answer {
            Answer::Accepted(accepted) => {
                let decoding = Decoding { evidence: Vec::new(), ..accepted.decoding.clone() };
                format!("{decoding:?} {:?} {:?}", accepted.plain, accepted.row_count)
            }
            other => format!("{:?}", other.number()),
        };
        format!("{} {} {:?} {answer}", page.number, page.outcome, page.trailer)
    }

    fn evidence(page: &PageReading) -> &[Evidence] {
        match &page.answer {
            Answer::Accepted(accepted) => &accepted.decoding.evidence,
            _ => &[],
        }
    }

    fn block() -> Vec<(u64, Vec<u8>)> {
        let made = [
            page(16, 0x5A, &level(), 0),
            page(17, 0x5A, &one_vote(), 0),
            page(18, 0x5A, &level(), 2),
            page(19, 0x5A, &level(), 5),
            page(20, 0x5A, &listed(), 4),
            page(21, 0x5A, &noisy(5 * SECTOR, 6 * SECTOR), 0),
            page(22, 0x91, &level(), 60),
            page(23, 0x5A, &contested(0x91 - 0x5A), 4),
            vec![0; PAGE],
        ];
        (BLOCK..).zip(made).collect()
    }

    #[test]
    fn what_anchors_cannot_change_is_told_as_with_them() {
        let pages = block();
        for leniency in [Leniency::STRICT, Leniency::KEYSTREAM, Leniency::DIRECTORY, Leniency::INTEGRITY] {
            for (min_trailer_count, search_limit) in [(4, 768), (4, 2048), (0, 768), (200, 2048), (4, 7)] {
                let options = Options { leniency, min_trailer_count, search_limit };
                let [short, long] = [false, true].map(|explained| readings(&pages, options, explained));
                short.iter().zip(&long).for_each(|(a, b)| assert_eq!(told(a), told(b), "{options:?}"));
            }
        }
    }

    #[test]
    fn the_pages_are_what_they_are_said_to_be() {
        let pages = block();
        let outcomes = |options| readings(&pages, options, false).iter().map(|page| page.outcome.to_string()).collect::<Vec<_>>();
        let usual = outcomes(Options::default());
        assert!(pages.iter().all(|(_, bytes)| looks_exact(bytes)));
        assert_eq!(usual[..4], ["calibrated", "corroborated", "calibrated", "calibrated"]);
        assert_eq!(usual[4..], ["calibrated", "undecided", "calibrated", "undecided", "unallocated"]);
        assert_eq!(
            outcomes(Options { search_limit: 2048, ..Options::default() })[4..8],
            ["verified", "undecided", "calibrated", "undecided"]
        );
        let alone = readings(&pages[7..], Options { search_limit: 2048, ..Options::default() }, false);
        assert_eq!(alone[0].outcome.to_string(), "verified");
    }

    #[test]
    fn a_page_that_is_explained_has_its_anchors_among_the_evidence() {
        let pages = block();
        assert!(evidence(&readings(&pages, Options::default(), true)[0]).contains(&Evidence::BlockAnchor));
        assert!(!evidence(&readings(&pages, Options::default(), true)[6]).contains(&Evidence::BlockAnchor));
    }

    #[test]
    fn page_0_gives_no_anchor() {
        let pages = [(0, page(0, 0x5A, &level(), 0)), (1, page(1, 0x5A, &one_vote(), 0))];
        for explained in [false, true] {
            let stored = pages.iter().map(|(number, bytes)| Stored { explained, ..Stored::new(*number, bytes, 0) });
            assert_eq!(read_block(stored, &(0..BLOCK), Options::default())[1].outcome.to_string(), "undecided");
        }
    }
}
