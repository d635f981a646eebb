//! Which sectors of further copies go into a page.
use lumeviqo::{PAGE, Refusal, Repair, SECTOR};

use crate::reading::is_zero;
use crate::words::named_sectors;

/// Two to the eight sectors of a page: more would be guessing.
const MOST_COMBINATIONS: usize = 256;

/// The same page in a further copy.
pub struct CopyPage<'a> {
    name: &'a str,
    bytes: Vec<u8>,
    /// Bit s is set where the copy has no sector s.
    lacks: u8,
    /// Bit s is set where the copy has zeros, and no map that says whether they were read.
    doubtful: u8,
}

pub struct Patch {
    /// The page with its new sectors, and the summary that was kept meanwhile; none where it stays as it was.
    pub repair: Option<Repair>,
    /// Bit s is set where sector s is a copy's now.
    pub replaced: u8,
    /// Bit s is set where sector s is unread as before.
    pub unread: u8,
    pub words: String,
}

impl<'a> CopyPage<'a> {
    /// From what the copy has of the page, and the sectors that its map, if it has one, has as unread.
    pub fn new(name: &'a str, mut bytes: Vec<u8>, unread: Option<u8>) -> CopyPage<'a> {
        let there = bytes.len() / SECTOR;
        bytes.resize(PAGE, 0);
        let lacks = unread.unwrap_or(0) | bits(|s| s >= there);
        let zeros = || bits(|s| is_zero(sector(&bytes, s))) & !lacks;
        let doubtful = unread.map_or_else(zeros, |_| 0);
        CopyPage { name, bytes, lacks, doubtful }
    }

    pub fn has_data(&self) -> bool {
        !is_zero(&self.bytes)
    }

    fn sector(&self, s: usize) -> &[u8] {
        sector(&self.bytes, s)
    }

    /// Whether it has the sector beyond doubt.
    fn has(&self, s: usize) -> bool {
        self.may_have(s) && !is_set(self.doubtful, s)
    }

    fn may_have(&self, s: usize) -> bool {
        !is_set(self.lacks, s)
    }
}

/// For each sector the copy that it is taken from; none where the page keeps its own.
type Chosen<'a> = [Option<&'a CopyPage<'a>>; 8];

/// For each sector what may be chosen.
type Versions<'a> = [Vec<Option<&'a CopyPage<'a>>>; 8];

/// A page with unread sectors or a bad CRC, and the same page in further copies.
pub struct Broken<'a> {
    pub number: u64,
    pub page: &'a [u8],
    /// Bit s is set where sector s is unread.
    pub unread: u8,
    pub copies: &'a [CopyPage<'a>],
}

impl<'a> Broken<'a> {
    pub fn patch(&self) -> Result<Patch, Refusal> {
        if self.unread == 0 { self.by_crc() } else { self.by_map() }
    }

    /// Each unread sector from the first copy that has it; what is in doubt, or from a further copy, only where the CRC speaks for it.
    fn by_map(&self) -> Result<Patch, Refusal> {
        let sure = self.first_with(CopyPage::has);
        let any = self.first_with(CopyPage::may_have);
        let all = std::array::from_fn(|s| sure[s].or(any[s]));
        if let Some(good) = [all, sure].iter().find(|chosen| replaced(chosen) != 0 && self.is_good_with(chosen)) {
            return self.taken(good, "");
        }
        if let Some([only]) = self.good_combinations(&self.of_copies()).as_deref() {
            return self.taken(only, ALONE);
        }
        match replaced(&sure) {
            0 => self.left(self.lacking(self.unread)),
            _ if is_good(self.number, self.page) => {
                self.left(format!("left as it is, since its CRC is good, and with {} it is not", self.given(&sure)))
            }
            _ => self.taken(&sure, ""),
        }
    }

    /// For each unread sector the first such copy.
    fn first_with(&self, has: impl Fn(&CopyPage<'a>, usize) -> bool) -> Chosen<'a> {
        std::array::from_fn(|s| self.copies.iter().find(|copy| is_set(self.unread, s) && has(copy, s)))
    }

    /// Where nothing says which sectors are bad: the one combination of sectors that differ between the copies with a good CRC.
    fn by_crc(&self) -> Result<Patch, Refusal> {
        let versions = self.own_and_others();
        if versions.iter().all(|versions| versions.len() == 1) {
            return self.left("its CRC is bad, and no copy differs from it".into());
        }
        match self.good_combinations(&versions).as_deref() {
            None => self.left(format!("its CRC is bad, and the copies differ in more than {MOST_COMBINATIONS} ways")),
            Some([]) => self.left("its CRC is bad, and no combination of the copies' sectors has a good one".into()),
            Some([only]) => self.taken(only, ALONE),
            Some(good) => self.left(format!("{} combinations of the copies' sectors have a good CRC: none is taken", good.len())),
        }
    }

    /// What the copies have of the unread sectors; the page's own where they have none.
    fn of_copies(&self) -> Versions<'a> {
        std::array::from_fn(|s| match self.distinct(s) {
            versions if is_set(self.unread, s) && !versions.is_empty() => versions.into_iter().map(Some).collect(),
            _ => vec![None],
        })
    }

    /// The page's own sectors, and each that a copy has otherwise.
    fn own_and_others(&self) -> Versions<'a> {
        std::array::from_fn(|s| {
            let others = self.distinct(s).into_iter().filter(|copy| copy.sector(s) != sector(self.page, s));
            std::iter::once(None).chain(others.map(Some)).collect()
        })
    }

    /// Of the copies that have the same bytes as a sector, the first.
    fn distinct(&self, s: usize) -> Vec<&'a CopyPage<'a>> {
        let mut distinct: Vec<&CopyPage> = Vec::new();
        for copy in self.copies.iter().filter(|copy| copy.may_have(s)) {
            if distinct.iter().all(|other| other.sector(s) != copy.sector(s)) {
                distinct.push(copy);
            }
        }
        distinct
    }

    /// The combinations with new sectors and a good CRC; nothing where there are too many to try.
    fn good_combinations(&self, versions: &Versions<'a>) -> Option<Vec<Chosen<'a>>> {
        let count = versions.iter().try_fold(1_usize, |product, versions| product.checked_mul(versions.len()));
        let chosen = (0..count.filter(|count| *count <= MOST_COMBINATIONS)?).map(|number| combination(versions, number));
        Some(chosen.filter(|chosen| replaced(chosen) != 0 && self.is_good_with(chosen)).collect())
    }

    fn is_good_with(&self, chosen: &Chosen) -> bool {
        let mut page = self.page.to_vec();
        chosen_sectors(chosen).for_each(|(s, bytes)| page[s * SECTOR..][..SECTOR].copy_from_slice(bytes));
        is_good(self.number, &page)
    }

    fn taken(&self, chosen: &Chosen, remark: &str) -> Result<Patch, Refusal> {
        let mut repair = Repair::new(self.number, self.page)?;
        chosen_sectors(chosen).try_for_each(|(s, bytes)| repair.replace(s, bytes))?;
        let (replaced, unread) = (replaced(chosen), self.unread & !replaced(chosen));
        let lacking = if unread == 0 { String::new() } else { format!(", {}", self.lacking(unread)) };
        Ok(Patch { repair: Some(repair), replaced, unread, words: format!("{}{remark}{lacking}", self.given(chosen)) })
    }

    fn left(&self, words: String) -> Result<Patch, Refusal> {
        Ok(Patch { repair: None, replaced: 0, unread: self.unread, words })
    }

    /// `sectors 0 2 from b, sector 1 from c`.
    fn given(&self, chosen: &Chosen) -> String {
        let from = |copy: &CopyPage| bits(|s| chosen[s].is_some_and(|chosen| std::ptr::eq(chosen, copy)));
        let givers = self.copies.iter().filter(|copy| from(copy) != 0);
        givers.map(|copy| format!("{} from {}", named_sectors(from(copy)), copy.name)).collect::<Vec<_>>().join(", ")
    }

    fn lacking(&self, sectors: u8) -> String {
        let zeros = |copy: &CopyPage| match copy.doubtful & sectors {
            0 => String::new(),
            all if all == sectors => format!(" ({} has zeros there, and no map)", copy.name),
            some => format!(" ({} has zeros in {}, and no map)", copy.name, named_sectors(some)),
        };
        format!("no copy has {}{}", named_sectors(sectors), self.copies.iter().map(zeros).collect::<String>())
    }
}

const ALONE: &str = ", which alone gives a good CRC";

/// Sector s is the combination's digit s.
fn combination<'a>(versions: &Versions<'a>, number: usize) -> Chosen<'a> {
    let mut rest = number;
    std::array::from_fn(|s| {
        let choice = rest % versions[s].len();
        rest /= versions[s].len();
        versions[s][choice]
    })
}

fn chosen_sectors<'a>(chosen: &Chosen<'a>) -> impl Iterator<Item = (usize, &'a [u8])> {
    chosen.iter().enumerate().filter_map(|(s, copy)| Some((s, copy.as_ref()?.sector(s))))
}

/// A page of zeros is taken as unallocated, but it is no page that came back.
pub fn is_good(number: u64, page: &[u8]) -> bool {
    !is_zero(page) && !has_bad_crc(number, page)
}

/// Zeros have none; nothing need be computed to know that.
pub fn has_bad_crc(number: u64, page: &[u8]) -> bool {
    !is_zero(page) && matches!(lumeviqo::integrity(number, page), Err(Refusal::BadCrc { .. }))
}

fn replaced(chosen: &Chosen) -> u8 {
    bits(|s| chosen[s].is_some())
}

fn sector(page: &[u8], s: usize) -> &[u8] {
    &page[s * SECTOR..][..SECTOR]
}

fn is_set(bits: u8, s: usize) -> bool {
    bits >> s & 1 != 0
}

fn bits(is_set: impl Fn(usize) -> bool) -> u8 {
    (0..8).filter(|s| is_set(*s)).fold(0, |bits, s| bits | 1 << s)
}

#[cfg(test)]
mod tests {
    use super::*;

    /// A page with a good CRC, of bytes that differ in every sector.
    fn whole(seed: u8) -> Vec<u8> {
        let mut page: Vec<u8> = (0..PAGE).map(|i| (i / 7) as u8 ^ seed).collect();
        sealed(&mut page);
        page
    }

    fn sealed(page: &mut [u8]) {
        page[0xFF3] = 0;
        page[0xFF8..0xFFC].fill(0);
        let crc = lumeviqo::crc32(&page[..PAGE - 4]);
        page[PAGE - 4..].copy_from_slice(&crc.to_le_bytes());
    }

    fn without(page: &[u8], lost: u8) -> Vec<u8> {
        let mut page = page.to_vec();
        (0..8).filter(|s| is_set(lost, *s)).for_each(|s| page[s * SECTOR..][..SECTOR].fill(0));
        page
    }

    fn spoiled(page: &[u8], place: usize) -> Vec<u8> {
        let mut page = page.to_vec();
        page[place] ^= 1;
        page
    }

    /// A copy with a map that has these sectors as unread.
    fn copy(name: &'static str, bytes: Vec<u8>, lacks: u8) -> CopyPage<'static> {
        CopyPage::new(name, bytes, Some(lacks))
    }

    fn without_map(name: &'static str, bytes: Vec<u8>) -> CopyPage<'static> {
        CopyPage::new(name, bytes, None)
    }

    fn patch(page: &[u8], unread: u8, copies: &[CopyPage]) -> Patch {
        Broken { number: 9, page, unread, copies }.patch().unwrap()
    }

    /// What is said, which sectors came, and which are left.
    fn said(patch: &Patch) -> (&str, u8, u8) {
        assert_eq!(patch.repair.is_some(), patch.replaced != 0);
        (&patch.words, patch.replaced, patch.unread)
    }

    #[test]
    fn further_copies_fill_what_is_left() {
        let page = whole(1);
        let copies = [copy("b", without(&page, 0b0010), 0b0010), copy("c", without(&page, 0b1001), 0b1001)];
        let patch = patch(&without(&page, 0b0111), 0b0111, &copies);
        assert_eq!(said(&patch), ("sectors 0 2 from b, sector 1 from c", 0b0111, 0));
        assert_eq!(patch.repair.unwrap().page().as_slice(), page);
    }

    #[test]
    fn what_no_copy_has_stays_unread() {
        let page = whole(1);
        let lacks = |bits| patch(&without(&page, 0b11), 0b11, &[copy("b", page.clone(), bits)]);
        assert_eq!(said(&lacks(0b10)), ("sector 0 from b, no copy has sector 1", 0b01, 0b10));
        assert_eq!(said(&lacks(0b11)), ("no copy has sectors 0 1", 0, 0b11));
        assert_eq!(said(&patch(&page, 0b11, &[])), ("no copy has sectors 0 1", 0, 0b11));
    }

    /// The last bytes of a copy that is cut off are no sector.
    #[test]
    fn a_copy_has_no_sectors_behind_its_end() {
        let page = whole(1);
        let patch = patch(&without(&page, 0b1111), 0b1111, &[without_map("b", page[..2 * SECTOR + 100].to_vec())]);
        assert_eq!(said(&patch), ("sectors 0 1 from b, no copy has sectors 2 3", 0b0011, 0b1100));
    }

    #[test]
    fn a_page_with_a_good_crc_is_not_spoiled() {
        let patch = patch(&whole(1), 0b1, &[copy("b", whole(2), 0)]);
        assert_eq!(said(&patch), ("left as it is, since its CRC is good, and with sector 0 from b it is not", 0, 0b1));
    }

    #[test]
    fn zeros_of_a_copy_without_a_map_are_no_sectors() {
        let page = whole(1);
        let lost = without(&page, 0b11);
        let zeros = |bits| without_map("b", without(&page, bits));
        assert_eq!(said(&patch(&lost, 0b11, &[zeros(0b11)])), ("no copy has sectors 0 1 (b has zeros there, and no map)", 0, 0b11));
        let words = "sector 1 from b, no copy has sector 0 (b has zeros there, and no map)";
        assert_eq!(said(&patch(&lost, 0b11, &[zeros(0b01)])), (words, 0b10, 0b01));
        let words = "no copy has sectors 0 1 (b has zeros in sector 0, and no map)";
        assert_eq!(said(&patch(&lost, 0b11, &[without_map("b", vec![0; SECTOR])])), (words, 0, 0b11));
        assert_eq!(said(&patch(&lost, 0b11, &[zeros(0b11), copy("c", page.clone(), 0)])), ("sectors 0 1 from c", 0b11, 0));
    }

    #[test]
    fn zeros_that_give_a_good_crc_are_a_sector_of_the_page() {
        let mut page = without(&whole(1), 0b100);
        sealed(&mut page);
        let patched = patch(&without(&page, 0b110), 0b110, &[without_map("b", page.clone())]);
        assert_eq!(said(&patched), ("sectors 1 2 from b", 0b110, 0));
        assert_eq!(patched.repair.unwrap().page().as_slice(), page);
        let nothing = patch(&[0; PAGE], 0xFF, &[without_map("b", vec![0; PAGE])]);
        assert_eq!(said(&nothing), ("no copy has sectors 0 1 2 3 4 5 6 7 (b has zeros there, and no map)", 0, 0xFF));
    }

    #[test]
    fn one_combination_of_unread_sectors_with_a_good_crc_is_taken() {
        let page = whole(1);
        let copies = [copy("b", spoiled(&page, 100), 0), copy("c", spoiled(&page, 700), 0)];
        let patch = patch(&without(&page, 0b11), 0b11, &copies);
        assert_eq!(said(&patch), ("sector 1 from b, sector 0 from c, which alone gives a good CRC", 0b11, 0));
        assert_eq!(patch.repair.unwrap().page().as_slice(), page);
    }

    #[test]
    fn without_one_good_combination_the_first_copy_is_taken() {
        let page = whole(1);
        let copies = [copy("b", spoiled(&page, 100), 0), copy("c", spoiled(&page, 101), 0)];
        assert_eq!(said(&patch(&without(&page, 0b11), 0b11, &copies)), ("sectors 0 1 from b", 0b11, 0));
        let copies = [copy("b", spoiled(&page, 100), 0), copy("c", page.clone(), 0), copy("d", crc_twin(&page), 0)];
        assert_eq!(said(&patch(&without(&page, 0b11), 0b11, &copies)), ("sectors 0 1 from b", 0b11, 0));
    }

    #[test]
    fn one_combination_with_a_good_crc_is_taken() {
        let page = whole(1);
        let patch = patch(&spoiled(&page, 700), 0, &[copy("b", spoiled(&page, 1700), 0)]);
        assert_eq!(said(&patch), ("sector 1 from b, which alone gives a good CRC", 0b10, 0));
        assert_eq!(patch.repair.unwrap().page().as_slice(), page);
    }

    #[test]
    fn two_combinations_with_a_good_crc_are_too_many() {
        let page = whole(1);
        let patch = patch(&spoiled(&page, 700), 0, &[copy("b", page.clone(), 0), copy("c", crc_twin(&page), 0)]);
        assert_eq!(said(&patch), ("2 combinations of the copies' sectors have a good CRC: none is taken", 0, 0));
    }

    /// Another page with the same CRC: V.42's polynomial, XORed anywhere into a message, leaves the CRC as it was.
    fn crc_twin(page: &[u8]) -> Vec<u8> {
        let mut page = page.to_vec();
        let polynomial = 0x1_DB71_0641_u64.to_le_bytes();
        page.iter_mut().zip(&polynomial[..5]).for_each(|(byte, bits)| *byte ^= bits);
        page
    }

    /// Zeros have no bad CRC, since they are unallocated, yet a page does not come back as zeros.
    #[test]
    fn zeros_are_no_page_that_came_back() {
        let broken = spoiled(&whole(1), 700);
        let words = "its CRC is bad, and no combination of the copies' sectors has a good one";
        assert_eq!(said(&patch(&broken, 0, &[without_map("b", vec![0; PAGE])])), (words, 0, 0));
        let copies = [without_map("b", broken.clone()), copy("c", vec![0; PAGE], 0xFF)];
        assert_eq!(said(&patch(&broken, 0, &copies)), ("its CRC is bad, and no copy differs from it", 0, 0));
    }

    #[test]
    fn more_than_256_combinations_are_not_tried() {
        let copies = [copy("b", whole(2), 0), copy("c", whole(3), 0)];
        let patch = patch(&spoiled(&whole(1), 700), 0, &copies);
        assert_eq!(said(&patch), ("its CRC is bad, and the copies differ in more than 256 ways", 0, 0));
    }
}
