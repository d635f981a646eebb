//! Sectors replaced from a second copy, the last with its trailer: a page is read as if it had always had them.
use lumeviqo::*;

const NUMBER: u64 = 9;

const STRICT: Options = Options { leniency: Leniency::STRICT, min_trailer_count: 4, search_limit: 768 };

/// The bv of the directory of 5 rows, and that of the directory of 9.
const BV: [u8; 2] = [0x5A, 0x9A];

/// Zeros, a directory of 5 rows, and in sector 1 one of 9 under another bv: the row count says which is read, since no sector is exact.
fn two_directories(rows: u8) -> [u8; PAGE] {
    let mut page = [0; PAGE];
    (0..8).for_each(|s| page[s * SECTOR + 300] = 1);
    put_directory(&mut page, 0x40, 5);
    put_directory(&mut page, 0x240, 9);
    for (i, byte) in page[..SHIFTED].iter_mut().enumerate() {
        let (s, k) = (i / SECTOR, i % SECTOR);
        *byte = (*byte as usize + BV[usize::from(s == 1)] as usize + NUMBER as usize + s - 16 + 37 * s * k) as u8;
    }
    page[0xFF0] = rows;
    page[0xFF2] = 0x45;
    with_crc(page)
}

/// A prelude, and as many falling slots as it says.
fn put_directory(page: &mut [u8], at: usize, rows: u8) {
    page[at] = rows;
    for k in 0..rows as usize {
        page[at + 4 + 2 * k..][..2].copy_from_slice(&(0xFE0 - 0x100 * k as u16).to_le_bytes());
    }
}

fn with_crc(mut page: [u8; PAGE]) -> [u8; PAGE] {
    let crc = crc32(&page[..4092]);
    page[4092..].copy_from_slice(&crc.to_le_bytes());
    page
}

fn sector(page: &[u8; PAGE], s: usize) -> &[u8] {
    &page[s * SECTOR..][..SECTOR]
}

fn without<const N: usize>(mut page: [u8; PAGE], lost: [usize; N]) -> [u8; PAGE] {
    lost.iter().for_each(|s| page[s * SECTOR..][..SECTOR].fill(0));
    page
}

/// A page that is mended, held against one that is read afresh at each step.
struct Rescued(Repair);

impl Rescued {
    fn new(page: [u8; PAGE]) -> Self {
        Rescued(Repair::new(NUMBER, &page).unwrap())
    }

    fn put(&mut self, s: usize, new: &[u8]) {
        self.0.replace(s, new).unwrap();
        assert!(sector(self.0.page(), s) == new);
        assert_eq!(self.0.fits(), Rescued::new(*self.0.page()).0.fits(), "the kept fits are those of the page");
    }

    fn read(&self) -> Result<Decoding, Refusal> {
        let mut out = [7; PAGE];
        let (read, fresh) = (self.0.decode(&[], STRICT), decode(NUMBER, self.0.page(), &[], STRICT, &mut out));
        assert!(read.as_ref().map_or([7; PAGE], |r| *r.plain) == out, "what is decoded from the summary is what the page gives");
        let read = read.map(|r| r.decoding);
        assert_eq!(read, fresh);
        read
    }
}

/// The CRC that a refused page has stored.
fn stored_crc(read: Result<Decoding, Refusal>) -> u32 {
    match read {
        Err(Refusal::BadCrc { page: NUMBER, stored, .. }) => stored,
        other => panic!("no bad CRC: {other:?}"),
    }
}

#[test]
fn two_lost_sectors_come_back_in_either_order() {
    let whole = two_directories(5);
    let crc = u32::from_le_bytes(whole[4092..].try_into().unwrap());
    for (order, crc_between) in [([7, 3], crc), ([3, 7], 0)] {
        let mut rescued = Rescued::new(without(whole, [3, 7]));
        assert_eq!(stored_crc(rescued.read()), 0);
        rescued.put(order[0], sector(&whole, order[0]));
        assert_eq!(stored_crc(rescued.read()), crc_between);
        rescued.put(order[1], sector(&whole, order[1]));
        assert!(*rescued.0.page() == whole);
        assert_eq!(rescued.read(), Rescued::new(whole).read());
        assert_eq!(rescued.read().unwrap().bv, Some(BV[0]));
    }
}

#[test]
fn a_trailer_with_another_row_count_changes_the_choice() {
    let mut rescued = Rescued::new(two_directories(5));
    for (rows, bv) in [(5, BV[0]), (9, BV[1]), (5, BV[0])] {
        rescued.put(7, sector(&two_directories(rows), 7));
        let d = rescued.read().unwrap();
        assert_eq!((d.bv, d.source, d.confidence), (Some(bv), Source::TrailerRowCount, Confidence::Verified));
    }
}

#[test]
fn a_trailer_is_taken_as_it_comes_and_judged_when_the_page_is_read() {
    let mut page = two_directories(5);
    page[0xFF3] = 1;
    let mut rescued = Rescued::new(two_directories(5));
    rescued.put(7, sector(&with_crc(page), 7));
    assert_eq!(rescued.read().unwrap_err(), Refusal::BadTrailer { page: NUMBER });
}

#[test]
fn zeros_over_data_and_trailer_make_a_page_of_zeros_unallocated() {
    let mut page = [0; PAGE];
    page[0xFF2] = 0x45;
    let mut rescued = Rescued::new(with_crc(page));
    assert!(matches!(rescued.read(), Err(Refusal::AmbiguousCalibration { .. })));
    rescued.put(7, &[0; SECTOR]);
    assert_eq!(rescued.0.fits()[7].peak, 496, "the trailer is no data");
    assert_eq!(rescued.read().unwrap().source, Source::Unallocated);
}

#[test]
fn other_sectors_leave_the_trailer() {
    let (whole, other) = (two_directories(5), [3; SECTOR]);
    for s in 0..7 {
        let mut rescued = Rescued::new(whole);
        rescued.put(s, &other);
        assert!(sector(rescued.0.page(), s) == other && rescued.0.page()[SHIFTED..] == whole[SHIFTED..]);
    }
}

#[test]
fn all_sectors_of_another_page_make_it_that_page() {
    let (old, new) = (two_directories(9), two_directories(5));
    let mut rescued = Rescued::new(old);
    [6, 1, 7, 0, 3, 5, 2, 4, 7].iter().for_each(|&s| rescued.put(s, sector(&new, s)));
    assert!(*rescued.0.page() == new);
}

/// Also 496 bytes for sector 7.
const NO_SECTORS: [(usize, usize); 9] = [(7, 0), (7, 495), (7, 496), (7, 511), (7, 513), (6, 496), (0, 0), (8, 512), (usize::MAX, 512)];

/// No lent byte is written, and wrong lengths of page and buffer are answered first.
#[test]
fn another_sector_or_length_is_refused() {
    let whole = two_directories(5);
    for (s, n) in NO_SECTORS {
        let (mut page, mut shifted) = (whole, [0; SHIFTED]);
        let fits = scan(NUMBER, &page, &mut shifted).unwrap();
        let before = shifted;
        let refusal = replace(NUMBER, &mut page, &mut shifted, &fits, s, &vec![1; n]).unwrap_err();
        assert_eq!(refusal, Refusal::BadReplacement { sector: s });
        assert!(page == whole && shifted == before);
        let wrong = Refusal::WrongBufferLength { buffer: Buffer::Shifted, length: 4_079 };
        for (p, m, refusal) in [(4_095, SHIFTED, Refusal::WrongPageLength(4_095)), (PAGE, 4_079, wrong)] {
            assert_eq!(replace(NUMBER, &mut page[..p], &mut shifted[..m], &fits, s, &vec![1; n]).unwrap_err(), refusal);
        }
        assert!(page == whole && shifted == before);
    }
}
