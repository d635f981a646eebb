//! A page mended through `Repair` is read, after any sequence of replacements, as the free functions read it, and as it is read afresh.
use lumeviqo::*;

const LENIENCIES: [Leniency; 3] = [Leniency::STRICT, Leniency::KEYSTREAM, Leniency(5)];

/// Numbers that look random and are the same in every run.
struct Random(u64);

impl Random {
    fn below(&mut self, n: usize) -> usize {
        self.0 = self.0.wrapping_mul(6_364_136_223_846_793_005).wrapping_add(1_442_695_040_888_963_407);
        (self.0 >> 33) as usize % n
    }
}

/// A page of `bindings/sample.pages`.
fn sample(k: usize) -> [u8; PAGE] {
    let file = std::fs::read("../sample.pages").unwrap();
    file[k * PAGE..][..PAGE].try_into().unwrap()
}

fn sector(page: &[u8; PAGE], s: usize) -> &[u8] {
    &page[s * SECTOR..][..SECTOR]
}

/// A sector, some of them refused for their number or their length, and bytes for it: of a whole page, zeros, one value or any.
fn replacement(random: &mut Random, whole: &[u8; PAGE]) -> (usize, Vec<u8>) {
    let s = random.below(8);
    match random.below(8) {
        0 => (s, vec![0; SECTOR]),
        1 => (s, vec![random.below(256) as u8; SECTOR]),
        2 => (s, (0..SECTOR).map(|_| random.below(256) as u8).collect()),
        3 => (8 + random.below(3), vec![1; SECTOR]),
        4 => (s, vec![1; random.below(SECTOR)]),
        _ => (s, sector(whole, s).to_vec()),
    }
}

/// What the free functions keep in lent buffers.
struct Lent {
    number: u64,
    page: [u8; PAGE],
    shifted: [u8; SHIFTED],
    fits: Fits,
}

impl Lent {
    fn new(number: u64, page: [u8; PAGE]) -> Self {
        let mut shifted = [0; SHIFTED];
        let fits = scan(number, &page, &mut shifted).unwrap();
        Lent { number, page, shifted, fits }
    }

    fn replace(&mut self, s: usize, bytes: &[u8]) -> Result<(), Refusal> {
        self.fits = replace(self.number, &mut self.page, &mut self.shifted, &self.fits, s, bytes)?;
        Ok(())
    }
}

/// An answer with its plaintext, which is all 7 where nothing was written.
fn kept(reading: Result<Reading, Refusal>, number: u64) -> (Result<Decoding, Refusal>, [u8; PAGE]) {
    match reading {
        Ok(reading) => {
            assert_eq!(reading.number(), number);
            (Ok(reading.decoding), *reading.plain)
        }
        Err(refusal) => (Err(refusal), [7; PAGE]),
    }
}

fn written(decode: impl FnOnce(&mut [u8]) -> Result<Decoding, Refusal>) -> (Result<Decoding, Refusal>, [u8; PAGE]) {
    let mut out = [7; PAGE];
    (decode(&mut out), out)
}

fn assert_same_readings(repair: &Repair, lent: &Lent, anchors: &[u8], bv: u8) {
    let (n, page, fits, shifted) = (lent.number, &lent.page, &lent.fits, &lent.shifted);
    assert!((repair.number(), repair.page(), repair.fits()) == (n, page, fits));
    for leniency in LENIENCIES {
        let options = Options { leniency, ..Options::default() };
        let chosen = kept(repair.decode(anchors, options), n);
        assert!(chosen == written(|out| decode_summary(n, page, fits, shifted, anchors, options, out)), "as from lent buffers");
        assert!(chosen == written(|out| decode(n, page, anchors, options, out)), "as afresh");
        let supplied = kept(repair.decode_supplied(bv, options), n);
        assert!(supplied == written(|out| decode_supplied_summary(n, page, fits, shifted, bv, options, out)), "as from lent buffers");
        assert!(supplied == written(|out| decode_supplied(n, page, bv, options, out)), "as afresh");
    }
}

#[test]
fn any_sequence_of_replacements_is_read_as_the_page_it_gives() {
    let (mut random, whole) = (Random(16), sample(1));
    let (mut refused, mut read) = (0, 0);
    for number in [1, 0, 9, 17, u64::MAX] {
        let start = [sample(3), [0; PAGE]][random.below(2)];
        let (mut repair, mut lent) = (Repair::new(number, &start).unwrap(), Lent::new(number, start));
        for _ in 0..24 {
            let (s, bytes) = replacement(&mut random, &whole);
            let before = repair.clone();
            let answer = repair.replace(s, &bytes);
            assert_eq!(answer, lent.replace(s, &bytes));
            if answer.is_err() {
                assert!((repair.page(), repair.fits()) == (before.page(), before.fits()), "a refusal changes nothing");
                refused += 1;
            }
            let anchors = [0x5A, random.below(256) as u8];
            assert_same_readings(&repair, &lent, &anchors[..random.below(3)], anchors[random.below(2)]);
        }
        (0..8).for_each(|s| repair.replace(s, sector(&whole, s)).unwrap());
        assert!(*repair.page() == whole);
        read += repair.decode(&[], Options::default()).is_ok() as u32;
    }
    assert!(refused > 20 && read > 0, "{refused} refused, {read} read");
}

#[test]
fn another_sector_or_length_is_refused() {
    let whole = sample(1);
    let mut repair = Repair::new(1, &whole).unwrap();
    let fits = *repair.fits();
    for (s, n) in [(7, 0), (7, 496), (7, 513), (6, 511), (8, 512), (usize::MAX, 512)] {
        assert_eq!(repair.replace(s, &vec![1; n]).unwrap_err(), Refusal::BadReplacement { sector: s });
        assert!(*repair.page() == whole && *repair.fits() == fits);
    }
}

#[test]
fn a_page_of_another_length_is_refused() {
    for n in [0, 1, PAGE - 1, PAGE + 1, 2 * PAGE] {
        assert_eq!(Repair::new(1, &vec![0; n]).unwrap_err(), Refusal::WrongPageLength(n));
    }
}

/// A copy goes its own way.
#[test]
fn a_clone_is_a_page_of_its_own() {
    let whole = sample(1);
    let repair = Repair::new(1, &whole).unwrap();
    let mut copy = repair.clone();
    copy.replace(3, &[0; SECTOR]).unwrap();
    assert!(copy.decode(&[], Options::default()).is_err());
    assert!(*repair.page() == whole && repair.decode(&[], Options::default()).is_ok());
}

#[test]
fn a_reading_finds_its_rows_under_its_number() {
    let (strict, whole) = (Options::default(), sample(1));
    let reading = Repair::new(1, &whole).unwrap().decode(&[], strict).unwrap();
    assert_eq!(reading.rows(strict), rows(1, &reading.plain[..], strict));
    assert_eq!(reading.parse(strict), parse(1, &reading.plain[..], strict));
    assert_eq!(reading.rows(strict).unwrap()[4].bytes, b"5 Turdus merula, dusk");
    let mut other = reading.clone();
    other.plain[0xFF0] = 40;
    assert_eq!(other.rows(strict).unwrap_err().page(), Some(1));
    assert!(other != reading);
}

/// Neither prints thousands of bytes.
#[test]
fn they_are_short_to_look_at() {
    let repair = Repair::new(1, &sample(1)).unwrap();
    let reading = repair.decode(&[], Options::default()).unwrap();
    for text in [format!("{repair:?}"), format!("{reading:?}")] {
        assert!(text.contains("number: 1, ") && text.len() < 1_200, "{text}");
    }
}
