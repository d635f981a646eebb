
/// Appended to the original's ap.rs for the comparison: a page's scan, and what `ApModel::deobfuscate` makes of it, in its order, with the
/// anchors given instead of searched for in the block; the candidates, of which it tells only some; and how many steps tied, which it does not
/// count.
pub mod reached {
    use super::*;

    /// A page and its scan.
    pub struct Scanned<'a> {
        page: Page<'a>,
        scan: PageScan,
    }

    impl<'a> Scanned<'a> {
        pub fn new(page: Page<'a>) -> Self {
            Scanned { page, scan: scan_page(page.bytes(), page.index()) }
        }

        /// The scan of a page that has its sectors 0 to 6 in another order, beside this one's bytes.
        pub fn turned(&self) -> Self {
            let copy = |s: &SectorScan| SectorScan { step: s.step, peak: s.peak, runner_up: s.runner_up, m: s.m.clone() };
            let mut sectors: Vec<_> = self.scan.sectors.iter().map(copy).collect();
            sectors[..SECTORS_PER_PAGE - 1].rotate_left(1);
            Scanned { page: self.page, scan: PageScan { sectors, counts: self.scan.counts } }
        }

        pub fn fits(&self) -> [(u8, usize, usize, bool); SECTORS_PER_PAGE] {
            std::array::from_fn(|s| {
                let s = &self.scan.sectors[s];
                (s.step, s.peak, s.runner_up, s.is_exact())
            })
        }

        pub fn shifted(&self) -> Vec<u8> {
            self.scan.sectors.iter().flat_map(|s| s.m.iter().copied()).collect()
        }

        /// What `choose_bv` chooses from. Neither anchors nor options add to it.
        pub fn candidates(&self) -> Vec<u8> {
            assess(&self.scan, self.page.bytes(), &BTreeSet::new()).cands.iter().map(|c| c.bv).collect()
        }

        pub fn deobfuscate(&self, anchors: &BTreeSet<u8>, opts: &ReadOptions) -> Result<DeobfuscatedPage> {
            judged(self.page, || &self.scan, anchors, opts)
        }
    }

    /// Of one sector alone, with its shifted bytes.
    pub fn sector(page: Page<'_>, s: usize) -> ((u8, usize, usize, bool), Vec<u8>) {
        let (start, end) = sector_range(s);
        let scan = scan_sector(&page.bytes()[start..end], ap_offset(page.index(), s));
        ((scan.step, scan.peak, scan.runner_up, scan.is_exact()), scan.m)
    }

    /// Of one sector how many of the 256 steps reach the peak. A scan does not count them, since it is timed.
    pub fn tied(page: Page<'_>, s: usize) -> usize {
        let (start, end) = sector_range(s);
        let (bytes, offset) = (&page.bytes()[start..end], ap_offset(page.index(), s));
        let counts: Vec<u16> = (0..=255).map(|step| modal_count(bytes, offset, step)).collect();
        let peak = counts.iter().max();
        counts.iter().filter(|&count| Some(count) == peak).count()
    }

    /// How many shifted bytes are equal, at most.
    fn modal_count(bytes: &[u8], offset: u8, step: u8) -> u16 {
        let mut counts = [0; 256];
        for (i, &b) in bytes.iter().enumerate() {
            counts[shifted(b, offset, i, step) as usize] += 1;
        }
        counts.into_iter().max().unwrap_or(0)
    }

    pub fn deobfuscate(page: Page<'_>, anchors: &BTreeSet<u8>, opts: &ReadOptions) -> Result<DeobfuscatedPage> {
        judged(page, || scan_page(page.bytes(), page.index()), anchors, opts)
    }

    fn judged<S: std::borrow::Borrow<PageScan>>(
        page: Page<'_>,
        scan: impl FnOnce() -> S,
        anchors: &BTreeSet<u8>,
        opts: &ReadOptions,
    ) -> Result<DeobfuscatedPage> {
        if page.is_unallocated() {
            return Ok(unallocated_page(page));
        }
        let mut warnings = Vec::new();
        if let Err(err) = check_integrity(page) {
            if !opts.leniency.contains(Leniency::INTEGRITY) {
                return Err(err);
            }
            warnings.push(integrity_warning(&err, page.index()));
        }
        let scan = scan();
        let choice = choose_bv(scan.borrow(), page.bytes(), page.index(), anchors, opts, &mut warnings)?;
        finish(page, scan.borrow(), choice, opts, warnings)
    }

    pub fn integrity(page: Page<'_>) -> Result<()> {
        check_integrity(page)
    }
}
