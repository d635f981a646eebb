//! The crate over the library: pages of document 01, ties, lengths, search limits, and refusals that leave buffers alone.
use lumeviqo::*;

/// Page 1, zero data, type 0x45, with its CRC.
fn zero_data() -> [u8; PAGE] {
    let mut page = [0; PAGE];
    page[0xFF2] = 0x45;
    let crc = crc32(&page[..4092]);
    page[4092..].copy_from_slice(&crc.to_le_bytes());
    page
}

/// A directory that no prelude confirms is taken.
const LENIENT: Options = Options { leniency: Leniency::DIRECTORY, min_trailer_count: 4, search_limit: 768 };

/// Each fit in the decoding of an unallocated page.
const UNALLOCATED: Fit = Fit { step: 0, peak: 0, runner_up: 0, exact: true, tied: 0 };

/// Row count 5, its prelude at 0x40, slots at 0x44.
fn slotted() -> [u8; PAGE] {
    let mut plain = [0; PAGE];
    plain[0x40] = 5;
    plain[0xFF0] = 5;
    put_slots(&mut plain, 0x44, &[0x0F00, 0x0E00, 0x0D00, 0, 0x0C00]);
    plain
}

fn put_slots(plain: &mut [u8], at: usize, slots: &[u16]) {
    for (place, slot) in plain[at..].chunks_exact_mut(2).zip(slots) {
        place.copy_from_slice(&slot.to_le_bytes());
    }
}

fn told(warnings: &[Warning]) -> Vec<(u64, &WarningKind)> {
    warnings.iter().map(|w| (w.page, &w.kind)).collect()
}

fn wrong(buffer: Buffer, length: usize) -> Refusal {
    Refusal::WrongBufferLength { buffer, length }
}

/// Bytes i(i + 1)/2 of a sector: under no step do more than two agree, and under each two do.
fn triangular(length: usize) -> Vec<u8> {
    (0..length).map(|i| (i * (i + 1) / 2) as u8).collect()
}

#[test]
fn crc_of_the_nine_digits() {
    assert_eq!(crc32(b"123456789"), 0xCBF4_3926);
    assert_eq!(crc32(b""), 0);
}

#[test]
fn zero_data_is_ambiguous() {
    let mut out = [7; PAGE];
    let refusal = decode(1, &zero_data(), &[], Options::default(), &mut out).unwrap_err();
    assert_eq!(refusal, Refusal::AmbiguousCalibration { page: 1, candidates: (248..=255).collect(), asked: Asked::default() });
    assert_eq!(out, [7; PAGE]);
}

/// Each value has a vote; 248 is sector 7's, which has fewer bytes.
#[test]
fn leniency_lets_the_ambiguous_through() {
    let mut out = [7; PAGE];
    let options = Options { leniency: Leniency::KEYSTREAM, ..Options::default() };
    let d = decode(1, &zero_data(), &[], options, &mut out).unwrap();
    assert_eq!((d.bv, d.source, d.confidence), (Some(249), Source::Histogram, Confidence::Unverified));
    let kind = WarningKind::AmbiguousCalibration { chosen: 249, others: vec![248, 250, 251, 252, 253, 254, 255] };
    assert_eq!(told(&d.warnings), [(1, &kind)]);
    assert_eq!(out[4080..], zero_data()[4080..]);
}

#[test]
fn an_unallocated_page_has_no_bv() {
    let mut out = [7; PAGE];
    let d = decode(5, &[0; PAGE], &[], Options::default(), &mut out).unwrap();
    assert_eq!((d.bv, d.source, d.confidence), (None, Source::Unallocated, Confidence::Unallocated));
    assert_eq!(d.evidence, [Evidence::Unallocated]);
    assert_eq!(d.fits, [UNALLOCATED; 8]);
    assert_eq!(out, [0; PAGE]);
}

/// A shift by a constant changes no count, so the page number plays no part.
#[test]
fn tied_steps_are_counted() {
    let mut page = [0; PAGE];
    page[..512].copy_from_slice(&triangular(512));
    page[0x700..0x800].copy_from_slice(&std::array::from_fn::<u8, 256, _>(|i| i as u8)); // behind 256 zeros
    page[0xE00..0xFF0].copy_from_slice(&triangular(496));
    for number in [0, 1, 9, u64::MAX] {
        let fits = scan(number, &page, &mut [0; SHIFTED]).unwrap();
        let all_tie = Fit { step: 0, peak: 2, runner_up: 2, exact: false, tied: 256 };
        assert_eq!([fits[0], fits[7]], [all_tie; 2]);
        assert_eq!(fits[3], Fit { step: 0, peak: 257, runner_up: 257, exact: false, tied: 2 });
        assert_eq!(fits[1], Fit { step: 0, peak: 512, runner_up: 256, exact: true, tied: 1 });
    }
}

#[test]
fn what_is_lent_as_tied_is_passed_on() {
    let (mut page, mut shifted, mut out) = (zero_data(), [0; SHIFTED], [0; PAGE]);
    let options = Options { leniency: Leniency::KEYSTREAM, ..Options::default() };
    let mut fits = scan(1, &page, &mut shifted).unwrap();
    assert_eq!(fits.map(|f| f.tied), [1; 8]);
    for (fit, tied) in fits.iter_mut().zip([0, 1, 2, 256, 257, 4_660, 65_534, 65_535]) {
        fit.tied = tied;
    }
    assert_eq!(decode_summary(1, &page, &fits, &shifted, &[], options, &mut out).unwrap().fits, fits);
    assert_eq!(decode_supplied_summary(1, &page, &fits, &shifted, 249, options, &mut out).unwrap().fits, fits);
    assert_eq!(decode_summary(1, &[0; PAGE], &fits, &shifted, &[], options, &mut out).unwrap().fits, [UNALLOCATED; 8]);

    let replaced = replace(1, &mut page, &mut shifted, &fits, 2, &triangular(512)).unwrap();
    fits[2] = Fit { step: 0, peak: 2, runner_up: 2, exact: false, tied: 256 };
    assert_eq!(replaced, fits);
}

/// 48 bytes too, which would be eight fits that end before `tied`.
#[test]
fn fits_of_another_length_are_no_fits() {
    let (page, shifted, fits) = (zero_data(), [0; SHIFTED], [0; 65]);
    for length in [0, 48, 63, 65] {
        let (mut out, mut answer) = ([7; PAGE], [7; header::DECODING_LENGTH]);
        let (o, a) = (out.as_mut_ptr(), answer.as_mut_ptr());
        let (p, f, m) = (page.as_ptr(), fits.as_ptr(), shifted.as_ptr());
        let written = unsafe {
            sys::lumeviqo_decode_summary(1, p, PAGE, f, length, m, SHIFTED, p, 0, 1, 4, 768, o, PAGE, a, header::DECODING_LENGTH)
        };
        assert_eq!((written, out, answer), (0, [7; PAGE], [7; header::DECODING_LENGTH]));
    }
}

#[test]
fn rows_of_a_directory() {
    let plain = slotted();
    let parsed = parse(3, &plain, Options::default()).unwrap();
    let directory = parsed.directory.unwrap();
    assert_eq!((directory.start, directory.end, directory.declared), (0x44, 0x4E, Some(5)));
    assert_eq!(directory.slots, [0x0F00, 0x0E00, 0x0D00, 0, 0x0C00]);
    let lengths: Vec<usize> = rows(3, &plain, Options::default()).unwrap().iter().map(|r| r.bytes.len()).collect();
    assert_eq!(lengths, [256, 256, 256, 240]);
    assert_eq!(row(3, &plain, Options::default(), 4).unwrap_err(), Refusal::NoSuchRow(4));
}

#[test]
fn all_rows_are_those_asked_for_one_by_one() {
    let mut plain = slotted();
    plain[0x4C..0x4E].copy_from_slice(&[0x46, 0]); // the last slot points into the directory
    let strict = Options::default();
    for options in [strict, LENIENT] {
        let one_by_one = row_count(3, &plain, options).and_then(|n| (0..n).map(|r| row(3, &plain, options, r)).collect());
        assert_eq!(rows(3, &plain, options), one_by_one);
    }
    assert_eq!(rows(3, &plain, strict).unwrap_err(), Refusal::SlotOffsetInDirectory { page: 3, offset: 0x46, end: 0x4E });
    assert_eq!(rows(3, &plain, LENIENT).unwrap().len(), 3);
    assert_eq!(rows(3, &[0; PAGE], strict).unwrap(), []);
}

/// Row count 40, its prelude at 0x400, slots at 0x404: no search in the usual 768 bytes comes to it.
#[test]
fn a_greater_limit_finds_a_directory_past_0x300() {
    let mut plain = [0; PAGE];
    let slots: Vec<u16> = (0..40).map(|k| 0xF00 - 32 * k).collect();
    plain[0x400] = 40;
    plain[0xFF0] = 40;
    put_slots(&mut plain, 0x404, &slots);
    assert_eq!(parse(3, &plain, Options::default()).unwrap_err(), Refusal::UnknownPrelude { page: 3 });

    // The prelude's count may stand at limit - 1, and not at the limit.
    let at = |search_limit: usize| Options { search_limit, ..Options::default() };
    assert_eq!(parse(3, &plain, at(0x400)).unwrap_err(), Refusal::UnknownPrelude { page: 3 });
    for options in [at(0x401), at(2_048)] {
        let directory = parse(3, &plain, options).unwrap().directory.unwrap();
        assert_eq!((directory.start, directory.end, directory.declared), (0x404, 0x454, Some(40)));
        assert_eq!(directory.slots, slots);
        assert_eq!((row_count(3, &plain, options), rows(3, &plain, options).unwrap().len()), (Ok(40), 40));
        assert_eq!(row(3, &plain, options, 39).unwrap().offset, 0xF00);
    }
}

/// The most that a search of 2,048 bytes can find; one of 768 bytes finds 384 of them.
#[test]
fn a_directory_of_1024_slots() {
    let mut plain = [0; PAGE];
    let slots: Vec<u16> = (0..1_024).map(|k| 0xFEF - k).collect();
    put_slots(&mut plain, 0, &slots);
    let widest = Options { search_limit: 2_048, ..LENIENT };
    let parsed = parse(3, &plain, widest).unwrap();
    assert_eq!(told(&parsed.warnings), [(3, &WarningKind::UnverifiedDirectory)]);
    assert_eq!(parsed.directory, Some(Directory { start: 0, end: 2_048, slots, declared: None }));
    let rows = rows(3, &plain, widest).unwrap();
    assert_eq!((rows.len(), rows[0].offset, rows[1_023].bytes), (1_024, 0xBF0, &plain[0xFEF..0xFF0]));
    assert_eq!((row_count(3, &plain, widest), row_count(3, &plain, LENIENT)), (Ok(1_024), Ok(384)));
}

/// Behind wrong lengths, before all else, and no lent byte is written.
#[test]
fn a_limit_out_of_range_is_refused() {
    let (plain, mut out, mut shifted) = (slotted(), [7; PAGE], [0; SHIFTED]);
    for limit in [0, 7, 2_049, 65_535, 1 << 32, usize::MAX] {
        let (options, refusal) = (Options { search_limit: limit, ..Options::default() }, Refusal::LimitOutOfRange(limit));
        for page in [zero_data(), [0; PAGE], [1; PAGE]] {
            let fits = scan(1, &page, &mut shifted).unwrap();
            assert_eq!(decode(1, &page, &[], options, &mut out).unwrap_err(), refusal);
            assert_eq!(decode_summary(1, &page, &fits, &shifted, &[], options, &mut out).unwrap_err(), refusal);
            assert_eq!(decode_supplied(1, &page, 249, options, &mut out).unwrap_err(), refusal);
            assert_eq!(decode_supplied_summary(1, &page, &fits, &shifted, 249, options, &mut out).unwrap_err(), refusal);
        }
        assert_eq!(parse(3, &plain, options).unwrap_err(), refusal);
        assert_eq!(row_count(3, &plain, options).unwrap_err(), refusal);
        assert_eq!(row(3, &plain, options, 9).unwrap_err(), refusal);
        assert_eq!(rows(3, &plain, options).unwrap_err(), refusal);
        assert_eq!(rows(3, &plain[..9], options).unwrap_err(), Refusal::WrongPageLength(9));
        assert_eq!(decode(1, &zero_data(), &[], options, &mut out[..9]).unwrap_err(), wrong(Buffer::Out, 9));
        assert!(refusal.to_string().contains("8 to 2048"));
    }
    assert_eq!(out, [7; PAGE]);
    for limit in [8, 2_048] {
        assert_eq!(rows(3, &[0; PAGE], Options { search_limit: limit, ..Options::default() }), Ok(Vec::new()));
    }
}

#[test]
fn every_wrong_length_is_refused() {
    let page = zero_data();
    for n in [0, 1, 4095] {
        assert_eq!(trailer(&page[..n]).unwrap_err(), Refusal::WrongPageLength(n));
        assert_eq!(integrity(1, &page[..n]).unwrap_err(), Refusal::WrongPageLength(n));
        assert_eq!(superblock(&page[..n]).unwrap_err(), Refusal::WrongPageLength(n));
        assert_eq!(parse(1, &page[..n], Options::default()).unwrap_err(), Refusal::WrongPageLength(n));
        assert_eq!(decode(1, &page, &[], Options::default(), &mut vec![0; n]).unwrap_err(), wrong(Buffer::Out, n));
        assert_eq!(scan(1, &page, &mut vec![0; n]).unwrap_err(), wrong(Buffer::Shifted, n));
    }
}

/// `out` before `shifted`; and the page before both.
#[test]
fn a_wrong_buffer_has_its_name() {
    let (mut page, mut shifted, strict) = (zero_data(), [0; SHIFTED], Options::default());
    let fits = scan(1, &page, &mut shifted).unwrap();
    for (out, m, buffer) in [(PAGE, 9, Buffer::Shifted), (8, 9, Buffer::Out), (8, SHIFTED, Buffer::Out)] {
        let (length, mut out) = (if buffer == Buffer::Out { out } else { m }, vec![0; out]);
        let chosen = decode_summary(1, &page, &fits, &shifted[..m], &[], strict, &mut out);
        let supplied = decode_supplied_summary(1, &page, &fits, &shifted[..m], 249, strict, &mut out);
        assert_eq!([chosen, supplied].map(Result::unwrap_err), [wrong(buffer, length), wrong(buffer, length)]);
    }
    assert_eq!(decode_supplied(1, &page, 249, strict, &mut [0; 8]).unwrap_err(), wrong(Buffer::Out, 8));
    assert_eq!(replace(1, &mut page, &mut shifted[..9], &fits, 0, &[0; SECTOR]).unwrap_err(), wrong(Buffer::Shifted, 9));
    assert_eq!(decode(1, &page[..9], &[], strict, &mut [0; 8]).unwrap_err(), Refusal::WrongPageLength(9));
}

/// Each way of asking for bv leaves its mark.
#[test]
fn a_refusal_knows_what_it_was_asked_with() {
    let (page, mut shifted, mut out) = (zero_data(), [0; SHIFTED], [0; PAGE]);
    let fits = scan(1, &page, &mut shifted).unwrap();
    for leniency in [Leniency::STRICT, Leniency::DIRECTORY, Leniency::INTEGRITY, Leniency(0xFE)] {
        let options = Options { leniency, ..Options::default() };
        for anchors in [&[][..], &[249, 3, 3]] {
            let refusal = decode(1, &page, anchors, options, &mut out).unwrap_err();
            assert_eq!(decode_summary(1, &page, &fits, &shifted, anchors, options, &mut out).unwrap_err(), refusal);
            let asked = Asked { anchors: anchors.len(), options, supplied: false };
            assert_eq!(refusal, Refusal::AmbiguousCalibration { page: 1, candidates: (248..=255).collect(), asked });
        }
        let refusal = decode_supplied(1, &page, 249, options, &mut out).unwrap_err();
        assert_eq!(decode_supplied_summary(1, &page, &fits, &shifted, 249, options, &mut out).unwrap_err(), refusal);
        assert_eq!(refusal, Refusal::KeystreamUnverified { page: 1, bv: 249, asked: Asked { anchors: 0, options, supplied: true } });
    }
}

#[test]
fn the_checked_superblock_wants_its_magic() {
    let mut page = [0; PAGE];
    assert_eq!(superblock_checked(&page).unwrap_err(), Refusal::BadMagic(0));
    page[0x14..0x18].copy_from_slice(&[0x5E, 0xBA, 0x7A, 0xDA]);
    page[100..133].copy_from_slice(b"SAP SE, Copyright (c)2015 17.0.4.");
    let s = superblock_checked(&page).unwrap();
    assert!(s.marker);
    assert_eq!(superblock(&page).unwrap(), s);
}

#[test]
fn page_types_keep_their_byte() {
    let mut page = [0; PAGE];
    for (byte, page_type, variant) in
        [(0x45, PageType::Extent, false), (0x65, PageType::Extent, true), (0x60, PageType::Other(0x60), false)]
    {
        page[0xFF2] = byte;
        let t = trailer(&page).unwrap();
        assert_eq!((t.page_type, t.case_variant), (page_type, variant));
    }
}
