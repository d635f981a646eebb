//! The functions of include/lumeviqo.h, as C calls them.
//!
//! A call is sound where each pointer, which is not null even with length 0, is to as many bytes as the length behind it says, and a buffer
//! that is written to overlaps no other.

unsafe extern "C" {
    /// The version of the library, which must be [`VERSION`](crate::header::VERSION) before anything else is asked.
    pub fn lumeviqo_version() -> u32;

    /// CRC-32 of ITU-T V.42.
    pub fn lumeviqo_crc32(bytes: *const u8, bytes_length: usize) -> u32;

    /// The trailer record of a page.
    pub fn lumeviqo_trailer(page: *const u8, page_length: usize, answer: *mut u8, answer_length: usize) -> usize;

    /// Whether a stored page is unallocated, or its CRC and its reserved bytes are right.
    pub fn lumeviqo_integrity(number: u64, stored: *const u8, stored_length: usize, answer: *mut u8, answer_length: usize) -> usize;

    /// The fields of page 0, whatever its magic.
    pub fn lumeviqo_superblock(stored: *const u8, stored_length: usize, answer: *mut u8, answer_length: usize) -> usize;

    /// The fields of page 0, if it has the magic of SQL Anywhere 17.
    pub fn lumeviqo_superblock_checked(stored: *const u8, stored_length: usize, answer: *mut u8, answer_length: usize) -> usize;

    /// The fits of a stored page, and its shifted bytes.
    pub fn lumeviqo_scan(
        number: u64,
        stored: *const u8,
        stored_length: usize,
        shifted: *mut u8,
        shifted_length: usize,
        answer: *mut u8,
        answer_length: usize,
    ) -> usize;

    /// A sector replaced, with the page's number and the fits of the last step.
    pub fn lumeviqo_replace(
        number: u64,
        stored: *mut u8,
        stored_length: usize,
        shifted: *mut u8,
        shifted_length: usize,
        fits: *const u8,
        fits_length: usize,
        sector: usize,
        bytes: *const u8,
        bytes_length: usize,
        answer: *mut u8,
        answer_length: usize,
    ) -> usize;

    /// A stored page decoded.
    pub fn lumeviqo_decode(
        number: u64,
        stored: *const u8,
        stored_length: usize,
        anchors: *const u8,
        anchors_length: usize,
        leniency: u8,
        min_trailer_count: u8,
        search_limit: usize,
        out: *mut u8,
        out_length: usize,
        answer: *mut u8,
        answer_length: usize,
    ) -> usize;

    /// A stored page decoded from its summary, which must be that of the page under this number.
    pub fn lumeviqo_decode_summary(
        number: u64,
        stored: *const u8,
        stored_length: usize,
        fits: *const u8,
        fits_length: usize,
        shifted: *const u8,
        shifted_length: usize,
        anchors: *const u8,
        anchors_length: usize,
        leniency: u8,
        min_trailer_count: u8,
        search_limit: usize,
        out: *mut u8,
        out_length: usize,
        answer: *mut u8,
        answer_length: usize,
    ) -> usize;

    /// A stored page decoded with a given bv.
    pub fn lumeviqo_decode_supplied(
        number: u64,
        stored: *const u8,
        stored_length: usize,
        bv: u8,
        leniency: u8,
        min_trailer_count: u8,
        search_limit: usize,
        out: *mut u8,
        out_length: usize,
        answer: *mut u8,
        answer_length: usize,
    ) -> usize;

    /// A stored page decoded with a given bv from its summary, which must be that of the page under this number.
    pub fn lumeviqo_decode_supplied_summary(
        number: u64,
        stored: *const u8,
        stored_length: usize,
        fits: *const u8,
        fits_length: usize,
        shifted: *const u8,
        shifted_length: usize,
        bv: u8,
        leniency: u8,
        min_trailer_count: u8,
        search_limit: usize,
        out: *mut u8,
        out_length: usize,
        answer: *mut u8,
        answer_length: usize,
    ) -> usize;

    /// The slot directory of a plain page.
    pub fn lumeviqo_parse(
        number: u64,
        plain: *const u8,
        plain_length: usize,
        leniency: u8,
        search_limit: usize,
        answer: *mut u8,
        answer_length: usize,
    ) -> usize;

    /// How many rows a plain page has.
    pub fn lumeviqo_row_count(
        number: u64,
        plain: *const u8,
        plain_length: usize,
        leniency: u8,
        search_limit: usize,
        answer: *mut u8,
        answer_length: usize,
    ) -> usize;

    /// Where a row of a plain page lies.
    pub fn lumeviqo_row(
        number: u64,
        plain: *const u8,
        plain_length: usize,
        leniency: u8,
        search_limit: usize,
        row: usize,
        answer: *mut u8,
        answer_length: usize,
    ) -> usize;

    /// Where all rows of a plain page lie.
    pub fn lumeviqo_rows(
        number: u64,
        plain: *const u8,
        plain_length: usize,
        leniency: u8,
        search_limit: usize,
        answer: *mut u8,
        answer_length: usize,
    ) -> usize;
}
