/*
 * Lumeviqo, a reader of SQL Anywhere 17 page files, for C and for what speaks C.
 * The library: `tools/build library` writes target/staticlib/liblumeviqo.a, for x86-64 Linux.
 *
 * Every function takes each buffer as a pointer and a length in bytes, and writes its whole answer to the buffer `answer` in the
 * layouts below. It returns how many bytes of `answer` it wrote. It returns 0, and writes nothing at all to any buffer, where
 * `answer` is shorter than the layout, or where what is lent as `fits` is no fits: it is not LUMEVIQO_FITS_LENGTH bytes long, or the
 * byte that marks a fit as exact is neither 0 nor 1. A longer `answer` is allowed: bytes past the layout stay as they are.
 *
 * A refusal writes its answer and no other buffer. Its values are those of the answer part; every byte behind the answer part is
 * zero, but for the candidates of answer 5, and for the fits of a refused replacement, which are those that were lent.
 *
 * No pointer may be NULL, not even with length 0. A buffer that is written to may not overlap any other. No function keeps a pointer,
 * allocates, locks or fails otherwise; all may be called from several threads at once.
 *
 * Of the names, LUMEVIQO_.._LENGTH is the length of a buffer, a layout or a part of one, in bytes (but LUMEVIQO_WRONG_.._LENGTH are
 * answers), LUMEVIQO_MOST_.. how many of a thing a layout has places for, LUMEVIQO_LENIENT_.. a bit of `leniency`. The other names of
 * a layout or part are offsets, counted from its first byte. Numbers are little-endian and have no alignment. A flag is a byte, 0 or 1.
 */
#ifndef LUMEVIQO_H
#define LUMEVIQO_H

#include <stddef.h>
#include <stdint.h>

#ifdef __cplusplus
extern "C" {
#endif

/* The version of this page, which rises with every change of a layout or of what a function takes, and with every new answer or kind.
   lumeviqo_version() is that of the library: where the two differ no other function may be called. */
#define LUMEVIQO_VERSION 4

/* Buffers: a page, stored or plain; its shifted bytes, which are those before the trailer; a sector, the last of the eight with the
   trailer in its last 16 bytes. */
#define LUMEVIQO_PAGE_LENGTH 4096
#define LUMEVIQO_SHIFTED_LENGTH 4080
#define LUMEVIQO_SECTOR_LENGTH 512
#define LUMEVIQO_SECTOR_COUNT 8

/* Places. */
#define LUMEVIQO_MOST_ANSWER_VALUES 4
#define LUMEVIQO_MOST_WARNING_VALUES 3
#define LUMEVIQO_MOST_EVIDENCE_VALUES 2
#define LUMEVIQO_MOST_CANDIDATES 8
#define LUMEVIQO_MOST_EVIDENCE 4
#define LUMEVIQO_MOST_WARNINGS 10 /* of a decoding */
#define LUMEVIQO_MOST_PARSE_WARNINGS 3
#define LUMEVIQO_MOST_SLOTS 1024 /* and rows */

/* Parts of layouts. Every layout begins with an answer part. */

/* Answer part. */
#define LUMEVIQO_ANSWER_NUMBER 0      /* u8       see LUMEVIQO_ACCEPTED and below */
#define LUMEVIQO_ANSWER_VALUE_COUNT 1 /* u8       how many values it has, 0 to 4 */
#define LUMEVIQO_ANSWER_ZEROS 2       /* 6 bytes  zero */
#define LUMEVIQO_ANSWER_VALUES 8      /* 4 x u64  in the order given beside each number; unused ones are 0 */
#define LUMEVIQO_ANSWER_LENGTH 40

/* Value, of an answer or a warning: a u64. */
#define LUMEVIQO_VALUE_LENGTH 8

/* Fit, of one sector. `tied` is 0 where no sector was scanned: in a refused scan or decoding, and in the decoding of an unallocated
   page. Nothing reads it. Where a decoding from a summary is accepted and the page is not unallocated, all but the flag is as lent,
   whatever the numbers, and the flag is made anew. */
#define LUMEVIQO_FIT_STEP 0           /* u8 */
#define LUMEVIQO_FIT_PEAK 1           /* u16 */
#define LUMEVIQO_FIT_RUNNER_UP 3      /* u16 */
#define LUMEVIQO_FIT_EXACT 5          /* flag     lent fits with another byte here are refused: 0 is returned */
#define LUMEVIQO_FIT_TIED 6           /* u16      how many of the 256 steps reach the peak, 1 to 256 in a scanned sector */
#define LUMEVIQO_FIT_LENGTH 8

/* Fits, as they are lent too: one for each sector, in the sectors' order. */
#define LUMEVIQO_FITS_LENGTH (LUMEVIQO_SECTOR_COUNT * LUMEVIQO_FIT_LENGTH)

/* Warning. */
#define LUMEVIQO_WARNING_NUMBER 0     /* u8       of the answer of its kind, 3 to 12; 0 in an unused place */
#define LUMEVIQO_WARNING_PAGE 1       /* u64      page number */
#define LUMEVIQO_WARNING_VALUES 9     /* 3 x u64  in the order given beside each LUMEVIQO_WARNED_..; unused ones are 0 */
#define LUMEVIQO_WARNING_LENGTH 33

/* Evidence, one piece. */
#define LUMEVIQO_EVIDENCE_NUMBER 0    /* u8       see LUMEVIQO_EVIDENT_..; 0 in an unused place */
#define LUMEVIQO_EVIDENCE_VALUES 1    /* 2 x u16  unused ones are 0 */
#define LUMEVIQO_EVIDENCE_LENGTH 5

/* Slot, and a row's start: a u16. */
#define LUMEVIQO_SLOT_LENGTH 2

/* Layouts. What follows stands behind the answer part. */

/* Integrity: the answer part alone. */
#define LUMEVIQO_INTEGRITY_LENGTH LUMEVIQO_ANSWER_LENGTH

/* Trailer. */
#define LUMEVIQO_TRAILER_ROW_COUNT 40     /* u8 */
#define LUMEVIQO_TRAILER_TYPE_BYTE 41     /* u8    the page type as it is written back */
#define LUMEVIQO_TRAILER_TYPE 42          /* u8    see LUMEVIQO_TYPE_.. */
#define LUMEVIQO_TRAILER_CASE_VARIANT 43  /* flag  the type byte was a lower case letter */
#define LUMEVIQO_TRAILER_LSN 44           /* u32 */
#define LUMEVIQO_TRAILER_CRC 48           /* u32   as it is stored */
#define LUMEVIQO_TRAILER_RESERVED_ZERO 52 /* flag  the reserved bytes are zero */
#define LUMEVIQO_TRAILER_LENGTH 53

/* Superblock. */
#define LUMEVIQO_SUPERBLOCK_FLAGS 40        /* u8 */
#define LUMEVIQO_SUPERBLOCK_VARIANT_BITS 41 /* u8    the flags without 0x09 */
#define LUMEVIQO_SUPERBLOCK_LSN 42          /* u32 */
#define LUMEVIQO_SUPERBLOCK_MAJOR 46        /* u32   major version */
#define LUMEVIQO_SUPERBLOCK_A 50            /* u16   version half a */
#define LUMEVIQO_SUPERBLOCK_B 52            /* u16   version half b */
#define LUMEVIQO_SUPERBLOCK_MAGIC 54        /* u32 */
#define LUMEVIQO_SUPERBLOCK_PAGE_HINT 58    /* u32 */
#define LUMEVIQO_SUPERBLOCK_MARKER 62       /* flag  the marker occurs */
#define LUMEVIQO_SUPERBLOCK_LENGTH 63

/* Scan. */
#define LUMEVIQO_SCAN_FITS 40 /* fits */
#define LUMEVIQO_SCAN_LENGTH (LUMEVIQO_SCAN_FITS + LUMEVIQO_FITS_LENGTH)

/* Replacement. */
#define LUMEVIQO_REPLACEMENT_FITS 40 /* fits */
#define LUMEVIQO_REPLACEMENT_LENGTH (LUMEVIQO_REPLACEMENT_FITS + LUMEVIQO_FITS_LENGTH)

/* Decoding. The candidates are of answer 5 those that it could not choose from, of warning 5 those that the chosen one was preferred
   to, ascending. The evidence is in the order row count, exact sectors, anchor, zero mass; the warnings in the order integrity, choice
   of bv, sectors ascending. */
#define LUMEVIQO_DECODING_CANDIDATE_COUNT 40 /* u8           how many candidates follow, 0 to 8 */
#define LUMEVIQO_DECODING_CANDIDATES 41      /* 8 x u8       values of bv; unused ones are 0 */
#define LUMEVIQO_DECODING_BV 49              /* u8           0 on an unallocated page */
#define LUMEVIQO_DECODING_SOURCE 50          /* u8           see LUMEVIQO_SOURCE_..; 0 of a refusal */
#define LUMEVIQO_DECODING_CONFIDENCE 51      /* u8           see LUMEVIQO_CONFIDENCE_..; 0 of a refusal */
#define LUMEVIQO_DECODING_EVIDENCE_COUNT 52  /* u8           how much evidence follows, 0 to 4 */
#define LUMEVIQO_DECODING_EVIDENCE 53        /* 4 x evidence */
#define LUMEVIQO_DECODING_FITS (LUMEVIQO_DECODING_EVIDENCE + LUMEVIQO_MOST_EVIDENCE * LUMEVIQO_EVIDENCE_LENGTH) /* fits */
#define LUMEVIQO_DECODING_WARNING_COUNT (LUMEVIQO_DECODING_FITS + LUMEVIQO_FITS_LENGTH) /* u8: how many follow, 0 to 10 */
#define LUMEVIQO_DECODING_WARNINGS (LUMEVIQO_DECODING_WARNING_COUNT + 1) /* 10 x warning */
#define LUMEVIQO_DECODING_LENGTH (LUMEVIQO_DECODING_WARNINGS + LUMEVIQO_MOST_WARNINGS * LUMEVIQO_WARNING_LENGTH)

/* Parse. */
#define LUMEVIQO_PARSE_FOUND 40           /* flag         there is a directory; if not, the next fields up to the warnings are 0 */
#define LUMEVIQO_PARSE_START 41           /* u16          where its array starts */
#define LUMEVIQO_PARSE_END 43             /* u16          where its array ends */
#define LUMEVIQO_PARSE_SLOT_COUNT 45      /* u16          how many slots it has, 0 to 1,024 */
#define LUMEVIQO_PARSE_DECLARED 47        /* flag         a prelude declared their number */
#define LUMEVIQO_PARSE_DECLARED_COUNT 48  /* u16          the declared number */
#define LUMEVIQO_PARSE_SLOTS 50           /* 1,024 x u16  deleted ones are 0 */
#define LUMEVIQO_PARSE_WARNING_COUNT (LUMEVIQO_PARSE_SLOTS + LUMEVIQO_MOST_SLOTS * LUMEVIQO_SLOT_LENGTH) /* u16: how many follow, 0 to 3 */
#define LUMEVIQO_PARSE_WARNINGS (LUMEVIQO_PARSE_WARNING_COUNT + 2) /* 3 x warning */
#define LUMEVIQO_PARSE_LENGTH (LUMEVIQO_PARSE_WARNINGS + LUMEVIQO_MOST_PARSE_WARNINGS * LUMEVIQO_WARNING_LENGTH)

/* Row count. */
#define LUMEVIQO_ROW_COUNT_ROWS 40 /* u16  how many rows, 0 to 1,024 */
#define LUMEVIQO_ROW_COUNT_LENGTH 42

/* Row. */
#define LUMEVIQO_ROW_START 40 /* u16  offset of its first byte in the plain page */
#define LUMEVIQO_ROW_END 42   /* u16  offset behind its last byte */
#define LUMEVIQO_ROW_LENGTH 44

/* Rows. A row ends where the next one starts, the last at LUMEVIQO_SHIFTED_LENGTH. */
#define LUMEVIQO_ROWS_COUNT 40  /* u16          how many rows, 0 to 1,024 */
#define LUMEVIQO_ROWS_STARTS 42 /* 1,024 x u16  offset of each row's first byte, ascending, then zeros */
#define LUMEVIQO_ROWS_LENGTH (LUMEVIQO_ROWS_STARTS + LUMEVIQO_MOST_SLOTS * LUMEVIQO_SLOT_LENGTH)

/* Leniency: any sum of these. Other bits mean nothing. */
#define LUMEVIQO_STRICT 0
#define LUMEVIQO_LENIENT_KEYSTREAM 1 /* take a bv that nothing confirms, and sectors whose step is in doubt */
#define LUMEVIQO_LENIENT_DIRECTORY 2 /* take a slot directory that no prelude confirms */
#define LUMEVIQO_LENIENT_INTEGRITY 4 /* take pages that fail their CRC or trailer check */

/* T: from which row count on the row-count test counts. Any value 0 to 255; this is the original's. */
#define LUMEVIQO_MIN_TRAILER_COUNT 4

/* The search limit: so many of the page's first bytes are searched for slots that no prelude declares, and for the first byte of a
   prelude's count; declared slots may run past it. The first is the original's. Any from the second to the third is taken, and another is
   refused with 20: after wrong lengths, before all else, on an unallocated page too. */
#define LUMEVIQO_SEARCH_LIMIT 768
#define LUMEVIQO_LEAST_SEARCH_LIMIT 8 /* four slots take so many */
#define LUMEVIQO_GREATEST_SEARCH_LIMIT 2048

/* Answers, and their values. 15 is not used: it was for more than eight candidates, and no page or summary has so many. */
#define LUMEVIQO_ACCEPTED 0
#define LUMEVIQO_WRONG_PAGE_LENGTH 1 /* length */
#define LUMEVIQO_WRONG_BUFFER_LENGTH 2 /* length: of `out`, or else of `shifted` */
#define LUMEVIQO_BAD_CRC 3 /* page, stored, computed */
#define LUMEVIQO_BAD_TRAILER 4 /* page */
#define LUMEVIQO_AMBIGUOUS_CALIBRATION 5 /* page; the candidates stand in the decoding */
#define LUMEVIQO_KEYSTREAM_UNVERIFIED 6 /* page, bv */
#define LUMEVIQO_LOW_CONFIDENCE_KEYSTREAM 7 /* page, sector, peak, runner-up */
#define LUMEVIQO_NO_SLOT_DIRECTORY 8 /* page, reason: see LUMEVIQO_REASON_.. */
#define LUMEVIQO_UNKNOWN_PRELUDE 9 /* page */
#define LUMEVIQO_SLOT_DIRECTORY_TRUNCATED 10 /* page, slots found, slots expected, offset of the pair that failed */
#define LUMEVIQO_AMBIGUOUS_SLOT_DIRECTORY 11 /* page */
#define LUMEVIQO_SLOT_OFFSET_IN_DIRECTORY 12 /* page, the offset, where the directory ends */
#define LUMEVIQO_BAD_MAGIC 13 /* magic */
#define LUMEVIQO_BAD_REPLACEMENT 14 /* sector */
#define LUMEVIQO_NO_SUCH_ROW 16 /* row number */
#define LUMEVIQO_LIMIT_OUT_OF_RANGE 20 /* search limit */

/* Why there is no slot directory. */
#define LUMEVIQO_REASON_COUNT_BELOW_FOUR 1 /* a row count below 4 confirms none */
#define LUMEVIQO_REASON_FEWER_THAN_EIGHT_LIVE 2 /* what looks like one has fewer than 8 live slots */
#define LUMEVIQO_REASON_UNCONFIRMED 3 /* no prelude confirms what looks like one */

/* Where a bv came from. */
#define LUMEVIQO_SOURCE_TRAILER_ROW_COUNT 1
#define LUMEVIQO_SOURCE_EXACT_SECTORS 2
#define LUMEVIQO_SOURCE_HISTOGRAM 3
#define LUMEVIQO_SOURCE_SUPPLIED 4
#define LUMEVIQO_SOURCE_CORROBORATED 5
#define LUMEVIQO_SOURCE_UNALLOCATED 6

/* How far it can be trusted. */
#define LUMEVIQO_CONFIDENCE_UNALLOCATED 1
#define LUMEVIQO_CONFIDENCE_UNVERIFIED 2
#define LUMEVIQO_CONFIDENCE_CORROBORATED 3
#define LUMEVIQO_CONFIDENCE_CALIBRATED 4
#define LUMEVIQO_CONFIDENCE_VERIFIED 5

/* Evidence, and its values. */
#define LUMEVIQO_EVIDENT_TRAILER_ROW_COUNT 1
#define LUMEVIQO_EVIDENT_EXACT_SECTORS 2 /* votes for bv, votes for others */
#define LUMEVIQO_EVIDENT_BLOCK_ANCHOR 3
#define LUMEVIQO_EVIDENT_ZERO_MASS 4 /* bytes that decode to zero, lead over the best other candidate */
#define LUMEVIQO_EVIDENT_UNALLOCATED 5

/* Warnings, and their values. */
#define LUMEVIQO_WARNED_BAD_CRC 3
#define LUMEVIQO_WARNED_BAD_TRAILER 4
#define LUMEVIQO_WARNED_AMBIGUOUS_CALIBRATION 5 /* the chosen bv; the others stand in the decoding */
#define LUMEVIQO_WARNED_UNVERIFIED_KEYSTREAM 6 /* bv */
#define LUMEVIQO_WARNED_LOW_CONFIDENCE_SECTOR 7 /* sector, peak, runner-up */
#define LUMEVIQO_WARNED_UNVERIFIED_DIRECTORY 8
#define LUMEVIQO_WARNED_UNKNOWN_PRELUDE 9
#define LUMEVIQO_WARNED_SLOT_DIRECTORY_TRUNCATED 10 /* slots found, slots expected */
#define LUMEVIQO_WARNED_AMBIGUOUS_SLOT_DIRECTORY 11
#define LUMEVIQO_WARNED_SLOT_OFFSETS_IN_DIRECTORY 12 /* slots left out */

/* Page types. */
#define LUMEVIQO_TYPE_OTHER 0
#define LUMEVIQO_TYPE_EXTENT 1
#define LUMEVIQO_TYPE_ALLOC 2
#define LUMEVIQO_TYPE_MAP 3
#define LUMEVIQO_TYPE_HEADER 4
#define LUMEVIQO_TYPE_CATALOG 5
#define LUMEVIQO_TYPE_BOOTSTRAP 6
#define LUMEVIQO_TYPE_INDEX 7

/* LUMEVIQO_VERSION of the library. It takes nothing and has no answer buffer. */
uint32_t lumeviqo_version(void);

/* CRC-32 of ITU-T V.42 over any bytes. It has no answer buffer: the CRC is returned. */
uint32_t lumeviqo_crc32(const uint8_t *bytes, size_t bytes_length);

/* The trailer record of a stored or plain page. Refuses: 1. Answers in the layout Trailer. */
size_t lumeviqo_trailer(const uint8_t *page, size_t page_length, uint8_t *answer, size_t answer_length);

/* Whether a stored page is unallocated, or its CRC and its reserved bytes are right. Refuses: 1, 3, 4. Layout Integrity. */
size_t lumeviqo_integrity(uint64_t number, const uint8_t *stored, size_t stored_length, uint8_t *answer, size_t answer_length);

/* The fields of page 0, the magic unjudged. Refuses: 1. Layout Superblock. */
size_t lumeviqo_superblock(const uint8_t *stored, size_t stored_length, uint8_t *answer, size_t answer_length);

/* The same, refusing any magic but 0xDA7ABA5E. Refuses: 1, 13. Layout Superblock. */
size_t lumeviqo_superblock_checked(const uint8_t *stored, size_t stored_length, uint8_t *answer, size_t answer_length);

/* A page that is mended goes through lumeviqo_scan once, then lumeviqo_replace for each sector, and lumeviqo_decode_summary or
   lumeviqo_decode_supplied_summary. All of these calls need the same `number`, and each takes `stored`, `shifted` and the fits as the
   last one left them, the fits from its answer. Nothing checks it: under another number, or with the fits of an earlier step or of
   another page, a page may be accepted, verified and without a warning, whose plain bytes are those of no page. */

/* The eight fits of a stored page, and its shifted bytes, written to `shifted`. Refuses: 1, 2. Layout Scan. */
size_t lumeviqo_scan(uint64_t number, const uint8_t *stored, size_t stored_length, uint8_t *shifted, size_t shifted_length,
                     uint8_t *answer, size_t answer_length);

/* Writes LUMEVIQO_SECTOR_LENGTH new bytes to a sector of the stored page, and brings `shifted` and the fits up to date: the answer has
   all eight, seven of them as lent. The last 16 bytes for sector 7 become the page's trailer as they are: what is wrong there is for a
   decoding to say. Refuses: 1, 2, and 14 for a sector above 7 or any other length. Layout Replacement. */
size_t lumeviqo_replace(uint64_t number, uint8_t *stored, size_t stored_length, uint8_t *shifted, size_t shifted_length,
                        const uint8_t *fits, size_t fits_length, size_t sector, const uint8_t *bytes, size_t bytes_length,
                        uint8_t *answer, size_t answer_length);

/* Zeros in the place of what could not be read. A sector of zeros is exact and votes, so where LUMEVIQO_LENIENT_INTEGRITY lets its page
   through it misleads the choice of bv, and with LUMEVIQO_LENIENT_KEYSTREAM too a wrong bv may be taken: replace such sectors first. A
   page that is all zero is taken as unallocated, with any leniency; one that was never read is all zero too, and nothing tells the two
   apart. */

/* Decodes a stored page: the plain page is written to `out`. `anchors` holds the values of bv of other pages of its block (16 pages,
   the first a multiple of 16), in any order. Page 0 is the superblock and is not shifted: see lumeviqo_superblock. Refuses: 1 to 7, 20.
   Layout Decoding. */
size_t lumeviqo_decode(uint64_t number, const uint8_t *stored, size_t stored_length, const uint8_t *anchors, size_t anchors_length,
                       uint8_t leniency, uint8_t min_trailer_count, size_t search_limit, uint8_t *out, size_t out_length,
                       uint8_t *answer, size_t answer_length);

/* The same from a summary: the fits and shifted bytes that lumeviqo_scan or the last lumeviqo_replace gave under this number. Refuses:
   1 to 7, 20. Layout Decoding. */
size_t lumeviqo_decode_summary(uint64_t number, const uint8_t *stored, size_t stored_length, const uint8_t *fits, size_t fits_length,
                               const uint8_t *shifted, size_t shifted_length, const uint8_t *anchors, size_t anchors_length,
                               uint8_t leniency, uint8_t min_trailer_count, size_t search_limit, uint8_t *out, size_t out_length,
                               uint8_t *answer, size_t answer_length);

/* Decodes a stored page with a given bv, and no integrity check. Refuses: 1, 2, 6, 7, 20. Layout Decoding. */
size_t lumeviqo_decode_supplied(uint64_t number, const uint8_t *stored, size_t stored_length, uint8_t bv, uint8_t leniency,
                                uint8_t min_trailer_count, size_t search_limit, uint8_t *out, size_t out_length, uint8_t *answer,
                                size_t answer_length);

/* The same from a summary. Refuses: 1, 2, 6, 7, 20. Layout Decoding. */
size_t lumeviqo_decode_supplied_summary(uint64_t number, const uint8_t *stored, size_t stored_length, const uint8_t *fits,
                                        size_t fits_length, const uint8_t *shifted, size_t shifted_length, uint8_t bv,
                                        uint8_t leniency, uint8_t min_trailer_count, size_t search_limit, uint8_t *out,
                                        size_t out_length, uint8_t *answer, size_t answer_length);

/* Slots and rows. Each of the four functions looks for the slot directory anew, and reads it where it stands in `plain`: nothing is copied
   or sorted in between. On the pages of compare/stack/run none of them took more than 1,100 bytes of stack; that is measured, not proved.
   To see all rows, ask lumeviqo_rows once, not lumeviqo_row for each. */

/* The slot directory of a plain page. Refuses: 1, 8 to 12, 20. Layout Parse. */
size_t lumeviqo_parse(uint64_t number, const uint8_t *plain, size_t plain_length, uint8_t leniency, size_t search_limit,
                      uint8_t *answer, size_t answer_length);

/* How many rows a plain page has. Refuses: 1, 8 to 12, 20. Layout Row count. */
size_t lumeviqo_row_count(uint64_t number, const uint8_t *plain, size_t plain_length, uint8_t leniency, size_t search_limit,
                          uint8_t *answer, size_t answer_length);

/* Where row `row` of a plain page lies; rows ascend by offset, and the first is row 0. Refuses: 1, 8 to 12, 16, 20. Layout Row. */
size_t lumeviqo_row(uint64_t number, const uint8_t *plain, size_t plain_length, uint8_t leniency, size_t search_limit, size_t row,
                    uint8_t *answer, size_t answer_length);

/* Where all rows of a plain page lie, in one pass from the directory's far end. Refuses: 1, 8 to 12, 20. Layout Rows. */
size_t lumeviqo_rows(uint64_t number, const uint8_t *plain, size_t plain_length, uint8_t leniency, size_t search_limit,
                     uint8_t *answer, size_t answer_length);

#ifdef __cplusplus
}
#endif

#endif
