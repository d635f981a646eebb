/* Calls the C interface with lengths and bytes that nobody meant, to see that it answers each as include/lumeviqo.h says.
   calls lengths               each buffer of each function with 0 bytes, one too few, one too many, and 2^32; fits with 48; then search
                               limits at the ends of their range and outside, alone and with each buffer one too few; then each sector
                               replaced by bytes of the right length and of others
   calls random SECONDS SEED   calls made from SEED, the same calls for the same seed
   The library has no instrumentation, so each lent buffer stands in an arena of its own, once with its end at an inaccessible page
   and once with its start behind one; what a function may not write to is mapped read-only while it runs. */
#define _DEFAULT_SOURCE /* mmap's flags, mincore */
#include <inttypes.h>
#include <stdbool.h>
#include <stdio.h>
#include <stdlib.h>
#include <string.h>
#include <sys/mman.h>
#include <time.h>

#include <sanitizer/common_interface_defs.h>

#include "layouts.h"

enum { PAGE, FITS, SHIFTED, ANCHORS, BYTES, OUT, ANSWER, ROLES };
enum { WHOLE = LUMEVIQO_PAGE_LENGTH, DATA = LUMEVIQO_SHIFTED_LENGTH, SECTOR = LUMEVIQO_SECTOR_LENGTH, SECTORS = LUMEVIQO_SECTOR_COUNT };
enum { LAST_DATA = DATA - (SECTORS - 1) * SECTOR };
enum { MEMORY_PAGE = 4096, ROOM = 3 * MEMORY_PAGE, CANARY = 0x5C };
enum { STEPS = 256, FITS_WITHOUT_TIED = SECTORS * LUMEVIQO_FIT_TIED };
enum { ANSWERS = LUMEVIQO_LIMIT_OUT_OF_RANGE + 1, NO_ANSWER = ANSWERS };

/* How far a directory is searched for: usually, at least and at most. */
enum { LIMIT = LUMEVIQO_SEARCH_LIMIT, LEAST_LIMIT = LUMEVIQO_LEAST_SEARCH_LIMIT, GREATEST_LIMIT = LUMEVIQO_GREATEST_SEARCH_LIMIT };

/* Places in a page: where a row may start, how far its count stands before a prelude's slots at most, then of the trailer, from its first
   byte, and of page 0. */
enum { FIRST_ROW = 0x20, MOST_GAP = 6 };
enum { AT_ROW_COUNT = 0, AT_TYPE = 2, AT_RESERVED = 3, AT_LSN = 4, AT_RESERVED_WORD = 8, AT_CRC = 12, TRAILER_LENGTH = WHOLE - DATA };
enum { AT_FLAGS = 6, AT_BLOCK_LSN = 8, AT_MAJOR = 0x10, AT_MAGIC = 0x14, AT_A = 0x18, AT_B = 0x1A, AT_PAGE_HINT = 0x1C, BASE_FLAGS = 0x09 };
#define MARKER "SAP SE, Copyright (c)2015 17.0.4."
#define MAGIC 0xDA7ABA5E

#define HUGE_LENGTH ((size_t)1 << 32)
#define OF(bit) (1u << (bit))

typedef struct {
    const char *name;
    size_t layout;
    unsigned lent, written, refusals; /* bits: roles, roles, answer numbers */
} Function;

enum { CRC32, TRAILER, INTEGRITY, SUPERBLOCK, CHECKED, SCAN, REPLACE, DECODE, SUMMARY, SUPPLIED, SUPPLIED_SUMMARY, PARSE, COUNT, ROW,
       ROWS, FUNCTIONS };

#define PAGE_REFUSALS OF(LUMEVIQO_WRONG_PAGE_LENGTH)
#define BUFFER_REFUSALS (PAGE_REFUSALS | OF(LUMEVIQO_WRONG_BUFFER_LENGTH))
#define LIMIT_REFUSALS OF(LUMEVIQO_LIMIT_OUT_OF_RANGE)
#define INTEGRITY_REFUSALS (OF(LUMEVIQO_BAD_CRC) | OF(LUMEVIQO_BAD_TRAILER))
#define SUPPLIED_REFUSALS                                                                                                               \
    (BUFFER_REFUSALS | LIMIT_REFUSALS | OF(LUMEVIQO_KEYSTREAM_UNVERIFIED) | OF(LUMEVIQO_LOW_CONFIDENCE_KEYSTREAM))
#define DECODING_REFUSALS (SUPPLIED_REFUSALS | INTEGRITY_REFUSALS | OF(LUMEVIQO_AMBIGUOUS_CALIBRATION))
#define PARSE_REFUSALS                                                                                                                  \
    (PAGE_REFUSALS | LIMIT_REFUSALS | OF(LUMEVIQO_NO_SLOT_DIRECTORY) | OF(LUMEVIQO_UNKNOWN_PRELUDE)                                     \
     | OF(LUMEVIQO_SLOT_DIRECTORY_TRUNCATED) | OF(LUMEVIQO_AMBIGUOUS_SLOT_DIRECTORY) | OF(LUMEVIQO_SLOT_OFFSET_IN_DIRECTORY))

static const Function functions[FUNCTIONS] = {
    {"crc32", 0, OF(PAGE), 0, 0},
    {"trailer", LUMEVIQO_TRAILER_LENGTH, OF(PAGE) | OF(ANSWER), OF(ANSWER), PAGE_REFUSALS},
    {"integrity", LUMEVIQO_INTEGRITY_LENGTH, OF(PAGE) | OF(ANSWER), OF(ANSWER), PAGE_REFUSALS | INTEGRITY_REFUSALS},
    {"superblock", LUMEVIQO_SUPERBLOCK_LENGTH, OF(PAGE) | OF(ANSWER), OF(ANSWER), PAGE_REFUSALS},
    {"superblock_checked", LUMEVIQO_SUPERBLOCK_LENGTH, OF(PAGE) | OF(ANSWER), OF(ANSWER), PAGE_REFUSALS | OF(LUMEVIQO_BAD_MAGIC)},
    {"scan", LUMEVIQO_SCAN_LENGTH, OF(PAGE) | OF(SHIFTED) | OF(ANSWER), OF(SHIFTED) | OF(ANSWER), BUFFER_REFUSALS},
    {"replace", LUMEVIQO_REPLACEMENT_LENGTH, OF(PAGE) | OF(SHIFTED) | OF(FITS) | OF(BYTES) | OF(ANSWER),
     OF(PAGE) | OF(SHIFTED) | OF(ANSWER), BUFFER_REFUSALS | OF(LUMEVIQO_BAD_REPLACEMENT)},
    {"decode", LUMEVIQO_DECODING_LENGTH, OF(PAGE) | OF(ANCHORS) | OF(OUT) | OF(ANSWER), OF(OUT) | OF(ANSWER), DECODING_REFUSALS},
    {"decode_summary", LUMEVIQO_DECODING_LENGTH, OF(PAGE) | OF(FITS) | OF(SHIFTED) | OF(ANCHORS) | OF(OUT) | OF(ANSWER),
     OF(OUT) | OF(ANSWER), DECODING_REFUSALS},
    {"decode_supplied", LUMEVIQO_DECODING_LENGTH, OF(PAGE) | OF(OUT) | OF(ANSWER), OF(OUT) | OF(ANSWER), SUPPLIED_REFUSALS},
    {"decode_supplied_summary", LUMEVIQO_DECODING_LENGTH, OF(PAGE) | OF(FITS) | OF(SHIFTED) | OF(OUT) | OF(ANSWER), OF(OUT) | OF(ANSWER),
     SUPPLIED_REFUSALS},
    {"parse", LUMEVIQO_PARSE_LENGTH, OF(PAGE) | OF(ANSWER), OF(ANSWER), PARSE_REFUSALS},
    {"row_count", LUMEVIQO_ROW_COUNT_LENGTH, OF(PAGE) | OF(ANSWER), OF(ANSWER), PARSE_REFUSALS},
    {"row", LUMEVIQO_ROW_LENGTH, OF(PAGE) | OF(ANSWER), OF(ANSWER), PARSE_REFUSALS | OF(LUMEVIQO_NO_SUCH_ROW)},
    {"rows", LUMEVIQO_ROWS_LENGTH, OF(PAGE) | OF(ANSWER), OF(ANSWER), PARSE_REFUSALS},
};

static const char *const roles[ROLES] = {"page", "fits", "shifted", "anchors", "bytes", "out", "answer"};

/* How many values each answer has. */
static const uint8_t values_of[ANSWERS] = {
    [LUMEVIQO_ACCEPTED] = 0,
    [LUMEVIQO_WRONG_PAGE_LENGTH] = 1,
    [LUMEVIQO_WRONG_BUFFER_LENGTH] = 1,
    [LUMEVIQO_BAD_CRC] = 3,
    [LUMEVIQO_BAD_TRAILER] = 1,
    [LUMEVIQO_AMBIGUOUS_CALIBRATION] = 1,
    [LUMEVIQO_KEYSTREAM_UNVERIFIED] = 2,
    [LUMEVIQO_LOW_CONFIDENCE_KEYSTREAM] = 4,
    [LUMEVIQO_NO_SLOT_DIRECTORY] = 2,
    [LUMEVIQO_UNKNOWN_PRELUDE] = 1,
    [LUMEVIQO_SLOT_DIRECTORY_TRUNCATED] = 4,
    [LUMEVIQO_AMBIGUOUS_SLOT_DIRECTORY] = 1,
    [LUMEVIQO_SLOT_OFFSET_IN_DIRECTORY] = 3,
    [LUMEVIQO_BAD_MAGIC] = 1,
    [LUMEVIQO_BAD_REPLACEMENT] = 1,
    [LUMEVIQO_NO_SUCH_ROW] = 1,
    [LUMEVIQO_LIMIT_OUT_OF_RANGE] = 1,
};

/* What is asked: the scalars, and what each buffer holds before the call. Of 2^32 bytes all are zero. */
typedef struct {
    int function;
    uint64_t number;
    uint8_t leniency, t, bv;
    size_t limit, sector, row;
    bool own_summary; /* fits and shifted are those of the page */
    size_t length[ROLES];
    uint8_t held[ROLES][ROOM];
} Call;

/* What came of it: what was returned, and what each buffer holds then. */
typedef struct {
    size_t returned;
    uint8_t held[ROLES][ROOM];
} Outcome;

static Call call;
static Outcome at_end, at_start, fresh;
static uint64_t calls_made, answers[FUNCTIONS][ANSWERS + 1]; /* by function and number, the last where nothing is answered */

static uint8_t *arenas[ROLES];

/* Failing. */

static void tell_call(void) {
    const Function *f = &functions[call.function];
    fprintf(stderr, "\ncall %" PRIu64 ": %s, number %" PRIu64 ", leniency %u, T %u, limit %zu, bv %u, sector %zu, row %zu\n", calls_made,
            f->name, call.number, call.leniency, call.t, call.limit, call.bv, call.sector, call.row);
    for (int role = 0; role < ROLES; role++) {
        if (!(f->lent & OF(role)))
            continue;
        fprintf(stderr, "%s, %zu bytes:", roles[role], call.length[role]);
        for (size_t k = 0; k < call.length[role] && k < ROOM; k++)
            fprintf(stderr, "%s%02x", k % 64 ? "" : "\n  ", call.held[role][k]);
        fputc('\n', stderr);
    }
}

/* What the address sanitizer calls before it ends the program. */
static void tell_fault(void) {
    tell_call();
    fprintf(stderr, "found: a fault in this call\n");
}

static void must(bool holds, const char *what) {
    if (holds)
        return;
    tell_call();
    fprintf(stderr, "found: not so: %s\n", what);
    exit(EXIT_FAILURE);
}

/* Bytes. */

static uint64_t number_at(const uint8_t *bytes, size_t width) {
    uint64_t n = 0;
    for (size_t k = width; k > 0; k--)
        n = n << 8 | bytes[k - 1];
    return n;
}

static void put_number(uint8_t *bytes, size_t width, uint64_t n) {
    for (size_t k = 0; k < width; k++)
        bytes[k] = (uint8_t)(n >> 8 * k);
}

/* Whether bytes are all one value, and whether those from an offset up to another are zero. */
static bool all_are(const uint8_t *bytes, size_t length, uint8_t value) {
    for (size_t k = 0; k < length; k++)
        if (bytes[k] != value)
            return false;
    return true;
}

static bool zero_between(const uint8_t *bytes, size_t from, size_t to) { return all_are(bytes + from, to - from, 0); }

static uint64_t u16_at(const uint8_t *bytes) { return number_at(bytes, 2); }
static uint64_t u64_at(const uint8_t *bytes) { return number_at(bytes, 8); }
static void put_u16(uint8_t *bytes, uint64_t n) { put_number(bytes, 2, n); }
static void put_u32(uint8_t *bytes, uint64_t n) { put_number(bytes, 4, n); }

/* Whether two fields of 4 bytes, or of 2, hold the same number. */
static bool same_u32(const uint8_t *a, const uint8_t *b) { return memcmp(a, b, 4) == 0; }
static bool same_u16(const uint8_t *a, const uint8_t *b) { return memcmp(a, b, 2) == 0; }

/* How many of a sector's bytes are data: in the last one the trailer stands behind them. */
static size_t data_length(size_t sector) { return sector == SECTORS - 1 ? LAST_DATA : SECTOR; }

/* The CRC by its definition, a bit at a time: what the library's is held against. */
static uint32_t next_bit(uint32_t crc) { return crc >> 1 ^ (crc & 1 ? 0xEDB88320 : 0); }

static uint32_t plain_crc(const uint8_t *bytes, size_t length) {
    uint32_t crc = 0xFFFFFFFF;
    for (size_t k = 0; k < length; k++) {
        crc ^= bytes[k];
        for (int bit = 0; bit < 8; bit++)
            crc = next_bit(crc);
    }
    return ~crc;
}

static uint32_t product(const uint32_t matrix[32], uint32_t vector) {
    uint32_t sum = 0;
    for (int k = 0; k < 32; k++)
        sum ^= vector >> k & 1 ? matrix[k] : 0;
    return sum;
}

/* The CRC of 2^power zero bytes: the step of one zero bit is linear, and squared power + 3 times it is that of them all. */
static uint32_t zeros_crc(int power) {
    uint32_t matrix[32], square[32];
    for (int k = 0; k < 32; k++)
        matrix[k] = next_bit((uint32_t)1 << k);
    for (int times = 0; times < power + 3; times++) {
        for (int k = 0; k < 32; k++)
            square[k] = product(matrix, matrix[k]);
        memcpy(matrix, square, sizeof matrix);
    }
    return ~product(matrix, 0xFFFFFFFF);
}

/* Lending. */

static void let(uint8_t *arena, size_t length, int protection) {
    if (mprotect(arena, length, protection) != 0) {
        perror("mprotect");
        exit(EXIT_FAILURE);
    }
}

/* ROOM or 2^32 bytes between two pages that nothing can touch. */
static uint8_t *fenced(size_t length) {
    uint8_t *all = mmap(NULL, length + 2 * MEMORY_PAGE, PROT_NONE, MAP_PRIVATE | MAP_ANONYMOUS | MAP_NORESERVE, -1, 0);
    if (all == MAP_FAILED) {
        perror("mmap");
        exit(EXIT_FAILURE);
    }
    let(all + MEMORY_PAGE, length, PROT_READ | PROT_WRITE);
    return all + MEMORY_PAGE;
}

static uint8_t *lend(int role, bool end) {
    size_t length = call.length[role];
    bool written = functions[call.function].written & OF(role);
    if (length == HUGE_LENGTH) {
        arenas[role] = fenced(HUGE_LENGTH);
        let(arenas[role], HUGE_LENGTH, written ? PROT_READ | PROT_WRITE : PROT_READ);
        return arenas[role];
    }
    uint8_t *place = arenas[role] + (end ? ROOM - length : 0);
    memset(arenas[role], CANARY, ROOM);
    memcpy(place, call.held[role], length);
    if (!written)
        let(arenas[role], ROOM, PROT_READ);
    return place;
}

/* Of 2^32 bytes those in memory, past what the call may have written, must be the zeros they were. */
static void must_stay_zero(const uint8_t *arena, size_t from) {
    unsigned char *present = malloc(HUGE_LENGTH / MEMORY_PAGE);
    must(present != NULL && mincore((void *)arena, HUGE_LENGTH, present) == 0, "mincore answers");
    for (size_t page = 0; page < HUGE_LENGTH / MEMORY_PAGE; page++) {
        size_t begin = page * MEMORY_PAGE, end = begin + MEMORY_PAGE, start = begin < from ? from : begin;
        if (present[page] & 1 && start < end)
            must(all_are(arena + start, end - start, 0), "bytes past the layout stay, in a buffer of 2^32");
    }
    free(present);
}

static void take_back(int role, bool end, Outcome *outcome) {
    size_t length = call.length[role];
    const Function *f = &functions[call.function];
    uint8_t *arena = arenas[role];
    if (length == HUGE_LENGTH) {
        if (f->written & OF(role))
            must_stay_zero(arena, role == ANSWER ? outcome->returned : 0);
        memcpy(outcome->held[role], arena, ROOM);
        munmap(arena - MEMORY_PAGE, HUGE_LENGTH + 2 * MEMORY_PAGE);
        return;
    }
    let(arena, ROOM, PROT_READ | PROT_WRITE);
    must(all_are(end ? arena : arena + length, ROOM - length, CANARY), "nothing outside a buffer is written");
    memcpy(outcome->held[role], end ? arena + ROOM - length : arena, length);
}

static size_t ask(uint8_t *const at[ROLES]) {
    const Call *c = &call;
    const size_t *n = c->length;
    uint8_t *page = at[PAGE], *fits = at[FITS], *shifted = at[SHIFTED], *anchors = at[ANCHORS], *out = at[OUT], *answer = at[ANSWER];
    switch (c->function) {
    case CRC32: return lumeviqo_crc32(page, n[PAGE]);
    case TRAILER: return lumeviqo_trailer(page, n[PAGE], answer, n[ANSWER]);
    case INTEGRITY: return lumeviqo_integrity(c->number, page, n[PAGE], answer, n[ANSWER]);
    case SUPERBLOCK: return lumeviqo_superblock(page, n[PAGE], answer, n[ANSWER]);
    case CHECKED: return lumeviqo_superblock_checked(page, n[PAGE], answer, n[ANSWER]);
    case SCAN: return lumeviqo_scan(c->number, page, n[PAGE], shifted, n[SHIFTED], answer, n[ANSWER]);
    case REPLACE:
        return lumeviqo_replace(c->number, page, n[PAGE], shifted, n[SHIFTED], fits, n[FITS], c->sector, at[BYTES], n[BYTES], answer, n[ANSWER]);
    case DECODE:
        return lumeviqo_decode(c->number, page, n[PAGE], anchors, n[ANCHORS], c->leniency, c->t, c->limit, out, n[OUT], answer, n[ANSWER]);
    case SUMMARY:
        return lumeviqo_decode_summary(c->number, page, n[PAGE], fits, n[FITS], shifted, n[SHIFTED], anchors, n[ANCHORS], c->leniency, c->t,
                                       c->limit, out, n[OUT], answer, n[ANSWER]);
    case SUPPLIED:
        return lumeviqo_decode_supplied(c->number, page, n[PAGE], c->bv, c->leniency, c->t, c->limit, out, n[OUT], answer, n[ANSWER]);
    case SUPPLIED_SUMMARY:
        return lumeviqo_decode_supplied_summary(c->number, page, n[PAGE], fits, n[FITS], shifted, n[SHIFTED], c->bv, c->leniency, c->t,
                                                c->limit, out, n[OUT], answer, n[ANSWER]);
    case PARSE: return lumeviqo_parse(c->number, page, n[PAGE], c->leniency, c->limit, answer, n[ANSWER]);
    case COUNT: return lumeviqo_row_count(c->number, page, n[PAGE], c->leniency, c->limit, answer, n[ANSWER]);
    case ROW: return lumeviqo_row(c->number, page, n[PAGE], c->leniency, c->limit, c->row, answer, n[ANSWER]);
    default: return lumeviqo_rows(c->number, page, n[PAGE], c->leniency, c->limit, answer, n[ANSWER]);
    }
}

static void run(bool end, Outcome *outcome) {
    unsigned lent = functions[call.function].lent;
    uint8_t *at[ROLES] = {0};
    uint8_t *kept[ROLES];
    memcpy(kept, arenas, sizeof kept);
    for (int role = 0; role < ROLES; role++)
        if (lent & OF(role))
            at[role] = lend(role, end);
    outcome->returned = ask(at);
    calls_made++;
    for (int role = 0; role < ROLES; role++)
        if (lent & OF(role))
            take_back(role, end, outcome);
    memcpy(arenas, kept, sizeof kept);
}

/* What must hold, whatever the input. */

/* Where a sector's fit stands among the fits. */
static size_t fit_at(size_t sector) { return LUMEVIQO_FIT_LENGTH * sector; }

static bool fits_lent(void) {
    if (call.length[FITS] != LUMEVIQO_FITS_LENGTH)
        return false;
    for (size_t s = 0; s < SECTORS; s++)
        if (call.held[FITS][fit_at(s) + LUMEVIQO_FIT_EXACT] > 1)
            return false;
    return true;
}

static bool takes_limit(int function) { return functions[function].refusals & LIMIT_REFUSALS; }

/* The answer that lengths, lent fits and the limit alone decide, with its value; 0 where they decide nothing, -1 where nothing may be
   answered. */
static int decided(uint64_t *value) {
    const Function *f = &functions[call.function];
    const size_t *n = call.length;
    if (n[ANSWER] < f->layout || (f->lent & OF(FITS) && !fits_lent()))
        return -1;
    *value = n[PAGE];
    if (n[PAGE] != WHOLE)
        return LUMEVIQO_WRONG_PAGE_LENGTH;
    *value = n[OUT];
    if (f->lent & OF(OUT) && n[OUT] != WHOLE)
        return LUMEVIQO_WRONG_BUFFER_LENGTH;
    *value = n[SHIFTED];
    if (f->lent & OF(SHIFTED) && n[SHIFTED] != DATA)
        return LUMEVIQO_WRONG_BUFFER_LENGTH;
    *value = call.limit;
    if (takes_limit(call.function) && (call.limit < LEAST_LIMIT || call.limit > GREATEST_LIMIT))
        return LUMEVIQO_LIMIT_OUT_OF_RANGE;
    *value = call.sector;
    if (f->lent & OF(BYTES) && (call.sector >= SECTORS || n[BYTES] != SECTOR))
        return LUMEVIQO_BAD_REPLACEMENT;
    return LUMEVIQO_ACCEPTED;
}

static void must_stay(const Outcome *o, int role, size_t from) {
    size_t n = call.length[role] < ROOM ? call.length[role] : ROOM;
    if (n > from && functions[call.function].written & OF(role))
        must(memcmp(o->held[role] + from, call.held[role] + from, n - from) == 0, "what may not be written stays");
}

static void must_stay_all(const Outcome *o, size_t from) {
    for (int role = 0; role < ROLES; role++)
        must_stay(o, role, role == ANSWER ? from : 0);
}

static void check_answer_part(const uint8_t *a) {
    uint8_t number = a[LUMEVIQO_ANSWER_NUMBER], count = a[LUMEVIQO_ANSWER_VALUE_COUNT];
    must(number == LUMEVIQO_ACCEPTED || (number < ANSWERS && functions[call.function].refusals & OF(number)),
         "the answer is one of the function's");
    must(count == values_of[number], "the answer has its number of values");
    must(zero_between(a, LUMEVIQO_ANSWER_ZEROS, LUMEVIQO_ANSWER_VALUES)
             && zero_between(a, LUMEVIQO_ANSWER_VALUES + LUMEVIQO_VALUE_LENGTH * count, LUMEVIQO_ANSWER_LENGTH),
         "unused places of the answer part are zero");
    must(number < LUMEVIQO_BAD_CRC || number > LUMEVIQO_SLOT_OFFSET_IN_DIRECTORY || u64_at(a + LUMEVIQO_ANSWER_VALUES) == call.number,
         "the first value is the page number");
}

static bool same_fit(const uint8_t *lent, const uint8_t *back) { return memcmp(lent, back, LUMEVIQO_FIT_LENGTH) == 0; }

static void check_candidates(const uint8_t *a, size_t least) {
    size_t count = a[LUMEVIQO_DECODING_CANDIDATE_COUNT];
    const uint8_t *candidates = a + LUMEVIQO_DECODING_CANDIDATES;
    must(count >= least && count <= LUMEVIQO_MOST_CANDIDATES, "there are as many candidates as there may be");
    must(zero_between(a, LUMEVIQO_DECODING_CANDIDATES + count, LUMEVIQO_DECODING_BV), "unused places for candidates are zero");
    for (size_t k = 1; k < count; k++)
        must(candidates[k - 1] < candidates[k], "candidates ascend");
}

static void check_refusal(const Outcome *o) {
    const uint8_t *a = o->held[ANSWER];
    size_t layout = functions[call.function].layout, zero_from = LUMEVIQO_ANSWER_LENGTH;
    must_stay_all(o, layout);
    if (call.function == REPLACE) {
        for (size_t s = 0; s < SECTORS; s++)
            must(same_fit(call.held[FITS] + fit_at(s), a + LUMEVIQO_REPLACEMENT_FITS + fit_at(s)),
                 "a refused replacement has the fits that were lent");
        return;
    }
    if (a[LUMEVIQO_ANSWER_NUMBER] == LUMEVIQO_AMBIGUOUS_CALIBRATION) {
        check_candidates(a, 2);
        zero_from = LUMEVIQO_DECODING_BV;
    }
    must(zero_between(a, zero_from, layout), "every byte behind a refusal's answer part is zero");
}

static void check_warnings(const uint8_t *at, size_t count, size_t places, uint8_t least, uint8_t greatest) {
    size_t used = LUMEVIQO_WARNING_LENGTH * count;
    must(count <= places && zero_between(at, used, LUMEVIQO_WARNING_LENGTH * places), "unused warnings are zero");
    for (const uint8_t *w = at; w < at + used; w += LUMEVIQO_WARNING_LENGTH) {
        uint8_t number = w[LUMEVIQO_WARNING_NUMBER];
        must(number >= least && number <= greatest && u64_at(w + LUMEVIQO_WARNING_PAGE) == call.number, "warnings are of their kinds and page");
    }
}

static uint8_t shift_of(size_t at, const uint8_t *fits) {
    uint64_t p = call.number, s = at / SECTOR, i = at % SECTOR;
    return (uint8_t)(p + s - 4 * (p % 16 / 2) + i * fits[fit_at(s) + LUMEVIQO_FIT_STEP]);
}

static void check_shifted(const uint8_t *page, const uint8_t *shifted, const uint8_t *fits, uint8_t bv) {
    for (size_t k = 0; k < DATA; k++)
        must(page[k] == (uint8_t)(shifted[k] + bv + shift_of(k, fits)), "a stored byte is the written one, shifted back");
}

static void check_scanned_fit(const uint8_t *fit) {
    uint64_t tied = u16_at(fit + LUMEVIQO_FIT_TIED);
    must(tied >= 1 && tied <= STEPS, "in a scanned sector 1 to 256 steps tie");
    must((tied > 1) == same_u16(fit + LUMEVIQO_FIT_PEAK, fit + LUMEVIQO_FIT_RUNNER_UP), "steps tie where the runner-up reaches the peak");
}

static void check_scan(const Outcome *o) {
    const uint8_t *fits = o->held[ANSWER] + LUMEVIQO_SCAN_FITS;
    check_shifted(call.held[PAGE], o->held[SHIFTED], fits, 0);
    for (size_t s = 0; s < SECTORS; s++)
        check_scanned_fit(fits + fit_at(s));
}

/* The flag is made anew from the shifted bytes. */
static bool same_but_flag(const uint8_t *lent, const uint8_t *back) {
    return memcmp(lent, back, LUMEVIQO_FIT_EXACT) == 0 && same_u16(lent + LUMEVIQO_FIT_TIED, back + LUMEVIQO_FIT_TIED);
}

static void check_decoding_fit(const uint8_t *fit, const uint8_t *lent, bool unallocated, bool from_summary) {
    static const uint8_t unscanned[LUMEVIQO_FIT_LENGTH] = {[LUMEVIQO_FIT_EXACT] = 1};
    if (unallocated)
        must(same_fit(fit, unscanned), "an unallocated page has fits of zeros, marked exact");
    else if (from_summary)
        must(same_but_flag(lent, fit), "step, peak, runner-up and tied steps are passed on as lent");
    else
        check_scanned_fit(fit);
}

static void check_decoding(const Outcome *o) {
    const uint8_t *a = o->held[ANSWER], *page = call.held[PAGE], *out = o->held[OUT], *shifted = call.held[SHIFTED];
    bool from_summary = functions[call.function].lent & OF(SHIFTED), unallocated = all_are(page, WHOLE, 0);
    uint8_t bv = a[LUMEVIQO_DECODING_BV], source = a[LUMEVIQO_DECODING_SOURCE], confidence = a[LUMEVIQO_DECODING_CONFIDENCE];
    size_t evidence = a[LUMEVIQO_DECODING_EVIDENCE_COUNT], warnings = a[LUMEVIQO_DECODING_WARNING_COUNT];
    check_candidates(a, 0);
    must(source >= LUMEVIQO_SOURCE_TRAILER_ROW_COUNT && source <= LUMEVIQO_SOURCE_UNALLOCATED, "the source is in its range");
    must(confidence >= LUMEVIQO_CONFIDENCE_UNALLOCATED && confidence <= LUMEVIQO_CONFIDENCE_VERIFIED, "the confidence is in its range");
    must(evidence <= LUMEVIQO_MOST_EVIDENCE
             && zero_between(a, LUMEVIQO_DECODING_EVIDENCE + LUMEVIQO_EVIDENCE_LENGTH * evidence, LUMEVIQO_DECODING_FITS),
         "unused evidence is zero");
    check_warnings(a + LUMEVIQO_DECODING_WARNINGS, warnings, LUMEVIQO_MOST_WARNINGS, LUMEVIQO_WARNED_BAD_CRC,
                   LUMEVIQO_WARNED_LOW_CONFIDENCE_SECTOR);
    must(call.leniency & (LUMEVIQO_LENIENT_KEYSTREAM | LUMEVIQO_LENIENT_INTEGRITY) || warnings == 0, "a strict decoding has no warnings");
    must((source == LUMEVIQO_SOURCE_UNALLOCATED) == unallocated, "a page is unallocated where all of it is zero");
    must(memcmp(out + DATA, page + DATA, TRAILER_LENGTH) == 0, "the trailer is copied");
    for (size_t s = 0; s < SECTORS; s++)
        check_decoding_fit(a + LUMEVIQO_DECODING_FITS + fit_at(s), call.held[FITS] + fit_at(s), unallocated, from_summary);
    if (unallocated)
        must(all_are(out, DATA, 0), "an unallocated page is zeros");
    else if (!from_summary)
        check_shifted(page, out, a + LUMEVIQO_DECODING_FITS, bv);
    else
        for (size_t k = 0; k < DATA; k++)
            must(out[k] == (uint8_t)(shifted[k] - bv), "plaintext is the shifted byte less bv");
}

/* The scan of a page alone, with nothing but the page from the call. */
static void scan_anew(const uint8_t *page) {
    fresh.returned = lumeviqo_scan(call.number, page, WHOLE, fresh.held[SHIFTED], DATA, fresh.held[ANSWER], LUMEVIQO_SCAN_LENGTH);
}

static void check_replacement(const Outcome *o) {
    const uint8_t *a = o->held[ANSWER], *page = o->held[PAGE], *fits = a + LUMEVIQO_REPLACEMENT_FITS;
    size_t s = call.sector, from = SECTOR * s, to = from + SECTOR;
    must(memcmp(page, call.held[PAGE], from) == 0 && memcmp(page + from, call.held[BYTES], SECTOR) == 0
             && memcmp(page + to, call.held[PAGE] + to, WHOLE - to) == 0, "the sector alone is replaced in the page, the last with its trailer");
    for (size_t k = 0; k < SECTORS; k++)
        must(k == s || same_fit(call.held[FITS] + fit_at(k), fits + fit_at(k)), "the other seven fits are those that were lent");
    for (size_t k = 0; k < DATA; k++)
        must(k / SECTOR == s || o->held[SHIFTED][k] == call.held[SHIFTED][k], "the other sectors' shifted bytes stay");
    scan_anew(page);
    must(same_fit(fresh.held[ANSWER] + LUMEVIQO_SCAN_FITS + fit_at(s), fits + fit_at(s)), "the sector's fit is that of a fresh scan");
    check_scanned_fit(fits + fit_at(s));
    must(memcmp(fresh.held[SHIFTED] + from, o->held[SHIFTED] + from, data_length(s)) == 0, "its shifted bytes are those of a fresh scan");
    must(!call.own_summary
             || (memcmp(fresh.held[ANSWER], a, LUMEVIQO_SCAN_LENGTH) == 0 && memcmp(fresh.held[SHIFTED], o->held[SHIFTED], DATA) == 0),
         "a summary kept is a summary made afresh");
}

static void check_parse(const uint8_t *a) {
    uint64_t start = u16_at(a + LUMEVIQO_PARSE_START), end = u16_at(a + LUMEVIQO_PARSE_END), slots = u16_at(a + LUMEVIQO_PARSE_SLOT_COUNT);
    uint64_t warnings = u16_at(a + LUMEVIQO_PARSE_WARNING_COUNT);
    must(a[LUMEVIQO_PARSE_FOUND] <= 1 && a[LUMEVIQO_PARSE_DECLARED] <= 1, "flags are 0 or 1");
    must(start <= end && end <= WHOLE && slots <= LUMEVIQO_MOST_SLOTS, "the directory is in the page");
    must(a[LUMEVIQO_PARSE_DECLARED] == 1 ? start < call.limit + MOST_GAP : end <= call.limit, "it is found within the limit");
    must(zero_between(a, LUMEVIQO_PARSE_SLOTS + LUMEVIQO_SLOT_LENGTH * slots, LUMEVIQO_PARSE_WARNING_COUNT), "unused slots are zero");
    must(a[LUMEVIQO_PARSE_FOUND] == 1 || zero_between(a, LUMEVIQO_PARSE_START, LUMEVIQO_PARSE_WARNING_COUNT), "no directory has no fields");
    check_warnings(a + LUMEVIQO_PARSE_WARNINGS, warnings, LUMEVIQO_MOST_PARSE_WARNINGS, LUMEVIQO_WARNED_UNVERIFIED_DIRECTORY,
                   LUMEVIQO_WARNED_SLOT_OFFSETS_IN_DIRECTORY);
    must(call.leniency & LUMEVIQO_LENIENT_DIRECTORY || warnings == 0, "a strict parse has no warnings");
}

/* Each row starts where the one before ends, and the last ends where the data do. */
static void check_rows(const uint8_t *a) {
    size_t rows = u16_at(a + LUMEVIQO_ROW_COUNT_ROWS), next = FIRST_ROW;
    uint8_t row[LUMEVIQO_ROW_LENGTH];
    must(rows <= LUMEVIQO_MOST_SLOTS, "there are no more rows than slots");
    for (size_t r = 0; r <= rows; r++) {
        lumeviqo_row(call.number, call.held[PAGE], WHOLE, call.leniency, call.limit, r, row, sizeof row);
        must(row[LUMEVIQO_ANSWER_NUMBER] == (r < rows ? LUMEVIQO_ACCEPTED : LUMEVIQO_NO_SUCH_ROW), "row_count counts the rows");
        if (r == rows)
            break;
        size_t start = u16_at(row + LUMEVIQO_ROW_START), end = u16_at(row + LUMEVIQO_ROW_END);
        must(start < end && (r == 0 ? start >= next : start == next), "rows ascend");
        next = end;
    }
    must(rows == 0 || next == DATA, "the last row ends with the data");
}

/* The rows are as many as row_count says, and those of row: each ends where the next one starts. */
static void check_starts(const uint8_t *a) {
    size_t rows = u16_at(a + LUMEVIQO_ROWS_COUNT), used = LUMEVIQO_ROWS_STARTS + LUMEVIQO_SLOT_LENGTH * rows;
    uint8_t count[LUMEVIQO_ROW_COUNT_LENGTH], row[LUMEVIQO_ROW_LENGTH];
    lumeviqo_row_count(call.number, call.held[PAGE], WHOLE, call.leniency, call.limit, count, sizeof count);
    must(rows <= LUMEVIQO_MOST_SLOTS && rows == u16_at(count + LUMEVIQO_ROW_COUNT_ROWS), "there are as many rows as row_count says");
    must(zero_between(a, used, LUMEVIQO_ROWS_LENGTH), "unused places for rows are zero");
    for (size_t r = 0; r < rows; r++) {
        const uint8_t *at = a + LUMEVIQO_ROWS_STARTS + LUMEVIQO_SLOT_LENGTH * r;
        lumeviqo_row(call.number, call.held[PAGE], WHOLE, call.leniency, call.limit, r, row, sizeof row);
        size_t end = r + 1 < rows ? u16_at(at + LUMEVIQO_SLOT_LENGTH) : DATA;
        must(u16_at(at) == u16_at(row + LUMEVIQO_ROW_START) && end == u16_at(row + LUMEVIQO_ROW_END), "each row is that of lumeviqo_row");
    }
}

static void check_row(const uint8_t *a) {
    uint64_t start = u16_at(a + LUMEVIQO_ROW_START), end = u16_at(a + LUMEVIQO_ROW_END);
    must(FIRST_ROW <= start && start < end && end <= DATA, "a row is in the data");
}

static void check_trailer(const uint8_t *a) {
    const uint8_t *t = call.held[PAGE] + DATA;
    must(a[LUMEVIQO_TRAILER_ROW_COUNT] == t[AT_ROW_COUNT] && same_u32(a + LUMEVIQO_TRAILER_LSN, t + AT_LSN)
             && same_u32(a + LUMEVIQO_TRAILER_CRC, t + AT_CRC), "the trailer's fields are the page's");
    must(a[LUMEVIQO_TRAILER_TYPE] <= LUMEVIQO_TYPE_INDEX && a[LUMEVIQO_TRAILER_CASE_VARIANT] <= 1
             && a[LUMEVIQO_TRAILER_RESERVED_ZERO] == (t[AT_RESERVED] == 0 && zero_between(t, AT_RESERVED_WORD, AT_CRC)),
         "the trailer's flags are the page's");
}

static void check_superblock(const uint8_t *a) {
    const uint8_t *p = call.held[PAGE];
    must(a[LUMEVIQO_SUPERBLOCK_FLAGS] == p[AT_FLAGS] && a[LUMEVIQO_SUPERBLOCK_VARIANT_BITS] == (p[AT_FLAGS] & ~BASE_FLAGS)
             && same_u32(a + LUMEVIQO_SUPERBLOCK_LSN, p + AT_BLOCK_LSN) && same_u32(a + LUMEVIQO_SUPERBLOCK_MAJOR, p + AT_MAJOR)
             && same_u16(a + LUMEVIQO_SUPERBLOCK_A, p + AT_A) && same_u16(a + LUMEVIQO_SUPERBLOCK_B, p + AT_B)
             && same_u32(a + LUMEVIQO_SUPERBLOCK_MAGIC, p + AT_MAGIC) && same_u32(a + LUMEVIQO_SUPERBLOCK_PAGE_HINT, p + AT_PAGE_HINT)
             && a[LUMEVIQO_SUPERBLOCK_MARKER] <= 1, "the superblock's fields are the page's");
}

static void check_accepted(const Outcome *o) {
    const uint8_t *a = o->held[ANSWER];
    must_stay(o, ANSWER, functions[call.function].layout);
    switch (call.function) {
    case TRAILER: check_trailer(a); break;
    case INTEGRITY: break;
    case SUPERBLOCK:
    case CHECKED: check_superblock(a); break;
    case SCAN: check_scan(o); break;
    case REPLACE: check_replacement(o); break;
    case PARSE: check_parse(a); break;
    case COUNT: check_rows(a); break;
    case ROW: check_row(a); break;
    case ROWS: check_starts(a); break;
    default: check_decoding(o);
    }
}

static void check_crc(const Outcome *o) {
    bool huge = call.length[PAGE] == HUGE_LENGTH;
    must(o->returned == (huge ? zeros_crc(32) : plain_crc(call.held[PAGE], call.length[PAGE])), "the CRC is the plain one");
    answers[CRC32][0]++;
}

static void check(const Outcome *o) {
    if (call.function == CRC32) {
        check_crc(o);
        return;
    }
    const uint8_t *a = o->held[ANSWER];
    uint64_t value = 0;
    int number = decided(&value);
    uint8_t given = a[LUMEVIQO_ANSWER_NUMBER];
    must(o->returned == (number < 0 ? 0 : functions[call.function].layout), "the length of the layout is returned, or 0");
    if (number < 0) {
        must_stay_all(o, 0);
        answers[call.function][NO_ANSWER]++;
        return;
    }
    check_answer_part(a);
    answers[call.function][given]++;
    must(number == LUMEVIQO_ACCEPTED || (given == number && u64_at(a + LUMEVIQO_ANSWER_VALUES) == value),
         "a wrong length, limit or sector is answered with it");
    must(number != LUMEVIQO_ACCEPTED || !((BUFFER_REFUSALS | LIMIT_REFUSALS | OF(LUMEVIQO_BAD_REPLACEMENT)) & OF(given)),
         "right lengths, limits and sectors are taken");
    if (given == LUMEVIQO_ACCEPTED)
        check_accepted(o);
    else
        check_refusal(o);
}

static bool same_outcome(void) {
    if (at_end.returned != at_start.returned)
        return false;
    for (int role = 0; role < ROLES; role++) {
        size_t n = call.length[role] < ROOM ? call.length[role] : ROOM;
        if (functions[call.function].written & OF(role) && memcmp(at_end.held[role], at_start.held[role], n) != 0)
            return false;
    }
    return true;
}

/* The call at both ends of the arenas. */
static void try_call(void) {
    run(true, &at_end);
    check(&at_end);
    run(false, &at_start);
    must(same_outcome(), "the same call has the same outcome");
}

/* Random numbers, by splitmix64. */

static uint64_t state;

static uint64_t next(void) {
    uint64_t z = state += 0x9E3779B97F4A7C15;
    z = (z ^ z >> 30) * 0xBF58476D1CE4E5B9;
    z = (z ^ z >> 27) * 0x94D049BB133111EB;
    return z ^ z >> 31;
}

static size_t below(size_t n) { return next() % n; }

static bool one_in(size_t n) { return below(n) == 0; }

static void noise(uint8_t *bytes, size_t length) {
    for (size_t k = 0; k < length; k++)
        bytes[k] = (uint8_t)next();
}

static size_t one_of(const size_t *choices, size_t n) { return choices[below(n)]; }
#define ONE_OF(...) one_of((const size_t[]){__VA_ARGS__}, sizeof((const size_t[]){__VA_ARGS__}) / sizeof(size_t))

/* Pages. */

static struct {
    uint64_t number;
    uint8_t bv, steps[LUMEVIQO_FITS_LENGTH]; /* laid out as fits */
    uint8_t plain[WHOLE], stored[WHOLE], fits[LUMEVIQO_FITS_LENGTH], shifted[DATA];
} subject;

static void seal(uint8_t *page) { put_u32(page + DATA + AT_CRC, lumeviqo_crc32(page, DATA + AT_CRC)); }

/* The stored page of the plain one. */
static void store(void) {
    call.number = subject.number;
    for (size_t k = 0; k < DATA; k++)
        subject.stored[k] = (uint8_t)(subject.plain[k] + shift_of(k, subject.steps) + subject.bv);
    memcpy(subject.stored + DATA, subject.plain + DATA, TRAILER_LENGTH);
    seal(subject.stored);
}

/* The summary of the stored page, by the library. */
static void summarize(void) {
    call.number = subject.number;
    scan_anew(subject.stored);
    memcpy(subject.fits, fresh.held[ANSWER] + LUMEVIQO_SCAN_FITS, LUMEVIQO_FITS_LENGTH);
    memcpy(subject.shifted, fresh.held[SHIFTED], DATA);
}

/* A count, a gap to the slots, and slots that fall, now and then by nothing, or the last of them into the directory. Of slots that no count
   declares there may be as many as a page can have. */
static void write_directory(size_t count) {
    bool most = count == 0 && one_in(4);
    size_t at = most ? 0 : below(one_in(4) ? GREATEST_LIMIT + 2 : one_in(8) ? LIMIT + 2 : 0x200), offset = DATA - below(8);
    size_t slots = most ? LUMEVIQO_MOST_SLOTS : count == 0 ? 4 + below(20) : count;
    if (!most) {
        put_u16(subject.plain + at, count);
        at += ONE_OF(4, MOST_GAP);
    }
    for (size_t k = 0; k < slots; k++, at += LUMEVIQO_SLOT_LENGTH) {
        bool deleted = k > 0 && one_in(8);
        size_t fall = one_in(most ? 8 * slots : 200) ? 0 : 1 + below((DATA - LIMIT) / (slots + 1));
        offset = deleted || offset <= fall ? offset : offset - fall;
        put_u16(subject.plain + at, deleted ? 0 : offset);
    }
    if (one_in(5))
        put_u16(subject.plain + at - LUMEVIQO_SLOT_LENGTH, at - 1 - below(LUMEVIQO_SLOT_LENGTH * slots));
}

/* Under each step two bytes agree at most, and two do. */
static void tie_all_steps(uint8_t *part, size_t length) {
    for (size_t k = 0; k < length; k++)
        part[k] = (uint8_t)(k * (k + 1) / 2);
}

static void fill_sector(size_t s) {
    uint8_t *part = subject.plain + SECTOR * s;
    size_t n = data_length(s), kind = below(8);
    memset(part, kind == 0 ? (int)below(256) : 0, n);
    if (kind == 1)
        noise(part, n);
    if (one_in(64))
        tie_all_steps(part, n);
    for (size_t k = kind == 2 || kind == 3 ? 1 + below(300) : 0; k > 0; k--) {
        uint8_t value = (uint8_t)next();
        part[below(n)] = value;
    }
}

static void damage(uint8_t *bytes, size_t length) {
    for (size_t times = 1 + below(6); times > 0; times--) {
        size_t at = one_in(3) ? below(length < GREATEST_LIMIT ? length : GREATEST_LIMIT) : below(length), n = ONE_OF(1, 1, 2, 4, 16, 200);
        noise(bytes + at, n < length - at ? n : length - at);
    }
}

static void put_superblock(uint8_t *page) {
    memcpy(page + below(WHOLE - strlen(MARKER) + 1), MARKER, strlen(MARKER));
    put_u32(page + AT_MAGIC, MAGIC);
    seal(page);
}

static void make_subject(void) {
    uint8_t *trailer = subject.plain + DATA;
    size_t rows = one_in(3) ? below(4) : one_in(4) ? below(256) : 4 + below(60);
    subject.number = one_in(4) ? next() : one_in(4) ? UINT64_MAX - below(20) : below(600);
    subject.bv = (uint8_t)next();
    noise(subject.steps, sizeof subject.steps);
    memset(trailer, 0, TRAILER_LENGTH);
    for (size_t s = 0; s < SECTORS; s++)
        fill_sector(s);
    for (size_t times = one_in(4) ? 0 : one_in(6) ? 2 : 1; times > 0; times--)
        write_directory(rows);
    trailer[AT_ROW_COUNT] = (uint8_t)rows;
    trailer[AT_ROW_COUNT + 1] = (uint8_t)next();
    trailer[AT_TYPE] = (uint8_t)(one_in(4) ? next() : (uint64_t)"EAMHC@Ie"[below(8)]);
    put_u32(trailer + AT_LSN, next());
    if (one_in(16)) {
        uint8_t value = (uint8_t)next();
        trailer[ONE_OF(AT_RESERVED, AT_RESERVED_WORD, AT_RESERVED_WORD + 1, AT_RESERVED_WORD + 2, AT_RESERVED_WORD + 3)] = value;
    }
    store();
    if (one_in(3))
        damage(subject.stored, WHOLE);
    if (one_in(30))
        noise(subject.stored, WHOLE);
    if (!one_in(8))
        seal(subject.stored);
    if (one_in(16))
        put_superblock(subject.stored);
    if (one_in(30))
        memset(subject.stored, 0, WHOLE);
    summarize();
}

/* Calls. */

static size_t right_length(int role) {
    switch (role) {
    case PAGE:
    case OUT: return WHOLE;
    case FITS: return LUMEVIQO_FITS_LENGTH;
    case SHIFTED: return DATA;
    case ANCHORS: return 2;
    case BYTES: return SECTOR;
    default: return functions[call.function].layout;
    }
}

/* The call of a function with the subject's own page and summary, and all lengths right. */
static void right_call(int function) {
    bool plain = function >= PARSE;
    call = (Call){.function = function, .number = subject.number, .t = LUMEVIQO_MIN_TRAILER_COUNT, .limit = LIMIT, .bv = subject.bv,
                  .own_summary = true};
    for (int role = 0; role < ROLES; role++)
        call.length[role] = right_length(role);
    memcpy(call.held[PAGE], plain ? subject.plain : subject.stored, WHOLE);
    memcpy(call.held[FITS], subject.fits, LUMEVIQO_FITS_LENGTH);
    memcpy(call.held[SHIFTED], subject.shifted, DATA);
    memcpy(call.held[BYTES], subject.stored + SECTOR, SECTOR);
}

/* A page that every function accepts: bv is not among the anchors, which are zeros, so that a search must read them all. */
static void make_good_subject(void) {
    subject.number = 77;
    subject.bv = 0x5A;
    for (size_t s = 0; s < SECTORS; s++)
        subject.steps[fit_at(s) + LUMEVIQO_FIT_STEP] = (uint8_t)(31 * s + 3);
    enum { COUNT_AT = 0x40, SLOTS_AT = COUNT_AT + 4, SLOTS = 5 };
    static const uint16_t slots[SLOTS] = {0xF00, 0xE00, 0xD00, 0, 0xC00};
    subject.plain[COUNT_AT] = subject.plain[DATA + AT_ROW_COUNT] = SLOTS;
    for (size_t k = 0; k < SLOTS; k++)
        put_u16(subject.plain + SLOTS_AT + LUMEVIQO_SLOT_LENGTH * k, slots[k]);
    subject.plain[DATA + AT_TYPE] = 'E';
    store();
    summarize();
}

static void try_length(int function, int role, size_t length) {
    static uint8_t expected[LUMEVIQO_PARSE_LENGTH]; /* the longest layout */
    size_t layout = functions[function].layout;
    uint64_t value;
    right_call(function);
    if (function == CHECKED)
        put_superblock(call.held[PAGE]);
    if (function != CRC32) {
        run(true, &at_end);
        must(at_end.returned == layout && at_end.held[ANSWER][LUMEVIQO_ANSWER_NUMBER] == LUMEVIQO_ACCEPTED, "the call with right lengths is accepted");
        memcpy(expected, at_end.held[ANSWER], layout);
    }
    call.length[role] = length;
    if (length == HUGE_LENGTH || length == FITS_WITHOUT_TIED)
        memset(call.held[role], 0, ROOM);
    try_call();
    if (function != CRC32 && decided(&value) == LUMEVIQO_ACCEPTED)
        must(memcmp(expected, at_end.held[ANSWER], layout) == 0, "a longer answer, or other anchors of the same values, change nothing");
}

static void try_lengths(void) {
    size_t pairs = 0;
    make_good_subject();
    for (int function = 0; function < FUNCTIONS; function++)
        for (int role = 0; role < ROLES; role++) {
            if (!(functions[function].lent & OF(role)))
                continue;
            pairs++;
            call.function = function;
            size_t right = right_length(role), lengths[4] = {0, right - 1, right + 1, HUGE_LENGTH};
            for (size_t k = 0; k < 4; k++)
                try_length(function, role, lengths[k]);
            if (role == FITS)
                try_length(function, role, FITS_WITHOUT_TIED);
        }
    printf("lengths: %zu buffers of %d functions, each with 0, one short, one long, 2^32; fits with %d\n", pairs, FUNCTIONS, FITS_WITHOUT_TIED);
}

#define ABOUT(n) (n) - 1, (n), (n) + 1

/* Limits that are refused: two are the usual one if only their low bytes are read. */
#define LONGER(bits) (((size_t)1 << (bits)) + LIMIT)
#define OUTSIDE 0, LEAST_LIMIT - 1, GREATEST_LIMIT + 1, 65535, LONGER(16), (size_t)1 << 32, LONGER(32), SIZE_MAX

/* Alone, and with each buffer in turn a byte short: a wrong length comes first. */
static void try_limit(int function, size_t limit) {
    right_call(function);
    call.limit = limit;
    try_call();
    for (int role = 0; role < ROLES; role++) {
        if (!(functions[function].lent & OF(role)))
            continue;
        call.length[role]--;
        try_call();
        call.length[role]++;
    }
}

static void try_limits(void) {
    static const size_t limits[] = {LEAST_LIMIT, LIMIT, GREATEST_LIMIT, OUTSIDE};
    enum { LIMITS = sizeof limits / sizeof limits[0] };
    size_t taking = 0;
    make_good_subject();
    for (int function = 0; function < FUNCTIONS; function++) {
        if (!takes_limit(function))
            continue;
        taking++;
        for (size_t k = 0; k < LIMITS; k++)
            try_limit(function, limits[k]);
    }
    printf("limits: %zu functions, each with %d limits, alone and with each buffer one short\n", taking, LIMITS);
}

/* Each sector, and the number behind the last, with new bytes of the right length and of others, among them that of the last sector's data. */
static void try_sectors(void) {
    static const size_t lengths[] = {0, ABOUT(LAST_DATA), ABOUT(SECTOR)};
    enum { LENGTHS = sizeof lengths / sizeof lengths[0] };
    make_good_subject();
    for (size_t sector = 0; sector <= SECTORS; sector++)
        for (size_t k = 0; k < LENGTHS; k++) {
            right_call(REPLACE);
            call.sector = sector;
            memcpy(call.held[BYTES], subject.stored + SECTOR * ((sector + 1) % SECTORS), SECTOR);
            call.length[BYTES] = lengths[k];
            try_call();
        }
    printf("sectors: %d, and one behind them, each with %d lengths of new bytes\n", SECTORS, LENGTHS);
}

static size_t some_limit(void) {
    switch (below(8)) {
    case 0: return LEAST_LIMIT + below(GREATEST_LIMIT - LEAST_LIMIT + 1);
    case 1: return ONE_OF(LEAST_LIMIT, LEAST_LIMIT + 1, LEAST_LIMIT + 2, ABOUT(LIMIT), 1024, GREATEST_LIMIT - 1, GREATEST_LIMIT);
    case 2: return GREATEST_LIMIT;
    case 3: return one_in(3) ? next() : ONE_OF(OUTSIDE);
    default: return LIMIT;
    }
}

static size_t strange_length(size_t right) {
    switch (below(6)) {
    case 0: return 0;
    case 1: return right - 1;
    case 2: return right + 1;
    case 3:
        return ONE_OF(1, ABOUT(LUMEVIQO_ANSWER_LENGTH), FITS_WITHOUT_TIED, ABOUT(LUMEVIQO_FITS_LENGTH), ABOUT(LAST_DATA),
                      ABOUT(SECTOR), ABOUT(DATA), ABOUT(WHOLE), 2 * WHOLE, ROOM);
    default: return below(ROOM + 1);
    }
}

/* Shifted bytes that are equal in each sector, or all: up to as many candidates as there can be, which a page seldom has. */
static void level(uint8_t *shifted) {
    size_t values = 1 + below(SECTORS), first = below(256);
    for (size_t s = 0; s < SECTORS; s++)
        memset(shifted + SECTOR * s, (uint8_t)(first + s % values), data_length(s));
}

static void alienate(int role) {
    if (role == SHIFTED && one_in(3))
        level(call.held[role]);
    else if (one_in(2))
        noise(call.held[role], ROOM);
    else
        damage(call.held[role], right_length(role));
}

/* Most noise is no fits, as a mark is 0 or 1: most of it is made fits of another page. */
static void mark_fits(void) {
    for (size_t s = 0; s < SECTORS; s++)
        call.held[FITS][fit_at(s) + LUMEVIQO_FIT_EXACT] &= 1;
}

static void random_call(void) {
    enum { K = LUMEVIQO_LENIENT_KEYSTREAM, D = LUMEVIQO_LENIENT_DIRECTORY, I = LUMEVIQO_LENIENT_INTEGRITY, SOME_ANCHORS = 512 };
    right_call((int)below(FUNCTIONS));
    unsigned lent = functions[call.function].lent;
    call.leniency = (uint8_t)(one_in(4) ? next() : ONE_OF(LUMEVIQO_STRICT, LUMEVIQO_STRICT, K, D, I, K | I, K | D | I));
    call.t = (uint8_t)(one_in(2) ? LUMEVIQO_MIN_TRAILER_COUNT : next());
    call.limit = some_limit();
    call.bv = (uint8_t)(one_in(3) ? next() : subject.bv);
    call.sector = one_in(8) ? ONE_OF(SECTORS, 255, (size_t)1 << 32, SIZE_MAX) : below(SECTORS);
    call.row = one_in(8) ? ONE_OF(LUMEVIQO_MOST_SLOTS, 65536, (size_t)1 << 32, SIZE_MAX) : below(one_in(2) ? 4 : 70);
    if (one_in(16))
        call.number = next();
    if (one_in(8) && call.function != CRC32)
        memcpy(call.held[PAGE], one_in(2) ? subject.plain : subject.stored, WHOLE);
    noise(call.held[OUT], WHOLE);
    noise(call.held[ANSWER], LUMEVIQO_PARSE_LENGTH + 8);
    noise(call.held[ANCHORS], SOME_ANCHORS);
    call.held[ANCHORS][0] = subject.bv;
    call.length[ANCHORS] = one_in(3) ? below(ROOM) : below(3);
    memcpy(call.held[BYTES], subject.stored + SECTOR * below(SECTORS), SECTOR);
    for (int role = 0; role < ANSWER; role++)
        if (one_in(6) && role != ANCHORS)
            alienate(role);
    if (!one_in(24))
        mark_fits();
    if (call.function == SCAN)
        noise(call.held[SHIFTED], DATA);
    for (int role = 0; role < ROLES; role++)
        if (lent & OF(role) && one_in(20))
            call.length[role] = strange_length(right_length(role));
    call.own_summary = call.number == subject.number && memcmp(call.held[PAGE], subject.stored, WHOLE) == 0
                       && memcmp(call.held[FITS], subject.fits, LUMEVIQO_FITS_LENGTH) == 0 && memcmp(call.held[SHIFTED], subject.shifted, DATA) == 0;
}

static void tell_counts(void) {
    for (int f = 0; f < FUNCTIONS; f++) {
        printf("%-24s", functions[f].name);
        for (int n = 0; n < ANSWERS; n++)
            if (answers[f][n] > 0)
                printf("  %d: %" PRIu64, n, answers[f][n]);
        printf("  none: %" PRIu64 "\n", answers[f][NO_ANSWER]);
    }
    printf("calls: %" PRIu64 "; the counts above are of inputs, each called with its buffers at both fences\n", calls_made);
}

static void try_random(double seconds, uint64_t seed) {
    struct timespec from, now;
    uint64_t pages = 0;
    state = seed;
    clock_gettime(CLOCK_MONOTONIC, &from);
    do {
        make_subject();
        pages++;
        for (int k = 0; k < 16; k++) {
            random_call();
            try_call();
        }
        clock_gettime(CLOCK_MONOTONIC, &now);
    } while ((double)(now.tv_sec - from.tv_sec) + (double)(now.tv_nsec - from.tv_nsec) / 1e9 < seconds);
    printf("random: seed %" PRIu64 ", %.0f seconds, %" PRIu64 " pages; by function, how often each answer was given\n", seed, seconds, pages);
}

int main(int argc, char **argv) {
    bool random = argc == 4 && strcmp(argv[1], "random") == 0;
    if (!random && !(argc == 2 && strcmp(argv[1], "lengths") == 0)) {
        fprintf(stderr, "usage: calls lengths | calls random SECONDS SEED\n");
        return EXIT_FAILURE;
    }
    if (lumeviqo_version() != LUMEVIQO_VERSION) {
        fprintf(stderr, "the header is of version %d, the library of %" PRIu32 "\n", LUMEVIQO_VERSION, lumeviqo_version());
        return EXIT_FAILURE;
    }
    __sanitizer_set_death_callback(tell_fault);
    for (int role = 0; role < ROLES; role++)
        arenas[role] = fenced(ROOM);
    if (random) {
        try_random(strtod(argv[2], NULL), strtoull(argv[3], NULL, 10));
    } else {
        try_lengths();
        try_limits();
        try_sectors();
    }
    tell_counts();
    return EXIT_SUCCESS;
}
