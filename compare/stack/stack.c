/* Measures the stack that a call of each function of include/lumeviqo.h takes, on pages of many kinds, and prints it as Markdown tables.
   It fails where a page is not what its name says, or a figure is over its limit.
   A figure is how far below the stack pointer the deepest byte lies that the call writes: the return address counts, arguments that are
   passed on the stack do not, and what a frame reserves below its deepest written byte is not seen.
   A few instructions of assembler make each call on a painted stack of its own. Nothing else writes there, so every run has the same
   figures. */
#include <inttypes.h>
#include <stdbool.h>
#include <stdio.h>
#include <stdlib.h>
#include <string.h>

#include "lumeviqo.h"

enum { WHOLE = LUMEVIQO_PAGE_LENGTH, DATA = LUMEVIQO_SHIFTED_LENGTH, SECTOR = LUMEVIQO_SECTOR_LENGTH, SECTORS = LUMEVIQO_SECTOR_COUNT };

/* How far a directory is searched for, usually and at most. */
enum { LIMIT = LUMEVIQO_SEARCH_LIMIT, GREATEST_LIMIT = LUMEVIQO_GREATEST_SEARCH_LIMIT };

/* Places in a page, and where a row may start. */
enum { AT_ROW_COUNT = DATA, AT_RESERVED = DATA + 3, AT_CRC = DATA + 12, AT_MAGIC = 0x14, FIRST_ROW = 0x20 };
#define MARKER "SAP SE, Copyright (c)2015 17.0.4."
#define MAGIC 0xDA7ABA5E

/* What a function takes: buffers, each passed as a pointer and a length, and numbers. */
enum { END, PAGE, FITS, SHIFTED, ANCHORS, BYTES, OUT, ANSWER, BUFFERS };
enum { NUMBER = BUFFERS, SECTOR_NUMBER, BV, LENIENCY, T, SEARCH_LIMIT, ROW_NUMBER, KINDS };
enum { MOST_TAKEN = 10, MOST_ARGUMENTS = 16, IN_REGISTERS = 6 };

typedef void (*Entry)(void);

typedef struct {
    const char *name;
    size_t limit; /* in bytes, whatever the page; 0 where there is none */
    size_t layout;
    Entry entry;
    uint8_t takes[MOST_TAKEN + 1];
} Function;

enum { VERSION, CRC32, TRAILER, INTEGRITY, SUPERBLOCK, CHECKED, SCAN, REPLACE, DECODE, SUMMARY, SUPPLIED, SUPPLIED_SUMMARY, PARSE, COUNT,
       ROW, ROWS, FUNCTIONS };

static const Function functions[FUNCTIONS] = {
    {"version", 0, 0, (Entry)lumeviqo_version, {END}},
    {"crc32", 0, 0, (Entry)lumeviqo_crc32, {PAGE}},
    {"trailer", 0, LUMEVIQO_TRAILER_LENGTH, (Entry)lumeviqo_trailer, {PAGE, ANSWER}},
    {"integrity", 0, LUMEVIQO_INTEGRITY_LENGTH, (Entry)lumeviqo_integrity, {NUMBER, PAGE, ANSWER}},
    {"superblock", 0, LUMEVIQO_SUPERBLOCK_LENGTH, (Entry)lumeviqo_superblock, {PAGE, ANSWER}},
    {"superblock_checked", 0, LUMEVIQO_SUPERBLOCK_LENGTH, (Entry)lumeviqo_superblock_checked, {PAGE, ANSWER}},
    {"scan", 16384, LUMEVIQO_SCAN_LENGTH, (Entry)lumeviqo_scan, {NUMBER, PAGE, SHIFTED, ANSWER}},
    {"replace", 0, LUMEVIQO_REPLACEMENT_LENGTH, (Entry)lumeviqo_replace, {NUMBER, PAGE, SHIFTED, FITS, SECTOR_NUMBER, BYTES, ANSWER}},
    {"decode", 0, LUMEVIQO_DECODING_LENGTH, (Entry)lumeviqo_decode, {NUMBER, PAGE, ANCHORS, LENIENCY, T, SEARCH_LIMIT, OUT, ANSWER}},
    {"decode_summary", 0, LUMEVIQO_DECODING_LENGTH, (Entry)lumeviqo_decode_summary,
     {NUMBER, PAGE, FITS, SHIFTED, ANCHORS, LENIENCY, T, SEARCH_LIMIT, OUT, ANSWER}},
    {"decode_supplied", 0, LUMEVIQO_DECODING_LENGTH, (Entry)lumeviqo_decode_supplied,
     {NUMBER, PAGE, BV, LENIENCY, T, SEARCH_LIMIT, OUT, ANSWER}},
    {"decode_supplied_summary", 0, LUMEVIQO_DECODING_LENGTH, (Entry)lumeviqo_decode_supplied_summary,
     {NUMBER, PAGE, FITS, SHIFTED, BV, LENIENCY, T, SEARCH_LIMIT, OUT, ANSWER}},
    {"parse", 1500, LUMEVIQO_PARSE_LENGTH, (Entry)lumeviqo_parse, {NUMBER, PAGE, LENIENCY, SEARCH_LIMIT, ANSWER}},
    {"row_count", 0, LUMEVIQO_ROW_COUNT_LENGTH, (Entry)lumeviqo_row_count, {NUMBER, PAGE, LENIENCY, SEARCH_LIMIT, ANSWER}},
    {"row", 0, LUMEVIQO_ROW_LENGTH, (Entry)lumeviqo_row, {NUMBER, PAGE, LENIENCY, SEARCH_LIMIT, ROW_NUMBER, ANSWER}},
    {"rows", 1000, LUMEVIQO_ROWS_LENGTH, (Entry)lumeviqo_rows, {NUMBER, PAGE, LENIENCY, SEARCH_LIMIT, ANSWER}},
};

static void nothing(void) {}

static const Function empty_call = {"an empty call", 0, 0, nothing, {END}};

/* What is asked: the numbers, and what each buffer holds before the call. Then what the buffers hold after it, and what it returned. */
static struct {
    uint64_t number[KINDS];
    size_t length[BUFFERS];
    uint8_t held[BUFFERS][WHOLE];
} call;
static uint8_t lent[BUFFERS][WHOLE];
static uint64_t returned;
static size_t calls_made;

/* What was measured: of each function, and of the four of slots and rows by kind of page, in the order of the functions. */
enum { MOST_NAME = 80, MOST_LINES = 40, LINE_FIGURES = FUNCTIONS - PARSE };
static struct {
    size_t least, most;
    char pages[MOST_NAME]; /* of the most */
} figures[FUNCTIONS];
static struct {
    char pages[MOST_NAME];
    size_t most[LINE_FIGURES];
} lines[MOST_LINES];
static size_t line_count;
static char pages[MOST_NAME]; /* at present */

static void must(bool holds, const Function *f, const char *what) {
    if (holds)
        return;
    fprintf(stderr, "stack: %s, %s: not so: %s; returned %" PRIu64 ", answer %u\n", f->name, pages, what, returned,
            lent[ANSWER][LUMEVIQO_ANSWER_NUMBER]);
    exit(EXIT_FAILURE);
}

/* Bytes, and random numbers by splitmix64. */

static uint64_t u16_at(const uint8_t *bytes) { return bytes[0] | (uint64_t)bytes[1] << 8; }

static void put_u16(uint8_t *bytes, uint64_t n) {
    bytes[0] = (uint8_t)n;
    bytes[1] = (uint8_t)(n >> 8);
}

static void put_u32(uint8_t *bytes, uint64_t n) {
    put_u16(bytes, n);
    put_u16(bytes + 2, n >> 16);
}

static uint64_t state = 20261116;

static uint64_t next(void) {
    uint64_t z = state += 0x9E3779B97F4A7C15;
    z = (z ^ z >> 30) * 0xBF58476D1CE4E5B9;
    z = (z ^ z >> 27) * 0x94D049BB133111EB;
    return z ^ z >> 31;
}

static size_t below(size_t n) { return next() % n; }

static void noise(uint8_t *bytes, size_t length) {
    for (size_t k = 0; k < length; k++)
        bytes[k] = (uint8_t)next();
}

/* Measuring. */

enum { DEPTH = 1 << 18, PAINTS = 2, RETURN_ADDRESS = 8, ON_STACK = sizeof(uint64_t) * (MOST_ARGUMENTS - IN_REGISTERS) };
static _Alignas(4096) uint8_t stack[DEPTH + ON_STACK];
static uint8_t paints[PAINTS][DEPTH];

/* Random, so that what is copied from one unwritten place to another is seen; different at every place, so that no byte equals both. */
static void mix_paints(void) {
    noise(paints[0], DEPTH);
    for (size_t k = 0; k < DEPTH; k++)
        paints[1][k] = (uint8_t)(paints[0][k] + 1 + below(UINT8_MAX));
}

/* Calls `entry` with the stack pointer `top`, where the seventh argument and those after it stand already. */
uint64_t call_at(Entry entry, const uint64_t *arguments, uint8_t *top);
__asm__(".text\n"
        ".globl call_at\n"
        "call_at:\n"
        "    push %rbp\n"
        "    mov %rsp, %rbp\n"
        "    mov %rdx, %rsp\n"
        "    mov %rdi, %rax\n"
        "    mov %rsi, %r10\n"
        "    mov (%r10), %rdi\n"
        "    mov 8(%r10), %rsi\n"
        "    mov 16(%r10), %rdx\n"
        "    mov 24(%r10), %rcx\n"
        "    mov 32(%r10), %r8\n"
        "    mov 40(%r10), %r9\n"
        "    call *%rax\n"
        "    mov %rbp, %rsp\n"
        "    pop %rbp\n"
        "    ret\n");

static size_t painted_depth(const Function *f, const uint64_t *arguments, const uint8_t *paint) {
    size_t at = 0;
    memcpy(lent, call.held, sizeof lent);
    memcpy(stack, paint, DEPTH);
    memcpy(stack + DEPTH, arguments + IN_REGISTERS, ON_STACK);
    returned = call_at(f->entry, arguments, stack + DEPTH);
    calls_made++;
    while (at < DEPTH && stack[at] == paint[at])
        at++;
    must(0 < at, f, "the painted stack is deep enough");
    return DEPTH - at;
}

/* With each paint, as a byte that is written may be the painted one. */
static size_t depth_of(const Function *f) {
    uint64_t arguments[MOST_ARGUMENTS] = {0};
    size_t count = 0, deepest = 0;
    for (const uint8_t *kind = f->takes; *kind != END; kind++) {
        arguments[count++] = *kind < BUFFERS ? (uintptr_t)lent[*kind] : call.number[*kind];
        if (*kind < BUFFERS)
            arguments[count++] = call.length[*kind];
    }
    for (size_t k = 0; k < PAINTS; k++) {
        size_t depth = painted_depth(f, arguments, paints[k]);
        deepest = depth > deepest ? depth : deepest;
    }
    return deepest;
}

/* What is measured is noted under the name of the present pages. */
static void name_pages(const char *kind, const char *how) { snprintf(pages, sizeof pages, "%s%s", kind, how); }

static size_t line_of_pages(void) {
    size_t k = 0;
    while (k < line_count && strcmp(lines[k].pages, pages) != 0)
        k++;
    if (k == line_count) {
        must(k < MOST_LINES, &empty_call, "the second table has room");
        strcpy(lines[line_count++].pages, pages);
    }
    return k;
}

static void measure(int function) {
    size_t bytes = depth_of(&functions[function]);
    if (bytes > figures[function].most) {
        figures[function].most = bytes;
        strcpy(figures[function].pages, pages);
    }
    if (bytes < figures[function].least || figures[function].least == 0)
        figures[function].least = bytes;
    if (function >= PARSE) {
        size_t *most = &lines[line_of_pages()].most[function - PARSE];
        *most = bytes > *most ? bytes : *most;
    }
}

static void must_answer(int function, uint8_t number) {
    const Function *f = &functions[function];
    must(returned == f->layout && lent[ANSWER][LUMEVIQO_ANSWER_NUMBER] == number, f, "it has the answer of its kind");
}

static void right_lengths(int function) {
    call.length[PAGE] = call.length[OUT] = WHOLE;
    call.length[FITS] = LUMEVIQO_FITS_LENGTH;
    call.length[SHIFTED] = DATA;
    call.length[ANCHORS] = 1;
    call.length[BYTES] = SECTOR;
    call.length[ANSWER] = functions[function].layout;
}

static void expect(int function, uint8_t answer) {
    right_lengths(function);
    measure(function);
    must_answer(function, answer);
}

/* Each buffer in turn a byte short; only anchors may have any length. */
static void try_short(int function) {
    static const struct {
        const char *pages;
        uint8_t answer; /* LUMEVIQO_ACCEPTED where nothing may be answered */
    } shorts[BUFFERS] = {
        [PAGE] = {"page a byte short", LUMEVIQO_WRONG_PAGE_LENGTH},
        [FITS] = {"fits a byte short", LUMEVIQO_ACCEPTED},
        [SHIFTED] = {"shifted a byte short", LUMEVIQO_WRONG_BUFFER_LENGTH},
        [BYTES] = {"new bytes a byte short", LUMEVIQO_BAD_REPLACEMENT},
        [OUT] = {"out a byte short", LUMEVIQO_WRONG_BUFFER_LENGTH},
        [ANSWER] = {"answer a byte short", LUMEVIQO_ACCEPTED},
    };
    for (const uint8_t *kind = functions[function].takes; *kind != END; kind++) {
        if (*kind >= BUFFERS || *kind == ANCHORS)
            continue;
        right_lengths(function);
        call.length[*kind]--;
        name_pages(shorts[*kind].pages, "");
        measure(function);
        if (shorts[*kind].answer == LUMEVIQO_ACCEPTED)
            must(returned == 0, &functions[function], "nothing is answered");
        else
            must_answer(function, shorts[*kind].answer);
    }
}

/* Directories: plain pages with a row count and runs of falling slots. */

typedef struct {
    uint16_t start, gap, slots, first, fall; /* the row count stands `gap` bytes before the start, or nowhere where that is 0 */
} Run;

enum { MOST_RUNS = 2 };

/* How a page is made, then what must be found: the strict answer, and what a lenient reading finds, and a strict one where it accepts. */
typedef struct {
    const char *pages;
    uint8_t count;
    Run runs[MOST_RUNS];
    bool breaks_off; /* no slot stands behind the first run */
    uint16_t limit;  /* that it is asked at, or 0 for the usual one */

    uint8_t strict, warnings[LUMEVIQO_MOST_PARSE_WARNINGS];
    bool declared;
    uint16_t slots, rows;
} Directory;

enum {
    UNVERIFIED = LUMEVIQO_WARNED_UNVERIFIED_DIRECTORY,
    UNKNOWN = LUMEVIQO_WARNED_UNKNOWN_PRELUDE,
    TRUNCATED = LUMEVIQO_WARNED_SLOT_DIRECTORY_TRUNCATED,
    AMBIGUOUS = LUMEVIQO_WARNED_AMBIGUOUS_SLOT_DIRECTORY,
    INSIDE = LUMEVIQO_WARNED_SLOT_OFFSETS_IN_DIRECTORY
};

static const Directory directories[] = {
    {"5 rows", 5, {{0x44, 4, 5, 0xF00, 0x100}}, .declared = true, .slots = 5, .rows = 5},
    {"50 rows", 50, {{0x44, 4, 50, 0xFE0, 8}}, .declared = true, .slots = 50, .rows = 50},
    {"200 rows", 200, {{0x44, 4, 200, 0xFE0, 8}}, .declared = true, .slots = 200, .rows = 200},
    {"255 rows", 255, {{0x44, 4, 255, 0xFE0, 8}}, .declared = true, .slots = 255, .rows = 255},
    {"all zero", 0, {{0}}, .slots = 0},
    {"4 falling slots", 0, {{0x50, 0, 4, 0xF00, 0x100}}, .strict = LUMEVIQO_NO_SLOT_DIRECTORY, .warnings = {UNVERIFIED}, .slots = 4,
     .rows = 4},
    {"8 falling slots", 0, {{0x50, 0, 8, 0xF00, 0x100}}, .strict = LUMEVIQO_NO_SLOT_DIRECTORY, .warnings = {UNVERIFIED}, .slots = 8,
     .rows = 8},
    {"384 falling slots", 0, {{0, 0, 384, 0xFE0, 8}}, .strict = LUMEVIQO_NO_SLOT_DIRECTORY, .warnings = {UNVERIFIED}, .slots = 384,
     .rows = 384},
    {"2 rows", 2, {{0x44, 4, 2, 0xF00, 0x100}}, .strict = LUMEVIQO_NO_SLOT_DIRECTORY, .warnings = {UNVERIFIED}, .declared = true,
     .slots = 2, .rows = 2},
    {"2 rows, two preludes", 2, {{0x44, 4, 2, 0xF00, 0x100}, {0x104, 4, 2, 0xE00, 0x100}}, .strict = LUMEVIQO_NO_SLOT_DIRECTORY,
     .warnings = {AMBIGUOUS}},
    {"5 rows, no prelude", 5, {{0}}, .strict = LUMEVIQO_UNKNOWN_PRELUDE, .warnings = {UNKNOWN}},
    {"200 rows, offsets inside", 200, {{0x44, 4, 200, 0xFE0, 20}}, .strict = LUMEVIQO_SLOT_OFFSET_IN_DIRECTORY,
     .warnings = {INSIDE}, .declared = true, .slots = 200, .rows = 180},
    {"384 falling slots, offsets inside", 0, {{0, 0, 384, 0xFE0, 10}}, .strict = LUMEVIQO_NO_SLOT_DIRECTORY,
     .warnings = {UNVERIFIED, INSIDE}, .slots = 384, .rows = 330},
    {"truncated", 6, {{0x44, 4, 5, 0xF00, 0x100}}, .breaks_off = true, .strict = LUMEVIQO_SLOT_DIRECTORY_TRUNCATED,
     .warnings = {TRUNCATED, UNVERIFIED}, .slots = 5, .rows = 5},
    {"truncated, too far for the scan", 6, {{0x2FC, 4, 5, 0xF00, 0x100}}, .breaks_off = true, .strict = LUMEVIQO_SLOT_DIRECTORY_TRUNCATED,
     .warnings = {TRUNCATED, UNKNOWN}},
    {"two preludes", 4, {{0x44, 4, 4, 0xF00, 0x100}, {0x106, 6, 5, 0xE00, 0x100}}, .strict = LUMEVIQO_AMBIGUOUS_SLOT_DIRECTORY,
     .warnings = {AMBIGUOUS, UNVERIFIED}, .slots = 5, .rows = 5},
    {"truncated, offsets inside", 200, {{0x44, 4, 150, 0xFE0, 26}}, .breaks_off = true, .strict = LUMEVIQO_SLOT_DIRECTORY_TRUNCATED,
     .warnings = {TRUNCATED, UNVERIFIED, INSIDE}, .slots = 150, .rows = 143},
    {"two preludes, offsets inside", 4, {{0x44, 4, 4, 0xF00, 0x100}, {0x106, 6, 5, 0x508, 0x100}},
     .strict = LUMEVIQO_AMBIGUOUS_SLOT_DIRECTORY, .warnings = {AMBIGUOUS, UNVERIFIED, INSIDE}, .slots = 5, .rows = 4},
    {"all zero, limit 2,048", 0, {{0}}, .limit = GREATEST_LIMIT},
    {"255 rows past 0x300, limit 2,048", 255, {{0x700, 4, 255, 0xFE0, 5}}, .limit = GREATEST_LIMIT, .declared = true, .slots = 255,
     .rows = 255},
    {"1,024 falling slots, limit 2,048", 0, {{0, 0, 1024, 0xFE0, 1}}, .limit = GREATEST_LIMIT, .strict = LUMEVIQO_NO_SLOT_DIRECTORY,
     .warnings = {UNVERIFIED}, .slots = 1024, .rows = 1024},
    {"1,024 falling slots, offsets inside, limit 2,048", 0, {{0, 0, 1024, 0xFE0, 3}}, .limit = GREATEST_LIMIT,
     .strict = LUMEVIQO_NO_SLOT_DIRECTORY, .warnings = {UNVERIFIED, INSIDE}, .slots = 1024, .rows = 673},
};
enum { DIRECTORIES = sizeof directories / sizeof directories[0] };

static void put_run(uint8_t *page, uint8_t count, Run run) {
    if (run.gap > 0)
        put_u16(page + run.start - run.gap, count);
    for (size_t k = 0; k < run.slots; k++)
        put_u16(page + run.start + LUMEVIQO_SLOT_LENGTH * k, run.first - run.fall * k);
}

static void make_directory(const Directory *d) {
    uint8_t *page = call.held[PAGE];
    memset(page, 0, WHOLE);
    page[AT_ROW_COUNT] = d->count;
    for (size_t k = 0; k < MOST_RUNS; k++)
        put_run(page, d->count, d->runs[k]);
    if (d->breaks_off)
        put_u16(page + d->runs[0].start + LUMEVIQO_SLOT_LENGTH * d->runs[0].slots, 0xFFFF);
    call.number[SEARCH_LIMIT] = d->limit == 0 ? LIMIT : d->limit;
}

static size_t warning_count(const Directory *d) {
    size_t n = 0;
    while (n < LUMEVIQO_MOST_PARSE_WARNINGS && d->warnings[n] != 0)
        n++;
    return n;
}

static void check_parse(const Directory *d) {
    const uint8_t *a = lent[ANSWER];
    const Function *f = &functions[PARSE];
    must(a[LUMEVIQO_PARSE_FOUND] == (d->slots > 0) && u16_at(a + LUMEVIQO_PARSE_SLOT_COUNT) == d->slots, f, "it has its slots");
    must(a[LUMEVIQO_PARSE_DECLARED] == d->declared, f, "a prelude declares them, or none");
    must(u16_at(a + LUMEVIQO_PARSE_WARNING_COUNT) == warning_count(d), f, "it has so many warnings");
    for (size_t k = 0; k < LUMEVIQO_MOST_PARSE_WARNINGS; k++) {
        const uint8_t *warning = a + LUMEVIQO_PARSE_WARNINGS + LUMEVIQO_WARNING_LENGTH * k;
        must(warning[LUMEVIQO_WARNING_NUMBER] == d->warnings[k], f, "it has its warnings");
    }
}

static void expect_row(size_t row, uint8_t answer) {
    call.number[ROW_NUMBER] = row;
    expect(ROW, answer);
}

static void try_accepted(const Directory *d, uint8_t leniency) {
    static const char *const how[LUMEVIQO_MOST_PARSE_WARNINGS + 1] = {"", ": one warning", ": two warnings", ": three warnings"};
    name_pages(d->pages, how[warning_count(d)]);
    call.number[LENIENCY] = leniency;
    expect(PARSE, LUMEVIQO_ACCEPTED);
    check_parse(d);
    expect(COUNT, LUMEVIQO_ACCEPTED);
    must(u16_at(lent[ANSWER] + LUMEVIQO_ROW_COUNT_ROWS) == d->rows, &functions[COUNT], "it has its rows");
    expect(ROWS, LUMEVIQO_ACCEPTED);
    must(u16_at(lent[ANSWER] + LUMEVIQO_ROWS_COUNT) == d->rows, &functions[ROWS], "it has its rows");
    for (size_t row = 0; row < d->rows; row += 1 + d->rows / 8)
        expect_row(row, LUMEVIQO_ACCEPTED);
    expect_row(d->rows, LUMEVIQO_NO_SUCH_ROW);
    expect_row(SIZE_MAX, LUMEVIQO_NO_SUCH_ROW);
}

static void try_refused(const Directory *d) {
    char number[MOST_NAME];
    snprintf(number, sizeof number, "%u", d->strict);
    name_pages("refused with ", number);
    call.number[LENIENCY] = LUMEVIQO_STRICT;
    call.number[ROW_NUMBER] = 0;
    for (int function = PARSE; function < FUNCTIONS; function++)
        expect(function, d->strict);
}

static void try_readings(const Directory *d) {
    if (d->strict == LUMEVIQO_ACCEPTED)
        try_accepted(d, LUMEVIQO_STRICT);
    try_accepted(d, LUMEVIQO_LENIENT_DIRECTORY);
}

/* A limit that is refused, whatever the page. */
static void try_outside(int first, int end) {
    uint64_t kept = call.number[SEARCH_LIMIT];
    name_pages("limit out of range", "");
    call.number[SEARCH_LIMIT] = GREATEST_LIMIT + 1;
    for (int function = first; function < end; function++)
        expect(function, LUMEVIQO_LIMIT_OUT_OF_RANGE);
    call.number[SEARCH_LIMIT] = kept;
}

/* Any answer is right here. */
static void try_any(const char *kind, uint8_t leniency) {
    name_pages(kind, "");
    call.number[LENIENCY] = leniency;
    call.number[ROW_NUMBER] = below(8);
    for (int function = PARSE; function < FUNCTIONS; function++) {
        right_lengths(function);
        measure(function);
        must(returned == functions[function].layout, &functions[function], "it is answered");
    }
}

/* Runs at random places, some of whose pairs are then changed. */
static void make_random_directory(void) {
    uint8_t *page = call.held[PAGE];
    size_t count = below(3) == 0 ? below(4) : 4 + below(252);
    memset(page, 0, WHOLE);
    page[AT_ROW_COUNT] = (uint8_t)count;
    for (size_t times = 1 + below(MOST_RUNS); times > 0; times--) {
        size_t slots = count == 0 ? 4 + below(20) : count, start = 6 + below(GREATEST_LIMIT), first = DATA - 1 - below(8);
        size_t gap = 4 + 2 * below(2), fall = 1 + below((first - FIRST_ROW) / slots);
        put_run(page, (uint8_t)count, (Run){(uint16_t)start, (uint16_t)gap, (uint16_t)slots, (uint16_t)first, (uint16_t)fall});
        for (size_t changes = below(4); changes > 0; changes--)
            put_u16(page + start + LUMEVIQO_SLOT_LENGTH * below(slots), below(2) == 0 ? 0 : next());
    }
}

/* Three times over, as the lines of the table stand in the order of the calls. */
static void try_directories(void) {
    const Directory *end = directories + DIRECTORIES;
    call.number[NUMBER] = next();
    for (const Directory *d = directories; d < end; d++) {
        make_directory(d);
        try_readings(d);
    }
    for (const Directory *d = directories; d < end; d++) {
        make_directory(d);
        if (d->strict != LUMEVIQO_ACCEPTED)
            try_refused(d);
    }
    call.number[LENIENCY] = LUMEVIQO_LENIENT_DIRECTORY;
    for (const Directory *d = directories; d < end; d++) {
        make_directory(d);
        try_outside(PARSE, FUNCTIONS);
        for (int function = PARSE; function < FUNCTIONS; function++)
            try_short(function);
    }
}

static void try_random_directories(void) {
    enum { TIMES = 200 };
    for (size_t k = 0; k < TIMES; k++) {
        uint8_t leniency = k % 2 == 0 ? LUMEVIQO_STRICT : LUMEVIQO_LENIENT_DIRECTORY;
        call.number[NUMBER] = next();
        call.number[SEARCH_LIMIT] = k % 4 < 2 ? LIMIT : LUMEVIQO_LEAST_SEARCH_LIMIT + below(GREATEST_LIMIT - LUMEVIQO_LEAST_SEARCH_LIMIT + 1);
        noise(call.held[PAGE], WHOLE);
        try_any("random bytes", leniency);
        make_random_directory();
        try_any("random directories", leniency);
    }
}

/* Stored pages. */

/* How a page is made, then what must be found: exact sectors, integrity, the answer of a strict decoding, source and number of warnings
   of a lenient one, and two of these with bv supplied. */
typedef struct {
    const char *pages;
    uint8_t rows;         /* of a declared directory */
    uint8_t noise, clean; /* so many of eight bytes are random, from sector `clean` on */
    bool half;            /* but none at an even place */
    bool near;            /* the last data byte of each sector is off the line */
    bool own_bv;          /* each sector has another bv */
    uint16_t damaged;     /* a byte of the trailer, or 0 */

    uint8_t exact, integrity, strict, source, warnings, supplied, supplied_warnings;
} Stored;

static const Stored stored[] = {
    {"exact", .exact = 8, .source = LUMEVIQO_SOURCE_EXACT_SECTORS},
    {"exact, eight values of bv", .own_bv = true, .exact = 8, .strict = LUMEVIQO_AMBIGUOUS_CALIBRATION, .source = LUMEVIQO_SOURCE_HISTOGRAM,
     .warnings = 1, .supplied = LUMEVIQO_KEYSTREAM_UNVERIFIED, .supplied_warnings = 1},
    {"one exact sector", .noise = 3, .clean = 1, .exact = 1, .source = LUMEVIQO_SOURCE_CORROBORATED,
     .supplied = LUMEVIQO_KEYSTREAM_UNVERIFIED, .supplied_warnings = 1},
    {"mixed", .noise = 3, .strict = LUMEVIQO_KEYSTREAM_UNVERIFIED, .source = LUMEVIQO_SOURCE_HISTOGRAM, .warnings = 1,
     .supplied = LUMEVIQO_KEYSTREAM_UNVERIFIED, .supplied_warnings = 1},
    {"near", .near = true, .strict = LUMEVIQO_KEYSTREAM_UNVERIFIED, .source = LUMEVIQO_SOURCE_HISTOGRAM, .warnings = 1,
     .supplied = LUMEVIQO_KEYSTREAM_UNVERIFIED, .supplied_warnings = 1},
    {"half", .noise = 8, .half = true, .strict = LUMEVIQO_KEYSTREAM_UNVERIFIED, .source = LUMEVIQO_SOURCE_HISTOGRAM, .warnings = 9,
     .supplied = LUMEVIQO_KEYSTREAM_UNVERIFIED, .supplied_warnings = 9},
    {"dense", .noise = 8, .strict = LUMEVIQO_KEYSTREAM_UNVERIFIED, .source = LUMEVIQO_SOURCE_HISTOGRAM, .warnings = 9,
     .supplied = LUMEVIQO_KEYSTREAM_UNVERIFIED, .supplied_warnings = 9},
    {"dense, bad CRC", .noise = 8, .damaged = AT_CRC, .integrity = LUMEVIQO_BAD_CRC, .strict = LUMEVIQO_BAD_CRC,
     .source = LUMEVIQO_SOURCE_HISTOGRAM, .warnings = 10, .supplied = LUMEVIQO_KEYSTREAM_UNVERIFIED, .supplied_warnings = 9},
    {"dense, bad trailer", .noise = 8, .damaged = AT_RESERVED, .integrity = LUMEVIQO_BAD_TRAILER, .strict = LUMEVIQO_BAD_TRAILER,
     .source = LUMEVIQO_SOURCE_HISTOGRAM, .warnings = 10, .supplied = LUMEVIQO_KEYSTREAM_UNVERIFIED, .supplied_warnings = 9},
    {"5 rows", .rows = 5, .exact = 7, .source = LUMEVIQO_SOURCE_TRAILER_ROW_COUNT},
    {"200 rows", .rows = 200, .exact = 7, .source = LUMEVIQO_SOURCE_TRAILER_ROW_COUNT},
    {"all zero", .exact = 8, .source = LUMEVIQO_SOURCE_UNALLOCATED},
};
enum { STORED = sizeof stored / sizeof stored[0] };

/* What byte `at` of the page is off its sector's line by. */
static uint8_t off_line(const Stored *kind, size_t at) {
    if (kind->near)
        return at % SECTOR == SECTOR - 1 || at == DATA - 1;
    bool noisy = at / SECTOR >= kind->clean && !(kind->half && at % 2 == 0);
    return noisy && below(8) < kind->noise ? (uint8_t)next() : 0;
}

/* A plain page, shifted by a random step in each sector, and with a good CRC unless that is what is damaged. */
static void make_stored(const Stored *kind) {
    uint8_t *page = call.held[PAGE];
    uint64_t p = call.number[NUMBER] = next();
    memset(page, 0, WHOLE);
    call.number[BV] = call.held[ANCHORS][0] = (uint8_t)next();
    if (kind->source == LUMEVIQO_SOURCE_UNALLOCATED)
        return;
    page[AT_ROW_COUNT] = kind->rows == 0 ? 50 : kind->rows;
    put_run(page, kind->rows, (Run){0x44, 4, kind->rows, 0xFE0, 7}); /* under no step are slots equal that fall by an odd number */
    for (uint64_t s = 0; s < SECTORS; s++) {
        uint64_t shift = p + s - 4 * (p % 16 / 2) + call.number[BV] + (kind->own_bv ? s : 0), step = next();
        for (size_t i = 0; i < SECTOR && SECTOR * s + i < DATA; i++)
            page[SECTOR * s + i] += (uint8_t)(off_line(kind, SECTOR * s + i) + shift + i * step);
    }
    if (kind->damaged > 0)
        page[kind->damaged]++;
    if (kind->damaged != AT_CRC)
        put_u32(page + AT_CRC, lumeviqo_crc32(page, AT_CRC));
}

static void summarize(void) {
    uint8_t answer[LUMEVIQO_SCAN_LENGTH];
    lumeviqo_scan(call.number[NUMBER], call.held[PAGE], WHOLE, call.held[SHIFTED], DATA, answer, sizeof answer);
    memcpy(call.held[FITS], answer + LUMEVIQO_SCAN_FITS, LUMEVIQO_FITS_LENGTH);
}

static void try_crc32(void) {
    static const size_t lengths[] = {0, 1, 15, 16, 17, 63, 64, 65, AT_CRC, WHOLE};
    for (size_t k = 0; k < sizeof lengths / sizeof lengths[0]; k++) {
        call.length[PAGE] = lengths[k];
        measure(CRC32);
        must((uint32_t)returned == lumeviqo_crc32(call.held[PAGE], lengths[k]), &functions[CRC32], "it is the CRC");
    }
}

static void try_superblocks(const char *kind) {
    static uint8_t kept[WHOLE];
    uint8_t *page = call.held[PAGE];
    expect(SUPERBLOCK, LUMEVIQO_ACCEPTED);
    expect(CHECKED, LUMEVIQO_BAD_MAGIC);
    memcpy(kept, page, WHOLE);
    put_u32(page + AT_MAGIC, MAGIC);
    memcpy(page + WHOLE - strlen(MARKER), MARKER, strlen(MARKER));
    name_pages(kind, ", magic and marker");
    for (int function = SUPERBLOCK; function <= CHECKED; function++) {
        expect(function, LUMEVIQO_ACCEPTED);
        must(lent[ANSWER][LUMEVIQO_SUPERBLOCK_MARKER] == 1, &functions[function], "it has the marker");
    }
    memcpy(page, kept, WHOLE);
}

static void try_summary(const Stored *kind) {
    uint8_t exact = 0;
    expect(SCAN, LUMEVIQO_ACCEPTED);
    for (size_t s = 0; s < SECTORS; s++)
        exact += lent[ANSWER][LUMEVIQO_SCAN_FITS + LUMEVIQO_FIT_LENGTH * s + LUMEVIQO_FIT_EXACT];
    must(exact == kind->exact, &functions[SCAN], "so many sectors are exact");
    for (size_t s = 0; s < SECTORS; s++) {
        call.number[SECTOR_NUMBER] = s;
        memcpy(call.held[BYTES], call.held[PAGE] + SECTOR * (SECTORS - 1 - s), SECTOR);
        expect(REPLACE, LUMEVIQO_ACCEPTED);
    }
    call.number[SECTOR_NUMBER] = SECTORS;
    expect(REPLACE, LUMEVIQO_BAD_REPLACEMENT);
    call.number[SECTOR_NUMBER] = 0;
}

static void try_decodings(const Stored *kind) {
    for (int function = DECODE; function <= SUPPLIED_SUMMARY; function++) {
        bool supplied = function >= SUPPLIED;
        uint8_t source = supplied && kind->source != LUMEVIQO_SOURCE_UNALLOCATED ? LUMEVIQO_SOURCE_SUPPLIED : kind->source;
        uint8_t warnings = supplied ? kind->supplied_warnings : kind->warnings;
        name_pages(kind->pages, ", strict");
        call.number[LENIENCY] = LUMEVIQO_STRICT;
        expect(function, supplied ? kind->supplied : kind->strict);
        name_pages(kind->pages, ", lenient");
        call.number[LENIENCY] = LUMEVIQO_LENIENT_KEYSTREAM | LUMEVIQO_LENIENT_INTEGRITY;
        expect(function, LUMEVIQO_ACCEPTED);
        must(lent[ANSWER][LUMEVIQO_DECODING_SOURCE] == source, &functions[function], "its bv has the source of its kind");
        must(lent[ANSWER][LUMEVIQO_DECODING_WARNING_COUNT] == warnings, &functions[function], "it has so many warnings");
    }
}

static void try_stored(const Stored *kind) {
    make_stored(kind);
    summarize();
    name_pages(kind->pages, "");
    try_crc32();
    expect(TRAILER, LUMEVIQO_ACCEPTED);
    expect(INTEGRITY, kind->integrity);
    try_summary(kind);
    try_superblocks(kind->pages);
    try_decodings(kind);
    try_outside(DECODE, PARSE);
    for (int function = TRAILER; function < PARSE; function++)
        try_short(function);
}

static void try_version(void) {
    name_pages("", "");
    measure(VERSION);
    must((uint32_t)returned == LUMEVIQO_VERSION, &functions[VERSION], "header and library have the same version");
}

/* Telling. */

static void print_number(size_t n) {
    if (n < 1000)
        printf("%zu", n);
    else
        printf("%zu,%03zu", n / 1000, n % 1000);
}

static void print_cell(size_t n) {
    printf(" ");
    print_number(n);
    printf(" |");
}

static void print_functions(void) {
    printf("| function | least bytes | most bytes | first pages with the most |\n|---|---|---|---|\n");
    for (int k = 0; k < FUNCTIONS; k++) {
        printf("| %s |", functions[k].name);
        print_cell(figures[k].least);
        print_cell(figures[k].most);
        printf(" %s |\n", figures[k].pages);
    }
}

static void print_lines(void) {
    printf("\n| most bytes, by pages |");
    for (int k = PARSE; k < FUNCTIONS; k++)
        printf(" %s |", functions[k].name);
    printf("\n|---|");
    for (int k = PARSE; k < FUNCTIONS; k++)
        printf("---|");
    printf("\n");
    for (size_t line = 0; line < line_count; line++) {
        printf("| %s |", lines[line].pages);
        for (size_t k = 0; k < LINE_FIGURES; k++)
            print_cell(lines[line].most[k]);
        printf("\n");
    }
}

static int over_limits(void) {
    int over = 0;
    for (int k = 0; k < FUNCTIONS; k++)
        if (functions[k].limit > 0 && figures[k].most > functions[k].limit) {
            over++;
            fprintf(stderr, "stack: %s, %s: %zu bytes, over its limit of %zu\n", functions[k].name, figures[k].pages, figures[k].most,
                    functions[k].limit);
        }
    return over;
}

int main(void) {
    enum { TIMES = 8 };
    mix_paints();
    must(depth_of(&empty_call) == RETURN_ADDRESS, &empty_call, "it writes its return address alone");
    call.number[T] = LUMEVIQO_MIN_TRAILER_COUNT;
    call.number[SEARCH_LIMIT] = LIMIT;
    try_version();
    for (size_t kind = 0; kind < STORED; kind++)
        for (size_t k = 0; k < TIMES; k++)
            try_stored(&stored[kind]);
    try_directories();
    try_random_directories();
    print_functions();
    print_lines();
    printf("\nAn empty call takes %d bytes, its return address, which is part of every figure.\n", RETURN_ADDRESS);
    printf("\n%d functions, ", FUNCTIONS);
    print_number(calls_made);
    printf(" calls\n");
    fflush(stdout);
    return over_limits() == 0 ? EXIT_SUCCESS : EXIT_FAILURE;
}
