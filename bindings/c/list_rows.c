/* Lists the rows of every page of a page file: list_rows FILE [LENIENCY [LIMIT]]. Pages are read without anchors.
   cc -Wall -Wextra -Werror -I include bindings/c/list_rows.c target/staticlib/liblumeviqo.a -o list_rows */
#include <ctype.h>
#include <errno.h>
#include <inttypes.h>
#include <stdbool.h>
#include <stdio.h>
#include <stdlib.h>
#include <string.h>

#include "lumeviqo.h"

#define ANCHORS "lend anchors (values of bv of other pages of its block: 16 pages, the first a multiple of 16)"
#define REPLACE "replace damaged sectors from a second copy"
#define SUPERBLOCK "page 0 is the superblock and is not shifted: lumeviqo_superblock reads it"

/* What was wrong, and what may help. Where INTEGRITY let damage through a guess would go by it too: then KEYSTREAM is no way out. */
struct words {
    const char *what, *help, *help_with_integrity;
};

static const struct words answers[] = {
    [LUMEVIQO_WRONG_PAGE_LENGTH] = {.what = "a page has 4096 bytes, and this one is cut short"},
    [LUMEVIQO_WRONG_BUFFER_LENGTH] = {.what = "a lent buffer has another length"},
    [LUMEVIQO_BAD_CRC] = {.what = "its CRC is not the stored one",
                          .help = "replace from a second copy the sectors that could not be read, since zeros in their place mislead the "
                                  "choice of bv; INTEGRITY (4) reads the page all the same"},
    [LUMEVIQO_BAD_TRAILER] = {.what = "reserved trailer bytes are not zero", .help = "allow INTEGRITY (4) to read it"},
    [LUMEVIQO_AMBIGUOUS_CALIBRATION] = {.what = "bv may be any of several",
                                        .help = ANCHORS " and allow KEYSTREAM (1) to take the likeliest",
                                        .help_with_integrity = REPLACE ", since zeros in their place mislead the choice"},
    [LUMEVIQO_KEYSTREAM_UNVERIFIED] = {.what = "nothing confirms bv",
                                       .help = ANCHORS ", raise the search limit, or allow KEYSTREAM (1) to take it",
                                       .help_with_integrity = REPLACE ", " ANCHORS ", or raise the search limit"},
    [LUMEVIQO_LOW_CONFIDENCE_KEYSTREAM] = {.what = "the step of a sector is in doubt",
                                           .help = "allow KEYSTREAM (1) to read it",
                                           .help_with_integrity = "replace it from a second copy if it is damaged"},
    [LUMEVIQO_NO_SLOT_DIRECTORY] = {.what = "no slot directory is confirmed", .help = "allow DIRECTORY (2) to read it"},
    [LUMEVIQO_UNKNOWN_PRELUDE] = {.what = "no prelude has its row count",
                                  .help = "raise the search limit, or allow DIRECTORY (2) to read it"},
    [LUMEVIQO_SLOT_DIRECTORY_TRUNCATED] = {.what = "its slot directory breaks off", .help = "allow DIRECTORY (2) to read what is left"},
    [LUMEVIQO_AMBIGUOUS_SLOT_DIRECTORY] = {.what = "several slot directories fit", .help = "allow DIRECTORY (2) to take one"},
    [LUMEVIQO_SLOT_OFFSET_IN_DIRECTORY] = {.what = "a slot offset lies inside the directory", .help = "allow DIRECTORY (2) to drop it"},
    [LUMEVIQO_BAD_MAGIC] = {.what = "this is no page 0 of a SQL Anywhere 17 file"},
    [LUMEVIQO_BAD_REPLACEMENT] = {.what = "sectors are 0 to 7, and a sector takes 512 bytes, sector 7 with its trailer"},
    [LUMEVIQO_NO_SUCH_ROW] = {.what = "there is no such row", .help = "rows are counted from 0"},
    [LUMEVIQO_LIMIT_OUT_OF_RANGE] = {.what = "a search limit is 8 to 2048",
                                     .help = "take the usual 768, or up to 2048 where a directory lies further on"},
};

static const char *const confidences[] = {
    [LUMEVIQO_CONFIDENCE_UNALLOCATED] = "unallocated",   [LUMEVIQO_CONFIDENCE_UNVERIFIED] = "unverified",
    [LUMEVIQO_CONFIDENCE_CORROBORATED] = "corroborated", [LUMEVIQO_CONFIDENCE_CALIBRATED] = "calibrated",
    [LUMEVIQO_CONFIDENCE_VERIFIED] = "verified",
};

static uint64_t number_at(const uint8_t *bytes, size_t width) {
    uint64_t n = 0;
    for (size_t k = width; k > 0; k--)
        n = n << 8 | bytes[k - 1];
    return n;
}

static struct words words_of(uint8_t answer) {
    static const struct words unknown = {.what = "an answer that list_rows does not know",
                                         .help = "take it and the library from one commit, and compile it anew"};
    return answer < sizeof answers / sizeof answers[0] && answers[answer].what != NULL ? answers[answer] : unknown;
}

/* An answer to a decoding or a parse, which are not for page 0. */
static bool is_of_a_reading(uint8_t answer) {
    return answer >= LUMEVIQO_BAD_CRC && answer <= LUMEVIQO_SLOT_OFFSET_IN_DIRECTORY;
}

static const char *help(uint64_t number, uint8_t answer, uint8_t leniency) {
    struct words words = words_of(answer);
    if (number == 0 && is_of_a_reading(answer))
        return SUPERBLOCK;
    return leniency & LUMEVIQO_LENIENT_INTEGRITY && words.help_with_integrity != NULL ? words.help_with_integrity : words.help;
}

/* The values behind the words are those beside the answer's number in lumeviqo.h. */
static void print_refusal(uint64_t number, uint8_t leniency, const uint8_t *part) {
    uint8_t answer = part[LUMEVIQO_ANSWER_NUMBER];
    const char *advice = help(number, answer, leniency);
    printf("%" PRIu64 ": refused, %s", number, words_of(answer).what);
    if (advice != NULL)
        printf(": %s", advice);
    printf(" (answer %u:", answer);
    for (size_t k = 0; k < part[LUMEVIQO_ANSWER_VALUE_COUNT]; k++)
        printf(" %" PRIu64, number_at(part + LUMEVIQO_ANSWER_VALUES + LUMEVIQO_VALUE_LENGTH * k, LUMEVIQO_VALUE_LENGTH));
    printf(")\n");
}

/* Where row `row` of `rows` starts; behind the last one, where that ends. */
static uint64_t start_of(const uint8_t *found, size_t row, size_t rows) {
    const uint8_t *at = found + LUMEVIQO_ROWS_STARTS + LUMEVIQO_SLOT_LENGTH * row;
    return row < rows ? number_at(at, LUMEVIQO_SLOT_LENGTH) : LUMEVIQO_SHIFTED_LENGTH;
}

static void list(uint64_t number, const uint8_t *stored, size_t length, uint8_t leniency, size_t limit) {
    uint8_t plain[LUMEVIQO_PAGE_LENGTH], decoding[LUMEVIQO_DECODING_LENGTH], found[LUMEVIQO_ROWS_LENGTH];
    lumeviqo_decode(number, stored, length, stored, 0, leniency, LUMEVIQO_MIN_TRAILER_COUNT, limit, plain, sizeof plain, decoding,
                    sizeof decoding);
    if (decoding[LUMEVIQO_ANSWER_NUMBER] != LUMEVIQO_ACCEPTED) {
        print_refusal(number, leniency, decoding);
        return;
    }
    lumeviqo_rows(number, plain, sizeof plain, leniency, limit, found, sizeof found);
    if (found[LUMEVIQO_ANSWER_NUMBER] != LUMEVIQO_ACCEPTED) {
        print_refusal(number, leniency, found);
        return;
    }
    size_t rows = number_at(found + LUMEVIQO_ROWS_COUNT, LUMEVIQO_ROWS_STARTS - LUMEVIQO_ROWS_COUNT);
    printf("%" PRIu64 ": %s, %zu rows, %u warnings\n", number, confidences[decoding[LUMEVIQO_DECODING_CONFIDENCE]], rows,
           decoding[LUMEVIQO_DECODING_WARNING_COUNT]);
    for (size_t r = 0; r < rows; r++)
        printf("  %04" PRIx64 " to %04" PRIx64 "\n", start_of(found, r, rows), start_of(found, r + 1, rows));
}

static int failed(const char *message) {
    fprintf(stderr, "%s\n", message);
    return EXIT_FAILURE;
}

static int failed_at(const char *what, const char *why) {
    fprintf(stderr, "%s: %s\n", what, why);
    return EXIT_FAILURE;
}

/* Page by page, and no further than what can be written. */
static int list_all(const char *path, FILE *file, uint8_t leniency, size_t limit) {
    uint8_t stored[LUMEVIQO_PAGE_LENGTH];
    uint64_t number = 0;
    for (size_t length; (length = fread(stored, 1, sizeof stored, file)) > 0 && !ferror(file); number++) {
        list(number, stored, length, leniency, limit);
        if (ferror(stdout))
            return failed_at("standard output", strerror(errno));
    }
    if (ferror(file))
        return failed_at(path, strerror(errno));
    if (number == 0)
        return failed_at(path, "the file is empty");
    return fflush(stdout) == 0 ? EXIT_SUCCESS : failed_at("standard output", strerror(errno));
}

/* A limit that is out of range is left to the library, which refuses it. */
static bool is_number(const char *word, unsigned long long *number) {
    char *end;
    errno = 0;
    *number = strtoull(word, &end, 10);
    return isdigit((unsigned char)word[0]) && *end == '\0' && errno == 0;
}

int main(int argc, char **argv) {
    unsigned long long leniency = LUMEVIQO_STRICT, limit = LUMEVIQO_SEARCH_LIMIT;
    if (argc < 2 || argc > 4)
        return failed("usage: list_rows FILE [LENIENCY [LIMIT]]");
    if (lumeviqo_version() != LUMEVIQO_VERSION)
        return failed("list_rows was compiled with another version of lumeviqo.h than the library has: compile it anew");
    if (argc > 2 && (!is_number(argv[2], &leniency) || leniency > 7))
        return failed("LENIENCY is 0, or a sum of 1 (keystream), 2 (directory) and 4 (integrity)");
    if (argc > 3 && !is_number(argv[3], &limit))
        return failed("LIMIT is a number from 8 to 2048, usually 768");
    FILE *file = fopen(argv[1], "rb");
    if (file == NULL)
        return failed_at(argv[1], strerror(errno));
    int status = list_all(argv[1], file, (uint8_t)leniency, (size_t)limit);
    fclose(file);
    return status;
}
