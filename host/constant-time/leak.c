/* The library with a leak, to see the check fail. It stands around the entries, by ld's --wrap, so
 * that the leak is all that differs from the library that is checked.
 *
 *   -DLEAK    branch or lookup: how it leaks
 *   -DPLACE   SECRET, COEFFICIENT, ROW, COMBINED, SHEET_ROW: whose last byte leaks, in every call;
 *             or DIGIT, READ_DIGIT: the last digit of a sheet that is written or read does
 *
 * At the end it says how often it has leaked. */
#include <stdio.h>
#include <stdlib.h>
#include <valgrind/memcheck.h>

#include "vsss.h"

enum place { SECRET, COEFFICIENT, ROW, COMBINED, SHEET_ROW, DIGIT, READ_DIGIT };

/* Volatile, so that the compiler keeps the jump and the load. */
static volatile unsigned sink;
static const volatile uint8_t table[256];

static inline void branch(uint8_t byte) {
    if (byte & 1) sink = 1;
}

static inline void lookup(uint8_t byte) { sink = table[byte]; }

static unsigned leaks;

static void tell_leaks(void) { printf("%u leaks\n", leaks); }

/* Each leak must be reported: else a call was made with bytes that are not marked. */
static void leak(enum place place, const uint8_t *from, size_t len) {
    unsigned before = VALGRIND_COUNT_ERRORS;
    if (place != PLACE || len == 0) return;
    if (leaks++ == 0) atexit(tell_leaks);
    LEAK(from[len - 1]);
    if (VALGRIND_COUNT_ERRORS == before + 1) return;
    puts("MISSED: a leak");
    exit(1);
}

uint64_t __real_vsss_split_bytes(size_t, size_t, const uint8_t *, size_t, const uint8_t *, size_t,
                                 const uint8_t *, size_t, uint8_t *, size_t);
uint64_t __real_vsss_combine_bytes(const uint8_t *, size_t, const uint8_t *, size_t, uint8_t *,
                                   size_t);
uint64_t __real_vsss_write_sheet(size_t, const uint8_t *, size_t, const uint8_t *, size_t,
                                 uint8_t *, size_t);
uint64_t __real_vsss_read_sheet(const uint8_t *, size_t, uint8_t *, size_t, uint8_t *, size_t);

uint64_t __wrap_vsss_split_bytes(size_t threshold, size_t limit,
                                 const uint8_t *secret, size_t secret_len,
                                 const uint8_t *ids, size_t ids_len,
                                 const uint8_t *coefficients, size_t coefficients_len,
                                 uint8_t *out, size_t out_len) {
    leak(SECRET, secret, secret_len);
    leak(COEFFICIENT, coefficients, coefficients_len);
    return __real_vsss_split_bytes(threshold, limit, secret, secret_len, ids, ids_len,
                                   coefficients, coefficients_len, out, out_len);
}

uint64_t __wrap_vsss_combine_bytes(const uint8_t *rows, size_t rows_len,
                                   const uint8_t *lengths, size_t lengths_len,
                                   uint8_t *out, size_t out_len) {
    leak(ROW, rows, rows_len);
    uint64_t word = __real_vsss_combine_bytes(rows, rows_len, lengths, lengths_len, out, out_len);
    if (VSSS_NUMBER(word) == 0) leak(COMBINED, out, word);
    return word;
}

/* A line feed stands behind the last digit. */
uint64_t __wrap_vsss_write_sheet(size_t threshold,
                                 const uint8_t *rows, size_t rows_len,
                                 const uint8_t *lengths, size_t lengths_len,
                                 uint8_t *out, size_t out_len) {
    leak(SHEET_ROW, rows, rows_len);
    uint64_t word =
        __real_vsss_write_sheet(threshold, rows, rows_len, lengths, lengths_len, out, out_len);
    if (VSSS_NUMBER(word) == 0) leak(DIGIT, out, word - 1);
    return word;
}

uint64_t __wrap_vsss_read_sheet(const uint8_t *text, size_t text_len,
                                uint8_t *head, size_t head_len,
                                uint8_t *out, size_t out_len) {
    uint64_t word = __real_vsss_read_sheet(text, text_len, head, head_len, out, out_len);
    if (VSSS_NUMBER(word) == 0) leak(READ_DIGIT, text, text_len - 1);
    return word;
}
