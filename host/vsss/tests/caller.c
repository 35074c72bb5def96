/* Calls the library from C: document 01's cases G and H, the sheet of G there and back, refusals with
 * their places, and every entry at the longest secret and one byte beyond. */
#include <stdio.h>
#include <stdlib.h>
#include <string.h>

#include "vsss.h"

static int failures = 0;

static void expect(int holds, const char *what) {
    printf("%s: %s\n", holds ? "ok" : "FAILED", what);
    if (!holds) failures++;
}

static void split_case_g(void) {
    const uint8_t secret[] = {0x2a}, ids[] = {1, 2, 3}, coefficients[] = {0x05};
    const uint8_t expected[] = {1, 0x2f, 2, 0x20, 3, 0x25, 0xee};
    uint8_t out[7];
    memset(out, 0xee, sizeof out);
    uint64_t word = vsss_split_bytes(2, 3, secret, sizeof secret, ids, sizeof ids,
                                     coefficients, sizeof coefficients, out, sizeof out);
    expect(VSSS_NUMBER(word) == 0 && word == 6, "G is done with 6 bytes");
    expect(memcmp(out, expected, sizeof out) == 0, "G writes its rows and nothing behind them");
}

static void combine_case_h(void) {
    const uint8_t rows[] = {1, 0x2f, 2, 0x20}, lengths[] = {2, 0, 0, 0, 2, 0, 0, 0};
    uint8_t out[] = {0xee, 0xee};
    uint64_t word =
        vsss_combine_bytes(rows, sizeof rows, lengths, sizeof lengths, out, sizeof out);
    expect(word == 1, "H is done with 1 byte");
    expect(out[0] == 0x2a && out[1] == 0xee, "H writes 2a and nothing behind it");
}

static void combine_a_doubled_row(void) {
    const uint8_t rows[] = {9, 1, 7, 1, 8, 1, 7, 1};
    const uint8_t lengths[] = {2, 0, 0, 0, 2, 0, 0, 0, 2, 0, 0, 0, 2, 0, 0, 0};
    uint8_t out[] = {0xee};
    uint64_t word =
        vsss_combine_bytes(rows, sizeof rows, lengths, sizeof lengths, out, sizeof out);
    expect(word == ((uint64_t)7 << 40) + (1 << 16) + 3, "a doubled row gives the word 7, 1, 3");
    expect(VSSS_NUMBER(word) == VSSS_SHARING_DUPLICATE_IDENTIFIER, "its number is read");
    expect(VSSS_FIRST_PLACE(word) == 1 && VSSS_SECOND_PLACE(word) == 3, "its places are read");
    expect(out[0] == 0xee, "a refusal writes nothing");
}

static void split_for_a_zero(void) {
    const uint8_t secret[] = {0x2a}, ids[] = {1, 2, 0}, coefficients[] = {0x05};
    uint8_t out[] = {0xee};
    uint64_t word = vsss_split_bytes(2, 3, secret, sizeof secret, ids, sizeof ids,
                                     coefficients, sizeof coefficients, out, sizeof out);
    expect(VSSS_NUMBER(word) == VSSS_SHARING_INVALID_IDENTIFIER, "identifier 0 is refused");
    expect(VSSS_FIRST_PLACE(word) == 2, "at place 2");
    expect(out[0] == 0xee, "and nothing is written");
}

static void sheet_of_case_g(void) {
    const uint8_t rows[] = {1, 0x2f, 2, 0x20, 3, 0x25};
    const uint8_t lengths[] = {2, 0, 0, 0, 2, 0, 0, 0, 2, 0, 0, 0};
    const char expected[] = "seal\t2\t3\t1\nrow\t1\t2f\nrow\t2\t20\nrow\t3\t25\n";
    const size_t length = sizeof expected - 1;
    uint8_t out[VSSS_SHEET_ROOM(3, 1)];
    memset(out, 0xee, sizeof out);
    uint64_t word =
        vsss_write_sheet(2, rows, sizeof rows, lengths, sizeof lengths, out, sizeof out);
    expect(word == length, "the sheet of G is done with 38 bytes");
    expect(memcmp(out, expected, length) == 0, "it is the text of document 02");
    expect(out[length] == 0xee, "and nothing is written behind it");
}

static void sheet_of_doubled_rows(void) {
    const uint8_t rows[] = {9, 1, 7, 1, 7, 1};
    const uint8_t lengths[] = {2, 0, 0, 0, 2, 0, 0, 0, 2, 0, 0, 0};
    uint8_t out[VSSS_SHEET_ROOM(3, 1)];
    memset(out, 0xee, sizeof out);
    uint64_t word =
        vsss_write_sheet(2, rows, sizeof rows, lengths, sizeof lengths, out, sizeof out);
    expect(word == ((uint64_t)7 << 40) + (1 << 16) + 2, "no sheet of doubled rows: 7, 1, 2");
    expect(out[0] == 0xee, "and nothing is written of it");
}

static const char own_sheet[] = "seal\t2\t1\t1\nrow\t3\t25\n";

static void read_a_sheet(void) {
    const size_t length = sizeof own_sheet - 1;
    const uint8_t expected_head[] = {2, 0, 0, 0, 1, 0, 0, 0, 1, 0, 0, 0, 0xee};
    uint8_t head[VSSS_HEAD_ROOM + 1], out[VSSS_ROWS_ROOM(sizeof own_sheet)];
    memset(head, 0xee, sizeof head);
    memset(out, 0xee, sizeof out);
    uint64_t word = vsss_read_sheet((const uint8_t *)own_sheet, length, head, sizeof head,
                                    out, sizeof out);
    expect(word == 2, "a sheet is read into 2 bytes");
    expect(out[0] == 3 && out[1] == 0x25 && out[2] == 0xee, "its row, and nothing behind it");
    expect(memcmp(head, expected_head, sizeof head) == 0, "and its head, and nothing behind it");
}

static void read_a_text_cut_short(void) {
    const size_t length = sizeof own_sheet - 2;
    uint8_t head[VSSS_HEAD_ROOM], out[VSSS_ROWS_ROOM(sizeof own_sheet)];
    memset(head, 0xee, sizeof head);
    memset(out, 0xee, sizeof out);
    uint64_t word = vsss_read_sheet((const uint8_t *)own_sheet, length, head, sizeof head,
                                    out, sizeof out);
    expect(VSSS_NUMBER(word) == VSSS_INVALID_SHEET, "without its last line feed it is no sheet");
    expect(VSSS_FIRST_PLACE(word) == 1 && VSSS_SECOND_PLACE(word) == 0, "at line 1");
    expect(head[0] == 0xee && out[0] == 0xee, "and nothing is written of it");
}

enum { LONGEST = VSSS_MAX_SECRET, ROWS = 2 };

/* The bytes of two rows with so many values, one for each identifier. */
static size_t two_rows(size_t values) { return ROWS * (values + 1); }

/* The lengths of two rows with so many values. */
static void two_lengths(uint8_t lengths[4 * ROWS], size_t values) {
    for (int i = 0; i < 4 * ROWS; i++) lengths[i] = (uint8_t)((values + 1) >> 8 * (i % 4));
}

/* Split, combine, and a sheet there and back, for a secret of so many bytes: the answers. */
struct answers { uint64_t split, combine, sheet, read; int is_back; };

static struct answers all_of(size_t values) {
    const uint8_t ids[ROWS] = {1, 255};
    const size_t text_room = VSSS_SHEET_ROOM(ROWS, values);
    struct answers got;
    uint8_t lengths[4 * ROWS], head[VSSS_HEAD_ROOM];
    uint8_t *secret = malloc(values), *out = malloc(values), *text = malloc(text_room);
    uint8_t *rows = malloc(two_rows(values)), *again = malloc(two_rows(values));
    for (size_t i = 0; i < values; i++) secret[i] = (uint8_t)(i * 7 + i / 256);
    two_lengths(lengths, values);
    memset(rows, 1, two_rows(values));
    rows[values + 1] = 255;
    got.split = vsss_split_bytes(2, ROWS, secret, values, ids, sizeof ids, secret, values,
                                 rows, two_rows(values));
    got.combine = vsss_combine_bytes(rows, two_rows(values), lengths, sizeof lengths, out, values);
    got.sheet = vsss_write_sheet(2, rows, two_rows(values), lengths, sizeof lengths,
                                 text, text_room);
    got.read = vsss_read_sheet(text, VSSS_NUMBER(got.sheet) == 0 ? (size_t)got.sheet : 0,
                               head, sizeof head, again, two_rows(values));
    got.is_back = VSSS_NUMBER(got.read) == 0 && memcmp(out, secret, values) == 0
                  && memcmp(again, rows, two_rows(values)) == 0;
    free(secret), free(out), free(text), free(rows), free(again);
    return got;
}

static void the_longest_secret(void) {
    struct answers got = all_of(LONGEST);
    expect(got.split == two_rows(LONGEST), "the longest secret is split");
    expect(got.combine == LONGEST, "and combined");
    expect(VSSS_NUMBER(got.sheet) == 0 && got.sheet <= VSSS_SHEET_ROOM(ROWS, LONGEST),
           "a sheet of its rows has the room that is said");
    expect(got.read == two_rows(LONGEST) && got.is_back, "secret and rows come back");
}

static void a_longer_secret(void) {
    struct answers got = all_of((size_t)LONGEST + 1);
    expect(VSSS_NUMBER(got.split) == VSSS_TOO_LONG, "one byte more is not split");
    expect(VSSS_NUMBER(got.combine) == VSSS_TOO_LONG, "nor combined");
    expect(VSSS_NUMBER(got.sheet) == VSSS_TOO_LONG, "nor written as a sheet");
}

int main(void) {
    split_case_g();
    combine_case_h();
    combine_a_doubled_row();
    split_for_a_zero();
    sheet_of_case_g();
    sheet_of_doubled_rows();
    read_a_sheet();
    read_a_text_cut_short();
    the_longest_secret();
    a_longer_secret();
    return failures != 0;
}
