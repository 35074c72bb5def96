/* Calls split, combine, the writer and the reader of sheets under valgrind's memcheck with every
 * secret byte marked undefined. Memcheck then reports each jump and each address that depends on
 * one. What is public stays defined: identifiers, lengths, thresholds.
 *
 * There must be no report but the reader's: one jump a row tells whether all its digits are hex, as
 * in every sheet they are, and nothing else depends on a value. So its reports are counted call by
 * call.
 *
 * Memcheck follows the marks, not the values. Without a report the path is the same for every
 * secret of a shape, so one secret a shape is enough, and the shapes are chosen for the paths:
 * whole vectors, what is left of them, blocks, many rows, every identifier. */
#include <stdio.h>
#include <stdlib.h>
#include <string.h>
#include <valgrind/memcheck.h>

#include "vsss.h"

#define COUNT(list) (sizeof(list) / sizeof *(list))

enum { UNTOUCHED = 0xee };

/* Lengths of secrets: the longest there is, and one that is long beside every block and vector, for
 * shapes of many rows, which would take minutes with the longest. */
enum { LONGEST = VSSS_MAX_SECRET, LONG = 4096 };

static unsigned splits, combines, sheets, reads, refusals;

/* Rows whose digits the reader has judged, and its reports beyond one for each of them. */
static unsigned judged_rows, more_reports;

static void tell_counts(void) {
    printf("%u splits, %u combines, %u sheets written, %u read, %u refusals", splits, combines,
           sheets, reads, refusals);
}

static void require(int holds, const char *what) {
    if (holds) return;
    printf("WRONG: %s (after ", what);
    tell_counts();
    puts(")");
    exit(1);
}

/* Inputs */

/* Exactly so many bytes, so that memcheck also sees a read or write beyond them. */
static uint8_t *bytes(size_t len) {
    uint8_t *made = malloc(len);
    require(made != NULL, "there is memory");
    memset(made, UNTOUCHED, len);
    return made;
}

static uint8_t next_byte(void) {
    static uint32_t state = 1;
    state = state * 1664525 + 1013904223;
    return (uint8_t)(state >> 24);
}

static uint8_t *some_bytes(size_t len) {
    uint8_t *made = bytes(len);
    for (size_t i = 0; i < len; i++) made[i] = next_byte();
    return made;
}

/* Distinct and not 0: steps of 7 go through all 255. */
static uint8_t nth_id(size_t first, size_t i) { return (uint8_t)((first - 1 + 7 * i) % 255 + 1); }

static uint8_t *some_ids(size_t count) {
    uint8_t *ids = bytes(count);
    size_t first = next_byte() + 1u;
    for (size_t i = 0; i < count; i++) ids[i] = nth_id(first, i);
    return ids;
}

static uint8_t *some_rows(size_t first_id, size_t count, size_t row_len) {
    uint8_t *rows = some_bytes(count * row_len);
    for (size_t i = 0; i < count; i++) rows[i * row_len] = nth_id(first_id, i);
    return rows;
}

static uint8_t *equal_lengths(size_t count, size_t row_len) {
    uint8_t *lengths = bytes(4 * count);
    for (size_t i = 0; i < 4 * count; i++) lengths[i] = (uint8_t)(row_len >> 8 * (i % 4));
    return lengths;
}

/* Marks */

static void hide(uint8_t *from, size_t len) { (void)VALGRIND_MAKE_MEM_UNDEFINED(from, len); }

static void reveal(uint8_t *from, size_t len) { (void)VALGRIND_MAKE_MEM_DEFINED(from, len); }

/* The marks of the bytes: a set bit is undefined. Asking reports nothing. */
static uint8_t *marks_of(const uint8_t *from, size_t len) {
    uint8_t *marks = bytes(len);
    require(VALGRIND_GET_VBITS(from, marks, len) == 1, "marks are read");
    return marks;
}

/* Whether each of the bytes has these marks. */
static int marked(const uint8_t *from, size_t len, uint8_t expected) {
    uint8_t *marks = marks_of(from, len);
    size_t i = 0;
    while (i < len && marks[i] == expected) i++;
    free(marks);
    return i == len;
}

/* Each bit of a value depends on secret bits, so each must be undefined. Were the marks lost on the
 * way, nothing would be checked. */
static int is_secret(const uint8_t *from, size_t len) { return marked(from, len, 0xff); }

static int is_public(const uint8_t *from, size_t len) { return marked(from, len, 0); }

/* The answer may depend on nothing secret: an undefined word is reported here. */
static uint64_t public_word(uint64_t word) {
    require(VALGRIND_CHECK_MEM_IS_DEFINED(&word, sizeof word) == 0, "the answer is public");
    return word;
}

/* Calls that are done */

static void hide_values(uint8_t *rows, size_t count, size_t row_len) {
    for (size_t i = 0; i < count; i++) hide(rows + i * row_len + 1, row_len - 1);
}

static void combine(uint8_t *rows, size_t count, const uint8_t *secret, size_t len) {
    size_t rows_len = count * (len + 1);
    uint8_t *lengths = equal_lengths(count, len + 1), *out = bytes(len);
    hide_values(rows, count, len + 1);
    uint64_t word =
        public_word(vsss_combine_bytes(rows, rows_len, lengths, 4 * count, out, len));
    require(word == len, "a combine is done");
    require(is_secret(out, len), "what is combined is secret");
    reveal(out, len);
    reveal(rows, rows_len);
    require(memcmp(out, secret, len) == 0, "the rows give the secret back");
    combines++;
    free(lengths);
    free(out);
}

static void require_row_marks(const uint8_t *rows, size_t count, size_t row_len) {
    for (size_t i = 0; i < count; i++) {
        const uint8_t *row = rows + i * row_len;
        require(is_public(row, 1), "the identifier of a row is public");
        require(is_secret(row + 1, row_len - 1), "the values are secret");
    }
}

/* Splits, and combines as few of the rows as may be, and all of them. */
static void split(size_t threshold, size_t limit, size_t len) {
    size_t coefficients_len = len * (threshold - 1), rows_len = limit * (len + 1);
    uint8_t *secret = some_bytes(len), *coefficients = some_bytes(coefficients_len);
    uint8_t *ids = some_ids(limit), *rows = bytes(rows_len);
    hide(secret, len);
    hide(coefficients, coefficients_len);
    uint64_t word = public_word(vsss_split_bytes(threshold, limit, secret, len, ids, limit,
                                                 coefficients, coefficients_len, rows, rows_len));
    require(word == rows_len, "a split is done");
    require_row_marks(rows, limit, len + 1);
    for (size_t i = 0; i < limit; i++)
        require(rows[i * (len + 1)] == ids[i], "a row starts with its identifier");
    splits++;
    reveal(secret, len);
    reveal(rows, rows_len);
    combine(rows, threshold, secret, len);
    if (limit > threshold) combine(rows, limit, secret, len);
    free(secret);
    free(coefficients);
    free(ids);
    free(rows);
}

/* Sheets */

/* The bits that differ among the digits 0 to 9 and a to f: all but the highest and the third. */
enum { DIGIT_BITS = 0x5f };

/* A sheet by a plain writer. Beside each character stand those of its bits that depend on a value:
 * DIGIT_BITS beside a digit of a value, else 0. */
struct plain {
    uint8_t *text, *depends;
    size_t len;
};

static void put(struct plain *to, int character, uint8_t depends) {
    to->text[to->len] = (uint8_t)character;
    to->depends[to->len] = depends;
    to->len++;
}

static void put_words(struct plain *to, const char *words) {
    for (; *words != 0; words++) put(to, *words, 0);
}

static void put_row(struct plain *to, const uint8_t *row, size_t row_len) {
    static const char digits[] = "0123456789abcdef";
    char start[32];
    snprintf(start, sizeof start, "row\t%u\t", (unsigned)row[0]);
    put_words(to, start);
    for (size_t i = 1; i < row_len; i++) {
        put(to, digits[row[i] >> 4], DIGIT_BITS);
        put(to, digits[row[i] & 15], DIGIT_BITS);
    }
    put_words(to, "\n");
}

static struct plain plain_sheet(size_t threshold, const uint8_t *rows, size_t count, size_t len) {
    size_t room = VSSS_SHEET_ROOM(count, len);
    struct plain made = {bytes(room), bytes(room), 0};
    char head[96];
    snprintf(head, sizeof head, "seal\t%zu\t%zu\t%zu\n", threshold, count, len);
    put_words(&made, head);
    for (size_t i = 0; i < count; i++) put_row(&made, rows + i * (len + 1), len + 1);
    return made;
}

/* What no value decides is public, what a value decides is secret. The bits of a digit that are
 * the same in all digits may be either. */
static void require_sheet_marks(const uint8_t *text, const struct plain *plain) {
    uint8_t *marks = marks_of(text, plain->len);
    for (size_t i = 0; i < plain->len; i++) {
        uint8_t depends = plain->depends[i];
        if (depends == 0) require(marks[i] == 0, "a sheet is public around its values");
        else require((marks[i] & depends) == depends, "the digits of the values are secret");
    }
    free(marks);
}

/* Every bit of the digits of the values, and nothing else. */
static void hide_digits(uint8_t *text, const struct plain *plain) {
    uint8_t *marks = bytes(plain->len);
    for (size_t i = 0; i < plain->len; i++) marks[i] = plain->depends[i] == 0 ? 0 : 0xff;
    require(VALGRIND_SET_VBITS(text, marks, plain->len) == 1, "marks are set");
    free(marks);
}

/* Calls the reader on a text of which it judges the digits of so many rows. Fewer reports say that
 * these are not marked. Those beyond are counted, since a planted leak is to be seen by them. */
static uint64_t read_text(const uint8_t *text, size_t text_len, uint8_t *head, size_t head_len,
                          uint8_t *out, size_t out_len, size_t judged) {
    unsigned before = VALGRIND_COUNT_ERRORS;
    uint64_t word = vsss_read_sheet(text, text_len, head, head_len, out, out_len);
    unsigned reports = VALGRIND_COUNT_ERRORS - before;
    require(reports >= judged, "each row that is judged has its report");
    judged_rows += judged;
    more_reports += reports - judged;
    return public_word(word);
}

static void require_number(const uint8_t *four, size_t number) {
    for (size_t i = 0; i < 4; i++)
        require(four[i] == (uint8_t)(number >> 8 * i), "the head has the numbers of the sheet");
}

/* Reads a sheet that was written of these rows. There is room for the rows and no byte more. */
static void read_back(uint8_t *text, const struct plain *plain, size_t threshold,
                      const uint8_t *rows, size_t count, size_t len) {
    size_t rows_len = count * (len + 1);
    uint8_t *head = bytes(VSSS_HEAD_ROOM), *out = bytes(rows_len);
    hide_digits(text, plain);
    uint64_t word = read_text(text, plain->len, head, VSSS_HEAD_ROOM, out, rows_len, count);
    require(word == rows_len, "a sheet is read");
    require(is_public(head, VSSS_HEAD_ROOM), "the head is public");
    require_number(head, threshold);
    require_number(head + 4, count);
    require_number(head + 8, len);
    require_row_marks(out, count, len + 1);
    reveal(out, rows_len);
    require(memcmp(out, rows, rows_len) == 0, "the sheet gives its rows back");
    reads++;
    free(head);
    free(out);
}

/* Writes a sheet of rows, with identifiers from the first on, and reads it. There is room for the
 * text and no byte more. */
static void sheet(size_t threshold, size_t first_id, size_t count, size_t len) {
    size_t rows_len = count * (len + 1);
    uint8_t *rows = some_rows(first_id, count, len + 1);
    uint8_t *lengths = equal_lengths(count, len + 1);
    struct plain plain = plain_sheet(threshold, rows, count, len);
    uint8_t *out = bytes(plain.len);
    hide_values(rows, count, len + 1);
    uint64_t word = public_word(
        vsss_write_sheet(threshold, rows, rows_len, lengths, 4 * count, out, plain.len));
    require(word == plain.len, "a sheet is done");
    require_sheet_marks(out, &plain);
    reveal(out, plain.len);
    reveal(rows, rows_len);
    require(memcmp(out, plain.text, plain.len) == 0, "a sheet is as the plain writer's");
    sheets++;
    read_back(out, &plain, threshold, rows, count, len);
    free(rows);
    free(lengths);
    free(plain.text);
    free(plain.depends);
    free(out);
}

/* Calls that are refused, for each reason */

struct split_call {
    unsigned number;
    size_t threshold, limit, len, coefficients_len, room;
    const uint8_t *ids;
    size_t ids_len;
};

/* Of combine, or of a sheet with a threshold. The first row's length may differ from that of the
 * others. */
struct rows_call {
    unsigned number;
    size_t count, first_len, row_len, stored, room;
    const uint8_t *ids;
};

struct sheet_call {
    size_t threshold;
    struct rows_call rows;
};

/* Of the reader: a character of the sheet of the three right rows is another, or the text is cut or
 * longer. The digits of so many rows are judged. */
struct read_call {
    unsigned number;
    size_t line, judged, at;
    char character;
    size_t text_len, head_room, room;
};

static const uint8_t right[] = {7, 1, 9}, zero[] = {7, 1, 0}, twice[] = {1, 7, 9, 7};

static const struct split_call refused_splits[] = {
    {VSSS_INVALID_SIZE_REQUEST, 2, 256, 20, 20, 63, right, 3},
    {VSSS_INVALID_SECRET, 2, 3, 0, 20, 63, right, 3},
    {VSSS_SHARING_LIMIT_LESS_THAN_THRESHOLD, 4, 3, 20, 60, 63, right, 3},
    {VSSS_SHARING_MIN_THRESHOLD, 1, 3, 20, 20, 63, right, 3},
    {VSSS_NOT_ENOUGH_SHARE_IDENTIFIERS, 2, 3, 20, 20, 63, right, 2},
    {VSSS_SHARING_INVALID_IDENTIFIER, 2, 3, 20, 20, 63, zero, 3},
    {VSSS_TOO_LONG, 2, 3, LONGEST + 1, 20, 63, right, 3},
    {VSSS_COEFFICIENT_COUNT, 2, 3, 20, 19, 63, right, 3},
    {VSSS_NO_ROOM, 2, 3, 20, 20, 62, right, 3},
};

static const struct rows_call refused_combines[] = {
    {VSSS_ROW_LENGTHS, 3, 21, 21, 62, 20, right},
    {VSSS_ROW_LENGTHS, 3, 21, 21, 64, 20, right},
    {VSSS_SHARING_MIN_THRESHOLD, 0, 21, 21, 0, 20, right},
    {VSSS_SHARING_MIN_THRESHOLD, 1, 21, 21, 21, 20, right},
    {VSSS_INVALID_SHARE, 3, 1, 21, 43, 20, right},
    {VSSS_INVALID_SHARE, 3, 20, 21, 62, 20, right},
    {VSSS_SHARING_INVALID_IDENTIFIER, 3, 21, 21, 63, 20, zero},
    {VSSS_SHARING_DUPLICATE_IDENTIFIER, 4, 21, 21, 84, 20, twice},
    {VSSS_TOO_LONG, 2, LONGEST + 2, LONGEST + 2, 2 * (LONGEST + 2), 20, right},
    {VSSS_NO_ROOM, 3, 21, 21, 63, 19, right},
};

/* The sheet of the three right rows has 153 bytes. */
static const struct sheet_call refused_sheets[] = {
    {2, {VSSS_ROW_LENGTHS, 3, 21, 21, 62, 153, right}},
    {2, {VSSS_ROW_LENGTHS, 3, 21, 21, 64, 153, right}},
    {2, {VSSS_SHARING_MIN_THRESHOLD, 0, 21, 21, 0, 153, right}},
    {2, {VSSS_INVALID_SHARE, 3, 1, 21, 43, 153, right}},
    {2, {VSSS_INVALID_SHARE, 3, 20, 21, 62, 153, right}},
    {2, {VSSS_SHARING_INVALID_IDENTIFIER, 3, 21, 21, 63, 153, zero}},
    {2, {VSSS_SHARING_DUPLICATE_IDENTIFIER, 4, 21, 21, 84, 200, twice}},
    {2, {VSSS_TOO_LONG, 1, LONGEST + 2, LONGEST + 2, LONGEST + 2, 153, right}},
    {1, {VSSS_SHARING_MIN_THRESHOLD, 3, 21, 21, 63, 153, right}},
    {256, {VSSS_INVALID_SIZE_REQUEST, 3, 21, 21, 63, 155, right}},
    {2, {VSSS_NO_ROOM, 3, 21, 21, 63, 152, right}},
};

/* The first line has 12 bytes, each other 47: 6, then 40 digits and the line feed. */
static const struct read_call refused_reads[] = {
    {VSSS_INVALID_SHEET, 0, 0, 0, 'S', 153, 12, 63},
    {VSSS_INVALID_SHEET, 0, 0, 0, 's', 5, 12, 63},
    {VSSS_INVALID_SHEET, 1, 0, 12, 'R', 153, 12, 63},
    {VSSS_INVALID_SHEET, 1, 0, 16, 'x', 153, 12, 63},
    {VSSS_INVALID_SHEET, 1, 1, 18, 'g', 153, 12, 63},
    {VSSS_INVALID_SHEET, 2, 2, 104, 'F', 153, 12, 63},
    {VSSS_INVALID_SHEET, 2, 2, 105, ' ', 153, 12, 63},
    {VSSS_INVALID_SHEET, 3, 3, 110, '7', 153, 12, 63},
    {VSSS_INVALID_SHEET, 3, 2, 0, 's', 151, 12, 63},
    {VSSS_INVALID_SHEET, 3, 3, 0, 's', 152, 12, 63},
    {VSSS_INVALID_SHEET, 4, 3, 153, '0', 154, 12, 63},
    {VSSS_NO_ROOM, 0, 3, 0, 's', 153, 11, 63},
    {VSSS_NO_ROOM, 0, 3, 0, 's', 153, 12, 62},
};

static void require_untouched(const uint8_t *out, size_t room) {
    for (size_t i = 0; i < room; i++) require(out[i] == UNTOUCHED, "a refusal writes nothing");
}

static void require_refused(uint64_t word, unsigned number, const uint8_t *out, size_t room) {
    require(VSSS_NUMBER(public_word(word)) == number, "a call is refused for its reason");
    require_untouched(out, room);
    refusals++;
}

static void refuse_split(const struct split_call *c) {
    uint8_t *secret = some_bytes(c->len), *coefficients = some_bytes(c->coefficients_len);
    uint8_t *out = bytes(c->room);
    hide(secret, c->len);
    hide(coefficients, c->coefficients_len);
    uint64_t word = vsss_split_bytes(c->threshold, c->limit, secret, c->len, c->ids, c->ids_len,
                                     coefficients, c->coefficients_len, out, c->room);
    require_refused(word, c->number, out, c->room);
    free(secret);
    free(coefficients);
    free(out);
}

/* All is hidden but the identifiers, which are written after. */
static uint8_t *hidden_rows(const struct rows_call *c) {
    uint8_t *rows = some_bytes(c->stored);
    hide(rows, c->stored);
    for (size_t i = 0; i < c->count; i++) {
        size_t at = i == 0 ? 0 : c->first_len + (i - 1) * c->row_len;
        rows[at] = c->ids[i];
    }
    return rows;
}

static uint8_t *row_lengths(const struct rows_call *c) {
    uint8_t *lengths = equal_lengths(c->count, c->row_len);
    if (c->first_len != c->row_len) lengths[0] = (uint8_t)c->first_len;
    return lengths;
}

static void refuse_combine(const struct rows_call *c) {
    uint8_t *rows = hidden_rows(c), *lengths = row_lengths(c), *out = bytes(c->room);
    uint64_t word = vsss_combine_bytes(rows, c->stored, lengths, 4 * c->count, out, c->room);
    require_refused(word, c->number, out, c->room);
    free(rows);
    free(lengths);
    free(out);
}

static void refuse_sheet(size_t threshold, const struct rows_call *c) {
    uint8_t *rows = hidden_rows(c), *lengths = row_lengths(c), *out = bytes(c->room);
    uint64_t word =
        vsss_write_sheet(threshold, rows, c->stored, lengths, 4 * c->count, out, c->room);
    require_refused(word, c->number, out, c->room);
    free(rows);
    free(lengths);
    free(out);
}

static void refuse_read(const struct read_call *c) {
    uint8_t *rows = some_bytes(63), *text = bytes(c->text_len);
    uint8_t *head = bytes(c->head_room), *out = bytes(c->room);
    for (size_t i = 0; i < 3; i++) rows[21 * i] = right[i];
    struct plain plain = plain_sheet(2, rows, 3, 20);
    put_words(&plain, "\n");
    plain.text[c->at] = (uint8_t)c->character;
    plain.len = c->text_len;
    memcpy(text, plain.text, plain.len);
    hide_digits(text, &plain);
    uint64_t word = read_text(text, plain.len, head, c->head_room, out, c->room, c->judged);
    require_refused(word, c->number, out, c->room);
    require_untouched(head, c->head_room);
    require(VSSS_FIRST_PLACE(word) == c->line, "a text is refused at its line");
    free(rows);
    free(text);
    free(head);
    free(out);
    free(plain.text);
    free(plain.depends);
}

/* Shapes */

static void refused_shapes(void) {
    for (size_t i = 0; i < COUNT(refused_splits); i++) refuse_split(refused_splits + i);
    for (size_t i = 0; i < COUNT(refused_combines); i++) refuse_combine(refused_combines + i);
    for (size_t i = 0; i < COUNT(refused_sheets); i++)
        refuse_sheet(refused_sheets[i].threshold, &refused_sheets[i].rows);
    for (size_t i = 0; i < COUNT(refused_reads); i++) refuse_read(refused_reads + i);
}

static void small_shapes(void) {
    static const size_t lens[] = {1, 2, 7, 8, 9, 15, 16, 17, 31, 32, 33, 63, 64, 65, 100};
    for (size_t i = 0; i < COUNT(lens); i++) split(2, 3, lens[i]);
    split(2, 2, 1);
    split(3, 5, 33);
    split(16, 32, 32);
    split(2, 255, 3);
}

static void large_shapes(void) {
    static const size_t lens[] = {1, 15, 16, 17, 31, 32, 33, 100};
    for (size_t len = 1; len <= 400; len++) split(3, 4, len);
    for (size_t limit = 2; limit <= 255; limit++) split(limit, limit, 17);
    for (size_t i = 0; i < COUNT(lens); i++) split(16, 255, lens[i]);
    split(128, 255, 32);
    split(255, 255, 3);
    split(2, 3, LONGEST - 1);
    split(2, 3, LONGEST);
    split(2, 255, LONG);
    split(16, 32, LONG);
    split(255, 255, LONG);
}

static void small_sheets(void) {
    static const size_t lens[] = {1, 2, 15, 16, 17, 31, 32, 33, 100};
    static const size_t ids[] = {1, 9, 10, 99, 100, 255};
    for (size_t i = 0; i < COUNT(lens); i++) sheet(2, 5, 2, lens[i]);
    for (size_t i = 0; i < COUNT(ids); i++) sheet(255, ids[i], 1, 33);
    sheet(2, 1, 16, 32);
    sheet(255, 1, 255, 3);
}

/* From identifier 1 on, so that 16 rows have identifiers with one, two and three digits. */
static void large_sheets(void) {
    static const size_t thresholds[] = {2, 255}, counts[] = {1, 2, 16, 255};
    static const size_t lens[] = {1, 2, 15, 16, 17, 31, 32, 33, 100, LONG};
    for (size_t t = 0; t < COUNT(thresholds); t++)
        for (size_t c = 0; c < COUNT(counts); c++)
            for (size_t l = 0; l < COUNT(lens); l++) sheet(thresholds[t], 1, counts[c], lens[l]);
    for (size_t len = 1; len <= 400; len++) sheet(3, 1, 4, len);
    for (size_t count = 1; count <= 255; count++) sheet(count < 2 ? 2 : count, 1, count, 17);
    for (size_t id = 1; id <= 255; id++) sheet(2, id, 1, 33);
    sheet(2, 1, 3, LONGEST - 1);
    sheet(2, 1, 3, LONGEST);
}

int main(int argc, char **argv) {
    int full = argc == 2 && strcmp(argv[1], "full") == 0;
    int small = argc == 2 && strcmp(argv[1], "small") == 0;
    if (!(full || small) || !RUNNING_ON_VALGRIND) {
        fputs("usage: valgrind harness small|full\n", stderr);
        return 2;
    }
    refused_shapes();
    small_shapes();
    small_sheets();
    if (full) {
        large_shapes();
        large_sheets();
    }
    tell_counts();
    printf(", answers right; %u rows judged, %u reports beyond one a row\n", judged_rows,
           more_reports);
    return 0;
}
