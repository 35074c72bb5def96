/* Secret sharing of bytes: the entries of the proved library libvsss.a.
 *
 * A secret of 1 to VSSS_MAX_SECRET bytes is split into rows. A row is one identifier byte, 1 to
 * 255, then one value for each secret byte. Any `threshold` rows with distinct identifiers give the
 * secret back; fewer say nothing of it. Split takes an identifier twice: it then makes one row twice,
 * which counts once, and combine refuses the two together. What is refused, and in which order, is in
 * docs/RULES.md.
 *
 * Every entry judges its whole input and always returns. What a caller owes:
 *   - each pointer is to as many bytes as the length behind it says; it is not NULL, also where
 *     the length is 0;
 *   - what is written, `out` and `head`, overlaps no other buffer.
 *
 * Build with: cc -I host/include caller.c target/host/libvsss.a
 */
#ifndef VSSS_H
#define VSSS_H

#include <stddef.h>
#include <stdint.h>

#ifdef __cplusplus
extern "C" {
#endif

/* The longest secret: a longer one is refused. Digits alone, since VSSS_SHEET_ROOM spells it. */
#define VSSS_MAX_SECRET 65536

/* Splits `secret` into `limit` rows, one after another from the start of `out`.
 *
 *   ids            at least `limit` identifiers; only the first `limit` are read
 *   coefficients   exactly secret_len * (threshold - 1) fresh random bytes, for this split only;
 *                  byte i of the secret uses those from place i * (threshold - 1) on, lowest
 *                  degree first
 *   out            at least limit * (secret_len + 1) bytes
 *
 * Done: the count of bytes written, limit * (secret_len + 1). Bytes behind them keep their values.
 * Refused: a word of VSSS_NUMBER 1 or more. Nothing is written then. */
uint64_t vsss_split_bytes(size_t threshold, size_t limit,
                          const uint8_t *secret, size_t secret_len,
                          const uint8_t *ids, size_t ids_len,
                          const uint8_t *coefficients, size_t coefficients_len,
                          uint8_t *out, size_t out_len);

/* Combines rows that lie one after another, and writes the secret from the start of `out`.
 *
 *   lengths   the length of each row, four bytes a row, least first; 65,535 rows at most
 *   out       at least as many bytes as a row has, less 1
 *
 * Every row is used. THE THRESHOLD IS NOT KNOWN HERE: too few rows of a split are accepted, and
 * the secret that comes out is wrong.
 *
 * Done: the count of bytes written. Refused: as above. */
uint64_t vsss_combine_bytes(const uint8_t *rows, size_t rows_len,
                            const uint8_t *lengths, size_t lengths_len,
                            uint8_t *out, size_t out_len);

/* Writes rows, which lie one after another, as a sheet: text from the start of `out`. A tab stands
 * between two fields, and a line feed behind every line. The first line is `seal`, the threshold, the
 * count of rows and that of a row's values, in decimal. Then a line for each row: `row`, the
 * identifier in decimal, and in one run two hex digits for each value, 0 to 9 and a to f.
 *
 *   threshold   that of the split, 2 to 255; the rows may be fewer, and one is enough
 *   lengths     as for combine
 *   out         at least as many bytes as the text; VSSS_SHEET_ROOM of them are always enough
 *
 * A SHEET IS AS SECRET AS ITS ROWS: with `threshold` rows or more it gives the secret away.
 *
 * Done: the count of bytes written. No zero byte ends the text. Refused: as above. */
uint64_t vsss_write_sheet(size_t threshold,
                          const uint8_t *rows, size_t rows_len,
                          const uint8_t *lengths, size_t lengths_len,
                          uint8_t *out, size_t out_len);

/* Bytes that every sheet of so many rows with so many values each fits into: those of a first line
 * with the largest numbers, and of lines with the largest identifier. */
#define VSSS_SHEET_ROOM(count, values)                                  \
    (sizeof "seal\t255\t255\t" VSSS_SPELLED(VSSS_MAX_SECRET) "\n" - 1   \
     + (size_t)(count) * (sizeof "row\t255\t\n" - 1 + 2 * (size_t)(values)))
#define VSSS_SPELLED(number) VSSS_SPELLED_AS_IS(number)
#define VSSS_SPELLED_AS_IS(number) #number

/* Reads a sheet: writes its rows one after another from the start of `out`, each its identifier and
 * then its values, and what its first line says from the start of `head`.
 *
 *   text   a sheet as vsss_write_sheet writes it, whole and with nothing behind it; no other text is
 *          accepted
 *   head   at least VSSS_HEAD_ROOM bytes: the threshold, the count of rows and that of a row's
 *          values, four bytes each, least first
 *   out    at least count * (values + 1) bytes; VSSS_ROWS_ROOM of them are always enough
 *
 * One jump a row tells whether all its digits are hex. No other jump, and no address, depends on a
 * value.
 *
 * Done: the count of bytes written to `out`. Bytes behind those written keep their values, in both.
 * Refused: as above. For VSSS_INVALID_SHEET the first place is a line, counted from 0: the first with
 * which the text can no longer be continued to a sheet; where every complete line can, the one behind
 * them. */
uint64_t vsss_read_sheet(const uint8_t *text, size_t text_len,
                         uint8_t *head, size_t head_len,
                         uint8_t *out, size_t out_len);

/* The three numbers of a sheet's first line. */
#define VSSS_HEAD_ROOM 12

/* Bytes that the rows of every sheet of so many bytes fit into: the line of a row has two characters
 * for each of its bytes, and more. */
#define VSSS_ROWS_ROOM(text_len) ((size_t)(text_len) / 2)

/* What a word says: VSSS_NUMBER is 0 where it is a count, else the number of the refusal. The
 * places count from 0, and are 0 where a refusal has none. */
#define VSSS_NUMBER(word) ((unsigned)((uint64_t)(word) >> 40))
#define VSSS_FIRST_PLACE(word) ((size_t)((uint64_t)(word) >> 16 & 0xffffff))
#define VSSS_SECOND_PLACE(word) ((size_t)((uint64_t)(word) & 0xffff))

enum vsss_refusal {
    VSSS_INVALID_SIZE_REQUEST = 1,               /* limit over 255; a sheet's threshold too */
    VSSS_INVALID_SECRET = 2,                     /* the secret is empty */
    VSSS_SHARING_LIMIT_LESS_THAN_THRESHOLD = 3,
    VSSS_SHARING_MIN_THRESHOLD = 4,              /* threshold under 2; too few rows */
    VSSS_NOT_ENOUGH_SHARE_IDENTIFIERS = 5,
    VSSS_SHARING_INVALID_IDENTIFIER = 6,         /* 0, at the first place */
    VSSS_SHARING_DUPLICATE_IDENTIFIER = 7,       /* at both places; never given by split */
    VSSS_INVALID_SHARE = 8,                      /* first row under 2 bytes, or unequal lengths */
    VSSS_INVALID_SHARE_ELEMENT = 9,              /* never given by these entries */
    VSSS_TOO_LONG = 10,                          /* a secret over VSSS_MAX_SECRET, or rows of it */
    VSSS_COEFFICIENT_COUNT = 11,
    VSSS_NO_ROOM = 12,                           /* out or head is too short */
    VSSS_ROW_LENGTHS = 13,                       /* not whole fours, over 65,535, or not
                                                    summing to rows_len */
    VSSS_INVALID_SHEET = 14                      /* no sheet, from the line at the first place on */
};

#ifdef __cplusplus
}
#endif

#endif
