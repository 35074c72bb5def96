#!/usr/bin/env python3
"""Brings the names of definitions and lemmas to one spelling: words in snake case, a dash only between two names.

usage: tools/spelling.py [FOLDER]      the repository, this folder where none is named

Run once, behind port.py, on what it made. It turns crates (specs, proofs, clauses of src, must-fail edits) and, between
backquotes, the documents. Functions of src, exported names, strings, inputs and outputs are not in its list.
"""

import os
import re
import sys


def table(text):
    """One name a line, and what it becomes."""
    return dict(line.split() for line in text.split("\n") if line)


NAMES = table("""
accepted-few accepted_few
accepts-sheets accepts_sheets
add-self-left add_self_left
after-lengths after_lengths
afterIds after_ids
afterLine after_line
afterRow after_row
afterSeal after_seal
all-at all_at
all-equal all_equal
all-met all_met
all-parts all_parts
all-taken all_taken
all-unmap all_unmap
all-well all_well
allAre all_are
answer-is answer_is
answerTo answer_to
anyChange any_change
are-drop are_drop
are-rows are_rows
as-signed as_signed
asWritten as_written
back-answer back_answer
back-element back_element
back-identifier back_identifier
back-reason back_reason
begins-continued begins_continued
begins-with begins_with
behind-id behind_id
behind-line behind_line
behind-rows behind_rows
behind-threshold behind_threshold
below-< below_<
below-fresh below_fresh
below-laid below_laid
below-length-bytes below_length_bytes
below-without below_without
below-≡ below_≡
between-true between_true
binary-laws binary_laws
binary-ring binary_ring
binaryField binary_field
bit-clmul bit_clmul
bit-fits bit_fits
bit-times bit_times
block-fills block_fills
block-sized block_sized
blockSize block_size
boundedAdd bounded_add
by-byte-lengths by_byte_lengths
by-reading by_reading
by-test by_test
byte-lengths-chain byte_lengths_chain
byteLengthsAnswer byte_lengths_answer
byteLengthsBytes byte_lengths_bytes
cannot-read cannot_read
case-g case_g
clmul-assoc clmul_assoc
clmul-bit clmul_bit
clmul-comm clmul_comm
clmul-step clmul_step
coefficient-bytes coefficient_bytes
coefficientCount coefficient_count
coefficients-are coefficients_are
combine-word combine_word
combineAnswer combine_answer
combineBytes combine_bytes
combineOutcome combine_outcome
combined-at combined_at
combined-is combined_is
combines-bytes combines_bytes
copies-secret copies_secret
count-is count_is
cut-writable cut_writable
decimal-last decimal_last
decimal-more decimal_more
decimal-plain decimal_plain
decimalIn decimal_in
denominators-next denominators_next
denominators-none denominators_none
digit-there digit_there
distinct-repeats distinct_repeats
distinct-then distinct_then
each-suc each_suc
element-comes element_comes
element-means element_means
end-there end_there
eq-of-add eq_of_add
equal-lengths equal_lengths
every-text every_text
factor-in factor_in
feed-there feed_there
few-ids few_ids
fewer-lines fewer_lines
field-first field_first
field-inside field_inside
field-there field_there
fill-all fill_all
fill-next fill_next
fill-part fill_part
fipsInverses fips_inverses
first-again first_again
first-is first_is
first-repeat first_repeat
first-there first_there
firstLength first_length
firstRepeated first_repeated
firstRepeating first_repeating
firstTwoOfI first_two_of_i
firstZero first_zero
fits-bounded fits_bounded
fits-chain fits_chain
fits-in-turn fits_in_turn
fits-later fits_later
fixed-key fixed_key
found-is found_is
four-of four_of
fourAt four_at
fourBytes four_bytes
four_bytes four_bytes_lem
fours-at fours_at
fours-of fours_of
fresh-before fresh_before
fresh-last fresh_last
fresh-nothing fresh_nothing
fresh-number fresh_number
fresh-of fresh_of
fresh-or-fewer fresh_or_fewer
fresh-others fresh_others
fromPlace from_place
front-back front_back
get_d_map get_or-map
get_d_zip get_or-zip
gf256AnswerOf gf256_answer_of
head-leaves head_leaves
head-line head_line_lem
head-or-not head_or_not
head-passes head_passes
head-pieces head_pieces
head-put head_put
head-true head_true
headJudged head_judged
headLine head_line
headStart head_start
headTest head_test
hex-digit hex_digit_lem
hex-digit-is hex_digit_is
hex-more hex_more
hex-of hex_of
hex-plain hex_plain
hex-step hex_step
hex-there hex_there
hex-true hex_true
hex-value-is hex_value_is
hexDigit hex_digit
horner-next horner_next
horner-pad horner_pad
horner-with horner_with
hornerIsValue horner_is_value
hornerStep horner_step
id-byte id_byte
id-bytes id_bytes
id-first id_first
id-is id_is
id-small id_small
identifier-comes identifier_comes
identifier-means identifier_means
identifierAnswerOf identifier_answer_of
ids-are ids_are
idsAt ids_at
in-range in_range
inv-difference inv_difference
inverse-of-zero inverse_of_zero
inverse-only inverse_only
inverse-power inverse_power
inverseOutcome inverse_outcome
is-it is_it
is-line is_line
is-sheet is_sheet
isHex is_hex
isNotZero is_not_zero
isNotZeroBytes is_not_zero_bytes
isNotZeroℤ int_is_not_zero
isZeroBytes is_zero_bytes
isZeroℤ int_is_zero
its-decimal its_decimal
join-bytes join_bytes
join-end join_end
join-next join_next
join-sign join_sign
judged-rows judged_rows_lem
judgedByteLengths judged_byte_lengths
judgedIdentifiers judged_identifiers
judgedRows judged_rows
judgedThreshold judged_threshold
lagrangeIsInterpolation lagrange_is_interpolation
laid-pass laid_pass
last-put last_put
left-all left_all
left-next left_next
leftIn left_in
length-bytes length_bytes
length-decimal-more length-decimal_more
length-is length_is
length-length-bytes length-length_bytes
length-plus length_plus
length-row-line length-row_line
length-with length_with
lengthBytes length_bytes
lengths-are lengths_are
lengths-of lengths_of_lem
lengthsG lengths_g
lengthsOf lengths_of
less-or-more less_or_more
limit-least limit_least
line-and-rest line_and_rest
line-behind line_behind
line-counted line_counted
line-goes-on line_goes_on
line-is line_is
line-most line_most
lineFeed line_feed
lineFeeds line_feeds
linear-cons linear_cons
linear-nil linear_nil
lines-behind lines_behind
lines-grow lines_grow
linesTo lines_to
lowest-bits lowest_bits
lowest-fits lowest_fits
maxRows max_rows
maxSecret max_secret
maxShares max_shares
meaning-tells meaning_tells
met-again met_again
met-first met_first
modular-laws modular_laws
more-follows more_follows
mul-ne-zero mul_ne-zero
mulMod mul_mod
mulMod-last mul_mod_last
narrow-fits narrow_fits
narrow-reads narrow_reads
new-or-not new_or_not
next-inside next_inside
no-feed no_feed
no-further no_further
no-id no_id
no-leading-zero no_leading_zero
no-repeat no_repeat
no-sheet no_sheet
none-repeats none_repeats
none-taken none_taken
nonzeroMask nonzero_mask
not-before not_before
not-both not_both
not-fours not_fours
not-zero not_zero
not-zero-answer not_zero_answer
not-zero-byte not_zero_byte
not-zero-held not_zero_held
notAt not_at
nothing-combined nothing_combined
number-there number_there
of-equal of_equal
of-sheet of_sheet
on-the-table on_the_table
one-letter one_letter
one-or-more one_or_more
only-identifiers only_identifiers
others-more others_more
others-step others_step
outside-both outside_both
own-ne own_ne
pair-5775 pair_5775
part-told part_told
partial-last partial_last
partial-step partial_step
partial-top partial_top
passed-ids passed_ids
place-drop place_drop
place-fresh place_fresh
place-holds place_holds
place-most place_most
places-are places_are
plain-element plain_element
plain-identifier plain_identifier
plain-no-feed plain_no_feed
plus-one-fits plus_one_fits
plusRows plus_rows
plusTimes plus_times
points-zip points_zip
polynomial-pad polynomial_pad
power-of-one power_of_one
product-laws product_laws
puts-all puts_all
puts-byte puts_byte
puts-bytes puts_bytes
puts-four puts_four
puts-more puts_more
puts-nothing puts_nothing
puts-part puts_part
puts-two puts_two
q-lt q_lt
quotientOutcome quotient_outcome
read-g read_g
read-mask read_mask
read-then-written read_then_written
readAnswer read_answer
readRows read_rows
reads-sheet reads_sheet
ready-distinct ready_distinct
ready-few ready_few
ready-nonzero ready_nonzero
reasonOf reason_of
reduced-fits reduced_fits
refuse-bounded refuse_bounded
refused-keeps refused_keeps
refuses-all refuses_all
rem-at rem_at
rem-clmul-step rem-clmul_step
rem-self rem_self
rem-step rem_step
remainder-laws remainder_laws
repeat-found repeat_found
repeated-distinct repeated_distinct
repeated-within repeated_within
repeating-within repeating_within
repeatingBehind repeating_behind
rightHead right_head
rightRow right_row
room-and-done room_and_done
row-fills row_fills
row-line row_line_lem
row-line-same row_line-same
row-lines-append row_lines-append
row-lines-same row_lines-same
row-of-split row_of_split
row-or-not row_or_not
row-passes row_passes
row-pieces row_pieces
row-taken row_taken
row-true row_true
rowHiding row_hiding
rowJudged row_judged
rowRecovery row_recovery
rowStart row_start
rowTest row_test
rowWord row_word
rows-chain rows_chain
rows-most rows_most
rows-shorter rows_shorter
rows-writable rows_writable
rowsG rows_g
rowsH rows_h
rowsI rows_i
same-letter same_letter
same-mark same_mark
seal-plain seal_plain
sealWord seal_word
second-there second_there
secret-bytes secret_bytes
secret-is secret_is
secret-most secret_most
secret-some secret_some
secretLength secret_length
sheet-is sheet_is
sheet-length-is sheet_length_is
sheet-of sheet_of_lem
sheet-word sheet_word
sheetAnswer sheet_answer
sheetBytes sheet_bytes
sheetG sheet_g
sheetOf sheet_of
sheetText sheet_text
short-head short_head
short-room short_room
shown-is shown_is
shows-lines shows_lines
shows-number shows_number
signed-zero signed_zero
sliceOutcome slice_outcome
some-rows some_rows
some-values some_values
split-word split_word
splitBytes split_bytes
splitOutcome split_outcome
splitRoom split_room
splits-done splits_done
splits-refused splits_refused
start-put start_put
step-each step_each
storage-bytes storage_bytes
strided-at strided_at
sum-at sum_at
sumFrom sum_from
sums-fit sums_fit
tab-there tab_there
table-holds table_holds
text-is text_is
third-there third_there
threshold-is threshold_is
threshold-least threshold_least
threshold-most threshold_most
times-xor times_xor
told-apart told_apart
too-high too_high
too-low too_low
total-two total_two
true-between true_between
true-head true_head
true-row true_row
turn-missing turn_missing
turn-next turn_next
unhex-digit unhex_digit_lem
unhex-more unhex_more
unhex-step unhex_step
unhexDigit unhex_digit
uniformNonzero uniform_nonzero
unrows-finds unrows_finds
unrows-stops unrows_stops
used-length used_length
value-at value_at
value-pad value_pad
value-with value_with
valueFrom value_from
values-are values_are
values-most values_most
values-there values_there
weight-more weight_more
weight-two weight_two
weighted-more weighted_more
with-down with_down
with-ids with_ids
with-lt with_lt
with-up with_up
withValue with_value
without-ids without_ids
word-inside word_inside
wrapped-more wrapped_more
wrapped-zero wrapped_zero
wrappedNeg wrapped_neg
wrappedNegℤ int_wrapped_neg
written-then-read written_then_read
wrong-there wrong_there
xor-half xor_half
xor-left-comm xor_left_comm
xor-odd xor_odd
xor-self-left xor_self_left
y-lt y_lt
zero-byte zero_byte
zero-has-none zero_has_none
zeros-lt zeros_lt
zip-self zip_self
""")
# What port.py turned in the crates alone: the edits and the documents follow.
TURNED = table("""
add-assoc add_assoc
add-comm add_comm
add-left-comm add_left_comm
all-append all_append
all-both all_both
all-but all_but
all-drop all_drop
all-in all_in
all-map all_map
all-others all_others
all-right all_right
all-same all_same
all-take all_take
all-without all_without
allBelow all_below
answerOf answer_of
are-all are_all
as-many as_many
at-most at_most
atExit at_exit
below-true below_true
bin-ind bin_ind
bit-byte bit_byte
by-bit by_bit
by-digits by_digits
by-lengths by_lengths
digits-decimal digits_decimal
distinct-of distinct_of
distinct-without distinct_without
done-all done_all
each-all each_all
each-at each_at
each-next each_next
each-of each_of
each-same each_same
either-way either_way
ends-at ends_at
ends-by ends_by
field-next field_next
field-of field_of
field-told field_told
fieldAt field_at
fill-one fill_one
firstLines first_lines
firstOf first_of
fits-read fits_read
fold-step fold_step
found-rows found_rows
four-bytes four_bytes_lem
from-either from_either
getD-map get_or-map
getD-zip get_or-zip
goes-on goes_on
head-read head_read
headOf head_of
inTurn in_turn
isZero is_zero
laid-more laid_more
left-less left_less
length-cut length_cut
length-part length_part
length-run length_run
length-without length_without
lent-row lent_row
lines-more lines_more
low-bits low_bits
map-same map_same
mask-fits mask_fits
minus-one minus_one
mul-assoc mul_assoc
mul-comm mul_comm
mul-left-comm mul_left_comm
next-row next_row
no-end no_end
no-more no_more
no-place no_place
no-room no_room
no-row no_row
no-rows no_rows
no-word no_word
no-zero no_zero
not-after not_after
not-found not_found
not-within not_within
nothing-read nothing_read
nothing-written nothing_written
number-read number_read
numberIn number_in
numberOf number_of
one-byte one_byte
one-more one_more
others-same others_same
place-is place_is
placeOf place_of
plus-one plus_one
puts-then puts_then
read-word read_word
readHead read_head
reads-on reads_on
rem-lt rem_lt
room-small room_small
row-at row_at
row-ends row_ends
row-fits row_fits
row-in row_in
row-inside row_inside
row-is row_is
row-more row_more
row-next row_next
row-plain row_plain
row-put row_put
row-read row_read
row-told row_told
row-zero row_zero
rowAt row_at
rowLine row_line
rowLines row_lines
rowOf row_of
rows-all rows_all
rows-append rows_append
rows-are rows_are
rows-fill rows_fill
rows-long rows_long
rows-same rows_same
rows-step rows_step
rows-then rows_then
rows-told rows_told
rowsOf rows_of
same-or-not same_or_not
same-self same_self
same-true same_true
secondOf second_of
seen-more seen_more
seen-none seen_none
shut-out shut_out
sign-set sign_set
small-put small_put
sum-drop sum_drop
sum-laid sum_laid
told-more told_more
told-none told_none
too-few too_few
too-long too_long
too-many too_many
too-short too_short
true-below true_below
turn-end turn_end
two-pos two_pos
values-length values_length
wide-fits wide_fits
word-stands word_stands
wordOf word_of
writes-found writes_found
xor-assoc xor_assoc
zero-bit zero_bit
zero-held zero_held
""")
TOKEN = re.compile(r"[\w'-]+")
QUOTED = re.compile(r"`[^`\n]*`")


def turn(text, names=NAMES):
    return TOKEN.sub(lambda m: names.get(m.group(), m.group()), text)


def turn_quoted(text, names=NAMES):
    return QUOTED.sub(lambda m: turn(m.group(), names), text)


def turn_code(text, comment):
    """The code of each line whole; of a comment what stands between backquotes."""
    lines = []
    for line in text.split("\n"):
        at = line.find(comment)
        code, rest = (line, "") if at < 0 else (line[:at], line[at:])
        lines.append(turn(code) + turn_quoted(rest))
    return "\n".join(lines)


def turned(path, text):
    if path.endswith(".antt"):
        return turn_code(text, "--")
    if path.endswith(".rt"):
        return turn_code(text, "//")
    if path.endswith(".edit"):
        return turn(text, TURNED | NAMES)
    return turn_quoted(text, TURNED | NAMES)


def files(root):
    for folder, folders, names in os.walk(os.path.join(root, "crates")):
        folders[:] = [f for f in folders if f != "out"]
        for name in names:
            if name.endswith((".antt", ".rt", ".edit")):
                yield os.path.join(folder, name)
    for page in ["README.md", "host/README.md"]:
        yield os.path.join(root, page)
    for name in os.listdir(os.path.join(root, "docs")):
        if name.endswith(".md") and name != "PORT.md":
            yield os.path.join(root, "docs", name)


def main():
    root = sys.argv[1] if len(sys.argv) > 1 else os.path.join(os.path.dirname(os.path.realpath(__file__)), "..")
    for path in files(root):
        with open(path, encoding="utf-8") as f:
            text = f.read()
        now = turned(path, text)
        if now != text:
            with open(path, "w", encoding="utf-8") as f:
                f.write(now)


main()
