#!/usr/bin/env python3
"""Spells the repository's own definitions, fields and lemmas as today's Rattle does.

usage: tools/respell.py        at the top of the repository, once, right after the port script of the toolchain

A word is in snake case; a dash stays only where it joins the names of two definitions, as in `find-put`.
The table is whole: a name that is not in it keeps its spelling. Code, strings and the names of goals are left alone:
no name of the table occurs in the code of src/, and goals have names of their own.
"""

import os
import re

TABLE = """
a-number a_number
adopted-live adopted_live
adopted-none adopted_none
adopted-unused adopted_unused
afterWord after_word
ahead-left ahead_left
ahead-right ahead_right
all-at all_at
all-common all_common
all-kept all_kept
all-or-some all_or_some
all-put all_put
all-unused all_unused
allAllowed all_allowed
among-left among_left
among-levels among_levels
among-right among_right
among-root among_root
and-or and_or
and-or-digits and_or_digits
at-is at_is
at-middle at_middle
at-past at_past
at-two at_two
avail-count avail_cells
avail-count-kept avail_count_kept
availCount avail_count
blend-key blend_key
blended-key blended_key
both-kept both_kept
bothOf both_of
buildReserve build_reserve
by-any-test by_any_test
by-link by_link
carriedBy carried_by
combine-fits combine_fits
count-is count_is
count-told count_told
countIn count_in
crossedAsk crossed_ask
crossedBy crossed_by
cut-free cut_free
cut-last cut_last
decimal-signs decimal_signs
decimal-there decimal_there
declined-by declined_by
digit-more digit_more
each-digit each_digit
editReserve edit_reserve
empty-as empty_as
extra-by extra_by
faultText fault_text
few-levels few_levels
fewer-yet fewer_yet
fewest-23 fewest_23
fewest-fork fewest_fork
fewest-four fewest_four
fewest-half-more fewest_half_more
fewest-mono fewest_mono
fewest-more fewest_more
fewest-twice fewest_twice
fewest-up fewest_up
fieldText field_text
find-above find_above
first-high first_high
first-is first_is
first-line first_line
first-not first_not
first-not-above first_not_above
firstMissing first_missing
firstReason first_reason
firstWrong first_wrong
found-there found_there
four-read four_read
four-refused four_refused
from-outside from_outside
front-all front_all
front-on front_on
front-stops front_stops
frontOf front_of
giveBack give_back
going-ends going_ends
going-falls going_falls
going-left going_left
going-right going_right
going-sides going_sides
held-live held_live
heldBelow held_below
ifSo if_so
in-22 in_22
in-first in_first
inlinks-least inlinks_least
inlinks-same inlinks_same
is-label is_label_lem
isAvailable is_available
isLabel is_label
isLive is_live
isNoRoom is_no_room
isRefusal is_refusal
keep-more keep_more
keeps-rising keeps_rising
kept-all kept_all
kept-none kept_none
kept-sym kept_sym
key-by-key key_by_key
label-read label_read
label-signs label_signs
label-there label_there
label-utf8 label_utf8
labelIn label_in
labelRefusal label_refusal
labelText label_text
last-high last_high
later-nonEmpty later-non_empty
left-falls left_falls
left-length left_length
left-levels left_levels
left-low left_low
left-lower left_lower
left-of-zeros left_of_zeros
left-stands left_stands
left-tree left_tree
leftIn left_in
less-through less_through
levels-22 levels_22
levels-are levels_are
levels-half-more levels_half_more
levels-told levels_told
levels-twice levels_twice
levelsIn levels_in
levelsOf levels_of
life-if-live life_if_live
life-if-unused life_if_unused
line-long line_long
line-more line_more
link-falls link_falls
link-kept link_kept
link-live link_live
link-lower link_lower
live-count live_cells
live-count-put live_count_put
live-count-small live_count_small
live-high live_high
live-is-reached live_is_reached
live-low live_low
live-points live_points_lem
live-points-small live_points_small
live-reached live_reached
live-tells live_tells
live-tree live_tree
live-trees live_trees
liveCount live_count
livePoints live_points
lower-half lower_half
marks-refused marks_refused
measure-fits measure_fits
met-key met_key
met-ways met_ways
neutral-fits neutral_fits
neutral-left neutral_left
neutral-right neutral_right
no-comment no_comment
no-day no_day
no-day-by no_day_by
no-gigabytes no_gigabytes
no-gigabytes-by no_gigabytes_by
no-label-by no_label_by
nonEmpty non_empty
nonEmpty-first non_empty-first
none-counted none_counted
none-inlinks none_inlinks
none-less none_less
none-live none_live
none-live-count none_live_count
none-refs none_refs
none-smaller none_smaller
none-where none_where
none-wrong none_wrong
not-a-number not_a_number
not-both not_both
not-refused not_refused
not-whole not_whole
noteText note_text
notesFrom notes_from
numbersOf numbers_of
occurs-small occurs_small
of-window of_window
one-no one_no
one-small one_small
one-yes one_yes
only-equal only_equal
only-six only_six
or-and-digits or_and_digits
or-left-digits or_left_digits
or-none or_none
or-right-digits or_right_digits
order-free order_free
orderly-made orderly_made
orderly-moved orderly_moved
orderly-opened orderly_opened
orderly-run orderly_run
orderly-stored orderly_stored
orderly-struck orderly_struck
out-left out_left
out-right out_right
out-root out_root
outside-live outside_live
pairReserve pair_reserve
pass-over pass_over
passes-either passes_either
past-long past_long
past-on past_on
past-stops past_stops
pastFront past_front
pending-last pending_last
pending-set pending_set
pieces-cut pieces_cut
place-by-place place_by_place
points-are points_are
points-if-live points_if_live
points-if-unused points_if_unused
points-link points_link
points-same points_same
points-small points_small
pointsTo points_to
put-down put_down
put-outside put_outside
put-set put_set
put-ways put_ways
rank-above rank_above
rank-le rank_le
ranked-there ranked_there
reach-kept reach_kept
reached-live reached_live
readOn-ge read_on_ge
readOn-more read_on_more
reads-back reads_back
refs-other refs_other
refs-put refs_put
refs-small refs_small
refsIn refs_in
refsOf refs_of
released-held released_held
released-last released_last
released-none released_none
remarkText remark_text
rest-long rest_long
right-falls right_falls
right-levels right_levels
right-low right_low
right-lower right_lower
right-stands right_stands
right-tree right_tree
rightIn right_in
rightOf right_of
rises-at rises_at
rising-build rising_build
rising-common rising_common
rising-kept rising_kept
rising-merge rising_merge
rising-put rising_put
root-rules root_rules
row-by row_by_lem
rowText row_text
rules-apart rules_apart
rules-kept rules_kept
runs-orderly runs_orderly
same-avail-count same_avail_count
same-counted same_counted
same-inlinks same_inlinks
same-itself same_itself
same-live-count same_live_count
same-no same_no
same-only same_only
same-refs same_refs
same-yes same_yes
sameKey same_key
second-high second_high
shape-trans shape_trans
shares-either shares_either
side-levels side_levels
siftReserve sift_reserve
sign-content sign_content
sign-no-gap sign_no_gap
signs-from-allowed signs_from_allowed
signs-from-digits signs_from_digits
signs-marks signs_marks
some-answer some_answer
some-long some_long
some-other some_other
some-unused some_unused
some-wrong some_wrong
split-row split_row
stands-low stands_low
stays-kept stays_kept
steps-by steps_by
steps-left steps_left
steps-round steps_round
still-apart still_apart
still-live-count still_live_count
still-stands still_stands
still-unused still_unused
sum-add sum_add
sum-but sum_but
sum-least sum_least
sum-most sum_most
sum-none sum_none
sum-some sum_some
summed-fits summed_fits
summedWithin summed_within
taken-over taken_over
to-left to_left
to-right to_right
told-six told_six_lem
toldSix told_six
twice-digits twice_digits
upper-half upper_half
window-above window_above
window-parts window_parts
windowReserve window_reserve
words-cut words_cut
words-end words_end
wrong-inside wrong_inside
wrongAt wrong_at
"""

NAMES = dict(line.split() for line in TABLE.split("\n") if line)
# a string literal stays as it is; a token is a name with its dashes
TOKEN = re.compile(r'"(?:[^"\\\n]|\\.)*"|[^\W\d][\w\'-]*')


def respell(text):
    return TOKEN.sub(lambda m: NAMES.get(m.group(0), m.group(0)), text)


def main():
    for folder, dirs, files in os.walk("crates"):
        dirs[:] = sorted(d for d in dirs if d != "out")
        for name in sorted(files):
            path = os.path.join(folder, name)
            if not name.endswith((".rt", ".antt")):
                continue
            with open(path, encoding="utf-8") as f:
                old = f.read()
            new = respell(old)
            if new != old:
                with open(path, "w", encoding="utf-8") as f:
                    f.write(new)


if __name__ == "__main__":
    main()
