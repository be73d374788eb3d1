#!/usr/bin/env python3
"""Brings the names of this repository's definitions and lemmas to the spelling of today's Rattle.

usage: tools/spelling.py [REPO]      (default: the current folder)

Words of one name are joined by '_'; a '-' stands only between two names, as in length-windowed. Names of source code,
exported names, strings, inputs and outputs are not touched. Run once, after the toolchain's own script.
"""
import os
import re
import sys

# old name, new name
NAMES = """
Accepted-pictures AcceptedPictures
Holds-samples HoldsSamples
above-complete above_complete
above-here above_here
above-no-seat above_no_seat
above-none above_none
above-sound above_sound
accepted-same accepted_same
after-digits after_digits
after-gap after_gap
after-header after_header
all-low all_low
as-cond as_cond
asked-sound asked_sound
at-diagonal at_diagonal
at-digit at_digit
at-pixel at_pixel
at-seat at_seat
back-length back_length
back-stays back_stays
beaten-by-rest beaten_by_rest
before-next before_next
begins-gap begins_gap
blank-begins blank_begins
blank-passed blank_passed
blanked-with blanked_with
blanks-more blanks_more
block-column block_column
channel-below channel_below
channel-count channel_count
channel-of channel_of
channels-complete channels_complete
channels-sound channels_sound
code-place code_place
code-range code_range
codes-follow codes_follow
codes-set codes_set
codes-turned codes_turned
codes-windowed codes_windowed
column-below column_below
column-of column_of
comment-passed comment_passed
cond-alike cond_alike
corner-code corner_code
corner-code-at corner_code_at
corner-codes corner_codes
corner-count corner_count
corner-is corner_is
corner-level corner_level
corner-meaning corner_meaning
corner-rest corner_rest
corner-seat corner_seat
corner-seat-at corner_seat_at
corner-seats corner_seats
corner-site corner_site
corner-site-at corner_site_at
corner-sites corner_sites
count-all count_all
count-more count_more
count-others count_others
counted-all counted_all
counted-more counted_more
diagonal-before diagonal_before
diagonal-in diagonal_in
diagonal-no-seat diagonal_no_seat
digit-below digit_below
digit-no-gap digit_no_gap
digits-complete digits_complete
digits-found digits_found
digits-sound digits_sound
each-paired each_paired
even-column-below even_column_below
first-best first_best
first-best-in first_best_in
first-best-is first_best_is
first-digit first_digit
flag-added flag_added
flat-of flat_of
found-more found_more
four-to-a-place four_to_a_place
front-stays front_stays
gap-begins gap_begins
gap-passed gap_passed
getD-blanked get_or-blanked
given-passed given_passed
grown-below grown_below
has-channels has_channels
has-height has_height
has-maximum has_maximum
header-length header_length
height-high height_high
height-low height_low
here-turned here_turned
here-windowed here_windowed
high-below high_below
high-range high_range
holds-passed holds_passed
in-comment in_comment
in-digits in_digits
in-seats in_seats
is-active is_active
is-at-top is_at_top
is-gap is_gap
is-gap₁ is_gap₁
is-gap₂ is_gap₂
is-gap₃ is_gap₃
is-height is_height
is-magic is_magic
is-maximum is_maximum
is-peak is_peak_code
is-place is_place
is-slot is_slot
is-width is_width
kept-other kept_other
leading-all leading_all
leading-digits leading_digits
leading-more leading_more
left-before left_before
left-no-seat left_no_seat
length-corner-codes length-corner_codes
length-corner-seats length-corner_seats
length-corner-sites length-corner_sites
length-plain-codes length-plain_codes
length-plain-sites length-plain_sites
length-seats-of length-seats_of
length-turned-codes length-turned_codes
length-turned-sites length-turned_sites
less-low less_low
low-all low_all
low-range low_range
map-bits map_bits_of
maximum-high maximum_high
maximum-low maximum_low
meaning-through meaning_through
never-itself never_itself
next-digit next_digit
no-site no_site
none-found-passed none_found_passed
none-of-seats none_of_seats
not-empty not_empty
nothing-passed nothing_passed
number-complete number_complete
number-shorter number_shorter
number-sound number_sound
numeral-no-gap numeral_no_gap
one-hidden one_hidden
one-or-none one_or_none
others-stay others_stay
others-told others_told
passed-more passed_more
past-blocks past_blocks
past-limit past_limit
peak-at peak_at
peak-first peak_first
peak-of peak_of
peak-within peak_within
pile-codes pile_codes
pile-picture pile_picture
pile-sites pile_sites
place-below place_below
places-with places_with
plain-codes plain_codes
plain-level plain_level
plain-meaning plain_meaning
plain-rest plain_rest
plain-seat plain_seat
plain-site plain_site
plain-site-at plain_site_at
plain-sites plain_sites
plain-survey plain_survey
prediction-of prediction_of
put-answer put_answer
put-codes put_codes
puts-code puts_code
reading-asks reading_asks
reading-complete reading_complete
reading-sound reading_sound
reads-digits reads_digits
reads-failure reads_failure
rest-set rest_set
rest-stays rest_stays
resumed-live resumed_live
rows-within rows_within
same-best same_best
same-picture same_picture
same-prediction same_prediction
same-predictions same_predictions
same-seats same_seats
sample-told sample_told
samples-follow samples_follow
seat-at seat_at
seat-at-corner seat_at_corner
seat-below seat_below
seat-in seat_in
seat-of seat_of
seats-apart seats_apart
seats-of seats_of
seats-of-at seats_of_at
set-hidden set_hidden
set-turned set_turned
set-windowed set_windowed
site-at site_at
site-below site_below
site-of site_of
some-across some_across
some-all some_all
some-channel some_channel
sound-first sound_first
sound-next sound_next
tallied-all tallied_all
tallied-more tallied_more
tallied-none tallied_none
tallied-room tallied_room
tally-at tally_at
told-length told_length
turn-keeps turn_keeps
turn-meaning turn_meaning
turn-puts turn_puts
turn-takes turn_takes
turned-code-at turned_code_at
turned-codes turned_codes
turned-seat-at turned_seat_at
turned-site turned_site
turned-site-at turned_site_at
turned-sites turned_sites
two-more two_more
two-rows two_rows
white-no-digit white_no_digit
width-high width_high
window-level window_level
window-meaning window_meaning
window-put window_put
window-puts window_puts
window-rest window_rest
window-sites window_sites
windowed-at windowed_at
windowed-seat windowed_seat
written-codes written_codes
written-moves written_moves
written-rest written_rest
zero-after zero_after
zero-at zero_at
zero-first zero_first
"""

FOLDERS = ("crates", "docs")
ENDINGS = (".rt", ".antt", ".md")


def files(root):
    for top in FOLDERS:
        for folder, inner, names in os.walk(os.path.join(root, top)):
            inner[:] = sorted(d for d in inner if d not in ("out", "must-fail", "data"))
            for name in sorted(names):
                if name.endswith(ENDINGS):
                    yield os.path.join(folder, name)


def main():
    root = sys.argv[1] if len(sys.argv) > 1 else "."
    table = dict(line.split() for line in NAMES.split("\n") if line)
    word = re.compile(r"(?<![\w'-])(" + "|".join(re.escape(n) for n in sorted(table, key=len, reverse=True)) + r")(?![\w'-])")
    for path in files(root):
        with open(path, encoding="utf-8") as f:
            old = f.read()
        new = word.sub(lambda m: table[m.group(1)], old)
        if new != old:
            with open(path, "w", encoding="utf-8") as f:
                f.write(new)


if __name__ == "__main__":
    main()
