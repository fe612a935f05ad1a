#!/usr/bin/env python3
"""Gives the definitions and lemmas of this repository the spelling of today's Rattle: facts and types in camel
case, all else in snake case, and a dash only between two names of functions in the name of a lemma.

usage: python3 tools/respell.py     at the top, once, after the kit's own script has turned the files

It goes by whole names, in the specifications and proofs, and in the lines of source files that are read by the
checker alone (ghost items and clauses) or by people alone (comments). Code and strings keep their names.
"""

import os
import re

NAMES = """
    Back-undoes BackUndoes
    Counts-standing CountsStanding
    First-in FirstIn
    First-is-lowest FirstIsLowest
    First-mark FirstMark
    In-order InOrder
    Listed-once ListedOnce
    Lowest-bit LowestBit
    Lowest-from LowestFrom
    No-bit-beyond NoBitBeyond
    None-between NoneBetween
    None-from NoneFrom
    Notes-kept NotesKept
    One-file OneFile
    One-plan OnePlan
    Reads-exactly ReadsExactly
    Reads-no-further ReadsNoFurther
    Refusals-numbered RefusalsNumbered
    Refusals-placed RefusalsPlaced
    Refuses-the-rest RefusesTheRest
    Same-below SameBelow
    Saves-kept SavesKept
    Strikes-exactly StrikesExactly
    Tests-decide TestsDecide
    above-to above_to
    belowOf below_of
    headerOf header_of
    rangedOf ranged_of
    after-all after_all
    after-back after_back
    after-begin after_begin
    after-begin-both after_begin_both
    after-save after_save
    after-with after_with
    all-below all_below
    all-below-decides all_below_decides
    all-below-more all_below_more
    all-below-no all_below_no
    all-below-same all_below_same
    all-counted all_counted
    all-named-decides all_named_decides
    all-stand all_stand
    along-all along_all
    along-first along_first
    along-push along_push
    answer-text answer_text
    any-decides any_decides
    ascending-from ascending_from
    ascending-to ascending_to
    at-earlier at_earlier
    at-keep at_keep
    at-kept at_kept
    at-newest at_newest
    at-older at_older
    at-save at_save
    back-answer back_answer
    back-declined back_declined
    back-parts back_parts
    back-same back_same
    back-undoes back_undoes
    before-even before_even
    begin-answer begin_answer
    begin-both-answer begin_both_answer
    begin-declined begin_declined
    begin-done begin_done
    begin-is begin_is
    begun-parts begun_parts
    below-decides below_decides
    below-here below_here
    below-later below_later
    below-moves below_moves
    below-short below_short
    bit-first bit_first
    bit-half bit_half
    bit-ones bit_ones
    bit-ones-past bit_ones_past
    bit-turned-other bit_turned_other
    bit-turned-same bit_turned_same
    bits-bytes bits_bytes
    body-exact body_exact
    body-got body_got
    body-moves body_moves
    body-stays body_stays
    body-stops-count body_stops_count
    body-stops-header body_stops_header
    body-stops-tables body_stops_tables
    chain-split chain_split
    clear-struck clear_struck
    clear-zeros clear_zeros
    count-few count_few
    count-struck count_struck
    counts-standing counts_standing
    cut-long cut_long
    equal-decides equal_decides
    err-is err_is
    exact-as exact_as
    falling-more falling_more
    few-rows few_rows
    few-settings few_settings
    few-tables few_tables
    fewer-all fewer_all
    fewer-struck fewer_struck
    file-P file_p
    file-reads file_reads
    first-at first_at
    first-is-lowest first_is_lowest
    first-true first_true
    fits-from fits_from
    fits-length fits_length
    fits-to fits_to
    follow-last follow_last
    fresh-below fresh_below
    from-a from_a
    from-b from_b
    from-c from_c
    from-d from_d
    front-k front_k
    front-others front_others
    full-max full_max
    full-part full_part
    given-alike given_alike
    given-exact given_exact
    given-got given_got
    gone-all gone_all
    good-from good_from
    good-to good_to
    got-at got_at
    got-is got_is
    header-alike header_alike
    header-exact header_exact
    header-moves header_moves
    header-stays header_stays
    holds-back holds_back
    holds-begin holds_begin
    holds-save holds_save
    holds-strike holds_strike
    in-front in_front
    in-plan in_plan
    inverse-swapped inverse_swapped
    is-63 is_63
    length-marks length_marks
    length-saves length_saves
    less-decides less_decides
    less-odd less_odd
    list-after list_after
    listed-few listed_few
    long-b long_b
    long-c long_c
    lowest-even lowest_even
    lowest-from lowest_from
    lowest-is lowest_is
    lowest-odd lowest_odd
    lowest-of lowest_of
    lowest-rises lowest_rises
    made-exact made_exact
    made-past made_past
    made-same made_same
    mark-full-past mark_full_past
    mark-in mark_in
    mark-none mark_none
    mark-other mark_other
    marks-above marks_above
    marks-at marks_at
    marks-more marks_more
    marks-now marks_now
    marks-of marks_of
    marks-past marks_past
    marks-saved marks_saved
    marks-struck marks_struck
    marks-tell marks_tell
    may-follow may_follow
    meaning-of meaning_of
    most-k most_k
    most-n most_n
    names-decides names_decides
    no-saves no_saves
    none-marked none_marked
    none-noted none_noted
    not-both not_both
    not-twice not_twice
    note-again note_again
    note-first note_first
    note-without-save note_without_save
    noted-after noted_after
    noted-is noted_is
    noted-now noted_now
    notes-kept notes_kept
    number-alike number_alike
    number-at-below number_at-below
    number-at-same number_at_same
    number-below number_below
    number-below-exact number_below_exact
    number-exact number_exact
    number-got number_got
    number-moves number_moves
    number-reads number_reads
    number-stands number_stands
    number-stays number_stays
    numbers-text numbers_text
    odd-or-even odd_or_even
    ok-is ok_is
    olds-after olds_after
    olds-is olds_is
    olds-now olds_now
    one-file one_file
    one-plan one_plan
    or-false or_false
    or-true or_true
    order-inverse order_inverse
    order-more order_more
    others-all others_all
    out-next out_next
    out-stays-all out_stays_all
    padding-from padding_from
    padding-to padding_to
    parts-of parts_of
    place-text place_text
    plan-P plan_p
    plan-words plan_words
    pow-other pow_other
    ranged-alike ranged_alike
    ranged-exact ranged_exact
    ranged-moves ranged_moves
    ranged-stays ranged_stays
    ranged-within ranged_within
    read-got read_got
    read-unnamed read_unnamed
    read-unpadded read_unpadded
    reads-exactly reads_exactly
    reads-no-further reads_no_further
    refusal-text refusal_text
    refusals-numbered refusals_numbered
    refusals-placed refusals_placed
    refuses-the-rest refuses_the_rest
    repeat-alike repeat_alike
    repeat-exact repeat_exact
    repeat-moves repeat_moves
    repeat-stays repeat_stays
    repeats-more repeats_more
    repeats-none repeats_none
    report-answer report_answer
    report-err report_err
    report-ok report_ok
    report-text report_text
    rest-exact rest_exact
    rest-stands rest_stands
    restoring-more restoring_more
    returned-by returned_by
    returned-number returned_number
    rewound-fresh rewound_fresh
    rewound-keep rewound_keep
    rewound-noted rewound_noted
    rewound-notes rewound_notes
    row-alike row_alike
    row-exact row_exact
    row-moves row_moves
    rows-ascend rows_ascend
    rows-exact rows_exact
    rows-move rows_move
    rows-push rows_push
    save-answer save_answer
    save-declined save_declined
    save-done save_done
    save-is save_is
    save-none save_none
    saved-parts saved_parts
    saves-all saves_all
    saves-clear saves_clear
    saves-counted saves_counted
    saves-keep saves_keep
    saves-kept saves_kept
    saves-newest saves_newest
    saves-of saves_of
    saves-same saves_same
    saves-saved saves_saved
    scope-alike scope_alike
    scope-ascends scope_ascends
    scope-moves scope_moves
    set-within set_within
    setting-alike setting_alike
    setting-exact setting_exact
    setting-moves setting_moves
    setting-stays setting_stays
    sized-all sized_all
    sized-saves sized_saves
    sofar-all sofar_all
    sofar-length sofar_length
    sofar-more sofar_more
    sofar-none sofar_none
    sofar-stops sofar_stops
    some-other some_other
    some-save some_save
    some-settings some_settings
    some-tables some_tables
    sound-of sound_of
    spell-header spell_header
    spell-plan spell_plan
    spell-row spell_row
    spell-table spell_table
    standing-most standing_most
    stands-below stands_below
    stands-end stands_end
    stands-join stands_join
    stands-rest stands_rest
    stands-split stands_split
    stands-within stands_within
    stood-next stood_next
    stood-of stood_of
    strike-is strike_is
    strikes-exactly strikes_exactly
    struck-all struck_all
    struck-next struck_next
    struck-other struck_other
    struck-out struck_out
    struck-parts struck_parts
    struck-same struck_same
    sum-push sum_push
    table-alike table_alike
    table-exact table_exact
    table-few table_few
    table-moves table_moves
    table-words table_words
    tables-exact tables_exact
    tables-from tables_from
    tables-keep tables_keep
    tables-move tables_move
    tables-to tables_to
    tells-some tells_some
    tested-alike tested_alike
    tested-exact tested_exact
    tested-moves tested_moves
    then-alike then_alike
    then-exact then_exact
    then-got then_got
    then-stays then_stays
    trues-all trues_all
    twice-even twice_even
    two-join two_join
    two-joined two_joined
    two-plan two_plan
    two-spell two_spell
    two-table two_table
    two-zeros two_zeros
    value-count value_count
    values-from values_from
    values-move values_move
    values-to values_to
    with-kept with_kept
    word-other word_other
    words-at words_at
    xor-bit xor_bit
    zeros-all zeros_all
    zeros-end zeros_end
    zeros-even zeros_even
    zeros-no zeros_no
    zeros-odd zeros_odd
    zeros-on zeros_on
    zeros-only zeros_only
"""

NAME = re.compile(r"[^\s(){}\[\],;.:=|\"`]+")
STRING = re.compile(r'"(?:\\.|[^"\\])*"')


def respelled(text, names):
    """The text with each name of the table replaced, but none in a string."""
    parts, at = [], 0
    for string in STRING.finditer(text):
        parts.append(NAME.sub(lambda m: names.get(m[0], m[0]), text[at : string.start()]))
        parts.append(string[0])
        at = string.end()
    parts.append(NAME.sub(lambda m: names.get(m[0], m[0]), text[at:]))
    return "".join(parts)


def main():
    names = dict(line.split() for line in NAMES.split("\n") if line)
    changed = 0
    for folder, folders, files in os.walk("crates"):
        folders[:] = sorted(f for f in folders if f not in ("out", "target", "must-fail"))
        for file in sorted(files):
            if not file.endswith((".antt", ".rt")):
                continue
            path = os.path.join(folder, file)
            with open(path, encoding="utf-8") as it:
                text = it.read()
            new = respelled(text, names)
            if new != text:
                with open(path, "w", encoding="utf-8") as it:
                    it.write(new)
                changed += 1
    print(f"respell: {len(names)} names, {changed} files changed")


if __name__ == "__main__":
    main()
