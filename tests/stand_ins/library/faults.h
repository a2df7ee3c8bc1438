/* The faults that a stand-in library can have, each in words. It is compiled with one of them as FAULT. */
#ifndef FAULTS_H
#define FAULTS_H

enum fault {
    none, /* nothing is wrong */

    /* readers */
    edition_8_bits, /* a header's edition is cut to 8 bits */
    size_8_bits, /* a header's size is cut to 8 bits */
    volume_16_bits, /* a record's volume is cut to 16 bits before its test */
    priority_16_bits, /* a record's priority is cut to 16 bits before its test */
    priority_16384, /* a record's priority of 16,384 is taken */
    no_hint_refused, /* a record with priority 0 is refused */
    no_hint_told_as_one, /* a record with priority 0 is told with priority 1 */
    long_zero, /* a last byte of 0 after another byte is taken */
    fifth_byte, /* a fifth byte over 15 is taken */
    endless_is_cut, /* five bytes that all go on are CUT where the bytes end with them */
    nothing_may_follow, /* a record is refused where bytes follow it */
    part_16_bits, /* the length of the bytes that a reader is given is cut to 16 bits */
    out_past_its_length, /* a number is told past the length of out */
    out_8_bits, /* the length of out is cut to 8 bits */
    all_told_or_none, /* nothing is told where not everything fits */

    /* writers */
    at_32_bits, /* a writer's offset is cut to 32 bits */
    at_16_bits, /* a writer's offset is cut to 16 bits */
    at_wraps, /* offset and length are added without a look at the carry */
    buffer_16_bits, /* the length of a buffer is cut to 16 bits */
    space_to_spare, /* what fits to the byte has no space */
    space_before_range, /* an offset past the end is refused before a number out of range */
    end_told, /* a write tells where it ended and not its length */
    zero_after_write, /* a byte of 0 is written after a header or a record */
    refused_write_told, /* a refused write tells 0 */
    written_size_8_bits, /* a writer cuts a size to 8 bits */
    written_volume_32_bits, /* a writer cuts a volume to 32 bits */
    written_priority_16384, /* a writer takes a priority of 16,384 */
    written_no_hint_refused, /* a writer refuses priority 0 */
    no_hint_written_as_one, /* a writer writes 1 for priority 0 */

    /* salvages */
    offset_in_records, /* an entry's offset counts from the first record */
    offset_of_number, /* an entry's offset is that of the number at fault */
    offset_16_bits, /* an entry's offset is cut to 16 bits */
    dropped_16_bits, /* an entry's length is cut to 16 bits */
    dropped_one_short, /* the entry of what is dropped at a FORM or a CUT is one byte too short */
    dropped_unlisted, /* what is dropped at a FORM or a CUT is not listed */
    end_for_length, /* an entry has an end where its length should be */
    number_32_bits, /* of an entry's number only the lower half is written */
    second_fault, /* a record with two faults is listed under the second */
    form_before_volume, /* a volume out of range with a FORM behind it is listed under FORM */
    cut_before_volume, /* a volume out of range with a CUT behind it is listed under CUT */
    form_skips_record, /* a FORM leaves out its own record alone */
    volume_skips_form, /* a volume out of range with a FORM behind it leaves out its own record alone */
    volume_drops_rest, /* a volume out of range drops the rest */
    priority_drops_rest, /* a priority out of range drops the rest */
    kept_and_listed, /* a record that is kept is listed too */
    neighbours_merged, /* records left out in a row for one reason are one entry */
    no_hint_kept_as_one, /* a record with priority 0 is kept with priority 1 */
    header_not_copied, /* the good trace has no header */
    header_uncounted, /* the header is not counted in the bytes that are told */
    entries_one_more, /* one entry more is told than there are */
    entries_16_bits, /* the number of entries that is told is cut to 16 bits */
    zero_after_good, /* a byte of 0 is written after the good trace */
    entry_after_list, /* an entry of zeros is written after the list */
    header_place_untold, /* a salvage tells no place for a header */
    space_before_header, /* an output of no length is refused before a header's fault */
    space_told, /* a salvage without space tells the place 0 */
    space_after_bytes, /* the bytes are written before the space is tested */
    space_after_entry, /* the first entry is written before the space is tested */
    space_untested, /* an output that is too short takes what fits */
    room_untested, /* a list that is too short takes what fits */
    whole_space_asked, /* the output has to be as long as the trace */
    whole_room_asked, /* the list has to be as long as any trace of the length can need */
    good_16_bits, /* the length of the output is cut to 16 bits */
    list_16_bits, /* the length of the list is cut to 16 bits */
    salvaged_16_bits, /* the length of a trace to salvage is cut to 16 bits */

    /* runs */
    counts_33_to_126, /* the counts are wrong for every N from 33 to 126 */
    one_size_at_77, /* at N = 77 the counts of size 32 are those of size 31 */
    one_peak_3, /* the peak of one block is 3 at most */
    total_peak_64, /* the peak of all stretches is 64 at most */
    over_40_stretches, /* counts go wrong once a block has more than 40 stretches */
    over_1000_stretches, /* counts go wrong once there are more than 1,000 stretches */
    peaks_at_end, /* the peaks are those after the last read */
    counts_16_bits, /* counts wrap at 65,536 */
    reads_16_bits, /* reads wrap at 65,536 */
    room_before_header, /* ROOM comes before a header's fault where an area has length 0 */
    room_after_records, /* room is tested after the records */
    half_rounded_down, /* stretches are lent enough with half of N rounded down */
    longer_refused, /* areas longer than stated are refused */
    areas_16_bits, /* the lengths of the areas are cut to 16 bits */
    stops_at_160000, /* a run stops after 160,000 bytes */
    trace_16_bits, /* the length of a trace is cut to 16 bits */
    large_refused, /* a run refuses more than 16,384 bytes */
    place_16_bits, /* the place of a refusal is cut to 16 bits */
    place_of_record, /* a record's refusal is placed where the record begins */
    no_volume, /* the volume is no part of a block */
    key_volume_8_bits, /* blocks are told apart by 8 bits of their volumes */
    key_block_31_bits, /* blocks are told apart by 31 bits of their numbers */
    keys_overlap, /* the bits of a volume lie over those of a block */
    priority_8_bits, /* places are found by 8 bits of a priority */
    no_hint_bypasses, /* in a run a read with priority 0 is a bypass */
    no_hint_moves_nothing, /* in a run a read with priority 0 is counted and moves nothing */
    no_hint_last, /* in a run a read with priority 0 asks for the last place */
    full_table, /* after 4,096 blocks no other one comes on a card */
    one_list, /* one list of blocks serves all sizes */
    insert_fills_hole, /* an insert fills the nearest hole below */
    hit_bypass_stays, /* a hit bypass leaves the block where it is */
    hit_bypass_misses, /* a hit bypass counts as a miss bypass */
    first_read_only, /* the first read is run, the others are merely tallied */
    run_goes_on, /* a run goes on from the one before where the size is the same */
    refuses_all, /* every trace is refused */
    counts_untouched, /* the counts are left as they were */
    counts_added, /* counts are added to what the area held */
    counts_left_at_fault, /* a fault in a record leaves the counts so far */
    refused_header_clears, /* a refused header clears the counts */
    block_left, /* the last block is not 0 after a run */
    stretch_left, /* the last stretch is not 0 after a run */
    cleared_beyond, /* areas are cleared beyond the stated lengths */

    /* sheets */
    fixed_sheet, /* every sheet is the same */
    six_digits, /* a number of six digits loses one on the sheet */
    seven_digits, /* no number on the sheet is over 999,999 */
    sheet_4096, /* a sheet ends after 4,096 bytes */
    misses_of_insert, /* misses on the sheet are inserts alone */
    zero_after_sheet, /* a byte of 0 is put after the sheet */
    text_of_none, /* a text of length 0 gets a byte */
    text_16_bits, /* the length of a text is cut to 16 bits */
    short_text_left, /* nothing is put into a text that is too short */
    length_of_text, /* the answer is how much of the sheet the text holds */

    /* steps */
    places_150, /* more than 150 places are refused by the step */
    step_13_to_99, /* the step is wrong at sizes 13 to 99 */
    step_down_at_57, /* a step down at size 57 does nothing */
    step_size_0, /* the step takes size 0 */
    step_size_8_bits, /* the step cuts the size to 8 bits */
    step_closes_holes, /* the step closes the hole at the top */
    step_block_31_bits, /* the step cuts a block to 31 bits */
    step_priority_16384, /* the step takes a priority of 16,384 */
    step_no_hint_refused, /* the step refuses priority 0 */
    step_no_hint_bypasses, /* a step with priority 0 is a bypass */
    step_no_hint_moves_nothing, /* a step with priority 0 moves nothing */
    beyond_tested, /* places beyond 127 have to be empty */
    beyond_written, /* the place beyond 127 is written */
    neighbours_tested, /* one block in two places is seen only where they are neighbours */
    large_to_100, /* a place that is too large is seen in the first 100 only */
    last_place_taken, /* the last place need not be empty after the size */
    priority_tested_first, /* the step tests the priority before the volume */
    refused_step_told, /* a refused step tells its number */
    step_room_untold, /* a step with too few places tells no place */
    hit_untold, /* the step tells the outcome alone */
    hit_bypass_missed, /* the step tells a hit bypass as a miss */
    insert_hits, /* the step tells an insert as a hit */

    /* counts */
    count_of_five, /* five counts are taken */
    many_counts_refused, /* more than 65,535 counts are refused */
    count_room_untold, /* too few counts are refused without the place */
    count_8_bits, /* the outcome to be counted is cut to 8 bits */
    count_past, /* a number just past the outcomes is counted as the last one */
    all_counted, /* a number past the outcomes is counted where there are counts for it */
    bypasses_one_slot, /* both kinds of bypass share a count */
    count_wraps, /* a full count begins again */
    count_32_bits, /* a count stops at 32 bits */
    full_count_told, /* an outcome is told as added to a full count */
    nothing_untold, /* where nothing is added, nothing is told */

    /* ratios */
    ratio_float, /* the ratio is worked out in 32 bits */
    ratio_product, /* the ratio is a product with 1 / reads */
    ratio_32_bits, /* misses are cut to 32 bits */
    ratio_most, /* 9,007,199,254,740,992 reads are refused */
    ratio_zeroed /* a refused ratio is 0 */
};

static const enum fault fault = FAULT;

#endif
