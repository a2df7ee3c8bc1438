/* The salvage of a trace. */
#include <string.h>

#include "library.h"

/* What a salvage is lent, and where the records of its trace begin. */
struct salvage {
    const uint8_t *trace;
    size_t trace_length, records;
    uint8_t *good;
    size_t good_length;
    struct supharoek_entry *entries;
    size_t entries_length;
};

/* Bytes that are kept or left out together. Those left out have the number and the place of a refusal; they are dropped
 * where they go on to the end of the trace because of a FORM or a CUT. */
struct piece {
    size_t start, end, place;
    uint32_t number;
    int dropped;
};

/* What is kept and listed, in numbers. */
struct sums {
    size_t bytes, entries;
};

/* The number that a record is listed under, 0 for one that is kept. */
static uint32_t listed_under(struct reading found, struct reading formed) {
    if (fault == second_fault && formed.refusal)
        return formed.refusal;
    if (fault == second_fault && found.refusal == SUPHAROEK_VOLUME && formed.values[2] > 16383)
        return SUPHAROEK_PRIORITY;
    if (fault == form_before_volume && formed.refusal == SUPHAROEK_FORM)
        return SUPHAROEK_FORM;
    if (fault == cut_before_volume && formed.refusal == SUPHAROEK_CUT)
        return SUPHAROEK_CUT;
    return found.refusal;
}

/* Past three bytes that can end a number, whatever stands before them. */
static size_t past_three(const uint8_t *trace, size_t length, size_t at) {
    for (int ends = 0; ends < 3 && at < length; at++)
        ends += trace[at] < 128;
    return at;
}

static size_t end_of(const struct salvage *salvage, size_t at, struct reading found, struct reading formed) {
    if (fault == form_skips_record && found.refusal == SUPHAROEK_FORM)
        return past_three(salvage->trace, salvage->trace_length, at);
    if (fault == volume_skips_form && found.refusal == SUPHAROEK_VOLUME && formed.refusal == SUPHAROEK_FORM)
        return past_three(salvage->trace, salvage->trace_length, at);
    if (fault == volume_drops_rest && found.refusal == SUPHAROEK_VOLUME)
        return salvage->trace_length;
    if (fault == priority_drops_rest && found.refusal == SUPHAROEK_PRIORITY)
        return salvage->trace_length;
    return formed.refusal ? salvage->trace_length : formed.end;
}

static struct piece piece_at(const struct salvage *salvage, size_t at) {
    struct reading found = record_of(salvage->trace, salvage->trace_length, at);
    struct reading formed = formed_of(salvage->trace, salvage->trace_length, at);
    struct piece piece = {at, end_of(salvage, at, found, formed), found.place, listed_under(found, formed),
                          formed.refusal != 0};
    if (fault == neighbours_merged && piece.number && piece.end < salvage->trace_length) {
        struct piece next = piece_at(salvage, piece.end);
        piece.end = next.number == piece.number ? next.end : piece.end;
    }
    return piece;
}

/* Copies bytes, as far as they fit. */
static void keep(const struct salvage *salvage, struct piece piece, size_t to) {
    size_t length = piece.end - piece.start, room = to < salvage->good_length ? salvage->good_length - to : 0;
    memcpy(salvage->good + to, salvage->trace + piece.start, length < room ? length : room);
    if (fault == no_hint_kept_as_one && length <= room && salvage->trace[piece.end - 1] == 0)
        salvage->good[to + length - 1] = 1;
}

/* Puts the entry of a piece into the list, if it fits. */
static void list(const struct salvage *salvage, struct piece piece, size_t to) {
    struct supharoek_entry entry = {piece.start, piece.end - piece.start, piece.number};
    if (fault == offset_in_records)
        entry.offset -= salvage->records;
    if (fault == offset_of_number)
        entry.offset = piece.place;
    if (fault == offset_16_bits)
        entry.offset %= 65536;
    if (fault == dropped_16_bits)
        entry.length %= 65536;
    if (fault == dropped_one_short && piece.dropped)
        entry.length--;
    if (fault == end_for_length)
        entry.length = piece.end;
    if (to < salvage->entries_length)
        memcpy(&salvage->entries[to], &entry, sizeof entry - (fault == number_32_bits ? sizeof(uint32_t) : 0));
}

/* Counts what is kept and listed, and writes it where it is asked to, as far as it fits. */
static struct sums walk(const struct salvage *salvage, int writes) {
    const struct piece header = {0, salvage->records, 0, 0, 0};
    struct sums sums = {fault == header_not_copied ? 0 : salvage->records, 0};
    if (writes && sums.bytes)
        keep(salvage, header, 0);
    for (size_t at = salvage->records; at < salvage->trace_length;) {
        struct piece piece = piece_at(salvage, at);
        if (writes && piece.number == 0)
            keep(salvage, piece, sums.bytes);
        sums.bytes += piece.number ? 0 : piece.end - piece.start;
        int listed = fault == kept_and_listed || (piece.number && !(fault == dropped_unlisted && piece.dropped));
        if (writes && listed)
            list(salvage, piece, sums.entries);
        sums.entries += listed ? 1 : 0;
        at = piece.end;
    }
    return sums;
}

/* Writes all bytes, or the first entry, before there is a test. */
static void write_too_soon(struct salvage salvage) {
    if (fault != space_after_bytes && fault != space_after_entry)
        return;
    if (fault == space_after_entry)
        salvage.good_length = 0;
    salvage.entries_length = fault == space_after_entry && salvage.entries_length > 0;
    walk(&salvage, 1);
}

static int is_short(const struct salvage *salvage, struct sums sums) {
    size_t space = fault == good_16_bits ? salvage->good_length % 65536 : salvage->good_length;
    size_t room = fault == list_16_bits ? salvage->entries_length % 65536 : salvage->entries_length;
    if (fault == whole_space_asked && space < salvage->trace_length)
        return 1;
    if (fault == whole_room_asked && room < SUPHAROEK_ENTRIES(salvage->trace_length))
        return 1;
    return (space < sums.bytes && fault != space_untested) || (room < sums.entries && fault != room_untested);
}

/* Writes what lies right behind the good trace and the list. */
static void write_beyond(const struct salvage *salvage, struct sums sums) {
    if (fault == zero_after_good && sums.bytes < salvage->good_length)
        salvage->good[sums.bytes] = 0;
    if (fault == entry_after_list && sums.entries < salvage->entries_length)
        memset(&salvage->entries[sums.entries], 0, sizeof *salvage->entries);
}

static uint64_t told_entries(size_t entries) {
    if (fault == entries_one_more)
        return entries + 1;
    return fault == entries_16_bits ? entries % 65536 : entries;
}

static uint32_t refused_header(const struct salvage *salvage, struct reading header, uint64_t *out, size_t out_length) {
    const uint64_t place = header.place;
    if (fault == space_before_header && salvage->good_length == 0)
        return SUPHAROEK_SPACE;
    if (fault == header_place_untold)
        return header.refusal;
    tell(out, out_length, &place, 1);
    return header.refusal;
}

uint32_t supharoek_salvage(const uint8_t *trace, size_t trace_length, uint8_t *good, size_t good_length,
                           struct supharoek_entry *entries, size_t entries_length, uint64_t *out, size_t out_length) {
    size_t length = fault == salvaged_16_bits ? trace_length % 65536 : trace_length;
    struct reading header = header_of(trace, length);
    const struct salvage salvage = {trace, length, header.end, good, good_length, entries, entries_length};
    if (header.refusal)
        return refused_header(&salvage, header, out, out_length);
    write_too_soon(salvage);
    struct sums sums = walk(&salvage, 0);
    const uint64_t told[] = {sums.bytes - (fault == header_uncounted ? header.end : 0),
                             told_entries(sums.entries), 0};
    if (is_short(&salvage, sums)) {
        if (fault == space_told)
            tell(out, out_length, told + 2, 1);
        return SUPHAROEK_SPACE;
    }
    walk(&salvage, 1);
    write_beyond(&salvage, sums);
    tell(out, out_length, told, 2);
    return 0;
}
