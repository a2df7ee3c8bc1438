#include "one_salvage.h"

#include <stdlib.h>
#include <string.h>

#include "areas.h"
#include "format.h"
#include "one_run.h"
#include "tally.h"

/* The bytes of the record at a place as an entry, with the number of its first fault, 0 for one that is kept. Where one
 * with a wrong form ends nobody knows, so it takes the whole rest with it. */
static struct supharoek_entry piece_at(const struct trace *trace, size_t at) {
    struct reading formed = formed_at(trace->bytes, trace->length, at);
    size_t end = formed.refusal ? trace->length : formed.end;
    struct supharoek_entry piece = {at, end - at, record_at(trace->bytes, trace->length, at).refusal};
    return piece;
}

struct salvaged salvaged_of(const struct trace *trace) {
    struct reading header = header_at_start(trace->bytes, trace->length);
    size_t bytes = header.refusal ? 0 : header.end, entries = 0;
    /* there are no more entries than bytes; and one more is asked for, as who asks for none may get none */
    uint8_t *good = taken(trace->length + 1);
    struct supharoek_entry *list = taken((trace->length + 1) * sizeof *list);
    memcpy(good, trace->bytes, bytes);
    for (size_t at = header.refusal ? trace->length : header.end; at < trace->length;) {
        struct supharoek_entry piece = piece_at(trace, at);
        if (piece.number) {
            list[entries++] = piece;
        } else {
            memcpy(good + bytes, trace->bytes + at, piece.length);
            bytes += piece.length;
        }
        at += piece.length;
    }
    struct salvaged salvaged = {header.refusal, header.place, bytes, entries, good, list};
    return salvaged;
}

void drop_salvaged(struct salvaged salvaged) {
    free((void *)salvaged.good);
    free((void *)salvaged.list);
}

int same_salvaged(const struct salvaged *one, const struct salvaged *other) {
    if (one->refusal || other->refusal)
        return one->refusal == other->refusal && one->place == other->place;
    return one->bytes == other->bytes && memcmp(one->good, other->good, one->bytes) == 0 &&
           one->entries == other->entries && memcmp(one->list, other->list, one->entries * sizeof *one->list) == 0;
}

/* The good trace with what is listed put back where it stood is the trace: each byte is in one of the two. */
static int covered(const struct trace *trace, const uint8_t *good, size_t bytes, const struct supharoek_entry *list,
                   size_t entries) {
    const struct supharoek_entry end = {trace->length, 0, 0};
    size_t at = 0, kept = 0;
    for (size_t i = 0; i <= entries; i++) {
        struct supharoek_entry next = i < entries ? list[i] : end;
        if (next.offset < at || next.offset > trace->length || next.length > trace->length - next.offset)
            return 0;
        size_t between = next.offset - at;
        if (between > bytes - kept || memcmp(good + kept, trace->bytes + at, between) != 0)
            return 0;
        kept += between;
        at = next.offset + next.length;
    }
    return kept == bytes;
}

/* What the output and the list hold after a call that answered this number. */
static void check_left(const struct trace *trace, const struct salvaged *salvaged, uint32_t number, struct area good,
                       struct area list, uint64_t which) {
    if (number) {
        check(kept_after(good, 0), "the output of a refused salvage", which);
        check(kept_after(list, 0), "the list of a refused salvage", which);
        return;
    }
    check(begins_with(good, salvaged->good, salvaged->bytes), "the good trace of a salvage", which);
    check(begins_with(list, salvaged->list, salvaged->entries), "the list of a salvage", which);
    check(covered(trace, good.at, salvaged->bytes, (struct supharoek_entry *)list.at, salvaged->entries),
          "each byte kept or listed once", which);
}

void check_salvage(const struct trace *trace, const struct salvaged *salvaged, size_t space, size_t room, size_t outs,
                   uint64_t which) {
    struct area bytes = lend_copy(trace->bytes, trace->length), good = lend(1, space);
    struct area list = lend(sizeof(struct supharoek_entry), room), out = lend(sizeof(uint64_t), outs);
    int fits = salvaged->bytes <= space && salvaged->entries <= room;
    uint32_t number = salvaged->refusal ? salvaged->refusal : fits ? 0 : SUPHAROEK_SPACE;
    uint32_t answer = supharoek_salvage(bytes.at, bytes.length, good.at, good.length, (struct supharoek_entry *)list.at,
                                        list.length, (uint64_t *)out.at, outs);
    check(answer == number, "the answer of a salvage", which);
    /* the bytes and the entries; a refused header has a place, and too little space has none */
    const uint64_t told[] = {number ? salvaged->place : salvaged->bytes, salvaged->entries};
    check(begins_with(out, told, number == 0 ? 2 : number != SUPHAROEK_SPACE), "what a salvage tells", which);
    check_left(trace, salvaged, number, good, list, which);
    check(kept_after(bytes, 0), "the trace that is salvaged", which);
    take_back(bytes);
    take_back(good);
    take_back(list);
    take_back(out);
}

/* Outputs and lists to the last byte and entry, with more, with one too few, with none, and of the lengths that are
 * stated to suffice: each output with each list. */
static void check_spaces(const struct trace *trace, const struct salvaged *salvaged, size_t outs, uint64_t which) {
    size_t bytes = salvaged->bytes, entries = salvaged->entries, more = from_to(1, 9);
    const size_t spaces[] = {bytes, bytes + more, bytes - (bytes > 0), 0, SUPHAROEK_GOOD(trace->length)};
    const size_t rooms[] = {entries, entries + more, entries - (entries > 0), 0, SUPHAROEK_ENTRIES(trace->length)};
    for (size_t i = 0; i < sizeof spaces / sizeof *spaces; i++)
        for (size_t j = 0; j < sizeof rooms / sizeof *rooms; j++)
            check_salvage(trace, salvaged, spaces[i], rooms[j], outs, which);
    check(SUPHAROEK_GOOD(trace->length) >= bytes, "the bytes that suffice", which);
    check(SUPHAROEK_ENTRIES(trace->length) >= entries, "the entries that suffice", which);
}

/* The good trace, which the call was seen to write, is run to its end; salvaged again it comes back with no entry. */
static void check_good(const struct salvaged *salvaged, uint64_t which) {
    struct trace good = {(uint8_t *)salvaged->good, salvaged->bytes};
    const struct salvaged again = {0, 0, salvaged->bytes, 0, salvaged->good, salvaged->list};
    size_t lengths[AREAS];
    stated_lengths(lengths, header_at_start(good.bytes, good.length).values[1]);
    struct expected expected = expected_of(&good, lengths);
    check(expected.number == 0, "a good trace that a run takes", which);
    check_run(&good, lengths, &expected, MOST_TOLD, which);
    check_salvage(&good, &again, again.bytes, 0, 2, which);
}

void check_salvages(const struct trace *trace, const struct salvaged *salvaged, size_t outs, uint64_t which) {
    check_spaces(trace, salvaged, outs, which);
    if (salvaged->refusal == 0)
        check_good(salvaged, which);
}
