#include "one_run.h"

#include <stdio.h>
#include <string.h>

#include "areas.h"
#include "format.h"
#include "rule.h"
#include "tally.h"

/* The areas that a run is lent, with its trace. */
struct lent {
    struct area trace, blocks, stretches, counts;
};

void stated_lengths(size_t *lengths, size_t n) {
    lengths[0] = SUPHAROEK_BLOCKS(n);
    lengths[1] = SUPHAROEK_STRETCHES(n);
    lengths[2] = SUPHAROEK_COUNTS(n);
}

static struct expected refused(uint32_t number, size_t place, size_t writes) {
    struct expected expected = {number, 1, writes, {place, 0, 0}, {0}};
    return expected;
}

/* The records of a trace on the cards of each size; the counts are 0 where one is refused. */
static struct expected records_run(const struct trace *trace, size_t at, size_t n) {
    static struct cards cards;
    begin(&cards, n);
    while (at < trace->length) {
        struct reading found = record_at(trace->bytes, trace->length, at);
        if (found.refusal)
            return refused(found.refusal, found.place, n);
        read_on_all(&cards, key_of(found.values[0], found.values[1]), found.values[2]);
        at = found.end;
    }
    struct expected expected = {0, MOST_TOLD, n, {cards.reads, cards.total_peak, cards.one_peak}, {0}};
    memcpy(expected.counts, cards.counts, sizeof cards.counts);
    return expected;
}

struct expected expected_of(const struct trace *trace, const size_t *lengths) {
    struct reading header = header_at_start(trace->bytes, trace->length);
    if (header.refusal)
        return refused(header.refusal, header.place, 0);
    size_t n = header.values[1];
    if (lengths[0] < n || lengths[1] < 2 * n * ((n + 1) / 2) || lengths[2] < 6 * n)
        return refused(SUPHAROEK_ROOM, 0, 0);
    return records_run(trace, header.end, n);
}

static struct lent lend_all(const struct trace *trace, const size_t *lengths) {
    struct lent lent = {lend_copy(trace->bytes, trace->length), lend(sizeof(uint64_t), lengths[0]),
                        lend(sizeof(uint16_t), lengths[1]), lend(sizeof(uint64_t), lengths[2])};
    return lent;
}

static void take_back_all(struct lent lent) {
    take_back(lent.trace);
    take_back(lent.blocks);
    take_back(lent.stretches);
    take_back(lent.counts);
}

static void check_areas(const struct lent *lent, const struct expected *expected, uint64_t which) {
    size_t n = expected->writes;
    check(kept_after(lent->trace, 0), "the trace", which);
    check(begins_with_zeros(lent->blocks, SUPHAROEK_BLOCKS(n)), "the blocks", which);
    check(begins_with_zeros(lent->stretches, SUPHAROEK_STRETCHES(n)), "the stretches", which);
    check(holds(lent->counts, 0, expected->counts, SUPHAROEK_COUNTS(n)), "the counts", which);
}

void check_run(const struct trace *trace, const size_t *lengths, const struct expected *expected, size_t outs,
               uint64_t which) {
    struct lent lent = lend_all(trace, lengths);
    struct area out = lend(sizeof(uint64_t), outs);
    uint32_t number = supharoek_run(lent.trace.at, lent.trace.length, (uint64_t *)lent.blocks.at, lent.blocks.length,
                                    (uint16_t *)lent.stretches.at, lent.stretches.length, (uint64_t *)lent.counts.at,
                                    lent.counts.length, (uint64_t *)out.at, outs);
    check(number == expected->number, "the answer of a run", which);
    check(begins_with(out, expected->told, expected->tells), "what a run tells", which);
    check_areas(&lent, expected, which);
    take_back_all(lent);
    take_back(out);
}

/* The sheet by sprintf, and its length. */
static size_t print_sheet(char *text, const struct expected *expected) {
    const uint64_t *told = expected->told, *six = expected->counts;
    if (expected->number)
        return (size_t)sprintf(text, "refused %u at %lu\n", expected->number, told[0]);
    int length = sprintf(text, "accesses %lu stretches %lu block %lu\n", told[0], told[1], told[2]);
    for (size_t m = 1; m <= expected->writes; m++, six += KINDS)
        length += sprintf(text + length, "%lu %lu %lu %lu %lu %lu %lu %lu\n", m, six[4] + six[5], six[0], six[1],
                          six[2], six[3], six[4], six[5]);
    return (size_t)length;
}

static char sheet[SUPHAROEK_TEXT];

size_t sheet_length(const struct expected *expected) {
    return print_sheet(sheet, expected);
}

void check_sheet(const struct trace *trace, const size_t *lengths, const struct expected *expected, size_t room,
                 uint64_t which) {
    size_t length = print_sheet(sheet, expected);
    struct lent lent = lend_all(trace, lengths);
    struct area text = lend(1, room);
    size_t answer = supharoek_sheet(lent.trace.at, lent.trace.length, (uint64_t *)lent.blocks.at, lent.blocks.length,
                                    (uint16_t *)lent.stretches.at, lent.stretches.length, (uint64_t *)lent.counts.at,
                                    lent.counts.length, text.at, text.length);
    check(answer == length, "the length of a sheet", which);
    check(begins_with(text, sheet, length), "a sheet", which);
    check_areas(&lent, expected, which);
    take_back_all(lent);
    take_back(text);
}

struct expected check_both(const struct trace *trace, const size_t *lengths, uint64_t which) {
    struct expected expected = expected_of(trace, lengths);
    check_run(trace, lengths, &expected, MOST_TOLD, which);
    check_sheet(trace, lengths, &expected, SUPHAROEK_TEXT, which);
    return expected;
}
