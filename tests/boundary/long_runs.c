/* Long runs: traces of millions of bytes, more blocks than a table holds, counts of many digits, the longest sheet. */
#include <string.h>

#include "checks.h"
#include "format.h"
#include "one_run.h"
#include "rule.h"
#include "tally.h"

enum {
    SMALL_SIZE = 3,
    LONG_READS = 1100000,
    MOST_SMALL = 2,
    LARGE_SIZE = SUPHAROEK_LARGEST,
    PATTERN_PARTS = 10,
    PART_READS = OUTCOME_READS + 1,
    TIMES = 10001,
    SIX_DIGITS = 100000,
    SEVEN_DIGITS = 1000000
};

/* Reads of a few blocks again and again, and of one more block every eighth time. */
static void make_long(struct trace *trace) {
    begin_trace(trace, SMALL_SIZE, LONG_READS + 1);
    for (size_t i = 0; i < LONG_READS; i++)
        add_read(trace, from_to(0, 1), i % 8 ? from_to(1, MOST_SMALL) : i, from_to(0, SMALL_SIZE + 1));
}

void check_many_reads(void) {
    struct trace trace = {0};
    size_t lengths[AREAS];
    stated_lengths(lengths, SMALL_SIZE);
    make_long(&trace);
    struct expected expected = check_both(&trace, lengths, LONG_READS);
    check(trace.length > SEVEN_DIGITS && expected.told[0] > SEVEN_DIGITS, "a long run", LONG_READS);
    for (size_t i = SUPHAROEK_COUNTS(SMALL_SIZE - 1); i < SUPHAROEK_COUNTS(SMALL_SIZE); i++)
        check(expected.counts[i] > 65536, "counts over 65,536 of the largest size", i);
    end_case();
    add_read(&trace, 1, 1, 16384);
    check(check_both(&trace, lengths, LONG_READS).told[0] > SEVEN_DIGITS, "a refusal at a far place", LONG_READS);
    end_case();
    drop_trace(&trace);
}

/* Every outcome at every size, and a read by chance, several times. */
static void make_pattern(struct trace *trace) {
    begin_trace(trace, LARGE_SIZE, PATTERN_PARTS * PART_READS);
    for (int part = 0; part < PATTERN_PARTS; part++) {
        add_outcomes(trace, 1, 1);
        add_read(trace, 2, from_to(1, PATTERN_PARTS), from_to(1, LARGE_SIZE + 2));
    }
}

static void read_pattern(struct cards *cards, const struct trace *pattern) {
    for (size_t at = 2; at < pattern->length;) {
        struct reading found = record_at(pattern->bytes, pattern->length, at);
        read_on_all(cards, key_of(found.values[0], found.values[1]), found.values[2]);
        at = found.end;
    }
}

/* What a pattern gives so many times. Once it leaves the cards as they were before it, each further time adds the same
 * counts and goes through the same cards, so that no peak is new. */
static struct expected expected_of_pattern(const struct trace *pattern) {
    static struct cards cards, before;
    uint64_t done = 0;
    begin(&cards, LARGE_SIZE);
    do {
        before = cards;
        read_pattern(&cards, pattern);
        done++;
    } while (done < TIMES && (memcmp(before.places, cards.places, sizeof cards.places) != 0 ||
                              memcmp(before.keys, cards.keys, sizeof cards.keys) != 0));
    check(done < TIMES, "the pattern leaves the cards as they were", done);
    uint64_t reads = cards.reads + (TIMES - done) * (cards.reads - before.reads);
    struct expected expected = {0, MOST_TOLD, LARGE_SIZE, {reads, cards.total_peak, cards.one_peak}, {0}};
    for (size_t i = 0; i < SUPHAROEK_COUNTS(LARGE_SIZE); i++)
        expected.counts[i] = cards.counts[i] + (TIMES - done) * (cards.counts[i] - before.counts[i]);
    return expected;
}

void check_longest_sheet(void) {
    struct trace pattern = {0}, trace = {0};
    size_t lengths[AREAS];
    stated_lengths(lengths, LARGE_SIZE);
    make_pattern(&pattern);
    struct expected expected = expected_of_pattern(&pattern);
    begin_trace(&trace, LARGE_SIZE, TIMES * PATTERN_PARTS * PART_READS);
    for (size_t i = 0; i < TIMES; i++) {
        memcpy(trace.bytes + trace.length, pattern.bytes + 2, pattern.length - 2);
        trace.length += pattern.length - 2;
    }
    for (size_t i = KINDS; i < SUPHAROEK_COUNTS(LARGE_SIZE); i++)
        check(expected.counts[i] >= SIX_DIGITS, "counts of six digits", i);
    check(sheet_length(&expected) > 4096, "a long sheet", LARGE_SIZE);
    check_sheet(&trace, lengths, &expected, SUPHAROEK_TEXT, LARGE_SIZE);
    end_case();
    drop_trace(&pattern);
    drop_trace(&trace);
}
