/* supharoek_count: an outcome added to counts of any values and lengths, and what a host that keeps one card adds up. */
#include <string.h>

#include "areas.h"
#include "checks.h"
#include "format.h"
#include "one_run.h"
#include "supharoek.h"
#include "tally.h"

enum { OUTCOMES = SUPHAROEK_OUTCOMES, ROUNDS = 40, HOSTS = 400, MOST_READS = 60 };

/* One call on the counts as they are: its answer, what it tells, and the counts after it. */
static void check_count(struct area counts, uint32_t outcome, size_t outs) {
    struct area out = lend(sizeof(uint64_t), outs);
    uint64_t one_more = 0, added = 0;
    int room = counts.length >= OUTCOMES;
    renew(counts);
    if (room && outcome < OUTCOMES) {
        memcpy(&one_more, counts.at + outcome * sizeof one_more, sizeof one_more);
        added = ++one_more != 0;
    }
    uint32_t answer = supharoek_count(outcome, (uint64_t *)counts.at, counts.length, (uint64_t *)out.at, outs);
    check(answer == (room ? 0 : SUPHAROEK_ROOM), "the answer of a count", outcome);
    check(begins_with(out, &added, 1), "what a count tells", outcome);
    check(added ? holds(counts, outcome, &one_more, 1) : kept_after(counts, 0), "the counts after a count", outcome);
    take_back(out);
    end_case();
}

/* Numbers that are outcomes and numbers that are none, on counts by chance, with one that is full or nearly so. */
static void check_numbers(size_t length) {
    static const uint32_t numbers[] = {0, 1, 2, 3, 4, 5, 6, 7, 8, 127, 255, 256, 259, 65536, 65540, UINT32_MAX};
    struct area counts = lend(sizeof(uint64_t), length);
    for (size_t i = 0; i < sizeof numbers / sizeof *numbers; i++) {
        const uint64_t edges[] = {0, UINT32_MAX, UINT64_MAX - 1, UINT64_MAX};
        uint64_t edge = edges[from_to(0, 3)];
        if (numbers[i] < length)
            memcpy(counts.at + numbers[i] * sizeof edge, &edge, sizeof edge);
        check_count(counts, numbers[i], from_to(0, 2));
        check_count(counts, numbers[i], from_to(0, 2));
    }
    take_back(counts);
}

/* The reads of a trace on a card of one size, from empty on: the outcomes that the steps tell are counted, and are in the
 * end what the rule counts for that size. */
static void check_host(size_t n, size_t reads, int kind, size_t size) {
    struct trace trace = {0};
    uint64_t places[SUPHAROEK_LARGEST] = {0}, counts[OUTCOMES] = {0}, told[2];
    size_t lengths[AREAS];
    make_trace(&trace, n, reads, kind);
    stated_lengths(lengths, n);
    struct expected expected = expected_of(&trace, lengths);
    for (size_t at = header_at_start(trace.bytes, trace.length).end; at < trace.length;) {
        struct reading found = record_at(trace.bytes, trace.length, at);
        uint32_t answer = supharoek_step(size, places, SUPHAROEK_LARGEST, found.values[0], (uint32_t)found.values[1],
                                         found.values[2], told, 2);
        check(answer == 0 && supharoek_count((uint32_t)told[0], counts, OUTCOMES, told, 2) == 0, "a read of a host", size);
        at = found.end;
    }
    check(memcmp(counts, expected.counts + OUTCOMES * (size - 1), sizeof counts) == 0, "the counts of a host", size);
    drop_trace(&trace);
    end_case();
}

void check_counts(void) {
    for (size_t round = 0; round < ROUNDS; round++)
        for (size_t length = 0; length <= OUTCOMES + 2; length++)
            check_numbers(length);
    check_numbers(762);
    check_numbers(65542);
    for (int i = 0; i < HOSTS; i++) {
        size_t n = i % 5 ? from_to(1, 8) : from_to(1, SUPHAROEK_LARGEST);
        check_host(n, from_to(0, MOST_READS), i % PRIORITY_KINDS, from_to(1, n));
    }
}
