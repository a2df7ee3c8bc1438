/* supharoek_run and supharoek_sheet on traces by chance, right and damaged, with areas of every length. */
#include "checks.h"
#include "one_run.h"
#include "rule.h"
#include "tally.h"

enum { SMALL_TRACES = 2400, SMALL_SIZES = 12, MOST_READS = 40, LARGE_READS = 1000, MOST_OUTS = 5 };

/* How often each answer was given. */
static uint64_t seen[SUPHAROEK_RATIO + 1];

/* The lengths stated for a size; now and then longer ones, or one of them one too short. */
static void some_lengths(size_t *lengths, size_t n) {
    stated_lengths(lengths, n);
    if (from_to(0, 2) == 0)
        for (int i = 0; i < AREAS; i++)
            lengths[i] += from_to(0, 9);
    if (from_to(0, 9) == 0)
        lengths[from_to(0, AREAS - 1)] -= 1;
}

/* A text with room to spare, of the sheet's length, one byte shorter, of some length, or of none. */
static size_t some_room(size_t length) {
    const size_t rooms[] = {SUPHAROEK_TEXT, length, length - 1, from_to(0, length), 0};
    return rooms[from_to(0, 4)];
}

static void check_trace(const struct trace *trace, size_t n, uint64_t which) {
    size_t lengths[AREAS];
    some_lengths(lengths, n);
    struct expected expected = expected_of(trace, lengths);
    check_run(trace, lengths, &expected, from_to(0, 1) ? MOST_TOLD : from_to(0, MOST_OUTS), which);
    check_sheet(trace, lengths, &expected, some_room(sheet_length(&expected)), which);
    seen[expected.number]++;
    end_case();
}

static void check_small(struct trace *trace) {
    for (uint64_t i = 0; i < SMALL_TRACES; i++) {
        size_t n = 1 + i % SMALL_SIZES;
        make_trace(trace, n, from_to(0, MOST_READS), (int)(i / SMALL_SIZES % PRIORITY_KINDS));
        if (i % 5 > 2)
            damage(trace, (int)from_to(0, DAMAGES - 1));
        check_trace(trace, n, i);
    }
}

/* For each size a header alone, a trace, and one that may be damaged. */
static void check_every_size(struct trace *trace) {
    for (size_t n = 1; n <= SUPHAROEK_LARGEST; n++) {
        make_trace(trace, n, 0, 0);
        check_trace(trace, n, n);
        make_trace(trace, n, MOST_READS + 2 * n, (int)(n % PRIORITY_KINDS));
        check_trace(trace, n, n);
        make_trace(trace, n, MOST_READS + 2 * n, (int)from_to(0, PRIORITY_KINDS - 1));
        if (n % 3 == 0)
            damage(trace, (int)from_to(0, DAMAGES - 1));
        check_trace(trace, n, n);
    }
}

void check_runs(void) {
    struct trace trace = {0};
    check_small(&trace);
    check_every_size(&trace);
    for (int kind = 0; kind < PRIORITY_KINDS; kind++) {
        make_trace(&trace, SUPHAROEK_LARGEST, LARGE_READS, kind);
        check_trace(&trace, SUPHAROEK_LARGEST, (uint64_t)kind);
    }
    drop_trace(&trace);
    for (uint32_t number = 0; number <= SUPHAROEK_ROOM; number++)
        check(seen[number] > 0, "every answer of a run occurs", number);
    end_case();
}
