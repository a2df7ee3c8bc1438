/* Runs on traces that climb: one block gets as many stretches as any can have, half of the sizes rounded up. */
#include <string.h>

#include "checks.h"
#include "one_run.h"
#include "rule.h"
#include "tally.h"

/* The volumes of the blocks of a climb and of others, and the stretches of all blocks that the largest one passes. */
enum { FILLER = 1, STEP = 2, CLIMBER = 3, FRESH = 4, MANY = 1000 };

/* Fillers at the top half, steps below them; without the fillers the steps come up by half, and each is present only
 * at sizes from its old place on. So each step that goes lets the climbers below it up at those sizes alone. */
static void climb(struct trace *trace, size_t n) {
    size_t half = (n + 1) / 2, past = n + 1;
    for (size_t i = 1; i <= half; i++)
        add_read(trace, FILLER, i, i);
    for (size_t i = 1; i < half; i++)
        add_read(trace, STEP, i, half + i);
    for (size_t i = 1; i <= half; i++)
        add_read(trace, FILLER, i, past);
    for (size_t i = half; i <= n; i++)
        add_read(trace, CLIMBER, i, i);
    for (size_t i = 1; i < half; i++)
        add_read(trace, STEP, i, past);
}

/* Reads by chance of blocks that climbed and of others, so that long lists of stretches meet. */
static void add_some(struct trace *trace, size_t n, size_t reads) {
    for (size_t i = 0; i < reads; i++)
        add_read(trace, from_to(0, 1) ? CLIMBER : from_to(FILLER, FRESH), from_to(1, n), from_to(1, n + 2));
}

/* Every size does something that the next smaller one does not. */
static int sizes_differ(const struct expected *expected) {
    for (size_t m = 1; m < expected->writes; m++)
        if (memcmp(expected->counts + KINDS * (m - 1), expected->counts + KINDS * m, KINDS * sizeof(uint64_t)) == 0)
            return 0;
    return 1;
}

void check_climbs(void) {
    struct trace trace = {0};
    for (size_t n = 1; n <= SUPHAROEK_LARGEST; n++) {
        size_t lengths[AREAS];
        stated_lengths(lengths, n);
        begin_trace(&trace, n, 5 * n + 5);
        climb(&trace, n);
        add_some(&trace, n, 2 * n);
        struct expected expected = check_both(&trace, lengths, n);
        check(expected.told[2] == (n + 1) / 2, "the stretches that a climb reaches", n);
        check(n < SUPHAROEK_LARGEST || expected.told[1] > MANY, "all stretches of a climb", n);
        check(sizes_differ(&expected), "sizes that differ", n);
        end_case();
    }
    drop_trace(&trace);
}
