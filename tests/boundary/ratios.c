/* supharoek_ratio: bit for bit what C's own division gives. */
#include "areas.h"
#include "checks.h"
#include "supharoek.h"
#include "tally.h"

enum { ROUNDS = 5000 };

static const uint64_t most = 9007199254740992;

static void check_ratio(uint64_t misses, uint64_t reads, uint64_t which) {
    struct area ratio = lend(sizeof(double), 1);
    uint32_t refusal = reads == 0 || misses > reads || reads > most ? SUPHAROEK_RATIO : 0;
    double quotient = refusal ? 0 : (double)misses / (double)reads;
    check(supharoek_ratio(misses, reads, (double *)ratio.at) == refusal, "the answer of a ratio", which);
    check(begins_with(ratio, &quotient, refusal ? 0 : 1), "a ratio", which);
    take_back(ratio);
    end_case();
}

void check_ratios(void) {
    const uint64_t pairs[][2] = {
        {0, 0},          {1, 0},           {0, 1},       {1, 1},        {2, 1},           {1, 3},
        {0, most},       {1, most},        {most, most}, {most - 1, most}, {0, most + 1}, {most + 1, most + 1},
        {most + 1, most}, {UINT64_MAX, UINT64_MAX}, {UINT64_MAX, 1}, {1, UINT64_MAX}, {4294967297, 1},
    };
    for (size_t i = 0; i < sizeof pairs / sizeof *pairs; i++)
        check_ratio(pairs[i][0], pairs[i][1], i);
    for (uint64_t i = 0; i < ROUNDS; i++) {
        uint64_t reads = chance() >> from_to(9, 63);
        check_ratio(from_to(0, 9) ? from_to(0, reads) : chance() >> from_to(0, 63), reads, i);
    }
}
