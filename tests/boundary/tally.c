#include "tally.h"

#include <stdio.h>
#include <stdlib.h>

enum { SHOWN = 40 };

static unsigned long passed, failed, wrong, wrong_here;
static int stops;

void check(int right, const char *what, uint64_t which) {
    if (right)
        return;
    wrong_here++;
    if (++wrong <= SHOWN)
        printf("wrong: %s, case %lu\n", what, (unsigned long)which);
}

void end_case(void) {
    if (wrong_here > 0)
        failed++;
    else
        passed++;
    wrong_here = 0;
    if (stops && failed > 0)
        exit(end_tally());
}

void stop_at_first(void) {
    stops = 1;
}

int end_tally(void) {
    if (wrong > SHOWN)
        printf("and %lu more are wrong\n", wrong - SHOWN);
    printf("%lu passed, %lu failed\n", passed, failed);
    return failed > 0 || passed == 0;
}

static uint64_t seed = 20261115;

/* The generator splitmix64. */
uint64_t chance(void) {
    uint64_t mixed = seed += 0x9e3779b97f4a7c15u;
    mixed = (mixed ^ (mixed >> 30)) * 0xbf58476d1ce4e5b9u;
    mixed = (mixed ^ (mixed >> 27)) * 0x94d049bb133111ebu;
    return mixed ^ (mixed >> 31);
}

uint64_t from_to(uint64_t least, uint64_t most) {
    uint64_t span = most - least + 1;
    return span == 0 ? chance() : least + chance() % span;
}
