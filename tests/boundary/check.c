/* The library as a C program meets it: every call of supharoek.h, on areas with guards around them. */
#include "checks.h"
#include "tally.h"

/* With any argument the first wrong case is the last one. */
int main(int given, char **arguments) {
    (void)arguments;
    if (given > 1)
        stop_at_first();
    check_reading();
    check_writing();
    check_ratios();
    check_counts();
    check_what_is_stated();
    check_salvaging();
    check_steps();
    check_rooms();
    check_runs();
    check_many_reads();
    check_climbs();
    check_longest_sheet();
    return end_tally();
}
