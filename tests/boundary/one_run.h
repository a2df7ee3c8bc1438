/* One trace through supharoek_run and supharoek_sheet, held to what they have to answer and to leave. */
#ifndef ONE_RUN_H
#define ONE_RUN_H

#include <stddef.h>
#include <stdint.h>

#include "supharoek.h"
#include "traces.h"

enum { AREAS = 3, MOST_TOLD = 3 };

/* What a run has to answer and to tell, and the counts that it has to leave for sizes 1 to `writes`, 0 for none. */
struct expected {
    uint32_t number;
    size_t tells, writes;
    uint64_t told[MOST_TOLD];
    uint64_t counts[SUPHAROEK_COUNTS(SUPHAROEK_LARGEST)];
};

/* The lengths that the areas have to have for a size: of blocks, of stretches, of counts. */
void stated_lengths(size_t *lengths, size_t n);

/* What the rule makes of a trace, with areas of these lengths. */
struct expected expected_of(const struct trace *trace, const size_t *lengths);

void check_run(const struct trace *trace, const size_t *lengths, const struct expected *expected, size_t outs,
               uint64_t which);
void check_sheet(const struct trace *trace, const size_t *lengths, const struct expected *expected, size_t room,
                 uint64_t which);

/* The length of the sheet that is expected. */
size_t sheet_length(const struct expected *expected);

/* Both calls, with room for all that they tell; answers what was expected. */
struct expected check_both(const struct trace *trace, const size_t *lengths, uint64_t which);

#endif
