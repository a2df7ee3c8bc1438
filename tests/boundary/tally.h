/* Counts the cases that are right and those that are not; pseudo-random numbers, the same ones on every run. */
#ifndef TALLY_H
#define TALLY_H

#include <stdint.h>

/* Something that has to be right, in the case of this number. */
void check(int right, const char *what, uint64_t which);

/* A case is over: it passed where everything checked since the last one was right. */
void end_case(void);

/* From now on the first wrong case is the last one: the sum is printed and the program ends. */
void stop_at_first(void);

/* Prints the sum; the exit status. */
int end_tally(void);

uint64_t chance(void);

/* A number from least to most. */
uint64_t from_to(uint64_t least, uint64_t most);

#endif
