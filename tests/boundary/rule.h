/* The card rule a second time: each size is a card of its own, searched and shifted. */
#ifndef RULE_H
#define RULE_H

#include <stddef.h>
#include <stdint.h>

#include "supharoek.h"

/* The outcomes, and the most blocks that need a number: one for each place of all cards together, and the one read. */
enum { KINDS = 6, MOST_BLOCKS = SUPHAROEK_LARGEST * (SUPHAROEK_LARGEST + 1) / 2 + 1 };

/* What a place holds for a block: never 0. */
uint64_t key_of(uint64_t volume, uint64_t block);

/* A read on a card of a size: its outcome, and the card after it. */
uint64_t read_on(uint64_t *card, size_t size, uint64_t key, uint64_t priority);

/* Cards of sizes 1 to n with the counts of their outcomes, and the peaks of their stretches. Their places hold numbers
 * of blocks, from 1 on; a number has a key, 0 after the last one, and the stretches that its block has now. */
struct cards {
    size_t size;
    uint64_t places[SUPHAROEK_LARGEST + 1][SUPHAROEK_LARGEST];
    uint64_t keys[MOST_BLOCKS + 2], stretches[MOST_BLOCKS + 2];
    uint64_t counts[SUPHAROEK_COUNTS(SUPHAROEK_LARGEST)];
    uint64_t reads, total_peak, one_peak;
};

/* Empties cards that were used before, or are all zeros. */
void begin(struct cards *cards, size_t size);
void read_on_all(struct cards *cards, uint64_t key, uint64_t priority);

/* The parts of a read on all cards: the number of its block, and the peaks after it. */
uint64_t number_of(struct cards *cards, uint64_t key);
void renew_peaks(struct cards *cards);

#endif
