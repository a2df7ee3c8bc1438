#include "rule.h"

#include <string.h>

uint64_t key_of(uint64_t volume, uint64_t block) {
    return volume * 4294967296u + block + 1;
}

/* The place of a block on a card, 0 where it is not there. */
static size_t place_on(const uint64_t *card, size_t size, uint64_t key) {
    for (size_t i = 0; i < size; i++)
        if (card[i] == key)
            return i + 1;
    return 0;
}

/* A block comes to place p, and what stood from p to just above the last place goes one lower. */
static void lower(uint64_t *card, size_t p, size_t last, uint64_t key) {
    memmove(card + p, card + p - 1, (last - p) * sizeof *card);
    card[p - 1] = key;
}

/* A block, or none, comes to the last place, and what stood below place j goes one higher. */
static void raise(uint64_t *card, size_t j, size_t last, uint64_t key) {
    memmove(card + j - 1, card + j, (last - j) * sizeof *card);
    card[last - 1] = key;
}

static uint64_t miss_on(uint64_t *card, size_t size, uint64_t key, uint64_t priority) {
    if (priority > size)
        return SUPHAROEK_MISS_BYPASS;
    lower(card, priority, size, key);
    return SUPHAROEK_INSERT;
}

uint64_t read_on(uint64_t *card, size_t size, uint64_t key, uint64_t priority) {
    size_t place = place_on(card, size, key);
    /* a read without a hint asks for the top */
    if (priority == 0)
        priority = 1;
    if (place == 0)
        return miss_on(card, size, key, priority);
    if (priority > size) {
        raise(card, place, size, 0);
        return SUPHAROEK_HIT_BYPASS;
    }
    if (priority < place) {
        lower(card, priority, place, key);
        return SUPHAROEK_UP;
    }
    if (priority == place)
        return SUPHAROEK_SAME;
    raise(card, place, priority, key);
    return SUPHAROEK_DOWN;
}

void begin(struct cards *cards, size_t size) {
    for (size_t number = 1; cards->keys[number] != 0; number++)
        cards->keys[number] = cards->stretches[number] = 0;
    memset(cards->places, 0, (size + 1) * sizeof *cards->places);
    memset(cards->counts, 0, sizeof cards->counts);
    cards->size = size;
    cards->reads = cards->total_peak = cards->one_peak = 0;
}

/* A block that is nowhere may lose its number to another one. */
uint64_t number_of(struct cards *cards, uint64_t key) {
    uint64_t number = 1, unused = 0;
    for (; cards->keys[number] != 0; number++) {
        if (cards->keys[number] == key)
            return number;
        if (cards->stretches[number] == 0)
            unused = number;
    }
    if (unused == 0)
        unused = number;
    cards->keys[unused] = key;
    return unused;
}

/* The stretches that begin at a size: those of the blocks that the next smaller card does not hold at the same place,
 * which has nothing at its place past the last. */
static uint64_t stretches_from(struct cards *cards, size_t size) {
    const uint64_t *card = cards->places[size], *smaller = cards->places[size - 1];
    uint64_t found = 0;
    /* quicker than the loop, and most cards are alike */
    if (memcmp(card, smaller, size * sizeof *card) == 0)
        return 0;
    for (size_t i = 0; i < size; i++) {
        if (card[i] == 0 || card[i] == smaller[i])
            continue;
        found++;
        if (++cards->stretches[card[i]] > cards->one_peak)
            cards->one_peak = cards->stretches[card[i]];
    }
    return found;
}

void renew_peaks(struct cards *cards) {
    uint64_t total = 0;
    for (size_t number = 1; cards->keys[number] != 0; number++)
        cards->stretches[number] = 0;
    for (size_t m = 1; m <= cards->size; m++)
        total += stretches_from(cards, m);
    if (total > cards->total_peak)
        cards->total_peak = total;
}

void read_on_all(struct cards *cards, uint64_t key, uint64_t priority) {
    uint64_t number = number_of(cards, key);
    for (size_t m = 1; m <= cards->size; m++)
        cards->counts[KINDS * (m - 1) + read_on(cards->places[m], m, number, priority)]++;
    cards->reads++;
    renew_peaks(cards);
}
