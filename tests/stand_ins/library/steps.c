/* The step for one size, the counts of its outcomes, and the miss ratio. */
#include <string.h>

#include "library.h"
#include "rule.h"

static const uint64_t largest_key = 281474976710656, most_reads = 9007199254740992;

/* The block at a place, from 0 on, may be there. */
static int may_be(const uint64_t *places, size_t size, size_t place) {
    uint64_t key = places[place];
    if (key == 0)
        return 1;
    if (place >= size && !(fault == last_place_taken && place == SUPHAROEK_LARGEST - 1))
        return 0;
    if (key > largest_key && !(fault == large_to_100 && place >= 100))
        return 0;
    for (size_t other = fault == neighbours_tested && place > 0 ? place - 1 : 0; other < place; other++)
        if (places[other] == key)
            return 0;
    return 1;
}

static int is_card(size_t size, const uint64_t *places, size_t places_length) {
    if (size > SUPHAROEK_LARGEST || (size == 0 && fault != step_size_0))
        return 0;
    for (size_t i = 0; i < SUPHAROEK_LARGEST; i++)
        if (!may_be(places, size, i))
            return 0;
    for (size_t i = SUPHAROEK_LARGEST; i < places_length && fault == beyond_tested; i++)
        if (places[i] != 0)
            return 0;
    return 1;
}

static uint64_t read_places(uint64_t *places, size_t size, uint64_t key, uint64_t priority) {
    uint64_t before[SUPHAROEK_LARGEST];
    memcpy(before, places, sizeof before);
    if (fault == step_13_to_99 && size >= 13 && size <= 99)
        priority++;
    if (fault == step_no_hint_bypasses && priority == 0)
        priority = size + 1;
    uint64_t outcome = read_on(places, size, key, priority);
    if (fault == step_down_at_57 && size == 57 && outcome == SUPHAROEK_DOWN)
        memcpy(places, before, sizeof before);
    if (fault == step_no_hint_moves_nothing && priority == 0)
        memcpy(places, before, sizeof before);
    if (fault == step_closes_holes && places[0] == 0) {
        memmove(places, places + 1, (size - 1) * sizeof *places);
        places[size - 1] = 0;
    }
    return outcome;
}

static uint32_t step_refusal(size_t size, const uint64_t *places, size_t places_length, uint64_t volume,
                             uint64_t priority) {
    int wrong_priority =
        priority > 16383 + (fault == step_priority_16384) || (fault == step_no_hint_refused && priority == 0);
    if (places_length < SUPHAROEK_LARGEST || (fault == places_150 && places_length > 150))
        return SUPHAROEK_ROOM;
    if (!is_card(size, places, places_length))
        return SUPHAROEK_STATE;
    if (volume > 65535 && !(fault == priority_tested_first && wrong_priority))
        return SUPHAROEK_VOLUME;
    return wrong_priority ? SUPHAROEK_PRIORITY : 0;
}

uint32_t supharoek_step(size_t size, uint64_t *places, size_t places_length, uint64_t volume, uint32_t block,
                        uint64_t priority, uint64_t *out, size_t out_length) {
    size_t looked_at = fault == step_size_8_bits ? size % 256 : size;
    uint32_t number = step_refusal(looked_at, places, places_length, volume, priority);
    uint64_t told[] = {number == SUPHAROEK_ROOM ? 0 : number, 0};
    if (number == 0)
        told[0] = read_places(places, looked_at,
                              key_of(volume, fault == step_block_31_bits ? block % 2147483648u : block), priority);
    told[1] = told[0] < SUPHAROEK_INSERT - (fault == hit_bypass_missed) + (fault == insert_hits);
    if (fault == beyond_written && places_length > SUPHAROEK_LARGEST)
        places[SUPHAROEK_LARGEST] = 0;
    if (number == 0)
        tell(out, out_length, told, fault == hit_untold ? 1 : 2);
    else if (number == SUPHAROEK_ROOM ? fault != step_room_untold : fault == refused_step_told)
        tell(out, out_length, told, 1);
    return number;
}

/* The slot of an outcome; past the counts for a number that is none. */
static size_t slot_of(uint32_t outcome) {
    if (fault == count_8_bits)
        outcome = (uint8_t)outcome;
    if (fault == bypasses_one_slot && outcome == SUPHAROEK_MISS_BYPASS)
        return SUPHAROEK_HIT_BYPASS;
    if (fault == count_past && outcome == SUPHAROEK_OUTCOMES)
        return SUPHAROEK_OUTCOMES - 1;
    return outcome;
}

uint32_t supharoek_count(uint32_t outcome, uint64_t *counts, size_t counts_length, uint64_t *out, size_t out_length) {
    uint64_t told = 0;
    size_t slot = slot_of(outcome), slots = fault == all_counted ? counts_length : SUPHAROEK_OUTCOMES;
    if (counts_length < SUPHAROEK_OUTCOMES - (fault == count_of_five) || (fault == many_counts_refused && counts_length > 65535)) {
        if (fault != count_room_untold)
            tell(out, out_length, &told, 1);
        return SUPHAROEK_ROOM;
    }
    if (slot < slots && slot < counts_length && (counts[slot] != UINT64_MAX || fault == count_wraps)) {
        counts[slot] += fault == count_32_bits && counts[slot] == UINT32_MAX ? 0 : 1;
        told = 1;
    }
    if (fault == full_count_told && slot < slots)
        told = 1;
    if (told || fault != nothing_untold)
        tell(out, out_length, &told, 1);
    return 0;
}

uint32_t supharoek_ratio(uint64_t misses, uint64_t reads, double *ratio) {
    if (reads == 0 || misses > reads || reads > most_reads || (fault == ratio_most && reads == most_reads)) {
        if (fault == ratio_zeroed)
            *ratio = 0;
        return SUPHAROEK_RATIO;
    }
    if (fault == ratio_32_bits)
        misses = (uint32_t)misses;
    *ratio = (double)misses / (double)reads;
    if (fault == ratio_product)
        *ratio = (double)misses * (1 / (double)reads);
    if (fault == ratio_float)
        *ratio = (float)misses / (float)reads;
    return 0;
}
