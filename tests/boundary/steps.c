/* supharoek_step: walks on cards of every kind against the rule, and everything that it refuses. */
#include <string.h>

#include "areas.h"
#include "checks.h"
#include "format.h"
#include "rule.h"
#include "supharoek.h"
#include "tally.h"
#include "traces.h"

/* A volume that traces by chance do not have. */
enum { NO_VOLUME = 3 };

enum { SMALL_WALKS = 2000, SMALL_SIZES = 12, SMALL_READS = 30, PLACES = SUPHAROEK_LARGEST };

/* A read, and the card that it is done on. */
struct step {
    size_t size;
    uint64_t volume, priority;
    uint32_t block;
};

/* One call on the places as they are: its number, what it tells, and the places after it. */
static void check_step(struct area places, struct step step, size_t outs, uint32_t number, uint64_t outcome,
                       const uint64_t *after) {
    struct area out = lend(sizeof(uint64_t), outs);
    renew(places);
    uint32_t answer = supharoek_step(step.size, (uint64_t *)places.at, places.length, step.volume, step.block,
                                     step.priority, (uint64_t *)out.at, outs);
    check(answer == number, "the answer of a step", number);
    /* the outcome and whether it is a hit; too little room has the place 0, and no other refusal has one */
    const uint64_t told[] = {number ? 0 : outcome, outcome < SUPHAROEK_INSERT};
    check(begins_with(out, told, number == 0 ? 2 : number == SUPHAROEK_ROOM), "what a step tells", number);
    if (number)
        check(kept_after(places, 0), "the places of a refused step", number);
    else
        check(holds(places, 0, after, PLACES), "the places after a step", outcome);
    take_back(out);
}

/* How often each outcome was met on cards of each size. */
static uint64_t seen[PLACES + 1][KINDS];

/* The reads of a trace, one after the other, on a card of a size with these blocks. */
static void walk(const struct trace *trace, uint64_t *card, size_t size, size_t places_length) {
    struct area places = lend(sizeof(uint64_t), places_length);
    memcpy(places.at, card, PLACES * sizeof *card);
    for (size_t at = header_at_start(trace->bytes, trace->length).end; at < trace->length;) {
        struct reading found = record_at(trace->bytes, trace->length, at);
        struct step step = {size, found.values[0], found.values[2], (uint32_t)found.values[1]};
        uint64_t outcome = read_on(card, size, key_of(step.volume, step.block), step.priority);
        check_step(places, step, from_to(0, 3), 0, outcome, card);
        seen[size][outcome]++;
        at = found.end;
    }
    take_back(places);
    end_case();
}

/* A walk from an empty card, or from one with blocks and holes by chance. */
static void some_walk(size_t size, size_t reads, int kind, size_t places_length) {
    struct trace trace = {0};
    uint64_t card[PLACES] = {0};
    make_trace(&trace, size, reads, kind);
    add_outcomes(&trace, NO_VOLUME, 1);
    if (kind % 2)
        for (size_t i = 0; i < size; i++)
            card[i] = from_to(0, 2) ? key_of(from_to(0, 1), 2 * i) : 0;
    walk(&trace, card, size, places_length);
    drop_trace(&trace);
}

static void check_walks(void) {
    for (int i = 0; i < SMALL_WALKS; i++)
        some_walk(1 + (size_t)i % SMALL_SIZES, from_to(0, SMALL_READS), i / SMALL_SIZES % PRIORITY_KINDS,
                  PLACES + from_to(0, 2) * from_to(0, 5));
    for (size_t size = 1; size <= PLACES; size++)
        for (int kind = 0; kind < PRIORITY_KINDS; kind++)
            some_walk(size, SMALL_READS + 2 * size, kind, from_to(0, 1) ? PLACES : from_to(PLACES, 300));
    some_walk(PLACES, SMALL_READS, 1, 65536);
    for (size_t size = 1; size <= PLACES; size++)
        for (uint64_t outcome = 0; outcome < KINDS; outcome++)
            check(seen[size][outcome] > 0 || (size == 1 && (outcome == SUPHAROEK_UP || outcome == SUPHAROEK_DOWN)),
                  "every outcome of a step at every size", size);
    end_case();
}

/* A card of three places with two blocks on it, changed at one place. */
struct card {
    uint64_t places[PLACES];
};

static struct card changed(size_t place, uint64_t key) {
    struct card card = {{key_of(1, 10), 0, key_of(65535, UINT32_MAX)}};
    card.places[place] = key;
    return card;
}

/* A step that is refused, on so many places. */
static void check_refused(struct card card, size_t length, struct step step, uint32_t number) {
    struct area places = lend(sizeof(uint64_t), length);
    memcpy(places.at, card.places, (length < PLACES ? length : PLACES) * sizeof *card.places);
    for (size_t outs = 0; outs <= 3; outs++)
        check_step(places, step, outs, number, 0, card.places);
    take_back(places);
    end_case();
}

/* Sizes that are none, on cards that have blocks and on an empty one. */
static void check_sizes(struct step step) {
    static const size_t sizes[] = {0, 128, 256, 259, 65539, 4294967299, SIZE_MAX};
    const struct card empty = {{0}};
    for (size_t i = 0; i < sizeof sizes / sizeof *sizes; i++) {
        step.size = sizes[i];
        check_refused(empty, PLACES, step, SUPHAROEK_STATE);
        check_refused(changed(1, 0), PLACES, step, SUPHAROEK_STATE);
    }
}

/* At every place a block that cannot be there: one too large, one that is somewhere else too, one after the size. */
static void check_places(struct step step) {
    struct card full;
    for (size_t i = 0; i < PLACES; i++)
        full.places[i] = key_of(i % 3, 1000 - i);
    for (size_t i = 0; i < PLACES; i++) {
        struct card card = full;
        step.size = PLACES;
        card.places[i] = 281474976710657 + (i % 2 ? chance() >> 1 : 0);
        check_refused(card, PLACES, step, SUPHAROEK_STATE);
        card.places[i] = full.places[(i + from_to(1, PLACES - 1)) % PLACES];
        check_refused(card, PLACES, step, SUPHAROEK_STATE);
    }
    for (size_t i = 1; i < PLACES; i++) {
        struct card one = {{0}};
        one.places[i] = full.places[i];
        step.size = i;
        check_refused(one, PLACES, step, SUPHAROEK_STATE);
        step.size = from_to(1, i);
        check_refused(one, PLACES, step, SUPHAROEK_STATE);
    }
}

/* What is wrong is told in the order of the tests: room, state, volume, priority. */
static void check_order(struct step right) {
    static const uint64_t volumes[] = {65536, 65537, 4294967297, UINT64_MAX};
    static const uint64_t priorities[] = {16384, 65536, 65537, 4294967296, 4294967297, UINT64_MAX};
    const struct card good = changed(1, 0), bad = changed(1, UINT64_MAX);
    for (size_t i = 0; i < sizeof volumes / sizeof *volumes; i++) {
        struct step step = right;
        step.volume = volumes[i];
        check_refused(good, PLACES, step, SUPHAROEK_VOLUME);
        step.priority = 16384;
        check_refused(good, PLACES, step, SUPHAROEK_VOLUME);
        check_refused(bad, PLACES, step, SUPHAROEK_STATE);
        check_refused(bad, PLACES - 1, step, SUPHAROEK_ROOM);
    }
    for (size_t i = 0; i < sizeof priorities / sizeof *priorities; i++) {
        struct step step = right;
        step.priority = priorities[i];
        check_refused(good, PLACES + i, step, SUPHAROEK_PRIORITY);
        check_refused(bad, PLACES, step, SUPHAROEK_STATE);
    }
}

void check_steps(void) {
    const struct step right = {3, 1, 1, 10};
    check_sizes(right);
    check_places(right);
    check_order(right);
    check_refused(changed(1, key_of(1, 10)), PLACES, right, SUPHAROEK_STATE);
    check_refused(changed(1, 281474976710657), PLACES + 1, right, SUPHAROEK_STATE);
    for (size_t length = 0; length < PLACES; length++)
        check_refused(changed(1, 0), length, right, SUPHAROEK_ROOM);
    check_walks();
}
