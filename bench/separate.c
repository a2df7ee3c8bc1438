/* N separate simulations in plain C: each size has a card of its own, searched and shifted.
 *
 * Compiled with INCLUSION, the run also uses that a block on a smaller card is on every larger one, at the same place or
 * nearer the top: it goes from the largest size to the smallest, and searches only where that leaves the place open. */
#include "input.h"

#ifndef INCLUSION
#define INCLUSION 0
#endif

enum { UP, SAME, DOWN, HIT_BYPASS, INSERT, MISS_BYPASS };

/* How many keys are tested at once. A search can reach past the last place, where only zeros are. */
enum { TESTED = 8 };

/* Two keys in four halves: every x86-64 compares numbers of 32 bits, and not every one those of 64. */
typedef int Halves __attribute__((vector_size(16), aligned(8), may_alias));
typedef short Words __attribute__((vector_size(16)));
typedef char Bytes __attribute__((vector_size(16)));

static u64 cards[LARGEST + 1][LARGEST + TESTED];

/* Of eight keys, a bit at every second place for each that is the block. */
static inline unsigned equal(const Halves *keys, Halves block) {
    Words first = __builtin_ia32_packssdw128(keys[0] == block, keys[1] == block);
    Words second = __builtin_ia32_packssdw128(keys[2] == block, keys[3] == block);
    unsigned halves = (unsigned)__builtin_ia32_pmovmskb128((Bytes)__builtin_ia32_packsswb128(first, second));
    return halves & halves >> 1 & 0x5555;
}

/* The place of a block on a card, at a place or below it; 0 where it is not there. */
static inline u64 place_of(const u64 *card, u64 size, u64 from, u64 block) {
    Halves wanted = {(int)block, (int)(block >> 32), (int)block, (int)(block >> 32)};
    for (u64 i = from - 1; i < size; i += TESTED) {
        unsigned found = equal((const Halves *)(card + i), wanted);
        if (found)
            return i + (u64)__builtin_ctz(found) / 2 + 1;
    }
    return 0;
}

/* A block comes to place p, and what stood from p to just above the last place goes one lower. */
static void lower(u64 *card, u64 p, u64 last, u64 block) {
    memmove(card + p, card + p - 1, (last - p) * sizeof *card);
    card[p - 1] = block;
}

/* A block, or none, comes to the last place, and what stood below place j goes one higher. */
static void raise(u64 *card, u64 j, u64 last, u64 block) {
    memmove(card + j - 1, card + j, (last - j) * sizeof *card);
    card[last - 1] = block;
}

static inline void add(u64 size, int kind) { counts[KINDS * (size - 1) + (u64)kind]++; }

static inline int hit(u64 *card, u64 size, u64 j, u64 block, u64 p) {
    if (p == j)
        return SAME;
    if (p < j) {
        lower(card, p, j, block);
        return UP;
    }
    if (p <= size) {
        raise(card, j, p, block);
        return DOWN;
    }
    raise(card, j, size, 0);
    return HIT_BYPASS;
}

static inline void insert(u64 size, u64 block, u64 p) {
    lower(cards[size], p, size, block);
    add(size, INSERT);
}

#if INCLUSION
/* A place is never nearer the top than one size before, and a block that is gone stays gone. */
static void one_read(u64 size, u64 block, u64 p) {
    u64 m = size;
    for (u64 j = 1; m > 0; m--) {
        if (cards[m][j - 1] != block)
            j = place_of(cards[m], m, j, block);
        if (j == 0)
            break;
        add(m, hit(cards[m], m, j, block, p));
    }
    for (; m >= p; m--)
        insert(m, block, p);
}
#else
static void one_read(u64 size, u64 block, u64 p) {
    for (u64 m = 1; m <= size; m++) {
        u64 j = place_of(cards[m], m, 1, block);
        if (j > 0)
            add(m, hit(cards[m], m, j, block, p));
        else if (p <= m)
            insert(m, block, p);
    }
}
#endif

/* A miss bypass changes nothing, and is what was not counted. */
static void count_bypasses(u64 size, u64 reads) {
    for (u64 m = 0; m < size; m++) {
        u64 *six = counts + KINDS * m;
        six[MISS_BYPASS] = reads - six[UP] - six[SAME] - six[DOWN] - six[HIT_BYPASS] - six[INSERT];
    }
}

int main(void) {
    u64 length = read_input(), at = HEAD, reads = 0;
    number(&at);
    u64 size = number(&at);
    for (; at < length; reads++) {
        u64 block = key(&at);
        one_read(size, block, INCLUSION ? asked(&at) : asked_unknown(&at));
    }
    count_bypasses(size, reads);
    tell_run(size, reads, 0, 0);
    return 0;
}
