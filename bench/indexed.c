/* N separate simulations in plain C, as separate.c, with an index of all blocks that the trace names: each size has a card
 * of its own, and takes every read by itself.
 *
 * A card holds marks, small numbers that stand for blocks, and 0 at an empty place. The mark of a block is its number
 * in the order of first reads. Compiled with INCLUSION, the run also uses that a block on a smaller card is on every
 * larger one, at the same place or nearer the top: it goes from the largest size to the smallest, and its marks are
 * bytes, since only the blocks on the largest card need one. */
#include "input.h"

#ifndef INCLUSION
#define INCLUSION 0
#endif

#if INCLUSION
typedef u8 Mark;
#else
typedef u16 Mark;
#endif

enum { UP, SAME, DOWN, HIT_BYPASS, INSERT, MISS_BYPASS };

/* A record has three bytes or more, so a trace has no more blocks than this, and a free key is always left. */
enum { BLOCKS = ROOM / 3, KEY_BITS = 15, KEYS = 1 << KEY_BITS };

/* How many marks are tested and moved at once, by vectors that can reach past a card's places, hence the margins. */
enum { TESTED = 16, MOVED = 16 / sizeof(Mark), MARGIN = 32, ABOVE = 512 };

typedef Mark Tested __attribute__((vector_size(TESTED * sizeof(Mark)), aligned(1), may_alias));
typedef Mark Moved __attribute__((vector_size(MOVED * sizeof(Mark)), aligned(1), may_alias));
typedef _Bool Equal __attribute__((ext_vector_type(TESTED)));

/* The places lie in a longer row, so that the top can go up; there is room ABOVE it at first. */
typedef struct { Mark *top, row[ABOVE + LARGEST + MARGIN]; u64 counts[KINDS]; } Card;

static Card cards[LARGEST + 1];
static u64 keys[KEYS];
static u16 numbers[KEYS];

/* The number of a block: 1 for the first one read, and so on. */
static inline u64 number_of(u64 block) {
    static u16 last;
    u64 at = block * 0x9E3779B97F4A7C15 >> (64 - KEY_BITS);
    while (keys[at] != block && keys[at] != 0)
        at = (at + 1) % KEYS;
    if (keys[at] == 0) {
        keys[at] = block;
        numbers[at] = ++last;
    }
    return numbers[at];
}

/* The place of a mark, which has to be at the place given or below it. */
static inline u64 place_of(const Mark *top, u64 place, Mark mark) {
    for (;; place += TESTED) {
        Equal equal = __builtin_convertvector(*(const Tested *)(top + place - 1) == mark, Equal);
        u16 bits;
        __builtin_memcpy(&bits, &equal, sizeof bits);
        if (bits)
            return place + (u64)__builtin_ctz(bits);
    }
}

/* A mark comes to place p, and what stood from p to just above the last place goes one lower. Vectors also write
 * above p, so what stood there is put back. */
static inline void lower(Mark *top, u64 p, u64 last, Mark mark) {
    Mark *to = top + p - 1;
    Moved above = *(Moved *)(to - MOVED);
    for (Mark *end = top + last; end > to + 1; end -= MOVED)
        *(Moved *)(end - MOVED) = *(Moved *)(end - MOVED - 1);
    *(Moved *)(to - MOVED) = above;
    *to = mark;
}

/* A mark, or none, comes to the last place, and what stood below place j goes one higher. Vectors also write below
 * the last place, so what stood there is put back. */
static inline void raise(Mark *top, u64 j, u64 last, Mark mark) {
    Mark *to = top + last - 1;
    Moved below = *(Moved *)(to + 1);
    for (Mark *from = top + j - 1; from < to; from += MOVED)
        *(Moved *)from = *(Moved *)(from + 1);
    *(Moved *)(to + 1) = below;
    *to = mark;
}

/* An insert into the lower half of a card moves what is at p and below. */
static inline void insert_low(Card *card, u64 m, u64 p, Mark mark) {
    card->counts[INSERT]++;
    lower(card->top, p, m, mark);
}

/* An insert into the upper half moves what is above p up, and the top with it. Where there is no more room above, the
 * card first goes back to where it was at the start. */
static inline void insert_high(Card *card, u64 m, u64 p, Mark mark) {
    card->counts[INSERT]++;
    if (card->top == card->row + MARGIN)
        card->top = memmove(card->row + ABOVE, card->top, m * sizeof(Mark));
    raise(--card->top, 1, p, mark);
}

static inline int hit(Mark *top, u64 m, u64 j, u64 p, Mark mark) {
    if (p < j) {
        lower(top, p, j, mark);
        return UP;
    }
    if (p == j)
        return SAME;
    if (p <= m) {
        raise(top, j, p, mark);
        return DOWN;
    }
    raise(top, j, m, 0);
    return HIT_BYPASS;
}

#if INCLUSION
/* The mark of each block, 0 where it is on no card, and the block of each mark, 0 where it stands for none. */
static Mark marks[BLOCKS + 1];
static u16 blocks[LARGEST + 1];

/* The read at all sizes whose card has the block; answers the largest size whose card has not. A search begins at the
 * place found one size before, and ends at the latest at the mark put after the last place. */
static inline u64 hits(u64 size, u64 p, Mark mark) {
    u64 m = size, j = 1;
    for (Card *card = cards + m; m >= j; m--, card--) {
        if (card->top[j - 1] != mark) {
            card->top[m] = mark;
            j = place_of(card->top, j + 1, mark);
            if (j > m)
                break;
        }
        card->counts[hit(card->top, m, j, p, mark)]++;
    }
    return m;
}

/* A mark for a block that is on no card: the one at the last place of the largest card, if any. Its block leaves, and
 * was on no smaller card, or it left before. */
static Mark new_mark(u64 block, Mark last) {
    static Mark given;
    Mark mark = last ? last : ++given;
    marks[blocks[mark]] = 0;
    blocks[mark] = (u16)block;
    return marks[block] = mark;
}

static inline void inserts(u64 m, u64 p, Mark mark) {
    Card *card = cards + m;
    for (; m >= 2 * p; m--, card--)
        insert_high(card, m, p, mark);
    for (; m >= p; m--, card--)
        insert_low(card, m, p, mark);
}

static void one_read(u64 size, u64 block, u64 p) {
    Mark mark = marks[block];
    u64 m = mark ? hits(size, p, mark) : size;
    Mark *last = cards[size].top + size - 1;
    if (p <= size) {
        if (mark == 0)
            mark = new_mark(block, *last);
        inserts(m, p, mark);
    } else if (mark) {
        /* the block left all cards, and its mark waits for the next new block */
        marks[block] = 0;
        blocks[mark] = 0;
        *last = mark;
    }
}
#else
/* Whether the card of each size has a block. No block has the number 0, so empty places leave like full ones. */
static u8 on_card[BLOCKS + 1][LARGEST + 1];

static inline void step(Card *card, u64 m, u64 block, u64 p) {
    u8 *on = &on_card[block][m];
    Mark mark = (Mark)block;
    if (*on) {
        card->counts[hit(card->top, m, place_of(card->top, 1, mark), p, mark)]++;
        *on = p <= m;
    } else if (p <= m) {
        on_card[card->top[m - 1]][m] = 0;
        *on = 1;
        if (m >= 2 * p)
            insert_high(card, m, p, mark);
        else
            insert_low(card, m, p, mark);
    }
}

static void one_read(u64 size, u64 block, u64 p) {
    Card *card = cards + 1;
    for (u64 m = 1; m <= size; m++, card++)
        step(card, m, block, p);
}
#endif

/* The counts of each size; a miss bypass changes nothing, and is what was not counted. */
static void finish(u64 size, u64 reads) {
    for (u64 m = 1; m <= size; m++) {
        u64 *to = counts + KINDS * (m - 1);
        to[MISS_BYPASS] = reads;
        for (int kind = UP; kind < MISS_BYPASS; kind++) {
            to[kind] = cards[m].counts[kind];
            to[MISS_BYPASS] -= to[kind];
        }
    }
}

int main(void) {
    u64 length = read_input(), at = HEAD, reads = 0;
    number(&at);
    u64 size = number(&at);
    for (u64 m = 1; m <= size; m++)
        cards[m].top = cards[m].row + ABOVE;
    for (; at < length; reads++) {
        u64 block = number_of(key(&at));
        one_read(size, block, asked(&at));
    }
    finish(size, reads);
    tell_run(size, reads, 0, 0);
    return 0;
}
