/* All sizes in one pass, in plain C: the algorithm of crates/sizes, without its proofs.
 *
 * Row i belongs to the block at place i + 1 of the largest card. It lists the block's stretches as pairs, a first
 * size and a place, and ends with the pair whose place is i + 1. An empty place has a list of one pair. Compiled with
 * INTERVAL, the run also keeps bounds outside which every row i is (i + 1, i + 1), and does not walk those rows. */
#include "input.h"

#ifndef INTERVAL
#define INTERVAL 0
#endif

enum { UP, SAME, DOWN, HIT_BYPASS, INSERT, BYPASS_END, ROW = LARGEST + 1 };

/* The total of stretches, its peak, the peak of one block, and the rows that have to be walked. */
static struct { u64 total, peak, one, from, to; } sums;

/* One read: the size of the largest card, the priority, and the list of the block read with size + 1 after it. */
typedef struct { u64 n, p; u16 list[ROW + 2]; } Access;

/* The lengths of a list before and after a read. */
typedef struct { u64 before, after; } Lengths;

static u64 blocks[LARGEST];
static u16 rows[LARGEST][ROW];

static inline u64 least(u64 a, u64 b) { return a < b ? a : b; }
static inline u64 most(u64 a, u64 b) { return a < b ? b : a; }

/* By fours: the search is a large part of a read that changes little. */
static u64 place_of(u64 n, u64 block) {
    u64 i = 0;
    for (; i + 4 <= n; i += 4) {
        if (blocks[i] == block) return i + 1;
        if (blocks[i + 1] == block) return i + 2;
        if (blocks[i + 2] == block) return i + 3;
        if (blocks[i + 3] == block) return i + 4;
    }
    for (; i < n; i++)
        if (blocks[i] == block) return i + 1;
    return 0;
}

static void set_pair(u64 i, u64 first, u64 place) {
    rows[i][0] = (u16)first;
    rows[i][1] = (u16)place;
}

/* Copies row i to the access; answers how many pairs it has. */
static u64 load(Access *a, u64 i) {
    u64 q = 0, place;
    do {
        a->list[q] = rows[i][q];
        place = a->list[q + 1] = rows[i][q + 1];
        q += 2;
    } while (place != i + 1);
    a->list[q] = (u16)(a->n + 1);
    return q / 2;
}

/* Row i's list after the read, into out: a merge of its pairs with those of the block read. */
static Lengths merge(const Access *access, u64 i, u16 *out) {
    const u16 *a = access->list, *b = rows[i] + 2;
    u64 n = access->n, p = access->p, m = rows[i][0], l = rows[i][1], j = n + 1, last = 0, d = 0;
    u64 next = l == i + 1 ? n + 1 : b[0];
    for (; a[0] <= m; a += 2)
        j = a[1];
    while (m <= n) {
        u64 end = least(a[0], next), place = l > j ? l - 1 : l, start = m;
        if (place >= p) {
            if (place == m) start = m + 1;
            place++;
        }
        if (start < end && place != last) {
            out[d] = (u16)start;
            out[d + 1] = (u16)place;
            d += 2;
            last = place;
        }
        m = end;
        if (end > n) break;
        if (a[0] == end) {
            j = a[1];
            a += 2;
        }
        if (next == end) {
            l = b[1];
            b += 2;
            next = l == i + 1 ? n + 1 : b[0];
        }
    }
    return (Lengths){(u64)(b - rows[i]) / 2, d / 2};
}

/* Row i's list goes to row t by a merge. */
static void renew(const Access *a, u64 i, u64 t) {
    u16 out[ROW + 2];
    if (blocks[i] == 0) {
        set_pair(t, t + 1, t + 1);
        return;
    }
    Lengths lengths = merge(a, i, out);
    for (u64 q = 0; q < 2 * lengths.after; q++)
        rows[t][q] = out[q];
    sums.one = most(sums.one, lengths.after);
    sums.total += lengths.after - lengths.before;
}

/* A list of several pairs goes one row down as it is; answers whether its first pair left the card. */
static u64 shift_down(u64 i) {
    const u16 *from = rows[i];
    u16 *to = rows[i + 1];
    u64 first = from[0], place = from[1], q = 2, d = 2;
    if (first == place && ++first == from[2]) {
        place = from[3];
        q = 4;
    }
    u64 gone = q / 2 - 1;
    set_pair(i + 1, first, place + 1);
    for (; place != i + 1; q += 2, d += 2) {
        place = from[q + 1];
        to[d] = from[q];
        to[d + 1] = (u16)(place + 1);
    }
    return gone;
}

static void shift_up(u64 i) {
    const u16 *from = rows[i];
    u16 *to = rows[i - 1];
    u64 place = from[1];
    set_pair(i - 1, from[0], place - 1);
    for (u64 q = 2; place != i + 1; q += 2) {
        place = from[q + 1];
        to[q] = from[q];
        to[q + 1] = (u16)(place - 1);
    }
}

static inline void down_one(const Access *a, u64 i, u64 j) {
    u64 first = rows[i][0], place = rows[i][1];
    if (place == i + 1) {
        set_pair(i + 1, first == place ? first + 1 : first, place + 1);
        return;
    }
    if (place <= j) {
        sums.total -= shift_down(i);
        return;
    }
    renew(a, i, i + 1);
}

/* Rows lo to hi - 1 go one down, the lowest first. */
static void rows_down(const Access *a, u64 lo, u64 hi) {
    u64 from = sums.from, to = sums.to, end = most(lo, from), i = least(hi, to);
    if (INTERVAL && end < i && to <= hi) sums.to = to + 1;
    while (i > end)
        down_one(a, --i, hi + 1);
    if (INTERVAL && lo < from && from <= hi && from < to) {
        set_pair(from, from + 1, from + 1);
        sums.from = from + 1;
    }
}

static inline void up_one(const Access *a, u64 i) {
    u64 first = rows[i][0], place = rows[i][1];
    if (first >= a->list[0] && i + 1 > a->list[1]) {
        if (place == i + 1) {
            set_pair(i - 1, first, i);
            return;
        }
        if (place <= a->p) {
            shift_up(i);
            return;
        }
    }
    renew(a, i, i - 1);
}

static void widen(u64 from, u64 to) {
    if (!INTERVAL) return;
    int none = sums.from >= sums.to;
    sums.from = none ? from : least(sums.from, from);
    sums.to = none ? to : most(sums.to, to);
}

/* Rows j to hi - 1 go one up, the highest first. */
static void rows_up(const Access *a, u64 j, u64 hi) {
    widen(j - 1, hi);
    for (u64 i = j; i < hi; i++)
        up_one(a, i);
}

/* Rows above both places: only a list with a place at or below the higher of them changes. */
static void rows_above(const Access *a, u64 lo) {
    for (u64 i = sums.from, end = least(lo - 1, sums.to); i < end; i++)
        if (rows[i][1] >= lo) renew(a, i, i);
}

/* Rows below both places: only where the block read was not above them at every size. */
static void rows_below(const Access *a, u64 hi) {
    u64 first = a->list[0], place = a->list[1], end = INTERVAL ? most(sums.to, first - 1) : a->n;
    for (u64 i = hi; i < end; i++)
        if (rows[i][0] < first || i + 1 <= place) {
            widen(i, i + 1);
            renew(a, i, i);
        }
}

static void narrow(void) {
    if (!INTERVAL) return;
    while (sums.from < sums.to && rows[sums.from][0] == sums.from + 1 && rows[sums.from][1] == sums.from + 1)
        sums.from++;
    while (sums.from < sums.to && rows[sums.to - 1][0] == sums.to && rows[sums.to - 1][1] == sums.to)
        sums.to--;
}

static void lower(u64 lo, u64 hi, u64 block) {
    memmove(blocks + lo + 1, blocks + lo, (hi - lo) * sizeof *blocks);
    blocks[lo] = block;
}

static void raise(u64 lo, u64 hi, u64 block) {
    memmove(blocks + lo, blocks + lo + 1, (hi - lo) * sizeof *blocks);
    blocks[hi] = block;
}

static void miss(Access *a, u64 block) {
    u64 n = a->n, p = a->p;
    a->list[0] = a->list[1] = (u16)(n + 1);
    if (blocks[n - 1] != 0) sums.total--;
    rows_above(a, p);
    rows_down(a, p - 1, n - 1);
    lower(p - 1, n - 1, block);
    set_pair(p - 1, p, p);
    sums.total++;
}

static void hit(const Access *a, u64 block, u64 j, u64 pairs) {
    u64 n = a->n, p = a->p, lo = least(j, p), hi = least(most(j, p), n);
    rows_above(a, lo);
    if (a->list[0] != j) rows_below(a, hi);
    sums.total -= pairs;
    if (p <= j) {
        rows_down(a, p - 1, j - 1);
        lower(p - 1, j - 1, block);
    } else {
        rows_up(a, j, hi);
        raise(j - 1, hi - 1, p <= n ? block : 0);
    }
    u64 end = least(p, n);
    set_pair(end - 1, end, end);
    if (p <= n) sums.total++;
}

/* Tallies say from which size on an outcome holds, not at which sizes. */
static void bump(u64 n, u64 kind, u64 size) {
    if (size <= n) counts[KINDS * (size - 1) + kind]++;
}

static void tally(const Access *a, u64 pairs) {
    u64 n = a->n, p = a->p, first = a->list[0], start = most(first, p), q = 0;
    bump(n, p < first ? INSERT : HIT_BYPASS, least(first, p));
    bump(n, p < first ? UP : BYPASS_END, start);
    while (q < pairs && a->list[2 * q + 1] > p)
        q++;
    if (q == pairs) return;
    bump(n, SAME, most(a->list[2 * q], start));
    if (a->list[2 * q + 1] == p) q++;
    if (q < pairs) bump(n, DOWN, most(a->list[2 * q], start));
}

static void one_read(Access *a, u64 block, u64 priority) {
    u64 n = a->n, j = place_of(n, block);
    a->p = least(priority, n + 1);
    if (j == 0) {
        bump(n, INSERT, a->p);
        if (a->p > n) return;
        miss(a, block);
        sums.one = most(sums.one, 1);
    } else {
        u64 pairs = load(a, j - 1);
        tally(a, pairs);
        hit(a, block, j, pairs);
    }
    sums.peak = most(sums.peak, sums.total);
    narrow();
}

/* The counts of each size from the tallies: sums over the sizes up to it. */
static void finish(u64 n, u64 reads) {
    u64 t[KINDS] = {0};
    for (u64 m = 0; m < n; m++) {
        u64 *c = counts + KINDS * m;
        for (int k = 0; k < KINDS; k++)
            t[k] += c[k];
        c[0] = t[UP] + t[BYPASS_END] - t[SAME];
        c[1] = t[SAME] - t[DOWN];
        c[2] = t[DOWN];
        c[3] = t[HIT_BYPASS] - t[BYPASS_END];
        c[4] = t[INSERT] - t[UP];
        c[5] = reads - t[INSERT] - t[HIT_BYPASS];
    }
}

int main(void) {
    static Access access;
    u64 length = read_input(), at = HEAD, reads = 0;
    number(&at);
    u64 n = access.n = number(&at);
    sums.to = INTERVAL ? 0 : n;
    for (u64 i = 0; i < n; i++)
        set_pair(i, i + 1, i + 1);
    for (; at < length; reads++) {
        u64 block = key(&at);
        one_read(&access, block, asked_unknown(&at));
    }
    finish(n, reads);
    tell_run(n, reads, sums.peak, sums.one);
    return 0;
}
