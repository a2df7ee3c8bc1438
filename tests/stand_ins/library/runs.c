/* The run of a trace on cards of every size. */
#include <string.h>

#include "library.h"
#include "rule.h"

static struct cards cards;

static struct answer refused(uint32_t number, uint64_t place) {
    struct answer answer = {number, 1, 0, {place, 0, 0}};
    return answer;
}

static uint64_t key_in_run(uint64_t volume, uint64_t block) {
    if (fault == no_volume)
        return block + 1;
    if (fault == key_volume_8_bits)
        return key_of(volume % 256, block);
    if (fault == key_block_31_bits)
        return key_of(volume, block % 2147483648u);
    return fault == keys_overlap ? volume * 65536 + block + 1 : key_of(volume, block);
}

static int is_on(const uint64_t *card, size_t size, uint64_t block) {
    for (size_t i = 0; i < size; i++)
        if (card[i] == block)
            return 1;
    return 0;
}

static uint64_t read_card(uint64_t *card, size_t size, uint64_t block, uint64_t priority) {
    if (fault == hit_bypass_stays && priority > size && is_on(card, size, block))
        return SUPHAROEK_HIT_BYPASS;
    if (fault == insert_fills_hole && priority <= size && !is_on(card, size, block))
        for (size_t hole = size; hole >= priority; hole--)
            size = card[hole - 1] == 0 ? hole : size;
    uint64_t outcome = read_on(card, size, block, priority);
    return fault == hit_bypass_misses && outcome == SUPHAROEK_HIT_BYPASS ? SUPHAROEK_MISS_BYPASS : outcome;
}

/* What a read asks for; a block that is on no card counts as a new one. */
static uint64_t asked(uint64_t block, uint64_t priority) {
    static uint64_t new_ones;
    new_ones = cards.reads == 0 ? 0 : new_ones + (cards.stretches[block] == 0);
    if (fault == full_table && cards.stretches[block] == 0 && new_ones > 4096)
        return 16383;
    if (priority == 0)
        return fault == no_hint_bypasses ? 16383 : fault == no_hint_last ? cards.size : 1;
    return fault == priority_8_bits ? 1 + (priority - 1) % 256 : priority;
}

/* The outcome of a read on a copy of a card, so that it moves nothing. */
static uint64_t only_told(const uint64_t *card, size_t size, uint64_t block, uint64_t priority) {
    uint64_t copy[SUPHAROEK_LARGEST];
    memcpy(copy, card, size * sizeof *card);
    return read_on(copy, size, block, priority);
}

static void read_all(uint64_t key, uint64_t priority) {
    uint64_t block = number_of(&cards, key), place = asked(block, priority);
    for (size_t m = 1; m <= cards.size; m++) {
        uint64_t *card = cards.places[m], *six = cards.counts + KINDS * (m - 1);
        if (fault == one_list)
            memmove(card, cards.places[cards.size], m * sizeof *card);
        if (fault == first_read_only && cards.reads > 0)
            six[SUPHAROEK_MISS_BYPASS]++;
        else if (fault == no_hint_moves_nothing && priority == 0)
            six[only_told(card, m, block, place)]++;
        else
            six[read_card(card, m, block, place)]++;
    }
    cards.reads++;
    if (fault == peaks_at_end)
        cards.total_peak = cards.one_peak = 0;
    renew_peaks(&cards);
    if (fault == over_40_stretches && cards.one_peak > 40)
        cards.counts[SUPHAROEK_INSERT]++;
    if (fault == over_1000_stretches && cards.total_peak > 1000)
        cards.counts[SUPHAROEK_INSERT]++;
}

static int too_short(const struct lent *lent, size_t n) {
    size_t bits = fault == areas_16_bits ? 65535 : SIZE_MAX, half = fault == half_rounded_down ? n / 2 : (n + 1) / 2;
    if (fault == longer_refused && lent->counts_length > SUPHAROEK_COUNTS(n))
        return 1;
    return (lent->blocks_length & bits) < n || (lent->stretches_length & bits) < 2 * n * half ||
           (lent->counts_length & bits) < KINDS * n;
}

/* Leaves zeros in the stated parts. */
static void clear(const struct lent *lent, size_t n) {
    size_t blocks = fault == cleared_beyond ? lent->blocks_length : SUPHAROEK_BLOCKS(n) - (fault == block_left);
    memset(lent->blocks, 0, blocks * sizeof *lent->blocks);
    memset(lent->stretches, 0, (SUPHAROEK_STRETCHES(n) - (fault == stretch_left)) * sizeof *lent->stretches);
    if (fault != counts_untouched && fault != counts_added)
        memset(lent->counts, 0, SUPHAROEK_COUNTS(n) * sizeof *lent->counts);
}

static void leave_counts(const struct lent *lent, size_t n) {
    if (fault == counts_33_to_126 && n >= 33 && n <= 126)
        cards.counts[KINDS * n - 1]++;
    if (fault == one_size_at_77 && n == 77)
        memcpy(cards.counts + KINDS * 31, cards.counts + KINDS * 30, KINDS * sizeof *cards.counts);
    for (size_t i = 0; i < SUPHAROEK_COUNTS(n) && fault != counts_untouched; i++)
        lent->counts[i] = (fault == counts_added ? lent->counts[i] : 0) +
                          (fault == counts_16_bits ? (uint16_t)cards.counts[i] : cards.counts[i]);
}

static struct answer refused_record(const struct lent *lent, struct reading found, size_t at, size_t n) {
    if (!too_short(lent, n))
        clear(lent, n);
    if (fault == counts_left_at_fault)
        leave_counts(lent, n);
    size_t place = fault == place_of_record ? at : found.place;
    return refused(found.refusal, fault == place_16_bits ? place % 65536 : place);
}

static struct answer finished(const struct lent *lent, size_t n) {
    struct answer answer = {0, 3, n, {cards.reads, cards.total_peak, cards.one_peak}};
    if (too_short(lent, n))
        return refused(SUPHAROEK_ROOM, 0);
    clear(lent, n);
    leave_counts(lent, n);
    if (fault == reads_16_bits)
        answer.told[0] %= 65536;
    if (fault == total_peak_64 && answer.told[1] > 64)
        answer.told[1] = 64;
    if (fault == one_peak_3 && answer.told[2] > 3)
        answer.told[2] = 3;
    return answer;
}

static struct answer run_records(const struct lent *lent, size_t length, size_t at, size_t n) {
    if (fault != run_goes_on || cards.size != n)
        begin(&cards, n);
    while (at < length && !(fault == stops_at_160000 && at > 160000)) {
        struct reading found = record_of(lent->trace, length, at);
        if (found.refusal)
            return refused_record(lent, found, at, n);
        read_all(key_in_run(found.values[0], found.values[1]), found.values[2]);
        at = found.end;
    }
    return finished(lent, n);
}

struct answer run(const struct lent *lent) {
    size_t length = fault == trace_16_bits ? lent->trace_length % 65536 : lent->trace_length;
    int one_is_empty = lent->blocks_length == 0 || lent->stretches_length == 0 || lent->counts_length == 0;
    struct reading header = header_of(lent->trace, length);
    if (fault == refuses_all)
        return refused(SUPHAROEK_FORM, 0);
    if (fault == large_refused && length > 16384)
        return refused(SUPHAROEK_LARGE, 16384);
    if (fault == room_before_header && one_is_empty)
        return refused(SUPHAROEK_ROOM, 0);
    if (fault == refused_header_clears && header.refusal)
        memset(lent->counts, 0, lent->counts_length * sizeof *lent->counts);
    if (header.refusal)
        return refused(header.refusal, header.place);
    size_t n = header.values[1];
    if (too_short(lent, n) && fault != room_after_records)
        return refused(SUPHAROEK_ROOM, 0);
    return run_records(lent, length, header.end, n);
}

uint32_t supharoek_run(const uint8_t *trace, size_t trace_length, uint64_t *blocks, size_t blocks_length,
                       uint16_t *stretches, size_t stretches_length, uint64_t *counts, size_t counts_length,
                       uint64_t *out, size_t out_length) {
    const struct lent lent = {trace,     trace_length,     blocks, blocks_length,
                              stretches, stretches_length, counts, counts_length};
    struct answer answer = run(&lent);
    tell(out, out_length, answer.told, answer.tells);
    return answer.number;
}
