#include "traces.h"

#include <stdlib.h>
#include <string.h>

#include "areas.h"
#include "format.h"
#include "tally.h"

/* More bytes than any damage or a few reads add. */
enum { SPARE_ROOM = 100 };

void begin_trace(struct trace *trace, size_t n, size_t reads) {
    drop_trace(trace);
    trace->bytes = taken(2 + LONGEST_RECORD * reads + SPARE_ROOM);
    trace->length = spell_header(trace->bytes, 1, n);
}

void add_read(struct trace *trace, uint64_t volume, uint64_t block, uint64_t priority) {
    trace->length += spell_record(trace->bytes + trace->length, volume, block, priority);
}

void add_outcomes(struct trace *trace, uint64_t volume, uint64_t block) {
    static const uint64_t priorities[OUTCOME_READS] = {2, 1, 1, 2, 16383, 16383};
    for (int i = 0; i < OUTCOME_READS; i++)
        add_read(trace, volume, block, priorities[i]);
}

void drop_trace(struct trace *trace) {
    free(trace->bytes);
    trace->bytes = NULL;
}

static uint64_t some_priority(size_t n, int kind) {
    switch (kind) {
    case 0:
        return 1;
    case 1:
        return from_to(1, n);
    case 2:
        return from_to(1, n + 2);
    case 3:
        return n;
    case 4:
        return from_to(1, 16383);
    case 5:
        return from_to(1, 10) < 10 ? 1 : from_to(1, n);
    case 6:
        return from_to(1, 3) < 3 ? from_to((n + 1) / 2, n + 1) : 16383;
    case 7:
        return 0;
    case 8:
        return from_to(0, 1);
    case 9:
        return from_to(0, 1) ? 0 : from_to(0, n + 2);
    default:
        return some_priority(n, (int)from_to(0, PRIORITY_KINDS - 2));
    }
}

/* Volumes and blocks of which many are the same but for one bit, whichever it is. */
static uint64_t some_volume(void) {
    static const uint64_t others[] = {127, 255, 65535};
    if (from_to(0, 1))
        return 0;
    return from_to(0, 3) ? (uint64_t)1 << from_to(0, 15) : others[from_to(0, 2)];
}

static uint64_t some_block(size_t pool) {
    uint64_t block = from_to(0, pool), kind = from_to(0, 7);
    if (kind == 0)
        return UINT32_MAX - block;
    return kind == 1 ? block ^ (uint64_t)1 << from_to(0, 31) : block;
}

void make_trace(struct trace *trace, size_t n, size_t reads, int kind) {
    size_t pool = from_to(0, 2 * n);
    uint64_t one_volume = from_to(0, 1);
    begin_trace(trace, n, reads);
    for (size_t i = 0; i < reads; i++)
        add_read(trace, one_volume ? 1 : some_volume(), some_block(pool), some_priority(n, kind));
}

/* A number past the last one of a range: the very next, or any. */
static uint64_t some_past(uint64_t last) {
    return from_to(0, 1) ? last + 1 : from_to(last + 1, UINT32_MAX);
}

void make_bad_trace(struct trace *trace, size_t n, size_t reads) {
    /* a record with numbers out of range takes up to half as much again as the longest right one */
    begin_trace(trace, n, 2 * reads);
    for (size_t i = 0; i < reads; i++) {
        uint64_t volume = from_to(0, 4) ? some_volume() : some_past(65535);
        add_read(trace, volume, some_block(n), from_to(0, 4) ? some_priority(n, PRIORITY_KINDS - 1) : some_past(16383));
    }
}

void give_bytes(struct trace *trace, const void *bytes, size_t length) {
    begin_trace(trace, 1, length);
    memcpy(trace->bytes, bytes, length);
    trace->length = length;
}

/* Puts bytes in at a place, and what stood there goes further. */
static void put_in(struct trace *trace, size_t at, const uint8_t *bytes, size_t length) {
    memmove(trace->bytes + at + length, trace->bytes + at, trace->length - at);
    memcpy(trace->bytes + at, bytes, length);
    trace->length += length;
}

/* The start of some record, or the end of the trace. */
static size_t some_start(const struct trace *trace) {
    size_t at = header_at_start(trace->bytes, trace->length).end;
    for (uint64_t skip = from_to(0, 30); skip > 0 && at < trace->length; skip--)
        at = record_at(trace->bytes, trace->length, at).end;
    return at;
}

static void put_in_record(struct trace *trace, uint64_t volume, uint64_t block, uint64_t priority) {
    uint8_t bytes[3 * LONGEST_NUMBER];
    put_in(trace, some_start(trace), bytes, spell_record(bytes, volume, block, priority));
}

/* A header with other numbers, before the records. */
static void change_header(struct trace *trace, uint64_t edition, uint64_t size) {
    uint8_t bytes[2 * LONGEST_NUMBER];
    trace->length -= 2;
    memmove(trace->bytes, trace->bytes + 2, trace->length);
    put_in(trace, 0, bytes, spell_header(bytes, edition, size));
}

void damage(struct trace *trace, int way) {
    static const uint8_t long_zero[] = {0x80, 0x00}, too_large[] = {0xff, 0xff, 0xff, 0xff, 0x10};
    static const uint8_t endless[] = {0x80, 0x80, 0x80, 0x80, 0x80};
    size_t any = from_to(0, trace->length - 1);
    uint8_t byte = (uint8_t)chance();
    switch (way) {
    case 0:
        trace->length = any;
        break;
    case 1:
        trace->bytes[any] = byte;
        break;
    case 2:
        put_in(trace, any, &byte, 1);
        break;
    case 3:
        put_in(trace, any, long_zero, sizeof long_zero);
        break;
    case 4:
        put_in(trace, any, too_large, sizeof too_large);
        break;
    case 5:
        put_in(trace, any, endless, sizeof endless);
        break;
    case 6:
        put_in_record(trace, from_to(65536, UINT32_MAX), 1, 1);
        break;
    case 7:
        put_in_record(trace, 1, UINT32_MAX, some_past(16383));
        break;
    case 8:
        change_header(trace, from_to(0, 300), 3);
        break;
    default:
        change_header(trace, 1, from_to(0, 1) ? 0 : from_to(120, 140));
    }
}
