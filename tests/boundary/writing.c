/* supharoek_write_header and supharoek_write_record, and what they write read back. */
#include <string.h>

#include "areas.h"
#include "checks.h"
#include "format.h"
#include "supharoek.h"
#include "tally.h"

enum { ROUNDS = 6000, MOST_BEFORE = 4, LARGE_BUFFER = 65546 };

/* What is to be written, as numbers and spelled; a header is two numbers. */
struct item {
    int is_header;
    uint64_t numbers[3];
    uint8_t spelled[2 * LONGEST_RECORD];
    size_t length;
    uint32_t refusal;
};

static uint32_t header_refusal(const uint64_t *numbers) {
    if (numbers[0] != 1)
        return SUPHAROEK_EDITION;
    return numbers[1] >= 1 && numbers[1] <= 127 ? 0 : SUPHAROEK_SIZE;
}

static uint32_t record_refusal(const uint64_t *numbers) {
    if (numbers[0] > 65535)
        return SUPHAROEK_VOLUME;
    return numbers[2] <= 16383 ? 0 : SUPHAROEK_PRIORITY;
}

static struct item header_item(uint64_t edition, uint64_t size) {
    struct item item = {1, {edition, size, 0}, {0}, 0, 0};
    item.refusal = header_refusal(item.numbers);
    if (item.refusal == 0)
        item.length = spell_header(item.spelled, edition, size);
    return item;
}

static struct item record_item(uint64_t volume, uint32_t block, uint64_t priority) {
    struct item item = {0, {volume, block, priority}, {0}, 0, 0};
    item.refusal = record_refusal(item.numbers);
    if (item.refusal == 0)
        item.length = spell_record(item.spelled, volume, block, priority);
    return item;
}

static uint32_t written(const struct item *item, struct area buffer, size_t at, struct area out) {
    uint64_t *told = (uint64_t *)out.at;
    const uint64_t *numbers = item->numbers;
    if (item->is_header)
        return supharoek_write_header(buffer.at, buffer.length, at, numbers[0], numbers[1], told, out.length);
    return supharoek_write_record(buffer.at, buffer.length, at, numbers[0], (uint32_t)numbers[1], numbers[2], told,
                                  out.length);
}

/* The item read back from the buffer gives its numbers and its length. */
static int reads_back(struct area buffer, size_t at, const struct item *item) {
    uint64_t told[4];
    size_t rest = buffer.length - at, last = item->is_header ? 2 : 3;
    uint32_t answer = item->is_header ? supharoek_read_header(buffer.at + at, rest, told, 4)
                                      : supharoek_read_record(buffer.at + at, rest, told, 4);
    return answer == 0 && memcmp(told, item->numbers, last * sizeof *told) == 0 && told[last] == item->length;
}

/* Writes an item into a buffer of a length from an offset on, and tells into so many numbers. */
static void check_write(const struct item *item, size_t length, size_t at, size_t outs, uint64_t which) {
    struct area buffer = lend(1, length), out = lend(sizeof(uint64_t), outs);
    int fits = at <= length && item->length <= length - at;
    uint32_t refusal = item->refusal ? item->refusal : fits ? 0 : SUPHAROEK_SPACE;
    uint64_t told = item->length;
    check(written(item, buffer, at, out) == refusal, "the answer of a write", which);
    check(begins_with(out, &told, refusal ? 0 : 1), "what a write tells", which);
    if (refusal) {
        check(kept_after(buffer, 0), "the buffer of a refused write", which);
    } else {
        check(reads_back(buffer, at, item), "a write read back", which);
        check(holds(buffer, at, item->spelled, item->length), "the bytes of a write", which);
    }
    take_back(buffer);
    take_back(out);
}

/* Room to spare, room to the byte, one byte too little, none, and offsets at and past the end. */
static void check_item(const struct item *item, uint64_t which) {
    size_t at = from_to(0, MOST_BEFORE), length = item->length;
    check_write(item, at + length + from_to(1, 9), at, from_to(1, 3), which);
    check_write(item, at + length, at, which % 2, which);
    if (length > 0)
        check_write(item, at + length - 1, at, 1, which);
    check_write(item, at, at, 1, which);
    check_write(item, at, at + from_to(1, 9), 1, which);
    check_write(item, at + 20, SIZE_MAX - from_to(0, 9), 1, which);
    end_case();
}

/* Offsets that are 0 where only the lowest bits are looked at, the last one as 64 bits are, and those around them. */
static void check_far_offsets(const struct item *item) {
    static const size_t offsets[] = {256,           65536,           2147483648, 4294967296,
                                     1103806595072, (size_t)1 << 63, 0};
    for (size_t i = 0; i < sizeof offsets / sizeof *offsets; i++)
        for (size_t more = 0; more < 10; more++) {
            check_write(item, 20, offsets[i] + more, 1, i);
            check_write(item, 20, offsets[i] - more, 1, i);
        }
    end_case();
}

/* Lengths and offsets that are small where only the lowest bits are looked at, and more to tell into. */
static void check_large_buffer(const struct item *item) {
    for (size_t at = 65530; at <= LARGE_BUFFER + 1; at++)
        check_write(item, LARGE_BUFFER, at, 256, at);
    check_write(item, 65536, 0, 1, 0);
    check_write(item, 256, 1, 1, 0);
    end_case();
}

/* Numbers at the ends of every length and range, and others of every magnitude. */
static uint64_t some_number(void) {
    static const uint64_t edges[] = {0,     1,     127,     128,     16383,     16384,
                                     65535, 65536, 2097151, 2097152, 268435455, 268435456};
    if (from_to(0, 1))
        return edges[from_to(0, 11)];
    return chance() >> from_to(0, 63);
}

static void check_wrong_items(void) {
    const struct item items[] = {
        header_item(0, 0),          header_item(2, 128),          header_item(1, 0),
        header_item(1, 128),        header_item(UINT64_MAX, 1),   header_item(1, UINT64_MAX),
        header_item(4294967297, 5), header_item(1, 4294967297),   header_item(257, 5),
        header_item(65537, 5),      header_item(1, 257),          header_item(1, 65541),
        record_item(65536, 1, 0),   record_item(65536, 1, 16384), record_item(1, 1, 16384),
        record_item(1, 1, 65536),   record_item(1, 1, 65537),     record_item(UINT64_MAX, 1, 1),
        record_item(65537, 1, 1),   record_item(4294967296, 1, 1), record_item(1, 1, 4294967296),
        record_item(1, 1, 4294967297),
    };
    for (size_t i = 0; i < sizeof items / sizeof *items; i++)
        check_item(&items[i], i);
}

/* Both ends of the priorities and their neighbours, each written as it is given, 0 too. */
static void check_ends_of_priorities(void) {
    static const uint64_t priorities[] = {0, 1, 2, 16382, 16383};
    for (size_t i = 0; i < sizeof priorities / sizeof *priorities; i++) {
        const struct item low = record_item(0, 0, priorities[i]), high = record_item(65535, UINT32_MAX, priorities[i]);
        check(low.refusal == 0 && high.refusal == 0, "a priority that is taken", priorities[i]);
        check_item(&low, priorities[i]);
        check_item(&high, priorities[i]);
    }
}

void check_writing(void) {
    const struct item ends[] = {header_item(1, 127), record_item(65535, UINT32_MAX, 16383), record_item(0, 0, 0)};
    for (size_t i = 0; i < sizeof ends / sizeof *ends; i++) {
        check_far_offsets(&ends[i]);
        check_large_buffer(&ends[i]);
    }
    check_wrong_items();
    check_ends_of_priorities();
    for (uint64_t n = 1; n <= 127; n++) {
        struct item item = header_item(1, n);
        check_item(&item, n);
    }
    for (uint64_t i = 0; i < ROUNDS; i++) {
        uint64_t volume = some_number(), priority = some_number();
        if (from_to(0, 3)) {
            volume %= 65536;
            priority %= 16384;
        }
        struct item item = record_item(volume, (uint32_t)(from_to(0, 9) ? some_number() : UINT32_MAX), priority);
        check_item(&item, i);
    }
}
