/* supharoek_read_header and supharoek_read_record. */
#include "areas.h"
#include "checks.h"
#include "format.h"
#include "supharoek.h"
#include "tally.h"

enum { ROUNDS = 3000, ROOM = 16, LONG_PART = 65536 };

typedef uint32_t reader(const uint8_t *bytes, size_t length, uint64_t *out, size_t out_length);

/* What a reader has to answer: its number, and so many values to tell. */
struct expected {
    uint32_t number;
    size_t tells;
    uint64_t told[4];
};

/* Calls a reader on bytes with guards around them, and lets it tell into so many numbers. */
static void check_read(reader *call, const uint8_t *given, size_t length, size_t outs, struct expected expected) {
    struct area bytes = lend_copy(given, length), out = lend(sizeof(uint64_t), outs);
    uint32_t number = call(bytes.at, length, (uint64_t *)out.at, outs);
    check(number == expected.number, "the answer of a reader", expected.number);
    check(begins_with(out, expected.told, expected.tells), "what a reader tells", expected.number);
    check(kept_after(bytes, 0), "the bytes that a reader is given", expected.number);
    take_back(bytes);
    take_back(out);
}

static struct expected refusal_of(struct reading found) {
    struct expected expected = {found.refusal, 1, {found.place, 0, 0, 0}};
    return expected;
}

static void check_header(const uint8_t *bytes, size_t length) {
    struct reading found = header_at_start(bytes, length);
    struct expected expected = {0, 3, {found.values[0], found.values[1], found.end, 0}};
    for (size_t outs = 0; outs <= 4; outs++)
        check_read(supharoek_read_header, bytes, length, outs, found.refusal ? refusal_of(found) : expected);
}

static void check_record(const uint8_t *bytes, size_t length) {
    struct reading found = record_at(bytes, length, 0);
    struct expected expected = {0, 4, {found.values[0], found.values[1], found.values[2], found.end}};
    for (size_t outs = 0; outs <= 5; outs++)
        check_read(supharoek_read_record, bytes, length, outs, found.refusal ? refusal_of(found) : expected);
}

/* Bytes, the answer and the one value, or the first one, that is told: written down by hand. */
struct stated {
    const char *bytes;
    size_t length;
    uint32_t number;
    uint64_t told;
};

static const struct stated headers[] = {
    {"", 0, SUPHAROEK_CUT, 0},
    {"\x01", 1, SUPHAROEK_CUT, 1},
    {"\x01\x80", 2, SUPHAROEK_CUT, 1},
    {"\x80\x00\x03", 3, SUPHAROEK_FORM, 0},
    {"\x01\xff\xff\xff\xff\x10", 6, SUPHAROEK_FORM, 1},
    {"\x02\x00", 2, SUPHAROEK_EDITION, 0},
    {"\x01\x00", 2, SUPHAROEK_SIZE, 1},
    {"\x01\x80\x01", 3, SUPHAROEK_SIZE, 1},
    {"\x81\x02\x05", 3, SUPHAROEK_EDITION, 0},
    {"\x81\x80\x04\x05", 4, SUPHAROEK_EDITION, 0},
    {"\x01\x81\x02", 3, SUPHAROEK_SIZE, 1},
    {"\x01\x85\x80\x04", 4, SUPHAROEK_SIZE, 1},
    {"\x01\x05", 2, 0, 1},
};

static const struct stated records[] = {
    {"", 0, SUPHAROEK_CUT, 0},
    {"\x01\x0a", 2, SUPHAROEK_CUT, 2},
    {"\x01\x0a\x80", 3, SUPHAROEK_CUT, 2},
    {"\x80\x80\x04", 3, SUPHAROEK_VOLUME, 0},
    {"\x01\x80\x80\x80\x80\x80", 6, SUPHAROEK_FORM, 1},
    {"\x01\x0a\x80\x80\x01", 5, SUPHAROEK_PRIORITY, 2},
    {"\x01\x0a\x81\x80\x04", 5, SUPHAROEK_PRIORITY, 2},
    {"\x81\x80\x04\x0a\x01", 5, SUPHAROEK_VOLUME, 0},
    {"\xff\xff\x03\xff\xff\xff\xff\x0f\xff\x7f", 10, 0, 65535},
};

static void check_stated(reader *call, const struct stated *stated, size_t count) {
    for (size_t i = 0; i < count; i++) {
        struct expected expected = {stated[i].number, 1, {stated[i].told, 0, 0, 0}};
        check_read(call, (const uint8_t *)stated[i].bytes, stated[i].length, 1, expected);
        end_case();
    }
}

/* Both ends of the priorities and their neighbours, told as they stand there: a read without a hint has 0. */
static void check_priorities(void) {
    static const uint64_t priorities[] = {0, 1, 2, 127, 128, 16382, 16383};
    for (size_t i = 0; i < sizeof priorities / sizeof *priorities; i++) {
        uint8_t bytes[ROOM] = {1, 10};
        size_t length = 2 + spell(bytes + 2, priorities[i]);
        const struct expected expected = {0, 4, {1, 10, priorities[i], length}};
        check_read(supharoek_read_record, bytes, length, 4, expected);
        check_read(supharoek_read_record, bytes, ROOM, 4, expected);
        end_case();
    }
}

/* Right numbers, now and then with one byte changed or the last one off. */
static void check_spelled(void) {
    uint8_t bytes[2 * ROOM];
    uint64_t wide = from_to(0, 3) ? 20000 : UINT32_MAX;
    size_t length = spell_header(bytes, from_to(0, 4) ? 1 : from_to(0, wide), from_to(0, 140));
    check_header(bytes, length - from_to(0, 3) / 3);
    uint64_t volume = from_to(0, 70000), block = from_to(0, UINT32_MAX) >> from_to(0, 31);
    length = spell_record(bytes, volume, block, from_to(0, 3) ? from_to(0, wide) : from_to(0, 2));
    if (from_to(0, 1))
        bytes[from_to(0, length - 1)] = (uint8_t)chance();
    check_record(bytes, length - from_to(0, 3) / 3);
}

/* Bytes by chance, small ones and those that go on more often than others. */
static void check_noise(void) {
    uint8_t bytes[ROOM];
    for (size_t i = 0; i < ROOM; i++)
        bytes[i] = (uint8_t)(chance() & (from_to(0, 1) ? 255 : 131));
    check_header(bytes, from_to(0, ROOM));
    check_record(bytes, from_to(0, ROOM));
}

/* A part whose length is small where only its lowest bits are looked at, and more to tell into. */
static void check_long_part(void) {
    static uint8_t bytes[LONG_PART] = {1, 5, 1};
    const struct expected header = {0, 3, {1, 5, 2, 0}}, record = {0, 4, {1, 5, 1, 3}};
    for (size_t length = LONG_PART - 1; length <= LONG_PART; length++) {
        check_read(supharoek_read_header, bytes, length, 256, header);
        check_read(supharoek_read_record, bytes, length, 256, record);
    }
    end_case();
}

void check_reading(void) {
    check_long_part();
    check_stated(supharoek_read_header, headers, sizeof headers / sizeof *headers);
    check_stated(supharoek_read_record, records, sizeof records / sizeof *records);
    check_priorities();
    for (int i = 0; i < ROUNDS; i++) {
        check_spelled();
        check_noise();
        end_case();
    }
}
