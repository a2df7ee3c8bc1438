/* What the description of the product tells in so many words, and refusals at places worked out by hand. */
#include "areas.h"
#include "checks.h"
#include "format.h"
#include "rule.h"
#include "supharoek.h"
#include "tally.h"

struct stated {
    const char *bytes;
    size_t length;
    const char *sheet;
};

static const struct stated sheets[] = {
    {"\x01\x03\x01\x0a\x01\x01\x0b\x02\x01\x0c\x03\x01\x0a\x03\x01\x0b\x03\x01\x0d\x02\x01\x0c\x04\x01\x0d\x01", 26,
     "accesses 8 stretches 3 block 2\n1 7 0 0 0 1 2 5\n2 5 1 0 0 2 3 2\n3 4 0 1 2 1 4 0\n"},
    {"\x01\x01", 2, "accesses 0 stretches 0 block 0\n1 0 0 0 0 0 0 0\n"},
    {"\x01\x03\x01\x0a\x03\x01\x0b\x03", 8,
     "accesses 2 stretches 1 block 1\n1 2 0 0 0 0 0 2\n2 2 0 0 0 0 0 2\n3 2 0 0 0 0 2 0\n"},
    {"\x01\x01\x01\x07\x01\x02\x07\x01", 8, "accesses 2 stretches 1 block 1\n1 2 0 0 0 0 2 0\n"},
    {"", 0, "refused 1 at 0\n"},
    {"\x80\x00", 2, "refused 2 at 0\n"},
    {"\x02\x05", 2, "refused 3 at 0\n"},
    {"\x01\x00", 2, "refused 4 at 1\n"},
    {"\x01\x80\x01", 3, "refused 4 at 1\n"},
    {"\x01\x03\x80\x80\x04", 5, "refused 5 at 2\n"},
    {"\x01\x03\x01\x0a", 4, "refused 1 at 4\n"},
    {"\x01\x03\x01\x0a\x00", 5,
     "accesses 1 stretches 1 block 1\n1 1 0 0 0 0 1 0\n2 1 0 0 0 0 1 0\n3 1 0 0 0 0 1 0\n"},
    {"\x01\x02\x01\x0a\x00\x01\x0b\x00\x01\x0a\x00\x01\x0a\x01", 14,
     "accesses 4 stretches 2 block 1\n1 3 0 1 0 0 3 0\n2 2 1 1 0 0 2 0\n"},
    {"\x01\x03\x01\x0a\xff\x7f", 6,
     "accesses 1 stretches 0 block 0\n1 1 0 0 0 0 0 1\n2 1 0 0 0 0 0 1\n3 1 0 0 0 0 0 1\n"},
    {"\x01\x03\x01\x0a\x80\x80\x01", 7, "refused 6 at 4\n"},
    {"\x01\x03\x01\x0a\x01\x01\xff\xff\xff\xff\x10\x01", 12, "refused 2 at 6\n"},
};

static size_t length_of(const char *sheet) {
    size_t length = 0;
    while (sheet[length])
        length++;
    return length;
}

static void check_stated(const struct stated *stated, uint64_t which) {
    static uint64_t blocks[SUPHAROEK_BLOCKS(SUPHAROEK_LARGEST)], counts[SUPHAROEK_COUNTS(SUPHAROEK_LARGEST)];
    static uint16_t stretches[SUPHAROEK_STRETCHES(SUPHAROEK_LARGEST)];
    struct area text = lend(1, SUPHAROEK_TEXT);
    size_t length = length_of(stated->sheet);
    size_t answer = supharoek_sheet((const uint8_t *)stated->bytes, stated->length, blocks,
                                    sizeof blocks / sizeof *blocks, stretches, sizeof stretches / sizeof *stretches,
                                    counts, sizeof counts / sizeof *counts, text.at, text.length);
    check(answer == length, "the length of a stated sheet", which);
    check(begins_with(text, stated->sheet, length), "a stated sheet", which);
    take_back(text);
    end_case();
}

/* The worked trace, which is the first of them: after its seventh read, block 13 is at a place in a size. */
static void check_place(size_t size, size_t place) {
    const uint8_t *trace = (const uint8_t *)sheets[0].bytes;
    uint64_t places[SUPHAROEK_LARGEST] = {0}, outcome;
    size_t at = header_at_start(trace, sheets[0].length).end;
    for (int read = 1; read <= 7; read++) {
        struct reading found = record_at(trace, sheets[0].length, at);
        uint32_t answer = supharoek_step(size, places, SUPHAROEK_LARGEST, found.values[0], (uint32_t)found.values[1],
                                         found.values[2], &outcome, 1);
        check(answer == 0, "a step of the worked trace", size);
        at = found.end;
    }
    check(places[place - 1] == key_of(1, 13), "the place of block 13", size);
    end_case();
}

/* Steps without a hint on a card of two places, as plain LRU has them: each outcome, and the places after it. */
static void check_no_hints(void) {
    static const uint64_t reads[][4] = {{10, SUPHAROEK_INSERT, 10, 0},
                                        {11, SUPHAROEK_INSERT, 11, 10},
                                        {10, SUPHAROEK_UP, 10, 11},
                                        {10, SUPHAROEK_SAME, 10, 11},
                                        {12, SUPHAROEK_INSERT, 12, 10}};
    uint64_t places[SUPHAROEK_LARGEST] = {0}, outcome;
    for (size_t i = 0; i < sizeof reads / sizeof *reads; i++) {
        uint32_t answer = supharoek_step(2, places, SUPHAROEK_LARGEST, 0, (uint32_t)reads[i][0], 0, &outcome, 1);
        check(answer == 0 && outcome == reads[i][1], "the outcome of a step without a hint", i);
        check(places[0] == key_of(0, reads[i][2]), "the top after a step without a hint", i);
        check(places[1] == (reads[i][3] ? key_of(0, reads[i][3]) : 0), "the place below it", i);
    }
    end_case();
}

void check_what_is_stated(void) {
    for (size_t i = 0; i < sizeof sheets / sizeof *sheets; i++)
        check_stated(&sheets[i], i);
    check_place(2, 2);
    check_place(3, 1);
    check_no_hints();
}
