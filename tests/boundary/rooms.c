/* Areas of a run that are too short, of no length and far too long, with right traces and with refused ones. */
#include "checks.h"
#include "one_run.h"
#include "tally.h"

enum { FEW_READS = 5, FAR_LONGER = 65536 };

/* Each area in turn one number too short, and of no length at all. */
static void check_short(struct trace *trace) {
    for (size_t n = 1; n <= SUPHAROEK_LARGEST; n++)
        for (int i = 0; i < 2 * AREAS; i++) {
            size_t lengths[AREAS];
            stated_lengths(lengths, n);
            lengths[i / 2] = i % 2 ? 0 : lengths[i / 2] - 1;
            make_trace(trace, n, FEW_READS, 1);
            if (n % 2)
                add_read(trace, 1, 1, 16384);
            check(check_both(trace, lengths, n).number == SUPHAROEK_ROOM, "no room", n);
            stated_lengths(lengths, n);
            check(expected_of(trace, lengths).number == (n % 2 ? SUPHAROEK_PRIORITY : 0), "what comes after room", n);
            end_case();
        }
}

/* Lengths that are small or 0 where only their lowest bits are looked at. */
static void check_long(struct trace *trace) {
    for (size_t n = 1; n <= SUPHAROEK_LARGEST; n += 18) {
        size_t lengths[AREAS] = {FAR_LONGER, FAR_LONGER, FAR_LONGER}, fewer[AREAS] = {256, 16384, 1024};
        make_trace(trace, n, 2 * n, 1);
        struct expected expected = check_both(trace, lengths, n);
        check_both(trace, fewer, n);
        check_run(trace, lengths, &expected, 256, n);
        check_sheet(trace, lengths, &expected, FAR_LONGER, n);
        check(expected.number == 0, "far longer areas", n);
        end_case();
    }
}

/* Headers that are refused: cut, of a wrong form, of another edition, with a size that is none. */
static const struct {
    const char *bytes;
    size_t length;
} headers[] = {
    {"", 0},
    {"\x80", 1},
    {"\x01", 1},
    {"\x01\x80", 2},
    {"\x80\x00\x03", 3},
    {"\x80\x80\x80\x80\x80\x01", 6},
    {"\x01\x83\x00", 3},
    {"\x01\xff\xff\xff\xff\x10\x01", 7},
    {"\x00\x03", 2},
    {"\x02\x03\x01\x01\x01", 5},
    {"\x81\x02\x03", 3},
    {"\x01\x00", 2},
    {"\x01\x80\x01\x01\x01\x01", 6},
    {"\x01\x83\x02\x01\x01\x01", 6},
};

/* A header that is refused, with each choice of areas of no length: its own refusal comes first. */
static void check_headers(struct trace *trace) {
    for (size_t i = 0; i < sizeof headers / sizeof *headers; i++)
        for (unsigned empty = 0; empty < 1u << AREAS; empty++) {
            size_t lengths[AREAS];
            stated_lengths(lengths, 3);
            for (int area = 0; area < AREAS; area++)
                lengths[area] *= empty >> area & 1 ? 0 : 1;
            give_bytes(trace, headers[i].bytes, headers[i].length);
            uint32_t number = check_both(trace, lengths, i).number;
            check(number >= SUPHAROEK_CUT && number <= SUPHAROEK_SIZE, "a header that is refused", i);
            end_case();
        }
}

void check_rooms(void) {
    struct trace trace = {0};
    check_short(&trace);
    check_long(&trace);
    check_headers(&trace);
    drop_trace(&trace);
}
