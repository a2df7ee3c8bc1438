/* supharoek_salvage: traces worked out by hand, every short one of a few bytes, bad ones by chance, and long ones. */
#include <string.h>

#include "checks.h"
#include "one_salvage.h"
#include "tally.h"

enum {
    MOST_OUTS = 3,
    MOST_LISTED = 2,
    SHORT_BODY = 7,
    SMALL_TRACES = 3000,
    SMALL_SIZES = 12,
    MOST_READS = 20,
    FAR_LONGER = 65536,
    LONG_READS = 66000
};

/* A trace whose header is refused, with its answer and the place. */
static const struct {
    const char *bytes;
    size_t length;
    uint32_t refusal;
    size_t place;
} headers[] = {
    {"", 0, SUPHAROEK_CUT, 0},
    {"\x81", 1, SUPHAROEK_CUT, 0},
    {"\x01", 1, SUPHAROEK_CUT, 1},
    {"\x01\x83", 2, SUPHAROEK_CUT, 1},
    {"\x81\x00\x03\x01\x0a\x01", 6, SUPHAROEK_FORM, 0},
    {"\x01\x83\x00\x01\x0a\x01", 6, SUPHAROEK_FORM, 1},
    {"\x00\x03\x01\x0a\x01", 5, SUPHAROEK_EDITION, 0},
    {"\x02\x03\x01\x0a\x01\x80\x00", 7, SUPHAROEK_EDITION, 0},
    {"\x01\x00\x01\x0a\x01", 5, SUPHAROEK_SIZE, 1},
    {"\x01\x80\x01\x01\x0a\x01\x80\x80\x04\x0a\x01", 11, SUPHAROEK_SIZE, 1},
};

/* A trace, the good trace and the entries that it comes to. */
static const struct stated {
    const char *bytes;
    size_t length;
    const char *good;
    size_t kept, entries;
    struct supharoek_entry list[MOST_LISTED];
} traces[] = {
    /* a header alone, reads at the ends of all ranges, one without a hint */
    {"\x01\x03", 2, "\x01\x03", 2, 0, {{0}}},
    {"\x01\x03\x00\x00\x00\xff\xff\x03\xff\xff\xff\xff\x0f\xff\x7f", 15,
     "\x01\x03\x00\x00\x00\xff\xff\x03\xff\xff\xff\xff\x0f\xff\x7f", 15, 0, {{0}}},

    /* a volume out of range, a priority, both; the next numbers after the ranges and the largest ones */
    {"\x01\x03\x80\x80\x04\x0a\x01", 7, "\x01\x03", 2, 1, {{2, 5, SUPHAROEK_VOLUME}}},
    {"\x01\x03\x01\x0a\x80\x80\x01", 7, "\x01\x03", 2, 1, {{2, 5, SUPHAROEK_PRIORITY}}},
    {"\x01\x03\x80\x80\x04\x0a\x80\x80\x01", 9, "\x01\x03", 2, 1, {{2, 7, SUPHAROEK_VOLUME}}},
    {"\x01\x03\xff\xff\xff\xff\x0f\x0a\x01", 9, "\x01\x03", 2, 1, {{2, 7, SUPHAROEK_VOLUME}}},
    {"\x01\x03\x01\x0a\xff\xff\xff\xff\x0f", 9, "\x01\x03", 2, 1, {{2, 7, SUPHAROEK_PRIORITY}}},

    /* a volume out of range, and a FORM in the block or in the priority: right reads behind it go too */
    {"\x01\x03\x80\x80\x04\x80\x00\x01\x01\x0a\x01", 11, "\x01\x03", 2, 1, {{2, 9, SUPHAROEK_VOLUME}}},
    {"\x01\x03\x80\x80\x04\x0a\xff\xff\xff\xff\x10\x01\x0a\x01", 14, "\x01\x03", 2, 1, {{2, 12, SUPHAROEK_VOLUME}}},

    /* a volume out of range, and a CUT before the block, in it, before the priority, in it */
    {"\x01\x03\x80\x80\x04", 5, "\x01\x03", 2, 1, {{2, 3, SUPHAROEK_VOLUME}}},
    {"\x01\x03\x80\x80\x04\x80", 6, "\x01\x03", 2, 1, {{2, 4, SUPHAROEK_VOLUME}}},
    {"\x01\x03\x80\x80\x04\x0a", 6, "\x01\x03", 2, 1, {{2, 4, SUPHAROEK_VOLUME}}},
    {"\x01\x03\x80\x80\x04\x0a\x81", 7, "\x01\x03", 2, 1, {{2, 5, SUPHAROEK_VOLUME}}},

    /* a CUT in the volume, before the block, in it, before the priority, in it, where it would be out of range */
    {"\x01\x03\x80", 3, "\x01\x03", 2, 1, {{2, 1, SUPHAROEK_CUT}}},
    {"\x01\x03\x01", 3, "\x01\x03", 2, 1, {{2, 1, SUPHAROEK_CUT}}},
    {"\x01\x03\x01\xff\xff", 5, "\x01\x03", 2, 1, {{2, 3, SUPHAROEK_CUT}}},
    {"\x01\x03\x01\x0a", 4, "\x01\x03", 2, 1, {{2, 2, SUPHAROEK_CUT}}},
    {"\x01\x03\x01\x0a\x80", 5, "\x01\x03", 2, 1, {{2, 3, SUPHAROEK_CUT}}},
    {"\x01\x03\x01\x0a\xff\xff\xff\xff", 8, "\x01\x03", 2, 1, {{2, 6, SUPHAROEK_CUT}}},

    /* a FORM in the volume, in the block, in the priority, at the end and before it */
    {"\x01\x03\x80\x00\x0a\x01", 6, "\x01\x03", 2, 1, {{2, 4, SUPHAROEK_FORM}}},
    {"\x01\x03\x01\xff\xff\xff\xff\x10\x01", 9, "\x01\x03", 2, 1, {{2, 7, SUPHAROEK_FORM}}},
    {"\x01\x03\x01\x0a\x80\x80\x80\x80\x80", 9, "\x01\x03", 2, 1, {{2, 7, SUPHAROEK_FORM}}},
    {"\x01\x03\x01\x0a\xff\xff\xff\xff\x10\x01\x0a\x01", 12, "\x01\x03", 2, 1, {{2, 10, SUPHAROEK_FORM}}},

    /* right reads before and after one that is left out, between two, and after two in a row */
    {"\x01\x03\x01\x0a\x01\x80\x80\x04\x0b\x02\x01\x0c\x00", 13, "\x01\x03\x01\x0a\x01\x01\x0c\x00", 8, 1,
     {{5, 5, SUPHAROEK_VOLUME}}},
    {"\x01\x03\x01\x0a\x01\x01\x0b\x80\x80\x01\x01\x0c\x00", 13, "\x01\x03\x01\x0a\x01\x01\x0c\x00", 8, 1,
     {{5, 5, SUPHAROEK_PRIORITY}}},
    {"\x01\x03\x80\x80\x04\x0a\x01\x01\x0b\x01\x01\x0c\x80\x80\x01", 15, "\x01\x03\x01\x0b\x01", 5, 2,
     {{2, 5, SUPHAROEK_VOLUME}, {10, 5, SUPHAROEK_PRIORITY}}},
    {"\x01\x03\x01\x0a\x80\x80\x01\x80\x80\x04\x0b\x02\x01\x0c\x00", 15, "\x01\x03\x01\x0c\x00", 5, 2,
     {{2, 5, SUPHAROEK_PRIORITY}, {7, 5, SUPHAROEK_VOLUME}}},
    {"\x01\x03\x80\x80\x04\x0a\x01\x80\x80\x04\x0b\x02\x01\x0c\x00", 15, "\x01\x03\x01\x0c\x00", 5, 2,
     {{2, 5, SUPHAROEK_VOLUME}, {7, 5, SUPHAROEK_VOLUME}}},

    /* a FORM before what looks like two right reads; one behind a read that is left out, before another such; a CUT */
    {"\x01\x03\x01\x0a\x01\x01\x80\x00\x01\x01\x0b\x01\x01\x0c\x01", 15, "\x01\x03\x01\x0a\x01", 5, 1,
     {{5, 10, SUPHAROEK_FORM}}},
    {"\x01\x03\x80\x80\x04\x0a\x01\x80\x00\x80\x80\x04\x0a\x01", 14, "\x01\x03", 2, 2,
     {{2, 5, SUPHAROEK_VOLUME}, {7, 7, SUPHAROEK_FORM}}},
    {"\x01\x03\x01\x0a\x80\x80\x01\x01", 8, "\x01\x03", 2, 2, {{2, 5, SUPHAROEK_PRIORITY}, {7, 1, SUPHAROEK_CUT}}},
};

/* What was worked out by hand holds for the second salvager and for the call. */
static void check_by_hand(struct trace *trace, const struct salvaged *salvaged, uint64_t which) {
    struct salvaged second = salvaged_of(trace);
    check(same_salvaged(&second, salvaged), "a salvage by hand", which);
    for (size_t outs = 0; outs <= MOST_OUTS; outs++)
        check_salvages(trace, salvaged, outs, which);
    drop_salvaged(second);
    end_case();
}

static void check_stated(struct trace *trace) {
    for (size_t i = 0; i < sizeof headers / sizeof *headers; i++) {
        const struct salvaged salvaged = {headers[i].refusal, headers[i].place, 0, 0, NULL, NULL};
        give_bytes(trace, headers[i].bytes, headers[i].length);
        check_by_hand(trace, &salvaged, i);
    }
    for (size_t i = 0; i < sizeof traces / sizeof *traces; i++) {
        const struct stated *stated = &traces[i];
        const uint8_t *good = (const uint8_t *)stated->good;
        const struct salvaged salvaged = {0, 0, stated->kept, stated->entries, good, stated->list};
        give_bytes(trace, stated->bytes, stated->length);
        check_by_hand(trace, &salvaged, i);
    }
}

/* How often a header was refused or something listed under each number. */
static uint64_t seen[SUPHAROEK_PRIORITY + 1];

/* A trace against the second salvager, telling into so many numbers; answers how many entries it needs. */
static size_t check_trace(const struct trace *trace, size_t outs, uint64_t which) {
    struct salvaged salvaged = salvaged_of(trace);
    size_t entries = salvaged.entries;
    check_salvages(trace, &salvaged, outs, which);
    seen[salvaged.refusal]++;
    for (size_t i = 0; i < entries; i++)
        seen[salvaged.list[i].number]++;
    drop_salvaged(salvaged);
    end_case();
    return entries;
}

/* Every trace with so many bytes after its header out of these: numbers that end and do not, of a wrong form and out of
 * range. Answers how many entries the one with most of them needs. */
static size_t check_bodies(struct trace *trace, size_t body) {
    static const uint8_t bytes[] = {0x00, 0x04, 0x80};
    size_t all = 1, most = 0;
    for (size_t i = 0; i < body; i++)
        all *= sizeof bytes;
    for (size_t number = 0; number < all; number++) {
        begin_trace(trace, 3, body);
        for (size_t rest = number; trace->length < 2 + body; rest /= sizeof bytes)
            trace->bytes[trace->length++] = bytes[rest % sizeof bytes];
        size_t entries = check_trace(trace, number % (MOST_OUTS + 1), number);
        most = entries > most ? entries : most;
    }
    return most;
}

/* For some lengths of traces no fewer entries suffice than the header states. */
static void check_short_traces(struct trace *trace) {
    size_t most[2 + SHORT_BODY + 1];
    for (size_t body = 0; body <= SHORT_BODY; body++)
        most[2 + body] = check_bodies(trace, body);
    check(most[3] == SUPHAROEK_ENTRIES(3) && most[3] == 1, "an entry in a trace of three bytes", 3);
    check(most[8] == SUPHAROEK_ENTRIES(8) && most[8] == 2, "two entries in a trace of eight bytes", 8);
    end_case();
}

static void check_bad_traces(struct trace *trace) {
    for (uint64_t i = 0; i < SMALL_TRACES; i++) {
        make_bad_trace(trace, 1 + i % SMALL_SIZES, from_to(0, MOST_READS));
        if (i % 3)
            damage(trace, (int)from_to(0, DAMAGES - 1));
        check_trace(trace, i % (MOST_OUTS + 1), i);
    }
    for (uint32_t number = 0; number <= SUPHAROEK_PRIORITY; number++)
        check(seen[number] > 0, "every number of a salvage occurs", number);
    end_case();
}

/* Outputs, lists and numbers to tell into that are none where only the lowest bits of their lengths are looked at. */
static void check_far_longer(struct trace *trace) {
    make_bad_trace(trace, SUPHAROEK_LARGEST, MOST_READS);
    struct salvaged salvaged = salvaged_of(trace);
    check_salvage(trace, &salvaged, FAR_LONGER, FAR_LONGER, 256, 0);
    check_salvage(trace, &salvaged, 256, 256, 256, 0);
    drop_salvaged(salvaged);
    end_case();
}

/* More bytes, entries, and bytes of one entry than 16 bits count; all that is told of them is looked at. */
static void check_long_trace(struct trace *trace) {
    begin_trace(trace, 1, 3 * LONG_READS);
    for (size_t i = 0; i < LONG_READS; i++) {
        add_read(trace, 65536, 1, 1);
        add_read(trace, 1, 1, i % 2);
    }
    memcpy(trace->bytes + trace->length, "\x80\x00", 2);
    trace->length += 2;
    for (size_t i = 0; i < LONG_READS; i++)
        add_read(trace, 1, 1, 1);
    check(check_trace(trace, MOST_OUTS, LONG_READS) == LONG_READS + 1, "the entries of a long trace", LONG_READS);
    end_case();
}

void check_salvaging(void) {
    struct trace trace = {0};
    check_stated(&trace);
    check_short_traces(&trace);
    check_bad_traces(&trace);
    check_far_longer(&trace);
    check_long_trace(&trace);
    drop_trace(&trace);
}
