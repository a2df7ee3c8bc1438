/* Supharoek: traces of block reads, and what they do on read-cache cards of every size up to 127.
 *
 * The calls keep nothing from one to the next. What goes in and what comes out lies in areas that the caller lends,
 * each a pointer and then its length: the length counts elements, not bytes. A pointer is never null and is aligned for
 * its elements, even where its length is 0. An area that a call writes overlaps no other area of that call.
 *
 * A read has a volume from 0 to 65,535, a block from 0 to 4,294,967,295 and a priority from 0 to 16,383. One without a
 * hint has priority 0: on a card it acts as 1, and it is read, told and written as 0.
 *
 * An answer is 0, or the number of a refusal. Further values go into `out`, from its first number on, as far as they
 * fit: an `out` may have any length, 0 too, and what is left of it keeps its values. */
#ifndef SUPHAROEK_H
#define SUPHAROEK_H

#include <stddef.h>
#include <stdint.h>

#ifdef __cplusplus
extern "C" {
#endif

/* Why something was refused. Those from a trace carry a place: the offset of the first byte of the number at fault,
 * or the length of the trace where that number has no byte. */
enum supharoek_refusal {
    SUPHAROEK_CUT = 1,      /* the bytes end inside a number, or before one that is still needed */
    SUPHAROEK_FORM = 2,     /* a spelling that is not allowed */
    SUPHAROEK_EDITION = 3,  /* an edition that is not 1 */
    SUPHAROEK_SIZE = 4,     /* a largest size outside 1 to 127 */
    SUPHAROEK_VOLUME = 5,   /* a volume over 65,535 */
    SUPHAROEK_PRIORITY = 6, /* a priority over 16,383 */
    SUPHAROEK_ROOM = 7,     /* a lent area that is too short; its place is 0 */
    SUPHAROEK_SPACE = 8,    /* a buffer that is too short from the offset on, or an output or a list for a salvage */
    SUPHAROEK_STATE = 9,    /* a size and places that are no card */
    SUPHAROEK_LARGE = 10,   /* the sheet program alone gives this: more input than it takes */
    SUPHAROEK_RATIO = 11    /* no ratio of these two numbers */
};

/* What a read does on a card. The first four are hits, the last two are misses. */
enum supharoek_outcome {
    SUPHAROEK_UP = 0,
    SUPHAROEK_SAME = 1,
    SUPHAROEK_DOWN = 2,
    SUPHAROEK_HIT_BYPASS = 3,
    SUPHAROEK_INSERT = 4,
    SUPHAROEK_MISS_BYPASS = 5
};

/* How many outcomes there are, and counts of them for one card. */
#define SUPHAROEK_OUTCOMES 6

/* The largest size of a card, and how many places a card of any size is handed over with. */
#define SUPHAROEK_LARGEST 127

/* How many numbers a run of sizes 1 to n has to be lent: of 64 bits for blocks, of 16 for stretches, of 64 for counts.
 * More are taken, and those beyond are never written. With n = 127 they suffice for every trace. */
#define SUPHAROEK_BLOCKS(n) ((size_t)(n))
#define SUPHAROEK_STRETCHES(n) (2 * (size_t)(n) * (((size_t)(n) + 1) / 2))
#define SUPHAROEK_COUNTS(n) (SUPHAROEK_OUTCOMES * (size_t)(n))

/* How many bytes and entries suffice to salvage any trace of n bytes. */
#define SUPHAROEK_GOOD(n) ((size_t)(n))
#define SUPHAROEK_ENTRIES(n) ((size_t)(n) / 3)

/* A length of text into which every sheet fits. */
#define SUPHAROEK_TEXT 32768

/* Reads the header at the start of a trace.
 * 0, and out: edition, largest size, length of the header in bytes.
 * CUT, FORM, EDITION or SIZE, and out: the place. */
uint32_t supharoek_read_header(const uint8_t *trace, size_t trace_length, uint64_t *out, size_t out_length);

/* Reads the record at the start of a part of a trace; what follows it is not looked at.
 * 0, and out: volume, block, priority, length of the record in bytes.
 * CUT, FORM, VOLUME or PRIORITY, and out: the place, from the start of the part on. No bytes at all are CUT at 0. */
uint32_t supharoek_read_record(const uint8_t *part, size_t part_length, uint64_t *out, size_t out_length);

/* Writes a header into a buffer from the offset `at` on; all its other bytes keep their values.
 * 0, and out: the length written.
 * EDITION, SIZE or SPACE, tested in this order: buffer and out keep all their values. */
uint32_t supharoek_write_header(uint8_t *buffer, size_t buffer_length, size_t at, uint64_t edition, uint64_t size,
                                uint64_t *out, size_t out_length);

/* Writes a record into a buffer from the offset `at` on; all its other bytes keep their values.
 * 0, and out: the length written.
 * VOLUME, PRIORITY or SPACE, tested in this order: buffer and out keep all their values. */
uint32_t supharoek_write_record(uint8_t *buffer, size_t buffer_length, size_t at, uint64_t volume, uint32_t block,
                                uint64_t priority, uint64_t *out, size_t out_length);

/* Bytes of a trace that a salvage left out. */
struct supharoek_entry {
    uint64_t offset; /* of the first of them, from the trace's first byte on */
    uint64_t length; /* how many they are */
    uint64_t number; /* of the refusal: CUT, FORM, VOLUME or PRIORITY */
};

/* Salvages a trace with bad records: writes a good trace into `good`, and an entry for whatever is left out into
 * `entries`, in the order of the trace. The good trace is the header and each record that can be read, the same bytes
 * in the same order. A record of well-formed numbers whose volume or priority is out of range is left out alone. At the
 * first FORM or CUT everything from the first byte of its record on is left out, as one entry. A record with two faults
 * is listed under the first, also where the second is a FORM or a CUT, which then still leaves out the rest. What is
 * kept and what is listed cover the trace after its header, each byte once.
 * 0, and out: the bytes and the entries written. What lies beyond them keeps its values.
 * CUT, FORM, EDITION or SIZE for the header, and out: the place. good and entries keep all their values.
 * SPACE, tested after the header, where good or entries is too short for this trace: good, entries and out keep all
 * their values. SUPHAROEK_GOOD and SUPHAROEK_ENTRIES of the trace's length suffice. */
uint32_t supharoek_salvage(const uint8_t *trace, size_t trace_length, uint8_t *good, size_t good_length,
                           struct supharoek_entry *entries, size_t entries_length, uint64_t *out, size_t out_length);

/* Runs a whole trace on cards of every size from 1 to the n of its header. What the areas hold before has no influence;
 * their lengths are SUPHAROEK_BLOCKS(n), SUPHAROEK_STRETCHES(n) and SUPHAROEK_COUNTS(n) or more.
 * 0, and out: the reads, the peak of all stretches, the peak of one block's stretches. The first SUPHAROEK_COUNTS(n)
 * counts hold six numbers for size 1, then for size 2, and so on, in the order of the outcomes above; the first
 * SUPHAROEK_BLOCKS(n) blocks and the first SUPHAROEK_STRETCHES(n) stretches hold 0.
 * CUT, FORM, EDITION or SIZE for the header, then ROOM, and out: the place. The three areas keep all their values.
 * CUT, FORM, VOLUME or PRIORITY for a record, and out: the place. The stated parts of the three areas hold 0. */
uint32_t supharoek_run(const uint8_t *trace, size_t trace_length, uint64_t *blocks, size_t blocks_length,
                       uint16_t *stretches, size_t stretches_length, uint64_t *counts, size_t counts_length,
                       uint64_t *out, size_t out_length);

/* Runs a trace as supharoek_run does, with the same areas and the same left in them, and puts its sheet into a text, as
 * far as it fits; a refusal is a sheet of one line that begins with `refused`. No byte of 0 is put after it.
 * The answer is the length of the whole sheet, which may be more than the text holds. */
size_t supharoek_sheet(const uint8_t *trace, size_t trace_length, uint64_t *blocks, size_t blocks_length,
                       uint16_t *stretches, size_t stretches_length, uint64_t *counts, size_t counts_length,
                       uint8_t *text, size_t text_length);

/* Reads one block on the card of one size. A place is 0 where it is empty, or volume * 4,294,967,296 + block + 1; the
 * first number is the top place. There are 127 places or more; those beyond 127 are never written.
 * 0, and out: the outcome, and 1 where it is a hit or 0 where it is a miss. The places are those after the read.
 * ROOM where there are fewer than 127 places, and out: the place 0. The places keep all their values.
 * STATE where the size is outside 1 to 127, a place after the size is not empty, a place is over 281,474,976,710,656, or
 * one block is in two places; VOLUME; PRIORITY: tested after ROOM and in this order. Places and out keep all their
 * values. */
uint32_t supharoek_step(size_t size, uint64_t *places, size_t places_length, uint64_t volume, uint32_t block,
                        uint64_t priority, uint64_t *out, size_t out_length);

/* Adds an outcome to the counts of one card: SUPHAROEK_OUTCOMES numbers, in the order of the outcomes. More are taken, and
 * those beyond are never written. Begun with zeros and told every outcome of supharoek_step from an empty card on, they
 * are the counts that supharoek_run finds for that size.
 * 0, and out: how many were added. That is 1, and the count of the outcome is one more; or 0 where the number is no
 * outcome or its count is 18,446,744,073,709,551,615, and the counts keep all their values.
 * ROOM where there are fewer counts, and out: the place 0. The counts keep all their values. */
uint32_t supharoek_count(uint32_t outcome, uint64_t *counts, size_t counts_length, uint64_t *out, size_t out_length);

/* The miss ratio: one division of the two numbers as doubles.
 * 0, and *ratio is the ratio.
 * RATIO where reads is 0, misses is over reads, or reads is over 9,007,199,254,740,992: *ratio keeps its value. */
uint32_t supharoek_ratio(uint64_t misses, uint64_t reads, double *ratio);

#ifdef __cplusplus
}
#endif

#endif
