/* Traces: read by read, by chance, and damaged. */
#ifndef TRACES_H
#define TRACES_H

#include <stddef.h>
#include <stdint.h>

enum { PRIORITY_KINDS = 11, DAMAGES = 10 };

/* Begun with all zeros. */
struct trace {
    uint8_t *bytes;
    size_t length;
};

/* A header for sizes 1 to n, with room for so many reads and a few more; what the trace held before is gone. */
void begin_trace(struct trace *trace, size_t n, size_t reads);
void add_read(struct trace *trace, uint64_t volume, uint64_t block, uint64_t priority);
void drop_trace(struct trace *trace);

/* Reads of a block that is on no card: each of the six outcomes at every size but 1, and four of them there. */
enum { OUTCOME_READS = 6 };
void add_outcomes(struct trace *trace, uint64_t volume, uint64_t block);

/* A trace of so many reads for sizes 1 to n, with priorities of one of the kinds. */
void make_trace(struct trace *trace, size_t n, size_t reads, int kind);

/* A trace likewise, in which many volumes and priorities are out of range. */
void make_bad_trace(struct trace *trace, size_t n, size_t reads);

/* A trace of these bytes, whatever they are. */
void give_bytes(struct trace *trace, const void *bytes, size_t length);

/* Spoils a trace in one of the ways; what is left may still be a right one. */
void damage(struct trace *trace, int way);

#endif
