/* What the parts of a stand-in library share. It is right in everything but the one fault that it is compiled with. */
#ifndef LIBRARY_H
#define LIBRARY_H

#include "faults.h"
#include "format.h"
#include "supharoek.h"

struct reading header_of(const uint8_t *trace, size_t length);
struct reading record_of(const uint8_t *trace, size_t length, size_t at);

/* A record by the form of its numbers alone. */
struct reading formed_of(const uint8_t *trace, size_t length, size_t at);

/* Puts values into out, as far as they fit. */
void tell(uint64_t *out, size_t out_length, const uint64_t *values, size_t count);

/* What a run is lent. */
struct lent {
    const uint8_t *trace;
    size_t trace_length;
    uint64_t *blocks;
    size_t blocks_length;
    uint16_t *stretches;
    size_t stretches_length;
    uint64_t *counts;
    size_t counts_length;
};

/* What a run answers and tells; `size` is the largest size, where it was finished. */
struct answer {
    uint32_t number;
    size_t tells, size;
    uint64_t told[3];
};

struct answer run(const struct lent *lent);

#endif
