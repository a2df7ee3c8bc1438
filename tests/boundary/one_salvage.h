/* One trace through supharoek_salvage, held to what it has to answer and to leave. */
#ifndef ONE_SALVAGE_H
#define ONE_SALVAGE_H

#include <stddef.h>
#include <stdint.h>

#include "supharoek.h"
#include "traces.h"

/* What a trace comes to: a good trace of so many bytes and a list of so many entries; or its header's refusal, with the
 * place. */
struct salvaged {
    uint32_t refusal;
    size_t place, bytes, entries;
    const uint8_t *good;
    const struct supharoek_entry *list;
};

/* A trace salvaged here a second time. */
struct salvaged salvaged_of(const struct trace *trace);
void drop_salvaged(struct salvaged salvaged);

int same_salvaged(const struct salvaged *one, const struct salvaged *other);

/* The call with an output of so many bytes and a list of so many entries, telling into so many numbers. */
void check_salvage(const struct trace *trace, const struct salvaged *salvaged, size_t space, size_t room, size_t outs,
                   uint64_t which);

/* The call with outputs and lists of every kind, and what becomes of the good trace. */
void check_salvages(const struct trace *trace, const struct salvaged *salvaged, size_t outs, uint64_t which);

#endif
