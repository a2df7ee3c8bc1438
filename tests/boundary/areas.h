/* Areas to lend, filled with pseudo-random bytes, with guard bytes right before and right after each. */
#ifndef AREAS_H
#define AREAS_H

#include <stddef.h>
#include <stdint.h>

struct area {
    uint8_t *at;     /* where the lent part begins */
    uint8_t *before; /* what all of it, with the guards, held when it was lent */
    size_t width;    /* the bytes of an element */
    size_t length;   /* the elements */
};

/* So many bytes; where there is no memory for them the program ends, and tells no sum. */
void *taken(size_t length);

struct area lend(size_t width, size_t length);

/* Lends a copy of these bytes. */
struct area lend_copy(const uint8_t *bytes, size_t length);
void take_back(struct area area);

/* What the area holds now counts as what it held when it was lent. */
void renew(struct area area);

/* Every byte but those of the first elements is as it was, the guards too. */
int kept_after(struct area area, size_t elements);

/* The first bytes are these, as far as the area goes, and all else is as it was. */
int begins_with(struct area area, const void *bytes, size_t elements);

/* So many elements from a place on are these, and all else is as it was. */
int holds(struct area area, size_t at, const void *bytes, size_t elements);

/* The first elements are 0, and all else is as it was. */
int begins_with_zeros(struct area area, size_t elements);

#endif
