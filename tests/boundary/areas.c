#include "areas.h"

#include <stdio.h>
#include <stdlib.h>
#include <string.h>

#include "tally.h"

/* A multiple of what every element is aligned to, so that what is lent stays aligned. */
enum { GUARD = 64 };

static size_t bytes_of(struct area area) {
    return area.width * area.length;
}

void *taken(size_t length) {
    void *at = malloc(length);
    if (at == NULL) {
        printf("there is not enough memory\n");
        exit(1);
    }
    return at;
}

void renew(struct area area) {
    memcpy(area.before, area.at - GUARD, bytes_of(area) + 2 * GUARD);
}

struct area lend(size_t width, size_t length) {
    size_t all = width * length + 2 * GUARD;
    struct area area = {(uint8_t *)taken(all) + GUARD, taken(all), width, length};
    for (size_t i = 0; i < all; i += 8) {
        uint64_t noise = chance();
        memcpy(area.at - GUARD + i, &noise, all - i < 8 ? all - i : 8);
    }
    renew(area);
    return area;
}

struct area lend_copy(const uint8_t *bytes, size_t length) {
    struct area area = lend(1, length);
    memcpy(area.at, bytes, length);
    renew(area);
    return area;
}

void take_back(struct area area) {
    free(area.at - GUARD);
    free(area.before);
}

/* Every byte outside of so many elements from a place on is as it was. */
static int kept_around(struct area area, size_t at, size_t elements) {
    size_t first = GUARD + at * area.width, rest = first + elements * area.width;
    const uint8_t *now = area.at - GUARD;
    size_t all = bytes_of(area) + 2 * GUARD;
    return memcmp(now, area.before, first) == 0 && memcmp(now + rest, area.before + rest, all - rest) == 0;
}

int kept_after(struct area area, size_t elements) {
    return kept_around(area, 0, elements);
}

int holds(struct area area, size_t at, const void *bytes, size_t elements) {
    int right = memcmp(area.at + at * area.width, bytes, elements * area.width) == 0;
    return right && kept_around(area, at, elements);
}

int begins_with(struct area area, const void *bytes, size_t elements) {
    return holds(area, 0, bytes, elements < area.length ? elements : area.length);
}

int begins_with_zeros(struct area area, size_t elements) {
    for (size_t i = 0; i < elements * area.width; i++)
        if (area.at[i] != 0)
            return 0;
    return kept_after(area, elements);
}
