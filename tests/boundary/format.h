/* The trace format, read and spelled here a second time. */
#ifndef FORMAT_H
#define FORMAT_H

#include <stddef.h>
#include <stdint.h>

enum { LONGEST_NUMBER = 5, LONGEST_RECORD = 10 };

/* What reading found: a refusal's number and its place, or 0, the values and where what was read ends. */
struct reading {
    uint32_t refusal;
    size_t place, end;
    uint64_t values[3];
};

struct reading header_at_start(const uint8_t *bytes, size_t length);
struct reading record_at(const uint8_t *bytes, size_t length, size_t at);

/* A record by the form of its numbers alone, whatever their values are. */
struct reading formed_at(const uint8_t *bytes, size_t length, size_t at);

/* Spells a number up to 4,294,967,295 and answers how many bytes that took. */
size_t spell(uint8_t *to, uint64_t value);
size_t spell_header(uint8_t *to, uint64_t edition, uint64_t size);
size_t spell_record(uint8_t *to, uint64_t volume, uint64_t block, uint64_t priority);

#endif
