#include "format.h"

#include "supharoek.h"

/* What a number has to be, and the refusal of one that is not. */
struct range {
    uint64_t least, most;
    uint32_t refusal;
};

static const struct range header[] = {{1, 1, SUPHAROEK_EDITION}, {1, 127, SUPHAROEK_SIZE}};
static const struct range record[] = {
    {0, 65535, SUPHAROEK_VOLUME}, {0, UINT32_MAX, 0}, {0, 16383, SUPHAROEK_PRIORITY}};
static const struct range formed[] = {{0, UINT32_MAX, 0}, {0, UINT32_MAX, 0}, {0, UINT32_MAX, 0}};

/* The bytes of the number at a place with its last one, or 0 where the trace ends before it does. */
static size_t number_length(const uint8_t *bytes, size_t length, size_t at) {
    for (size_t n = 1; n <= LONGEST_NUMBER; n++) {
        if (at + n > length)
            return 0;
        if (bytes[at + n - 1] < 128)
            return n;
    }
    return LONGEST_NUMBER;
}

/* Worked out from the last byte to the first, by multiplication. */
static uint64_t number_value(const uint8_t *bytes, size_t at, size_t length) {
    uint64_t value = 0;
    for (size_t i = length; i > 0; i--)
        value = value * 128 + bytes[at + i - 1] % 128;
    return value;
}

static int well_formed(const uint8_t *bytes, size_t at, size_t length) {
    uint8_t last = bytes[at + length - 1];
    if (length == LONGEST_NUMBER && last > 15)
        return 0;
    return length == 1 || last != 0;
}

static struct reading fields_at(const uint8_t *bytes, size_t length, size_t at, const struct range *fields, int count) {
    struct reading found = {0, at, at, {0, 0, 0}};
    for (int i = 0; i < count && found.refusal == 0; i++) {
        found.place = found.end;
        size_t taken = number_length(bytes, length, found.place);
        if (taken == 0) {
            found.refusal = SUPHAROEK_CUT;
        } else if (!well_formed(bytes, found.place, taken)) {
            found.refusal = SUPHAROEK_FORM;
        } else {
            uint64_t value = number_value(bytes, found.place, taken);
            if (value < fields[i].least || value > fields[i].most)
                found.refusal = fields[i].refusal;
            found.values[i] = value;
            found.end += taken;
        }
    }
    return found;
}

struct reading header_at_start(const uint8_t *bytes, size_t length) {
    return fields_at(bytes, length, 0, header, 2);
}

struct reading record_at(const uint8_t *bytes, size_t length, size_t at) {
    return fields_at(bytes, length, at, record, 3);
}

struct reading formed_at(const uint8_t *bytes, size_t length, size_t at) {
    return fields_at(bytes, length, at, formed, 3);
}

size_t spell(uint8_t *to, uint64_t value) {
    size_t length = 0;
    while (value >= 128) {
        to[length++] = (uint8_t)(128 + value % 128);
        value /= 128;
    }
    to[length++] = (uint8_t)value;
    return length;
}

size_t spell_header(uint8_t *to, uint64_t edition, uint64_t size) {
    size_t length = spell(to, edition);
    return length + spell(to + length, size);
}

size_t spell_record(uint8_t *to, uint64_t volume, uint64_t block, uint64_t priority) {
    size_t length = spell(to, volume);
    length += spell(to + length, block);
    return length + spell(to + length, priority);
}
