/* The calls that read and write headers and records. */
#include <string.h>

#include "library.h"

/* The bits of a number that are kept, its range, and the refusal of one that is not in it. */
struct field {
    uint64_t bits, least, most;
    uint32_t refusal;
};

void tell(uint64_t *out, size_t out_length, const uint64_t *values, size_t count) {
    if (fault == out_8_bits)
        out_length %= 256;
    if (fault == all_told_or_none && out_length < count)
        return;
    if (fault == out_past_its_length && out_length < count)
        out_length++;
    memcpy(out, values, (count < out_length ? count : out_length) * sizeof *values);
}

/* Reads a number and moves the place past it; the refusal of its form, or 0. */
static uint32_t read_number(const uint8_t *bytes, size_t length, size_t *at, uint64_t *value) {
    *value = 0;
    for (size_t i = 0; i < LONGEST_NUMBER; i++) {
        if (*at + i == length)
            return SUPHAROEK_CUT;
        uint8_t byte = bytes[*at + i];
        *value |= (uint64_t)(byte & 127) << 7 * i;
        if (byte & 128)
            continue;
        if (i > 0 && byte == 0 && fault != long_zero)
            return SUPHAROEK_FORM;
        *at += i + 1;
        return i == 4 && byte > 15 && fault != fifth_byte ? SUPHAROEK_FORM : 0;
    }
    return fault == endless_is_cut && *at + LONGEST_NUMBER == length ? SUPHAROEK_CUT : SUPHAROEK_FORM;
}

static struct reading read_fields(const uint8_t *bytes, size_t length, size_t at, const struct field *fields,
                                  int count) {
    struct reading found = {0, at, at, {0, 0, 0}};
    for (int i = 0; i < count && found.refusal == 0; i++) {
        uint64_t *value = &found.values[i];
        found.place = found.end;
        found.refusal = read_number(bytes, length, &found.end, value);
        *value &= fields[i].bits;
        if (found.refusal == 0 && (*value < fields[i].least || *value > fields[i].most))
            found.refusal = fields[i].refusal;
    }
    return found;
}

struct reading header_of(const uint8_t *trace, size_t length) {
    const struct field fields[] = {{fault == edition_8_bits ? 255 : UINT32_MAX, 1, 1, SUPHAROEK_EDITION},
                                   {fault == size_8_bits ? 255 : UINT32_MAX, 1, 127, SUPHAROEK_SIZE}};
    return read_fields(trace, length, 0, fields, 2);
}

struct reading record_of(const uint8_t *trace, size_t length, size_t at) {
    const struct field fields[] = {{fault == volume_16_bits ? 65535 : UINT32_MAX, 0, 65535, SUPHAROEK_VOLUME},
                                   {UINT32_MAX, 0, UINT32_MAX, 0},
                                   {fault == priority_16_bits ? 65535 : UINT32_MAX, fault == no_hint_refused,
                                    16383 + (fault == priority_16384), SUPHAROEK_PRIORITY}};
    return read_fields(trace, length, at, fields, 3);
}

struct reading formed_of(const uint8_t *trace, size_t length, size_t at) {
    const struct field any = {UINT32_MAX, 0, UINT32_MAX, 0}, fields[] = {any, any, any};
    return read_fields(trace, length, at, fields, 3);
}

/* Tells so many values and the end of what was read, or the place of its refusal. */
static uint32_t told(struct reading found, size_t values, uint64_t *out, size_t out_length) {
    uint64_t all[4] = {found.place};
    if (found.refusal == 0) {
        memcpy(all, found.values, values * sizeof *all);
        all[values] = found.end;
    }
    tell(out, out_length, all, found.refusal ? 1 : values + 1);
    return found.refusal;
}

uint32_t supharoek_read_header(const uint8_t *trace, size_t trace_length, uint64_t *out, size_t out_length) {
    return told(header_of(trace, fault == part_16_bits ? trace_length % 65536 : trace_length), 2, out, out_length);
}

uint32_t supharoek_read_record(const uint8_t *part, size_t part_length, uint64_t *out, size_t out_length) {
    struct reading found = record_of(part, part_length, 0);
    if (fault == nothing_may_follow && found.end < part_length)
        found.refusal = SUPHAROEK_FORM;
    if (fault == no_hint_told_as_one && found.values[2] == 0)
        found.values[2] = 1;
    return told(found, 3, out, out_length);
}

/* Writes what is spelled where it fits, and tells its length. */
static uint32_t put(uint8_t *buffer, size_t buffer_length, size_t at, const uint8_t *spelled, size_t length,
                    uint64_t *out, size_t out_length) {
    size_t start = fault == at_32_bits ? (uint32_t)at : fault == at_16_bits ? (uint16_t)at : at;
    size_t room = fault == buffer_16_bits ? (uint16_t)buffer_length : buffer_length;
    int fits = fault == at_wraps ? start + length <= room : start <= room && length <= room - start;
    if (!fits || (fault == space_to_spare && start + length == room))
        return SUPHAROEK_SPACE;
    memcpy(buffer + start, spelled, length);
    if (fault == zero_after_write && start + length < room)
        buffer[start + length] = 0;
    uint64_t told = fault == end_told ? start + length : length;
    tell(out, out_length, &told, 1);
    return 0;
}

static uint32_t refused(uint32_t number, size_t buffer_length, size_t at, uint64_t *out, size_t out_length) {
    const uint64_t nothing = 0;
    if (fault == refused_write_told)
        tell(out, out_length, &nothing, 1);
    return fault == space_before_range && at > buffer_length ? SUPHAROEK_SPACE : number;
}

uint32_t supharoek_write_header(uint8_t *buffer, size_t buffer_length, size_t at, uint64_t edition, uint64_t size,
                                uint64_t *out, size_t out_length) {
    uint8_t spelled[2 * LONGEST_NUMBER];
    if (fault == written_size_8_bits)
        size %= 256;
    if (edition != 1)
        return refused(SUPHAROEK_EDITION, buffer_length, at, out, out_length);
    if (size < 1 || size > 127)
        return refused(SUPHAROEK_SIZE, buffer_length, at, out, out_length);
    return put(buffer, buffer_length, at, spelled, spell_header(spelled, edition, size), out, out_length);
}

uint32_t supharoek_write_record(uint8_t *buffer, size_t buffer_length, size_t at, uint64_t volume, uint32_t block,
                                uint64_t priority, uint64_t *out, size_t out_length) {
    uint8_t spelled[LONGEST_RECORD];
    if (fault == written_volume_32_bits)
        volume = (uint32_t)volume;
    if (volume > 65535)
        return refused(SUPHAROEK_VOLUME, buffer_length, at, out, out_length);
    if (priority > 16383 + (fault == written_priority_16384) || (fault == written_no_hint_refused && priority == 0))
        return refused(SUPHAROEK_PRIORITY, buffer_length, at, out, out_length);
    if (fault == no_hint_written_as_one && priority == 0)
        priority = 1;
    return put(buffer, buffer_length, at, spelled, spell_record(spelled, volume, block, priority), out, out_length);
}
