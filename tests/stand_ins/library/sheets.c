/* The sheet of a trace. */
#include <stdio.h>
#include <string.h>

#include "library.h"

static size_t print_number(char *text, uint64_t number, char after) {
    if (fault == six_digits && number >= 100000 && number <= 999999)
        number /= 10;
    if (fault == seven_digits && number > 999999)
        number = 999999;
    return (size_t)sprintf(text, "%lu%c", number, after);
}

static size_t print_size(char *text, size_t size, const uint64_t *six) {
    size_t length = print_number(text, size, ' ');
    length += print_number(text + length, six[4] + (fault == misses_of_insert ? 0 : six[5]), ' ');
    for (int i = 0; i < 6; i++)
        length += print_number(text + length, six[i], i < 5 ? ' ' : '\n');
    return length;
}

static size_t print_sheet(char *text, const struct answer *answer, const uint64_t *counts) {
    if (answer->number)
        return (size_t)sprintf(text, "refused %u at %lu\n", answer->number, answer->told[0]);
    static const char *const words[] = {"accesses ", "stretches ", "block "};
    size_t length = 0;
    for (int i = 0; i < 3; i++) {
        length += (size_t)sprintf(text + length, "%s", words[i]);
        length += print_number(text + length, answer->told[i], i < 2 ? ' ' : '\n');
    }
    for (size_t m = 1; m <= answer->size; m++)
        length += print_size(text + length, m, counts + SUPHAROEK_COUNTS(m - 1));
    return length;
}

static size_t print_fixed(char *text) {
    return (size_t)sprintf(text, "accesses 2 stretches 1 block 1\n1 2 0 0 0 0 2 0\n");
}

/* Puts a sheet into a text as far as it fits; answers its whole length. */
static size_t put_sheet(const char *sheet, size_t length, uint8_t *text, size_t room) {
    if (fault == sheet_4096 && length > 4096)
        length = 4096;
    if (fault == text_16_bits)
        room %= 65536;
    if (fault == text_of_none && room == 0)
        text[0] = 0;
    if (fault == short_text_left && length > room)
        return length;
    size_t fits = length < room ? length : room;
    memcpy(text, sheet, fits);
    if (fault == zero_after_sheet && fits < room)
        text[fits] = 0;
    return fault == length_of_text ? fits : length;
}

size_t supharoek_sheet(const uint8_t *trace, size_t trace_length, uint64_t *blocks, size_t blocks_length,
                       uint16_t *stretches, size_t stretches_length, uint64_t *counts, size_t counts_length,
                       uint8_t *text, size_t text_length) {
    static char sheet[SUPHAROEK_TEXT];
    const struct lent lent = {trace,     trace_length,     blocks, blocks_length,
                              stretches, stretches_length, counts, counts_length};
    struct answer answer = run(&lent);
    size_t length = fault == fixed_sheet ? print_fixed(sheet) : print_sheet(sheet, &answer, counts);
    return put_sheet(sheet, length, text, text_length);
}
