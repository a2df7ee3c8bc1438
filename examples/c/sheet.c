/* Prints the sheet of a trace of any length: sheet FILE
 *
 * It ends with status 0 for a sheet, 1 for the line of a refused trace, and 2 where it could not ask or could not tell. */
#include <stdio.h>
#include <stdlib.h>

#include "supharoek.h"

enum { FIRST_ROOM = 65536, REFUSED = 1, WRONG = 2 };

struct bytes {
    uint8_t *at;
    size_t length;
};

static uint64_t blocks[SUPHAROEK_BLOCKS(SUPHAROEK_LARGEST)];
static uint16_t stretches[SUPHAROEK_STRETCHES(SUPHAROEK_LARGEST)];
static uint64_t counts[SUPHAROEK_COUNTS(SUPHAROEK_LARGEST)];
static uint8_t text[SUPHAROEK_TEXT];

static void fail(const char *why, const char *name) {
    fprintf(stderr, "sheet: %s%s\n", why, name);
    exit(WRONG);
}

/* So many bytes, with what the old ones held; the program ends where there is no memory for them. */
static uint8_t *with_room(uint8_t *old, size_t room) {
    uint8_t *at = realloc(old, room);
    if (at == NULL)
        fail("there is not enough memory for the trace", "");
    return at;
}

static struct bytes rest_of(FILE *file) {
    size_t room = FIRST_ROOM;
    struct bytes trace = {with_room(NULL, room), 0};
    for (size_t got; (got = fread(trace.at + trace.length, 1, room - trace.length, file)) > 0;) {
        trace.length += got;
        if (trace.length == room)
            trace.at = with_room(trace.at, room *= 2);
    }
    return trace;
}

static struct bytes read_file(const char *name) {
    FILE *file = fopen(name, "rb");
    if (file == NULL)
        fail("there is no file to read at ", name);
    struct bytes trace = rest_of(file);
    if (ferror(file))
        fail("this cannot be read as a file: ", name);
    fclose(file);
    return trace;
}

/* Prints the sheet, or the line of a refusal; the status. What is lost may show only when the output is closed. */
static int print_sheet(struct bytes trace) {
    size_t length = supharoek_sheet(trace.at, trace.length, blocks, sizeof blocks / sizeof *blocks, stretches,
                                    sizeof stretches / sizeof *stretches, counts, sizeof counts / sizeof *counts, text,
                                    sizeof text);
    if (fwrite(text, 1, length, stdout) != length || fclose(stdout) != 0)
        fail("the sheet could not be written", "");
    return text[0] == 'r' ? REFUSED : 0;
}

int main(int given, char **arguments) {
    if (given != 2)
        fail("one file is needed: sheet FILE", "");
    struct bytes trace = read_file(arguments[1]);
    int status = print_sheet(trace);
    free(trace.at);
    return status;
}
