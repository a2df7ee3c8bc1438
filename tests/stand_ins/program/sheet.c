/* The sheet program in C, over the stand-in library without a fault. It is compiled with one of these as FAULT. */
#include <errno.h>
#include <stdio.h>
#include <string.h>
#include <unistd.h>

#include "supharoek.h"

enum fault {
    none, /* nothing is wrong */

    /* the input */
    single_read,        /* the input is read by one call */
    error_is_end,       /* a read that fails is taken for the end of the input */
    later_error_is_end, /* a read that fails after others is taken for the end of the input */
    block_is_end,       /* a read that would block is taken for the end of the input */
    folder_is_empty,    /* a folder is taken for an empty input */
    interrupt_is_end,   /* a read that a signal interrupts is taken for the end of the input */
    interrupt_fails,    /* a read that a signal interrupts is not tried again */
    silent_error,       /* a read that fails is not told */
    error_on_output,    /* a read that fails is told on standard output */
    large_at_bound,     /* 16,384 bytes are refused */
    large_past_bound,   /* 16,385 bytes are run */

    /* the output */
    output_4096,   /* the sheet's output is cut at 4,096 bytes */
    single_write,  /* a write that takes a part is taken for all of them */
    silent_write,  /* a write that fails is not told */
    write_fails,   /* a write that a signal interrupts is not tried again */
    silent_sync,   /* a file that does not come to the disk is not told */
    no_status,     /* a failure has the status of a success */
    text_4096,     /* the text is 4,096 bytes long, and the sheet is told as far as it fits */
    line_more,     /* the sheet ends with an empty line */
    small_areas    /* the areas suffice for sizes up to 126 */
};

static const enum fault fault = FAULT;

enum { TAKEN = 16384, TRIES = 1000000, NO_ANSWER = 2 };

static uint8_t input[TAKEN + 2];
static uint8_t text[SUPHAROEK_TEXT];
static uint64_t blocks[SUPHAROEK_BLOCKS(SUPHAROEK_LARGEST)];
static uint16_t stretches[SUPHAROEK_STRETCHES(SUPHAROEK_LARGEST)];
static uint64_t counts[SUPHAROEK_COUNTS(SUPHAROEK_LARGEST)];

static int fail(const char *what) {
    if (!(fault == silent_error && strcmp(what, "input") == 0))
        fprintf(fault == error_on_output ? stdout : stderr, "sheet: standard %s: %s\n", what, strerror(errno));
    return fault == no_status ? 0 : NO_ANSWER;
}

/* Whether a fault takes a failed read for the end. */
static int taken_for_end(size_t length) {
    return fault == error_is_end || (fault == later_error_is_end && length > 0) ||
           (fault == block_is_end && errno == EAGAIN) || (fault == folder_is_empty && errno == EISDIR) ||
           (fault == interrupt_is_end && errno == EINTR);
}

/* The length of the input, or a number below 0 where it could not be read. */
static long read_input(void) {
    size_t length = 0, most = TAKEN + 1;
    for (long tries = TRIES; tries > 0 && length < most;) {
        long got = read(0, input + length, most - length);
        if (got < 0 && taken_for_end(length))
            return (long)length;
        if (got < 0 && (errno != EINTR || fault == interrupt_fails))
            return -1;
        if (got == 0 || fault == single_read)
            return (long)(length + (got > 0 ? (size_t)got : 0));
        if (got < 0)
            tries--;
        else
            length += (size_t)got;
    }
    return length == most ? (long)length : -1;
}

static int write_all(size_t length) {
    size_t done = 0, most = fault == output_4096 && length > 4096 ? 4096 : length;
    while (done < most) {
        long put = write(1, text + done, most - done);
        if (put < 0 && errno == EINTR && fault != write_fails)
            continue;
        if (put <= 0)
            return fault == silent_write;
        done = fault == single_write ? most : done + (size_t)put;
    }
    /* what has no place, as a pipe, has no disk either */
    return lseek(1, 0, 1) < 0 || fdatasync(1) == 0 || fault == silent_sync;
}

static size_t sheet_of(size_t length) {
    size_t largest = fault == large_at_bound ? TAKEN - 1 : fault == large_past_bound ? TAKEN + 1 : TAKEN;
    if (length > largest)
        return (size_t)sprintf((char *)text, "refused 10 at 16384\n");
    size_t blocks_length = SUPHAROEK_BLOCKS(SUPHAROEK_LARGEST) - (fault == small_areas);
    size_t room = fault == text_4096 ? 4096 : sizeof text;
    size_t whole = supharoek_sheet(input, length, blocks, blocks_length, stretches, sizeof stretches / sizeof *stretches,
                                   counts, sizeof counts / sizeof *counts, text, room);
    if (fault == line_more)
        text[whole++] = '\n';
    return whole < room ? whole : room;
}

int main(void) {
    long length = read_input();
    if (length < 0)
        return fail("input");
    return write_all(sheet_of((size_t)length)) ? 0 : fail("output");
}
