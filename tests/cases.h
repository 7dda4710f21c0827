/* Cases from standard input: rows of bytes, each with its length before it (4 bytes, big-endian). */
#ifndef CASES_H
#define CASES_H

#include <spargolutta.h>
#include <stdbool.h>
#include <stdint.h>
#include <stdio.h>
#include <stdlib.h>

#define ROOM (1 << 17)

struct bytes {
    uint8_t *at;
    size_t length;
};

static inline void require(bool holds, const char *what)
{
    if (!holds) {
        fprintf(stderr, "failed: %s\n", what);
        exit(1);
    }
}

/* Reads a row into ROOM bytes; false at the end of the input. */
static inline bool read_row(struct bytes *row)
{
    uint8_t word[4];
    if (fread(word, 1, 4, stdin) == 0)
        return false;
    row->length = spg_number_at(word);
    require(row->length <= ROOM, "too long");
    require(fread(row->at, 1, row->length, stdin) == row->length, "case cut short");
    return true;
}

#endif
