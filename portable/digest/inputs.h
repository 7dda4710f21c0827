/*
 * The inputs of the digest: whole numbers and bytes, made from a seed and never from an answer of the library, so that
 * they are the same for every library and machine.
 */
#ifndef DIGEST_INPUTS_H
#define DIGEST_INPUTS_H

#include "../../include/spargolutta.h"

/* A seeded random number, and one below n, one of least to most, and a choice of one in n. */
void start_random(uint64_t seed);
uint64_t random_number(void);
uint32_t below(uint32_t n);
int32_t within(int64_t least, int64_t most);
int one_in(uint32_t n);

struct point {
    int32_t x, y, z;
};

/* A sheet with the parts that it was made from. */
struct zone {
    uint32_t grid;
    size_t count; /* of vertices */
    struct point known, second;
    uint8_t vertices[SPG_VERTICES_MOST * SPG_POINT_SIZE];
    uint8_t sheet[SPG_SHEET_MOST + 64];
    size_t sheet_len;
};

void make_zone(struct zone *zone);
void redraw_zone(struct zone *to, const struct zone *from);
struct point near_zone(const struct zone *zone);
struct point vertex_at(const struct zone *zone, size_t i);
size_t make_text(uint8_t *text);
int32_t make_longitude(void);
int32_t make_latitude(void);

/*
 * The arguments of a round, by the names of the header's parameters: rows.py writes each call with them. X and X_len
 * are what a call reads, X_room is the length of a buffer X that it writes to, and room that of any other. A call with
 * a parameter that is not here is refused by rows.py: give it a member, and make_inputs or make_numbers a line.
 */
struct inputs {
    const uint8_t *sheet, *left, *right, *book, *queries, *candidates, *vertices, *text, *name, *degrees;
    size_t sheet_len, left_len, right_len, book_len, queries_len, candidates_len, vertices_len, text_len, name_len,
        degrees_len;
    size_t sheet_room, results_room, vertices_room, text_room, points_room, room;
    uint32_t zone, charset, grid;
    int32_t known_x, known_y, known_z, second_x, second_y, second_z;
    size_t at;
    /* drawn anew several times a round */
    int32_t x, y, z, longitude, latitude;
    uint32_t number;
};

void make_inputs(struct inputs *in);
void make_numbers(struct inputs *in);

/* What a row of the digest has: a call, how often it was asked and the hash of its answers. */
struct row {
    const char *name;
    void (*call)(struct row *row, const struct inputs *in);
    int by_numbers; /* asked for each drawing of the numbers: it has a query, or nothing that is lent */
    uint64_t calls, hash;
};

/* In rows.c, which rows.py makes from the header. */
extern struct row rows[];
extern const size_t rows_count;

void note(struct row *row, uint64_t answer);
uint8_t *lend(size_t room);
void note_lent(struct row *row, size_t room);

#endif
