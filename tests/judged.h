/* The calls on sheets, queries, books and vertices, with all parts of an answer. */
#ifndef JUDGED_H
#define JUDGED_H

#include "cases.h"

#include <spargolutta.h>

struct judged {
    struct bytes sheet, queries, results;
    uint32_t number, count, looked;
    size_t place;
    int32_t sum;
    uint64_t inside, boundary, refused;
    uint64_t fields;
};

/* The first of the queries. */
static inline void judge(struct judged *j)
{
    struct bytes s = j->sheet;
    const uint8_t *q = j->queries.at;
    require(j->queries.length >= SPG_POINT_SIZE, "no query");
    int32_t x = spg_coordinate_at(q, 0), y = spg_coordinate_at(q, 1), z = spg_coordinate_at(q, 2);
    j->number = spg_judge_number(s.at, s.length, x, y, z);
    j->place = spg_judge_place(s.at, s.length, x, y, z);
    j->count = spg_judge_count(s.at, s.length, x, y, z);
    j->sum = spg_judge_sum(s.at, s.length, x, y, z);
    j->looked = spg_judge_looked(s.at, s.length, x, y, z);
}

/* The queries are candidates. */
static inline void choose(struct judged *j)
{
    struct bytes s = j->sheet, c = j->queries;
    j->number = spg_choose_number(s.at, s.length, c.at, c.length);
    j->place = spg_choose_place(s.at, s.length, c.at, c.length);
}

/* The sheet is a book. The steps over it are taken too: they find its sheets, and end where it ends or is refused. */
static inline void ask_book(struct judged *j, uint32_t grid, const uint8_t *q)
{
    struct bytes b = j->sheet;
    int32_t x = spg_coordinate_at(q, 0), y = spg_coordinate_at(q, 1), z = spg_coordinate_at(q, 2);
    j->number = spg_book_number(b.at, b.length, grid, x, y, z);
    j->place = spg_book_place(b.at, b.length, grid, x, y, z);
    j->count = spg_book_count(b.at, b.length, grid, x, y, z);
    j->inside = spg_book_inside(b.at, b.length, grid, x, y, z);
    j->boundary = spg_book_boundary(b.at, b.length, grid, x, y, z);
    j->refused = spg_book_refused(b.at, b.length, grid, x, y, z);
    size_t at = 0, size;
    for (; (size = spg_book_next_count(b.at, b.length, at)) > 0; at += size)
        require(spg_book_next_number(b.at, b.length, at) == SPG_DONE && spg_book_next_place(b.at, b.length, at) == at,
                "a step that is no sheet");
    require(j->number != SPG_DONE || at == b.length, "the steps do not end with the book");
}

/* The queries are the right sheet. */
static inline void compare(struct judged *j)
{
    struct bytes l = j->sheet, r = j->queries;
    j->number = spg_compare_number(l.at, l.length, r.at, r.length);
    j->place = spg_compare_place(l.at, l.length, r.at, r.length);
    j->count = spg_compare_count(l.at, l.length, r.at, r.length);
    j->sum = (int32_t)spg_compare_way(l.at, l.length, r.at, r.length);
    j->fields = spg_compare_fields(l.at, l.length, r.at, r.length);
}

static inline void feed(struct judged *j)
{
    struct bytes s = j->sheet, q = j->queries, r = j->results;
    j->place = spg_feed_place(s.at, s.length, q.at, q.length, r.length);
    j->count = spg_feed_count(s.at, s.length, q.at, q.length, r.length);
    j->number = spg_feed_number(s.at, s.length, q.at, q.length, r.at, r.length);
}

static inline void basin_on(struct judged *j, struct bytes vertices, uint32_t grid)
{
    j->number = spg_basin_number(vertices.at, vertices.length, grid);
    j->place = spg_basin_place(vertices.at, vertices.length, grid);
    j->count = spg_basin_count(vertices.at, vertices.length, grid);
}

static inline bool read_feed(struct judged *j)
{
    bool read = read_row(&j->sheet) && read_row(&j->queries) && read_row(&j->results);
    require(j->queries.length <= ROOM / 2 && j->results.length <= ROOM / 2, "feed too long");
    return read;
}

#endif
