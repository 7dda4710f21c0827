/*
 * One call on a work of the bench, for callgrind to count: speed WORK SIDES GRID makes an outline of that many sides
 * and asks once. speed.py starts it with each library.
 */
#include "spargolutta.h"
#include <math.h>
#include <stdio.h>
#include <stdlib.h>
#include <string.h>

#define QUERIES 17087
#define TURN 6.283185307179586

static uint8_t vertices[SPG_VERTICES_MOST * SPG_POINT_SIZE], sheet[SPG_SHEET_MOST], redrawn[SPG_SHEET_MOST];
static uint8_t queries[QUERIES * SPG_POINT_SIZE], results[QUERIES * SPG_POINT_SIZE], book[8 * SPG_SHEET_MOST];
static char text[400000];
static uint64_t state = UINT64_C(88172645463325252);

/* 0 up to 1 */
static double fraction(void)
{
    state ^= state << 13;
    state ^= state >> 7;
    state ^= state << 17;
    return (double)(state % 1000000) / 1e6;
}

/* The point at an angle round the pole and a distance from it, in the plane that touches the sphere there. */
static void put_round(uint8_t *to, double angle, double distance, double limit)
{
    double length = sqrt(1 + distance * distance), across = limit * distance / length;
    spg_put_point(to, (int32_t)floor(across * cos(angle)), (int32_t)floor(across * sin(angle)),
                  (int32_t)floor(limit / length));
}

static double radius(double angle)
{
    return 0.5 * (1 + 0.3 * sin(5 * angle) + 0.1 * sin(37 * angle) + 0.02 * (fraction() - 0.5));
}

static size_t write_sheet(uint8_t *to, int start, int sides, uint32_t grid, double limit)
{
    for (int i = 0; i < sides; i++)
        memcpy(to + 33 + SPG_POINT_SIZE * i, vertices + SPG_POINT_SIZE * ((i + start) % sides), SPG_POINT_SIZE);
    memcpy(to, "\1\0\4\0\0\0\7\2\0\1\1\3\0\1A\4\0\14", 18);
    spg_put_point(to + 18, 3, 7, (int32_t)limit - 100);
    to[30] = grid ? 7 : 5;
    to[31] = (uint8_t)(SPG_POINT_SIZE * sides >> 8);
    to[32] = (uint8_t)(SPG_POINT_SIZE * sides);
    return 33 + (size_t)SPG_POINT_SIZE * (size_t)sides;
}

static size_t write_text(int sides)
{
    char *to = text + sprintf(text, "{\"type\":\"Polygon\",\"coordinates\":[[");
    for (int i = 0; i <= sides; i++) {
        double angle = TURN * (i % sides) / sides;
        to += sprintf(to, "%s[%.7f,%.7f]", i ? "," : "", 3 + cos(angle), 50 + sin(angle));
    }
    return (size_t)(to + sprintf(to, "]]}") - text);
}

static uint64_t ask(const char *work, size_t length, int sides, uint32_t grid, double limit)
{
    const uint8_t *q = queries + 40 * SPG_POINT_SIZE;
    int32_t x = spg_coordinate_at(q, 0), y = spg_coordinate_at(q, 1), z = spg_coordinate_at(q, 2);
    size_t vertices_len = SPG_POINT_SIZE * (size_t)sides;
    const uint8_t *name = (const uint8_t *)"A";
    if (strcmp(work, "feed") == 0)
        return spg_feed_number(sheet, length, queries, sizeof queries, results, sizeof results);
    if (strcmp(work, "judge") == 0)
        return spg_judge_number(sheet, length, x, y, z);
    if (strcmp(work, "sheet") == 0)
        return spg_sheet_zone(sheet, length);
    if (strcmp(work, "choose") == 0)
        return spg_choose_number(sheet, length, queries, 20 * SPG_POINT_SIZE);
    if (strcmp(work, "compare") == 0)
        return spg_compare_number(sheet, length, redrawn, write_sheet(redrawn, 3, sides, grid, limit));
    if (strcmp(work, "basin") == 0)
        return spg_basin_number(vertices, vertices_len, grid);
    if (strcmp(work, "write") == 0)
        return spg_write_number(7, 1, name, 1, 3, 7, (int32_t)limit - 100, 0, 0, 0, vertices, vertices_len, grid,
                                redrawn, sizeof redrawn);
    if (strcmp(work, "import") == 0)
        return spg_import_number((const uint8_t *)text, write_text(sides), 7, 1, name, 1, 700000, 30000, 800001,
                                 redrawn, sizeof redrawn);
    if (strcmp(work, "point") == 0)
        return (uint64_t)spg_point_x(241234567, 597654321);
    for (int i = 0; i < 8; i++)
        memcpy(book + (size_t)i * length, sheet, length);
    return strcmp(work, "book") == 0 ? spg_book_inside(book, 8 * length, grid, x, y, z) : 99;
}

int main(int count, char **words)
{
    int sides = count == 4 ? atoi(words[2]) : 0;
    uint32_t grid = count == 4 && strcmp(words[3], "fine") == 0;
    double limit = grid ? SPG_GRID_FINE : SPG_GRID;
    for (int i = 0; i < sides; i++)
        put_round(vertices + SPG_POINT_SIZE * i, TURN * i / sides, radius(TURN * i / sides), limit);
    for (int i = 0; i < QUERIES; i++) {
        double angle = TURN * fraction();
        put_round(queries + SPG_POINT_SIZE * i, angle, fraction(), limit);
    }
    if (count != 4)
        return 2;
    printf("%llu\n", (unsigned long long)ask(words[1], write_sheet(sheet, 0, sides, grid, limit), sides, grid, limit));
    return 0;
}
