/*
 * map_reading.h: the vertices of a map on the grid, and positions in degrees, for make_zone.c. What is refused is told
 * and ends the program with 1.
 */
#ifndef MAP_READING_H
#define MAP_READING_H

#include "drawing.h"
#include "files.h"
#include <spargolutta.h>
#include <string.h>

#define TRIES 64            /* points that an import is tried with */
#define TEXT_MOST (1 << 22) /* bytes of a GeoJSON text */

static uint32_t grid;
static uint8_t positions[SPG_POSITION_SIZE * DRAWN_MOST], placed[SPG_POINT_SIZE * DRAWN_MOST];
static int32_t points[DRAWN_MOST][3]; /* the outline's vertices on the grid */
static uint8_t text[TEXT_MOST + 1];
static uint8_t vertices[SPG_POINT_SIZE * SPG_VERTICES_MOST], sheet[SPG_SHEET_MOST];

static void refuse(const char *what, uint32_t number, size_t place)
{
    fprintf(stderr, "refused: %s: %s (%u)", what, spg_meaning(number), (unsigned)number);
    if (spg_place_kind(number) != SPG_PLACE_NONE)
        fprintf(stderr, ", place %zu", place);
    fputc('\n', stderr);
    exit(1);
}

/* Reads the position that the line begins with, to ten-millionths of a degree. What is none ends the program. */
static char *read_position(char *line, size_t number, bool cut, uint8_t *position)
{
    line[strcspn(line, "\r\n")] = '\0';
    char *middle, *rest;
    double longitude = strtod(line, &middle), latitude = strtod(middle, &rest);
    const char *why = NULL;
    if (cut)
        why = "the line is too long";
    else if (middle == line || rest == middle)
        why = "not 'longitude latitude'";
    else if (spg_put_position(position, longitude, latitude) != SPG_DONE)
        why = spg_meaning(SPG_POSITION_OUTSIDE); /* 565 degrees west would be a good point by sine and cosine */
    if (why != NULL) {
        fprintf(stderr, "refused: line %zu: '%s': %s\n", number, line, why);
        exit(1);
    }
    return rest;
}

/* The points of the positions read, on the grid. */
static void place_points(size_t count)
{
    uint32_t number = spg_points_number(positions, SPG_POSITION_SIZE * count, grid, placed, sizeof placed);
    if (number != SPG_DONE)
        refuse("positions", number, 0);
    for (size_t i = 0; i < count; i++)
        for (size_t k = 0; k < 3; k++)
            points[i][k] = spg_coordinate_at(placed, 3 * i + k);
}

/* Reads a ring, without its closing position. */
static void read_ring(const char *path)
{
    FILE *file = open_or_exit(path, "r");
    char line[LINE_MOST];
    bool cut;
    for (n = 0; n < DRAWN_MOST && read_line(file, line, &cut); n++)
        read_position(line, n + 1, cut, positions + SPG_POSITION_SIZE * n);
    close_or_exit(file, path);
    if (n == DRAWN_MOST) {
        fprintf(stderr, "refused: %s: %d positions or more\n", path, DRAWN_MOST);
        exit(1);
    }
    if (n < 4 || memcmp(positions, positions + SPG_POSITION_SIZE * (n - 1), SPG_POSITION_SIZE) != 0)
        refuse(path, SPG_RING_OPEN, 0);
    n--;
    place_points(n);
}

/* The library's import of the text, with any known point. */
static struct spg_answer import(size_t length, uint32_t zone, const char *name, const int32_t *known)
{
    const uint8_t *bytes = (const uint8_t *)name;
    if (grid == SPG_COARSE)
        return spg_import(text, length, zone, SPG_UTF8, bytes, strlen(name), known[0], known[1], known[2], sheet,
                          sizeof sheet);
    return spg_import_fine(text, length, zone, SPG_UTF8, bytes, strlen(name), known[0], known[1], known[2], sheet,
                           sizeof sheet);
}

/* Reads the vertices of a GeoJSON text off the sheet that the library makes of it. An import wants a known point before
 * the outline is known: any that is on the great circle of no side does here. */
static void read_geojson(const char *path, size_t length, uint32_t zone, const char *name)
{
    struct spg_answer answer = {SPG_KNOWN_ON_CIRCLE, 0, 0};
    for (int32_t k = 1; k <= TRIES && answer.number == SPG_KNOWN_ON_CIRCLE; k++) {
        int32_t known[3] = {7919 * k, 104729 - 13 * k * k, 611953 + 101 * k};
        answer = import(length, zone, name, known);
    }
    if (answer.number == SPG_DONE)
        answer.number = spg_vertices_number(sheet, answer.place, vertices, sizeof vertices);
    if (answer.number != SPG_DONE)
        refuse(path, answer.number, answer.place);
    n = spg_sheet_vertices(sheet, answer.place);
    for (size_t i = 0; i < 3 * n; i++)
        points[i / 3][i % 3] = spg_coordinate_at(vertices, i);
}

/* Reads a map: GeoJSON, which begins with a brace, or a ring. */
static void read_map(const char *path, uint32_t zone, const char *name)
{
    FILE *file = open_or_exit(path, "rb");
    size_t length = fread(text, 1, sizeof text, file);
    close_or_exit(file, path);
    size_t start = 0;
    while (start < length && strchr(" \t\r\n", text[start]) != NULL)
        start++;
    if (start == length || text[start] != '{')
        read_ring(path);
    else if (length > TEXT_MOST) {
        fprintf(stderr, "refused: %s: longer than %d bytes\n", path, TEXT_MOST);
        exit(1);
    } else
        read_geojson(path, length, zone, name);
}

#endif
