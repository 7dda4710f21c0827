/*
 * make_zone: a zone sheet from a map, with a known point that it finds itself. docs/ZONES.md says why each step is
 * there.
 *
 *     make_zone GRID MAP ZONE NAME SHEET                       writes the file SHEET
 *     make_zone GRID MAP ZONE NAME SHEET LONGITUDE LATITUDE    with this known point
 *     make_zone GRID STOPS                                     prints a line 'x y z name' for each stop, for importer.c
 *
 * GRID is 0 or coarse, 1 or fine. MAP is a GeoJSON text of one Polygon, as spargolutta.h says; or a ring, a text with
 * one 'longitude latitude' a line, in degrees, the last line equal to the first. STOPS has 'longitude latitude name'.
 * ZONE is the zone's number and NAME its name, in UTF-8. Degrees are rounded to ten-millionths (spg_put_position), and
 * the numbers on the grid are the library's (spg_import, spg_points_number), for vertices and stops alike.
 *
 * A ring may have vertices that are one point of the grid, and over 4,096 of them: it is simplified then. A GeoJSON text
 * goes to the library as it is. More of what maps have (holes, islands, long sides) takes the command spargolutta.
 *
 * Ends with 0 if all was done, 1 if something was refused (and why goes to standard error; no sheet is written), 2 if a
 * file could not be read or written or the words are not as above.
 *
 *     cc -o make_zone make_zone.c $(pkg-config --cflags --libs spargolutta) -lm
 */
#include "map_reading.h"

#define STEPS 64        /* grid steps that a known point is moved, at most */
#define EARTH 6371008.8 /* the mean radius, in metres */

static struct vector of_point(const int32_t *p)
{
    return (struct vector){p[0], p[1], p[2]};
}

static bool same_direction(const int32_t *p, const int32_t *q)
{
    int64_t px = p[0], py = p[1], pz = p[2], qx = q[0], qy = q[1], qz = q[2];
    return py * qz == pz * qy && pz * qx == px * qz && px * qy == py * qx && px * qx + py * qy + pz * qz > 0;
}

/* Drops the marked vertices, and those in the direction of the one before (13), the last against the first too. */
static void drop_vertices(void)
{
    size_t kept = 0;
    for (size_t i = 0; i < n; i++)
        if (!dropped[i] && (kept == 0 || !same_direction(points[i], points[kept - 1])))
            memmove(points[kept++], points[i], sizeof points[i]);
    while (kept > 1 && same_direction(points[kept - 1], points[0]))
        kept--;
    n = kept;
    memset(dropped, 0, sizeof dropped);
    for (size_t i = 0; i < n; i++)
        units[i] = unit(of_point(points[i]));
}

/* Simplifies an outline of too many vertices; the tolerance that it took, in metres. */
static double simplify(void)
{
    if (n <= SPG_VERTICES_MOST)
        return 0;
    double metres = 1;
    while (mark_within(metres / EARTH) > SPG_VERTICES_MOST)
        metres *= 2;
    drop_vertices();
    return metres;
}

/* Writes the sheet with this known point, if it is inside as drawn. */
static struct spg_answer write_with(uint32_t zone, const char *name, const int32_t *p)
{
    struct spg_answer answer = {SPG_KNOWN_ON_CIRCLE, 0, 0};
    if (is_inside(of_point(p)))
        answer = spg_write(zone, SPG_UTF8, (const uint8_t *)name, strlen(name), p[0], p[1], p[2], 0, 0, 0, vertices,
                           SPG_POINT_SIZE * n, grid, sheet, sizeof sheet);
    if (answer.number == SPG_DONE)
        printf("known point %d %d %d\n", (int)p[0], (int)p[1], (int)p[2]);
    return answer;
}

/* Writes the sheet with a known point well inside. Where that is on the great circle of a side (16) or, in a very small
 * outline, outside after its rounding, it is moved by a grid step or a few, this way and that. */
static struct spg_answer write_found(uint32_t zone, const char *name)
{
    struct spg_answer answer = {SPG_KNOWN_ON_CIRCLE, 0, 0};
    double limit = grid == SPG_COARSE ? SPG_GRID : SPG_GRID_FINE;
    struct vector best = well_inside();
    for (int k = -1; k < 6 * STEPS && answer.number == SPG_KNOWN_ON_CIRCLE; k++) {
        int32_t p[3] = {(int32_t)lround(limit * best.x), (int32_t)lround(limit * best.y),
                        (int32_t)lround(limit * best.z)};
        if (k >= 0)
            p[k % 3] += (k / 3 % 2 == 0 ? 1 : -1) * (1 + k / 6);
        if (abs(p[k < 0 ? 0 : k % 3]) <= limit)
            answer = write_with(zone, name, p);
    }
    return answer;
}

/* Writes the sheet with the known point in these words, which must be inside as drawn. */
static struct spg_answer write_given(uint32_t zone, const char *name, char **words)
{
    uint32_t number = spg_put_position_text(positions, words[0], strlen(words[0]), words[1], strlen(words[1]));
    if (number == SPG_NOT_A_TEXT) {
        fprintf(stderr, "refused: known point %s %s: not degrees\n", words[0], words[1]);
        exit(1);
    }
    if (number != SPG_DONE)
        refuse("known point", number, 0);
    place_points(1);
    int32_t known[3] = {points[0][0], points[0][1], points[0][2]};
    if (!is_inside(of_point(known))) {
        fprintf(stderr, "refused: known point %s %s: outside the map\n", words[0], words[1]);
        exit(1);
    }
    return write_with(zone, name, known);
}

/* The words are the map, the zone's number, its name, the file to write, and perhaps a known point. */
static void make_zone(uint32_t zone, char **words, bool given)
{
    const char *map = words[0], *name = words[2], *path = words[3];
    read_map(map, zone, name);
    size_t read = n;
    drop_vertices();
    double metres = simplify();
    if (n < 3)
        refuse(map, SPG_BAD_LIST, 0);
    if (!make_plane()) {
        fprintf(stderr, "refused: %s: reaches a quarter of the globe: find a known point by hand\n", map);
        exit(1);
    }
    for (size_t i = 0; i < n; i++)
        spg_put_point(vertices + SPG_POINT_SIZE * i, points[i][0], points[i][1], points[i][2]);
    struct spg_answer answer = given ? write_given(zone, name, words + 4) : write_found(zone, name);
    if (answer.number != SPG_DONE)
        refuse(map, answer.number, answer.place);
    if (spg_far_number(sheet, answer.place) == SPG_INSIDE) {
        fprintf(stderr, "refused: %s: the known point is on the wrong side: the zone holds the far side of the Earth\n",
                map);
        exit(1);
    }
    printf("vertices %zu of %zu, within %g m\n", n, read, metres);
    FILE *file = open_or_exit(path, "wb");
    fwrite(sheet, 1, answer.place, file);
    close_or_exit(file, path);
}

static void print_stops(const char *path)
{
    FILE *file = open_or_exit(path, "r");
    char line[LINE_MOST];
    bool cut;
    for (size_t number = 1; read_line(file, line, &cut); number++) {
        const char *name = read_position(line, number, cut, positions);
        place_points(1);
        printf("%d %d %d%s\n", (int)points[0][0], (int)points[0][1], (int)points[0][2], name);
    }
    close_or_exit(file, path);
}

static bool read_zone(const char *word, uint32_t *zone)
{
    char *end;
    unsigned long long value = strtoull(word, &end, 10);
    *zone = (uint32_t)value;
    return '0' <= *word && *word <= '9' && *end == '\0' && value <= UINT32_MAX;
}

static bool read_grid(const char *word)
{
    grid = strcmp(word, "1") == 0 || strcmp(word, "fine") == 0 ? SPG_FINE : SPG_COARSE;
    return grid == SPG_FINE || strcmp(word, "0") == 0 || strcmp(word, "coarse") == 0;
}

int main(int argc, char **argv)
{
    uint32_t zone = 0;
    if ((argc != 3 && argc != 6 && argc != 8) || !read_grid(argv[1]) || (argc > 3 && !read_zone(argv[3], &zone))) {
        fprintf(stderr, "usage: make_zone GRID MAP ZONE NAME SHEET [LONGITUDE LATITUDE]\n"
                        "       make_zone GRID STOPS\nGRID is 0 or coarse, 1 or fine\n");
        return 2;
    }
    if (argc == 3)
        print_stops(argv[2]);
    else
        make_zone(zone, argv + 2, argc == 8);
    return 0;
}
