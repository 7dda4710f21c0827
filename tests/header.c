/*
 * Every declaration of the header in use, as C99 and as C++.
 *
 *     header           prints the macros, and what each call says of document 01's octant
 *     header null      prints what each call says with NULL for a pointer and 0 for its length
 *     header degrees   prints what two words a line of the standard input make, as texts and as doubles
 *     header meanings  prints number, kind of place and text of each number up to 70,000 that has a text of its own;
 *                      spg_meaning and spg_meaning_text have to agree on all of them
 */
#include <spargolutta.h>
#include <stdio.h>
#include <stdlib.h>
#include <string.h>

static const uint8_t name[] = {'A'};
static const char text[] = "{\"type\":\"Polygon\",\"coordinates\":[[[0,0],[1,0],[1,1],[0,0]]]}";
static uint8_t vertices[3 * SPG_POINT_SIZE], sheet[SPG_SHEET_MOST];
static size_t sheet_len;

static void print(const char *what, unsigned long number, unsigned long place, unsigned long count)
{
    printf("%s %lu %lu %lu\n", what, number, place, count);
}

static void print_answer(const char *what, struct spg_answer answer)
{
    print(what, answer.number, (unsigned long)answer.place, answer.count);
}

static void print_point(const char *what, int32_t x, int32_t y, int32_t z)
{
    printf("%s %ld %ld %ld\n", what, (long)x, (long)y, (long)z);
}

static void print_bytes(const char *what, const uint8_t *bytes, size_t length)
{
    printf("%s ", what);
    for (size_t k = 0; k < length; k++)
        printf("%02x", bytes[k]);
    putchar('\n');
}

static void print_macros(void)
{
    print("version", SPG_VERSION_MAJOR, SPG_VERSION_MINOR, SPG_VERSION_PATCH);
    print("coarse", SPG_COARSE, SPG_GRID, SPG_POINT_SIZE);
    print("fine", SPG_FINE, SPG_GRID_FINE, SPG_POINT_SIZE);
    print("most", SPG_VERTICES_MOST, SPG_NAME_MOST, SPG_SHEET_MOST);
    print("charsets", SPG_UTF8, SPG_ISO_8859_7, SPG_WINDOWS_1253);
    print("sheets", SPG_SHEETS_MOST, SPG_PLACE_NONE, SPG_PLACE_CALL);
    print("result", SPG_BOOK_RESULT_SIZE, 0, 0);
    print("position", SPG_POSITION_SIZE, 0, 0);
    for (uint32_t number = 0; number < 40; number++)
        if (SPG_IS_REFUSAL(number) != (number != SPG_DONE && number != SPG_INSIDE && number != SPG_OUTSIDE
                                       && number != SPG_BOUNDARY))
            print("refusal", number, 0, 0);
}

static void print_helpers(void)
{
    static const int32_t numbers[] = {0, 1, -1, 0x01020304, INT32_MAX, INT32_MIN};
    uint8_t bytes[SPG_POINT_SIZE];
    for (int k = 0; k < 6; k++) {
        spg_put_point(bytes, numbers[k], -1, numbers[5 - k]);
        print_bytes("point", bytes, sizeof bytes);
        print_point("numbers", spg_coordinate_at(bytes, 0), spg_coordinate_at(bytes, 1), spg_coordinate_at(bytes, 2));
        spg_put_number(bytes, spg_number_at(bytes + 8));
        print("number", spg_number_at(bytes), 0, 0);
    }
}

static void put_octant(void)
{
    spg_put_point(vertices, 1, 0, 0);
    spg_put_point(vertices + SPG_POINT_SIZE, 0, 1, 0);
    spg_put_point(vertices + 2 * SPG_POINT_SIZE, 0, 0, 1);
    struct spg_answer answer = spg_write(7, SPG_UTF8, name, 1, 1, 1, 1, 0, 0, 0, vertices, sizeof vertices, SPG_COARSE,
                                         sheet, sizeof sheet);
    sheet_len = answer.place;
    print_answer("write", answer);
    print("length", (unsigned long)spg_length_to_vertices(sheet, 1), 0, 0);
    print_bytes("sheet", sheet, sheet_len);
}

static void print_parts(const uint8_t *s, size_t n)
{
    print("read", spg_sheet_number(s, n), (unsigned long)spg_sheet_place(s, n), 0);
    print("zone", spg_sheet_zone(s, n), spg_sheet_charset(s, n), spg_sheet_grid(s, n));
    print("name", (unsigned long)spg_sheet_name_place(s, n), (unsigned long)spg_sheet_name_length(s, n),
          (unsigned long)spg_sheet_vertices(s, n));
    print_point("known", spg_sheet_known_x(s, n), spg_sheet_known_y(s, n), spg_sheet_known_z(s, n));
    print_point("second", spg_sheet_second_x(s, n), spg_sheet_second_y(s, n), spg_sheet_second_z(s, n));
}

static void print_vertices(const uint8_t *s, size_t n, uint8_t *to, size_t room)
{
    print("vertices", spg_vertices_number(s, n, to, room), (unsigned long)spg_vertices_place(s, n, room), 0);
}

static void print_extent(const uint8_t *s, size_t n, uint8_t *to, size_t room)
{
    print("far", spg_far_number(s, n), 0, 0);
    print("box", spg_box_number(s, n, to, room), (unsigned long)spg_box_place(s, n, room), spg_box_count(s, n, room));
}

static void print_box(const uint8_t *from)
{
    struct spg_box box = spg_box_at(from), half = box;
    half.high[0] = 0;
    print_bytes("box", from, SPG_BOX_SIZE);
    print_point("low", box.low[0], box.low[1], box.low[2]);
    print_point("high", box.high[0], box.high[1], box.high[2]);
    print_point("held", spg_box_holds(box, 3, 2, 1), spg_box_holds(half, 3, 2, 1), spg_box_holds(half, -3, 2, 1));
}

static void print_judged(const uint8_t *s, size_t n, int32_t x, int32_t y, int32_t z)
{
    print("judge", spg_judge_number(s, n, x, y, z), (unsigned long)spg_judge_place(s, n, x, y, z),
          spg_judge_count(s, n, x, y, z));
    print_answer("whole", spg_judge(s, n, x, y, z));
    print_point("sum, looked", spg_judge_sum(s, n, x, y, z), (int32_t)spg_judge_looked(s, n, x, y, z), 0);
}

static void print_feed(const uint8_t *s, size_t n, const uint8_t *queries, size_t length, uint8_t *results, size_t room)
{
    print("feed", spg_feed_number(s, n, queries, length, results, room),
          (unsigned long)spg_feed_place(s, n, queries, length, room), spg_feed_count(s, n, queries, length, room));
    for (size_t i = 0; SPG_POINT_SIZE * i < length; i++)
        print_answer("result", spg_result_at(results, i));
}

static void print_chosen(const uint8_t *s, size_t n, const uint8_t *candidates, size_t length)
{
    print("choose", spg_choose_number(s, n, candidates, length),
          (unsigned long)spg_choose_place(s, n, candidates, length), 0);
}

static void print_basin(const uint8_t *from, size_t length, uint32_t grid)
{
    print("basin", spg_basin_number(from, length, grid), (unsigned long)spg_basin_place(from, length, grid),
          spg_basin_count(from, length, grid));
}

static void print_sets(struct spg_sets sets)
{
    print("sets", (unsigned long)sets.inside, (unsigned long)sets.boundary, (unsigned long)sets.refused);
}

static void print_book(const uint8_t *b, size_t n, int32_t x, int32_t y, int32_t z)
{
    print("book", spg_book_number(b, n, SPG_COARSE, x, y, z), (unsigned long)spg_book_place(b, n, SPG_COARSE, x, y, z),
          spg_book_count(b, n, SPG_COARSE, x, y, z));
    print("sets", (unsigned long)spg_book_inside(b, n, SPG_COARSE, x, y, z),
          (unsigned long)spg_book_boundary(b, n, SPG_COARSE, x, y, z),
          (unsigned long)spg_book_refused(b, n, SPG_COARSE, x, y, z));
    struct spg_book_answer whole = spg_book(b, n, SPG_COARSE, x, y, z);
    print("whole", whole.number, (unsigned long)whole.place, whole.sets.count);
    print_sets(whole.sets);
    print("step", spg_book_next_number(b, n, 0), (unsigned long)spg_book_next_place(b, n, 0),
          (unsigned long)spg_book_next_count(b, n, 0));
}

static void print_book_feed(const uint8_t *b, size_t n, const uint8_t *queries, size_t length, uint8_t *results,
                            size_t room)
{
    print("book feed", spg_book_feed_number(b, n, SPG_COARSE, queries, length, results, room),
          (unsigned long)spg_book_feed_place(b, n, SPG_COARSE, queries, length, room),
          spg_book_feed_count(b, n, SPG_COARSE, queries, length, room));
    for (size_t i = 0; SPG_POINT_SIZE * i < length; i++)
        print_sets(spg_book_result_at(results, i));
}

static void print_compared(const uint8_t *l, size_t l_len, const uint8_t *r, size_t r_len)
{
    print("compare", spg_compare_number(l, l_len, r, r_len), (unsigned long)spg_compare_place(l, l_len, r, r_len),
          spg_compare_count(l, l_len, r, r_len));
    print("way, fields", spg_compare_way(l, l_len, r, r_len), (unsigned long)spg_compare_fields(l, l_len, r, r_len), 0);
}

static void print_imported(const uint8_t *from, size_t length, const uint8_t *called, size_t called_len, uint8_t *to,
                           size_t room)
{
    print("import",
          spg_import_number(from, length, 7, SPG_UTF8, called, called_len, 1048576, 9000, 7000, to, room),
          (unsigned long)spg_import_place(from, length, 7, SPG_UTF8, called, called_len, 1048576, 9000, 7000, room), 0);
    print_answer("whole", spg_import(from, length, 7, SPG_UTF8, called, called_len, 1048576, 9000, 7000, to, room));
    print("fine",
          spg_import_fine_number(from, length, 7, SPG_UTF8, called, called_len, 67108864, 9000, 7000, to, room),
          (unsigned long)spg_import_fine_place(from, length, 7, SPG_UTF8, called, called_len, 67108864, 9000, 7000,
                                               room), 0);
    print_answer("whole",
                 spg_import_fine(from, length, 7, SPG_UTF8, called, called_len, 67108864, 9000, 7000, to, room));
}

static void print_points(const uint8_t *degrees, size_t length, uint32_t grid, uint8_t *points, size_t room)
{
    print("points", spg_points_number(degrees, length, grid, points, room),
          (unsigned long)spg_points_place(degrees, length, grid, room),
          (unsigned long)spg_points_count(degrees, length, grid, room));
}

/* The position 90 degrees east on the equator, on both grids. */
static void print_positions(void)
{
    uint8_t degrees[SPG_POSITION_SIZE], points[SPG_POINT_SIZE];
    print("position", spg_point_number(900000000, 0), spg_point_on_number(900000000, 0, SPG_FINE),
          spg_point_on_number(900000000, 0, 2));
    print_point("grid", spg_point_x(900000000, 0), spg_point_y(900000000, 0), spg_point_z(900000000, 0));
    print_point("grid", spg_point_on_x(900000000, 0, SPG_FINE), spg_point_on_y(900000000, 0, SPG_FINE),
                spg_point_on_z(900000000, 0, SPG_FINE));
    print("put", spg_put_angles(degrees, 900000000, 0), spg_put_angles(degrees, 900000000, 900000001), 0);
    print_bytes("degrees", degrees, sizeof degrees);
    print_points(degrees, sizeof degrees, SPG_FINE, points, sizeof points);
    print_bytes("points", points, sizeof points);
}

/* What both ways make of a line's two words; a word that is no double of C's is asked as a text alone. */
static void print_degrees(void)
{
    char longitude[500], latitude[500];
    while (scanf("%499s %499s", longitude, latitude) == 2) {
        uint8_t bytes[SPG_POSITION_SIZE];
        int32_t angle = 7;
        memset(bytes, '#', sizeof bytes);
        print("text", spg_put_position_text(bytes, longitude, strlen(longitude), latitude, strlen(latitude)), 0, 0);
        print_bytes("degrees", bytes, sizeof bytes);
        print("angle", spg_angle_from_text(&angle, longitude, strlen(longitude)), 0, 0);
        print_point("angle", angle, 0, 0);
        memset(bytes, '#', sizeof bytes);
        print("double", spg_put_position(bytes, strtod(longitude, NULL), strtod(latitude, NULL)), 0, 0);
        print_bytes("degrees", bytes, sizeof bytes);
        angle = 7;
        print("angle", spg_angle_from_double(&angle, strtod(longitude, NULL)), 0, 0);
        print_point("angle", angle, 0, 0);
    }
}

static void print_written(const uint8_t *called, size_t called_len, const uint8_t *from, size_t length, uint8_t *to,
                          size_t room)
{
    print("write",
          spg_write_number(7, SPG_UTF8, called, called_len, 1, 1, 1, 1, 1, 2, from, length, SPG_FINE, to, room),
          (unsigned long)spg_write_place(7, SPG_UTF8, called, called_len, 1, 1, 1, 1, 1, 2, from, length, SPG_FINE,
                                         room), 0);
    print_answer("whole",
                 spg_write(7, SPG_UTF8, called, called_len, 1, 1, 1, 1, 1, 2, from, length, SPG_FINE, to, room));
}

static void print_octant(void)
{
    static const int32_t queries[4][3] = {{3, 2, 1}, {1, 1, 0}, {1, 1, -1}, {-1, -1, -1}};
    static uint8_t feed[4 * SPG_POINT_SIZE], results[4 * SPG_POINT_SIZE], again[3 * SPG_POINT_SIZE], to[200];
    static uint8_t sets[4 * SPG_BOOK_RESULT_SIZE];
    print_parts(sheet, sheet_len);
    print_vertices(sheet, sheet_len, again, sizeof again);
    print_bytes("bytes", again, sizeof again);
    print_extent(sheet, sheet_len, to, SPG_BOX_SIZE);
    print_box(to);
    for (int k = 0; k < 4; k++) {
        const int32_t *q = queries[k];
        spg_put_point(feed + SPG_POINT_SIZE * k, q[0], q[1], q[2]);
        print_judged(sheet, sheet_len, q[0], q[1], q[2]);
        print_book(sheet, sheet_len, q[0], q[1], q[2]);
    }
    print_feed(sheet, sheet_len, feed, sizeof feed, results, sizeof results);
    print_book_feed(sheet, sheet_len, feed, sizeof feed, sets, sizeof sets);
    print_chosen(sheet, sheet_len, feed, sizeof feed);
    print_basin(vertices, sizeof vertices, SPG_COARSE);
    print_written(name, 1, vertices, sizeof vertices, to, sizeof to);
    print_bytes("fine", to, spg_sheet_place(to, 84));
    print_compared(sheet, sheet_len, to, 84);
    print_imported((const uint8_t *)text, sizeof text - 1, name, 1, to, sizeof to);
    print_positions();
}

static void print_null(void)
{
    const uint8_t *good = (const uint8_t *)text;
    print_judged(NULL, 0, 1, 1, 1);
    print_parts(NULL, 0);
    print_vertices(NULL, 0, NULL, 0);
    print_vertices(sheet, sheet_len, NULL, 0);
    print_extent(NULL, 0, NULL, 0);
    print_extent(sheet, sheet_len, NULL, 0);
    print_feed(NULL, 0, NULL, 0, NULL, 0);
    print_feed(sheet, sheet_len, NULL, 0, NULL, 0);
    print_chosen(NULL, 0, NULL, 0);
    print_chosen(sheet, sheet_len, NULL, 0);
    print_basin(NULL, 0, SPG_COARSE);
    print_book(NULL, 0, 1, 1, 1);
    print_book_feed(NULL, 0, NULL, 0, NULL, 0);
    print_book_feed(sheet, sheet_len, NULL, 0, NULL, 0);
    print_compared(NULL, 0, NULL, 0);
    print_compared(sheet, sheet_len, NULL, 0);
    print_imported(NULL, 0, NULL, 0, NULL, 0);
    print_imported(good, sizeof text - 1, NULL, 0, NULL, 0);
    print_imported(good, sizeof text - 1, name, 1, NULL, 0);
    print_points(NULL, 0, SPG_COARSE, NULL, 0);
    print_points(NULL, 0, 2, NULL, 0);
    print_points(good, 8, SPG_COARSE, NULL, 0);
    print_written(NULL, 0, NULL, 0, NULL, 0);
    print_written(name, 1, NULL, 0, NULL, 0);
    print_written(name, 1, vertices, sizeof vertices, NULL, 0);
    print("text", (unsigned long)spg_meaning_text(SPG_INSIDE, NULL, 0), 0, 0);
}

/* Of the text as many bytes as there is room for, and no other byte changes. */
static void require_text(uint32_t number, const char *meaning, size_t room)
{
    uint8_t bytes[100];
    size_t length = strlen(meaning), copied = room < length ? room : length;
    memset(bytes, '#', sizeof bytes);
    if (spg_meaning_text(number, bytes, room) != length || memcmp(bytes, meaning, copied) != 0)
        exit(1);
    for (; copied < sizeof bytes; copied++)
        if (bytes[copied] != '#')
            exit(1);
}

static void print_meanings(void)
{
    for (uint32_t number = 0; number <= 70000; number++) {
        const char *meaning = spg_meaning(number);
        uint32_t kind = spg_place_kind(number);
        for (size_t room = 0; room < 100; room += number < 100 ? 1 : 33)
            require_text(number, meaning, room);
        if (strcmp(meaning, "unknown number") != 0)
            printf("%lu\t%lu\t%s\n", (unsigned long)number, (unsigned long)kind, meaning);
        else if (kind != SPG_PLACE_NONE)
            exit(1);
    }
}

int main(int argc, char **argv)
{
    if (argc == 2 && strcmp(argv[1], "meanings") == 0) {
        print_meanings();
        return 0;
    }
    if (argc == 2 && strcmp(argv[1], "degrees") == 0) {
        print_degrees();
        return 0;
    }
    if (argc == 1) {
        print_macros();
        print_helpers();
    }
    put_octant();
    argc == 1 ? print_octant() : print_null();
    return 0;
}
