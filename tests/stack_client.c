/*
 * Reads a case of a feed (sheet, queries, result buffer; rows of cases.h) and prints for each topic how many bytes of
 * stack a thread needs for its calls. The first query is that of the single calls, all are candidates, and the sheet is
 * a book too, is compared with itself, and its vertices, all and 512 of them, are an outline of the basin profile. The
 * sheet is read into its parts and written from them.
 */
#include "judged.h"
#include "stack.h"

static uint8_t vertices[SPG_POINT_SIZE * SPG_VERTICES_MOST], written[SPG_SHEET_MOST];

static void compare_itself(struct judged *j)
{
    j->queries = j->sheet;
    compare(j);
    require(j->number == SPG_DONE && j->count == 0, "the sheet differs from itself");
}

static void coarse_book(struct judged *j)
{
    ask_book(j, SPG_COARSE, j->queries.at);
}

static void fine_book(struct judged *j)
{
    ask_book(j, SPG_FINE, j->queries.at);
}

/* The first vertices of the sheet, `most` or fewer: they are those that `fill` put there. */
static void basin_of(struct judged *j, size_t most)
{
    size_t n = spg_sheet_vertices(j->sheet.at, j->sheet.length);
    struct bytes front = {vertices, SPG_POINT_SIZE * (n < most ? n : most)};
    basin_on(j, front, spg_sheet_grid(j->sheet.at, j->sheet.length));
}

static void whole_basin(struct judged *j)
{
    basin_of(j, SPG_VERTICES_MOST);
    require(j->number == SPG_TOO_MANY_SIDES, "not over 512 vertices");
}

static void basin(struct judged *j)
{
    basin_of(j, 512);
}

static void fill(struct judged *j)
{
    struct bytes s = j->sheet;
    j->number = spg_vertices_number(s.at, s.length, vertices, sizeof vertices);
    j->place = spg_vertices_place(s.at, s.length, sizeof vertices);
    require(j->number == SPG_DONE, "no vertices");
}

/* What is written of a sheet's parts is the sheet. */
static void write_parts(struct judged *j)
{
    const uint8_t *s = j->sheet.at;
    size_t n = j->sheet.length;
    struct spg_answer answer = spg_write(
        spg_sheet_zone(s, n), spg_sheet_charset(s, n), s + spg_sheet_name_place(s, n), spg_sheet_name_length(s, n),
        spg_sheet_known_x(s, n), spg_sheet_known_y(s, n), spg_sheet_known_z(s, n), spg_sheet_second_x(s, n),
        spg_sheet_second_y(s, n), spg_sheet_second_z(s, n), vertices, SPG_POINT_SIZE * spg_sheet_vertices(s, n),
        spg_sheet_grid(s, n), written, sizeof written);
    require(spg_sheet_number(s, n) == SPG_DONE && spg_sheet_place(s, n) == n, "the sheet is refused");
    require(answer.number == SPG_DONE && answer.place == n && memcmp(written, s, n) == 0, "another sheet");
}

/* The feed of one query among them. */
static void feed_both(struct judged *j)
{
    struct spg_answer one = spg_judge(j->sheet.at, j->sheet.length, spg_coordinate_at(j->queries.at, 0),
                                      spg_coordinate_at(j->queries.at, 1), spg_coordinate_at(j->queries.at, 2));
    feed(j);
    require(j->number == SPG_DONE, "the feed is refused");
    require(one.number == spg_result_at(j->results.at, 0).number, "two answers");
}

/* The sheet is a book, on the grid that it is on. */
static void feed_book(struct judged *j)
{
    static uint8_t sets[ROOM];
    struct bytes b = j->sheet, q = j->queries;
    uint32_t grid = spg_sheet_grid(b.at, b.length);
    struct spg_book_answer one = spg_book(b.at, b.length, grid, spg_coordinate_at(q.at, 0), spg_coordinate_at(q.at, 1),
                                          spg_coordinate_at(q.at, 2));
    j->place = spg_book_feed_place(b.at, b.length, grid, q.at, q.length, sizeof sets);
    j->count = spg_book_feed_count(b.at, b.length, grid, q.at, q.length, sizeof sets);
    j->number = spg_book_feed_number(b.at, b.length, grid, q.at, q.length, sets, sizeof sets);
    require(j->number == SPG_DONE, "the feed to a book is refused");
    require(one.sets.inside == spg_book_result_at(sets, 0).inside, "two answers");
}

static void extent(struct judged *j)
{
    struct bytes s = j->sheet;
    uint8_t box[SPG_BOX_SIZE];
    j->place = spg_far_number(s.at, s.length) + spg_box_place(s.at, s.length, sizeof box);
    j->number = spg_box_number(s.at, s.length, box, sizeof box);
    j->count = spg_box_count(s.at, s.length, sizeof box);
    require(j->number == SPG_DONE, "no box");
}

static void texts(struct judged *j)
{
    uint8_t text[4];
    j->count = spg_place_kind(SPG_INSIDE);
    j->place = spg_meaning_text(SPG_INSIDE, text, sizeof text);
    require(j->place == 6 && memcmp(text, "insi", 4) == 0, "another text");
}

struct topic {
    const char *name;
    void (*call)(struct judged *);
    struct judged judged;
};

static void *call_topic(void *argument)
{
    struct topic *topic = argument;
    topic->call(&topic->judged);
    return NULL;
}

/* Each topic has a copy of the case: a result that is overwritten would let the compiler leave its call out. */
int main(void)
{
    static uint8_t sheet[ROOM], queries[ROOM], results[ROOM];
    static struct topic topics[] = {
        {.name = "judge", .call = judge},
        {.name = "feed", .call = feed_both},
        {.name = "choose", .call = choose},
        {.name = "compare", .call = compare_itself},
        {.name = "book, coarse", .call = coarse_book},
        {.name = "book, fine", .call = fine_book},
        {.name = "book feed", .call = feed_book},
        {.name = "vertices", .call = fill},
        {.name = "basin, whole", .call = whole_basin},
        {.name = "basin", .call = basin},
        {.name = "write", .call = write_parts},
        {.name = "extent", .call = extent},
        {.name = "texts", .call = texts},
    };
    struct judged from = {.sheet = {sheet, 0}, .queries = {queries, 0}, .results = {results, 0}};
    require(read_feed(&from), "no case");
    for (size_t k = 0; k < sizeof topics / sizeof topics[0]; k++) {
        topics[k].judged = from;
        printf("%zu %s\n", stack_needed(call_topic, &topics[k]), topics[k].name);
    }
    return 0;
}
