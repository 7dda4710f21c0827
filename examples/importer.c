/*
 * importer: which stops of a list belong to a harbour?
 *
 *     importer SHEET STOPS [STORE]
 *
 * SHEET is a zone sheet, on either grid. STOPS is a text with one stop a line, its numbers on the sheet's grid and its
 * name: `x y z name`.
 *
 * A stop belongs to the harbour if it is inside or on the boundary: such stops are printed on standard output, with
 * which of the two. What was refused, and why, goes to standard error: the sheet (then no stop is judged), or a stop.
 * Ends with 0 if nothing was refused, 1 if something was, 2 if a file could not be read or written.
 *
 * The stops are judged in feeds, many in one call, so that the sheet is checked once for all of them.
 *
 * A stop opposite the known point cannot be judged from it (18). With STORE the sheet gets a second known point as soon
 * as there is such a stop: the first of the stops beside it that will do. The stop is judged again from that one, and
 * the new sheet is written to the file STORE, for later runs to take.
 *
 *     cc -o importer importer.c $(pkg-config --cflags --libs spargolutta)
 */
#include "stops.h"

/* One byte more than a sheet can have: a longer file is refused by that byte, if not before. */
static uint8_t sheet[SPG_SHEET_MOST + 1];
static size_t sheet_len;
static bool has_second; /* it has got a second known point */
static struct feed feed;

/* Writes the sheet anew, with the second known point at `second`, and stores it; whether it was accepted. */
static bool write_second(const uint8_t *second, const char *store)
{
    static uint8_t vertices[SPG_POINT_SIZE * SPG_VERTICES_MOST], written[SPG_SHEET_MOST];
    if (spg_vertices_number(sheet, sheet_len, vertices, sizeof vertices) != SPG_DONE)
        return false;
    struct spg_answer answer = spg_write(
        spg_sheet_zone(sheet, sheet_len), spg_sheet_charset(sheet, sheet_len),
        sheet + spg_sheet_name_place(sheet, sheet_len), spg_sheet_name_length(sheet, sheet_len),
        spg_sheet_known_x(sheet, sheet_len), spg_sheet_known_y(sheet, sheet_len), spg_sheet_known_z(sheet, sheet_len),
        spg_coordinate_at(second, 0), spg_coordinate_at(second, 1), spg_coordinate_at(second, 2), vertices,
        SPG_POINT_SIZE * spg_sheet_vertices(sheet, sheet_len), spg_sheet_grid(sheet, sheet_len), written,
        sizeof written);
    if (answer.number != SPG_DONE)
        return false;
    sheet_len = answer.place;
    memcpy(sheet, written, sheet_len);
    FILE *file = open_or_exit(store, "wb");
    fwrite(sheet, 1, sheet_len, file);
    close_or_exit(file, store);
    has_second = true;
    return true;
}

/* Chooses a second known point for the sheet among the stops of the feed; whether it has one now. */
static bool add_second(const char *store)
{
    size_t length = SPG_POINT_SIZE * feed.n;
    if (spg_choose_number(sheet, sheet_len, feed.queries, length) != SPG_DONE)
        return false;
    size_t chosen = spg_choose_place(sheet, sheet_len, feed.queries, length);
    return write_second(feed.queries + SPG_POINT_SIZE * chosen, store);
}

/* Prints what became of stop i; whether it was accepted. */
static bool print_stop(size_t i, const char *store)
{
    struct spg_answer answer = spg_result_at(feed.results, i);
    const uint8_t *query = feed.queries + SPG_POINT_SIZE * i;
    if (feed.names[i] == NULL) {
        print_no_stop(&feed, i);
        return false;
    }
    if (answer.number == SPG_QUERY_OPPOSITE && (has_second || (store != NULL && add_second(store))))
        answer = spg_judge(sheet, sheet_len, spg_coordinate_at(query, 0), spg_coordinate_at(query, 1),
                           spg_coordinate_at(query, 2));
    if (SPG_IS_REFUSAL(answer.number))
        print_refusal(feed.names[i], answer.number, answer.place);
    else if (answer.number == SPG_BOUNDARY)
        printf("%s: %s, side %zu\n", feed.names[i], spg_meaning(answer.number), answer.place);
    else if (answer.number == SPG_INSIDE)
        printf("%s: %s\n", feed.names[i], spg_meaning(answer.number));
    return !SPG_IS_REFUSAL(answer.number);
}

int main(int argc, char **argv)
{
    if (argc != 3 && argc != 4) {
        fprintf(stderr, "usage: importer SHEET STOPS [STORE]\n");
        return 2;
    }
    sheet_len = read_file(argv[1], sheet, sizeof sheet);
    FILE *stops = open_or_exit(argv[2], "rb");
    bool accepted = true;
    do {
        read_feed(stops, &feed);
        if (judge_feed(sheet, sheet_len, &feed) != SPG_DONE) {
            print_refusal(argv[1], spg_sheet_number(sheet, sheet_len), spg_sheet_place(sheet, sheet_len));
            return 1;
        }
        for (size_t i = 0; i < feed.n; i++)
            if (!print_stop(i, argc == 4 ? argv[3] : NULL))
                accepted = false;
    } while (feed.n == FEED_MOST);
    close_or_exit(stops, argv[2]);
    return accepted ? 0 : 1;
}
