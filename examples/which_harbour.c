/*
 * which_harbour: which harbours of a book does each stop of a list belong to?
 *
 *     which_harbour BOOK GRID STOPS
 *
 * BOOK is zone sheets joined end to end, up to 1,024 of them. GRID is the grid of the stops, 0 or coarse, 1 or fine:
 * harbours on the other are left out, and a book that has none on it is refused. STOPS is a text with one stop a line:
 * `x y z name`. (A harbour that is refused is told whatever its grid.)
 *
 * Prints for each stop the zone numbers of the harbours that it is inside of, and of those on whose boundary it is; a
 * stop that is in none has an empty list. What was refused, and why, goes to standard error: the book (then no stop is
 * judged), a harbour, or a stop. Ends with 0 if nothing was refused, 1 if something was, 2 if a file could not be read.
 *
 * The stops are judged in feeds to a book, many in one call: so every sheet is checked once for many stops, and a stop
 * far from a harbour costs next to nothing there. A book for the library has up to 64 sheets; a longer one is cut into
 * several here.
 *
 *     cc -o which_harbour which_harbour.c $(pkg-config --cflags --libs spargolutta)
 */
#include "stops.h"

#define BOOKS_MOST 16
#define HARBOURS_MOST (BOOKS_MOST * SPG_SHEETS_MOST)

struct harbour {
    const uint8_t *sheet;
    size_t size;
    uint32_t zone;
    bool used; /* it is on the stops' grid and not refused */
};

/* Up to 64 sheets, and what they say of the stops of a feed. */
struct book {
    const uint8_t *sheets;
    size_t length;
    uint8_t results[SPG_BOOK_RESULT_SIZE * FEED_MOST];
};

/* Harbour i is zone i % 64 of book i / 64. */
static uint8_t bytes[(size_t)HARBOURS_MOST * SPG_SHEET_MOST + 1];
static struct harbour harbours[HARBOURS_MOST];
static size_t harbours_len;
static struct book books[BOOKS_MOST];
static struct feed feed;
static bool accepted = true;

/* Says what refused a stop, or that a harbour is refused itself. */
static void refuse(const char *what, uint32_t zone, uint32_t number)
{
    fprintf(stderr, "refused: %s, zone %u: %s (%u)\n", what, (unsigned)zone, spg_meaning(number), (unsigned)number);
    accepted = false;
}

/* Notes a harbour, whose fields are sound; the first of them has the zone number behind its three head bytes. */
static void add_harbour(const uint8_t *sheet, size_t size, uint32_t grid)
{
    struct harbour *h = &harbours[harbours_len];
    struct book *book = &books[harbours_len++ / SPG_SHEETS_MOST];
    uint32_t number = spg_sheet_number(sheet, size);
    h->sheet = sheet;
    h->size = size;
    h->zone = spg_number_at(sheet + 3);
    h->used = number == SPG_DONE && spg_sheet_grid(sheet, size) == grid;
    if (number != SPG_DONE)
        refuse("harbour", h->zone, number);
    if (book->length == 0)
        book->sheets = sheet;
    book->length += size;
}

/* How many harbours there are. Bytes that are refused, or more harbours than there is room for, end the program. */
static size_t count_harbours(const char *path, size_t length)
{
    size_t n = 0, at = 0, size;
    for (; (size = spg_book_next_count(bytes, length, at)) > 0; at += size)
        n++;
    if (at < length && n <= HARBOURS_MOST)
        print_refusal(path, spg_book_next_number(bytes, length, at), spg_book_next_place(bytes, length, at));
    else if (n > HARBOURS_MOST)
        fprintf(stderr, "refused: %s: over %d harbours\n", path, HARBOURS_MOST);
    else
        return n;
    exit(1);
}

static void find_harbours(const char *path, size_t length, uint32_t grid)
{
    size_t n = count_harbours(path, length), at = 0;
    while (harbours_len < n) {
        size_t size = spg_book_next_count(bytes, length, at);
        add_harbour(bytes + at, size, grid);
        at += size;
    }
}

/* Judges the feed by all books. They were checked, and there is room: no feed to them is refused. */
static void judge_stops(uint32_t grid)
{
    for (struct book *b = books; b < books + BOOKS_MOST && b->length > 0; b++)
        if (spg_book_feed_number(b->sheets, b->length, grid, feed.queries, SPG_POINT_SIZE * feed.n, b->results,
                                 sizeof b->results) != SPG_DONE)
            abort();
}

static bool is_in(const uint64_t *set, size_t i)
{
    return set[i / SPG_SHEETS_MOST] >> i % SPG_SHEETS_MOST & 1;
}

static void print_set(const char *what, const uint64_t *set)
{
    for (size_t i = 0; i < harbours_len; i++)
        if (is_in(set, i)) {
            printf("%s %u", what, (unsigned)harbours[i].zone);
            what = "";
        }
}

/* The sets say who refuses a stop, and the sheet by itself says why. */
static void print_refused(size_t k, const uint64_t *set)
{
    const uint8_t *q = feed.queries + SPG_POINT_SIZE * k;
    int32_t x = spg_coordinate_at(q, 0), y = spg_coordinate_at(q, 1), z = spg_coordinate_at(q, 2);
    for (size_t i = 0; i < harbours_len; i++) {
        const struct harbour *h = &harbours[i];
        if (h->used && is_in(set, i))
            refuse(feed.names[k], h->zone, spg_judge_number(h->sheet, h->size, x, y, z));
    }
}

static void print_stop(size_t k)
{
    uint64_t inside[BOOKS_MOST] = {0}, boundary[BOOKS_MOST] = {0}, refused[BOOKS_MOST] = {0};
    if (feed.names[k] == NULL) {
        print_no_stop(&feed, k);
        accepted = false;
        return;
    }
    for (size_t b = 0; b < BOOKS_MOST && books[b].length > 0; b++) {
        struct spg_sets sets = spg_book_result_at(books[b].results, k);
        inside[b] = sets.inside;
        boundary[b] = sets.boundary;
        refused[b] = sets.refused;
    }
    print_refused(k, refused);
    printf("%s:", feed.names[k]);
    print_set(" inside", inside);
    print_set(" boundary", boundary);
    putchar('\n');
}

static bool read_grid(const char *word, uint32_t *grid)
{
    *grid = strcmp(word, "1") == 0 || strcmp(word, "fine") == 0 ? SPG_FINE : SPG_COARSE;
    return *grid == SPG_FINE || strcmp(word, "0") == 0 || strcmp(word, "coarse") == 0;
}

/* Harbours that no stop can be in, as they are on the other grid, are told: else every list would be empty. */
static void check_grid(const char *path, const char *grid)
{
    size_t used = 0;
    for (size_t i = 0; i < harbours_len; i++)
        used += harbours[i].used;
    if (harbours_len > 0 && used == 0) {
        fprintf(stderr, "refused: %s: no harbour on grid %s\n", path, grid);
        exit(1);
    }
}

int main(int argc, char **argv)
{
    uint32_t grid;
    if (argc != 4 || !read_grid(argv[2], &grid)) {
        fprintf(stderr, "usage: which_harbour BOOK GRID STOPS\nGRID is 0 or coarse, 1 or fine\n");
        return 2;
    }
    find_harbours(argv[1], read_file(argv[1], bytes, sizeof bytes), grid);
    check_grid(argv[1], argv[2]);

    FILE *stops = open_or_exit(argv[3], "rb");
    do {
        read_feed(stops, &feed);
        judge_stops(grid);
        for (size_t k = 0; k < feed.n; k++)
            print_stop(k);
    } while (feed.n == FEED_MOST);
    close_or_exit(stops, argv[3]);
    return accepted ? 0 : 1;
}
