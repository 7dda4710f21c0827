/*
 * Calls the library on bytes that stand where a read or write too far ends the program.
 *
 *     client        reads cases (sheet, query) from standard input and prints a line for each.
 *     client choose the same for candidates. A case is the sheet and the candidates.
 *     client basin  the same for the basin profile. A case is the vertices and the grid's number, four bytes.
 *     client book   the same for books. A case is the book, and the query with its grid's number before it.
 *     client compare the same for two sheets. A case is the left one and the right one.
 *     client feed   the same for feeds, with the result buffer as the call leaves it, in hexadecimal. A case is the
 *                   sheet, the queries, and a result buffer's bytes.
 *     client long   prints the line of a feed whose queries have more than 32 bits of bytes.
 *
 * A line begins with number, place, count, sum (of two sheets: the way) and sides looked at; those that the calls do
 * not give are 0. A book's goes on with its three sets, that of two sheets with the fields.
 *
 * The parts of a case are rows of cases.h. All that is lent stands once right before a page that may not be touched and
 * once right behind one, on pages that can only be read while it is judged; but for the result buffer: see feed_placed.
 * Both places have to give the same answer.
 */
#include "judged.h"
#include "rooms.h"

#include <inttypes.h>

#define PAINT 0xa5

static void book(struct judged *j)
{
    require(j->queries.length >= 16, "no query");
    ask_book(j, spg_number_at(j->queries.at), j->queries.at + 4);
}

/* The sheet is the vertices alone, and the queries the grid's number. */
static void basin(struct judged *j)
{
    require(j->queries.length == 4, "no grid");
    basin_on(j, j->sheet, spg_number_at(j->queries.at));
}

static void print_answer(const struct judged *j, char after)
{
    printf("%u %zu %u %d %u%c", (unsigned)j->number, j->place, (unsigned)j->count, (int)j->sum, (unsigned)j->looked,
           after);
}

static bool same_answer(const struct judged *j, const struct judged *k)
{
    return j->number == k->number && j->place == k->place && j->count == k->count && j->sum == k->sum
           && j->looked == k->looked && j->inside == k->inside && j->boundary == k->boundary
           && j->refused == k->refused && j->fields == k->fields;
}

static void answer_cases(struct judged *from, void (*call)(struct judged *))
{
    uint8_t *sheets = guarded_room(), *queries = guarded_room();
    while (read_row(&from->sheet) && read_row(&from->queries)) {
        struct judged first = *from, last = *from;
        first.sheet = lend(sheets, from->sheet, false);
        first.queries = lend(queries, from->queries, false);
        call(&first);
        last.sheet = lend(sheets, from->sheet, true);
        last.queries = lend(queries, from->queries, true);
        call(&last);
        require(same_answer(&first, &last), "the answer depends on where the bytes stand");
        print_answer(&last, call == book || call == compare ? ' ' : '\n');
        if (call == book)
            printf("%" PRIu64 " %" PRIu64 " %" PRIu64 "\n", last.inside, last.boundary, last.refused);
        if (call == compare)
            printf("%" PRIu64 "\n", last.fields);
    }
}

/*
 * Judges a feed with the result buffer at `at` in its room, of which the first `open` bytes may be written; bytes of
 * the room that are not the buffer's stay as they are. A refusal is asked for again with the buffer closed for writing.
 */
static void feed_placed(uint8_t *room, size_t at, size_t open, struct bytes results, struct judged *j)
{
    protect(room, ROOM, PROT_READ | PROT_WRITE);
    memset(room, PAINT, ROOM);
    j->results = (struct bytes){room + at, results.length};
    memcpy(j->results.at, results.at, results.length);
    protect(room, ROOM, PROT_READ);
    if (open > 0)
        protect(room, open, PROT_READ | PROT_WRITE);
    feed(j);
    protect(room, ROOM, PROT_READ);
    if (j->number != SPG_DONE)
        feed(j);
    for (size_t k = 0; k < ROOM; k++)
        require((at <= k && k < at + results.length) || room[k] == PAINT, "a byte beside the result buffer changed");
}

/*
 * Once all three stand at the ends of their rooms; once sheet and queries at the starts, and the result buffer so that
 * its last result (if there is room for it) ends where pages begin that can only be read: no byte past it is written.
 */
static void feed_cases(struct judged *from)
{
    static uint8_t results_of_first[ROOM];
    uint8_t *sheets = guarded_room(), *queries = guarded_room(), *results = guarded_room();
    while (read_feed(from)) {
        struct judged first = *from, last = *from;
        size_t needed = from->queries.length <= from->results.length ? from->queries.length : from->results.length;
        first.sheet = lend(sheets, from->sheet, false);
        first.queries = lend(queries, from->queries, false);
        feed_placed(results, ROOM / 2 - needed, ROOM / 2, from->results, &first);
        memcpy(results_of_first, first.results.at, from->results.length);
        last.sheet = lend(sheets, from->sheet, true);
        last.queries = lend(queries, from->queries, true);
        feed_placed(results, ROOM - from->results.length, ROOM, from->results, &last);
        require(same_answer(&first, &last), "the answer depends on where the bytes stand");
        require(memcmp(results_of_first, last.results.at, from->results.length) == 0, "the results do");
        print_answer(&last, ' ');
        for (size_t k = 0; k < from->results.length; k++)
            printf("%02x", last.results.at[k]);
        putchar('\n');
    }
}

/* The queries' bytes may not even be read: 27 is found by their length alone. */
static void feed_long(struct judged *j)
{
    size_t length = ((size_t)1 << 32) / 12 * 12 + 24;
    void *queries = mmap(NULL, length, PROT_NONE, MAP_PRIVATE | MAP_ANONYMOUS | MAP_NORESERVE, -1, 0);
    require(queries != MAP_FAILED, "no addresses");
    j->sheet.length = 0;
    j->queries = (struct bytes){queries, length};
    j->results.length = 12;
    feed(j);
    print_answer(j, '\n');
}

int main(int argc, char **argv)
{
    static uint8_t sheet[ROOM], queries[ROOM], results[ROOM];
    const char *mode = argc == 2 ? argv[1] : "";
    struct judged from = {.sheet = {sheet, 0}, .queries = {queries, 0}, .results = {results, 0}};
    if (strcmp(mode, "feed") == 0)
        feed_cases(&from);
    else if (strcmp(mode, "long") == 0)
        feed_long(&from);
    else if (strcmp(mode, "basin") == 0)
        answer_cases(&from, basin);
    else if (strcmp(mode, "compare") == 0)
        answer_cases(&from, compare);
    else
        answer_cases(&from, strcmp(mode, "choose") == 0 ? choose : strcmp(mode, "book") == 0 ? book : judge);
    return 0;
}
