/*
 * stops.h: the stops of a list, for importer.c and which_harbour.c.
 *
 * A list is a text with one stop a line, its numbers on the grid and its name: `x y z name`. It is read feed by feed,
 * so that a list of any length needs no more memory than one feed. A line that is too long is no stop, all of it.
 */
#ifndef STOPS_H
#define STOPS_H

#include "files.h"
#include <errno.h>
#include <spargolutta.h>
#include <string.h>

#define FEED_MOST 4096 /* stops in a feed */

struct feed {
    size_t n; /* how many stops it has */
    char lines[FEED_MOST][LINE_MOST];
    bool cut[FEED_MOST];          /* the line is longer than that */
    const char *names[FEED_MOST]; /* in the line; NULL if that is not 'x y z name', and then the query is 0, 0, 0 */
    uint8_t queries[SPG_POINT_SIZE * FEED_MOST];
    uint8_t results[SPG_POINT_SIZE * FEED_MOST];
};

/* Reads a file, or its first `most` bytes; how many there were. */
static size_t read_file(const char *path, uint8_t *bytes, size_t most)
{
    FILE *file = open_or_exit(path, "rb");
    size_t length = fread(bytes, 1, most, file);
    close_or_exit(file, path);
    return length;
}

/* Reads a stop's line, cut off at its end, into its query; its name, or NULL. */
static const char *read_stop(char *line, uint8_t *query)
{
    int32_t numbers[3];
    line[strcspn(line, "\r\n")] = '\0';
    spg_put_point(query, 0, 0, 0);
    for (int k = 0; k < 3; k++) {
        char *end;
        errno = 0;
        long long value = strtoll(line, &end, 10);
        if (end == line || errno != 0 || value < INT32_MIN || INT32_MAX < value)
            return NULL;
        numbers[k] = (int32_t)value;
        line = end;
    }
    spg_put_point(query, numbers[0], numbers[1], numbers[2]);
    return line + strspn(line, " \t");
}

/* Reads the next stops, as many as a feed takes. */
static void read_feed(FILE *file, struct feed *feed)
{
    size_t n = 0;
    for (; n < FEED_MOST && read_line(file, feed->lines[n], &feed->cut[n]); n++) {
        feed->names[n] = read_stop(feed->lines[n], feed->queries + SPG_POINT_SIZE * n);
        if (feed->cut[n]) {
            feed->names[n] = NULL;
            spg_put_point(feed->queries + SPG_POINT_SIZE * n, 0, 0, 0);
        }
    }
    feed->n = n;
}

/* Says that a line is no stop. */
static void print_no_stop(const struct feed *feed, size_t i)
{
    if (feed->cut[i])
        fprintf(stderr, "refused: a line of over %d bytes: '%.40s'\n", LINE_MOST - 1, feed->lines[i]);
    else
        fprintf(stderr, "refused: '%s' is not 'x y z name'\n", feed->lines[i]);
}

/* Judges the feed by a sheet, its results into the feed: 0, or why it was refused. */
static inline uint32_t judge_feed(const uint8_t *sheet, size_t sheet_len, struct feed *feed)
{
    return spg_feed_number(sheet, sheet_len, feed->queries, SPG_POINT_SIZE * feed->n, feed->results,
                           sizeof feed->results);
}

/* Says on standard error what was refused and why, with the place if the number has one. */
static void print_refusal(const char *what, uint32_t number, size_t place)
{
    static const char *const kinds[] = {"", "side", "vertex", "byte", "bytes needed:", "position", "place"};
    uint32_t kind = spg_place_kind(number);
    fprintf(stderr, "refused: %s: %s (%u)", what, spg_meaning(number), (unsigned)number);
    if (kind != SPG_PLACE_NONE)
        fprintf(stderr, ", %s %zu", kinds[kind], place);
    fputc('\n', stderr);
}

#endif
