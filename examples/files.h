/*
 * files.h: opening and closing files, and their lines, for stops.h and make_zone.c. What fails ends the program with 2.
 */
#ifndef FILES_H
#define FILES_H

#include <stdbool.h>
#include <stdio.h>
#include <stdlib.h>
#include <string.h>

#define LINE_MOST 1024 /* bytes of a line, with its end and a zero */

static FILE *open_or_exit(const char *path, const char *mode)
{
    FILE *file = fopen(path, mode);
    if (file == NULL) {
        perror(path);
        exit(2);
    }
    return file;
}

static void close_or_exit(FILE *file, const char *path)
{
    bool failed = ferror(file) != 0;
    if (fclose(file) != 0 || failed) {
        fprintf(stderr, "%s: cannot be read or written\n", path);
        exit(2);
    }
}

/* Reads a line, past what there is no room for; whether there was one. */
static inline bool read_line(FILE *file, char *line, bool *cut)
{
    *cut = false;
    if (fgets(line, LINE_MOST, file) == NULL)
        return false;
    if (strlen(line) == LINE_MOST - 1 && line[LINE_MOST - 2] != '\n') {
        int c = getc(file);
        *cut = c != EOF && c != '\n';
        while (c != EOF && c != '\n')
            c = getc(file);
    }
    return true;
}

#endif
