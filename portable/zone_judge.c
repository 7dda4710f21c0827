/*
 * The program zone_judge for machines without the Rattle toolchain: a plain C main around the library. It is not
 * proved, and the host tests compare its output with the proved one's. `man zone_judge` says what it does.
 */
#include "spargolutta.h"
#include <errno.h>
#include <stdio.h>
#include <string.h>

#define PIECE (4096 * SPG_POINT_SIZE)

static void complain(const char *what)
{
    fprintf(stderr, "zone_judge: %s: %s\n", what, strerror(errno));
}

/* The sheet's bytes: a missing file is an empty sheet, one that cannot be read ends the program. 0 where that is so. */
static int read_sheet(uint8_t *sheet, size_t most, size_t *length)
{
    FILE *file = fopen("zone.sheet", "rb");
    int good = 1;
    *length = 0;
    if (file == NULL) {
        good = errno == ENOENT;
    } else {
        *length = fread(sheet, 1, most, file);
        good = !ferror(file);
    }
    if (!good)
        complain("zone.sheet");
    if (file != NULL)
        fclose(file);
    return good;
}

/* All of standard input, against a sheet that is good. A feed of whole queries is not refused then. */
static void judge_all(const uint8_t *sheet, size_t sheet_len)
{
    static uint8_t queries[PIECE], results[PIECE];
    unsigned long long done = 0;
    size_t got;
    do {
        got = fread(queries, 1, PIECE, stdin);
        size_t count = got / SPG_POINT_SIZE;
        if (spg_feed_number(sheet, sheet_len, queries, count * SPG_POINT_SIZE, results, PIECE) != SPG_DONE)
            return;
        for (size_t i = 0; i < count; i++) {
            struct spg_answer answer = spg_result_at(results, i);
            printf("%lu %lu %lu\n", (unsigned long)answer.number, (unsigned long)answer.place,
                   (unsigned long)answer.count);
        }
        done += count;
    } while (got == PIECE);
    if (ferror(stdin))
        complain("standard input");
    else if (got % SPG_POINT_SIZE != 0)
        printf("20 %llu 0\n", done);
}

int main(void)
{
    static uint8_t sheet[SPG_SHEET_MOST + 1];
    size_t sheet_len;
    if (!read_sheet(sheet, sizeof sheet, &sheet_len))
        return 0;
    uint32_t number = spg_sheet_number(sheet, sheet_len);
    if (number != SPG_DONE)
        printf("%lu %lu 0\n", (unsigned long)number, (unsigned long)spg_sheet_place(sheet, sheet_len));
    else
        judge_all(sheet, sheet_len);
    if (fflush(stdout) != 0)
        complain("standard output");
    return 0;
}
