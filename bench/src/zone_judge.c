/* The program zone_judge in plain C: queries are read in pieces and judged as feeds, with the C library's buffers. */
#include "bytes.h"
#include "judge.h"
#include <stdio.h>

#define PIECE (4096 * 12)

int main(void)
{
    static uint8_t sheet[49320], queries[PIECE], results[PIECE];
    size_t sheet_len = 0, done = 0, got;
    FILE *file = fopen("zone.sheet", "rb");
    if (file != NULL) {
        sheet_len = fread(sheet, 1, sizeof sheet, file);
        fclose(file);
    }
    answer a = c_judge(sheet, sheet_len, 0, 0, 0);
    if (a.number != 17) {
        printf("%u %zu 0\n", (unsigned)a.number, a.place);
        return 0;
    }
    while ((got = fread(queries, 1, PIECE, stdin)) != 0) {
        c_feed(sheet, sheet_len, queries, got - got % 12, results, PIECE);
        for (size_t at = 0; at + 12 <= got; at += 12, done++)
            printf("%u %u %u\n", word_at(results + at), word_at(results + at + 4), word_at(results + at + 8));
        if (got % 12 != 0)
            printf("20 %zu 0\n", done);
    }
    return 0;
}
