/*
 * Makes share/spargolutta/numbers.tsv (`make numbers`): a line for each number with its name, what its place is, and
 * its text, parted by tabs. The names come from the header, on standard input, and the rest from the library.
 */
#include <spargolutta.h>
#include <stdbool.h>
#include <stdio.h>
#include <string.h>

static const char *const kinds[] = {
    [SPG_PLACE_NONE] = "none",       [SPG_PLACE_SIDE] = "side",
    [SPG_PLACE_VERTEX] = "vertex",   [SPG_PLACE_BYTE] = "byte",
    [SPG_PLACE_NEEDED] = "needed",   [SPG_PLACE_POSITION] = "position",
    [SPG_PLACE_CALL] = "call",
};

int main(void)
{
    char line[256], name[64];
    unsigned number;
    bool listed = false; /* the line is of the numbers' own enum */
    uint8_t text[128];
    puts("number\tname\tplace\ttext");
    while (fgets(line, sizeof line, stdin) != NULL) {
        if (strchr("e}", line[0]) != NULL)
            listed = strncmp(line, "enum spg_number {", 17) == 0;
        if (listed && sscanf(line, " %63[A-Z_] = %u", name, &number) == 2) {
            int length = (int)spg_meaning_text(number, text, sizeof text);
            printf("%u\t%s\t%s\t%.*s\n", number, name, kinds[spg_place_kind(number)], length, (const char *)text);
        }
    }
    return 0;
}
