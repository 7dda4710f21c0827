/* The digest as a program: digest SEED ROUNDS. */
#include <stdint.h>
#include <stdio.h>
#include <stdlib.h>

const char *digest_text(uint32_t seed, uint32_t rounds);

int main(int count, char **words)
{
    if (count != 3) {
        fprintf(stderr, "usage: %s SEED ROUNDS\n", words[0]);
        return 2;
    }
    fputs(digest_text((uint32_t)strtoul(words[1], NULL, 10), (uint32_t)strtoul(words[2], NULL, 10)), stdout);
    return 0;
}
