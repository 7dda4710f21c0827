/* The octant's four queries by the C file alone: octant < zone.sheet prints their lines. */
#include "spargolutta.h"
#include <stdio.h>

int main(void)
{
    static const int32_t queries[4][3] = {{3, 2, 1}, {1, 1, 0}, {1, 1, -1}, {-1, -1, -1}};
    uint8_t sheet[SPG_SHEET_MOST];
    size_t sheet_len = fread(sheet, 1, sizeof sheet, stdin);
    for (int i = 0; i < 4; i++) {
        const int32_t *q = queries[i];
        struct spg_answer answer = spg_judge(sheet, sheet_len, q[0], q[1], q[2]);
        printf("%u %u %u\n", (unsigned)answer.number, (unsigned)answer.place, (unsigned)answer.count);
    }
    return 0;
}
