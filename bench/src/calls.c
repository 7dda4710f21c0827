/* The calls on a sheet's own grid, which the tag of the fifth field names. */
#include "judge.h"
#include <stdbool.h>

/*
 * Of what stands before that tag only the name, whose length is at 12, has no fixed length. A sheet that is bad before
 * it is refused on both grids alike.
 */
static bool is_fine(const uint8_t *sheet, size_t sheet_len)
{
    size_t tag = sheet_len < 14 ? sheet_len : 29 + ((size_t)sheet[12] << 8 | sheet[13]);
    return tag < sheet_len && sheet[tag] == 7;
}

answer c_judge(const uint8_t *sheet, size_t sheet_len, int32_t x, int32_t y, int32_t z)
{
    judge_call *judge = is_fine(sheet, sheet_len) ? fine_judge : coarse_judge;
    return judge(sheet, sheet_len, x, y, z);
}

answer c_feed(const uint8_t *sheet, size_t sheet_len, const uint8_t *queries, size_t queries_len, uint8_t *results,
              size_t results_len)
{
    feed_call *feed = is_fine(sheet, sheet_len) ? fine_feed : coarse_feed;
    return feed(sheet, sheet_len, queries, queries_len, results, results_len);
}
