/*
 * Judges feeds in each of the four rounding modes. A case is a sheet that is not refused, queries, and the results that
 * are right, as rows of cases.h. A line for each says how many results are wrong with rounding to nearest (the default
 * mode), upward, downward and toward zero.
 */
#include "cases.h"

#include <fenv.h>
#include <spargolutta.h>
#include <string.h>

#define RESULT 12 /* bytes of a result */

static const int modes[] = {FE_TONEAREST, FE_UPWARD, FE_DOWNWARD, FE_TOWARDZERO};

/* The mode is set around the call alone. */
static void feed_in(int mode, struct bytes sheet, struct bytes queries, uint8_t *results)
{
    memset(results, 0xff, queries.length);
    require(fesetround(mode) == 0, "no such mode");
    uint32_t number = spg_feed_number(sheet.at, sheet.length, queries.at, queries.length, results, queries.length);
    require(fegetround() == mode, "the call changed the mode");
    require(fesetround(FE_TONEAREST) == 0, "no default mode");
    require(number == SPG_DONE, "the feed is refused");
}

static size_t wrong_results(const uint8_t *results, struct bytes right)
{
    size_t wrong = 0;
    for (size_t k = 0; k < right.length; k += RESULT)
        wrong += memcmp(results + k, right.at + k, RESULT) != 0;
    return wrong;
}

int main(void)
{
    static uint8_t rows[3][ROOM], results[ROOM];
    struct bytes sheet = {rows[0], 0}, queries = {rows[1], 0}, right = {rows[2], 0};
    while (read_row(&sheet) && read_row(&queries) && read_row(&right)) {
        require(right.length == queries.length && right.length % RESULT == 0, "not a result for each query");
        for (int m = 0; m < 4; m++) {
            feed_in(modes[m], sheet, queries, results);
            printf("%zu%c", wrong_results(results, right), m < 3 ? ' ' : '\n');
        }
    }
    return 0;
}
