/* The C contestants' own answer, and the calls that give it: on one grid, see judge.c; on the sheet's, see calls.c; import: geojson.c. */
#include <stddef.h>
#include <stdint.h>

typedef struct {
    uint32_t number;
    size_t place;
    uint32_t count;
} answer;

typedef answer judge_call(const uint8_t *sheet, size_t sheet_len, int32_t x, int32_t y, int32_t z);
typedef answer feed_call(const uint8_t *sheet, size_t sheet_len, const uint8_t *queries, size_t queries_len,
                         uint8_t *results, size_t results_len);

judge_call coarse_judge, fine_judge, c_judge;
feed_call coarse_feed, fine_feed, c_feed;

answer c_import(const uint8_t *text, size_t text_len, uint32_t zone, uint32_t charset, const uint8_t *name,
                size_t name_len, int32_t x, int32_t y, int32_t z, uint8_t *sheet, size_t sheet_len);
