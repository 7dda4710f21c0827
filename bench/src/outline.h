/* An outline as it is read from a sheet, with P2's boxes. */
#include "bytes.h"
#include "judge.h"
#include "vector.h"

#define VERTICES_MOST 4096
#define RUN 32 /* edges in a run; the last run ends with the last edge */

/* The least and greatest coordinates over the vertices at the ends of a run's edges. */
typedef struct {
    point least, greatest;
} bounds;

/* Edge i joins ring[i] to ring[i + 1]; ring[n] is vertex 0 once more. */
typedef struct {
    size_t n;
    point known;
    point ring[VERTICES_MOST + 1];
    bounds boxes[VERTICES_MOST / RUN];
} outline;

static inline answer refuse(uint32_t number, size_t place)
{
    return (answer){number, place, 0};
}

static inline size_t run_end(const outline *o, size_t first)
{
    return first + RUN < o->n ? first + RUN : o->n;
}

static inline point point_at(const uint8_t *bytes)
{
    return (point){(int32_t)word_at(bytes), (int32_t)word_at(bytes + 4), (int32_t)word_at(bytes + 8)};
}

/* Lines 11 to 16, of an outline without its boxes; number 0 if it passes. */
answer ON_GRID(check)(const outline *o);

/* Reads and checks the sheet and builds the boxes; number 0 if it is good. */
answer ON_GRID(open)(const uint8_t *sheet, size_t sheet_len, outline *o);
