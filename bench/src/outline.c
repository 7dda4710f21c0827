/* Reading and checking a sheet: one pass over the outline for each of lines 11 to 16, and one for the boxes. */
#include "outline.h"

typedef bool vertex_test(point v);
typedef bool edge_test(point a, point b, point known);

static inline bool same_ends(point a, point b, point known)
{
    (void)known;
    return same(a, b);
}

static inline bool opposite_ends(point a, point b, point known)
{
    (void)known;
    return opposite(a, b);
}

static inline bool on_circle(point a, point b, point known)
{
    return dot(cross(a, b), known) == 0;
}

/* The lowest vertex, or edge, that passes the test; n if none does. */
static inline size_t first_vertex(vertex_test *bad, const outline *o)
{
    size_t i = 0;
    while (i < o->n && !bad(o->ring[i]))
        i++;
    return i;
}

static inline size_t first_edge(edge_test *bad, const outline *o)
{
    size_t i = 0;
    while (i < o->n && !bad(o->ring[i], o->ring[i + 1], o->known))
        i++;
    return i;
}

answer ON_GRID(check)(const outline *o)
{
    size_t i;
    if ((i = first_vertex(beyond, o)) < o->n)
        return refuse(11, i);
    if ((i = first_vertex(all_zero, o)) < o->n)
        return refuse(12, i);
    if ((i = first_edge(same_ends, o)) < o->n)
        return refuse(13, i);
    if ((i = first_edge(opposite_ends, o)) < o->n)
        return refuse(14, i);
    if (beyond(o->known) || all_zero(o->known))
        return refuse(15, 0);
    if ((i = first_edge(on_circle, o)) < o->n)
        return refuse(16, i);
    return refuse(0, 0);
}

static inline int32_t min(int32_t a, int32_t b)
{
    return a < b ? a : b;
}

static inline int32_t max(int32_t a, int32_t b)
{
    return a < b ? b : a;
}

static bounds bounds_of(const point *first, const point *last)
{
    point least = *first, greatest = *first;
    for (const point *v = first + 1; v <= last; v++) {
        least = (point){min(least.x, v->x), min(least.y, v->y), min(least.z, v->z)};
        greatest = (point){max(greatest.x, v->x), max(greatest.y, v->y), max(greatest.z, v->z)};
    }
    return (bounds){least, greatest};
}

static bool length_allowed(uint8_t tag, size_t length)
{
    switch (tag) {
    case 1: return length == 4;
    case 2: return length == 1;
    case 3: return 1 <= length && length <= 120;
    case 4: return length == 12;
    default: return length % 12 == 0 && 36 <= length && length <= 49152;
    }
}

/* Lines 20 to 24; where the bodies of fields 1 to 5 begin, and the length of the last. */
static answer fields(const uint8_t *sheet, size_t sheet_len, size_t body[6], size_t *length)
{
    size_t at = 0;
    for (uint8_t tag = 1; tag <= 5; tag++) {
        if (sheet_len - at < 3)
            return refuse(20, at);
        if (sheet[at] != (tag == 5 ? VERTICES : tag))
            return refuse(21, at);
        *length = (size_t)sheet[at + 1] << 8 | sheet[at + 2];
        if (!length_allowed(tag, *length))
            return refuse(22, at);
        if (sheet_len - at - 3 < *length)
            return refuse(20, at);
        if (tag == 2 && (sheet[at + 3] < 1 || 3 < sheet[at + 3]))
            return refuse(23, at);
        body[tag] = at + 3;
        at += 3 + *length;
    }
    return at < sheet_len ? refuse(24, at) : refuse(0, 0);
}

answer ON_GRID(open)(const uint8_t *sheet, size_t sheet_len, outline *o)
{
    size_t body[6] = {0}, length = 0;
    answer refusal = fields(sheet, sheet_len, body, &length);
    if (refusal.number != 0)
        return refusal;
    o->n = length / 12;
    o->known = point_at(sheet + body[4]);
    for (size_t i = 0; i < o->n; i++)
        o->ring[i] = point_at(sheet + body[5] + 12 * i);
    o->ring[o->n] = o->ring[0];
    refusal = ON_GRID(check)(o);
    if (refusal.number != 0)
        return refusal;
    for (size_t first = 0; first < o->n; first += RUN)
        o->boxes[first / RUN] = bounds_of(o->ring + first, o->ring + run_end(o, first));
    return refuse(0, 0);
}
