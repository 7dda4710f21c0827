/*
 * The basin profile (document 02, P9). By rows: the normal of a row's side once, the side of it on which each vertex
 * lies once, and pairs whose ends are strictly on one side are passed over. Pair by pair: the full test of each.
 */
#include "basin.h"
#include "bytes.h"
#include "vector.h"

#define SIDES_MOST 512

/* Side i joins ring[i] to ring[i + 1]; ring[n] is vertex 0 once more. */
typedef struct {
    size_t n;
    point ring[4096 + 1];
} basin;

static uint32_t open(const uint8_t *vertices, size_t vertices_len, basin *o)
{
    size_t n = o->n = vertices_len / 12;
    if (vertices_len % 12 != 0 || n < 3 || n > 4096)
        return 10;
    for (size_t i = 0; i < n; i++) {
        const uint8_t *at = vertices + 12 * i;
        o->ring[i] = (point){(int32_t)word_at(at), (int32_t)word_at(at + 4), (int32_t)word_at(at + 8)};
    }
    o->ring[n] = o->ring[0];
    for (size_t i = 0; i < n; i++)
        if (beyond(o->ring[i]))
            return 11;
    for (size_t i = 0; i < n; i++)
        if (all_zero(o->ring[i]))
            return 12;
    for (size_t i = 0; i < n; i++)
        if (same(o->ring[i], o->ring[i + 1]))
            return 13;
    for (size_t i = 0; i < n; i++)
        if (opposite(o->ring[i], o->ring[i + 1]))
            return 14;
    return n > SIDES_MOST ? 34 : 0;
}

static inline bool beside(turn s, turn t)
{
    return (s > 0 && t > 0) || (s < 0 && t < 0);
}

/* Whether ab, whose normal is n, holds p, on this side of it. */
static inline bool holds(point a, point b, vector n, point p, turn side)
{
    return side == 0 && within(a, b, n, p);
}

static bool share(point a, point b, vector n, point c, point d, turn s1, turn s2)
{
    vector m = cross(c, d);
    turn s3 = dot(m, a), s4 = dot(m, b);
    return holds(a, b, n, c, s1) || holds(a, b, n, d, s2) || holds(c, d, m, a, s3) || holds(c, d, m, b, s4)
           || (s1 < 0 && s2 > 0 && s3 > 0 && s4 < 0) || (s1 > 0 && s2 < 0 && s3 < 0 && s4 > 0);
}

/* The neighbours um and mw. */
static bool share_beyond(point u, point m, point w, turn side)
{
    return holds(u, m, cross(u, m), w, side) || holds(m, w, cross(m, w), u, side);
}

static bool offends(const basin *o, size_t i, size_t j, vector n, turn s1, turn s2)
{
    const point *a = o->ring + i, *c = o->ring + j;
    if (j == i + 1)
        return share_beyond(a[0], a[1], c[1], s2);
    if (i == 0 && j + 1 == o->n)
        return share_beyond(c[0], a[0], a[1], s1);
    return share(a[0], a[1], n, c[0], c[1], s1, s2);
}

uint32_t ON_GRID(basin_rows)(const uint8_t *vertices, size_t vertices_len)
{
    basin o;
    uint32_t number = open(vertices, vertices_len, &o);
    if (number != 0)
        return number;
    for (size_t i = 0; i < o.n; i++) {
        vector n = cross(o.ring[i], o.ring[i + 1]);
        turn s = 0;
        for (size_t j = i + 1; j < o.n; j++) {
            turn t = dot(n, o.ring[j + 1]);
            if (!beside(s, t) && offends(&o, i, j, n, s, t))
                return 35;
            s = t;
        }
    }
    return 0;
}

/* Each pair on its own: nothing is kept from one to the next. */
static __attribute__((noinline)) bool offends_alone(const basin *o, size_t i, size_t j)
{
    vector n = cross(o->ring[i], o->ring[i + 1]);
    return offends(o, i, j, n, dot(n, o->ring[j]), dot(n, o->ring[j + 1]));
}

uint32_t ON_GRID(basin_pairs)(const uint8_t *vertices, size_t vertices_len)
{
    basin o;
    uint32_t number = open(vertices, vertices_len, &o);
    if (number != 0)
        return number;
    for (size_t i = 0; i < o.n; i++)
        for (size_t j = i + 1; j < o.n; j++)
            if (offends_alone(&o, i, j))
                return 35;
    return 0;
}
