/*
 * Points and their products, as in yardstick/src/on_grid/vector.rs. On both grids 64 bits hold a cross product, and a
 * dot product of two points.
 */
#include "grid.h"
#include <stdbool.h>

typedef struct {
    int32_t x, y, z;
} point;

typedef struct {
    int64_t x, y, z;
} vector;

static inline vector wide(point p)
{
    return (vector){p.x, p.y, p.z};
}

static inline vector cross(point p, point q)
{
    vector a = wide(p), b = wide(q);
    return (vector){a.y * b.z - a.z * b.y, a.z * b.x - a.x * b.z, a.x * b.y - a.y * b.x};
}

/* v is a cross product. */
static inline turn dot(vector v, point p)
{
    return (turn)v.x * p.x + (turn)v.y * p.y + (turn)v.z * p.z;
}

static inline int64_t point_dot(point p, point q)
{
    vector a = wide(p);
    return a.x * q.x + a.y * q.y + a.z * q.z;
}

static inline bool far(int32_t k)
{
    return k < -LIMIT || LIMIT < k;
}

static inline bool beyond(point p)
{
    return far(p.x) || far(p.y) || far(p.z);
}

static inline bool all_zero(point p)
{
    return p.x == 0 && p.y == 0 && p.z == 0;
}

static inline bool parallel(point p, point q)
{
    vector a = wide(p), b = wide(q);
    return a.y * b.z == a.z * b.y && a.z * b.x == a.x * b.z && a.x * b.y == a.y * b.x;
}

static inline bool same(point a, point b)
{
    return parallel(a, b) && point_dot(a, b) > 0;
}

static inline bool opposite(point a, point b)
{
    return parallel(a, b) && point_dot(a, b) < 0;
}

/* Whether whole, part_a and part_b, all multiples of one vector, have no opposite signs; whole is not 0. */
static inline bool fractions(int64_t whole, int64_t part_a, int64_t part_b)
{
    return whole > 0 ? part_a >= 0 && part_b >= 0 : part_a <= 0 && part_b <= 0;
}

/* Whether p, a point of the great circle of ab, lies on ab; n is a × b. */
static inline bool within(point a, point b, vector n, point p)
{
    vector pa = cross(p, b), pb = cross(a, p);
    if (n.x != 0)
        return fractions(n.x, pa.x, pb.x);
    if (n.y != 0)
        return fractions(n.y, pa.y, pb.y);
    return fractions(n.z, pa.z, pb.z);
}
