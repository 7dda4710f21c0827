/* Random numbers, outlines and sheets: good, degenerate, damaged. */
#include "inputs.h"

static uint64_t state;

void start_random(uint64_t seed)
{
    state = seed * UINT64_C(0x9E3779B97F4A7C15) + 1;
}

/* xorshift64* */
uint64_t random_number(void)
{
    state ^= state >> 12;
    state ^= state << 25;
    state ^= state >> 27;
    return state * UINT64_C(2685821657736338717) >> 8;
}

uint32_t below(uint32_t n)
{
    return (uint32_t)(random_number() % n);
}

int32_t within(int64_t least, int64_t most)
{
    return (int32_t)((int64_t)(random_number() % (uint64_t)(most - least + 1)) + least);
}

int one_in(uint32_t n)
{
    return below(n) == 0;
}

static int32_t limit_of(uint32_t grid)
{
    return grid ? SPG_GRID_FINE : SPG_GRID;
}

/* Small, middling, any, and at the very limit: products are largest there, and a float of the filter is its bound. */
static int32_t coordinate(int32_t limit, uint32_t kind)
{
    switch (kind) {
    case 0: return within(-2, 2);
    case 1: return within(-100, 100);
    case 2: return within(-limit, limit);
    case 3: return one_in(2) ? limit : -limit;
    default: return within(limit - 3, limit) * (one_in(2) ? 1 : -1);
    }
}

static struct point any_point(int32_t limit, uint32_t kind)
{
    struct point p;
    p.x = coordinate(limit, one_in(8) ? below(5) : kind);
    p.y = coordinate(limit, one_in(8) ? below(5) : kind);
    p.z = coordinate(limit, one_in(8) ? below(5) : kind);
    return p;
}

struct point vertex_at(const struct zone *zone, size_t i)
{
    struct point p;
    p.x = spg_coordinate_at(zone->vertices, 3 * i);
    p.y = spg_coordinate_at(zone->vertices, 3 * i + 1);
    p.z = spg_coordinate_at(zone->vertices, 3 * i + 2);
    return p;
}

static void put_vertex(struct zone *zone, size_t i, struct point p)
{
    spg_put_point(zone->vertices + SPG_POINT_SIZE * i, p.x, p.y, p.z);
}

/* A walk round a square about the pole, with teeth or with jitter: simple mostly. */
static void ring(struct zone *zone, size_t count, int32_t limit, int jitter)
{
    for (size_t i = 0; i < count; i++) {
        int64_t side = 2 * (int64_t)limit, t = (int64_t)(4 * (uint64_t)side * i / count), x, y;
        int64_t radius = 1000 - (jitter ? (int64_t)below(400) : (int64_t)(i / 7 % 5) * 40);
        struct point p;
        x = t < side ? limit : t < 2 * side ? limit + side - t : t < 3 * side ? -limit : t - 3 * side - limit;
        y = t < side ? t - limit : t < 2 * side ? limit : t < 3 * side ? limit + 2 * side - t : -limit;
        p.x = (int32_t)(x * radius / 2000);
        p.y = (int32_t)(y * radius / 2000);
        p.z = limit;
        put_vertex(zone, i, p);
    }
    zone->count = count;
    zone->known.x = within(1, limit / 50);
    zone->known.y = within(3, limit / 50);
    zone->known.z = limit - (int32_t)below(5);
}

static void scattered(struct zone *zone, int32_t limit, uint32_t kind)
{
    zone->count = 3 + below(7);
    for (size_t i = 0; i < zone->count; i++)
        put_vertex(zone, i, any_point(limit, kind));
    zone->known = any_point(limit, kind == 0 ? 1 : kind);
}

/* The last vertices go back over the first: a corridor, walked out and back. */
static void fold(struct zone *zone)
{
    for (size_t i = 0; i < 3 && i + 2 < zone->count; i++)
        put_vertex(zone, zone->count - 1 - i, vertex_at(zone, i + 1));
}

static uint8_t *put_head(uint8_t *to, uint8_t tag, size_t length)
{
    to[0] = tag;
    to[1] = (uint8_t)(length >> 8);
    to[2] = (uint8_t)length;
    return to + 3;
}

/* The sheet's bytes, put together here and not by the library. */
static void put_sheet(struct zone *zone)
{
    uint8_t *to = put_head(zone->sheet, 1, 4);
    size_t name = one_in(20) ? below(124) : 1 + below(9), bytes = SPG_POINT_SIZE * zone->count;
    spg_put_number(to, (uint32_t)random_number());
    to = put_head(to + 4, 2, 1);
    *to = (uint8_t)(one_in(30) ? below(9) : 1 + below(3));
    to = put_head(to + 1, 3, name);
    for (size_t i = 0; i < name; i++)
        *to++ = (uint8_t)random_number();
    to = put_head(to, 4, SPG_POINT_SIZE);
    spg_put_point(to, zone->known.x, zone->known.y, zone->known.z);
    to = put_head(to + SPG_POINT_SIZE, zone->grid ? 7 : 5, bytes);
    for (size_t i = 0; i < bytes; i++)
        *to++ = zone->vertices[i];
    if (zone->second.x != 0 || zone->second.y != 0 || zone->second.z != 0) {
        to = put_head(to, 6, SPG_POINT_SIZE);
        spg_put_point(to, zone->second.x, zone->second.y, zone->second.z);
        to += SPG_POINT_SIZE;
    }
    zone->sheet_len = (size_t)(to - zone->sheet);
}

/* Cut, a field's head or any bit changed, or bytes behind the end. */
static void damage(struct zone *zone)
{
    uint32_t length = (uint32_t)zone->sheet_len, more = 1 + below(16);
    switch (below(4)) {
    case 0: zone->sheet_len = below(length + 1); break;
    case 1: zone->sheet[below(60)] = (uint8_t)below(9); break;
    case 2:
        for (uint32_t i = 0; i < more; i++)
            zone->sheet[zone->sheet_len++] = i == 0 ? 6 : i == 2 ? 12 : 0;
        break;
    default: zone->sheet[below(length)] ^= (uint8_t)(1u << below(8));
    }
}

void make_zone(struct zone *zone)
{
    static const uint16_t counts[] = {3, 4, 5, 8, 31, 32, 33, 64, 65, 100, 300};
    uint32_t kind = below(7);
    int32_t limit;
    zone->grid = below(2);
    limit = limit_of(zone->grid);
    if (kind < 4)
        scattered(zone, limit, kind);
    else
        ring(zone, counts[below(sizeof counts / sizeof *counts)], limit, kind == 5);
    if (one_in(64))
        ring(zone, one_in(4) ? SPG_VERTICES_MOST : 1000 + below(3097), limit, 0);
    if (kind == 6 && zone->count > 4)
        fold(zone);
    zone->second.x = zone->second.y = zone->second.z = 0;
    if (one_in(3)) {
        zone->second = one_in(2) ? any_point(limit, 2) : zone->known;
        zone->second.x += within(-4, 4);
        zone->second.y += within(-4, 4);
    }
    put_sheet(zone);
    if (one_in(6))
        damage(zone);
}

/* The same ring started elsewhere, run backwards, with longer vectors; then perhaps changed by a bit. */
void redraw_zone(struct zone *to, const struct zone *from)
{
    size_t start = below((uint32_t)from->count);
    int back = one_in(2);
    *to = *from;
    for (size_t i = 0; i < from->count; i++) {
        size_t j = back ? from->count + start - i : start + i;
        struct point p = vertex_at(from, j % from->count);
        int32_t times = from->count < 10 && one_in(2) ? 2 : 1;
        if (p.x > SPG_GRID_FINE || p.y > SPG_GRID_FINE || p.z > SPG_GRID_FINE)
            times = 1;
        p.x *= times;
        p.y *= times;
        p.z *= times;
        put_vertex(to, i, p);
    }
    put_sheet(to);
    if (one_in(3))
        to->sheet[below((uint32_t)to->sheet_len)] ^= 1;
}

static struct point halfway(struct point a, struct point b, int32_t by)
{
    a.x = (int32_t)(((int64_t)a.x + b.x) / by);
    a.y = (int32_t)(((int64_t)a.y + b.y) / by);
    a.z = (int32_t)(((int64_t)a.z + b.z) / by);
    return a;
}

/* A query: a vertex, a point of a side, the known point's opposite, a step beside a vertex, or anywhere. */
struct point near_zone(const struct zone *zone)
{
    int32_t limit = limit_of(zone->grid);
    size_t i = below((uint32_t)zone->count), j = below((uint32_t)zone->count);
    struct point p = vertex_at(zone, i);
    switch (below(8)) {
    case 0: return p;
    case 1: return halfway(p, vertex_at(zone, j), one_in(2) ? 2 : 1);
    case 2: return halfway(p, vertex_at(zone, (i + 1) % zone->count), 2);
    case 3: return zone->known;
    case 4: p.x = -zone->known.x, p.y = -zone->known.y, p.z = -zone->known.z; return p;
    case 5: p.x = within(-limit, limit) / 2, p.y = within(-limit, limit) / 2, p.z = limit; return p;
    case 6: return any_point(limit, below(5));
    default:
        if (one_in(9)) {
            p.x = within(INT32_MIN, INT32_MAX), p.y = within(INT32_MIN, INT32_MAX), p.z = within(INT32_MIN, INT32_MAX);
            return p;
        }
        p.x += within(-1, 1), p.y += within(-1, 1), p.z += within(-1, 1);
        return p;
    }
}
