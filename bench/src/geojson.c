/*
 * Document 02's P7 in plain C: a sheet from a GeoJSON text, by recursive descent and libm. Refusals 30 to 33, then the
 * writer's own. The grid numbers are rounded from doubles, so that one may differ by a step from ours.
 */
#include "outline.h"
#include <math.h>
#include <string.h>

#define DEGREE 10000000
#define MOST 2000000000 /* what is held of a number: past the range */

typedef struct {
    const uint8_t *text;
    size_t length, at;
    size_t count; /* positions so far; the first VERTICES_MOST + 1 are in the ring */
    size_t outside, distant; /* the first such positions; SIZE_MAX if none */
    int64_t first[2], last[2];
    outline *o;
} reader;

static inline int next_byte(const reader *r)
{
    return r->at < r->length ? r->text[r->at] : -1;
}

static inline void skip_space(reader *r)
{
    int b = next_byte(r);
    while (b == ' ' || b == '\t' || b == '\n' || b == '\r') {
        r->at++;
        b = next_byte(r);
    }
}

static inline bool take(reader *r, char byte)
{
    skip_space(r);
    if (next_byte(r) != byte)
        return false;
    r->at++;
    return true;
}

/* What is within quotes. */
static bool word(reader *r, const char *letters)
{
    for (; *letters; letters++, r->at++)
        if (next_byte(r) != *letters)
            return false;
    return true;
}

static inline bool is_digit(int b)
{
    return '0' <= b && b <= '9';
}

/* In ten-millionths of a degree; at most seven decimals, no exponent. */
static inline bool number(reader *r, int64_t *value)
{
    static const int64_t units[] = {10000000, 1000000, 100000, 10000, 1000, 100, 10, 1};
    skip_space(r);
    bool negative = next_byte(r) == '-';
    if (negative)
        r->at++;
    if (!is_digit(next_byte(r)))
        return false;
    int64_t n = 0;
    int decimals = 0;
    if (next_byte(r) == '0') {
        r->at++;
    } else {
        for (int b = next_byte(r); is_digit(b); r->at++, b = next_byte(r))
            n = n < MOST ? 10 * n + (b - '0') : n;
    }
    if (next_byte(r) == '.') {
        r->at++;
        if (!is_digit(next_byte(r)))
            return false;
        for (int b = next_byte(r); is_digit(b) && decimals < 7; r->at++, b = next_byte(r), decimals++)
            n = n < MOST ? 10 * n + (b - '0') : n;
    }
    n *= units[decimals];
    if (n > MOST)
        n = MOST;
    *value = negative ? -n : n;
    return true;
}

static inline bool past(int64_t k, int64_t most)
{
    return k < -most || most < k;
}

/* Sine and cosine are exact at multiples of 90 degrees. */
static void sin_cos(int64_t t, double *s, double *c)
{
    *s = t == 90LL * DEGREE ? 1 : sin((double)t * (3.14159265358979323846 / 1800000000.0));
    *c = t == 90LL * DEGREE ? 0 : cos((double)t * (3.14159265358979323846 / 1800000000.0));
}

static point on_sphere(int64_t lon, int64_t lat)
{
    int64_t east = lon < 0 ? -lon : lon, north = lat < 0 ? -lat : lat;
    double sin_lon, cos_lon, sin_lat, cos_lat;
    sin_cos(east <= 90LL * DEGREE ? east : 180LL * DEGREE - east, &sin_lon, &cos_lon);
    sin_cos(north, &sin_lat, &cos_lat);
    int32_t x = (int32_t)(LIMIT * cos_lat * cos_lon + 0.5), y = (int32_t)(LIMIT * cos_lat * sin_lon + 0.5),
            z = (int32_t)(LIMIT * sin_lat + 0.5);
    return (point){east > 90LL * DEGREE ? -x : x, lon < 0 ? -y : y, lat < 0 ? -z : z};
}

static void add(reader *r, int64_t lon, int64_t lat)
{
    size_t i = r->count++;
    bool outside = past(lon, 180LL * DEGREE) || past(lat, 90LL * DEGREE);
    if (outside && i < r->outside)
        r->outside = i;
    if (i == 0)
        r->first[0] = lon, r->first[1] = lat;
    else if ((past(lon - r->last[0], DEGREE) || past(lat - r->last[1], DEGREE)) && i - 1 < r->distant)
        r->distant = i - 1;
    r->last[0] = lon, r->last[1] = lat;
    if (i <= VERTICES_MOST && !outside)
        r->o->ring[i] = on_sphere(lon, lat);
}

static bool position(reader *r)
{
    int64_t lon, lat;
    if (!number(r, &lon) || !take(r, ',') || !number(r, &lat) || !take(r, ']'))
        return false;
    add(r, lon, lat);
    return true;
}

static bool coordinates(reader *r)
{
    if (!take(r, ':') || !take(r, '[') || !take(r, '['))
        return false;
    if (take(r, ']'))
        return take(r, ']');
    do {
        if (!take(r, '[') || !position(r))
            return false;
    } while (take(r, ','));
    return take(r, ']') && take(r, ']');
}

static bool type(reader *r)
{
    return take(r, ':') && take(r, '"') && word(r, "Polygon\"");
}

static bool object(reader *r)
{
    if (!take(r, '{') || !take(r, '"'))
        return false;
    bool first = next_byte(r) == 't';
    if (first ? !(word(r, "type\"") && type(r)) : !(word(r, "coordinates\"") && coordinates(r)))
        return false;
    if (!take(r, ',') || !take(r, '"'))
        return false;
    if (first ? !(word(r, "coordinates\"") && coordinates(r)) : !(word(r, "type\"") && type(r)))
        return false;
    if (!take(r, '}'))
        return false;
    skip_space(r);
    return r->at == r->length;
}

static answer read(reader *r)
{
    if (!object(r))
        return refuse(30, r->at);
    if (r->outside != SIZE_MAX)
        return refuse(31, r->outside);
    if (r->count < 4 || r->first[0] != r->last[0] || r->first[1] != r->last[1])
        return refuse(32, 0);
    return r->distant != SIZE_MAX ? refuse(33, r->distant) : refuse(0, 0);
}

static inline uint8_t *put_head(uint8_t *at, uint8_t tag, size_t length)
{
    at[0] = tag;
    at[1] = (uint8_t)(length >> 8);
    at[2] = (uint8_t)length;
    return at + 3;
}

static inline uint8_t *put_point(uint8_t *at, point p)
{
    put_word(at, (uint32_t)p.x);
    put_word(at + 4, (uint32_t)p.y);
    put_word(at + 8, (uint32_t)p.z);
    return at + 12;
}

static void put_sheet(uint8_t *at, uint32_t zone, uint8_t charset, const uint8_t *name, size_t name_len,
                      const outline *o)
{
    put_word(put_head(at, 1, 4), zone);
    *put_head(at + 7, 2, 1) = charset;
    at = put_head(at + 11, 3, name_len);
    memcpy(at, name, name_len);
    at = put_point(put_head(at + name_len, 4, 12), o->known);
    at = put_head(at, VERTICES, 12 * o->n);
    for (size_t i = 0; i < o->n; i++)
        at = put_point(at, o->ring[i]);
}

answer c_import(const uint8_t *text, size_t text_len, uint32_t zone, uint32_t charset, const uint8_t *name,
                size_t name_len, int32_t x, int32_t y, int32_t z, uint8_t *sheet, size_t sheet_len)
{
    outline o;
    reader r = {.text = text, .length = text_len, .outside = SIZE_MAX, .distant = SIZE_MAX, .o = &o};
    answer refusal = read(&r);
    if (refusal.number != 0)
        return refusal;
    if (charset < 1 || 3 < charset)
        return refuse(23, 0);
    if (name_len < 1 || 120 < name_len)
        return refuse(22, 0);
    o.n = r.count - 1;
    if (o.n > VERTICES_MOST)
        return refuse(10, 0);
    o.known = (point){x, y, z};
    o.ring[o.n] = o.ring[0];
    refusal = ON_GRID(check)(&o);
    if (refusal.number != 0)
        return refusal;
    size_t needed = 32 + name_len + 12 * o.n;
    if (sheet_len < needed)
        return refuse(25, needed);
    put_sheet(sheet, zone, (uint8_t)charset, name, name_len, &o);
    return refuse(0, needed);
}
