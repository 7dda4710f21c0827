/* The hoisted reading of P2 in plain C: yardstick/src/on_grid/hoisted.rs line by line, and P1's feed. */
#include "outline.h"

/* P3: an odd number of edges joins the directions of a and b, whichever way they are walked. */
static bool border(const outline *o, point a, point b)
{
    bool odd = false;
    for (size_t i = 0; i < o->n; i++) {
        point c = o->ring[i], d = o->ring[i + 1];
        if ((same(a, c) && same(b, d)) || (same(a, d) && same(b, c)))
            odd = !odd;
    }
    return odd;
}

/* The whole box lies strictly on one side of the plane with normal n; never if n is zero. */
static inline bool one_side(const bounds *box, vector n)
{
    point low = {n.x < 0 ? box->greatest.x : box->least.x, n.y < 0 ? box->greatest.y : box->least.y,
                 n.z < 0 ? box->greatest.z : box->least.z};
    point high = {n.x < 0 ? box->least.x : box->greatest.x, n.y < 0 ? box->least.y : box->greatest.y,
                  n.z < 0 ? box->least.z : box->greatest.z};
    return dot(n, low) > 0 || dot(n, high) < 0;
}

static answer verdict(const outline *o, point query)
{
    uint32_t crossed = 0;
    vector arc = cross(o->known, query);
    for (size_t first = 0; first < o->n; first += RUN) {
        if (one_side(&o->boxes[first / RUN], arc))
            continue;
        turn s1 = dot(arc, o->ring[first]), s2;
        for (size_t i = first, end = run_end(o, first); i < end; i++, s1 = s2) {
            point a = o->ring[i], b = o->ring[i + 1];
            s2 = dot(arc, b);
            if ((s1 > 0 && s2 > 0) || (s1 < 0 && s2 < 0))
                continue;
            vector normal = cross(a, b);
            turn s4 = dot(normal, query);
            if (s4 == 0 && within(a, b, normal, query) && border(o, a, b))
                return (answer){3, i, 0};
            if ((s1 < 0) == (s2 < 0))
                continue;
            turn s3 = dot(normal, o->known);
            crossed += s1 < 0 ? s3 > 0 && s4 < 0 : s3 < 0 && s4 > 0;
        }
    }
    return (answer){crossed % 2 == 0 ? 1 : 2, 0, crossed};
}

static answer judge(const outline *o, point query)
{
    if (beyond(query) || all_zero(query))
        return refuse(17, 0);
    if (opposite(o->known, query))
        return refuse(18, 0);
    return verdict(o, query);
}

answer ON_GRID(judge)(const uint8_t *sheet, size_t sheet_len, int32_t x, int32_t y, int32_t z)
{
    outline o;
    answer refusal = ON_GRID(open)(sheet, sheet_len, &o);
    return refusal.number != 0 ? refusal : judge(&o, (point){x, y, z});
}

answer ON_GRID(feed)(const uint8_t *sheet, size_t sheet_len, const uint8_t *queries, size_t queries_len,
                     uint8_t *results, size_t results_len)
{
    outline o;
    if (queries_len % 12 != 0)
        return refuse(26, 0);
    if (results_len < queries_len)
        return refuse(27, queries_len);
    answer refusal = ON_GRID(open)(sheet, sheet_len, &o);
    if (refusal.number != 0)
        return refusal;
    for (size_t at = 0; at < queries_len; at += 12) {
        answer a = judge(&o, point_at(queries + at));
        put_word(results + at, a.number);
        put_word(results + at + 4, (uint32_t)a.place);
        put_word(results + at + 8, a.count);
    }
    return refuse(0, 0);
}
