/*
 * drawing.h: an outline as a drawing, in floating point, for make_zone.c: which of its vertices a simpler one can do
 * without, and a place well inside it. Nothing here decides a verdict: what it finds is checked by the library.
 */
#ifndef DRAWING_H
#define DRAWING_H

#include <math.h>
#include <stdbool.h>
#include <stdlib.h>

#define DRAWN_MOST 1000000 /* vertices */
#define CUTS 9             /* parallel lines over the outline */

struct vector {
    double x, y, z;
};

static size_t n;                              /* how many vertices the outline has */
static struct vector units[DRAWN_MOST];       /* their directions */
static bool dropped[DRAWN_MOST];              /* those that a simpler outline is without */
static struct vector middle, east, north;     /* the plane that touches the globe at the outline's middle */
static double u[DRAWN_MOST], v[DRAWN_MOST];   /* the vertices in it, seen from the centre: sides are straight lines */
static double cuts[DRAWN_MOST];               /* where one of the parallel lines meets the sides */

static double dot(struct vector a, struct vector b)
{
    return a.x * b.x + a.y * b.y + a.z * b.z;
}

static struct vector cross(struct vector a, struct vector b)
{
    return (struct vector){a.y * b.z - a.z * b.y, a.z * b.x - a.x * b.z, a.x * b.y - a.y * b.x};
}

static struct vector unit(struct vector a)
{
    double length = sqrt(dot(a, a));
    return (struct vector){a.x / length, a.y / length, a.z / length};
}

/* How far p is from the arc from a to b, in units of the globe's radius. */
static double off_arc(struct vector p, struct vector a, struct vector b)
{
    struct vector normal = cross(a, b);
    double size = sqrt(dot(normal, normal));
    if (size > 0 && dot(cross(normal, a), p) >= 0 && dot(cross(normal, b), p) <= 0)
        return fabs(dot(normal, p)) / size;
    return sqrt(fmax(0, 2 - 2 * fmax(dot(p, a), dot(p, b))));
}

/* Marks vertices, each within the tolerance of the side that takes its place; how many are left. */
static size_t mark_within(double tolerance)
{
    size_t from = 0, kept = 1;
    for (size_t i = 1; i < n; i++) {
        bool within = true;
        for (size_t k = from + 1; k <= i && within; k++)
            within = off_arc(units[k], units[from], units[(i + 1) % n]) <= tolerance;
        dropped[i] = within;
        if (!within) {
            from = i;
            kept++;
        }
    }
    return kept;
}

static void to_plane(struct vector p, double *pu, double *pv)
{
    *pu = dot(p, east) / dot(p, middle);
    *pv = dot(p, north) / dot(p, middle);
}

/* Makes the plane; whether all of the outline is well before it, less than a quarter of the globe from its middle. */
static bool make_plane(void)
{
    struct vector sum = {0, 0, 0};
    for (size_t i = 0; i < n; i++)
        sum = (struct vector){sum.x + units[i].x, sum.y + units[i].y, sum.z + units[i].z};
    middle = unit(sum);
    east = unit(cross(fabs(middle.z) < 0.9 ? (struct vector){0, 0, 1} : (struct vector){1, 0, 0}, middle));
    north = cross(middle, east);
    bool before = true;
    for (size_t i = 0; i < n; i++) {
        before = before && dot(units[i], middle) > 0.01;
        to_plane(units[i], &u[i], &v[i]);
    }
    return before;
}

static int in_order(const void *a, const void *b)
{
    double left = *(const double *)a, right = *(const double *)b;
    return (left > right) - (left < right);
}

/* Cuts the outline with the line at height h: the middle of the widest stretch that lies inside. */
static double widest_stretch(double h)
{
    size_t m = 0;
    for (size_t i = 0, j = n - 1; i < n; j = i++)
        if ((v[i] < h) != (v[j] < h))
            cuts[m++] = u[i] + (h - v[i]) / (v[j] - v[i]) * (u[j] - u[i]);
    qsort(cuts, m, sizeof cuts[0], in_order);
    double widest = -1, at = 0;
    for (size_t k = 0; k + 1 < m; k += 2)
        if (cuts[k + 1] - cuts[k] > widest) {
            widest = cuts[k + 1] - cuts[k];
            at = (cuts[k] + cuts[k + 1]) / 2;
        }
    return at;
}

/* How far a place is from the outline, in the plane. */
static double off_outline(double pu, double pv)
{
    double least = INFINITY;
    for (size_t i = 0, j = n - 1; i < n; j = i++) {
        double du = u[j] - u[i], dv = v[j] - v[i];
        double along = ((pu - u[i]) * du + (pv - v[i]) * dv) / (du * du + dv * dv);
        along = fmax(0, fmin(1, along));
        least = fmin(least, hypot(u[i] + along * du - pu, v[i] + along * dv - pv));
    }
    return least;
}

/* Whether a direction is inside the outline as drawn. */
static bool is_inside(struct vector p)
{
    bool inside = false;
    double pu, pv;
    to_plane(p, &pu, &pv);
    for (size_t i = 0, j = n - 1; i < n; j = i++)
        if ((v[i] < pv) != (v[j] < pv) && pu < u[i] + (pv - v[i]) / (v[j] - v[i]) * (u[j] - u[i]))
            inside = !inside;
    return inside;
}

/* A direction well inside: of the middles of the widest stretches, the one that is farthest from the outline. */
static struct vector well_inside(void)
{
    double low = INFINITY, high = -INFINITY, farthest = -1, best_u = 0, best_v = 0;
    for (size_t i = 0; i < n; i++) {
        low = fmin(low, v[i]);
        high = fmax(high, v[i]);
    }
    for (int k = 0; k < CUTS; k++) {
        double h = low + (high - low) * (k + 0.5) / CUTS, at = widest_stretch(h);
        if (off_outline(at, h) > farthest) {
            farthest = off_outline(at, h);
            best_u = at;
            best_v = h;
        }
    }
    return unit((struct vector){middle.x + best_u * east.x + best_v * north.x,
                                middle.y + best_u * east.y + best_v * north.y,
                                middle.z + best_u * east.z + best_v * north.z});
}

#endif
