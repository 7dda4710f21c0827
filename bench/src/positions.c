/* Points from positions by libm's sine and cosine, without proof and not the same everywhere. */
#define _GNU_SOURCE
#include "bytes.h"
#include <math.h>
#include <stddef.h>

#define RADIAN 572957795.13082321 /* in ten-millionths of a degree */

void c_points(const uint8_t *degrees, size_t count, double limit, uint8_t *points)
{
    for (size_t i = 0; i < count; i++, degrees += 8, points += 12) {
        double sin_lon, cos_lon, sin_lat, cos_lat;
        sincos((int32_t)word_at(degrees) / RADIAN, &sin_lon, &cos_lon);
        sincos((int32_t)word_at(degrees + 4) / RADIAN, &sin_lat, &cos_lat);
        put_word(points, (uint32_t)(int32_t)nearbyint(limit * cos_lat * cos_lon));
        put_word(points + 4, (uint32_t)(int32_t)nearbyint(limit * cos_lat * sin_lon));
        put_word(points + 8, (uint32_t)(int32_t)nearbyint(limit * sin_lat));
    }
}
