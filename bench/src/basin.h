/* Document 02's P9 in C, on each grid: by rows, and pair by pair. The number alone: 0, 10 to 14, 34 or 35. */
#include <stddef.h>
#include <stdint.h>

typedef uint32_t basin_call(const uint8_t *vertices, size_t vertices_len);

basin_call coarse_basin_rows, coarse_basin_pairs, fine_basin_rows, fine_basin_pairs;
