/* The grid: the limit, the vertices' tag, a type that holds every turn. What includes this is compiled for each. */
#include <stdint.h>

#ifdef FINE
#define ON_GRID(name) fine_##name
#define LIMIT 67108864
#define VERTICES 7
typedef __int128 turn;
#else
#define ON_GRID(name) coarse_##name
#define LIMIT 1048576
#define VERTICES 5
typedef int64_t turn;
#endif
