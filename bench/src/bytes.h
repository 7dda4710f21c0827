/* Big-endian words in bytes. */
#include <stdint.h>

static inline uint32_t word_at(const uint8_t *b)
{
    return (uint32_t)b[0] << 24 | (uint32_t)b[1] << 16 | (uint32_t)b[2] << 8 | b[3];
}

static inline void put_word(uint8_t *b, uint32_t word)
{
    b[0] = (uint8_t)(word >> 24);
    b[1] = (uint8_t)(word >> 16);
    b[2] = (uint8_t)(word >> 8);
    b[3] = (uint8_t)word;
}
