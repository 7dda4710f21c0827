/*
 * spargolutta.c: the whole library in one C99 file, for any machine with a C compiler.
 *
 *     cc -O3 -c spargolutta.c
 *
 * It needs spargolutta.h, which says what the calls do, no C library but memcpy and memset, and no Rattle. The fine
 * grid and imports need IEEE binary64 arithmetic with neither excess precision nor fused multiply-add; on i386 that is
 * -msse2 -mfpmath=sse.
 *
 * Made by portable/mir2c from the MIR of the proved crates (`make c`): not to be edited. That MIR is what is proved.
 * The translation to C is tested and not proved, and so is the compiler that turns the same MIR into the archive: both
 * forms are compared with each other on all calls, on machines of 32 and 64 bits and both byte orders. Numbers are
 * unsigned C numbers of their width; l0 is a function's result, l1 and on its parameters and its locals; f0 and on are
 * the fields of a struct, s0 and on those of an enum behind its tag.
 */
#include "spargolutta.h"

#include <float.h>
#include <stdbool.h>

#if FLT_RADIX != 2 || DBL_MANT_DIG != 53 || DBL_MAX_EXP != 1024 || DBL_MIN_EXP != -1021
#error "spargolutta: double is not IEEE binary64"
#endif
#if FLT_EVAL_METHOD != 0 && FLT_EVAL_METHOD != 1
#error "spargolutta: floats have excess precision here (on i386 take -msse2 -mfpmath=sse)"
#endif
#if defined(__FAST_MATH__)
#error "spargolutta: -ffast-math changes answers on the fine grid"
#endif
/* Neither gcc's fusing, nor its loop vectoriser, which takes the storing of big-endian numbers apart. */
#if defined(__GNUC__) && !defined(__clang__)
#pragma GCC optimize("fp-contract=off", "no-tree-loop-vectorize")
#else
#pragma STDC FP_CONTRACT OFF
#endif

/* Big frames stay apart, and small functions become part of their callers, where size is not what counts. In a browser
 * it counts most. */
#if defined(__GNUC__)
#define APART __attribute__((noinline))
#else
#define APART
#endif
#if defined(__GNUC__) && defined(__OPTIMIZE__) && !defined(__OPTIMIZE_SIZE__) && !defined(__wasm__)
#define INLINE inline __attribute__((always_inline))
#elif !defined(__wasm__)
#define INLINE inline
#else
#define INLINE
#endif

/* unreachable */
/* What is proved not to be reached. */
#if defined(__GNUC__)
#define UNREACHABLE __builtin_unreachable()
#else
#define UNREACHABLE for (;;) {}
#endif

/* unreachable */
/* The number that bits mean in two's complement, without what C leaves to the machine; compilers make nothing of it. */
static inline int32_t signed32(uint32_t bits)
{
    return bits <= INT32_MAX ? (int32_t)bits : -(int32_t)(UINT32_MAX - bits) - 1;
}

static inline int64_t signed64(uint64_t bits)
{
    return bits <= INT64_MAX ? (int64_t)bits : -(int64_t)(UINT64_MAX - bits) - 1;
}

static inline uint32_t count_ones(uint64_t bits)
{
    bits -= bits >> 1 & UINT64_C(0x5555555555555555);
    bits = (bits & UINT64_C(0x3333333333333333)) + (bits >> 2 & UINT64_C(0x3333333333333333));
    bits = (bits + (bits >> 4)) & UINT64_C(0x0f0f0f0f0f0f0f0f);
    return (uint32_t)(bits * UINT64_C(0x0101010101010101) >> 56);
}

/* The bits of a number, by a union, which C99 lets be read by another member. */
static inline uint64_t float_bits(double number)
{
    union { double number; uint64_t bits; } both;
    both.number = number;
    return both.bits;
}

/* types */

/* What a caller lends. NULL, which is allowed with length 0, becomes a pointer that C lets 0 be added to. */
static unsigned char nothing[1];

static inline slice_uint8_t lent(const void *bytes, size_t length)
{
    return (slice_uint8_t){bytes == NULL ? nothing : (uint8_t *)(uintptr_t)bytes, length};
}
