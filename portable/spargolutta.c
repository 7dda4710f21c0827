/*
 * spargolutta.c: the whole library in one C99 file, for any machine with a C compiler.
 *
 *     cc -O3 -c spargolutta.c
 *
 * It needs spargolutta.h, which says what the calls do, no C library but memcpy and memset, and no Rattle. The fine
 * grid and imports need IEEE binary64 arithmetic with neither excess precision nor fused multiply-add; on i386 that is
 * -msse2 -mfpmath=sse.
 *
 * Made by portable/mir2c from the MIR of the proved crates (`make c`): not to be edited. That MIR is what is proved.
 * The translation to C is tested and not proved, and so is the compiler that turns the same MIR into the archive: both
 * forms are compared with each other on all calls, on machines of 32 and 64 bits and both byte orders. Numbers are
 * unsigned C numbers of their width; l0 is a function's result, l1 and on its parameters and its locals; f0 and on are
 * the fields of a struct, s0 and on those of an enum behind its tag.
 */
#include "spargolutta.h"

#include <float.h>
#include <stdbool.h>

#if FLT_RADIX != 2 || DBL_MANT_DIG != 53 || DBL_MAX_EXP != 1024 || DBL_MIN_EXP != -1021
#error "spargolutta: double is not IEEE binary64"
#endif
#if FLT_EVAL_METHOD != 0 && FLT_EVAL_METHOD != 1
#error "spargolutta: floats have excess precision here (on i386 take -msse2 -mfpmath=sse)"
#endif
#if defined(__FAST_MATH__)
#error "spargolutta: -ffast-math changes answers on the fine grid"
#endif
/* Neither gcc's fusing, nor its loop vectoriser, which takes the storing of big-endian numbers apart. */
#if defined(__GNUC__) && !defined(__clang__)
#pragma GCC optimize("fp-contract=off", "no-tree-loop-vectorize")
#else
#pragma STDC FP_CONTRACT OFF
#endif

/* Big frames stay apart, and small functions become part of their callers, where size is not what counts. In a browser
 * it counts most. */
#if defined(__GNUC__)
#define APART __attribute__((noinline))
#else
#define APART
#endif
#if defined(__GNUC__) && defined(__OPTIMIZE__) && !defined(__OPTIMIZE_SIZE__) && !defined(__wasm__)
#define INLINE inline __attribute__((always_inline))
#elif !defined(__wasm__)
#define INLINE inline
#else
#define INLINE
#endif

/* The number that bits mean in two's complement, without what C leaves to the machine; compilers make nothing of it. */
static inline int32_t signed32(uint32_t bits)
{
    return bits <= INT32_MAX ? (int32_t)bits : -(int32_t)(UINT32_MAX - bits) - 1;
}

static inline int64_t signed64(uint64_t bits)
{
    return bits <= INT64_MAX ? (int64_t)bits : -(int64_t)(UINT64_MAX - bits) - 1;
}

static inline uint32_t count_ones(uint64_t bits)
{
    bits -= bits >> 1 & UINT64_C(0x5555555555555555);
    bits = (bits & UINT64_C(0x3333333333333333)) + (bits >> 2 & UINT64_C(0x3333333333333333));
    bits = (bits + (bits >> 4)) & UINT64_C(0x0f0f0f0f0f0f0f0f);
    return (uint32_t)(bits * UINT64_C(0x0101010101010101) >> 56);
}

/* The bits of a number, by a union, which C99 lets be read by another member. */
static inline uint64_t float_bits(double number)
{
    union { double number; uint64_t bits; } both;
    both.number = number;
    return both.bits;
}

typedef struct { uint16_t *f0; uint64_t f1; } slice_uint16_t;
typedef struct { uint64_t f0; uint64_t f1; uint16_t f2; uint16_t f3; uint64_t f4; uint64_t f5; } type_cones__table__Cone;
typedef struct { uint64_t f0; uint64_t f1; } type_cones__table__Size;
typedef struct { uint32_t e[38]; } array_uint32_t_38;
typedef struct { uint64_t f0; uint64_t f1; uint64_t f2; } type_sphere__point__Point;
typedef struct { uint8_t tag; } type_answer__Reason;
typedef struct { type_answer__Reason f0; uint64_t f1; } type_answer__Refusal;
typedef struct { uint8_t *f0; uint64_t f1; } slice_uint8_t;
typedef struct { uint8_t tag; uint64_t s0; type_answer__Refusal s1; } type_core__result__Result_of_u64_Refusal;
typedef struct { type_answer__Refusal f0; } type_core__result__ErrResidual_of_Refusal;
typedef struct { uint8_t tag; uint64_t s0; type_core__result__ErrResidual_of_Refusal s1; } type_core__ops__ControlFlow_of_ErrResidual_Refusal_u64;
typedef struct { uint8_t tag; type_answer__Refusal s0; } type_core__result__Result_of_unit_Refusal;
typedef struct { uint8_t tag; type_core__result__ErrResidual_of_Refusal s0; } type_core__ops__ControlFlow_of_ErrResidual_Refusal_unit;
typedef struct { uint8_t tag; } type_sphere__point__Grid;
typedef struct { uint64_t f0; uint64_t f1; type_sphere__point__Grid f2; bool f3; } type_fields__Parts;
typedef struct { uint8_t tag; type_fields__Parts s0; type_answer__Refusal s1; } type_core__result__Result_of_Parts_Refusal;
typedef struct { uint8_t tag; uint8_t *s0; } type_core__option__Option_of_ref_u8;
typedef struct { uint8_t tag; type_fields__Parts s0; type_core__result__ErrResidual_of_Refusal s1; } type_core__ops__ControlFlow_of_ErrResidual_Refusal_Parts;
typedef struct { type_sphere__point__Grid f0; type_sphere__point__Point f1; type_sphere__point__Point f2; bool f3; uint64_t f4; uint64_t f5; } type_sheet__open__Opened;
typedef struct { uint8_t tag; type_sheet__open__Opened s0; type_answer__Refusal s1; } type_core__result__Result_of_Opened_Refusal;
typedef struct { uint8_t e[4]; } array_uint8_t_4;
typedef struct { uint32_t *f0; uint64_t f1; } slice_uint32_t;
typedef struct { double f0; double f1; double f2; } type_sphere__approximate__Vector;
typedef struct { type_sphere__point__Point f0; type_sphere__approximate__Vector f1; type_sphere__point__Grid f2; } type_sphere__plane__Plane;
typedef struct { uint8_t tag; double s0; } type_sphere__approximate__Filtered;
typedef struct { uint64_t f0; uint64_t f1; } type_sphere__words__Words;
typedef struct { type_sphere__point__Grid *f0; slice_uint32_t f1; } type_polygon__checks__fn__beyond_check__first_below_Self_of_ref_Grid_slice_u32;
typedef struct { uint8_t tag; uint64_t s0; } type_core__option__Option_of_u64;
typedef struct { slice_uint32_t f0; } type_polygon__checks__fn__null_check__first_below_Self_of_slice_u32;
typedef struct { slice_uint32_t f0; } type_polygon__checks__fn__same_check__first_below_Self_of_slice_u32;
typedef struct { slice_uint32_t f0; } type_polygon__checks__fn__antipodal_check__first_below_Self_of_slice_u32;
typedef struct { type_sphere__point__Grid *f0; slice_uint32_t f1; type_sphere__point__Point *f2; } type_polygon__checks__fn__first_circle__first_below_Self_of_ref_Grid_slice_u32_ref_Point;
typedef struct { type_sphere__point__Point f0; type_sphere__point__Point f1; } type_search__boxes__Bounds;
typedef struct { uint8_t tag; type_sheet__open__Opened s0; type_core__result__ErrResidual_of_Refusal s1; } type_core__ops__ControlFlow_of_ErrResidual_Refusal_Opened;
typedef struct { uint8_t tag; uint64_t s0; uint32_t s1; uint32_t s2; } type_answer__Verdict;
typedef struct { uint8_t tag; type_answer__Verdict s0; type_answer__Refusal s1; } type_core__result__Result_of_Verdict_Refusal;
typedef struct { type_core__result__Result_of_Verdict_Refusal f0; uint32_t f1; } type_judging__judge__Judgement;
typedef struct { uint8_t tag; } type_search__walk__Mode;
typedef struct { type_sphere__point__Point f0; type_sphere__point__Point f1; type_sphere__plane__Plane f2; bool f3; } type_search__arc__Arc;
typedef struct { uint64_t f0; uint64_t f1; uint64_t f2; } type_search__spans__Span;
typedef struct { uint64_t f0; uint64_t f1; uint64_t f2; } type_search__scan__Near;
typedef struct { uint8_t tag; uint32_t s0; } type_search__walk__EdgeTest;
typedef struct { uint8_t tag; uint64_t s0; uint32_t s1; uint32_t s2; } type_search__walk__Tally;
typedef struct { uint8_t tag; } type_corridors__border__Axis;
typedef struct { uint8_t empty; } type_core__option__NoValue;
typedef struct { uint8_t tag; uint64_t s0; type_core__option__NoValue s1; } type_core__ops__ControlFlow_of_NoValue_u64;
typedef struct { uint8_t e[4096]; } array_uint8_t_4096;
typedef struct { uint8_t e[1]; } array_uint8_t_1;
typedef struct { type_search__walk__Tally f0; uint32_t f1; } type_search__walk__Searched;
typedef struct { uint32_t e[768]; } array_uint32_t_768;
typedef struct { uint32_t e[48]; } array_uint32_t_48;
typedef struct { uint32_t e[4096]; } array_uint32_t_4096;
typedef struct { uint32_t e[258]; } array_uint32_t_258;
typedef struct { uint32_t e[12288]; } array_uint32_t_12288;
typedef struct { type_sphere__point__Point f0; type_sphere__point__Point f1; } type_azimuths__azimuth__Frame;
typedef struct { uint16_t f0; uint16_t f1; } type_tuple_of_u16_u16;
typedef struct { uint16_t f0; uint16_t f1; } type_azimuths__sectors__Sector;
typedef struct { uint64_t f0; uint64_t f1; } type_cones__lists__Tail;
typedef struct { uint64_t f0; uint64_t f1; uint64_t f2; } type_cones__lists__Part;
typedef struct { uint8_t tag; type_cones__table__Cone s0; } type_core__option__Option_of_Cone;
typedef struct { uint8_t tag; } type_core__cmp__Ordering;
typedef struct { uint8_t tag; type_core__cmp__Ordering s0; } type_core__option__Option_of_Ordering;
typedef struct { uint64_t f0; uint64_t f1; type_azimuths__azimuth__Frame f2; } type_cones__build__Index;
typedef struct { uint16_t f0; uint16_t f1; uint64_t f2; uint64_t f3; } type_cones__table__Row;
typedef struct { bool f0; bool f1; } type_cones__sure__SureSide;
typedef struct { bool f0; bool f1; } type_azimuths__sectors__Passage;
typedef struct { uint64_t f0; uint32_t f1; uint32_t f2; } type_cones__told__Told;
typedef struct { uint16_t e[8192]; } array_uint16_t_8192;
typedef struct { uint16_t e[2048]; } array_uint16_t_2048;
typedef struct { uint16_t e[1025]; } array_uint16_t_1025;
typedef struct { uint16_t e[9984]; } array_uint16_t_9984;
typedef struct { uint16_t e[1]; } array_uint16_t_1;
typedef struct { slice_uint8_t f0; } type_zone__choose__fn__earliest_of__earliest_Self_of_slice_u8;
typedef struct { uint64_t f0; uint32_t f1; } type_tuple_of_u64_u32;
typedef struct { uint8_t tag; type_tuple_of_u64_u32 s0; } type_core__option__Option_of_tuple_u64_u32;
typedef struct { uint8_t tag; type_core__option__Option_of_tuple_u64_u32 s0; type_answer__Refusal s1; } type_core__result__Result_of_Option_tuple_u64_u32_Refusal;
typedef struct { uint64_t f0; uint64_t f1; uint64_t f2; } type_basin__pairs__Near;
typedef struct { type_sphere__point__Point f0; type_sphere__point__Point f1; } type_basin__shared__Edge;
typedef struct { uint64_t f0; uint64_t f1; } type_tuple_of_u64_u64;
typedef struct { uint8_t tag; type_tuple_of_u64_u64 s0; } type_core__option__Option_of_tuple_u64_u64;
typedef struct { uint8_t tag; type_core__option__Option_of_tuple_u64_u64 s0; type_answer__Refusal s1; } type_core__result__Result_of_Option_tuple_u64_u64_Refusal;
typedef struct { uint64_t f0; uint64_t f1; uint64_t f2; } type_book__sets__Sets;
typedef struct { uint32_t f0; uint64_t f1; uint32_t f2; type_book__sets__Sets f3; } type_book__sets__Which;
typedef struct { uint8_t tag; type_core__option__Option_of_tuple_u64_u64 s0; type_core__result__ErrResidual_of_Refusal s1; } type_core__ops__ControlFlow_of_ErrResidual_Refusal_Option_tuple_u64_u64;
typedef struct { double f0; double f1; double f2; } type_separation__find__Vector;
typedef struct { double f0; double f1; } type_separation__find__Slopes;
typedef struct { type_sphere__point__Point f0; type_sphere__point__Point f1; type_sphere__point__Point f2; type_sphere__point__Point f3; } type_separation__planes__Planes;
typedef struct { slice_uint8_t f0; uint64_t f1; } type_book__reader__Reader;
typedef struct { type_core__result__Result_of_Verdict_Refusal f0; uint32_t f1; uint32_t f2; uint64_t f3; uint64_t f4; type_sphere__point__Point f5; uint64_t f6; type_sphere__point__Point f7; type_sphere__point__Grid f8; } type_sheet__read__Sheet;
typedef struct { uint8_t e[7]; } array_uint8_t_7;
typedef struct { uint32_t f0; uint64_t f1; uint32_t f2; uint32_t f3; array_uint8_t_7 f4; } type_compare__Comparison;
typedef struct { uint64_t f0; uint64_t f1; } type_core__iter__ranges__Range_of_u64;
typedef struct { slice_uint8_t f0; slice_uint8_t f1; } type_compare__ring__fn__first_difference__find_Self_of_slice_u8_slice_u8;
typedef struct { slice_uint8_t f0; slice_uint8_t f1; bool *f2; uint64_t *f3; } type_compare__ring__fn__meets__all_Self_of_slice_u8_slice_u8_ref_bool_ref_u64;
typedef struct { slice_uint8_t f0; slice_uint8_t f1; bool *f2; } type_compare__ring__fn__first_meeting__find_Self_of_slice_u8_slice_u8_ref_bool;
typedef struct { uint8_t tag; uint64_t s0; } type_compare__ring__Placed;
typedef struct { array_uint8_t_7 f0; uint64_t f1; } type_compare__differences__Differences;
typedef struct { uint8_t tag; } type_compare__differences__Field;
typedef struct { slice_uint8_t f0; slice_uint8_t f1; } type_core__cmp__slices__ElementMismatch_of_u8;
typedef struct { uint64_t e[256]; } array_uint64_t_256;
typedef struct { uint64_t e[261]; } array_uint64_t_261;
typedef struct { uint64_t f0; uint64_t f1; uint32_t f2; bool f3; bool f4; } type_positions__number__Pending;
typedef struct { uint32_t f0; uint32_t f1; } type_angles__point__Position;
typedef struct { uint64_t f0; type_angles__point__Position f1; type_angles__point__Position f2; type_core__option__Option_of_u64 f3; type_core__option__Option_of_u64 f4; } type_positions__ring__Ring;
typedef struct { uint64_t f0; uint64_t f1; } type_positions__grammar__State;
typedef struct { uint64_t e[76]; } array_uint64_t_76;
typedef struct { uint64_t f0; uint64_t f1; } type_angles__series__Terms;
typedef struct { double f0; double f1; } type_angles__pair__SinCos;
typedef struct { uint32_t f0; uint32_t f1; uint32_t f2; } type_angles__point__GridNumbers;
typedef struct { uint32_t e[12291]; } array_uint32_t_12291;
typedef struct { type_positions__number__Pending f0; type_positions__ring__Ring f1; } type_geojson__scan__Reader;
typedef struct { type_positions__number__Pending f0; uint64_t f1; } type_positions__decimals__Run;
typedef struct { uint64_t f0; type_positions__grammar__State f1; type_positions__number__Pending f2; } type_geojson__ahead__Reached;
typedef struct { type_sphere__point__Grid f0; type_sphere__point__Point f1; } type_sphere__point__GridPoint;
typedef struct { uint8_t tag; type_answer__Verdict s0; type_core__result__ErrResidual_of_Refusal s1; } type_core__ops__ControlFlow_of_ErrResidual_Refusal_Verdict;
typedef struct { type_sphere__point__Point f0; type_sphere__point__Point f1; } type_extent__sides__Sides;
typedef struct { uint8_t tag; type_extent__sides__Sides s0; } type_core__option__Option_of_Sides;
typedef struct { bool f0; type_core__result__Result_of_Verdict_Refusal f1; type_core__option__Option_of_Sides f2; } type_extent__measure__Extent;
typedef struct { uint8_t tag; type_extent__measure__Extent s0; type_answer__Refusal s1; } type_core__result__Result_of_Extent_Refusal;
typedef struct { uint64_t e[38]; } array_uint64_t_38;
typedef struct { uint8_t e[783]; } array_uint8_t_783;

/* What a caller lends. NULL, which is allowed with length 0, becomes a pointer that C lets 0 be added to. */
static unsigned char nothing[1];

static inline slice_uint8_t lent(const void *bytes, size_t length)
{
    return (slice_uint8_t){bytes == NULL ? nothing : (uint8_t *)(uintptr_t)bytes, length};
}

static type_cones__table__Size cones__grow__grow(uint64_t l1, slice_uint16_t l2, slice_uint16_t l3, slice_uint16_t l4, slice_uint16_t l5, type_cones__table__Cone l6, type_cones__table__Size l7);

static INLINE uint64_t spargolutta__meanings__index(uint32_t l1)
{
    uint64_t l0;
    bool l2;
    l2 = (l1 < UINT32_C(37));
    if (l2) {
        l0 = (uint64_t)l1;
        return l0;
    }
    l0 = UINT64_C(37);
    return l0;
}

static INLINE uint32_t spargolutta__meanings__spg_place_kind(uint32_t l1)
{
    uint32_t l0;
    array_uint32_t_38 *l2;
    uint64_t l3;
    uint64_t l4;
    unsigned char *l5;
    unsigned char *l6;
    static const array_uint32_t_38 l2_1 = {{6, 0, 0, 1, 0, 0, 0, 0, 0, 0, 0, 2, 2, 1, 1, 0, 1, 0, 0, 0, 3, 3, 3, 3, 3, 4, 0, 4, 0, 0, 3, 5, 0, 5, 0, 1, 3, 0}};
    l2 = (array_uint32_t_38 *)(void *)&l2_1;
    l3 = spargolutta__meanings__index(l1);
    l4 = (l3 << 2);
    l5 = (unsigned char *)(void *)&(*l2);
    l6 = ((unsigned char *)(void *)l5 + (size_t)l4);
    l0 = (*(uint32_t *)(void *)l6);
    return l0;
}

static INLINE uint64_t core__convert__I64FromI32__from(uint32_t l1)
{
    uint64_t l0;
    l0 = (uint64_t)signed32(l1);
    return l0;
}

static INLINE type_sphere__point__Point spargolutta__query(uint32_t l1, uint32_t l2, uint32_t l3)
{
    type_sphere__point__Point l0;
    uint64_t l4;
    uint64_t l5;
    uint64_t l6;
    l4 = core__convert__I64FromI32__from(l1);
    l5 = core__convert__I64FromI32__from(l2);
    l6 = core__convert__I64FromI32__from(l3);
    l0 = (type_sphere__point__Point){.f0 = l4, .f1 = l5, .f2 = l6};
    return l0;
}

static INLINE type_answer__Refusal answer__Reason__at(type_answer__Reason l1, uint64_t l2)
{
    type_answer__Refusal l0;
    l0 = (type_answer__Refusal){.f0 = l1, .f1 = l2};
    return l0;
}

static INLINE uint32_t core__convert__U32FromU8__from(uint8_t l1)
{
    uint32_t l0;
    l0 = (uint32_t)l1;
    return l0;
}

static INLINE uint32_t big_endian__read__short_at(slice_uint8_t l1, uint64_t l2)
{
    uint32_t l0;
    uint32_t l3;
    unsigned char *l4;
    uint8_t l5;
    uint32_t l6;
    uint32_t l7;
    unsigned char *l9;
    uint8_t l10;
    l4 = ((unsigned char *)(void *)l1.f0 + (size_t)l2);
    l5 = (*(uint8_t *)(void *)l4);
    l3 = core__convert__U32FromU8__from(l5);
    l6 = (l3 << 8);
    l9 = (l4 + UINT64_C(1));
    l10 = (*(uint8_t *)(void *)l9);
    l7 = core__convert__U32FromU8__from(l10);
    l0 = (l6 + l7);
    return l0;
}

static INLINE bool fields__is_allowed(uint64_t l1, uint64_t l2, uint64_t l3, uint64_t l4)
{
    bool l0;
    bool l5;
    bool l6;
    uint64_t l7;
    l6 = (l2 <= l1);
    l6 = (l6 && (l1 <= l3));
    l5 = l6;
    if (l5) {
        l7 = (l1 % l4);
        l5 = (l7 == UINT64_C(0));
    }
    l0 = l5;
    return l0;
}

static INLINE type_core__result__Result_of_u64_Refusal fields__field__field_body(slice_uint8_t l1, uint64_t l2, uint8_t l3, uint64_t l4, uint64_t l5, uint64_t l6)
{
    type_core__result__Result_of_u64_Refusal l0;
    uint64_t l7;
    uint64_t l8;
    uint64_t l9;
    bool l10;
    type_answer__Refusal l11;
    type_answer__Reason l12;
    unsigned char *l13;
    uint8_t l14;
    type_answer__Refusal l15;
    type_answer__Reason l16;
    uint32_t l17;
    bool l18;
    type_answer__Refusal l19;
    type_answer__Reason l20;
    uint64_t l21;
    type_answer__Refusal l22;
    type_answer__Reason l23;
    l8 = l1.f1;
    l9 = (l8 - l2);
    l10 = (l9 < UINT64_C(3));
    if (l10) {
        l12 = (type_answer__Reason){.tag = 10};
        l11 = answer__Reason__at(l12, l2);
        l0 = (type_core__result__Result_of_u64_Refusal){.tag = 1, .s1 = l11};
        return l0;
    }
    l13 = ((unsigned char *)(void *)l1.f0 + (size_t)l2);
    l14 = (*(uint8_t *)(void *)l13);
    l10 = (l14 != l3);
    if (l10) {
        l16 = (type_answer__Reason){.tag = 11};
        l15 = answer__Reason__at(l16, l2);
        l0 = (type_core__result__Result_of_u64_Refusal){.tag = 1, .s1 = l15};
        return l0;
    }
    l8 = (l2 + UINT64_C(1));
    l17 = big_endian__read__short_at(l1, l8);
    l7 = (uint64_t)l17;
    l10 = fields__is_allowed(l7, l4, l5, l6);
    l18 = !l10;
    if (l18) {
        l20 = (type_answer__Reason){.tag = 12};
        l19 = answer__Reason__at(l20, l2);
        l0 = (type_core__result__Result_of_u64_Refusal){.tag = 1, .s1 = l19};
        return l0;
    }
    l9 = l1.f1;
    l8 = (l9 - l2);
    l21 = (l8 - UINT64_C(3));
    l10 = (l21 < l7);
    if (l10) {
        l23 = (type_answer__Reason){.tag = 10};
        l22 = answer__Reason__at(l23, l2);
        l0 = (type_core__result__Result_of_u64_Refusal){.tag = 1, .s1 = l22};
        return l0;
    }
    l0 = (type_core__result__Result_of_u64_Refusal){.tag = 0, .s0 = l7};
    return l0;
}

static INLINE type_core__ops__ControlFlow_of_ErrResidual_Refusal_u64 core__result__ResultTry__branch_of_u64_Refusal(type_core__result__Result_of_u64_Refusal l1)
{
    type_core__ops__ControlFlow_of_ErrResidual_Refusal_u64 l0;
    uint64_t l2;
    type_answer__Refusal l3;
    uint64_t l5;
    type_answer__Refusal l6;
    type_core__result__ErrResidual_of_Refusal l7;
    switch (l1.tag) {
    case 0: {
        l2 = l1.s0;
        l5 = l2;
        l0 = (type_core__ops__ControlFlow_of_ErrResidual_Refusal_u64){.tag = 0, .s0 = l5};
        break;
    }
    case 1: default: {
        l3 = l1.s1;
        l6 = l3;
        l7 = (type_core__result__ErrResidual_of_Refusal){.f0 = l6};
        l0 = (type_core__ops__ControlFlow_of_ErrResidual_Refusal_u64){.tag = 1, .s1 = l7};
        break;
    }
    }
    return l0;
}

static INLINE type_answer__Refusal core__convert__AnyFrom__from_of_Refusal(type_answer__Refusal l1)
{
    type_answer__Refusal l0;
    l0 = l1;
    return l0;
}

static INLINE type_core__result__Result_of_unit_Refusal core__result__ResultFromResidualErrResidual__from_residual_of_unit_Refusal_Refusal(type_core__result__ErrResidual_of_Refusal l1)
{
    type_core__result__Result_of_unit_Refusal l0;
    type_answer__Refusal l2;
    type_answer__Refusal l3;
    l3 = l1.f0;
    l2 = core__convert__AnyFrom__from_of_Refusal(l3);
    l0 = (type_core__result__Result_of_unit_Refusal){.tag = 1, .s0 = l2};
    return l0;
}

static INLINE type_core__result__Result_of_unit_Refusal fields__field__field_check(slice_uint8_t l1, uint64_t l2, uint8_t l3, uint64_t l4)
{
    type_core__result__Result_of_unit_Refusal l0;
    type_core__result__ErrResidual_of_Refusal l6;
    type_core__ops__ControlFlow_of_ErrResidual_Refusal_u64 l7;
    type_core__result__Result_of_u64_Refusal l8;
    l8 = fields__field__field_body(l1, l2, l3, l4, l4, UINT64_C(1));
    l7 = core__result__ResultTry__branch_of_u64_Refusal(l8);
    switch (l7.tag) {
    case 0: {
        break;
    }
    case 1: default: {
        l6 = l7.s1;
        l0 = core__result__ResultFromResidualErrResidual__from_residual_of_unit_Refusal_Refusal(l6);
        return l0;
        break;
    }
    }
    l0 = (type_core__result__Result_of_unit_Refusal){.tag = 0};
    return l0;
}

static INLINE type_core__ops__ControlFlow_of_ErrResidual_Refusal_unit core__result__ResultTry__branch_of_unit_Refusal(type_core__result__Result_of_unit_Refusal l1)
{
    type_core__ops__ControlFlow_of_ErrResidual_Refusal_unit l0;
    type_answer__Refusal l3;
    type_answer__Refusal l6;
    type_core__result__ErrResidual_of_Refusal l7;
    switch (l1.tag) {
    case 0: {
        l0 = (type_core__ops__ControlFlow_of_ErrResidual_Refusal_unit){.tag = 0};
        break;
    }
    case 1: default: {
        l3 = l1.s0;
        l6 = l3;
        l7 = (type_core__result__ErrResidual_of_Refusal){.f0 = l6};
        l0 = (type_core__ops__ControlFlow_of_ErrResidual_Refusal_unit){.tag = 1, .s0 = l7};
        break;
    }
    }
    return l0;
}

static INLINE type_core__result__Result_of_Parts_Refusal core__result__ResultFromResidualErrResidual__from_residual_of_Parts_Refusal_Refusal(type_core__result__ErrResidual_of_Refusal l1)
{
    type_core__result__Result_of_Parts_Refusal l0;
    type_answer__Refusal l2;
    type_answer__Refusal l3;
    l3 = l1.f0;
    l2 = core__convert__AnyFrom__from_of_Refusal(l3);
    l0 = (type_core__result__Result_of_Parts_Refusal){.tag = 1, .s1 = l2};
    return l0;
}

static INLINE uint32_t big_endian__read__byte_at(slice_uint8_t l1, uint64_t l2)
{
    uint32_t l0;
    unsigned char *l3;
    uint8_t l4;
    l3 = ((unsigned char *)(void *)l1.f0 + (size_t)l2);
    l4 = (*(uint8_t *)(void *)l3);
    l0 = core__convert__U32FromU8__from(l4);
    return l0;
}

static INLINE bool fields__is_charset(uint32_t l1)
{
    bool l0;
    bool l2;
    l2 = (UINT32_C(1) <= l1);
    l2 = (l2 && (l1 <= UINT32_C(3)));
    l0 = l2;
    return l0;
}

static INLINE type_core__result__Result_of_unit_Refusal fields__charset_check(slice_uint8_t l1)
{
    type_core__result__Result_of_unit_Refusal l0;
    type_core__result__ErrResidual_of_Refusal l3;
    type_core__ops__ControlFlow_of_ErrResidual_Refusal_unit l4;
    type_core__result__Result_of_unit_Refusal l5;
    bool l6;
    uint32_t l7;
    uint64_t l8;
    bool l9;
    type_answer__Refusal l10;
    type_answer__Reason l11;
    l5 = fields__field__field_check(l1, UINT64_C(7), 2, UINT64_C(1));
    l4 = core__result__ResultTry__branch_of_unit_Refusal(l5);
    switch (l4.tag) {
    case 0: {
        break;
    }
    case 1: default: {
        l3 = l4.s0;
        l0 = core__result__ResultFromResidualErrResidual__from_residual_of_unit_Refusal_Refusal(l3);
        return l0;
        break;
    }
    }
    l8 = (UINT64_C(7) + UINT64_C(3));
    l7 = big_endian__read__byte_at(l1, l8);
    l6 = fields__is_charset(l7);
    l9 = !l6;
    if (l9) {
        l11 = (type_answer__Reason){.tag = 13};
        l10 = answer__Reason__at(l11, UINT64_C(7));
        l0 = (type_core__result__Result_of_unit_Refusal){.tag = 1, .s0 = l10};
        return l0;
    }
    l0 = (type_core__result__Result_of_unit_Refusal){.tag = 0};
    return l0;
}

static INLINE type_core__option__Option_of_ref_u8 core__slice__index__UsizeSliceIndexRefSlice__pick_of_u8(uint64_t l1, slice_uint8_t l2)
{
    type_core__option__Option_of_ref_u8 l0;
    uint64_t l3;
    bool l4;
    uint64_t l6;
    unsigned char *l7;
    uint8_t *l8;
    l3 = l2.f1;
    l4 = (l1 < l3);
    if (l4) {
        l6 = (l1 << 0);
        l7 = ((unsigned char *)(void *)l2.f0 + (size_t)l6);
        l8 = (uint8_t *)(void *)&(*(uint8_t *)(void *)l7);
        l0 = (type_core__option__Option_of_ref_u8){.tag = 1, .s0 = l8};
    } else {
        l0 = (type_core__option__Option_of_ref_u8){.tag = 0};
    }
    return l0;
}

static INLINE type_core__option__Option_of_ref_u8 core__slice__slice_T__get_of_u8_u64_ref_u8(slice_uint8_t l1, uint64_t l2)
{
    type_core__option__Option_of_ref_u8 l0;
    uint64_t l3;
    l3 = l2;
    l0 = core__slice__index__UsizeSliceIndexRefSlice__pick_of_u8(l3, l1);
    return l0;
}

static INLINE type_sphere__point__Grid fields__grid_at(slice_uint8_t l1, uint64_t l2)
{
    type_sphere__point__Grid l0;
    type_core__option__Option_of_ref_u8 l3;
    l3 = core__slice__slice_T__get_of_u8_u64_ref_u8(l1, l2);
    switch (l3.tag) {
    case 1: {
        switch ((*l3.s0)) {
        case 7: {
            l0 = (type_sphere__point__Grid){.tag = 1};
            goto exit0;
            break;
        }
        default: {
            goto exit1;
            break;
        }
        }
        break;
    }
    case 0: default: {
        goto exit1;
        break;
    }
    }
exit1:;
    l0 = (type_sphere__point__Grid){.tag = 0};
exit0:;
    return l0;
}

static INLINE uint8_t fields__tag(type_sphere__point__Grid l1)
{
    uint8_t l0;
    switch (l1.tag) {
    case 0: {
        l0 = 5;
        break;
    }
    case 1: default: {
        l0 = 7;
        break;
    }
    }
    return l0;
}

static INLINE bool fields__starts_second(slice_uint8_t l1, uint64_t l2)
{
    bool l0;
    type_core__option__Option_of_ref_u8 l3;
    l3 = core__slice__slice_T__get_of_u8_u64_ref_u8(l1, l2);
    switch (l3.tag) {
    case 1: {
        switch ((*l3.s0)) {
        case 6: {
            l0 = true;
            goto exit0;
            break;
        }
        default: {
            goto exit1;
            break;
        }
        }
        break;
    }
    case 0: default: {
        goto exit1;
        break;
    }
    }
exit1:;
    l0 = false;
exit0:;
    return l0;
}

static INLINE type_core__result__Result_of_Parts_Refusal fields__from_known(slice_uint8_t l1, uint64_t l2)
{
    type_core__result__Result_of_Parts_Refusal l0;
    uint64_t l3;
    type_core__result__ErrResidual_of_Refusal l5;
    uint64_t l6;
    type_sphere__point__Grid l7;
    uint64_t l8;
    uint64_t l9;
    type_core__result__ErrResidual_of_Refusal l10;
    uint64_t l11;
    type_core__ops__ControlFlow_of_ErrResidual_Refusal_unit l12;
    type_core__result__Result_of_unit_Refusal l13;
    type_core__ops__ControlFlow_of_ErrResidual_Refusal_u64 l14;
    type_core__result__Result_of_u64_Refusal l15;
    uint8_t l16;
    uint64_t l17;
    bool l18;
    uint64_t l19;
    type_fields__Parts l20;
    l11 = (UINT64_C(11) + UINT64_C(3));
    l3 = (l11 + l2);
    l13 = fields__field__field_check(l1, l3, 4, UINT64_C(12));
    l12 = core__result__ResultTry__branch_of_unit_Refusal(l13);
    switch (l12.tag) {
    case 0: {
        break;
    }
    case 1: default: {
        l5 = l12.s0;
        l0 = core__result__ResultFromResidualErrResidual__from_residual_of_Parts_Refusal_Refusal(l5);
        return l0;
        break;
    }
    }
    l6 = (l3 + UINT64_C(15));
    l7 = fields__grid_at(l1, l6);
    l16 = fields__tag(l7);
    l15 = fields__field__field_body(l1, l6, l16, UINT64_C(36), UINT64_C(49152), UINT64_C(12));
    l14 = core__result__ResultTry__branch_of_u64_Refusal(l15);
    switch (l14.tag) {
    case 0: {
        l9 = l14.s0;
        l17 = l9;
        break;
    }
    case 1: default: {
        l10 = l14.s1;
        l0 = core__result__ResultFromResidualErrResidual__from_residual_of_Parts_Refusal_Refusal(l10);
        return l0;
        break;
    }
    }
    l8 = l17;
    l11 = (l6 + UINT64_C(3));
    l19 = (l11 + l8);
    l18 = fields__starts_second(l1, l19);
    l20 = (type_fields__Parts){.f0 = l2, .f1 = l8, .f2 = l7, .f3 = l18};
    l0 = (type_core__result__Result_of_Parts_Refusal){.tag = 0, .s0 = l20};
    return l0;
}

static INLINE type_core__result__Result_of_Parts_Refusal fields__five_fields(slice_uint8_t l1)
{
    type_core__result__Result_of_Parts_Refusal l0;
    type_core__result__ErrResidual_of_Refusal l3;
    type_core__result__ErrResidual_of_Refusal l5;
    uint64_t l6;
    uint64_t l7;
    type_core__result__ErrResidual_of_Refusal l8;
    type_core__ops__ControlFlow_of_ErrResidual_Refusal_unit l9;
    type_core__result__Result_of_unit_Refusal l10;
    type_core__ops__ControlFlow_of_ErrResidual_Refusal_unit l11;
    type_core__ops__ControlFlow_of_ErrResidual_Refusal_u64 l12;
    type_core__result__Result_of_u64_Refusal l13;
    uint64_t l14;
    l10 = fields__field__field_check(l1, UINT64_C(0), 1, UINT64_C(4));
    l9 = core__result__ResultTry__branch_of_unit_Refusal(l10);
    switch (l9.tag) {
    case 0: {
        break;
    }
    case 1: default: {
        l3 = l9.s0;
        l0 = core__result__ResultFromResidualErrResidual__from_residual_of_Parts_Refusal_Refusal(l3);
        return l0;
        break;
    }
    }
    l10 = fields__charset_check(l1);
    l11 = core__result__ResultTry__branch_of_unit_Refusal(l10);
    switch (l11.tag) {
    case 0: {
        break;
    }
    case 1: default: {
        l5 = l11.s0;
        l0 = core__result__ResultFromResidualErrResidual__from_residual_of_Parts_Refusal_Refusal(l5);
        return l0;
        break;
    }
    }
    l13 = fields__field__field_body(l1, UINT64_C(11), 3, UINT64_C(1), UINT64_C(120), UINT64_C(1));
    l12 = core__result__ResultTry__branch_of_u64_Refusal(l13);
    switch (l12.tag) {
    case 0: {
        l7 = l12.s0;
        l14 = l7;
        break;
    }
    case 1: default: {
        l8 = l12.s1;
        l0 = core__result__ResultFromResidualErrResidual__from_residual_of_Parts_Refusal_Refusal(l8);
        return l0;
        break;
    }
    }
    l6 = l14;
    l0 = fields__from_known(l1, l6);
    return l0;
}

static INLINE type_core__ops__ControlFlow_of_ErrResidual_Refusal_Parts core__result__ResultTry__branch_of_Parts_Refusal(type_core__result__Result_of_Parts_Refusal l1)
{
    type_core__ops__ControlFlow_of_ErrResidual_Refusal_Parts l0;
    type_fields__Parts l2;
    type_answer__Refusal l3;
    type_fields__Parts l5;
    type_answer__Refusal l6;
    type_core__result__ErrResidual_of_Refusal l7;
    switch (l1.tag) {
    case 0: {
        l2 = l1.s0;
        l5 = l2;
        l0 = (type_core__ops__ControlFlow_of_ErrResidual_Refusal_Parts){.tag = 0, .s0 = l5};
        break;
    }
    case 1: default: {
        l3 = l1.s1;
        l6 = l3;
        l7 = (type_core__result__ErrResidual_of_Refusal){.f0 = l6};
        l0 = (type_core__ops__ControlFlow_of_ErrResidual_Refusal_Parts){.tag = 1, .s1 = l7};
        break;
    }
    }
    return l0;
}

static INLINE uint64_t fields__Parts__second_start(type_fields__Parts l1)
{
    uint64_t l0;
    uint64_t l2;
    l2 = (l1.f0 + UINT64_C(32));
    l0 = (l2 + l1.f1);
    return l0;
}

static INLINE type_core__result__Result_of_unit_Refusal fields__second_field(slice_uint8_t l1, type_fields__Parts l2)
{
    type_core__result__Result_of_unit_Refusal l0;
    bool l3;
    uint64_t l4;
    l3 = l2.f3;
    if (l3) {
        l4 = fields__Parts__second_start(l2);
        l0 = fields__field__field_check(l1, l4, 6, UINT64_C(12));
        return l0;
    }
    l0 = (type_core__result__Result_of_unit_Refusal){.tag = 0};
    return l0;
}

static INLINE type_core__result__Result_of_Parts_Refusal fields__sheet_fields(slice_uint8_t l1)
{
    type_core__result__Result_of_Parts_Refusal l0;
    type_fields__Parts l2;
    type_fields__Parts l3;
    type_core__result__ErrResidual_of_Refusal l4;
    type_core__result__ErrResidual_of_Refusal l6;
    type_core__ops__ControlFlow_of_ErrResidual_Refusal_Parts l7;
    type_core__result__Result_of_Parts_Refusal l8;
    type_fields__Parts l9;
    type_core__ops__ControlFlow_of_ErrResidual_Refusal_unit l10;
    type_core__result__Result_of_unit_Refusal l11;
    l8 = fields__five_fields(l1);
    l7 = core__result__ResultTry__branch_of_Parts_Refusal(l8);
    switch (l7.tag) {
    case 0: {
        l3 = l7.s0;
        l9 = l3;
        break;
    }
    case 1: default: {
        l4 = l7.s1;
        l0 = core__result__ResultFromResidualErrResidual__from_residual_of_Parts_Refusal_Refusal(l4);
        return l0;
        break;
    }
    }
    l2 = l9;
    l11 = fields__second_field(l1, l2);
    l10 = core__result__ResultTry__branch_of_unit_Refusal(l11);
    switch (l10.tag) {
    case 0: {
        break;
    }
    case 1: default: {
        l6 = l10.s0;
        l0 = core__result__ResultFromResidualErrResidual__from_residual_of_Parts_Refusal_Refusal(l6);
        return l0;
        break;
    }
    }
    l0 = (type_core__result__Result_of_Parts_Refusal){.tag = 0, .s0 = l2};
    return l0;
}

static INLINE uint64_t fields__Parts__end(type_fields__Parts l1)
{
    uint64_t l0;
    uint64_t l2;
    bool l3;
    l2 = fields__Parts__second_start(l1);
    l3 = l1.f3;
    if (l3) {
        l0 = (l2 + UINT64_C(15));
    } else {
        l0 = l2;
    }
    return l0;
}

static INLINE type_core__result__Result_of_Parts_Refusal fields__fields_check(slice_uint8_t l1)
{
    type_core__result__Result_of_Parts_Refusal l0;
    type_fields__Parts l2;
    type_fields__Parts l3;
    type_core__result__ErrResidual_of_Refusal l4;
    uint64_t l5;
    type_core__ops__ControlFlow_of_ErrResidual_Refusal_Parts l6;
    type_core__result__Result_of_Parts_Refusal l7;
    type_fields__Parts l8;
    uint64_t l9;
    bool l10;
    type_answer__Refusal l11;
    type_answer__Reason l12;
    l7 = fields__sheet_fields(l1);
    l6 = core__result__ResultTry__branch_of_Parts_Refusal(l7);
    switch (l6.tag) {
    case 0: {
        l3 = l6.s0;
        l8 = l3;
        break;
    }
    case 1: default: {
        l4 = l6.s1;
        l0 = core__result__ResultFromResidualErrResidual__from_residual_of_Parts_Refusal_Refusal(l4);
        return l0;
        break;
    }
    }
    l2 = l8;
    l5 = fields__Parts__end(l2);
    l9 = l1.f1;
    l10 = (l5 < l9);
    if (l10) {
        l12 = (type_answer__Reason){.tag = 14};
        l11 = answer__Reason__at(l12, l5);
        l0 = (type_core__result__Result_of_Parts_Refusal){.tag = 1, .s1 = l11};
        return l0;
    }
    l0 = (type_core__result__Result_of_Parts_Refusal){.tag = 0, .s0 = l2};
    return l0;
}

static INLINE type_core__result__Result_of_Opened_Refusal core__result__ResultFromResidualErrResidual__from_residual_of_Opened_Refusal_Refusal(type_core__result__ErrResidual_of_Refusal l1)
{
    type_core__result__Result_of_Opened_Refusal l0;
    type_answer__Refusal l2;
    type_answer__Refusal l3;
    l3 = l1.f0;
    l2 = core__convert__AnyFrom__from_of_Refusal(l3);
    l0 = (type_core__result__Result_of_Opened_Refusal){.tag = 1, .s1 = l2};
    return l0;
}

static INLINE uint32_t core__int__u32__from_be_bytes(array_uint8_t_4 l1)
{
    uint32_t l0;
    array_uint8_t_4 l2;
    unsigned char *l3;
    unsigned char *l4;
    uint8_t l5;
    uint32_t l6;
    uint32_t l7;
    unsigned char *l8;
    unsigned char *l9;
    uint8_t l10;
    uint32_t l11;
    uint32_t l12;
    uint32_t l13;
    unsigned char *l14;
    unsigned char *l15;
    uint8_t l16;
    uint32_t l17;
    uint32_t l18;
    uint32_t l19;
    unsigned char *l20;
    unsigned char *l21;
    uint8_t l22;
    uint32_t l23;
    l2 = l1;
    l3 = (unsigned char *)(void *)&l2;
    l4 = ((unsigned char *)(void *)l3 + (size_t)UINT64_C(0));
    l5 = (*(uint8_t *)(void *)l4);
    l6 = (uint32_t)l5;
    l7 = (l6 << 24);
    l8 = (unsigned char *)(void *)&l2;
    l9 = ((unsigned char *)(void *)l8 + (size_t)UINT64_C(1));
    l10 = (*(uint8_t *)(void *)l9);
    l11 = (uint32_t)l10;
    l12 = (l11 << 16);
    l13 = (l7 + l12);
    l14 = (unsigned char *)(void *)&l2;
    l15 = ((unsigned char *)(void *)l14 + (size_t)UINT64_C(2));
    l16 = (*(uint8_t *)(void *)l15);
    l17 = (uint32_t)l16;
    l18 = (l17 << 8);
    l19 = (l13 + l18);
    l20 = (unsigned char *)(void *)&l2;
    l21 = ((unsigned char *)(void *)l20 + (size_t)UINT64_C(3));
    l22 = (*(uint8_t *)(void *)l21);
    l23 = (uint32_t)l22;
    l0 = (l19 + l23);
    return l0;
}

static INLINE uint32_t big_endian__read__word_at(slice_uint8_t l1, uint64_t l2)
{
    uint32_t l0;
    unsigned char *l3;
    uint8_t l4;
    unsigned char *l6;
    uint8_t l7;
    unsigned char *l9;
    uint8_t l10;
    unsigned char *l12;
    uint8_t l13;
    array_uint8_t_4 l14;
    l3 = ((unsigned char *)(void *)l1.f0 + (size_t)l2);
    l4 = (*(uint8_t *)(void *)l3);
    l6 = (l3 + UINT64_C(1));
    l7 = (*(uint8_t *)(void *)l6);
    l9 = (l3 + UINT64_C(2));
    l10 = (*(uint8_t *)(void *)l9);
    l12 = (l3 + UINT64_C(3));
    l13 = (*(uint8_t *)(void *)l12);
    l14 = (array_uint8_t_4){.e[0] = l4, .e[1] = l7, .e[2] = l10, .e[3] = l13};
    l0 = core__int__u32__from_be_bytes(l14);
    return l0;
}

static INLINE uint32_t core__int__u32__cast_signed(uint32_t l1)
{
    uint32_t l0;
    uint32_t l2;
    bool l3;
    uint32_t l5;
    uint32_t l6;
    l2 = (uint32_t)UINT32_C(2147483647);
    l3 = (l1 <= l2);
    if (l3) {
        l0 = (uint32_t)l1;
    } else {
        l5 = (UINT32_C(4294967295) - l1);
        l6 = (uint32_t)l5;
        l0 = (uint32_t)~l6;
    }
    return l0;
}

static INLINE uint32_t big_endian__read__to_signed(uint32_t l1)
{
    uint32_t l0;
    l0 = core__int__u32__cast_signed(l1);
    return l0;
}

static INLINE uint32_t big_endian__read__int_at(slice_uint8_t l1, uint64_t l2)
{
    uint32_t l0;
    uint32_t l3;
    l3 = big_endian__read__word_at(l1, l2);
    l0 = big_endian__read__to_signed(l3);
    return l0;
}

static INLINE uint64_t big_endian__read__coordinate_at(slice_uint8_t l1, uint64_t l2)
{
    uint64_t l0;
    uint32_t l3;
    l3 = big_endian__read__int_at(l1, l2);
    l0 = core__convert__I64FromI32__from(l3);
    return l0;
}

static INLINE type_sphere__point__Point big_endian__read__point_at(slice_uint8_t l1, uint64_t l2)
{
    type_sphere__point__Point l0;
    uint64_t l3;
    uint64_t l4;
    uint64_t l5;
    uint64_t l6;
    uint64_t l7;
    l3 = big_endian__read__coordinate_at(l1, l2);
    l5 = (l2 + UINT64_C(4));
    l4 = big_endian__read__coordinate_at(l1, l5);
    l7 = (l2 + UINT64_C(8));
    l6 = big_endian__read__coordinate_at(l1, l7);
    l0 = (type_sphere__point__Point){.f0 = l3, .f1 = l4, .f2 = l6};
    return l0;
}

static INLINE type_sphere__point__Point sheet__open__known_point(slice_uint8_t l1, uint64_t l2)
{
    type_sphere__point__Point l0;
    uint64_t l3;
    uint64_t l4;
    l3 = (UINT64_C(11) + UINT64_C(6));
    l4 = (l3 + l2);
    l0 = big_endian__read__point_at(l1, l4);
    return l0;
}

static INLINE type_sphere__point__Point judging__accept__no_second(void)
{
    type_sphere__point__Point l0;
    l0 = (type_sphere__point__Point){.f0 = UINT64_C(0), .f1 = UINT64_C(0), .f2 = UINT64_C(0)};
    return l0;
}

static INLINE type_sphere__point__Point sheet__open__second_point(slice_uint8_t l1, type_fields__Parts l2)
{
    type_sphere__point__Point l0;
    bool l3;
    uint64_t l4;
    uint64_t l5;
    l3 = l2.f3;
    if (l3) {
        l4 = fields__Parts__second_start(l2);
        l5 = (l4 + UINT64_C(3));
        l0 = big_endian__read__point_at(l1, l5);
        return l0;
    }
    l0 = judging__accept__no_second();
    return l0;
}

static INLINE type_sheet__open__Opened sheet__open__points(slice_uint8_t l1, type_fields__Parts l2)
{
    type_sheet__open__Opened l0;
    type_sphere__point__Grid l3;
    type_sphere__point__Point l4;
    type_sphere__point__Point l5;
    uint64_t l6;
    l3 = l2.f2;
    l4 = sheet__open__known_point(l1, l2.f0);
    l5 = sheet__open__second_point(l1, l2);
    l6 = (l2.f1 / UINT64_C(12));
    l0 = (type_sheet__open__Opened){.f0 = l3, .f1 = l4, .f2 = l5, .f3 = l2.f3, .f4 = l6, .f5 = l2.f0};
    return l0;
}

static INLINE void big_endian__read__decode_four(slice_uint8_t l1, uint64_t l2, uint64_t l3, slice_uint32_t l4)
{
    uint64_t l5;
    uint64_t l6;
    uint32_t l7;
    unsigned char *l8;
    uint64_t l9;
    uint64_t l10;
    unsigned char *l11;
    unsigned char *l12;
    unsigned char *l13;
    l6 = (l3 << 2);
    l5 = (l2 + l6);
    l7 = big_endian__read__int_at(l1, l5);
    l6 = (l3 << 2);
    l8 = ((unsigned char *)(void *)l4.f0 + (size_t)l6);
    (*(uint32_t *)(void *)l8) = l7;
    l6 = (l5 + UINT64_C(4));
    l7 = big_endian__read__int_at(l1, l6);
    l9 = (l3 + UINT64_C(1));
    l10 = (l9 << 2);
    l11 = ((unsigned char *)(void *)l4.f0 + (size_t)l10);
    (*(uint32_t *)(void *)l11) = l7;
    l10 = (l5 + UINT64_C(8));
    l7 = big_endian__read__int_at(l1, l10);
    l9 = (l3 + UINT64_C(2));
    l6 = (l9 << 2);
    l12 = ((unsigned char *)(void *)l4.f0 + (size_t)l6);
    (*(uint32_t *)(void *)l12) = l7;
    l6 = (l5 + UINT64_C(12));
    l7 = big_endian__read__int_at(l1, l6);
    l9 = (l3 + UINT64_C(3));
    l10 = (l9 << 2);
    l13 = ((unsigned char *)(void *)l4.f0 + (size_t)l10);
    (*(uint32_t *)(void *)l13) = l7;
    return;
}

static void big_endian__read__decode_eights(slice_uint8_t l1, uint64_t l2, uint64_t l3, slice_uint32_t l4)
{
    uint64_t l5;
    bool l6;
    uint64_t l8;
    uint32_t *l9;
    slice_uint32_t l10;
    uint64_t l11;
    uint32_t *l12;
    slice_uint32_t l13;
    l5 = UINT64_C(0);
    for (;;) {
        l6 = (l5 < l3);
        if (l6) {
        } else {
            goto exit0;
        }
        l8 = (l5 << 3);
        l9 = (uint32_t *)(void *)&(*l4.f0);
        l10 = (slice_uint32_t){.f0 = l9, .f1 = l4.f1};
        big_endian__read__decode_four(l1, l2, l8, l10);
        l8 = (l5 << 3);
        l11 = (l8 + UINT64_C(4));
        l12 = (uint32_t *)(void *)&(*l4.f0);
        l13 = (slice_uint32_t){.f0 = l12, .f1 = l4.f1};
        big_endian__read__decode_four(l1, l2, l11, l13);
        l5 = (l5 + UINT64_C(1));
    }
exit0:;
    return;
}

static INLINE void big_endian__read__decode(slice_uint8_t l1, uint64_t l2, uint64_t l3, slice_uint32_t l4)
{
    uint64_t l5;
    uint64_t l6;
    uint32_t *l8;
    slice_uint32_t l9;
    bool l10;
    uint32_t l11;
    uint64_t l12;
    uint64_t l13;
    uint64_t l14;
    unsigned char *l15;
    l5 = (l3 / UINT64_C(8));
    l8 = (uint32_t *)(void *)&(*l4.f0);
    l9 = (slice_uint32_t){.f0 = l8, .f1 = l4.f1};
    big_endian__read__decode_eights(l1, l2, l5, l9);
    l6 = (l5 << 3);
    for (;;) {
        l10 = (l6 < l3);
        if (l10) {
        } else {
            goto exit0;
        }
        l12 = (l6 << 2);
        l13 = (l2 + l12);
        l11 = big_endian__read__int_at(l1, l13);
        l14 = (l6 << 2);
        l15 = ((unsigned char *)(void *)l4.f0 + (size_t)l14);
        (*(uint32_t *)(void *)l15) = l11;
        l6 = (l6 + UINT64_C(1));
    }
exit0:;
    return;
}

static INLINE void sheet__open__decode_vertices(slice_uint8_t l1, uint64_t l2, uint64_t l3, slice_uint32_t l4)
{
    uint64_t l6;
    uint64_t l7;
    uint64_t l8;
    uint32_t *l9;
    slice_uint32_t l10;
    l6 = (UINT64_C(11) + UINT64_C(21));
    l7 = (l6 + l2);
    l8 = (l3 * UINT64_C(3));
    l9 = (uint32_t *)(void *)&(*l4.f0);
    l10 = (slice_uint32_t){.f0 = l9, .f1 = l4.f1};
    big_endian__read__decode(l1, l7, l8, l10);
    return;
}

static INLINE type_core__result__Result_of_unit_Refusal answer__fails_if(type_answer__Reason l1, bool l2)
{
    type_core__result__Result_of_unit_Refusal l0;
    bool l3;
    type_answer__Refusal l4;
    l3 = l2;
    if (l3) {
        l4 = answer__Reason__at(l1, UINT64_C(0));
        l0 = (type_core__result__Result_of_unit_Refusal){.tag = 1, .s0 = l4};
        return l0;
    }
    l0 = (type_core__result__Result_of_unit_Refusal){.tag = 0};
    return l0;
}

static INLINE type_core__result__Result_of_unit_Refusal polygon__checks__list_check(slice_uint32_t l1)
{
    type_core__result__Result_of_unit_Refusal l0;
    uint64_t l2;
    uint64_t l3;
    type_answer__Reason l4;
    bool l5;
    bool l6;
    bool l7;
    uint64_t l8;
    uint64_t l9;
    uint64_t l10;
    uint64_t l11;
    l3 = l1.f1;
    l2 = (l3 / UINT64_C(3));
    l4 = (type_answer__Reason){.tag = 0};
    l8 = l1.f1;
    l9 = (l8 % UINT64_C(3));
    l7 = (l9 != UINT64_C(0));
    if (l7) {
    } else {
        l10 = l2;
        l7 = (l10 < UINT64_C(3));
    }
    l6 = l7;
    if (l6) {
    } else {
        l11 = l2;
        l6 = (UINT64_C(4096) < l11);
    }
    l5 = l6;
    l0 = answer__fails_if(l4, l5);
    return l0;
}

static INLINE bool core__result__Result__is_err_of_unit_Refusal(type_core__result__Result_of_unit_Refusal *l1)
{
    bool l0;
    switch ((*l1).tag) {
    case 0: {
        l0 = false;
        break;
    }
    case 1: default: {
        l0 = true;
        break;
    }
    }
    return l0;
}

static INLINE uint64_t polygon__vertices__number_at(slice_uint32_t l1, uint64_t l2)
{
    uint64_t l0;
    uint64_t l3;
    unsigned char *l4;
    uint32_t l5;
    l3 = (l2 << 2);
    l4 = ((unsigned char *)(void *)l1.f0 + (size_t)l3);
    l5 = (*(uint32_t *)(void *)l4);
    l0 = core__convert__I64FromI32__from(l5);
    return l0;
}

static INLINE uint64_t sphere__point__limit(type_sphere__point__Grid l1)
{
    uint64_t l0;
    switch (l1.tag) {
    case 0: {
        l0 = UINT64_C(1048576);
        break;
    }
    case 1: default: {
        l0 = UINT64_C(67108864);
        break;
    }
    }
    return l0;
}

static INLINE bool sphere__point__is_far(type_sphere__point__Grid l1, uint64_t l2)
{
    bool l0;
    uint64_t l3;
    uint64_t l4;
    bool l5;
    l3 = sphere__point__limit(l1);
    l4 = (UINT64_C(0) - l3);
    l5 = (signed64(l2) < signed64(l4));
    if (l5) {
        l0 = true;
        return l0;
    }
    l0 = (signed64(l3) < signed64(l2));
    return l0;
}

static INLINE uint32_t polygon__quick__far_at(type_sphere__point__Grid l1, slice_uint32_t l2, uint64_t l3)
{
    uint32_t l0;
    bool l4;
    uint64_t l5;
    l5 = polygon__vertices__number_at(l2, l3);
    l4 = sphere__point__is_far(l1, l5);
    if (l4) {
        l0 = UINT32_C(1);
        return l0;
    }
    l0 = UINT32_C(0);
    return l0;
}

static INLINE uint32_t polygon__quick__count_far_either(type_sphere__point__Grid l1, slice_uint32_t l2)
{
    uint32_t l0;
    uint32_t l3;
    uint64_t l4;
    uint64_t l5;
    bool l6;
    uint32_t l7;
    l3 = UINT32_C(0);
    l4 = UINT64_C(0);
    l5 = l2.f1;
    for (;;) {
        l6 = (l4 < l5);
        if (l6) {
        } else {
            goto exit0;
        }
        l7 = polygon__quick__far_at(l1, l2, l4);
        l3 = (l3 + l7);
        l4 = (l4 + UINT64_C(1));
    }
exit0:;
    l0 = l3;
    return l0;
}

static INLINE uint32_t polygon__quick__count_far(type_sphere__point__Grid l1, slice_uint32_t l2)
{
    return l1.tag == 0 ? polygon__quick__count_far_either((type_sphere__point__Grid){.tag = 0}, l2) : polygon__quick__count_far_either((type_sphere__point__Grid){.tag = 1}, l2);
}

static INLINE bool polygon__quick__is_near(type_sphere__point__Grid l1, slice_uint32_t l2)
{
    bool l0;
    uint32_t l4;
    type_sphere__point__Grid l5;
    uint32_t l6;
    type_sphere__point__Grid l7;
    switch (l1.tag) {
    case 0: {
        l5 = (type_sphere__point__Grid){.tag = 0};
        l4 = polygon__quick__count_far(l5, l2);
        l0 = (l4 == UINT32_C(0));
        break;
    }
    case 1: default: {
        l7 = (type_sphere__point__Grid){.tag = 1};
        l6 = polygon__quick__count_far(l7, l2);
        l0 = (l6 == UINT32_C(0));
        break;
    }
    }
    return l0;
}

static INLINE bool sphere__point__is_beyond(type_sphere__point__Grid l1, type_sphere__point__Point l2)
{
    bool l0;
    uint64_t l3;
    uint64_t l4;
    uint64_t l5;
    bool l6;
    bool l7;
    l3 = l2.f0;
    l4 = l2.f1;
    l5 = l2.f2;
    l6 = sphere__point__is_far(l1, l3);
    if (l6) {
        l0 = true;
        return l0;
    }
    l7 = sphere__point__is_far(l1, l4);
    if (l7) {
        l0 = true;
        return l0;
    }
    l0 = sphere__point__is_far(l1, l5);
    return l0;
}

static INLINE bool sphere__point__is_null(type_sphere__point__Point l1)
{
    bool l0;
    uint64_t l2;
    uint64_t l3;
    uint64_t l4;
    bool l5;
    l2 = l1.f0;
    l3 = l1.f1;
    l4 = l1.f2;
    l5 = (l2 != UINT64_C(0));
    if (l5) {
        l0 = false;
        return l0;
    }
    l5 = (l3 != UINT64_C(0));
    if (l5) {
        l0 = false;
        return l0;
    }
    l0 = (l4 == UINT64_C(0));
    return l0;
}

static INLINE bool sphere__point__is_off_grid(type_sphere__point__Grid l1, type_sphere__point__Point l2)
{
    bool l0;
    bool l3;
    l3 = sphere__point__is_beyond(l1, l2);
    if (l3) {
        l0 = true;
        return l0;
    }
    l0 = sphere__point__is_null(l2);
    return l0;
}

static INLINE type_core__result__Result_of_unit_Refusal polygon__checks__reference_check(type_sphere__point__Grid l1, type_sphere__point__Point l2)
{
    type_core__result__Result_of_unit_Refusal l0;
    type_answer__Reason l3;
    bool l4;
    l3 = (type_answer__Reason){.tag = 5};
    l4 = sphere__point__is_off_grid(l1, l2);
    l0 = answer__fails_if(l3, l4);
    return l0;
}

static INLINE type_sphere__point__Point polygon__vertices__vertex_at(slice_uint32_t l1, uint64_t l2)
{
    type_sphere__point__Point l0;
    uint64_t l3;
    uint64_t l4;
    uint64_t l5;
    uint64_t l6;
    uint64_t l7;
    l3 = (l2 * UINT64_C(3));
    l4 = polygon__vertices__number_at(l1, l3);
    l7 = (l3 + UINT64_C(1));
    l5 = polygon__vertices__number_at(l1, l7);
    l7 = (l3 + UINT64_C(2));
    l6 = polygon__vertices__number_at(l1, l7);
    l0 = (type_sphere__point__Point){.f0 = l4, .f1 = l5, .f2 = l6};
    return l0;
}

static INLINE uint64_t polygon__vertices__next_of(uint64_t l1, uint64_t l2)
{
    uint64_t l0;
    uint64_t l3;
    bool l4;
    l3 = (l2 + UINT64_C(1));
    l4 = (l3 < l1);
    if (l4) {
        l0 = l3;
        return l0;
    }
    l0 = UINT64_C(0);
    return l0;
}

static INLINE type_sphere__point__Point polygon__vertices__end_of(slice_uint32_t l1, uint64_t l2)
{
    type_sphere__point__Point l0;
    uint64_t l3;
    uint64_t l4;
    uint64_t l5;
    l4 = l1.f1;
    l5 = (l4 / UINT64_C(3));
    l3 = polygon__vertices__next_of(l5, l2);
    l0 = polygon__vertices__vertex_at(l1, l3);
    return l0;
}

static INLINE type_sphere__point__Point sphere__orientation__cross(type_sphere__point__Point l1, type_sphere__point__Point l2)
{
    type_sphere__point__Point l0;
    uint64_t l3;
    uint64_t l4;
    uint64_t l5;
    uint64_t l6;
    uint64_t l7;
    uint64_t l8;
    uint64_t l9;
    uint64_t l10;
    uint64_t l11;
    uint64_t l12;
    uint64_t l13;
    uint64_t l14;
    uint64_t l15;
    uint64_t l16;
    uint64_t l17;
    l3 = l1.f0;
    l4 = l1.f1;
    l5 = l1.f2;
    l6 = l2.f0;
    l7 = l2.f1;
    l8 = l2.f2;
    l9 = (l4 * l8);
    l10 = (l5 * l7);
    l11 = (l9 - l10);
    l12 = (l5 * l6);
    l13 = (l3 * l8);
    l14 = (l12 - l13);
    l15 = (l3 * l7);
    l16 = (l4 * l6);
    l17 = (l15 - l16);
    l0 = (type_sphere__point__Point){.f0 = l11, .f1 = l14, .f2 = l17};
    return l0;
}

static INLINE double sphere__approximate__to_float(uint64_t l1)
{
    double l0;
    l0 = (double)signed64(l1);
    return l0;
}

static INLINE double sphere__approximate__minor(uint64_t l1, uint64_t l2, uint64_t l3, uint64_t l4)
{
    double l0;
    double l5;
    double l6;
    double l7;
    double l8;
    double l9;
    double l10;
    l5 = sphere__approximate__to_float(l1);
    l6 = sphere__approximate__to_float(l2);
    l7 = (l5 * l6);
    l8 = sphere__approximate__to_float(l3);
    l9 = sphere__approximate__to_float(l4);
    l10 = (l8 * l9);
    l0 = (l7 - l10);
    return l0;
}

static INLINE type_sphere__approximate__Vector sphere__approximate__float_cross(type_sphere__point__Point l1, type_sphere__point__Point l2)
{
    type_sphere__approximate__Vector l0;
    double l3;
    double l4;
    double l5;
    l3 = sphere__approximate__minor(l1.f1, l2.f2, l1.f2, l2.f1);
    l4 = sphere__approximate__minor(l1.f2, l2.f0, l1.f0, l2.f2);
    l5 = sphere__approximate__minor(l1.f0, l2.f1, l1.f1, l2.f0);
    l0 = (type_sphere__approximate__Vector){.f0 = l3, .f1 = l4, .f2 = l5};
    return l0;
}

static INLINE type_sphere__approximate__Vector sphere__plane__floats_for(type_sphere__point__Grid l1, type_sphere__point__Point l2, type_sphere__point__Point l3)
{
    type_sphere__approximate__Vector l0;
    switch (l1.tag) {
    case 0: {
        l0 = (type_sphere__approximate__Vector){.f0 = (0x0.0p+0), .f1 = (0x0.0p+0), .f2 = (0x0.0p+0)};
        break;
    }
    case 1: default: {
        l0 = sphere__approximate__float_cross(l2, l3);
        break;
    }
    }
    return l0;
}

static INLINE type_sphere__plane__Plane sphere__plane__plane_through(type_sphere__point__Grid l1, type_sphere__point__Point l2, type_sphere__point__Point l3)
{
    type_sphere__plane__Plane l0;
    type_sphere__point__Point l4;
    type_sphere__approximate__Vector l5;
    l4 = sphere__orientation__cross(l2, l3);
    l5 = sphere__plane__floats_for(l1, l2, l3);
    l0 = (type_sphere__plane__Plane){.f0 = l4, .f1 = l5, .f2 = l1};
    return l0;
}

static INLINE uint64_t sphere__orientation__dot(type_sphere__point__Point l1, type_sphere__point__Point l2)
{
    uint64_t l0;
    uint64_t l3;
    uint64_t l4;
    uint64_t l5;
    uint64_t l6;
    uint64_t l7;
    uint64_t l8;
    uint64_t l9;
    uint64_t l10;
    uint64_t l11;
    uint64_t l12;
    l3 = l1.f0;
    l4 = l1.f1;
    l5 = l1.f2;
    l6 = l2.f0;
    l7 = l2.f1;
    l8 = l2.f2;
    l9 = (l3 * l6);
    l10 = (l4 * l7);
    l11 = (l9 + l10);
    l12 = (l5 * l8);
    l0 = (l11 + l12);
    return l0;
}

static INLINE double sphere__approximate__float_dot(type_sphere__approximate__Vector l1, type_sphere__point__Point l2)
{
    double l0;
    double l3;
    double l4;
    double l5;
    double l6;
    double l7;
    double l8;
    double l9;
    l3 = sphere__approximate__to_float(l2.f0);
    l4 = (l1.f0 * l3);
    l5 = sphere__approximate__to_float(l2.f1);
    l6 = (l1.f1 * l5);
    l7 = (l4 + l6);
    l8 = sphere__approximate__to_float(l2.f2);
    l9 = (l1.f2 * l8);
    l0 = (l7 + l9);
    return l0;
}

static INLINE type_sphere__approximate__Filtered sphere__approximate__filter(double l1)
{
    type_sphere__approximate__Filtered l0;
    double l2;
    bool l3;
    l2 = (-(0x1.0000000000000p+29));
    l3 = (l1 < l2);
    if (l3) {
        l0 = (type_sphere__approximate__Filtered){.tag = 0, .s0 = l1};
        return l0;
    }
    l3 = ((0x1.0000000000000p+29) < l1);
    if (l3) {
        l0 = (type_sphere__approximate__Filtered){.tag = 0, .s0 = l1};
        return l0;
    }
    l0 = (type_sphere__approximate__Filtered){.tag = 1, .s0 = l1};
    return l0;
}

static INLINE uint64_t sphere__plane__float_side(double l1)
{
    uint64_t l0;
    bool l2;
    l2 = ((0x0.0p+0) < l1);
    if (l2) {
        l0 = UINT64_C(1);
        return l0;
    }
    l0 = UINT64_C(18446744073709551615);
    return l0;
}

static INLINE type_sphere__point__Point sphere__words__high_part(type_sphere__point__Point l1)
{
    type_sphere__point__Point l0;
    uint64_t l2;
    uint64_t l3;
    uint64_t l4;
    l2 = (uint64_t)(signed64(l1.f0) / signed64(UINT64_C(134217728)));
    l3 = (uint64_t)(signed64(l1.f1) / signed64(UINT64_C(134217728)));
    l4 = (uint64_t)(signed64(l1.f2) / signed64(UINT64_C(134217728)));
    l0 = (type_sphere__point__Point){.f0 = l2, .f1 = l3, .f2 = l4};
    return l0;
}

static INLINE type_sphere__point__Point sphere__words__low_part(type_sphere__point__Point l1)
{
    type_sphere__point__Point l0;
    uint64_t l2;
    uint64_t l3;
    uint64_t l4;
    l2 = (uint64_t)(signed64(l1.f0) % signed64(UINT64_C(134217728)));
    l3 = (uint64_t)(signed64(l1.f1) % signed64(UINT64_C(134217728)));
    l4 = (uint64_t)(signed64(l1.f2) % signed64(UINT64_C(134217728)));
    l0 = (type_sphere__point__Point){.f0 = l2, .f1 = l3, .f2 = l4};
    return l0;
}

static INLINE type_sphere__words__Words sphere__words__word_dot(type_sphere__point__Point l1, type_sphere__point__Point l2)
{
    type_sphere__words__Words l0;
    uint64_t l3;
    type_sphere__point__Point l4;
    uint64_t l5;
    type_sphere__point__Point l6;
    l4 = sphere__words__high_part(l1);
    l3 = sphere__orientation__dot(l4, l2);
    l6 = sphere__words__low_part(l1);
    l5 = sphere__orientation__dot(l6, l2);
    l0 = (type_sphere__words__Words){.f0 = l3, .f1 = l5};
    return l0;
}

static INLINE uint64_t sphere__words__word_side(type_sphere__words__Words l1)
{
    uint64_t l0;
    uint64_t l2;
    uint64_t l3;
    bool l4;
    l3 = (uint64_t)(signed64(l1.f1) / signed64(UINT64_C(134217728)));
    l2 = (l1.f0 + l3);
    l4 = (l2 != UINT64_C(0));
    if (l4) {
        l0 = l2;
        return l0;
    }
    l0 = (uint64_t)(signed64(l1.f1) % signed64(UINT64_C(134217728)));
    return l0;
}

static INLINE uint64_t sphere__plane__fine_side(type_sphere__point__Point l1, type_sphere__approximate__Vector l2, type_sphere__point__Point l3)
{
    uint64_t l0;
    double l4;
    type_sphere__approximate__Filtered l5;
    double l6;
    type_sphere__words__Words l8;
    l6 = sphere__approximate__float_dot(l2, l3);
    l5 = sphere__approximate__filter(l6);
    switch (l5.tag) {
    case 0: {
        l4 = l5.s0;
        l0 = sphere__plane__float_side(l4);
        break;
    }
    case 1: default: {
        l8 = sphere__words__word_dot(l1, l3);
        l0 = sphere__words__word_side(l8);
        break;
    }
    }
    return l0;
}

static INLINE uint64_t sphere__plane__side_of(type_sphere__plane__Plane l1, type_sphere__point__Point l2)
{
    uint64_t l0;
    type_sphere__point__Grid l3;
    type_sphere__point__Point l5;
    type_sphere__point__Point l6;
    type_sphere__approximate__Vector l7;
    l3 = l1.f2;
    switch (l3.tag) {
    case 0: {
        l5 = l1.f0;
        l0 = sphere__orientation__dot(l5, l2);
        break;
    }
    case 1: default: {
        l6 = l1.f0;
        l7 = l1.f1;
        l0 = sphere__plane__fine_side(l6, l7, l2);
        break;
    }
    }
    return l0;
}

static INLINE uint64_t sphere__plane__turn(type_sphere__point__Grid l1, type_sphere__point__Point l2, type_sphere__point__Point l3, type_sphere__point__Point l4)
{
    uint64_t l0;
    type_sphere__plane__Plane l5;
    l5 = sphere__plane__plane_through(l1, l2, l3);
    l0 = sphere__plane__side_of(l5, l4);
    return l0;
}

static INLINE bool sphere__edge__on_circle(type_sphere__point__Grid l1, type_sphere__point__Point l2, type_sphere__point__Point l3, type_sphere__point__Point l4)
{
    bool l0;
    uint64_t l5;
    l5 = sphere__plane__turn(l1, l2, l3, l4);
    l0 = (l5 == UINT64_C(0));
    return l0;
}

static INLINE bool polygon__quick__is_on_circle(type_sphere__point__Grid l1, slice_uint32_t l2, uint64_t l3, type_sphere__point__Point l4)
{
    bool l0;
    type_sphere__point__Point l5;
    type_sphere__point__Point l6;
    l5 = polygon__vertices__vertex_at(l2, l3);
    l6 = polygon__vertices__end_of(l2, l3);
    l0 = sphere__edge__on_circle(l1, l5, l6, l4);
    return l0;
}

static INLINE bool polygon__quick__is_level(type_sphere__plane__Plane l1, type_sphere__point__Point l2)
{
    bool l0;
    uint64_t l3;
    l3 = sphere__plane__side_of(l1, l2);
    l0 = (l3 == UINT64_C(0));
    return l0;
}

static INLINE bool polygon__quick__off_pairs_either(type_sphere__point__Grid l1, slice_uint32_t l2, type_sphere__point__Point l3)
{
    bool l0;
    uint64_t l4;
    type_sphere__point__Point l5;
    uint64_t l6;
    type_sphere__point__Point l7;
    type_sphere__plane__Plane l8;
    type_sphere__point__Point l9;
    uint64_t l10;
    uint64_t l11;
    bool l12;
    bool l13;
    bool l14;
    l10 = l2.f1;
    l4 = (l10 / UINT64_C(3));
    l5 = polygon__vertices__vertex_at(l2, UINT64_C(0));
    l6 = UINT64_C(0);
    for (;;) {
        l11 = (l6 + UINT64_C(2));
        l12 = (l11 < l4);
        if (l12) {
        } else {
            goto exit0;
        }
        l11 = (l6 + UINT64_C(1));
        l7 = polygon__vertices__vertex_at(l2, l11);
        l8 = sphere__plane__plane_through(l1, l7, l3);
        l13 = polygon__quick__is_level(l8, l5);
        if (l13) {
            l0 = false;
            return l0;
        }
        l11 = (l6 + UINT64_C(2));
        l9 = polygon__vertices__vertex_at(l2, l11);
        l14 = polygon__quick__is_level(l8, l9);
        if (l14) {
            l0 = false;
            return l0;
        }
        l5 = l9;
        l6 = (l6 + UINT64_C(2));
    }
exit0:;
    l0 = true;
    return l0;
}

static bool polygon__quick__off_pairs(type_sphere__point__Grid l1, slice_uint32_t l2, type_sphere__point__Point l3)
{
    return l1.tag == 0 ? polygon__quick__off_pairs_either((type_sphere__point__Grid){.tag = 0}, l2, l3) : polygon__quick__off_pairs_either((type_sphere__point__Grid){.tag = 1}, l2, l3);
}

static bool polygon__quick__off_circles(type_sphere__point__Grid l1, slice_uint32_t l2, type_sphere__point__Point l3)
{
    bool l0;
    uint64_t l4;
    uint64_t l5;
    bool l6;
    bool l7;
    type_sphere__point__Grid l9;
    type_sphere__point__Grid l10;
    l5 = l2.f1;
    l4 = (l5 / UINT64_C(3));
    l5 = (l4 - UINT64_C(2));
    l6 = polygon__quick__is_on_circle(l1, l2, l5, l3);
    if (l6) {
        l0 = false;
        return l0;
    }
    l5 = (l4 - UINT64_C(1));
    l7 = polygon__quick__is_on_circle(l1, l2, l5, l3);
    if (l7) {
        l0 = false;
        return l0;
    }
    switch (l1.tag) {
    case 0: {
        l9 = (type_sphere__point__Grid){.tag = 0};
        l0 = polygon__quick__off_pairs(l9, l2, l3);
        break;
    }
    case 1: default: {
        l10 = (type_sphere__point__Grid){.tag = 1};
        l0 = polygon__quick__off_pairs(l10, l2, l3);
        break;
    }
    }
    return l0;
}

static INLINE bool polygon__checks__accepts(type_sphere__point__Grid l1, slice_uint32_t l2, type_sphere__point__Point l3)
{
    bool l0;
    bool l4;
    type_core__result__Result_of_unit_Refusal l5;
    type_core__result__Result_of_unit_Refusal l6;
    type_core__result__Result_of_unit_Refusal *l7;
    l5 = polygon__checks__reference_check(l1, l3);
    l6 = l5;
    l7 = (type_core__result__Result_of_unit_Refusal *)(void *)&l6;
    l4 = core__result__Result__is_err_of_unit_Refusal(l7);
    if (l4) {
        l0 = false;
        return l0;
    }
    l0 = polygon__quick__off_circles(l1, l2, l3);
    return l0;
}

static INLINE bool polygon__checks__is_accepted(type_sphere__point__Grid l1, slice_uint32_t l2, type_sphere__point__Point l3)
{
    bool l0;
    bool l4;
    type_core__result__Result_of_unit_Refusal l5;
    type_core__result__Result_of_unit_Refusal l6;
    type_core__result__Result_of_unit_Refusal *l7;
    bool l8;
    l5 = polygon__checks__list_check(l2);
    l6 = l5;
    l7 = (type_core__result__Result_of_unit_Refusal *)(void *)&l6;
    l4 = core__result__Result__is_err_of_unit_Refusal(l7);
    if (l4) {
        l0 = false;
        return l0;
    }
    l8 = polygon__quick__is_near(l1, l2);
    if (l8) {
        l0 = polygon__checks__accepts(l1, l2, l3);
        return l0;
    }
    l0 = false;
    return l0;
}

static INLINE bool polygon__checks__fn__beyond_check__first_below(type_polygon__checks__fn__beyond_check__first_below_Self_of_ref_Grid_slice_u32 *l1, uint64_t l2)
{
    bool l0;
    type_sphere__point__Grid *l3;
    slice_uint32_t l4;
    type_sphere__point__Grid l6;
    type_sphere__point__Point l7;
    l3 = (*l1).f0;
    l4 = (*l1).f1;
    l6 = (*l3);
    l7 = polygon__vertices__vertex_at(l4, l2);
    l0 = sphere__point__is_beyond(l6, l7);
    return l0;
}

static INLINE bool polygon__checks__fn__beyond_check__first_below_Fn__call(type_polygon__checks__fn__beyond_check__first_below_Self_of_ref_Grid_slice_u32 *l1, uint64_t l2)
{
    bool l0;
    l0 = polygon__checks__fn__beyond_check__first_below(l1, l2);
    return l0;
}

static INLINE type_core__option__Option_of_u64 answer__first_below_of_beyond_check_first_below_ref_Grid_slice_u32(uint64_t l1, type_polygon__checks__fn__beyond_check__first_below_Self_of_ref_Grid_slice_u32 l2)
{
    type_core__option__Option_of_u64 l0;
    type_polygon__checks__fn__beyond_check__first_below_Self_of_ref_Grid_slice_u32 l3;
    uint64_t l4;
    bool l5;
    bool l6;
    type_polygon__checks__fn__beyond_check__first_below_Self_of_ref_Grid_slice_u32 *l7;
    l3 = l2;
    l4 = UINT64_C(0);
    for (;;) {
        l5 = (l4 < l1);
        if (l5) {
        } else {
            goto exit0;
        }
        l7 = (type_polygon__checks__fn__beyond_check__first_below_Self_of_ref_Grid_slice_u32 *)(void *)&l3;
        l6 = polygon__checks__fn__beyond_check__first_below_Fn__call(l7, l4);
        if (l6) {
            l0 = (type_core__option__Option_of_u64){.tag = 1, .s0 = l4};
            return l0;
        }
        l4 = (l4 + UINT64_C(1));
    }
exit0:;
    l0 = (type_core__option__Option_of_u64){.tag = 0};
    return l0;
}

static INLINE type_core__result__Result_of_unit_Refusal answer__fails_at(type_answer__Reason l1, type_core__option__Option_of_u64 l2)
{
    type_core__result__Result_of_unit_Refusal l0;
    uint64_t l3;
    type_answer__Refusal l5;
    switch (l2.tag) {
    case 1: {
        l3 = l2.s0;
        l5 = answer__Reason__at(l1, l3);
        l0 = (type_core__result__Result_of_unit_Refusal){.tag = 1, .s0 = l5};
        break;
    }
    case 0: default: {
        l0 = (type_core__result__Result_of_unit_Refusal){.tag = 0};
        break;
    }
    }
    return l0;
}

static INLINE type_core__result__Result_of_unit_Refusal polygon__checks__beyond_check(type_sphere__point__Grid l1, slice_uint32_t l2)
{
    type_core__result__Result_of_unit_Refusal l0;
    type_sphere__point__Grid l3;
    type_core__option__Option_of_u64 l4;
    uint64_t l5;
    uint64_t l6;
    type_sphere__point__Grid *l7;
    uint32_t *l8;
    slice_uint32_t l9;
    type_polygon__checks__fn__beyond_check__first_below_Self_of_ref_Grid_slice_u32 l10;
    type_answer__Reason l11;
    l3 = l1;
    l5 = l2.f1;
    l6 = (l5 / UINT64_C(3));
    l7 = (type_sphere__point__Grid *)(void *)&l3;
    l8 = (uint32_t *)(void *)&(*l2.f0);
    l9 = (slice_uint32_t){.f0 = l8, .f1 = l2.f1};
    l10 = (type_polygon__checks__fn__beyond_check__first_below_Self_of_ref_Grid_slice_u32){.f0 = l7, .f1 = l9};
    l4 = answer__first_below_of_beyond_check_first_below_ref_Grid_slice_u32(l6, l10);
    l11 = (type_answer__Reason){.tag = 1};
    l0 = answer__fails_at(l11, l4);
    return l0;
}

static INLINE bool polygon__checks__fn__null_check__first_below(type_polygon__checks__fn__null_check__first_below_Self_of_slice_u32 *l1, uint64_t l2)
{
    bool l0;
    slice_uint32_t l3;
    type_sphere__point__Point l5;
    l3 = (*l1).f0;
    l5 = polygon__vertices__vertex_at(l3, l2);
    l0 = sphere__point__is_null(l5);
    return l0;
}

static INLINE bool polygon__checks__fn__null_check__first_below_Fn__call(type_polygon__checks__fn__null_check__first_below_Self_of_slice_u32 *l1, uint64_t l2)
{
    bool l0;
    l0 = polygon__checks__fn__null_check__first_below(l1, l2);
    return l0;
}

static INLINE type_core__option__Option_of_u64 answer__first_below_of_null_check_first_below_slice_u32(uint64_t l1, type_polygon__checks__fn__null_check__first_below_Self_of_slice_u32 l2)
{
    type_core__option__Option_of_u64 l0;
    type_polygon__checks__fn__null_check__first_below_Self_of_slice_u32 l3;
    uint64_t l4;
    bool l5;
    bool l6;
    type_polygon__checks__fn__null_check__first_below_Self_of_slice_u32 *l7;
    l3 = l2;
    l4 = UINT64_C(0);
    for (;;) {
        l5 = (l4 < l1);
        if (l5) {
        } else {
            goto exit0;
        }
        l7 = (type_polygon__checks__fn__null_check__first_below_Self_of_slice_u32 *)(void *)&l3;
        l6 = polygon__checks__fn__null_check__first_below_Fn__call(l7, l4);
        if (l6) {
            l0 = (type_core__option__Option_of_u64){.tag = 1, .s0 = l4};
            return l0;
        }
        l4 = (l4 + UINT64_C(1));
    }
exit0:;
    l0 = (type_core__option__Option_of_u64){.tag = 0};
    return l0;
}

static INLINE type_core__result__Result_of_unit_Refusal polygon__checks__null_check(slice_uint32_t l1)
{
    type_core__result__Result_of_unit_Refusal l0;
    type_core__option__Option_of_u64 l2;
    uint64_t l3;
    uint64_t l4;
    uint32_t *l5;
    slice_uint32_t l6;
    type_polygon__checks__fn__null_check__first_below_Self_of_slice_u32 l7;
    type_answer__Reason l8;
    l3 = l1.f1;
    l4 = (l3 / UINT64_C(3));
    l5 = (uint32_t *)(void *)&(*l1.f0);
    l6 = (slice_uint32_t){.f0 = l5, .f1 = l1.f1};
    l7 = (type_polygon__checks__fn__null_check__first_below_Self_of_slice_u32){.f0 = l6};
    l2 = answer__first_below_of_null_check_first_below_slice_u32(l4, l7);
    l8 = (type_answer__Reason){.tag = 2};
    l0 = answer__fails_at(l8, l2);
    return l0;
}

static INLINE bool sphere__direction__parallel(type_sphere__point__Point l1, type_sphere__point__Point l2)
{
    bool l0;
    type_sphere__point__Point l3;
    l3 = sphere__orientation__cross(l1, l2);
    l0 = sphere__point__is_null(l3);
    return l0;
}

static INLINE bool sphere__direction__same_direction(type_sphere__point__Point l1, type_sphere__point__Point l2)
{
    bool l0;
    bool l3;
    uint64_t l4;
    l3 = sphere__direction__parallel(l1, l2);
    if (l3) {
        l4 = sphere__orientation__dot(l1, l2);
        l0 = (signed64(UINT64_C(0)) < signed64(l4));
        return l0;
    }
    l0 = false;
    return l0;
}

static INLINE bool polygon__checks__fn__same_check__first_below(type_polygon__checks__fn__same_check__first_below_Self_of_slice_u32 *l1, uint64_t l2)
{
    bool l0;
    slice_uint32_t l3;
    type_sphere__point__Point l5;
    type_sphere__point__Point l6;
    l3 = (*l1).f0;
    l5 = polygon__vertices__vertex_at(l3, l2);
    l6 = polygon__vertices__end_of(l3, l2);
    l0 = sphere__direction__same_direction(l5, l6);
    return l0;
}

static INLINE bool polygon__checks__fn__same_check__first_below_Fn__call(type_polygon__checks__fn__same_check__first_below_Self_of_slice_u32 *l1, uint64_t l2)
{
    bool l0;
    l0 = polygon__checks__fn__same_check__first_below(l1, l2);
    return l0;
}

static INLINE type_core__option__Option_of_u64 answer__first_below_of_same_check_first_below_slice_u32(uint64_t l1, type_polygon__checks__fn__same_check__first_below_Self_of_slice_u32 l2)
{
    type_core__option__Option_of_u64 l0;
    type_polygon__checks__fn__same_check__first_below_Self_of_slice_u32 l3;
    uint64_t l4;
    bool l5;
    bool l6;
    type_polygon__checks__fn__same_check__first_below_Self_of_slice_u32 *l7;
    l3 = l2;
    l4 = UINT64_C(0);
    for (;;) {
        l5 = (l4 < l1);
        if (l5) {
        } else {
            goto exit0;
        }
        l7 = (type_polygon__checks__fn__same_check__first_below_Self_of_slice_u32 *)(void *)&l3;
        l6 = polygon__checks__fn__same_check__first_below_Fn__call(l7, l4);
        if (l6) {
            l0 = (type_core__option__Option_of_u64){.tag = 1, .s0 = l4};
            return l0;
        }
        l4 = (l4 + UINT64_C(1));
    }
exit0:;
    l0 = (type_core__option__Option_of_u64){.tag = 0};
    return l0;
}

static INLINE type_core__result__Result_of_unit_Refusal polygon__checks__same_check(slice_uint32_t l1)
{
    type_core__result__Result_of_unit_Refusal l0;
    type_core__option__Option_of_u64 l2;
    uint64_t l3;
    uint64_t l4;
    uint32_t *l5;
    slice_uint32_t l6;
    type_polygon__checks__fn__same_check__first_below_Self_of_slice_u32 l7;
    type_answer__Reason l8;
    l3 = l1.f1;
    l4 = (l3 / UINT64_C(3));
    l5 = (uint32_t *)(void *)&(*l1.f0);
    l6 = (slice_uint32_t){.f0 = l5, .f1 = l1.f1};
    l7 = (type_polygon__checks__fn__same_check__first_below_Self_of_slice_u32){.f0 = l6};
    l2 = answer__first_below_of_same_check_first_below_slice_u32(l4, l7);
    l8 = (type_answer__Reason){.tag = 3};
    l0 = answer__fails_at(l8, l2);
    return l0;
}

static INLINE bool sphere__direction__antipodal(type_sphere__point__Point l1, type_sphere__point__Point l2)
{
    bool l0;
    bool l3;
    uint64_t l4;
    l3 = sphere__direction__parallel(l1, l2);
    if (l3) {
        l4 = sphere__orientation__dot(l1, l2);
        l0 = (signed64(l4) < signed64(UINT64_C(0)));
        return l0;
    }
    l0 = false;
    return l0;
}

static INLINE bool polygon__checks__fn__antipodal_check__first_below(type_polygon__checks__fn__antipodal_check__first_below_Self_of_slice_u32 *l1, uint64_t l2)
{
    bool l0;
    slice_uint32_t l3;
    type_sphere__point__Point l5;
    type_sphere__point__Point l6;
    l3 = (*l1).f0;
    l5 = polygon__vertices__vertex_at(l3, l2);
    l6 = polygon__vertices__end_of(l3, l2);
    l0 = sphere__direction__antipodal(l5, l6);
    return l0;
}

static INLINE bool polygon__checks__fn__antipodal_check__first_below_Fn__call(type_polygon__checks__fn__antipodal_check__first_below_Self_of_slice_u32 *l1, uint64_t l2)
{
    bool l0;
    l0 = polygon__checks__fn__antipodal_check__first_below(l1, l2);
    return l0;
}

static INLINE type_core__option__Option_of_u64 answer__first_below_of_antipodal_check_first_below_slice_u32(uint64_t l1, type_polygon__checks__fn__antipodal_check__first_below_Self_of_slice_u32 l2)
{
    type_core__option__Option_of_u64 l0;
    type_polygon__checks__fn__antipodal_check__first_below_Self_of_slice_u32 l3;
    uint64_t l4;
    bool l5;
    bool l6;
    type_polygon__checks__fn__antipodal_check__first_below_Self_of_slice_u32 *l7;
    l3 = l2;
    l4 = UINT64_C(0);
    for (;;) {
        l5 = (l4 < l1);
        if (l5) {
        } else {
            goto exit0;
        }
        l7 = (type_polygon__checks__fn__antipodal_check__first_below_Self_of_slice_u32 *)(void *)&l3;
        l6 = polygon__checks__fn__antipodal_check__first_below_Fn__call(l7, l4);
        if (l6) {
            l0 = (type_core__option__Option_of_u64){.tag = 1, .s0 = l4};
            return l0;
        }
        l4 = (l4 + UINT64_C(1));
    }
exit0:;
    l0 = (type_core__option__Option_of_u64){.tag = 0};
    return l0;
}

static INLINE type_core__result__Result_of_unit_Refusal polygon__checks__antipodal_check(slice_uint32_t l1)
{
    type_core__result__Result_of_unit_Refusal l0;
    type_core__option__Option_of_u64 l2;
    uint64_t l3;
    uint64_t l4;
    uint32_t *l5;
    slice_uint32_t l6;
    type_polygon__checks__fn__antipodal_check__first_below_Self_of_slice_u32 l7;
    type_answer__Reason l8;
    l3 = l1.f1;
    l4 = (l3 / UINT64_C(3));
    l5 = (uint32_t *)(void *)&(*l1.f0);
    l6 = (slice_uint32_t){.f0 = l5, .f1 = l1.f1};
    l7 = (type_polygon__checks__fn__antipodal_check__first_below_Self_of_slice_u32){.f0 = l6};
    l2 = answer__first_below_of_antipodal_check_first_below_slice_u32(l4, l7);
    l8 = (type_answer__Reason){.tag = 4};
    l0 = answer__fails_at(l8, l2);
    return l0;
}

static type_core__result__Result_of_unit_Refusal polygon__checks__polygon_check(type_sphere__point__Grid l1, slice_uint32_t l2)
{
    type_core__result__Result_of_unit_Refusal l0;
    type_core__result__ErrResidual_of_Refusal l4;
    type_core__result__ErrResidual_of_Refusal l6;
    type_core__result__ErrResidual_of_Refusal l8;
    type_core__result__ErrResidual_of_Refusal l10;
    type_core__ops__ControlFlow_of_ErrResidual_Refusal_unit l11;
    type_core__result__Result_of_unit_Refusal l12;
    type_core__ops__ControlFlow_of_ErrResidual_Refusal_unit l13;
    type_core__ops__ControlFlow_of_ErrResidual_Refusal_unit l14;
    type_core__ops__ControlFlow_of_ErrResidual_Refusal_unit l15;
    l12 = polygon__checks__list_check(l2);
    l11 = core__result__ResultTry__branch_of_unit_Refusal(l12);
    switch (l11.tag) {
    case 0: {
        break;
    }
    case 1: default: {
        l4 = l11.s0;
        l0 = core__result__ResultFromResidualErrResidual__from_residual_of_unit_Refusal_Refusal(l4);
        return l0;
        break;
    }
    }
    l12 = polygon__checks__beyond_check(l1, l2);
    l13 = core__result__ResultTry__branch_of_unit_Refusal(l12);
    switch (l13.tag) {
    case 0: {
        break;
    }
    case 1: default: {
        l6 = l13.s0;
        l0 = core__result__ResultFromResidualErrResidual__from_residual_of_unit_Refusal_Refusal(l6);
        return l0;
        break;
    }
    }
    l12 = polygon__checks__null_check(l2);
    l14 = core__result__ResultTry__branch_of_unit_Refusal(l12);
    switch (l14.tag) {
    case 0: {
        break;
    }
    case 1: default: {
        l8 = l14.s0;
        l0 = core__result__ResultFromResidualErrResidual__from_residual_of_unit_Refusal_Refusal(l8);
        return l0;
        break;
    }
    }
    l12 = polygon__checks__same_check(l2);
    l15 = core__result__ResultTry__branch_of_unit_Refusal(l12);
    switch (l15.tag) {
    case 0: {
        break;
    }
    case 1: default: {
        l10 = l15.s0;
        l0 = core__result__ResultFromResidualErrResidual__from_residual_of_unit_Refusal_Refusal(l10);
        return l0;
        break;
    }
    }
    l0 = polygon__checks__antipodal_check(l2);
    return l0;
}

static INLINE bool polygon__checks__fn__first_circle__first_below(type_polygon__checks__fn__first_circle__first_below_Self_of_ref_Grid_slice_u32_ref_Point *l1, uint64_t l2)
{
    bool l0;
    type_sphere__point__Grid *l3;
    slice_uint32_t l4;
    type_sphere__point__Point *l5;
    type_sphere__point__Grid l7;
    type_sphere__point__Point l8;
    l3 = (*l1).f0;
    l4 = (*l1).f1;
    l5 = (*l1).f2;
    l7 = (*l3);
    l8 = (*l5);
    l0 = polygon__quick__is_on_circle(l7, l4, l2, l8);
    return l0;
}

static INLINE bool polygon__checks__fn__first_circle__first_below_Fn__call(type_polygon__checks__fn__first_circle__first_below_Self_of_ref_Grid_slice_u32_ref_Point *l1, uint64_t l2)
{
    bool l0;
    l0 = polygon__checks__fn__first_circle__first_below(l1, l2);
    return l0;
}

static INLINE type_core__option__Option_of_u64 answer__first_below_of_first_circle_first_below_ref_Grid_slice_u32_ref_Point(uint64_t l1, type_polygon__checks__fn__first_circle__first_below_Self_of_ref_Grid_slice_u32_ref_Point l2)
{
    type_core__option__Option_of_u64 l0;
    type_polygon__checks__fn__first_circle__first_below_Self_of_ref_Grid_slice_u32_ref_Point l3;
    uint64_t l4;
    bool l5;
    bool l6;
    type_polygon__checks__fn__first_circle__first_below_Self_of_ref_Grid_slice_u32_ref_Point *l7;
    l3 = l2;
    l4 = UINT64_C(0);
    for (;;) {
        l5 = (l4 < l1);
        if (l5) {
        } else {
            goto exit0;
        }
        l7 = (type_polygon__checks__fn__first_circle__first_below_Self_of_ref_Grid_slice_u32_ref_Point *)(void *)&l3;
        l6 = polygon__checks__fn__first_circle__first_below_Fn__call(l7, l4);
        if (l6) {
            l0 = (type_core__option__Option_of_u64){.tag = 1, .s0 = l4};
            return l0;
        }
        l4 = (l4 + UINT64_C(1));
    }
exit0:;
    l0 = (type_core__option__Option_of_u64){.tag = 0};
    return l0;
}

static INLINE type_core__option__Option_of_u64 polygon__checks__first_circle(type_sphere__point__Grid l1, slice_uint32_t l2, type_sphere__point__Point l3)
{
    type_core__option__Option_of_u64 l0;
    type_sphere__point__Grid l4;
    type_sphere__point__Point l5;
    uint64_t l6;
    uint64_t l7;
    type_sphere__point__Grid *l8;
    uint32_t *l9;
    slice_uint32_t l10;
    type_sphere__point__Point *l11;
    type_polygon__checks__fn__first_circle__first_below_Self_of_ref_Grid_slice_u32_ref_Point l12;
    l4 = l1;
    l5 = l3;
    l6 = l2.f1;
    l7 = (l6 / UINT64_C(3));
    l8 = (type_sphere__point__Grid *)(void *)&l4;
    l9 = (uint32_t *)(void *)&(*l2.f0);
    l10 = (slice_uint32_t){.f0 = l9, .f1 = l2.f1};
    l11 = (type_sphere__point__Point *)(void *)&l5;
    l12 = (type_polygon__checks__fn__first_circle__first_below_Self_of_ref_Grid_slice_u32_ref_Point){.f0 = l8, .f1 = l10, .f2 = l11};
    l0 = answer__first_below_of_first_circle_first_below_ref_Grid_slice_u32_ref_Point(l7, l12);
    return l0;
}

static type_core__result__Result_of_unit_Refusal polygon__checks__circle_check(type_sphere__point__Grid l1, slice_uint32_t l2, type_sphere__point__Point l3)
{
    type_core__result__Result_of_unit_Refusal l0;
    type_answer__Reason l5;
    type_core__option__Option_of_u64 l6;
    type_sphere__point__Grid l7;
    type_answer__Reason l8;
    type_core__option__Option_of_u64 l9;
    type_sphere__point__Grid l10;
    switch (l1.tag) {
    case 0: {
        l5 = (type_answer__Reason){.tag = 6};
        l7 = (type_sphere__point__Grid){.tag = 0};
        l6 = polygon__checks__first_circle(l7, l2, l3);
        l0 = answer__fails_at(l5, l6);
        break;
    }
    case 1: default: {
        l8 = (type_answer__Reason){.tag = 6};
        l10 = (type_sphere__point__Grid){.tag = 1};
        l9 = polygon__checks__first_circle(l10, l2, l3);
        l0 = answer__fails_at(l8, l9);
        break;
    }
    }
    return l0;
}

static INLINE type_core__result__Result_of_unit_Refusal polygon__checks__accept_check(type_sphere__point__Grid l1, slice_uint32_t l2, type_sphere__point__Point l3)
{
    type_core__result__Result_of_unit_Refusal l0;
    type_core__result__ErrResidual_of_Refusal l5;
    type_core__result__ErrResidual_of_Refusal l7;
    bool l8;
    type_core__ops__ControlFlow_of_ErrResidual_Refusal_unit l9;
    type_core__result__Result_of_unit_Refusal l10;
    type_core__ops__ControlFlow_of_ErrResidual_Refusal_unit l11;
    l8 = polygon__checks__is_accepted(l1, l2, l3);
    if (l8) {
        l0 = (type_core__result__Result_of_unit_Refusal){.tag = 0};
        return l0;
    }
    l10 = polygon__checks__polygon_check(l1, l2);
    l9 = core__result__ResultTry__branch_of_unit_Refusal(l10);
    switch (l9.tag) {
    case 0: {
        break;
    }
    case 1: default: {
        l5 = l9.s0;
        l0 = core__result__ResultFromResidualErrResidual__from_residual_of_unit_Refusal_Refusal(l5);
        return l0;
        break;
    }
    }
    l10 = polygon__checks__reference_check(l1, l3);
    l11 = core__result__ResultTry__branch_of_unit_Refusal(l10);
    switch (l11.tag) {
    case 0: {
        break;
    }
    case 1: default: {
        l7 = l11.s0;
        l0 = core__result__ResultFromResidualErrResidual__from_residual_of_unit_Refusal_Refusal(l7);
        return l0;
        break;
    }
    }
    l0 = polygon__checks__circle_check(l1, l2, l3);
    return l0;
}

static INLINE uint64_t search__boxes__run_count(uint64_t l1)
{
    uint64_t l0;
    uint64_t l2;
    l2 = (l1 + UINT64_C(31));
    l0 = (l2 / UINT64_C(32));
    return l0;
}

static INLINE uint64_t search__boxes__run_end(uint64_t l1, uint64_t l2)
{
    uint64_t l0;
    uint64_t l3;
    uint64_t l4;
    bool l5;
    l4 = (l2 << 5);
    l3 = (l4 + UINT64_C(32));
    l5 = (l3 < l1);
    if (l5) {
        l0 = l3;
        return l0;
    }
    l0 = l1;
    return l0;
}

static INLINE uint64_t core__int__i64__min(uint64_t l1, uint64_t l2)
{
    uint64_t l0;
    bool l3;
    l3 = (signed64(l2) < signed64(l1));
    if (l3) {
        l0 = l2;
    } else {
        l0 = l1;
    }
    return l0;
}

static INLINE type_sphere__point__Point search__boxes__least(type_sphere__point__Point l1, type_sphere__point__Point l2)
{
    type_sphere__point__Point l0;
    uint64_t l3;
    uint64_t l4;
    uint64_t l5;
    l3 = core__int__i64__min(l1.f0, l2.f0);
    l4 = core__int__i64__min(l1.f1, l2.f1);
    l5 = core__int__i64__min(l1.f2, l2.f2);
    l0 = (type_sphere__point__Point){.f0 = l3, .f1 = l4, .f2 = l5};
    return l0;
}

static INLINE uint64_t core__int__i64__max(uint64_t l1, uint64_t l2)
{
    uint64_t l0;
    bool l3;
    l3 = (signed64(l2) < signed64(l1));
    if (l3) {
        l0 = l1;
    } else {
        l0 = l2;
    }
    return l0;
}

static INLINE type_sphere__point__Point search__boxes__greatest(type_sphere__point__Point l1, type_sphere__point__Point l2)
{
    type_sphere__point__Point l0;
    uint64_t l3;
    uint64_t l4;
    uint64_t l5;
    l3 = core__int__i64__max(l1.f0, l2.f0);
    l4 = core__int__i64__max(l1.f1, l2.f1);
    l5 = core__int__i64__max(l1.f2, l2.f2);
    l0 = (type_sphere__point__Point){.f0 = l3, .f1 = l4, .f2 = l5};
    return l0;
}

static INLINE type_search__boxes__Bounds search__boxes__run_box(slice_uint32_t l1, uint64_t l2)
{
    type_search__boxes__Bounds l0;
    uint64_t l3;
    type_sphere__point__Point l4;
    type_sphere__point__Point l5;
    uint64_t l6;
    type_sphere__point__Point l7;
    type_sphere__point__Point l8;
    uint64_t l9;
    uint64_t l10;
    uint64_t l11;
    bool l12;
    uint64_t l13;
    type_sphere__point__Point l14;
    type_sphere__point__Point l15;
    l10 = l1.f1;
    l11 = (l10 / UINT64_C(3));
    l9 = search__boxes__run_end(l11, l2);
    l3 = (l9 - UINT64_C(1));
    l9 = (l2 << 5);
    l4 = polygon__vertices__vertex_at(l1, l9);
    l5 = l4;
    l6 = (l2 << 5);
    for (;;) {
        l12 = (l6 < l3);
        if (l12) {
        } else {
            goto exit0;
        }
        l13 = (l6 + UINT64_C(1));
        l7 = polygon__vertices__vertex_at(l1, l13);
        l4 = search__boxes__least(l4, l7);
        l5 = search__boxes__greatest(l5, l7);
        l6 = (l6 + UINT64_C(1));
    }
exit0:;
    l8 = polygon__vertices__end_of(l1, l3);
    l14 = search__boxes__least(l4, l8);
    l15 = search__boxes__greatest(l5, l8);
    l0 = (type_search__boxes__Bounds){.f0 = l14, .f1 = l15};
    return l0;
}

static INLINE void search__boxes__put_number(slice_uint32_t l1, uint64_t l2, uint64_t l3)
{
    uint32_t l4;
    uint64_t l5;
    unsigned char *l6;
    l4 = (uint32_t)l3;
    l5 = (l2 << 2);
    l6 = ((unsigned char *)(void *)l1.f0 + (size_t)l5);
    (*(uint32_t *)(void *)l6) = l4;
    return;
}

static INLINE void search__boxes__put_corner(slice_uint32_t l1, uint64_t l2, type_sphere__point__Point l3)
{
    uint32_t *l5;
    slice_uint32_t l6;
    uint32_t *l7;
    slice_uint32_t l8;
    uint64_t l9;
    uint32_t *l10;
    slice_uint32_t l11;
    l5 = (uint32_t *)(void *)&(*l1.f0);
    l6 = (slice_uint32_t){.f0 = l5, .f1 = l1.f1};
    search__boxes__put_number(l6, l2, l3.f0);
    l7 = (uint32_t *)(void *)&(*l1.f0);
    l8 = (slice_uint32_t){.f0 = l7, .f1 = l1.f1};
    l9 = (l2 + UINT64_C(1));
    search__boxes__put_number(l8, l9, l3.f1);
    l10 = (uint32_t *)(void *)&(*l1.f0);
    l11 = (slice_uint32_t){.f0 = l10, .f1 = l1.f1};
    l9 = (l2 + UINT64_C(2));
    search__boxes__put_number(l11, l9, l3.f2);
    return;
}

static INLINE void search__boxes__put_box(slice_uint32_t l1, slice_uint32_t l2, uint64_t l3)
{
    type_search__boxes__Bounds l4;
    uint32_t *l6;
    slice_uint32_t l7;
    uint64_t l8;
    type_sphere__point__Point l9;
    uint32_t *l10;
    slice_uint32_t l11;
    uint64_t l12;
    type_sphere__point__Point l13;
    l4 = search__boxes__run_box(l1, l3);
    l6 = (uint32_t *)(void *)&(*l2.f0);
    l7 = (slice_uint32_t){.f0 = l6, .f1 = l2.f1};
    l8 = (l3 * UINT64_C(6));
    l9 = l4.f0;
    search__boxes__put_corner(l7, l8, l9);
    l10 = (uint32_t *)(void *)&(*l2.f0);
    l11 = (slice_uint32_t){.f0 = l10, .f1 = l2.f1};
    l8 = (l3 * UINT64_C(6));
    l12 = (l8 + UINT64_C(3));
    l13 = l4.f1;
    search__boxes__put_corner(l11, l12, l13);
    return;
}

static INLINE void search__boxes__fill(slice_uint32_t l1, slice_uint32_t l2)
{
    uint64_t l3;
    uint64_t l4;
    uint64_t l5;
    uint64_t l6;
    bool l7;
    uint32_t *l9;
    slice_uint32_t l10;
    l5 = l1.f1;
    l6 = (l5 / UINT64_C(3));
    l3 = search__boxes__run_count(l6);
    l4 = UINT64_C(0);
    for (;;) {
        l7 = (l4 < l3);
        if (l7) {
        } else {
            goto exit0;
        }
        l9 = (uint32_t *)(void *)&(*l2.f0);
        l10 = (slice_uint32_t){.f0 = l9, .f1 = l2.f1};
        search__boxes__put_box(l1, l10, l4);
        l4 = (l4 + UINT64_C(1));
    }
exit0:;
    return;
}

static type_core__result__Result_of_unit_Refusal judging__accept__accept_boxed(type_sphere__point__Grid l1, slice_uint32_t l2, slice_uint32_t l3, type_sphere__point__Point l4)
{
    type_core__result__Result_of_unit_Refusal l0;
    type_core__result__ErrResidual_of_Refusal l6;
    type_core__ops__ControlFlow_of_ErrResidual_Refusal_unit l7;
    type_core__result__Result_of_unit_Refusal l8;
    uint32_t *l10;
    slice_uint32_t l11;
    l8 = polygon__checks__accept_check(l1, l2, l4);
    l7 = core__result__ResultTry__branch_of_unit_Refusal(l8);
    switch (l7.tag) {
    case 0: {
        break;
    }
    case 1: default: {
        l6 = l7.s0;
        l0 = core__result__ResultFromResidualErrResidual__from_residual_of_unit_Refusal_Refusal(l6);
        return l0;
        break;
    }
    }
    l10 = (uint32_t *)(void *)&(*l3.f0);
    l11 = (slice_uint32_t){.f0 = l10, .f1 = l3.f1};
    search__boxes__fill(l2, l11);
    l0 = (type_core__result__Result_of_unit_Refusal){.tag = 0};
    return l0;
}

static INLINE type_core__result__Result_of_Opened_Refusal sheet__open__plain_into(slice_uint8_t l1, slice_uint32_t l2, slice_uint32_t l3)
{
    type_core__result__Result_of_Opened_Refusal l0;
    type_fields__Parts l4;
    type_fields__Parts l5;
    type_core__result__ErrResidual_of_Refusal l6;
    type_sheet__open__Opened l7;
    uint64_t l8;
    type_core__result__ErrResidual_of_Refusal l10;
    type_core__ops__ControlFlow_of_ErrResidual_Refusal_Parts l11;
    type_core__result__Result_of_Parts_Refusal l12;
    type_fields__Parts l13;
    uint32_t *l15;
    slice_uint32_t l16;
    type_core__ops__ControlFlow_of_ErrResidual_Refusal_unit l17;
    type_core__result__Result_of_unit_Refusal l18;
    type_sphere__point__Grid l19;
    uint32_t *l20;
    slice_uint32_t l21;
    uint32_t *l22;
    slice_uint32_t l23;
    type_sphere__point__Point l24;
    l12 = fields__fields_check(l1);
    l11 = core__result__ResultTry__branch_of_Parts_Refusal(l12);
    switch (l11.tag) {
    case 0: {
        l5 = l11.s0;
        l13 = l5;
        break;
    }
    case 1: default: {
        l6 = l11.s1;
        l0 = core__result__ResultFromResidualErrResidual__from_residual_of_Opened_Refusal_Refusal(l6);
        return l0;
        break;
    }
    }
    l4 = l13;
    l7 = sheet__open__points(l1, l4);
    l15 = (uint32_t *)(void *)&(*l2.f0);
    l16 = (slice_uint32_t){.f0 = l15, .f1 = l2.f1};
    sheet__open__decode_vertices(l1, l7.f5, l7.f4, l16);
    l8 = (l7.f4 * UINT64_C(3));
    l19 = l7.f0;
    l20 = (uint32_t *)(void *)&(*l2.f0);
    l21 = (slice_uint32_t){.f0 = l20, .f1 = l8};
    l22 = (uint32_t *)(void *)&(*l3.f0);
    l23 = (slice_uint32_t){.f0 = l22, .f1 = l3.f1};
    l24 = l7.f1;
    l18 = judging__accept__accept_boxed(l19, l21, l23, l24);
    l17 = core__result__ResultTry__branch_of_unit_Refusal(l18);
    switch (l17.tag) {
    case 0: {
        break;
    }
    case 1: default: {
        l10 = l17.s0;
        l0 = core__result__ResultFromResidualErrResidual__from_residual_of_Opened_Refusal_Refusal(l10);
        return l0;
        break;
    }
    }
    l0 = (type_core__result__Result_of_Opened_Refusal){.tag = 0, .s0 = l7};
    return l0;
}

static INLINE type_core__ops__ControlFlow_of_ErrResidual_Refusal_Opened core__result__ResultTry__branch_of_Opened_Refusal(type_core__result__Result_of_Opened_Refusal l1)
{
    type_core__ops__ControlFlow_of_ErrResidual_Refusal_Opened l0;
    type_sheet__open__Opened l2;
    type_answer__Refusal l3;
    type_sheet__open__Opened l5;
    type_answer__Refusal l6;
    type_core__result__ErrResidual_of_Refusal l7;
    switch (l1.tag) {
    case 0: {
        l2 = l1.s0;
        l5 = l2;
        l0 = (type_core__ops__ControlFlow_of_ErrResidual_Refusal_Opened){.tag = 0, .s0 = l5};
        break;
    }
    case 1: default: {
        l3 = l1.s1;
        l6 = l3;
        l7 = (type_core__result__ErrResidual_of_Refusal){.f0 = l6};
        l0 = (type_core__ops__ControlFlow_of_ErrResidual_Refusal_Opened){.tag = 1, .s1 = l7};
        break;
    }
    }
    return l0;
}

static INLINE type_core__result__Result_of_unit_Refusal polygon__checks__query_check(type_sphere__point__Grid l1, type_sphere__point__Point l2)
{
    type_core__result__Result_of_unit_Refusal l0;
    type_answer__Reason l3;
    bool l4;
    l3 = (type_answer__Reason){.tag = 7};
    l4 = sphere__point__is_off_grid(l1, l2);
    l0 = answer__fails_if(l3, l4);
    return l0;
}

static INLINE type_judging__judge__Judgement judging__judge__unjudged(type_answer__Refusal l1)
{
    type_judging__judge__Judgement l0;
    type_core__result__Result_of_Verdict_Refusal l2;
    l2 = (type_core__result__Result_of_Verdict_Refusal){.tag = 1, .s1 = l1};
    l0 = (type_judging__judge__Judgement){.f0 = l2, .f1 = UINT32_C(0)};
    return l0;
}

static INLINE type_sphere__point__Point judging__judge__judge_from(type_sphere__point__Point l1, type_sphere__point__Point l2, type_sphere__point__Point l3)
{
    type_sphere__point__Point l0;
    bool l5;
    bool l6;
    bool l7;
    l6 = sphere__point__is_null(l2);
    l5 = !l6;
    if (l5) {
        l5 = sphere__direction__antipodal(l1, l3);
        l7 = l5;
        if (l7) {
            l0 = l2;
            goto exit0;
        }
    }
    l0 = l1;
exit0:;
    return l0;
}

static INLINE type_core__result__Result_of_unit_Refusal polygon__checks__far_check(type_sphere__point__Point l1, type_sphere__point__Point l2)
{
    type_core__result__Result_of_unit_Refusal l0;
    type_answer__Reason l3;
    bool l4;
    l3 = (type_answer__Reason){.tag = 8};
    l4 = sphere__direction__antipodal(l1, l2);
    l0 = answer__fails_if(l3, l4);
    return l0;
}

static INLINE bool search__looked__is_counted(type_search__walk__Mode l1)
{
    bool l0;
    switch (l1.tag) {
    case 2: {
        l0 = true;
        break;
    }
    case 0: case 1: default: {
        l0 = false;
        break;
    }
    }
    return l0;
}

static INLINE type_search__arc__Arc search__arc__arc_between(type_sphere__point__Grid l1, type_sphere__point__Point l2, type_sphere__point__Point l3, bool l4)
{
    type_search__arc__Arc l0;
    type_sphere__plane__Plane l5;
    l5 = sphere__plane__plane_through(l1, l2, l3);
    l0 = (type_search__arc__Arc){.f0 = l2, .f1 = l3, .f2 = l5, .f3 = l4};
    return l0;
}

static INLINE uint64_t search__boxes__end_at(uint64_t l1, uint64_t l2, uint64_t l3)
{
    uint64_t l0;
    bool l4;
    l4 = (signed64(l1) < signed64(UINT64_C(0)));
    if (l4) {
        l0 = l3;
    } else {
        l0 = l2;
    }
    return l0;
}

static INLINE uint64_t search__boxes__end_for(slice_uint32_t l1, uint64_t l2, uint64_t l3, uint64_t l4, uint64_t l5)
{
    uint64_t l0;
    uint64_t l6;
    uint64_t l7;
    l6 = search__boxes__end_at(l2, l4, l5);
    l7 = (l3 + l6);
    l0 = polygon__vertices__number_at(l1, l7);
    return l0;
}

static INLINE type_sphere__point__Point search__boxes__corner(type_sphere__point__Point l1, slice_uint32_t l2, uint64_t l3, uint64_t l4, uint64_t l5)
{
    type_sphere__point__Point l0;
    uint64_t l6;
    uint64_t l7;
    uint64_t l8;
    uint64_t l9;
    uint64_t l10;
    l6 = search__boxes__end_for(l2, l1.f0, l3, l4, l5);
    l8 = (l3 + UINT64_C(1));
    l7 = search__boxes__end_for(l2, l1.f1, l8, l4, l5);
    l10 = (l3 + UINT64_C(2));
    l9 = search__boxes__end_for(l2, l1.f2, l10, l4, l5);
    l0 = (type_sphere__point__Point){.f0 = l6, .f1 = l7, .f2 = l9};
    return l0;
}

static INLINE uint64_t sphere__plane__exact_side_of(type_sphere__plane__Plane l1, type_sphere__point__Point l2)
{
    uint64_t l0;
    type_sphere__point__Grid l3;
    type_sphere__point__Point l5;
    type_sphere__words__Words l6;
    type_sphere__point__Point l7;
    l3 = l1.f2;
    switch (l3.tag) {
    case 0: {
        l5 = l1.f0;
        l0 = sphere__orientation__dot(l5, l2);
        break;
    }
    case 1: default: {
        l7 = l1.f0;
        l6 = sphere__words__word_dot(l7, l2);
        l0 = sphere__words__word_side(l6);
        break;
    }
    }
    return l0;
}

static INLINE bool search__boxes__is_apart(type_sphere__plane__Plane l1, slice_uint32_t l2, uint64_t l3)
{
    bool l0;
    type_sphere__point__Point l4;
    uint64_t l5;
    bool l6;
    uint64_t l7;
    type_sphere__point__Point l8;
    uint64_t l9;
    type_sphere__point__Point l10;
    l4 = l1.f0;
    l5 = (l3 * UINT64_C(6));
    l8 = search__boxes__corner(l4, l2, l5, UINT64_C(0), UINT64_C(3));
    l7 = sphere__plane__exact_side_of(l1, l8);
    l6 = (signed64(UINT64_C(0)) < signed64(l7));
    if (l6) {
    } else {
        l10 = search__boxes__corner(l4, l2, l5, UINT64_C(3), UINT64_C(0));
        l9 = sphere__plane__exact_side_of(l1, l10);
        l6 = (signed64(l9) < signed64(UINT64_C(0)));
    }
    l0 = l6;
    return l0;
}

static INLINE uint64_t core__int__usize__max(uint64_t l1, uint64_t l2)
{
    uint64_t l0;
    bool l3;
    l3 = (l2 < l1);
    if (l3) {
        l0 = l1;
    } else {
        l0 = l2;
    }
    return l0;
}

static INLINE uint64_t search__spans__next_run(slice_uint32_t l1, type_sphere__plane__Plane l2, uint64_t l3, uint64_t l4, bool l5)
{
    uint64_t l0;
    uint64_t l6;
    bool l7;
    bool l8;
    l6 = l3;
    for (;;) {
        l7 = (l6 < l4);
        if (l7) {
        } else {
            goto exit0;
        }
        l7 = search__boxes__is_apart(l2, l1, l6);
        l8 = (l7 == l5);
        if (l8) {
            l0 = l6;
            return l0;
        }
        l6 = (l6 + UINT64_C(1));
    }
exit0:;
    l0 = core__int__usize__max(l3, l4);
    return l0;
}

static INLINE uint64_t core__int__usize__min(uint64_t l1, uint64_t l2)
{
    uint64_t l0;
    bool l3;
    l3 = (l2 < l1);
    if (l3) {
        l0 = l2;
    } else {
        l0 = l1;
    }
    return l0;
}

static INLINE uint64_t search__spans__run_start(uint64_t l1, uint64_t l2)
{
    uint64_t l0;
    uint64_t l3;
    l3 = (l2 << 5);
    l0 = core__int__usize__min(l1, l3);
    return l0;
}

static type_search__spans__Span search__spans__next_span(slice_uint32_t l1, slice_uint32_t l2, type_search__arc__Arc l3, uint64_t l4)
{
    type_search__spans__Span l0;
    uint64_t l5;
    uint64_t l6;
    uint64_t l7;
    uint64_t l8;
    uint64_t l9;
    bool l10;
    type_sphere__plane__Plane l11;
    type_sphere__plane__Plane l12;
    uint64_t l13;
    uint64_t l14;
    uint64_t l15;
    uint64_t l16;
    l9 = l1.f1;
    l5 = (l9 / UINT64_C(3));
    l6 = search__boxes__run_count(l5);
    l10 = l3.f3;
    if (l10) {
        l11 = l3.f2;
        l7 = search__spans__next_run(l2, l11, l4, l6, false);
        l12 = l3.f2;
        l13 = (l7 + UINT64_C(1));
        l8 = search__spans__next_run(l2, l12, l13, l6, true);
        l13 = search__spans__run_start(l5, l7);
        l14 = search__spans__run_start(l5, l8);
        l15 = (l8 + UINT64_C(1));
        l0 = (type_search__spans__Span){.f0 = l13, .f1 = l14, .f2 = l15};
        return l0;
    }
    l9 = search__spans__run_start(l5, l4);
    l16 = (l6 + UINT64_C(1));
    l0 = (type_search__spans__Span){.f0 = l9, .f1 = l5, .f2 = l16};
    return l0;
}

static INLINE uint64_t search__scan__side_at(slice_uint32_t l1, type_sphere__plane__Plane l2, uint64_t l3, uint64_t l4)
{
    uint64_t l0;
    bool l5;
    type_sphere__point__Point l6;
    l5 = (l4 == UINT64_C(0));
    if (l5) {
        l0 = l3;
        return l0;
    }
    l6 = polygon__vertices__vertex_at(l1, l4);
    l0 = sphere__plane__side_of(l2, l6);
    return l0;
}

static INLINE uint64_t search__scan__last_inner(uint64_t l1, uint64_t l2)
{
    uint64_t l0;
    uint64_t l3;
    l3 = (l1 - UINT64_C(1));
    l0 = core__int__usize__min(l2, l3);
    return l0;
}

static INLINE bool sphere__approximate__is_surely(double l1, bool l2)
{
    bool l0;
    bool l3;
    double l4;
    l3 = l2;
    if (l3) {
        l0 = ((0x1.0000000000000p+29) < l1);
        return l0;
    }
    l4 = (-(0x1.0000000000000p+29));
    l0 = (l1 < l4);
    return l0;
}

static INLINE uint64_t search__scan__past_sure(slice_uint32_t l1, type_sphere__plane__Plane l2, bool l3, uint64_t l4, uint64_t l5)
{
    uint64_t l0;
    uint64_t l6;
    double l7;
    double l8;
    bool l9;
    uint64_t l10;
    bool l11;
    type_sphere__approximate__Vector l12;
    type_sphere__point__Point l13;
    type_sphere__approximate__Vector l14;
    bool l15;
    l6 = l4;
    for (;;) {
        l10 = (l6 + UINT64_C(1));
        l11 = (l10 < l5);
        if (l11) {
        } else {
            goto exit0;
        }
        l12 = l2.f1;
        l10 = (l6 + UINT64_C(1));
        l13 = polygon__vertices__vertex_at(l1, l10);
        l7 = sphere__approximate__float_dot(l12, l13);
        l14 = l2.f1;
        l10 = (l6 + UINT64_C(2));
        l13 = polygon__vertices__vertex_at(l1, l10);
        l8 = sphere__approximate__float_dot(l14, l13);
        l11 = sphere__approximate__is_surely(l7, l3);
        l15 = sphere__approximate__is_surely(l8, l3);
        l9 = (l11 & l15);
        l11 = !l9;
        if (l11) {
            l0 = l6;
            return l0;
        }
        l6 = (l6 + UINT64_C(2));
    }
exit0:;
    l0 = l6;
    return l0;
}

static INLINE uint64_t search__scan__skip_fine(slice_uint32_t l1, type_sphere__plane__Plane l2, uint64_t l3, uint64_t l4, uint64_t l5)
{
    uint64_t l0;
    bool l6;
    l6 = (signed64(UINT64_C(0)) < signed64(l4));
    if (l6) {
        l0 = search__scan__past_sure(l1, l2, true, l3, l5);
        return l0;
    }
    l6 = (signed64(l4) < signed64(UINT64_C(0)));
    if (l6) {
        l0 = search__scan__past_sure(l1, l2, false, l3, l5);
        return l0;
    }
    l0 = l3;
    return l0;
}

static INLINE uint64_t search__scan__skip(slice_uint32_t l1, type_sphere__plane__Plane l2, uint64_t l3, uint64_t l4, uint64_t l5)
{
    uint64_t l0;
    type_sphere__point__Grid l6;
    l6 = l2.f2;
    switch (l6.tag) {
    case 0: {
        l0 = l3;
        break;
    }
    case 1: default: {
        l0 = search__scan__skip_fine(l1, l2, l3, l4, l5);
        break;
    }
    }
    return l0;
}

static INLINE bool sphere__crossing__is_beside(uint64_t l1, uint64_t l2)
{
    bool l0;
    bool l3;
    l3 = (signed64(UINT64_C(0)) < signed64(l1));
    if (l3) {
        l0 = (signed64(UINT64_C(0)) < signed64(l2));
        return l0;
    }
    l3 = (signed64(l1) < signed64(UINT64_C(0)));
    if (l3) {
        l0 = (signed64(l2) < signed64(UINT64_C(0)));
        return l0;
    }
    l0 = false;
    return l0;
}

static type_search__scan__Near search__scan__next_near(slice_uint32_t l1, type_sphere__plane__Plane l2, uint64_t l3, uint64_t l4, uint64_t l5, uint64_t l6)
{
    type_search__scan__Near l0;
    uint64_t l7;
    uint64_t l8;
    uint64_t l9;
    uint64_t l10;
    bool l11;
    type_sphere__point__Point l12;
    uint64_t l13;
    bool l14;
    uint64_t l15;
    l7 = search__scan__skip(l1, l2, l4, l5, l6);
    l8 = l5;
    l9 = l7;
    for (;;) {
        l11 = (l9 < l6);
        if (l11) {
        } else {
            goto exit0;
        }
        l13 = (l9 + UINT64_C(1));
        l12 = polygon__vertices__vertex_at(l1, l13);
        l10 = sphere__plane__side_of(l2, l12);
        l11 = sphere__crossing__is_beside(l8, l10);
        l14 = !l11;
        if (l14) {
            l0 = (type_search__scan__Near){.f0 = l9, .f1 = l8, .f2 = l10};
            return l0;
        }
        l8 = l10;
        l9 = (l9 + UINT64_C(1));
    }
exit0:;
    l15 = core__int__usize__max(l7, l6);
    l0 = (type_search__scan__Near){.f0 = l15, .f1 = l8, .f2 = l3};
    return l0;
}

static INLINE type_search__scan__Near search__scan__near_from(slice_uint32_t l1, type_search__arc__Arc l2, uint64_t l3, uint64_t l4, uint64_t l5, uint64_t l6)
{
    type_search__scan__Near l0;
    uint64_t l7;
    uint64_t l8;
    uint64_t l9;
    type_sphere__plane__Plane l10;
    l8 = l1.f1;
    l9 = (l8 / UINT64_C(3));
    l7 = search__scan__last_inner(l9, l6);
    l10 = l2.f2;
    l0 = search__scan__next_near(l1, l10, l3, l4, l5, l7);
    return l0;
}

static INLINE bool sphere__edge__toward(uint64_t l1, uint64_t l2)
{
    bool l0;
    bool l3;
    l3 = (signed64(UINT64_C(0)) < signed64(l1));
    if (l3) {
        l0 = (signed64(UINT64_C(0)) <= signed64(l2));
        return l0;
    }
    l3 = (signed64(l1) < signed64(UINT64_C(0)));
    if (l3) {
        l0 = (signed64(l2) <= signed64(UINT64_C(0)));
        return l0;
    }
    l0 = true;
    return l0;
}

static INLINE bool sphere__edge__between(uint64_t l1, uint64_t l2, uint64_t l3)
{
    bool l0;
    bool l4;
    l4 = sphere__edge__toward(l1, l2);
    if (l4) {
        l0 = sphere__edge__toward(l1, l3);
        return l0;
    }
    l0 = false;
    return l0;
}

static INLINE bool sphere__edge__held_by(type_sphere__point__Point l1, type_sphere__point__Point l2, type_sphere__point__Point l3)
{
    bool l0;
    uint64_t l4;
    uint64_t l5;
    uint64_t l6;
    uint64_t l7;
    uint64_t l8;
    uint64_t l9;
    uint64_t l10;
    uint64_t l11;
    uint64_t l12;
    bool l13;
    l4 = l1.f0;
    l5 = l1.f1;
    l6 = l1.f2;
    l7 = l2.f0;
    l8 = l2.f1;
    l9 = l2.f2;
    l10 = l3.f0;
    l11 = l3.f1;
    l12 = l3.f2;
    l13 = (l4 != UINT64_C(0));
    if (l13) {
        l0 = sphere__edge__between(l4, l7, l10);
        return l0;
    }
    l13 = (l5 != UINT64_C(0));
    if (l13) {
        l0 = sphere__edge__between(l5, l8, l11);
        return l0;
    }
    l0 = sphere__edge__between(l6, l9, l12);
    return l0;
}

static INLINE bool sphere__edge__holds_level(type_sphere__point__Point l1, type_sphere__point__Point l2, type_sphere__point__Point l3)
{
    bool l0;
    type_sphere__point__Point l4;
    type_sphere__point__Point l5;
    type_sphere__point__Point l6;
    l4 = sphere__orientation__cross(l1, l2);
    l5 = sphere__orientation__cross(l1, l3);
    l6 = sphere__orientation__cross(l3, l2);
    l0 = sphere__edge__held_by(l4, l5, l6);
    return l0;
}

static INLINE bool sphere__edge__on_edge_by(type_sphere__point__Point l1, type_sphere__point__Point l2, type_sphere__point__Point l3, uint64_t l4)
{
    bool l0;
    bool l5;
    l5 = (l4 != UINT64_C(0));
    if (l5) {
        l0 = false;
        return l0;
    }
    l0 = sphere__edge__holds_level(l1, l2, l3);
    return l0;
}

static INLINE bool search__border__stops_at(slice_uint32_t l1, type_search__arc__Arc l2, bool l3, uint64_t l4, uint64_t l5)
{
    bool l0;
    bool l6;
    type_sphere__point__Point l7;
    type_sphere__point__Point l8;
    type_sphere__point__Point l9;
    l7 = polygon__vertices__vertex_at(l1, l4);
    l8 = polygon__vertices__end_of(l1, l4);
    l9 = l2.f1;
    l6 = sphere__edge__on_edge_by(l7, l8, l9, l5);
    if (l6) {
        l6 = l3;
    }
    l0 = l6;
    return l0;
}

static INLINE bool sphere__crossing__changes_side(uint64_t l1, uint64_t l2)
{
    bool l0;
    bool l3;
    l3 = (signed64(l1) < signed64(UINT64_C(0)));
    if (l3) {
        l0 = (signed64(UINT64_C(0)) <= signed64(l2));
        return l0;
    }
    l0 = (signed64(l2) < signed64(UINT64_C(0)));
    return l0;
}

static INLINE uint32_t sphere__crossing__crossing_by(uint64_t l1, uint64_t l2, uint64_t l3, uint64_t l4)
{
    uint32_t l0;
    bool l5;
    bool l6;
    bool l7;
    bool l8;
    bool l9;
    l5 = (signed64(l1) < signed64(UINT64_C(0)));
    if (l5) {
        l6 = (signed64(l2) < signed64(UINT64_C(0)));
        if (l6) {
            l0 = UINT32_C(0);
            return l0;
        }
        l6 = (signed64(UINT64_C(0)) < signed64(l3));
        if (l6) {
            l7 = (signed64(l4) < signed64(UINT64_C(0)));
            if (l7) {
                l0 = UINT32_C(4294967295);
                return l0;
            }
        }
        l0 = UINT32_C(0);
        return l0;
    }
    l5 = (signed64(l2) < signed64(UINT64_C(0)));
    if (l5) {
        l8 = (signed64(l3) < signed64(UINT64_C(0)));
        if (l8) {
            l9 = (signed64(UINT64_C(0)) < signed64(l4));
            if (l9) {
                l0 = UINT32_C(1);
                return l0;
            }
        }
    }
    l0 = UINT32_C(0);
    return l0;
}

static INLINE uint32_t sphere__crossing__crossing_from(type_sphere__plane__Plane l1, type_sphere__point__Point l2, uint64_t l3, uint64_t l4, uint64_t l5)
{
    uint32_t l0;
    bool l6;
    uint64_t l7;
    l6 = sphere__crossing__changes_side(l3, l4);
    if (l6) {
        l7 = sphere__plane__side_of(l1, l2);
        l0 = sphere__crossing__crossing_by(l3, l4, l7, l5);
        return l0;
    }
    l0 = UINT32_C(0);
    return l0;
}

static type_search__walk__EdgeTest search__walk__test_edge(slice_uint32_t l1, type_search__arc__Arc l2, bool l3, type_search__scan__Near l4)
{
    type_search__walk__EdgeTest l0;
    uint64_t l5;
    type_sphere__plane__Plane l6;
    type_sphere__point__Grid l7;
    type_sphere__plane__Plane l8;
    uint64_t l9;
    bool l10;
    type_sphere__point__Point l11;
    type_sphere__point__Point l12;
    type_sphere__point__Point l13;
    bool l14;
    uint32_t l15;
    type_sphere__point__Point l16;
    l10 = sphere__crossing__is_beside(l4.f1, l4.f2);
    if (l10) {
        l0 = (type_search__walk__EdgeTest){.tag = 1, .s0 = UINT32_C(0)};
        return l0;
    }
    l5 = l4.f0;
    l6 = l2.f2;
    l7 = l6.f2;
    l11 = polygon__vertices__vertex_at(l1, l5);
    l12 = polygon__vertices__end_of(l1, l5);
    l8 = sphere__plane__plane_through(l7, l11, l12);
    l13 = l2.f1;
    l9 = sphere__plane__side_of(l8, l13);
    l14 = search__border__stops_at(l1, l2, l3, l5, l9);
    if (l14) {
        l0 = (type_search__walk__EdgeTest){.tag = 0};
        return l0;
    }
    l16 = l2.f0;
    l15 = sphere__crossing__crossing_from(l8, l16, l4.f1, l4.f2, l9);
    l0 = (type_search__walk__EdgeTest){.tag = 1, .s0 = l15};
    return l0;
}

static INLINE uint32_t core__convert__others__U32FromBool__from(bool l1)
{
    uint32_t l0;
    l0 = (uint32_t)l1;
    return l0;
}

static INLINE uint32_t search__walk__counted(uint32_t l1)
{
    uint32_t l0;
    bool l2;
    l2 = (l1 != UINT32_C(0));
    l0 = core__convert__others__U32FromBool__from(l2);
    return l0;
}

static INLINE type_search__walk__Tally search__walk__tally_by(type_core__option__Option_of_u64 l1, uint32_t l2, uint32_t l3)
{
    type_search__walk__Tally l0;
    uint64_t l4;
    switch (l1.tag) {
    case 0: {
        l0 = (type_search__walk__Tally){.tag = 1, .s1 = l2, .s2 = l3};
        break;
    }
    case 1: default: {
        l4 = l1.s0;
        l0 = (type_search__walk__Tally){.tag = 0, .s0 = l4};
        break;
    }
    }
    return l0;
}

static INLINE type_search__walk__Tally search__walk__walk_edges(slice_uint32_t l1, type_search__arc__Arc l2, uint64_t l3, uint64_t l4, uint64_t l5, bool l6)
{
    type_search__walk__Tally l0;
    uint64_t l7;
    uint64_t l8;
    uint32_t l9;
    uint32_t l10;
    type_core__option__Option_of_u64 l11;
    type_search__scan__Near l12;
    uint32_t l13;
    uint32_t l14;
    type_sphere__plane__Plane l15;
    type_core__option__Option_of_u64 l16;
    bool l17;
    type_search__walk__EdgeTest l18;
    uint32_t l19;
    uint32_t l20;
    l7 = l4;
    l15 = l2.f2;
    l8 = search__scan__side_at(l1, l15, l3, l4);
    l9 = UINT32_C(0);
    l10 = UINT32_C(0);
    for (;;) {
        l12 = search__scan__near_from(l1, l2, l3, l7, l8, l5);
        l17 = (l5 <= l12.f0);
        if (l17) {
            l16 = (type_core__option__Option_of_u64){.tag = 0};
            goto exit0;
        }
        l18 = search__walk__test_edge(l1, l2, l6, l12);
        switch (l18.tag) {
        case 0: {
            l16 = (type_core__option__Option_of_u64){.tag = 1, .s0 = l12.f0};
            goto exit0;
            break;
        }
        case 1: default: {
            l14 = l18.s0;
            l19 = l14;
            break;
        }
        }
        l13 = l19;
        l20 = search__walk__counted(l13);
        l9 = (l9 + l20);
        l10 = (l10 + l13);
        l7 = (l12.f0 + UINT64_C(1));
        l8 = l12.f2;
    }
exit0:;
    l11 = l16;
    l0 = search__walk__tally_by(l11, l9, l10);
    return l0;
}

static type_search__walk__Tally search__walk__walk_spans(slice_uint32_t l1, slice_uint32_t l2, type_search__arc__Arc l3, uint64_t l4, bool l5)
{
    type_search__walk__Tally l0;
    uint64_t l6;
    uint64_t l7;
    uint32_t l8;
    uint32_t l9;
    type_core__option__Option_of_u64 l10;
    type_search__spans__Span l11;
    uint64_t l12;
    uint64_t l13;
    uint32_t l14;
    uint32_t l15;
    type_sphere__plane__Plane l16;
    type_sphere__point__Point l17;
    type_core__option__Option_of_u64 l18;
    bool l19;
    type_search__walk__Tally l20;
    l16 = l3.f2;
    l17 = polygon__vertices__vertex_at(l1, UINT64_C(0));
    l6 = sphere__plane__side_of(l16, l17);
    l7 = (l4 / UINT64_C(32));
    l8 = UINT32_C(0);
    l9 = UINT32_C(0);
    for (;;) {
        l11 = search__spans__next_span(l1, l2, l3, l7);
        l19 = (l11.f1 <= l11.f0);
        if (l19) {
            l18 = (type_core__option__Option_of_u64){.tag = 0};
            goto exit0;
        }
        l12 = core__int__usize__max(l4, l11.f0);
        l20 = search__walk__walk_edges(l1, l3, l6, l12, l11.f1, l5);
        switch (l20.tag) {
        case 0: {
            l13 = l20.s0;
            l18 = (type_core__option__Option_of_u64){.tag = 1, .s0 = l13};
            goto exit0;
            break;
        }
        case 1: default: {
            l14 = l20.s1;
            l15 = l20.s2;
            l8 = (l8 + l14);
            l9 = (l9 + l15);
            break;
        }
        }
        l7 = l11.f2;
    }
exit0:;
    l10 = l18;
    l0 = search__walk__tally_by(l10, l8, l9);
    return l0;
}

static INLINE type_corridors__border__Axis corridors__border__axis_of(uint64_t l1)
{
    type_corridors__border__Axis l0;
    uint64_t l2;
    uint64_t l3;
    l3 = (l1 / UINT64_C(2));
    l2 = (l3 % UINT64_C(4));
    switch (l2) {
    case 0: {
        l0 = (type_corridors__border__Axis){.tag = 0};
        break;
    }
    case 1: {
        l0 = (type_corridors__border__Axis){.tag = 1};
        break;
    }
    case 2: {
        l0 = (type_corridors__border__Axis){.tag = 2};
        break;
    }
    default: {
        l0 = (type_corridors__border__Axis){.tag = 3};
        break;
    }
    }
    return l0;
}

static INLINE uint64_t corridors__border__sum_of(type_sphere__point__Point l1, type_sphere__point__Point l2)
{
    uint64_t l0;
    uint64_t l3;
    uint64_t l4;
    uint64_t l5;
    uint64_t l6;
    uint64_t l7;
    uint64_t l8;
    l3 = (l1.f0 - l1.f2);
    l4 = (l2.f1 - l2.f2);
    l5 = (l3 * l4);
    l6 = (l1.f1 - l1.f2);
    l7 = (l2.f0 - l2.f2);
    l8 = (l6 * l7);
    l0 = (l5 - l8);
    return l0;
}

static INLINE uint64_t corridors__border__number_of(type_corridors__border__Axis l1, type_sphere__point__Point l2, type_sphere__point__Point l3)
{
    uint64_t l0;
    type_sphere__plane__Plane l4;
    type_sphere__point__Grid l5;
    l5 = (type_sphere__point__Grid){.tag = 1};
    l4 = sphere__plane__plane_through(l5, l2, l3);
    switch (l1.tag) {
    case 0: {
        l0 = l4.f0.f0;
        break;
    }
    case 1: {
        l0 = l4.f0.f1;
        break;
    }
    case 2: {
        l0 = l4.f0.f2;
        break;
    }
    case 3: default: {
        l0 = corridors__border__sum_of(l2, l3);
        break;
    }
    }
    return l0;
}

static INLINE bool corridors__border__is_off(type_corridors__border__Axis l1, type_sphere__point__Point l2, type_sphere__point__Point l3)
{
    bool l0;
    uint64_t l4;
    l4 = corridors__border__number_of(l1, l2, l3);
    l0 = (l4 != UINT64_C(0));
    return l0;
}

static INLINE uint64_t corridors__border__past_off(slice_uint32_t l1, type_corridors__border__Axis l2, type_sphere__point__Point l3, uint64_t l4, uint64_t l5)
{
    uint64_t l0;
    uint64_t l6;
    bool l7;
    bool l8;
    bool l9;
    uint64_t l10;
    bool l11;
    type_sphere__point__Point l12;
    l6 = l4;
    for (;;) {
        l10 = (l5 - l6);
        l11 = (UINT64_C(1) < l10);
        if (l11) {
        } else {
            goto exit0;
        }
        l12 = polygon__vertices__vertex_at(l1, l6);
        l7 = corridors__border__is_off(l2, l3, l12);
        l10 = (l6 + UINT64_C(1));
        l12 = polygon__vertices__vertex_at(l1, l10);
        l8 = corridors__border__is_off(l2, l3, l12);
        l9 = (l7 & l8);
        l11 = !l9;
        if (l11) {
            l0 = l6;
            return l0;
        }
        l6 = (l6 + UINT64_C(2));
    }
exit0:;
    l0 = l6;
    return l0;
}

static uint64_t corridors__border__next_toward(slice_uint32_t l1, type_corridors__border__Axis l2, type_sphere__point__Point l3, uint64_t l4, uint64_t l5)
{
    uint64_t l0;
    type_corridors__border__Axis l7;
    type_corridors__border__Axis l8;
    type_corridors__border__Axis l9;
    type_corridors__border__Axis l10;
    switch (l2.tag) {
    case 0: {
        l7 = (type_corridors__border__Axis){.tag = 0};
        l0 = corridors__border__past_off(l1, l7, l3, l4, l5);
        break;
    }
    case 1: {
        l8 = (type_corridors__border__Axis){.tag = 1};
        l0 = corridors__border__past_off(l1, l8, l3, l4, l5);
        break;
    }
    case 2: {
        l9 = (type_corridors__border__Axis){.tag = 2};
        l0 = corridors__border__past_off(l1, l9, l3, l4, l5);
        break;
    }
    case 3: default: {
        l10 = (type_corridors__border__Axis){.tag = 3};
        l0 = corridors__border__past_off(l1, l10, l3, l4, l5);
        break;
    }
    }
    return l0;
}

static INLINE uint64_t corridors__border__next_edge(slice_uint32_t l1, type_corridors__border__Axis l2, type_sphere__point__Point l3, uint64_t l4, uint64_t l5)
{
    uint64_t l0;
    uint64_t l6;
    bool l7;
    l6 = corridors__border__next_toward(l1, l2, l3, l4, l5);
    l7 = (l4 < l6);
    if (l7) {
        l0 = (l6 - UINT64_C(1));
        return l0;
    }
    l0 = l6;
    return l0;
}

static INLINE uint64_t corridors__border__next_by(slice_uint32_t l1, type_sphere__point__Point l2, type_sphere__point__Point l3, uint64_t l4, uint64_t l5, uint64_t l6)
{
    uint64_t l0;
    type_sphere__point__Point l7;
    uint64_t l8;
    bool l9;
    type_sphere__point__Point l10;
    type_corridors__border__Axis l11;
    l8 = (l4 % UINT64_C(2));
    l9 = (l8 == UINT64_C(0));
    if (l9) {
        l10 = l2;
    } else {
        l10 = l3;
    }
    l7 = l10;
    l11 = corridors__border__axis_of(l4);
    l0 = corridors__border__next_edge(l1, l11, l7, l5, l6);
    return l0;
}

static INLINE bool corridors__border__same_ends(type_sphere__point__Point l1, type_sphere__point__Point l2, type_sphere__point__Point l3, type_sphere__point__Point l4)
{
    bool l0;
    bool l5;
    l5 = sphere__direction__same_direction(l1, l3);
    if (l5) {
        l5 = sphere__direction__same_direction(l2, l4);
    }
    l0 = l5;
    return l0;
}

static INLINE uint32_t corridors__border__coincident(slice_uint32_t l1, type_sphere__point__Point l2, type_sphere__point__Point l3, uint64_t l4)
{
    uint32_t l0;
    type_sphere__point__Point l5;
    type_sphere__point__Point l6;
    slice_uint32_t l7;
    uint64_t l8;
    slice_uint32_t l9;
    uint64_t l10;
    bool l11;
    bool l12;
    type_sphere__point__Point l13;
    type_sphere__point__Point l14;
    type_sphere__point__Point l15;
    type_sphere__point__Point l16;
    type_sphere__point__Point l17;
    type_sphere__point__Point l18;
    type_sphere__point__Point l19;
    type_sphere__point__Point l20;
    l7 = l1;
    l8 = l4;
    l5 = polygon__vertices__vertex_at(l7, l8);
    l9 = l1;
    l10 = l4;
    l6 = polygon__vertices__end_of(l9, l10);
    l13 = l2;
    l14 = l3;
    l15 = l5;
    l16 = l6;
    l12 = corridors__border__same_ends(l13, l14, l15, l16);
    if (l12) {
    } else {
        l17 = l2;
        l18 = l3;
        l19 = l6;
        l20 = l5;
        l12 = corridors__border__same_ends(l17, l18, l19, l20);
    }
    l11 = l12;
    l0 = core__convert__others__U32FromBool__from(l11);
    return l0;
}

static type_core__option__Option_of_u64 corridors__border__next_coincident(slice_uint32_t l1, type_sphere__point__Point l2, type_sphere__point__Point l3, uint64_t l4, uint64_t l5)
{
    type_core__option__Option_of_u64 l0;
    uint64_t l6;
    uint64_t l7;
    uint64_t l8;
    bool l9;
    uint32_t l10;
    l6 = l4;
    l7 = UINT64_C(0);
    for (;;) {
        l9 = (l6 < l5);
        if (l9) {
        } else {
            goto exit0;
        }
        l8 = corridors__border__next_by(l1, l2, l3, l7, l6, l5);
        l10 = corridors__border__coincident(l1, l2, l3, l8);
        l9 = (l10 == UINT32_C(1));
        if (l9) {
            l0 = (type_core__option__Option_of_u64){.tag = 1, .s0 = l8};
            return l0;
        }
        l6 = (l8 + UINT64_C(1));
        l7 = (l7 + UINT64_C(1));
    }
exit0:;
    l0 = (type_core__option__Option_of_u64){.tag = 0};
    return l0;
}

static INLINE void corridors__border__put_mark(slice_uint8_t l1, uint64_t l2)
{
    uint64_t l3;
    bool l4;
    unsigned char *l5;
    l3 = l1.f1;
    l4 = (l2 < l3);
    if (l4) {
        l5 = ((unsigned char *)(void *)l1.f0 + (size_t)l2);
        (*(uint8_t *)(void *)l5) = 1;
    }
    return;
}

static INLINE uint32_t corridors__border__mark_edges(slice_uint32_t l1, type_sphere__point__Point l2, type_sphere__point__Point l3, uint64_t l4, uint64_t l5, slice_uint8_t l6)
{
    uint32_t l0;
    uint32_t l7;
    uint64_t l8;
    uint64_t l9;
    type_core__option__Option_of_u64 l10;
    uint8_t *l12;
    slice_uint8_t l13;
    l7 = UINT32_C(0);
    l8 = l4;
    for (;;) {
        l10 = corridors__border__next_coincident(l1, l2, l3, l8, l5);
        switch (l10.tag) {
        case 1: {
            l9 = l10.s0;
            l12 = (uint8_t *)(void *)&(*l6.f0);
            l13 = (slice_uint8_t){.f0 = l12, .f1 = l6.f1};
            corridors__border__put_mark(l13, l9);
            l7 = (l7 + UINT32_C(1));
            l8 = (l9 + UINT64_C(1));
            break;
        }
        case 0: default: {
            goto exit0;
            break;
        }
        }
    }
exit0:;
    l0 = l7;
    return l0;
}

static INLINE uint32_t search__border__mark_class(slice_uint32_t l1, slice_uint32_t l2, type_search__arc__Arc l3, uint64_t l4, slice_uint8_t l5)
{
    uint32_t l0;
    type_sphere__point__Point l6;
    type_sphere__point__Point l7;
    uint64_t l8;
    uint32_t l9;
    type_search__spans__Span l10;
    bool l11;
    uint32_t l12;
    uint8_t *l13;
    slice_uint8_t l14;
    l6 = polygon__vertices__vertex_at(l1, l4);
    l7 = polygon__vertices__end_of(l1, l4);
    l8 = (l4 / UINT64_C(32));
    l9 = UINT32_C(0);
    for (;;) {
        l10 = search__spans__next_span(l1, l2, l3, l8);
        l11 = (l10.f1 <= l10.f0);
        if (l11) {
            l0 = l9;
            return l0;
        }
        l13 = (uint8_t *)(void *)&(*l5.f0);
        l14 = (slice_uint8_t){.f0 = l13, .f1 = l5.f1};
        l12 = corridors__border__mark_edges(l1, l6, l7, l10.f0, l10.f1, l14);
        l9 = (l9 + l12);
        l8 = l10.f2;
    }
    return l0;
}

static INLINE bool search__border__is_border(slice_uint32_t l1, slice_uint32_t l2, type_search__arc__Arc l3, uint64_t l4, slice_uint8_t l5)
{
    bool l0;
    uint32_t l6;
    uint8_t *l7;
    slice_uint8_t l8;
    uint32_t l9;
    l7 = (uint8_t *)(void *)&(*l5.f0);
    l8 = (slice_uint8_t){.f0 = l7, .f1 = l5.f1};
    l6 = search__border__mark_class(l1, l2, l3, l4, l8);
    l9 = (l6 % UINT32_C(2));
    l0 = (l9 == UINT32_C(1));
    return l0;
}

static INLINE type_core__option__Option_of_u64 search__border__next_held(slice_uint32_t l1, slice_uint32_t l2, type_search__arc__Arc l3, uint64_t l4)
{
    type_core__option__Option_of_u64 l0;
    uint64_t l5;
    type_search__walk__Tally l6;
    l6 = search__walk__walk_spans(l1, l2, l3, l4, true);
    switch (l6.tag) {
    case 0: {
        l5 = l6.s0;
        l0 = (type_core__option__Option_of_u64){.tag = 1, .s0 = l5};
        break;
    }
    case 1: default: {
        l0 = (type_core__option__Option_of_u64){.tag = 0};
        break;
    }
    }
    return l0;
}

static INLINE type_core__ops__ControlFlow_of_NoValue_u64 core__option__OptionTry__branch_of_u64(type_core__option__Option_of_u64 l1)
{
    type_core__ops__ControlFlow_of_NoValue_u64 l0;
    uint64_t l2;
    uint64_t l4;
    type_core__option__NoValue l5;
    switch (l1.tag) {
    case 1: {
        l2 = l1.s0;
        l4 = l2;
        l0 = (type_core__ops__ControlFlow_of_NoValue_u64){.tag = 0, .s0 = l4};
        break;
    }
    case 0: default: {
        l5 = (type_core__option__NoValue){0};
        l0 = (type_core__ops__ControlFlow_of_NoValue_u64){.tag = 1, .s1 = l5};
        break;
    }
    }
    return l0;
}

static INLINE type_core__option__Option_of_u64 core__option__OptionFromResidualNoValue__from_residual_of_u64(type_core__option__NoValue l1)
{
    type_core__option__Option_of_u64 l0;
    (void)l1;
    l0 = (type_core__option__Option_of_u64){.tag = 0};
    return l0;
}

static INLINE bool search__border__joins(slice_uint32_t l1, type_sphere__point__Point l2, type_sphere__point__Point l3, uint64_t l4)
{
    bool l0;
    type_sphere__point__Point l5;
    type_sphere__point__Point l6;
    bool l7;
    bool l8;
    bool l9;
    bool l10;
    l5 = polygon__vertices__vertex_at(l1, l4);
    l6 = polygon__vertices__end_of(l1, l4);
    l9 = sphere__direction__same_direction(l2, l5);
    l10 = sphere__direction__same_direction(l3, l6);
    l7 = (l9 & l10);
    l9 = sphere__direction__same_direction(l2, l6);
    l10 = sphere__direction__same_direction(l3, l5);
    l8 = (l9 & l10);
    l0 = (l7 | l8);
    return l0;
}

static type_core__option__Option_of_u64 search__border__next_other(slice_uint32_t l1, slice_uint32_t l2, type_search__arc__Arc l3, uint64_t l4)
{
    type_core__option__Option_of_u64 l0;
    uint64_t l5;
    type_sphere__point__Point l6;
    type_sphere__point__Point l7;
    uint64_t l8;
    uint64_t l9;
    uint64_t l10;
    type_core__option__NoValue l11;
    uint64_t l12;
    bool l13;
    type_core__ops__ControlFlow_of_NoValue_u64 l14;
    type_core__option__Option_of_u64 l15;
    uint64_t l16;
    bool l17;
    l12 = l1.f1;
    l5 = (l12 / UINT64_C(3));
    l6 = polygon__vertices__vertex_at(l1, l4);
    l7 = polygon__vertices__end_of(l1, l4);
    l8 = (l4 + UINT64_C(1));
    for (;;) {
        l13 = (l8 < l5);
        if (l13) {
        } else {
            goto exit0;
        }
        l15 = search__border__next_held(l1, l2, l3, l8);
        l14 = core__option__OptionTry__branch_of_u64(l15);
        switch (l14.tag) {
        case 0: {
            l10 = l14.s0;
            l16 = l10;
            break;
        }
        case 1: default: {
            l11 = l14.s1;
            l0 = core__option__OptionFromResidualNoValue__from_residual_of_u64(l11);
            return l0;
            break;
        }
        }
        l9 = l16;
        l13 = search__border__joins(l1, l6, l7, l9);
        l17 = !l13;
        if (l17) {
            l0 = (type_core__option__Option_of_u64){.tag = 1, .s0 = l9};
            return l0;
        }
        l8 = (l9 + UINT64_C(1));
    }
exit0:;
    l0 = (type_core__option__Option_of_u64){.tag = 0};
    return l0;
}

static INLINE bool search__border__is_new_border(slice_uint32_t l1, slice_uint32_t l2, type_search__arc__Arc l3, uint64_t l4, slice_uint8_t l5)
{
    bool l0;
    bool l6;
    unsigned char *l7;
    uint8_t l8;
    uint8_t *l9;
    slice_uint8_t l10;
    l7 = ((unsigned char *)(void *)l5.f0 + (size_t)l4);
    l8 = (*(uint8_t *)(void *)l7);
    l6 = (l8 != 1);
    if (l6) {
        l9 = (uint8_t *)(void *)&(*l5.f0);
        l10 = (slice_uint8_t){.f0 = l9, .f1 = l5.f1};
        l6 = search__border__is_border(l1, l2, l3, l4, l10);
    }
    l0 = l6;
    return l0;
}

static APART type_core__option__Option_of_u64 search__border__first_border(slice_uint32_t l1, slice_uint32_t l2, type_search__arc__Arc l3)
{
    type_core__option__Option_of_u64 l0;
    uint64_t l4;
    array_uint8_t_4096 l5;
    uint64_t l6;
    uint64_t l7;
    uint64_t l8;
    type_core__option__NoValue l9;
    uint64_t l10;
    bool l11;
    type_core__ops__ControlFlow_of_NoValue_u64 l12;
    type_core__option__Option_of_u64 l13;
    uint64_t l14;
    bool l15;
    array_uint8_t_4096 *l16;
    slice_uint8_t l17;
    l10 = l1.f1;
    l4 = (l10 / UINT64_C(3));
    for (size_t i = 0; i < 4096; i++)
        l5.e[i] = 0;
    l6 = UINT64_C(0);
    for (;;) {
        l11 = (l6 < l4);
        if (l11) {
        } else {
            goto exit0;
        }
        l13 = search__border__next_held(l1, l2, l3, l6);
        l12 = core__option__OptionTry__branch_of_u64(l13);
        switch (l12.tag) {
        case 0: {
            l8 = l12.s0;
            l14 = l8;
            break;
        }
        case 1: default: {
            l9 = l12.s1;
            l0 = core__option__OptionFromResidualNoValue__from_residual_of_u64(l9);
            return l0;
            break;
        }
        }
        l7 = l14;
        l16 = (array_uint8_t_4096 *)(void *)&l5;
        l17 = (slice_uint8_t){.f0 = (uint8_t *)(void *)l16, .f1 = UINT64_C(4096)};
        l15 = search__border__is_new_border(l1, l2, l3, l7, l17);
        if (l15) {
            l0 = (type_core__option__Option_of_u64){.tag = 1, .s0 = l7};
            return l0;
        }
        l6 = (l7 + UINT64_C(1));
    }
exit0:;
    l0 = (type_core__option__Option_of_u64){.tag = 0};
    return l0;
}

static INLINE type_search__walk__Tally search__border__tally_marked(slice_uint32_t l1, slice_uint32_t l2, type_search__arc__Arc l3)
{
    type_search__walk__Tally l0;
    type_sphere__plane__Plane l4;
    type_sphere__point__Grid l5;
    type_search__arc__Arc l6;
    uint64_t l7;
    type_sphere__point__Point l8;
    type_sphere__point__Point l9;
    type_core__option__Option_of_u64 l10;
    l4 = l3.f2;
    l5 = l4.f2;
    l8 = l3.f0;
    l9 = l3.f1;
    l6 = search__arc__arc_between(l5, l8, l9, false);
    l10 = search__border__first_border(l1, l2, l6);
    switch (l10.tag) {
    case 0: {
        l0 = search__walk__walk_spans(l1, l2, l3, UINT64_C(0), false);
        break;
    }
    case 1: default: {
        l7 = l10.s0;
        l0 = (type_search__walk__Tally){.tag = 0, .s0 = l7};
        break;
    }
    }
    return l0;
}

static INLINE type_search__walk__Tally search__border__tally_past(slice_uint32_t l1, slice_uint32_t l2, type_search__arc__Arc l3, uint64_t l4)
{
    type_search__walk__Tally l0;
    uint64_t l5;
    array_uint8_t_1 l6;
    type_core__option__Option_of_u64 l7;
    bool l8;
    array_uint8_t_1 *l9;
    slice_uint8_t l10;
    l7 = search__border__next_other(l1, l2, l3, l4);
    switch (l7.tag) {
    case 1: {
        l5 = l7.s0;
        break;
    }
    case 0: default: {
        l0 = search__walk__walk_spans(l1, l2, l3, UINT64_C(0), false);
        return l0;
        break;
    }
    }
    l6 = (array_uint8_t_1){.e[0] = 0};
    l9 = (array_uint8_t_1 *)(void *)&l6;
    l10 = (slice_uint8_t){.f0 = (uint8_t *)(void *)l9, .f1 = UINT64_C(1)};
    l8 = search__border__is_border(l1, l2, l3, l5, l10);
    if (l8) {
        l0 = (type_search__walk__Tally){.tag = 0, .s0 = l5};
        return l0;
    }
    l0 = search__border__tally_marked(l1, l2, l3);
    return l0;
}

static type_search__walk__Tally search__border__tally_held(slice_uint32_t l1, slice_uint32_t l2, type_search__arc__Arc l3, uint64_t l4)
{
    type_search__walk__Tally l0;
    array_uint8_t_1 l5;
    bool l6;
    array_uint8_t_1 *l7;
    slice_uint8_t l8;
    l5 = (array_uint8_t_1){.e[0] = 0};
    l7 = (array_uint8_t_1 *)(void *)&l5;
    l8 = (slice_uint8_t){.f0 = (uint8_t *)(void *)l7, .f1 = UINT64_C(1)};
    l6 = search__border__is_border(l1, l2, l3, l4, l8);
    if (l6) {
        l0 = (type_search__walk__Tally){.tag = 0, .s0 = l4};
        return l0;
    }
    l0 = search__border__tally_past(l1, l2, l3, l4);
    return l0;
}

static INLINE type_search__walk__Tally search__border__tally_arc(slice_uint32_t l1, slice_uint32_t l2, type_search__arc__Arc l3)
{
    type_search__walk__Tally l0;
    uint64_t l4;
    type_search__walk__Tally l5;
    type_search__walk__Tally l6;
    l6 = search__walk__walk_spans(l1, l2, l3, UINT64_C(0), true);
    switch (l6.tag) {
    case 0: {
        l4 = l6.s0;
        l0 = search__border__tally_held(l1, l2, l3, l4);
        break;
    }
    case 1: default: {
        l5 = l6;
        l0 = l5;
        break;
    }
    }
    return l0;
}

static INLINE uint64_t search__looked__reach_of(type_search__walk__Tally l1, uint64_t l2)
{
    uint64_t l0;
    uint64_t l3;
    switch (l1.tag) {
    case 0: {
        l3 = l1.s0;
        l0 = (l3 + UINT64_C(1));
        break;
    }
    case 1: default: {
        l0 = l2;
        break;
    }
    }
    return l0;
}

static INLINE uint32_t search__looked__looked_in(slice_uint32_t l1, type_sphere__plane__Plane l2, uint64_t l3, uint64_t l4)
{
    uint32_t l0;
    bool l5;
    uint64_t l6;
    uint64_t l7;
    uint64_t l8;
    l5 = search__boxes__is_apart(l2, l1, l3);
    if (l5) {
        l0 = UINT32_C(0);
        return l0;
    }
    l6 = search__boxes__run_end(l4, l3);
    l7 = (l3 << 5);
    l8 = (l6 - l7);
    l0 = (uint32_t)l8;
    return l0;
}

static INLINE uint32_t search__looked__looked_before(slice_uint32_t l1, type_sphere__plane__Plane l2, uint64_t l3)
{
    uint32_t l0;
    uint64_t l4;
    uint32_t l5;
    uint64_t l6;
    bool l7;
    uint32_t l8;
    l4 = search__boxes__run_count(l3);
    l5 = UINT32_C(0);
    l6 = UINT64_C(0);
    for (;;) {
        l7 = (l6 < l4);
        if (l7) {
        } else {
            goto exit0;
        }
        l8 = search__looked__looked_in(l1, l2, l6, l3);
        l5 = (l5 + l8);
        l6 = (l6 + UINT64_C(1));
    }
exit0:;
    l0 = l5;
    return l0;
}

static type_search__walk__Searched search__walk__count_edges(type_sphere__point__Grid l1, slice_uint32_t l2, slice_uint32_t l3, type_sphere__point__Point l4, type_sphere__point__Point l5)
{
    type_search__walk__Searched l0;
    type_search__arc__Arc l6;
    type_search__walk__Tally l7;
    uint32_t l8;
    type_sphere__plane__Plane l9;
    uint64_t l10;
    uint64_t l11;
    uint64_t l12;
    l6 = search__arc__arc_between(l1, l4, l5, true);
    l7 = search__border__tally_arc(l2, l3, l6);
    l9 = l6.f2;
    l11 = l2.f1;
    l12 = (l11 / UINT64_C(3));
    l10 = search__looked__reach_of(l7, l12);
    l8 = search__looked__looked_before(l3, l9, l10);
    l0 = (type_search__walk__Searched){.f0 = l7, .f1 = l8};
    return l0;
}

static INLINE bool search__looked__asks_boxes(type_search__walk__Mode l1)
{
    bool l0;
    switch (l1.tag) {
    case 1: case 2: {
        l0 = true;
        break;
    }
    case 0: default: {
        l0 = false;
        break;
    }
    }
    return l0;
}

static INLINE type_search__walk__Tally search__walk__tally_edges(type_sphere__point__Grid l1, slice_uint32_t l2, slice_uint32_t l3, type_sphere__point__Point l4, type_sphere__point__Point l5, bool l6)
{
    type_search__walk__Tally l0;
    type_search__arc__Arc l7;
    uint64_t l8;
    type_search__walk__Tally l9;
    type_search__walk__Tally l10;
    l7 = search__arc__arc_between(l1, l4, l5, l6);
    l10 = search__walk__walk_spans(l2, l3, l7, UINT64_C(0), true);
    switch (l10.tag) {
    case 0: {
        l8 = l10.s0;
        l0 = search__border__tally_held(l2, l3, l7, l8);
        break;
    }
    case 1: default: {
        l9 = l10;
        l0 = l9;
        break;
    }
    }
    return l0;
}

static INLINE type_search__walk__Searched search__walk__uncounted(type_search__walk__Tally l1)
{
    type_search__walk__Searched l0;
    l0 = (type_search__walk__Searched){.f0 = l1, .f1 = UINT32_C(0)};
    return l0;
}

static INLINE type_search__walk__Searched search__walk__search_edges(type_sphere__point__Grid l1, slice_uint32_t l2, slice_uint32_t l3, type_sphere__point__Point l4, type_sphere__point__Point l5, type_search__walk__Mode l6)
{
    type_search__walk__Searched l0;
    bool l7;
    type_search__walk__Tally l8;
    bool l9;
    l7 = search__looked__is_counted(l6);
    if (l7) {
        l0 = search__walk__count_edges(l1, l2, l3, l4, l5);
        return l0;
    }
    l9 = search__looked__asks_boxes(l6);
    l8 = search__walk__tally_edges(l1, l2, l3, l4, l5, l9);
    l0 = search__walk__uncounted(l8);
    return l0;
}

static INLINE type_core__result__Result_of_Verdict_Refusal judging__judge__by_parity(uint32_t l1, uint32_t l2)
{
    type_core__result__Result_of_Verdict_Refusal l0;
    uint32_t l3;
    bool l4;
    type_answer__Verdict l6;
    type_answer__Verdict l7;
    l3 = (l1 % UINT32_C(2));
    l4 = (l3 == UINT32_C(0));
    if (l4) {
        l6 = (type_answer__Verdict){.tag = 1, .s1 = l1, .s2 = l2};
        l0 = (type_core__result__Result_of_Verdict_Refusal){.tag = 0, .s0 = l6};
    } else {
        l7 = (type_answer__Verdict){.tag = 2, .s1 = l1, .s2 = l2};
        l0 = (type_core__result__Result_of_Verdict_Refusal){.tag = 0, .s0 = l7};
    }
    return l0;
}

static INLINE type_core__result__Result_of_Verdict_Refusal judging__judge__verdict_on(type_search__walk__Tally l1)
{
    type_core__result__Result_of_Verdict_Refusal l0;
    uint64_t l2;
    uint32_t l3;
    uint32_t l4;
    type_answer__Verdict l6;
    switch (l1.tag) {
    case 0: {
        l2 = l1.s0;
        l6 = (type_answer__Verdict){.tag = 3, .s0 = l2};
        l0 = (type_core__result__Result_of_Verdict_Refusal){.tag = 0, .s0 = l6};
        break;
    }
    case 1: default: {
        l3 = l1.s1;
        l4 = l1.s2;
        l0 = judging__judge__by_parity(l3, l4);
        break;
    }
    }
    return l0;
}

static type_judging__judge__Judgement judging__judge__judge_boxed(type_sphere__point__Grid l1, slice_uint32_t l2, slice_uint32_t l3, type_sphere__point__Point l4, type_sphere__point__Point l5, type_sphere__point__Point l6, type_search__walk__Mode l7)
{
    type_judging__judge__Judgement l0;
    type_answer__Refusal l8;
    type_sphere__point__Point l9;
    type_answer__Refusal l10;
    type_search__walk__Searched l11;
    type_core__result__Result_of_unit_Refusal l12;
    type_core__result__Result_of_unit_Refusal l13;
    type_core__result__Result_of_Verdict_Refusal l14;
    type_search__walk__Tally l15;
    l12 = polygon__checks__query_check(l1, l6);
    switch (l12.tag) {
    case 1: {
        l8 = l12.s0;
        l0 = judging__judge__unjudged(l8);
        return l0;
        break;
    }
    case 0: default: {
        break;
    }
    }
    l9 = judging__judge__judge_from(l4, l5, l6);
    l13 = polygon__checks__far_check(l9, l6);
    switch (l13.tag) {
    case 1: {
        l10 = l13.s0;
        l0 = judging__judge__unjudged(l10);
        return l0;
        break;
    }
    case 0: default: {
        break;
    }
    }
    l11 = search__walk__search_edges(l1, l2, l3, l9, l6, l7);
    l15 = l11.f0;
    l14 = judging__judge__verdict_on(l15);
    l0 = (type_judging__judge__Judgement){.f0 = l14, .f1 = l11.f1};
    return l0;
}

static INLINE uint32_t answer__Reason__number(type_answer__Reason l1)
{
    uint32_t l0;
    switch (l1.tag) {
    case 0: {
        l0 = UINT32_C(10);
        break;
    }
    case 1: {
        l0 = UINT32_C(11);
        break;
    }
    case 2: {
        l0 = UINT32_C(12);
        break;
    }
    case 3: {
        l0 = UINT32_C(13);
        break;
    }
    case 4: {
        l0 = UINT32_C(14);
        break;
    }
    case 5: {
        l0 = UINT32_C(15);
        break;
    }
    case 6: {
        l0 = UINT32_C(16);
        break;
    }
    case 7: {
        l0 = UINT32_C(17);
        break;
    }
    case 8: {
        l0 = UINT32_C(18);
        break;
    }
    case 9: {
        l0 = UINT32_C(19);
        break;
    }
    case 10: {
        l0 = UINT32_C(20);
        break;
    }
    case 11: {
        l0 = UINT32_C(21);
        break;
    }
    case 12: {
        l0 = UINT32_C(22);
        break;
    }
    case 13: {
        l0 = UINT32_C(23);
        break;
    }
    case 14: {
        l0 = UINT32_C(24);
        break;
    }
    case 15: {
        l0 = UINT32_C(25);
        break;
    }
    case 16: {
        l0 = UINT32_C(26);
        break;
    }
    case 17: {
        l0 = UINT32_C(27);
        break;
    }
    case 18: {
        l0 = UINT32_C(28);
        break;
    }
    case 19: {
        l0 = UINT32_C(30);
        break;
    }
    case 20: {
        l0 = UINT32_C(31);
        break;
    }
    case 21: {
        l0 = UINT32_C(32);
        break;
    }
    case 22: {
        l0 = UINT32_C(33);
        break;
    }
    case 23: {
        l0 = UINT32_C(34);
        break;
    }
    case 24: default: {
        l0 = UINT32_C(36);
        break;
    }
    }
    return l0;
}

static INLINE uint32_t answer__number(type_core__result__Result_of_Verdict_Refusal l1)
{
    uint32_t l0;
    type_answer__Refusal l2;
    type_answer__Reason l4;
    switch (l1.tag) {
    case 0: {
        switch (l1.s0.tag) {
        case 0: {
            l0 = UINT32_C(0);
            break;
        }
        case 1: {
            l0 = UINT32_C(1);
            break;
        }
        case 2: {
            l0 = UINT32_C(2);
            break;
        }
        case 3: default: {
            l0 = UINT32_C(3);
            break;
        }
        }
        break;
    }
    case 1: default: {
        l2 = l1.s1;
        l4 = l2.f0;
        l0 = answer__Reason__number(l4);
        break;
    }
    }
    return l0;
}

static INLINE bool judging__second__is_second(type_sphere__point__Grid l1, slice_uint32_t l2, slice_uint32_t l3, type_sphere__point__Point l4, type_sphere__point__Point l5)
{
    bool l0;
    type_sphere__point__Point l6;
    type_judging__judge__Judgement l7;
    bool l8;
    bool l9;
    bool l10;
    type_search__walk__Mode l11;
    uint32_t l12;
    type_core__result__Result_of_Verdict_Refusal l13;
    l9 = polygon__checks__accepts(l1, l2, l5);
    l8 = !l9;
    if (l8) {
    } else {
        l8 = sphere__direction__same_direction(l4, l5);
        l10 = l8;
        if (l10) {
        } else {
            goto exit0;
        }
    }
    l0 = false;
    return l0;
    goto exit1;
exit0:;
exit1:;
    l6 = judging__accept__no_second();
    l11 = (type_search__walk__Mode){.tag = 1};
    l7 = judging__judge__judge_boxed(l1, l2, l3, l4, l6, l5, l11);
    l13 = l7.f0;
    l12 = answer__number(l13);
    l0 = (l12 == UINT32_C(1));
    return l0;
}

static INLINE type_core__result__Result_of_unit_Refusal judging__second__second_check(type_sphere__point__Grid l1, slice_uint32_t l2, slice_uint32_t l3, type_sphere__point__Point l4, type_sphere__point__Point l5)
{
    type_core__result__Result_of_unit_Refusal l0;
    type_answer__Reason l6;
    bool l7;
    bool l8;
    l6 = (type_answer__Reason){.tag = 9};
    l7 = judging__second__is_second(l1, l2, l3, l4, l5);
    l8 = !l7;
    l0 = answer__fails_if(l6, l8);
    return l0;
}

static type_core__result__Result_of_Opened_Refusal sheet__open__open_into(slice_uint8_t l1, slice_uint32_t l2, slice_uint32_t l3)
{
    type_core__result__Result_of_Opened_Refusal l0;
    type_sheet__open__Opened l4;
    type_sheet__open__Opened l5;
    type_core__result__ErrResidual_of_Refusal l6;
    uint64_t l7;
    type_core__result__ErrResidual_of_Refusal l9;
    type_core__ops__ControlFlow_of_ErrResidual_Refusal_Opened l10;
    type_core__result__Result_of_Opened_Refusal l11;
    uint32_t *l12;
    slice_uint32_t l13;
    uint32_t *l14;
    slice_uint32_t l15;
    type_sheet__open__Opened l16;
    bool l17;
    type_core__ops__ControlFlow_of_ErrResidual_Refusal_unit l18;
    type_core__result__Result_of_unit_Refusal l19;
    type_sphere__point__Grid l20;
    uint32_t *l21;
    slice_uint32_t l22;
    uint32_t *l23;
    slice_uint32_t l24;
    type_sphere__point__Point l25;
    type_sphere__point__Point l26;
    l12 = (uint32_t *)(void *)&(*l2.f0);
    l13 = (slice_uint32_t){.f0 = l12, .f1 = l2.f1};
    l14 = (uint32_t *)(void *)&(*l3.f0);
    l15 = (slice_uint32_t){.f0 = l14, .f1 = l3.f1};
    l11 = sheet__open__plain_into(l1, l13, l15);
    l10 = core__result__ResultTry__branch_of_Opened_Refusal(l11);
    switch (l10.tag) {
    case 0: {
        l5 = l10.s0;
        l16 = l5;
        break;
    }
    case 1: default: {
        l6 = l10.s1;
        l0 = core__result__ResultFromResidualErrResidual__from_residual_of_Opened_Refusal_Refusal(l6);
        return l0;
        break;
    }
    }
    l4 = l16;
    l17 = l4.f3;
    if (l17) {
        l7 = (l4.f4 * UINT64_C(3));
        l20 = l4.f0;
        l21 = (uint32_t *)(void *)&(*l2.f0);
        l22 = (slice_uint32_t){.f0 = l21, .f1 = l7};
        l23 = (uint32_t *)(void *)&(*l3.f0);
        l24 = (slice_uint32_t){.f0 = l23, .f1 = l3.f1};
        l25 = l4.f1;
        l26 = l4.f2;
        l19 = judging__second__second_check(l20, l22, l24, l25, l26);
        l18 = core__result__ResultTry__branch_of_unit_Refusal(l19);
        switch (l18.tag) {
        case 0: {
            break;
        }
        case 1: default: {
            l9 = l18.s0;
            l0 = core__result__ResultFromResidualErrResidual__from_residual_of_Opened_Refusal_Refusal(l9);
            return l0;
            break;
        }
        }
    }
    l0 = (type_core__result__Result_of_Opened_Refusal){.tag = 0, .s0 = l4};
    return l0;
}

static INLINE type_judging__judge__Judgement zone__judge__judged_in(slice_uint8_t l1, type_sphere__point__Point l2, slice_uint32_t l3, slice_uint32_t l4, type_search__walk__Mode l5)
{
    type_judging__judge__Judgement l0;
    type_sheet__open__Opened l6;
    uint64_t l7;
    type_answer__Refusal l8;
    type_core__result__Result_of_Opened_Refusal l9;
    uint32_t *l10;
    slice_uint32_t l11;
    uint32_t *l12;
    slice_uint32_t l13;
    type_sphere__point__Grid l15;
    uint32_t *l16;
    slice_uint32_t l17;
    uint32_t *l18;
    slice_uint32_t l19;
    type_sphere__point__Point l20;
    type_sphere__point__Point l21;
    l10 = (uint32_t *)(void *)&(*l3.f0);
    l11 = (slice_uint32_t){.f0 = l10, .f1 = l3.f1};
    l12 = (uint32_t *)(void *)&(*l4.f0);
    l13 = (slice_uint32_t){.f0 = l12, .f1 = l4.f1};
    l9 = sheet__open__open_into(l1, l11, l13);
    switch (l9.tag) {
    case 0: {
        l6 = l9.s0;
        l7 = (l6.f4 * UINT64_C(3));
        l15 = l6.f0;
        l16 = (uint32_t *)(void *)&(*l3.f0);
        l17 = (slice_uint32_t){.f0 = l16, .f1 = l7};
        l18 = (uint32_t *)(void *)&(*l4.f0);
        l19 = (slice_uint32_t){.f0 = l18, .f1 = l4.f1};
        l20 = l6.f1;
        l21 = l6.f2;
        l0 = judging__judge__judge_boxed(l15, l17, l19, l20, l21, l2, l5);
        break;
    }
    case 1: default: {
        l8 = l9.s1;
        l0 = judging__judge__unjudged(l8);
        break;
    }
    }
    return l0;
}

static APART type_judging__judge__Judgement zone__judge__judged_sized_of_768_48(slice_uint8_t l1, type_sphere__point__Point l2, type_search__walk__Mode l3)
{
    type_judging__judge__Judgement l0;
    array_uint32_t_768 l4;
    array_uint32_t_48 l5;
    array_uint32_t_768 *l6;
    slice_uint32_t l7;
    array_uint32_t_48 *l8;
    slice_uint32_t l9;
    for (size_t i = 0; i < 768; i++)
        l4.e[i] = UINT32_C(0);
    for (size_t i = 0; i < 48; i++)
        l5.e[i] = UINT32_C(0);
    l6 = (array_uint32_t_768 *)(void *)&l4;
    l7 = (slice_uint32_t){.f0 = (uint32_t *)(void *)l6, .f1 = UINT64_C(768)};
    l8 = (array_uint32_t_48 *)(void *)&l5;
    l9 = (slice_uint32_t){.f0 = (uint32_t *)(void *)l8, .f1 = UINT64_C(48)};
    l0 = zone__judge__judged_in(l1, l2, l7, l9, l3);
    return l0;
}

static APART type_judging__judge__Judgement zone__judge__judged_sized_of_4096_258(slice_uint8_t l1, type_sphere__point__Point l2, type_search__walk__Mode l3)
{
    type_judging__judge__Judgement l0;
    array_uint32_t_4096 l4;
    array_uint32_t_258 l5;
    array_uint32_t_4096 *l6;
    slice_uint32_t l7;
    array_uint32_t_258 *l8;
    slice_uint32_t l9;
    for (size_t i = 0; i < 4096; i++)
        l4.e[i] = UINT32_C(0);
    for (size_t i = 0; i < 258; i++)
        l5.e[i] = UINT32_C(0);
    l6 = (array_uint32_t_4096 *)(void *)&l4;
    l7 = (slice_uint32_t){.f0 = (uint32_t *)(void *)l6, .f1 = UINT64_C(4096)};
    l8 = (array_uint32_t_258 *)(void *)&l5;
    l9 = (slice_uint32_t){.f0 = (uint32_t *)(void *)l8, .f1 = UINT64_C(258)};
    l0 = zone__judge__judged_in(l1, l2, l7, l9, l3);
    return l0;
}

static APART type_judging__judge__Judgement zone__judge__judged_sized_of_12288_768(slice_uint8_t l1, type_sphere__point__Point l2, type_search__walk__Mode l3)
{
    type_judging__judge__Judgement l0;
    array_uint32_t_12288 l4;
    array_uint32_t_768 l5;
    array_uint32_t_12288 *l6;
    slice_uint32_t l7;
    array_uint32_t_768 *l8;
    slice_uint32_t l9;
    for (size_t i = 0; i < 12288; i++)
        l4.e[i] = UINT32_C(0);
    for (size_t i = 0; i < 768; i++)
        l5.e[i] = UINT32_C(0);
    l6 = (array_uint32_t_12288 *)(void *)&l4;
    l7 = (slice_uint32_t){.f0 = (uint32_t *)(void *)l6, .f1 = UINT64_C(12288)};
    l8 = (array_uint32_t_768 *)(void *)&l5;
    l9 = (slice_uint32_t){.f0 = (uint32_t *)(void *)l8, .f1 = UINT64_C(768)};
    l0 = zone__judge__judged_in(l1, l2, l7, l9, l3);
    return l0;
}

static INLINE type_judging__judge__Judgement zone__judge__judged(slice_uint8_t l1, type_sphere__point__Point l2, type_search__walk__Mode l3)
{
    type_judging__judge__Judgement l0;
    uint64_t l4;
    bool l5;
    l4 = l1.f1;
    l5 = (l4 <= UINT64_C(3072));
    if (l5) {
        l0 = zone__judge__judged_sized_of_768_48(l1, l2, l3);
        return l0;
    }
    l4 = l1.f1;
    l5 = (l4 <= UINT64_C(16384));
    if (l5) {
        l0 = zone__judge__judged_sized_of_4096_258(l1, l2, l3);
        return l0;
    }
    l0 = zone__judge__judged_sized_of_12288_768(l1, l2, l3);
    return l0;
}

static INLINE type_core__result__Result_of_Verdict_Refusal zone__judge__judge(slice_uint8_t l1, type_sphere__point__Point l2)
{
    type_core__result__Result_of_Verdict_Refusal l0;
    type_judging__judge__Judgement l3;
    type_search__walk__Mode l4;
    l4 = (type_search__walk__Mode){.tag = 1};
    l3 = zone__judge__judged(l1, l2, l4);
    l0 = l3.f0;
    return l0;
}

static INLINE type_core__result__Result_of_Verdict_Refusal spargolutta__answer(slice_uint8_t l1, uint32_t l2, uint32_t l3, uint32_t l4)
{
    type_core__result__Result_of_Verdict_Refusal l0;
    type_sphere__point__Point l5;
    l5 = spargolutta__query(l2, l3, l4);
    l0 = zone__judge__judge(l1, l5);
    return l0;
}

static INLINE uint32_t spargolutta__spg_judge_number(slice_uint8_t l1, uint32_t l2, uint32_t l3, uint32_t l4)
{
    uint32_t l0;
    type_core__result__Result_of_Verdict_Refusal l5;
    l5 = spargolutta__answer(l1, l2, l3, l4);
    l0 = answer__number(l5);
    return l0;
}

static INLINE uint64_t answer__place(type_core__result__Result_of_Verdict_Refusal l1)
{
    uint64_t l0;
    uint64_t l2;
    uint64_t l3;
    type_answer__Refusal l4;
    switch (l1.tag) {
    case 0: {
        switch (l1.s0.tag) {
        case 0: {
            l2 = l1.s0.s0;
            l0 = l2;
            break;
        }
        case 1: case 2: {
            l0 = UINT64_C(0);
            break;
        }
        case 3: default: {
            l3 = l1.s0.s0;
            l0 = l3;
            break;
        }
        }
        break;
    }
    case 1: default: {
        l4 = l1.s1;
        l0 = l4.f1;
        break;
    }
    }
    return l0;
}

static INLINE uint64_t spargolutta__spg_judge_place(slice_uint8_t l1, uint32_t l2, uint32_t l3, uint32_t l4)
{
    uint64_t l0;
    type_core__result__Result_of_Verdict_Refusal l5;
    l5 = spargolutta__answer(l1, l2, l3, l4);
    l0 = answer__place(l5);
    return l0;
}

static INLINE uint32_t answer__count(type_core__result__Result_of_Verdict_Refusal l1)
{
    uint32_t l0;
    uint32_t l2;
    switch (l1.tag) {
    case 0: {
        switch (l1.s0.tag) {
        case 1: {
            l2 = l1.s0.s1;
            goto exit0;
            break;
        }
        case 2: {
            l2 = l1.s0.s1;
            goto exit0;
            break;
        }
        case 0: case 3: default: {
            goto exit1;
            break;
        }
        }
exit0:;
        l0 = l2;
        goto exit2;
        break;
    }
    case 1: default: {
        goto exit1;
        break;
    }
    }
exit1:;
    l0 = UINT32_C(0);
exit2:;
    return l0;
}

static INLINE uint32_t spargolutta__spg_judge_count(slice_uint8_t l1, uint32_t l2, uint32_t l3, uint32_t l4)
{
    uint32_t l0;
    type_core__result__Result_of_Verdict_Refusal l5;
    l5 = spargolutta__answer(l1, l2, l3, l4);
    l0 = answer__count(l5);
    return l0;
}

static INLINE uint32_t answer__sum(type_core__result__Result_of_Verdict_Refusal l1)
{
    uint32_t l0;
    uint32_t l2;
    switch (l1.tag) {
    case 0: {
        switch (l1.s0.tag) {
        case 1: {
            l2 = l1.s0.s2;
            goto exit0;
            break;
        }
        case 2: {
            l2 = l1.s0.s2;
            goto exit0;
            break;
        }
        case 0: case 3: default: {
            goto exit1;
            break;
        }
        }
exit0:;
        l0 = l2;
        goto exit2;
        break;
    }
    case 1: default: {
        goto exit1;
        break;
    }
    }
exit1:;
    l0 = UINT32_C(0);
exit2:;
    return l0;
}

static INLINE uint32_t spargolutta__spg_judge_sum(slice_uint8_t l1, uint32_t l2, uint32_t l3, uint32_t l4)
{
    uint32_t l0;
    type_core__result__Result_of_Verdict_Refusal l5;
    l5 = spargolutta__answer(l1, l2, l3, l4);
    l0 = answer__sum(l5);
    return l0;
}

static INLINE uint32_t zone__judge__looked(slice_uint8_t l1, type_sphere__point__Point l2)
{
    uint32_t l0;
    type_judging__judge__Judgement l3;
    type_search__walk__Mode l4;
    l4 = (type_search__walk__Mode){.tag = 2};
    l3 = zone__judge__judged(l1, l2, l4);
    l0 = l3.f1;
    return l0;
}

static INLINE uint32_t spargolutta__spg_judge_looked(slice_uint8_t l1, uint32_t l2, uint32_t l3, uint32_t l4)
{
    uint32_t l0;
    type_sphere__point__Point l5;
    l5 = spargolutta__query(l2, l3, l4);
    l0 = zone__judge__looked(l1, l5);
    return l0;
}

static INLINE type_core__result__Result_of_unit_Refusal feed__size_check(slice_uint8_t l1, uint64_t l2)
{
    type_core__result__Result_of_unit_Refusal l0;
    uint64_t l3;
    uint64_t l4;
    uint64_t l5;
    bool l6;
    type_answer__Refusal l8;
    type_answer__Reason l9;
    bool l10;
    type_core__result__Result_of_unit_Refusal l11;
    type_answer__Refusal l12;
    type_answer__Reason l13;
    l4 = l1.f1;
    l5 = (l4 / UINT64_C(12));
    l3 = (l5 * UINT64_C(12));
    l4 = l1.f1;
    l5 = (l4 % UINT64_C(12));
    l6 = (l5 != UINT64_C(0));
    if (l6) {
        l9 = (type_answer__Reason){.tag = 16};
        l8 = answer__Reason__at(l9, UINT64_C(0));
        l0 = (type_core__result__Result_of_unit_Refusal){.tag = 1, .s0 = l8};
    } else {
        l10 = (l2 < l3);
        if (l10) {
            l13 = (type_answer__Reason){.tag = 17};
            l12 = answer__Reason__at(l13, l3);
            l11 = (type_core__result__Result_of_unit_Refusal){.tag = 1, .s0 = l12};
        } else {
            l11 = (type_core__result__Result_of_unit_Refusal){.tag = 0};
        }
        l0 = l11;
    }
    return l0;
}

static INLINE type_core__result__Result_of_Verdict_Refusal core__result__ResultFromResidualErrResidual__from_residual_of_Verdict_Refusal_Refusal(type_core__result__ErrResidual_of_Refusal l1)
{
    type_core__result__Result_of_Verdict_Refusal l0;
    type_answer__Refusal l2;
    type_answer__Refusal l3;
    l3 = l1.f0;
    l2 = core__convert__AnyFrom__from_of_Refusal(l3);
    l0 = (type_core__result__Result_of_Verdict_Refusal){.tag = 1, .s1 = l2};
    return l0;
}

static INLINE uint64_t core__int__i64__unsigned_abs(uint64_t l1)
{
    uint64_t l0;
    bool l2;
    uint64_t l4;
    uint64_t l5;
    l2 = (signed64(l1) < signed64(UINT64_C(0)));
    if (l2) {
        l4 = (uint64_t)~l1;
        l5 = (uint64_t)l4;
        l0 = (l5 + UINT64_C(1));
    } else {
        l0 = (uint64_t)l1;
    }
    return l0;
}

static INLINE type_azimuths__azimuth__Frame azimuths__azimuth__turned(bool l1, type_sphere__point__Point l2, type_sphere__point__Point l3)
{
    type_azimuths__azimuth__Frame l0;
    bool l4;
    l4 = l1;
    if (l4) {
        l0 = (type_azimuths__azimuth__Frame){.f0 = l2, .f1 = l3};
    } else {
        l0 = (type_azimuths__azimuth__Frame){.f0 = l3, .f1 = l2};
    }
    return l0;
}

static INLINE type_azimuths__azimuth__Frame azimuths__azimuth__frame_of(type_sphere__point__Point l1)
{
    type_azimuths__azimuth__Frame l0;
    uint64_t l2;
    uint64_t l3;
    uint64_t l4;
    type_sphere__point__Point l5;
    type_sphere__point__Point l6;
    type_sphere__point__Point l7;
    uint64_t l8;
    bool l10;
    uint64_t l11;
    uint64_t l12;
    uint64_t l13;
    uint64_t l14;
    bool l15;
    bool l16;
    uint64_t l17;
    uint64_t l18;
    bool l19;
    type_azimuths__azimuth__Frame l20;
    bool l21;
    bool l22;
    l2 = l1.f0;
    l3 = l1.f1;
    l4 = l1.f2;
    l8 = (UINT64_C(0) - l4);
    l5 = (type_sphere__point__Point){.f0 = UINT64_C(0), .f1 = l8, .f2 = l3};
    l8 = (UINT64_C(0) - l2);
    l6 = (type_sphere__point__Point){.f0 = l4, .f1 = UINT64_C(0), .f2 = l8};
    l8 = (UINT64_C(0) - l3);
    l7 = (type_sphere__point__Point){.f0 = l8, .f1 = l2, .f2 = UINT64_C(0)};
    l11 = core__int__i64__unsigned_abs(l4);
    l12 = core__int__i64__unsigned_abs(l2);
    l10 = (l12 <= l11);
    if (l10) {
        l13 = core__int__i64__unsigned_abs(l4);
        l14 = core__int__i64__unsigned_abs(l3);
        l10 = (l14 <= l13);
        l15 = l10;
        if (l15) {
            l16 = (signed64(UINT64_C(0)) < signed64(l4));
            l0 = azimuths__azimuth__turned(l16, l5, l6);
            goto exit0;
        }
    }
    l17 = core__int__i64__unsigned_abs(l3);
    l18 = core__int__i64__unsigned_abs(l2);
    l19 = (l18 <= l17);
    if (l19) {
        l21 = (signed64(UINT64_C(0)) < signed64(l3));
        l20 = azimuths__azimuth__turned(l21, l7, l5);
    } else {
        l22 = (signed64(UINT64_C(0)) < signed64(l2));
        l20 = azimuths__azimuth__turned(l22, l6, l7);
    }
    l0 = l20;
exit0:;
    return l0;
}

static INLINE uint64_t azimuths__azimuth__quarter(bool l1, bool l2)
{
    uint64_t l0;
    bool l3;
    bool l4;
    l3 = l1;
    l4 = l2;
    if (l3) {
        if (l4) {
            l0 = UINT64_C(32768);
        } else {
            l0 = UINT64_C(16384);
        }
    } else {
        if (l4) {
            l0 = UINT64_C(49152);
        } else {
            l0 = UINT64_C(0);
        }
    }
    return l0;
}

static INLINE uint64_t azimuths__azimuth__part(uint64_t l1, uint64_t l2)
{
    uint64_t l0;
    uint64_t l3;
    bool l4;
    uint64_t l6;
    uint64_t l7;
    uint64_t l8;
    uint64_t l9;
    uint64_t l10;
    uint64_t l11;
    l4 = (l1 < UINT64_C(281474976710656));
    if (l4) {
        l6 = (l1 << 14);
        l0 = (l6 / l2);
    } else {
        l3 = (l1 << 9);
        l7 = (l3 / l2);
        l8 = (l7 << 5);
        l9 = (l3 % l2);
        l10 = (l9 << 5);
        l11 = (l10 / l2);
        l0 = (l8 + l11);
    }
    return l0;
}

static INLINE uint16_t azimuths__azimuth__azimuth_by(uint64_t l1, uint64_t l2)
{
    uint16_t l0;
    uint64_t l3;
    uint64_t l4;
    uint64_t l5;
    uint64_t l6;
    uint64_t l7;
    bool l8;
    bool l9;
    bool l10;
    uint64_t l11;
    uint64_t l12;
    uint64_t l13;
    uint64_t l14;
    l7 = core__int__i64__unsigned_abs(l1);
    l3 = l7;
    l7 = core__int__i64__unsigned_abs(l2);
    l4 = l7;
    l5 = (l3 + l4);
    l8 = (l5 == UINT64_C(0));
    if (l8) {
        l0 = 0;
        return l0;
    }
    l8 = (signed64(l1) < signed64(UINT64_C(0)));
    l9 = (signed64(l2) < signed64(UINT64_C(0)));
    l10 = (l8 ^ l9);
    if (l10) {
        l11 = l3;
    } else {
        l11 = l4;
    }
    l6 = l11;
    l8 = (signed64(l1) < signed64(UINT64_C(0)));
    l10 = (signed64(l2) < signed64(UINT64_C(0)));
    l12 = azimuths__azimuth__quarter(l8, l10);
    l13 = azimuths__azimuth__part(l6, l5);
    l14 = (l12 + l13);
    l0 = (uint16_t)l14;
    return l0;
}

static INLINE uint16_t azimuths__sectors__azimuth(type_azimuths__azimuth__Frame l1, type_sphere__point__Point l2)
{
    uint16_t l0;
    uint64_t l3;
    type_sphere__point__Point l4;
    uint64_t l5;
    type_sphere__point__Point l6;
    l4 = l1.f0;
    l3 = sphere__orientation__dot(l4, l2);
    l6 = l1.f1;
    l5 = sphere__orientation__dot(l6, l2);
    l0 = azimuths__azimuth__azimuth_by(l3, l5);
    return l0;
}

static INLINE bool azimuths__sectors__turns_left(type_sphere__point__Grid l1, slice_uint32_t l2, type_sphere__point__Point l3, uint64_t l4)
{
    bool l0;
    uint64_t l5;
    type_sphere__point__Point l6;
    type_sphere__point__Point l7;
    l6 = polygon__vertices__vertex_at(l2, l4);
    l7 = polygon__vertices__end_of(l2, l4);
    l5 = sphere__plane__turn(l1, l6, l7, l3);
    l0 = (signed64(UINT64_C(0)) < signed64(l5));
    return l0;
}

static INLINE uint16_t core__convert__others__U16FromBool__from(bool l1)
{
    uint16_t l0;
    l0 = (uint16_t)l1;
    return l0;
}

static INLINE uint16_t azimuths__sectors__gap(uint16_t l1, uint16_t l2)
{
    uint16_t l0;
    l0 = (uint16_t)((uint32_t)l1 - l2);
    return l0;
}

static INLINE type_azimuths__sectors__Sector azimuths__sectors__sector_of(uint16_t l1, uint16_t l2, bool l3)
{
    type_azimuths__sectors__Sector l0;
    uint16_t l4;
    uint16_t l5;
    uint16_t l6;
    type_tuple_of_u16_u16 l7;
    bool l8;
    type_tuple_of_u16_u16 l9;
    uint16_t l10;
    bool l11;
    uint16_t l12;
    uint16_t l13;
    l8 = l3;
    if (l8) {
        l9 = (type_tuple_of_u16_u16){.f0 = l1, .f1 = l2};
    } else {
        l9 = (type_tuple_of_u16_u16){.f0 = l2, .f1 = l1};
    }
    l7 = l9;
    l4 = l7.f0;
    l5 = l7.f1;
    l10 = (uint16_t)((uint32_t)l4 % 2);
    l8 = (l10 == 1);
    l11 = (l8 != l3);
    l6 = core__convert__others__U16FromBool__from(l11);
    l10 = azimuths__sectors__gap(l4, l6);
    l12 = azimuths__sectors__gap(l5, l4);
    l13 = (uint16_t)((uint32_t)l12 + l6);
    l0 = (type_azimuths__sectors__Sector){.f0 = l10, .f1 = l13};
    return l0;
}

static INLINE void azimuths__sectors__put_sectors_either(type_sphere__point__Grid l1, slice_uint32_t l2, type_sphere__point__Point l3, type_azimuths__azimuth__Frame l4, slice_uint16_t l5)
{
    uint64_t l6;
    uint16_t l7;
    uint64_t l8;
    uint16_t l9;
    type_azimuths__sectors__Sector l10;
    uint64_t l11;
    type_sphere__point__Point l12;
    bool l13;
    type_sphere__point__Point l14;
    uint16_t l15;
    uint64_t l16;
    uint64_t l17;
    unsigned char *l18;
    uint16_t l19;
    uint64_t l20;
    unsigned char *l21;
    l11 = l2.f1;
    l6 = (l11 / UINT64_C(3));
    l12 = polygon__vertices__vertex_at(l2, UINT64_C(0));
    l7 = azimuths__sectors__azimuth(l4, l12);
    l8 = UINT64_C(0);
    for (;;) {
        l13 = (l8 < l6);
        if (l13) {
        } else {
            goto exit0;
        }
        l14 = polygon__vertices__end_of(l2, l8);
        l9 = azimuths__sectors__azimuth(l4, l14);
        l13 = azimuths__sectors__turns_left(l1, l2, l3, l8);
        l10 = azimuths__sectors__sector_of(l7, l9, l13);
        l15 = l10.f0;
        l16 = (l8 << 1);
        l17 = (l16 << 1);
        l18 = ((unsigned char *)(void *)l5.f0 + (size_t)l17);
        (*(uint16_t *)(void *)l18) = l15;
        l19 = l10.f1;
        l16 = (l8 << 1);
        l17 = (l16 + UINT64_C(1));
        l20 = (l17 << 1);
        l21 = ((unsigned char *)(void *)l5.f0 + (size_t)l20);
        (*(uint16_t *)(void *)l21) = l19;
        l7 = l9;
        l8 = (l8 + UINT64_C(1));
    }
exit0:;
    return;
}

static void azimuths__sectors__put_sectors(type_sphere__point__Grid l1, slice_uint32_t l2, type_sphere__point__Point l3, type_azimuths__azimuth__Frame l4, slice_uint16_t l5)
{
    if (l1.tag == 0)
        azimuths__sectors__put_sectors_either((type_sphere__point__Grid){.tag = 0}, l2, l3, l4, l5);
    else
        azimuths__sectors__put_sectors_either((type_sphere__point__Grid){.tag = 1}, l2, l3, l4, l5);
}

static INLINE bool azimuths__sectors__is_missed(slice_uint16_t l1, uint16_t l2, uint16_t l3, uint64_t l4)
{
    bool l0;
    uint16_t l5;
    uint16_t l6;
    uint64_t l7;
    uint64_t l8;
    unsigned char *l9;
    uint16_t l10;
    uint64_t l11;
    unsigned char *l12;
    uint16_t l13;
    bool l14;
    uint16_t l15;
    bool l16;
    l7 = (l4 << 1);
    l8 = (l7 << 1);
    l9 = ((unsigned char *)(void *)l1.f0 + (size_t)l8);
    l10 = (*(uint16_t *)(void *)l9);
    l5 = l10;
    l7 = (l4 << 1);
    l8 = (l7 + UINT64_C(1));
    l11 = (l8 << 1);
    l12 = ((unsigned char *)(void *)l1.f0 + (size_t)l11);
    l10 = (*(uint16_t *)(void *)l12);
    l6 = l10;
    l10 = azimuths__sectors__gap(l5, l2);
    l13 = (uint16_t)((uint32_t)l3 - l2);
    l14 = (l13 < l10);
    l15 = azimuths__sectors__gap(l2, l5);
    l16 = (l6 < l15);
    l0 = (l14 & l16);
    return l0;
}

static INLINE uint64_t cones__lists__first_list(uint64_t l1, slice_uint16_t l2, uint16_t l3, uint16_t l4, slice_uint16_t l5)
{
    uint64_t l0;
    uint64_t l6;
    uint64_t l7;
    bool l8;
    uint16_t l9;
    uint64_t l10;
    unsigned char *l11;
    bool l12;
    l6 = UINT64_C(0);
    l7 = UINT64_C(0);
    for (;;) {
        l8 = (l7 < l1);
        if (l8) {
        } else {
            goto exit0;
        }
        l9 = (uint16_t)l7;
        l10 = (l6 << 1);
        l11 = ((unsigned char *)(void *)l5.f0 + (size_t)l10);
        (*(uint16_t *)(void *)l11) = l9;
        l8 = azimuths__sectors__is_missed(l2, l3, l4, l7);
        l12 = !l8;
        if (l12) {
            l6 = (l6 + UINT64_C(1));
        }
        l7 = (l7 + UINT64_C(1));
    }
exit0:;
    l0 = l6;
    return l0;
}

static INLINE uint64_t core__int__usize__saturating_sub(uint64_t l1, uint64_t l2)
{
    uint64_t l0;
    bool l3;
    l3 = (l2 <= l1);
    if (l3) {
        l0 = (l1 - l2);
    } else {
        l0 = UINT64_C(0);
    }
    return l0;
}

static INLINE uint64_t cones__grow__rest(uint64_t l1, uint64_t l2, uint64_t l3)
{
    uint64_t l0;
    uint64_t l4;
    l4 = core__int__usize__saturating_sub(l3, l2);
    l0 = core__int__usize__saturating_sub(l1, l4);
    return l0;
}

static INLINE uint64_t core__convert__UsizeFromU16__from(uint16_t l1)
{
    uint64_t l0;
    l0 = (uint64_t)l1;
    return l0;
}

static INLINE bool cones__grow__may_halve(type_cones__table__Cone l1, uint64_t l2)
{
    bool l0;
    uint64_t l3;
    bool l4;
    bool l5;
    bool l6;
    bool l7;
    uint64_t l8;
    l3 = (l1.f1 - l1.f0);
    l7 = (UINT64_C(0) < l1.f5);
    l7 = (l7 && (l1.f2 < l1.f3));
    l6 = l7;
    l6 = (l6 && (UINT64_C(2) <= l1.f4));
    l5 = l6;
    l5 = (l5 && (UINT64_C(6) < l3));
    l4 = l5;
    if (l4) {
        l8 = (l2 - l1.f1);
        l4 = (l3 <= l8);
    }
    l0 = l4;
    return l0;
}

static INLINE bool azimuths__sectors__is_passed(slice_uint16_t l1, uint16_t l2, uint64_t l3)
{
    bool l0;
    uint16_t l4;
    uint64_t l5;
    uint64_t l6;
    unsigned char *l7;
    uint16_t l8;
    uint64_t l9;
    uint64_t l10;
    uint64_t l11;
    unsigned char *l12;
    uint16_t l13;
    l5 = (l3 << 1);
    l6 = (l5 << 1);
    l7 = ((unsigned char *)(void *)l1.f0 + (size_t)l6);
    l8 = (*(uint16_t *)(void *)l7);
    l4 = azimuths__sectors__gap(l2, l8);
    l9 = (l3 << 1);
    l10 = (l9 + UINT64_C(1));
    l11 = (l10 << 1);
    l12 = ((unsigned char *)(void *)l1.f0 + (size_t)l11);
    l13 = (*(uint16_t *)(void *)l12);
    l0 = (l4 < l13);
    return l0;
}

static INLINE uint64_t core__convert__others__UsizeFromBool__from(bool l1)
{
    uint64_t l0;
    l0 = (uint64_t)l1;
    return l0;
}

static INLINE type_cones__lists__Tail cones__lists__filter(uint64_t l1, slice_uint16_t l2, uint16_t l3, uint16_t l4, uint16_t l5, slice_uint16_t l6, uint64_t l7, uint64_t l8)
{
    type_cones__lists__Tail l0;
    uint64_t l9;
    uint64_t l10;
    uint64_t l11;
    uint16_t l12;
    uint64_t l13;
    bool l14;
    uint64_t l15;
    unsigned char *l16;
    uint16_t l17;
    unsigned char *l18;
    bool l19;
    (void)l1;
    l9 = l8;
    l10 = UINT64_C(0);
    l11 = l7;
    for (;;) {
        l14 = (l11 < l8);
        if (l14) {
        } else {
            goto exit0;
        }
        l15 = (l11 << 1);
        l16 = ((unsigned char *)(void *)l6.f0 + (size_t)l15);
        l17 = (*(uint16_t *)(void *)l16);
        l12 = l17;
        l15 = (l9 << 1);
        l18 = ((unsigned char *)(void *)l6.f0 + (size_t)l15);
        (*(uint16_t *)(void *)l18) = l12;
        l13 = core__convert__UsizeFromU16__from(l12);
        l14 = azimuths__sectors__is_missed(l2, l3, l4, l13);
        l19 = !l14;
        if (l19) {
            l9 = (l9 + UINT64_C(1));
        }
        l19 = azimuths__sectors__is_passed(l2, l5, l13);
        l15 = core__convert__others__UsizeFromBool__from(l19);
        l10 = (l10 + l15);
        l11 = (l11 + UINT64_C(1));
    }
exit0:;
    l0 = (type_cones__lists__Tail){.f0 = l9, .f1 = l10};
    return l0;
}

static INLINE type_cones__lists__Part cones__lists__sift(uint64_t l1, slice_uint16_t l2, uint16_t l3, uint16_t l4, uint16_t l5, slice_uint16_t l6, uint64_t l7, uint64_t l8)
{
    type_cones__lists__Part l0;
    type_cones__lists__Tail l9;
    uint64_t l10;
    uint16_t *l11;
    slice_uint16_t l12;
    uint64_t l13;
    uint64_t l14;
    bool l15;
    l11 = (uint16_t *)(void *)&(*l6.f0);
    l12 = (slice_uint16_t){.f0 = l11, .f1 = l6.f1};
    l9 = cones__lists__filter(l1, l2, l3, l4, l5, l12, l7, l8);
    l10 = l9.f0;
    l13 = (l10 - l8);
    l14 = (l8 - l7);
    l15 = (l13 == l14);
    if (l15) {
        l0 = (type_cones__lists__Part){.f0 = l7, .f1 = l8, .f2 = l9.f1};
        return l0;
    }
    l0 = (type_cones__lists__Part){.f0 = l8, .f1 = l10, .f2 = l9.f1};
    return l0;
}

static INLINE bool cones__grow__is_worth(uint64_t l1, uint64_t l2, uint64_t l3)
{
    bool l0;
    bool l4;
    bool l5;
    bool l6;
    uint64_t l8;
    uint64_t l9;
    uint64_t l10;
    uint64_t l11;
    l4 = (UINT64_C(65535) < l2);
    if (l4) {
    } else {
        l4 = (UINT64_C(65535) < l3);
        l5 = l4;
        if (l5) {
        } else {
            goto exit0;
        }
    }
    l0 = false;
    return l0;
    goto exit1;
exit0:;
exit1:;
    l6 = (UINT64_C(2048) < l1);
    if (l6) {
        l8 = (l3 << 1);
        l9 = (l2 * UINT64_C(3));
        l0 = (l8 <= l9);
    } else {
        l10 = (l3 << 2);
        l11 = (l2 * UINT64_C(7));
        l0 = (l10 <= l11);
    }
    return l0;
}

static INLINE uint64_t cones__grow__share(uint64_t l1, uint64_t l2, uint64_t l3)
{
    uint64_t l0;
    bool l4;
    bool l5;
    bool l6;
    uint64_t l7;
    uint64_t l8;
    uint64_t l9;
    l5 = (UINT64_C(65535) < l1);
    if (l5) {
    } else {
        l5 = (UINT64_C(65535) < l2);
        l4 = l5;
        if (l4) {
        } else {
            l4 = (UINT64_C(65535) < l3);
            l6 = l4;
            if (l6) {
            } else {
                goto exit0;
            }
        }
    }
    l0 = UINT64_C(1);
    return l0;
    goto exit1;
exit0:;
exit1:;
    l7 = (l1 * l2);
    l8 = (l3 + UINT64_C(1));
    l9 = (l7 / l8);
    l0 = core__int__usize__max(l9, UINT64_C(1));
    return l0;
}

static INLINE type_cones__table__Cone cones__grow__half_of(type_cones__table__Cone l1, uint16_t l2, uint16_t l3, type_cones__lists__Part l4, uint64_t l5)
{
    type_cones__table__Cone l0;
    uint64_t l6;
    l6 = (l1.f5 - UINT64_C(1));
    l0 = (type_cones__table__Cone){.f0 = l4.f0, .f1 = l4.f1, .f2 = l2, .f3 = l3, .f4 = l5, .f5 = l6};
    return l0;
}

static INLINE type_core__option__Option_of_Cone cones__grow__lower(uint64_t l1, slice_uint16_t l2, slice_uint16_t l3, type_cones__table__Cone l4)
{
    type_core__option__Option_of_Cone l0;
    uint64_t l5;
    uint64_t l6;
    uint16_t l7;
    uint16_t l8;
    type_cones__lists__Part l9;
    uint64_t l10;
    uint64_t l11;
    uint64_t l12;
    bool l13;
    uint64_t l14;
    bool l15;
    uint16_t l16;
    uint16_t l17;
    uint16_t *l18;
    slice_uint16_t l19;
    type_cones__table__Cone l20;
    l5 = l4.f0;
    l6 = l4.f1;
    l7 = l4.f2;
    l14 = l3.f1;
    l13 = cones__grow__may_halve(l4, l14);
    l15 = !l13;
    if (l15) {
        l0 = (type_core__option__Option_of_Cone){.tag = 0};
        return l0;
    }
    l16 = (uint16_t)((uint32_t)l4.f3 - l7);
    l17 = (uint16_t)((uint32_t)l16 / 2);
    l8 = (uint16_t)((uint32_t)l7 + l17);
    l18 = (uint16_t *)(void *)&(*l3.f0);
    l19 = (slice_uint16_t){.f0 = l18, .f1 = l3.f1};
    l9 = cones__lists__sift(l1, l2, l7, l8, l8, l19, l5, l6);
    l10 = (l6 - l5);
    l11 = (l10 + l9.f2);
    l13 = cones__grow__is_worth(l1, l10, l11);
    l15 = !l13;
    if (l15) {
        l0 = (type_core__option__Option_of_Cone){.tag = 0};
        return l0;
    }
    l14 = (l9.f1 - l9.f0);
    l12 = cones__grow__share(l4.f4, l14, l11);
    l20 = cones__grow__half_of(l4, l7, l8, l9, l12);
    l0 = (type_core__option__Option_of_Cone){.tag = 1, .s0 = l20};
    return l0;
}

static INLINE bool cones__table__has_room(uint64_t l1, uint64_t l2, uint64_t l3, uint64_t l4, uint64_t l5)
{
    bool l0;
    bool l6;
    bool l7;
    uint64_t l8;
    uint64_t l9;
    uint64_t l10;
    l8 = (l3 << 2);
    l9 = (l1 - l8);
    l7 = (UINT64_C(4) <= l9);
    l7 = (l7 && (l2 <= UINT64_C(65535)));
    l6 = l7;
    if (l6) {
        l10 = (l2 - l4);
        l6 = (l5 <= l10);
    }
    l0 = l6;
    return l0;
}

static INLINE void cones__table__copy(slice_uint16_t l1, uint64_t l2, uint64_t l3, slice_uint16_t l4, uint64_t l5)
{
    uint64_t l6;
    bool l7;
    uint64_t l8;
    unsigned char *l9;
    uint16_t l10;
    uint64_t l11;
    uint64_t l12;
    uint64_t l13;
    unsigned char *l14;
    l6 = l2;
    for (;;) {
        l7 = (l6 < l3);
        if (l7) {
        } else {
            goto exit0;
        }
        l8 = (l6 << 1);
        l9 = ((unsigned char *)(void *)l1.f0 + (size_t)l8);
        l10 = (*(uint16_t *)(void *)l9);
        l11 = (l6 - l2);
        l12 = (l5 + l11);
        l13 = (l12 << 1);
        l14 = ((unsigned char *)(void *)l4.f0 + (size_t)l13);
        (*(uint16_t *)(void *)l14) = l10;
        l6 = (l6 + UINT64_C(1));
    }
exit0:;
    return;
}

static INLINE uint64_t cones__table__put_node(uint64_t l1, slice_uint16_t l2, slice_uint16_t l3, slice_uint16_t l4, slice_uint16_t l5, type_cones__table__Cone l6, uint64_t l7, uint64_t l8)
{
    uint64_t l0;
    uint64_t l9;
    uint64_t l10;
    uint64_t l11;
    uint64_t l12;
    uint16_t *l14;
    slice_uint16_t l15;
    uint16_t l16;
    uint64_t l17;
    unsigned char *l18;
    uint16_t l19;
    uint64_t l20;
    unsigned char *l21;
    uint16_t l22;
    unsigned char *l23;
    unsigned char *l24;
    (void)l1;
    (void)l2;
    l9 = l6.f0;
    l10 = l6.f1;
    l12 = (l10 - l9);
    l11 = (l8 + l12);
    l14 = (uint16_t *)(void *)&(*l4.f0);
    l15 = (slice_uint16_t){.f0 = l14, .f1 = l4.f1};
    cones__table__copy(l5, l9, l10, l15, l8);
    l16 = l6.f2;
    l12 = (l7 << 2);
    l17 = (l12 << 1);
    l18 = ((unsigned char *)(void *)l3.f0 + (size_t)l17);
    (*(uint16_t *)(void *)l18) = l16;
    l19 = l6.f3;
    l12 = (l7 << 2);
    l17 = (l12 + UINT64_C(1));
    l20 = (l17 << 1);
    l21 = ((unsigned char *)(void *)l3.f0 + (size_t)l20);
    (*(uint16_t *)(void *)l21) = l19;
    l22 = (uint16_t)l8;
    l12 = (l7 << 2);
    l20 = (l12 + UINT64_C(2));
    l17 = (l20 << 1);
    l23 = ((unsigned char *)(void *)l3.f0 + (size_t)l17);
    (*(uint16_t *)(void *)l23) = l22;
    l22 = (uint16_t)l11;
    l17 = (l7 << 2);
    l20 = (l17 + UINT64_C(3));
    l12 = (l20 << 1);
    l24 = ((unsigned char *)(void *)l3.f0 + (size_t)l12);
    (*(uint16_t *)(void *)l24) = l22;
    l0 = l11;
    return l0;
}

static INLINE type_cones__table__Size cones__table__put_leaf(uint64_t l1, slice_uint16_t l2, slice_uint16_t l3, slice_uint16_t l4, slice_uint16_t l5, type_cones__table__Cone l6, type_cones__table__Size l7)
{
    type_cones__table__Size l0;
    uint64_t l8;
    uint64_t l9;
    uint64_t l10;
    uint64_t l11;
    bool l13;
    uint64_t l14;
    uint64_t l15;
    uint64_t l16;
    uint64_t l17;
    bool l18;
    uint16_t *l19;
    slice_uint16_t l20;
    uint16_t *l21;
    slice_uint16_t l22;
    uint64_t l23;
    l8 = l7.f0;
    l9 = l7.f1;
    l10 = (l6.f1 - l6.f0);
    l14 = (l1 / UINT64_C(6));
    l15 = (l14 + UINT64_C(21));
    l13 = (l10 <= l15);
    if (l13) {
        l16 = l3.f1;
        l17 = l4.f1;
        l13 = cones__table__has_room(l16, l17, l8, l9, l10);
        l18 = l13;
        if (l18) {
            l19 = (uint16_t *)(void *)&(*l3.f0);
            l20 = (slice_uint16_t){.f0 = l19, .f1 = l3.f1};
            l21 = (uint16_t *)(void *)&(*l4.f0);
            l22 = (slice_uint16_t){.f0 = l21, .f1 = l4.f1};
            l11 = cones__table__put_node(l1, l2, l20, l22, l5, l6, l8, l9);
            l23 = (l8 + UINT64_C(1));
            l0 = (type_cones__table__Size){.f0 = l23, .f1 = l11};
            goto exit0;
        }
    }
    l0 = l7;
exit0:;
    return l0;
}

static INLINE type_cones__table__Cone cones__grow__upper(uint64_t l1, slice_uint16_t l2, slice_uint16_t l3, type_cones__table__Cone l4, uint16_t l5, uint64_t l6)
{
    type_cones__table__Cone l0;
    uint64_t l7;
    uint64_t l8;
    uint16_t l9;
    uint16_t l10;
    type_cones__lists__Part l11;
    uint16_t *l12;
    slice_uint16_t l13;
    l7 = l4.f0;
    l8 = l4.f1;
    l9 = (uint16_t)((uint32_t)l5 + 1);
    l10 = l4.f3;
    l12 = (uint16_t *)(void *)&(*l3.f0);
    l13 = (slice_uint16_t){.f0 = l12, .f1 = l3.f1};
    l11 = cones__lists__sift(l1, l2, l9, l10, l9, l13, l7, l8);
    l0 = cones__grow__half_of(l4, l9, l10, l11, l6);
    return l0;
}

static type_cones__table__Size cones__grow__grow(uint64_t l1, slice_uint16_t l2, slice_uint16_t l3, slice_uint16_t l4, slice_uint16_t l5, type_cones__table__Cone l6, type_cones__table__Size l7)
{
    type_cones__table__Size l0;
    type_cones__table__Cone l8;
    type_cones__table__Size l9;
    uint64_t l10;
    type_cones__table__Cone l11;
    type_core__option__Option_of_Cone l12;
    uint16_t *l13;
    slice_uint16_t l14;
    uint16_t *l15;
    slice_uint16_t l16;
    uint16_t *l17;
    slice_uint16_t l18;
    uint16_t *l19;
    slice_uint16_t l20;
    uint16_t *l21;
    slice_uint16_t l22;
    uint16_t *l23;
    slice_uint16_t l24;
    uint16_t *l25;
    slice_uint16_t l26;
    uint16_t *l27;
    slice_uint16_t l28;
    uint16_t *l29;
    slice_uint16_t l30;
    uint16_t *l31;
    slice_uint16_t l32;
    uint16_t *l33;
    slice_uint16_t l34;
    l13 = (uint16_t *)(void *)&(*l5.f0);
    l14 = (slice_uint16_t){.f0 = l13, .f1 = l5.f1};
    l12 = cones__grow__lower(l1, l2, l14, l6);
    switch (l12.tag) {
    case 1: {
        l8 = l12.s0;
        break;
    }
    case 0: default: {
        l15 = (uint16_t *)(void *)&(*l3.f0);
        l16 = (slice_uint16_t){.f0 = l15, .f1 = l3.f1};
        l17 = (uint16_t *)(void *)&(*l4.f0);
        l18 = (slice_uint16_t){.f0 = l17, .f1 = l4.f1};
        l19 = (uint16_t *)(void *)&(*l5.f0);
        l20 = (slice_uint16_t){.f0 = l19, .f1 = l5.f1};
        l0 = cones__table__put_leaf(l1, l2, l16, l18, l20, l6, l7);
        return l0;
        break;
    }
    }
    l21 = (uint16_t *)(void *)&(*l3.f0);
    l22 = (slice_uint16_t){.f0 = l21, .f1 = l3.f1};
    l23 = (uint16_t *)(void *)&(*l4.f0);
    l24 = (slice_uint16_t){.f0 = l23, .f1 = l4.f1};
    l25 = (uint16_t *)(void *)&(*l5.f0);
    l26 = (slice_uint16_t){.f0 = l25, .f1 = l5.f1};
    l9 = cones__grow__grow(l1, l2, l22, l24, l26, l8, l7);
    l10 = cones__grow__rest(l6.f4, l7.f0, l9.f0);
    l27 = (uint16_t *)(void *)&(*l5.f0);
    l28 = (slice_uint16_t){.f0 = l27, .f1 = l5.f1};
    l11 = cones__grow__upper(l1, l2, l28, l6, l8.f3, l10);
    l29 = (uint16_t *)(void *)&(*l3.f0);
    l30 = (slice_uint16_t){.f0 = l29, .f1 = l3.f1};
    l31 = (uint16_t *)(void *)&(*l4.f0);
    l32 = (slice_uint16_t){.f0 = l31, .f1 = l4.f1};
    l33 = (uint16_t *)(void *)&(*l5.f0);
    l34 = (slice_uint16_t){.f0 = l33, .f1 = l5.f1};
    l0 = cones__grow__grow(l1, l2, l30, l32, l34, l11, l9);
    return l0;
}

static INLINE type_cones__table__Size cones__build__grow_root(uint64_t l1, slice_uint16_t l2, slice_uint16_t l3, slice_uint16_t l4, slice_uint16_t l5, uint16_t l6, type_cones__table__Size l7)
{
    type_cones__table__Size l0;
    uint16_t l8;
    uint16_t l9;
    uint64_t l10;
    uint64_t l11;
    type_cones__table__Cone l12;
    uint16_t *l13;
    slice_uint16_t l14;
    uint64_t l15;
    uint64_t l16;
    uint16_t l17;
    uint16_t *l18;
    slice_uint16_t l19;
    uint16_t *l20;
    slice_uint16_t l21;
    uint16_t *l22;
    slice_uint16_t l23;
    l8 = (uint16_t)((uint32_t)l6 * 16384);
    l9 = (uint16_t)((uint32_t)l8 + 16383);
    l13 = (uint16_t *)(void *)&(*l5.f0);
    l14 = (slice_uint16_t){.f0 = l13, .f1 = l5.f1};
    l10 = cones__lists__first_list(l1, l2, l8, l9, l14);
    l15 = cones__grow__rest(UINT64_C(512), UINT64_C(0), l7.f0);
    l17 = (uint16_t)((uint32_t)4 - l6);
    l16 = core__convert__UsizeFromU16__from(l17);
    l11 = (l15 / l16);
    l12 = (type_cones__table__Cone){.f0 = UINT64_C(0), .f1 = l10, .f2 = l8, .f3 = l9, .f4 = l11, .f5 = UINT64_C(12)};
    l18 = (uint16_t *)(void *)&(*l3.f0);
    l19 = (slice_uint16_t){.f0 = l18, .f1 = l3.f1};
    l20 = (uint16_t *)(void *)&(*l4.f0);
    l21 = (slice_uint16_t){.f0 = l20, .f1 = l4.f1};
    l22 = (uint16_t *)(void *)&(*l5.f0);
    l23 = (slice_uint16_t){.f0 = l22, .f1 = l5.f1};
    l0 = cones__grow__grow(l1, l2, l19, l21, l23, l12, l7);
    return l0;
}

static INLINE type_cones__table__Size cones__build__grow_roots(uint64_t l1, slice_uint16_t l2, slice_uint16_t l3, slice_uint16_t l4, slice_uint16_t l5)
{
    type_cones__table__Size l0;
    type_cones__table__Size l6;
    uint16_t l7;
    bool l8;
    uint16_t *l9;
    slice_uint16_t l10;
    uint16_t *l11;
    slice_uint16_t l12;
    uint16_t *l13;
    slice_uint16_t l14;
    l6 = (type_cones__table__Size){.f0 = UINT64_C(0), .f1 = UINT64_C(0)};
    l7 = 0;
    for (;;) {
        l8 = (l7 < 4);
        if (l8) {
        } else {
            goto exit0;
        }
        l9 = (uint16_t *)(void *)&(*l3.f0);
        l10 = (slice_uint16_t){.f0 = l9, .f1 = l3.f1};
        l11 = (uint16_t *)(void *)&(*l4.f0);
        l12 = (slice_uint16_t){.f0 = l11, .f1 = l4.f1};
        l13 = (uint16_t *)(void *)&(*l5.f0);
        l14 = (slice_uint16_t){.f0 = l13, .f1 = l5.f1};
        l6 = cones__build__grow_root(l1, l2, l10, l12, l14, l7, l6);
        l7 = (uint16_t)((uint32_t)l7 + 1);
    }
exit0:;
    l0 = l6;
    return l0;
}

static INLINE void cones__buckets__mark(slice_uint16_t l1, uint64_t l2, slice_uint16_t l3)
{
    uint64_t l4;
    uint64_t l5;
    bool l6;
    uint64_t l7;
    uint64_t l8;
    uint64_t l9;
    unsigned char *l10;
    uint16_t l11;
    unsigned char *l12;
    l4 = UINT64_C(0);
    for (;;) {
        l6 = (l4 < l2);
        if (l6) {
        } else {
            goto exit0;
        }
        l8 = (l4 << 2);
        l9 = (l8 << 1);
        l10 = ((unsigned char *)(void *)l1.f0 + (size_t)l9);
        l11 = (*(uint16_t *)(void *)l10);
        l7 = core__convert__UsizeFromU16__from(l11);
        l5 = (l7 / UINT64_C(64));
        l7 = (l4 + UINT64_C(1));
        l11 = (uint16_t)l7;
        l9 = (l5 + UINT64_C(1));
        l8 = (l9 << 1);
        l12 = ((unsigned char *)(void *)l3.f0 + (size_t)l8);
        (*(uint16_t *)(void *)l12) = l11;
        l4 = (l4 + UINT64_C(1));
    }
exit0:;
    return;
}

static INLINE type_core__cmp__Ordering core__cmp__numbers__U16Ord__cmp(uint16_t *l1, uint16_t *l2)
{
    type_core__cmp__Ordering l0;
    uint16_t l3;
    uint16_t l4;
    uint16_t l5;
    uint16_t l6;
    bool l7;
    bool l9;
    type_core__cmp__Ordering l10;
    l5 = (*l1);
    l6 = (*l2);
    l3 = l5;
    l4 = l6;
    l7 = (l3 == l4);
    if (l7) {
        l0 = (type_core__cmp__Ordering){.tag = 1};
    } else {
        l9 = (l3 < l4);
        if (l9) {
            l10 = (type_core__cmp__Ordering){.tag = 0};
        } else {
            l10 = (type_core__cmp__Ordering){.tag = 2};
        }
        l0 = l10;
    }
    return l0;
}

static INLINE type_core__option__Option_of_Ordering core__cmp__numbers__U16PartialOrd__partial_cmp(uint16_t *l1, uint16_t *l2)
{
    type_core__option__Option_of_Ordering l0;
    type_core__cmp__Ordering l3;
    l3 = core__cmp__numbers__U16Ord__cmp(l1, l2);
    l0 = (type_core__option__Option_of_Ordering){.tag = 1, .s0 = l3};
    return l0;
}

static INLINE bool core__cmp__Ordering__is_lt(type_core__cmp__Ordering l1)
{
    bool l0;
    switch (l1.tag) {
    case 0: {
        l0 = true;
        break;
    }
    case 1: {
        l0 = false;
        break;
    }
    case 2: default: {
        l0 = false;
        break;
    }
    }
    return l0;
}

static INLINE bool core__cmp__PartialOrd__lt_of_u16(uint16_t *l1, uint16_t *l2)
{
    bool l0;
    type_core__cmp__Ordering l3;
    type_core__option__Option_of_Ordering l4;
    l4 = core__cmp__numbers__U16PartialOrd__partial_cmp(l1, l2);
    switch (l4.tag) {
    case 1: {
        l3 = l4.s0;
        l0 = core__cmp__Ordering__is_lt(l3);
        break;
    }
    case 0: default: {
        l0 = false;
        break;
    }
    }
    return l0;
}

static INLINE uint16_t core__cmp__Ord__max_of_u16(uint16_t l1, uint16_t l2)
{
    uint16_t l0;
    uint16_t l3;
    uint16_t l4;
    bool l5;
    uint16_t *l6;
    uint16_t *l7;
    l3 = l1;
    l4 = l2;
    l6 = (uint16_t *)(void *)&l4;
    l7 = (uint16_t *)(void *)&l3;
    l5 = core__cmp__PartialOrd__lt_of_u16(l6, l7);
    if (l5) {
        l0 = l3;
    } else {
        l0 = l4;
    }
    return l0;
}

static INLINE void cones__buckets__raise(slice_uint16_t l1)
{
    uint16_t l2;
    slice_uint16_t l3;
    uint64_t l4;
    uint16_t *l5;
    uint64_t l6;
    bool l7;
    uint64_t l8;
    unsigned char *l9;
    uint16_t l10;
    l2 = 0;
    l3 = l1;
    l4 = UINT64_C(0);
    l6 = l3.f1;
    for (;;) {
        l7 = (l4 < l6);
        if (l7) {
        } else {
            goto exit0;
        }
        l8 = (l4 << 1);
        l9 = ((unsigned char *)(void *)l3.f0 + (size_t)l8);
        l5 = (uint16_t *)(void *)&(*(uint16_t *)(void *)l9);
        l10 = (*l5);
        l2 = core__cmp__Ord__max_of_u16(l2, l10);
        (*l5) = l2;
        l4 = (l4 + UINT64_C(1));
    }
exit0:;
    return;
}

static INLINE void cones__buckets__fill(slice_uint16_t l1, uint64_t l2, slice_uint16_t l3)
{
    uint16_t *l5;
    slice_uint16_t l6;
    uint16_t *l7;
    slice_uint16_t l8;
    l5 = (uint16_t *)(void *)&(*l3.f0);
    l6 = (slice_uint16_t){.f0 = l5, .f1 = l3.f1};
    cones__buckets__mark(l1, l2, l6);
    l7 = (uint16_t *)(void *)&(*l3.f0);
    l8 = (slice_uint16_t){.f0 = l7, .f1 = l3.f1};
    cones__buckets__raise(l8);
    return;
}

static INLINE type_cones__build__Index cones__build__build(type_sphere__point__Grid l1, slice_uint32_t l2, type_sphere__point__Point l3, slice_uint16_t l4, slice_uint16_t l5, slice_uint16_t l6, slice_uint16_t l7, slice_uint16_t l8)
{
    type_cones__build__Index l0;
    type_azimuths__azimuth__Frame l9;
    type_cones__table__Size l10;
    uint16_t *l12;
    slice_uint16_t l13;
    uint64_t l14;
    uint64_t l15;
    uint16_t *l16;
    slice_uint16_t l17;
    uint16_t *l18;
    slice_uint16_t l19;
    uint16_t *l20;
    slice_uint16_t l21;
    uint16_t *l22;
    slice_uint16_t l23;
    uint16_t *l24;
    slice_uint16_t l25;
    uint16_t *l26;
    slice_uint16_t l27;
    l9 = azimuths__azimuth__frame_of(l3);
    l12 = (uint16_t *)(void *)&(*l4.f0);
    l13 = (slice_uint16_t){.f0 = l12, .f1 = l4.f1};
    azimuths__sectors__put_sectors(l1, l2, l3, l9, l13);
    l14 = l2.f1;
    l15 = (l14 / UINT64_C(3));
    l16 = (uint16_t *)(void *)&(*l4.f0);
    l17 = (slice_uint16_t){.f0 = l16, .f1 = l4.f1};
    l18 = (uint16_t *)(void *)&(*l5.f0);
    l19 = (slice_uint16_t){.f0 = l18, .f1 = l5.f1};
    l20 = (uint16_t *)(void *)&(*l7.f0);
    l21 = (slice_uint16_t){.f0 = l20, .f1 = l7.f1};
    l22 = (uint16_t *)(void *)&(*l8.f0);
    l23 = (slice_uint16_t){.f0 = l22, .f1 = l8.f1};
    l10 = cones__build__grow_roots(l15, l17, l19, l21, l23);
    l24 = (uint16_t *)(void *)&(*l5.f0);
    l25 = (slice_uint16_t){.f0 = l24, .f1 = l5.f1};
    l26 = (uint16_t *)(void *)&(*l6.f0);
    l27 = (slice_uint16_t){.f0 = l26, .f1 = l6.f1};
    cones__buckets__fill(l25, l10.f0, l27);
    l0 = (type_cones__build__Index){.f0 = l10.f0, .f1 = l10.f1, .f2 = l9};
    return l0;
}

static INLINE type_search__walk__Mode feed__mode_for(uint64_t l1)
{
    type_search__walk__Mode l0;
    bool l2;
    l2 = (UINT64_C(192) < l1);
    if (l2) {
        l0 = (type_search__walk__Mode){.tag = 1};
    } else {
        l0 = (type_search__walk__Mode){.tag = 0};
    }
    return l0;
}

static INLINE bool feed__indexed__is_left_out(type_sphere__point__Grid l1, uint64_t l2, type_sphere__point__Point l3, type_sphere__point__Point l4)
{
    bool l0;
    bool l5;
    bool l6;
    l6 = (l2 == UINT64_C(0));
    if (l6) {
    } else {
        l6 = sphere__point__is_off_grid(l1, l4);
    }
    l5 = l6;
    if (l5) {
    } else {
        l5 = sphere__direction__antipodal(l3, l4);
    }
    l0 = l5;
    return l0;
}

static INLINE uint64_t cones__query__locate(slice_uint16_t l1, uint64_t l2, uint64_t l3, uint64_t l4, uint16_t l5)
{
    uint64_t l0;
    uint64_t l6;
    uint64_t l7;
    uint64_t l8;
    bool l9;
    uint64_t l10;
    uint64_t l11;
    unsigned char *l12;
    uint16_t l13;
    l6 = core__int__usize__min(l4, l2);
    l7 = core__int__usize__min(l3, l6);
    for (;;) {
        l9 = (l7 < l6);
        if (l9) {
        } else {
            goto exit0;
        }
        l10 = (l6 - l7);
        l11 = (l10 / UINT64_C(2));
        l8 = (l7 + l11);
        l10 = (l8 << 2);
        l11 = (l10 << 1);
        l12 = ((unsigned char *)(void *)l1.f0 + (size_t)l11);
        l13 = (*(uint16_t *)(void *)l12);
        l9 = (l13 <= l5);
        if (l9) {
            l7 = (l8 + UINT64_C(1));
        } else {
            l6 = l8;
        }
    }
exit0:;
    l0 = l7;
    return l0;
}

static INLINE uint64_t cones__query__guess(slice_uint16_t l1, slice_uint16_t l2, uint64_t l3, uint16_t l4)
{
    uint64_t l0;
    uint64_t l5;
    uint64_t l6;
    uint64_t l7;
    uint16_t l8;
    uint64_t l9;
    uint64_t l10;
    bool l11;
    unsigned char *l12;
    unsigned char *l13;
    l8 = (uint16_t)((uint32_t)l4 / 64);
    l5 = core__convert__UsizeFromU16__from(l8);
    l9 = (l5 + UINT64_C(1));
    l10 = l2.f1;
    l11 = (l10 <= l9);
    if (l11) {
        l0 = UINT64_C(0);
        return l0;
    }
    l9 = (l5 << 1);
    l12 = ((unsigned char *)(void *)l2.f0 + (size_t)l9);
    l8 = (*(uint16_t *)(void *)l12);
    l6 = core__convert__UsizeFromU16__from(l8);
    l10 = (l5 + UINT64_C(1));
    l9 = (l10 << 1);
    l13 = ((unsigned char *)(void *)l2.f0 + (size_t)l9);
    l8 = (*(uint16_t *)(void *)l13);
    l7 = core__convert__UsizeFromU16__from(l8);
    l0 = cones__query__locate(l1, l3, l6, l7, l4);
    return l0;
}

static INLINE bool cones__query__is_aside(uint64_t l1, uint64_t l2)
{
    bool l0;
    bool l3;
    l3 = (l1 != UINT64_C(0));
    if (l3) {
    } else {
        l3 = (l2 != UINT64_C(0));
    }
    l0 = l3;
    return l0;
}

static INLINE type_cones__table__Row cones__table__row_at(slice_uint16_t l1, uint64_t l2)
{
    type_cones__table__Row l0;
    uint64_t l3;
    uint64_t l4;
    unsigned char *l5;
    uint16_t l6;
    uint64_t l7;
    uint64_t l8;
    unsigned char *l9;
    uint16_t l10;
    uint64_t l11;
    uint64_t l12;
    uint64_t l13;
    unsigned char *l14;
    uint16_t l15;
    uint64_t l16;
    uint64_t l17;
    uint64_t l18;
    unsigned char *l19;
    uint16_t l20;
    l3 = (l2 << 2);
    l4 = (l3 << 1);
    l5 = ((unsigned char *)(void *)l1.f0 + (size_t)l4);
    l6 = (*(uint16_t *)(void *)l5);
    l7 = (l3 + UINT64_C(1));
    l8 = (l7 << 1);
    l9 = ((unsigned char *)(void *)l1.f0 + (size_t)l8);
    l10 = (*(uint16_t *)(void *)l9);
    l12 = (l3 + UINT64_C(2));
    l13 = (l12 << 1);
    l14 = ((unsigned char *)(void *)l1.f0 + (size_t)l13);
    l15 = (*(uint16_t *)(void *)l14);
    l11 = core__convert__UsizeFromU16__from(l15);
    l17 = (l3 + UINT64_C(3));
    l18 = (l17 << 1);
    l19 = ((unsigned char *)(void *)l1.f0 + (size_t)l18);
    l20 = (*(uint16_t *)(void *)l19);
    l16 = core__convert__UsizeFromU16__from(l20);
    l0 = (type_cones__table__Row){.f0 = l6, .f1 = l10, .f2 = l11, .f3 = l16};
    return l0;
}

static INLINE bool azimuths__sectors__is_missed_at(slice_uint16_t l1, uint16_t l2, uint64_t l3)
{
    bool l0;
    uint16_t l4;
    uint64_t l5;
    uint64_t l6;
    unsigned char *l7;
    uint16_t l8;
    uint64_t l9;
    uint64_t l10;
    uint64_t l11;
    unsigned char *l12;
    uint16_t l13;
    l5 = (l3 << 1);
    l6 = (l5 << 1);
    l7 = ((unsigned char *)(void *)l1.f0 + (size_t)l6);
    l8 = (*(uint16_t *)(void *)l7);
    l4 = azimuths__sectors__gap(l2, l8);
    l9 = (l3 << 1);
    l10 = (l9 + UINT64_C(1));
    l11 = (l10 << 1);
    l12 = ((unsigned char *)(void *)l1.f0 + (size_t)l11);
    l13 = (*(uint16_t *)(void *)l12);
    l0 = (l13 < l4);
    return l0;
}

static INLINE uint64_t cones__near__gather(uint64_t l1, slice_uint16_t l2, uint16_t l3, slice_uint16_t l4, uint64_t l5, uint64_t l6, slice_uint16_t l7)
{
    uint64_t l0;
    uint64_t l8;
    uint64_t l9;
    uint16_t l10;
    bool l11;
    uint64_t l12;
    unsigned char *l13;
    uint16_t l14;
    unsigned char *l15;
    bool l16;
    (void)l1;
    l8 = UINT64_C(0);
    l9 = l5;
    for (;;) {
        l11 = (l9 < l6);
        if (l11) {
        } else {
            goto exit0;
        }
        l12 = (l9 << 1);
        l13 = ((unsigned char *)(void *)l4.f0 + (size_t)l12);
        l14 = (*(uint16_t *)(void *)l13);
        l10 = l14;
        l12 = (l8 << 1);
        l15 = ((unsigned char *)(void *)l7.f0 + (size_t)l12);
        (*(uint16_t *)(void *)l15) = l10;
        l12 = core__convert__UsizeFromU16__from(l10);
        l11 = azimuths__sectors__is_missed_at(l2, l3, l12);
        l16 = !l11;
        if (l16) {
            l8 = (l8 + UINT64_C(1));
        }
        l9 = (l9 + UINT64_C(1));
    }
exit0:;
    l0 = l8;
    return l0;
}

static INLINE type_cones__sure__SureSide cones__sure__whole_side(type_sphere__point__Point l1, type_sphere__point__Point l2)
{
    type_cones__sure__SureSide l0;
    uint64_t l3;
    bool l4;
    bool l5;
    l3 = sphere__orientation__dot(l1, l2);
    l4 = (l3 != UINT64_C(0));
    l5 = (signed64(UINT64_C(0)) < signed64(l3));
    l0 = (type_cones__sure__SureSide){.f0 = l4, .f1 = l5};
    return l0;
}

static INLINE type_cones__sure__SureSide cones__sure__float_side(type_sphere__point__Point l1, type_sphere__approximate__Vector l2, type_sphere__point__Point l3)
{
    type_cones__sure__SureSide l0;
    double l4;
    bool l5;
    bool l6;
    bool l7;
    (void)l1;
    l4 = sphere__approximate__float_dot(l2, l3);
    l5 = sphere__approximate__is_surely(l4, true);
    l6 = sphere__approximate__is_surely(l4, false);
    l7 = (l5 | l6);
    l0 = (type_cones__sure__SureSide){.f0 = l7, .f1 = l5};
    return l0;
}

static INLINE type_cones__sure__SureSide cones__sure__sure_side(type_sphere__plane__Plane l1, type_sphere__point__Point l2)
{
    type_cones__sure__SureSide l0;
    type_sphere__point__Point l4;
    type_sphere__point__Point l5;
    type_sphere__approximate__Vector l6;
    switch (l1.f2.tag) {
    case 0: {
        l4 = l1.f0;
        l0 = cones__sure__whole_side(l4, l2);
        break;
    }
    case 1: default: {
        l5 = l1.f0;
        l6 = l1.f1;
        l0 = cones__sure__float_side(l5, l6, l2);
        break;
    }
    }
    return l0;
}

static INLINE type_azimuths__sectors__Passage azimuths__sectors__passage_at(slice_uint16_t l1, uint16_t l2, uint64_t l3)
{
    type_azimuths__sectors__Passage l0;
    uint16_t l4;
    uint16_t l5;
    uint64_t l6;
    uint64_t l7;
    unsigned char *l8;
    uint16_t l9;
    bool l10;
    uint64_t l11;
    unsigned char *l12;
    bool l13;
    bool l14;
    uint16_t l15;
    bool l16;
    l6 = (l3 << 1);
    l7 = (l6 << 1);
    l8 = ((unsigned char *)(void *)l1.f0 + (size_t)l7);
    l9 = (*(uint16_t *)(void *)l8);
    l4 = l9;
    l5 = azimuths__sectors__gap(l2, l4);
    l10 = (1 < l5);
    l6 = (l3 << 1);
    l7 = (l6 + UINT64_C(1));
    l11 = (l7 << 1);
    l12 = ((unsigned char *)(void *)l1.f0 + (size_t)l11);
    l9 = (*(uint16_t *)(void *)l12);
    l13 = (l5 < l9);
    l14 = (l10 & l13);
    l15 = (uint16_t)((uint32_t)l4 % 2);
    l16 = (l15 == 1);
    l0 = (type_azimuths__sectors__Passage){.f0 = l14, .f1 = l16};
    return l0;
}

static INLINE uint32_t cones__told__way_by(bool l1, bool l2)
{
    uint32_t l0;
    bool l3;
    bool l5;
    uint32_t l6;
    l3 = (l1 == l2);
    if (l3) {
        l0 = UINT32_C(0);
    } else {
        l5 = l2;
        if (l5) {
            l6 = UINT32_C(1);
        } else {
            l6 = UINT32_C(4294967295);
        }
        l0 = l6;
    }
    return l0;
}

static INLINE type_cones__told__Told cones__told__tell_either(type_sphere__point__Grid l1, slice_uint32_t l2, type_sphere__point__Point l3, type_sphere__point__Point l4, slice_uint16_t l5, uint16_t l6, slice_uint16_t l7, uint64_t l8, type_cones__told__Told l9)
{
    type_cones__told__Told l0;
    uint64_t l10;
    type_sphere__plane__Plane l11;
    type_cones__sure__SureSide l12;
    type_azimuths__sectors__Passage l13;
    bool l14;
    uint32_t l15;
    bool l16;
    uint64_t l17;
    uint64_t l18;
    unsigned char *l19;
    uint16_t l20;
    type_sphere__point__Point l21;
    type_sphere__point__Point l22;
    uint32_t l23;
    (void)l3;
    for (;;) {
        l16 = (l9.f0 < l8);
        if (l16) {
        } else {
            goto exit0;
        }
        l17 = l9.f0;
        l18 = (l17 << 1);
        l19 = ((unsigned char *)(void *)l7.f0 + (size_t)l18);
        l20 = (*(uint16_t *)(void *)l19);
        l10 = core__convert__UsizeFromU16__from(l20);
        l21 = polygon__vertices__vertex_at(l2, l10);
        l22 = polygon__vertices__end_of(l2, l10);
        l11 = sphere__plane__plane_through(l1, l21, l22);
        l12 = cones__sure__sure_side(l11, l4);
        l13 = azimuths__sectors__passage_at(l5, l6, l10);
        l14 = (l12.f0 & l13.f0);
        l16 = !l14;
        if (l16) {
            goto exit0;
        }
        l15 = cones__told__way_by(l13.f1, l12.f1);
        l23 = search__walk__counted(l15);
        l9.f1 = (l9.f1 + l23);
        l9.f2 = (l9.f2 + l15);
        l9.f0 = (l9.f0 + UINT64_C(1));
    }
exit0:;
    l0 = l9;
    return l0;
}

static INLINE type_cones__told__Told cones__told__tell(type_sphere__point__Grid l1, slice_uint32_t l2, type_sphere__point__Point l3, type_sphere__point__Point l4, slice_uint16_t l5, uint16_t l6, slice_uint16_t l7, uint64_t l8, type_cones__told__Told l9)
{
    return l1.tag == 0 ? cones__told__tell_either((type_sphere__point__Grid){.tag = 0}, l2, l3, l4, l5, l6, l7, l8, l9) : cones__told__tell_either((type_sphere__point__Grid){.tag = 1}, l2, l3, l4, l5, l6, l7, l8, l9);
}

static bool cones__walk__is_border(slice_uint32_t l1, slice_uint16_t l2, uint64_t l3, uint64_t l4)
{
    bool l0;
    type_sphere__point__Point l5;
    type_sphere__point__Point l6;
    uint32_t l7;
    uint64_t l8;
    uint64_t l9;
    uint32_t l10;
    bool l11;
    uint64_t l12;
    unsigned char *l13;
    uint16_t l14;
    bool l15;
    bool l16;
    uint32_t l17;
    l5 = polygon__vertices__vertex_at(l1, l4);
    l6 = polygon__vertices__end_of(l1, l4);
    l7 = UINT32_C(0);
    l8 = UINT64_C(0);
    for (;;) {
        l11 = (l8 < l3);
        if (l11) {
        } else {
            goto exit0;
        }
        l12 = (l8 << 1);
        l13 = ((unsigned char *)(void *)l2.f0 + (size_t)l12);
        l14 = (*(uint16_t *)(void *)l13);
        l9 = core__convert__UsizeFromU16__from(l14);
        l10 = corridors__border__coincident(l1, l5, l6, l9);
        l15 = (l9 < l4);
        if (l15) {
            l15 = (l10 == UINT32_C(1));
            l16 = l15;
            if (l16) {
                l0 = false;
                return l0;
                goto exit1;
            }
        }
exit1:;
        l7 = (l7 + l10);
        l8 = (l8 + UINT64_C(1));
    }
exit0:;
    l17 = (l7 % UINT32_C(2));
    l0 = (l17 == UINT32_C(1));
    return l0;
}

static INLINE bool cones__walk__is_on_border(slice_uint32_t l1, type_search__arc__Arc l2, slice_uint16_t l3, uint64_t l4, uint64_t l5, uint64_t l6)
{
    bool l0;
    bool l7;
    type_sphere__point__Point l8;
    type_sphere__point__Point l9;
    type_sphere__point__Point l10;
    l8 = polygon__vertices__vertex_at(l1, l5);
    l9 = polygon__vertices__end_of(l1, l5);
    l10 = l2.f1;
    l7 = sphere__edge__on_edge_by(l8, l9, l10, l6);
    if (l7) {
        l7 = cones__walk__is_border(l1, l3, l4, l5);
    }
    l0 = l7;
    return l0;
}

static type_search__walk__EdgeTest cones__walk__test_listed(slice_uint32_t l1, type_search__arc__Arc l2, slice_uint16_t l3, uint64_t l4, uint64_t l5)
{
    type_search__walk__EdgeTest l0;
    type_sphere__plane__Plane l6;
    type_sphere__point__Point l7;
    type_sphere__point__Point l8;
    uint64_t l9;
    uint64_t l10;
    type_sphere__point__Grid l11;
    type_sphere__plane__Plane l12;
    uint64_t l13;
    bool l14;
    type_sphere__point__Point l15;
    bool l16;
    uint32_t l17;
    type_sphere__point__Point l18;
    l6 = l2.f2;
    l7 = polygon__vertices__vertex_at(l1, l5);
    l8 = polygon__vertices__end_of(l1, l5);
    l9 = sphere__plane__side_of(l6, l7);
    l10 = sphere__plane__side_of(l6, l8);
    l14 = sphere__crossing__is_beside(l9, l10);
    if (l14) {
        l0 = (type_search__walk__EdgeTest){.tag = 1, .s0 = UINT32_C(0)};
        return l0;
    }
    l11 = l6.f2;
    l12 = sphere__plane__plane_through(l11, l7, l8);
    l15 = l2.f1;
    l13 = sphere__plane__side_of(l12, l15);
    l16 = cones__walk__is_on_border(l1, l2, l3, l4, l5, l13);
    if (l16) {
        l0 = (type_search__walk__EdgeTest){.tag = 0};
        return l0;
    }
    l18 = l2.f0;
    l17 = sphere__crossing__crossing_from(l12, l18, l9, l10, l13);
    l0 = (type_search__walk__EdgeTest){.tag = 1, .s0 = l17};
    return l0;
}

static INLINE type_search__walk__EdgeTest cones__told__test_unsure(type_sphere__point__Grid l1, slice_uint32_t l2, type_sphere__point__Point l3, type_sphere__point__Point l4, slice_uint16_t l5, uint64_t l6, uint64_t l7)
{
    type_search__walk__EdgeTest l0;
    type_search__arc__Arc l8;
    l8 = search__arc__arc_between(l1, l3, l4, true);
    l0 = cones__walk__test_listed(l2, l8, l5, l6, l7);
    return l0;
}

static INLINE type_search__walk__Tally cones__told__walk_near_either(type_sphere__point__Grid l1, slice_uint32_t l2, type_sphere__point__Point l3, type_sphere__point__Point l4, slice_uint16_t l5, uint16_t l6, slice_uint16_t l7, uint64_t l8)
{
    type_search__walk__Tally l0;
    type_cones__told__Told l9;
    type_core__option__Option_of_u64 l10;
    uint64_t l11;
    uint32_t l12;
    uint32_t l13;
    type_core__option__Option_of_u64 l14;
    bool l15;
    uint64_t l16;
    uint64_t l17;
    unsigned char *l18;
    uint16_t l19;
    type_search__walk__EdgeTest l20;
    uint32_t l21;
    uint32_t l22;
    l9 = (type_cones__told__Told){.f0 = UINT64_C(0), .f1 = UINT32_C(0), .f2 = UINT32_C(0)};
    for (;;) {
        l9 = cones__told__tell(l1, l2, l3, l4, l5, l6, l7, l8, l9);
        l15 = (l8 <= l9.f0);
        if (l15) {
            l14 = (type_core__option__Option_of_u64){.tag = 0};
            goto exit0;
        }
        l16 = l9.f0;
        l17 = (l16 << 1);
        l18 = ((unsigned char *)(void *)l7.f0 + (size_t)l17);
        l19 = (*(uint16_t *)(void *)l18);
        l11 = core__convert__UsizeFromU16__from(l19);
        l20 = cones__told__test_unsure(l1, l2, l3, l4, l7, l8, l11);
        switch (l20.tag) {
        case 0: {
            l14 = (type_core__option__Option_of_u64){.tag = 1, .s0 = l11};
            goto exit0;
            break;
        }
        case 1: default: {
            l13 = l20.s0;
            l21 = l13;
            break;
        }
        }
        l12 = l21;
        l22 = search__walk__counted(l12);
        l9.f1 = (l9.f1 + l22);
        l9.f2 = (l9.f2 + l12);
        l9.f0 = (l9.f0 + UINT64_C(1));
    }
exit0:;
    l10 = l14;
    l0 = search__walk__tally_by(l10, l9.f1, l9.f2);
    return l0;
}

static type_search__walk__Tally cones__told__walk_near(type_sphere__point__Grid l1, slice_uint32_t l2, type_sphere__point__Point l3, type_sphere__point__Point l4, slice_uint16_t l5, uint16_t l6, slice_uint16_t l7, uint64_t l8)
{
    return l1.tag == 0 ? cones__told__walk_near_either((type_sphere__point__Grid){.tag = 0}, l2, l3, l4, l5, l6, l7, l8) : cones__told__walk_near_either((type_sphere__point__Grid){.tag = 1}, l2, l3, l4, l5, l6, l7, l8);
}

static INLINE type_search__walk__Tally cones__told__tally_near(type_sphere__point__Grid l1, slice_uint32_t l2, type_sphere__point__Point l3, type_sphere__point__Point l4, slice_uint16_t l5, uint16_t l6, slice_uint16_t l7, uint64_t l8, uint64_t l9, slice_uint16_t l10)
{
    type_search__walk__Tally l0;
    uint64_t l11;
    uint64_t l12;
    uint64_t l13;
    uint16_t *l14;
    slice_uint16_t l15;
    uint16_t *l16;
    slice_uint16_t l17;
    l12 = l2.f1;
    l13 = (l12 / UINT64_C(3));
    l14 = (uint16_t *)(void *)&(*l10.f0);
    l15 = (slice_uint16_t){.f0 = l14, .f1 = l10.f1};
    l11 = cones__near__gather(l13, l5, l6, l7, l8, l9, l15);
    l16 = (uint16_t *)(void *)&(*l10.f0);
    l17 = (slice_uint16_t){.f0 = l16, .f1 = l10.f1};
    l0 = cones__told__walk_near(l1, l2, l3, l4, l5, l6, l17, l11);
    return l0;
}

static type_search__walk__Tally cones__query__tally_edges(type_sphere__point__Grid l1, slice_uint32_t l2, slice_uint32_t l3, slice_uint16_t l4, slice_uint16_t l5, slice_uint16_t l6, slice_uint16_t l7, slice_uint16_t l8, type_cones__build__Index l9, type_sphere__point__Point l10, type_sphere__point__Point l11, type_search__walk__Mode l12)
{
    type_search__walk__Tally l0;
    type_azimuths__azimuth__Frame l13;
    uint64_t l14;
    uint64_t l15;
    uint16_t l16;
    uint64_t l17;
    type_cones__table__Row l18;
    uint64_t l19;
    uint64_t l20;
    type_search__arc__Arc l21;
    type_sphere__point__Point l22;
    type_sphere__point__Point l23;
    bool l24;
    bool l25;
    bool l26;
    uint64_t l27;
    bool l28;
    bool l29;
    bool l30;
    uint64_t l31;
    bool l32;
    bool l33;
    uint16_t *l34;
    slice_uint16_t l35;
    l13 = l9.f2;
    l22 = l13.f0;
    l14 = sphere__orientation__dot(l22, l11);
    l23 = l13.f1;
    l15 = sphere__orientation__dot(l23, l11);
    l16 = azimuths__azimuth__azimuth_by(l14, l15);
    l17 = cones__query__guess(l5, l6, l9.f0, l16);
    l24 = cones__query__is_aside(l14, l15);
    l25 = (UINT64_C(0) < l17);
    l26 = (l24 & l25);
    if (l26) {
        l27 = (l17 - UINT64_C(1));
        l18 = cones__table__row_at(l5, l27);
        l19 = l18.f2;
        l20 = l18.f3;
        l28 = (l18.f0 <= l16);
        l29 = (l16 <= l18.f1);
        l30 = (l28 & l29);
        l27 = (l20 - l19);
        l31 = l8.f1;
        l32 = (l27 <= l31);
        l33 = (l30 & l32);
        if (l33) {
            l34 = (uint16_t *)(void *)&(*l8.f0);
            l35 = (slice_uint16_t){.f0 = l34, .f1 = l8.f1};
            l0 = cones__told__tally_near(l1, l2, l10, l11, l4, l16, l7, l19, l20, l35);
            return l0;
        }
    }
    l24 = search__looked__asks_boxes(l12);
    l21 = search__arc__arc_between(l1, l10, l11, l24);
    l0 = search__border__tally_arc(l2, l3, l21);
    return l0;
}

static INLINE type_core__result__Result_of_Verdict_Refusal feed__indexed__judge_indexed(type_sphere__point__Grid l1, slice_uint32_t l2, slice_uint32_t l3, slice_uint16_t l4, slice_uint16_t l5, slice_uint16_t l6, slice_uint16_t l7, slice_uint16_t l8, type_cones__build__Index l9, type_sphere__point__Point l10, type_sphere__point__Point l11, type_sphere__point__Point l12, type_search__walk__Mode l13)
{
    type_core__result__Result_of_Verdict_Refusal l0;
    bool l14;
    type_judging__judge__Judgement l15;
    type_search__walk__Tally l16;
    uint16_t *l17;
    slice_uint16_t l18;
    l14 = feed__indexed__is_left_out(l1, l9.f0, l10, l12);
    if (l14) {
        l15 = judging__judge__judge_boxed(l1, l2, l3, l10, l11, l12, l13);
        l0 = l15.f0;
        return l0;
    }
    l17 = (uint16_t *)(void *)&(*l8.f0);
    l18 = (slice_uint16_t){.f0 = l17, .f1 = l8.f1};
    l16 = cones__query__tally_edges(l1, l2, l3, l4, l5, l6, l7, l18, l9, l10, l12, l13);
    l0 = judging__judge__verdict_on(l16);
    return l0;
}

static INLINE void big_endian__store__put_word(slice_uint8_t l1, uint64_t l2, uint32_t l3)
{
    uint32_t l4;
    uint32_t l5;
    uint8_t l6;
    unsigned char *l7;
    unsigned char *l9;
    unsigned char *l10;
    unsigned char *l11;
    l4 = (l3 / UINT32_C(16777216));
    l5 = (l4 % UINT32_C(256));
    l6 = (uint8_t)l5;
    l7 = ((unsigned char *)(void *)l1.f0 + (size_t)l2);
    (*(uint8_t *)(void *)l7) = l6;
    l4 = (l3 / UINT32_C(65536));
    l5 = (l4 % UINT32_C(256));
    l6 = (uint8_t)l5;
    l9 = (l7 + UINT64_C(1));
    (*(uint8_t *)(void *)l9) = l6;
    l4 = (l3 / UINT32_C(256));
    l5 = (l4 % UINT32_C(256));
    l6 = (uint8_t)l5;
    l10 = (l7 + UINT64_C(2));
    (*(uint8_t *)(void *)l10) = l6;
    l4 = (l3 % UINT32_C(256));
    l6 = (uint8_t)l4;
    l11 = (l7 + UINT64_C(3));
    (*(uint8_t *)(void *)l11) = l6;
    return;
}

static INLINE void feed__store_result(slice_uint8_t l1, uint64_t l2, type_core__result__Result_of_Verdict_Refusal l3)
{
    uint8_t *l5;
    slice_uint8_t l6;
    uint32_t l7;
    uint8_t *l8;
    slice_uint8_t l9;
    uint64_t l10;
    uint64_t l11;
    uint8_t *l12;
    slice_uint8_t l13;
    l5 = (uint8_t *)(void *)&(*l1.f0);
    l6 = (slice_uint8_t){.f0 = l5, .f1 = l1.f1};
    l7 = answer__number(l3);
    big_endian__store__put_word(l6, l2, l7);
    l8 = (uint8_t *)(void *)&(*l1.f0);
    l9 = (slice_uint8_t){.f0 = l8, .f1 = l1.f1};
    l10 = (l2 + UINT64_C(4));
    l11 = answer__place(l3);
    l7 = (uint32_t)l11;
    big_endian__store__put_word(l9, l10, l7);
    l12 = (uint8_t *)(void *)&(*l1.f0);
    l13 = (slice_uint8_t){.f0 = l12, .f1 = l1.f1};
    l10 = (l2 + UINT64_C(8));
    l7 = answer__count(l3);
    big_endian__store__put_word(l13, l10, l7);
    return;
}

static INLINE void feed__judge_one(type_sphere__point__Grid l1, slice_uint32_t l2, slice_uint32_t l3, slice_uint16_t l4, slice_uint16_t l5, slice_uint16_t l6, slice_uint16_t l7, slice_uint16_t l8, type_cones__build__Index l9, type_sphere__point__Point l10, type_sphere__point__Point l11, slice_uint8_t l12, uint64_t l13, slice_uint8_t l14)
{
    uint64_t l15;
    type_sphere__point__Point l16;
    type_search__walk__Mode l17;
    type_core__result__Result_of_Verdict_Refusal l18;
    uint64_t l19;
    uint16_t *l20;
    slice_uint16_t l21;
    uint8_t *l23;
    slice_uint8_t l24;
    l15 = (l13 * UINT64_C(12));
    l16 = big_endian__read__point_at(l12, l15);
    l19 = l2.f1;
    l17 = feed__mode_for(l19);
    l20 = (uint16_t *)(void *)&(*l8.f0);
    l21 = (slice_uint16_t){.f0 = l20, .f1 = l8.f1};
    l18 = feed__indexed__judge_indexed(l1, l2, l3, l4, l5, l6, l7, l21, l9, l10, l11, l16, l17);
    l23 = (uint8_t *)(void *)&(*l14.f0);
    l24 = (slice_uint8_t){.f0 = l23, .f1 = l14.f1};
    feed__store_result(l24, l15, l18);
    return;
}

static INLINE void feed__judge_all_either(type_sphere__point__Grid l1, slice_uint32_t l2, slice_uint32_t l3, slice_uint16_t l4, slice_uint16_t l5, slice_uint16_t l6, slice_uint16_t l7, slice_uint16_t l8, type_cones__build__Index l9, type_sphere__point__Point l10, type_sphere__point__Point l11, slice_uint8_t l12, slice_uint8_t l13)
{
    uint64_t l14;
    uint64_t l15;
    uint64_t l16;
    bool l17;
    uint16_t *l19;
    slice_uint16_t l20;
    uint8_t *l21;
    slice_uint8_t l22;
    l16 = l12.f1;
    l14 = (l16 / UINT64_C(12));
    l15 = UINT64_C(0);
    for (;;) {
        l17 = (l15 < l14);
        if (l17) {
        } else {
            goto exit0;
        }
        l19 = (uint16_t *)(void *)&(*l8.f0);
        l20 = (slice_uint16_t){.f0 = l19, .f1 = l8.f1};
        l21 = (uint8_t *)(void *)&(*l13.f0);
        l22 = (slice_uint8_t){.f0 = l21, .f1 = l13.f1};
        feed__judge_one(l1, l2, l3, l4, l5, l6, l7, l20, l9, l10, l11, l12, l15, l22);
        l15 = (l15 + UINT64_C(1));
    }
exit0:;
    return;
}

static INLINE void feed__judge_all(type_sphere__point__Grid l1, slice_uint32_t l2, slice_uint32_t l3, slice_uint16_t l4, slice_uint16_t l5, slice_uint16_t l6, slice_uint16_t l7, slice_uint16_t l8, type_cones__build__Index l9, type_sphere__point__Point l10, type_sphere__point__Point l11, slice_uint8_t l12, slice_uint8_t l13)
{
    if (l1.tag == 0)
        feed__judge_all_either((type_sphere__point__Grid){.tag = 0}, l2, l3, l4, l5, l6, l7, l8, l9, l10, l11, l12, l13);
    else
        feed__judge_all_either((type_sphere__point__Grid){.tag = 1}, l2, l3, l4, l5, l6, l7, l8, l9, l10, l11, l12, l13);
}

static APART void feed__judge_by_index(type_sphere__point__Grid l1, slice_uint32_t l2, slice_uint32_t l3, type_sphere__point__Point l4, type_sphere__point__Point l5, slice_uint8_t l6, slice_uint8_t l7)
{
    array_uint16_t_8192 l8;
    array_uint16_t_2048 l9;
    array_uint16_t_1025 l10;
    array_uint16_t_9984 l11;
    array_uint16_t_8192 l12;
    type_cones__build__Index l13;
    array_uint16_t_8192 *l14;
    slice_uint16_t l15;
    array_uint16_t_2048 *l16;
    slice_uint16_t l17;
    array_uint16_t_1025 *l18;
    slice_uint16_t l19;
    array_uint16_t_9984 *l20;
    slice_uint16_t l21;
    array_uint16_t_8192 *l22;
    slice_uint16_t l23;
    array_uint16_t_8192 *l25;
    slice_uint16_t l26;
    array_uint16_t_2048 *l27;
    slice_uint16_t l28;
    array_uint16_t_1025 *l29;
    slice_uint16_t l30;
    array_uint16_t_9984 *l31;
    slice_uint16_t l32;
    array_uint16_t_8192 *l33;
    slice_uint16_t l34;
    uint8_t *l35;
    slice_uint8_t l36;
    for (size_t i = 0; i < 8192; i++)
        l8.e[i] = 0;
    for (size_t i = 0; i < 2048; i++)
        l9.e[i] = 0;
    for (size_t i = 0; i < 1025; i++)
        l10.e[i] = 0;
    for (size_t i = 0; i < 9984; i++)
        l11.e[i] = 0;
    for (size_t i = 0; i < 8192; i++)
        l12.e[i] = 0;
    l14 = (array_uint16_t_8192 *)(void *)&l8;
    l15 = (slice_uint16_t){.f0 = (uint16_t *)(void *)l14, .f1 = UINT64_C(8192)};
    l16 = (array_uint16_t_2048 *)(void *)&l9;
    l17 = (slice_uint16_t){.f0 = (uint16_t *)(void *)l16, .f1 = UINT64_C(2048)};
    l18 = (array_uint16_t_1025 *)(void *)&l10;
    l19 = (slice_uint16_t){.f0 = (uint16_t *)(void *)l18, .f1 = UINT64_C(1025)};
    l20 = (array_uint16_t_9984 *)(void *)&l11;
    l21 = (slice_uint16_t){.f0 = (uint16_t *)(void *)l20, .f1 = UINT64_C(9984)};
    l22 = (array_uint16_t_8192 *)(void *)&l12;
    l23 = (slice_uint16_t){.f0 = (uint16_t *)(void *)l22, .f1 = UINT64_C(8192)};
    l13 = cones__build__build(l1, l2, l4, l15, l17, l19, l21, l23);
    l25 = (array_uint16_t_8192 *)(void *)&l8;
    l26 = (slice_uint16_t){.f0 = (uint16_t *)(void *)l25, .f1 = UINT64_C(8192)};
    l27 = (array_uint16_t_2048 *)(void *)&l9;
    l28 = (slice_uint16_t){.f0 = (uint16_t *)(void *)l27, .f1 = UINT64_C(2048)};
    l29 = (array_uint16_t_1025 *)(void *)&l10;
    l30 = (slice_uint16_t){.f0 = (uint16_t *)(void *)l29, .f1 = UINT64_C(1025)};
    l31 = (array_uint16_t_9984 *)(void *)&l11;
    l32 = (slice_uint16_t){.f0 = (uint16_t *)(void *)l31, .f1 = UINT64_C(9984)};
    l33 = (array_uint16_t_8192 *)(void *)&l12;
    l34 = (slice_uint16_t){.f0 = (uint16_t *)(void *)l33, .f1 = UINT64_C(8192)};
    l35 = (uint8_t *)(void *)&(*l7.f0);
    l36 = (slice_uint8_t){.f0 = l35, .f1 = l7.f1};
    feed__judge_all(l1, l2, l3, l26, l28, l30, l32, l34, l13, l4, l5, l6, l36);
    return;
}

static INLINE type_cones__build__Index cones__build__no_index(void)
{
    type_cones__build__Index l0;
    type_sphere__point__Point l1;
    type_azimuths__azimuth__Frame l2;
    l1 = (type_sphere__point__Point){.f0 = UINT64_C(0), .f1 = UINT64_C(0), .f2 = UINT64_C(0)};
    l2 = (type_azimuths__azimuth__Frame){.f0 = l1, .f1 = l1};
    l0 = (type_cones__build__Index){.f0 = UINT64_C(0), .f1 = UINT64_C(0), .f2 = l2};
    return l0;
}

static INLINE void feed__judge_each(type_sphere__point__Grid l1, slice_uint32_t l2, slice_uint32_t l3, type_sphere__point__Point l4, type_sphere__point__Point l5, slice_uint8_t l6, slice_uint8_t l7)
{
    uint64_t l8;
    array_uint16_t_1 l9;
    array_uint16_t_1 l10;
    uint64_t l11;
    uint64_t l12;
    uint64_t l13;
    bool l14;
    type_sphere__point__Grid l15;
    uint8_t *l16;
    slice_uint8_t l17;
    type_sphere__point__Grid l18;
    uint8_t *l19;
    slice_uint8_t l20;
    array_uint16_t_1 *l22;
    slice_uint16_t l23;
    array_uint16_t_1 *l24;
    slice_uint16_t l25;
    array_uint16_t_1 *l26;
    slice_uint16_t l27;
    array_uint16_t_1 *l28;
    slice_uint16_t l29;
    array_uint16_t_1 *l30;
    slice_uint16_t l31;
    type_cones__build__Index l32;
    uint8_t *l33;
    slice_uint8_t l34;
    l11 = l6.f1;
    l8 = (l11 / UINT64_C(12));
    l11 = l2.f1;
    l12 = (l11 / UINT64_C(24));
    l13 = (l12 + UINT64_C(128));
    l14 = (l13 <= l8);
    if (l14) {
        switch (l1.tag) {
        case 0: {
            l15 = (type_sphere__point__Grid){.tag = 0};
            l16 = (uint8_t *)(void *)&(*l7.f0);
            l17 = (slice_uint8_t){.f0 = l16, .f1 = l7.f1};
            feed__judge_by_index(l15, l2, l3, l4, l5, l6, l17);
            return;
            break;
        }
        case 1: default: {
            l18 = (type_sphere__point__Grid){.tag = 1};
            l19 = (uint8_t *)(void *)&(*l7.f0);
            l20 = (slice_uint8_t){.f0 = l19, .f1 = l7.f1};
            feed__judge_by_index(l18, l2, l3, l4, l5, l6, l20);
            return;
            break;
        }
        }
    }
    l9 = (array_uint16_t_1){.e[0] = 0};
    l10 = (array_uint16_t_1){.e[0] = 0};
    l22 = (array_uint16_t_1 *)(void *)&l9;
    l23 = (slice_uint16_t){.f0 = (uint16_t *)(void *)l22, .f1 = UINT64_C(1)};
    l24 = (array_uint16_t_1 *)(void *)&l9;
    l25 = (slice_uint16_t){.f0 = (uint16_t *)(void *)l24, .f1 = UINT64_C(1)};
    l26 = (array_uint16_t_1 *)(void *)&l9;
    l27 = (slice_uint16_t){.f0 = (uint16_t *)(void *)l26, .f1 = UINT64_C(1)};
    l28 = (array_uint16_t_1 *)(void *)&l9;
    l29 = (slice_uint16_t){.f0 = (uint16_t *)(void *)l28, .f1 = UINT64_C(1)};
    l30 = (array_uint16_t_1 *)(void *)&l10;
    l31 = (slice_uint16_t){.f0 = (uint16_t *)(void *)l30, .f1 = UINT64_C(1)};
    l32 = cones__build__no_index();
    l33 = (uint8_t *)(void *)&(*l7.f0);
    l34 = (slice_uint8_t){.f0 = l33, .f1 = l7.f1};
    feed__judge_all(l1, l2, l3, l23, l25, l27, l29, l31, l32, l4, l5, l6, l34);
    return;
}

static INLINE type_core__result__Result_of_Verdict_Refusal zone__feeds__feed_in(slice_uint8_t l1, slice_uint8_t l2, slice_uint8_t l3, slice_uint32_t l4, slice_uint32_t l5)
{
    type_core__result__Result_of_Verdict_Refusal l0;
    type_core__result__ErrResidual_of_Refusal l7;
    type_sheet__open__Opened l8;
    type_sheet__open__Opened l9;
    type_core__result__ErrResidual_of_Refusal l10;
    uint64_t l11;
    type_core__ops__ControlFlow_of_ErrResidual_Refusal_unit l12;
    type_core__result__Result_of_unit_Refusal l13;
    uint64_t l14;
    type_core__ops__ControlFlow_of_ErrResidual_Refusal_Opened l15;
    type_core__result__Result_of_Opened_Refusal l16;
    uint32_t *l17;
    slice_uint32_t l18;
    uint32_t *l19;
    slice_uint32_t l20;
    type_sheet__open__Opened l21;
    type_sphere__point__Grid l23;
    uint32_t *l24;
    slice_uint32_t l25;
    uint32_t *l26;
    slice_uint32_t l27;
    type_sphere__point__Point l28;
    type_sphere__point__Point l29;
    uint8_t *l30;
    slice_uint8_t l31;
    type_answer__Verdict l32;
    l14 = l3.f1;
    l13 = feed__size_check(l2, l14);
    l12 = core__result__ResultTry__branch_of_unit_Refusal(l13);
    switch (l12.tag) {
    case 0: {
        break;
    }
    case 1: default: {
        l7 = l12.s0;
        l0 = core__result__ResultFromResidualErrResidual__from_residual_of_Verdict_Refusal_Refusal(l7);
        return l0;
        break;
    }
    }
    l17 = (uint32_t *)(void *)&(*l4.f0);
    l18 = (slice_uint32_t){.f0 = l17, .f1 = l4.f1};
    l19 = (uint32_t *)(void *)&(*l5.f0);
    l20 = (slice_uint32_t){.f0 = l19, .f1 = l5.f1};
    l16 = sheet__open__open_into(l1, l18, l20);
    l15 = core__result__ResultTry__branch_of_Opened_Refusal(l16);
    switch (l15.tag) {
    case 0: {
        l9 = l15.s0;
        l21 = l9;
        break;
    }
    case 1: default: {
        l10 = l15.s1;
        l0 = core__result__ResultFromResidualErrResidual__from_residual_of_Verdict_Refusal_Refusal(l10);
        return l0;
        break;
    }
    }
    l8 = l21;
    l11 = (l8.f4 * UINT64_C(3));
    l23 = l8.f0;
    l24 = (uint32_t *)(void *)&(*l4.f0);
    l25 = (slice_uint32_t){.f0 = l24, .f1 = l11};
    l26 = (uint32_t *)(void *)&(*l5.f0);
    l27 = (slice_uint32_t){.f0 = l26, .f1 = l5.f1};
    l28 = l8.f1;
    l29 = l8.f2;
    l30 = (uint8_t *)(void *)&(*l3.f0);
    l31 = (slice_uint8_t){.f0 = l30, .f1 = l3.f1};
    feed__judge_each(l23, l25, l27, l28, l29, l2, l31);
    l32 = (type_answer__Verdict){.tag = 0, .s0 = UINT64_C(0)};
    l0 = (type_core__result__Result_of_Verdict_Refusal){.tag = 0, .s0 = l32};
    return l0;
}

static APART type_core__result__Result_of_Verdict_Refusal zone__feeds__feed_sized_of_768_48(slice_uint8_t l1, slice_uint8_t l2, slice_uint8_t l3)
{
    type_core__result__Result_of_Verdict_Refusal l0;
    array_uint32_t_768 l4;
    array_uint32_t_48 l5;
    uint8_t *l6;
    slice_uint8_t l7;
    array_uint32_t_768 *l8;
    slice_uint32_t l9;
    array_uint32_t_48 *l10;
    slice_uint32_t l11;
    for (size_t i = 0; i < 768; i++)
        l4.e[i] = UINT32_C(0);
    for (size_t i = 0; i < 48; i++)
        l5.e[i] = UINT32_C(0);
    l6 = (uint8_t *)(void *)&(*l3.f0);
    l7 = (slice_uint8_t){.f0 = l6, .f1 = l3.f1};
    l8 = (array_uint32_t_768 *)(void *)&l4;
    l9 = (slice_uint32_t){.f0 = (uint32_t *)(void *)l8, .f1 = UINT64_C(768)};
    l10 = (array_uint32_t_48 *)(void *)&l5;
    l11 = (slice_uint32_t){.f0 = (uint32_t *)(void *)l10, .f1 = UINT64_C(48)};
    l0 = zone__feeds__feed_in(l1, l2, l7, l9, l11);
    return l0;
}

static APART type_core__result__Result_of_Verdict_Refusal zone__feeds__feed_sized_of_4096_258(slice_uint8_t l1, slice_uint8_t l2, slice_uint8_t l3)
{
    type_core__result__Result_of_Verdict_Refusal l0;
    array_uint32_t_4096 l4;
    array_uint32_t_258 l5;
    uint8_t *l6;
    slice_uint8_t l7;
    array_uint32_t_4096 *l8;
    slice_uint32_t l9;
    array_uint32_t_258 *l10;
    slice_uint32_t l11;
    for (size_t i = 0; i < 4096; i++)
        l4.e[i] = UINT32_C(0);
    for (size_t i = 0; i < 258; i++)
        l5.e[i] = UINT32_C(0);
    l6 = (uint8_t *)(void *)&(*l3.f0);
    l7 = (slice_uint8_t){.f0 = l6, .f1 = l3.f1};
    l8 = (array_uint32_t_4096 *)(void *)&l4;
    l9 = (slice_uint32_t){.f0 = (uint32_t *)(void *)l8, .f1 = UINT64_C(4096)};
    l10 = (array_uint32_t_258 *)(void *)&l5;
    l11 = (slice_uint32_t){.f0 = (uint32_t *)(void *)l10, .f1 = UINT64_C(258)};
    l0 = zone__feeds__feed_in(l1, l2, l7, l9, l11);
    return l0;
}

static APART type_core__result__Result_of_Verdict_Refusal zone__feeds__feed_sized_of_12288_768(slice_uint8_t l1, slice_uint8_t l2, slice_uint8_t l3)
{
    type_core__result__Result_of_Verdict_Refusal l0;
    array_uint32_t_12288 l4;
    array_uint32_t_768 l5;
    uint8_t *l6;
    slice_uint8_t l7;
    array_uint32_t_12288 *l8;
    slice_uint32_t l9;
    array_uint32_t_768 *l10;
    slice_uint32_t l11;
    for (size_t i = 0; i < 12288; i++)
        l4.e[i] = UINT32_C(0);
    for (size_t i = 0; i < 768; i++)
        l5.e[i] = UINT32_C(0);
    l6 = (uint8_t *)(void *)&(*l3.f0);
    l7 = (slice_uint8_t){.f0 = l6, .f1 = l3.f1};
    l8 = (array_uint32_t_12288 *)(void *)&l4;
    l9 = (slice_uint32_t){.f0 = (uint32_t *)(void *)l8, .f1 = UINT64_C(12288)};
    l10 = (array_uint32_t_768 *)(void *)&l5;
    l11 = (slice_uint32_t){.f0 = (uint32_t *)(void *)l10, .f1 = UINT64_C(768)};
    l0 = zone__feeds__feed_in(l1, l2, l7, l9, l11);
    return l0;
}

static INLINE type_core__result__Result_of_Verdict_Refusal zone__feeds__feed(slice_uint8_t l1, slice_uint8_t l2, slice_uint8_t l3)
{
    type_core__result__Result_of_Verdict_Refusal l0;
    uint64_t l4;
    bool l5;
    uint8_t *l6;
    slice_uint8_t l7;
    uint8_t *l8;
    slice_uint8_t l9;
    uint8_t *l10;
    slice_uint8_t l11;
    l4 = l1.f1;
    l5 = (l4 <= UINT64_C(3072));
    if (l5) {
        l6 = (uint8_t *)(void *)&(*l3.f0);
        l7 = (slice_uint8_t){.f0 = l6, .f1 = l3.f1};
        l0 = zone__feeds__feed_sized_of_768_48(l1, l2, l7);
        return l0;
    }
    l4 = l1.f1;
    l5 = (l4 <= UINT64_C(16384));
    if (l5) {
        l8 = (uint8_t *)(void *)&(*l3.f0);
        l9 = (slice_uint8_t){.f0 = l8, .f1 = l3.f1};
        l0 = zone__feeds__feed_sized_of_4096_258(l1, l2, l9);
        return l0;
    }
    l10 = (uint8_t *)(void *)&(*l3.f0);
    l11 = (slice_uint8_t){.f0 = l10, .f1 = l3.f1};
    l0 = zone__feeds__feed_sized_of_12288_768(l1, l2, l11);
    return l0;
}

static INLINE uint32_t spargolutta__spg_feed_number(slice_uint8_t l1, slice_uint8_t l2, slice_uint8_t l3)
{
    uint32_t l0;
    type_core__result__Result_of_Verdict_Refusal l4;
    uint8_t *l5;
    slice_uint8_t l6;
    l5 = (uint8_t *)(void *)&(*l3.f0);
    l6 = (slice_uint8_t){.f0 = l5, .f1 = l3.f1};
    l4 = zone__feeds__feed(l1, l2, l6);
    l0 = answer__number(l4);
    return l0;
}

static APART type_core__result__Result_of_Opened_Refusal sheet__read__opened(slice_uint8_t l1)
{
    type_core__result__Result_of_Opened_Refusal l0;
    array_uint32_t_12288 l2;
    array_uint32_t_768 l3;
    array_uint32_t_12288 *l4;
    slice_uint32_t l5;
    array_uint32_t_768 *l6;
    slice_uint32_t l7;
    for (size_t i = 0; i < 12288; i++)
        l2.e[i] = UINT32_C(0);
    for (size_t i = 0; i < 768; i++)
        l3.e[i] = UINT32_C(0);
    l4 = (array_uint32_t_12288 *)(void *)&l2;
    l5 = (slice_uint32_t){.f0 = (uint32_t *)(void *)l4, .f1 = UINT64_C(12288)};
    l6 = (array_uint32_t_768 *)(void *)&l3;
    l7 = (slice_uint32_t){.f0 = (uint32_t *)(void *)l6, .f1 = UINT64_C(768)};
    l0 = sheet__open__open_into(l1, l5, l7);
    return l0;
}

static INLINE type_core__result__Result_of_unit_Refusal sheet__read__sheet_check(slice_uint8_t l1)
{
    type_core__result__Result_of_unit_Refusal l0;
    type_core__result__ErrResidual_of_Refusal l3;
    type_core__ops__ControlFlow_of_ErrResidual_Refusal_Opened l4;
    type_core__result__Result_of_Opened_Refusal l5;
    l5 = sheet__read__opened(l1);
    l4 = core__result__ResultTry__branch_of_Opened_Refusal(l5);
    switch (l4.tag) {
    case 0: {
        break;
    }
    case 1: default: {
        l3 = l4.s1;
        l0 = core__result__ResultFromResidualErrResidual__from_residual_of_unit_Refusal_Refusal(l3);
        return l0;
        break;
    }
    }
    l0 = (type_core__result__Result_of_unit_Refusal){.tag = 0};
    return l0;
}

static INLINE type_core__result__Result_of_unit_Refusal zone__feeds__feed_check(slice_uint8_t l1, slice_uint8_t l2, uint64_t l3)
{
    type_core__result__Result_of_unit_Refusal l0;
    type_core__result__ErrResidual_of_Refusal l5;
    type_core__ops__ControlFlow_of_ErrResidual_Refusal_unit l6;
    type_core__result__Result_of_unit_Refusal l7;
    l7 = feed__size_check(l2, l3);
    l6 = core__result__ResultTry__branch_of_unit_Refusal(l7);
    switch (l6.tag) {
    case 0: {
        break;
    }
    case 1: default: {
        l5 = l6.s0;
        l0 = core__result__ResultFromResidualErrResidual__from_residual_of_unit_Refusal_Refusal(l5);
        return l0;
        break;
    }
    }
    l0 = sheet__read__sheet_check(l1);
    return l0;
}

static INLINE type_core__result__Result_of_Verdict_Refusal zone__feeds__feed_answer(slice_uint8_t l1, slice_uint8_t l2, uint64_t l3)
{
    type_core__result__Result_of_Verdict_Refusal l0;
    type_core__result__ErrResidual_of_Refusal l5;
    type_core__ops__ControlFlow_of_ErrResidual_Refusal_unit l6;
    type_core__result__Result_of_unit_Refusal l7;
    type_answer__Verdict l8;
    l7 = zone__feeds__feed_check(l1, l2, l3);
    l6 = core__result__ResultTry__branch_of_unit_Refusal(l7);
    switch (l6.tag) {
    case 0: {
        break;
    }
    case 1: default: {
        l5 = l6.s0;
        l0 = core__result__ResultFromResidualErrResidual__from_residual_of_Verdict_Refusal_Refusal(l5);
        return l0;
        break;
    }
    }
    l8 = (type_answer__Verdict){.tag = 0, .s0 = UINT64_C(0)};
    l0 = (type_core__result__Result_of_Verdict_Refusal){.tag = 0, .s0 = l8};
    return l0;
}

static INLINE uint64_t spargolutta__spg_feed_place(slice_uint8_t l1, slice_uint8_t l2, uint64_t l3)
{
    uint64_t l0;
    type_core__result__Result_of_Verdict_Refusal l4;
    l4 = zone__feeds__feed_answer(l1, l2, l3);
    l0 = answer__place(l4);
    return l0;
}

static INLINE uint32_t spargolutta__spg_feed_count(slice_uint8_t l1, slice_uint8_t l2, uint64_t l3)
{
    uint32_t l0;
    type_core__result__Result_of_Verdict_Refusal l4;
    l4 = zone__feeds__feed_answer(l1, l2, l3);
    l0 = answer__count(l4);
    return l0;
}

static INLINE type_sphere__point__Point zone__choose__candidate_at(slice_uint8_t l1, uint64_t l2)
{
    type_sphere__point__Point l0;
    uint64_t l3;
    l3 = (l2 * UINT64_C(12));
    l0 = big_endian__read__point_at(l1, l3);
    return l0;
}

static INLINE type_sphere__point__Point zone__choose__fn__earliest_of__earliest(type_zone__choose__fn__earliest_of__earliest_Self_of_slice_u8 *l1, uint64_t l2)
{
    type_sphere__point__Point l0;
    slice_uint8_t l3;
    l3 = (*l1).f0;
    l0 = zone__choose__candidate_at(l3, l2);
    return l0;
}

static INLINE type_sphere__point__Point zone__choose__fn__earliest_of__earliest_Fn__call(type_zone__choose__fn__earliest_of__earliest_Self_of_slice_u8 *l1, uint64_t l2)
{
    type_sphere__point__Point l0;
    l0 = zone__choose__fn__earliest_of__earliest(l1, l2);
    return l0;
}

static INLINE type_core__result__Result_of_Verdict_Refusal judging__second__earliest_of_earliest_of_earliest_slice_u8_either(type_sphere__point__Grid l1, slice_uint32_t l2, slice_uint32_t l3, type_sphere__point__Point l4, uint64_t l5, type_zone__choose__fn__earliest_of__earliest_Self_of_slice_u8 l6)
{
    type_core__result__Result_of_Verdict_Refusal l0;
    type_zone__choose__fn__earliest_of__earliest_Self_of_slice_u8 l7;
    uint64_t l8;
    bool l9;
    bool l10;
    type_sphere__point__Point l11;
    type_zone__choose__fn__earliest_of__earliest_Self_of_slice_u8 *l12;
    type_answer__Verdict l13;
    type_answer__Refusal l14;
    type_answer__Reason l15;
    l7 = l6;
    l8 = UINT64_C(0);
    for (;;) {
        l9 = (l8 < l5);
        if (l9) {
        } else {
            goto exit0;
        }
        l12 = (type_zone__choose__fn__earliest_of__earliest_Self_of_slice_u8 *)(void *)&l7;
        l11 = zone__choose__fn__earliest_of__earliest_Fn__call(l12, l8);
        l10 = judging__second__is_second(l1, l2, l3, l4, l11);
        if (l10) {
            l13 = (type_answer__Verdict){.tag = 0, .s0 = l8};
            l0 = (type_core__result__Result_of_Verdict_Refusal){.tag = 0, .s0 = l13};
            return l0;
        }
        l8 = (l8 + UINT64_C(1));
    }
exit0:;
    l15 = (type_answer__Reason){.tag = 9};
    l14 = answer__Reason__at(l15, UINT64_C(0));
    l0 = (type_core__result__Result_of_Verdict_Refusal){.tag = 1, .s1 = l14};
    return l0;
}

static type_core__result__Result_of_Verdict_Refusal judging__second__earliest_of_earliest_of_earliest_slice_u8(type_sphere__point__Grid l1, slice_uint32_t l2, slice_uint32_t l3, type_sphere__point__Point l4, uint64_t l5, type_zone__choose__fn__earliest_of__earliest_Self_of_slice_u8 l6)
{
    return l1.tag == 0 ? judging__second__earliest_of_earliest_of_earliest_slice_u8_either((type_sphere__point__Grid){.tag = 0}, l2, l3, l4, l5, l6) : judging__second__earliest_of_earliest_of_earliest_slice_u8_either((type_sphere__point__Grid){.tag = 1}, l2, l3, l4, l5, l6);
}

static INLINE type_core__result__Result_of_Verdict_Refusal zone__choose__earliest_of(type_sphere__point__Grid l1, slice_uint32_t l2, slice_uint32_t l3, type_sphere__point__Point l4, slice_uint8_t l5)
{
    type_core__result__Result_of_Verdict_Refusal l0;
    uint64_t l6;
    uint64_t l7;
    uint8_t *l8;
    slice_uint8_t l9;
    type_zone__choose__fn__earliest_of__earliest_Self_of_slice_u8 l10;
    l7 = l5.f1;
    l6 = (l7 / UINT64_C(12));
    l8 = (uint8_t *)(void *)&(*l5.f0);
    l9 = (slice_uint8_t){.f0 = l8, .f1 = l5.f1};
    l10 = (type_zone__choose__fn__earliest_of__earliest_Self_of_slice_u8){.f0 = l9};
    l0 = judging__second__earliest_of_earliest_of_earliest_slice_u8(l1, l2, l3, l4, l6, l10);
    return l0;
}

static APART type_core__result__Result_of_Verdict_Refusal zone__choose__choose(slice_uint8_t l1, slice_uint8_t l2)
{
    type_core__result__Result_of_Verdict_Refusal l0;
    array_uint32_t_12288 l3;
    array_uint32_t_768 l4;
    type_sheet__open__Opened l5;
    type_sheet__open__Opened l6;
    type_core__result__ErrResidual_of_Refusal l7;
    uint64_t l8;
    uint64_t l9;
    uint64_t l10;
    bool l11;
    type_answer__Refusal l12;
    type_answer__Reason l13;
    type_core__ops__ControlFlow_of_ErrResidual_Refusal_Opened l14;
    type_core__result__Result_of_Opened_Refusal l15;
    array_uint32_t_12288 *l16;
    slice_uint32_t l17;
    array_uint32_t_768 *l18;
    slice_uint32_t l19;
    type_sheet__open__Opened l20;
    type_sphere__point__Grid l21;
    array_uint32_t_12288 *l22;
    slice_uint32_t l23;
    array_uint32_t_768 *l24;
    slice_uint32_t l25;
    type_sphere__point__Point l26;
    l9 = l2.f1;
    l10 = (l9 % UINT64_C(12));
    l11 = (l10 != UINT64_C(0));
    if (l11) {
        l13 = (type_answer__Reason){.tag = 0};
        l12 = answer__Reason__at(l13, UINT64_C(0));
        l0 = (type_core__result__Result_of_Verdict_Refusal){.tag = 1, .s1 = l12};
        return l0;
    }
    for (size_t i = 0; i < 12288; i++)
        l3.e[i] = UINT32_C(0);
    for (size_t i = 0; i < 768; i++)
        l4.e[i] = UINT32_C(0);
    l16 = (array_uint32_t_12288 *)(void *)&l3;
    l17 = (slice_uint32_t){.f0 = (uint32_t *)(void *)l16, .f1 = UINT64_C(12288)};
    l18 = (array_uint32_t_768 *)(void *)&l4;
    l19 = (slice_uint32_t){.f0 = (uint32_t *)(void *)l18, .f1 = UINT64_C(768)};
    l15 = sheet__open__plain_into(l1, l17, l19);
    l14 = core__result__ResultTry__branch_of_Opened_Refusal(l15);
    switch (l14.tag) {
    case 0: {
        l6 = l14.s0;
        l20 = l6;
        break;
    }
    case 1: default: {
        l7 = l14.s1;
        l0 = core__result__ResultFromResidualErrResidual__from_residual_of_Verdict_Refusal_Refusal(l7);
        return l0;
        break;
    }
    }
    l5 = l20;
    l8 = (l5.f4 * UINT64_C(3));
    l21 = l5.f0;
    l22 = (array_uint32_t_12288 *)(void *)&l3;
    l23 = (slice_uint32_t){.f0 = (uint32_t *)(void *)l22, .f1 = l8};
    l24 = (array_uint32_t_768 *)(void *)&l4;
    l25 = (slice_uint32_t){.f0 = (uint32_t *)(void *)l24, .f1 = UINT64_C(768)};
    l26 = l5.f1;
    l0 = zone__choose__earliest_of(l21, l23, l25, l26, l2);
    return l0;
}

static INLINE uint32_t spargolutta__spg_choose_number(slice_uint8_t l1, slice_uint8_t l2)
{
    uint32_t l0;
    type_core__result__Result_of_Verdict_Refusal l3;
    l3 = zone__choose__choose(l1, l2);
    l0 = answer__number(l3);
    return l0;
}

static INLINE uint64_t spargolutta__spg_choose_place(slice_uint8_t l1, slice_uint8_t l2)
{
    uint64_t l0;
    type_core__result__Result_of_Verdict_Refusal l3;
    l3 = zone__choose__choose(l1, l2);
    l0 = answer__place(l3);
    return l0;
}

static INLINE type_core__result__Result_of_unit_Refusal polygon__grids__grid_check(slice_uint32_t l1, bool l2)
{
    type_core__result__Result_of_unit_Refusal l0;
    type_core__result__ErrResidual_of_Refusal l4;
    type_core__ops__ControlFlow_of_ErrResidual_Refusal_unit l5;
    type_core__result__Result_of_unit_Refusal l6;
    type_answer__Reason l7;
    l6 = polygon__checks__list_check(l1);
    l5 = core__result__ResultTry__branch_of_unit_Refusal(l6);
    switch (l5.tag) {
    case 0: {
        break;
    }
    case 1: default: {
        l4 = l5.s0;
        l0 = core__result__ResultFromResidualErrResidual__from_residual_of_unit_Refusal_Refusal(l4);
        return l0;
        break;
    }
    }
    l7 = (type_answer__Reason){.tag = 18};
    l0 = answer__fails_if(l7, l2);
    return l0;
}

static INLINE type_sphere__point__Grid sphere__point__grid_numbered(uint32_t l1)
{
    type_sphere__point__Grid l0;
    bool l2;
    l2 = (l1 == UINT32_C(0));
    if (l2) {
        l0 = (type_sphere__point__Grid){.tag = 0};
        return l0;
    }
    l0 = (type_sphere__point__Grid){.tag = 1};
    return l0;
}

static INLINE type_core__result__Result_of_unit_Refusal basin__profile__basin_check(slice_uint32_t l1, uint32_t l2)
{
    type_core__result__Result_of_unit_Refusal l0;
    type_core__result__ErrResidual_of_Refusal l4;
    type_core__result__ErrResidual_of_Refusal l6;
    type_core__ops__ControlFlow_of_ErrResidual_Refusal_unit l7;
    type_core__result__Result_of_unit_Refusal l8;
    bool l9;
    type_core__ops__ControlFlow_of_ErrResidual_Refusal_unit l10;
    type_sphere__point__Grid l11;
    type_answer__Reason l12;
    uint64_t l13;
    uint64_t l14;
    l9 = (UINT32_C(1) < l2);
    l8 = polygon__grids__grid_check(l1, l9);
    l7 = core__result__ResultTry__branch_of_unit_Refusal(l8);
    switch (l7.tag) {
    case 0: {
        break;
    }
    case 1: default: {
        l4 = l7.s0;
        l0 = core__result__ResultFromResidualErrResidual__from_residual_of_unit_Refusal_Refusal(l4);
        return l0;
        break;
    }
    }
    l11 = sphere__point__grid_numbered(l2);
    l8 = polygon__checks__polygon_check(l11, l1);
    l10 = core__result__ResultTry__branch_of_unit_Refusal(l8);
    switch (l10.tag) {
    case 0: {
        break;
    }
    case 1: default: {
        l6 = l10.s0;
        l0 = core__result__ResultFromResidualErrResidual__from_residual_of_unit_Refusal_Refusal(l6);
        return l0;
        break;
    }
    }
    l12 = (type_answer__Reason){.tag = 23};
    l13 = l1.f1;
    l14 = (l13 / UINT64_C(3));
    l9 = (UINT64_C(512) < l14);
    l0 = answer__fails_if(l12, l9);
    return l0;
}

static INLINE type_core__result__Result_of_Option_tuple_u64_u32_Refusal core__result__ResultFromResidualErrResidual__from_residual_of_Option_tuple_u64_u32_Refusal_Refusal(type_core__result__ErrResidual_of_Refusal l1)
{
    type_core__result__Result_of_Option_tuple_u64_u32_Refusal l0;
    type_answer__Refusal l2;
    type_answer__Refusal l3;
    l3 = l1.f0;
    l2 = core__convert__AnyFrom__from_of_Refusal(l3);
    l0 = (type_core__result__Result_of_Option_tuple_u64_u32_Refusal){.tag = 1, .s1 = l2};
    return l0;
}

static INLINE type_basin__pairs__Near basin__pairs__next_near(slice_uint32_t l1, type_sphere__plane__Plane l2, uint64_t l3, uint64_t l4, uint64_t l5, uint64_t l6)
{
    type_basin__pairs__Near l0;
    uint64_t l7;
    uint64_t l8;
    uint64_t l9;
    bool l10;
    type_sphere__point__Point l11;
    uint64_t l12;
    bool l13;
    l7 = l5;
    l8 = l4;
    for (;;) {
        l10 = (l8 < l6);
        if (l10) {
        } else {
            goto exit0;
        }
        l12 = (l8 + UINT64_C(1));
        l11 = polygon__vertices__vertex_at(l1, l12);
        l9 = sphere__plane__side_of(l2, l11);
        l10 = sphere__crossing__is_beside(l7, l9);
        l13 = !l10;
        if (l13) {
            l0 = (type_basin__pairs__Near){.f0 = l8, .f1 = l7, .f2 = l9};
            return l0;
        }
        l7 = l9;
        l8 = (l8 + UINT64_C(1));
    }
exit0:;
    l0 = (type_basin__pairs__Near){.f0 = l6, .f1 = l7, .f2 = l3};
    return l0;
}

static INLINE bool basin__shared__shares_beyond(type_sphere__point__Point l1, type_sphere__point__Point l2, type_sphere__point__Point l3, uint64_t l4)
{
    bool l0;
    bool l5;
    l5 = sphere__edge__on_edge_by(l1, l2, l3, l4);
    if (l5) {
    } else {
        l5 = sphere__edge__on_edge_by(l2, l3, l1, l4);
    }
    l0 = l5;
    return l0;
}

static INLINE bool basin__pairs__closes(uint64_t l1, uint64_t l2, uint64_t l3)
{
    bool l0;
    bool l4;
    uint64_t l5;
    l4 = (l2 == UINT64_C(0));
    if (l4) {
        l5 = (l3 + UINT64_C(1));
        l4 = (l5 == l1);
    }
    l0 = l4;
    return l0;
}

static INLINE bool basin__shared__holds_end(type_sphere__point__Point l1, type_sphere__point__Point l2, type_sphere__point__Point l3, type_sphere__point__Point l4, uint64_t l5, uint64_t l6)
{
    bool l0;
    bool l7;
    l7 = sphere__edge__on_edge_by(l1, l2, l3, l5);
    if (l7) {
    } else {
        l7 = sphere__edge__on_edge_by(l1, l2, l4, l6);
    }
    l0 = l7;
    return l0;
}

static INLINE bool basin__shared__opposed(uint64_t l1, uint64_t l2)
{
    bool l0;
    bool l3;
    bool l4;
    bool l5;
    l4 = (signed64(UINT64_C(0)) < signed64(l1));
    l4 = (l4 && (signed64(l2) < signed64(UINT64_C(0))));
    l3 = l4;
    if (l3) {
    } else {
        l5 = (signed64(l1) < signed64(UINT64_C(0)));
        l5 = (l5 && (signed64(UINT64_C(0)) < signed64(l2)));
        l3 = l5;
    }
    l0 = l3;
    return l0;
}

static INLINE bool basin__shared__meets_by(uint64_t l1, uint64_t l2, uint64_t l3, uint64_t l4)
{
    bool l0;
    bool l5;
    bool l6;
    l6 = basin__shared__opposed(l1, l2);
    if (l6) {
        l6 = basin__shared__opposed(l1, l3);
    }
    l5 = l6;
    if (l5) {
        l5 = basin__shared__opposed(l3, l4);
    }
    l0 = l5;
    return l0;
}

static bool basin__shared__shares(type_sphere__point__Grid l1, type_basin__shared__Edge l2, type_basin__shared__Edge l3, uint64_t l4, uint64_t l5)
{
    bool l0;
    type_sphere__plane__Plane l6;
    uint64_t l7;
    uint64_t l8;
    bool l9;
    type_sphere__point__Point l10;
    type_sphere__point__Point l11;
    type_sphere__point__Point l12;
    type_sphere__point__Point l13;
    type_sphere__point__Point l14;
    type_sphere__point__Point l15;
    type_sphere__point__Point l16;
    type_sphere__point__Point l17;
    bool l18;
    type_sphere__point__Point l19;
    type_sphere__point__Point l20;
    type_sphere__point__Point l21;
    type_sphere__point__Point l22;
    l10 = l2.f0;
    l11 = l2.f1;
    l12 = l3.f0;
    l13 = l3.f1;
    l9 = basin__shared__holds_end(l10, l11, l12, l13, l4, l5);
    if (l9) {
        l0 = true;
        return l0;
    }
    l14 = l3.f0;
    l15 = l3.f1;
    l6 = sphere__plane__plane_through(l1, l14, l15);
    l16 = l2.f0;
    l7 = sphere__plane__side_of(l6, l16);
    l17 = l2.f1;
    l8 = sphere__plane__side_of(l6, l17);
    l19 = l3.f0;
    l20 = l3.f1;
    l21 = l2.f0;
    l22 = l2.f1;
    l18 = basin__shared__holds_end(l19, l20, l21, l22, l7, l8);
    if (l18) {
    } else {
        l18 = basin__shared__meets_by(l4, l5, l7, l8);
    }
    l0 = l18;
    return l0;
}

static bool basin__pairs__offends(type_sphere__point__Grid l1, slice_uint32_t l2, uint64_t l3, uint64_t l4, uint64_t l5, uint64_t l6)
{
    bool l0;
    type_sphere__point__Point l7;
    type_sphere__point__Point l8;
    type_sphere__point__Point l9;
    type_sphere__point__Point l10;
    uint64_t l11;
    bool l12;
    bool l13;
    uint64_t l14;
    type_basin__shared__Edge l15;
    type_basin__shared__Edge l16;
    l7 = polygon__vertices__vertex_at(l2, l3);
    l8 = polygon__vertices__end_of(l2, l3);
    l9 = polygon__vertices__vertex_at(l2, l4);
    l10 = polygon__vertices__end_of(l2, l4);
    l11 = (l3 + UINT64_C(1));
    l12 = (l4 == l11);
    if (l12) {
        l0 = basin__shared__shares_beyond(l7, l8, l10, l6);
        return l0;
    }
    l11 = l2.f1;
    l14 = (l11 / UINT64_C(3));
    l13 = basin__pairs__closes(l14, l3, l4);
    if (l13) {
        l0 = basin__shared__shares_beyond(l9, l7, l8, l5);
        return l0;
    }
    l15 = (type_basin__shared__Edge){.f0 = l7, .f1 = l8};
    l16 = (type_basin__shared__Edge){.f0 = l9, .f1 = l10};
    l0 = basin__shared__shares(l1, l15, l16, l5, l6);
    return l0;
}

static INLINE type_core__option__Option_of_tuple_u64_u64 basin__pairs__first_pair_either(type_sphere__point__Grid l1, slice_uint32_t l2)
{
    type_core__option__Option_of_tuple_u64_u64 l0;
    uint64_t l3;
    uint64_t l4;
    type_sphere__plane__Plane l5;
    uint64_t l6;
    uint64_t l7;
    uint64_t l8;
    type_basin__pairs__Near l9;
    uint64_t l10;
    uint64_t l11;
    bool l13;
    type_sphere__point__Point l14;
    type_sphere__point__Point l15;
    uint64_t l16;
    bool l17;
    bool l18;
    type_tuple_of_u64_u64 l19;
    l10 = l2.f1;
    l11 = (l10 / UINT64_C(3));
    l3 = (l11 - UINT64_C(1));
    l4 = UINT64_C(0);
    for (;;) {
        l13 = (l4 < l3);
        if (l13) {
        } else {
            goto exit0;
        }
        l14 = polygon__vertices__vertex_at(l2, l4);
        l16 = (l4 + UINT64_C(1));
        l15 = polygon__vertices__vertex_at(l2, l16);
        l5 = sphere__plane__plane_through(l1, l14, l15);
        l14 = polygon__vertices__vertex_at(l2, UINT64_C(0));
        l6 = sphere__plane__side_of(l5, l14);
        l7 = (l4 + UINT64_C(1));
        l8 = UINT64_C(0);
        for (;;) {
            l17 = (l7 <= l3);
            if (l17) {
            } else {
                goto exit1;
            }
            l9 = basin__pairs__next_near(l2, l5, l6, l7, l8, l3);
            l18 = basin__pairs__offends(l1, l2, l4, l9.f0, l9.f1, l9.f2);
            if (l18) {
                l19 = (type_tuple_of_u64_u64){.f0 = l4, .f1 = l9.f0};
                l0 = (type_core__option__Option_of_tuple_u64_u64){.tag = 1, .s0 = l19};
                goto exit2;
            }
            l8 = l9.f2;
            l7 = (l9.f0 + UINT64_C(1));
        }
exit1:;
        l4 = (l4 + UINT64_C(1));
    }
exit0:;
    l0 = (type_core__option__Option_of_tuple_u64_u64){.tag = 0};
exit2:;
    return l0;
}

static type_core__option__Option_of_tuple_u64_u64 basin__pairs__first_pair(type_sphere__point__Grid l1, slice_uint32_t l2)
{
    return l1.tag == 0 ? basin__pairs__first_pair_either((type_sphere__point__Grid){.tag = 0}, l2) : basin__pairs__first_pair_either((type_sphere__point__Grid){.tag = 1}, l2);
}

static INLINE type_core__result__Result_of_Option_tuple_u64_u32_Refusal basin__profile__check_basin(slice_uint32_t l1, uint32_t l2)
{
    type_core__result__Result_of_Option_tuple_u64_u32_Refusal l0;
    type_core__result__ErrResidual_of_Refusal l4;
    uint64_t l5;
    uint64_t l6;
    type_core__ops__ControlFlow_of_ErrResidual_Refusal_unit l7;
    type_core__result__Result_of_unit_Refusal l8;
    type_core__option__Option_of_tuple_u64_u64 l9;
    type_sphere__point__Grid l10;
    type_core__option__Option_of_tuple_u64_u32 l12;
    uint32_t l13;
    type_tuple_of_u64_u32 l14;
    type_core__option__Option_of_tuple_u64_u32 l15;
    l8 = basin__profile__basin_check(l1, l2);
    l7 = core__result__ResultTry__branch_of_unit_Refusal(l8);
    switch (l7.tag) {
    case 0: {
        break;
    }
    case 1: default: {
        l4 = l7.s0;
        l0 = core__result__ResultFromResidualErrResidual__from_residual_of_Option_tuple_u64_u32_Refusal_Refusal(l4);
        return l0;
        break;
    }
    }
    l10 = sphere__point__grid_numbered(l2);
    l9 = basin__pairs__first_pair(l10, l1);
    switch (l9.tag) {
    case 0: {
        l12 = (type_core__option__Option_of_tuple_u64_u32){.tag = 0};
        l0 = (type_core__result__Result_of_Option_tuple_u64_u32_Refusal){.tag = 0, .s0 = l12};
        break;
    }
    case 1: default: {
        l5 = l9.s0.f0;
        l6 = l9.s0.f1;
        l13 = (uint32_t)l6;
        l14 = (type_tuple_of_u64_u32){.f0 = l5, .f1 = l13};
        l15 = (type_core__option__Option_of_tuple_u64_u32){.tag = 1, .s0 = l14};
        l0 = (type_core__result__Result_of_Option_tuple_u64_u32_Refusal){.tag = 0, .s0 = l15};
        break;
    }
    }
    return l0;
}

static INLINE type_core__result__Result_of_Option_tuple_u64_u32_Refusal spargolutta__outline__basin_in(slice_uint8_t l1, uint32_t l2, slice_uint32_t l3)
{
    type_core__result__Result_of_Option_tuple_u64_u32_Refusal l0;
    uint64_t l4;
    uint64_t l5;
    uint64_t l6;
    uint32_t *l8;
    slice_uint32_t l9;
    uint32_t *l10;
    slice_uint32_t l11;
    l5 = l1.f1;
    l6 = (l5 / UINT64_C(12));
    l4 = (l6 * UINT64_C(3));
    l8 = (uint32_t *)(void *)&(*l3.f0);
    l9 = (slice_uint32_t){.f0 = l8, .f1 = l3.f1};
    big_endian__read__decode(l1, UINT64_C(0), l4, l9);
    l10 = (uint32_t *)(void *)&(*l3.f0);
    l11 = (slice_uint32_t){.f0 = l10, .f1 = l4};
    l0 = basin__profile__check_basin(l11, l2);
    return l0;
}

static APART type_core__result__Result_of_Option_tuple_u64_u32_Refusal spargolutta__outline__basin_of(slice_uint8_t l1, uint32_t l2)
{
    type_core__result__Result_of_Option_tuple_u64_u32_Refusal l0;
    array_uint32_t_12288 l3;
    uint64_t l4;
    uint64_t l5;
    bool l6;
    type_answer__Refusal l7;
    type_answer__Reason l8;
    type_answer__Refusal l9;
    type_answer__Reason l10;
    array_uint32_t_12288 *l11;
    slice_uint32_t l12;
    l4 = l1.f1;
    l5 = (l4 % UINT64_C(12));
    l6 = (l5 != UINT64_C(0));
    if (l6) {
        l8 = (type_answer__Reason){.tag = 0};
        l7 = answer__Reason__at(l8, UINT64_C(0));
        l0 = (type_core__result__Result_of_Option_tuple_u64_u32_Refusal){.tag = 1, .s1 = l7};
        return l0;
    }
    l4 = l1.f1;
    l6 = (UINT64_C(49152) < l4);
    if (l6) {
        l10 = (type_answer__Reason){.tag = 0};
        l9 = answer__Reason__at(l10, UINT64_C(0));
        l0 = (type_core__result__Result_of_Option_tuple_u64_u32_Refusal){.tag = 1, .s1 = l9};
        return l0;
    }
    for (size_t i = 0; i < 12288; i++)
        l3.e[i] = UINT32_C(0);
    l11 = (array_uint32_t_12288 *)(void *)&l3;
    l12 = (slice_uint32_t){.f0 = (uint32_t *)(void *)l11, .f1 = UINT64_C(12288)};
    l0 = spargolutta__outline__basin_in(l1, l2, l12);
    return l0;
}

static INLINE uint32_t basin__profile__basin_number(type_core__result__Result_of_Option_tuple_u64_u32_Refusal l1)
{
    uint32_t l0;
    type_answer__Refusal l2;
    type_answer__Reason l4;
    switch (l1.tag) {
    case 0: {
        switch (l1.s0.tag) {
        case 0: {
            l0 = UINT32_C(0);
            break;
        }
        case 1: default: {
            l0 = UINT32_C(35);
            break;
        }
        }
        break;
    }
    case 1: default: {
        l2 = l1.s1;
        l4 = l2.f0;
        l0 = answer__Reason__number(l4);
        break;
    }
    }
    return l0;
}

static INLINE uint32_t spargolutta__outline__spg_basin_number(slice_uint8_t l1, uint32_t l2)
{
    uint32_t l0;
    type_core__result__Result_of_Option_tuple_u64_u32_Refusal l3;
    l3 = spargolutta__outline__basin_of(l1, l2);
    l0 = basin__profile__basin_number(l3);
    return l0;
}

static INLINE uint64_t basin__profile__basin_place(type_core__result__Result_of_Option_tuple_u64_u32_Refusal l1)
{
    uint64_t l0;
    uint64_t l2;
    type_answer__Refusal l3;
    switch (l1.tag) {
    case 0: {
        switch (l1.s0.tag) {
        case 0: {
            l0 = UINT64_C(0);
            break;
        }
        case 1: default: {
            l2 = l1.s0.s0.f0;
            l0 = l2;
            break;
        }
        }
        break;
    }
    case 1: default: {
        l3 = l1.s1;
        l0 = l3.f1;
        break;
    }
    }
    return l0;
}

static INLINE uint64_t spargolutta__outline__spg_basin_place(slice_uint8_t l1, uint32_t l2)
{
    uint64_t l0;
    type_core__result__Result_of_Option_tuple_u64_u32_Refusal l3;
    l3 = spargolutta__outline__basin_of(l1, l2);
    l0 = basin__profile__basin_place(l3);
    return l0;
}

static INLINE uint32_t basin__profile__basin_count(type_core__result__Result_of_Option_tuple_u64_u32_Refusal l1)
{
    uint32_t l0;
    uint32_t l2;
    switch (l1.tag) {
    case 0: {
        switch (l1.s0.tag) {
        case 1: {
            l2 = l1.s0.s0.f1;
            l0 = l2;
            goto exit0;
            break;
        }
        case 0: default: {
            goto exit1;
            break;
        }
        }
        break;
    }
    case 1: default: {
        goto exit1;
        break;
    }
    }
exit1:;
    l0 = UINT32_C(0);
exit0:;
    return l0;
}

static INLINE uint32_t spargolutta__outline__spg_basin_count(slice_uint8_t l1, uint32_t l2)
{
    uint32_t l0;
    type_core__result__Result_of_Option_tuple_u64_u32_Refusal l3;
    l3 = spargolutta__outline__basin_of(l1, l2);
    l0 = basin__profile__basin_count(l3);
    return l0;
}

static INLINE type_core__result__Result_of_Option_tuple_u64_u64_Refusal book__step__step_at(slice_uint8_t l1, uint64_t l2)
{
    type_core__result__Result_of_Option_tuple_u64_u64_Refusal l0;
    slice_uint8_t l3;
    type_fields__Parts l4;
    type_answer__Refusal l5;
    uint64_t l6;
    bool l7;
    type_core__option__Option_of_tuple_u64_u64 l8;
    unsigned char *l9;
    uint8_t *l10;
    type_core__result__Result_of_Parts_Refusal l11;
    uint64_t l13;
    type_tuple_of_u64_u64 l14;
    type_core__option__Option_of_tuple_u64_u64 l15;
    type_answer__Refusal l16;
    type_answer__Reason l17;
    uint64_t l18;
    l6 = l1.f1;
    l7 = (l6 <= l2);
    if (l7) {
        l8 = (type_core__option__Option_of_tuple_u64_u64){.tag = 0};
        l0 = (type_core__result__Result_of_Option_tuple_u64_u64_Refusal){.tag = 0, .s0 = l8};
        return l0;
    }
    l9 = ((unsigned char *)(void *)l1.f0 + (size_t)l2);
    l6 = (l1.f1 - l2);
    l10 = (uint8_t *)(void *)&(*(uint8_t *)(void *)l9);
    l3 = (slice_uint8_t){.f0 = l10, .f1 = l6};
    l11 = fields__sheet_fields(l3);
    switch (l11.tag) {
    case 0: {
        l4 = l11.s0;
        l13 = fields__Parts__end(l4);
        l14 = (type_tuple_of_u64_u64){.f0 = l2, .f1 = l13};
        l15 = (type_core__option__Option_of_tuple_u64_u64){.tag = 1, .s0 = l14};
        l0 = (type_core__result__Result_of_Option_tuple_u64_u64_Refusal){.tag = 0, .s0 = l15};
        break;
    }
    case 1: default: {
        l5 = l11.s1;
        l17 = l5.f0;
        l18 = (l2 + l5.f1);
        l16 = answer__Reason__at(l17, l18);
        l0 = (type_core__result__Result_of_Option_tuple_u64_u64_Refusal){.tag = 1, .s1 = l16};
        break;
    }
    }
    return l0;
}

static INLINE uint64_t fields__known_start(slice_uint8_t l1)
{
    uint64_t l0;
    uint64_t l2;
    uint32_t l3;
    uint64_t l4;
    uint64_t l5;
    l2 = (UINT64_C(11) + UINT64_C(3));
    l4 = (UINT64_C(11) + UINT64_C(1));
    l3 = big_endian__read__short_at(l1, l4);
    l5 = (uint64_t)l3;
    l0 = (l2 + l5);
    return l0;
}

static INLINE type_sphere__point__Grid fields__grid(slice_uint8_t l1)
{
    type_sphere__point__Grid l0;
    uint64_t l2;
    uint64_t l3;
    l2 = fields__known_start(l1);
    l3 = (l2 + UINT64_C(15));
    l0 = fields__grid_at(l1, l3);
    return l0;
}

static INLINE uint32_t book__which__grid_number(type_sphere__point__Grid l1)
{
    uint32_t l0;
    switch (l1.tag) {
    case 0: {
        l0 = UINT32_C(0);
        break;
    }
    case 1: default: {
        l0 = UINT32_C(1);
        break;
    }
    }
    return l0;
}

static INLINE type_core__result__Result_of_Verdict_Refusal book__which__zone_answer(slice_uint8_t l1, uint32_t l2, type_sphere__point__Point l3)
{
    type_core__result__Result_of_Verdict_Refusal l0;
    uint32_t l4;
    type_sphere__point__Grid l5;
    bool l6;
    type_answer__Refusal l7;
    type_answer__Reason l8;
    l5 = fields__grid(l1);
    l4 = book__which__grid_number(l5);
    l6 = (l2 != l4);
    if (l6) {
        l8 = (type_answer__Reason){.tag = 18};
        l7 = answer__Reason__at(l8, UINT64_C(0));
        l0 = (type_core__result__Result_of_Verdict_Refusal){.tag = 1, .s1 = l7};
        return l0;
    }
    l0 = zone__judge__judge(l1, l3);
    return l0;
}

static INLINE type_core__result__Result_of_Verdict_Refusal book__which__zone_at(slice_uint8_t l1, uint64_t l2, uint64_t l3, uint32_t l4, type_sphere__point__Point l5)
{
    type_core__result__Result_of_Verdict_Refusal l0;
    uint64_t l6;
    unsigned char *l7;
    uint64_t l8;
    uint8_t *l9;
    slice_uint8_t l10;
    l6 = (l2 + l3);
    l7 = ((unsigned char *)(void *)l1.f0 + (size_t)l2);
    l8 = (l6 - l2);
    l9 = (uint8_t *)(void *)&(*(uint8_t *)(void *)l7);
    l10 = (slice_uint8_t){.f0 = l9, .f1 = l8};
    l0 = book__which__zone_answer(l10, l4, l5);
    return l0;
}

static INLINE uint64_t book__zones__set_bit(uint64_t l1, uint64_t l2)
{
    uint64_t l0;
    uint64_t l3;
    l3 = (UINT64_C(1) << l2);
    l0 = (l1 | l3);
    return l0;
}

static INLINE type_book__sets__Sets book__zones__with_zone(type_book__sets__Sets l1, uint64_t l2, type_core__result__Result_of_Verdict_Refusal l3)
{
    type_book__sets__Sets l0;
    uint64_t l4;
    uint64_t l5;
    uint64_t l6;
    uint64_t l8;
    uint64_t l9;
    uint64_t l10;
    l4 = l1.f0;
    l5 = l1.f1;
    l6 = l1.f2;
    switch (l3.tag) {
    case 0: {
        switch (l3.s0.tag) {
        case 0: {
            l0 = l1;
            break;
        }
        case 1: {
            l8 = book__zones__set_bit(l4, l2);
            l0 = (type_book__sets__Sets){.f0 = l8, .f1 = l5, .f2 = l6};
            break;
        }
        case 2: {
            l0 = l1;
            break;
        }
        case 3: default: {
            l9 = book__zones__set_bit(l5, l2);
            l0 = (type_book__sets__Sets){.f0 = l4, .f1 = l9, .f2 = l6};
            break;
        }
        }
        break;
    }
    case 1: default: {
        l10 = book__zones__set_bit(l6, l2);
        l0 = (type_book__sets__Sets){.f0 = l4, .f1 = l5, .f2 = l10};
        break;
    }
    }
    return l0;
}

static INLINE type_book__sets__Which book__zones__found(type_book__sets__Sets l1)
{
    type_book__sets__Which l0;
    uint32_t l2;
    uint32_t l3;
    uint32_t l4;
    l3 = count_ones(l1.f0);
    l4 = count_ones(l1.f1);
    l2 = (l3 + l4);
    l0 = (type_book__sets__Which){.f0 = UINT32_C(0), .f1 = UINT64_C(0), .f2 = l2, .f3 = l1};
    return l0;
}

static INLINE type_book__sets__Which book__zones__broken(uint32_t l1, uint64_t l2)
{
    type_book__sets__Which l0;
    type_book__sets__Sets l3;
    l3 = (type_book__sets__Sets){.f0 = UINT64_C(0), .f1 = UINT64_C(0), .f2 = UINT64_C(0)};
    l0 = (type_book__sets__Which){.f0 = l1, .f1 = l2, .f2 = UINT32_C(0), .f3 = l3};
    return l0;
}

static INLINE type_book__sets__Which book__zones__broken_by(type_answer__Refusal l1)
{
    type_book__sets__Which l0;
    uint32_t l2;
    type_answer__Reason l3;
    l3 = l1.f0;
    l2 = answer__Reason__number(l3);
    l0 = book__zones__broken(l2, l1.f1);
    return l0;
}

static type_book__sets__Which book__which__which(slice_uint8_t l1, uint32_t l2, type_sphere__point__Point l3)
{
    type_book__sets__Which l0;
    uint64_t l4;
    type_book__sets__Sets l5;
    uint64_t l6;
    uint64_t l7;
    type_answer__Refusal l8;
    bool l9;
    type_core__result__Result_of_Option_tuple_u64_u64_Refusal l10;
    type_core__result__Result_of_Verdict_Refusal l11;
    uint64_t l12;
    bool l13;
    type_answer__Refusal l14;
    type_answer__Reason l15;
    l4 = UINT64_C(0);
    l5 = (type_book__sets__Sets){.f0 = UINT64_C(0), .f1 = UINT64_C(0), .f2 = UINT64_C(0)};
    l6 = UINT64_C(0);
    for (;;) {
        l9 = (l6 < UINT64_C(64));
        if (l9) {
        } else {
            goto exit0;
        }
        l10 = book__step__step_at(l1, l4);
        switch (l10.tag) {
        case 0: {
            switch (l10.s0.tag) {
            case 1: {
                l7 = l10.s0.s0.f1;
                l11 = book__which__zone_at(l1, l4, l7, l2, l3);
                l5 = book__zones__with_zone(l5, l6, l11);
                l4 = (l4 + l7);
                break;
            }
            case 0: default: {
                l0 = book__zones__found(l5);
                return l0;
                break;
            }
            }
            break;
        }
        case 1: default: {
            l8 = l10.s1;
            l0 = book__zones__broken_by(l8);
            return l0;
            break;
        }
        }
        l6 = (l6 + UINT64_C(1));
    }
exit0:;
    l12 = l1.f1;
    l13 = (l4 < l12);
    if (l13) {
        l15 = (type_answer__Reason){.tag = 24};
        l14 = answer__Reason__at(l15, l4);
        l0 = book__zones__broken_by(l14);
        return l0;
    }
    l0 = book__zones__found(l5);
    return l0;
}

static INLINE type_book__sets__Which spargolutta__books__which_zones(slice_uint8_t l1, uint32_t l2, uint32_t l3, uint32_t l4, uint32_t l5)
{
    type_book__sets__Which l0;
    type_sphere__point__Point l6;
    l6 = spargolutta__query(l3, l4, l5);
    l0 = book__which__which(l1, l2, l6);
    return l0;
}

static INLINE uint32_t spargolutta__books__spg_book_number(slice_uint8_t l1, uint32_t l2, uint32_t l3, uint32_t l4, uint32_t l5)
{
    uint32_t l0;
    type_book__sets__Which l6;
    l6 = spargolutta__books__which_zones(l1, l2, l3, l4, l5);
    l0 = l6.f0;
    return l0;
}

static INLINE uint64_t spargolutta__books__spg_book_place(slice_uint8_t l1, uint32_t l2, uint32_t l3, uint32_t l4, uint32_t l5)
{
    uint64_t l0;
    type_book__sets__Which l6;
    l6 = spargolutta__books__which_zones(l1, l2, l3, l4, l5);
    l0 = l6.f1;
    return l0;
}

static INLINE uint32_t spargolutta__books__spg_book_count(slice_uint8_t l1, uint32_t l2, uint32_t l3, uint32_t l4, uint32_t l5)
{
    uint32_t l0;
    type_book__sets__Which l6;
    l6 = spargolutta__books__which_zones(l1, l2, l3, l4, l5);
    l0 = l6.f2;
    return l0;
}

static INLINE uint64_t spargolutta__books__spg_book_inside(slice_uint8_t l1, uint32_t l2, uint32_t l3, uint32_t l4, uint32_t l5)
{
    uint64_t l0;
    type_book__sets__Which l6;
    l6 = spargolutta__books__which_zones(l1, l2, l3, l4, l5);
    l0 = l6.f3.f0;
    return l0;
}

static INLINE uint64_t spargolutta__books__spg_book_boundary(slice_uint8_t l1, uint32_t l2, uint32_t l3, uint32_t l4, uint32_t l5)
{
    uint64_t l0;
    type_book__sets__Which l6;
    l6 = spargolutta__books__which_zones(l1, l2, l3, l4, l5);
    l0 = l6.f3.f1;
    return l0;
}

static INLINE uint64_t spargolutta__books__spg_book_refused(slice_uint8_t l1, uint32_t l2, uint32_t l3, uint32_t l4, uint32_t l5)
{
    uint64_t l0;
    type_book__sets__Which l6;
    l6 = spargolutta__books__which_zones(l1, l2, l3, l4, l5);
    l0 = l6.f3.f2;
    return l0;
}

static INLINE type_core__result__Result_of_unit_Refusal book_feed__whole__size_check(slice_uint8_t l1, uint64_t l2)
{
    type_core__result__Result_of_unit_Refusal l0;
    uint64_t l3;
    uint64_t l4;
    uint64_t l5;
    bool l6;
    type_answer__Refusal l7;
    type_answer__Reason l8;
    type_answer__Refusal l9;
    type_answer__Reason l10;
    l4 = l1.f1;
    l5 = (l4 / UINT64_C(12));
    l3 = (l5 * UINT64_C(24));
    l4 = l1.f1;
    l5 = (l4 % UINT64_C(12));
    l6 = (l5 != UINT64_C(0));
    if (l6) {
        l8 = (type_answer__Reason){.tag = 16};
        l7 = answer__Reason__at(l8, UINT64_C(0));
        l0 = (type_core__result__Result_of_unit_Refusal){.tag = 1, .s0 = l7};
        return l0;
    }
    l6 = (l2 < l3);
    if (l6) {
        l10 = (type_answer__Reason){.tag = 17};
        l9 = answer__Reason__at(l10, l3);
        l0 = (type_core__result__Result_of_unit_Refusal){.tag = 1, .s0 = l9};
        return l0;
    }
    l0 = (type_core__result__Result_of_unit_Refusal){.tag = 0};
    return l0;
}

static INLINE type_core__ops__ControlFlow_of_ErrResidual_Refusal_Option_tuple_u64_u64 core__result__ResultTry__branch_of_Option_tuple_u64_u64_Refusal(type_core__result__Result_of_Option_tuple_u64_u64_Refusal l1)
{
    type_core__ops__ControlFlow_of_ErrResidual_Refusal_Option_tuple_u64_u64 l0;
    type_core__option__Option_of_tuple_u64_u64 l2;
    type_answer__Refusal l3;
    type_core__option__Option_of_tuple_u64_u64 l5;
    type_answer__Refusal l6;
    type_core__result__ErrResidual_of_Refusal l7;
    switch (l1.tag) {
    case 0: {
        l2 = l1.s0;
        l5 = l2;
        l0 = (type_core__ops__ControlFlow_of_ErrResidual_Refusal_Option_tuple_u64_u64){.tag = 0, .s0 = l5};
        break;
    }
    case 1: default: {
        l3 = l1.s1;
        l6 = l3;
        l7 = (type_core__result__ErrResidual_of_Refusal){.f0 = l6};
        l0 = (type_core__ops__ControlFlow_of_ErrResidual_Refusal_Option_tuple_u64_u64){.tag = 1, .s1 = l7};
        break;
    }
    }
    return l0;
}

static INLINE type_core__result__Result_of_unit_Refusal book_feed__whole__book_check(slice_uint8_t l1)
{
    type_core__result__Result_of_unit_Refusal l0;
    uint64_t l2;
    uint64_t l3;
    type_core__option__Option_of_tuple_u64_u64 l4;
    type_core__result__ErrResidual_of_Refusal l5;
    uint64_t l6;
    bool l7;
    type_core__option__Option_of_tuple_u64_u64 l8;
    type_core__ops__ControlFlow_of_ErrResidual_Refusal_Option_tuple_u64_u64 l9;
    type_core__result__Result_of_Option_tuple_u64_u64_Refusal l10;
    type_core__option__Option_of_tuple_u64_u64 l11;
    uint64_t l12;
    bool l13;
    type_answer__Refusal l14;
    type_answer__Reason l15;
    l2 = UINT64_C(0);
    l3 = UINT64_C(0);
    for (;;) {
        l7 = (l3 < UINT64_C(64));
        if (l7) {
        } else {
            goto exit0;
        }
        l10 = book__step__step_at(l1, l2);
        l9 = core__result__ResultTry__branch_of_Option_tuple_u64_u64_Refusal(l10);
        switch (l9.tag) {
        case 0: {
            l4 = l9.s0;
            l11 = l4;
            break;
        }
        case 1: default: {
            l5 = l9.s1;
            l0 = core__result__ResultFromResidualErrResidual__from_residual_of_unit_Refusal_Refusal(l5);
            return l0;
            break;
        }
        }
        l8 = l11;
        switch (l8.tag) {
        case 1: {
            l6 = l8.s0.f1;
            l2 = (l2 + l6);
            break;
        }
        case 0: default: {
            l0 = (type_core__result__Result_of_unit_Refusal){.tag = 0};
            return l0;
            break;
        }
        }
        l3 = (l3 + UINT64_C(1));
    }
exit0:;
    l12 = l1.f1;
    l13 = (l2 < l12);
    if (l13) {
        l15 = (type_answer__Reason){.tag = 24};
        l14 = answer__Reason__at(l15, l2);
        l0 = (type_core__result__Result_of_unit_Refusal){.tag = 1, .s0 = l14};
        return l0;
    }
    l0 = (type_core__result__Result_of_unit_Refusal){.tag = 0};
    return l0;
}

static INLINE type_core__result__Result_of_unit_Refusal book_feed__whole__feed_check(slice_uint8_t l1, slice_uint8_t l2, uint64_t l3)
{
    type_core__result__Result_of_unit_Refusal l0;
    type_core__result__ErrResidual_of_Refusal l5;
    type_core__ops__ControlFlow_of_ErrResidual_Refusal_unit l6;
    type_core__result__Result_of_unit_Refusal l7;
    l7 = book_feed__whole__size_check(l2, l3);
    l6 = core__result__ResultTry__branch_of_unit_Refusal(l7);
    switch (l6.tag) {
    case 0: {
        break;
    }
    case 1: default: {
        l5 = l6.s0;
        l0 = core__result__ResultFromResidualErrResidual__from_residual_of_unit_Refusal_Refusal(l5);
        return l0;
        break;
    }
    }
    l0 = book_feed__whole__book_check(l1);
    return l0;
}

static INLINE uint32_t book_feed__records__high(uint64_t l1)
{
    uint32_t l0;
    uint64_t l2;
    l2 = (l1 / UINT64_C(4294967296));
    l0 = (uint32_t)l2;
    return l0;
}

static INLINE uint32_t book_feed__records__low(uint64_t l1)
{
    uint32_t l0;
    uint64_t l2;
    l2 = (l1 % UINT64_C(4294967296));
    l0 = (uint32_t)l2;
    return l0;
}

static INLINE void book_feed__records__put_long(slice_uint8_t l1, uint64_t l2, uint64_t l3)
{
    uint8_t *l5;
    slice_uint8_t l6;
    uint32_t l7;
    uint8_t *l8;
    slice_uint8_t l9;
    uint64_t l10;
    l5 = (uint8_t *)(void *)&(*l1.f0);
    l6 = (slice_uint8_t){.f0 = l5, .f1 = l1.f1};
    l7 = book_feed__records__high(l3);
    big_endian__store__put_word(l6, l2, l7);
    l8 = (uint8_t *)(void *)&(*l1.f0);
    l9 = (slice_uint8_t){.f0 = l8, .f1 = l1.f1};
    l10 = (l2 + UINT64_C(4));
    l7 = book_feed__records__low(l3);
    big_endian__store__put_word(l9, l10, l7);
    return;
}

static INLINE void book_feed__records__put_sets(slice_uint8_t l1, uint64_t l2, type_book__sets__Sets l3)
{
    uint8_t *l5;
    slice_uint8_t l6;
    uint8_t *l7;
    slice_uint8_t l8;
    uint64_t l9;
    uint8_t *l10;
    slice_uint8_t l11;
    l5 = (uint8_t *)(void *)&(*l1.f0);
    l6 = (slice_uint8_t){.f0 = l5, .f1 = l1.f1};
    book_feed__records__put_long(l6, l2, l3.f0);
    l7 = (uint8_t *)(void *)&(*l1.f0);
    l8 = (slice_uint8_t){.f0 = l7, .f1 = l1.f1};
    l9 = (l2 + UINT64_C(8));
    book_feed__records__put_long(l8, l9, l3.f1);
    l10 = (uint8_t *)(void *)&(*l1.f0);
    l11 = (slice_uint8_t){.f0 = l10, .f1 = l1.f1};
    l9 = (l2 + UINT64_C(16));
    book_feed__records__put_long(l11, l9, l3.f2);
    return;
}

static INLINE void book_feed__whole__clear(slice_uint8_t l1, slice_uint8_t l2)
{
    uint64_t l3;
    uint64_t l4;
    type_book__sets__Sets l5;
    uint64_t l6;
    bool l7;
    uint8_t *l9;
    slice_uint8_t l10;
    uint64_t l11;
    l6 = l1.f1;
    l3 = (l6 / UINT64_C(12));
    l4 = UINT64_C(0);
    for (;;) {
        l7 = (l4 < l3);
        if (l7) {
        } else {
            goto exit0;
        }
        l5 = (type_book__sets__Sets){.f0 = UINT64_C(0), .f1 = UINT64_C(0), .f2 = UINT64_C(0)};
        l9 = (uint8_t *)(void *)&(*l2.f0);
        l10 = (slice_uint8_t){.f0 = l9, .f1 = l2.f1};
        l11 = (l4 * UINT64_C(24));
        book_feed__records__put_sets(l10, l11, l5);
        l4 = (l4 + UINT64_C(1));
    }
exit0:;
    return;
}

static INLINE uint64_t book_feed__records__wide(uint32_t l1)
{
    uint64_t l0;
    l0 = (uint64_t)l1;
    return l0;
}

static INLINE uint64_t book_feed__records__long_at(slice_uint8_t l1, uint64_t l2)
{
    uint64_t l0;
    uint64_t l3;
    uint32_t l4;
    uint64_t l5;
    uint64_t l6;
    uint32_t l7;
    uint64_t l8;
    l4 = big_endian__read__word_at(l1, l2);
    l3 = book_feed__records__wide(l4);
    l5 = (l3 << 32);
    l8 = (l2 + UINT64_C(4));
    l7 = big_endian__read__word_at(l1, l8);
    l6 = book_feed__records__wide(l7);
    l0 = (l5 + l6);
    return l0;
}

static INLINE type_book__sets__Sets book_feed__records__sets_in(slice_uint8_t l1, uint64_t l2)
{
    type_book__sets__Sets l0;
    uint64_t l3;
    uint64_t l4;
    uint64_t l5;
    uint64_t l6;
    uint64_t l7;
    l3 = book_feed__records__long_at(l1, l2);
    l5 = (l2 + UINT64_C(8));
    l4 = book_feed__records__long_at(l1, l5);
    l7 = (l2 + UINT64_C(16));
    l6 = book_feed__records__long_at(l1, l7);
    l0 = (type_book__sets__Sets){.f0 = l3, .f1 = l4, .f2 = l6};
    return l0;
}

static void book_feed__adding__put_zone(slice_uint8_t l1, uint64_t l2, uint64_t l3, type_core__result__Result_of_Verdict_Refusal l4)
{
    type_book__sets__Sets l5;
    uint8_t *l6;
    slice_uint8_t l7;
    uint8_t *l9;
    slice_uint8_t l10;
    type_book__sets__Sets l11;
    l6 = (uint8_t *)(void *)&(*l1.f0);
    l7 = (slice_uint8_t){.f0 = l6, .f1 = l1.f1};
    l5 = book_feed__records__sets_in(l7, l2);
    l9 = (uint8_t *)(void *)&(*l1.f0);
    l10 = (slice_uint8_t){.f0 = l9, .f1 = l1.f1};
    l11 = book__zones__with_zone(l5, l3, l4);
    book_feed__records__put_sets(l10, l2, l11);
    return;
}

static INLINE void book_feed__adding__add_all(slice_uint8_t l1, uint64_t l2, type_core__result__Result_of_Verdict_Refusal l3, slice_uint8_t l4)
{
    uint64_t l5;
    uint64_t l6;
    uint64_t l7;
    bool l8;
    uint8_t *l10;
    slice_uint8_t l11;
    uint64_t l12;
    l7 = l1.f1;
    l5 = (l7 / UINT64_C(12));
    l6 = UINT64_C(0);
    for (;;) {
        l8 = (l6 < l5);
        if (l8) {
        } else {
            goto exit0;
        }
        l10 = (uint8_t *)(void *)&(*l4.f0);
        l11 = (slice_uint8_t){.f0 = l10, .f1 = l4.f1};
        l12 = (l6 * UINT64_C(24));
        book_feed__adding__put_zone(l11, l12, l2, l3);
        l6 = (l6 + UINT64_C(1));
    }
exit0:;
    return;
}

static INLINE double separation__find__float_at(slice_uint32_t l1, uint64_t l2)
{
    double l0;
    uint64_t l3;
    unsigned char *l4;
    uint32_t l5;
    l3 = (l2 << 2);
    l4 = ((unsigned char *)(void *)l1.f0 + (size_t)l3);
    l5 = (*(uint32_t *)(void *)l4);
    l0 = (double)signed32(l5);
    return l0;
}

static INLINE type_separation__find__Vector separation__find__sum_of(slice_uint32_t l1)
{
    type_separation__find__Vector l0;
    double l2;
    double l3;
    double l4;
    uint64_t l5;
    uint64_t l6;
    uint64_t l7;
    uint64_t l8;
    bool l9;
    double l10;
    uint64_t l11;
    l2 = (0x0.0p+0);
    l3 = (0x0.0p+0);
    l4 = (0x0.0p+0);
    l8 = l1.f1;
    l5 = (l8 / UINT64_C(3));
    l6 = UINT64_C(0);
    for (;;) {
        l9 = (l6 < l5);
        if (l9) {
        } else {
            goto exit0;
        }
        l7 = (l6 * UINT64_C(3));
        l10 = separation__find__float_at(l1, l7);
        l2 = (l2 + l10);
        l11 = (l7 + UINT64_C(1));
        l10 = separation__find__float_at(l1, l11);
        l3 = (l3 + l10);
        l11 = (l7 + UINT64_C(2));
        l10 = separation__find__float_at(l1, l11);
        l4 = (l4 + l10);
        l6 = (l6 + UINT64_C(1));
    }
exit0:;
    l0 = (type_separation__find__Vector){.f0 = l2, .f1 = l3, .f2 = l4};
    return l0;
}

static INLINE double separation__find__size(double l1)
{
    double l0;
    bool l2;
    l2 = (l1 < (0x0.0p+0));
    if (l2) {
        l0 = (-l1);
    } else {
        l0 = l1;
    }
    return l0;
}

static INLINE double separation__find__larger(double l1, double l2)
{
    double l0;
    bool l3;
    l3 = (l1 < l2);
    if (l3) {
        l0 = l2;
    } else {
        l0 = l1;
    }
    return l0;
}

static INLINE type_separation__find__Vector separation__find__first_tangent(type_separation__find__Vector l1)
{
    type_separation__find__Vector l0;
    double l2;
    double l3;
    double l4;
    double l5;
    bool l6;
    double l7;
    l2 = separation__find__size(l1.f0);
    l3 = separation__find__size(l1.f1);
    l4 = separation__find__size(l1.f2);
    l5 = separation__find__larger(l3, l4);
    l6 = (l5 <= l2);
    if (l6) {
        l7 = (-l1.f0);
        l0 = (type_separation__find__Vector){.f0 = l1.f2, .f1 = (0x0.0p+0), .f2 = l7};
        return l0;
    }
    l5 = (-l1.f2);
    l0 = (type_separation__find__Vector){.f0 = (0x0.0p+0), .f1 = l5, .f2 = l1.f1};
    return l0;
}

static INLINE type_separation__find__Vector separation__find__second_tangent(type_separation__find__Vector l1)
{
    type_separation__find__Vector l0;
    double l2;
    double l3;
    double l4;
    double l5;
    bool l6;
    double l7;
    l2 = separation__find__size(l1.f0);
    l3 = separation__find__size(l1.f1);
    l4 = separation__find__size(l1.f2);
    l5 = separation__find__larger(l2, l3);
    l6 = (l5 <= l4);
    if (l6) {
        l7 = (-l1.f0);
        l0 = (type_separation__find__Vector){.f0 = l1.f2, .f1 = (0x0.0p+0), .f2 = l7};
        return l0;
    }
    l5 = (-l1.f1);
    l0 = (type_separation__find__Vector){.f0 = l5, .f1 = l1.f0, .f2 = (0x0.0p+0)};
    return l0;
}

static INLINE double separation__find__dot_at(slice_uint32_t l1, uint64_t l2, type_separation__find__Vector l3)
{
    double l0;
    uint64_t l4;
    double l5;
    double l6;
    double l7;
    uint64_t l8;
    double l9;
    double l10;
    double l11;
    uint64_t l12;
    double l13;
    l4 = (l2 * UINT64_C(3));
    l5 = separation__find__float_at(l1, l4);
    l6 = (l3.f0 * l5);
    l8 = (l4 + UINT64_C(1));
    l7 = separation__find__float_at(l1, l8);
    l9 = (l3.f1 * l7);
    l10 = (l6 + l9);
    l12 = (l4 + UINT64_C(2));
    l11 = separation__find__float_at(l1, l12);
    l13 = (l3.f2 * l11);
    l0 = (l10 + l13);
    return l0;
}

static INLINE double separation__find__smaller(double l1, double l2)
{
    double l0;
    bool l3;
    l3 = (l2 < l1);
    if (l3) {
        l0 = l2;
    } else {
        l0 = l1;
    }
    return l0;
}

static INLINE type_separation__find__Slopes separation__find__slopes_of(slice_uint32_t l1, type_separation__find__Vector l2, type_separation__find__Vector l3)
{
    type_separation__find__Slopes l0;
    double l4;
    double l5;
    uint64_t l6;
    uint64_t l7;
    double l8;
    uint64_t l9;
    bool l10;
    double l11;
    double l12;
    l4 = (0x1.0000000000000p+0);
    l5 = (-(0x1.0000000000000p+0));
    l9 = l1.f1;
    l6 = (l9 / UINT64_C(3));
    l7 = UINT64_C(0);
    for (;;) {
        l10 = (l7 < l6);
        if (l10) {
        } else {
            goto exit0;
        }
        l11 = separation__find__dot_at(l1, l7, l3);
        l12 = separation__find__dot_at(l1, l7, l2);
        l8 = (l11 / l12);
        l4 = separation__find__smaller(l4, l8);
        l5 = separation__find__larger(l5, l8);
        l7 = (l7 + UINT64_C(1));
    }
exit0:;
    l0 = (type_separation__find__Slopes){.f0 = l4, .f1 = l5};
    return l0;
}

static INLINE uint64_t core__num__truncating_f64_to_u64(double l1)
{
    uint64_t l0;
    uint64_t l2;
    uint64_t l3;
    uint64_t l4;
    bool l5;
    uint64_t l7;
    bool l8;
    uint64_t l9;
    uint64_t l10;
    uint64_t l11;
    l5 = ((0x1.0000000000000p+0) <= l1);
    if (l5) {
        l2 = float_bits(l1);
        l3 = (l2 >> UINT64_C(52));
        l7 = (l2 & UINT64_C(4503599627370495));
        l4 = (l7 | UINT64_C(4503599627370496));
        l8 = (l3 <= UINT64_C(1075));
        if (l8) {
            l10 = (UINT64_C(1075) - l3);
            l9 = (l4 >> l10);
        } else {
            l11 = (l3 - UINT64_C(1075));
            l9 = (l4 << l11);
        }
        l0 = l9;
    } else {
        l0 = UINT64_C(0);
    }
    return l0;
}

static INLINE uint64_t core__num__truncating_f64_to_i64(double l1)
{
    uint64_t l0;
    bool l2;
    uint64_t l4;
    double l5;
    bool l6;
    uint64_t l7;
    uint64_t l8;
    double l9;
    uint64_t l10;
    uint64_t l11;
    l2 = ((0x1.0000000000000p+0) <= l1);
    if (l2) {
        l4 = core__num__truncating_f64_to_u64(l1);
        l0 = (uint64_t)l4;
    } else {
        l5 = (-(0x1.0000000000000p+0));
        l6 = (l1 <= l5);
        if (l6) {
            l9 = (-l1);
            l8 = core__num__truncating_f64_to_u64(l9);
            l10 = (l8 - UINT64_C(1));
            l11 = (uint64_t)l10;
            l7 = (UINT64_C(18446744073709551615) - l11);
        } else {
            l7 = UINT64_C(0);
        }
        l0 = l7;
    }
    return l0;
}

static INLINE uint64_t separation__find__whole(double l1)
{
    uint64_t l0;
    bool l3;
    double l4;
    bool l5;
    l4 = (-(0x1.0000000000000p+63));
    l3 = (l4 <= l1);
    if (l3) {
        l3 = (l1 < (0x1.0000000000000p+63));
        l5 = l3;
        if (l5) {
            l0 = core__num__truncating_f64_to_i64(l1);
            goto exit0;
        }
    }
    l0 = UINT64_C(0);
exit0:;
    return l0;
}

static INLINE type_sphere__point__Point separation__find__normal_of(double l1, double l2, double l3)
{
    type_sphere__point__Point l0;
    double l4;
    double l5;
    double l6;
    double l7;
    double l8;
    double l9;
    uint64_t l10;
    uint64_t l11;
    uint64_t l12;
    l6 = separation__find__size(l1);
    l8 = separation__find__size(l2);
    l9 = separation__find__size(l3);
    l7 = separation__find__larger(l8, l9);
    l5 = separation__find__larger(l6, l7);
    l4 = ((0x1.ffffff8000000p+25) / l5);
    l5 = (l1 * l4);
    l10 = separation__find__whole(l5);
    l9 = (l2 * l4);
    l11 = separation__find__whole(l9);
    l8 = (l3 * l4);
    l12 = separation__find__whole(l8);
    l0 = (type_sphere__point__Point){.f0 = l10, .f1 = l11, .f2 = l12};
    return l0;
}

static INLINE type_sphere__point__Point separation__find__beside(type_separation__find__Vector l1, type_separation__find__Vector l2, double l3, double l4)
{
    type_sphere__point__Point l0;
    double l5;
    double l6;
    double l7;
    double l8;
    double l9;
    double l10;
    double l11;
    double l12;
    double l13;
    l5 = (l3 * l1.f0);
    l6 = (l4 * l2.f0);
    l7 = (l5 + l6);
    l8 = (l3 * l1.f1);
    l9 = (l4 * l2.f1);
    l10 = (l8 + l9);
    l11 = (l3 * l1.f2);
    l12 = (l4 * l2.f2);
    l13 = (l11 + l12);
    l0 = separation__find__normal_of(l7, l10, l13);
    return l0;
}

static INLINE bool separation__planes__stands_ahead(type_sphere__point__Point l1, type_sphere__point__Point l2)
{
    bool l0;
    uint64_t l3;
    l3 = sphere__orientation__dot(l1, l2);
    l0 = (signed64(UINT64_C(0)) < signed64(l3));
    return l0;
}

static INLINE bool separation__planes__is_ahead(slice_uint32_t l1, type_sphere__point__Point l2)
{
    bool l0;
    uint64_t l3;
    uint64_t l4;
    uint64_t l5;
    bool l6;
    type_sphere__point__Point l7;
    bool l8;
    l5 = l1.f1;
    l3 = (l5 / UINT64_C(3));
    l4 = UINT64_C(0);
    for (;;) {
        l6 = (l4 < l3);
        if (l6) {
        } else {
            goto exit0;
        }
        l7 = polygon__vertices__vertex_at(l1, l4);
        l6 = separation__planes__stands_ahead(l2, l7);
        l8 = !l6;
        if (l8) {
            l0 = false;
            return l0;
        }
        l4 = (l4 + UINT64_C(1));
    }
exit0:;
    l0 = true;
    return l0;
}

static INLINE type_sphere__point__Point separation__planes__no_plane(void)
{
    type_sphere__point__Point l0;
    l0 = (type_sphere__point__Point){.f0 = UINT64_C(0), .f1 = UINT64_C(0), .f2 = UINT64_C(0)};
    return l0;
}

static INLINE type_sphere__point__Point separation__planes__screen(slice_uint32_t l1, type_sphere__point__Point l2)
{
    type_sphere__point__Point l0;
    bool l4;
    bool l5;
    type_sphere__point__Grid l6;
    bool l7;
    l6 = (type_sphere__point__Grid){.tag = 1};
    l5 = sphere__point__is_off_grid(l6, l2);
    l4 = !l5;
    if (l4) {
        l4 = separation__planes__is_ahead(l1, l2);
        l7 = l4;
        if (l7) {
            l0 = l2;
            goto exit0;
        }
    }
    l0 = separation__planes__no_plane();
exit0:;
    return l0;
}

static type_separation__planes__Planes separation__planes__planes_by(slice_uint32_t l1, type_sphere__point__Point l2, type_sphere__point__Point l3, type_sphere__point__Point l4, type_sphere__point__Point l5)
{
    type_separation__planes__Planes l0;
    type_sphere__point__Point l6;
    type_sphere__point__Point l7;
    type_sphere__point__Point l8;
    type_sphere__point__Point l9;
    l6 = separation__planes__screen(l1, l2);
    l7 = separation__planes__screen(l1, l3);
    l8 = separation__planes__screen(l1, l4);
    l9 = separation__planes__screen(l1, l5);
    l0 = (type_separation__planes__Planes){.f0 = l6, .f1 = l7, .f2 = l8, .f3 = l9};
    return l0;
}

static type_separation__planes__Planes separation__find__planes_of(slice_uint32_t l1)
{
    type_separation__planes__Planes l0;
    type_separation__find__Vector l2;
    type_separation__find__Vector l3;
    type_separation__find__Vector l4;
    type_separation__find__Slopes l5;
    type_separation__find__Slopes l6;
    type_sphere__point__Point l7;
    type_sphere__point__Point l8;
    type_sphere__point__Point l9;
    type_sphere__point__Point l10;
    double l11;
    double l12;
    l2 = separation__find__sum_of(l1);
    l3 = separation__find__first_tangent(l2);
    l4 = separation__find__second_tangent(l2);
    l5 = separation__find__slopes_of(l1, l2, l3);
    l6 = separation__find__slopes_of(l1, l2, l4);
    l11 = ((0x1.0c6f7a0b5ed8dp-21) - l5.f0);
    l7 = separation__find__beside(l3, l2, (0x1.0000000000000p+0), l11);
    l11 = (-(0x1.0000000000000p+0));
    l12 = ((0x1.0c6f7a0b5ed8dp-21) + l5.f1);
    l8 = separation__find__beside(l3, l2, l11, l12);
    l11 = ((0x1.0c6f7a0b5ed8dp-21) - l6.f0);
    l9 = separation__find__beside(l4, l2, (0x1.0000000000000p+0), l11);
    l12 = (-(0x1.0000000000000p+0));
    l11 = ((0x1.0c6f7a0b5ed8dp-21) + l6.f1);
    l10 = separation__find__beside(l4, l2, l12, l11);
    l0 = separation__planes__planes_by(l1, l7, l8, l9, l10);
    return l0;
}

static INLINE type_sphere__point__Point separation__planes__away(slice_uint32_t l1)
{
    type_sphere__point__Point l0;
    uint64_t l2;
    uint64_t l3;
    uint64_t l4;
    uint64_t l5;
    uint64_t l6;
    uint64_t l7;
    l2 = polygon__vertices__number_at(l1, UINT64_C(0));
    l3 = (UINT64_C(0) - l2);
    l4 = polygon__vertices__number_at(l1, UINT64_C(1));
    l5 = (UINT64_C(0) - l4);
    l6 = polygon__vertices__number_at(l1, UINT64_C(2));
    l7 = (UINT64_C(0) - l6);
    l0 = (type_sphere__point__Point){.f0 = l3, .f1 = l5, .f2 = l7};
    return l0;
}

static INLINE bool book_feed__indexed__is_past(type_sphere__point__Point l1, type_sphere__point__Point l2)
{
    bool l0;
    uint64_t l3;
    l3 = sphere__orientation__dot(l1, l2);
    l0 = (signed64(l3) < signed64(UINT64_C(0)));
    return l0;
}

static INLINE bool book_feed__indexed__is_aside(slice_uint32_t l1, type_separation__planes__Planes l2, type_sphere__point__Point l3)
{
    bool l0;
    type_sphere__point__Point l4;
    type_sphere__point__Point l5;
    type_sphere__point__Point l6;
    type_sphere__point__Point l7;
    bool l8;
    bool l9;
    bool l10;
    (void)l1;
    l4 = l2.f0;
    l5 = l2.f1;
    l6 = l2.f2;
    l7 = l2.f3;
    l8 = book_feed__indexed__is_past(l4, l3);
    l9 = book_feed__indexed__is_past(l5, l3);
    l10 = (l8 | l9);
    if (l10) {
        l0 = true;
        return l0;
    }
    l8 = book_feed__indexed__is_past(l6, l3);
    l10 = book_feed__indexed__is_past(l7, l3);
    l0 = (l8 | l10);
    return l0;
}

static INLINE uint64_t book_feed__indexed__near_one(type_sphere__point__Grid l1, slice_uint32_t l2, type_separation__planes__Planes l3, type_sphere__point__Point l4)
{
    uint64_t l0;
    bool l5;
    bool l6;
    l5 = sphere__point__is_off_grid(l1, l4);
    if (l5) {
        l0 = UINT64_C(1);
        return l0;
    }
    l6 = book_feed__indexed__is_aside(l2, l3, l4);
    if (l6) {
        l0 = UINT64_C(0);
        return l0;
    }
    l0 = UINT64_C(1);
    return l0;
}

static INLINE uint64_t book_feed__indexed__near_at(type_sphere__point__Grid l1, slice_uint32_t l2, type_separation__planes__Planes l3, slice_uint8_t l4, uint64_t l5)
{
    uint64_t l0;
    type_sphere__point__Point l6;
    uint64_t l7;
    l7 = (l5 * UINT64_C(12));
    l6 = big_endian__read__point_at(l4, l7);
    l0 = book_feed__indexed__near_one(l1, l2, l3, l6);
    return l0;
}

static INLINE bool book_feed__indexed__is_worth_either(type_sphere__point__Grid l1, slice_uint32_t l2, type_separation__planes__Planes l3, slice_uint8_t l4)
{
    bool l0;
    uint64_t l5;
    uint64_t l6;
    uint64_t l7;
    uint64_t l8;
    uint64_t l9;
    uint64_t l10;
    uint64_t l11;
    bool l12;
    bool l13;
    uint64_t l14;
    l10 = l4.f1;
    l5 = (l10 / UINT64_C(12));
    l10 = l2.f1;
    l11 = (l10 / UINT64_C(24));
    l6 = (l11 + UINT64_C(128));
    l12 = (l5 < l6);
    if (l12) {
        l0 = false;
        return l0;
    }
    l10 = (l5 / UINT64_C(1024));
    l7 = (l10 + UINT64_C(16));
    l8 = UINT64_C(0);
    l9 = UINT64_C(0);
    for (;;) {
        l13 = (l9 < l5);
        if (l13) {
        } else {
            goto exit0;
        }
        l14 = book_feed__indexed__near_at(l1, l2, l3, l4, l9);
        l8 = (l8 + l14);
        l9 = (l9 + l7);
    }
exit0:;
    l11 = (l6 - UINT64_C(1));
    l10 = (l11 / l7);
    l0 = (l10 < l8);
    return l0;
}

static bool book_feed__indexed__is_worth(type_sphere__point__Grid l1, slice_uint32_t l2, type_separation__planes__Planes l3, slice_uint8_t l4)
{
    return l1.tag == 0 ? book_feed__indexed__is_worth_either((type_sphere__point__Grid){.tag = 0}, l2, l3, l4) : book_feed__indexed__is_worth_either((type_sphere__point__Grid){.tag = 1}, l2, l3, l4);
}

static INLINE bool separation__planes__falls_behind(type_sphere__point__Point l1, type_sphere__point__Point l2)
{
    bool l0;
    uint64_t l3;
    l3 = sphere__orientation__dot(l1, l2);
    l0 = (signed64(l3) < signed64(UINT64_C(0)));
    return l0;
}

static INLINE bool separation__planes__is_behind(slice_uint32_t l1, type_separation__planes__Planes l2, type_sphere__point__Point l3)
{
    bool l0;
    type_sphere__point__Point l4;
    type_sphere__point__Point l5;
    type_sphere__point__Point l6;
    type_sphere__point__Point l7;
    bool l8;
    bool l9;
    bool l10;
    bool l11;
    bool l12;
    (void)l1;
    l4 = l2.f0;
    l5 = l2.f1;
    l6 = l2.f2;
    l7 = l2.f3;
    l9 = separation__planes__falls_behind(l4, l3);
    l10 = separation__planes__falls_behind(l5, l3);
    l8 = (l9 | l10);
    if (l8) {
    } else {
        l11 = separation__planes__falls_behind(l6, l3);
        l12 = separation__planes__falls_behind(l7, l3);
        l8 = (l11 | l12);
    }
    l0 = l8;
    return l0;
}

static INLINE bool separation__planes__is_separated(type_sphere__point__Grid l1, slice_uint32_t l2, type_separation__planes__Planes l3, type_sphere__point__Point l4, type_sphere__point__Point l5)
{
    bool l0;
    bool l6;
    bool l7;
    bool l8;
    bool l9;
    l8 = sphere__point__is_off_grid(l1, l5);
    l7 = !l8;
    if (l7) {
        l7 = separation__planes__is_behind(l2, l3, l5);
    }
    l6 = l7;
    if (l6) {
        l9 = sphere__direction__antipodal(l4, l5);
        l6 = !l9;
    }
    l0 = l6;
    return l0;
}

static INLINE type_core__result__Result_of_Verdict_Refusal book_feed__judged__answer_for(type_sphere__point__Grid l1, slice_uint32_t l2, slice_uint32_t l3, slice_uint16_t l4, slice_uint16_t l5, slice_uint16_t l6, slice_uint16_t l7, slice_uint16_t l8, type_cones__build__Index l9, type_separation__planes__Planes l10, type_core__result__Result_of_Verdict_Refusal l11, type_sphere__point__Point l12, type_sphere__point__Point l13, type_sphere__point__Point l14)
{
    type_core__result__Result_of_Verdict_Refusal l0;
    type_search__walk__Mode l15;
    bool l16;
    uint64_t l17;
    uint16_t *l18;
    slice_uint16_t l19;
    l16 = separation__planes__is_separated(l1, l2, l10, l12, l14);
    if (l16) {
        l0 = l11;
        return l0;
    }
    l17 = l2.f1;
    l15 = feed__mode_for(l17);
    l18 = (uint16_t *)(void *)&(*l8.f0);
    l19 = (slice_uint16_t){.f0 = l18, .f1 = l8.f1};
    l0 = feed__indexed__judge_indexed(l1, l2, l3, l4, l5, l6, l7, l19, l9, l12, l13, l14, l15);
    return l0;
}

static INLINE bool book_feed__adding__holds_none(type_core__result__Result_of_Verdict_Refusal l1)
{
    bool l0;
    switch (l1.tag) {
    case 0: {
        switch (l1.s0.tag) {
        case 0: {
            l0 = true;
            break;
        }
        case 1: {
            l0 = false;
            break;
        }
        case 2: {
            l0 = true;
            break;
        }
        case 3: default: {
            l0 = false;
            break;
        }
        }
        break;
    }
    case 1: default: {
        l0 = false;
        break;
    }
    }
    return l0;
}

static INLINE void book_feed__adding__add_to(slice_uint8_t l1, uint64_t l2, uint64_t l3, type_core__result__Result_of_Verdict_Refusal l4)
{
    bool l5;
    uint8_t *l7;
    slice_uint8_t l8;
    l5 = book_feed__adding__holds_none(l4);
    if (l5) {
        return;
    }
    l7 = (uint8_t *)(void *)&(*l1.f0);
    l8 = (slice_uint8_t){.f0 = l7, .f1 = l1.f1};
    book_feed__adding__put_zone(l8, l2, l3, l4);
    return;
}

static INLINE void book_feed__judged__add_judged_either(type_sphere__point__Grid l1, slice_uint32_t l2, slice_uint32_t l3, slice_uint16_t l4, slice_uint16_t l5, slice_uint16_t l6, slice_uint16_t l7, slice_uint16_t l8, type_cones__build__Index l9, type_separation__planes__Planes l10, type_core__result__Result_of_Verdict_Refusal l11, type_sphere__point__Point l12, type_sphere__point__Point l13, uint64_t l14, slice_uint8_t l15, slice_uint8_t l16)
{
    uint64_t l17;
    uint64_t l18;
    type_sphere__point__Point l19;
    type_core__result__Result_of_Verdict_Refusal l20;
    uint64_t l21;
    bool l22;
    uint64_t l23;
    uint16_t *l24;
    slice_uint16_t l25;
    uint8_t *l27;
    slice_uint8_t l28;
    l21 = l15.f1;
    l17 = (l21 / UINT64_C(12));
    l18 = UINT64_C(0);
    for (;;) {
        l22 = (l18 < l17);
        if (l22) {
        } else {
            goto exit0;
        }
        l23 = (l18 * UINT64_C(12));
        l19 = big_endian__read__point_at(l15, l23);
        l24 = (uint16_t *)(void *)&(*l8.f0);
        l25 = (slice_uint16_t){.f0 = l24, .f1 = l8.f1};
        l20 = book_feed__judged__answer_for(l1, l2, l3, l4, l5, l6, l7, l25, l9, l10, l11, l12, l13, l19);
        l27 = (uint8_t *)(void *)&(*l16.f0);
        l28 = (slice_uint8_t){.f0 = l27, .f1 = l16.f1};
        l23 = (l18 * UINT64_C(24));
        book_feed__adding__add_to(l28, l23, l14, l20);
        l18 = (l18 + UINT64_C(1));
    }
exit0:;
    return;
}

static INLINE void book_feed__judged__add_judged(type_sphere__point__Grid l1, slice_uint32_t l2, slice_uint32_t l3, slice_uint16_t l4, slice_uint16_t l5, slice_uint16_t l6, slice_uint16_t l7, slice_uint16_t l8, type_cones__build__Index l9, type_separation__planes__Planes l10, type_core__result__Result_of_Verdict_Refusal l11, type_sphere__point__Point l12, type_sphere__point__Point l13, uint64_t l14, slice_uint8_t l15, slice_uint8_t l16)
{
    if (l1.tag == 0)
        book_feed__judged__add_judged_either((type_sphere__point__Grid){.tag = 0}, l2, l3, l4, l5, l6, l7, l8, l9, l10, l11, l12, l13, l14, l15, l16);
    else
        book_feed__judged__add_judged_either((type_sphere__point__Grid){.tag = 1}, l2, l3, l4, l5, l6, l7, l8, l9, l10, l11, l12, l13, l14, l15, l16);
}

static APART void book_feed__indexed__add_by_index(type_sphere__point__Grid l1, slice_uint32_t l2, slice_uint32_t l3, type_separation__planes__Planes l4, type_core__result__Result_of_Verdict_Refusal l5, type_sphere__point__Point l6, type_sphere__point__Point l7, uint64_t l8, slice_uint8_t l9, slice_uint8_t l10)
{
    array_uint16_t_8192 l11;
    array_uint16_t_2048 l12;
    array_uint16_t_1025 l13;
    array_uint16_t_9984 l14;
    array_uint16_t_8192 l15;
    type_cones__build__Index l16;
    array_uint16_t_8192 *l17;
    slice_uint16_t l18;
    array_uint16_t_2048 *l19;
    slice_uint16_t l20;
    array_uint16_t_1025 *l21;
    slice_uint16_t l22;
    array_uint16_t_9984 *l23;
    slice_uint16_t l24;
    array_uint16_t_8192 *l25;
    slice_uint16_t l26;
    array_uint16_t_8192 *l28;
    slice_uint16_t l29;
    array_uint16_t_2048 *l30;
    slice_uint16_t l31;
    array_uint16_t_1025 *l32;
    slice_uint16_t l33;
    array_uint16_t_9984 *l34;
    slice_uint16_t l35;
    array_uint16_t_8192 *l36;
    slice_uint16_t l37;
    uint8_t *l38;
    slice_uint8_t l39;
    for (size_t i = 0; i < 8192; i++)
        l11.e[i] = 0;
    for (size_t i = 0; i < 2048; i++)
        l12.e[i] = 0;
    for (size_t i = 0; i < 1025; i++)
        l13.e[i] = 0;
    for (size_t i = 0; i < 9984; i++)
        l14.e[i] = 0;
    for (size_t i = 0; i < 8192; i++)
        l15.e[i] = 0;
    l17 = (array_uint16_t_8192 *)(void *)&l11;
    l18 = (slice_uint16_t){.f0 = (uint16_t *)(void *)l17, .f1 = UINT64_C(8192)};
    l19 = (array_uint16_t_2048 *)(void *)&l12;
    l20 = (slice_uint16_t){.f0 = (uint16_t *)(void *)l19, .f1 = UINT64_C(2048)};
    l21 = (array_uint16_t_1025 *)(void *)&l13;
    l22 = (slice_uint16_t){.f0 = (uint16_t *)(void *)l21, .f1 = UINT64_C(1025)};
    l23 = (array_uint16_t_9984 *)(void *)&l14;
    l24 = (slice_uint16_t){.f0 = (uint16_t *)(void *)l23, .f1 = UINT64_C(9984)};
    l25 = (array_uint16_t_8192 *)(void *)&l15;
    l26 = (slice_uint16_t){.f0 = (uint16_t *)(void *)l25, .f1 = UINT64_C(8192)};
    l16 = cones__build__build(l1, l2, l6, l18, l20, l22, l24, l26);
    l28 = (array_uint16_t_8192 *)(void *)&l11;
    l29 = (slice_uint16_t){.f0 = (uint16_t *)(void *)l28, .f1 = UINT64_C(8192)};
    l30 = (array_uint16_t_2048 *)(void *)&l12;
    l31 = (slice_uint16_t){.f0 = (uint16_t *)(void *)l30, .f1 = UINT64_C(2048)};
    l32 = (array_uint16_t_1025 *)(void *)&l13;
    l33 = (slice_uint16_t){.f0 = (uint16_t *)(void *)l32, .f1 = UINT64_C(1025)};
    l34 = (array_uint16_t_9984 *)(void *)&l14;
    l35 = (slice_uint16_t){.f0 = (uint16_t *)(void *)l34, .f1 = UINT64_C(9984)};
    l36 = (array_uint16_t_8192 *)(void *)&l15;
    l37 = (slice_uint16_t){.f0 = (uint16_t *)(void *)l36, .f1 = UINT64_C(8192)};
    l38 = (uint8_t *)(void *)&(*l10.f0);
    l39 = (slice_uint8_t){.f0 = l38, .f1 = l10.f1};
    book_feed__judged__add_judged(l1, l2, l3, l29, l31, l33, l35, l37, l16, l4, l5, l6, l7, l8, l9, l39);
    return;
}

static INLINE void book_feed__indexed__add_each(type_sphere__point__Grid l1, slice_uint32_t l2, slice_uint32_t l3, type_separation__planes__Planes l4, type_core__result__Result_of_Verdict_Refusal l5, type_sphere__point__Point l6, type_sphere__point__Point l7, uint64_t l8, slice_uint8_t l9, slice_uint8_t l10)
{
    array_uint16_t_1 l11;
    array_uint16_t_1 l12;
    bool l13;
    type_sphere__point__Grid l14;
    uint8_t *l15;
    slice_uint8_t l16;
    type_sphere__point__Grid l17;
    uint8_t *l18;
    slice_uint8_t l19;
    array_uint16_t_1 *l21;
    slice_uint16_t l22;
    array_uint16_t_1 *l23;
    slice_uint16_t l24;
    array_uint16_t_1 *l25;
    slice_uint16_t l26;
    array_uint16_t_1 *l27;
    slice_uint16_t l28;
    array_uint16_t_1 *l29;
    slice_uint16_t l30;
    type_cones__build__Index l31;
    uint8_t *l32;
    slice_uint8_t l33;
    l13 = book_feed__indexed__is_worth(l1, l2, l4, l9);
    if (l13) {
        switch (l1.tag) {
        case 0: {
            l14 = (type_sphere__point__Grid){.tag = 0};
            l15 = (uint8_t *)(void *)&(*l10.f0);
            l16 = (slice_uint8_t){.f0 = l15, .f1 = l10.f1};
            book_feed__indexed__add_by_index(l14, l2, l3, l4, l5, l6, l7, l8, l9, l16);
            return;
            break;
        }
        case 1: default: {
            l17 = (type_sphere__point__Grid){.tag = 1};
            l18 = (uint8_t *)(void *)&(*l10.f0);
            l19 = (slice_uint8_t){.f0 = l18, .f1 = l10.f1};
            book_feed__indexed__add_by_index(l17, l2, l3, l4, l5, l6, l7, l8, l9, l19);
            return;
            break;
        }
        }
    }
    l11 = (array_uint16_t_1){.e[0] = 0};
    l12 = (array_uint16_t_1){.e[0] = 0};
    l21 = (array_uint16_t_1 *)(void *)&l11;
    l22 = (slice_uint16_t){.f0 = (uint16_t *)(void *)l21, .f1 = UINT64_C(1)};
    l23 = (array_uint16_t_1 *)(void *)&l11;
    l24 = (slice_uint16_t){.f0 = (uint16_t *)(void *)l23, .f1 = UINT64_C(1)};
    l25 = (array_uint16_t_1 *)(void *)&l11;
    l26 = (slice_uint16_t){.f0 = (uint16_t *)(void *)l25, .f1 = UINT64_C(1)};
    l27 = (array_uint16_t_1 *)(void *)&l11;
    l28 = (slice_uint16_t){.f0 = (uint16_t *)(void *)l27, .f1 = UINT64_C(1)};
    l29 = (array_uint16_t_1 *)(void *)&l12;
    l30 = (slice_uint16_t){.f0 = (uint16_t *)(void *)l29, .f1 = UINT64_C(1)};
    l31 = cones__build__no_index();
    l32 = (uint8_t *)(void *)&(*l10.f0);
    l33 = (slice_uint8_t){.f0 = l32, .f1 = l10.f1};
    book_feed__judged__add_judged(l1, l2, l3, l22, l24, l26, l28, l30, l31, l4, l5, l6, l7, l8, l9, l33);
    return;
}

static INLINE void book_feed__sheets__add_polygon(type_sphere__point__Grid l1, slice_uint32_t l2, slice_uint32_t l3, type_sphere__point__Point l4, type_sphere__point__Point l5, uint64_t l6, slice_uint8_t l7, slice_uint8_t l8)
{
    type_separation__planes__Planes l9;
    type_sphere__point__Point l10;
    type_core__result__Result_of_Verdict_Refusal l11;
    type_judging__judge__Judgement l12;
    type_search__walk__Mode l13;
    uint8_t *l15;
    slice_uint8_t l16;
    l9 = separation__find__planes_of(l2);
    l10 = separation__planes__away(l2);
    l13 = (type_search__walk__Mode){.tag = 1};
    l12 = judging__judge__judge_boxed(l1, l2, l3, l4, l5, l10, l13);
    l11 = l12.f0;
    l15 = (uint8_t *)(void *)&(*l8.f0);
    l16 = (slice_uint8_t){.f0 = l15, .f1 = l8.f1};
    book_feed__indexed__add_each(l1, l2, l3, l9, l11, l4, l5, l6, l7, l16);
    return;
}

static void book_feed__sheets__add_opened(slice_uint8_t l1, uint64_t l2, slice_uint8_t l3, slice_uint8_t l4, slice_uint32_t l5, slice_uint32_t l6)
{
    type_sheet__open__Opened l7;
    type_sheet__open__Opened l8;
    type_answer__Refusal l9;
    type_sphere__point__Grid l10;
    uint64_t l11;
    type_core__result__Result_of_Opened_Refusal l12;
    uint32_t *l13;
    slice_uint32_t l14;
    uint32_t *l15;
    slice_uint32_t l16;
    type_sheet__open__Opened l17;
    type_core__result__Result_of_Verdict_Refusal l18;
    uint8_t *l19;
    slice_uint8_t l20;
    uint32_t *l22;
    slice_uint32_t l23;
    uint32_t *l24;
    slice_uint32_t l25;
    type_sphere__point__Point l26;
    type_sphere__point__Point l27;
    uint8_t *l28;
    slice_uint8_t l29;
    l13 = (uint32_t *)(void *)&(*l5.f0);
    l14 = (slice_uint32_t){.f0 = l13, .f1 = l5.f1};
    l15 = (uint32_t *)(void *)&(*l6.f0);
    l16 = (slice_uint32_t){.f0 = l15, .f1 = l6.f1};
    l12 = sheet__open__open_into(l1, l14, l16);
    switch (l12.tag) {
    case 0: {
        l8 = l12.s0;
        l17 = l8;
        break;
    }
    case 1: default: {
        l9 = l12.s1;
        l18 = (type_core__result__Result_of_Verdict_Refusal){.tag = 1, .s1 = l9};
        l19 = (uint8_t *)(void *)&(*l4.f0);
        l20 = (slice_uint8_t){.f0 = l19, .f1 = l4.f1};
        book_feed__adding__add_all(l3, l2, l18, l20);
        return;
        break;
    }
    }
    l7 = l17;
    l10 = l7.f0;
    l11 = (l7.f4 * UINT64_C(3));
    l22 = (uint32_t *)(void *)&(*l5.f0);
    l23 = (slice_uint32_t){.f0 = l22, .f1 = l11};
    l24 = (uint32_t *)(void *)&(*l6.f0);
    l25 = (slice_uint32_t){.f0 = l24, .f1 = l6.f1};
    l26 = l7.f1;
    l27 = l7.f2;
    l28 = (uint8_t *)(void *)&(*l4.f0);
    l29 = (slice_uint8_t){.f0 = l28, .f1 = l4.f1};
    book_feed__sheets__add_polygon(l10, l23, l25, l26, l27, l2, l3, l29);
    return;
}

static APART void book_feed__sheets__add_sheet(slice_uint8_t l1, uint64_t l2, slice_uint8_t l3, slice_uint8_t l4)
{
    array_uint32_t_768 l5;
    array_uint32_t_48 l6;
    array_uint32_t_12288 l7;
    uint64_t l8;
    bool l9;
    uint8_t *l10;
    slice_uint8_t l11;
    array_uint32_t_768 *l12;
    slice_uint32_t l13;
    array_uint32_t_48 *l14;
    slice_uint32_t l15;
    uint8_t *l17;
    slice_uint8_t l18;
    array_uint32_t_12288 *l19;
    slice_uint32_t l20;
    array_uint32_t_768 *l21;
    slice_uint32_t l22;
    for (size_t i = 0; i < 768; i++)
        l5.e[i] = UINT32_C(0);
    l8 = l1.f1;
    l9 = (l8 <= UINT64_C(3072));
    if (l9) {
        for (size_t i = 0; i < 48; i++)
            l6.e[i] = UINT32_C(0);
        l10 = (uint8_t *)(void *)&(*l4.f0);
        l11 = (slice_uint8_t){.f0 = l10, .f1 = l4.f1};
        l12 = (array_uint32_t_768 *)(void *)&l5;
        l13 = (slice_uint32_t){.f0 = (uint32_t *)(void *)l12, .f1 = UINT64_C(768)};
        l14 = (array_uint32_t_48 *)(void *)&l6;
        l15 = (slice_uint32_t){.f0 = (uint32_t *)(void *)l14, .f1 = UINT64_C(48)};
        book_feed__sheets__add_opened(l1, l2, l3, l11, l13, l15);
        return;
    }
    for (size_t i = 0; i < 12288; i++)
        l7.e[i] = UINT32_C(0);
    l17 = (uint8_t *)(void *)&(*l4.f0);
    l18 = (slice_uint8_t){.f0 = l17, .f1 = l4.f1};
    l19 = (array_uint32_t_12288 *)(void *)&l7;
    l20 = (slice_uint32_t){.f0 = (uint32_t *)(void *)l19, .f1 = UINT64_C(12288)};
    l21 = (array_uint32_t_768 *)(void *)&l5;
    l22 = (slice_uint32_t){.f0 = (uint32_t *)(void *)l21, .f1 = UINT64_C(768)};
    book_feed__sheets__add_opened(l1, l2, l3, l18, l20, l22);
    return;
}

static INLINE void book_feed__sheets__add_zone(slice_uint8_t l1, uint32_t l2, uint64_t l3, slice_uint8_t l4, slice_uint8_t l5)
{
    uint32_t l6;
    type_sphere__point__Grid l7;
    bool l8;
    type_answer__Refusal l9;
    type_answer__Reason l10;
    type_core__result__Result_of_Verdict_Refusal l11;
    uint8_t *l12;
    slice_uint8_t l13;
    uint8_t *l15;
    slice_uint8_t l16;
    l7 = fields__grid(l1);
    l6 = book__which__grid_number(l7);
    l8 = (l2 != l6);
    if (l8) {
        l10 = (type_answer__Reason){.tag = 18};
        l9 = answer__Reason__at(l10, UINT64_C(0));
        l11 = (type_core__result__Result_of_Verdict_Refusal){.tag = 1, .s1 = l9};
        l12 = (uint8_t *)(void *)&(*l5.f0);
        l13 = (slice_uint8_t){.f0 = l12, .f1 = l5.f1};
        book_feed__adding__add_all(l4, l3, l11, l13);
        return;
    }
    l15 = (uint8_t *)(void *)&(*l5.f0);
    l16 = (slice_uint8_t){.f0 = l15, .f1 = l5.f1};
    book_feed__sheets__add_sheet(l1, l3, l4, l16);
    return;
}

static INLINE void book_feed__sheets__add_at(slice_uint8_t l1, uint64_t l2, uint64_t l3, uint32_t l4, uint64_t l5, slice_uint8_t l6, slice_uint8_t l7)
{
    uint64_t l8;
    unsigned char *l10;
    uint64_t l11;
    uint8_t *l12;
    slice_uint8_t l13;
    uint8_t *l14;
    slice_uint8_t l15;
    l8 = (l2 + l3);
    l10 = ((unsigned char *)(void *)l1.f0 + (size_t)l2);
    l11 = (l8 - l2);
    l12 = (uint8_t *)(void *)&(*(uint8_t *)(void *)l10);
    l13 = (slice_uint8_t){.f0 = l12, .f1 = l11};
    l14 = (uint8_t *)(void *)&(*l7.f0);
    l15 = (slice_uint8_t){.f0 = l14, .f1 = l7.f1};
    book_feed__sheets__add_zone(l13, l4, l5, l6, l15);
    return;
}

static void book_feed__whole__fill(slice_uint8_t l1, uint32_t l2, slice_uint8_t l3, slice_uint8_t l4)
{
    uint64_t l5;
    uint64_t l6;
    uint64_t l7;
    uint8_t *l9;
    slice_uint8_t l10;
    bool l11;
    type_core__result__Result_of_Option_tuple_u64_u64_Refusal l12;
    uint8_t *l14;
    slice_uint8_t l15;
    l9 = (uint8_t *)(void *)&(*l4.f0);
    l10 = (slice_uint8_t){.f0 = l9, .f1 = l4.f1};
    book_feed__whole__clear(l3, l10);
    l5 = UINT64_C(0);
    l6 = UINT64_C(0);
    for (;;) {
        l11 = (l6 < UINT64_C(64));
        if (l11) {
        } else {
            goto exit0;
        }
        l12 = book__step__step_at(l1, l5);
        switch (l12.tag) {
        case 0: {
            switch (l12.s0.tag) {
            case 1: {
                l7 = l12.s0.s0.f1;
                l14 = (uint8_t *)(void *)&(*l4.f0);
                l15 = (slice_uint8_t){.f0 = l14, .f1 = l4.f1};
                book_feed__sheets__add_at(l1, l5, l7, l2, l6, l3, l15);
                l5 = (l5 + l7);
                break;
            }
            case 0: default: {
                return;
                break;
            }
            }
            break;
        }
        case 1: default: {
            return;
            break;
        }
        }
        l6 = (l6 + UINT64_C(1));
    }
exit0:;
    return;
}

static INLINE type_core__result__Result_of_Verdict_Refusal book_feed__whole__book_feed(slice_uint8_t l1, uint32_t l2, slice_uint8_t l3, slice_uint8_t l4)
{
    type_core__result__Result_of_Verdict_Refusal l0;
    type_core__result__ErrResidual_of_Refusal l6;
    type_core__ops__ControlFlow_of_ErrResidual_Refusal_unit l7;
    type_core__result__Result_of_unit_Refusal l8;
    uint64_t l9;
    uint8_t *l11;
    slice_uint8_t l12;
    type_answer__Verdict l13;
    l9 = l4.f1;
    l8 = book_feed__whole__feed_check(l1, l3, l9);
    l7 = core__result__ResultTry__branch_of_unit_Refusal(l8);
    switch (l7.tag) {
    case 0: {
        break;
    }
    case 1: default: {
        l6 = l7.s0;
        l0 = core__result__ResultFromResidualErrResidual__from_residual_of_Verdict_Refusal_Refusal(l6);
        return l0;
        break;
    }
    }
    l11 = (uint8_t *)(void *)&(*l4.f0);
    l12 = (slice_uint8_t){.f0 = l11, .f1 = l4.f1};
    book_feed__whole__fill(l1, l2, l3, l12);
    l13 = (type_answer__Verdict){.tag = 0, .s0 = UINT64_C(0)};
    l0 = (type_core__result__Result_of_Verdict_Refusal){.tag = 0, .s0 = l13};
    return l0;
}

static INLINE uint32_t spargolutta_books__spg_book_feed_number(slice_uint8_t l1, uint32_t l2, slice_uint8_t l3, slice_uint8_t l4)
{
    uint32_t l0;
    type_core__result__Result_of_Verdict_Refusal l5;
    uint8_t *l6;
    slice_uint8_t l7;
    l6 = (uint8_t *)(void *)&(*l4.f0);
    l7 = (slice_uint8_t){.f0 = l6, .f1 = l4.f1};
    l5 = book_feed__whole__book_feed(l1, l2, l3, l7);
    l0 = answer__number(l5);
    return l0;
}

static INLINE type_core__result__Result_of_Verdict_Refusal book_feed__whole__feed_answer(slice_uint8_t l1, slice_uint8_t l2, uint64_t l3)
{
    type_core__result__Result_of_Verdict_Refusal l0;
    type_core__result__ErrResidual_of_Refusal l5;
    type_core__ops__ControlFlow_of_ErrResidual_Refusal_unit l6;
    type_core__result__Result_of_unit_Refusal l7;
    type_answer__Verdict l8;
    l7 = book_feed__whole__feed_check(l1, l2, l3);
    l6 = core__result__ResultTry__branch_of_unit_Refusal(l7);
    switch (l6.tag) {
    case 0: {
        break;
    }
    case 1: default: {
        l5 = l6.s0;
        l0 = core__result__ResultFromResidualErrResidual__from_residual_of_Verdict_Refusal_Refusal(l5);
        return l0;
        break;
    }
    }
    l8 = (type_answer__Verdict){.tag = 0, .s0 = UINT64_C(0)};
    l0 = (type_core__result__Result_of_Verdict_Refusal){.tag = 0, .s0 = l8};
    return l0;
}

static INLINE uint64_t spargolutta_books__spg_book_feed_place(slice_uint8_t l1, uint32_t l2, slice_uint8_t l3, uint64_t l4)
{
    uint64_t l0;
    type_core__result__Result_of_Verdict_Refusal l5;
    (void)l2;
    l5 = book_feed__whole__feed_answer(l1, l3, l4);
    l0 = answer__place(l5);
    return l0;
}

static INLINE uint32_t spargolutta_books__spg_book_feed_count(slice_uint8_t l1, uint32_t l2, slice_uint8_t l3, uint64_t l4)
{
    uint32_t l0;
    type_core__result__Result_of_Verdict_Refusal l5;
    (void)l2;
    l5 = book_feed__whole__feed_answer(l1, l3, l4);
    l0 = answer__count(l5);
    return l0;
}

static INLINE type_core__result__Result_of_Option_tuple_u64_u64_Refusal book__reader__look(type_book__reader__Reader l1)
{
    type_core__result__Result_of_Option_tuple_u64_u64_Refusal l0;
    slice_uint8_t l2;
    uint64_t l3;
    l2 = l1.f0;
    l3 = l1.f1;
    l0 = book__step__step_at(l2, l3);
    return l0;
}

static INLINE type_core__result__Result_of_Option_tuple_u64_u64_Refusal book__reader__step_from(slice_uint8_t l1, uint64_t l2)
{
    type_core__result__Result_of_Option_tuple_u64_u64_Refusal l0;
    type_book__reader__Reader l3;
    l3 = (type_book__reader__Reader){.f0 = l1, .f1 = l2};
    l0 = book__reader__look(l3);
    return l0;
}

static INLINE uint32_t book__step__number(type_core__result__Result_of_Option_tuple_u64_u64_Refusal l1)
{
    uint32_t l0;
    type_answer__Refusal l2;
    type_answer__Reason l4;
    switch (l1.tag) {
    case 0: {
        l0 = UINT32_C(0);
        break;
    }
    case 1: default: {
        l2 = l1.s1;
        l4 = l2.f0;
        l0 = answer__Reason__number(l4);
        break;
    }
    }
    return l0;
}

static INLINE uint32_t spargolutta__books__spg_book_next_number(slice_uint8_t l1, uint64_t l2)
{
    uint32_t l0;
    type_core__result__Result_of_Option_tuple_u64_u64_Refusal l3;
    l3 = book__reader__step_from(l1, l2);
    l0 = book__step__number(l3);
    return l0;
}

static INLINE uint64_t book__step__place(type_core__result__Result_of_Option_tuple_u64_u64_Refusal l1)
{
    uint64_t l0;
    uint64_t l2;
    type_answer__Refusal l3;
    switch (l1.tag) {
    case 0: {
        switch (l1.s0.tag) {
        case 1: {
            l2 = l1.s0.s0.f0;
            l0 = l2;
            break;
        }
        case 0: default: {
            l0 = UINT64_C(0);
            break;
        }
        }
        break;
    }
    case 1: default: {
        l3 = l1.s1;
        l0 = l3.f1;
        break;
    }
    }
    return l0;
}

static INLINE uint64_t spargolutta__books__spg_book_next_place(slice_uint8_t l1, uint64_t l2)
{
    uint64_t l0;
    type_core__result__Result_of_Option_tuple_u64_u64_Refusal l3;
    l3 = book__reader__step_from(l1, l2);
    l0 = book__step__place(l3);
    return l0;
}

static INLINE uint64_t book__step__count(type_core__result__Result_of_Option_tuple_u64_u64_Refusal l1)
{
    uint64_t l0;
    uint64_t l2;
    switch (l1.tag) {
    case 0: {
        switch (l1.s0.tag) {
        case 1: {
            l2 = l1.s0.s0.f1;
            l0 = l2;
            goto exit0;
            break;
        }
        case 0: default: {
            goto exit1;
            break;
        }
        }
        break;
    }
    case 1: default: {
        goto exit1;
        break;
    }
    }
exit1:;
    l0 = UINT64_C(0);
exit0:;
    return l0;
}

static INLINE uint64_t spargolutta__books__spg_book_next_count(slice_uint8_t l1, uint64_t l2)
{
    uint64_t l0;
    type_core__result__Result_of_Option_tuple_u64_u64_Refusal l3;
    l3 = book__reader__step_from(l1, l2);
    l0 = book__step__count(l3);
    return l0;
}

static INLINE type_sheet__read__Sheet sheet__read__accepted(slice_uint8_t l1, type_sheet__open__Opened l2)
{
    type_sheet__read__Sheet l0;
    uint64_t l3;
    type_answer__Verdict l4;
    type_core__result__Result_of_Verdict_Refusal l5;
    uint32_t l6;
    uint32_t l7;
    uint64_t l8;
    uint64_t l9;
    type_sphere__point__Point l10;
    type_sphere__point__Point l11;
    type_sphere__point__Grid l12;
    l3 = l1.f1;
    l4 = (type_answer__Verdict){.tag = 0, .s0 = l3};
    l5 = (type_core__result__Result_of_Verdict_Refusal){.tag = 0, .s0 = l4};
    l6 = big_endian__read__word_at(l1, UINT64_C(3));
    l8 = (UINT64_C(7) + UINT64_C(3));
    l7 = big_endian__read__byte_at(l1, l8);
    l9 = (UINT64_C(11) + UINT64_C(3));
    l10 = l2.f1;
    l11 = l2.f2;
    l12 = l2.f0;
    l0 = (type_sheet__read__Sheet){.f0 = l5, .f1 = l6, .f2 = l7, .f3 = l9, .f4 = l2.f5, .f5 = l10, .f6 = l2.f4, .f7 = l11, .f8 = l12};
    return l0;
}

static INLINE type_sheet__read__Sheet sheet__read__refused(type_answer__Refusal l1)
{
    type_sheet__read__Sheet l0;
    type_core__result__Result_of_Verdict_Refusal l2;
    type_sphere__point__Point l3;
    type_sphere__point__Point l4;
    type_sphere__point__Grid l5;
    l2 = (type_core__result__Result_of_Verdict_Refusal){.tag = 1, .s1 = l1};
    l3 = (type_sphere__point__Point){.f0 = UINT64_C(0), .f1 = UINT64_C(0), .f2 = UINT64_C(0)};
    l4 = judging__accept__no_second();
    l5 = (type_sphere__point__Grid){.tag = 0};
    l0 = (type_sheet__read__Sheet){.f0 = l2, .f1 = UINT32_C(0), .f2 = UINT32_C(0), .f3 = UINT64_C(0), .f4 = UINT64_C(0), .f5 = l3, .f6 = UINT64_C(0), .f7 = l4, .f8 = l5};
    return l0;
}

static INLINE type_sheet__read__Sheet sheet__read__read(slice_uint8_t l1)
{
    type_sheet__read__Sheet l0;
    type_sheet__open__Opened l2;
    type_answer__Refusal l3;
    type_core__result__Result_of_Opened_Refusal l4;
    l4 = sheet__read__opened(l1);
    switch (l4.tag) {
    case 0: {
        l2 = l4.s0;
        l0 = sheet__read__accepted(l1, l2);
        break;
    }
    case 1: default: {
        l3 = l4.s1;
        l0 = sheet__read__refused(l3);
        break;
    }
    }
    return l0;
}

static INLINE type_compare__Comparison compare__refused(type_answer__Refusal l1)
{
    type_compare__Comparison l0;
    uint32_t l2;
    type_answer__Reason l3;
    array_uint8_t_7 l4;
    l3 = l1.f0;
    l2 = answer__Reason__number(l3);
    for (size_t i = 0; i < 7; i++)
        l4.e[i] = 0;
    l0 = (type_compare__Comparison){.f0 = l2, .f1 = l1.f1, .f2 = UINT32_C(0), .f3 = UINT32_C(0), .f4 = l4};
    return l0;
}

static INLINE slice_uint8_t sheet__open__vertices_in(slice_uint8_t l1, uint64_t l2, uint64_t l3)
{
    slice_uint8_t l0;
    uint64_t l4;
    uint64_t l5;
    uint64_t l6;
    unsigned char *l7;
    uint64_t l8;
    uint8_t *l9;
    l5 = (UINT64_C(11) + UINT64_C(21));
    l4 = (l5 + l2);
    l5 = (l3 * UINT64_C(12));
    l6 = (l4 + l5);
    l7 = ((unsigned char *)(void *)l1.f0 + (size_t)l4);
    l8 = (l6 - l4);
    l9 = (uint8_t *)(void *)&(*(uint8_t *)(void *)l7);
    l0 = (slice_uint8_t){.f0 = l9, .f1 = l8};
    return l0;
}

static INLINE slice_uint8_t compare__differences__ring_in(slice_uint8_t l1, uint64_t l2, uint64_t l3)
{
    slice_uint8_t l0;
    l0 = sheet__open__vertices_in(l1, l2, l3);
    return l0;
}

static INLINE bool core__iter__steps__UsizeStep__below(uint64_t l1, uint64_t l2)
{
    bool l0;
    l0 = (l1 < l2);
    return l0;
}

static INLINE uint64_t core__iter__steps__UsizeStep__forward(uint64_t l1, uint64_t l2)
{
    uint64_t l0;
    (void)l2;
    l0 = (l1 + UINT64_C(1));
    return l0;
}

static INLINE type_core__option__Option_of_u64 core__iter__ranges__RangeIterator__next_of_u64(type_core__iter__ranges__Range_of_u64 *l1)
{
    type_core__option__Option_of_u64 l0;
    uint64_t l2;
    bool l3;
    uint64_t l4;
    uint64_t l5;
    uint64_t l7;
    uint64_t l8;
    l4 = (*l1).f0;
    l5 = (*l1).f1;
    l3 = core__iter__steps__UsizeStep__below(l4, l5);
    if (l3) {
        l2 = (*l1).f0;
        l8 = (*l1).f1;
        l7 = core__iter__steps__UsizeStep__forward(l2, l8);
        (*l1).f0 = l7;
        l0 = (type_core__option__Option_of_u64){.tag = 1, .s0 = l2};
    } else {
        l0 = (type_core__option__Option_of_u64){.tag = 0};
    }
    return l0;
}

static INLINE type_sphere__point__Point compare__ring__vertex_in(slice_uint8_t l1, uint64_t l2)
{
    type_sphere__point__Point l0;
    uint64_t l3;
    l3 = (l2 * UINT64_C(12));
    l0 = big_endian__read__point_at(l1, l3);
    return l0;
}

static bool compare__ring__differs(slice_uint8_t l1, slice_uint8_t l2, uint64_t l3, uint64_t l4)
{
    bool l0;
    bool l5;
    type_sphere__point__Point l6;
    type_sphere__point__Point l7;
    l6 = compare__ring__vertex_in(l1, l3);
    l7 = compare__ring__vertex_in(l2, l4);
    l5 = sphere__direction__same_direction(l6, l7);
    l0 = !l5;
    return l0;
}

static INLINE bool compare__ring__fn__first_difference__find(type_compare__ring__fn__first_difference__find_Self_of_slice_u8_slice_u8 *l1, uint64_t *l2)
{
    bool l0;
    slice_uint8_t l3;
    slice_uint8_t l4;
    uint64_t l5;
    uint64_t l6;
    l3 = (*l1).f0;
    l4 = (*l1).f1;
    l5 = (*l2);
    l6 = (*l2);
    l0 = compare__ring__differs(l3, l4, l5, l6);
    return l0;
}

static INLINE bool compare__ring__fn__first_difference__find_FnMut__call_mut(type_compare__ring__fn__first_difference__find_Self_of_slice_u8_slice_u8 *l1, uint64_t *l2)
{
    bool l0;
    type_compare__ring__fn__first_difference__find_Self_of_slice_u8_slice_u8 *l3;
    l3 = (type_compare__ring__fn__first_difference__find_Self_of_slice_u8_slice_u8 *)(void *)&(*l1);
    l0 = compare__ring__fn__first_difference__find(l3, l2);
    return l0;
}

static INLINE type_core__option__Option_of_u64 core__iter__base__Iterator__find_of_Range_u64_u64_first_difference_find_slice_u8_slice_u8(type_core__iter__ranges__Range_of_u64 *l1, type_compare__ring__fn__first_difference__find_Self_of_slice_u8_slice_u8 l2)
{
    type_core__option__Option_of_u64 l0;
    type_compare__ring__fn__first_difference__find_Self_of_slice_u8_slice_u8 l3;
    uint64_t l4;
    type_core__option__Option_of_u64 l5;
    type_core__iter__ranges__Range_of_u64 *l6;
    bool l7;
    type_compare__ring__fn__first_difference__find_Self_of_slice_u8_slice_u8 *l8;
    uint64_t *l9;
    uint64_t l10;
    l3 = l2;
    for (;;) {
        l6 = (type_core__iter__ranges__Range_of_u64 *)(void *)&(*l1);
        l5 = core__iter__ranges__RangeIterator__next_of_u64(l6);
        switch (l5.tag) {
        case 1: {
            l4 = l5.s0;
            l8 = (type_compare__ring__fn__first_difference__find_Self_of_slice_u8_slice_u8 *)(void *)&l3;
            l9 = (uint64_t *)(void *)&l4;
            l7 = compare__ring__fn__first_difference__find_FnMut__call_mut(l8, l9);
            if (l7) {
                l10 = l4;
                l0 = (type_core__option__Option_of_u64){.tag = 1, .s0 = l10};
                return l0;
            }
            break;
        }
        case 0: default: {
            goto exit0;
            break;
        }
        }
    }
exit0:;
    l0 = (type_core__option__Option_of_u64){.tag = 0};
    return l0;
}

static INLINE uint64_t core__option__Option__unwrap_or_of_u64(type_core__option__Option_of_u64 l1, uint64_t l2)
{
    uint64_t l0;
    uint64_t l3;
    switch (l1.tag) {
    case 1: {
        l3 = l1.s0;
        l0 = l3;
        break;
    }
    case 0: default: {
        l0 = l2;
        break;
    }
    }
    return l0;
}

static INLINE uint64_t compare__ring__first_difference(slice_uint8_t l1, slice_uint8_t l2)
{
    uint64_t l0;
    uint64_t l3;
    uint64_t l4;
    uint64_t l5;
    uint64_t l6;
    uint64_t l7;
    type_core__option__Option_of_u64 l8;
    type_core__iter__ranges__Range_of_u64 l9;
    type_core__iter__ranges__Range_of_u64 l10;
    type_core__iter__ranges__Range_of_u64 *l11;
    uint8_t *l12;
    slice_uint8_t l13;
    uint8_t *l14;
    slice_uint8_t l15;
    type_compare__ring__fn__first_difference__find_Self_of_slice_u8_slice_u8 l16;
    l4 = l1.f1;
    l5 = (l4 / UINT64_C(12));
    l6 = l2.f1;
    l7 = (l6 / UINT64_C(12));
    l3 = core__int__usize__min(l5, l7);
    l9 = (type_core__iter__ranges__Range_of_u64){.f0 = UINT64_C(0), .f1 = l3};
    l10 = l9;
    l11 = (type_core__iter__ranges__Range_of_u64 *)(void *)&l10;
    l12 = (uint8_t *)(void *)&(*l1.f0);
    l13 = (slice_uint8_t){.f0 = l12, .f1 = l1.f1};
    l14 = (uint8_t *)(void *)&(*l2.f0);
    l15 = (slice_uint8_t){.f0 = l14, .f1 = l2.f1};
    l16 = (type_compare__ring__fn__first_difference__find_Self_of_slice_u8_slice_u8){.f0 = l13, .f1 = l15};
    l8 = core__iter__base__Iterator__find_of_Range_u64_u64_first_difference_find_slice_u8_slice_u8(l11, l16);
    l0 = core__option__Option__unwrap_or_of_u64(l8, l3);
    return l0;
}

static INLINE uint64_t compare__ring__round(uint64_t l1, uint64_t l2)
{
    uint64_t l0;
    bool l3;
    l3 = (l2 < l1);
    if (l3) {
        l0 = l2;
        return l0;
    }
    l0 = (l2 - l1);
    return l0;
}

static INLINE uint64_t compare__ring__met_at(bool l1, uint64_t l2, uint64_t l3, uint64_t l4)
{
    uint64_t l0;
    bool l5;
    uint64_t l6;
    uint64_t l7;
    uint64_t l8;
    l5 = l1;
    if (l5) {
        l6 = (l2 - l4);
        l7 = (l3 + l6);
        l0 = compare__ring__round(l2, l7);
        return l0;
    }
    l8 = (l3 + l4);
    l0 = compare__ring__round(l2, l8);
    return l0;
}

static INLINE bool compare__ring__is_met(slice_uint8_t l1, slice_uint8_t l2, bool l3, uint64_t l4, uint64_t l5)
{
    bool l0;
    bool l6;
    uint64_t l7;
    uint64_t l8;
    uint64_t l9;
    l8 = l1.f1;
    l9 = (l8 / UINT64_C(12));
    l7 = compare__ring__met_at(l3, l9, l4, l5);
    l6 = compare__ring__differs(l1, l2, l5, l7);
    l0 = !l6;
    return l0;
}

static INLINE bool compare__ring__fn__meets__all(type_compare__ring__fn__meets__all_Self_of_slice_u8_slice_u8_ref_bool_ref_u64 *l1, uint64_t l2)
{
    bool l0;
    slice_uint8_t l3;
    slice_uint8_t l4;
    bool *l5;
    uint64_t *l6;
    bool l7;
    uint64_t l8;
    l3 = (*l1).f0;
    l4 = (*l1).f1;
    l5 = (*l1).f2;
    l6 = (*l1).f3;
    l7 = (*l5);
    l8 = (*l6);
    l0 = compare__ring__is_met(l3, l4, l7, l8, l2);
    return l0;
}

static INLINE bool compare__ring__fn__meets__all_FnMut__call_mut(type_compare__ring__fn__meets__all_Self_of_slice_u8_slice_u8_ref_bool_ref_u64 *l1, uint64_t l2)
{
    bool l0;
    type_compare__ring__fn__meets__all_Self_of_slice_u8_slice_u8_ref_bool_ref_u64 *l3;
    l3 = (type_compare__ring__fn__meets__all_Self_of_slice_u8_slice_u8_ref_bool_ref_u64 *)(void *)&(*l1);
    l0 = compare__ring__fn__meets__all(l3, l2);
    return l0;
}

static INLINE bool core__iter__base__Iterator__all_of_Range_u64_u64_meets_all_slice_u8_slice_u8_ref_bool_ref_u64(type_core__iter__ranges__Range_of_u64 *l1, type_compare__ring__fn__meets__all_Self_of_slice_u8_slice_u8_ref_bool_ref_u64 l2)
{
    bool l0;
    type_compare__ring__fn__meets__all_Self_of_slice_u8_slice_u8_ref_bool_ref_u64 l3;
    uint64_t l4;
    type_core__option__Option_of_u64 l5;
    type_core__iter__ranges__Range_of_u64 *l6;
    bool l7;
    type_compare__ring__fn__meets__all_Self_of_slice_u8_slice_u8_ref_bool_ref_u64 *l8;
    uint64_t l9;
    bool l10;
    l3 = l2;
    for (;;) {
        l6 = (type_core__iter__ranges__Range_of_u64 *)(void *)&(*l1);
        l5 = core__iter__ranges__RangeIterator__next_of_u64(l6);
        switch (l5.tag) {
        case 1: {
            l4 = l5.s0;
            l8 = (type_compare__ring__fn__meets__all_Self_of_slice_u8_slice_u8_ref_bool_ref_u64 *)(void *)&l3;
            l9 = l4;
            l7 = compare__ring__fn__meets__all_FnMut__call_mut(l8, l9);
            l10 = !l7;
            if (l10) {
                l0 = false;
                return l0;
            }
            break;
        }
        case 0: default: {
            goto exit0;
            break;
        }
        }
    }
exit0:;
    l0 = true;
    return l0;
}

static INLINE bool compare__ring__meets(slice_uint8_t l1, slice_uint8_t l2, bool l3, uint64_t l4)
{
    bool l0;
    bool l5;
    uint64_t l6;
    uint64_t l7;
    uint64_t l8;
    type_core__iter__ranges__Range_of_u64 l9;
    type_core__iter__ranges__Range_of_u64 l10;
    type_core__iter__ranges__Range_of_u64 *l11;
    uint8_t *l12;
    slice_uint8_t l13;
    uint8_t *l14;
    slice_uint8_t l15;
    bool *l16;
    uint64_t *l17;
    type_compare__ring__fn__meets__all_Self_of_slice_u8_slice_u8_ref_bool_ref_u64 l18;
    l5 = l3;
    l6 = l4;
    l7 = l1.f1;
    l8 = (l7 / UINT64_C(12));
    l9 = (type_core__iter__ranges__Range_of_u64){.f0 = UINT64_C(0), .f1 = l8};
    l10 = l9;
    l11 = (type_core__iter__ranges__Range_of_u64 *)(void *)&l10;
    l12 = (uint8_t *)(void *)&(*l1.f0);
    l13 = (slice_uint8_t){.f0 = l12, .f1 = l1.f1};
    l14 = (uint8_t *)(void *)&(*l2.f0);
    l15 = (slice_uint8_t){.f0 = l14, .f1 = l2.f1};
    l16 = (bool *)(void *)&l5;
    l17 = (uint64_t *)(void *)&l6;
    l18 = (type_compare__ring__fn__meets__all_Self_of_slice_u8_slice_u8_ref_bool_ref_u64){.f0 = l13, .f1 = l15, .f2 = l16, .f3 = l17};
    l0 = core__iter__base__Iterator__all_of_Range_u64_u64_meets_all_slice_u8_slice_u8_ref_bool_ref_u64(l11, l18);
    return l0;
}

static INLINE bool compare__ring__fn__first_meeting__find(type_compare__ring__fn__first_meeting__find_Self_of_slice_u8_slice_u8_ref_bool *l1, uint64_t *l2)
{
    bool l0;
    slice_uint8_t l3;
    slice_uint8_t l4;
    bool *l5;
    bool l6;
    uint64_t l7;
    l3 = (*l1).f0;
    l4 = (*l1).f1;
    l5 = (*l1).f2;
    l6 = (*l5);
    l7 = (*l2);
    l0 = compare__ring__meets(l3, l4, l6, l7);
    return l0;
}

static INLINE bool compare__ring__fn__first_meeting__find_FnMut__call_mut(type_compare__ring__fn__first_meeting__find_Self_of_slice_u8_slice_u8_ref_bool *l1, uint64_t *l2)
{
    bool l0;
    type_compare__ring__fn__first_meeting__find_Self_of_slice_u8_slice_u8_ref_bool *l3;
    l3 = (type_compare__ring__fn__first_meeting__find_Self_of_slice_u8_slice_u8_ref_bool *)(void *)&(*l1);
    l0 = compare__ring__fn__first_meeting__find(l3, l2);
    return l0;
}

static INLINE type_core__option__Option_of_u64 core__iter__base__Iterator__find_of_Range_u64_u64_first_meeting_find_slice_u8_slice_u8_ref_bool(type_core__iter__ranges__Range_of_u64 *l1, type_compare__ring__fn__first_meeting__find_Self_of_slice_u8_slice_u8_ref_bool l2)
{
    type_core__option__Option_of_u64 l0;
    type_compare__ring__fn__first_meeting__find_Self_of_slice_u8_slice_u8_ref_bool l3;
    uint64_t l4;
    type_core__option__Option_of_u64 l5;
    type_core__iter__ranges__Range_of_u64 *l6;
    bool l7;
    type_compare__ring__fn__first_meeting__find_Self_of_slice_u8_slice_u8_ref_bool *l8;
    uint64_t *l9;
    uint64_t l10;
    l3 = l2;
    for (;;) {
        l6 = (type_core__iter__ranges__Range_of_u64 *)(void *)&(*l1);
        l5 = core__iter__ranges__RangeIterator__next_of_u64(l6);
        switch (l5.tag) {
        case 1: {
            l4 = l5.s0;
            l8 = (type_compare__ring__fn__first_meeting__find_Self_of_slice_u8_slice_u8_ref_bool *)(void *)&l3;
            l9 = (uint64_t *)(void *)&l4;
            l7 = compare__ring__fn__first_meeting__find_FnMut__call_mut(l8, l9);
            if (l7) {
                l10 = l4;
                l0 = (type_core__option__Option_of_u64){.tag = 1, .s0 = l10};
                return l0;
            }
            break;
        }
        case 0: default: {
            goto exit0;
            break;
        }
        }
    }
exit0:;
    l0 = (type_core__option__Option_of_u64){.tag = 0};
    return l0;
}

static INLINE type_core__option__Option_of_u64 compare__ring__first_meeting(slice_uint8_t l1, slice_uint8_t l2, bool l3)
{
    type_core__option__Option_of_u64 l0;
    bool l4;
    uint64_t l5;
    uint64_t l6;
    type_core__iter__ranges__Range_of_u64 l7;
    type_core__iter__ranges__Range_of_u64 l8;
    type_core__iter__ranges__Range_of_u64 *l9;
    uint8_t *l10;
    slice_uint8_t l11;
    uint8_t *l12;
    slice_uint8_t l13;
    bool *l14;
    type_compare__ring__fn__first_meeting__find_Self_of_slice_u8_slice_u8_ref_bool l15;
    l4 = l3;
    l5 = l1.f1;
    l6 = (l5 / UINT64_C(12));
    l7 = (type_core__iter__ranges__Range_of_u64){.f0 = UINT64_C(0), .f1 = l6};
    l8 = l7;
    l9 = (type_core__iter__ranges__Range_of_u64 *)(void *)&l8;
    l10 = (uint8_t *)(void *)&(*l1.f0);
    l11 = (slice_uint8_t){.f0 = l10, .f1 = l1.f1};
    l12 = (uint8_t *)(void *)&(*l2.f0);
    l13 = (slice_uint8_t){.f0 = l12, .f1 = l2.f1};
    l14 = (bool *)(void *)&l4;
    l15 = (type_compare__ring__fn__first_meeting__find_Self_of_slice_u8_slice_u8_ref_bool){.f0 = l11, .f1 = l13, .f2 = l14};
    l0 = core__iter__base__Iterator__find_of_Range_u64_u64_first_meeting_find_slice_u8_slice_u8_ref_bool(l9, l15);
    return l0;
}

static type_compare__ring__Placed compare__ring__place_ring(slice_uint8_t l1, slice_uint8_t l2)
{
    type_compare__ring__Placed l0;
    uint64_t l3;
    uint64_t l4;
    uint64_t l5;
    uint64_t l6;
    uint64_t l7;
    uint64_t l8;
    bool l9;
    uint64_t l10;
    type_core__option__Option_of_u64 l11;
    type_core__option__Option_of_u64 l12;
    l5 = l2.f1;
    l6 = (l5 / UINT64_C(12));
    l7 = l1.f1;
    l8 = (l7 / UINT64_C(12));
    l9 = (l6 != l8);
    if (l9) {
        l10 = compare__ring__first_difference(l1, l2);
        l0 = (type_compare__ring__Placed){.tag = 0, .s0 = l10};
        return l0;
    }
    l11 = compare__ring__first_meeting(l1, l2, false);
    switch (l11.tag) {
    case 1: {
        l3 = l11.s0;
        l0 = (type_compare__ring__Placed){.tag = 1, .s0 = l3};
        return l0;
        break;
    }
    case 0: default: {
        break;
    }
    }
    l12 = compare__ring__first_meeting(l1, l2, true);
    switch (l12.tag) {
    case 1: {
        l4 = l12.s0;
        l0 = (type_compare__ring__Placed){.tag = 2, .s0 = l4};
        return l0;
        break;
    }
    case 0: default: {
        break;
    }
    }
    l5 = compare__ring__first_difference(l1, l2);
    l0 = (type_compare__ring__Placed){.tag = 0, .s0 = l5};
    return l0;
}

static INLINE type_compare__differences__Differences compare__differences__Differences__none(void)
{
    type_compare__differences__Differences l0;
    array_uint8_t_7 l1;
    for (size_t i = 0; i < 7; i++)
        l1.e[i] = 0;
    l0 = (type_compare__differences__Differences){.f0 = l1, .f1 = UINT64_C(0)};
    return l0;
}

static INLINE uint8_t compare__differences__Field__number(type_compare__differences__Field l1)
{
    uint8_t l0;
    uint8_t l2;
    l2 = l1.tag;
    l0 = (uint8_t)((uint32_t)l2 + 1);
    return l0;
}

static INLINE type_compare__differences__Differences compare__differences__Differences__with(type_compare__differences__Differences l1, type_compare__differences__Field l2, bool l3)
{
    type_compare__differences__Differences l0;
    array_uint8_t_7 l4;
    bool l5;
    uint8_t l6;
    uint64_t l7;
    unsigned char *l8;
    unsigned char *l9;
    array_uint8_t_7 l10;
    uint64_t l11;
    l5 = !l3;
    if (l5) {
        l0 = l1;
        return l0;
    }
    l4 = l1.f0;
    l6 = compare__differences__Field__number(l2);
    l7 = l1.f1;
    l8 = (unsigned char *)(void *)&l4;
    l9 = ((unsigned char *)(void *)l8 + (size_t)l7);
    (*(uint8_t *)(void *)l9) = l6;
    l10 = l4;
    l11 = (l1.f1 + UINT64_C(1));
    l0 = (type_compare__differences__Differences){.f0 = l10, .f1 = l11};
    return l0;
}

static INLINE slice_uint8_t compare__differences__name_in(slice_uint8_t l1, uint64_t l2)
{
    slice_uint8_t l0;
    uint64_t l3;
    uint64_t l4;
    unsigned char *l5;
    uint64_t l6;
    uint8_t *l7;
    l3 = (UINT64_C(11) + UINT64_C(3));
    l4 = (l3 + l2);
    l5 = ((unsigned char *)(void *)l1.f0 + (size_t)l3);
    l6 = (l4 - l3);
    l7 = (uint8_t *)(void *)&(*(uint8_t *)(void *)l5);
    l0 = (slice_uint8_t){.f0 = l7, .f1 = l6};
    return l0;
}

static INLINE uint64_t core__mem__size_of_param_of_u8(void)
{
    uint64_t l0;
    l0 = UINT64_C(1);
    return l0;
}

static INLINE uint64_t core__slice__scan__group_of_u8(void)
{
    uint64_t l0;
    uint64_t l1;
    bool l2;
    uint64_t l3;
    uint64_t l4;
    bool l5;
    uint64_t l6;
    uint64_t l7;
    uint64_t l8;
    bool l9;
    uint64_t l10;
    uint64_t l11;
    l1 = core__mem__size_of_param_of_u8();
    l2 = (l1 == UINT64_C(1));
    l3 = (uint64_t)l2;
    l4 = (UINT64_C(32) * l3);
    l5 = (l1 == UINT64_C(2));
    l6 = (uint64_t)l5;
    l7 = (UINT64_C(16) * l6);
    l8 = (l4 + l7);
    l9 = (l1 == UINT64_C(4));
    l10 = (uint64_t)l9;
    l11 = (UINT64_C(8) * l10);
    l0 = (l8 + l11);
    return l0;
}

static INLINE bool core__cmp__numbers__U8PartialEq__eq(uint8_t *l1, uint8_t *l2)
{
    bool l0;
    uint8_t l3;
    uint8_t l4;
    l3 = (*l1);
    l4 = (*l2);
    l0 = (l3 == l4);
    return l0;
}

static INLINE bool core__cmp__slices__ElementMismatchPlaceTest__at_of_u8(type_core__cmp__slices__ElementMismatch_of_u8 *l1, uint64_t l2)
{
    bool l0;
    slice_uint8_t l3;
    slice_uint8_t l4;
    slice_uint8_t l5;
    slice_uint8_t l6;
    bool l7;
    uint64_t l8;
    unsigned char *l9;
    uint8_t *l10;
    uint64_t l11;
    unsigned char *l12;
    uint8_t *l13;
    l5 = (*l1).f0;
    l6 = (*l1).f1;
    l3 = l5;
    l4 = l6;
    l8 = (l2 << 0);
    l9 = ((unsigned char *)(void *)l3.f0 + (size_t)l8);
    l10 = (uint8_t *)(void *)&(*(uint8_t *)(void *)l9);
    l11 = (l2 << 0);
    l12 = ((unsigned char *)(void *)l4.f0 + (size_t)l11);
    l13 = (uint8_t *)(void *)&(*(uint8_t *)(void *)l12);
    l7 = core__cmp__numbers__U8PartialEq__eq(l10, l13);
    l0 = !l7;
    return l0;
}

static INLINE uint64_t core__slice__scan__first_by_one_of_ElementMismatch_u8(type_core__cmp__slices__ElementMismatch_of_u8 *l1, uint64_t l2, uint64_t l3)
{
    uint64_t l0;
    uint64_t l4;
    bool l5;
    bool l6;
    l4 = l2;
    for (;;) {
        l5 = (l4 < l3);
        if (l5) {
        } else {
            goto exit0;
        }
        l6 = core__cmp__slices__ElementMismatchPlaceTest__at_of_u8(l1, l4);
        if (l6) {
            l0 = l4;
            return l0;
        }
        l4 = (l4 + UINT64_C(1));
    }
exit0:;
    l0 = l3;
    return l0;
}

static INLINE bool core__slice__scan__any_in_turn_of_ElementMismatch_u8(type_core__cmp__slices__ElementMismatch_of_u8 *l1, uint64_t l2)
{
    bool l0;
    uint64_t l3;
    uint64_t l4;
    bool l5;
    uint64_t l6;
    uint64_t l7;
    uint64_t l8;
    l3 = UINT64_C(0);
    for (;;) {
        l4 = (l2 - l3);
        l5 = (UINT64_C(4) <= l4);
        if (l5) {
        } else {
            goto exit0;
        }
        l6 = (l3 + UINT64_C(4));
        l4 = core__slice__scan__first_by_one_of_ElementMismatch_u8(l1, l3, l6);
        l7 = (l3 + UINT64_C(4));
        l5 = (l4 < l7);
        if (l5) {
            l0 = true;
            return l0;
        }
        l3 = (l3 + UINT64_C(4));
    }
exit0:;
    l8 = core__slice__scan__first_by_one_of_ElementMismatch_u8(l1, l3, l2);
    l0 = (l8 < l2);
    return l0;
}

static INLINE bool core__slice__scan__any_in_run_of_ElementMismatch_u8(type_core__cmp__slices__ElementMismatch_of_u8 *l1, uint64_t l2, uint64_t l3)
{
    bool l0;
    bool l4;
    uint64_t l5;
    bool l6;
    uint64_t l7;
    l4 = false;
    l5 = UINT64_C(0);
    for (;;) {
        l6 = (l5 < l3);
        if (l6) {
        } else {
            goto exit0;
        }
        l7 = (l2 + l5);
        l6 = core__cmp__slices__ElementMismatchPlaceTest__at_of_u8(l1, l7);
        l4 = (l4 | l6);
        l5 = (l5 + UINT64_C(1));
    }
exit0:;
    l0 = l4;
    return l0;
}

static INLINE bool core__slice__scan__any_in_three_of_ElementMismatch_u8(type_core__cmp__slices__ElementMismatch_of_u8 *l1, uint64_t l2)
{
    bool l0;
    bool l3;
    bool l4;
    uint64_t l5;
    bool l6;
    bool l7;
    uint64_t l8;
    l3 = core__slice__scan__any_in_run_of_ElementMismatch_u8(l1, UINT64_C(0), UINT64_C(1));
    l5 = (l2 / UINT64_C(2));
    l4 = core__slice__scan__any_in_run_of_ElementMismatch_u8(l1, l5, UINT64_C(1));
    l6 = (l3 | l4);
    l8 = (l2 - UINT64_C(1));
    l7 = core__slice__scan__any_in_run_of_ElementMismatch_u8(l1, l8, UINT64_C(1));
    l0 = (l6 | l7);
    return l0;
}

static INLINE bool core__slice__scan__any_in_ends_of_ElementMismatch_u8(type_core__cmp__slices__ElementMismatch_of_u8 *l1, uint64_t l2, uint64_t l3)
{
    bool l0;
    bool l4;
    bool l5;
    uint64_t l6;
    l4 = core__slice__scan__any_in_run_of_ElementMismatch_u8(l1, UINT64_C(0), l3);
    l6 = (l2 - l3);
    l5 = core__slice__scan__any_in_run_of_ElementMismatch_u8(l1, l6, l3);
    l0 = (l4 | l5);
    return l0;
}

static INLINE bool core__slice__scan__any_in_quarters_of_ElementMismatch_u8(type_core__cmp__slices__ElementMismatch_of_u8 *l1, uint64_t l2, uint64_t l3)
{
    bool l0;
    uint64_t l4;
    bool l5;
    bool l6;
    uint64_t l7;
    bool l8;
    bool l9;
    uint64_t l10;
    uint64_t l11;
    bool l12;
    bool l13;
    l4 = (l2 - l3);
    l5 = core__slice__scan__any_in_run_of_ElementMismatch_u8(l1, UINT64_C(0), l3);
    l7 = core__int__usize__min(l3, l4);
    l6 = core__slice__scan__any_in_run_of_ElementMismatch_u8(l1, l7, l3);
    l8 = (l5 | l6);
    l11 = (UINT64_C(2) * l3);
    l10 = core__int__usize__min(l11, l4);
    l9 = core__slice__scan__any_in_run_of_ElementMismatch_u8(l1, l10, l3);
    l12 = (l8 | l9);
    l13 = core__slice__scan__any_in_run_of_ElementMismatch_u8(l1, l4, l3);
    l0 = (l12 | l13);
    return l0;
}

static INLINE uint64_t core__slice__scan__skip_groups_of_ElementMismatch_u8(type_core__cmp__slices__ElementMismatch_of_u8 *l1, uint64_t l2, uint64_t l3, uint64_t l4)
{
    uint64_t l0;
    uint64_t l5;
    bool l6;
    bool l7;
    uint64_t l8;
    bool l9;
    bool l10;
    l5 = l2;
    for (;;) {
        l7 = (UINT64_C(0) < l4);
        if (l7) {
            l8 = (l3 - l5);
            l7 = (l4 <= l8);
            l6 = l7;
            if (l6) {
                l9 = core__slice__scan__any_in_run_of_ElementMismatch_u8(l1, l5, l4);
                l6 = !l9;
                l10 = l6;
                if (l10) {
                } else {
                    goto exit0;
                }
            } else {
                goto exit0;
            }
        } else {
            goto exit0;
        }
        l5 = (l5 + l4);
    }
exit0:;
    l0 = l5;
    return l0;
}

static bool core__slice__scan__any_by_groups_of_ElementMismatch_u8(type_core__cmp__slices__ElementMismatch_of_u8 *l1, uint64_t l2, uint64_t l3)
{
    bool l0;
    uint64_t l4;
    uint64_t l5;
    bool l6;
    uint64_t l7;
    bool l8;
    uint64_t l9;
    uint64_t l10;
    l6 = (l3 < UINT64_C(8));
    if (l6) {
        l0 = core__slice__scan__any_in_turn_of_ElementMismatch_u8(l1, l2);
        return l0;
    }
    l7 = (l3 / UINT64_C(8));
    l6 = (l2 < l7);
    if (l6) {
        l8 = (UINT64_C(0) < l2);
        if (l8) {
            l8 = core__slice__scan__any_in_three_of_ElementMismatch_u8(l1, l2);
        }
        l0 = l8;
        return l0;
    }
    l7 = (l3 / UINT64_C(4));
    l6 = (l2 <= l7);
    if (l6) {
        l9 = (l3 / UINT64_C(8));
        l0 = core__slice__scan__any_in_ends_of_ElementMismatch_u8(l1, l2, l9);
        return l0;
    }
    l6 = (l2 <= l3);
    if (l6) {
        l10 = (l3 / UINT64_C(4));
        l0 = core__slice__scan__any_in_quarters_of_ElementMismatch_u8(l1, l2, l10);
        return l0;
    }
    l7 = (UINT64_C(2) * l3);
    l6 = (l2 <= l7);
    if (l6) {
        l0 = core__slice__scan__any_in_ends_of_ElementMismatch_u8(l1, l2, l3);
        return l0;
    }
    l7 = (UINT64_C(2) * l3);
    l4 = core__slice__scan__skip_groups_of_ElementMismatch_u8(l1, UINT64_C(0), l2, l7);
    l5 = core__slice__scan__skip_groups_of_ElementMismatch_u8(l1, l4, l2, l3);
    l7 = (l2 - l5);
    l6 = (l3 <= l7);
    if (l6) {
        l0 = true;
        return l0;
    }
    l7 = (l2 - l3);
    l0 = core__slice__scan__any_in_run_of_ElementMismatch_u8(l1, l7, l3);
    return l0;
}

static INLINE bool core__cmp__slices__all_equal_of_u8(slice_uint8_t l1, slice_uint8_t l2)
{
    bool l0;
    uint64_t l3;
    uint64_t l4;
    bool l5;
    type_core__cmp__slices__ElementMismatch_of_u8 l6;
    type_core__cmp__slices__ElementMismatch_of_u8 l7;
    type_core__cmp__slices__ElementMismatch_of_u8 *l8;
    l3 = l1.f1;
    l4 = l2.f1;
    l5 = (l3 != l4);
    if (l5) {
        l0 = false;
        return l0;
    }
    l6 = (type_core__cmp__slices__ElementMismatch_of_u8){.f0 = l1, .f1 = l2};
    l7 = l6;
    l8 = (type_core__cmp__slices__ElementMismatch_of_u8 *)(void *)&l7;
    l3 = l1.f1;
    l4 = core__slice__scan__group_of_u8();
    l5 = core__slice__scan__any_by_groups_of_ElementMismatch_u8(l8, l3, l4);
    l0 = !l5;
    return l0;
}

static INLINE bool core__cmp__slices__parts_equal_of_u8(slice_uint8_t l1, slice_uint8_t l2)
{
    bool l0;
    l0 = core__cmp__slices__all_equal_of_u8(l1, l2);
    return l0;
}

static INLINE bool core__slice__scan__any_by_one_of_ElementMismatch_u8(type_core__cmp__slices__ElementMismatch_of_u8 *l1, uint64_t l2)
{
    bool l0;
    uint64_t l3;
    l3 = core__slice__scan__first_by_one_of_ElementMismatch_u8(l1, UINT64_C(0), l2);
    l0 = (l3 < l2);
    return l0;
}

static INLINE bool core__cmp__slices__groups_equal_of_u8(slice_uint8_t l1, slice_uint8_t l2)
{
    bool l0;
    bool l3;
    type_core__cmp__slices__ElementMismatch_of_u8 l4;
    type_core__cmp__slices__ElementMismatch_of_u8 l5;
    type_core__cmp__slices__ElementMismatch_of_u8 *l6;
    uint64_t l7;
    uint64_t l8;
    l4 = (type_core__cmp__slices__ElementMismatch_of_u8){.f0 = l1, .f1 = l2};
    l5 = l4;
    l6 = (type_core__cmp__slices__ElementMismatch_of_u8 *)(void *)&l5;
    l7 = l1.f1;
    l8 = core__slice__scan__group_of_u8();
    l3 = core__slice__scan__any_by_groups_of_ElementMismatch_u8(l6, l7, l8);
    l0 = !l3;
    return l0;
}

static INLINE bool core__cmp__slices__slices_equal_of_u8(slice_uint8_t l1, slice_uint8_t l2)
{
    bool l0;
    type_core__cmp__slices__ElementMismatch_of_u8 l3;
    uint64_t l4;
    uint64_t l5;
    uint64_t l6;
    bool l7;
    bool l8;
    type_core__cmp__slices__ElementMismatch_of_u8 *l9;
    uint64_t l10;
    bool l11;
    type_core__cmp__slices__ElementMismatch_of_u8 *l12;
    l5 = l1.f1;
    l6 = l2.f1;
    l7 = (l5 != l6);
    if (l7) {
        l0 = false;
        return l0;
    }
    l5 = core__slice__scan__group_of_u8();
    l7 = (l5 < UINT64_C(8));
    if (l7) {
        l0 = core__cmp__slices__parts_equal_of_u8(l1, l2);
        return l0;
    }
    l3 = (type_core__cmp__slices__ElementMismatch_of_u8){.f0 = l1, .f1 = l2};
    l6 = core__slice__scan__group_of_u8();
    l4 = (l6 / UINT64_C(8));
    l5 = l1.f1;
    l7 = (l5 < l4);
    if (l7) {
        l9 = (type_core__cmp__slices__ElementMismatch_of_u8 *)(void *)&l3;
        l10 = l1.f1;
        l8 = core__slice__scan__any_by_one_of_ElementMismatch_u8(l9, l10);
        l0 = !l8;
        return l0;
    }
    l12 = (type_core__cmp__slices__ElementMismatch_of_u8 *)(void *)&l3;
    l11 = core__slice__scan__any_in_run_of_ElementMismatch_u8(l12, UINT64_C(0), l4);
    if (l11) {
        l0 = false;
        return l0;
    }
    l0 = core__cmp__slices__groups_equal_of_u8(l1, l2);
    return l0;
}

static INLINE bool core__cmp__slices__RefSlicePartialEq__eq_of_u8(slice_uint8_t *l1, slice_uint8_t *l2)
{
    bool l0;
    slice_uint8_t l3;
    slice_uint8_t l4;
    l3 = (*l1);
    l4 = (*l2);
    l0 = core__cmp__slices__slices_equal_of_u8(l3, l4);
    return l0;
}

static INLINE bool core__cmp__PartialEq__ne_of_slice_u8(slice_uint8_t *l1, slice_uint8_t *l2)
{
    bool l0;
    bool l3;
    l3 = core__cmp__slices__RefSlicePartialEq__eq_of_u8(l1, l2);
    l0 = !l3;
    return l0;
}

static INLINE type_compare__differences__Differences compare__differences__head_differences(slice_uint8_t l1, slice_uint8_t l2, type_sheet__read__Sheet l3, type_sheet__read__Sheet l4)
{
    type_compare__differences__Differences l0;
    type_compare__differences__Differences l5;
    type_compare__differences__Differences l6;
    type_compare__differences__Differences l7;
    slice_uint8_t l8;
    slice_uint8_t l9;
    type_compare__differences__Field l10;
    bool l11;
    slice_uint8_t l12;
    slice_uint8_t l13;
    slice_uint8_t *l14;
    slice_uint8_t *l15;
    l5 = compare__differences__Differences__none();
    l10 = (type_compare__differences__Field){.tag = 0};
    l11 = (l3.f1 != l4.f1);
    l6 = compare__differences__Differences__with(l5, l10, l11);
    l10 = (type_compare__differences__Field){.tag = 1};
    l11 = (l3.f2 != l4.f2);
    l7 = compare__differences__Differences__with(l6, l10, l11);
    l12 = compare__differences__name_in(l1, l3.f4);
    l8 = l12;
    l13 = compare__differences__name_in(l2, l4.f4);
    l9 = l13;
    l10 = (type_compare__differences__Field){.tag = 2};
    l14 = (slice_uint8_t *)(void *)&l8;
    l15 = (slice_uint8_t *)(void *)&l9;
    l11 = core__cmp__PartialEq__ne_of_slice_u8(l14, l15);
    l0 = compare__differences__Differences__with(l7, l10, l11);
    return l0;
}

static INLINE uint32_t compare__ring__Placed__way(type_compare__ring__Placed l1)
{
    uint32_t l0;
    switch (l1.tag) {
    case 0: {
        l0 = UINT32_C(0);
        break;
    }
    case 1: {
        l0 = UINT32_C(1);
        break;
    }
    case 2: default: {
        l0 = UINT32_C(2);
        break;
    }
    }
    return l0;
}

static INLINE bool sphere__point__GridPartialEq__eq(type_sphere__point__Grid *l1, type_sphere__point__Grid *l2)
{
    bool l0;
    uint8_t l3;
    uint8_t l4;
    uint8_t l6;
    uint8_t l7;
    bool l8;
    l6 = (*l1).tag;
    l3 = l6;
    l7 = (*l2).tag;
    l4 = l7;
    l8 = (l3 != l4);
    if (l8) {
        l0 = false;
        return l0;
    }
    l0 = true;
    return l0;
}

static INLINE bool core__cmp__PartialEq__ne_of_Grid(type_sphere__point__Grid *l1, type_sphere__point__Grid *l2)
{
    bool l0;
    bool l3;
    l3 = sphere__point__GridPartialEq__eq(l1, l2);
    l0 = !l3;
    return l0;
}

static INLINE bool compare__differences__is_same_second(type_sphere__point__Point l1, type_sphere__point__Point l2)
{
    bool l0;
    bool l3;
    bool l4;
    bool l5;
    l3 = sphere__point__is_null(l1);
    if (l3) {
        l0 = sphere__point__is_null(l2);
        return l0;
    }
    l5 = sphere__point__is_null(l2);
    l4 = !l5;
    if (l4) {
        l4 = sphere__direction__same_direction(l1, l2);
    }
    l0 = l4;
    return l0;
}

static type_compare__differences__Differences compare__differences__all_differences(slice_uint8_t l1, slice_uint8_t l2, type_sheet__read__Sheet l3, type_sheet__read__Sheet l4, type_compare__ring__Placed l5)
{
    type_compare__differences__Differences l0;
    type_sheet__read__Sheet l6;
    type_sheet__read__Sheet l7;
    type_compare__differences__Differences l8;
    type_compare__differences__Differences l9;
    type_compare__differences__Differences l10;
    type_compare__differences__Differences l11;
    type_sheet__read__Sheet l12;
    type_sheet__read__Sheet l13;
    type_compare__differences__Field l14;
    bool l15;
    type_sphere__point__Point l16;
    type_sphere__point__Point l17;
    bool l18;
    uint32_t l19;
    type_sphere__point__Grid *l20;
    type_sphere__point__Grid *l21;
    l6 = l3;
    l7 = l4;
    l12 = l6;
    l13 = l7;
    l8 = compare__differences__head_differences(l1, l2, l12, l13);
    l14 = (type_compare__differences__Field){.tag = 3};
    l16 = l6.f5;
    l17 = l7.f5;
    l15 = sphere__direction__same_direction(l16, l17);
    l18 = !l15;
    l9 = compare__differences__Differences__with(l8, l14, l18);
    l14 = (type_compare__differences__Field){.tag = 4};
    l19 = compare__ring__Placed__way(l5);
    l18 = (l19 == UINT32_C(0));
    l10 = compare__differences__Differences__with(l9, l14, l18);
    l14 = (type_compare__differences__Field){.tag = 5};
    l20 = (type_sphere__point__Grid *)(void *)&l6.f8;
    l21 = (type_sphere__point__Grid *)(void *)&l7.f8;
    l15 = core__cmp__PartialEq__ne_of_Grid(l20, l21);
    l11 = compare__differences__Differences__with(l10, l14, l15);
    l14 = (type_compare__differences__Field){.tag = 6};
    l17 = l6.f7;
    l16 = l7.f7;
    l18 = compare__differences__is_same_second(l17, l16);
    l15 = !l18;
    l0 = compare__differences__Differences__with(l11, l14, l15);
    return l0;
}

static INLINE uint64_t compare__ring__Placed__place(type_compare__ring__Placed l1)
{
    uint64_t l0;
    switch (l1.tag) {
    case 0: {
        l0 = l1.s0;
        goto exit0;
        break;
    }
    case 1: {
        l0 = l1.s0;
        goto exit0;
        break;
    }
    case 2: default: {
        l0 = l1.s0;
        goto exit0;
        break;
    }
    }
exit0:;
    return l0;
}

static INLINE type_compare__Comparison compare__compare_read(slice_uint8_t l1, slice_uint8_t l2, type_sheet__read__Sheet l3, type_sheet__read__Sheet l4)
{
    type_compare__Comparison l0;
    type_compare__ring__Placed l5;
    type_compare__differences__Differences l6;
    array_uint8_t_7 l7;
    slice_uint8_t l8;
    slice_uint8_t l9;
    uint64_t l10;
    uint32_t l11;
    uint32_t l12;
    l8 = compare__differences__ring_in(l1, l3.f4, l3.f6);
    l9 = compare__differences__ring_in(l2, l4.f4, l4.f6);
    l5 = compare__ring__place_ring(l8, l9);
    l6 = compare__differences__all_differences(l1, l2, l3, l4, l5);
    l7 = l6.f0;
    l10 = compare__ring__Placed__place(l5);
    l11 = (uint32_t)l6.f1;
    l12 = compare__ring__Placed__way(l5);
    l0 = (type_compare__Comparison){.f0 = UINT32_C(0), .f1 = l10, .f2 = l11, .f3 = l12, .f4 = l7};
    return l0;
}

static INLINE type_compare__Comparison compare__compare(slice_uint8_t l1, slice_uint8_t l2)
{
    type_compare__Comparison l0;
    type_sheet__read__Sheet l3;
    type_answer__Refusal l4;
    type_sheet__read__Sheet l5;
    type_answer__Refusal l6;
    l3 = sheet__read__read(l1);
    switch (l3.f0.tag) {
    case 1: {
        l4 = l3.f0.s1;
        l0 = compare__refused(l4);
        return l0;
        break;
    }
    case 0: default: {
        break;
    }
    }
    l5 = sheet__read__read(l2);
    switch (l5.f0.tag) {
    case 1: {
        l6 = l5.f0.s1;
        l0 = compare__refused(l6);
        return l0;
        break;
    }
    case 0: default: {
        break;
    }
    }
    l0 = compare__compare_read(l1, l2, l3, l5);
    return l0;
}

static INLINE uint32_t spargolutta__comparison__spg_compare_number(slice_uint8_t l1, slice_uint8_t l2)
{
    uint32_t l0;
    type_compare__Comparison l3;
    l3 = compare__compare(l1, l2);
    l0 = l3.f0;
    return l0;
}

static INLINE uint64_t spargolutta__comparison__spg_compare_place(slice_uint8_t l1, slice_uint8_t l2)
{
    uint64_t l0;
    type_compare__Comparison l3;
    l3 = compare__compare(l1, l2);
    l0 = l3.f1;
    return l0;
}

static INLINE uint32_t spargolutta__comparison__spg_compare_count(slice_uint8_t l1, slice_uint8_t l2)
{
    uint32_t l0;
    type_compare__Comparison l3;
    l3 = compare__compare(l1, l2);
    l0 = l3.f2;
    return l0;
}

static INLINE uint32_t spargolutta__comparison__spg_compare_way(slice_uint8_t l1, slice_uint8_t l2)
{
    uint32_t l0;
    type_compare__Comparison l3;
    l3 = compare__compare(l1, l2);
    l0 = l3.f3;
    return l0;
}

static INLINE uint64_t spargolutta__comparison__byte(uint8_t l1)
{
    uint64_t l0;
    l0 = (uint64_t)l1;
    return l0;
}

static INLINE uint64_t spargolutta__comparison__packed(array_uint8_t_7 l1)
{
    uint64_t l0;
    array_uint8_t_7 l2;
    uint64_t l3;
    uint64_t l4;
    uint64_t l5;
    unsigned char *l6;
    unsigned char *l7;
    uint8_t l8;
    uint64_t l9;
    unsigned char *l10;
    unsigned char *l11;
    uint8_t l12;
    uint64_t l13;
    unsigned char *l14;
    unsigned char *l15;
    uint8_t l16;
    uint64_t l17;
    uint64_t l18;
    uint64_t l19;
    unsigned char *l20;
    unsigned char *l21;
    unsigned char *l22;
    unsigned char *l23;
    unsigned char *l24;
    unsigned char *l25;
    unsigned char *l26;
    unsigned char *l27;
    l2 = l1;
    l6 = (unsigned char *)(void *)&l2;
    l7 = ((unsigned char *)(void *)l6 + (size_t)UINT64_C(4));
    l8 = (*(uint8_t *)(void *)l7);
    l5 = spargolutta__comparison__byte(l8);
    l10 = (unsigned char *)(void *)&l2;
    l11 = ((unsigned char *)(void *)l10 + (size_t)UINT64_C(5));
    l12 = (*(uint8_t *)(void *)l11);
    l9 = spargolutta__comparison__byte(l12);
    l14 = (unsigned char *)(void *)&l2;
    l15 = ((unsigned char *)(void *)l14 + (size_t)UINT64_C(6));
    l16 = (*(uint8_t *)(void *)l15);
    l13 = spargolutta__comparison__byte(l16);
    l17 = (l13 << 8);
    l18 = (l9 + l17);
    l19 = (l18 << 8);
    l3 = (l5 + l19);
    l20 = (unsigned char *)(void *)&l2;
    l21 = ((unsigned char *)(void *)l20 + (size_t)UINT64_C(2));
    l8 = (*(uint8_t *)(void *)l21);
    l5 = spargolutta__comparison__byte(l8);
    l22 = (unsigned char *)(void *)&l2;
    l23 = ((unsigned char *)(void *)l22 + (size_t)UINT64_C(3));
    l12 = (*(uint8_t *)(void *)l23);
    l19 = spargolutta__comparison__byte(l12);
    l17 = (l3 << 8);
    l13 = (l19 + l17);
    l18 = (l13 << 8);
    l4 = (l5 + l18);
    l24 = (unsigned char *)(void *)&l2;
    l25 = ((unsigned char *)(void *)l24 + (size_t)UINT64_C(0));
    l16 = (*(uint8_t *)(void *)l25);
    l9 = spargolutta__comparison__byte(l16);
    l26 = (unsigned char *)(void *)&l2;
    l27 = ((unsigned char *)(void *)l26 + (size_t)UINT64_C(1));
    l8 = (*(uint8_t *)(void *)l27);
    l13 = spargolutta__comparison__byte(l8);
    l17 = (l4 << 8);
    l19 = (l13 + l17);
    l18 = (l19 << 8);
    l0 = (l9 + l18);
    return l0;
}

static uint64_t spargolutta__comparison__spg_compare_fields(slice_uint8_t l1, slice_uint8_t l2)
{
    uint64_t l0;
    type_compare__Comparison l3;
    array_uint8_t_7 l4;
    l3 = compare__compare(l1, l2);
    l4 = l3.f4;
    l0 = spargolutta__comparison__packed(l4);
    return l0;
}

static APART array_uint64_t_256 positions__grammar__class_table(void)
{
    array_uint64_t_256 l0;
    l0 = (array_uint64_t_256){.e[0] = UINT64_C(0), .e[1] = UINT64_C(0), .e[2] = UINT64_C(0), .e[3] = UINT64_C(0), .e[4] = UINT64_C(0), .e[5] = UINT64_C(0), .e[6] = UINT64_C(0), .e[7] = UINT64_C(0), .e[8] = UINT64_C(0), .e[9] = UINT64_C(1), .e[10] = UINT64_C(1), .e[11] = UINT64_C(0), .e[12] = UINT64_C(0), .e[13] = UINT64_C(1), .e[14] = UINT64_C(0), .e[15] = UINT64_C(0), .e[16] = UINT64_C(0), .e[17] = UINT64_C(0), .e[18] = UINT64_C(0), .e[19] = UINT64_C(0), .e[20] = UINT64_C(0), .e[21] = UINT64_C(0), .e[22] = UINT64_C(0), .e[23] = UINT64_C(0), .e[24] = UINT64_C(0), .e[25] = UINT64_C(0), .e[26] = UINT64_C(0), .e[27] = UINT64_C(0), .e[28] = UINT64_C(0), .e[29] = UINT64_C(0), .e[30] = UINT64_C(0), .e[31] = UINT64_C(0), .e[32] = UINT64_C(1), .e[33] = UINT64_C(0), .e[34] = UINT64_C(0), .e[35] = UINT64_C(0), .e[36] = UINT64_C(0), .e[37] = UINT64_C(0), .e[38] = UINT64_C(0), .e[39] = UINT64_C(0), .e[40] = UINT64_C(0), .e[41] = UINT64_C(0), .e[42] = UINT64_C(0), .e[43] = UINT64_C(0), .e[44] = UINT64_C(4), .e[45] = UINT64_C(5), .e[46] = UINT64_C(8), .e[47] = UINT64_C(0), .e[48] = UINT64_C(6), .e[49] = UINT64_C(7), .e[50] = UINT64_C(7), .e[51] = UINT64_C(7), .e[52] = UINT64_C(7), .e[53] = UINT64_C(7), .e[54] = UINT64_C(7), .e[55] = UINT64_C(7), .e[56] = UINT64_C(7), .e[57] = UINT64_C(7), .e[58] = UINT64_C(0), .e[59] = UINT64_C(0), .e[60] = UINT64_C(0), .e[61] = UINT64_C(0), .e[62] = UINT64_C(0), .e[63] = UINT64_C(0), .e[64] = UINT64_C(0), .e[65] = UINT64_C(0), .e[66] = UINT64_C(0), .e[67] = UINT64_C(0), .e[68] = UINT64_C(0), .e[69] = UINT64_C(0), .e[70] = UINT64_C(0), .e[71] = UINT64_C(0), .e[72] = UINT64_C(0), .e[73] = UINT64_C(0), .e[74] = UINT64_C(0), .e[75] = UINT64_C(0), .e[76] = UINT64_C(0), .e[77] = UINT64_C(0), .e[78] = UINT64_C(0), .e[79] = UINT64_C(0), .e[80] = UINT64_C(0), .e[81] = UINT64_C(0), .e[82] = UINT64_C(0), .e[83] = UINT64_C(0), .e[84] = UINT64_C(0), .e[85] = UINT64_C(0), .e[86] = UINT64_C(0), .e[87] = UINT64_C(0), .e[88] = UINT64_C(0), .e[89] = UINT64_C(0), .e[90] = UINT64_C(0), .e[91] = UINT64_C(2), .e[92] = UINT64_C(0), .e[93] = UINT64_C(3), .e[94] = UINT64_C(0), .e[95] = UINT64_C(0), .e[96] = UINT64_C(0), .e[97] = UINT64_C(0), .e[98] = UINT64_C(0), .e[99] = UINT64_C(0), .e[100] = UINT64_C(0), .e[101] = UINT64_C(0), .e[102] = UINT64_C(0), .e[103] = UINT64_C(0), .e[104] = UINT64_C(0), .e[105] = UINT64_C(0), .e[106] = UINT64_C(0), .e[107] = UINT64_C(0), .e[108] = UINT64_C(0), .e[109] = UINT64_C(0), .e[110] = UINT64_C(0), .e[111] = UINT64_C(0), .e[112] = UINT64_C(0), .e[113] = UINT64_C(0), .e[114] = UINT64_C(0), .e[115] = UINT64_C(0), .e[116] = UINT64_C(0), .e[117] = UINT64_C(0), .e[118] = UINT64_C(0), .e[119] = UINT64_C(0), .e[120] = UINT64_C(0), .e[121] = UINT64_C(0), .e[122] = UINT64_C(0), .e[123] = UINT64_C(0), .e[124] = UINT64_C(0), .e[125] = UINT64_C(0), .e[126] = UINT64_C(0), .e[127] = UINT64_C(0), .e[128] = UINT64_C(0), .e[129] = UINT64_C(0), .e[130] = UINT64_C(0), .e[131] = UINT64_C(0), .e[132] = UINT64_C(0), .e[133] = UINT64_C(0), .e[134] = UINT64_C(0), .e[135] = UINT64_C(0), .e[136] = UINT64_C(0), .e[137] = UINT64_C(0), .e[138] = UINT64_C(0), .e[139] = UINT64_C(0), .e[140] = UINT64_C(0), .e[141] = UINT64_C(0), .e[142] = UINT64_C(0), .e[143] = UINT64_C(0), .e[144] = UINT64_C(0), .e[145] = UINT64_C(0), .e[146] = UINT64_C(0), .e[147] = UINT64_C(0), .e[148] = UINT64_C(0), .e[149] = UINT64_C(0), .e[150] = UINT64_C(0), .e[151] = UINT64_C(0), .e[152] = UINT64_C(0), .e[153] = UINT64_C(0), .e[154] = UINT64_C(0), .e[155] = UINT64_C(0), .e[156] = UINT64_C(0), .e[157] = UINT64_C(0), .e[158] = UINT64_C(0), .e[159] = UINT64_C(0), .e[160] = UINT64_C(0), .e[161] = UINT64_C(0), .e[162] = UINT64_C(0), .e[163] = UINT64_C(0), .e[164] = UINT64_C(0), .e[165] = UINT64_C(0), .e[166] = UINT64_C(0), .e[167] = UINT64_C(0), .e[168] = UINT64_C(0), .e[169] = UINT64_C(0), .e[170] = UINT64_C(0), .e[171] = UINT64_C(0), .e[172] = UINT64_C(0), .e[173] = UINT64_C(0), .e[174] = UINT64_C(0), .e[175] = UINT64_C(0), .e[176] = UINT64_C(0), .e[177] = UINT64_C(0), .e[178] = UINT64_C(0), .e[179] = UINT64_C(0), .e[180] = UINT64_C(0), .e[181] = UINT64_C(0), .e[182] = UINT64_C(0), .e[183] = UINT64_C(0), .e[184] = UINT64_C(0), .e[185] = UINT64_C(0), .e[186] = UINT64_C(0), .e[187] = UINT64_C(0), .e[188] = UINT64_C(0), .e[189] = UINT64_C(0), .e[190] = UINT64_C(0), .e[191] = UINT64_C(0), .e[192] = UINT64_C(0), .e[193] = UINT64_C(0), .e[194] = UINT64_C(0), .e[195] = UINT64_C(0), .e[196] = UINT64_C(0), .e[197] = UINT64_C(0), .e[198] = UINT64_C(0), .e[199] = UINT64_C(0), .e[200] = UINT64_C(0), .e[201] = UINT64_C(0), .e[202] = UINT64_C(0), .e[203] = UINT64_C(0), .e[204] = UINT64_C(0), .e[205] = UINT64_C(0), .e[206] = UINT64_C(0), .e[207] = UINT64_C(0), .e[208] = UINT64_C(0), .e[209] = UINT64_C(0), .e[210] = UINT64_C(0), .e[211] = UINT64_C(0), .e[212] = UINT64_C(0), .e[213] = UINT64_C(0), .e[214] = UINT64_C(0), .e[215] = UINT64_C(0), .e[216] = UINT64_C(0), .e[217] = UINT64_C(0), .e[218] = UINT64_C(0), .e[219] = UINT64_C(0), .e[220] = UINT64_C(0), .e[221] = UINT64_C(0), .e[222] = UINT64_C(0), .e[223] = UINT64_C(0), .e[224] = UINT64_C(0), .e[225] = UINT64_C(0), .e[226] = UINT64_C(0), .e[227] = UINT64_C(0), .e[228] = UINT64_C(0), .e[229] = UINT64_C(0), .e[230] = UINT64_C(0), .e[231] = UINT64_C(0), .e[232] = UINT64_C(0), .e[233] = UINT64_C(0), .e[234] = UINT64_C(0), .e[235] = UINT64_C(0), .e[236] = UINT64_C(0), .e[237] = UINT64_C(0), .e[238] = UINT64_C(0), .e[239] = UINT64_C(0), .e[240] = UINT64_C(0), .e[241] = UINT64_C(0), .e[242] = UINT64_C(0), .e[243] = UINT64_C(0), .e[244] = UINT64_C(0), .e[245] = UINT64_C(0), .e[246] = UINT64_C(0), .e[247] = UINT64_C(0), .e[248] = UINT64_C(0), .e[249] = UINT64_C(0), .e[250] = UINT64_C(0), .e[251] = UINT64_C(0), .e[252] = UINT64_C(0), .e[253] = UINT64_C(0), .e[254] = UINT64_C(0), .e[255] = UINT64_C(0)};
    return l0;
}

static APART array_uint64_t_261 positions__grammar__ring_table(void)
{
    array_uint64_t_261 l0;
    l0 = (array_uint64_t_261){.e[0] = UINT64_C(30), .e[1] = UINT64_C(0), .e[2] = UINT64_C(3), .e[3] = UINT64_C(29), .e[4] = UINT64_C(30), .e[5] = UINT64_C(30), .e[6] = UINT64_C(30), .e[7] = UINT64_C(30), .e[8] = UINT64_C(30), .e[9] = UINT64_C(30), .e[10] = UINT64_C(1), .e[11] = UINT64_C(30), .e[12] = UINT64_C(29), .e[13] = UINT64_C(2), .e[14] = UINT64_C(30), .e[15] = UINT64_C(30), .e[16] = UINT64_C(30), .e[17] = UINT64_C(30), .e[18] = UINT64_C(30), .e[19] = UINT64_C(2), .e[20] = UINT64_C(3), .e[21] = UINT64_C(30), .e[22] = UINT64_C(30), .e[23] = UINT64_C(30), .e[24] = UINT64_C(30), .e[25] = UINT64_C(30), .e[26] = UINT64_C(30), .e[27] = UINT64_C(30), .e[28] = UINT64_C(3), .e[29] = UINT64_C(30), .e[30] = UINT64_C(30), .e[31] = UINT64_C(30), .e[32] = UINT64_C(4), .e[33] = UINT64_C(5), .e[34] = UINT64_C(6), .e[35] = UINT64_C(30), .e[36] = UINT64_C(30), .e[37] = UINT64_C(30), .e[38] = UINT64_C(30), .e[39] = UINT64_C(30), .e[40] = UINT64_C(30), .e[41] = UINT64_C(30), .e[42] = UINT64_C(5), .e[43] = UINT64_C(6), .e[44] = UINT64_C(30), .e[45] = UINT64_C(30), .e[46] = UINT64_C(15), .e[47] = UINT64_C(30), .e[48] = UINT64_C(30), .e[49] = UINT64_C(16), .e[50] = UINT64_C(30), .e[51] = UINT64_C(30), .e[52] = UINT64_C(30), .e[53] = UINT64_C(7), .e[54] = UINT64_C(30), .e[55] = UINT64_C(15), .e[56] = UINT64_C(30), .e[57] = UINT64_C(30), .e[58] = UINT64_C(16), .e[59] = UINT64_C(30), .e[60] = UINT64_C(6), .e[61] = UINT64_C(6), .e[62] = UINT64_C(7), .e[63] = UINT64_C(30), .e[64] = UINT64_C(30), .e[65] = UINT64_C(30), .e[66] = UINT64_C(30), .e[67] = UINT64_C(30), .e[68] = UINT64_C(30), .e[69] = UINT64_C(8), .e[70] = UINT64_C(8), .e[71] = UINT64_C(30), .e[72] = UINT64_C(30), .e[73] = UINT64_C(15), .e[74] = UINT64_C(30), .e[75] = UINT64_C(30), .e[76] = UINT64_C(16), .e[77] = UINT64_C(30), .e[78] = UINT64_C(9), .e[79] = UINT64_C(9), .e[80] = UINT64_C(30), .e[81] = UINT64_C(30), .e[82] = UINT64_C(15), .e[83] = UINT64_C(30), .e[84] = UINT64_C(30), .e[85] = UINT64_C(16), .e[86] = UINT64_C(30), .e[87] = UINT64_C(10), .e[88] = UINT64_C(10), .e[89] = UINT64_C(30), .e[90] = UINT64_C(30), .e[91] = UINT64_C(15), .e[92] = UINT64_C(30), .e[93] = UINT64_C(30), .e[94] = UINT64_C(16), .e[95] = UINT64_C(30), .e[96] = UINT64_C(11), .e[97] = UINT64_C(11), .e[98] = UINT64_C(30), .e[99] = UINT64_C(30), .e[100] = UINT64_C(15), .e[101] = UINT64_C(30), .e[102] = UINT64_C(30), .e[103] = UINT64_C(16), .e[104] = UINT64_C(30), .e[105] = UINT64_C(12), .e[106] = UINT64_C(12), .e[107] = UINT64_C(30), .e[108] = UINT64_C(30), .e[109] = UINT64_C(15), .e[110] = UINT64_C(30), .e[111] = UINT64_C(30), .e[112] = UINT64_C(16), .e[113] = UINT64_C(30), .e[114] = UINT64_C(13), .e[115] = UINT64_C(13), .e[116] = UINT64_C(30), .e[117] = UINT64_C(30), .e[118] = UINT64_C(15), .e[119] = UINT64_C(30), .e[120] = UINT64_C(30), .e[121] = UINT64_C(16), .e[122] = UINT64_C(30), .e[123] = UINT64_C(14), .e[124] = UINT64_C(14), .e[125] = UINT64_C(30), .e[126] = UINT64_C(30), .e[127] = UINT64_C(15), .e[128] = UINT64_C(30), .e[129] = UINT64_C(30), .e[130] = UINT64_C(16), .e[131] = UINT64_C(30), .e[132] = UINT64_C(30), .e[133] = UINT64_C(30), .e[134] = UINT64_C(30), .e[135] = UINT64_C(30), .e[136] = UINT64_C(15), .e[137] = UINT64_C(30), .e[138] = UINT64_C(30), .e[139] = UINT64_C(16), .e[140] = UINT64_C(30), .e[141] = UINT64_C(30), .e[142] = UINT64_C(30), .e[143] = UINT64_C(30), .e[144] = UINT64_C(30), .e[145] = UINT64_C(16), .e[146] = UINT64_C(30), .e[147] = UINT64_C(30), .e[148] = UINT64_C(30), .e[149] = UINT64_C(17), .e[150] = UINT64_C(18), .e[151] = UINT64_C(19), .e[152] = UINT64_C(30), .e[153] = UINT64_C(30), .e[154] = UINT64_C(30), .e[155] = UINT64_C(30), .e[156] = UINT64_C(30), .e[157] = UINT64_C(30), .e[158] = UINT64_C(30), .e[159] = UINT64_C(18), .e[160] = UINT64_C(19), .e[161] = UINT64_C(30), .e[162] = UINT64_C(30), .e[163] = UINT64_C(28), .e[164] = UINT64_C(30), .e[165] = UINT64_C(1), .e[166] = UINT64_C(30), .e[167] = UINT64_C(30), .e[168] = UINT64_C(30), .e[169] = UINT64_C(30), .e[170] = UINT64_C(20), .e[171] = UINT64_C(30), .e[172] = UINT64_C(28), .e[173] = UINT64_C(30), .e[174] = UINT64_C(1), .e[175] = UINT64_C(30), .e[176] = UINT64_C(30), .e[177] = UINT64_C(19), .e[178] = UINT64_C(19), .e[179] = UINT64_C(20), .e[180] = UINT64_C(30), .e[181] = UINT64_C(30), .e[182] = UINT64_C(30), .e[183] = UINT64_C(30), .e[184] = UINT64_C(30), .e[185] = UINT64_C(30), .e[186] = UINT64_C(21), .e[187] = UINT64_C(21), .e[188] = UINT64_C(30), .e[189] = UINT64_C(30), .e[190] = UINT64_C(28), .e[191] = UINT64_C(30), .e[192] = UINT64_C(1), .e[193] = UINT64_C(30), .e[194] = UINT64_C(30), .e[195] = UINT64_C(22), .e[196] = UINT64_C(22), .e[197] = UINT64_C(30), .e[198] = UINT64_C(30), .e[199] = UINT64_C(28), .e[200] = UINT64_C(30), .e[201] = UINT64_C(1), .e[202] = UINT64_C(30), .e[203] = UINT64_C(30), .e[204] = UINT64_C(23), .e[205] = UINT64_C(23), .e[206] = UINT64_C(30), .e[207] = UINT64_C(30), .e[208] = UINT64_C(28), .e[209] = UINT64_C(30), .e[210] = UINT64_C(1), .e[211] = UINT64_C(30), .e[212] = UINT64_C(30), .e[213] = UINT64_C(24), .e[214] = UINT64_C(24), .e[215] = UINT64_C(30), .e[216] = UINT64_C(30), .e[217] = UINT64_C(28), .e[218] = UINT64_C(30), .e[219] = UINT64_C(1), .e[220] = UINT64_C(30), .e[221] = UINT64_C(30), .e[222] = UINT64_C(25), .e[223] = UINT64_C(25), .e[224] = UINT64_C(30), .e[225] = UINT64_C(30), .e[226] = UINT64_C(28), .e[227] = UINT64_C(30), .e[228] = UINT64_C(1), .e[229] = UINT64_C(30), .e[230] = UINT64_C(30), .e[231] = UINT64_C(26), .e[232] = UINT64_C(26), .e[233] = UINT64_C(30), .e[234] = UINT64_C(30), .e[235] = UINT64_C(28), .e[236] = UINT64_C(30), .e[237] = UINT64_C(1), .e[238] = UINT64_C(30), .e[239] = UINT64_C(30), .e[240] = UINT64_C(27), .e[241] = UINT64_C(27), .e[242] = UINT64_C(30), .e[243] = UINT64_C(30), .e[244] = UINT64_C(28), .e[245] = UINT64_C(30), .e[246] = UINT64_C(1), .e[247] = UINT64_C(30), .e[248] = UINT64_C(30), .e[249] = UINT64_C(30), .e[250] = UINT64_C(30), .e[251] = UINT64_C(30), .e[252] = UINT64_C(30), .e[253] = UINT64_C(28), .e[254] = UINT64_C(30), .e[255] = UINT64_C(1), .e[256] = UINT64_C(30), .e[257] = UINT64_C(30), .e[258] = UINT64_C(30), .e[259] = UINT64_C(30), .e[260] = UINT64_C(30)};
    return l0;
}

static INLINE type_positions__number__Pending geojson__scan__fresh(void)
{
    type_positions__number__Pending l0;
    l0 = (type_positions__number__Pending){.f0 = UINT64_C(0), .f1 = UINT64_C(0), .f2 = UINT32_C(0), .f3 = false, .f4 = false};
    return l0;
}

static INLINE type_positions__ring__Ring positions__ring__none(void)
{
    type_positions__ring__Ring l0;
    type_angles__point__Position l1;
    type_core__option__Option_of_u64 l2;
    type_core__option__Option_of_u64 l3;
    l1 = (type_angles__point__Position){.f0 = UINT32_C(0), .f1 = UINT32_C(0)};
    l2 = (type_core__option__Option_of_u64){.tag = 0};
    l3 = (type_core__option__Option_of_u64){.tag = 0};
    l0 = (type_positions__ring__Ring){.f0 = UINT64_C(0), .f1 = l1, .f2 = l1, .f3 = l2, .f4 = l3};
    return l0;
}

static INLINE bool positions__grammar__is_ring(uint64_t l1)
{
    bool l0;
    bool l2;
    l2 = (l1 == UINT64_C(34));
    if (l2) {
        l0 = true;
        return l0;
    }
    l0 = (l1 == UINT64_C(55));
    return l0;
}

static INLINE uint64_t positions__grammar__class_of(array_uint64_t_256 *l1, uint8_t l2)
{
    uint64_t l0;
    uint64_t l3;
    uint64_t l4;
    unsigned char *l5;
    unsigned char *l6;
    l3 = (uint64_t)l2;
    l4 = (l3 << 3);
    l5 = (unsigned char *)(void *)&(*l1);
    l6 = ((unsigned char *)(void *)l5 + (size_t)l4);
    l0 = (*(uint64_t *)(void *)l6);
    return l0;
}

static INLINE uint64_t positions__grammar__row_at(array_uint64_t_261 *l1, uint64_t l2)
{
    uint64_t l0;
    uint64_t l3;
    uint64_t l4;
    unsigned char *l5;
    unsigned char *l6;
    l3 = l2;
    l4 = (l3 << 3);
    l5 = (unsigned char *)(void *)&(*l1);
    l6 = ((unsigned char *)(void *)l5 + (size_t)l4);
    l0 = (*(uint64_t *)(void *)l6);
    return l0;
}

static INLINE type_positions__grammar__State positions__grammar__ring_next(array_uint64_t_261 *l1, type_positions__grammar__State l2, uint64_t l3)
{
    type_positions__grammar__State l0;
    uint64_t l4;
    uint64_t l5;
    uint64_t l6;
    bool l7;
    uint64_t l8;
    l5 = (l2.f1 * UINT64_C(9));
    l6 = (l5 + l3);
    l4 = positions__grammar__row_at(l1, l6);
    l7 = (l4 < UINT64_C(29));
    if (l7) {
        l0 = (type_positions__grammar__State){.f0 = l2.f0, .f1 = l4};
        return l0;
    }
    l7 = (l4 == UINT64_C(29));
    if (l7) {
        l8 = (l2.f0 + UINT64_C(1));
        l0 = (type_positions__grammar__State){.f0 = l8, .f1 = UINT64_C(0)};
        return l0;
    }
    l0 = (type_positions__grammar__State){.f0 = UINT64_C(76), .f1 = UINT64_C(0)};
    return l0;
}

static INLINE uint64_t core__convert__U64FromU8__from(uint8_t l1)
{
    uint64_t l0;
    l0 = (uint64_t)l1;
    return l0;
}

static INLINE uint64_t positions__grammar__word_at(uint64_t l1)
{
    uint64_t l0;
    array_uint64_t_76 *l2;
    uint64_t l3;
    uint64_t l4;
    unsigned char *l5;
    unsigned char *l6;
    static const array_uint64_t_76 l2_1 = {{123, 34, 116, 121, 112, 101, 34, 58, 34, 80, 111, 108, 121, 103, 111, 110, 34, 44, 34, 99, 111, 111, 114, 100, 105, 110, 97, 116, 101, 115, 34, 58, 91, 91, 256, 93, 125, 257, 123, 34, 99, 111, 111, 114, 100, 105, 110, 97, 116, 101, 115, 34, 58, 91, 91, 256, 93, 44, 34, 116, 121, 112, 101, 34, 58, 34, 80, 111, 108, 121, 103, 111, 110, 34, 125, 257}};
    l2 = (array_uint64_t_76 *)(void *)&l2_1;
    l3 = l1;
    l4 = (l3 << 3);
    l5 = (unsigned char *)(void *)&(*l2);
    l6 = ((unsigned char *)(void *)l5 + (size_t)l4);
    l0 = (*(uint64_t *)(void *)l6);
    return l0;
}

static INLINE uint64_t positions__grammar__gap_at(uint64_t l1)
{
    uint64_t l0;
    array_uint64_t_76 *l2;
    uint64_t l3;
    uint64_t l4;
    unsigned char *l5;
    unsigned char *l6;
    static const array_uint64_t_76 l2_1 = {{1, 1, 0, 0, 0, 0, 0, 1, 1, 0, 0, 0, 0, 0, 0, 0, 0, 1, 1, 0, 0, 0, 0, 0, 0, 0, 0, 0, 0, 0, 0, 1, 1, 1, 1, 1, 1, 1, 1, 1, 0, 0, 0, 0, 0, 0, 0, 0, 0, 0, 0, 0, 1, 1, 1, 1, 1, 1, 1, 0, 0, 0, 0, 0, 1, 1, 0, 0, 0, 0, 0, 0, 0, 0, 1, 1}};
    l2 = (array_uint64_t_76 *)(void *)&l2_1;
    l3 = l1;
    l4 = (l3 << 3);
    l5 = (unsigned char *)(void *)&(*l2);
    l6 = ((unsigned char *)(void *)l5 + (size_t)l4);
    l0 = (*(uint64_t *)(void *)l6);
    return l0;
}

static INLINE type_positions__grammar__State positions__grammar__literal_next(type_positions__grammar__State l1, uint64_t l2, uint64_t l3)
{
    type_positions__grammar__State l0;
    uint64_t l4;
    uint64_t l5;
    bool l6;
    uint64_t l7;
    uint64_t l8;
    l4 = l1.f0;
    l5 = positions__grammar__word_at(l4);
    l6 = (l5 == l2);
    if (l6) {
        l7 = (l4 + UINT64_C(1));
        l0 = (type_positions__grammar__State){.f0 = l7, .f1 = UINT64_C(0)};
        return l0;
    }
    l5 = (l4 << 8);
    l8 = (l5 + l2);
    l6 = (l8 == UINT64_C(611));
    if (l6) {
        l0 = (type_positions__grammar__State){.f0 = UINT64_C(41), .f1 = UINT64_C(0)};
        return l0;
    }
    l5 = positions__grammar__gap_at(l4);
    l8 = (l5 * l3);
    l6 = (l8 == UINT64_C(1));
    if (l6) {
        l0 = l1;
        return l0;
    }
    l0 = (type_positions__grammar__State){.f0 = UINT64_C(76), .f1 = UINT64_C(0)};
    return l0;
}

static INLINE type_positions__grammar__State positions__grammar__next(array_uint64_t_256 *l1, array_uint64_t_261 *l2, type_positions__grammar__State l3, uint8_t l4)
{
    type_positions__grammar__State l0;
    bool l5;
    uint64_t l6;
    uint64_t l7;
    uint64_t l8;
    l5 = positions__grammar__is_ring(l3.f0);
    if (l5) {
        l6 = positions__grammar__class_of(l1, l4);
        l0 = positions__grammar__ring_next(l2, l3, l6);
        return l0;
    }
    l7 = core__convert__U64FromU8__from(l4);
    l8 = positions__grammar__class_of(l1, l4);
    l0 = positions__grammar__literal_next(l3, l7, l8);
    return l0;
}

static INLINE bool core__char__ranges__in_range(uint32_t l1, uint8_t l2, uint8_t l3)
{
    bool l0;
    uint32_t l4;
    bool l5;
    uint32_t l6;
    bool l7;
    l4 = (uint32_t)l2;
    l5 = (l4 <= l1);
    l6 = (uint32_t)l3;
    l7 = (l1 <= l6);
    l0 = (l5 & l7);
    return l0;
}

static INLINE bool core__char__bytes__is_ascii_digit(uint8_t *l1)
{
    bool l0;
    uint8_t l2;
    uint32_t l3;
    l2 = (*l1);
    l3 = (uint32_t)l2;
    l0 = core__char__ranges__in_range(l3, 48, 57);
    return l0;
}

static INLINE bool positions__number__is_digit(uint8_t l1)
{
    bool l0;
    uint8_t l2;
    uint8_t *l3;
    l2 = l1;
    l3 = (uint8_t *)(void *)&l2;
    l0 = core__char__bytes__is_ascii_digit(l3);
    return l0;
}

static INLINE bool positions__number__ends(type_positions__number__Pending l1, uint8_t l2)
{
    bool l0;
    bool l3;
    l3 = (l2 == 93);
    if (l3) {
        l0 = l1.f4;
    } else {
        l0 = false;
    }
    return l0;
}

static INLINE uint32_t angles__point__signed(bool l1, uint64_t l2)
{
    uint32_t l0;
    uint32_t l3;
    bool l4;
    l3 = (uint32_t)l2;
    l4 = l1;
    if (l4) {
        l0 = (UINT32_C(0) - l3);
    } else {
        l0 = l3;
    }
    return l0;
}

static INLINE type_angles__point__Position positions__number__whole(type_positions__number__Pending l1)
{
    type_angles__point__Position l0;
    uint32_t l2;
    l2 = angles__point__signed(l1.f3, l1.f0);
    l0 = (type_angles__point__Position){.f0 = l1.f2, .f1 = l2};
    return l0;
}

static INLINE bool angles__point__is_past(uint64_t l1, uint64_t l2)
{
    bool l0;
    uint64_t l3;
    uint64_t l4;
    bool l5;
    l3 = (uint64_t)l1;
    l4 = (UINT64_C(0) - l3);
    l5 = (signed64(l2) < signed64(l4));
    if (l5) {
        l0 = true;
        return l0;
    }
    l0 = (signed64(l3) < signed64(l2));
    return l0;
}

static INLINE bool angles__point__is_outside(type_angles__point__Position l1)
{
    bool l0;
    uint32_t l2;
    uint32_t l3;
    bool l4;
    uint64_t l5;
    l2 = l1.f0;
    l3 = l1.f1;
    l5 = core__convert__I64FromI32__from(l2);
    l4 = angles__point__is_past(UINT64_C(1800000000), l5);
    if (l4) {
        l0 = true;
        return l0;
    }
    l5 = core__convert__I64FromI32__from(l3);
    l0 = angles__point__is_past(UINT64_C(900000000), l5);
    return l0;
}

static INLINE bool angles__point__is_negative(uint32_t l1)
{
    bool l0;
    l0 = (signed32(l1) < signed32(UINT32_C(0)));
    return l0;
}

static INLINE uint32_t core__int__i32__unsigned_abs(uint32_t l1)
{
    uint32_t l0;
    bool l2;
    uint32_t l4;
    uint32_t l5;
    l2 = (signed32(l1) < signed32(UINT32_C(0)));
    if (l2) {
        l4 = (uint32_t)~l1;
        l5 = (uint32_t)l4;
        l0 = (l5 + UINT32_C(1));
    } else {
        l0 = (uint32_t)l1;
    }
    return l0;
}

static INLINE uint64_t core__convert__U64FromU32__from(uint32_t l1)
{
    uint64_t l0;
    l0 = (uint64_t)l1;
    return l0;
}

static INLINE uint64_t angles__point__size(uint32_t l1)
{
    uint64_t l0;
    uint32_t l2;
    l2 = core__int__i32__unsigned_abs(l1);
    l0 = core__convert__U64FromU32__from(l2);
    return l0;
}

static INLINE uint64_t angles__point__quarter_of(uint64_t l1)
{
    uint64_t l0;
    bool l2;
    l2 = (l1 <= UINT64_C(900000000));
    if (l2) {
        l0 = l1;
    } else {
        l0 = (UINT64_C(1800000000) - l1);
    }
    return l0;
}

static INLINE uint64_t angles__pair__arc_of(type_sphere__point__Grid l1, uint64_t l2)
{
    uint64_t l0;
    uint64_t l4;
    uint64_t l5;
    switch (l1.tag) {
    case 0: {
        l4 = (l2 << 30);
        l0 = (l4 / UINT64_C(9167324722));
        break;
    }
    case 1: default: {
        l5 = (l2 << 34);
        l0 = (l5 / UINT64_C(4583662361));
        break;
    }
    }
    return l0;
}

static INLINE uint64_t angles__series__raised(type_sphere__point__Grid l1, uint64_t l2)
{
    uint64_t l0;
    switch (l1.tag) {
    case 0: {
        l0 = (l2 << 5);
        break;
    }
    case 1: default: {
        l0 = l2;
        break;
    }
    }
    return l0;
}

static INLINE uint64_t angles__pair__square_of(type_sphere__point__Grid l1, uint64_t l2)
{
    uint64_t l0;
    uint64_t l4;
    uint64_t l5;
    uint64_t l6;
    switch (l1.tag) {
    case 0: {
        l4 = (l2 * l2);
        l0 = (l4 / UINT64_C(4891762658));
        break;
    }
    case 1: default: {
        l5 = (l2 * l2);
        l6 = (l5 * UINT64_C(11));
        l0 = (l6 / UINT64_C(1681543414));
        break;
    }
    }
    return l0;
}

static INLINE uint64_t angles__series__one(type_sphere__point__Grid l1)
{
    uint64_t l0;
    switch (l1.tag) {
    case 0: {
        l0 = UINT64_C(67108864);
        break;
    }
    case 1: default: {
        l0 = UINT64_C(2147483648);
        break;
    }
    }
    return l0;
}

static INLINE uint64_t angles__series__rest(type_sphere__point__Grid l1, uint64_t l2, uint64_t l3, uint64_t l4)
{
    uint64_t l0;
    uint64_t l5;
    uint64_t l6;
    uint64_t l7;
    uint64_t l8;
    l5 = angles__series__one(l1);
    l6 = (l2 * l3);
    l7 = (l6 / l4);
    l8 = (l7 / UINT64_C(2147483648));
    l0 = (l5 - l8);
    return l0;
}

static INLINE type_angles__series__Terms angles__series__both(type_sphere__point__Grid l1, uint64_t l2, type_angles__series__Terms l3, uint64_t l4, uint64_t l5)
{
    type_angles__series__Terms l0;
    uint64_t l6;
    uint64_t l7;
    l6 = angles__series__rest(l1, l2, l3.f0, l4);
    l7 = angles__series__rest(l1, l2, l3.f1, l5);
    l0 = (type_angles__series__Terms){.f0 = l6, .f1 = l7};
    return l0;
}

static INLINE uint64_t angles__series__last(type_sphere__point__Grid l1, uint64_t l2, uint64_t l3)
{
    uint64_t l0;
    uint64_t l4;
    uint64_t l5;
    uint64_t l6;
    uint64_t l7;
    bool l8;
    l4 = angles__series__one(l1);
    l6 = (l2 * l3);
    l7 = (l6 / UINT64_C(2));
    l5 = (l7 / UINT64_C(2147483648));
    l8 = (l5 < l4);
    if (l8) {
        l0 = (l4 - l5);
    } else {
        l0 = UINT64_C(0);
    }
    return l0;
}

static INLINE type_angles__series__Terms angles__series__series(type_sphere__point__Grid l1, uint64_t l2)
{
    type_angles__series__Terms l0;
    uint64_t l3;
    uint64_t l4;
    type_angles__series__Terms l5;
    type_angles__series__Terms l6;
    type_angles__series__Terms l7;
    type_angles__series__Terms l8;
    type_angles__series__Terms l9;
    type_angles__series__Terms l10;
    type_angles__series__Terms l11;
    type_angles__series__Terms l12;
    uint64_t l13;
    uint64_t l14;
    type_angles__series__Terms l15;
    l3 = angles__series__raised(l1, l2);
    l4 = angles__series__one(l1);
    l15 = (type_angles__series__Terms){.f0 = l4, .f1 = l4};
    l5 = angles__series__both(l1, l3, l15, UINT64_C(342), UINT64_C(306));
    l6 = angles__series__both(l1, l3, l5, UINT64_C(272), UINT64_C(240));
    l7 = angles__series__both(l1, l3, l6, UINT64_C(210), UINT64_C(182));
    l8 = angles__series__both(l1, l3, l7, UINT64_C(156), UINT64_C(132));
    l9 = angles__series__both(l1, l3, l8, UINT64_C(110), UINT64_C(90));
    l10 = angles__series__both(l1, l3, l9, UINT64_C(72), UINT64_C(56));
    l11 = angles__series__both(l1, l3, l10, UINT64_C(42), UINT64_C(30));
    l12 = angles__series__both(l1, l3, l11, UINT64_C(20), UINT64_C(12));
    l13 = angles__series__rest(l1, l3, l12.f0, UINT64_C(6));
    l14 = angles__series__last(l1, l3, l12.f1);
    l0 = (type_angles__series__Terms){.f0 = l13, .f1 = l14};
    return l0;
}

static INLINE double angles__pair__unit(type_sphere__point__Grid l1, uint64_t l2)
{
    double l0;
    double l4;
    double l5;
    switch (l1.tag) {
    case 0: {
        l4 = (double)l2;
        l0 = (l4 * (0x1.0000000000000p-26));
        break;
    }
    case 1: default: {
        l5 = (double)l2;
        l0 = (l5 * (0x1.0000000000000p-31));
        break;
    }
    }
    return l0;
}

static INLINE type_angles__pair__SinCos angles__pair__sin_cos(type_sphere__point__Grid l1, uint64_t l2)
{
    type_angles__pair__SinCos l0;
    uint64_t l3;
    type_angles__series__Terms l4;
    uint64_t l5;
    bool l6;
    uint64_t l8;
    double l9;
    double l10;
    l6 = (l2 < UINT64_C(900000000));
    if (l6) {
        l8 = angles__pair__arc_of(l1, l2);
        l3 = angles__series__raised(l1, l8);
        l8 = angles__pair__square_of(l1, l2);
        l4 = angles__series__series(l1, l8);
        l8 = (l3 * l4.f0);
        l5 = (l8 / UINT64_C(2147483648));
        l9 = angles__pair__unit(l1, l5);
        l10 = angles__pair__unit(l1, l4.f1);
        l0 = (type_angles__pair__SinCos){.f0 = l9, .f1 = l10};
    } else {
        l0 = (type_angles__pair__SinCos){.f0 = (0x1.0000000000000p+0), .f1 = (0x0.0p+0)};
    }
    return l0;
}

static INLINE uint64_t angles__pair__coarse_number(double l1, double l2)
{
    uint64_t l0;
    uint64_t l3;
    uint64_t l4;
    double l5;
    double l6;
    uint64_t l7;
    bool l8;
    l5 = (l1 * l2);
    l6 = (l5 * (0x1.0000000000000p+52));
    l3 = (uint64_t)l6;
    l7 = (l3 + UINT64_C(2147483648));
    l4 = (l7 / UINT64_C(4294967296));
    l8 = (l4 < UINT64_C(1048576));
    if (l8) {
        l0 = l4;
    } else {
        l0 = UINT64_C(1048576);
    }
    return l0;
}

static INLINE uint64_t angles__pair__fine_size(double l1)
{
    uint64_t l0;
    double l2;
    l2 = (l1 * (0x1.0000000000000p+31));
    l0 = (uint64_t)l2;
    return l0;
}

static INLINE uint64_t angles__pair__fine_number(double l1, double l2)
{
    uint64_t l0;
    uint64_t l3;
    uint64_t l4;
    uint64_t l5;
    uint64_t l6;
    bool l7;
    l5 = angles__pair__fine_size(l1);
    l6 = angles__pair__fine_size(l2);
    l3 = (l5 * l6);
    l5 = (l3 + UINT64_C(34359738368));
    l4 = (l5 / UINT64_C(68719476736));
    l7 = (l4 < UINT64_C(67108864));
    if (l7) {
        l0 = l4;
    } else {
        l0 = UINT64_C(67108864);
    }
    return l0;
}

static INLINE uint64_t angles__pair__product(type_sphere__point__Grid l1, double l2, double l3)
{
    uint64_t l0;
    switch (l1.tag) {
    case 0: {
        l0 = angles__pair__coarse_number(l2, l3);
        break;
    }
    case 1: default: {
        l0 = angles__pair__fine_number(l2, l3);
        break;
    }
    }
    return l0;
}

static type_angles__point__GridNumbers angles__point__in_range(type_sphere__point__Grid l1, bool l2, uint64_t l3, bool l4, uint64_t l5)
{
    type_angles__point__GridNumbers l0;
    type_angles__pair__SinCos l6;
    type_angles__pair__SinCos l7;
    uint64_t l8;
    uint32_t l9;
    bool l10;
    uint32_t l11;
    uint64_t l12;
    uint32_t l13;
    uint64_t l14;
    l8 = angles__point__quarter_of(l3);
    l6 = angles__pair__sin_cos(l1, l8);
    l7 = angles__pair__sin_cos(l1, l5);
    l10 = (UINT64_C(900000000) < l3);
    l8 = angles__pair__product(l1, l6.f1, l7.f1);
    l9 = angles__point__signed(l10, l8);
    l12 = angles__pair__product(l1, l6.f0, l7.f1);
    l11 = angles__point__signed(l2, l12);
    l14 = angles__pair__product(l1, l7.f0, (0x1.0000000000000p+0));
    l13 = angles__point__signed(l4, l14);
    l0 = (type_angles__point__GridNumbers){.f0 = l9, .f1 = l11, .f2 = l13};
    return l0;
}

static INLINE type_angles__point__GridNumbers angles__point__numbers_on(type_sphere__point__Grid l1, type_angles__point__Position l2)
{
    type_angles__point__GridNumbers l0;
    uint32_t l3;
    uint32_t l4;
    bool l5;
    bool l6;
    uint64_t l7;
    bool l8;
    uint64_t l9;
    l5 = angles__point__is_outside(l2);
    if (l5) {
        l0 = (type_angles__point__GridNumbers){.f0 = UINT32_C(0), .f1 = UINT32_C(0), .f2 = UINT32_C(0)};
        return l0;
    }
    l3 = l2.f0;
    l4 = l2.f1;
    l6 = angles__point__is_negative(l3);
    l7 = angles__point__size(l3);
    l8 = angles__point__is_negative(l4);
    l9 = angles__point__size(l4);
    l0 = angles__point__in_range(l1, l6, l7, l8, l9);
    return l0;
}

static INLINE void geojson__scan__put(type_sphere__point__Grid l1, array_uint32_t_12291 *l2, uint64_t l3, type_angles__point__Position l4)
{
    uint32_t l5;
    uint32_t l6;
    uint32_t l7;
    uint64_t l8;
    bool l9;
    type_angles__point__GridNumbers l10;
    uint64_t l11;
    unsigned char *l12;
    unsigned char *l13;
    uint64_t l14;
    unsigned char *l15;
    unsigned char *l16;
    unsigned char *l17;
    unsigned char *l18;
    l9 = (l3 < UINT64_C(4097));
    if (l9) {
        l10 = angles__point__numbers_on(l1, l4);
        l5 = l10.f0;
        l6 = l10.f1;
        l7 = l10.f2;
        l8 = (l3 * UINT64_C(3));
        l11 = (l8 << 2);
        l12 = (unsigned char *)(void *)&(*l2);
        l13 = ((unsigned char *)(void *)l12 + (size_t)l11);
        (*(uint32_t *)(void *)l13) = l5;
        l11 = (l8 + UINT64_C(1));
        l14 = (l11 << 2);
        l15 = (unsigned char *)(void *)&(*l2);
        l16 = ((unsigned char *)(void *)l15 + (size_t)l14);
        (*(uint32_t *)(void *)l16) = l6;
        l11 = (l8 + UINT64_C(2));
        l14 = (l11 << 2);
        l17 = (unsigned char *)(void *)&(*l2);
        l18 = ((unsigned char *)(void *)l17 + (size_t)l14);
        (*(uint32_t *)(void *)l18) = l7;
    }
    return;
}

static INLINE type_core__option__Option_of_u64 core__bool__then_some_of_u64(bool l1, uint64_t l2)
{
    type_core__option__Option_of_u64 l0;
    bool l3;
    uint64_t l5;
    l3 = l1;
    if (l3) {
        l5 = l2;
        l0 = (type_core__option__Option_of_u64){.tag = 1, .s0 = l5};
    } else {
        l0 = (type_core__option__Option_of_u64){.tag = 0};
    }
    return l0;
}

static INLINE type_core__option__Option_of_u64 core__option__Option__or_of_u64(type_core__option__Option_of_u64 l1, type_core__option__Option_of_u64 l2)
{
    type_core__option__Option_of_u64 l0;
    uint64_t l3;
    uint64_t l5;
    switch (l1.tag) {
    case 1: {
        l3 = l1.s0;
        l5 = l3;
        l0 = (type_core__option__Option_of_u64){.tag = 1, .s0 = l5};
        switch (l2.tag) {
        case 1: {
            break;
        }
        case 0: default: {
            break;
        }
        }
        break;
    }
    case 0: default: {
        l0 = l2;
        break;
    }
    }
    return l0;
}

static INLINE type_core__option__Option_of_u64 positions__ring__earliest(type_core__option__Option_of_u64 l1, bool l2, uint64_t l3)
{
    type_core__option__Option_of_u64 l0;
    type_core__option__Option_of_u64 l4;
    l4 = core__bool__then_some_of_u64(l2, l3);
    l0 = core__option__Option__or_of_u64(l1, l4);
    return l0;
}

static INLINE uint64_t positions__ring__difference(uint32_t l1, uint32_t l2)
{
    uint64_t l0;
    uint64_t l3;
    uint64_t l4;
    l3 = core__convert__I64FromI32__from(l1);
    l4 = core__convert__I64FromI32__from(l2);
    l0 = (l3 - l4);
    return l0;
}

static INLINE bool positions__ring__is_apart(uint32_t l1, uint32_t l2)
{
    bool l0;
    uint64_t l3;
    l3 = positions__ring__difference(l1, l2);
    l0 = angles__point__is_past(UINT64_C(10000000), l3);
    return l0;
}

static INLINE bool positions__ring__is_distant(type_angles__point__Position l1, type_angles__point__Position l2)
{
    bool l0;
    bool l3;
    l3 = positions__ring__is_apart(l1.f0, l2.f0);
    if (l3) {
        l0 = true;
        return l0;
    }
    l0 = positions__ring__is_apart(l1.f1, l2.f1);
    return l0;
}

static INLINE type_positions__ring__Ring positions__ring__added(type_positions__ring__Ring l1, type_angles__point__Position l2)
{
    type_positions__ring__Ring l0;
    uint64_t l3;
    type_core__option__Option_of_u64 l4;
    type_core__option__Option_of_u64 l5;
    type_angles__point__Position l6;
    type_angles__point__Position l7;
    type_core__option__Option_of_u64 l8;
    type_core__option__Option_of_u64 l9;
    bool l10;
    type_core__option__Option_of_u64 l11;
    uint64_t l12;
    l3 = l1.f0;
    l4 = l1.f3;
    l10 = angles__point__is_outside(l2);
    l5 = positions__ring__earliest(l4, l10, l3);
    l10 = (l3 == UINT64_C(0));
    if (l10) {
        l11 = (type_core__option__Option_of_u64){.tag = 0};
        l0 = (type_positions__ring__Ring){.f0 = UINT64_C(1), .f1 = l2, .f2 = l2, .f3 = l5, .f4 = l11};
        return l0;
    }
    l6 = l1.f1;
    l7 = l1.f2;
    l8 = l1.f4;
    l10 = positions__ring__is_distant(l7, l2);
    l12 = (l3 - UINT64_C(1));
    l9 = positions__ring__earliest(l8, l10, l12);
    l12 = (l3 + UINT64_C(1));
    l0 = (type_positions__ring__Ring){.f0 = l12, .f1 = l6, .f2 = l2, .f3 = l5, .f4 = l9};
    return l0;
}

static INLINE uint64_t core__int__u64__min(uint64_t l1, uint64_t l2)
{
    uint64_t l0;
    bool l3;
    l3 = (l2 < l1);
    if (l3) {
        l0 = l2;
    } else {
        l0 = l1;
    }
    return l0;
}

static INLINE uint64_t positions__number__capped(uint64_t l1)
{
    uint64_t l0;
    l0 = core__int__u64__min(l1, UINT64_C(2000000000));
    return l0;
}

static INLINE type_positions__number__Pending positions__number__digit(type_positions__number__Pending l1, uint64_t l2)
{
    type_positions__number__Pending l0;
    uint64_t l3;
    uint64_t l4;
    bool l5;
    uint64_t l6;
    uint64_t l7;
    uint64_t l8;
    uint64_t l9;
    uint64_t l10;
    uint64_t l11;
    uint64_t l12;
    l3 = l1.f1;
    l5 = (l3 == UINT64_C(0));
    if (l5) {
        l7 = (l1.f0 * UINT64_C(10));
        l8 = (l2 * UINT64_C(10000000));
        l9 = (l7 + l8);
        l6 = positions__number__capped(l9);
        l0 = (type_positions__number__Pending){.f0 = l6, .f1 = UINT64_C(0), .f2 = l1.f2, .f3 = l1.f3, .f4 = true};
        return l0;
    }
    l4 = (l3 / UINT64_C(10));
    l11 = (l2 * l4);
    l12 = (l1.f0 + l11);
    l10 = positions__number__capped(l12);
    l0 = (type_positions__number__Pending){.f0 = l10, .f1 = l4, .f2 = l1.f2, .f3 = l1.f3, .f4 = true};
    return l0;
}

static INLINE type_positions__number__Pending positions__number__next(type_positions__number__Pending l1, uint8_t l2)
{
    type_positions__number__Pending l0;
    bool l3;
    uint64_t l4;
    uint64_t l5;
    bool l6;
    uint32_t l7;
    l3 = positions__number__is_digit(l2);
    if (l3) {
        l4 = core__convert__U64FromU8__from(l2);
        l5 = (l4 - UINT64_C(48));
        l0 = positions__number__digit(l1, l5);
        return l0;
    }
    l6 = (l2 == 45);
    if (l6) {
        l0 = (type_positions__number__Pending){.f0 = l1.f0, .f1 = l1.f1, .f2 = l1.f2, .f3 = true, .f4 = l1.f4};
        return l0;
    }
    l6 = (l2 == 46);
    if (l6) {
        l0 = (type_positions__number__Pending){.f0 = l1.f0, .f1 = UINT64_C(10000000), .f2 = l1.f2, .f3 = l1.f3, .f4 = l1.f4};
        return l0;
    }
    l6 = (l2 == 44);
    if (l6) {
        l7 = angles__point__signed(l1.f3, l1.f0);
        l0 = (type_positions__number__Pending){.f0 = UINT64_C(0), .f1 = UINT64_C(0), .f2 = l7, .f3 = false, .f4 = false};
        return l0;
    }
    l0 = l1;
    return l0;
}

static INLINE type_geojson__scan__Reader geojson__scan__step(type_sphere__point__Grid l1, type_geojson__scan__Reader l2, uint8_t l3, array_uint32_t_12291 *l4)
{
    type_geojson__scan__Reader l0;
    type_positions__number__Pending l5;
    type_positions__ring__Ring l6;
    type_angles__point__Position l7;
    bool l8;
    bool l9;
    bool l10;
    array_uint32_t_12291 *l12;
    type_positions__number__Pending l13;
    type_positions__ring__Ring l14;
    type_positions__number__Pending l15;
    l5 = l2.f0;
    l6 = l2.f1;
    l9 = positions__number__is_digit(l3);
    l8 = !l9;
    if (l8) {
        l8 = positions__number__ends(l5, l3);
        l10 = l8;
        if (l10) {
            l7 = positions__number__whole(l5);
            l12 = (array_uint32_t_12291 *)(void *)&(*l4);
            geojson__scan__put(l1, l12, l6.f0, l7);
            l13 = geojson__scan__fresh();
            l14 = positions__ring__added(l6, l7);
            l0 = (type_geojson__scan__Reader){.f0 = l13, .f1 = l14};
            return l0;
            goto exit0;
        }
    }
exit0:;
    l15 = positions__number__next(l5, l3);
    l0 = (type_geojson__scan__Reader){.f0 = l15, .f1 = l6};
    return l0;
}

static INLINE bool positions__grammar__is_point(type_positions__grammar__State l1)
{
    bool l0;
    bool l2;
    bool l3;
    l2 = positions__grammar__is_ring(l1.f0);
    if (l2) {
        l3 = (l1.f1 == UINT64_C(7));
        if (l3) {
            l0 = true;
            return l0;
        }
        l0 = (l1.f1 == UINT64_C(20));
        return l0;
    }
    l0 = false;
    return l0;
}

static INLINE bool positions__decimals__is_more(slice_uint8_t l1, uint64_t l2)
{
    bool l0;
    uint64_t l3;
    bool l4;
    unsigned char *l5;
    uint8_t l6;
    l3 = l1.f1;
    l4 = (l2 < l3);
    if (l4) {
        l5 = ((unsigned char *)(void *)l1.f0 + (size_t)l2);
        l6 = (*(uint8_t *)(void *)l5);
        l0 = positions__number__is_digit(l6);
        return l0;
    }
    l0 = false;
    return l0;
}

static INLINE type_positions__decimals__Run positions__decimals__decimals(slice_uint8_t l1, uint64_t l2, type_positions__number__Pending l3)
{
    type_positions__decimals__Run l0;
    type_positions__number__Pending l4;
    uint64_t l5;
    uint64_t l6;
    bool l7;
    bool l8;
    unsigned char *l9;
    uint8_t l10;
    l4 = (type_positions__number__Pending){.f0 = l3.f0, .f1 = UINT64_C(10000000), .f2 = l3.f2, .f3 = l3.f3, .f4 = l3.f4};
    l5 = UINT64_C(0);
    for (;;) {
        l7 = (l5 < UINT64_C(7));
        if (l7) {
        } else {
            goto exit0;
        }
        l6 = (l2 + l5);
        l7 = positions__decimals__is_more(l1, l6);
        l8 = !l7;
        if (l8) {
            l0 = (type_positions__decimals__Run){.f0 = l4, .f1 = l5};
            return l0;
        }
        l9 = ((unsigned char *)(void *)l1.f0 + (size_t)l6);
        l10 = (*(uint8_t *)(void *)l9);
        l4 = positions__number__next(l4, l10);
        l5 = (l5 + UINT64_C(1));
    }
exit0:;
    l0 = (type_positions__decimals__Run){.f0 = l4, .f1 = UINT64_C(7)};
    return l0;
}

static INLINE type_geojson__ahead__Reached geojson__ahead__ahead(slice_uint8_t l1, uint64_t l2, type_positions__grammar__State l3, type_positions__number__Pending l4)
{
    type_geojson__ahead__Reached l0;
    type_positions__number__Pending l5;
    uint64_t l6;
    type_positions__grammar__State l7;
    bool l8;
    bool l9;
    type_positions__decimals__Run l10;
    uint64_t l11;
    uint64_t l12;
    uint64_t l13;
    l8 = (l4.f1 == UINT64_C(10000000));
    if (l8) {
        l8 = positions__grammar__is_point(l3);
        l9 = l8;
        if (l9) {
            l10 = positions__decimals__decimals(l1, l2, l4);
            l5 = l10.f0;
            l6 = l10.f1;
            l11 = l6;
            l12 = (l3.f1 + l11);
            l7 = (type_positions__grammar__State){.f0 = l3.f0, .f1 = l12};
            l13 = (l2 + l6);
            l0 = (type_geojson__ahead__Reached){.f0 = l13, .f1 = l7, .f2 = l5};
            return l0;
            goto exit0;
        }
    }
exit0:;
    l0 = (type_geojson__ahead__Reached){.f0 = l2, .f1 = l3, .f2 = l4};
    return l0;
}

static INLINE bool positions__ring__is_zero(uint64_t l1)
{
    bool l0;
    l0 = (l1 == UINT64_C(0));
    return l0;
}

static INLINE bool positions__ring__is_equal(uint32_t l1, uint32_t l2)
{
    bool l0;
    uint64_t l3;
    l3 = positions__ring__difference(l1, l2);
    l0 = positions__ring__is_zero(l3);
    return l0;
}

static INLINE bool positions__ring__is_same(type_angles__point__Position l1, type_angles__point__Position l2)
{
    bool l0;
    bool l3;
    l3 = positions__ring__is_equal(l1.f0, l2.f0);
    if (l3) {
        l0 = positions__ring__is_equal(l1.f1, l2.f1);
        return l0;
    }
    l0 = false;
    return l0;
}

static INLINE type_core__result__Result_of_unit_Refusal positions__ring__ring_check(type_positions__ring__Ring l1)
{
    type_core__result__Result_of_unit_Refusal l0;
    type_core__option__Option_of_u64 l2;
    uint64_t l3;
    type_core__option__Option_of_u64 l4;
    uint64_t l5;
    type_answer__Refusal l6;
    type_answer__Reason l7;
    bool l8;
    type_answer__Refusal l9;
    type_answer__Reason l10;
    type_angles__point__Position l11;
    type_angles__point__Position l12;
    bool l13;
    type_answer__Refusal l14;
    type_answer__Reason l15;
    type_answer__Refusal l16;
    type_answer__Reason l17;
    l2 = l1.f3;
    switch (l2.tag) {
    case 1: {
        l3 = l2.s0;
        l7 = (type_answer__Reason){.tag = 20};
        l6 = answer__Reason__at(l7, l3);
        l0 = (type_core__result__Result_of_unit_Refusal){.tag = 1, .s0 = l6};
        return l0;
        break;
    }
    case 0: default: {
        break;
    }
    }
    l8 = (l1.f0 < UINT64_C(4));
    if (l8) {
        l10 = (type_answer__Reason){.tag = 21};
        l9 = answer__Reason__at(l10, UINT64_C(0));
        l0 = (type_core__result__Result_of_unit_Refusal){.tag = 1, .s0 = l9};
        return l0;
    }
    l11 = l1.f1;
    l12 = l1.f2;
    l8 = positions__ring__is_same(l11, l12);
    l13 = !l8;
    if (l13) {
        l15 = (type_answer__Reason){.tag = 21};
        l14 = answer__Reason__at(l15, UINT64_C(0));
        l0 = (type_core__result__Result_of_unit_Refusal){.tag = 1, .s0 = l14};
        return l0;
    }
    l4 = l1.f4;
    switch (l4.tag) {
    case 1: {
        l5 = l4.s0;
        l17 = (type_answer__Reason){.tag = 22};
        l16 = answer__Reason__at(l17, l5);
        l0 = (type_core__result__Result_of_unit_Refusal){.tag = 1, .s0 = l16};
        return l0;
        break;
    }
    case 0: default: {
        break;
    }
    }
    l0 = (type_core__result__Result_of_unit_Refusal){.tag = 0};
    return l0;
}

static INLINE type_core__result__Result_of_u64_Refusal core__result__ResultFromResidualErrResidual__from_residual_of_u64_Refusal_Refusal(type_core__result__ErrResidual_of_Refusal l1)
{
    type_core__result__Result_of_u64_Refusal l0;
    type_answer__Refusal l2;
    type_answer__Refusal l3;
    l3 = l1.f0;
    l2 = core__convert__AnyFrom__from_of_Refusal(l3);
    l0 = (type_core__result__Result_of_u64_Refusal){.tag = 1, .s1 = l2};
    return l0;
}

static INLINE type_core__result__Result_of_u64_Refusal geojson__scan__finish(type_geojson__scan__Reader l1)
{
    type_core__result__Result_of_u64_Refusal l0;
    type_core__result__ErrResidual_of_Refusal l3;
    type_core__ops__ControlFlow_of_ErrResidual_Refusal_unit l4;
    type_core__result__Result_of_unit_Refusal l5;
    type_positions__ring__Ring l6;
    uint64_t l7;
    l6 = l1.f1;
    l5 = positions__ring__ring_check(l6);
    l4 = core__result__ResultTry__branch_of_unit_Refusal(l5);
    switch (l4.tag) {
    case 0: {
        break;
    }
    case 1: default: {
        l3 = l4.s0;
        l0 = core__result__ResultFromResidualErrResidual__from_residual_of_u64_Refusal_Refusal(l3);
        return l0;
        break;
    }
    }
    l7 = (l1.f1.f0 - UINT64_C(1));
    l0 = (type_core__result__Result_of_u64_Refusal){.tag = 0, .s0 = l7};
    return l0;
}

static INLINE type_core__result__Result_of_u64_Refusal geojson__scan__scan_with_either(array_uint64_t_256 *l1, array_uint64_t_261 *l2, type_sphere__point__Grid l3, slice_uint8_t l4, array_uint32_t_12291 *l5)
{
    type_core__result__Result_of_u64_Refusal l0;
    type_positions__grammar__State l6;
    type_geojson__scan__Reader l7;
    uint64_t l8;
    uint8_t l9;
    uint64_t l10;
    type_positions__grammar__State l11;
    type_positions__number__Pending l12;
    type_positions__number__Pending l13;
    type_positions__ring__Ring l14;
    uint64_t l15;
    bool l16;
    unsigned char *l17;
    uint8_t l18;
    type_answer__Refusal l19;
    type_answer__Reason l20;
    array_uint32_t_12291 *l21;
    type_geojson__ahead__Reached l22;
    type_positions__number__Pending l23;
    bool l24;
    bool l25;
    type_answer__Refusal l26;
    type_answer__Reason l27;
    l6 = (type_positions__grammar__State){.f0 = UINT64_C(0), .f1 = UINT64_C(0)};
    l13 = geojson__scan__fresh();
    l14 = positions__ring__none();
    l7 = (type_geojson__scan__Reader){.f0 = l13, .f1 = l14};
    l8 = UINT64_C(0);
    for (;;) {
        l15 = l4.f1;
        l16 = (l8 < l15);
        if (l16) {
        } else {
            goto exit0;
        }
        l17 = ((unsigned char *)(void *)l4.f0 + (size_t)l8);
        l18 = (*(uint8_t *)(void *)l17);
        l9 = l18;
        l6 = positions__grammar__next(l1, l2, l6, l9);
        l16 = (l6.f0 == UINT64_C(76));
        if (l16) {
            l20 = (type_answer__Reason){.tag = 19};
            l19 = answer__Reason__at(l20, l8);
            l0 = (type_core__result__Result_of_u64_Refusal){.tag = 1, .s1 = l19};
            return l0;
        }
        l21 = (array_uint32_t_12291 *)(void *)&(*l5);
        l7 = geojson__scan__step(l3, l7, l9, l21);
        l15 = (l8 + UINT64_C(1));
        l23 = l7.f0;
        l22 = geojson__ahead__ahead(l4, l15, l6, l23);
        l10 = l22.f0;
        l11 = l22.f1;
        l12 = l22.f2;
        l6 = l11;
        l7.f0 = l12;
        l8 = l10;
    }
exit0:;
    l24 = (l6.f0 == UINT64_C(37));
    if (l24) {
    } else {
        l24 = (l6.f0 == UINT64_C(75));
        l25 = l24;
        if (l25) {
        } else {
            goto exit1;
        }
    }
    l0 = geojson__scan__finish(l7);
    return l0;
    goto exit2;
exit1:;
exit2:;
    l27 = (type_answer__Reason){.tag = 19};
    l26 = answer__Reason__at(l27, l8);
    l0 = (type_core__result__Result_of_u64_Refusal){.tag = 1, .s1 = l26};
    return l0;
}

static type_core__result__Result_of_u64_Refusal geojson__scan__scan_with(array_uint64_t_256 *l1, array_uint64_t_261 *l2, type_sphere__point__Grid l3, slice_uint8_t l4, array_uint32_t_12291 *l5)
{
    return l3.tag == 0 ? geojson__scan__scan_with_either(l1, l2, (type_sphere__point__Grid){.tag = 0}, l4, l5) : geojson__scan__scan_with_either(l1, l2, (type_sphere__point__Grid){.tag = 1}, l4, l5);
}

static APART type_core__result__Result_of_u64_Refusal geojson__scan__scan(type_sphere__point__Grid l1, slice_uint8_t l2, array_uint32_t_12291 *l3)
{
    type_core__result__Result_of_u64_Refusal l0;
    array_uint64_t_256 l4;
    array_uint64_t_256 l5;
    array_uint64_t_256 *l6;
    array_uint64_t_261 l7;
    array_uint64_t_261 l8;
    array_uint64_t_261 *l9;
    array_uint32_t_12291 *l10;
    l4 = positions__grammar__class_table();
    l5 = l4;
    l6 = (array_uint64_t_256 *)(void *)&l5;
    l7 = positions__grammar__ring_table();
    l8 = l7;
    l9 = (array_uint64_t_261 *)(void *)&l8;
    l10 = (array_uint32_t_12291 *)(void *)&(*l3);
    l0 = geojson__scan__scan_with(l6, l9, l1, l2, l10);
    return l0;
}

static INLINE uint64_t geojson__import__list_size(uint64_t l1)
{
    uint64_t l0;
    uint64_t l2;
    l2 = core__int__usize__min(l1, UINT64_C(4097));
    l0 = (l2 * UINT64_C(3));
    return l0;
}

static INLINE type_sphere__point__GridPoint geojson__import__on_grid(type_sphere__point__Grid l1, type_sphere__point__Point l2)
{
    type_sphere__point__GridPoint l0;
    l0 = (type_sphere__point__GridPoint){.f0 = l1, .f1 = l2};
    return l0;
}

static INLINE type_sphere__point__Grid polygon__grids__grid_of_second(type_sphere__point__Grid l1, type_sphere__point__GridPoint l2)
{
    type_sphere__point__Grid l0;
    bool l3;
    type_sphere__point__Point l4;
    l4 = l2.f1;
    l3 = sphere__point__is_null(l4);
    if (l3) {
        l0 = l1;
    } else {
        l0 = l2.f0;
    }
    return l0;
}

static INLINE bool polygon__grids__is_mixed(type_sphere__point__Grid l1, type_sphere__point__Grid l2, type_sphere__point__Grid l3)
{
    bool l0;
    type_sphere__point__Grid l4;
    type_sphere__point__Grid l5;
    type_sphere__point__Grid l6;
    bool l7;
    type_sphere__point__Grid *l8;
    type_sphere__point__Grid *l9;
    type_sphere__point__Grid *l10;
    type_sphere__point__Grid *l11;
    l4 = l1;
    l5 = l2;
    l6 = l3;
    l8 = (type_sphere__point__Grid *)(void *)&l4;
    l9 = (type_sphere__point__Grid *)(void *)&l5;
    l7 = core__cmp__PartialEq__ne_of_Grid(l8, l9);
    if (l7) {
    } else {
        l10 = (type_sphere__point__Grid *)(void *)&l4;
        l11 = (type_sphere__point__Grid *)(void *)&l6;
        l7 = core__cmp__PartialEq__ne_of_Grid(l10, l11);
    }
    l0 = l7;
    return l0;
}

static APART type_core__result__Result_of_unit_Refusal judging__second__optional_check(type_sphere__point__Grid l1, slice_uint32_t l2, type_sphere__point__Point l3, type_sphere__point__Point l4)
{
    type_core__result__Result_of_unit_Refusal l0;
    array_uint32_t_768 l5;
    type_core__result__ErrResidual_of_Refusal l7;
    type_core__ops__ControlFlow_of_ErrResidual_Refusal_unit l8;
    type_core__result__Result_of_unit_Refusal l9;
    array_uint32_t_768 *l10;
    slice_uint32_t l11;
    bool l12;
    array_uint32_t_768 *l13;
    slice_uint32_t l14;
    for (size_t i = 0; i < 768; i++)
        l5.e[i] = UINT32_C(0);
    l10 = (array_uint32_t_768 *)(void *)&l5;
    l11 = (slice_uint32_t){.f0 = (uint32_t *)(void *)l10, .f1 = UINT64_C(768)};
    l9 = judging__accept__accept_boxed(l1, l2, l11, l3);
    l8 = core__result__ResultTry__branch_of_unit_Refusal(l9);
    switch (l8.tag) {
    case 0: {
        break;
    }
    case 1: default: {
        l7 = l8.s0;
        l0 = core__result__ResultFromResidualErrResidual__from_residual_of_unit_Refusal_Refusal(l7);
        return l0;
        break;
    }
    }
    l12 = sphere__point__is_null(l4);
    if (l12) {
        l0 = (type_core__result__Result_of_unit_Refusal){.tag = 0};
        return l0;
    }
    l13 = (array_uint32_t_768 *)(void *)&l5;
    l14 = (slice_uint32_t){.f0 = (uint32_t *)(void *)l13, .f1 = UINT64_C(768)};
    l0 = judging__second__second_check(l1, l2, l14, l3, l4);
    return l0;
}

static INLINE type_core__result__Result_of_unit_Refusal sheet__write__input_check(uint32_t l1, slice_uint8_t l2, type_sphere__point__GridPoint l3, type_sphere__point__Grid l4, slice_uint32_t l5, type_sphere__point__GridPoint l6)
{
    type_core__result__Result_of_unit_Refusal l0;
    type_core__result__ErrResidual_of_Refusal l8;
    bool l9;
    bool l10;
    type_answer__Refusal l11;
    type_answer__Reason l12;
    uint64_t l13;
    type_answer__Refusal l14;
    type_answer__Reason l15;
    type_core__ops__ControlFlow_of_ErrResidual_Refusal_unit l16;
    type_core__result__Result_of_unit_Refusal l17;
    type_sphere__point__Grid l18;
    type_sphere__point__Grid l19;
    type_sphere__point__Point l20;
    type_sphere__point__Point l21;
    l9 = fields__is_charset(l1);
    l10 = !l9;
    if (l10) {
        l12 = (type_answer__Reason){.tag = 13};
        l11 = answer__Reason__at(l12, UINT64_C(0));
        l0 = (type_core__result__Result_of_unit_Refusal){.tag = 1, .s0 = l11};
        return l0;
    }
    l13 = l2.f1;
    l9 = fields__is_allowed(l13, UINT64_C(1), UINT64_C(120), UINT64_C(1));
    l10 = !l9;
    if (l10) {
        l15 = (type_answer__Reason){.tag = 12};
        l14 = answer__Reason__at(l15, UINT64_C(0));
        l0 = (type_core__result__Result_of_unit_Refusal){.tag = 1, .s0 = l14};
        return l0;
    }
    l18 = l3.f0;
    l19 = polygon__grids__grid_of_second(l4, l6);
    l9 = polygon__grids__is_mixed(l4, l18, l19);
    l17 = polygon__grids__grid_check(l5, l9);
    l16 = core__result__ResultTry__branch_of_unit_Refusal(l17);
    switch (l16.tag) {
    case 0: {
        break;
    }
    case 1: default: {
        l8 = l16.s0;
        l0 = core__result__ResultFromResidualErrResidual__from_residual_of_unit_Refusal_Refusal(l8);
        return l0;
        break;
    }
    }
    l20 = l3.f1;
    l21 = l6.f1;
    l0 = judging__second__optional_check(l4, l5, l20, l21);
    return l0;
}

static INLINE uint64_t sheet__write__second_size(type_sphere__point__Point l1)
{
    uint64_t l0;
    bool l2;
    l2 = sphere__point__is_null(l1);
    if (l2) {
        l0 = UINT64_C(0);
    } else {
        l0 = UINT64_C(15);
    }
    return l0;
}

static INLINE uint64_t sheet__write__bytes_needed(slice_uint8_t l1, slice_uint32_t l2, type_sphere__point__Point l3)
{
    uint64_t l0;
    uint64_t l4;
    uint64_t l5;
    uint64_t l6;
    uint64_t l7;
    uint64_t l8;
    uint64_t l9;
    l4 = l1.f1;
    l5 = (UINT64_C(32) + l4);
    l6 = l2.f1;
    l7 = (l6 << 2);
    l8 = (l5 + l7);
    l9 = sheet__write__second_size(l3);
    l0 = (l8 + l9);
    return l0;
}

static INLINE type_core__result__Result_of_Verdict_Refusal sheet__write__write_answer(uint32_t l1, slice_uint8_t l2, type_sphere__point__GridPoint l3, type_sphere__point__Grid l4, slice_uint32_t l5, type_sphere__point__GridPoint l6, uint64_t l7)
{
    type_core__result__Result_of_Verdict_Refusal l0;
    type_core__result__ErrResidual_of_Refusal l9;
    uint64_t l10;
    type_core__ops__ControlFlow_of_ErrResidual_Refusal_unit l11;
    type_core__result__Result_of_unit_Refusal l12;
    type_sphere__point__Point l13;
    bool l14;
    type_answer__Refusal l15;
    type_answer__Reason l16;
    type_answer__Verdict l17;
    l12 = sheet__write__input_check(l1, l2, l3, l4, l5, l6);
    l11 = core__result__ResultTry__branch_of_unit_Refusal(l12);
    switch (l11.tag) {
    case 0: {
        break;
    }
    case 1: default: {
        l9 = l11.s0;
        l0 = core__result__ResultFromResidualErrResidual__from_residual_of_Verdict_Refusal_Refusal(l9);
        return l0;
        break;
    }
    }
    l13 = l6.f1;
    l10 = sheet__write__bytes_needed(l2, l5, l13);
    l14 = (l7 < l10);
    if (l14) {
        l16 = (type_answer__Reason){.tag = 15};
        l15 = answer__Reason__at(l16, l10);
        l0 = (type_core__result__Result_of_Verdict_Refusal){.tag = 1, .s1 = l15};
        return l0;
    }
    l17 = (type_answer__Verdict){.tag = 0, .s0 = l10};
    l0 = (type_core__result__Result_of_Verdict_Refusal){.tag = 0, .s0 = l17};
    return l0;
}

static INLINE type_core__ops__ControlFlow_of_ErrResidual_Refusal_Verdict core__result__ResultTry__branch_of_Verdict_Refusal(type_core__result__Result_of_Verdict_Refusal l1)
{
    type_core__ops__ControlFlow_of_ErrResidual_Refusal_Verdict l0;
    type_answer__Verdict l2;
    type_answer__Refusal l3;
    type_answer__Verdict l5;
    type_answer__Refusal l6;
    type_core__result__ErrResidual_of_Refusal l7;
    switch (l1.tag) {
    case 0: {
        l2 = l1.s0;
        l5 = l2;
        l0 = (type_core__ops__ControlFlow_of_ErrResidual_Refusal_Verdict){.tag = 0, .s0 = l5};
        break;
    }
    case 1: default: {
        l3 = l1.s1;
        l6 = l3;
        l7 = (type_core__result__ErrResidual_of_Refusal){.f0 = l6};
        l0 = (type_core__ops__ControlFlow_of_ErrResidual_Refusal_Verdict){.tag = 1, .s1 = l7};
        break;
    }
    }
    return l0;
}

static INLINE void big_endian__store__put_short(slice_uint8_t l1, uint64_t l2, uint32_t l3)
{
    uint32_t l4;
    uint32_t l5;
    uint8_t l6;
    unsigned char *l7;
    unsigned char *l9;
    l4 = (l3 / UINT32_C(256));
    l5 = (l4 % UINT32_C(256));
    l6 = (uint8_t)l5;
    l7 = ((unsigned char *)(void *)l1.f0 + (size_t)l2);
    (*(uint8_t *)(void *)l7) = l6;
    l4 = (l3 % UINT32_C(256));
    l6 = (uint8_t)l4;
    l9 = (l7 + UINT64_C(1));
    (*(uint8_t *)(void *)l9) = l6;
    return;
}

static INLINE void sheet__store__put_head(slice_uint8_t l1, uint64_t l2, uint8_t l3, uint32_t l4)
{
    unsigned char *l5;
    uint8_t *l7;
    slice_uint8_t l8;
    uint64_t l9;
    l5 = ((unsigned char *)(void *)l1.f0 + (size_t)l2);
    (*(uint8_t *)(void *)l5) = l3;
    l7 = (uint8_t *)(void *)&(*l1.f0);
    l8 = (slice_uint8_t){.f0 = l7, .f1 = l1.f1};
    l9 = (l2 + UINT64_C(1));
    big_endian__store__put_short(l8, l9, l4);
    return;
}

static INLINE void sheet__store__put_zone(slice_uint8_t l1, uint32_t l2)
{
    uint8_t *l4;
    slice_uint8_t l5;
    uint8_t *l6;
    slice_uint8_t l7;
    l4 = (uint8_t *)(void *)&(*l1.f0);
    l5 = (slice_uint8_t){.f0 = l4, .f1 = l1.f1};
    sheet__store__put_head(l5, UINT64_C(0), 1, UINT32_C(4));
    l6 = (uint8_t *)(void *)&(*l1.f0);
    l7 = (slice_uint8_t){.f0 = l6, .f1 = l1.f1};
    big_endian__store__put_word(l7, UINT64_C(3), l2);
    return;
}

static INLINE void sheet__store__put_charset(slice_uint8_t l1, uint32_t l2)
{
    uint8_t *l4;
    slice_uint8_t l5;
    uint8_t l6;
    unsigned char *l7;
    l4 = (uint8_t *)(void *)&(*l1.f0);
    l5 = (slice_uint8_t){.f0 = l4, .f1 = l1.f1};
    sheet__store__put_head(l5, UINT64_C(7), 2, UINT32_C(1));
    l6 = (uint8_t)l2;
    l7 = ((unsigned char *)(void *)l1.f0 + (size_t)UINT64_C(10));
    (*(uint8_t *)(void *)l7) = l6;
    return;
}

static INLINE void big_endian__store__put_bytes(slice_uint8_t l1, uint64_t l2, slice_uint8_t l3)
{
    uint64_t l4;
    uint64_t l5;
    bool l6;
    unsigned char *l7;
    uint8_t l8;
    uint64_t l9;
    unsigned char *l10;
    l4 = UINT64_C(0);
    l5 = l3.f1;
    for (;;) {
        l6 = (l4 < l5);
        if (l6) {
        } else {
            goto exit0;
        }
        l7 = ((unsigned char *)(void *)l3.f0 + (size_t)l4);
        l8 = (*(uint8_t *)(void *)l7);
        l9 = (l2 + l4);
        l10 = ((unsigned char *)(void *)l1.f0 + (size_t)l9);
        (*(uint8_t *)(void *)l10) = l8;
        l4 = (l4 + UINT64_C(1));
    }
exit0:;
    return;
}

static INLINE void sheet__store__put_name(slice_uint8_t l1, slice_uint8_t l2)
{
    uint8_t *l4;
    slice_uint8_t l5;
    uint64_t l6;
    uint32_t l7;
    uint8_t *l8;
    slice_uint8_t l9;
    l4 = (uint8_t *)(void *)&(*l1.f0);
    l5 = (slice_uint8_t){.f0 = l4, .f1 = l1.f1};
    l6 = l2.f1;
    l7 = (uint32_t)l6;
    sheet__store__put_head(l5, UINT64_C(11), 3, l7);
    l8 = (uint8_t *)(void *)&(*l1.f0);
    l9 = (slice_uint8_t){.f0 = l8, .f1 = l1.f1};
    big_endian__store__put_bytes(l9, UINT64_C(14), l2);
    return;
}

static INLINE uint32_t core__int__i32__cast_unsigned(uint32_t l1)
{
    uint32_t l0;
    bool l2;
    uint32_t l4;
    uint32_t l5;
    l2 = (signed32(l1) < signed32(UINT32_C(0)));
    if (l2) {
        l4 = (uint32_t)~l1;
        l5 = (uint32_t)l4;
        l0 = (UINT32_C(4294967295) - l5);
    } else {
        l0 = (uint32_t)l1;
    }
    return l0;
}

static INLINE uint32_t big_endian__store__to_word(uint32_t l1)
{
    uint32_t l0;
    l0 = core__int__i32__cast_unsigned(l1);
    return l0;
}

static INLINE void big_endian__store__put_int(slice_uint8_t l1, uint64_t l2, uint32_t l3)
{
    uint8_t *l5;
    slice_uint8_t l6;
    uint32_t l7;
    l5 = (uint8_t *)(void *)&(*l1.f0);
    l6 = (slice_uint8_t){.f0 = l5, .f1 = l1.f1};
    l7 = big_endian__store__to_word(l3);
    big_endian__store__put_word(l6, l2, l7);
    return;
}

static INLINE void big_endian__store__put_coordinate(slice_uint8_t l1, uint64_t l2, uint64_t l3)
{
    uint8_t *l5;
    slice_uint8_t l6;
    uint32_t l7;
    l5 = (uint8_t *)(void *)&(*l1.f0);
    l6 = (slice_uint8_t){.f0 = l5, .f1 = l1.f1};
    l7 = (uint32_t)l3;
    big_endian__store__put_int(l6, l2, l7);
    return;
}

static INLINE void big_endian__store__put_point(slice_uint8_t l1, uint64_t l2, type_sphere__point__Point l3)
{
    uint8_t *l5;
    slice_uint8_t l6;
    uint8_t *l7;
    slice_uint8_t l8;
    uint64_t l9;
    uint8_t *l10;
    slice_uint8_t l11;
    l5 = (uint8_t *)(void *)&(*l1.f0);
    l6 = (slice_uint8_t){.f0 = l5, .f1 = l1.f1};
    big_endian__store__put_coordinate(l6, l2, l3.f0);
    l7 = (uint8_t *)(void *)&(*l1.f0);
    l8 = (slice_uint8_t){.f0 = l7, .f1 = l1.f1};
    l9 = (l2 + UINT64_C(4));
    big_endian__store__put_coordinate(l8, l9, l3.f1);
    l10 = (uint8_t *)(void *)&(*l1.f0);
    l11 = (slice_uint8_t){.f0 = l10, .f1 = l1.f1};
    l9 = (l2 + UINT64_C(8));
    big_endian__store__put_coordinate(l11, l9, l3.f2);
    return;
}

static INLINE void sheet__store__put_place(slice_uint8_t l1, uint64_t l2, uint8_t l3, type_sphere__point__Point l4)
{
    uint8_t *l6;
    slice_uint8_t l7;
    uint8_t *l8;
    slice_uint8_t l9;
    uint64_t l10;
    l6 = (uint8_t *)(void *)&(*l1.f0);
    l7 = (slice_uint8_t){.f0 = l6, .f1 = l1.f1};
    sheet__store__put_head(l7, l2, l3, UINT32_C(12));
    l8 = (uint8_t *)(void *)&(*l1.f0);
    l9 = (slice_uint8_t){.f0 = l8, .f1 = l1.f1};
    l10 = (l2 + UINT64_C(3));
    big_endian__store__put_point(l9, l10, l4);
    return;
}

static INLINE void big_endian__store__put_ints(slice_uint8_t l1, uint64_t l2, slice_uint32_t l3)
{
    uint64_t l4;
    uint64_t l5;
    bool l6;
    uint8_t *l8;
    slice_uint8_t l9;
    uint64_t l10;
    uint64_t l11;
    uint64_t l12;
    unsigned char *l13;
    uint32_t l14;
    l4 = UINT64_C(0);
    l5 = l3.f1;
    for (;;) {
        l6 = (l4 < l5);
        if (l6) {
        } else {
            goto exit0;
        }
        l8 = (uint8_t *)(void *)&(*l1.f0);
        l9 = (slice_uint8_t){.f0 = l8, .f1 = l1.f1};
        l10 = (l4 << 2);
        l11 = (l2 + l10);
        l12 = (l4 << 2);
        l13 = ((unsigned char *)(void *)l3.f0 + (size_t)l12);
        l14 = (*(uint32_t *)(void *)l13);
        big_endian__store__put_int(l9, l11, l14);
        l4 = (l4 + UINT64_C(1));
    }
exit0:;
    return;
}

static INLINE void sheet__store__put_vertices(slice_uint8_t l1, uint64_t l2, type_sphere__point__Grid l3, slice_uint32_t l4)
{
    uint8_t *l6;
    slice_uint8_t l7;
    uint8_t l8;
    uint64_t l9;
    uint32_t l10;
    uint32_t l11;
    uint8_t *l12;
    slice_uint8_t l13;
    l6 = (uint8_t *)(void *)&(*l1.f0);
    l7 = (slice_uint8_t){.f0 = l6, .f1 = l1.f1};
    l8 = fields__tag(l3);
    l9 = l4.f1;
    l10 = (uint32_t)l9;
    l11 = (l10 << 2);
    sheet__store__put_head(l7, l2, l8, l11);
    l12 = (uint8_t *)(void *)&(*l1.f0);
    l13 = (slice_uint8_t){.f0 = l12, .f1 = l1.f1};
    l9 = (l2 + UINT64_C(3));
    big_endian__store__put_ints(l13, l9, l4);
    return;
}

static INLINE void sheet__store__put_second(slice_uint8_t l1, uint64_t l2, type_sphere__point__Point l3)
{
    bool l4;
    bool l5;
    uint8_t *l7;
    slice_uint8_t l8;
    l4 = sphere__point__is_null(l3);
    l5 = !l4;
    if (l5) {
        l7 = (uint8_t *)(void *)&(*l1.f0);
        l8 = (slice_uint8_t){.f0 = l7, .f1 = l1.f1};
        sheet__store__put_place(l8, l2, 6, l3);
    }
    return;
}

static void sheet__store__put_sheet(slice_uint8_t l1, uint32_t l2, uint32_t l3, slice_uint8_t l4, type_sphere__point__Point l5, type_sphere__point__Grid l6, slice_uint32_t l7, type_sphere__point__Point l8)
{
    uint64_t l9;
    uint8_t *l11;
    slice_uint8_t l12;
    uint8_t *l13;
    slice_uint8_t l14;
    uint8_t *l15;
    slice_uint8_t l16;
    uint64_t l17;
    uint8_t *l18;
    slice_uint8_t l19;
    uint8_t *l20;
    slice_uint8_t l21;
    uint8_t *l22;
    slice_uint8_t l23;
    uint64_t l24;
    uint64_t l25;
    uint64_t l26;
    l11 = (uint8_t *)(void *)&(*l1.f0);
    l12 = (slice_uint8_t){.f0 = l11, .f1 = l1.f1};
    sheet__store__put_zone(l12, l2);
    l13 = (uint8_t *)(void *)&(*l1.f0);
    l14 = (slice_uint8_t){.f0 = l13, .f1 = l1.f1};
    sheet__store__put_charset(l14, l3);
    l15 = (uint8_t *)(void *)&(*l1.f0);
    l16 = (slice_uint8_t){.f0 = l15, .f1 = l1.f1};
    sheet__store__put_name(l16, l4);
    l17 = l4.f1;
    l9 = (UINT64_C(14) + l17);
    l18 = (uint8_t *)(void *)&(*l1.f0);
    l19 = (slice_uint8_t){.f0 = l18, .f1 = l1.f1};
    sheet__store__put_place(l19, l9, 4, l5);
    l20 = (uint8_t *)(void *)&(*l1.f0);
    l21 = (slice_uint8_t){.f0 = l20, .f1 = l1.f1};
    l17 = (l9 + UINT64_C(15));
    sheet__store__put_vertices(l21, l17, l6, l7);
    l22 = (uint8_t *)(void *)&(*l1.f0);
    l23 = (slice_uint8_t){.f0 = l22, .f1 = l1.f1};
    l17 = (l9 + UINT64_C(18));
    l24 = l7.f1;
    l25 = (l24 << 2);
    l26 = (l17 + l25);
    sheet__store__put_second(l23, l26, l8);
    return;
}

static INLINE type_core__result__Result_of_Verdict_Refusal sheet__write__write(uint32_t l1, uint32_t l2, slice_uint8_t l3, type_sphere__point__GridPoint l4, type_sphere__point__Grid l5, slice_uint32_t l6, type_sphere__point__GridPoint l7, slice_uint8_t l8)
{
    type_core__result__Result_of_Verdict_Refusal l0;
    type_answer__Verdict l9;
    type_answer__Verdict l10;
    type_core__result__ErrResidual_of_Refusal l11;
    type_core__ops__ControlFlow_of_ErrResidual_Refusal_Verdict l12;
    type_core__result__Result_of_Verdict_Refusal l13;
    uint64_t l14;
    type_answer__Verdict l15;
    uint8_t *l17;
    slice_uint8_t l18;
    type_sphere__point__Point l19;
    type_sphere__point__Point l20;
    l14 = l8.f1;
    l13 = sheet__write__write_answer(l2, l3, l4, l5, l6, l7, l14);
    l12 = core__result__ResultTry__branch_of_Verdict_Refusal(l13);
    switch (l12.tag) {
    case 0: {
        l10 = l12.s0;
        l15 = l10;
        break;
    }
    case 1: default: {
        l11 = l12.s1;
        l0 = core__result__ResultFromResidualErrResidual__from_residual_of_Verdict_Refusal_Refusal(l11);
        return l0;
        break;
    }
    }
    l9 = l15;
    l17 = (uint8_t *)(void *)&(*l8.f0);
    l18 = (slice_uint8_t){.f0 = l17, .f1 = l8.f1};
    l19 = l4.f1;
    l20 = l7.f1;
    sheet__store__put_sheet(l18, l1, l2, l3, l19, l5, l6, l20);
    l0 = (type_core__result__Result_of_Verdict_Refusal){.tag = 0, .s0 = l9};
    return l0;
}

static INLINE type_core__result__Result_of_Verdict_Refusal geojson__import__write_plain(type_sphere__point__Grid l1, uint32_t l2, uint32_t l3, slice_uint8_t l4, type_sphere__point__Point l5, slice_uint32_t l6, slice_uint8_t l7)
{
    type_core__result__Result_of_Verdict_Refusal l0;
    type_sphere__point__GridPoint l8;
    type_sphere__point__GridPoint l9;
    type_sphere__point__Point l10;
    uint8_t *l11;
    slice_uint8_t l12;
    l8 = geojson__import__on_grid(l1, l5);
    l10 = (type_sphere__point__Point){.f0 = UINT64_C(0), .f1 = UINT64_C(0), .f2 = UINT64_C(0)};
    l9 = geojson__import__on_grid(l1, l10);
    l11 = (uint8_t *)(void *)&(*l7.f0);
    l12 = (slice_uint8_t){.f0 = l11, .f1 = l7.f1};
    l0 = sheet__write__write(l2, l3, l4, l8, l1, l6, l9, l12);
    return l0;
}

static APART type_core__result__Result_of_Verdict_Refusal geojson__import__import(type_sphere__point__Grid l1, slice_uint8_t l2, uint32_t l3, uint32_t l4, slice_uint8_t l5, type_sphere__point__Point l6, slice_uint8_t l7)
{
    type_core__result__Result_of_Verdict_Refusal l0;
    array_uint32_t_12291 l8;
    uint64_t l9;
    uint64_t l10;
    type_core__result__ErrResidual_of_Refusal l11;
    type_core__ops__ControlFlow_of_ErrResidual_Refusal_u64 l12;
    type_core__result__Result_of_u64_Refusal l13;
    array_uint32_t_12291 *l14;
    uint64_t l15;
    uint64_t l16;
    array_uint32_t_12291 *l17;
    slice_uint32_t l18;
    uint8_t *l19;
    slice_uint8_t l20;
    for (size_t i = 0; i < 12291; i++)
        l8.e[i] = UINT32_C(0);
    l14 = (array_uint32_t_12291 *)(void *)&l8;
    l13 = geojson__scan__scan(l1, l2, l14);
    l12 = core__result__ResultTry__branch_of_u64_Refusal(l13);
    switch (l12.tag) {
    case 0: {
        l10 = l12.s0;
        l15 = l10;
        break;
    }
    case 1: default: {
        l11 = l12.s1;
        l0 = core__result__ResultFromResidualErrResidual__from_residual_of_Verdict_Refusal_Refusal(l11);
        return l0;
        break;
    }
    }
    l9 = l15;
    l16 = geojson__import__list_size(l9);
    l17 = (array_uint32_t_12291 *)(void *)&l8;
    l18 = (slice_uint32_t){.f0 = (uint32_t *)(void *)l17, .f1 = l16};
    l19 = (uint8_t *)(void *)&(*l7.f0);
    l20 = (slice_uint8_t){.f0 = l19, .f1 = l7.f1};
    l0 = geojson__import__write_plain(l1, l3, l4, l5, l6, l18, l20);
    return l0;
}

static INLINE uint32_t spargolutta__imports__spg_import_number(slice_uint8_t l1, uint32_t l2, uint32_t l3, slice_uint8_t l4, uint32_t l5, uint32_t l6, uint32_t l7, slice_uint8_t l8)
{
    uint32_t l0;
    type_core__result__Result_of_Verdict_Refusal l9;
    type_sphere__point__Grid l10;
    type_sphere__point__Point l11;
    uint8_t *l12;
    slice_uint8_t l13;
    l10 = (type_sphere__point__Grid){.tag = 0};
    l11 = spargolutta__query(l5, l6, l7);
    l12 = (uint8_t *)(void *)&(*l8.f0);
    l13 = (slice_uint8_t){.f0 = l12, .f1 = l8.f1};
    l9 = geojson__import__import(l10, l1, l2, l3, l4, l11, l13);
    l0 = answer__number(l9);
    return l0;
}

static INLINE type_core__result__Result_of_Verdict_Refusal geojson__import__answer_plain(type_sphere__point__Grid l1, uint32_t l2, slice_uint8_t l3, type_sphere__point__Point l4, slice_uint32_t l5, uint64_t l6)
{
    type_core__result__Result_of_Verdict_Refusal l0;
    type_sphere__point__GridPoint l7;
    type_sphere__point__GridPoint l8;
    type_sphere__point__Point l9;
    l7 = geojson__import__on_grid(l1, l4);
    l9 = (type_sphere__point__Point){.f0 = UINT64_C(0), .f1 = UINT64_C(0), .f2 = UINT64_C(0)};
    l8 = geojson__import__on_grid(l1, l9);
    l0 = sheet__write__write_answer(l2, l3, l7, l1, l5, l8, l6);
    return l0;
}

static APART type_core__result__Result_of_Verdict_Refusal geojson__import__import_answer(type_sphere__point__Grid l1, slice_uint8_t l2, uint32_t l3, slice_uint8_t l4, type_sphere__point__Point l5, uint64_t l6)
{
    type_core__result__Result_of_Verdict_Refusal l0;
    array_uint32_t_12291 l7;
    uint64_t l8;
    uint64_t l9;
    type_core__result__ErrResidual_of_Refusal l10;
    type_core__ops__ControlFlow_of_ErrResidual_Refusal_u64 l11;
    type_core__result__Result_of_u64_Refusal l12;
    array_uint32_t_12291 *l13;
    uint64_t l14;
    uint64_t l15;
    array_uint32_t_12291 *l16;
    slice_uint32_t l17;
    for (size_t i = 0; i < 12291; i++)
        l7.e[i] = UINT32_C(0);
    l13 = (array_uint32_t_12291 *)(void *)&l7;
    l12 = geojson__scan__scan(l1, l2, l13);
    l11 = core__result__ResultTry__branch_of_u64_Refusal(l12);
    switch (l11.tag) {
    case 0: {
        l9 = l11.s0;
        l14 = l9;
        break;
    }
    case 1: default: {
        l10 = l11.s1;
        l0 = core__result__ResultFromResidualErrResidual__from_residual_of_Verdict_Refusal_Refusal(l10);
        return l0;
        break;
    }
    }
    l8 = l14;
    l15 = geojson__import__list_size(l8);
    l16 = (array_uint32_t_12291 *)(void *)&l7;
    l17 = (slice_uint32_t){.f0 = (uint32_t *)(void *)l16, .f1 = l15};
    l0 = geojson__import__answer_plain(l1, l3, l4, l5, l17, l6);
    return l0;
}

static INLINE uint64_t spargolutta__imports__spg_import_place(slice_uint8_t l1, uint32_t l2, uint32_t l3, slice_uint8_t l4, uint32_t l5, uint32_t l6, uint32_t l7, uint64_t l8)
{
    uint64_t l0;
    type_core__result__Result_of_Verdict_Refusal l9;
    type_sphere__point__Grid l10;
    type_sphere__point__Point l11;
    (void)l2;
    l10 = (type_sphere__point__Grid){.tag = 0};
    l11 = spargolutta__query(l5, l6, l7);
    l9 = geojson__import__import_answer(l10, l1, l3, l4, l11, l8);
    l0 = answer__place(l9);
    return l0;
}

static INLINE uint32_t spargolutta__imports__spg_import_fine_number(slice_uint8_t l1, uint32_t l2, uint32_t l3, slice_uint8_t l4, uint32_t l5, uint32_t l6, uint32_t l7, slice_uint8_t l8)
{
    uint32_t l0;
    type_core__result__Result_of_Verdict_Refusal l9;
    type_sphere__point__Grid l10;
    type_sphere__point__Point l11;
    uint8_t *l12;
    slice_uint8_t l13;
    l10 = (type_sphere__point__Grid){.tag = 1};
    l11 = spargolutta__query(l5, l6, l7);
    l12 = (uint8_t *)(void *)&(*l8.f0);
    l13 = (slice_uint8_t){.f0 = l12, .f1 = l8.f1};
    l9 = geojson__import__import(l10, l1, l2, l3, l4, l11, l13);
    l0 = answer__number(l9);
    return l0;
}

static INLINE uint64_t spargolutta__imports__spg_import_fine_place(slice_uint8_t l1, uint32_t l2, uint32_t l3, slice_uint8_t l4, uint32_t l5, uint32_t l6, uint32_t l7, uint64_t l8)
{
    uint64_t l0;
    type_core__result__Result_of_Verdict_Refusal l9;
    type_sphere__point__Grid l10;
    type_sphere__point__Point l11;
    (void)l2;
    l10 = (type_sphere__point__Grid){.tag = 1};
    l11 = spargolutta__query(l5, l6, l7);
    l9 = geojson__import__import_answer(l10, l1, l3, l4, l11, l8);
    l0 = answer__place(l9);
    return l0;
}

static INLINE uint32_t angles__point__point_number(uint32_t l1, uint32_t l2)
{
    uint32_t l0;
    bool l3;
    type_angles__point__Position l4;
    l4 = (type_angles__point__Position){.f0 = l1, .f1 = l2};
    l3 = angles__point__is_outside(l4);
    if (l3) {
        l0 = UINT32_C(31);
        return l0;
    }
    l0 = UINT32_C(0);
    return l0;
}

static INLINE uint32_t spargolutta__imports__spg_point_number(uint32_t l1, uint32_t l2)
{
    uint32_t l0;
    l0 = angles__point__point_number(l1, l2);
    return l0;
}

static INLINE type_angles__point__GridNumbers angles__point__grid_numbers(type_angles__point__Position l1)
{
    type_angles__point__GridNumbers l0;
    type_sphere__point__Grid l2;
    l2 = (type_sphere__point__Grid){.tag = 0};
    l0 = angles__point__numbers_on(l2, l1);
    return l0;
}

static INLINE type_angles__point__GridNumbers angles__point__point_of(uint32_t l1, uint32_t l2)
{
    type_angles__point__GridNumbers l0;
    type_angles__point__Position l3;
    l3 = (type_angles__point__Position){.f0 = l1, .f1 = l2};
    l0 = angles__point__grid_numbers(l3);
    return l0;
}

static INLINE uint32_t spargolutta__imports__spg_point_x(uint32_t l1, uint32_t l2)
{
    uint32_t l0;
    type_angles__point__GridNumbers l3;
    l3 = angles__point__point_of(l1, l2);
    l0 = l3.f0;
    return l0;
}

static INLINE uint32_t spargolutta__imports__spg_point_y(uint32_t l1, uint32_t l2)
{
    uint32_t l0;
    type_angles__point__GridNumbers l3;
    l3 = angles__point__point_of(l1, l2);
    l0 = l3.f1;
    return l0;
}

static INLINE uint32_t spargolutta__imports__spg_point_z(uint32_t l1, uint32_t l2)
{
    uint32_t l0;
    type_angles__point__GridNumbers l3;
    l3 = angles__point__point_of(l1, l2);
    l0 = l3.f2;
    return l0;
}

static INLINE uint32_t degrees__point_on_number(uint32_t l1, uint32_t l2, uint32_t l3)
{
    uint32_t l0;
    bool l4;
    l4 = (UINT32_C(1) < l3);
    if (l4) {
        l0 = UINT32_C(28);
        return l0;
    }
    l0 = angles__point__point_number(l1, l2);
    return l0;
}

static INLINE uint32_t spargolutta__imports__spg_point_on_number(uint32_t l1, uint32_t l2, uint32_t l3)
{
    uint32_t l0;
    l0 = degrees__point_on_number(l1, l2, l3);
    return l0;
}

static INLINE type_angles__point__GridNumbers degrees__point_on(uint32_t l1, uint32_t l2, uint32_t l3)
{
    type_angles__point__GridNumbers l0;
    bool l4;
    type_sphere__point__Grid l5;
    type_angles__point__Position l6;
    l4 = (UINT32_C(1) < l3);
    if (l4) {
        l0 = (type_angles__point__GridNumbers){.f0 = UINT32_C(0), .f1 = UINT32_C(0), .f2 = UINT32_C(0)};
        return l0;
    }
    l5 = sphere__point__grid_numbered(l3);
    l6 = (type_angles__point__Position){.f0 = l1, .f1 = l2};
    l0 = angles__point__numbers_on(l5, l6);
    return l0;
}

static INLINE uint32_t spargolutta__imports__spg_point_on_x(uint32_t l1, uint32_t l2, uint32_t l3)
{
    uint32_t l0;
    type_angles__point__GridNumbers l4;
    l4 = degrees__point_on(l1, l2, l3);
    l0 = l4.f0;
    return l0;
}

static INLINE uint32_t spargolutta__imports__spg_point_on_y(uint32_t l1, uint32_t l2, uint32_t l3)
{
    uint32_t l0;
    type_angles__point__GridNumbers l4;
    l4 = degrees__point_on(l1, l2, l3);
    l0 = l4.f1;
    return l0;
}

static INLINE uint32_t spargolutta__imports__spg_point_on_z(uint32_t l1, uint32_t l2, uint32_t l3)
{
    uint32_t l0;
    type_angles__point__GridNumbers l4;
    l4 = degrees__point_on(l1, l2, l3);
    l0 = l4.f2;
    return l0;
}

static INLINE type_core__result__Result_of_unit_Refusal degrees__points_check(slice_uint8_t l1, uint32_t l2, uint64_t l3)
{
    type_core__result__Result_of_unit_Refusal l0;
    uint64_t l4;
    uint64_t l5;
    uint64_t l6;
    bool l7;
    type_answer__Refusal l8;
    type_answer__Reason l9;
    type_answer__Refusal l10;
    type_answer__Reason l11;
    type_answer__Refusal l12;
    type_answer__Reason l13;
    l5 = l1.f1;
    l6 = (l5 / UINT64_C(8));
    l4 = (l6 * UINT64_C(12));
    l5 = l1.f1;
    l6 = (l5 % UINT64_C(8));
    l7 = (l6 != UINT64_C(0));
    if (l7) {
        l9 = (type_answer__Reason){.tag = 16};
        l8 = answer__Reason__at(l9, UINT64_C(0));
        l0 = (type_core__result__Result_of_unit_Refusal){.tag = 1, .s0 = l8};
        return l0;
    }
    l7 = (l3 < l4);
    if (l7) {
        l11 = (type_answer__Reason){.tag = 17};
        l10 = answer__Reason__at(l11, l4);
        l0 = (type_core__result__Result_of_unit_Refusal){.tag = 1, .s0 = l10};
        return l0;
    }
    l7 = (UINT32_C(1) < l2);
    if (l7) {
        l13 = (type_answer__Reason){.tag = 18};
        l12 = answer__Reason__at(l13, UINT64_C(0));
        l0 = (type_core__result__Result_of_unit_Refusal){.tag = 1, .s0 = l12};
        return l0;
    }
    l0 = (type_core__result__Result_of_unit_Refusal){.tag = 0};
    return l0;
}

static INLINE bool degrees__is_outside_at(slice_uint8_t l1, uint64_t l2)
{
    bool l0;
    uint32_t l3;
    uint32_t l4;
    uint64_t l5;
    uint32_t l6;
    uint64_t l7;
    uint64_t l8;
    l5 = (l2 << 3);
    l4 = big_endian__read__int_at(l1, l5);
    l7 = (l2 << 3);
    l8 = (l7 + UINT64_C(4));
    l6 = big_endian__read__int_at(l1, l8);
    l3 = angles__point__point_number(l4, l6);
    l0 = (l3 != UINT32_C(0));
    return l0;
}

static INLINE void degrees__put_numbers(slice_uint8_t l1, uint64_t l2, type_angles__point__GridNumbers l3)
{
    uint8_t *l5;
    slice_uint8_t l6;
    uint32_t l7;
    uint8_t *l8;
    slice_uint8_t l9;
    uint64_t l10;
    uint8_t *l11;
    slice_uint8_t l12;
    l5 = (uint8_t *)(void *)&(*l1.f0);
    l6 = (slice_uint8_t){.f0 = l5, .f1 = l1.f1};
    l7 = big_endian__store__to_word(l3.f0);
    big_endian__store__put_word(l6, l2, l7);
    l8 = (uint8_t *)(void *)&(*l1.f0);
    l9 = (slice_uint8_t){.f0 = l8, .f1 = l1.f1};
    l10 = (l2 + UINT64_C(4));
    l7 = big_endian__store__to_word(l3.f1);
    big_endian__store__put_word(l9, l10, l7);
    l11 = (uint8_t *)(void *)&(*l1.f0);
    l12 = (slice_uint8_t){.f0 = l11, .f1 = l1.f1};
    l10 = (l2 + UINT64_C(8));
    l7 = big_endian__store__to_word(l3.f2);
    big_endian__store__put_word(l12, l10, l7);
    return;
}

static void degrees__put_one(slice_uint8_t l1, type_sphere__point__Grid l2, uint64_t l3, slice_uint8_t l4)
{
    uint32_t l5;
    uint32_t l6;
    type_angles__point__GridNumbers l7;
    bool l8;
    uint8_t *l9;
    slice_uint8_t l10;
    uint64_t l11;
    type_angles__point__GridNumbers l12;
    uint64_t l13;
    uint64_t l14;
    type_angles__point__Position l15;
    uint8_t *l17;
    slice_uint8_t l18;
    l8 = degrees__is_outside_at(l1, l3);
    if (l8) {
        l9 = (uint8_t *)(void *)&(*l4.f0);
        l10 = (slice_uint8_t){.f0 = l9, .f1 = l4.f1};
        l11 = (l3 * UINT64_C(12));
        l12 = (type_angles__point__GridNumbers){.f0 = UINT32_C(0), .f1 = UINT32_C(0), .f2 = UINT32_C(0)};
        degrees__put_numbers(l10, l11, l12);
        return;
    }
    l13 = (l3 << 3);
    l5 = big_endian__read__int_at(l1, l13);
    l13 = (l3 << 3);
    l14 = (l13 + UINT64_C(4));
    l6 = big_endian__read__int_at(l1, l14);
    l15 = (type_angles__point__Position){.f0 = l5, .f1 = l6};
    l7 = angles__point__numbers_on(l2, l15);
    l17 = (uint8_t *)(void *)&(*l4.f0);
    l18 = (slice_uint8_t){.f0 = l17, .f1 = l4.f1};
    l13 = (l3 * UINT64_C(12));
    degrees__put_numbers(l18, l13, l7);
    return;
}

static INLINE void degrees__put_all_either(slice_uint8_t l1, type_sphere__point__Grid l2, slice_uint8_t l3)
{
    uint64_t l4;
    uint64_t l5;
    uint64_t l6;
    bool l7;
    uint8_t *l9;
    slice_uint8_t l10;
    l6 = l1.f1;
    l4 = (l6 / UINT64_C(8));
    l5 = UINT64_C(0);
    for (;;) {
        l7 = (l5 < l4);
        if (l7) {
        } else {
            goto exit0;
        }
        l9 = (uint8_t *)(void *)&(*l3.f0);
        l10 = (slice_uint8_t){.f0 = l9, .f1 = l3.f1};
        degrees__put_one(l1, l2, l5, l10);
        l5 = (l5 + UINT64_C(1));
    }
exit0:;
    return;
}

static INLINE void degrees__put_all(slice_uint8_t l1, type_sphere__point__Grid l2, slice_uint8_t l3)
{
    if (l2.tag == 0)
        degrees__put_all_either(l1, (type_sphere__point__Grid){.tag = 0}, l3);
    else
        degrees__put_all_either(l1, (type_sphere__point__Grid){.tag = 1}, l3);
}

static INLINE type_core__result__Result_of_Verdict_Refusal degrees__fill_points(slice_uint8_t l1, uint32_t l2, slice_uint8_t l3)
{
    type_core__result__Result_of_Verdict_Refusal l0;
    uint64_t l4;
    type_core__result__ErrResidual_of_Refusal l6;
    type_core__ops__ControlFlow_of_ErrResidual_Refusal_unit l7;
    type_core__result__Result_of_unit_Refusal l8;
    type_sphere__point__Grid l10;
    uint8_t *l11;
    slice_uint8_t l12;
    type_answer__Verdict l13;
    l4 = l3.f1;
    l8 = degrees__points_check(l1, l2, l4);
    l7 = core__result__ResultTry__branch_of_unit_Refusal(l8);
    switch (l7.tag) {
    case 0: {
        break;
    }
    case 1: default: {
        l6 = l7.s0;
        l0 = core__result__ResultFromResidualErrResidual__from_residual_of_Verdict_Refusal_Refusal(l6);
        return l0;
        break;
    }
    }
    l10 = sphere__point__grid_numbered(l2);
    l11 = (uint8_t *)(void *)&(*l3.f0);
    l12 = (slice_uint8_t){.f0 = l11, .f1 = l3.f1};
    degrees__put_all(l1, l10, l12);
    l13 = (type_answer__Verdict){.tag = 0, .s0 = UINT64_C(0)};
    l0 = (type_core__result__Result_of_Verdict_Refusal){.tag = 0, .s0 = l13};
    return l0;
}

static INLINE uint32_t spargolutta__imports__spg_points_number(slice_uint8_t l1, uint32_t l2, slice_uint8_t l3)
{
    uint32_t l0;
    type_core__result__Result_of_Verdict_Refusal l4;
    uint8_t *l5;
    slice_uint8_t l6;
    l5 = (uint8_t *)(void *)&(*l3.f0);
    l6 = (slice_uint8_t){.f0 = l5, .f1 = l3.f1};
    l4 = degrees__fill_points(l1, l2, l6);
    l0 = answer__number(l4);
    return l0;
}

static INLINE type_core__result__Result_of_Verdict_Refusal degrees__points_answer(slice_uint8_t l1, uint32_t l2, uint64_t l3)
{
    type_core__result__Result_of_Verdict_Refusal l0;
    type_core__result__ErrResidual_of_Refusal l5;
    type_core__ops__ControlFlow_of_ErrResidual_Refusal_unit l6;
    type_core__result__Result_of_unit_Refusal l7;
    type_answer__Verdict l8;
    l7 = degrees__points_check(l1, l2, l3);
    l6 = core__result__ResultTry__branch_of_unit_Refusal(l7);
    switch (l6.tag) {
    case 0: {
        break;
    }
    case 1: default: {
        l5 = l6.s0;
        l0 = core__result__ResultFromResidualErrResidual__from_residual_of_Verdict_Refusal_Refusal(l5);
        return l0;
        break;
    }
    }
    l8 = (type_answer__Verdict){.tag = 0, .s0 = UINT64_C(0)};
    l0 = (type_core__result__Result_of_Verdict_Refusal){.tag = 0, .s0 = l8};
    return l0;
}

static INLINE uint64_t spargolutta__imports__spg_points_place(slice_uint8_t l1, uint32_t l2, uint64_t l3)
{
    uint64_t l0;
    type_core__result__Result_of_Verdict_Refusal l4;
    l4 = degrees__points_answer(l1, l2, l3);
    l0 = answer__place(l4);
    return l0;
}

static INLINE uint64_t degrees__outside_at(slice_uint8_t l1, uint64_t l2)
{
    uint64_t l0;
    bool l3;
    l3 = degrees__is_outside_at(l1, l2);
    if (l3) {
        l0 = UINT64_C(1);
        return l0;
    }
    l0 = UINT64_C(0);
    return l0;
}

static INLINE uint64_t degrees__count_outside(slice_uint8_t l1)
{
    uint64_t l0;
    uint64_t l2;
    uint64_t l3;
    uint64_t l4;
    uint64_t l5;
    bool l6;
    uint64_t l7;
    l5 = l1.f1;
    l2 = (l5 / UINT64_C(8));
    l3 = UINT64_C(0);
    l4 = UINT64_C(0);
    for (;;) {
        l6 = (l4 < l2);
        if (l6) {
        } else {
            goto exit0;
        }
        l7 = degrees__outside_at(l1, l4);
        l3 = (l3 + l7);
        l4 = (l4 + UINT64_C(1));
    }
exit0:;
    l0 = l3;
    return l0;
}

static INLINE uint64_t degrees__points_count(slice_uint8_t l1, uint32_t l2, uint64_t l3)
{
    uint64_t l0;
    bool l4;
    type_core__result__Result_of_unit_Refusal l5;
    type_core__result__Result_of_unit_Refusal l6;
    type_core__result__Result_of_unit_Refusal *l7;
    l5 = degrees__points_check(l1, l2, l3);
    l6 = l5;
    l7 = (type_core__result__Result_of_unit_Refusal *)(void *)&l6;
    l4 = core__result__Result__is_err_of_unit_Refusal(l7);
    if (l4) {
        l0 = UINT64_C(0);
        return l0;
    }
    l0 = degrees__count_outside(l1);
    return l0;
}

static INLINE uint64_t spargolutta__imports__spg_points_count(slice_uint8_t l1, uint32_t l2, uint64_t l3)
{
    uint64_t l0;
    l0 = degrees__points_count(l1, l2, l3);
    return l0;
}

static INLINE type_sphere__point__Grid spargolutta__writing__point_grid(uint32_t l1)
{
    type_sphere__point__Grid l0;
    bool l2;
    l2 = (l1 == UINT32_C(1));
    if (l2) {
        l0 = (type_sphere__point__Grid){.tag = 1};
        return l0;
    }
    l0 = (type_sphere__point__Grid){.tag = 0};
    return l0;
}

static INLINE type_sphere__point__GridPoint spargolutta__writing__placed(uint32_t l1, type_sphere__point__Point l2)
{
    type_sphere__point__GridPoint l0;
    type_sphere__point__Grid l3;
    l3 = spargolutta__writing__point_grid(l1);
    l0 = (type_sphere__point__GridPoint){.f0 = l3, .f1 = l2};
    return l0;
}

static INLINE uint64_t spargolutta__writing__list_size(uint64_t l1)
{
    uint64_t l0;
    uint64_t l2;
    bool l3;
    l2 = (l1 % UINT64_C(12));
    l3 = (l2 != UINT64_C(0));
    if (l3) {
        l0 = UINT64_C(0);
        return l0;
    }
    l3 = (UINT64_C(49152) < l1);
    if (l3) {
        l0 = UINT64_C(0);
        return l0;
    }
    l2 = (l1 / UINT64_C(12));
    l0 = (l2 * UINT64_C(3));
    return l0;
}

static APART type_core__result__Result_of_Verdict_Refusal spargolutta__writing__write_list(uint32_t l1, uint32_t l2, slice_uint8_t l3, type_sphere__point__Point l4, type_sphere__point__Point l5, slice_uint8_t l6, uint32_t l7, slice_uint8_t l8)
{
    type_core__result__Result_of_Verdict_Refusal l0;
    type_sphere__point__GridPoint l9;
    type_sphere__point__GridPoint l10;
    type_sphere__point__Grid l11;
    uint64_t l12;
    array_uint32_t_12288 l13;
    uint64_t l14;
    array_uint32_t_12288 *l16;
    slice_uint32_t l17;
    array_uint32_t_12288 *l18;
    slice_uint32_t l19;
    uint8_t *l20;
    slice_uint8_t l21;
    l9 = spargolutta__writing__placed(l7, l4);
    l10 = spargolutta__writing__placed(l7, l5);
    l11 = sphere__point__grid_numbered(l7);
    l14 = l6.f1;
    l12 = spargolutta__writing__list_size(l14);
    for (size_t i = 0; i < 12288; i++)
        l13.e[i] = UINT32_C(0);
    l16 = (array_uint32_t_12288 *)(void *)&l13;
    l17 = (slice_uint32_t){.f0 = (uint32_t *)(void *)l16, .f1 = UINT64_C(12288)};
    big_endian__read__decode(l6, UINT64_C(0), l12, l17);
    l18 = (array_uint32_t_12288 *)(void *)&l13;
    l19 = (slice_uint32_t){.f0 = (uint32_t *)(void *)l18, .f1 = l12};
    l20 = (uint8_t *)(void *)&(*l8.f0);
    l21 = (slice_uint8_t){.f0 = l20, .f1 = l8.f1};
    l0 = sheet__write__write(l1, l2, l3, l9, l11, l19, l10, l21);
    return l0;
}

static INLINE uint32_t spargolutta__writing__spg_write_number(uint32_t l1, uint32_t l2, slice_uint8_t l3, uint32_t l4, uint32_t l5, uint32_t l6, uint32_t l7, uint32_t l8, uint32_t l9, slice_uint8_t l10, uint32_t l11, slice_uint8_t l12)
{
    uint32_t l0;
    type_sphere__point__Point l13;
    type_sphere__point__Point l14;
    type_core__result__Result_of_Verdict_Refusal l15;
    uint8_t *l16;
    slice_uint8_t l17;
    l13 = spargolutta__query(l4, l5, l6);
    l14 = spargolutta__query(l7, l8, l9);
    l16 = (uint8_t *)(void *)&(*l12.f0);
    l17 = (slice_uint8_t){.f0 = l16, .f1 = l12.f1};
    l15 = spargolutta__writing__write_list(l1, l2, l3, l13, l14, l10, l11, l17);
    l0 = answer__number(l15);
    return l0;
}

static APART type_core__result__Result_of_Verdict_Refusal spargolutta__writing__answer_list(uint32_t l1, slice_uint8_t l2, type_sphere__point__Point l3, type_sphere__point__Point l4, slice_uint8_t l5, uint32_t l6, uint64_t l7)
{
    type_core__result__Result_of_Verdict_Refusal l0;
    type_sphere__point__GridPoint l8;
    type_sphere__point__GridPoint l9;
    type_sphere__point__Grid l10;
    uint64_t l11;
    array_uint32_t_12288 l12;
    uint64_t l13;
    array_uint32_t_12288 *l15;
    slice_uint32_t l16;
    array_uint32_t_12288 *l17;
    slice_uint32_t l18;
    l8 = spargolutta__writing__placed(l6, l3);
    l9 = spargolutta__writing__placed(l6, l4);
    l10 = sphere__point__grid_numbered(l6);
    l13 = l5.f1;
    l11 = spargolutta__writing__list_size(l13);
    for (size_t i = 0; i < 12288; i++)
        l12.e[i] = UINT32_C(0);
    l15 = (array_uint32_t_12288 *)(void *)&l12;
    l16 = (slice_uint32_t){.f0 = (uint32_t *)(void *)l15, .f1 = UINT64_C(12288)};
    big_endian__read__decode(l5, UINT64_C(0), l11, l16);
    l17 = (array_uint32_t_12288 *)(void *)&l12;
    l18 = (slice_uint32_t){.f0 = (uint32_t *)(void *)l17, .f1 = l11};
    l0 = sheet__write__write_answer(l1, l2, l8, l10, l18, l9, l7);
    return l0;
}

static INLINE uint64_t spargolutta__writing__spg_write_place(uint32_t l1, uint32_t l2, slice_uint8_t l3, uint32_t l4, uint32_t l5, uint32_t l6, uint32_t l7, uint32_t l8, uint32_t l9, slice_uint8_t l10, uint32_t l11, uint64_t l12)
{
    uint64_t l0;
    type_sphere__point__Point l13;
    type_sphere__point__Point l14;
    type_core__result__Result_of_Verdict_Refusal l15;
    (void)l1;
    l13 = spargolutta__query(l4, l5, l6);
    l14 = spargolutta__query(l7, l8, l9);
    l15 = spargolutta__writing__answer_list(l2, l3, l13, l14, l10, l11, l12);
    l0 = answer__place(l15);
    return l0;
}

static INLINE uint32_t spargolutta__reading__spg_sheet_number(slice_uint8_t l1)
{
    uint32_t l0;
    type_sheet__read__Sheet l2;
    type_core__result__Result_of_Verdict_Refusal l3;
    l2 = sheet__read__read(l1);
    l3 = l2.f0;
    l0 = answer__number(l3);
    return l0;
}

static INLINE uint64_t spargolutta__reading__spg_sheet_place(slice_uint8_t l1)
{
    uint64_t l0;
    type_sheet__read__Sheet l2;
    type_core__result__Result_of_Verdict_Refusal l3;
    l2 = sheet__read__read(l1);
    l3 = l2.f0;
    l0 = answer__place(l3);
    return l0;
}

static INLINE uint32_t spargolutta__reading__spg_sheet_zone(slice_uint8_t l1)
{
    uint32_t l0;
    type_sheet__read__Sheet l2;
    l2 = sheet__read__read(l1);
    l0 = l2.f1;
    return l0;
}

static INLINE uint32_t spargolutta__reading__spg_sheet_charset(slice_uint8_t l1)
{
    uint32_t l0;
    type_sheet__read__Sheet l2;
    l2 = sheet__read__read(l1);
    l0 = l2.f2;
    return l0;
}

static INLINE uint64_t spargolutta__reading__spg_sheet_name_place(slice_uint8_t l1)
{
    uint64_t l0;
    type_sheet__read__Sheet l2;
    l2 = sheet__read__read(l1);
    l0 = l2.f3;
    return l0;
}

static INLINE uint64_t spargolutta__reading__spg_sheet_name_length(slice_uint8_t l1)
{
    uint64_t l0;
    type_sheet__read__Sheet l2;
    l2 = sheet__read__read(l1);
    l0 = l2.f4;
    return l0;
}

static INLINE uint32_t spargolutta__reading__narrow(uint64_t l1)
{
    uint32_t l0;
    l0 = (uint32_t)l1;
    return l0;
}

static INLINE type_angles__point__GridNumbers spargolutta__reading__numbers(type_sphere__point__Point l1)
{
    type_angles__point__GridNumbers l0;
    uint32_t l2;
    uint32_t l3;
    uint32_t l4;
    l2 = spargolutta__reading__narrow(l1.f0);
    l3 = spargolutta__reading__narrow(l1.f1);
    l4 = spargolutta__reading__narrow(l1.f2);
    l0 = (type_angles__point__GridNumbers){.f0 = l2, .f1 = l3, .f2 = l4};
    return l0;
}

static INLINE type_angles__point__GridNumbers spargolutta__reading__known(slice_uint8_t l1)
{
    type_angles__point__GridNumbers l0;
    type_sheet__read__Sheet l2;
    type_sphere__point__Point l3;
    l2 = sheet__read__read(l1);
    l3 = l2.f5;
    l0 = spargolutta__reading__numbers(l3);
    return l0;
}

static INLINE uint32_t spargolutta__reading__spg_sheet_known_x(slice_uint8_t l1)
{
    uint32_t l0;
    type_angles__point__GridNumbers l2;
    l2 = spargolutta__reading__known(l1);
    l0 = l2.f0;
    return l0;
}

static INLINE uint32_t spargolutta__reading__spg_sheet_known_y(slice_uint8_t l1)
{
    uint32_t l0;
    type_angles__point__GridNumbers l2;
    l2 = spargolutta__reading__known(l1);
    l0 = l2.f1;
    return l0;
}

static INLINE uint32_t spargolutta__reading__spg_sheet_known_z(slice_uint8_t l1)
{
    uint32_t l0;
    type_angles__point__GridNumbers l2;
    l2 = spargolutta__reading__known(l1);
    l0 = l2.f2;
    return l0;
}

static INLINE type_angles__point__GridNumbers spargolutta__reading__second(slice_uint8_t l1)
{
    type_angles__point__GridNumbers l0;
    type_sheet__read__Sheet l2;
    type_sphere__point__Point l3;
    l2 = sheet__read__read(l1);
    l3 = l2.f7;
    l0 = spargolutta__reading__numbers(l3);
    return l0;
}

static INLINE uint32_t spargolutta__reading__spg_sheet_second_x(slice_uint8_t l1)
{
    uint32_t l0;
    type_angles__point__GridNumbers l2;
    l2 = spargolutta__reading__second(l1);
    l0 = l2.f0;
    return l0;
}

static INLINE uint32_t spargolutta__reading__spg_sheet_second_y(slice_uint8_t l1)
{
    uint32_t l0;
    type_angles__point__GridNumbers l2;
    l2 = spargolutta__reading__second(l1);
    l0 = l2.f1;
    return l0;
}

static INLINE uint32_t spargolutta__reading__spg_sheet_second_z(slice_uint8_t l1)
{
    uint32_t l0;
    type_angles__point__GridNumbers l2;
    l2 = spargolutta__reading__second(l1);
    l0 = l2.f2;
    return l0;
}

static INLINE uint32_t spargolutta__reading__spg_sheet_grid(slice_uint8_t l1)
{
    uint32_t l0;
    type_sheet__read__Sheet l2;
    type_sphere__point__Grid l3;
    l2 = sheet__read__read(l1);
    l3 = l2.f8;
    l0 = book__which__grid_number(l3);
    return l0;
}

static INLINE uint64_t spargolutta__reading__spg_sheet_vertices(slice_uint8_t l1)
{
    uint64_t l0;
    type_sheet__read__Sheet l2;
    l2 = sheet__read__read(l1);
    l0 = l2.f6;
    return l0;
}

static INLINE type_core__result__Result_of_Opened_Refusal spargolutta__filling__fillable(slice_uint8_t l1, uint64_t l2)
{
    type_core__result__Result_of_Opened_Refusal l0;
    type_sheet__open__Opened l3;
    type_sheet__open__Opened l4;
    type_core__result__ErrResidual_of_Refusal l5;
    uint64_t l6;
    type_core__ops__ControlFlow_of_ErrResidual_Refusal_Opened l7;
    type_core__result__Result_of_Opened_Refusal l8;
    type_sheet__open__Opened l9;
    bool l10;
    type_answer__Refusal l11;
    type_answer__Reason l12;
    l8 = sheet__read__opened(l1);
    l7 = core__result__ResultTry__branch_of_Opened_Refusal(l8);
    switch (l7.tag) {
    case 0: {
        l4 = l7.s0;
        l9 = l4;
        break;
    }
    case 1: default: {
        l5 = l7.s1;
        l0 = core__result__ResultFromResidualErrResidual__from_residual_of_Opened_Refusal_Refusal(l5);
        return l0;
        break;
    }
    }
    l3 = l9;
    l6 = (l3.f4 * UINT64_C(12));
    l10 = (l2 < l6);
    if (l10) {
        l12 = (type_answer__Reason){.tag = 17};
        l11 = answer__Reason__at(l12, l6);
        l0 = (type_core__result__Result_of_Opened_Refusal){.tag = 1, .s1 = l11};
        return l0;
    }
    l0 = (type_core__result__Result_of_Opened_Refusal){.tag = 0, .s0 = l3};
    return l0;
}

static INLINE uint32_t spargolutta__filling__spg_vertices_number(slice_uint8_t l1, slice_uint8_t l2)
{
    uint32_t l0;
    type_sheet__open__Opened l3;
    type_answer__Refusal l4;
    type_core__result__Result_of_Opened_Refusal l5;
    uint64_t l6;
    uint8_t *l9;
    slice_uint8_t l10;
    slice_uint8_t l11;
    type_answer__Reason l12;
    l6 = l2.f1;
    l5 = spargolutta__filling__fillable(l1, l6);
    switch (l5.tag) {
    case 0: {
        l3 = l5.s0;
        l9 = (uint8_t *)(void *)&(*l2.f0);
        l10 = (slice_uint8_t){.f0 = l9, .f1 = l2.f1};
        l11 = sheet__open__vertices_in(l1, l3.f5, l3.f4);
        big_endian__store__put_bytes(l10, UINT64_C(0), l11);
        l0 = UINT32_C(0);
        break;
    }
    case 1: default: {
        l4 = l5.s1;
        l12 = l4.f0;
        l0 = answer__Reason__number(l12);
        break;
    }
    }
    return l0;
}

static INLINE uint64_t spargolutta__filling__spg_vertices_place(slice_uint8_t l1, uint64_t l2)
{
    uint64_t l0;
    type_answer__Refusal l3;
    type_core__result__Result_of_Opened_Refusal l4;
    l4 = spargolutta__filling__fillable(l1, l2);
    switch (l4.tag) {
    case 0: {
        l0 = UINT64_C(0);
        break;
    }
    case 1: default: {
        l3 = l4.s1;
        l0 = l3.f1;
        break;
    }
    }
    return l0;
}

static INLINE type_core__result__Result_of_Extent_Refusal core__result__ResultFromResidualErrResidual__from_residual_of_Extent_Refusal_Refusal(type_core__result__ErrResidual_of_Refusal l1)
{
    type_core__result__Result_of_Extent_Refusal l0;
    type_answer__Refusal l2;
    type_answer__Refusal l3;
    l3 = l1.f0;
    l2 = core__convert__AnyFrom__from_of_Refusal(l3);
    l0 = (type_core__result__Result_of_Extent_Refusal){.tag = 1, .s1 = l2};
    return l0;
}

static bool extent__sides__is_fronted(slice_uint32_t l1)
{
    bool l0;
    bool l2;
    bool l3;
    bool l4;
    bool l5;
    bool l6;
    type_sphere__point__Point l7;
    type_sphere__point__Point l8;
    type_sphere__point__Point l9;
    type_sphere__point__Point l10;
    type_sphere__point__Point l11;
    type_sphere__point__Point l12;
    l7 = (type_sphere__point__Point){.f0 = UINT64_C(1), .f1 = UINT64_C(0), .f2 = UINT64_C(0)};
    l6 = separation__planes__is_ahead(l1, l7);
    if (l6) {
    } else {
        l8 = (type_sphere__point__Point){.f0 = UINT64_C(18446744073709551615), .f1 = UINT64_C(0), .f2 = UINT64_C(0)};
        l6 = separation__planes__is_ahead(l1, l8);
    }
    l5 = l6;
    if (l5) {
    } else {
        l9 = (type_sphere__point__Point){.f0 = UINT64_C(0), .f1 = UINT64_C(1), .f2 = UINT64_C(0)};
        l5 = separation__planes__is_ahead(l1, l9);
    }
    l4 = l5;
    if (l4) {
    } else {
        l10 = (type_sphere__point__Point){.f0 = UINT64_C(0), .f1 = UINT64_C(18446744073709551615), .f2 = UINT64_C(0)};
        l4 = separation__planes__is_ahead(l1, l10);
    }
    l3 = l4;
    if (l3) {
    } else {
        l11 = (type_sphere__point__Point){.f0 = UINT64_C(0), .f1 = UINT64_C(0), .f2 = UINT64_C(1)};
        l3 = separation__planes__is_ahead(l1, l11);
    }
    l2 = l3;
    if (l2) {
    } else {
        l12 = (type_sphere__point__Point){.f0 = UINT64_C(0), .f1 = UINT64_C(0), .f2 = UINT64_C(18446744073709551615)};
        l2 = separation__planes__is_ahead(l1, l12);
    }
    l0 = l2;
    return l0;
}

static INLINE bool extent__measure__is_outside(type_core__result__Result_of_Verdict_Refusal l1)
{
    bool l0;
    switch (l1.tag) {
    case 0: {
        switch (l1.s0.tag) {
        case 2: {
            l0 = true;
            goto exit0;
            break;
        }
        case 0: case 1: case 3: default: {
            goto exit1;
            break;
        }
        }
        break;
    }
    case 1: default: {
        goto exit1;
        break;
    }
    }
exit1:;
    l0 = false;
exit0:;
    return l0;
}

static INLINE bool extent__measure__is_bounded(slice_uint32_t l1, type_core__result__Result_of_Verdict_Refusal l2)
{
    bool l0;
    bool l3;
    l3 = extent__sides__is_fronted(l1);
    if (l3) {
        l3 = extent__measure__is_outside(l2);
    }
    l0 = l3;
    return l0;
}

static INLINE double separation__hints__step(uint64_t l1)
{
    double l0;
    bool l2;
    bool l4;
    double l5;
    l2 = (signed64(UINT64_C(0)) < signed64(l1));
    if (l2) {
        l0 = (0x1.0000000000000p+0);
    } else {
        l4 = (signed64(l1) < signed64(UINT64_C(0)));
        if (l4) {
            l5 = (-(0x1.0000000000000p+0));
        } else {
            l5 = (0x0.0p+0);
        }
        l0 = l5;
    }
    return l0;
}

static INLINE type_separation__find__Vector separation__hints__along(type_sphere__point__Point l1, double l2)
{
    type_separation__find__Vector l0;
    double l3;
    double l4;
    double l5;
    double l6;
    double l7;
    double l8;
    l3 = separation__hints__step(l1.f0);
    l4 = (l2 * l3);
    l5 = separation__hints__step(l1.f1);
    l6 = (l2 * l5);
    l7 = separation__hints__step(l1.f2);
    l8 = (l2 * l7);
    l0 = (type_separation__find__Vector){.f0 = l4, .f1 = l6, .f2 = l8};
    return l0;
}

static INLINE double separation__hints__least_share(slice_uint32_t l1, type_separation__find__Vector l2, type_separation__find__Vector l3, type_separation__find__Vector l4)
{
    double l0;
    double l5;
    uint64_t l6;
    uint64_t l7;
    double l8;
    uint64_t l9;
    bool l10;
    double l11;
    double l12;
    double l13;
    double l14;
    l5 = (0x1.0000000000000p+1);
    l9 = l1.f1;
    l6 = (l9 / UINT64_C(3));
    l7 = UINT64_C(0);
    for (;;) {
        l10 = (l7 < l6);
        if (l10) {
        } else {
            goto exit0;
        }
        l12 = separation__find__dot_at(l1, l7, l3);
        l11 = separation__find__size(l12);
        l14 = separation__find__dot_at(l1, l7, l4);
        l13 = separation__find__size(l14);
        l8 = separation__find__larger(l11, l13);
        l11 = separation__find__dot_at(l1, l7, l2);
        l14 = (l11 / l8);
        l5 = separation__find__smaller(l5, l14);
        l7 = (l7 + UINT64_C(1));
    }
exit0:;
    l0 = l5;
    return l0;
}

static INLINE double separation__hints__least_ratio(slice_uint32_t l1, type_separation__find__Vector l2, type_separation__find__Vector l3)
{
    double l0;
    double l4;
    uint64_t l5;
    uint64_t l6;
    double l7;
    uint64_t l8;
    bool l9;
    double l10;
    double l11;
    l4 = (0x1.0000000000000p+0);
    l8 = l1.f1;
    l5 = (l8 / UINT64_C(3));
    l6 = UINT64_C(0);
    for (;;) {
        l9 = (l6 < l5);
        if (l9) {
        } else {
            goto exit0;
        }
        l7 = separation__find__dot_at(l1, l6, l3);
        l9 = (l7 <= (0x0.0p+0));
        if (l9) {
            l0 = (-(0x1.0000000000000p+1));
            return l0;
        }
        l10 = separation__find__dot_at(l1, l6, l2);
        l11 = (l10 / l7);
        l4 = separation__find__smaller(l4, l11);
        l6 = (l6 + UINT64_C(1));
    }
exit0:;
    l0 = l4;
    return l0;
}

static uint64_t separation__hints__bound_hint(slice_uint32_t l1, type_sphere__point__Point l2, type_sphere__point__Point l3, type_sphere__point__Point l4)
{
    uint64_t l0;
    type_separation__find__Vector l5;
    double l6;
    double l7;
    double l8;
    type_separation__find__Vector l9;
    type_separation__find__Vector l10;
    bool l11;
    double l12;
    double l13;
    double l14;
    double l15;
    double l16;
    l5 = separation__hints__along(l2, (0x1.0000000000000p+0));
    l9 = separation__hints__along(l3, (0x1.0000000000000p+0));
    l10 = separation__hints__along(l4, (0x1.0000000000000p+0));
    l6 = separation__hints__least_share(l1, l5, l9, l10);
    l11 = ((0x1.0000002af31dcp+0) < l6);
    if (l11) {
        l0 = UINT64_C(1073741824);
        return l0;
    }
    l11 = ((0x0.0p+0) < l6);
    if (l11) {
        l12 = (l6 * (0x1.0000000000000p+30));
        l13 = (l12 - (0x1.0c6f7a0b5ed8dp-20));
        l0 = separation__find__whole(l13);
        return l0;
    }
    l9 = separation__hints__along(l3, (0x1.0000000000000p+0));
    l14 = separation__hints__least_ratio(l1, l5, l9);
    l16 = (-(0x1.0000000000000p+0));
    l10 = separation__hints__along(l3, l16);
    l15 = separation__hints__least_ratio(l1, l5, l10);
    l7 = separation__find__larger(l14, l15);
    l9 = separation__hints__along(l4, (0x1.0000000000000p+0));
    l14 = separation__hints__least_ratio(l1, l5, l9);
    l15 = (-(0x1.0000000000000p+0));
    l10 = separation__hints__along(l4, l15);
    l16 = separation__hints__least_ratio(l1, l5, l10);
    l8 = separation__find__larger(l14, l16);
    l14 = separation__find__larger(l7, l8);
    l15 = (l14 * (0x1.0000000000000p+30));
    l16 = (l15 - (0x1.000010c6f7a0bp+0));
    l0 = separation__find__whole(l16);
    return l0;
}

static INLINE bool separation__axes__is_far(uint64_t l1)
{
    bool l0;
    bool l2;
    l2 = (signed64(l1) < signed64(UINT64_C(18446744072635809792)));
    if (l2) {
    } else {
        l2 = (signed64(UINT64_C(1073741824)) < signed64(l1));
    }
    l0 = l2;
    return l0;
}

static INLINE type_sphere__point__Point separation__axes__plane(type_sphere__point__Point l1, type_sphere__point__Point l2, uint64_t l3)
{
    type_sphere__point__Point l0;
    uint64_t l4;
    uint64_t l5;
    uint64_t l6;
    uint64_t l7;
    uint64_t l8;
    uint64_t l9;
    uint64_t l10;
    uint64_t l11;
    uint64_t l12;
    l4 = (UINT64_C(1073741824) * l1.f0);
    l5 = (l3 * l2.f0);
    l6 = (l4 - l5);
    l7 = (UINT64_C(1073741824) * l1.f1);
    l8 = (l3 * l2.f1);
    l9 = (l7 - l8);
    l10 = (UINT64_C(1073741824) * l1.f2);
    l11 = (l3 * l2.f2);
    l12 = (l10 - l11);
    l0 = (type_sphere__point__Point){.f0 = l6, .f1 = l9, .f2 = l12};
    return l0;
}

static INLINE bool separation__axes__clears(slice_uint32_t l1, type_sphere__point__Point l2, type_sphere__point__Point l3, uint64_t l4)
{
    bool l0;
    type_sphere__point__Point l5;
    l5 = separation__axes__plane(l2, l3, l4);
    l0 = separation__planes__is_ahead(l1, l5);
    return l0;
}

static INLINE uint64_t separation__axes__opposite(uint64_t l1)
{
    uint64_t l0;
    l0 = (UINT64_C(0) - l1);
    return l0;
}

static INLINE bool separation__axes__clears_all(slice_uint32_t l1, type_sphere__point__Point l2, type_sphere__point__Point l3, type_sphere__point__Point l4, uint64_t l5)
{
    bool l0;
    bool l6;
    bool l7;
    bool l8;
    uint64_t l9;
    uint64_t l10;
    l8 = separation__axes__clears(l1, l2, l3, l5);
    if (l8) {
        l9 = separation__axes__opposite(l5);
        l8 = separation__axes__clears(l1, l2, l3, l9);
    }
    l7 = l8;
    if (l7) {
        l7 = separation__axes__clears(l1, l2, l4, l5);
    }
    l6 = l7;
    if (l6) {
        l10 = separation__axes__opposite(l5);
        l6 = separation__axes__clears(l1, l2, l4, l10);
    }
    l0 = l6;
    return l0;
}

static uint64_t separation__axes__forward(slice_uint32_t l1, type_sphere__point__Point l2, type_sphere__point__Point l3, type_sphere__point__Point l4, uint64_t l5)
{
    uint64_t l0;
    bool l7;
    bool l8;
    bool l9;
    bool l10;
    l9 = separation__axes__is_far(l5);
    l8 = !l9;
    if (l8) {
        l8 = (signed64(UINT64_C(0)) < signed64(l5));
        l7 = l8;
        if (l7) {
            l7 = separation__axes__clears_all(l1, l2, l3, l4, l5);
            l10 = l7;
            if (l10) {
                l0 = l5;
                goto exit0;
            }
        }
    }
    l0 = UINT64_C(0);
exit0:;
    return l0;
}

static INLINE bool separation__axes__clears_any(slice_uint32_t l1, type_sphere__point__Point l2, type_sphere__point__Point l3, type_sphere__point__Point l4, uint64_t l5)
{
    bool l0;
    bool l6;
    bool l7;
    bool l8;
    uint64_t l9;
    uint64_t l10;
    l8 = separation__axes__clears(l1, l2, l3, l5);
    if (l8) {
    } else {
        l9 = separation__axes__opposite(l5);
        l8 = separation__axes__clears(l1, l2, l3, l9);
    }
    l7 = l8;
    if (l7) {
    } else {
        l7 = separation__axes__clears(l1, l2, l4, l5);
    }
    l6 = l7;
    if (l6) {
    } else {
        l10 = separation__axes__opposite(l5);
        l6 = separation__axes__clears(l1, l2, l4, l10);
    }
    l0 = l6;
    return l0;
}

static uint64_t separation__axes__beside(slice_uint32_t l1, type_sphere__point__Point l2, type_sphere__point__Point l3, type_sphere__point__Point l4, uint64_t l5)
{
    uint64_t l0;
    bool l7;
    bool l8;
    bool l9;
    bool l10;
    l9 = separation__axes__is_far(l5);
    l8 = !l9;
    if (l8) {
        l8 = (signed64(l5) <= signed64(UINT64_C(0)));
        l7 = l8;
        if (l7) {
            l7 = separation__axes__clears_any(l1, l2, l3, l4, l5);
            l10 = l7;
            if (l10) {
                l0 = l5;
                goto exit0;
            }
        }
    }
    l0 = UINT64_C(18446744072635809792);
exit0:;
    return l0;
}

static INLINE uint64_t separation__axes__bound(slice_uint32_t l1, type_sphere__point__Point l2, type_sphere__point__Point l3, type_sphere__point__Point l4)
{
    uint64_t l0;
    uint64_t l5;
    bool l6;
    l5 = separation__hints__bound_hint(l1, l2, l3, l4);
    l6 = separation__planes__is_ahead(l1, l2);
    if (l6) {
        l0 = separation__axes__forward(l1, l2, l3, l4, l5);
    } else {
        l0 = separation__axes__beside(l1, l2, l3, l4, l5);
    }
    return l0;
}

static INLINE type_sphere__point__Point extent__sides__bounds(slice_uint32_t l1, uint64_t l2)
{
    type_sphere__point__Point l0;
    type_sphere__point__Point l3;
    type_sphere__point__Point l4;
    type_sphere__point__Point l5;
    type_sphere__point__Point l6;
    type_sphere__point__Point l7;
    type_sphere__point__Point l8;
    uint64_t l9;
    uint64_t l10;
    uint64_t l11;
    l3 = (type_sphere__point__Point){.f0 = UINT64_C(1), .f1 = UINT64_C(0), .f2 = UINT64_C(0)};
    l4 = (type_sphere__point__Point){.f0 = UINT64_C(0), .f1 = UINT64_C(1), .f2 = UINT64_C(0)};
    l5 = (type_sphere__point__Point){.f0 = UINT64_C(0), .f1 = UINT64_C(0), .f2 = UINT64_C(1)};
    l6 = (type_sphere__point__Point){.f0 = l2, .f1 = UINT64_C(0), .f2 = UINT64_C(0)};
    l7 = (type_sphere__point__Point){.f0 = UINT64_C(0), .f1 = l2, .f2 = UINT64_C(0)};
    l8 = (type_sphere__point__Point){.f0 = UINT64_C(0), .f1 = UINT64_C(0), .f2 = l2};
    l9 = separation__axes__bound(l1, l6, l4, l5);
    l10 = separation__axes__bound(l1, l7, l5, l3);
    l11 = separation__axes__bound(l1, l8, l3, l4);
    l0 = (type_sphere__point__Point){.f0 = l9, .f1 = l10, .f2 = l11};
    return l0;
}

static INLINE type_sphere__point__Point extent__sides__turned(type_sphere__point__Point l1)
{
    type_sphere__point__Point l0;
    uint64_t l2;
    uint64_t l3;
    uint64_t l4;
    l2 = separation__axes__opposite(l1.f0);
    l3 = separation__axes__opposite(l1.f1);
    l4 = separation__axes__opposite(l1.f2);
    l0 = (type_sphere__point__Point){.f0 = l2, .f1 = l3, .f2 = l4};
    return l0;
}

static type_extent__sides__Sides extent__sides__sides_of(slice_uint32_t l1)
{
    type_extent__sides__Sides l0;
    type_sphere__point__Point l2;
    type_sphere__point__Point l3;
    type_sphere__point__Point l4;
    l2 = extent__sides__bounds(l1, UINT64_C(1));
    l4 = extent__sides__bounds(l1, UINT64_C(18446744073709551615));
    l3 = extent__sides__turned(l4);
    l0 = (type_extent__sides__Sides){.f0 = l2, .f1 = l3};
    return l0;
}

static INLINE type_core__option__Option_of_Sides extent__measure__own_box(slice_uint32_t l1, type_core__result__Result_of_Verdict_Refusal l2)
{
    type_core__option__Option_of_Sides l0;
    bool l3;
    type_extent__sides__Sides l4;
    l3 = extent__measure__is_bounded(l1, l2);
    if (l3) {
        l4 = extent__sides__sides_of(l1);
        l0 = (type_core__option__Option_of_Sides){.tag = 1, .s0 = l4};
        return l0;
    }
    l0 = (type_core__option__Option_of_Sides){.tag = 0};
    return l0;
}

static INLINE type_extent__measure__Extent extent__measure__measure_polygon(type_sphere__point__Grid l1, slice_uint32_t l2, slice_uint32_t l3, type_sphere__point__Point l4, type_sphere__point__Point l5)
{
    type_extent__measure__Extent l0;
    type_separation__planes__Planes l6;
    type_sphere__point__Point l7;
    bool l8;
    type_core__result__Result_of_Verdict_Refusal l9;
    type_core__option__Option_of_Sides l10;
    type_judging__judge__Judgement l11;
    type_search__walk__Mode l12;
    l6 = separation__find__planes_of(l2);
    l7 = separation__planes__away(l2);
    l8 = separation__planes__is_behind(l2, l6, l7);
    l12 = (type_search__walk__Mode){.tag = 1};
    l11 = judging__judge__judge_boxed(l1, l2, l3, l4, l5, l7, l12);
    l9 = l11.f0;
    l10 = extent__measure__own_box(l2, l9);
    l0 = (type_extent__measure__Extent){.f0 = l8, .f1 = l9, .f2 = l10};
    return l0;
}

static INLINE type_core__result__Result_of_Extent_Refusal extent__measure__measure_in(slice_uint8_t l1, slice_uint32_t l2, slice_uint32_t l3)
{
    type_core__result__Result_of_Extent_Refusal l0;
    type_sheet__open__Opened l4;
    type_sheet__open__Opened l5;
    type_core__result__ErrResidual_of_Refusal l6;
    uint64_t l7;
    type_core__ops__ControlFlow_of_ErrResidual_Refusal_Opened l8;
    type_core__result__Result_of_Opened_Refusal l9;
    uint32_t *l10;
    slice_uint32_t l11;
    uint32_t *l12;
    slice_uint32_t l13;
    type_sheet__open__Opened l14;
    type_extent__measure__Extent l15;
    type_sphere__point__Grid l16;
    uint32_t *l17;
    slice_uint32_t l18;
    uint32_t *l19;
    slice_uint32_t l20;
    type_sphere__point__Point l21;
    type_sphere__point__Point l22;
    l10 = (uint32_t *)(void *)&(*l2.f0);
    l11 = (slice_uint32_t){.f0 = l10, .f1 = l2.f1};
    l12 = (uint32_t *)(void *)&(*l3.f0);
    l13 = (slice_uint32_t){.f0 = l12, .f1 = l3.f1};
    l9 = sheet__open__open_into(l1, l11, l13);
    l8 = core__result__ResultTry__branch_of_Opened_Refusal(l9);
    switch (l8.tag) {
    case 0: {
        l5 = l8.s0;
        l14 = l5;
        break;
    }
    case 1: default: {
        l6 = l8.s1;
        l0 = core__result__ResultFromResidualErrResidual__from_residual_of_Extent_Refusal_Refusal(l6);
        return l0;
        break;
    }
    }
    l4 = l14;
    l7 = (l4.f4 * UINT64_C(3));
    l16 = l4.f0;
    l17 = (uint32_t *)(void *)&(*l2.f0);
    l18 = (slice_uint32_t){.f0 = l17, .f1 = l7};
    l19 = (uint32_t *)(void *)&(*l3.f0);
    l20 = (slice_uint32_t){.f0 = l19, .f1 = l3.f1};
    l21 = l4.f1;
    l22 = l4.f2;
    l15 = extent__measure__measure_polygon(l16, l18, l20, l21, l22);
    l0 = (type_core__result__Result_of_Extent_Refusal){.tag = 0, .s0 = l15};
    return l0;
}

static APART type_core__result__Result_of_Extent_Refusal extent__measure__measure(slice_uint8_t l1)
{
    type_core__result__Result_of_Extent_Refusal l0;
    array_uint32_t_768 l2;
    array_uint32_t_48 l3;
    array_uint32_t_12288 l4;
    uint64_t l5;
    bool l6;
    array_uint32_t_768 *l7;
    slice_uint32_t l8;
    array_uint32_t_48 *l9;
    slice_uint32_t l10;
    array_uint32_t_12288 *l11;
    slice_uint32_t l12;
    array_uint32_t_768 *l13;
    slice_uint32_t l14;
    for (size_t i = 0; i < 768; i++)
        l2.e[i] = UINT32_C(0);
    l5 = l1.f1;
    l6 = (l5 <= UINT64_C(3072));
    if (l6) {
        for (size_t i = 0; i < 48; i++)
            l3.e[i] = UINT32_C(0);
        l7 = (array_uint32_t_768 *)(void *)&l2;
        l8 = (slice_uint32_t){.f0 = (uint32_t *)(void *)l7, .f1 = UINT64_C(768)};
        l9 = (array_uint32_t_48 *)(void *)&l3;
        l10 = (slice_uint32_t){.f0 = (uint32_t *)(void *)l9, .f1 = UINT64_C(48)};
        l0 = extent__measure__measure_in(l1, l8, l10);
        return l0;
    }
    for (size_t i = 0; i < 12288; i++)
        l4.e[i] = UINT32_C(0);
    l11 = (array_uint32_t_12288 *)(void *)&l4;
    l12 = (slice_uint32_t){.f0 = (uint32_t *)(void *)l11, .f1 = UINT64_C(12288)};
    l13 = (array_uint32_t_768 *)(void *)&l2;
    l14 = (slice_uint32_t){.f0 = (uint32_t *)(void *)l13, .f1 = UINT64_C(768)};
    l0 = extent__measure__measure_in(l1, l12, l14);
    return l0;
}

static INLINE uint32_t extent__measure__far(slice_uint8_t l1)
{
    uint32_t l0;
    type_extent__measure__Extent l2;
    type_answer__Refusal l3;
    type_core__result__Result_of_Extent_Refusal l4;
    bool l6;
    type_core__result__Result_of_Verdict_Refusal l7;
    type_answer__Reason l8;
    l4 = extent__measure__measure(l1);
    switch (l4.tag) {
    case 0: {
        l2 = l4.s0;
        l6 = l2.f0;
        if (l6) {
            l7 = l2.f1;
            l0 = answer__number(l7);
            goto exit0;
        }
        l0 = UINT32_C(0);
exit0:;
        break;
    }
    case 1: default: {
        l3 = l4.s1;
        l8 = l3.f0;
        l0 = answer__Reason__number(l8);
        break;
    }
    }
    return l0;
}

static INLINE uint32_t spargolutta__extents__spg_far_number(slice_uint8_t l1)
{
    uint32_t l0;
    l0 = extent__measure__far(l1);
    return l0;
}

static INLINE type_extent__sides__Sides extent__sides__whole(void)
{
    type_extent__sides__Sides l0;
    type_sphere__point__Point l1;
    type_sphere__point__Point l2;
    l1 = (type_sphere__point__Point){.f0 = UINT64_C(18446744072635809792), .f1 = UINT64_C(18446744072635809792), .f2 = UINT64_C(18446744072635809792)};
    l2 = (type_sphere__point__Point){.f0 = UINT64_C(1073741824), .f1 = UINT64_C(1073741824), .f2 = UINT64_C(1073741824)};
    l0 = (type_extent__sides__Sides){.f0 = l1, .f1 = l2};
    return l0;
}

static INLINE type_extent__sides__Sides core__option__Option__unwrap_or_of_Sides(type_core__option__Option_of_Sides l1, type_extent__sides__Sides l2)
{
    type_extent__sides__Sides l0;
    type_extent__sides__Sides l3;
    switch (l1.tag) {
    case 1: {
        l3 = l1.s0;
        l0 = l3;
        break;
    }
    case 0: default: {
        l0 = l2;
        break;
    }
    }
    return l0;
}

static void extent__boxes__store(slice_uint8_t l1, type_extent__sides__Sides l2)
{
    uint8_t *l4;
    slice_uint8_t l5;
    type_sphere__point__Point l6;
    uint8_t *l7;
    slice_uint8_t l8;
    type_sphere__point__Point l9;
    l4 = (uint8_t *)(void *)&(*l1.f0);
    l5 = (slice_uint8_t){.f0 = l4, .f1 = l1.f1};
    l6 = l2.f0;
    big_endian__store__put_point(l5, UINT64_C(0), l6);
    l7 = (uint8_t *)(void *)&(*l1.f0);
    l8 = (slice_uint8_t){.f0 = l7, .f1 = l1.f1};
    l9 = l2.f1;
    big_endian__store__put_point(l8, UINT64_C(12), l9);
    return;
}

static INLINE uint32_t extent__boxes__put_box(slice_uint8_t l1, slice_uint8_t l2)
{
    uint32_t l0;
    type_extent__measure__Extent l3;
    type_answer__Refusal l4;
    uint64_t l5;
    bool l6;
    type_answer__Reason l7;
    type_core__result__Result_of_Extent_Refusal l8;
    uint8_t *l11;
    slice_uint8_t l12;
    type_extent__sides__Sides l13;
    type_core__option__Option_of_Sides l14;
    type_extent__sides__Sides l15;
    type_answer__Reason l16;
    l5 = l2.f1;
    l6 = (l5 < UINT64_C(24));
    if (l6) {
        l7 = (type_answer__Reason){.tag = 17};
        l0 = answer__Reason__number(l7);
        return l0;
    }
    l8 = extent__measure__measure(l1);
    switch (l8.tag) {
    case 0: {
        l3 = l8.s0;
        l11 = (uint8_t *)(void *)&(*l2.f0);
        l12 = (slice_uint8_t){.f0 = l11, .f1 = l2.f1};
        l14 = l3.f2;
        l15 = extent__sides__whole();
        l13 = core__option__Option__unwrap_or_of_Sides(l14, l15);
        extent__boxes__store(l12, l13);
        l0 = UINT32_C(0);
        break;
    }
    case 1: default: {
        l4 = l8.s1;
        l16 = l4.f0;
        l0 = answer__Reason__number(l16);
        break;
    }
    }
    return l0;
}

static INLINE uint32_t spargolutta__extents__spg_box_number(slice_uint8_t l1, slice_uint8_t l2)
{
    uint32_t l0;
    uint8_t *l3;
    slice_uint8_t l4;
    l3 = (uint8_t *)(void *)&(*l2.f0);
    l4 = (slice_uint8_t){.f0 = l3, .f1 = l2.f1};
    l0 = extent__boxes__put_box(l1, l4);
    return l0;
}

static INLINE type_core__result__Result_of_unit_Refusal extent__boxes__box_check(slice_uint8_t l1, uint64_t l2)
{
    type_core__result__Result_of_unit_Refusal l0;
    bool l3;
    type_answer__Refusal l4;
    type_answer__Reason l5;
    l3 = (l2 < UINT64_C(24));
    if (l3) {
        l5 = (type_answer__Reason){.tag = 17};
        l4 = answer__Reason__at(l5, UINT64_C(24));
        l0 = (type_core__result__Result_of_unit_Refusal){.tag = 1, .s0 = l4};
        return l0;
    }
    l0 = sheet__read__sheet_check(l1);
    return l0;
}

static INLINE uint64_t extent__boxes__place(slice_uint8_t l1, uint64_t l2)
{
    uint64_t l0;
    type_answer__Refusal l3;
    type_core__result__Result_of_unit_Refusal l4;
    l4 = extent__boxes__box_check(l1, l2);
    switch (l4.tag) {
    case 0: {
        l0 = UINT64_C(0);
        break;
    }
    case 1: default: {
        l3 = l4.s0;
        l0 = l3.f1;
        break;
    }
    }
    return l0;
}

static INLINE uint64_t spargolutta__extents__spg_box_place(slice_uint8_t l1, uint64_t l2)
{
    uint64_t l0;
    l0 = extent__boxes__place(l1, l2);
    return l0;
}

static INLINE bool core__option__Option__is_some_of_Sides(type_core__option__Option_of_Sides *l1)
{
    bool l0;
    switch ((*l1).tag) {
    case 1: {
        l0 = true;
        break;
    }
    case 0: default: {
        l0 = false;
        break;
    }
    }
    return l0;
}

static INLINE uint32_t extent__boxes__count(slice_uint8_t l1, uint64_t l2)
{
    uint32_t l0;
    type_extent__measure__Extent l3;
    bool l4;
    type_core__result__Result_of_Extent_Refusal l5;
    bool l7;
    type_core__option__Option_of_Sides *l8;
    l4 = (l2 < UINT64_C(24));
    if (l4) {
        l0 = UINT32_C(0);
        return l0;
    }
    l5 = extent__measure__measure(l1);
    switch (l5.tag) {
    case 0: {
        l3 = l5.s0;
        l8 = (type_core__option__Option_of_Sides *)(void *)&l3.f2;
        l7 = core__option__Option__is_some_of_Sides(l8);
        l0 = core__convert__others__U32FromBool__from(l7);
        break;
    }
    case 1: default: {
        l0 = UINT32_C(0);
        break;
    }
    }
    return l0;
}

static INLINE uint32_t spargolutta__extents__spg_box_count(slice_uint8_t l1, uint64_t l2)
{
    uint32_t l0;
    l0 = extent__boxes__count(l1, l2);
    return l0;
}

static INLINE uint64_t spargolutta__meanings__text_start(uint32_t l1)
{
    uint64_t l0;
    array_uint64_t_38 *l2;
    uint64_t l3;
    uint64_t l4;
    unsigned char *l5;
    unsigned char *l6;
    static const array_uint64_t_38 l2_1 = {{0, 4, 10, 17, 769, 769, 769, 769, 769, 769, 25, 53, 75, 90, 123, 143, 182, 223, 256, 286, 319, 334, 356, 387, 408, 434, 464, 489, 512, 769, 533, 581, 627, 666, 703, 720, 743, 769}};
    l2 = (array_uint64_t_38 *)(void *)&l2_1;
    l3 = spargolutta__meanings__index(l1);
    l4 = (l3 << 3);
    l5 = (unsigned char *)(void *)&(*l2);
    l6 = ((unsigned char *)(void *)l5 + (size_t)l4);
    l0 = (*(uint64_t *)(void *)l6);
    return l0;
}

static INLINE uint64_t spargolutta__meanings__text_size(uint32_t l1)
{
    uint64_t l0;
    array_uint64_t_38 *l2;
    uint64_t l3;
    uint64_t l4;
    unsigned char *l5;
    unsigned char *l6;
    static const array_uint64_t_38 l2_1 = {{4, 6, 7, 8, 14, 14, 14, 14, 14, 14, 28, 22, 15, 33, 20, 39, 41, 33, 30, 33, 15, 22, 31, 21, 26, 30, 25, 23, 21, 14, 48, 46, 39, 37, 17, 23, 26, 14}};
    l2 = (array_uint64_t_38 *)(void *)&l2_1;
    l3 = spargolutta__meanings__index(l1);
    l4 = (l3 << 3);
    l5 = (unsigned char *)(void *)&(*l2);
    l6 = ((unsigned char *)(void *)l5 + (size_t)l4);
    l0 = (*(uint64_t *)(void *)l6);
    return l0;
}

static APART array_uint8_t_783 spargolutta__meanings__letters(void)
{
    array_uint8_t_783 l0;
    array_uint8_t_783 *l1;
    static const array_uint8_t_783 l1_1 = {{100, 111, 110, 101, 105, 110, 115, 105, 100, 101, 111, 117, 116, 115, 105, 100, 101, 98, 111, 117, 110, 100, 97, 114, 121, 108, 105, 115, 116, 32, 111, 102, 32, 97, 32, 108, 101, 110, 103, 116, 104, 32, 110, 111, 116, 32, 97, 108, 108, 111, 119, 101, 100, 118, 101, 114, 116, 101, 120, 32, 98, 101, 121, 111, 110, 100, 32, 116, 104, 101, 32, 103, 114, 105, 100, 118, 101, 114, 116, 101, 120, 32, 97, 108, 108, 32, 122, 101, 114, 111, 115, 105, 100, 101, 39, 115, 32, 101, 110, 100, 115, 32, 105, 110, 32, 116, 104, 101, 32, 115, 97, 109, 101, 32, 100, 105, 114, 101, 99, 116, 105, 111, 110, 115, 105, 100, 101, 39, 115, 32, 101, 110, 100, 115, 32, 111, 112, 112, 111, 115, 105, 116, 101, 107, 110, 111, 119, 110, 32, 112, 111, 105, 110, 116, 32, 98, 101, 121, 111, 110, 100, 32, 116, 104, 101, 32, 103, 114, 105, 100, 32, 111, 114, 32, 97, 108, 108, 32, 122, 101, 114, 111, 107, 110, 111, 119, 110, 32, 112, 111, 105, 110, 116, 32, 111, 110, 32, 116, 104, 101, 32, 103, 114, 101, 97, 116, 32, 99, 105, 114, 99, 108, 101, 32, 111, 102, 32, 97, 32, 115, 105, 100, 101, 113, 117, 101, 114, 121, 32, 98, 101, 121, 111, 110, 100, 32, 116, 104, 101, 32, 103, 114, 105, 100, 32, 111, 114, 32, 97, 108, 108, 32, 122, 101, 114, 111, 113, 117, 101, 114, 121, 32, 111, 112, 112, 111, 115, 105, 116, 101, 32, 116, 104, 101, 32, 107, 110, 111, 119, 110, 32, 112, 111, 105, 110, 116, 110, 111, 32, 115, 101, 99, 111, 110, 100, 32, 107, 110, 111, 119, 110, 32, 112, 111, 105, 110, 116, 32, 116, 104, 97, 116, 32, 112, 97, 115, 115, 101, 115, 115, 104, 101, 101, 116, 32, 99, 117, 116, 32, 115, 104, 111, 114, 116, 119, 114, 111, 110, 103, 32, 116, 97, 103, 32, 105, 110, 32, 116, 104, 101, 32, 115, 104, 101, 101, 116, 108, 101, 110, 103, 116, 104, 32, 110, 111, 116, 32, 97, 108, 108, 111, 119, 101, 100, 32, 105, 110, 32, 116, 104, 101, 32, 115, 104, 101, 101, 116, 117, 110, 107, 110, 111, 119, 110, 32, 99, 104, 97, 114, 97, 99, 116, 101, 114, 32, 115, 101, 116, 98, 121, 116, 101, 115, 32, 97, 102, 116, 101, 114, 32, 116, 104, 101, 32, 108, 97, 115, 116, 32, 102, 105, 101, 108, 100, 98, 117, 102, 102, 101, 114, 32, 116, 111, 111, 32, 115, 104, 111, 114, 116, 32, 102, 111, 114, 32, 116, 104, 101, 32, 115, 104, 101, 101, 116, 113, 117, 101, 114, 121, 32, 111, 114, 32, 112, 111, 115, 105, 116, 105, 111, 110, 32, 99, 117, 116, 32, 111, 102, 102, 114, 101, 115, 117, 108, 116, 32, 98, 117, 102, 102, 101, 114, 32, 116, 111, 111, 32, 115, 104, 111, 114, 116, 103, 114, 105, 100, 32, 109, 105, 120, 101, 100, 32, 111, 114, 32, 117, 110, 107, 110, 111, 119, 110, 110, 111, 116, 32, 111, 110, 101, 32, 71, 101, 111, 74, 83, 79, 78, 32, 80, 111, 108, 121, 103, 111, 110, 32, 111, 102, 32, 116, 104, 101, 32, 107, 105, 110, 100, 32, 116, 104, 97, 116, 32, 105, 115, 32, 114, 101, 97, 100, 108, 97, 116, 105, 116, 117, 100, 101, 32, 112, 97, 115, 116, 32, 57, 48, 32, 111, 114, 32, 108, 111, 110, 103, 105, 116, 117, 100, 101, 32, 112, 97, 115, 116, 32, 49, 56, 48, 32, 100, 101, 103, 114, 101, 101, 115, 114, 105, 110, 103, 32, 110, 111, 116, 32, 99, 108, 111, 115, 101, 100, 32, 111, 114, 32, 117, 110, 100, 101, 114, 32, 102, 111, 117, 114, 32, 112, 111, 115, 105, 116, 105, 111, 110, 115, 110, 101, 105, 103, 104, 98, 111, 117, 114, 115, 32, 109, 111, 114, 101, 32, 116, 104, 97, 110, 32, 111, 110, 101, 32, 100, 101, 103, 114, 101, 101, 32, 97, 112, 97, 114, 116, 111, 118, 101, 114, 32, 53, 49, 50, 32, 118, 101, 114, 116, 105, 99, 101, 115, 116, 119, 111, 32, 115, 105, 100, 101, 115, 32, 115, 104, 97, 114, 101, 32, 97, 32, 112, 111, 105, 110, 116, 98, 121, 116, 101, 115, 32, 108, 101, 102, 116, 32, 97, 102, 116, 101, 114, 32, 54, 52, 32, 115, 104, 101, 101, 116, 115, 117, 110, 107, 110, 111, 119, 110, 32, 110, 117, 109, 98, 101, 114}};
    l1 = (array_uint8_t_783 *)(void *)&l1_1;
    l0 = (*l1);
    return l0;
}

static INLINE uint64_t spargolutta__meanings__put_front(slice_uint8_t l1, slice_uint8_t l2)
{
    uint64_t l0;
    uint64_t l3;
    uint64_t l4;
    bool l5;
    uint8_t *l7;
    slice_uint8_t l8;
    uint8_t *l9;
    slice_uint8_t l10;
    uint8_t *l12;
    slice_uint8_t l13;
    l3 = l1.f1;
    l4 = l2.f1;
    l5 = (l3 < l4);
    if (l5) {
        l7 = (uint8_t *)(void *)&(*l1.f0);
        l8 = (slice_uint8_t){.f0 = l7, .f1 = l1.f1};
        l9 = (uint8_t *)(void *)&(*l2.f0);
        l10 = (slice_uint8_t){.f0 = l9, .f1 = l3};
        big_endian__store__put_bytes(l8, UINT64_C(0), l10);
        l0 = l2.f1;
        return l0;
    }
    l12 = (uint8_t *)(void *)&(*l1.f0);
    l13 = (slice_uint8_t){.f0 = l12, .f1 = l1.f1};
    big_endian__store__put_bytes(l13, UINT64_C(0), l2);
    l0 = l2.f1;
    return l0;
}

static APART uint64_t spargolutta__meanings__spg_meaning_text(uint32_t l1, slice_uint8_t l2)
{
    uint64_t l0;
    uint64_t l3;
    uint64_t l4;
    array_uint8_t_783 l5;
    uint64_t l6;
    array_uint8_t_783 l7;
    uint8_t *l8;
    slice_uint8_t l9;
    unsigned char *l10;
    unsigned char *l11;
    uint8_t *l12;
    slice_uint8_t l13;
    l3 = spargolutta__meanings__text_start(l1);
    l6 = spargolutta__meanings__text_size(l1);
    l4 = (l3 + l6);
    l7 = spargolutta__meanings__letters();
    l5 = l7;
    l8 = (uint8_t *)(void *)&(*l2.f0);
    l9 = (slice_uint8_t){.f0 = l8, .f1 = l2.f1};
    l10 = (unsigned char *)(void *)&l5;
    l11 = ((unsigned char *)(void *)l10 + (size_t)l3);
    l6 = (l4 - l3);
    l12 = (uint8_t *)(void *)&(*(uint8_t *)(void *)l11);
    l13 = (slice_uint8_t){.f0 = l12, .f1 = l6};
    l0 = spargolutta__meanings__put_front(l9, l13);
    return l0;
}

uint32_t spg_place_kind(uint32_t number)
{
    return (uint32_t)spargolutta__meanings__spg_place_kind((uint32_t)number);
}

uint32_t spg_judge_number(const uint8_t *sheet, size_t sheet_len, int32_t x, int32_t y, int32_t z)
{
    return (uint32_t)spargolutta__spg_judge_number(lent(sheet, sheet_len), (uint32_t)x, (uint32_t)y, (uint32_t)z);
}

size_t spg_judge_place(const uint8_t *sheet, size_t sheet_len, int32_t x, int32_t y, int32_t z)
{
    return (size_t)spargolutta__spg_judge_place(lent(sheet, sheet_len), (uint32_t)x, (uint32_t)y, (uint32_t)z);
}

uint32_t spg_judge_count(const uint8_t *sheet, size_t sheet_len, int32_t x, int32_t y, int32_t z)
{
    return (uint32_t)spargolutta__spg_judge_count(lent(sheet, sheet_len), (uint32_t)x, (uint32_t)y, (uint32_t)z);
}

int32_t spg_judge_sum(const uint8_t *sheet, size_t sheet_len, int32_t x, int32_t y, int32_t z)
{
    return (int32_t)signed32(spargolutta__spg_judge_sum(lent(sheet, sheet_len), (uint32_t)x, (uint32_t)y, (uint32_t)z));
}

uint32_t spg_judge_looked(const uint8_t *sheet, size_t sheet_len, int32_t x, int32_t y, int32_t z)
{
    return (uint32_t)spargolutta__spg_judge_looked(lent(sheet, sheet_len), (uint32_t)x, (uint32_t)y, (uint32_t)z);
}

uint32_t spg_feed_number(const uint8_t *sheet, size_t sheet_len, const uint8_t *queries, size_t queries_len, uint8_t *results, size_t results_len)
{
    return (uint32_t)spargolutta__spg_feed_number(lent(sheet, sheet_len), lent(queries, queries_len), lent(results, results_len));
}

size_t spg_feed_place(const uint8_t *sheet, size_t sheet_len, const uint8_t *queries, size_t queries_len, size_t results_len)
{
    return (size_t)spargolutta__spg_feed_place(lent(sheet, sheet_len), lent(queries, queries_len), (uint64_t)results_len);
}

uint32_t spg_feed_count(const uint8_t *sheet, size_t sheet_len, const uint8_t *queries, size_t queries_len, size_t results_len)
{
    return (uint32_t)spargolutta__spg_feed_count(lent(sheet, sheet_len), lent(queries, queries_len), (uint64_t)results_len);
}

uint32_t spg_choose_number(const uint8_t *sheet, size_t sheet_len, const uint8_t *candidates, size_t candidates_len)
{
    return (uint32_t)spargolutta__spg_choose_number(lent(sheet, sheet_len), lent(candidates, candidates_len));
}

size_t spg_choose_place(const uint8_t *sheet, size_t sheet_len, const uint8_t *candidates, size_t candidates_len)
{
    return (size_t)spargolutta__spg_choose_place(lent(sheet, sheet_len), lent(candidates, candidates_len));
}

uint32_t spg_basin_number(const uint8_t *vertices, size_t vertices_len, uint32_t grid)
{
    return (uint32_t)spargolutta__outline__spg_basin_number(lent(vertices, vertices_len), (uint32_t)grid);
}

size_t spg_basin_place(const uint8_t *vertices, size_t vertices_len, uint32_t grid)
{
    return (size_t)spargolutta__outline__spg_basin_place(lent(vertices, vertices_len), (uint32_t)grid);
}

uint32_t spg_basin_count(const uint8_t *vertices, size_t vertices_len, uint32_t grid)
{
    return (uint32_t)spargolutta__outline__spg_basin_count(lent(vertices, vertices_len), (uint32_t)grid);
}

uint32_t spg_book_number(const uint8_t *book, size_t book_len, uint32_t grid, int32_t x, int32_t y, int32_t z)
{
    return (uint32_t)spargolutta__books__spg_book_number(lent(book, book_len), (uint32_t)grid, (uint32_t)x, (uint32_t)y, (uint32_t)z);
}

size_t spg_book_place(const uint8_t *book, size_t book_len, uint32_t grid, int32_t x, int32_t y, int32_t z)
{
    return (size_t)spargolutta__books__spg_book_place(lent(book, book_len), (uint32_t)grid, (uint32_t)x, (uint32_t)y, (uint32_t)z);
}

uint32_t spg_book_count(const uint8_t *book, size_t book_len, uint32_t grid, int32_t x, int32_t y, int32_t z)
{
    return (uint32_t)spargolutta__books__spg_book_count(lent(book, book_len), (uint32_t)grid, (uint32_t)x, (uint32_t)y, (uint32_t)z);
}

uint64_t spg_book_inside(const uint8_t *book, size_t book_len, uint32_t grid, int32_t x, int32_t y, int32_t z)
{
    return (uint64_t)spargolutta__books__spg_book_inside(lent(book, book_len), (uint32_t)grid, (uint32_t)x, (uint32_t)y, (uint32_t)z);
}

uint64_t spg_book_boundary(const uint8_t *book, size_t book_len, uint32_t grid, int32_t x, int32_t y, int32_t z)
{
    return (uint64_t)spargolutta__books__spg_book_boundary(lent(book, book_len), (uint32_t)grid, (uint32_t)x, (uint32_t)y, (uint32_t)z);
}

uint64_t spg_book_refused(const uint8_t *book, size_t book_len, uint32_t grid, int32_t x, int32_t y, int32_t z)
{
    return (uint64_t)spargolutta__books__spg_book_refused(lent(book, book_len), (uint32_t)grid, (uint32_t)x, (uint32_t)y, (uint32_t)z);
}

uint32_t spg_book_feed_number(const uint8_t *book, size_t book_len, uint32_t grid, const uint8_t *queries, size_t queries_len, uint8_t *results, size_t results_len)
{
    return (uint32_t)spargolutta_books__spg_book_feed_number(lent(book, book_len), (uint32_t)grid, lent(queries, queries_len), lent(results, results_len));
}

size_t spg_book_feed_place(const uint8_t *book, size_t book_len, uint32_t grid, const uint8_t *queries, size_t queries_len, size_t results_len)
{
    return (size_t)spargolutta_books__spg_book_feed_place(lent(book, book_len), (uint32_t)grid, lent(queries, queries_len), (uint64_t)results_len);
}

uint32_t spg_book_feed_count(const uint8_t *book, size_t book_len, uint32_t grid, const uint8_t *queries, size_t queries_len, size_t results_len)
{
    return (uint32_t)spargolutta_books__spg_book_feed_count(lent(book, book_len), (uint32_t)grid, lent(queries, queries_len), (uint64_t)results_len);
}

uint32_t spg_book_next_number(const uint8_t *book, size_t book_len, size_t at)
{
    return (uint32_t)spargolutta__books__spg_book_next_number(lent(book, book_len), (uint64_t)at);
}

size_t spg_book_next_place(const uint8_t *book, size_t book_len, size_t at)
{
    return (size_t)spargolutta__books__spg_book_next_place(lent(book, book_len), (uint64_t)at);
}

size_t spg_book_next_count(const uint8_t *book, size_t book_len, size_t at)
{
    return (size_t)spargolutta__books__spg_book_next_count(lent(book, book_len), (uint64_t)at);
}

uint32_t spg_compare_number(const uint8_t *left, size_t left_len, const uint8_t *right, size_t right_len)
{
    return (uint32_t)spargolutta__comparison__spg_compare_number(lent(left, left_len), lent(right, right_len));
}

size_t spg_compare_place(const uint8_t *left, size_t left_len, const uint8_t *right, size_t right_len)
{
    return (size_t)spargolutta__comparison__spg_compare_place(lent(left, left_len), lent(right, right_len));
}

uint32_t spg_compare_count(const uint8_t *left, size_t left_len, const uint8_t *right, size_t right_len)
{
    return (uint32_t)spargolutta__comparison__spg_compare_count(lent(left, left_len), lent(right, right_len));
}

uint32_t spg_compare_way(const uint8_t *left, size_t left_len, const uint8_t *right, size_t right_len)
{
    return (uint32_t)spargolutta__comparison__spg_compare_way(lent(left, left_len), lent(right, right_len));
}

uint64_t spg_compare_fields(const uint8_t *left, size_t left_len, const uint8_t *right, size_t right_len)
{
    return (uint64_t)spargolutta__comparison__spg_compare_fields(lent(left, left_len), lent(right, right_len));
}

uint32_t spg_import_number(const uint8_t *text, size_t text_len, uint32_t zone, uint32_t charset, const uint8_t *name, size_t name_len, int32_t known_x, int32_t known_y, int32_t known_z, uint8_t *sheet, size_t sheet_len)
{
    return (uint32_t)spargolutta__imports__spg_import_number(lent(text, text_len), (uint32_t)zone, (uint32_t)charset, lent(name, name_len), (uint32_t)known_x, (uint32_t)known_y, (uint32_t)known_z, lent(sheet, sheet_len));
}

size_t spg_import_place(const uint8_t *text, size_t text_len, uint32_t zone, uint32_t charset, const uint8_t *name, size_t name_len, int32_t known_x, int32_t known_y, int32_t known_z, size_t sheet_len)
{
    return (size_t)spargolutta__imports__spg_import_place(lent(text, text_len), (uint32_t)zone, (uint32_t)charset, lent(name, name_len), (uint32_t)known_x, (uint32_t)known_y, (uint32_t)known_z, (uint64_t)sheet_len);
}

uint32_t spg_import_fine_number(const uint8_t *text, size_t text_len, uint32_t zone, uint32_t charset, const uint8_t *name, size_t name_len, int32_t known_x, int32_t known_y, int32_t known_z, uint8_t *sheet, size_t sheet_len)
{
    return (uint32_t)spargolutta__imports__spg_import_fine_number(lent(text, text_len), (uint32_t)zone, (uint32_t)charset, lent(name, name_len), (uint32_t)known_x, (uint32_t)known_y, (uint32_t)known_z, lent(sheet, sheet_len));
}

size_t spg_import_fine_place(const uint8_t *text, size_t text_len, uint32_t zone, uint32_t charset, const uint8_t *name, size_t name_len, int32_t known_x, int32_t known_y, int32_t known_z, size_t sheet_len)
{
    return (size_t)spargolutta__imports__spg_import_fine_place(lent(text, text_len), (uint32_t)zone, (uint32_t)charset, lent(name, name_len), (uint32_t)known_x, (uint32_t)known_y, (uint32_t)known_z, (uint64_t)sheet_len);
}

uint32_t spg_point_number(int32_t longitude, int32_t latitude)
{
    return (uint32_t)spargolutta__imports__spg_point_number((uint32_t)longitude, (uint32_t)latitude);
}

int32_t spg_point_x(int32_t longitude, int32_t latitude)
{
    return (int32_t)signed32(spargolutta__imports__spg_point_x((uint32_t)longitude, (uint32_t)latitude));
}

int32_t spg_point_y(int32_t longitude, int32_t latitude)
{
    return (int32_t)signed32(spargolutta__imports__spg_point_y((uint32_t)longitude, (uint32_t)latitude));
}

int32_t spg_point_z(int32_t longitude, int32_t latitude)
{
    return (int32_t)signed32(spargolutta__imports__spg_point_z((uint32_t)longitude, (uint32_t)latitude));
}

uint32_t spg_point_on_number(int32_t longitude, int32_t latitude, uint32_t grid)
{
    return (uint32_t)spargolutta__imports__spg_point_on_number((uint32_t)longitude, (uint32_t)latitude, (uint32_t)grid);
}

int32_t spg_point_on_x(int32_t longitude, int32_t latitude, uint32_t grid)
{
    return (int32_t)signed32(spargolutta__imports__spg_point_on_x((uint32_t)longitude, (uint32_t)latitude, (uint32_t)grid));
}

int32_t spg_point_on_y(int32_t longitude, int32_t latitude, uint32_t grid)
{
    return (int32_t)signed32(spargolutta__imports__spg_point_on_y((uint32_t)longitude, (uint32_t)latitude, (uint32_t)grid));
}

int32_t spg_point_on_z(int32_t longitude, int32_t latitude, uint32_t grid)
{
    return (int32_t)signed32(spargolutta__imports__spg_point_on_z((uint32_t)longitude, (uint32_t)latitude, (uint32_t)grid));
}

uint32_t spg_points_number(const uint8_t *degrees, size_t degrees_len, uint32_t grid, uint8_t *points, size_t points_len)
{
    return (uint32_t)spargolutta__imports__spg_points_number(lent(degrees, degrees_len), (uint32_t)grid, lent(points, points_len));
}

size_t spg_points_place(const uint8_t *degrees, size_t degrees_len, uint32_t grid, size_t points_len)
{
    return (size_t)spargolutta__imports__spg_points_place(lent(degrees, degrees_len), (uint32_t)grid, (uint64_t)points_len);
}

size_t spg_points_count(const uint8_t *degrees, size_t degrees_len, uint32_t grid, size_t points_len)
{
    return (size_t)spargolutta__imports__spg_points_count(lent(degrees, degrees_len), (uint32_t)grid, (uint64_t)points_len);
}

uint32_t spg_write_number(uint32_t zone, uint32_t charset, const uint8_t *name, size_t name_len, int32_t known_x, int32_t known_y, int32_t known_z, int32_t second_x, int32_t second_y, int32_t second_z, const uint8_t *vertices, size_t vertices_len, uint32_t grid, uint8_t *sheet, size_t sheet_len)
{
    return (uint32_t)spargolutta__writing__spg_write_number((uint32_t)zone, (uint32_t)charset, lent(name, name_len), (uint32_t)known_x, (uint32_t)known_y, (uint32_t)known_z, (uint32_t)second_x, (uint32_t)second_y, (uint32_t)second_z, lent(vertices, vertices_len), (uint32_t)grid, lent(sheet, sheet_len));
}

size_t spg_write_place(uint32_t zone, uint32_t charset, const uint8_t *name, size_t name_len, int32_t known_x, int32_t known_y, int32_t known_z, int32_t second_x, int32_t second_y, int32_t second_z, const uint8_t *vertices, size_t vertices_len, uint32_t grid, size_t sheet_len)
{
    return (size_t)spargolutta__writing__spg_write_place((uint32_t)zone, (uint32_t)charset, lent(name, name_len), (uint32_t)known_x, (uint32_t)known_y, (uint32_t)known_z, (uint32_t)second_x, (uint32_t)second_y, (uint32_t)second_z, lent(vertices, vertices_len), (uint32_t)grid, (uint64_t)sheet_len);
}

uint32_t spg_sheet_number(const uint8_t *sheet, size_t sheet_len)
{
    return (uint32_t)spargolutta__reading__spg_sheet_number(lent(sheet, sheet_len));
}

size_t spg_sheet_place(const uint8_t *sheet, size_t sheet_len)
{
    return (size_t)spargolutta__reading__spg_sheet_place(lent(sheet, sheet_len));
}

uint32_t spg_sheet_zone(const uint8_t *sheet, size_t sheet_len)
{
    return (uint32_t)spargolutta__reading__spg_sheet_zone(lent(sheet, sheet_len));
}

uint32_t spg_sheet_charset(const uint8_t *sheet, size_t sheet_len)
{
    return (uint32_t)spargolutta__reading__spg_sheet_charset(lent(sheet, sheet_len));
}

size_t spg_sheet_name_place(const uint8_t *sheet, size_t sheet_len)
{
    return (size_t)spargolutta__reading__spg_sheet_name_place(lent(sheet, sheet_len));
}

size_t spg_sheet_name_length(const uint8_t *sheet, size_t sheet_len)
{
    return (size_t)spargolutta__reading__spg_sheet_name_length(lent(sheet, sheet_len));
}

int32_t spg_sheet_known_x(const uint8_t *sheet, size_t sheet_len)
{
    return (int32_t)signed32(spargolutta__reading__spg_sheet_known_x(lent(sheet, sheet_len)));
}

int32_t spg_sheet_known_y(const uint8_t *sheet, size_t sheet_len)
{
    return (int32_t)signed32(spargolutta__reading__spg_sheet_known_y(lent(sheet, sheet_len)));
}

int32_t spg_sheet_known_z(const uint8_t *sheet, size_t sheet_len)
{
    return (int32_t)signed32(spargolutta__reading__spg_sheet_known_z(lent(sheet, sheet_len)));
}

int32_t spg_sheet_second_x(const uint8_t *sheet, size_t sheet_len)
{
    return (int32_t)signed32(spargolutta__reading__spg_sheet_second_x(lent(sheet, sheet_len)));
}

int32_t spg_sheet_second_y(const uint8_t *sheet, size_t sheet_len)
{
    return (int32_t)signed32(spargolutta__reading__spg_sheet_second_y(lent(sheet, sheet_len)));
}

int32_t spg_sheet_second_z(const uint8_t *sheet, size_t sheet_len)
{
    return (int32_t)signed32(spargolutta__reading__spg_sheet_second_z(lent(sheet, sheet_len)));
}

uint32_t spg_sheet_grid(const uint8_t *sheet, size_t sheet_len)
{
    return (uint32_t)spargolutta__reading__spg_sheet_grid(lent(sheet, sheet_len));
}

size_t spg_sheet_vertices(const uint8_t *sheet, size_t sheet_len)
{
    return (size_t)spargolutta__reading__spg_sheet_vertices(lent(sheet, sheet_len));
}

uint32_t spg_vertices_number(const uint8_t *sheet, size_t sheet_len, uint8_t *vertices, size_t vertices_len)
{
    return (uint32_t)spargolutta__filling__spg_vertices_number(lent(sheet, sheet_len), lent(vertices, vertices_len));
}

size_t spg_vertices_place(const uint8_t *sheet, size_t sheet_len, size_t vertices_len)
{
    return (size_t)spargolutta__filling__spg_vertices_place(lent(sheet, sheet_len), (uint64_t)vertices_len);
}

uint32_t spg_far_number(const uint8_t *sheet, size_t sheet_len)
{
    return (uint32_t)spargolutta__extents__spg_far_number(lent(sheet, sheet_len));
}

uint32_t spg_box_number(const uint8_t *sheet, size_t sheet_len, uint8_t *box, size_t box_len)
{
    return (uint32_t)spargolutta__extents__spg_box_number(lent(sheet, sheet_len), lent(box, box_len));
}

size_t spg_box_place(const uint8_t *sheet, size_t sheet_len, size_t box_len)
{
    return (size_t)spargolutta__extents__spg_box_place(lent(sheet, sheet_len), (uint64_t)box_len);
}

uint32_t spg_box_count(const uint8_t *sheet, size_t sheet_len, size_t box_len)
{
    return (uint32_t)spargolutta__extents__spg_box_count(lent(sheet, sheet_len), (uint64_t)box_len);
}

size_t spg_meaning_text(uint32_t number, uint8_t *text, size_t text_len)
{
    return (size_t)spargolutta__meanings__spg_meaning_text((uint32_t)number, lent(text, text_len));
}
