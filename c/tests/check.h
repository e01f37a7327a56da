/* What test programs share: the counts of their checks, and random numbers. */
#include <stddef.h>
#include <stdint.h>
#include <stdio.h>
#include <string.h>

/* Tests pass null pointers and lengths of which the compiler knows that they are wrong. */
#if defined(__GNUC__) && !defined(__clang__)
#pragma GCC diagnostic ignored "-Wnonnull"
#pragma GCC diagnostic ignored "-Wstringop-overflow"
#if __GNUC__ >= 11
#pragma GCC diagnostic ignored "-Wstringop-overread"
#endif
#endif

static int checks, fails;

/* Counts a condition, and reports it if it does not hold, with what a test has to say of it. */
#ifndef SAY_MORE
#define SAY_MORE() (void)0
#endif
#define CHECK(condition)                                                        \
    do {                                                                        \
        checks++;                                                               \
        if (!(condition)) {                                                     \
            fails++;                                                            \
            fprintf(stderr, "%s:%d: not %s\n", __FILE__, __LINE__, #condition); \
            SAY_MORE();                                                         \
        }                                                                       \
    } while (0)

/* The same for lengths that only a size_t of 64 bits has, and 2^n as such a length. */
#define CHECK_64(condition)                                                     \
    do {                                                                        \
        if (sizeof(size_t) == 8) CHECK(condition);                              \
    } while (0)
#define TWO_TO(n) ((size_t)((uint64_t)1 << (n)))

/* A number in a field of a state, which is little-endian on every processor. PAST is one that a field of half the size
 * would take for 0. */
#if defined(__BYTE_ORDER__) && __BYTE_ORDER__ == __ORDER_BIG_ENDIAN__
#define IN_FIELD(field, x) (__builtin_bswap64((uint64_t)(x)) >> (64 - 8 * sizeof(field)))
#else
#define IN_FIELD(field, x) ((uint64_t)(x))
#endif
#define SET(field, x) ((field) = (__typeof__(field))IN_FIELD(field, x))
#define GET(field) IN_FIELD(field, field)
#define PAST(field) ((uint64_t)1 << (4 * sizeof(field)))

#define COUNT_OF(list) (sizeof(list) / sizeof *(list))
#define SAME(a, b) (!memcmp(&(a), &(b), sizeof(a)))

#ifndef __cplusplus
static inline int is_zero(const void *memory, size_t length) {
    for (const uint8_t *bytes = memory; length; length--)
        if (*bytes++) return 0;
    return 1;
}
#endif

/* A number below n, of a sequence that is always the same. */
static inline uint64_t random_below(uint64_t n) {
    static uint64_t seed = 88172645463325252u;
    seed ^= seed << 13, seed ^= seed >> 7, seed ^= seed << 17;
    return seed % n;
}
