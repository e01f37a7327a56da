/* The text in C that no module has, in parts for tools/wasm_to_c.py: it writes those that it needs,
 * in this order. A word such as @FAMILY@ stands for what it knows, and a part with sizes is one for
 * each. This file is not compiled. */

/* ---- head */
/* BLAKE2b, BLAKE2s, BLAKE2bp and BLAKE2sp for processors without assembly in dist/: the functions of
 * vulfsjor.h, in C99.
 *
 * Do not edit. tools/wasm_to_c.py translates the WebAssembly module that the proved crate blake2_ffi
 * compiles to, instruction by instruction. The translator and your C compiler are tested, not
 * proved. The comment above a function has its name in the crates; docs/PORTABLE.md says how the
 * text is read, and where it is more than a translation: SCRUB, `frame`, and what is not here.
 *
 * Addresses and lengths are 64-bit numbers. Numbers in memory are little-endian on every processor,
 * also in states. All names are hidden from other shared libraries, unless CHOOSE_SHOWN is defined. */
#include <stddef.h>
#include <stdint.h>
#include <stdlib.h>
#include <string.h>

#if defined(__GNUC__) && !defined(_WIN32) && !defined(CHOOSE_SHOWN)
#pragma GCC visibility push(hidden)
#include "vulfsjor.h"
#pragma GCC visibility pop
#else
#include "vulfsjor.h"
#endif

#define NAME(name) vulfsjor_ffi_##name

typedef uint32_t u32;
typedef uint64_t u64;

/* The library's version is that of the header. */
uint32_t vulfsjor_library_version(void) { return VULFSJOR_VERSION_NUMBER; }

/* A function that no other contains, so that SCRUB reaches what it leaves on the stack. */
#if defined(__GNUC__)
#define APART static __attribute__((noinline))
#elif defined(_MSC_VER)
#define APART static __declspec(noinline)
#else
#define APART static
#endif

#define POINTER(a) ((unsigned char *)(uintptr_t)(a))
#define ADDRESS(p) ((uint64_t)(uintptr_t)(p))

/* A number whose bytes in memory are those of x in little-endian order, and back. */
#if defined(_MSC_VER) || \
    (defined(__BYTE_ORDER__) && __BYTE_ORDER__ == __ORDER_LITTLE_ENDIAN__)
#define IN_ORDER(n) return x;
#elif defined(__GNUC__) && defined(__BYTE_ORDER__) && __BYTE_ORDER__ == __ORDER_BIG_ENDIAN__
#define IN_ORDER(n) return __builtin_bswap##n(x);
#else
#define IN_ORDER(n)                                                          \
    unsigned char bytes[n / 8];                                              \
    int i;                                                                   \
    for (i = 0; i < n / 8; i++) bytes[i] = (unsigned char)(x >> (8 * i));    \
    memcpy(&x, bytes, sizeof x);                                             \
    return x;
#endif
#define ORDER(n) \
    static inline uint##n##_t in_order##n(uint##n##_t x) { IN_ORDER(n) }
#define LOAD(n, result)                        \
    static inline result load##n(uint64_t a) { \
        uint##n##_t x;                         \
        memcpy(&x, POINTER(a), sizeof x);      \
        return in_order##n(x);                 \
    }
/* The lowest n bits of a number. */
#define STORE(n)                                               \
    static inline void store##n(uint64_t a, uint64_t number) { \
        const uint##n##_t x = in_order##n((uint##n##_t)number); \
        memcpy(POINTER(a), &x, sizeof x);                      \
    }

/* Instructions that C has no operator for. */
#define ROTL(n)                                                        \
    static inline uint##n##_t rotl##n(uint##n##_t x, uint##n##_t k) {  \
        return x << (k & (n - 1)) | x >> ((0 - k) & (n - 1));          \
    }
#define ROTR(n)                                                        \
    static inline uint##n##_t rotr##n(uint##n##_t x, uint##n##_t k) {  \
        return x >> (k & (n - 1)) | x << ((0 - k) & (n - 1));          \
    }
/* The sign is shifted in from the left: all of it but one, and one that is there already. */
#define SHR_S(n)                                                                              \
    static inline uint##n##_t shr_s##n(uint##n##_t x, uint##n##_t k) {                        \
        return x >> (k & (n - 1)) | (0 - (x >> (n - 1))) << ((n - 1) - (k & (n - 1)));        \
    }
/* The bits below and with `top`, whose bit is that of the sign. */
#define SIGN(n)                                                          \
    static inline uint##n##_t sign##n(uint##n##_t x, uint##n##_t top) {  \
        return ((x & (top * 2 - 1)) ^ top) - top;                        \
    }
#define DIVIDE(name, n, operator)                                        \
    static inline uint##n##_t name##n(uint##n##_t a, uint##n##_t b) {    \
        if (!b) abort();                                                 \
        return a operator b;                                             \
    }

/* ---- order 16 32 64 */
ORDER(@SIZE@)

/* ---- load8 */
static inline uint32_t load8(uint64_t a) { return *POINTER(a); }

/* ---- load16 */
LOAD(16, uint32_t)

/* ---- load 32 64 */
LOAD(@SIZE@, uint@SIZE@_t)

/* ---- store8 */
static inline void store8(uint64_t a, uint64_t number) { *POINTER(a) = (uint8_t)number; }

/* ---- store 16 32 64 */
STORE(@SIZE@)

/* ---- copy */
static inline void copy(uint64_t to, uint64_t from, uint64_t length) {
    if (length) memmove(POINTER(to), POINTER(from), (size_t)length);
}

/* ---- fill */
/* Apart, since GCC fills some lengths more slowly where it knows them. */
APART void fill(uint64_t to, uint32_t byte, uint64_t length) {
    if (length) memset(POINTER(to), (unsigned char)byte, (size_t)length);
}

/* ---- rotl 32 64 */
ROTL(@SIZE@)

/* ---- rotr 32 64 */
ROTR(@SIZE@)

/* ---- shr_s 32 64 */
SHR_S(@SIZE@)

/* ---- sign 32 64 */
SIGN(@SIZE@)

/* ---- div_u 32 64 */
DIVIDE(div_u, @SIZE@, /)

/* ---- rem_u 32 64 */
DIVIDE(rem_u, @SIZE@, %)

/* ---- scrub */
/* Overwrites the stack below the caller, by as much at once as the compiler can. */
#if defined(__GNUC__)
typedef u64 wide __attribute__((vector_size(32), aligned(8)));
#else
typedef u64 wide;
#endif
#define SCRUB(name, length)                                                           \
    APART void name(void) {                                                           \
        volatile wide room[(length) / sizeof(wide)];                                  \
        size_t i;                                                                     \
        for (i = 0; i < sizeof room / sizeof *room; i++) room[i] = (wide){0};         \
    }

/* ---- frame */
/* The part of the stack of a function, and its end, as aligned as the module's. */
#define FRAME(words)       \
    uint64_t frame[words]; \
    const uint64_t top = (ADDRESS(frame) + sizeof frame) & ~UINT64_C(15)

/* ---- pairs */
/* As many messages as are converted for one call. */
enum { GROUP = 32 };

/* Messages as the module has them, two 64-bit numbers each. */
static void pairs_of(const vulfsjor_message *messages, size_t count, uint64_t *pairs) {
    size_t i;

    for (i = 0; i < count; i++) {
        store64(ADDRESS(pairs + 2 * i), ADDRESS(messages[i].bytes));
        store64(ADDRESS(pairs + 2 * i + 1), messages[i].length);
    }
}

/* ---- many */
@HEAD@
    /* A call refuses all groups or none, except for a length, so that is looked at before the
     * first. */
    const uint64_t most = UINT64_MAX - (key_length ? VULFSJOR_@FAMILY@_BLOCKBYTES : 0);
    uint64_t pairs[2 * GROUP];
    size_t i, n;

    if (!output_size || out_length % output_size || out_length / output_size != count) return -1;
    for (i = 0; i < count; i++)
        if (messages[i].length > most) return -1;
    do {
        n = count < GROUP ? count : GROUP;
        pairs_of(messages, n, pairs);
        if (@INNER@(ADDRESS(out), n * output_size, output_size, ADDRESS(pairs), n, ADDRESS(key),
                key_length, ADDRESS(salt), salt_length, ADDRESS(personal), personal_length))
            return -1;
        out += n * output_size, messages += n, count -= n;
    } while (count);
    return 0;
}

/* ---- update_many */
@HEAD@
    /* A call refuses one group or none, so all states are looked at before the first. Their numbers
     * are little-endian, and at most 128 bytes are pending. */
    uint64_t pairs[2 * GROUP], counted;
    size_t i, n;

    if (input_count != state_count) return -1;
    for (i = 0; i < state_count; i++) {
        counted = load64(ADDRESS(&states[i].counter)) + *(const uint8_t *)&states[i].pending_length;
        if (!@READY@(ADDRESS(states + i)) || inputs[i].length > UINT64_MAX - counted) return -1;
    }
    for (; state_count; states += n, inputs += n, state_count -= n) {
        n = state_count < GROUP ? state_count : GROUP;
        pairs_of(inputs, n, pairs);
        if (@INNER@(ADDRESS(states), n, ADDRESS(pairs), n)) return -1;
    }
    return 0;
}
