/* BLAKE2b, BLAKE2s, BLAKE2bp and BLAKE2sp for processors without assembly in dist/: the functions of
 * vulfsjor.h, in C99.
 *
 * Do not edit. tools/wasm_to_c.py translates the WebAssembly module that the proved crate blake2_ffi
 * compiles to, instruction by instruction. The translator and your C compiler are tested, not
 * proved. The comment above a function has its name in the crates; docs/PORTABLE.md says how the
 * text is read, and where it is more than a translation: SCRUB, `frame`, and what is not here.
 *
 * Addresses and lengths are 64-bit numbers. Numbers in memory are little-endian on every processor,
 * also in states. All names are hidden from other shared libraries, unless CHOOSE_SHOWN is defined. */
#include <stddef.h>
#include <stdint.h>
#include <stdlib.h>
#include <string.h>

#if defined(__GNUC__) && !defined(_WIN32) && !defined(CHOOSE_SHOWN)
#pragma GCC visibility push(hidden)
#include "vulfsjor.h"
#pragma GCC visibility pop
#else
#include "vulfsjor.h"
#endif

#define NAME(name) vulfsjor_ffi_##name

typedef uint32_t u32;
typedef uint64_t u64;

/* The library's version is that of the header. */
uint32_t vulfsjor_library_version(void) { return VULFSJOR_VERSION_NUMBER; }

/* A function that no other contains, so that SCRUB reaches what it leaves on the stack. */
#if defined(__GNUC__)
#define APART static __attribute__((noinline))
#elif defined(_MSC_VER)
#define APART static __declspec(noinline)
#else
#define APART static
#endif

#define POINTER(a) ((unsigned char *)(uintptr_t)(a))
#define ADDRESS(p) ((uint64_t)(uintptr_t)(p))

/* A number whose bytes in memory are those of x in little-endian order, and back. */
#if defined(_MSC_VER) || \
    (defined(__BYTE_ORDER__) && __BYTE_ORDER__ == __ORDER_LITTLE_ENDIAN__)
#define IN_ORDER(n) return x;
#elif defined(__GNUC__) && defined(__BYTE_ORDER__) && __BYTE_ORDER__ == __ORDER_BIG_ENDIAN__
#define IN_ORDER(n) return __builtin_bswap##n(x);
#else
#define IN_ORDER(n)                                                          \
    unsigned char bytes[n / 8];                                              \
    int i;                                                                   \
    for (i = 0; i < n / 8; i++) bytes[i] = (unsigned char)(x >> (8 * i));    \
    memcpy(&x, bytes, sizeof x);                                             \
    return x;
#endif
#define ORDER(n) \
    static inline uint##n##_t in_order##n(uint##n##_t x) { IN_ORDER(n) }
#define LOAD(n, result)                        \
    static inline result load##n(uint64_t a) { \
        uint##n##_t x;                         \
        memcpy(&x, POINTER(a), sizeof x);      \
        return in_order##n(x);                 \
    }
/* The lowest n bits of a number. */
#define STORE(n)                                               \
    static inline void store##n(uint64_t a, uint64_t number) { \
        const uint##n##_t x = in_order##n((uint##n##_t)number); \
        memcpy(POINTER(a), &x, sizeof x);                      \
    }

/* Instructions that C has no operator for. */
#define ROTL(n)                                                        \
    static inline uint##n##_t rotl##n(uint##n##_t x, uint##n##_t k) {  \
        return x << (k & (n - 1)) | x >> ((0 - k) & (n - 1));          \
    }
#define ROTR(n)                                                        \
    static inline uint##n##_t rotr##n(uint##n##_t x, uint##n##_t k) {  \
        return x >> (k & (n - 1)) | x << ((0 - k) & (n - 1));          \
    }
/* The sign is shifted in from the left: all of it but one, and one that is there already. */
#define SHR_S(n)                                                                              \
    static inline uint##n##_t shr_s##n(uint##n##_t x, uint##n##_t k) {                        \
        return x >> (k & (n - 1)) | (0 - (x >> (n - 1))) << ((n - 1) - (k & (n - 1)));        \
    }
/* The bits below and with `top`, whose bit is that of the sign. */
#define SIGN(n)                                                          \
    static inline uint##n##_t sign##n(uint##n##_t x, uint##n##_t top) {  \
        return ((x & (top * 2 - 1)) ^ top) - top;                        \
    }
#define DIVIDE(name, n, operator)                                        \
    static inline uint##n##_t name##n(uint##n##_t a, uint##n##_t b) {    \
        if (!b) abort();                                                 \
        return a operator b;                                             \
    }

ORDER(16)

ORDER(32)

ORDER(64)

static inline uint32_t load8(uint64_t a) { return *POINTER(a); }

LOAD(16, uint32_t)

LOAD(32, uint32_t)

LOAD(64, uint64_t)

static inline void store8(uint64_t a, uint64_t number) { *POINTER(a) = (uint8_t)number; }

STORE(16)

STORE(32)

STORE(64)

static inline void copy(uint64_t to, uint64_t from, uint64_t length) {
    if (length) memmove(POINTER(to), POINTER(from), (size_t)length);
}

/* Apart, since GCC fills some lengths more slowly where it knows them. */
APART void fill(uint64_t to, uint32_t byte, uint64_t length) {
    if (length) memset(POINTER(to), (unsigned char)byte, (size_t)length);
}

ROTL(32)

ROTL(64)

SIGN(64)

DIVIDE(div_u, 64, /)

DIVIDE(rem_u, 64, %)

/* Overwrites the stack below the caller, by as much at once as the compiler can. */
#if defined(__GNUC__)
typedef u64 wide __attribute__((vector_size(32), aligned(8)));
#else
typedef u64 wide;
#endif
#define SCRUB(name, length)                                                           \
    APART void name(void) {                                                           \
        volatile wide room[(length) / sizeof(wide)];                                  \
        size_t i;                                                                     \
        for (i = 0; i < sizeof room / sizeof *room; i++) room[i] = (wide){0};         \
    }

/* The part of the stack of a function, and its end, as aligned as the module's. */
#define FRAME(words)       \
    uint64_t frame[words]; \
    const uint64_t top = (ADDRESS(frame) + sizeof frame) & ~UINT64_C(15)

/* As many messages as are converted for one call. */
enum { GROUP = 32 };

/* Messages as the module has them, two 64-bit numbers each. */
static void pairs_of(const vulfsjor_message *messages, size_t count, uint64_t *pairs) {
    size_t i;

    for (i = 0; i < count; i++) {
        store64(ADDRESS(pairs + 2 * i), ADDRESS(messages[i].bytes));
        store64(ADDRESS(pairs + 2 * i + 1), messages[i].length);
    }
}

/* rattle::export vulfsjor_ffi_memcmp */
APART u32 exported_memcmp(u64 v0, u64 v1, u64 v2, u64 v3) {
 u32 v4, v8;
 u64 v5, v6, v7, v9, v10, v11, v12;
 v4 = 0xffffffff;
 if (v1 != v3) goto l2;
 if (v1 == 0) goto l3;
 v5 = v2 == 0 ? UINT64_C(4096) : 0;
 v6 = v0 == 0 ? UINT64_C(4096) : 0;
 v7 = v1 & 3;
 if (v1 >= 4) goto l6;
 v3 = 0;
 v8 = 0;
 goto l5;
l6:;
 v9 = v2 + v5;
 v10 = v0 + v6;
 v11 = v1 & 0xfffffffffffffffc;
 v3 = 0;
 v8 = 0;
l7:;
 v1 = v9 + v3;
 v12 = v10 + v3;
 v8 = (load8(v1 + 3) ^ load8(v12 + 3)) | ((load8(v1 + 2) ^ load8(v12 + 2)) | ((load8(v1 + 1) ^
   load8(v12 + 1)) | ((load8(v1) ^ load8(v12)) | v8)));
 v3 += 4;
 if (v11 != v3) goto l7;
 if (v7 == 0) goto l4;
l5:;
 v1 = v0 + (v6 + v3);
 v3 = v2 + (v5 + v3);
l8:;
 v8 |= (load8(v3) ^ load8(v1));
 v1 += 1;
 v3 += 1;
 v7 -= 1;
 if (v7 != 0) goto l8;
l4:;
 if (v8 & 255) goto l2;
l3:;
 v4 = 0;
l2:;
 return v4;
}

/* rattle::export vulfsjor_ffi_wipe */
APART void exported_wipe(u64 v0, u64 v1) {
 u32 v2;
 if (v1 == 0) goto l2;
 v0 += (v0 == 0 ? UINT64_C(4096) : 0);
 v1 -= 1;
 v2 = (u32)(v1 == 0);
 if (v2) goto l3;
 if (v2) goto l3;
 fill(v0, 0, v1);
l3:;
 store8(v0 + v1, 0);
l2:;
 return;
}

/* blake2_compress::compress::blake2b::compress */
APART void compress_compress_blake2b_compress(u64 v0, u64 v1, u64 v2, u32 v3, u32 v4) {
 u64 v5, v6, v7, v8, v9, v10, v11, v12, v13, v14, v15, v16, v17, v18, v19, v20, v21, v22, v23, v24,
   v25, v26, v27, v28, v29, v30, v31, v32, v33, v34, v35, v36, v37, v38, v39, v40, v41, v42, v43,
   v44, v45, t0, t1, t2, t3, t4, t5, t6, t7, t8, t9, t10, t11, t12, t13, t14, t15, t16, t17, t18,
   t19, t20, t21, t22, t23, t24, t25, t26, t27, t28, t29, t30, t31, t32, t33, t34, t35, t36, t37,
   t38, t39, t40, t41, t42, t43, t44, t45, t46, t47, t48, t49, t50, t51, t52, t53, t54, t55, t56,
   t57, t58, t59, t60, t61, t62, t63, t64, t65, t66, t67, t68, t69, t70, t71, t72, t73, t74, t75,
   t76, t77, t78, t79, t80;
 v5 = load64(v0 + 16);
 v6 = load64(v1 + 32);
 v7 = load64(v0 + 48);
 v8 = v5 + v6 + v7;
 v9 = load64(v1 + 40);
 v10 = rotl64(((v3 & 1) ? UINT64_C(0xffffffffffffffff) : 0) ^ v8 ^ 0x1f83d9abfb41bd6b, 32);
 v11 = v10 + 0x3c6ef372fe94f82b;
 v12 = rotl64(v11 ^ v7, 40);
 v13 = v8 + v9 + v12;
 v8 = load64(v1 + 96);
 v14 = load64(v0 + 24);
 v15 = load64(v1 + 48);
 v16 = load64(v0 + 56);
 v17 = v14 + v15 + v16;
 v18 = load64(v1 + 56);
 t0 = v17 + v18;
 v17 = rotl64(((v4 & 1) ? UINT64_C(0xffffffffffffffff) : 0) ^ v17 ^ 0x5be0cd19137e2179, 32);
 v19 = v17 + 0xa54ff53a5f1d36f1;
 v20 = rotl64(v19 ^ v16, 40);
 v21 = t0 + v20;
 v22 = rotl64(v21 ^ v17, 48);
 v23 = v22 + v19;
 v24 = rotl64(v23 ^ v20, 1);
 v25 = v13 + v8 + v24;
 v17 = load64(v1 + 104);
 v26 = load64(v0 + 8);
 v19 = load64(v1 + 16);
 v27 = load64(v0 + 40);
 v28 = v26 + v19 + v27;
 v20 = load64(v1 + 24);
 t1 = v28 + v20;
 v28 = rotl64(v28 ^ 0x9b05688c2b3e6c1f, 32);
 v29 = v28 + 0xbb67ae8584caa73b;
 v30 = rotl64(v29 ^ v27, 40);
 v31 = t1 + v30;
 v32 = rotl64(v31 ^ v28, 48);
 v33 = rotl64(v25 ^ v32, 32);
 v34 = load64(v0);
 t2 = v25 + v17;
 v25 = load64(v1);
 v35 = load64(v0 + 32);
 v36 = v34 + v25 + v35;
 v28 = load64(v1 + 8);
 v2 = rotl64(v2 ^ v36 ^ 0x510e527fade682d1, 32);
 t3 = v36 + v28;
 v36 = v2 + 0x6a09e667f3bcc908;
 v37 = rotl64(v36 ^ v35, 40);
 v38 = t3 + v37;
 v39 = rotl64(v38 ^ v2, 48);
 v36 += v39;
 v40 = v33 + v36;
 v41 = rotl64(v40 ^ v24, 40);
 v42 = t2 + v41;
 v2 = load64(v1 + 72);
 v24 = load64(v1 + 80);
 v13 = rotl64(v13 ^ v10, 48);
 t4 = v31 + v24;
 v31 = v13 + v11;
 v11 = rotl64(v31 ^ v12, 1);
 v12 = t4 + v11;
 v10 = load64(v1 + 88);
 t5 = v12 + v10;
 v12 = rotl64(v12 ^ v39, 32);
 v23 += v12;
 v11 = rotl64(v23 ^ v11, 40);
 v39 = t5 + v11;
 v43 = rotl64(v39 ^ v12, 48);
 v23 += v43;
 v44 = rotl64(v23 ^ v11, 1);
 v45 = v42 + v2 + v44;
 v11 = load64(v1 + 120);
 v12 = load64(v1 + 112);
 t6 = v21 + v12;
 v21 = rotl64(v36 ^ v37, 1);
 v36 = t6 + v21;
 v13 = rotl64(v36 ^ v13, 32);
 v29 += v32;
 v32 = v13 + v29;
 v21 = rotl64(v32 ^ v21, 40);
 v36 += v11 + v21;
 v13 = rotl64(v36 ^ v13, 48);
 v37 = rotl64(v45 ^ v13, 32);
 v1 = load64(v1 + 64);
 v29 = rotl64(v29 ^ v30, 1);
 v30 = v38 + v1 + v29;
 v22 = rotl64(v30 ^ v22, 32);
 t7 = v30 + v2;
 v30 = v22 + v31;
 v29 = rotl64(v30 ^ v29, 40);
 v31 = t7 + v29;
 v22 = rotl64(v31 ^ v22, 48);
 v30 += v22;
 v38 = v37 + v30;
 v44 = rotl64(v38 ^ v44, 40);
 v45 += v11 + v44;
 v33 = rotl64(v42 ^ v33, 48);
 t8 = v36 + v17;
 v36 = v33 + v40;
 v40 = rotl64(v36 ^ v41, 1);
 v41 = t8 + v40;
 v22 = rotl64(v41 ^ v22, 32);
 v23 += v22;
 v40 = rotl64(v23 ^ v40, 40);
 v41 += v15 + v40;
 v22 = rotl64(v41 ^ v22, 48);
 v23 += v22;
 v40 = rotl64(v23 ^ v40, 1);
 v42 = v45 + v10 + v40;
 v29 = rotl64(v30 ^ v29, 1);
 v30 = v39 + v6 + v29;
 t9 = v30 + v1;
 v30 = rotl64(v30 ^ v33, 32);
 v13 += v32;
 v32 = v30 + v13;
 v29 = rotl64(v32 ^ v29, 40);
 v33 = t9 + v29;
 v30 = rotl64(v33 ^ v30, 48);
 v39 = rotl64(v42 ^ v30, 32);
 v13 = rotl64(v13 ^ v21, 1);
 v21 = v31 + v12 + v13;
 t10 = v21 + v24;
 v21 = rotl64(v21 ^ v43, 32);
 v31 = v21 + v36;
 v13 = rotl64(v31 ^ v13, 40);
 v36 = t10 + v13;
 v21 = rotl64(v36 ^ v21, 48);
 v31 += v21;
 t11 = v42 + v18;
 v42 = v39 + v31;
 v40 = rotl64(v42 ^ v40, 40);
 v43 = t11 + v40;
 t12 = v33 + v25;
 v33 = rotl64(v45 ^ v37, 48);
 v37 = v33 + v38;
 v38 = rotl64(v37 ^ v44, 1);
 v44 = t12 + v38;
 v21 = rotl64(v44 ^ v21, 32);
 v23 += v21;
 v38 = rotl64(v23 ^ v38, 40);
 v44 += v19 + v38;
 v21 = rotl64(v44 ^ v21, 48);
 v23 += v21;
 v38 = rotl64(v23 ^ v38, 1);
 v45 = v43 + v9 + v38;
 v13 = rotl64(v31 ^ v13, 1);
 v31 = v41 + v9 + v13;
 t13 = v31 + v20;
 v31 = rotl64(v31 ^ v33, 32);
 v30 += v32;
 v32 = v31 + v30;
 v13 = rotl64(v32 ^ v13, 40);
 v33 = t13 + v13;
 v31 = rotl64(v33 ^ v31, 48);
 v41 = rotl64(v45 ^ v31, 32);
 v29 = rotl64(v30 ^ v29, 1);
 v30 = v36 + v28 + v29;
 v22 = rotl64(v30 ^ v22, 32);
 t14 = v30 + v8;
 v30 = v22 + v37;
 v29 = rotl64(v30 ^ v29, 40);
 v36 = t14 + v29;
 v22 = rotl64(v36 ^ v22, 48);
 v30 += v22;
 v37 = v41 + v30;
 v38 = rotl64(v37 ^ v38, 40);
 v45 += v19 + v38;
 t15 = v33 + v11;
 v33 = rotl64(v43 ^ v39, 48);
 v39 = v33 + v42;
 v40 = rotl64(v39 ^ v40, 1);
 v42 = t15 + v40;
 v22 = rotl64(v42 ^ v22, 32);
 v23 += v22;
 v40 = rotl64(v23 ^ v40, 40);
 v42 += v17 + v40;
 v22 = rotl64(v42 ^ v22, 48);
 v23 += v22;
 v40 = rotl64(v23 ^ v40, 1);
 v43 = v45 + v18 + v40;
 v29 = rotl64(v30 ^ v29, 1);
 v30 = v44 + v8 + v29;
 t16 = v30 + v25;
 v30 = rotl64(v30 ^ v33, 32);
 v31 += v32;
 v32 = v30 + v31;
 v29 = rotl64(v32 ^ v29, 40);
 v33 = t16 + v29;
 v30 = rotl64(v33 ^ v30, 48);
 t17 = v43 + v28;
 v43 = rotl64(v43 ^ v30, 32);
 v13 = rotl64(v31 ^ v13, 1);
 v31 = v36 + v10 + v13;
 v21 = rotl64(v31 ^ v21, 32);
 t18 = v31 + v1;
 v31 = v21 + v39;
 v13 = rotl64(v31 ^ v13, 40);
 v36 = t18 + v13;
 v21 = rotl64(v36 ^ v21, 48);
 v31 += v21;
 v39 = v43 + v31;
 v40 = rotl64(v39 ^ v40, 40);
 v44 = t17 + v40;
 t19 = v33 + v20;
 v33 = rotl64(v45 ^ v41, 48);
 v37 += v33;
 v38 = rotl64(v37 ^ v38, 1);
 v41 = t19 + v38;
 v21 = rotl64(v41 ^ v21, 32);
 v23 += v21;
 v38 = rotl64(v23 ^ v38, 40);
 v41 += v15 + v38;
 v21 = rotl64(v41 ^ v21, 48);
 v23 += v21;
 v38 = rotl64(v23 ^ v38, 1);
 v45 = v44 + v17 + v38;
 v13 = rotl64(v31 ^ v13, 1);
 v31 = v42 + v2 + v13;
 t20 = v31 + v6;
 v31 = rotl64(v31 ^ v33, 32);
 v30 += v32;
 v32 = v31 + v30;
 v13 = rotl64(v32 ^ v13, 40);
 v33 = t20 + v13;
 v31 = rotl64(v33 ^ v31, 48);
 v42 = rotl64(v45 ^ v31, 32);
 v29 = rotl64(v30 ^ v29, 1);
 v30 = v36 + v24 + v29;
 v22 = rotl64(v30 ^ v22, 32);
 t21 = v30 + v12;
 v30 = v22 + v37;
 v29 = rotl64(v30 ^ v29, 40);
 v36 = t21 + v29;
 v22 = rotl64(v36 ^ v22, 48);
 v30 += v22;
 v37 = v42 + v30;
 v38 = rotl64(v37 ^ v38, 40);
 v45 += v8 + v38;
 t22 = v33 + v10;
 v33 = rotl64(v44 ^ v43, 48);
 v39 += v33;
 v40 = rotl64(v39 ^ v40, 1);
 v43 = t22 + v40;
 v22 = rotl64(v43 ^ v22, 32);
 v23 += v22;
 v40 = rotl64(v23 ^ v40, 40);
 v43 += v12 + v40;
 v22 = rotl64(v43 ^ v22, 48);
 v23 += v22;
 v40 = rotl64(v23 ^ v40, 1);
 v44 = v45 + v6 + v40;
 v29 = rotl64(v30 ^ v29, 1);
 v30 = v41 + v20 + v29;
 t23 = v30 + v28;
 v30 = rotl64(v30 ^ v33, 32);
 v31 += v32;
 v32 = v30 + v31;
 v29 = rotl64(v32 ^ v29, 40);
 v33 = t23 + v29;
 v30 = rotl64(v33 ^ v30, 48);
 v41 = rotl64(v44 ^ v30, 32);
 v13 = rotl64(v31 ^ v13, 1);
 v31 = v36 + v18 + v13;
 v21 = rotl64(v31 ^ v21, 32);
 t24 = v31 + v2;
 v31 = v21 + v39;
 v13 = rotl64(v31 ^ v13, 40);
 v36 = t24 + v13;
 v21 = rotl64(v36 ^ v21, 48);
 v31 += v21;
 v39 = v41 + v31;
 v40 = rotl64(v39 ^ v40, 40);
 v44 += v25 + v40;
 t25 = v33 + v9;
 v33 = rotl64(v45 ^ v42, 48);
 v37 += v33;
 v38 = rotl64(v37 ^ v38, 1);
 v42 = t25 + v38;
 v21 = rotl64(v42 ^ v21, 32);
 v23 += v21;
 v38 = rotl64(v23 ^ v38, 40);
 v42 += v24 + v38;
 v21 = rotl64(v42 ^ v21, 48);
 v23 += v21;
 v38 = rotl64(v23 ^ v38, 1);
 v45 = v44 + v19 + v38;
 v13 = rotl64(v31 ^ v13, 1);
 v31 = v43 + v11 + v13;
 t26 = v31 + v1;
 v31 = rotl64(v31 ^ v33, 32);
 v30 += v32;
 v32 = v31 + v30;
 v13 = rotl64(v32 ^ v13, 40);
 v33 = t26 + v13;
 v31 = rotl64(v33 ^ v31, 48);
 v43 = rotl64(v45 ^ v31, 32);
 v29 = rotl64(v30 ^ v29, 1);
 v30 = v36 + v19 + v29;
 v22 = rotl64(v30 ^ v22, 32);
 t27 = v30 + v15;
 v30 = v22 + v37;
 v29 = rotl64(v30 ^ v29, 40);
 v36 = t27 + v29;
 v22 = rotl64(v36 ^ v22, 48);
 v30 += v22;
 v37 = v43 + v30;
 v38 = rotl64(v37 ^ v38, 40);
 v45 += v6 + v38;
 t28 = v33 + v24;
 v33 = rotl64(v44 ^ v41, 48);
 v39 += v33;
 v40 = rotl64(v39 ^ v40, 1);
 v41 = t28 + v40;
 v22 = rotl64(v41 ^ v22, 32);
 v23 += v22;
 v40 = rotl64(v23 ^ v40, 40);
 v41 += v11 + v40;
 v22 = rotl64(v41 ^ v22, 48);
 v23 += v22;
 v40 = rotl64(v23 ^ v40, 1);
 v44 = v45 + v15 + v40;
 v29 = rotl64(v30 ^ v29, 1);
 v30 = v42 + v9 + v29;
 t29 = v30 + v18;
 v30 = rotl64(v30 ^ v33, 32);
 v31 += v32;
 v32 = v30 + v31;
 v29 = rotl64(v32 ^ v29, 40);
 v33 = t29 + v29;
 v30 = rotl64(v33 ^ v30, 48);
 v42 = rotl64(v44 ^ v30, 32);
 v13 = rotl64(v31 ^ v13, 1);
 v31 = v36 + v2 + v13;
 v21 = rotl64(v31 ^ v21, 32);
 t30 = v31 + v25;
 v31 = v21 + v39;
 v13 = rotl64(v31 ^ v13, 40);
 v36 = t30 + v13;
 v21 = rotl64(v36 ^ v21, 48);
 v31 += v21;
 v39 = v42 + v31;
 v40 = rotl64(v39 ^ v40, 40);
 v44 += v1 + v40;
 t31 = v33 + v10;
 v33 = rotl64(v45 ^ v43, 48);
 v37 += v33;
 v38 = rotl64(v37 ^ v38, 1);
 v43 = t31 + v38;
 v21 = rotl64(v43 ^ v21, 32);
 v23 += v21;
 v38 = rotl64(v23 ^ v38, 40);
 v43 += v8 + v38;
 v21 = rotl64(v43 ^ v21, 48);
 v23 += v21;
 v38 = rotl64(v23 ^ v38, 1);
 v45 = v44 + v25 + v38;
 v13 = rotl64(v31 ^ v13, 1);
 v31 = v41 + v20 + v13;
 t32 = v31 + v17;
 v31 = rotl64(v31 ^ v33, 32);
 v30 += v32;
 v32 = v31 + v30;
 v13 = rotl64(v32 ^ v13, 40);
 v33 = t32 + v13;
 v31 = rotl64(v33 ^ v31, 48);
 v41 = rotl64(v45 ^ v31, 32);
 v29 = rotl64(v30 ^ v29, 1);
 v30 = v36 + v12 + v29;
 v22 = rotl64(v30 ^ v22, 32);
 t33 = v30 + v28;
 v30 = v22 + v37;
 v29 = rotl64(v30 ^ v29, 40);
 v36 = t33 + v29;
 v22 = rotl64(v36 ^ v22, 48);
 v30 += v22;
 v37 = v41 + v30;
 v38 = rotl64(v37 ^ v38, 40);
 v45 += v10 + v38;
 t34 = v33 + v1;
 v33 = rotl64(v44 ^ v42, 48);
 v39 += v33;
 v40 = rotl64(v39 ^ v40, 1);
 v42 = t34 + v40;
 v22 = rotl64(v42 ^ v22, 32);
 v23 += v22;
 v40 = rotl64(v23 ^ v40, 40);
 v42 += v20 + v40;
 v22 = rotl64(v42 ^ v22, 48);
 v23 += v22;
 v40 = rotl64(v23 ^ v40, 1);
 v44 = v45 + v11 + v40;
 v29 = rotl64(v30 ^ v29, 1);
 v30 = v43 + v15 + v29;
 t35 = v30 + v24;
 v30 = rotl64(v30 ^ v33, 32);
 v31 += v32;
 v32 = v30 + v31;
 v29 = rotl64(v32 ^ v29, 40);
 v33 = t35 + v29;
 v30 = rotl64(v33 ^ v30, 48);
 v43 = rotl64(v44 ^ v30, 32);
 v13 = rotl64(v31 ^ v13, 1);
 v31 = v36 + v19 + v13;
 v21 = rotl64(v31 ^ v21, 32);
 t36 = v31 + v8;
 v31 = v21 + v39;
 v13 = rotl64(v31 ^ v13, 40);
 v36 = t36 + v13;
 v21 = rotl64(v36 ^ v21, 48);
 v31 += v21;
 v39 = v43 + v31;
 v40 = rotl64(v39 ^ v40, 40);
 v44 += v12 + v40;
 t37 = v33 + v18;
 v33 = rotl64(v45 ^ v41, 48);
 v37 += v33;
 v38 = rotl64(v37 ^ v38, 1);
 v41 = t37 + v38;
 v21 = rotl64(v41 ^ v21, 32);
 v23 += v21;
 v38 = rotl64(v23 ^ v38, 40);
 v41 += v9 + v38;
 v21 = rotl64(v41 ^ v21, 48);
 v23 += v21;
 v38 = rotl64(v23 ^ v38, 1);
 v45 = v44 + v12 + v38;
 v13 = rotl64(v31 ^ v13, 1);
 v31 = v42 + v28 + v13;
 t38 = v31 + v2;
 v31 = rotl64(v31 ^ v33, 32);
 v30 += v32;
 v32 = v31 + v30;
 v13 = rotl64(v32 ^ v13, 40);
 v33 = t38 + v13;
 v31 = rotl64(v33 ^ v31, 48);
 v42 = rotl64(v45 ^ v31, 32);
 v29 = rotl64(v30 ^ v29, 1);
 v30 = v36 + v6 + v29;
 v22 = rotl64(v30 ^ v22, 32);
 t39 = v30 + v17;
 v30 = v22 + v37;
 v29 = rotl64(v30 ^ v29, 40);
 v36 = t39 + v29;
 v22 = rotl64(v36 ^ v22, 48);
 v30 += v22;
 v37 = v42 + v30;
 v38 = rotl64(v37 ^ v38, 40);
 v45 += v17 + v38;
 t40 = v33 + v6;
 v33 = rotl64(v44 ^ v43, 48);
 v39 += v33;
 v40 = rotl64(v39 ^ v40, 1);
 v43 = t40 + v40;
 v22 = rotl64(v43 ^ v22, 32);
 v23 += v22;
 v40 = rotl64(v23 ^ v40, 40);
 v43 += v24 + v40;
 v22 = rotl64(v43 ^ v22, 48);
 v23 += v22;
 v40 = rotl64(v23 ^ v40, 1);
 v44 = v45 + v2 + v40;
 v29 = rotl64(v30 ^ v29, 1);
 v30 = v41 + v28 + v29;
 t41 = v30 + v11;
 v30 = rotl64(v30 ^ v33, 32);
 v31 += v32;
 v32 = v30 + v31;
 v29 = rotl64(v32 ^ v29, 40);
 v33 = t41 + v29;
 v30 = rotl64(v33 ^ v30, 48);
 v41 = rotl64(v44 ^ v30, 32);
 v13 = rotl64(v31 ^ v13, 1);
 v31 = v36 + v8 + v13;
 v21 = rotl64(v31 ^ v21, 32);
 t42 = v31 + v9;
 v31 = v21 + v39;
 v13 = rotl64(v31 ^ v13, 40);
 v36 = t42 + v13;
 v21 = rotl64(v36 ^ v21, 48);
 v31 += v21;
 v39 = v41 + v31;
 v40 = rotl64(v39 ^ v40, 40);
 v44 += v19 + v40;
 t43 = v33 + v15;
 v33 = rotl64(v45 ^ v42, 48);
 v37 += v33;
 v38 = rotl64(v37 ^ v38, 1);
 v42 = t43 + v38;
 v21 = rotl64(v42 ^ v21, 32);
 v23 += v21;
 v38 = rotl64(v23 ^ v38, 40);
 v42 += v20 + v38;
 v21 = rotl64(v42 ^ v21, 48);
 v23 += v21;
 v38 = rotl64(v23 ^ v38, 1);
 v45 = v44 + v8 + v38;
 v13 = rotl64(v31 ^ v13, 1);
 v31 = v43 + v1 + v13;
 t44 = v31 + v10;
 v31 = rotl64(v31 ^ v33, 32);
 v30 += v32;
 v32 = v31 + v30;
 v13 = rotl64(v32 ^ v13, 40);
 v33 = t44 + v13;
 v31 = rotl64(v33 ^ v31, 48);
 v43 = rotl64(v45 ^ v31, 32);
 v29 = rotl64(v30 ^ v29, 1);
 v30 = v36 + v25 + v29;
 v22 = rotl64(v30 ^ v22, 32);
 t45 = v30 + v18;
 v30 = v22 + v37;
 v29 = rotl64(v30 ^ v29, 40);
 v36 = t45 + v29;
 v22 = rotl64(v36 ^ v22, 48);
 v30 += v22;
 v37 = v43 + v30;
 v38 = rotl64(v37 ^ v38, 40);
 v45 += v28 + v38;
 t46 = v33 + v20;
 v33 = rotl64(v44 ^ v41, 48);
 v39 += v33;
 v40 = rotl64(v39 ^ v40, 1);
 v41 = t46 + v40;
 v22 = rotl64(v41 ^ v22, 32);
 v23 += v22;
 v40 = rotl64(v23 ^ v40, 40);
 v41 += v2 + v40;
 v22 = rotl64(v41 ^ v22, 48);
 v23 += v22;
 v40 = rotl64(v23 ^ v40, 1);
 v44 = v45 + v1 + v40;
 v29 = rotl64(v30 ^ v29, 1);
 v30 = v42 + v18 + v29;
 t47 = v30 + v12;
 v30 = rotl64(v30 ^ v33, 32);
 v31 += v32;
 v32 = v30 + v31;
 v29 = rotl64(v32 ^ v29, 40);
 v33 = t47 + v29;
 v30 = rotl64(v33 ^ v30, 48);
 v42 = rotl64(v44 ^ v30, 32);
 v13 = rotl64(v31 ^ v13, 1);
 v31 = v36 + v17 + v13;
 v21 = rotl64(v31 ^ v21, 32);
 t48 = v31 + v10;
 v31 = v21 + v39;
 v13 = rotl64(v31 ^ v13, 40);
 v36 = t48 + v13;
 v21 = rotl64(v36 ^ v21, 48);
 v31 += v21;
 v39 = v42 + v31;
 v40 = rotl64(v39 ^ v40, 40);
 v44 += v15 + v40;
 t49 = v33 + v11;
 v33 = rotl64(v45 ^ v43, 48);
 v37 += v33;
 v38 = rotl64(v37 ^ v38, 1);
 v43 = t49 + v38;
 v21 = rotl64(v43 ^ v21, 32);
 v23 += v21;
 v38 = rotl64(v23 ^ v38, 40);
 v43 += v6 + v38;
 v21 = rotl64(v43 ^ v21, 48);
 v23 += v21;
 v38 = rotl64(v23 ^ v38, 1);
 v45 = v44 + v10 + v38;
 v13 = rotl64(v31 ^ v13, 1);
 v31 = v41 + v19 + v13;
 t50 = v31 + v24;
 v31 = rotl64(v31 ^ v33, 32);
 v30 += v32;
 v32 = v31 + v30;
 v13 = rotl64(v32 ^ v13, 40);
 v33 = t50 + v13;
 v31 = rotl64(v33 ^ v31, 48);
 v41 = rotl64(v45 ^ v31, 32);
 v29 = rotl64(v30 ^ v29, 1);
 v30 = v36 + v9 + v29;
 v22 = rotl64(v30 ^ v22, 32);
 t51 = v30 + v25;
 v30 = v22 + v37;
 v29 = rotl64(v30 ^ v29, 40);
 v36 = t51 + v29;
 v22 = rotl64(v36 ^ v22, 48);
 v30 += v22;
 v37 = v41 + v30;
 v38 = rotl64(v37 ^ v38, 40);
 v45 += v20 + v38;
 t52 = v33 + v25;
 v33 = rotl64(v44 ^ v42, 48);
 v39 += v33;
 v40 = rotl64(v39 ^ v40, 1);
 v42 = t52 + v40;
 v22 = rotl64(v42 ^ v22, 32);
 v23 += v22;
 v40 = rotl64(v23 ^ v40, 40);
 v42 += v1 + v40;
 v22 = rotl64(v42 ^ v22, 48);
 v23 += v22;
 v40 = rotl64(v23 ^ v40, 1);
 v44 = v45 + v28 + v40;
 v29 = rotl64(v30 ^ v29, 1);
 v30 = v43 + v12 + v29;
 t53 = v30 + v2;
 v30 = rotl64(v30 ^ v33, 32);
 v31 += v32;
 v32 = v30 + v31;
 v29 = rotl64(v32 ^ v29, 40);
 v33 = t53 + v29;
 v30 = rotl64(v33 ^ v30, 48);
 v43 = rotl64(v44 ^ v30, 32);
 v13 = rotl64(v31 ^ v13, 1);
 v31 = v36 + v15 + v13;
 v21 = rotl64(v31 ^ v21, 32);
 t54 = v31 + v11;
 v31 = v21 + v39;
 v13 = rotl64(v31 ^ v13, 40);
 v36 = t54 + v13;
 v21 = rotl64(v36 ^ v21, 48);
 v31 += v21;
 v39 = v43 + v31;
 v40 = rotl64(v39 ^ v40, 40);
 v44 += v6 + v40;
 t55 = v33 + v17;
 v33 = rotl64(v45 ^ v41, 48);
 v37 += v33;
 v38 = rotl64(v37 ^ v38, 1);
 v41 = t55 + v38;
 v21 = rotl64(v41 ^ v21, 32);
 v23 += v21;
 v38 = rotl64(v23 ^ v38, 40);
 v41 += v18 + v38;
 v21 = rotl64(v41 ^ v21, 48);
 v23 += v21;
 v38 = rotl64(v23 ^ v38, 1);
 v45 = v44 + v18 + v38;
 v13 = rotl64(v31 ^ v13, 1);
 v31 = v42 + v24 + v13;
 t56 = v31 + v9;
 v31 = rotl64(v31 ^ v33, 32);
 v30 += v32;
 v32 = v31 + v30;
 v13 = rotl64(v32 ^ v13, 40);
 v33 = t56 + v13;
 v31 = rotl64(v33 ^ v31, 48);
 v42 = rotl64(v45 ^ v31, 32);
 v29 = rotl64(v30 ^ v29, 1);
 v30 = v36 + v8 + v29;
 v22 = rotl64(v30 ^ v22, 32);
 t57 = v30 + v19;
 v30 = v22 + v37;
 v29 = rotl64(v30 ^ v29, 40);
 v36 = t57 + v29;
 v22 = rotl64(v36 ^ v22, 48);
 v30 += v22;
 v37 = v42 + v30;
 v38 = rotl64(v37 ^ v38, 40);
 v45 += v15 + v38;
 t58 = v33 + v28;
 v33 = rotl64(v44 ^ v43, 48);
 v39 += v33;
 v40 = rotl64(v39 ^ v40, 1);
 v43 = t58 + v40;
 v22 = rotl64(v43 ^ v22, 32);
 v23 += v22;
 v40 = rotl64(v23 ^ v40, 40);
 v43 += v9 + v40;
 v22 = rotl64(v43 ^ v22, 48);
 v23 += v22;
 v40 = rotl64(v23 ^ v40, 1);
 v44 = v45 + v20 + v40;
 v29 = rotl64(v30 ^ v29, 1);
 v30 = v41 + v1 + v29;
 t59 = v30 + v6;
 v30 = rotl64(v30 ^ v33, 32);
 v31 += v32;
 v32 = v30 + v31;
 v29 = rotl64(v32 ^ v29, 40);
 v33 = t59 + v29;
 v30 = rotl64(v33 ^ v30, 48);
 v41 = rotl64(v44 ^ v30, 32);
 v13 = rotl64(v31 ^ v13, 1);
 v31 = v36 + v24 + v13;
 v21 = rotl64(v31 ^ v21, 32);
 t60 = v31 + v19;
 v31 = v21 + v39;
 v13 = rotl64(v31 ^ v13, 40);
 v36 = t60 + v13;
 v21 = rotl64(v36 ^ v21, 48);
 v31 += v21;
 v39 = v41 + v31;
 v40 = rotl64(v39 ^ v40, 40);
 v44 += v8 + v40;
 t61 = v33 + v2;
 v33 = rotl64(v45 ^ v42, 48);
 v37 += v33;
 v38 = rotl64(v37 ^ v38, 1);
 v42 = t61 + v38;
 v21 = rotl64(v42 ^ v21, 32);
 v23 += v21;
 v38 = rotl64(v23 ^ v38, 40);
 v42 += v12 + v38;
 v21 = rotl64(v42 ^ v21, 48);
 v23 += v21;
 v38 = rotl64(v23 ^ v38, 1);
 v45 = v44 + v6 + v38;
 v13 = rotl64(v31 ^ v13, 1);
 v31 = v43 + v17 + v13;
 t62 = v31 + v25;
 v31 = rotl64(v31 ^ v33, 32);
 v30 += v32;
 v32 = v31 + v30;
 v13 = rotl64(v32 ^ v13, 40);
 v33 = t62 + v13;
 v31 = rotl64(v33 ^ v31, 48);
 v43 = rotl64(v45 ^ v31, 32);
 v29 = rotl64(v30 ^ v29, 1);
 v30 = v36 + v11 + v29;
 v22 = rotl64(v30 ^ v22, 32);
 t63 = v30 + v10;
 v30 = v22 + v37;
 v29 = rotl64(v30 ^ v29, 40);
 v36 = t63 + v29;
 v22 = rotl64(v36 ^ v22, 48);
 v30 += v22;
 v37 = v43 + v30;
 v38 = rotl64(v37 ^ v38, 40);
 v45 += v9 + v38;
 t64 = v33 + v15;
 v33 = rotl64(v44 ^ v41, 48);
 v39 += v33;
 v40 = rotl64(v39 ^ v40, 1);
 v41 = t64 + v40;
 v22 = rotl64(v41 ^ v22, 32);
 v23 += v22;
 v40 = rotl64(v23 ^ v40, 40);
 v41 += v18 + v40;
 v22 = rotl64(v41 ^ v22, 48);
 v23 += v22;
 v40 = rotl64(v23 ^ v40, 1);
 v44 = v45 + v8 + v40;
 v29 = rotl64(v30 ^ v29, 1);
 v30 = v42 + v19 + v29;
 t65 = v30 + v20;
 v30 = rotl64(v30 ^ v33, 32);
 v31 += v32;
 v32 = v30 + v31;
 v29 = rotl64(v32 ^ v29, 40);
 v33 = t65 + v29;
 v30 = rotl64(v33 ^ v30, 48);
 v42 = rotl64(v44 ^ v30, 32);
 v13 = rotl64(v31 ^ v13, 1);
 v31 = v36 + v25 + v13;
 v21 = rotl64(v31 ^ v21, 32);
 t66 = v31 + v28;
 v31 = v21 + v39;
 v13 = rotl64(v31 ^ v13, 40);
 v36 = t66 + v13;
 v21 = rotl64(v36 ^ v21, 48);
 v31 += v21;
 v39 = v42 + v31;
 v40 = rotl64(v39 ^ v40, 40);
 v44 += v17 + v40;
 t67 = v33 + v24;
 v33 = rotl64(v45 ^ v43, 48);
 v37 += v33;
 v38 = rotl64(v37 ^ v38, 1);
 v43 = t67 + v38;
 v21 = rotl64(v43 ^ v21, 32);
 v23 += v21;
 v38 = rotl64(v23 ^ v38, 40);
 v43 += v10 + v38;
 v21 = rotl64(v43 ^ v21, 48);
 v23 += v21;
 v38 = rotl64(v23 ^ v38, 1);
 v45 = v44 + v2 + v38;
 v13 = rotl64(v31 ^ v13, 1);
 v31 = v41 + v12 + v13;
 t68 = v45 + v11;
 t69 = v31 + v11;
 v11 = rotl64(v31 ^ v33, 32);
 v30 += v32;
 v31 = v11 + v30;
 v13 = rotl64(v31 ^ v13, 40);
 v32 = t69 + v13;
 v11 = rotl64(v32 ^ v11, 48);
 v33 = rotl64(v45 ^ v11, 32);
 v29 = rotl64(v30 ^ v29, 1);
 v30 = v36 + v1 + v29;
 t70 = v30 + v2;
 v2 = rotl64(v30 ^ v22, 32);
 v22 = v2 + v37;
 v29 = rotl64(v22 ^ v29, 40);
 v30 = t70 + v29;
 v2 = rotl64(v30 ^ v2, 48);
 v22 += v2;
 v36 = v33 + v22;
 v37 = rotl64(v36 ^ v38, 40);
 v38 = t68 + v37;
 t71 = v32 + v17;
 v17 = rotl64(v44 ^ v42, 48);
 t72 = v38 + v10;
 v10 = v17 + v39;
 v32 = rotl64(v10 ^ v40, 1);
 v39 = t71 + v32;
 t73 = v39 + v15;
 v15 = rotl64(v39 ^ v2, 32);
 v2 = v15 + v23;
 v23 = rotl64(v2 ^ v32, 40);
 v32 = t73 + v23;
 v15 = rotl64(v32 ^ v15, 48);
 v2 += v15;
 v23 = rotl64(v2 ^ v23, 1);
 v39 = t72 + v23;
 t74 = v43 + v6;
 v6 = rotl64(v22 ^ v29, 1);
 t75 = v39 + v18;
 v18 = t74 + v6;
 t76 = v18 + v1;
 v1 = rotl64(v18 ^ v17, 32);
 v18 = v11 + v31;
 v17 = v1 + v18;
 v6 = rotl64(v17 ^ v6, 40);
 v11 = t76 + v6;
 v1 = rotl64(v11 ^ v1, 48);
 v22 = rotl64(v39 ^ v1, 32);
 v18 = rotl64(v18 ^ v13, 1);
 v12 = v30 + v12 + v18;
 t77 = v12 + v24;
 v24 = rotl64(v12 ^ v21, 32);
 v10 += v24;
 v18 = rotl64(v10 ^ v18, 40);
 v12 = t77 + v18;
 v24 = rotl64(v12 ^ v24, 48);
 v10 += v24;
 v13 = v22 + v10;
 v21 = rotl64(v13 ^ v23, 40);
 v23 = t75 + v21;
 v1 += v17;
 v6 = rotl64(v1 ^ v6, 1);
 v17 = v12 + v28 + v6;
 t78 = v17 + v8;
 v8 = rotl64(v17 ^ v15, 32);
 v15 = rotl64(v38 ^ v33, 48);
 v17 = v15 + v36;
 v28 = v8 + v17;
 v6 = rotl64(v28 ^ v6, 40);
 v12 = t78 + v6;
 v8 = rotl64(v12 ^ v8, 48);
 v28 += v8;
 store64(v0 + 16, v23 ^ v28 ^ v5);
 v17 = rotl64(v17 ^ v37, 1);
 v25 = v11 + v25 + v17;
 t79 = v19 + v25;
 v19 = rotl64(v25 ^ v24, 32);
 v25 = v19 + v2;
 v17 = rotl64(v25 ^ v17, 40);
 v2 = t79 + v17;
 t80 = v32 + v9;
 v9 = rotl64(v10 ^ v18, 1);
 v18 = t80 + v9;
 v15 = rotl64(v18 ^ v15, 32);
 v1 += v15;
 v9 = rotl64(v1 ^ v9, 40);
 v18 = v20 + v18 + v9;
 v15 = rotl64(v18 ^ v15, 48);
 v1 += v15;
 store64(v0 + 8, v26 ^ (v2 ^ v1));
 v19 = rotl64(v2 ^ v19, 48);
 v20 = v19 + v25;
 store64(v0 + 24, v14 ^ (v18 ^ v20));
 v18 = rotl64(v23 ^ v22, 48);
 v25 = v18 + v13;
 store64(v0, v34 ^ (v12 ^ v25));
 store64(v0 + 40, v27 ^ (v18 ^ rotl64(v28 ^ v6, 1)));
 store64(v0 + 32, v35 ^ (v19 ^ rotl64(v1 ^ v9, 1)));
 store64(v0 + 56, v16 ^ (v8 ^ rotl64(v25 ^ v21, 1)));
 store64(v0 + 48, v7 ^ (v15 ^ rotl64(v20 ^ v17, 1)));
 return;
}

/* blake2_compress::whole::blake2b::absorb_keyed */
APART void compress_whole_blake2b_absorb_keyed(u64 v0, u64 v1, u64 v2, u64 v3, u64 v4) {
 u64 v5, v6;
 FRAME(34);
 v5 = top - 256;
 v6 = v5;
 fill(v6, 0, 128);
 if (v2 == 0) goto l3;
 copy(v6, v1, v2);
l3:;
 if (!(v4 == 0)) goto l4;
 compress_compress_blake2b_compress(v0, v6, 128, 1, 0);
 goto l1;
l4:;
 compress_compress_blake2b_compress(v0, v6, 128, 0, 0);
 v1 = v4 - 1;
 v5 = v1 >> 7;
 if (v5 == 0) goto l5;
 v2 = 256;
l6:;
 compress_compress_blake2b_compress(v0, v3 + v2 - 256, v2, 0, 0);
 v2 += 128;
 v5 -= 1;
 if (v5 != 0) goto l6;
l5:;
 fill(v6 + 128, 0, 128);
 v2 = v1 & 0xffffffffffffff80;
 v5 = v4 - v2;
 if (v5 == 0) goto l7;
 copy(v6 + 128, v3 + v2, v5);
l7:;
 compress_compress_blake2b_compress(v0, v6 + 128, v4 + 128, 1, 0);
 goto l1;
l1:;
}

/* blake2_ffi::blake2b::write_digest */
APART void ffi_blake2b_write_digest(u64 v0, u64 v1, u64 v2, u64 v3, u64 v4) {
 u32 v8;
 u64 v5, v6, v7;
 FRAME(34);
 v5 = top - 256;
 v6 = load64(v4 + 16);
 v7 = load64(v4 + 8);
 fill(v5, 0, 64);
 v8 = load8(v4);
 store64(v5 + 120, 0x5be0cd19137e2179);
 store64(v5 + 112, 0x1f83d9abfb41bd6b);
 store64(v5 + 104, 0x9b05688c2b3e6c1f);
 store64(v5 + 96, 0x510e527fade682d1);
 store64(v5 + 88, 0xa54ff53a5f1d36f1);
 store64(v5 + 80, 0x3c6ef372fe94f82b);
 store64(v5 + 72, 0xbb67ae8584caa73b);
 store64(v5 + 64, (u64)((v8 ? ((((u32)v6 << 8) & 0xff00) | 0x1010000) : 0x1010000) | ((u32)v1 &
   255)) ^ 0x6a09e667f3bcc908);
 if (v8) goto l3;
 v7 = v3 - (u64)(u32)(v3 != 0);
 v6 = v7 >> 7;
 if (v6 == 0) goto l4;
 v4 = 128;
l5:;
 compress_compress_blake2b_compress(v5 + 64, v2 + v4 - 128, v4, 0, 0);
 v4 += 128;
 v6 -= 1;
 if (v6 != 0) goto l5;
l4:;
 fill(v5 + 128, 0, 128);
 v4 = v7 & 0xffffffffffffff80;
 v6 = v3 - v4;
 if (v6 == 0) goto l6;
 copy(v5 + 128, v2 + v4, v6);
l6:;
 compress_compress_blake2b_compress(v5 + 64, v5 + 128, v3, 1, 0);
 goto l2;
l3:;
 compress_whole_blake2b_absorb_keyed(v5 + 64, v7, v6, v2, v3);
l2:;
 store64(v5 + 56, load64(v5 + 120));
 store64(v5 + 48, load64(v5 + 112));
 store64(v5 + 40, load64(v5 + 104));
 store64(v5 + 32, load64(v5 + 96));
 store64(v5 + 24, load64(v5 + 88));
 store64(v5 + 16, load64(v5 + 80));
 store64(v5 + 8, load64(v5 + 72));
 store64(v5, load64(v5 + 64));
 if (v1 == 0) goto l7;
 copy(v0, v5, v1);
l7:;
 return;
}

/* blake2_ffi::blake2b::write_keyed */
APART u32 ffi_blake2b_write_keyed(u64 v0, u64 v1, u64 v2, u64 v3, u64 v4, u64 v5) {
 u32 v7;
 u64 v6;
 FRAME(6);
 v6 = top - 32;
 v7 = 0xffffffff;
 if (v3 > 0xffffffffffffff7f) goto l2;
 if ((v1 - 65) < 0xffffffffffffffc0) goto l2;
 if (v5 >= 65) goto l2;
 store64(v6 + 24, v5);
 store64(v6 + 16, v4);
 store64(v6 + 8, 1);
 ffi_blake2b_write_digest(v0, v1, v2, v3, v6 + 8);
 v7 = 0;
l2:;
 return v7;
}

SCRUB(digest_wiping_scrub_stack_1536, 3584)

/* rattle::export vulfsjor_ffi_blake2b */
APART u32 exported_blake2b(u64 v0, u64 v1, u64 v2, u64 v3, u64 v4, u64 v5) {
 u32 v9;
 u64 v6, v7, v8;
 FRAME(30);
 v6 = top - 224;
 v7 = v2 + (v2 == 0 ? UINT64_C(4096) : 0);
 v8 = v0 + (v0 == 0 ? UINT64_C(4096) : 0);
 fill(v6 + 16, 0, 16);
 if (v5 == 0) goto l4;
 v9 = ffi_blake2b_write_keyed(v8, v1, v7, v3, v4 + (v4 == 0 ? UINT64_C(4096) : 0), v5);
 digest_wiping_scrub_stack_1536();
 goto l1;
l4:;
 v9 = 0xffffffff;
 if ((v1 - 1) > 63) goto l1;
 if (v1 != 64) goto l2;
 store64(v6 + 88, 0x5be0cd19137e2179);
 store64(v6 + 80, 0x1f83d9abfb41bd6b);
 store64(v6 + 72, 0x9b05688c2b3e6c1f);
 store64(v6 + 64, 0x510e527fade682d1);
 store64(v6 + 56, 0xa54ff53a5f1d36f1);
 store64(v6 + 48, 0x3c6ef372fe94f82b);
 store64(v6 + 40, 0xbb67ae8584caa73b);
 store64(v6 + 32, 0x6a09e667f2bdc948);
 v5 = v3 - (u64)(u32)(v3 != 0);
 v0 = v5 >> 7;
 if (v0 == 0) goto l5;
 v2 = 128;
l6:;
 compress_compress_blake2b_compress(v6 + 32, v7 + v2 - 128, v2, 0, 0);
 v2 += 128;
 v0 -= 1;
 if (v0 != 0) goto l6;
l5:;
 v9 = 0;
 fill(v6 + 96, 0, 128);
 v2 = v5 & 0xffffffffffffff80;
 v0 = v3 - v2;
 if (v0 == 0) goto l7;
 copy(v6 + 96, v7 + v2, v0);
l7:;
 compress_compress_blake2b_compress(v6 + 32, v6 + 96, v3, 1, 0);
 v2 = load64(v6 + 32);
 v0 = load64(v6 + 40);
 v7 = load64(v6 + 48);
 v5 = load64(v6 + 56);
 v1 = load64(v6 + 64);
 v4 = load64(v6 + 72);
 v3 = load64(v6 + 80);
 store64(v8 + 56, load64(v6 + 88));
 store64(v8 + 48, v3);
 store64(v8 + 40, v4);
 store64(v8 + 32, v1);
 store64(v8 + 24, v5);
 store64(v8 + 16, v7);
 store64(v8 + 8, v0);
 store64(v8, v2);
 goto l1;
l2:;
 store64(v6 + 8, 0);
 ffi_blake2b_write_digest(v8, v1, v7, v3, v6 + 8);
 v9 = 0;
l1:;
 return v9;
}

/* __multi3 */
APART void multi3(u64 v0, u64 v1, u64 v2, u64 v3, u64 v4) {
 u64 v5, v6, t0;
 v5 = v3 >> 32;
 v6 = v1 >> 32;
 t0 = (v5 * v6) + (v2 * v3) + (v4 * v1);
 v3 &= 0xffffffff;
 v1 &= 0xffffffff;
 v2 = v3 * v1;
 v3 = (v2 >> 32) + (v3 * v6);
 v1 = (v3 & 0xffffffff) + (v5 * v1);
 store64(v0 + 8, t0 + (v3 >> 32) + (v1 >> 32));
 store64(v0, (v1 << 32) | (v2 & 0xffffffff));
}

SCRUB(digest_wiping_scrub_stack_9216, 11264)

/* blake2_state::blake2b::State::write_digest */
APART void state_blake2b_State_write_digest(u64 v0, u64 v1) {
 u64 v2, v3;
 FRAME(34);
 v2 = top - 256;
 fill(v2, 0, 64);
 store64(v2 + 120, load64(v0 + 56));
 store64(v2 + 112, load64(v0 + 48));
 store64(v2 + 104, load64(v0 + 40));
 store64(v2 + 96, load64(v0 + 32));
 store64(v2 + 88, load64(v0 + 24));
 store64(v2 + 80, load64(v0 + 16));
 store64(v2 + 72, load64(v0 + 8));
 store64(v2 + 64, load64(v0));
 v3 = (u64)load32(v0 + 136);
 fill(v2 + 128, 0, 128);
 if (v3 == 0) goto l2;
 copy(v2 + 128, v0 + 152, v3);
l2:;
 compress_compress_blake2b_compress(v2 + 64, v2 + 128, load64(v0 + 128) + v3, 1, (u32)(load32(v0 +
   148) != 0));
 store64(v2 + 56, load64(v2 + 120));
 store64(v2 + 48, load64(v2 + 112));
 store64(v2 + 40, load64(v2 + 104));
 store64(v2 + 32, load64(v2 + 96));
 store64(v2 + 24, load64(v2 + 88));
 store64(v2 + 16, load64(v2 + 80));
 store64(v2 + 8, load64(v2 + 72));
 store64(v2, load64(v2 + 64));
 v0 = (u64)load32(v0 + 144);
 if (v0 == 0) goto l3;
 copy(v1, v2, v0);
l3:;
 return;
}

/* blake2_digest::buffer::digest_into::<#33c1e97afcdf8a5d> */
APART u64 digest_buffer_digest_into_33c1e97afcdf8a5d(u64 v0, u64 v1, u64 v2, u64 v3, u64 v4) {
 u64 v6, v7, v8, v9, v10, v11, v12, t0, t1;
 v6 = 128 - v1;
 if (v3 <= v6) goto l8;
 if (v1 == 0) goto l5;
 v7 = v0 + v1;
 if ((v7 - v2) >= v6) goto l7;
 v8 = v6 & 3;
 v9 = 0;
 if ((v1 - 125) < 3) goto l9;
 v10 = v6 & 0xfffffffffffffffc;
 v9 = 0;
l10:;
 v11 = v7 + v9;
 v12 = v2 + v9;
 store8(v11, load8(v12));
 store8(v11 + 1, load8(v12 + 1));
 store8(v11 + 2, load8(v12 + 2));
 store8(v11 + 3, load8(v12 + 3));
 v9 += 4;
 if (v10 != v9) goto l10;
 if (v8 == 0) goto l6;
l9:;
 v11 = v2 + v9;
 v9 = v0 + (v9 + v1);
l11:;
 store8(v9, load8(v11));
 v9 += 1;
 v11 += 1;
 v8 -= 1;
 if (v8 != 0) goto l11;
 goto l6;
l8:;
 v8 = v0 + v1;
 if ((v8 - v2) >= v3) goto l13;
 v12 = v3 & 3;
 v4 = 0;
 if (v3 < 4) goto l14;
 v7 = v3 & 0xfffffffffffffffc;
 v4 = 0;
l15:;
 v11 = v8 + v4;
 v9 = v2 + v4;
 store8(v11, load8(v9));
 store8(v11 + 1, load8(v9 + 1));
 store8(v11 + 2, load8(v9 + 2));
 store8(v11 + 3, load8(v9 + 3));
 v4 += 4;
 if (v7 != v4) goto l15;
 if (v12 == 0) goto l12;
l14:;
 v11 = v2 + v4;
 v4 = v0 + (v4 + v1);
l16:;
 store8(v4, load8(v11));
 v4 += 1;
 v11 += 1;
 v12 -= 1;
 if (v12 != 0) goto l16;
 goto l12;
l13:;
 if (v3 == 0) goto l12;
 copy(v8, v2, v3);
l12:;
 return v3 + v1;
l7:;
 if (v6 == 0) goto l6;
 copy(v7, v2, v6);
l6:;
 v3 -= v6;
 v2 += v6;
 v11 = v4 + 128;
 t0 = v11;
 v11 = load64(v11) + 128;
 store64(t0, v11);
 compress_compress_blake2b_compress(v4, v0, v11, 0, 0);
l5:;
 v11 = v3 - (u64)(u32)(v3 != 0);
 v1 = v11 & 0xffffffffffffff80;
 v9 = v11 >> 7;
 if (v9 == 0) goto l17;
 v11 = v2;
l18:;
 v12 = v4 + 128;
 t1 = v12;
 v12 = load64(v12) + 128;
 store64(t1, v12);
 compress_compress_blake2b_compress(v4, v11, v12, 0, 0);
 v11 += 128;
 v9 -= 1;
 if (v9 != 0) goto l18;
l17:;
 fill(v0, 0, 128);
 v8 = v2 + v1;
 v7 = v3 - v1;
 if ((v0 - v8) >= v7) goto l19;
 v12 = v3 & 3;
 v4 = 0;
 if ((v1 - v3) > 0xfffffffffffffffc) goto l2;
 v3 = (v3 & 0xfffffffffffffffc) - v1;
 v4 = 0;
l20:;
 v11 = v0 + v4;
 v9 = v8 + v4;
 store8(v11, load8(v9));
 store8(v11 + 1, load8(v9 + 1));
 store8(v11 + 2, load8(v9 + 2));
 store8(v11 + 3, load8(v9 + 3));
 v4 += 4;
 if (v3 != v4) goto l20;
 goto l3;
l19:;
 if (v7 == 0) goto l1;
 copy(v0, v8, v7);
 return v7;
l3:;
 if (v12 == 0) goto l1;
l2:;
 v11 = v0 + v4;
 v4 = v2 + (v4 + v1);
l21:;
 store8(v11, load8(v4));
 v11 += 1;
 v4 += 1;
 v12 -= 1;
 if (v12 != 0) goto l21;
l1:;
 return v7;
}

/* blake2_state::blake2b::State::absorb_blocks */
APART void state_blake2b_State_absorb_blocks(u64 v0, u64 v1, u64 v2) {
 u32 v5;
 u64 v3, v4, v6, v7, v8, v9, v10, v11, v12, v13, v14, v15, v16, v17, v18, v19, v20, v21, v22, v23,
   t0;
 FRAME(20);
 v3 = top - 144;
 v4 = v3;
 v3 = v0 + 136;
 v5 = load32(v3);
 v6 = (u64)v5;
 if (v2 > (128 - v6)) goto l3;
 v7 = v0 + v6;
 v3 = v7 + 152;
 if ((v3 - v1) >= v2) goto l5;
 v8 = v2 & 3;
 v9 = 0;
 if (v2 < 4) goto l6;
 v10 = v2 & 0xfffffffffffffffc;
 v9 = 0;
l7:;
 v3 = v7 + v9;
 v11 = v1 + v9;
 store8(v3 + 152, load8(v11));
 store8(v3 + 153, load8(v11 + 1));
 store8(v3 + 154, load8(v11 + 2));
 store8(v3 + 155, load8(v11 + 3));
 v9 += 4;
 if (v10 != v9) goto l7;
 if (v8 == 0) goto l4;
l6:;
 v3 = v1 + v9;
 v9 += v6 + v0 + 152;
l8:;
 store8(v9, load8(v3));
 v9 += 1;
 v3 += 1;
 v8 -= 1;
 if (v8 != 0) goto l8;
 goto l4;
l5:;
 if (v2 == 0) goto l4;
 copy(v3, v1, v2);
l4:;
 store32(v0 + 136, v5 + (u32)v2);
 goto l2;
l3:;
 v5 = load32(v0 + 148);
 v9 = v0 + 128;
 v11 = load64(v9);
 v8 = load64(v0 + 64);
 v7 = load64(v0 + 72);
 v10 = load64(v0 + 80);
 v12 = load64(v0 + 88);
 v13 = load64(v0 + 96);
 v14 = load64(v0 + 104);
 v15 = load64(v0 + 112);
 v16 = load64(v0);
 v17 = load64(v0 + 8);
 v18 = load64(v0 + 16);
 v19 = load64(v0 + 24);
 v20 = load64(v0 + 32);
 v21 = load64(v0 + 40);
 v22 = load64(v0 + 48);
 v23 = load64(v0 + 56);
 store64(v4 + 120, load64(v0 + 120));
 store64(v4 + 112, v15);
 store64(v4 + 104, v14);
 store64(v4 + 96, v13);
 store64(v4 + 88, v12);
 store64(v4 + 80, v10);
 store64(v4 + 72, v7);
 store64(v4 + 64, v8);
 store64(v4 + 56, v23);
 store64(v4 + 48, v22);
 store64(v4 + 40, v21);
 store64(v4 + 32, v20);
 store64(v4 + 24, v19);
 store64(v4 + 16, v18);
 store64(v4 + 8, v17);
 store64(v4, v16);
 store64(v4 + 128, v11);
 store64(v4 + 136, (u64)(u32)(v5 != 0));
 t0 = digest_buffer_digest_into_33c1e97afcdf8a5d(v0 + 152, v6, v1, v2, v4);
 store32(v3, t0);
 store64(v0 + 56, load64(v4 + 56));
 store64(v0 + 48, load64(v4 + 48));
 store64(v0 + 40, load64(v4 + 40));
 store64(v0 + 32, load64(v4 + 32));
 store64(v0 + 24, load64(v4 + 24));
 store64(v0 + 16, load64(v4 + 16));
 store64(v0 + 8, load64(v4 + 8));
 store64(v0, load64(v4));
 store64(v9, load64(v4 + 128));
l2:;
 return;
}

/* blake2_ffi::blake2b::many::write_all */
APART void ffi_blake2b_many_write_all(u64 v0, u64 v1, u64 v2, u64 v3, u64 v4) {
 u32 v21, v22;
 u64 v5, v7, v8, v9, v10, v11, v12, v13, v14, v15, v16, v17, v18, v19, v20, v23, v24;
 FRAME(74);
 (void)v1;
 v5 = top;
 v5 = (v5 - 544) & 0xffffffffffffffe0;
 if (v4 == 0) goto l2;
 v7 = (v5 + 352) | 16;
 v8 = v5 + 480;
 v9 = v5 + 288;
 v10 = v5 + 160;
 v11 = 0;
l3:;
 v12 = load64(v2);
 if ((v12 - 1) > 63) goto l4;
 v13 = load64(v2 + 16);
 if (v13 > 64) goto l4;
 v14 = load64(v2 + 32);
 if (v14 > 16) goto l4;
 v15 = load64(v2 + 48);
 if (v15 > 16) goto l4;
 v16 = v12 * v11;
 v17 = load64(v3 + 8);
 v18 = load64(v3);
 v19 = load64(v2 + 40);
 v20 = load64(v2 + 24);
 if (v13 != 0) goto l6;
 fill(v5 + 352, 0, 32);
 if (v14 == 0) goto l7;
 copy(v5 + 352, v20, v14);
l7:;
 if (v15 == 0) goto l8;
 copy(v7, v19, v15);
l8:;
 v20 = load64(v5 + 352);
 v19 = load64(v5 + 360);
 v15 = load64(v5 + 368);
 v14 = load64(v5 + 376);
 v21 = 0;
 fill(v5 + 416, 0, 128);
 fill(v5 + 352, 0, 64);
 v22 = (u32)v12;
 v12 = (u64)(v22 | 0x1010000) ^ 0x6a09e667f3bcc908;
 v14 ^= 0x5be0cd19137e2179;
 v15 ^= 0x1f83d9abfb41bd6b;
 v19 ^= 0x9b05688c2b3e6c1f;
 v20 ^= 0x510e527fade682d1;
 goto l5;
l6:;
 v23 = load64(v2 + 8);
 fill(v5 + 352, 0, 32);
 if (v14 == 0) goto l9;
 copy(v5 + 352, v20, v14);
l9:;
 if (v15 == 0) goto l10;
 copy(v7, v19, v15);
l10:;
 v20 = load64(v5 + 352);
 v19 = load64(v5 + 360);
 v15 = load64(v5 + 368);
 v14 = load64(v5 + 376);
 v24 = v13 > 63 ? 0 : (64 - v13);
 if (v24 == 0) goto l11;
 fill(v5 + 352 + v13, 0, v24);
l11:;
 if (v13 == 0) goto l12;
 copy(v5 + 352, v23, v13);
l12:;
 fill(v8, 0, 64);
 store64(v5 + 416, load64(v5 + 352));
 store64(v5 + 424, load64(v5 + 360));
 store64(v5 + 432, load64(v5 + 368));
 store64(v5 + 440, load64(v5 + 376));
 store64(v5 + 448, load64(v5 + 384));
 store64(v5 + 456, load64(v5 + 392));
 store64(v5 + 464, load64(v5 + 400));
 store64(v5 + 472, load64(v5 + 408));
 v22 = (u32)v12;
 v12 = (u64)(((u32)v13 << 8) | v22 | 0x1010000) ^ 0x6a09e667f3bcc908;
 v14 ^= 0x5be0cd19137e2179;
 v15 ^= 0x1f83d9abfb41bd6b;
 v19 ^= 0x9b05688c2b3e6c1f;
 v20 ^= 0x510e527fade682d1;
 v21 = 128;
l5:;
 v16 += v0;
 store32(v5 + 156, 0);
 store32(v5 + 152, v22);
 store32(v5 + 148, v21);
 store32(v5 + 144, v21);
 store64(v5 + 136, 0);
 store64(v5 + 128, v14);
 store64(v5 + 120, v15);
 store64(v5 + 112, v19);
 store64(v5 + 104, v20);
 store64(v5 + 96, 0xa54ff53a5f1d36f1);
 store64(v5 + 88, 0x3c6ef372fe94f82b);
 store64(v5 + 80, 0xbb67ae8584caa73b);
 store64(v5 + 72, v12);
 store64(v5 + 64, v14);
 store64(v5 + 56, v15);
 store64(v5 + 48, v19);
 store64(v5 + 40, v20);
 store64(v5 + 32, 0xa54ff53a5f1d36f1);
 store64(v5 + 24, 0x3c6ef372fe94f82b);
 store64(v5 + 16, 0xbb67ae8584caa73b);
 store64(v5 + 8, v12);
 copy(v10, v5 + 416, 128);
 store64(v9 + 56, load64(v5 + 408));
 store64(v9 + 48, load64(v5 + 400));
 store64(v9 + 40, load64(v5 + 392));
 store64(v9 + 32, load64(v5 + 384));
 store64(v9 + 24, load64(v5 + 376));
 store64(v9 + 16, load64(v5 + 368));
 store64(v9 + 8, load64(v5 + 360));
 store64(v9, load64(v5 + 352));
 if (v17 == 1) goto l14;
 state_blake2b_State_absorb_blocks(v5 + 8, v18, v17);
 goto l13;
l14:;
 if (v13 == 0) goto l15;
 state_blake2b_State_absorb_blocks(v5 + 8, v18, 1);
 goto l13;
l15:;
 store8(v10 + (u64)v21, load8(v18));
 store32(v5 + 144, v21 | 1);
l13:;
 state_blake2b_State_write_digest(v5 + 8, v16);
l4:;
 v3 += 16;
 v11 += 1;
 if (v4 != v11) goto l3;
l2:;
 return;
}

/* rattle::export vulfsjor_ffi_blake2b_many */
APART u32 exported_blake2b_many(u64 v0, u64 v1, u64 v2, u64 v3, u64 v4, u64 v5, u64 v6, u64 v7, u64
        v8, u64 v9, u64 v10) {
 u32 v12;
 u64 v11;
 FRAME(12);
 v11 = top - 80;
 store64(v11 + 72, v10);
 store64(v11 + 56, v8);
 store64(v11 + 40, v6);
 store64(v11 + 64, v9 + (v9 == 0 ? UINT64_C(4096) : 0));
 store64(v11 + 48, v7 + (v7 == 0 ? UINT64_C(4096) : 0));
 store64(v11 + 32, v5 + (v5 == 0 ? UINT64_C(4096) : 0));
 store64(v11 + 24, v2);
 v12 = 0xffffffff;
 if ((v2 - 1) > 63) goto l1;
 if (v6 > 64) goto l1;
 if (v8 > 16) goto l1;
 if (v10 > 16) goto l1;
 multi3(v11, v4, 0, v2, 0);
 if (((load64(v11) ^ v1) | load64(v11 + 8)) != 0) goto l1;
 v7 = v3 + (v3 == 0 ? UINT64_C(4096) : 0);
 v5 = v0 + (v0 == 0 ? UINT64_C(4096) : 0);
 if (v6 == 0) goto l3;
 v2 = v7 + 8;
 v6 = 0xffffffffffffffff;
l6:;
 v6 += 1;
 if (v4 == v6) goto l5;
 v9 = load64(v2);
 v2 += 16;
 if (v9 <= 0xffffffffffffff7f) goto l6;
 goto l1;
l5:;
 ffi_blake2b_many_write_all(v5, v1, v11 + 24, v7, v4);
 digest_wiping_scrub_stack_9216();
 goto l2;
l3:;
 ffi_blake2b_many_write_all(v5, v1, v11 + 24, v7, v4);
l2:;
 v12 = 0;
l1:;
 return v12;
}

/* blake2_ffi::blake2b::initialize */
APART u32 ffi_blake2b_initialize(u64 v0, u64 v1, u64 v2) {
 u32 v9, v10, v13, v14, v15, v16, v17, v18, v19, v20, v21, t0, t1;
 u64 v3, v5, v6, v7, v8, v11, v12;
 FRAME(58);
 v3 = top;
 v3 = (v3 - 416) & 0xffffffffffffffe0;
 v5 = load64(v1);
 if ((v5 - 1) > 63) goto l2;
 v6 = load64(v1 + 16);
 if (v6 > 64) goto l2;
 v7 = load64(v1 + 32);
 if (v7 > 16) goto l2;
 v8 = load64(v1 + 48);
 if (v8 > 16) goto l2;
 v9 = load8(v2 + 1);
 if (v9 == 0) goto l2;
 v10 = load8(v2 + 17);
 if ((v10 & 255) > 64) goto l2;
 v11 = load64(v1 + 40);
 v12 = load64(v1 + 24);
 v13 = load16(v2 + 14);
 v14 = load16(v2 + 12);
 v15 = load16(v2 + 10);
 v16 = load16(v2 + 8);
 v17 = load16(v2 + 6);
 v18 = load16(v2 + 4);
 v19 = load8(v2 + 16);
 v20 = load8(v2);
 if (v6 != 0) goto l4;
 fill(v3 + 192, 0, 32);
 if (v7 == 0) goto l5;
 copy(v3 + 192, v12, v7);
l5:;
 if (v8 == 0) goto l6;
 copy((v3 + 192) | 16, v11, v8);
l6:;
 v11 = load64(v3 + 192);
 v12 = load64(v3 + 200);
 v8 = load64(v3 + 208);
 v7 = load64(v3 + 216);
 v21 = 0;
 fill(v3 + 64, 0, 128);
 fill(v3, 0, 64);
 t0 = (v20 << 16) | (v9 << 24);
 v9 = (u32)v5;
 v2 = ((u64)(t0 | v9) | ((u64)((v18 & 0xffff) | (v17 << 16)) << 32)) ^ 0x6a09e667f3bcc908;
 v1 = ((u64)((v16 & 0xffff) | (v15 << 16)) | ((u64)((v14 & 0xffff) | (v13 << 16)) << 32)) ^
   0xbb67ae8584caa73b;
 v6 = (u64)(((v10 << 8) | (v19 & 255)) & 0xffff) ^ 0x3c6ef372fe94f82b;
 v7 ^= 0x5be0cd19137e2179;
 v8 ^= 0x1f83d9abfb41bd6b;
 v5 = v12 ^ 0x9b05688c2b3e6c1f;
 v11 ^= 0x510e527fade682d1;
 goto l3;
l4:;
 v2 = load64(v1 + 8);
 fill(v3 + 192, 0, 32);
 if (v7 == 0) goto l7;
 copy(v3 + 192, v12, v7);
l7:;
 if (v8 == 0) goto l8;
 copy((v3 + 192) | 16, v11, v8);
l8:;
 v11 = load64(v3 + 192);
 v12 = load64(v3 + 200);
 v8 = load64(v3 + 208);
 v7 = load64(v3 + 216);
 v1 = v6 > 63 ? 0 : (64 - v6);
 if (v1 == 0) goto l9;
 fill(v3 + 224 + v6, 0, v1);
l9:;
 if (v6 == 0) goto l10;
 copy(v3 + 224, v2, v6);
l10:;
 fill(v3 + 352, 0, 64);
 store64(v3 + 288, load64(v3 + 224));
 store64(v3 + 296, load64(v3 + 232));
 store64(v3 + 304, load64(v3 + 240));
 store64(v3 + 312, load64(v3 + 248));
 store64(v3 + 320, load64(v3 + 256));
 store64(v3 + 328, load64(v3 + 264));
 store64(v3 + 336, load64(v3 + 272));
 store64(v3 + 344, load64(v3 + 280));
 copy(v3 + 64, v3 + 288, 128);
 store64(v3 + 56, load64(v3 + 280));
 store64(v3 + 48, load64(v3 + 272));
 store64(v3 + 40, load64(v3 + 264));
 store64(v3 + 32, load64(v3 + 256));
 store64(v3 + 24, load64(v3 + 248));
 store64(v3 + 16, load64(v3 + 240));
 store64(v3 + 8, load64(v3 + 232));
 store64(v3, load64(v3 + 224));
 v1 = ((u64)((v16 & 0xffff) | (v15 << 16)) | ((u64)((v14 & 0xffff) | (v13 << 16)) << 32)) ^
   0xbb67ae8584caa73b;
 t1 = (v20 << 16) | (((u32)v6 << 8) & 0xff00) | (v9 << 24);
 v9 = (u32)v5;
 v2 = ((u64)(t1 | v9) | ((u64)((v18 & 0xffff) | (v17 << 16)) << 32)) ^ 0x6a09e667f3bcc908;
 v6 = (u64)(((v10 << 8) | (v19 & 255)) & 0xffff) ^ 0x3c6ef372fe94f82b;
 v7 ^= 0x5be0cd19137e2179;
 v8 ^= 0x1f83d9abfb41bd6b;
 v5 = v12 ^ 0x9b05688c2b3e6c1f;
 v11 ^= 0x510e527fade682d1;
 v21 = 128;
l3:;
 store32(v0 + 148, 0);
 store32(v0 + 144, v9);
 store32(v0 + 140, v21);
 store32(v0 + 136, v21);
 store64(v0 + 128, 0);
 store64(v0 + 120, v7);
 store64(v0 + 112, v8);
 store64(v0 + 104, v5);
 store64(v0 + 96, v11);
 store64(v0 + 88, 0xa54ff53a5f1d36f1);
 store64(v0 + 80, v6);
 store64(v0 + 72, v1);
 store64(v0 + 64, v2);
 store64(v0 + 56, v7);
 store64(v0 + 48, v8);
 store64(v0 + 40, v5);
 store64(v0 + 32, v11);
 store64(v0 + 24, 0xa54ff53a5f1d36f1);
 store64(v0 + 16, v6);
 store64(v0 + 8, v1);
 store64(v0, v2);
 copy(v0 + 152, v3 + 64, 128);
 store64(v0 + 336, load64(v3 + 56));
 store64(v0 + 328, load64(v3 + 48));
 store64(v0 + 320, load64(v3 + 40));
 store64(v0 + 312, load64(v3 + 32));
 store64(v0 + 304, load64(v3 + 24));
 store64(v0 + 296, load64(v3 + 16));
 store64(v0 + 288, load64(v3 + 8));
 store64(v0 + 280, load64(v3));
 return 0;
l2:;
 fill(v0, 0, 344);
 return 0xffffffff;
}

SCRUB(digest_wiping_scrub_stack_1024, 3072)

/* rattle::export vulfsjor_ffi_blake2b_init_salt_personal */
APART u32 exported_blake2b_init_salt_personal(u64 v0, u64 v1, u64 v2, u64 v3, u64 v4, u64 v5, u64
        v6, u64 v7) {
 u32 v9;
 u64 v8;
 FRAME(12);
 v8 = top - 80;
 store64(v8 + 72, v7);
 store64(v8 + 56, v5);
 store64(v8 + 24, v1);
 store64(v8 + 2, 0);
 store16(v8, 257);
 store64(v8 + 10, 0);
 store64(v8 + 16, 0);
 store64(v8 + 64, v6 + (v6 == 0 ? UINT64_C(4096) : 0));
 store64(v8 + 48, v4 + (v4 == 0 ? UINT64_C(4096) : 0));
 store64(v8 + 32, v2 + (v2 == 0 ? UINT64_C(4096) : 0));
 store64(v8 + 40, v3);
 v9 = ffi_blake2b_initialize(v0, v8 + 24, v8);
 if (v3 == 0) goto l2;
 digest_wiping_scrub_stack_1024();
l2:;
 return v9;
}

/* rattle::export vulfsjor_ffi_blake2b_init_key */
APART u32 exported_blake2b_init_key(u64 v0, u64 v1, u64 v2, u64 v3) {
 u32 v5;
 u64 v4;
 FRAME(12);
 v4 = top - 80;
 if (v3 != 0) goto l2;
 fill(v0, 0, 344);
 v5 = 0xffffffff;
 goto l1;
l2:;
 store64(v4 + 72, 0);
 store64(v4 + 64, 0x100000);
 store64(v4 + 56, 0);
 store64(v4 + 48, 0x100000);
 store64(v4 + 40, v3);
 store64(v4 + 32, v2 + (v2 == 0 ? UINT64_C(4096) : 0));
 store64(v4 + 24, v1);
 store64(v4 + 2, 0);
 store16(v4, 257);
 store64(v4 + 10, 0);
 store64(v4 + 16, 0);
 v5 = ffi_blake2b_initialize(v0, v4 + 24, v4);
 digest_wiping_scrub_stack_1024();
l1:;
 return v5;
}

/* rattle::export vulfsjor_ffi_blake2b_init_tree */
APART u32 exported_blake2b_init_tree(u64 v0, u64 v1, u64 v2, u64 v3, u64 v4, u64 v5, u64 v6, u64 v7,
        u64 v8) {
 u32 v10, v11;
 u64 v9;
 FRAME(12);
 v9 = top - 80;
 store32(v9 + 74, 0);
 store16(v9 + 58, 0);
 store16(v9 + 78, 0);
 store64(v9 + 64, load64(v8));
 v10 = load8(v8 + 15);
 store8(v9 + 73, v10);
 store8(v9 + 72, load8(v8 + 14));
 store32(v9 + 60, load32(v8 + 8));
 v11 = load8(v8 + 13);
 store8(v9 + 57, v11);
 store8(v9 + 56, load8(v8 + 12));
 if (v11 == 0) goto l4;
 if ((v10 & 255) < 65) goto l3;
l4:;
 fill(v0, 0, 344);
 v11 = 0xffffffff;
 goto l2;
l3:;
 store64(v9 + 48, v7);
 store64(v9 + 40, v6 + (v6 == 0 ? UINT64_C(4096) : 0));
 store64(v9 + 32, v5);
 store64(v9 + 24, v4 + (v4 == 0 ? UINT64_C(4096) : 0));
 store64(v9 + 8, v2 + (v2 == 0 ? UINT64_C(4096) : 0));
 store64(v9, v1);
 store64(v9 + 16, v3);
 v11 = ffi_blake2b_initialize(v0, v9, v9 + 56);
 if (v3 == 0) goto l2;
 digest_wiping_scrub_stack_1024();
l2:;
 return v11;
}

/* rattle::export vulfsjor_ffi_blake2b_init_param */
APART u32 exported_blake2b_init_param(u64 v0, u64 v1, u64 v2) {
 u64 v3, v4, v5, v6, v7, v8, v9;
 if (v2 != 64) goto l1;
 v1 += (v1 == 0 ? UINT64_C(4096) : 0);
 if (((load8(v1) - 65) & 255) < 192) goto l1;
 if (load8(v1 + 1) > 64) goto l1;
 v3 = load64(v1 + 56);
 v4 = load64(v1 + 48);
 v5 = load64(v1 + 40);
 v6 = load64(v1 + 32);
 v2 = load64(v1);
 v7 = load64(v1 + 24);
 v8 = load64(v1 + 16);
 v1 = load64(v1 + 8) ^ 0xbb67ae8584caa73b;
 store64(v0 + 8, v1);
 v8 ^= 0x3c6ef372fe94f82b;
 store64(v0 + 16, v8);
 v7 ^= 0xa54ff53a5f1d36f1;
 store64(v0 + 24, v7);
 v9 = v2 ^ 0x6a09e667f3bcc908;
 store64(v0 + 64, v9);
 store64(v0 + 72, v1);
 store64(v0 + 80, v8);
 store64(v0 + 88, v7);
 fill(v0 + 128, 0, 16);
 store64(v0, v9);
 v1 = v6 ^ 0x510e527fade682d1;
 store64(v0 + 32, v1);
 v5 ^= 0x9b05688c2b3e6c1f;
 store64(v0 + 40, v5);
 v4 ^= 0x1f83d9abfb41bd6b;
 store64(v0 + 48, v4);
 v3 ^= 0x5be0cd19137e2179;
 store64(v0 + 56, v3);
 store64(v0 + 96, v1);
 store64(v0 + 104, v5);
 store64(v0 + 112, v4);
 store64(v0 + 120, v3);
 store32(v0 + 144, (u32)v2 & 255);
 fill(v0 + 148, 0, 196);
 return 0;
l1:;
 fill(v0, 0, 344);
 return 0xffffffff;
}

/* blake2_ffi::blake2b::update_in_frame */
APART void ffi_blake2b_update_in_frame(u64 v0, u64 v1, u64 v2) {
 u32 v4, v5;
 if (v2 == 1) goto l2;
 state_blake2b_State_absorb_blocks(v0, v1, v2);
 return;
l2:;
 v2 = v0 + 136;
 v4 = load32(v2);
 if (v4 < 128) goto l3;
 state_blake2b_State_absorb_blocks(v0, v1, 1);
 return;
l3:;
 v5 = load8(v1);
 store32(v2, v4 + 1);
 store8(v0 + (u64)v4 + 152, v5);
 return;
}

SCRUB(digest_wiping_scrub_stack_1152, 3200)

/* blake2_ffi::blake2b::update_scrubbed */
APART void ffi_blake2b_update_scrubbed(u64 v0, u64 v1, u64 v2) {
 ffi_blake2b_update_in_frame(v0, v1, v2);
 digest_wiping_scrub_stack_1152();
 return;
}

/* rattle::export vulfsjor_ffi_blake2b_update */
APART u32 exported_blake2b_update(u64 v0, u64 v1, u64 v2) {
 u32 v4, v5, v6;
 u64 v7, v8;
 v4 = 0xffffffff;
 if ((load32(v0 + 144) - 1) > 63) goto l1;
 v5 = load32(v0 + 136);
 if (v5 > 128) goto l1;
 v6 = load32(v0 + 140);
 if (v6 > 128) goto l1;
 v4 = 0xffffffff;
 v7 = load64(v0 + 128);
 if (v7 > sign64(~v5, 0x80000000)) goto l1;
 v8 = (u64)v5;
 if (v2 > (~(v7 + v8))) goto l1;
 v1 += (v1 == 0 ? UINT64_C(4096) : 0);
 if (v7 >= (u64)v6) goto l5;
 ffi_blake2b_update_scrubbed(v0, v1, v2);
 goto l2;
l5:;
 if (v2 == 1) goto l6;
 state_blake2b_State_absorb_blocks(v0, v1, v2);
 goto l2;
l6:;
 if (v5 != 128) goto l3;
 state_blake2b_State_absorb_blocks(v0, v1, 1);
 goto l2;
l3:;
 v4 = load8(v1);
 store32(v0 + 136, v5 + 1);
 store8(v0 + v8 + 152, v4);
l2:;
 v4 = 0;
l1:;
 return v4;
}

/* blake2_ffi::several::blake2b::update_in_frame */
APART void ffi_several_blake2b_update_in_frame(u64 v0, u64 v1, u64 v2) {
 u32 v6, v7;
 u64 v4, v5;
 if (v2 == 0) goto l2;
l3:;
 v4 = load64(v1);
 v5 = load64(v1 + 8);
 if (v5 == 1) goto l5;
 state_blake2b_State_absorb_blocks(v0, v4, v5);
 goto l4;
l5:;
 v5 = v0 + 136;
 v6 = load32(v5);
 if (v6 < 128) goto l6;
 state_blake2b_State_absorb_blocks(v0, v4, 1);
 goto l4;
l6:;
 v7 = load8(v4);
 store32(v5, v6 + 1);
 store8(v0 + (u64)v6 + 152, v7);
l4:;
 v0 += 344;
 v1 += 16;
 v2 -= 1;
 if (v2 != 0) goto l3;
l2:;
 return;
}

/* rattle::export vulfsjor_ffi_blake2b_update_many */
APART u32 exported_blake2b_update_many(u64 v0, u64 v1, u64 v2, u64 v3) {
 u32 v5, v8;
 u64 v6, v7, v9;
 v5 = 0xffffffff;
 if (v3 != v1) goto l1;
 v6 = v2 + (v2 == 0 ? UINT64_C(4096) : 0);
 v7 = v0 + (v0 == 0 ? UINT64_C(4096) : 0);
 if (v3 == 0) goto l5;
 v2 = v7 + 128;
 v0 = v6 + 8;
 v1 = v3;
l6:;
 v5 = 0xffffffff;
 if ((load32(v2 + 16) - 1) > 63) goto l1;
 v8 = load32(v2 + 8);
 if (v8 > 128) goto l1;
 if (load32(v2 + 12) > 128) goto l1;
 v5 = 0xffffffff;
 v9 = load64(v2);
 if (v9 > sign64(~v8, 0x80000000)) goto l1;
 if (load64(v0) > (~(v9 + (u64)v8))) goto l1;
 v2 += 344;
 v0 += 16;
 v1 -= 1;
 if (!(v1 == 0)) goto l6;
l5:;
 v2 = v7 + 140;
 v0 = 0xffffffffffffffff;
l7:;
 v0 += 1;
 if (v3 == v0) goto l3;
 v1 = v2 - 12;
 v9 = (u64)load32(v2);
 v2 += 344;
 if (load64(v1) >= v9) goto l7;
 ffi_several_blake2b_update_in_frame(v7, v6, v3);
 digest_wiping_scrub_stack_9216();
 goto l2;
l3:;
 ffi_several_blake2b_update_in_frame(v7, v6, v3);
l2:;
 v5 = 0;
l1:;
 return v5;
}

/* blake2_ffi::blake2b::finalize */
APART void ffi_blake2b_finalize(u64 v0, u64 v1) {
 state_blake2b_State_write_digest(v0, v1);
 fill(v0, 0, 344);
 return;
}

SCRUB(digest_wiping_scrub_stack_1664, 3712)

/* rattle::export vulfsjor_ffi_blake2b_final */
APART u32 exported_blake2b_final(u64 v0, u64 v1, u64 v2) {
 u32 v4, v5, v6, v7;
 u64 v8;
 v4 = 0xffffffff;
 v5 = load32(v0 + 144);
 if ((v5 - 1) > 63) goto l2;
 v6 = load32(v0 + 136);
 if (v6 > 128) goto l2;
 v7 = load32(v0 + 140);
 if (v7 > 128) goto l2;
 v4 = 0xffffffff;
 v8 = load64(v0 + 128);
 if (v8 > sign64(~v6, 0x80000000)) goto l2;
 if (v2 != (u64)v5) goto l2;
 ffi_blake2b_finalize(v0, v1 + (v1 == 0 ? UINT64_C(4096) : 0));
 v4 = 0;
 if (v8 >= (u64)v7) goto l2;
 digest_wiping_scrub_stack_1664();
l2:;
 return v4;
}

/* blake2_ffi::blake2b::is_digest_of */
APART u32 ffi_blake2b_is_digest_of(u64 v0, u64 v1, u64 v2) {
 u32 v5;
 u64 v3, v4, v6, v7;
 FRAME(10);
 v3 = top - 64;
 v4 = v3;
 fill(v4, 0, 64);
 state_blake2b_State_write_digest(v0, v4);
 if (v2 == (u64)load32(v0 + 144)) goto l3;
 v5 = 0;
 goto l2;
l3:;
 if (!(v2 == 0)) goto l4;
 v5 = 1;
 goto l2;
l4:;
 v6 = v2 & 3;
 if (v2 >= 4) goto l7;
 v0 = 0;
 v5 = 0;
 goto l6;
l7:;
 v7 = v2 & 0xfffffffffffffffc;
 v0 = 0;
 v5 = 0;
l8:;
 v2 = v4 + v0;
 v3 = v1 + v0;
 v5 = (load8(v2 + 3) ^ load8(v3 + 3)) | ((load8(v2 + 2) ^ load8(v3 + 2)) | ((load8(v2 + 1) ^
   load8(v3 + 1)) | ((load8(v2) ^ load8(v3)) | v5)));
 v0 += 4;
 if (v7 != v0) goto l8;
 if (v6 == 0) goto l5;
l6:;
 v2 = v1 + v0;
 v0 += v4;
l9:;
 v5 |= (load8(v0) ^ load8(v2));
 v2 += 1;
 v0 += 1;
 v6 -= 1;
 if (v6 != 0) goto l9;
l5:;
 v5 = (u32)((v5 & 255) == 0);
l2:;
 return v5;
}

/* rattle::export vulfsjor_ffi_blake2b_verify */
APART u32 exported_blake2b_verify(u64 v0, u64 v1, u64 v2) {
 u32 v4, v5, v6;
 u64 v7;
 v4 = 0xffffffff;
 if ((load32(v0 + 144) - 1) > 63) goto l2;
 v5 = load32(v0 + 136);
 if (v5 > 128) goto l2;
 v6 = load32(v0 + 140);
 if (v6 > 128) goto l2;
 v4 = 0xffffffff;
 v7 = load64(v0 + 128);
 if (v7 > sign64(~v5, 0x80000000)) goto l2;
 if (((u64)load8(v0 + 65) << 8) == 0xc900) goto l2;
 v4 = ffi_blake2b_is_digest_of(v0, v1 + (v1 == 0 ? UINT64_C(4096) : 0), v2);
 fill(v0, 0, 344);
 if (v7 >= (u64)v6) goto l3;
 digest_wiping_scrub_stack_1664();
l3:;
 v4 -= 1;
l2:;
 return v4;
}

/* rattle::export vulfsjor_ffi_blake2b_set_last_node */
APART u32 exported_blake2b_set_last_node(u64 v0, u32 v1) {
 u32 v2, v3;
 v2 = 0xffffffff;
 if ((load32(v0 + 144) - 1) > 63) goto l2;
 v3 = load32(v0 + 136);
 if (v3 > 128) goto l2;
 if (load32(v0 + 140) > 128) goto l2;
 v2 = 0xffffffff;
 if (load64(v0 + 128) > sign64(~v3, 0x80000000)) goto l2;
 v2 = 0;
 store32(v0 + 148, (u32)(v1 != 0));
l2:;
 return v2;
}

/* rattle::export vulfsjor_ffi_blake2b_reset */
APART u32 exported_blake2b_reset(u64 v0) {
 u32 v1, v2, v3;
 u64 v4;
 v1 = 0xffffffff;
 if ((load32(v0 + 144) - 1) > 63) goto l2;
 v2 = load32(v0 + 136);
 if (v2 > 128) goto l2;
 v3 = load32(v0 + 140);
 if (v3 > 128) goto l2;
 v1 = 0xffffffff;
 v4 = v0 + 128;
 if (load64(v4) > sign64(~v2, 0x80000000)) goto l2;
 store32(v0 + 136, v3);
 store64(v4, 0);
 store64(v0 + 56, load64(v0 + 120));
 store64(v0 + 48, load64(v0 + 112));
 store64(v0 + 40, load64(v0 + 104));
 store64(v0 + 32, load64(v0 + 96));
 store64(v0 + 24, load64(v0 + 88));
 store64(v0 + 16, load64(v0 + 80));
 store64(v0 + 8, load64(v0 + 72));
 store64(v0, load64(v0 + 64));
 store64(v0 + 272, 0);
 store64(v0 + 264, 0);
 store64(v0 + 256, 0);
 store64(v0 + 248, 0);
 store64(v0 + 240, 0);
 store64(v0 + 232, 0);
 store64(v0 + 224, 0);
 store64(v0 + 216, 0);
 store64(v0 + 208, load64(v0 + 336));
 store64(v0 + 200, load64(v0 + 328));
 store64(v0 + 192, load64(v0 + 320));
 store64(v0 + 184, load64(v0 + 312));
 store64(v0 + 176, load64(v0 + 304));
 store64(v0 + 168, load64(v0 + 296));
 store64(v0 + 160, load64(v0 + 288));
 store64(v0 + 152, load64(v0 + 280));
 v1 = 0;
l2:;
 return v1;
}

/* blake2_state::blake2b::State::save */
APART void state_blake2b_State_save(u64 v0, u64 v1) {
 u32 v3, v4, v5;
 u64 v2, v6, v7, v8, v9, v10, v11, v12, v13, v14, v15, v16, v17, v18, v19, v20, v21, v22, v23;
 FRAME(50);
 v2 = top - 384;
 v3 = load32(v1 + 144);
 if ((v3 - 1) > 63) goto l4;
 v4 = load32(v1 + 136);
 if (v4 > 128) goto l4;
 v5 = load32(v1 + 140);
 if (v5 > 128) goto l4;
 if (load64(v1 + 128) > sign64(~v4, 0x80000000)) goto l4;
 if (v5) goto l4;
 v6 = load64(v1 + 64);
 if ((v6 & 0xff00) == 0xc900) goto l3;
l4:;
 fill(v0, 0, 276);
 goto l1;
l3:;
 v5 = load32(v1 + 148);
 fill(v2 + 256, 0, 128);
 v7 = load64(v1 + 72);
 v8 = load64(v1 + 80);
 v9 = load64(v1 + 88);
 v10 = load64(v1 + 96);
 v11 = load64(v1 + 104);
 v12 = load64(v1 + 112);
 v13 = load64(v1 + 120);
 v14 = load64(v1 + 128);
 v15 = load64(v1);
 v16 = load64(v1 + 8);
 v17 = load64(v1 + 16);
 v18 = load64(v1 + 24);
 v19 = load64(v1 + 32);
 v20 = load64(v1 + 40);
 v21 = load64(v1 + 48);
 v22 = load64(v1 + 56);
 v23 = (u64)v4;
 if (v23 == 0) goto l5;
 copy(v2 + 256, v1 + 152, v23);
l5:;
 copy(v2, v2 + 256, 128);
 copy(v2 + 128, v2, 128);
 store8(v0 + 147, (u32)(v5 != 0));
 store8(v0 + 146, v4);
 store8(v0 + 145, v3);
 store64(v0 + 137, v14);
 store8(v0 + 136, v13 >> 56);
 store8(v0 + 135, v13 >> 48);
 store8(v0 + 134, v13 >> 40);
 store8(v0 + 133, v13 >> 32);
 v3 = (u32)v13;
 store8(v0 + 132, v3 >> 24);
 store8(v0 + 131, v3 >> 16);
 store8(v0 + 130, v3 >> 8);
 store8(v0 + 129, v13);
 store8(v0 + 128, v12 >> 56);
 store8(v0 + 127, v12 >> 48);
 store8(v0 + 126, v12 >> 40);
 store8(v0 + 125, v12 >> 32);
 v3 = (u32)v12;
 store8(v0 + 124, v3 >> 24);
 store8(v0 + 123, v3 >> 16);
 store8(v0 + 122, v3 >> 8);
 store8(v0 + 121, v3);
 store8(v0 + 120, v11 >> 56);
 store8(v0 + 119, v11 >> 48);
 store8(v0 + 118, v11 >> 40);
 store8(v0 + 117, v11 >> 32);
 v3 = (u32)v11;
 store8(v0 + 116, v3 >> 24);
 store8(v0 + 115, v3 >> 16);
 store8(v0 + 114, v3 >> 8);
 store8(v0 + 113, v3);
 store8(v0 + 112, v10 >> 56);
 store8(v0 + 111, v10 >> 48);
 store8(v0 + 110, v10 >> 40);
 store8(v0 + 109, v10 >> 32);
 v3 = (u32)v10;
 store8(v0 + 108, v3 >> 24);
 store8(v0 + 107, v3 >> 16);
 store8(v0 + 106, v3 >> 8);
 store8(v0 + 105, v3);
 store8(v0 + 104, v9 >> 56);
 store8(v0 + 103, v9 >> 48);
 store8(v0 + 102, v9 >> 40);
 store8(v0 + 101, v9 >> 32);
 v3 = (u32)v9;
 store8(v0 + 100, v3 >> 24);
 store8(v0 + 99, v3 >> 16);
 store8(v0 + 98, v3 >> 8);
 store8(v0 + 97, v9);
 store8(v0 + 96, v8 >> 56);
 store8(v0 + 95, v8 >> 48);
 store8(v0 + 94, v8 >> 40);
 store8(v0 + 93, v8 >> 32);
 v3 = (u32)v8;
 store8(v0 + 92, v3 >> 24);
 store8(v0 + 91, v3 >> 16);
 store8(v0 + 90, v3 >> 8);
 store8(v0 + 89, v3);
 store8(v0 + 88, v7 >> 56);
 store8(v0 + 87, v7 >> 48);
 store8(v0 + 86, v7 >> 40);
 store8(v0 + 85, v7 >> 32);
 v3 = (u32)v7;
 store8(v0 + 84, v3 >> 24);
 store8(v0 + 83, v3 >> 16);
 store8(v0 + 82, v3 >> 8);
 store8(v0 + 81, v3);
 store8(v0 + 80, v6 >> 56);
 store8(v0 + 79, v6 >> 48);
 store8(v0 + 78, v6 >> 40);
 store8(v0 + 77, v6 >> 32);
 v3 = (u32)v6;
 store8(v0 + 76, v3 >> 24);
 store8(v0 + 75, v3 >> 16);
 store8(v0 + 74, v3 >> 8);
 store8(v0 + 73, v3);
 store8(v0 + 72, v22 >> 56);
 store8(v0 + 71, v22 >> 48);
 store8(v0 + 70, v22 >> 40);
 store8(v0 + 69, v22 >> 32);
 v3 = (u32)v22;
 store8(v0 + 68, v3 >> 24);
 store8(v0 + 67, v3 >> 16);
 store8(v0 + 66, v3 >> 8);
 store8(v0 + 65, v22);
 store8(v0 + 64, v21 >> 56);
 store8(v0 + 63, v21 >> 48);
 store8(v0 + 62, v21 >> 40);
 store8(v0 + 61, v21 >> 32);
 v3 = (u32)v21;
 store8(v0 + 60, v3 >> 24);
 store8(v0 + 59, v3 >> 16);
 store8(v0 + 58, v3 >> 8);
 store8(v0 + 57, v3);
 store8(v0 + 56, v20 >> 56);
 store8(v0 + 55, v20 >> 48);
 store8(v0 + 54, v20 >> 40);
 store8(v0 + 53, v20 >> 32);
 v3 = (u32)v20;
 store8(v0 + 52, v3 >> 24);
 store8(v0 + 51, v3 >> 16);
 store8(v0 + 50, v3 >> 8);
 store8(v0 + 49, v3);
 store8(v0 + 48, v19 >> 56);
 store8(v0 + 47, v19 >> 48);
 store8(v0 + 46, v19 >> 40);
 store8(v0 + 45, v19 >> 32);
 v3 = (u32)v19;
 store8(v0 + 44, v3 >> 24);
 store8(v0 + 43, v3 >> 16);
 store8(v0 + 42, v3 >> 8);
 store8(v0 + 41, v3);
 store8(v0 + 40, v18 >> 56);
 store8(v0 + 39, v18 >> 48);
 store8(v0 + 38, v18 >> 40);
 store8(v0 + 37, v18 >> 32);
 v3 = (u32)v18;
 store8(v0 + 36, v3 >> 24);
 store8(v0 + 35, v3 >> 16);
 store8(v0 + 34, v3 >> 8);
 store8(v0 + 33, v18);
 store8(v0 + 32, v17 >> 56);
 store8(v0 + 31, v17 >> 48);
 store8(v0 + 30, v17 >> 40);
 store8(v0 + 29, v17 >> 32);
 v3 = (u32)v17;
 store8(v0 + 28, v3 >> 24);
 store8(v0 + 27, v3 >> 16);
 store8(v0 + 26, v3 >> 8);
 store8(v0 + 25, v3);
 store8(v0 + 24, v16 >> 56);
 store8(v0 + 23, v16 >> 48);
 store8(v0 + 22, v16 >> 40);
 store8(v0 + 21, v16 >> 32);
 v3 = (u32)v16;
 store8(v0 + 20, v3 >> 24);
 store8(v0 + 19, v3 >> 16);
 store8(v0 + 18, v3 >> 8);
 store8(v0 + 17, v3);
 store8(v0 + 16, v15 >> 56);
 store8(v0 + 15, v15 >> 48);
 store8(v0 + 14, v15 >> 40);
 store8(v0 + 13, v15 >> 32);
 v3 = (u32)v15;
 store8(v0 + 12, v3 >> 24);
 store8(v0 + 11, v3 >> 16);
 store8(v0 + 10, v3 >> 8);
 store8(v0 + 9, v3);
 store64(v0 + 1, 0x16232454b414c42);
 store8(v0, 1);
 copy(v0 + 148, v2 + 128, 128);
 goto l1;
l1:;
}

/* rattle::export vulfsjor_ffi_blake2b_save */
APART u32 exported_blake2b_save(u64 v0, u64 v1, u64 v2) {
 u32 v4;
 u64 v3;
 FRAME(38);
 v3 = top - 288;
 fill(v3 + 12, 0, 276);
 v4 = 0xffffffff;
 if (v2 != 275) goto l2;
 state_blake2b_State_save(v3 + 12, v0);
 if (load8(v3 + 12) != 1) goto l2;
 copy(v1 + (v1 == 0 ? UINT64_C(4096) : 0), v3 + 13, 275);
 v4 = 0;
l2:;
 return v4;
}

/* core::cmp::slices::groups_equal::<i8,31'core::cmp::numbers::U8PartialEq{}> */
APART u32 core_cmp_slices_groups_equal_i8_31_core_cmp_numbers_U8PartialEq(u64 v0, u64 v1, u64 v2) {
 u32 v4, t0, t1, t2, t3, t4, t5, t6, t7, t8, t9, t10, t11, t12, t13, t14, t15, t16, t17, t18, t19,
   t20, t21, t22, t23;
 u64 v3, v5, v6, v7, v8, v9, v10;
 if (v1 > 8) goto l4;
 v3 = v1 - 4;
 t0 = (u32)(load8(v0 + v3) != load8(v2 + v3));
 v3 = v1 - 3;
 t1 = t0 | (u32)(load8(v0 + v3) != load8(v2 + v3));
 v3 = v1 - 2;
 t2 = t1 | (u32)(load8(v0 + v3) != load8(v2 + v3));
 v3 = v1 - 1;
 v4 = (u32)(load8(v0) != load8(v2)) | (u32)(load8(v0 + 1) != load8(v2 + 1)) | (u32)(load8(v0 + 2) !=
   load8(v2 + 2)) | (u32)(load8(v0 + 3) != load8(v2 + 3)) | (t2 | (u32)(load8(v0 + v3) != load8(v2 +
   v3)));
 goto l1;
l4:;
 if (v1 > 32) goto l5;
 v1 -= 8;
 v5 = v1 < 8 ? v1 : 8;
 v3 = v0 + v5;
 v5 += v2;
 v6 = v1 < 16 ? v1 : 16;
 v7 = v0 + v6;
 v6 += v2;
 v8 = v0 + v1;
 v1 += v2;
 t3 = (u32)(load8(v3) != load8(v5)) | (u32)(load8(v7) != load8(v6)) | (u32)(load8(v8) != load8(v1))
   | (((u32)(load8(v3 + 1) != load8(v5 + 1)) | (u32)(load8(v7 + 1) != load8(v6 + 1)) |
   (u32)(load8(v8 + 1) != load8(v1 + 1))) << 1);
 t4 = (((u32)(load8(v3 + 3) != load8(v5 + 3)) | (u32)(load8(v7 + 3) != load8(v6 + 3)) |
   (u32)(load8(v8 + 3) != load8(v1 + 3))) << 3) | (((u32)(load8(v3 + 2) != load8(v5 + 2)) |
   (u32)(load8(v7 + 2) != load8(v6 + 2)) | (u32)(load8(v8 + 2) != load8(v1 + 2))) << 2);
 t5 = (u32)(load8(v3 + 4) != load8(v5 + 4)) | (u32)(load8(v7 + 4) != load8(v6 + 4)) | (u32)(load8(v8
   + 4) != load8(v1 + 4)) | (((u32)(load8(v3 + 5) != load8(v5 + 5)) | (u32)(load8(v7 + 5) !=
   load8(v6 + 5)) | (u32)(load8(v8 + 5) != load8(v1 + 5))) << 1);
 t6 = (((u32)(load8(v3 + 7) != load8(v5 + 7)) | (u32)(load8(v7 + 7) != load8(v6 + 7)) |
   (u32)(load8(v8 + 7) != load8(v1 + 7))) << 3) | (((u32)(load8(v3 + 6) != load8(v5 + 6)) |
   (u32)(load8(v7 + 6) != load8(v6 + 6)) | (u32)(load8(v8 + 6) != load8(v1 + 6))) << 2);
 t7 = (u32)(((t3 | t4 | ((t5 | t6) << 4)) & 255) != 0) | (u32)(load8(v0) != load8(v2)) |
   ((u32)(load8(v0 + 1) != load8(v2 + 1)) | (u32)(load8(v0 + 2) != load8(v2 + 2))) | ((u32)(load8(v0
   + 3) != load8(v2 + 3)) | (u32)(load8(v0 + 4) != load8(v2 + 4)) | ((u32)(load8(v0 + 5) != load8(v2
   + 5)) | (u32)(load8(v0 + 6) != load8(v2 + 6))));
 v4 = t7 | (u32)(load8(v0 + 7) != load8(v2 + 7));
 goto l1;
l5:;
 if (v1 < 65) goto l2;
 v9 = v1 & 0xffffffffffffffc0;
 v10 = 0;
 v6 = v0;
 v8 = v2;
l7:;
 v4 = 0;
 v3 = 0;
l8:;
 v5 = v6 + v3;
 v7 = v8 + v3;
 v4 |= (u32)(load8(v5) != load8(v7)) | (u32)(load8(v5 + 1) != load8(v7 + 1));
 v3 += 2;
 if (v3 != 64) goto l8;
 if (v4 & 1) goto l6;
 v6 += 64;
 v8 += 64;
 v10 += 64;
 if ((v1 - v10) > 63) goto l7;
 v10 = v9;
l6:;
 v7 = v1 - v10;
 if (v7 < 32) goto l9;
 v3 = v2 + v10;
 v5 = v0 + v10;
l11:;
 v4 = 1;
 t8 = (u32)(load8(v5) != load8(v3)) | ((u32)(load8(v5 + 1) != load8(v3 + 1)) << 1) |
   (((u32)(load8(v5 + 3) != load8(v3 + 3)) << 3) | ((u32)(load8(v5 + 2) != load8(v3 + 2)) << 2)) |
   (((u32)(load8(v5 + 4) != load8(v3 + 4)) | ((u32)(load8(v5 + 5) != load8(v3 + 5)) << 1) |
   (((u32)(load8(v5 + 7) != load8(v3 + 7)) << 3) | ((u32)(load8(v5 + 6) != load8(v3 + 6)) << 2))) <<
   4);
 t9 = (((u32)(load8(v5 + 12) != load8(v3 + 12)) | ((u32)(load8(v5 + 13) != load8(v3 + 13)) << 1) |
   (((u32)(load8(v5 + 15) != load8(v3 + 15)) << 3) | ((u32)(load8(v5 + 14) != load8(v3 + 14)) <<
   2))) << 12) | (((u32)(load8(v5 + 8) != load8(v3 + 8)) | ((u32)(load8(v5 + 9) != load8(v3 + 9)) <<
   1) | (((u32)(load8(v5 + 11) != load8(v3 + 11)) << 3) | ((u32)(load8(v5 + 10) != load8(v3 + 10))
   << 2))) << 8);
 t10 = (u32)(load8(v5 + 16) != load8(v3 + 16)) | ((u32)(load8(v5 + 17) != load8(v3 + 17)) << 1) |
   (((u32)(load8(v5 + 19) != load8(v3 + 19)) << 3) | ((u32)(load8(v5 + 18) != load8(v3 + 18)) << 2))
   | (((u32)(load8(v5 + 20) != load8(v3 + 20)) | ((u32)(load8(v5 + 21) != load8(v3 + 21)) << 1) |
   (((u32)(load8(v5 + 23) != load8(v3 + 23)) << 3) | ((u32)(load8(v5 + 22) != load8(v3 + 22)) <<
   2))) << 4);
 t11 = (((u32)(load8(v5 + 28) != load8(v3 + 28)) | ((u32)(load8(v5 + 29) != load8(v3 + 29)) << 1) |
   (((u32)(load8(v5 + 31) != load8(v3 + 31)) << 3) | ((u32)(load8(v5 + 30) != load8(v3 + 30)) <<
   2))) << 12) | (((u32)(load8(v5 + 24) != load8(v3 + 24)) | ((u32)(load8(v5 + 25) != load8(v3 +
   25)) << 1) | (((u32)(load8(v5 + 27) != load8(v3 + 27)) << 3) | ((u32)(load8(v5 + 26) != load8(v3
   + 26)) << 2))) << 8);
 if ((t8 | t9 | (t10 | t11)) & 0xffff) goto l10;
 v3 += 32;
 v5 += 32;
 v7 -= 32;
 if (v7 >= 32) goto l11;
 goto l9;
l10:;
 if (v7 > 31) goto l1;
l9:;
 v5 = v1 - 32;
 v3 = v0 + v5;
 v5 += v2;
 t12 = (u32)(load8(v3) != load8(v5)) | ((u32)(load8(v3 + 1) != load8(v5 + 1)) << 1) |
   (((u32)(load8(v3 + 3) != load8(v5 + 3)) << 3) | ((u32)(load8(v3 + 2) != load8(v5 + 2)) << 2)) |
   (((u32)(load8(v3 + 4) != load8(v5 + 4)) | ((u32)(load8(v3 + 5) != load8(v5 + 5)) << 1) |
   (((u32)(load8(v3 + 7) != load8(v5 + 7)) << 3) | ((u32)(load8(v3 + 6) != load8(v5 + 6)) << 2))) <<
   4);
 t13 = (((u32)(load8(v3 + 12) != load8(v5 + 12)) | ((u32)(load8(v3 + 13) != load8(v5 + 13)) << 1) |
   (((u32)(load8(v3 + 15) != load8(v5 + 15)) << 3) | ((u32)(load8(v3 + 14) != load8(v5 + 14)) <<
   2))) << 12) | (((u32)(load8(v3 + 8) != load8(v5 + 8)) | ((u32)(load8(v3 + 9) != load8(v5 + 9)) <<
   1) | (((u32)(load8(v3 + 11) != load8(v5 + 11)) << 3) | ((u32)(load8(v3 + 10) != load8(v5 + 10))
   << 2))) << 8);
 t14 = (u32)(load8(v3 + 16) != load8(v5 + 16)) | ((u32)(load8(v3 + 17) != load8(v5 + 17)) << 1) |
   (((u32)(load8(v3 + 19) != load8(v5 + 19)) << 3) | ((u32)(load8(v3 + 18) != load8(v5 + 18)) << 2))
   | (((u32)(load8(v3 + 20) != load8(v5 + 20)) | ((u32)(load8(v3 + 21) != load8(v5 + 21)) << 1) |
   (((u32)(load8(v3 + 23) != load8(v5 + 23)) << 3) | ((u32)(load8(v3 + 22) != load8(v5 + 22)) <<
   2))) << 4);
 t15 = (((u32)(load8(v3 + 28) != load8(v5 + 28)) | ((u32)(load8(v3 + 29) != load8(v5 + 29)) << 1) |
   (((u32)(load8(v3 + 31) != load8(v5 + 31)) << 3) | ((u32)(load8(v3 + 30) != load8(v5 + 30)) <<
   2))) << 12) | (((u32)(load8(v3 + 24) != load8(v5 + 24)) | ((u32)(load8(v3 + 25) != load8(v5 +
   25)) << 1) | (((u32)(load8(v3 + 27) != load8(v5 + 27)) << 3) | ((u32)(load8(v3 + 26) != load8(v5
   + 26)) << 2))) << 8);
 v4 = (u32)(((t12 | t13 | (t14 | t15)) & 0xffff) != 0);
 goto l1;
l2:;
 v5 = v1 - 32;
 v3 = v0 + v5;
 v5 += v2;
 t16 = (u32)(load8(v3) != load8(v5)) | ((u32)(load8(v3 + 1) != load8(v5 + 1)) << 1) |
   (((u32)(load8(v3 + 3) != load8(v5 + 3)) << 3) | ((u32)(load8(v3 + 2) != load8(v5 + 2)) << 2)) |
   (((u32)(load8(v3 + 4) != load8(v5 + 4)) | ((u32)(load8(v3 + 5) != load8(v5 + 5)) << 1) |
   (((u32)(load8(v3 + 7) != load8(v5 + 7)) << 3) | ((u32)(load8(v3 + 6) != load8(v5 + 6)) << 2))) <<
   4);
 t17 = (((u32)(load8(v3 + 12) != load8(v5 + 12)) | ((u32)(load8(v3 + 13) != load8(v5 + 13)) << 1) |
   (((u32)(load8(v3 + 15) != load8(v5 + 15)) << 3) | ((u32)(load8(v3 + 14) != load8(v5 + 14)) <<
   2))) << 12) | (((u32)(load8(v3 + 8) != load8(v5 + 8)) | ((u32)(load8(v3 + 9) != load8(v5 + 9)) <<
   1) | (((u32)(load8(v3 + 11) != load8(v5 + 11)) << 3) | ((u32)(load8(v3 + 10) != load8(v5 + 10))
   << 2))) << 8);
 t18 = (u32)(load8(v3 + 16) != load8(v5 + 16)) | ((u32)(load8(v3 + 17) != load8(v5 + 17)) << 1) |
   (((u32)(load8(v3 + 19) != load8(v5 + 19)) << 3) | ((u32)(load8(v3 + 18) != load8(v5 + 18)) << 2))
   | (((u32)(load8(v3 + 20) != load8(v5 + 20)) | ((u32)(load8(v3 + 21) != load8(v5 + 21)) << 1) |
   (((u32)(load8(v3 + 23) != load8(v5 + 23)) << 3) | ((u32)(load8(v3 + 22) != load8(v5 + 22)) <<
   2))) << 4);
 t19 = (((u32)(load8(v3 + 28) != load8(v5 + 28)) | ((u32)(load8(v3 + 29) != load8(v5 + 29)) << 1) |
   (((u32)(load8(v3 + 31) != load8(v5 + 31)) << 3) | ((u32)(load8(v3 + 30) != load8(v5 + 30)) <<
   2))) << 12) | (((u32)(load8(v3 + 24) != load8(v5 + 24)) | ((u32)(load8(v3 + 25) != load8(v5 +
   25)) << 1) | (((u32)(load8(v3 + 27) != load8(v5 + 27)) << 3) | ((u32)(load8(v3 + 26) != load8(v5
   + 26)) << 2))) << 8);
 t20 = (u32)(((t16 | t17 | (t18 | t19)) & 0xffff) != 0) | (u32)(load8(v0) != load8(v2)) |
   ((u32)(load8(v0 + 1) != load8(v2 + 1)) | (u32)(load8(v0 + 2) != load8(v2 + 2))) | ((u32)(load8(v0
   + 3) != load8(v2 + 3)) | (u32)(load8(v0 + 4) != load8(v2 + 4)) | ((u32)(load8(v0 + 5) != load8(v2
   + 5)) | (u32)(load8(v0 + 6) != load8(v2 + 6))));
 t21 = (u32)(load8(v0 + 7) != load8(v2 + 7)) | (u32)(load8(v0 + 8) != load8(v2 + 8)) |
   ((u32)(load8(v0 + 9) != load8(v2 + 9)) | (u32)(load8(v0 + 10) != load8(v2 + 10))) |
   ((u32)(load8(v0 + 11) != load8(v2 + 11)) | (u32)(load8(v0 + 12) != load8(v2 + 12)) |
   ((u32)(load8(v0 + 13) != load8(v2 + 13)) | (u32)(load8(v0 + 14) != load8(v2 + 14))));
 t22 = (u32)(load8(v0 + 15) != load8(v2 + 15)) | (u32)(load8(v0 + 16) != load8(v2 + 16)) |
   ((u32)(load8(v0 + 17) != load8(v2 + 17)) | (u32)(load8(v0 + 18) != load8(v2 + 18))) |
   ((u32)(load8(v0 + 19) != load8(v2 + 19)) | (u32)(load8(v0 + 20) != load8(v2 + 20)) |
   ((u32)(load8(v0 + 21) != load8(v2 + 21)) | (u32)(load8(v0 + 22) != load8(v2 + 22))));
 t23 = (u32)(load8(v0 + 23) != load8(v2 + 23)) | (u32)(load8(v0 + 24) != load8(v2 + 24)) |
   ((u32)(load8(v0 + 25) != load8(v2 + 25)) | (u32)(load8(v0 + 26) != load8(v2 + 26))) |
   ((u32)(load8(v0 + 27) != load8(v2 + 27)) | (u32)(load8(v0 + 28) != load8(v2 + 28)) |
   ((u32)(load8(v0 + 29) != load8(v2 + 29)) | (u32)(load8(v0 + 30) != load8(v2 + 30))));
 v4 = t20 | t21 | (t22 | t23) | (u32)(load8(v0 + 31) != load8(v2 + 31));
l1:;
 return (~v4) & 1;
}

/* rattle::export vulfsjor_ffi_blake2b_load */
APART u32 exported_blake2b_load(u64 v0, u64 v1, u64 v2) {
 u32 v20, v21, v22, t0;
 u64 v3, v4, v5, v6, v7, v8, v9, v10, v11, v12, v13, v14, v15, v16, v17, v18, v19, v23;
 FRAME(114);
 v3 = top - 896;
 if (v2 != 275) goto l2;
 v1 += (v1 == 0 ? UINT64_C(4096) : 0);
 v2 = load64(v1 + 8);
 v4 = load64(v1 + 16);
 v5 = load64(v1 + 24);
 v6 = load64(v1 + 32);
 v7 = load64(v1 + 40);
 v8 = load64(v1 + 48);
 v9 = load64(v1 + 56);
 v10 = load64(v1 + 64);
 v11 = load64(v1 + 72);
 v12 = load64(v1 + 80);
 v13 = load64(v1 + 88);
 v14 = load64(v1 + 96);
 v15 = load64(v1 + 104);
 v16 = load64(v1 + 112);
 v17 = load64(v1 + 120);
 v18 = load64(v1 + 128);
 v19 = load64(v1 + 136);
 v20 = load8(v1 + 145);
 v21 = load8(v1 + 144);
 v22 = load8(v1 + 146);
 store32(v3 + 148, v22);
 store32(v3 + 144, v21);
 store32(v3 + 140, 0);
 store32(v3 + 136, v20);
 store64(v3 + 128, v19);
 store64(v3 + 120, v18);
 store64(v3 + 112, v17);
 store64(v3 + 104, v16);
 store64(v3 + 96, v15);
 store64(v3 + 88, v14);
 store64(v3 + 80, v13);
 store64(v3 + 72, v12);
 store64(v3 + 64, v11);
 store64(v3 + 56, v10);
 store64(v3 + 48, v9);
 store64(v3 + 40, v8);
 store64(v3 + 32, v7);
 store64(v3 + 24, v6);
 store64(v3 + 16, v5);
 store64(v3 + 8, v4);
 store64(v3, v2);
 v23 = v1 + 147;
 copy(v3 + 152, v23, 128);
 fill(v3 + 280, 0, 64);
 fill(v3 + 345, 0, 276);
 state_blake2b_State_save(v3 + 345, v3);
 if (load8(v3 + 345) != 1) goto l2;
 copy(v3 + 621, v3 + 345 + 1, 275);
 if (load8(v1) != load8(v3 + 621)) goto l2;
 if ((load8(v1 + 1) & 255) != (load8(v3 + 622) & 255)) goto l2;
 if ((load8(v1 + 2) & 255) != (load8(v3 + 623) & 255)) goto l2;
 if ((load8(v1 + 3) & 255) != (load8(v3 + 624) & 255)) goto l2;
 t0 = core_cmp_slices_groups_equal_i8_31_core_cmp_numbers_U8PartialEq(v1, 275, v3 + 621);
 if (t0 == 0) goto l2;
 copy(v3, v23, 128);
 store32(v0 + 148, v22);
 store32(v0 + 144, v21);
 v21 = 0;
 store32(v0 + 140, 0);
 store32(v0 + 136, v20);
 store64(v0 + 128, v19);
 store64(v0 + 120, v18);
 store64(v0 + 112, v17);
 store64(v0 + 104, v16);
 store64(v0 + 96, v15);
 store64(v0 + 88, v14);
 store64(v0 + 80, v13);
 store64(v0 + 72, v12);
 store64(v0 + 64, v11);
 store64(v0 + 56, v10);
 store64(v0 + 48, v9);
 store64(v0 + 40, v8);
 store64(v0 + 32, v7);
 store64(v0 + 24, v6);
 store64(v0 + 16, v5);
 store64(v0 + 8, v4);
 store64(v0, v2);
 copy(v0 + 152, v3, 128);
 fill(v0 + 280, 0, 64);
 goto l1;
l2:;
 fill(v0, 0, 344);
 v21 = 0xffffffff;
l1:;
 return v21;
}

/* rattle::export vulfsjor_ffi_blake2b_wipe */
APART void exported_blake2b_wipe(u64 v0) {
 fill(v0, 0, 344);
}

/* rattle::export vulfsjor_ffi_blake2b_digest_size */
APART u64 exported_blake2b_digest_size(u64 v0) {
 u32 v2, v3;
 u64 v1;
 v1 = 0;
 v2 = load32(v0 + 144);
 if ((v2 - 1) > 63) goto l2;
 v3 = load32(v0 + 136);
 if (v3 > 128) goto l2;
 if (load32(v0 + 140) > 128) goto l2;
 v1 = load64(v0 + 128) > sign64(~v3, 0x80000000) ? 0 : (u64)v2;
l2:;
 return v1;
}

/* rattle::export vulfsjor_ffi_blake2b_count */
APART u64 exported_blake2b_count(u64 v0) {
 u32 v2, v3;
 u64 v1;
 v1 = 0;
 if ((load32(v0 + 144) - 1) > 63) goto l2;
 v2 = load32(v0 + 136);
 if (v2 > 128) goto l2;
 v3 = load32(v0 + 140);
 if (v3 > 128) goto l2;
 v0 = load64(v0 + 128);
 if (v0 > sign64(~v2, 0x80000000)) goto l2;
 v0 += (u64)v2;
 v1 = v0 - (u64)v3;
 v1 = v1 > v0 ? 0 : v1;
l2:;
 return v1;
}

/* rattle::export vulfsjor_ffi_blake2b_state_size */
APART void exported_blake2b_state_size(void) {

}

/* vulfsjor_ffi_blake2b_state_size */
APART u64 module_blake2b_state_size(void) {
 exported_blake2b_state_size();
 return 344;
}

/* blake2_compress::compress::blake2s::compress */
APART void compress_compress_blake2s_compress(u64 v0, u64 v1, u64 v2, u32 v3, u32 v4) {
 u32 v5, v6, v7, v8, v9, v10, v11, v12, v13, v14, v15, v16, v17, v18, v19, v20, v21, v22, v23, v24,
   v25, v26, v27, v28, v29, v30, v31, v32, v33, v34, v35, v36, v37, v38, v39, v40, v41, v42, v43,
   v44, v45, t0, t1, t2, t3, t4, t5, t6, t7, t8, t9, t10, t11, t12, t13, t14, t15, t16, t17, t18,
   t19, t20, t21, t22, t23, t24, t25, t26, t27, t28, t29, t30, t31, t32, t33, t34, t35, t36, t37,
   t38, t39, t40, t41, t42, t43, t44, t45, t46, t47, t48, t49, t50, t51, t52, t53, t54, t55, t56,
   t57, t58, t59, t60, t61, t62, t63, t64, t65, t66, t67, t68, t69, t70;
 v5 = load32(v0 + 12);
 v6 = load32(v1 + 24);
 v7 = load32(v0 + 28);
 v8 = v5 + v6 + v7;
 v9 = load32(v1 + 28);
 v10 = rotl32(((v4 & 1) ? UINT32_C(0xffffffff) : 0) ^ v8 ^ 0x5be0cd19, 16);
 v11 = v10 + 0xa54ff53a;
 v12 = rotl32(v11 ^ v7, 20);
 v13 = v8 + v9 + v12;
 v4 = load32(v1 + 56);
 v14 = load32(v0);
 v8 = load32(v1);
 v15 = load32(v0 + 16);
 v16 = v14 + v8 + v15;
 v17 = load32(v1 + 4);
 t0 = v16 + v17;
 v16 = rotl32((u32)v2 ^ v16 ^ 0x510e527f, 16);
 v18 = v16 + 0x6a09e667;
 v19 = rotl32(v18 ^ v15, 20);
 v20 = t0 + v19;
 v21 = rotl32(v20 ^ v16, 24);
 v22 = v21 + v18;
 v23 = rotl32(v22 ^ v19, 25);
 v24 = v13 + v4 + v23;
 v16 = load32(v1 + 60);
 v25 = load32(v0 + 8);
 v18 = load32(v1 + 16);
 v26 = load32(v0 + 24);
 v27 = v25 + v18 + v26;
 v19 = load32(v1 + 20);
 v3 = rotl32(((v3 & 1) ? UINT32_C(0xe07c2654) : 0x1f83d9ab) ^ v27, 16);
 v28 = v3 + 0x3c6ef372;
 v29 = rotl32(v28 ^ v26, 20);
 v30 = v27 + v19 + v29;
 v31 = rotl32(v30 ^ v3, 24);
 v32 = rotl32(v24 ^ v31, 16);
 v33 = load32(v0 + 4);
 v3 = load32(v1 + 8);
 v34 = load32(v0 + 20);
 v27 = v33 + v3 + v34;
 t1 = v24 + v16;
 v24 = load32(v1 + 12);
 t2 = v27 + v24;
 v27 = rotl32((u32)(v2 >> 32) ^ v27 ^ 0x9b05688c, 16);
 v35 = v27 + 0xbb67ae85;
 v36 = rotl32(v35 ^ v34, 20);
 v37 = t2 + v36;
 v38 = rotl32(v37 ^ v27, 24);
 v35 += v38;
 v39 = v32 + v35;
 v40 = rotl32(v39 ^ v23, 20);
 v41 = t1 + v40;
 v23 = load32(v1 + 52);
 v27 = load32(v1 + 48);
 v13 = rotl32(v13 ^ v10, 24);
 t3 = v30 + v27;
 v30 = v13 + v11;
 v10 = rotl32(v30 ^ v12, 25);
 v11 = t3 + v10;
 t4 = v11 + v23;
 v11 = rotl32(v11 ^ v38, 16);
 v12 = v11 + v22;
 v10 = rotl32(v12 ^ v10, 20);
 v22 = t4 + v10;
 v38 = rotl32(v22 ^ v11, 24);
 v42 = v38 + v12;
 v43 = rotl32(v42 ^ v10, 25);
 v12 = v41 + v23 + v43;
 v10 = load32(v1 + 32);
 t5 = v20 + v10;
 v20 = rotl32(v35 ^ v36, 25);
 v35 = t5 + v20;
 v11 = load32(v1 + 36);
 v13 = rotl32(v35 ^ v13, 16);
 v28 += v31;
 v31 = v13 + v28;
 v20 = rotl32(v31 ^ v20, 20);
 v35 += v11 + v20;
 v36 = rotl32(v35 ^ v13, 24);
 v44 = rotl32(v12 ^ v36, 16);
 t6 = v12 + v6;
 v12 = load32(v1 + 40);
 v28 = rotl32(v28 ^ v29, 25);
 v29 = v37 + v12 + v28;
 v13 = load32(v1 + 44);
 v21 = rotl32(v29 ^ v21, 16);
 t7 = v29 + v13;
 v29 = v21 + v30;
 v28 = rotl32(v29 ^ v28, 20);
 v30 = t7 + v28;
 v21 = rotl32(v30 ^ v21, 24);
 v29 += v21;
 v37 = v44 + v29;
 v43 = rotl32(v37 ^ v43, 20);
 v45 = t6 + v43;
 v32 = rotl32(v41 ^ v32, 24);
 t8 = v35 + v4;
 v35 = v32 + v39;
 v39 = rotl32(v35 ^ v40, 25);
 v40 = t8 + v39;
 v21 = rotl32(v40 ^ v21, 16);
 t9 = v40 + v12;
 v40 = v21 + v42;
 v39 = rotl32(v40 ^ v39, 20);
 v41 = t9 + v39;
 v21 = rotl32(v41 ^ v21, 24);
 v40 += v21;
 v39 = rotl32(v40 ^ v39, 25);
 v42 = v45 + v19 + v39;
 t10 = v22 + v11;
 v22 = rotl32(v29 ^ v28, 25);
 v28 = t10 + v22;
 t11 = v28 + v16;
 v28 = rotl32(v28 ^ v32, 16);
 v29 = v36 + v31;
 v31 = v28 + v29;
 v22 = rotl32(v31 ^ v22, 20);
 v32 = t11 + v22;
 v28 = rotl32(v32 ^ v28, 24);
 v36 = rotl32(v42 ^ v28, 16);
 v20 = rotl32(v29 ^ v20, 25);
 v29 = v30 + v18 + v20;
 t12 = v29 + v10;
 v29 = rotl32(v29 ^ v38, 16);
 v30 = v29 + v35;
 v20 = rotl32(v30 ^ v20, 20);
 v35 = t12 + v20;
 v29 = rotl32(v35 ^ v29, 24);
 v30 += v29;
 v38 = v36 + v30;
 v39 = rotl32(v38 ^ v39, 20);
 v42 += v24 + v39;
 t13 = v32 + v13;
 v32 = rotl32(v45 ^ v44, 24);
 v37 += v32;
 v43 = rotl32(v37 ^ v43, 25);
 v44 = t13 + v43;
 v29 = rotl32(v44 ^ v29, 16);
 v40 += v29;
 v43 = rotl32(v40 ^ v43, 20);
 v44 += v9 + v43;
 v29 = rotl32(v44 ^ v29, 24);
 v40 += v29;
 v43 = rotl32(v40 ^ v43, 25);
 v45 = v42 + v16 + v43;
 v20 = rotl32(v30 ^ v20, 25);
 v30 = v41 + v17 + v20;
 t14 = v30 + v27;
 v30 = rotl32(v30 ^ v32, 16);
 v28 += v31;
 v31 = v30 + v28;
 v20 = rotl32(v31 ^ v20, 20);
 v32 = t14 + v20;
 v30 = rotl32(v32 ^ v30, 24);
 v41 = rotl32(v45 ^ v30, 16);
 v22 = rotl32(v28 ^ v22, 25);
 v28 = v35 + v8 + v22;
 v21 = rotl32(v28 ^ v21, 16);
 t15 = v28 + v3;
 v28 = v21 + v37;
 v22 = rotl32(v28 ^ v22, 20);
 v35 = t15 + v22;
 v21 = rotl32(v35 ^ v21, 24);
 v28 += v21;
 v37 = v41 + v28;
 v43 = rotl32(v37 ^ v43, 20);
 v45 += v23 + v43;
 t16 = v32 + v13;
 v32 = rotl32(v42 ^ v36, 24);
 v36 = v32 + v38;
 v38 = rotl32(v36 ^ v39, 25);
 v39 = t16 + v38;
 v21 = rotl32(v39 ^ v21, 16);
 t17 = v39 + v10;
 v39 = v21 + v40;
 v38 = rotl32(v39 ^ v38, 20);
 v40 = t17 + v38;
 v21 = rotl32(v40 ^ v21, 24);
 v39 += v21;
 v38 = rotl32(v39 ^ v38, 25);
 v42 = v45 + v11 + v38;
 v22 = rotl32(v28 ^ v22, 25);
 v28 = v44 + v19 + v22;
 t18 = v28 + v3;
 v28 = rotl32(v28 ^ v32, 16);
 v30 += v31;
 v31 = v28 + v30;
 v22 = rotl32(v31 ^ v22, 20);
 v32 = t18 + v22;
 v28 = rotl32(v32 ^ v28, 24);
 t19 = v42 + v18;
 v42 = rotl32(v42 ^ v28, 16);
 v20 = rotl32(v30 ^ v20, 25);
 v30 = v35 + v27 + v20;
 v29 = rotl32(v30 ^ v29, 16);
 t20 = v30 + v8;
 v30 = v29 + v36;
 v20 = rotl32(v30 ^ v20, 20);
 v35 = t20 + v20;
 v29 = rotl32(v35 ^ v29, 24);
 v30 += v29;
 v36 = v42 + v30;
 v38 = rotl32(v36 ^ v38, 20);
 v44 = t19 + v38;
 t21 = v32 + v9;
 v32 = rotl32(v45 ^ v41, 24);
 v37 += v32;
 v41 = rotl32(v37 ^ v43, 25);
 v43 = t21 + v41;
 v29 = rotl32(v43 ^ v29, 16);
 v39 += v29;
 v41 = rotl32(v39 ^ v41, 20);
 v43 += v17 + v41;
 v29 = rotl32(v43 ^ v29, 24);
 v39 += v29;
 v41 = rotl32(v39 ^ v41, 25);
 v45 = v44 + v13 + v41;
 v20 = rotl32(v30 ^ v20, 25);
 v30 = v40 + v12 + v20;
 t22 = v30 + v4;
 v30 = rotl32(v30 ^ v32, 16);
 v28 += v31;
 v31 = v30 + v28;
 v20 = rotl32(v31 ^ v20, 20);
 v32 = t22 + v20;
 v30 = rotl32(v32 ^ v30, 24);
 v40 = rotl32(v45 ^ v30, 16);
 v22 = rotl32(v28 ^ v22, 25);
 v28 = v35 + v24 + v22;
 v21 = rotl32(v28 ^ v21, 16);
 t23 = v28 + v6;
 v28 = v21 + v37;
 v22 = rotl32(v28 ^ v22, 20);
 v35 = t23 + v22;
 v21 = rotl32(v35 ^ v21, 24);
 v28 += v21;
 v37 = v40 + v28;
 v41 = rotl32(v37 ^ v41, 20);
 v45 += v4 + v41;
 t24 = v32 + v9;
 v32 = rotl32(v44 ^ v42, 24);
 v36 += v32;
 v38 = rotl32(v36 ^ v38, 25);
 v42 = t24 + v38;
 v21 = rotl32(v42 ^ v21, 16);
 v39 += v21;
 v38 = rotl32(v39 ^ v38, 20);
 v42 += v11 + v38;
 v21 = rotl32(v42 ^ v21, 24);
 v39 += v21;
 v38 = rotl32(v39 ^ v38, 25);
 v44 = v45 + v16 + v38;
 v22 = rotl32(v28 ^ v22, 25);
 v28 = v43 + v23 + v22;
 t25 = v28 + v27;
 v28 = rotl32(v28 ^ v32, 16);
 v30 += v31;
 v31 = v28 + v30;
 v22 = rotl32(v31 ^ v22, 20);
 v32 = t25 + v22;
 v28 = rotl32(v32 ^ v28, 24);
 v43 = rotl32(v44 ^ v28, 16);
 v20 = rotl32(v30 ^ v20, 25);
 v30 = v35 + v24 + v20;
 v29 = rotl32(v30 ^ v29, 16);
 t26 = v30 + v17;
 v30 = v29 + v36;
 v20 = rotl32(v30 ^ v20, 20);
 v35 = t26 + v20;
 v29 = rotl32(v35 ^ v29, 24);
 v30 += v29;
 v36 = v43 + v30;
 v38 = rotl32(v36 ^ v38, 20);
 v44 += v10 + v38;
 t27 = v32 + v18;
 v32 = rotl32(v45 ^ v40, 24);
 v37 += v32;
 v40 = rotl32(v37 ^ v41, 25);
 v41 = t27 + v40;
 v29 = rotl32(v41 ^ v29, 16);
 v39 += v29;
 v40 = rotl32(v39 ^ v40, 20);
 v41 += v8 + v40;
 v29 = rotl32(v41 ^ v29, 24);
 v39 += v29;
 v40 = rotl32(v39 ^ v40, 25);
 v45 = v44 + v12 + v40;
 v20 = rotl32(v30 ^ v20, 25);
 v30 = v42 + v3 + v20;
 t28 = v30 + v6;
 v30 = rotl32(v30 ^ v32, 16);
 v28 += v31;
 v31 = v30 + v28;
 v20 = rotl32(v31 ^ v20, 20);
 v32 = t28 + v20;
 v30 = rotl32(v32 ^ v30, 24);
 v42 = rotl32(v45 ^ v30, 16);
 v22 = rotl32(v28 ^ v22, 25);
 v28 = v35 + v19 + v22;
 v21 = rotl32(v28 ^ v21, 16);
 t29 = v28 + v12;
 v28 = v21 + v37;
 v22 = rotl32(v28 ^ v22, 20);
 v35 = t29 + v22;
 v21 = rotl32(v35 ^ v21, 24);
 v28 += v21;
 v37 = v42 + v28;
 v40 = rotl32(v37 ^ v40, 20);
 v45 += v16 + v40;
 t30 = v32 + v11;
 v32 = rotl32(v44 ^ v43, 24);
 v36 += v32;
 v38 = rotl32(v36 ^ v38, 25);
 v43 = t30 + v38;
 v21 = rotl32(v43 ^ v21, 16);
 v39 += v21;
 v38 = rotl32(v39 ^ v38, 20);
 v43 += v8 + v38;
 v21 = rotl32(v43 ^ v21, 24);
 v39 += v21;
 v38 = rotl32(v39 ^ v38, 25);
 v44 = v45 + v24 + v38;
 v22 = rotl32(v28 ^ v22, 25);
 v28 = v41 + v3 + v22;
 t31 = v28 + v18;
 v28 = rotl32(v28 ^ v32, 16);
 v30 += v31;
 v31 = v28 + v30;
 v22 = rotl32(v31 ^ v22, 20);
 v32 = t31 + v22;
 v28 = rotl32(v32 ^ v28, 24);
 v41 = rotl32(v44 ^ v28, 16);
 v20 = rotl32(v30 ^ v20, 25);
 v30 = v35 + v19 + v20;
 v29 = rotl32(v30 ^ v29, 16);
 t32 = v30 + v9;
 v30 = v29 + v36;
 v20 = rotl32(v30 ^ v20, 20);
 v35 = t32 + v20;
 v29 = rotl32(v35 ^ v29, 24);
 v30 += v29;
 v36 = v41 + v30;
 v38 = rotl32(v36 ^ v38, 20);
 v44 += v23 + v38;
 t33 = v32 + v6;
 v32 = rotl32(v45 ^ v42, 24);
 v37 += v32;
 v40 = rotl32(v37 ^ v40, 25);
 v42 = t33 + v40;
 v29 = rotl32(v42 ^ v29, 16);
 v39 += v29;
 v40 = rotl32(v39 ^ v40, 20);
 v42 += v10 + v40;
 v29 = rotl32(v42 ^ v29, 24);
 v39 += v29;
 v40 = rotl32(v39 ^ v40, 25);
 v45 = v44 + v10 + v40;
 v20 = rotl32(v30 ^ v20, 25);
 v30 = v43 + v4 + v20;
 t34 = v30 + v17;
 v30 = rotl32(v30 ^ v32, 16);
 v28 += v31;
 v31 = v30 + v28;
 v20 = rotl32(v31 ^ v20, 20);
 v32 = t34 + v20;
 v30 = rotl32(v32 ^ v30, 24);
 v43 = rotl32(v45 ^ v30, 16);
 v22 = rotl32(v28 ^ v22, 25);
 v28 = v35 + v13 + v22;
 v21 = rotl32(v28 ^ v21, 16);
 t35 = v28 + v27;
 v28 = v21 + v37;
 v22 = rotl32(v28 ^ v22, 20);
 v35 = t35 + v22;
 v21 = rotl32(v35 ^ v21, 24);
 v28 += v21;
 v37 = v43 + v28;
 v40 = rotl32(v37 ^ v40, 20);
 v45 += v24 + v40;
 t36 = v32 + v3;
 v32 = rotl32(v44 ^ v41, 24);
 v36 += v32;
 v38 = rotl32(v36 ^ v38, 25);
 v41 = t36 + v38;
 v21 = rotl32(v41 ^ v21, 16);
 v39 += v21;
 v38 = rotl32(v39 ^ v38, 20);
 v41 += v27 + v38;
 v21 = rotl32(v41 ^ v21, 24);
 v39 += v21;
 v38 = rotl32(v39 ^ v38, 25);
 v44 = v45 + v17 + v38;
 v22 = rotl32(v28 ^ v22, 25);
 v28 = v42 + v8 + v22;
 t37 = v28 + v13;
 v28 = rotl32(v28 ^ v32, 16);
 v30 += v31;
 v31 = v28 + v30;
 v22 = rotl32(v31 ^ v22, 20);
 v32 = t37 + v22;
 v28 = rotl32(v32 ^ v28, 24);
 v42 = rotl32(v44 ^ v28, 16);
 v20 = rotl32(v30 ^ v20, 25);
 v30 = v35 + v6 + v20;
 v29 = rotl32(v30 ^ v29, 16);
 t38 = v30 + v12;
 v30 = v29 + v36;
 v20 = rotl32(v30 ^ v20, 20);
 v35 = t38 + v20;
 v29 = rotl32(v35 ^ v29, 24);
 v30 += v29;
 v36 = v42 + v30;
 v38 = rotl32(v36 ^ v38, 20);
 v44 += v11 + v38;
 t39 = v32 + v16;
 v32 = rotl32(v45 ^ v43, 24);
 v37 += v32;
 v40 = rotl32(v37 ^ v40, 25);
 v43 = t39 + v40;
 v29 = rotl32(v43 ^ v29, 16);
 v39 += v29;
 v40 = rotl32(v39 ^ v40, 20);
 v43 += v4 + v40;
 v29 = rotl32(v43 ^ v29, 24);
 v39 += v29;
 v40 = rotl32(v39 ^ v40, 25);
 v45 = v44 + v18 + v40;
 v20 = rotl32(v30 ^ v20, 25);
 v30 = v41 + v18 + v20;
 t40 = v30 + v23;
 v30 = rotl32(v30 ^ v32, 16);
 v28 += v31;
 v31 = v30 + v28;
 v20 = rotl32(v31 ^ v20, 20);
 v32 = t40 + v20;
 v30 = rotl32(v32 ^ v30, 24);
 v41 = rotl32(v45 ^ v30, 16);
 v22 = rotl32(v28 ^ v22, 25);
 v28 = v35 + v9 + v22;
 v21 = rotl32(v28 ^ v21, 16);
 t41 = v28 + v19;
 v28 = v21 + v37;
 v22 = rotl32(v28 ^ v22, 20);
 v35 = t41 + v22;
 v21 = rotl32(v35 ^ v21, 24);
 v28 += v21;
 v37 = v41 + v28;
 v40 = rotl32(v37 ^ v40, 20);
 v45 += v12 + v40;
 t42 = v32 + v27;
 v32 = rotl32(v44 ^ v42, 24);
 v36 += v32;
 v38 = rotl32(v36 ^ v38, 25);
 v42 = t42 + v38;
 v21 = rotl32(v42 ^ v21, 16);
 v39 += v21;
 v38 = rotl32(v39 ^ v38, 20);
 v42 += v19 + v38;
 v21 = rotl32(v42 ^ v21, 24);
 v39 += v21;
 v38 = rotl32(v39 ^ v38, 25);
 v44 = v45 + v10 + v38;
 v22 = rotl32(v28 ^ v22, 25);
 v28 = v43 + v4 + v22;
 t43 = v28 + v23;
 v28 = rotl32(v28 ^ v32, 16);
 v30 += v31;
 v31 = v28 + v30;
 v22 = rotl32(v31 ^ v22, 20);
 v32 = t43 + v22;
 v28 = rotl32(v32 ^ v28, 24);
 v43 = rotl32(v44 ^ v28, 16);
 v20 = rotl32(v30 ^ v20, 25);
 v30 = v35 + v17 + v20;
 v29 = rotl32(v30 ^ v29, 16);
 t44 = v30 + v16;
 v30 = v29 + v36;
 v20 = rotl32(v30 ^ v20, 20);
 v35 = t44 + v20;
 v29 = rotl32(v35 ^ v29, 24);
 v30 += v29;
 v36 = v43 + v30;
 v38 = rotl32(v36 ^ v38, 20);
 v44 += v13 + v38;
 t45 = v32 + v11;
 v32 = rotl32(v45 ^ v41, 24);
 v37 += v32;
 v40 = rotl32(v37 ^ v40, 25);
 v41 = t45 + v40;
 v29 = rotl32(v41 ^ v29, 16);
 v39 += v29;
 v40 = rotl32(v39 ^ v40, 20);
 v41 += v3 + v40;
 v29 = rotl32(v41 ^ v29, 24);
 v39 += v29;
 v40 = rotl32(v39 ^ v40, 25);
 v45 = v44 + v24 + v40;
 v20 = rotl32(v30 ^ v20, 25);
 v30 = v42 + v8 + v20;
 t46 = v30 + v9;
 v30 = rotl32(v30 ^ v32, 16);
 v28 += v31;
 v31 = v30 + v28;
 v20 = rotl32(v31 ^ v20, 20);
 v32 = t46 + v20;
 v30 = rotl32(v32 ^ v30, 24);
 v42 = rotl32(v45 ^ v30, 16);
 v22 = rotl32(v28 ^ v22, 25);
 v28 = v35 + v6 + v22;
 v21 = rotl32(v28 ^ v21, 16);
 t47 = v28 + v24;
 v28 = v21 + v37;
 v22 = rotl32(v28 ^ v22, 20);
 v35 = t47 + v22;
 v21 = rotl32(v35 ^ v21, 24);
 v28 += v21;
 v37 = v42 + v28;
 v40 = rotl32(v37 ^ v40, 20);
 v45 += v11 + v40;
 t48 = v32 + v23;
 v32 = rotl32(v44 ^ v43, 24);
 v36 += v32;
 v38 = rotl32(v36 ^ v38, 25);
 v43 = t48 + v38;
 v21 = rotl32(v43 ^ v21, 16);
 v39 += v21;
 v38 = rotl32(v39 ^ v38, 20);
 v43 += v13 + v38;
 v21 = rotl32(v43 ^ v21, 24);
 v39 += v21;
 v38 = rotl32(v39 ^ v38, 25);
 v44 = v45 + v3 + v38;
 v22 = rotl32(v28 ^ v22, 25);
 v28 = v41 + v27 + v22;
 t49 = v28 + v17;
 v28 = rotl32(v28 ^ v32, 16);
 v30 += v31;
 v31 = v28 + v30;
 v22 = rotl32(v31 ^ v22, 20);
 v32 = t49 + v22;
 v28 = rotl32(v32 ^ v28, 24);
 v41 = rotl32(v44 ^ v28, 16);
 v20 = rotl32(v30 ^ v20, 25);
 v30 = v35 + v9 + v20;
 v29 = rotl32(v30 ^ v29, 16);
 t50 = v30 + v4;
 v30 = v29 + v36;
 v20 = rotl32(v30 ^ v20, 20);
 v35 = t50 + v20;
 v29 = rotl32(v35 ^ v29, 24);
 v30 += v29;
 v36 = v41 + v30;
 v38 = rotl32(v36 ^ v38, 20);
 v44 += v12 + v38;
 t51 = v32 + v10;
 v32 = rotl32(v45 ^ v42, 24);
 v37 += v32;
 v40 = rotl32(v37 ^ v40, 25);
 v42 = t51 + v40;
 v29 = rotl32(v42 ^ v29, 16);
 v39 += v29;
 v40 = rotl32(v39 ^ v40, 20);
 v42 += v6 + v40;
 v29 = rotl32(v42 ^ v29, 24);
 v39 += v29;
 v40 = rotl32(v39 ^ v40, 25);
 v45 = v44 + v8 + v40;
 v20 = rotl32(v30 ^ v20, 25);
 v30 = v43 + v19 + v20;
 t52 = v30 + v8;
 v30 = rotl32(v30 ^ v32, 16);
 v28 += v31;
 v31 = v30 + v28;
 v20 = rotl32(v31 ^ v20, 20);
 v32 = t52 + v20;
 v30 = rotl32(v32 ^ v30, 24);
 v43 = rotl32(v45 ^ v30, 16);
 v22 = rotl32(v28 ^ v22, 25);
 v28 = v35 + v16 + v22;
 v21 = rotl32(v28 ^ v21, 16);
 t53 = v28 + v18;
 v28 = v21 + v37;
 v22 = rotl32(v28 ^ v22, 20);
 v35 = t53 + v22;
 v21 = rotl32(v35 ^ v21, 24);
 v28 += v21;
 v37 = v43 + v28;
 v40 = rotl32(v37 ^ v40, 20);
 v45 += v10 + v40;
 t54 = v32 + v6;
 v32 = rotl32(v44 ^ v41, 24);
 v36 += v32;
 v38 = rotl32(v36 ^ v38, 25);
 v41 = t54 + v38;
 v21 = rotl32(v41 ^ v21, 16);
 v39 += v21;
 v38 = rotl32(v39 ^ v38, 20);
 v41 += v16 + v38;
 v21 = rotl32(v41 ^ v21, 24);
 v39 += v21;
 v38 = rotl32(v39 ^ v38, 25);
 v44 = v45 + v12 + v38;
 v22 = rotl32(v28 ^ v22, 25);
 v28 = v42 + v13 + v22;
 t55 = v28 + v24;
 v28 = rotl32(v28 ^ v32, 16);
 v30 += v31;
 v31 = v28 + v30;
 v22 = rotl32(v31 ^ v22, 20);
 v32 = t55 + v22;
 v28 = rotl32(v32 ^ v28, 24);
 v42 = rotl32(v44 ^ v28, 16);
 v20 = rotl32(v30 ^ v20, 25);
 v30 = v35 + v4 + v20;
 v29 = rotl32(v30 ^ v29, 16);
 t56 = v30 + v11;
 v30 = v29 + v36;
 v20 = rotl32(v30 ^ v20, 20);
 v35 = t56 + v20;
 v29 = rotl32(v35 ^ v29, 24);
 v30 += v29;
 v36 = v42 + v30;
 v38 = rotl32(v36 ^ v38, 20);
 v44 += v19 + v38;
 t57 = v44 + v17;
 t58 = v32 + v17;
 v17 = rotl32(v45 ^ v43, 24);
 v32 = v17 + v37;
 v37 = rotl32(v32 ^ v40, 25);
 v40 = t58 + v37;
 v29 = rotl32(v40 ^ v29, 16);
 v39 += v29;
 v37 = rotl32(v39 ^ v37, 20);
 v40 += v18 + v37;
 v29 = rotl32(v40 ^ v29, 24);
 v39 += v29;
 v37 = rotl32(v39 ^ v37, 25);
 v43 = t57 + v37;
 t59 = v43 + v19;
 v19 = rotl32(v30 ^ v20, 25);
 v20 = v41 + v27 + v19;
 v17 = rotl32(v20 ^ v17, 16);
 t60 = v20 + v3;
 v20 = v28 + v31;
 v28 = v17 + v20;
 v19 = rotl32(v28 ^ v19, 20);
 v30 = t60 + v19;
 v17 = rotl32(v30 ^ v17, 24);
 v31 = rotl32(v43 ^ v17, 16);
 v20 = rotl32(v20 ^ v22, 25);
 v22 = v35 + v23 + v20;
 v21 = rotl32(v22 ^ v21, 16);
 t61 = v22 + v9;
 v22 = v21 + v32;
 v20 = rotl32(v22 ^ v20, 20);
 v32 = t61 + v20;
 v21 = rotl32(v32 ^ v21, 24);
 v22 += v21;
 v35 = v31 + v22;
 v37 = rotl32(v35 ^ v37, 20);
 v41 = t59 + v37;
 t62 = v41 + v23;
 v23 = rotl32(v44 ^ v42, 24);
 t63 = v30 + v12;
 v12 = v23 + v36;
 v30 = rotl32(v12 ^ v38, 25);
 v36 = t63 + v30;
 t64 = v36 + v3;
 v3 = rotl32(v36 ^ v21, 16);
 v21 = v3 + v39;
 v30 = rotl32(v21 ^ v30, 20);
 v36 = t64 + v30;
 v3 = rotl32(v36 ^ v3, 24);
 v21 += v3;
 v30 = rotl32(v21 ^ v30, 25);
 v38 = t62 + v30;
 t65 = v40 + v9;
 v9 = rotl32(v22 ^ v20, 25);
 t66 = v38 + v8;
 v8 = t65 + v9;
 t67 = v8 + v6;
 v6 = rotl32(v8 ^ v23, 16);
 v8 = v17 + v28;
 v17 = v6 + v8;
 v9 = rotl32(v17 ^ v9, 20);
 v23 = t67 + v9;
 v6 = rotl32(v23 ^ v6, 24);
 v20 = rotl32(v38 ^ v6, 16);
 v8 = rotl32(v8 ^ v19, 25);
 v19 = v32 + v10 + v8;
 t68 = v19 + v18;
 v18 = rotl32(v19 ^ v29, 16);
 v19 = v18 + v12;
 v8 = rotl32(v19 ^ v8, 20);
 v10 = t68 + v8;
 v18 = rotl32(v10 ^ v18, 24);
 v19 += v18;
 v12 = v20 + v19;
 v22 = rotl32(v12 ^ v30, 20);
 v28 = t66 + v22;
 v6 += v17;
 v9 = rotl32(v6 ^ v9, 25);
 v17 = v10 + v11 + v9;
 t69 = v17 + v4;
 v4 = rotl32(v17 ^ v3, 16);
 v17 = rotl32(v41 ^ v31, 24);
 v3 = v17 + v35;
 v10 = v4 + v3;
 v9 = rotl32(v10 ^ v9, 20);
 v11 = t69 + v9;
 v4 = rotl32(v11 ^ v4, 24);
 v10 += v4;
 store32(v0 + 12, v28 ^ v10 ^ v5);
 v3 = rotl32(v3 ^ v37, 25);
 v24 = v23 + v24 + v3;
 v18 = rotl32(v24 ^ v18, 16);
 t70 = v27 + v24;
 v24 = v18 + v21;
 v3 = rotl32(v24 ^ v3, 20);
 v23 = t70 + v3;
 v8 = rotl32(v19 ^ v8, 25);
 v16 = v36 + v16 + v8;
 v17 = rotl32(v16 ^ v17, 16);
 v6 += v17;
 v8 = rotl32(v6 ^ v8, 20);
 v16 = v13 + v16 + v8;
 v17 = rotl32(v16 ^ v17, 24);
 v6 += v17;
 store32(v0 + 8, v25 ^ (v23 ^ v6));
 v19 = rotl32(v28 ^ v20, 24);
 v27 = v19 + v12;
 store32(v0 + 4, v33 ^ (v11 ^ v27));
 v18 = rotl32(v23 ^ v18, 24);
 v24 += v18;
 store32(v0, v14 ^ (v16 ^ v24));
 store32(v0 + 20, v34 ^ (v18 ^ rotl32(v6 ^ v8, 25)));
 store32(v0 + 16, v15 ^ (v4 ^ rotl32(v27 ^ v22, 25)));
 store32(v0 + 24, v26 ^ (v19 ^ rotl32(v10 ^ v9, 25)));
 store32(v0 + 28, v7 ^ (v17 ^ rotl32(v24 ^ v3, 25)));
 return;
}

SCRUB(digest_wiping_scrub_stack_768, 2816)

/* blake2_compress::whole::blake2s::absorb_keyed */
APART void compress_whole_blake2s_absorb_keyed(u64 v0, u64 v1, u64 v2, u64 v3, u64 v4) {
 u64 v5, v6;
 FRAME(18);
 v5 = top - 128;
 v6 = v5;
 fill(v6, 0, 64);
 if (v2 == 0) goto l3;
 copy(v6, v1, v2);
l3:;
 if (!(v4 == 0)) goto l4;
 compress_compress_blake2s_compress(v0, v6, 64, 1, 0);
 goto l1;
l4:;
 compress_compress_blake2s_compress(v0, v6, 64, 0, 0);
 v1 = v4 - 1;
 v5 = v1 >> 6;
 if (v5 == 0) goto l5;
 v2 = 128;
l6:;
 compress_compress_blake2s_compress(v0, v3 + v2 - 128, v2, 0, 0);
 v2 += 64;
 v5 -= 1;
 if (v5 != 0) goto l6;
l5:;
 fill(v6 + 64, 0, 64);
 v2 = v1 & 0xffffffffffffffc0;
 v5 = v4 - v2;
 if (v5 == 0) goto l7;
 copy(v6 + 64, v3 + v2, v5);
l7:;
 compress_compress_blake2s_compress(v0, v6 + 64, v4 + 64, 1, 0);
 goto l1;
l1:;
}

/* blake2_ffi::blake2s::write_digest */
APART void ffi_blake2s_write_digest(u64 v0, u64 v1, u64 v2, u64 v3, u64 v4) {
 u32 v8;
 u64 v5, v6, v7;
 FRAME(18);
 v5 = top - 128;
 v6 = load64(v4 + 16);
 v7 = load64(v4 + 8);
 fill(v5, 0, 32);
 v8 = load8(v4);
 store32(v5 + 60, 0x5be0cd19);
 store64(v5 + 52, 0x1f83d9ab9b05688c);
 store64(v5 + 44, 0x510e527fa54ff53a);
 store64(v5 + 36, 0x3c6ef372bb67ae85);
 store32(v5 + 32, ((v8 ? ((((u32)v6 << 8) & 0xff00) | 0x1010000) : 0x1010000) | ((u32)v1 & 255)) ^
   0x6a09e667);
 if (v8) goto l3;
 v7 = v3 - (u64)(u32)(v3 != 0);
 v6 = v7 >> 6;
 if (v6 == 0) goto l4;
 v4 = 64;
l5:;
 compress_compress_blake2s_compress(v5 + 32, v2 + v4 - 64, v4, 0, 0);
 v4 += 64;
 v6 -= 1;
 if (v6 != 0) goto l5;
l4:;
 fill(v5 + 64, 0, 64);
 v4 = v7 & 0xffffffffffffffc0;
 v6 = v3 - v4;
 if (v6 == 0) goto l6;
 copy(v5 + 64, v2 + v4, v6);
l6:;
 compress_compress_blake2s_compress(v5 + 32, v5 + 64, v3, 1, 0);
 goto l2;
l3:;
 compress_whole_blake2s_absorb_keyed(v5 + 32, v7, v6, v2, v3);
l2:;
 store64(v5, load64(v5 + 32));
 store64(v5 + 8, load64(v5 + 40));
 store64(v5 + 16, load64(v5 + 48));
 store64(v5 + 24, load64(v5 + 56));
 if (v1 == 0) goto l7;
 copy(v0, v5, v1);
l7:;
 return;
}

/* blake2_ffi::blake2s::write_keyed */
APART u32 ffi_blake2s_write_keyed(u64 v0, u64 v1, u64 v2, u64 v3, u64 v4, u64 v5) {
 u32 v7;
 u64 v6;
 FRAME(6);
 v6 = top - 32;
 v7 = 0xffffffff;
 if (v3 > 0xffffffffffffffbf) goto l2;
 if ((v1 - 33) < 0xffffffffffffffe0) goto l2;
 if (v5 >= 33) goto l2;
 store64(v6 + 24, v5);
 store64(v6 + 16, v4);
 store64(v6 + 8, 1);
 ffi_blake2s_write_digest(v0, v1, v2, v3, v6 + 8);
 v7 = 0;
l2:;
 return v7;
}

/* rattle::export vulfsjor_ffi_blake2s */
APART u32 exported_blake2s(u64 v0, u64 v1, u64 v2, u64 v3, u64 v4, u64 v5) {
 u32 v9;
 u64 v6, v7, v8;
 FRAME(18);
 v6 = top - 128;
 v7 = v2 + (v2 == 0 ? UINT64_C(4096) : 0);
 v8 = v0 + (v0 == 0 ? UINT64_C(4096) : 0);
 fill(v6 + 16, 0, 16);
 if (v5 == 0) goto l4;
 v9 = ffi_blake2s_write_keyed(v8, v1, v7, v3, v4 + (v4 == 0 ? UINT64_C(4096) : 0), v5);
 digest_wiping_scrub_stack_768();
 goto l1;
l4:;
 v9 = 0xffffffff;
 if ((v1 - 1) > 31) goto l1;
 if (v1 != 32) goto l2;
 store64(v6 + 56, 0x5be0cd191f83d9ab);
 store64(v6 + 48, 0x9b05688c510e527f);
 store64(v6 + 40, 0xa54ff53a3c6ef372);
 store64(v6 + 32, 0xbb67ae856b08e647);
 v5 = v3 - (u64)(u32)(v3 != 0);
 v0 = v5 >> 6;
 if (v0 == 0) goto l5;
 v2 = 64;
l6:;
 compress_compress_blake2s_compress(v6 + 32, v7 + v2 - 64, v2, 0, 0);
 v2 += 64;
 v0 -= 1;
 if (v0 != 0) goto l6;
l5:;
 fill(v6 + 64, 0, 64);
 v2 = v5 & 0xffffffffffffffc0;
 v0 = v3 - v2;
 if (v0 == 0) goto l7;
 copy(v6 + 64, v7 + v2, v0);
l7:;
 v9 = 0;
 compress_compress_blake2s_compress(v6 + 32, v6 + 64, v3, 1, 0);
 v2 = load64(v6 + 32);
 v0 = load64(v6 + 40);
 v7 = load64(v6 + 48);
 store64(v8 + 24, load64(v6 + 56));
 store64(v8 + 16, v7);
 store64(v8 + 8, v0);
 store64(v8, v2);
 goto l1;
l2:;
 store64(v6 + 8, 0);
 ffi_blake2s_write_digest(v8, v1, v7, v3, v6 + 8);
 v9 = 0;
l1:;
 return v9;
}

SCRUB(digest_wiping_scrub_stack_5632, 7680)

/* blake2_state::blake2s::State::write_digest */
APART void state_blake2s_State_write_digest(u64 v0, u64 v1) {
 u64 v2, v3;
 FRAME(18);
 v2 = top - 128;
 fill(v2, 0, 32);
 fill(v2 + 64, 0, 64);
 store64(v2 + 56, load64(v0 + 24));
 store64(v2 + 48, load64(v0 + 16));
 store64(v2 + 40, load64(v0 + 8));
 store64(v2 + 32, load64(v0));
 v3 = (u64)load16(v0 + 72);
 if (v3 == 0) goto l2;
 copy(v2 + 64, v0 + 80, v3);
l2:;
 compress_compress_blake2s_compress(v2 + 32, v2 + 64, load64(v0 + 64) + v3, 1, (u32)(load16(v0 + 78)
   != 0));
 store64(v2, load64(v2 + 32));
 store64(v2 + 8, load64(v2 + 40));
 store64(v2 + 16, load64(v2 + 48));
 store64(v2 + 24, load64(v2 + 56));
 v0 = (u64)load16(v0 + 76);
 if (v0 == 0) goto l3;
 copy(v1, v2, v0);
l3:;
 return;
}

/* blake2_state::blake2s::State::absorb_blocks */
APART void state_blake2s_State_absorb_blocks(u64 v0, u64 v1, u64 v2) {
 u32 v4;
 u64 v3, v5, v6, v7, v8, v9, v10, v11, v12, v13, v14;
 FRAME(12);
 v3 = top - 80;
 v4 = load16(v0 + 72);
 v5 = (u64)v4 & 0xffff;
 v6 = 64 - v5;
 if (v2 > v6) goto l3;
 v7 = v0 + v5;
 v8 = v7 + 80;
 if ((v8 - v1) >= v2) goto l5;
 v9 = v2 & 3;
 v10 = 0;
 if (v2 < 4) goto l6;
 v11 = v2 & 0xfffffffffffffffc;
 v10 = 0;
l7:;
 v8 = v7 + v10;
 v12 = v1 + v10;
 store8(v8 + 80, load8(v12));
 store8(v8 + 81, load8(v12 + 1));
 store8(v8 + 82, load8(v12 + 2));
 store8(v8 + 83, load8(v12 + 3));
 v10 += 4;
 if (v11 != v10) goto l7;
 if (v9 == 0) goto l4;
l6:;
 v8 = v1 + v10;
 v10 += v5 + v0 + 80;
l8:;
 store8(v10, load8(v8));
 v10 += 1;
 v8 += 1;
 v9 -= 1;
 if (v9 != 0) goto l8;
 goto l4;
l5:;
 if (v2 == 0) goto l4;
 copy(v8, v1, v2);
l4:;
 store16(v0 + 72, v4 + (u32)v2);
 goto l2;
l3:;
 store64(v3, load64(v0));
 store64(v3 + 8, load64(v0 + 8));
 store64(v3 + 16, load64(v0 + 16));
 store64(v3 + 24, load64(v0 + 24));
 v13 = load64(v0 + 64);
 store64(v3 + 64, v13);
 store64(v3 + 32, load64(v0 + 32));
 store64(v3 + 40, load64(v0 + 40));
 store64(v3 + 48, load64(v0 + 48));
 store64(v3 + 56, load64(v0 + 56));
 store64(v3 + 72, (u64)(u32)(load16(v0 + 78) != 0));
 v7 = v0 + 80;
 if ((v4 & 0xffff) == 0) goto l9;
 v8 = v7 + v5;
 if ((v8 - v1) >= v6) goto l11;
 v9 = v6 & 3;
 v10 = 0;
 if (((v4 - 61) & 0xffff) < 3) goto l12;
 v11 = v0 + v5;
 v14 = v6 & 0xfffffffffffffffc;
 v10 = 0;
l13:;
 v8 = v11 + v10;
 v12 = v1 + v10;
 store8(v8 + 80, load8(v12));
 store8(v8 + 81, load8(v12 + 1));
 store8(v8 + 82, load8(v12 + 2));
 store8(v8 + 83, load8(v12 + 3));
 v10 += 4;
 if (v14 != v10) goto l13;
 if (v9 == 0) goto l10;
l12:;
 v8 = v1 + v10;
 v10 += v5 + v0 + 80;
l14:;
 store8(v10, load8(v8));
 v10 += 1;
 v8 += 1;
 v9 -= 1;
 if (v9 != 0) goto l14;
 goto l10;
l11:;
 if (v6 == 0) goto l10;
 copy(v8, v1, v6);
l10:;
 v2 -= v6;
 v1 += v6;
 v8 = v13 + 64;
 store64(v3 + 64, v8);
 compress_compress_blake2s_compress(v3, v7, v8, 0, 0);
l9:;
 v8 = v2 - (u64)(u32)(v2 != 0);
 v14 = v8 & 0xffffffffffffffc0;
 v10 = v8 >> 6;
 if (v10 == 0) goto l15;
 v8 = v1;
l16:;
 v12 = load64(v3 + 64) + 64;
 store64(v3 + 64, v12);
 compress_compress_blake2s_compress(v3, v8, v12, 0, 0);
 v8 += 64;
 v10 -= 1;
 if (v10 != 0) goto l16;
l15:;
 fill(v7, 0, 64);
 v11 = v1 + v14;
 v6 = v2 - v14;
 if ((v7 - v11) >= v6) goto l18;
 v9 = v2 & 3;
 v10 = 0;
 if ((v14 - v2) > 0xfffffffffffffffc) goto l19;
 v2 = (v2 & 0xfffffffffffffffc) - v14;
 v10 = 0;
l20:;
 v8 = v0 + v10;
 v12 = v11 + v10;
 store8(v8 + 80, load8(v12));
 store8(v8 + 81, load8(v12 + 1));
 store8(v8 + 82, load8(v12 + 2));
 store8(v8 + 83, load8(v12 + 3));
 v10 += 4;
 if (v2 != v10) goto l20;
 if (v9 == 0) goto l17;
l19:;
 v8 = v10 + v0 + 80;
 v10 = v1 + (v10 + v14);
l21:;
 store8(v8, load8(v10));
 v8 += 1;
 v10 += 1;
 v9 -= 1;
 if (v9 != 0) goto l21;
 goto l17;
l18:;
 if (v6 == 0) goto l17;
 copy(v7, v11, v6);
l17:;
 store64(v0 + 24, load64(v3 + 24));
 store64(v0 + 16, load64(v3 + 16));
 store64(v0 + 8, load64(v3 + 8));
 store64(v0, load64(v3));
 store16(v0 + 72, v6);
 store64(v0 + 64, load64(v3 + 64));
l2:;
 return;
}

/* blake2_ffi::blake2s::many::write_all */
APART void ffi_blake2s_many_write_all(u64 v0, u64 v1, u64 v2, u64 v3, u64 v4) {
 u32 v21, v22, v23, v24, v25, v26;
 u64 v5, v6, v7, v8, v9, v10, v11, v12, v13, v14, v15, v16, v17, v18, v19, v20, v27;
 FRAME(38);
 (void)v1;
 v5 = top - 288;
 if (v4 == 0) goto l2;
 v6 = (v5 + 176) | 8;
 v7 = v5 + 224 + 32;
 v8 = (v5 + 192) | 8;
 v9 = v5 + 144;
 v10 = v5 + 80;
 v11 = 0;
l3:;
 v12 = load64(v2);
 if ((v12 - 33) < 0xffffffffffffffe0) goto l4;
 v13 = load64(v2 + 16);
 if (v13 > 32) goto l4;
 v14 = load64(v2 + 32);
 if (v14 > 8) goto l4;
 v15 = load64(v2 + 48);
 if (v15 > 8) goto l4;
 v16 = v12 * v11;
 v17 = load64(v3 + 8);
 v18 = load64(v3);
 v19 = load64(v2 + 40);
 v20 = load64(v2 + 24);
 if (v13 != 0) goto l6;
 fill(v5 + 176, 0, 16);
 if (v14 == 0) goto l7;
 copy(v5 + 176, v20, v14);
l7:;
 if (v15 == 0) goto l8;
 copy(v6, v19, v15);
l8:;
 fill(v5 + 192, 0, 96);
 v21 = ((u32)v12 | 0x1010000) ^ 0x6a09e667;
 v22 = load32(v5 + 188) ^ 0x5be0cd19;
 v23 = load32(v5 + 184) ^ 0x1f83d9ab;
 v24 = load32(v5 + 180) ^ 0x9b05688c;
 v25 = load32(v5 + 176) ^ 0x510e527f;
 v26 = 0;
 goto l5;
l6:;
 v27 = load64(v2 + 8);
 fill(v5 + 192, 0, 16);
 if (v14 == 0) goto l9;
 copy(v5 + 192, v20, v14);
l9:;
 if (v15 == 0) goto l10;
 copy(v8, v19, v15);
l10:;
 v26 = load32(v5 + 192);
 v24 = load32(v5 + 196);
 v23 = load32(v5 + 200);
 v22 = load32(v5 + 204);
 v14 = v13 > 31 ? 0 : (32 - v13);
 if (v14 == 0) goto l11;
 fill(v5 + 192 + v13, 0, v14);
l11:;
 if (v13 == 0) goto l12;
 copy(v5 + 192, v27, v13);
l12:;
 fill(v7, 0, 32);
 store64(v5 + 224, load64(v5 + 192));
 store64(v5 + 232, load64(v5 + 200));
 store64(v5 + 240, load64(v5 + 208));
 store64(v5 + 248, load64(v5 + 216));
 v21 = (((u32)v13 << 8) | (u32)v12 | 0x1010000) ^ 0x6a09e667;
 v22 ^= 0x5be0cd19;
 v23 ^= 0x1f83d9ab;
 v24 ^= 0x9b05688c;
 v25 = v26 ^ 0x510e527f;
 v26 = 64;
l5:;
 v14 = v0 + v16;
 store16(v5 + 78, 0);
 store16(v5 + 76, v12);
 store16(v5 + 74, v26);
 store16(v5 + 72, v26);
 store64(v5 + 64, 0);
 store32(v5 + 60, v22);
 store32(v5 + 56, v23);
 store32(v5 + 52, v24);
 store32(v5 + 48, v25);
 store32(v5 + 44, 0xa54ff53a);
 store32(v5 + 40, 0x3c6ef372);
 store32(v5 + 36, 0xbb67ae85);
 store32(v5 + 32, v21);
 store32(v5 + 28, v22);
 store32(v5 + 24, v23);
 store32(v5 + 20, v24);
 store32(v5 + 16, v25);
 store32(v5 + 12, 0xa54ff53a);
 store32(v5 + 8, 0x3c6ef372);
 store32(v5 + 4, 0xbb67ae85);
 store32(v5, v21);
 store64(v10 + 56, load64(v5 + 280));
 store64(v10 + 48, load64(v5 + 272));
 store64(v10 + 40, load64(v5 + 264));
 store64(v10 + 32, load64(v5 + 256));
 store64(v10 + 24, load64(v5 + 248));
 store64(v10 + 16, load64(v5 + 240));
 store64(v10 + 8, load64(v5 + 232));
 store64(v10, load64(v5 + 224));
 store64(v9, load64(v5 + 192));
 store64(v9 + 8, load64(v5 + 200));
 store64(v9 + 16, load64(v5 + 208));
 store64(v9 + 24, load64(v5 + 216));
 if (v17 == 1) goto l14;
 state_blake2s_State_absorb_blocks(v5, v18, v17);
 goto l13;
l14:;
 if (v13 == 0) goto l15;
 state_blake2s_State_absorb_blocks(v5, v18, 1);
 goto l13;
l15:;
 store8(v10 + (u64)v26, load8(v18));
 store16(v5 + 72, v26 | 1);
l13:;
 state_blake2s_State_write_digest(v5, v14);
l4:;
 v3 += 16;
 v11 += 1;
 if (v4 != v11) goto l3;
l2:;
 return;
}

/* rattle::export vulfsjor_ffi_blake2s_many */
APART u32 exported_blake2s_many(u64 v0, u64 v1, u64 v2, u64 v3, u64 v4, u64 v5, u64 v6, u64 v7, u64
        v8, u64 v9, u64 v10) {
 u32 v12;
 u64 v11;
 FRAME(12);
 v11 = top - 80;
 store64(v11 + 72, v10);
 store64(v11 + 56, v8);
 store64(v11 + 40, v6);
 store64(v11 + 64, v9 + (v9 == 0 ? UINT64_C(4096) : 0));
 store64(v11 + 48, v7 + (v7 == 0 ? UINT64_C(4096) : 0));
 store64(v11 + 32, v5 + (v5 == 0 ? UINT64_C(4096) : 0));
 store64(v11 + 24, v2);
 v12 = 0xffffffff;
 if ((v2 - 1) > 31) goto l1;
 if (v6 > 32) goto l1;
 if (v8 > 8) goto l1;
 if (v10 > 8) goto l1;
 multi3(v11, v4, 0, v2, 0);
 if (((load64(v11) ^ v1) | load64(v11 + 8)) != 0) goto l1;
 v7 = v3 + (v3 == 0 ? UINT64_C(4096) : 0);
 v5 = v0 + (v0 == 0 ? UINT64_C(4096) : 0);
 if (v6 == 0) goto l3;
 v2 = v7 + 8;
 v6 = 0xffffffffffffffff;
l6:;
 v6 += 1;
 if (v4 == v6) goto l5;
 v9 = load64(v2);
 v2 += 16;
 if (v9 <= 0xffffffffffffffbf) goto l6;
 goto l1;
l5:;
 ffi_blake2s_many_write_all(v5, v1, v11 + 24, v7, v4);
 digest_wiping_scrub_stack_5632();
 goto l2;
l3:;
 ffi_blake2s_many_write_all(v5, v1, v11 + 24, v7, v4);
l2:;
 v12 = 0;
l1:;
 return v12;
}

/* blake2_ffi::blake2s::initialize */
APART u32 ffi_blake2s_initialize(u64 v0, u64 v1, u64 v2) {
 u32 v8, v9, v13, v14, v15, v16, v17, v18, v19, v20;
 u64 v3, v4, v5, v6, v7, v10, v11, v12;
 FRAME(28);
 v3 = top - 208;
 v4 = load64(v1);
 if ((v4 - 33) < 0xffffffffffffffe0) goto l3;
 v5 = load64(v1 + 16);
 if (v5 > 32) goto l3;
 v6 = load64(v1 + 32);
 if (v6 > 8) goto l3;
 v7 = load64(v1 + 48);
 if (v7 > 8) goto l3;
 v8 = load8(v2 + 1);
 if (v8 == 0) goto l3;
 v9 = load8(v2 + 17);
 if ((v9 & 255) > 32) goto l3;
 v10 = load64(v2 + 8);
 if (v10 > 0xffffffffffff) goto l3;
 v11 = load64(v1 + 40);
 v12 = load64(v1 + 24);
 v13 = load16(v2 + 6);
 v14 = load16(v2 + 4);
 v15 = load8(v2 + 16);
 v16 = load8(v2);
 if (v5 != 0) goto l5;
 fill(v3 + 96, 0, 16);
 if (v6 == 0) goto l6;
 copy(v3 + 96, v12, v6);
l6:;
 if (v7 == 0) goto l7;
 copy((v3 + 96) | 8, v11, v7);
l7:;
 fill(v3, 0, 96);
 v13 = ((v14 & 0xffff) | (v13 << 16)) ^ 0xbb67ae85;
 v14 = ((v16 << 16) | (u32)v4 | (v8 << 24)) ^ 0x6a09e667;
 v9 = (((u32)(v10 >> 32) & 0xffff) | ((v9 << 24) | ((v15 & 255) << 16))) ^ 0xa54ff53a;
 v15 = (u32)v10 ^ 0x3c6ef372;
 v16 = load32(v3 + 108) ^ 0x5be0cd19;
 v17 = load32(v3 + 104) ^ 0x1f83d9ab;
 v18 = load32(v3 + 100) ^ 0x9b05688c;
 v19 = load32(v3 + 96) ^ 0x510e527f;
 v20 = 0;
 goto l4;
l5:;
 v1 = load64(v1 + 8);
 fill(v3 + 96, 0, 16);
 if (v6 == 0) goto l8;
 copy(v3 + 96, v12, v6);
l8:;
 if (v7 == 0) goto l9;
 copy((v3 + 96) | 8, v11, v7);
l9:;
 v19 = load32(v3 + 96);
 v18 = load32(v3 + 100);
 v17 = load32(v3 + 104);
 v20 = load32(v3 + 108);
 v2 = v5 > 31 ? 0 : (32 - v5);
 if (v2 == 0) goto l10;
 fill(v3 + 112 + v5, 0, v2);
l10:;
 if (v5 == 0) goto l11;
 copy(v3 + 112, v1, v5);
l11:;
 fill(v3 + 176, 0, 32);
 fill(v3 + 64, 0, 32);
 v1 = load64(v3 + 112);
 store64(v3 + 144, v1);
 v2 = load64(v3 + 120);
 store64(v3 + 152, v2);
 v6 = load64(v3 + 128);
 store64(v3 + 160, v6);
 v7 = load64(v3 + 136);
 store64(v3 + 168, v7);
 store64(v3 + 32, v1);
 store64(v3 + 40, v2);
 store64(v3 + 48, v6);
 store64(v3 + 56, v7);
 store64(v3 + 24, load64(v3 + 136));
 store64(v3 + 16, load64(v3 + 128));
 store64(v3 + 8, load64(v3 + 120));
 store64(v3, load64(v3 + 112));
 v13 = ((v14 & 0xffff) | (v13 << 16)) ^ 0xbb67ae85;
 v9 = (((u32)(v10 >> 32) & 0xffff) | ((v9 << 24) | ((v15 & 255) << 16))) ^ 0xa54ff53a;
 v14 = (((v16 << 16) | ((((u32)v5 << 8) & 0xff00) | (u32)v4)) + (v8 << 24)) ^ 0x6a09e667;
 v15 = (u32)v10 ^ 0x3c6ef372;
 v16 = v20 ^ 0x5be0cd19;
 v17 ^= 0x1f83d9ab;
 v18 ^= 0x9b05688c;
 v19 ^= 0x510e527f;
 v20 = 64;
l4:;
 v8 = 0;
 store16(v0 + 78, 0);
 store16(v0 + 76, v4);
 store16(v0 + 74, v20);
 store16(v0 + 72, v20);
 store64(v0 + 64, 0);
 store32(v0 + 60, v16);
 store32(v0 + 56, v17);
 store32(v0 + 52, v18);
 store32(v0 + 48, v19);
 store32(v0 + 44, v9);
 store32(v0 + 40, v15);
 store32(v0 + 36, v13);
 store32(v0 + 32, v14);
 store32(v0 + 28, v16);
 store32(v0 + 24, v17);
 store32(v0 + 20, v18);
 store32(v0 + 16, v19);
 store32(v0 + 12, v9);
 store32(v0 + 8, v15);
 store32(v0 + 4, v13);
 store32(v0, v14);
 store64(v0 + 136, load64(v3 + 88));
 store64(v0 + 128, load64(v3 + 80));
 store64(v0 + 120, load64(v3 + 72));
 store64(v0 + 112, load64(v3 + 64));
 store64(v0 + 104, load64(v3 + 56));
 store64(v0 + 96, load64(v3 + 48));
 store64(v0 + 88, load64(v3 + 40));
 store64(v0 + 80, load64(v3 + 32));
 store64(v0 + 144, load64(v3));
 store64(v0 + 152, load64(v3 + 8));
 store64(v0 + 160, load64(v3 + 16));
 store64(v0 + 168, load64(v3 + 24));
 goto l1;
l3:;
 fill(v0, 0, 176);
 v8 = 0xffffffff;
 goto l1;
l1:;
 return v8;
}

/* rattle::export vulfsjor_ffi_blake2s_init_salt_personal */
APART u32 exported_blake2s_init_salt_personal(u64 v0, u64 v1, u64 v2, u64 v3, u64 v4, u64 v5, u64
        v6, u64 v7) {
 u32 v9;
 u64 v8;
 FRAME(12);
 v8 = top - 80;
 store64(v8 + 72, v7);
 store64(v8 + 56, v5);
 store64(v8 + 24, v1);
 store64(v8 + 2, 0);
 store16(v8, 257);
 store64(v8 + 10, 0);
 store64(v8 + 16, 0);
 store64(v8 + 64, v6 + (v6 == 0 ? UINT64_C(4096) : 0));
 store64(v8 + 48, v4 + (v4 == 0 ? UINT64_C(4096) : 0));
 store64(v8 + 32, v2 + (v2 == 0 ? UINT64_C(4096) : 0));
 store64(v8 + 40, v3);
 v9 = ffi_blake2s_initialize(v0, v8 + 24, v8);
 if (v3 == 0) goto l2;
 digest_wiping_scrub_stack_768();
l2:;
 return v9;
}

/* rattle::export vulfsjor_ffi_blake2s_init_key */
APART u32 exported_blake2s_init_key(u64 v0, u64 v1, u64 v2, u64 v3) {
 u32 v5;
 u64 v4;
 FRAME(12);
 v4 = top - 80;
 if (v3 != 0) goto l2;
 fill(v0, 0, 176);
 v5 = 0xffffffff;
 goto l1;
l2:;
 store64(v4 + 72, 0);
 store64(v4 + 64, 0x100000);
 store64(v4 + 56, 0);
 store64(v4 + 48, 0x100000);
 store64(v4 + 40, v3);
 store64(v4 + 32, v2 + (v2 == 0 ? UINT64_C(4096) : 0));
 store64(v4 + 24, v1);
 store64(v4 + 2, 0);
 store16(v4, 257);
 store64(v4 + 10, 0);
 store64(v4 + 16, 0);
 v5 = ffi_blake2s_initialize(v0, v4 + 24, v4);
 digest_wiping_scrub_stack_768();
l1:;
 return v5;
}

/* rattle::export vulfsjor_ffi_blake2s_init_tree */
APART u32 exported_blake2s_init_tree(u64 v0, u64 v1, u64 v2, u64 v3, u64 v4, u64 v5, u64 v6, u64 v7,
        u64 v8) {
 u32 v11, v12;
 u64 v9, v10;
 FRAME(12);
 v9 = top - 80;
 store32(v9 + 74, 0);
 store16(v9 + 58, 0);
 store16(v9 + 78, 0);
 v10 = load64(v8);
 store64(v9 + 64, v10);
 v11 = load8(v8 + 15);
 store8(v9 + 73, v11);
 store8(v9 + 72, load8(v8 + 14));
 store32(v9 + 60, load32(v8 + 8));
 v12 = load8(v8 + 13);
 store8(v9 + 57, v12);
 store8(v9 + 56, load8(v8 + 12));
 if (v12 == 0) goto l4;
 if (v10 > 0xffffffffffff) goto l4;
 if ((v11 & 255) < 33) goto l3;
l4:;
 fill(v0, 0, 176);
 v12 = 0xffffffff;
 goto l2;
l3:;
 store64(v9 + 48, v7);
 store64(v9 + 40, v6 + (v6 == 0 ? UINT64_C(4096) : 0));
 store64(v9 + 32, v5);
 store64(v9 + 24, v4 + (v4 == 0 ? UINT64_C(4096) : 0));
 store64(v9 + 8, v2 + (v2 == 0 ? UINT64_C(4096) : 0));
 store64(v9, v1);
 store64(v9 + 16, v3);
 v12 = ffi_blake2s_initialize(v0, v9, v9 + 56);
 if (v3 == 0) goto l2;
 digest_wiping_scrub_stack_768();
l2:;
 return v12;
}

/* rattle::export vulfsjor_ffi_blake2s_init_param */
APART u32 exported_blake2s_init_param(u64 v0, u64 v1, u64 v2) {
 u32 v3, v4, v5, v6, v7, v8, v9, v10, v11;
 if (v2 != 32) goto l1;
 v1 += (v1 == 0 ? UINT64_C(4096) : 0);
 if (((load8(v1) - 33) & 255) < 224) goto l1;
 if (load8(v1 + 1) > 32) goto l1;
 v3 = load32(v1 + 28);
 v4 = load32(v1 + 24);
 v5 = load32(v1 + 20);
 v6 = load32(v1 + 16);
 v7 = load32(v1);
 v8 = load32(v1 + 12);
 v9 = load32(v1 + 8);
 v10 = load32(v1 + 4) ^ 0xbb67ae85;
 store32(v0 + 4, v10);
 v9 ^= 0x3c6ef372;
 store32(v0 + 8, v9);
 v8 ^= 0xa54ff53a;
 store32(v0 + 12, v8);
 v11 = v7 ^ 0x6a09e667;
 store32(v0 + 32, v11);
 store32(v0 + 36, v10);
 store32(v0 + 40, v9);
 store32(v0 + 44, v8);
 fill(v0 + 64, 0, 12);
 store16(v0 + 76, v7 & 255);
 store32(v0, v11);
 v7 = v6 ^ 0x510e527f;
 store32(v0 + 16, v7);
 v5 ^= 0x9b05688c;
 store32(v0 + 20, v5);
 v4 ^= 0x1f83d9ab;
 store32(v0 + 24, v4);
 v3 ^= 0x5be0cd19;
 store32(v0 + 28, v3);
 store32(v0 + 48, v7);
 store32(v0 + 52, v5);
 store32(v0 + 56, v4);
 store32(v0 + 60, v3);
 fill(v0 + 78, 0, 98);
 return 0;
l1:;
 fill(v0, 0, 176);
 return 0xffffffff;
}

/* blake2_ffi::blake2s::update_in_frame */
APART void ffi_blake2s_update_in_frame(u64 v0, u64 v1, u64 v2) {
 u32 v4, v5;
 if (v2 == 1) goto l2;
 state_blake2s_State_absorb_blocks(v0, v1, v2);
 return;
l2:;
 v2 = v0 + 72;
 v4 = load16(v2);
 if (v4 < 64) goto l3;
 state_blake2s_State_absorb_blocks(v0, v1, 1);
 return;
l3:;
 v5 = load8(v1);
 store16(v2, v4 + 1);
 store8(v0 + (u64)v4 + 80, v5);
 return;
}

SCRUB(digest_wiping_scrub_stack_512, 2560)

/* blake2_ffi::blake2s::update_scrubbed */
APART void ffi_blake2s_update_scrubbed(u64 v0, u64 v1, u64 v2) {
 ffi_blake2s_update_in_frame(v0, v1, v2);
 digest_wiping_scrub_stack_512();
 return;
}

/* rattle::export vulfsjor_ffi_blake2s_update */
APART u32 exported_blake2s_update(u64 v0, u64 v1, u64 v2) {
 u32 v4, v5;
 u64 v6, v7, v8;
 v4 = 0xffffffff;
 if (((load16(v0 + 76) - 1) & 0xffff) > 31) goto l1;
 v5 = load16(v0 + 72);
 if (v5 > 64) goto l1;
 v6 = (u64)load16(v0 + 74);
 if (v6 > 64) goto l1;
 v4 = 0xffffffff;
 v7 = load64(v0 + 64);
 if (v7 > sign64((u64)(~v5), 0x8000)) goto l1;
 v8 = (u64)v5;
 if (v2 > (~(v7 + v8))) goto l1;
 v1 += (v1 == 0 ? UINT64_C(4096) : 0);
 if (v7 >= v6) goto l5;
 ffi_blake2s_update_scrubbed(v0, v1, v2);
 goto l2;
l5:;
 if (v2 == 1) goto l6;
 state_blake2s_State_absorb_blocks(v0, v1, v2);
 goto l2;
l6:;
 if (v5 != 64) goto l3;
 state_blake2s_State_absorb_blocks(v0, v1, 1);
 goto l2;
l3:;
 v4 = load8(v1);
 store16(v0 + 72, v5 + 1);
 store8(v0 + v8 + 80, v4);
l2:;
 v4 = 0;
l1:;
 return v4;
}

/* blake2_ffi::several::blake2s::update_in_frame */
APART void ffi_several_blake2s_update_in_frame(u64 v0, u64 v1, u64 v2) {
 u32 v6, v7;
 u64 v4, v5;
 if (v2 == 0) goto l2;
l3:;
 v4 = load64(v1);
 v5 = load64(v1 + 8);
 if (v5 == 1) goto l5;
 state_blake2s_State_absorb_blocks(v0, v4, v5);
 goto l4;
l5:;
 v5 = v0 + 72;
 v6 = load16(v5);
 if (v6 < 64) goto l6;
 state_blake2s_State_absorb_blocks(v0, v4, 1);
 goto l4;
l6:;
 v7 = load8(v4);
 store16(v5, v6 + 1);
 store8(v0 + (u64)v6 + 80, v7);
l4:;
 v0 += 176;
 v1 += 16;
 v2 -= 1;
 if (v2 != 0) goto l3;
l2:;
 return;
}

/* rattle::export vulfsjor_ffi_blake2s_update_many */
APART u32 exported_blake2s_update_many(u64 v0, u64 v1, u64 v2, u64 v3) {
 u32 v5, v8;
 u64 v6, v7, v9;
 v5 = 0xffffffff;
 if (v3 != v1) goto l1;
 v6 = v2 + (v2 == 0 ? UINT64_C(4096) : 0);
 v7 = v0 + (v0 == 0 ? UINT64_C(4096) : 0);
 if (v3 == 0) goto l5;
 v2 = v7 + 64;
 v0 = v6 + 8;
 v1 = v3;
l6:;
 v5 = 0xffffffff;
 if (((load16(v2 + 12) - 1) & 0xffff) > 31) goto l1;
 v8 = load16(v2 + 8);
 if (v8 > 64) goto l1;
 if (load16(v2 + 10) > 64) goto l1;
 v5 = 0xffffffff;
 v9 = load64(v2);
 if (v9 > sign64((u64)(~v8), 0x8000)) goto l1;
 if (load64(v0) > (~(v9 + (u64)v8))) goto l1;
 v2 += 176;
 v0 += 16;
 v1 -= 1;
 if (!(v1 == 0)) goto l6;
l5:;
 v2 = v7 + 74;
 v0 = 0xffffffffffffffff;
l7:;
 v0 += 1;
 if (v3 == v0) goto l3;
 v1 = v2 - 10;
 v9 = (u64)load16(v2);
 v2 += 176;
 if (load64(v1) >= v9) goto l7;
 ffi_several_blake2s_update_in_frame(v7, v6, v3);
 digest_wiping_scrub_stack_9216();
 goto l2;
l3:;
 ffi_several_blake2s_update_in_frame(v7, v6, v3);
l2:;
 v5 = 0;
l1:;
 return v5;
}

/* blake2_ffi::blake2s::finalize */
APART void ffi_blake2s_finalize(u64 v0, u64 v1) {
 state_blake2s_State_write_digest(v0, v1);
 fill(v0, 0, 176);
 return;
}

/* rattle::export vulfsjor_ffi_blake2s_final */
APART u32 exported_blake2s_final(u64 v0, u64 v1, u64 v2) {
 u32 v4, v5, v6;
 u64 v7, v8;
 v4 = 0xffffffff;
 v5 = load16(v0 + 76);
 if (((v5 - 1) & 0xffff) > 31) goto l2;
 v6 = load16(v0 + 72);
 if (v6 > 64) goto l2;
 v7 = (u64)load16(v0 + 74);
 if (v7 > 64) goto l2;
 v4 = 0xffffffff;
 v8 = load64(v0 + 64);
 if (v8 > sign64((u64)(~v6), 0x8000)) goto l2;
 if (v2 != ((u64)v5 & 0xffff)) goto l2;
 ffi_blake2s_finalize(v0, v1 + (v1 == 0 ? UINT64_C(4096) : 0));
 v4 = 0;
 if (v8 >= v7) goto l2;
 digest_wiping_scrub_stack_768();
l2:;
 return v4;
}

/* blake2_ffi::blake2s::is_digest_of */
APART u32 ffi_blake2s_is_digest_of(u64 v0, u64 v1, u64 v2) {
 u32 v5;
 u64 v3, v4, v6, v7;
 FRAME(6);
 v3 = top - 32;
 v4 = v3;
 fill(v4, 0, 32);
 state_blake2s_State_write_digest(v0, v4);
 if (v2 == (u64)load16(v0 + 76)) goto l3;
 v5 = 0;
 goto l2;
l3:;
 if (!(v2 == 0)) goto l4;
 v5 = 1;
 goto l2;
l4:;
 v6 = v2 & 3;
 if (v2 >= 4) goto l7;
 v0 = 0;
 v5 = 0;
 goto l6;
l7:;
 v7 = v2 & 0xfffffffffffffffc;
 v0 = 0;
 v5 = 0;
l8:;
 v2 = v4 + v0;
 v3 = v1 + v0;
 v5 = (load8(v2 + 3) ^ load8(v3 + 3)) | ((load8(v2 + 2) ^ load8(v3 + 2)) | ((load8(v2 + 1) ^
   load8(v3 + 1)) | ((load8(v2) ^ load8(v3)) | v5)));
 v0 += 4;
 if (v7 != v0) goto l8;
 if (v6 == 0) goto l5;
l6:;
 v2 = v1 + v0;
 v0 += v4;
l9:;
 v5 |= (load8(v0) ^ load8(v2));
 v2 += 1;
 v0 += 1;
 v6 -= 1;
 if (v6 != 0) goto l9;
l5:;
 v5 = (u32)((v5 & 255) == 0);
l2:;
 return v5;
}

/* rattle::export vulfsjor_ffi_blake2s_verify */
APART u32 exported_blake2s_verify(u64 v0, u64 v1, u64 v2) {
 u32 v4, v5;
 u64 v6, v7;
 v4 = 0xffffffff;
 if (((load16(v0 + 76) - 1) & 0xffff) > 31) goto l2;
 v5 = load16(v0 + 72);
 if (v5 > 64) goto l2;
 v6 = (u64)load16(v0 + 74);
 if (v6 > 64) goto l2;
 v4 = 0xffffffff;
 v7 = load64(v0 + 64);
 if (v7 > sign64((u64)(~v5), 0x8000)) goto l2;
 if ((load8(v0 + 33) << 8) == 0xe600) goto l2;
 v4 = ffi_blake2s_is_digest_of(v0, v1 + (v1 == 0 ? UINT64_C(4096) : 0), v2);
 fill(v0, 0, 176);
 if (v7 >= v6) goto l3;
 digest_wiping_scrub_stack_768();
l3:;
 v4 -= 1;
l2:;
 return v4;
}

/* rattle::export vulfsjor_ffi_blake2s_set_last_node */
APART u32 exported_blake2s_set_last_node(u64 v0, u32 v1) {
 u32 v2, v3;
 v2 = 0xffffffff;
 if (((load16(v0 + 76) - 1) & 0xffff) > 31) goto l2;
 v3 = load16(v0 + 72);
 if (v3 > 64) goto l2;
 if (load16(v0 + 74) > 64) goto l2;
 v2 = 0xffffffff;
 if (load64(v0 + 64) > sign64((u64)(~v3), 0x8000)) goto l2;
 v2 = 0;
 store16(v0 + 78, (u32)(v1 != 0));
l2:;
 return v2;
}

/* rattle::export vulfsjor_ffi_blake2s_reset */
APART u32 exported_blake2s_reset(u64 v0) {
 u32 v1, v2, v3;
 u64 v4;
 v1 = 0xffffffff;
 if (((load16(v0 + 76) - 1) & 0xffff) > 31) goto l2;
 v2 = load16(v0 + 72);
 if (v2 > 64) goto l2;
 v3 = load16(v0 + 74);
 if (v3 > 64) goto l2;
 v1 = 0xffffffff;
 v4 = v0 + 64;
 if (load64(v4) > sign64((u64)(~v2), 0x8000)) goto l2;
 store64(v0 + 112, 0);
 store16(v0 + 72, v3);
 store64(v4, 0);
 store64(v0 + 120, 0);
 store64(v0 + 128, 0);
 store64(v0 + 136, 0);
 store64(v0 + 24, load64(v0 + 56));
 store64(v0 + 16, load64(v0 + 48));
 store64(v0 + 8, load64(v0 + 40));
 store64(v0, load64(v0 + 32));
 store64(v0 + 80, load64(v0 + 144));
 store64(v0 + 88, load64(v0 + 152));
 store64(v0 + 96, load64(v0 + 160));
 store64(v0 + 104, load64(v0 + 168));
 v1 = 0;
l2:;
 return v1;
}

/* blake2_state::blake2s::State::save */
APART void state_blake2s_State_save(u64 v0, u64 v1) {
 u32 v3, v4, v5, v6, v7, v8, v9, v10, v11, v12, v14, v15, v16, v17, v18, v19, v20, v21, v22;
 u64 v2, v13, v23;
 FRAME(18);
 v2 = top - 128;
 v3 = load16(v1 + 76);
 if (((v3 - 1) & 0xffff) > 31) goto l3;
 v4 = load16(v1 + 72);
 if (v4 > 64) goto l3;
 v5 = load16(v1 + 74);
 if (v5 > 64) goto l3;
 if (load64(v1 + 64) > sign64((u64)(~v4), 0x8000)) goto l3;
 if (v5) goto l3;
 v5 = load32(v1 + 32);
 if ((v5 & 0xff00) == 0xe600) goto l2;
l3:;
 fill(v0, 0, 148);
 return;
l2:;
 fill(v2 + 64, 0, 64);
 v6 = load32(v1 + 36);
 v7 = load32(v1 + 40);
 v8 = load32(v1 + 44);
 v9 = load32(v1 + 48);
 v10 = load32(v1 + 52);
 v11 = load32(v1 + 56);
 v12 = load32(v1 + 60);
 v13 = load64(v1 + 64);
 v14 = load16(v1 + 78);
 v15 = load32(v1);
 v16 = load32(v1 + 4);
 v17 = load32(v1 + 8);
 v18 = load32(v1 + 12);
 v19 = load32(v1 + 16);
 v20 = load32(v1 + 20);
 v21 = load32(v1 + 24);
 v22 = load32(v1 + 28);
 v23 = (u64)v4;
 if (v23 == 0) goto l4;
 copy(v2 + 64, v1 + 80, v23);
l4:;
 store64(v2 + 56, load64(v2 + 120));
 store64(v2 + 48, load64(v2 + 112));
 store64(v2 + 40, load64(v2 + 104));
 store64(v2 + 32, load64(v2 + 96));
 store64(v2 + 24, load64(v2 + 88));
 store64(v2 + 16, load64(v2 + 80));
 store64(v2 + 8, load64(v2 + 72));
 store64(v2, load64(v2 + 64));
 store8(v0 + 83, (u32)(v14 != 0));
 store8(v0 + 82, v4);
 store8(v0 + 81, v3);
 store64(v0 + 73, v13);
 store8(v0 + 72, v12 >> 24);
 store8(v0 + 71, v12 >> 16);
 store8(v0 + 70, v12 >> 8);
 store8(v0 + 69, v12);
 store8(v0 + 68, v11 >> 24);
 store8(v0 + 67, v11 >> 16);
 store8(v0 + 66, v11 >> 8);
 store8(v0 + 65, v11);
 store8(v0 + 64, v10 >> 24);
 store8(v0 + 63, v10 >> 16);
 store8(v0 + 62, v10 >> 8);
 store8(v0 + 61, v10);
 store8(v0 + 60, v9 >> 24);
 store8(v0 + 59, v9 >> 16);
 store8(v0 + 58, v9 >> 8);
 store8(v0 + 57, v9);
 store8(v0 + 56, v8 >> 24);
 store8(v0 + 55, v8 >> 16);
 store8(v0 + 54, v8 >> 8);
 store8(v0 + 53, v8);
 store8(v0 + 52, v7 >> 24);
 store8(v0 + 51, v7 >> 16);
 store8(v0 + 50, v7 >> 8);
 store8(v0 + 49, v7);
 store8(v0 + 48, v6 >> 24);
 store8(v0 + 47, v6 >> 16);
 store8(v0 + 46, v6 >> 8);
 store8(v0 + 45, v6);
 store8(v0 + 44, v5 >> 24);
 store8(v0 + 43, v5 >> 16);
 store8(v0 + 42, v5 >> 8);
 store8(v0 + 41, v5);
 store8(v0 + 40, v22 >> 24);
 store8(v0 + 39, v22 >> 16);
 store8(v0 + 38, v22 >> 8);
 store8(v0 + 37, v22);
 store8(v0 + 36, v21 >> 24);
 store8(v0 + 35, v21 >> 16);
 store8(v0 + 34, v21 >> 8);
 store8(v0 + 33, v21);
 store8(v0 + 32, v20 >> 24);
 store8(v0 + 31, v20 >> 16);
 store8(v0 + 30, v20 >> 8);
 store8(v0 + 29, v20);
 store8(v0 + 28, v19 >> 24);
 store8(v0 + 27, v19 >> 16);
 store8(v0 + 26, v19 >> 8);
 store8(v0 + 25, v19);
 store8(v0 + 24, v18 >> 24);
 store8(v0 + 23, v18 >> 16);
 store8(v0 + 22, v18 >> 8);
 store8(v0 + 21, v18);
 store8(v0 + 20, v17 >> 24);
 store8(v0 + 19, v17 >> 16);
 store8(v0 + 18, v17 >> 8);
 store8(v0 + 17, v17);
 store8(v0 + 16, v16 >> 24);
 store8(v0 + 15, v16 >> 16);
 store8(v0 + 14, v16 >> 8);
 store8(v0 + 13, v16);
 store8(v0 + 12, v15 >> 24);
 store8(v0 + 11, v15 >> 16);
 store8(v0 + 10, v15 >> 8);
 store8(v0 + 9, v15);
 store64(v0 + 1, 0x17332454b414c42);
 store8(v0, 1);
 store64(v0 + 140, load64(v2 + 56));
 store64(v0 + 132, load64(v2 + 48));
 store64(v0 + 124, load64(v2 + 40));
 store64(v0 + 116, load64(v2 + 32));
 store64(v0 + 108, load64(v2 + 24));
 store64(v0 + 100, load64(v2 + 16));
 store64(v0 + 92, load64(v2 + 8));
 store64(v0 + 84, load64(v2));
 return;
}

/* rattle::export vulfsjor_ffi_blake2s_save */
APART u32 exported_blake2s_save(u64 v0, u64 v1, u64 v2) {
 u32 v4;
 u64 v3;
 FRAME(22);
 v3 = top - 160;
 fill(v3 + 12, 0, 148);
 v4 = 0xffffffff;
 if (v2 != 147) goto l2;
 state_blake2s_State_save(v3 + 12, v0);
 if (load8(v3 + 12) != 1) goto l2;
 copy(v1 + (v1 == 0 ? UINT64_C(4096) : 0), v3 + 13, 147);
 v4 = 0;
l2:;
 return v4;
}

/* rattle::export vulfsjor_ffi_blake2s_load */
APART u32 exported_blake2s_load(u64 v0, u64 v1, u64 v2) {
 u32 v4, v5, v6, v7, v8, v9, v10, v11, v12, v13, v14, v15, v16, v17, v18, v19, v20, v21, v22, t0;
 u64 v3, v23, v24, v25, v26, v27, v28, v29;
 FRAME(62);
 v3 = top - 480;
 if (v2 != 147) goto l2;
 v1 += (v1 == 0 ? UINT64_C(4096) : 0);
 v4 = load32(v1 + 8);
 v5 = load32(v1 + 12);
 v6 = load32(v1 + 16);
 v7 = load32(v1 + 20);
 v8 = load32(v1 + 24);
 v9 = load32(v1 + 28);
 v10 = load32(v1 + 32);
 v11 = load32(v1 + 36);
 v12 = load32(v1 + 40);
 v13 = load32(v1 + 44);
 v14 = load32(v1 + 48);
 v15 = load32(v1 + 52);
 v16 = load32(v1 + 56);
 v17 = load32(v1 + 60);
 v18 = load32(v1 + 64);
 v19 = load32(v1 + 68);
 v2 = load64(v1 + 72);
 v20 = load8(v1 + 81);
 v21 = load8(v1 + 80);
 v22 = load8(v1 + 82);
 store16(v3 + 86, v22);
 store16(v3 + 84, v21);
 store16(v3 + 82, 0);
 store16(v3 + 80, v20);
 store64(v3 + 72, v2);
 store32(v3 + 68, v19);
 store32(v3 + 64, v18);
 store32(v3 + 60, v17);
 store32(v3 + 56, v16);
 store32(v3 + 52, v15);
 store32(v3 + 48, v14);
 store32(v3 + 44, v13);
 store32(v3 + 40, v12);
 store32(v3 + 36, v11);
 store32(v3 + 32, v10);
 store32(v3 + 28, v9);
 store32(v3 + 24, v8);
 store32(v3 + 20, v7);
 store32(v3 + 16, v6);
 store32(v3 + 12, v5);
 store32(v3 + 8, v4);
 fill(v3 + 152, 0, 32);
 store64(v3 + 144, load64(v1 + 139));
 store64(v3 + 136, load64(v1 + 131));
 store64(v3 + 128, load64(v1 + 123));
 store64(v3 + 120, load64(v1 + 115));
 store64(v3 + 112, load64(v1 + 107));
 store64(v3 + 104, load64(v1 + 99));
 store64(v3 + 96, load64(v1 + 91));
 v23 = v1 + 83;
 store64(v3 + 88, load64(v23));
 fill(v3 + 185, 0, 148);
 state_blake2s_State_save(v3 + 185, v3 + 8);
 if (load8(v3 + 185) != 1) goto l2;
 copy(v3 + 333, v3 + 185 + 1, 147);
 if (load8(v1) != load8(v3 + 333)) goto l2;
 if ((load8(v1 + 1) & 255) != (load8(v3 + 334) & 255)) goto l2;
 if ((load8(v1 + 2) & 255) != (load8(v3 + 335) & 255)) goto l2;
 if ((load8(v1 + 3) & 255) != (load8(v3 + 336) & 255)) goto l2;
 t0 = core_cmp_slices_groups_equal_i8_31_core_cmp_numbers_U8PartialEq(v1, 147, v3 + 333);
 if (t0 == 0) goto l2;
 v1 = load64(v23 + 56);
 v24 = load64(v23 + 48);
 v25 = load64(v23 + 40);
 v26 = load64(v23 + 32);
 v27 = load64(v23 + 24);
 v28 = load64(v23 + 16);
 v29 = load64(v23 + 8);
 v23 = load64(v23);
 store16(v0 + 78, v22);
 store16(v0 + 76, v21);
 v21 = 0;
 store16(v0 + 74, 0);
 store16(v0 + 72, v20);
 store64(v0 + 64, v2);
 store32(v0 + 60, v19);
 store32(v0 + 56, v18);
 store32(v0 + 52, v17);
 store32(v0 + 48, v16);
 store32(v0 + 44, v15);
 store32(v0 + 40, v14);
 store32(v0 + 36, v13);
 store32(v0 + 32, v12);
 store32(v0 + 28, v11);
 store32(v0 + 24, v10);
 store32(v0 + 20, v9);
 store32(v0 + 16, v8);
 store32(v0 + 12, v7);
 store32(v0 + 8, v6);
 store32(v0 + 4, v5);
 store32(v0, v4);
 store64(v3 + 8, v23);
 store64(v3 + 16, v29);
 store64(v3 + 24, v28);
 store64(v3 + 32, v27);
 store64(v3 + 40, v26);
 store64(v3 + 48, v25);
 store64(v3 + 56, v24);
 store64(v3 + 64, v1);
 fill(v0 + 144, 0, 32);
 store64(v0 + 136, load64(v3 + 64));
 store64(v0 + 128, load64(v3 + 56));
 store64(v0 + 120, load64(v3 + 48));
 store64(v0 + 112, load64(v3 + 40));
 store64(v0 + 104, load64(v3 + 32));
 store64(v0 + 96, load64(v3 + 24));
 store64(v0 + 88, load64(v3 + 16));
 store64(v0 + 80, load64(v3 + 8));
 goto l1;
l2:;
 fill(v0, 0, 176);
 v21 = 0xffffffff;
l1:;
 return v21;
}

/* rattle::export vulfsjor_ffi_blake2s_wipe */
APART void exported_blake2s_wipe(u64 v0) {
 fill(v0, 0, 176);
}

/* rattle::export vulfsjor_ffi_blake2s_digest_size */
APART u64 exported_blake2s_digest_size(u64 v0) {
 u32 v2, v3;
 u64 v1;
 v1 = 0;
 v2 = load16(v0 + 76);
 if (((v2 - 1) & 0xffff) > 31) goto l2;
 v3 = load16(v0 + 72);
 if (v3 > 64) goto l2;
 if (load16(v0 + 74) > 64) goto l2;
 v1 = load64(v0 + 64) > sign64((u64)(~v3), 0x8000) ? 0 : ((u64)v2 & 0xffff);
l2:;
 return v1;
}

/* rattle::export vulfsjor_ffi_blake2s_count */
APART u64 exported_blake2s_count(u64 v0) {
 u32 v2;
 u64 v1, v3;
 v1 = 0;
 if (((load16(v0 + 76) - 1) & 0xffff) > 31) goto l2;
 v2 = load16(v0 + 72);
 if (v2 > 64) goto l2;
 v3 = (u64)load16(v0 + 74);
 if (v3 > 64) goto l2;
 v0 = load64(v0 + 64);
 if (v0 > sign64((u64)(~v2), 0x8000)) goto l2;
 v0 += (u64)v2;
 v1 = v0 - v3;
 v1 = v1 > v0 ? 0 : v1;
l2:;
 return v1;
}

/* rattle::export vulfsjor_ffi_blake2s_state_size */
APART void exported_blake2s_state_size(void) {

}

/* vulfsjor_ffi_blake2s_state_size */
APART u64 module_blake2s_state_size(void) {
 exported_blake2s_state_size();
 return 176;
}

/* blake2_parallel::lanes::blake2bp::compress_one_by_one */
APART void parallel_lanes_blake2bp_compress_one_by_one(u64 v0, u64 v1, u64 v2, u64 v3) {
 u32 v29, v30;
 u64 v4, v5, v6, v7, v8, v9, v10, v11, v12, v13, v14, v15, v16, v17, v18, v19, v20, v21, v22, v23,
   v24, v25, v26, v27, v28, v31, v32, v33, v34, v35, v36, v37, v38, v39, v40;
 FRAME(10);
 v4 = top - 64;
 v5 = load64(v0 + 24);
 v6 = load64(v0 + 56);
 v7 = load64(v0 + 88);
 v8 = load64(v0 + 120);
 v9 = load64(v0 + 152);
 v10 = load64(v0 + 184);
 v11 = load64(v0 + 216);
 v12 = load64(v0 + 248);
 v13 = load64(v0 + 16);
 v14 = load64(v0 + 48);
 v15 = load64(v0 + 80);
 v16 = load64(v0 + 112);
 v17 = load64(v0 + 144);
 v18 = load64(v0 + 176);
 v19 = load64(v0 + 208);
 v20 = load64(v0 + 240);
 v21 = load64(v0 + 8);
 v22 = load64(v0 + 40);
 v23 = load64(v0 + 72);
 v24 = load64(v0 + 104);
 v25 = load64(v0 + 136);
 v26 = load64(v0 + 168);
 v27 = load64(v0 + 200);
 v28 = load64(v0 + 232);
 v29 = load8(v3 + 1);
 v30 = load8(v3);
 v31 = load64(v2);
 v32 = load64(v1);
 v33 = load64(v0);
 v34 = load64(v0 + 32);
 v35 = load64(v0 + 64);
 v36 = load64(v0 + 96);
 v37 = load64(v0 + 128);
 v38 = load64(v0 + 160);
 v39 = load64(v0 + 192);
 store64(v4 + 56, load64(v0 + 224));
 store64(v4 + 48, v39);
 store64(v4 + 40, v38);
 store64(v4 + 32, v37);
 store64(v4 + 24, v36);
 store64(v4 + 16, v35);
 store64(v4 + 8, v34);
 store64(v4, v33);
 compress_compress_blake2b_compress(v4, v32, v31, v30, v29);
 v31 = load64(v4);
 v32 = load64(v4 + 8);
 v33 = load64(v4 + 16);
 v34 = load64(v4 + 24);
 v35 = load64(v4 + 32);
 v36 = load64(v4 + 40);
 v37 = load64(v4 + 48);
 v38 = load64(v4 + 56);
 v29 = load8(v3 + 3);
 v30 = load8(v3 + 2);
 v39 = load64(v2 + 8);
 v40 = load64(v1 + 8);
 store64(v4 + 56, v28);
 store64(v4 + 48, v27);
 store64(v4 + 40, v26);
 store64(v4 + 32, v25);
 store64(v4 + 24, v24);
 store64(v4 + 16, v23);
 store64(v4 + 8, v22);
 store64(v4, v21);
 compress_compress_blake2b_compress(v4, v40, v39, v30, v29);
 v21 = load64(v4);
 v22 = load64(v4 + 8);
 v23 = load64(v4 + 16);
 v24 = load64(v4 + 24);
 v25 = load64(v4 + 32);
 v26 = load64(v4 + 40);
 v27 = load64(v4 + 48);
 v28 = load64(v4 + 56);
 v29 = load8(v3 + 5);
 v30 = load8(v3 + 4);
 v39 = load64(v2 + 16);
 v40 = load64(v1 + 16);
 store64(v4 + 56, v20);
 store64(v4 + 48, v19);
 store64(v4 + 40, v18);
 store64(v4 + 32, v17);
 store64(v4 + 24, v16);
 store64(v4 + 16, v15);
 store64(v4 + 8, v14);
 store64(v4, v13);
 compress_compress_blake2b_compress(v4, v40, v39, v30, v29);
 v13 = load64(v4);
 v14 = load64(v4 + 8);
 v15 = load64(v4 + 16);
 v16 = load64(v4 + 24);
 v17 = load64(v4 + 32);
 v18 = load64(v4 + 40);
 v19 = load64(v4 + 48);
 v20 = load64(v4 + 56);
 v29 = load8(v3 + 7);
 v30 = load8(v3 + 6);
 v3 = load64(v2 + 24);
 v2 = load64(v1 + 24);
 store64(v4 + 56, v12);
 store64(v4 + 48, v11);
 store64(v4 + 40, v10);
 store64(v4 + 32, v9);
 store64(v4 + 24, v8);
 store64(v4 + 16, v7);
 store64(v4 + 8, v6);
 store64(v4, v5);
 compress_compress_blake2b_compress(v4, v2, v3, v30, v29);
 v3 = load64(v4);
 v2 = load64(v4 + 8);
 v1 = load64(v4 + 16);
 v5 = load64(v4 + 24);
 v6 = load64(v4 + 32);
 v7 = load64(v4 + 40);
 v8 = load64(v4 + 48);
 store64(v0 + 248, load64(v4 + 56));
 store64(v0 + 240, v20);
 store64(v0 + 232, v28);
 store64(v0 + 224, v38);
 store64(v0 + 216, v8);
 store64(v0 + 208, v19);
 store64(v0 + 200, v27);
 store64(v0 + 192, v37);
 store64(v0 + 184, v7);
 store64(v0 + 176, v18);
 store64(v0 + 168, v26);
 store64(v0 + 160, v36);
 store64(v0 + 152, v6);
 store64(v0 + 144, v17);
 store64(v0 + 136, v25);
 store64(v0 + 128, v35);
 store64(v0 + 120, v5);
 store64(v0 + 112, v16);
 store64(v0 + 104, v24);
 store64(v0 + 96, v34);
 store64(v0 + 88, v1);
 store64(v0 + 80, v15);
 store64(v0 + 72, v23);
 store64(v0 + 64, v33);
 store64(v0 + 56, v2);
 store64(v0 + 48, v14);
 store64(v0 + 40, v22);
 store64(v0 + 32, v32);
 store64(v0 + 24, v3);
 store64(v0 + 16, v13);
 store64(v0 + 8, v21);
 store64(v0, v31);
 return;
}

/* blake2_parallel::lanes::blake2bp::compress_short */
APART void parallel_lanes_blake2bp_compress_short(u64 v0, u64 v1, u64 v2, u64 v3, u64 v4) {
 u64 v5;
 FRAME(198);
 v5 = top - 1568;
 if (v2 != 512) goto l3;
 v2 = v3 + 128;
 store64(v5 + 1048, v2);
 store64(v5 + 1040, v2);
 store64(v5 + 1032, v2);
 store64(v5 + 1024, v2);
 store64(v5 + 1056, v1);
 store64(v5 + 1080, v1 + 384);
 store64(v5 + 1072, v1 + 256);
 store64(v5 + 1064, v1 + 128);
 parallel_lanes_blake2bp_compress_one_by_one(v0, v5 + 1056, v5 + 1024, v4);
 goto l2;
l3:;
 fill(v5 + 1056, 0, 512);
 if (v2 == 0) goto l4;
 copy(v5 + 1056, v1, v2);
l4:;
 copy(v5, v5 + 1056, 512);
 copy(v5 + 512, v5, 512);
 store64(v5 + 1080, v5 + 896);
 store64(v5 + 1072, v5 + 768);
 store64(v5 + 1064, v5 + 512 + 128);
 v1 = v2 - 384;
 v1 = v1 > v2 ? 0 : v1;
 store64(v5 + 1048, (v1 < 128 ? v1 : 128) + v3);
 v1 = v2 - 256;
 v1 = v1 > v2 ? 0 : v1;
 store64(v5 + 1040, (v1 < 128 ? v1 : 128) + v3);
 v1 = v2 - 128;
 v1 = v1 > v2 ? 0 : v1;
 store64(v5 + 1032, (v1 < 128 ? v1 : 128) + v3);
 store64(v5 + 1024, v3 + (v2 < 128 ? v2 : 128));
 store64(v5 + 1056, v5 + 512);
 parallel_lanes_blake2bp_compress_one_by_one(v0, v5 + 1056, v5 + 1024, v4);
l2:;
 return;
}

/* blake2_parallel::blake2bp::State::output */
APART void parallel_blake2bp_State_output(u64 v0, u64 v1) {
 u32 v38, v39, v40, v41, v42, v43, v44, v45, v46, v47, v48, v49, v50, v51, v52, v53, v54, v55, v56,
   v57, v58, v59, v60, v61, v62, v63, v64, v65, v66, v67, v68, v69, v70, v71, v72, v73, v74, v75,
   v76, v77, v78, v79, v80, v81, v82, v83, v84, v85, v86, v87, v88, v89, v90, v91, v92, v93, v94,
   v95, v96, v97, v98, v99, v100, v101, v102, v103, v104, v105, v106, v107, v108, v109, v110, v111,
   v112, v113, v114, v115, v116, v117, v118, v119, v120, v121, v122, v123, v124, v125, v126, v127,
   v128, v129, v130, v131, v132, v133, v134, v135, v136, v137, v138, v139, v140, v141, v142, v143,
   v144, v145, v146, v147, v148, v149, v150, v151, v152, v153, v154, v155, v156, v157, v158, v159,
   v160, v161, v162, v163, v164, v165, v166, v167, v168, v169, v170, v171, v172, v173, v174, v175,
   v176, v177, v178, v179, v180, v181, v182, v183, v184, v185, v186, v187, v188, v189, v190, v191,
   v192, v193, v194, v195, v196, v197, v198, v199, v200, v201, v202, v203, v204, v205, v206, v207,
   v208, v209, v210, v211, v212, v213, v214, v215, v216, v217, v218, v219, v220, v221, v222, v223,
   v224, v225, v226, v227, v228, v229, v230, v231, v232, v233, v234, v235, v236, v237, v238, v239,
   v240, v241, v242, v243, v244, v245, v246, v247, v248, v249, v250, v251, v252, v253, v254, v255,
   v256, v257, v258, v259, v260, v261, v262, v263, v264, v265, v266, v267, v268, v269, v270, v271,
   v272, v273, v274, v275, v276, v277, v278, v279, v280, v281, v282, v283, v284, v285, v286, v287,
   v288, v289, v290, v291, v292, v293;
 u64 v2, v3, v4, v5, v6, v7, v8, v9, v10, v11, v12, v13, v14, v15, v16, v17, v18, v19, v20, v21,
   v22, v23, v24, v25, v26, v27, v28, v29, v30, v31, v32, v33, v34, v35, v36, v37;
 FRAME(68);
 v2 = top - 528;
 fill(v2 + 8, 0, 256);
 v3 = v1 + 256;
 v4 = load64(v3);
 v5 = load64(v1 + 32);
 v6 = load64(v1 + 40);
 v7 = load64(v1 + 48);
 v8 = load64(v1 + 56);
 v9 = load64(v1 + 64);
 v10 = load64(v1 + 72);
 v11 = load64(v1 + 80);
 v12 = load64(v1 + 88);
 v13 = load64(v1 + 96);
 v14 = load64(v1 + 104);
 v15 = load64(v1 + 112);
 v16 = load64(v1 + 120);
 v17 = load64(v1 + 128);
 v18 = load64(v1 + 136);
 v19 = load64(v1 + 144);
 v20 = load64(v1 + 152);
 v21 = load64(v1 + 160);
 v22 = load64(v1 + 168);
 v23 = load64(v1 + 176);
 v24 = load64(v1 + 184);
 v25 = load64(v1 + 192);
 v26 = load64(v1 + 200);
 v27 = load64(v1 + 208);
 v28 = load64(v1 + 216);
 v29 = load64(v1 + 224);
 v30 = load64(v1 + 232);
 v31 = load64(v1 + 240);
 v32 = load64(v1 + 248);
 v33 = load64(v1 + 264);
 v34 = load64(v1);
 v35 = load64(v1 + 8);
 v36 = load64(v1 + 16);
 v37 = load64(v1 + 24);
 store64(v2 + 520, 0);
 v38 = (u32)(v33 < 513);
 store8(v2 + 520, v38);
 store64(v2 + 512, v32);
 store64(v2 + 504, v31);
 store64(v2 + 496, v30);
 store64(v2 + 488, v29);
 store64(v2 + 480, v28);
 store64(v2 + 472, v27);
 store64(v2 + 464, v26);
 store64(v2 + 456, v25);
 store64(v2 + 448, v24);
 store64(v2 + 440, v23);
 store64(v2 + 432, v22);
 store64(v2 + 424, v21);
 store64(v2 + 416, v20);
 store64(v2 + 408, v19);
 store64(v2 + 400, v18);
 store64(v2 + 392, v17);
 store64(v2 + 384, v16);
 store64(v2 + 376, v15);
 store64(v2 + 368, v14);
 store64(v2 + 360, v13);
 store64(v2 + 352, v12);
 store64(v2 + 344, v11);
 store64(v2 + 336, v10);
 store64(v2 + 328, v9);
 store64(v2 + 320, v8);
 store64(v2 + 312, v7);
 store64(v2 + 304, v6);
 store64(v2 + 296, v5);
 store64(v2 + 288, v37);
 store64(v2 + 280, v36);
 store64(v2 + 272, v35);
 store64(v2 + 264, v34);
 v12 = v33 < 512 ? v33 : 512;
 v9 = v33 - v12;
 v39 = (u32)(v9 < 385);
 store8(v2 + 527, v39);
 store8(v2 + 526, v39);
 store8(v2 + 524, (u32)(v9 < 257));
 v40 = (u32)(v9 < 129);
 store8(v2 + 522, v40);
 v13 = v1 + 272;
 parallel_lanes_blake2bp_compress_short(v2 + 264, v13, v12, v4, v2 + 520);
 v33 = load64(v2 + 480);
 v39 = (u32)v33;
 v41 = v39 >> 24;
 v42 = v39 >> 16;
 v4 = load64(v2 + 352);
 v43 = (u32)v4;
 v44 = v43 >> 24;
 v45 = v43 >> 16;
 v5 = load64(v2 + 472);
 v46 = (u32)v5;
 v47 = v46 >> 24;
 v48 = v46 >> 16;
 v6 = load64(v2 + 344);
 v49 = (u32)v6;
 v50 = v49 >> 24;
 v51 = v49 >> 16;
 v7 = load64(v2 + 464);
 v52 = (u32)v7;
 v53 = v52 >> 24;
 v54 = v52 >> 16;
 v8 = load64(v2 + 336);
 v55 = (u32)v8;
 v56 = v55 >> 24;
 v57 = v55 >> 16;
 v10 = load64(v2 + 456);
 v11 = load64(v2 + 328);
 v58 = (v39 & 0xff00) >> 8;
 v59 = (v43 & 0xff00) >> 8;
 v60 = (v46 & 0xff00) >> 8;
 v61 = (v49 & 0xff00) >> 8;
 v62 = (v52 & 0xff00) >> 8;
 v63 = (v55 & 0xff00) >> 8;
 v64 = (u32)(v33 >> 32);
 v65 = (v64 & 0xff00) >> 8;
 v66 = (u32)(v4 >> 32);
 v67 = (v66 & 0xff00) >> 8;
 v68 = (u32)(v5 >> 32);
 v69 = (v68 & 0xff00) >> 8;
 v70 = (u32)(v6 >> 32);
 v71 = (v70 & 0xff00) >> 8;
 v72 = (u32)(v7 >> 32);
 v73 = (v72 & 0xff00) >> 8;
 v74 = (u32)(v8 >> 32);
 v75 = (v74 & 0xff00) >> 8;
 v76 = (u32)(v33 >> 56);
 v77 = (u32)(v33 >> 48);
 v78 = (u32)(v4 >> 56);
 v79 = (u32)(v4 >> 48);
 v80 = (u32)(v5 >> 56);
 v81 = (u32)(v5 >> 48);
 v82 = (u32)(v6 >> 56);
 v83 = (u32)(v6 >> 48);
 v84 = (u32)(v7 >> 56);
 v85 = (u32)(v7 >> 48);
 v86 = (u32)(v8 >> 56);
 v87 = (u32)(v8 >> 48);
 v88 = load8(v2 + 519);
 v89 = load8(v2 + 518);
 v90 = load8(v2 + 517);
 v91 = load8(v2 + 516);
 v92 = load8(v2 + 515);
 v93 = load8(v2 + 514);
 v94 = load8(v2 + 513);
 v95 = load8(v2 + 512);
 v96 = load8(v2 + 511);
 v97 = load8(v2 + 510);
 v98 = load8(v2 + 509);
 v99 = load8(v2 + 508);
 v100 = load8(v2 + 507);
 v101 = load8(v2 + 506);
 v102 = load8(v2 + 505);
 v103 = load8(v2 + 504);
 v104 = load8(v2 + 503);
 v105 = load8(v2 + 502);
 v106 = load8(v2 + 501);
 v107 = load8(v2 + 500);
 v108 = load8(v2 + 499);
 v109 = load8(v2 + 498);
 v110 = load8(v2 + 497);
 v111 = load8(v2 + 496);
 v112 = load8(v2 + 495);
 v113 = load8(v2 + 494);
 v114 = load8(v2 + 493);
 v115 = load8(v2 + 492);
 v116 = load8(v2 + 491);
 v117 = load8(v2 + 490);
 v118 = load8(v2 + 489);
 v119 = load8(v2 + 488);
 v120 = load8(v2 + 455);
 v121 = load8(v2 + 454);
 v122 = load8(v2 + 453);
 v123 = load8(v2 + 452);
 v124 = load8(v2 + 451);
 v125 = load8(v2 + 450);
 v126 = load8(v2 + 449);
 v127 = load8(v2 + 448);
 v128 = load8(v2 + 447);
 v129 = load8(v2 + 446);
 v130 = load8(v2 + 445);
 v131 = load8(v2 + 444);
 v132 = load8(v2 + 443);
 v133 = load8(v2 + 442);
 v134 = load8(v2 + 441);
 v135 = load8(v2 + 440);
 v136 = load8(v2 + 439);
 v137 = load8(v2 + 438);
 v138 = load8(v2 + 437);
 v139 = load8(v2 + 436);
 v140 = load8(v2 + 435);
 v141 = load8(v2 + 434);
 v142 = load8(v2 + 433);
 v143 = load8(v2 + 432);
 v144 = load8(v2 + 431);
 v145 = load8(v2 + 430);
 v146 = load8(v2 + 429);
 v147 = load8(v2 + 428);
 v148 = load8(v2 + 427);
 v149 = load8(v2 + 426);
 v150 = load8(v2 + 425);
 v151 = load8(v2 + 424);
 v152 = load8(v2 + 423);
 v153 = load8(v2 + 422);
 v154 = load8(v2 + 421);
 v155 = load8(v2 + 420);
 v156 = load8(v2 + 419);
 v157 = load8(v2 + 418);
 v158 = load8(v2 + 417);
 v159 = load8(v2 + 416);
 v160 = load8(v2 + 415);
 v161 = load8(v2 + 414);
 v162 = load8(v2 + 413);
 v163 = load8(v2 + 412);
 v164 = load8(v2 + 411);
 v165 = load8(v2 + 410);
 v166 = load8(v2 + 409);
 v167 = load8(v2 + 408);
 v168 = load8(v2 + 407);
 v169 = load8(v2 + 406);
 v170 = load8(v2 + 405);
 v171 = load8(v2 + 404);
 v172 = load8(v2 + 403);
 v173 = load8(v2 + 402);
 v174 = load8(v2 + 401);
 v175 = load8(v2 + 400);
 v176 = load8(v2 + 399);
 v177 = load8(v2 + 398);
 v178 = load8(v2 + 397);
 v179 = load8(v2 + 396);
 v180 = load8(v2 + 395);
 v181 = load8(v2 + 394);
 v182 = load8(v2 + 393);
 v183 = load8(v2 + 392);
 v184 = load8(v2 + 391);
 v185 = load8(v2 + 390);
 v186 = load8(v2 + 389);
 v187 = load8(v2 + 388);
 v188 = load8(v2 + 387);
 v189 = load8(v2 + 386);
 v190 = load8(v2 + 385);
 v191 = load8(v2 + 384);
 v192 = load8(v2 + 383);
 v193 = load8(v2 + 382);
 v194 = load8(v2 + 381);
 v195 = load8(v2 + 380);
 v196 = load8(v2 + 379);
 v197 = load8(v2 + 378);
 v198 = load8(v2 + 377);
 v199 = load8(v2 + 376);
 v200 = load8(v2 + 375);
 v201 = load8(v2 + 374);
 v202 = load8(v2 + 373);
 v203 = load8(v2 + 372);
 v204 = load8(v2 + 371);
 v205 = load8(v2 + 370);
 v206 = load8(v2 + 369);
 v207 = load8(v2 + 368);
 v208 = load8(v2 + 367);
 v209 = load8(v2 + 366);
 v210 = load8(v2 + 365);
 v211 = load8(v2 + 364);
 v212 = load8(v2 + 363);
 v213 = load8(v2 + 362);
 v214 = load8(v2 + 361);
 v215 = load8(v2 + 360);
 v216 = load8(v2 + 327);
 v217 = load8(v2 + 326);
 v218 = load8(v2 + 325);
 v219 = load8(v2 + 324);
 v220 = load8(v2 + 323);
 v221 = load8(v2 + 322);
 v222 = load8(v2 + 321);
 v223 = load8(v2 + 320);
 v224 = load8(v2 + 319);
 v225 = load8(v2 + 318);
 v226 = load8(v2 + 317);
 v227 = load8(v2 + 316);
 v228 = load8(v2 + 315);
 v229 = load8(v2 + 314);
 v230 = load8(v2 + 313);
 v231 = load8(v2 + 312);
 v232 = load8(v2 + 311);
 v233 = load8(v2 + 310);
 v234 = load8(v2 + 309);
 v235 = load8(v2 + 308);
 v236 = load8(v2 + 307);
 v237 = load8(v2 + 306);
 v238 = load8(v2 + 305);
 v239 = load8(v2 + 304);
 v240 = load8(v2 + 303);
 v241 = load8(v2 + 302);
 v242 = load8(v2 + 301);
 v243 = load8(v2 + 300);
 v244 = load8(v2 + 299);
 v245 = load8(v2 + 298);
 v246 = load8(v2 + 297);
 v247 = load8(v2 + 296);
 v248 = load8(v2 + 295);
 v249 = load8(v2 + 294);
 v250 = load8(v2 + 293);
 v251 = load8(v2 + 292);
 v252 = load8(v2 + 291);
 v253 = load8(v2 + 290);
 v254 = load8(v2 + 289);
 v255 = load8(v2 + 288);
 v256 = load8(v2 + 287);
 v257 = load8(v2 + 286);
 v258 = load8(v2 + 285);
 v259 = load8(v2 + 284);
 v260 = load8(v2 + 283);
 v261 = load8(v2 + 282);
 v262 = load8(v2 + 281);
 v263 = load8(v2 + 280);
 v264 = load8(v2 + 279);
 v265 = load8(v2 + 278);
 v266 = load8(v2 + 277);
 v267 = load8(v2 + 276);
 v268 = load8(v2 + 275);
 v269 = load8(v2 + 274);
 v270 = load8(v2 + 273);
 v271 = load8(v2 + 272);
 v272 = load8(v2 + 271);
 v273 = load8(v2 + 270);
 v274 = load8(v2 + 269);
 v275 = load8(v2 + 268);
 v276 = load8(v2 + 267);
 v277 = load8(v2 + 266);
 v278 = load8(v2 + 265);
 v279 = load8(v2 + 264);
 if (v38 == 0) goto l3;
 v38 = (u32)v10;
 v40 = v38 >> 24;
 v280 = v38 >> 16;
 v281 = (u32)v11;
 v282 = v281 >> 24;
 v283 = v281 >> 16;
 v284 = (v38 & 0xff00) >> 8;
 v285 = (v281 & 0xff00) >> 8;
 v286 = (u32)(v10 >> 32);
 v287 = (v286 & 0xff00) >> 8;
 v288 = (u32)(v11 >> 32);
 v289 = (v288 & 0xff00) >> 8;
 v290 = (u32)(v10 >> 56);
 v291 = (u32)(v10 >> 48);
 v292 = (u32)(v11 >> 56);
 v293 = (u32)(v11 >> 48);
 goto l2;
l3:;
 v14 = load64(v3);
 store64(v2 + 520, 0x101000100010001);
 store8(v2 + 492, v115);
 store8(v2 + 491, v116);
 store8(v2 + 490, v117);
 store8(v2 + 489, v118);
 store8(v2 + 488, v119);
 store64(v2 + 480, v33);
 store64(v2 + 472, v5);
 store64(v2 + 464, v7);
 store64(v2 + 456, v10);
 store8(v2 + 428, v147);
 store8(v2 + 427, v148);
 store8(v2 + 426, v149);
 store8(v2 + 425, v150);
 store8(v2 + 424, v151);
 store8(v2 + 396, v179);
 store8(v2 + 395, v180);
 store8(v2 + 394, v181);
 store8(v2 + 393, v182);
 store8(v2 + 392, v183);
 store8(v2 + 364, v211);
 store8(v2 + 363, v212);
 store8(v2 + 362, v213);
 store8(v2 + 361, v214);
 store8(v2 + 360, v215);
 store64(v2 + 352, v4);
 store64(v2 + 344, v6);
 store64(v2 + 336, v8);
 store64(v2 + 328, v11);
 store8(v2 + 300, v243);
 store8(v2 + 299, v244);
 store8(v2 + 298, v245);
 store8(v2 + 297, v246);
 store8(v2 + 296, v247);
 store8(v2 + 268, v275);
 store8(v2 + 267, v276);
 store8(v2 + 266, v277);
 store8(v2 + 265, v278);
 store8(v2 + 264, v279);
 store8(v2 + 493, v114);
 store8(v2 + 429, v146);
 store8(v2 + 397, v178);
 store8(v2 + 365, v210);
 store8(v2 + 301, v242);
 store8(v2 + 269, v274);
 store8(v2 + 494, v113);
 store8(v2 + 430, v145);
 store8(v2 + 398, v177);
 store8(v2 + 366, v209);
 store8(v2 + 302, v241);
 store8(v2 + 270, v273);
 store8(v2 + 495, v112);
 store8(v2 + 431, v144);
 store8(v2 + 399, v176);
 store8(v2 + 367, v208);
 store8(v2 + 303, v240);
 store8(v2 + 271, v272);
 store8(v2 + 496, v111);
 store8(v2 + 432, v143);
 store8(v2 + 400, v175);
 store8(v2 + 368, v207);
 store8(v2 + 304, v239);
 store8(v2 + 272, v271);
 store8(v2 + 497, v110);
 store8(v2 + 433, v142);
 store8(v2 + 401, v174);
 store8(v2 + 369, v206);
 store8(v2 + 305, v238);
 store8(v2 + 273, v270);
 store8(v2 + 498, v109);
 store8(v2 + 434, v141);
 store8(v2 + 402, v173);
 store8(v2 + 370, v205);
 store8(v2 + 306, v237);
 store8(v2 + 274, v269);
 store8(v2 + 499, v108);
 store8(v2 + 435, v140);
 store8(v2 + 403, v172);
 store8(v2 + 371, v204);
 store8(v2 + 307, v236);
 store8(v2 + 275, v268);
 store8(v2 + 500, v107);
 store8(v2 + 436, v139);
 store8(v2 + 404, v171);
 store8(v2 + 372, v203);
 store8(v2 + 308, v235);
 store8(v2 + 276, v267);
 store8(v2 + 501, v106);
 store8(v2 + 437, v138);
 store8(v2 + 405, v170);
 store8(v2 + 373, v202);
 store8(v2 + 309, v234);
 store8(v2 + 277, v266);
 store8(v2 + 502, v105);
 store8(v2 + 438, v137);
 store8(v2 + 406, v169);
 store8(v2 + 374, v201);
 store8(v2 + 310, v233);
 store8(v2 + 278, v265);
 store8(v2 + 503, v104);
 store8(v2 + 439, v136);
 store8(v2 + 407, v168);
 store8(v2 + 375, v200);
 store8(v2 + 311, v232);
 store8(v2 + 279, v264);
 store8(v2 + 504, v103);
 store8(v2 + 440, v135);
 store8(v2 + 408, v167);
 store8(v2 + 376, v199);
 store8(v2 + 312, v231);
 store8(v2 + 280, v263);
 store8(v2 + 505, v102);
 store8(v2 + 441, v134);
 store8(v2 + 409, v166);
 store8(v2 + 377, v198);
 store8(v2 + 313, v230);
 store8(v2 + 281, v262);
 store8(v2 + 506, v101);
 store8(v2 + 442, v133);
 store8(v2 + 410, v165);
 store8(v2 + 378, v197);
 store8(v2 + 314, v229);
 store8(v2 + 282, v261);
 store8(v2 + 507, v100);
 store8(v2 + 443, v132);
 store8(v2 + 411, v164);
 store8(v2 + 379, v196);
 store8(v2 + 315, v228);
 store8(v2 + 283, v260);
 store8(v2 + 508, v99);
 store8(v2 + 444, v131);
 store8(v2 + 412, v163);
 store8(v2 + 380, v195);
 store8(v2 + 316, v227);
 store8(v2 + 284, v259);
 store8(v2 + 509, v98);
 store8(v2 + 445, v130);
 store8(v2 + 413, v162);
 store8(v2 + 381, v194);
 store8(v2 + 317, v226);
 store8(v2 + 285, v258);
 store8(v2 + 510, v97);
 store8(v2 + 446, v129);
 store8(v2 + 414, v161);
 store8(v2 + 382, v193);
 store8(v2 + 318, v225);
 store8(v2 + 286, v257);
 store8(v2 + 511, v96);
 store8(v2 + 447, v128);
 store8(v2 + 415, v160);
 store8(v2 + 383, v192);
 store8(v2 + 319, v224);
 store8(v2 + 287, v256);
 store8(v2 + 512, v95);
 store8(v2 + 448, v127);
 store8(v2 + 416, v159);
 store8(v2 + 384, v191);
 store8(v2 + 320, v223);
 store8(v2 + 288, v255);
 store8(v2 + 513, v94);
 store8(v2 + 449, v126);
 store8(v2 + 417, v158);
 store8(v2 + 385, v190);
 store8(v2 + 321, v222);
 store8(v2 + 289, v254);
 store8(v2 + 514, v93);
 store8(v2 + 450, v125);
 store8(v2 + 418, v157);
 store8(v2 + 386, v189);
 store8(v2 + 322, v221);
 store8(v2 + 290, v253);
 store8(v2 + 515, v92);
 store8(v2 + 451, v124);
 store8(v2 + 419, v156);
 store8(v2 + 387, v188);
 store8(v2 + 323, v220);
 store8(v2 + 291, v252);
 store8(v2 + 516, v91);
 store8(v2 + 452, v123);
 store8(v2 + 420, v155);
 store8(v2 + 388, v187);
 store8(v2 + 324, v219);
 store8(v2 + 292, v251);
 store8(v2 + 517, v90);
 store8(v2 + 453, v122);
 store8(v2 + 421, v154);
 store8(v2 + 389, v186);
 store8(v2 + 325, v218);
 store8(v2 + 293, v250);
 store8(v2 + 518, v89);
 store8(v2 + 454, v121);
 store8(v2 + 422, v153);
 store8(v2 + 390, v185);
 store8(v2 + 326, v217);
 store8(v2 + 294, v249);
 store8(v2 + 519, v88);
 store8(v2 + 455, v120);
 store8(v2 + 423, v152);
 store8(v2 + 391, v184);
 store8(v2 + 327, v216);
 store8(v2 + 295, v248);
 parallel_lanes_blake2bp_compress_short(v2 + 264, v13 + v12, v9, v14 + 128, v2 + 520);
 v33 = load64(v2 + 488);
 v119 = (u32)v33;
 v112 = v119 & 0xff00;
 v4 = load64(v2 + 456);
 v38 = (u32)v4;
 v113 = v38 & 0xff00;
 v5 = load64(v2 + 424);
 v151 = (u32)v5;
 v114 = v151 & 0xff00;
 v6 = load64(v2 + 392);
 v183 = (u32)v6;
 v144 = v183 & 0xff00;
 v7 = load64(v2 + 360);
 v215 = (u32)v7;
 v145 = v215 & 0xff00;
 v8 = load64(v2 + 328);
 v281 = (u32)v8;
 v146 = v281 & 0xff00;
 v10 = load64(v2 + 296);
 v247 = (u32)v10;
 v176 = v247 & 0xff00;
 v11 = load64(v2 + 264);
 v279 = (u32)v11;
 v177 = v279 & 0xff00;
 v115 = (u32)(v33 >> 32);
 v178 = v115 & 0xff00;
 v286 = (u32)(v4 >> 32);
 v208 = v286 & 0xff00;
 v147 = (u32)(v5 >> 32);
 v209 = v147 & 0xff00;
 v179 = (u32)(v6 >> 32);
 v210 = v179 & 0xff00;
 v211 = (u32)(v7 >> 32);
 v240 = v211 & 0xff00;
 v288 = (u32)(v8 >> 32);
 v241 = v288 & 0xff00;
 v243 = (u32)(v10 >> 32);
 v242 = v243 & 0xff00;
 v275 = (u32)(v11 >> 32);
 v272 = v275 & 0xff00;
 v12 = v33 >> 56;
 v33 >>= 48;
 v13 = v4 >> 56;
 v4 >>= 48;
 v14 = v5 >> 56;
 v5 >>= 48;
 v15 = v6 >> 56;
 v6 >>= 48;
 v16 = v7 >> 56;
 v7 >>= 48;
 v17 = v8 >> 56;
 v8 >>= 48;
 v18 = v10 >> 56;
 v10 >>= 48;
 v19 = v11 >> 56;
 v11 >>= 48;
 if (v40) goto l4;
 v20 = load64(v2 + 496);
 v111 = (u32)v20;
 v108 = v111 >> 24;
 v109 = v111 >> 16;
 v21 = load64(v2 + 464);
 v52 = (u32)v21;
 v53 = v52 >> 24;
 v54 = v52 >> 16;
 v22 = load64(v2 + 432);
 v143 = (u32)v22;
 v140 = v143 >> 24;
 v141 = v143 >> 16;
 v23 = load64(v2 + 400);
 v175 = (u32)v23;
 v172 = v175 >> 24;
 v173 = v175 >> 16;
 v24 = load64(v2 + 368);
 v207 = (u32)v24;
 v204 = v207 >> 24;
 v205 = v207 >> 16;
 v25 = load64(v2 + 336);
 v55 = (u32)v25;
 v56 = v55 >> 24;
 v57 = v55 >> 16;
 v26 = load64(v2 + 304);
 v239 = (u32)v26;
 v236 = v239 >> 24;
 v237 = v239 >> 16;
 v27 = load64(v2 + 272);
 v271 = (u32)v27;
 v268 = v271 >> 24;
 v269 = v271 >> 16;
 v110 = (v111 & 0xff00) >> 8;
 v62 = (v52 & 0xff00) >> 8;
 v142 = (v143 & 0xff00) >> 8;
 v174 = (v175 & 0xff00) >> 8;
 v206 = (v207 & 0xff00) >> 8;
 v63 = (v55 & 0xff00) >> 8;
 v238 = (v239 & 0xff00) >> 8;
 v270 = (v271 & 0xff00) >> 8;
 v107 = (u32)(v20 >> 32);
 v106 = (v107 & 0xff00) >> 8;
 v72 = (u32)(v21 >> 32);
 v73 = (v72 & 0xff00) >> 8;
 v139 = (u32)(v22 >> 32);
 v138 = (v139 & 0xff00) >> 8;
 v171 = (u32)(v23 >> 32);
 v170 = (v171 & 0xff00) >> 8;
 v203 = (u32)(v24 >> 32);
 v202 = (v203 & 0xff00) >> 8;
 v74 = (u32)(v25 >> 32);
 v75 = (v74 & 0xff00) >> 8;
 v235 = (u32)(v26 >> 32);
 v234 = (v235 & 0xff00) >> 8;
 v267 = (u32)(v27 >> 32);
 v266 = (v267 & 0xff00) >> 8;
 v104 = (u32)(v20 >> 56);
 v105 = (u32)(v20 >> 48);
 v84 = (u32)(v21 >> 56);
 v85 = (u32)(v21 >> 48);
 v136 = (u32)(v22 >> 56);
 v137 = (u32)(v22 >> 48);
 v168 = (u32)(v23 >> 56);
 v169 = (u32)(v23 >> 48);
 v200 = (u32)(v24 >> 56);
 v201 = (u32)(v24 >> 48);
 v86 = (u32)(v25 >> 56);
 v87 = (u32)(v25 >> 48);
 v232 = (u32)(v26 >> 56);
 v233 = (u32)(v26 >> 48);
 v264 = (u32)(v27 >> 56);
 v265 = (u32)(v27 >> 48);
 if (v9 <= 256) goto l4;
 v20 = load64(v2 + 280);
 v263 = (u32)v20;
 v261 = v263 >> 16;
 v260 = v263 >> 24;
 v21 = load64(v2 + 344);
 v49 = (u32)v21;
 v51 = v49 >> 16;
 v50 = v49 >> 24;
 v22 = load64(v2 + 408);
 v167 = (u32)v22;
 v165 = v167 >> 16;
 v164 = v167 >> 24;
 v23 = load64(v2 + 472);
 v46 = (u32)v23;
 v48 = v46 >> 16;
 v47 = v46 >> 24;
 v262 = (v263 & 0xff00) >> 8;
 v24 = load64(v2 + 312);
 v231 = (u32)v24;
 v229 = v231 >> 16;
 v228 = v231 >> 24;
 v61 = (v49 & 0xff00) >> 8;
 v25 = load64(v2 + 376);
 v199 = (u32)v25;
 v197 = v199 >> 16;
 v196 = v199 >> 24;
 v166 = (v167 & 0xff00) >> 8;
 v26 = load64(v2 + 440);
 v135 = (u32)v26;
 v133 = v135 >> 16;
 v132 = v135 >> 24;
 v60 = (v46 & 0xff00) >> 8;
 v27 = load64(v2 + 504);
 v103 = (u32)v27;
 v101 = v103 >> 16;
 v100 = v103 >> 24;
 v259 = (u32)(v20 >> 32);
 v258 = (v259 & 0xff00) >> 8;
 v230 = (v231 & 0xff00) >> 8;
 v70 = (u32)(v21 >> 32);
 v71 = (v70 & 0xff00) >> 8;
 v198 = (v199 & 0xff00) >> 8;
 v163 = (u32)(v22 >> 32);
 v162 = (v163 & 0xff00) >> 8;
 v134 = (v135 & 0xff00) >> 8;
 v68 = (u32)(v23 >> 32);
 v69 = (v68 & 0xff00) >> 8;
 v102 = (v103 & 0xff00) >> 8;
 v227 = (u32)(v24 >> 32);
 v226 = (v227 & 0xff00) >> 8;
 v195 = (u32)(v25 >> 32);
 v194 = (v195 & 0xff00) >> 8;
 v131 = (u32)(v26 >> 32);
 v130 = (v131 & 0xff00) >> 8;
 v99 = (u32)(v27 >> 32);
 v98 = (v99 & 0xff00) >> 8;
 v257 = (u32)(v20 >> 48);
 v256 = (u32)(v20 >> 56);
 v83 = (u32)(v21 >> 48);
 v82 = (u32)(v21 >> 56);
 v161 = (u32)(v22 >> 48);
 v160 = (u32)(v22 >> 56);
 v81 = (u32)(v23 >> 48);
 v80 = (u32)(v23 >> 56);
 v225 = (u32)(v24 >> 48);
 v224 = (u32)(v24 >> 56);
 v193 = (u32)(v25 >> 48);
 v192 = (u32)(v25 >> 56);
 v129 = (u32)(v26 >> 48);
 v128 = (u32)(v26 >> 56);
 v97 = (u32)(v27 >> 48);
 v96 = (u32)(v27 >> 56);
l4:;
 v116 = v119 >> 24;
 v117 = v119 >> 16;
 v40 = v38 >> 24;
 v280 = v38 >> 16;
 v148 = v151 >> 24;
 v149 = v151 >> 16;
 v180 = v183 >> 24;
 v181 = v183 >> 16;
 v212 = v215 >> 24;
 v213 = v215 >> 16;
 v282 = v281 >> 24;
 v283 = v281 >> 16;
 v244 = v247 >> 24;
 v245 = v247 >> 16;
 v276 = v279 >> 24;
 v277 = v279 >> 16;
 v118 = v112 >> 8;
 v284 = v113 >> 8;
 v150 = v114 >> 8;
 v182 = v144 >> 8;
 v214 = v145 >> 8;
 v285 = v146 >> 8;
 v246 = v176 >> 8;
 v278 = v177 >> 8;
 v114 = v178 >> 8;
 v287 = v208 >> 8;
 v146 = v209 >> 8;
 v178 = v210 >> 8;
 v210 = v240 >> 8;
 v289 = v241 >> 8;
 v242 >>= 8;
 v274 = v272 >> 8;
 v112 = (u32)v12;
 v113 = (u32)v33;
 v290 = (u32)v13;
 v291 = (u32)v4;
 v144 = (u32)v14;
 v145 = (u32)v5;
 v176 = (u32)v15;
 v177 = (u32)v6;
 v208 = (u32)v16;
 v209 = (u32)v7;
 v292 = (u32)v17;
 v293 = (u32)v8;
 v240 = (u32)v18;
 v241 = (u32)v10;
 v272 = (u32)v19;
 v273 = (u32)v11;
 if (v9 <= 384) goto l2;
 v33 = load64(v2 + 512);
 v95 = (u32)v33;
 v92 = v95 >> 24;
 v93 = v95 >> 16;
 v4 = load64(v2 + 480);
 v39 = (u32)v4;
 v41 = v39 >> 24;
 v42 = v39 >> 16;
 v5 = load64(v2 + 448);
 v127 = (u32)v5;
 v124 = v127 >> 24;
 v125 = v127 >> 16;
 v6 = load64(v2 + 416);
 v159 = (u32)v6;
 v156 = v159 >> 24;
 v157 = v159 >> 16;
 v7 = load64(v2 + 384);
 v191 = (u32)v7;
 v188 = v191 >> 24;
 v189 = v191 >> 16;
 v8 = load64(v2 + 352);
 v43 = (u32)v8;
 v44 = v43 >> 24;
 v45 = v43 >> 16;
 v9 = load64(v2 + 320);
 v223 = (u32)v9;
 v220 = v223 >> 24;
 v221 = v223 >> 16;
 v10 = load64(v2 + 288);
 v255 = (u32)v10;
 v252 = v255 >> 24;
 v253 = v255 >> 16;
 v94 = (v95 & 0xff00) >> 8;
 v58 = (v39 & 0xff00) >> 8;
 v126 = (v127 & 0xff00) >> 8;
 v158 = (v159 & 0xff00) >> 8;
 v190 = (v191 & 0xff00) >> 8;
 v59 = (v43 & 0xff00) >> 8;
 v222 = (v223 & 0xff00) >> 8;
 v254 = (v255 & 0xff00) >> 8;
 v91 = (u32)(v33 >> 32);
 v90 = (v91 & 0xff00) >> 8;
 v64 = (u32)(v4 >> 32);
 v65 = (v64 & 0xff00) >> 8;
 v123 = (u32)(v5 >> 32);
 v122 = (v123 & 0xff00) >> 8;
 v155 = (u32)(v6 >> 32);
 v154 = (v155 & 0xff00) >> 8;
 v187 = (u32)(v7 >> 32);
 v186 = (v187 & 0xff00) >> 8;
 v66 = (u32)(v8 >> 32);
 v67 = (v66 & 0xff00) >> 8;
 v219 = (u32)(v9 >> 32);
 v218 = (v219 & 0xff00) >> 8;
 v251 = (u32)(v10 >> 32);
 v250 = (v251 & 0xff00) >> 8;
 v88 = (u32)(v33 >> 56);
 v89 = (u32)(v33 >> 48);
 v76 = (u32)(v4 >> 56);
 v77 = (u32)(v4 >> 48);
 v120 = (u32)(v5 >> 56);
 v121 = (u32)(v5 >> 48);
 v152 = (u32)(v6 >> 56);
 v153 = (u32)(v6 >> 48);
 v184 = (u32)(v7 >> 56);
 v185 = (u32)(v7 >> 48);
 v78 = (u32)(v8 >> 56);
 v79 = (u32)(v8 >> 48);
 v216 = (u32)(v9 >> 56);
 v217 = (u32)(v9 >> 48);
 v248 = (u32)(v10 >> 56);
 v249 = (u32)(v10 >> 48);
l2:;
 store8(v2 + 263, v88);
 store8(v2 + 262, v89);
 store8(v2 + 261, v90);
 store8(v2 + 260, v91);
 store8(v2 + 259, v92);
 store8(v2 + 258, v93);
 store8(v2 + 257, v94);
 store8(v2 + 256, v95);
 store8(v2 + 255, v76);
 store8(v2 + 254, v77);
 store8(v2 + 253, v65);
 store8(v2 + 252, v64);
 store8(v2 + 251, v41);
 store8(v2 + 250, v42);
 store8(v2 + 249, v58);
 store8(v2 + 248, v39);
 store8(v2 + 247, v120);
 store8(v2 + 246, v121);
 store8(v2 + 245, v122);
 store8(v2 + 244, v123);
 store8(v2 + 243, v124);
 store8(v2 + 242, v125);
 store8(v2 + 241, v126);
 store8(v2 + 240, v127);
 store8(v2 + 239, v152);
 store8(v2 + 238, v153);
 store8(v2 + 237, v154);
 store8(v2 + 236, v155);
 store8(v2 + 235, v156);
 store8(v2 + 234, v157);
 store8(v2 + 233, v158);
 store8(v2 + 232, v159);
 store8(v2 + 231, v184);
 store8(v2 + 230, v185);
 store8(v2 + 229, v186);
 store8(v2 + 228, v187);
 store8(v2 + 227, v188);
 store8(v2 + 226, v189);
 store8(v2 + 225, v190);
 store8(v2 + 224, v191);
 store8(v2 + 223, v78);
 store8(v2 + 222, v79);
 store8(v2 + 221, v67);
 store8(v2 + 220, v66);
 store8(v2 + 219, v44);
 store8(v2 + 218, v45);
 store8(v2 + 217, v59);
 store8(v2 + 216, v43);
 store8(v2 + 215, v216);
 store8(v2 + 214, v217);
 store8(v2 + 213, v218);
 store8(v2 + 212, v219);
 store8(v2 + 211, v220);
 store8(v2 + 210, v221);
 store8(v2 + 209, v222);
 store8(v2 + 208, v223);
 store8(v2 + 207, v248);
 store8(v2 + 206, v249);
 store8(v2 + 205, v250);
 store8(v2 + 204, v251);
 store8(v2 + 203, v252);
 store8(v2 + 202, v253);
 store8(v2 + 201, v254);
 store8(v2 + 200, v255);
 store8(v2 + 199, v96);
 store8(v2 + 198, v97);
 store8(v2 + 197, v98);
 store8(v2 + 196, v99);
 store8(v2 + 195, v100);
 store8(v2 + 194, v101);
 store8(v2 + 193, v102);
 store8(v2 + 192, v103);
 store8(v2 + 191, v80);
 store8(v2 + 190, v81);
 store8(v2 + 189, v69);
 store8(v2 + 188, v68);
 store8(v2 + 187, v47);
 store8(v2 + 186, v48);
 store8(v2 + 185, v60);
 store8(v2 + 184, v46);
 store8(v2 + 183, v128);
 store8(v2 + 182, v129);
 store8(v2 + 181, v130);
 store8(v2 + 180, v131);
 store8(v2 + 179, v132);
 store8(v2 + 178, v133);
 store8(v2 + 177, v134);
 store8(v2 + 176, v135);
 store8(v2 + 175, v160);
 store8(v2 + 174, v161);
 store8(v2 + 173, v162);
 store8(v2 + 172, v163);
 store8(v2 + 171, v164);
 store8(v2 + 170, v165);
 store8(v2 + 169, v166);
 store8(v2 + 168, v167);
 store8(v2 + 167, v192);
 store8(v2 + 166, v193);
 store8(v2 + 165, v194);
 store8(v2 + 164, v195);
 store8(v2 + 163, v196);
 store8(v2 + 162, v197);
 store8(v2 + 161, v198);
 store8(v2 + 160, v199);
 store8(v2 + 159, v82);
 store8(v2 + 158, v83);
 store8(v2 + 157, v71);
 store8(v2 + 156, v70);
 store8(v2 + 155, v50);
 store8(v2 + 154, v51);
 store8(v2 + 153, v61);
 store8(v2 + 152, v49);
 store8(v2 + 151, v224);
 store8(v2 + 150, v225);
 store8(v2 + 149, v226);
 store8(v2 + 148, v227);
 store8(v2 + 147, v228);
 store8(v2 + 146, v229);
 store8(v2 + 145, v230);
 store8(v2 + 144, v231);
 store8(v2 + 143, v256);
 store8(v2 + 142, v257);
 store8(v2 + 141, v258);
 store8(v2 + 140, v259);
 store8(v2 + 139, v260);
 store8(v2 + 138, v261);
 store8(v2 + 137, v262);
 store8(v2 + 136, v263);
 store8(v2 + 135, v104);
 store8(v2 + 134, v105);
 store8(v2 + 133, v106);
 store8(v2 + 132, v107);
 store8(v2 + 131, v108);
 store8(v2 + 130, v109);
 store8(v2 + 129, v110);
 store8(v2 + 128, v111);
 store8(v2 + 127, v84);
 store8(v2 + 126, v85);
 store8(v2 + 125, v73);
 store8(v2 + 124, v72);
 store8(v2 + 123, v53);
 store8(v2 + 122, v54);
 store8(v2 + 121, v62);
 store8(v2 + 120, v52);
 store8(v2 + 119, v136);
 store8(v2 + 118, v137);
 store8(v2 + 117, v138);
 store8(v2 + 116, v139);
 store8(v2 + 115, v140);
 store8(v2 + 114, v141);
 store8(v2 + 113, v142);
 store8(v2 + 112, v143);
 store8(v2 + 111, v168);
 store8(v2 + 110, v169);
 store8(v2 + 109, v170);
 store8(v2 + 108, v171);
 store8(v2 + 107, v172);
 store8(v2 + 106, v173);
 store8(v2 + 105, v174);
 store8(v2 + 104, v175);
 store8(v2 + 103, v200);
 store8(v2 + 102, v201);
 store8(v2 + 101, v202);
 store8(v2 + 100, v203);
 store8(v2 + 99, v204);
 store8(v2 + 98, v205);
 store8(v2 + 97, v206);
 store8(v2 + 96, v207);
 store8(v2 + 95, v86);
 store8(v2 + 94, v87);
 store8(v2 + 93, v75);
 store8(v2 + 92, v74);
 store8(v2 + 91, v56);
 store8(v2 + 90, v57);
 store8(v2 + 89, v63);
 store8(v2 + 88, v55);
 store8(v2 + 87, v232);
 store8(v2 + 86, v233);
 store8(v2 + 85, v234);
 store8(v2 + 84, v235);
 store8(v2 + 83, v236);
 store8(v2 + 82, v237);
 store8(v2 + 81, v238);
 store8(v2 + 80, v239);
 store8(v2 + 79, v264);
 store8(v2 + 78, v265);
 store8(v2 + 77, v266);
 store8(v2 + 76, v267);
 store8(v2 + 75, v268);
 store8(v2 + 74, v269);
 store8(v2 + 73, v270);
 store8(v2 + 72, v271);
 store8(v2 + 71, v112);
 store8(v2 + 70, v113);
 store8(v2 + 69, v114);
 store8(v2 + 68, v115);
 store8(v2 + 67, v116);
 store8(v2 + 66, v117);
 store8(v2 + 65, v118);
 store8(v2 + 64, v119);
 store8(v2 + 63, v290);
 store8(v2 + 62, v291);
 store8(v2 + 61, v287);
 store8(v2 + 60, v286);
 store8(v2 + 59, v40);
 store8(v2 + 58, v280);
 store8(v2 + 57, v284);
 store8(v2 + 56, v38);
 store8(v2 + 55, v144);
 store8(v2 + 54, v145);
 store8(v2 + 53, v146);
 store8(v2 + 52, v147);
 store8(v2 + 51, v148);
 store8(v2 + 50, v149);
 store8(v2 + 49, v150);
 store8(v2 + 48, v151);
 store8(v2 + 47, v176);
 store8(v2 + 46, v177);
 store8(v2 + 45, v178);
 store8(v2 + 44, v179);
 store8(v2 + 43, v180);
 store8(v2 + 42, v181);
 store8(v2 + 41, v182);
 store8(v2 + 40, v183);
 store8(v2 + 39, v208);
 store8(v2 + 38, v209);
 store8(v2 + 37, v210);
 store8(v2 + 36, v211);
 store8(v2 + 35, v212);
 store8(v2 + 34, v213);
 store8(v2 + 33, v214);
 store8(v2 + 32, v215);
 store8(v2 + 31, v292);
 store8(v2 + 30, v293);
 store8(v2 + 29, v289);
 store8(v2 + 28, v288);
 store8(v2 + 27, v282);
 store8(v2 + 26, v283);
 store8(v2 + 25, v285);
 store8(v2 + 24, v281);
 store8(v2 + 23, v240);
 store8(v2 + 22, v241);
 store8(v2 + 21, v242);
 store8(v2 + 20, v243);
 store8(v2 + 19, v244);
 store8(v2 + 18, v245);
 store8(v2 + 17, v246);
 store8(v2 + 16, v247);
 store8(v2 + 15, v272);
 store8(v2 + 14, v273);
 store8(v2 + 13, v274);
 store8(v2 + 12, v275);
 store8(v2 + 11, v276);
 store8(v2 + 10, v277);
 store8(v2 + 9, v278);
 store8(v2 + 8, v279);
 v33 = load64(v1 + 1424);
 v4 = load64(v1 + 1432);
 v5 = load64(v1 + 1440);
 v6 = load64(v1 + 1448);
 v7 = load64(v1 + 1456);
 v8 = load64(v1 + 1464);
 v9 = load64(v1 + 1472);
 store64(v2 + 320, load64(v1 + 1480));
 store64(v2 + 312, v9);
 store64(v2 + 304, v8);
 store64(v2 + 296, v7);
 store64(v2 + 288, v6);
 store64(v2 + 280, v5);
 store64(v2 + 272, v4);
 store64(v2 + 264, v33);
 compress_compress_blake2b_compress(v2 + 264, v2 + 8, 128, 0, 0);
 compress_compress_blake2b_compress(v2 + 264, v2 + 8 + 128, 256, 1, 1);
 v39 = load8(v2 + 264);
 v43 = load8(v2 + 265);
 v52 = load8(v2 + 266);
 v55 = load8(v2 + 267);
 v46 = load8(v2 + 268);
 v49 = load8(v2 + 269);
 v119 = load8(v2 + 270);
 v151 = load8(v2 + 271);
 v183 = load8(v2 + 272);
 v215 = load8(v2 + 273);
 v247 = load8(v2 + 274);
 v279 = load8(v2 + 275);
 v38 = load8(v2 + 276);
 v281 = load8(v2 + 277);
 v95 = load8(v2 + 278);
 v111 = load8(v2 + 279);
 v127 = load8(v2 + 280);
 v143 = load8(v2 + 281);
 v159 = load8(v2 + 282);
 v175 = load8(v2 + 283);
 v191 = load8(v2 + 284);
 v207 = load8(v2 + 285);
 v223 = load8(v2 + 286);
 v239 = load8(v2 + 287);
 v255 = load8(v2 + 288);
 v271 = load8(v2 + 289);
 v112 = load8(v2 + 290);
 v113 = load8(v2 + 291);
 v114 = load8(v2 + 292);
 v115 = load8(v2 + 293);
 v116 = load8(v2 + 294);
 v117 = load8(v2 + 295);
 v118 = load8(v2 + 296);
 v144 = load8(v2 + 297);
 v145 = load8(v2 + 298);
 v146 = load8(v2 + 299);
 v147 = load8(v2 + 300);
 v148 = load8(v2 + 301);
 v149 = load8(v2 + 302);
 v150 = load8(v2 + 303);
 v176 = load8(v2 + 304);
 v177 = load8(v2 + 305);
 v178 = load8(v2 + 306);
 v179 = load8(v2 + 307);
 v180 = load8(v2 + 308);
 v181 = load8(v2 + 309);
 v182 = load8(v2 + 310);
 v208 = load8(v2 + 311);
 v209 = load8(v2 + 312);
 v210 = load8(v2 + 313);
 v211 = load8(v2 + 314);
 v212 = load8(v2 + 315);
 v213 = load8(v2 + 316);
 v214 = load8(v2 + 317);
 v240 = load8(v2 + 318);
 v241 = load8(v2 + 319);
 v242 = load8(v2 + 320);
 v243 = load8(v2 + 321);
 v244 = load8(v2 + 322);
 v245 = load8(v2 + 323);
 v246 = load8(v2 + 324);
 v272 = load8(v2 + 325);
 v273 = load8(v2 + 326);
 store8(v0 + 63, load8(v2 + 327));
 store8(v0 + 62, v273);
 store8(v0 + 61, v272);
 store8(v0 + 60, v246);
 store8(v0 + 59, v245);
 store8(v0 + 58, v244);
 store8(v0 + 57, v243);
 store8(v0 + 56, v242);
 store8(v0 + 55, v241);
 store8(v0 + 54, v240);
 store8(v0 + 53, v214);
 store8(v0 + 52, v213);
 store8(v0 + 51, v212);
 store8(v0 + 50, v211);
 store8(v0 + 49, v210);
 store8(v0 + 48, v209);
 store8(v0 + 47, v208);
 store8(v0 + 46, v182);
 store8(v0 + 45, v181);
 store8(v0 + 44, v180);
 store8(v0 + 43, v179);
 store8(v0 + 42, v178);
 store8(v0 + 41, v177);
 store8(v0 + 40, v176);
 store8(v0 + 39, v150);
 store8(v0 + 38, v149);
 store8(v0 + 37, v148);
 store8(v0 + 36, v147);
 store8(v0 + 35, v146);
 store8(v0 + 34, v145);
 store8(v0 + 33, v144);
 store8(v0 + 32, v118);
 store8(v0 + 31, v117);
 store8(v0 + 30, v116);
 store8(v0 + 29, v115);
 store8(v0 + 28, v114);
 store8(v0 + 27, v113);
 store8(v0 + 26, v112);
 store8(v0 + 25, v271);
 store8(v0 + 24, v255);
 store8(v0 + 23, v239);
 store8(v0 + 22, v223);
 store8(v0 + 21, v207);
 store8(v0 + 20, v191);
 store8(v0 + 19, v175);
 store8(v0 + 18, v159);
 store8(v0 + 17, v143);
 store8(v0 + 16, v127);
 store8(v0 + 15, v111);
 store8(v0 + 14, v95);
 store8(v0 + 13, v281);
 store8(v0 + 12, v38);
 store8(v0 + 11, v279);
 store8(v0 + 10, v247);
 store8(v0 + 9, v215);
 store8(v0 + 8, v183);
 store8(v0 + 7, v151);
 store8(v0 + 6, v119);
 store8(v0 + 5, v49);
 store8(v0 + 4, v46);
 store8(v0 + 3, v55);
 store8(v0 + 2, v52);
 store8(v0 + 1, v43);
 store8(v0, v39);
 return;
}

/* blake2_parallel::lanes::blake2bp::compress_by_leaf */
APART void parallel_lanes_blake2bp_compress_by_leaf(u64 v0, u64 v1, u64 v2, u64 v3) {
 u32 v37;
 u64 v4, v5, v6, v7, v8, v9, v10, v11, v12, v13, v14, v15, v16, v17, v18, v19, v20, v21, v22, v23,
   v24, v25, v26, v27, v28, v29, v30, v31, v32, v33, v34, v35, v36, v38, v39, v40;
 FRAME(10);
 v4 = top - 64;
 v5 = load64(v0 + 248);
 v6 = load64(v0 + 240);
 v7 = load64(v0 + 232);
 v8 = load64(v0 + 216);
 v9 = load64(v0 + 208);
 v10 = load64(v0 + 200);
 v11 = load64(v0 + 184);
 v12 = load64(v0 + 176);
 v13 = load64(v0 + 168);
 v14 = load64(v0 + 152);
 v15 = load64(v0 + 144);
 v16 = load64(v0 + 136);
 v17 = load64(v0 + 120);
 v18 = load64(v0 + 112);
 v19 = load64(v0 + 104);
 v20 = load64(v0 + 88);
 v21 = load64(v0 + 80);
 v22 = load64(v0 + 72);
 v23 = load64(v0 + 56);
 v24 = load64(v0 + 48);
 v25 = load64(v0 + 40);
 v26 = load64(v0 + 24);
 v27 = load64(v0 + 16);
 v28 = load64(v0 + 8);
 v29 = load64(v0);
 v30 = load64(v0 + 32);
 v31 = load64(v0 + 64);
 v32 = load64(v0 + 96);
 v33 = load64(v0 + 128);
 v34 = load64(v0 + 160);
 v35 = load64(v0 + 192);
 v36 = load64(v0 + 224);
 store64(v4 + 56, v36);
 store64(v4 + 48, v35);
 store64(v4 + 40, v34);
 store64(v4 + 32, v33);
 store64(v4 + 24, v32);
 store64(v4 + 16, v31);
 store64(v4 + 8, v30);
 store64(v4, v29);
 v37 = (u32)(v3 == 0);
 if (v37) goto l2;
 v32 = v2 + 128;
 v38 = v3;
 v39 = v1;
l3:;
 compress_compress_blake2b_compress(v4, v39, v32, 0, 0);
 v32 += 128;
 v39 += 512;
 v38 -= 1;
 if (v38 != 0) goto l3;
 v31 = load64(v4 + 16);
 v36 = load64(v4 + 56);
 v35 = load64(v4 + 48);
 v34 = load64(v4 + 40);
 v33 = load64(v4 + 32);
 v30 = load64(v4 + 8);
 v29 = load64(v4);
l2:;
 v40 = load64(v4 + 24);
 store64(v4 + 56, v7);
 store64(v4 + 48, v10);
 store64(v4 + 40, v13);
 store64(v4 + 32, v16);
 store64(v4 + 24, v19);
 store64(v4 + 16, v22);
 store64(v4 + 8, v25);
 store64(v4, v28);
 if (v37) goto l4;
 v32 = v2 + 128;
 v39 = v1 + 128;
 v38 = v3;
l5:;
 compress_compress_blake2b_compress(v4, v39, v32, 0, 0);
 v32 += 128;
 v39 += 512;
 v38 -= 1;
 if (v38 != 0) goto l5;
 v7 = load64(v4 + 56);
 v10 = load64(v4 + 48);
 v13 = load64(v4 + 40);
 v16 = load64(v4 + 32);
 v19 = load64(v4 + 24);
 v22 = load64(v4 + 16);
 v25 = load64(v4 + 8);
 v28 = load64(v4);
l4:;
 store64(v4 + 48, v9);
 store64(v4 + 32, v15);
 store64(v4 + 16, v21);
 store64(v4, v27);
 store64(v4 + 56, v6);
 store64(v4 + 40, v12);
 store64(v4 + 24, v18);
 store64(v4 + 8, v24);
 if (v37) goto l6;
 v32 = v2 + 128;
 v39 = v1 + 256;
 v38 = v3;
l7:;
 compress_compress_blake2b_compress(v4, v39, v32, 0, 0);
 v32 += 128;
 v39 += 512;
 v38 -= 1;
 if (v38 != 0) goto l7;
 v6 = load64(v4 + 56);
 v9 = load64(v4 + 48);
 v12 = load64(v4 + 40);
 v15 = load64(v4 + 32);
 v18 = load64(v4 + 24);
 v21 = load64(v4 + 16);
 v24 = load64(v4 + 8);
 v27 = load64(v4);
l6:;
 store64(v4 + 48, v8);
 store64(v4 + 32, v14);
 store64(v4 + 16, v20);
 store64(v4, v26);
 store64(v4 + 56, v5);
 store64(v4 + 40, v11);
 store64(v4 + 24, v17);
 store64(v4 + 8, v23);
 if (v37) goto l8;
 v32 = v2 + 128;
 v39 = v1 + 384;
l9:;
 compress_compress_blake2b_compress(v4, v39, v32, 0, 0);
 v32 += 128;
 v39 += 512;
 v3 -= 1;
 if (v3 != 0) goto l9;
 v5 = load64(v4 + 56);
 v8 = load64(v4 + 48);
 v11 = load64(v4 + 40);
 v14 = load64(v4 + 32);
 v17 = load64(v4 + 24);
 v20 = load64(v4 + 16);
 v23 = load64(v4 + 8);
 v26 = load64(v4);
l8:;
 store64(v0 + 248, v5);
 store64(v0 + 240, v6);
 store64(v0 + 232, v7);
 store64(v0 + 224, v36);
 store64(v0 + 216, v8);
 store64(v0 + 208, v9);
 store64(v0 + 200, v10);
 store64(v0 + 192, v35);
 store64(v0 + 184, v11);
 store64(v0 + 176, v12);
 store64(v0 + 168, v13);
 store64(v0 + 160, v34);
 store64(v0 + 152, v14);
 store64(v0 + 144, v15);
 store64(v0 + 136, v16);
 store64(v0 + 128, v33);
 store64(v0 + 120, v17);
 store64(v0 + 112, v18);
 store64(v0 + 104, v19);
 store64(v0 + 96, v40);
 store64(v0 + 88, v20);
 store64(v0 + 80, v21);
 store64(v0 + 72, v22);
 store64(v0 + 64, v31);
 store64(v0 + 56, v23);
 store64(v0 + 48, v24);
 store64(v0 + 40, v25);
 store64(v0 + 32, v30);
 store64(v0 + 24, v26);
 store64(v0 + 16, v27);
 store64(v0 + 8, v28);
 store64(v0, v29);
 return;
}

/* blake2_parallel::lanes::blake2bp::Lanes::compress_held */
APART void parallel_lanes_blake2bp_Lanes_compress_held(u64 v0) {
 u64 v1, v2, v3, v4, v5, v6, v7, v8, v9, v10, v11, v12, v13, v14, v15, v16, v17, v18, v19, v20, v21,
   v22, v23, v24, v25, v26, v27, v28, v29, v30, v31, v32, v33, v34, v35, v36, v37, v38, v39, v40,
   v41, v42, v43, v44, v45, v46, v47, v48, v49, v50, v51, v52, v53, v54, v55, v56, v57, v58, v59,
   v60, v61, v62, v63, v64, v65, v66;
 FRAME(146);
 v1 = top - 1152;
 v2 = v0 + 32;
 v3 = load64(v2);
 v4 = v0 + 40;
 v5 = load64(v4);
 v6 = v0 + 48;
 v7 = load64(v6);
 v8 = v0 + 56;
 v9 = load64(v8);
 v10 = v0 + 64;
 v11 = load64(v10);
 v12 = v0 + 72;
 v13 = load64(v12);
 v14 = v0 + 80;
 v15 = load64(v14);
 v16 = v0 + 88;
 v17 = load64(v16);
 v18 = v0 + 96;
 v19 = load64(v18);
 v20 = v0 + 104;
 v21 = load64(v20);
 v22 = v0 + 112;
 v23 = load64(v22);
 v24 = v0 + 120;
 v25 = load64(v24);
 v26 = v0 + 128;
 v27 = load64(v26);
 v28 = v0 + 136;
 v29 = load64(v28);
 v30 = v0 + 144;
 v31 = load64(v30);
 v32 = v0 + 152;
 v33 = load64(v32);
 v34 = v0 + 160;
 v35 = load64(v34);
 v36 = v0 + 168;
 v37 = load64(v36);
 v38 = v0 + 176;
 v39 = load64(v38);
 v40 = v0 + 184;
 v41 = load64(v40);
 v42 = v0 + 192;
 v43 = load64(v42);
 v44 = v0 + 200;
 v45 = load64(v44);
 v46 = v0 + 208;
 v47 = load64(v46);
 v48 = v0 + 216;
 v49 = load64(v48);
 v50 = v0 + 224;
 v51 = load64(v50);
 v52 = v0 + 232;
 v53 = load64(v52);
 v54 = v0 + 240;
 v55 = load64(v54);
 v56 = load64(v0);
 v57 = load64(v0 + 8);
 v58 = load64(v0 + 16);
 v59 = load64(v0 + 24);
 v60 = v0 + 248;
 store64(v1 + 248, load64(v60));
 store64(v1 + 240, v55);
 store64(v1 + 232, v53);
 store64(v1 + 224, v51);
 store64(v1 + 216, v49);
 store64(v1 + 208, v47);
 store64(v1 + 200, v45);
 store64(v1 + 192, v43);
 store64(v1 + 184, v41);
 store64(v1 + 176, v39);
 store64(v1 + 168, v37);
 store64(v1 + 160, v35);
 store64(v1 + 152, v33);
 store64(v1 + 144, v31);
 store64(v1 + 136, v29);
 store64(v1 + 128, v27);
 store64(v1 + 120, v25);
 store64(v1 + 112, v23);
 store64(v1 + 104, v21);
 store64(v1 + 96, v19);
 store64(v1 + 88, v17);
 store64(v1 + 80, v15);
 store64(v1 + 72, v13);
 store64(v1 + 64, v11);
 store64(v1 + 56, v9);
 store64(v1 + 48, v7);
 store64(v1 + 40, v5);
 store64(v1 + 32, v3);
 store64(v1 + 24, v59);
 store64(v1 + 16, v58);
 store64(v1 + 8, v57);
 store64(v1, v56);
 v5 = v0 + 272;
 v7 = v0 + 256;
 v9 = load64(v7);
 parallel_lanes_blake2bp_compress_by_leaf(v1, v5, v9, 1);
 v11 = v0 + 264;
 v3 = load64(v11);
 fill(v1 + 256, 0, 896);
 v3 -= 512;
 if (v3 == 0) goto l2;
 copy(v1 + 256, v0 + 784, v3);
l2:;
 v13 = load64(v1);
 v15 = load64(v1 + 8);
 v17 = load64(v1 + 16);
 v19 = load64(v1 + 24);
 v21 = load64(v1 + 32);
 v23 = load64(v1 + 40);
 v25 = load64(v1 + 48);
 v27 = load64(v1 + 56);
 v29 = load64(v1 + 64);
 v31 = load64(v1 + 72);
 v33 = load64(v1 + 80);
 v35 = load64(v1 + 88);
 v37 = load64(v1 + 96);
 v39 = load64(v1 + 104);
 v41 = load64(v1 + 112);
 v43 = load64(v1 + 120);
 v45 = load64(v1 + 128);
 v47 = load64(v1 + 136);
 v49 = load64(v1 + 144);
 v51 = load64(v1 + 152);
 v53 = load64(v1 + 160);
 v55 = load64(v1 + 168);
 v56 = load64(v1 + 176);
 v57 = load64(v1 + 184);
 v58 = load64(v1 + 192);
 v59 = load64(v1 + 200);
 v61 = load64(v1 + 208);
 v62 = load64(v1 + 216);
 v63 = load64(v1 + 224);
 v64 = load64(v1 + 232);
 v65 = load64(v1 + 240);
 v66 = load64(v1 + 248);
 store64(v7, v9 + 128);
 store64(v60, v66);
 store64(v54, v65);
 store64(v52, v64);
 store64(v50, v63);
 store64(v48, v62);
 store64(v46, v61);
 store64(v44, v59);
 store64(v42, v58);
 store64(v40, v57);
 store64(v38, v56);
 store64(v36, v55);
 store64(v34, v53);
 store64(v32, v51);
 store64(v30, v49);
 store64(v28, v47);
 store64(v26, v45);
 store64(v24, v43);
 store64(v22, v41);
 store64(v20, v39);
 store64(v18, v37);
 store64(v16, v35);
 store64(v14, v33);
 store64(v12, v31);
 store64(v10, v29);
 store64(v8, v27);
 store64(v6, v25);
 store64(v4, v23);
 store64(v2, v21);
 store64(v0 + 24, v19);
 store64(v0 + 16, v17);
 store64(v0 + 8, v15);
 store64(v0, v13);
 copy(v5, v1 + 256, 896);
 store64(v11, v3);
 return;
}

/* blake2_parallel::blake2bp::State::update */
APART void parallel_blake2bp_State_update(u64 v0, u64 v1, u64 v2) {
 u64 v3, v4, v5, v6, v7, v8, v9, v10, v11, v12, v13, v14, v15, v16, v17, v18, v19, v20, v21, v22,
   v23, v24, v25, v26, v27, v28, v29, v30, v31, v32, v33, v34, v35, v36, v37, v38, v39, v40, v41,
   v42, v43, v44, v45, v46, v47, v48, v49, v50, v51, v52, v53, v54, v55, v56, v57, v58, v59, v60,
   v61, v62, v63, v64, v65, v66, v67, v68;
 FRAME(34);
 v3 = top - 256;
 v4 = load64(v0 + 264);
 if ((896 - v4) >= v2) goto l2;
 v5 = v0 + 272;
l3:;
 if (v4 != 0) goto l5;
 v6 = v0 + 32;
 v7 = load64(v6);
 v8 = v0 + 40;
 v9 = load64(v8);
 v4 = v0 + 48;
 v10 = load64(v4);
 v11 = v0 + 56;
 v12 = load64(v11);
 v13 = v0 + 64;
 v14 = load64(v13);
 v15 = v0 + 72;
 v16 = load64(v15);
 v17 = v0 + 80;
 v18 = load64(v17);
 v19 = v0 + 88;
 v20 = load64(v19);
 v21 = v0 + 96;
 v22 = load64(v21);
 v23 = v0 + 104;
 v24 = load64(v23);
 v25 = v0 + 112;
 v26 = load64(v25);
 v27 = v0 + 120;
 v28 = load64(v27);
 v29 = v0 + 128;
 v30 = load64(v29);
 v31 = v0 + 136;
 v32 = load64(v31);
 v33 = v0 + 144;
 v34 = load64(v33);
 v35 = v0 + 152;
 v36 = load64(v35);
 v37 = v0 + 160;
 v38 = load64(v37);
 v39 = v0 + 168;
 v40 = load64(v39);
 v41 = v0 + 176;
 v42 = load64(v41);
 v43 = v0 + 184;
 v44 = load64(v43);
 v45 = v0 + 192;
 v46 = load64(v45);
 v47 = v0 + 200;
 v48 = load64(v47);
 v49 = v0 + 208;
 v50 = load64(v49);
 v51 = v0 + 216;
 v52 = load64(v51);
 v53 = v0 + 224;
 v54 = load64(v53);
 v55 = v0 + 232;
 v56 = load64(v55);
 v57 = v0 + 240;
 v58 = load64(v57);
 v59 = load64(v0);
 v60 = load64(v0 + 8);
 v61 = load64(v0 + 16);
 v62 = load64(v0 + 24);
 v63 = v0 + 248;
 store64(v3 + 248, load64(v63));
 store64(v3 + 240, v58);
 store64(v3 + 232, v56);
 store64(v3 + 224, v54);
 store64(v3 + 216, v52);
 store64(v3 + 208, v50);
 store64(v3 + 200, v48);
 store64(v3 + 192, v46);
 store64(v3 + 184, v44);
 store64(v3 + 176, v42);
 store64(v3 + 168, v40);
 store64(v3 + 160, v38);
 store64(v3 + 152, v36);
 store64(v3 + 144, v34);
 store64(v3 + 136, v32);
 store64(v3 + 128, v30);
 store64(v3 + 120, v28);
 store64(v3 + 112, v26);
 store64(v3 + 104, v24);
 store64(v3 + 96, v22);
 store64(v3 + 88, v20);
 store64(v3 + 80, v18);
 store64(v3 + 72, v16);
 store64(v3 + 64, v14);
 store64(v3 + 56, v12);
 store64(v3 + 48, v10);
 store64(v3 + 40, v9);
 store64(v3 + 32, v7);
 store64(v3 + 24, v62);
 store64(v3 + 16, v61);
 store64(v3 + 8, v60);
 store64(v3, v59);
 v7 = v0 + 256;
 v9 = load64(v7);
 v10 = v2 - 385;
 v12 = v10 >> 9;
 parallel_lanes_blake2bp_compress_by_leaf(v3, v1, v9, v12);
 v14 = load64(v3);
 v16 = load64(v3 + 8);
 v18 = load64(v3 + 16);
 v20 = load64(v3 + 24);
 v22 = load64(v3 + 32);
 v24 = load64(v3 + 40);
 v26 = load64(v3 + 48);
 v28 = load64(v3 + 56);
 v30 = load64(v3 + 64);
 v32 = load64(v3 + 72);
 v34 = load64(v3 + 80);
 v36 = load64(v3 + 88);
 v38 = load64(v3 + 96);
 v40 = load64(v3 + 104);
 v42 = load64(v3 + 112);
 v44 = load64(v3 + 120);
 v46 = load64(v3 + 128);
 v48 = load64(v3 + 136);
 v50 = load64(v3 + 144);
 v52 = load64(v3 + 152);
 v54 = load64(v3 + 160);
 v56 = load64(v3 + 168);
 v58 = load64(v3 + 176);
 v59 = load64(v3 + 184);
 v60 = load64(v3 + 192);
 v61 = load64(v3 + 200);
 v62 = load64(v3 + 208);
 v64 = load64(v3 + 216);
 v65 = load64(v3 + 224);
 v66 = load64(v3 + 232);
 v67 = load64(v3 + 240);
 v68 = load64(v3 + 248);
 store64(v7, v9 + (v12 << 7));
 store64(v63, v68);
 store64(v57, v67);
 store64(v55, v66);
 store64(v53, v65);
 store64(v51, v64);
 store64(v49, v62);
 store64(v47, v61);
 store64(v45, v60);
 store64(v43, v59);
 store64(v41, v58);
 store64(v39, v56);
 store64(v37, v54);
 store64(v35, v52);
 store64(v33, v50);
 store64(v31, v48);
 store64(v29, v46);
 store64(v27, v44);
 store64(v25, v42);
 store64(v23, v40);
 store64(v21, v38);
 store64(v19, v36);
 store64(v17, v34);
 store64(v15, v32);
 store64(v13, v30);
 store64(v11, v28);
 store64(v4, v26);
 store64(v8, v24);
 store64(v6, v22);
 store64(v0 + 24, v20);
 store64(v0 + 16, v18);
 store64(v0 + 8, v16);
 store64(v0, v14);
 v6 = v10 & 0xfffffffffffffe00;
 v2 -= v6;
 v1 += v6;
 goto l4;
l5:;
 if (v4 > 511) goto l6;
 v6 = v5 + v4;
 v12 = 512 - v4;
 if ((v6 - v1) >= v12) goto l8;
 v9 = v12 & 3;
 v7 = 0;
 if (v4 > 508) goto l9;
 v10 = v0 + v4;
 v11 = v12 & 1020;
 v7 = 0;
l10:;
 v6 = v10 + v7;
 v8 = v1 + v7;
 store8(v6 + 272, load8(v8));
 store8(v6 + 273, load8(v8 + 1));
 store8(v6 + 274, load8(v8 + 2));
 store8(v6 + 275, load8(v8 + 3));
 v7 += 4;
 if (v11 != v7) goto l10;
 if (v9 == 0) goto l7;
l9:;
 v6 = v1 + v7;
 v7 = v5 + (v4 + v7);
l11:;
 store8(v7, load8(v6));
 v7 += 1;
 v6 += 1;
 v9 -= 1;
 if (v9 != 0) goto l11;
 goto l7;
l8:;
 if (v12 == 0) goto l7;
 copy(v6, v1, v12);
l7:;
 store64(v0 + 264, 512);
 parallel_lanes_blake2bp_Lanes_compress_held(v0);
 v1 += v12;
 v2 -= v12;
 goto l4;
l6:;
 parallel_lanes_blake2bp_Lanes_compress_held(v0);
l4:;
 v4 = load64(v0 + 264);
 if ((896 - v4) < v2) goto l3;
l2:;
 v10 = v0 + v4;
 v6 = v10 + 272;
 if ((v6 - v1) >= v2) goto l13;
 v9 = v2 & 3;
 v7 = 0;
 if (v2 < 4) goto l14;
 v11 = v2 & 0xfffffffffffffffc;
 v7 = 0;
l15:;
 v6 = v10 + v7;
 v8 = v1 + v7;
 store8(v6 + 272, load8(v8));
 store8(v6 + 273, load8(v8 + 1));
 store8(v6 + 274, load8(v8 + 2));
 store8(v6 + 275, load8(v8 + 3));
 v7 += 4;
 if (v11 != v7) goto l15;
 if (v9 == 0) goto l12;
l14:;
 v6 = v1 + v7;
 v7 = v4 + v7 + v0 + 272;
l16:;
 store8(v7, load8(v6));
 v7 += 1;
 v6 += 1;
 v9 -= 1;
 if (v9 != 0) goto l16;
 goto l12;
l13:;
 if (v2 == 0) goto l12;
 copy(v6, v1, v2);
l12:;
 store64(v0 + 264, v4 + v2);
 return;
}

/* blake2_ffi::blake2bp::write */
APART u32 ffi_blake2bp_write(u64 v0, u64 v1, u64 v2, u64 v3, u64 v4, u64 v5) {
 u32 v7;
 u64 v6;
 FRAME(510);
 v6 = top - 4064;
 fill(v6 + 2224, 0, 304);
 if ((v1 - 1) > 63) goto l5;
 if (v5 > 64) goto l5;
 fill(v6 + 2528, 0, 128);
 if (v5 == 0) goto l6;
 copy(v6 + 2528, v4, v5);
l6:;
 v4 = 0;
 if (v5 != 0) goto l4;
 fill(v6 + 3168, 0, 896);
 goto l3;
l5:;
 v7 = 0xffffffff;
 goto l2;
l4:;
 copy(v6 + 2656, v6 + 2528, 128);
 copy(v6 + 2656 + 128, v6 + 2528, 128);
 copy(v6 + 2912, v6 + 2528, 128);
 copy(v6 + 2656 + 384, v6 + 2528, 128);
 v4 = 512;
 fill(v6 + 3168 + 512, 0, 384);
 copy(v6 + 3168, v6 + 2656, 512);
l3:;
 copy(v6, v6 + 3168, 896);
 store64(v6 + 1160, v4);
 store64(v6 + 1152, 0);
 store64(v6 + 1144, 0x5be0cd19137e2179);
 store64(v6 + 1136, 0x5be0cd19137e2179);
 store64(v6 + 1128, 0x5be0cd19137e2179);
 store64(v6 + 1120, 0x5be0cd19137e2179);
 store64(v6 + 1112, 0x1f83d9abfb41bd6b);
 store64(v6 + 1104, 0x1f83d9abfb41bd6b);
 store64(v6 + 1096, 0x1f83d9abfb41bd6b);
 store64(v6 + 1088, 0x1f83d9abfb41bd6b);
 store64(v6 + 1080, 0x9b05688c2b3e6c1f);
 store64(v6 + 1072, 0x9b05688c2b3e6c1f);
 store64(v6 + 1064, 0x9b05688c2b3e6c1f);
 store64(v6 + 1056, 0x9b05688c2b3e6c1f);
 store64(v6 + 1048, 0x510e527fade682d1);
 store64(v6 + 1040, 0x510e527fade682d1);
 store64(v6 + 1032, 0x510e527fade682d1);
 store64(v6 + 1024, 0x510e527fade682d1);
 store64(v6 + 1016, 0xa54ff53a5f1d36f1);
 store64(v6 + 1008, 0xa54ff53a5f1d36f1);
 store64(v6 + 1000, 0xa54ff53a5f1d36f1);
 store64(v6 + 992, 0xa54ff53a5f1d36f1);
 store64(v6 + 984, 0x3c6ef372fe94b82b);
 store64(v6 + 976, 0x3c6ef372fe94b82b);
 store64(v6 + 968, 0x3c6ef372fe94b82b);
 store64(v6 + 960, 0x3c6ef372fe94b82b);
 store64(v6 + 952, 0xbb67ae8584caa738);
 store64(v6 + 944, 0xbb67ae8584caa739);
 store64(v6 + 936, 0xbb67ae8584caa73a);
 store64(v6 + 928, 0xbb67ae8584caa73b);
 v5 = (u64)(((u32)v5 << 8) | (u32)v1 | 0x2040000) ^ 0x6a09e667f3bcc908;
 store64(v6 + 920, v5);
 store64(v6 + 912, v5);
 store64(v6 + 904, v5);
 store64(v6 + 896, v5);
 copy(v6 + 1168, v6, 896);
 store64(v6 + 2392, v1);
 store64(v6 + 2384, v4);
 store64(v6 + 2376, 0x5be0cd19137e2179);
 store64(v6 + 2368, 0x1f83d9abfb41bd6b);
 store64(v6 + 2360, 0x9b05688c2b3e6c1f);
 store64(v6 + 2352, 0x510e527fade682d1);
 store64(v6 + 2344, 0xa54ff53a5f1d36f1);
 store64(v6 + 2336, 0x3c6ef372fe94b82a);
 store64(v6 + 2328, 0xbb67ae8584caa73b);
 store64(v6 + 2320, v5);
 store64(v6 + 2312, 0x5be0cd19137e2179);
 store64(v6 + 2304, 0x5be0cd19137e2179);
 store64(v6 + 2296, 0x5be0cd19137e2179);
 store64(v6 + 2288, 0x5be0cd19137e2179);
 store64(v6 + 2280, 0x1f83d9abfb41bd6b);
 store64(v6 + 2272, 0x1f83d9abfb41bd6b);
 store64(v6 + 2264, 0x1f83d9abfb41bd6b);
 store64(v6 + 2256, 0x1f83d9abfb41bd6b);
 store64(v6 + 2248, 0x9b05688c2b3e6c1f);
 store64(v6 + 2240, 0x9b05688c2b3e6c1f);
 store64(v6 + 2232, 0x9b05688c2b3e6c1f);
 store64(v6 + 2224, 0x9b05688c2b3e6c1f);
 store64(v6 + 2216, 0x510e527fade682d1);
 store64(v6 + 2208, 0x510e527fade682d1);
 store64(v6 + 2200, 0x510e527fade682d1);
 store64(v6 + 2192, 0x510e527fade682d1);
 store64(v6 + 2184, 0xa54ff53a5f1d36f1);
 store64(v6 + 2176, 0xa54ff53a5f1d36f1);
 store64(v6 + 2168, 0xa54ff53a5f1d36f1);
 store64(v6 + 2160, 0xa54ff53a5f1d36f1);
 store64(v6 + 2152, 0x3c6ef372fe94b82b);
 store64(v6 + 2144, 0x3c6ef372fe94b82b);
 store64(v6 + 2136, 0x3c6ef372fe94b82b);
 store64(v6 + 2128, 0x3c6ef372fe94b82b);
 store64(v6 + 2120, 0xbb67ae8584caa738);
 store64(v6 + 2112, 0xbb67ae8584caa739);
 store64(v6 + 2104, 0xbb67ae8584caa73a);
 store64(v6 + 2096, 0xbb67ae8584caa73b);
 store64(v6 + 2088, v5);
 store64(v6 + 2080, v5);
 store64(v6 + 2072, v5);
 store64(v6 + 2064, v5);
 copy(v6 + 2400, v6 + 2528, 128);
 v7 = 0xffffffff;
 if (v3 > (~v4)) goto l2;
 parallel_blake2bp_State_update(v6 + 896, v2, v3);
 fill(v6 + 3168, 0, 64);
 parallel_blake2bp_State_output(v6 + 3168, v6 + 896);
 v5 = load64(v6 + 2392);
 if (v5 == 0) goto l7;
 copy(v0, v6 + 3168, v5);
l7:;
 v7 = 0;
l2:;
 return v7;
}

SCRUB(digest_wiping_scrub_stack_8704, 10752)

/* rattle::export vulfsjor_ffi_blake2bp */
APART u32 exported_blake2bp(u64 v0, u64 v1, u64 v2, u64 v3, u64 v4, u64 v5) {
 u32 v7;
 v7 = ffi_blake2bp_write(v0 + (v0 == 0 ? UINT64_C(4096) : 0), v1, v2 + (v2 == 0 ? UINT64_C(4096) :
   0), v3, v4 + (v4 == 0 ? UINT64_C(4096) : 0), v5);
 if (v5 == 0) goto l2;
 digest_wiping_scrub_stack_8704();
l2:;
 return v7;
}

/* blake2_ffi::blake2bp::initialize */
APART u32 ffi_blake2bp_initialize(u64 v0, u64 v1, u64 v2, u64 v3, u64 v4, u64 v5, u64 v6, u64 v7) {
 u32 v10, v12;
 u64 v8, v11, v13, v14, v15, v16, v17, v18, v19;
 FRAME(310);
 v8 = top;
 v8 = (v8 - 2432) & 0xffffffffffffffe0;
 if ((v1 - 1) > 63) goto l2;
 if (v3 > 64) goto l2;
 if (v5 > 16) goto l2;
 if (v7 > 16) goto l2;
 fill(v8 + 1024, 0, 32);
 v10 = (u32)(v5 == 0);
 if (v10) goto l3;
 copy(v8 + 1024, v4, v5);
l3:;
 v11 = (v8 + 1024) | 16;
 v12 = (u32)(v7 == 0);
 if (v12) goto l4;
 copy(v11, v6, v7);
l4:;
 v13 = load64(v8 + 1048);
 v14 = load64(v8 + 1040);
 v15 = load64(v8 + 1032);
 v16 = load64(v8 + 1024);
 fill(v8 + 1024, 0, 32);
 if (v10) goto l5;
 copy(v8 + 1024, v4, v5);
l5:;
 if (v12) goto l6;
 copy(v11, v6, v7);
l6:;
 v11 = load64(v8 + 1048);
 v17 = load64(v8 + 1040);
 v18 = load64(v8 + 1032);
 v19 = load64(v8 + 1024);
 fill(v8 + 896, 0, 128);
 if (v3 == 0) goto l7;
 copy(v8 + 896, v2, v3);
l7:;
 if (v3 != 0) goto l9;
 fill(v8 + 1536, 0, 896);
 v2 = 0;
 goto l8;
l9:;
 copy(v8 + 1024, v8 + 896, 128);
 copy(v8 + 1024 + 128, v8 + 896, 128);
 copy(v8 + 1280, v8 + 896, 128);
 copy(v8 + 1024 + 384, v8 + 896, 128);
 v2 = 512;
 fill(v8 + 1536 + 512, 0, 384);
 copy(v8 + 1536, v8 + 1024, 512);
l8:;
 copy(v8, v8 + 1536, 896);
 store64(v0 + 264, v2);
 store64(v0 + 256, 0);
 v5 = v15 ^ 0x9b05688c2b3e6c1f;
 store64(v0 + 184, v5);
 store64(v0 + 176, v5);
 store64(v0 + 168, v5);
 store64(v0 + 160, v5);
 v7 = v16 ^ 0x510e527fade682d1;
 store64(v0 + 152, v7);
 store64(v0 + 144, v7);
 store64(v0 + 136, v7);
 store64(v0 + 128, v7);
 store64(v0 + 120, 0xa54ff53a5f1d36f1);
 store64(v0 + 112, 0xa54ff53a5f1d36f1);
 store64(v0 + 104, 0xa54ff53a5f1d36f1);
 store64(v0 + 96, 0xa54ff53a5f1d36f1);
 store64(v0 + 88, 0x3c6ef372fe94b82b);
 store64(v0 + 80, 0x3c6ef372fe94b82b);
 store64(v0 + 72, 0x3c6ef372fe94b82b);
 store64(v0 + 64, 0x3c6ef372fe94b82b);
 store64(v0 + 56, 0xbb67ae8584caa738);
 store64(v0 + 48, 0xbb67ae8584caa739);
 store64(v0 + 40, 0xbb67ae8584caa73a);
 store64(v0 + 32, 0xbb67ae8584caa73b);
 v6 = v14 ^ 0x1f83d9abfb41bd6b;
 store64(v0 + 216, v6);
 store64(v0 + 208, v6);
 store64(v0 + 200, v6);
 store64(v0 + 192, v6);
 v4 = v13 ^ 0x5be0cd19137e2179;
 store64(v0 + 248, v4);
 store64(v0 + 240, v4);
 store64(v0 + 232, v4);
 store64(v0 + 224, v4);
 v3 = (u64)(((u32)v3 << 8) | (u32)v1 | 0x2040000) ^ 0x6a09e667f3bcc908;
 store64(v0 + 24, v3);
 store64(v0 + 16, v3);
 store64(v0 + 8, v3);
 store64(v0, v3);
 copy(v0 + 272, v8, 896);
 store64(v0 + 1496, v1);
 store64(v0 + 1488, v2);
 store64(v0 + 1480, v11 ^ 0x5be0cd19137e2179);
 store64(v0 + 1472, v17 ^ 0x1f83d9abfb41bd6b);
 store64(v0 + 1464, v18 ^ 0x9b05688c2b3e6c1f);
 store64(v0 + 1456, v19 ^ 0x510e527fade682d1);
 store64(v0 + 1448, 0xa54ff53a5f1d36f1);
 store64(v0 + 1440, 0x3c6ef372fe94b82a);
 store64(v0 + 1432, 0xbb67ae8584caa73b);
 store64(v0 + 1424, v3);
 store64(v0 + 1416, v4);
 store64(v0 + 1408, v4);
 store64(v0 + 1400, v4);
 store64(v0 + 1392, v4);
 store64(v0 + 1384, v6);
 store64(v0 + 1376, v6);
 store64(v0 + 1368, v6);
 store64(v0 + 1360, v6);
 store64(v0 + 1352, v5);
 store64(v0 + 1344, v5);
 store64(v0 + 1336, v5);
 store64(v0 + 1328, v5);
 store64(v0 + 1320, v7);
 store64(v0 + 1312, v7);
 store64(v0 + 1304, v7);
 store64(v0 + 1296, v7);
 store64(v0 + 1288, 0xa54ff53a5f1d36f1);
 store64(v0 + 1280, 0xa54ff53a5f1d36f1);
 store64(v0 + 1272, 0xa54ff53a5f1d36f1);
 store64(v0 + 1264, 0xa54ff53a5f1d36f1);
 store64(v0 + 1256, 0x3c6ef372fe94b82b);
 store64(v0 + 1248, 0x3c6ef372fe94b82b);
 store64(v0 + 1240, 0x3c6ef372fe94b82b);
 store64(v0 + 1232, 0x3c6ef372fe94b82b);
 store64(v0 + 1224, 0xbb67ae8584caa738);
 store64(v0 + 1216, 0xbb67ae8584caa739);
 store64(v0 + 1208, 0xbb67ae8584caa73a);
 store64(v0 + 1200, 0xbb67ae8584caa73b);
 store64(v0 + 1192, v3);
 store64(v0 + 1184, v3);
 store64(v0 + 1176, v3);
 store64(v0 + 1168, v3);
 copy(v0 + 1504, v8 + 896, 128);
 return 0;
l2:;
 fill(v0, 0, 1632);
 return 0xffffffff;
}

SCRUB(digest_wiping_scrub_stack_5120, 7168)

/* rattle::export vulfsjor_ffi_blake2bp_init_salt_personal */
APART u32 exported_blake2bp_init_salt_personal(u64 v0, u64 v1, u64 v2, u64 v3, u64 v4, u64 v5, u64
        v6, u64 v7) {
 u32 v9;
 v9 = ffi_blake2bp_initialize(v0, v1, v2 + (v2 == 0 ? UINT64_C(4096) : 0), v3, v4 + (v4 == 0 ?
   UINT64_C(4096) : 0), v5, v6 + (v6 == 0 ? UINT64_C(4096) : 0), v7);
 if (v3 == 0) goto l2;
 digest_wiping_scrub_stack_5120();
l2:;
 return v9;
}

/* rattle::export vulfsjor_ffi_blake2bp_init_key */
APART u32 exported_blake2bp_init_key(u64 v0, u64 v1, u64 v2, u64 v3) {
 u32 v5;
 if (v3 != 0) goto l1;
 fill(v0, 0, 1632);
 return 0xffffffff;
l1:;
 v5 = ffi_blake2bp_initialize(v0, v1, v2 + (v2 == 0 ? UINT64_C(4096) : 0), v3, 0x100000, 0,
   0x100000, 0);
 digest_wiping_scrub_stack_5120();
 return v5;
}

/* blake2_ffi::blake2bp::update_in_frame */
APART void ffi_blake2bp_update_in_frame(u64 v0, u64 v1, u64 v2) {
 parallel_blake2bp_State_update(v0, v1, v2);
 return;
}

SCRUB(digest_wiping_scrub_stack_3072, 5120)

/* blake2_ffi::blake2bp::update_scrubbed */
APART void ffi_blake2bp_update_scrubbed(u64 v0, u64 v1, u64 v2) {
 ffi_blake2bp_update_in_frame(v0, v1, v2);
 digest_wiping_scrub_stack_3072();
 return;
}

/* rattle::export vulfsjor_ffi_blake2bp_update */
APART u32 exported_blake2bp_update(u64 v0, u64 v1, u64 v2) {
 u32 v4;
 u64 v5, v6, v7;
 v4 = 0xffffffff;
 if ((load64(v0 + 1496) - 1) > 63) goto l1;
 v5 = load64(v0 + 264);
 if (v5 > 896) goto l1;
 v6 = load64(v0 + 256);
 if (v6 > ((~v5) >> 2)) goto l1;
 v7 = load64(v0 + 1488);
 if (v7 > 512) goto l1;
 if (v2 > (~((v6 << 2) + v5))) goto l1;
 v1 += (v1 == 0 ? UINT64_C(4096) : 0);
 if (v6 != 0) goto l3;
 if (v7 == 0) goto l3;
 ffi_blake2bp_update_scrubbed(v0, v1, v2);
 goto l2;
l3:;
 parallel_blake2bp_State_update(v0, v1, v2);
l2:;
 v4 = 0;
l1:;
 return v4;
}

/* blake2_ffi::blake2bp::finalize */
APART void ffi_blake2bp_finalize(u64 v0, u64 v1) {
 u64 v2, v3;
 FRAME(10);
 v2 = top - 64;
 fill(v2, 0, 64);
 parallel_blake2bp_State_output(v2, v0);
 v3 = load64(v0 + 1496);
 if (v3 == 0) goto l2;
 copy(v1, v2, v3);
l2:;
 fill(v0, 0, 1632);
 return;
}

/* rattle::export vulfsjor_ffi_blake2bp_final */
APART u32 exported_blake2bp_final(u64 v0, u64 v1, u64 v2) {
 u32 v4;
 u64 v5, v6, v7;
 v4 = 0xffffffff;
 v5 = load64(v0 + 1496);
 if ((v5 - 1) > 63) goto l2;
 v6 = load64(v0 + 264);
 if (v6 > 896) goto l2;
 v7 = load64(v0 + 256);
 if (v7 > ((~v6) >> 2)) goto l2;
 if (v2 != v5) goto l2;
 v2 = load64(v0 + 1488);
 if (v2 > 512) goto l2;
 v1 += (v1 == 0 ? UINT64_C(4096) : 0);
 if (v7 == 0) goto l3;
 ffi_blake2bp_finalize(v0, v1);
 return 0;
l3:;
 ffi_blake2bp_finalize(v0, v1);
 v4 = 0;
 if (v2 == 0) goto l2;
 digest_wiping_scrub_stack_5632();
l2:;
 return v4;
}

/* blake2_ffi::blake2bp::is_digest_of */
APART u32 ffi_blake2bp_is_digest_of(u64 v0, u64 v1, u64 v2) {
 u32 v5;
 u64 v3, v4, v6, v7;
 FRAME(10);
 v3 = top - 64;
 v4 = v3;
 fill(v4, 0, 64);
 parallel_blake2bp_State_output(v4, v0);
 if (v2 == load64(v0 + 1496)) goto l3;
 v5 = 0;
 goto l2;
l3:;
 if (!(v2 == 0)) goto l4;
 v5 = 1;
 goto l2;
l4:;
 v6 = v2 & 3;
 if (v2 >= 4) goto l7;
 v0 = 0;
 v5 = 0;
 goto l6;
l7:;
 v7 = v2 & 0xfffffffffffffffc;
 v0 = 0;
 v5 = 0;
l8:;
 v2 = v4 + v0;
 v3 = v1 + v0;
 v5 = (load8(v2 + 3) ^ load8(v3 + 3)) | ((load8(v2 + 2) ^ load8(v3 + 2)) | ((load8(v2 + 1) ^
   load8(v3 + 1)) | ((load8(v2) ^ load8(v3)) | v5)));
 v0 += 4;
 if (v7 != v0) goto l8;
 if (v6 == 0) goto l5;
l6:;
 v2 = v1 + v0;
 v0 += v4;
l9:;
 v5 |= (load8(v0) ^ load8(v2));
 v2 += 1;
 v0 += 1;
 v6 -= 1;
 if (v6 != 0) goto l9;
l5:;
 v5 = (u32)((v5 & 255) == 0);
l2:;
 return v5;
}

/* rattle::export vulfsjor_ffi_blake2bp_verify */
APART u32 exported_blake2bp_verify(u64 v0, u64 v1, u64 v2) {
 u32 v4;
 u64 v5, v6;
 v4 = 0xffffffff;
 if ((load64(v0 + 1496) - 1) > 63) goto l2;
 v5 = load64(v0 + 264);
 if (v5 > 896) goto l2;
 v6 = load64(v0 + 256);
 if (v6 > ((~v5) >> 2)) goto l2;
 if ((load64(v0 + 1488) - 513) < 0xfffffffffffffe00) goto l2;
 v4 = ffi_blake2bp_is_digest_of(v0, v1 + (v1 == 0 ? UINT64_C(4096) : 0), v2);
 fill(v0, 0, 1632);
 if (v6 != 0) goto l3;
 digest_wiping_scrub_stack_5632();
l3:;
 v4 -= 1;
l2:;
 return v4;
}

/* blake2_ffi::blake2bp::reset_in_frame */
APART void ffi_blake2bp_reset_in_frame(u64 v0) {
 u64 v1, v2, v3, v4;
 FRAME(210);
 v1 = top - 1664;
 v2 = v0 + 1168;
 v3 = load64(v0 + 1488);
 if (v3 != 0) goto l3;
 copy(v1, v2, 256);
 fill(v1 + 768, 0, 896);
 goto l2;
l3:;
 v4 = v0 + 1504;
 copy(v1 + 256, v4, 128);
 copy(v1 + 256 + 128, v4, 128);
 copy(v1 + 256 + 256, v4, 128);
 copy(v1 + 256 + 384, v4, 128);
 fill(v1 + 768 + 512, 0, 384);
 copy(v1 + 768, v1 + 256, 512);
 copy(v1, v2, 256);
l2:;
 copy(v0, v1, 256);
 store64(v0 + 264, v3);
 store64(v0 + 256, 0);
 copy(v0 + 272, v1 + 768, 896);
 return;
}

SCRUB(digest_wiping_scrub_stack_1792, 3840)

/* rattle::export vulfsjor_ffi_blake2bp_reset */
APART u32 exported_blake2bp_reset(u64 v0) {
 u32 v2;
 u64 v3;
 v2 = 0xffffffff;
 if ((load64(v0 + 1496) - 1) > 63) goto l2;
 v3 = load64(v0 + 264);
 if (v3 > 896) goto l2;
 if (load64(v0 + 256) > ((~v3) >> 2)) goto l2;
 v3 = load64(v0 + 1488);
 if (v3 > 512) goto l2;
 ffi_blake2bp_reset_in_frame(v0);
 v2 = 0;
 if (v3 == 0) goto l2;
 digest_wiping_scrub_stack_1792();
l2:;
 return v2;
}

/* rattle::export vulfsjor_ffi_blake2bp_wipe */
APART void exported_blake2bp_wipe(u64 v0) {
 fill(v0, 0, 1632);
}

/* rattle::export vulfsjor_ffi_blake2bp_digest_size */
APART u64 exported_blake2bp_digest_size(u64 v0) {
 u64 v1, v2, v3;
 v1 = 0;
 v2 = load64(v0 + 1496);
 if ((v2 - 1) > 63) goto l2;
 v3 = load64(v0 + 264);
 if (v3 > 896) goto l2;
 if (load64(v0 + 256) > ((~v3) >> 2)) goto l2;
 v1 = load64(v0 + 1488) < 513 ? v2 : 0;
l2:;
 return v1;
}

/* rattle::export vulfsjor_ffi_blake2bp_count */
APART u64 exported_blake2bp_count(u64 v0) {
 u64 v1, v2, v3;
 v1 = 0;
 if ((load64(v0 + 1496) - 1) > 63) goto l2;
 v2 = load64(v0 + 264);
 if (v2 > 896) goto l2;
 v3 = load64(v0 + 256);
 if (v3 > ((~v2) >> 2)) goto l2;
 v0 = load64(v0 + 1488);
 if (v0 > 512) goto l2;
 v1 = (v3 << 2) + v2;
 v0 = v1 - v0;
 v1 = v0 > v1 ? 0 : v0;
l2:;
 return v1;
}

/* rattle::export vulfsjor_ffi_blake2bp_state_size */
APART void exported_blake2bp_state_size(void) {

}

/* vulfsjor_ffi_blake2bp_state_size */
APART u64 module_blake2bp_state_size(void) {
 exported_blake2bp_state_size();
 return 1632;
}

/* blake2_parallel::lanes::blake2sp::compress_one_by_one */
APART void parallel_lanes_blake2sp_compress_one_by_one(u64 v0, u64 v1, u64 v2, u64 v3) {
 u32 v5, v6, v7, v8, v9, v10, v11, v12, v13, v14, v15, v16, v17, v18, v19, v20, v21, v22, v23, v24,
   v25, v26, v27, v28, v29, v30, v31, v32, v33, v34, v35, v36, v37, v38, v39, v40, v41, v42, v43,
   v44, v45, v46, v47, v48, v49, v50, v51, v52, v53, v54, v55, v56, v57, v58, v59, v60, v61, v62,
   v65, v66, v67, v68, v69, v70, v71, v72;
 u64 v4, v63, v64;
 FRAME(6);
 v4 = top - 32;
 v5 = load32(v0 + 28);
 v6 = load32(v0 + 60);
 v7 = load32(v0 + 92);
 v8 = load32(v0 + 124);
 v9 = load32(v0 + 156);
 v10 = load32(v0 + 188);
 v11 = load32(v0 + 220);
 v12 = load32(v0 + 252);
 v13 = load32(v0 + 24);
 v14 = load32(v0 + 56);
 v15 = load32(v0 + 88);
 v16 = load32(v0 + 120);
 v17 = load32(v0 + 152);
 v18 = load32(v0 + 184);
 v19 = load32(v0 + 216);
 v20 = load32(v0 + 248);
 v21 = load32(v0 + 20);
 v22 = load32(v0 + 52);
 v23 = load32(v0 + 84);
 v24 = load32(v0 + 116);
 v25 = load32(v0 + 148);
 v26 = load32(v0 + 180);
 v27 = load32(v0 + 212);
 v28 = load32(v0 + 244);
 v29 = load32(v0 + 16);
 v30 = load32(v0 + 48);
 v31 = load32(v0 + 80);
 v32 = load32(v0 + 112);
 v33 = load32(v0 + 144);
 v34 = load32(v0 + 176);
 v35 = load32(v0 + 208);
 v36 = load32(v0 + 240);
 v37 = load32(v0 + 12);
 v38 = load32(v0 + 44);
 v39 = load32(v0 + 76);
 v40 = load32(v0 + 108);
 v41 = load32(v0 + 140);
 v42 = load32(v0 + 172);
 v43 = load32(v0 + 204);
 v44 = load32(v0 + 236);
 v45 = load32(v0 + 8);
 v46 = load32(v0 + 40);
 v47 = load32(v0 + 72);
 v48 = load32(v0 + 104);
 v49 = load32(v0 + 136);
 v50 = load32(v0 + 168);
 v51 = load32(v0 + 200);
 v52 = load32(v0 + 232);
 v53 = load32(v0 + 4);
 v54 = load32(v0 + 36);
 v55 = load32(v0 + 68);
 v56 = load32(v0 + 100);
 v57 = load32(v0 + 132);
 v58 = load32(v0 + 164);
 v59 = load32(v0 + 196);
 v60 = load32(v0 + 228);
 v61 = load8(v3 + 1);
 v62 = load8(v3);
 v63 = load64(v2);
 v64 = load64(v1);
 v65 = load32(v0);
 v66 = load32(v0 + 32);
 v67 = load32(v0 + 64);
 v68 = load32(v0 + 96);
 v69 = load32(v0 + 128);
 v70 = load32(v0 + 160);
 v71 = load32(v0 + 192);
 store32(v4 + 28, load32(v0 + 224));
 store32(v4 + 24, v71);
 store32(v4 + 20, v70);
 store32(v4 + 16, v69);
 store32(v4 + 12, v68);
 store32(v4 + 8, v67);
 store32(v4 + 4, v66);
 store32(v4, v65);
 compress_compress_blake2s_compress(v4, v64, v63, v62, v61);
 v61 = load32(v4);
 v62 = load32(v4 + 4);
 v65 = load32(v4 + 8);
 v66 = load32(v4 + 12);
 v67 = load32(v4 + 16);
 v68 = load32(v4 + 20);
 v69 = load32(v4 + 24);
 v70 = load32(v4 + 28);
 v71 = load8(v3 + 3);
 v72 = load8(v3 + 2);
 v63 = load64(v2 + 8);
 v64 = load64(v1 + 8);
 store32(v4 + 28, v60);
 store32(v4 + 24, v59);
 store32(v4 + 20, v58);
 store32(v4 + 16, v57);
 store32(v4 + 12, v56);
 store32(v4 + 8, v55);
 store32(v4 + 4, v54);
 store32(v4, v53);
 compress_compress_blake2s_compress(v4, v64, v63, v72, v71);
 v53 = load32(v4);
 v54 = load32(v4 + 4);
 v55 = load32(v4 + 8);
 v56 = load32(v4 + 12);
 v57 = load32(v4 + 16);
 v58 = load32(v4 + 20);
 v59 = load32(v4 + 24);
 v60 = load32(v4 + 28);
 v71 = load8(v3 + 5);
 v72 = load8(v3 + 4);
 v63 = load64(v2 + 16);
 v64 = load64(v1 + 16);
 store32(v4 + 28, v52);
 store32(v4 + 24, v51);
 store32(v4 + 20, v50);
 store32(v4 + 16, v49);
 store32(v4 + 12, v48);
 store32(v4 + 8, v47);
 store32(v4 + 4, v46);
 store32(v4, v45);
 compress_compress_blake2s_compress(v4, v64, v63, v72, v71);
 v45 = load32(v4);
 v46 = load32(v4 + 4);
 v47 = load32(v4 + 8);
 v48 = load32(v4 + 12);
 v49 = load32(v4 + 16);
 v50 = load32(v4 + 20);
 v51 = load32(v4 + 24);
 v52 = load32(v4 + 28);
 v71 = load8(v3 + 7);
 v72 = load8(v3 + 6);
 v63 = load64(v2 + 24);
 v64 = load64(v1 + 24);
 store32(v4 + 28, v44);
 store32(v4 + 24, v43);
 store32(v4 + 20, v42);
 store32(v4 + 16, v41);
 store32(v4 + 12, v40);
 store32(v4 + 8, v39);
 store32(v4 + 4, v38);
 store32(v4, v37);
 compress_compress_blake2s_compress(v4, v64, v63, v72, v71);
 v37 = load32(v4);
 v38 = load32(v4 + 4);
 v39 = load32(v4 + 8);
 v40 = load32(v4 + 12);
 v41 = load32(v4 + 16);
 v42 = load32(v4 + 20);
 v43 = load32(v4 + 24);
 v44 = load32(v4 + 28);
 v71 = load8(v3 + 9);
 v72 = load8(v3 + 8);
 v63 = load64(v2 + 32);
 v64 = load64(v1 + 32);
 store32(v4 + 28, v36);
 store32(v4 + 24, v35);
 store32(v4 + 20, v34);
 store32(v4 + 16, v33);
 store32(v4 + 12, v32);
 store32(v4 + 8, v31);
 store32(v4 + 4, v30);
 store32(v4, v29);
 compress_compress_blake2s_compress(v4, v64, v63, v72, v71);
 v29 = load32(v4);
 v30 = load32(v4 + 4);
 v31 = load32(v4 + 8);
 v32 = load32(v4 + 12);
 v33 = load32(v4 + 16);
 v34 = load32(v4 + 20);
 v35 = load32(v4 + 24);
 v36 = load32(v4 + 28);
 v71 = load8(v3 + 11);
 v72 = load8(v3 + 10);
 v63 = load64(v2 + 40);
 v64 = load64(v1 + 40);
 store32(v4 + 28, v28);
 store32(v4 + 24, v27);
 store32(v4 + 20, v26);
 store32(v4 + 16, v25);
 store32(v4 + 12, v24);
 store32(v4 + 8, v23);
 store32(v4 + 4, v22);
 store32(v4, v21);
 compress_compress_blake2s_compress(v4, v64, v63, v72, v71);
 v21 = load32(v4);
 v22 = load32(v4 + 4);
 v23 = load32(v4 + 8);
 v24 = load32(v4 + 12);
 v25 = load32(v4 + 16);
 v26 = load32(v4 + 20);
 v27 = load32(v4 + 24);
 v28 = load32(v4 + 28);
 v71 = load8(v3 + 13);
 v72 = load8(v3 + 12);
 v63 = load64(v2 + 48);
 v64 = load64(v1 + 48);
 store32(v4 + 28, v20);
 store32(v4 + 24, v19);
 store32(v4 + 20, v18);
 store32(v4 + 16, v17);
 store32(v4 + 12, v16);
 store32(v4 + 8, v15);
 store32(v4 + 4, v14);
 store32(v4, v13);
 compress_compress_blake2s_compress(v4, v64, v63, v72, v71);
 v13 = load32(v4);
 v14 = load32(v4 + 4);
 v15 = load32(v4 + 8);
 v16 = load32(v4 + 12);
 v17 = load32(v4 + 16);
 v18 = load32(v4 + 20);
 v19 = load32(v4 + 24);
 v20 = load32(v4 + 28);
 v71 = load8(v3 + 15);
 v72 = load8(v3 + 14);
 v3 = load64(v2 + 56);
 v2 = load64(v1 + 56);
 store32(v4 + 28, v12);
 store32(v4 + 24, v11);
 store32(v4 + 20, v10);
 store32(v4 + 16, v9);
 store32(v4 + 12, v8);
 store32(v4 + 8, v7);
 store32(v4 + 4, v6);
 store32(v4, v5);
 compress_compress_blake2s_compress(v4, v2, v3, v72, v71);
 v5 = load32(v4);
 v6 = load32(v4 + 4);
 v7 = load32(v4 + 8);
 v8 = load32(v4 + 12);
 v9 = load32(v4 + 16);
 v10 = load32(v4 + 20);
 v11 = load32(v4 + 24);
 store32(v0 + 252, load32(v4 + 28));
 store32(v0 + 248, v20);
 store32(v0 + 244, v28);
 store32(v0 + 240, v36);
 store32(v0 + 236, v44);
 store32(v0 + 232, v52);
 store32(v0 + 228, v60);
 store32(v0 + 224, v70);
 store32(v0 + 220, v11);
 store32(v0 + 216, v19);
 store32(v0 + 212, v27);
 store32(v0 + 208, v35);
 store32(v0 + 204, v43);
 store32(v0 + 200, v51);
 store32(v0 + 196, v59);
 store32(v0 + 192, v69);
 store32(v0 + 188, v10);
 store32(v0 + 184, v18);
 store32(v0 + 180, v26);
 store32(v0 + 176, v34);
 store32(v0 + 172, v42);
 store32(v0 + 168, v50);
 store32(v0 + 164, v58);
 store32(v0 + 160, v68);
 store32(v0 + 156, v9);
 store32(v0 + 152, v17);
 store32(v0 + 148, v25);
 store32(v0 + 144, v33);
 store32(v0 + 140, v41);
 store32(v0 + 136, v49);
 store32(v0 + 132, v57);
 store32(v0 + 128, v67);
 store32(v0 + 124, v8);
 store32(v0 + 120, v16);
 store32(v0 + 116, v24);
 store32(v0 + 112, v32);
 store32(v0 + 108, v40);
 store32(v0 + 104, v48);
 store32(v0 + 100, v56);
 store32(v0 + 96, v66);
 store32(v0 + 92, v7);
 store32(v0 + 88, v15);
 store32(v0 + 84, v23);
 store32(v0 + 80, v31);
 store32(v0 + 76, v39);
 store32(v0 + 72, v47);
 store32(v0 + 68, v55);
 store32(v0 + 64, v65);
 store32(v0 + 60, v6);
 store32(v0 + 56, v14);
 store32(v0 + 52, v22);
 store32(v0 + 48, v30);
 store32(v0 + 44, v38);
 store32(v0 + 40, v46);
 store32(v0 + 36, v54);
 store32(v0 + 32, v62);
 store32(v0 + 28, v5);
 store32(v0 + 24, v13);
 store32(v0 + 20, v21);
 store32(v0 + 16, v29);
 store32(v0 + 12, v37);
 store32(v0 + 8, v45);
 store32(v0 + 4, v53);
 store32(v0, v61);
 return;
}

/* blake2_parallel::lanes::blake2sp::compress_short */
APART void parallel_lanes_blake2sp_compress_short(u64 v0, u64 v1, u64 v2, u64 v3, u64 v4) {
 u64 v5;
 FRAME(202);
 v5 = top - 1600;
 if (v2 != 512) goto l3;
 v2 = v3 + 64;
 store64(v5 + 1080, v2);
 store64(v5 + 1072, v2);
 store64(v5 + 1064, v2);
 store64(v5 + 1056, v2);
 store64(v5 + 1048, v2);
 store64(v5 + 1040, v2);
 store64(v5 + 1032, v2);
 store64(v5 + 1024, v2);
 store64(v5 + 1088, v1);
 store64(v5 + 1144, v1 + 448);
 store64(v5 + 1136, v1 + 384);
 store64(v5 + 1128, v1 + 320);
 store64(v5 + 1120, v1 + 256);
 store64(v5 + 1112, v1 + 192);
 store64(v5 + 1104, v1 + 128);
 store64(v5 + 1096, v1 + 64);
 parallel_lanes_blake2sp_compress_one_by_one(v0, v5 + 1088, v5 + 1024, v4);
 goto l2;
l3:;
 fill(v5 + 1088, 0, 512);
 if (v2 == 0) goto l4;
 copy(v5 + 1088, v1, v2);
l4:;
 copy(v5, v5 + 1088, 512);
 copy(v5 + 512, v5, 512);
 store64(v5 + 1144, v5 + 960);
 store64(v5 + 1136, v5 + 896);
 store64(v5 + 1128, v5 + 832);
 store64(v5 + 1120, v5 + 768);
 store64(v5 + 1112, v5 + 704);
 store64(v5 + 1104, v5 + 640);
 store64(v5 + 1096, v5 + 512 + 64);
 v1 = v2 - 448;
 v1 = v1 > v2 ? 0 : v1;
 store64(v5 + 1080, (v1 < 64 ? v1 : 64) + v3);
 v1 = v2 - 384;
 v1 = v1 > v2 ? 0 : v1;
 store64(v5 + 1072, (v1 < 64 ? v1 : 64) + v3);
 v1 = v2 - 320;
 v1 = v1 > v2 ? 0 : v1;
 store64(v5 + 1064, (v1 < 64 ? v1 : 64) + v3);
 v1 = v2 - 256;
 v1 = v1 > v2 ? 0 : v1;
 store64(v5 + 1056, (v1 < 64 ? v1 : 64) + v3);
 v1 = v2 - 192;
 v1 = v1 > v2 ? 0 : v1;
 store64(v5 + 1048, (v1 < 64 ? v1 : 64) + v3);
 v1 = v2 - 128;
 v1 = v1 > v2 ? 0 : v1;
 store64(v5 + 1040, (v1 < 64 ? v1 : 64) + v3);
 v1 = v2 - 64;
 v1 = v1 > v2 ? 0 : v1;
 store64(v5 + 1032, (v1 < 64 ? v1 : 64) + v3);
 store64(v5 + 1024, v3 + (v2 < 64 ? v2 : 64));
 store64(v5 + 1088, v5 + 512);
 parallel_lanes_blake2sp_compress_one_by_one(v0, v5 + 1088, v5 + 1024, v4);
l2:;
 return;
}

/* blake2_parallel::lanes::blake2sp::outputs_of */
APART void parallel_lanes_blake2sp_outputs_of(u64 v0, u64 v1) {
 u32 v2, v3, v4, v5, v6, v7, v8, v9, v10, v11, v12, v13, v14, v15, v16, v17, v18, v19, v20, v21,
   v22, v23, v24, v25, v26, v27, v28, v29, v30, v31, v32, v33, v34, v35, v36, v37, v38, v39, v40,
   v41, v42, v43, v44, v45, v46, v47, v48, v49, v50, v51, v52, v53, v54, v55, v56, v57, v58, v59,
   v60, v61, v62, v63, v64, v65;
 v2 = load32(v1);
 v3 = load32(v1 + 32);
 v4 = load32(v1 + 64);
 v5 = load32(v1 + 96);
 v6 = load32(v1 + 128);
 v7 = load32(v1 + 160);
 v8 = load32(v1 + 192);
 v9 = load32(v1 + 224);
 v10 = load32(v1 + 4);
 v11 = load32(v1 + 36);
 v12 = load32(v1 + 68);
 v13 = load32(v1 + 100);
 v14 = load32(v1 + 132);
 v15 = load32(v1 + 164);
 v16 = load32(v1 + 196);
 v17 = load32(v1 + 228);
 v18 = load32(v1 + 8);
 v19 = load32(v1 + 40);
 v20 = load32(v1 + 72);
 v21 = load32(v1 + 104);
 v22 = load32(v1 + 136);
 v23 = load32(v1 + 168);
 v24 = load32(v1 + 200);
 v25 = load32(v1 + 232);
 v26 = load32(v1 + 12);
 v27 = load32(v1 + 44);
 v28 = load32(v1 + 76);
 v29 = load32(v1 + 108);
 v30 = load32(v1 + 140);
 v31 = load32(v1 + 172);
 v32 = load32(v1 + 204);
 v33 = load32(v1 + 236);
 v34 = load32(v1 + 16);
 v35 = load32(v1 + 48);
 v36 = load32(v1 + 80);
 v37 = load32(v1 + 112);
 v38 = load32(v1 + 144);
 v39 = load32(v1 + 176);
 v40 = load32(v1 + 208);
 v41 = load32(v1 + 240);
 v42 = load32(v1 + 20);
 v43 = load32(v1 + 52);
 v44 = load32(v1 + 84);
 v45 = load32(v1 + 116);
 v46 = load32(v1 + 148);
 v47 = load32(v1 + 180);
 v48 = load32(v1 + 212);
 v49 = load32(v1 + 244);
 v50 = load32(v1 + 24);
 v51 = load32(v1 + 56);
 v52 = load32(v1 + 88);
 v53 = load32(v1 + 120);
 v54 = load32(v1 + 152);
 v55 = load32(v1 + 184);
 v56 = load32(v1 + 216);
 v57 = load32(v1 + 248);
 v58 = load32(v1 + 28);
 v59 = load32(v1 + 60);
 v60 = load32(v1 + 92);
 v61 = load32(v1 + 124);
 v62 = load32(v1 + 156);
 v63 = load32(v1 + 188);
 v64 = load32(v1 + 220);
 v65 = load32(v1 + 252);
 store8(v0 + 252, v65);
 store8(v0 + 248, v64);
 store8(v0 + 244, v63);
 store8(v0 + 240, v62);
 store8(v0 + 236, v61);
 store8(v0 + 232, v60);
 store8(v0 + 228, v59);
 store8(v0 + 224, v58);
 store8(v0 + 220, v57);
 store8(v0 + 216, v56);
 store8(v0 + 212, v55);
 store8(v0 + 208, v54);
 store8(v0 + 204, v53);
 store8(v0 + 200, v52);
 store8(v0 + 196, v51);
 store8(v0 + 192, v50);
 store8(v0 + 188, v49);
 store8(v0 + 184, v48);
 store8(v0 + 180, v47);
 store8(v0 + 176, v46);
 store8(v0 + 172, v45);
 store8(v0 + 168, v44);
 store8(v0 + 164, v43);
 store8(v0 + 160, v42);
 store8(v0 + 156, v41);
 store8(v0 + 152, v40);
 store8(v0 + 148, v39);
 store8(v0 + 144, v38);
 store8(v0 + 140, v37);
 store8(v0 + 136, v36);
 store8(v0 + 132, v35);
 store8(v0 + 128, v34);
 store8(v0 + 124, v33);
 store8(v0 + 120, v32);
 store8(v0 + 116, v31);
 store8(v0 + 112, v30);
 store8(v0 + 108, v29);
 store8(v0 + 104, v28);
 store8(v0 + 100, v27);
 store8(v0 + 96, v26);
 store8(v0 + 92, v25);
 store8(v0 + 88, v24);
 store8(v0 + 84, v23);
 store8(v0 + 80, v22);
 store8(v0 + 76, v21);
 store8(v0 + 72, v20);
 store8(v0 + 68, v19);
 store8(v0 + 64, v18);
 store8(v0 + 60, v17);
 store8(v0 + 56, v16);
 store8(v0 + 52, v15);
 store8(v0 + 48, v14);
 store8(v0 + 44, v13);
 store8(v0 + 40, v12);
 store8(v0 + 36, v11);
 store8(v0 + 32, v10);
 store8(v0 + 28, v9);
 store8(v0 + 24, v8);
 store8(v0 + 20, v7);
 store8(v0 + 16, v6);
 store8(v0 + 12, v5);
 store8(v0 + 8, v4);
 store8(v0 + 4, v3);
 store8(v0, v2);
 store8(v0 + 255, v65 >> 24);
 store8(v0 + 254, v65 >> 16);
 store8(v0 + 253, v65 >> 8);
 store8(v0 + 251, v64 >> 24);
 store8(v0 + 250, v64 >> 16);
 store8(v0 + 249, v64 >> 8);
 store8(v0 + 247, v63 >> 24);
 store8(v0 + 246, v63 >> 16);
 store8(v0 + 245, v63 >> 8);
 store8(v0 + 243, v62 >> 24);
 store8(v0 + 242, v62 >> 16);
 store8(v0 + 241, v62 >> 8);
 store8(v0 + 239, v61 >> 24);
 store8(v0 + 238, v61 >> 16);
 store8(v0 + 237, v61 >> 8);
 store8(v0 + 235, v60 >> 24);
 store8(v0 + 234, v60 >> 16);
 store8(v0 + 233, v60 >> 8);
 store8(v0 + 231, v59 >> 24);
 store8(v0 + 230, v59 >> 16);
 store8(v0 + 229, v59 >> 8);
 store8(v0 + 227, v58 >> 24);
 store8(v0 + 226, v58 >> 16);
 store8(v0 + 225, v58 >> 8);
 store8(v0 + 223, v57 >> 24);
 store8(v0 + 222, v57 >> 16);
 store8(v0 + 221, v57 >> 8);
 store8(v0 + 219, v56 >> 24);
 store8(v0 + 218, v56 >> 16);
 store8(v0 + 217, v56 >> 8);
 store8(v0 + 215, v55 >> 24);
 store8(v0 + 214, v55 >> 16);
 store8(v0 + 213, v55 >> 8);
 store8(v0 + 211, v54 >> 24);
 store8(v0 + 210, v54 >> 16);
 store8(v0 + 209, v54 >> 8);
 store8(v0 + 207, v53 >> 24);
 store8(v0 + 206, v53 >> 16);
 store8(v0 + 205, v53 >> 8);
 store8(v0 + 203, v52 >> 24);
 store8(v0 + 202, v52 >> 16);
 store8(v0 + 201, v52 >> 8);
 store8(v0 + 199, v51 >> 24);
 store8(v0 + 198, v51 >> 16);
 store8(v0 + 197, v51 >> 8);
 store8(v0 + 195, v50 >> 24);
 store8(v0 + 194, v50 >> 16);
 store8(v0 + 193, v50 >> 8);
 store8(v0 + 191, v49 >> 24);
 store8(v0 + 190, v49 >> 16);
 store8(v0 + 189, v49 >> 8);
 store8(v0 + 187, v48 >> 24);
 store8(v0 + 186, v48 >> 16);
 store8(v0 + 185, v48 >> 8);
 store8(v0 + 183, v47 >> 24);
 store8(v0 + 182, v47 >> 16);
 store8(v0 + 181, v47 >> 8);
 store8(v0 + 179, v46 >> 24);
 store8(v0 + 178, v46 >> 16);
 store8(v0 + 177, v46 >> 8);
 store8(v0 + 175, v45 >> 24);
 store8(v0 + 174, v45 >> 16);
 store8(v0 + 173, v45 >> 8);
 store8(v0 + 171, v44 >> 24);
 store8(v0 + 170, v44 >> 16);
 store8(v0 + 169, v44 >> 8);
 store8(v0 + 167, v43 >> 24);
 store8(v0 + 166, v43 >> 16);
 store8(v0 + 165, v43 >> 8);
 store8(v0 + 163, v42 >> 24);
 store8(v0 + 162, v42 >> 16);
 store8(v0 + 161, v42 >> 8);
 store8(v0 + 159, v41 >> 24);
 store8(v0 + 158, v41 >> 16);
 store8(v0 + 157, v41 >> 8);
 store8(v0 + 155, v40 >> 24);
 store8(v0 + 154, v40 >> 16);
 store8(v0 + 153, v40 >> 8);
 store8(v0 + 151, v39 >> 24);
 store8(v0 + 150, v39 >> 16);
 store8(v0 + 149, v39 >> 8);
 store8(v0 + 147, v38 >> 24);
 store8(v0 + 146, v38 >> 16);
 store8(v0 + 145, v38 >> 8);
 store8(v0 + 143, v37 >> 24);
 store8(v0 + 142, v37 >> 16);
 store8(v0 + 141, v37 >> 8);
 store8(v0 + 139, v36 >> 24);
 store8(v0 + 138, v36 >> 16);
 store8(v0 + 137, v36 >> 8);
 store8(v0 + 135, v35 >> 24);
 store8(v0 + 134, v35 >> 16);
 store8(v0 + 133, v35 >> 8);
 store8(v0 + 131, v34 >> 24);
 store8(v0 + 130, v34 >> 16);
 store8(v0 + 129, v34 >> 8);
 store8(v0 + 127, v33 >> 24);
 store8(v0 + 126, v33 >> 16);
 store8(v0 + 125, v33 >> 8);
 store8(v0 + 123, v32 >> 24);
 store8(v0 + 122, v32 >> 16);
 store8(v0 + 121, v32 >> 8);
 store8(v0 + 119, v31 >> 24);
 store8(v0 + 118, v31 >> 16);
 store8(v0 + 117, v31 >> 8);
 store8(v0 + 115, v30 >> 24);
 store8(v0 + 114, v30 >> 16);
 store8(v0 + 113, v30 >> 8);
 store8(v0 + 111, v29 >> 24);
 store8(v0 + 110, v29 >> 16);
 store8(v0 + 109, v29 >> 8);
 store8(v0 + 107, v28 >> 24);
 store8(v0 + 106, v28 >> 16);
 store8(v0 + 105, v28 >> 8);
 store8(v0 + 103, v27 >> 24);
 store8(v0 + 102, v27 >> 16);
 store8(v0 + 101, v27 >> 8);
 store8(v0 + 99, v26 >> 24);
 store8(v0 + 98, v26 >> 16);
 store8(v0 + 97, v26 >> 8);
 store8(v0 + 95, v25 >> 24);
 store8(v0 + 94, v25 >> 16);
 store8(v0 + 93, v25 >> 8);
 store8(v0 + 91, v24 >> 24);
 store8(v0 + 90, v24 >> 16);
 store8(v0 + 89, v24 >> 8);
 store8(v0 + 87, v23 >> 24);
 store8(v0 + 86, v23 >> 16);
 store8(v0 + 85, v23 >> 8);
 store8(v0 + 83, v22 >> 24);
 store8(v0 + 82, v22 >> 16);
 store8(v0 + 81, v22 >> 8);
 store8(v0 + 79, v21 >> 24);
 store8(v0 + 78, v21 >> 16);
 store8(v0 + 77, v21 >> 8);
 store8(v0 + 75, v20 >> 24);
 store8(v0 + 74, v20 >> 16);
 store8(v0 + 73, v20 >> 8);
 store8(v0 + 71, v19 >> 24);
 store8(v0 + 70, v19 >> 16);
 store8(v0 + 69, v19 >> 8);
 store8(v0 + 67, v18 >> 24);
 store8(v0 + 66, v18 >> 16);
 store8(v0 + 65, v18 >> 8);
 store8(v0 + 63, v17 >> 24);
 store8(v0 + 62, v17 >> 16);
 store8(v0 + 61, v17 >> 8);
 store8(v0 + 59, v16 >> 24);
 store8(v0 + 58, v16 >> 16);
 store8(v0 + 57, v16 >> 8);
 store8(v0 + 55, v15 >> 24);
 store8(v0 + 54, v15 >> 16);
 store8(v0 + 53, v15 >> 8);
 store8(v0 + 51, v14 >> 24);
 store8(v0 + 50, v14 >> 16);
 store8(v0 + 49, v14 >> 8);
 store8(v0 + 47, v13 >> 24);
 store8(v0 + 46, v13 >> 16);
 store8(v0 + 45, v13 >> 8);
 store8(v0 + 43, v12 >> 24);
 store8(v0 + 42, v12 >> 16);
 store8(v0 + 41, v12 >> 8);
 store8(v0 + 39, v11 >> 24);
 store8(v0 + 38, v11 >> 16);
 store8(v0 + 37, v11 >> 8);
 store8(v0 + 35, v10 >> 24);
 store8(v0 + 34, v10 >> 16);
 store8(v0 + 33, v10 >> 8);
 store8(v0 + 31, v9 >> 24);
 store8(v0 + 30, v9 >> 16);
 store8(v0 + 29, v9 >> 8);
 store8(v0 + 27, v8 >> 24);
 store8(v0 + 26, v8 >> 16);
 store8(v0 + 25, v8 >> 8);
 store8(v0 + 23, v7 >> 24);
 store8(v0 + 22, v7 >> 16);
 store8(v0 + 21, v7 >> 8);
 store8(v0 + 19, v6 >> 24);
 store8(v0 + 18, v6 >> 16);
 store8(v0 + 17, v6 >> 8);
 store8(v0 + 15, v5 >> 24);
 store8(v0 + 14, v5 >> 16);
 store8(v0 + 13, v5 >> 8);
 store8(v0 + 11, v4 >> 24);
 store8(v0 + 10, v4 >> 16);
 store8(v0 + 9, v4 >> 8);
 store8(v0 + 7, v3 >> 24);
 store8(v0 + 6, v3 >> 16);
 store8(v0 + 5, v3 >> 8);
 store8(v0 + 3, v2 >> 24);
 store8(v0 + 2, v2 >> 16);
 store8(v0 + 1, v2 >> 8);
 return;
}

/* blake2_parallel::blake2sp::State::output */
APART void parallel_blake2sp_State_output(u64 v0, u64 v1) {
 u32 v37;
 u64 v2, v3, v4, v5, v6, v7, v8, v9, v10, v11, v12, v13, v14, v15, v16, v17, v18, v19, v20, v21,
   v22, v23, v24, v25, v26, v27, v28, v29, v30, v31, v32, v33, v34, v35, v36;
 FRAME(260);
 v2 = top - 2064;
 fill(v2 + 256, 0, 256);
 fill(v2, 0, 256);
 fill(v2 + 1280, 0, 256);
 fill(v2 + 768, 0, 256);
 fill(v2 + 512, 0, 256);
 v3 = v1 + 256;
 v4 = load64(v3);
 v5 = load64(v1 + 264);
 v6 = load64(v1 + 32);
 v7 = load64(v1 + 40);
 v8 = load64(v1 + 48);
 v9 = load64(v1 + 56);
 v10 = load64(v1 + 64);
 v11 = load64(v1 + 72);
 v12 = load64(v1 + 80);
 v13 = load64(v1 + 88);
 v14 = load64(v1 + 96);
 v15 = load64(v1 + 104);
 v16 = load64(v1 + 112);
 v17 = load64(v1 + 120);
 v18 = load64(v1 + 128);
 v19 = load64(v1 + 136);
 v20 = load64(v1 + 144);
 v21 = load64(v1 + 152);
 v22 = load64(v1 + 160);
 v23 = load64(v1 + 168);
 v24 = load64(v1 + 176);
 v25 = load64(v1 + 184);
 v26 = load64(v1 + 192);
 v27 = load64(v1 + 200);
 v28 = load64(v1 + 208);
 v29 = load64(v1 + 216);
 v30 = load64(v1 + 224);
 v31 = load64(v1 + 232);
 v32 = load64(v1 + 240);
 v33 = load64(v1);
 v34 = load64(v1 + 8);
 v35 = load64(v1 + 16);
 v36 = load64(v1 + 24);
 store64(v2 + 1784, load64(v1 + 248));
 store64(v2 + 1776, v32);
 store64(v2 + 1768, v31);
 store64(v2 + 1760, v30);
 store64(v2 + 1752, v29);
 store64(v2 + 1744, v28);
 store64(v2 + 1736, v27);
 store64(v2 + 1728, v26);
 store64(v2 + 1720, v25);
 store64(v2 + 1712, v24);
 store64(v2 + 1704, v23);
 store64(v2 + 1696, v22);
 store64(v2 + 1688, v21);
 store64(v2 + 1680, v20);
 store64(v2 + 1672, v19);
 store64(v2 + 1664, v18);
 store64(v2 + 1656, v17);
 store64(v2 + 1648, v16);
 store64(v2 + 1640, v15);
 store64(v2 + 1632, v14);
 store64(v2 + 1624, v13);
 store64(v2 + 1616, v12);
 store64(v2 + 1608, v11);
 store64(v2 + 1600, v10);
 store64(v2 + 1592, v9);
 store64(v2 + 1584, v8);
 store64(v2 + 1576, v7);
 store64(v2 + 1568, v6);
 store64(v2 + 1560, v36);
 store64(v2 + 1552, v35);
 store64(v2 + 1544, v34);
 store64(v2 + 1536, v33);
 store8(v2 + 1805, 0);
 store8(v2 + 1803, 0);
 store8(v2 + 1801, 0);
 store8(v2 + 1799, 0);
 store8(v2 + 1797, 0);
 store8(v2 + 1795, 0);
 store8(v2 + 1793, 0);
 store8(v2 + 1792, (u32)(v5 < 513));
 v7 = v5 < 512 ? v5 : 512;
 v6 = v5 - v7;
 v37 = (u32)(v6 < 449);
 store8(v2 + 1807, v37);
 store8(v2 + 1806, v37);
 store8(v2 + 1804, (u32)(v6 < 385));
 store8(v2 + 1802, (u32)(v6 < 321));
 store8(v2 + 1800, (u32)(v6 < 257));
 store8(v2 + 1798, (u32)(v6 < 193));
 store8(v2 + 1796, (u32)(v6 < 129));
 store8(v2 + 1794, (u32)(v6 < 65));
 v8 = v1 + 272;
 parallel_lanes_blake2sp_compress_short(v2 + 1536, v8, v7, v4, v2 + 1792);
 parallel_lanes_blake2sp_outputs_of(v2 + 768, v2 + 1536);
 copy(v2 + 1024, v2 + 768, 256);
 if (v5 > 512) goto l5;
 copy(v2, v2 + 768, 256);
 goto l1;
l5:;
 v5 = load64(v3);
 store64(v2 + 2056, 0x101000100010001);
 store64(v2 + 2048, 0x1000100010001);
 copy(v2 + 1792, v2 + 1536, 256);
 parallel_lanes_blake2sp_compress_short(v2 + 1792, v8 + v7, v6, v5 + 64, v2 + 2048);
 copy(v2 + 1536, v2 + 1792, 256);
 parallel_lanes_blake2sp_outputs_of(v2 + 768, v2 + 1536);
 store64(v2 + 760, load64(v2 + 792));
 store64(v2 + 752, load64(v2 + 784));
 store64(v2 + 744, load64(v2 + 776));
 store64(v2 + 736, load64(v2 + 768));
 if (v6 > 64) goto l16;
 store64(v2 + 728, load64(v2 + 1080));
 store64(v2 + 720, load64(v2 + 1072));
 store64(v2 + 712, load64(v2 + 1064));
 store64(v2 + 704, load64(v2 + 1056));
 goto l15;
l16:;
 store64(v2 + 728, load64(v2 + 824));
 store64(v2 + 720, load64(v2 + 816));
 store64(v2 + 712, load64(v2 + 808));
 store64(v2 + 704, load64(v2 + 800));
 if (v6 > 128) goto l14;
l15:;
 store64(v2 + 696, load64(v2 + 1112));
 store64(v2 + 688, load64(v2 + 1104));
 store64(v2 + 680, load64(v2 + 1096));
 store64(v2 + 672, load64(v2 + 1088));
 goto l13;
l14:;
 store64(v2 + 696, load64(v2 + 856));
 store64(v2 + 688, load64(v2 + 848));
 store64(v2 + 680, load64(v2 + 840));
 store64(v2 + 672, load64(v2 + 832));
 if (v6 > 192) goto l12;
l13:;
 store64(v2 + 664, load64(v2 + 1144));
 store64(v2 + 656, load64(v2 + 1136));
 store64(v2 + 648, load64(v2 + 1128));
 store64(v2 + 640, load64(v2 + 1120));
 goto l11;
l12:;
 store64(v2 + 664, load64(v2 + 888));
 store64(v2 + 656, load64(v2 + 880));
 store64(v2 + 648, load64(v2 + 872));
 store64(v2 + 640, load64(v2 + 864));
 if (v6 > 256) goto l10;
l11:;
 store64(v2 + 632, load64(v2 + 1176));
 store64(v2 + 624, load64(v2 + 1168));
 store64(v2 + 616, load64(v2 + 1160));
 store64(v2 + 608, load64(v2 + 1152));
 goto l9;
l10:;
 store64(v2 + 632, load64(v2 + 920));
 store64(v2 + 624, load64(v2 + 912));
 store64(v2 + 616, load64(v2 + 904));
 store64(v2 + 608, load64(v2 + 896));
 if (v6 > 320) goto l8;
l9:;
 store64(v2 + 600, load64(v2 + 1208));
 store64(v2 + 592, load64(v2 + 1200));
 store64(v2 + 584, load64(v2 + 1192));
 store64(v2 + 576, load64(v2 + 1184));
 goto l7;
l8:;
 store64(v2 + 600, load64(v2 + 952));
 store64(v2 + 592, load64(v2 + 944));
 store64(v2 + 584, load64(v2 + 936));
 store64(v2 + 576, load64(v2 + 928));
 if (v6 > 384) goto l6;
l7:;
 store64(v2 + 568, load64(v2 + 1240));
 store64(v2 + 560, load64(v2 + 1232));
 store64(v2 + 552, load64(v2 + 1224));
 store64(v2 + 544, load64(v2 + 1216));
 goto l3;
l6:;
 store64(v2 + 568, load64(v2 + 984));
 store64(v2 + 560, load64(v2 + 976));
 store64(v2 + 552, load64(v2 + 968));
 store64(v2 + 544, load64(v2 + 960));
 if (v6 < 449) goto l3;
 store64(v2 + 1816, load64(v2 + 1016));
 store64(v2 + 1808, load64(v2 + 1008));
 store64(v2 + 1800, load64(v2 + 1000));
 store64(v2 + 1792, load64(v2 + 992));
 goto l2;
l3:;
 store64(v2 + 1816, load64(v2 + 1272));
 store64(v2 + 1808, load64(v2 + 1264));
 store64(v2 + 1800, load64(v2 + 1256));
 store64(v2 + 1792, load64(v2 + 1248));
l2:;
 store64(v2 + 536, load64(v2 + 1816));
 store64(v2 + 528, load64(v2 + 1808));
 store64(v2 + 520, load64(v2 + 1800));
 store64(v2 + 512, load64(v2 + 1792));
 store64(v2 + 1280, load64(v2 + 736));
 store64(v2 + 1288, load64(v2 + 744));
 store64(v2 + 1296, load64(v2 + 752));
 store64(v2 + 1304, load64(v2 + 760));
 store64(v2 + 1336, load64(v2 + 728));
 store64(v2 + 1328, load64(v2 + 720));
 store64(v2 + 1320, load64(v2 + 712));
 store64(v2 + 1312, load64(v2 + 704));
 store64(v2 + 1368, load64(v2 + 696));
 store64(v2 + 1360, load64(v2 + 688));
 store64(v2 + 1352, load64(v2 + 680));
 store64(v2 + 1344, load64(v2 + 672));
 store64(v2 + 1400, load64(v2 + 664));
 store64(v2 + 1392, load64(v2 + 656));
 store64(v2 + 1384, load64(v2 + 648));
 store64(v2 + 1376, load64(v2 + 640));
 store64(v2 + 1432, load64(v2 + 632));
 store64(v2 + 1424, load64(v2 + 624));
 store64(v2 + 1416, load64(v2 + 616));
 store64(v2 + 1408, load64(v2 + 608));
 store64(v2 + 1464, load64(v2 + 600));
 store64(v2 + 1456, load64(v2 + 592));
 store64(v2 + 1448, load64(v2 + 584));
 store64(v2 + 1440, load64(v2 + 576));
 store64(v2 + 1496, load64(v2 + 568));
 store64(v2 + 1488, load64(v2 + 560));
 store64(v2 + 1480, load64(v2 + 552));
 store64(v2 + 1472, load64(v2 + 544));
 store64(v2 + 1528, load64(v2 + 536));
 store64(v2 + 1520, load64(v2 + 528));
 store64(v2 + 1512, load64(v2 + 520));
 store64(v2 + 1504, load64(v2 + 512));
 copy(v2, v2 + 1280, 256);
l1:;
 copy(v2 + 256, v2, 256);
 v6 = load64(v1 + 1488);
 v5 = load64(v1 + 1496);
 v7 = load64(v1 + 1504);
 store64(v2 + 1816, load64(v1 + 1512));
 store64(v2 + 1808, v7);
 store64(v2 + 1800, v5);
 store64(v2 + 1792, v6);
 compress_compress_blake2s_compress(v2 + 1792, v2, 64, 0, 0);
 compress_compress_blake2s_compress(v2 + 1792, v2 + 256 + 64, 128, 0, 0);
 compress_compress_blake2s_compress(v2 + 1792, v2 + 256 + 128, 192, 0, 0);
 compress_compress_blake2s_compress(v2 + 1792, v2 + 256 + 192, 256, 1, 1);
 v1 = load64(v2 + 1792);
 v6 = load64(v2 + 1800);
 v5 = load64(v2 + 1808);
 store64(v0 + 24, load64(v2 + 1816));
 store64(v0 + 16, v5);
 store64(v0 + 8, v6);
 store64(v0, v1);
}

/* blake2_parallel::lanes::blake2sp::compress_by_leaf */
APART void parallel_lanes_blake2sp_compress_by_leaf(u64 v0, u64 v1, u64 v2, u64 v3) {
 u32 v5, v6, v7, v8, v9, v10, v11, v12, v13, v14, v15, v16, v17, v18, v19, v20, v21, v22, v23, v24,
   v25, v26, v27, v28, v29, v30, v31, v32, v33, v34, v35, v36, v37, v38, v39, v40, v41, v42, v43,
   v44, v45, v46, v47, v48, v49, v50, v51, v52, v53, v54, v55, v56, v57, v58, v59, v60, v61, v62,
   v63, v64, v65, v66, v67, v68, v69;
 u64 v4, v70, v71, v72;
 FRAME(6);
 v4 = top - 32;
 v5 = load32(v0 + 252);
 v6 = load32(v0 + 248);
 v7 = load32(v0 + 244);
 v8 = load32(v0 + 240);
 v9 = load32(v0 + 236);
 v10 = load32(v0 + 232);
 v11 = load32(v0 + 228);
 v12 = load32(v0 + 220);
 v13 = load32(v0 + 216);
 v14 = load32(v0 + 212);
 v15 = load32(v0 + 208);
 v16 = load32(v0 + 204);
 v17 = load32(v0 + 200);
 v18 = load32(v0 + 196);
 v19 = load32(v0 + 188);
 v20 = load32(v0 + 184);
 v21 = load32(v0 + 180);
 v22 = load32(v0 + 176);
 v23 = load32(v0 + 172);
 v24 = load32(v0 + 168);
 v25 = load32(v0 + 164);
 v26 = load32(v0 + 156);
 v27 = load32(v0 + 152);
 v28 = load32(v0 + 148);
 v29 = load32(v0 + 144);
 v30 = load32(v0 + 140);
 v31 = load32(v0 + 136);
 v32 = load32(v0 + 132);
 v33 = load32(v0 + 124);
 v34 = load32(v0 + 120);
 v35 = load32(v0 + 116);
 v36 = load32(v0 + 112);
 v37 = load32(v0 + 108);
 v38 = load32(v0 + 104);
 v39 = load32(v0 + 100);
 v40 = load32(v0 + 92);
 v41 = load32(v0 + 88);
 v42 = load32(v0 + 84);
 v43 = load32(v0 + 80);
 v44 = load32(v0 + 76);
 v45 = load32(v0 + 72);
 v46 = load32(v0 + 68);
 v47 = load32(v0 + 60);
 v48 = load32(v0 + 56);
 v49 = load32(v0 + 52);
 v50 = load32(v0 + 48);
 v51 = load32(v0 + 44);
 v52 = load32(v0 + 40);
 v53 = load32(v0 + 36);
 v54 = load32(v0 + 28);
 v55 = load32(v0 + 24);
 v56 = load32(v0 + 20);
 v57 = load32(v0 + 16);
 v58 = load32(v0 + 12);
 v59 = load32(v0 + 8);
 v60 = load32(v0 + 4);
 v61 = load32(v0);
 v62 = load32(v0 + 32);
 v63 = load32(v0 + 64);
 v64 = load32(v0 + 96);
 v65 = load32(v0 + 128);
 v66 = load32(v0 + 160);
 v67 = load32(v0 + 192);
 v68 = load32(v0 + 224);
 store32(v4 + 28, v68);
 store32(v4 + 24, v67);
 store32(v4 + 20, v66);
 store32(v4 + 16, v65);
 store32(v4 + 12, v64);
 store32(v4 + 8, v63);
 store32(v4 + 4, v62);
 store32(v4, v61);
 v69 = (u32)(v3 == 0);
 if (v69) goto l2;
 v70 = v2 + 64;
 v71 = v3;
 v72 = v1;
l3:;
 compress_compress_blake2s_compress(v4, v72, v70, 0, 0);
 v70 += 64;
 v72 += 512;
 v71 -= 1;
 if (v71 != 0) goto l3;
 v68 = load32(v4 + 28);
 v67 = load32(v4 + 24);
 v66 = load32(v4 + 20);
 v65 = load32(v4 + 16);
 v64 = load32(v4 + 12);
 v63 = load32(v4 + 8);
 v62 = load32(v4 + 4);
 v61 = load32(v4);
l2:;
 store32(v4 + 28, v11);
 store32(v4 + 24, v18);
 store32(v4 + 20, v25);
 store32(v4 + 16, v32);
 store32(v4 + 12, v39);
 store32(v4 + 8, v46);
 store32(v4 + 4, v53);
 store32(v4, v60);
 if (v69) goto l4;
 v70 = v2 + 64;
 v72 = v1 + 64;
 v71 = v3;
l5:;
 compress_compress_blake2s_compress(v4, v72, v70, 0, 0);
 v70 += 64;
 v72 += 512;
 v71 -= 1;
 if (v71 != 0) goto l5;
 v11 = load32(v4 + 28);
 v18 = load32(v4 + 24);
 v25 = load32(v4 + 20);
 v32 = load32(v4 + 16);
 v39 = load32(v4 + 12);
 v46 = load32(v4 + 8);
 v53 = load32(v4 + 4);
 v60 = load32(v4);
l4:;
 store32(v4 + 28, v10);
 store32(v4 + 24, v17);
 store32(v4 + 20, v24);
 store32(v4 + 16, v31);
 store32(v4 + 12, v38);
 store32(v4 + 8, v45);
 store32(v4 + 4, v52);
 store32(v4, v59);
 if (v69) goto l6;
 v70 = v2 + 64;
 v72 = v1 + 128;
 v71 = v3;
l7:;
 compress_compress_blake2s_compress(v4, v72, v70, 0, 0);
 v70 += 64;
 v72 += 512;
 v71 -= 1;
 if (v71 != 0) goto l7;
 v10 = load32(v4 + 28);
 v17 = load32(v4 + 24);
 v24 = load32(v4 + 20);
 v31 = load32(v4 + 16);
 v38 = load32(v4 + 12);
 v45 = load32(v4 + 8);
 v52 = load32(v4 + 4);
 v59 = load32(v4);
l6:;
 store32(v4 + 28, v9);
 store32(v4 + 24, v16);
 store32(v4 + 20, v23);
 store32(v4 + 16, v30);
 store32(v4 + 12, v37);
 store32(v4 + 8, v44);
 store32(v4 + 4, v51);
 store32(v4, v58);
 if (v69) goto l8;
 v70 = v2 + 64;
 v72 = v1 + 192;
 v71 = v3;
l9:;
 compress_compress_blake2s_compress(v4, v72, v70, 0, 0);
 v70 += 64;
 v72 += 512;
 v71 -= 1;
 if (v71 != 0) goto l9;
 v9 = load32(v4 + 28);
 v16 = load32(v4 + 24);
 v23 = load32(v4 + 20);
 v30 = load32(v4 + 16);
 v37 = load32(v4 + 12);
 v44 = load32(v4 + 8);
 v51 = load32(v4 + 4);
 v58 = load32(v4);
l8:;
 store32(v4 + 28, v8);
 store32(v4 + 24, v15);
 store32(v4 + 20, v22);
 store32(v4 + 16, v29);
 store32(v4 + 12, v36);
 store32(v4 + 8, v43);
 store32(v4 + 4, v50);
 store32(v4, v57);
 if (v69) goto l10;
 v70 = v2 + 64;
 v72 = v1 + 256;
 v71 = v3;
l11:;
 compress_compress_blake2s_compress(v4, v72, v70, 0, 0);
 v70 += 64;
 v72 += 512;
 v71 -= 1;
 if (v71 != 0) goto l11;
 v8 = load32(v4 + 28);
 v15 = load32(v4 + 24);
 v22 = load32(v4 + 20);
 v29 = load32(v4 + 16);
 v36 = load32(v4 + 12);
 v43 = load32(v4 + 8);
 v50 = load32(v4 + 4);
 v57 = load32(v4);
l10:;
 store32(v4 + 28, v7);
 store32(v4 + 24, v14);
 store32(v4 + 20, v21);
 store32(v4 + 16, v28);
 store32(v4 + 12, v35);
 store32(v4 + 8, v42);
 store32(v4 + 4, v49);
 store32(v4, v56);
 if (v69) goto l12;
 v70 = v2 + 64;
 v72 = v1 + 320;
 v71 = v3;
l13:;
 compress_compress_blake2s_compress(v4, v72, v70, 0, 0);
 v70 += 64;
 v72 += 512;
 v71 -= 1;
 if (v71 != 0) goto l13;
 v7 = load32(v4 + 28);
 v14 = load32(v4 + 24);
 v21 = load32(v4 + 20);
 v28 = load32(v4 + 16);
 v35 = load32(v4 + 12);
 v42 = load32(v4 + 8);
 v49 = load32(v4 + 4);
 v56 = load32(v4);
l12:;
 store32(v4 + 28, v6);
 store32(v4 + 24, v13);
 store32(v4 + 20, v20);
 store32(v4 + 16, v27);
 store32(v4 + 12, v34);
 store32(v4 + 8, v41);
 store32(v4 + 4, v48);
 store32(v4, v55);
 if (v69) goto l14;
 v70 = v2 + 64;
 v72 = v1 + 384;
 v71 = v3;
l15:;
 compress_compress_blake2s_compress(v4, v72, v70, 0, 0);
 v70 += 64;
 v72 += 512;
 v71 -= 1;
 if (v71 != 0) goto l15;
 v6 = load32(v4 + 28);
 v13 = load32(v4 + 24);
 v20 = load32(v4 + 20);
 v27 = load32(v4 + 16);
 v34 = load32(v4 + 12);
 v41 = load32(v4 + 8);
 v48 = load32(v4 + 4);
 v55 = load32(v4);
l14:;
 store32(v4 + 28, v5);
 store32(v4 + 24, v12);
 store32(v4 + 20, v19);
 store32(v4 + 16, v26);
 store32(v4 + 12, v33);
 store32(v4 + 8, v40);
 store32(v4 + 4, v47);
 store32(v4, v54);
 if (v69) goto l16;
 v70 = v2 + 64;
 v72 = v1 + 448;
l17:;
 compress_compress_blake2s_compress(v4, v72, v70, 0, 0);
 v70 += 64;
 v72 += 512;
 v3 -= 1;
 if (v3 != 0) goto l17;
 v5 = load32(v4 + 28);
 v12 = load32(v4 + 24);
 v19 = load32(v4 + 20);
 v26 = load32(v4 + 16);
 v33 = load32(v4 + 12);
 v40 = load32(v4 + 8);
 v47 = load32(v4 + 4);
 v54 = load32(v4);
l16:;
 store32(v0 + 252, v5);
 store32(v0 + 248, v6);
 store32(v0 + 244, v7);
 store32(v0 + 240, v8);
 store32(v0 + 236, v9);
 store32(v0 + 232, v10);
 store32(v0 + 228, v11);
 store32(v0 + 224, v68);
 store32(v0 + 220, v12);
 store32(v0 + 216, v13);
 store32(v0 + 212, v14);
 store32(v0 + 208, v15);
 store32(v0 + 204, v16);
 store32(v0 + 200, v17);
 store32(v0 + 196, v18);
 store32(v0 + 192, v67);
 store32(v0 + 188, v19);
 store32(v0 + 184, v20);
 store32(v0 + 180, v21);
 store32(v0 + 176, v22);
 store32(v0 + 172, v23);
 store32(v0 + 168, v24);
 store32(v0 + 164, v25);
 store32(v0 + 160, v66);
 store32(v0 + 156, v26);
 store32(v0 + 152, v27);
 store32(v0 + 148, v28);
 store32(v0 + 144, v29);
 store32(v0 + 140, v30);
 store32(v0 + 136, v31);
 store32(v0 + 132, v32);
 store32(v0 + 128, v65);
 store32(v0 + 124, v33);
 store32(v0 + 120, v34);
 store32(v0 + 116, v35);
 store32(v0 + 112, v36);
 store32(v0 + 108, v37);
 store32(v0 + 104, v38);
 store32(v0 + 100, v39);
 store32(v0 + 96, v64);
 store32(v0 + 92, v40);
 store32(v0 + 88, v41);
 store32(v0 + 84, v42);
 store32(v0 + 80, v43);
 store32(v0 + 76, v44);
 store32(v0 + 72, v45);
 store32(v0 + 68, v46);
 store32(v0 + 64, v63);
 store32(v0 + 60, v47);
 store32(v0 + 56, v48);
 store32(v0 + 52, v49);
 store32(v0 + 48, v50);
 store32(v0 + 44, v51);
 store32(v0 + 40, v52);
 store32(v0 + 36, v53);
 store32(v0 + 32, v62);
 store32(v0 + 28, v54);
 store32(v0 + 24, v55);
 store32(v0 + 20, v56);
 store32(v0 + 16, v57);
 store32(v0 + 12, v58);
 store32(v0 + 8, v59);
 store32(v0 + 4, v60);
 store32(v0, v61);
 return;
}

/* blake2_parallel::lanes::blake2sp::Lanes::compress_held */
APART void parallel_lanes_blake2sp_Lanes_compress_held(u64 v0) {
 u64 v1, v2, v3, v4, v5, v6, v7, v8, v9, v10, v11, v12, v13, v14, v15, v16, v17, v18, v19, v20, v21,
   v22, v23, v24, v25, v26, v27, v28, v29, v30, v31, v32, v33, v34, v35, v36, v37, v38, v39, v40,
   v41, v42, v43, v44, v45, v46, v47, v48, v49, v50, v51, v52, v53, v54, v55, v56, v57, v58, v59,
   v60, v61, v62, v63, v64, v65, v66;
 FRAME(154);
 v1 = top - 1216;
 v2 = v0 + 32;
 v3 = load64(v2);
 v4 = v0 + 40;
 v5 = load64(v4);
 v6 = v0 + 48;
 v7 = load64(v6);
 v8 = v0 + 56;
 v9 = load64(v8);
 v10 = v0 + 64;
 v11 = load64(v10);
 v12 = v0 + 72;
 v13 = load64(v12);
 v14 = v0 + 80;
 v15 = load64(v14);
 v16 = v0 + 88;
 v17 = load64(v16);
 v18 = v0 + 96;
 v19 = load64(v18);
 v20 = v0 + 104;
 v21 = load64(v20);
 v22 = v0 + 112;
 v23 = load64(v22);
 v24 = v0 + 120;
 v25 = load64(v24);
 v26 = v0 + 128;
 v27 = load64(v26);
 v28 = v0 + 136;
 v29 = load64(v28);
 v30 = v0 + 144;
 v31 = load64(v30);
 v32 = v0 + 152;
 v33 = load64(v32);
 v34 = v0 + 160;
 v35 = load64(v34);
 v36 = v0 + 168;
 v37 = load64(v36);
 v38 = v0 + 176;
 v39 = load64(v38);
 v40 = v0 + 184;
 v41 = load64(v40);
 v42 = v0 + 192;
 v43 = load64(v42);
 v44 = v0 + 200;
 v45 = load64(v44);
 v46 = v0 + 208;
 v47 = load64(v46);
 v48 = v0 + 216;
 v49 = load64(v48);
 v50 = v0 + 224;
 v51 = load64(v50);
 v52 = v0 + 232;
 v53 = load64(v52);
 v54 = v0 + 240;
 v55 = load64(v54);
 v56 = load64(v0);
 v57 = load64(v0 + 8);
 v58 = load64(v0 + 16);
 v59 = load64(v0 + 24);
 v60 = v0 + 248;
 store64(v1 + 248, load64(v60));
 store64(v1 + 240, v55);
 store64(v1 + 232, v53);
 store64(v1 + 224, v51);
 store64(v1 + 216, v49);
 store64(v1 + 208, v47);
 store64(v1 + 200, v45);
 store64(v1 + 192, v43);
 store64(v1 + 184, v41);
 store64(v1 + 176, v39);
 store64(v1 + 168, v37);
 store64(v1 + 160, v35);
 store64(v1 + 152, v33);
 store64(v1 + 144, v31);
 store64(v1 + 136, v29);
 store64(v1 + 128, v27);
 store64(v1 + 120, v25);
 store64(v1 + 112, v23);
 store64(v1 + 104, v21);
 store64(v1 + 96, v19);
 store64(v1 + 88, v17);
 store64(v1 + 80, v15);
 store64(v1 + 72, v13);
 store64(v1 + 64, v11);
 store64(v1 + 56, v9);
 store64(v1 + 48, v7);
 store64(v1 + 40, v5);
 store64(v1 + 32, v3);
 store64(v1 + 24, v59);
 store64(v1 + 16, v58);
 store64(v1 + 8, v57);
 store64(v1, v56);
 v5 = v0 + 272;
 v7 = v0 + 256;
 v9 = load64(v7);
 parallel_lanes_blake2sp_compress_by_leaf(v1, v5, v9, 1);
 v11 = v0 + 264;
 v3 = load64(v11);
 fill(v1 + 256, 0, 960);
 v3 -= 512;
 if (v3 == 0) goto l2;
 copy(v1 + 256, v0 + 784, v3);
l2:;
 v13 = load64(v1);
 v15 = load64(v1 + 8);
 v17 = load64(v1 + 16);
 v19 = load64(v1 + 24);
 v21 = load64(v1 + 32);
 v23 = load64(v1 + 40);
 v25 = load64(v1 + 48);
 v27 = load64(v1 + 56);
 v29 = load64(v1 + 64);
 v31 = load64(v1 + 72);
 v33 = load64(v1 + 80);
 v35 = load64(v1 + 88);
 v37 = load64(v1 + 96);
 v39 = load64(v1 + 104);
 v41 = load64(v1 + 112);
 v43 = load64(v1 + 120);
 v45 = load64(v1 + 128);
 v47 = load64(v1 + 136);
 v49 = load64(v1 + 144);
 v51 = load64(v1 + 152);
 v53 = load64(v1 + 160);
 v55 = load64(v1 + 168);
 v56 = load64(v1 + 176);
 v57 = load64(v1 + 184);
 v58 = load64(v1 + 192);
 v59 = load64(v1 + 200);
 v61 = load64(v1 + 208);
 v62 = load64(v1 + 216);
 v63 = load64(v1 + 224);
 v64 = load64(v1 + 232);
 v65 = load64(v1 + 240);
 v66 = load64(v1 + 248);
 store64(v7, v9 + 64);
 store64(v60, v66);
 store64(v54, v65);
 store64(v52, v64);
 store64(v50, v63);
 store64(v48, v62);
 store64(v46, v61);
 store64(v44, v59);
 store64(v42, v58);
 store64(v40, v57);
 store64(v38, v56);
 store64(v36, v55);
 store64(v34, v53);
 store64(v32, v51);
 store64(v30, v49);
 store64(v28, v47);
 store64(v26, v45);
 store64(v24, v43);
 store64(v22, v41);
 store64(v20, v39);
 store64(v18, v37);
 store64(v16, v35);
 store64(v14, v33);
 store64(v12, v31);
 store64(v10, v29);
 store64(v8, v27);
 store64(v6, v25);
 store64(v4, v23);
 store64(v2, v21);
 store64(v0 + 24, v19);
 store64(v0 + 16, v17);
 store64(v0 + 8, v15);
 store64(v0, v13);
 copy(v5, v1 + 256, 960);
 store64(v11, v3);
 return;
}

/* blake2_parallel::blake2sp::State::update */
APART void parallel_blake2sp_State_update(u64 v0, u64 v1, u64 v2) {
 u64 v3, v4, v5, v6, v7, v8, v9, v10, v11, v12, v13, v14, v15, v16, v17, v18, v19, v20, v21, v22,
   v23, v24, v25, v26, v27, v28, v29, v30, v31, v32, v33, v34, v35, v36, v37, v38, v39, v40, v41,
   v42, v43, v44, v45, v46, v47, v48, v49, v50, v51, v52, v53, v54, v55, v56, v57, v58, v59, v60,
   v61, v62, v63, v64, v65, v66, v67, v68;
 FRAME(34);
 v3 = top - 256;
 v4 = load64(v0 + 264);
 if ((960 - v4) >= v2) goto l2;
 v5 = v0 + 272;
l3:;
 if (v4 != 0) goto l5;
 v6 = v0 + 32;
 v7 = load64(v6);
 v8 = v0 + 40;
 v9 = load64(v8);
 v4 = v0 + 48;
 v10 = load64(v4);
 v11 = v0 + 56;
 v12 = load64(v11);
 v13 = v0 + 64;
 v14 = load64(v13);
 v15 = v0 + 72;
 v16 = load64(v15);
 v17 = v0 + 80;
 v18 = load64(v17);
 v19 = v0 + 88;
 v20 = load64(v19);
 v21 = v0 + 96;
 v22 = load64(v21);
 v23 = v0 + 104;
 v24 = load64(v23);
 v25 = v0 + 112;
 v26 = load64(v25);
 v27 = v0 + 120;
 v28 = load64(v27);
 v29 = v0 + 128;
 v30 = load64(v29);
 v31 = v0 + 136;
 v32 = load64(v31);
 v33 = v0 + 144;
 v34 = load64(v33);
 v35 = v0 + 152;
 v36 = load64(v35);
 v37 = v0 + 160;
 v38 = load64(v37);
 v39 = v0 + 168;
 v40 = load64(v39);
 v41 = v0 + 176;
 v42 = load64(v41);
 v43 = v0 + 184;
 v44 = load64(v43);
 v45 = v0 + 192;
 v46 = load64(v45);
 v47 = v0 + 200;
 v48 = load64(v47);
 v49 = v0 + 208;
 v50 = load64(v49);
 v51 = v0 + 216;
 v52 = load64(v51);
 v53 = v0 + 224;
 v54 = load64(v53);
 v55 = v0 + 232;
 v56 = load64(v55);
 v57 = v0 + 240;
 v58 = load64(v57);
 v59 = load64(v0);
 v60 = load64(v0 + 8);
 v61 = load64(v0 + 16);
 v62 = load64(v0 + 24);
 v63 = v0 + 248;
 store64(v3 + 248, load64(v63));
 store64(v3 + 240, v58);
 store64(v3 + 232, v56);
 store64(v3 + 224, v54);
 store64(v3 + 216, v52);
 store64(v3 + 208, v50);
 store64(v3 + 200, v48);
 store64(v3 + 192, v46);
 store64(v3 + 184, v44);
 store64(v3 + 176, v42);
 store64(v3 + 168, v40);
 store64(v3 + 160, v38);
 store64(v3 + 152, v36);
 store64(v3 + 144, v34);
 store64(v3 + 136, v32);
 store64(v3 + 128, v30);
 store64(v3 + 120, v28);
 store64(v3 + 112, v26);
 store64(v3 + 104, v24);
 store64(v3 + 96, v22);
 store64(v3 + 88, v20);
 store64(v3 + 80, v18);
 store64(v3 + 72, v16);
 store64(v3 + 64, v14);
 store64(v3 + 56, v12);
 store64(v3 + 48, v10);
 store64(v3 + 40, v9);
 store64(v3 + 32, v7);
 store64(v3 + 24, v62);
 store64(v3 + 16, v61);
 store64(v3 + 8, v60);
 store64(v3, v59);
 v7 = v0 + 256;
 v9 = load64(v7);
 v10 = v2 - 449;
 v12 = v10 >> 9;
 parallel_lanes_blake2sp_compress_by_leaf(v3, v1, v9, v12);
 v14 = load64(v3);
 v16 = load64(v3 + 8);
 v18 = load64(v3 + 16);
 v20 = load64(v3 + 24);
 v22 = load64(v3 + 32);
 v24 = load64(v3 + 40);
 v26 = load64(v3 + 48);
 v28 = load64(v3 + 56);
 v30 = load64(v3 + 64);
 v32 = load64(v3 + 72);
 v34 = load64(v3 + 80);
 v36 = load64(v3 + 88);
 v38 = load64(v3 + 96);
 v40 = load64(v3 + 104);
 v42 = load64(v3 + 112);
 v44 = load64(v3 + 120);
 v46 = load64(v3 + 128);
 v48 = load64(v3 + 136);
 v50 = load64(v3 + 144);
 v52 = load64(v3 + 152);
 v54 = load64(v3 + 160);
 v56 = load64(v3 + 168);
 v58 = load64(v3 + 176);
 v59 = load64(v3 + 184);
 v60 = load64(v3 + 192);
 v61 = load64(v3 + 200);
 v62 = load64(v3 + 208);
 v64 = load64(v3 + 216);
 v65 = load64(v3 + 224);
 v66 = load64(v3 + 232);
 v67 = load64(v3 + 240);
 v68 = load64(v3 + 248);
 store64(v7, v9 + (v12 << 6));
 store64(v63, v68);
 store64(v57, v67);
 store64(v55, v66);
 store64(v53, v65);
 store64(v51, v64);
 store64(v49, v62);
 store64(v47, v61);
 store64(v45, v60);
 store64(v43, v59);
 store64(v41, v58);
 store64(v39, v56);
 store64(v37, v54);
 store64(v35, v52);
 store64(v33, v50);
 store64(v31, v48);
 store64(v29, v46);
 store64(v27, v44);
 store64(v25, v42);
 store64(v23, v40);
 store64(v21, v38);
 store64(v19, v36);
 store64(v17, v34);
 store64(v15, v32);
 store64(v13, v30);
 store64(v11, v28);
 store64(v4, v26);
 store64(v8, v24);
 store64(v6, v22);
 store64(v0 + 24, v20);
 store64(v0 + 16, v18);
 store64(v0 + 8, v16);
 store64(v0, v14);
 v6 = v10 & 0xfffffffffffffe00;
 v2 -= v6;
 v1 += v6;
 goto l4;
l5:;
 if (v4 > 511) goto l6;
 v6 = v5 + v4;
 v12 = 512 - v4;
 if ((v6 - v1) >= v12) goto l8;
 v9 = v12 & 3;
 v7 = 0;
 if (v4 > 508) goto l9;
 v10 = v0 + v4;
 v11 = v12 & 1020;
 v7 = 0;
l10:;
 v6 = v10 + v7;
 v8 = v1 + v7;
 store8(v6 + 272, load8(v8));
 store8(v6 + 273, load8(v8 + 1));
 store8(v6 + 274, load8(v8 + 2));
 store8(v6 + 275, load8(v8 + 3));
 v7 += 4;
 if (v11 != v7) goto l10;
 if (v9 == 0) goto l7;
l9:;
 v6 = v1 + v7;
 v7 = v5 + (v4 + v7);
l11:;
 store8(v7, load8(v6));
 v7 += 1;
 v6 += 1;
 v9 -= 1;
 if (v9 != 0) goto l11;
 goto l7;
l8:;
 if (v12 == 0) goto l7;
 copy(v6, v1, v12);
l7:;
 store64(v0 + 264, 512);
 parallel_lanes_blake2sp_Lanes_compress_held(v0);
 v1 += v12;
 v2 -= v12;
 goto l4;
l6:;
 parallel_lanes_blake2sp_Lanes_compress_held(v0);
l4:;
 v4 = load64(v0 + 264);
 if ((960 - v4) < v2) goto l3;
l2:;
 v10 = v0 + v4;
 v6 = v10 + 272;
 if ((v6 - v1) >= v2) goto l13;
 v9 = v2 & 3;
 v7 = 0;
 if (v2 < 4) goto l14;
 v11 = v2 & 0xfffffffffffffffc;
 v7 = 0;
l15:;
 v6 = v10 + v7;
 v8 = v1 + v7;
 store8(v6 + 272, load8(v8));
 store8(v6 + 273, load8(v8 + 1));
 store8(v6 + 274, load8(v8 + 2));
 store8(v6 + 275, load8(v8 + 3));
 v7 += 4;
 if (v11 != v7) goto l15;
 if (v9 == 0) goto l12;
l14:;
 v6 = v1 + v7;
 v7 = v4 + v7 + v0 + 272;
l16:;
 store8(v7, load8(v6));
 v7 += 1;
 v6 += 1;
 v9 -= 1;
 if (v9 != 0) goto l16;
 goto l12;
l13:;
 if (v2 == 0) goto l12;
 copy(v6, v1, v2);
l12:;
 store64(v0 + 264, v4 + v2);
 return;
}

/* blake2_ffi::blake2sp::write */
APART u32 ffi_blake2sp_write(u64 v0, u64 v1, u64 v2, u64 v3, u64 v4, u64 v5) {
 u32 v7;
 u64 v6, v8, v9, v10, v11, v12, v13, v14;
 FRAME(522);
 v6 = top - 4160;
 fill(v6 + 1240, 0, 1384);
 if ((v1 - 1) > 31) goto l5;
 if (v5 > 32) goto l5;
 fill(v6 + 2624, 0, 64);
 if (v5 == 0) goto l6;
 copy(v6 + 2624, v4, v5);
l6:;
 if (v5 != 0) goto l4;
 fill(v6 + 3200, 0, 960);
 v4 = 0;
 goto l3;
l5:;
 v7 = 0xffffffff;
 goto l2;
l4:;
 v4 = load64(v6 + 2680);
 store64(v6 + 2744, v4);
 v8 = load64(v6 + 2672);
 store64(v6 + 2736, v8);
 v9 = load64(v6 + 2664);
 store64(v6 + 2728, v9);
 v10 = load64(v6 + 2656);
 store64(v6 + 2720, v10);
 v11 = load64(v6 + 2648);
 store64(v6 + 2712, v11);
 v12 = load64(v6 + 2640);
 store64(v6 + 2704, v12);
 v13 = load64(v6 + 2632);
 store64(v6 + 2696, v13);
 v14 = load64(v6 + 2624);
 store64(v6 + 2688, v14);
 store64(v6 + 2752, v14);
 store64(v6 + 2760, v13);
 store64(v6 + 2768, v12);
 store64(v6 + 2776, v11);
 store64(v6 + 2784, v10);
 store64(v6 + 2792, v9);
 store64(v6 + 2800, v8);
 store64(v6 + 2808, v4);
 v4 = load64(v6 + 2680);
 store64(v6 + 2872, v4);
 v8 = load64(v6 + 2672);
 store64(v6 + 2864, v8);
 v9 = load64(v6 + 2664);
 store64(v6 + 2856, v9);
 v10 = load64(v6 + 2656);
 store64(v6 + 2848, v10);
 v11 = load64(v6 + 2648);
 store64(v6 + 2840, v11);
 v12 = load64(v6 + 2640);
 store64(v6 + 2832, v12);
 v13 = load64(v6 + 2632);
 store64(v6 + 2824, v13);
 v14 = load64(v6 + 2624);
 store64(v6 + 2816, v14);
 store64(v6 + 2936, v4);
 store64(v6 + 2928, v8);
 store64(v6 + 2920, v9);
 store64(v6 + 2912, v10);
 store64(v6 + 2904, v11);
 store64(v6 + 2896, v12);
 store64(v6 + 2888, v13);
 store64(v6 + 2880, v14);
 store64(v6 + 3000, load64(v6 + 2680));
 store64(v6 + 2992, load64(v6 + 2672));
 store64(v6 + 2984, load64(v6 + 2664));
 store64(v6 + 2976, load64(v6 + 2656));
 store64(v6 + 2968, load64(v6 + 2648));
 store64(v6 + 2960, load64(v6 + 2640));
 store64(v6 + 2952, load64(v6 + 2632));
 store64(v6 + 2944, load64(v6 + 2624));
 store64(v6 + 3064, load64(v6 + 2680));
 store64(v6 + 3056, load64(v6 + 2672));
 store64(v6 + 3048, load64(v6 + 2664));
 store64(v6 + 3040, load64(v6 + 2656));
 store64(v6 + 3032, load64(v6 + 2648));
 store64(v6 + 3024, load64(v6 + 2640));
 store64(v6 + 3016, load64(v6 + 2632));
 store64(v6 + 3008, load64(v6 + 2624));
 store64(v6 + 3128, load64(v6 + 2680));
 store64(v6 + 3120, load64(v6 + 2672));
 store64(v6 + 3112, load64(v6 + 2664));
 store64(v6 + 3104, load64(v6 + 2656));
 store64(v6 + 3096, load64(v6 + 2648));
 store64(v6 + 3088, load64(v6 + 2640));
 store64(v6 + 3080, load64(v6 + 2632));
 store64(v6 + 3072, load64(v6 + 2624));
 store64(v6 + 3192, load64(v6 + 2680));
 store64(v6 + 3184, load64(v6 + 2672));
 store64(v6 + 3176, load64(v6 + 2664));
 store64(v6 + 3168, load64(v6 + 2656));
 store64(v6 + 3160, load64(v6 + 2648));
 store64(v6 + 3152, load64(v6 + 2640));
 store64(v6 + 3144, load64(v6 + 2632));
 store64(v6 + 3136, load64(v6 + 2624));
 v4 = 512;
 fill(v6 + 3200 + 512, 0, 448);
 copy(v6 + 3200, v6 + 2688, 512);
l3:;
 copy(v6 + 64, v6 + 3200, 960);
 store64(v6 + 56, load64(v6 + 2680));
 store64(v6 + 48, load64(v6 + 2672));
 store64(v6 + 40, load64(v6 + 2664));
 store64(v6 + 32, load64(v6 + 2656));
 store64(v6 + 24, load64(v6 + 2648));
 store64(v6 + 16, load64(v6 + 2640));
 store64(v6 + 8, load64(v6 + 2632));
 store64(v6, load64(v6 + 2624));
 store64(v6 + 1288, v4);
 store64(v6 + 1280, 0);
 store64(v6 + 1272, 0x5be0cd195be0cd19);
 store64(v6 + 1264, 0x5be0cd195be0cd19);
 store64(v6 + 1256, 0x5be0cd195be0cd19);
 store64(v6 + 1248, 0x5be0cd195be0cd19);
 store64(v6 + 1240, 0x1f83d9ab1f83d9ab);
 store64(v6 + 1232, 0x1f83d9ab1f83d9ab);
 store64(v6 + 1224, 0x1f83d9ab1f83d9ab);
 store64(v6 + 1216, 0x1f83d9ab1f83d9ab);
 store64(v6 + 1208, 0x9b05688c9b05688c);
 store64(v6 + 1200, 0x9b05688c9b05688c);
 store64(v6 + 1192, 0x9b05688c9b05688c);
 store64(v6 + 1184, 0x9b05688c9b05688c);
 store64(v6 + 1176, 0x510e527f510e527f);
 store64(v6 + 1168, 0x510e527f510e527f);
 store64(v6 + 1160, 0x510e527f510e527f);
 store64(v6 + 1152, 0x510e527f510e527f);
 store32(v6 + 1148, 0x854ff53a);
 store64(v6 + 1140, 0x854ff53a854ff53a);
 store64(v6 + 1132, 0x854ff53a854ff53a);
 store64(v6 + 1124, 0x854ff53a854ff53a);
 store64(v6 + 1116, 0x854ff53a3c6ef375);
 store64(v6 + 1108, 0x3c6ef3743c6ef377);
 store64(v6 + 1100, 0x3c6ef3763c6ef371);
 store64(v6 + 1092, 0x3c6ef3703c6ef373);
 store32(v6 + 1088, 0x3c6ef372);
 store64(v6 + 1080, 0xbb67ae85bb67ae85);
 store64(v6 + 1072, 0xbb67ae85bb67ae85);
 store64(v6 + 1064, 0xbb67ae85bb67ae85);
 store64(v6 + 1056, 0xbb67ae85bb67ae85);
 v7 = (((u32)v5 << 8) | (u32)v1 | 0x2080000) ^ 0x6a09e667;
 store32(v6 + 1052, v7);
 store32(v6 + 1048, v7);
 store32(v6 + 1044, v7);
 store32(v6 + 1040, v7);
 store32(v6 + 1036, v7);
 store32(v6 + 1032, v7);
 store32(v6 + 1028, v7);
 store32(v6 + 1024, v7);
 copy(v6 + 1296, v6 + 64, 960);
 store64(v6 + 2552, v1);
 store64(v6 + 2544, v4);
 store64(v6 + 2536, 0x5be0cd191f83d9ab);
 store64(v6 + 2528, 0x9b05688c510e527f);
 store32(v6 + 2524, 0x854ef53a);
 store64(v6 + 2516, 0x3c6ef372bb67ae85);
 store32(v6 + 2512, v7);
 store64(v6 + 2504, 0x5be0cd195be0cd19);
 store64(v6 + 2496, 0x5be0cd195be0cd19);
 store64(v6 + 2488, 0x5be0cd195be0cd19);
 store64(v6 + 2480, 0x5be0cd195be0cd19);
 store64(v6 + 2472, 0x1f83d9ab1f83d9ab);
 store64(v6 + 2464, 0x1f83d9ab1f83d9ab);
 store64(v6 + 2456, 0x1f83d9ab1f83d9ab);
 store64(v6 + 2448, 0x1f83d9ab1f83d9ab);
 store64(v6 + 2440, 0x9b05688c9b05688c);
 store64(v6 + 2432, 0x9b05688c9b05688c);
 store64(v6 + 2424, 0x9b05688c9b05688c);
 store64(v6 + 2416, 0x9b05688c9b05688c);
 store64(v6 + 2408, 0x510e527f510e527f);
 store64(v6 + 2400, 0x510e527f510e527f);
 store64(v6 + 2392, 0x510e527f510e527f);
 store64(v6 + 2384, 0x510e527f510e527f);
 store32(v6 + 2380, 0x854ff53a);
 store64(v6 + 2372, 0x854ff53a854ff53a);
 store64(v6 + 2364, 0x854ff53a854ff53a);
 store64(v6 + 2356, 0x854ff53a854ff53a);
 store64(v6 + 2348, 0x854ff53a3c6ef375);
 store64(v6 + 2340, 0x3c6ef3743c6ef377);
 store64(v6 + 2332, 0x3c6ef3763c6ef371);
 store64(v6 + 2324, 0x3c6ef3703c6ef373);
 store32(v6 + 2320, 0x3c6ef372);
 store64(v6 + 2312, 0xbb67ae85bb67ae85);
 store64(v6 + 2304, 0xbb67ae85bb67ae85);
 store64(v6 + 2296, 0xbb67ae85bb67ae85);
 store64(v6 + 2288, 0xbb67ae85bb67ae85);
 store32(v6 + 2284, v7);
 store32(v6 + 2280, v7);
 store32(v6 + 2276, v7);
 store32(v6 + 2272, v7);
 store32(v6 + 2268, v7);
 store32(v6 + 2264, v7);
 store32(v6 + 2260, v7);
 store32(v6 + 2256, v7);
 store64(v6 + 2616, load64(v6 + 56));
 store64(v6 + 2608, load64(v6 + 48));
 store64(v6 + 2600, load64(v6 + 40));
 store64(v6 + 2592, load64(v6 + 32));
 store64(v6 + 2584, load64(v6 + 24));
 store64(v6 + 2576, load64(v6 + 16));
 store64(v6 + 2568, load64(v6 + 8));
 store64(v6 + 2560, load64(v6));
 v7 = 0xffffffff;
 if (v3 > (~v4)) goto l2;
 parallel_blake2sp_State_update(v6 + 1024, v2, v3);
 fill(v6 + 3200, 0, 32);
 parallel_blake2sp_State_output(v6 + 3200, v6 + 1024);
 v5 = load64(v6 + 2552);
 if (v5 == 0) goto l7;
 copy(v0, v6 + 3200, v5);
l7:;
 v7 = 0;
l2:;
 return v7;
}

/* rattle::export vulfsjor_ffi_blake2sp */
APART u32 exported_blake2sp(u64 v0, u64 v1, u64 v2, u64 v3, u64 v4, u64 v5) {
 u32 v7;
 v7 = ffi_blake2sp_write(v0 + (v0 == 0 ? UINT64_C(4096) : 0), v1, v2 + (v2 == 0 ? UINT64_C(4096) :
   0), v3, v4 + (v4 == 0 ? UINT64_C(4096) : 0), v5);
 if (v5 == 0) goto l2;
 digest_wiping_scrub_stack_8704();
l2:;
 return v7;
}

/* blake2_ffi::blake2sp::initialize */
APART u32 ffi_blake2sp_initialize(u64 v0, u64 v1, u64 v2, u64 v3, u64 v4, u64 v5, u64 v6, u64 v7) {
 u32 v9, v11, v12, v13, v14, v15, v16, v17, v18, v19;
 u64 v8, v10, v20, v21;
 FRAME(322);
 v8 = top - 2560;
 if ((v1 - 1) > 31) goto l3;
 if (v3 > 32) goto l3;
 if (v5 > 8) goto l3;
 if (v7 > 8) goto l3;
 fill(v8 + 1088, 0, 16);
 v9 = (u32)(v5 == 0);
 if (v9) goto l4;
 copy(v8 + 1088, v4, v5);
l4:;
 v10 = (v8 + 1088) | 8;
 v11 = (u32)(v7 == 0);
 if (v11) goto l5;
 copy(v10, v6, v7);
l5:;
 v12 = load32(v8 + 1100);
 v13 = load32(v8 + 1096);
 v14 = load32(v8 + 1092);
 v15 = load32(v8 + 1088);
 fill(v8 + 1088, 0, 16);
 if (v9) goto l6;
 copy(v8 + 1088, v4, v5);
l6:;
 if (v11) goto l7;
 copy(v10, v6, v7);
l7:;
 fill(v8 + 1024, 0, 64);
 v16 = load32(v8 + 1100);
 v17 = load32(v8 + 1096);
 v18 = load32(v8 + 1092);
 v19 = load32(v8 + 1088);
 if (v3 == 0) goto l8;
 copy(v8 + 1024, v2, v3);
l8:;
 if (v3 != 0) goto l10;
 fill(v8 + 1600, 0, 960);
 v5 = 0;
 goto l9;
l10:;
 v5 = load64(v8 + 1080);
 store64(v8 + 1144, v5);
 v7 = load64(v8 + 1072);
 store64(v8 + 1136, v7);
 v6 = load64(v8 + 1064);
 store64(v8 + 1128, v6);
 v4 = load64(v8 + 1056);
 store64(v8 + 1120, v4);
 v2 = load64(v8 + 1048);
 store64(v8 + 1112, v2);
 v10 = load64(v8 + 1040);
 store64(v8 + 1104, v10);
 v20 = load64(v8 + 1032);
 store64(v8 + 1096, v20);
 v21 = load64(v8 + 1024);
 store64(v8 + 1088, v21);
 store64(v8 + 1152, v21);
 store64(v8 + 1160, v20);
 store64(v8 + 1168, v10);
 store64(v8 + 1176, v2);
 store64(v8 + 1184, v4);
 store64(v8 + 1192, v6);
 store64(v8 + 1200, v7);
 store64(v8 + 1208, v5);
 v5 = load64(v8 + 1080);
 store64(v8 + 1272, v5);
 v7 = load64(v8 + 1072);
 store64(v8 + 1264, v7);
 v6 = load64(v8 + 1064);
 store64(v8 + 1256, v6);
 v4 = load64(v8 + 1056);
 store64(v8 + 1248, v4);
 v2 = load64(v8 + 1048);
 store64(v8 + 1240, v2);
 v10 = load64(v8 + 1040);
 store64(v8 + 1232, v10);
 v20 = load64(v8 + 1032);
 store64(v8 + 1224, v20);
 v21 = load64(v8 + 1024);
 store64(v8 + 1216, v21);
 store64(v8 + 1336, v5);
 store64(v8 + 1328, v7);
 store64(v8 + 1320, v6);
 store64(v8 + 1312, v4);
 store64(v8 + 1304, v2);
 store64(v8 + 1296, v10);
 store64(v8 + 1288, v20);
 store64(v8 + 1280, v21);
 store64(v8 + 1400, load64(v8 + 1080));
 store64(v8 + 1392, load64(v8 + 1072));
 store64(v8 + 1384, load64(v8 + 1064));
 store64(v8 + 1376, load64(v8 + 1056));
 store64(v8 + 1368, load64(v8 + 1048));
 store64(v8 + 1360, load64(v8 + 1040));
 store64(v8 + 1352, load64(v8 + 1032));
 store64(v8 + 1344, load64(v8 + 1024));
 store64(v8 + 1464, load64(v8 + 1080));
 store64(v8 + 1456, load64(v8 + 1072));
 store64(v8 + 1448, load64(v8 + 1064));
 store64(v8 + 1440, load64(v8 + 1056));
 store64(v8 + 1432, load64(v8 + 1048));
 store64(v8 + 1424, load64(v8 + 1040));
 store64(v8 + 1416, load64(v8 + 1032));
 store64(v8 + 1408, load64(v8 + 1024));
 store64(v8 + 1528, load64(v8 + 1080));
 store64(v8 + 1520, load64(v8 + 1072));
 store64(v8 + 1512, load64(v8 + 1064));
 store64(v8 + 1504, load64(v8 + 1056));
 store64(v8 + 1496, load64(v8 + 1048));
 store64(v8 + 1488, load64(v8 + 1040));
 store64(v8 + 1480, load64(v8 + 1032));
 store64(v8 + 1472, load64(v8 + 1024));
 store64(v8 + 1592, load64(v8 + 1080));
 store64(v8 + 1584, load64(v8 + 1072));
 store64(v8 + 1576, load64(v8 + 1064));
 store64(v8 + 1568, load64(v8 + 1056));
 store64(v8 + 1560, load64(v8 + 1048));
 store64(v8 + 1552, load64(v8 + 1040));
 store64(v8 + 1544, load64(v8 + 1032));
 store64(v8 + 1536, load64(v8 + 1024));
 v5 = 512;
 fill(v8 + 1600 + 512, 0, 448);
 copy(v8 + 1600, v8 + 1088, 512);
l9:;
 copy(v8, v8 + 1600, 960);
 store64(v0 + 264, v5);
 store64(v0 + 256, 0);
 v11 = v14 ^ 0x9b05688c;
 store32(v0 + 188, v11);
 store32(v0 + 184, v11);
 store32(v0 + 180, v11);
 store32(v0 + 176, v11);
 store32(v0 + 172, v11);
 store32(v0 + 168, v11);
 store32(v0 + 164, v11);
 store32(v0 + 160, v11);
 v14 = v15 ^ 0x510e527f;
 store32(v0 + 156, v14);
 store32(v0 + 152, v14);
 store32(v0 + 148, v14);
 store32(v0 + 144, v14);
 store32(v0 + 140, v14);
 store32(v0 + 136, v14);
 store32(v0 + 132, v14);
 store32(v0 + 128, v14);
 store64(v0 + 120, 0x854ff53a854ff53a);
 store64(v0 + 112, 0x854ff53a854ff53a);
 store64(v0 + 104, 0x854ff53a854ff53a);
 store64(v0 + 96, 0x854ff53a854ff53a);
 store64(v0 + 88, 0x3c6ef3753c6ef374);
 store64(v0 + 80, 0x3c6ef3773c6ef376);
 store64(v0 + 72, 0x3c6ef3713c6ef370);
 store64(v0 + 64, 0x3c6ef3733c6ef372);
 store64(v0 + 56, 0xbb67ae85bb67ae85);
 store64(v0 + 48, 0xbb67ae85bb67ae85);
 store64(v0 + 40, 0xbb67ae85bb67ae85);
 store64(v0 + 32, 0xbb67ae85bb67ae85);
 v13 ^= 0x1f83d9ab;
 store32(v0 + 220, v13);
 store32(v0 + 216, v13);
 store32(v0 + 212, v13);
 store32(v0 + 208, v13);
 store32(v0 + 204, v13);
 store32(v0 + 200, v13);
 store32(v0 + 196, v13);
 store32(v0 + 192, v13);
 v12 ^= 0x5be0cd19;
 store32(v0 + 252, v12);
 store32(v0 + 248, v12);
 store32(v0 + 244, v12);
 store32(v0 + 240, v12);
 store32(v0 + 236, v12);
 store32(v0 + 232, v12);
 store32(v0 + 228, v12);
 store32(v0 + 224, v12);
 v9 = (((u32)v3 << 8) | (u32)v1 | 0x2080000) ^ 0x6a09e667;
 store32(v0 + 28, v9);
 store32(v0 + 24, v9);
 store32(v0 + 20, v9);
 store32(v0 + 16, v9);
 store32(v0 + 12, v9);
 store32(v0 + 8, v9);
 store32(v0 + 4, v9);
 store32(v0, v9);
 store64(v8 + 960, load64(v8 + 1024));
 store64(v8 + 968, load64(v8 + 1032));
 store64(v8 + 976, load64(v8 + 1040));
 store64(v8 + 984, load64(v8 + 1048));
 store64(v8 + 992, load64(v8 + 1056));
 store64(v8 + 1000, load64(v8 + 1064));
 store64(v8 + 1008, load64(v8 + 1072));
 store64(v8 + 1016, load64(v8 + 1080));
 copy(v0 + 272, v8, 960);
 store64(v0 + 1528, v1);
 store64(v0 + 1520, v5);
 store32(v0 + 1516, v16 ^ 0x5be0cd19);
 store32(v0 + 1512, v17 ^ 0x1f83d9ab);
 store32(v0 + 1508, v18 ^ 0x9b05688c);
 store32(v0 + 1504, v19 ^ 0x510e527f);
 store32(v0 + 1500, 0x854ef53a);
 store64(v0 + 1492, 0x3c6ef372bb67ae85);
 store32(v0 + 1488, v9);
 store32(v0 + 1484, v12);
 store32(v0 + 1480, v12);
 store32(v0 + 1476, v12);
 store32(v0 + 1472, v12);
 store32(v0 + 1468, v12);
 store32(v0 + 1464, v12);
 store32(v0 + 1460, v12);
 store32(v0 + 1456, v12);
 store32(v0 + 1452, v13);
 store32(v0 + 1448, v13);
 store32(v0 + 1444, v13);
 store32(v0 + 1440, v13);
 store32(v0 + 1436, v13);
 store32(v0 + 1432, v13);
 store32(v0 + 1428, v13);
 store32(v0 + 1424, v13);
 store32(v0 + 1420, v11);
 store32(v0 + 1416, v11);
 store32(v0 + 1412, v11);
 store32(v0 + 1408, v11);
 store32(v0 + 1404, v11);
 store32(v0 + 1400, v11);
 store32(v0 + 1396, v11);
 store32(v0 + 1392, v11);
 store32(v0 + 1388, v14);
 store32(v0 + 1384, v14);
 store32(v0 + 1380, v14);
 store32(v0 + 1376, v14);
 store32(v0 + 1372, v14);
 store32(v0 + 1368, v14);
 store32(v0 + 1364, v14);
 store32(v0 + 1360, v14);
 store64(v0 + 1352, 0x854ff53a854ff53a);
 store64(v0 + 1344, 0x854ff53a854ff53a);
 store64(v0 + 1336, 0x854ff53a854ff53a);
 store64(v0 + 1328, 0x854ff53a854ff53a);
 store64(v0 + 1320, 0x3c6ef3753c6ef374);
 store64(v0 + 1312, 0x3c6ef3773c6ef376);
 store64(v0 + 1304, 0x3c6ef3713c6ef370);
 store64(v0 + 1296, 0x3c6ef3733c6ef372);
 store64(v0 + 1288, 0xbb67ae85bb67ae85);
 store64(v0 + 1280, 0xbb67ae85bb67ae85);
 store64(v0 + 1272, 0xbb67ae85bb67ae85);
 store64(v0 + 1264, 0xbb67ae85bb67ae85);
 store32(v0 + 1260, v9);
 store32(v0 + 1256, v9);
 store32(v0 + 1252, v9);
 store32(v0 + 1248, v9);
 store32(v0 + 1244, v9);
 store32(v0 + 1240, v9);
 store32(v0 + 1236, v9);
 store32(v0 + 1232, v9);
 store64(v0 + 1592, load64(v8 + 1016));
 store64(v0 + 1584, load64(v8 + 1008));
 store64(v0 + 1576, load64(v8 + 1000));
 store64(v0 + 1568, load64(v8 + 992));
 store64(v0 + 1560, load64(v8 + 984));
 store64(v0 + 1552, load64(v8 + 976));
 store64(v0 + 1544, load64(v8 + 968));
 store64(v0 + 1536, load64(v8 + 960));
 v9 = 0;
 goto l1;
l3:;
 fill(v0, 0, 1600);
 v9 = 0xffffffff;
 goto l1;
l1:;
 return v9;
}

/* rattle::export vulfsjor_ffi_blake2sp_init_salt_personal */
APART u32 exported_blake2sp_init_salt_personal(u64 v0, u64 v1, u64 v2, u64 v3, u64 v4, u64 v5, u64
        v6, u64 v7) {
 u32 v9;
 v9 = ffi_blake2sp_initialize(v0, v1, v2 + (v2 == 0 ? UINT64_C(4096) : 0), v3, v4 + (v4 == 0 ?
   UINT64_C(4096) : 0), v5, v6 + (v6 == 0 ? UINT64_C(4096) : 0), v7);
 if (v3 == 0) goto l2;
 digest_wiping_scrub_stack_5120();
l2:;
 return v9;
}

/* rattle::export vulfsjor_ffi_blake2sp_init_key */
APART u32 exported_blake2sp_init_key(u64 v0, u64 v1, u64 v2, u64 v3) {
 u32 v5;
 if (v3 != 0) goto l1;
 fill(v0, 0, 1600);
 return 0xffffffff;
l1:;
 v5 = ffi_blake2sp_initialize(v0, v1, v2 + (v2 == 0 ? UINT64_C(4096) : 0), v3, 0x100000, 0,
   0x100000, 0);
 digest_wiping_scrub_stack_5120();
 return v5;
}

/* blake2_ffi::blake2sp::update_in_frame */
APART void ffi_blake2sp_update_in_frame(u64 v0, u64 v1, u64 v2) {
 parallel_blake2sp_State_update(v0, v1, v2);
 return;
}

/* blake2_ffi::blake2sp::update_scrubbed */
APART void ffi_blake2sp_update_scrubbed(u64 v0, u64 v1, u64 v2) {
 ffi_blake2sp_update_in_frame(v0, v1, v2);
 digest_wiping_scrub_stack_3072();
 return;
}

/* rattle::export vulfsjor_ffi_blake2sp_update */
APART u32 exported_blake2sp_update(u64 v0, u64 v1, u64 v2) {
 u32 v4;
 u64 v5, v6, v7;
 v4 = 0xffffffff;
 if ((load64(v0 + 1528) - 1) > 31) goto l1;
 v5 = load64(v0 + 264);
 if (v5 > 960) goto l1;
 v6 = load64(v0 + 256);
 if (v6 > ((~v5) >> 3)) goto l1;
 v7 = load64(v0 + 1520);
 if (v7 > 512) goto l1;
 if (v2 > (~((v6 << 3) + v5))) goto l1;
 v1 += (v1 == 0 ? UINT64_C(4096) : 0);
 if (v6 != 0) goto l3;
 if (v7 == 0) goto l3;
 ffi_blake2sp_update_scrubbed(v0, v1, v2);
 goto l2;
l3:;
 parallel_blake2sp_State_update(v0, v1, v2);
l2:;
 v4 = 0;
l1:;
 return v4;
}

/* blake2_ffi::blake2sp::finalize */
APART void ffi_blake2sp_finalize(u64 v0, u64 v1) {
 u64 v2, v3;
 FRAME(6);
 v2 = top - 32;
 fill(v2, 0, 32);
 parallel_blake2sp_State_output(v2, v0);
 v3 = load64(v0 + 1528);
 if (v3 == 0) goto l2;
 copy(v1, v2, v3);
l2:;
 fill(v0, 0, 1600);
 return;
}

/* rattle::export vulfsjor_ffi_blake2sp_final */
APART u32 exported_blake2sp_final(u64 v0, u64 v1, u64 v2) {
 u32 v4;
 u64 v5, v6, v7;
 v4 = 0xffffffff;
 v5 = load64(v0 + 1528);
 if ((v5 - 1) > 31) goto l2;
 v6 = load64(v0 + 264);
 if (v6 > 960) goto l2;
 v7 = load64(v0 + 256);
 if (v7 > ((~v6) >> 3)) goto l2;
 if (v2 != v5) goto l2;
 v2 = load64(v0 + 1520);
 if (v2 > 512) goto l2;
 v1 += (v1 == 0 ? UINT64_C(4096) : 0);
 if (v7 == 0) goto l3;
 ffi_blake2sp_finalize(v0, v1);
 return 0;
l3:;
 ffi_blake2sp_finalize(v0, v1);
 v4 = 0;
 if (v2 == 0) goto l2;
 digest_wiping_scrub_stack_5632();
l2:;
 return v4;
}

/* blake2_ffi::blake2sp::is_digest_of */
APART u32 ffi_blake2sp_is_digest_of(u64 v0, u64 v1, u64 v2) {
 u32 v5;
 u64 v3, v4, v6, v7;
 FRAME(6);
 v3 = top - 32;
 v4 = v3;
 fill(v4, 0, 32);
 parallel_blake2sp_State_output(v4, v0);
 if (v2 == load64(v0 + 1528)) goto l3;
 v5 = 0;
 goto l2;
l3:;
 if (!(v2 == 0)) goto l4;
 v5 = 1;
 goto l2;
l4:;
 v6 = v2 & 3;
 if (v2 >= 4) goto l7;
 v0 = 0;
 v5 = 0;
 goto l6;
l7:;
 v7 = v2 & 0xfffffffffffffffc;
 v0 = 0;
 v5 = 0;
l8:;
 v2 = v4 + v0;
 v3 = v1 + v0;
 v5 = (load8(v2 + 3) ^ load8(v3 + 3)) | ((load8(v2 + 2) ^ load8(v3 + 2)) | ((load8(v2 + 1) ^
   load8(v3 + 1)) | ((load8(v2) ^ load8(v3)) | v5)));
 v0 += 4;
 if (v7 != v0) goto l8;
 if (v6 == 0) goto l5;
l6:;
 v2 = v1 + v0;
 v0 += v4;
l9:;
 v5 |= (load8(v0) ^ load8(v2));
 v2 += 1;
 v0 += 1;
 v6 -= 1;
 if (v6 != 0) goto l9;
l5:;
 v5 = (u32)((v5 & 255) == 0);
l2:;
 return v5;
}

/* rattle::export vulfsjor_ffi_blake2sp_verify */
APART u32 exported_blake2sp_verify(u64 v0, u64 v1, u64 v2) {
 u32 v4;
 u64 v5, v6;
 v4 = 0xffffffff;
 if ((load64(v0 + 1528) - 1) > 31) goto l2;
 v5 = load64(v0 + 264);
 if (v5 > 960) goto l2;
 v6 = load64(v0 + 256);
 if (v6 > ((~v5) >> 3)) goto l2;
 if ((load64(v0 + 1520) - 513) < 0xfffffffffffffe00) goto l2;
 v4 = ffi_blake2sp_is_digest_of(v0, v1 + (v1 == 0 ? UINT64_C(4096) : 0), v2);
 fill(v0, 0, 1600);
 if (v6 != 0) goto l3;
 digest_wiping_scrub_stack_5632();
l3:;
 v4 -= 1;
l2:;
 return v4;
}

/* blake2_ffi::blake2sp::reset_in_frame */
APART void ffi_blake2sp_reset_in_frame(u64 v0) {
 u64 v1, v2, v3, v4, v5, v6, v7, v8, v9, v10, v11, v12, v13, v14, v15, v16, v17, v18, v19;
 FRAME(218);
 v1 = top - 1728;
 v2 = v0 + 1232;
 v3 = load64(v0 + 1520);
 if (v3 != 0) goto l3;
 copy(v1, v2, 256);
 fill(v1 + 768, 0, 960);
 goto l2;
l3:;
 v4 = v0 + 1592;
 v5 = load64(v4);
 store64(v1 + 312, v5);
 v6 = v0 + 1584;
 v7 = load64(v6);
 store64(v1 + 304, v7);
 v8 = v0 + 1576;
 v9 = load64(v8);
 store64(v1 + 296, v9);
 v10 = v0 + 1568;
 v11 = load64(v10);
 store64(v1 + 288, v11);
 v12 = v0 + 1560;
 v13 = load64(v12);
 store64(v1 + 280, v13);
 v14 = v0 + 1552;
 v15 = load64(v14);
 store64(v1 + 272, v15);
 v16 = v0 + 1544;
 v17 = load64(v16);
 store64(v1 + 264, v17);
 v18 = v0 + 1536;
 v19 = load64(v18);
 store64(v1 + 256, v19);
 store64(v1 + 320, v19);
 store64(v1 + 328, v17);
 store64(v1 + 336, v15);
 store64(v1 + 344, v13);
 store64(v1 + 352, v11);
 store64(v1 + 360, v9);
 store64(v1 + 368, v7);
 store64(v1 + 376, v5);
 v5 = load64(v4);
 store64(v1 + 440, v5);
 v7 = load64(v6);
 store64(v1 + 432, v7);
 v9 = load64(v8);
 store64(v1 + 424, v9);
 v11 = load64(v10);
 store64(v1 + 416, v11);
 v13 = load64(v12);
 store64(v1 + 408, v13);
 v15 = load64(v14);
 store64(v1 + 400, v15);
 v17 = load64(v16);
 store64(v1 + 392, v17);
 v19 = load64(v18);
 store64(v1 + 384, v19);
 store64(v1 + 504, v5);
 store64(v1 + 496, v7);
 store64(v1 + 488, v9);
 store64(v1 + 480, v11);
 store64(v1 + 472, v13);
 store64(v1 + 464, v15);
 store64(v1 + 456, v17);
 store64(v1 + 448, v19);
 v5 = load64(v4);
 store64(v1 + 568, v5);
 v7 = load64(v6);
 store64(v1 + 560, v7);
 v9 = load64(v8);
 store64(v1 + 552, v9);
 v11 = load64(v10);
 store64(v1 + 544, v11);
 v13 = load64(v12);
 store64(v1 + 536, v13);
 v15 = load64(v14);
 store64(v1 + 528, v15);
 v17 = load64(v16);
 store64(v1 + 520, v17);
 v19 = load64(v18);
 store64(v1 + 512, v19);
 store64(v1 + 624, v7);
 store64(v1 + 632, v5);
 store64(v1 + 616, v9);
 store64(v1 + 608, v11);
 store64(v1 + 600, v13);
 store64(v1 + 592, v15);
 store64(v1 + 584, v17);
 store64(v1 + 576, v19);
 v4 = load64(v4);
 store64(v1 + 696, v4);
 v6 = load64(v6);
 store64(v1 + 688, v6);
 v8 = load64(v8);
 store64(v1 + 680, v8);
 v10 = load64(v10);
 store64(v1 + 672, v10);
 v12 = load64(v12);
 store64(v1 + 664, v12);
 v14 = load64(v14);
 store64(v1 + 656, v14);
 v16 = load64(v16);
 store64(v1 + 648, v16);
 v18 = load64(v18);
 store64(v1 + 640, v18);
 store64(v1 + 744, v8);
 store64(v1 + 760, v4);
 store64(v1 + 752, v6);
 store64(v1 + 736, v10);
 store64(v1 + 728, v12);
 store64(v1 + 720, v14);
 store64(v1 + 712, v16);
 store64(v1 + 704, v18);
 fill(v1 + 768 + 512, 0, 448);
 copy(v1 + 768, v1 + 256, 512);
 copy(v1, v2, 256);
l2:;
 copy(v0, v1, 256);
 store64(v0 + 264, v3);
 store64(v0 + 256, 0);
 copy(v0 + 272, v1 + 768, 960);
 return;
}

/* rattle::export vulfsjor_ffi_blake2sp_reset */
APART u32 exported_blake2sp_reset(u64 v0) {
 u32 v2;
 u64 v3;
 v2 = 0xffffffff;
 if ((load64(v0 + 1528) - 1) > 31) goto l2;
 v3 = load64(v0 + 264);
 if (v3 > 960) goto l2;
 if (load64(v0 + 256) > ((~v3) >> 3)) goto l2;
 v3 = load64(v0 + 1520);
 if (v3 > 512) goto l2;
 ffi_blake2sp_reset_in_frame(v0);
 v2 = 0;
 if (v3 == 0) goto l2;
 digest_wiping_scrub_stack_1792();
l2:;
 return v2;
}

/* rattle::export vulfsjor_ffi_blake2sp_wipe */
APART void exported_blake2sp_wipe(u64 v0) {
 fill(v0, 0, 1600);
}

/* rattle::export vulfsjor_ffi_blake2sp_digest_size */
APART u64 exported_blake2sp_digest_size(u64 v0) {
 u64 v1, v2, v3;
 v1 = 0;
 v2 = load64(v0 + 1528);
 if ((v2 - 1) > 31) goto l2;
 v3 = load64(v0 + 264);
 if (v3 > 960) goto l2;
 if (load64(v0 + 256) > ((~v3) >> 3)) goto l2;
 v1 = load64(v0 + 1520) < 513 ? v2 : 0;
l2:;
 return v1;
}

/* rattle::export vulfsjor_ffi_blake2sp_count */
APART u64 exported_blake2sp_count(u64 v0) {
 u64 v1, v2, v3;
 v1 = 0;
 if ((load64(v0 + 1528) - 1) > 31) goto l2;
 v2 = load64(v0 + 264);
 if (v2 > 960) goto l2;
 v3 = load64(v0 + 256);
 if (v3 > ((~v2) >> 3)) goto l2;
 v0 = load64(v0 + 1520);
 if (v0 > 512) goto l2;
 v1 = (v3 << 3) + v2;
 v0 = v1 - v0;
 v1 = v0 > v1 ? 0 : v0;
l2:;
 return v1;
}

/* rattle::export vulfsjor_ffi_blake2sp_state_size */
APART void exported_blake2sp_state_size(void) {

}

/* vulfsjor_ffi_blake2sp_state_size */
APART u64 module_blake2sp_state_size(void) {
 exported_blake2sp_state_size();
 return 1600;
}

/* blake2_xof::blake2xb::State::squeeze */
APART void xof_blake2xb_State_squeeze(u64 v0, u64 v1, u64 v2) {
 u64 v3, v4, v5, v6, v7, v8, v9, t0;
 FRAME(34);
 v3 = top - 256;
 v4 = v0 + 456;
 if (load64(v4) != 0) goto l2;
 state_blake2b_State_write_digest(v0, v0 + 344);
 store64(v4, 1);
l2:;
 if (v2 == 0) goto l3;
 v4 = v0 + 344;
 v5 = load64(v0 + 448);
 v6 = v3 + 128 + 64;
 v7 = 0;
l4:;
 fill(v6, 0, 64);
 store64(v3 + 88, 0xa54ff53a5f1d36f1);
 store64(v3 + 80, 0x3c6ef372fe94b82b);
 store64(v3 + 128, load64(v4));
 store64(v3 + 136, load64(v4 + 8));
 store64(v3 + 144, load64(v4 + 16));
 store64(v3 + 152, load64(v4 + 24));
 store64(v3 + 160, load64(v4 + 32));
 store64(v3 + 168, load64(v4 + 40));
 store64(v3 + 176, load64(v4 + 48));
 store64(v3 + 184, load64(v4 + 56));
 store64(v3 + 120, load64(v0 + 432) ^ 0x5be0cd19137e2179);
 store64(v3 + 112, load64(v0 + 424) ^ 0x1f83d9abfb41bd6b);
 store64(v3 + 104, load64(v0 + 416) ^ 0x9b05688c2b3e6c1f);
 store64(v3 + 96, load64(v0 + 408) ^ 0x510e527fade682d1);
 v8 = load64(v0 + 440);
 store64(v3 + 72, ((v8 << 32) + (v5 >> 6)) ^ 0xbb67ae8584caa73b);
 v8 = v8 == 0xffffffff ? 0x4000000000 : v8;
 v9 = v8 - (v5 & 0xffffffffffffffc0);
 v8 = v9 > v8 ? 0 : v9;
 store64(v3 + 64, ((v8 < 64 ? v8 : 64) | 0x4000000000) ^ 0x6a09e667f3bcc908);
 compress_compress_blake2b_compress(v3 + 64, v3 + 128, 64, 1, 0);
 store64(v3 + 56, load64(v3 + 120));
 store64(v3 + 48, load64(v3 + 112));
 store64(v3 + 40, load64(v3 + 104));
 store64(v3 + 32, load64(v3 + 96));
 store64(v3 + 24, load64(v3 + 88));
 store64(v3 + 16, load64(v3 + 80));
 store64(v3 + 8, load64(v3 + 72));
 store64(v3, load64(v3 + 64));
 v9 = v5 & 63;
 v5 = 64 - v9;
 v8 = v2 - v7;
 v8 = v5 < v8 ? v5 : v8;
 if (v8 == 0) goto l5;
 copy(v1 + v7, v3 + v9, v8);
l5:;
 v5 = v0 + 448;
 t0 = v5;
 v5 = load64(v5) + v8;
 store64(t0, v5);
 v7 += v8;
 if (v7 < v2) goto l4;
l3:;
 return;
}

/* blake2_ffi::blake2xb::write */
APART u32 ffi_blake2xb_write(u64 v0, u64 v1, u64 v2, u64 v3, u64 v4, u64 v5) {
 u32 v7, v8, v9, v10;
 u64 v6, v11, v12, v13;
 FRAME(100);
 v6 = top - 784;
 v7 = 0xffffffff;
 if (v1 >= 0xffffffff) goto l2;
 if (v1 == 0) goto l2;
 if (v5 > 64) goto l2;
 v8 = (u32)((v1 >> 16) & 0xffff);
 v9 = (u32)v1;
 if (v5 != 0) goto l4;
 v10 = 0;
 fill(v6 + 528, 0, 128);
 fill(v6 + 464, 0, 64);
 v4 = ((u64)((v9 & 0xffff) | (v8 << 16)) << 32) ^ 0xbb67ae8584caa73b;
 v11 = 0xa54ff53a5f1d36f1;
 v12 = 0x3c6ef372fe94f82b;
 v13 = 0x6a09e667f2bdc948;
 goto l3;
l4:;
 v11 = v5 > 63 ? 0 : (64 - v5);
 if (v11 == 0) goto l5;
 fill(v6 + 464 + v5, 0, v11);
l5:;
 if (v5 == 0) goto l6;
 copy(v6 + 464, v4, v5);
l6:;
 fill(v6 + 592, 0, 64);
 store64(v6 + 528, load64(v6 + 464));
 store64(v6 + 536, load64(v6 + 472));
 store64(v6 + 544, load64(v6 + 480));
 store64(v6 + 552, load64(v6 + 488));
 store64(v6 + 560, load64(v6 + 496));
 store64(v6 + 568, load64(v6 + 504));
 store64(v6 + 576, load64(v6 + 512));
 store64(v6 + 584, load64(v6 + 520));
 v4 = ((u64)((v9 & 0xffff) | (v8 << 16)) << 32) ^ 0xbb67ae8584caa73b;
 v13 = (u64)(((u32)v5 << 8) | 0x1010040) ^ 0x6a09e667f3bcc908;
 v10 = 128;
 v11 = 0xa54ff53a5f1d36f1;
 v12 = 0x3c6ef372fe94f82b;
l3:;
 fill(v6 + 688, 0, 96);
 store64(v6, v13);
 store64(v6 + 8, v4);
 store64(v6 + 16, v12);
 store64(v6 + 24, v11);
 store64(v6 + 32, 0x510e527fade682d1);
 store64(v6 + 40, 0x9b05688c2b3e6c1f);
 store64(v6 + 48, 0x1f83d9abfb41bd6b);
 store64(v6 + 56, 0x5be0cd19137e2179);
 store64(v6 + 64, v13);
 store64(v6 + 72, v4);
 store64(v6 + 80, v12);
 store64(v6 + 88, v11);
 store64(v6 + 96, 0x510e527fade682d1);
 store64(v6 + 104, 0x9b05688c2b3e6c1f);
 store64(v6 + 112, 0x1f83d9abfb41bd6b);
 store64(v6 + 120, 0x5be0cd19137e2179);
 store64(v6 + 128, 0);
 store32(v6 + 136, v10);
 store32(v6 + 140, v10);
 store64(v6 + 144, 64);
 v4 = v6 + 152;
 copy(v4, v6 + 528, 128);
 store64(v6 + 336, load64(v6 + 520));
 store64(v6 + 328, load64(v6 + 512));
 store64(v6 + 320, load64(v6 + 504));
 store64(v6 + 312, load64(v6 + 496));
 store64(v6 + 304, load64(v6 + 488));
 store64(v6 + 296, load64(v6 + 480));
 store64(v6 + 288, load64(v6 + 472));
 store64(v6 + 280, load64(v6 + 464));
 copy(v6 + 344, v6 + 688, 96);
 store64(v6 + 448, 0);
 store64(v6 + 440, v1);
 store64(v6 + 456, 0);
 v11 = (u64)v10;
 if (v3 > (~v11)) goto l2;
 if (v3 == 1) goto l8;
 state_blake2b_State_absorb_blocks(v6, v2, v3);
 goto l7;
l8:;
 if (v5 == 0) goto l9;
 state_blake2b_State_absorb_blocks(v6, v2, 1);
 goto l7;
l9:;
 store8(v4 + v11, load8(v2));
 store32(v6 + 136, v10 | 1);
l7:;
 xof_blake2xb_State_squeeze(v6, v0, v1);
 v7 = 0;
l2:;
 return v7;
}

SCRUB(digest_wiping_scrub_stack_7168, 9216)

/* rattle::export vulfsjor_ffi_blake2xb */
APART u32 exported_blake2xb(u64 v0, u64 v1, u64 v2, u64 v3, u64 v4, u64 v5) {
 u32 v7;
 v7 = ffi_blake2xb_write(v0 + (v0 == 0 ? UINT64_C(4096) : 0), v1, v2 + (v2 == 0 ? UINT64_C(4096) :
   0), v3, v4 + (v4 == 0 ? UINT64_C(4096) : 0), v5);
 if (v5 == 0) goto l2;
 digest_wiping_scrub_stack_7168();
l2:;
 return v7;
}

/* rattle::export vulfsjor_ffi_blake2xb_derive_key */
APART u32 exported_blake2xb_derive_key(u64 v0, u64 v1, u64 v2, u64 v3, u64 v4, u64 v5) {
 u32 v7;
 if (!(v3 == 0)) goto l1;
 return 0xffffffff;
l1:;
 v7 = ffi_blake2xb_write(v0 + (v0 == 0 ? UINT64_C(4096) : 0), v1, v4 + (v4 == 0 ? UINT64_C(4096) :
   0), v5, v2 + (v2 == 0 ? UINT64_C(4096) : 0), v3);
 digest_wiping_scrub_stack_7168();
 return v7;
}

/* blake2_ffi::blake2xb::initialize */
APART u32 ffi_blake2xb_initialize(u64 v0, u64 v1, u64 v2, u64 v3, u64 v4, u64 v5, u64 v6, u64 v7) {
 u32 v10, v11, v15;
 u64 v8, v12, v13, v14, v16, v17, v18;
 FRAME(50);
 v8 = top;
 v8 = (v8 - 352) & 0xffffffffffffffe0;
 if ((v1 - 1) > 0xfffffffe) goto l2;
 if (v3 > 64) goto l2;
 if (v5 > 16) goto l2;
 if (v7 > 16) goto l2;
 v10 = (u32)((v1 >> 16) & 0xffff);
 v11 = (u32)v1;
 if (v3 != 0) goto l4;
 fill(v8 + 192, 0, 32);
 if (v5 == 0) goto l5;
 copy(v8 + 192, v4, v5);
l5:;
 if (v7 == 0) goto l6;
 copy((v8 + 192) | 16, v6, v7);
l6:;
 v3 = load64(v8 + 192);
 v12 = load64(v8 + 200);
 v13 = load64(v8 + 208);
 v14 = load64(v8 + 216);
 v15 = 0;
 fill(v8 + 64, 0, 128);
 fill(v8, 0, 64);
 v2 = ((u64)((v11 & 0xffff) | (v10 << 16)) << 32) ^ 0xbb67ae8584caa73b;
 v14 ^= 0x5be0cd19137e2179;
 v13 ^= 0x1f83d9abfb41bd6b;
 v12 ^= 0x9b05688c2b3e6c1f;
 v16 = v3 ^ 0x510e527fade682d1;
 v3 = 0xa54ff53a5f1d36f1;
 v17 = 0x3c6ef372fe94f82b;
 v18 = 0x6a09e667f2bdc948;
 goto l3;
l4:;
 fill(v8 + 192, 0, 32);
 if (v5 == 0) goto l7;
 copy(v8 + 192, v4, v5);
l7:;
 if (v7 == 0) goto l8;
 copy((v8 + 192) | 16, v6, v7);
l8:;
 v16 = load64(v8 + 192);
 v12 = load64(v8 + 200);
 v13 = load64(v8 + 208);
 v14 = load64(v8 + 216);
 v17 = v3 > 63 ? 0 : (64 - v3);
 if (v17 == 0) goto l9;
 fill(v8 + v3, 0, v17);
l9:;
 if (v3 == 0) goto l10;
 copy(v8, v2, v3);
l10:;
 fill(v8 + 128, 0, 64);
 store64(v8 + 64, load64(v8));
 store64(v8 + 72, load64(v8 + 8));
 store64(v8 + 80, load64(v8 + 16));
 store64(v8 + 88, load64(v8 + 24));
 store64(v8 + 96, load64(v8 + 32));
 store64(v8 + 104, load64(v8 + 40));
 store64(v8 + 112, load64(v8 + 48));
 store64(v8 + 120, load64(v8 + 56));
 v2 = ((u64)((v11 & 0xffff) | (v10 << 16)) << 32) ^ 0xbb67ae8584caa73b;
 v14 ^= 0x5be0cd19137e2179;
 v13 ^= 0x1f83d9abfb41bd6b;
 v12 ^= 0x9b05688c2b3e6c1f;
 v16 ^= 0x510e527fade682d1;
 v18 = (u64)(((u32)v3 << 8) | 0x1010040) ^ 0x6a09e667f3bcc908;
 v15 = 128;
 v3 = 0xa54ff53a5f1d36f1;
 v17 = 0x3c6ef372fe94f82b;
l3:;
 fill(v8 + 320, 0, 16);
 if (v5 == 0) goto l11;
 copy(v8 + 320, v4, v5);
l11:;
 store64(v8 + 200, load64(v8 + 328));
 store64(v8 + 192, load64(v8 + 320));
 fill(v8 + 336, 0, 16);
 if (v7 == 0) goto l12;
 copy(v8 + 336, v6, v7);
l12:;
 v5 = load64(v8 + 336);
 store64(v8 + 320, v5);
 fill(v8 + 224, 0, 64);
 store64(v8 + 208, v5);
 store64(v8 + 312, load64(v8 + 344));
 store64(v8 + 304, v5);
 store64(v8 + 296, load64(v8 + 200));
 store64(v8 + 288, load64(v8 + 192));
 store64(v0 + 144, 64);
 store32(v0 + 140, v15);
 store32(v0 + 136, v15);
 store64(v0 + 128, 0);
 store64(v0 + 120, v14);
 store64(v0 + 112, v13);
 store64(v0 + 104, v12);
 store64(v0 + 96, v16);
 store64(v0 + 88, v3);
 store64(v0 + 80, v17);
 store64(v0 + 72, v2);
 store64(v0 + 64, v18);
 store64(v0 + 56, v14);
 store64(v0 + 48, v13);
 store64(v0 + 40, v12);
 store64(v0 + 32, v16);
 store64(v0 + 24, v3);
 store64(v0 + 16, v17);
 store64(v0 + 8, v2);
 store64(v0, v18);
 copy(v0 + 152, v8 + 64, 128);
 store64(v0 + 336, load64(v8 + 56));
 store64(v0 + 328, load64(v8 + 48));
 store64(v0 + 320, load64(v8 + 40));
 store64(v0 + 312, load64(v8 + 32));
 store64(v0 + 304, load64(v8 + 24));
 store64(v0 + 296, load64(v8 + 16));
 store64(v0 + 288, load64(v8 + 8));
 store64(v0 + 280, load64(v8));
 copy(v0 + 344, v8 + 224, 96);
 store64(v0 + 448, 0);
 store64(v0 + 440, v1);
 store64(v0 + 456, 0);
 return 0;
l2:;
 fill(v0, 0, 464);
 return 0xffffffff;
}

SCRUB(digest_wiping_scrub_stack_2304, 4352)

/* rattle::export vulfsjor_ffi_blake2xb_init_salt_personal */
APART u32 exported_blake2xb_init_salt_personal(u64 v0, u64 v1, u64 v2, u64 v3, u64 v4, u64 v5, u64
        v6, u64 v7) {
 u32 v9;
 v9 = ffi_blake2xb_initialize(v0, v1, v2 + (v2 == 0 ? UINT64_C(4096) : 0), v3, v4 + (v4 == 0 ?
   UINT64_C(4096) : 0), v5, v6 + (v6 == 0 ? UINT64_C(4096) : 0), v7);
 if (v3 == 0) goto l2;
 digest_wiping_scrub_stack_2304();
l2:;
 return v9;
}

/* blake2_ffi::blake2xb::update_in_frame */
APART void ffi_blake2xb_update_in_frame(u64 v0, u64 v1, u64 v2) {
 u32 v4, v5;
 if (v2 == 1) goto l2;
 state_blake2b_State_absorb_blocks(v0, v1, v2);
 return;
l2:;
 v2 = v0 + 136;
 v4 = load32(v2);
 if (v4 < 128) goto l3;
 state_blake2b_State_absorb_blocks(v0, v1, 1);
 return;
l3:;
 v5 = load8(v1);
 store32(v2, v4 + 1);
 store8(v0 + (u64)v4 + 152, v5);
 return;
}

/* rattle::export vulfsjor_ffi_blake2xb_update */
APART u32 exported_blake2xb_update(u64 v0, u64 v1, u64 v2) {
 u32 v4, v5, v6, v7;
 u64 v8, v9, v10;
 v4 = 0xffffffff;
 v5 = load32(v0 + 144);
 if ((v5 - 1) > 63) goto l2;
 v6 = load32(v0 + 136);
 if (v6 > 128) goto l2;
 v7 = load32(v0 + 140);
 if (v7 > 128) goto l2;
 v4 = 0xffffffff;
 if (v5 != 64) goto l2;
 v8 = load64(v0 + 128);
 if (v8 > sign64(~v6, 0x80000000)) goto l2;
 v9 = load64(v0 + 440);
 if ((v9 - 1) > 0xfffffffe) goto l2;
 v10 = load64(v0 + 448);
 if (v10 > (v9 == 0xffffffff ? 0x4000000000 : v9)) goto l2;
 if ((load64(v0 + 456) | v10) != 0) goto l2;
 if (v2 > (~(v8 + (u64)v6))) goto l2;
 v1 += (v1 == 0 ? UINT64_C(4096) : 0);
 if (v8 == 0) goto l3;
 ffi_blake2xb_update_in_frame(v0, v1, v2);
 return 0;
l3:;
 ffi_blake2xb_update_in_frame(v0, v1, v2);
 v4 = 0;
 if (v7 == 0) goto l2;
 digest_wiping_scrub_stack_3072();
l2:;
 return v4;
}

/* blake2_ffi::blake2xb::read */
APART void ffi_blake2xb_read(u64 v0, u64 v1, u64 v2) {
 xof_blake2xb_State_squeeze(v0, v1, v2);
 return;
}

SCRUB(digest_wiping_scrub_stack_4096, 6144)

/* rattle::export vulfsjor_ffi_blake2xb_squeeze */
APART u32 exported_blake2xb_squeeze(u64 v0, u64 v1, u64 v2) {
 u32 v4, v5, v6, v7;
 u64 v8, v9;
 v4 = 0xffffffff;
 v5 = load32(v0 + 144);
 if ((v5 - 1) > 63) goto l2;
 v6 = load32(v0 + 136);
 if (v6 > 128) goto l2;
 v7 = load32(v0 + 140);
 if (v7 > 128) goto l2;
 v4 = 0xffffffff;
 if (v5 != 64) goto l2;
 if (load64(v0 + 128) > sign64(~v6, 0x80000000)) goto l2;
 v8 = load64(v0 + 440);
 if ((v8 - 1) > 0xfffffffe) goto l2;
 v8 = v8 == 0xffffffff ? 0x4000000000 : v8;
 v9 = load64(v0 + 448);
 if (v8 < v9) goto l2;
 if ((v8 - v9) < v2) goto l2;
 ffi_blake2xb_read(v0, v1 + (v1 == 0 ? UINT64_C(4096) : 0), v2);
 v4 = 0;
 if (v7 == 0) goto l2;
 digest_wiping_scrub_stack_4096();
l2:;
 return v4;
}

/* blake2_ffi::blake2xb::reset_in_frame */
APART void ffi_blake2xb_reset_in_frame(u64 v0) {
 u32 v1;
 store64(v0 + 128, 0);
 store64(v0 + 56, load64(v0 + 120));
 store64(v0 + 48, load64(v0 + 112));
 store64(v0 + 40, load64(v0 + 104));
 store64(v0 + 32, load64(v0 + 96));
 store64(v0 + 24, load64(v0 + 88));
 store64(v0 + 16, load64(v0 + 80));
 store64(v0 + 8, load64(v0 + 72));
 store64(v0, load64(v0 + 64));
 v1 = load32(v0 + 140);
 store64(v0 + 272, 0);
 store32(v0 + 136, v1);
 store64(v0 + 264, 0);
 store64(v0 + 256, 0);
 store64(v0 + 248, 0);
 store64(v0 + 240, 0);
 store64(v0 + 232, 0);
 store64(v0 + 224, 0);
 store64(v0 + 216, 0);
 store64(v0 + 208, load64(v0 + 336));
 store64(v0 + 200, load64(v0 + 328));
 store64(v0 + 192, load64(v0 + 320));
 store64(v0 + 184, load64(v0 + 312));
 store64(v0 + 176, load64(v0 + 304));
 store64(v0 + 168, load64(v0 + 296));
 store64(v0 + 160, load64(v0 + 288));
 store64(v0 + 152, load64(v0 + 280));
 store64(v0 + 400, 0);
 store64(v0 + 392, 0);
 store64(v0 + 384, 0);
 store64(v0 + 376, 0);
 store64(v0 + 368, 0);
 store64(v0 + 360, 0);
 store64(v0 + 352, 0);
 store64(v0 + 344, 0);
 store64(v0 + 456, 0);
 store64(v0 + 448, 0);
 return;
}

/* rattle::export vulfsjor_ffi_blake2xb_reset */
APART u32 exported_blake2xb_reset(u64 v0) {
 u32 v2, v3, v4, v5;
 u64 v6;
 v2 = 0xffffffff;
 v3 = load32(v0 + 144);
 if ((v3 - 1) > 63) goto l2;
 v4 = load32(v0 + 136);
 if (v4 > 128) goto l2;
 v5 = load32(v0 + 140);
 if (v5 > 128) goto l2;
 v2 = 0xffffffff;
 if (v3 != 64) goto l2;
 if (load64(v0 + 128) > sign64(~v4, 0x80000000)) goto l2;
 v6 = load64(v0 + 440);
 if ((v6 - 1) > 0xfffffffe) goto l2;
 if (load64(v0 + 448) > (v6 == 0xffffffff ? 0x4000000000 : v6)) goto l2;
 ffi_blake2xb_reset_in_frame(v0);
 v2 = 0;
 if (v5 == 0) goto l2;
 digest_wiping_scrub_stack_1792();
l2:;
 return v2;
}

/* rattle::export vulfsjor_ffi_blake2xb_wipe */
APART void exported_blake2xb_wipe(u64 v0) {
 fill(v0, 0, 464);
}

/* rattle::export vulfsjor_ffi_blake2xb_left */
APART u64 exported_blake2xb_left(u64 v0) {
 u32 v2, v3;
 u64 v1, v4;
 v1 = 0;
 v2 = load32(v0 + 144);
 if ((v2 - 1) > 63) goto l2;
 v3 = load32(v0 + 136);
 if (v3 > 128) goto l2;
 if (load32(v0 + 140) > 128) goto l2;
 if (v2 != 64) goto l2;
 if (load64(v0 + 128) > sign64(~v3, 0x80000000)) goto l2;
 v4 = load64(v0 + 440);
 if ((v4 - 1) > 0xfffffffe) goto l2;
 v1 = v4 == 0xffffffff ? 0x4000000000 : v4;
 v0 = v1 - load64(v0 + 448);
 v1 = v0 > v1 ? 0 : v0;
l2:;
 return v1;
}

/* rattle::export vulfsjor_ffi_blake2xb_count */
APART u64 exported_blake2xb_count(u64 v0) {
 u32 v2, v3, v4;
 u64 v1, v5, v6;
 v1 = 0;
 v2 = load32(v0 + 144);
 if ((v2 - 1) > 63) goto l2;
 v3 = load32(v0 + 136);
 if (v3 > 128) goto l2;
 v4 = load32(v0 + 140);
 if (v4 > 128) goto l2;
 if (v2 != 64) goto l2;
 v5 = load64(v0 + 128);
 if (v5 > sign64(~v3, 0x80000000)) goto l2;
 v6 = load64(v0 + 440);
 if ((v6 - 1) > 0xfffffffe) goto l2;
 if (load64(v0 + 448) > (v6 == 0xffffffff ? 0x4000000000 : v6)) goto l2;
 v0 = v5 + (u64)v3;
 v1 = v0 - (u64)v4;
 v1 = v1 > v0 ? 0 : v1;
l2:;
 return v1;
}

/* rattle::export vulfsjor_ffi_blake2xb_state_size */
APART void exported_blake2xb_state_size(void) {

}

/* vulfsjor_ffi_blake2xb_state_size */
APART u64 module_blake2xb_state_size(void) {
 exported_blake2xb_state_size();
 return 464;
}

/* blake2_xof::blake2xs::State::squeeze */
APART void xof_blake2xs_State_squeeze(u64 v0, u64 v1, u64 v2) {
 u64 v3, v4, v5, v6, v7, v8, v9, t0;
 FRAME(18);
 v3 = top - 128;
 v4 = v0 + 240;
 if (load64(v4) != 0) goto l2;
 state_blake2s_State_write_digest(v0, v0 + 176);
 store64(v4, 1);
l2:;
 if (v2 == 0) goto l3;
 v4 = v0 + 176;
 v5 = load64(v0 + 232);
 v6 = v3 + 64 + 32;
 v7 = 0;
l4:;
 fill(v6, 0, 32);
 store32(v3 + 36, 0xbb67aea5);
 store64(v3 + 64, load64(v4));
 store64(v3 + 72, load64(v4 + 8));
 store64(v3 + 80, load64(v4 + 16));
 store64(v3 + 88, load64(v4 + 24));
 store32(v3 + 60, load32(v0 + 220) ^ 0x5be0cd19);
 store32(v3 + 56, load32(v0 + 216) ^ 0x1f83d9ab);
 store32(v3 + 52, load32(v0 + 212) ^ 0x9b05688c);
 store32(v3 + 48, load32(v0 + 208) ^ 0x510e527f);
 v8 = load64(v0 + 224);
 v9 = (v8 << 32) + (v5 >> 5);
 store32(v3 + 40, (u32)v9 ^ 0x3c6ef372);
 store32(v3 + 44, (((u32)(v9 >> 32) & 0xffff) | 0x20000000) ^ 0xa54ff53a);
 v8 = v8 == 0xffff ? 0x2000000000 : v8;
 v9 = v8 - (v5 & 0xffffffffffffffe0);
 v8 = v9 > v8 ? 0 : v9;
 store32(v3 + 32, (u32)(v8 < 32 ? v8 : 32) ^ 0x6a09e667);
 compress_compress_blake2s_compress(v3 + 32, v3 + 64, 32, 1, 0);
 store64(v3, load64(v3 + 32));
 store64(v3 + 8, load64(v3 + 40));
 store64(v3 + 16, load64(v3 + 48));
 store64(v3 + 24, load64(v3 + 56));
 v9 = v5 & 31;
 v5 = 32 - v9;
 v8 = v2 - v7;
 v8 = v5 < v8 ? v5 : v8;
 if (v8 == 0) goto l5;
 copy(v1 + v7, v3 + v9, v8);
l5:;
 v5 = v0 + 232;
 t0 = v5;
 v5 = load64(v5) + v8;
 store64(t0, v5);
 v7 += v8;
 if (v7 < v2) goto l4;
l3:;
 return;
}

/* blake2_ffi::blake2xs::write */
APART u32 ffi_blake2xs_write(u64 v0, u64 v1, u64 v2, u64 v3, u64 v4, u64 v5) {
 u32 v7, v9, v10, v11, v12, v13;
 u64 v6, v8, v14;
 FRAME(46);
 v6 = top - 352;
 v7 = 0xffffffff;
 if (v1 >= 0xffff) goto l2;
 if (v1 == 0) goto l2;
 if (v5 > 32) goto l2;
 v8 = v1 << 32;
 if (v5 != 0) goto l4;
 fill(v6 + 256, 0, 96);
 v9 = (u32)v8 ^ 0x3c6ef372;
 v10 = ((u32)(v8 >> 32) & 0xffff) ^ 0xa54ff53a;
 v11 = 0;
 v12 = 0xbb67ae85;
 v13 = 0x6b08e647;
 goto l3;
l4:;
 v14 = v5 > 31 ? 0 : (32 - v5);
 if (v14 == 0) goto l5;
 fill(v6 + 256 + v5, 0, v14);
l5:;
 if (v5 == 0) goto l6;
 copy(v6 + 256, v4, v5);
l6:;
 fill(v6 + 320, 0, 32);
 store64(v6 + 288, load64(v6 + 256));
 store64(v6 + 296, load64(v6 + 264));
 store64(v6 + 304, load64(v6 + 272));
 store64(v6 + 312, load64(v6 + 280));
 v9 = (u32)v8 ^ 0x3c6ef372;
 v10 = ((u32)(v8 >> 32) & 0xffff) ^ 0xa54ff53a;
 v13 = (((u32)v5 << 8) | 0x1010020) ^ 0x6a09e667;
 v11 = 64;
 v12 = 0xbb67ae85;
l3:;
 store32(v6 + 84, 32);
 store16(v6 + 82, v11);
 store16(v6 + 80, v11);
 store64(v6 + 72, 0);
 store64(v6 + 64, 0x5be0cd191f83d9ab);
 store64(v6 + 56, 0x9b05688c510e527f);
 store32(v6 + 52, v10);
 store32(v6 + 48, v9);
 store32(v6 + 44, v12);
 store32(v6 + 40, v13);
 store64(v6 + 32, 0x5be0cd191f83d9ab);
 store64(v6 + 24, 0x9b05688c510e527f);
 store32(v6 + 20, v10);
 store32(v6 + 16, v9);
 store32(v6 + 12, v12);
 store32(v6 + 8, v13);
 store64(v6 + 88, load64(v6 + 288));
 store64(v6 + 96, load64(v6 + 296));
 store64(v6 + 104, load64(v6 + 304));
 store64(v6 + 112, load64(v6 + 312));
 store64(v6 + 120, load64(v6 + 320));
 store64(v6 + 128, load64(v6 + 328));
 store64(v6 + 136, load64(v6 + 336));
 store64(v6 + 144, load64(v6 + 344));
 fill(v6 + 184, 0, 48);
 store64(v6 + 240, 0);
 store64(v6 + 232, v1);
 store64(v6 + 248, 0);
 store64(v6 + 176, load64(v6 + 280));
 store64(v6 + 168, load64(v6 + 272));
 store64(v6 + 160, load64(v6 + 264));
 store64(v6 + 152, load64(v6 + 256));
 v4 = (u64)v11;
 if (v3 > (~v4)) goto l2;
 if (v3 == 1) goto l8;
 state_blake2s_State_absorb_blocks(v6 + 8, v2, v3);
 goto l7;
l8:;
 if (v5 == 0) goto l9;
 state_blake2s_State_absorb_blocks(v6 + 8, v2, 1);
 goto l7;
l9:;
 store8(v6 + 88 + v4, load8(v2));
 store16(v6 + 80, v11 | 1);
l7:;
 xof_blake2xs_State_squeeze(v6 + 8, v0, v1);
 v7 = 0;
l2:;
 return v7;
}

/* rattle::export vulfsjor_ffi_blake2xs */
APART u32 exported_blake2xs(u64 v0, u64 v1, u64 v2, u64 v3, u64 v4, u64 v5) {
 u32 v7;
 v7 = ffi_blake2xs_write(v0 + (v0 == 0 ? UINT64_C(4096) : 0), v1, v2 + (v2 == 0 ? UINT64_C(4096) :
   0), v3, v4 + (v4 == 0 ? UINT64_C(4096) : 0), v5);
 if (v5 == 0) goto l2;
 digest_wiping_scrub_stack_7168();
l2:;
 return v7;
}

/* rattle::export vulfsjor_ffi_blake2xs_derive_key */
APART u32 exported_blake2xs_derive_key(u64 v0, u64 v1, u64 v2, u64 v3, u64 v4, u64 v5) {
 u32 v7;
 if (!(v3 == 0)) goto l1;
 return 0xffffffff;
l1:;
 v7 = ffi_blake2xs_write(v0 + (v0 == 0 ? UINT64_C(4096) : 0), v1, v4 + (v4 == 0 ? UINT64_C(4096) :
   0), v5, v2 + (v2 == 0 ? UINT64_C(4096) : 0), v3);
 digest_wiping_scrub_stack_7168();
 return v7;
}

/* blake2_ffi::blake2xs::initialize */
APART u32 ffi_blake2xs_initialize(u64 v0, u64 v1, u64 v2, u64 v3, u64 v4, u64 v5, u64 v6, u64 v7) {
 u32 v10, v11, v12, v13, v14, v15, v16, v17, v18;
 u64 v8, v9, v19;
 FRAME(16);
 v8 = top - 112;
 if ((v1 - 1) > 0xfffe) goto l2;
 if (v3 > 32) goto l2;
 if (v5 > 8) goto l2;
 if (v7 > 8) goto l2;
 v9 = v1 << 32;
 if (v3 != 0) goto l4;
 fill(v8, 0, 16);
 if (v5 == 0) goto l5;
 copy(v8, v4, v5);
l5:;
 if (v7 == 0) goto l6;
 copy(v8 | 8, v6, v7);
l6:;
 fill(v8 + 16, 0, 96);
 v10 = (u32)v9 ^ 0x3c6ef372;
 v11 = ((u32)(v9 >> 32) & 0xffff) ^ 0xa54ff53a;
 v12 = load32(v8 + 12) ^ 0x5be0cd19;
 v13 = load32(v8 + 8) ^ 0x1f83d9ab;
 v14 = load32(v8 + 4) ^ 0x9b05688c;
 v15 = load32(v8) ^ 0x510e527f;
 v16 = 0;
 v17 = 0xbb67ae85;
 v18 = 0x6b08e647;
 goto l3;
l4:;
 fill(v8, 0, 16);
 if (v5 == 0) goto l7;
 copy(v8, v4, v5);
l7:;
 if (v7 == 0) goto l8;
 copy(v8 | 8, v6, v7);
l8:;
 v15 = load32(v8);
 v14 = load32(v8 + 4);
 v13 = load32(v8 + 8);
 v12 = load32(v8 + 12);
 v19 = v3 > 31 ? 0 : (32 - v3);
 if (v19 == 0) goto l9;
 fill(v8 + 16 + v3, 0, v19);
l9:;
 if (v3 == 0) goto l10;
 copy(v8 + 16, v2, v3);
l10:;
 fill(v8 + 80, 0, 32);
 store64(v8 + 48, load64(v8 + 16));
 store64(v8 + 56, load64(v8 + 24));
 store64(v8 + 64, load64(v8 + 32));
 store64(v8 + 72, load64(v8 + 40));
 v10 = (u32)v9 ^ 0x3c6ef372;
 v11 = ((u32)(v9 >> 32) & 0xffff) ^ 0xa54ff53a;
 v18 = (((u32)v3 << 8) | 0x1010020) ^ 0x6a09e667;
 v12 ^= 0x5be0cd19;
 v13 ^= 0x1f83d9ab;
 v14 ^= 0x9b05688c;
 v15 ^= 0x510e527f;
 v16 = 64;
 v17 = 0xbb67ae85;
l3:;
 store64(v8, 0);
 if (v5 == 0) goto l11;
 copy(v8, v4, v5);
l11:;
 v3 = load64(v8);
 store64(v8, 0);
 if (v7 == 0) goto l12;
 copy(v8, v6, v7);
l12:;
 v5 = load64(v8);
 store32(v0 + 76, 32);
 store16(v0 + 74, v16);
 store16(v0 + 72, v16);
 store64(v0 + 64, 0);
 store32(v0 + 60, v12);
 store32(v0 + 56, v13);
 store32(v0 + 52, v14);
 store32(v0 + 48, v15);
 store32(v0 + 44, v11);
 store32(v0 + 40, v10);
 store32(v0 + 36, v17);
 store32(v0 + 32, v18);
 store32(v0 + 28, v12);
 store32(v0 + 24, v13);
 store32(v0 + 20, v14);
 store32(v0 + 16, v15);
 store32(v0 + 12, v11);
 store32(v0 + 8, v10);
 store32(v0 + 4, v17);
 store32(v0, v18);
 store64(v0 + 136, load64(v8 + 104));
 store64(v0 + 128, load64(v8 + 96));
 store64(v0 + 120, load64(v8 + 88));
 store64(v0 + 112, load64(v8 + 80));
 store64(v0 + 104, load64(v8 + 72));
 store64(v0 + 96, load64(v8 + 64));
 store64(v0 + 88, load64(v8 + 56));
 store64(v0 + 80, load64(v8 + 48));
 store64(v0 + 144, load64(v8 + 16));
 store64(v0 + 152, load64(v8 + 24));
 store64(v0 + 160, load64(v8 + 32));
 store64(v0 + 168, load64(v8 + 40));
 fill(v0 + 176, 0, 32);
 store64(v0 + 224, v1);
 store64(v0 + 216, v5);
 store64(v0 + 208, v3);
 fill(v0 + 232, 0, 16);
 return 0;
l2:;
 fill(v0, 0, 248);
 return 0xffffffff;
}

/* rattle::export vulfsjor_ffi_blake2xs_init_salt_personal */
APART u32 exported_blake2xs_init_salt_personal(u64 v0, u64 v1, u64 v2, u64 v3, u64 v4, u64 v5, u64
        v6, u64 v7) {
 u32 v9;
 v9 = ffi_blake2xs_initialize(v0, v1, v2 + (v2 == 0 ? UINT64_C(4096) : 0), v3, v4 + (v4 == 0 ?
   UINT64_C(4096) : 0), v5, v6 + (v6 == 0 ? UINT64_C(4096) : 0), v7);
 if (v3 == 0) goto l2;
 digest_wiping_scrub_stack_2304();
l2:;
 return v9;
}

/* blake2_ffi::blake2xs::update_in_frame */
APART void ffi_blake2xs_update_in_frame(u64 v0, u64 v1, u64 v2) {
 u32 v4, v5;
 if (v2 == 1) goto l2;
 state_blake2s_State_absorb_blocks(v0, v1, v2);
 return;
l2:;
 v2 = v0 + 72;
 v4 = load16(v2);
 if (v4 < 64) goto l3;
 state_blake2s_State_absorb_blocks(v0, v1, 1);
 return;
l3:;
 v5 = load8(v1);
 store16(v2, v4 + 1);
 store8(v0 + (u64)v4 + 80, v5);
 return;
}

/* rattle::export vulfsjor_ffi_blake2xs_update */
APART u32 exported_blake2xs_update(u64 v0, u64 v1, u64 v2) {
 u32 v4, v5, v6, v7;
 u64 v8, v9, v10;
 v4 = 0xffffffff;
 v5 = load16(v0 + 76);
 if (((v5 - 1) & 0xffff) > 31) goto l2;
 v6 = load16(v0 + 72);
 if (v6 > 64) goto l2;
 v7 = load16(v0 + 74);
 if (v7 > 64) goto l2;
 v4 = 0xffffffff;
 if ((v5 & 0xffff) != 32) goto l2;
 v8 = load64(v0 + 64);
 if (v8 > sign64((u64)(~v6), 0x8000)) goto l2;
 v9 = load64(v0 + 224);
 if ((v9 - 1) > 0xfffe) goto l2;
 v10 = load64(v0 + 232);
 if (v10 > (v9 == 0xffff ? 0x2000000000 : v9)) goto l2;
 if ((load64(v0 + 240) | v10) != 0) goto l2;
 if (v2 > (~(v8 + (u64)v6))) goto l2;
 v1 += (v1 == 0 ? UINT64_C(4096) : 0);
 if (v8 == 0) goto l3;
 ffi_blake2xs_update_in_frame(v0, v1, v2);
 return 0;
l3:;
 ffi_blake2xs_update_in_frame(v0, v1, v2);
 v4 = 0;
 if (v7 == 0) goto l2;
 digest_wiping_scrub_stack_3072();
l2:;
 return v4;
}

/* blake2_ffi::blake2xs::read */
APART void ffi_blake2xs_read(u64 v0, u64 v1, u64 v2) {
 xof_blake2xs_State_squeeze(v0, v1, v2);
 return;
}

/* rattle::export vulfsjor_ffi_blake2xs_squeeze */
APART u32 exported_blake2xs_squeeze(u64 v0, u64 v1, u64 v2) {
 u32 v4, v5, v6, v7;
 u64 v8, v9;
 v4 = 0xffffffff;
 v5 = load16(v0 + 76);
 if (((v5 - 1) & 0xffff) > 31) goto l2;
 v6 = load16(v0 + 72);
 if (v6 > 64) goto l2;
 v7 = load16(v0 + 74);
 if (v7 > 64) goto l2;
 v4 = 0xffffffff;
 if ((v5 & 0xffff) != 32) goto l2;
 if (load64(v0 + 64) > sign64((u64)(~v6), 0x8000)) goto l2;
 v8 = load64(v0 + 224);
 if ((v8 - 1) > 0xfffe) goto l2;
 v8 = v8 == 0xffff ? 0x2000000000 : v8;
 v9 = load64(v0 + 232);
 if (v8 < v9) goto l2;
 if ((v8 - v9) < v2) goto l2;
 ffi_blake2xs_read(v0, v1 + (v1 == 0 ? UINT64_C(4096) : 0), v2);
 v4 = 0;
 if (v7 == 0) goto l2;
 digest_wiping_scrub_stack_4096();
l2:;
 return v4;
}

/* blake2_ffi::blake2xs::reset_in_frame */
APART void ffi_blake2xs_reset_in_frame(u64 v0) {
 store64(v0 + 64, 0);
 store64(v0 + 112, 0);
 store64(v0 + 120, 0);
 store64(v0 + 128, 0);
 store64(v0 + 136, 0);
 store64(v0 + 24, load64(v0 + 56));
 store64(v0 + 16, load64(v0 + 48));
 store64(v0 + 8, load64(v0 + 40));
 store64(v0, load64(v0 + 32));
 store16(v0 + 72, load16(v0 + 74));
 store64(v0 + 80, load64(v0 + 144));
 store64(v0 + 88, load64(v0 + 152));
 store64(v0 + 96, load64(v0 + 160));
 store64(v0 + 104, load64(v0 + 168));
 store64(v0 + 200, 0);
 store64(v0 + 192, 0);
 store64(v0 + 184, 0);
 store64(v0 + 176, 0);
 store64(v0 + 232, 0);
 store64(v0 + 240, 0);
 return;
}

/* rattle::export vulfsjor_ffi_blake2xs_reset */
APART u32 exported_blake2xs_reset(u64 v0) {
 u32 v2, v3, v4, v5;
 u64 v6;
 v2 = 0xffffffff;
 v3 = load16(v0 + 76);
 if (((v3 - 1) & 0xffff) > 31) goto l2;
 v4 = load16(v0 + 72);
 if (v4 > 64) goto l2;
 v5 = load16(v0 + 74);
 if (v5 > 64) goto l2;
 v2 = 0xffffffff;
 if ((v3 & 0xffff) != 32) goto l2;
 if (load64(v0 + 64) > sign64((u64)(~v4), 0x8000)) goto l2;
 v6 = load64(v0 + 224);
 if ((v6 - 1) > 0xfffe) goto l2;
 if (load64(v0 + 232) > (v6 == 0xffff ? 0x2000000000 : v6)) goto l2;
 ffi_blake2xs_reset_in_frame(v0);
 v2 = 0;
 if (v5 == 0) goto l2;
 digest_wiping_scrub_stack_1792();
l2:;
 return v2;
}

/* rattle::export vulfsjor_ffi_blake2xs_wipe */
APART void exported_blake2xs_wipe(u64 v0) {
 fill(v0, 0, 248);
}

/* rattle::export vulfsjor_ffi_blake2xs_left */
APART u64 exported_blake2xs_left(u64 v0) {
 u32 v2, v3;
 u64 v1, v4;
 v1 = 0;
 v2 = load16(v0 + 76);
 if (((v2 - 1) & 0xffff) > 31) goto l2;
 v3 = load16(v0 + 72);
 if (v3 > 64) goto l2;
 if (load16(v0 + 74) > 64) goto l2;
 if ((v2 & 0xffff) != 32) goto l2;
 if (load64(v0 + 64) > sign64((u64)(~v3), 0x8000)) goto l2;
 v4 = load64(v0 + 224);
 if ((v4 - 1) > 0xfffe) goto l2;
 v1 = v4 == 0xffff ? 0x2000000000 : v4;
 v0 = v1 - load64(v0 + 232);
 v1 = v0 > v1 ? 0 : v0;
l2:;
 return v1;
}

/* rattle::export vulfsjor_ffi_blake2xs_count */
APART u64 exported_blake2xs_count(u64 v0) {
 u32 v2, v3;
 u64 v1, v4, v5, v6;
 v1 = 0;
 v2 = load16(v0 + 76);
 if (((v2 - 1) & 0xffff) > 31) goto l2;
 v3 = load16(v0 + 72);
 if (v3 > 64) goto l2;
 v4 = (u64)load16(v0 + 74);
 if (v4 > 64) goto l2;
 if ((v2 & 0xffff) != 32) goto l2;
 v5 = load64(v0 + 64);
 if (v5 > sign64((u64)(~v3), 0x8000)) goto l2;
 v6 = load64(v0 + 224);
 if ((v6 - 1) > 0xfffe) goto l2;
 if (load64(v0 + 232) > (v6 == 0xffff ? 0x2000000000 : v6)) goto l2;
 v0 = v5 + (u64)v3;
 v1 = v0 - v4;
 v1 = v1 > v0 ? 0 : v1;
l2:;
 return v1;
}

/* rattle::export vulfsjor_ffi_blake2xs_state_size */
APART void exported_blake2xs_state_size(void) {

}

/* vulfsjor_ffi_blake2xs_state_size */
APART u64 module_blake2xs_state_size(void) {
 exported_blake2xs_state_size();
 return 248;
}

/* blake2_tree::nodes::Nodes::leaf_digest */
APART void tree_nodes_Nodes_leaf_digest(u64 v0, u64 v1, u64 v2, u32 v3, u64 v4, u64 v5) {
 u64 v6, v8, v9, v10, t0;
 FRAME(94);
 v6 = top;
 v6 = (v6 - 704) & 0xffffffffffffffe0;
 v8 = (u64)load32(v1 + 48);
 v9 = load64(v1 + 40);
 v10 = load64(v1 + 16);
 fill(v6 + 288, 0, 32);
 if (v10 == 0) goto l2;
 copy(v6 + 288, v1, v10);
l2:;
 if (v9 == 0) goto l3;
 copy((v6 + 288) | 16, v1 + 24, v9);
l3:;
 store64(v6 + 96, 0xa54ff53a5f1d36f1);
 store64(v6 + 88, 0x3c6ef372fe94b82b);
 v1 = v2 ^ 0xbb67ae8584caa73b;
 store64(v6 + 80, v1);
 v9 = ((v8 << 32) | 0x2000040) ^ 0x6a09e667f3bcc908;
 store64(v6 + 72, v9);
 store64(v6 + 32, 0xa54ff53a5f1d36f1);
 store64(v6 + 24, 0x3c6ef372fe94b82b);
 store64(v6 + 16, v1);
 store64(v6 + 8, v9);
 v1 = load64(v6 + 312) ^ 0x5be0cd19137e2179;
 store64(v6 + 128, v1);
 v9 = load64(v6 + 304) ^ 0x1f83d9abfb41bd6b;
 store64(v6 + 120, v9);
 v10 = load64(v6 + 296) ^ 0x9b05688c2b3e6c1f;
 store64(v6 + 112, v10);
 v2 = load64(v6 + 288) ^ 0x510e527fade682d1;
 store64(v6 + 104, v2);
 store64(v6 + 64, v1);
 store64(v6 + 56, v9);
 store64(v6 + 48, v10);
 store64(v6 + 40, v2);
 fill(v6 + 8 + 128, 0, 152);
 store8(v6 + 144, v3);
 t0 = digest_buffer_digest_into_33c1e97afcdf8a5d(v6 + 8 + 144, 0, v4, v5, v6 + 8);
 store64(v6 + 280, t0);
 copy(v6 + 288, v6 + 8, 280);
 v1 = load64(v6 + 560);
 v10 = load64(v6 + 416) + v1;
 store64(v6 + 416, v10);
 fill(v6 + 576, 0, 128);
 v9 = v6 + 288 + 144;
 if (v1 == 0) goto l4;
 copy(v6 + 576, v9, v1);
l4:;
 fill(v9, 0, 136);
 compress_compress_blake2b_compress(v6 + 288, v6 + 576, v10, 1, load8(v6 + 424));
 v1 = load64(v6 + 288);
 v9 = load64(v6 + 296);
 v10 = load64(v6 + 304);
 v5 = load64(v6 + 312);
 v4 = load64(v6 + 320);
 v2 = load64(v6 + 328);
 v8 = load64(v6 + 336);
 store64(v0 + 56, load64(v6 + 344));
 store64(v0 + 48, v8);
 store64(v0 + 40, v2);
 store64(v0 + 32, v4);
 store64(v0 + 24, v5);
 store64(v0 + 16, v10);
 store64(v0 + 8, v9);
 store64(v0, v1);
 return;
}

/* blake2_state::tree::TreeState::close_leaf */
APART void state_tree_TreeState_close_leaf(u64 v0, u64 v1, u64 v2, u64 v3) {
 u32 v7, v10, v12;
 u64 v4, v6, v8, v9, v11, v13, v14, v15, v16, t0;
 FRAME(30);
 v4 = top;
 v4 = (v4 - 192) & 0xffffffffffffffe0;
 v6 = v1 + 128;
 v7 = load32(v1 + 136);
 v8 = (u64)v7;
 v9 = load64(v1 + 696) - (load64(v6) + v8);
 if (v9 == 1) goto l3;
 state_blake2b_State_absorb_blocks(v1, v2, v9);
 goto l2;
l3:;
 if (v7 < 128) goto l4;
 state_blake2b_State_absorb_blocks(v1, v2, 1);
 goto l2;
l4:;
 v10 = load8(v2);
 store32(v1 + 136, v7 + 1);
 store8(v1 + v8 + 152, v10);
l2:;
 fill(v4 + 64, 0, 16);
 v7 = load32(v1 + 696);
 v8 = load64(v1 + 712);
 v11 = load64(v1 + 704);
 v10 = (u32)(v11 == 0);
 if (v10) goto l5;
 copy(v4 + 64, v1 + 720, v11);
l5:;
 fill(v4 + 80, 0, 16);
 v12 = (u32)(v8 == 0);
 if (v12) goto l6;
 copy(v4 + 80, v1 + 736, v8);
l6:;
 v13 = v1 + 148;
 store32(v13, 0);
 store64(v4 + 24, v11);
 store32(v4 + 60, 0);
 store32(v4 + 56, v7);
 store64(v4 + 48, v8);
 fill(v4 + 96, 0, 64);
 store64(v4 + 16, load64(v4 + 72));
 store64(v4 + 8, load64(v4 + 64));
 store64(v4 + 32, load64(v4 + 80));
 store64(v4 + 40, load64(v4 + 88));
 state_blake2b_State_write_digest(v1, v4 + 96);
 state_blake2b_State_absorb_blocks(v1 + 344, v4 + 96, 64);
 v14 = v1 + 688;
 t0 = v14;
 v14 = load64(v14) + 1;
 store64(t0, v14);
 fill(v4 + 160, 0, 32);
 if (v10) goto l7;
 copy(v4 + 160, v4 + 8, v11);
l7:;
 if (v12) goto l8;
 copy((v4 + 160) | 16, v4 + 32, v8);
l8:;
 v8 = load64(v4 + 160);
 v11 = load64(v4 + 168);
 v15 = load64(v4 + 176);
 v4 = load64(v4 + 184) ^ 0x5be0cd19137e2179;
 store64(v1 + 120, v4);
 v15 ^= 0x1f83d9abfb41bd6b;
 store64(v1 + 112, v15);
 v11 ^= 0x9b05688c2b3e6c1f;
 store64(v1 + 104, v11);
 v8 ^= 0x510e527fade682d1;
 store64(v1 + 96, v8);
 store64(v1 + 88, 0xa54ff53a5f1d36f1);
 store64(v1 + 80, 0x3c6ef372fe94b82b);
 v14 ^= 0xbb67ae8584caa73b;
 store64(v1 + 72, v14);
 v16 = (((u64)v7 << 32) | 0x2000040) ^ 0x6a09e667f3bcc908;
 store64(v1 + 64, v16);
 store64(v1 + 56, v4);
 store64(v1 + 48, v15);
 store64(v1 + 40, v11);
 store64(v1 + 32, v8);
 store64(v1 + 24, 0xa54ff53a5f1d36f1);
 store64(v1 + 16, 0x3c6ef372fe94b82b);
 store64(v1 + 8, v14);
 store64(v1, v16);
 fill(v6, 0, 16);
 store32(v1 + 144, 64);
 fill(v13, 0, 196);
 store64(v0 + 8, v3 - v9);
 store64(v0, v2 + v9);
 return;
}

/* blake2_state::tree::TreeState::update */
APART void state_tree_TreeState_update(u64 v0, u64 v1, u64 v2) {
 u32 v7, v9;
 u64 v3, v5, v6, v8, v10, v11, v12, v13, v14, v15, v16, v17, v18, v19, v20, v21, v22;
 FRAME(102);
 v3 = top;
 v3 = (v3 - 768) & 0xffffffffffffffe0;
 v5 = v0 + 696;
 v6 = v0 + 128;
 v7 = load32(v0 + 136);
 v8 = (u64)v7;
 if (v2 > (load64(v5) - (load64(v6) + v8))) goto l2;
 if (v2 == 1) goto l3;
 state_blake2b_State_absorb_blocks(v0, v1, v2);
 return;
l3:;
 if (v7 < 128) goto l4;
 state_blake2b_State_absorb_blocks(v0, v1, 1);
 return;
l4:;
 v9 = load8(v1);
 store32(v0 + 136, v7 + 1);
 store8(v0 + v8 + 152, v9);
 return;
l2:;
 state_tree_TreeState_close_leaf(v3 + 24, v0, v1, v2);
 v8 = load64(v3 + 24);
 v1 = load64(v5);
 v2 = load64(v3 + 32);
 if (v1 >= v2) goto l5;
 v10 = v0 + 148;
 v11 = v0 + 344;
 v12 = v0 + 736;
 v13 = v0 + 720;
 v14 = (v3 + 736) | 16;
 v15 = v3 + 640 + 24;
 v16 = v3 + 104;
 v17 = v3 + 552 + 24;
l6:;
 if ((v1 << 2) >= v2) goto l8;
 fill(v3 + 608, 0, 16);
 v18 = v0 + 712;
 v5 = load64(v18);
 v19 = v0 + 704;
 v20 = load64(v19);
 if (v20 == 0) goto l9;
 copy(v3 + 608, v13, v20);
l9:;
 fill(v3 + 624, 0, 16);
 if (v5 == 0) goto l10;
 copy(v3 + 624, v12, v5);
l10:;
 store64(v17, load64(v3 + 624));
 store64(v17 + 8, load64(v3 + 632));
 store64(v3 + 568, v20);
 store32(v3 + 604, 0);
 store64(v3 + 592, v5);
 store64(v3 + 560, load64(v3 + 616));
 store64(v3 + 552, load64(v3 + 608));
 v20 = v0 + 688;
 v5 = load64(v20);
 store32(v3 + 600, v1);
 fill(v3 + 640, 0, 64);
 tree_nodes_Nodes_leaf_digest(v3 + 640, v3 + 552, v5, 0, v8, v1 & 0xffffffff);
 fill(v16, 0, 448);
 store64(v3 + 96, load64(v3 + 696));
 store64(v3 + 88, load64(v3 + 688));
 store64(v3 + 80, load64(v3 + 680));
 store64(v3 + 72, load64(v3 + 672));
 store64(v3 + 64, load64(v3 + 664));
 store64(v3 + 56, load64(v3 + 656));
 store64(v3 + 48, load64(v3 + 648));
 store64(v3 + 40, load64(v3 + 640));
 v1 = load64(v0 + 696);
 fill(v3 + 704, 0, 16);
 v5 = load64(v18);
 v18 = load64(v19);
 v7 = (u32)(v18 == 0);
 if (v7) goto l11;
 copy(v3 + 704, v13, v18);
l11:;
 fill(v3 + 720, 0, 16);
 v9 = (u32)(v5 == 0);
 if (v9) goto l12;
 copy(v3 + 720, v12, v5);
l12:;
 store64(v15, load64(v3 + 720));
 store64(v15 + 8, load64(v3 + 728));
 store64(v3 + 656, v18);
 store32(v3 + 692, 0);
 store32(v3 + 688, v1);
 store64(v3 + 680, v5);
 store64(v3 + 648, load64(v3 + 712));
 store64(v3 + 640, load64(v3 + 704));
 state_blake2b_State_absorb_blocks(v11, v3 + 40, 64);
 v19 = load64(v20) + 1;
 store64(v20, v19);
 fill(v3 + 736, 0, 32);
 if (v7) goto l13;
 copy(v3 + 736, v3 + 640, v18);
l13:;
 if (v9) goto l14;
 copy(v14, v15, v5);
l14:;
 v5 = load64(v3 + 736);
 v20 = load64(v3 + 744);
 v18 = load64(v3 + 752);
 v21 = load64(v3 + 760) ^ 0x5be0cd19137e2179;
 store64(v0 + 120, v21);
 v18 ^= 0x1f83d9abfb41bd6b;
 store64(v0 + 112, v18);
 v20 ^= 0x9b05688c2b3e6c1f;
 store64(v0 + 104, v20);
 v5 ^= 0x510e527fade682d1;
 store64(v0 + 96, v5);
 store64(v0 + 88, 0xa54ff53a5f1d36f1);
 store64(v0 + 80, 0x3c6ef372fe94b82b);
 v19 ^= 0xbb67ae8584caa73b;
 store64(v0 + 72, v19);
 v22 = ((v1 << 32) | 0x2000040) ^ 0x6a09e667f3bcc908;
 store64(v0 + 64, v22);
 store64(v0 + 56, v21);
 store64(v0 + 48, v18);
 store64(v0 + 40, v20);
 store64(v0 + 32, v5);
 store64(v0 + 24, 0xa54ff53a5f1d36f1);
 store64(v0 + 16, 0x3c6ef372fe94b82b);
 store64(v0 + 8, v19);
 store64(v0, v22);
 fill(v6, 0, 16);
 store32(v0 + 144, 64);
 fill(v10, 0, 196);
 v2 -= v1;
 v8 += v1;
 goto l7;
l8:;
 state_tree_TreeState_close_leaf(v3 + 8, v0, v8, v2);
 v2 = load64(v3 + 16);
 v8 = load64(v3 + 8);
l7:;
 v1 = load64(v0 + 696);
 if (v1 < v2) goto l6;
l5:;
 if (v2 == 1) goto l15;
 state_blake2b_State_absorb_blocks(v0, v8, v2);
 return;
l15:;
 v3 = v0 + 136;
 v7 = load32(v3);
 if (v7 < 128) goto l16;
 state_blake2b_State_absorb_blocks(v0, v8, 1);
 return;
l16:;
 v9 = load8(v8);
 store32(v3, v7 + 1);
 store8(v0 + (u64)v7 + 152, v9);
 return;
}

/* rattle::export vulfsjor_ffi_tree_root */
APART u32 exported_tree_root(u64 v0, u64 v1, u64 v2, u64 v3, u64 v4, u64 v5, u64 v6, u64 v7, u32 v8)
        {
 u32 v11, v15, v25;
 u64 v9, v12, v13, v14, v16, v17, v18, v19, v20, v21, v22, v23, v24, t2, t4, t8, t10;
 FRAME(238);
 v9 = top;
 v9 = (v9 - 1856) & 0xffffffffffffffe0;
 v11 = 0xffffffff;
 if (v3 > 0x3ffffffffffffff) goto l2;
 if ((v1 - 1) > 63) goto l2;
 if (v5 > 16) goto l2;
 if (v7 > 16) goto l2;
 if (v8 == 0) goto l2;
 v12 = v6 + (v6 == 0 ? UINT64_C(4096) : 0);
 v13 = v4 + (v4 == 0 ? UINT64_C(4096) : 0);
 v6 = v2 + (v2 == 0 ? UINT64_C(4096) : 0);
 v14 = v0 + (v0 == 0 ? UINT64_C(4096) : 0);
 if (v1 == 64) goto l4;
 if (v1 != 32) goto l3;
 v4 = 0;
 fill(v9 + 1472, 0, 16);
 v11 = (u32)(v5 == 0);
 if (v11) goto l5;
 copy(v9 + 1472, v13, v5);
l5:;
 fill(v9 + 1488, 0, 16);
 v15 = (u32)(v7 == 0);
 if (v15) goto l6;
 copy(v9 + 1488, v12, v7);
l6:;
 store64(v9 + 720, v5);
 store32(v9 + 756, 0);
 store32(v9 + 752, v8);
 store64(v9 + 744, v7);
 store64(v9 + 712, load64(v9 + 1480));
 store64(v9 + 704, load64(v9 + 1472));
 store64(v9 + 728, load64(v9 + 1488));
 store64(v9 + 736, load64(v9 + 1496));
 fill(v9, 0, 32);
 if (v11) goto l7;
 copy(v9, v9 + 704, v5);
l7:;
 v16 = v9 + 728;
 v1 = v9 | 16;
 if (v15) goto l8;
 copy(v1, v16, v7);
l8:;
 v2 = load64(v9);
 v0 = load64(v9 + 8);
 v12 = load64(v9 + 16);
 v13 = load64(v9 + 24);
 fill(v9, 0, 32);
 if (v11) goto l9;
 copy(v9, v9 + 704, v5);
l9:;
 if (v15) goto l10;
 copy(v1, v16, v7);
l10:;
 v17 = load64(v9);
 v18 = load64(v9 + 8);
 v19 = load64(v9 + 16);
 v20 = load64(v9 + 24);
 v13 ^= 0x5be0cd19137e2179;
 store64(v9 + 888, v13);
 v12 ^= 0x1f83d9abfb41bd6b;
 store64(v9 + 880, v12);
 v0 ^= 0x9b05688c2b3e6c1f;
 store64(v9 + 872, v0);
 v2 ^= 0x510e527fade682d1;
 store64(v9 + 864, v2);
 store64(v9 + 856, 0xa54ff53a5f1d36f1);
 store64(v9 + 848, 0x3c6ef372fe94b82b);
 store64(v9 + 840, 0xbb67ae8584caa73b);
 v1 = (u64)v8;
 v21 = v1 << 32;
 v22 = (v21 | 0x2000040) ^ 0x6a09e667f3bcc908;
 store64(v9 + 832, v22);
 store64(v9 + 824, v13);
 store64(v9 + 816, v12);
 store64(v9 + 808, v0);
 store64(v9 + 800, v2);
 store64(v9 + 792, 0xa54ff53a5f1d36f1);
 store64(v9 + 784, 0x3c6ef372fe94b82b);
 store64(v9 + 776, 0xbb67ae8584caa73b);
 store64(v9 + 768, v22);
 store64(v9 + 712, load64(v9 + 1480));
 store64(v9 + 704, load64(v9 + 1472));
 store64(v9 + 720, v5);
 store64(v9 + 728, load64(v9 + 1488));
 store64(v9 + 736, load64(v9 + 1496));
 fill(v9 + 756, 0, 12);
 store32(v9 + 752, v8);
 store64(v9 + 744, v7);
 v22 = v9 + 896;
 fill(v22, 0, 152);
 v5 = v20 ^ 0x5be0cd19137e2179;
 store64(v9 + 1168, v5);
 v7 = v19 ^ 0x1f83d9abfb41bd6b;
 store64(v9 + 1160, v7);
 v2 = v18 ^ 0x9b05688c2b3e6c1f;
 store64(v9 + 1152, v2);
 v0 = v17 ^ 0x510e527fade682d1;
 store64(v9 + 1144, v0);
 store64(v9 + 1136, 0xa54ff53a5f1d36f1);
 store64(v9 + 1128, 0x3c6ef372fe94b82a);
 store64(v9 + 1120, 0xbb67ae8584caa73b);
 v12 = (v21 | 0x2000020) ^ 0x6a09e667f3bcc908;
 store64(v9 + 1112, v12);
 store64(v9 + 1104, v5);
 store64(v9 + 1096, v7);
 store64(v9 + 1088, v2);
 store64(v9 + 1080, v0);
 store64(v9 + 1072, 0xa54ff53a5f1d36f1);
 store64(v9 + 1064, 0x3c6ef372fe94b82a);
 store64(v9 + 1056, 0xbb67ae8584caa73b);
 store64(v9 + 1048, v12);
 fill(v9 + 1176, 0, 152);
 v13 = v9 + 1048;
 if ((v1 << 2) < v3) goto l12;
 v5 = 0;
 v11 = v8;
 goto l11;
l12:;
 v19 = (v9 + 1504) | 16;
 v17 = v9 + 1192;
 v18 = v9 + 64;
 v4 = 0;
 v5 = 0;
l13:;
 fill(v9 + 1504, 0, 64);
 tree_nodes_Nodes_leaf_digest(v9 + 1504, v9 + 704, v5, 0, v6, v1);
 fill(v18, 0, 448);
 store64(v9 + 56, load64(v9 + 1560));
 store64(v9 + 48, load64(v9 + 1552));
 store64(v9 + 40, load64(v9 + 1544));
 store64(v9 + 32, load64(v9 + 1536));
 store64(v9 + 24, load64(v9 + 1528));
 store64(v9 + 16, load64(v9 + 1520));
 store64(v9 + 8, load64(v9 + 1512));
 store64(v9, load64(v9 + 1504));
 v4 = digest_buffer_digest_into_33c1e97afcdf8a5d(v17, v4, v9, 64, v13);
 store64(v9 + 1320, v4);
 v5 = load64(v9 + 760) + 1;
 store64(v9 + 760, v5);
 v11 = load32(v9 + 752);
 v1 = load64(v9 + 744);
 v7 = load64(v9 + 720);
 fill(v9 + 1504, 0, 32);
 if (v7 == 0) goto l14;
 copy(v9 + 1504, v9 + 704, v7);
l14:;
 if (v1 == 0) goto l15;
 copy(v19, v16, v1);
l15:;
 store64(v9 + 856, 0xa54ff53a5f1d36f1);
 store64(v9 + 848, 0x3c6ef372fe94b82b);
 v7 = v5 ^ 0xbb67ae8584caa73b;
 store64(v9 + 840, v7);
 v1 = (u64)v11;
 v2 = ((v1 << 32) | 0x2000040) ^ 0x6a09e667f3bcc908;
 store64(v9 + 832, v2);
 store64(v9 + 792, 0xa54ff53a5f1d36f1);
 store64(v9 + 784, 0x3c6ef372fe94b82b);
 store64(v9 + 776, v7);
 store64(v9 + 768, v2);
 v7 = load64(v9 + 1528) ^ 0x5be0cd19137e2179;
 store64(v9 + 888, v7);
 v2 = load64(v9 + 1520) ^ 0x1f83d9abfb41bd6b;
 store64(v9 + 880, v2);
 v0 = load64(v9 + 1512) ^ 0x9b05688c2b3e6c1f;
 store64(v9 + 872, v0);
 v12 = load64(v9 + 1504) ^ 0x510e527fade682d1;
 store64(v9 + 864, v12);
 store64(v9 + 824, v7);
 store64(v9 + 816, v2);
 store64(v9 + 808, v0);
 store64(v9 + 800, v12);
 fill(v22, 0, 152);
 v7 = (u64)v8;
 v6 += v7;
 v8 = v11;
 v3 -= v7;
 if ((v1 << 2) < v3) goto l13;
l11:;
 v17 = v9 + 704 + 64;
 v7 = 0;
 if (v1 >= v3) goto l16;
 v23 = (v9 + 1504) | 16;
 v24 = v9 | 16;
 v20 = v9 + 64;
 v18 = v9 + 1192;
 v19 = v9 + 144;
 v21 = v9 + 912;
 v2 = 0;
 v7 = 0;
 v12 = v1;
l17:;
 if (v7 != (0 - v2)) goto l19;
 if ((v12 << 2) >= v3) goto l19;
 v7 = 0;
 fill(v9 + 1504, 0, 64);
 tree_nodes_Nodes_leaf_digest(v9 + 1504, v9 + 704, v5, 0, v6, v12);
 fill(v20, 0, 448);
 store64(v9 + 56, load64(v9 + 1560));
 store64(v9 + 48, load64(v9 + 1552));
 store64(v9 + 40, load64(v9 + 1544));
 store64(v9 + 32, load64(v9 + 1536));
 store64(v9 + 24, load64(v9 + 1528));
 store64(v9 + 16, load64(v9 + 1520));
 store64(v9 + 8, load64(v9 + 1512));
 store64(v9, load64(v9 + 1504));
 v4 = digest_buffer_digest_into_33c1e97afcdf8a5d(v18, v4, v9, 64, v13);
 store64(v9 + 1320, v4);
 v5 = load64(v9 + 760) + 1;
 store64(v9 + 760, v5);
 v8 = load32(v9 + 752);
 v1 = load64(v9 + 744);
 v2 = load64(v9 + 720);
 fill(v9 + 1504, 0, 32);
 if (v2 == 0) goto l20;
 copy(v9 + 1504, v9 + 704, v2);
l20:;
 if (v1 == 0) goto l21;
 copy(v23, v16, v1);
l21:;
 store64(v9 + 856, 0xa54ff53a5f1d36f1);
 store64(v9 + 848, 0x3c6ef372fe94b82b);
 v1 = v5 ^ 0xbb67ae8584caa73b;
 store64(v9 + 840, v1);
 v2 = (((u64)v8 << 32) | 0x2000040) ^ 0x6a09e667f3bcc908;
 store64(v9 + 832, v2);
 store64(v9 + 792, 0xa54ff53a5f1d36f1);
 store64(v9 + 784, 0x3c6ef372fe94b82b);
 store64(v9 + 776, v1);
 store64(v9 + 768, v2);
 v1 = load64(v9 + 1528) ^ 0x5be0cd19137e2179;
 store64(v9 + 888, v1);
 v2 = load64(v9 + 1520) ^ 0x1f83d9abfb41bd6b;
 store64(v9 + 880, v2);
 v0 = load64(v9 + 1512) ^ 0x9b05688c2b3e6c1f;
 store64(v9 + 872, v0);
 v12 = load64(v9 + 1504) ^ 0x510e527fade682d1;
 store64(v9 + 864, v12);
 store64(v9 + 824, v1);
 store64(v9 + 816, v2);
 store64(v9 + 808, v0);
 store64(v9 + 800, v12);
 fill(v22, 0, 152);
 v0 = (u64)v11;
 v11 = v8;
 v2 = 0;
 goto l18;
l19:;
 t2 = digest_buffer_digest_into_33c1e97afcdf8a5d(v21, v7, v6, v1, v17);
 store64(v9 + 1040, t2);
 v4 = (u64)load32(v9 + 752);
 v2 = load64(v9 + 760);
 v5 = load64(v9 + 744);
 v7 = load64(v9 + 720);
 fill(v9, 0, 32);
 if (v7 == 0) goto l22;
 copy(v9, v9 + 704, v7);
l22:;
 if (v5 == 0) goto l23;
 copy(v24, v16, v5);
l23:;
 v5 = load64(v9);
 v7 = load64(v9 + 8);
 v0 = load64(v9 + 16);
 v12 = load64(v9 + 24);
 copy(v9, v17, 280);
 v12 ^= 0x5be0cd19137e2179;
 store64(v9 + 888, v12);
 v0 ^= 0x1f83d9abfb41bd6b;
 store64(v9 + 880, v0);
 v7 ^= 0x9b05688c2b3e6c1f;
 store64(v9 + 872, v7);
 v5 ^= 0x510e527fade682d1;
 store64(v9 + 864, v5);
 store64(v9 + 856, 0xa54ff53a5f1d36f1);
 store64(v9 + 848, 0x3c6ef372fe94b82b);
 v2 = (v2 + 1) ^ 0xbb67ae8584caa73b;
 store64(v9 + 840, v2);
 v4 = ((v4 << 32) | 0x2000040) ^ 0x6a09e667f3bcc908;
 store64(v9 + 832, v4);
 store64(v9 + 824, v12);
 store64(v9 + 816, v0);
 store64(v9 + 808, v7);
 store64(v9 + 800, v5);
 store64(v9 + 792, 0xa54ff53a5f1d36f1);
 store64(v9 + 784, 0x3c6ef372fe94b82b);
 store64(v9 + 776, v2);
 store64(v9 + 768, v4);
 fill(v22, 0, 152);
 v5 = load64(v9 + 272);
 v7 = load64(v9 + 128) + v5;
 store64(v9 + 128, v7);
 fill(v9 + 1504, 0, 128);
 if (v5 == 0) goto l24;
 copy(v9 + 1504, v19, v5);
l24:;
 fill(v19, 0, 136);
 compress_compress_blake2b_compress(v9, v9 + 1504, v7, 1, load8(v9 + 136));
 store64(v9 + 632, load64(v9 + 56));
 store64(v9 + 624, load64(v9 + 48));
 store64(v9 + 616, load64(v9 + 40));
 store64(v9 + 608, load64(v9 + 32));
 store64(v9 + 600, load64(v9 + 24));
 store64(v9 + 592, load64(v9 + 16));
 store64(v9 + 584, load64(v9 + 8));
 store64(v9 + 576, load64(v9));
 v4 = digest_buffer_digest_into_33c1e97afcdf8a5d(v18, load64(v9 + 1320), v9 + 576, 64, v13);
 store64(v9 + 1320, v4);
 v5 = load64(v9 + 760) + 1;
 store64(v9 + 760, v5);
 v7 = load64(v9 + 1040);
 v2 = load64(v9 + 896);
 v11 = load32(v9 + 752);
 v0 = v1;
l18:;
 v6 += v0;
 v12 = (u64)v11;
 v1 = v12 - (v7 + v2);
 v3 -= v0;
 if (v1 < v3) goto l17;
l16:;
 t4 = digest_buffer_digest_into_33c1e97afcdf8a5d(v9 + 912, v7, v6, v3, v17);
 store64(v9 + 1040, t4);
 copy(v9, v17, 136);
 copy(v9 + 137, v9 + 905, 143);
 copy(v9 + 1504, v13, 280);
 store8(v9 + 136, 1);
 v3 = load64(v9 + 272);
 v1 = load64(v9 + 128) + v3;
 store64(v9 + 128, v1);
 fill(v9 + 576, 0, 128);
 v6 = v9 + 144;
 if (v3 == 0) goto l25;
 copy(v9 + 576, v6, v3);
l25:;
 fill(v6, 0, 136);
 compress_compress_blake2b_compress(v9, v9 + 576, v1, 1, 1);
 store64(v9 + 568, load64(v9 + 56));
 store64(v9 + 560, load64(v9 + 48));
 store64(v9 + 552, load64(v9 + 40));
 store64(v9 + 544, load64(v9 + 32));
 store64(v9 + 536, load64(v9 + 24));
 store64(v9 + 528, load64(v9 + 16));
 store64(v9 + 520, load64(v9 + 8));
 store64(v9 + 512, load64(v9));
 v3 = digest_buffer_digest_into_33c1e97afcdf8a5d(v9 + 1504 + 144, load64(v9 + 1776), v9 + 512, 64,
   v9 + 1504);
 store8(v9 + 1640, 1);
 store64(v9 + 1776, v3);
 copy(v9, v9 + 1504, 280);
 v3 = load64(v9 + 272);
 v1 = load64(v9 + 128) + v3;
 store64(v9 + 128, v1);
 fill(v9 + 576, 0, 128);
 if (v3 == 0) goto l26;
 copy(v9 + 576, v6, v3);
l26:;
 fill(v6, 0, 136);
 compress_compress_blake2b_compress(v9, v9 + 576, v1, 1, load8(v9 + 136));
 v6 = load64(v9);
 v3 = load64(v9 + 8);
 v1 = load64(v9 + 16);
 store64(v14 + 24, load64(v9 + 24));
 store64(v14 + 16, v1);
 store64(v14 + 8, v3);
 store64(v14, v6);
 return 0;
l4:;
 v4 = 0;
 fill(v9 + 1472, 0, 16);
 v11 = (u32)(v5 == 0);
 if (v11) goto l27;
 copy(v9 + 1472, v13, v5);
l27:;
 fill(v9 + 1488, 0, 16);
 v15 = (u32)(v7 == 0);
 if (v15) goto l28;
 copy(v9 + 1488, v12, v7);
l28:;
 store64(v9 + 720, v5);
 store32(v9 + 756, 0);
 store32(v9 + 752, v8);
 store64(v9 + 744, v7);
 store64(v9 + 712, load64(v9 + 1480));
 store64(v9 + 704, load64(v9 + 1472));
 store64(v9 + 728, load64(v9 + 1488));
 store64(v9 + 736, load64(v9 + 1496));
 fill(v9, 0, 32);
 if (v11) goto l29;
 copy(v9, v9 + 704, v5);
l29:;
 v16 = v9 + 728;
 v1 = v9 | 16;
 if (v15) goto l30;
 copy(v1, v16, v7);
l30:;
 v2 = load64(v9);
 v0 = load64(v9 + 8);
 v12 = load64(v9 + 16);
 v13 = load64(v9 + 24);
 fill(v9, 0, 32);
 if (v11) goto l31;
 copy(v9, v9 + 704, v5);
l31:;
 if (v15) goto l32;
 copy(v1, v16, v7);
l32:;
 v17 = load64(v9);
 v18 = load64(v9 + 8);
 v19 = load64(v9 + 16);
 v20 = load64(v9 + 24);
 v13 ^= 0x5be0cd19137e2179;
 store64(v9 + 888, v13);
 v12 ^= 0x1f83d9abfb41bd6b;
 store64(v9 + 880, v12);
 v0 ^= 0x9b05688c2b3e6c1f;
 store64(v9 + 872, v0);
 v22 = v2 ^ 0x510e527fade682d1;
 store64(v9 + 864, v22);
 store64(v9 + 856, 0xa54ff53a5f1d36f1);
 store64(v9 + 848, 0x3c6ef372fe94b82b);
 store64(v9 + 840, 0xbb67ae8584caa73b);
 v1 = (u64)v8;
 v2 = ((v1 << 32) | 0x2000040) ^ 0x6a09e667f3bcc908;
 store64(v9 + 832, v2);
 store64(v9 + 824, v13);
 store64(v9 + 816, v12);
 store64(v9 + 808, v0);
 store64(v9 + 800, v22);
 store64(v9 + 792, 0xa54ff53a5f1d36f1);
 store64(v9 + 784, 0x3c6ef372fe94b82b);
 store64(v9 + 776, 0xbb67ae8584caa73b);
 store64(v9 + 768, v2);
 store64(v9 + 712, load64(v9 + 1480));
 store64(v9 + 704, load64(v9 + 1472));
 store64(v9 + 720, v5);
 store64(v9 + 728, load64(v9 + 1488));
 store64(v9 + 736, load64(v9 + 1496));
 fill(v9 + 756, 0, 12);
 store32(v9 + 752, v8);
 store64(v9 + 744, v7);
 v22 = v9 + 896;
 fill(v22, 0, 152);
 v5 = v20 ^ 0x5be0cd19137e2179;
 store64(v9 + 1168, v5);
 v7 = v19 ^ 0x1f83d9abfb41bd6b;
 store64(v9 + 1160, v7);
 v0 = v18 ^ 0x9b05688c2b3e6c1f;
 store64(v9 + 1152, v0);
 v12 = v17 ^ 0x510e527fade682d1;
 store64(v9 + 1144, v12);
 store64(v9 + 1136, 0xa54ff53a5f1d36f1);
 store64(v9 + 1128, 0x3c6ef372fe94b82a);
 store64(v9 + 1120, 0xbb67ae8584caa73b);
 store64(v9 + 1112, v2);
 store64(v9 + 1104, v5);
 store64(v9 + 1096, v7);
 store64(v9 + 1088, v0);
 store64(v9 + 1080, v12);
 store64(v9 + 1072, 0xa54ff53a5f1d36f1);
 store64(v9 + 1064, 0x3c6ef372fe94b82a);
 store64(v9 + 1056, 0xbb67ae8584caa73b);
 store64(v9 + 1048, v2);
 fill(v9 + 1176, 0, 152);
 v13 = v9 + 1048;
 if ((v1 << 2) < v3) goto l34;
 v5 = 0;
 v11 = v8;
 goto l33;
l34:;
 v19 = (v9 + 1504) | 16;
 v17 = v9 + 1192;
 v18 = v9 + 64;
 v4 = 0;
 v5 = 0;
l35:;
 fill(v9 + 1504, 0, 64);
 tree_nodes_Nodes_leaf_digest(v9 + 1504, v9 + 704, v5, 0, v6, v1);
 fill(v18, 0, 448);
 store64(v9 + 56, load64(v9 + 1560));
 store64(v9 + 48, load64(v9 + 1552));
 store64(v9 + 40, load64(v9 + 1544));
 store64(v9 + 32, load64(v9 + 1536));
 store64(v9 + 24, load64(v9 + 1528));
 store64(v9 + 16, load64(v9 + 1520));
 store64(v9 + 8, load64(v9 + 1512));
 store64(v9, load64(v9 + 1504));
 v4 = digest_buffer_digest_into_33c1e97afcdf8a5d(v17, v4, v9, 64, v13);
 store64(v9 + 1320, v4);
 v5 = load64(v9 + 760) + 1;
 store64(v9 + 760, v5);
 v11 = load32(v9 + 752);
 v1 = load64(v9 + 744);
 v7 = load64(v9 + 720);
 fill(v9 + 1504, 0, 32);
 if (v7 == 0) goto l36;
 copy(v9 + 1504, v9 + 704, v7);
l36:;
 if (v1 == 0) goto l37;
 copy(v19, v16, v1);
l37:;
 store64(v9 + 856, 0xa54ff53a5f1d36f1);
 store64(v9 + 848, 0x3c6ef372fe94b82b);
 v7 = v5 ^ 0xbb67ae8584caa73b;
 store64(v9 + 840, v7);
 v1 = (u64)v11;
 v2 = ((v1 << 32) | 0x2000040) ^ 0x6a09e667f3bcc908;
 store64(v9 + 832, v2);
 store64(v9 + 792, 0xa54ff53a5f1d36f1);
 store64(v9 + 784, 0x3c6ef372fe94b82b);
 store64(v9 + 776, v7);
 store64(v9 + 768, v2);
 v7 = load64(v9 + 1528) ^ 0x5be0cd19137e2179;
 store64(v9 + 888, v7);
 v2 = load64(v9 + 1520) ^ 0x1f83d9abfb41bd6b;
 store64(v9 + 880, v2);
 v0 = load64(v9 + 1512) ^ 0x9b05688c2b3e6c1f;
 store64(v9 + 872, v0);
 v12 = load64(v9 + 1504) ^ 0x510e527fade682d1;
 store64(v9 + 864, v12);
 store64(v9 + 824, v7);
 store64(v9 + 816, v2);
 store64(v9 + 808, v0);
 store64(v9 + 800, v12);
 fill(v22, 0, 152);
 v7 = (u64)v8;
 v6 += v7;
 v8 = v11;
 v3 -= v7;
 if ((v1 << 2) < v3) goto l35;
l33:;
 v17 = v9 + 704 + 64;
 v7 = 0;
 if (v1 >= v3) goto l38;
 v23 = (v9 + 1504) | 16;
 v24 = v9 | 16;
 v20 = v9 + 64;
 v18 = v9 + 1192;
 v19 = v9 + 144;
 v21 = v9 + 912;
 v2 = 0;
 v7 = 0;
 v12 = v1;
l39:;
 if (v7 != (0 - v2)) goto l41;
 if ((v12 << 2) >= v3) goto l41;
 v7 = 0;
 fill(v9 + 1504, 0, 64);
 tree_nodes_Nodes_leaf_digest(v9 + 1504, v9 + 704, v5, 0, v6, v12);
 fill(v20, 0, 448);
 store64(v9 + 56, load64(v9 + 1560));
 store64(v9 + 48, load64(v9 + 1552));
 store64(v9 + 40, load64(v9 + 1544));
 store64(v9 + 32, load64(v9 + 1536));
 store64(v9 + 24, load64(v9 + 1528));
 store64(v9 + 16, load64(v9 + 1520));
 store64(v9 + 8, load64(v9 + 1512));
 store64(v9, load64(v9 + 1504));
 v4 = digest_buffer_digest_into_33c1e97afcdf8a5d(v18, v4, v9, 64, v13);
 store64(v9 + 1320, v4);
 v5 = load64(v9 + 760) + 1;
 store64(v9 + 760, v5);
 v8 = load32(v9 + 752);
 v1 = load64(v9 + 744);
 v2 = load64(v9 + 720);
 fill(v9 + 1504, 0, 32);
 if (v2 == 0) goto l42;
 copy(v9 + 1504, v9 + 704, v2);
l42:;
 if (v1 == 0) goto l43;
 copy(v23, v16, v1);
l43:;
 store64(v9 + 856, 0xa54ff53a5f1d36f1);
 store64(v9 + 848, 0x3c6ef372fe94b82b);
 v1 = v5 ^ 0xbb67ae8584caa73b;
 store64(v9 + 840, v1);
 v2 = (((u64)v8 << 32) | 0x2000040) ^ 0x6a09e667f3bcc908;
 store64(v9 + 832, v2);
 store64(v9 + 792, 0xa54ff53a5f1d36f1);
 store64(v9 + 784, 0x3c6ef372fe94b82b);
 store64(v9 + 776, v1);
 store64(v9 + 768, v2);
 v1 = load64(v9 + 1528) ^ 0x5be0cd19137e2179;
 store64(v9 + 888, v1);
 v2 = load64(v9 + 1520) ^ 0x1f83d9abfb41bd6b;
 store64(v9 + 880, v2);
 v0 = load64(v9 + 1512) ^ 0x9b05688c2b3e6c1f;
 store64(v9 + 872, v0);
 v12 = load64(v9 + 1504) ^ 0x510e527fade682d1;
 store64(v9 + 864, v12);
 store64(v9 + 824, v1);
 store64(v9 + 816, v2);
 store64(v9 + 808, v0);
 store64(v9 + 800, v12);
 fill(v22, 0, 152);
 v0 = (u64)v11;
 v11 = v8;
 v2 = 0;
 goto l40;
l41:;
 t8 = digest_buffer_digest_into_33c1e97afcdf8a5d(v21, v7, v6, v1, v17);
 store64(v9 + 1040, t8);
 v4 = (u64)load32(v9 + 752);
 v2 = load64(v9 + 760);
 v5 = load64(v9 + 744);
 v7 = load64(v9 + 720);
 fill(v9, 0, 32);
 if (v7 == 0) goto l44;
 copy(v9, v9 + 704, v7);
l44:;
 if (v5 == 0) goto l45;
 copy(v24, v16, v5);
l45:;
 v5 = load64(v9);
 v7 = load64(v9 + 8);
 v0 = load64(v9 + 16);
 v12 = load64(v9 + 24);
 copy(v9, v17, 280);
 v12 ^= 0x5be0cd19137e2179;
 store64(v9 + 888, v12);
 v0 ^= 0x1f83d9abfb41bd6b;
 store64(v9 + 880, v0);
 v7 ^= 0x9b05688c2b3e6c1f;
 store64(v9 + 872, v7);
 v5 ^= 0x510e527fade682d1;
 store64(v9 + 864, v5);
 store64(v9 + 856, 0xa54ff53a5f1d36f1);
 store64(v9 + 848, 0x3c6ef372fe94b82b);
 v2 = (v2 + 1) ^ 0xbb67ae8584caa73b;
 store64(v9 + 840, v2);
 v4 = ((v4 << 32) | 0x2000040) ^ 0x6a09e667f3bcc908;
 store64(v9 + 832, v4);
 store64(v9 + 824, v12);
 store64(v9 + 816, v0);
 store64(v9 + 808, v7);
 store64(v9 + 800, v5);
 store64(v9 + 792, 0xa54ff53a5f1d36f1);
 store64(v9 + 784, 0x3c6ef372fe94b82b);
 store64(v9 + 776, v2);
 store64(v9 + 768, v4);
 fill(v22, 0, 152);
 v5 = load64(v9 + 272);
 v7 = load64(v9 + 128) + v5;
 store64(v9 + 128, v7);
 fill(v9 + 1504, 0, 128);
 if (v5 == 0) goto l46;
 copy(v9 + 1504, v19, v5);
l46:;
 fill(v19, 0, 136);
 compress_compress_blake2b_compress(v9, v9 + 1504, v7, 1, load8(v9 + 136));
 store64(v9 + 632, load64(v9 + 56));
 store64(v9 + 624, load64(v9 + 48));
 store64(v9 + 616, load64(v9 + 40));
 store64(v9 + 608, load64(v9 + 32));
 store64(v9 + 600, load64(v9 + 24));
 store64(v9 + 592, load64(v9 + 16));
 store64(v9 + 584, load64(v9 + 8));
 store64(v9 + 576, load64(v9));
 v4 = digest_buffer_digest_into_33c1e97afcdf8a5d(v18, load64(v9 + 1320), v9 + 576, 64, v13);
 store64(v9 + 1320, v4);
 v5 = load64(v9 + 760) + 1;
 store64(v9 + 760, v5);
 v7 = load64(v9 + 1040);
 v2 = load64(v9 + 896);
 v11 = load32(v9 + 752);
 v0 = v1;
l40:;
 v6 += v0;
 v12 = (u64)v11;
 v1 = v12 - (v7 + v2);
 v3 -= v0;
 if (v1 < v3) goto l39;
l38:;
 t10 = digest_buffer_digest_into_33c1e97afcdf8a5d(v9 + 912, v7, v6, v3, v17);
 store64(v9 + 1040, t10);
 copy(v9, v17, 136);
 copy(v9 + 137, v9 + 905, 143);
 copy(v9 + 1504, v13, 280);
 store8(v9 + 136, 1);
 v3 = load64(v9 + 272);
 v1 = load64(v9 + 128) + v3;
 store64(v9 + 128, v1);
 fill(v9 + 576, 0, 128);
 v6 = v9 + 144;
 if (v3 == 0) goto l47;
 copy(v9 + 576, v6, v3);
l47:;
 fill(v6, 0, 136);
 compress_compress_blake2b_compress(v9, v9 + 576, v1, 1, 1);
 store64(v9 + 568, load64(v9 + 56));
 store64(v9 + 560, load64(v9 + 48));
 store64(v9 + 552, load64(v9 + 40));
 store64(v9 + 544, load64(v9 + 32));
 store64(v9 + 536, load64(v9 + 24));
 store64(v9 + 528, load64(v9 + 16));
 store64(v9 + 520, load64(v9 + 8));
 store64(v9 + 512, load64(v9));
 v3 = digest_buffer_digest_into_33c1e97afcdf8a5d(v9 + 1504 + 144, load64(v9 + 1776), v9 + 512, 64,
   v9 + 1504);
 store8(v9 + 1640, 1);
 store64(v9 + 1776, v3);
 copy(v9, v9 + 1504, 280);
 v3 = load64(v9 + 272);
 v1 = load64(v9 + 128) + v3;
 store64(v9 + 128, v1);
 fill(v9 + 576, 0, 128);
 if (v3 == 0) goto l48;
 copy(v9 + 576, v6, v3);
l48:;
 fill(v6, 0, 136);
 compress_compress_blake2b_compress(v9, v9 + 576, v1, 1, load8(v9 + 136));
 v6 = load64(v9);
 v3 = load64(v9 + 8);
 v1 = load64(v9 + 16);
 v5 = load64(v9 + 24);
 v7 = load64(v9 + 32);
 v4 = load64(v9 + 40);
 v2 = load64(v9 + 48);
 store64(v14 + 56, load64(v9 + 56));
 store64(v14 + 48, v2);
 store64(v14 + 40, v4);
 store64(v14 + 32, v7);
 store64(v14 + 24, v5);
 store64(v14 + 16, v1);
 store64(v14 + 8, v3);
 store64(v14, v6);
 return 0;
l3:;
 fill(v9 + 576, 0, 16);
 v15 = (u32)(v5 == 0);
 if (v15) goto l49;
 copy(v9 + 576, v13, v5);
l49:;
 fill(v9 + 1504, 0, 16);
 v25 = (u32)(v7 == 0);
 if (v25) goto l50;
 copy(v9 + 1504, v12, v7);
l50:;
 store64(v9 + 16, v5);
 v11 = 0;
 store32(v9 + 52, 0);
 store64(v9 + 40, v7);
 store64(v9 + 8, load64(v9 + 584));
 store64(v9, load64(v9 + 576));
 store64(v9 + 24, load64(v9 + 1504));
 store64(v9 + 32, load64(v9 + 1512));
 store32(v9 + 48, v8);
 fill(v9 + 704, 0, 32);
 if (v15) goto l51;
 copy(v9 + 704, v9, v5);
l51:;
 v4 = v9 + 24;
 v2 = (v9 + 704) | 16;
 if (v25) goto l52;
 copy(v2, v4, v7);
l52:;
 v0 = load64(v9 + 704);
 v22 = load64(v9 + 712);
 v17 = load64(v9 + 720);
 v16 = load64(v9 + 728);
 fill(v9 + 704, 0, 32);
 if (v15) goto l53;
 copy(v9 + 704, v9, v5);
l53:;
 if (v25) goto l54;
 copy(v2, v4, v7);
l54:;
 fill(v9 + 1472, 0, 16);
 v4 = load64(v9 + 704);
 v2 = load64(v9 + 712);
 v18 = load64(v9 + 720);
 v19 = load64(v9 + 728);
 if (v15) goto l55;
 copy(v9 + 1472, v13, v5);
l55:;
 fill(v9 + 1488, 0, 16);
 if (v25) goto l56;
 copy(v9 + 1488, v12, v7);
l56:;
 v12 = v16 ^ 0x5be0cd19137e2179;
 store64(v9 + 824, v12);
 v13 = v17 ^ 0x1f83d9abfb41bd6b;
 store64(v9 + 816, v13);
 v22 ^= 0x9b05688c2b3e6c1f;
 store64(v9 + 808, v22);
 v0 ^= 0x510e527fade682d1;
 store64(v9 + 800, v0);
 store64(v9 + 792, 0xa54ff53a5f1d36f1);
 store64(v9 + 784, 0x3c6ef372fe94b82b);
 store64(v9 + 776, 0xbb67ae8584caa73b);
 v17 = (u64)v8;
 v16 = v17 << 32;
 v20 = (v16 | 0x2000040) ^ 0x6a09e667f3bcc908;
 store64(v9 + 768, v20);
 store64(v9 + 760, v12);
 store64(v9 + 752, v13);
 store64(v9 + 744, v22);
 store64(v9 + 736, v0);
 store64(v9 + 728, 0xa54ff53a5f1d36f1);
 store64(v9 + 720, 0x3c6ef372fe94b82b);
 store64(v9 + 712, 0xbb67ae8584caa73b);
 store64(v9 + 704, v20);
 store64(v9 + 512, load64(v9 + 1472));
 store64(v9 + 520, load64(v9 + 1480));
 store64(v9 + 528, load64(v9 + 1488));
 store64(v9 + 536, load64(v9 + 1496));
 fill(v9 + 832, 0, 16);
 store32(v9 + 848, 64);
 fill(v9 + 852, 0, 196);
 store64(v9 + 1176, 0);
 v0 = v19 ^ 0x5be0cd19137e2179;
 store64(v9 + 1168, v0);
 v12 = v18 ^ 0x1f83d9abfb41bd6b;
 store64(v9 + 1160, v12);
 v2 ^= 0x9b05688c2b3e6c1f;
 store64(v9 + 1152, v2);
 v4 ^= 0x510e527fade682d1;
 store64(v9 + 1144, v4);
 store64(v9 + 1136, 0xa54ff53a5f1d36f1);
 store64(v9 + 1128, 0x3c6ef372fe94b82a);
 store64(v9 + 1120, 0xbb67ae8584caa73b);
 store64(v9 + 1104, v0);
 store64(v9 + 1096, v12);
 store64(v9 + 1088, v2);
 store64(v9 + 1080, v4);
 store64(v9 + 1072, 0xa54ff53a5f1d36f1);
 store64(v9 + 1064, 0x3c6ef372fe94b82a);
 store64(v9 + 1056, 0xbb67ae8584caa73b);
 store64(v9 + 1184, 0);
 v8 = (u32)v1;
 store32(v9 + 1192, v8);
 v1 = ((u64)(v8 | 0x2000000) | v16) ^ 0x6a09e667f3bcc908;
 store64(v9 + 1112, v1);
 store64(v9 + 1048, v1);
 fill(v9 + 1196, 0, 204);
 store64(v9 + 1416, v7);
 store64(v9 + 1408, v5);
 store64(v9 + 1400, v17);
 store64(v9 + 1424, load64(v9 + 512));
 store64(v9 + 1432, load64(v9 + 520));
 store64(v9 + 1440, load64(v9 + 528));
 store64(v9 + 1448, load64(v9 + 536));
 state_tree_TreeState_update(v9 + 704, v6, v3);
 store64(v9, load64(v9 + 704));
 store64(v9 + 8, load64(v9 + 712));
 store64(v9 + 16, load64(v9 + 720));
 store64(v9 + 24, load64(v9 + 728));
 store64(v9 + 32, load64(v9 + 736));
 store64(v9 + 40, load64(v9 + 744));
 store64(v9 + 48, load64(v9 + 752));
 store64(v9 + 56, load64(v9 + 760));
 store64(v9 + 64, load64(v9 + 768));
 store64(v9 + 72, load64(v9 + 776));
 store64(v9 + 80, load64(v9 + 784));
 store64(v9 + 88, load64(v9 + 792));
 store64(v9 + 96, load64(v9 + 800));
 store64(v9 + 104, load64(v9 + 808));
 store64(v9 + 112, load64(v9 + 816));
 store64(v9 + 120, load64(v9 + 824));
 v6 = load64(v9 + 832);
 v3 = load64(v9 + 840);
 store32(v9 + 144, load32(v9 + 848));
 store64(v9 + 136, v3);
 store64(v9 + 128, v6);
 copy(v9 + 152, v9 + 704 + 152, 128);
 store32(v9 + 148, 1);
 store64(v9 + 336, load64(v9 + 1040));
 store64(v9 + 328, load64(v9 + 1032));
 store64(v9 + 320, load64(v9 + 1024));
 store64(v9 + 312, load64(v9 + 1016));
 store64(v9 + 304, load64(v9 + 1008));
 store64(v9 + 296, load64(v9 + 1000));
 store64(v9 + 288, load64(v9 + 992));
 store64(v9 + 280, load64(v9 + 984));
 store64(v9 + 1504, load64(v9 + 1048));
 store64(v9 + 1512, load64(v9 + 1056));
 store64(v9 + 1520, load64(v9 + 1064));
 store64(v9 + 1528, load64(v9 + 1072));
 store64(v9 + 1536, load64(v9 + 1080));
 store64(v9 + 1544, load64(v9 + 1088));
 store64(v9 + 1552, load64(v9 + 1096));
 store64(v9 + 1560, load64(v9 + 1104));
 store64(v9 + 1624, load64(v9 + 1168));
 store64(v9 + 1616, load64(v9 + 1160));
 store64(v9 + 1608, load64(v9 + 1152));
 store64(v9 + 1600, load64(v9 + 1144));
 store64(v9 + 1592, load64(v9 + 1136));
 store64(v9 + 1584, load64(v9 + 1128));
 store64(v9 + 1576, load64(v9 + 1120));
 store64(v9 + 1568, load64(v9 + 1112));
 v6 = load64(v9 + 1176);
 v3 = load64(v9 + 1184);
 store64(v9 + 1648, load64(v9 + 1192));
 store64(v9 + 1640, v3);
 store64(v9 + 1632, v6);
 copy(v9 + 1504 + 152, v9 + 1200, 128);
 fill(v9 + 576, 0, 64);
 store64(v9 + 1840, load64(v9 + 1384));
 store64(v9 + 1832, load64(v9 + 1376));
 store64(v9 + 1824, load64(v9 + 1368));
 store64(v9 + 1816, load64(v9 + 1360));
 store64(v9 + 1808, load64(v9 + 1352));
 store64(v9 + 1800, load64(v9 + 1344));
 store64(v9 + 1792, load64(v9 + 1336));
 store64(v9 + 1784, load64(v9 + 1328));
 state_blake2b_State_write_digest(v9, v9 + 576);
 state_blake2b_State_absorb_blocks(v9 + 1504, v9 + 576, 64);
 store32(v9 + 1652, 1);
 state_blake2b_State_write_digest(v9 + 1504, v14);
l2:;
 return v11;
}

/* rattle::export vulfsjor_ffi_tree_init */
APART u32 exported_tree_init(u64 v0, u64 v1, u64 v2, u64 v3, u64 v4, u64 v5, u32 v6) {
 u32 v10, v11;
 u64 v7, v9, v12, v13, v14, v15, v16, v17, v18, v19;
 FRAME(26);
 v7 = top;
 v7 = (v7 - 160) & 0xffffffffffffffe0;
 if ((v1 - 1) > 63) goto l1;
 if (v3 > 16) goto l1;
 if (v5 > 16) goto l1;
 if (v6 == 0) goto l1;
 v9 = v4 == 0 ? UINT64_C(4096) : 0;
 v2 += (v2 == 0 ? UINT64_C(4096) : 0);
 fill(v7 + 64, 0, 16);
 v10 = (u32)(v3 == 0);
 if (v10) goto l3;
 copy(v7 + 64, v2, v3);
l3:;
 v4 += v9;
 fill(v7 + 80, 0, 16);
 v11 = (u32)(v5 == 0);
 if (v11) goto l4;
 copy(v7 + 80, v4, v5);
l4:;
 store64(v7 + 24, v3);
 store32(v7 + 60, 0);
 store64(v7 + 48, v5);
 store64(v7 + 16, load64(v7 + 72));
 store64(v7 + 8, load64(v7 + 64));
 store64(v7 + 32, load64(v7 + 80));
 store64(v7 + 40, load64(v7 + 88));
 store32(v7 + 56, v6);
 fill(v7 + 96, 0, 32);
 if (v10) goto l5;
 copy(v7 + 96, v7 + 8, v3);
l5:;
 v9 = v7 + 32;
 v12 = (v7 + 96) | 16;
 if (v11) goto l6;
 copy(v12, v9, v5);
l6:;
 v13 = load64(v7 + 96);
 v14 = load64(v7 + 104);
 v15 = load64(v7 + 112);
 v16 = load64(v7 + 120);
 fill(v7 + 96, 0, 32);
 if (v10) goto l7;
 copy(v7 + 96, v7 + 8, v3);
l7:;
 if (v11) goto l8;
 copy(v12, v9, v5);
l8:;
 fill(v7 + 144, 0, 16);
 v9 = load64(v7 + 96);
 v12 = load64(v7 + 104);
 v17 = load64(v7 + 112);
 v18 = load64(v7 + 120);
 if (v10) goto l9;
 copy(v7 + 144, v2, v3);
l9:;
 fill(v7 + 96, 0, 16);
 if (v11) goto l10;
 copy(v7 + 96, v4, v5);
l10:;
 v4 = v16 ^ 0x5be0cd19137e2179;
 store64(v0 + 120, v4);
 v2 = v15 ^ 0x1f83d9abfb41bd6b;
 store64(v0 + 112, v2);
 v14 ^= 0x9b05688c2b3e6c1f;
 store64(v0 + 104, v14);
 v13 ^= 0x510e527fade682d1;
 store64(v0 + 96, v13);
 store64(v0 + 88, 0xa54ff53a5f1d36f1);
 store64(v0 + 80, 0x3c6ef372fe94b82b);
 store64(v0 + 72, 0xbb67ae8584caa73b);
 v15 = (u64)v6;
 v16 = v15 << 32;
 v19 = (v16 | 0x2000040) ^ 0x6a09e667f3bcc908;
 store64(v0 + 64, v19);
 store64(v0 + 56, v4);
 store64(v0 + 48, v2);
 store64(v0 + 40, v14);
 store64(v0 + 32, v13);
 store64(v0 + 24, 0xa54ff53a5f1d36f1);
 store64(v0 + 16, 0x3c6ef372fe94b82b);
 store64(v0 + 8, 0xbb67ae8584caa73b);
 store64(v0, v19);
 store64(v7 + 8, load64(v7 + 144));
 store64(v7 + 16, load64(v7 + 152));
 store64(v7 + 24, load64(v7 + 96));
 store64(v7 + 32, load64(v7 + 104));
 fill(v0 + 128, 0, 16);
 store32(v0 + 144, 64);
 fill(v0 + 148, 0, 196);
 store64(v0 + 472, 0);
 v4 = v18 ^ 0x5be0cd19137e2179;
 store64(v0 + 464, v4);
 v2 = v17 ^ 0x1f83d9abfb41bd6b;
 store64(v0 + 456, v2);
 v12 ^= 0x9b05688c2b3e6c1f;
 store64(v0 + 448, v12);
 v9 ^= 0x510e527fade682d1;
 store64(v0 + 440, v9);
 store64(v0 + 432, 0xa54ff53a5f1d36f1);
 store64(v0 + 424, 0x3c6ef372fe94b82a);
 store64(v0 + 416, 0xbb67ae8584caa73b);
 v6 = (u32)v1;
 v1 = ((u64)(v6 | 0x2000000) | v16) ^ 0x6a09e667f3bcc908;
 store64(v0 + 408, v1);
 store64(v0 + 400, v4);
 store64(v0 + 392, v2);
 store64(v0 + 384, v12);
 store64(v0 + 376, v9);
 store64(v0 + 368, 0xa54ff53a5f1d36f1);
 store64(v0 + 360, 0x3c6ef372fe94b82a);
 store64(v0 + 352, 0xbb67ae8584caa73b);
 store64(v0 + 344, v1);
 store64(v0 + 480, 0);
 store32(v0 + 488, v6);
 fill(v0 + 492, 0, 204);
 store64(v0 + 712, v5);
 store64(v0 + 704, v3);
 store64(v0 + 696, v15);
 store64(v0 + 720, load64(v7 + 8));
 store64(v0 + 728, load64(v7 + 16));
 store64(v0 + 736, load64(v7 + 24));
 store64(v0 + 744, load64(v7 + 32));
 return 0;
l1:;
 fill(v0, 0, 752);
 return 0xffffffff;
}

/* blake2_state::tree::TreeState::is_ready */
APART u32 state_tree_TreeState_is_ready(u64 v0) {
 u32 v1, v2, v3, v5;
 u64 v4, v6, v7, t0;
 v1 = 0;
 v2 = load32(v0 + 144);
 if ((v2 - 1) > 63) goto l2;
 v3 = load32(v0 + 136);
 if (v3 > 128) goto l2;
 if (load32(v0 + 140) > 128) goto l2;
 v4 = load64(v0 + 128);
 if (v4 > sign64(~v3, 0x80000000)) goto l2;
 if ((load32(v0 + 488) - 1) > 63) goto l2;
 v5 = load32(v0 + 480);
 if (v5 > 128) goto l2;
 if (load32(v0 + 484) > 128) goto l2;
 if (v2 != 64) goto l2;
 v6 = load64(v0 + 472);
 if (v6 > sign64(~v5, 0x80000000)) goto l2;
 v7 = load64(v0 + 696);
 if ((v7 - 1) > 0xfffffffe) goto l2;
 if (load64(v0 + 704) > 16) goto l2;
 if (load64(v0 + 712) > 16) goto l2;
 v4 += (u64)v3;
 if (v4 > v7) goto l2;
 v0 = load64(v0 + 688);
 t0 = div_u64(0x3ffffffffffffff - v4, v7);
 if (v0 > t0) goto l2;
 if (v0 > 0x3fffffffffffffe) goto l2;
 v1 = (u32)((v6 + (u64)v5) == (v0 << 6));
l2:;
 return v1;
}

/* rattle::export vulfsjor_ffi_tree_update */
APART u32 exported_tree_update(u64 v0, u64 v1, u64 v2) {
 u32 v4, t0;
 v4 = 0xffffffff;
 t0 = state_tree_TreeState_is_ready(v0);
 if (t0 == 0) goto l2;
 if ((0x3ffffffffffffff - (load64(v0 + 128) + (load64(v0 + 696) * load64(v0 + 688)) + (u64)load32(v0
   + 136))) < v2) goto l2;
 state_tree_TreeState_update(v0, v1 + (v1 == 0 ? UINT64_C(4096) : 0), v2);
 v4 = 0;
l2:;
 return v4;
}

/* blake2_state::tree::TreeState::write_root */
APART void state_tree_TreeState_write_root(u64 v0, u64 v1) {
 u64 v2, v3, v4;
 FRAME(96);
 v2 = top - 752;
 store64(v2 + 400, load64(v0 + 56));
 store64(v2 + 392, load64(v0 + 48));
 store64(v2 + 384, load64(v0 + 40));
 store64(v2 + 376, load64(v0 + 32));
 store64(v2 + 368, load64(v0 + 24));
 store64(v2 + 360, load64(v0 + 16));
 store64(v2 + 352, load64(v0 + 8));
 store64(v2 + 344, load64(v0));
 store64(v2 + 408, load64(v0 + 64));
 store64(v2 + 416, load64(v0 + 72));
 store64(v2 + 424, load64(v0 + 80));
 store64(v2 + 432, load64(v0 + 88));
 store64(v2 + 440, load64(v0 + 96));
 store64(v2 + 448, load64(v0 + 104));
 store64(v2 + 456, load64(v0 + 112));
 store64(v2 + 464, load64(v0 + 120));
 store64(v2 + 472, load64(v0 + 128));
 store32(v2 + 488, load32(v0 + 144));
 store64(v2 + 480, load64(v0 + 136));
 copy(v2 + 344 + 152, v0 + 152, 128);
 store32(v2 + 492, 1);
 store64(v2 + 680, load64(v0 + 336));
 store64(v2 + 672, load64(v0 + 328));
 store64(v2 + 664, load64(v0 + 320));
 store64(v2 + 656, load64(v0 + 312));
 store64(v2 + 648, load64(v0 + 304));
 store64(v2 + 640, load64(v0 + 296));
 store64(v2 + 632, load64(v0 + 288));
 store64(v2 + 624, load64(v0 + 280));
 store64(v2, load64(v0 + 344));
 store64(v2 + 8, load64(v0 + 352));
 store64(v2 + 16, load64(v0 + 360));
 store64(v2 + 24, load64(v0 + 368));
 store64(v2 + 32, load64(v0 + 376));
 store64(v2 + 40, load64(v0 + 384));
 store64(v2 + 48, load64(v0 + 392));
 store64(v2 + 56, load64(v0 + 400));
 store64(v2 + 120, load64(v0 + 464));
 store64(v2 + 112, load64(v0 + 456));
 store64(v2 + 104, load64(v0 + 448));
 store64(v2 + 96, load64(v0 + 440));
 store64(v2 + 88, load64(v0 + 432));
 store64(v2 + 80, load64(v0 + 424));
 store64(v2 + 72, load64(v0 + 416));
 store64(v2 + 64, load64(v0 + 408));
 v3 = load64(v0 + 472);
 v4 = load64(v0 + 480);
 store64(v2 + 144, load64(v0 + 488));
 store64(v2 + 136, v4);
 store64(v2 + 128, v3);
 copy(v2 + 152, v0 + 496, 128);
 fill(v2 + 688, 0, 64);
 store64(v2 + 336, load64(v0 + 680));
 store64(v2 + 328, load64(v0 + 672));
 store64(v2 + 320, load64(v0 + 664));
 store64(v2 + 312, load64(v0 + 656));
 store64(v2 + 304, load64(v0 + 648));
 store64(v2 + 296, load64(v0 + 640));
 store64(v2 + 288, load64(v0 + 632));
 store64(v2 + 280, load64(v0 + 624));
 state_blake2b_State_write_digest(v2 + 344, v2 + 688);
 state_blake2b_State_absorb_blocks(v2, v2 + 688, 64);
 store32(v2 + 148, 1);
 state_blake2b_State_write_digest(v2, v1);
 return;
}

/* rattle::export vulfsjor_ffi_tree_final */
APART u32 exported_tree_final(u64 v0, u64 v1, u64 v2) {
 u32 v4, t0;
 v4 = 0xffffffff;
 t0 = state_tree_TreeState_is_ready(v0);
 if (t0 == 0) goto l2;
 if (v2 != (u64)load32(v0 + 488)) goto l2;
 state_tree_TreeState_write_root(v0, v1 + (v1 == 0 ? UINT64_C(4096) : 0));
 v4 = 0;
 fill(v0, 0, 752);
l2:;
 return v4;
}

/* rattle::export vulfsjor_ffi_tree_wipe */
APART void exported_tree_wipe(u64 v0) {
 fill(v0, 0, 752);
}

/* rattle::export vulfsjor_ffi_tree_digest_size */
APART u64 exported_tree_digest_size(u64 v0) {
 u32 t0;
 u64 v2;
 v2 = 0;
 t0 = state_tree_TreeState_is_ready(v0);
 if (t0 == 0) goto l2;
 v2 = (u64)load32(v0 + 488);
l2:;
 return v2;
}

/* rattle::export vulfsjor_ffi_tree_count */
APART u64 exported_tree_count(u64 v0) {
 u32 t0;
 u64 v2;
 v2 = 0;
 t0 = state_tree_TreeState_is_ready(v0);
 if (t0 == 0) goto l2;
 v2 = (load64(v0 + 696) * load64(v0 + 688)) + load64(v0 + 128) + (u64)load32(v0 + 136);
l2:;
 return v2;
}

/* rattle::export vulfsjor_ffi_tree_leaf_length */
APART u32 exported_tree_leaf_length(u64 v0) {
 u32 v2, t0;
 v2 = 0;
 t0 = state_tree_TreeState_is_ready(v0);
 if (t0 == 0) goto l2;
 v2 = load32(v0 + 696);
l2:;
 return v2;
}

/* rattle::export vulfsjor_ffi_tree_state_size */
APART void exported_tree_state_size(void) {

}

/* vulfsjor_ffi_tree_state_size */
APART u64 module_tree_state_size(void) {
 exported_tree_state_size();
 return 752;
}

/* rattle::export vulfsjor_ffi_tree_leaf_count */
APART u64 exported_tree_leaf_count(u64 v0, u32 v1) {
 u64 v2, v3;
 if (v1) goto l1;
 return 0;
l1:;
 v2 = (u64)v1;
 v3 = div_u64(v0, v2);
 v0 = v3 + (u64)(u32)((v0 - (v3 * v2)) != 0);
 return v0 > 1 ? v0 : 1;
}

/* blake2_tree::ranges::hash_leaves */
APART void tree_ranges_hash_leaves(u64 v0, u64 v1, u64 v2, u64 v3, u32 v4, u64 v5, u32 v6, u64 v7,
        u64 v8, u64 v9) {
 u64 v10, v11, v12, v13, v14, v15, v16, v17, v18, v19;
 FRAME(94);
 v10 = top - 736;
 v11 = 0;
 fill(v10 + 64, 0, 16);
 if (v1 == 0) goto l2;
 copy(v10 + 64, v0, v1);
l2:;
 fill(v10 + 80, 0, 16);
 if (v3 == 0) goto l3;
 copy(v10 + 80, v2, v3);
l3:;
 store64(v10 + 24, v1);
 store32(v10 + 60, 0);
 store64(v10 + 48, v3);
 store64(v10 + 16, load64(v10 + 72));
 store64(v10 + 8, load64(v10 + 64));
 store64(v10 + 32, load64(v10 + 80));
 store64(v10 + 40, load64(v10 + 88));
 store32(v10 + 56, v4);
 fill(v10 + 96, 0, 512);
 v1 = (u64)v4;
 v12 = v1 << 2;
 if (v12 >= v8) goto l4;
 v13 = v10 + 96 + 64;
 v3 = v9;
 v11 = 0;
l5:;
 fill(v10 + 672, 0, 64);
 tree_nodes_Nodes_leaf_digest(v10 + 672, v10 + 8, v5 + v11, 0, v7, v1);
 fill(v13, 0, 448);
 v2 = load64(v10 + 728);
 store64(v10 + 152, v2);
 v0 = load64(v10 + 720);
 store64(v10 + 144, v0);
 v14 = load64(v10 + 712);
 store64(v10 + 136, v14);
 v15 = load64(v10 + 704);
 store64(v10 + 128, v15);
 v16 = load64(v10 + 696);
 store64(v10 + 120, v16);
 v17 = load64(v10 + 688);
 store64(v10 + 112, v17);
 v18 = load64(v10 + 680);
 store64(v10 + 104, v18);
 v19 = load64(v10 + 672);
 store64(v10 + 96, v19);
 store64(v3 + 56, v2);
 store64(v3 + 48, v0);
 store64(v3 + 40, v14);
 store64(v3 + 32, v15);
 store64(v3 + 24, v16);
 store64(v3 + 16, v17);
 store64(v3 + 8, v18);
 store64(v3, v19);
 v3 += 64;
 v7 += v1;
 v11 += 1;
 v8 -= v1;
 if (v12 < v8) goto l5;
l4:;
 v2 = 0;
 fill(v10 + 608, 0, 128);
 v0 = v11 + v5;
 v11 = v9 + (v11 << 6);
 if (v8 <= v1) goto l6;
 v2 = 0;
 v3 = v11;
l7:;
 tree_nodes_Nodes_leaf_digest(v10 + 672, v10 + 8, v0 + v2, 0, v7, v1);
 store64(v3 + 56, load64(v10 + 728));
 store64(v3 + 48, load64(v10 + 720));
 store64(v3 + 40, load64(v10 + 712));
 store64(v3 + 32, load64(v10 + 704));
 store64(v3 + 24, load64(v10 + 696));
 store64(v3 + 16, load64(v10 + 688));
 store64(v3 + 8, load64(v10 + 680));
 store64(v3, load64(v10 + 672));
 v3 += 64;
 v7 += v1;
 v2 += 1;
 v8 -= v1;
 if (v8 > v1) goto l7;
l6:;
 tree_nodes_Nodes_leaf_digest(v10 + 608, v10 + 8, v2 + v0, v6, v7, v8);
 v3 = v11 + (v2 << 6);
 store64(v3 + 56, load64(v10 + 664));
 store64(v3 + 48, load64(v10 + 656));
 store64(v3 + 40, load64(v10 + 648));
 store64(v3 + 32, load64(v10 + 640));
 store64(v3 + 24, load64(v10 + 632));
 store64(v3 + 16, load64(v10 + 624));
 store64(v3 + 8, load64(v10 + 616));
 store64(v3, load64(v10 + 608));
 return;
}

/* rattle::export vulfsjor_ffi_tree_leaves */
APART u32 exported_tree_leaves(u64 v0, u64 v1, u64 v2, u32 v3, u64 v4, u64 v5, u64 v6, u64 v7, u64
        v8, u64 v9, u32 v10) {
 u32 v12, v14;
 u64 v13, v15, t0, t1;
 v12 = 0xffffffff;
 if (v7 > 16) goto l2;
 if (v9 > 16) goto l2;
 if (v10 == 0) goto l2;
 v13 = (u64)v10;
 v14 = 1;
 if (v3) goto l3;
 t0 = rem_u64(v5, v13);
 v14 = (u32)(t0 == 0);
l3:;
 if (v5 > 0x3ffffffffffffff) goto l2;
 if (((((u32)(v2 == 0) & (u32)(v3 != 0)) | (u32)(v5 != 0)) & v14) == 0) goto l2;
 t1 = div_u64(0x3ffffffffffffff - v5, v13);
 if (v2 > t1) goto l2;
 v15 = div_u64(v5, v13);
 v13 = v15 + (u64)(u32)((v5 - (v15 * v13)) != 0);
 v13 = v13 > 1 ? v13 : 1;
 if ((((v13 << 6) ^ v1) | (v13 >> 58)) != 0) goto l2;
 v12 = 0;
 tree_ranges_hash_leaves(v6 + (v6 == 0 ? UINT64_C(4096) : 0), v7, v8 + (v8 == 0 ? UINT64_C(4096) :
   0), v9, v10, v2, (u32)(v3 != 0), v4 + (v4 == 0 ? UINT64_C(4096) : 0), v5, v0 + (v0 == 0 ?
   UINT64_C(4096) : 0));
l2:;
 return v12;
}

/* rattle::export vulfsjor_ffi_tree_root_of_leaves */
APART u32 exported_tree_root_of_leaves(u64 v0, u64 v1, u64 v2, u64 v3, u64 v4, u64 v5, u64 v6, u64
        v7, u32 v8) {
 u32 v11, v12, v13, v14;
 u64 v9;
 FRAME(66);
 v9 = top;
 v9 = (v9 - 480) & 0xffffffffffffffe0;
 v11 = 0xffffffff;
 if ((v1 - 1) > 63) goto l2;
 if (v5 > 16) goto l2;
 if (v7 > 16) goto l2;
 if (v8 == 0) goto l2;
 if (v3 == 0) goto l2;
 if ((v3 & 63) != 0) goto l2;
 fill(v9 + 416, 0, 16);
 v12 = (u32)(v5 == 0);
 if (v12) goto l3;
 copy(v9 + 416, v4 + (v4 == 0 ? UINT64_C(4096) : 0), v5);
l3:;
 v11 = (u32)(v2 == 0);
 v13 = (u32)(v0 == 0);
 fill(v9 + 432, 0, 16);
 v14 = (u32)(v7 == 0);
 if (v14) goto l4;
 copy(v9 + 432, v6 + (v6 == 0 ? UINT64_C(4096) : 0), v7);
l4:;
 v6 = v11 ? UINT64_C(4096) : 0;
 v4 = v13 ? UINT64_C(4096) : 0;
 store64(v9 + 376, v5);
 v11 = 0;
 store32(v9 + 412, 0);
 store64(v9 + 400, v7);
 store64(v9 + 368, load64(v9 + 424));
 store64(v9 + 360, load64(v9 + 416));
 store64(v9 + 384, load64(v9 + 432));
 store64(v9 + 392, load64(v9 + 440));
 store32(v9 + 408, v8);
 fill(v9 + 448, 0, 32);
 if (v12) goto l5;
 copy(v9 + 448, v9 + 360, v5);
l5:;
 v5 = v2 + v6;
 v2 = v0 + v4;
 if (v14) goto l6;
 copy((v9 + 448) | 16, v9 + 384, v7);
l6:;
 store64(v9 + 104, 0xa54ff53a5f1d36f1);
 store64(v9 + 96, 0x3c6ef372fe94b82a);
 store64(v9 + 88, 0xbb67ae8584caa73b);
 v12 = (u32)v1;
 v7 = ((u64)(v12 | 0x2000000) | ((u64)v8 << 32)) ^ 0x6a09e667f3bcc908;
 store64(v9 + 80, v7);
 store64(v9 + 40, 0xa54ff53a5f1d36f1);
 store64(v9 + 32, 0x3c6ef372fe94b82a);
 store64(v9 + 24, 0xbb67ae8584caa73b);
 store64(v9 + 16, v7);
 v7 = load64(v9 + 472) ^ 0x5be0cd19137e2179;
 store64(v9 + 136, v7);
 v1 = load64(v9 + 464) ^ 0x1f83d9abfb41bd6b;
 store64(v9 + 128, v1);
 v0 = load64(v9 + 456) ^ 0x9b05688c2b3e6c1f;
 store64(v9 + 120, v0);
 v6 = load64(v9 + 448) ^ 0x510e527fade682d1;
 store64(v9 + 112, v6);
 store64(v9 + 72, v7);
 store64(v9 + 64, v1);
 store64(v9 + 56, v0);
 store64(v9 + 48, v6);
 fill(v9 + 144, 0, 16);
 store32(v9 + 160, v12);
 store32(v9 + 164, 1);
 fill(v9 + 168, 0, 192);
 state_blake2b_State_absorb_blocks(v9 + 16, v5, v3);
 state_blake2b_State_write_digest(v9 + 16, v2);
l2:;
 return v11;
}

/* rattle::export vulfsjor_ffi_tree_leaves_ahead */
APART u32 exported_tree_leaves_ahead(u64 v0, u64 v1, u64 v2, u64 v3, u64 v4, u64 v5) {
 u32 v7, v12, t0;
 u64 v8, v9, v10, v11, t3;
 v7 = 0xffffffff;
 t0 = state_tree_TreeState_is_ready(v0);
 if (t0 == 0) goto l2;
 v8 = load64(v0 + 696);
 if (v8 == 0) goto l1;
 v9 = (load64(v0 + 688) * v8) + load64(v0 + 128) + (u64)load32(v0 + 136);
 v10 = div_u64(v9, v8);
 if (v3 > 0x3ffffffffffffff) goto l2;
 if ((v9 - (v10 * v8)) != 0) goto l2;
 v9 = v8 & 0xffffffff;
 if (v9 == 0) goto l1;
 v11 = div_u64(v5, v9);
 if ((v5 - 1) > 0x3fffffffffffffe) goto l2;
 if (!((v5 - (v11 * v9)) == 0)) goto l2;
 v3 += v10;
 t3 = div_u64(0x3ffffffffffffff - v5, v9);
 if (v3 > t3) goto l2;
 v12 = (u32)v8;
 if (v12 == 0) goto l1;
 if (((v11 > 1 ? v11 : 1) << 6) != v2) goto l2;
 v7 = 0;
 tree_ranges_hash_leaves(v0 + 720, load64(v0 + 704), v0 + 736, load64(v0 + 712), v12, v3, 0, v4 +
   (v4 == 0 ? UINT64_C(4096) : 0), v5, v1 + (v1 == 0 ? UINT64_C(4096) : 0));
l2:;
 return v7;
l1:;
 abort();
}

/* rattle::export vulfsjor_ffi_tree_update_leaves */
APART u32 exported_tree_update_leaves(u64 v0, u64 v1, u64 v2, u64 v3, u64 v4) {
 u32 v7, v8, v15, t0;
 u64 v5, v9, v10, v11, v12, v13, v14, v16, v17, v18, t1, t2, t3, t4;
 FRAME(34);
 v5 = top;
 v5 = (v5 - 224) & 0xffffffffffffffe0;
 v7 = 0xffffffff;
 t0 = state_tree_TreeState_is_ready(v0);
 if (t0 == 0) goto l2;
 if (!(v2 == 0)) goto l4;
 v8 = 1;
 goto l3;
l4:;
 if (v4 == 0) goto l2;
 v9 = load64(v0 + 696);
 if (v9 == 0) goto l1;
 t1 = rem_u64((load64(v0 + 688) * v9) + load64(v0 + 128) + (u64)load32(v0 + 136), v9);
 v8 = (u32)(t1 == 0);
l3:;
 if ((v2 & 63) != 0) goto l2;
 if (v8 == 0) goto l2;
 v10 = v0 + 128;
 v11 = load64(v10);
 v9 = load64(v0 + 696);
 v12 = (u64)load32(v0 + 136);
 v13 = 0x3ffffffffffffff - (v11 + (v9 * load64(v0 + 688)) + v12);
 if (v13 < v4) goto l2;
 if (v9 == 0) goto l1;
 v14 = v2 >> 6;
 t2 = div_u64(v13 - v4, v9);
 if (v14 > t2) goto l2;
 v13 = v3 + (v3 == 0 ? UINT64_C(4096) : 0);
 if (v2 != 0) goto l5;
 state_tree_TreeState_update(v0, v13, v4);
 return 0;
l5:;
 v7 = (u32)(v1 == 0);
 if (v11 == (0 - v12)) goto l6;
 fill(v5 + 80, 0, 16);
 v3 = load64(v0 + 712);
 v11 = load64(v0 + 704);
 v8 = (u32)(v11 == 0);
 if (v8) goto l7;
 copy(v5 + 80, v0 + 720, v11);
l7:;
 fill(v5 + 208, 0, 16);
 v15 = (u32)(v3 == 0);
 if (v15) goto l8;
 copy(v5 + 208, v0 + 736, v3);
l8:;
 v12 = v0 + 148;
 store32(v12, 0);
 store64(v5 + 16, v11);
 store32(v5 + 52, 0);
 store64(v5 + 40, v3);
 fill(v5 + 96, 0, 64);
 store64(v5 + 8, load64(v5 + 88));
 store64(v5, load64(v5 + 80));
 store64(v5 + 24, load64(v5 + 208));
 store64(v5 + 32, load64(v5 + 216));
 store32(v5 + 48, v9);
 state_blake2b_State_write_digest(v0, v5 + 96);
 state_blake2b_State_absorb_blocks(v0 + 344, v5 + 96, 64);
 v16 = v0 + 688;
 t3 = v16;
 v16 = load64(v16) + 1;
 store64(t3, v16);
 fill(v5 + 160, 0, 32);
 if (v8) goto l9;
 copy(v5 + 160, v5, v11);
l9:;
 if (v15) goto l10;
 copy((v5 + 160) | 16, v5 + 24, v3);
l10:;
 v3 = load64(v5 + 160);
 v11 = load64(v5 + 168);
 v17 = load64(v5 + 176);
 v18 = load64(v5 + 184) ^ 0x5be0cd19137e2179;
 store64(v0 + 120, v18);
 v17 ^= 0x1f83d9abfb41bd6b;
 store64(v0 + 112, v17);
 v11 ^= 0x9b05688c2b3e6c1f;
 store64(v0 + 104, v11);
 v3 ^= 0x510e527fade682d1;
 store64(v0 + 96, v3);
 store64(v0 + 88, 0xa54ff53a5f1d36f1);
 store64(v0 + 80, 0x3c6ef372fe94b82b);
 v16 ^= 0xbb67ae8584caa73b;
 store64(v0 + 72, v16);
 v9 = ((v9 << 32) | 0x2000040) ^ 0x6a09e667f3bcc908;
 store64(v0 + 64, v9);
 store64(v0 + 56, v18);
 store64(v0 + 48, v17);
 store64(v0 + 40, v11);
 store64(v0 + 32, v3);
 store64(v0 + 24, 0xa54ff53a5f1d36f1);
 store64(v0 + 16, 0x3c6ef372fe94b82b);
 store64(v0 + 8, v16);
 store64(v0, v9);
 fill(v10, 0, 16);
 store32(v0 + 144, 64);
 fill(v12, 0, 196);
 v9 = load64(v0 + 696);
l6:;
 v12 = v7 ? UINT64_C(4096) : 0;
 fill(v5 + 208, 0, 16);
 v3 = load64(v0 + 712);
 v11 = load64(v0 + 704);
 v8 = (u32)(v11 == 0);
 if (v8) goto l11;
 copy(v5 + 208, v0 + 720, v11);
l11:;
 v1 += v12;
 fill(v5 + 160, 0, 16);
 v15 = (u32)(v3 == 0);
 if (v15) goto l12;
 copy(v5 + 160, v0 + 736, v3);
l12:;
 store64(v5 + 112, v11);
 v7 = 0;
 store32(v5 + 148, 0);
 store64(v5 + 136, v3);
 store64(v5 + 104, load64(v5 + 216));
 store64(v5 + 96, load64(v5 + 208));
 store64(v5 + 120, load64(v5 + 160));
 store64(v5 + 128, load64(v5 + 168));
 store32(v5 + 144, v9);
 state_blake2b_State_absorb_blocks(v0 + 344, v1, v2);
 v2 = v0 + 688;
 t4 = v2;
 v2 = load64(v2) + v14;
 store64(t4, v2);
 fill(v5, 0, 32);
 if (v8) goto l13;
 copy(v5, v5 + 96, v11);
l13:;
 if (v15) goto l14;
 copy(v5 | 16, v5 + 120, v3);
l14:;
 v3 = load64(v5);
 v1 = load64(v5 + 8);
 v11 = load64(v5 + 16);
 v5 = load64(v5 + 24) ^ 0x5be0cd19137e2179;
 store64(v0 + 120, v5);
 v11 ^= 0x1f83d9abfb41bd6b;
 store64(v0 + 112, v11);
 v1 ^= 0x9b05688c2b3e6c1f;
 store64(v0 + 104, v1);
 v3 ^= 0x510e527fade682d1;
 store64(v0 + 96, v3);
 store64(v0 + 88, 0xa54ff53a5f1d36f1);
 store64(v0 + 80, 0x3c6ef372fe94b82b);
 v2 ^= 0xbb67ae8584caa73b;
 store64(v0 + 72, v2);
 v9 = ((v9 << 32) | 0x2000040) ^ 0x6a09e667f3bcc908;
 store64(v0 + 64, v9);
 store64(v0 + 56, v5);
 store64(v0 + 48, v11);
 store64(v0 + 40, v1);
 store64(v0 + 32, v3);
 store64(v0 + 24, 0xa54ff53a5f1d36f1);
 store64(v0 + 16, 0x3c6ef372fe94b82b);
 store64(v0 + 8, v2);
 store64(v0, v9);
 fill(v10, 0, 16);
 store32(v0 + 144, 64);
 fill(v0 + 148, 0, 196);
 state_tree_TreeState_update(v0, v13, v4);
l2:;
 return v7;
l1:;
 abort();
}

/* rattle::export vulfsjor_ffi_tree_check */
APART u32 exported_tree_check(u64 v0, u64 v1, u64 v2, u32 v3) {
 return 0 - ((u32)(v1 > 16) | (u32)(v2 > 16) | (u32)((v0 - 65) < 0xffffffffffffffc0) | (u32)(v3 ==
   0));
}

/* rattle::export vulfsjor_ffi_tree_init_leaf */
APART u32 exported_tree_init_leaf(u64 v0, u64 v1, u32 v2, u64 v3, u64 v4, u64 v5, u64 v6, u32 v7) {
 u32 v9, v10;
 u64 v8;
 FRAME(22);
 v8 = top;
 v8 = (v8 - 128) & 0xffffffffffffffe0;
 if (v4 > 16) goto l3;
 if (v6 > 16) goto l3;
 if (v7) goto l2;
l3:;
 fill(v0, 0, 344);
 return 0xffffffff;
l2:;
 fill(v8 + 64, 0, 16);
 v9 = (u32)(v4 == 0);
 if (v9) goto l4;
 copy(v8 + 64, v3 + (v3 == 0 ? UINT64_C(4096) : 0), v4);
l4:;
 fill(v8 + 80, 0, 16);
 v10 = (u32)(v6 == 0);
 if (v10) goto l5;
 copy(v8 + 80, v5 + (v5 == 0 ? UINT64_C(4096) : 0), v6);
l5:;
 store64(v8 + 24, v4);
 store32(v8 + 60, 0);
 store64(v8 + 48, v6);
 store64(v8 + 16, load64(v8 + 72));
 store64(v8 + 8, load64(v8 + 64));
 store64(v8 + 32, load64(v8 + 80));
 store64(v8 + 40, load64(v8 + 88));
 store32(v8 + 56, v7);
 fill(v8 + 96, 0, 32);
 if (v9) goto l6;
 copy(v8 + 96, v8 + 8, v4);
l6:;
 if (v10) goto l7;
 copy((v8 + 96) | 16, v8 + 32, v6);
l7:;
 v4 = load64(v8 + 96);
 v6 = load64(v8 + 104);
 v5 = load64(v8 + 112);
 v8 = load64(v8 + 120);
 store64(v0 + 128, 0);
 v8 ^= 0x5be0cd19137e2179;
 store64(v0 + 120, v8);
 v5 ^= 0x1f83d9abfb41bd6b;
 store64(v0 + 112, v5);
 v6 ^= 0x9b05688c2b3e6c1f;
 store64(v0 + 104, v6);
 v4 ^= 0x510e527fade682d1;
 store64(v0 + 96, v4);
 store64(v0 + 88, 0xa54ff53a5f1d36f1);
 store64(v0 + 80, 0x3c6ef372fe94b82b);
 v3 = v1 ^ 0xbb67ae8584caa73b;
 store64(v0 + 72, v3);
 v1 = (((u64)v7 << 32) | 0x2000040) ^ 0x6a09e667f3bcc908;
 store64(v0 + 64, v1);
 store64(v0 + 56, v8);
 store64(v0 + 48, v5);
 store64(v0 + 40, v6);
 store64(v0 + 32, v4);
 store64(v0 + 24, 0xa54ff53a5f1d36f1);
 store64(v0 + 16, 0x3c6ef372fe94b82b);
 store64(v0 + 8, v3);
 store64(v0, v1);
 store64(v0 + 136, 0);
 store32(v0 + 148, (u32)(v2 != 0));
 store32(v0 + 144, 64);
 fill(v0 + 152, 0, 192);
 return 0;
}

/* rattle::export vulfsjor_ffi_tree_init_root */
APART u32 exported_tree_init_root(u64 v0, u64 v1, u64 v2, u64 v3, u64 v4, u64 v5, u32 v6) {
 u32 v8, v9;
 u64 v7;
 FRAME(22);
 v7 = top;
 v7 = (v7 - 128) & 0xffffffffffffffe0;
 if ((v1 - 1) > 63) goto l3;
 if (v3 > 16) goto l3;
 if (v5 > 16) goto l3;
 if (v6) goto l2;
l3:;
 fill(v0, 0, 344);
 return 0xffffffff;
l2:;
 fill(v7 + 64, 0, 16);
 v8 = (u32)(v3 == 0);
 if (v8) goto l4;
 copy(v7 + 64, v2 + (v2 == 0 ? UINT64_C(4096) : 0), v3);
l4:;
 fill(v7 + 80, 0, 16);
 v9 = (u32)(v5 == 0);
 if (v9) goto l5;
 copy(v7 + 80, v4 + (v4 == 0 ? UINT64_C(4096) : 0), v5);
l5:;
 store64(v7 + 24, v3);
 store32(v7 + 60, 0);
 store64(v7 + 48, v5);
 store64(v7 + 16, load64(v7 + 72));
 store64(v7 + 8, load64(v7 + 64));
 store64(v7 + 32, load64(v7 + 80));
 store64(v7 + 40, load64(v7 + 88));
 store32(v7 + 56, v6);
 fill(v7 + 96, 0, 32);
 if (v8) goto l6;
 copy(v7 + 96, v7 + 8, v3);
l6:;
 if (v9) goto l7;
 copy((v7 + 96) | 16, v7 + 32, v5);
l7:;
 v3 = load64(v7 + 96);
 v5 = load64(v7 + 104);
 v4 = load64(v7 + 112);
 v7 = load64(v7 + 120);
 store64(v0 + 128, 0);
 v7 ^= 0x5be0cd19137e2179;
 store64(v0 + 120, v7);
 v4 ^= 0x1f83d9abfb41bd6b;
 store64(v0 + 112, v4);
 v5 ^= 0x9b05688c2b3e6c1f;
 store64(v0 + 104, v5);
 v3 ^= 0x510e527fade682d1;
 store64(v0 + 96, v3);
 store64(v0 + 88, 0xa54ff53a5f1d36f1);
 store64(v0 + 80, 0x3c6ef372fe94b82a);
 store64(v0 + 72, 0xbb67ae8584caa73b);
 v8 = (u32)v1;
 v1 = ((u64)(v8 | 0x2000000) | ((u64)v6 << 32)) ^ 0x6a09e667f3bcc908;
 store64(v0 + 64, v1);
 store64(v0 + 56, v7);
 store64(v0 + 48, v4);
 store64(v0 + 40, v5);
 store64(v0 + 32, v3);
 store64(v0 + 24, 0xa54ff53a5f1d36f1);
 store64(v0 + 16, 0x3c6ef372fe94b82a);
 store64(v0 + 8, 0xbb67ae8584caa73b);
 store64(v0, v1);
 store64(v0 + 136, 0);
 store32(v0 + 148, 1);
 store32(v0 + 144, v8);
 fill(v0 + 152, 0, 192);
 return 0;
}

/* blake2_tree::thread_plan::Plan::of */
APART void tree_thread_plan_Plan_of(u64 v0, u64 v1, u64 v2, u32 v3, u64 v4, u64 v5, u64 v6) {
 u64 v7, v8, v9, v10, v11, t3, t4, t5;
 if (v3 == 0) goto l1;
 v7 = (u64)v3;
 v8 = div_u64(v5, v7);
 v9 = div_u64(load64(v1 + 16), v7);
 if (v2 == 0) goto l1;
 v8 += (u64)(u32)((v5 - (v8 * v7)) != 0);
 v10 = v8 > 1 ? v8 : 1;
 v8 = div_u64(v10, v2);
 v8 += (u64)(u32)((v10 - (v8 * v2)) != 0);
 if (v8 < 4) goto l2;
 v11 = (((v8 & 3) == 0 ? UINT64_C(0) : 4) + v8) & 0xfffffffffffffffc;
 if (v11 == 0) goto l1;
 t3 = div_u64(v10, v11);
 t4 = v8 & 0xfffffffffffffffc;
 v8 = t3;
 v8 = v2 > (v8 + (u64)(u32)((v10 - (v8 * v11)) != 0)) ? t4 : v11;
l2:;
 v9 >>= 2;
 v9 = (v9 > 1 ? v9 : 1) << 2;
 v8 = v8 < v9 ? v8 : v9;
 v1 = load64(v1 + 24);
 if ((v8 * v7) <= v1) goto l3;
 t5 = div_u64(v1, v7);
 v8 = t5 & 0xfffffffffffffffc;
 v8 = v8 > 1 ? v8 : 1;
l3:;
 v8 *= v7;
 if (v8 == 0) goto l1;
 store64(v0 + 64, v6);
 store64(v0 + 32, v8);
 store64(v0 + 24, v7);
 store64(v0 + 16, 0);
 store64(v0, v4);
 store64(v0 + 8, v5 + v4);
 v7 = div_u64(v5, v8);
 v7 += (u64)(u32)((v5 - (v7 * v8)) != 0);
 v7 = v6 > v7 ? v6 : v7;
 store64(v0 + 40, v7);
 store64(v0 + 56, v7 == 0 ? 0 : (v10 << 6));
 store64(v0 + 48, v7 < v2 ? v7 : v2);
 return;
l1:;
 abort();
}

/* rattle::export vulfsjor_ffi_tree_plan */
APART u32 exported_tree_plan(u64 v0, u64 v1, u64 v2, u32 v3, u64 v4) {
 u32 v6;
 u64 v5, v7, v8;
 FRAME(12);
 v5 = top - 80;
 v6 = 0xffffffff;
 if (v3 == 0) goto l2;
 v7 = load64(v4);
 if (v7 == 0) goto l2;
 v8 = load64(v4 + 8);
 if (v8 == 0) goto l2;
 if (v2 > 0x3ffffffffffffff) goto l2;
 if (v2 > (~v1)) goto l2;
 v6 = 0;
 fill(v5 + 8, 0, 72);
 v8 = div_u64(v2, v8);
 v8 = v8 > 1 ? v8 : 1;
 tree_thread_plan_Plan_of(v5 + 8, v4, v8 < v7 ? v8 : v7, v3, v1, v2, 1);
 copy(v0, v5 + 8, 72);
l2:;
 return v6;
}

/* rattle::export vulfsjor_ffi_tree_plan_update */
APART u32 exported_tree_plan_update(u64 v0, u64 v1, u64 v2, u64 v3) {
 u32 v5, v10, t0;
 u64 v4, v6, v7, v8, v9, v11, v12, t2, t3, t5, t6;
 FRAME(12);
 v4 = top - 80;
 v5 = 0xffffffff;
 v6 = load64(v3);
 if (v6 == 0) goto l2;
 v7 = load64(v3 + 8);
 if (v7 == 0) goto l2;
 t0 = state_tree_TreeState_is_ready(v1);
 if (t0 == 0) goto l2;
 v8 = load64(v1 + 696);
 v9 = (v8 * load64(v1 + 688)) + load64(v1 + 128) + (u64)load32(v1 + 136);
 if ((0x3ffffffffffffff - v9) < v2) goto l2;
 v5 = 0;
 fill(v4 + 8, 0, 72);
 v10 = (u32)v8;
 if (v10 == 0) goto l1;
 v1 = div_u64(v2, v7);
 v1 = v1 > 1 ? v1 : 1;
 t2 = v1 < v6 ? v1 : v6;
 v1 = v8 & 0xffffffff;
 t3 = rem_u64(v9, v1);
 v6 = rem_u64(v1 - t3, v1);
 v6 = v2 < v6 ? v2 : v6;
 v2 -= v6;
 t5 = v6;
 v6 = v2 - (u64)(u32)(v2 != 0);
 t6 = rem_u64(v6, v1);
 v1 = v6 - t6;
 tree_thread_plan_Plan_of(v4 + 8, v3, t2, v10, t5, v1, 0);
 v3 = load64(v4 + 8);
 v6 = load64(v4 + 16);
 v7 = load64(v4 + 32);
 v8 = load64(v4 + 40);
 v9 = load64(v4 + 48);
 v11 = load64(v4 + 56);
 v12 = load64(v4 + 64);
 store64(v0 + 64, load64(v4 + 72));
 store64(v0 + 56, v12);
 store64(v0 + 48, v11);
 store64(v0 + 40, v9);
 store64(v0 + 32, v8);
 store64(v0 + 24, v7);
 store64(v0 + 16, v2 - v1);
 store64(v0 + 8, v6);
 store64(v0, v3);
l2:;
 return v5;
l1:;
 abort();
}

/* rattle::export vulfsjor_ffi_tree_part */
APART u32 exported_tree_part(u64 v0, u64 v1, u64 v2) {
 u32 v3, v14;
 u64 v4, v5, v6, v7, v8, v9, v10, v11, v12, v13, t2, t3, t4;
 v3 = 0xffffffff;
 v4 = load64(v1 + 24);
 if ((v4 - 1) > 0xfffffffe) goto l2;
 v5 = load64(v1 + 32);
 if (v5 == 0) goto l2;
 v6 = div_u64(v5, v4);
 if ((v5 - (v6 * v4)) != 0) goto l2;
 v7 = load64(v1 + 8);
 v8 = load64(v1);
 if (v7 < v8) goto l2;
 v9 = v7 - v8;
 if (v9 > 0x3ffffffffffffff) goto l2;
 v10 = load64(v1 + 64);
 if (v10 > 1) goto l2;
 v11 = 0;
 v12 = load64(v1 + 40);
 v13 = div_u64(v9, v5);
 v13 += (u64)(u32)((v9 - (v13 * v5)) != 0);
 if (v12 != (v10 > v13 ? v10 : v13)) goto l2;
 v14 = (u32)(v12 == 0);
 if (v14) goto l3;
 t2 = div_u64(v9, v4);
 t3 = rem_u64(v9, v4);
 v13 = t2 + (u64)(u32)(t3 != 0);
 v11 = (v13 > 1 ? v13 : 1) << 6;
l3:;
 if (load64(v1 + 56) != v11) goto l2;
 v13 = load64(v1 + 48);
 if (v12 < v13) goto l2;
 if (v14) goto l4;
 if (v13 == 0) goto l2;
l4:;
 if (v10 != 1) goto l6;
 if (v12 <= v2) goto l2;
 if (load64(v1 + 16) == 0) goto l5;
 goto l2;
l6:;
 if (v8 >= v4) goto l2;
 t4 = rem_u64(v9, v4);
 if (t4 != 0) goto l2;
 if (v12 <= v2) goto l2;
 v1 = load64(v1 + 16);
 if (((u32)(v7 == v8) | (u32)(v1 != 0)) == 0) goto l2;
 if (v1 > v4) goto l2;
 if ((v1 + v7) > 0x3ffffffffffffff) goto l2;
l5:;
 v1 = v6 * v2;
 store64(v0, v1);
 store64(v0 + 24, v1 << 6);
 v1 = v8 + (v5 * v2);
 store64(v0 + 8, v1);
 store64(v0 + 40, (v2 + 1) == v12 ? v10 : 0);
 v1 = v7 - v1;
 v1 = v1 < v5 ? v1 : v5;
 store64(v0 + 16, v1);
 v5 = div_u64(v1, v4);
 v1 = v5 + (u64)(u32)((v1 - (v5 * v4)) != 0);
 store64(v0 + 32, (v1 > 1 ? v1 : 1) << 6);
 v3 = 0;
l2:;
 return v3;
}

int32_t NAME(memcmp)(const uint8_t *a, size_t a_length, const uint8_t *b, size_t b_length) {
    return (int32_t)exported_memcmp(ADDRESS(a), a_length, ADDRESS(b), b_length);
}

void NAME(wipe)(uint8_t *bytes, size_t length) {
    exported_wipe(ADDRESS(bytes), length);
}

int32_t NAME(blake2b)(uint8_t *out, size_t out_length, const uint8_t *input, size_t input_length,
        const uint8_t *key, size_t key_length) {
    return (int32_t)exported_blake2b(ADDRESS(out), out_length, ADDRESS(input), input_length, ADDRESS(key), key_length);
}

int32_t NAME(blake2b_many)(uint8_t *out, size_t out_length, size_t output_size, const
        vulfsjor_message *messages, size_t count, const uint8_t *key, size_t key_length, const
        uint8_t *salt, size_t salt_length, const uint8_t *personal, size_t personal_length) {
    /* A call refuses all groups or none, except for a length, so that is looked at before the
     * first. */
    const uint64_t most = UINT64_MAX - (key_length ? VULFSJOR_BLAKE2B_BLOCKBYTES : 0);
    uint64_t pairs[2 * GROUP];
    size_t i, n;

    if (!output_size || out_length % output_size || out_length / output_size != count) return -1;
    for (i = 0; i < count; i++)
        if (messages[i].length > most) return -1;
    do {
        n = count < GROUP ? count : GROUP;
        pairs_of(messages, n, pairs);
        if (exported_blake2b_many(ADDRESS(out), n * output_size, output_size, ADDRESS(pairs), n, ADDRESS(key),
                key_length, ADDRESS(salt), salt_length, ADDRESS(personal), personal_length))
            return -1;
        out += n * output_size, messages += n, count -= n;
    } while (count);
    return 0;
}

int32_t NAME(blake2b_init_salt_personal)(vulfsjor_blake2b_state *state, size_t output_size, const
        uint8_t *key, size_t key_length, const uint8_t *salt, size_t salt_length, const uint8_t
        *personal, size_t personal_length) {
    return (int32_t)exported_blake2b_init_salt_personal(ADDRESS(state), output_size, ADDRESS(key), key_length, ADDRESS(salt), salt_length, ADDRESS(personal), personal_length);
}

int32_t NAME(blake2b_init_key)(vulfsjor_blake2b_state *state, size_t output_size, const uint8_t
        *key, size_t key_length) {
    return (int32_t)exported_blake2b_init_key(ADDRESS(state), output_size, ADDRESS(key), key_length);
}

int32_t NAME(blake2b_init_tree)(vulfsjor_blake2b_state *state, size_t output_size, const uint8_t
        *key, size_t key_length, const uint8_t *salt, size_t salt_length, const uint8_t *personal,
        size_t personal_length, const vulfsjor_tree *tree) {
    uint64_t tree_[2];
    store64(ADDRESS(tree_) + 0, tree->node_offset);
    store32(ADDRESS(tree_) + 8, tree->leaf_length);
    store8(ADDRESS(tree_) + 12, tree->fanout);
    store8(ADDRESS(tree_) + 13, tree->depth);
    store8(ADDRESS(tree_) + 14, tree->node_depth);
    store8(ADDRESS(tree_) + 15, tree->inner_length);
    return (int32_t)exported_blake2b_init_tree(ADDRESS(state), output_size, ADDRESS(key), key_length, ADDRESS(salt), salt_length, ADDRESS(personal), personal_length, ADDRESS(tree_));
}

int32_t NAME(blake2b_init_param)(vulfsjor_blake2b_state *state, const uint8_t *block, size_t
        block_length) {
    return (int32_t)exported_blake2b_init_param(ADDRESS(state), ADDRESS(block), block_length);
}

int32_t NAME(blake2b_update)(vulfsjor_blake2b_state *state, const uint8_t *input, size_t
        input_length) {
    return (int32_t)exported_blake2b_update(ADDRESS(state), ADDRESS(input), input_length);
}

int32_t NAME(blake2b_update_many)(vulfsjor_blake2b_state *states, size_t state_count, const
        vulfsjor_message *inputs, size_t input_count) {
    /* A call refuses one group or none, so all states are looked at before the first. Their numbers
     * are little-endian, and at most 128 bytes are pending. */
    uint64_t pairs[2 * GROUP], counted;
    size_t i, n;

    if (input_count != state_count) return -1;
    for (i = 0; i < state_count; i++) {
        counted = load64(ADDRESS(&states[i].counter)) + *(const uint8_t *)&states[i].pending_length;
        if (!exported_blake2b_digest_size(ADDRESS(states + i)) || inputs[i].length > UINT64_MAX - counted) return -1;
    }
    for (; state_count; states += n, inputs += n, state_count -= n) {
        n = state_count < GROUP ? state_count : GROUP;
        pairs_of(inputs, n, pairs);
        if (exported_blake2b_update_many(ADDRESS(states), n, ADDRESS(pairs), n)) return -1;
    }
    return 0;
}

int32_t NAME(blake2b_final)(vulfsjor_blake2b_state *state, uint8_t *out, size_t out_length) {
    return (int32_t)exported_blake2b_final(ADDRESS(state), ADDRESS(out), out_length);
}

int32_t NAME(blake2b_verify)(vulfsjor_blake2b_state *state, const uint8_t *tag, size_t tag_length) {
    return (int32_t)exported_blake2b_verify(ADDRESS(state), ADDRESS(tag), tag_length);
}

int32_t NAME(blake2b_set_last_node)(vulfsjor_blake2b_state *state, uint32_t on) {
    return (int32_t)exported_blake2b_set_last_node(ADDRESS(state), on);
}

int32_t NAME(blake2b_reset)(vulfsjor_blake2b_state *state) {
    return (int32_t)exported_blake2b_reset(ADDRESS(state));
}

int32_t NAME(blake2b_save)(const vulfsjor_blake2b_state *state, uint8_t *out, size_t out_length) {
    return (int32_t)exported_blake2b_save(ADDRESS(state), ADDRESS(out), out_length);
}

int32_t NAME(blake2b_load)(vulfsjor_blake2b_state *state, const uint8_t *saved, size_t saved_length) {
    return (int32_t)exported_blake2b_load(ADDRESS(state), ADDRESS(saved), saved_length);
}

void NAME(blake2b_wipe)(vulfsjor_blake2b_state *state) {
    exported_blake2b_wipe(ADDRESS(state));
}

size_t NAME(blake2b_digest_size)(const vulfsjor_blake2b_state *state) {
    return (size_t)exported_blake2b_digest_size(ADDRESS(state));
}

uint64_t NAME(blake2b_count)(const vulfsjor_blake2b_state *state) {
    return (uint64_t)exported_blake2b_count(ADDRESS(state));
}

size_t NAME(blake2b_state_size)(void) {
    return (size_t)module_blake2b_state_size();
}

int32_t NAME(blake2s)(uint8_t *out, size_t out_length, const uint8_t *input, size_t input_length,
        const uint8_t *key, size_t key_length) {
    return (int32_t)exported_blake2s(ADDRESS(out), out_length, ADDRESS(input), input_length, ADDRESS(key), key_length);
}

int32_t NAME(blake2s_many)(uint8_t *out, size_t out_length, size_t output_size, const
        vulfsjor_message *messages, size_t count, const uint8_t *key, size_t key_length, const
        uint8_t *salt, size_t salt_length, const uint8_t *personal, size_t personal_length) {
    /* A call refuses all groups or none, except for a length, so that is looked at before the
     * first. */
    const uint64_t most = UINT64_MAX - (key_length ? VULFSJOR_BLAKE2S_BLOCKBYTES : 0);
    uint64_t pairs[2 * GROUP];
    size_t i, n;

    if (!output_size || out_length % output_size || out_length / output_size != count) return -1;
    for (i = 0; i < count; i++)
        if (messages[i].length > most) return -1;
    do {
        n = count < GROUP ? count : GROUP;
        pairs_of(messages, n, pairs);
        if (exported_blake2s_many(ADDRESS(out), n * output_size, output_size, ADDRESS(pairs), n, ADDRESS(key),
                key_length, ADDRESS(salt), salt_length, ADDRESS(personal), personal_length))
            return -1;
        out += n * output_size, messages += n, count -= n;
    } while (count);
    return 0;
}

int32_t NAME(blake2s_init_salt_personal)(vulfsjor_blake2s_state *state, size_t output_size, const
        uint8_t *key, size_t key_length, const uint8_t *salt, size_t salt_length, const uint8_t
        *personal, size_t personal_length) {
    return (int32_t)exported_blake2s_init_salt_personal(ADDRESS(state), output_size, ADDRESS(key), key_length, ADDRESS(salt), salt_length, ADDRESS(personal), personal_length);
}

int32_t NAME(blake2s_init_key)(vulfsjor_blake2s_state *state, size_t output_size, const uint8_t
        *key, size_t key_length) {
    return (int32_t)exported_blake2s_init_key(ADDRESS(state), output_size, ADDRESS(key), key_length);
}

int32_t NAME(blake2s_init_tree)(vulfsjor_blake2s_state *state, size_t output_size, const uint8_t
        *key, size_t key_length, const uint8_t *salt, size_t salt_length, const uint8_t *personal,
        size_t personal_length, const vulfsjor_tree *tree) {
    uint64_t tree_[2];
    store64(ADDRESS(tree_) + 0, tree->node_offset);
    store32(ADDRESS(tree_) + 8, tree->leaf_length);
    store8(ADDRESS(tree_) + 12, tree->fanout);
    store8(ADDRESS(tree_) + 13, tree->depth);
    store8(ADDRESS(tree_) + 14, tree->node_depth);
    store8(ADDRESS(tree_) + 15, tree->inner_length);
    return (int32_t)exported_blake2s_init_tree(ADDRESS(state), output_size, ADDRESS(key), key_length, ADDRESS(salt), salt_length, ADDRESS(personal), personal_length, ADDRESS(tree_));
}

int32_t NAME(blake2s_init_param)(vulfsjor_blake2s_state *state, const uint8_t *block, size_t
        block_length) {
    return (int32_t)exported_blake2s_init_param(ADDRESS(state), ADDRESS(block), block_length);
}

int32_t NAME(blake2s_update)(vulfsjor_blake2s_state *state, const uint8_t *input, size_t
        input_length) {
    return (int32_t)exported_blake2s_update(ADDRESS(state), ADDRESS(input), input_length);
}

int32_t NAME(blake2s_update_many)(vulfsjor_blake2s_state *states, size_t state_count, const
        vulfsjor_message *inputs, size_t input_count) {
    /* A call refuses one group or none, so all states are looked at before the first. Their numbers
     * are little-endian, and at most 128 bytes are pending. */
    uint64_t pairs[2 * GROUP], counted;
    size_t i, n;

    if (input_count != state_count) return -1;
    for (i = 0; i < state_count; i++) {
        counted = load64(ADDRESS(&states[i].counter)) + *(const uint8_t *)&states[i].pending_length;
        if (!exported_blake2s_digest_size(ADDRESS(states + i)) || inputs[i].length > UINT64_MAX - counted) return -1;
    }
    for (; state_count; states += n, inputs += n, state_count -= n) {
        n = state_count < GROUP ? state_count : GROUP;
        pairs_of(inputs, n, pairs);
        if (exported_blake2s_update_many(ADDRESS(states), n, ADDRESS(pairs), n)) return -1;
    }
    return 0;
}

int32_t NAME(blake2s_final)(vulfsjor_blake2s_state *state, uint8_t *out, size_t out_length) {
    return (int32_t)exported_blake2s_final(ADDRESS(state), ADDRESS(out), out_length);
}

int32_t NAME(blake2s_verify)(vulfsjor_blake2s_state *state, const uint8_t *tag, size_t tag_length) {
    return (int32_t)exported_blake2s_verify(ADDRESS(state), ADDRESS(tag), tag_length);
}

int32_t NAME(blake2s_set_last_node)(vulfsjor_blake2s_state *state, uint32_t on) {
    return (int32_t)exported_blake2s_set_last_node(ADDRESS(state), on);
}

int32_t NAME(blake2s_reset)(vulfsjor_blake2s_state *state) {
    return (int32_t)exported_blake2s_reset(ADDRESS(state));
}

int32_t NAME(blake2s_save)(const vulfsjor_blake2s_state *state, uint8_t *out, size_t out_length) {
    return (int32_t)exported_blake2s_save(ADDRESS(state), ADDRESS(out), out_length);
}

int32_t NAME(blake2s_load)(vulfsjor_blake2s_state *state, const uint8_t *saved, size_t saved_length) {
    return (int32_t)exported_blake2s_load(ADDRESS(state), ADDRESS(saved), saved_length);
}

void NAME(blake2s_wipe)(vulfsjor_blake2s_state *state) {
    exported_blake2s_wipe(ADDRESS(state));
}

size_t NAME(blake2s_digest_size)(const vulfsjor_blake2s_state *state) {
    return (size_t)exported_blake2s_digest_size(ADDRESS(state));
}

uint64_t NAME(blake2s_count)(const vulfsjor_blake2s_state *state) {
    return (uint64_t)exported_blake2s_count(ADDRESS(state));
}

size_t NAME(blake2s_state_size)(void) {
    return (size_t)module_blake2s_state_size();
}

int32_t NAME(blake2bp)(uint8_t *out, size_t out_length, const uint8_t *input, size_t input_length,
        const uint8_t *key, size_t key_length) {
    return (int32_t)exported_blake2bp(ADDRESS(out), out_length, ADDRESS(input), input_length, ADDRESS(key), key_length);
}

int32_t NAME(blake2bp_init_salt_personal)(vulfsjor_blake2bp_state *state, size_t output_size, const
        uint8_t *key, size_t key_length, const uint8_t *salt, size_t salt_length, const uint8_t
        *personal, size_t personal_length) {
    return (int32_t)exported_blake2bp_init_salt_personal(ADDRESS(state), output_size, ADDRESS(key), key_length, ADDRESS(salt), salt_length, ADDRESS(personal), personal_length);
}

int32_t NAME(blake2bp_init_key)(vulfsjor_blake2bp_state *state, size_t output_size, const uint8_t
        *key, size_t key_length) {
    return (int32_t)exported_blake2bp_init_key(ADDRESS(state), output_size, ADDRESS(key), key_length);
}

int32_t NAME(blake2bp_update)(vulfsjor_blake2bp_state *state, const uint8_t *input, size_t
        input_length) {
    return (int32_t)exported_blake2bp_update(ADDRESS(state), ADDRESS(input), input_length);
}

int32_t NAME(blake2bp_final)(vulfsjor_blake2bp_state *state, uint8_t *out, size_t out_length) {
    return (int32_t)exported_blake2bp_final(ADDRESS(state), ADDRESS(out), out_length);
}

int32_t NAME(blake2bp_verify)(vulfsjor_blake2bp_state *state, const uint8_t *tag, size_t tag_length) {
    return (int32_t)exported_blake2bp_verify(ADDRESS(state), ADDRESS(tag), tag_length);
}

int32_t NAME(blake2bp_reset)(vulfsjor_blake2bp_state *state) {
    return (int32_t)exported_blake2bp_reset(ADDRESS(state));
}

void NAME(blake2bp_wipe)(vulfsjor_blake2bp_state *state) {
    exported_blake2bp_wipe(ADDRESS(state));
}

size_t NAME(blake2bp_digest_size)(const vulfsjor_blake2bp_state *state) {
    return (size_t)exported_blake2bp_digest_size(ADDRESS(state));
}

uint64_t NAME(blake2bp_count)(const vulfsjor_blake2bp_state *state) {
    return (uint64_t)exported_blake2bp_count(ADDRESS(state));
}

size_t NAME(blake2bp_state_size)(void) {
    return (size_t)module_blake2bp_state_size();
}

int32_t NAME(blake2sp)(uint8_t *out, size_t out_length, const uint8_t *input, size_t input_length,
        const uint8_t *key, size_t key_length) {
    return (int32_t)exported_blake2sp(ADDRESS(out), out_length, ADDRESS(input), input_length, ADDRESS(key), key_length);
}

int32_t NAME(blake2sp_init_salt_personal)(vulfsjor_blake2sp_state *state, size_t output_size, const
        uint8_t *key, size_t key_length, const uint8_t *salt, size_t salt_length, const uint8_t
        *personal, size_t personal_length) {
    return (int32_t)exported_blake2sp_init_salt_personal(ADDRESS(state), output_size, ADDRESS(key), key_length, ADDRESS(salt), salt_length, ADDRESS(personal), personal_length);
}

int32_t NAME(blake2sp_init_key)(vulfsjor_blake2sp_state *state, size_t output_size, const uint8_t
        *key, size_t key_length) {
    return (int32_t)exported_blake2sp_init_key(ADDRESS(state), output_size, ADDRESS(key), key_length);
}

int32_t NAME(blake2sp_update)(vulfsjor_blake2sp_state *state, const uint8_t *input, size_t
        input_length) {
    return (int32_t)exported_blake2sp_update(ADDRESS(state), ADDRESS(input), input_length);
}

int32_t NAME(blake2sp_final)(vulfsjor_blake2sp_state *state, uint8_t *out, size_t out_length) {
    return (int32_t)exported_blake2sp_final(ADDRESS(state), ADDRESS(out), out_length);
}

int32_t NAME(blake2sp_verify)(vulfsjor_blake2sp_state *state, const uint8_t *tag, size_t tag_length) {
    return (int32_t)exported_blake2sp_verify(ADDRESS(state), ADDRESS(tag), tag_length);
}

int32_t NAME(blake2sp_reset)(vulfsjor_blake2sp_state *state) {
    return (int32_t)exported_blake2sp_reset(ADDRESS(state));
}

void NAME(blake2sp_wipe)(vulfsjor_blake2sp_state *state) {
    exported_blake2sp_wipe(ADDRESS(state));
}

size_t NAME(blake2sp_digest_size)(const vulfsjor_blake2sp_state *state) {
    return (size_t)exported_blake2sp_digest_size(ADDRESS(state));
}

uint64_t NAME(blake2sp_count)(const vulfsjor_blake2sp_state *state) {
    return (uint64_t)exported_blake2sp_count(ADDRESS(state));
}

size_t NAME(blake2sp_state_size)(void) {
    return (size_t)module_blake2sp_state_size();
}

int32_t NAME(blake2xb)(uint8_t *out, size_t out_length, const uint8_t *input, size_t input_length,
        const uint8_t *key, size_t key_length) {
    return (int32_t)exported_blake2xb(ADDRESS(out), out_length, ADDRESS(input), input_length, ADDRESS(key), key_length);
}

int32_t NAME(blake2xb_derive_key)(uint8_t *out, size_t out_length, const uint8_t *key, size_t
        key_length, const uint8_t *context, size_t context_length) {
    return (int32_t)exported_blake2xb_derive_key(ADDRESS(out), out_length, ADDRESS(key), key_length, ADDRESS(context), context_length);
}

int32_t NAME(blake2xb_init_salt_personal)(vulfsjor_blake2xb_state *state, uint64_t xof_length, const
        uint8_t *key, size_t key_length, const uint8_t *salt, size_t salt_length, const uint8_t
        *personal, size_t personal_length) {
    return (int32_t)exported_blake2xb_init_salt_personal(ADDRESS(state), xof_length, ADDRESS(key), key_length, ADDRESS(salt), salt_length, ADDRESS(personal), personal_length);
}

int32_t NAME(blake2xb_update)(vulfsjor_blake2xb_state *state, const uint8_t *input, size_t
        input_length) {
    return (int32_t)exported_blake2xb_update(ADDRESS(state), ADDRESS(input), input_length);
}

int32_t NAME(blake2xb_squeeze)(vulfsjor_blake2xb_state *state, uint8_t *out, size_t out_length) {
    return (int32_t)exported_blake2xb_squeeze(ADDRESS(state), ADDRESS(out), out_length);
}

int32_t NAME(blake2xb_reset)(vulfsjor_blake2xb_state *state) {
    return (int32_t)exported_blake2xb_reset(ADDRESS(state));
}

void NAME(blake2xb_wipe)(vulfsjor_blake2xb_state *state) {
    exported_blake2xb_wipe(ADDRESS(state));
}

uint64_t NAME(blake2xb_left)(const vulfsjor_blake2xb_state *state) {
    return (uint64_t)exported_blake2xb_left(ADDRESS(state));
}

uint64_t NAME(blake2xb_count)(const vulfsjor_blake2xb_state *state) {
    return (uint64_t)exported_blake2xb_count(ADDRESS(state));
}

size_t NAME(blake2xb_state_size)(void) {
    return (size_t)module_blake2xb_state_size();
}

int32_t NAME(blake2xs)(uint8_t *out, size_t out_length, const uint8_t *input, size_t input_length,
        const uint8_t *key, size_t key_length) {
    return (int32_t)exported_blake2xs(ADDRESS(out), out_length, ADDRESS(input), input_length, ADDRESS(key), key_length);
}

int32_t NAME(blake2xs_derive_key)(uint8_t *out, size_t out_length, const uint8_t *key, size_t
        key_length, const uint8_t *context, size_t context_length) {
    return (int32_t)exported_blake2xs_derive_key(ADDRESS(out), out_length, ADDRESS(key), key_length, ADDRESS(context), context_length);
}

int32_t NAME(blake2xs_init_salt_personal)(vulfsjor_blake2xs_state *state, uint64_t xof_length, const
        uint8_t *key, size_t key_length, const uint8_t *salt, size_t salt_length, const uint8_t
        *personal, size_t personal_length) {
    return (int32_t)exported_blake2xs_init_salt_personal(ADDRESS(state), xof_length, ADDRESS(key), key_length, ADDRESS(salt), salt_length, ADDRESS(personal), personal_length);
}

int32_t NAME(blake2xs_update)(vulfsjor_blake2xs_state *state, const uint8_t *input, size_t
        input_length) {
    return (int32_t)exported_blake2xs_update(ADDRESS(state), ADDRESS(input), input_length);
}

int32_t NAME(blake2xs_squeeze)(vulfsjor_blake2xs_state *state, uint8_t *out, size_t out_length) {
    return (int32_t)exported_blake2xs_squeeze(ADDRESS(state), ADDRESS(out), out_length);
}

int32_t NAME(blake2xs_reset)(vulfsjor_blake2xs_state *state) {
    return (int32_t)exported_blake2xs_reset(ADDRESS(state));
}

void NAME(blake2xs_wipe)(vulfsjor_blake2xs_state *state) {
    exported_blake2xs_wipe(ADDRESS(state));
}

uint64_t NAME(blake2xs_left)(const vulfsjor_blake2xs_state *state) {
    return (uint64_t)exported_blake2xs_left(ADDRESS(state));
}

uint64_t NAME(blake2xs_count)(const vulfsjor_blake2xs_state *state) {
    return (uint64_t)exported_blake2xs_count(ADDRESS(state));
}

size_t NAME(blake2xs_state_size)(void) {
    return (size_t)module_blake2xs_state_size();
}

int32_t NAME(tree_root)(uint8_t *out, size_t out_length, const uint8_t *input, size_t input_length,
        const uint8_t *salt, size_t salt_length, const uint8_t *personal, size_t personal_length,
        uint32_t leaf_length) {
    return (int32_t)exported_tree_root(ADDRESS(out), out_length, ADDRESS(input), input_length, ADDRESS(salt), salt_length, ADDRESS(personal), personal_length, leaf_length);
}

int32_t NAME(tree_init)(vulfsjor_tree_state *state, size_t output_size, const uint8_t *salt, size_t
        salt_length, const uint8_t *personal, size_t personal_length, uint32_t leaf_length) {
    return (int32_t)exported_tree_init(ADDRESS(state), output_size, ADDRESS(salt), salt_length, ADDRESS(personal), personal_length, leaf_length);
}

int32_t NAME(tree_update)(vulfsjor_tree_state *state, const uint8_t *input, size_t input_length) {
    return (int32_t)exported_tree_update(ADDRESS(state), ADDRESS(input), input_length);
}

int32_t NAME(tree_final)(vulfsjor_tree_state *state, uint8_t *out, size_t out_length) {
    return (int32_t)exported_tree_final(ADDRESS(state), ADDRESS(out), out_length);
}

void NAME(tree_wipe)(vulfsjor_tree_state *state) {
    exported_tree_wipe(ADDRESS(state));
}

size_t NAME(tree_digest_size)(const vulfsjor_tree_state *state) {
    return (size_t)exported_tree_digest_size(ADDRESS(state));
}

uint64_t NAME(tree_count)(const vulfsjor_tree_state *state) {
    return (uint64_t)exported_tree_count(ADDRESS(state));
}

uint32_t NAME(tree_leaf_length)(const vulfsjor_tree_state *state) {
    return (uint32_t)exported_tree_leaf_length(ADDRESS(state));
}

size_t NAME(tree_state_size)(void) {
    return (size_t)module_tree_state_size();
}

uint64_t NAME(tree_leaf_count)(uint64_t message_length, uint32_t leaf_length) {
    return (uint64_t)exported_tree_leaf_count(message_length, leaf_length);
}

int32_t NAME(tree_leaves)(uint8_t *out, size_t out_length, uint64_t first, uint32_t ends, const
        uint8_t *input, size_t input_length, const uint8_t *salt, size_t salt_length, const uint8_t
        *personal, size_t personal_length, uint32_t leaf_length) {
    return (int32_t)exported_tree_leaves(ADDRESS(out), out_length, first, ends, ADDRESS(input), input_length, ADDRESS(salt), salt_length, ADDRESS(personal), personal_length, leaf_length);
}

int32_t NAME(tree_root_of_leaves)(uint8_t *out, size_t out_length, const uint8_t *digests, size_t
        digests_length, const uint8_t *salt, size_t salt_length, const uint8_t *personal, size_t
        personal_length, uint32_t leaf_length) {
    return (int32_t)exported_tree_root_of_leaves(ADDRESS(out), out_length, ADDRESS(digests), digests_length, ADDRESS(salt), salt_length, ADDRESS(personal), personal_length, leaf_length);
}

int32_t NAME(tree_leaves_ahead)(const vulfsjor_tree_state *state, uint8_t *out, size_t out_length,
        uint64_t skip, const uint8_t *input, size_t input_length) {
    return (int32_t)exported_tree_leaves_ahead(ADDRESS(state), ADDRESS(out), out_length, skip, ADDRESS(input), input_length);
}

int32_t NAME(tree_update_leaves)(vulfsjor_tree_state *state, const uint8_t *digests, size_t
        digests_length, const uint8_t *input, size_t input_length) {
    return (int32_t)exported_tree_update_leaves(ADDRESS(state), ADDRESS(digests), digests_length, ADDRESS(input), input_length);
}

int32_t NAME(tree_check)(size_t output_size, size_t salt_length, size_t personal_length, uint32_t
        leaf_length) {
    return (int32_t)exported_tree_check(output_size, salt_length, personal_length, leaf_length);
}

int32_t NAME(tree_init_leaf)(vulfsjor_blake2b_state *state, uint64_t i, uint32_t last, const uint8_t
        *salt, size_t salt_length, const uint8_t *personal, size_t personal_length, uint32_t
        leaf_length) {
    return (int32_t)exported_tree_init_leaf(ADDRESS(state), i, last, ADDRESS(salt), salt_length, ADDRESS(personal), personal_length, leaf_length);
}

int32_t NAME(tree_init_root)(vulfsjor_blake2b_state *state, size_t output_size, const uint8_t *salt,
        size_t salt_length, const uint8_t *personal, size_t personal_length, uint32_t leaf_length) {
    return (int32_t)exported_tree_init_root(ADDRESS(state), output_size, ADDRESS(salt), salt_length, ADDRESS(personal), personal_length, leaf_length);
}

int32_t NAME(tree_plan)(vulfsjor_plan *plan, uint64_t start, uint64_t length, uint32_t leaf_length,
        const vulfsjor_limits *limits) {
    uint64_t plan_[9];
    uint64_t limits_[4];
    store64(ADDRESS(limits_) + 0, limits->threads);
    store64(ADDRESS(limits_) + 8, limits->least_bytes);
    store64(ADDRESS(limits_) + 16, limits->part_bytes);
    store64(ADDRESS(limits_) + 24, limits->most_bytes);
    if (exported_tree_plan(ADDRESS(plan_), start, length, leaf_length, ADDRESS(limits_))) return -1;
    plan->start = (uint64_t)load64(ADDRESS(plan_) + 0);
    plan->end = (uint64_t)load64(ADDRESS(plan_) + 8);
    plan->rest_length = (uint64_t)load64(ADDRESS(plan_) + 16);
    plan->leaf_length = (uint64_t)load64(ADDRESS(plan_) + 24);
    plan->part_length = (uint64_t)load64(ADDRESS(plan_) + 32);
    plan->part_count = (uint64_t)load64(ADDRESS(plan_) + 40);
    plan->threads = (uint64_t)load64(ADDRESS(plan_) + 48);
    plan->digests_length = (uint64_t)load64(ADDRESS(plan_) + 56);
    plan->ends = (uint64_t)load64(ADDRESS(plan_) + 64);
    return 0;
}

int32_t NAME(tree_plan_update)(vulfsjor_plan *plan, const vulfsjor_tree_state *state, uint64_t
        length, const vulfsjor_limits *limits) {
    uint64_t plan_[9];
    uint64_t limits_[4];
    store64(ADDRESS(limits_) + 0, limits->threads);
    store64(ADDRESS(limits_) + 8, limits->least_bytes);
    store64(ADDRESS(limits_) + 16, limits->part_bytes);
    store64(ADDRESS(limits_) + 24, limits->most_bytes);
    if (exported_tree_plan_update(ADDRESS(plan_), ADDRESS(state), length, ADDRESS(limits_))) return -1;
    plan->start = (uint64_t)load64(ADDRESS(plan_) + 0);
    plan->end = (uint64_t)load64(ADDRESS(plan_) + 8);
    plan->rest_length = (uint64_t)load64(ADDRESS(plan_) + 16);
    plan->leaf_length = (uint64_t)load64(ADDRESS(plan_) + 24);
    plan->part_length = (uint64_t)load64(ADDRESS(plan_) + 32);
    plan->part_count = (uint64_t)load64(ADDRESS(plan_) + 40);
    plan->threads = (uint64_t)load64(ADDRESS(plan_) + 48);
    plan->digests_length = (uint64_t)load64(ADDRESS(plan_) + 56);
    plan->ends = (uint64_t)load64(ADDRESS(plan_) + 64);
    return 0;
}

int32_t NAME(tree_part)(vulfsjor_part *part, const vulfsjor_plan *plan, uint64_t i) {
    uint64_t part_[6];
    uint64_t plan_[9];
    store64(ADDRESS(plan_) + 0, plan->start);
    store64(ADDRESS(plan_) + 8, plan->end);
    store64(ADDRESS(plan_) + 16, plan->rest_length);
    store64(ADDRESS(plan_) + 24, plan->leaf_length);
    store64(ADDRESS(plan_) + 32, plan->part_length);
    store64(ADDRESS(plan_) + 40, plan->part_count);
    store64(ADDRESS(plan_) + 48, plan->threads);
    store64(ADDRESS(plan_) + 56, plan->digests_length);
    store64(ADDRESS(plan_) + 64, plan->ends);
    if (exported_tree_part(ADDRESS(part_), ADDRESS(plan_), i)) return -1;
    part->first = (uint64_t)load64(ADDRESS(part_) + 0);
    part->start = (uint64_t)load64(ADDRESS(part_) + 8);
    part->length = (uint64_t)load64(ADDRESS(part_) + 16);
    part->digests_start = (uint64_t)load64(ADDRESS(part_) + 24);
    part->digests_length = (uint64_t)load64(ADDRESS(part_) + 32);
    part->ends = (uint64_t)load64(ADDRESS(part_) + 40);
    return 0;
}
