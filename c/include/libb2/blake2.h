/* The names of libb2, for programs that were written for it. Put this folder before the others in
 * which the compiler looks for headers, so that `#include <blake2.h>` finds this file, and link
 * libvulfsjor instead of libb2. The functions do what vulfsjor.h says of the functions with
 * vulfsjor_ in front of their names, with one addition: the digest that blake2b, blake2s or blake2
 * writes may overlap the input and the key.
 *
 * A state has libb2's size and alignment, and its fields `outlen` and `last_node`; the others hold
 * another state, that of vulfsjor.h, on which each call works without a copy. So code that was
 * compiled with this header, code that was compiled with libb2's own, and the functions of
 * libvulfsjor-libb2.a may share a state, but libb2's functions and these cannot continue each
 * other's.
 *
 * Stricter than libb2:
 *   - Null pointers: libb2 ends the program for most of them; here the call returns -1. So does an
 *     update of a null state with 0 bytes, which returns 0 in libb2.
 *   - After final the state is zero. A second final, or an update after it, returns -1. libb2 goes
 *     on, and returns a digest without meaning. A zeroed state is refused from the first call on.
 *   - init_param returns -1 for a digest of 0 bytes or of more than 64 (BLAKE2s: 32), and for a key
 *     of more than 64 (32). libb2 accepts them.
 *
 * c/PORTING.md of the repository has the complete list of differences. */
#ifndef VULFSJOR_LIBB2_BLAKE2_H
#define VULFSJOR_LIBB2_BLAKE2_H

#include "../vulfsjor.h"

enum blake2s_constant {
    BLAKE2S_BLOCKBYTES = 64,
    BLAKE2S_OUTBYTES = 32,
    BLAKE2S_KEYBYTES = 32,
    BLAKE2S_SALTBYTES = 8,
    BLAKE2S_PERSONALBYTES = 8
};

enum blake2b_constant {
    BLAKE2B_BLOCKBYTES = 128,
    BLAKE2B_OUTBYTES = 64,
    BLAKE2B_KEYBYTES = 64,
    BLAKE2B_SALTBYTES = 16,
    BLAKE2B_PERSONALBYTES = 16
};

/* The structs have libb2's tags too. */
#define __blake2b_param vulfsjor_blake2b_param
#define __blake2s_param vulfsjor_blake2s_param
typedef vulfsjor_blake2b_param blake2b_param;
typedef vulfsjor_blake2s_param blake2s_param;

/* What libb2 puts before its declarations. */
#define BLAKE2_API

/* How functions are declared. Inlined into a program that does not look at the status, those that
 * write a digest would let GCC warn of a digest that is not initialized. */
#define VULFSJOR_LIBB2_INLINE static __inline__
#define VULFSJOR_LIBB2_STATIC static __attribute__((noinline, unused))

/* How libb2's functions are: libb2/libb2.c of the repository defines them for linking. */
#ifdef VULFSJOR_LIBB2_FUNCTION
#define VULFSJOR_LIBB2_WRITES VULFSJOR_LIBB2_FUNCTION
#else
#define VULFSJOR_LIBB2_FUNCTION VULFSJOR_LIBB2_INLINE
#define VULFSJOR_LIBB2_WRITES VULFSJOR_LIBB2_STATIC
#endif

/* The hash in one call of the family x, by this name. It writes the digest of the input to out,
 * which may overlap the input and the key. Returns -1 and writes nothing if a length is out of
 * range. */
#define VULFSJOR_LIBB2_ONE_CALL(kind, name, x, longest)                                            \
    kind int name(uint8_t *out, const void *in, const void *key, size_t outlen, size_t inlen,      \
                  size_t keylen) {                                                                 \
        uint8_t digest[longest];                                                                   \
        if (!out || outlen > sizeof digest) return -1;                                             \
        if (!keylen) key = VULFSJOR_NULL; /* which is no key in libb2, wherever key points */      \
        if (vulfsjor_##x(digest, outlen, in, inlen, key, keylen)) return -1;                       \
        memcpy(out, digest, outlen);                                                               \
        return 0;                                                                                  \
    }

/* What the functions of all families have. Our state, which ends with `kept`, is at the beginning of
 * libb2's. Its fields are little-endian numbers, or lie at addresses that are no multiples of their
 * sizes, so only the functions of the library read or write them. */
#define VULFSJOR_LIBB2_STATES(x, kept, longest)                                                    \
    typedef char vulfsjor_libb2_##x##_room[sizeof(vulfsjor_##x##_state) <=                         \
                                           offsetof(x##_state, buflen) ? 1 : -1];                  \
                                                                                                   \
    VULFSJOR_LIBB2_INLINE vulfsjor_##x##_state *vulfsjor_libb2_##x(x##_state *S) {                 \
        void *state = S;                                                                           \
        return VULFSJOR_CAST(vulfsjor_##x##_state *, state);                                       \
    }                                                                                              \
                                                                                                   \
    /* After an init: wipes the key for resets, which libb2 has not, and sets libb2's fields. */   \
    VULFSJOR_LIBB2_INLINE int vulfsjor_libb2_##x##_begun(x##_state *S, int status,                 \
                                                         size_t outlen) {                          \
        const size_t end = offsetof(vulfsjor_##x##_state, kept);                                   \
        memset(vulfsjor_bytes(S) + end, 0, sizeof *S - end);                                       \
        if (!status) S->outlen = VULFSJOR_CAST(uint8_t, outlen);                                   \
        return status;                                                                             \
    }                                                                                              \
                                                                                                   \
    VULFSJOR_LIBB2_FUNCTION int x##_init(x##_state *S, size_t outlen) {                            \
        if (!S) return -1;                                                                         \
        return vulfsjor_libb2_##x##_begun(S, vulfsjor_##x##_init(vulfsjor_libb2_##x(S), outlen),   \
                                          outlen);                                                 \
    }                                                                                              \
    VULFSJOR_LIBB2_FUNCTION int x##_init_key(x##_state *S, size_t outlen, const void *key,         \
                                             size_t keylen) {                                      \
        vulfsjor_##x##_state *state = vulfsjor_libb2_##x(S);                                       \
        if (!S) return -1;                                                                         \
        return vulfsjor_libb2_##x##_begun(                                                         \
            S, vulfsjor_##x##_init_key(state, outlen, key, keylen), outlen);                       \
    }                                                                                              \
    VULFSJOR_LIBB2_FUNCTION int x##_update(x##_state *S, const uint8_t *in, size_t inlen) {        \
        return vulfsjor_##x##_update(vulfsjor_libb2_##x(S), in, inlen);                            \
    }                                                                                              \
    VULFSJOR_LIBB2_ONE_CALL(VULFSJOR_LIBB2_WRITES, x, x, longest)

/* The functions of one family, named x, with words of this type, and a state of `size` bytes. */
#define VULFSJOR_LIBB2_FAMILY(x, word, block, longest, size)                                       \
    typedef struct __attribute__((packed)) __##x##_state {                                         \
        word h[8], t[2], f[2];                                                                     \
        uint8_t buf[2 * block];                                                                    \
        uint32_t buflen;                                                                           \
        uint8_t outlen, last_node;                                                                 \
    } x##_state;                                                                                   \
    typedef char vulfsjor_libb2_##x##_layout[sizeof(x##_state) == size ? 1 : -1];                  \
                                                                                                   \
    VULFSJOR_LIBB2_STATES(x, key, longest)                                                         \
    VULFSJOR_LIBB2_FUNCTION int x##_init_param(x##_state *S, const x##_param *P) {                 \
        if (!S) return -1;                                                                         \
        return vulfsjor_libb2_##x##_begun(                                                         \
            S, vulfsjor_##x##_init_param(vulfsjor_libb2_##x(S), P), P ? P->digest_length : 0);     \
    }                                                                                              \
                                                                                                   \
    /* Writes the digest and wipes the state. outlen must be the length of the digest: otherwise   \
     * it returns -1, and the state is unchanged, as in libb2. */                                  \
    VULFSJOR_LIBB2_WRITES int x##_final(x##_state *S, uint8_t *out, size_t outlen) {               \
        vulfsjor_##x##_state *state = vulfsjor_libb2_##x(S);                                       \
        int status;                                                                                \
        if (!S || !out || outlen != S->outlen) return -1;                                          \
        if (S->last_node && vulfsjor_##x##_set_last_node(state, 1)) return -1;                     \
        status = vulfsjor_##x##_final(state, out, outlen);                                         \
        if (!status) S->outlen = S->last_node = 0;                                                 \
        return status;                                                                             \
    }

/* The functions of BLAKE2bp or BLAKE2sp, named x, with a state of `size` bytes. */
#define VULFSJOR_LIBB2_PARALLEL(x, leaf, leaves, block, longest, size)                             \
    typedef struct __attribute__((packed)) __##x##_state {                                         \
        leaf##_state S[leaves][1], R[1];                                                           \
        uint8_t buf[leaves * block];                                                               \
        uint32_t buflen;                                                                           \
        uint8_t outlen;                                                                            \
    } x##_state;                                                                                   \
    typedef char vulfsjor_libb2_##x##_layout[sizeof(x##_state) == size ? 1 : -1];                  \
                                                                                                   \
    VULFSJOR_LIBB2_STATES(x, key_block, longest)                                                   \
    VULFSJOR_LIBB2_WRITES int x##_final(x##_state *S, uint8_t *out, size_t outlen) {               \
        int status;                                                                                \
        if (!S || outlen != S->outlen) return -1;                                                  \
        status = vulfsjor_##x##_final(vulfsjor_libb2_##x(S), out, outlen);                         \
        if (!status) S->outlen = 0;                                                                \
        return status;                                                                             \
    }

VULFSJOR_LIBB2_FAMILY(blake2b, uint64_t, BLAKE2B_BLOCKBYTES, BLAKE2B_OUTBYTES, 358)
VULFSJOR_LIBB2_FAMILY(blake2s, uint32_t, BLAKE2S_BLOCKBYTES, BLAKE2S_OUTBYTES, 182)

VULFSJOR_LIBB2_PARALLEL(blake2bp, blake2b, 4, BLAKE2B_BLOCKBYTES, BLAKE2B_OUTBYTES, 2307)
VULFSJOR_LIBB2_PARALLEL(blake2sp, blake2s, 8, BLAKE2S_BLOCKBYTES, BLAKE2S_OUTBYTES, 2155)

/* The same as blake2b. */
VULFSJOR_LIBB2_ONE_CALL(VULFSJOR_LIBB2_STATIC, blake2, blake2b, BLAKE2B_OUTBYTES)

#endif
