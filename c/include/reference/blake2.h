/* The names of BLAKE2's reference code (https://github.com/BLAKE2/BLAKE2), of which many programs
 * contain a copy. Put this folder before the others in which the compiler looks for headers, or
 * include this file in place of the copy's blake2.h, and link libvulfsjor instead of the copy's
 * files. c/PORTING.md of the repository says how, and whether a program has the reference code's
 * order of arguments, which is this one, or libb2's.
 *
 * The functions do what vulfsjor.h says of the functions with vulfsjor_ in front of their names,
 * with the additions that the reference code has:
 *   - The output of a hash in one call may overlap the input and the key.
 *   - A key of 0 bytes is no key, wherever the pointer points, except in blake2b_init_key and that
 *     of BLAKE2s, BLAKE2bp and BLAKE2sp, which refuse it.
 *   - final accepts an output that is longer than the digest, and writes as many bytes as that has.
 *     That of BLAKE2X wants exactly the output's length, unless init was told that it is unknown.
 *
 * A state is that of vulfsjor.h: copy it by assignment. Of the reference code's fields it has
 * last_node, which a program may set to 1.
 *
 * Stricter than the reference code: null pointers are refused, as is init_param for a digest or a
 * key of a length that is none, and after final the state is zero, so a second final, or an update,
 * returns -1. */
#ifndef VULFSJOR_REFERENCE_BLAKE2_H
#define VULFSJOR_REFERENCE_BLAKE2_H

/* The guard of the reference code's own header, which is empty if it is included later. */
#ifndef BLAKE2_H
#define BLAKE2_H
#endif

#include "../vulfsjor.h"

enum blake2s_constant {
    BLAKE2S_BLOCKBYTES = 64,
    BLAKE2S_OUTBYTES = 32,
    BLAKE2S_KEYBYTES = 32,
    BLAKE2S_SALTBYTES = 8,
    BLAKE2S_PERSONALBYTES = 8
};

enum blake2b_constant {
    BLAKE2B_BLOCKBYTES = 128,
    BLAKE2B_OUTBYTES = 64,
    BLAKE2B_KEYBYTES = 64,
    BLAKE2B_SALTBYTES = 16,
    BLAKE2B_PERSONALBYTES = 16
};

/* The structs of states have the reference code's tags too. */
#define blake2b_state__ vulfsjor_blake2b_state
#define blake2s_state__ vulfsjor_blake2s_state
#define blake2bp_state__ vulfsjor_blake2bp_state
#define blake2sp_state__ vulfsjor_blake2sp_state
#define blake2xb_state__ vulfsjor_blake2xb_state
#define blake2xs_state__ vulfsjor_blake2xs_state

/* The word for inline functions: C89 has none, and GCC and Clang have this one there. */
#if defined(__GNUC__)
#define VULFSJOR_REFERENCE_INLINE static __inline__
#else
#define VULFSJOR_REFERENCE_INLINE static inline
#endif

/* A function that writes an output, or returns -1 and writes none. Inlined into a caller that does
 * not look at the status, it would let GCC warn of an output that is not initialized. */
#if defined(__GNUC__)
#define VULFSJOR_REFERENCE_WRITES static __attribute__((noinline, unused))
#else
#define VULFSJOR_REFERENCE_WRITES static
#endif

/* The parameter blocks: numbers are in little-endian order, also on other processors, so write them
 * byte by byte there. The upper half of node_offset is xof_length. */
#if defined(_MSC_VER)
#define BLAKE2_PACKED(x) __pragma(pack(push, 1)) x __pragma(pack(pop))
#else
#define BLAKE2_PACKED(x) x __attribute__((packed))
#endif

BLAKE2_PACKED(struct blake2s_param__ {
    uint8_t digest_length; /* 1 to 32 */
    uint8_t key_length;    /* 0 to 32 */
    uint8_t fanout;
    uint8_t depth;
    uint32_t leaf_length;
    uint32_t node_offset;
    uint16_t xof_length;
    uint8_t node_depth;
    uint8_t inner_length;
    uint8_t salt[BLAKE2S_SALTBYTES];
    uint8_t personal[BLAKE2S_PERSONALBYTES];
});
typedef struct blake2s_param__ blake2s_param;

BLAKE2_PACKED(struct blake2b_param__ {
    uint8_t digest_length; /* 1 to 64 */
    uint8_t key_length;    /* 0 to 64 */
    uint8_t fanout;
    uint8_t depth;
    uint32_t leaf_length;
    uint32_t node_offset;
    uint32_t xof_length;
    uint8_t node_depth;
    uint8_t inner_length;
    uint8_t reserved[14];
    uint8_t salt[BLAKE2B_SALTBYTES];
    uint8_t personal[BLAKE2B_PERSONALBYTES];
});
typedef struct blake2b_param__ blake2b_param;

typedef char vulfsjor_reference_layouts[sizeof(blake2b_param) == BLAKE2B_OUTBYTES &&
                                        sizeof(blake2s_param) == BLAKE2S_OUTBYTES ? 1 : -1];

/* The hash in one call, by this name, of the family x. */
#define VULFSJOR_REFERENCE_ONE_CALL(name, x, longest)                                              \
    VULFSJOR_REFERENCE_WRITES int name(void *out, size_t outlen, const void *in, size_t inlen,     \
                                       const void *key, size_t keylen) {                           \
        uint8_t digest[longest];                                                                   \
        if (!out || outlen > sizeof digest) return -1;                                             \
        if (!keylen) key = VULFSJOR_NULL;                                                          \
        if (vulfsjor_##x(digest, outlen, in, inlen, key, keylen)) return -1;                       \
        memcpy(out, digest, outlen);                                                               \
        return 0;                                                                                  \
    }

/* The functions of a family with digests of a fixed length. */
#define VULFSJOR_REFERENCE_FAMILY(x, longest)                                                      \
    typedef vulfsjor_##x##_state x##_state;                                                        \
    VULFSJOR_REFERENCE_INLINE int x##_init(x##_state *S, size_t outlen) {                          \
        return vulfsjor_##x##_init(S, outlen);                                                     \
    }                                                                                              \
    VULFSJOR_REFERENCE_INLINE int x##_init_key(x##_state *S, size_t outlen, const void *key,       \
                                               size_t keylen) {                                    \
        return vulfsjor_##x##_init_key(S, outlen, key, keylen);                                    \
    }                                                                                              \
    VULFSJOR_REFERENCE_INLINE int x##_update(x##_state *S, const void *in, size_t inlen) {         \
        return vulfsjor_##x##_update(S, in, inlen);                                                \
    }                                                                                              \
    VULFSJOR_REFERENCE_WRITES int x##_final(x##_state *S, void *out, size_t outlen) {              \
        const size_t size = vulfsjor_##x##_digest_size(S);                                         \
        return vulfsjor_##x##_final(S, out, size < outlen ? size : outlen);                        \
    }                                                                                              \
    VULFSJOR_REFERENCE_ONE_CALL(x, x, longest)

/* What only BLAKE2b and BLAKE2s have. With a key_length in the block, the first block of the input
 * must be the key, followed by zeros. */
#define VULFSJOR_REFERENCE_PARAM(x)                                                                \
    VULFSJOR_REFERENCE_INLINE int x##_init_param(x##_state *S, const x##_param *P) {               \
        if (!S) return -1;                                                                         \
        memset(S, 0, sizeof *S);                                                                   \
        return P ? vulfsjor_ffi_##x##_init_param(S, vulfsjor_text(P), sizeof *P) : -1;             \
    }

/* The functions of BLAKE2X, with outputs of up to `longest` bytes, or of an unknown length, which is
 * the number after that one. */
#define VULFSJOR_REFERENCE_XOF(x, longest)                                                         \
    typedef vulfsjor_##x##_state x##_state;                                                        \
    VULFSJOR_REFERENCE_INLINE int x##_init_key(x##_state *S, size_t outlen, const void *key,       \
                                               size_t keylen) {                                    \
        return vulfsjor_##x##_init_salt_personal(S, outlen, keylen ? key : VULFSJOR_NULL, keylen,  \
                                                 "", 0, "", 0);                                    \
    }                                                                                              \
    VULFSJOR_REFERENCE_INLINE int x##_init(x##_state *S, size_t outlen) {                          \
        return vulfsjor_##x##_init(S, outlen);                                                     \
    }                                                                                              \
    VULFSJOR_REFERENCE_INLINE int x##_update(x##_state *S, const void *in, size_t inlen) {         \
        return vulfsjor_##x##_update(S, in, inlen);                                                \
    }                                                                                              \
    VULFSJOR_REFERENCE_WRITES int x##_final(x##_state *S, void *out, size_t outlen) {              \
        const uint64_t left = vulfsjor_##x##_left(S);                                              \
        if (!outlen || (left != outlen && left <= longest)) return -1;                             \
        if (vulfsjor_##x##_squeeze(S, out, outlen)) return -1;                                     \
        vulfsjor_##x##_wipe(S);                                                                    \
        return 0;                                                                                  \
    }                                                                                              \
    VULFSJOR_REFERENCE_WRITES int x(void *out, size_t outlen, const void *in, size_t inlen,        \
                                    const void *key, size_t keylen) {                              \
        x##_state S;                                                                               \
        int status;                                                                                \
        if (x##_init_key(&S, outlen, key, keylen)) return -1;                                      \
        status = vulfsjor_##x##_update(&S, in, inlen);                                             \
        if (!status) status = out ? vulfsjor_##x##_squeeze(&S, out, outlen) : -1;                  \
        vulfsjor_##x##_wipe(&S);                                                                   \
        return status;                                                                             \
    }

VULFSJOR_REFERENCE_FAMILY(blake2b, BLAKE2B_OUTBYTES)
VULFSJOR_REFERENCE_FAMILY(blake2s, BLAKE2S_OUTBYTES)
VULFSJOR_REFERENCE_PARAM(blake2b)
VULFSJOR_REFERENCE_PARAM(blake2s)
VULFSJOR_REFERENCE_FAMILY(blake2bp, BLAKE2B_OUTBYTES)
VULFSJOR_REFERENCE_FAMILY(blake2sp, BLAKE2S_OUTBYTES)
VULFSJOR_REFERENCE_XOF(blake2xb, 0xfffffffeu)
VULFSJOR_REFERENCE_XOF(blake2xs, 0xfffeu)

/* The same as blake2b. */
VULFSJOR_REFERENCE_ONE_CALL(blake2, blake2b, BLAKE2B_OUTBYTES)

#endif
