/* The functions of libgcrypt's cipher/blake2.c over this library, for that file: it keeps the list of its hashes, what
 * it makes of them for Argon2, and its selftests. Its test writes to a hash that has ended, which changes nothing. */
#include <vulfsjor.h>

#define FUNCTIONS(b, B)                                                                                                \
    typedef struct {                                                                                                   \
        vulfsjor_blake2##b##_state state;                                                                              \
        byte buf[BLAKE2##B##_OUTBYTES];                                                                                \
        size_t outlen;                                                                                                 \
    } BLAKE2##B##_CONTEXT;                                                                                             \
    static gcry_err_code_t blake2##b##_init_ctx(void *ctx, unsigned flags, const byte *key, size_t keylen,             \
                                                unsigned bits) {                                                       \
        BLAKE2##B##_CONTEXT *c = ctx;                                                                                  \
        (void)flags;                                                                                                   \
        c->outlen = bits / 8;                                                                                          \
        if (!key && !keylen) return vulfsjor_blake2##b##_init(&c->state, c->outlen) ? GPG_ERR_INV_ARG : 0;             \
        return vulfsjor_blake2##b##_init_key(&c->state, c->outlen, key, keylen) ? GPG_ERR_INV_KEYLEN : 0;              \
    }                                                                                                                  \
    static void blake2##b##_write(void *ctx, const void *in, size_t length) {                                          \
        BLAKE2##B##_CONTEXT *c = ctx;                                                                                  \
        if (vulfsjor_blake2##b##_update(&c->state, in, length)) return;                                                \
    }                                                                                                                  \
    static void blake2##b##_final(void *ctx) {                                                                         \
        BLAKE2##B##_CONTEXT *c = ctx;                                                                                  \
        if (vulfsjor_blake2##b##_final(&c->state, c->buf, c->outlen)) return;                                          \
    }                                                                                                                  \
    static byte *blake2##b##_read(void *ctx) { return ((BLAKE2##B##_CONTEXT *)ctx)->buf; }

FUNCTIONS(b, B)
FUNCTIONS(s, S)
