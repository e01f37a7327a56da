/* The names of libsodium's generichash over this library, as c/PORTING.md has them, for libsodium's own tests of them:
 * include it before cmptest.h. A state of libsodium holds one of this library. */
#include <sodium.h>
#include <vulfsjor.h>

typedef char state_fits[sizeof(vulfsjor_blake2b_state) <= sizeof(crypto_generichash_state) ? 1 : -1];
#define STATE(state) ((vulfsjor_blake2b_state *)(void *)(state))
typedef crypto_generichash_blake2b_state sodium_state;
typedef const unsigned char *text_t;

static int init_all(sodium_state *S, text_t key, size_t keys, size_t size, text_t salt, text_t personal) {
    return vulfsjor_blake2b_init_salt_personal(STATE(S), size, keys ? key : NULL, key ? keys : 0, salt, salt ? 16 : 0,
                                               personal, personal ? 16 : 0);
}
static int init(sodium_state *S, text_t key, size_t keys, size_t size) {
    return init_all(S, key, keys, size, NULL, NULL);
}
static int update(sodium_state *S, text_t in, unsigned long long length) {
    return vulfsjor_blake2b_update(STATE(S), in, (size_t)length);
}
static int final(sodium_state *S, unsigned char *out, size_t size) {
    return vulfsjor_blake2b_final(STATE(S), out, size);
}
static int hash_all(unsigned char *out, size_t size, text_t in, unsigned long long length, text_t key, size_t keys,
                    text_t salt, text_t personal) {
    sodium_state S;
    return init_all(&S, key, keys, size, salt, personal) || update(&S, in, length) || final(&S, out, size) ? -1 : 0;
}
static int hash(unsigned char *out, size_t size, text_t in, unsigned long long length, text_t key, size_t keys) {
    return hash_all(out, size, in, length, key, keys, NULL, NULL);
}
/* No test has all of them. */
static void *const used[] = {(void *)init, (void *)hash, (void *)hash_all};

#define crypto_generichash hash
#define crypto_generichash_init init
#define crypto_generichash_update update
#define crypto_generichash_final final
#define crypto_generichash_blake2b_init_salt_personal init_all
#define crypto_generichash_blake2b_update update
#define crypto_generichash_blake2b_final final
#define crypto_generichash_blake2b_salt_personal hash_all
