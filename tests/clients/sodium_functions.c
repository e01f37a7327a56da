/* Those of sodium_names.h under their own names, in a shared library that goes before libsodium's. */
#include "sodium_names.h"

#undef crypto_generichash
#undef crypto_generichash_init
#undef crypto_generichash_update
#undef crypto_generichash_final
#undef crypto_generichash_blake2b_init_salt_personal
#undef crypto_generichash_blake2b_update
#undef crypto_generichash_blake2b_final
#undef crypto_generichash_blake2b_salt_personal

int crypto_generichash(unsigned char *out, size_t size, text_t in, unsigned long long length, text_t key, size_t keys) {
    return hash(out, size, in, length, key, keys);
}
int crypto_generichash_init(sodium_state *S, text_t key, size_t keys, size_t size) { return init(S, key, keys, size); }
int crypto_generichash_update(sodium_state *S, text_t in, unsigned long long length) { return update(S, in, length); }
int crypto_generichash_final(sodium_state *S, unsigned char *out, size_t size) { return final(S, out, size); }
int crypto_generichash_blake2b_init_salt_personal(sodium_state *S, text_t key, size_t keys, size_t size, text_t salt,
                                                  text_t personal) {
    return init_all(S, key, keys, size, salt, personal);
}
int crypto_generichash_blake2b_update(sodium_state *S, text_t in, unsigned long long length) {
    return update(S, in, length);
}
int crypto_generichash_blake2b_final(sodium_state *S, unsigned char *out, size_t size) { return final(S, out, size); }
int crypto_generichash_blake2b_salt_personal(unsigned char *out, size_t size, text_t in, unsigned long long length,
                                             text_t key, size_t keys, text_t salt, text_t personal) {
    return hash_all(out, size, in, length, key, keys, salt, personal);
}
