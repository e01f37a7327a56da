/* Makes the calls of libsodium that c/PORTING.md names, and those that are in their place here, and compares what they
 * return. Returns 0 if all is as the page says. */
#include <sodium.h>
#include <stdio.h>
#include <vulfsjor.h>

/* Says that something is not so. Returns 1, or 0 if it is. */
static int report_unless(int is_so, const char *what) {
    if (!is_so) printf("not so: %s\n", what);
    return !is_so;
}

int main(void) {
    const unsigned char key[32] = "use 32 random bytes as the key!", message[15] = "pay 10 to Alice";
    const unsigned char salt[16] = "salt", personal[16] = "invoices", id[8] = {2, 1}; /* 258, little-endian */
    unsigned char there[32], here[32];
    crypto_generichash_state theirs;
    vulfsjor_blake2b_state ours;
    int count = 0;

    if (sodium_init() < 0) return 1;
    if (crypto_generichash(there, 32, message, 15, NULL, 0)) return 1;
    if (vulfsjor_blake2b(here, 32, message, 15, NULL, 0)) return 1;
    count += report_unless(!vulfsjor_memcmp(there, here, 32), "a hash in one call is the same");

    if (crypto_generichash_init(&theirs, key, 32, 16)) return 1;
    if (crypto_generichash_update(&theirs, message, 15)) return 1;
    if (crypto_generichash_final(&theirs, there, 16)) return 1;
    if (vulfsjor_blake2b_init_key(&ours, 16, key, 32)) return 1;
    if (vulfsjor_blake2b_update(&ours, message, 15)) return 1;
    if (vulfsjor_blake2b_final(&ours, here, 16)) return 1;
    count += report_unless(!vulfsjor_memcmp(there, here, 16), "a tag is the same");
    count += report_unless(crypto_generichash_update(&theirs, message, 15) == 0,
                           "an update after final returns 0 there");
    count += report_unless(vulfsjor_blake2b_update(&ours, message, 15) == -1, "it returns -1 here");
    count += report_unless(crypto_generichash_statebytes() >= sizeof ours, "a state fits");

    if (crypto_generichash_blake2b_salt_personal(there, 32, message, 15, key, 32, salt, personal)) return 1;
    if (vulfsjor_blake2b_init_salt_personal(&ours, 32, key, 32, salt, 16, personal, 16)) return 1;
    if (vulfsjor_blake2b_update(&ours, message, 15)) return 1;
    if (vulfsjor_blake2b_final(&ours, here, 32)) return 1;
    count += report_unless(!vulfsjor_memcmp(there, here, 32), "a tag with a salt and a personalization is the same");

    if (crypto_kdf_derive_from_key(there, 32, 258, "invoices", key)) return 1;
    if (vulfsjor_blake2b_init_salt_personal(&ours, 32, key, 32, id, 8, "invoices", 8)) return 1;
    if (vulfsjor_blake2b_final(&ours, here, 32)) return 1;
    count += report_unless(!vulfsjor_memcmp(there, here, 32), "a derived key is the same");
    return count != 0;
}
