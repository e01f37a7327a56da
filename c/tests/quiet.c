/* Programs as users of libb2, of BLAKE2's reference code and of this library write them: warnings.sh compiles them, with
 * no warning, by each standard of C and C++. Those by the names of others do not look at a status, which nothing there
 * asks for. LIBB2 and REFERENCE say whose names they are. */
#ifdef LIBB2
#include <vulfsjor-libb2/blake2.h>
#define ONE_CALL(x, out, size, in, length, key, keys) x(out, in, key, size, length, keys)
#elif defined(REFERENCE)
#include <vulfsjor-reference/blake2.h>
#define ONE_CALL(x, out, size, in, length, key, keys) x(out, size, in, length, key, keys)
#else
#include <vulfsjor_threads.h>
#endif
#include <stdio.h>

#if defined(LIBB2) || defined(REFERENCE)
#define FAMILY(x, size)                                                                                          \
    static int x##_once(const char *text, const char *key, size_t keys) {                                        \
        uint8_t out[size], keyed[size];                                                                          \
        ONE_CALL(x, out, size, "abc", 3, NULL, 0);                                                               \
        ONE_CALL(x, keyed, size, text, strlen(text), key, keys);                                                 \
        return out[0] ^ out[1] ^ keyed[0] ^ keyed[1];                                                            \
    }                                                                                                            \
    static int x##_pieces(const uint8_t *text, size_t length, size_t sizes) {                                    \
        x##_state S, copy;                                                                                       \
        uint8_t out[size], other[size];                                                                          \
        x##_init(&S, size);                                                                                      \
        x##_update(&S, text, length);                                                                            \
        copy = S;                                                                                                \
        x##_final(&S, out, size);                                                                                \
        x##_update(&copy, text, length);                                                                         \
        x##_final(&copy, other, size);                                                                           \
        x##_init_key(&S, sizes, text, length);                                                                   \
        x##_final(&S, out, sizes);                                                                               \
        return out[0] ^ other[1];                                                                                \
    }                                                                                                            \
    static void use_##x(const char *text) {                                                                      \
        const size_t length = strlen(text);                                                                      \
        printf("%02x", x##_once(text, text, length));                                                            \
        printf("%02x", x##_pieces((const uint8_t *)text, length, length));                                       \
    }
#define BLOCK(x)                                                                                                 \
    static int x##_block(const uint8_t *text, size_t length) {                                                   \
        x##_param P;                                                                                             \
        x##_state S;                                                                                             \
        uint8_t out[20];                                                                                         \
        memset(&P, 0, sizeof P);                                                                                 \
        P.digest_length = sizeof out;                                                                            \
        P.fanout = P.depth = 1;                                                                                  \
        memcpy(P.personal, "purpose", 8);                                                                        \
        x##_init_param(&S, &P);                                                                                  \
        S.last_node = 1;                                                                                         \
        x##_update(&S, text, length);                                                                            \
        x##_final(&S, out, sizeof out);                                                                          \
        return out[0] ^ out[19];                                                                                 \
    }
FAMILY(blake2b, BLAKE2B_OUTBYTES)
FAMILY(blake2s, BLAKE2S_OUTBYTES)
FAMILY(blake2bp, BLAKE2B_OUTBYTES)
FAMILY(blake2sp, BLAKE2S_OUTBYTES)
BLOCK(blake2b)
BLOCK(blake2s)
#ifdef REFERENCE
FAMILY(blake2xb, 100)
FAMILY(blake2xs, 100)
#endif

int main(int count, char **words) {
    uint8_t out[64];
    ONE_CALL(blake2, out, 64, "abc", 3, NULL, 0);
    printf("%02x%02x", out[0], out[1]);
    use_blake2b(words[count - 1]);
    use_blake2s(words[count - 1]);
    use_blake2bp(words[count - 1]);
    use_blake2sp(words[count - 1]);
    printf("%02x%02x", blake2b_block(out, 64), blake2s_block(out, 64));
#ifdef REFERENCE
    use_blake2xb(words[count - 1]);
    use_blake2xs(words[count - 1]);
#endif
    return 0;
}
#else
static int use_state(const char *text, unsigned char *out, size_t size) {
    vulfsjor_blake2b_state state, copy;
    if (vulfsjor_blake2b_init_key(&state, size, text, 1)) return 1;
    if (vulfsjor_blake2b_update(&state, text, strlen(text))) return 1;
    copy = state;
    if (vulfsjor_blake2b_final(&state, out, size)) return 1;
    return vulfsjor_blake2b_verify(&copy, out, size) != 0;
}

int main(int count, char **words) {
    unsigned char digest[32], keyed[64], output[100];
    char hex[65];
    const char *text = words[count - 1];
    if (vulfsjor_blake2s(digest, sizeof digest, text, strlen(text), NULL, 0)) return 1;
    if (vulfsjor_blake2b(keyed, sizeof keyed, text, strlen(text), digest, sizeof digest)) return 1;
    if (vulfsjor_blake2xb(output, sizeof output, text, strlen(text), NULL, 0)) return 1;
    if (use_state(text, keyed, sizeof keyed)) return 1;
    if (vulfsjor_bin2hex(hex, sizeof hex, digest, sizeof digest)) return 1;
    if (vulfsjor_tree_root_threads(keyed, sizeof keyed, text, strlen(text), NULL, 0, NULL, 0, 1024, 2)) return 1;
    printf("%s%02x%02x\n", hex, keyed[0], output[99]);
    return 0;
}
#endif
