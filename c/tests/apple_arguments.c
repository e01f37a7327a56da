/* A node of a tree whose parameters all differ: a call with an argument on the stack, by the calling
 * convention of macOS on ARM, which packs arguments there. WANTED_B and WANTED_S are the digests of `abc` under them,
 * as lists of bytes. Returns 0 if both agree. It prints nothing, since functions such as printf have
 * another convention. macos.sh compiles it for macOS and runs it on Linux. */
#include <vulfsjor.h>

static const unsigned char wanted_b[64] = {WANTED_B}, wanted_s[32] = {WANTED_S};

int main(void) {
    const vulfsjor_tree tree = {.fanout = 3, .depth = 200, .leaf_length = 0x89abcdef,
                                .node_offset = 0x123456789abc, .node_depth = 17,
                                .inner_length = 29};
    unsigned char digest[64];
    vulfsjor_blake2b_state b;
    vulfsjor_blake2s_state s;

    if (vulfsjor_blake2b_init_tree(&b, 64, "key", 3, "salt", 4, "persona", 7, &tree) ||
        vulfsjor_blake2b_update(&b, "abc", 3) || vulfsjor_blake2b_final(&b, digest, 64) ||
        memcmp(digest, wanted_b, 64))
        return 1;
    if (vulfsjor_blake2s_init_tree(&s, 32, "key", 3, "salt", 4, "persona", 7, &tree) ||
        vulfsjor_blake2s_update(&s, "abc", 3) || vulfsjor_blake2s_final(&s, digest, 32) ||
        memcmp(digest, wanted_s, 32))
        return 2;
    return 0;
}
