/* What the hashes differ in for conformance.c: which functions have the arguments of a case. The words of family.h say
 * which hash it is, and TEST_T the tree of two levels. */
#include <limits.h>
#include "family.h"
#include "conformance_lines.h"

#ifdef TEST_T
#define HASH "tree"
#undef BLAKE
#define BLAKE(name) vulfsjor_tree_##name
#define state_t vulfsjor_tree_state
enum { FIRST_TEXT = 1 }; /* of the key, the salt and the personalization: a tree has no key */
#else
#define HASH "blake2" FAMILY
enum { FIRST_TEXT = 0 };
#endif
#if !defined(TEST_T) && !defined(TEST_P) && !defined(TEST_X)
#define TEST_NODES
#endif

/* The size of an output whose length is not known; a size that no other hash has. */
#ifdef TEST_X
#define UNKNOWN ((uint64_t)CONSTANT(UNKNOWN_LENGTH))
#else
#define UNKNOWN UINT64_MAX
#endif

/* Whether bytes are the same, some of which may be secrets, and then stay secrets. */
static inline int same(const void *a, const void *b, size_t n) {
#ifdef TEST_SECRETS
    static uint8_t copies[2][100000];
    SHOW(memcpy(copies[0], a, n), n), SHOW(memcpy(copies[1], b, n), n);
    a = copies[0], b = copies[1];
#endif
    return !memcmp(a, b, n);
}

static inline int is_ended(const state_t *S) {
    static const state_t zeros;
    return same(S, &zeros, sizeof zeros);
}

/* A flag that is on, each time another number. */
static inline int flag_of(int on) {
    static const int values[] = {1, 2, 255, 256, 65536, -1, INT_MAX, INT_MIN};
    static unsigned next;
    return on ? values[next++ % 8] : 0;
}

/* ---- inits: INITS of them, of which the first has all arguments. ABSENT: this one has not these arguments */

enum { INITS = 7, ABSENT = -2, LEAST_TAG = 16 };
#define HAS_KEY(g) ((g)->key.bytes || (g)->key.length)

#ifdef TEST_NODES
static inline int init_node(state_t *S, const given *g) {
    int status = BLAKE(init_tree)(S, g->size, TEXTS, &g->tree);
    return status || !g->last ? status : BLAKE(set_last_node)(S, flag_of(1));
}

/* By a parameter block without a key. It has no room for what is out of bounds. */
static inline int init_block(state_t *S, const given *g) {
    if (HAS_KEY(g) || g->last || g->size > 255 || BLAKE(refused)(1, TEXTS, &g->tree)) return ABSENT;
    param_t p = {.digest_length = (uint8_t)g->size, .fanout = g->tree.fanout, .depth = g->tree.depth,
                 .leaf_length = g->tree.leaf_length, .node_depth = g->tree.node_depth,
                 .inner_length = g->tree.inner_length};
#ifdef TEST_S
    for (int i = 0; i < 6; i++) ((uint8_t *)&p)[8 + i] = (uint8_t)(g->tree.node_offset >> 8 * i);
#else
    p.node_offset = g->tree.node_offset;
#endif
    if (g->salt.length) memcpy(p.salt, TEXT(g->salt));
    if (g->person.length) memcpy(p.personal, TEXT(g->person));
    return BLAKE(init_param)(S, &p);
}
#endif

static inline int init_by_way(int which, state_t *S, const given *g) {
#ifdef TEST_T
    return which ? ABSENT : vulfsjor_tree_init(S, g->size, TEXT(g->salt), TEXT(g->person), g->tree.leaf_length);
#else
    const int is_plain = !g->salt.length && !g->person.length && !g->is_node;
#ifdef TEST_NODES
    if (g->is_node && !which) return init_node(S, g);
    if (which == 1) return init_node(S, g);
    if (which == 2) return init_block(S, g);
#endif
    if (!which) return BLAKE(init_salt_personal)(S, g->size, TEXTS);
    if (which == 3 && is_plain && !HAS_KEY(g)) return BLAKE(init)(S, g->size);
    if (which == 4 && is_plain && HAS_KEY(g)) return BLAKE(init_key)(S, g->size, TEXT(g->key));
    if (which < 5 || g->is_node || !HAS_KEY(g)) return ABSENT;
#ifndef TEST_X
    if (which == 5) return BLAKE(init_short_mac)(S, g->size, TEXTS);
    if (g->size < LEAST_TAG) return ABSENT;
#endif
    return BLAKE(init_mac)(S, g->size, TEXTS);
#endif
}

/* The arguments with a text that all calls refuse: a null pointer, a pointer to a key of no bytes, or a length that 32
 * bits would take for another, of which there is no memory. It is by turns the key, the salt and the
 * personalization. */
#define WRONG_TEXTS (sizeof(size_t) == 8 ? 18 : 6)
static inline given with_wrong_text(const given *g, int i) {
    static const size_t lengths[] = {1, 0, TWO_TO(32), TWO_TO(32) + 1, TWO_TO(63), ~(size_t)0};
    static uint8_t bytes[MAX];
    given other = *g;
    (&other.key)[i % 3] = (text){i < 3 ? NULL : bytes, i == 4 || i == 5 ? MAX : lengths[i / 3]};
    return other;
}

/* The argument that the inits refuse. */
static inline vulfsjor_argument argument_refused_by_inits(const given *g) {
#if defined(TEST_T)
    return vulfsjor_tree_refused(g->size, TEXT(g->salt), TEXT(g->person), g->tree.leaf_length);
#elif defined(TEST_NODES)
    return BLAKE(refused)(g->size, TEXTS, g->is_node ? &g->tree : NULL);
#else
    return BLAKE(refused)(g->size, TEXTS);
#endif
}

/* ---- digests */

/* In one call, or ABSENT. */
static inline int hash_in_one_call(uint8_t *out, const given *g, text message) {
#ifdef TEST_T
    return vulfsjor_tree_root(out, g->size, TEXT(message), TEXT(g->salt), TEXT(g->person), g->tree.leaf_length);
#else
    if (g->salt.length || g->person.length || g->is_node) return ABSENT;
    return ONE_CALL(out, g->size, TEXT(message), TEXT(g->key));
#endif
}

/* Writes the digest, or the next bytes of the output. */
static inline int write_output(state_t *S, void *out, size_t room) {
#ifdef TEST_X
    return BLAKE(squeeze)(S, out, room);
#else
    return BLAKE(final)(S, out, room);
#endif
}

/* The bytes of the digest, or of the output that are left. */
static inline uint64_t output_bytes_left(const state_t *S) {
#ifdef TEST_X
    return BLAKE(left)(S);
#else
    return BLAKE(digest_size)(S);
#endif
}
