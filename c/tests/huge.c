/* Calls with more than 2^32 bytes of each buffer that has a length, 2^26 digests of leaves and 2^26 or 2^27
 * messages. The message has zeros, except five bytes, so its memory is a few pages. thread_faults.c has files.
 * Digests and roots are compared with those of Python's hashlib, and what has no such value with calls of fewer than
 * 2^32 bytes. Returns 0 if all are as they should be.
 *
 *   cc -std=gnu99 -I FOLDER/include huge.c ARCHIVE-threads.a ARCHIVE.a -pthread -o huge
 *   cc the same with -DTEST_S                the same for BLAKE2s, without the tree
 *   ./huge                                   calls that take seconds, of BLAKE2b
 *   VULFSJOR_TEST_HUGE=1 ./huge              every call
 *
 * These lines print the digests below, in their order:
 *
 *   import hashlib
 *   LEAF = 2**22
 *   LENGTH = 2**32 + LEAF + 100
 *   marks = {0: 1, 2**31: 2, 2**32 - 1: 3, 2**32: 4, LENGTH - 1: 5}
 *   def leaf(i):
 *       there = range(i, min(i + LEAF, LENGTH))
 *       return bytes(marks.get(k, 0) for k in there) if any(k in there for k in marks) else bytes(LEAF)
 *   def node(i, depth, last): return hashlib.blake2b(fanout=0, depth=2, leaf_size=LEAF, node_offset=i,
 *                                                    node_depth=depth, inner_size=64, last_node=last)
 *   b, s, root = hashlib.blake2b(), hashlib.blake2s(), node(0, 1, True)
 *   for i in range(0, LENGTH, LEAF):
 *       one = node(i // LEAF, 0, i + LEAF >= LENGTH)
 *       for run in b, s, one: run.update(leaf(i))
 *       root.update(one.digest())
 *   print(s.hexdigest(), b.hexdigest(), root.hexdigest(), sep="\n")
 */
#define _GNU_SOURCE
#include "check.h"
#include "family.h"

#include <stdlib.h>
#include <sys/mman.h>
#include <unistd.h>

#ifndef TEST_S
#include <vulfsjor_threads.h>
#endif

#define LEAF ((size_t)1 << 22)
#define LENGTH (((size_t)1 << 32) + LEAF + 100)

/* The digests by hashlib. */
#ifdef TEST_S
#define HASH "0a62481412e290622d3eba95922a9817717d752f3c84fcd6d22c3540d91abc2a"
#else
#define HASH \
    "9c0566f4f39528860442557682d29647e6b8e9d97fe37a9b4fd511451a7a417e" \
    "1ea8edd9e47cde60475c26de1fdbd25449d60edb2ab211edc8601ea0e0fc1ace"
#define ROOT \
    "74d09c5c07f56a70da80dcca7a4bf20c6c2a52e17e08576892103c96c161c849" \
    "9597c9b8e68c4ef87399fd0d27c800b131dfc6b9ecc956f8c1cb3a65af40af12"
#endif

static const uint64_t marks[] = {0, 1ull << 31, (1ull << 32) - 1, 1ull << 32, LENGTH - 1};
static uint8_t *message, *other, out[64];

static uint8_t *new_message(void) {
    uint8_t *at = mmap(NULL, LENGTH, PROT_READ | PROT_WRITE, MAP_PRIVATE | MAP_ANONYMOUS | MAP_NORESERVE, -1, 0);

    if (at == MAP_FAILED) exit(3);
    madvise(at, LENGTH, MADV_HUGEPAGE); /* or the system notes a million pages */
    for (size_t i = 0; i < 5; i++) at[marks[i]] = (uint8_t)(i + 1);
    return at;
}

/* Room of this length and some more for what is written, all of which is the same PERIOD bytes. */
enum { PERIOD = 513 * 4096 };
static void *repeated_pages(size_t length) {
    int file = memfd_create("period", 0);
    uint8_t *at = mmap(NULL, length + PERIOD, PROT_NONE, MAP_PRIVATE | MAP_ANONYMOUS | MAP_NORESERVE, -1, 0);

    if (at == MAP_FAILED || file < 0 || ftruncate(file, PERIOD)) exit(3);
    for (size_t i = 0; i < length; i += PERIOD)
        if (mmap(at + i, PERIOD, PROT_READ | PROT_WRITE, MAP_SHARED | MAP_FIXED, file, 0) == MAP_FAILED) exit(3);
    close(file);
    return at;
}

/* Whether these are the bytes with these digits, which they then are no longer. */
static int matches_then_clears_digest(uint8_t *bytes, const char *digits) {
    uint8_t wanted[64];
    const size_t length = strlen(digits) / 2;
    const int is = !vulfsjor_hex2bin(wanted, length, digits, 2 * length) && !memcmp(bytes, wanted, length);

    memset(bytes, 0, length);
    return is;
}

/* ---- one message */

static void check_message_past_4_gib(void) {
    state_t state;

    CHECK(!ONE_CALL(out, MAX, message, LENGTH, NULL, 0) && matches_then_clears_digest(out, HASH));
    CHECK(!BLAKE(init)(&state, MAX) && !BLAKE(update)(&state, message, LENGTH) && BLAKE(count)(&state) == LENGTH);
    CHECK(!BLAKE(final)(&state, out, MAX) && matches_then_clears_digest(out, HASH));
}

/* States at several places of the message, which absorb the rest of it in one call. */
static void check_updates_past_4_gib(void) {
    state_t states[LANES];
    vulfsjor_message rests[LANES];

    for (size_t i = 0; i < LANES; i++) {
        const size_t place = i * BLOCK / 3;
        CHECK(!BLAKE(init)(&states[i], MAX) && !BLAKE(update)(&states[i], message, place));
        rests[i] = (vulfsjor_message){message + place, LENGTH - place};
    }
    CHECK(!BLAKE(update_many)(states, rests, LANES));
    for (size_t i = 0; i < LANES; i++) {
        CHECK(BLAKE(count)(&states[i]) == LENGTH);
        CHECK(!BLAKE(final)(&states[i], out, MAX) && matches_then_clears_digest(out, HASH));
    }
}

/* ---- several messages */

/* Messages of one byte whose digests have 2^32 bytes in sum, and one message of LENGTH bytes. */
static void check_many_past_4_gib(void) {
    const size_t count = ((size_t)1 << 32) / MAX, entries = PERIOD / sizeof(vulfsjor_message);
    vulfsjor_message *messages = repeated_pages(count * sizeof *messages);
    uint8_t bytes[251];

    for (size_t i = 0; i < sizeof bytes; i++) bytes[i] = (uint8_t)i;
    for (size_t i = 0; i < entries; i++) messages[i] = (vulfsjor_message){bytes + i % sizeof bytes, 1};
    CHECK(!BLAKE(many)(other, MAX, messages, count, NULL, 0, NULL, 0, NULL, 0));
    for (size_t i = count - PERIOD / MAX; i < count; i++) {
        CHECK(!ONE_CALL(out, MAX, bytes + i % entries % sizeof bytes, 1, NULL, 0));
        CHECK(!memcmp(out, other + i * MAX, MAX));
    }
    messages[0] = (vulfsjor_message){message, LENGTH};
    CHECK(!BLAKE(many)(out, MAX, messages, 1, NULL, 0, NULL, 0, NULL, 0) && matches_then_clears_digest(out, HASH));
    munmap(messages, count * sizeof *messages + PERIOD);
}

#ifndef TEST_S
/* Two buffers that differ only after 2^32 bytes. */
static void check_memcmp_past_4_gib(void) {
    uint8_t *twin = new_message();

    CHECK(!vulfsjor_memcmp(message, twin, LENGTH));
    twin[((size_t)1 << 32) + 50] ^= 1;
    CHECK(vulfsjor_memcmp(message, twin, LENGTH) == -1);
    CHECK(!vulfsjor_memcmp(message, twin, ((size_t)1 << 32) + 50));
    munmap(twin, LENGTH);
}

/* ---- the tree. NO_TEXTS stands for its salt, its personalization and the length of its leaves */

#define NO_TEXTS 0, 0, 0, 0, LEAF

static vulfsjor_tree_state new_tree(uint32_t leaf) {
    vulfsjor_tree_state state;

    CHECK(!vulfsjor_tree_init(&state, 64, 0, 0, 0, 0, leaf));
    return state;
}

static int state_has_message_root(vulfsjor_tree_state state) {
    return vulfsjor_tree_count(&state) == LENGTH && !vulfsjor_tree_final(&state, out, 64) &&
           matches_then_clears_digest(out, ROOT);
}

static void check_tree_past_4_gib(void) {
    const size_t whole = LENGTH / LEAF;
    uint8_t digests[(LENGTH / LEAF + 1) * 64];
    vulfsjor_tree_state state = new_tree(LEAF);

    CHECK(!vulfsjor_tree_root(out, 64, message, LENGTH, NO_TEXTS) && matches_then_clears_digest(out, ROOT));
    CHECK(!vulfsjor_tree_root_threads(out, 64, message, LENGTH, NO_TEXTS, 0) && matches_then_clears_digest(out, ROOT));
    CHECK(!vulfsjor_tree_update(&state, message, LENGTH) && state_has_message_root(state));
    state = new_tree(LEAF);
    CHECK(!vulfsjor_tree_update_threads(&state, message, LENGTH, 0) && state_has_message_root(state));
    CHECK(vulfsjor_tree_leaf_count(LENGTH, LEAF) == whole + 1);
    CHECK(!vulfsjor_tree_leaves(digests, 64 * whole, 0, 0, message, whole * LEAF, NO_TEXTS));
    CHECK(!vulfsjor_tree_leaves(digests + 64 * whole, 64, whole, 1, message + whole * LEAF, LENGTH % LEAF, NO_TEXTS));
    CHECK(!vulfsjor_tree_root_of_leaves(out, 64, digests, sizeof digests, NO_TEXTS) &&
          matches_then_clears_digest(out, ROOT));
    state = new_tree(LEAF);
    CHECK(!vulfsjor_tree_leaves_ahead(&state, digests, 64 * whole, 0, message, whole * LEAF));
    CHECK(!vulfsjor_tree_update_leaves(&state, digests, 64 * whole, message + whole * LEAF, LENGTH % LEAF));
    CHECK(state_has_message_root(state));
}

/* More than 2^32 bytes of digests: 2^26 are the bytes of the message, and those of leaves of 64 bytes. */
static void check_leaf_digests_past_4_gib(void) {
    const size_t end = (size_t)1 << 32, count = end / 64 + 1;
    vulfsjor_tree_state state = new_tree(64);
    vulfsjor_blake2b_state node;
    uint8_t wanted[64];

    CHECK(vulfsjor_tree_leaf_count(end + 1, 64) == count);
    CHECK(!vulfsjor_tree_leaves(other, 64 * count, 0, 1, message, end + 1, 0, 0, 0, 0, 64));
    CHECK(!vulfsjor_tree_leaves(wanted, 64, count - 1, 1, message + end, 1, 0, 0, 0, 0, 64));
    CHECK(!memcmp(wanted, other + 64 * (count - 1), 64));
    CHECK(!vulfsjor_tree_root_of_leaves(out, 64, message, end, 0, 0, 0, 0, 64));
    CHECK(!vulfsjor_tree_update_leaves(&state, message, end, message + end, 1));
    for (int more = 0; more < 2; more++) {
        CHECK(!vulfsjor_tree_init_root(&node, 64, 0, 0, 0, 0, 64));
        for (size_t i = 0; i < end; i += end / 8) CHECK(!vulfsjor_blake2b_update(&node, message + i, end / 8));
        CHECK(!vulfsjor_blake2b_update(&node, wanted, more ? 64 : 0) && !vulfsjor_blake2b_final(&node, other, 64));
        if (more) CHECK(vulfsjor_tree_count(&state) == end + 1 && !vulfsjor_tree_final(&state, out, 64));
        CHECK(!memcmp(other, out, 64));
    }
}
#endif

int main(void) {
    message = new_message();
    other = repeated_pages(LENGTH);
#ifndef TEST_S
    check_memcmp_past_4_gib();
#endif
    if (getenv("VULFSJOR_TEST_HUGE")) {
        check_message_past_4_gib();
        check_updates_past_4_gib();
        check_many_past_4_gib();
#ifndef TEST_S
        check_tree_past_4_gib();
        check_leaf_digests_past_4_gib();
#endif
    }
    fprintf(stderr, "%d checks, %d failures\n", checks, fails);
    return fails != 0;
}
