/* Tests the names of BLAKE2's reference code: what vulfsjor-reference/blake2.h and c/PORTING.md say of them. Digests are
 * compared with those by vulfsjor.h, which the conformance cases are run over.
 *
 * TEST_S is for BLAKE2s, TEST_P for BLAKE2bp, and both are for BLAKE2sp; TEST_X is for BLAKE2Xb, and with TEST_S for
 * BLAKE2Xs. With another blake2.h it tests what is said of the reference code itself. */
#include <blake2.h>
#include "check.h"
#include "family.h"

/* What a row says: of the reference code the first, of the functions here the second. */
#ifdef VULFSJOR_REFERENCE_BLAKE2_H
#define ROW(reference, here) (here)
#else
#define ROW(reference, here) (reference)
#endif
#define IS_WIPED(S) ROW(!is_zero(&S, sizeof S), is_zero(&S, sizeof S))

static uint8_t out[65600], wanted[65600], message[4000];

/* The longest output that the tests of null pointers and overlaps ask for. */
#ifdef TEST_X
enum { LENGTH = 150 };
#else
enum { LENGTH = MAX };
#endif

#ifdef VULFSJOR_REFERENCE_BLAKE2_H
static uint8_t *null_bytes(void) { return NULL; }
static PLAIN(state) *null_state(void) { return NULL; }

static void check_null_pointers(void) {
    PLAIN(state) S;
    CHECK(PLAIN(init)(null_state(), LENGTH) == -1 && PLAIN(init_key)(null_state(), LENGTH, "k", 1) == -1);
    CHECK(PLAIN(update)(null_state(), message, 1) == -1 && PLAIN(final)(null_state(), out, LENGTH) == -1);
    CHECK(PLAIN(init_key)(&S, LENGTH, null_bytes(), 1) == -1 && is_zero(&S, sizeof S));
    CHECK(PLAIN(init)(&S, LENGTH) == 0 && PLAIN(update)(&S, null_bytes(), 1) == -1);
    CHECK(PLAIN(update)(&S, null_bytes(), 0) == 0 && PLAIN(final)(&S, null_bytes(), LENGTH) == -1);
    CHECK(PLAIN(final)(&S, out, LENGTH) == 0);
    memset(out, 0xaa, sizeof out);
    CHECK(PLAIN_ONE_CALL(null_bytes(), LENGTH, "a", 1, NULL, 0) == -1);
    CHECK(PLAIN_ONE_CALL(out, LENGTH, NULL, 1, NULL, 0) == -1 && PLAIN_ONE_CALL(out, LENGTH, "a", 1, NULL, 1) == -1);
    CHECK(PLAIN_ONE_CALL(out, 0, "a", 1, NULL, 0) == -1 && out[0] == 0xaa && out[LENGTH] == 0xaa);
    CHECK(PLAIN_ONE_CALL(out, LENGTH, NULL, 0, NULL, 0) == 0 && out[LENGTH] == 0xaa);
#if !defined(TEST_P) && !defined(TEST_X)
    PLAIN(param) P = {0};
    CHECK(PLAIN(init_param)(&S, NULL) == -1 && PLAIN(init_param)(null_state(), &P) == -1);
#endif
}
#endif

/* A key of no bytes is no key in one call, wherever it is. */
static void check_key_of_no_bytes(void) {
    CHECK(ONE_CALL(wanted, LENGTH, "abc", 3, NULL, 0) == 0);
    CHECK(PLAIN_ONE_CALL(out, LENGTH, "abc", 3, "k", 0) == 0 && !memcmp(out, wanted, LENGTH));
    CHECK(PLAIN_ONE_CALL(out, LENGTH, "abc", 3, NULL, 0) == 0 && !memcmp(out, wanted, LENGTH));
}

/* The output may overlap the input or the key. */
static void check_overlapping_buffers(void) {
    uint8_t mixed[2000];
    CHECK(ONE_CALL(wanted, LENGTH, message, sizeof mixed, message + 40, MAX) == 0);
    for (size_t at = 0; at + LENGTH <= sizeof mixed; at += 113) {
        memcpy(mixed, message, sizeof mixed);
        CHECK(PLAIN_ONE_CALL(mixed + at, LENGTH, mixed, sizeof mixed, mixed + 40, MAX) == 0);
        CHECK(!memcmp(mixed + at, wanted, LENGTH) && !memcmp(mixed, message, at));
        CHECK(!memcmp(mixed + at + LENGTH, message + at + LENGTH, sizeof mixed - LENGTH - at));
    }
}

/* An output in two pieces, of which the second goes to a copy too. */
static void check_output_in_two_pieces(void) {
    for (size_t size = 1; size <= (LENGTH > MAX ? 3 * MAX : MAX); size++) {
        const size_t keys = size % 3 ? size % MAX + 1 : 0, length = 13 * size, first = random_below(length + 1);
        PLAIN(state) S, copy;
        memset(&S, 0x5a, sizeof S);
        CHECK((keys ? PLAIN(init_key)(&S, size, message + 7, keys) : PLAIN(init)(&S, size)) == 0);
        CHECK(PLAIN(update)(&S, message, first) == 0);
        copy = S;
        CHECK(PLAIN(update)(&S, message + first, length - first) == 0);
        memset(out, 0xaa, 4 * MAX);
        CHECK(ONE_CALL(wanted, size, message, length, keys ? message + 7 : NULL, keys) == 0);
        CHECK(PLAIN(final)(&S, out, size) == 0 && out[size] == 0xaa && !memcmp(out, wanted, size));
        CHECK(IS_WIPED(S) && PLAIN(final)(&S, out, size) == -1 && PLAIN(update)(&S, message, 1) == ROW(0, -1));
        memcpy(&S, &copy, sizeof S);
        CHECK(PLAIN(update)(&S, message + first, length - first) == 0 && PLAIN(final)(&S, out, size) == 0);
        CHECK(!memcmp(out, wanted, size));
        CHECK(PLAIN_ONE_CALL(out, size, message, length, message + 7, keys) == 0 && !memcmp(out, wanted, size));
    }
}

#ifdef TEST_X
/* The lengths of outputs. The last of the family is that of an unknown length: then final accepts each. */
static void check_output_lengths(void) {
    const size_t unknown = (size_t)CONSTANT(UNKNOWN_LENGTH);
    const size_t lengths[] = {1, 15, 3 * MAX, 300};
    PLAIN(state) S, before;
    BLAKE(state) ours;
    CHECK(PLAIN(init)(&S, 0) == -1 && is_zero(&S, sizeof S) && PLAIN(init_key)(&S, 0, "k", 1) == -1);
    CHECK_64(PLAIN(init)(&S, unknown + 1) == -1 && PLAIN(init_key)(&S, unknown + 1, "k", 1) == -1);
    CHECK(PLAIN(init)(&S, unknown - 1) == 0 && PLAIN(init_key)(&S, 9, message, MAX + 1) == -1);
    CHECK(PLAIN(init_key)(&S, 20, NULL, 0) == 0 && PLAIN(init)(&before, 20) == 0 && SAME(S, before));
    CHECK(PLAIN(init_key)(&S, 20, "k", 0) == 0 && SAME(S, before));
    memset(out, 0xaa, 64);
    CHECK(PLAIN(final)(&S, out, 19) == -1 && PLAIN(final)(&S, out, 21) == -1 && PLAIN(final)(&S, out, 0) == -1);
    CHECK(SAME(S, before) && out[0] == 0xaa);
    for (size_t i = 0; i < COUNT_OF(lengths); i++) {
        CHECK(PLAIN(init_key)(&S, unknown, "key", 3) == 0 && BLAKE(init_key)(&ours, unknown, "key", 3) == 0);
        CHECK(PLAIN(update)(&S, message, 999) == 0 && BLAKE(update)(&ours, message, 999) == 0);
        CHECK(PLAIN(final)(&S, out, 0) == -1 && PLAIN(final)(&S, out, lengths[i]) == 0);
        CHECK(BLAKE(squeeze)(&ours, wanted, lengths[i]) == 0 && !memcmp(out, wanted, lengths[i]));
        CHECK(is_zero(&S, sizeof S));
    }
    if (unknown < sizeof out) { /* in one call it is the length and is unknown */
        CHECK(BLAKE(init)(&ours, unknown) == 0 && BLAKE(squeeze)(&ours, wanted, unknown) == 0);
        CHECK(PLAIN_ONE_CALL(out, unknown, NULL, 0, NULL, 0) == 0 && !memcmp(out, wanted, unknown));
    }
}
#else
/* final writes to a longer output as many bytes as the digest has, and none to a shorter one. */
static void check_output_lengths(void) {
    PLAIN(state) S, before;
    memset(&S, 0x5a, sizeof S);
    CHECK(PLAIN(init)(&S, 0) == -1 && IS_WIPED(S) && PLAIN(init)(&S, MAX + 1) == -1);
    CHECK(PLAIN(init_key)(&S, MAX, "k", 0) == -1 && PLAIN(init_key)(&S, MAX, message, MAX + 1) == -1);
    CHECK(PLAIN(init_key)(&S, 0, "k", 1) == -1 && PLAIN(init)(&S, 256 + MAX) == -1);
    memset(out, 0xaa, 256);
    CHECK(PLAIN_ONE_CALL(out, MAX + 1, "a", 1, NULL, 0) == -1);
    CHECK(PLAIN_ONE_CALL(out, MAX, "a", 1, message, MAX + 1) == -1 && out[0] == 0xaa);
    CHECK_64(PLAIN_ONE_CALL(out, TWO_TO(32) | MAX, "a", 1, NULL, 0) == -1);
    for (size_t size = 1; size <= MAX; size++) {
        CHECK(PLAIN(init)(&S, size) == 0 && PLAIN(update)(&S, message, 300) == 0);
        CHECK(ONE_CALL(wanted, size, message, 300, NULL, 0) == 0);
        before = S;
        memset(out, 0xaa, 256);
        CHECK(PLAIN(final)(&S, out, size - 1) == -1 && SAME(S, before) && out[0] == 0xaa);
        CHECK(PLAIN(final)(&S, out, size + size % 5) == 0 && out[size] == 0xaa && !memcmp(out, wanted, size));
        CHECK(IS_WIPED(S));
    }
    memset(&S, 0, sizeof S);
    CHECK(PLAIN(update)(&S, message, 1) == ROW(0, -1) && PLAIN(final)(&S, out, MAX) == ROW(0, -1));
}
#endif

#if !defined(TEST_P) && !defined(TEST_X)
/* The fields of a block, of which vulfsjor.h has node_offset and xof_length as one. */
static void check_block_fields(const PLAIN(param) *P, const uint8_t *bytes) {
    CHECK(P->digest_length == bytes[0] && P->key_length == bytes[1] && P->fanout == bytes[2] && P->depth == bytes[3]);
    CHECK(!memcmp(&P->leaf_length, bytes + 4, 4) && !memcmp(&P->node_offset, bytes + 8, 4));
    CHECK(!memcmp(&P->xof_length, bytes + 12, sizeof P->xof_length) && P->node_depth == bytes[MAX == 64 ? 16 : 14]);
    CHECK(P->inner_length == bytes[MAX == 64 ? 17 : 15] && !memcmp(P->salt, bytes + MAX / 2, SALT));
    CHECK(!memcmp(P->personal, bytes + MAX - SALT, SALT));
}

/* A state from a block has the digests of one from the same bytes by vulfsjor.h. */
static void check_parameter_blocks(void) {
    PLAIN(state) S;
    state_t ours;
    PLAIN(param) P;
    uint8_t bytes[MAX];
    CHECK(sizeof P == MAX);
    for (size_t i = 0; i < sizeof P; i++) bytes[i] = (uint8_t)(i * 5 + 1);
    bytes[0] = 20, bytes[1] = 9;
    memcpy(&P, bytes, sizeof P);
    check_block_fields(&P, bytes);
    memset(&S, 0x5a, sizeof S);
    memset(&ours, 0, sizeof ours);
    CHECK(PLAIN(init_param)(&S, &P) == 0 && LIBRARY(init_param)(&ours, bytes, sizeof bytes) == 0);
    CHECK(PLAIN(update)(&S, message, 3 * BLOCK + 1) == 0 && BLAKE(update)(&ours, message, 3 * BLOCK + 1) == 0);
    CHECK(PLAIN(final)(&S, out, 20) == 0 && BLAKE(final)(&ours, wanted, 20) == 0 && !memcmp(out, wanted, 20));
    for (int length = 0; length <= 255; length++) {
        P.digest_length = (uint8_t)length, P.key_length = 0;
        const int is_digest = length >= 1 && length <= MAX;
        memset(&S, 0x5a, sizeof S);
        CHECK(PLAIN(init_param)(&S, &P) == ROW(0, is_digest ? 0 : -1) && (is_digest || IS_WIPED(S)));
        P.digest_length = MAX, P.key_length = (uint8_t)length;
        CHECK(PLAIN(init_param)(&S, &P) == ROW(0, length <= MAX ? 0 : -1));
    }
}

/* The last-node flag, which programs set in the state. */
static void check_last_node_flag(void) {
    PLAIN(state) S;
    state_t ours;
    CHECK(PLAIN(init)(&S, MAX) == 0 && BLAKE(init)(&ours, MAX) == 0 && BLAKE(set_last_node)(&ours, 1) == 0);
    S.last_node = 1;
    CHECK(PLAIN(update)(&S, message, 10) == 0 && BLAKE(update)(&ours, message, 10) == 0);
    CHECK(PLAIN(final)(&S, out, MAX) == 0 && BLAKE(final)(&ours, wanted, MAX) == 0 && !memcmp(out, wanted, MAX));
    CHECK(PLAIN_ONE_CALL(out, MAX, message, 10, NULL, 0) == 0 && memcmp(out, wanted, MAX));
}
#endif

/* The constants, and blake2, which is blake2b and which not every copy has. */
static void check_header_constants(void) {
    CHECK(BLAKE2B_BLOCKBYTES == 128 && BLAKE2B_OUTBYTES == 64 && BLAKE2B_KEYBYTES == 64 && BLAKE2B_SALTBYTES == 16);
    CHECK(BLAKE2S_BLOCKBYTES == 64 && BLAKE2S_OUTBYTES == 32 && BLAKE2S_KEYBYTES == 32 && BLAKE2S_SALTBYTES == 8);
    CHECK(BLAKE2B_PERSONALBYTES == 16 && BLAKE2S_PERSONALBYTES == 8);
    CHECK(sizeof(struct blake2b_param__) == 64 && sizeof(struct blake2s_param__) == 32);
#ifdef VULFSJOR_REFERENCE_BLAKE2_H
    CHECK(sizeof(struct blake2b_state__) == sizeof(vulfsjor_blake2b_state));
    CHECK(blake2(out, 63, message, 150, message + 9, 9) == 0 && blake2b(wanted, 63, message, 150, message + 9, 9) == 0);
    CHECK(!memcmp(out, wanted, 63) && blake2(out, 65, message, 1, NULL, 0) == -1);
#endif
}

int main(void) {
    for (size_t i = 0; i < sizeof message; i++) message[i] = (uint8_t)(i % 251);
#ifdef VULFSJOR_REFERENCE_BLAKE2_H
    check_null_pointers();
#endif
    check_key_of_no_bytes();
    check_overlapping_buffers();
    check_output_in_two_pieces();
    check_output_lengths();
#if !defined(TEST_P) && !defined(TEST_X)
    check_parameter_blocks();
    check_last_node_flag();
#endif
    check_header_constants();
    printf("%d checks, %d failures\n", checks, fails);
    return fails != 0;
}
