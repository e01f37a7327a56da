/* Tests libb2's functions by their own names: what c/PORTING.md says of them and of libb2, row by row. libb2.sh compiles
 * it over the header here and over libb2's own, and links that with libvulfsjor-libb2.a and, under LIBB2, with libb2
 * itself, so that what the page says of libb2 is tested too. Digests are compared with those by vulfsjor.h, which the
 * conformance cases are run over.
 *
 * TEST_S is for BLAKE2s, TEST_P for BLAKE2bp, and both are for BLAKE2sp. */
#define _POSIX_C_SOURCE 200112L
#include <blake2.h>
#include <stdlib.h>
#include "check.h"
#include "family.h"

#ifdef TEST_P
enum { IS_PARALLEL = 1, SIZE = MAX == 64 ? 2307 : 2155 };
#else
enum { IS_PARALLEL = 0, SIZE = MAX == 64 ? 358 : 182 };
#endif
/* What a row says: of libb2 the first, of the functions here the second. DIES is an end by a signal. */
enum { DIES = 1000 };
#define ROW(libb2, here) (IS_LIBB2 ? (libb2) : (here))

/* The status of a call; of libb2, in a child process, or DIES if a signal ends that process. */
#ifdef LIBB2
#include <sys/wait.h>
#include <unistd.h>
enum { IS_LIBB2 = 1 };
#define STATUS(call) (fork_in_child() ? (_exit((call) & 0xff), 0) : child_status())
static int fork_in_child(void) {
    fflush(stdout);
    pid_t child = fork();
    if (child < 0) abort();
    return child == 0;
}
static int child_status(void) {
    int status;
    if (wait(&status) < 0) abort();
    return WIFSIGNALED(status) ? DIES : (int8_t)WEXITSTATUS(status);
}
#else
enum { IS_LIBB2 = 0 };
#define STATUS(call) (call)
#endif

static uint8_t *null_bytes(void) { return NULL; }
static PLAIN(state) *null_state(void) { return NULL; }
#define IS_WIPED(S) ROW(!is_zero(&S, sizeof S), is_zero(&S, sizeof S))

static uint8_t out[256], message[4000];

static void check_null_pointers(void) {
    PLAIN(state) S;
    CHECK(STATUS(PLAIN(init)(null_state(), MAX)) == ROW(DIES, -1));
    CHECK(STATUS(PLAIN(init_key)(null_state(), MAX, "k", 1)) == ROW(DIES, -1));
    CHECK(STATUS(PLAIN(update)(null_state(), message, 1)) == ROW(DIES, -1));
    CHECK(STATUS(PLAIN(update)(null_state(), message, 0)) == ROW(IS_PARALLEL ? DIES : 0, -1));
    CHECK(STATUS(PLAIN(final)(null_state(), out, MAX)) == ROW(DIES, -1));
    CHECK(PLAIN(init)(&S, MAX) == 0);
    CHECK(STATUS(PLAIN(update)(&S, null_bytes(), 300)) == ROW(DIES, -1));
    CHECK(STATUS(PLAIN(final)(&S, null_bytes(), MAX)) == ROW(DIES, -1));
    int null_key = STATUS(PLAIN(init_key)(&S, MAX, null_bytes(), 1));
    CHECK(null_key == -1 || (IS_LIBB2 && null_key == DIES));
    CHECK(PLAIN_ONE_CALL(null_bytes(), "a", NULL, MAX, 1, 0) == -1 && PLAIN_ONE_CALL(out, NULL, NULL, MAX, 1, 0) == -1);
    CHECK(PLAIN_ONE_CALL(out, "a", NULL, MAX, 1, 1) == -1 && PLAIN_ONE_CALL(out, NULL, NULL, MAX, 0, 0) == 0);
}

static void check_wrong_lengths(void) {
    PLAIN(state) S;
    CHECK(sizeof S == SIZE && __alignof__(PLAIN(state)) == 1);
    CHECK(offsetof(PLAIN(state), outlen) == SIZE - (IS_PARALLEL ? 1 : 2) && sizeof(state_t) < SIZE);
    memset(&S, 0x5a, sizeof S);
    CHECK(PLAIN(init)(&S, 0) == -1 && IS_WIPED(S) && PLAIN(init)(&S, MAX + 1) == -1 && IS_WIPED(S));
    CHECK(PLAIN(init)(&S, 256 + MAX) == -1);
    CHECK(PLAIN(init_key)(&S, MAX, "k", 0) == -1 && PLAIN(init_key)(&S, MAX, message, MAX + 1) == -1);
    CHECK(PLAIN(init_key)(&S, 0, "k", 1) == -1 && PLAIN(init_key)(&S, MAX + 1, "k", 1) == -1);
    CHECK(PLAIN(init_key)(&S, MAX, null_bytes(), 0) == -1);
    /* In one call a key of no bytes is no key, wherever it is. */
    CHECK(PLAIN_ONE_CALL(out, "a", "k", MAX, 1, 0) == 0 && PLAIN_ONE_CALL(out + 64, "a", NULL, MAX, 1, 0) == 0);
    CHECK(!memcmp(out, out + 64, MAX));
    memset(out, 0xaa, sizeof out);
    CHECK(PLAIN_ONE_CALL(out, "a", NULL, 0, 1, 0) == -1 && PLAIN_ONE_CALL(out, "a", NULL, MAX + 1, 1, 0) == -1);
    CHECK(PLAIN_ONE_CALL(out, "a", message, MAX, 1, MAX + 1) == -1);
    if (!IS_LIBB2) {
        CHECK_64(PLAIN_ONE_CALL(out, "a", message, TWO_TO(32) | MAX, 1, 1) == -1);
        CHECK_64(PLAIN_ONE_CALL(out, "a", message, MAX, 1, TWO_TO(32) | 1) == -1);
        CHECK(PLAIN_ONE_CALL(out, "a", message, ~(size_t)0, 1, 1) == -1);
    }
    CHECK(out[0] == 0xaa && out[MAX] == 0xaa);
}

/* A state at any address, which others follow without a gap, and copies of its bytes at other addresses. */
static void check_states_at_any_address(void) {
    enum { ROOM = 2 * SIZE + 16 };
    uint8_t wanted[MAX], room[ROOM];
    CHECK(ONE_CALL(wanted, MAX, message, 900, message + 7, MAX) == 0);
    for (size_t at = 0; at < 8; at++) {
        for (size_t other = SIZE + at; other < SIZE + 16; other++) {
            PLAIN(state) *S = (PLAIN(state) *)(room + at), *copied = (PLAIN(state) *)(room + other);
            memset(room, 0xaa, ROOM);
            CHECK(PLAIN(init_key)(S, MAX, message + 7, MAX) == 0 && S->outlen == MAX);
            CHECK(PLAIN(update)(S, message, at) == 0 && PLAIN(update)(S, message + at, 700 - at) == 0);
            for (size_t i = 0; i < ROOM; i++) CHECK(room[i] == 0xaa || (i >= at && i < at + SIZE));
            memcpy(copied, S, SIZE);
            CHECK(PLAIN(update)(copied, message + 700, 200) == 0 && PLAIN(final)(copied, out, MAX) == 0);
            CHECK(!memcmp(out, wanted, MAX));
            CHECK(PLAIN(update)(S, message + 700, 200) == 0 && PLAIN(final)(S, out, MAX) == 0);
            CHECK(!memcmp(out, wanted, MAX));
        }
    }
}

/* Once the key's block is compressed, the state has no byte of the key: libb2 has no reset. */
static void check_no_key_byte_stays(void) {
    uint8_t key[MAX];
    PLAIN(state) S;
    memset(key, 0x5b, MAX);
    CHECK(PLAIN(init_key)(&S, MAX, key, MAX) == 0 && PLAIN(update)(&S, out, 0) == 0);
    memset(out, 0, sizeof out);
    for (int i = 0; i < 40; i++) CHECK(PLAIN(update)(&S, out, 100) == 0);
    for (size_t i = 0; !IS_LIBB2 && i + 8 <= SIZE; i++) CHECK(memcmp((uint8_t *)&S + i, key, 8));
}

/* Calls with a state after finalization, and with a zeroed state. */
static void check_ended_and_zeroed_states(void) {
    PLAIN(state) S, before;
    CHECK(PLAIN(init)(&S, MAX) == 0 && PLAIN(update)(&S, message, 2000) == 0 && PLAIN(final)(&S, out, MAX) == 0);
    CHECK(IS_WIPED(S));
    before = S;
    CHECK(PLAIN(update)(&S, message, 1) == ROW(0, -1) && (IS_LIBB2 || SAME(S, before)));
    CHECK(PLAIN(final)(&S, out, MAX) == ROW(0, -1) && PLAIN(final)(&S, out, 0) == -1);
    memset(&S, 0, sizeof S);
    CHECK(PLAIN(update)(&S, message, 1) == ROW(0, -1));
}

/* A digest in two pieces, and none of another length; the conformance cases have more pieces, and copies. */
static void check_digest_in_two_pieces(void) {
    for (size_t size = 1; size <= MAX; size++) {
        const size_t keys = size % 3 ? size : 0, length = 61 * size, first = random_below(length);
        uint8_t wanted[MAX];
        PLAIN(state) S;
        memset(&S, 0x5a, sizeof S);
        CHECK((keys ? PLAIN(init_key)(&S, size, message + 7, keys) : PLAIN(init)(&S, size)) == 0 && S.outlen == size);
        CHECK(PLAIN(update)(&S, message, first) == 0 && PLAIN(update)(&S, null_bytes(), 0) == 0);
        CHECK(PLAIN(update)(&S, message + first, length - first) == 0);
        memset(out, 0xaa, sizeof out);
        CHECK(PLAIN(final)(&S, out, size - 1) == -1 && PLAIN(final)(&S, out, size + 1) == -1 && out[0] == 0xaa);
        CHECK(ONE_CALL(wanted, size, message, length, keys ? message + 7 : NULL, keys) == 0);
        CHECK(PLAIN(final)(&S, out, size) == 0 && out[size] == 0xaa && IS_WIPED(S));
        CHECK(!memcmp(out, wanted, size));
    }
}

/* The output may overlap the input or the key. */
static void check_overlapping_buffers(void) {
    uint8_t wanted[MAX], mixed[2000];
    CHECK(ONE_CALL(wanted, MAX, message, 2000, message + 40, MAX) == 0);
    for (size_t at = 0; at + MAX <= 2000; at += 113) {
        memcpy(mixed, message, 2000);
        CHECK(PLAIN_ONE_CALL(mixed + at, mixed, mixed + 40, MAX, 2000, MAX) == 0);
        CHECK(!memcmp(mixed + at, wanted, MAX));
        CHECK(!memcmp(mixed, message, at) && !memcmp(mixed + at + MAX, message + at + MAX, 2000 - MAX - at));
    }
}

#ifndef TEST_P
static int init_status_of_block(PLAIN(state) *S, uint8_t digest, uint8_t keys) {
    PLAIN(param) P;
    memset(&P, 0, sizeof P);
    P.digest_length = digest, P.key_length = keys, P.fanout = P.depth = 1;
    return PLAIN(init_param)(S, &P);
}

static void check_parameter_blocks(void) {
    PLAIN(state) S;
    CHECK(STATUS(init_status_of_block(null_state(), MAX, 0)) == ROW(DIES, -1));
    CHECK(STATUS(PLAIN(init_param)(&S, NULL)) == ROW(DIES, -1));
    for (int length = 0; length <= 255; length++) {
        const int is_digest = length >= 1 && length <= MAX;
        CHECK(init_status_of_block(&S, (uint8_t)length, 0) == ROW(0, is_digest ? 0 : -1));
        CHECK(IS_LIBB2 || is_digest ? S.outlen == length && S.last_node == 0 : is_zero(&S, sizeof S));
        CHECK(init_status_of_block(&S, MAX, (uint8_t)length) == ROW(0, length <= MAX ? 0 : -1));
    }
}

/* A count that would pass 2^64 is refused, and the state stays. In libb2 the counter has another place. */
static void check_count_past_2_to_64(void) {
    const size_t at = IS_LIBB2 ? offsetof(PLAIN(state), t) : offsetof(state_t, counter);
    PLAIN(state) S, before;
    CHECK(PLAIN(init)(&S, MAX) == 0);
    memset((uint8_t *)&S + at, 0xff, 8);
    before = S;
    CHECK(PLAIN(update)(&S, message, 3 * BLOCK) == ROW(0, -1) && (IS_LIBB2 || SAME(S, before)));
    CHECK(IS_LIBB2 || (PLAIN(update)(&S, message, 1) == -1 && SAME(S, before)));
}

/* The last-node flag is any value but 0. */
static void check_last_node_flag(void) {
    /* The first bytes of hashlib.blake2b(last_node=True).digest(), and of blake2s. */
#ifdef TEST_S
    static const uint8_t wanted[] = {0x24, 0xfc, 0x11, 0x3c, 0x3d, 0xbe, 0x8c, 0x84};
#else
    static const uint8_t wanted[] = {0x05, 0xcc, 0x8c, 0xc5, 0x31, 0x83, 0xc6, 0xfb};
#endif
    PLAIN(state) S;
    for (int value = 1; value < 256; value++) {
        CHECK(PLAIN(init)(&S, MAX) == 0);
        S.last_node = (uint8_t)value;
        CHECK(PLAIN(update)(&S, NULL, 0) == 0 && S.last_node == value && PLAIN(final)(&S, out, MAX) == 0);
        CHECK(!memcmp(out, wanted, 8));
    }
}
#endif

#ifdef VULFSJOR_LIBB2_BLAKE2_H
/* What only the header has: the constants, and blake2, which is blake2b. */
static void check_header_constants(void) {
    uint8_t other[64];
    CHECK(BLAKE2B_BLOCKBYTES == 128 && BLAKE2B_OUTBYTES == 64 && BLAKE2B_KEYBYTES == 64 && BLAKE2B_SALTBYTES == 16);
    CHECK(BLAKE2S_BLOCKBYTES == 64 && BLAKE2S_OUTBYTES == 32 && BLAKE2S_KEYBYTES == 32 && BLAKE2S_SALTBYTES == 8);
    CHECK(BLAKE2B_PERSONALBYTES == 16 && BLAKE2S_PERSONALBYTES == 8);
    CHECK(sizeof(struct __blake2b_param) == 64 && sizeof(struct __blake2s_param) == 32);
    CHECK(blake2(out, message, message + 9, 63, 150, 9) == 0 && blake2b(other, message, message + 9, 63, 150, 9) == 0);
    CHECK(!memcmp(out, other, 63));
    CHECK(blake2(out, message, NULL, 0, 1, 0) == -1 && blake2(out, message, NULL, 65, 1, 0) == -1);
    CHECK(blake2(NULL, message, NULL, 64, 1, 0) == -1 && blake2(out, NULL, NULL, 64, 1, 0) == -1);
}
#endif

int main(void) {
    for (size_t i = 0; i < sizeof message; i++) message[i] = (uint8_t)(i % 251);
    check_null_pointers(); /* first: no process may fork once libb2 has threads */
#ifndef TEST_P
    check_parameter_blocks();
    check_count_past_2_to_64();
    check_last_node_flag();
#endif
    check_wrong_lengths();
    check_ended_and_zeroed_states();
    check_digest_in_two_pieces();
    check_states_at_any_address();
    check_no_key_byte_stays();
    check_overlapping_buffers();
#ifdef VULFSJOR_LIBB2_BLAKE2_H
    check_header_constants();
#endif
    printf("%d checks, %d failures\n", checks, fails);
    return fails != 0;
}
