/* Tests what C has beyond the calls of the conformance cases and the states of made_states.c: null trees, blocks and
 * pointers of no bytes, wiping, hexadecimal digits, the field of a flag, parameter blocks, lengths of several messages
 * and the version. Returns 0 if all is as it should be.
 *
 *   cc -std=c99 -Wall -Wextra -Wpedantic -Werror -I FOLDER/include edge_cases.c ARCHIVE -o edge_cases
 *   cc the same with -DTEST_S                       the same for BLAKE2s */
#include "check.h"
#include "family.h"

static uint8_t bytes[4 * BLOCK], key[MAX + 2];

/* Whether all bytes from `from` on are as `fill_with_marks` left them. */
static int is_untouched(const uint8_t *out, size_t from, size_t room) {
    for (size_t i = from; i < room; i++)
        if (out[i] != 0xaa) return 0;
    return 1;
}

static uint8_t *fill_with_marks(void *out, size_t room) { return memset(out, 0xaa, room); }

/* Trees and blocks that are null, and null pointers with length 0 and 1. */
static void check_null_pointers(void) {
    state_t states[2], *S = memset(states, 0x5a, sizeof states);
    CHECK(BLAKE(init_tree)(S, MAX, key, 1, bytes, 1, bytes, 1, NULL) == -1 && BLAKE(init_param)(S + 1, NULL) == -1);
    CHECK(is_zero(states, sizeof states) && BLAKE(init_tree)(NULL, MAX, key, 1, bytes, 1, bytes, 1, NULL) == -1);
    CHECK(BLAKE(init_param)(NULL, NULL) == -1 && BLAKE(param_refused)(NULL) == VULFSJOR_ARGUMENT_PARAM);
    for (int both = 0; both < 4; both++) {
        const uint8_t *one = both & 1 ? bytes : NULL, *other = both & 2 ? bytes : NULL;
        CHECK(vulfsjor_memcmp(one, other, 0) == 0 && vulfsjor_memcmp(one, other, 1) == (both == 3 ? 0 : -1));
    }
    CHECK(vulfsjor_null_message(NULL, 0) == 0);
}

static void check_wipe(void) {
    uint8_t out[80];
    for (size_t length = 0; length < 80; length++) {
        vulfsjor_wipe(fill_with_marks(out, 80) + 1, length);
        CHECK(out[0] == 0xaa && is_zero(out + 1, length) && is_untouched(out, length + 1, 80));
    }
    vulfsjor_wipe(NULL, 0);
    vulfsjor_wipe(NULL, ~(size_t)0);
}

/* ---- hexadecimal digits */

static uint8_t values[256];
static char digits[2 * 256 + 1];

/* So many bytes as digits and back, with each room and number of digits, and one character that is none at each place. */
static void check_hex_of_length(size_t length) {
    uint8_t out[2 * 70 + 9];
    for (size_t room = 0; room <= sizeof out; room++) {
        const size_t written = room > 2 * length ? 2 * length + 1 : 0;
        CHECK(vulfsjor_bin2hex((char *)fill_with_marks(out, sizeof out), room, values + 90, length) == -!written);
        CHECK(is_untouched(out, written, sizeof out));
        CHECK(!written || (!memcmp(out, digits + 180, 2 * length) && !out[2 * length]));
    }
    for (size_t given = 0; given <= sizeof out; given++) {
        const int is_right = given == 2 * length;
        CHECK(vulfsjor_hex2bin(fill_with_marks(out, sizeof out), length, digits + 180, given) == -!is_right);
        CHECK(is_untouched(out, is_right ? length : 0, sizeof out));
        CHECK(!is_right || !memcmp(out, values + 90, length));
    }
    for (size_t i = 0; i < 2 * length; i++) {
        const char kept = digits[i];
        digits[i] = 'g';
        CHECK(vulfsjor_hex2bin(fill_with_marks(out, sizeof out), length, digits, 2 * length) == -1);
        CHECK(is_untouched(out, 0, sizeof out));
        digits[i] = kept;
    }
}

/* The value of a digit by its place among the digits, or -1. */
static int digit_value(int character) {
    static const char all[] = "0123456789abcdef0123456789ABCDEF";
    const char *at = character ? strchr(all, character) : NULL;
    return at ? (int)(at - all) % 16 : -1;
}

/* Each two characters. */
static void check_hex_digit_pairs(void) {
    uint8_t out[2];
    for (int i = 0; i < 256 * 256; i++) {
        const char pair[2] = {(char)(i >> 8), (char)i};
        int high = digit_value(i >> 8), low = digit_value(i & 255), is_right = high >= 0 && low >= 0;
        CHECK(vulfsjor_hex2bin(fill_with_marks(out, 2), 1, pair, 2) == -!is_right);
        CHECK(out[0] == (is_right ? 16 * high + low : 0xaa) && out[1] == 0xaa);
    }
}

static void check_hex(void) {
    char out[9], all[2 * 256 + 1];
    uint8_t *in = fill_with_marks(out, sizeof out);
    for (int i = 0; i < 256; i++) {
        values[i] = (uint8_t)i;
        snprintf(digits + 2 * i, 3, "%02x", (unsigned)i);
    }
    CHECK(vulfsjor_bin2hex(all, sizeof all, values, 256) == 0 && !strcmp(all, digits));
    for (size_t length = 0; length <= 70; length++) check_hex_of_length(length);
    check_hex_digit_pairs();
    CHECK(vulfsjor_bin2hex(out, 9, values, ~(size_t)0) == -1 && vulfsjor_bin2hex(out, 9, NULL, 1) == -1);
    CHECK_64(vulfsjor_bin2hex(out, 9, values, TWO_TO(63)) == -1);
    CHECK(vulfsjor_bin2hex(out, ~(size_t)0, values, ~(size_t)0 / 2 + 1) == -1);
    CHECK(vulfsjor_bin2hex(NULL, 9, values, 1) == -1 && vulfsjor_bin2hex(NULL, 9, NULL, 0) == -1);
    CHECK(vulfsjor_hex2bin(in, ~(size_t)0 / 2 + 1, digits, 0) == -1 && vulfsjor_hex2bin(in, 1, NULL, 2) == -1);
    CHECK(vulfsjor_hex2bin(NULL, 0, digits, 0) == -1 && vulfsjor_hex2bin(NULL, 1, digits, 2) == -1);
    CHECK(vulfsjor_hex2bin(in, 0, NULL, 0) == 0 && is_untouched(in, 0, sizeof out));
    CHECK(vulfsjor_bin2hex(out, 1, NULL, 0) == 0 && !out[0]);
}

/* ---- flags and parameter blocks */

/* Each bit of the flag's field says that it is set, and a reset keeps it. */
static void check_flag_field_keeps_each_bit(void) {
    uint8_t wanted[MAX], out[MAX];
    state_t made, state;
    const uint64_t most = (uint64_t)1 << (8 * sizeof made.last_node - 1);
    CHECK(BLAKE(init)(&made, MAX) == 0 && made.last_node == 0 && BLAKE(update)(&made, bytes, 10) == 0);
    state = made;
    CHECK(LIBRARY(set_last_node)(&state, 1u << 31) == 0 && GET(state.last_node) == 1);
    CHECK(BLAKE(final)(&state, wanted, MAX) == 0);
    for (uint64_t bit = 1; bit <= 2 * most; bit *= 2) {
        const uint64_t on = bit <= most ? bit : bit - 1;
        state = made;
        SET(state.last_node, on);
        state_t copy = state;
        CHECK(BLAKE(final)(&copy, out, MAX) == 0 && !memcmp(out, wanted, MAX));
        CHECK(BLAKE(reset)(&state) == 0 && GET(state.last_node) == on);
    }
}

/* The digest of "abc" from a block with another number in each byte, by tests/b2_model.py. */
static void check_digest_from_block(void) {
#ifdef TEST_S
    static const char wanted[] = "711fb0b90102ff8063cbc327f8f2fbe9cb0836af74156b61745d352574210d89";
#else
    static const char wanted[] = "f3430ca48ef377d660722b6bf3f4c0e5b3a110afe08487f1a29af7ea367b898b"
                                 "26a2ef21008f012de9bbeb04a5f137e48bc1ab190dff2927fd52e13500004e42";
#endif
    uint8_t block[MAX] = {MAX}, out[MAX], digest[MAX];
    param_t param;
    state_t state;
    for (int i = 2; i < MAX; i++) block[i] = (uint8_t)(i * 37);
    memcpy(&param, block, sizeof param); /* in which numbers have the order of the processor */
    param.leaf_length = 0;
    for (int i = 0; i < 4; i++) param.leaf_length |= (uint32_t)block[4 + i] << 8 * i;
#ifndef TEST_S
    SET(param.node_offset, param.node_offset);
#endif
    CHECK(BLAKE(init_param)(&state, &param) == 0 && BLAKE(update)(&state, "abc", 3) == 0);
    CHECK(BLAKE(final)(&state, out, MAX) == 0 && vulfsjor_hex2bin(digest, MAX, wanted, 2 * MAX) == 0);
    CHECK(!memcmp(out, digest, MAX));
    for (size_t length = 0; length <= MAX + 1; length++) {
        uint8_t raw[MAX + 1] = {MAX, 0, 1, 1};
        memset(&state, 0x5a, sizeof state);
        CHECK(LIBRARY(init_param)(&state, raw, length) == -(length != MAX));
        CHECK(length == MAX || is_zero(&state, sizeof state));
    }
}

/* Each digest length with each key length, and which of them _refused returns. */
static void check_refused_digest_and_key_lengths(void) {
    for (int i = 0; i < 256 * 256; i++) {
        param_t param = {.digest_length = (uint8_t)i, .key_length = (uint8_t)(i >> 8)}, copy = param;
        state_t state;
        vulfsjor_argument wanted = i % 256 == 0 || i % 256 > MAX ? VULFSJOR_ARGUMENT_OUTLEN
                                   : i / 256 > MAX               ? VULFSJOR_ARGUMENT_KEY
                                                                 : VULFSJOR_ARGUMENT_NONE;
        CHECK(BLAKE(param_refused)(&param) == wanted && SAME(param, copy));
        memset(&state, 0x5a, sizeof state);
        CHECK(BLAKE(init_param)(&state, &param) == (wanted ? -1 : 0));
        CHECK(BLAKE(digest_size)(&state) == (wanted ? 0 : param.digest_length));
        CHECK(wanted ? is_zero(&state, sizeof state) : !state.start_length && !state.pending_length);
    }
}

/* A state from a block with a key's length is the keyed one, verifies tags once it has absorbed the key's block, and is
 * not saved, also before it. */
static void check_verify_from_keyed_block(void) {
    for (size_t keylen = 0; keylen <= MAX; keylen++) {
        param_t param = {.digest_length = MAX, .key_length = (uint8_t)keylen, .fanout = 1, .depth = 1};
        uint8_t block[BLOCK] = {0}, wanted[MAX], saved[CONSTANT(SAVEDBYTES)];
        state_t state;
        memcpy(block, key, keylen);
        CHECK(ONE_CALL(wanted, MAX, bytes, 20, keylen ? key : NULL, keylen) == 0);
        CHECK(BLAKE(init_param)(&state, &param) == 0 && BLAKE(save)(&state, saved) == -(keylen > 0));
        CHECK(BLAKE(update)(&state, block, keylen ? BLOCK : 0) == 0 && BLAKE(save)(&state, saved) == -(keylen > 0));
        CHECK(BLAKE(update)(&state, bytes, 20) == 0);
        const state_t before = state;
        state_t given = state;
        CHECK(BLAKE(verify)(&state, wanted, MAX) == (keylen ? 0 : -1));
        CHECK(keylen ? is_zero(&state, sizeof state) : SAME(state, before));
        CHECK(LIBRARY(verify)(&given, wanted, MAX) == (keylen ? 0 : -1) && SAME(given, state));
    }
}

/* Right tags of all lengths: verify accepts them from 16 bytes on, and verify_short_mac all. */
static void check_tag_lengths_of_verify(void) {
    for (size_t n = 1; n <= MAX; n++) {
        uint8_t tag[MAX];
        state_t state;
        CHECK(ONE_CALL(tag, n, bytes, 20, key, MAX) == 0);
        CHECK(BLAKE(init_key)(&state, n, key, MAX) == 0 && BLAKE(update)(&state, bytes, 20) == 0);
        const state_t before = state;
        state_t other = state;
        CHECK(BLAKE(verify)(&state, tag, n) == (n < 16 ? -1 : 0));
        CHECK(n < 16 ? SAME(state, before) : is_zero(&state, sizeof state));
        CHECK(BLAKE(verify_short_mac)(&other, tag, n) == 0 && is_zero(&other, sizeof other));
    }
}

/* ---- several messages */

/* Counts and lengths that 32 or 64 bits would take for others; nothing is written. */
static void check_refused_messages(void) {
    enum { COUNT = 65 };
    static const size_t rooms[][2] = {{9 * MAX - 1, 9}, {8 * MAX, 9}, {8 * MAX + 1, 8}, {MAX, 0}, {0, 0}};
    static uint8_t out[COUNT * MAX];
    vulfsjor_message messages[COUNT];
    fill_with_marks(out, sizeof out);
    for (size_t i = 0; i < COUNT; i++) messages[i] = (vulfsjor_message){bytes, i};
    CHECK(BLAKE(many)(NULL, MAX, messages, 0, 0, 0, 0, 0, 0, 0) == -1);
    CHECK(BLAKE(many)(out, MAX, NULL, 0, 0, 0, 0, 0, 0, 0) == -1);
    CHECK(BLAKE(many)(out, ~(size_t)0 / 2 + 1, messages, 2, 0, 0, 0, 0, 0, 0) == -1);
    for (size_t i = 0; i < COUNT; i++) {
        /* With the key's block, this message is too long to count: no byte of any is read. */
        messages[i].length = ~(size_t)0 - BLOCK + 1;
        CHECK_64(BLAKE(many)(out, MAX, messages, i < 9 ? 9 : COUNT, key, 1, 0, 0, 0, 0) == -1);
        messages[i].length = i;
    }
    for (size_t i = 0; i < COUNT_OF(rooms); i++)
        CHECK(LIBRARY(many)(out, rooms[i][0], MAX, messages, rooms[i][1], key, 0, bytes, 0, bytes, 0) == -(i < 4));
    CHECK(is_untouched(out, 0, sizeof out));
}

static void check_version(void) {
    const unsigned number = vulfsjor_version();
    char version[32];
    snprintf(version, sizeof version, "%u.%u.%u", number >> 16, number >> 8 & 255, number & 255);
    CHECK(number == VULFSJOR_VERSION_NUMBER && !strcmp(version, VULFSJOR_VERSION));
}

int main(void) {
    for (size_t i = 0; i < sizeof bytes; i++) bytes[i] = (uint8_t)(i % 251);
    for (size_t i = 0; i < sizeof key; i++) key[i] = (uint8_t)(i + 100);
    check_null_pointers();
    check_wipe();
    check_hex();
    check_flag_field_keeps_each_bit();
    check_digest_from_block();
    check_refused_digest_and_key_lengths();
    check_verify_from_keyed_block();
    check_tag_lengths_of_verify();
    check_refused_messages();
    check_version();
    fprintf(stderr, "%d checks, %d failures\n", checks, fails);
    return fails != 0;
}
