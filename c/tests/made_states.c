/* Tests what no list of calls reaches: states that no calls make. The calls refuse one that is not ready, and it stays
 * as it is, byte by byte; counts near their end and past 2^32; random bytes as a state, of which every call ends, and
 * writes within its memory; and messages of which there is no memory. Returns 0 if all is as it should be.
 *
 *   cc -std=c99 -I FOLDER/include made_states.c ARCHIVE -o made_states     for BLAKE2b; the others as in family.h
 *   cc the same with -DTEST_T                                              for the tree of two levels */
#include "check.h"
#include "conformance.h"

static uint8_t bytes[2048];

#ifdef TEST_NODES
enum { SAVED = CONSTANT(SAVEDBYTES) };

/* A state that is not saved, and of which nothing is written. */
static void check_not_saved(const state_t *S) {
    uint8_t out[SAVED], blank[SAVED];
    memset(out, 0xaa, SAVED);
    memset(blank, 0xaa, SAVED);
    CHECK(BLAKE(save)(S, out) == -1 && LIBRARY(save)(S, out, SAVED) == -1 && SAME(out, blank));
}
#endif

/* The calls refuse a state, and it stays as it is. */
static void check_refused_and_unchanged(state_t state) {
    uint8_t out[MAX], blank[MAX];
    const state_t before = state;
    memset(out, 0xaa, sizeof out);
    memset(blank, 0xaa, sizeof blank);
    CHECK(!output_bytes_left(&state) && !BLAKE(count)(&state));
    CHECK(BLAKE(update)(&state, bytes, 5) == -1 && BLAKE(update)(&state, bytes, 0) == -1);
    CHECK(write_output(&state, out, MAX) == -1 && write_output(&state, out, 1) == -1);
    CHECK(write_output(&state, out, 0) == -1);
#ifdef TEST_T
    CHECK(vulfsjor_tree_leaves_ahead(&state, out, 64, 0, bytes, 7) == -1 && !vulfsjor_tree_leaf_length(&state));
    CHECK(vulfsjor_tree_update_leaves(&state, bytes, 64, bytes, 1) == -1);
    CHECK(vulfsjor_tree_update_leaves(&state, NULL, 0, NULL, 0) == -1);
#else
    CHECK(BLAKE(reset)(&state) == -1);
#endif
#if !defined(TEST_T) && !defined(TEST_X)
    CHECK(BLAKE(verify)(&state, bytes, MAX) == -1 && BLAKE(verify)(&state, bytes, 0) == -1);
#endif
#ifdef TEST_NODES
    CHECK(BLAKE(set_last_node)(&state, 1) == -1 && BLAKE(set_last_node)(&state, 0) == -1);
    CHECK(BLAKE(update_many)(&state, &(vulfsjor_message){bytes, 5}, 1) == -1);
    CHECK(BLAKE(update_many)(&state, &(vulfsjor_message){bytes, 0}, 1) == -1);
    check_not_saved(&state);
#endif
    CHECK(SAME(state, before) && SAME(out, blank));
    BLAKE(wipe)(&state);
    CHECK(is_ended(&state));
}

/* A state with one change, which makes it not ready. */
#define UNREADY(change)                                                         \
    do {                                                                        \
        state_t state = made;                                                   \
        change;                                                                 \
        check_refused_and_unchanged(state);                                     \
    } while (0)

/* A state takes so many bytes more and no other, and a refused update changes nothing. */
static void check_absorbs_at_most(state_t state, size_t room) {
    const state_t before = state;
    CHECK(BLAKE(update)(&state, bytes, room + 1) == -1 && SAME(state, before));
    CHECK(BLAKE(update)(&state, bytes, ~(size_t)0) == -1 && SAME(state, before));
    if (room > sizeof bytes) return;
    CHECK(BLAKE(update)(&state, bytes, room) == 0 && output_bytes_left(&state));
    CHECK(BLAKE(update)(&state, bytes, 1) == -1 && BLAKE(update)(&state, bytes, 0) == 0);
}

#define PAST_32 ((uint64_t)1 << 32)
#define MOST (~(uint64_t)0)

#if defined(TEST_T)
/* ---- trees */

static state_t valid_state(void) {
    state_t made;
    CHECK(vulfsjor_tree_init(&made, MAX, bytes + 1, 3, bytes, 4, 7) == 0);
    CHECK(!memcmp(made.salt, bytes + 1, 3) && !memcmp(made.personal, bytes, 4));
    CHECK(vulfsjor_ffi_tree_state_size() == sizeof made);
    CHECK(vulfsjor_tree_update(&made, bytes, 20) == 0);
    return made;
}

static void check_unready_states(state_t made) {
    UNREADY(SET(state.leaf.output_size, MAX - 1));
    UNREADY(SET(state.leaf.pending_length, BLOCK + 1));
    UNREADY(SET(state.leaf.pending_length, 8));
    UNREADY(state.leaf.counter = MOST);
    UNREADY(state.root.output_size = 0);
    UNREADY(SET(state.root.output_size, MAX + 1));
    UNREADY(SET(state.root.counter, GET(state.root.counter) + 1));
    UNREADY(SET(state.closed, 1));
    UNREADY(SET(state.closed, (uint64_t)1 << 58); state.root.counter = 0; state.root.pending_length = 0);
    UNREADY(state.leaf_length = 0);
    UNREADY(SET(state.leaf_length, 5));
    UNREADY(SET(state.leaf_length, PAST_32));
    UNREADY(SET(state.salt_length, SALT + 1));
    UNREADY(state.salt_length = MOST);
    UNREADY(SET(state.personal_length, SALT + 1));
    UNREADY(state.personal_length = MOST);
}

/* A state of leaves of `leaf` bytes, of which `closed` are closed. */
static state_t tree_with_closed_leaves(uint32_t leaf, uint64_t closed) {
    state_t state;
    CHECK(vulfsjor_tree_init(&state, MAX, bytes, 3, bytes, 4, leaf) == 0);
    SET(state.closed, closed);
    SET(state.root.counter, 64 * closed);
    return state;
}

/* The count may not reach 2^58. */
static void check_counts_near_limit(void) {
    static const uint32_t leaves[] = {1, 4, 1000};
    for (size_t i = 0; i < 3; i++) {
        const uint64_t end_at = (uint64_t)1 << 58, closed = (end_at - 1) / leaves[i] - 1;
        state_t state = tree_with_closed_leaves(leaves[i], closed), before = state;
        const size_t room = (size_t)(end_at - 1 - leaves[i] * closed);
        CHECK(vulfsjor_tree_count(&state) == leaves[i] * closed);
        for (size_t more = 2; more <= 5; more++)
            CHECK(vulfsjor_tree_update(&state, bytes, room + more) == -1 && SAME(state, before));
        check_absorbs_at_most(state, room);
        CHECK_64(vulfsjor_tree_update(&state, bytes, TWO_TO(63)) == -1 && SAME(state, before));
        CHECK(vulfsjor_tree_update_leaves(&state, bytes, 64, bytes, room) == -1 && SAME(state, before));
        CHECK(vulfsjor_tree_update(&state, bytes, room) == 0 && vulfsjor_tree_count(&state) == end_at - 1);
        CHECK(vulfsjor_tree_final(&state, bytes + 1000, MAX) == 0);
    }
    state_t state = tree_with_closed_leaves(1000, PAST_32 + 7);
    CHECK(vulfsjor_tree_update(&state, bytes, 1001) == 0 && vulfsjor_tree_count(&state) == 1000 * (PAST_32 + 7) + 1001);
}

static void set_plausible_field(state_t *state, int i) {
    const uint64_t pending = 64 * (uint64_t)(i % 3), closed = state->closed % (i % 5 ? 1000 : (uint64_t)1 << 58);
    SET(state->leaf.output_size, MAX);
    SET(state->root.output_size, state->root.output_size % (MAX + 2));
    SET(state->leaf.counter, i % 3 ? 0 : BLOCK);
    SET(state->leaf.pending_length, state->leaf.pending_length % (BLOCK + 4));
    SET(state->leaf.start_length, state->leaf.start_length % (BLOCK + 4));
    SET(state->root.start_length, state->root.start_length % (BLOCK + 4));
    SET(state->root.pending_length, pending);
    SET(state->closed, closed);
    SET(state->root.counter, 64 * closed - pending);
    SET(state->leaf_length, i % 7 ? state->leaf_length % 400 : ~(uint32_t)0);
    SET(state->salt_length, state->salt_length % (SALT + 2));
    SET(state->personal_length, state->personal_length % (SALT + 2));
}

#else
/* ---- the others: the fields that they have by several names, the most bytes that are held, and those of a key's
 * blocks, which are the most that a state starts with. The counter is that of each of so many leaves. */

#if defined(TEST_P)
enum { LEAVES = 512 / BLOCK, HELD = (2 * LEAVES - 1) * BLOCK, KEY_BLOCKS = 512, SIZE = MAX };
#define OWN(field) field
#define PENDING lanes.length
#define COUNTER lanes.counter
#elif defined(TEST_X)
enum { LEAVES = 1, HELD = BLOCK, KEY_BLOCKS = BLOCK, SIZE = 100 };
#define OWN(field) root.field
#define PENDING root.pending_length
#define COUNTER root.counter
#else
enum { LEAVES = 1, HELD = BLOCK, KEY_BLOCKS = BLOCK, SIZE = MAX };
#define OWN(field) field
#define PENDING pending_length
#define COUNTER counter
#endif

static state_t valid_state(void) {
    state_t made;
    CHECK(BLAKE(init_key)(&made, SIZE, bytes, MAX) == 0 && BLAKE(update)(&made, bytes, 700) == 0);
    CHECK(CONSTANT(KEYBYTES) == MAX && CONSTANT(SALTBYTES) == SALT && CONSTANT(PERSONALBYTES) == SALT);
#ifndef TEST_X
    CHECK(CONSTANT(BLOCKBYTES) == BLOCK && CONSTANT(OUTBYTES) == MAX);
#endif
    CHECK(LIBRARY(state_size)() == sizeof made);
    return made;
}

#ifdef TEST_X
#define WHOLE ((uint64_t)MAX << 32)

/* An output that is not one, or was read further than it goes; a state that has been read from, whatever its mark. */
static void check_unready_outputs(state_t made) {
    state_t state = made;
    UNREADY(SET(state.root.output_size, MAX - 1));
    UNREADY(state.reader.xof_length = 0);
    UNREADY(SET(state.reader.xof_length, UNKNOWN + 1));
    UNREADY(SET(state.reader.position, 101));
    UNREADY(SET(state.reader.xof_length, UNKNOWN); SET(state.reader.position, WHOLE + 1));
    SET(state.reader.position, 1);
    CHECK(BLAKE(update)(&state, bytes, 1) == -1 && BLAKE(reset)(&state) == 0);
    state = made, state.reading = (uint64_t)1 << 40;
    CHECK(BLAKE(update)(&state, bytes, 1) == -1 && BLAKE(reset)(&state) == 0);
    CHECK(BLAKE(update)(&state, bytes, 1) == 0);
}

/* The end of an output whose length is not known. */
static void check_end_of_unknown_length_output(void) {
    state_t state, before;
    uint8_t out[3] = {1, 2, 3};
    CHECK(BLAKE(init)(&state, (size_t)UNKNOWN) == 0 && BLAKE(left)(&state) == WHOLE && !BLAKE(squeeze)(&state, out, 1));
    SET(state.reader.position, WHOLE - 2);
    before = state, out[0] = 1;
    CHECK(BLAKE(squeeze)(&state, out, 3) == -1 && BLAKE(squeeze)(&state, out, ~(size_t)0) == -1);
    CHECK(SAME(state, before) && out[0] == 1 && BLAKE(squeeze)(&state, out, 2) == 0 && BLAKE(left)(&state) == 0);
    CHECK(BLAKE(squeeze)(&state, out, 1) == -1 && BLAKE(squeeze)(&state, NULL, 0) == 0);
}
#endif

static void check_unready_states(state_t made) {
    const uint64_t sizes[] = {0, MAX + 1, PAST(made.OWN(output_size)), MOST},
                   lengths[] = {HELD + 1, PAST(made.PENDING), MOST, HELD + 2},
                   starts[] = {KEY_BLOCKS + 1, PAST(made.OWN(start_length)), MOST, KEY_BLOCKS + 2};
    for (size_t i = 0; i < COUNT_OF(sizes); i++) {
        UNREADY(SET(state.OWN(output_size), sizes[i]));
        UNREADY(SET(state.PENDING, lengths[i]));
        UNREADY(SET(state.OWN(start_length), starts[i]));
    }
    UNREADY(SET(state.COUNTER, (MOST - GET(state.PENDING)) / LEAVES + 1));
#ifdef TEST_X
    check_unready_outputs(made);
#endif
}

/* The count may not reach 2^64, that of a key's blocks included, and a refused update changes nothing. */
static void check_counts_near_limit(void) {
    const state_t made = valid_state();
    const uint64_t held = GET(made.PENDING);
    state_t state = made, before;
    for (size_t room = 0; room <= sizeof bytes; room += room < 2 * BLOCK ? 1 : 13) {
        const uint64_t counter = (MOST - room - held) / LEAVES, left = MOST - LEAVES * counter - held;
        state = made;
        SET(state.COUNTER, counter);
        CHECK(BLAKE(count)(&state) == MOST - left - KEY_BLOCKS);
        check_absorbs_at_most(state, (size_t)left);
    }
    /* Lengths that would wrap round: no byte of them is read. */
    SET(state.COUNTER, ((uint64_t)1 << 63) / LEAVES);
    before = state;
    CHECK_64(BLAKE(update)(&state, bytes, TWO_TO(63)) == -1 && SAME(state, before));
    CHECK_64(BLAKE(update)(&state, bytes, ~(size_t)0) == -1 && SAME(state, before));
    /* A count past 2^32 is one of 64 bits. */
    for (int bits = 32; bits <= 40; bits += 8) {
        SET(state.COUNTER, ((uint64_t)1 << bits) - BLOCK);
        const uint64_t count = BLAKE(count)(&state);
        CHECK(count == LEAVES * (((uint64_t)1 << bits) - BLOCK) + held - KEY_BLOCKS);
        CHECK(BLAKE(update)(&state, bytes, 1024) == 0 && BLAKE(count)(&state) == count + 1024);
        CHECK(GET(state.COUNTER) >= (uint64_t)1 << bits);
    }
#ifdef TEST_X
    check_end_of_unknown_length_output();
#endif
}

static void set_plausible_field(state_t *state, int i) {
    uint64_t counter = GET(state->COUNTER) / (2 * LEAVES);
    if (i % 4 == 1) counter = MOST / LEAVES - random_below(1 << 24) % (4 * BLOCK);
    SET(state->COUNTER, counter);
    SET(state->OWN(output_size), GET(state->OWN(output_size)) % (MAX + 6));
    SET(state->PENDING, GET(state->PENDING) % (HELD + 12));
    SET(state->OWN(start_length), GET(state->OWN(start_length)) % (KEY_BLOCKS + 12));
#ifdef TEST_X
    const uint64_t length = i % 4 == 1 ? UNKNOWN : random_below(1 << 24) % UNKNOWN;
    SET(state->root.output_size, MAX);
    SET(state->reader.xof_length, length);
    SET(state->reader.position, random_below(1 << 24) % (length + 2));
    SET(state->reading, i / 2 % 2);
#endif
}
#endif

#ifdef TEST_NODES
/* ---- states that are saved */

/* A state that no call makes is saved as the one that calls do the same with: what follows the pending bytes, the key
 * and the number of a flag are no part of it. */
static void check_unused_bytes_are_not_saved(void) {
    for (size_t pending = 0; pending <= BLOCK; pending++) {
        state_t made, state, other;
        uint8_t one[SAVED], again[SAVED];
        CHECK(BLAKE(init)(&made, 1 + pending % MAX) == 0 && BLAKE(update)(&made, bytes, BLOCK + pending) == 0);
        if (!pending) CHECK(BLAKE(reset)(&made) == 0);
        CHECK(BLAKE(save)(&made, again) == 0 && BLAKE(load)(&other, again, SAVED) == 0 && SAME(other, made));
        CHECK(BLAKE(set_last_node)(&made, 1) == 0 && BLAKE(save)(&made, one) == 0);
        state = made;
        SET(state.last_node, (uint64_t)1 << pending % (8 * sizeof state.last_node));
        memset(state.pending + pending, 0xa5, BLOCK - pending);
        memset(state.key, 0x5a, sizeof state.key);
        CHECK(BLAKE(save)(&state, again) == 0 && SAME(one, again));
        CHECK(BLAKE(load)(&state, one, SAVED) == 0 && SAME(state, made));
        SET(state.start_length, 1 + pending % BLOCK);
        check_not_saved(&state);
    }
}

/* Each value of each byte that is checked. A state that is loaded is saved as the same bytes. */
static void check_load_of_each_byte_value(void) {
    for (int pending = 0; pending <= BLOCK; pending += BLOCK / 4) {
        state_t state;
        uint8_t saved[SAVED], again[SAVED];
        CHECK(BLAKE(init)(&state, MAX) == 0 && BLAKE(update)(&state, bytes + 1, (size_t)pending) == 0);
        CHECK(BLAKE(save)(&state, saved) == 0);
        for (int i = 0; i < 256 * SAVED; i++) {
            enum { SIZE_AT = 16 + 2 * MAX };
            const int at = i / 256, value = i % 256, is_end = at >= SIZE_AT + 3 + pending;
            const uint8_t kept = saved[at];
            const int is_same = at < 8 || at == 9 + MAX || is_end;
            const int is_right = is_same           ? value == kept
                                 : at == SIZE_AT   ? value >= 1 && value <= MAX
                                 : at == SIZE_AT + 1 ? value >= pending && value <= BLOCK
                                                     : at != SIZE_AT + 2 || value < 2;
            if (!is_right && at == SIZE_AT + 1 && value < pending) continue; /* below */
            saved[at] = (uint8_t)value;
            CHECK(BLAKE(load)(memset(&state, 0x5a, sizeof state), saved, SAVED) == -!is_right);
            CHECK(is_right ? BLAKE(save)(&state, again) == 0 && SAME(saved, again) : is_ended(&state));
            saved[at] = kept;
        }
        /* Fewer pending bytes, of which the next is not 0, as bytes + 1 has none before its end. */
        for (int fewer = 0; fewer < pending; fewer++) {
            saved[17 + 2 * MAX] = (uint8_t)fewer;
            CHECK(BLAKE(load)(&state, saved, SAVED) == -1 && is_ended(&state));
        }
    }
}

static void check_saved_states(void) {
    state_t state;
    uint8_t saved[SAVED + 1], out[SAVED];
    CHECK(SAVED == (MAX == 64 ? 275 : 147) && BLAKE(init)(&state, MAX) == 0 && BLAKE(save)(&state, saved) == 0);
    saved[SAVED] = 0;
    CHECK(!memcmp(saved, "BLAKE2" FAMILY "\1", 8));
    for (size_t length = 0; length <= SAVED + 1; length++) {
        CHECK(LIBRARY(load)(&state, saved, length) == -(length != SAVED) && !is_ended(&state) == (length == SAVED));
        CHECK(BLAKE(load)(&state, saved, length) == -(length != SAVED) && !is_ended(&state) == (length == SAVED));
        CHECK(BLAKE(load)(memset(&state, 0x5a, sizeof state), NULL, length) == -1 && is_ended(&state));
        CHECK(BLAKE(load)(NULL, saved, length) == -1);
    }
    CHECK_64(LIBRARY(load)(&state, saved, SAVED + TWO_TO(32)) == -1);
    CHECK(BLAKE(save)(NULL, out) == -1 && BLAKE(init)(&state, MAX) == 0 && BLAKE(save)(&state, NULL) == -1);
    check_unused_bytes_are_not_saved();
    check_load_of_each_byte_value();
}
#endif

/* Random bytes as a state, and in the fields of some a number that a state may have. */
static state_t random_state(int i) {
    state_t state;
    for (size_t j = 0; j < sizeof state; j++) ((uint8_t *)&state)[j] = (uint8_t)random_below(1 << 24);
    if (i % 4) set_plausible_field(&state, i);
    return state;
}

#ifdef TEST_NODES
/* As many of them that are ready as go on in lanes, and one more, or more than two groups of the file in C, absorb in
 * one call what each of them absorbs alone; and nothing if one is not ready, or counts 2^64 - 1 bytes. */
static void check_several_random_states(void) {
    enum { STATES = 71 };
    for (int turn = 0; turn < 300; turn++) {
        const size_t count = turn % 10 ? LANES + 1 : STATES, place = (size_t)turn % count;
        state_t states[STATES], alone[STATES], kept;
        vulfsjor_message pieces[STATES];
        memset(states, 0, sizeof states);
        memset(alone, 0, sizeof alone);
        for (size_t i = 0; i < count;) {
            const size_t least = turn % 3 ? BLOCK + 1 : 1;
            pieces[i] = (vulfsjor_message){bytes + i, least + random_below(1 << 24) % (4 * BLOCK)};
            alone[i] = states[i] = random_state(1 + turn % 3);
            i += BLAKE(update)(&alone[i], pieces[i].bytes, pieces[i].length) == 0;
        }
        CHECK(BLAKE(update_many)(states, pieces, count) == 0 && SAME(states, alone));
        kept = states[place];
        states[place].output_size = 0;
        memcpy(alone, states, sizeof alone);
        CHECK(BLAKE(update_many)(states, pieces, count) == -1 && SAME(states, alone));
        states[place] = kept;
        pieces[place].length = 1;
        states[place].counter = MOST;
        *(uint8_t *)&states[place].counter -= *(uint8_t *)&states[place].pending_length; /* in little-endian order */
        memcpy(alone, states, sizeof alone);
        CHECK(BLAKE(update_many)(states, pieces, count) == -1 && SAME(states, alone));
    }
}
#endif

static void check_random_states(void) {
    uint8_t out[6 * MAX];
    int taken = 0;
    for (int i = 0; i < 4000; i++) {
        state_t state = random_state(i);
        int updated = BLAKE(update)(&state, bytes, (size_t)i % (4 * BLOCK)), other = 0;
        size_t room = output_bytes_left(&state) < sizeof out ? (size_t)output_bytes_left(&state)
                                                             : random_below(1 << 24) % sizeof out;
#ifdef TEST_NODES
        uint8_t saved[SAVED];
        for (size_t j = 0; j < SAVED; j++) saved[j] = (uint8_t)random_below(1 << 24);
        if (BLAKE(save)(&state, saved) == 0) CHECK(BLAKE(load)(&state, saved, SAVED) == 0);
        else CHECK(BLAKE(load)(&(state_t){.output_size = 1}, saved, SAVED) == -1);
        other = BLAKE(set_last_node)(&state, i % 7);
#endif
#ifndef TEST_T
        if (i % 3 == 0) other |= BLAKE(reset)(&state);
#endif
        int ended = write_output(&state, out, room);
        CHECK((updated == 0 || updated == -1) && (other == 0 || other == -1) && (ended == 0 || ended == -1));
        taken += ended == 0;
#if !defined(TEST_T) && !defined(TEST_X)
        CHECK(BLAKE(verify)(&state, out, MAX) == -1);
#endif
    }
    CHECK(taken >= 100 && taken < 4000);
}

#ifdef TEST_T
#define UNTOUCHED(call) CHECK((call) == -1 && SAME(out, blank))

/* Messages that end at byte 2^58 or after it. */
static void check_leaves_near_2_to_58(void) {
    uint8_t out[MAX], blank[MAX];
    state_t state;
    memset(out, 0xaa, sizeof out);
    memset(blank, 0xaa, sizeof blank);
    CHECK(vulfsjor_tree_init(&state, MAX, NULL, 0, NULL, 0, 4) == 0 && vulfsjor_tree_update(&state, bytes, 4) == 0);
    UNTOUCHED(vulfsjor_tree_root(out, MAX, bytes, TWO_TO(58), NULL, 0, NULL, 0, 1));
    UNTOUCHED(vulfsjor_tree_root(out, MAX, bytes, ~(size_t)0, NULL, 0, NULL, 0, ~(uint32_t)0));
    UNTOUCHED(vulfsjor_tree_update_leaves(&state, bytes, 64, bytes, TWO_TO(58)));
    UNTOUCHED(vulfsjor_tree_update_leaves(&state, bytes, 64, bytes, TWO_TO(58) - 8));
    UNTOUCHED(vulfsjor_tree_update_leaves(&state, bytes, TWO_TO(62), bytes, 1));
    UNTOUCHED(vulfsjor_tree_update_leaves(&state, bytes, ~(size_t)63, bytes, 1));
    UNTOUCHED(vulfsjor_tree_update_leaves(&state, NULL, 0, bytes, TWO_TO(58) - 4));
    CHECK(vulfsjor_tree_init(&state, MAX, NULL, 0, NULL, 0, UINT32_MAX) == 0);
    UNTOUCHED(vulfsjor_tree_update_leaves(&state, bytes, TWO_TO(32), bytes, 1 << 26));
}
#endif

int main(void) {
    for (size_t i = 0; i < sizeof bytes; i++) bytes[i] = (uint8_t)(i % 251);
    const state_t made = valid_state();
    UNREADY(memset(&state, 0, sizeof state));
    UNREADY(memset(&state, 0xff, sizeof state));
    check_unready_states(made);
    check_counts_near_limit();
    check_random_states();
#ifdef TEST_NODES
    check_several_random_states();
    check_saved_states();
#endif
#ifdef TEST_T
    if (sizeof(size_t) == 8) check_leaves_near_2_to_58();
#endif
    fprintf(stderr, "%s: %d checks, %d failures\n", HASH, checks, fails);
    return fails != 0;
}
