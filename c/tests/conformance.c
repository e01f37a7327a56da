/* Reads the conformance cases of a hash (tests/conformance/README.md) from the file that is named, makes each call by
 * vulfsjor.h and compares its outcome. Returns 0 if all are right, and the file has as many cases, and of them C skips
 * as many, as this file says.
 *
 * Of every call it checks too: a refused call changes neither the state nor the output, a refused init or load and each
 * end leave zeros, nothing is written past an output, another length of an output is refused, a null state, output or text
 * is refused, and a length that 32 bits would take for another, _refused names the argument, the count grows by what
 * was absorbed, all inits that have the arguments make the same state, a state without a key verifies nothing, several
 * states absorb in one call what they absorb alone, and states of nodes have the digests of ranges. A text is in an
 * allocation of its length, and so is a state, for sanitizers.
 *
 *   cc -std=c99 -I FOLDER/include conformance.c ARCHIVE -o conformance     for BLAKE2b; the others as in family.h
 *   cc the same with -DTEST_T                                              for the tree of two levels
 *   cc the same with -DTEST_SECRETS, and then valgrind -q --error-limit=no conformance FILE
 *
 * The last tests that no branch and no address depends on a key, a message or a digest of a leaf, which memcheck takes
 * for undefined: it reports each of them. A comparison (verify, memcmp, hex2bin) may have one report, that of its
 * result. With `leaks` instead of a file a branch and an address are made, and have to be reported. */
#include "check.h"
#include "conformance.h"

/* The cases of each file, and those that C skips, on 64 and on 32 bits. */
static const struct { const char *hash; int cases, skipped, skipped_on_32; } files[] = {
    {"blake2b", 3641, 228, 255}, {"blake2s", 3089, 224, 251}, {"blake2bp", 1323, 8, 26}, {"blake2sp", 1147, 8, 26},
    {"blake2xb", 1310, 10, 35}, {"blake2xs", 1115, 9, 28}, {"tree", 2323, 253, 272}};

static state_t *slots[26];
static int has_key[26];

/* Each call gets its state, its arguments and its bytes, and few need all of them. */
#pragma GCC diagnostic ignored "-Wunused-parameter"

#ifdef TEST_SECRETS
/* The result of a comparison, which may have one report: reports so far, and those of comparisons. */
static unsigned long reported, allowed;
static int end_comparison(int result) {
    const unsigned long reports = VALGRIND_COUNT_ERRORS - reported;
    CHECK(reports <= 1);
    allowed += reports;
    SHOW(&result, sizeof result);
    return result;
}
#define COMPARED(call) end_comparison((reported = VALGRIND_COUNT_ERRORS, call))

/* Whether memcheck takes this byte for a secret: else it would see no branch on it. */
static int is_secret(const uint8_t *byte) {
    uint8_t bits = 0;
    return VALGRIND_GET_VBITS(byte, &bits, 1) == 1 && bits;
}

/* A key as digits and back, which depends on no byte of it but for the answer. */
static void check_hex_of_secret_key(void) {
    uint8_t key[MAX], back[MAX];
    char digits[2 * MAX + 1];
    HIDE(memset(key, 0xc5, MAX), MAX);
    CHECK(!vulfsjor_bin2hex(digits, sizeof digits, key, MAX) && is_secret((uint8_t *)digits));
    CHECK(!COMPARED(vulfsjor_hex2bin(back, MAX, digits, 2 * MAX)) && same(key, back, MAX));
}

/* A branch on a byte of a key, and then an address from one, have to be reported. Returns 0 if they are. */
static int check_memcheck_reports_leaks(void) {
    static uint8_t table[256];
    volatile uint8_t key = 3, found;
    HIDE((uint8_t *)&key, 1);
    if (key > 3) puts("never");
    const int branches = VALGRIND_COUNT_ERRORS;
    found = ((volatile uint8_t *)table)[key], (void)found;
    return branches != 1 || VALGRIND_COUNT_ERRORS != 2;
}
#else
#define COMPARED(call) (call)
#endif

/* ---- outcomes */

static void set_refusal(const char *argument) { sprintf(got, "! %s", argument); }
static void set_status(int status) { if (status) set_refusal(""); }
static void set_yes_or_no(int is_yes) { strcpy(got, is_yes ? "= yes" : "= no"); }

static uint8_t *marked_room_of(size_t n) { return memset(malloc(n + 9), 0xaa, n + 9); }

/* Whether room is as it was from this byte on. */
static int is_unwritten(const uint8_t *out, size_t from, size_t n) {
    while (from < n + 9 && out[from] == 0xaa) from++;
    return from == n + 9;
}

/* A call with room for nine bytes more than the n that it writes, or writes nothing. Frees the room. */
static void set_written_bytes(int status, uint8_t *out, size_t n) {
    CHECK(is_unwritten(out, status ? 0 : n, n));
    SHOW(out, n);
    strcpy(got, status ? "! " : n ? "= " : "= -");
    if (!status && n) CHECK(!vulfsjor_bin2hex(got + 2, sizeof got - 2, out, n));
    free(out);
}

/* The word for the argument that an init refuses, or "" for none. */
static const char *refused_argument(const given *g) {
    static const char *const names[][2] = {
        {"outlen", "size"}, {"key", "key"}, {"salt", "salt"}, {"personal", "person"}, {"leaf_length", "leaf"},
        {"tree->node_offset", "offset"}, {"tree->depth", "depth"}, {"tree->inner_length", "inner"}};
    vulfsjor_argument argument = argument_refused_by_inits(g);
    for (int i = 0; i < 8; i++)
        if (!strcmp(vulfsjor_argument_name(argument), names[i][0])) return names[i][1];
    return argument ? "?" : "";
}

/* ---- calls that write bytes */

static size_t message_count; /* of `many` */
#ifdef TEST_NODES
static vulfsjor_message messages[2000];
#endif

static int write_bytes(state_t *S, const given *g, text t, uint8_t *out, size_t n) {
    if (IS("digest") || IS("read")) return write_output(S, out, n);
#ifdef TEST_NODES
    if (IS("many")) return BLAKE(many)(out, g->size, messages, message_count, TEXTS);
    if (IS("save")) return BLAKE(save)(S, out);
#elif defined(TEST_X)
    if (IS("derive")) return BLAKE(derive_key)(out, g->size, TEXT(g->key), TEXT(t));
#elif defined(TEST_T)
    const uint64_t first = parts > 2 ? strtoull(part[2], NULL, 10) : 0;
    if (IS("leaves"))
        return vulfsjor_tree_leaves(out, n, first, flag_of(*part[3] == '1'), TEXT(t), TEXT(g->salt), TEXT(g->person),
                                    g->tree.leaf_length);
    if (IS("top"))
        return vulfsjor_tree_root_of_leaves(out, g->size, TEXT(t), TEXT(g->salt), TEXT(g->person), g->tree.leaf_length);
    if (IS("next")) return vulfsjor_tree_leaves_ahead(S, out, n, first, TEXT(t));
#endif
    return hash_in_one_call(out, g, t);
}

/* How many bytes it writes, or what its argument says. */
static size_t expected_byte_count(const state_t *S, const given *g, text t) {
    if (IS("digest")) return (size_t)output_bytes_left(S);
    if (IS("read")) return number_of(part[2], SIZE_MAX);
    if (IS("many")) return g->size > MAX ? 0 : g->size * message_count;
#ifdef TEST_NODES
    if (IS("save")) return CONSTANT(SAVEDBYTES);
#endif
#ifdef TEST_T
    const size_t leaf = S ? vulfsjor_tree_leaf_length(S) : 0;
    if (IS("leaves")) return 64 * (size_t)vulfsjor_tree_leaf_count(t.length, g->tree.leaf_length);
    if (IS("next")) return leaf ? 64 * (t.length / leaf) : 64;
#endif
    return g->size;
}

/* With a text that is refused nothing is written. Derived keys have only a key. */
static void expect_wrong_texts_refused(const given *g, text t, uint8_t *out, size_t n) {
    for (int i = 0; i < WRONG_TEXTS; i++) {
        const given other = with_wrong_text(g, i);
        const int has_text = i % 3 >= FIRST_TEXT && (i % 3 == 0 || !IS("derive"));
        CHECK(!has_text || write_bytes(NULL, &other, t, out, n) < 0);
    }
}

/* Writes bytes, and before that in all ways that are refused: without an output or a state, with a wrong text, and with
 * other lengths where those are not the caller's choice. */
static void call_that_writes_bytes(state_t *S, const given *g, text t) {
    const int has_length = IS("digest") || IS("leaves") || IS("next");
    const size_t n = expected_byte_count(S, g, t), room = n > sizeof got / 4 ? 0 : n,
                 others[] = {n + 1, n + 9, n + 64, n - 1, n - 64, n + TWO_TO(32), n + TWO_TO(63), 0, ~(size_t)0};
    const uint64_t before = S ? output_bytes_left(S) : 0;
    if (!can) return;
    uint8_t *out = marked_room_of(room);
    CHECK((IS("read") && !n) || write_bytes(S, g, t, NULL, n) == -1);
    CHECK(!S || write_bytes(NULL, g, t, out, n) == -1);
    for (size_t i = 0; has_length && i < COUNT_OF(others); i++)
        CHECK(others[i] == n || write_bytes(S, g, t, out, others[i]) == -1);
    if (!S) expect_wrong_texts_refused(g, t, out, room);
    CHECK(is_unwritten(out, 0, room));
    set_written_bytes(write_bytes(S, g, t, out, n), out, room);
    CHECK(!IS("read") || *got == '!' || output_bytes_left(S) == before - n);
}

/* By a state in two pieces. */
static int hash_in_two_pieces(uint8_t *out, size_t n, const given *g, text t) {
    const size_t half = t.bytes ? t.length / 2 : 0;
    state_t S;
    if (init_by_way(0, &S, g) || g->size == UNKNOWN) return -1;
    return BLAKE(update)(&S, half ? t.bytes : NULL, half) || BLAKE(count)(&S) != half ||
           BLAKE(update)(&S, half ? t.bytes + half : t.bytes, t.length - half) || BLAKE(count)(&S) != t.length ||
           write_output(&S, out, n) ? -1 : 0;
}

/* In one call, and by a state. */
#if !defined(TEST_T) && !defined(TEST_X)
/* The call for a tag is that for a digest, but a key is a must, and a short tag refused. */
static void check_tag_in_one_call(uint8_t *out, const given *g, text t, const uint8_t *wanted, int status) {
    const size_t n = g->size > sizeof got / 4 ? 0 : g->size;
    const int is_tag = HAS_KEY(g) && g->size >= LEAST_TAG;
    memset(out, 0xaa, n + 9);
    CHECK(BLAKE(mac)(out, g->size, TEXT(t), TEXT(g->key)) == (is_tag ? status : -1));
    CHECK(is_tag && !status ? same(out, wanted, n + 9) : is_unwritten(out, 0, n));
    CHECK(BLAKE(mac)(NULL, g->size, TEXT(t), TEXT(g->key)) == -1);
}
#endif

static void call_hash(state_t *S, const given *g, text t) {
    const size_t n = g->size > sizeof got / 4 ? 0 : g->size;
    uint8_t *one = marked_room_of(n), *run = marked_room_of(n);
    expect_wrong_texts_refused(g, t, one, n);
    CHECK(is_unwritten(one, 0, n));
    const int status = hash_in_one_call(one, g, t), by_state = hash_in_two_pieces(run, n, g, t);
    CHECK(status == ABSENT || (status == by_state && same(one, run, n + 9) && hash_in_one_call(NULL, g, t) == -1));
#if !defined(TEST_T) && !defined(TEST_X)
    if (status != ABSENT) check_tag_in_one_call(one, g, t, run, status);
#endif
#ifdef TEST_SECRETS
    const int is_wanted = g->key.length + t.length > 0;
    if (!by_state && n) CHECK(is_secret(run) == is_wanted && is_secret(run + n - 1) == is_wanted);
#endif
    free(one);
    set_written_bytes(by_state, run, n);
    if (by_state) set_refusal(refused_argument(g));
}

static void call_equal(state_t *S, const given *g, text one) {
    text other = secret_of(part[2]);
    set_yes_or_no(one.length == other.length && !COMPARED(vulfsjor_memcmp(one.bytes, other.bytes, one.length)));
    if (one.length) CHECK(vulfsjor_memcmp(one.bytes, NULL, 1) == -1 && vulfsjor_memcmp(NULL, one.bytes, 1) == -1);
    free(other.bytes);
}

#ifdef TEST_NODES
/* Takes the words from the third on as messages. Returns the number of the first that is null. */
static size_t parse_messages(void) {
    size_t null = 0;
    for (size_t i = 2; i < parts; i++) {
        if (strchr(part[i], '=')) continue;
        text t = secret_of(part[i]);
        vulfsjor_message made = {t.bytes, t.length};
        /* `none` is null by turns with 0 and 1 byte, and no bytes is never null. */
        if (!t.bytes && t.length) made.length = message_count % 2;
        else if (!t.bytes) made.bytes = malloc(1);
        null += made.bytes && null == message_count;
        messages[message_count++] = made;
    }
    CHECK(vulfsjor_null_message(messages, message_count) == null);
    return null;
}

static void free_messages(void) {
    while (message_count) free((void *)messages[--message_count].bytes);
}

static void call_many(state_t *S, const given *g, text unused) {
    parse_messages();
    CHECK(BLAKE(many)(got, g->size, NULL, message_count, TEXTS) == -1);
    call_that_writes_bytes(NULL, g, unused);
    free_messages();
}
#endif

#ifdef TEST_X
/* A null context is one of no bytes, and there has to be a key. */
static void call_derive(state_t *S, const given *g, text context) {
    const size_t n = g->size < 1 << 16 ? g->size : 0;
    uint8_t *out = marked_room_of(n), *other = marked_room_of(n);
    CHECK(BLAKE(derive_key)(out, g->size, NULL, 0, TEXT(context)) == -1 && same(out, other, n + 9));
    CHECK(BLAKE(derive_key)(out, g->size, TEXT(g->key), NULL, 0) ==
          BLAKE(derive_key)(other, g->size, TEXT(g->key), "", 0) && same(out, other, n + 9));
    free(out), free(other);
    call_that_writes_bytes(NULL, g, context);
}
#endif

/* ---- calls of a state */

/* With a text that is refused all inits leave zeros, and it is named if all else is right. */
static void expect_wrong_inits_refused(const given *g, int is_right) {
    static const vulfsjor_argument names[] = {
        VULFSJOR_ARGUMENT_KEY, VULFSJOR_ARGUMENT_SALT, VULFSJOR_ARGUMENT_PERSONAL};
    for (int i = 0; i < WRONG_TEXTS; i++) {
        const given wrong = with_wrong_text(g, i);
        if (i % 3 < FIRST_TEXT) continue;
        CHECK(!is_right || argument_refused_by_inits(&wrong) == names[i % 3]);
        for (int init = 0; init < INITS; init++) {
            state_t S;
            int status = init_by_way(init, memset(&S, 0xa5, sizeof S), &wrong);
            CHECK(status == ABSENT || (status == -1 && is_ended(&S)));
        }
    }
}

static void call_new(state_t *S, const given *g, text unused) {
    state_t other;
    const int status = init_by_way(0, memset(S, 0x5a, sizeof *S), g);
    has_key[*part[1] - 'a'] = g->key.length > 0;
    if (status) set_refusal(refused_argument(g));
    CHECK(!status == !*refused_argument(g) && !status == !is_ended(S));
    for (int i = 0; i < INITS; i++) {
        int another = init_by_way(i, memset(&other, 0xa5, sizeof other), g);
        CHECK(init_by_way(i, NULL, g) < 0);
        CHECK(another == ABSENT || (another == status && same(S, &other, sizeof other)));
    }
    expect_wrong_inits_refused(g, !status);
#ifndef TEST_T /* which demand a key */
    CHECK(BLAKE(init_key)(memset(&other, 0xa5, sizeof other), g->size, NULL, 0) == -1 && is_ended(&other));
    CHECK(BLAKE(init_mac)(memset(&other, 0xa5, sizeof other), g->size, NULL, 0, TEXT(g->salt), TEXT(g->person)) == -1);
    CHECK(is_ended(&other));
#endif
#if !defined(TEST_T) && !defined(TEST_X)
    CHECK(BLAKE(init_short_mac)(memset(&other, 0xa5, sizeof other), g->size, "", 0, TEXT(g->salt), TEXT(g->person)) == -1);
    CHECK(is_ended(&other) && (g->size >= LEAST_TAG || BLAKE(init_mac)(memset(&other, 0xa5, sizeof other), g->size,
                                                                       "key", 3, "", 0, "", 0) == -1));
    CHECK(is_ended(&other));
#endif
}

static void call_copy(state_t *S, const given *g, text unused) {
    const int from = *part[1] - 'a', to = *part[2] - 'a';
    if (is_ended(S)) set_refusal("");
    else *slots[to] = *S, has_key[to] = has_key[from];
}

#ifdef TEST_NODES
/* The count of a state that has absorbed nothing. */
static void call_skip(state_t *S, const given *g, text unused) { SET(S->counter, strtoull(part[2], NULL, 10)); }

/* Of another length nothing is written. */
static void call_save(state_t *S, const given *g, text unused) {
    const size_t n = CONSTANT(SAVEDBYTES), others[] = {0, 1, n - 1, n + 1, n + 9, n + TWO_TO(32), ~(size_t)0};
    const state_t before = *S;
    uint8_t *out = marked_room_of(n);
    for (size_t i = 0; i < COUNT_OF(others); i++)
        CHECK(others[i] == n || LIBRARY(save)(S, out, others[i]) == -1);
    CHECK(is_unwritten(out, 0, n));
    free(out);
    call_that_writes_bytes(S, g, unused);
    CHECK(same(S, &before, sizeof before));
    if (*got == '!') set_refusal(is_ended(S) ? "state" : "key");
}

/* Over any bytes and over a state, and of a length that 32 bits would take for the right one. */
static void call_load(state_t *S, const given *g, text unused) {
    const text saved = text_of(part[3]);
    state_t other;
    const int status = BLAKE(load)(memset(S, 0x5a, sizeof *S), TEXT(saved));
    CHECK(BLAKE(load)(NULL, TEXT(saved)) == -1 && !status == !is_ended(S) && !status == (output_bytes_left(S) > 0));
    CHECK(!BLAKE(init_key)(&other, MAX, "key", 3) && !BLAKE(update)(&other, "message", 7));
    CHECK(BLAKE(load)(&other, TEXT(saved)) == status && same(S, &other, sizeof other));
    CHECK_64(BLAKE(load)(&other, saved.bytes, saved.length + TWO_TO(32)) == -1 && is_ended(&other));
    has_key[*part[1] - 'a'] = 0;
    if (status) set_refusal("saved");
    free(saved.bytes);
}

/* ---- calls of several states */

/* States or messages, in an allocation of their length. */
static void *exact_copy_of(const void *from, size_t count, size_t size) {
    return memcpy(malloc(count * size), from, count * size);
}

/* Whether none of the states absorbs its piece, and each stays as it is. */
static int are_updates_refused(const state_t *states, const vulfsjor_message *pieces, size_t count) {
    state_t *tried = exact_copy_of(states, count, sizeof *states);
    const int status = BLAKE(update_many)(tried, pieces, count), is_same = same(tried, states, count * sizeof *states);
    free(tried);
    return status == -1 && is_same;
}

/* With a null piece at this place, one byte more than its state can count, or an ended state, none absorbs. A byte less
 * is absorbed if all else is right. */
static void expect_one_wrong_piece_refused(const state_t *states, size_t count, size_t i, int is_right) {
    static const uint8_t bytes[2 * BLOCK];
    state_t *others = exact_copy_of(states, count, sizeof *states);
    vulfsjor_message *pieces = exact_copy_of(messages, count, sizeof *messages);
    for (size_t length = 0; length < 3; length++) {
        pieces[i] = (vulfsjor_message){NULL, length};
        CHECK(are_updates_refused(others, pieces, count));
    }
    SET(others[i].counter, (uint64_t)0 - 2 * BLOCK);
    pieces[i] = (vulfsjor_message){bytes, 2 * BLOCK - (size_t)GET(others[i].pending_length)};
    CHECK(are_updates_refused(others, pieces, count));
    pieces[i].length--;
    CHECK(!is_right || !are_updates_refused(others, pieces, count));
    pieces[i] = messages[i];
    memset(&others[i], 0, sizeof *others);
    CHECK(are_updates_refused(others, pieces, count));
    free(others), free(pieces);
}

/* Without states or pieces, and with other numbers of them; with none of both nothing is done. */
static void expect_wrong_lists_refused(const state_t *states, const vulfsjor_message *pieces, size_t count) {
    const size_t others[][2] = {{count, 0}, {0, count}, {count, count - 1}, {count - 1, count}, {count, count + 1},
                                {count, count + TWO_TO(32)}, {count + TWO_TO(32), count}};
    state_t *tried = exact_copy_of(states, count, sizeof *states);
    for (size_t i = 0; i < COUNT_OF(others); i++)
        CHECK(others[i][0] == others[i][1] || LIBRARY(update_many)(tried, others[i][0], pieces, others[i][1]) == -1);
    CHECK(BLAKE(update_many)(NULL, pieces, count) == -1 && BLAKE(update_many)(tried, NULL, count) == -1);
    CHECK(BLAKE(update_many)(NULL, pieces, 0) == -1 && BLAKE(update_many)(tried, NULL, 0) == -1);
    CHECK(!BLAKE(update_many)(tried, pieces, 0) && same(tried, states, count * sizeof *states));
    free(tried);
}

/* Whether the pieces are those that the words say. */
static int are_pieces_of_line(const vulfsjor_message *pieces) {
    int are_same = same(pieces, messages, message_count * sizeof *pieces);
    for (size_t i = 0; i < message_count; i++) {
        const text said = text_of(part[2 + i]);
        are_same &= !said.bytes || same(said.bytes, pieces[i].bytes, said.length);
        free(said.bytes);
    }
    return are_same;
}

/* The states absorb what each of them absorbs alone, or they all stay as they are. */
static void call_updates(state_t *S, const given *g, text unused) {
    const size_t count = strlen(part[1]), null = parse_messages();
    state_t *states = malloc(count * sizeof *states), *alone;
    vulfsjor_message *pieces = exact_copy_of(messages, count, sizeof *messages);
    int status = null < count ? -1 : 0;
    CHECK(message_count == count);
    for (size_t i = 0; i < count; i++) states[i] = *slots[part[1][i] - 'a'];
    alone = exact_copy_of(states, count, sizeof *states);
    for (size_t i = 0; i < count; i++) status |= BLAKE(update)(&alone[i], TEXT(pieces[i]));
    if (status) memcpy(alone, states, count * sizeof *states);
    for (size_t i = 0; i < count; i++) expect_one_wrong_piece_refused(states, count, i, !status);
    expect_wrong_lists_refused(states, pieces, count);
    set_status(BLAKE(update_many)(states, pieces, count));
    CHECK(!*got == !status && same(states, alone, count * sizeof *states) && are_pieces_of_line(pieces));
    for (size_t i = 0; i < count; i++) *slots[part[1][i] - 'a'] = states[i];
    free(states), free(alone), free(pieces);
    free_messages();
}
#endif

static void call_wipe(state_t *S, const given *g, text unused) {
    BLAKE(wipe)(NULL);
    BLAKE(wipe)(S);
}

/* A number of a state, which is 0 after the end. */
static void call_number(state_t *S, const given *g, text unused) {
    const uint64_t number = IS("left") ? output_bytes_left(S) : BLAKE(count)(S);
    CHECK(!BLAKE(count)(NULL) && !output_bytes_left(NULL));
#ifdef TEST_T
    CHECK(!vulfsjor_tree_leaf_length(NULL));
#endif
    if (is_ended(S)) set_refusal("");
    else sprintf(got, "= %llu", (unsigned long long)number);
    CHECK(!is_ended(S) || !number);
}

static int change_state(state_t *S, text t) {
#ifndef TEST_T
    if (IS("reset")) return BLAKE(reset)(S);
#endif
#ifdef TEST_NODES
    if (IS("last")) return BLAKE(set_last_node)(S, flag_of(*part[2] == '1'));
#endif
    return BLAKE(update)(S, TEXT(t));
}

static void call_change(state_t *S, const given *g, text t) {
    const uint64_t count = BLAKE(count)(S);
    CHECK(change_state(NULL, t) == -1);
    set_status(change_state(S, t));
    CHECK(*got || BLAKE(count)(S) == (IS("reset") ? 0 : IS("last") ? count : count + t.length));
}

#if !defined(TEST_T) && !defined(TEST_X)
static void call_verify(state_t *S, const given *g, text t) {
    uint8_t wanted[MAX];
    size_t n = BLAKE(digest_size)(S);
    state_t copy = *S;
    CHECK_64(COMPARED(BLAKE(verify)(&copy, t.bytes, t.length + TWO_TO(32))) == -1);
    CHECK(BLAKE(verify)(NULL, TEXT(t)) == -1 && BLAKE(verify_short_mac)(NULL, TEXT(t)) == -1);
    int is_ready = n && (t.bytes || !t.length), status;
    state_t other = copy = *S;
    status = COMPARED(BLAKE(verify_short_mac)(S, TEXT(t)));
    /* The other is the same, or refuses a short digest, and changes nothing. */
    CHECK(COMPARED(BLAKE(verify)(&other, TEXT(t))) == (n < LEAST_TAG ? -1 : status));
    CHECK(same(&other, n < LEAST_TAG ? &copy : S, sizeof other));
    if (is_ready && !has_key[*part[1] - 'a']) {
        CHECK(status == -1 && !write_output(S, wanted, n));
        status = t.length != n || !same(wanted, t.bytes, n);
    }
    if (is_ready) set_yes_or_no(!status);
    else set_status(status);
}
#endif

#ifdef TEST_T
/* ---- ranges of leaves */

/* Leaves or a root, which the state of a node has too, if it is one. Its refused init leaves zeros. */
static void call_range(state_t *S, const given *g, text t) {
    const size_t n = IS("leaves") ? 64 : g->size;
    vulfsjor_blake2b_state node;
    uint8_t digest[64], written[64];
    int status;
    if (IS("top")) CHECK(write_bytes(S, g, (text){NULL, 64}, digest, n) == -1);
    call_that_writes_bytes(S, g, t);
    for (int i = 1; i < 3; i++) { /* a null salt, and a null personalization */
        const given wrong = with_wrong_text(g, i);
        CHECK(vulfsjor_tree_init_leaf(&node, 0, 0, TEXT(wrong.salt), TEXT(wrong.person), 1) == -1);
        CHECK(vulfsjor_tree_init_root(&node, 64, TEXT(wrong.salt), TEXT(wrong.person), 1) == -1);
    }
    memset(&node, 0x5a, sizeof node);
    status = IS("leaves") ? vulfsjor_tree_init_leaf(&node, strtoull(part[2], NULL, 10), flag_of(*part[3] == '1'),
                                                    TEXT(g->salt), TEXT(g->person), g->tree.leaf_length)
                          : vulfsjor_tree_init_root(&node, n, TEXT(g->salt), TEXT(g->person), g->tree.leaf_length);
    CHECK(status == -(*refused_argument(g) != 0) && (!status || is_zero(&node, sizeof node)));
    CHECK(vulfsjor_tree_init_leaf(NULL, 0, 0, NULL, 0, NULL, 0, 1) == -1);
    CHECK(vulfsjor_tree_init_root(NULL, 64, NULL, 0, NULL, 0, 1) == -1);
    if (status || *got != '=' || strlen(got) != 2 + 2 * n) return;
    CHECK(!vulfsjor_blake2b_update(&node, TEXT(t)) && !vulfsjor_blake2b_final(&node, digest, n));
    CHECK(!vulfsjor_hex2bin(written, n, got + 2, 2 * n) && same(digest, written, n));
}

static void call_absorb(state_t *S, const given *g, text whole) {
    text more = secret_of(part[3]);
    uint64_t leaf = vulfsjor_tree_leaf_length(S), count = vulfsjor_tree_count(S);
    size_t n = leaf ? 64 * (size_t)(whole.length / leaf) : 0;
    uint8_t *out = marked_room_of(n);
    int status = n ? vulfsjor_tree_leaves_ahead(S, out, n, 0, TEXT(whole)) : 0;
    CHECK(vulfsjor_tree_update_leaves(NULL, out, n, TEXT(more)) == -1);
    if (n) CHECK(vulfsjor_tree_update_leaves(S, NULL, n, TEXT(more)) == -1);
    if (n) CHECK(vulfsjor_tree_update_leaves(S, out, n - 1, TEXT(more)) == -1);
    CHECK(vulfsjor_tree_update_leaves(S, out, n, NULL, 1) == -1);
    CHECK(vulfsjor_tree_update_leaves(S, NULL, 0, NULL, 0) == (is_ended(S) ? -1 : 0));
    status = status || vulfsjor_tree_update_leaves(S, n ? out : NULL, n, TEXT(more));
    CHECK(status || vulfsjor_tree_count(S) == count + whole.length + more.length);
    set_status(status);
    free(out), free(more.bytes);
}
#endif

/* ---- lines */

/* The calls, whether each has a state, and the word of its bytes, which are a secret; 0: it has none. */
static const struct row {
    const char *verb;
    void (*call)(state_t *, const given *, text);
    int has_state, bytes;
} rows[] = {
    {"new", call_new, 1, 0}, {"copy", call_copy, 1, 0}, {"wipe", call_wipe, 1, 0}, {"count", call_number, 1, 0},
    {"update", call_change, 1, 2}, {"hash", call_hash, 0, 2}, {"equal", call_equal, 0, 1},
#ifdef TEST_X
    {"left", call_number, 1, 0}, {"read", call_that_writes_bytes, 1, 0}, {"derive", call_derive, 0, 1},
#else
    {"digest", call_that_writes_bytes, 1, 0},
#endif
#ifdef TEST_T
    {"leaves", call_range, 0, 1}, {"top", call_range, 0, 1}, {"next", call_that_writes_bytes, 1, 3},
    {"absorb", call_absorb, 1, 2},
#else
    {"reset", call_change, 1, 0},
#endif
#if !defined(TEST_T) && !defined(TEST_X)
    {"verify", call_verify, 1, 2},
#endif
#ifdef TEST_NODES
    {"many", call_many, 0, 0}, {"last", call_change, 1, 0}, {"skip", call_skip, 1, 0},
    {"save", call_save, 1, 0}, {"load", call_load, 1, 0}, {"updates", call_updates, 0, 0},
#endif
};

/* Makes the call of the line, and checks what holds of all calls of a state. */
static void make_call_of_line(void) {
    const struct row *row = rows, *const end = rows + COUNT_OF(rows);
#ifdef TEST_X /* the length that is not known is a number of C's */
    given g = read_given(UNKNOWN);
    if (IS("new") && g.size == UNKNOWN && value_of("size", "unknown")[0] != 'u') can = 0;
#else
    given g = read_given(MAX);
#endif
    *got = 0;
    while (row < end && !IS(row->verb)) row++;
    can &= row < end;
    if (can) {
        state_t *S = row->has_state ? slots[*part[1] - 'a'] : NULL, before;
        text t = {NULL, 0};
        if (row->bytes) t = secret_of(part[row->bytes]);
        if (S) before = *S;
        row->call(S, &g, t);
        if (S && *got == '!' && !IS("new") && !IS("load")) CHECK(same(S, &before, sizeof before));
        else if (can && (IS("digest") || IS("verify") || IS("wipe"))) CHECK(is_ended(S) && !output_bytes_left(S));
        free(t.bytes);
    }
    free_given(&g);
}

/* Whether the numbers are those of the file; one that is not in the list has to be run whole, but for secrets. With
 * TEST_SOME, of a part of a file, there are some. */
static int are_counts_as_expected(const char *file, int cases, int skipped) {
#ifdef TEST_SOME
    return cases > 100 && skipped < cases / 8;
#endif
    for (size_t i = 0; i < sizeof files / sizeof *files; i++)
        if (strstr(file, HASH ".txt") && !strcmp(files[i].hash, HASH))
            return cases == files[i].cases &&
                   skipped == (sizeof(size_t) == 8 ? files[i].skipped : files[i].skipped_on_32);
#ifdef TEST_SECRETS
    return cases > 9 && VALGRIND_COUNT_ERRORS == allowed;
#endif
    return cases > 20 && !skipped;
}

int main(int argc, char **argv) {
    for (int i = 0; i < 26; i++) slots[i] = calloc(1, sizeof(state_t));
#ifdef TEST_SECRETS
    if (argc > 1 && !strcmp(argv[1], "leaks")) return check_memcheck_reports_leaks();
    check_hex_of_secret_key();
#endif
    const counts made = run_cases(argc > 1 ? argv[1] : "", make_call_of_line);
    for (int i = 0; i < 26; i++) free(slots[i]);
    printf("%s: %d cases, of which C skips %d; %d calls, %d failures\n", HASH, made.cases, made.skipped, made.calls,
           fails);
    return fails != 0 || !are_counts_as_expected(argv[1], made.cases, made.skipped);
}
