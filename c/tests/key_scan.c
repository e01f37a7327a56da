/* Looks for copies of a key once a keyed call of vulfsjor.h has returned: for each piece of 4 bytes
 * of it, in 64 KiB of the dead stack below the caller, and if the library chooses its build for
 * x86-64-v4 also in the vector registers zmm16 to zmm31, which that build clears. Prints for each
 * call how many were found, the largest number over messages of several lengths. A call that leaves
 * one fails. So does a state that is not zero after final, verify, wipe and an init that is refused,
 * and a search that misses a copy which is put there for it to find. For BLAKE2X it looks for the
 * root hash and the first block of the output too. Returns 0 if none failed.
 *
 *   cc -std=gnu99 -O2 -Wl,-z,now -I FOLDER/include key_scan.c ARCHIVE -o key_scan     for BLAKE2b
 *   cc the same with words of family.h                                              for the others
 *   cc the same with -DLIBB2_NAMES and ARCHIVE-libb2                                the calls by libb2's names
 *
 * With -z now no call goes by the dynamic linker, which would save vector registers on the
 * stack. */
#define SAY_MORE() fprintf(stderr, "  message of %zu bytes\n", length)
#include "check.h"
#include "family.h"

#ifdef LIBB2_NAMES
#include <blake2.h>
#undef BLAKE
#define BLAKE(name) PLAIN(name)
#define state_t PLAIN(state)
#endif

enum { DEPTH = 64 * 1024, PIECE = 4, LONGEST = 1000, ROOM = (LANES + 1) * MAX };

/* The length of a digest or of an output, and of what is looked for: the key, and behind it for
 * BLAKE2X the root hash and the first block of the output. */
#ifdef TEST_X
enum { SIZE = ROOM, NO_SIZE = 0, SECRETS = 3 * MAX };
#else
enum { SIZE = MAX, NO_SIZE = MAX + 1, SECRETS = MAX };
#endif

/* What the calls are given, none of it on the stack. */
static uint8_t key[SECRETS], message[LONGEST], tag[MAX], wrong[MAX], out[ROOM];
static state_t state;
static vulfsjor_message messages[LANES + 1];
static size_t length;

/* What was on the dead stack, and behind it what was in the registers zmm16 to zmm31, or zeros. */
static uint8_t stack[DEPTH + 16 * 64];

/* ---- What goes before a call. */

static void do_nothing(void) {}

static void init_keyed_state(void) { CHECK(!BLAKE(init_key)(&state, SIZE, key, MAX)); }

static void init_and_update(void) {
    init_keyed_state();
    CHECK(!BLAKE(update)(&state, message, length));
}

#ifdef TEST_X
/* How many bytes of the output have been read, and how many are then. */
static size_t bytes_read = MAX, asked;

static void init_and_squeeze(void) {
    init_and_update();
    CHECK(!bytes_read || !BLAKE(squeeze)(&state, out, bytes_read));
}

static void init_read_and_reset(void) {
    init_and_squeeze();
    CHECK(!BLAKE(reset)(&state));
}
#endif

/* ---- Calls of which bench/key_remains.c makes some too. Each returns 0 if its status is the expected one. */

#define CALL(name, wrong) \
    static int name(void) { return wrong; }

CALL(call_init_key, BLAKE(init_key)(&state, SIZE, key, MAX))
CALL(call_update, BLAKE(update)(&state, message, length))
#ifndef TEST_X
CALL(call_final, BLAKE(final)(&state, out, MAX))
#endif
#ifdef LIBB2_NAMES
CALL(call_one_call, PLAIN_ONE_CALL(out, message, key, MAX, length, MAX))
#else
CALL(call_one_call, ONE_CALL(out, SIZE, message, length, key, MAX))
#endif
#if !defined(LIBB2_NAMES) && !defined(TEST_X) && !defined(TEST_P)
#define TEST_NODES
static vulfsjor_tree tree = {3, 4096, 2, 2, 0, MAX}, no_tree = {3, 4096, 2, 0, 0, MAX};
static uint8_t saved[CONSTANT(SAVEDBYTES)]; /* a state without a key */

/* States that absorb in one call, and the number of the one whose key's block is pending, or of states: in all. */
static state_t several[LANES + 1];
static size_t states, keyed;

static void init_several_states(void) {
    for (size_t i = 0; i < states; i++)
        CHECK(!(i == keyed || keyed == states ? BLAKE(init_key)(&several[i], MAX, key, MAX)
                                              : BLAKE(init)(&several[i], MAX)));
}

/* The last of them is not ready. */
static void init_all_states_but_last(void) {
    init_several_states();
    several[states - 1].output_size = 0;
}

#define MANY(count) BLAKE(many)(out, MAX, messages, count, key, MAX, 0, 0, 0, 0)
CALL(call_many_one, MANY(1))
CALL(call_many_four, MANY(4))
CALL(call_many_lanes, MANY(LANES))
CALL(call_many_more, MANY(LANES + 1))
#define REFUSED(...) BLAKE(refused)(__VA_ARGS__, &no_tree)
#else
#define REFUSED(...) BLAKE(refused)(__VA_ARGS__)
#endif

/* ---- The search. */

/* Fills the stack below, so that what is found there is of the call. */
static __attribute__((noinline)) void fill_stack(void) {
    volatile uint8_t bytes[2 * DEPTH];

    for (size_t i = 0; i < sizeof bytes; i++) bytes[i] = 0x55;
}

/* Copies the registers zmm16 to zmm31, and sets the first and the last of them. */
static int has_upper;
#ifdef __x86_64__
static uint8_t wide[64];
extern unsigned char vulfsjor_ffi_level __attribute__((weak, visibility("hidden")));
static int fill_registers_with_key(void) {
    __asm__ volatile("vmovdqu64 (%0), %%zmm16\nvmovdqu64 (%0), %%zmm31" : : "r"(wide));
    return 0;
}
static inline __attribute__((always_inline)) void keep_registers(void) {
    __asm__ volatile(".irp n, 16, 17, 18, 19, 20, 21, 22, 23, 24, 25, 26, 27, 28, 29, 30, 31\n"
                     "vmovdqu64 %%zmm\\n, 64 * (\\n - 16)(%0)\n"
                     ".endr" : : "r"(stack + DEPTH) : "memory");
}
#else
static void keep_registers(void) {}
#endif

/* Makes the call, and copies the stack below this frame before anything else, without a call. */
static __attribute__((noinline)) int call_and_copy_stack(int (*call)(void)) {
    int status = call();
    const volatile uint8_t *from = (const uint8_t *)__builtin_frame_address(0) - DEPTH;
    volatile uint8_t *to = stack;

    for (size_t i = 0; i < DEPTH; i++) to[i] = from[i];
    if (has_upper) keep_registers();
    return status;
}

/* How many pieces of the key, and of what is behind it, are the bytes here. */
static int count_key_pieces_at(const uint8_t *here) {
    int found = 0;

    for (size_t piece = 0; piece < SECRETS; piece += PIECE)
        found += !memcmp(here, key + piece, PIECE);
    return found;
}

/* Counts the copies of pieces in `stack`. Most bytes there begin none. */
static int count_key_pieces_on_stack(void) {
    uint8_t begins[256] = {0};
    int found = 0;

    for (size_t piece = 0; piece < SECRETS; piece += PIECE) begins[key[piece]] = 1;
    for (size_t at = 0; at + PIECE <= sizeof stack; at++)
        if (begins[stack[at]]) found += count_key_pieces_at(stack + at);
    return found;
}

static int count_key_pieces_after_call(void (*before)(void), int (*call)(void)) {
    before();
    fill_stack();
    CHECK(!call_and_copy_stack(call));
    return count_key_pieces_on_stack();
}

/* ---- Copies to be found. */

/* Copies the first `copied` bytes of the key into its frame, and behind them a byte that is not the
 * key's. That one ends `place` bytes below the end of `frame`. */
static size_t place, copied;
static __attribute__((noinline)) int leave_key_copy_on_stack(void) {
    uint8_t frame[DEPTH - 256], *behind = frame + sizeof frame - place - 1;

    memcpy(behind - copied, key, copied);
    *behind = (uint8_t)~key[copied % SECRETS];
    __asm__ volatile("" : : "r"(frame) : "memory");
    return 0;
}

static void check_scan_finds_stack_copies(void) {
    static const size_t places[] = {0, 1, 7, 4096, 32 * 1024, DEPTH - 257 - SECRETS};

    for (size_t i = 0; i < COUNT_OF(places); i++)
        for (place = places[i], copied = 0; copied <= SECRETS; copied++)
            CHECK(count_key_pieces_after_call(do_nothing, leave_key_copy_on_stack) == (int)(copied / PIECE));
}

/* ---- All. */

#ifdef TEST_X
/* Sets what is looked for besides the key: the root hash, which is a digest under the key at the
 * node offset that has the length of the output in its upper bits, and a block of the output. */
static void compute_secrets_to_find(void) {
    static const vulfsjor_tree root_place = {(uint64_t)SIZE << 32, 0, 1, 1, 0, 0};
    SEQUENTIAL(state) root;

    CHECK(!SEQUENTIAL(init_tree)(&root, MAX, key, MAX, NULL, 0, NULL, 0, &root_place));
    CHECK(!SEQUENTIAL(update)(&root, message, length) && !SEQUENTIAL(final)(&root, key + MAX, MAX) && !call_one_call());
    memcpy(key + 2 * MAX, out, MAX);
    init_and_update();
    CHECK(!BLAKE(squeeze)(&state, out, MAX) && !memcmp(state.reader.root, key + MAX, MAX));
}
#endif

/* Sets the length of the message of all calls. */
static void set_message_length(size_t bytes) {
    length = bytes;
#ifdef TEST_X
    compute_secrets_to_find();
#endif
    for (size_t i = 0; i < LANES; i++) messages[i] = (vulfsjor_message){message, length};
    messages[LANES] = (vulfsjor_message){message, length / 2};
    CHECK(!ONE_CALL(tag, MAX, message, length, key, MAX));
    memcpy(wrong, tag, MAX);
    wrong[MAX - 1] ^= 1;
}

/* Copies in the registers, of which each call clears those that it uses. It is a call itself:
 * inside main it would leave the key in registers that calls save on Windows. */
static __attribute__((noinline)) void check_scan_finds_register_copies(void) {
#ifdef __x86_64__
    set_message_length(0);
    has_upper = &vulfsjor_ffi_level != NULL && vulfsjor_ffi_level == 4;
    memcpy(wide, key, MAX);
    if (!has_upper) return;
    CHECK(count_key_pieces_after_call(do_nothing, fill_registers_with_key) == 2 * MAX / PIECE);
    __asm__ volatile("vpxord %xmm16, %xmm16, %xmm16\nvpxord %xmm31, %xmm31, %xmm31");
#endif
}

/* Makes the call of a row below, by the number of its line, over messages of several lengths. */
static int rows(int line);
static int line_of_row;
static int call_row(void) { return rows(line_of_row); }

static void try_row(int line, const char *name, void (*before)(void), int wipes) {
    static const size_t lengths[] = {0,   1,   BLOCK - 1, BLOCK, BLOCK + 1, 2 * BLOCK,
                                     384, 385, LONGEST};
    const int before_it = fails;
    int greatest = 0;

    line_of_row = line;
    for (size_t i = 0; i < COUNT_OF(lengths); i++) {
        int found;

        set_message_length(lengths[i]);
        found = count_key_pieces_after_call(before, call_row);
        if (found > greatest) greatest = found;
        CHECK(!wipes || is_zero(&state, sizeof state));
    }
    fails += greatest > 0;
    printf("%s: %s: %d pieces\n", fails > before_it ? "FAILED" : "passed", name, greatest);
}

#if !defined(LIBB2_NAMES) && !defined(TEST_X)
/* A copy of the key in a frame that is then dead, and one by its digits. */
__attribute__((noinline)) static int call_wipe_bytes(void) {
    uint8_t copy[MAX];
    int status;

    memcpy(copy, key, MAX);
    status = BLAKE(init_key)(&state, MAX, copy, MAX);
    vulfsjor_wipe(copy, MAX);
    return status;
}

__attribute__((noinline)) static int call_hexadecimal(void) {
    static char digits[2 * MAX + 1];
    uint8_t copy[MAX];
    int status = vulfsjor_bin2hex(digits, sizeof digits, key, MAX) ||
                 vulfsjor_hex2bin(copy, MAX, digits, 2 * MAX) || memcmp(copy, key, MAX);

    vulfsjor_wipe(copy, MAX);
    return status;
}
#endif

/* A row: what it is, what goes before the call, whether that leaves the state zero, and the call, which is 0 if its
 * status is the expected one. */
#define ROW(name, before, wipes, wrong)                          \
    do {                                                         \
        if (line == __LINE__) return wrong;                      \
        if (!line) try_row(__LINE__, name, before, wipes);       \
    } while (0)

/* Makes the call of the row in this line, or if that is 0 tries each row. */
static int rows(int line) {
#ifndef LIBB2_NAMES
    static uint8_t salt[2 * MAX];
#endif

    ROW("init_key", do_nothing, 0, call_init_key());
    ROW("init_key, refused for its length", init_keyed_state, 1, !BLAKE(init_key)(&state, NO_SIZE, key, MAX));
    ROW("the hash in one call", do_nothing, 0, call_one_call());
    ROW("update", init_keyed_state, 0, call_update());
    ROW("update, after an update", init_and_update, 0, call_update());
#ifndef TEST_X
    ROW("final", init_and_update, 1, call_final());
#endif
#ifndef LIBB2_NAMES
    ROW("init_salt_personal with a key", do_nothing, 0,
        BLAKE(init_salt_personal)(&state, SIZE, key, MAX, salt, MAX / 4, salt, MAX / 4));
    /* Not by the header, which sets the state to zero before. */
    ROW("init_salt_personal, refused for its salt", init_keyed_state, 1,
        !LIBRARY(init_salt_personal)(&state, SIZE, key, MAX, salt, MAX / 4 + 1, salt, 0));
    ROW("reset", init_and_update, 0, BLAKE(reset)(&state));
    ROW("wipe", init_and_update, 1, (BLAKE(wipe)(&state), 0));
#ifdef TEST_X
    ROW("derive_key", do_nothing, 0, BLAKE(derive_key)(out, SIZE, key, MAX, message, length));
    ROW("squeeze, refused for its length", init_and_squeeze, 0, !BLAKE(squeeze)(&state, out, SIZE));
    ROW("update, refused after a squeeze", init_and_squeeze, 0, !BLAKE(update)(&state, message, length));
    ROW("reset, after a squeeze", init_and_squeeze, 0, BLAKE(reset)(&state));
    ROW("update, after a squeeze and a reset", init_read_and_reset, 0, BLAKE(update)(&state, message, length));
    ROW("wipe, after a squeeze", init_and_squeeze, 1, (BLAKE(wipe)(&state), 0));
    for (size_t i = 0; i < 12; i++) {
        static const size_t lengths[] = {0, 7, MAX, LANES * MAX};
        static char name[100];

        if (!line) bytes_read = lengths[i / 4], asked = lengths[i % 4];
        if (!line) snprintf(name, sizeof name, "squeeze, %zu bytes after %zu", asked, bytes_read);
        ROW(name, init_and_squeeze, 0, BLAKE(squeeze)(&state, out, asked));
    }
#else
    ROW("verify, a right tag", init_and_update, 1, BLAKE(verify)(&state, tag, MAX));
    ROW("verify, a wrong tag", init_and_update, 1, !BLAKE(verify)(&state, wrong, MAX));
    ROW("verify, a tag of another length", init_and_update, 1, !BLAKE(verify)(&state, tag, MAX - 1));
    ROW("vulfsjor_wipe of a copy of the key", do_nothing, 0, call_wipe_bytes());
    ROW("vulfsjor_bin2hex and vulfsjor_hex2bin of the key", do_nothing, 0, call_hexadecimal());
    ROW("which argument of a keyed call is refused, a null salt", do_nothing, 0,
        REFUSED(MAX, key, MAX, NULL, 1, NULL, 0) != VULFSJOR_ARGUMENT_SALT);
#ifdef TEST_NODES
    ROW("which argument of a keyed call is refused, its last", do_nothing, 0,
        REFUSED(MAX, key, MAX, salt, 1, salt, 1) != VULFSJOR_ARGUMENT_DEPTH);
    ROW("init_tree with a key", do_nothing, 0,
        BLAKE(init_tree)(&state, MAX, key, MAX, salt, MAX / 4, salt, MAX / 4, &tree));
    ROW("init_tree, refused for its depth", init_keyed_state, 1,
        !BLAKE(init_tree)(&state, MAX, key, MAX, salt, 0, salt, 0, &no_tree));
    ROW("many, one message", do_nothing, 0, call_many_one());
    ROW("many, four messages", do_nothing, 0, call_many_four());
    ROW("many, as many as are hashed at once", do_nothing, 0, call_many_lanes());
    ROW("many, one more, of another length", do_nothing, 0, call_many_more());
    for (size_t i = 0; i < 10; i++) {
        static const size_t counts[] = {1, 3, 4, 4, LANES, LANES, LANES, LANES, LANES + 1, LANES + 1},
                            places[] = {0, 2, 0, 4, 0, 3, LANES - 1, LANES, LANES, LANES + 1};
        static char name[100];

        if (!line) states = counts[i], keyed = places[i];
        if (!line) snprintf(name, sizeof name, "update_many, %zu states, key in %zu (%zu: all)", states, keyed, states);
        ROW(name, init_several_states, 0, BLAKE(update_many)(several, messages, states));
        ROW("update_many, refused for the last of these", init_all_states_but_last, 0,
            !BLAKE(update_many)(several, messages, states));
    }
    ROW("set_last_node", init_and_update, 0, BLAKE(set_last_node)(&state, 1));
    ROW("save, refused for the key", init_keyed_state, 0, !BLAKE(save)(&state, saved));
    ROW("save, refused for the key, after an update", init_and_update, 0, !BLAKE(save)(&state, saved));
    /* Not by the header, which sets the state to zero before. */
    ROW("load over a keyed state, refused", init_and_update, 1, !LIBRARY(load)(&state, saved, sizeof saved - 1));
    ROW("load over a keyed state", init_and_update, 0,
        LIBRARY(load)(&state, saved, sizeof saved) || !is_zero(state.key, sizeof state.key));
#else
    ROW("which argument of a keyed call is refused, its last", do_nothing, 0,
        REFUSED(MAX, key, MAX, salt, MAX / 4, salt, MAX) != VULFSJOR_ARGUMENT_PERSONAL);
#endif
#endif
#endif
    return 0;
}

int main(void) {
    /* No piece begins with 0x55, of which the stack is full. */
    for (size_t i = 0; i < MAX; i++) key[i] = (uint8_t)(0xA6 ^ (i * 37) ^ (i * i));
    for (size_t i = 0; i < LONGEST; i++) message[i] = (uint8_t)(i * 11 + 3 + (i >> 4) * 5);
    set_message_length(0);
#ifdef TEST_NODES
    CHECK(!BLAKE(init)(&state, MAX) && !BLAKE(update)(&state, message, 9) && !BLAKE(save)(&state, saved));
#endif
    check_scan_finds_stack_copies();
    check_scan_finds_register_copies();
    rows(0);
    return fails != 0;
}
