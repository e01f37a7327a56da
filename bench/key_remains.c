/* Makes keyed calls of vulfsjor.h, for bench/key_remains.sh, over the search of c/tests/key_scan.c:
 *
 *   key_remains           for each call a line: its number, its name, and how many pieces of the
 *                         key it leaves
 *   key_remains NUMBER    that call, in the function `counted`
 *   key_remains most      the largest number of pieces after a hash in one call, and after
 *                         `.._many` with one to nine messages, each over messages of 0 to 1,000
 *                         bytes */
#define main key_scan
#include "../c/tests/key_scan.c"
#undef main

#include <stdlib.h>

static int init_with_salt(void) {
    return BLAKE(init_salt_personal)(&state, MAX, key, MAX, NULL, 0, NULL, 0);
}

static int init_with_tree(void) {
    return BLAKE(init_tree)(&state, MAX, key, MAX, NULL, 0, NULL, 0, &tree);
}

static int call_verify(void) { return BLAKE(verify)(&state, tag, MAX); }

static void start_without_key(void) {
    CHECK(!BLAKE(init)(&state, MAX) && !BLAKE(update)(&state, message, 1));
}

static const struct {
    const char *name;
    int (*call)(void);
    void (*before)(void);
    size_t length;
} ROWS[] = {
    {"a hash in one call", call_one_call, do_nothing, 64},
    {"`.._init_salt_personal`", init_with_salt, do_nothing, 64},
    {"`.._init_key`", call_init_key, do_nothing, 64},
    {"`.._init_tree`", init_with_tree, do_nothing, 64},
    {"`.._many`, one message", call_many_one, do_nothing, 64},
    {"`.._many`, 4 messages", call_many_four, do_nothing, 64},
    {"`.._many`, 8 messages", call_many_lanes, do_nothing, 64},
    {"the first `.._update`, of 64 bytes", call_update, init_keyed_state, 64},
    {"the first `.._update`, of 1,000 bytes", call_update, init_keyed_state, 1000},
    {"`.._final` of an empty message", call_final, init_keyed_state, 0},
    {"`.._verify` of an empty message", call_verify, init_keyed_state, 0},
    {"an update of one byte without a key", call_update, start_without_key, 1},
};

/* The call of a row, whose instructions are counted. */
static __attribute__((noinline)) int counted(int (*call)(void)) {
    int status = call();

    __asm__ volatile("" : : : "memory");
    return status;
}

/* The larger of a number and the most pieces that a call leaves. */
static int most_key_pieces(int most, int (*call)(void)) {
    for (size_t bytes = 0; bytes <= LONGEST; bytes++) {
        int found;

        set_message_length(bytes);
        found = count_key_pieces_after_call(do_nothing, call);
        if (found > most) most = found;
    }
    return most;
}

int main(int count, char **words) {
    for (size_t i = 0; i < MAX; i++) key[i] = (uint8_t)(0xA5 ^ (i * 37) ^ (i * i));
    for (size_t i = 0; i < LONGEST; i++) message[i] = (uint8_t)(i * 11 + 3 + (i >> 4) * 5);
    if (count > 1 && !strcmp(words[1], "most")) {
        int many = most_key_pieces(most_key_pieces(0, call_many_one), call_many_four);

        many = most_key_pieces(most_key_pieces(many, call_many_lanes), call_many_more);
        printf("%d, %d\n", most_key_pieces(0, call_one_call), many);
    } else if (count > 1) {
        size_t row = (size_t)atoi(words[1]);

        set_message_length(ROWS[row].length);
        ROWS[row].before();
        CHECK(!counted(ROWS[row].call));
    } else {
        for (size_t row = 0; row < sizeof ROWS / sizeof *ROWS; row++) {
            set_message_length(ROWS[row].length);
            printf("%zu|%s|%d\n", row, ROWS[row].name,
                   count_key_pieces_after_call(ROWS[row].before, ROWS[row].call));
        }
    }
    return fails != 0;
}
