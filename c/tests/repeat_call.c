/* Makes the calls of a task TIMES times, so that their instructions can be counted: repeat_call TASK TIMES [SIZE]
 *
 * choosing.sh counts what the tasks with numbers need for dispatch. instruction_counts.sh counts those with names:
 *
 *   root            the root of a tree with leaves of 64 KiB over SIZE bytes
 *   leaves_at_once  SIZE leaves and one byte, given to a tree's state in one update
 *   leaves_in_turn  the same bytes, given leaf by leaf
 *   many_blake2b    SIZE messages of 8,192 bytes, in one call, and many_blake2s
 *   each_blake2b    the same messages, each in a call, and each_blake2s
 *   states_blake2b  SIZE states that absorb one of these messages each, in one call, and states_blake2s
 *   alone_blake2b   the same, each in a call, and alone_blake2s
 *
 * The status is 1 if a call was refused or there is no such task. */
#include "vulfsjor.h"

#include <stdlib.h>

enum { LEAF = 65536, MESSAGE = 8192, MOST = 16 };

static vulfsjor_blake2b_state b;
static vulfsjor_blake2s_state s;
static vulfsjor_tree_state t;
static uint8_t data[MOST * LEAF + 1], out[MOST * 64];
static vulfsjor_message messages[MOST];
static vulfsjor_blake2b_state several_b[MOST];
static vulfsjor_blake2s_state several_s[MOST];

/* Returns the status of the call of this task, or -1 if there is no such task. */
static int call_task(int task) {
    vulfsjor_tree node = {.depth = 2, .inner_length = 64};
    switch (task) {
        case 0: return vulfsjor_blake2b_update(&b, data, 1);
        case 1: return vulfsjor_blake2s_update(&s, data, 1);
        case 2: return vulfsjor_blake2b_init_tree(&b, 64, data, 32, data, 16, data, 16, &node);
        case 3: return vulfsjor_tree_root(out, 64, data, 256, 0, 0, 0, 0, 64);
        case 4: return vulfsjor_blake2b_update(&b, data, 256);
        case 5: return vulfsjor_blake2s_update(&s, data, 256);
        default: return -1;
    }
}

/* The messages one by one, by the function of this name, whose digests have so many bytes. */
#define EACH(name, size)                                                                                      \
    int status = 0;                                                                                           \
    for (size_t i = 0; i < count; i++) status |= name(out + i * size, size, messages[i].bytes, MESSAGE, 0, 0); \
    return status
static int each_blake2b(size_t count) { EACH(vulfsjor_blake2b, 64); }
static int each_blake2s(size_t count) { EACH(vulfsjor_blake2s, 32); }
static int many_blake2b(size_t count) { return vulfsjor_blake2b_many(out, 64, messages, count, 0, 0, 0, 0, 0, 0); }
static int many_blake2s(size_t count) { return vulfsjor_blake2s_many(out, 32, messages, count, 0, 0, 0, 0, 0, 0); }

/* States that absorb the messages one by one, by the function of this name. */
#define ALONE(name, states)                                                                               \
    int status = 0;                                                                                       \
    for (size_t i = 0; i < count; i++) status |= name(states + i, messages[i].bytes, messages[i].length); \
    return status
static int alone_blake2b(size_t count) { ALONE(vulfsjor_blake2b_update, several_b); }
static int alone_blake2s(size_t count) { ALONE(vulfsjor_blake2s_update, several_s); }
static int states_blake2b(size_t count) { return vulfsjor_blake2b_update_many(several_b, messages, count); }
static int states_blake2s(size_t count) { return vulfsjor_blake2s_update_many(several_s, messages, count); }

static int root(size_t length) { return vulfsjor_tree_root(out, 64, data, length, 0, 0, 0, 0, LEAF); }
static int leaves_at_once(size_t count) { return vulfsjor_tree_update(&t, data, count * LEAF + 1); }

/* A piece that ends with its leaf leaves nothing behind it, without which four leaves are not taken at once. */
static int leaves_in_turn(size_t count) {
    int status = 0;
    for (size_t i = 0; i < count; i++) status |= vulfsjor_tree_update(&t, data + i * LEAF, LEAF);
    return status | vulfsjor_tree_update(&t, data + count * LEAF, 1);
}

#define NAMED(task) {#task, task}
static const struct {
    const char *name;
    int (*call)(size_t);
} tasks[] = {NAMED(root), NAMED(leaves_at_once), NAMED(leaves_in_turn), NAMED(many_blake2b), NAMED(each_blake2b),
             NAMED(many_blake2s), NAMED(each_blake2s), NAMED(states_blake2b), NAMED(alone_blake2b),
             NAMED(states_blake2s), NAMED(alone_blake2s)};

int main(int count, char **words) {
    const int times = count > 2 ? atoi(words[2]) : 0;
    const size_t size = count > 3 ? strtoul(words[3], NULL, 10) : 0, all = sizeof tasks / sizeof *tasks;
    size_t named = 0;

    if (vulfsjor_blake2b_init(&b, 64) || vulfsjor_blake2s_init(&s, 32)) return 2;
    if (vulfsjor_tree_init(&t, 64, 0, 0, 0, 0, LEAF)) return 2;
    for (size_t i = 0; i < MOST; i++) {
        messages[i] = (vulfsjor_message){data + i * MESSAGE, MESSAGE};
        if (vulfsjor_blake2b_init(&several_b[i], 64) || vulfsjor_blake2s_init(&several_s[i], 32)) return 2;
    }
    while (named < all && count > 1 && strcmp(words[1], tasks[named].name)) named++;
    for (int i = 0; i < times; i++)
        if (named < all ? tasks[named].call(size) : call_task(atoi(words[1]))) return 1;
    return 0;
}
