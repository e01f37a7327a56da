/* Tests what C has to hash a tree in parts beyond the calls of the conformance cases: counts of leaves, plans and their
 * parts, what is refused of them, and each number of a plan changed. Returns 0 if all is as it should be.
 *
 *   cc -std=c99 -Wall -Wextra -Wpedantic -Werror -I FOLDER/include tree_parts.c ARCHIVE -o tree_parts
 *   ./tree_parts [TURNS]        TURNS is how many random messages are planned, 20,000 without it */
#include "vulfsjor.h"
#include "check.h"

#include <stdlib.h>

static const uint64_t top = (uint64_t)1 << 58; /* the end of the longest message */

static uint8_t message[1000];

static void check_leaf_counts(void) {
    static const uint32_t sizes[] = {1, 2, 3, 64, 65536, 0x7fffffff, 0x80000000, UINT32_MAX};
    static const uint64_t lengths[] = {0, 1, 3, 1000, 1u << 26, (uint64_t)3 << 32, UINT64_MAX - 1};

    for (size_t i = 0; i < COUNT_OF(sizes) * COUNT_OF(lengths); i++) {
        const uint64_t leaf = sizes[i % COUNT_OF(sizes)], some = lengths[i / COUNT_OF(sizes)], whole = some - some % leaf;
        for (uint64_t step = whole ? 0 : 1; step < 3; step++) {
            const uint64_t length = whole + step - 1, count = length / leaf + (length % leaf > 0);
            CHECK(vulfsjor_tree_leaf_count(length, (uint32_t)leaf) == (count ? count : 1));
        }
        CHECK(!vulfsjor_tree_leaf_count(some, 0));
    }
}

/* ---- plans */

/* A state of a tree that has absorbed this many bytes. */
static vulfsjor_tree_state tree_after_absorbing(uint32_t leaf, size_t bytes) {
    vulfsjor_tree_state state;

    CHECK(!vulfsjor_tree_init(&state, 64, "na", 2, "pers", 4, leaf) && !vulfsjor_tree_update(&state, message, bytes));
    return state;
}

/* Whether a plan is as the comment on vulfsjor_plan says. */
static int is_plan_as_documented(const vulfsjor_plan *p) {
    const uint64_t all = p->end - p->start;
    uint64_t parts;

    if (!p->leaf_length || p->leaf_length > UINT32_MAX) return 0;
    if (!p->part_length || p->part_length % p->leaf_length) return 0;
    if (p->start > p->end || all >= top || p->ends > 1) return 0;
    parts = all / p->part_length + (all % p->part_length > 0);
    if (parts < p->ends) parts = p->ends;
    if (p->part_count != parts || p->threads > parts || (parts && !p->threads)) return 0;
    if (p->digests_length != (parts ? 64 * (all ? (all - 1) / p->leaf_length + 1 : 1) : 0)) return 0;
    if (p->ends) return !p->rest_length;
    return p->start < p->leaf_length && all % p->leaf_length == 0 && p->rest_length <= p->leaf_length &&
           (!all || p->rest_length) && p->end < top && p->rest_length < top - p->end;
}

/* The parts of a plan are next to each other, from leaf 0 on, and so are their digests; the last ends the message if
 * the plan does. */
static void check_parts_are_adjacent(const vulfsjor_plan *plan) {
    uint64_t at = plan->start, digests = 0;
    vulfsjor_part part;

    CHECK(is_plan_as_documented(plan));
    for (uint64_t i = 0; i < plan->part_count; i++) {
        const int is_last = i + 1 == plan->part_count;
        CHECK(!vulfsjor_tree_part(&part, plan, i));
        CHECK(part.start == at && part.digests_start == digests && part.first == digests / 64);
        CHECK(part.digests_length == 64 * vulfsjor_tree_leaf_count(part.length, (uint32_t)plan->leaf_length));
        CHECK(part.ends == (is_last && plan->ends) && (is_last || part.length == plan->part_length));
        at += part.length, digests += part.digests_length;
    }
    CHECK(at == plan->end && digests == plan->digests_length);
}

/* Plans of random messages that begin at byte 3, and of updates of a state that has absorbed some bytes. */
static void check_random_plans(int turns) {
    for (int turn = 0; turn < turns; turn++) {
        const uint32_t size = (uint32_t)(1 + random_below(turn % 5 ? 300 : 5));
        const uint64_t length = random_below(turn % 7 ? 1500 : 20), count = vulfsjor_tree_leaf_count(length, size);
        const vulfsjor_limits limits = {1 + random_below(9), 1 + random_below(99), random_below(999),
                                        random_below(2000)};
        const size_t first = random_below(300), left = (size - first % size) % size;
        vulfsjor_tree_state state = tree_after_absorbing(size, first);
        uint64_t asked = length / limits.least_bytes;
        vulfsjor_plan plan;

        if (!asked) asked = 1;
        if (asked > limits.threads) asked = limits.threads;
        CHECK(!vulfsjor_tree_plan(&plan, 3, length, size, &limits) && plan.start == 3 && plan.end == 3 + length);
        CHECK(plan.digests_length == 64 * count && (plan.part_length <= limits.most_bytes || plan.part_length == size));
        CHECK(plan.part_length % (4 * size) == 0 || 4 * size > limits.most_bytes || count < 4 * asked);
        check_parts_are_adjacent(&plan);
        CHECK(!vulfsjor_tree_plan_update(&plan, &state, length, &limits) && plan.end + plan.rest_length == length);
        CHECK(!plan.part_count || (plan.start == left && !plan.ends));
        check_parts_are_adjacent(&plan);
    }
}

/* What writes no plan or part. */
#define NO_PLAN(call) CHECK((call) == -1 && SAME(plan, kept))
#define NO_PART(call) CHECK((call) == -1 && SAME(part, kept_part))

static void check_refused_plans(void) {
    static const vulfsjor_limits good = {2, 1, 8, 8}, no_threads = {0, 1, 8, 8}, no_least = {2, 0, 8, 8};
    const vulfsjor_limits *const wrong[] = {&no_threads, &no_least, NULL};
    vulfsjor_tree_state state = tree_after_absorbing(4, 5), none = {0};
    vulfsjor_plan plan = {1, 2, 3, 4, 5, 6, 7, 8, 9}, kept = plan;
    vulfsjor_part part = {1, 2, 3, 4, 5, 6}, kept_part = part;

    for (size_t i = 0; i < 3; i++) {
        NO_PLAN(vulfsjor_tree_plan(&plan, 0, 9, 4, wrong[i]));
        NO_PLAN(vulfsjor_tree_plan_update(&plan, &state, 9, wrong[i]));
    }
    NO_PLAN(vulfsjor_tree_plan(&plan, 0, 9, 0, &good));
    NO_PLAN(vulfsjor_tree_plan(&plan, 0, top, 4, &good));
    NO_PLAN(vulfsjor_tree_plan(&plan, UINT64_MAX - 8, 9, 4, &good));
    NO_PLAN(vulfsjor_tree_plan_update(&plan, &none, 9, &good));
    NO_PLAN(vulfsjor_tree_plan_update(&plan, NULL, 9, &good));
    NO_PLAN(vulfsjor_tree_plan_update(&plan, &state, top - 5, &good));
    CHECK(vulfsjor_tree_plan(NULL, 0, 9, 4, &good) == -1 && vulfsjor_tree_plan_update(NULL, &state, 9, &good) == -1);
    NO_PART(vulfsjor_tree_part(&part, &plan, 0)); /* no call made it */
    CHECK(!vulfsjor_tree_plan(&plan, UINT64_MAX - 9, 9, 4, &good));
    NO_PART(vulfsjor_tree_part(&part, &plan, plan.part_count));
    NO_PART(vulfsjor_tree_part(&part, NULL, 0));
    CHECK(vulfsjor_tree_part(NULL, &plan, 0) == -1 && !vulfsjor_tree_plan_update(&plan, &state, top - 6, &good));
}

/* A part of the plan with these numbers is refused if they are no plan's: if not, its digests have room. */
static void check_part_of_plan_numbers(const uint64_t *numbers) {
    vulfsjor_plan plan;
    vulfsjor_part first, last;
    int status;

    memcpy(&plan, numbers, sizeof plan);
    status = vulfsjor_tree_part(&first, &plan, 0);
    CHECK(status == (is_plan_as_documented(&plan) && plan.part_count ? 0 : -1));
    if (status) return;
    CHECK(!vulfsjor_tree_part(&last, &plan, plan.part_count - 1));
    CHECK(first.start == plan.start && last.start + last.length == plan.end);
    CHECK(first.digests_start == 0 && last.digests_start % 64 == 0);
    CHECK(last.digests_start + last.digests_length == plan.digests_length);
}

/* Each number of a plan changed to others, of which some leave a plan. */
static void check_changed_plans(void) {
    static const vulfsjor_limits limits = {3, 1, 16, 100};
    static const uint64_t rows[][2] = {{7, 41}, {0, 0}, {5, 4}}, updates[] = {50, 7, 3}; /* 3: no whole leaf */
    const uint64_t values[] = {0, 1, 2, 3, 4, 5, 64, UINT32_MAX, (uint64_t)1 << 32, top, UINT64_MAX - 1, UINT64_MAX};
    const uint64_t steps[] = {1, 4, 16, 64, (uint64_t)1 << 32, (uint64_t)1 << 63};
    enum { FIELDS = sizeof(vulfsjor_plan) / 8 };
    vulfsjor_tree_state state = tree_after_absorbing(4, 6);
    uint64_t numbers[FIELDS];
    vulfsjor_plan plan;

    for (size_t i = 0; i < 6 * FIELDS; i++) {
        const size_t row = i / FIELDS, field = i % FIELDS;
        CHECK(!(row < 3 ? vulfsjor_tree_plan(&plan, rows[row][0], rows[row][1], 4, &limits)
                        : vulfsjor_tree_plan_update(&plan, &state, updates[row - 3], &limits)));
        memcpy(numbers, &plan, sizeof plan);
        const uint64_t was = numbers[field];
        for (size_t k = 0; k < COUNT_OF(values); k++) numbers[field] = values[k], check_part_of_plan_numbers(numbers);
        for (size_t k = 0; k < COUNT_OF(steps); k++) {
            numbers[field] = was + steps[k], check_part_of_plan_numbers(numbers);
            numbers[field] = was - steps[k], check_part_of_plan_numbers(numbers);
        }
    }
}

int main(int count, char **words) {
    for (size_t i = 0; i < sizeof message; i++) message[i] = (uint8_t)(i % 251);
    check_leaf_counts();
    check_refused_plans();
    check_changed_plans();
    check_random_plans(count > 1 ? atoi(words[1]) : 20000);
    return fails ? 1 : 0;
}
