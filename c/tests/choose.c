/* Tests ../choose.c with functions of this file instead of the builds, so that it sees which
 * level is chosen and which arguments are passed. choosing.sh compiles this file without
 * PROCESSOR and with it.
 *
 * It prints `begun`, and then the level that is chosen on this processor, 2 to 4: by the first call
 * and by a later one. If there is only the first line, the first call has ended the program.
 *
 * With PROCESSOR the processor is made up (fake_cpuid.h), and each bit that a level needs is
 * cleared separately. */
#ifdef PROCESSOR
#define CHOOSE_PROCESSOR "fake_cpuid.h"
#endif
#define CHOOSE_FUNCTIONS "functions.h"
#include "../choose.c"

#include "check.h"

#include <signal.h>
#include <stdint.h>
#include <string.h>
#include <sys/wait.h>

/* The sum of the arguments that a build was given, each multiplied by a different prime. The build
 * adds its level. A function of the library has at most eleven arguments. These have sixteen, six
 * of which are passed in registers. */
typedef unsigned long long number;
typedef uint32_t half;
#define PARAMETERS                                                                            \
    number a, number b, number c, number d, number e, number f, uint8_t g, uint8_t h, half i, \
        number j, uint8_t k, uint8_t l, number m, number n, number o, number p
static number weighted_sum(PARAMETERS) {
    return 2 * a + 3 * b + 5 * c + 7 * d + 11 * e + 13 * f + 17 * g + 19 * h + 23 * i + 29 * j +
           31 * k + 37 * l + 41 * m + 43 * n + 47 * o + 53 * p;
}
#define GIVEN a, b, c, d, e, f, g, h, i, j, k, l, m, n, o, p
number probe_arguments(PARAMETERS);

/* Whether the stack is as a function may take it to be: 8 beyond a multiple of 16. */
static int is_stack_aligned(void *frame) { return (uintptr_t)frame % 16 == 0; }
#define BUILD(level)                                                                                 \
    number probe_arguments_v##level(PARAMETERS) __asm__(IN_BUILD("probe_arguments", "v" #level));    \
    __attribute__((noinline)) number probe_arguments_v##level(PARAMETERS) {                          \
        return weighted_sum(GIVEN) + level;                                                          \
    }                                                                                                \
    int probe_v##level(void) __asm__(IN_BUILD("probe", "v" #level));                                 \
    __attribute__((noinline)) int probe_v##level(void) {                                             \
        return is_stack_aligned(__builtin_frame_address(0)) ? level : -level;                              \
    }
BUILD(2)
BUILD(3)
BUILD(4)
int probe(void);

/* The arguments arrive, by a call that asks and by one that does not. */
static void check_calls_pass_arguments(int level) {
    const number big = ~0ull - 6,
                 wanted = weighted_sum(big, 2, 3, 4, 5, big, 7, 8, 9, 10, 11, 12, big, 14, 15, 16) + level;

    for (int asked = 0; asked < 2; asked++) {
        if (!asked) vulfsjor_ffi_level = 0;
        CHECK(probe_arguments(big, 2, 3, 4, 5, big, 7, 8, 9, 10, 11, 12, big, 14, 15, 16) ==
              wanted);
        CHECK(vulfsjor_ffi_level == level);
    }
}

#ifdef PROCESSOR
/* The level that is chosen, by the function and by a call. */
static int level_chosen_by_call(void) {
    int found = level_of_processor();
    vulfsjor_ffi_level = 0;
    if (found) CHECK(probe() == found && vulfsjor_ffi_level == found && probe() == found);
    return found;
}

/* Below x86-64-v2 the first call writes this line to standard error, no other byte, and aborts. */
static void check_old_processor_aborts(void) {
    static const char line[] =
        "vulfsjor: this processor is below x86-64-v2, which the library needs\n";
    char said[2 * sizeof line];
    int ends[2], status;

    CHECK(!pipe(ends));
    if (!fork()) {
        dup2(ends[1], STDERR_FILENO);
        made_up.first = vulfsjor_ffi_level = 0;
        _exit(probe());
    }
    close(ends[1]);
    CHECK(wait(&status) > 0 && WIFSIGNALED(status) && WTERMSIG(status) == SIGABRT);
    CHECK(read(ends[0], said, sizeof said) == sizeof line - 1 &&
          !memcmp(said, line, sizeof line - 1));
    close(ends[0]);
}

#define BIT(n) (1u << (n))

int main(void) {
    static const struct made_up all = {0xd, 0x80000008u, 0x38d83201u, 0xd0030128u, 0x21, 0xe7};
    /* Each bit that a level needs, and the level without it. */
    static const struct {
        unsigned *leaf, bits;
        int level;
    } needed[] = {{&made_up.first, BIT(0) | BIT(9) | BIT(13) | BIT(19) | BIT(20) | BIT(23), 0},
                  {&made_up.first, BIT(12) | BIT(22) | BIT(27) | BIT(28) | BIT(29), 2},
                  {&made_up.seventh, BIT(3) | BIT(5) | BIT(8), 2},
                  {&made_up.seventh, BIT(16) | BIT(17) | BIT(28) | BIT(30) | BIT(31), 3},
                  {&made_up.extended, BIT(0), 0},
                  {&made_up.extended, BIT(5), 2}};

    made_up = all;
    CHECK(level_chosen_by_call() == 4);
    check_calls_pass_arguments(4);
    for (size_t i = 0; i < sizeof needed / sizeof *needed; i++)
        for (unsigned bit = 0; bit < 32; bit++) {
            if (!(needed[i].bits & BIT(bit))) continue;
            made_up = all;
            *needed[i].leaf &= ~BIT(bit);
            CHECK(level_chosen_by_call() == needed[i].level);
        }
    made_up = all;
    made_up.seventh &= ~BIT(16);
    CHECK(level_chosen_by_call() == 3);
    check_calls_pass_arguments(3);
    for (unsigned saved = 0; saved < 512; saved++) {
        made_up = all;
        made_up.saved = saved;
        CHECK(level_chosen_by_call() == ((saved >> 1 & 3) != 3 ? 2 : (saved >> 5 & 7) != 7 ? 3 : 4));
    }
    /* All other bits may be set, or not. */
    made_up.first = made_up.seventh = made_up.extended = made_up.saved = ~0u;
    CHECK(level_chosen_by_call() == 4);
    made_up.seventh = 0;
    CHECK(level_chosen_by_call() == 2);
    made_up.seventh = ~0u;
    made_up.first = 0x00982201u;
    made_up.extended = 1;
    CHECK(level_chosen_by_call() == 2);
    check_calls_pass_arguments(2);
    made_up = all;
    made_up.last = 1; /* leaf 7 is not there */
    CHECK(level_chosen_by_call() == 2);
    made_up.last = 0;
    CHECK(level_chosen_by_call() == 0);
    made_up = all;
    made_up.last_extended = 0x80000000u;
    CHECK(level_chosen_by_call() == 0);
    check_old_processor_aborts();
    return fails != 0;
}
#else
int main(void) {
    int first, later;

    puts("begun");
    fflush(stdout);
    first = probe();
    later = probe();
    check_calls_pass_arguments(first);
    printf("%d %d\n", first, later);
    return fails != 0;
}
#endif
