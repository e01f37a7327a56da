/* Times calls from C of this library, also by libb2's names, of libb2 and of OpenSSL's EVP in one
 * run, in turns; the best time of each counts. Prints a table in Markdown: nanoseconds a call, and
 * in brackets how many times as fast this library is. WITH_LIBB2 and WITH_OPENSSL are defined where
 * these are there, and WITH_NAMES for the calls by libb2's names, which are compiled by themselves:
 *
 *   cc -O2 -DBY_NAMES -I"$(pkg-config --variable=libb2dir vulfsjor)" -c bench/calls.c -o names.o
 *   cc -O2 -DWITH_NAMES -DWITH_LIBB2 -DWITH_OPENSSL bench/calls.c names.o \
 *       $(pkg-config --cflags --libs vulfsjor-static) -lb2 -lcrypto
 */
#define _POSIX_C_SOURCE 199309L
#ifndef BY_NAMES
#include "vulfsjor.h"
#endif
#if defined(WITH_LIBB2) || defined(BY_NAMES)
#include <blake2.h>
#endif
#ifdef WITH_OPENSSL
#include <openssl/evp.h>
#endif

#include <stdio.h>
#include <stdlib.h>
#include <string.h>
#include <time.h>

enum { OURS, NAMES, LIBB2, EVP, LIBRARIES };
enum { UPDATE_1, UPDATE_64, UPDATE_64K, INIT, SHORT, KEYED, RESET, TASKS };

static const int repetitions[TASKS] = {4096, 1024, 2, 512, 512, 512, 512};

extern double best[2][TASKS][LIBRARIES];
extern uint8_t data[1 << 16], out[64];
void time_calls_by_names(void);

static double nanoseconds_now(void) {
    struct timespec t;
    clock_gettime(CLOCK_MONOTONIC, &t);
    return t.tv_sec * 1e9 + t.tv_nsec;
}

/* Times the call, whose answer is of no use here, and keeps the best. */
#define TIME(family, task, library, call)                                       \
    do {                                                                        \
        double begun = nanoseconds_now();                                                   \
        for (int i = 0; i < repetitions[task]; i++) {                           \
            int answer = call;                                                  \
            __asm__ volatile("" ::"r"(answer) : "memory");                      \
        }                                                                       \
        double each = (nanoseconds_now() - begun) / repetitions[task];                      \
        double *kept = &best[family][task][library];                            \
        if (*kept == 0 || each < *kept) *kept = each;                           \
    } while (0)

/* One turn of every task of a library with the calls of BLAKE2's reference code. */
#define TURN(family, library, state, max, prefix)                                              \
    do {                                                                                       \
        if (prefix##_init(&state, max)) abort();                                               \
        TIME(family, UPDATE_1, library, prefix##_update(&state, data + i % 64, 1));            \
        TIME(family, UPDATE_64, library, prefix##_update(&state, data + i % 64 * 64, 64));     \
        TIME(family, UPDATE_64K, library, prefix##_update(&state, data, sizeof data));         \
        TIME(family, INIT, library, prefix##_init(&state, max));                               \
        TIME(family, SHORT, library, (prefix##_init(&state, max) ||                            \
             prefix##_update(&state, data, 64) || prefix##_final(&state, out, max)));          \
        TIME(family, KEYED, library, (prefix##_init_key(&state, max, data, 32) ||              \
             prefix##_update(&state, data, 64) || prefix##_final(&state, out, max)));          \
    } while (0)

#ifdef BY_NAMES
void time_calls_by_names(void) {
    static blake2b_state b;
    static blake2s_state s;
    TURN(0, NAMES, b, 64, blake2b);
    TURN(1, NAMES, s, 32, blake2s);
}
#else
static const char *const titles[TASKS] = {
    "update of 1 byte",          "update of 64 bytes", "update of 65,536 bytes",        "init",
    "init, update of 64, final", "the same with a key of 32 bytes", "reset, update of 64",
};
double best[2][TASKS][LIBRARIES];
uint8_t data[1 << 16], out[64];

static void time_our_calls(void) {
    static vulfsjor_blake2b_state b;
    static vulfsjor_blake2s_state s;
    TURN(0, OURS, b, 64, vulfsjor_blake2b);
    TURN(1, OURS, s, 32, vulfsjor_blake2s);
    if (vulfsjor_blake2b_init_key(&b, 64, data, 32)) abort();
    TIME(0, RESET, OURS, (vulfsjor_blake2b_reset(&b) || vulfsjor_blake2b_update(&b, data, 64)));
    if (vulfsjor_blake2s_init_key(&s, 32, data, 32)) abort();
    TIME(1, RESET, OURS, (vulfsjor_blake2s_reset(&s) || vulfsjor_blake2s_update(&s, data, 64)));
}

#ifdef WITH_LIBB2
static void time_libb2_calls(void) {
    static blake2b_state b;
    static blake2s_state s;
    TURN(0, LIBB2, b, 64, blake2b);
    TURN(1, LIBB2, s, 32, blake2s);
}
#endif

#ifdef WITH_OPENSSL
/* OpenSSL takes no key here; its algorithms are looked up once, and a context is used again. */
static void time_evp_calls(int family, EVP_MD_CTX *context, const EVP_MD *algorithm) {
    EVP_DigestInit_ex(context, algorithm, NULL);
    TIME(family, UPDATE_1, EVP, EVP_DigestUpdate(context, data + i % 64, 1));
    TIME(family, UPDATE_64, EVP, EVP_DigestUpdate(context, data + i % 64 * 64, 64));
    TIME(family, UPDATE_64K, EVP, EVP_DigestUpdate(context, data, sizeof data));
    TIME(family, INIT, EVP, EVP_DigestInit_ex(context, algorithm, NULL));
    TIME(family, SHORT, EVP, (EVP_DigestInit_ex(context, algorithm, NULL) &&
         EVP_DigestUpdate(context, data, 64) && EVP_DigestFinal_ex(context, out, NULL)));
}
#endif

static void print_table(int family, const char *name) {
    printf("| %s, ns | ours | by libb2's names | libb2 | OpenSSL's EVP |\n"
           "| --- | --- | --- | --- | --- |\n", name);
    for (int task = 0; task < TASKS; task++) {
        printf("| %s | %.1f |", titles[task], best[family][task][OURS]);
        for (int library = NAMES; library < LIBRARIES; library++) {
            double time = best[family][task][library];
            if (time == 0) printf(" |");
            else printf(" %.1f (%.2f) |", time, time / best[family][task][OURS]);
        }
        printf("\n");
    }
    printf("\n");
}

int main(int argc, char **argv) {
    int turns = argc > 1 ? atoi(argv[1]) : 300;
    for (size_t i = 0; i < sizeof data; i++) data[i] = (uint8_t)i;
#ifdef WITH_OPENSSL
    EVP_MD_CTX *context = EVP_MD_CTX_new();
    const EVP_MD *algorithms[2] = {EVP_MD_fetch(NULL, "BLAKE2B-512", NULL),
                                   EVP_MD_fetch(NULL, "BLAKE2S-256", NULL)};
#endif
    for (int turn = 0; turn < turns; turn++) {
        time_our_calls();
#ifdef WITH_NAMES
        time_calls_by_names();
#endif
#ifdef WITH_LIBB2
        time_libb2_calls();
#endif
#ifdef WITH_OPENSSL
        for (int family = 0; family < 2; family++) time_evp_calls(family, context, algorithms[family]);
#endif
    }
    print_table(0, "BLAKE2b-512");
    print_table(1, "BLAKE2s-256");
    return 0;
}
#endif
