/* Calls the library from a constructor before main, and from many threads whose first calls come at
 * the same time. FIRST_BY_THREADS leaves out the constructor. Returns 0 if all digests are
 * right. */
#define _POSIX_C_SOURCE 200112L
#include "vulfsjor.h"

#include <pthread.h>

#include "check.h"

/* BLAKE2s-256 of "abc" (RFC 7693, appendix B). */
static const uint8_t wanted[32] = {0x50, 0x8c, 0x5e, 0x8c, 0x32, 0x7c, 0x14, 0xe2, 0xe1, 0xa7, 0x2b,
                                   0xa3, 0x4e, 0xeb, 0x45, 0x2f, 0x37, 0x45, 0x8b, 0x20, 0x9e, 0xd6,
                                   0x3a, 0x29, 0x4d, 0x99, 0x9b, 0x4c, 0x86, 0x67, 0x59, 0x82};

static void make_one_call(void) {
    uint8_t out[32];
    CHECK(vulfsjor_blake2s(out, sizeof out, "abc", 3, 0, 0) == 0 && SAME(out, wanted));
}

#ifndef FIRST_BY_THREADS
__attribute__((constructor)) static void call_in_constructor(void) { make_one_call(); }
#endif

enum { THREADS = 16 };
static pthread_barrier_t begin;

static void *call_at_barrier(void *unused) {
    pthread_barrier_wait(&begin);
    for (int i = 0; i < 100; i++) make_one_call();
    return unused;
}

int main(void) {
    pthread_t threads[THREADS];

    if (pthread_barrier_init(&begin, NULL, THREADS)) return 2;
    for (int i = 0; i < THREADS; i++)
        if (pthread_create(&threads[i], NULL, call_at_barrier, NULL)) return 2;
    for (int i = 0; i < THREADS; i++) pthread_join(threads[i], NULL);
    return fails != 0;
}
