/* Measures the library in portable C next to plain C by the same compiler, one message at a time, and
 * with -DSODIUM next to the portable code of libsodium. bench/portable.py compiles it.
 *
 *   ./portable [MIB]    this many MiB of messages of 1 MiB, and an eighth of it of 64 bytes; 64 MiB
 *
 * Prints a line for each function, its family, length and best of seven runs by the processor's time:
 * MB/s of a long message, and nanoseconds for a short one. */
#include "plain.h"
#include "vulfsjor.h"

#include <stdio.h>
#include <stdlib.h>
#include <string.h>
#include <time.h>

typedef void hash_function(const uint8_t *message, size_t length, uint8_t *digest);

static void our_blake2b(const uint8_t *message, size_t length, uint8_t *digest) {
    if (vulfsjor_blake2b(digest, 64, message, length, NULL, 0)) abort();
}

static void our_blake2s(const uint8_t *message, size_t length, uint8_t *digest) {
    if (vulfsjor_blake2s(digest, 32, message, length, NULL, 0)) abort();
}

#ifdef SODIUM
/* In blake2b-ref.c of libsodium, and what that calls. */
int crypto_generichash_blake2b__blake2b(uint8_t *out, const void *in, const void *key,
        uint8_t out_length, uint64_t in_length, uint8_t key_length);
void sodium_misuse(void);
void sodium_memzero(void *bytes, size_t length);

void sodium_misuse(void) { abort(); }

void sodium_memzero(void *bytes, size_t length) {
    volatile uint8_t *place = bytes;
    while (length--) *place++ = 0;
}

static void sodium_blake2b(const uint8_t *message, size_t length, uint8_t *digest) {
    if (crypto_generichash_blake2b__blake2b(digest, message, NULL, 64, length, 0)) abort();
}
#endif

static double processor_seconds(void) {
    struct timespec now;
    clock_gettime(CLOCK_PROCESS_CPUTIME_ID, &now);
    return (double)now.tv_sec + 1e-9 * (double)now.tv_nsec;
}

static uint8_t message[1 << 20];

/* The seconds for the hashes of this many bytes in messages of a length. */
static double seconds_for_hashes(hash_function *f, size_t length, size_t total) {
    uint8_t digest[64];
    double begin = processor_seconds();
    for (size_t done = 0; done < total; done += length) {
        f(message, length, digest);
        message[done / length % 64] ^= digest[0];
    }
    return processor_seconds() - begin;
}

static void compare_functions(const char *family, size_t length, size_t total, hash_function *functions[3]) {
    static const char *const names[3] = {"ours", "plain", "sodium"};
    uint8_t digests[3][64] = {{0}};
    double best[3] = {1e9, 1e9, 1e9};

    for (int k = 0; k < 3; k++) {
        if (!functions[k]) continue;
        functions[k](message, length, digests[k]);
        if (memcmp(digests[0], digests[k], sizeof digests[0])) abort();
    }
    for (int turn = 0; turn < 7; turn++)
        for (int k = 0; k < 3; k++) {
            double time = functions[k] ? seconds_for_hashes(functions[k], length, total) : 1e9;
            if (time < best[k]) best[k] = time;
        }
    for (int k = 0; k < 3; k++) {
        double per_second = (double)total / best[k];
        if (!functions[k]) continue;
        printf("%s %s %zu ", names[k], family, length);
        printf("%.1f\n", length > 1000 ? per_second / 1e6 : 1e9 * (double)length / per_second);
    }
}

int main(int count, char **words) {
    size_t total = (count > 1 ? strtoul(words[1], NULL, 10) : 64) << 20;
    hash_function *wide[3] = {our_blake2b, plain_blake2b512, NULL}, *narrow[3] = {our_blake2s, plain_blake2s256, NULL};

#ifdef SODIUM
    wide[2] = sodium_blake2b;
#endif
    compare_functions("b", 1 << 20, total, wide);
    compare_functions("s", 1 << 20, total, narrow);
    compare_functions("b", 64, total / 8, wide);
    compare_functions("s", 64, total / 8, narrow);
    return 0;
}
