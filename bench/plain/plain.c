// BLAKE2b and BLAKE2s in plain C, as RFC 7693, section 3, writes them: the digest of a whole message without a key.
// WIDE is defined for BLAKE2b. The compiler is asked to write out the rounds, so that the schedule costs nothing.
#include "plain.h"

#include <string.h>

#ifdef WIDE
typedef uint64_t word;
enum { BLOCK = 128, ROUNDS = 12, R1 = 32, R2 = 24, R3 = 16, R4 = 63 };
#define DIGEST plain_blake2b512
static const word START[8] = {0x6a09e667f3bcc908, 0xbb67ae8584caa73b, 0x3c6ef372fe94f82b, 0xa54ff53a5f1d36f1,
                              0x510e527fade682d1, 0x9b05688c2b3e6c1f, 0x1f83d9abfb41bd6b, 0x5be0cd19137e2179};
#else
typedef uint32_t word;
enum { BLOCK = 64, ROUNDS = 10, R1 = 16, R2 = 12, R3 = 8, R4 = 7 };
#define DIGEST plain_blake2s256
static const word START[8] = {0x6a09e667, 0xbb67ae85, 0x3c6ef372, 0xa54ff53a,
                              0x510e527f, 0x9b05688c, 0x1f83d9ab, 0x5be0cd19};
#endif
enum { SIZE = BLOCK / 2, BITS = BLOCK / 2 };

static const uint8_t SIGMA[10][16] = {
    {0, 1, 2, 3, 4, 5, 6, 7, 8, 9, 10, 11, 12, 13, 14, 15},
    {14, 10, 4, 8, 9, 15, 13, 6, 1, 12, 0, 2, 11, 7, 5, 3},
    {11, 8, 12, 0, 5, 2, 15, 13, 10, 14, 3, 6, 7, 1, 9, 4},
    {7, 9, 3, 1, 13, 12, 11, 14, 2, 6, 5, 10, 4, 0, 15, 8},
    {9, 0, 5, 7, 2, 4, 10, 15, 14, 1, 11, 12, 6, 8, 3, 13},
    {2, 12, 6, 10, 0, 11, 8, 3, 4, 13, 7, 5, 15, 14, 1, 9},
    {12, 5, 1, 15, 14, 13, 4, 10, 0, 7, 6, 3, 9, 2, 8, 11},
    {13, 11, 7, 14, 12, 1, 3, 9, 5, 0, 15, 4, 8, 6, 2, 10},
    {6, 15, 14, 9, 11, 3, 0, 8, 12, 2, 13, 7, 1, 4, 10, 5},
    {10, 2, 8, 4, 7, 6, 1, 5, 15, 11, 9, 14, 3, 12, 13, 0},
};

static inline word rotate_right(word x, int n)
{
    return x >> n | x << (BITS - n);
}

static inline void mix_quarter(word *v, int a, int b, int c, int d, word x, word y)
{
    v[a] += v[b] + x;
    v[d] = rotate_right(v[d] ^ v[a], R1);
    v[c] += v[d];
    v[b] = rotate_right(v[b] ^ v[c], R2);
    v[a] += v[b] + y;
    v[d] = rotate_right(v[d] ^ v[a], R3);
    v[c] += v[d];
    v[b] = rotate_right(v[b] ^ v[c], R4);
}

static void compress(word *h, const uint8_t *block, uint64_t count, int last)
{
    word v[16], m[16];
    memcpy(m, block, BLOCK);
    memcpy(v, h, BLOCK / 2);
    memcpy(v + 8, START, BLOCK / 2);
    v[12] ^= (word)count;
    v[13] ^= BITS == 64 ? 0 : (word)(count >> 32);
    v[14] ^= last ? ~(word)0 : 0;
#pragma GCC unroll 12
    for (int round = 0; round < ROUNDS; round++) {
        const uint8_t *s = SIGMA[round % 10];
        mix_quarter(v, 0, 4, 8, 12, m[s[0]], m[s[1]]);
        mix_quarter(v, 1, 5, 9, 13, m[s[2]], m[s[3]]);
        mix_quarter(v, 2, 6, 10, 14, m[s[4]], m[s[5]]);
        mix_quarter(v, 3, 7, 11, 15, m[s[6]], m[s[7]]);
        mix_quarter(v, 0, 5, 10, 15, m[s[8]], m[s[9]]);
        mix_quarter(v, 1, 6, 11, 12, m[s[10]], m[s[11]]);
        mix_quarter(v, 2, 7, 8, 13, m[s[12]], m[s[13]]);
        mix_quarter(v, 3, 4, 9, 14, m[s[14]], m[s[15]]);
    }
    for (int i = 0; i < 8; i++)
        h[i] ^= v[i] ^ v[i + 8];
}

void DIGEST(const uint8_t *message, size_t length, uint8_t *out)
{
    word h[8];
    uint8_t block[BLOCK] = {0};
    size_t at = 0;
    memcpy(h, START, sizeof h);
    h[0] ^= 0x01010000 ^ SIZE;
    for (; length - at > BLOCK; at += BLOCK)
        compress(h, message + at, at + BLOCK, 0);
    memcpy(block, message + at, length - at);
    compress(h, block, length, 1);
    memcpy(out, h, SIZE);
}
