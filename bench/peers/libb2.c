// libb2's digests: in memory as a library, and of standard input as a program.
#include <blake2.h>
#include <stddef.h>
#include <stdint.h>
#include <stdio.h>
#include <string.h>

static uint8_t piece[1 << 16];

void blake2b512(const uint8_t *message, size_t length, uint8_t *out)
{
    blake2b(out, message, NULL, 64, length, 0);
}

void blake2s256(const uint8_t *message, size_t length, uint8_t *out)
{
    blake2s(out, message, NULL, 32, length, 0);
}

void blake2bp512(const uint8_t *message, size_t length, uint8_t *out)
{
    blake2bp(out, message, NULL, 64, length, 0);
}

void blake2sp256(const uint8_t *message, size_t length, uint8_t *out)
{
    blake2sp(out, message, NULL, 32, length, 0);
}

static void read_blake2b512(uint8_t *out)
{
    blake2b_state state;
    size_t count;
    blake2b_init(&state, 64);
    while ((count = fread(piece, 1, sizeof piece, stdin)) > 0)
        blake2b_update(&state, piece, count);
    blake2b_final(&state, out, 64);
}

static void read_blake2s256(uint8_t *out)
{
    blake2s_state state;
    size_t count;
    blake2s_init(&state, 32);
    while ((count = fread(piece, 1, sizeof piece, stdin)) > 0)
        blake2s_update(&state, piece, count);
    blake2s_final(&state, out, 32);
}

// The digest of standard input for the word b512 or s256, in hexadecimal.
int main(int count, char **words)
{
    uint8_t out[64];
    int is_blake2b = count == 2 && strcmp(words[1], "b512") == 0;
    int size = is_blake2b ? 64 : 32;
    setvbuf(stdin, NULL, _IONBF, 0);
    if (is_blake2b)
        read_blake2b512(out);
    else
        read_blake2s256(out);
    for (int i = 0; i < size; i++)
        printf("%02x", out[i]);
    printf("\n");
    return ferror(stdin) ? 1 : 0;
}
