// The digests of plain.c, whose bytes are right on a little-endian processor: the longest of each function.
#include <stddef.h>
#include <stdint.h>

void plain_blake2b512(const uint8_t *message, size_t length, uint8_t *out);
void plain_blake2s256(const uint8_t *message, size_t length, uint8_t *out);
