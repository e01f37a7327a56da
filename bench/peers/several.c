// The longest digests of several messages of one length, which stand one behind the other: each by a call of its own
// (each_), and all by one call (several_).
#include "../../c/include/vulfsjor.h"

#include <stdlib.h>

enum { MOST = 8 };

static const uint8_t none;

static void each_blake2b(size_t count, const uint8_t *messages, size_t length, uint8_t *out)
{
    for (size_t j = 0; j < count; j++)
        vulfsjor_ffi_blake2b(out + 64 * j, 64, messages + j * (length / count), length / count, &none, 0);
}

void each_blake2b512(const uint8_t *messages, size_t length, uint8_t *out)
{
    each_blake2b(4, messages, length, out);
}

void each_blake2b512_8(const uint8_t *messages, size_t length, uint8_t *out)
{
    each_blake2b(8, messages, length, out);
}

void each_blake2s256(const uint8_t *messages, size_t length, uint8_t *out)
{
    for (size_t j = 0; j < 8; j++)
        vulfsjor_ffi_blake2s(out + 32 * j, 32, messages + j * (length / 8), length / 8, &none, 0);
}

static void cut_messages(vulfsjor_message *given, size_t count, const uint8_t *messages, size_t length)
{
    for (size_t j = 0; j < count; j++)
        given[j] = (vulfsjor_message){messages + j * (length / count), length / count};
}

static void several_blake2b(size_t count, const uint8_t *messages, size_t length, uint8_t *out)
{
    vulfsjor_message given[MOST];
    cut_messages(given, count, messages, length);
    if (vulfsjor_ffi_blake2b_many(out, count * 64, 64, given, count, &none, 0, &none, 0, &none, 0))
        abort();
}

void several_blake2b512(const uint8_t *messages, size_t length, uint8_t *out)
{
    several_blake2b(4, messages, length, out);
}

void several_blake2b512_8(const uint8_t *messages, size_t length, uint8_t *out)
{
    several_blake2b(8, messages, length, out);
}

void several_blake2s256(const uint8_t *messages, size_t length, uint8_t *out)
{
    vulfsjor_message given[MOST];
    cut_messages(given, 8, messages, length);
    if (vulfsjor_ffi_blake2s_many(out, 8 * 32, 32, given, 8, &none, 0, &none, 0, &none, 0))
        abort();
}
