// The longest digests of vulfsjor, as functions of a message.
#include "../../c/include/vulfsjor.h"

static const uint8_t none;

void ours_blake2b512(const uint8_t *message, size_t length, uint8_t *out)
{
    vulfsjor_ffi_blake2b(out, 64, message, length, &none, 0);
}

void ours_blake2s256(const uint8_t *message, size_t length, uint8_t *out)
{
    vulfsjor_ffi_blake2s(out, 32, message, length, &none, 0);
}

void ours_blake2bp512(const uint8_t *message, size_t length, uint8_t *out)
{
    vulfsjor_ffi_blake2bp(out, 64, message, length, &none, 0);
}

void ours_blake2sp256(const uint8_t *message, size_t length, uint8_t *out)
{
    vulfsjor_ffi_blake2sp(out, 32, message, length, &none, 0);
}
