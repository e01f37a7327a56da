// 32 KiB of output of BLAKE2Xb and BLAKE2Xs: by one call (whole_), and by a call for each block (each_).
#include "../../c/include/vulfsjor.h"

enum { OUTPUT = 32768 };

static const uint8_t none;

void whole_blake2xb(const uint8_t *message, size_t length, uint8_t *out)
{
    vulfsjor_ffi_blake2xb(out, OUTPUT, message, length, &none, 0);
}

void each_blake2xb(const uint8_t *message, size_t length, uint8_t *out)
{
    vulfsjor_blake2xb_state state;
    vulfsjor_blake2xb_init(&state, OUTPUT);
    vulfsjor_ffi_blake2xb_update(&state, message, length);
    for (size_t at = 0; at < OUTPUT; at += 64) vulfsjor_ffi_blake2xb_squeeze(&state, out + at, 64);
}

void whole_blake2xs(const uint8_t *message, size_t length, uint8_t *out)
{
    vulfsjor_ffi_blake2xs(out, OUTPUT, message, length, &none, 0);
}

void each_blake2xs(const uint8_t *message, size_t length, uint8_t *out)
{
    vulfsjor_blake2xs_state state;
    vulfsjor_blake2xs_init(&state, OUTPUT);
    vulfsjor_ffi_blake2xs_update(&state, message, length);
    for (size_t at = 0; at < OUTPUT; at += 32) vulfsjor_ffi_blake2xs_squeeze(&state, out + at, 32);
}
