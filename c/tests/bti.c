/* A program without the C library for 64-bit ARM with branch protection (BTI): it calls functions of the
 * library through a pointer. The status is 0 if the digests are right. The processor ends it by a
 * signal if a function does not begin with a landing pad. c/tests/aarch64.sh runs it. */
#include <vulfsjor.h>

/* What the assembly calls of the C library. */
void *memcpy(void *to, const void *from, size_t size) {
    volatile unsigned char *out = to;
    const unsigned char *in = from;
    while (size--) *out++ = *in++;
    return to;
}

void *memmove(void *to, const void *from, size_t size) {
    volatile unsigned char *out = to;
    const unsigned char *in = from;
    if (to < from) return memcpy(to, from, size);
    while (size--) out[size] = in[size];
    return to;
}

void *memset(void *to, int byte, size_t size) {
    volatile unsigned char *out = to;
    while (size--) *out++ = (unsigned char)byte;
    return to;
}

static int run(void) {
    int32_t (*volatile hash)(uint8_t *, size_t, const uint8_t *, size_t, const uint8_t *, size_t);
    static uint8_t digest[64];
    int wrong = 0;

    hash = vulfsjor_ffi_blake2b;
    wrong |= hash(digest, 64, (const uint8_t *)"abc", 3, digest, 0) || digest[0] != 0xba || digest[63] != 0x23;
    hash = vulfsjor_ffi_blake2s;
    wrong |= hash(digest, 32, (const uint8_t *)"abc", 3, digest, 0) || digest[0] != 0x50 || digest[31] != 0x82;
    return wrong;
}

void _start(void) {
    register long status __asm__("x0") = run();
    register long exit_group __asm__("x8") = 94;
    __asm__ volatile("svc #0" : : "r"(status), "r"(exit_group));
    __builtin_unreachable();
}
