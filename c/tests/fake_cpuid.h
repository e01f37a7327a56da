/* A made-up processor, used instead of <cpuid.h> with choose.c of this folder. It returns 0 for a
 * leaf that the processor does not have, as the functions of the compiler do. */
#include <stdint.h>

static struct made_up {
    unsigned last, last_extended;       /* the last leaf, and that from 0x80000000 on */
    unsigned first, seventh, extended;  /* leaf 1 in ecx, 7 in ebx, 0x80000001 in ecx */
    unsigned saved;                     /* the low half of XCR0 */
} made_up;

/* Aborts unless the stack is aligned as the ABI requires, while the processor is detected. */
__attribute__((noinline)) static void need_aligned_stack(void) {
    if ((uintptr_t)__builtin_frame_address(0) % 16) abort();
}

static int __get_cpuid_count(unsigned leaf, unsigned part, unsigned *a, unsigned *b, unsigned *c,
                             unsigned *d) {
    need_aligned_stack();
    if (leaf > (leaf & 0x80000000u ? made_up.last_extended : made_up.last)) return 0;
    *a = *b = *c = *d = 0xdeadbeef; /* of no use to anyone */
    if (leaf == 1) *c = made_up.first;
    if (leaf == 7) *b = part == 0 ? made_up.seventh : 0;
    if (leaf == 0x80000001u) *c = made_up.extended;
    return 1;
}

static int __get_cpuid(unsigned leaf, unsigned *a, unsigned *b, unsigned *c, unsigned *d) {
    return __get_cpuid_count(leaf, 0, a, b, c, d);
}

static unsigned read_xcr0(void) {
    if (!(made_up.first & 1u << 27)) abort(); /* there is no such instruction */
    return made_up.saved;
}
