/* Tests which build the functions of ../thunks.h call, as on Windows and macOS, on made-up processors
 * (fake_cpuid.h). choosing.sh makes calls.h, with each function of the library as NAME(function), and
 * links stand-ins for all builds, which return their level. */
#define CHOOSE_PROCESSOR "fake_cpuid.h"
#define CHOOSE_FUNCTIONS "thunks.h"
#include "../choose.c"

#include "check.h"

typedef int call(void);
#define NAME(function) (call *)(uintptr_t)function,
static call *const calls[] = {
#include "calls.h"
};

int main(void) {
    const struct made_up all = {0xd, 0x80000008u, 0x38d83201u, 0xd0030128u, 0x21, 0xe7};

    for (int wanted = 2; wanted <= 4; wanted++) {
        made_up = all;
        if (wanted < 4) made_up.seventh &= ~(1u << 16); /* no AVX-512 */
        if (wanted < 3) made_up.seventh &= ~(1u << 5);  /* no AVX2 */
        for (size_t i = 0; i < sizeof calls / sizeof *calls; i++) {
            vulfsjor_ffi_level = 0;
            CHECK(calls[i]() == wanted && vulfsjor_ffi_level == wanted && calls[i]() == wanted);
        }
    }
    return fails != 0 || sizeof calls / sizeof *calls < 90;
}
