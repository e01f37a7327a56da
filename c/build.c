/* vulfsjor_library_build of vulfsjor.h. The compiler gets the line of dist/MANIFEST for each text that is linked, from the
 * text itself, as a string: BUILD if it is the only one, and otherwise BUILD_v2, BUILD_v3 and BUILD_v4 on x86-64, of
 * which that of the build that choose.c chooses is returned, or BUILD_arm on 64-bit ARM. CHOOSE_SHOWN is that of choose.c.
 * This file is tested, not proved. */
#include "vulfsjor.h"

#if defined(_WIN32) && defined(CHOOSE_SHOWN)
#define SHOWN __declspec(dllexport)
#elif defined(_WIN32)
#define SHOWN
#elif defined(CHOOSE_SHOWN)
#define SHOWN __attribute__((visibility("default")))
#else
#define SHOWN __attribute__((visibility("hidden")))
#endif

#if !defined(BUILD) && defined(__aarch64__)
#define BUILD BUILD_arm
#elif !defined(BUILD)
unsigned char vulfsjor_ffi_find(void);
#define BUILD build_name_of_level(vulfsjor_ffi_find())

static const char *build_name_of_level(unsigned char level) {
    return level == 4 ? BUILD_v4 : level == 3 ? BUILD_v3 : BUILD_v2;
}
#endif

SHOWN const char *vulfsjor_library_build(void) { return BUILD; }
