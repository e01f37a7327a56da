/* The code of the library, for Linux, macOS and Windows. On x86-64 it is there three times, and one
 * of the builds is chosen at run time. */
#include "macros.h"
#ifdef __aarch64__
#include "aarch64/vulfsjor.s"
#else
#include "x86_64/vulfsjor-v2.s"
#include "x86_64/vulfsjor-v3.s"
#include "x86_64/vulfsjor-v4.s"
#endif
