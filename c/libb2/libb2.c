/* libb2's functions under their own names, over vulfsjor.h: for programs that look for libb2 by
 * linking with it (configure scripts), and for objects that were compiled with libb2's own header.
 * c/make_libraries.sh puts them and the library into libvulfsjor-libb2.a, where they are hidden from
 * users of a shared library that contains them, and into libb2.so.1, which shows them. They are those
 * of ../include/libb2/blake2.h, for linking, and have the same states.
 *
 * c/PORTING.md lists the differences from libb2. */
#include "../include/vulfsjor.h"

#ifdef VULFSJOR_LIBB2_HIDDEN
#pragma GCC visibility push(hidden)
#endif
#define VULFSJOR_LIBB2_FUNCTION
#include "../include/libb2/blake2.h"
