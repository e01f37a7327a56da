/* The macros of the texts, for the processor and the object format that this is assembled for. */
#if !(defined(__x86_64__) || defined(__aarch64__)) || defined(__ILP32__)
#error "Vulfsjor has code for x86-64 and for 64-bit ARM."
#elif defined(__x86_64__) && defined(__APPLE__)
#include "x86_64/macho.inc"
#elif defined(__x86_64__) && defined(_WIN32)
#include "x86_64/coff.inc"
#elif defined(__x86_64__)
#include "x86_64/elf.inc"
#elif defined(__APPLE__)
#include "aarch64/macho.inc"
#elif defined(_WIN32)
#include "aarch64/coff.inc"
#else
#include "aarch64/elf.inc"
#endif

/* An object of such texts only is marked for branch protection. */
	vj_marks
