/* The functions vulfsjor_ffi_* of the library, by their own names. The code is in the assembly of
 * dist/: on x86-64 three times, for x86-64-v2, x86-64-v3 and x86-64-v4 processors, and on 64-bit
 * ARM once. A call jumps to the best build that this processor and this system support. This file
 * is tested, not proved: every call passes through it on its way to the proved code.
 *
 * On x86-64 the first call detects the processor and stores the result in one byte, which never
 * changes after that: threads that detect it at the same time write the same value. It needs no
 * constructor, so calls from another constructor work too, and no lock, no environment variable and
 * no function pointer in memory. A later call reads the byte and jumps: arguments, stack and return
 * address stay as they are, whatever the arguments of a function are. All builds have the same
 * states, so a state may go from one to another. On a processor below x86-64-v2 the first call
 * prints a line on standard error and aborts.
 *
 * CHOOSE_ONE names a build, such as v3: then the library contains only that build, and each call
 * jumps to it. CHOOSE_SHOWN is defined for the shared library. Otherwise the names are hidden, so
 * that a shared library that links the archive does not export them. CHOOSE_PART leaves out all but
 * the functions of CHOOSE_FUNCTIONS, a header, for an object of the archive. Three macros are for tests.
 * CHOOSE_TEST 2, 3 or 4 selects that build, whatever the processor, and 23 or 234 alternates
 * between the builds of its digits without a rule. CHOOSE_PROCESSOR is a header with a simulated
 * processor, and CHOOSE_FUNCTIONS has other functions.
 *
 * macOS and Windows have the functions in C (thunks.h). */
#include "vulfsjor.h"

#include <stdlib.h>
#ifdef _WIN32
#include <io.h>
#else
#include <unistd.h>
#endif

#if defined(__aarch64__) && !defined(CHOOSE_ONE)
#define CHOOSE_ONE arm
#endif

/* What only the library sees. Windows shows nothing that is not exported. */
#ifdef _WIN32
#define HIDDEN
#else
#define HIDDEN __attribute__((visibility("hidden")))
#endif

/* What the shared library shows. */
#ifndef CHOOSE_SHOWN
#define SHOWN HIDDEN
#define VISIBILITY(name) ".hidden " name "\n"
#elif defined(_WIN32)
#define SHOWN __declspec(dllexport)
#else
#define SHOWN __attribute__((visibility("default")))
#define VISIBILITY(name) ""
#endif

/* Processors with branch protection require this instruction where a function is called through a
 * pointer or a PLT. Others ignore it. */
#ifdef __aarch64__
#define LANDING "hint #34\n" /* bti c */
#else
#define LANDING ".byte 0xf3, 0x0f, 0x1e, 0xfa\n" /* endbr64 */
#endif

/* A function of this name in a separate section, so that a linker can leave it out. */
#define FUNCTION(name, visibility, body)                                             \
    __asm__(".pushsection .text." name ",\"ax\",%progbits\n"                         \
            ".globl " name "\n" visibility ".type " name ",%function\n.p2align 4\n" \
            name ":\n.cfi_startproc\n" LANDING body ".cfi_endproc\n"                 \
            ".size " name ",.-" name "\n.popsection\n");

/* The name of a function in the text of a build: the number of the code and the build follow it.
 * Versions with the same code have the same number (docs/RELEASING.md). */
#define CODE "1"
#define TEXT_OF(words) #words
#define TEXT(words) TEXT_OF(words)
#define IN_BUILD(name, build) name "_" CODE "_" build

#ifdef CHOOSE_ONE
#ifdef __aarch64__
#define JUMP "b "
#else
#define JUMP "jmp "
#endif
#define CALL(name) FUNCTION(name, VISIBILITY(name), JUMP IN_BUILD(name, TEXT(CHOOSE_ONE)) "\n")
#else

/* 4, 3 or 2 for the build of this level, or 0 before the first call. */
#ifndef CHOOSE_PART
HIDDEN unsigned char vulfsjor_ffi_level;
#endif

#ifdef __ELF__
#define CALL(name)                                  \
    FUNCTION(name, VISIBILITY(name),                \
             "cmpb $3, vulfsjor_ffi_level(%rip)\n"      \
             "ja " IN_BUILD(name, "v4") "\n"        \
             "je " IN_BUILD(name, "v3") "\n"        \
             "cmpb $2, vulfsjor_ffi_level(%rip)\n"      \
             "je " IN_BUILD(name, "v2") "\n"        \
             "call vulfsjor_ffi_ask\n"                  \
             "cmpb $3, %al\n"                       \
             "ja " IN_BUILD(name, "v4") "\n"        \
             "je " IN_BUILD(name, "v3") "\n"        \
             "jmp " IN_BUILD(name, "v2") "\n")

#ifndef CHOOSE_PART
/* Calls vulfsjor_ffi_find and keeps the registers that hold arguments. The result is in al. */
#define KEEP(register) "push " register "\n.cfi_adjust_cfa_offset 8\n"
#define TAKE(register) "pop " register "\n.cfi_adjust_cfa_offset -8\n"
FUNCTION("vulfsjor_ffi_ask", ".hidden vulfsjor_ffi_ask\n",
         KEEP("%rdi") KEEP("%rsi") KEEP("%rdx") KEEP("%rcx") KEEP("%r8") KEEP("%r9")
         "call vulfsjor_ffi_find\n"
         TAKE("%r9") TAKE("%r8") TAKE("%rcx") TAKE("%rdx") TAKE("%rsi") TAKE("%rdi")
         "ret\n")
#endif
#endif

#ifdef CHOOSE_PART
#elif !defined(CHOOSE_TEST)
#ifdef CHOOSE_PROCESSOR
#include CHOOSE_PROCESSOR
#else
#include <cpuid.h>

/* The low half of XCR0: the registers that the system saves. Where OSXSAVE is off there is no such
 * instruction. */
static unsigned read_xcr0(void) {
    unsigned low, high;
    __asm__ volatile("xgetbv" : "=a"(low), "=d"(high) : "c"(0));
    return low;
}
#endif

/* What CPUID says: leaf 1 in ecx, leaf 7 in ebx, leaf 0x80000001 in ecx. */
enum {
    SSE3 = 1 << 0, SSSE3 = 1 << 9, FMA = 1 << 12, CMPXCHG16B = 1 << 13, SSE4_1 = 1 << 19,
    SSE4_2 = 1 << 20, MOVBE = 1 << 22, POPCNT = 1 << 23, OSXSAVE = 1 << 27, AVX = 1 << 28,
    F16C = 1 << 29,
    BMI1 = 1 << 3, AVX2 = 1 << 5, BMI2 = 1 << 8, AVX512F = 1 << 16, AVX512DQ = 1 << 17,
    AVX512CD = 1 << 28, AVX512BW = 1 << 30,
    LAHF = 1 << 0, LZCNT = 1 << 5
};

/* Of leaf 7 in ebx, and more than the values of an enum may be. */
#define AVX512VL (1u << 31)

/* The levels are those of the x86-64 psABI, 3.1.1: the highest one that the processor has
 * completely, 4, 3 or 2, or 0 if it is below 2. Level 3 also requires that the system saves the
 * registers of SSE and AVX (XCR0, bits 1 and 2), and level 4 those of AVX-512: the masks, the
 * upper halves, and the upper 16 registers (bits 5 to 7). */
static unsigned char level_of_processor(void) {
    const unsigned v2 = SSE3 | SSSE3 | CMPXCHG16B | SSE4_1 | SSE4_2 | POPCNT;
    const unsigned v3 = FMA | MOVBE | OSXSAVE | AVX | F16C, v3_seventh = BMI1 | AVX2 | BMI2;
    const unsigned v4_seventh = AVX512F | AVX512DQ | AVX512CD | AVX512BW | AVX512VL;
    unsigned a, b, first, seventh, extended, d, saved;

    if (!__get_cpuid(1, &a, &b, &first, &d) || (first & v2) != v2) return 0;
    if (!__get_cpuid(0x80000001u, &a, &b, &extended, &d) || !(extended & LAHF)) return 0;
    if ((first & v3) != v3 || !(extended & LZCNT)) return 2;
    if (!__get_cpuid_count(7, 0, &a, &seventh, &b, &d) || (seventh & v3_seventh) != v3_seventh)
        return 2;
    saved = read_xcr0();
    if ((saved & 0x06) != 0x06) return 2;
    return (seventh & v4_seventh) == v4_seventh && (saved & 0xe6) == 0xe6 ? 4 : 3;
}

static void store_level(unsigned char level) {
    __atomic_store_n(&vulfsjor_ffi_level, level, __ATOMIC_RELAXED);
}
#elif CHOOSE_TEST < 10
static unsigned char level_of_processor(void) { return CHOOSE_TEST; }
static void store_level(unsigned char level) { vulfsjor_ffi_level = level; }
#else
static unsigned char level_of_processor(void) {
    static unsigned turn;
    turn = turn * 1664525u + 1013904223u;
    return 2 + (turn >> 16) % (CHOOSE_TEST % 10 - 1);
}
static void store_level(unsigned char level) { (void)level; }
#endif

#ifndef CHOOSE_PART
/* Looks for the level, keeps it and returns it. */
__attribute__((used)) HIDDEN unsigned char vulfsjor_ffi_find(void) {
    static const char refusal[] =
        "vulfsjor: this processor is below x86-64-v2, which the library needs\n";
    unsigned char level = level_of_processor();

    if (!level) {
        if (write(2, refusal, sizeof refusal - 1) < 0) abort();
        abort();
    }
    store_level(level);
    return level;
}
#endif
#endif

#ifndef CHOOSE_PART
/* The version is that of the header, so the assembly is the same if only the version is another. */
SHOWN uint32_t vulfsjor_library_version(void) { return VULFSJOR_VERSION_NUMBER; }
#endif

/* The functions that vulfsjor.h declares, as tools/exports.py writes them. c/make_libraries.sh compares this
 * list with the header and with the assembly. */
#ifdef CHOOSE_FUNCTIONS
#include CHOOSE_FUNCTIONS
#elif !defined(__ELF__)
#include "thunks.h"
#else
CALL("vulfsjor_ffi_memcmp")
CALL("vulfsjor_ffi_wipe")

CALL("vulfsjor_ffi_blake2b")
CALL("vulfsjor_ffi_blake2b_many")
CALL("vulfsjor_ffi_blake2b_init_salt_personal")
CALL("vulfsjor_ffi_blake2b_init_key")
CALL("vulfsjor_ffi_blake2b_init_tree")
CALL("vulfsjor_ffi_blake2b_init_param")
CALL("vulfsjor_ffi_blake2b_update")
CALL("vulfsjor_ffi_blake2b_update_many")
CALL("vulfsjor_ffi_blake2b_final")
CALL("vulfsjor_ffi_blake2b_verify")
CALL("vulfsjor_ffi_blake2b_set_last_node")
CALL("vulfsjor_ffi_blake2b_reset")
CALL("vulfsjor_ffi_blake2b_save")
CALL("vulfsjor_ffi_blake2b_load")
CALL("vulfsjor_ffi_blake2b_wipe")
CALL("vulfsjor_ffi_blake2b_digest_size")
CALL("vulfsjor_ffi_blake2b_count")
CALL("vulfsjor_ffi_blake2b_state_size")

CALL("vulfsjor_ffi_blake2s")
CALL("vulfsjor_ffi_blake2s_many")
CALL("vulfsjor_ffi_blake2s_init_salt_personal")
CALL("vulfsjor_ffi_blake2s_init_key")
CALL("vulfsjor_ffi_blake2s_init_tree")
CALL("vulfsjor_ffi_blake2s_init_param")
CALL("vulfsjor_ffi_blake2s_update")
CALL("vulfsjor_ffi_blake2s_update_many")
CALL("vulfsjor_ffi_blake2s_final")
CALL("vulfsjor_ffi_blake2s_verify")
CALL("vulfsjor_ffi_blake2s_set_last_node")
CALL("vulfsjor_ffi_blake2s_reset")
CALL("vulfsjor_ffi_blake2s_save")
CALL("vulfsjor_ffi_blake2s_load")
CALL("vulfsjor_ffi_blake2s_wipe")
CALL("vulfsjor_ffi_blake2s_digest_size")
CALL("vulfsjor_ffi_blake2s_count")
CALL("vulfsjor_ffi_blake2s_state_size")

CALL("vulfsjor_ffi_blake2bp")
CALL("vulfsjor_ffi_blake2bp_init_salt_personal")
CALL("vulfsjor_ffi_blake2bp_init_key")
CALL("vulfsjor_ffi_blake2bp_update")
CALL("vulfsjor_ffi_blake2bp_final")
CALL("vulfsjor_ffi_blake2bp_verify")
CALL("vulfsjor_ffi_blake2bp_reset")
CALL("vulfsjor_ffi_blake2bp_wipe")
CALL("vulfsjor_ffi_blake2bp_digest_size")
CALL("vulfsjor_ffi_blake2bp_count")
CALL("vulfsjor_ffi_blake2bp_state_size")

CALL("vulfsjor_ffi_blake2sp")
CALL("vulfsjor_ffi_blake2sp_init_salt_personal")
CALL("vulfsjor_ffi_blake2sp_init_key")
CALL("vulfsjor_ffi_blake2sp_update")
CALL("vulfsjor_ffi_blake2sp_final")
CALL("vulfsjor_ffi_blake2sp_verify")
CALL("vulfsjor_ffi_blake2sp_reset")
CALL("vulfsjor_ffi_blake2sp_wipe")
CALL("vulfsjor_ffi_blake2sp_digest_size")
CALL("vulfsjor_ffi_blake2sp_count")
CALL("vulfsjor_ffi_blake2sp_state_size")

CALL("vulfsjor_ffi_blake2xb")
CALL("vulfsjor_ffi_blake2xb_derive_key")
CALL("vulfsjor_ffi_blake2xb_init_salt_personal")
CALL("vulfsjor_ffi_blake2xb_update")
CALL("vulfsjor_ffi_blake2xb_squeeze")
CALL("vulfsjor_ffi_blake2xb_reset")
CALL("vulfsjor_ffi_blake2xb_wipe")
CALL("vulfsjor_ffi_blake2xb_left")
CALL("vulfsjor_ffi_blake2xb_count")
CALL("vulfsjor_ffi_blake2xb_state_size")

CALL("vulfsjor_ffi_blake2xs")
CALL("vulfsjor_ffi_blake2xs_derive_key")
CALL("vulfsjor_ffi_blake2xs_init_salt_personal")
CALL("vulfsjor_ffi_blake2xs_update")
CALL("vulfsjor_ffi_blake2xs_squeeze")
CALL("vulfsjor_ffi_blake2xs_reset")
CALL("vulfsjor_ffi_blake2xs_wipe")
CALL("vulfsjor_ffi_blake2xs_left")
CALL("vulfsjor_ffi_blake2xs_count")
CALL("vulfsjor_ffi_blake2xs_state_size")

CALL("vulfsjor_ffi_tree_root")
CALL("vulfsjor_ffi_tree_init")
CALL("vulfsjor_ffi_tree_update")
CALL("vulfsjor_ffi_tree_final")
CALL("vulfsjor_ffi_tree_wipe")
CALL("vulfsjor_ffi_tree_digest_size")
CALL("vulfsjor_ffi_tree_count")
CALL("vulfsjor_ffi_tree_leaf_length")
CALL("vulfsjor_ffi_tree_state_size")
CALL("vulfsjor_ffi_tree_leaf_count")
CALL("vulfsjor_ffi_tree_leaves")
CALL("vulfsjor_ffi_tree_root_of_leaves")
CALL("vulfsjor_ffi_tree_leaves_ahead")
CALL("vulfsjor_ffi_tree_update_leaves")
CALL("vulfsjor_ffi_tree_check")
CALL("vulfsjor_ffi_tree_init_leaf")
CALL("vulfsjor_ffi_tree_init_root")
CALL("vulfsjor_ffi_tree_plan")
CALL("vulfsjor_ffi_tree_plan_update")
CALL("vulfsjor_ffi_tree_part")
#endif
