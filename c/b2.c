/* The C of the program b2, which is linked with an assembly file of dist/: its main, and what the
 * standard library of Rattle needs from C beyond the C library. The toolchain says what each
 * function must do (rattle/libc/src/heap.rt, rattle/os/src/c.rt). None of this is proved.
 * tests/b2.c tests each function.
 *
 * MAIN is the main of the assembly file, such as main_1_x86. On x86-64 it calls functions of the
 * library by the level that choose.c finds first. END is a function that gets the status of MAIN and
 * argument 0, which is empty if there is none, and returns the status of the process; FREE and
 * REALLOC are then used instead of free and realloc. VULFSJOR_BUILD says that
 * build.c is linked too, whose line --version prints. On Windows the
 * compiler needs -municode. */
#include <errno.h>
#include <stdbool.h>
#include <stddef.h>
#include <stdio.h>
#include <stdlib.h>
#include <string.h>
#include <sys/types.h>
#ifdef _WIN32
#include <fcntl.h>
#include <io.h>
#include <windows.h>
#else
#include <unistd.h>
#endif
#ifdef __APPLE__
#include <signal.h>
#endif

/* A function of the assembly, or that the assembly calls. On x86-64 it has System V's calling
 * convention, on Windows too. */
#if defined(_WIN32) && defined(__x86_64__)
#define OF_TEXT __attribute__((sysv_abi))
#else
#define OF_TEXT
#endif

/* ---- The start, and the arguments. */

OF_TEXT int MAIN(void);

#if defined(__x86_64__) && !defined(CHOOSE_ONE)
unsigned char vulfsjor_ffi_find(void);
static int run_main(void) { return vulfsjor_ffi_find() ? MAIN() : 1; }
#else
static int run_main(void) { return MAIN(); }
#endif

#ifdef END
int END(int status, const char *path);
void FREE(void *place);
void *REALLOC(void *place, size_t size);
#else
#define END(status, path) (status)
#define FREE free
#define REALLOC realloc
#endif

static size_t count;
static char **arguments;

/* Whether an argument is this name, or has it after its first =. b2sum.c calls this. */
bool b2_has_argument(const char *name);
bool b2_has_argument(const char *name) {
    for (size_t i = 1; i < count; i++) {
        const char *equals = strchr(arguments[i], '=');
        if (strcmp(arguments[i], name) == 0) return true;
        if (equals && strcmp(equals + 1, name) == 0) return true;
    }
    return false;
}

#ifdef VULFSJOR_BUILD
const char *vulfsjor_library_build(void);

/* What follows the version: the line of dist/MANIFEST for the text of the library that hashes. */
static int print_library_build(void) { return puts(vulfsjor_library_build()) < 0 || fflush(stdout) < 0; }
#else
static int print_library_build(void) { return 0; }
#endif

static int finish_program(int status) {
    if (!status && count == 2 && strcmp(arguments[1], "--version") == 0) status = print_library_build();
    return END(status, count ? arguments[0] : "");
}

#ifdef _WIN32
/* A copy of the text in UTF-8, in which U+FFFD replaces what is not Unicode, and / replaces \, which
 * is only in names of files: so a line of b2sum has the name that other systems have for the file. */
static char *utf8_of(const wchar_t *text) {
    const int size = WideCharToMultiByte(CP_UTF8, 0, text, -1, NULL, 0, NULL, NULL);
    char *copy = malloc((size_t)size + 1);

    if (!copy) abort();
    WideCharToMultiByte(CP_UTF8, 0, text, -1, copy, size, NULL, NULL);
    for (char *c = copy; *c; c++)
        if (*c == '\\') *c = '/';
    return copy;
}

/* Cuts off .exe, with which a program may be called by its name or not. */
static void cut_exe_suffix(char *path) {
    const size_t length = strlen(path);

    if (length >= 4 && !_stricmp(path + length - 4, ".exe")) path[length - 4] = 0;
}

/* The arguments in UTF-8, and streams that change no byte. */
int wmain(int argc, wchar_t **argv) {
    arguments = malloc(((size_t)argc + 1) * sizeof *arguments);
    if (!arguments) abort();
    for (count = 0; count < (size_t)argc; count++) arguments[count] = utf8_of(argv[count]);
    if (count) cut_exe_suffix(arguments[0]);
    for (int file = 0; file <= 2; file++) _setmode(file, _O_BINARY);
    return finish_program(run_main());
}

/* At most 2^30 bytes a call, since lengths of Windows have 32 bits. */
static unsigned capped_call_size(size_t size) { return size < 1u << 30 ? (unsigned)size : 1u << 30; }

/* read and write of other systems. */
OF_TEXT ssize_t b2_read(int file, void *bytes, size_t size) {
    return _read(file, bytes, capped_call_size(size));
}

OF_TEXT ssize_t b2_write(int file, const void *bytes, size_t size) {
    return _write(file, bytes, capped_call_size(size));
}

/* signal, which has nothing to do: a write to a pipe that nobody reads fails. */
OF_TEXT void *b2_signal(int signal, void *handler) {
    (void)signal;
    (void)handler;
    return NULL;
}
#else
int main(int argc, char **argv) {
    count = (size_t)argc;
    arguments = argv;
    return finish_program(run_main());
}
#endif

/* Copies argument i to the start of these `size` bytes and returns its length. Returns -1 if there
 * is no such argument, and -2 if it does not fit; the bytes are full then. */
OF_TEXT ssize_t rattle_arg(size_t i, char *bytes, size_t size) {
    size_t length;

    if (i >= count) return -1;
    length = strlen(arguments[i]);
    memcpy(bytes, arguments[i], length < size ? length : size);
    return length <= size ? (ssize_t)length : -2;
}

OF_TEXT int rattle_errno(void) { return errno; }

OF_TEXT void rattle_set_errno(int error) { errno = error; }

/* ---- Memory, aligned to at most 16 bytes. A block of 0 bytes is a block too. */

/* malloc of macOS and of 64-bit Windows aligns to 16 bytes on ARM too, where no type needs it. */
#if !defined(__APPLE__) && !defined(_WIN32)
_Static_assert(_Alignof(max_align_t) >= 16, "malloc aligns to 16 bytes");
#endif

/* Whether there is memory, and where. The place is never null. */
struct allocation {
    bool is_there;
    void *place;
};

static struct allocation allocation_of(void *place) {
    static char nothing;
    return (struct allocation){place != NULL, place ? place : &nothing};
}

OF_TEXT struct allocation rattle_alloc(size_t size, size_t alignment) {
    return allocation_of(malloc(size ? size : alignment));
}

/* The first `kept` bytes stay as they are, as do all that fit. If there is no memory, the block
 * stays. */
OF_TEXT struct allocation rattle_realloc(void *place, size_t kept, size_t size, size_t alignment) {
    (void)kept;
    return allocation_of(REALLOC(place, size ? size : alignment));
}

OF_TEXT void rattle_dealloc(void *place) { FREE(place); }

/* ---- What the text takes from a new glibc, for an older one (2.32 and before) and for other C
 * libraries. HAS_LEAVES and PROCESSOR, a header with a processor that is made up, are for tests. */

#ifdef __GLIBC__
#ifndef HAS_LEAVES
#define HAS_LEAVES __GLIBC_PREREQ(2, 33)
#endif
#else
#define HAS_LEAVES 0
#ifndef _WIN32
ssize_t __write(int file, const void *bytes, size_t size) { return write(file, bytes, size); }
#endif
#ifdef __APPLE__
void (*__sysv_signal(int number, void (*handler)(int)))(int) { return signal(number, handler); }
#endif
#endif

#if defined(__x86_64__) && !HAS_LEAVES
#ifdef PROCESSOR
#include PROCESSOR
#else
#include <cpuid.h>

/* The low half of XCR0: the registers that the system saves. */
static unsigned read_xcr0(void) {
    unsigned low, high;
    __asm__ volatile("xgetbv" : "=a"(low), "=d"(high) : "c"(0));
    return low;
}
#endif

/* What CPUID says in the registers a to d, and what of that can be used here. */
struct leaf {
    unsigned reported[4], active[4];
};

/* The leaves 1, 7 and 0x80000001 by the numbers 0, 1 and 2. */
OF_TEXT const struct leaf *__x86_get_cpuid_feature_leaf(unsigned number) {
    enum { FMA = 1 << 12, OSXSAVE = 1 << 27, AVX = 1 << 28, F16C = 1 << 29, AVX2 = 1 << 5 };
    static const unsigned numbers[] = {1, 7, 0x80000001u};
    static struct leaf leaf;
    unsigned *it = leaf.reported, a, b, c, d;
    bool saves_avx;

    memset(&leaf, 0, sizeof leaf);
    if (number > 2 || !__get_cpuid_count(numbers[number], 0, it, it + 1, it + 2, it + 3))
        return &leaf;
    memcpy(leaf.active, leaf.reported, sizeof leaf.active);
    saves_avx = __get_cpuid(1, &a, &b, &c, &d) && c & OSXSAVE && (read_xcr0() & 6) == 6;
    if (!saves_avx && number == 0) leaf.active[2] &= ~(unsigned)(FMA | AVX | F16C);
    if (!saves_avx && number == 1) leaf.active[1] &= ~(unsigned)AVX2;
    return &leaf;
}
#endif
