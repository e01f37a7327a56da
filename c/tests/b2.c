/* Tests each function of ../b2.c, which has the main and is included, with malloc, realloc and free
 * that count and can refuse. programs.sh has the commands:
 *
 *   program one "two words" ""
 *
 * The status is 7 if all checks hold. */
#include "check.h"

#include <stdbool.h>
#include <stdlib.h>

#ifdef _WIN32
#include <io.h>

/* _read and _write of Windows, whose lengths have 32 bits, note their arguments. */
static int asked_file, returned;
static const void *asked_bytes;
static unsigned asked_length;

static int record_io_call(int file, const void *bytes, unsigned size) {
    asked_file = file, asked_bytes = bytes, asked_length = size;
    return returned;
}

#define _read record_io_call
#define _write record_io_call
#endif

/* The last size that was requested from the C library, the number of calls of free, the last
 * pointer that was freed, and whether allocations fail. */
static size_t asked, freed;
static void *last_freed;
static bool refuses;

static void *counted_malloc(size_t size) {
    asked = size;
    return refuses ? NULL : malloc(size);
}

static void *counted_realloc(void *place, size_t size) {
    asked = size;
    return refuses ? NULL : realloc(place, size);
}

static void counted_free(void *place) {
    freed++;
    last_freed = place;
    free(place);
}

#define malloc counted_malloc
#define realloc counted_realloc
#define free counted_free
#define MAIN check_all
#include "../b2.c"

static void check_argument(size_t i, const char *wanted) {
    const size_t length = strlen(wanted);
    char bytes[32];

    for (size_t size = 0; size <= length + 2; size++) {
        memset(bytes, '#', sizeof bytes);
        CHECK(rattle_arg(i, bytes, size) == (size < length ? -2 : (ssize_t)length));
        CHECK(!memcmp(bytes, wanted, size < length ? size : length));
        CHECK(bytes[size < length ? size : length] == '#');
    }
}

static void check_arguments(void) {
    char bytes[1] = {'#'};

    check_argument(1, "one");
    check_argument(2, "two words");
    check_argument(3, "");
    CHECK(rattle_arg(4, bytes, 1) == -1 && rattle_arg(SIZE_MAX, bytes, 1) == -1 && bytes[0] == '#');
    CHECK(rattle_arg(((size_t)1 << 32) + 1, bytes, 1) == -1 && bytes[0] == '#');
}

/* The name of the program is no argument. */
static void check_b2_has_argument(void) {
    char *words[] = {"NUL", "--key-file=//HOST/a=b", "--tag", "COM1", "=", NULL}, **before = arguments;
    const size_t all = count;

    arguments = words;
    count = 5;
    CHECK(b2_has_argument("//HOST/a=b") && b2_has_argument("--tag") && b2_has_argument("COM1") && b2_has_argument(""));
    CHECK(b2_has_argument("--key-file=//HOST/a=b") && !b2_has_argument("NUL") && !b2_has_argument("b"));
    CHECK(!b2_has_argument("COM") && !b2_has_argument("COM12") && !b2_has_argument("--key-file"));
    count = 0;
    CHECK(!b2_has_argument("COM1"));
    arguments = before;
    count = all;
}

static void check_errno_is_shared(void) {
    errno = EIO;
    CHECK(rattle_errno() == EIO);
    rattle_set_errno(EINTR);
    CHECK(errno == EINTR && rattle_errno() == EINTR);
    rattle_set_errno(0);
    CHECK(errno == 0);
}

static void check_allocation_functions(void) {
    static const size_t sizes[] = {0, 1, 15, 16, 17, 4096, 1 << 20};
    unsigned char *bytes;
    struct allocation block, more;

    for (size_t i = 0; i < sizeof sizes / sizeof *sizes; i++) {
        block = rattle_alloc(sizes[i], 16);
        CHECK(block.is_there && block.place && (uintptr_t)block.place % 16 == 0);
        CHECK(asked == (sizes[i] ? sizes[i] : 16));
        memset(block.place, 1, asked);
        freed = 0;
        rattle_dealloc(block.place);
        CHECK(freed == 1 && last_freed == block.place);
    }
    block = rattle_alloc(5, 1);
    memcpy(block.place, "hello", 5);
    more = rattle_realloc(block.place, 5, 1 << 20, 1);
    CHECK(more.is_there && more.place && asked == 1 << 20 && !memcmp(more.place, "hello", 5));
    bytes = more.place;
    bytes[(1 << 20) - 1] = 1;
    more = rattle_realloc(more.place, 3, 3, 1);
    CHECK(more.is_there && asked == 3 && !memcmp(more.place, "hel", 3));
    more = rattle_realloc(more.place, 0, 0, 8);
    CHECK(more.is_there && more.place && asked == 8);
    more = rattle_realloc(more.place, 0, 4, 8);
    memcpy(more.place, "kept", 4);
    refuses = true;
    block = rattle_realloc(more.place, 4, 1 << 20, 1);
    CHECK(!block.is_there && block.place && !memcmp(more.place, "kept", 4));
    block = rattle_realloc(more.place, 4, ((size_t)1 << 40) + 5, 1);
    CHECK(!block.is_there && asked == ((size_t)1 << 40) + 5);
    block = rattle_alloc(((size_t)1 << 32) + 4, 1);
    CHECK(!block.is_there && block.place && asked == ((size_t)1 << 32) + 4);
    refuses = false;
    rattle_dealloc(more.place);
    CHECK(last_freed == more.place);
}

#ifdef _WIN32
/* What is there instead of read and write asks for at most 2^30 bytes, and returns what it gets. */
static void check_read_and_write_calls(void) {
    const size_t most = 1u << 30, sizes[] = {0, 1, most - 1, most, most + 1, (size_t)1 << 32, SIZE_MAX};
    static char bytes[1];

    for (size_t i = 0; i < sizeof sizes / sizeof *sizes; i++)
        for (returned = -1; returned < 2; returned++) {
            const unsigned wanted = (unsigned)(sizes[i] < most ? sizes[i] : most);

            CHECK(b2_read(7, bytes, sizes[i]) == returned && asked_file == 7);
            CHECK(asked_bytes == bytes && asked_length == wanted);
            asked_bytes = NULL, asked_length = 9;
            CHECK(b2_write(8, bytes, sizes[i]) == returned && asked_file == 8);
            CHECK(asked_bytes == bytes && asked_length == wanted);
        }
}
#elif !defined(__GLIBC__)
/* The name that glibc has for write. */
static void check_read_and_write_calls(void) {
    char said[4] = "####";
    int ends[2];

    CHECK(!pipe(ends) && __write(ends[1], "abcd", 3) == 3);
    CHECK(read(ends[0], said, 4) == 3 && !memcmp(said, "abc#", 4));
    errno = 0;
    CHECK(__write(ends[0], "a", 1) == -1 && errno == EBADF);
}
#else
static void check_read_and_write_calls(void) {}
#endif

#ifdef PROCESSOR
/* The leaves of a processor that is made up (fake_cpuid.h). */
static void set_fake_cpuid(unsigned first, unsigned seventh, unsigned extended, unsigned saved) {
    made_up = (struct made_up){7, 0x80000008u, first, seventh, extended, saved};
}

static bool leaf_has_bits(unsigned number, unsigned at, unsigned reported, unsigned active) {
    const struct leaf *leaf = __x86_get_cpuid_feature_leaf(number);
    return leaf->reported[at] == reported && leaf->active[at] == active;
}

static void check_cpuid_leaves(void) {
    const unsigned all = ~0u, first = 1u << 12 | 1u << 28 | 1u << 29, avx2 = 1u << 5;
    const unsigned no_xsave = ~(1u << 27), other = 0xdeadbeef; /* as fake_cpuid.h has it */

    for (unsigned saved = 0; saved < 16; saved++) {
        const bool saves = saved == 6 || saved == 7 || saved >= 14;
        set_fake_cpuid(all, all, 0x21, saved);
        CHECK(leaf_has_bits(0, 2, all, saves ? all : ~first));
        CHECK(leaf_has_bits(1, 1, all, saves ? all : ~avx2));
        CHECK(leaf_has_bits(2, 2, 0x21, 0x21));
        CHECK(leaf_has_bits(0, 1, other, other) && leaf_has_bits(1, 2, other, other));
        CHECK(leaf_has_bits(2, 1, other, other));
        set_fake_cpuid(no_xsave, all, 0x21, saved);
        CHECK(leaf_has_bits(0, 2, no_xsave, no_xsave & ~first));
        CHECK(leaf_has_bits(1, 1, all, ~avx2));
    }
    set_fake_cpuid(all, all, all, 6);
    for (unsigned at = 0; at < 4; at++) CHECK(leaf_has_bits(3, at, 0, 0) && leaf_has_bits(~0u, at, 0, 0));
}
#elif defined(__x86_64__) && !HAS_LEAVES
/* Those of this processor, for which the compiler has a test too. */
static void check_cpuid_leaves(void) {
    CHECK(!(__x86_get_cpuid_feature_leaf(0)->active[2] >> 12 & 1) ==
          !__builtin_cpu_supports("fma"));
    CHECK(!(__x86_get_cpuid_feature_leaf(1)->active[1] >> 5 & 1) ==
          !__builtin_cpu_supports("avx2"));
}
#else
static void check_cpuid_leaves(void) {}
#endif

OF_TEXT int check_all(void) {
    check_arguments();
    check_b2_has_argument();
    check_errno_is_shared();
    check_allocation_functions();
    check_read_and_write_calls();
    check_cpuid_leaves();
    return fails ? 1 : 7;
}
