/* A library to preload into b2sum: some calls of one function of the system fail, or the memory that the process can
 * write is searched for a key at one of them.
 *
 *   FAULT_CALL   readv, pread, openat, write, close, malloc, realloc, prctl, readdir, or posix_fadvise that says of a
 *                whole file that it is read from its start to its end
 *   FAULT_AT     the number of the first call that fails, from 1
 *   FAULT_LAST   the number of the last one that does
 *   FAULT_ERROR  its errno; 0: it reads or writes one byte; -1: it returns 0, as at the end; -2: the process stops
 *                before it, and does not fail
 *   FAULT_OUT    a file that is made if a call fails: with a plus, if that is an openat or a readv before the file's
 *                turn
 *   FAULT_LOG    a file that gets a line for each openat, `open NAME`, or `ahead NAME` before the file's turn, or
 *                `list NAME` of a folder, and for each write to standard output, `write`
 *   FAULT_KEY    the digits of the bytes of the key, each of them exclusive or 0xFF. Then no call fails, and the file
 *                gets three numbers: of the pieces of 8 bytes of the key that were found, of PR_GET_DUMPABLE, and of
 *                the bytes that a core file may have (0 or 1: more)
 *
 * Nothing here holds a piece of the key as it is. It has to be linked with -z now: where a function is looked up at its
 * first call, the dynamic linker saves the vector registers on the stack, and with them pieces of the key, which then
 * are counted though the program has not left them. */
#define _GNU_SOURCE
#include <dirent.h>
#include <errno.h>
#include <fcntl.h>
#include <signal.h>
#include <stdio.h>
#include <stdlib.h>
#include <string.h>
#include <sys/prctl.h>
#include <sys/resource.h>
#include <sys/syscall.h>
#include <sys/uio.h>
#include <unistd.h>

void *__libc_malloc(size_t size), *__libc_realloc(void *place, size_t size);

enum { PIECE = 8, MOST = 64 };

static long number_from_environment(const char *name) {
    const char *text = getenv(name);
    return text ? atol(text) : 0;
}

/* How many pieces of the key, of which each byte is given by its complement, are in these bytes, at any place. It
 * compares byte by byte, since a word that is equal could be left on the stack here. */
static unsigned long key_pieces_in_range(const unsigned char *from, const unsigned char *to, const unsigned char *others,
                              size_t length) {
    unsigned long found = 0;

    for (; to - from >= PIECE; from++)
        for (size_t i = 0; i < length; i += PIECE) {
            size_t same = 0;
            while (same < PIECE && (from[same] ^ others[i + same]) == 0xFF) same++;
            found += same == PIECE;
        }
    return found;
}

static unsigned long key_pieces_in_memory(const char *digits) {
    static unsigned char others[MOST];
    static char maps[1 << 16];
    const int file = (int)syscall(SYS_openat, AT_FDCWD, "/proc/self/maps", O_RDONLY);
    unsigned long found = 0, from, to;
    size_t length = 0;
    char mode[5];
    long count;

    for (; *digits; digits += 2) sscanf(digits, "%2hhx", &others[length++]);
    for (size_t at = 0; (count = syscall(SYS_read, file, maps + at, sizeof maps - 1 - at)) > 0; at += (size_t)count) {
    }
    syscall(SYS_close, file);
    for (const char *line = maps; line && *line; line = strchr(line, '\n'), line += !!line)
        if (sscanf(line, "%lx-%lx %4s", &from, &to, mode) == 3 && !strncmp(mode, "rw", 2))
            found += key_pieces_in_range((const unsigned char *)from, (const unsigned char *)to, others, length);
    return found;
}

/* Appends the line of a call to the log, if there is one. */
static void log_call(const char *call, const char *name) {
    const char *log = getenv("FAULT_LOG");
    char line[4200];
    int file, length;

    if (!log) return;
    length = snprintf(line, sizeof line, "%s%s\n", call, name);
    file = (int)syscall(SYS_openat, AT_FDCWD, log, O_CREAT | O_WRONLY | O_APPEND, 0600);
    syscall(SYS_write, file, line, length);
    syscall(SYS_close, file);
}

/* Whether this call, over a file that was opened with these flags, is one of those that fail. A file before its turn is
 * opened with O_NONBLOCK. */
static int is_failing_call_with_flags(const char *call, int flags) {
    static long calls;
    const char *wanted = getenv("FAULT_CALL"), *key = getenv("FAULT_KEY");
    struct rlimit core;
    char line[100];
    long count;
    int file;

    if (!wanted || strcmp(call, wanted)) return 0;
    count = __atomic_add_fetch(&calls, 1, __ATOMIC_RELAXED);
    if (count < number_from_environment("FAULT_AT") || count > number_from_environment("FAULT_LAST")) return 0;
    file = (int)syscall(SYS_openat, AT_FDCWD, getenv("FAULT_OUT"), O_CREAT | O_WRONLY, 0600);
    if (key) {
        getrlimit(RLIMIT_CORE, &core);
        count = sprintf(line, "%lu %ld %d\n", key_pieces_in_memory(key), syscall(SYS_prctl, PR_GET_DUMPABLE),
                        core.rlim_max != 0);
        syscall(SYS_write, file, line, count);
    } else if (flags & O_NONBLOCK) {
        syscall(SYS_write, file, "+", 1);
    }
    syscall(SYS_close, file);
    if (number_from_environment("FAULT_ERROR") == -2) return raise(SIGSTOP);
    errno = (int)number_from_environment("FAULT_ERROR");
    return !key;
}

static int is_failing_call(const char *call) { return is_failing_call_with_flags(call, 0); }

/* Whether this call fails, or returns 0; or else how many bytes it reads or writes at most. */
static int fails_or_shortens_call(const char *call, int flags, size_t *size, long *result) {
    const long error = number_from_environment("FAULT_ERROR");

    if (!is_failing_call_with_flags(call, flags)) return 0;
    if (!error && *size > 1) *size = 1;
    *result = error < 0 ? 0 : -1;
    return error != 0;
}

ssize_t readv(int file, const struct iovec *room, int count) {
    struct iovec first = *room;
    long result;

    return fails_or_shortens_call("readv", fcntl(file, F_GETFL), &first.iov_len, &result) ? result
                                                                        : syscall(SYS_readv, file, &first, count);
}

ssize_t pread(int file, void *bytes, size_t size, off_t from) {
    long result;

    return fails_or_shortens_call("pread", 0, &size, &result) ? result : syscall(SYS_pread64, file, bytes, size, from);
}

ssize_t write(int file, const void *bytes, size_t size) {
    long result;

    if (file == STDOUT_FILENO) log_call("write", "");
    return fails_or_shortens_call("write", 0, &size, &result) ? result : syscall(SYS_write, file, bytes, size);
}

ssize_t __write(int file, const void *bytes, size_t size) { return write(file, bytes, size); }

int openat(int folder, const char *name, int flags, ...) {
    log_call(flags & O_NONBLOCK ? "ahead " : flags & O_DIRECTORY ? "list " : "open ", name);
    return is_failing_call_with_flags("openat", flags) ? -1 : (int)syscall(SYS_openat, folder, name, flags, 0);
}

/* Without an error it is the end of the folder. */
struct dirent *readdir(DIR *folder) {
    if (is_failing_call("readdir")) return NULL;
    return (struct dirent *)readdir64(folder); /* which are the same on 64-bit systems */
}

int prctl(int option, ...) { return is_failing_call("prctl") ? -1 : (int)syscall(SYS_prctl, option, 0L, 0L, 0L, 0L); }

int close(int file) { return is_failing_call("close") ? -1 : (int)syscall(SYS_close, file); }

void *malloc(size_t size) { return is_failing_call("malloc") ? NULL : __libc_malloc(size); }

void *realloc(void *place, size_t size) { return is_failing_call("realloc") ? NULL : __libc_realloc(place, size); }

int posix_fadvise(int file, off_t from, off_t length, int advice) {
    (void)file;
    if (!from && !length && advice == POSIX_FADV_SEQUENTIAL) is_failing_call("posix_fadvise");
    return EINVAL;
}
