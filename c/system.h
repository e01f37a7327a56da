/* What threads.c and b2sum.c call of a system, where Linux, macOS and Windows differ. Files have
 * descriptors of the C library. What returns -1 has set errno, to the number that POSIX has for the
 * error. It is included before all other headers. tests/threads.c, tests/thread_faults.c and
 * tests/b2sum.c test it, and tests/windows.sh what is for Windows. */
#ifndef VULFSJOR_SYSTEM_H
#define VULFSJOR_SYSTEM_H
#define _GNU_SOURCE
#ifdef _WIN32
#define _FILE_OFFSET_BITS 64
#endif
#include <errno.h>
#include <fcntl.h>
#include <stdbool.h>
#include <stdint.h>
#include <stdlib.h>
#include <string.h>
#include <sys/stat.h>
#include <sys/types.h>
#include <unistd.h>

/* Whether this is the name of the folder itself or of the one above, which every folder has. */
static inline bool is_dot_or_dot_dot(const char *name) { return !strcmp(name, ".") || !strcmp(name, ".."); }

#ifndef _WIN32
#include <dirent.h>
#include <pthread.h>
#include <sched.h>
#include <signal.h>
#include <sys/resource.h>
#include <sys/uio.h>
#include <time.h>
#ifdef __APPLE__
#include <malloc/malloc.h>
#else
#include <malloc.h>
#endif
#ifdef __linux__
#include <sys/prctl.h>
#endif

typedef pthread_t thread;
typedef void *thread_result;
#define THREAD_CALL

/* A lock, and a condition to wait for under it. */
typedef struct gate {
    pthread_mutex_t lock;
    pthread_cond_t changed;
} gate;
#define GATE {PTHREAD_MUTEX_INITIALIZER, PTHREAD_COND_INITIALIZER}

static inline void lock_gate(gate *it) { pthread_mutex_lock(&it->lock); }
static inline void unlock_gate(gate *it) { pthread_mutex_unlock(&it->lock); }
static inline void wait_in_gate(gate *it) { pthread_cond_wait(&it->changed, &it->lock); }
static inline void wake_all(gate *it) { pthread_cond_broadcast(&it->changed); }

/* Starts up to count threads, and returns how many: the system may have no more. They block all
 * signals except SIGBUS and SIGSEGV, so that a program's handlers run in its own threads. */
static inline unsigned start_threads(thread *threads, unsigned count, void *(*function)(void *),
                                     void *given) {
    sigset_t blocked, before;
    unsigned started = 0;

    sigfillset(&blocked);
    sigdelset(&blocked, SIGBUS);
    sigdelset(&blocked, SIGSEGV);
    pthread_sigmask(SIG_SETMASK, &blocked, &before);
    while (started < count && !pthread_create(&threads[started], NULL, function, given)) started++;
    pthread_sigmask(SIG_SETMASK, &before, NULL);
    return started;
}

static inline void join_thread(thread it) { pthread_join(it, NULL); }

/* Keeps the caller's thread from being canceled. Returns what ends that. */
static inline int disable_cancellation(void) {
    int before;

    pthread_setcancelstate(PTHREAD_CANCEL_DISABLE, &before);
    return before;
}

static inline void restore_cancellation(int before) { pthread_setcancelstate(before, NULL); }

/* The number of processors that the caller's thread may run on. */
static inline unsigned processor_count(void) {
    long n;
#ifdef CPU_COUNT
    cpu_set_t set;

    if (!sched_getaffinity(0, sizeof set, &set)) return (unsigned)CPU_COUNT(&set);
#endif
    n = sysconf(_SC_NPROCESSORS_ONLN); /* the machine has more than the set has room for */
    return n > 0 ? (unsigned)n : 1;
}

/* Opens a file for reading. */
static inline int open_path(const char *path) {
    return openat(AT_FDCWD, path, O_RDONLY | O_CLOEXEC);
}

/* Reads at most size bytes, from this byte of the file on. */
static inline ssize_t read_from(int file, void *bytes, size_t size, uint64_t from) {
    return pread(file, bytes, size, (off_t)from);
}

/* Reads at most size bytes from the file's position on, as they are in the file. Returns 0 at its
 * end. */
static inline ssize_t read_stream(int file, void *bytes, size_t size) {
    return read(file, bytes, size);
}

/* ---- What only b2sum.c calls. */

/* Whether paths can be names of devices. */
#define HAS_DEVICE_NAMES 0

/* Reads at most size bytes. */
static inline ssize_t read_next(int file, void *bytes, size_t size) {
    const struct iovec room = {bytes, size};

    return readv(file, &room, 1);
}

/* Whether this is the path of a descriptor, such as /dev/stdin, which on macOS shares its position. */
static inline bool is_descriptor_path(const char *path) {
    return !strncmp(path, "/dev/fd/", 8) || !strncmp(path, "/dev/std", 8);
}

/* Whether this is a regular file with 1 to most bytes. */
static inline bool is_regular_nonempty_up_to(const struct stat *about, off_t most) {
    return S_ISREG(about->st_mode) && about->st_size >= 1 && about->st_size <= most;
}

/* What standard output is: it stays the same, so it is looked at once. */
static struct {
    bool is_known, is_open;
    struct stat about;
} standard_output;

/* Whether this is the file of standard output. */
static inline bool is_standard_output_file(const struct stat *about) {
    if (!standard_output.is_known) standard_output.is_open = !fstat(STDOUT_FILENO, &standard_output.about);
    standard_output.is_known = true;
    return standard_output.is_open && standard_output.about.st_dev == about->st_dev &&
           standard_output.about.st_ino == about->st_ino;
}

/* Opens a regular file with 1 to most bytes for reading, which is not standard output. It waits for
 * nothing: a pipe or a device that has meanwhile taken the place of the file is closed again.
 * Returns the descriptor, or -1 and sets errno: to EAGAIN if it is another file. */
static inline int open_regular_up_to(const char *path, off_t most) {
    struct stat about;
    int file;

    if (stat(path, &about)) return -1;
    errno = EAGAIN;
    if (!is_regular_nonempty_up_to(&about, most) || is_descriptor_path(path)) return -1;
    file = openat(AT_FDCWD, path, O_RDONLY | O_CLOEXEC | O_NONBLOCK);
    if (file < 0 || (!fstat(file, &about) && is_regular_nonempty_up_to(&about, most) &&
                     !is_standard_output_file(&about))) return file;
    close(file);
    errno = EAGAIN;
    return -1;
}

/* The entries of a folder, as they are read. */
typedef struct folder {
    DIR *entries;
} folder;

/* Opens a folder, or the one to which a link leads. */
static inline int open_folder(const char *path) {
    return openat(AT_FDCWD, path, O_RDONLY | O_DIRECTORY | O_CLOEXEC);
}

/* Begins to read the folder that is open as this file and has this path. Returns whether it does;
 * then close_folder closes the file. */
static inline bool begin_reading_folder(folder *it, int file, const char *path) {
    (void)path;
    return (it->entries = fdopendir(file)) != NULL;
}

static inline int close_folder(folder *it) { return closedir(it->entries); }

/* The kind of an entry: d for a folder, f for a regular file or if the system does not know it, and
 * o for all others, such as links, which are not followed. */
static inline char entry_kind_of(int folder, const char *name) {
    struct stat about;
    int result;

    do result = fstatat(folder, name, &about, AT_SYMLINK_NOFOLLOW);
    while (result && errno == EINTR);
    if (result || S_ISREG(about.st_mode)) return 'f';
    return S_ISDIR(about.st_mode) ? 'd' : 'o';
}

/* Returns the name of the next entry, which the next call may overwrite, and sets its kind. Returns
 * null at the end or after an error, and sets errno to 0 or to that. */
static inline const char *next_entry(folder *it, char *kind) {
    const struct dirent *entry;

    do {
        errno = 0;
        entry = readdir(it->entries);
    } while (entry ? is_dot_or_dot_dot(entry->d_name) : errno == EINTR);
    if (!entry) return NULL;
    *kind = entry_kind_of(dirfd(it->entries), entry->d_name);
    return entry->d_name;
}

/* Tells the system that a file is read from its start to its end. */
static inline void advise_sequential_read(int file) {
#ifdef POSIX_FADV_SEQUENTIAL
    posix_fadvise(file, 0, 0, POSIX_FADV_SEQUENTIAL);
#else
    (void)file;
#endif
}

/* Whether it is a regular file that users other than its owner may read. */
static inline bool others_may_read(int file) {
    struct stat about;

    return !fstat(file, &about) && S_ISREG(about.st_mode) && about.st_mode & (S_IRGRP | S_IROTH);
}

static inline bool is_terminal(int file) { return isatty(file); }

/* A time in milliseconds. */
static inline uint64_t current_milliseconds(void) {
    struct timespec t;

    clock_gettime(CLOCK_MONOTONIC, &t);
    return (uint64_t)t.tv_sec * 1000 + (uint64_t)t.tv_nsec / 1000000;
}

/* The number of bytes of a block of memory, or 0 for null. */
static inline size_t heap_block_size(void *place) {
#ifdef __APPLE__
    return malloc_size(place);
#else
    return malloc_usable_size(place);
#endif
}

/* Keeps the memory of the process from core files, and on Linux from other processes of its user.
 * Returns whether the system does. */
static inline bool hide_memory(void) {
    const struct rlimit none = {0, 0};
    int result = 0;

#ifdef __linux__
    result = prctl(PR_SET_DUMPABLE, 0L, 0L, 0L, 0L);
#endif
    return !setrlimit(RLIMIT_CORE, &none) && !result;
}
#else
#include <io.h>
#include <process.h>
#include <stdarg.h>
#include <stdio.h>
#include <wchar.h>
#include <windows.h>

typedef HANDLE thread;
typedef unsigned thread_result;
#define THREAD_CALL __stdcall

typedef struct gate {
    SRWLOCK lock;
    CONDITION_VARIABLE changed;
} gate;
#define GATE {SRWLOCK_INIT, CONDITION_VARIABLE_INIT}

static inline void lock_gate(gate *it) { AcquireSRWLockExclusive(&it->lock); }
static inline void unlock_gate(gate *it) { ReleaseSRWLockExclusive(&it->lock); }
static inline void wait_in_gate(gate *it) {
    SleepConditionVariableSRW(&it->changed, &it->lock, INFINITE, 0);
}
static inline void wake_all(gate *it) { WakeAllConditionVariable(&it->changed); }

static inline unsigned start_threads(thread *threads, unsigned count,
                                     thread_result(THREAD_CALL *function)(void *), void *given) {
    unsigned started = 0;

    while (started < count &&
           (threads[started] = (HANDLE)_beginthreadex(NULL, 0, function, given, 0, NULL)))
        started++;
    return started;
}

static inline void join_thread(thread it) {
    WaitForSingleObject(it, INFINITE);
    CloseHandle(it);
}

static inline int disable_cancellation(void) { return 0; }

static inline void restore_cancellation(int before) { (void)before; }

static inline unsigned processor_count(void) {
    DWORD_PTR own, all;

    if (!GetProcessAffinityMask(GetCurrentProcess(), &own, &all) || !own) return 1;
    return (unsigned)__builtin_popcountll(own);
}

/* The number that POSIX has for an error of Windows. */
static inline int errno_of_error(DWORD error) {
    switch (error) {
        case ERROR_FILE_NOT_FOUND:
        case ERROR_PATH_NOT_FOUND:
        case ERROR_INVALID_NAME:
        case ERROR_BAD_PATHNAME:
        case ERROR_BAD_NETPATH:
        case ERROR_BAD_NET_NAME:
        case ERROR_INVALID_DRIVE: return ENOENT;
        case ERROR_ACCESS_DENIED:
        case ERROR_SHARING_VIOLATION:
        case ERROR_LOCK_VIOLATION: return EACCES;
        case ERROR_INVALID_HANDLE: return EBADF;
        case ERROR_TOO_MANY_OPEN_FILES: return EMFILE;
        case ERROR_NOT_ENOUGH_MEMORY:
        case ERROR_OUTOFMEMORY: return ENOMEM;
        case ERROR_FILENAME_EXCED_RANGE: return ENAMETOOLONG;
        default: return EIO;
    }
}

enum { LONGEST_PATH = 1 << 15, SHORT_PATH = 240, PREFIX_ROOM = 8 };

/* Writes a path in UTF-8 as Windows has it to this room, which is twice the longest. A long one gets
 * the prefix by which Windows opens it. Returns where it begins, or null and sets errno. */
static inline const wchar_t *wide_path(const char *name, wchar_t *room) {
    wchar_t *whole = room + LONGEST_PATH + PREFIX_ROOM;
    const DWORD left = LONGEST_PATH - PREFIX_ROOM;
    DWORD length;

    if (!MultiByteToWideChar(CP_UTF8, MB_ERR_INVALID_CHARS, name, -1, room, LONGEST_PATH)) {
        errno = GetLastError() == ERROR_INSUFFICIENT_BUFFER ? ENAMETOOLONG : ENOENT;
        return NULL;
    }
    for (wchar_t *c = room; *c; c++)
        if (*c == L'/') *c = L'\\';
    if (wcslen(room) < SHORT_PATH || !wcsncmp(room, L"\\\\?\\", 4) || !wcsncmp(room, L"\\\\.\\", 4))
        return room;
    length = GetFullPathNameW(room, left, whole, NULL);
    if (!length || length >= left) {
        errno = ENAMETOOLONG;
        return NULL;
    }
    if (whole[0] != L'\\') return memcpy(whole - 4, L"\\\\?\\", 4 * sizeof *whole);
    return memcpy(whole - 6, L"\\\\?\\UNC", 7 * sizeof *whole);
}

/* Opens a file for reading, by its path in UTF-8. Others may write, rename and remove it. */
static inline int open_path(const char *name) {
    wchar_t *const room = malloc(2 * LONGEST_PATH * sizeof *room);
    const wchar_t *const path = room ? wide_path(name, room) : NULL;
    HANDLE handle;
    int file = -1;

    if (path) {
        handle = CreateFileW(path, GENERIC_READ,
                             FILE_SHARE_READ | FILE_SHARE_WRITE | FILE_SHARE_DELETE, NULL,
                             OPEN_EXISTING, FILE_FLAG_SEQUENTIAL_SCAN, NULL);
        if (handle == INVALID_HANDLE_VALUE) {
            const DWORD error = GetLastError(), about = GetFileAttributesW(path);
            const bool is_folder = about != INVALID_FILE_ATTRIBUTES &&
                                   about & FILE_ATTRIBUTE_DIRECTORY;
            errno = is_folder ? EISDIR : errno_of_error(error);
        } else {
            file = _open_osfhandle((intptr_t)handle, _O_RDONLY | _O_BINARY | _O_NOINHERIT);
            if (file < 0) CloseHandle(handle);
        }
    }
    free(room);
    return file;
}

/* Reads at most 2^30 bytes from a place, or from the file's position if that is null. The C library
 * does not see them: it would turn CR LF into LF, and end at a byte 26, where the descriptor is in text
 * mode. */
static inline ssize_t read_handle(int file, void *bytes, size_t size, OVERLAPPED *place) {
    const DWORD most = size < 1u << 30 ? (DWORD)size : 1u << 30;
    DWORD count;

    if (ReadFile((HANDLE)_get_osfhandle(file), bytes, most, &count, place)) return (ssize_t)count;
    if (GetLastError() == ERROR_HANDLE_EOF || GetLastError() == ERROR_BROKEN_PIPE) return 0;
    errno = errno_of_error(GetLastError());
    return -1;
}

/* The position of the file moves. */
static inline ssize_t read_from(int file, void *bytes, size_t size, uint64_t from) {
    OVERLAPPED place = {.Offset = (DWORD)from, .OffsetHigh = (DWORD)(from >> 32)};

    return read_handle(file, bytes, size, &place);
}

static inline ssize_t read_stream(int file, void *bytes, size_t size) {
    return read_handle(file, bytes, size, NULL);
}

/* ---- What only b2sum.c calls. */

#define HAS_DEVICE_NAMES 1

static inline ssize_t read_next(int file, void *bytes, size_t size) {
    return _read(file, bytes, size < 1u << 30 ? (unsigned)size : 1u << 30);
}

/* No file is read before its turn. */
static inline int open_regular_up_to(const char *path, off_t most) {
    (void)path;
    (void)most;
    errno = EAGAIN;
    return -1;
}

/* The entries of a folder, as they are read: a file that stands for it, what reads them, the last
 * one, whether that is yet to be returned, and its name in UTF-8. */
typedef struct folder {
    int file;
    HANDLE entries;
    WIN32_FIND_DATAW entry;
    bool is_new;
    char name[3 * MAX_PATH];
} folder;

/* Opens a file that stands for the folder of this path. */
static inline int open_folder(const char *name) {
    wchar_t *const room = malloc(2 * LONGEST_PATH * sizeof *room);
    const wchar_t *const path = room ? wide_path(name, room) : NULL;
    int file = -1;

    if (path) {
        const DWORD about = GetFileAttributesW(path);
        if (about == INVALID_FILE_ATTRIBUTES) {
            errno = errno_of_error(GetLastError());
        } else if (!(about & FILE_ATTRIBUTE_DIRECTORY)) {
            errno = ENOTDIR;
        } else {
            file = _open("NUL", _O_RDONLY | _O_BINARY | _O_NOINHERIT);
        }
    }
    free(room);
    return file;
}

/* Finds the first entry, by the path of all of them. The root of a drive may have none. */
static inline bool find_first_entry(folder *it, const char *name, wchar_t *room) {
    const wchar_t *const path = wide_path(name, room);
    DWORD error;

    if (!path) return false;
    it->entries = FindFirstFileW(path, &it->entry);
    it->is_new = it->entries != INVALID_HANDLE_VALUE;
    error = it->is_new ? 0 : GetLastError();
    errno = errno_of_error(error);
    return it->is_new || error == ERROR_FILE_NOT_FOUND;
}

/* The path of all entries of C: is C:/, as those of its entries. */
static inline bool begin_reading_folder(folder *it, int file, const char *path) {
    const size_t length = strlen(path);
    const bool has_slash = length && strchr("/\\", path[length - 1]);
    wchar_t *const room = malloc(2 * LONGEST_PATH * sizeof *room);
    char *const all = malloc(length + 3);
    bool is_begun = false;

    it->file = file;
    if (room && all) {
        memcpy(all, path, length);
        strcpy(all + length, has_slash ? "*" : "/*");
        is_begun = find_first_entry(it, all, room);
    }
    free(all);
    free(room);
    return is_begun;
}

static inline int close_folder(folder *it) {
    if (it->entries != INVALID_HANDLE_VALUE) FindClose(it->entries);
    return _close(it->file);
}

/* What stands for another path, such as a link or a junction, is neither a folder nor a file. */
static inline char entry_kind_of(const WIN32_FIND_DATAW *entry) {
    const bool is_reparsed = entry->dwFileAttributes & FILE_ATTRIBUTE_REPARSE_POINT;

    if (is_reparsed && IsReparseTagNameSurrogate(entry->dwReserved0)) return 'o';
    return entry->dwFileAttributes & FILE_ATTRIBUTE_DIRECTORY ? 'd' : 'f';
}

/* In the name U+FFFD replaces what is not Unicode, as in arguments. */
static inline const char *next_entry(folder *it, char *kind) {
    errno = 0;
    if (it->entries == INVALID_HANDLE_VALUE) return NULL;
    do {
        if (!it->is_new && !FindNextFileW(it->entries, &it->entry)) {
            if (GetLastError() != ERROR_NO_MORE_FILES) errno = errno_of_error(GetLastError());
            return NULL;
        }
        it->is_new = false;
        WideCharToMultiByte(CP_UTF8, 0, it->entry.cFileName, -1, it->name, sizeof it->name, NULL, NULL);
    } while (is_dot_or_dot_dot(it->name));
    *kind = entry_kind_of(&it->entry);
    return it->name;
}

static inline void advise_sequential_read(int file) { (void)file; }

/* Who may read a file is not looked at. */
static inline bool others_may_read(int file) {
    (void)file;
    return false;
}

/* Whether it is a console, which then obeys escape sequences. */
static inline bool is_terminal(int file) {
    const HANDLE handle = (HANDLE)_get_osfhandle(file);
    DWORD mode;

    return GetConsoleMode(handle, &mode) &&
           SetConsoleMode(handle, mode | ENABLE_VIRTUAL_TERMINAL_PROCESSING);
}

static inline uint64_t current_milliseconds(void) { return GetTickCount64(); }

static inline size_t heap_block_size(void *place) { return place ? _msize(place) : 0; }

static inline bool hide_memory(void) { return true; }

static inline int dprintf(int file, const char *format, ...) {
    char line[256];
    va_list arguments;
    int length;

    va_start(arguments, format);
    length = vsnprintf(line, sizeof line, format, arguments);
    va_end(arguments);
    return length < 0 ? -1 : _write(file, line, (unsigned)strlen(line));
}
#endif
#endif
