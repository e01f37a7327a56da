/* Tests what threads.c calls of a system (system.h), on Linux, macOS and Windows: compares roots (thread_calls.h) of bytes
 * and of a file with a name that is not ASCII, by several numbers of threads, and tries files that cannot be read; and
 * on Windows paths, shared and long files, text mode, handles and processors.
 *
 *   cc -std=gnu99 -I FOLDER/include system.c ARCHIVE-threads.a ARCHIVE.a -pthread -o system
 *   ./system PROCESSORS      makes its file in the current folder, on a machine with this many
 *                            processors; the status is 0 if all is as it should be */
#include "../system.h"

#include <stdio.h>

#include "vulfsjor_threads.h"

#ifdef _WIN32
/* Opens the file for text, as this library does not. */
static bool as_text;
#define OPEN_FOR_READING(path) (as_text ? open(path, O_RDONLY | O_TEXT) : open_path(path))
#endif
#include "thread_calls.h"

enum { BYTES = (3 << 20) + 17, LEAF = 4096, FROM = 1000 };

static const char name[] = "caf\xc3\xa9 \xf0\x9f\x98\x80";

/* With several numbers of threads. */
static void check_numbers_of_threads(size_t length) {
    static const unsigned threads[] = {0, 1, 2, 7};

    for (size_t i = 0; i < COUNT_OF(threads); i++)
        check_roots_of_message_and_file(length, length < FROM ? 0 : FROM, 64, LEAF, threads[i]);
}

static void check_windows_errors(void) {
    static const struct {
        const char *path;
        uint32_t leaf;
        int error;
    } rows[] = {{"none", LEAF, ENOENT}, {"none/none", LEAF, ENOENT}, {".", LEAF, EISDIR}, {NULL, LEAF, EINVAL},
                {name, 0, EINVAL}};

    memcpy(root, blank, 64);
    for (size_t i = 0; i < COUNT_OF(rows); i++) {
        errno = 0;
        CHECK(vulfsjor_tree_root_file(root, 64, rows[i].path, TEXTS, rows[i].leaf, 2) == -1 && errno == rows[i].error);
    }
    errno = 0; /* which wine leaves as it is */
    CHECK(vulfsjor_tree_root_fd(root, 64, -1, TEXTS, LEAF, 2) == -1 && errno == EBADF && !memcmp(root, blank, 64));
}

#ifdef _WIN32
/* Whether the path of Windows for one in UTF-8 begins so, and is longer by this many letters. */
static int wide_path_begins_with(const char *path, const wchar_t *start, size_t more) {
    static wchar_t room[2 * LONGEST_PATH];
    const wchar_t *const it = wide_path(path, room);

    return it && !wcsncmp(it, start, wcslen(start)) && wcslen(it) == strlen(path) + more;
}

/* wine opens a long path without its prefix too. */
static void check_wide_paths(void) {
    static wchar_t room[2 * LONGEST_PATH];
    static char longest[LONGEST_PATH + 1];
    char path[400] = "C:/";

    CHECK(!wcscmp(wide_path("a/caf\xc3\xa9\\b", room), L"a\\caf\u00e9\\b"));
    memset(path + 3, 'n', 300);
    CHECK(wide_path_begins_with(path, L"\\\\?\\C:\\n", 4));
    memcpy(path, "//host/share/", 13);
    CHECK(wide_path_begins_with(path, L"\\\\?\\UNC\\host\\share\\n", 6));
    memcpy(path, "//?/C:/nnnnnn", 13);
    CHECK(wide_path_begins_with(path, L"\\\\?\\C:\\n", 0));
    CHECK(!wide_path("\xff", room) && errno == ENOENT);
    memset(longest, 'n', LONGEST_PATH);
    CHECK(!wide_path(longest, room) && errno == ENAMETOOLONG);
    CHECK(errno_of_error(ERROR_ACCESS_DENIED) == EACCES && errno_of_error(ERROR_LOCK_VIOLATION) == EACCES);
    CHECK(errno_of_error(ERROR_BAD_NETPATH) == ENOENT && errno_of_error(ERROR_INVALID_HANDLE) == EBADF);
    CHECK(errno_of_error(ERROR_TOO_MANY_OPEN_FILES) == EMFILE && errno_of_error(ERROR_OUTOFMEMORY) == ENOMEM);
    CHECK(errno_of_error(ERROR_FILENAME_EXCED_RANGE) == ENAMETOOLONG && errno_of_error(ERROR_CRC) == EIO);
}

/* A file that others have open for writing, what they may do with one that is open here, and one
 * that another has for itself. */
static void check_file_sharing(void) {
    static const wchar_t wide[] = L"caf\u00e9 \U0001f600";
    int writer = _wopen(wide, _O_WRONLY | _O_BINARY), file = open_path(name);
    HANDLE alone;

    CHECK(writer >= 0 && file >= 0 && !close(writer));
    CHECK((writer = _wopen(wide, _O_WRONLY | _O_BINARY)) >= 0 && !close(writer));
    CHECK(!_wrename(wide, L"other") && !_wrename(L"other", wide) && !close(file));
    alone = CreateFileW(wide, GENERIC_READ, 0, NULL, OPEN_EXISTING, 0, NULL);
    errno = 0;
    CHECK(alone != INVALID_HANDLE_VALUE && open_path(name) == -1 && errno == EACCES);
    CloseHandle(alone);
}

/* Files that are open in text mode are read as they are: CR LF, and all after a byte 26. Also a pipe, which ends when its
 * writer closes it. */
static void check_text_mode_is_ignored(void) {
    static const size_t lengths[] = {0, 1, 1000, (1 << 18) - 1, 1 << 18, 600000};
    int ends[2];

    for (int i = 0; i < BYTES; i++) message[i] = (unsigned char)"line\r\n\x1a-\n"[i % 9];
    strcpy(path, "text");
    as_text = true;
    for (size_t i = 0; i < COUNT_OF(lengths); i++) {
        write_message_file(lengths[i]);
        check_numbers_of_threads(lengths[i]);
    }
    CHECK(!unlink(path) && !_pipe(ends, 1 << 16, O_TEXT | O_NOINHERIT));
    CHECK(_setmode(ends[1], O_BINARY) >= 0 && write(ends[1], message, 1000) == 1000 && !close(ends[1]));
    CHECK(!vulfsjor_tree_root(wanted, 64, message, 1000, TEXTS, LEAF));
    CHECK(!vulfsjor_tree_root_fd(root, 64, ends[0], TEXTS, LEAF, 2) && !memcmp(root, wanted, 64) && !close(ends[0]));
}

enum { IS_PASSED = 77 };

/* Whether this process was passed a descriptor: the C library passes a number of them, a byte for each,
 * and their handles. */
static bool was_descriptor_inherited(int file) {
    STARTUPINFOW info;
    int files = 0;

    GetStartupInfoW(&info);
    if (info.cbReserved2 > sizeof files) memcpy(&files, info.lpReserved2, sizeof files);
    return file < files && info.lpReserved2[sizeof files + (size_t)file] & 1;
}

/* Whether a child is passed a descriptor, which it says by its status. */
static bool child_inherits_descriptor(int file) {
    static wchar_t path[LONGEST_PATH];
    wchar_t number[12];

    swprintf(number, 12, L"%d", file);
    return GetModuleFileNameW(NULL, path, LONGEST_PATH) &&
           _wspawnl(_P_WAIT, path, L"child", L"of", number, NULL) == IS_PASSED;
}

static thread_result THREAD_CALL return_at_once(void *given) {
    (void)given;
    return 0;
}

/* A child does not inherit the files that are opened here, neither as a handle nor as a descriptor, and
 * the handle of a thread is closed. */
static void check_nothing_is_inherited(void) {
    const int file = open_path(name), inherited = _wopen(L"inherited", O_RDWR | O_CREAT | O_BINARY, 0600);
    DWORD flags;
    thread it;

    CHECK(GetHandleInformation((HANDLE)_get_osfhandle(file), &flags) && !(flags & HANDLE_FLAG_INHERIT));
    CHECK(file >= 0 && !child_inherits_descriptor(file) && inherited >= 0 && child_inherits_descriptor(inherited));
    CHECK(!close(file) && !close(inherited) && !_wunlink(L"inherited"));
    CHECK(start_threads(&it, 1, return_at_once, NULL) == 1);
    CHECK(GetHandleInformation(it, &flags));
    join_thread(it);
    CHECK(!GetHandleInformation(it, &flags));
}

/* A byte past 4 GiB, which wine keeps in a file with a hole. */
static void check_read_past_4_gib(void) {
    const int64_t from = ((int64_t)1 << 32) + 5;
    const int file = open("far", O_RDWR | O_CREAT | O_TRUNC | O_BINARY, 0600);
    char byte = 0;

    CHECK(file >= 0 && lseek(file, from, SEEK_SET) == from && write(file, "f", 1) == 1);
    CHECK(read_from(file, &byte, 1, (uint64_t)from) == 1 && byte == 'f');
    CHECK(!close(file) && !unlink("far"));
}

/* One of the processors, and all again. */
static void check_processor_affinity(void) {
    DWORD_PTR own, all;

    CHECK(GetProcessAffinityMask(GetCurrentProcess(), &own, &all));
    CHECK(SetProcessAffinityMask(GetCurrentProcess(), own & -own) && processor_count() == 1);
    CHECK(SetProcessAffinityMask(GetCurrentProcess(), own));
}
#endif

/* Threads that wait until all run at the same time. */
enum { COUNT = 3 };
static int running;
static thread_result THREAD_CALL wait_for_other_threads(void *given) {
    __atomic_add_fetch((int *)given, 1, __ATOMIC_SEQ_CST);
    while (__atomic_load_n((int *)given, __ATOMIC_SEQ_CST) < COUNT) continue;
    return 0;
}

static void check_threads_run_together(unsigned wanted_processors) {
    thread threads[COUNT];

    CHECK(processor_count() == wanted_processors);
    CHECK(start_threads(threads, COUNT, wait_for_other_threads, &running) == COUNT);
    for (int i = 0; i < COUNT; i++) join_thread(threads[i]);
    CHECK(running == COUNT);
}

int main(int count, char **words) {
#ifdef _WIN32
    if (count == 3) return was_descriptor_inherited(atoi(words[2])) ? IS_PASSED : 0;
#endif
    make_message(BYTES + 1, ".");
    write_message_file(BYTES);
#ifdef _WIN32
    _wunlink(L"caf\u00e9 \U0001f600");
    CHECK(!_wrename(L"message", L"caf\u00e9 \U0001f600"));
#else
    CHECK(!rename(path, name));
#endif
    strcpy(path, name);
    check_numbers_of_threads(BYTES);
    check_windows_errors();
#ifdef _WIN32
    check_wide_paths();
    check_file_sharing();
    check_read_past_4_gib();
    check_processor_affinity();
    check_nothing_is_inherited();
    check_text_mode_is_ignored();
#endif
    check_threads_run_together(count == 2 ? (unsigned)atoi(words[1]) : 0);
    free(message);
    return fails != 0;
}
