/* Tests what ../b2sum.c does that no run of the program shows: what it shows of progress, to the millisecond and with
 * numbers of all lengths, the room that it needs, what it wipes, which files it opens before their turn, and how it
 * lists folders (b2sum_folders.h). It includes that file, with a clock, a standard error and functions for memory and
 * files that are replaced, and makes files in the current folder, which is empty. programs.sh has the command;
 * tests/b2sum_system.py, b2sum_ahead.py and b2sum_folders.py run the program, and make its calls of the system fail. */
#define _GNU_SOURCE
#include <dirent.h>
#include <errno.h>
#include <fcntl.h>
#include <stdbool.h>
#include <stddef.h>
#include <stdio.h>
#include <string.h>
#include <sys/resource.h>
#include <sys/socket.h>
#include <sys/stat.h>
#include <sys/un.h>
#include <unistd.h>

/* How often calls of stat and openat are interrupted, how many of openat there were, which then fail with this error,
 * and the calls of posix_fadvise. */
static int stat_interrupts, openat_interrupts, openat_calls, openat_error, advised;

/* What is done before a file is opened. */
static void (*do_before)(void);

/* Whether fstat fails, and how much it adds to the device of standard output. */
static bool fstat_fails;
static dev_t device_added;

/* How often standard output was looked at. */
static int looks;

static int stat_or_fail(const char *path, struct stat *about) {
    errno = EINTR;
    return stat_interrupts-- > 0 ? -1 : stat(path, about);
}

static int openat_or_fail(int folder, const char *path, int flags) {
    openat_calls++;
    if (do_before) do_before();
    errno = openat_interrupts-- > 0 ? EINTR : openat_error;
    return errno ? -1 : openat(folder, path, flags);
}

static int fstat_or_fail(int file, struct stat *about) {
    errno = EIO;
    if (fstat_fails || fstat(file, about)) return -1;
    if (file == STDOUT_FILENO) about->st_dev += device_added;
    if (file == STDOUT_FILENO) looks++;
    return 0;
}

/* The same of fstatat, of which all calls fail with this error, and of readdir, of which this one fails; and whether
 * fdopendir and closedir fail. */
static int fstatat_interrupts, fstatat_error, readdir_interrupts, readdir_fails_at;
static bool fdopendir_fails, closedir_fails;

/* How many entries of a folder are made up, and the length of their names without a number at the end. */
static size_t made_count, made_length;

static int fstatat_or_fail(int folder, const char *name, struct stat *about, int flags) {
    errno = fstatat_interrupts-- > 0 ? EINTR : fstatat_error;
    return errno ? -1 : fstatat(folder, name, about, flags);
}

static struct dirent *next_fake_entry(void) {
    static union {
        struct dirent entry;
        char bytes[2000];
    } made;
    char *const name = made.bytes + offsetof(struct dirent, d_name);

    memset(name, 'n', made_length);
    sprintf(name + made_length, "%zu", --made_count);
    return &made.entry;
}

/* At the end errno stays as it is. */
static struct dirent *readdir_or_fail(DIR *folder) {
    const bool is_interrupted = readdir_interrupts-- > 0;

    if (!is_interrupted && (!readdir_fails_at || --readdir_fails_at))
        return made_count ? next_fake_entry() : readdir(folder);
    errno = is_interrupted ? EINTR : EIO;
    return NULL;
}

static DIR *fdopendir_or_fail(int file) {
    errno = ENOBUFS;
    return fdopendir_fails ? NULL : fdopendir(file);
}

static int closedir_or_fail(DIR *folder) {
    const int result = closedir(folder);

    errno = EDQUOT;
    return closedir_fails ? -1 : result;
}

#define fstatat(folder, name, about, flags) fstatat_or_fail(folder, name, about, flags)
#define readdir(folder) readdir_or_fail(folder)
#define fdopendir(file) fdopendir_or_fail(file)
#define closedir(folder) closedir_or_fail(folder)
#define stat(path, about) stat_or_fail(path, about)
#define openat(folder, path, flags) openat_or_fail(folder, path, flags)
#define fstat(file, about) fstat_or_fail(file, about)
#define posix_fadvise(file, from, length, advice) (advised++, (void)(file))
#include "../system.h"

#include <stdarg.h>

#include "check.h"
#include "vulfsjor_threads.h"

/* The time, in milliseconds, and what was written to standard error since the last look. */
static uint64_t time_now;
static char written[4096];
static bool write_fails;

static ssize_t record_write(int file, const void *bytes, size_t size) {
    CHECK(file == STDERR_FILENO);
    strncat(written, bytes, size);
    errno = ENOSPC;
    return write_fails ? -1 : (ssize_t)size;
}

/* What the block has that was freed last: its first bytes. */
enum { SOME = 100 };
static unsigned char freed[SOME];
static bool has_no_memory;

static void note_if_freed_bytes_remain(void *place) {
    if (place) memcpy(freed, place, heap_block_size(place) < SOME ? heap_block_size(place) : SOME);
    free(place);
}

static void *malloc_or_fail(size_t size) {
    errno = ENOMEM;
    return has_no_memory ? NULL : malloc(size);
}

/* Whether the memory can be hidden. */
static bool is_hidden;

static int record_print(int file, const char *format, ...) {
    va_list arguments;

    CHECK(file == STDERR_FILENO);
    va_start(arguments, format);
    vsnprintf(written + strlen(written), sizeof written - strlen(written), format, arguments);
    va_end(arguments);
    return 0;
}

/* Whether the system is Windows, and the only argument. */
static bool has_device_names;
static const char *argument = "";

/* How often opening a file is interrupted. */
static int interrupts;

static int open_or_fail(const char *path) {
    errno = EINTR;
    return interrupts-- > 0 ? -1 : open_path(path);
}

/* What reads return, one after the other, as they do without such a list: numbers of bytes, and errors below 0. */
static const int *reads;

static ssize_t read_or_return_planned(int file, void *bytes, size_t size) {
    if (!reads) return read_next(file, bytes, size);
    errno = *reads < 0 ? -*reads : 0;
    if (*reads++ < 0) return -1;
    CHECK((size_t)reads[-1] <= size);
    memset(bytes, 'r', (size_t)reads[-1]);
    return reads[-1];
}

/* Threads that count 5 MiB, move the position of the file, and fail. */
static int update_fd_that_fails(vulfsjor_tree_state *state, int file, unsigned threads, vulfsjor_progress progress,
                                void *context) {
    CHECK(state && threads == 3 && progress(context, (uint64_t)5 << 20) == 0 && lseek(file, 1, SEEK_CUR) > 0);
    return -1;
}

#define vulfsjor_tree_update_fd update_fd_that_fails
#define open_path(path) open_or_fail(path)
#define current_milliseconds() time_now
#define read_next(file, bytes, size) read_or_return_planned(file, bytes, size)
#define hide_memory() is_hidden
#define dprintf record_print
#undef HAS_DEVICE_NAMES
#define HAS_DEVICE_NAMES has_device_names
#define write record_write
#define free note_if_freed_bytes_remain
#define malloc malloc_or_fail
#include "../b2sum.c"

bool b2_has_argument(const char *name) { return !strcmp(name, argument); }

OF_TEXT bool b2sum_absorb_proved(ARGUMENTS) {
    ended = AT_END;
    return is_filling && source && file && threads && state && room && size;
}

/* ---- Progress. */

/* Whether a read of a file that returns this many bytes at this time writes this. */
static bool shows_progress(int file, uint64_t at, ssize_t count, const char *wanted) {
    bool is_same;

    time_now = at;
    count_bytes_read(file, count);
    is_same = !strcmp(written, wanted);
    if (!is_same) printf("at %llu: %s\n", (unsigned long long)at, written);
    written[0] = 0;
    return is_same;
}

/* Begins with a file at this time. */
static void begin_progress_at(uint64_t at, int file, const char *name) {
    time_now = at;
    begin_progress(file, name);
}

static void check_progress_lines(void) {
    const char *const end = "\rnnnnnnnnnnnnnnnnnnnnnnnnnnnnnnnnnnnnnend: 0 MiB, 0 MiB/s\033[K";
    char name[50] = "";

    begin_progress_at(1000, 99, "some\x1f\x7f\xff ~");
    CHECK(shows_progress(99, 1499, 1 << 20, "") &&
          shows_progress(99, 1500, 1 << 20, "\rsome??? ~: 2 MiB, 4 MiB/s\033[K"));
    CHECK(shows_progress(99, 1599, 1 << 20, "") &&
          shows_progress(99, 1600, (1 << 20) - 1, "\rsome??? ~: 3 MiB, 6 MiB/s\033[K"));
    CHECK(shows_progress(99, 1601, 0, "\r\033[K") && shows_progress(99, 1602, 0, ""));
    memset(name, 'n', 49);
    strcpy(name + 41, "end");
    begin_progress_at(2000, 99, name);
    CHECK(shows_progress(99, 2600, 1, end));
    write_fails = true;
    CHECK(shows_progress(99, 2700, 1, end));
    write_fails = false;
    CHECK(shows_progress(99, 2701, 0, "") && shows_progress(99, 2801, 1, end));
    is_shown = write_fails = true; /* the error of a read is not that of the write, and is no count */
    CHECK(b2sum_read(99, name, 1) == -1 && errno == EBADF && !strcmp(written, "\r\033[K") && shown.count == 3);
    is_shown = write_fails = false;
    written[0] = 0;
}

/* The length of a regular file is shown too, which makes the longest line: here with the numbers of the longest files
 * that some systems have, of 2^62 bytes. */
static void check_length_in_progress(void) {
    const int file = fileno(tmpfile());
    char name[41] = "", line[140];

    CHECK(!ftruncate(file, (off_t)1 << 40));
    memset(name, 'n', sizeof name - 1);
    sprintf(line, "\r%s: 4398046511105 MiB of 1048576, 8796093022210 MiB/s\033[K", name);
    begin_progress_at(5600, file, name);
    CHECK(shows_progress(file, 5700, (ssize_t)1 << 62, "") && shows_progress(file, 6100, 1 << 20, line) &&
          shows_progress(file, 6200, 0, "\r\033[K"));
}

/* Standard input is another file, and what threads have read is shown with the bytes before. */
static void check_progress_of_threads(void) {
    uint64_t before = (uint64_t)3 << 40;

    CHECK(shows_progress(STDIN_FILENO, 7000, 0, "") &&
          shows_progress(STDIN_FILENO, 7600, 1, "\r-: 0 MiB, 0 MiB/s\033[K"));
    time_now = 7700;
    CHECK(show_thread_progress(&before, (uint64_t)5 << 20) == 0 &&
          !strcmp(written, "\r-: 3145733 MiB, 4493904 MiB/s\033[K"));
    written[0] = 0;
}

/* After threads that fail, position and count are as before. */
static void check_failed_threads_restore_all(void) {
    static vulfsjor_tree_state state;
    const int file = fileno(tmpfile());

    CHECK(!ftruncate(file, LEAST_BYTES + 7) && lseek(file, 7, SEEK_SET) == 7);
    begin_progress_at(8000, 99, "other");
    shown.count = 7;
    is_shown = true;
    absorb_rest_by_threads(file, 3, &state);
    is_shown = false;
    CHECK(lseek(file, 0, SEEK_CUR) == 7 && shown.file == file && shown.count == 0);
}

/* Whether a read with room for 8 bytes returns this, and sets errno to it if it is below 0. */
static bool read_returns(int wanted) {
    char bytes[10] = "..........";
    const ssize_t count = b2sum_read(99, bytes, 8);

    if (wanted < 0) return count == -1 && errno == -wanted && bytes[0] == '.';
    return count == wanted && !memcmp(bytes, "rrrrrrrr..", (size_t)wanted) && bytes[wanted] == '.';
}

/* For a tree a read fills its room. An end or an error after bytes comes with the next read, once. */
static void check_tree_reads_fill_room(void) {
    static const int list[] = {3, -EINTR, 4, 1, 8, 2, 0, 0, 5, -EIO, -EBADF, 7, 0, 3, 2};
    static vulfsjor_tree_state state;
    static char source[1], room[1];

    reads = list;
    is_filling = true;
    CHECK(read_returns(8) && read_returns(8) && reads == list + 5);
    CHECK(read_returns(2) && reads == list + 7 && read_returns(0) && reads == list + 7 && read_returns(0));
    CHECK(read_returns(5) && reads == list + 10 && read_returns(-EIO) && reads == list + 10 && read_returns(-EBADF));
    CHECK(read_returns(7) && reads == list + 13);
    is_filling = false;
    CHECK(read_returns(0) && reads == list + 13 && read_returns(3) && read_returns(2));
    reads = NULL;
    CHECK(b2sum_absorb_tree(source, 99, 1, &state, room, 1) && !is_filling && ended == NOT_ENDED);
}

/* ---- Names, messages, and secrets. */

/* Only the characters for bytes from 0x80 on become these bytes. */
static void check_raw_bytes_in_names(void) {
    static const char *const names[][2] = {
        {"a\xf4\x8f\xbe\x80\xf4\x8f\xbf\xbf\xf4\x8f\xbf\x80", "a\x80\xff\xc0"},
        {"\xf4\x8f\xbd\xbf", "\xf4\x8f\xbd\xbf"},
        {"\xf4\x8e\xbe\x80", "\xf4\x8e\xbe\x80"},
        {"\xf3\x8f\xbe\x80", "\xf3\x8f\xbe\x80"},
        {"\xf4\x8f\xbe\xc0", "\xf4\x8f\xbe\xc0"},
        {"\xf4\x8f\xbe", "\xf4\x8f\xbe"},
        {"\xf4", "\xf4"}};
    char name[20];

    for (size_t i = 0; i < sizeof names / sizeof *names; i++) {
        restore_raw_bytes(strcpy(name, names[i][0]));
        CHECK(!strcmp(name, names[i][1]));
    }
}

/* On Windows a device and a file of another computer are opened only if an argument names them. */
static void check_devices_need_an_argument(void) {
    static const char *const foreign[] = {
        "NUL", "nul", "Nul.txt", "NUL .txt", "NUL:", "NUL  ", "dir/NUL", "dir\\con", "C:NUL", "c:/dir/aux.c", "PRN",
        "COM1", "lpt9.txt", "LPT0", "COM\xc2\xb9", "COM\xc2\xb2.x", "lpt\xc2\xb3", "CONIN$", "conout$", "CLOCK$.x",
        "//HOST/SHARE/FILE", "\\\\HOST\\SHARE", "/\\HOST/x", "\\/HOST/x", "//", "//?/UNC/HOST/SHARE/x", "//./COM1",
        "//./C:/x", "//?/C:", "//?/C:x", "//?/1:/x", "//?/{:/x", "\\\\?\\UNC\\x",
        "//?/Volume/x", "/?\?/UNC/HOST/x", "\\??\\C:\\x"};
    static const char *const local[] = {
        "NULL", "null.txt", "xNUL", "NUL/x", "con/x", "dir.NUL/x", "COM", "COM.txt", "COMX", "COM10", "LPTT1",
        "LPT\xc2\xb4", "lpt\xc2", "CONIN", "file", "/file", "dir/file", "C:/dir/file", "C:file",
        "//?/C:/dir/file", "\\\\?\\z:\\x",
        "//?/a:/x", "AU", "", "?", "file:NUL", " NUL", ".NUL", "file.nul"};

    for (size_t i = 0; i < sizeof foreign / sizeof *foreign; i++) CHECK(is_device_or_remote_path(foreign[i]));
    for (size_t i = 0; i < sizeof local / sizeof *local; i++) CHECK(!is_device_or_remote_path(local[i]));
    has_device_names = true;
    argument = "/dev/null";
    CHECK(b2sum_open("//dev/null", 0) == -1 && errno == EACCES);
    CHECK(b2sum_open("/dev/null", 0) > 2);
    argument = "//dev/null";
    CHECK(b2sum_open("//dev/null", 0) > 2);
    has_device_names = false;
    argument = "";
    CHECK(b2sum_open("//dev/null", 0) > 2);
}

/* A name that has no room is refused before it is copied, and a message is cut to its room. Of the errors of closing
 * files the first is kept. */
static void check_long_names_and_close_errors(void) {
    char name[5000] = "", text[16] = "###############";

    memset(name, '/', 4096);
    CHECK(b2sum_open(name, 0) == -1 && errno == ENAMETOOLONG);
    name[4095] = 0;
    interrupts = 3;
    CHECK(b2sum_open(name, 0) > 2 && interrupts == -1);
    CHECK(b2sum_strerror(EISDIR, text, 15) == 0 && !strcmp(text, "Is a directory"));
    CHECK(b2sum_strerror(EISDIR, text, 6) == 0 && !memcmp(text, "Is a \0irectory", 15));
    close_error = EIO;
    CHECK(b2sum_close(-1) == -1 && errno == EBADF && close_error == EIO);
    close_error = 0;
}

/* The warnings name the key file in printable characters, and come only if others may read the key. */
static void check_key_reader_warnings(void) {
    is_hidden = true;
    b2sum_hide_memory();
    warn_of_key_readers("b2sum");
    CHECK(!*written);
    strcpy(shared_key, "k\x1b\x9b\xc2\x9b\x7f y");
    warn_of_key_readers("bin/b2sum");
    CHECK(!strcmp(written, "b2sum: WARNING: others may read the key file k????? y (chmod 600 prevents it)\n"));
    *shared_key = written[0] = 0;
    is_hidden = false;
    b2sum_hide_memory();
    warn_of_key_readers("bin/");
    CHECK(!strcmp(written, "b2sum: WARNING: other processes may read the key\n"));
    is_exposed = is_secret = is_key_next = false;
    written[0] = 0;
}

/* Whether these bytes are all this one. */
static bool are_all_bytes(const unsigned char *bytes, size_t length, int byte) {
    return bytes[0] == byte && !memcmp(bytes, bytes + 1, length - 1);
}

/* Whether freed blocks have nothing in them, also if a block moves, which stays what it is. */
static void check_freed_memory_is_wiped(void) {
    unsigned char *block = memset(malloc(SOME), 's', SOME);
    static const size_t sizes[] = {100 * SOME, SOME, SOME / 2};

    b2sum_free(block);
    CHECK(are_all_bytes(freed, SOME, 's')); /* without a key nothing is wiped */
    is_secret = true;
    block = memset(malloc(SOME), 's', SOME);
    for (size_t i = 0; i < 3; i++) {
        memset(freed, '#', SOME);
        block = b2sum_realloc(block, sizes[i]);
        CHECK(are_all_bytes(block, sizes[i] < SOME ? sizes[i] : SOME, 's') && are_all_bytes(freed, SOME, 0));
    }
    has_no_memory = true;
    CHECK(!b2sum_realloc(block, 1) && are_all_bytes(block, SOME / 2, 's'));
    has_no_memory = false;
    memset(freed, '#', SOME);
    b2sum_free(block);
    CHECK(are_all_bytes(freed, SOME / 2, 0));
}

/* Writes to the stack below, and counts what is left of that. */
enum { DEEP = 20000 };
__attribute__((noinline)) static void leave_marks_on_stack(void) {
    unsigned char below[DEEP];
    volatile unsigned char *place = below;

    for (int i = 0; i < DEEP; i++) place[i] = 0xA5;
}
__attribute__((noinline, no_sanitize("address"))) static int count_marks_on_stack(void) {
    unsigned char below[DEEP];
    volatile unsigned char *place = below;
    int count = 0;

    for (int i = 0; i < DEEP; i++) count += place[i] == 0xA5;
    return count;
}

/* With a key each call of the system wipes the stack, except for holes in frames. */
static void check_system_calls_wipe_stack(void) {
    char bytes[1];

    for (int call = 0; call < 6; call++) {
        leave_marks_on_stack();
        if (call == 1) b2sum_open("/", 0);
        if (call == 2) b2sum_read(99, bytes, 1);
        if (call == 3) b2sum_open(LIST "/", 0);
        if (call == 4) b2sum_read(lists->file, bytes, 1);
        if (call == 5) b2sum_end(0, "");
        CHECK(call ? count_marks_on_stack() < DEEP / 50 : count_marks_on_stack() > DEEP / 2);
    }
}

/* ---- Files before their turn. */

/* The lowest free descriptor. */
static int lowest_free_descriptor(void) {
    const int file = dup(STDERR_FILENO);

    close(file);
    return file;
}

/* Makes a file of this length, or changes it. */
static void make_file(const char *path, off_t length) {
    const int file = open(path, O_WRONLY | O_CREAT | O_CLOEXEC, 0600);

    CHECK(file > STDERR_FILENO && !ftruncate(file, length) && !close(file));
}

/* Opens the file of this path before its turn. Returns 0 if that is done as it should be, and otherwise the error.
 * Nothing of it stays open. */
static int error_ahead_of_turn(const char *path) {
    static char name[PATH_ROOM + sizeof AHEAD];
    const int before = lowest_free_descriptor(), advice = advised;
    int file, error;

    strcat(strcpy(name, AHEAD), path);
    errno = 0;
    file = b2sum_open(name, 0);
    error = errno;
    CHECK(advised == advice && file >= -1);
    if (file >= 0) {
        CHECK(file == before && fcntl(file, F_GETFL) & O_NONBLOCK && fcntl(file, F_GETFD) & FD_CLOEXEC);
        CHECK(!close(file));
        error = 0;
    }
    CHECK(lowest_free_descriptor() == before);
    return error;
}

/* The same, if nothing but the error is to be noticed: the file is not even opened. */
static int error_unopened_file(const char *path) {
    const int calls = openat_calls, error = error_ahead_of_turn(path);

    CHECK(openat_calls == calls);
    return error;
}

/* What may happen to the file `other` once it was looked at. */
static void remove_other(void) { CHECK(!unlink("other")); }
static void replace_other_by_pipe(void) { CHECK(!unlink("other") && !mkfifo("other", 0600)); }
static void replace_other_by_empty_file(void) { make_file("other", 0); }
static void replace_other_by_long_file(void) { make_file("other", AHEAD_BYTES + 1); }
static void replace_other_by_one(void) { CHECK(!rename("one", "other")); }
static void replace_other_by_output(void) { CHECK(!unlink("other") && !link("output", "other")); }

static int error_after_change(void (*change)(void)) {
    int error;

    unlink("other");
    make_file("other", 5);
    do_before = change;
    error = error_ahead_of_turn("other");
    do_before = NULL;
    return error;
}

/* Regular files of 1 byte to 1 MiB are opened, and no others. */
static void check_only_short_regular_files_open(void) {
    struct sockaddr_un address = {.sun_family = AF_UNIX, .sun_path = "socket"};
    const int server = socket(AF_UNIX, SOCK_STREAM | SOCK_CLOEXEC, 0), input = dup(STDIN_FILENO);
    char path[40];
    int file;

    make_file("none", 0);
    make_file("one", 1);
    make_file("most", AHEAD_BYTES);
    make_file("more", AHEAD_BYTES + 1);
    CHECK(!symlink("one", "link") && !mkdir("folder", 0700) && !mkfifo("pipe", 0600));
    CHECK(!bind(server, (struct sockaddr *)&address, sizeof address));
    CHECK(AHEAD_BYTES == 1 << 20 && !error_ahead_of_turn("one") && !error_ahead_of_turn("most") &&
          !error_ahead_of_turn("link"));
    CHECK(error_unopened_file("none") == EAGAIN && error_unopened_file("more") == EAGAIN &&
          error_unopened_file("folder") == EAGAIN);
    CHECK(error_unopened_file("pipe") == EAGAIN && error_unopened_file("socket") == EAGAIN);
    CHECK(error_unopened_file("/dev/null") == EAGAIN && error_unopened_file("missing") == ENOENT &&
          error_unopened_file("") == ENOENT);
    CHECK(error_unopened_file("one/x") == ENOTDIR && error_unopened_file(AHEAD "one") == ENOENT);
    file = openat(AT_FDCWD, "one", O_RDONLY);
    sprintf(path, "/proc/self/fd/%d", file);
    CHECK(!error_ahead_of_turn(path));
    sprintf(path, "/dev/fd/%d", file);
    CHECK(error_unopened_file(path) == EAGAIN && dup2(file, STDIN_FILENO) == STDIN_FILENO);
    CHECK(error_unopened_file("/dev/stdin") == EAGAIN && !error_ahead_of_turn("/proc/self/fd/0"));
    CHECK(dup2(input, STDIN_FILENO) == STDIN_FILENO && !close(input) && !close(file) && !close(server));
}

/* A file that has changed after it was looked at is looked at again, and what waits is not waited for. */
static void check_files_changed_before_opening(void) {
    make_file("output", 5);
    make_file("one", 1);
    CHECK(error_after_change(remove_other) == ENOENT && error_after_change(replace_other_by_pipe) == EAGAIN);
    CHECK(error_after_change(replace_other_by_empty_file) == EAGAIN &&
          error_after_change(replace_other_by_long_file) == EAGAIN);
    CHECK(!error_after_change(replace_other_by_one) && !error_after_change(NULL));
    fstat_fails = true;
    CHECK(error_after_change(NULL) == EAGAIN);
    fstat_fails = false;
    openat_error = EMFILE;
    CHECK(error_after_change(NULL) == EMFILE);
    openat_error = 0;
    stat_interrupts = openat_interrupts = 3;
    CHECK(!error_after_change(NULL) && stat_interrupts < 0 && openat_interrupts < 0);
}

/* The file of standard output is not read before its turn, by whatever name. It is looked at once. */
static void check_output_is_not_opened_ahead(void) {
    const int output = dup(STDOUT_FILENO), file = openat(AT_FDCWD, "output", O_RDONLY);

    standard_output.is_known = false;
    looks = 0;
    CHECK(dup2(file, STDOUT_FILENO) == STDOUT_FILENO && !close(file));
    CHECK(error_ahead_of_turn("output") == EAGAIN && !error_ahead_of_turn("most") &&
          error_after_change(replace_other_by_output) == EAGAIN);
    CHECK(looks == 1);
    device_added = 1; /* a file with that number on another device is another one */
    standard_output.is_known = false;
    CHECK(!error_ahead_of_turn("output"));
    device_added = 0;
    standard_output.is_known = false;
    close(STDOUT_FILENO);
    CHECK(dup(output) == STDOUT_FILENO && !close(output) && !error_ahead_of_turn("output"));
}

/* Whether the file of this path is opened in its turn, as it should be. */
static bool opens_file_in_turn(const char *path) {
    const int advice = advised, file = b2sum_open(path, 0);
    const bool is_good = file > STDERR_FILENO && advised == advice + 1 && !(fcntl(file, F_GETFL) & O_NONBLOCK);

    return !close(file) && is_good;
}

/* The mark is no part of the path, of which each byte is as in one without it. What only begins like it is a path. */
static void check_ahead_mark_in_paths(void) {
    char path[PATH_ROOM + 1] = "";

    for (int i = 0; i < 2046; i++) strcpy(path + 2 * i, "./");
    strcat(path, "one");
    make_file("one", 1);
    CHECK(strlen(path) == PATH_ROOM - 1 && !error_ahead_of_turn(path));
    strcat(path, "/");
    CHECK(error_unopened_file(path) == ENAMETOOLONG);
    make_file("caf\xe9", 1);
    CHECK(!error_ahead_of_turn("caf\xf4\x8f\xbf\xa9"));
    make_file(AHEAD "x", 1);
    CHECK(!error_ahead_of_turn("\xf4\x8f\xbf\xb4\xf4\x8f\xbe\x8f\xf4\x8f\xbe\xbc\xf4\x8f\xbe\x80x"));
    make_file("\xf4\x8f\xbc\x82y", 1);
    make_file("\xf4\x8f\xbcz", 1);
    make_file("\xff", 1);
    CHECK(opens_file_in_turn("\xf4\x8f\xbc\x82y") && opens_file_in_turn("\xf4\x8f\xbcz") &&
          opens_file_in_turn("\xf4\x8f\xbf\xbf"));
    has_device_names = true;
    CHECK(error_unopened_file("//dev/null") == EACCES && !error_ahead_of_turn("one"));
    has_device_names = false;
}

/* Without the mark any file is opened, and the system is told how it is read. A standard stream that is closed stays
 * so. */
static void check_opening_ahead(void) {
    const int input = dup(STDIN_FILENO);
    int file;

    check_only_short_regular_files_open();
    check_files_changed_before_opening();
    check_output_is_not_opened_ahead();
    check_ahead_mark_in_paths();
    CHECK(opens_file_in_turn("more") && opens_file_in_turn("none") && opens_file_in_turn("folder"));
    close(STDIN_FILENO);
    file = b2sum_open(AHEAD "one", 0);
    CHECK(file > STDERR_FILENO && !close(file) && dup(input) == STDIN_FILENO && !close(input));
}

#include "b2sum_folders.h"

int main(void) {
    check_progress_lines();
    check_length_in_progress();
    check_progress_of_threads();
    check_failed_threads_restore_all();
    check_tree_reads_fill_room();
    check_raw_bytes_in_names();
    check_devices_need_an_argument();
    check_long_names_and_close_errors();
    check_key_reader_warnings();
    check_freed_memory_is_wiped();
    check_opening_ahead();
    check_folder_lists();
    check_system_calls_wipe_stack(); /* the last one, since it closes the outputs */
    return fails != 0;
}
