/* The C of the program b2sum, together with b2.c: how it opens and reads files and lists folders, the
 * threads of --tree, what --progress shows, how it keeps keys from others, and how it ends. The
 * assembly file calls b2sum_open, b2sum_read, b2sum_close and b2sum_signal instead of open, read,
 * close and signal of the C library, and the functions here instead of its own absorb_tree,
 * hide_memory and show_progress. None of this is proved. tests/b2sum.c, ../tests/b2sum_system.py,
 * b2sum_ahead.py and b2sum_folders.py test it.
 *
 * ABSORB_TREE, HIDE_MEMORY and SHOW_PROGRESS are the names of these functions in the assembly file,
 * such as b2sum..disk..hide_memory_1_x86. */
#include "system.h"

#include <stdio.h>

#include "vulfsjor_threads.h"

/* What the assembly and b2.c call. No shared library sees these names. */
#ifdef _WIN32
#define HIDDEN
#else
#define HIDDEN __attribute__((visibility("hidden")))
#endif

/* A function of the assembly, or that the assembly calls: see b2.c. */
#if defined(_WIN32) && defined(__x86_64__)
#define OF_TEXT __attribute__((sysv_abi))
#else
#define OF_TEXT
#endif

HIDDEN OF_TEXT int b2sum_open(const char *name, int flags, ...);
HIDDEN OF_TEXT ssize_t b2sum_read(int file, void *bytes, size_t size);
HIDDEN OF_TEXT int b2sum_close(int file);
HIDDEN OF_TEXT int b2sum_strerror(int error, char *text, size_t size);
HIDDEN OF_TEXT void (*b2sum_signal(int number, void (*handler)(int)))(int);
HIDDEN void *b2sum_realloc(void *place, size_t size);
HIDDEN void b2sum_free(void *place);
HIDDEN int b2sum_end(int status, const char *path);
HIDDEN bool b2_has_argument(const char *name);

/* The name of a function of the assembly file, from a macro. */
#define STRING_OF(words) #words
#define STRING(words) STRING_OF(words)
#define SYMBOL(words) STRING(__USER_LABEL_PREFIX__) STRING(words)

/* ---- Secrets. */

/* Whether the program reads a key or has read one. Then it wipes the memory that it frees, and the
 * stack below its calls of the system. */
static bool is_secret;

/* Whether the memory is not hidden from other processes, and whether the next file that is opened is
 * the key's. */
static bool is_exposed, is_key_next;

/* The path of the key file, if others may read that; otherwise it is empty. */
enum { PATH_ROOM = 4096 };
static char shared_key[PATH_ROOM];

/* More than the functions of the program need. */
enum { STACK_BYTES = 1 << 15 };

/* Wipes what functions that have returned left on the stack. */
__attribute__((noinline)) static void wipe_stack(void) {
    unsigned char below[STACK_BYTES];

    vulfsjor_wipe(below, sizeof below);
}

/* free and realloc, which leave no secret behind. */
void b2sum_free(void *place) {
    if (is_secret) vulfsjor_wipe(place, heap_block_size(place));
    free(place);
}

void *b2sum_realloc(void *place, size_t size) {
    const size_t before = heap_block_size(place);
    void *other;

    if (!is_secret) return realloc(place, size);
    if (!(other = malloc(size))) return NULL;
    memcpy(other, place, before < size ? before : size);
    b2sum_free(place);
    return other;
}

/* The function of this name of the assembly file, which can do nothing. */
HIDDEN OF_TEXT void b2sum_hide_memory(void) __asm__(SYMBOL(HIDE_MEMORY));
OF_TEXT void b2sum_hide_memory(void) {
    is_secret = is_key_next = true;
    is_exposed = !hide_memory();
}

/* ---- The start and the end. */

/* The runtime would ignore SIGPIPE. This leaves it as it was, so that a closed pipe ends the
 * program as it ends others. */
OF_TEXT void (*b2sum_signal(int number, void (*handler)(int)))(int) {
    (void)number;
    (void)handler;
    return NULL;
}

/* The rest of what the assembly calls of the C library. */

/* The error of the first close of a file that failed, or 0. */
static int close_error;

OF_TEXT int b2sum_strerror(int error, char *text, size_t size) {
    snprintf(text, size, "%s", strerror(error));
    return 0;
}

#ifdef _WIN32
/* The C library expands * and ? in arguments, as the shells of other systems do. */
int _dowildcard = -1;

/* A console shows lines in UTF-8, and at the end in the code page that it had. */
static UINT page;

static void restore_code_page(void) { SetConsoleOutputCP(page); }

static BOOL WINAPI restore_page_at_event(DWORD event) {
    (void)event;
    restore_code_page();
    return FALSE;
}

__attribute__((constructor)) static void set_console_to_utf8(void) {
    page = GetConsoleOutputCP();
    if (!page || !SetConsoleOutputCP(CP_UTF8)) return;
    atexit(restore_code_page);
    SetConsoleCtrlHandler(restore_page_at_event, TRUE);
}
#endif

/* Whether standard input was read. */
static bool is_input_read;

/* The name of the program of this path: what is after the last slash, or b2sum if that is empty. */
static const char *program_name_of(const char *path) {
    const char *slash = strrchr(path, '/'), *name = slash ? slash + 1 : path;

    return *name ? name : "b2sum";
}

/* Prints that something has failed, and why, as a message of the program of this path. Returns the
 * status for that. */
static int print_failure(const char *path, const char *what) {
    dprintf(STDERR_FILENO, "%s: %s: %s\n", program_name_of(path), what, strerror(errno));
    return 1;
}

/* Replaces what a terminal could obey, and what is not ASCII. */
static void make_printable(char *name) {
    for (; *name; name++)
        if (*name < ' ' || *name > '~') *name = '?';
}

/* Reports who may read the key: others from its file, or other processes from the memory. */
static void warn_of_key_readers(const char *path) {
    make_printable(shared_key);
    if (*shared_key)
        dprintf(STDERR_FILENO, "%s: WARNING: others may read the key file %s (chmod 600 prevents it)\n",
                program_name_of(path), shared_key);
    if (is_exposed)
        dprintf(STDERR_FILENO, "%s: WARNING: other processes may read the key\n", program_name_of(path));
}

/* Reports who may read the key, and a file that could not be closed. Closes standard input, if it was
 * read, and the outputs, since some systems report only then that a read or a write failed. Returns
 * the status of the process: the one of the program, which has this path, or 1. An output that was
 * not open is no error. */
int b2sum_end(int status, const char *path) {
    if (is_secret) wipe_stack();
    warn_of_key_readers(path);
    if ((errno = close_error)) status = print_failure(path, "close error");
    if (is_input_read && close(STDIN_FILENO)) status = print_failure(path, "standard input");
    if (close(STDOUT_FILENO) && errno != EBADF) status = print_failure(path, "write error");
    return close(STDERR_FILENO) && errno != EBADF ? 1 : status;
}

/* ---- Progress, on standard error if that is a terminal. */

enum { NAME_BYTES = 40 };

/* The file that is being read: its descriptor, the end of its name, its length or 0, the bytes that
 * were read, and when the first of them and when the last line was printed, in milliseconds. */
static struct {
    int file;
    char name[NAME_BYTES + 1];
    uint64_t length, count, start, printed;
} shown = {.file = -1};

/* Whether progress is shown. */
static bool is_shown;

/* The function of this name of the assembly file, which can do nothing. It is called before a file
 * is opened, if the options say so. */
HIDDEN OF_TEXT void b2sum_show_progress(void) __asm__(SYMBOL(SHOW_PROGRESS));
OF_TEXT void b2sum_show_progress(void) { is_shown = is_terminal(STDERR_FILENO); }

/* Begins with another file. */
static void begin_progress(int file, const char *name) {
    size_t length = strlen(name);
    struct stat about;

    if (length > NAME_BYTES) name += length - NAME_BYTES;
    shown.file = file;
    strcpy(shown.name, name);
    make_printable(shown.name);
    shown.length = !fstat(file, &about) && S_ISREG(about.st_mode) ? (uint64_t)about.st_size : 0;
    shown.count = shown.printed = 0;
    shown.start = current_milliseconds();
}

/* Writes the line of the file, with the MiB per second since its start, as at this later time.
 * Returns its length. */
static size_t format_progress_line(char *line, size_t room, uint64_t time) {
    const unsigned long long rate = (shown.count >> 10) * 1000 / (time - shown.start) >> 10;
    size_t length = (size_t)snprintf(line, room, "\r%s: %llu MiB", shown.name,
                                     (unsigned long long)(shown.count >> 20));

    if (shown.length)
        length += (size_t)snprintf(line + length, room - length, " of %llu",
                                   (unsigned long long)(shown.length >> 20));
    return length + (size_t)snprintf(line + length, room - length, ", %llu MiB/s\033[K", rate);
}

/* Prints the line of the file after half a second, and then ten times a second; or removes it. */
static void draw_or_clear_progress(bool is_read) {
    char line[NAME_BYTES + 80] = "\r\033[K";
    size_t length = strlen(line);
    const uint64_t time = current_milliseconds();

    if (is_read && (time - shown.start < 500 || time - shown.printed < 100)) return;
    if (!is_read && !shown.printed) return;
    if (is_read) length = format_progress_line(line, sizeof line, time);
    shown.printed = is_read ? time : 0;
    if (write(STDERR_FILENO, line, length) < 0) shown.printed = 0;
}

/* Counts what a read of this file has returned. */
static void count_bytes_read(int file, ssize_t count) {
    if (file != shown.file) begin_progress(file, file ? "" : "-");
    if (count > 0) shown.count += (uint64_t)count;
    draw_or_clear_progress(count > 0);
}

/* ---- Files. */

/* A name that is not UTF-8, or that has a byte 0xF4, comes with each of its bytes from 0x80 on as
 * the character U+10FF00 + byte, which UTF-8 writes in four bytes. This turns these back. */
static void restore_raw_bytes(char *name) {
    const unsigned char *from = (const unsigned char *)name;
    unsigned char *to = (unsigned char *)name;

    while (*from) {
        if (from[0] == 0xF4 && from[1] == 0x8F && (from[2] & 0xFE) == 0xBE &&
            (from[3] & 0xC0) == 0x80) {
            *to++ = (unsigned char)(0x80 | (from[2] & 1) << 6 | (from[3] & 0x3F));
            from += 4;
        } else {
            *to++ = *from++;
        }
    }
    *to = 0;
}

static bool is_slash(char c) { return c == '/' || c == '\\'; }

/* The length of a word in capitals, if the text begins with it in letters of either case; otherwise
 * 0. */
static size_t matched_prefix_length(const char *text, const char *word) {
    size_t i = 0;

    for (; word[i]; i++)
        if ((text[i] >= 'a' && text[i] <= 'z' ? text[i] - 'a' + 'A' : text[i]) != word[i]) return 0;
    return i;
}

/* The length of the first of these words with which the text begins, or 0. A null ends the words. */
static size_t matched_prefix_length_of_any(const char *text, const char *const *words) {
    size_t length = 0;

    while (*words && !length) length = matched_prefix_length(text, *words++);
    return length;
}

/* The length of the name of a device of Windows with which the text begins, or 0. */
static size_t device_name_length(const char *text) {
    static const char *const devices[] = {"CONIN$", "CONOUT$", "CLOCK$", "CON", "PRN", "AUX", "NUL", NULL},
                      *const ports[] = {"COM", "LPT", NULL},
                      *const digits[] = {"0", "1", "2", "3", "4", "5", "6", "7", "8", "9",
                                         "\xc2\xb9", "\xc2\xb2", "\xc2\xb3", NULL};
    const size_t length = matched_prefix_length_of_any(text, devices), port = matched_prefix_length_of_any(text, ports),
                 digit = port ? matched_prefix_length_of_any(text + port, digits) : 0;

    return digit ? port + digit : length;
}

/* Whether a path begins with a drive, as in //?/C:/. */
static bool begins_with_drive(const char *path) {
    return is_slash(path[0]) && is_slash(path[1]) && path[2] == '?' && is_slash(path[3]) &&
           (path[4] | 32) >= 'a' && (path[4] | 32) <= 'z' && path[5] == ':' && is_slash(path[6]);
}

/* Whether a path, in UTF-8, can be that of a device or of another computer on Windows: it begins
 * with two slashes or with /?, but not with a drive, or its last part is the name of a device, of
 * which Windows ignores blanks and what follows a dot or a colon. */
static bool is_device_or_remote_path(const char *path) {
    const char *last = path;
    size_t length;

    if (is_slash(path[0]) && (is_slash(path[1]) || path[1] == '?')) return !begins_with_drive(path);
    if (path[0] && path[1] == ':') last += 2;
    for (const char *c = last; *c; c++)
        if (is_slash(*c)) last = c + 1;
    length = device_name_length(last);
    while (length && last[length] == ' ') length++;
    return length && (!last[length] || last[length] == '.' || last[length] == ':');
}

/* Moves a file that has the number of a standard stream, which was closed at the start, above those.
 * The stream stays closed, so that a read of it fails. Returns the descriptor, or -1 and sets
 * errno. */
static int move_above_standard_streams(int file) {
    int low[STDERR_FILENO + 1], count = 0, error;

    while (file >= 0 && file <= STDERR_FILENO) {
        low[count++] = file;
        file = dup(file);
    }
    error = errno;
    while (count) close(low[--count]);
    errno = error;
    return file;
}

/* What a path begins with whose file is to be read before its turn, the character U+10FF00, and the
 * most bytes of such a file. Any other file is then refused, and is opened in its turn. */
#define AHEAD "\xf4\x8f\xbc\x80"
enum { AHEAD_BYTES = 1 << 20 };

/* What a path begins with whose folder is to be listed, the character U+10FF01. What is read of it
 * are its entries, in any order: for each its kind as in system.h, its name, and a zero byte. */
#define LIST "\xf4\x8f\xbc\x81"

/* A folder that is listed: its descriptor; its entries; of the one that is being read the kind, or 0
 * once that is read, and the rest of its name, or null if all of it is read; and the error that has
 * ended the list, or 0. */
typedef struct list {
    struct list *next;
    int file;
    folder folder;
    char kind;
    const char *rest;
    int error;
} list;

/* The lists that are open. */
static list *lists;

/* The place of the list that has this descriptor, or of the null that ends the lists. */
static list **find_list_slot(int file) {
    list **place = &lists;

    while (*place && (*place)->file != file) place = &(*place)->next;
    return place;
}

/* Begins the list of the folder that is open as this file and has this path. Returns the descriptor,
 * or closes it, returns -1 and sets errno. */
static int open_folder_list(int file, const char *path) {
    list *const it = malloc(sizeof *it);
    int error;

    if (it && begin_reading_folder(&it->folder, file, path)) {
        it->next = lists;
        it->file = file;
        it->rest = NULL;
        it->error = 0;
        lists = it;
        return file;
    }
    error = errno;
    free(it);
    close(file);
    errno = error;
    return -1;
}

/* Whether the list has another byte. After an error it has none: entries may have been left out. */
static bool has_next_list_byte(list *it) {
    if (it->rest || it->error) return it->rest;
    it->rest = next_entry(&it->folder, &it->kind);
    if (!it->rest) it->error = errno;
    return it->rest;
}

static char take_next_list_byte(list *it) {
    const char byte = it->kind ? it->kind : *it->rest++;

    it->kind = 0;
    if (!byte) it->rest = NULL;
    return byte;
}

/* Reads at most size bytes of the list. Returns their number, 0 at the end, or -1 and sets errno: an
 * error comes after all entries that were read before it. */
static ssize_t read_list(list *it, char *bytes, size_t size) {
    size_t filled = 0;

    while (filled < size && has_next_list_byte(it)) bytes[filled++] = take_next_list_byte(it);
    if (filled || !it->error) return (ssize_t)filled;
    errno = it->error;
    return -1;
}

static int close_list(list **place) {
    list *const it = *place;
    const int result = close_folder(&it->folder), error = errno;

    *place = it->next;
    free(it);
    errno = error;
    return result;
}

OF_TEXT int b2sum_close(int file) {
    list **const place = find_list_slot(file);
    const int result = *place ? close_list(place) : close(file);

    if (result && !close_error) close_error = errno;
    return result;
}

/* Opens the file for reading, from its start to its end, or begins the list of a folder. Returns its
 * descriptor, or -1 and sets errno. On Windows it refuses a device or another computer that no
 * argument names: a manifest can be a stranger's. The path has a frame of its own, so that the stack
 * is wiped below that of b2sum_open. */
__attribute__((noinline)) static int open_file(const char *name) {
    const bool is_ahead = !strncmp(name, AHEAD, strlen(AHEAD)),
               is_list = !strncmp(name, LIST, strlen(LIST));
    char path[PATH_ROOM];
    int file;

    if (is_ahead) name += strlen(AHEAD);
    if (is_list) name += strlen(LIST);
    if (strlen(name) >= sizeof path) {
        errno = ENAMETOOLONG;
        return -1;
    }
    strcpy(path, name);
    restore_raw_bytes(path);
    if (HAS_DEVICE_NAMES && is_device_or_remote_path(path) && !b2_has_argument(path)) {
        errno = EACCES;
        return -1;
    }
    do file = is_list ? open_folder(path) : is_ahead ? open_regular_up_to(path, AHEAD_BYTES) : open_path(path);
    while (file < 0 && errno == EINTR);
    file = move_above_standard_streams(file);
    if (file < 0) return -1;
    if (is_list) return open_folder_list(file, path);
    if (!is_ahead) advise_sequential_read(file);
    if (is_key_next && others_may_read(file)) strcpy(shared_key, path);
    if (is_shown) begin_progress(file, path);
    return file;
}

/* The flags, by the numbers of Linux, say that the file is read. */
OF_TEXT int b2sum_open(const char *name, int flags, ...) {
    int file;

    (void)flags;
    if (is_secret) wipe_stack();
    file = open_file(name);
    is_key_next = false;
    return file;
}

/* Reads at most size bytes, after a signal again. Returns their number, 0 at the end, or -1 and
 * sets errno. */
static ssize_t read_retrying_signals(int file, void *bytes, size_t size) {
    ssize_t count;
    int error;

    do count = read_next(file, bytes, size);
    while (count < 0 && errno == EINTR);
    error = errno;
    if (is_shown) count_bytes_read(file, count);
    errno = error;
    return count;
}

/* Whether a read fills its room. A tree hashes only leaves of one piece in parallel, and a pipe has
 * pieces of 64 KiB. */
static bool is_filling;

/* How the file has ended after bytes that a read returned, which the next one returns: with an error,
 * or at its end. */
enum { NOT_ENDED = -1, AT_END = 0 };
static int ended = NOT_ENDED;

/* As read_retrying_signals, but reads until the room is full or the file has ended. */
static ssize_t read_until_full(int file, char *bytes, size_t size) {
    size_t filled = 0;
    ssize_t count;

    do {
        count = read_retrying_signals(file, bytes + filled, size - filled);
        if (count > 0) filled += (size_t)count;
    } while (count > 0 && filled < size);
    if (!filled) return count;
    if (count <= 0) ended = count ? errno : AT_END;
    return (ssize_t)filled;
}

/* Returns how the file has ended: 0, or -1 and sets errno. */
static ssize_t take_read_end(void) {
    errno = ended;
    ended = NOT_ENDED;
    return errno == AT_END ? 0 : -1;
}

/* Reads a list, or else as read_retrying_signals, or with is_filling as read_until_full. */
OF_TEXT ssize_t b2sum_read(int file, void *bytes, size_t size) {
    list *const it = *find_list_slot(file);

    if (is_secret) wipe_stack();
    if (it) return read_list(it, bytes, size);
    if (file == STDIN_FILENO) is_input_read = true;
    is_key_next = false;
    if (ended != NOT_ENDED) return take_read_end();
    return is_filling ? read_until_full(file, bytes, size) : read_retrying_signals(file, bytes, size);
}

/* ---- Trees. */

/* For less of a file, starting a thread costs what it saves. */
enum { LEAST_BYTES = 1 << 19 };

/* The file's position, if it is a large regular file from there on; otherwise -1. */
static off_t offset_if_large_file(int file) {
    struct stat about;
    off_t from;

    if (fstat(file, &about) || !S_ISREG(about.st_mode)) return -1;
    from = lseek(file, 0, SEEK_CUR);
    return about.st_size - from < LEAST_BYTES ? -1 : from;
}

/* Shows that this many bytes were read after those before. */
static int show_thread_progress(void *before, uint64_t count) {
    shown.count = *(const uint64_t *)before + count;
    draw_or_clear_progress(true);
    return 0;
}

/* Absorbs a large regular file from its position to its end, by this many threads, and moves the
 * position. If it is none, or cannot be read so, nothing changes. */
static void absorb_rest_by_threads(int file, unsigned threads, vulfsjor_tree_state *state) {
    const off_t from = offset_if_large_file(file);
    uint64_t before;

    if (from < 0) return;
    if (is_shown) count_bytes_read(file, 0);
    before = shown.count;
    if (!vulfsjor_tree_update_fd(state, file, threads, is_shown ? show_thread_progress : NULL, &before)) return;
    shown.count = before;
    if (lseek(file, from, SEEK_SET) != from) abort();
}

/* The source, its descriptor, the number of threads, the tree, and room for a piece. */
#define ARGUMENTS \
    void *source, int file, unsigned threads, vulfsjor_tree_state *state, void *room, size_t size

/* The function of this name of the assembly file; the proved one, which reads the source to its end
 * in one thread, has the other name. It does that after the threads too: it reads what they could
 * not, or finds the end. */
HIDDEN OF_TEXT bool b2sum_absorb_tree(ARGUMENTS) __asm__(SYMBOL(ABSORB_TREE));
HIDDEN OF_TEXT bool b2sum_absorb_proved(ARGUMENTS) __asm__(SYMBOL(PROVED_TREE));
OF_TEXT bool b2sum_absorb_tree(ARGUMENTS) {
    bool is_whole;

    absorb_rest_by_threads(file, threads, state);
    is_filling = true;
    is_whole = b2sum_absorb_proved(source, file, threads, state, room, size);
    is_filling = false;
    ended = NOT_ENDED;
    return is_whole;
}
