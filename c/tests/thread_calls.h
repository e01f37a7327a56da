/* What threads.c, thread_faults.c and system.c share: a message, a file that has its beginning, and for programs that
 * include system.h before, what compares roots. */
#include "check.h"

#include <errno.h>
#include <fcntl.h>
#include <limits.h>
#include <stdlib.h>
#include <string.h>
#include <sys/stat.h>
#include <unistd.h>

#ifdef _WIN32
enum { OF_BYTES = O_BINARY };
#else
#include <pthread.h>
#include <signal.h>
#include <sys/mman.h>
enum { OF_BYTES = 0 };
#endif

/* Makes a test. A test that hangs is ended by threads.sh, and is the last that this names. */
#define RUN(test) (fprintf(stderr, "%s\n", #test), test)

static unsigned char *message, root[64], wanted[64], blank[64];
static char path[PATH_MAX];

/* Makes the file hold the beginning of the message. */
static void write_message_file(size_t length) {
    int file = open(path, O_WRONLY | O_CREAT | O_TRUNC | OF_BYTES, 0600);

    if (file < 0 || write(file, message, length) != (ssize_t)length || close(file)) exit(3);
}

/* The message, of so many bytes, in the folder that is named. */
static void make_message(size_t length, const char *folder) {
    uint64_t word;

    if (!(message = malloc(length + sizeof word))) exit(2);
    snprintf(path, sizeof path, "%s/message", folder);
    memset(blank, 0xaa, sizeof blank);
    for (size_t i = 0; i < length; i += sizeof word) {
        word = random_below(UINT64_MAX);
        memcpy(message + i, &word, sizeof word);
    }
}

#ifdef VULFSJOR_SYSTEM_H
/* ---- roots */

#ifndef OPEN_FOR_READING
#define OPEN_FOR_READING(path) open_path(path)
#endif
#define TEXTS "salt", 4, "pers", 4

static vulfsjor_tree_state state;
static uint64_t reported;

/* Notes how many bytes an update has absorbed, each time more, and ends it if it is to end. */
static int note_progress(void *ends, uint64_t count) {
    CHECK(count > reported);
    reported = count;
    return *(int *)ends;
}

/* The file, open from this byte on. */
static int open_file_at(size_t from) {
    const int file = OPEN_FOR_READING(path);

    CHECK(file >= 0 && lseek(file, (off_t)from, SEEK_SET) == (off_t)from);
    return file;
}

/* Compares the root of the state, and of one that absorbs a byte more, with that of the first bytes of the message. */
static void check_root_of_state(size_t length, size_t outlen, uint32_t leaf) {
    CHECK(vulfsjor_tree_count(&state) == length);
    for (size_t more = 0; more < 2; more++) {
        vulfsjor_tree_state longer = state;
        CHECK(!vulfsjor_tree_update(&longer, message + length, more) && !vulfsjor_tree_final(&longer, root, outlen));
        CHECK(!vulfsjor_tree_root(wanted, outlen, message, length + more, TEXTS, leaf));
        CHECK(!memcmp(root, wanted, outlen));
    }
}

/* Compares with vulfsjor_tree_root, for the message and the file that has it: roots of both, that of the file from a
 * byte on, and those of a state that has absorbed the bytes before, also by threads. Each call leaves the file at its
 * end, and an update that is ended leaves the state as it was. */
static void check_roots_of_message_and_file(size_t length, size_t head, size_t outlen, uint32_t leaf,
                                            unsigned threads) {
    const void *const in = length ? message : NULL;
    const int file = open_file_at(head);
    int ends = 1;

    for (int way = 0; way < 3; way++) {
        const size_t from = way == 2 ? head : 0;
        memcpy(wanted, memcpy(root, blank, 64), 64);
        CHECK(!vulfsjor_tree_root(wanted, outlen, message + from, length - from, TEXTS, leaf));
        CHECK(!(way == 0   ? vulfsjor_tree_root_threads(root, outlen, in, length, TEXTS, leaf, threads)
                : way == 1 ? vulfsjor_tree_root_file(root, outlen, path, TEXTS, leaf, threads)
                           : vulfsjor_tree_root_fd(root, outlen, file, TEXTS, leaf, threads)));
        CHECK(!memcmp(root, wanted, 64));
    }
    CHECK(lseek(file, 0, SEEK_CUR) == (off_t)length && lseek(file, (off_t)head, SEEK_SET) == (off_t)head);
    CHECK(!vulfsjor_tree_init(&state, outlen, TEXTS, leaf));
    CHECK(!vulfsjor_tree_update_threads(&state, head ? message : NULL, head, threads));
    const vulfsjor_tree_state before = state;
    CHECK(!vulfsjor_tree_update_threads(&state, message + head, length - head, threads));
    check_root_of_state(length, outlen, leaf);
    state = before, reported = 0;
    if (length > head) {
        CHECK(vulfsjor_tree_update_fd(&state, file, threads, note_progress, &ends) == -1 && errno == ECANCELED);
        CHECK(SAME(state, before) && lseek(file, (off_t)head, SEEK_SET) == (off_t)head);
    }
    ends = 0, reported = 0;
    CHECK(!vulfsjor_tree_update_fd(&state, file, threads, note_progress, &ends) && reported == length - head);
    CHECK(lseek(file, 0, SEEK_CUR) == (off_t)length && !close(file));
    check_root_of_state(length, outlen, leaf);
}
#endif
