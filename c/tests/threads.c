/* Tests the functions of vulfsjor_threads.h. Compares roots of bytes, files and descriptors with
 * vulfsjor_tree_root of the same bytes (whose values conformance.c compares with hashlib), for any
 * number of threads. Tests files of every kind, each refusal with its errno, and calls at the same
 * time. Returns 0 if all is as it should be.
 *
 *   cc -std=gnu99 -I FOLDER/include threads.c ARCHIVE-threads.a ARCHIVE.a -pthread -o threads
 *   ./threads FOLDER [TURNS]     makes its files in this folder; TURNS (400) are random messages
 *
 * It is also run over threads.c compiled with -DLEAST_BYTES=1, so few bytes have many threads. */
#include "../system.h"

#include "vulfsjor_threads.h"
#define SAY_MORE() perror("errno")
#include "thread_calls.h"

#include <sys/socket.h>

/* As threads.c has it. */
#ifndef LEAST_BYTES
#define LEAST_BYTES (1 << 18)
#endif
#define NO_TEXTS 0, 0, 0, 0

enum { BYTES = 6 << 20, STREAM = 3 << 20 };

static char other[PATH_MAX];

/* ---- roots */

static void check_random_roots(int turns) {
    static const uint32_t most[] = {10, 2000, 70000, 3000000};

    for (int turn = 0; turn < turns; turn++) {
        size_t length = turn % 3 == 2 ? random_below(BYTES) : turn < 40 ? (size_t)turn : random_below(20000);
        uint32_t leaf = (uint32_t)(1 + random_below(most[turn % 4]));
        if (leaf < 100) length %= 50000;
        write_message_file(length);
        for (unsigned threads = 0; threads <= 9; threads += 1 + (unsigned)random_below(4))
            check_roots_of_message_and_file(length, random_below(3) ? random_below(length + 1) : 0,
                                            1 + random_below(64), leaf, threads);
        check_roots_of_message_and_file(length, 0, 64, leaf, UINT_MAX - (unsigned)turn);
    }
}

/* Updates that end at leaves, one byte before and one byte after. */
static void check_updates_around_leaf_ends(void) {
    enum { LEAF = 70000 };

    for (size_t i = 0; i < 9; i++) {
        const size_t head = 10 * LEAF - 1 + i % 3, length = head + 9 * LEAF - 1 + i / 3;
        write_message_file(length);
        check_roots_of_message_and_file(length, head, 64, LEAF, 3);
    }
}

/* ---- files */

/* Writes the beginning of the message to this descriptor, or to the other file if it is none. Returns null if it can. */
static void *write_message_to_stream(void *given) {
    const int file = *(int *)given < 0 ? open(other, O_WRONLY) : *(int *)given;
    const ssize_t written = write(file, message, STREAM);

    return close(file) || written != STREAM ? given : NULL;
}

/* The roots of what comes through a named pipe and a socket while a thread writes to it, and of an update, whose
 * progress grows to the length. thread_faults.c has pipes, and reads of any length. */
static void check_pipe_and_socket_roots(void) {
    int never = 0;

    unlink(other);
    CHECK(!vulfsjor_tree_root(wanted, 64, message, STREAM, NO_TEXTS, 65536) && !mkfifo(other, 0600));
    for (int way = 0; way < 3; way++) {
        int ends[2] = {-1, -1};
        pthread_t writer;
        void *wrong;
        memcpy(root, blank, 64);
        reported = 0;
        CHECK(!vulfsjor_tree_init(&state, 64, NO_TEXTS, 65536));
        CHECK((!way || !socketpair(AF_UNIX, SOCK_STREAM, 0, ends)) &&
              !pthread_create(&writer, NULL, write_message_to_stream, &ends[1]));
        CHECK(!(way == 0   ? vulfsjor_tree_root_file(root, 64, other, NO_TEXTS, 65536, 4)
                : way == 1 ? vulfsjor_tree_root_fd(root, 64, ends[0], NO_TEXTS, 65536, 4)
                           : vulfsjor_tree_update_fd(&state, ends[0], 4, note_progress, &never) ||
                                 reported != STREAM || vulfsjor_tree_final(&state, root, 64)));
        CHECK(!memcmp(root, wanted, 64) && !pthread_join(writer, &wrong) && !wrong && (!way || !close(ends[0])));
    }
    CHECK(!unlink(other));
}

/* A position behind the end, where nothing is left. */
static void check_position_behind_end(void) {
    int file = open(path, O_RDONLY);

    CHECK(lseek(file, STREAM, SEEK_SET) == STREAM && !vulfsjor_tree_root(wanted, 64, NULL, 0, NO_TEXTS, 4096));
    CHECK(!vulfsjor_tree_root_fd(root, 64, file, NO_TEXTS, 4096, 4) && !memcmp(root, wanted, 64));
    CHECK(lseek(file, 0, SEEK_CUR) == STREAM && !close(file));
}

/* A file of /proc, which says that it has no bytes, one of /sys, which says 4,096, and a device. */
static void check_special_files(void) {
    static const char *const names[] = {"/proc/version", "/sys/kernel/mm/transparent_hugepage/enabled", "/dev/null"};

    for (size_t i = 0; i < COUNT_OF(names); i++) {
        unsigned char bytes[4096];
        int file = open(names[i], O_RDONLY);
        ssize_t n = file < 0 ? -1 : read(file, bytes, sizeof bytes);
        close(file);
        if (n < 0) continue;
        CHECK(i == 2 || n > 0);
        CHECK(!vulfsjor_tree_root(wanted, 64, bytes, (size_t)n, NO_TEXTS, 5));
        int status = vulfsjor_tree_root_file(root, 64, names[i], NO_TEXTS, 5, 4);
        CHECK(i == 1 && LEAST_BYTES < 4096 ? status == -1 && errno == EIO : !status && !memcmp(root, wanted, 64));
    }
}

/* ---- refusals */

/* What is refused changes neither the root nor the state. */
#define REFUSED(error, call)                                                                    \
    do {                                                                                        \
        const vulfsjor_tree_state before = state;                                               \
        memcpy(root, blank, 64);                                                                \
        errno = 0;                                                                              \
        CHECK((call) == -1 && errno == (error) && !memcmp(root, blank, 64) && SAME(state, before)); \
    } while (0)

/* Wrong arguments of each call, alone, which it refuses before anything is opened or read. */
static void check_refused_arguments(void) {
    static const struct {
        size_t outlen, saltlen, personallen;
        const void *salt, *personal;
        uint64_t leaf;
        void *out;
    } rows[] = {{0, 0, 0, NULL, NULL, 4, root},   {65, 0, 0, NULL, NULL, 4, root}, {64, 17, 0, blank, NULL, 4, root},
                {64, 1, 0, NULL, NULL, 4, root},  {64, 0, 1, NULL, NULL, 4, root}, {64, 0, 17, NULL, blank, 4, root},
                {64, 0, 0, NULL, NULL, 0, root},  {64, 0, 0, NULL, NULL, 4, NULL},
                {64, 0, 0, NULL, NULL, ((uint64_t)1 << 32) + 4, root}};
    static const size_t lengths[] = {(size_t)1 << 58, ((size_t)1 << 58) - 6, SIZE_MAX, SIZE_MAX - 5};
    int ends[2], file;

    memset(&state, 0, sizeof state);
    write_message_file(1 << 20);
    CHECK((file = open(path, O_RDONLY)) >= 0);
    CHECK(!pipe(ends) && write(ends[1], "a", 1) == 1 && !close(ends[1]));
    for (size_t i = 0; i < COUNT_OF(rows); i++) {
#define ROW rows[i].salt, rows[i].saltlen, rows[i].personal, rows[i].personallen, rows[i].leaf, 2
        REFUSED(EINVAL, vulfsjor_tree_root_threads(rows[i].out, rows[i].outlen, message, 5, ROW));
        REFUSED(EINVAL, vulfsjor_tree_root_fd(rows[i].out, rows[i].outlen, ends[0], ROW));
        REFUSED(EINVAL, vulfsjor_tree_root_fd(rows[i].out, rows[i].outlen, file, ROW));
        REFUSED(EINVAL, vulfsjor_tree_root_file(rows[i].out, rows[i].outlen, other, ROW));
    }
    REFUSED(EINVAL, vulfsjor_tree_root_file(root, 64, NULL, NO_TEXTS, 4, 2));
    REFUSED(EINVAL, vulfsjor_tree_root_threads(root, 64, NULL, 5, NO_TEXTS, 4, 2));
    REFUSED(EINVAL, vulfsjor_tree_root_threads(root, 64, message, (size_t)1 << 58, NO_TEXTS, 1, 2));
    REFUSED(EINVAL, vulfsjor_tree_root_threads(root, 64, message, SIZE_MAX, NO_TEXTS, 1, 1));
    for (size_t i = 0; i < 2; i++) { /* no init has made the state, or there is none */
        vulfsjor_tree_state *S = i ? NULL : &state;
        REFUSED(EINVAL, vulfsjor_tree_update_threads(S, message, 5, 2));
        REFUSED(EINVAL, vulfsjor_tree_update_threads(S, i ? NULL : message, 0, 2));
        REFUSED(EINVAL, vulfsjor_tree_update_fd(S, ends[0], 2, NULL, NULL));
    }
    CHECK(!vulfsjor_tree_init(&state, 64, NO_TEXTS, 4) && !vulfsjor_tree_update(&state, message, 6));
    REFUSED(EINVAL, vulfsjor_tree_update_threads(&state, NULL, 5, 2));
    for (size_t i = 0; i < 4; i++) REFUSED(EINVAL, vulfsjor_tree_update_threads(&state, message, lengths[i], 2));
    CHECK(!vulfsjor_tree_update_threads(&state, NULL, 0, 0) && vulfsjor_tree_count(&state) == 6);
    for (int more = 1; more >= 0; more--) /* a byte, and nothing */
        CHECK(!vulfsjor_tree_update_fd(&state, ends[0], 2, NULL, NULL) && vulfsjor_tree_count(&state) == 7);
    CHECK(!lseek(file, 0, SEEK_CUR) && !close(file) && !close(ends[0]));
}

/* Refuses the descriptor with this error, and closes it. */
static void expect_descriptor_refused(int error, int file) {
    REFUSED(error, vulfsjor_tree_root_fd(root, 64, file, NO_TEXTS, 4, 2));
    REFUSED(error, vulfsjor_tree_update_fd(&state, file, 2, NULL, NULL));
    close(file);
}

static void check_refused_files(void) {
    static const struct {
        const char *path;
        int error;
    } paths[] = {{"/", EISDIR}, {"/nowhere/at/all", ENOENT}, {"", ENOENT}, {"/dev/null/file", ENOTDIR}};
    int ends[2], huge = memfd_create("huge", 0);

    write_message_file(1 << 20);
    expect_descriptor_refused(EBADF, -1);
    expect_descriptor_refused(EBADF, open(path, O_WRONLY));
    expect_descriptor_refused(EBADF, open(path, O_PATH));
    expect_descriptor_refused(EISDIR, open("/", O_RDONLY));
    CHECK(!ftruncate(huge, ((off_t)1 << 58) - 7)); /* the state has 7 bytes */
    REFUSED(EFBIG, vulfsjor_tree_update_fd(&state, huge, 2, NULL, NULL));
    CHECK(!ftruncate(huge, (off_t)1 << 58));
    expect_descriptor_refused(EFBIG, huge);
    CHECK(!pipe2(ends, O_NONBLOCK));
    expect_descriptor_refused(EAGAIN, ends[0]);
    close(ends[1]);
    for (size_t i = 0; i < COUNT_OF(paths); i++)
        REFUSED(paths[i].error, vulfsjor_tree_root_file(root, 64, paths[i].path, NO_TEXTS, 4, 2));
}

/* ---- calls at the same time */

static void *make_calls_in_thread(void *given) {
    unsigned char mine[64];
    uintptr_t wrong = 0;

    for (int i = 0; i < 20; i++)
        if (vulfsjor_tree_root_threads(mine, 64, message, 2 << 20, NO_TEXTS, 65536, 3) ||
            memcmp(mine, given, 64))
            wrong++;
    return (void *)wrong;
}

static void check_concurrent_calls(void) {
    pthread_t callers[4];
    void *wrong;

    CHECK(!vulfsjor_tree_root(wanted, 64, message, 2 << 20, NO_TEXTS, 65536));
    for (int i = 0; i < 4; i++) CHECK(!pthread_create(&callers[i], NULL, make_calls_in_thread, wanted));
    for (int i = 0; i < 4; i++) CHECK(!pthread_join(callers[i], &wrong) && !wrong);
}

int main(int count, char **words) {
    int turns = count > 2 ? atoi(words[2]) : 400;

    if (count < 2) return 2;
    make_message(BYTES + 1, words[1]);
    snprintf(other, sizeof other, "%s/other", words[1]);
    RUN(check_concurrent_calls());
    RUN(check_random_roots(turns));
    RUN(check_updates_around_leaf_ends());
    RUN(check_pipe_and_socket_roots());
    RUN(check_position_behind_end());
    RUN(check_special_files());
    RUN(check_refused_arguments());
    RUN(check_refused_files());
    unlink(path);
    free(message);
    return fails ? 1 : 0;
}
