/* The functions of vulfsjor_threads.h over a system that fails: memory that is refused, threads that do not start,
 * reads that are short, interrupted, or fail, files that grow or shrink meanwhile, and a library that refuses. After
 * each failure the answer, errno and the output are compared, no memory, thread or descriptor is left, and signals and
 * cancellation are as before. Returns 0 if all is as it should be.
 *
 *   cc -std=gnu99 -DLEAST_BYTES=1 -I FOLDER/include thread_faults.c ARCHIVE -pthread -o thread_faults
 *   ./thread_faults FOLDER       makes its file in this folder
 *   cc the same without -DLEAST_BYTES=1       tests only what depends on that length */
#define _GNU_SOURCE
#include "vulfsjor_threads.h"
#define SAY_MORE() fprintf(stderr, "%s %d\n", fault.call, fault.at)
#include "thread_calls.h"

/* With what system.h includes, before some of it is replaced. */
#include <dirent.h>
#include <malloc.h>
#include <sched.h>
#include <stdbool.h>
#include <sys/prctl.h>
#include <sys/resource.h>
#include <sys/uio.h>
#include <time.h>

enum { BYTES = 40 << 20, FEW = 100000 };
#define FAR (((size_t)1 << 32) + 1000)

/* Whether threads.c starts a thread for each byte. */
#ifdef LEAST_BYTES
#define EACH_BYTE 1
#else
#define EACH_BYTE 0
#endif

/* ---- the calls of threads.c that can fail */

/* A thread that is canceled within a call would lose what the call has, so it can't be until the call ends: whether it
 * could. That is looked at in the caller's thread, wherever the system might cancel it. */
static pthread_t caller;
static int could_cancel;
static void count_uncancelable_call(void) {
    int was;

    if (!pthread_equal(pthread_self(), caller)) return;
    pthread_setcancelstate(PTHREAD_CANCEL_DISABLE, &was);
    could_cancel |= was != PTHREAD_CANCEL_DISABLE;
}

/* Which call fails: the one of this name that is counted `at`, once, with this errno. */
static struct {
    const char *call;
    int at, error, counted;
} fault = {"", 0, 0, 0};

static int allocated, running, started; /* blocks and threads that are left; threads in all */

static int atomic_add(int *counter, int n) { return __atomic_add_fetch(counter, n, __ATOMIC_SEQ_CST); }
static int atomic_value(int *counter) { return atomic_add(counter, 0); }

/* Whether this call is the one that fails. */
static int is_planned_failure(const char *call) {
    if (strcmp(call, fault.call) || atomic_add(&fault.counted, 1) != fault.at) return 0;
    errno = fault.error;
    return 1;
}

/* How reads differ from what is requested: at most `most` bytes each, an interruption before each,
 * and another size of the file from call `resized_at` on, for which later calls wait. With `waits`
 * the first read waits for a second one, and all others wait until a thread has no more to do. */
static struct {
    size_t most;
    int interrupted, waits, resized_at;
    off_t size;
    int file, calls, resized, ended;
    int least; /* the read of the first byte waits until there are as many reads; 0: it does not */
    int others, waiting; /* and until so many threads wait for room; those that have waited */
    int inherited; /* whether a program that is started meanwhile would have a file that was read */
} reads;

static void wait_for(int *counter, int n) {
    while (atomic_value(counter) < n) usleep(100);
}

/* Whether this read is interrupted. */
static int is_read_interrupted(int file) {
    int call = atomic_add(&reads.calls, 1);

    count_uncancelable_call();
    if (!(fcntl(file, F_GETFD) & FD_CLOEXEC)) reads.inherited = 1;
    if (call == reads.resized_at) {
        if (ftruncate(reads.file, reads.size)) abort();
        atomic_add(&reads.resized, 1);
    }
    if (reads.resized_at && call > reads.resized_at) wait_for(&reads.resized, 1);
    if (reads.waits) wait_for(call == 1 ? &reads.calls : &reads.ended, call == 1 ? 2 : 1);
    if (!reads.interrupted || call % 2 == 0) return 0;
    errno = EINTR;
    return 1;
}

/* Whether input is only noted, and not read or hashed; and a sum over what was read, in which the ends of neighbors
 * cancel out. */
static int only_noted;
static uint64_t noted;

/* A number for a place in the input. Sums of others are not the same. */
static uint64_t hash_of_offset(uint64_t place) {
    place = (place ^ place >> 30) * 0xbf58476d1ce4e5b9u;
    place = (place ^ place >> 27) * 0x94d049bb133111ebu;
    return place ^ place >> 31;
}

static ssize_t note_read_range(size_t n, off_t from) {
    __atomic_fetch_add(&noted, hash_of_offset((uint64_t)from + n) - hash_of_offset((uint64_t)from), __ATOMIC_SEQ_CST);
    return (ssize_t)n;
}

static ssize_t read_or_fail(int file, void *to, size_t n) {
    if (is_read_interrupted(file) || is_planned_failure("read")) return -1;
    return read(file, to, reads.most && n > reads.most ? reads.most : n);
}

static ssize_t pread_or_fail(int file, void *to, size_t n, off_t from) {
    if (only_noted) return note_read_range(n, from);
    if (reads.least && !from) { /* no more reads come, since all other threads wait then */
        atomic_add(&reads.calls, 1);
        wait_for(&reads.calls, reads.least);
        wait_for(&reads.waiting, reads.others);
        CHECK(atomic_value(&reads.calls) == reads.least);
        return is_planned_failure("first pread") ? -1 : pread(file, to, n, from);
    }
    if (is_read_interrupted(file) || is_planned_failure("pread")) return -1;
    return pread(file, to, reads.most && n > reads.most ? reads.most : n, from);
}

/* The message in memory is noted as that of a file is. */
static size_t length;
static int note_absorbed_input(const void *given, size_t n) {
    const unsigned char *input = given;

    if (input >= message && input < message + length) note_read_range(n, input - message);
    return 0;
}

/* The largest block since this was set to 0. */
static size_t largest;

static void *malloc_or_fail(size_t n) {
    void *block = is_planned_failure("malloc") ? NULL : malloc(n);

    count_uncancelable_call();
    if (n > __atomic_load_n(&largest, __ATOMIC_RELAXED))
        __atomic_store_n(&largest, n, __ATOMIC_RELAXED);
    if (block) atomic_add(&allocated, 1), memset(block, 0x5a, n); /* no digests of the call before */
    return block;
}

static void counted_free(void *block) {
    if (block) atomic_add(&allocated, -1);
    free(block);
}

/* Whether two sets have the same signals. */
static int are_signal_sets_equal(const sigset_t *a, const sigset_t *b) {
    int number = 1;

    while (number <= SIGRTMAX && sigismember(a, number) == sigismember(b, number)) number++;
    return number > SIGRTMAX;
}

/* Whether this thread blocks all signals that can be blocked, except those of its own faults of memory. */
static int thread_blocks_signals(void) {
    sigset_t wanted, mask;

    sigfillset(&wanted), sigdelset(&wanted, SIGBUS), sigdelset(&wanted, SIGSEGV);
    pthread_sigmask(SIG_SETMASK, &wanted, &mask);
    pthread_sigmask(SIG_SETMASK, &mask, &wanted); /* as the system has set it */
    return are_signal_sets_equal(&mask, &wanted);
}

/* What threads.c has each thread do, which is one function for all. */
static void *(*hash)(void *);
static int wrong_masks;
static void *hash_and_count_end(void *given) {
    if (!thread_blocks_signals()) atomic_add(&wrong_masks, 1);
    void *answer = hash(given);

    atomic_add(&reads.ended, 1);
    return answer;
}

static int start_counted_thread(pthread_t *t, void *(*function)(void *), void *given) {
    int error;

    if (!hash) hash = function; /* before the first thread, since all read it */
    error = is_planned_failure("pthread_create") ? fault.error : pthread_create(t, NULL, hash_and_count_end, given);
    if (!error) atomic_add(&running, 1), atomic_add(&started, 1);
    return error;
}

static int join_counted_thread(pthread_t t) {
    atomic_add(&reads.ended, 1); /* the caller's thread has no more to do */
    atomic_add(&running, -1);
    return pthread_join(t, NULL);
}

/* The processors that sysconf reports where sched_getaffinity fails; INT_MIN: it does not fail. */
static int processors = INT_MIN;

/* ---- threads.c over them. A name in parentheses is still the system's or the library's. */

#define malloc(n) malloc_or_fail(n)
#define free(block) counted_free(block)
#define pthread_create(t, a, f, given) start_counted_thread(t, f, given)
#define pthread_join(t, x) join_counted_thread(t)
#define pthread_cond_wait(c, m) (atomic_add(&reads.waiting, 1), pthread_cond_wait(c, m))
#define sched_getaffinity(p, n, set) (processors != INT_MIN ? -1 : sched_getaffinity(p, n, set))
#define sysconf(name) (processors != INT_MIN ? processors : sysconf(name))
#define openat(...) (count_uncancelable_call(), openat(__VA_ARGS__))
#define close(file) (count_uncancelable_call(), close(file))
#define pread(file, to, n, from) pread_or_fail(file, to, n, from)
#define read(file, to, n) read_or_fail(file, to, n)
#define OR_FAILS(call, ...) (is_planned_failure(#call) ? -1 : call(__VA_ARGS__))
#define lseek(...) OR_FAILS(lseek, __VA_ARGS__)
#define fstat(...) OR_FAILS(fstat, __VA_ARGS__)
#define vulfsjor_tree_plan(...) OR_FAILS(vulfsjor_tree_plan, __VA_ARGS__)
#define vulfsjor_tree_plan_update(...) OR_FAILS(vulfsjor_tree_plan_update, __VA_ARGS__)
#define vulfsjor_tree_part(...) OR_FAILS(vulfsjor_tree_part, __VA_ARGS__)
/* Where files are only noted, nothing is hashed. */
#define OR_NOTES(noted, call, ...) (is_planned_failure(#call) ? -1 : only_noted ? (noted) : call(__VA_ARGS__))
#define vulfsjor_tree_root(...) OR_NOTES(0, vulfsjor_tree_root, __VA_ARGS__)
#define vulfsjor_tree_update(t, i, in) OR_NOTES(note_absorbed_input(i, in), vulfsjor_tree_update, t, i, in)
#define vulfsjor_tree_update_leaves(t, o, on, i, in) \
    OR_NOTES(note_absorbed_input(i, in), vulfsjor_tree_update_leaves, t, o, on, i, in)
#define vulfsjor_tree_final(...) OR_NOTES(0, vulfsjor_tree_final, __VA_ARGS__)
#define vulfsjor_tree_init_root(...) OR_NOTES(0, vulfsjor_tree_init_root, __VA_ARGS__)
#define vulfsjor_tree_init_leaf(...) OR_NOTES(0, vulfsjor_tree_init_leaf, __VA_ARGS__)
#define vulfsjor_blake2b_update(s, i, in) OR_NOTES(note_absorbed_input(i, in), vulfsjor_blake2b_update, s, i, in)
#define vulfsjor_blake2b_final(...) OR_NOTES(0, vulfsjor_blake2b_final, __VA_ARGS__)
#define vulfsjor_tree_leaves(o, on, f, e, i, in, ...) \
    OR_NOTES(note_absorbed_input(i, in), vulfsjor_tree_leaves, o, on, f, e, i, in, __VA_ARGS__)
#define vulfsjor_tree_leaves_ahead(t, o, on, k, i, in) \
    OR_NOTES(note_absorbed_input(i, in), vulfsjor_tree_leaves_ahead, t, o, on, k, i, in)
#include "../threads.c"
#undef close

static uint32_t leaf;
static unsigned asked;

static void plan_fault(const char *call, int at, int error) {
    fault.call = call;
    fault.at = at;
    fault.error = error;
    fault.counted = 0;
    reads.calls = reads.resized = reads.ended = reads.waiting = 0;
}

/* Takes the file of this length, and the root that it has. */
static void make_file_and_its_root(size_t n, uint32_t leaf_length, unsigned threads) {
    plan_fault("", 0, 0);
    length = n;
    leaf = leaf_length;
    asked = threads;
    write_message_file(n);
    CHECK(!(vulfsjor_tree_root)(wanted, 64, message, n, 0, 0, 0, 0, leaf));
}

static int root_by_file(void) { return vulfsjor_tree_root_file(root, 64, path, 0, 0, 0, 0, leaf, asked); }

static int root_by_bytes(void) {
    return vulfsjor_tree_root_threads(root, 64, message, length, 0, 0, 0, 0, leaf, asked);
}

/* What the calls of progress have reported: how often, the last number, and whether each was more
 * than the one before and came in this thread. The call ends at the one of this number. */
static struct {
    int calls, last_call;
    uint64_t count;
    pthread_t thread;
} reported;

static int note_progress_and_maybe_end(void *context, uint64_t count) {
    CHECK(context == &reported && count > reported.count &&
          pthread_equal(pthread_self(), reported.thread));
    reported.count = count;
    return ++reported.calls == reported.last_call ? -7 : 0;
}

/* Absorbs the message after these bytes of it, from memory or from a file, into a state that a failure leaves as it
 * was. */
static int update_after_head(size_t head, int file) {
    vulfsjor_tree_state state, before;
    int status, error;

    if (vulfsjor_tree_init(&state, 64, 0, 0, 0, 0, leaf) || (vulfsjor_tree_update)(&state, message, head)) exit(3);
    before = state;
    reported.calls = reported.count = 0;
    reported.thread = pthread_self();
    status = file < 0 ? vulfsjor_tree_update_threads(&state, message + head, length - head, asked)
                      : vulfsjor_tree_update_fd(&state, file, asked, note_progress_and_maybe_end, &reported);
    error = errno;
    CHECK(!status || !memcmp(&state, &before, sizeof state));
    CHECK(status || file < 0 || reads.resized_at || reported.count == length - head);
    if (!status && (vulfsjor_tree_final)(&state, root, 64)) exit(3);
    errno = error;
    return status;
}

static int update_by_bytes(void) { return update_after_head(1000, -1); }

/* A descriptor with the message after these bytes: of the file, or of a pipe that holds it. */
static int open_input_after_head(size_t head, int is_pipe) {
    int ends[2], file = open(path, O_RDONLY | O_CLOEXEC);

    if (file < 0 || (lseek)(file, (off_t)head, SEEK_SET) < 0) exit(3);
    if (!is_pipe) return file;
    close(file);
    if (pipe(ends) || fcntl(ends[1], F_SETPIPE_SZ, 1 << 20) < 0 ||
        write(ends[1], message + head, length - head) != (ssize_t)(length - head))
        exit(3);
    close(ends[1]);
    return ends[0];
}

/* The root of what a descriptor has, or an update with it. */
static int call_by_descriptor(size_t head, int is_pipe, int is_update) {
    const int file = open_input_after_head(head, is_pipe),
              status = is_update ? update_after_head(head, file)
                                 : vulfsjor_tree_root_fd(root, 64, file, 0, 0, 0, 0, leaf, asked),
              error = errno;

    CHECK(status || is_pipe || reads.resized_at || (lseek)(file, 0, SEEK_CUR) == (off_t)length);
    close(file);
    errno = error;
    return status;
}

static int root_by_pipe(void) { return call_by_descriptor(0, 1, 0); }
static int update_by_pipe_after_head(void) { return call_by_descriptor(1000, 1, 1); }
static int update_by_file_after_head(void) { return call_by_descriptor(1000, 0, 1); }
static int update_by_whole_file(void) { return call_by_descriptor(0, 0, 1); }
static int root_by_file_past_4_gib(void) { return call_by_descriptor(FAR, 0, 0); }

/* How many descriptors are open, and some more. */
static int count_open_descriptors(void) {
    DIR *all = opendir("/proc/self/fd");
    int count = 0;

    while (all && readdir(all)) count++;
    if (all) closedir(all);
    return count;
}

/* Makes the call, after which no memory, thread or descriptor may be left, the root is there or is blank, and the
 * thread is as it was: it has the same signals, and can be canceled or, by turns, not. */
static int call_and_check_nothing_is_left(int (*call)(void)) {
    static int turn;
    const int given = turn++ % 2 ? PTHREAD_CANCEL_ENABLE : PTHREAD_CANCEL_DISABLE;
    int open = count_open_descriptors(), status, error, now;
    sigset_t before, after;

    memcpy(root, blank, 64);
    pthread_sigmask(SIG_BLOCK, NULL, &before);
    pthread_setcancelstate(given, &now);
    errno = reads.inherited = started = 0;
    largest = 0;
    status = call();
    error = errno;
    pthread_setcancelstate(PTHREAD_CANCEL_DISABLE, &now);
    pthread_sigmask(SIG_BLOCK, NULL, &after);
    CHECK(now == given && !could_cancel);
    CHECK(are_signal_sets_equal(&after, &before));
    CHECK(call != root_by_file || !reads.inherited);
    CHECK(!memcmp(root, status ? blank : wanted, 64));
    CHECK(!atomic_value(&allocated) && !atomic_value(&running) && count_open_descriptors() == open);
    errno = error;
    return status;
}

/* The same of a call that has to fail with this errno, or to succeed if `error` is 0. */
static void expect_errno(int (*call)(void), int error) {
    CHECK(call_and_check_nothing_is_left(call) == (error ? -1 : 0) && (!error || errno == error));
}

/* Fails the first call of this name, then the second, until there is no such call. There has to be one. */
static void fail_each_call_in_turn(int (*call)(void), const char *name, int given, int error) {
    int at = 0, hit = 1;

    while (hit) {
        int status;
        plan_fault(name, ++at, given);
        status = call_and_check_nothing_is_left(call);
        hit = fault.counted >= at;
        CHECK(status == (hit && error ? -1 : 0) && (!status || errno == error));
    }
    CHECK(at > 1);
    plan_fault("", 0, 0);
}

/* The file has another length from this read on. */
static void resize_at_read(int at, size_t size, int error) {
    int (*const calls[])(void) = {root_by_file, update_by_whole_file};

    for (size_t i = 0; i < COUNT_OF(calls); i++) {
        write_message_file(length);
        plan_fault("", 0, 0);
        reads.resized_at = at;
        reads.size = (off_t)size;
        reads.file = open(path, O_RDWR);
        expect_errno(calls[i], error);
        close(reads.file);
        memset(&reads, 0, sizeof reads);
    }
}

/* ---- the tests */

/* What fails in these calls, each time that it is made. */
static void check_each_failing_call(void) {
    static const struct {
        const char *name;
        int given, error;
        int (*calls[7])(void);
    } rows[] = {
        {"malloc", 0, ENOMEM, {root_by_bytes, update_by_bytes, root_by_file, root_by_pipe, update_by_file_after_head,
                               update_by_pipe_after_head}},
        {"pthread_create", EAGAIN, 0, {root_by_bytes, update_by_bytes, root_by_file, update_by_file_after_head}},
        /* those that run hash everything */
        {"pread", ESTALE, ESTALE, {root_by_file, update_by_file_after_head}},
        {"read", ECONNRESET, ECONNRESET, {root_by_pipe, update_by_pipe_after_head}},
        {"lseek", EOVERFLOW, EOVERFLOW, {root_by_file, update_by_file_after_head}},
        {"fstat", EOVERFLOW, EOVERFLOW, {root_by_file, update_by_file_after_head}},
        {"vulfsjor_tree_leaves", 0, EINVAL, {root_by_bytes, root_by_file}},
        {"vulfsjor_tree_leaves_ahead", 0, EINVAL, {update_by_bytes, update_by_file_after_head}},
        {"vulfsjor_tree_init_root", 0, EINVAL, {root_by_bytes, root_by_file}},
        {"vulfsjor_blake2b_update", 0, EINVAL, {root_by_bytes, root_by_file}},
        {"vulfsjor_blake2b_final", 0, EINVAL, {root_by_bytes, root_by_file}},
        {"vulfsjor_tree_plan", 0, EINVAL, {root_by_bytes}},
        {"vulfsjor_tree_plan", 0, EFBIG, {root_by_file}},
        {"vulfsjor_tree_plan_update", 0, EINVAL, {update_by_bytes}},
        {"vulfsjor_tree_part", 0, EINVAL, {root_by_bytes, root_by_file, update_by_bytes, update_by_file_after_head}},
        {"vulfsjor_tree_update_leaves", 0, EINVAL, {update_by_bytes, update_by_file_after_head}},
        {"vulfsjor_tree_update", 0, EINVAL, {update_by_bytes}},
        {"vulfsjor_tree_update", 0, EFBIG, {root_by_pipe, update_by_pipe_after_head}},
        {"vulfsjor_tree_final", 0, EINVAL, {root_by_pipe}}};

    make_file_and_its_root(FEW, 4096, 4);
    for (size_t i = 0; i < COUNT_OF(rows); i++)
        for (int (*const *call)(void) = rows[i].calls; *call; call++)
            fail_each_call_in_turn(*call, rows[i].name, rows[i].given, rows[i].error);
    asked = 1;
    fail_each_call_in_turn(root_by_bytes, "vulfsjor_tree_root", 0, EINVAL);
    fail_each_call_in_turn(update_by_bytes, "vulfsjor_tree_update", 0, EINVAL);
    make_file_and_its_root(BYTES, 17 << 20, 2);
    fail_each_call_in_turn(root_by_file, "vulfsjor_tree_init_leaf", 0, EINVAL);
    fail_each_call_in_turn(root_by_file, "vulfsjor_blake2b_final", 0, EINVAL);
    fail_each_call_in_turn(update_by_whole_file, "vulfsjor_tree_init_leaf", 0, EINVAL);
}

/* One call fails, of which there are more, or which is not made: then `error` is 0. */
static void check_one_failing_call(const char *name, int at, int given, int (*call)(void), int error) {
    plan_fault(name, at, given);
    expect_errno(call, error);
    CHECK(error || fault.counted < at || started == at - 1);
}

static void check_some_failing_calls(void) {
    make_file_and_its_root(FEW, 4096, 4);
    check_one_failing_call("malloc", 2, 0, root_by_bytes, 0); /* one for digests, since the bytes are in memory */
    check_one_failing_call("vulfsjor_tree_plan_update", 1, 0, update_by_file_after_head, EFBIG);
    check_one_failing_call("vulfsjor_tree_plan_update", 2, 0, update_by_file_after_head, EINVAL);
    asked = 1;
    check_one_failing_call("malloc", 1, 0, root_by_bytes, 0); /* one thread needs none */
    check_one_failing_call("malloc", 1, 0, update_by_bytes, 0);
    make_file_and_its_root(FEW, 100, 8);
    check_one_failing_call("pthread_create", 1, EAGAIN, root_by_bytes, 0); /* after one that failed no other is tried */
    check_one_failing_call("pthread_create", 4, EAGAIN, root_by_file, 0);
    make_file_and_its_root(BYTES, 17 << 20, 2);
    check_one_failing_call("vulfsjor_blake2b_update", 20, 0, root_by_file, EINVAL);
    check_one_failing_call("pread", 1, EIO, root_by_file, EIO);
    check_one_failing_call("pread", 30, ENXIO, root_by_file, ENXIO);
    /* The first error stays, and the other threads see it and stop after the read that each is
     * in. */
    make_file_and_its_root(BYTES, 65536, 4);
    reads.waits = 1;
    check_one_failing_call("pread", 1, ENXIO, root_by_file, ENXIO);
    CHECK(reads.calls >= 2 && reads.calls <= 4);
    reads.resized_at = 1;
    reads.file = open(path, O_RDWR);
    reads.size = 0;
    check_one_failing_call("pread", 1, ENXIO, root_by_file, ENXIO); /* where the others have EIO */
    close(reads.file);
    memset(&reads, 0, sizeof reads);
}

static void check_short_reads(void) {
    make_file_and_its_root(FEW, 777, 4);
    for (reads.interrupted = 0; reads.interrupted < 2; reads.interrupted++)
        for (reads.most = 1; reads.most < 1 << 17; reads.most = reads.most * 5 + 3) {
            plan_fault("", 0, 0);
            expect_errno(root_by_file, 0);
            expect_errno(root_by_pipe, 0);
            expect_errno(update_by_file_after_head, 0);
            expect_errno(update_by_pipe_after_head, 0);
        }
    make_file_and_its_root(BYTES, 17 << 20, 2); /* the rest has a whole leaf that is not the first */
    reads.interrupted = 1;
    reads.most = 300001;
    expect_errno(root_by_file, 0);
    expect_errno(update_by_file_after_head, 0);
    memset(&reads, 0, sizeof reads);
}

/* While the first part is read, the others are hashed, as far as there is room for their digests:
 * for those of eight parts. Then the first read fails. */
static void check_threads_wait_for_first_part(void) {
    make_file_and_its_root(BYTES, 100, 4);
    reads.least = 8;
    reads.others = 3;
    expect_errno(root_by_file, 0);
    plan_fault("first pread", 1, ENXIO);
    expect_errno(root_by_file, ENXIO);
    memset(&reads, 0, sizeof reads);
}

/* What a file becomes meanwhile: with more bytes the root is that of those it had, with fewer
 * none. */
static void check_files_that_change(void) {
    for (asked = 1; asked <= 4; asked += 3) {
        make_file_and_its_root(FEW, 4096, asked);
        resize_at_read(1, 2 * FEW, 0);
        resize_at_read(1, FEW - 1, EIO);
        resize_at_read(1, 0, EIO);
        make_file_and_its_root(34 << 20, 17 << 20, asked);
        resize_at_read(3, 70 << 20, 0);
        resize_at_read(3, (34 << 20) - 1, EIO);
    }
}

/* A function for progress ends a call at each of its calls, of which there are some. */
static void check_progress_ends_calls(void) {
    int (*const calls[])(void) = {update_by_file_after_head, update_by_whole_file, update_by_pipe_after_head};

    make_file_and_its_root(FEW, 4096, 3);
    for (size_t i = 0; i < COUNT_OF(calls); i++) {
        expect_errno(calls[i], 0);
        CHECK(reported.calls >= 1);
        for (int most = reported.calls, at = 1; at <= most; at++) {
            reported.last_call = at;
            plan_fault("", 0, 0);
            if (call_and_check_nothing_is_left(calls[i])) CHECK(errno == ECANCELED && reported.calls == at);
            else CHECK(reported.calls < at); /* this thread had fewer parts now */
        }
        reported.last_call = 0;
    }
    make_file_and_its_root(FEW, 4096, 1);
    expect_errno(update_by_whole_file, 0);
    CHECK(reported.calls >= 2);
    make_file_and_its_root((1 << 20) + 1000, 4096, 1);
    expect_errno(update_by_pipe_after_head, 0);
    CHECK(reported.calls == 1); /* not again at the end of a stream of whole pieces */
    make_file_and_its_root(34 << 20, 17 << 20, 1); /* two leaves that are longer than a buffer */
    expect_errno(update_by_whole_file, 0);
    CHECK(reported.calls == 34);
    reported.last_call = 3;
    CHECK(update_by_whole_file() == -1 && errno == ECANCELED && reported.calls == 3);
    reported.last_call = 0;
}

/* ---- how many threads hash */

/* Each of these calls starts so many threads. */
static void expect_threads(int others, int (*call)(void), int (*second)(void)) {
    expect_errno(call, 0);
    CHECK(started == others);
    expect_errno(second, 0);
    CHECK(started == others);
}

static void expect_threads_for_file(size_t n, uint32_t leaf_length, unsigned threads, int others) {
    make_file_and_its_root(n, leaf_length, threads);
    expect_threads(others, root_by_bytes, root_by_file);
    if (EACH_BYTE) expect_threads(others, update_by_bytes, update_by_file_after_head);
}

static void check_numbers_of_threads(void) {
    static const int answers[][2] = {{3, 2}, {1, 0}, {0, 0}, {-1, 0}};
    cpu_set_t all, few;

    expect_threads_for_file(FEW, 1, 300, 255);
    expect_threads_for_file(FEW, 100, 5, 4);
    expect_threads_for_file(FEW, 100, 1, 0);
    make_file_and_its_root(FEW, FEW / 2, 5); /* two leaves */
    expect_threads(1, root_by_bytes, root_by_file);
    make_file_and_its_root(3001, 1000, 5); /* two leaves after one that is whole, and a byte */
    expect_threads(1, update_by_bytes, update_by_file_after_head);
    CHECK(!sched_getaffinity(0, sizeof all, &all));
    expect_threads_for_file(FEW, 100, 0, CPU_COUNT(&all) - 1);
    CPU_ZERO(&few);
    CPU_SET(sched_getcpu(), &few);
    CHECK(!sched_setaffinity(0, sizeof few, &few));
    expect_threads_for_file(FEW, 100, 0, 0);
    CHECK(!sched_setaffinity(0, sizeof all, &all));
    for (size_t i = 0; i < COUNT_OF(answers); i++) { /* the set of processors has no room for all of them */
        processors = answers[i][0];
        expect_threads_for_file(FEW, 100, 0, answers[i][1]);
    }
    processors = INT_MIN;
}

/* One thread at most for each 256 KiB, and a shorter file is read to its end, wherever that is. */
static void check_least_bytes_for_threads(void) {
    static const struct {
        size_t length;
        int others;
    } rows[] = {{(1 << 18) - 1, 0}, {1 << 18, 0},       {(1 << 19) - 1, 0},
                {1 << 19, 1},       {(1 << 20) - 1, 2}, {1 << 20, 3}};

    for (size_t i = 0; i < COUNT_OF(rows); i++) expect_threads_for_file(rows[i].length, 1000, 8, rows[i].others);
    make_file_and_its_root((1 << 18) - 1, 1000, 8);
    fail_each_call_in_turn(root_by_file, "read", ENXIO, ENXIO);
    make_file_and_its_root(1 << 18, 1000, 8);
    fail_each_call_in_turn(root_by_file, "pread", ENXIO, ENXIO);
    make_file_and_its_root((1 << 18) - 1, 1000, 8);
    CHECK(!(vulfsjor_tree_root)(wanted, 64, message, 1 << 17, 0, 0, 0, 0, leaf));
    resize_at_read(1, 1 << 17, 0);
}

/* What vulfsjor_threads.h says of memory: 1 MiB of digests or those of two parts for each thread,
 * whichever is more, and those of a part have 1 MiB or less; and for each thread that reads a file
 * a buffer of 1 MiB or four leaves, whichever is more, or of 16 MiB at most. With each part's
 * digests there is one more byte. An update needs 64 bytes for each leaf, and by a file 16 MiB. */
static void check_documented_memory(void) {
    enum { MIB = 1 << 20, ROOM = (MIB / 400) * 256 };
    static const struct {
        size_t length, leaf, digests;
    } messages[] = {{2 * MIB, 16, 4 * (MIB + 1)},   {8 * MIB, 16, 4 * (MIB + 1)},
                    {10 * MIB, 100, 4 * (ROOM + 1)}, {BYTES, 100, 4 * (ROOM + 1)},
                    {2 * MIB, 4096, 2 * 16385},     {BYTES, 65536, 40 * 1025}};
    static const size_t rows[][2] = {{65536, MIB},        {MIB / 4, MIB},        {MIB, 4 * MIB},
                                     {4 * MIB, 16 * MIB}, {4 * MIB + 1, 4 * MIB + 1},
                                     {16 * MIB, 16 * MIB}, {16 * MIB + 1, MIB},    {BYTES, MIB},
                                     {UINT32_MAX, MIB}};

    for (size_t i = 0; i < COUNT_OF(messages); i++) {
        make_file_and_its_root(messages[i].length, (uint32_t)messages[i].leaf, 2);
        plan_fault("malloc", 0, 0);
        expect_errno(root_by_bytes, 0);
        CHECK(largest == messages[i].digests && fault.counted == 1);
    }
    make_file_and_its_root(FEW * 6, 100, 2);
    expect_errno(update_by_bytes, 0);
    CHECK(largest == 64 * ((FEW * 6 - 1000) / 100 - 1)); /* all but the last leaf */
    for (size_t i = 0; i < COUNT_OF(rows); i++) {
        make_file_and_its_root(BYTES, (uint32_t)rows[i][0], 2);
        expect_errno(root_by_file, 0);
        CHECK(largest == rows[i][1]);
        expect_errno(update_by_whole_file, 0);
        CHECK(largest == rows[i][1]);
    }
    make_file_and_its_root(BYTES, 100, 2);
    expect_errno(update_by_whole_file, 0);
    CHECK(largest > 15 * MIB && largest <= 16 * MIB);
}

/* Each byte of a file or in memory is read once, of more than 2^32 bytes. There is one page of them, and nothing is
 * hashed. */
static void check_inputs_past_4_gib(void) {
    static const uint32_t leaves[] = {4096,    65536,   1 << 22, 1 << 24, (1 << 24) + (1 << 20),
                                      1 << 26, 1u << 31};
    static const struct {
        int (*call)(void);
        size_t from;
    } rows[] = {{root_by_file, 0}, {update_by_whole_file, 0}, {root_by_file_past_4_gib, FAR}, {root_by_bytes, 0},
                {update_by_bytes, 1000}};
    unsigned char *const kept = message;

    make_file_and_its_root(FEW, 65536, 3);
    length = ((size_t)1 << 32) + (64 << 20) + 1;
    message = mmap(NULL, length, PROT_READ, MAP_PRIVATE | MAP_ANONYMOUS | MAP_NORESERVE, -1, 0);
    CHECK(message != MAP_FAILED && !truncate(path, (off_t)length));
    only_noted = 1;
    for (size_t i = 0; i < COUNT_OF(leaves); i++)
        for (size_t k = 0; k < COUNT_OF(rows); k++) {
            leaf = leaves[i];
            largest = 0, noted = 0;
            CHECK(!rows[k].call() && noted == hash_of_offset(length) - hash_of_offset(rows[k].from));
            if (!k && leaf < 1 << 18) CHECK(largest == (1 << 20) + leaf / 64);
        }
    only_noted = 0;
    munmap(message, length);
    message = kept;
}

int main(int count, char **words) {
    if (count < 2) return 2;
    close(0); /* as in a program without standard input: a file that is opened has this number */
    make_message(BYTES, words[1]);
    caller = pthread_self();
    if (EACH_BYTE) {
        RUN(check_each_failing_call());
        RUN(check_some_failing_calls());
        RUN(check_short_reads());
        RUN(check_threads_wait_for_first_part());
        RUN(check_files_that_change());
        RUN(check_progress_ends_calls());
        RUN(check_numbers_of_threads());
    } else {
        RUN(check_least_bytes_for_threads());
        RUN(check_documented_memory());
        RUN(check_inputs_past_4_gib());
    }
    CHECK(!wrong_masks);
    unlink(path);
    (free)(message);
    return fails ? 1 : 0;
}
