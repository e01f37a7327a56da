/* See include/vulfsjor_threads.h. The functions of the library are proved, and so is its plan: the
 * parts of a message are in order, without gap or overlap, and their joined digests have its root.
 * That this file reads each part, absorbs its digests in the order of the parts and waits for its
 * threads is tested (tests/threads.c, tests/thread_faults.c). python/src/by_threads.c includes it. */
#include "system.h"

#include "vulfsjor_threads.h"

/* At most one thread hashes for each LEAST_BYTES of a message: for fewer, starting it costs what it
 * saves. A test sets it to 1. */
#ifndef LEAST_BYTES
#define LEAST_BYTES (1 << 18)
#endif

enum {
    PART_BYTES = 1 << 20,        /* about what a thread takes at a time; the buffer of a stream */
    DIGEST_BYTES = 64,
    PART_LEAVES = 1 << 14,   /* at most, so that the digests of a part are no longer than a part */
    WAITING_BYTES = 1 << 20, /* of digests that wait for the root, or two parts for each thread */
    MOST_BUFFER_BYTES = 1 << 24, /* a thread reads longer leaves of a file in pieces */
    MOST_THREADS = 256,
    MOST_LEAVES = 1 << 18 /* of a file at a time, when it is absorbed into a state */
};

/* The leaves of a plan, which several threads hash. Each takes the next part until none is left or
 * one has failed. The digests of a message are absorbed into its root in the order of the parts, by
 * the thread that ends the part which is next; so there is room for those of a few parts, which are
 * used in turn. All digests of an update are kept, since a state absorbs them together. */
typedef struct job {
    const vulfsjor_tree_state *state; /* whose next leaves they are; null: all of a message */
    const void *salt, *personal;      /* of a message */
    size_t saltlen, personallen;
    uint32_t leaf_length;
    const unsigned char *bytes; /* of the input; null: they are in the file */
    int file;
    uint64_t from; /* where in the file the offsets of the plan begin */
    vulfsjor_plan plan;
    vulfsjor_blake2b_state root;
    gate gate;              /* of all that follows and of the root */
    unsigned char *digests; /* of `rooms` parts, and then for each of them whether it is there */
    size_t room;            /* the bytes of the digests of a part */
    uint64_t rooms;
    uint64_t next;     /* the first part that no thread hashes yet */
    uint64_t absorbed; /* the number of parts whose digests are in the root */
    uint64_t count;    /* of the bytes that were hashed so far */
    int error;         /* the first error, or 0 */
    vulfsjor_progress progress; /* called in the caller's thread; null: not called */
    void *context;
} job;

/* Reads exactly length bytes of the file, from this byte on. Returns 0 or an error, which is EIO if
 * the file ends before. */
static int read_at(int file, unsigned char *to, size_t length, uint64_t from) {
    while (length) {
        ssize_t n = read_from(file, to, length, from);
        if (n < 0 && errno == EINTR) continue;
        if (n < 0) return errno;
        if (!n) return EIO;
        to += n;
        from += (uint64_t)n;
        length -= (size_t)n;
    }
    return 0;
}

/* Initializes the state of the first leaf of a part. Returns -1 if its arguments are refused. */
static int init_first_leaf(const job *j, vulfsjor_blake2b_state *leaf, const vulfsjor_part *part) {
    const vulfsjor_tree_state *S = j->state;

    if (!S)
        return vulfsjor_tree_init_leaf(leaf, part->first, part->ends != 0, j->salt, j->saltlen,
                                       j->personal, j->personallen, j->leaf_length);
    return vulfsjor_tree_init_leaf(leaf, vulfsjor_tree_count(S) / j->leaf_length + part->first, 0,
                                   S->salt, S->salt_length, S->personal, S->personal_length,
                                   j->leaf_length);
}

/* Reports this number, in the caller's thread. Returns 0 or an error. */
static int report_progress(const job *j, uint64_t count) {
    return j->progress && j->progress(j->context, count) ? ECANCELED : 0;
}

/* Counts bytes that were hashed, and reports all of them in the caller's thread. Returns 0 or an
 * error, which may be that of another thread. */
static int count_hashed_bytes(job *j, uint64_t length, int reports) {
    uint64_t count;
    int error;

    lock_gate(&j->gate);
    count = j->count += length;
    error = j->error;
    unlock_gate(&j->gate);
    return error || !reports ? error : report_progress(j, count);
}

/* Writes the digest of a leaf of the file, which is longer than the buffer, and counts its bytes but
 * for the last of them, whose number is then part->length. Returns 0 or an error. */
static int hash_long_leaf(job *j, vulfsjor_part *part, unsigned char *buffer, unsigned char *out,
                          int reports) {
    vulfsjor_blake2b_state leaf;
    uint64_t from = j->from + part->start;
    int error;

    if (init_first_leaf(j, &leaf, part)) return EINVAL;
    for (;;) {
        size_t n = part->length < PART_BYTES ? part->length : PART_BYTES;
        if ((error = read_at(j->file, buffer, n, from))) return error;
        if (vulfsjor_blake2b_update(&leaf, buffer, n)) return EINVAL;
        if (n == part->length) break;
        from += n;
        part->length -= n;
        if ((error = count_hashed_bytes(j, n, reports))) return error;
    }
    return vulfsjor_blake2b_final(&leaf, out, part->digests_length) ? EINVAL : 0;
}

/* Writes the digests of a part, and leaves in part->length the number of its bytes that are not
 * counted. The buffer of `room` bytes is for a part of a file. Returns 0 or an error. */
static int hash_part(job *j, vulfsjor_part *part, unsigned char *buffer, size_t room,
                     unsigned char *out, int reports) {
    const unsigned char *bytes = buffer;
    int error, status;

    if (j->bytes) {
        bytes = j->bytes + part->start;
    } else {
        if (part->length > room) return hash_long_leaf(j, part, buffer, out, reports);
        if ((error = read_at(j->file, buffer, part->length, j->from + part->start))) return error;
    }
    if (j->state)
        status = vulfsjor_tree_leaves_ahead(j->state, out, part->digests_length, part->first, bytes,
                                           part->length);
    else
        status = vulfsjor_tree_leaves(out, part->digests_length, part->first, part->ends != 0,
                                      bytes, part->length, j->salt, j->saltlen, j->personal,
                                      j->personallen, j->leaf_length);
    return status ? EINVAL : 0;
}

/* Takes the next part, as soon as there is room for its digests. Returns 0 or an error, which is -1
 * if no part is left. */
static int take_next_part(job *j, uint64_t *i, vulfsjor_part *part) {
    int error;

    lock_gate(&j->gate);
    while (!j->error && j->next < j->plan.part_count && j->next - j->absorbed >= j->rooms)
        wait_in_gate(&j->gate);
    error = j->error;
    if (!error && j->next >= j->plan.part_count) error = -1;
    *i = j->next;
    if (!error && vulfsjor_tree_part(part, &j->plan, *i)) error = EINVAL;
    if (!error) j->next++;
    unlock_gate(&j->gate);
    return error;
}

/* Absorbs the digests that are there of the next parts. Returns 0 or an error. */
static int absorb_ready_digests(job *j) {
    unsigned char *there = j->digests + j->rooms * j->room;
    vulfsjor_part part;

    while (j->absorbed < j->next && there[j->absorbed % j->rooms]) {
        const uint64_t place = j->absorbed % j->rooms;

        if (vulfsjor_tree_part(&part, &j->plan, j->absorbed) ||
            vulfsjor_blake2b_update(&j->root, j->digests + place * j->room, part.digests_length))
            return EINVAL;
        there[place] = 0;
        j->absorbed++;
    }
    return 0;
}

/* Absorbs the digests of part i, which are there, as soon as those before are. Returns 0 or an
 * error. */
static int deliver_part_digests(job *j, uint64_t i) {
    int error;

    if (j->state) return 0;
    lock_gate(&j->gate);
    j->digests[j->rooms * j->room + i % j->rooms] = 1;
    error = absorb_ready_digests(j);
    wake_all(&j->gate);
    unlock_gate(&j->gate);
    return error;
}

/* What each thread does. That of the caller reports what all have done. */
static void hash_in_thread(job *j, int reports) {
    size_t room = j->bytes ? 0 : j->plan.part_length;
    unsigned char *buffer = NULL;
    uint64_t i;
    vulfsjor_part part;
    int error = 0;

    if (room > MOST_BUFFER_BYTES) room = PART_BYTES;
    if (room && !(buffer = malloc(room))) error = ENOMEM;
    while (!error && !(error = take_next_part(j, &i, &part))) {
        error = hash_part(j, &part, buffer, room, j->digests + i % j->rooms * j->room, reports);
        if (!error) error = deliver_part_digests(j, i);
        if (!error) error = count_hashed_bytes(j, part.length, reports);
    }
    free(buffer);
    if (error <= 0) return;
    lock_gate(&j->gate);
    if (!j->error) j->error = error;
    wake_all(&j->gate);
    unlock_gate(&j->gate);
}

static thread_result THREAD_CALL thread_main(void *given) {
    hash_in_thread(given, 0);
    return 0;
}

/* What a plan of this job depends on. A part of a file has to fit into a buffer. */
static vulfsjor_limits plan_limits_of(const job *j, unsigned threads) {
    vulfsjor_limits limits = {threads, LEAST_BYTES, PART_BYTES, UINT64_MAX};
    const uint64_t most = (uint64_t)j->leaf_length * PART_LEAVES;

    if (most < PART_BYTES) limits.part_bytes = most;
    if (!threads) limits.threads = processor_count();
    if (limits.threads > MOST_THREADS) limits.threads = MOST_THREADS;
    if (!j->bytes) limits.most_bytes = MOST_BUFFER_BYTES;
    return limits;
}

/* Makes the plan of a message. Returns -1 if it is too long. */
static int plan_message(job *j, uint64_t start, uint64_t length, unsigned threads) {
    vulfsjor_limits limits = plan_limits_of(j, threads);

    return vulfsjor_tree_plan(&j->plan, start, length, j->leaf_length, &limits);
}

/* Allocates room for digests: of all parts of an update, or of the parts of a message that are not
 * absorbed yet. Returns 0 or an error. */
static int allocate_digests(job *j) {
    const uint64_t count = j->plan.part_count, two = 2 * j->plan.threads;
    uint64_t size = j->plan.digests_length;

    j->room = j->plan.part_length / j->leaf_length * DIGEST_BYTES;
    j->rooms = count;
    if (!j->state) {
        if (j->rooms > WAITING_BYTES / j->room) j->rooms = WAITING_BYTES / j->room;
        if (j->rooms < two) j->rooms = two;
        if (j->rooms > count) j->rooms = count;
        size = j->rooms * (j->room + 1);
    }
    if ((size_t)size != size || !(j->digests = malloc((size_t)size))) return ENOMEM;
    if (!j->state) memset(j->digests + j->rooms * j->room, 0, (size_t)j->rooms);
    return 0;
}

/* Hashes all parts by the threads of the plan, the caller's among them, and waits for the others.
 * Returns 0, and j->digests are then to be freed, or an error. */
static int hash_parts_by_threads(job *j) {
    thread others[MOST_THREADS];
    unsigned i, started;
    int error = allocate_digests(j);

    if (error) return error;
    started = start_threads(others, (unsigned)j->plan.threads - 1, thread_main, j);
    hash_in_thread(j, 1);
    for (i = 0; i < started; i++) join_thread(others[i]);
    if (j->error) free(j->digests);
    return j->error;
}

/* Hashes a message, so that its root has absorbed the digests of all leaves. Returns 0 or an
 * error. */
static int hash_leaves_into_root(job *j, size_t outlen) {
    int error;

    if (vulfsjor_tree_init_root(&j->root, outlen, j->salt, j->saltlen, j->personal, j->personallen,
                                j->leaf_length))
        return EINVAL;
    if (!(error = hash_parts_by_threads(j))) free(j->digests);
    return error;
}

/* Writes the root of a message that was hashed. Returns 0 or an error. */
static int finalize_root(job *j, void *out, size_t outlen) {
    return vulfsjor_blake2b_final(&j->root, out, outlen) ? EINVAL : 0;
}

/* Writes the root of the bytes in memory. Returns 0 or an error. */
static int root_of_bytes(job *j, void *out, size_t outlen, size_t inlen, unsigned threads) {
    int error;

    if (plan_message(j, 0, inlen, threads)) return EINVAL;
    if (j->plan.threads > 1)
        return (error = hash_leaves_into_root(j, outlen)) ? error : finalize_root(j, out, outlen);
    return vulfsjor_tree_root(out, outlen, j->bytes, inlen, j->salt, j->saltlen, j->personal,
                              j->personallen, j->leaf_length)
               ? EINVAL
               : 0;
}

/* ---- Roots of messages and files. */

/* Reads until the buffer is full or the file ends, and sets *length to the bytes that were read.
 * Returns 0 or an error. */
static int fill_buffer(int file, unsigned char *buffer, size_t room, size_t *length) {
    ssize_t n;

    *length = 0;
    do {
        n = read_stream(file, buffer + *length, room - *length);
        if (n > 0) *length += (size_t)n;
    } while ((n < 0 && errno == EINTR) || (n > 0 && *length < room));
    return n < 0 ? errno : 0;
}

/* Absorbs the file from its position to its end, in this thread. Returns 0 or an error. */
static int absorb_stream(job *j, vulfsjor_tree_state *S, unsigned char *buffer) {
    size_t length = PART_BYTES;
    int error = 0;

    while (!error && length == PART_BYTES) {
        error = fill_buffer(j->file, buffer, PART_BYTES, &length);
        if (!error && vulfsjor_tree_update(S, buffer, length)) error = EFBIG;
        if (!error && length) error = report_progress(j, j->count += length);
    }
    return error;
}

/* Writes the root of the file from its position to its end, in this thread. Returns 0 or an
 * error. */
static int root_of_stream(job *j, void *out, size_t outlen) {
    unsigned char *buffer = malloc(PART_BYTES);
    vulfsjor_tree_state state;
    int error = buffer ? 0 : ENOMEM;

    if (!error && vulfsjor_tree_init(&state, outlen, j->salt, j->saltlen, j->personal,
                                     j->personallen, j->leaf_length))
        error = EINVAL;
    if (!error) error = absorb_stream(j, &state, buffer);
    free(buffer);
    if (!error && vulfsjor_tree_final(&state, out, outlen)) error = EINVAL;
    return error;
}

/* Whether threads read the rest of the file, and then where it starts and its length. A short file
 * is for one thread anyway, and one of /proc or /sys has another length. Returns 0 or an error. */
static int find_range_for_threads(const job *j, int *by_threads, uint64_t *start, uint64_t *length) {
    struct stat about;
    off_t position;

    *by_threads = 0;
    if (fstat(j->file, &about)) return errno;
    if (!S_ISREG(about.st_mode)) return 0;
    if ((position = lseek(j->file, 0, SEEK_CUR)) < 0) return errno;
    if (about.st_size - position < LEAST_BYTES) return 0;
    *by_threads = 1;
    *start = (uint64_t)position;
    *length = (uint64_t)(about.st_size - position);
    return 0;
}

/* Writes the root of the open file. Returns 0 or an error. */
static int root_of_file(job *j, void *out, size_t outlen, unsigned threads) {
    uint64_t start, length;
    int by_threads, error = find_range_for_threads(j, &by_threads, &start, &length);

    if (error) return error;
    if (!by_threads) return root_of_stream(j, out, outlen);
    if (plan_message(j, start, length, threads)) return EFBIG;
    if ((error = hash_leaves_into_root(j, outlen))) return error;
    if (lseek(j->file, (off_t)(start + length), SEEK_SET) < 0) return errno;
    return finalize_root(j, out, outlen);
}

/* ---- Updates of a state, which is ready. After an error the state is of no use. */

/* Absorbs the input of the job. Returns 0 or an error. */
static int absorb_bytes_by_threads(job *j, vulfsjor_tree_state *S, size_t inlen, unsigned threads) {
    const unsigned char *in = j->bytes;
    vulfsjor_limits limits = plan_limits_of(j, threads);
    int error, status;

    if (vulfsjor_tree_plan_update(&j->plan, S, inlen, &limits)) return EINVAL;
    if (j->plan.threads <= 1) return vulfsjor_tree_update(S, in, inlen) ? EINVAL : 0;
    if (vulfsjor_tree_update(S, in, j->plan.start)) return EINVAL;
    if ((error = hash_parts_by_threads(j))) return error;
    status = vulfsjor_tree_update_leaves(S, j->digests, j->plan.digests_length, in + j->plan.end,
                                         j->plan.rest_length);
    free(j->digests);
    return status ? EINVAL : 0;
}

/* Absorbs this many bytes of digests and then these bytes of the file, in this thread. Returns 0 or an
 * error. */
static int absorb_digests_and_file_bytes(job *j, vulfsjor_tree_state *S, size_t digests_length, uint64_t at,
                                         uint64_t length, unsigned char *buffer) {
    const uint64_t end = at + length;
    int error;

    while (at < end) {
        size_t n = end - at < PART_BYTES ? (size_t)(end - at) : PART_BYTES;
        if ((error = read_at(j->file, buffer, n, j->from + at))) return error;
        if (vulfsjor_tree_update_leaves(S, j->digests, digests_length, buffer, n)) return EINVAL;
        if ((error = report_progress(j, j->count += n))) return error;
        digests_length = 0;
        at += n;
    }
    return 0;
}

/* Absorbs the first bytes of the file from j->from on, whose leaves are not too many. Returns 0 or an
 * error. */
static int absorb_file_part_by_threads(job *j, vulfsjor_tree_state *S, uint64_t length,
                                       const vulfsjor_limits *limits, unsigned char *buffer) {
    const vulfsjor_plan *plan = &j->plan;
    int error;

    if (vulfsjor_tree_plan_update(&j->plan, S, length, limits)) return EINVAL;
    if ((error = absorb_digests_and_file_bytes(j, S, 0, 0, plan->start, buffer))) return error;
    if (!plan->part_count) return absorb_digests_and_file_bytes(j, S, 0, plan->end, plan->rest_length, buffer);
    j->next = 0;
    if ((error = hash_parts_by_threads(j))) return error;
    error = absorb_digests_and_file_bytes(j, S, plan->digests_length, plan->end, plan->rest_length, buffer);
    free(j->digests);
    return error;
}

/* Absorbs the rest of the open file, by at most MOST_LEAVES leaves at a time. Returns 0 or an
 * error. */
static int absorb_rest_of_file(job *j, vulfsjor_tree_state *S, unsigned threads, unsigned char *buffer) {
    const uint64_t most = (uint64_t)j->leaf_length * MOST_LEAVES;
    const vulfsjor_limits limits = plan_limits_of(j, threads);
    uint64_t length, end;
    int by_threads, error = find_range_for_threads(j, &by_threads, &j->from, &length);

    if (error) return error;
    if (!by_threads) return absorb_stream(j, S, buffer);
    if (vulfsjor_tree_plan_update(&j->plan, S, length, &limits)) return EFBIG;
    end = j->from + length;
    while (!error && length) {
        uint64_t n = length < most ? length : most;
        error = absorb_file_part_by_threads(j, S, n, &limits, buffer);
        j->from += n;
        length -= n;
    }
    return !error && lseek(j->file, (off_t)end, SEEK_SET) < 0 ? errno : error;
}

/* Whether a tree accepts the arguments of the job. */
static int are_arguments_accepted(const job *j, size_t outlen) {
    return vulfsjor_tree_refused(outlen, j->salt, j->saltlen, j->personal, j->personallen,
                                 j->leaf_length) == VULFSJOR_ARGUMENT_NONE;
}

/* Ends a call that began with disable_cancellation: a thread that is canceled within one would lose memory,
 * files and threads. */
static int return_error_as_errno(int error, int before) {
    restore_cancellation(before);
    if (error) errno = error;
    return error ? -1 : 0;
}

int vulfsjor_tree_root_threads(void *out, size_t outlen, const void *in, size_t inlen,
                               const void *salt, size_t saltlen, const void *personal,
                               size_t personallen, uint64_t leaf_length, unsigned threads) {
    job j = {NULL, salt, personal, saltlen, personallen, vulfsjor_leaf(leaf_length),
             .bytes = vulfsjor_text(in), .gate = GATE};
    int before = disable_cancellation(), error = EINVAL;

    if (out && (in || !inlen) && are_arguments_accepted(&j, outlen))
        error = root_of_bytes(&j, out, outlen, inlen, threads);
    return return_error_as_errno(error, before);
}

int vulfsjor_tree_root_fd(void *out, size_t outlen, int fd, const void *salt, size_t saltlen,
                          const void *personal, size_t personallen, uint64_t leaf_length,
                          unsigned threads) {
    job j = {NULL, salt, personal, saltlen, personallen, vulfsjor_leaf(leaf_length),
             .file = fd, .gate = GATE};
    int before = disable_cancellation(), error = EINVAL;

    if (out && are_arguments_accepted(&j, outlen)) error = root_of_file(&j, out, outlen, threads);
    return return_error_as_errno(error, before);
}

int vulfsjor_tree_root_file(void *out, size_t outlen, const char *path, const void *salt,
                            size_t saltlen, const void *personal, size_t personallen,
                            uint64_t leaf_length, unsigned threads) {
    job j = {NULL, salt, personal, saltlen, personallen, vulfsjor_leaf(leaf_length),
             .file = -1, .gate = GATE};
    int before = disable_cancellation(), error = EINVAL;

    if (out && path && are_arguments_accepted(&j, outlen)) {
        j.file = open_path(path);
        error = j.file < 0 ? errno : root_of_file(&j, out, outlen, threads);
        if (j.file >= 0) close(j.file);
    }
    return return_error_as_errno(error, before);
}

int vulfsjor_tree_update_threads(vulfsjor_tree_state *S, const void *in, size_t inlen,
                                 unsigned threads) {
    vulfsjor_tree_state next;
    job j = {.state = &next, .bytes = vulfsjor_text(in), .gate = GATE};
    int before = disable_cancellation(), error = EINVAL;

    if (S && (in || !inlen)) {
        next = *S;
        j.leaf_length = vulfsjor_tree_leaf_length(S);
        if (!(error = absorb_bytes_by_threads(&j, &next, inlen, threads))) *S = next;
    }
    return return_error_as_errno(error, before);
}

int vulfsjor_tree_update_fd(vulfsjor_tree_state *S, int fd, unsigned threads,
                            vulfsjor_progress progress, void *context) {
    vulfsjor_tree_state next;
    job j = {
        .state = &next, .file = fd, .gate = GATE, .progress = progress, .context = context};
    unsigned char *buffer;
    int before = disable_cancellation(), error = EINVAL;

    if (S && (j.leaf_length = vulfsjor_tree_leaf_length(S))) {
        next = *S;
        buffer = malloc(PART_BYTES);
        error = buffer ? absorb_rest_of_file(&j, &next, threads, buffer) : ENOMEM;
        free(buffer);
        if (!error) *S = next;
    }
    return return_error_as_errno(error, before);
}
