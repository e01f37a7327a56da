/* The root of the tree of two levels (vulfsjor.h) with several threads: of bytes in memory, of a
 * file, and of a message that is absorbed in pieces or from files.
 *
 *   cc program.c $(pkg-config --cflags --libs vulfsjor-threads)
 *
 * These functions allocate memory and start threads, so they are in a separate library,
 * libvulfsjor-threads.a. Link it before libvulfsjor.a and with -pthread. They are C over the proved
 * library, and are tested, not proved.
 *
 * The root depends on the leaf length, and never on the number of threads. Each thread hashes
 * ranges of leaves (vulfsjor_tree_leaves), and the digests of the leaves are hashed meanwhile, in
 * their order. The caller's thread is one of them. All threads have ended when a call returns.
 *
 * threads is the number of threads that hash, with the caller's: at most 256, and 0 is one for each
 * processor that the caller's thread may run on. A call uses at most one thread for each 256 KiB of
 * input. If the system starts fewer threads, those that run hash everything.
 *
 * Every function returns 0, or -1 with errno if it fails. It then has written nothing to out. The
 * errors are:
 *
 *   EINVAL   a pointer is null, or a length is out of range, as in vulfsjor_tree_root
 *   ENOMEM   an allocation failed
 *   EFBIG    a file has 2^58 bytes or more
 *   EIO      a file ended before the length that it had when the call began
 *   ECANCELED a function for progress ended the call
 *
 * and those of open, fstat, lseek, read and pread. EINTR comes only from open: an interrupted read
 * is repeated.
 *
 * For digests of leaves a root needs about 2 MiB for each thread at most, however long the message
 * is. vulfsjor_tree_update_threads allocates 64 bytes for each leaf of its input, and
 * vulfsjor_tree_update_fd at most 16 MiB for digests. For a file each thread also allocates a
 * buffer: up to 1 MiB or four leaves, whichever is more, and at most 16 MiB. vulfsjor_tree_update_fd
 * has one buffer of 1 MiB more. With one thread a message in memory needs nothing.
 *
 * The threads that a call starts block all signals except SIGBUS and SIGSEGV. A call is not a
 * cancellation point. Several threads may call at the same time, as long as none writes to the
 * input of another. */
#ifndef VULFSJOR_THREADS_H
#define VULFSJOR_THREADS_H

#include "vulfsjor.h"

#ifdef __cplusplus
extern "C" {
#endif

/* Writes the root of inlen bytes to out: outlen bytes, 1 to 64. The other arguments are those of
 * vulfsjor_tree_root, and so is the root. */
VULFSJOR_WRITES(1, 2) VULFSJOR_READS(3, 4) VULFSJOR_READS(5, 6) VULFSJOR_READS(7, 8)
VULFSJOR_MUST_USE int vulfsjor_tree_root_threads(void *out, size_t outlen, const void *in,
                                                 size_t inlen, const void *salt, size_t saltlen,
                                                 const void *personal, size_t personallen,
                                                 uint64_t leaf_length, unsigned threads);

/* Writes the root of the file with this path to out: outlen bytes, 1 to 64.
 *
 * A regular file of at least 256 KiB is read by all threads of the call. Its length is the one that
 * it had when the call began: bytes appended meanwhile are not hashed, and the call fails with EIO
 * if the file became shorter. Bytes that are changed meanwhile are hashed as they were or as they
 * are. Any other file (a pipe, a device, a short file, a file of /proc) is read to its end by the
 * caller's thread. A directory fails with EISDIR. */
VULFSJOR_WRITES(1, 2) VULFSJOR_READS(4, 5) VULFSJOR_READS(6, 7)
VULFSJOR_MUST_USE int vulfsjor_tree_root_file(void *out, size_t outlen, const char *path,
                                              const void *salt, size_t saltlen,
                                              const void *personal, size_t personallen,
                                              uint64_t leaf_length, unsigned threads);

/* Writes the root of an open file, from its position to its end, to out: outlen bytes, 1 to 64. The
 * position is then at the end; if the call fails, it is unspecified. The descriptor stays open. A
 * file is read as by vulfsjor_tree_root_file, and on Windows as it is, also in text mode. */
VULFSJOR_WRITES(1, 2) VULFSJOR_READS(4, 5) VULFSJOR_READS(6, 7)
VULFSJOR_MUST_USE int vulfsjor_tree_root_fd(void *out, size_t outlen, int fd, const void *salt,
                                            size_t saltlen, const void *personal,
                                            size_t personallen, uint64_t leaf_length,
                                            unsigned threads);

/* Absorbs inlen bytes of input, with the same result as vulfsjor_tree_update, which you may call
 * before and after. Pieces of several MiB are fastest: the caller's thread hashes the end of an
 * open leaf and the last leaf of the input. Fails with EINVAL if the state is null or not ready,
 * if in is null and inlen is not 0, or if the state would have absorbed 2^58 bytes or more. If the
 * call fails, the state is unchanged. */
VULFSJOR_READS(2, 3)
VULFSJOR_MUST_USE int vulfsjor_tree_update_threads(vulfsjor_tree_state *S, const void *in,
                                                   size_t inlen, unsigned threads);

/* Reports progress: count is the number of bytes that the call has hashed so far. Returns 0 to go on,
 * or another number to end the call with ECANCELED. */
typedef int (*vulfsjor_progress)(void *context, uint64_t count);

/* Absorbs an open file, from its position to its end, with the same result as vulfsjor_tree_update
 * of its bytes. The position is then at the end; if the call fails, it is unspecified, and the state
 * is unchanged. The descriptor stays open. A file is read as by vulfsjor_tree_root_file.
 *
 * If progress is not null, the caller's thread calls it after each piece that it has hashed, of
 * about 1 MiB or four leaves, and at the end. Its numbers grow, and the last one is the number of
 * bytes of the file. Fails with EINVAL if the state is null or not ready, and with EFBIG if it would
 * have absorbed 2^58 bytes or more. */
VULFSJOR_MUST_USE int vulfsjor_tree_update_fd(vulfsjor_tree_state *S, int fd, unsigned threads,
                                              vulfsjor_progress progress, void *context);

#ifdef __cplusplus
}
#endif
#endif
