/* The root of a file as a tree of hashes, in parts, for whatever runs programs: GNU parallel, make,
 * a queue of jobs, or several machines with one file system.
 *
 *   cc -O2 tree_parts.c $(pkg-config --cflags --libs vulfsjor-static) -o tree_parts
 *   ./tree_parts leaves FILE FIRST COUNT     writes the digests of COUNT leaves, from leaf FIRST on
 *   ./tree_parts root FILE                   reads those of all leaves, in order; prints the root
 *
 * Leaves have 65,536 bytes. COUNT may go beyond the last leaf. With GNU parallel, whose -k keeps
 * the order, in parts of 1,024 leaves, which are 64 MiB:
 *
 *   seq 0 1024 $((($(stat -c %s FILE) - 1) / 65536)) |
 *       parallel -k ./tree_parts leaves FILE {} 1024 | ./tree_parts root FILE
 *
 * FILE must not change meanwhile. `root` refuses another number of digests than FILE has leaves, so
 * that a part that failed is noticed, but not digests in another order.
 *
 * The status is 1 if FILE can't be read, has no leaf FIRST, or digests are missing, and 2 for other
 * arguments. */
#define _GNU_SOURCE
#include <vulfsjor.h>
#include <errno.h>
#include <fcntl.h>
#include <inttypes.h>
#include <stdio.h>
#include <stdlib.h>
#include <string.h>
#include <sys/stat.h>
#include <unistd.h>

enum { LEAF = 65536, PIECE = 16 }; /* bytes of a leaf, and leaves that are read together */

static int fail(const char *path, const char *what) {
    fprintf(stderr, "tree_parts: %s: %s\n", path, what);
    return 1;
}

/* Opens a regular file and sets its length. Returns the descriptor, or -1 with a message. */
static int open_file(const char *path, uint64_t *length) {
    struct stat about;
    int file = open(path, O_RDONLY);

    if (file < 0 || fstat(file, &about)) return fail(path, strerror(errno)), -1;
    if (!S_ISREG(about.st_mode)) return fail(path, "not a regular file"), -1;
    *length = (uint64_t)about.st_size;
    return file;
}

/* Reads length bytes from this byte on. Returns 0, or -1 with errno. */
static int read_at(int file, unsigned char *to, size_t length, uint64_t from) {
    for (size_t done = 0; done < length;) {
        ssize_t n = pread(file, to + done, length - done, (off_t)(from + done));
        if (n == 0) errno = EIO; /* the file is shorter than it was */
        if (n <= 0) return -1;
        done += (size_t)n;
    }
    return 0;
}

static int write_leaves(const char *path, uint64_t first, uint64_t count) {
    static unsigned char bytes[PIECE * LEAF], digests[PIECE * 64];
    uint64_t length, leaves, end;
    int file = open_file(path, &length);

    if (file < 0) return 1;
    leaves = vulfsjor_tree_leaf_count(length, LEAF);
    if (first >= leaves) return fail(path, "it has no such leaf");
    end = count < leaves - first ? first + count : leaves;
    while (first < end) {
        uint64_t n = end - first < PIECE ? end - first : PIECE;
        int ends = first + n == leaves;
        size_t size = ends ? length - first * LEAF : n * LEAF;
        if (read_at(file, bytes, size, first * LEAF)) return fail(path, strerror(errno));
        if (vulfsjor_tree_leaves(digests, 64 * n, first, ends, bytes, size, NULL, 0, NULL, 0, LEAF))
            return fail(path, "it is too long");
        if (fwrite(digests, 64, n, stdout) != n) break;
        first += n;
    }
    return fflush(stdout) || ferror(stdout) ? fail("standard output", strerror(errno)) : 0;
}

/* The root is a node over the digests, which need not be in memory at the same time. */
static int print_root_over_digests(const char *path) {
    static unsigned char piece[1 << 16];
    vulfsjor_blake2b_state root;
    unsigned char out[VULFSJOR_BLAKE2B_OUTBYTES];
    uint64_t length, all = 0;
    size_t n;

    if (open_file(path, &length) < 0) return 1;
    if (vulfsjor_tree_init_root(&root, sizeof out, NULL, 0, NULL, 0, LEAF)) return 1;
    while ((n = fread(piece, 1, sizeof piece, stdin)) > 0) {
        if (vulfsjor_blake2b_update(&root, piece, n)) return 1;
        all += n;
    }
    if (ferror(stdin)) return fail("standard input", strerror(errno));
    if (all != 64 * vulfsjor_tree_leaf_count(length, LEAF))
        return fail(path, "standard input has not one digest for each leaf");
    if (vulfsjor_blake2b_final(&root, out, sizeof out)) return 1;
    for (size_t i = 0; i < sizeof out; i++) printf("%02x", out[i]);
    printf("  %s\n", path);
    return fflush(stdout) || ferror(stdout) ? 1 : 0;
}

/* Reads a decimal number below 2^63. Returns 0, or -1 for anything else. */
static int read_number(const char *text, uint64_t *number) {
    char *end;

    errno = 0;
    *number = strtoull(text, &end, 10);
    return *text < '0' || *text > '9' || *end || errno || *number >> 63 ? -1 : 0;
}

int main(int count, char **arguments) {
    uint64_t first, leaves;

    if (count == 5 && !strcmp(arguments[1], "leaves") && !read_number(arguments[3], &first) &&
        !read_number(arguments[4], &leaves) && leaves)
        return write_leaves(arguments[2], first, leaves);
    if (count == 3 && !strcmp(arguments[1], "root")) return print_root_over_digests(arguments[2]);
    fputs("usage: tree_parts leaves FILE FIRST COUNT, or tree_parts root FILE\n", stderr);
    return 2;
}
