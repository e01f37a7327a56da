/* Prints the root of each file as a tree of hashes, hashed by all processors, or else of standard
 * input, as b2sum and b3sum print digests:
 *
 *   cc -O2 tree_sum.c $(pkg-config --cflags --libs vulfsjor-threads) -o tree_sum
 *   ./tree_sum [--threads N] [--leaf BYTES] [FILE..]
 *
 * FILE - is standard input. N is the number of threads, 0 for all processors, as without the
 * option. BYTES is the leaf length, without the option 65,536. The root depends on it, and not on
 * N; it is that of `b2 tree b512 BYTES`.
 *
 * The status is 1 if a file can't be read or the output not be written, and 2 for other
 * arguments. */
#include <vulfsjor_threads.h>
#include <errno.h>
#include <getopt.h>
#include <stdio.h>
#include <stdlib.h>
#include <string.h>
#include <unistd.h>

static int print_usage(FILE *to, int status) {
    fputs("usage: tree_sum [--threads N] [--leaf BYTES] [FILE..]\n", to);
    return status;
}

/* Reads a decimal number from least to 2^32 - 1. Returns 0, or -1 for anything else. */
static int read_number(const char *text, unsigned long least, unsigned *number) {
    char *end;
    unsigned long value;

    errno = 0;
    value = strtoul(text, &end, 10);
    if (*text < '0' || *text > '9' || *end || errno || value < least || value > UINT32_MAX)
        return -1;
    *number = (unsigned)value;
    return 0;
}

/* Prints the root of the file and its name. Returns 0, or 1 if it can't be read. */
static int print_root(const char *name, unsigned leaf, unsigned threads) {
    unsigned char root[VULFSJOR_BLAKE2B_OUTBYTES];
    int failed;

    if (strcmp(name, "-"))
        failed = vulfsjor_tree_root_file(root, sizeof root, name, NULL, 0, NULL, 0, leaf, threads);
    else
        failed =
            vulfsjor_tree_root_fd(root, sizeof root, STDIN_FILENO, NULL, 0, NULL, 0, leaf, threads);
    if (failed) {
        fprintf(stderr, "tree_sum: %s: %s\n", name, strerror(errno));
        return 1;
    }
    for (size_t i = 0; i < sizeof root; i++) printf("%02x", root[i]);
    printf("  %s\n", name);
    return 0;
}

int main(int count, char **arguments) {
    static const struct option options[] = {
        {"threads", required_argument, NULL, 't'}, {"leaf", required_argument, NULL, 'l'},
        {"help", no_argument, NULL, 'h'},          {NULL, 0, NULL, 0}};
    unsigned threads = 0, leaf = 65536;
    int option, status = 0;

    while ((option = getopt_long(count, arguments, "", options, NULL)) != -1) {
        if (option == 'h') return print_usage(stdout, 0);
        if (option == 't' && !read_number(optarg, 0, &threads)) continue;
        if (option == 'l' && !read_number(optarg, 1, &leaf)) continue;
        return print_usage(stderr, 2);
    }
    if (optind == count) status = print_root("-", leaf, threads);
    for (int i = optind; i < count; i++) status |= print_root(arguments[i], leaf, threads);
    return fflush(stdout) || ferror(stdout) ? 1 : status;
}
