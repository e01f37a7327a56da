/* Prints the BLAKE2b-512 digest of each file that is named, or of standard input if none is, as
 * b2sum does. It reads files in pieces, in constant memory.
 *
 *   cc -O2 sum.c $(pkg-config --cflags --libs vulfsjor-static) -o sum
 *   ./sum FILE..
 *
 * The status is 1 if a file can't be read. */
#include <vulfsjor.h>
#include <stdio.h>

/* Writes the digest of the rest of the file. Returns 0, or -1 if it can't be read. */
static int hash_file(FILE *file, unsigned char digest[VULFSJOR_BLAKE2B_OUTBYTES]) {
    static unsigned char piece[1 << 16];
    vulfsjor_blake2b_state run;
    size_t length;

    setvbuf(file, NULL, _IONBF, 0); /* pieces are large, and need no buffer in between */
    if (vulfsjor_blake2b_init(&run, VULFSJOR_BLAKE2B_OUTBYTES)) return -1;
    while ((length = fread(piece, 1, sizeof piece, file)) > 0) {
        if (vulfsjor_blake2b_update(&run, piece, length)) return -1;
    }
    if (ferror(file)) return -1;
    return vulfsjor_blake2b_final(&run, digest, VULFSJOR_BLAKE2B_OUTBYTES);
}

/* Prints the digest of an open file and its name. Returns 0, or -1 if it can't be read. */
static int print_digest(FILE *file, const char *name) {
    unsigned char digest[VULFSJOR_BLAKE2B_OUTBYTES];

    if (hash_file(file, digest)) {
        fprintf(stderr, "sum: %s can't be read\n", name);
        return -1;
    }
    for (size_t i = 0; i < sizeof digest; i++) printf("%02x", digest[i]);
    printf("  %s\n", name);
    return 0;
}

int main(int count, char **names) {
    int status = 0;

    if (count < 2) status = print_digest(stdin, "-") ? 1 : 0;
    for (int i = 1; i < count; i++) {
        FILE *file = fopen(names[i], "rb");
        if (!file) {
            perror(names[i]);
            status = 1;
            continue;
        }
        if (print_digest(file, names[i])) status = 1;
        fclose(file);
    }
    return fflush(stdout) || ferror(stdout) ? 1 : status;
}
