/* Prints the pairs of files that have the same bytes, found by their digests:
 *
 *   cc -O2 duplicates.c -IFOLDER/include FOLDER/lib/libvulfsjor.a -o duplicates
 *   ./duplicates FILE.. */
#include <vulfsjor.h>

#include <stdio.h>
#include <stdlib.h>

enum { LENGTH = 32 };

/* Absorbs a file. Returns -1 if it can't be read. */
static int update_from_file(vulfsjor_blake2b_state *state, const char *name) {
    static unsigned char buffer[1 << 16];
    FILE *file = fopen(name, "rb");
    size_t length;
    int failed;

    if (!file) return -1;
    while ((length = fread(buffer, 1, sizeof buffer, file)) > 0)
        if (vulfsjor_blake2b_update(state, buffer, length)) break;
    failed = ferror(file) || !feof(file);
    fclose(file);
    return failed ? -1 : 0;
}

int main(int count, char **names) {
    unsigned char(*digests)[LENGTH] = malloc((size_t)count * LENGTH);

    if (!digests) return 1;
    for (int i = 1; i < count; i++) {
        vulfsjor_blake2b_state state;
        if (vulfsjor_blake2b_init(&state, LENGTH)) return 1;
        if (update_from_file(&state, names[i])) {
            perror(names[i]);
            return 1;
        }
        if (vulfsjor_blake2b_final(&state, digests[i], LENGTH)) return 1;
        for (int other = 1; other < i; other++)
            if (!vulfsjor_memcmp(digests[i], digests[other], LENGTH)) /* 0: the same */
                printf("%s %s\n", names[other], names[i]);
    }
    free(digests);
    return 0;
}
