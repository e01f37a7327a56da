/* What a program that calls functions, and is their C library, does besides hostile.S. hostile.py writes a block to its
   input for each call, and reads one.  */
#ifdef __x86_64__
enum { READ = 0, WRITE = 1, EXIT = 60, KEPT = 6, LEFT = 64 };
#else
enum { READ = 63, WRITE = 64, EXIT = 93, KEPT = 19, LEFT = 16 };
#endif
enum { OWN = 128 };

/* `masks` is 1 if there is AVX-512, and `leaves` if a copy leaves its first bytes in vector register 0, and the stack
   below as it is. `is_other` is 0 if what belongs to the caller is as before: `after` as `junk` from OWN on. Then come
   the bytes that overwrite, memory for the call, and the stack below after it.  */
struct {
    unsigned long function, masks, leaves, result, is_other, saved, link, arguments[12], after[19], unused[26];
    unsigned long junk[256];
    char memory[ROOM], below[DEEP];
} block __attribute__((aligned(4096)));

long system_call(long, void *, long, long number);

void read_block(void) {
    for (long size = 0, n; size < (long)sizeof block; size += n) {
        n = system_call(0, (char *)&block + size, sizeof block - size, READ);
        if (n <= 0)
            system_call(0, 0, 0, EXIT);
    }
}

void write_block(unsigned long other, const char *stack) {
    for (long k = 0; k < KEPT; k++)
        other |= block.after[k] ^ block.junk[OWN + k];
    block.is_other = other;
    for (long k = 0; k < DEEP; k++)
        block.below[k] = stack[k - DEEP];
    system_call(1, &block, sizeof block, WRITE);
}

char *fill(char *to, int byte, unsigned long n) {
    for (unsigned long k = 0; k < n; k++)
        to[k] = byte;
    return to;
}

char *copy(char *to, const char *from, unsigned long n) {
    int is_up = (unsigned long)to - (unsigned long)from >= n;
    for (unsigned long k = 0; k < n; k++)
        to[is_up ? k : n - 1 - k] = from[is_up ? k : n - 1 - k];
    for (unsigned long k = 0; block.leaves && k < n && k < LEFT; k++)
        ((char *)block.junk)[k] = to[k];
    return to;
}
