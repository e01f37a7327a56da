// Looks for copies of a secret on the dead stack once a call in Rattle has returned: for each piece
// of 8 bytes of a key, of the tag, and of the chaining words that the last compression begins with.
// Prints for each form of the call how many were found. A form that leaves more than the table
// below allows fails. Returns 0 if none failed.
//
// secrets.h is what secret_values.py prints: the secrets, and a message of 0, 64 or 1,000 bytes.
#define _DEFAULT_SOURCE
#include <setjmp.h>
#include <signal.h>
#include <stdint.h>
#include <stdio.h>
#include <string.h>
#include <sys/mman.h>

#include "secrets.h"

typedef _Bool keyed_hash_call(const uint8_t *key, const uint8_t *message, size_t length, const uint8_t *tag,
                    size_t tag_length);
keyed_hash_call keyed_b_by_value, keyed_b_wiped, keyed_b_scrubbed, keyed_s_by_value, keyed_s_wiped,
    keyed_s_scrubbed;
keyed_hash_call hashed_b_wiped, hashed_b_dropped, hashed_s_wiped, hashed_s_dropped;
void settle_bytes(const uint8_t *bytes);

// The stack that is looked at, in bytes below the frame of the caller, and a piece of a secret.
enum { DEPTH = 64 * 1024, PIECE = 8 };

// One of three numbers, by the length of the message.
#define AT(bytes_0, bytes_64, bytes_1000) \
    (LENGTH == 0 ? bytes_0 : LENGTH == 64 ? bytes_64 : bytes_1000)

// How many pieces of each secret a form may leave. Where that is not 0, this many were found, the
// more of the builds for x86-64-v2 and x86-64-v3. A key of BLAKE2b has 8 pieces and one of BLAKE2s
// 4, and so have tags and chaining words. A form that is not wiped leaves one piece of the key at
// least: else this looks in the wrong place.
struct form {
    const char *name;
    keyed_hash_call *call;
    char family;
    _Bool is_wiped;
    int key, tag, chain;
};

static const struct form FORMS[] = {
    {"BLAKE2b MAC by value", keyed_b_by_value, 'b', 0, AT(75, 30, 24), 8, AT(0, 16, 16)},
    {"BLAKE2b MAC wiped in place", keyed_b_wiped, 'b', 1, AT(0, 35, 0), 0, 0},
    {"BLAKE2b MAC scrubbed", keyed_b_scrubbed, 'b', 1, 0, 0, 0},
    {"BLAKE2b hasher dropped", hashed_b_dropped, 'b', 0, AT(8, 8, 23), 0, 0},
    {"BLAKE2b hasher wiped in place", hashed_b_wiped, 'b', 1, AT(0, 0, 18), 0, 0},
    {"BLAKE2s MAC by value", keyed_s_by_value, 's', 0, AT(22, 14, 12), 6, AT(0, 8, 8)},
    {"BLAKE2s MAC wiped in place", keyed_s_wiped, 's', 1, AT(0, 2, 0), 0, 0},
    {"BLAKE2s MAC scrubbed", keyed_s_scrubbed, 's', 1, 0, 0, 0},
    {"BLAKE2s hasher dropped", hashed_s_dropped, 's', 0, AT(4, 4, 1), 0, 0},
    {"BLAKE2s hasher wiped in place", hashed_s_wiped, 's', 1, 0, 0, 0},
};
enum { COUNT = sizeof FORMS / sizeof *FORMS };

// In a build for x86-64-v4, the vector registers zmm16 to zmm31, which a scrubbed call clears.
static uint8_t stack[DEPTH], upper[16 * 64];
static int fails;

// Fills the stack below, so that what is found there is of the call.
static __attribute__((noinline)) void fill_stack(void)
{
    volatile uint8_t bytes[2 * DEPTH];
    for (size_t i = 0; i < sizeof bytes; i++)
        bytes[i] = 0x55;
}

// Runs a form, and copies the vector registers and the stack below this frame before anything else.
static __attribute__((noinline)) _Bool run_form_and_copy_stack(const struct form *form)
{
    int is_b = form->family == 'b';
    _Bool is_taken = form->call(key, message, LENGTH, is_b ? tag_b : tag_s, is_b ? 64 : 32);
#if defined(__AVX512F__)
    __asm__ volatile(".set at, 0\n .irp n,16,17,18,19,20,21,22,23,24,25,26,27,28,29,30,31\n"
                     "vmovdqu64 %%zmm\\n, at(%0)\n .set at, at + 64\n .endr"
                     ::"r"(upper) : "memory");
#endif
    uint8_t *from;
    __asm__ volatile("mov %%rsp, %0" : "=r"(from));
    from -= DEPTH;
    void *to = stack;
    size_t n = DEPTH;
    __asm__ volatile("rep movsb" : "+D"(to), "+S"(from), "+c"(n) :: "memory");
    return is_taken;
}

// How often pieces of a secret stand in these bytes.
static int count_secret_pieces(const uint8_t *in, size_t size, const uint8_t *secret, size_t bytes)
{
    int found = 0;
    for (size_t piece = 0; piece + PIECE <= bytes; piece += PIECE)
        for (size_t at = 0; at + PIECE <= size; at++)
            found += !memcmp(in + at, secret + piece, PIECE);
    return found;
}

// Whether `settle`, which makes a compiler keep zeros, reads its 64 bytes to the last, and none
// behind them: a page that can't be read stops it at each place but behind them.
static sigjmp_buf before_the_read;
static void jump_back_on_fault(int number)
{
    siglongjmp(before_the_read, number);
}

static _Bool settle_reads_all(void)
{
    enum { PAGE = 4096, BYTES = 64 };
    uint8_t *pages =
        mmap(NULL, 2 * PAGE, PROT_READ | PROT_WRITE, MAP_PRIVATE | MAP_ANONYMOUS, -1, 0);
    volatile int stops = 0, readable;
    if (pages == MAP_FAILED || mprotect(pages + PAGE, PAGE, PROT_NONE) != 0 ||
        signal(SIGSEGV, jump_back_on_fault) == SIG_ERR)
        return 0;
    for (readable = 0; readable <= BYTES; readable++) {
        if (sigsetjmp(before_the_read, 1) == 0)
            settle_bytes(pages + PAGE - readable);
        else
            stops += readable < BYTES ? 1 : BYTES;
    }
    signal(SIGSEGV, SIG_DFL);
    return stops == BYTES;
}

static void check_form(const struct form *form)
{
    int is_b = form->family == 'b';
    size_t size = is_b ? 64 : 32;
    const uint8_t *tag = is_b ? tag_b : tag_s, *chain = is_b ? chain_b : chain_s;
    fill_stack();
    _Bool is_taken = run_form_and_copy_stack(form);
    int in_key = count_secret_pieces(stack, DEPTH, key, size);
    int in_tag = count_secret_pieces(stack, DEPTH, tag, size);
    int in_chain = count_secret_pieces(stack, DEPTH, chain, is_b ? CHAIN_B : CHAIN_S);
    _Bool is_scrubbed = form->call == keyed_b_scrubbed || form->call == keyed_s_scrubbed;
    int in_upper = count_secret_pieces(upper, sizeof upper, key, size) + count_secret_pieces(upper, sizeof upper, tag, size);
    _Bool fits = is_taken && in_key >= !form->is_wiped && in_key <= form->key &&
                 in_tag <= form->tag && in_chain <= form->chain && !(is_scrubbed && in_upper);
    printf("%s: %s, message of %d bytes: key %d, tag %d, chaining words %d",
           fits ? "passed" : "FAILED", form->name, LENGTH, in_key, in_tag, in_chain);
    printf("; at most %d, %d, %d; in upper vector registers %d%s\n", form->key, form->tag,
           form->chain, in_upper, is_taken ? "" : "; the tag is refused");
    fails += !fits;
}

int main(void)
{
    _Bool reads = settle_reads_all();
    printf("%s: settle reads 64 bytes\n", reads ? "passed" : "FAILED");
    fails = !reads;
    for (const struct form *form = FORMS; form < FORMS + COUNT; form++)
        check_form(form);
    return fails != 0;
}
