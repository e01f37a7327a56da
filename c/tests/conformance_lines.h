/* What conformance.c and conformance.cpp share: they read the conformance cases (tests/conformance/README.md), and
 * compare the outcomes of the calls. */
#include <errno.h>
#include <stdlib.h>

/* Bytes in an allocation of exactly their length, so that a sanitizer sees a byte too far. */
typedef struct text {
    uint8_t *bytes;
    size_t length;
} text;

/* The arguments of a hash. A text that is `none` is null and has one byte. */
typedef struct given {
    uint64_t size, last;
    text key, salt, person;
    vulfsjor_tree tree;
    int is_node;
} given;
#define TEXT(t) (t).bytes, (t).length
#define TEXTS TEXT(g->key), TEXT(g->salt), TEXT(g->person)

/* With TEST_SECRETS, under memcheck of valgrind: bytes that are a secret, or no longer one. */
#ifdef TEST_SECRETS
#include <valgrind/memcheck.h>
#define HIDE(bytes, length) (void)VALGRIND_MAKE_MEM_UNDEFINED(bytes, length)
#define SHOW(bytes, length) (void)VALGRIND_MAKE_MEM_DEFINED(bytes, length)
#else
#define HIDE(bytes, length) (void)0
#define SHOW(bytes, length) (void)0
#endif

/* The words of the line, and the outcome of its call. */
static char *part[2000], got[200000];
static size_t parts;
static int can; /* 0: there is a call or an argument that the language has not */

#define IS(verb) (!strcmp(part[0], verb))

/* ---- the words of a line */

/* BYTES. No bytes are by turns a null pointer and another. */
static inline text text_of(const char *w) {
    static unsigned turn;
    char *end;
    unsigned long at = strtoul(w, &end, 10), to = *end == ':' ? strtoul(end + 1, NULL, 10) : at;
    text made = {NULL, 1};
    if (!strcmp(w, "none")) return made;
    made.length = *end == ':' ? to - at : *w == '-' ? 0 : strlen(w) / 2;
    made.bytes = (uint8_t *)malloc(made.length ? made.length : 1);
    if (*end != ':') CHECK(!vulfsjor_hex2bin(made.bytes, made.length, w, 2 * made.length));
    for (size_t i = 0; *end == ':' && at < to; i++, at++) made.bytes[i] = (uint8_t)(at + (at >> 8) + (at >> 16));
    if (!made.length && turn++ % 2) free(made.bytes), made.bytes = NULL;
    return made;
}

/* The same of a key or a message, which are secrets. */
static inline text secret_of(const char *w) {
    text made = text_of(w);
    if (made.bytes) HIDE(made.bytes, made.length);
    return made;
}

static inline uint64_t number_of(const char *w, uint64_t most) {
    errno = 0;
    uint64_t found = strtoull(w, NULL, 10);
    can &= !errno && *w != '-' && *w != 'n' && found <= most;
    return found;
}

/* An argument in the line, or what it is if it is left out. */
static inline const char *value_of(const char *argument, const char *otherwise) {
    size_t length = strlen(argument);
    for (size_t i = 1; i < parts; i++)
        if (!strncmp(part[i], argument, length) && part[i][length] == '=') return part[i] + length + 1;
    return otherwise;
}

static inline uint64_t number_field(const char *name, const char *otherwise, uint64_t most, int *is_node) {
    *is_node |= value_of(name, NULL) != NULL;
    return number_of(value_of(name, otherwise), most);
}

/* The arguments, of which the size is this one if it is left out, or not known. */
static inline given read_given(uint64_t size_otherwise) {
    const char *size = value_of("size", "unknown"), *key = value_of("key", NULL);
    given made, *g = &made;
    memset(g, 0, sizeof *g);
    g->size = strcmp(size, "unknown") ? number_of(size, SIZE_MAX) : size_otherwise;
    if (key) g->key = secret_of(key);
    if (key && !g->key.length && !g->key.bytes) g->key.bytes = (uint8_t *)malloc(1); /* a null key is none */
    g->salt = text_of(value_of("salt", "-")), g->person = text_of(value_of("person", "-"));
    g->tree.fanout = (uint8_t)number_field("fanout", "1", 255, &g->is_node);
    g->tree.depth = (uint8_t)number_field("depth", "1", 255, &g->is_node);
    g->tree.leaf_length = (uint32_t)number_field("leaf", "0", UINT32_MAX, &g->is_node);
    g->tree.node_offset = number_field("offset", "0", UINT64_MAX, &g->is_node);
    g->tree.node_depth = (uint8_t)number_field("node", "0", 255, &g->is_node);
    g->tree.inner_length = (uint8_t)number_field("inner", "0", 255, &g->is_node);
    g->last = number_field("last", "0", 1, &g->is_node);
    return made;
}

static inline void free_given(given *g) { free(g->key.bytes), free(g->salt.bytes), free(g->person.bytes); }

/* ---- cases */

/* Divides a line, up to its outcome, which is returned. */
static inline const char *words_of(char *line) {
    parts = 0;
    for (char *word = strtok(line, " "); word && parts < 1999; word = strtok(NULL, " ")) {
        if (!strcmp(word, "=") || !strcmp(word, "!")) {
            word[1] = ' ';
            return word;
        }
        part[parts++] = word;
    }
    return "";
}

/* Whether two outcomes are the same: a refusal without a name is one of any argument, and else of the first. */
static inline int is_outcome(const char *wanted) {
    if (*got != '!' || *wanted != '!') return !strcmp(got, wanted);
    return !got[2] || (!strncmp(got + 2, wanted + 2, strlen(got + 2)) && strchr(",", wanted[strlen(got)]));
}

typedef struct counts {
    int cases, calls, skipped;
} counts;

/* Makes the calls of the cases in a file by this function, and compares their outcomes. */
static inline counts run_cases(const char *path, void (*make_call)(void)) {
    static char line[200000], name[100], whole[200];
    FILE *file = fopen(path, "r");
    counts made = {0, 0, 0};
    while (file && fgets(line, sizeof line, file)) {
        line[strcspn(line, "\n")] = 0;
        snprintf(whole, sizeof whole, "%.150s", line);
        if (sscanf(line, "case %99s", name) == 1) { made.cases++, can = 1; continue; }
        if (!*line || *line == '#' || !can) continue;
        const int before = fails;
        const char *wanted = words_of(line);
        make_call();
        if (can) CHECK(is_outcome(wanted));
        *(can ? &made.calls : &made.skipped) += 1;
        if (fails > before) fprintf(stderr, "%s: %s\n  gives %.70s\n", name, whole, got);
    }
    if (file) fclose(file);
    return made;
}
