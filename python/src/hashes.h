/* What library.c and several.c share: the families, and the objects of hashes and MACs. It is C,
 * which no proof covers. */
#ifndef VULFSJOR_HASHES_H
#define VULFSJOR_HASHES_H

#include "library.h"

/* Several messages, held while a call reads them. */
typedef struct messages {
    Py_ssize_t count;
    Py_buffer *views;
    vulfsjor_message *texts;
} messages;

/* What differs between the families. Each function is one call of the header's. BLAKE2bp and
 * BLAKE2sp have a fixed tree: they ignore that of init, and set_last_node, update_many, many, save
 * and load are NULL. */
typedef struct family {
    const char *name, *prefix, *arguments;
    int block, out, key, salt, person;
    size_t state;
    uint64_t last_offset;
    int (*init)(void *run, size_t out, const Py_buffer *key, const Py_buffer *salt,
                const Py_buffer *person, const vulfsjor_tree *tree);
    int (*set_last_node)(void *run);
    int (*update)(void *run, const void *in, size_t length);
    int (*update_many)(void *runs, const messages *pieces);
    int (*end)(void *run, uint8_t *out, size_t size);
    int (*verify)(void *run, const void *tag, size_t length);
    void (*wipe)(void *run);
    int (*many)(uint8_t *out, size_t size, const messages *m, const Py_buffer *key,
                const Py_buffer *salt, const Py_buffer *person);
    int saved;
    int (*save)(const void *run, uint8_t *out);
    int (*load)(void *run, const void *saved, size_t length, int *size);
} family;

extern const family blake2b, blake2s, blake2bp, blake2sp;

typedef union state {
    vulfsjor_blake2b_state b;
    vulfsjor_blake2s_state s;
    vulfsjor_blake2bp_state bp;
    vulfsjor_blake2sp_state sp;
} state;

/* With the GIL the lock is made at the first update of many bytes, or of several objects: nothing
 * else lets other threads run. The size is that of the digest. An object of blake2b may have a key,
 * one of blake2b_mac has one. */
typedef struct hash {
    PyObject_HEAD
    const family *f;
    PyThread_type_lock lock;
    int size;
    short is_keyed, is_mac; /* a MAC's tag is not short, or is so by name */
    state run;
} hash;

/* The object as that of a hash or a MAC, or NULL if it is neither. */
hash *hash_of(PyObject *object);

#endif
