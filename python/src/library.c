/* BLAKE2b, BLAKE2s, BLAKE2bp and BLAKE2sp for Python, with the interface of hashlib, by the proved
 * functions of the library vulfsjor, whose assembly is linked with this file. */
#include "hashes.h"

/* ---- The families */

/* What all have. The formats of the arguments are those of `parse`. */
#define FAMILY(f, NAME, format, offset, last, update_many, many, saved, save, load)                \
    static int f##_update(void *S, const void *in, size_t n) {                                     \
        return vulfsjor_##f##_update(S, in, n);                                                    \
    }                                                                                              \
    static int f##_end(void *S, uint8_t *o, size_t n) {                                            \
        return vulfsjor_##f##_final(S, o, n);                                                      \
    }                                                                                              \
    static int f##_verify(void *S, const void *t, size_t n) {                                      \
        return vulfsjor_##f##_verify_short_mac(S, t, n); /* the caller looks at allow_short */     \
    }                                                                                              \
    static void f##_wipe(void *S) { vulfsjor_##f##_wipe(S); }                                      \
    const family f = {                                                                             \
        #f, #NAME "_", format ":" #f,                                                              \
        VULFSJOR_##NAME##_BLOCKBYTES, VULFSJOR_##NAME##_OUTBYTES, VULFSJOR_##NAME##_KEYBYTES,      \
        VULFSJOR_##NAME##_SALTBYTES, VULFSJOR_##NAME##_PERSONALBYTES,                              \
        sizeof(vulfsjor_##f##_state), offset,                                                      \
        f##_init, last, f##_update, update_many, f##_end, f##_verify, f##_wipe, many, saved,       \
        save, load};

#define PLAIN(f, NAME, offset)                                                                     \
    static int f##_init(void *S, size_t o, const Py_buffer *k, const Py_buffer *s,                 \
                        const Py_buffer *p, const vulfsjor_tree *t) {                              \
        return vulfsjor_##f##_init_tree(S, o, KEY(k), TEXT(s), TEXT(p), t);                        \
    }                                                                                              \
    static int f##_last(void *S) { return vulfsjor_##f##_set_last_node(S, 1); }                    \
    static int f##_update_many(void *runs, const messages *m) {                                    \
        return vulfsjor_##f##_update_many(runs, m->texts, (size_t)m->count);                       \
    }                                                                                              \
    static int f##_many(uint8_t *out, size_t o, const messages *m, const Py_buffer *k,             \
                        const Py_buffer *s, const Py_buffer *p) {                                  \
        return vulfsjor_##f##_many(out, o, m->texts, (size_t)m->count, KEY(k), TEXT(s), TEXT(p));  \
    }                                                                                              \
    static int f##_save(const void *S, uint8_t *out) { return vulfsjor_##f##_save(S, out); }        \
    static int f##_load(void *S, const void *saved, size_t n, int *size) {                         \
        int status = vulfsjor_##f##_load(S, saved, n);                                             \
        *size = (int)vulfsjor_##f##_digest_size(S);                                                \
        return status;                                                                             \
    }                                                                                              \
    FAMILY(f, NAME, "|O$iy*y*y*iiOOiipp", offset, f##_last, f##_update_many, f##_many,             \
           VULFSJOR_##NAME##_SAVEDBYTES, f##_save, f##_load)
PLAIN(blake2b, BLAKE2B, UINT64_MAX)
PLAIN(blake2s, BLAKE2S, ((uint64_t)1 << 48) - 1)

#define PARALLEL(f, NAME)                                                                          \
    static int f##_init(void *S, size_t o, const Py_buffer *k, const Py_buffer *s,                 \
                        const Py_buffer *p, const vulfsjor_tree *t) {                              \
        (void)t;                                                                                   \
        return vulfsjor_##f##_init_salt_personal(S, o, KEY(k), TEXT(s), TEXT(p));                  \
    }                                                                                              \
    FAMILY(f, NAME, "|O$iy*y*y*p", 0, NULL, NULL, NULL, 0, NULL, NULL)
PARALLEL(blake2bp, BLAKE2BP)
PARALLEL(blake2sp, BLAKE2SP)

/* ---- Arguments */

/* A number from 0 to 2^64 - 1, or 0 if there is none, with hashlib's exceptions. */
static int to_uint64(PyObject *given, uint64_t *number) {
    int beyond;
    long long small;
    *number = 0;
    if (!given) return 0;
    if (!PyLong_Check(given)) {
        PyErr_SetString(PyExc_TypeError, "an integer is required");
        return -1;
    }
    small = PyLong_AsLongLongAndOverflow(given, &beyond);
    if (beyond < 0 || (!beyond && small < 0)) {
        PyErr_SetString(PyExc_ValueError, "value must be positive");
        return -1;
    }
    *number = PyLong_AsUnsignedLongLong(given);
    return PyErr_Occurred() ? -1 : 0;
}

/* As hashlib refuses it. */
static int check_at_most(uint64_t number, uint64_t most, const char *name) {
    if (number <= most) return 0;
    PyErr_Format(PyExc_OverflowError, "%s is too large", name);
    return -1;
}

/* ---- Hash objects */

/* Absorbs the bytes. 0, or -1 with an exception. */
static int absorb_data(hash *self, PyObject *data) {
    Py_buffer view;
    int status, is_long;
    if (view_of(data, &view)) return -1;
    is_long = view.len >= LET_OTHERS_RUN_AT;
    if (!self->lock && is_long) self->lock = PyThread_allocate_lock();
    if (self->lock && is_long) {
        Py_BEGIN_ALLOW_THREADS
        PyThread_acquire_lock(self->lock, 1);
        status = self->f->update(&self->run, view.buf, (size_t)view.len);
        PyThread_release_lock(self->lock);
        Py_END_ALLOW_THREADS
    } else {
        acquire_lock(self->lock);
        status = self->f->update(&self->run, view.buf, (size_t)view.len);
        release_lock(self->lock);
    }
    PyBuffer_Release(&view);
    if (status) PyErr_SetString(PyExc_OverflowError, "2^64 bytes or more");
    return status;
}

/* A zeroed object. The types have no subclasses, so this and PyObject_Free are their allocator,
 * called without a search for the slot. */
static hash *new_object(PyTypeObject *type, const family *f, int size, int is_keyed) {
    hash *self = (hash *)PyType_GenericAlloc(type, 0);
    if (!self) return NULL;
    self->f = f;
    self->size = size;
    self->is_keyed = (short)is_keyed;
#ifdef Py_GIL_DISABLED
    if (!(self->lock = PyThread_allocate_lock())) {
        PyErr_NoMemory();
        Py_CLEAR(self);
    }
#endif
    return self;
}

/* What a hash object is made with. */
typedef struct given {
    PyObject *data, *leaf, *offset;
    Py_buffer key, salt, person;
    int size, fanout, depth, node_depth, inner, last, secure;
    vulfsjor_tree tree;
} given;

static void release_given(given *g) {
    release_buffer(&g->key);
    release_buffer(&g->salt);
    release_buffer(&g->person);
}

/* Checks the arguments in hashlib's order, and fills in the tree parameters. */
static int check_given(given *g, const family *f) {
    uint64_t leaf_size;
    if (to_uint64(g->leaf, &leaf_size) || to_uint64(g->offset, &g->tree.node_offset) ||
        check_size_in_range(g->size, 1, f->out, "digest_size", " bytes") ||
        check_text_length(&g->salt, f->salt, "salt") || check_text_length(&g->person, f->person, "person") ||
        check_size_in_range(g->fanout, 0, 255, "fanout", "") || check_size_in_range(g->depth, 1, 255, "depth", "") ||
        check_at_most(leaf_size, UINT32_MAX, "leaf_size") ||
        check_at_most(g->tree.node_offset, f->last_offset, "node_offset") ||
        check_size_in_range(g->node_depth, 0, 255, "node_depth", "") ||
        check_size_in_range(g->inner, 0, f->out, "inner_size", "") || check_text_length(&g->key, f->key, "key"))
        return -1;
    g->tree.leaf_length = (uint32_t)leaf_size;
    g->tree.fanout = (uint8_t)g->fanout;
    g->tree.depth = (uint8_t)g->depth;
    g->tree.node_depth = (uint8_t)g->node_depth;
    g->tree.inner_length = (uint8_t)g->inner;
    return 0;
}

static int initialize(hash *self, const given *g) {
    if (self->f->init(&self->run, (size_t)g->size, &g->key, &g->salt, &g->person, &g->tree) ||
        (g->last && self->f->set_last_node(&self->run))) {
        PyErr_SetString(PyExc_SystemError, "the library refuses what was checked");
        return -1;
    }
    return g->data ? absorb_data(self, g->data) : 0;
}

/* Reads the arguments. 0 if one has the wrong type or name, with an exception. */
static int parse_arguments(PyObject *args, PyObject *words, const family *f, given *g) {
    static char *names[] = {"",          "digest_size", "key",        "salt",       "person",
                            "fanout",    "depth",       "leaf_size",  "node_offset", "node_depth",
                            "inner_size", "last_node",  "usedforsecurity", NULL};
    static char *fewer[] = {"", "digest_size", "key", "salt", "person", "usedforsecurity", NULL};
    if (!f->set_last_node)
        return PyArg_ParseTupleAndKeywords(args, words, f->arguments, fewer, &g->data, &g->size,
                                           &g->key, &g->salt, &g->person, &g->secure);
    return PyArg_ParseTupleAndKeywords(args, words, f->arguments, names, &g->data, &g->size,
                                       &g->key, &g->salt, &g->person, &g->fanout, &g->depth,
                                       &g->leaf, &g->offset, &g->node_depth, &g->inner, &g->last,
                                       &g->secure);
}

static PyObject *make_hash(PyTypeObject *type, PyObject *args, PyObject *words, const family *f) {
    given g = {.size = f->out, .fanout = 1, .depth = 1, .secure = 1};
    hash *self = NULL;
    if (!words && PyTuple_Size(args) <= 1) { /* nothing but data, which needs no search for words */
        g.data = PyTuple_Size(args) ? PyTuple_GetItem(args, 0) : NULL;
    } else if (!parse_arguments(args, words, f, &g)) {
        return NULL;
    }
    if (!check_given(&g, f)) self = new_object(type, f, g.size, g.key.len > 0);
    if (self && initialize(self, &g)) Py_CLEAR(self);
    release_given(&g);
    return (PyObject *)self;
}

/* Converts allow_short (O&), which is True or False. */
static int to_allow_short(PyObject *object, void *allowed) {
    *(int *)allowed = object == Py_True;
    if (PyBool_Check(object)) return 1;
    PyErr_SetString(PyExc_TypeError, "allow_short must be True or False");
    return 0;
}

/* Whether a tag is too short for a MAC, which is then an exception. */
static int raise_if_tag_is_short(int size, int allowed, int most) {
    if (size < 1 || size >= VULFSJOR_TAGBYTES_MIN || allowed) return 0;
    return check_size_in_range(size, VULFSJOR_TAGBYTES_MIN, most, "digest_size", " bytes, or allow_short be True");
}

/* An object of a message authentication code: the hash with a key, and never without. */
static PyObject *make_mac(PyTypeObject *type, PyObject *args, PyObject *words, const family *f,
                          const char *arguments) {
    static char *names[] = {"key", "data", "digest_size", "salt", "person", "allow_short", NULL};
    given g = {.size = f->out, .fanout = 1, .depth = 1};
    hash *self = NULL;
    int allowed = 0;
    if (!PyArg_ParseTupleAndKeywords(args, words, arguments, names, &g.key, &g.data, to_size,
                                     &g.size, &g.salt, &g.person, to_allow_short, &allowed))
        return NULL;
    if (!check_key_length(&g.key, f->key) && !raise_if_tag_is_short(g.size, allowed, f->out) && !check_given(&g, f))
        self = new_object(type, f, g.size, 1);
    if (self) self->is_mac = 1;
    if (self && initialize(self, &g)) Py_CLEAR(self);
    release_given(&g);
    return (PyObject *)self;
}

static void wipe_and_dealloc(PyObject *object) {
    hash *self = (hash *)object;
    PyTypeObject *type = Py_TYPE(object);
    self->f->wipe(&self->run);
    if (self->lock) PyThread_free_lock(self->lock);
    PyObject_Free(object);
    Py_DECREF(type);
}

hash *hash_of(PyObject *object) {
    return PyType_GetSlot(Py_TYPE(object), Py_tp_dealloc) == (void *)wipe_and_dealloc ? (hash *)object : NULL;
}

static PyObject *update(PyObject *self, PyObject *data) {
    if (absorb_data((hash *)self, data)) return NULL;
    Py_RETURN_NONE;
}

/* Copies the state as it is now. The caller must end the copy, which wipes it. */
static void copy_state(hash *self, state *copied) {
    acquire_lock(self->lock);
    memcpy(copied, &self->run, self->f->state);
    release_lock(self->lock);
}

static PyObject *copy(PyObject *object, PyObject *none) {
    hash *self = (hash *)object;
    hash *made = new_object(Py_TYPE(object), self->f, self->size, self->is_keyed);
    (void)none;
    if (made) made->is_mac = self->is_mac;
    if (made) copy_state(self, &made->run);
    return (PyObject *)made;
}

/* The digest, by a copy of the state, which the call wipes. How many bytes it has, or -1 with an
 * exception. */
static int digest_of(hash *self, uint8_t out[64]) {
    state copied;
    copy_state(self, &copied);
    if (!self->f->end(&copied, out, (size_t)self->size)) return self->size;
    self->f->wipe(&copied);
    PyErr_SetString(PyExc_SystemError, "the library refuses what was checked");
    return -1;
}

static PyObject *digest(PyObject *self, PyObject *none) {
    uint8_t out[64];
    int size = digest_of((hash *)self, out);
    (void)none;
    return size < 0 ? NULL : PyBytes_FromStringAndSize((const char *)out, size);
}

static PyObject *hexdigest(PyObject *self, PyObject *none) {
    uint8_t out[64];
    int size = digest_of((hash *)self, out);
    (void)none;
    return size < 0 ? NULL : hex_string_of(out, size);
}

/* Whether the view is of the tag, by a copy of the state, which the call wipes. */
static int is_digest_of_state(hash *self, const Py_buffer *view) {
    state copied;
    copy_state(self, &copied);
    return !self->f->verify(&copied, view->buf, (size_t)view->len);
}

static PyObject *verify(PyObject *object, PyObject *tag) {
    classes *own = PyType_GetModuleState(Py_TYPE(object));
    hash *self = (hash *)object;
    Py_buffer view;
    int is_right;
    if (!self->is_keyed)
        return raise_exception(PyExc_ValueError, "verify needs a key: compare digests without one with "
                                         "hmac.compare_digest");
    if (self->size < VULFSJOR_TAGBYTES_MIN && !self->is_mac)
        return raise_exception(PyExc_ValueError,
                               "verify needs a digest_size of at least 16: make an object for shorter "
                                         "tags by blake2b_mac and its like, with allow_short=True");
    if (PyUnicode_Check(tag))
        return raise_exception(PyExc_TypeError, "the tag must be bytes, as digest() returns, not a string");
    if (view_of(tag, &view)) return NULL;
    is_right = is_digest_of_state(self, &view);
    PyBuffer_Release(&view);
    if (!is_right) return raise_exception(own->invalid_tag, "the tag is not that of the message");
    Py_RETURN_NONE;
}

static PyObject *save(PyObject *object, PyObject *none) {
    hash *self = (hash *)object;
    uint8_t saved[VULFSJOR_BLAKE2B_SAVEDBYTES];
    int status;
    (void)none;
    if (self->is_keyed)
        return raise_exception(PyExc_ValueError,
                               "an object with a key is not saved: the bytes would be as good as the key");
    acquire_lock(self->lock);
    status = self->f->save(&self->run, saved);
    release_lock(self->lock);
    if (status) return raise_exception(PyExc_SystemError, "the library refuses what was checked");
    return PyBytes_FromStringAndSize((const char *)saved, self->f->saved);
}

static PyObject *load(PyObject *type, PyObject *saved, const family *f) {
    hash *self = NULL;
    Py_buffer view;
    if (PyUnicode_Check(saved))
        return raise_exception(PyExc_TypeError, "the saved state must be bytes, as save() returns, not a string");
    if (view_of(saved, &view)) return NULL;
    self = new_object((PyTypeObject *)type, f, 0, 0);
    if (self && f->load(&self->run, view.buf, (size_t)view.len, &self->size)) {
        PyErr_Format(PyExc_ValueError, "not a saved state of %s", f->name);
        Py_CLEAR(self);
    }
    PyBuffer_Release(&view);
    return (PyObject *)self;
}

static PyObject *load_b(PyObject *type, PyObject *saved) { return load(type, saved, &blake2b); }
static PyObject *load_s(PyObject *type, PyObject *saved) { return load(type, saved, &blake2s); }

/* What pickle and copy.copy call. */
static PyObject *refuse_pickle(PyObject *object, PyObject *protocol) {
    const hash *self = (hash *)object;
    PyObject *name = PyType_GetName(Py_TYPE(object));
    (void)protocol;
    if (name)
        PyErr_Format(PyExc_TypeError, "cannot pickle 'vulfsjor.%U' object%s", name,
                     self->f->save && !self->is_keyed ? ": pickle what its method save returns" : "");
    Py_XDECREF(name);
    return NULL;
}

static PyObject *get_name(PyObject *self, void *none) {
    (void)none;
    return PyType_GetName(Py_TYPE(self));
}

static PyObject *get_block_size(PyObject *self, void *none) {
    (void)none;
    return PyLong_FromLong(((hash *)self)->f->block);
}

static PyObject *get_digest_size(PyObject *self, void *none) {
    (void)none;
    return PyLong_FromLong(((hash *)self)->size);
}

/* Those of all objects, and of those that are saved. */
#define METHODS                                                                                    \
    {"copy", copy, METH_NOARGS, "copy($self, /)\n--\n\nReturn a copy of the hash object."},        \
    {"digest", digest, METH_NOARGS,                                                                \
     "digest($self, /)\n--\n\nReturn the digest value as a bytes object."},                        \
    {"hexdigest", hexdigest, METH_NOARGS,                                                          \
     "hexdigest($self, /)\n--\n\nReturn the digest value as a string of hexadecimal digits."},     \
    {"update", update, METH_O,                                                                     \
     "update($self, data, /)\n--\n\n"                                                              \
     "Update this hash object's state with the provided bytes-like object."},                      \
    {"verify", verify, METH_O,                                                                     \
     "verify($self, tag, /)\n--\n\n"                                                               \
     "Return None if the tag is the whole digest of all input so far, and raise InvalidTag if not.\n\n"\
     "All bytes of a tag of the digest's length are compared, wherever they differ. An object\n"   \
     "without a key raises ValueError: compare its digest with hmac.compare_digest. So does one with\n"\
     "a digest of fewer than 16 bytes, unless it is made by blake2b_mac and its like."},\
    {"__reduce_ex__", refuse_pickle, METH_O, NULL}
#define SAVED(load)                                                                                \
    {"save", save, METH_NOARGS,                                                                    \
     "save($self, /)\n--\n\n"                                                                      \
     "Return the hash object as bytes, which load reads, in every language and later version.\n\n"  \
     "They contain the input that is pending, up to a block. An object with a key raises\n"         \
     "ValueError: the bytes would be as good as the key."},                                        \
    {"load", load, METH_O | METH_CLASS,                                                            \
     "load($type, saved, /)\n--\n\n"                                                               \
     "Return the hash object that save returned as these bytes.\n\n"                               \
     "Whoever can change them chooses the digest, so keep them as safe as the input. What is not\n"  \
     "a saved state of this hash raises ValueError."}
static PyMethodDef methods[] = {METHODS, {NULL, NULL, 0, NULL}};
static PyMethodDef methods_b[] = {METHODS, SAVED(load_b), {NULL, NULL, 0, NULL}};
static PyMethodDef methods_s[] = {METHODS, SAVED(load_s), {NULL, NULL, 0, NULL}};

static PyGetSetDef fields[] = {
    {"name", get_name, NULL, "The name of the hash function.", NULL},
    {"block_size", get_block_size, NULL, "The number of bytes in a block of the hash function.", NULL},
    {"digest_size", get_digest_size, NULL, "The number of bytes in the digest.", NULL},
    {NULL, NULL, NULL, NULL, NULL}};

/* ---- The classes */

#define TREE                                                                                       \
    " fanout=1, depth=1,\n"                                                                        \
    "        leaf_size=0, node_offset=0, node_depth=0, inner_size=0, last_node=False,"
#define EXTENSION(name)                                                                            \
    "\nSalt and person are an extension: the BLAKE2 document gives " name " neither."
/* An object has room for the state of its family only. */
#define TYPE(f, size, longest, tree, methods, more)                                                \
    static PyObject *make_##f(PyTypeObject *type, PyObject *args, PyObject *words) {               \
        return make_hash(type, args, words, &f);                                                        \
    }                                                                                              \
    static PyType_Slot slots_##f[] = {                                                             \
        {Py_tp_new, make_##f},                                                                     \
        {Py_tp_dealloc, wipe_and_dealloc},                                                              \
        {Py_tp_methods, methods},                                                                  \
        {Py_tp_getset, fields},                                                                    \
        {Py_tp_doc, #f "(data=b'', /, *, digest_size=" #size ", key=b'', salt=b'', person=b'',"    \
                    tree "\n        usedforsecurity=True)\n--\n\nReturn a new hash object.\n\n"    \
                    "digest_size is 1 to " #size ", a key has up to " #size " bytes, salt and"     \
                    " person up to " #longest " each." more},                                      \
        {0, NULL}};                                                                                \
    static PyType_Spec spec_##f = {                                                                \
        "vulfsjor." #f, (int)(offsetof(hash, run) + sizeof(vulfsjor_##f##_state)), 0,              \
        Py_TPFLAGS_DEFAULT, slots_##f};
TYPE(blake2b, 64, 16, TREE, methods_b, "")
TYPE(blake2s, 32, 8, TREE, methods_s, "")
TYPE(blake2bp, 64, 16, "", methods, EXTENSION("BLAKE2bp"))
TYPE(blake2sp, 32, 8, "", methods, EXTENSION("BLAKE2sp"))

#define MAC(f, size, longest, more)                                                                \
    static PyObject *make_##f##_mac(PyTypeObject *type, PyObject *args, PyObject *words) {         \
        return make_mac(type, args, words, &f, "y*|O$O&y*y*O&:" #f "_mac");                          \
    }                                                                                              \
    static PyType_Slot slots_##f##_mac[] = {                                                       \
        {Py_tp_new, make_##f##_mac},                                                               \
        {Py_tp_dealloc, wipe_and_dealloc},                                                              \
        {Py_tp_methods, methods},                                                                  \
        {Py_tp_getset, fields},                                                                    \
        {Py_tp_doc, #f "_mac(key, data=b'', *, digest_size=" #size ", salt=b'', person=b'',\n"     \
                    "        allow_short=False)\n--\n\nReturn a new object of a message authentication"  \
                    " code: " #f " with a key.\n\nThe key has 1 to " #size " bytes, digest_size is"  \
                    " 16 to " #size " (with allow_short\nfrom 1 on), salt and person have up to " \
                    #longest " bytes each. Anybody makes a tag of\nn bytes in at most 256**n tries: never"  \
                    " pass the length of a tag that came." more},                                   \
        {0, NULL}};                                                                                \
    static PyType_Spec spec_##f##_mac = {                                                          \
        "vulfsjor." #f "_mac", (int)(offsetof(hash, run) + sizeof(vulfsjor_##f##_state)), 0,       \
        Py_TPFLAGS_DEFAULT, slots_##f##_mac};
MAC(blake2b, 64, 16, "")
MAC(blake2s, 32, 8, "")
MAC(blake2bp, 64, 16, EXTENSION("BLAKE2bp"))
MAC(blake2sp, 32, 8, EXTENSION("BLAKE2sp"))

/* The next two: 0, or -1 with an exception. */
static int set_class_constant(PyObject *at, const char *prefix, const char *name, long number) {
    char whole[64];
    PyObject *object = PyLong_FromLong(number);
    int status = -1;
    if (object) {
        PyOS_snprintf(whole, sizeof whole, "%s%s", prefix, name);
        status = PyObject_SetAttrString(at, whole, object);
        Py_DECREF(object);
    }
    return status;
}

static int set_class_constants(PyObject *at, const char *prefix, const family *f) {
    int failed = set_class_constant(at, prefix, "SALT_SIZE", f->salt) ||
                 set_class_constant(at, prefix, "PERSON_SIZE", f->person) ||
                 set_class_constant(at, prefix, "MAX_KEY_SIZE", f->key) ||
                 set_class_constant(at, prefix, "MAX_DIGEST_SIZE", f->out);
    return failed ? -1 : 0;
}

/* Adds a class, whose numbers are those of the family. Returns it, or NULL with an exception. */
static PyObject *add_class(PyObject *module, PyObject *type_of_types, PyType_Spec *spec,
                           const family *f) {
    PyObject *type = PyType_FromModuleAndSpec(module, spec, NULL);
    if (!type || set_class_constants(type, "", f)) {
        Py_XDECREF(type);
        return NULL;
    }
    Py_INCREF(type_of_types); /* the class before, `type`, is static, and counts no instances */
    Py_SET_TYPE(type, (PyTypeObject *)type_of_types);
    if (PyModule_AddObjectRef(module, strchr(spec->name, '.') + 1, type)) Py_CLEAR(type);
    return type;
}

int add_hash_types(PyObject *module, PyObject *type_of_types) {
    static const struct {
        PyType_Spec *spec, *mac;
        const family *f;
    } all[] = {{&spec_blake2b, &spec_blake2b_mac, &blake2b},
               {&spec_blake2s, &spec_blake2s_mac, &blake2s},
               {&spec_blake2bp, &spec_blake2bp_mac, &blake2bp},
               {&spec_blake2sp, &spec_blake2sp_mac, &blake2sp}};
    int failed = 0;
    for (int i = 0; !failed && i < 4; i++) {
        PyObject *type = add_class(module, type_of_types, all[i].spec, all[i].f);
        PyObject *mac = type ? add_class(module, type_of_types, all[i].mac, all[i].f) : NULL;
        failed = !mac || set_class_constants(module, all[i].f->prefix, all[i].f);
        Py_XDECREF(type);
        Py_XDECREF(mac);
    }
    return failed ? -1 : 0;
}
