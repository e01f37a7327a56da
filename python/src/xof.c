/* BLAKE2Xb and BLAKE2Xs, whose objects are used as those of hashlib.shake_128, and keys that are
 * derived from a key. C, which no proof covers. */
#include "library.h"

#include <stddef.h>
#include <string.h>

/* What the two differ in. */
typedef struct kind {
    const char *name;
    int block, key, salt;
    uint64_t unknown; /* the length of an output whose length is not known in advance */
    size_t state;
    int (*init)(void *S, uint64_t length, const Py_buffer *k, const Py_buffer *s, const Py_buffer *p);
    int (*update)(void *S, const void *in, size_t length);
    int (*squeeze)(void *S, void *out, size_t length);
    uint64_t (*left)(const void *S);
    void (*wipe)(void *S);
} kind;

#define KIND(f, NAME, block, longest, salt)                                                        \
    static int f##_init(void *S, uint64_t length, const Py_buffer *k, const Py_buffer *s,          \
                        const Py_buffer *p) {                                                      \
        return vulfsjor_##f##_init_salt_personal(S, (size_t)length, KEY(k), TEXT(s), TEXT(p));     \
    }                                                                                              \
    static int f##_update(void *S, const void *in, size_t length) {                                \
        return vulfsjor_##f##_update(S, in, length);                                               \
    }                                                                                              \
    static int f##_squeeze(void *S, void *out, size_t length) {                                    \
        return vulfsjor_##f##_squeeze(S, out, length);                                             \
    }                                                                                              \
    static uint64_t f##_left(const void *S) { return vulfsjor_##f##_left(S); }                     \
    static void f##_wipe(void *S) { vulfsjor_##f##_wipe(S); }                                      \
    static const kind f = {#f, block, longest, salt, VULFSJOR_##NAME##_UNKNOWN_LENGTH,             \
                           sizeof(vulfsjor_##f##_state), f##_init, f##_update, f##_squeeze,        \
                           f##_left, f##_wipe};
KIND(blake2xb, BLAKE2XB, 128, 64, 16)
KIND(blake2xs, BLAKE2XS, 64, 32, 8)

typedef union state {
    vulfsjor_blake2xb_state b;
    vulfsjor_blake2xs_state s;
} state;

/* The lock is held while a call works on the state. */
typedef struct output {
    PyObject_HEAD
    const kind *k;
    PyThread_type_lock lock;
    state run;
} output;

static output *new_output(PyTypeObject *type, const kind *k) {
    output *self = (output *)PyType_GenericAlloc(type, 0);
    if (!self) return NULL;
    self->k = k;
    if (!(self->lock = PyThread_allocate_lock())) {
        PyErr_NoMemory();
        Py_CLEAR(self);
    }
    return self;
}

/* Absorbs the bytes. 0, or -1 with an exception. */
static int absorb_data(output *self, PyObject *data) {
    Py_buffer view;
    int status;
    if (view_of(data, &view)) return -1;
    acquire_lock(self->lock);
    if (view.len >= LET_OTHERS_RUN_AT) {
        Py_BEGIN_ALLOW_THREADS
        status = self->k->update(&self->run, view.buf, (size_t)view.len);
        Py_END_ALLOW_THREADS
    } else {
        status = self->k->update(&self->run, view.buf, (size_t)view.len);
    }
    release_lock(self->lock);
    PyBuffer_Release(&view);
    if (status) PyErr_SetString(PyExc_OverflowError, "2^64 bytes or more");
    return status;
}

/* A length from 1 to `most`, or `otherwise` for None. 0, or -1 with an exception. */
static int to_output_length(PyObject *given, uint64_t otherwise, uint64_t most, uint64_t *length) {
    *length = otherwise;
    return given && given != Py_None ? to_number_in_range(given, 1, most, "length", length) : 0;
}

static PyObject *make_output(PyTypeObject *type, PyObject *args, PyObject *words, const kind *k) {
    static char *names[] = {"", "length", "key", "salt", "person", "usedforsecurity", NULL};
    PyObject *data = NULL, *given = NULL;
    Py_buffer key = {0}, salt = {0}, person = {0};
    int secure = 1;
    uint64_t length;
    output *self = NULL;
    if (!PyArg_ParseTupleAndKeywords(args, words, "|O$Oy*y*y*p", names, &data, &given, &key, &salt,
                                     &person, &secure))
        return NULL;
    if (!to_output_length(given, k->unknown, k->unknown - 1, &length) &&
        !check_text_length(&salt, k->salt, "salt") && !check_text_length(&person, k->salt, "person") &&
        !check_text_length(&key, k->key, "key"))
        self = new_output(type, k);
    if (self && k->init(&self->run, length, &key, &salt, &person)) {
        PyErr_SetString(PyExc_SystemError, "the library refuses what was checked");
        Py_CLEAR(self);
    }
    if (self && data && absorb_data(self, data)) Py_CLEAR(self);
    release_buffer(&key);
    release_buffer(&salt);
    release_buffer(&person);
    return (PyObject *)self;
}

static void wipe_and_dealloc(PyObject *object) {
    output *self = (output *)object;
    PyTypeObject *type = Py_TYPE(object);
    self->k->wipe(&self->run);
    if (self->lock) PyThread_free_lock(self->lock);
    PyObject_Free(object);
    Py_DECREF(type);
}

static PyObject *update(PyObject *self, PyObject *data) {
    if (absorb_data((output *)self, data)) return NULL;
    Py_RETURN_NONE;
}

/* Copies the state as it is now. The caller must wipe the copy. */
static void copy_state(output *self, state *copied) {
    acquire_lock(self->lock);
    memcpy(copied, &self->run, self->k->state);
    release_lock(self->lock);
}

static PyObject *copy(PyObject *object, PyObject *none) {
    output *self = (output *)object, *made = new_output(Py_TYPE(object), self->k);
    (void)none;
    if (made) copy_state(self, &made->run);
    return (PyObject *)made;
}

/* The next bytes of this output, or NULL with an exception. The GIL is released meanwhile. */
static PyObject *squeeze(const kind *k, state *run, size_t length) {
    PyObject *out = PyBytes_FromStringAndSize(NULL, (Py_ssize_t)length);
    char *bytes;
    int status;
    if (!out) return NULL;
    bytes = PyBytes_AsString(out);
    Py_BEGIN_ALLOW_THREADS
    status = k->squeeze(run, bytes, length);
    Py_END_ALLOW_THREADS
    if (!status) return out;
    Py_DECREF(out);
    return raise_exception(PyExc_SystemError, "the library refuses what was checked");
}

/* The first bytes of the output, by a copy of the state. */
static PyObject *digest(PyObject *object, PyObject *given) {
    output *self = (output *)object;
    const kind *k = self->k;
    PyObject *out = NULL;
    uint64_t length, left;
    state copied;
    copy_state(self, &copied);
    left = k->left(&copied);
    if (left > PY_SSIZE_T_MAX) left = PY_SSIZE_T_MAX;
    if (!to_number_in_range(given, 0, left, "length", &length)) out = squeeze(k, &copied, (size_t)length);
    k->wipe(&copied);
    return out;
}

static PyObject *hexdigest(PyObject *self, PyObject *given) {
    PyObject *bytes = digest(self, given), *digits = NULL;
    if (bytes) digits = PyObject_CallMethod(bytes, "hex", NULL);
    Py_XDECREF(bytes);
    return digits;
}

static PyObject *name_of(PyObject *self, void *none) {
    (void)none;
    return PyUnicode_FromString(((output *)self)->k->name);
}

static PyObject *block_size_of(PyObject *self, void *none) {
    (void)none;
    return PyLong_FromLong(((output *)self)->k->block);
}

static PyMethodDef methods[] = {
    {"update", update, METH_O, "update($self, data, /)\n--\n\nAbsorb data after all earlier data."},
    {"digest", digest, METH_O,
     "digest($self, length, /)\n--\n\nReturn the first bytes of the output."},
    {"hexdigest", hexdigest, METH_O,
     "hexdigest($self, length, /)\n--\n\nReturn the first bytes of the output in hexadecimal."},
    {"copy", copy, METH_NOARGS, "copy($self, /)\n--\n\nReturn a copy of the object."},
    {NULL, NULL, 0, NULL}};
static PyGetSetDef fields[] = {{"name", name_of, NULL, "The name of the function.", NULL},
                               {"block_size", block_size_of, NULL, "The bytes of a block.", NULL},
                               {NULL, NULL, NULL, NULL, NULL}};

#define TYPE(f, longest, key, text)                                                                \
    static PyObject *make_##f(PyTypeObject *type, PyObject *args, PyObject *words) {               \
        return make_output(type, args, words, &f);                                                        \
    }                                                                                              \
    static PyType_Slot slots_##f[] = {                                                             \
        {Py_tp_new, make_##f},                                                                     \
        {Py_tp_dealloc, wipe_and_dealloc},                                                              \
        {Py_tp_methods, methods},                                                                  \
        {Py_tp_getset, fields},                                                                    \
        {Py_tp_doc, #f "(data=b'', /, *, length=None, key=b'', salt=b'', person=b'',"              \
                    "\n         usedforsecurity=True)\n--\n\nReturn a new object of an extendable" \
                    " output function.\n\nlength is that of the output, 1 to " longest             \
                    ", or None if it is not known in\nadvance; the output depends on it. A key has"\
                    " up to " key " bytes, salt and person\nup to " text " each."},                \
        {0, NULL}};                                                                                \
    static PyType_Spec spec_##f = {                                                                \
        "vulfsjor." #f, (int)(offsetof(output, run) + sizeof(vulfsjor_##f##_state)), 0,            \
        Py_TPFLAGS_DEFAULT, slots_##f};
TYPE(blake2xb, "4294967294", "64", "16")
TYPE(blake2xs, "65534", "32", "8")

/* A key of this length. The GIL is released meanwhile. */
static PyObject *derive_key_of_length(size_t length, const Py_buffer *key, const Py_buffer *context) {
    PyObject *out = PyBytes_FromStringAndSize(NULL, (Py_ssize_t)length);
    char *bytes;
    int status;
    if (!out) return NULL;
    bytes = PyBytes_AsString(out);
    Py_BEGIN_ALLOW_THREADS
    status = vulfsjor_blake2xb_derive_key(bytes, length, TEXT(key), TEXT(context));
    Py_END_ALLOW_THREADS
    if (!status) return out;
    Py_DECREF(out);
    return raise_exception(PyExc_OverflowError, "2^64 bytes or more");
}

static PyObject *derive_key(PyObject *module, PyObject *args, PyObject *words) {
    static char *names[] = {"key", "context", "length", NULL};
    PyObject *given, *out = NULL;
    Py_buffer key = {0}, context = {0};
    uint64_t length;
    (void)module;
    if (!PyArg_ParseTupleAndKeywords(args, words, "y*y*O:derive_key", names, &key, &context, &given))
        return NULL;
    if (!check_key_length(&key, blake2xb.key) && !to_number_in_range(given, 1, blake2xb.unknown - 1, "length", &length))
        out = derive_key_of_length((size_t)length, &key, &context);
    release_buffer(&key);
    release_buffer(&context);
    return out;
}

static PyMethodDef output_functions[] = {
    {"derive_key", WITH_WORDS(derive_key),
     "derive_key(key, context, length)\n--\n\n"
     "Return a key of this length, derived from a key of 1 to 64 bytes for a context.\n\n"
     "It is the BLAKE2Xb output of the context under the key. Each purpose has a context of\n"
     "its own."},
    {NULL, NULL, 0, NULL}};

int add_output_types(PyObject *module, PyObject *type_of_types) {
    PyType_Spec *specs[] = {&spec_blake2xb, &spec_blake2xs};
    const char *names[] = {blake2xb.name, blake2xs.name};
    int failed = 0;
    for (int i = 0; !failed && i < 2; i++) {
        PyObject *type = PyType_FromModuleAndSpec(module, specs[i], NULL);
        if (type) {
            Py_INCREF(type_of_types);
            Py_SET_TYPE(type, (PyTypeObject *)type_of_types);
        }
        failed = !type || PyModule_AddObjectRef(module, names[i], type);
        Py_XDECREF(type);
    }
    return failed || PyModule_AddFunctions(module, output_functions) ? -1 : 0;
}
