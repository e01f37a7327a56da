/* Several messages in one call, and several hash objects. C, which no proof covers. */
#include "hashes.h"

#include <stdlib.h>
#include <string.h>

/* ---- Arguments of several objects */

static void release_messages(messages *m) {
    while (m->count > 0) PyBuffer_Release(&m->views[--m->count]);
    PyMem_Free(m->views);
    PyMem_Free(m->texts);
}

/* Takes hold of the objects of a tuple. 0, or -1 with an exception. release_messages follows in either
 * case. */
static int get_buffers_of_tuple(messages *m, PyObject *tuple) {
    Py_ssize_t count = PyTuple_Size(tuple);
    m->count = 0;
    m->views = PyMem_Calloc((size_t)count, sizeof *m->views);
    m->texts = PyMem_Calloc((size_t)count, sizeof *m->texts);
    if (!m->views || !m->texts) {
        PyErr_NoMemory();
        return -1;
    }
    for (; m->count < count; m->count++) {
        Py_buffer *view = &m->views[m->count];
        if (view_of(PyTuple_GetItem(tuple, m->count), view)) return -1;
        m->texts[m->count].bytes = vulfsjor_text(view->buf);
        m->texts[m->count].length = (size_t)view->len;
    }
    return 0;
}

/* Whether this is one object, and not several: a string, or a buffer of single bytes. */
static int is_single_object(PyObject *data) {
    const char *kind;
    Py_buffer view;
    int is_single_object;
    if (PyUnicode_Check(data)) return 1;
    if (!PyObject_CheckBuffer(data)) return 0;
    if (PyObject_GetBuffer(data, &view, PyBUF_FULL_RO)) {
        PyErr_Clear(); /* its items may be buffers all the same */
        return 0;
    }
    kind = view.format ? view.format + strspn(view.format, "<>=@!") : "B";
    is_single_object = view.ndim == 1 && strchr("Bbc", *kind);
    PyBuffer_Release(&view);
    return is_single_object;
}

/* Refuses one object instead of several of this kind, and what has no order. 0, or -1 with an
 * exception. */
static int check_is_list_of_several(PyObject *data, const char *name, const char *kind) {
    if (is_single_object(data))
        PyErr_Format(PyExc_TypeError, "%s must be several, such as a list of %s, not one", name,
                     kind);
    else if (PyAnySet_Check(data))
        PyErr_Format(PyExc_TypeError, "%s must be in an order, which a set has not", name);
    else if (PyDict_Check(data))
        PyErr_Format(PyExc_TypeError, "%s must not be a dict, whose keys they would be", name);
    else
        return 0;
    return -1;
}

/* Whether this is a list, a tuple or the rows of a buffer: what they hold is there all at once, and
 * not copied. */
static int is_list_tuple_or_rows(PyObject *data) {
    return PyList_CheckExact(data) || PyTuple_CheckExact(data) || PyObject_CheckBuffer(data);
}

/* Bytes that stay what they are: the message itself if it is bytes, and a copy of any other. */
static PyObject *immutable_bytes_of(PyObject *message) {
    PyObject *copied;
    Py_buffer view;
    if (PyBytes_CheckExact(message)) return Py_NewRef(message);
    if (view_of(message, &view)) return NULL;
    copied = PyBytes_FromStringAndSize(view.buf, view.len);
    PyBuffer_Release(&view);
    return copied;
}

/* Appends the next message of an iterator to a list. It is copied before the one after it is asked
 * for, which may be written over it. Adds its length, and returns 1, or 0 at the end and with an
 * exception. */
static int append_next_copy(PyObject *iterator, PyObject *list, Py_ssize_t *length) {
    PyObject *message = PyIter_Next(iterator), *held = message ? immutable_bytes_of(message) : NULL;
    const int is_kept = held && !PyList_Append(list, held);
    if (held) *length += PyBytes_Size(held);
    Py_XDECREF(message);
    Py_XDECREF(held);
    return is_kept;
}

/* ---- Several messages in parallel */

/* What the digests are made with. */
typedef struct given {
    PyObject *data;
    Py_buffer key, salt, person;
    int size;
} given;

/* Returns a list of digests that are stored one after another. */
static PyObject *list_of(const uint8_t *digests, Py_ssize_t count, int size) {
    PyObject *list = PyList_New(count);
    for (Py_ssize_t i = 0; list && i < count; i++) {
        PyObject *digest = PyBytes_FromStringAndSize((const char *)digests + i * size, size);
        if (!digest || PyList_SetItem(list, i, digest)) Py_CLEAR(list);
    }
    return list;
}

static PyObject *digests_of(const messages *m, const given *g, const family *f) {
    uint8_t *digests = PyMem_Malloc((size_t)m->count * (size_t)g->size);
    PyObject *list = NULL;
    int status;
    if (!digests) return PyErr_NoMemory();
    Py_BEGIN_ALLOW_THREADS
    status = f->many(digests, (size_t)g->size, m, &g->key, &g->salt, &g->person);
    Py_END_ALLOW_THREADS
    if (status) PyErr_SetString(PyExc_SystemError, "the library refuses what was checked");
    else list = list_of(digests, m->count, g->size);
    PyMem_Free(digests);
    return list;
}

/* The next messages of an iterator as a list, which is empty at its end. They are whole groups of
 * those that are hashed in parallel. NULL with an exception. */
static PyObject *next_batch_of_messages(PyObject *iterator) {
    enum { GROUP = 8, FEW = 512, SHORT = 1 << 18, LONG = 1 << 26 };
    PyObject *list = PyList_New(0);
    Py_ssize_t count = 0, length = 0;
    while (list && length < LONG && (count % GROUP || (count < FEW && length < SHORT)) &&
           append_next_copy(iterator, list, &length))
        count++;
    if (PyErr_Occurred()) Py_CLEAR(list);
    return list;
}

static PyObject *digests_of_tuple(PyObject *tuple, const given *g, const family *f) {
    PyObject *list = NULL;
    messages held;
    if (!get_buffers_of_tuple(&held, tuple)) list = digests_of(&held, g, f);
    release_messages(&held);
    return list;
}

/* The bytes are those in this room from now on. */
static void copy_text_to(uint8_t *room, Py_buffer *text) {
    if (text->len) memcpy(room, text->buf, (size_t)text->len);
    text->buf = room;
}

/* Digests of what an iterator yields. No more than some of its messages are held at a time. Its
 * code may change all else that was given, of which there is a copy. */
static PyObject *digests_of_iterator(PyObject *iterator, const given *g, const family *f) {
    uint8_t key[64], salt[16], person[16];
    given own = *g;
    PyObject *all = PyList_New(0), *few, *tuple, *digests;
    Py_ssize_t count = all ? 1 : 0;
    copy_text_to(key, &own.key);
    copy_text_to(salt, &own.salt);
    copy_text_to(person, &own.person);
    while (count) {
        few = next_batch_of_messages(iterator);
        tuple = few ? PyList_AsTuple(few) : NULL;
        digests = tuple ? digests_of_tuple(tuple, &own, f) : NULL;
        count = digests ? PyList_Size(digests) : 0;
        if (!digests || PyList_SetSlice(all, PyList_Size(all), PyList_Size(all), digests)) {
            Py_CLEAR(all);
            count = 0;
        }
        Py_XDECREF(few);
        Py_XDECREF(tuple);
        Py_XDECREF(digests);
    }
    vulfsjor_wipe(key, sizeof key);
    return all;
}

static PyObject *digests_of_messages(PyObject *data, const given *g, const family *f) {
    const int is_whole = is_list_tuple_or_rows(data);
    PyObject *held, *list = NULL;
    if (check_is_list_of_several(data, "messages", "bytes")) return NULL;
    held = is_whole ? PySequence_Tuple(data) : PyObject_GetIter(data);
    if (held) list = is_whole ? digests_of_tuple(held, g, f) : digests_of_iterator(held, g, f);
    Py_XDECREF(held);
    return list;
}

static PyObject *many(PyObject *args, PyObject *words, const family *f, const char *arguments) {
    static char *names[] = {"", "digest_size", "key", "salt", "person", NULL};
    given g = {.size = f->out};
    PyObject *list = NULL;
    if (!PyArg_ParseTupleAndKeywords(args, words, arguments, names, &g.data, to_size, &g.size,
                                     &g.key, &g.salt, &g.person))
        return NULL;
    if (!check_size_in_range(g.size, 1, f->out, "digest_size", " bytes") &&
        !check_text_length(&g.salt, f->salt, "salt") && !check_text_length(&g.person, f->person, "person") &&
        !check_text_length(&g.key, f->key, "key"))
        list = digests_of_messages(g.data, &g, f);
    release_buffer(&g.key);
    release_buffer(&g.salt);
    release_buffer(&g.person);
    return list;
}

static PyObject *hash_many_blake2b(PyObject *module, PyObject *args, PyObject *words) {
    (void)module;
    return many(args, words, &blake2b, "O|$O&y*y*y*:blake2b_many");
}

static PyObject *hash_many_blake2s(PyObject *module, PyObject *args, PyObject *words) {
    (void)module;
    return many(args, words, &blake2s, "O|$O&y*y*y*:blake2s_many");
}

/* ---- Several hash objects */

/* For qsort: which address is less. */
static int compare_addresses(const void *one, const void *other) {
    const uintptr_t a = (uintptr_t)*(hash *const *)one, b = (uintptr_t)*(hash *const *)other;
    return (a > b) - (a < b);
}

/* The state of the object at this place of a tuple. */
static state *state_at(PyObject *tuple, size_t place) {
    return &((hash *)PyTuple_GetItem(tuple, (Py_ssize_t)place))->run;
}

/* Whether this is a hash object that several of `type` can be updated with. */
static int is_hash_of_type(PyTypeObject *type, PyObject *object) {
    return Py_TYPE(object) == type && hash_of(object) && hash_of(object)->f->update_many;
}

/* Writes the objects of a tuple in the order of their addresses, in which their locks are taken: so
 * no two calls wait for each other. Each has a lock from now on, since other threads run while a
 * call waits for one. 0, or -1 with an exception. */
static int sort_hashes_by_address(PyObject *tuple, hash **sorted) {
    const Py_ssize_t count = PyTuple_Size(tuple);
    for (Py_ssize_t i = 0; i < count; i++) {
        sorted[i] = (hash *)PyTuple_GetItem(tuple, i);
        if (!is_hash_of_type(Py_TYPE(PyTuple_GetItem(tuple, 0)), (PyObject *)sorted[i])) {
            PyErr_SetString(PyExc_TypeError, "hashes must be objects of one class: blake2b, "
                                             "blake2b_mac, blake2s or blake2s_mac");
            return -1;
        }
        if (!sorted[i]->lock && !(sorted[i]->lock = PyThread_allocate_lock())) {
            PyErr_NoMemory();
            return -1;
        }
    }
    qsort(sorted, (size_t)count, sizeof *sorted, compare_addresses);
    for (Py_ssize_t i = 1; i < count; i++) {
        if (sorted[i - 1] == sorted[i]) {
            PyErr_SetString(PyExc_ValueError, "one of the hashes is there twice");
            return -1;
        }
    }
    return 0;
}

/* The pieces that an iterable yields, no more than this many, as a list. NULL with an exception. */
static PyObject *list_of_first_pieces(PyObject *data, Py_ssize_t most) {
    PyObject *iterator = PyObject_GetIter(data), *list = iterator ? PyList_New(0) : NULL;
    Py_ssize_t length = 0;
    while (list && PyList_Size(list) < most && append_next_copy(iterator, list, &length)) continue;
    if (PyErr_Occurred()) Py_CLEAR(list);
    Py_XDECREF(iterator);
    return list;
}

/* A tuple of the pieces, one for each of the hashes. NULL with an exception. */
static PyObject *tuple_of_pieces(PyObject *data, Py_ssize_t count) {
    PyObject *held = is_list_tuple_or_rows(data) ? Py_NewRef(data) : list_of_first_pieces(data, count + 1);
    PyObject *tuple = held ? PySequence_Tuple(held) : NULL;
    const Py_ssize_t found = tuple ? PyTuple_Size(tuple) : count;
    if (found != count) {
        PyErr_Format(PyExc_ValueError, "there are %s pieces than hashes",
                     found < count ? "fewer" : "more");
        Py_CLEAR(tuple);
    }
    Py_XDECREF(held);
    return tuple;
}

/* Whether the pieces are so many bytes together that they are absorbed without the GIL. */
static int are_pieces_long(const messages *pieces) {
    size_t length = 0;
    for (Py_ssize_t i = 0; i < pieces->count && length < LET_OTHERS_RUN_AT; i++)
        length += pieces->texts[i].length;
    return length >= LET_OTHERS_RUN_AT;
}

/* Absorbs the pieces into copies of the states of a tuple, whose locks are held. The copies become
 * the states; if the library refuses one, all are unchanged. 0, or what it returns. */
static int absorb_pieces(PyObject *tuple, const family *f, uint8_t *copies,
                         const messages *pieces) {
    const size_t size = f->state, count = (size_t)pieces->count;
    int status;
    for (size_t i = 0; i < count; i++) memcpy(copies + i * size, state_at(tuple, i), size);
    if (are_pieces_long(pieces)) {
        Py_BEGIN_ALLOW_THREADS
        status = f->update_many(copies, pieces);
        Py_END_ALLOW_THREADS
    } else {
        status = f->update_many(copies, pieces);
    }
    for (size_t i = 0; i < count; i++) memcpy(state_at(tuple, i), copies + i * size, size);
    return status;
}

/* The same with the locks. No code of Python runs while they are held. 0, or -1 with an
 * exception. */
static int lock_and_absorb_pieces(PyObject *tuple, hash **sorted, const messages *pieces) {
    const family *f = pieces->count ? sorted[0]->f : &blake2b;
    const size_t length = (size_t)pieces->count * f->state;
    uint8_t *copies = PyMem_Malloc(length);
    int status;
    if (!copies) {
        PyErr_NoMemory();
        return -1;
    }
    for (Py_ssize_t i = 0; i < pieces->count; i++) acquire_lock(sorted[i]->lock);
    status = absorb_pieces(tuple, f, copies, pieces);
    for (Py_ssize_t i = 0; i < pieces->count; i++) release_lock(sorted[i]->lock);
    vulfsjor_wipe(copies, length);
    PyMem_Free(copies);
    if (status) PyErr_SetString(PyExc_OverflowError, "2^64 bytes or more");
    return status;
}

/* Updates the hash objects of a tuple. 0, or -1 with an exception. */
static int update_hashes(PyObject *tuple, PyObject *data) {
    hash **sorted = PyMem_Malloc((size_t)PyTuple_Size(tuple) * sizeof *sorted);
    PyObject *pieces = NULL;
    messages held;
    int status = -1;
    if (!sorted) PyErr_NoMemory();
    else if (!sort_hashes_by_address(tuple, sorted)) pieces = tuple_of_pieces(data, PyTuple_Size(tuple));
    if (pieces) {
        if (!get_buffers_of_tuple(&held, pieces)) status = lock_and_absorb_pieces(tuple, sorted, &held);
        release_messages(&held);
        Py_DECREF(pieces);
    }
    PyMem_Free(sorted);
    return status;
}

static PyObject *update_many(PyObject *module, PyObject *args) {
    PyObject *hashes, *pieces, *tuple;
    int status;
    (void)module;
    if (!PyArg_ParseTuple(args, "OO:update_many", &hashes, &pieces) ||
        check_is_list_of_several(hashes, "hashes", "hash objects") ||
        check_is_list_of_several(pieces, "pieces", "bytes") || !(tuple = PySequence_Tuple(hashes)))
        return NULL;
    status = update_hashes(tuple, pieces);
    Py_DECREF(tuple);
    if (status) return NULL;
    Py_RETURN_NONE;
}

/* ---- The functions */

#define MANY(f, size, lanes)                                                                       \
    #f "_many(messages, /, *, digest_size=" #size ", key=b'', salt=b'', person=b'')\n--\n\n"       \
       "Return a list of the digests of the messages, each under these parameters.\n\n"            \
       "Messages in a row of the same length are hashed " lanes " in parallel, which is faster\n"  \
       "on a processor with AVX2. What an iterator yields is copied when it comes, unless it is\n" \
       "bytes: it may be one buffer that is filled again and again."
PyMethodDef several_functions[] = {
    {"blake2b_many", WITH_WORDS(hash_many_blake2b), MANY(blake2b, 64, "four")},
    {"blake2s_many", WITH_WORDS(hash_many_blake2s), MANY(blake2s, 32, "eight")},
    {"update_many", update_many, METH_VARARGS,
     "update_many(hashes, pieces, /)\n--\n\n"
     "Absorb each piece into the hash object at its place, as its update would.\n\n"
     "The objects are of one class: blake2b, blake2b_mac, blake2s or blake2s_mac. The pieces have\n"
     "any lengths. More pieces than objects, or fewer, or an object that is there twice, raise\n"
     "ValueError. After an exception all objects are unchanged. Objects in a row absorb in\n"
     "parallel up to where the shortest of their pieces ends, if each has more than a block to\n"
     "absorb, which is faster on a processor with AVX2. Pieces that an iterator yields are copied\n"
     "as by blake2b_many."},
    {NULL, NULL, 0, NULL}};
