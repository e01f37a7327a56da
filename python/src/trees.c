/* The tree of two levels over BLAKE2b (the BLAKE2 document, section 2.10) for Python: its root in
 * one call, in pieces, and in parts. */
#include "library.h"

/* What a tree is made with, and the data of the call. */
typedef struct given {
    PyObject *data, *leaf;
    Py_buffer salt, person;
    int size;
    uint32_t leaf_length;
    unsigned threads;
} given;

/* Converts a number of threads (O&). One that is too large is as good as the largest. */
static int to_threads(PyObject *object, void *threads) {
    Py_ssize_t number = PyNumber_AsSsize_t(object, NULL);
    if (number == -1 && PyErr_Occurred()) return 0;
    if (number < 0) {
        PyErr_SetString(PyExc_ValueError, "threads must be 0 or more");
        return 0;
    }
    *(unsigned *)threads = (size_t)number > UINT_MAX ? UINT_MAX : (unsigned)number;
    return 1;
}

/* Checks the parameters, in the order of hashlib, and fills in the length of the leaves. */
static int check_tree_parameters(given *g) {
    uint64_t leaf_size;
    if (to_number_in_range(g->leaf, 1, UINT32_MAX, "leaf_size", &leaf_size) ||
        check_size_in_range(g->size, 1, VULFSJOR_BLAKE2B_OUTBYTES, "digest_size", " bytes") ||
        check_text_length(&g->salt, VULFSJOR_BLAKE2B_SALTBYTES, "salt") ||
        check_text_length(&g->person, VULFSJOR_BLAKE2B_PERSONALBYTES, "person"))
        return -1;
    g->leaf_length = (uint32_t)leaf_size;
    return 0;
}

/* The number of a leaf. A message has less than 2^58 bytes. */
static int to_leaf_number(PyObject *given, uint64_t leaf_length, const char *name, uint64_t *place) {
    return to_number_in_range(given, 0, (((uint64_t)1 << 58) - 1) / leaf_length, name, place);
}

/* Converts a flag (O&). An object of another kind, such as where a message ends, would be true too. */
static int to_flag(PyObject *object, void *flag) {
    int is_beyond;
    const long number = PyLong_Check(object) ? PyLong_AsLongAndOverflow(object, &is_beyond) : -1;
    *(int *)flag = number == 1;
    if (number == 0 || number == 1) return 1;
    PyErr_SetString(PyExc_TypeError, "ends must be True or False");
    return 0;
}

/* What is raised if leaves end too late. */
static PyObject *raise_leaves_end_too_late(void) {
    return raise_exception(PyExc_ValueError, "the data ends at 2^58 bytes or more of the message");
}

static void release_given(given *g) {
    release_buffer(&g->salt);
    release_buffer(&g->person);
}

/* Initializes a state with what was checked. 0, or -1 with an exception. */
static int initialize_tree(vulfsjor_tree_state *tree, const given *g) {
    if (!vulfsjor_tree_init(tree, (size_t)g->size, TEXT(&g->salt), TEXT(&g->person), g->leaf_length))
        return 0;
    PyErr_SetString(PyExc_SystemError, "the library refuses what was checked");
    return -1;
}

/* ---- In one call */

/* Writes the root of the bytes, by this thread. 0, or -1 with an exception. */
static int write_root_by_one_thread(const given *g, uint8_t *out, const Py_buffer *view) {
    int status;
    Py_BEGIN_ALLOW_THREADS
    status = vulfsjor_tree_root(out, (size_t)g->size, TEXT(view), TEXT(&g->salt), TEXT(&g->person),
                                g->leaf_length);
    Py_END_ALLOW_THREADS
    if (status) PyErr_SetString(PyExc_OverflowError, "2^58 bytes or more");
    return status;
}

/* The same by several threads. */
static int write_root_by_several_threads(const given *g, uint8_t *out, const Py_buffer *view) {
    vulfsjor_tree_state tree;
    if (initialize_tree(&tree, g)) return -1;
    return root_by_threads(&tree, out, view, g->threads);
}

static PyObject *root_of(const given *g) {
    uint8_t out[64];
    Py_buffer view;
    int status;
    if (view_of(g->data, &view)) return NULL;
    status = g->threads == 1 ? write_root_by_one_thread(g, out, &view) : write_root_by_several_threads(g, out, &view);
    PyBuffer_Release(&view);
    return status ? NULL : PyBytes_FromStringAndSize((const char *)out, g->size);
}

static PyObject *tree_root(PyObject *module, PyObject *args, PyObject *words) {
    static char *names[] = {"", "leaf_size", "digest_size", "salt", "person", "threads", NULL};
    given g = {.size = VULFSJOR_BLAKE2B_OUTBYTES, .threads = 1};
    PyObject *root = NULL;
    (void)module;
    if (!PyArg_ParseTupleAndKeywords(args, words, "OO|$O&y*y*O&:tree_root", names, &g.data, &g.leaf,
                                     to_size, &g.size, &g.salt, &g.person, to_threads, &g.threads))
        return NULL;
    if (!check_tree_parameters(&g)) root = root_of(&g);
    release_given(&g);
    return root;
}

/* ---- In parts */

/* The digests of a range of leaves, or NULL with an exception. */
static PyObject *digests_of_leaves(const given *g, const Py_buffer *view, uint64_t first, int ends) {
    uint64_t count = vulfsjor_tree_leaf_count((uint64_t)view->len, g->leaf_length);
    PyObject *digests;
    uint8_t *out;
    int status;
    if (!view->len && (first || !ends))
        return raise_exception(PyExc_ValueError,
                               "data must not be empty, unless it is all of an empty message");
    if (!ends && (uint64_t)view->len % g->leaf_length)
        return raise_exception(PyExc_ValueError, "data must be whole leaves, unless it ends the message");
    if (count > PY_SSIZE_T_MAX / 64) return PyErr_NoMemory();
    digests = PyBytes_FromStringAndSize(NULL, (Py_ssize_t)count * 64);
    if (!digests) return NULL;
    out = (uint8_t *)PyBytes_AsString(digests);
    Py_BEGIN_ALLOW_THREADS
    status = vulfsjor_tree_leaves(out, (size_t)count * 64, first, ends, TEXT(view), TEXT(&g->salt),
                                  TEXT(&g->person), g->leaf_length);
    Py_END_ALLOW_THREADS
    if (!status) return digests;
    Py_DECREF(digests);
    return raise_leaves_end_too_late();
}

static PyObject *tree_leaves(PyObject *module, PyObject *args, PyObject *words) {
    static char *names[] = {"", "leaf_size", "first", "ends", "salt", "person", NULL};
    given g = {.size = VULFSJOR_BLAKE2B_OUTBYTES};
    PyObject *digests = NULL, *first = NULL;
    Py_buffer view;
    uint64_t first_leaf;
    int ends = -1;
    (void)module;
    if (!PyArg_ParseTupleAndKeywords(args, words, "OO|$OO&y*y*:tree_leaves", names, &g.data, &g.leaf,
                                     &first, to_flag, &ends, &g.salt, &g.person))
        return NULL;
    if (!first || ends < 0)
        PyErr_SetString(PyExc_TypeError,
                        "tree_leaves() requires the keyword arguments first and ends");
    else if (!check_tree_parameters(&g) &&
             !to_leaf_number(first, g.leaf_length, "first", &first_leaf) && !view_of(g.data, &view)) {
        digests = digests_of_leaves(&g, &view, first_leaf, ends);
        PyBuffer_Release(&view);
    }
    release_given(&g);
    return digests;
}

static PyObject *root_of_leaf_digests(const given *g) {
    uint8_t out[64];
    Py_buffer view;
    int status;
    if (view_of(g->data, &view)) return NULL;
    Py_BEGIN_ALLOW_THREADS
    status = vulfsjor_tree_root_of_leaves(out, (size_t)g->size, vulfsjor_text(view.buf),
                                          (size_t)view.len, TEXT(&g->salt), TEXT(&g->person),
                                          g->leaf_length);
    Py_END_ALLOW_THREADS
    PyBuffer_Release(&view);
    if (status)
        return raise_exception(PyExc_ValueError,
                               "digests must have 64 bytes for each leaf, and at least one leaf");
    return PyBytes_FromStringAndSize((const char *)out, g->size);
}

static PyObject *tree_root_of_leaves(PyObject *module, PyObject *args, PyObject *words) {
    static char *names[] = {"", "leaf_size", "digest_size", "salt", "person", NULL};
    given g = {.size = VULFSJOR_BLAKE2B_OUTBYTES};
    PyObject *root = NULL;
    (void)module;
    if (!PyArg_ParseTupleAndKeywords(args, words, "OO|$O&y*y*:tree_root_of_leaves", names, &g.data,
                                     &g.leaf, to_size, &g.size, &g.salt, &g.person))
        return NULL;
    if (!check_tree_parameters(&g)) root = root_of_leaf_digests(&g);
    release_given(&g);
    return root;
}

static PyObject *tree_leaf_count(PyObject *module, PyObject *args, PyObject *words) {
    static char *names[] = {"length", "leaf_size", NULL};
    given g = {.size = VULFSJOR_BLAKE2B_OUTBYTES};
    uint64_t length;
    (void)module;
    if (!PyArg_ParseTupleAndKeywords(args, words, "OO:tree_leaf_count", names, &g.data, &g.leaf))
        return NULL;
    if (to_number_in_range(g.data, 0, UINT64_MAX, "length", &length) || check_tree_parameters(&g))
        return NULL;
    return PyLong_FromUnsignedLongLong(vulfsjor_tree_leaf_count(length, g.leaf_length));
}

PyMethodDef tree_functions[] = {
    {"tree_leaf_count", WITH_WORDS(tree_leaf_count),
     "tree_leaf_count(length, leaf_size)\n--\n\n"
     "Return the number of leaves of a message of length bytes, which is at least one."},
    {"tree_leaves", WITH_WORDS(tree_leaves),
     "tree_leaves(data, /, leaf_size, *, first, ends, salt=b'', person=b'')\n--\n\n"
     "Return the digests of a range of the leaves of tree_root, 64 bytes each, as bytes.\n\n"
     "The data is leaf first, counted from 0, and the leaves after it. ends says whether the\n"
     "message ends with the data. If not, the data must be whole leaves. Compute ends from the\n"
     "length of the message: a wrong value makes a wrong root, and no error. The digests of all\n"
     "ranges of a message, joined in order, are what tree_root_of_leaves accepts. The GIL is\n"
     "released meanwhile."},
    {"tree_root", WITH_WORDS(tree_root),
     "tree_root(data, /, leaf_size, *, digest_size=64, salt=b'', person=b'', threads=1)\n--\n\n"
     "Return the root of the data in a tree of two levels over BLAKE2b, as bytes.\n\n"
     "The data is cut into leaves of leaf_size bytes, and the root hashes their digests of 64\n"
     "bytes (the BLAKE2 document, section 2.10: fanout 0, depth 2, inner size 64, and the\n"
     "last-node flag on the last leaf and the root). It is not a BLAKE2b digest of the data.\n\n"
     "threads is the number of threads that hash, the caller's among them, at most 256; 0 is one\n"
     "for each processor that the caller's thread may run on. Fewer are started for data of less\n"
     "than 256 KiB for each, or if the system refuses to start them. The root is the same for any\n"
     "number. The GIL is released meanwhile. With several threads KeyboardInterrupt ends the call."},
    {"tree_root_of_leaves", WITH_WORDS(tree_root_of_leaves),
     "tree_root_of_leaves(digests, /, leaf_size, *, digest_size=64, salt=b'', person=b'')\n--\n\n"
     "Return the root over the joined digests of all leaves of a message: its tree_root.\n\n"
     "The digests have 64 bytes for each leaf. There is at least one leaf."},
    {NULL, NULL, 0, NULL}};

/* ---- In pieces */

typedef struct tree {
    PyObject_HEAD
    PyThread_type_lock lock;
    uint32_t leaf_size;
    int digest_size;
    vulfsjor_tree_state run;
} tree;

/* An object with a lock and a zeroed state. */
static tree *new_tree(PyTypeObject *type, uint32_t leaf_size, int digest_size) {
    allocfunc allocate = (allocfunc)PyType_GetSlot(type, Py_tp_alloc);
    tree *self = (tree *)allocate(type, 0);
    if (!self) return NULL;
    self->leaf_size = leaf_size;
    self->digest_size = digest_size;
    if (!(self->lock = PyThread_allocate_lock())) {
        PyErr_NoMemory();
        Py_CLEAR(self);
    }
    return self;
}

static PyObject *make_tree_hasher(PyTypeObject *type, PyObject *args, PyObject *words) {
    static char *names[] = {"leaf_size", "digest_size", "salt", "person", NULL};
    given g = {.size = VULFSJOR_BLAKE2B_OUTBYTES};
    tree *self = NULL;
    if (!PyArg_ParseTupleAndKeywords(args, words, "O|$O&y*y*:TreeHasher", names, &g.leaf, to_size,
                                     &g.size, &g.salt, &g.person))
        return NULL;
    if (!check_tree_parameters(&g)) self = new_tree(type, g.leaf_length, g.size);
    if (self && initialize_tree(&self->run, &g)) Py_CLEAR(self);
    release_given(&g);
    return (PyObject *)self;
}

static void wipe_and_dealloc(PyObject *object) {
    tree *self = (tree *)object;
    PyTypeObject *type = Py_TYPE(object);
    freefunc give_back = (freefunc)PyType_GetSlot(type, Py_tp_free);
    vulfsjor_tree_wipe(&self->run);
    if (self->lock) PyThread_free_lock(self->lock);
    give_back(object);
    Py_DECREF(type);
}

/* Absorbs leaves, given by their digests, and then the data. 0, or what the library returns. */
static int absorb_leaves_and_data(tree *self, const Py_buffer *digests, const Py_buffer *view) {
    int status;
    if (digests->len + view->len < LET_OTHERS_RUN_AT) {
        acquire_lock(self->lock);
        status = vulfsjor_tree_update_leaves(&self->run, TEXT(digests), TEXT(view));
        release_lock(self->lock);
    } else {
        Py_BEGIN_ALLOW_THREADS
        PyThread_acquire_lock(self->lock, 1);
        status = vulfsjor_tree_update_leaves(&self->run, TEXT(digests), TEXT(view));
        PyThread_release_lock(self->lock);
        Py_END_ALLOW_THREADS
    }
    return status;
}

/* Writes the state as it is now. */
static void copy_state(tree *self, vulfsjor_tree_state *copied) {
    acquire_lock(self->lock);
    *copied = self->run;
    release_lock(self->lock);
}

/* Absorbs the data by threads, which work on a copy: an interrupted call changes nothing. 0, or -1 with an
 * exception. */
static int absorb_by_threads(tree *self, const Py_buffer *view, unsigned threads) {
    vulfsjor_tree_state copied;
    uint64_t count;
    int status;
    copy_state(self, &copied);
    count = vulfsjor_tree_count(&copied);
    status = update_tree_by_threads(&copied, view, threads);
    acquire_lock(self->lock);
    if (!status && vulfsjor_tree_count(&self->run) != count) {
        PyErr_SetString(PyExc_RuntimeError, "another thread has updated the hasher meanwhile");
        status = -1;
    }
    if (!status) self->run = copied;
    release_lock(self->lock);
    vulfsjor_tree_wipe(&copied);
    return status;
}

static int absorb_data(tree *self, const Py_buffer *view) {
    const Py_buffer none = {0};
    int status = absorb_leaves_and_data(self, &none, view);
    if (status) PyErr_SetString(PyExc_OverflowError, "2^58 bytes or more");
    return status;
}

static PyObject *update(PyObject *object, PyObject *args, PyObject *words) {
    static char *names[] = {"", "threads", NULL};
    unsigned threads = 1;
    PyObject *data;
    Py_buffer view;
    int status;
    if (!PyArg_ParseTupleAndKeywords(args, words, "O|$O&:update", names, &data, to_threads, &threads) ||
        view_of(data, &view))
        return NULL;
    status = threads == 1 ? absorb_data((tree *)object, &view)
                          : absorb_by_threads((tree *)object, &view, threads);
    PyBuffer_Release(&view);
    if (status) return NULL;
    Py_RETURN_NONE;
}

/* For tree_root_file of Python. */
static PyObject *root_of_file(PyObject *object, PyObject *args) {
    PyObject *path, *progress;
    unsigned long long length;
    vulfsjor_tree_state copied;
    unsigned threads;
    uint8_t out[64];
    int file, status;
    if (!PyArg_ParseTuple(args, "OiKO&O:_root_of_file", &path, &file, &length, to_threads, &threads,
                          &progress))
        return NULL;
    copy_state((tree *)object, &copied);
    status = root_of_regular_file(&copied, out, file, length, threads, path,
                                  progress == Py_None ? NULL : progress);
    vulfsjor_tree_wipe(&copied);
    if (status) return NULL;
    return PyBytes_FromStringAndSize((const char *)out, ((tree *)object)->digest_size);
}

static int is_at_leaf_boundary(const vulfsjor_tree_state *run) {
    return vulfsjor_tree_count(run) % vulfsjor_tree_leaf_length(run) == 0;
}

static PyObject *raise_not_at_boundary(void) {
    return raise_exception(PyExc_ValueError, "the hasher is not at a leaf boundary");
}

/* Why the leaves are refused that were given by their digests. */
static PyObject *raise_leaves_refused(tree *self, const Py_buffer *digests, const Py_buffer *view) {
    vulfsjor_tree_state copied;
    int at_boundary;
    if (digests->len % 64)
        return raise_exception(PyExc_ValueError, "digests must have 64 bytes for each leaf");
    if (digests->len && !view->len)
        return raise_exception(PyExc_ValueError, "data must follow the digests, at least one byte of it");
    copy_state(self, &copied);
    at_boundary = is_at_leaf_boundary(&copied);
    vulfsjor_tree_wipe(&copied);
    return at_boundary || !digests->len ? raise_exception(PyExc_OverflowError, "2^58 bytes or more")
                                        : raise_not_at_boundary();
}

static PyObject *update_leaves(PyObject *object, PyObject *args) {
    PyObject *given_digests, *data, *done = NULL;
    Py_buffer digests, view;
    if (!PyArg_ParseTuple(args, "OO:update_leaves", &given_digests, &data) ||
        view_of(given_digests, &digests))
        return NULL;
    if (!view_of(data, &view)) {
        if (absorb_leaves_and_data((tree *)object, &digests, &view))
            raise_leaves_refused((tree *)object, &digests, &view);
        else done = Py_NewRef(Py_None);
        PyBuffer_Release(&view);
    }
    PyBuffer_Release(&digests);
    return done;
}

/* The digests of leaves that follow those of this state, which is a copy. */
static PyObject *hash_leaves_after(const vulfsjor_tree_state *run, uint64_t skip, const Py_buffer *view) {
    uint64_t leaf_length = vulfsjor_tree_leaf_length(run);
    uint64_t count = (uint64_t)view->len / leaf_length;
    PyObject *digests;
    uint8_t *out;
    int status;
    if (!view->len || (uint64_t)view->len % leaf_length)
        return raise_exception(PyExc_ValueError, "data must be whole leaves, at least one");
    if (!is_at_leaf_boundary(run)) return raise_not_at_boundary();
    if (count > PY_SSIZE_T_MAX / 64) return PyErr_NoMemory();
    digests = PyBytes_FromStringAndSize(NULL, (Py_ssize_t)count * 64);
    if (!digests) return NULL;
    out = (uint8_t *)PyBytes_AsString(digests);
    Py_BEGIN_ALLOW_THREADS
    status = vulfsjor_tree_leaves_ahead(run, out, (size_t)count * 64, skip, TEXT(view));
    Py_END_ALLOW_THREADS
    if (!status) return digests;
    Py_DECREF(digests);
    return raise_leaves_end_too_late();
}

static PyObject *leaves_ahead(PyObject *object, PyObject *args, PyObject *words) {
    static char *names[] = {"", "skip", NULL};
    PyObject *data, *skip = NULL, *digests;
    vulfsjor_tree_state copied;
    Py_buffer view;
    uint64_t skipped = 0;
    if (!PyArg_ParseTupleAndKeywords(args, words, "O|O:leaves_ahead", names, &data, &skip) ||
        (skip && to_leaf_number(skip, ((tree *)object)->leaf_size, "skip", &skipped)) ||
        view_of(data, &view))
        return NULL;
    copy_state((tree *)object, &copied);
    digests = hash_leaves_after(&copied, skipped, &view);
    vulfsjor_tree_wipe(&copied);
    PyBuffer_Release(&view);
    return digests;
}

static PyObject *copy(PyObject *object, PyObject *none) {
    tree *self = (tree *)object, *made = new_tree(Py_TYPE(object), self->leaf_size, self->digest_size);
    (void)none;
    if (made) copy_state(self, &made->run);
    return (PyObject *)made;
}

/* The root, by a copy of the state, which the call wipes. How many bytes it has, or -1 with an
 * exception. */
static int digest_of(tree *self, uint8_t out[64]) {
    vulfsjor_tree_state copied;
    copy_state(self, &copied);
    if (!vulfsjor_tree_final(&copied, out, (size_t)self->digest_size)) return self->digest_size;
    PyErr_SetString(PyExc_SystemError, "the library refuses what was checked");
    return -1;
}

static PyObject *digest(PyObject *self, PyObject *none) {
    uint8_t out[64];
    int size = digest_of((tree *)self, out);
    (void)none;
    return size < 0 ? NULL : PyBytes_FromStringAndSize((const char *)out, size);
}

static PyObject *hexdigest(PyObject *self, PyObject *none) {
    uint8_t out[64];
    int size = digest_of((tree *)self, out);
    (void)none;
    return size < 0 ? NULL : hex_string_of(out, size);
}

static PyObject *digest_size(PyObject *self, void *none) {
    (void)none;
    return PyLong_FromLong(((tree *)self)->digest_size);
}

static PyObject *leaf_size(PyObject *self, void *none) {
    (void)none;
    return PyLong_FromUnsignedLong(((tree *)self)->leaf_size);
}

static PyObject *count(PyObject *object, void *none) {
    tree *self = (tree *)object;
    uint64_t bytes;
    (void)none;
    acquire_lock(self->lock);
    bytes = vulfsjor_tree_count(&self->run);
    release_lock(self->lock);
    return PyLong_FromUnsignedLongLong(bytes);
}

static PyMethodDef methods[] = {
    {"_root_of_file", root_of_file, METH_VARARGS,
     "_root_of_file($self, path, file, length, threads, progress, /)\n--\n\n"
     "Return the root of a regular file of this length, by its descriptor, in a tree like this.\n"
     "The path is for errors. See tree_root_file."},
    {"leaves_ahead", WITH_WORDS(leaves_ahead),
     "leaves_ahead($self, data, /, skip=0)\n--\n\n"
     "Return the digests of whole leaves that follow all data so far, 64 bytes each, as bytes.\n\n"
     "The data so far must be whole leaves too. The first leaf of the data is skip leaves after\n"
     "the next leaf of the hasher. The hasher is unchanged, so threads may hash different leaves\n"
     "with one hasher. update_leaves then absorbs the digests. The GIL is released meanwhile."},
    {"update_leaves", update_leaves, METH_VARARGS,
     "update_leaves($self, digests, data, /)\n--\n\n"
     "Absorb whole leaves, given by their joined digests, and then the data.\n\n"
     "The digests are those of leaves_ahead from skip 0 on, in order. At least one byte of data\n"
     "must follow them, since the last leaf of a message cannot be given by its digest."},
    {"copy", copy, METH_NOARGS, "copy($self, /)\n--\n\nReturn a copy of the hasher."},
    {"digest", digest, METH_NOARGS,
     "digest($self, /)\n--\n\nReturn the root of all data so far, as bytes."},
    {"hexdigest", hexdigest, METH_NOARGS,
     "hexdigest($self, /)\n--\n\n"
     "Return the root of all data so far, as a string of hexadecimal digits."},
    {"update", WITH_WORDS(update),
     "update($self, data, /, *, threads=1)\n--\n\nAbsorb the data after all earlier data.\n\n"
     "Pieces of many leaves are fastest, since whole leaves that more data follows are hashed\n"
     "four at a time. threads is as in tree_root: threads hash the whole leaves of the data that\n"
     "more data follows. If the call is interrupted, the hasher is unchanged. If another thread\n"
     "updates it meanwhile, the call raises RuntimeError and does not absorb the data."},
    {NULL, NULL, 0, NULL}};

static PyGetSetDef fields[] = {
    {"count", count, NULL, "The number of bytes of all data so far.", NULL},
    {"digest_size", digest_size, NULL, "The number of bytes of the root.", NULL},
    {"leaf_size", leaf_size, NULL, "The number of bytes of a leaf.", NULL},
    {NULL, NULL, NULL, NULL, NULL}};

static PyType_Slot slots[] = {
    {Py_tp_new, make_tree_hasher},
    {Py_tp_dealloc, wipe_and_dealloc},
    {Py_tp_methods, methods},
    {Py_tp_getset, fields},
    {Py_tp_doc, "TreeHasher(leaf_size, *, digest_size=64, salt=b'', person=b'')\n--\n\n"
                "The tree of tree_root over data that comes in pieces."},
    {0, NULL}};
static PyType_Spec spec = {"vulfsjor.TreeHasher", sizeof(tree), 0,
                           Py_TPFLAGS_DEFAULT | Py_TPFLAGS_BASETYPE, slots};

int add_tree_types(PyObject *module) {
    PyObject *type = PyType_FromModuleAndSpec(module, &spec, NULL);
    int status = type ? PyModule_AddObjectRef(module, "TreeHasher", type) : -1;
    Py_XDECREF(type);
    return status;
}
