/* What the files of this folder share. They are C, which no proof covers. They keep to the limited API
 * of Python 3.11, so that one compiled module serves every later version of CPython. Builds without
 * the GIL have no such API: for them the package is compiled with Py_GIL_DISABLED, for one version.
 *
 * Nothing here is kept for all interpreters of a process but constants. */
#ifndef VULFSJOR_LIBRARY_H
#define VULFSJOR_LIBRARY_H

#define PY_SSIZE_T_CLEAN
#ifndef Py_GIL_DISABLED
#define Py_LIMITED_API 0x030b0000
#endif
#include <Python.h>

#include "vulfsjor.h"

/* The pointer and the length of a buffer, as arguments of a call. */
#define TEXT(buffer) (buffer)->buf, (size_t)(buffer)->len
/* The same of a key: an empty one is none, as in hashlib, and null in C. */
#define KEY(buffer) (buffer)->len ? (buffer)->buf : NULL, (size_t)(buffer)->len

/* A function for PyMethodDef that accepts keywords. */
#define WITH_WORDS(function) (PyCFunction)(void (*)(void))(function), METH_VARARGS | METH_KEYWORDS

/* An input of this many bytes is hashed without the GIL. */
enum { LET_OTHERS_RUN_AT = 2048 };

/* ---- Arguments, in arguments.c with the locks. Each of these but to_size returns 0, or -1 with an exception. */

/* A view of the bytes of an object. */
int view_of(PyObject *data, Py_buffer *view);

/* A number from least to most: ValueError for each other number, whatever its size. */
int to_number_in_range(PyObject *given, uint64_t least, uint64_t most, const char *name, uint64_t *number);

/* Converts for PyArg_ParseTuple (O&): a number that no int holds becomes one that `check_size_in_range` refuses
 * too. */
int to_size(PyObject *given, void *size);

/* The number is from least to most. */
int check_size_in_range(int number, int least, int most, const char *name, const char *unit);

/* The text is not longer than this. */
int check_text_length(const Py_buffer *text, int most, const char *name);

/* The key is not empty, and not longer than this. */
int check_key_length(const Py_buffer *key, int most);

/* Releases a view, if there is one. */
void release_buffer(Py_buffer *text);

/* Sets the exception and returns NULL. */
PyObject *raise_exception(PyObject *exception, const char *why);

/* ---- Locks. A lock is held while a call works on a state, since an update of many bytes lets other
 * threads run, and without the GIL all run at once. A lock that is NULL is one that nobody needs
 * yet. */

void acquire_lock(PyThread_type_lock lock);
void release_lock(PyThread_type_lock lock);

/* ---- What a module keeps, one in each interpreter. */

typedef struct classes {
    PyObject *invalid_tag;
} classes;

/* The digits of at most 64 bytes, as a string. */
PyObject *hex_string_of(const uint8_t *bytes, Py_ssize_t length);

/* ---- library.c: the classes of hashes and MACs, whose class this is. */
int add_hash_types(PyObject *module, PyObject *type_of_types);

/* ---- several.c: the functions of several messages and of several hash objects, for the module. */
extern PyMethodDef several_functions[];

/* ---- trees.c: the functions of the tree of two levels, for the module, and its classes. */
extern PyMethodDef tree_functions[];
int add_tree_types(PyObject *module);

/* ---- by_threads.c. Each returns 0, or -1 with an exception, and lets other threads of Python run meanwhile. A signal
 * whose handler raises ends the work. The number of threads is that of vulfsjor_threads.h. */

/* Writes the root of the bytes in a tree like this one. */
int root_by_threads(const vulfsjor_tree_state *tree, uint8_t *out, const Py_buffer *view, unsigned threads);

/* The same of a regular file, whose first `length` bytes are hashed. `progress`, if it is not NULL, is called with the
 * number of bytes so far. The position of the file is neither used nor changed. Exceptions have the path. */
int root_of_regular_file(const vulfsjor_tree_state *tree, uint8_t *out, int file, uint64_t length, unsigned threads,
                         PyObject *path, PyObject *progress);

/* Absorbs the bytes. After an exception the state is of no use. */
int update_tree_by_threads(vulfsjor_tree_state *tree, const Py_buffer *view, unsigned threads);

/* ---- xof.c: the classes of BLAKE2X, whose class this is, and derive_key, for the module. */
int add_output_types(PyObject *module, PyObject *type_of_types);

#endif
