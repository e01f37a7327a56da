/* What the other files call for arguments, locks and results: see library.h. */
#include "library.h"

int view_of(PyObject *data, Py_buffer *view) {
    if (PyUnicode_Check(data)) {
        PyErr_SetString(PyExc_TypeError, "Strings must be encoded before hashing");
        return -1;
    }
    if (!PyObject_CheckBuffer(data)) {
        PyErr_SetString(PyExc_TypeError, "object supporting the buffer API required");
        return -1;
    }
    if (PyObject_GetBuffer(data, view, PyBUF_SIMPLE)) return -1;
    if (view->ndim <= 1) return 0;
    PyBuffer_Release(view);
    PyErr_SetString(PyExc_BufferError, "Buffer must be single dimension");
    return -1;
}

int to_number_in_range(PyObject *given, uint64_t least, uint64_t most, const char *name, uint64_t *number) {
    if (!PyLong_Check(given) || PyBool_Check(given)) {
        PyErr_Format(PyExc_TypeError, "%s must be an integer", name);
        return -1;
    }
    *number = PyLong_AsUnsignedLongLong(given);
    if (!PyErr_Occurred() && least <= *number && *number <= most) return 0;
    PyErr_Format(PyExc_ValueError, "%s must be between %llu and %llu", name,
                 (unsigned long long)least, (unsigned long long)most);
    return -1;
}

int to_size(PyObject *given, void *size) {
    Py_ssize_t number = PyNumber_AsSsize_t(given, NULL);
    if (number == -1 && PyErr_Occurred()) return 0;
    if (PyBool_Check(given)) {
        PyErr_SetString(PyExc_TypeError, "digest_size must be an integer");
        return 0;
    }
    *(int *)size = number < 0 ? -1 : number > INT_MAX ? INT_MAX : (int)number;
    return 1;
}

int check_size_in_range(int number, int least, int most, const char *name, const char *unit) {
    if (least <= number && number <= most) return 0;
    PyErr_Format(PyExc_ValueError, "%s must be between %d and %d%s", name, least, most, unit);
    return -1;
}

int check_text_length(const Py_buffer *text, int most, const char *name) {
    if (text->len <= most) return 0;
    PyErr_Format(PyExc_ValueError, "maximum %s length is %d bytes", name, most);
    return -1;
}

int check_key_length(const Py_buffer *key, int most) {
    if (1 <= key->len && key->len <= most) return 0;
    PyErr_Format(PyExc_ValueError, "key must have between 1 and %d bytes", most);
    return -1;
}

void release_buffer(Py_buffer *text) {
    if (text->obj) PyBuffer_Release(text);
}

PyObject *raise_exception(PyObject *exception, const char *why) {
    PyErr_SetString(exception, why);
    return NULL;
}

void acquire_lock(PyThread_type_lock lock) {
    if (lock && !PyThread_acquire_lock(lock, 0)) {
        Py_BEGIN_ALLOW_THREADS
        PyThread_acquire_lock(lock, 1);
        Py_END_ALLOW_THREADS
    }
}

void release_lock(PyThread_type_lock lock) {
    if (lock) PyThread_release_lock(lock);
}

PyObject *hex_string_of(const uint8_t *bytes, Py_ssize_t length) {
    char digits[128];
    for (Py_ssize_t i = 0; i < length; i++) {
        digits[2 * i] = "0123456789abcdef"[bytes[i] >> 4];
        digits[2 * i + 1] = "0123456789abcdef"[bytes[i] & 15];
    }
    return PyUnicode_FromStringAndSize(digits, 2 * length);
}
