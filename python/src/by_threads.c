/* Trees by several threads: the jobs of c/threads.c, which is a part of this file, since its own functions report
 * nothing about data in memory, and begin at the position of a file. Here each job has a callback, which lets Python
 * handle signals, in the thread that has called. */
#include "threads.c"

#include "library.h"

/* Before glibc 2.34 these three were in another library, which Python is linked with, by the same version that glibc
 * still has. So the module runs with an older glibc than the one that it was built with. */
#if defined __GLIBC__ && (defined __x86_64__ || defined __aarch64__)
#ifdef __x86_64__
#define OLDEST "GLIBC_2.2.5"
#else
#define OLDEST "GLIBC_2.17"
#endif
__asm__(".symver pthread_create, pthread_create@" OLDEST);
__asm__(".symver pthread_join, pthread_join@" OLDEST);
__asm__(".symver pthread_sigmask, pthread_sigmask@" OLDEST);
#endif

/* Whom a job reports to: a callback, or NULL, and the thread of Python that waits. */
typedef struct listener {
    PyObject *progress;
    PyThreadState *thread;
    uint64_t told; /* the last number */
} listener;

/* Handles signals, and then calls the callback. Not 0 if either has raised an exception, which ends the job. */
static int report_to_python(void *context, uint64_t count) {
    listener *to = context;
    PyObject *done = NULL;
    int failed;
    PyEval_RestoreThread(to->thread);
    failed = PyErr_CheckSignals();
    if (!failed && to->progress) {
        done = PyObject_CallFunction(to->progress, "K", (unsigned long long)count);
        failed = !done;
        Py_XDECREF(done);
    }
    to->told = count;
    to->thread = PyEval_SaveThread();
    return failed;
}

/* A job for a message under the parameters of a tree, without bytes. */
static job tree_job_of(const vulfsjor_tree_state *tree, listener *to) {
    return (job){.salt = tree->salt, .personal = tree->personal, .saltlen = (size_t)tree->salt_length,
                 .personallen = (size_t)tree->personal_length, .leaf_length = vulfsjor_tree_leaf_length(tree),
                 .gate = GATE, .progress = report_to_python, .context = to};
}

/* The next two begin and end what runs without the GIL. */
static int release_gil_for_job(listener *to) {
    to->thread = PyEval_SaveThread();
    return disable_cancellation();
}

static void retake_gil_and_cancellation(listener *to, int before) {
    restore_cancellation(before);
    PyEval_RestoreThread(to->thread);
}

/* 0, or -1 with the exception of the callback or of this error. */
static int raise_error(int error) {
    if (PyErr_Occurred()) return -1;
    if (error == ENOMEM) PyErr_NoMemory();
    else if (error) PyErr_SetString(PyExc_OverflowError, "2^58 bytes or more");
    return error ? -1 : 0;
}

/* The same of a file. */
static int raise_error_of_file(int error, int file, uint64_t length, PyObject *path) {
    const char *shorter = "the file became shorter while it was read";
    unsigned char last;
    PyObject *exception;
    if (PyErr_Occurred() || !error || error == ENOMEM || error == EFBIG) return raise_error(error);
    if (error == EIO && !read_from(file, &last, 1, length - 1)) {
        exception = PyObject_CallFunction(PyExc_OSError, "isO", error, shorter, path);
        if (exception) PyErr_SetObject(PyExc_OSError, exception);
        Py_XDECREF(exception);
    } else {
        errno = error;
        PyErr_SetFromErrnoWithFilenameObject(PyExc_OSError, path);
    }
    return -1;
}

int root_by_threads(const vulfsjor_tree_state *tree, uint8_t *out, const Py_buffer *view, unsigned threads) {
    listener to = {0};
    job j = tree_job_of(tree, &to);
    int before = release_gil_for_job(&to), error;
    j.bytes = vulfsjor_text(view->buf);
    error = root_of_bytes(&j, out, vulfsjor_tree_digest_size(tree), (size_t)view->len, threads);
    retake_gil_and_cancellation(&to, before);
    return raise_error(error);
}

int root_of_regular_file(const vulfsjor_tree_state *tree, uint8_t *out, int file, uint64_t length, unsigned threads,
                         PyObject *path, PyObject *progress) {
    const size_t size = vulfsjor_tree_digest_size(tree);
    listener to = {.progress = progress};
    job j = tree_job_of(tree, &to);
    int before = release_gil_for_job(&to), error = EFBIG;
    j.file = file;
    if (!plan_message(&j, 0, length, threads)) error = hash_leaves_into_root(&j, size);
    if (!error && to.told < length) error = report_progress(&j, length); /* other threads have hashed the last bytes */
    if (!error) error = finalize_root(&j, out, size);
    retake_gil_and_cancellation(&to, before);
    return raise_error_of_file(error, file, length, path);
}

int update_tree_by_threads(vulfsjor_tree_state *tree, const Py_buffer *view, unsigned threads) {
    listener to = {0};
    job j = tree_job_of(tree, &to);
    int before = release_gil_for_job(&to), error;
    j.state = tree;
    j.bytes = vulfsjor_text(view->buf);
    error = absorb_bytes_by_threads(&j, tree, (size_t)view->len, threads);
    retake_gil_and_cancellation(&to, before);
    return raise_error(error);
}
