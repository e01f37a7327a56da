/* The module: its classes and functions, what it says of itself, and whether the processor runs it. */
#include "library.h"

#if defined __x86_64__ && !defined VULFSJOR_PORTABLE
#include <cpuid.h>
#endif

/* The class of these classes, so that no program changes them. (The limited API can't set the flag
 * of immutable types on one that has constants.) */
static int refuse_attribute(PyObject *type, PyObject *name, PyObject *value) {
    (void)type, (void)value;
    PyErr_Format(PyExc_TypeError, "cannot set %R attribute of immutable type", name);
    return -1;
}
static PyType_Slot slots_of_types[] = {{Py_tp_setattro, refuse_attribute}, {0, NULL}};
static PyType_Spec spec_of_types = {"vulfsjor._type", 0, 0, Py_TPFLAGS_DEFAULT, slots_of_types};

/* The class of the exception of a wrong tag, or NULL with an exception. */
static PyObject *add_invalid_tag(PyObject *module) {
    PyObject *type = PyErr_NewExceptionWithDoc("vulfsjor.InvalidTag",
                                               "The tag of a message is wrong: see verify.",
                                               PyExc_ValueError, NULL);
    if (type && PyModule_AddObjectRef(module, "InvalidTag", type)) Py_CLEAR(type);
    return type;
}

/* The version of the library that is inside: 0, or -1 with an exception. */
static int add_version(PyObject *module) {
    uint32_t version = vulfsjor_version();
    PyObject *text =
        PyUnicode_FromFormat("%u.%u.%u", version >> 16, version >> 8 & 255, version & 255);
    int status = text ? PyModule_AddObjectRef(module, "__version__", text) : -1;
    Py_XDECREF(text);
    return status;
}

/* The line of dist/MANIFEST for the text that runs here: 0, or -1 with an exception. */
static int add_build(PyObject *module) {
    return PyModule_AddStringConstant(module, "__build__", vulfsjor_build());
}

#if defined __x86_64__ && !defined VULFSJOR_PORTABLE
/* Whether the processor has all of x86-64-v2. Where it has not, the first call of the library would
 * end the program (choose.c). */
static int is_supported(void) {
    const unsigned v2 =
        bit_SSE3 | bit_SSSE3 | bit_CMPXCHG16B | bit_SSE4_1 | bit_SSE4_2 | bit_POPCNT;
    unsigned a, b, first, extended, d;
    return __get_cpuid(1, &a, &b, &first, &d) && (first & v2) == v2 &&
           __get_cpuid(0x80000001u, &a, &b, &extended, &d) && extended & bit_LAHF_LM;
}
#else
static int is_supported(void) { return 1; }
#endif

static int ask_processor(PyObject *module) {
    (void)module;
    if (is_supported()) return 0;
    PyErr_SetString(PyExc_ImportError,
                    "vulfsjor needs a processor of x86-64-v2, with SSE4.2 and POPCNT");
    return -1;
}

static int fill_module(PyObject *module) {
    PyObject *types = PyType_FromSpecWithBases(&spec_of_types, (PyObject *)&PyType_Type);
    classes *own = PyModule_GetState(module);
    int failed;
    if (!types) return -1;
    failed = !(own->invalid_tag = add_invalid_tag(module)) || add_hash_types(module, types) ||
             add_version(module) || add_build(module) || PyModule_AddFunctions(module, tree_functions) ||
             add_tree_types(module) || add_output_types(module, types);
    Py_DECREF(types);
    return failed ? -1 : 0;
}

static int visit_classes(PyObject *module, visitproc visit, void *arg) {
    classes *own = PyModule_GetState(module);
    Py_VISIT(own->invalid_tag);
    return 0;
}

static int clear_classes(PyObject *module) {
    classes *own = PyModule_GetState(module);
    Py_CLEAR(own->invalid_tag);
    return 0;
}

static void free_classes(void *module) { clear_classes(module); }

/* The first two say that the module runs without the GIL, which Python knows from 3.13 on, and in
 * interpreters with a GIL each, from 3.12 on. They have their numbers here, since the limited API
 * of 3.11 has no names for them, and an earlier Python refuses them. */
static PyModuleDef_Slot module_slots[] = {
    {4, (void *)1}, {3, (void *)2}, {Py_mod_exec, ask_processor}, {Py_mod_exec, fill_module}, {0, NULL}};
static PyModuleDef module = {
    PyModuleDef_HEAD_INIT, "vulfsjor._library", "The functions of the package vulfsjor, in C.",
    sizeof(classes), several_functions, NULL, visit_classes, clear_classes, free_classes};

/* Every interpreter that loads the module writes the same pointer. */
PyMODINIT_FUNC PyInit__library(void) {
    module.m_slots = module_slots + (Py_Version < 0x030d0000) + (Py_Version < 0x030c0000);
    return PyModuleDef_Init(&module);
}
