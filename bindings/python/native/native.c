/* skewguard._native: the implementation in C. */
#include "helpers.h"
#include "objects.h"

#include <dlfcn.h>

Helpers helpers;
Found found;
unsigned process;

PyObject *raise_status(int32_t status, const Reply *reply, PyObject *detail)
{
    return raise_in(Py_None, status, reply, detail);
}

PyObject *raise_in(PyObject *engine, int32_t status, const Reply *reply, PyObject *detail)
{
    const char *bytes = reply ? (const char *)reply->bytes : "";
    Py_ssize_t length = reply ? (Py_ssize_t)reply->length : 0;
    PyObject *error = PyObject_CallFunction(helpers.error_of, "iy#OO", (int)status, bytes, length,
                                            detail ? detail : Py_None, engine);
    if (error)
        PyErr_SetObject((PyObject *)Py_TYPE(error), error);
    Py_XDECREF(error);
    return NULL;
}

/* A function of a file by its name; 0 with AttributeError. */
static int find(void *file, const char *name, void *function)
{
    void *there = dlsym(file, name);
    if (there)
        memcpy(function, &there, sizeof there);
    else
        PyErr_SetString(PyExc_AttributeError, dlerror());
    return there != NULL;
}

/* load(path): the library of a file. Raises OSError where it is none, and AttributeError where it is another one. */
static PyObject *load(PyObject *module, PyObject *args)
{
    const char *path;
    void *file;
    Found there = {0};
    (void)module;
    if (!PyArg_ParseTuple(args, "s", &path))
        return NULL;
    file = dlopen(path, RTLD_NOW | RTLD_LOCAL);
    if (!file) {
        PyErr_SetString(PyExc_OSError, dlerror());
        return NULL;
    }
    if (!find(file, "skewguard_library_open", &there.open) || !find(file, "skewguard_library_draw", &there.draw)
        || !find(file, "skewguard_library_call", &there.plain.call)
        || !find(file, "skewguard_library_close", &there.plain.close)
        || !find(file, "skewguard_journal_open", &there.open_journal)
        || !find(file, "skewguard_journal_failure", &there.failure)
        || !find(file, "skewguard_journal_call", &there.traced.call)
        || !find(file, "skewguard_journal_start", &there.journaled.call)
        || !find(file, "skewguard_journal_take", &there.journaled.take)
        || !find(file, "skewguard_journal_make", &there.journaled.make)
        || !find(file, "skewguard_journal_made", &there.journaled.made)
        || !find(file, "skewguard_journal_checkpoint", &there.journaled.checkpoint)
        || !find(file, "skewguard_journal_checkpoint_bytes", &there.journaled.checkpoint_bytes)
        || !find(file, "skewguard_journal_close", &there.journaled.close)) {
        dlclose(file);
        return NULL;
    }
    there.traced.checkpoint = there.journaled.checkpoint;
    there.traced.checkpoint_bytes = there.journaled.checkpoint_bytes;
    there.traced.close = there.journaled.close;
    found = there;
    return none();
}

/* draw(request): why a text was refused, drawn in it. Empty where that is not known, or there is no memory for it. */
static PyObject *draw(PyObject *module, PyObject *args)
{
    const char *request;
    Py_ssize_t length;
    PyObject *drawn;
    Reply reply;
    (void)module;
    if (!PyArg_ParseTuple(args, "y#", &request, &length))
        return NULL;
    reply_start(&reply, 0);
    Py_BEGIN_ALLOW_THREADS
    reply_draw(&reply, found.draw, (const unsigned char *)request, (size_t)length);
    Py_END_ALLOW_THREADS
    drawn = PyUnicode_DecodeUTF8((const char *)reply.bytes, (Py_ssize_t)reply.length, "replace");
    reply_end(&reply);
    return drawn;
}

/* use(error_of=, ..): what is Python's. */
static PyObject *use(PyObject *module, PyObject *args, PyObject *kwargs)
{
    static char *names[] = {"error_of", "parameter_bytes", "text_bytes", "taken", "row_type", "tell",
                            "checked_retry", "result", "transaction", NULL};
    Helpers given;
    (void)module;
    if (!PyArg_ParseTupleAndKeywords(args, kwargs, "OOOOOOOO!O!", names, &given.error_of, &given.parameter_bytes,
                                     &given.text_bytes, &given.taken, &given.row_type, &given.tell,
                                     &given.checked_retry, &PyType_Type, &given.result.type, &PyType_Type,
                                     &given.transaction.type))
        return NULL;
    given.result.allocate = (allocfunc)PyType_GetSlot(given.result.type, Py_tp_alloc);
    given.transaction.allocate = (allocfunc)PyType_GetSlot(given.transaction.type, Py_tp_alloc);
    Py_INCREF(args); /* they stay for as long as the process runs */
    Py_XINCREF(kwargs);
    helpers = given;
    return none();
}

static void note_fork(void)
{
    process++;
}

static PyMethodDef functions[] = {
    {"load", load, METH_VARARGS, NULL},
    {"draw", draw, METH_VARARGS, NULL},
    {"use", (PyCFunction)(void (*)(void))use, METH_VARARGS | METH_KEYWORDS, NULL},
    {NULL, NULL, 0, NULL},
};

static struct PyModuleDef definition = {
    PyModuleDef_HEAD_INIT, "skewguard._native", NULL, -1, functions, NULL, NULL, NULL, NULL,
};

static int add_type(PyObject *module, const char *name, PyType_Spec *spec)
{
    PyObject *type = PyType_FromSpec(spec);
    if (type && !PyModule_AddObject(module, name, type))
        return 1;
    Py_XDECREF(type);
    return 0;
}

PyMODINIT_FUNC PyInit__native(void)
{
    PyObject *module = PyModule_Create(&definition);
    if (!module)
        return NULL;
    if (make_words() && add_type(module, "Engine", &engine_spec)
        && add_type(module, "Transaction", &transaction_spec) && add_type(module, "Answer", &answer_spec)
        && !pthread_atfork(NULL, NULL, note_fork))
        return module;
    Py_DECREF(module);
    return NULL;
}
