/* Engine: an opened library. */
#include "objects.h"

#include "helpers.h"

/* ---- its lock, and the trace */

PyObject *none(void)
{
    Py_INCREF(Py_None);
    return Py_None;
}

int32_t call_fault(const EngineObject *it)
{
    if (it->process != process)
        return IS_OF_PARENT;
    return it->is_telling && it->teller == PyThread_get_thread_ident() ? IS_CALLING : 0;
}

int may_call(const EngineObject *it)
{
    int32_t fault = call_fault(it);
    if (fault)
        raise_status(fault, NULL, NULL);
    return !fault;
}

int32_t enter(EngineObject *it)
{
    PyThreadState *thread = PyEval_SaveThread();
    int32_t status = engine_lock(&it->engine);
    if (!status) {
        it->thread = thread;
        status = engine_settle(&it->engine);
        if (status)
            engine_unlock(&it->engine);
    }
    if (status)
        PyEval_RestoreThread(thread);
    return status;
}

int32_t leave(EngineObject *it, Reply *reply, int32_t status)
{
    PyThreadState *thread = it->thread; /* another thread may have the lock while this one waits for a sync */
    int error = engine_keep(&it->engine);
    engine_unlock(&it->engine);
    PyEval_RestoreThread(thread);
    if (!error)
        return status;
    reply_fail(reply, &found, error);
    return SKEWGUARD_IO_ERROR;
}

/* An interrupt in the trace, or in one before it, is raised once the call is over. */
static void tell(Engine *engine, skewguard_text line)
{
    EngineObject *it = (EngineObject *)((char *)engine - offsetof(EngineObject, engine));
    PyEval_RestoreThread(it->thread);
    if (!PyErr_Occurred() && it->trace) {
        it->is_telling = 1;
        it->teller = PyThread_get_thread_ident();
        Py_XDECREF(PyObject_CallFunction(helpers.tell, "Os#", it->trace, line.bytes, (Py_ssize_t)line.length));
        it->is_telling = 0;
    }
    it->thread = PyEval_SaveThread();
}

/* ---- how it is opened and closed, and its calls */

/* What became of the definitions: the library has them, and is the one that this was written for. */
static int is_opened(EngineObject *it, PyObject *definitions)
{
    Reply reply;
    skewguard_reader reader;
    int32_t status;
    reply_start(&reply, 0);
    status = engine_ask(&it->engine, &reply, SKEWGUARD_DO_AGAIN, (const unsigned char *)"", 0);
    reader = reply_reader(&reply);
    if (status == SKEWGUARD_REPLY_WAITS)
        status = SKEWGUARD_NO_MEMORY;
    if (status == SKEWGUARD_DONE
        && (reply_kind(&reply) != SKEWGUARD_OPENED || skewguard_read_number(&reader) != SKEWGUARD_LAYOUT))
        status = IS_OTHER_LIBRARY;
    if (status)
        raise_status(status, &reply, definitions);
    reply_end(&reply);
    return !status;
}

/* Raises that a journal's file was not opened, for this errno. */
static void raise_io_error(int error)
{
    Reply reply;
    reply_start(&reply, 0);
    reply_fail(&reply, &found, error);
    raise_status(reply.status, &reply, NULL);
    reply_end(&reply);
}

/* Opens the library, over the journal in the file of this name where one is given. */
static int open_engine(EngineObject *it, const char *request, Py_ssize_t length, PyObject *definitions,
                       const char *path)
{
    int32_t status;
    int error = 0;
    if (!found.open) {
        PyErr_SetString(PyExc_RuntimeError, "no library is loaded");
        return 0;
    }
    it->engine.library = !path ? &found.plain : it->trace ? &found.traced : &found.journaled;
    Py_BEGIN_ALLOW_THREADS
    if (path)
        status = found.open_journal(path, (const unsigned char *)request, (size_t)length, &it->engine.handle, &error);
    else
        status = found.open((const unsigned char *)request, (size_t)length, &it->engine.handle);
    Py_END_ALLOW_THREADS
    if (!status)
        return is_opened(it, definitions);
    it->engine.handle = NULL;
    if (status == SKEWGUARD_IO_ERROR)
        raise_io_error(error);
    else
        raise_status(SKEWGUARD_NO_MEMORY, NULL, NULL);
    return 0;
}

/* Engine(request, definitions, trace, path): the request holds the definitions; path is the name of a journal's file in
 * bytes, or None. */
static PyObject *engine_new(PyTypeObject *type, PyObject *args, PyObject *kwargs)
{
    const char *request, *path;
    Py_ssize_t length, path_length;
    PyObject *definitions, *trace;
    EngineObject *it;
    (void)kwargs;
    if (!PyArg_ParseTuple(args, "y#OOz#", &request, &length, &definitions, &trace, &path, &path_length))
        return NULL;
    it = (EngineObject *)((allocfunc)PyType_GetSlot(type, Py_tp_alloc))(type, 0);
    if (!it)
        return NULL;
    pthread_mutex_init(&it->engine.lock, NULL);
    pthread_cond_init(&it->engine.synced, NULL);
    it->process = process;
    if (trace != Py_None) {
        Py_INCREF(it->trace = trace);
        it->engine.tell = tell;
    }
    if (!statements_start(&it->statements) || !open_engine(it, request, length, definitions, path)) {
        Py_DECREF(it);
        return NULL;
    }
    return (PyObject *)it;
}

static int engine_traverse(PyObject *self, visitproc visit, void *arg)
{
    EngineObject *it = (EngineObject *)self;
    Py_VISIT(Py_TYPE(self));
    Py_VISIT(it->trace);
    return 0;
}

static int engine_clear(PyObject *self)
{
    Py_CLEAR(((EngineObject *)self)->trace);
    return 0;
}

/* Closes the library. In the child of a fork it is left as it is: threads of the parent may have been changing it. */
static void close_handle(EngineObject *it, void *handle)
{
    if (!handle || it->process != process)
        return;
    Py_BEGIN_ALLOW_THREADS
    it->engine.library->close(handle);
    Py_END_ALLOW_THREADS
}

static void engine_dealloc(PyObject *self)
{
    EngineObject *it = (EngineObject *)self;
    PyTypeObject *type = Py_TYPE(self);
    PyObject_GC_UnTrack(self);
    close_handle(it, it->engine.handle);
    statements_end(&it->statements);
    Py_XDECREF(it->trace);
    pthread_cond_destroy(&it->engine.synced);
    pthread_mutex_destroy(&it->engine.lock);
    ((freefunc)PyType_GetSlot(type, Py_tp_free))(self);
    Py_DECREF(type);
}

/* _call(operation, request, text): the reply's bytes. A fault in the text is shown in it. */
static PyObject *engine_call(PyObject *self, PyObject *args)
{
    EngineObject *it = (EngineObject *)self;
    unsigned operation;
    const char *request;
    Py_ssize_t length;
    PyObject *text, *answer = NULL;
    Reply reply;
    int32_t status;
    if (!PyArg_ParseTuple(args, "Iy#O", &operation, &request, &length, &text) || !may_call(it))
        return NULL;
    reply_start(&reply, 0);
    status = enter(it);
    if (!status) {
        status = engine_ask(&it->engine, &reply, operation, (const unsigned char *)request, (size_t)length);
        status = leave(it, &reply, status);
    }
    if (status)
        raise_status(status, &reply, text);
    else if (!PyErr_Occurred())
        answer = PyBytes_FromStringAndSize((const char *)reply.bytes, (Py_ssize_t)reply.length);
    reply_end(&reply);
    return answer;
}

/* _shorten(): puts an image in the place of a journal's file. */
static PyObject *engine_shorten_method(PyObject *self, PyObject *nothing)
{
    EngineObject *it = (EngineObject *)self;
    PyThreadState *thread;
    int32_t status;
    int error;
    (void)nothing;
    if (!may_call(it))
        return NULL;
    status = enter(it);
    if (status) {
        raise_status(status, NULL, NULL);
        return NULL;
    }
    thread = it->thread; /* as in `leave` */
    error = engine_shorten(&it->engine);
    engine_unlock(&it->engine);
    PyEval_RestoreThread(thread);
    if (error)
        raise_io_error(error);
    return error ? NULL : none();
}

/* _set_checkpoint_bytes(bytes): how long the commits in a journal's file may become. It is new, and nobody calls it. */
static PyObject *engine_set_checkpoint_bytes(PyObject *self, PyObject *args)
{
    Engine *engine = &((EngineObject *)self)->engine;
    unsigned long long bytes;
    if (!PyArg_ParseTuple(args, "K", &bytes))
        return NULL;
    if (engine->library->checkpoint_bytes)
        engine->library->checkpoint_bytes(engine->handle, bytes);
    return none();
}

static PyObject *engine_close(PyObject *self, PyObject *nothing)
{
    EngineObject *it = (EngineObject *)self;
    void *handle;
    PyThreadState *thread;
    (void)nothing;
    if (it->process == process) {
        if (!may_call(it))
            return NULL;
        if (!enter(it)) {
            thread = it->thread;
            handle = engine_take(&it->engine);
            engine_unlock(&it->engine);
            PyEval_RestoreThread(thread);
            close_handle(it, handle);
        }
    }
    return PyErr_Occurred() ? NULL : none();
}

static PyObject *engine_closed(PyObject *self, void *closure)
{
    EngineObject *it = (EngineObject *)self;
    (void)closure;
    return PyBool_FromLong(!it->engine.handle || it->process != process);
}

/* transaction(*, read_only=False, retry=0, session=None) */
static PyObject *engine_transaction(PyObject *self, PyObject *args, PyObject *kwargs)
{
    static char *names[] = {"read_only", "retry", "session", NULL};
    PyObject *made, *retry = NULL, *name = Py_None;
    int is_read_only = 0;
    if (!kwargs && !PyTuple_Size(args)) /* as most often, and less work than the general way */
        return new_transaction((EngineObject *)self, 0, Py_None, zero);
    if (!PyArg_ParseTupleAndKeywords(args, kwargs, "|$pOO:transaction", names, &is_read_only, &retry, &name))
        return NULL;
    retry = retry ? PyObject_CallFunctionObjArgs(helpers.checked_retry, retry, NULL) : zero;
    if (!retry)
        return NULL;
    made = new_transaction((EngineObject *)self, is_read_only, name, retry);
    if (retry != zero)
        Py_DECREF(retry);
    return made;
}

/* _transact(steps, name): a list of tuples, each of a text, which is a str, and of values as a list or a tuple. */
static PyObject *engine_transact_method(PyObject *self, PyObject *args)
{
    PyObject *steps, *name;
    if (!PyArg_ParseTuple(args, "O!O", &PyList_Type, &steps, &name) || !may_call((EngineObject *)self))
        return NULL;
    return transact((EngineObject *)self, steps, name);
}

static PyMethodDef engine_methods[] = {
    {"transaction", (PyCFunction)(void (*)(void))engine_transaction, METH_VARARGS | METH_KEYWORDS,
     "transaction($self, /, *, read_only=False, retry=0, session=None)\n--\n\n"
     "A transaction for a `with` block, or around a function.\n\n"
     "    with manager.transaction() as t:\n"
     "        t.execute(\"UPDATE DUTY SET ONCALL = 0 WHERE DOCTOR = ?\", [\"KIM\"])\n\n"
     "It begins with the block, commits at its end, and is rolled back where an exception leaves the block. The\n"
     "COMMIT may raise RuleViolated, SerializationFailure, EpochFull and NoMemory; the transaction has ended then.\n\n"
     "    @manager.transaction(retry=3)\n"
     "    def leave(t, doctor):\n"
     "        t.execute(\"UPDATE DUTY SET ONCALL = 0 WHERE DOCTOR = ?\", [doctor])\n\n"
     "The function is then called as `leave(\"KIM\")`, in a transaction of its own each time, as by `run`.\n\n"
     "read_only: INSERT, UPDATE and DELETE are refused, and the transaction is refused less often.\n"
     "retry: how many times more the function is run where others were in its way. A `with` block can't be run again,\n"
     "    so for one there is no retry.\n"
     "session: the name under which the report tells of it, of any number of names; without one the manager gives it\n"
     "    one. 256 transactions may be open at once, and one more is an OperationalError (number 24)."},
    {"_call", engine_call, METH_VARARGS, NULL},
    {"_transact", engine_transact_method, METH_VARARGS, NULL},
    {"_shorten", engine_shorten_method, METH_NOARGS, NULL},
    {"_set_checkpoint_bytes", engine_set_checkpoint_bytes, METH_VARARGS, NULL},
    {"close", engine_close, METH_NOARGS,
     "Gives the memory back. Open transactions are lost. Later calls raise InterfaceError, but for this one."},
    {NULL, NULL, 0, NULL},
};

static PyObject *engine_transactions(PyObject *self, void *closure)
{
    (void)closure;
    return PyLong_FromSize_t(engine_open_transactions(&((EngineObject *)self)->engine));
}

static PyObject *engine_is_calling(PyObject *self, void *closure)
{
    (void)closure;
    return PyBool_FromLong(call_fault((EngineObject *)self) == IS_CALLING);
}

static PyGetSetDef engine_properties[] = {
    {"_open_transactions", engine_transactions, NULL, NULL, NULL},
    {"_is_calling", engine_is_calling, NULL, NULL, NULL},
    {"closed", engine_closed, NULL, "Whether the manager was closed.", NULL},
    {NULL, NULL, NULL, NULL, NULL},
};

static PyType_Slot engine_slots[] = {
    {Py_tp_new, engine_new},
    {Py_tp_dealloc, engine_dealloc},
    {Py_tp_traverse, engine_traverse},
    {Py_tp_clear, engine_clear},
    {Py_tp_methods, engine_methods},
    {Py_tp_getset, engine_properties},
    {0, NULL},
};

PyType_Spec engine_spec = {
    "skewguard._native.Engine",
    sizeof(EngineObject),
    0,
    Py_TPFLAGS_DEFAULT | Py_TPFLAGS_BASETYPE | Py_TPFLAGS_HAVE_GC,
    engine_slots,
};
