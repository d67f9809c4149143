/* Transaction: statements in a session of an engine. */
#include "objects.h"

#include "helpers.h"

/* How a transaction stands. _refusals.py has the words. */
typedef enum State {
    NOT_BEGUN,
    IS_OPEN,
    HAS_COMMITTED,
    WAS_ROLLED_BACK,
    WAS_REFUSED,
    HAS_ENDED,
    WAS_LOST,
    WAS_INTERRUPTED
} State;

typedef struct TransactionObject {
    PyObject_HEAD
    EngineObject *engine;
    PyObject *name, *retry;
    char is_read_only;
    atomic_int state;
    Session *session;
    uint64_t snapshot, number;
    PyObject *weak_references;
} TransactionObject;

/* ---- how it ends */

static uint64_t first_number(const Reply *reply)
{
    skewguard_reader reader = reply_reader(reply);
    return skewguard_read_number(&reader);
}

static void end(TransactionObject *it, State state)
{
    atomic_store(&it->state, state);
    engine_end(it->session);
}

/* The same where nobody can tell what the library has of it: the next call rolls it back. */
static void give_up(TransactionObject *it, State state)
{
    atomic_store(&it->state, state);
    engine_forget(&it->engine->engine, it->session);
}

/* A refusal of COMMIT for others, for an assertion or for a full epoch has ended the transaction. */
static int is_ending(const Reply *reply)
{
    skewguard_reader reader = reply_reader(reply);
    uint64_t number = skewguard_read_number(&reader);
    skewguard_text state = skewguard_read_text(&reader);
    return number == SKEWGUARD_FAULT_EPOCH_FULL
        || (state.length == 5 && (!memcmp(state.bytes, "40001", 5) || !memcmp(state.bytes, "40002", 5)));
}

/* Notes by a reply whether a transaction has ended. */
static void note(TransactionObject *it, const Reply *reply)
{
    if (reply->status == SKEWGUARD_REPLY_WAITS) {
        give_up(it, WAS_LOST);
    } else if (reply->status == SKEWGUARD_IO_ERROR) {
        end(it, WAS_LOST); /* nothing is answered any more */
    } else if (reply_kind(reply) == SKEWGUARD_COMMITTED) {
        it->number = first_number(reply);
        end(it, HAS_COMMITTED);
    } else if (reply_kind(reply) == SKEWGUARD_ROLLED_BACK) {
        end(it, WAS_ROLLED_BACK);
    } else if (reply_kind(reply) == SKEWGUARD_REFUSAL) {
        if (is_ending(reply))
            end(it, WAS_REFUSED);
        else if (first_number(reply) == SKEWGUARD_FAULT_NO_TRANSACTION)
            end(it, HAS_ENDED);
    }
}

/* The same as leave. Of a transaction nothing is known any more where the sync behind a call failed. */
static int32_t leave_as(TransactionObject *it, Reply *reply, int32_t status)
{
    int32_t kept = leave(it->engine, reply, status);
    if (kept != status)
        atomic_store(&it->state, WAS_LOST);
    return kept;
}

static PyObject *raise_of(TransactionObject *it, int32_t status, const Reply *reply, PyObject *text)
{
    PyObject *state;
    if (status != IS_ENDED)
        return raise_in((PyObject *)it->engine, status, reply, text);
    state = PyLong_FromLong(atomic_load(&it->state));
    if (state)
        raise_status(IS_ENDED, NULL, state);
    Py_XDECREF(state);
    return NULL;
}

/* COMMIT or ROLLBACK, of one that has to be open. */
static int32_t finish(TransactionObject *it, Reply *reply, uint32_t operation)
{
    int32_t status = enter(it->engine);
    if (status)
        return status;
    if (atomic_load(&it->state) == IS_OPEN) {
        status = engine_event_of(&it->engine->engine, reply, operation, it->session);
        note(it, reply);
    } else {
        status = IS_ENDED;
    }
    return leave_as(it, reply, status);
}

/* 0 with a Python exception. */
static int finish_or_raise(TransactionObject *it, uint32_t operation)
{
    Reply reply;
    int32_t status;
    if (!may_call(it->engine))
        return 0;
    reply_start(&reply, 0);
    status = finish(it, &reply, operation);
    if (status && !PyErr_Occurred())
        raise_of(it, status, &reply, NULL);
    reply_end(&reply);
    return !PyErr_Occurred();
}

/* ---- how it begins */

static PyObject *transaction_new(PyTypeObject *type, PyObject *args, PyObject *kwargs)
{
    (void)type, (void)args, (void)kwargs;
    PyErr_SetString(PyExc_TypeError, "a manager makes transactions");
    return NULL;
}

PyObject *new_transaction(EngineObject *engine, int is_read_only, PyObject *name, PyObject *retry)
{
    TransactionObject *it = (TransactionObject *)helpers.transaction.allocate(helpers.transaction.type, 0);
    if (!it)
        return NULL;
    Py_INCREF(engine);
    it->engine = engine;
    Py_INCREF(it->name = name);
    Py_INCREF(it->retry = retry);
    it->is_read_only = (char)is_read_only;
    return (PyObject *)it;
}

static int transaction_traverse(PyObject *self, visitproc visit, void *arg)
{
    Py_VISIT(Py_TYPE(self));
    Py_VISIT(((TransactionObject *)self)->engine);
    return 0;
}

static int raise_pending(void *error)
{
    PyErr_SetObject((PyObject *)Py_TYPE((PyObject *)error), error);
    Py_DECREF((PyObject *)error);
    return -1;
}

/* Raises an interrupt in the main thread once this is over, since Python drops what a finalizer raises. 0 where it
 * can't. */
static int raise_later(void)
{
    PyObject *type, *value, *traceback;
    int is_pending;
    PyErr_Fetch(&type, &value, &traceback);
    PyErr_NormalizeException(&type, &value, &traceback);
    is_pending = value && !Py_AddPendingCall(raise_pending, value);
    if (!is_pending) {
        PyErr_Restore(type, value, traceback);
        return 0;
    }
    Py_XDECREF(type);
    Py_XDECREF(traceback);
    return 1;
}

/* Warns of a forgotten transaction. Where warnings are errors it is shown, and stops nothing. */
static void warn(PyObject *self)
{
    PyObject *type, *value, *traceback;
    PyErr_Fetch(&type, &value, &traceback);
    if (PyErr_ResourceWarning(self, 1, "a transaction was forgotten, and is rolled back")
        && (PyErr_ExceptionMatches(PyExc_Exception) || !raise_later()))
        PyErr_WriteUnraisable(NULL);
    PyErr_Restore(type, value, traceback);
}

/* Where nobody has an open transaction any more, the next call rolls it back. */
static void transaction_finalize(PyObject *self)
{
    TransactionObject *it = (TransactionObject *)self;
    if (atomic_load(&it->state) != IS_OPEN)
        return;
    engine_forget(&it->engine->engine, it->session);
    atomic_store(&it->state, WAS_LOST);
    if (it->engine->engine.handle && it->engine->process == process)
        warn(self);
}

static void transaction_dealloc(PyObject *self)
{
    TransactionObject *it = (TransactionObject *)self;
    PyTypeObject *type = Py_TYPE(self);
    PyObject_GC_UnTrack(self);
    if (it->weak_references)
        PyObject_ClearWeakRefs(self);
    Py_XDECREF(it->engine);
    Py_XDECREF(it->name);
    Py_XDECREF(it->retry);
    ((freefunc)PyType_GetSlot(type, Py_tp_free))(self);
    Py_DECREF(type);
}

/* Begins, in the session of a name or, without one, in any. 0 with a Python exception. */
static int begin_in(TransactionObject *it, const char *name, size_t length)
{
    uint32_t operation = it->is_read_only ? SKEWGUARD_DO_BEGIN_READ_ONLY : SKEWGUARD_DO_BEGIN;
    Reply reply;
    int32_t status;
    reply_start(&reply, 0);
    status = enter(it->engine);
    if (!status) {
        status = engine_begin(&it->engine->engine, &reply, operation, name, length, &it->session);
        if (!status) {
            it->snapshot = first_number(&reply);
            atomic_store(&it->state, IS_OPEN);
        }
        status = leave_as(it, &reply, status);
    }
    if (status && !PyErr_Occurred())
        raise_status(status == SKEWGUARD_REPLY_WAITS ? SKEWGUARD_NO_MEMORY : status, &reply, it->name);
    else if (!status && PyErr_Occurred())
        give_up(it, WAS_INTERRUPTED); /* in the trace */
    reply_end(&reply);
    return !PyErr_Occurred();
}

static int begin(TransactionObject *it)
{
    const char *name;
    PyObject *bytes;
    int has_begun;
    if (!may_call(it->engine))
        return 0;
    if (it->name == Py_None)
        return begin_in(it, NULL, 0);
    bytes = PyObject_CallFunctionObjArgs(helpers.text_bytes, it->name, NULL);
    name = bytes ? PyBytes_AsString(bytes) : NULL;
    has_begun = name && begin_in(it, name, (size_t)PyBytes_Size(bytes));
    Py_XDECREF(bytes);
    return has_begun;
}

/* _begin(): begins, and gives the transaction itself. */
static PyObject *transaction_begin(PyObject *self, PyObject *nothing)
{
    (void)nothing;
    if (!begin((TransactionObject *)self))
        return NULL;
    Py_INCREF(self);
    return self;
}

static PyObject *transaction_enter(PyObject *self, PyObject *nothing)
{
    TransactionObject *it = (TransactionObject *)self;
    int may_retry = PyObject_IsTrue(it->retry);
    if (may_retry < 0)
        return NULL;
    if (may_retry)
        return raise_status(IS_RETRIED, NULL, NULL);
    if (atomic_load(&it->state) != NOT_BEGUN)
        return raise_status(IS_USED, NULL, NULL);
    return transaction_begin(self, nothing);
}

/* ---- how it is left */

/* Rolls back behind an exception, which goes on; but an interrupt in the trace takes its place. */
static void roll_back_quietly(TransactionObject *it)
{
    PyObject *type, *value, *traceback;
    Reply reply;
    PyErr_Fetch(&type, &value, &traceback);
    reply_start(&reply, 0);
    if (call_fault(it->engine))
        give_up(it, WAS_INTERRUPTED);
    else
        finish(it, &reply, SKEWGUARD_DO_ROLLBACK);
    reply_end(&reply);
    if (!PyErr_Occurred()) {
        PyErr_Restore(type, value, traceback);
        return;
    }
    Py_XDECREF(type);
    Py_XDECREF(value);
    Py_XDECREF(traceback);
}

/* __exit__(kind, value, traceback): COMMIT where the block came to its end; else, and where that finds no memory,
 * ROLLBACK. */
static PyObject *transaction_exit(PyObject *self, PyObject *args)
{
    TransactionObject *it = (TransactionObject *)self;
    PyObject *kind, *value, *traceback;
    if (!PyArg_UnpackTuple(args, "__exit__", 3, 3, &kind, &value, &traceback))
        return NULL;
    if (atomic_load(&it->state) == IS_OPEN && kind == Py_None)
        finish_or_raise(it, SKEWGUARD_DO_COMMIT);
    if (atomic_load(&it->state) == IS_OPEN)
        roll_back_quietly(it);
    return PyErr_Occurred() ? NULL : none();
}

static PyObject *transaction_commit(PyObject *self, PyObject *nothing)
{
    TransactionObject *it = (TransactionObject *)self;
    (void)nothing;
    return finish_or_raise(it, SKEWGUARD_DO_COMMIT) ? PyLong_FromUnsignedLongLong(it->number) : NULL;
}

static PyObject *transaction_rollback(PyObject *self, PyObject *nothing)
{
    (void)nothing;
    return finish_or_raise((TransactionObject *)self, SKEWGUARD_DO_ROLLBACK) ? none() : NULL;
}

/* ---- its statements */

/* Keeps a statement that was prepared, unless another thread has kept one of its text. The lock is held. */
static void keep(EngineObject *it, PyObject *text, const Reply *reply, Statement *gone)
{
    skewguard_reader reader = reply_reader(reply);
    uint64_t number = skewguard_read_number(&reader), parameters = skewguard_read_number(&reader);
    int is_kept;
    PyEval_RestoreThread(it->thread);
    is_kept = !statements_find(&it->statements, text) && !PyErr_Occurred()
        && statements_keep(&it->statements, text, number, parameters, gone);
    it->thread = PyEval_SaveThread();
    if (!is_kept)
        engine_ask_of(&it->engine, SKEWGUARD_DO_FORGET, number);
    if (gone->number)
        engine_ask_of(&it->engine, SKEWGUARD_DO_FORGET, gone->number);
}

/* Asks for a statement, which is kept under its text. 0 with a Python exception; else the status is in the reply. */
static int ask_to_prepare(EngineObject *it, PyObject *text, Reply *reply)
{
    Statement gone = {0};
    PyObject *bytes = PyObject_CallFunctionObjArgs(helpers.text_bytes, text, NULL);
    const char *request = bytes ? PyBytes_AsString(bytes) : NULL;
    reply->status = request ? enter(it) : SKEWGUARD_NO_MEMORY;
    if (!reply->status) {
        engine_make(&it->engine, reply, SKEWGUARD_DO_PREPARE, (const unsigned char *)request,
                    (size_t)PyBytes_Size(bytes));
        if (!reply->status)
            keep(it, text, reply, &gone);
        reply->status = leave(it, reply, reply->status);
    }
    statement_clear(&gone);
    Py_XDECREF(bytes);
    return !PyErr_Occurred();
}

/* Prepares the statement of a text. 0 with a Python exception. */
static int prepare(EngineObject *it, PyObject *text)
{
    Reply reply;
    reply_start(&reply, 0);
    if (ask_to_prepare(it, text, &reply) && reply.status)
        raise_in((PyObject *)it, reply.status, &reply, text);
    reply_end(&reply);
    return !PyErr_Occurred();
}

/* The prepared statement of a text, which others may take out once this thread lets go of the interpreter. */
static Statement *prepared(EngineObject *it, PyObject *text)
{
    Statement *found = statements_find(&it->statements, text);
    while (!found && !PyErr_Occurred() && prepare(it, text))
        found = statements_find(&it->statements, text);
    return found;
}

/* That the library has no such statement any more: another thread has taken it out. */
static void drop(EngineObject *it, PyObject *text, uint64_t number)
{
    Statement *kept = statements_find(&it->statements, text), gone = {0};
    if (kept && kept->number == number)
        statements_drop(&it->statements, kept, &gone);
    statement_clear(&gone);
}

/* Runs a statement by its number, in a transaction that has to be open. */
static int32_t run_number(TransactionObject *it, uint64_t number, Request *request, Reply *reply)
{
    int32_t status = enter(it->engine);
    if (status)
        return status;
    if (atomic_load(&it->state) == IS_OPEN) {
        request_put(request, 0, it->session->number);
        request_put(request, 1, number);
        status = engine_event(&it->engine->engine, reply, SKEWGUARD_DO_RUN, request->bytes, request->length);
        note(it, reply);
    } else {
        status = IS_ENDED;
    }
    return leave_as(it, reply, status);
}

static void raise_count(uint64_t wanted, uint64_t given)
{
    PyObject *detail = Py_BuildValue("KK", (unsigned long long)wanted, (unsigned long long)given);
    if (detail)
        raise_status(SKEWGUARD_WRONG_COUNT, NULL, detail);
    Py_XDECREF(detail);
}

/* The answer to a reply, or the exception of its status. */
static PyObject *answered(TransactionObject *it, PyObject *text, int32_t status, const Reply *reply)
{
    Statement *kept;
    if (PyErr_Occurred()) /* in the trace */
        return NULL;
    if (status)
        return raise_of(it, status, reply, text);
    kept = reply->capacity > REPLY_ROOM ? statements_find(&it->engine->statements, text) : NULL;
    if (kept) /* the next reply may be as long */
        kept->length = reply->length;
    return PyErr_Occurred() ? NULL : answer_of(it->engine, text, reply);
}

/* Runs a statement with values, of which the request has the count and the bytes behind room for two numbers. */
static PyObject *run(TransactionObject *it, PyObject *text, Request *request, uint64_t count)
{
    Statement *statement;
    PyObject *answer;
    uint64_t number;
    int32_t status;
    Reply reply;
    for (;;) {
        statement = prepared(it->engine, text);
        if (!statement)
            return NULL;
        if (statement->parameters != count) {
            raise_count(statement->parameters, count);
            return NULL;
        }
        number = statement->number;
        reply_start(&reply, statement->length);
        status = run_number(it, number, request, &reply);
        if (status != SKEWGUARD_NO_STATEMENT)
            break;
        drop(it->engine, text, number);
        reply_end(&reply);
    }
    answer = answered(it, text, status, &reply);
    reply_end(&reply);
    return answer;
}

/* Runs a text that is a str, and no subtype of it, with values that are a list or a tuple. */
static PyObject *execute(TransactionObject *it, PyObject *text, PyObject *values)
{
    PyObject *answer = NULL;
    Request request;
    uint64_t count = 0;
    request_start(&request, 2);
    if (request_add_values(&request, values, &count) && may_call(it->engine)) {
        if (atomic_load(&it->state) == IS_OPEN)
            answer = run(it, text, &request, count);
        else
            raise_of(it, IS_ENDED, NULL, NULL);
    }
    request_end(&request);
    return answer;
}

/* The same with whatever a caller has given. */
static PyObject *execute_taken(TransactionObject *it, PyObject *text, PyObject *values)
{
    PyObject *exact, *answer = NULL, *both;
    if (!PyUnicode_Check(text))
        return raise_status(IS_NO_TEXT, NULL, text);
    exact = PyUnicode_FromObject(text);
    both = exact ? PyObject_CallFunctionObjArgs(helpers.taken, exact, values, NULL) : NULL;
    if (both && PyArg_ParseTuple(both, "UO!", &text, &PyList_Type, &values))
        answer = execute(it, text, values);
    Py_XDECREF(both);
    Py_XDECREF(exact);
    return answer;
}

/* execute(sql, values=()) */
static PyObject *transaction_execute(PyObject *self, PyObject *args, PyObject *kwargs)
{
    static char *names[] = {"sql", "values", NULL};
    PyObject *text, *values = empty;
    Py_ssize_t count = kwargs ? 0 : PyTuple_Size(args);
    if (count == 1 || count == 2) { /* as nearly always, and less work than the general way */
        text = PyTuple_GetItem(args, 0);
        if (count == 2)
            values = PyTuple_GetItem(args, 1);
    } else if (!PyArg_ParseTupleAndKeywords(args, kwargs, "O|O:execute", names, &text, &values)) {
        return NULL;
    }
    if (PyUnicode_CheckExact(text) && (PyTuple_Check(values) || PyList_Check(values)))
        return execute((TransactionObject *)self, text, values);
    return execute_taken((TransactionObject *)self, text, values);
}

/* ---- several statements in one call */

/* Gives the exception that is raised the place of its statement. What is no exception of ours has none. */
static void *place_error(Py_ssize_t place)
{
    PyObject *type, *value, *traceback, *number;
    PyErr_Fetch(&type, &value, &traceback);
    PyErr_NormalizeException(&type, &value, &traceback);
    number = PyLong_FromSsize_t(place);
    if (value && number && PyObject_HasAttrString(value, "place"))
        PyObject_SetAttrString(value, "place", number);
    Py_XDECREF(number);
    PyErr_Restore(type, value, traceback);
    return NULL;
}

/* Adds a statement with its values to a request. 0 with a Python exception. */
static int add_step(EngineObject *it, PyObject *text, PyObject *values, Request *request)
{
    Statement *statement = prepared(it, text);
    uint64_t count, parameters = statement ? statement->parameters : 0;
    if (!statement || !request_add_number(request, statement->number)
        || !request_add_values(request, values, &count))
        return 0;
    if (count != parameters)
        raise_count(parameters, count);
    return count == parameters;
}

/* The answers to statements from the replies of some calls; NULL with the exception of the first that was not done.
 * Each statement has its text, or all have the one that is given. */
static PyObject *answers_of(TransactionObject *of, EngineObject *it, PyObject *text, PyObject *steps,
                            const Reply *reply, skewguard_reader *reader, Py_ssize_t count)
{
    PyObject *answer, *answers = PyList_New(0);
    Py_ssize_t place;
    Reply next;
    int is_added = answers != NULL;
    for (place = 0; is_added && place < count; place++) {
        PyObject *own = steps ? PyTuple_GetItem(PyList_GetItem(steps, place), 0) : text;
        reply_next(reply, reader, &next);
        if (next.status)
            answer = of ? raise_of(of, next.status, &next, own) : raise_in((PyObject *)it, next.status, &next, own);
        else
            answer = answer_of(it, own, &next);
        is_added = answer && !PyList_Append(answers, answer);
        Py_XDECREF(answer);
    }
    if (is_added)
        return answers;
    Py_XDECREF(answers);
    return place_error(place - 1);
}

/* Notes by several replies whether a transaction has ended. */
static void note_all(TransactionObject *it, const Reply *reply)
{
    skewguard_reader reader;
    uint64_t count = reply_count(reply, &reader);
    Reply next;
    if (reply->status == SKEWGUARD_REPLY_WAITS)
        give_up(it, WAS_LOST);
    for (; count && atomic_load(&it->state) == IS_OPEN; count--) {
        reply_next(reply, &reader, &next);
        note(it, &next);
    }
}

/* Runs the statements of a request, in a transaction that has to be open. */
static int32_t run_steps(TransactionObject *it, uint64_t count, Request *request, Reply *reply)
{
    int32_t status = enter(it->engine);
    if (status)
        return status;
    if (atomic_load(&it->state) == IS_OPEN) {
        request_put(request, 0, it->session->number);
        request_put(request, 1, count);
        status = engine_event(&it->engine->engine, reply, SKEWGUARD_DO_RUN_ALL, request->bytes, request->length);
        note_all(it, reply);
    } else {
        status = IS_ENDED;
    }
    return leave_as(it, reply, status);
}

/* Adds a statement with each of these lists of values, up to one that it does not take: then there is a Python
 * exception. How many were added. */
static Py_ssize_t add_rows(EngineObject *it, PyObject *text, PyObject *rows, Request *request)
{
    Py_ssize_t place, count = PyList_Size(rows);
    size_t whole = request->length;
    for (place = 0; place < count; place++, whole = request->length)
        if (!add_step(it, text, PyList_GetItem(rows, place), request))
            break;
    request->length = whole;
    return place;
}

/* The answers to a statement with lists of values. Where one is no list of values for it, those before it have been. */
static PyObject *run_rows(TransactionObject *it, PyObject *text, PyObject *rows)
{
    PyObject *type, *value, *traceback, *answers = NULL;
    skewguard_reader reader;
    Request request;
    Py_ssize_t count;
    int32_t status;
    Reply reply;
    do {
        request_start(&request, 2);
        count = add_rows(it->engine, text, rows, &request);
        if (PyErr_Occurred())
            place_error(count);
        PyErr_Fetch(&type, &value, &traceback);
        reply_start(&reply, 64 + 16 * (size_t)count);
        status = run_steps(it, (uint64_t)count, &request, &reply);
        request_end(&request);
        if (PyErr_Occurred()) /* in the trace */
            status = SKEWGUARD_DONE;
        else if (reply_count(&reply, &reader))
            answers = status == SKEWGUARD_NO_STATEMENT
                ? NULL
                : answers_of(it, it->engine, text, NULL, &reply, &reader, (Py_ssize_t)reply_count(&reply, &reader));
        else if (status && status != SKEWGUARD_NO_STATEMENT)
            raise_of(it, status, &reply, text);
        else if (!status)
            answers = PyList_New(0);
        reply_end(&reply);
        if (type && !PyErr_Occurred() && status != SKEWGUARD_NO_STATEMENT) {
            Py_CLEAR(answers);
            PyErr_Restore(type, value, traceback);
        } else {
            Py_XDECREF(type);
            Py_XDECREF(value);
            Py_XDECREF(traceback);
        }
    } while (status == SKEWGUARD_NO_STATEMENT && !PyErr_Occurred());
    return answers;
}

/* _run_all(text, rows): the text is a str, and the rows a list of lists and tuples. */
static PyObject *transaction_run_all(PyObject *self, PyObject *args)
{
    TransactionObject *it = (TransactionObject *)self;
    PyObject *text, *rows;
    if (!PyArg_ParseTuple(args, "UO!", &text, &PyList_Type, &rows) || !may_call(it->engine))
        return NULL;
    return atomic_load(&it->state) == IS_OPEN ? run_rows(it, text, rows) : raise_of(it, IS_ENDED, NULL, NULL);
}

/* ---- a whole transaction in one call */

static int add_steps(EngineObject *it, PyObject *steps, Request *request)
{
    PyObject *step;
    Py_ssize_t place, count = PyList_Size(steps);
    for (place = 0; place < count; place++) {
        step = PyList_GetItem(steps, place);
        if (!add_step(it, PyTuple_GetItem(step, 0), PyTuple_GetItem(step, 1), request)) {
            place_error(place);
            return 0;
        }
    }
    request_put(request, 1, (uint64_t)count);
    return 1;
}

/* The number of the commit, and the answers to the statements behind BEGIN. The first that was not done is raised. */
static PyObject *transacted(EngineObject *it, PyObject *steps, const Reply *reply)
{
    Py_ssize_t count = PyList_Size(steps);
    skewguard_reader reader, number;
    PyObject *answers, *both = NULL;
    uint64_t replies = reply_count(reply, &reader);
    Reply next;
    if (!replies)
        return raise_status(reply->status, reply, NULL);
    reply_next(reply, &reader, &next);
    if (next.status)
        return raise_status(next.status, &next, NULL);
    answers = answers_of(NULL, it, NULL, steps, reply, &reader, count);
    if (!answers)
        return NULL;
    reply_next(reply, &reader, &next);
    number = reply_reader(&next);
    if (next.status)
        raise_status(next.status, &next, NULL);
    else
        both = Py_BuildValue("KO", (unsigned long long)skewguard_read_number(&number), answers);
    Py_DECREF(answers);
    return both;
}

/* Makes the call, unless a statement is not taken. The status; NO_STATEMENT where others have taken one out. */
static int32_t ask_to_transact(EngineObject *it, PyObject *steps, const char *name, size_t length, Reply *reply)
{
    Request request;
    int32_t status = SKEWGUARD_BAD_REQUEST;
    request_start(&request, 2);
    if (add_steps(it, steps, &request)) {
        status = enter(it);
        if (!status) {
            status = engine_transact(&it->engine, reply, name, length, request.bytes, request.length);
            status = leave(it, reply, status);
        }
    }
    request_end(&request);
    return status;
}

PyObject *transact(EngineObject *it, PyObject *steps, PyObject *name)
{
    PyObject *bytes = name == Py_None ? NULL : PyObject_CallFunctionObjArgs(helpers.text_bytes, name, NULL);
    const char *named = bytes ? PyBytes_AsString(bytes) : NULL;
    PyObject *both = NULL;
    int32_t status = SKEWGUARD_NO_STATEMENT;
    Reply reply;
    while (!PyErr_Occurred() && status == SKEWGUARD_NO_STATEMENT) {
        reply_start(&reply, 0);
        status = ask_to_transact(it, steps, named, bytes ? (size_t)PyBytes_Size(bytes) : 0, &reply);
        if (!PyErr_Occurred() && status != SKEWGUARD_NO_STATEMENT) {
            if (status < 0 || status == SKEWGUARD_REPLY_WAITS)
                raise_status(status, &reply, name);
            else
                both = transacted(it, steps, &reply);
        }
        reply_end(&reply);
    }
    Py_XDECREF(bytes);
    return both;
}

/* ---- what is known of it */

static PyObject *transaction_snapshot(PyObject *self, void *closure)
{
    TransactionObject *it = (TransactionObject *)self;
    (void)closure;
    return it->session ? PyLong_FromUnsignedLongLong(it->snapshot) : none();
}

static PyObject *transaction_number(PyObject *self, void *closure)
{
    TransactionObject *it = (TransactionObject *)self;
    (void)closure;
    return it->number ? PyLong_FromUnsignedLongLong(it->number) : none();
}

static PyObject *transaction_state(PyObject *self, void *closure)
{
    (void)closure;
    return PyLong_FromLong(atomic_load(&((TransactionObject *)self)->state));
}

static PyMethodDef transaction_methods[] = {
    {"execute", (PyCFunction)(void (*)(void))transaction_execute, METH_VARARGS | METH_KEYWORDS,
     "execute($self, /, sql, values=())\n--\n\n"
     "Runs a statement, and gives what it was answered: a count, rows, a verdict.\n\n"
     "Each `?` in the text stands for the next of the values, or each `:name` for that of the name, where they come\n"
     "as a dict. Values are numbers, texts and None for NULL, and never become a part of the text. Raises, with\n"
     "nothing of the statement left and the transaction going on:\n"
     "ProgrammingError (a text that is not of the language, with line and column; a name that is not there; types\n"
     "that don't fit), ParameterError and TypeError (values), DataError, IntegrityError, RuleViolated, NoMemory."},
    {"commit", transaction_commit, METH_NOARGS,
     "commit($self, /)\n--\n\n"
     "Commits, and gives the number of the commit.\n\n"
     "Raises RuleViolated, SerializationFailure and EpochFull, and the transaction has ended; NoMemory, and it is\n"
     "open as before; or ReplyLost."},
    {"rollback", transaction_rollback, METH_NOARGS,
     "rollback($self, /)\n--\n\nEnds the transaction, and nothing of it is left."},
    {"_run_all", transaction_run_all, METH_VARARGS, NULL},
    {"__enter__", transaction_enter, METH_NOARGS, NULL},
    {"__exit__", transaction_exit, METH_VARARGS, NULL},
    {"_begin", transaction_begin, METH_NOARGS, NULL},
    {NULL, NULL, 0, NULL},
};

static PyMemberDef transaction_members[] = {
    {"_engine", T_OBJECT_EX, offsetof(TransactionObject, engine), READONLY, NULL},
    {"_name", T_OBJECT_EX, offsetof(TransactionObject, name), READONLY, NULL},
    {"_retry", T_OBJECT_EX, offsetof(TransactionObject, retry), READONLY, NULL},
    {"_read_only", T_BOOL, offsetof(TransactionObject, is_read_only), READONLY, NULL},
    {"__weaklistoffset__", T_PYSSIZET, offsetof(TransactionObject, weak_references), READONLY, NULL},
    {NULL, 0, 0, 0, NULL},
};

static PyGetSetDef transaction_properties[] = {
    {"snapshot", transaction_snapshot, NULL, "How many commits its tables hold; None before it began.", NULL},
    {"number", transaction_number, NULL, "The number of its commit; None without one.", NULL},
    {"_state", transaction_state, NULL, NULL, NULL},
    {NULL, NULL, NULL, NULL, NULL},
};

static PyType_Slot transaction_slots[] = {
    {Py_tp_new, transaction_new},
    {Py_tp_dealloc, transaction_dealloc},
    {Py_tp_finalize, transaction_finalize},
    {Py_tp_traverse, transaction_traverse},
    {Py_tp_methods, transaction_methods},
    {Py_tp_members, transaction_members},
    {Py_tp_getset, transaction_properties},
    {0, NULL},
};

PyType_Spec transaction_spec = {
    "skewguard._native.Transaction",
    sizeof(TransactionObject),
    0,
    Py_TPFLAGS_DEFAULT | Py_TPFLAGS_BASETYPE | Py_TPFLAGS_HAVE_GC,
    transaction_slots,
};
