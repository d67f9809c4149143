/* Answer: what a statement was answered. */
#include "objects.h"

#include "helpers.h"

typedef struct AnswerObject {
    PyObject_HEAD
    PyObject *kind, *columns, *rows, *verdict;
    unsigned long long count;
} AnswerObject;

static PyObject *fill_answer(PyObject *self, PyObject *kind, unsigned long long count, PyObject *columns,
                             PyObject *rows, PyObject *verdict)
{
    AnswerObject *it = (AnswerObject *)self;
    if (!it)
        return NULL;
    it->count = count;
    Py_INCREF(it->kind = kind);
    Py_INCREF(it->columns = columns);
    Py_INCREF(it->rows = rows);
    Py_INCREF(it->verdict = verdict);
    return self;
}

static PyObject *answer_new(PyTypeObject *type, PyObject *args, PyObject *kwargs)
{
    static char *names[] = {"kind", "count", "columns", "rows", "verdict", NULL};
    PyObject *kind, *columns, *rows, *verdict;
    unsigned long long count;
    if (!PyArg_ParseTupleAndKeywords(args, kwargs, "UKO!O!O", names, &kind, &count, &PyTuple_Type, &columns,
                                     &PyTuple_Type, &rows, &verdict))
        return NULL;
    return fill_answer(((allocfunc)PyType_GetSlot(type, Py_tp_alloc))(type, 0), kind, count, columns, rows, verdict);
}

/* A result, which is the subtype of Answer that users see. */
static PyObject *new_result(PyObject *kind, unsigned long long count, PyObject *columns, PyObject *rows,
                            PyObject *verdict)
{
    return fill_answer(helpers.result.allocate(helpers.result.type, 0), kind, count, columns, rows, verdict);
}

static void answer_dealloc(PyObject *self)
{
    AnswerObject *it = (AnswerObject *)self;
    PyTypeObject *type = Py_TYPE(self);
    Py_XDECREF(it->kind);
    Py_XDECREF(it->columns);
    Py_XDECREF(it->rows);
    Py_XDECREF(it->verdict);
    ((freefunc)PyType_GetSlot(type, Py_tp_free))(self);
    Py_DECREF(type);
}

static PyMemberDef answer_members[] = {
    {"kind", T_OBJECT_EX, offsetof(AnswerObject, kind), READONLY, NULL},
    {"count", T_ULONGLONG, offsetof(AnswerObject, count), READONLY, NULL},
    {"columns", T_OBJECT_EX, offsetof(AnswerObject, columns), READONLY, NULL},
    {"_rows", T_OBJECT_EX, offsetof(AnswerObject, rows), READONLY, NULL},
    {"verdict", T_OBJECT_EX, offsetof(AnswerObject, verdict), READONLY, NULL},
    {NULL, 0, 0, 0, NULL},
};

static PyType_Slot answer_slots[] = {
    {Py_tp_new, answer_new},
    {Py_tp_dealloc, answer_dealloc},
    {Py_tp_members, answer_members},
    {0, NULL},
};

PyType_Spec answer_spec = {
    "skewguard._native.Answer", sizeof(AnswerObject), 0, Py_TPFLAGS_DEFAULT | Py_TPFLAGS_BASETYPE, answer_slots,
};

/* The words of events, by the kinds of their replies. */
static PyObject *words[SKEWGUARD_MISUSED + 1];
PyObject *empty, *zero;

int make_words(void)
{
    static const char *const texts[SKEWGUARD_MISUSED + 1] = {
        [SKEWGUARD_BEGUN] = "BEGIN",       [SKEWGUARD_COMMITTED] = "COMMIT", [SKEWGUARD_ROLLED_BACK] = "ROLLBACK",
        [SKEWGUARD_INSERTED] = "INSERT",   [SKEWGUARD_UPDATED] = "UPDATE",   [SKEWGUARD_DELETED] = "DELETE",
        [SKEWGUARD_ROWS] = "SELECT",       [SKEWGUARD_VERDICT] = "VERDICT",
        [SKEWGUARD_MODES_SET] = "SET CONSTRAINTS",
    };
    int kind;
    for (kind = 0; kind <= SKEWGUARD_MISUSED; kind++) {
        words[kind] = PyUnicode_InternFromString(texts[kind] ? texts[kind] : "DONE");
        if (!words[kind])
            return 0;
    }
    empty = PyTuple_New(0);
    zero = PyLong_FromLong(0);
    return empty && zero;
}

/* The answer of rows. What was learnt of their columns is kept with the statement of the text. */
static PyObject *answer_of_rows(EngineObject *it, PyObject *text, const Reply *reply)
{
    Statement *statement = statements_find(&it->statements, text);
    Columns columns = {NULL, NULL, NULL};
    PyObject *rows, *answer = NULL;
    if (!statement && PyErr_Occurred())
        return NULL;
    if (statement)
        columns = columns_copy(&statement->columns);
    rows = rows_of(reply, &columns);
    if (rows)
        answer = new_result(words[SKEWGUARD_ROWS], (unsigned long long)PyTuple_Size(rows), columns.names, rows,
                            Py_None);
    statement = answer ? statements_find(&it->statements, text) : NULL; /* it may be another by now */
    if (statement && statement->columns.bytes != columns.bytes) {
        Columns old = statement->columns;
        statement->columns = columns_copy(&columns);
        columns_clear(&old);
    }
    Py_XDECREF(rows);
    columns_clear(&columns);
    return answer;
}

PyObject *answer_of(EngineObject *it, PyObject *text, const Reply *reply)
{
    skewguard_reader reader = reply_reader(reply);
    int kind = reply_kind(reply);
    unsigned long long count = 0;
    PyObject *verdict = Py_None;
    if (kind == SKEWGUARD_ROWS)
        return answer_of_rows(it, text, reply);
    if (kind == SKEWGUARD_INSERTED || kind == SKEWGUARD_UPDATED || kind == SKEWGUARD_DELETED)
        count = skewguard_read_number(&reader);
    if (kind == SKEWGUARD_VERDICT) {
        uint64_t truth = skewguard_read_number(&reader);
        verdict = truth == SKEWGUARD_TRUE ? Py_True : truth == SKEWGUARD_FALSE ? Py_False : Py_None;
    }
    if (kind > SKEWGUARD_MISUSED)
        kind = SKEWGUARD_NOTHING;
    return new_result(words[kind], count, empty, empty, verdict);
}
