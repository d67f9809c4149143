#include "statements.h"

int statements_start(Statements *statements)
{
    memset(statements, 0, sizeof *statements);
    statements->places = PyDict_New();
    return statements->places != NULL;
}

void statements_end(Statements *statements)
{
    Py_ssize_t place;
    for (place = 0; place < statements->count; place++)
        statement_clear(&statements->kept[place]);
    statements->count = 0;
    Py_CLEAR(statements->places);
}

void statement_clear(Statement *statement)
{
    Py_CLEAR(statement->text);
    columns_clear(&statement->columns);
}

static Statement *look_up(Statements *statements, PyObject *text)
{
    PyObject *place = PyDict_GetItemWithError(statements->places, text);
    return place ? &statements->kept[PyLong_AsSsize_t(place)] : NULL;
}

Statement *statements_find(Statements *statements, PyObject *text)
{
    Statement *found = statements->last;
    if (!found || found->text != text) /* a program that runs a statement again mostly has the very same text */
        found = look_up(statements, text);
    if (found) {
        statements->last = found;
        found->used = ++statements->uses;
    }
    return found;
}

void statements_drop(Statements *statements, Statement *statement, Statement *gone)
{
    *gone = *statement;
    memset(statement, 0, sizeof *statement);
    if (statements->last == statement)
        statements->last = NULL;
    if (gone->text && PyDict_DelItem(statements->places, gone->text))
        PyErr_Clear(); /* it was not there */
}

/* A place without a statement; else that of the one that was used longest ago. */
static Statement *place_for_one(Statements *statements)
{
    Statement *each, *found = statements->kept;
    if (statements->count < MOST_STATEMENTS)
        return &statements->kept[statements->count++];
    for (each = statements->kept; each < statements->kept + MOST_STATEMENTS; each++)
        if (each->used < found->used)
            found = each;
    return found;
}

int statements_keep(Statements *statements, PyObject *text, uint64_t number, uint64_t parameters, Statement *gone)
{
    Statement *kept = place_for_one(statements);
    PyObject *place;
    int is_kept;
    statements_drop(statements, kept, gone);
    place = PyLong_FromSsize_t(kept - statements->kept);
    is_kept = place && !PyDict_SetItem(statements->places, text, place);
    Py_XDECREF(place);
    if (!is_kept)
        return 0;
    Py_INCREF(text);
    kept->text = text;
    kept->number = number;
    kept->parameters = parameters;
    kept->used = ++statements->uses;
    return 1;
}
