/* The prepared statements that are kept, by their texts: those that were used last. */
#ifndef SKEWGUARD_STATEMENTS_H
#define SKEWGUARD_STATEMENTS_H

#include "values.h"

enum { MOST_STATEMENTS = 256 };

typedef struct Statement {
    PyObject *text; /* NULL where there is none */
    uint64_t number, parameters;
    uint64_t used; /* which of all uses was its last */
    /* Of its last reply: how long it was, and of rows their columns. */
    size_t length;
    Columns columns;
} Statement;

typedef struct Statements {
    PyObject *places; /* a dict: of a text its place */
    Statement *last;  /* the one that was found last; NULL where it is gone */
    uint64_t uses;
    Py_ssize_t count;
    Statement kept[MOST_STATEMENTS];
} Statements;

/* 0 with a Python exception. */
int statements_start(Statements *statements);
void statements_end(Statements *statements);

/* That of a text, which is a str and no subtype of it; NULL where there is none, or with a Python exception. */
Statement *statements_find(Statements *statements, PyObject *text);

/*
 * Keeps a statement under a text that has none, in the place of the one that was used longest ago: that one, if any, is
 * *gone, and the caller's. 0 with a Python exception.
 */
int statements_keep(Statements *statements, PyObject *text, uint64_t number, uint64_t parameters, Statement *gone);

/* Takes a statement out: it is *gone, and the caller's. */
void statements_drop(Statements *statements, Statement *statement, Statement *gone);

/* Lets go what a statement holds. */
void statement_clear(Statement *statement);

#endif
