/* What of the package is Python's: errors with their words, the types of rows, and what is not taken at a glance. */
#ifndef SKEWGUARD_HELPERS_H
#define SKEWGUARD_HELPERS_H

#include "values.h"

/* A type of which instances are made. */
typedef struct Made {
    PyTypeObject *type;
    allocfunc allocate;
} Made;

typedef struct Helpers {
    PyObject *error_of;        /* (status, reply, detail, engine) -> the exception */
    PyObject *parameter_bytes; /* (values) -> how many, and their bytes; raises for what is no value */
    PyObject *text_bytes;      /* (text) -> its bytes; raises for what is no str */
    PyObject *taken;           /* (text, values) -> both as a text and a list; raises for what is no list of values */
    PyObject *row_type;        /* (names of columns) -> the type of their rows */
    PyObject *tell;            /* (trace, line) hands the line on */
    PyObject *checked_retry;   /* (retry) -> the same; raises for what is no number of times */
    Made result;               /* what a statement is answered: a subtype of Answer */
    Made transaction;          /* a subtype of Transaction */
} Helpers;

extern Helpers helpers;

/* Raises what a status means, and gives NULL. detail, which may be NULL, is what error_of wants to know beside it. */
PyObject *raise_status(int32_t status, const Reply *reply, PyObject *detail);

/* The same of a statement with its text, which the engine was given. */
PyObject *raise_in(PyObject *engine, int32_t status, const Reply *reply, PyObject *text);

#endif
