/* Python's values as the bytes of a request, and replies as Python's objects. */
#ifndef SKEWGUARD_VALUES_H
#define SKEWGUARD_VALUES_H

#define PY_SSIZE_T_CLEAN
#define Py_LIMITED_API 0x03090000
#include <Python.h>

#include "engine.h"

enum { REQUEST_ROOM = 512 };

/* The bytes of a request: in its room, or where they are more in memory of their own. */
typedef struct Request {
    size_t length, capacity;
    unsigned char *bytes;
    unsigned char room[REQUEST_ROOM];
} Request;

/* A request that begins with so many numbers, which request_put writes. */
void request_start(Request *request, size_t numbers);
void request_put(Request *request, size_t place, uint64_t number);
void request_end(Request *request);

/* Adds a number. 0 with a Python exception. */
int request_add_number(Request *request, uint64_t number);

/* Adds how many values a list or a tuple has, and these. 0 with a Python exception. */
int request_add_values(Request *request, PyObject *values, uint64_t *count);

/* The columns of rows: the bytes of a reply that say them, their names as a tuple, and the type of the rows. */
typedef struct Columns {
    PyObject *bytes, *names, *row_type; /* NULL as long as nothing is known */
} Columns;

Columns columns_copy(const Columns *columns);
void columns_clear(Columns *columns);

/* The rows of a reply as a tuple. Where columns are not those of the reply, they are after it. */
PyObject *rows_of(const Reply *reply, Columns *columns);

#endif
