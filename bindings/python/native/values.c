#include "values.h"

#include "helpers.h"

/* The language takes numbers from -10^15 to 10^15. */
static const long long largest = 1000000000000000;

#if Py_LIMITED_API + 0 < 0x030A0000
/* Python 3.9 has it too, and a program that is built so runs with either. */
PyAPI_FUNC(const char *) PyUnicode_AsUTF8AndSize(PyObject *text, Py_ssize_t *length);
#endif

/* ---- requests */

void request_start(Request *request, size_t numbers)
{
    request->length = numbers * sizeof(uint64_t);
    request->capacity = sizeof request->room;
    request->bytes = request->room;
}

void request_end(Request *request)
{
    if (request->bytes != request->room)
        free(request->bytes);
}

/* A number has its lowest byte first on x86-64, as in requests. */
static void write_number(unsigned char *bytes, uint64_t number)
{
    memcpy(bytes, &number, sizeof number);
}

void request_put(Request *request, size_t place, uint64_t number)
{
    write_number(request->bytes + place * sizeof number, number);
}

static int grow(Request *request, size_t wanted)
{
    unsigned char *bytes = malloc(wanted);
    if (!bytes) {
        PyErr_NoMemory();
        return 0;
    }
    memcpy(bytes, request->bytes, request->length);
    request_end(request);
    request->bytes = bytes;
    request->capacity = wanted;
    return 1;
}

/* So many bytes more, to be written; NULL with a Python exception. */
static unsigned char *add(Request *request, size_t more)
{
    unsigned char *added;
    if (more > request->capacity - request->length && !grow(request, 2 * (request->length + more)))
        return NULL;
    added = request->bytes + request->length;
    request->length += more;
    return added;
}

int request_add_number(Request *request, uint64_t number)
{
    unsigned char *added = add(request, sizeof number);
    if (added)
        write_number(added, number);
    return added != NULL;
}

static int add_bytes(Request *request, const char *bytes, size_t length)
{
    unsigned char *added = add(request, length);
    if (added)
        memcpy(added, bytes, length);
    return added != NULL;
}

/* Whether a text has no control character of ASCII. */
static int is_plain(const char *bytes, Py_ssize_t length)
{
    Py_ssize_t place;
    for (place = 0; place < length; place++)
        if ((unsigned char)bytes[place] < ' ' || bytes[place] == 0x7f)
            return 0;
    return 1;
}

/* What became of a value: it was added; it is none that the language has; or there is a Python exception. */
typedef enum Added { IS_ADDED, IS_NO_VALUE, IS_ERROR } Added;

static Added add_number(Request *request, PyObject *value)
{
    int overflow;
    long long number = PyLong_AsLongLongAndOverflow(value, &overflow);
    unsigned char *added;
    if (overflow || number < -largest || number > largest)
        return IS_NO_VALUE;
    added = add(request, 9);
    if (!added)
        return IS_ERROR;
    added[0] = SKEWGUARD_NUMBER;
    write_number(added + 1, (uint64_t)number);
    return IS_ADDED;
}

static Added add_text(Request *request, PyObject *value)
{
    Py_ssize_t length;
    const char *bytes = PyUnicode_AsUTF8AndSize(value, &length);
    unsigned char *added;
    if (!bytes)
        PyErr_Clear(); /* it has a surrogate; or there is no memory, of which Python will say so */
    if (!bytes || !is_plain(bytes, length))
        return IS_NO_VALUE;
    added = add(request, 9 + (size_t)length);
    if (!added)
        return IS_ERROR;
    added[0] = SKEWGUARD_CHARACTERS;
    write_number(added + 1, (uint64_t)length);
    memcpy(added + 9, bytes, (size_t)length);
    return IS_ADDED;
}

static Added add_null(Request *request)
{
    unsigned char *added = add(request, 1);
    if (!added)
        return IS_ERROR;
    added[0] = SKEWGUARD_NULL;
    return IS_ADDED;
}

static Added add_value(Request *request, PyObject *value)
{
    if (PyLong_Check(value) && !PyBool_Check(value))
        return add_number(request, value);
    if (PyUnicode_Check(value))
        return add_text(request, value);
    return value == Py_None ? add_null(request) : IS_NO_VALUE;
}

static Added add_list(Request *request, PyObject *values, uint64_t *count)
{
    int is_list = PyList_Check(values);
    Py_ssize_t place, length = is_list ? PyList_Size(values) : PyTuple_Size(values);
    unsigned char *counted = add(request, 8);
    Added added = counted ? IS_ADDED : IS_ERROR;
    if (counted)
        write_number(counted, (uint64_t)length);
    for (place = 0; added == IS_ADDED && place < length; place++)
        added = add_value(request, is_list ? PyList_GetItem(values, place) : PyTuple_GetItem(values, place));
    *count = (uint64_t)length;
    return added;
}

/* A value that may not be is Python's, and it says what is wrong. */
static int add_by_python(Request *request, PyObject *values, uint64_t *count)
{
    unsigned long long number;
    const char *bytes;
    Py_ssize_t length;
    PyObject *made = PyObject_CallFunctionObjArgs(helpers.parameter_bytes, values, NULL);
    int is_added = made && PyArg_ParseTuple(made, "Ky#", &number, &bytes, &length)
        && add_bytes(request, bytes, (size_t)length);
    if (is_added)
        *count = number;
    Py_XDECREF(made);
    return is_added;
}

int request_add_values(Request *request, PyObject *values, uint64_t *count)
{
    size_t before = request->length;
    Added added = add_list(request, values, count);
    if (added != IS_NO_VALUE)
        return added == IS_ADDED;
    request->length = before;
    return add_by_python(request, values, count);
}

/* ---- rows */

static PyObject *text_of(skewguard_reader *reader)
{
    skewguard_text text = skewguard_read_text(reader);
    return PyUnicode_DecodeUTF8(text.bytes, (Py_ssize_t)text.length, "replace");
}

/* The names of columns, as a tuple. */
static PyObject *names_of(skewguard_reader *reader, uint64_t width)
{
    PyObject *name, *names = PyTuple_New((Py_ssize_t)width);
    Py_ssize_t place;
    for (place = 0; names && place < (Py_ssize_t)width; place++) {
        name = text_of(reader);
        if (!name || PyTuple_SetItem(names, place, name))
            Py_CLEAR(names);
    }
    return names;
}

static void skip_names(skewguard_reader *reader, uint64_t width)
{
    while (width-- && reader->at < reader->length)
        (void)skewguard_read_text(reader);
}

Columns columns_copy(const Columns *columns)
{
    Py_XINCREF(columns->bytes);
    Py_XINCREF(columns->names);
    Py_XINCREF(columns->row_type);
    return *columns;
}

void columns_clear(Columns *columns)
{
    Py_CLEAR(columns->bytes);
    Py_CLEAR(columns->names);
    Py_CLEAR(columns->row_type);
}

/* Whether the bytes of columns are these. */
static int are_columns(const Columns *columns, const unsigned char *bytes, size_t length)
{
    return columns->bytes && PyBytes_Size(columns->bytes) == (Py_ssize_t)length
        && !memcmp(PyBytes_AsString(columns->bytes), bytes, length);
}

/* Reads the columns of rows, unless they are known. */
static int read_columns(skewguard_reader *reader, uint64_t *width, Columns *columns)
{
    size_t start = reader->at, length;
    skewguard_reader names_at;
    Columns read;
    *width = skewguard_read_number(reader);
    names_at = *reader;
    skip_names(reader, *width);
    length = reader->at - start;
    if (are_columns(columns, reader->bytes + start, length))
        return 1;
    read.names = names_of(&names_at, *width);
    read.row_type = read.names ? PyObject_CallFunctionObjArgs(helpers.row_type, read.names, NULL) : NULL;
    read.bytes = PyBytes_FromStringAndSize((const char *)reader->bytes + start, (Py_ssize_t)length);
    if (!read.row_type || !read.bytes) {
        columns_clear(&read);
        return 0;
    }
    columns_clear(columns);
    *columns = read;
    return 1;
}

enum { MOST_DIGITS = 39 }; /* of a number of 128 bits */

/* A number that passes 64 bits, of its decimal digits. */
static PyObject *large_number_of(skewguard_text digits)
{
    char text[1 + MOST_DIGITS + 1];
    size_t length = digits.length < sizeof text ? digits.length : sizeof text - 1;
    memcpy(text, digits.bytes, length);
    text[length] = 0;
    return PyLong_FromString(text, NULL, 10);
}

static PyObject *value_of(skewguard_reader *reader)
{
    skewguard_value value = skewguard_read_value(reader);
    if (value.kind == SKEWGUARD_NUMBER)
        return PyLong_FromLongLong(value.number);
    if (value.kind == SKEWGUARD_CHARACTERS)
        return PyUnicode_DecodeUTF8(value.text.bytes, (Py_ssize_t)value.text.length, "replace");
    if (value.kind == SKEWGUARD_NUMERIC)
        return large_number_of(value.text);
    Py_INCREF(Py_None);
    return Py_None;
}

/* A row: an instance of a subtype of tuple, which is filled as a tuple is. */
static PyObject *row_of(skewguard_reader *reader, PyTypeObject *type, allocfunc allocate, Py_ssize_t width)
{
    PyObject *value, *row = allocate(type, width);
    Py_ssize_t place;
    for (place = 0; row && place < width; place++) {
        value = value_of(reader);
        if (!value || PyTuple_SetItem(row, place, value))
            Py_CLEAR(row);
    }
    return row;
}

PyObject *rows_of(const Reply *reply, Columns *columns)
{
    skewguard_reader reader = reply_reader(reply);
    uint64_t width;
    PyTypeObject *type;
    PyObject *row, *rows;
    Py_ssize_t place, count;
    if (!read_columns(&reader, &width, columns))
        return NULL;
    type = (PyTypeObject *)columns->row_type;
    count = (Py_ssize_t)skewguard_read_number(&reader);
    rows = PyTuple_New(count);
    for (place = 0; rows && place < count; place++) {
        row = row_of(&reader, type, (allocfunc)PyType_GetSlot(type, Py_tp_alloc), (Py_ssize_t)width);
        if (!row || PyTuple_SetItem(rows, place, row))
            Py_CLEAR(rows);
    }
    return rows;
}
