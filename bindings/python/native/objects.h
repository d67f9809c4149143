/*
 * The objects of skewguard._native: an opened library, transactions on it, and what they are answered.
 *
 * A call is cut short by no interrupt, since Python handles signals between calls. While the library works, other
 * threads have the interpreter; what is noted of a transaction is noted under the engine's lock, and no Python code
 * runs under that lock but the trace.
 *
 * A thread that waits for the engine's lock has let go of the interpreter before. So one that has the lock may wait for
 * the interpreter.
 */
#ifndef SKEWGUARD_OBJECTS_H
#define SKEWGUARD_OBJECTS_H

#include "statements.h"
#include "values.h"

#include <structmember.h>

typedef struct EngineObject {
    PyObject_HEAD
    Engine engine;
    Statements statements;
    PyObject *trace;
    unsigned process; /* the one that opened it */
    /* While the lock is had: the thread that has let go of the interpreter, and whose trace is being told. */
    PyThreadState *thread;
    int is_telling;
    unsigned long teller;
} EngineObject;

extern PyType_Spec engine_spec, transaction_spec, answer_spec;

/* The library that was loaded, and which process this is, of those that forks have made. */
extern Found found;
extern unsigned process;

/* The empty tuple, and the number 0. */
extern PyObject *empty, *zero;

/* Makes what answers are made of. 0 with a Python exception. */
int make_words(void);

/* None, as what a method gives. */
PyObject *none(void);

/* Why no call may be made: a status; 0 where one may. */
int32_t call_fault(const EngineObject *it);

/* Whether a call may be made; else with a Python exception. */
int may_call(const EngineObject *it);

/* Lets go of the interpreter and takes the lock; else the status of why not, and the interpreter is had again. */
int32_t enter(EngineObject *it);
/* Lets the lock go and takes the interpreter back, once all that a call tells of is on the disk. Its status; or
 * SKEWGUARD_IO_ERROR, which the reply then tells of, where that failed. */
int32_t leave(EngineObject *it, Reply *reply, int32_t status);

/* A transaction that has not begun. */
PyObject *new_transaction(EngineObject *engine, int is_read_only, PyObject *name, PyObject *retry);

/* A whole transaction: the number of its commit, and the answers to its statements. */
PyObject *transact(EngineObject *engine, PyObject *steps, PyObject *name);

/* What the reply to a statement says, of which the text is given. */
PyObject *answer_of(EngineObject *it, PyObject *text, const Reply *reply);

#endif
