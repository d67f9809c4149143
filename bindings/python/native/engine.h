/*
 * An opened library: its calls, one at a time, and its sessions. Nothing here is Python's, so all of it runs while
 * other threads have the interpreter.
 *
 * The functions are called under the engine's lock, but for engine_lock, engine_forget and
 * engine_open_transactions.
 */
#ifndef SKEWGUARD_ENGINE_H
#define SKEWGUARD_ENGINE_H

#include <pthread.h>
#include <stdatomic.h>

#include "skewguard.h"

enum { MOST_SESSIONS = 256, LONGEST_NAME = 128, REPLY_ROOM = 1024 };

/* What there is besides the statuses of skewguard.h: _refusals.py has the words of both. */
enum {
    IS_CLOSED = -1,
    IS_ENDED = -2,
    IS_POOLED = -3,
    IS_CALLING = -4,
    IS_OF_PARENT = -5,
    IS_OTHER_LIBRARY = -6,
    IS_RETRIED = -7,
    IS_USED = -8,
    IS_NO_TEXT = -9
};

/* The functions of an opened library: of one that keeps a journal, or of one that keeps none. */
typedef struct Library {
    int32_t (*call)(void *handle, uint32_t operation, const unsigned char *request, size_t length,
                    unsigned char *reply, size_t capacity, size_t *reply_length);
    void (*close)(void *handle);
    /* Of one whose threads share the syncs of a journal, the steps of one (skewguard_journal_take, _make and _made). */
    int (*take)(void *handle);
    int (*make)(const void *handle);
    int (*made)(void *handle, int error);
    /* Of one that keeps a journal (skewguard_journal_checkpoint and _checkpoint_bytes). */
    int (*checkpoint)(void *handle);
    void (*checkpoint_bytes)(void *handle, uint64_t bytes);
} Library;

/* The functions of the shared library, once it was found. */
typedef struct Found {
    int32_t (*open)(const unsigned char *request, size_t length, void **handle);
    int32_t (*open_journal)(const char *path, const unsigned char *request, size_t length, void **handle, int *error);
    int32_t (*draw)(const unsigned char *request, size_t length, unsigned char *reply, size_t capacity,
                    size_t *reply_length);
    size_t (*failure)(int error, unsigned char *reply, size_t capacity);
    /* One whose lines are told syncs in each call, so that a line is told once it is on the disk, and in its order. */
    Library plain, journaled, traced;
} Found;

/* A reply: in its room, or where it is longer in memory of its own. */
typedef struct Reply {
    int32_t status;
    size_t length, capacity;
    unsigned char *bytes;
    unsigned char room[REPLY_ROOM];
} Reply;

/* A session of the library, which has one transaction at a time. */
typedef struct Session {
    uint64_t number; /* 0 where it is not open */
    uint64_t used;   /* which of all uses was its last */
    int is_pooled, has_transaction;
    atomic_int is_forgotten; /* nobody has its transaction any more */
    size_t length;
    char name[LONGEST_NAME];
} Session;

typedef struct Engine {
    void *handle; /* NULL once it is closed */
    const Library *library;
    pthread_mutex_t lock;
    /* Is told the line of each event, where there is one to tell. */
    void (*tell)(struct Engine *engine, skewguard_text line);
    atomic_int has_forgotten;
    int has_unheard; /* the last call has made something, but there was no memory to say what */
    /* How many calls were made, and of how many all that they tell of is on the disk; whether a thread syncs, and the
     * errno of a sync that failed. */
    uint64_t calls, kept;
    int is_syncing, failure;
    pthread_cond_t synced;
    uint64_t uses;
    size_t places; /* those of sessions that were ever open */
    Session sessions[MOST_SESSIONS];
} Engine;

/* A reply that may be so long. Where there is no memory for it, it is asked for again. */
void reply_start(Reply *reply, size_t expected);
void reply_end(Reply *reply);
/* That a call on the journal's file failed, with this errno. */
void reply_fail(Reply *reply, const Found *found, int error);
int reply_kind(const Reply *reply);
/* A reader of what stands behind the kind. */
skewguard_reader reply_reader(const Reply *reply);
/* How many replies there are of a call that made several events, and a reader of them; 0 of any other call. */
uint64_t reply_count(const Reply *reply, skewguard_reader *reader);
/* The next of several: a part of them all, with their status where it tells of something that was not done. */
void reply_next(const Reply *reply, skewguard_reader *reader, Reply *next);

/* What a function draws by this request; nothing where it draws none, or where there is no memory for it. */
typedef int32_t Draws(const unsigned char *request, size_t length, unsigned char *reply, size_t capacity,
                      size_t *reply_length);
void reply_draw(Reply *reply, Draws *draws, const unsigned char *request, size_t length);

/* Locks. 0; or IS_CLOSED, and it is not locked. */
int32_t engine_lock(Engine *engine);
void engine_unlock(Engine *engine);

/* Waits until all that was told so far is on the disk: 0, or the errno for which it may not be. One thread syncs for
 * all that wait, and lets the lock go meanwhile. */
int engine_keep(Engine *engine);

/* Puts an image in the place of a journal's file, while no thread syncs: 0, or the errno for which it is as it was. 0
 * without a journal too. */
int engine_shorten(Engine *engine);

/* Waits until nothing more has to be kept, and takes the handle away. */
void *engine_take(Engine *engine);

/* Rolls back what was forgotten, which each call does first. 0 or NO_MEMORY. */
int32_t engine_settle(Engine *engine);

/* One call, and its status: REPLY_WAITS where there was no memory for its reply. */
int32_t engine_ask(Engine *engine, Reply *reply, uint32_t operation, const unsigned char *request, size_t length);

/* One call of which the request is a number, and the reply nothing more than its status. */
int32_t engine_ask_of(Engine *engine, uint32_t operation, uint64_t number);

/* One call that makes a session or a statement. NO_MEMORY, and it is not made, where its reply finds none. */
int32_t engine_make(Engine *engine, Reply *reply, uint32_t operation, const unsigned char *request, size_t length);

/* One call that answers an event, whose line is told, also where it was refused. */
int32_t engine_event(Engine *engine, Reply *reply, uint32_t operation, const unsigned char *request, size_t length);

/* The same, of which the request is a session. */
int32_t engine_event_of(Engine *engine, Reply *reply, uint32_t operation, const Session *session);

/*
 * Begins a transaction, in the session of a name or, without one, in one that no transaction uses: *taken. 0; a status
 * of the library; or IS_POOLED, where the engine has given that name away by itself.
 */
int32_t engine_begin(Engine *engine, Reply *reply, uint32_t operation, const char *name, size_t length,
                     Session **taken);

/*
 * A whole transaction in one call, in the session of a name or in one that no transaction uses. The request begins with
 * room for the number of that session. Behind it no transaction is open there, unless one was before.
 */
int32_t engine_transact(Engine *engine, Reply *reply, const char *name, size_t name_length, unsigned char *request,
                        size_t length);

/* That the transaction of a session has ended. */
void engine_end(Session *session);

/* How many transactions are open. It takes no lock, so while others begin and end some it is a guess. */
size_t engine_open_transactions(const Engine *engine);

/* That nobody has the transaction of a session any more. It takes no lock: the next call rolls it back. */
void engine_forget(Engine *engine, Session *session);

#endif
