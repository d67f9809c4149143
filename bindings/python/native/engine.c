#include "engine.h"

#include <stdio.h>

/* A reply that there was no memory for is asked for so often. */
enum { FETCHES = 3 };

static const unsigned char nothing[1];

/* ---- replies */

void reply_start(Reply *reply, size_t expected)
{
    reply->status = SKEWGUARD_DONE;
    reply->length = 0;
    reply->bytes = expected > sizeof reply->room ? malloc(expected) : NULL;
    reply->capacity = reply->bytes ? expected : sizeof reply->room;
    if (!reply->bytes)
        reply->bytes = reply->room;
}

void reply_end(Reply *reply)
{
    if (reply->bytes != reply->room)
        free(reply->bytes);
}

void reply_fail(Reply *reply, const Found *found, int error)
{
    reply->status = SKEWGUARD_IO_ERROR;
    reply->length = found->failure(error, reply->bytes, reply->capacity);
}

int reply_kind(const Reply *reply)
{
    return reply->length ? reply->bytes[0] : SKEWGUARD_NOTHING;
}

skewguard_reader reply_reader(const Reply *reply)
{
    skewguard_reader reader = {reply->bytes, reply->length ? 1 : 0, reply->length};
    return reader;
}

uint64_t reply_count(const Reply *reply, skewguard_reader *reader)
{
    *reader = reply_reader(reply);
    return reply_kind(reply) == SKEWGUARD_SEVERAL ? skewguard_read_number(reader) : 0;
}

void reply_next(const Reply *reply, skewguard_reader *reader, Reply *next)
{
    skewguard read = {0};
    next->bytes = reply->bytes + reader->at;
    next->length = reader->at;
    skewguard_read_next(&read, reader, 0);
    next->length = next->capacity = reader->at - next->length;
    next->status = skewguard_tells_of_done(&read.reply) ? SKEWGUARD_DONE : reply->status;
}

static int make_room(Reply *reply, size_t length)
{
    unsigned char *bytes = malloc(length);
    if (!bytes)
        return 0;
    reply_end(reply);
    reply->bytes = bytes;
    reply->capacity = length;
    return 1;
}

void reply_draw(Reply *reply, Draws *draws, const unsigned char *request, size_t length)
{
    for (;;) {
        reply->length = 0;
        if (draws(request, length, reply->bytes, reply->capacity, &reply->length)
            || (reply->length > reply->capacity && !make_room(reply, reply->length))) {
            reply->length = 0;
            return;
        }
        if (reply->length <= reply->capacity)
            return;
    }
}

/* ---- calls */

int32_t engine_ask(Engine *engine, Reply *reply, uint32_t operation, const unsigned char *request, size_t length)
{
    int fetches;
    for (fetches = 0;; fetches++) {
        reply->status = engine->library->call(engine->handle, operation, request, length, reply->bytes,
                                              reply->capacity, &reply->length);
        if (reply->length <= reply->capacity && reply->status != SKEWGUARD_REPLY_WAITS)
            return reply->status;
        if (fetches == FETCHES || (reply->length > reply->capacity && !make_room(reply, reply->length))) {
            reply->length = 0;
            return reply->status = SKEWGUARD_REPLY_WAITS;
        }
        if (operation != SKEWGUARD_DO_LINE)
            operation = SKEWGUARD_DO_AGAIN;
        request = nothing;
        length = 0;
    }
}

/* ---- what has to be on the disk before it is told */

/* Makes the calls on the file that wait by now. */
static void sync_now(Engine *engine)
{
    uint64_t calls = engine->calls;
    int error = 0;
    engine->is_syncing = 1;
    if (engine->library->take(engine->handle)) {
        pthread_mutex_unlock(&engine->lock);
        error = engine->library->make(engine->handle);
        pthread_mutex_lock(&engine->lock);
    }
    engine->failure = engine->library->made(engine->handle, error);
    engine->is_syncing = 0;
    engine->kept = calls;
    pthread_cond_broadcast(&engine->synced);
}

/* Whether what a call tells of has to be waited for: it waits for the next sync then, or makes it. */
static int sync_for(Engine *engine, uint64_t call)
{
    if (!engine->library->take || engine->kept >= call || engine->failure)
        return 0;
    if (engine->is_syncing)
        pthread_cond_wait(&engine->synced, &engine->lock);
    else
        sync_now(engine);
    return 1;
}

int engine_keep(Engine *engine)
{
    uint64_t call = ++engine->calls;
    while (sync_for(engine, call))
        ;
    return engine->failure;
}

int engine_shorten(Engine *engine)
{
    while (engine->is_syncing)
        pthread_cond_wait(&engine->synced, &engine->lock);
    /* (others may have closed it meanwhile) */
    return engine->handle && engine->library->checkpoint ? engine->library->checkpoint(engine->handle) : 0;
}

void *engine_take(Engine *engine)
{
    void *handle = engine->handle;
    /* (others may call meanwhile, and while one syncs there is a call that is not kept) */
    while (sync_for(engine, engine->calls))
        ;
    engine->handle = NULL;
    return handle;
}

/* ---- lines, and events */

static void tell_text(Engine *engine, const Reply *line)
{
    skewguard_reader reader = reply_reader(line);
    if (reply_kind(line) == SKEWGUARD_TEXT)
        engine->tell(engine, skewguard_read_text(&reader));
}

/* Tells the line of the last answer, or of each of several. Without memory they are lacking: the events have been. */
static void tell_line(Engine *engine)
{
    Reply line, next;
    skewguard_reader reader;
    uint64_t count;
    reply_start(&line, 0);
    engine_ask(engine, &line, SKEWGUARD_DO_LINE, nothing, 0);
    tell_text(engine, &line);
    for (count = reply_count(&line, &reader); count; count--) {
        reply_next(&line, &reader, &next);
        tell_text(engine, &next);
    }
    reply_end(&line);
}

int32_t engine_event(Engine *engine, Reply *reply, uint32_t operation, const unsigned char *request, size_t length)
{
    engine_ask(engine, reply, operation, request, length);
    if (engine->tell
        && (reply->status == SKEWGUARD_DONE || reply->status == SKEWGUARD_REFUSED
            || reply->status == SKEWGUARD_NOT_KEPT))
        tell_line(engine);
    return reply->status;
}

int32_t engine_event_of(Engine *engine, Reply *reply, uint32_t operation, const Session *session)
{
    uint64_t request = session->number; /* whose lowest byte comes first on x86-64, as in requests */
    return engine_event(engine, reply, operation, (const unsigned char *)&request, sizeof request);
}

int32_t engine_ask_of(Engine *engine, uint32_t operation, uint64_t number)
{
    uint64_t request = number;
    Reply reply;
    reply_start(&reply, 0);
    engine_ask(engine, &reply, operation, (const unsigned char *)&request, sizeof request);
    reply_end(&reply);
    return reply.status;
}

int32_t engine_make(Engine *engine, Reply *reply, uint32_t operation, const unsigned char *request, size_t length)
{
    engine_ask(engine, reply, operation, request, length);
    if (reply->status == SKEWGUARD_REPLY_WAITS) {
        engine->has_unheard = 1;
        reply->status = SKEWGUARD_NO_MEMORY;
    }
    return reply->status;
}

/* Takes back what the last call has made; 0 while there is no memory to hear of it. */
static int undo_unheard(Engine *engine)
{
    Reply reply;
    skewguard_reader reader;
    reply_start(&reply, 0);
    engine_ask(engine, &reply, SKEWGUARD_DO_AGAIN, nothing, 0);
    engine->has_unheard = reply.status == SKEWGUARD_REPLY_WAITS;
    reader = reply_reader(&reply);
    if (reply_kind(&reply) == SKEWGUARD_SESSION)
        engine_ask_of(engine, SKEWGUARD_DO_CLOSE_SESSION, skewguard_read_number(&reader));
    else if (reply_kind(&reply) == SKEWGUARD_STATEMENT)
        engine_ask_of(engine, SKEWGUARD_DO_FORGET, skewguard_read_number(&reader));
    reply_end(&reply);
    return !engine->has_unheard;
}

/* ---- the lock, and what was forgotten */

void engine_forget(Engine *engine, Session *session)
{
    atomic_store(&session->is_forgotten, 1);
    atomic_store(&engine->has_forgotten, 1);
}

/* The transaction may have ended by itself. The library then refuses the ROLLBACK, and nobody is told. */
static void roll_back_forgotten(Engine *engine, Session *session)
{
    if (engine_ask_of(engine, SKEWGUARD_DO_ROLLBACK, session->number) == SKEWGUARD_DONE && engine->tell)
        tell_line(engine);
    engine_end(session);
}

int32_t engine_lock(Engine *engine)
{
    pthread_mutex_lock(&engine->lock);
    if (engine->handle)
        return 0;
    pthread_mutex_unlock(&engine->lock);
    return IS_CLOSED;
}

void engine_unlock(Engine *engine)
{
    pthread_mutex_unlock(&engine->lock);
}

int32_t engine_settle(Engine *engine)
{
    size_t place;
    if (engine->has_unheard && !undo_unheard(engine))
        return SKEWGUARD_NO_MEMORY;
    if (!atomic_load(&engine->has_forgotten))
        return 0;
    atomic_store(&engine->has_forgotten, 0);
    for (place = 0; place < engine->places; place++)
        if (atomic_load(&engine->sessions[place].is_forgotten))
            roll_back_forgotten(engine, &engine->sessions[place]);
    return 0;
}

/* ---- sessions */

static Session *find_named(Engine *engine, const char *name, size_t length)
{
    Session *each = engine->sessions, *end = each + engine->places;
    for (; each < end; each++)
        if (each->number && each->length == length && !memcmp(each->name, name, length))
            return each;
    return NULL;
}

/* The pooled session without a transaction that was used last. */
static Session *find_free(Engine *engine)
{
    Session *each = engine->sessions, *end = each + engine->places, *found = NULL;
    for (; each < end; each++)
        if (each->number && each->is_pooled && !each->has_transaction && (!found || each->used > found->used))
            found = each;
    return found;
}

/* The session without a transaction that was used longest ago. */
static Session *find_idle(Engine *engine)
{
    Session *each = engine->sessions, *end = each + engine->places, *found = NULL;
    for (; each < end; each++)
        if (each->number && !each->has_transaction && (!found || each->used < found->used))
            found = each;
    return found;
}

static Session *find_place(Engine *engine)
{
    Session *each = engine->sessions, *end = each + engine->places;
    for (; each < end; each++)
        if (!each->number)
            return each;
    return engine->places < MOST_SESSIONS ? &engine->sessions[engine->places++] : NULL;
}

static int close_idle(Engine *engine)
{
    Session *idle = find_idle(engine);
    if (!idle)
        return 0;
    engine_ask_of(engine, SKEWGUARD_DO_CLOSE_SESSION, idle->number);
    idle->number = 0;
    return 1;
}

static int is_refused_with(const Reply *reply, uint64_t number)
{
    skewguard_reader reader = reply_reader(reply);
    return reply_kind(reply) == SKEWGUARD_REFUSAL && skewguard_read_number(&reader) == number;
}

/* Opens the session of a new name. Where as many are open as may be, one without a transaction makes room. */
static int32_t open_session(Engine *engine, Reply *reply, const char *name, size_t length, int is_pooled,
                            Session **opened)
{
    const unsigned char *request = (const unsigned char *)name;
    skewguard_reader reader;
    Session *place;
    engine_make(engine, reply, SKEWGUARD_DO_OPEN_SESSION, request, length);
    if (is_refused_with(reply, SKEWGUARD_FAULT_TOO_MANY_SESSIONS) && close_idle(engine))
        engine_make(engine, reply, SKEWGUARD_DO_OPEN_SESSION, request, length);
    if (reply->status != SKEWGUARD_DONE)
        return reply->status;
    place = find_place(engine);
    if (!place)
        return IS_OTHER_LIBRARY; /* it has opened more than there may be */
    reader = reply_reader(reply);
    place->number = skewguard_read_number(&reader);
    place->is_pooled = is_pooled;
    place->has_transaction = 0;
    place->length = length;
    memcpy(place->name, name, length);
    *opened = place;
    return SKEWGUARD_DONE;
}

static int32_t pooled_session(Engine *engine, Reply *reply, Session **found)
{
    char name[16];
    int number, length;
    *found = find_free(engine);
    if (*found)
        return SKEWGUARD_DONE;
    for (number = 1;; number++) {
        length = snprintf(name, sizeof name, "PYTHON%d", number);
        if (!find_named(engine, name, (size_t)length))
            return open_session(engine, reply, name, (size_t)length, 1, found);
    }
}

/* A name has its letters in upper case, as the library has it. */
static int32_t named_session(Engine *engine, Reply *reply, const char *name, size_t length, Session **found)
{
    char key[LONGEST_NAME];
    size_t place;
    if (length > LONGEST_NAME)
        return SKEWGUARD_BAD_NAME;
    for (place = 0; place < length; place++)
        key[place] = (char)(name[place] >= 'a' && name[place] <= 'z' ? name[place] - 'a' + 'A' : name[place]);
    *found = find_named(engine, key, length);
    if (!*found)
        return open_session(engine, reply, key, length, 0, found);
    return (*found)->is_pooled ? IS_POOLED : SKEWGUARD_DONE;
}

int32_t engine_begin(Engine *engine, Reply *reply, uint32_t operation, const char *name, size_t length,
                     Session **taken)
{
    Session *found = NULL;
    int32_t status = name ? named_session(engine, reply, name, length, &found)
                          : pooled_session(engine, reply, &found);
    if (status != SKEWGUARD_DONE)
        return status;
    status = engine_event_of(engine, reply, operation, found);
    if (status != SKEWGUARD_DONE && status != SKEWGUARD_REPLY_WAITS)
        return status;
    found->has_transaction = 1;
    found->used = ++engine->uses;
    if (status == SKEWGUARD_DONE)
        *taken = found;
    else
        engine_forget(engine, found); /* it may have begun, and nobody has it */
    return status;
}

int32_t engine_transact(Engine *engine, Reply *reply, const char *name, size_t name_length, unsigned char *request,
                        size_t length)
{
    Session *found = NULL;
    int32_t status = name ? named_session(engine, reply, name, name_length, &found)
                          : pooled_session(engine, reply, &found);
    if (status != SKEWGUARD_DONE)
        return status;
    found->used = ++engine->uses;
    memcpy(request, &found->number, sizeof found->number); /* whose lowest byte comes first on x86-64 */
    return engine_event(engine, reply, SKEWGUARD_DO_TRANSACT, request, length);
}

void engine_end(Session *session)
{
    atomic_store(&session->is_forgotten, 0);
    session->has_transaction = 0;
}

size_t engine_open_transactions(const Engine *engine)
{
    size_t place, count = 0;
    for (place = 0; engine->handle && place < engine->places; place++)
        count += engine->sessions[place].number && engine->sessions[place].has_transaction;
    return count;
}
