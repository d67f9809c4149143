/*
 * A library in front of the library: it does what that one does, but for what it was told to answer without a journal,
 * and it counts. tests/faulty.py builds it, and tells it.
 */
#include <dlfcn.h>
#include <stdint.h>
#include <stdlib.h>

enum { OPERATIONS = 16, REPLY_WAITS = 3 };

static void *found(const char *name)
{
    static void *library;
    if (!library)
        library = dlopen(getenv("SKEWGUARD_BEHIND"), RTLD_NOW);
    if (!library || !dlsym(library, name))
        abort();
    return dlsym(library, name);
}

static struct {
    uint32_t operation, times;
    int32_t status;
    size_t length;
} fault;
static uint64_t calls[OPERATIONS];
static int64_t open_libraries;

/* So many calls of an operation, or of any, answer with a status; with REPLY_WAITS they are made all the same, and with
 * DONE their replies have a length. */
void faulty_answer(uint32_t operation, int32_t status, uint32_t times, size_t length)
{
    fault.operation = operation;
    fault.status = status;
    fault.times = times;
    fault.length = length;
}

/* How often an operation was called since this was asked last. */
uint64_t faulty_calls(uint32_t operation)
{
    uint64_t count = calls[operation];
    calls[operation] = 0;
    return count;
}

int64_t faulty_open_libraries(void)
{
    return open_libraries;
}

int32_t skewguard_library_open(const unsigned char *request, size_t length, void **library)
{
    int32_t (*open)(const unsigned char *, size_t, void **);
    *(void **)&open = found("skewguard_library_open");
    if (fault.times && fault.operation == OPERATIONS) {
        fault.times--;
        return fault.status;
    }
    open_libraries++;
    return open(request, length, library);
}

int32_t skewguard_library_call(void *library, uint32_t operation, const unsigned char *request, size_t length,
                               unsigned char *reply, size_t capacity, size_t *reply_length)
{
    int32_t (*call)(void *, uint32_t, const unsigned char *, size_t, unsigned char *, size_t, size_t *);
    int32_t status;
    int is_faulty = fault.times && (fault.operation == operation || fault.operation == UINT32_MAX);
    *(void **)&call = found("skewguard_library_call");
    if (operation < OPERATIONS)
        calls[operation]++;
    if (is_faulty)
        fault.times--;
    if (is_faulty && fault.status != 0 && fault.status != REPLY_WAITS) {
        *reply_length = 0;
        return fault.status;
    }
    status = call(library, operation, request, length, reply, capacity, reply_length);
    if (is_faulty)
        *reply_length = fault.length;
    return is_faulty ? fault.status : status;
}

void skewguard_library_close(void *library)
{
    void (*close)(void *);
    *(void **)&close = found("skewguard_library_close");
    open_libraries--;
    close(library);
}

int32_t skewguard_library_draw(const unsigned char *request, size_t length, unsigned char *reply, size_t capacity,
                               size_t *reply_length)
{
    int32_t (*draw)(const unsigned char *, size_t, unsigned char *, size_t, size_t *);
    *(void **)&draw = found("skewguard_library_draw");
    return draw(request, length, reply, capacity, reply_length);
}

int32_t skewguard_journal_open(const char *path, const unsigned char *request, size_t length, void **journal,
                               int *error)
{
    int32_t (*open)(const char *, const unsigned char *, size_t, void **, int *);
    *(void **)&open = found("skewguard_journal_open");
    return open(path, request, length, journal, error);
}

int32_t skewguard_journal_call(void *journal, uint32_t operation, const unsigned char *request, size_t length,
                               unsigned char *reply, size_t capacity, size_t *reply_length)
{
    int32_t (*call)(void *, uint32_t, const unsigned char *, size_t, unsigned char *, size_t, size_t *);
    *(void **)&call = found("skewguard_journal_call");
    return call(journal, operation, request, length, reply, capacity, reply_length);
}

int32_t skewguard_journal_start(void *journal, uint32_t operation, const unsigned char *request, size_t length,
                                unsigned char *reply, size_t capacity, size_t *reply_length)
{
    int32_t (*start)(void *, uint32_t, const unsigned char *, size_t, unsigned char *, size_t, size_t *);
    *(void **)&start = found("skewguard_journal_start");
    return start(journal, operation, request, length, reply, capacity, reply_length);
}

int skewguard_journal_take(void *journal)
{
    int (*take)(void *);
    *(void **)&take = found("skewguard_journal_take");
    return take(journal);
}

int skewguard_journal_make(const void *journal)
{
    int (*make)(const void *);
    *(void **)&make = found("skewguard_journal_make");
    return make(journal);
}

int skewguard_journal_made(void *journal, int error)
{
    int (*made)(void *, int);
    *(void **)&made = found("skewguard_journal_made");
    return made(journal, error);
}

size_t skewguard_journal_failure(int error, unsigned char *reply, size_t capacity)
{
    size_t (*failure)(int, unsigned char *, size_t);
    *(void **)&failure = found("skewguard_journal_failure");
    return failure(error, reply, capacity);
}

int skewguard_journal_checkpoint(void *journal)
{
    int (*checkpoint)(void *);
    *(void **)&checkpoint = found("skewguard_journal_checkpoint");
    return checkpoint(journal);
}

void skewguard_journal_checkpoint_bytes(void *journal, uint64_t bytes)
{
    void (*checkpoint_bytes)(void *, uint64_t);
    *(void **)&checkpoint_bytes = found("skewguard_journal_checkpoint_bytes");
    checkpoint_bytes(journal, bytes);
}

void skewguard_journal_close(void *journal)
{
    void (*close)(void *);
    *(void **)&close = found("skewguard_journal_close");
    close(journal);
}
