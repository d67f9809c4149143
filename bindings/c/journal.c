/*
 * The library over the file of a journal: each commit is on the disk before its answer is handed on.
 *
 * The library itself, which is proved, reaches no file. It hands out the calls on one: what to write where, and when to
 * sync. Here they are made, in their order and before the reply goes out. Nothing here is proved; what has to be read
 * is that it is so, and that the file is the one of its name, locked, and on the disk before it is read
 * (docs/JOURNAL.md says what a file system is taken to promise). The program `skewguard` opens and makes a journal by
 * the same steps.
 */
#define _DEFAULT_SOURCE
#include <errno.h>
#include <fcntl.h>
#include <limits.h>
#include <stdint.h>
#include <stdio.h>
#include <stdlib.h>
#include <string.h>
#include <sys/file.h>
#include <sys/stat.h>
#include <unistd.h>

#include "skewguard.h"

/* So many zeros stand behind a new file, so many are written at a time, so long are the calls that wait mostly, and so
 * long may commits be until a checkpoint is made, unless another length is set. */
enum { ROOM = 1 << 20, BLOCK = 1 << 16, CALLS = 4096, COMMITS = 16 << 20 };

/* The calls that the library hands out, by their first number. */
enum { CALL_WRITE = 1, CALL_ZEROS = 2, CALL_SYNC = 3 };

/* How long a number is, and where the bytes of an image begin in a reply: behind its kind and their length. */
enum { NUMBER = 8, IMAGE_AT = 1 + NUMBER };

/* A name in a folder, which is open, so that it stays the same one whatever becomes of the process's own folder. */
typedef struct Place {
    int folder;
    char name[NAME_MAX + 1];
    /* What a file is called until it has the name. */
    char draft[NAME_MAX + 1];
} Place;

typedef struct Journal {
    void *library;
    Place place;
    /* -1 where the definitions were refused before there was one. */
    int file;
    /* The errno of the first call that failed; 0 as long as none did. Nothing more is answered behind one. */
    int error;
    unsigned char *calls;
    size_t capacity, length;
    /* The text of the definitions, which a new file begins with the sum of. */
    unsigned char *definitions;
    size_t definitions_length;
    /* Where the image ends in the file, and the lines of all commits that were written; how long the commits may be
     * until a checkpoint is made, 0 for any length; and where the lines are too long by that. */
    uint64_t image, end, most, longest;
} Journal;

/* -- calls on a file: each gives 0, or an errno */

static int write_all(int file, const unsigned char *bytes, size_t length, uint64_t place)
{
    while (length) {
        ssize_t written = pwrite(file, bytes, length, (off_t)place);
        if (written < 0 && errno == EINTR)
            continue;
        if (written < 0)
            return errno;
        if (written == 0)
            return EIO;
        bytes += written;
        length -= (size_t)written;
        place += (size_t)written;
    }
    return 0;
}

static int write_zeros(int file, uint64_t place, uint64_t count)
{
    static const unsigned char zeros[BLOCK];
    while (count) {
        size_t next = count < BLOCK ? (size_t)count : BLOCK;
        int error = write_all(file, zeros, next, place);
        if (error)
            return error;
        place += next;
        count -= next;
    }
    return 0;
}

/* Moves an open file off the standard streams: nothing that is meant for one of those may land in it. */
static int keep_off_streams(int *file)
{
    int moved, error;
    if (*file > 2)
        return 0;
    moved = fcntl(*file, F_DUPFD_CLOEXEC, 3);
    error = errno;
    close(*file);
    *file = moved;
    return moved < 0 ? error : 0;
}

/* The place of a path. Its folder is open then, or -1. */
static int find_place(const char *path, Place *place)
{
    char folder[PATH_MAX];
    const char *end = strrchr(path, '/');
    const char *name = end ? end + 1 : path;
    size_t length = end ? (size_t)(end - path) + (end == path) : 0;
    place->folder = -1;
    if (length >= sizeof folder || strlen(name) + sizeof ".new" > sizeof place->draft)
        return ENAMETOOLONG;
    if (!*name)
        return *path ? EISDIR : ENOENT;
    strcpy(place->name, name);
    strcpy(place->draft, name);
    strcat(place->draft, ".new");
    memcpy(folder, path, length);
    folder[length] = '\0';
    place->folder = open(length ? folder : ".", O_RDONLY | O_CLOEXEC | O_DIRECTORY);
    return place->folder < 0 ? errno : keep_off_streams(&place->folder);
}

static int sync_folder(const Place *place)
{
    return fsync(place->folder) ? errno : 0;
}

/* Whether the file of this name is the one that is open. */
static int is_named(int file, const Place *place, const char *name)
{
    struct stat found, named;
    return !fstat(file, &found) && !fstatat(place->folder, name, &named, AT_SYMLINK_NOFOLLOW)
        && found.st_dev == named.st_dev && found.st_ino == named.st_ino;
}

/* Locks a file that was opened by this name. */
static int lock(int *file, const Place *place, const char *name)
{
    struct stat found;
    int error = keep_off_streams(file);
    if (error)
        return error;
    if (fstat(*file, &found))
        return errno;
    if (!S_ISREG(found.st_mode))
        return S_ISDIR(found.st_mode) ? EISDIR : ENOTSUP;
    if (flock(*file, LOCK_EX | LOCK_NB))
        return errno;
    return is_named(*file, place, name) ? 0 : EWOULDBLOCK;
}

/* One that is made has this mode. */
static int open_locked(const Place *place, const char *name, int flags, mode_t mode, int *file)
{
    int error;
    /* (a pipe is opened without waiting for its other end, and then refused) */
    *file = openat(place->folder, name, flags | O_RDWR | O_NOFOLLOW | O_NONBLOCK | O_CLOEXEC, mode);
    if (*file < 0)
        return errno;
    error = lock(file, place, name);
    if (error && *file >= 0)
        close(*file);
    return error;
}

/* -- the calls that the library hands out */

static uint64_t number_at(const unsigned char *bytes)
{
    uint64_t number;
    memcpy(&number, bytes, NUMBER);
    return number;
}

typedef struct Call {
    uint64_t kind, place, length;
    const unsigned char *bytes;
} Call;

/* The call that begins at *at, and *at is behind it then; 0 where there is none. */
static int next_call(const unsigned char **at, const unsigned char *end, Call *call)
{
    if (end - *at < NUMBER)
        return 0;
    call->kind = number_at(*at);
    call->place = call->length = 0;
    *at += NUMBER;
    if (call->kind == CALL_SYNC)
        return 1;
    if (end - *at < 2 * NUMBER)
        return 0;
    call->place = number_at(*at);
    call->length = number_at(*at + NUMBER);
    call->bytes = *at += 2 * NUMBER;
    if (call->kind == CALL_ZEROS)
        return 1;
    if (call->kind != CALL_WRITE || call->length > (uint64_t)(end - *at))
        return 0;
    *at += call->length;
    return 1;
}

static int make_call(int file, const Call *call)
{
    if (call->kind == CALL_SYNC)
        return fdatasync(file) ? errno : 0;
    if (call->kind == CALL_ZEROS)
        return write_zeros(file, call->place, call->length);
    return write_all(file, call->bytes, (size_t)call->length, call->place);
}

/* Makes the calls in these bytes, in their order. */
static int make_calls(int file, const unsigned char *at, const unsigned char *end)
{
    Call call;
    int error = 0;
    while (!error && at != end)
        error = next_call(&at, end, &call) ? make_call(file, &call) : EINVAL;
    return error;
}

/* Where the lines end once the calls are made that were taken. */
static uint64_t end_behind(const Journal *journal)
{
    const unsigned char *at = journal->calls, *end = at + journal->length;
    uint64_t lines = journal->end;
    Call call;
    while (next_call(&at, end, &call))
        if (call.kind == CALL_WRITE && call.place + call.length > lines)
            lines = call.place + call.length;
    return lines;
}

int skewguard_journal_take(void *made)
{
    Journal *journal = made;
    int32_t status;
    journal->length = 0;
    if (journal->error)
        return 0;
    while ((status = skewguard_library_take_calls(journal->library, journal->calls, journal->capacity,
                                                  &journal->length)) == 1) {
        unsigned char *grown = realloc(journal->calls, journal->length);
        if (!grown)
            break;
        journal->calls = grown;
        journal->capacity = journal->length;
    }
    if (status) {
        journal->length = 0;
        journal->error = ENOMEM;
    }
    journal->end = end_behind(journal);
    return journal->length != 0;
}

int skewguard_journal_make(const void *made)
{
    const Journal *journal = made;
    return journal->length ? make_calls(journal->file, journal->calls, journal->calls + journal->length) : 0;
}

/* Notes what became of calls: the first errno there was. */
static int note(Journal *journal, int error)
{
    if (!journal->error)
        journal->error = error;
    return journal->error;
}

/* Makes the calls that wait. 0 where all are made and on the disk; else nothing may be answered any more. */
static int settle(Journal *journal)
{
    skewguard_journal_take(journal);
    return note(journal, skewguard_journal_make(journal));
}

/* Gives memory back that only the calls behind an opening needed. */
static void give_back(Journal *journal)
{
    unsigned char *less = realloc(journal->calls, CALLS);
    if (!less)
        return;
    journal->calls = less;
    journal->capacity = CALLS;
}

/* -- a new file */

/* A reply of a library, in memory that the caller frees: its status. */
static int32_t reply_of(void *library, uint32_t operation, const unsigned char *request, size_t length,
                        unsigned char **reply, size_t *reply_length)
{
    size_t capacity = 4096;
    for (;;) {
        unsigned char *grown = realloc(*reply, capacity);
        int32_t status;
        if (!grown)
            return SKEWGUARD_NO_MEMORY;
        *reply = grown;
        status = skewguard_library_call(library, operation, request, length, *reply, capacity, reply_length);
        if (*reply_length <= capacity)
            return status;
        capacity = *reply_length;
        operation = SKEWGUARD_DO_AGAIN;
    }
}

/* The beginning of a journal of these definitions, with the committed tables of a library: 0, which is for want of
 * memory, or its length. It lies in a reply, at IMAGE_AT, which the caller frees in each case. */
static size_t image_of(void *library, const unsigned char *definitions, size_t length, unsigned char **reply)
{
    size_t reply_length = 0;
    int32_t status = reply_of(library, SKEWGUARD_DO_IMAGE, definitions, length, reply, &reply_length);
    return status == SKEWGUARD_DONE && reply_length > IMAGE_AT ? reply_length - IMAGE_AT : 0;
}

/* Takes a draft away, which is this open file. */
static int drop_draft(const Place *place, int file)
{
    int error = unlinkat(place->folder, place->draft, 0) ? errno : 0;
    close(file);
    return error;
}

/* Takes a draft away that a killed process left; one that a process is making is locked. */
static int remove_draft(const Place *place)
{
    int file, error = open_locked(place, place->draft, 0, 0, &file);
    if (error)
        return error == ENOENT ? 0 : error;
    return drop_draft(place, file);
}

static int copy_mode(int from, int to)
{
    struct stat found;
    return fstat(from, &found) || fchmod(to, found.st_mode & 07777) ? errno : 0;
}

/* Makes a file with these bytes, and so many zeros behind them, which is on the disk then. It has no name but the
 * draft's, and none at all where an errno is given. Those may read it that may read the old one, where there is one;
 * else old is -1. */
static int make_draft(const Place *place, int old, const unsigned char *bytes, size_t length, uint64_t zeros,
                      int *file)
{
    int error = remove_draft(place);
    if (!error)
        error = open_locked(place, place->draft, O_CREAT | O_EXCL, old < 0 ? 0666 : 0600, file);
    if (error)
        return error;
    error = old < 0 ? 0 : copy_mode(old, *file);
    if (!error)
        error = write_zeros(*file, length, zeros);
    if (!error)
        error = write_all(*file, bytes, length, 0);
    if (!error && fsync(*file))
        error = errno;
    if (error)
        drop_draft(place, *file);
    return error;
}

/* Puts a file with these bytes and zeros behind them where there is none. */
static int make_file(const Place *place, const unsigned char *bytes, size_t length)
{
    int file, error = make_draft(place, -1, bytes, length, ROOM, &file);
    if (error)
        return error;
    /* (a link fails where a file came meanwhile, and a rename would take its place) */
    if (linkat(place->folder, place->draft, place->folder, place->name, 0))
        error = errno;
    if (unlinkat(place->folder, place->draft, 0) && !error)
        error = errno;
    if (!error)
        error = sync_folder(place);
    close(file);
    return error;
}

/* Makes the journal of these definitions, where they are taken in. Where they are not, `library` has the refusal. */
static int32_t make_journal(const Place *place, const unsigned char *request, size_t length, void **library, int *error)
{
    unsigned char *reply = NULL;
    size_t reply_length = 0;
    int32_t status = skewguard_library_open(request, length, library);
    if (status)
        return status;
    status = reply_of(*library, SKEWGUARD_DO_AGAIN, request, 0, &reply, &reply_length);
    if (status != SKEWGUARD_DONE) {
        free(reply);
        return status == SKEWGUARD_NO_MEMORY ? status : SKEWGUARD_DONE;
    }
    reply_length = image_of(*library, request + NUMBER, length - NUMBER, &reply);
    skewguard_library_close(*library);
    *library = NULL;
    if (reply_length) {
        *error = make_file(place, reply + IMAGE_AT, reply_length);
        status = *error ? SKEWGUARD_IO_ERROR : SKEWGUARD_DONE;
    } else {
        status = SKEWGUARD_NO_MEMORY;
    }
    free(reply);
    return status;
}

/* -- an open one */

/* The bytes of a file, all of which are on the disk. */
static int read_synced(const Place *place, int file, unsigned char **bytes, size_t *length)
{
    struct stat found;
    size_t size, at = 0;
    int error = sync_folder(place);
    if (error)
        return error;
    if (fsync(file) || fstat(file, &found))
        return errno;
    size = (size_t)found.st_size;
    *bytes = malloc(size ? size : 1);
    if (!*bytes)
        return ENOMEM;
    while (at < size) {
        ssize_t count = pread(file, *bytes + at, size - at, (off_t)at);
        if (count < 0 && errno == EINTR)
            continue;
        if (count < 0)
            return errno;
        if (count == 0)
            break;
        at += (size_t)count;
    }
    *length = at;
    return 0;
}

/* Behind the next line feed; at the end where there is none. */
static const unsigned char *behind_line(const unsigned char *at, const unsigned char *end)
{
    const unsigned char *found = memchr(at, '\n', (size_t)(end - at));
    return found ? found + 1 : end;
}

/* Sets where the lines become too long, by how long the commits behind this place may be. */
static void set_longest(Journal *journal, uint64_t from)
{
    uint64_t commits = journal->most > journal->image ? journal->most : journal->image;
    journal->longest = journal->most ? from + commits : UINT64_MAX;
}

/* Notes where the image ends, which is the third line, behind the header and an empty one, and where all lines do,
 * behind which there are zeros. */
static void measure(Journal *journal, const unsigned char *bytes, size_t length)
{
    const unsigned char *end = bytes + length, *zeros = memchr(bytes, 0, length);
    journal->image = (uint64_t)(behind_line(behind_line(behind_line(bytes, end), end), end) - bytes);
    journal->end = (uint64_t)((zeros ? zeros : end) - bytes);
    set_longest(journal, journal->image);
}

/* Opens the library on the file that is there. */
static int32_t open_there(const unsigned char *request, size_t length, Journal *journal)
{
    unsigned char *bytes = NULL;
    size_t file_length = 0;
    int32_t status;
    int error = read_synced(&journal->place, journal->file, &bytes, &file_length);
    if (error) {
        free(bytes);
        journal->error = error;
        return error == ENOMEM ? SKEWGUARD_NO_MEMORY : SKEWGUARD_IO_ERROR;
    }
    status = skewguard_library_open_journal(request, length, bytes, file_length, &journal->library);
    if (!status && settle(journal))
        status = SKEWGUARD_IO_ERROR;
    else if (status)
        status = SKEWGUARD_NO_MEMORY;
    /* (settled, since the calls behind an opening write zeros behind the lines) */
    measure(journal, bytes, file_length);
    free(bytes);
    give_back(journal);
    return status;
}

static int32_t open_journal(const char *path, const unsigned char *request, size_t length, Journal *journal)
{
    int32_t status;
    journal->error = find_place(path, &journal->place);
    if (journal->error)
        return SKEWGUARD_IO_ERROR;
    journal->error = open_locked(&journal->place, journal->place.name, 0, 0, &journal->file);
    if (journal->error == ENOENT) {
        journal->file = -1;
        journal->error = 0;
        status = make_journal(&journal->place, request, length, &journal->library, &journal->error);
        if (status || journal->library)
            return status;
        journal->error = open_locked(&journal->place, journal->place.name, 0, 0, &journal->file);
    }
    if (journal->error) {
        journal->file = -1;
        return SKEWGUARD_IO_ERROR;
    }
    return open_there(request, length, journal);
}

/* A journal that is not open yet, with the definitions of a request; null without memory. */
static Journal *new_journal(const unsigned char *request, size_t length)
{
    Journal *journal = calloc(1, sizeof *journal);
    if (!journal)
        return NULL;
    journal->file = journal->place.folder = -1;
    journal->most = COMMITS;
    journal->longest = UINT64_MAX;
    journal->capacity = CALLS;
    journal->calls = malloc(journal->capacity);
    journal->definitions = malloc(length);
    if (!journal->calls || !journal->definitions) {
        skewguard_journal_close(journal);
        return NULL;
    }
    journal->definitions_length = length - NUMBER;
    memcpy(journal->definitions, request + NUMBER, journal->definitions_length);
    return journal;
}

int32_t skewguard_journal_open(const char *path, const unsigned char *request, size_t length, void **made, int *error)
{
    int32_t status;
    Journal *journal;
    *made = NULL;
    *error = 0;
    if (!path || length < NUMBER)
        return SKEWGUARD_BAD_REQUEST;
    journal = new_journal(request, length);
    if (!journal)
        return SKEWGUARD_NO_MEMORY;
    status = open_journal(path, request, length, journal);
    if (status != SKEWGUARD_DONE) {
        *error = journal->error;
        skewguard_journal_close(journal);
        return status;
    }
    *made = journal;
    return status;
}

/* -- a checkpoint */

/* Gives a draft of these bytes the name, and goes on in it. Where the library does not take it for the image of its
 * tables, nothing has changed; behind that an errno is also that of all calls from then on, since it is not known which
 * of the two files has the name. */
static int go_on_in(Journal *journal, int file, const unsigned char *bytes, size_t length)
{
    unsigned char reply[64];
    size_t reply_length;
    int old = journal->file, error;
    if (skewguard_library_call(journal->library, SKEWGUARD_DO_MOVE, bytes, length, reply, sizeof reply, &reply_length)
        != SKEWGUARD_DONE) {
        drop_draft(&journal->place, file);
        return ENOMEM;
    }
    journal->file = file;
    error = settle(journal);
    if (!error && renameat(journal->place.folder, journal->place.draft, journal->place.folder, journal->place.name))
        error = errno;
    if (!error)
        error = sync_folder(&journal->place);
    close(old);
    journal->image = journal->end = length;
    return note(journal, error);
}

/* Puts this beginning of a journal in the place of the file. */
static int replace_file(Journal *journal, const unsigned char *bytes, size_t length)
{
    int file, error = make_draft(&journal->place, journal->file, bytes, length, 0, &file);
    return error ? error : go_on_in(journal, file, bytes, length);
}

int skewguard_journal_checkpoint(void *made)
{
    Journal *journal = made;
    unsigned char *reply = NULL;
    size_t length;
    int error = settle(journal);
    if (error)
        return error;
    length = image_of(journal->library, journal->definitions, journal->definitions_length, &reply);
    error = length ? replace_file(journal, reply + IMAGE_AT, length) : ENOMEM;
    free(reply);
    set_longest(journal, journal->image);
    return error;
}

/* Makes a checkpoint where the commits have become long. One that fails is tried again when they are as long again: the
 * file goes on. */
static void shorten(Journal *journal)
{
    if (journal->error || journal->end <= journal->longest)
        return;
    if (skewguard_journal_checkpoint(journal))
        set_longest(journal, journal->end);
}

void skewguard_journal_checkpoint_bytes(void *made, uint64_t bytes)
{
    Journal *journal = made;
    journal->most = bytes;
    set_longest(journal, journal->image);
}

/* -- calls */

int skewguard_journal_made(void *made, int error)
{
    Journal *journal = made;
    if (!note(journal, error))
        shorten(journal);
    return journal->error;
}

size_t skewguard_journal_failure(int error, unsigned char *reply, size_t capacity)
{
    uint64_t number = (uint64_t)error;
    if (capacity < 1 + NUMBER)
        return 0;
    reply[0] = SKEWGUARD_MISUSED;
    memcpy(reply + 1, &number, NUMBER);
    return 1 + NUMBER;
}

int32_t skewguard_journal_start(void *made, uint32_t operation, const unsigned char *request, size_t length,
                                unsigned char *reply, size_t capacity, size_t *reply_length)
{
    Journal *journal = made;
    if (!journal->error)
        return skewguard_library_call(journal->library, operation, request, length, reply, capacity, reply_length);
    *reply_length = skewguard_journal_failure(journal->error, reply, capacity);
    return SKEWGUARD_IO_ERROR;
}

int32_t skewguard_journal_call(void *made, uint32_t operation, const unsigned char *request, size_t length,
                               unsigned char *reply, size_t capacity, size_t *reply_length)
{
    Journal *journal = made;
    int32_t status;
    /* (what the last call was answered is the library's to give again until the next one) */
    if (operation != SKEWGUARD_DO_AGAIN && operation != SKEWGUARD_DO_LINE)
        shorten(journal);
    status = skewguard_journal_start(made, operation, request, length, reply, capacity, reply_length);
    if (!settle(journal))
        return status;
    *reply_length = skewguard_journal_failure(journal->error, reply, capacity);
    return SKEWGUARD_IO_ERROR;
}

void skewguard_journal_close(void *made)
{
    Journal *journal = made;
    if (!journal)
        return;
    if (journal->library)
        skewguard_library_close(journal->library);
    if (journal->file >= 0)
        close(journal->file);
    if (journal->place.folder >= 0)
        close(journal->place.folder);
    free(journal->calls);
    free(journal->definitions);
    free(journal);
}
