/*
 * A script of sessions through the library, with the report that `skewguard replay` prints of it:
 *
 *     replay DEFS SCRIPT
 *
 * A call that finds no memory is made once more, so that the report is the same with an allocation refused. Status 2
 * where it can't be told.
 */
#define _POSIX_C_SOURCE 200809L

#include "skewguard.h"

#include <fcntl.h>
#include <stdio.h>
#include <unistd.h>

enum { SESSIONS = 256, TRIES = 2 };

struct member {
    char name[129];
    uint64_t session;
    int open;
};

static struct member members[SESSIONS];
static size_t member_count;

static int stop(const char *why)
{
    fprintf(stderr, "replay: %s\n", why);
    return 2;
}

/* The bytes of a file, without memory of its own. */
static char *contents(const char *path, size_t *length)
{
    static char room[2][1 << 20];
    static int given;
    char *bytes = room[given++];
    ssize_t count;
    int file = open(path, O_RDONLY);
    if (file < 0)
        return NULL;
    count = read(file, bytes, sizeof room[0]);
    close(file);
    *length = count < 0 ? 0 : (size_t)count;
    return count < 0 ? NULL : bytes;
}

/* The end of the event that begins here: its semicolon, outside of quoted texts and comments. */
static size_t event_end(const char *text, size_t at, size_t length)
{
    int quoted = 0;
    for (; at < length && (quoted || text[at] != ';'); at++) {
        if (text[at] == '\'')
            quoted = !quoted;
        else if (!quoted && text[at] == '-' && at + 1 < length && text[at + 1] == '-')
            while (at + 1 < length && text[at + 1] != '\n')
                at++;
    }
    return at;
}

/* Behind white space and comments. */
static size_t word_start(const char *text, size_t at, size_t length)
{
    while (at < length) {
        if (text[at] == '-' && at + 1 < length && text[at + 1] == '-')
            while (at < length && text[at] != '\n')
                at++;
        else if (text[at] == ' ' || text[at] == '\n' || text[at] == '\t' || text[at] == '\r')
            at++;
        else
            break;
    }
    return at;
}

/* A call that found no memory has not happened, and is made again; one whose reply waits is asked for it. */
static skewguard_status settled(skewguard *db, skewguard_status status, int *again)
{
    *again = status == SKEWGUARD_NO_MEMORY && *again > 1 ? *again - 1 : 0;
    while (status == SKEWGUARD_REPLY_WAITS)
        status = skewguard_again(db);
    return status;
}

static skewguard_status open_database(skewguard *db, const char *text, size_t length)
{
    skewguard_status status;
    int again = TRIES;
    do {
        status = skewguard_open(db, text, length, 1000000);
        if (status == SKEWGUARD_NO_MEMORY)
            skewguard_close(db);
        status = settled(db, status, &again);
    } while (again);
    return status;
}

static struct member *member_of(skewguard *db, const char *name, size_t length)
{
    skewguard_status status;
    struct member *member;
    size_t place;
    int again = TRIES;
    for (place = 0; place < member_count; place++)
        if (strlen(members[place].name) == length && !memcmp(members[place].name, name, length))
            return &members[place];
    member = &members[member_count];
    do
        status = settled(db, skewguard_open_session(db, name, length, &member->session), &again);
    while (again);
    if (status != SKEWGUARD_DONE)
        return NULL;
    member->session = db->reply.number;
    memcpy(member->name, name, length);
    member_count++;
    return member;
}

static int print_line(skewguard *db)
{
    skewguard_status status;
    int again = TRIES;
    do
        status = skewguard_line(db);
    while (status == SKEWGUARD_REPLY_WAITS && again--);
    if (status != SKEWGUARD_DONE)
        return 0;
    fwrite(db->reply.text.bytes, 1, db->reply.text.length, stdout);
    return 1;
}

static int print_report(skewguard *db)
{
    skewguard_status status;
    int again = TRIES;
    do
        status = settled(db, skewguard_report(db), &again);
    while (again);
    if (status != SKEWGUARD_DONE)
        return 0;
    fwrite(db->reply.text.bytes, 1, db->reply.text.length, stdout);
    return 1;
}

static int is_end(const skewguard_reply *reply)
{
    int number = reply->refusal.number;
    return reply->kind == SKEWGUARD_COMMITTED || reply->kind == SKEWGUARD_ROLLED_BACK || number == 12 || number == 13
        || number == 17 || (number == 10 && !strcmp(reply->refusal.sqlstate, "40002"));
}

static int run_event(skewguard *db, struct member *member, const char *text, size_t length)
{
    skewguard_status status;
    int again = TRIES;
    do
        status = settled(db, skewguard_execute(db, member->session, text, length), &again);
    while (again);
    if (status != SKEWGUARD_DONE && status != SKEWGUARD_REFUSED)
        return 0;
    if (db->reply.kind == SKEWGUARD_BEGUN)
        member->open = 1;
    else if (is_end(&db->reply))
        member->open = 0;
    return print_line(db);
}

static int run_script(skewguard *db, const char *text, size_t length)
{
    size_t at = word_start(text, 0, length), colon, end;
    for (; at < length; at = word_start(text, end + 1, length)) {
        struct member *member;
        end = event_end(text, at, length);
        colon = at;
        while (colon < end && text[colon] != ':')
            colon++;
        member = member_of(db, text + at, colon - at);
        if (!member || !run_event(db, member, text + colon + 1, end - colon - 1))
            return 0;
    }
    return 1;
}

int main(int count, char **words)
{
    skewguard db;
    size_t definitions_length, script_length, place;
    char *definitions, *script;
    int status = 0;
    if (count != 3)
        return stop("replay DEFS SCRIPT");
    definitions = contents(words[1], &definitions_length);
    script = contents(words[2], &script_length);
    if (!definitions || !script)
        return stop("a file can't be read");
    if (open_database(&db, definitions, definitions_length) != SKEWGUARD_DONE)
        status = stop("the definitions were refused");
    else if (!run_script(&db, script, script_length))
        status = stop("an event was not answered");
    else {
        for (place = 0; place < member_count; place++)
            if (members[place].open)
                printf("%s: ROLLBACK AT END\n", members[place].name);
        if (!print_report(&db))
            status = stop("there is no memory for the report");
    }
    skewguard_close(&db);
    return status;
}
