/*
 * Transactions of one UPDATE each, from C, on threads: skewguard behind a lock round each call, or SQLite in memory
 * behind a lock round each transaction. bench/languages.py builds and runs it.
 *
 *     languages skewguard|at_once|sqlite SETUP UPDATE CHANGES THREADS
 *
 * SETUP is a file of SQL; UPDATE a statement with two parameters; CHANGES a file of pairs of 64-bit numbers, the
 * values of each transaction. It prints the seconds that passed, those of the processor, and how many COMMITs others
 * were in the way of.
 */
#include <pthread.h>
#include <skewguard.h>
#include <sqlite3.h>
#include <stdio.h>
#include <time.h>

enum { MOST_THREADS = 64 };

typedef struct side {
    void (*change)(struct side *side, int thread, const int64_t *values);
    pthread_mutex_t lock;
    const int64_t *changes;
    size_t count;
    int threads;
    size_t refused[MOST_THREADS];
    skewguard db;
    uint64_t sessions[MOST_THREADS], statement;
    sqlite3 *base;
    sqlite3_stmt *begin, *update, *commit;
} side;

static void stop(const char *why)
{
    fprintf(stderr, "%s\n", why);
    exit(1);
}

static char *read_file(const char *path, size_t *length)
{
    FILE *file = fopen(path, "rb");
    char *bytes;
    if (!file || fseek(file, 0, SEEK_END))
        stop(path);
    *length = (size_t)ftell(file);
    rewind(file);
    bytes = malloc(*length + 1);
    if (!bytes || fread(bytes, 1, *length, file) != *length)
        stop(path);
    bytes[*length] = 0;
    fclose(file);
    return bytes;
}

static double seconds(clockid_t clock)
{
    struct timespec now;
    clock_gettime(clock, &now);
    return (double)now.tv_sec + (double)now.tv_nsec / 1e9;
}

/* -- skewguard */

/* Runs a change once; 0 where others were in the way of its COMMIT. */
static int run_in_skewguard(side *it, uint64_t session, const skewguard_value *values)
{
    skewguard_status status;
    int number = 0;

    pthread_mutex_lock(&it->lock);
    if (skewguard_begin(&it->db, session) != SKEWGUARD_DONE)
        stop("BEGIN was refused");
    pthread_mutex_unlock(&it->lock);

    pthread_mutex_lock(&it->lock);
    status = skewguard_run(&it->db, session, it->statement, values, 2);
    if (status != SKEWGUARD_DONE || it->db.reply.kind != SKEWGUARD_UPDATED || it->db.reply.number != 1)
        stop("an UPDATE was not answered as it has to be");
    pthread_mutex_unlock(&it->lock);

    pthread_mutex_lock(&it->lock);
    status = skewguard_commit(&it->db, session);
    if (status == SKEWGUARD_REFUSED)
        number = it->db.reply.refusal.number;
    pthread_mutex_unlock(&it->lock);

    if (status != SKEWGUARD_DONE && number != 12 && number != 13)
        stop("a COMMIT was refused");
    return status == SKEWGUARD_DONE;
}

static void change_in_skewguard(side *it, int thread, const int64_t *numbers)
{
    skewguard_value values[2];
    values[0] = skewguard_number(numbers[0]);
    values[1] = skewguard_number(numbers[1]);
    while (!run_in_skewguard(it, it->sessions[thread], values))
        it->refused[thread]++;
}

/* The whole transaction in one call. */
static void change_at_once(side *it, int thread, const int64_t *numbers)
{
    skewguard_value values[2];
    skewguard_step only;
    skewguard_status status;
    values[0] = skewguard_number(numbers[0]);
    values[1] = skewguard_number(numbers[1]);
    only.statement = it->statement;
    only.values = values;
    only.count = 2;
    pthread_mutex_lock(&it->lock);
    status = skewguard_run_transaction(&it->db, it->sessions[thread], &only, 1);
    if (status != SKEWGUARD_DONE || !skewguard_next_reply(&it->db) || !skewguard_next_reply(&it->db)
        || it->db.reply.kind != SKEWGUARD_UPDATED || it->db.reply.number != 1)
        stop("a transaction was not answered as it has to be");
    pthread_mutex_unlock(&it->lock);
}

static void open_skewguard(side *it, const char *setup, size_t length, const char *update, int at_once)
{
    int thread;
    char name[16];
    if (skewguard_open(&it->db, setup, length, 1000000) != SKEWGUARD_DONE)
        stop("the definitions were refused");
    for (thread = 0; thread < it->threads; thread++) {
        int written = snprintf(name, sizeof name, "T%d", thread);
        if (skewguard_open_session(&it->db, name, (size_t)written, &it->sessions[thread]) != SKEWGUARD_DONE)
            stop("a session was refused");
    }
    if (skewguard_prepare(&it->db, update, strlen(update), &it->statement) != SKEWGUARD_DONE)
        stop("the statement was refused");
    it->change = at_once ? change_at_once : change_in_skewguard;
}

/* -- SQLite */

static void step(sqlite3_stmt *statement)
{
    if (sqlite3_step(statement) != SQLITE_DONE)
        stop("SQLite refused a statement");
    sqlite3_reset(statement);
}

static void change_in_sqlite(side *it, int thread, const int64_t *numbers)
{
    (void)thread;
    pthread_mutex_lock(&it->lock);
    step(it->begin);
    sqlite3_bind_int64(it->update, 1, numbers[0]);
    sqlite3_bind_int64(it->update, 2, numbers[1]);
    step(it->update);
    if (sqlite3_changes(it->base) != 1)
        stop("an UPDATE was not answered as it has to be");
    step(it->commit);
    pthread_mutex_unlock(&it->lock);
}

static void open_sqlite(side *it, const char *setup, const char *update)
{
    if (sqlite3_open(":memory:", &it->base) || sqlite3_exec(it->base, setup, NULL, NULL, NULL)
        || sqlite3_prepare_v2(it->base, "BEGIN", -1, &it->begin, NULL)
        || sqlite3_prepare_v2(it->base, update, -1, &it->update, NULL)
        || sqlite3_prepare_v2(it->base, "COMMIT", -1, &it->commit, NULL))
        stop(sqlite3_errmsg(it->base));
    it->change = change_in_sqlite;
}

/* -- both */

typedef struct work {
    side *side;
    int thread;
} work;

static void *run(void *given)
{
    const work *own = given;
    size_t at;
    for (at = (size_t)own->thread; at < own->side->count; at += (size_t)own->side->threads)
        own->side->change(own->side, own->thread, own->side->changes + 2 * at);
    return NULL;
}

int main(int count, char **words)
{
    static side it;
    static work works[MOST_THREADS];
    pthread_t threads[MOST_THREADS];
    size_t length, bytes, refused = 0;
    char *setup;
    double passed, used;
    int thread;

    if (count != 6)
        stop("languages skewguard|at_once|sqlite SETUP UPDATE CHANGES THREADS");
    it.threads = atoi(words[5]);
    if (it.threads < 1 || it.threads > MOST_THREADS)
        stop("so many threads are not taken");
    pthread_mutex_init(&it.lock, NULL);
    setup = read_file(words[2], &length);
    it.changes = (const int64_t *)(const void *)read_file(words[4], &bytes);
    it.count = bytes / 16;
    if (strcmp(words[1], "sqlite"))
        open_skewguard(&it, setup, length, words[3], !strcmp(words[1], "at_once"));
    else
        open_sqlite(&it, setup, words[3]);

    passed = seconds(CLOCK_MONOTONIC);
    used = seconds(CLOCK_PROCESS_CPUTIME_ID);
    for (thread = 0; thread < it.threads; thread++) {
        works[thread].side = &it;
        works[thread].thread = thread;
        if (pthread_create(&threads[thread], NULL, run, &works[thread]))
            stop("a thread was refused");
    }
    for (thread = 0; thread < it.threads; thread++)
        pthread_join(threads[thread], NULL);
    passed = seconds(CLOCK_MONOTONIC) - passed;
    used = seconds(CLOCK_PROCESS_CPUTIME_ID) - used;
    for (thread = 0; thread < it.threads; thread++)
        refused += it.refused[thread];
    printf("%.6f %.6f %zu\n", passed, used, refused);
    return 0;
}
