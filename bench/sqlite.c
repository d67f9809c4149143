/*
 * The processor seconds of prepared statements in SQLite, from C, on a copy in memory of a database. bench/goals.py
 * builds and runs it.
 *
 *     sqlite DATABASE STATEMENTS WORK
 *
 * STATEMENTS is a file with a statement on each line; each line of WORK has the number of one, from 0, and its values.
 * WORK is read before the time begins. A statement with values has to change one row.
 */
#include <sqlite3.h>
#include <stdio.h>
#include <stdlib.h>
#include <string.h>
#include <time.h>

enum { STATEMENTS = 16, VALUES = 4, WIDTH = 1 + VALUES };

static void stop(const char *why)
{
    fprintf(stderr, "%s\n", why);
    exit(1);
}

static double seconds(void)
{
    struct timespec used;
    clock_gettime(CLOCK_PROCESS_CPUTIME_ID, &used);
    return used.tv_sec + used.tv_nsec * 1e-9;
}

/* A database in memory with what the file has. */
static sqlite3 *copied(const char *path)
{
    sqlite3 *file, *base;
    if (sqlite3_open_v2(path, &file, SQLITE_OPEN_READONLY, NULL)) stop("no database");
    if (sqlite3_open(":memory:", &base)) stop("no memory");
    sqlite3_backup *copy = sqlite3_backup_init(base, "main", file, "main");
    if (!copy || sqlite3_backup_step(copy, -1) != SQLITE_DONE || sqlite3_backup_finish(copy)) stop("no copy");
    sqlite3_close(file);
    return base;
}

static int prepared(sqlite3 *base, const char *path, sqlite3_stmt **statements)
{
    char line[1000];
    int count = 0;
    FILE *in = fopen(path, "r");
    while (in && count < STATEMENTS && fgets(line, sizeof line, in))
        if (sqlite3_prepare_v3(base, line, -1, SQLITE_PREPARE_PERSISTENT, &statements[count++], NULL)) stop(line);
    return count;
}

/* For each line of the work the number of the statement and its values. */
static long long *work_of(const char *path, sqlite3_stmt **statements, int count, size_t *steps)
{
    size_t room = 0;
    long long *work = NULL;
    FILE *in = fopen(path, "r");
    if (!in) stop("no work");
    for (*steps = 0;; ++*steps) {
        if (*steps == room) work = realloc(work, (room = 2 * room + 1000) * WIDTH * sizeof *work);
        if (!work) stop("no memory");
        long long *step = work + *steps * WIDTH;
        if (fscanf(in, "%lld", step) != 1) return work;
        if (step[0] < 0 || step[0] >= count) stop("no such statement");
        for (int at = 1; at <= sqlite3_bind_parameter_count(statements[step[0]]); ++at)
            if (at > VALUES || fscanf(in, "%lld", step + at) != 1) stop("no value");
    }
}

static void run(sqlite3 *base, sqlite3_stmt *statement, const long long *values)
{
    int count = sqlite3_bind_parameter_count(statement);
    for (int at = 1; at <= count; ++at) sqlite3_bind_int64(statement, at, values[at - 1]);
    if (sqlite3_step(statement) != SQLITE_DONE || sqlite3_reset(statement)) stop(sqlite3_errmsg(base));
    if (count && sqlite3_changes(base) != 1) stop("a statement did not change one row");
}

int main(int count, char **words)
{
    sqlite3_stmt *statements[STATEMENTS];
    size_t steps;
    if (count != 4) stop("sqlite DATABASE STATEMENTS WORK");
    sqlite3 *base = copied(words[1]);
    long long *work = work_of(words[3], statements, prepared(base, words[2], statements), &steps);
    double start = seconds();
    for (size_t at = 0; at < steps; ++at) run(base, statements[work[at * WIDTH]], work + at * WIDTH + 1);
    printf("%.6f\n", seconds() - start);
    return 0;
}
