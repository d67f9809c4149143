/*
 * A journal on a file of which each call fails in turn. It is linked with --wrap for each of these calls:
 * -Wl,--wrap=pwrite,--wrap=fdatasync,--wrap=fsync,--wrap=linkat,--wrap=unlinkat,--wrap=renameat.
 */
#define _DEFAULT_SOURCE
#include <errno.h>
#include <fcntl.h>
#include <stdint.h>
#include <sys/stat.h>
#include <unistd.h>

#include "expect.h"

static const char definitions[] =
    "CREATE TABLE ENTRY (ID INTEGER PRIMARY KEY, OWNER VARCHAR(10), AMOUNT INTEGER NOT NULL);"
    "CREATE ASSERTION COVERED CHECK (NOT EXISTS ("
    "SELECT OWNER FROM ENTRY GROUP BY OWNER HAVING SUM(AMOUNT) < 0));"
    "INSERT INTO ENTRY VALUES (1000, 'LEE', 5);";

static const char insert[] = "INSERT INTO ENTRY VALUES (?, 'KIM', 1)";

enum { COMMITS = 4 };

/* ---- calls that fail */

enum manner { FAILS, IS_CUT_SHORT };

static enum manner manner;
static long left;  /* so many calls are made before the one that fails; below 0 none does */
static int has_failed;

/* Whether this call is the one. */
static int is_due(void)
{
    int due = left == 0;
    if (left >= 0)
        left--;
    has_failed |= due;
    return due;
}

ssize_t __real_pwrite(int file, const void *bytes, size_t length, off_t place);
int __real_fdatasync(int file);
int __real_fsync(int file);
int __real_linkat(int from, const char *old, int to, const char *name, int flags);
int __real_unlinkat(int folder, const char *name, int flags);
int __real_renameat(int from, const char *old, int to, const char *name);

ssize_t __wrap_pwrite(int file, const void *bytes, size_t length, off_t place);
int __wrap_fdatasync(int file);
int __wrap_fsync(int file);
int __wrap_linkat(int from, const char *old, int to, const char *name, int flags);
int __wrap_unlinkat(int folder, const char *name, int flags);
int __wrap_renameat(int from, const char *old, int to, const char *name);

/* A write that is cut short writes half, and the one behind it meets a full disk. */
ssize_t __wrap_pwrite(int file, const void *bytes, size_t length, off_t place)
{
    if (!is_due())
        return __real_pwrite(file, bytes, length, place);
    if (manner == IS_CUT_SHORT && length > 1) {
        left = 0;
        return __real_pwrite(file, bytes, length / 2, place);
    }
    errno = ENOSPC;
    return -1;
}

static int fail(void)
{
    errno = EIO;
    return -1;
}

int __wrap_fdatasync(int file)
{
    return is_due() ? fail() : __real_fdatasync(file);
}

int __wrap_fsync(int file)
{
    return is_due() ? fail() : __real_fsync(file);
}

int __wrap_linkat(int from, const char *old, int to, const char *name, int flags)
{
    return is_due() ? fail() : __real_linkat(from, old, to, name, flags);
}

int __wrap_unlinkat(int folder, const char *name, int flags)
{
    return is_due() ? fail() : __real_unlinkat(folder, name, flags);
}

int __wrap_renameat(int from, const char *old, int to, const char *name)
{
    return is_due() ? fail() : __real_renameat(from, old, to, name);
}

/* ---- a ledger on it */

static char path[64], beside[80];

/* After so many bytes of commits a checkpoint is made; 0: as if nothing is said. */
static uint64_t checkpoint_bytes;

static skewguard_status open_ledger(skewguard *db)
{
    skewguard_status status = skewguard_open_journal(db, path, definitions, strlen(definitions), 1000);
    if (checkpoint_bytes)
        skewguard_checkpoint_bytes(db, checkpoint_bytes);
    return status;
}

/* How many rows KIM has, each of which a transaction put in. */
static uint64_t count_rows(skewguard *db)
{
    uint64_t session;
    const char *select = "SELECT * FROM ENTRY WHERE OWNER = 'KIM';";
    EXPECT(open_session(db, "CAROL", &session) == SKEWGUARD_DONE);
    EXPECT(skewguard_begin(db, session) == SKEWGUARD_DONE);
    EXPECT(skewguard_execute(db, session, select, strlen(select)) == SKEWGUARD_DONE);
    return db->reply.rows;
}

/* A checkpoint, which may fail as well, and be all that fails. */
static void make_checkpoint(skewguard *db)
{
    skewguard_status status = skewguard_checkpoint(db, "", 0, NULL, 0);
    if (status == SKEWGUARD_IO_ERROR)
        EXPECT(db->reply.kind == SKEWGUARD_MISUSED && (db->reply.number == EIO || db->reply.number == ENOSPC));
    else
        EXPECT(status == SKEWGUARD_DONE && db->reply.kind == SKEWGUARD_TEXT && db->reply.text.length);
}

/* Commits so often, up to the first COMMIT that fails: so many are answered. Before the last one comes a checkpoint. */
static uint64_t commit_some(skewguard *db)
{
    uint64_t session, statement, done;
    if (open_session(db, "KIM", &session) != SKEWGUARD_DONE
        || skewguard_prepare(db, insert, strlen(insert), &statement) != SKEWGUARD_DONE)
        return 0;
    for (done = 0; done < COMMITS; done++) {
        skewguard_value id = skewguard_number((int64_t)done);
        skewguard_step step = {0, NULL, 1};
        step.statement = statement;
        step.values = &id;
        if (done == COMMITS - 1)
            make_checkpoint(db);
        if (skewguard_run_transaction(db, session, &step, 1) != SKEWGUARD_DONE) {
            EXPECT(db->reply.kind == SKEWGUARD_MISUSED && (db->reply.number == EIO || db->reply.number == ENOSPC));
            EXPECT(skewguard_begin(db, session) == SKEWGUARD_IO_ERROR);
            EXPECT(skewguard_report(db) == SKEWGUARD_IO_ERROR && db->reply.number);
            return done;
        }
    }
    return done;
}

/* Opens, commits and opens again, where the n-th call fails. Whether one did. */
static int try_failure(long number)
{
    skewguard db;
    skewguard_status status;
    uint64_t answered = 0, found;
    unlink(path);
    unlink(beside);
    left = number;
    has_failed = 0;
    status = open_ledger(&db);
    EXPECT(status == (has_failed ? SKEWGUARD_IO_ERROR : SKEWGUARD_DONE));
    if (status == SKEWGUARD_DONE)
        answered = commit_some(&db);
    EXPECT(has_failed || answered == COMMITS);
    skewguard_close(&db);
    left = -1;
    EXPECT(open_ledger(&db) == SKEWGUARD_DONE);
    found = count_rows(&db);
    EXPECT(answered <= found && found <= answered + (answered < COMMITS));
    skewguard_close(&db);
    return has_failed;
}

static void each_call_fails_in(enum manner kind)
{
    long number;
    manner = kind;
    for (number = 0; try_failure(number); number++)
        ;
    EXPECT(number > 2 * COMMITS);
}

static void each_call_fails(void)
{
    for (checkpoint_bytes = 0; checkpoint_bytes <= 1; checkpoint_bytes++) {
        each_call_fails_in(FAILS);
        each_call_fails_in(IS_CUT_SHORT);
    }
    checkpoint_bytes = 0;
}

/* ---- checkpoints */

/* Opens the ledger, and begins a transaction of a session. */
static uint64_t begin_on(skewguard *db)
{
    uint64_t session = 0;
    EXPECT(open_ledger(db) == SKEWGUARD_DONE);
    EXPECT(open_session(db, "LEE", &session) == SKEWGUARD_DONE);
    EXPECT(skewguard_begin(db, session) == SKEWGUARD_DONE);
    return session;
}

static off_t file_length(void)
{
    struct stat found;
    EXPECT(!stat(path, &found));
    return found.st_size;
}

static void checkpoint_makes_it_short(void)
{
    skewguard db;
    struct stat found;
    skewguard_text name = {"COVERED", 7};
    unlink(path);
    EXPECT(open_ledger(&db) == SKEWGUARD_DONE && commit_some(&db) == COMMITS);
    EXPECT(file_length() > 1 << 20 && !chmod(path, 0640));
    EXPECT(skewguard_checkpoint(&db, "", 0, &name, 1) == SKEWGUARD_JOURNALED && file_length() > 1 << 20);
    EXPECT(skewguard_checkpoint(&db, "", 0, NULL, 0) == SKEWGUARD_DONE && file_length() < 1 << 10);
    EXPECT(db.reply.kind == SKEWGUARD_TEXT && !strncmp(db.reply.text.bytes, "COMMITS 1\n", 10));
    EXPECT(!stat(path, &found) && (found.st_mode & 07777) == 0640);
    EXPECT(count_rows(&db) == COMMITS);
    skewguard_close(&db);
    EXPECT(open_ledger(&db) == SKEWGUARD_DONE && count_rows(&db) == COMMITS);
    skewguard_close(&db);
}

static void checkpoint_leaves_transactions_open(void)
{
    skewguard db;
    uint64_t session;
    const char *change = "DELETE FROM ENTRY WHERE ID = 1000";
    unlink(path);
    session = begin_on(&db);
    EXPECT(skewguard_execute(&db, session, change, strlen(change)) == SKEWGUARD_DONE);
    EXPECT(skewguard_checkpoint(&db, "", 0, NULL, 0) == SKEWGUARD_REFUSED && db.reply.refusal.number == 15);
    EXPECT(skewguard_commit(&db, session) == SKEWGUARD_DONE && db.reply.number == 1);
    EXPECT(!mkdir(beside, 0700));
    EXPECT(skewguard_checkpoint(&db, "", 0, NULL, 0) == SKEWGUARD_IO_ERROR && db.reply.number == EISDIR);
    EXPECT(!rmdir(beside) && skewguard_begin(&db, session) == SKEWGUARD_DONE);
    skewguard_close(&db);
    session = begin_on(&db);
    EXPECT(skewguard_execute(&db, session, change, strlen(change)) == SKEWGUARD_DONE && db.reply.number == 0);
    skewguard_close(&db);
}

/* The numbers of a full epoch begin anew, and the file goes on. */
static void checkpoint_follows_a_full_epoch(void)
{
    skewguard db;
    uint64_t session, count;
    const char *change = "UPDATE ENTRY SET AMOUNT = AMOUNT + 1";
    unlink(path);
    EXPECT(skewguard_open_journal(&db, path, definitions, strlen(definitions), 2) == SKEWGUARD_DONE);
    EXPECT(open_session(&db, "LEE", &session) == SKEWGUARD_DONE);
    for (count = 0; count < 6; count++) {
        if (count && count % 2 == 0)
            EXPECT(skewguard_checkpoint(&db, "", 0, NULL, 0) == SKEWGUARD_DONE);
        EXPECT(skewguard_begin(&db, session) == SKEWGUARD_DONE);
        EXPECT(skewguard_execute(&db, session, change, strlen(change)) == SKEWGUARD_DONE);
        EXPECT(skewguard_commit(&db, session) == SKEWGUARD_DONE && db.reply.number == count % 2 + 1);
    }
    EXPECT(skewguard_begin(&db, session) == SKEWGUARD_DONE);
    EXPECT(skewguard_commit(&db, session) == SKEWGUARD_REFUSED);
    skewguard_close(&db);
    change = "SELECT * FROM ENTRY WHERE AMOUNT = 11";
    session = begin_on(&db);
    EXPECT(skewguard_execute(&db, session, change, strlen(change)) == SKEWGUARD_DONE && db.reply.rows == 1);
    skewguard_close(&db);
}

/* Between a call and a reply that had no room no checkpoint comes, and the file stays short by itself. */
static void checkpoints_come_by_themselves(void)
{
    skewguard db;
    uint64_t session, count;
    char change[80];
    unlink(path);
    EXPECT(open_ledger(&db) == SKEWGUARD_DONE);
    EXPECT(open_session(&db, "LEE", &session) == SKEWGUARD_DONE);
    skewguard_checkpoint_bytes(&db, 1);
    for (count = 0; count < 300; count++) {
        snprintf(change, sizeof change, "INSERT INTO ENTRY VALUES (%d, 'LEE', 1)", (int)count);
        EXPECT(skewguard_begin(&db, session) == SKEWGUARD_DONE);
        EXPECT(skewguard_execute(&db, session, change, strlen(change)) == SKEWGUARD_DONE);
        EXPECT(skewguard_execute(&db, session, "SELECT * FROM ENTRY", 19) == SKEWGUARD_DONE);
        EXPECT(db.reply.rows == count + 2);
        EXPECT(skewguard_commit(&db, session) == SKEWGUARD_DONE && db.reply.number == count + 1);
        EXPECT(skewguard_line(&db) == SKEWGUARD_DONE && !strncmp(db.reply.text.bytes, "LEE: COMMIT ", 12));
    }
    skewguard_close(&db);
    session = begin_on(&db);
    EXPECT(skewguard_execute(&db, session, "SELECT * FROM ENTRY", 19) == SKEWGUARD_DONE && db.reply.rows == 301);
    skewguard_close(&db);
}

/* ---- what stands in the place of a journal */

static void is_not_opened(int error)
{
    skewguard db;
    EXPECT(open_ledger(&db) == SKEWGUARD_IO_ERROR);
    if (db.reply.number != (uint64_t)error)
        fprintf(stderr, "errno %d in the place of %d\n", (int)db.reply.number, error);
    EXPECT(db.reply.number == (uint64_t)error && !db.journal);
    EXPECT(skewguard_report(&db) == SKEWGUARD_CLOSED);
    skewguard_close(&db);
}

static void other_files(void)
{
    char link_to[80];
    snprintf(link_to, sizeof link_to, "%s.link", path);
    unlink(path);
    EXPECT(!mkdir(path, 0700));
    is_not_opened(EISDIR);
    EXPECT(!rmdir(path) && !mkfifo(path, 0600));
    is_not_opened(ENOTSUP);
    EXPECT(!unlink(path) && !symlink("nowhere", path));
    is_not_opened(ELOOP);
    EXPECT(!unlink(path));
}

static void write_file(const char *bytes, size_t length, off_t place)
{
    int file = open(path, O_WRONLY | O_CREAT, 0600);
    EXPECT(file >= 0 && __real_pwrite(file, bytes, length, place) == (ssize_t)length);
    close(file);
}

static void is_unrestored(skewguard_journal_fault fault)
{
    skewguard db;
    EXPECT(open_ledger(&db) == SKEWGUARD_UNRESTORED && db.reply.journal_fault == fault);
    EXPECT(db.reply.kind == SKEWGUARD_JOURNAL_FAULT && !db.journal);
    skewguard_close(&db);
}

static void damaged_files(void)
{
    skewguard db, second;
    const char *others = "CREATE TABLE T (ID INTEGER PRIMARY KEY);";
    char bytes[512];
    ssize_t length;
    char *place;
    int file;
    write_file("no journal", 10, 0);
    is_unrestored(SKEWGUARD_JOURNAL_NONE);
    unlink(path);
    EXPECT(open_ledger(&db) == SKEWGUARD_DONE && commit_some(&db) == COMMITS);
    EXPECT(skewguard_open_journal(&second, path, definitions, strlen(definitions), 9) == SKEWGUARD_IO_ERROR);
    EXPECT(second.reply.number == EWOULDBLOCK);
    skewguard_close(&second);
    skewguard_close(&db);
    EXPECT(skewguard_open_journal(&db, path, others, strlen(others), 9) == SKEWGUARD_UNRESTORED);
    EXPECT(db.reply.journal_fault == SKEWGUARD_JOURNAL_OF_OTHERS);
    skewguard_close(&db);
    file = open(path, O_RDONLY);
    length = pread(file, bytes, sizeof bytes - 1, 0);
    close(file);
    bytes[length > 0 ? length : 0] = '\0';
    place = strstr(bytes, "KIM");
    EXPECT(place != NULL);
    if (place) {
        write_file("TOM", 3, place - bytes);
        is_unrestored(SKEWGUARD_JOURNAL_DAMAGED);
    }
    unlink(path);
}

int main(int count, char **words)
{
    snprintf(path, sizeof path, "/tmp/skewguard-journal-%d", (int)getpid());
    snprintf(beside, sizeof beside, "%s.new", path);
    (void)count, (void)words;
    left = -1;
    other_files();
    damaged_files();
    checkpoint_makes_it_short();
    checkpoint_leaves_transactions_open();
    checkpoint_follows_a_full_epoch();
    checkpoints_come_by_themselves();
    each_call_fails();
    unlink(path);
    return told("journal");
}
