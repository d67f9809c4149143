/*
 * skewguard: transactions over SQL-92 assertions and serializable snapshots, in this process.
 *
 *     skewguard db;
 *     uint64_t bob;
 *     if (skewguard_open(&db, definitions, strlen(definitions), 1000000) != SKEWGUARD_DONE)
 *         ...;                                      // db.reply.refusal says what is wrong with the definitions
 *     skewguard_open_session(&db, "BOB", 3, &bob);
 *     skewguard_begin(&db, bob);
 *     if (skewguard_execute(&db, bob, text, strlen(text)) == SKEWGUARD_REFUSED)
 *         ...;                                      // db.reply.refusal
 *     skewguard_commit(&db, bob);
 *     skewguard_close(&db);
 *
 * A call returns a skewguard_status, and leaves what it has to say in db.reply. Texts and values there point into
 * memory of db: they stay valid until the next call on db, but for skewguard_next_row and skewguard_column.
 *
 * What the library can see and does not do is told by a status, and nothing has changed then: a null pointer, a
 * session that is closed, a statement that is not there, a value that no statement takes. What it can't see is
 * undefined, and the caller's to keep:
 *
 * - a skewguard that was neither opened nor set to zero, that was copied after it was opened, or bytes of it that
 *   were written by the caller;
 * - a pointer to fewer bytes than the length beside it says, or a text that lies in db.reply;
 * - two calls at once on one skewguard: threads that share one need a lock around each call and the reading of its
 *   reply. Nothing of it belongs to a thread, so one call may come from another thread than the next, and calls on two
 *   skewguards may come from two threads at once;
 * - a thread with less than 256 KiB of stack.
 *
 * The library prints nothing, and never ends the process. It is for C99 and C++11, on x86-64.
 */
#ifndef SKEWGUARD_H
#define SKEWGUARD_H

#include <stddef.h>
#include <stdint.h>
#include <stdlib.h>
#include <string.h>

#ifdef __cplusplus
extern "C" {
#endif

/*
 * The library itself, for this header and for bindings of other languages. All else here is inline.
 *
 * What goes in and comes out is bytes. A *number* is eight bytes, the lowest first, and a negative one in two's
 * complement; a *text* is the number of its bytes, and these; a *value* is one byte for its kind and then what it
 * holds: 0 for NULL, 1 and a number, 2 and a text. In replies 3 is ALL, the root of an assertion that is false as a
 * whole, 4 stands where there is no value, and 5 and the text of its decimal digits for a number of a row that passes
 * 64 bits.
 *
 * | operation | request | reply |
 * |---|---|---|
 * | 0 the last reply again. Nothing has changed then | | as it was |
 * | 1 the line of the last answer or refusal in a report. Nothing has changed then | | text |
 * | 2 open a session | its name | session |
 * | 3 close a session. Its open transaction is rolled back, and its name is free | number of the session | changed |
 * | 4 prepare a statement | its text | statement |
 * | 5 forget a statement | number of the statement | changed |
 * | 6 run a statement | number of the session, number of the statement, how many values, and these | answer |
 * | 7 execute a text | number of the session, the text's bytes | answer |
 * | 8 BEGIN, 9 BEGIN READ ONLY, 10 COMMIT, 11 ROLLBACK | number of the session | answer |
 * | 12 the closing part of a report | | text |
 * | 13 checkpoint | the rules to create as a text, how many names to drop, and each as a value | text |
 * | 14 statements in turn, up to the first that is not done | number of the session, how many statements, | several |
 * | | and of each its number, how many values, and these | |
 * | 15 a transaction: BEGIN; where that is done, what 14 does, and COMMIT; or ROLLBACK, where a statement is | | |
 * | not done, or COMMIT finds no memory or is not kept | as 14 | several |
 * | 16 the beginning of a journal's file for the committed tables, by their definitions | the text's bytes | image |
 * | 17 the commits go on in another file of the journal, which holds what 16 gave | the file's bytes | opened |
 *
 * The status of 0 and 1 is that of the call whose response it was, and that of several replies the status of the first
 * that tells of something not done. Of several, 1 gives several: the line of each.
 *
 * A name, and the texts of 4 and 7, are all bytes that are left of their request, with no length in front. Either text
 * is one statement, whose final `;` may stand or not. The request of skewguard_library_open is the greatest number of
 * commits, and the bytes of the definitions; what became of them is the reply to operation 0, and where they were
 * refused every other call returns SKEWGUARD_CLOSED. It returns 0, or 2 without memory, and then there is nothing to
 * close. No pointer may be null, also beside a length of 0, and the bytes of the request and of the reply may not
 * overlap. A reply that is longer than capacity is there as far as it fits, and *reply_length is its whole length.
 *
 * The first byte of a reply is its kind (skewguard_kind), and behind it stands:
 *
 * | kind | what |
 * |---|---|
 * | nothing, changed, rolled back, modes set | |
 * | opened | number of the layout of requests and replies, SKEWGUARD_LAYOUT |
 * | session | number of the session |
 * | statement | number of the statement, number of its parameters |
 * | begun, committed | number of commits at the snapshot, number of the commit |
 * | inserted, updated, deleted | number of rows |
 * | rows | number of columns, the name of each as a text, number of rows, the values of each. A column that AS gives |
 * | | no name has that of the table, or of its set function (COUNT, SUM, MIN or MAX); else it is `?column?` |
 * | verdict | number: 0 false, 1 true, 2 unknown |
 * | text | the text |
 * | refused | number, SQLSTATE as a text of five bytes or none, name as a text, root or key as a value, five numbers |
 * | | (commit in the way; reader, pivot, writer, 0 for this transaction; offset in the text), the line as a text |
 * | misused | number of the parameter, from 1; or how many values are wanted |
 * | several | how many replies, and each of them, from its kind on |
 * | unrestored | number of the reason (skewguard_journal_fault), of the commit, and of the byte of the file |
 * | image | the bytes, as a text |
 */
#define SKEWGUARD_LAYOUT 1

int32_t skewguard_library_open(const unsigned char *request, size_t length, void **library);
int32_t skewguard_library_call(void *library, uint32_t operation, const unsigned char *request, size_t length,
                               unsigned char *reply, size_t capacity, size_t *reply_length);
void skewguard_library_close(void *library);

/*
 * Why a text was refused, as `skewguard check` draws it. The request is the number of what the text was to be
 * (skewguard_role), the number of the fault, the definitions as a text, and the bytes of the text. 0, and the drawing
 * is in reply as far as it fits; 2 without memory; 4 where the request is none. *reply_length is its whole length, 0
 * where no more is known.
 */
int32_t skewguard_library_draw(const unsigned char *request, size_t length, unsigned char *reply, size_t capacity,
                               size_t *reply_length);

/*
 * A library that keeps a journal hands out the calls on its file, since it reaches none by itself. file is all that
 * the file holds, and that is on the disk. What becomes of it is the reply to operation 0: opened, refused, or
 * unrestored. Behind it and behind each call take_calls hands out what has to be written and synced before the reply
 * is handed on, for all commits that have counted: 0, and the calls are in buffer, *length bytes of them, which may be
 * none; 1, and they are longer than capacity; or 2, and there was no memory for them, and no commit is kept any more.
 * The bytes of a call: 1, its place in the file, how many bytes, and these; 2, a place, and how many zeros to write
 * there; 3, all that was written has to be on the disk before what comes behind. The functions below them do all of
 * that.
 */
int32_t skewguard_library_open_journal(const unsigned char *request, size_t length, const unsigned char *file,
                                       size_t file_length, void **library);
int32_t skewguard_library_take_calls(void *library, unsigned char *buffer, size_t capacity, size_t *length);

/*
 * The library over the file of a journal, which is made where there is none, and locked. The request is that of
 * skewguard_library_open; calls are those of skewguard_library_call, and a reply is there only once all that it tells
 * of is on the disk. SKEWGUARD_IO_ERROR, and *error is the errno: EWOULDBLOCK where another process has the file, ELOOP
 * a link, EISDIR a folder, ENOTSUP what is no regular file. After a call that failed nothing is answered any more but
 * SKEWGUARD_IO_ERROR, with the kind misused and the errno: open the file again.
 *
 * Where the commits behind the image have become longer than 16 MiB, and than the image, a checkpoint is made in front
 * of the next call: an image of the committed tables takes the file's place. checkpoint_bytes sets the 16 MiB; 0, and
 * none is made. checkpoint makes one now, whatever is open: 0, or an errno, and all goes on in the old file, unless the
 * calls behind it are answered with an errno too. A checkpoint that was not asked for and can't be made is left for
 * when the file is as much longer. Behind one, operation 0 gives none of the replies before it.
 */
int32_t skewguard_journal_open(const char *path, const unsigned char *request, size_t length, void **journal,
                               int *error);
int32_t skewguard_journal_call(void *journal, uint32_t operation, const unsigned char *request, size_t length,
                               unsigned char *reply, size_t capacity, size_t *reply_length);
int skewguard_journal_checkpoint(void *journal);
void skewguard_journal_checkpoint_bytes(void *journal, uint64_t bytes);
void skewguard_journal_close(void *journal);

/*
 * The same for threads that share syncs: the steps of skewguard_journal_call, each under a lock of the caller's but
 * make, which one thread at a time runs without it. start is the call of the library, whose reply may not be handed on
 * yet. take takes over the calls on the file that wait, of all commits that have counted; 0 where there are none. make
 * makes them, and gives 0 or an errno; made notes that, and gives the first errno there was. Behind it each reply of a
 * call that was started before take may be handed on, or, where made gives an errno, none may: then failure writes the
 * reply that says so, and gives its length, 0 where it does not fit. made also makes a checkpoint that is due, and no
 * thread may be between take and made while skewguard_journal_checkpoint is called.
 */
int32_t skewguard_journal_start(void *journal, uint32_t operation, const unsigned char *request, size_t length,
                                unsigned char *reply, size_t capacity, size_t *reply_length);
int skewguard_journal_take(void *journal);
int skewguard_journal_make(const void *journal);
int skewguard_journal_made(void *journal, int error);
size_t skewguard_journal_failure(int error, unsigned char *reply, size_t capacity);

/* What became of a call. */
typedef enum skewguard_status {
    /* A call on the journal's file failed, or the file can't be opened: reply.number is the errno. Whether a COMMIT
     * that is told so was kept is known once the file is opened again; no call is answered before. */
    SKEWGUARD_IO_ERROR = -16,
    SKEWGUARD_DONE = 0,
    /* The event, the text or the definitions were refused: reply.refusal says why. A COMMIT that was refused with 10,
     * 12, 13 or 17 has ended its transaction. After any other refusal the tables are as before; but what a refused
     * statement has read counts, so an INSERT refused with 7 or 10 may make the COMMIT behind it dangerous (13). */
    SKEWGUARD_REFUSED = 1,
    /* No memory was left. Nothing has changed. */
    SKEWGUARD_NO_MEMORY = 2,
    /* The call was answered, but no memory was left for its reply. skewguard_again gives the reply, with its status. */
    SKEWGUARD_REPLY_WAITS = 3,
    /* A null pointer, a kind of value that there is not, or a request whose bytes are none. */
    SKEWGUARD_BAD_REQUEST = 4,
    /* The session is closed, or was never opened. */
    SKEWGUARD_NO_SESSION = 5,
    /* The statement is forgotten, or was never prepared. */
    SKEWGUARD_NO_STATEMENT = 6,
    /* The statement has another number of parameters: reply.number says how many. */
    SKEWGUARD_WRONG_COUNT = 7,
    /* A value that no statement takes: NULL where none may stand, a number beyond 10^15, a text that is not well-formed
     * UTF-8 or has a control character (a byte below 0x20, or 0x7F). reply.number is the parameter, from 1. */
    SKEWGUARD_BAD_VALUE = 8,
    /* No name: a letter, then letters, digits and '_', 128 bytes at most, and no reserved word. */
    SKEWGUARD_BAD_NAME = 9,
    /* A session of this name is open. */
    SKEWGUARD_NAME_TAKEN = 10,
    /* The skewguard is closed, or its definitions were refused. */
    SKEWGUARD_CLOSED = 11,
    /* A COMMIT that is accepted and could not be kept in the journal (58030): its transaction is open, nothing has
     * changed. */
    SKEWGUARD_NOT_KEPT = 12,
    /* Other rules for what keeps a journal: `skewguard checkpoint` changes those of one that is closed. */
    SKEWGUARD_JOURNALED = 13,
    /* The file was not opened as a journal: reply.journal_fault says why. */
    SKEWGUARD_UNRESTORED = 14
} skewguard_status;

/* What a reply is of. */
typedef enum skewguard_kind {
    SKEWGUARD_NOTHING = 0,
    SKEWGUARD_OPENED = 1,
    SKEWGUARD_SESSION = 2,
    SKEWGUARD_STATEMENT = 3,
    SKEWGUARD_CHANGED = 4,
    SKEWGUARD_BEGUN = 5,
    SKEWGUARD_COMMITTED = 6,
    SKEWGUARD_ROLLED_BACK = 7,
    SKEWGUARD_INSERTED = 8,
    SKEWGUARD_UPDATED = 9,
    SKEWGUARD_DELETED = 10,
    SKEWGUARD_ROWS = 11,
    SKEWGUARD_MODES_SET = 12,
    SKEWGUARD_VERDICT = 13,
    SKEWGUARD_TEXT = 14,
    SKEWGUARD_REFUSAL = 15,
    SKEWGUARD_MISUSED = 16,
    /* Only in bytes: a reply that was read is one of the several. */
    SKEWGUARD_SEVERAL = 17,
    SKEWGUARD_JOURNAL_FAULT = 18,
    SKEWGUARD_IMAGE = 19
} skewguard_kind;

/* Why a file was not opened as a journal. */
typedef enum skewguard_journal_fault {
    /* It does not begin as one. */
    SKEWGUARD_JOURNAL_NONE = 1,
    /* It is of other definitions: `skewguard checkpoint` takes these for what it holds. */
    SKEWGUARD_JOURNAL_OF_OTHERS = 2,
    /* Commit reply.number is missing, whose line begins at byte reply.byte. */
    SKEWGUARD_JOURNAL_DAMAGED = 3,
    /* Commit reply.number is none of these tables. */
    SKEWGUARD_JOURNAL_NOT_DUE = 4
} skewguard_journal_fault;

/* What a text was to be that was refused. */
typedef enum skewguard_role {
    SKEWGUARD_DEFINITIONS = 0,
    SKEWGUARD_RULES = 1,
    SKEWGUARD_STATEMENT_TEXT = 2
} skewguard_role;

typedef enum skewguard_value_kind {
    SKEWGUARD_NULL = 0,
    SKEWGUARD_NUMBER = 1,
    SKEWGUARD_CHARACTERS = 2,
    /* Only of a root: the assertion is false as a whole. */
    SKEWGUARD_ALL = 3,
    /* Only in a refusal that names no root and no key. */
    SKEWGUARD_NO_VALUE = 4,
    /* Only of a cell: a number that passes 64 bits, as a sum or a product may. Its text has the decimal digits, with a
     * minus in front of a negative one; of at most 128 bits. */
    SKEWGUARD_NUMERIC = 5
} skewguard_value_kind;

typedef enum skewguard_truth { SKEWGUARD_FALSE = 0, SKEWGUARD_TRUE = 1, SKEWGUARD_UNKNOWN = 2 } skewguard_truth;

/* Bytes, with no zero behind them. */
typedef struct skewguard_text {
    const char *bytes;
    size_t length;
} skewguard_text;

/* A cell of a row, a parameter of a statement, a key, or the root of an assertion. A number is in `number`, and
 * characters and a numeric are in `text`. */
typedef struct skewguard_value {
    skewguard_value_kind kind;
    int64_t number;
    skewguard_text text;
} skewguard_value;

/* What a refusal is for: the numbers of docs/LANGUAGE.md, "The faults", which says what each names. */
typedef enum skewguard_fault {
    SKEWGUARD_FAULT_NO_MEMORY = 1,
    SKEWGUARD_FAULT_SYNTAX = 2,
    SKEWGUARD_FAULT_UNKNOWN_NAME = 3,
    SKEWGUARD_FAULT_NAME_TAKEN = 4,
    SKEWGUARD_FAULT_TYPE = 5,
    SKEWGUARD_FAULT_NULL_NOT_ALLOWED = 6,
    SKEWGUARD_FAULT_DUPLICATE_KEY = 7,
    SKEWGUARD_FAULT_KEY_UPDATE = 8,
    SKEWGUARD_FAULT_OUT_OF_RANGE = 9,
    SKEWGUARD_FAULT_RULE_VIOLATED = 10,
    SKEWGUARD_FAULT_NOT_DEFERRABLE = 11,
    SKEWGUARD_FAULT_WRITE_CONFLICT = 12,
    SKEWGUARD_FAULT_DANGEROUS = 13,
    SKEWGUARD_FAULT_NO_TRANSACTION = 14,
    SKEWGUARD_FAULT_TRANSACTION_OPEN = 15,
    SKEWGUARD_FAULT_EPOCH_FULL = 17,
    SKEWGUARD_FAULT_TOO_WIDE = 18,
    SKEWGUARD_FAULT_TOO_DEEP = 19,
    SKEWGUARD_FAULT_OUTSIDE_CLASS = 20,
    SKEWGUARD_FAULT_FALSE_AT_CREATION = 21,
    SKEWGUARD_FAULT_ATTRIBUTE_CLASH = 22,
    SKEWGUARD_FAULT_READ_ONLY = 23,
    SKEWGUARD_FAULT_TOO_MANY_SESSIONS = 24,
    SKEWGUARD_FAULT_NOT_KEPT = 25
} skewguard_fault;

/* Why something was refused. */
typedef struct skewguard_refusal {
    /* A skewguard_fault. */
    int number;
    /* Five bytes, and a zero behind them; empty where there is none. */
    char sqlstate[6];
    /* Of the assertion, the column or the table; else empty. */
    skewguard_text name;
    /* Of 10 and 21 the root at which the assertion is false, of 7 and 12 the key. */
    skewguard_value root;
    /* Of 12: the commit that changed the row. */
    uint64_t commit;
    /* Of 13: commits by their numbers; 0 is the transaction that was refused. */
    uint64_t reader, pivot, writer;
    /* Of 2 and 19: the offset in the text at which it goes wrong, in bytes from 0. */
    size_t offset;
    /* As the report has it, with a line feed at its end. */
    skewguard_text line;
} skewguard_refusal;

typedef struct skewguard_reply {
    skewguard_kind kind;
    /* Of opened: SKEWGUARD_LAYOUT; of begun: how many commits the snapshot holds; of committed: the number of the
     * commit; of inserted, updated and deleted: how many rows; of session and statement: which; of misused: as the
     * status says; of a journal that was not opened: as its fault says. */
    uint64_t number;
    /* Of statement: how many parameters it has. */
    uint64_t parameters;
    skewguard_truth verdict;
    /* Of rows. */
    uint64_t columns, rows;
    skewguard_text text;
    skewguard_refusal refusal;
    skewguard_journal_fault journal_fault;
    uint64_t byte;
    /* Of a call that makes several events: how many replies there are, and the place of this one, from 0. */
    uint64_t replies, place;
} skewguard_reply;

/* A prepared statement with a value for each of its parameters. */
typedef struct skewguard_step {
    uint64_t statement;
    const skewguard_value *values;
    size_t count;
} skewguard_step;

/* A database with its sessions. Its members but reply are the functions' own. Zero bytes are a closed one. */
typedef struct skewguard {
    /* One of these is open, or none. */
    void *library, *journal;
    unsigned char *reply_bytes, *request_bytes;
    size_t reply_length, reply_capacity, request_length, request_capacity;
    /* In reply_bytes: where the names of the columns, and the next row, begin. */
    size_t names_at, next_row_at, next_reply_at;
    uint64_t rows_left, replies, replies_left;
    skewguard_reply reply;
} skewguard;

/* ---- opening and closing */

/*
 * Takes in definitions: tables, assertions, and the rows to begin with. At most most_commits commits are then accepted
 * until the next checkpoint, from 0 to 4,294,967,295.
 *
 * REFUSED: the definitions, by reply.refusal. BAD_REQUEST: a null pointer, most_commits past its range, or a library of
 * another layout than this header. NO_MEMORY.
 * After any of these db is closed, and its reply is valid until skewguard_close, which is due in each case.
 */
static inline skewguard_status skewguard_open(skewguard *db, const char *definitions, size_t length,
                                              uint64_t most_commits);

/*
 * The same with a journal in the file of this name: what is committed outlives the process, and a crash at any moment
 * loses no commit that was answered. Where there is no file it is made, with the rows of the definitions; else the
 * tables are those that it holds, and the rows of the definitions are passed over. No other process opens it meanwhile.
 * Each COMMIT waits for the disk. Where the commits in the file become longer than 16 MiB, and than the rows at its
 * beginning, a checkpoint of the file is made by itself (skewguard_checkpoint_bytes).
 *
 * As skewguard_open; IO_ERROR with an errno in reply.number, and nothing is open: EWOULDBLOCK where another process has
 * the file, ELOOP where it is a link, EISDIR a folder, ENOTSUP no regular file; UNRESTORED with reply.journal_fault,
 * and the file is as it was; REFUSED with a line that begins with JOURNAL where an assertion is false on its rows.
 */
static inline skewguard_status skewguard_open_journal(skewguard *db, const char *path, const char *definitions,
                                                      size_t length, uint64_t most_commits);

/* Gives all memory back; open transactions are rolled back. A closed one, and null, are left as they are. */
static inline void skewguard_close(skewguard *db);

/* ---- sessions and statements */

/*
 * Opens a session, in which one transaction at a time may be open. Case does not count in its name, which reports give.
 * The number that is left in *session was never given before.
 *
 * BAD_NAME, NAME_TAKEN; REFUSED with 24 where 256 sessions are open; NO_MEMORY, REPLY_WAITS, CLOSED, BAD_REQUEST.
 */
static inline skewguard_status skewguard_open_session(skewguard *db, const char *name, size_t length,
                                                      uint64_t *session);

/*
 * Closes a session. Its open transaction is rolled back. The name may be given to a new session, and there is room for
 * a session of any name, so that a service may have one for each of its users while 256 at most are open at once; what
 * has been committed keeps the name in reports. NO_SESSION, CLOSED, BAD_REQUEST; REPLY_WAITS, and it is closed.
 */
static inline skewguard_status skewguard_close_session(skewguard *db, uint64_t session);

/*
 * Prepares a statement or an event: one text of the language, in which `?` may stand for a constant. Its final `;` may
 * stand or not.
 * The number that is left in *statement was never given before, and reply.parameters says how many there are.
 *
 * REFUSED with 2 or 19: the text, with reply.refusal.offset. NO_MEMORY, REPLY_WAITS, CLOSED, BAD_REQUEST.
 */
static inline skewguard_status skewguard_prepare(skewguard *db, const char *text, size_t length, uint64_t *statement);

/* Lets a prepared statement go. NO_STATEMENT, CLOSED, BAD_REQUEST; REPLY_WAITS, and the statement is forgotten. */
static inline skewguard_status skewguard_forget(skewguard *db, uint64_t statement);

/* ---- events of a session */

/*
 * Runs a prepared statement with a value for each parameter. The reply is that of the statement, and rows are then read
 * by skewguard_next_row.
 *
 * REFUSED by the engine. NO_SESSION, NO_STATEMENT, WRONG_COUNT, BAD_VALUE, NO_MEMORY, REPLY_WAITS, CLOSED, BAD_REQUEST.
 * With a journal also IO_ERROR, and of a COMMIT NOT_KEPT.
 */
static inline skewguard_status skewguard_run(skewguard *db, uint64_t session, uint64_t statement,
                                             const skewguard_value *values, size_t count);

/* Runs a text that has no parameters; its final `;` may stand or not. REFUSED by the engine, or with 2 or 19 the text;
 * else as skewguard_run. */
static inline skewguard_status skewguard_execute(skewguard *db, uint64_t session, const char *text, size_t length);

/* BEGIN, BEGIN READ ONLY, COMMIT and ROLLBACK. REFUSED by the engine; NO_SESSION, NO_MEMORY, REPLY_WAITS, CLOSED,
 * BAD_REQUEST. With a journal also IO_ERROR, and of a COMMIT NOT_KEPT. */
static inline skewguard_status skewguard_begin(skewguard *db, uint64_t session);
static inline skewguard_status skewguard_begin_read_only(skewguard *db, uint64_t session);
static inline skewguard_status skewguard_commit(skewguard *db, uint64_t session);
static inline skewguard_status skewguard_rollback(skewguard *db, uint64_t session);

/* ---- several events in one call */

/*
 * Runs a prepared statement `rows` times, each time with the next `count` of the values. Each is answered as by
 * skewguard_run, in turn, and the first that is not done is the last that is run. What was done before it stays in the
 * transaction.
 *
 * The status, and db.reply, are those of the one that was not done, with its place from 0 in reply.place; else of the
 * last. skewguard_next_reply gives all of them. NO_MEMORY with reply.replies 0, and none was run. BAD_REQUEST, CLOSED;
 * REPLY_WAITS, and skewguard_again says how many were.
 */
static inline skewguard_status skewguard_run_all(skewguard *db, uint64_t session, uint64_t statement,
                                                 const skewguard_value *values, size_t count, size_t rows);

/*
 * A whole transaction: BEGIN, prepared statements with their values, and COMMIT, each answered as by a call of its own.
 * Where a statement is not done, none is run behind it, and the transaction is rolled back; where BEGIN is not done,
 * nothing is done behind it. So no transaction is open behind this call, unless one was before.
 *
 * The status, and db.reply, are those of the event that was not done; else of COMMIT, with the commit's number. Of the
 * replies, from 0, the first is that of BEGIN, and the next those of the statements: reply.place says which this is.
 * NO_MEMORY with reply.replies 0, and nothing was done. NO_SESSION, BAD_REQUEST, CLOSED; REPLY_WAITS.
 */
static inline skewguard_status skewguard_run_transaction(skewguard *db, uint64_t session, const skewguard_step *steps,
                                                         size_t count);

/* ---- what is left of the run */

/* The closing part of a report, in reply.text: commits, serial order, refused COMMITs, assertions. NO_MEMORY,
 * REPLY_WAITS, CLOSED, BAD_REQUEST. */
static inline skewguard_status skewguard_report(skewguard *db);

/*
 * Drops the rules of the names in dropped, and creates those of created, a text of CREATE ASSERTION definitions; both
 * may be empty. A new epoch then begins on the newest tables: its commits count from 1, and what was kept of the
 * commits before is given back. Its closing part is in reply.text.
 *
 * BAD_NAME where a name in dropped is none. REFUSED with 15 while a transaction is open; with 3 a name that no rule
 * has, or that a new rule uses and no table or column has; with 2, 4, 5, 18 to 22 a rule that is not taken in. Nothing
 * has changed then. NO_MEMORY, CLOSED, BAD_REQUEST; REPLY_WAITS, and the rules are changed.
 *
 * With a journal its file becomes short first, also where a transaction is open: an image of the committed tables takes
 * its place. IO_ERROR with an errno in reply.number where that can't be, as on a full disk: the file goes on as it is,
 * unless the calls behind this one are answered so too. JOURNALED where rules are dropped or created: a journal is of
 * one text of definitions, and `skewguard checkpoint` takes another for a file that is closed.
 */
static inline skewguard_status skewguard_checkpoint(skewguard *db, const char *created, size_t length,
                                                    const skewguard_text *dropped, size_t count);

/* How long the commits in a journal's file may be, in bytes, until a checkpoint of the file is made by itself, unless
 * the rows at its beginning are longer: 16 MiB if nothing is said; 0, and none is made. Nothing without a journal. */
static inline void skewguard_checkpoint_bytes(skewguard *db, uint64_t bytes);

/* ---- replies */

/* The last reply once more, with the status of its call. */
static inline skewguard_status skewguard_again(skewguard *db);

/* The line of the last answer or refusal, as a report has it, with the lines of its rows, in reply.text; empty where
 * the last call was none.
 * skewguard_again then gives the reply itself again. NO_MEMORY, REPLY_WAITS, CLOSED, BAD_REQUEST. */
static inline skewguard_status skewguard_line(skewguard *db);

/* The next of the replies of a call that made several events, in db.reply: the first, when this is called for the first
 * time behind the call. 1 where there was one; 0 behind the last, and where the call was for one event. Of a reply of
 * rows these are then read by skewguard_next_row. */
static inline int skewguard_next_reply(skewguard *db);

/* The next row of a reply of rows, in cells, which has room for `room` values; those behind its last column are NULL. 1
 * where there was one; 0 at the end, and where a row has more values than there is room for. */
static inline int skewguard_next_row(skewguard *db, skewguard_value *cells, size_t room);

/* The name of a column of a reply of rows, by its place from 0; empty where there is none. It is the one that AS gives;
 * else that of the table's column, or COUNT, SUM, MIN or MAX of a set function; else `?column?`. */
static inline skewguard_text skewguard_column(const skewguard *db, uint64_t place);

/* ---- what is said of a status and of a fault */

/*
 * Why a text was refused, as `skewguard check` shows it: the line, carets under what is wrong, and what may stand there
 * or how else to say it, in reply.text; empty where the text has no such fault, as where the rows or others were in the
 * way. fault is the refusal's number, definitions those that db was opened with (of the definitions themselves, null),
 * text what was refused. db may be closed. NO_MEMORY, BAD_REQUEST.
 */
static inline skewguard_status skewguard_draw(skewguard *db, skewguard_role role, int fault, const char *definitions,
                                              size_t definitions_length, const char *text, size_t length);

/* What a status, or a fault by its number, means, in a few words; never null. */
static inline const char *skewguard_status_text(skewguard_status status);
static inline const char *skewguard_fault_text(int number);

/* Whether others were in the way of a COMMIT (12, 13), so that the same transaction may be run again from its BEGIN. */
static inline int skewguard_may_retry(const skewguard_refusal *refusal);

/* ---- parameters */

static inline skewguard_value skewguard_null(void);
static inline skewguard_value skewguard_number(int64_t number);
static inline skewguard_value skewguard_characters(const char *bytes, size_t length);

/* ==== from here on: how it is done */

enum skewguard_operation {
    SKEWGUARD_DO_AGAIN = 0,
    SKEWGUARD_DO_LINE = 1,
    SKEWGUARD_DO_OPEN_SESSION = 2,
    SKEWGUARD_DO_CLOSE_SESSION = 3,
    SKEWGUARD_DO_PREPARE = 4,
    SKEWGUARD_DO_FORGET = 5,
    SKEWGUARD_DO_RUN = 6,
    SKEWGUARD_DO_EXECUTE = 7,
    SKEWGUARD_DO_BEGIN = 8,
    SKEWGUARD_DO_BEGIN_READ_ONLY = 9,
    SKEWGUARD_DO_COMMIT = 10,
    SKEWGUARD_DO_ROLLBACK = 11,
    SKEWGUARD_DO_REPORT = 12,
    SKEWGUARD_DO_CHECKPOINT = 13,
    SKEWGUARD_DO_RUN_ALL = 14,
    SKEWGUARD_DO_TRANSACT = 15,
    SKEWGUARD_DO_IMAGE = 16,
    SKEWGUARD_DO_MOVE = 17
};

static inline skewguard_value skewguard_null(void)
{
    skewguard_value value;
    memset(&value, 0, sizeof value);
    return value;
}

static inline skewguard_value skewguard_number(int64_t number)
{
    skewguard_value value = skewguard_null();
    value.kind = SKEWGUARD_NUMBER;
    value.number = number;
    return value;
}

static inline skewguard_value skewguard_characters(const char *bytes, size_t length)
{
    skewguard_value value = skewguard_null();
    value.kind = SKEWGUARD_CHARACTERS;
    value.text.bytes = bytes;
    value.text.length = length;
    return value;
}

/* -- texts */

static inline const char *skewguard_status_text(skewguard_status status)
{
    switch (status) {
    case SKEWGUARD_IO_ERROR:
        return "a call on the journal's file failed: open it again";
    case SKEWGUARD_DONE:
        return "done";
    case SKEWGUARD_REFUSED:
        return "refused";
    case SKEWGUARD_NO_MEMORY:
        return "no memory is left";
    case SKEWGUARD_REPLY_WAITS:
        return "the call was answered, but there was no memory for its reply";
    case SKEWGUARD_BAD_REQUEST:
        return "an argument is null, or none that is taken";
    case SKEWGUARD_NO_SESSION:
        return "the session is closed, or was never opened";
    case SKEWGUARD_NO_STATEMENT:
        return "the statement is forgotten, or was never prepared";
    case SKEWGUARD_WRONG_COUNT:
        return "the statement has another number of parameters";
    case SKEWGUARD_BAD_VALUE:
        return "a value may not stand where it was given";
    case SKEWGUARD_BAD_NAME:
        return "a name is a letter, then letters, digits and _, 128 at most, and no reserved word";
    case SKEWGUARD_NAME_TAKEN:
        return "a session of this name is open";
    case SKEWGUARD_CLOSED:
        return "the database is closed, or its definitions were refused";
    case SKEWGUARD_NOT_KEPT:
        return "the commit could not be kept in the journal: its transaction is open";
    case SKEWGUARD_JOURNALED:
        return "the rules of a journal can't be changed while it is open";
    case SKEWGUARD_UNRESTORED:
        return "the file was not opened as a journal";
    }
    return "another status";
}

static inline const char *skewguard_fault_text(int number)
{
    switch (number) {
    case SKEWGUARD_FAULT_NO_MEMORY:
        return skewguard_status_text(SKEWGUARD_NO_MEMORY);
    case SKEWGUARD_FAULT_SYNTAX:
        return "syntax error";
    case SKEWGUARD_FAULT_UNKNOWN_NAME:
        return "nothing has this name";
    case SKEWGUARD_FAULT_NAME_TAKEN:
        return "the name is taken";
    case SKEWGUARD_FAULT_TYPE:
        return "values and columns differ in number or type";
    case SKEWGUARD_FAULT_NULL_NOT_ALLOWED:
        return "the column takes no NULL";
    case SKEWGUARD_FAULT_DUPLICATE_KEY:
        return "the table has a row under this key already";
    case SKEWGUARD_FAULT_KEY_UPDATE:
        return "no UPDATE may set a key";
    case SKEWGUARD_FAULT_OUT_OF_RANGE:
        return "the value is beyond the range, or the length, of its column";
    case SKEWGUARD_FAULT_RULE_VIOLATED:
        return "an assertion would be false";
    case SKEWGUARD_FAULT_NOT_DEFERRABLE:
        return "the assertion is not DEFERRABLE";
    case SKEWGUARD_FAULT_WRITE_CONFLICT:
        return "another transaction has changed the same row: run this one again";
    case SKEWGUARD_FAULT_DANGEROUS:
        return "the reads and writes of transactions allow no serial order: run this one again";
    case SKEWGUARD_FAULT_NO_TRANSACTION:
        return "no transaction is open in this session";
    case SKEWGUARD_FAULT_TRANSACTION_OPEN:
        return "a transaction is open";
    case SKEWGUARD_FAULT_EPOCH_FULL:
        return "there are as many commits as may be: a checkpoint begins a new epoch";
    case SKEWGUARD_FAULT_TOO_WIDE:
        return "arithmetic could pass the range in which it is exact";
    case SKEWGUARD_FAULT_TOO_DEEP:
        return "parentheses nest too deep";
    case SKEWGUARD_FAULT_OUTSIDE_CLASS:
        return "this is none of the assertions and conditions that are taken";
    case SKEWGUARD_FAULT_FALSE_AT_CREATION:
        return "the assertion is false on the rows that are there";
    case SKEWGUARD_FAULT_ATTRIBUTE_CLASH:
        return "the attributes of the assertion exclude each other";
    case SKEWGUARD_FAULT_READ_ONLY:
        return "the transaction is READ ONLY";
    case SKEWGUARD_FAULT_TOO_MANY_SESSIONS:
        return "there are as many sessions as may be open at once";
    case SKEWGUARD_FAULT_NOT_KEPT:
        return skewguard_status_text(SKEWGUARD_NOT_KEPT);
    default:
        return "another fault";
    }
}

static inline int skewguard_may_retry(const skewguard_refusal *refusal)
{
    return refusal
        && (refusal->number == SKEWGUARD_FAULT_WRITE_CONFLICT || refusal->number == SKEWGUARD_FAULT_DANGEROUS);
}

/* -- a reader of the reply: past its end it gives zeros, and stays there */

typedef struct skewguard_reader {
    const unsigned char *bytes;
    size_t at, length;
} skewguard_reader;

static inline skewguard_reader skewguard_read_from(const skewguard *db, size_t at)
{
    skewguard_reader reader;
    reader.bytes = db->reply_bytes;
    reader.at = at;
    reader.length = db->reply_length;
    return reader;
}

static inline unsigned skewguard_read_byte(skewguard_reader *reader)
{
    return reader->at < reader->length ? reader->bytes[reader->at++] : 0;
}

static inline uint64_t skewguard_read_number(skewguard_reader *reader)
{
    uint64_t number = 0;
    unsigned place;
    if (reader->length - reader->at >= sizeof number) { /* x86-64 has the lowest byte first, too */
        memcpy(&number, reader->bytes + reader->at, sizeof number);
        reader->at += sizeof number;
        return number;
    }
    for (place = 0; place < 64; place += 8)
        number |= (uint64_t)skewguard_read_byte(reader) << place;
    return number;
}

static inline skewguard_text skewguard_read_text(skewguard_reader *reader)
{
    skewguard_text text;
    uint64_t length = skewguard_read_number(reader);
    if (length > reader->length - reader->at)
        length = reader->length - reader->at;
    text.bytes = (const char *)reader->bytes + reader->at;
    text.length = (size_t)length;
    reader->at += text.length;
    return text;
}

static inline int64_t skewguard_signed(uint64_t bits)
{
    return bits >> 63 ? -1 - (int64_t)~bits : (int64_t)bits;
}

static inline skewguard_value skewguard_read_value(skewguard_reader *reader)
{
    unsigned kind = skewguard_read_byte(reader);
    if (kind == SKEWGUARD_NUMBER)
        return skewguard_number(skewguard_signed(skewguard_read_number(reader)));
    if (kind == SKEWGUARD_CHARACTERS) {
        skewguard_text text = skewguard_read_text(reader);
        return skewguard_characters(text.bytes, text.length);
    } else {
        skewguard_value value = skewguard_null();
        value.kind = (skewguard_value_kind)kind;
        if (kind == SKEWGUARD_NUMERIC)
            value.text = skewguard_read_text(reader);
        return value;
    }
}

static inline void skewguard_read_refusal(skewguard_reader *reader, skewguard_refusal *refusal)
{
    skewguard_text state;
    refusal->number = (int)skewguard_read_number(reader);
    state = skewguard_read_text(reader);
    if (state.length == 5)
        memcpy(refusal->sqlstate, state.bytes, 5);
    refusal->name = skewguard_read_text(reader);
    refusal->root = skewguard_read_value(reader);
    refusal->commit = skewguard_read_number(reader);
    refusal->reader = skewguard_read_number(reader);
    refusal->pivot = skewguard_read_number(reader);
    refusal->writer = skewguard_read_number(reader);
    refusal->offset = (size_t)skewguard_read_number(reader);
    refusal->line = skewguard_read_text(reader);
}

static inline void skewguard_read_rows(skewguard *db, skewguard_reader *reader)
{
    uint64_t place;
    db->reply.columns = skewguard_read_number(reader);
    db->names_at = reader->at;
    for (place = 0; place < db->reply.columns && reader->at < reader->length; place++)
        (void)skewguard_read_text(reader);
    db->reply.rows = db->rows_left = skewguard_read_number(reader);
    db->next_row_at = reader->at;
}

static inline void skewguard_clear_reply(skewguard *db)
{
    memset(&db->reply, 0, sizeof db->reply);
    db->rows_left = db->replies = db->replies_left = 0;
}

/* Reads one reply, whose kind is not that of several, as far as its rows. */
static inline void skewguard_read_one(skewguard *db, skewguard_reader *reader)
{
    memset(&db->reply, 0, sizeof db->reply);
    db->rows_left = 0;
    db->reply.kind = (skewguard_kind)skewguard_read_byte(reader);
    switch (db->reply.kind) {
    case SKEWGUARD_OPENED:
    case SKEWGUARD_SESSION:
    case SKEWGUARD_BEGUN:
    case SKEWGUARD_COMMITTED:
    case SKEWGUARD_INSERTED:
    case SKEWGUARD_UPDATED:
    case SKEWGUARD_DELETED:
    case SKEWGUARD_MISUSED:
        db->reply.number = skewguard_read_number(reader);
        break;
    case SKEWGUARD_STATEMENT:
        db->reply.number = skewguard_read_number(reader);
        db->reply.parameters = skewguard_read_number(reader);
        break;
    case SKEWGUARD_ROWS:
        skewguard_read_rows(db, reader);
        break;
    case SKEWGUARD_VERDICT:
        db->reply.verdict = (skewguard_truth)skewguard_read_number(reader);
        break;
    case SKEWGUARD_TEXT:
    case SKEWGUARD_IMAGE:
        db->reply.text = skewguard_read_text(reader);
        break;
    case SKEWGUARD_JOURNAL_FAULT:
        db->reply.journal_fault = (skewguard_journal_fault)skewguard_read_number(reader);
        db->reply.number = skewguard_read_number(reader);
        db->reply.byte = skewguard_read_number(reader);
        break;
    case SKEWGUARD_REFUSAL:
        skewguard_read_refusal(reader, &db->reply.refusal);
        break;
    case SKEWGUARD_NOTHING:
    case SKEWGUARD_CHANGED:
    case SKEWGUARD_ROLLED_BACK:
    case SKEWGUARD_MODES_SET:
    case SKEWGUARD_SEVERAL:
        break;
    }
}

/* Whether a reply tells of something that was done. */
static inline int skewguard_tells_of_done(const skewguard_reply *reply)
{
    return reply->kind != SKEWGUARD_REFUSAL && reply->kind != SKEWGUARD_MISUSED && reply->kind != SKEWGUARD_NOTHING;
}

/* Reads the next of several replies, and leaves the reader behind it. */
static inline void skewguard_read_next(skewguard *db, skewguard_reader *reader, uint64_t place)
{
    uint64_t row, column;
    skewguard_read_one(db, reader);
    for (row = 0; row < db->reply.rows && reader->at < reader->length; row++)
        for (column = 0; column < db->reply.columns; column++)
            (void)skewguard_read_value(reader);
    db->reply.replies = db->replies;
    db->reply.place = place;
}

static inline void skewguard_read_several(skewguard *db, skewguard_reader *reader)
{
    uint64_t place;
    db->replies = db->replies_left = skewguard_read_number(reader);
    db->next_reply_at = reader->at;
    for (place = 0; place < db->replies && reader->at < reader->length; place++) {
        skewguard_read_next(db, reader, place);
        if (!skewguard_tells_of_done(&db->reply))
            return;
    }
}

static inline void skewguard_read_reply(skewguard *db)
{
    skewguard_reader reader = skewguard_read_from(db, 0);
    skewguard_clear_reply(db);
    if (reader.length && reader.bytes[0] == SKEWGUARD_SEVERAL) {
        reader.at = 1;
        skewguard_read_several(db, &reader);
    } else {
        skewguard_read_one(db, &reader);
    }
}

static inline int skewguard_next_reply(skewguard *db)
{
    skewguard_reader reader;
    if (!db || !db->replies_left)
        return 0;
    reader = skewguard_read_from(db, db->next_reply_at);
    skewguard_read_next(db, &reader, db->replies - db->replies_left);
    db->next_reply_at = reader.at;
    db->replies_left--;
    return 1;
}

static inline int skewguard_next_row(skewguard *db, skewguard_value *cells, size_t room)
{
    skewguard_reader reader;
    size_t place;
    if (!db || !cells || !db->rows_left || db->reply.columns > room)
        return 0;
    memset(cells, 0, room * sizeof *cells);
    reader = skewguard_read_from(db, db->next_row_at);
    for (place = 0; place < db->reply.columns; place++)
        cells[place] = skewguard_read_value(&reader);
    db->next_row_at = reader.at;
    db->rows_left--;
    return 1;
}

static inline skewguard_text skewguard_column(const skewguard *db, uint64_t place)
{
    skewguard_reader reader;
    skewguard_text name;
    name.bytes = "";
    name.length = 0;
    if (!db || db->reply.kind != SKEWGUARD_ROWS || place >= db->reply.columns)
        return name;
    reader = skewguard_read_from(db, db->names_at);
    for (;; place--) {
        name = skewguard_read_text(&reader);
        if (!place)
            return name;
    }
}

/* -- requests */

/* Room for so many bytes more; 0 without memory. */
static inline int skewguard_grow(unsigned char **bytes, size_t *capacity, size_t length, size_t more)
{
    size_t wanted;
    unsigned char *grown;
    if (more <= *capacity - length)
        return 1;
    if (more > SIZE_MAX / 2 - length)
        return 0;
    wanted = length + more;
    if (wanted < 2 * *capacity)
        wanted = 2 * *capacity;
    if (wanted < 512)
        wanted = 512;
    grown = (unsigned char *)realloc(*bytes, wanted);
    if (!grown)
        return 0;
    *bytes = grown;
    *capacity = wanted;
    return 1;
}

/* Each adds to the request, and gives 0 without memory. */
static inline int skewguard_add_bytes(skewguard *db, const void *bytes, size_t length)
{
    if (!skewguard_grow(&db->request_bytes, &db->request_capacity, db->request_length, length))
        return 0;
    if (length)
        memcpy(db->request_bytes + db->request_length, bytes, length);
    db->request_length += length;
    return 1;
}

static inline int skewguard_add_number(skewguard *db, uint64_t number)
{
    return skewguard_add_bytes(db, &number, sizeof number); /* x86-64 has the lowest byte first, too */
}

static inline int skewguard_add_value(skewguard *db, const skewguard_value *value)
{
    unsigned char kind = (unsigned char)value->kind;
    if (!skewguard_add_bytes(db, &kind, 1))
        return 0;
    if (value->kind == SKEWGUARD_NUMBER)
        return skewguard_add_number(db, (uint64_t)value->number);
    if (value->kind == SKEWGUARD_CHARACTERS)
        return skewguard_add_number(db, value->text.length)
            && skewguard_add_bytes(db, value->text.bytes, value->text.length);
    return 1;
}

/* Whether a value may be a parameter. */
static inline int skewguard_is_parameter(const skewguard_value *value)
{
    switch (value->kind) {
    case SKEWGUARD_NULL:
    case SKEWGUARD_NUMBER:
        return 1;
    case SKEWGUARD_CHARACTERS:
        return value->text.bytes || !value->text.length;
    case SKEWGUARD_ALL:
    case SKEWGUARD_NO_VALUE:
    case SKEWGUARD_NUMERIC:
        break;
    }
    return 0;
}

static inline skewguard_status skewguard_give(skewguard *db, skewguard_status status)
{
    skewguard_clear_reply(db);
    return status;
}

/* Whether a call may be made; all arguments were looked at. */
static inline skewguard_status skewguard_ready(skewguard *db, int arguments)
{
    if (!db)
        return SKEWGUARD_BAD_REQUEST;
    db->request_length = 0;
    if (!arguments)
        return skewguard_give(db, SKEWGUARD_BAD_REQUEST);
    if (!db->library && !db->journal)
        return skewguard_give(db, SKEWGUARD_CLOSED);
    return SKEWGUARD_DONE;
}

/* One call of the library, by itself or over its journal. */
static inline int32_t skewguard_call_once(skewguard *db, uint32_t operation, const unsigned char *request,
                                          size_t length, size_t *reply_length)
{
    if (db->journal)
        return skewguard_journal_call(db->journal, operation, request, length, db->reply_bytes, db->reply_capacity,
                                      reply_length);
    return skewguard_library_call(db->library, operation, request, length, db->reply_bytes, db->reply_capacity,
                                  reply_length);
}

/* One call. Should its reply have no room, it is asked for again in more. */
static inline skewguard_status skewguard_call(skewguard *db, uint32_t operation)
{
    static const unsigned char none[1] = {0};
    const unsigned char *request = db->request_length ? db->request_bytes : none;
    size_t length = db->request_length, reply_length = 0;
    int32_t status;
    if (!skewguard_grow(&db->reply_bytes, &db->reply_capacity, 0, 512))
        return skewguard_give(db, SKEWGUARD_NO_MEMORY);
    status = skewguard_call_once(db, operation, request, length, &reply_length);
    if (reply_length > db->reply_capacity) {
        if (!skewguard_grow(&db->reply_bytes, &db->reply_capacity, 0, reply_length))
            return skewguard_give(db, SKEWGUARD_REPLY_WAITS);
        if (operation != SKEWGUARD_DO_LINE) {
            operation = SKEWGUARD_DO_AGAIN;
            request = none;
            length = 0;
        }
        status = skewguard_call_once(db, operation, request, length, &reply_length);
        if (reply_length > db->reply_capacity)
            return skewguard_give(db, SKEWGUARD_REPLY_WAITS);
    }
    db->reply_length = reply_length;
    skewguard_read_reply(db);
    return (skewguard_status)status;
}

static inline skewguard_status skewguard_call_with_number(skewguard *db, uint32_t operation, uint64_t number)
{
    skewguard_status status = skewguard_ready(db, 1);
    if (status != SKEWGUARD_DONE)
        return status;
    if (!skewguard_add_number(db, number))
        return skewguard_give(db, SKEWGUARD_NO_MEMORY);
    return skewguard_call(db, operation);
}

static inline skewguard_status skewguard_call_with_text(skewguard *db, uint32_t operation, const char *text,
                                                        size_t length, uint64_t *number)
{
    skewguard_status status = skewguard_ready(db, text && number);
    if (status != SKEWGUARD_DONE)
        return status;
    if (!skewguard_add_bytes(db, text, length))
        return skewguard_give(db, SKEWGUARD_NO_MEMORY);
    status = skewguard_call(db, operation);
    if (status == SKEWGUARD_DONE)
        *number = db->reply.number;
    return status;
}

/* -- the calls */

static inline void skewguard_close_library(skewguard *db)
{
    if (db->library)
        skewguard_library_close(db->library);
    if (db->journal)
        skewguard_journal_close(db->journal);
    db->library = db->journal = NULL;
}

static inline void skewguard_close(skewguard *db)
{
    if (!db)
        return;
    skewguard_close_library(db);
    free(db->reply_bytes);
    free(db->request_bytes);
    memset(db, 0, sizeof *db);
}

/* Makes the request of definitions. */
static inline skewguard_status skewguard_ask_to_open(skewguard *db, const char *definitions, size_t length,
                                                     uint64_t most_commits)
{
    memset(db, 0, sizeof *db);
    if (!definitions || most_commits > UINT32_MAX)
        return SKEWGUARD_BAD_REQUEST;
    if (!skewguard_add_number(db, most_commits) || !skewguard_add_bytes(db, definitions, length))
        return SKEWGUARD_NO_MEMORY;
    return SKEWGUARD_DONE;
}

/* What became of definitions, as the first reply of the library says. */
static inline skewguard_status skewguard_hear_opened(skewguard *db)
{
    skewguard_status status;
    db->request_length = 0;
    status = skewguard_call(db, SKEWGUARD_DO_AGAIN);
    if (status == SKEWGUARD_DONE && db->reply.number != SKEWGUARD_LAYOUT)
        status = SKEWGUARD_BAD_REQUEST;
    if (status != SKEWGUARD_DONE)
        skewguard_close_library(db);
    return status == SKEWGUARD_REPLY_WAITS ? SKEWGUARD_NO_MEMORY : status;
}

static inline skewguard_status skewguard_open(skewguard *db, const char *definitions, size_t length,
                                              uint64_t most_commits)
{
    skewguard_status status = db ? skewguard_ask_to_open(db, definitions, length, most_commits) : SKEWGUARD_BAD_REQUEST;
    if (status != SKEWGUARD_DONE)
        return status;
    if (skewguard_library_open(db->request_bytes, db->request_length, &db->library) != SKEWGUARD_DONE) {
        db->library = NULL;
        return SKEWGUARD_NO_MEMORY;
    }
    return skewguard_hear_opened(db);
}

static inline skewguard_status skewguard_open_journal(skewguard *db, const char *path, const char *definitions,
                                                      size_t length, uint64_t most_commits)
{
    int error = 0;
    skewguard_status status = db ? skewguard_ask_to_open(db, definitions, length, most_commits) : SKEWGUARD_BAD_REQUEST;
    if (status != SKEWGUARD_DONE)
        return status;
    if (!path)
        return SKEWGUARD_BAD_REQUEST;
    status = (skewguard_status)skewguard_journal_open(path, db->request_bytes, db->request_length, &db->journal,
                                                      &error);
    db->reply.number = (uint64_t)error;
    return status == SKEWGUARD_DONE ? skewguard_hear_opened(db) : status;
}

static inline skewguard_status skewguard_open_session(skewguard *db, const char *name, size_t length,
                                                      uint64_t *session)
{
    return skewguard_call_with_text(db, SKEWGUARD_DO_OPEN_SESSION, name, length, session);
}

static inline skewguard_status skewguard_close_session(skewguard *db, uint64_t session)
{
    return skewguard_call_with_number(db, SKEWGUARD_DO_CLOSE_SESSION, session);
}

static inline skewguard_status skewguard_prepare(skewguard *db, const char *text, size_t length, uint64_t *statement)
{
    return skewguard_call_with_text(db, SKEWGUARD_DO_PREPARE, text, length, statement);
}

static inline skewguard_status skewguard_forget(skewguard *db, uint64_t statement)
{
    return skewguard_call_with_number(db, SKEWGUARD_DO_FORGET, statement);
}

/* Whether each value may be a parameter. */
static inline int skewguard_are_parameters(const skewguard_value *values, size_t count)
{
    size_t place;
    for (place = 0; place < count; place++)
        if (!skewguard_is_parameter(&values[place]))
            return 0;
    return 1;
}

/* Adds how many values there are, and these. */
static inline int skewguard_add_values(skewguard *db, const skewguard_value *values, size_t count)
{
    size_t place;
    if (!skewguard_add_number(db, count))
        return 0;
    for (place = 0; place < count; place++)
        if (!skewguard_add_value(db, &values[place]))
            return 0;
    return 1;
}

/* Adds a statement with its values. */
static inline int skewguard_add_step(skewguard *db, uint64_t statement, const skewguard_value *values, size_t count)
{
    return skewguard_add_number(db, statement) && skewguard_add_values(db, values, count);
}

static inline skewguard_status skewguard_run(skewguard *db, uint64_t session, uint64_t statement,
                                             const skewguard_value *values, size_t count)
{
    skewguard_status status = skewguard_ready(db, values || !count);
    if (status != SKEWGUARD_DONE)
        return status;
    if (!skewguard_are_parameters(values, count))
        return skewguard_give(db, SKEWGUARD_BAD_REQUEST);
    if (!skewguard_add_number(db, session) || !skewguard_add_step(db, statement, values, count))
        return skewguard_give(db, SKEWGUARD_NO_MEMORY);
    return skewguard_call(db, SKEWGUARD_DO_RUN);
}

static inline skewguard_status skewguard_run_all(skewguard *db, uint64_t session, uint64_t statement,
                                                 const skewguard_value *values, size_t count, size_t rows)
{
    size_t row;
    skewguard_status status = skewguard_ready(db, (values || !count || !rows) && (!count || rows <= SIZE_MAX / count));
    if (status != SKEWGUARD_DONE)
        return status;
    if (!skewguard_are_parameters(values, count * rows))
        return skewguard_give(db, SKEWGUARD_BAD_REQUEST);
    if (!skewguard_add_number(db, session) || !skewguard_add_number(db, rows))
        return skewguard_give(db, SKEWGUARD_NO_MEMORY);
    for (row = 0; row < rows; row++)
        if (!skewguard_add_step(db, statement, count ? values + row * count : values, count))
            return skewguard_give(db, SKEWGUARD_NO_MEMORY);
    return skewguard_call(db, SKEWGUARD_DO_RUN_ALL);
}

static inline skewguard_status skewguard_run_transaction(skewguard *db, uint64_t session, const skewguard_step *steps,
                                                         size_t count)
{
    size_t place;
    skewguard_status status = skewguard_ready(db, steps || !count);
    if (status != SKEWGUARD_DONE)
        return status;
    for (place = 0; place < count; place++)
        if ((!steps[place].values && steps[place].count)
            || !skewguard_are_parameters(steps[place].values, steps[place].count))
            return skewguard_give(db, SKEWGUARD_BAD_REQUEST);
    if (!skewguard_add_number(db, session) || !skewguard_add_number(db, count))
        return skewguard_give(db, SKEWGUARD_NO_MEMORY);
    for (place = 0; place < count; place++)
        if (!skewguard_add_step(db, steps[place].statement, steps[place].values, steps[place].count))
            return skewguard_give(db, SKEWGUARD_NO_MEMORY);
    return skewguard_call(db, SKEWGUARD_DO_TRANSACT);
}

static inline skewguard_status skewguard_execute(skewguard *db, uint64_t session, const char *text, size_t length)
{
    skewguard_status status = skewguard_ready(db, text != NULL);
    if (status != SKEWGUARD_DONE)
        return status;
    if (!skewguard_add_number(db, session) || !skewguard_add_bytes(db, text, length))
        return skewguard_give(db, SKEWGUARD_NO_MEMORY);
    return skewguard_call(db, SKEWGUARD_DO_EXECUTE);
}

static inline skewguard_status skewguard_begin(skewguard *db, uint64_t session)
{
    return skewguard_call_with_number(db, SKEWGUARD_DO_BEGIN, session);
}

static inline skewguard_status skewguard_begin_read_only(skewguard *db, uint64_t session)
{
    return skewguard_call_with_number(db, SKEWGUARD_DO_BEGIN_READ_ONLY, session);
}

static inline skewguard_status skewguard_commit(skewguard *db, uint64_t session)
{
    return skewguard_call_with_number(db, SKEWGUARD_DO_COMMIT, session);
}

static inline skewguard_status skewguard_rollback(skewguard *db, uint64_t session)
{
    return skewguard_call_with_number(db, SKEWGUARD_DO_ROLLBACK, session);
}

static inline skewguard_status skewguard_call_alone(skewguard *db, uint32_t operation)
{
    skewguard_status status = skewguard_ready(db, 1);
    return status == SKEWGUARD_DONE ? skewguard_call(db, operation) : status;
}

static inline skewguard_status skewguard_report(skewguard *db)
{
    return skewguard_call_alone(db, SKEWGUARD_DO_REPORT);
}

static inline skewguard_status skewguard_again(skewguard *db)
{
    return skewguard_call_alone(db, SKEWGUARD_DO_AGAIN);
}

static inline skewguard_status skewguard_line(skewguard *db)
{
    skewguard_status status = skewguard_call_alone(db, SKEWGUARD_DO_LINE);
    return db && db->reply.kind == SKEWGUARD_TEXT ? SKEWGUARD_DONE : status;
}

static inline skewguard_status skewguard_draw(skewguard *db, skewguard_role role, int fault, const char *definitions,
                                              size_t definitions_length, const char *text, size_t length)
{
    size_t drawn = 0;
    int32_t status;
    if (!db || !text || (!definitions && definitions_length))
        return SKEWGUARD_BAD_REQUEST;
    skewguard_clear_reply(db);
    db->request_length = 0;
    if (!skewguard_add_number(db, (uint64_t)role) || !skewguard_add_number(db, (uint64_t)fault)
        || !skewguard_add_number(db, definitions_length) || !skewguard_add_bytes(db, definitions, definitions_length)
        || !skewguard_add_bytes(db, text, length))
        return SKEWGUARD_NO_MEMORY;
    do {
        if (!skewguard_grow(&db->reply_bytes, &db->reply_capacity, 0, drawn < 2048 ? 2048 : drawn))
            return SKEWGUARD_NO_MEMORY;
        status = skewguard_library_draw(db->request_bytes, db->request_length, db->reply_bytes, db->reply_capacity,
                                        &drawn);
    } while (drawn > db->reply_capacity);
    db->reply_length = drawn;
    db->reply.text.bytes = (const char *)db->reply_bytes;
    db->reply.text.length = drawn;
    return (skewguard_status)status;
}

/* Puts an image in the place of the journal's file. */
static inline skewguard_status skewguard_shorten(skewguard *db)
{
    int error = skewguard_journal_checkpoint(db->journal);
    if (!error)
        return SKEWGUARD_DONE;
    skewguard_clear_reply(db);
    db->reply.kind = SKEWGUARD_MISUSED;
    db->reply.number = (uint64_t)error;
    return SKEWGUARD_IO_ERROR;
}

static inline skewguard_status skewguard_checkpoint(skewguard *db, const char *created, size_t length,
                                                    const skewguard_text *dropped, size_t count)
{
    size_t place;
    skewguard_value value;
    skewguard_status status = skewguard_ready(db, (created || !length) && (dropped || !count));
    if (status != SKEWGUARD_DONE)
        return status;
    for (place = 0; place < count; place++)
        if (!dropped[place].bytes)
            return skewguard_give(db, SKEWGUARD_BAD_REQUEST);
    if (!skewguard_add_number(db, length) || !skewguard_add_bytes(db, created, length)
        || !skewguard_add_number(db, count))
        return skewguard_give(db, SKEWGUARD_NO_MEMORY);
    for (place = 0; place < count; place++) {
        value = skewguard_characters(dropped[place].bytes, dropped[place].length);
        if (!skewguard_add_value(db, &value))
            return skewguard_give(db, SKEWGUARD_NO_MEMORY);
    }
    if (db->journal && !length && !count) {
        status = skewguard_shorten(db);
        if (status != SKEWGUARD_DONE)
            return status;
    }
    return skewguard_call(db, SKEWGUARD_DO_CHECKPOINT);
}

static inline void skewguard_checkpoint_bytes(skewguard *db, uint64_t bytes)
{
    if (db && db->journal)
        skewguard_journal_checkpoint_bytes(db->journal, bytes);
}

#ifdef __cplusplus
}
#endif

#endif
