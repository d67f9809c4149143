/* Every call of the library, and every status. */
#include "expect.h"

static const char definitions[] =
    "CREATE TABLE SHIFTS (ID INTEGER PRIMARY KEY);"
    "CREATE TABLE DUTY (ID INTEGER PRIMARY KEY, SHIFT INTEGER, DOCTOR VARCHAR(10), ONCALL INTEGER);"
    "CREATE ASSERTION COVERED CHECK (NOT EXISTS (SELECT * FROM SHIFTS S WHERE NOT EXISTS ("
    "SELECT * FROM DUTY D WHERE D.SHIFT = S.ID AND D.ONCALL = 1)));"
    "INSERT INTO SHIFTS VALUES (7);"
    "INSERT INTO DUTY VALUES (1, 7, 'KIM', 1);"
    "INSERT INTO DUTY VALUES (2, 7, 'O''HARA', 1);";

static skewguard_status open_clinic(skewguard *db)
{
    return skewguard_open(db, definitions, strlen(definitions), 1000);
}

static void opening(void)
{
    skewguard db;
    uint64_t session = 9;
    const char *faulty = "CREATE TABEL T (ID INTEGER PRIMARY KEY);";
    const char *untrue = "CREATE TABLE T (ID INTEGER PRIMARY KEY);"
                         "CREATE ASSERTION SOME CHECK ((SELECT COUNT(*) FROM T) > 0);";

    EXPECT(open_clinic(&db) == SKEWGUARD_DONE);
    EXPECT(db.reply.kind == SKEWGUARD_OPENED && db.reply.number == SKEWGUARD_LAYOUT);
    skewguard_close(&db);
    EXPECT(!db.library && skewguard_begin(&db, 1) == SKEWGUARD_CLOSED);
    skewguard_close(&db);

    EXPECT(skewguard_open(&db, faulty, strlen(faulty), 10) == SKEWGUARD_REFUSED);
    EXPECT(is_refused(&db, 2, "", "DEFS: REFUSED 2 - SYNTAX 7\n") && db.reply.refusal.offset == 7);
    EXPECT(open_session(&db, "BOB", &session) == SKEWGUARD_CLOSED && session == 9);
    skewguard_close(&db);
    EXPECT(skewguard_open(&db, untrue, strlen(untrue), 10) == SKEWGUARD_REFUSED);
    EXPECT(is_refused(&db, 21, "", "DEFS: REFUSED 21 - SOME ALL\n") && is_text(db.reply.refusal.name, "SOME"));
    EXPECT(db.reply.refusal.root.kind == SKEWGUARD_ALL);
    skewguard_close(&db);

    EXPECT(skewguard_open(&db, "", 0, 0) == SKEWGUARD_DONE);
    skewguard_close(&db);
    EXPECT(skewguard_open(&db, "", 0, 4294967296) == SKEWGUARD_BAD_REQUEST);
    skewguard_close(&db);
    EXPECT(skewguard_open(&db, NULL, 0, 10) == SKEWGUARD_BAD_REQUEST);
    EXPECT(skewguard_open(NULL, definitions, 1, 10) == SKEWGUARD_BAD_REQUEST);
    skewguard_close(NULL);
}

static void drawings(void)
{
    skewguard db;
    uint64_t bob;
    const char *text = "UPDATE DUTY SET ONCALL = 0\nWHERE DOCTR = 'KIM'";
    const char *place = "  --> statement:2:7\n   |\n 2 | WHERE DOCTR = 'KIM'\n   |       ^^^^^\n";
    size_t length = strlen(text);

    open_clinic(&db);
    open_session(&db, "BOB", &bob);
    skewguard_begin(&db, bob);
    EXPECT(skewguard_execute(&db, bob, text, length) == SKEWGUARD_REFUSED && db.reply.refusal.number == 3);
    EXPECT(skewguard_draw(&db, SKEWGUARD_STATEMENT_TEXT, 3, definitions, strlen(definitions), text, length)
        == SKEWGUARD_DONE);
    EXPECT(holds(db.reply.text, place));
    EXPECT(skewguard_draw(&db, SKEWGUARD_STATEMENT_TEXT, 5, definitions, strlen(definitions), text, length)
        == SKEWGUARD_DONE);
    EXPECT(db.reply.text.length == 0);
    EXPECT(skewguard_draw(&db, (skewguard_role)9, 3, NULL, 0, text, length) == SKEWGUARD_BAD_REQUEST);
    EXPECT(skewguard_draw(&db, SKEWGUARD_STATEMENT_TEXT, 3, NULL, 5, text, length) == SKEWGUARD_BAD_REQUEST);
    skewguard_close(&db);
    EXPECT(skewguard_draw(&db, SKEWGUARD_DEFINITIONS, 2, NULL, 0, "CREATE TABEL", 12) == SKEWGUARD_DONE);
    EXPECT(holds(db.reply.text, "  --> definitions:1:8\n"));
    skewguard_close(&db);
}

static void sessions(void)
{
    skewguard db;
    uint64_t bob, carol, again, never = 77;
    char name[16];
    int place;

    open_clinic(&db);
    EXPECT(open_session(&db, "bob", &bob) == SKEWGUARD_DONE && db.reply.kind == SKEWGUARD_SESSION);
    EXPECT(db.reply.number == bob);
    EXPECT(open_session(&db, "BOB", &never) == SKEWGUARD_NAME_TAKEN && never == 77);
    EXPECT(open_session(&db, "SELECT", &never) == SKEWGUARD_BAD_NAME);
    EXPECT(open_session(&db, "", &never) == SKEWGUARD_BAD_NAME);
    EXPECT(open_session(&db, "BOB CAROL", &never) == SKEWGUARD_BAD_NAME);
    EXPECT(open_session(&db, "B\xC3\xB6""B", &never) == SKEWGUARD_BAD_NAME);
    EXPECT(skewguard_open_session(&db, NULL, 3, &never) == SKEWGUARD_BAD_REQUEST);
    EXPECT(skewguard_open_session(&db, "BOB", 3, NULL) == SKEWGUARD_BAD_REQUEST);
    EXPECT(open_session(&db, "carol", &carol) == SKEWGUARD_DONE && carol != bob);

    EXPECT(skewguard_begin(&db, bob) == SKEWGUARD_DONE && db.reply.kind == SKEWGUARD_BEGUN && !db.reply.number);
    EXPECT(execute(&db, bob, "DELETE FROM DUTY WHERE ID = 1") == SKEWGUARD_DONE);
    EXPECT(skewguard_close_session(&db, bob) == SKEWGUARD_DONE && db.reply.kind == SKEWGUARD_CHANGED);
    EXPECT(skewguard_close_session(&db, bob) == SKEWGUARD_NO_SESSION);
    EXPECT(skewguard_begin(&db, bob) == SKEWGUARD_NO_SESSION && db.reply.kind == SKEWGUARD_NOTHING);
    EXPECT(execute(&db, bob, "COMMIT") == SKEWGUARD_NO_SESSION);
    EXPECT(skewguard_commit(&db, 0) == SKEWGUARD_NO_SESSION);
    EXPECT(skewguard_commit(&db, UINT64_MAX) == SKEWGUARD_NO_SESSION);
    EXPECT(open_session(&db, "BOB", &again) == SKEWGUARD_DONE && again != bob && again != carol);
    EXPECT(skewguard_commit(&db, again) == SKEWGUARD_REFUSED);
    EXPECT(is_refused(&db, 14, "", "BOB: REFUSED 14 - NO TRANSACTION\n"));

    for (place = 2; place < 256; place++) {
        snprintf(name, sizeof name, "S%d", place);
        EXPECT(open_session(&db, name, &never) == SKEWGUARD_DONE);
    }
    EXPECT(open_session(&db, "ONETOOMANY", &never) == SKEWGUARD_REFUSED);
    EXPECT(is_refused(&db, 24, "", "SESSION: REFUSED 24 - TOO MANY SESSIONS\n"));
    EXPECT(skewguard_close_session(&db, carol) == SKEWGUARD_DONE);
    EXPECT(open_session(&db, "CAROL", &carol) == SKEWGUARD_DONE);
    skewguard_close(&db);
}

/* A session for each of five hundred users, beside one that stays open; a commit keeps its name. */
static void session_names(void)
{
    skewguard db;
    uint64_t stays, user;
    char name[16];
    int place;

    open_clinic(&db);
    open_session(&db, "STAYS", &stays);
    skewguard_begin(&db, stays);
    for (place = 0; place < 500; place++) {
        snprintf(name, sizeof name, "USER%d", place);
        EXPECT(open_session(&db, name, &user) == SKEWGUARD_DONE);
        EXPECT(skewguard_begin(&db, user) == SKEWGUARD_DONE && skewguard_commit(&db, user) == SKEWGUARD_DONE);
        EXPECT(skewguard_close_session(&db, user) == SKEWGUARD_DONE);
    }
    EXPECT(execute(&db, stays, "DELETE FROM DUTY WHERE ID = 1") == SKEWGUARD_DONE);
    EXPECT(skewguard_commit(&db, stays) == SKEWGUARD_DONE && db.reply.number == 501);
    EXPECT(skewguard_report(&db) == SKEWGUARD_DONE);
    EXPECT(begins_with(db.reply.text, "COMMITS 501\n1 USER0 SNAPSHOT 0 ROWS 0\n2 USER1 SNAPSHOT 1 ROWS 0\n"));
    skewguard_close(&db);
}

/* As many sessions are open as may be: each goes on, and one that is closed makes room for another name. */
static void sessions_at_once(void)
{
    skewguard db;
    uint64_t held[256], never = 77;
    char name[16];
    int place;

    open_clinic(&db);
    for (place = 0; place < 256; place++) {
        snprintf(name, sizeof name, "USER%d", place);
        EXPECT(open_session(&db, name, &held[place]) == SKEWGUARD_DONE);
        EXPECT(skewguard_begin(&db, held[place]) == SKEWGUARD_DONE);
    }
    EXPECT(open_session(&db, "ONETOOMANY", &never) == SKEWGUARD_REFUSED && never == 77);
    EXPECT(is_refused(&db, 24, "", "SESSION: REFUSED 24 - TOO MANY SESSIONS\n"));
    for (place = 0; place < 256; place++)
        EXPECT(execute(&db, held[place], "SELECT * FROM DUTY") == SKEWGUARD_DONE && db.reply.rows == 2);
    EXPECT(skewguard_close_session(&db, held[100]) == SKEWGUARD_DONE);
    EXPECT(open_session(&db, "ONETOOMANY", &never) == SKEWGUARD_DONE);
    EXPECT(open_session(&db, "USER100", &never) == SKEWGUARD_REFUSED);
    EXPECT(skewguard_commit(&db, held[255]) == SKEWGUARD_DONE);
    skewguard_close(&db);
}

static void statements(void)
{
    skewguard db;
    uint64_t bob, insert, update, ask, never = 77;
    skewguard_value values[4], cells[4];

    open_clinic(&db);
    open_session(&db, "BOB", &bob);
    EXPECT(prepare(&db, "INSERT INTO DUTY VALUES (?, ?, ?, ?)", &insert) == SKEWGUARD_DONE);
    EXPECT(db.reply.kind == SKEWGUARD_STATEMENT && db.reply.number == insert && db.reply.parameters == 4);
    EXPECT(prepare(&db, "UPDATE DUTY SET ONCALL = ? WHERE ID = ?", &update) == SKEWGUARD_DONE && update != insert);
    EXPECT(prepare(&db, "SELECT * FROM DUTY WHERE DOCTOR = ? OR DOCTOR IS NULL", &ask) == SKEWGUARD_DONE);
    EXPECT(prepare(&db, "SELEKT ?", &never) == SKEWGUARD_REFUSED && never == 77);
    EXPECT(is_refused(&db, 2, "", "STATEMENT: REFUSED 2 - SYNTAX 0\n"));
    EXPECT(prepare(&db, "COMMIT; COMMIT", &never) == SKEWGUARD_REFUSED && db.reply.refusal.offset == 6);
    EXPECT(skewguard_prepare(&db, NULL, 0, &never) == SKEWGUARD_BAD_REQUEST);

    values[0] = skewguard_number(3);
    values[1] = skewguard_number(7);
    values[2] = skewguard_characters("LEE'; --", 8);
    values[3] = skewguard_null();
    EXPECT(skewguard_run(&db, bob, insert, values, 4) == SKEWGUARD_REFUSED && db.reply.refusal.number == 14);
    skewguard_begin(&db, bob);
    EXPECT(skewguard_run(&db, bob, insert, values, 4) == SKEWGUARD_DONE && db.reply.kind == SKEWGUARD_INSERTED);
    EXPECT(skewguard_run(&db, bob, insert, values, 4) == SKEWGUARD_REFUSED);
    EXPECT(is_refused(&db, 7, "23000", "BOB: REFUSED 7 23000 DUTY 3\n") && is_text(db.reply.refusal.name, "DUTY"));
    EXPECT(is_number(db.reply.refusal.root, 3));
    EXPECT(skewguard_run(&db, bob, ask, &values[2], 1) == SKEWGUARD_DONE && db.reply.kind == SKEWGUARD_ROWS);
    EXPECT(db.reply.rows == 1 && db.reply.columns == 4 && is_text(skewguard_column(&db, 2), "DOCTOR"));
    EXPECT(is_text(skewguard_column(&db, 4), "") && !skewguard_next_row(&db, cells, 3));
    EXPECT(skewguard_next_row(&db, cells, 4) && is_number(cells[0], 3) && cells[3].kind == SKEWGUARD_NULL);
    EXPECT(cells[2].kind == SKEWGUARD_CHARACTERS && is_text(cells[2].text, "LEE'; --"));
    EXPECT(!skewguard_next_row(&db, cells, 4) && !skewguard_next_row(&db, NULL, 4));
    EXPECT(!skewguard_next_row(NULL, cells, 4));
    EXPECT(skewguard_line(&db) == SKEWGUARD_DONE);
    EXPECT(is_text(db.reply.text, "BOB: SELECT 1\n  3, 7, 'LEE''; --', NULL\n"));
    EXPECT(skewguard_again(&db) == SKEWGUARD_DONE && skewguard_next_row(&db, cells, 4) && is_number(cells[0], 3));

    EXPECT(skewguard_run(&db, bob, insert, values, 3) == SKEWGUARD_WRONG_COUNT && db.reply.number == 4);
    EXPECT(skewguard_run(&db, bob, insert, NULL, 4) == SKEWGUARD_BAD_REQUEST);
    EXPECT(skewguard_run(&db, bob, insert, NULL, 0) == SKEWGUARD_WRONG_COUNT);
    EXPECT(skewguard_run(&db, bob, 999, values, 4) == SKEWGUARD_NO_STATEMENT);
    EXPECT(skewguard_run(&db, 999, insert, values, 4) == SKEWGUARD_NO_SESSION);
    values[0] = skewguard_number(1000000000000001);
    EXPECT(skewguard_run(&db, bob, insert, values, 4) == SKEWGUARD_BAD_VALUE && db.reply.number == 1);
    values[0] = skewguard_number(INT64_MIN);
    EXPECT(skewguard_run(&db, bob, insert, values, 4) == SKEWGUARD_BAD_VALUE && db.reply.number == 1);
    values[0] = skewguard_number(-4);
    values[2] = skewguard_characters("L\xC3\t", 3);
    EXPECT(skewguard_run(&db, bob, insert, values, 4) == SKEWGUARD_BAD_VALUE && db.reply.number == 3);
    values[2] = skewguard_characters("L\xC3", 2);
    EXPECT(skewguard_run(&db, bob, insert, values, 4) == SKEWGUARD_BAD_VALUE && db.reply.number == 3);
    values[2] = skewguard_characters(NULL, 2);
    EXPECT(skewguard_run(&db, bob, insert, values, 4) == SKEWGUARD_BAD_REQUEST);
    values[2] = skewguard_characters("\xC3\xA9\xC3\xA9\xC3\xA9\xC3\xA9\xC3\xA9"
                                     "\xC3\xA9\xC3\xA9\xC3\xA9\xC3\xA9\xC3\xA9" "e", 21);
    EXPECT(skewguard_run(&db, bob, insert, values, 4) == SKEWGUARD_REFUSED && db.reply.refusal.number == 9);
    values[2].text.length = 20;
    EXPECT(skewguard_run(&db, bob, insert, values, 4) == SKEWGUARD_DONE);
    EXPECT(execute(&db, bob, "DELETE FROM DUTY WHERE ID = -4") == SKEWGUARD_DONE);
    values[2].kind = (skewguard_value_kind)7;
    EXPECT(skewguard_run(&db, bob, insert, values, 4) == SKEWGUARD_BAD_REQUEST);
    values[2] = skewguard_characters(NULL, 0);
    EXPECT(skewguard_run(&db, bob, insert, values, 4) == SKEWGUARD_DONE);
    values[0] = skewguard_null();
    EXPECT(skewguard_run(&db, bob, ask, values, 1) == SKEWGUARD_BAD_VALUE && db.reply.number == 1);

    EXPECT(execute(&db, bob, "INSERT INTO SHIFTS VALUES (7), (8)") == SKEWGUARD_REFUSED);
    EXPECT(execute(&db, bob, "INSERT INTO DUTY (ID) VALUES (20), (21), (22)") == SKEWGUARD_DONE);
    EXPECT(db.reply.kind == SKEWGUARD_INSERTED && db.reply.number == 3);
    EXPECT(execute(&db, bob, "SELECT ID, ONCALL FROM DUTY WHERE ID < 0") == SKEWGUARD_DONE && db.reply.columns == 2);
    EXPECT(is_text(skewguard_column(&db, 1), "ONCALL") && skewguard_next_row(&db, cells, 4) && is_number(cells[0], -4));
    EXPECT(skewguard_forget(&db, update) == SKEWGUARD_DONE && skewguard_forget(&db, update) == SKEWGUARD_NO_STATEMENT);
    EXPECT(skewguard_run(&db, bob, update, values, 2) == SKEWGUARD_NO_STATEMENT);
    EXPECT(prepare(&db, "ROLLBACK", &update) == SKEWGUARD_DONE && !db.reply.parameters);
    EXPECT(skewguard_run(&db, bob, update, NULL, 0) == SKEWGUARD_DONE && db.reply.kind == SKEWGUARD_ROLLED_BACK);
    skewguard_close(&db);
}

static void events(void)
{
    skewguard db;
    uint64_t bob, carol, off;
    skewguard_value values[2];

    open_clinic(&db);
    open_session(&db, "BOB", &bob);
    open_session(&db, "CAROL", &carol);
    prepare(&db, "UPDATE DUTY SET ONCALL = ? WHERE ID = ?", &off);
    EXPECT(skewguard_begin(&db, bob) == SKEWGUARD_DONE && skewguard_begin(&db, carol) == SKEWGUARD_DONE);
    EXPECT(skewguard_begin(&db, bob) == SKEWGUARD_REFUSED);
    EXPECT(is_refused(&db, 15, "", "BOB: REFUSED 15 - TRANSACTION OPEN\n"));
    values[0] = skewguard_number(0);
    values[1] = skewguard_number(1);
    EXPECT(skewguard_run(&db, bob, off, values, 2) == SKEWGUARD_DONE);
    EXPECT(db.reply.kind == SKEWGUARD_UPDATED && db.reply.number == 1);
    values[1] = skewguard_number(2);
    EXPECT(skewguard_run(&db, bob, off, values, 2) == SKEWGUARD_REFUSED);
    EXPECT(is_refused(&db, 10, "23000", "BOB: REFUSED 10 23000 COVERED 7\n") && is_number(db.reply.refusal.root, 7));
    EXPECT(skewguard_run(&db, carol, off, values, 2) == SKEWGUARD_DONE);
    EXPECT(execute(&db, carol, "VERDICT COVERED") == SKEWGUARD_DONE && db.reply.kind == SKEWGUARD_VERDICT);
    EXPECT(db.reply.verdict == SKEWGUARD_TRUE);
    EXPECT(skewguard_commit(&db, bob) == SKEWGUARD_DONE);
    EXPECT(db.reply.kind == SKEWGUARD_COMMITTED && db.reply.number == 1);
    EXPECT(skewguard_commit(&db, carol) == SKEWGUARD_REFUSED);
    EXPECT(is_refused(&db, 13, "40001", "CAROL: REFUSED 13 40001 READER 1 PIVOT THIS WRITER 1\n"));
    EXPECT(db.reply.refusal.reader == 1 && db.reply.refusal.pivot == 0 && db.reply.refusal.writer == 1);
    EXPECT(db.reply.refusal.root.kind == SKEWGUARD_NO_VALUE);

    EXPECT(skewguard_begin(&db, bob) == SKEWGUARD_DONE && db.reply.number == 1);
    EXPECT(skewguard_begin(&db, carol) == SKEWGUARD_DONE);
    EXPECT(execute(&db, bob, "UPDATE DUTY SET DOCTOR = 'ANN' WHERE ID = 1") == SKEWGUARD_DONE);
    EXPECT(execute(&db, carol, "UPDATE DUTY SET DOCTOR = 'EVE' WHERE ID = 1") == SKEWGUARD_DONE);
    EXPECT(skewguard_commit(&db, bob) == SKEWGUARD_DONE && skewguard_commit(&db, carol) == SKEWGUARD_REFUSED);
    EXPECT(is_refused(&db, 12, "40001", "CAROL: REFUSED 12 40001 DUTY 1 BY 2\n") && db.reply.refusal.commit == 2);

    EXPECT(skewguard_begin_read_only(&db, bob) == SKEWGUARD_DONE && db.reply.kind == SKEWGUARD_BEGUN);
    EXPECT(execute(&db, bob, "DELETE FROM DUTY") == SKEWGUARD_REFUSED);
    EXPECT(is_refused(&db, 23, "", "BOB: REFUSED 23 - READ ONLY\n"));
    EXPECT(execute(&db, bob, "SET CONSTRAINTS ALL IMMEDIATE") == SKEWGUARD_DONE);
    EXPECT(db.reply.kind == SKEWGUARD_MODES_SET);
    EXPECT(execute(&db, bob, "NONSENSE") == SKEWGUARD_REFUSED);
    EXPECT(is_refused(&db, 2, "", "STATEMENT: REFUSED 2 - SYNTAX 0\n"));
    EXPECT(skewguard_execute(&db, bob, NULL, 0) == SKEWGUARD_BAD_REQUEST);
    EXPECT(skewguard_line(&db) == SKEWGUARD_DONE && is_text(db.reply.text, "STATEMENT: REFUSED 2 - SYNTAX 0\n"));
    EXPECT(skewguard_again(&db) == SKEWGUARD_REFUSED && db.reply.refusal.number == 2);
    EXPECT(skewguard_begin(&db, 0) == SKEWGUARD_NO_SESSION && skewguard_line(&db) == SKEWGUARD_DONE);
    EXPECT(is_text(db.reply.text, "") && skewguard_again(&db) == SKEWGUARD_NO_SESSION);
    EXPECT(skewguard_rollback(&db, bob) == SKEWGUARD_DONE && db.reply.kind == SKEWGUARD_ROLLED_BACK);
    EXPECT(execute(&db, carol, "BEGIN") == SKEWGUARD_DONE && db.reply.kind == SKEWGUARD_BEGUN);
    EXPECT(execute(&db, carol, "DELETE FROM DUTY WHERE ID = 99") == SKEWGUARD_DONE);
    EXPECT(db.reply.kind == SKEWGUARD_DELETED && !db.reply.number);
    EXPECT(skewguard_line(&db) == SKEWGUARD_DONE && is_text(db.reply.text, "CAROL: DELETE 0\n"));

    EXPECT(skewguard_report(&db) == SKEWGUARD_DONE && db.reply.kind == SKEWGUARD_TEXT);
    EXPECT(is_text(db.reply.text,
                   "COMMITS 2\n1 BOB SNAPSHOT 0 ROWS 1\n2 BOB SNAPSHOT 1 ROWS 1\nSERIAL 1 2\nREFUSED 2\n"
                   "CAROL 13 40001 READER 1 PIVOT THIS WRITER 1\nCAROL 12 40001 DUTY 1 BY 2\n"
                   "ASSERTIONS 1\nCOVERED TRUE\n"));
    skewguard_close(&db);
}

static void checkpoints(void)
{
    skewguard db;
    uint64_t bob;
    const char *more = "CREATE ASSERTION FEW CHECK ((SELECT COUNT(*) FROM DUTY) < 4);";
    const char *worse = "CREATE ASSERTION NONE CHECK ((SELECT COUNT(*) FROM DUTY) < 1);";
    skewguard_text dropped[2];

    open_clinic(&db);
    open_session(&db, "BOB", &bob);
    skewguard_begin(&db, bob);
    execute(&db, bob, "INSERT INTO DUTY VALUES (3, 7, 'LEE', 0)");
    dropped[0].bytes = "covered";
    dropped[0].length = 7;
    dropped[1].bytes = "NOSUCH";
    dropped[1].length = 6;
    EXPECT(skewguard_checkpoint(&db, more, strlen(more), NULL, 0) == SKEWGUARD_REFUSED);
    EXPECT(is_refused(&db, 15, "", "RULES: REFUSED 15 - TRANSACTION OPEN\n"));
    skewguard_commit(&db, bob);
    EXPECT(skewguard_checkpoint(&db, worse, strlen(worse), NULL, 0) == SKEWGUARD_REFUSED);
    EXPECT(is_refused(&db, 21, "", "RULES: REFUSED 21 - NONE ALL\n"));
    EXPECT(skewguard_checkpoint(&db, NULL, 0, dropped, 2) == SKEWGUARD_REFUSED);
    EXPECT(is_refused(&db, 3, "", "RULES: REFUSED 3 - NOSUCH\n"));
    EXPECT(skewguard_checkpoint(&db, "CREATE", 6, NULL, 0) == SKEWGUARD_REFUSED && db.reply.refusal.number == 2);
    EXPECT(skewguard_checkpoint(&db, NULL, 0, NULL, 1) == SKEWGUARD_BAD_REQUEST);
    EXPECT(skewguard_checkpoint(&db, NULL, 1, NULL, 0) == SKEWGUARD_BAD_REQUEST);
    dropped[1].bytes = "A B";
    dropped[1].length = 3;
    EXPECT(skewguard_checkpoint(&db, NULL, 0, dropped, 2) == SKEWGUARD_BAD_NAME);
    EXPECT(skewguard_checkpoint(&db, more, strlen(more), dropped, 1) == SKEWGUARD_DONE);
    EXPECT(db.reply.kind == SKEWGUARD_TEXT);
    EXPECT(is_text(db.reply.text,
                   "COMMITS 1\n1 BOB SNAPSHOT 0 ROWS 1\nSERIAL 1\nREFUSED 0\nASSERTIONS 1\nCOVERED TRUE\n"));
    EXPECT(skewguard_report(&db) == SKEWGUARD_DONE);
    EXPECT(is_text(db.reply.text, "COMMITS 0\nSERIAL\nREFUSED 0\nASSERTIONS 1\nFEW TRUE\n"));
    EXPECT(skewguard_checkpoint(&db, NULL, 0, NULL, 0) == SKEWGUARD_DONE);
    skewguard_begin(&db, bob);
    EXPECT(execute(&db, bob, "UPDATE DUTY SET ONCALL = 0") == SKEWGUARD_DONE && db.reply.number == 3);
    EXPECT(execute(&db, bob, "INSERT INTO DUTY VALUES (4, 7, 'EVE', 0)") == SKEWGUARD_REFUSED);
    EXPECT(is_refused(&db, 10, "23000", "BOB: REFUSED 10 23000 FEW ALL\n"));
    EXPECT(skewguard_commit(&db, bob) == SKEWGUARD_DONE && db.reply.number == 1);
    skewguard_close(&db);
}

/* A reply that is longer than the buffer that there is, and the limit of commits. */
static void much(void)
{
    skewguard db;
    uint64_t bob, insert;
    skewguard_value values[4], cells[4];
    int64_t id;
    uint64_t rows = 0;

    skewguard_open(&db, definitions, strlen(definitions), 1);
    open_session(&db, "BOB", &bob);
    prepare(&db, "INSERT INTO DUTY VALUES (?, 7, ?, 1)", &insert);
    skewguard_begin(&db, bob);
    for (id = 10; id < 1010; id++) {
        values[0] = skewguard_number(id);
        values[1] = skewguard_characters("DOCTOR", 6);
        EXPECT(skewguard_run(&db, bob, insert, values, 2) == SKEWGUARD_DONE);
    }
    EXPECT(execute(&db, bob, "SELECT * FROM DUTY") == SKEWGUARD_DONE && db.reply.rows == 1002);
    while (skewguard_next_row(&db, cells, 4))
        rows += cells[0].kind == SKEWGUARD_NUMBER && is_number(cells[3], 1);
    EXPECT(rows == 1002);
    EXPECT(skewguard_line(&db) == SKEWGUARD_DONE && db.reply.text.length > 20000);
    EXPECT(skewguard_again(&db) == SKEWGUARD_DONE && db.reply.rows == 1002);
    EXPECT(skewguard_commit(&db, bob) == SKEWGUARD_DONE);
    skewguard_begin(&db, bob);
    EXPECT(skewguard_commit(&db, bob) == SKEWGUARD_REFUSED);
    EXPECT(is_refused(&db, 17, "", "BOB: REFUSED 17 - EPOCH FULL\n"));
    skewguard_close(&db);
}

/* What a caller can do wrong at the library itself, where it can be seen. */
static void bytes(void)
{
    void *library = NULL;
    unsigned char reply[64], request[32] = {0};
    size_t length = 99;

    EXPECT(skewguard_library_open(request, 3, &library) == SKEWGUARD_DONE);
    EXPECT(skewguard_library_call(library, 0, request, 0, reply, 64, &length) == SKEWGUARD_BAD_REQUEST && length == 1);
    EXPECT(skewguard_library_call(library, 12, request, 0, reply, 64, &length) == SKEWGUARD_CLOSED && length == 1);
    skewguard_library_close(library);
    request[0] = 5;
    EXPECT(skewguard_library_open(request, 8, &library) == SKEWGUARD_DONE);
    EXPECT(skewguard_library_call(library, 0, request, 0, reply, 64, &length) == SKEWGUARD_DONE && length == 9);
    EXPECT(skewguard_library_call(library, 0, request, 0, reply, 3, &length) == SKEWGUARD_DONE && length == 9);
    EXPECT(skewguard_library_call(library, 14, request, 8, reply, 64, &length) == SKEWGUARD_BAD_REQUEST);
    EXPECT(skewguard_library_call(library, 8, request, 7, reply, 64, &length) == SKEWGUARD_BAD_REQUEST);
    EXPECT(skewguard_library_call(library, 8, request, 9, reply, 64, &length) == SKEWGUARD_BAD_REQUEST);
    EXPECT(skewguard_library_call(library, 6, request, 24, reply, 64, &length) == SKEWGUARD_NO_STATEMENT);
    request[16] = 1;
    EXPECT(skewguard_library_call(library, 6, request, 24, reply, 64, &length) == SKEWGUARD_BAD_REQUEST);
    request[23] = 0xff;
    EXPECT(skewguard_library_call(library, 6, request, 32, reply, 64, &length) == SKEWGUARD_BAD_REQUEST);
    EXPECT(skewguard_library_call(library, 13, request + 16, 16, reply, 64, &length) == SKEWGUARD_BAD_REQUEST);
    EXPECT(skewguard_library_call(library, 12, request, 0, reply, 64, &length) == SKEWGUARD_DONE && length > 9);
    EXPECT(skewguard_library_call(library, 1, request, 0, reply, 64, &length) == SKEWGUARD_DONE && length == 9);
    skewguard_library_close(library);
}

/* Each status and each fault has words of its own. */
static void texts(void)
{
    const char *seen[40];
    int count = 0, number, other, unknown = 0;

    for (number = SKEWGUARD_DONE; number <= SKEWGUARD_UNRESTORED; number++)
        seen[count++] = skewguard_status_text((skewguard_status)number);
    for (number = 2; number <= SKEWGUARD_FAULT_NOT_KEPT; number++) {
        const char *text = skewguard_fault_text(number);
        unknown += !strcmp(text, "another fault");
        /* (the texts of these are those of others) */
        if (number != 15 && number != 16 && number != SKEWGUARD_FAULT_NOT_KEPT)
            seen[count++] = text;
    }
    EXPECT(unknown == 1); /* 16 is none of this library */
    for (number = 0; number < count; number++)
        for (other = 0; other < number; other++)
            EXPECT(seen[number][0] && strcmp(seen[number], seen[other]));
    EXPECT(!strcmp(skewguard_status_text((skewguard_status)99), "another status"));
    EXPECT(!strcmp(skewguard_fault_text(99), "another fault") && !strcmp(skewguard_fault_text(0), "another fault"));
}

static void retries(void)
{
    skewguard db;
    uint64_t bob, carol;

    open_clinic(&db);
    open_session(&db, "BOB", &bob);
    open_session(&db, "CAROL", &carol);
    skewguard_begin(&db, bob);
    skewguard_begin(&db, carol);
    execute(&db, bob, "UPDATE DUTY SET DOCTOR = 'LEE' WHERE ID = 1");
    execute(&db, carol, "UPDATE DUTY SET DOCTOR = 'MAY' WHERE ID = 1");
    EXPECT(skewguard_commit(&db, bob) == SKEWGUARD_DONE && !skewguard_may_retry(&db.reply.refusal));
    EXPECT(skewguard_commit(&db, carol) == SKEWGUARD_REFUSED && skewguard_may_retry(&db.reply.refusal));
    EXPECT(db.reply.refusal.number == SKEWGUARD_FAULT_WRITE_CONFLICT);
    skewguard_begin(&db, carol);
    EXPECT(execute(&db, carol, "DELETE FROM DUTY") == SKEWGUARD_REFUSED && !skewguard_may_retry(&db.reply.refusal));
    EXPECT(db.reply.refusal.number == SKEWGUARD_FAULT_RULE_VIOLATED);
    EXPECT(!skewguard_may_retry(NULL));
    skewguard_close(&db);
}

/* A statement may end with its `;`, with nothing but comments behind that. */
static void semicolons(void)
{
    static const char *const ends[] = {";", " ;", ";\n", " ; -- all of it; really", "--'\n;--'"};
    static const char select[] = "SELECT ID FROM DUTY WHERE DOCTOR = ';'";
    char text[128];
    skewguard db;
    uint64_t session, statement;
    skewguard_value key = skewguard_number(1);
    size_t place;

    open_clinic(&db);
    open_session(&db, "BOB", &session);
    EXPECT(execute(&db, session, "BEGIN;") == SKEWGUARD_DONE);
    for (place = 0; place < sizeof ends / sizeof *ends; place++) {
        snprintf(text, sizeof text, "%s%s", select, ends[place]);
        EXPECT(execute(&db, session, text) == SKEWGUARD_DONE && !db.reply.rows);
        snprintf(text, sizeof text, "DELETE FROM DUTY WHERE ID = ? AND ONCALL < 0%s", ends[place]);
        EXPECT(prepare(&db, text, &statement) == SKEWGUARD_DONE && db.reply.parameters == 1);
        EXPECT(skewguard_run(&db, session, statement, &key, 1) == SKEWGUARD_DONE && !db.reply.number);
    }
    EXPECT(execute(&db, session, "SELECT ID FROM DUTY; SELECT ID FROM DUTY;") == SKEWGUARD_REFUSED);
    EXPECT(db.reply.refusal.number == SKEWGUARD_FAULT_SYNTAX && db.reply.refusal.offset == 19);
    EXPECT(prepare(&db, "SELECT ID FROM DUTY;; ", &statement) == SKEWGUARD_REFUSED && db.reply.refusal.offset == 19);
    EXPECT(prepare(&db, "SELECT ID FROM DUTY; ?", &statement) == SKEWGUARD_REFUSED && db.reply.refusal.offset == 19);
    EXPECT(prepare(&db, "SELECT ID FROM DUTY; #", &statement) == SKEWGUARD_REFUSED && db.reply.refusal.offset == 19);
    EXPECT(execute(&db, session, "SELECT ID FROM DUTY WHERE DOCTOR = 'A;") == SKEWGUARD_REFUSED);
    EXPECT(db.reply.refusal.offset == 35);
    EXPECT(execute(&db, session, ";") == SKEWGUARD_REFUSED && db.reply.refusal.offset == 0);
    EXPECT(execute(&db, session, "") == SKEWGUARD_REFUSED && db.reply.refusal.offset == 0);
    EXPECT(execute(&db, session, "COMMIT;") == SKEWGUARD_DONE && db.reply.kind == SKEWGUARD_COMMITTED);
    skewguard_close(&db);
}

/* One statement with many lists of values, in an open transaction. */
static void many_rows(void)
{
    skewguard db;
    skewguard_value values[3 * 4], cell;
    uint64_t session, insert, select, place;

    open_clinic(&db);
    open_session(&db, "BOB", &session);
    prepare(&db, "INSERT INTO DUTY VALUES (?, 7, ?, ?)", &insert);
    prepare(&db, "SELECT ID FROM DUTY WHERE ID >= ? AND ONCALL = 0", &select);
    for (place = 0; place < 4; place++) {
        values[3 * place] = skewguard_number(10 + (int64_t)place);
        values[3 * place + 1] = skewguard_characters("KIM", 3);
        values[3 * place + 2] = skewguard_number(0);
    }
    EXPECT(skewguard_run_all(&db, session, insert, values, 3, 4) == SKEWGUARD_REFUSED);
    EXPECT(is_refused(&db, 14, "", "BOB: REFUSED 14 - NO TRANSACTION\n") && !db.reply.place && db.reply.replies == 1);
    skewguard_begin(&db, session);
    EXPECT(!skewguard_next_reply(&db));
    EXPECT(skewguard_run_all(&db, session, insert, values, 3, 4) == SKEWGUARD_DONE);
    EXPECT(db.reply.kind == SKEWGUARD_INSERTED && db.reply.place == 3 && db.reply.replies == 4);
    for (place = 0; place < 4; place++)
        EXPECT(skewguard_next_reply(&db) && db.reply.number == 1 && db.reply.place == place);
    EXPECT(!skewguard_next_reply(&db));
    EXPECT(skewguard_line(&db) == SKEWGUARD_DONE && skewguard_next_reply(&db));
    EXPECT(is_text(db.reply.text, "BOB: INSERT 1\n") && db.reply.replies == 4);

    EXPECT(skewguard_run_all(&db, session, select, &values[0], 1, 1) == SKEWGUARD_DONE);
    EXPECT(db.reply.kind == SKEWGUARD_ROWS && db.reply.rows == 4);
    EXPECT(skewguard_next_row(&db, &cell, 1) && is_number(cell, 10));
    EXPECT(skewguard_next_reply(&db) && skewguard_next_row(&db, &cell, 1) && is_number(cell, 10));
    EXPECT(is_text(skewguard_column(&db, 0), "ID"));

    values[0] = skewguard_number(20);
    values[6] = skewguard_number(11);
    EXPECT(skewguard_run_all(&db, session, insert, values, 3, 4) == SKEWGUARD_REFUSED && db.reply.place == 1);
    EXPECT(db.reply.refusal.number == 7 && is_number(db.reply.refusal.root, 11) && db.reply.replies == 2);
    EXPECT(skewguard_next_reply(&db) && db.reply.kind == SKEWGUARD_INSERTED);
    EXPECT(execute(&db, session, "SELECT * FROM DUTY WHERE ID = 20") == SKEWGUARD_DONE && db.reply.rows == 1);
    EXPECT(skewguard_run_all(&db, session, insert, values, 2, 1) == SKEWGUARD_WRONG_COUNT && db.reply.number == 3);
    EXPECT(skewguard_run_all(&db, session, 99, values, 2, 1) == SKEWGUARD_NO_STATEMENT);
    EXPECT(skewguard_run_all(&db, 99, insert, values, 3, 4) == SKEWGUARD_NO_SESSION && db.reply.replies == 1);
    EXPECT(skewguard_run_all(&db, session, insert, values, 3, 0) == SKEWGUARD_DONE && !db.reply.replies);
    EXPECT(skewguard_run_all(&db, session, insert, NULL, 3, 0) == SKEWGUARD_DONE);
    EXPECT(skewguard_run_all(&db, session, insert, NULL, 3, 1) == SKEWGUARD_BAD_REQUEST);
    EXPECT(skewguard_run_all(&db, session, insert, values, 3, SIZE_MAX / 2) == SKEWGUARD_BAD_REQUEST);
    values[4] = skewguard_characters("\xC3", 1);
    values[3] = skewguard_number(30);
    EXPECT(skewguard_run_all(&db, session, insert, &values[3], 3, 1) == SKEWGUARD_BAD_VALUE && db.reply.number == 2);
    values[4].kind = SKEWGUARD_ALL;
    EXPECT(skewguard_run_all(&db, session, insert, values, 3, 4) == SKEWGUARD_BAD_REQUEST && !db.reply.replies);
    skewguard_close(&db);
}

static int is_column(const skewguard *db, uint64_t place, const char *name)
{
    return is_text(skewguard_column(db, place), name);
}

/* Set functions and expressions: what their columns are called, and numbers that pass 64 bits. */
static void derived_columns(void)
{
    skewguard db;
    uint64_t bob, leave;
    skewguard_value cells[4];
    const char *wide = "SELECT SHIFT * 9223 + 372036854775807, SHIFT * 9223 + 372036854775808, SHIFT * SHIFT,"
                       " SHIFT * 9223 - 372036854775808 FROM DUTY WHERE ID IN (3, 4)";

    open_clinic(&db);
    open_session(&db, "BOB", &bob);
    skewguard_begin(&db, bob);
    EXPECT(execute(&db, bob, "SELECT COUNT(*), MAX(DOCTOR) LAST_NAME, SUM(ID), MIN(ID) + 1 FROM DUTY")
        == SKEWGUARD_DONE);
    EXPECT(db.reply.kind == SKEWGUARD_ROWS && db.reply.rows == 1 && db.reply.columns == 4);
    EXPECT(is_column(&db, 0, "COUNT") && is_column(&db, 1, "LAST_NAME"));
    EXPECT(is_column(&db, 2, "SUM") && is_column(&db, 3, "?column?"));
    EXPECT(skewguard_next_row(&db, cells, 4) && is_number(cells[0], 2) && is_number(cells[2], 3));
    EXPECT(is_text(cells[1].text, "O'HARA") && is_number(cells[3], 2) && !skewguard_next_row(&db, cells, 4));
    EXPECT(execute(&db, bob, "SELECT D.DOCTOR, ID AS NUMBER_OF FROM DUTY D WHERE D.ID = 2") == SKEWGUARD_DONE);
    EXPECT(is_column(&db, 0, "DOCTOR") && is_column(&db, 1, "NUMBER_OF") && db.reply.rows == 1);

    EXPECT(execute(&db, bob, "INSERT INTO DUTY (ID, SHIFT) VALUES (3, 1000000000000000), (4, -1000000000000000)")
        == SKEWGUARD_DONE);
    EXPECT(execute(&db, bob, "INSERT INTO DUTY (ID, SHIFT) VALUES (5, -1000000000000000), (6, -1000000000000000)")
        == SKEWGUARD_DONE);
    EXPECT(execute(&db, bob, wide) == SKEWGUARD_DONE && skewguard_next_row(&db, cells, 4));
    EXPECT(is_number(cells[0], INT64_MAX) && is_numeric(cells[1], "9223372036854775808"));
    EXPECT(is_numeric(cells[2], "1000000000000000000000000000000") && is_number(cells[3], 9222627963145224192));
    EXPECT(skewguard_next_row(&db, cells, 4) && is_number(cells[3], INT64_MIN) && !skewguard_next_row(&db, cells, 4));
    EXPECT(execute(&db, bob, "SELECT SUM(SHIFT) * 4000 FROM DUTY WHERE ID > 3") == SKEWGUARD_DONE);
    EXPECT(skewguard_next_row(&db, cells, 1) && is_numeric(cells[0], "-12000000000000000000"));
    EXPECT(prepare(&db, "DELETE FROM DUTY WHERE SHIFT = ?", &leave) == SKEWGUARD_DONE);
    EXPECT(skewguard_run(&db, bob, leave, cells, 1) == SKEWGUARD_BAD_REQUEST);
    EXPECT(execute(&db, bob, "SELECT SUM(SHIFT) * 4000 FROM DUTY WHERE ID > 3") == SKEWGUARD_DONE);
    EXPECT(skewguard_line(&db) == SKEWGUARD_DONE);
    EXPECT(is_text(db.reply.text, "BOB: SELECT 1\n  -12000000000000000000\n"));
    skewguard_close(&db);
}

/* Whole transactions in one call each. */
static void transactions(void)
{
    skewguard db;
    uint64_t bob, eve, leave, select, commit;
    skewguard_value one = skewguard_number(1), two = skewguard_number(2);
    skewguard_step steps[2], end;

    open_clinic(&db);
    open_session(&db, "BOB", &bob);
    open_session(&db, "EVE", &eve);
    prepare(&db, "UPDATE DUTY SET ONCALL = 0 WHERE ID = ?;", &leave);
    prepare(&db, "SELECT DOCTOR FROM DUTY WHERE ID = ?", &select);
    prepare(&db, "COMMIT", &commit);
    steps[0].statement = select, steps[0].values = &two, steps[0].count = 1;
    steps[1].statement = leave, steps[1].values = &one, steps[1].count = 1;
    EXPECT(skewguard_run_transaction(&db, bob, steps, 2) == SKEWGUARD_DONE);
    EXPECT(db.reply.kind == SKEWGUARD_COMMITTED && db.reply.number == 1 && db.reply.place == 3 && db.reply.replies == 4);
    EXPECT(skewguard_next_reply(&db) && db.reply.kind == SKEWGUARD_BEGUN && !db.reply.number);
    EXPECT(skewguard_next_reply(&db) && db.reply.kind == SKEWGUARD_ROWS && is_text(skewguard_column(&db, 0), "DOCTOR"));
    EXPECT(skewguard_next_reply(&db) && db.reply.kind == SKEWGUARD_UPDATED && db.reply.number == 1);
    EXPECT(skewguard_next_reply(&db) && db.reply.kind == SKEWGUARD_COMMITTED && !skewguard_next_reply(&db));
    EXPECT(skewguard_again(&db) == SKEWGUARD_DONE && db.reply.kind == SKEWGUARD_COMMITTED);
    EXPECT(skewguard_line(&db) == SKEWGUARD_DONE && is_text(db.reply.text, "BOB: COMMIT 1\n"));

    steps[1].values = &two;
    EXPECT(skewguard_run_transaction(&db, bob, steps, 2) == SKEWGUARD_REFUSED && db.reply.place == 2);
    EXPECT(is_refused(&db, 10, "23000", "BOB: REFUSED 10 23000 COVERED 7\n") && db.reply.replies == 4);
    while (skewguard_next_reply(&db))
        continue;
    EXPECT(db.reply.kind == SKEWGUARD_ROLLED_BACK && db.reply.place == 3);
    EXPECT(skewguard_rollback(&db, bob) == SKEWGUARD_REFUSED && db.reply.refusal.number == 14);

    skewguard_begin(&db, eve);
    EXPECT(skewguard_run_transaction(&db, eve, steps, 1) == SKEWGUARD_REFUSED && !db.reply.place);
    EXPECT(db.reply.refusal.number == 15 && db.reply.replies == 1);
    EXPECT(execute(&db, eve, "UPDATE DUTY SET DOCTOR = 'EVE' WHERE ID = 2") == SKEWGUARD_DONE);
    steps[0].statement = leave, steps[0].values = &one;
    EXPECT(skewguard_run_transaction(&db, bob, steps, 1) == SKEWGUARD_DONE && db.reply.number == 2);
    EXPECT(skewguard_commit(&db, eve) == SKEWGUARD_DONE && db.reply.number == 3);
    end.statement = commit, end.values = NULL, end.count = 0;
    EXPECT(skewguard_run_transaction(&db, bob, &end, 1) == SKEWGUARD_REFUSED && db.reply.place == 2);
    EXPECT(db.reply.refusal.number == 14 && db.reply.replies == 3);
    EXPECT(skewguard_run_transaction(&db, bob, NULL, 0) == SKEWGUARD_DONE && db.reply.number == 5);
    EXPECT(skewguard_run_transaction(&db, 99, steps, 1) == SKEWGUARD_NO_SESSION && !db.reply.replies);
    EXPECT(skewguard_run_transaction(&db, bob, NULL, 1) == SKEWGUARD_BAD_REQUEST);
    steps[0].values = NULL;
    EXPECT(skewguard_run_transaction(&db, bob, steps, 1) == SKEWGUARD_BAD_REQUEST);
    steps[0].count = 0;
    EXPECT(skewguard_run_transaction(&db, bob, steps, 1) == SKEWGUARD_WRONG_COUNT && db.reply.place == 1);
    EXPECT(skewguard_begin(&db, bob) == SKEWGUARD_DONE);
    skewguard_close(&db);
}

int main(void)
{
    opening();
    drawings();
    semicolons();
    many_rows();
    derived_columns();
    transactions();
    sessions();
    session_names();
    sessions_at_once();
    texts();
    retries();
    statements();
    events();
    checkpoints();
    much();
    bytes();
    return told("calls");
}
