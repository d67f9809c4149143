/* Plain loops of rows, as a program has them: no compiler has to warn of what it sees in the header. */
#include <skewguard.h>
#include <stdio.h>

static int fail(const skewguard *db, skewguard_status status)
{
    fprintf(stderr, "%s: %s\n", skewguard_status_text(status), skewguard_fault_text(db->reply.refusal.number));
    return 1;
}

static void list(skewguard *db)
{
    skewguard_value row[4];
    while (skewguard_next_row(db, row, 4))
        printf("%lld %.*s %lld %d\n", (long long)row[0].number, (int)row[1].text.length, row[1].text.bytes,
               (long long)row[2].number, row[3].kind == SKEWGUARD_NULL);
}

int main(void)
{
    const char defs[] = "CREATE TABLE T (ID INTEGER PRIMARY KEY, S VARCHAR(9), N INTEGER);"
                        "INSERT INTO T VALUES (1, 'ONE', 10); INSERT INTO T VALUES (2, 'TWO', 20);";
    const char all[] = "SELECT * FROM T", one[] = "SELECT N FROM T";
    skewguard db;
    skewguard_value cell;
    uint64_t kim, statement;
    skewguard_status status = skewguard_open(&db, defs, sizeof defs - 1, 1000);
    if (status == SKEWGUARD_DONE)
        status = skewguard_open_session(&db, "KIM", 3, &kim);
    if (status == SKEWGUARD_DONE)
        status = skewguard_prepare(&db, all, sizeof all - 1, &statement);
    if (status != SKEWGUARD_DONE)
        return fail(&db, status);
    status = skewguard_begin(&db, kim);
    if (status == SKEWGUARD_DONE && skewguard_run(&db, kim, statement, NULL, 0) == SKEWGUARD_DONE)
        list(&db);
    if (skewguard_execute(&db, kim, one, sizeof one - 1) == SKEWGUARD_DONE)
        while (skewguard_next_row(&db, &cell, 1))
            printf("%lld\n", (long long)cell.number);
    status = skewguard_commit(&db, kim);
    if (status != SKEWGUARD_DONE)
        return fail(&db, status);
    skewguard_close(&db);
    return 0;
}
