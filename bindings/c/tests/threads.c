/* Threads: one with the least stack that the library asks for, and two at once, each with a skewguard of its own. */
#include "expect.h"

#include <pthread.h>

enum { LEAST_STACK = 256 * 1024, DEEPEST = 64, TRANSACTIONS = 1000 };

static const char definitions[] = "CREATE TABLE ACCT (ID INTEGER PRIMARY KEY, BAL INTEGER);\n"
    "CREATE ASSERTION FUNDS CHECK ((SELECT SUM(BAL) FROM ACCT) >= 0);\n"
    "INSERT INTO ACCT VALUES (1, 5);";

/* What a thread is given, and what it leaves: the status of its last call, and a count. */
struct work {
    int64_t number;
    skewguard_status status;
    uint64_t count;
};

static skewguard_status open_accounts(skewguard *db, uint64_t *session)
{
    skewguard_status status = skewguard_open(db, definitions, strlen(definitions), 1000000);
    return status == SKEWGUARD_DONE ? open_session(db, "BOB", session) : status;
}

static void *ask_deeply(void *given)
{
    struct work *work = given;
    skewguard db;
    uint64_t bob;
    char text[256] = "SELECT BAL FROM ACCT WHERE ";
    size_t place = strlen(text);

    memset(text + place, '(', DEEPEST);
    memcpy(text + place + DEEPEST, "BAL = 5", 7);
    memset(text + place + DEEPEST + 7, ')', DEEPEST);
    work->status = open_accounts(&db, &bob);
    if (work->status == SKEWGUARD_DONE)
        work->status = skewguard_begin(&db, bob);
    if (work->status == SKEWGUARD_DONE)
        work->status = execute(&db, bob, text);
    work->count = db.reply.rows;
    skewguard_close(&db);
    return NULL;
}

/* A thread of that stack, which asks as deeply as the language lets it. */
static void least_stack(void)
{
    struct work work = {0, SKEWGUARD_CLOSED, 0};
    pthread_attr_t attributes;
    pthread_t thread;

    EXPECT(!pthread_attr_init(&attributes) && !pthread_attr_setstacksize(&attributes, LEAST_STACK));
    EXPECT(!pthread_create(&thread, &attributes, ask_deeply, &work) && !pthread_join(thread, NULL));
    pthread_attr_destroy(&attributes);
    EXPECT(work.status == SKEWGUARD_DONE && work.count == 1);
}

static skewguard_status set_balance(skewguard *db, uint64_t session, uint64_t update, int64_t balance)
{
    skewguard_value value = skewguard_number(balance);
    skewguard_status status = skewguard_begin(db, session);
    if (status == SKEWGUARD_DONE)
        status = skewguard_run(db, session, update, &value, 1);
    return status == SKEWGUARD_DONE ? skewguard_commit(db, session) : status;
}

static void *set_balances(void *given)
{
    struct work *work = given;
    skewguard db;
    uint64_t bob, update;
    int turn;

    work->status = open_accounts(&db, &bob);
    if (work->status == SKEWGUARD_DONE)
        work->status = prepare(&db, "UPDATE ACCT SET BAL = ? WHERE ID = 1", &update);
    for (turn = 0; turn < TRANSACTIONS && work->status == SKEWGUARD_DONE; turn++)
        work->status = set_balance(&db, bob, update, work->number + turn);
    work->count = db.reply.number;
    if (work->status == SKEWGUARD_DONE)
        work->status = set_balance(&db, bob, update, -1);
    skewguard_close(&db);
    return NULL;
}

/* Each counts its own commits, and keeps its own rule. */
static void two_at_once(void)
{
    struct work works[2] = {{0, SKEWGUARD_CLOSED, 0}, {1000000, SKEWGUARD_CLOSED, 0}};
    pthread_t threads[2];
    int place;

    for (place = 0; place < 2; place++)
        EXPECT(!pthread_create(&threads[place], NULL, set_balances, &works[place]));
    for (place = 0; place < 2; place++) {
        EXPECT(!pthread_join(threads[place], NULL));
        EXPECT(works[place].count == TRANSACTIONS && works[place].status == SKEWGUARD_REFUSED);
    }
}

int main(void)
{
    least_stack();
    two_at_once();
    return told("threads");
}
