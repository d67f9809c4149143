/* What the tests share: a look at a condition, and texts with their lengths. */
#ifndef EXPECT_H
#define EXPECT_H

#include "skewguard.h"

#include <stdio.h>

static int expectations, failures;

#define EXPECT(condition) expect((condition) != 0, #condition, __FILE__, __LINE__)

static inline void expect(int holds, const char *condition, const char *file, int line)
{
    expectations++;
    if (!holds) {
        failures++;
        fprintf(stderr, "%s:%d: not so: %s\n", file, line, condition);
    }
}

static inline int is_text(skewguard_text text, const char *bytes)
{
    return text.length == strlen(bytes) && (!text.length || !memcmp(text.bytes, bytes, text.length));
}

static inline int begins_with(skewguard_text text, const char *bytes)
{
    return text.length >= strlen(bytes) && !memcmp(text.bytes, bytes, strlen(bytes));
}

/* Whether these bytes stand somewhere in a text. */
static inline int holds(skewguard_text text, const char *bytes)
{
    size_t at, length = strlen(bytes);
    for (at = 0; at + length <= text.length; at++)
        if (!memcmp(text.bytes + at, bytes, length))
            return 1;
    return 0;
}

static inline int is_number(skewguard_value value, int64_t number)
{
    return value.kind == SKEWGUARD_NUMBER && value.number == number;
}

static inline int is_numeric(skewguard_value value, const char *digits)
{
    return value.kind == SKEWGUARD_NUMERIC && is_text(value.text, digits);
}

static inline skewguard_status execute(skewguard *db, uint64_t session, const char *text)
{
    return skewguard_execute(db, session, text, strlen(text));
}

static inline skewguard_status open_session(skewguard *db, const char *name, uint64_t *session)
{
    return skewguard_open_session(db, name, strlen(name), session);
}

static inline skewguard_status prepare(skewguard *db, const char *text, uint64_t *statement)
{
    return skewguard_prepare(db, text, strlen(text), statement);
}

static inline int is_refused(const skewguard *db, int number, const char *sqlstate, const char *line)
{
    const skewguard_refusal *refusal = &db->reply.refusal;
    return db->reply.kind == SKEWGUARD_REFUSAL && refusal->number == number && !strcmp(refusal->sqlstate, sqlstate)
        && is_text(refusal->line, line);
}

static inline int told(const char *name)
{
    printf("%s: %d expectations, %d failures\n", name, expectations, failures);
    return failures != 0;
}

#endif
