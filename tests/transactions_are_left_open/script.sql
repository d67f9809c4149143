-- The sessions stand by their first events.
B: BEGIN;
A: BEGIN;
C: BEGIN;
A: ROLLBACK;
B: VERDICT COVER;
