-- What is refused by the session's own state, and takes no lock.
A: COMMIT;
A: VERDICT COVER;
A: BEGIN;
A: BEGIN;
A: VERDICT COVER;
A: ROLLBACK;
A: ROLLBACK;
