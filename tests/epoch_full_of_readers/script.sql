-- A read-only COMMIT takes a number like any other.
A: BEGIN READ ONLY;
A: SELECT * FROM SHIFTS;
A: COMMIT;
A: BEGIN READ ONLY;
A: COMMIT;
A: BEGIN;
A: COMMIT;
