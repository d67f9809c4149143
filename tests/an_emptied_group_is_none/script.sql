-- A group that was emptied is none: no group is left of which COUNT(*) < 1 could be true.
A: BEGIN;
A: DELETE FROM T WHERE K = 1;
A: VERDICT SOME1;
A: COMMIT WORK;
A: BEGIN;
A: COMMIT;
