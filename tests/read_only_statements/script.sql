-- What would write is refused before its names are looked up; all else goes on as ever, and a transaction that is
-- open refuses both ways to begin.
A: BEGIN READ ONLY;
A: BEGIN READ ONLY;
A: BEGIN;
A: INSERT INTO NOWHERE VALUES (1);
A: UPDATE ACCT SET ID = 'KIM';
A: DELETE FROM ACCT WHERE MISSING = 1;
A: SELECT MISSING FROM ACCT;
A: SELECT BAL FROM ACCT WHERE ID = 2;
A: SET CONSTRAINTS ALL DEFERRED;
A: VERDICT COVER;
A: ROLLBACK;
A: BEGIN;
A: BEGIN READ ONLY;
A: DELETE FROM ACCT WHERE ID = 2;
A: COMMIT;
