A: BEGIN;
-- ANN again is no third clerk, and 40 again adds nothing.
A: INSERT INTO APPROVALS VALUES (3, 1, 'ANN', 40);
-- CAL is a third.
A: INSERT INTO APPROVALS VALUES (4, 1, 'CAL', 40);
-- NULL is no clerk, and no amount.
A: INSERT INTO APPROVALS VALUES (4, 1, NULL, NULL);
-- ANN's first approval goes, and she has still approved.
A: DELETE FROM APPROVALS WHERE ID = 1;
-- With the second she has not.
A: DELETE FROM APPROVALS WHERE ID = 3;
A: VERDICT ENOUGH;
-- A clerk for another: DAN for ANN.
A: UPDATE APPROVALS SET CLERK = 'DAN' WHERE ID = 3;
A: UPDATE APPROVALS SET CLERK = 'BOB' WHERE ID = 3;
-- 40 and 59 are 99, 40 and 60 are 100.
A: INSERT INTO APPROVALS VALUES (5, 2, 'ANN', 60);
A: INSERT INTO APPROVALS VALUES (5, 2, 'ANN', 59);
A: INSERT INTO APPROVALS VALUES (6, 2, 'ANN', 59);
-- One 59 goes, the other stays; with the second only 40 is left.
A: DELETE FROM APPROVALS WHERE ID = 5;
A: INSERT INTO APPROVALS VALUES (7, NULL, 'ANN', 1);
A: DELETE FROM APPROVALS WHERE ID = 6;
A: INSERT INTO APPROVALS VALUES (7, NULL, 'ANN', 19);
-- The greatest is more than 30 above the least.
A: INSERT INTO APPROVALS VALUES (8, 1, 'BOB', 9);
A: INSERT INTO APPROVALS VALUES (8, 1, 'BOB', 40);
A: COMMIT;
-- Either of the two approvals by BOB may go, and not both: A and B take one each, and the second is refused.
A: BEGIN;
B: BEGIN;
A: DELETE FROM APPROVALS WHERE ID = 2;
B: DELETE FROM APPROVALS WHERE ID = 8;
A: COMMIT;
B: COMMIT;
B: BEGIN;
B: DELETE FROM APPROVALS WHERE ID = 8;
B: ROLLBACK;
-- No set function stands in a statement, and COUNT(*) takes no DISTINCT.
A: BEGIN;
A: DELETE FROM APPROVALS WHERE COUNT(DISTINCT CLERK) > 1;
A: COMMIT;
