A: BEGIN;
-- The rows come to stand in the order of their keys, and a column that is not listed is NULL.
A: INSERT INTO ACCT VALUES (7, 'LEE', 5), (6, 'LEE', 5);
A: INSERT INTO ACCT (BAL, ID) VALUES (2, 9), (1, 8);
A: SELECT * FROM ACCT;
-- The first row alone would break FUNDS, and the second mends it. Then each alone would keep it, and they do not
-- together; and of two owners the least is named.
A: INSERT INTO ACCT VALUES (10, 'MAX', -1), (11, 'MAX', 1);
A: DELETE FROM ACCT WHERE OWNER = 'MAX';
A: INSERT INTO ACCT VALUES (10, 'LEE', -6), (11, 'LEE', -6);
A: INSERT INTO ACCT VALUES (10, 'EVE', 1), (11, 'EVE', -2), (12, 'DAN', -1);
-- There would be one account too many.
A: INSERT INTO ACCT VALUES (10, 'EVE', 1), (11, 'EVE', 1), (12, 'EVE', 1), (13, 'EVE', 1);
-- A key twice in the statement, and one that stands.
A: INSERT INTO ACCT VALUES (10, 'EVE', 1), (11, 'EVE', 1), (10, 'EVE', 2);
A: INSERT INTO ACCT VALUES (10, 'EVE', 1), (10, 'EVE', 1), (7, 'EVE', 2);
A: INSERT INTO ACCT VALUES (10, 'EVE', 1), (7, 'EVE', 1), (10, 'EVE', 2);
-- NULL and a text that is too long: by rows, in a row by columns, and last its key.
A: INSERT INTO ACCT VALUES (10, 'EVE', 1), (NULL, 'EVE', 1);
A: INSERT INTO ACCT VALUES (10, 'EVE', 1), (11, 'EVE', NULL);
A: INSERT INTO ACCT VALUES (7, 'EVE', 1), (11, 'EVE', NULL);
A: INSERT INTO ACCT VALUES (10, 'EVE', NULL), (7, 'EVE', 1);
A: INSERT INTO ACCT VALUES (10, 'EVE', 1), (11, 'EVES', 1);
A: INSERT INTO ACCT VALUES (10, 'EVES', 1), (11, 'EVE', NULL);
A: INSERT INTO ACCT VALUES (10, 'EVE', 1), (NULL, 'EVES', NULL);
A: INSERT INTO ACCT VALUES (10, 'EVE', 1), (10, 'EVES', NULL);
A: INSERT INTO ACCT (ID, OWNER) VALUES (10, 'EVE'), (11, 'EVE');
-- Types and numbers of values are tested for all rows before, and names before them.
A: INSERT INTO ACCT VALUES (7, 'EVE', 1), (NULL, 'EVE', 1), (12, 'EVE', '1');
A: INSERT INTO ACCT VALUES (7, 'EVE', NULL), (11, 'EVE');
A: INSERT INTO ACCT VALUES (10, 'EVE'), (11, 'EVE', 1);
A: INSERT INTO ACCT VALUES (10, 'EVE', 1), (11, 'EVE', 1, 1);
A: INSERT INTO ACCT (ID, BAL) VALUES (10, 1), (11, 1, 1);
A: INSERT INTO ACCT (ID, BAL, ID) VALUES (10, 1), (11, 1, 1);
A: INSERT INTO ACCT (ID, BALL) VALUES (10, 1), (11, 1, 1);
A: INSERT INTO ACCTS VALUES (10, 1), (11, 1, 1);
-- Nothing of a refused statement is kept.
A: SELECT ID FROM ACCT;
-- A rule that is deferred, and that a later statement mends.
A: SET CONSTRAINTS FUNDS DEFERRED;
A: INSERT INTO ACCT VALUES (10, 'EVE', -1), (11, 'EVE', -1);
A: VERDICT FUNDS;
A: SET CONSTRAINTS FUNDS IMMEDIATE;
A: INSERT INTO ACCT VALUES (12, 'EVE', 3);
A: SET CONSTRAINTS FUNDS IMMEDIATE;
A: COMMIT;
-- A key that two transactions give, neither of them in its first row.
B: BEGIN;
C: BEGIN;
B: INSERT INTO NOTE VALUES (10, 1), (11, 1), (12, 1);
C: INSERT INTO NOTE VALUES (21, 2), (12, 2), (11, 2);
B: COMMIT;
C: COMMIT;
-- A refused INSERT has read the keys of all of its rows: here also the second, under which E puts a row.
D: BEGIN;
E: BEGIN;
D: INSERT INTO NOTE VALUES (1, 1), (30, 1);
D: UPDATE NOTE SET N = 1 WHERE ID = 2;
E: SELECT N FROM NOTE WHERE ID = 2;
E: INSERT INTO NOTE VALUES (29, 5), (30, 5);
E: COMMIT;
D: COMMIT;
F: BEGIN READ ONLY;
F: INSERT INTO NOTE VALUES (40, 1), (40, 1);
F: COMMIT;
F: INSERT INTO NOTE VALUES (40, 1), (41, 1);
