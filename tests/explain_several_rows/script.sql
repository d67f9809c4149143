-- A key twice in one INSERT; then one that is taken, in front of a key under which B puts a row.
A: BEGIN;
B: BEGIN;
A: INSERT INTO NOTE VALUES (30, 1), (30, 2);
A: INSERT INTO NOTE VALUES (1, 1), (40, 1);
A: UPDATE NOTE SET N = 1 WHERE ID = 2;
B: SELECT N FROM NOTE WHERE ID = 2;
B: INSERT INTO NOTE VALUES (41, 5), (40, 5);
B: COMMIT;
A: COMMIT;
