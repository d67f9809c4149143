-- Kim sends 30 to Lee.
KIM: BEGIN;
KIM: UPDATE ACCT SET BAL = BAL - 30 WHERE ID = 1;
KIM: VERDICT BALANCED;                                  -- 30 are on their way
KIM: UPDATE ACCT SET BAL = BAL + 30 WHERE ID = 3;
KIM: SET CONSTRAINTS BALANCED IMMEDIATE;                -- the rule holds already
KIM: COMMIT;

-- Lee gives more than Lee has, and then forgets the other half of a transfer.
LEE: BEGIN;
LEE: UPDATE ACCT SET BAL = BAL - 81 WHERE ID = 3;
LEE: UPDATE ACCT SET BAL = BAL - 5 WHERE ID = 3;
LEE: COMMIT;

-- Kim pays from one account and a clerk from the other, each on tables in which Kim has 120.
KIM: BEGIN;
CLERK: BEGIN;
KIM: UPDATE ACCT SET BAL = BAL - 100 WHERE ID = 1;
KIM: UPDATE ACCT SET BAL = BAL + 100 WHERE ID = 3;
CLERK: UPDATE ACCT SET BAL = BAL - 100 WHERE ID = 2;
CLERK: INSERT INTO ACCT VALUES (4, 'BANK', 100);
KIM: COMMIT;
CLERK: COMMIT;                                          -- both together would take 200 from 120
CLERK: BEGIN;
CLERK: SELECT * FROM ACCT;
