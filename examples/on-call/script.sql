-- Alice plans the week.
ALICE: BEGIN;
ALICE: DELETE FROM DUTY WHERE DOCTOR = 'KIM';           -- nobody would be on call in shift 7: refused, and nothing has changed
ALICE: INSERT INTO DUTY VALUES (3, 7, 'LEE', 1);        -- so someone else has to be on call first
ALICE: DELETE FROM DUTY WHERE DOCTOR = 'KIM';
ALICE: INSERT INTO SHIFTS VALUES (8);                   -- a shift that nobody covers yet
ALICE: INSERT INTO DUTY VALUES (4, 8, 'KIM', 1);        -- the cover may stand before its shift does
ALICE: INSERT INTO SHIFTS VALUES (8);
ALICE: VERDICT COVERED;                                 -- how the rule stands on her own tables
ALICE: COMMIT;

-- Then she books what was spent.
ALICE: BEGIN;
ALICE: INSERT INTO ACCT VALUES (12, 'KIM', -50);        -- Kim's accounts sum to zero
ALICE: INSERT INTO ACCT VALUES (13, 'O''HARA', -21);    -- O'Hara's would sum to -1
ALICE: INSERT INTO ACCT VALUES (10, 'LEE', 5);          -- there is an account 10 already
ALICE: DELETE FROM ACCT WHERE BAL > 0 AND OWNER = 'KIM';    -- what makes up for it has to stay
ALICE: ROLLBACK;                                        -- none of this is kept
ALICE: BEGIN;
ALICE: INSERT INTO ACCT VALUES (12, 'KIM', -30);        -- account 12 is free again

-- Bob and Carol are both on call in shift 9, and each goes home as long as the other one stays.
BOB: BEGIN;
BOB: INSERT INTO DUTY VALUES (5, 9, 'BOB', 1);
BOB: INSERT INTO DUTY VALUES (6, 9, 'CAROL', 1);
BOB: INSERT INTO SHIFTS VALUES (9);
BOB: COMMIT;
BOB: BEGIN;
CAROL: BEGIN;
BOB: UPDATE DUTY SET ONCALL = 0 WHERE ID = 5;           -- Carol stays
CAROL: UPDATE DUTY SET ONCALL = 0 WHERE ID = 6;         -- Bob stays: each is right on the tables that both began on
BOB: COMMIT;
CAROL: COMMIT;                                          -- but one after the other they are not, so this one is refused
CAROL: BEGIN;
CAROL: UPDATE DUTY SET ONCALL = 0 WHERE ID = 6;         -- and on the tables as they are now she sees why
