-- A clinic: its shifts, who is on duty in them, and the accounts of those who work there.
CREATE TABLE SHIFTS (ID INTEGER PRIMARY KEY);
CREATE TABLE DUTY (
    ID     INTEGER PRIMARY KEY,
    SHIFT  INTEGER,
    DOCTOR VARCHAR(10),
    ONCALL INTEGER               -- 1 for a doctor who is on call, 0 for one who is not
);
CREATE TABLE ACCT (
    ID    INTEGER PRIMARY KEY,
    OWNER VARCHAR(10),
    BAL   INTEGER
);

-- Someone is on call in each shift. The rule spans two tables: it is false where a shift has no row of DUTY with ONCALL = 1,
-- and that shift is named when a statement is refused.
CREATE ASSERTION COVERED CHECK (NOT EXISTS (
    SELECT * FROM SHIFTS S WHERE NOT EXISTS (
        SELECT * FROM DUTY D WHERE D.SHIFT = S.ID AND D.ONCALL = 1
    )
));

-- No owner's accounts sum below zero. One account may, if another one makes up for it.
CREATE ASSERTION FUNDS CHECK (NOT EXISTS (
    SELECT OWNER FROM ACCT GROUP BY OWNER HAVING SUM(BAL) < 0
));

INSERT INTO SHIFTS VALUES (7);
INSERT INTO DUTY VALUES (1, 7, 'KIM', 1);
INSERT INTO DUTY VALUES (2, 7, 'O''HARA', 0);
INSERT INTO ACCT VALUES (10, 'KIM', 50);
INSERT INTO ACCT VALUES (11, 'O''HARA', 20);
