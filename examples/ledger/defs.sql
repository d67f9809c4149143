-- Accounts, and what the whole bank holds.
CREATE TABLE ACCT (
    ID    INTEGER PRIMARY KEY,
    OWNER VARCHAR(10) NOT NULL,
    BAL   INTEGER NOT NULL
);

-- A transfer takes from one account and then gives to another. Between the two the sum is wrong, so the rule is looked at when the
-- transaction commits.
CREATE ASSERTION BALANCED CHECK (
    (SELECT SUM(BAL) FROM ACCT) = 200
) INITIALLY DEFERRED;

-- No owner's accounts sum below zero. One account may, if another one makes up for it. This is looked at after each statement.
CREATE ASSERTION FUNDS CHECK (NOT EXISTS (
    SELECT OWNER FROM ACCT GROUP BY OWNER HAVING SUM(BAL) < 0
));

INSERT INTO ACCT VALUES (1, 'KIM', 100);
INSERT INTO ACCT VALUES (2, 'KIM', 50);
INSERT INTO ACCT VALUES (3, 'LEE', 50);
