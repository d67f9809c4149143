-- Accounts whose sum no owner may bring below zero, at most twelve of them, and notes without a rule. Several rows go in
-- by one INSERT, here and in the script: all of them or none, and the rules are checked once.
CREATE TABLE ACCT (ID INTEGER PRIMARY KEY, OWNER VARCHAR(3), BAL INTEGER NOT NULL);
CREATE TABLE NOTE (ID INTEGER PRIMARY KEY, N INTEGER);
CREATE ASSERTION FUNDS CHECK (NOT EXISTS (SELECT OWNER FROM ACCT GROUP BY OWNER HAVING SUM(BAL) < 0)) DEFERRABLE;
CREATE ASSERTION FEW CHECK ((SELECT COUNT(*) FROM ACCT) <= 12);
INSERT INTO ACCT VALUES (1, 'KIM', -5), (2, 'KIM', 5), (3, NULL, 0);
INSERT INTO ACCT (BAL, ID) VALUES (-7, 4), (+7, 5);
INSERT INTO NOTE VALUES (3, 30), (1, 10), (2, NULL);
