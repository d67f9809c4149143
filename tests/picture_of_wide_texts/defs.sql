CREATE TABLE ACCT (OWNER VARCHAR(60) PRIMARY KEY, BAL INTEGER);
INSERT INTO ACCT VALUES ('日本日本日本日本日本日本日本日本日本日本日本日本日本日本日本日本日本日本日本日本日本日本日本日本日本', 5);
