A: BEGIN;
B: BEGIN;
A: SELECT BAL FROM ACCT WHERE OWNER = '日本日本日本日本日本日本日本日本日本日本日本日本日本日本日本日本日本日本日本日本日本日本日本日本日本';
B: UPDATE ACCT SET BAL = 6 WHERE OWNER = '日本日本日本日本日本日本日本日本日本日本日本日本日本日本日本日本日本日本日本日本日本日本日本日本日本';
B: COMMIT;
A: INSERT INTO ACCT VALUES ('éééééééééééééééééééééééééééééé', 1);
A: COMMIT;
