-- Entries of owners, and offers without a row. A SELECT by groups lists a row of each.
CREATE TABLE ENTRY (ID INTEGER PRIMARY KEY, OWNER VARCHAR(5), KIND INTEGER, AMOUNT INTEGER);
CREATE TABLE OFFER (NAME VARCHAR(5) PRIMARY KEY, PRICE INTEGER);
INSERT INTO ENTRY VALUES (1, 'LEE', 2, 50), (2, 'KIM', 1, 20), (3, NULL, 2, 5), (4, 'KIM', 1, NULL),
    (5, 'lee', NULL, 7), (6, NULL, NULL, -3), (7, 'LEE', -1, 10), (8, 'KIM', 2, 20), (9, NULL, 2, 4), (10, '', 10, 1);
