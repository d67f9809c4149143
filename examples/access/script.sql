-- Kim sets a tenant up. What has to be there first is asked for at the end.
KIM: BEGIN;
KIM: INSERT INTO TENANTS VALUES (2, 'ACME');                      -- there is one of that name
KIM: INSERT INTO TENANTS VALUES (2, 'BLUE');                      -- nobody administers it yet
KIM: SET CONSTRAINTS ADMINISTERED, TO_A_USER DEFERRED;
KIM: INSERT INTO TENANTS VALUES (2, 'BLUE');
KIM: INSERT INTO GRANTS VALUES (200, 2, 20, 'OWNER');             -- no such role
KIM: INSERT INTO GRANTS VALUES (200, 2, 20, 'ADMIN');             -- the user may come after the grant
KIM: INSERT INTO USERS VALUES (20, 2, 'lee@acme.example');        -- that is Lee's
KIM: INSERT INTO USERS VALUES (20, 2, NULL);                      -- of those without mail there may be any number
KIM: INSERT INTO USERS VALUES (21, 3, NULL);                      -- there is no tenant 3
KIM: COMMIT;

-- Kim and Lee both administer ACME, and each gives it up as long as the other one stays.
KIM: BEGIN;
LEE: BEGIN;
KIM: DELETE FROM GRANTS WHERE ID = 100;
LEE: DELETE FROM GRANTS WHERE ID = 101;
KIM: COMMIT;
LEE: COMMIT;                                                      -- one after the other they may not
LEE: BEGIN;
LEE: DELETE FROM GRANTS WHERE ID = 101;                           -- and now she sees why
LEE: INSERT INTO GRANTS VALUES (103, 1, 11, 'AUDITOR');           -- nor may she audit what she administers
LEE: ROLLBACK;

-- Lee takes user 12 out while Kim grants him a role; and both give the same mail to somebody.
LEE: BEGIN;
KIM: BEGIN;
LEE: DELETE FROM GRANTS WHERE ID = 102;
LEE: DELETE FROM USERS WHERE ID = 12;
KIM: INSERT INTO GRANTS VALUES (104, 1, 12, 'AUDITOR');
LEE: COMMIT;
KIM: COMMIT;                                                      -- to a user who is gone
KIM: BEGIN;
LEE: BEGIN;
KIM: INSERT INTO USERS VALUES (13, 1, 'max@acme.example');
LEE: INSERT INTO USERS VALUES (14, 1, 'max@acme.example');
KIM: COMMIT;
LEE: COMMIT;                                                      -- a mail that Max has by now
