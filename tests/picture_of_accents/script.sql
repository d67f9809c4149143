A: BEGIN;
A: INSERT INTO T VALUES ('ÅÄÖÅÄÖÅÄÖÅÄÖ');
A: COMMIT;
