-- Each goes home as long as the other one stays.
BOB: BEGIN;
CAROL: BEGIN;
BOB: UPDATE DUTY SET ONCALL = 0 WHERE DOCTOR = 'BOB';
CAROL: UPDATE DUTY SET ONCALL = 0 WHERE DOCTOR = 'CAROL';
BOB: COMMIT;
CAROL: COMMIT;
-- On the tables as they are now, the rule itself says no.
CAROL: BEGIN;
CAROL: UPDATE DUTY SET ONCALL = 0 WHERE DOCTOR = 'CAROL';
CAROL: ROLLBACK;
