A: BEGIN;
-- nobody would be left
A: UPDATE DUTY SET ONCALL = 0;
