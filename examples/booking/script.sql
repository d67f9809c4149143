-- Ann and Bob find room 12 free from day 5 on, each in tables of their own.
ANN: BEGIN;
BOB: BEGIN;
ANN: SELECT FROM_DAY, TO_DAY FROM STAYS WHERE ROOM = 12;
BOB: SELECT FROM_DAY, TO_DAY FROM STAYS WHERE ROOM = 12;
ANN: INSERT INTO STAYS VALUES (2, 12, 4, 7, 1);   -- the night from 4 to 5 is taken: refused at once
ANN: INSERT INTO STAYS VALUES (2, 12, 5, 7, 3);   -- two beds, three guests
ANN: INSERT INTO STAYS VALUES (2, 14, 5, 7, 1);   -- there is no such room
ANN: INSERT INTO STAYS VALUES (2, 12, 5, 7, 1);
BOB: INSERT INTO STAYS VALUES (3, 12, 6, 8, 2);   -- he doesn't see Ann's row, so no rule is broken yet
BOB: VERDICT NOTWICE;
ANN: COMMIT;
BOB: COMMIT;                                      -- the night from 6 to 7 would be both of theirs

-- Bob looks again and takes the other room, while Cleo takes a bed out of it.
BOB: BEGIN;
CLEO: BEGIN;
BOB: SELECT FROM_DAY, TO_DAY FROM STAYS WHERE ROOM = 12;
BOB: INSERT INTO STAYS VALUES (3, 13, 6, 8, 3);
CLEO: UPDATE ROOMS SET BEDS = 2 WHERE ID = 13;    -- nobody is in it, as far as she sees
CLEO: COMMIT;
BOB: COMMIT;                                      -- three guests, and two beds
BOB: BEGIN;
BOB: INSERT INTO STAYS VALUES (3, 13, 6, 8, 2);
BOB: COMMIT;
