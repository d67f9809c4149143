"""Guests on threads book rooms of a house, and no room is booked twice at one time.

    python3 examples/booking.py
"""

import itertools
import threading

import skewguard

# A slot is one room at one time, written as one number: room 12 at 9 o'clock is 1209.
DEFINITIONS = """
CREATE TABLE BOOKING (ID INTEGER PRIMARY KEY, SLOT INTEGER NOT NULL, GUEST VARCHAR(20));

CREATE ASSERTION NOTWICE CHECK (NOT EXISTS (
    SELECT SLOT FROM BOOKING GROUP BY SLOT HAVING COUNT(*) > 1
));

INSERT INTO BOOKING VALUES (1, 1209, 'KIM');
"""

GUESTS = ["ANN", "BOB", "CLEO", "DAN"]
SLOTS = [1209, 1210, 1211, 1212, 1213]


def book(t, key, guest, slot):
    t.execute("INSERT INTO BOOKING VALUES (?, ?, ?)", [key, slot, guest])


def look_for_room(manager, keys, guest, found):
    """The first slot that a guest gets, from the first on."""
    for slot in SLOTS:
        try:
            manager.run(book, next(keys), guest, slot, retry=len(GUESTS) * len(SLOTS))
            found[guest] = slot
            return
        except skewguard.RuleViolated:
            continue  # it is taken: the next


def main():
    found, keys = {}, itertools.count(2)
    with skewguard.open(DEFINITIONS) as manager:
        threads = [threading.Thread(target=look_for_room, args=(manager, keys, guest, found)) for guest in GUESTS]
        for thread in threads:
            thread.start()
        for thread in threads:
            thread.join()
        with manager.transaction(read_only=True) as t:
            booked = t.execute("SELECT SLOT, GUEST FROM BOOKING")
    print(f"{len(found)} guests have a room")
    print("slots:", *sorted(row["SLOT"] for row in booked))


if __name__ == "__main__":
    main()
