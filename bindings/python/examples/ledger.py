"""Clerks on threads transfer money between accounts, and no owner's accounts may sum below zero.

A transfer takes from one account and gives to another. Between the two the sum of all is wrong, so that rule is looked
at when the transaction commits.

    python3 examples/ledger.py
"""

import random
import threading

import skewguard

DEFINITIONS = """
CREATE TABLE ACCT (ID INTEGER PRIMARY KEY, OWNER VARCHAR(10) NOT NULL, BAL INTEGER NOT NULL);

-- What the whole bank holds.
CREATE ASSERTION BALANCED CHECK ((SELECT SUM(BAL) FROM ACCT) = 200) INITIALLY DEFERRED;

-- No owner's accounts sum below zero. One account may, if another one makes up for it.
CREATE ASSERTION FUNDS CHECK (NOT EXISTS (
    SELECT OWNER FROM ACCT GROUP BY OWNER HAVING SUM(BAL) < 0
));

INSERT INTO ACCT VALUES (1, 'KIM', 100);
INSERT INTO ACCT VALUES (2, 'KIM', 50);
INSERT INTO ACCT VALUES (3, 'LEE', 50);
"""

CLERKS, TRANSFERS = 4, 100


def transfer(t, source, target, amount):
    t.execute("UPDATE ACCT SET BAL = BAL - ? WHERE ID = ?", [amount, source])
    t.execute("UPDATE ACCT SET BAL = BAL + ? WHERE ID = ?", [amount, target])


def work(manager, seed, counts):
    """What becomes of a clerk's transfers. Of a clerk's tries, only another clerk's COMMIT can be in the way."""
    chance = random.Random(seed)
    for _ in range(TRANSFERS):
        source, target = chance.sample([1, 2, 3], 2)
        try:
            manager.run(transfer, source, target, chance.randint(1, 80), retry=CLERKS * TRANSFERS)
            counts.append("made")
        except skewguard.RuleViolated as refused:
            counts.append(refused.rule)


def main():
    counts = []
    with skewguard.open(DEFINITIONS) as manager:
        threads = [threading.Thread(target=work, args=(manager, seed, counts)) for seed in range(CLERKS)]
        for thread in threads:
            thread.start()
        for thread in threads:
            thread.join()
        try:
            with manager.transaction() as t:
                t.execute("UPDATE ACCT SET BAL = BAL + 1 WHERE ID = 1")
        except skewguard.RuleViolated as refused:
            print(f"half of a transfer: {refused}")
        with manager.transaction(read_only=True) as t:
            accounts = t.execute("SELECT OWNER, BAL FROM ACCT")
    sums = {owner: sum(row["BAL"] for row in accounts if row["OWNER"] == owner) for owner in ("KIM", "LEE")}
    made, refused = ("some" if counts.count(answer) else "none" for answer in ("made", "FUNDS"))
    print(f"{len(counts)} answers: {made} made, {refused} refused by FUNDS")
    print(f"the bank holds {sum(sums.values())}, and {'no' if min(sums.values()) >= 0 else 'an'} owner is below zero")


if __name__ == "__main__":
    main()
