"""Four doctors are on call, each on a thread of its own. All of them want to go home; one has to stay.

    python3 examples/on_call.py
"""

import threading

import skewguard

DEFINITIONS = """
CREATE TABLE SHIFTS (ID INTEGER PRIMARY KEY);
CREATE TABLE DUTY (ID INTEGER PRIMARY KEY, SHIFT INTEGER, DOCTOR VARCHAR(10), ONCALL INTEGER);

-- Someone is on call in each shift: no shift without a row of DUTY with ONCALL = 1.
CREATE ASSERTION COVERED CHECK (NOT EXISTS (
    SELECT * FROM SHIFTS S WHERE NOT EXISTS (
        SELECT * FROM DUTY D WHERE D.SHIFT = S.ID AND D.ONCALL = 1
    )
));
"""

DOCTORS = ["KIM", "LEE", "O'HARA", "SATO"]


def plan(t, shift):
    """A shift with all doctors on call; the shift comes last, since the rule is looked at after each statement."""
    for key, doctor in enumerate(DOCTORS, 1):
        t.execute("INSERT INTO DUTY VALUES (?, ?, ?, ?)", [key, shift, doctor, 1])
    t.execute("INSERT INTO SHIFTS VALUES (?)", [shift])


def leave(t, doctor):
    t.execute("UPDATE DUTY SET ONCALL = 0 WHERE SHIFT = ? AND DOCTOR = ?", [7, doctor])


def ask(manager, doctor, answers):
    """What a doctor is told."""
    try:
        # Each time that others were in the way, one of the other three has got an answer.
        manager.run(leave, doctor, retry=len(DOCTORS) - 1)
        answers[doctor] = "goes home"
    except skewguard.RuleViolated as refused:
        answers[doctor] = f"stays: {refused.rule} would be false in shift {refused.root}"


def main():
    answers = {}
    with skewguard.open(DEFINITIONS) as manager:
        manager.run(plan, 7)
        threads = [threading.Thread(target=ask, args=(manager, doctor, answers)) for doctor in DOCTORS]
        for thread in threads:
            thread.start()
        for thread in threads:
            thread.join()
        with manager.transaction(read_only=True) as t:
            on_call = t.execute("SELECT DOCTOR FROM DUTY WHERE ONCALL = 1")
    home = sum(answer == "goes home" for answer in answers.values())
    print(f"{home} go home, {len(on_call)} on call")
    for answer in set(answers.values()) - {"goes home"}:
        print(answer)


if __name__ == "__main__":
    main()
