//! Four doctors are on call, each on a thread of its own. All of them want to go home; one has to stay.
//!
//!     cargo run --example on_call

use std::thread;

use skewguard::{values, Error, Fault, Manager, Transaction};

const DEFINITIONS: &str = "
CREATE TABLE SHIFTS (ID INTEGER PRIMARY KEY);
CREATE TABLE DUTY (ID INTEGER PRIMARY KEY, SHIFT INTEGER, DOCTOR VARCHAR(10), ONCALL INTEGER);

-- Someone is on call in each shift: no shift without a row of DUTY with ONCALL = 1.
CREATE ASSERTION COVERED CHECK (NOT EXISTS (
    SELECT * FROM SHIFTS S WHERE NOT EXISTS (
        SELECT * FROM DUTY D WHERE D.SHIFT = S.ID AND D.ONCALL = 1
    )
));
";

const DOCTORS: [&str; 4] = ["KIM", "LEE", "O'HARA", "SATO"];

/// A shift with all doctors on call; the shift comes last, since the rule is looked at after each statement.
fn plan(t: &mut Transaction<'_>, shift: i64) -> Result<(), Error> {
    for (key, doctor) in (1i64..).zip(DOCTORS) {
        t.execute("INSERT INTO DUTY VALUES (?, ?, ?, ?)", &values![key, shift, doctor, 1])?;
    }
    t.execute("INSERT INTO SHIFTS VALUES (?)", &values![shift])?;
    Ok(())
}

/// What a doctor is told.
fn ask(manager: &Manager, doctor: &str) -> Result<String, Error> {
    // Each time that others were in the way, one of the other three has got an answer.
    let left = manager
        .transaction()
        .retry(3)
        .run(|t| t.execute("UPDATE DUTY SET ONCALL = 0 WHERE SHIFT = ? AND DOCTOR = ?", &values![7, doctor]));
    match left {
        Ok(_) => Ok("goes home".to_owned()),
        Err(error) => match error.fault() {
            Some(Fault::RuleViolated { rule, root }) => Ok(format!("stays: {rule} would be false in shift {root}")),
            _ => Err(error),
        },
    }
}

fn main() -> Result<(), Error> {
    let manager = Manager::open(DEFINITIONS)?;
    manager.transaction().run(|t| plan(t, 7))?;
    let answers = thread::scope(|scope| {
        let asked = DOCTORS.map(|doctor| scope.spawn(|| ask(&manager, doctor)));
        asked.map(|it| it.join().expect("no thread panics"))
    });
    let answers = answers.into_iter().collect::<Result<Vec<String>, Error>>()?;
    let sql = "SELECT DOCTOR FROM DUTY WHERE ONCALL = 1";
    let on_call = manager.transaction().read_only().run(|t| t.execute(sql, &[]))?.count();
    let home = answers.iter().filter(|it| *it == "goes home").count();
    println!("{home} go home, {on_call} on call");
    for answer in answers.iter().filter(|it| *it != "goes home") {
        println!("{answer}");
    }
    Ok(())
}
