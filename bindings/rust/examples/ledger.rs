//! Clerks on threads transfer money between accounts, and no owner's accounts may sum below zero.
//!
//! A transfer takes from one account and gives to another. Between the two the sum of all is wrong, so that rule is
//! looked at when the transaction commits.
//!
//!     cargo run --example ledger

use std::thread;

use skewguard::{values, Error, Fault, Manager, Transaction};

const DEFINITIONS: &str = "
CREATE TABLE ACCT (ID INTEGER PRIMARY KEY, OWNER VARCHAR(10) NOT NULL, BAL INTEGER NOT NULL);

-- What the whole bank holds.
CREATE ASSERTION BALANCED CHECK ((SELECT SUM(BAL) FROM ACCT) = 200) INITIALLY DEFERRED;

-- No owner's accounts sum below zero. One account may, if another one makes up for it.
CREATE ASSERTION FUNDS CHECK (NOT EXISTS (
    SELECT OWNER FROM ACCT GROUP BY OWNER HAVING SUM(BAL) < 0
));

INSERT INTO ACCT VALUES (1, 'KIM', 100);
INSERT INTO ACCT VALUES (2, 'KIM', 50);
INSERT INTO ACCT VALUES (3, 'LEE', 50);
";

const CLERKS: u32 = 4;
const TRANSFERS: u32 = 100;

fn transfer(t: &mut Transaction<'_>, source: i64, target: i64, amount: i64) -> Result<(), Error> {
    t.execute("UPDATE ACCT SET BAL = BAL - ? WHERE ID = ?", &values![amount, source])?;
    t.execute("UPDATE ACCT SET BAL = BAL + ? WHERE ID = ?", &values![amount, target])?;
    Ok(())
}

/// How many of a clerk's transfers were made, and how many FUNDS refused. Of a clerk's tries, only another clerk's
/// COMMIT can be in the way.
fn work(manager: &Manager, clerk: i64) -> Result<(u32, u32), Error> {
    let (mut made, mut refused) = (0, 0);
    for number in 0..i64::from(TRANSFERS) {
        let source = (number + clerk) % 3;
        let target = (source + 1 + number % 2) % 3;
        let amount = 1 + (37 * number + 11 * clerk) % 80;
        let done =
            manager.transaction().retry(CLERKS * TRANSFERS).run(|t| transfer(t, source + 1, target + 1, amount));
        match done {
            Ok(()) => made += 1,
            Err(error) => match error.fault() {
                Some(Fault::RuleViolated { rule, .. }) if rule == "FUNDS" => refused += 1,
                _ => return Err(error),
            },
        }
    }
    Ok((made, refused))
}

fn main() -> Result<(), Error> {
    let manager = Manager::open(DEFINITIONS)?;
    let counts = thread::scope(|scope| {
        let clerks: Vec<_> = (0..i64::from(CLERKS)).map(|it| (it, &manager)).collect();
        let working: Vec<_> = clerks.into_iter().map(|(it, manager)| scope.spawn(move || work(manager, it))).collect();
        working.into_iter().map(|it| it.join().expect("no thread panics")).collect::<Result<Vec<_>, Error>>()
    })?;
    let (made, refused) = counts.iter().fold((0, 0), |sum, it| (sum.0 + it.0, sum.1 + it.1));
    let half = manager.transaction().run(|t| t.execute("UPDATE ACCT SET BAL = BAL + 1 WHERE ID = 1", &[]));
    println!("half of a transfer: {}", half.expect_err("the bank's sum is kept"));
    let sql = "SELECT OWNER, BAL FROM ACCT";
    let answer = manager.transaction().read_only().run(|t| t.execute(sql, &[]))?;
    let sum_of = |owner: &str| -> i64 {
        let rows = answer.rows().into_iter().flatten();
        rows.filter(|row| row[0].as_text() == Some(owner)).filter_map(|row| row[1].as_int()).sum()
    };
    let (kim, lee) = (sum_of("KIM"), sum_of("LEE"));
    let some = |count: u32| if count > 0 { "some" } else { "none" };
    println!("{} answers: {} made, {} refused by FUNDS", made + refused, some(made), some(refused));
    println!("the bank holds {}, and {} owner is below zero", kim + lee, if kim.min(lee) >= 0 { "no" } else { "an" });
    Ok(())
}
