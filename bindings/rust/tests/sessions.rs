//! Sessions: any number of names, one after the other, and so many transactions at once.

use skewguard::{values, Error, Fault, Manager, Transaction};

const MOST: usize = 256;
const DEFINITIONS: &str = "CREATE TABLE P (ID INTEGER PRIMARY KEY, N INTEGER); INSERT INTO P VALUES (1, 0);";
const ADD: &str = "UPDATE P SET N = N + 1 WHERE ID = 1";

fn opened() -> Manager {
    Manager::open(DEFINITIONS).unwrap()
}

/// The session of each commit.
fn reported(manager: &Manager) -> Vec<String> {
    let report = manager.report().unwrap();
    let commits = report.lines().filter(|line| line.contains(" SNAPSHOT "));
    commits.map(|line| line.split(' ').nth(1).unwrap().to_owned()).collect()
}

fn rolled_back(manager: &Manager, name: &str) {
    manager.transaction().session(name).begin().unwrap().rollback().unwrap();
}

#[test]
fn thousands_of_names() {
    let manager = opened();
    let names: Vec<String> = (0..3000).map(|number| format!("USER{number}")).collect();
    for name in &names {
        manager.transaction().session(name).run(|t| t.execute(ADD, &[])).unwrap();
    }
    assert_eq!(reported(&manager), names);
    for name in ["USER0", "user2999"] {
        rolled_back(&manager, name);
    }
    let answer = manager.transaction().run(|t| t.execute("SELECT N FROM P", &[])).unwrap();
    assert_eq!(answer.rows().unwrap()[0], values![3000]);
}

#[test]
fn names_again_and_again() {
    let manager = opened();
    let names: Vec<String> = (0..2000).map(|number| format!("USER{}", number * 7919 % 300)).collect();
    for name in &names {
        manager.transaction().session(name).run(|t| t.execute(ADD, &[])).unwrap();
    }
    assert_eq!(reported(&manager), names);
}

#[test]
fn names_beside_open_transactions() {
    let manager = opened();
    let names: Vec<String> = (0..100).map(|number| format!("HELD{number}")).collect();
    let mut held: Vec<Transaction<'_>> = Vec::new();
    held.extend(names.iter().map(|name| manager.transaction().session(name).begin().unwrap()));
    held.extend((0..100).map(|_| manager.begin().unwrap()));
    for (key, t) in (2_i64..).zip(&mut held) {
        t.execute("INSERT INTO P VALUES (?, 7)", &values![key]).unwrap();
    }
    for number in 0..1000 {
        rolled_back(&manager, &format!("USER{number}"));
        manager.begin().unwrap().rollback().unwrap();
    }
    for (key, mut t) in (2_i64..).zip(held) {
        let answer = t.execute("SELECT N FROM P WHERE ID = ?", &values![key]).unwrap();
        assert_eq!(answer.rows().unwrap()[0], values![7]);
        t.commit().unwrap();
    }
    assert_eq!(reported(&manager)[..100], names);
}

#[test]
fn unnamed_transactions_make_room_too() {
    let manager = opened();
    for _ in 0..2 {
        let held: Vec<Transaction<'_>> = (0..MOST).map(|_| manager.begin().unwrap()).collect();
        drop(held);
        for number in 0..MOST {
            rolled_back(&manager, &format!("USER{number}"));
        }
    }
}

#[test]
fn one_transaction_too_many() {
    let manager = opened();
    let mut held: Vec<Transaction<'_>> = (0..MOST).map(|_| manager.begin().unwrap()).collect();
    let builders = [manager.transaction(), manager.transaction().session("ONEMORE")];
    for builder in builders {
        let error = builder.begin().unwrap_err();
        assert_eq!(error.fault(), Some(&Fault::TooManySessions));
        assert!(error.to_string().contains("too many transactions are open at once"), "{error}");
    }
    for (key, t) in (2_i64..).zip(&mut held) {
        t.execute("INSERT INTO P VALUES (?, 7)", &values![key]).unwrap();
    }
    held.pop();
    rolled_back(&manager, "ONEMORE");
    rolled_back(&manager, "ANOTHER");
}

#[test]
fn a_name_that_is_in_use_stays_so() {
    let manager = opened();
    let mut t = manager.transaction().session("KIM").begin().unwrap();
    for number in 0..2 * MOST {
        rolled_back(&manager, &format!("USER{number}"));
    }
    let refused = manager.transaction().session("kim").begin().unwrap_err();
    assert!(matches!(refused.fault(), Some(Fault::TransactionOpen)), "{refused}");
    t.execute(ADD, &[]).unwrap();
    t.commit().unwrap();
    rolled_back(&manager, "kim");
    assert_eq!(manager.transaction().session("RUST1").begin().err(), None::<Error>);
}
