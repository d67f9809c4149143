//! Each public call, and what a careless caller does: a clear error, and nothing lost.

use std::collections::HashSet;
use std::sync::atomic::{AtomicUsize, Ordering};
use std::sync::{Arc, Barrier, Mutex};
use std::thread;

use skewguard::{values, Answer, Error, Fault, Manager, Options, Root, Transaction, Value};

const DEFINITIONS: &str = "
CREATE TABLE DUTY (ID INTEGER PRIMARY KEY, DOCTOR VARCHAR(10), ONCALL INTEGER NOT NULL);
CREATE ASSERTION COVERED CHECK ((SELECT SUM(ONCALL) FROM DUTY) >= 1);
CREATE ASSERTION ONCE CHECK (NOT EXISTS (SELECT DOCTOR FROM DUTY GROUP BY DOCTOR HAVING COUNT(*) > 1));
INSERT INTO DUTY VALUES (1, 'KIM', 1);
INSERT INTO DUTY VALUES (2, 'O''HARA', 0);
";

const INSERT: &str = "INSERT INTO DUTY VALUES (?, ?, ?)";
const ALL: &str = "SELECT * FROM DUTY";

fn opened() -> Manager {
    Manager::open(DEFINITIONS).unwrap()
}

/// What is committed.
fn rows(manager: &Manager) -> Vec<Vec<Value>> {
    let answer = manager.transaction().read_only().run(|t| t.execute(ALL, &[])).unwrap();
    answer.into_rows().unwrap().into_iter().collect()
}

fn beginning() -> Vec<Vec<Value>> {
    vec![values![1, "KIM", 1].to_vec(), values![2, "O'HARA", 0].to_vec()]
}

fn fault_of<T: std::fmt::Debug>(answer: Result<T, Error>) -> Fault {
    answer.unwrap_err().fault().expect("a refusal").clone()
}

#[test]
fn statements_answer_counts_and_rows() {
    let manager = opened();
    let mut t = manager.begin().unwrap();
    assert_eq!(t.snapshot(), 0);
    assert_eq!(t.execute(INSERT, &values![3, Value::Null, 0]), Ok(Answer::Inserted(1)));
    assert_eq!(t.execute("UPDATE DUTY SET ONCALL = ONCALL + ?", &values![1]).unwrap().count(), 3);
    let answer = t.execute("SELECT DOCTOR, ONCALL FROM DUTY WHERE ID >= ?", &values![2]).unwrap();
    let found = answer.rows().unwrap();
    assert_eq!(found.columns(), ["DOCTOR", "ONCALL"]);
    assert_eq!((found.len(), found.is_empty(), answer.count()), (2, false, 2));
    assert_eq!(found[0], values!["O'HARA", 1]);
    assert_eq!(found.get(1, "doctor"), Some(&Value::Null));
    assert_eq!((found.get(2, "DOCTOR"), found.get(0, "NAME")), (None, None));
    assert_eq!(found.iter().filter_map(|row| row[1].as_int()).sum::<i64>(), 2);
    assert_eq!(t.execute("DELETE FROM DUTY WHERE ID = 3", &[]), Ok(Answer::Deleted(1)));
    assert_eq!(t.verdict("COVERED"), Ok(Some(true)));
    assert_eq!(t.commit().unwrap(), 1);
    assert_eq!(rows(&manager), [values![1, "KIM", 2], values![2, "O'HARA", 1]]);
}

#[test]
fn a_refused_statement_names_the_rule_and_leaves_the_transaction() {
    let manager = opened();
    let mut t = manager.begin().unwrap();
    let Err(Error::Refused(refusal)) = t.execute(INSERT, &values![3, "KIM", 1]) else { panic!() };
    assert_eq!((refusal.number, refusal.sqlstate.as_deref()), (10, Some("23000")));
    assert_eq!(refusal.fault, Fault::RuleViolated { rule: "ONCE".into(), root: Root::Of("KIM".into()) });
    assert!(refusal.report.ends_with(": REFUSED 10 23000 ONCE 'KIM'"), "{}", refusal.report);
    assert_eq!(Error::Refused(refusal).to_string(), "ONCE would be false at 'KIM'");
    let fault = fault_of(t.execute("UPDATE DUTY SET ONCALL = 0", &[]));
    assert_eq!(fault, Fault::RuleViolated { rule: "COVERED".into(), root: Root::All });
    t.execute(INSERT, &values![3, "LEE", 1]).unwrap();
    t.commit().unwrap();
    assert_eq!(rows(&manager).len(), 3);
}

#[test]
fn faults_of_rows() {
    let manager = opened();
    let mut t = manager.begin().unwrap();
    let taken = fault_of(t.execute(INSERT, &values![1, "LEE", 1]));
    assert_eq!(taken, Fault::DuplicateKey { table: "DUTY".into(), key: Value::Int(1) });
    let null = fault_of(t.execute(INSERT, &values![3, "LEE", Value::Null]));
    assert_eq!(null, Fault::NullNotAllowed { column: "ONCALL".into() });
    let long = fault_of(t.execute(INSERT, &values![3, "ABCDEFGHIJK", 1]));
    assert_eq!(long, Fault::OutOfRange { column: "DOCTOR".into() });
    assert_eq!(fault_of(t.execute(INSERT, &values!["3", "LEE", 1])), Fault::TypeMismatch);
    assert_eq!(fault_of(t.execute("DELETE FROM T", &[])), Fault::UnknownName { name: "T".into() });
    t.rollback().unwrap();
    assert_eq!(rows(&manager), beginning());
}

#[test]
fn derived_columns_have_names() {
    let manager = opened();
    let mut t = manager.begin().unwrap();
    let asked = "SELECT COUNT(*), MAX(DOCTOR) AS LAST_NAME, SUM(ID), MIN(ID) + ? FROM DUTY";
    let found = t.execute(asked, &values![1]).unwrap().into_rows().unwrap();
    assert_eq!(found.columns(), ["COUNT", "LAST_NAME", "SUM", "?column?"]);
    assert_eq!((found.len(), &found[0]), (1, &values![2, "O'HARA", 3, 2][..]));
    assert_eq!((found.get(0, "count"), found.get(0, "?column?")), (Some(&2.into()), Some(&2.into())));
    let found = t.execute("SELECT D.DOCTOR, ID AS PLACE FROM DUTY AS D WHERE D.ID = 2", &[]).unwrap();
    assert_eq!(found.rows().unwrap().columns(), ["DOCTOR", "PLACE"]);
}

#[test]
fn numbers_past_64_bits() {
    let manager = opened();
    let mut t = manager.begin().unwrap();
    t.execute(INSERT, &values![3, "LEE", 10i64.pow(15)]).unwrap();
    t.execute(INSERT, &values![4, "EVE", -10i64.pow(15)]).unwrap();
    t.execute(INSERT, &values![5, "ANN", 10i64.pow(15)]).unwrap();
    t.execute(INSERT, &values![6, "BOB", 10i64.pow(15)]).unwrap();
    let asked = "SELECT ONCALL * 9223 + 372036854775807, ONCALL * 9223 + 372036854775808, ONCALL * ONCALL,
                 ONCALL * 9223 - 372036854775808, ONCALL * 9223 - 372036854775809 FROM DUTY WHERE ID IN (3, 4)";
    let found = t.execute(asked, &[]).unwrap().into_rows().unwrap();
    assert_eq!(found[0][..2], [Value::Int(i64::MAX), Value::Numeric(i128::from(i64::MAX) + 1)]);
    assert_eq!(found[0][2], Value::Numeric(10i128.pow(30)));
    assert_eq!(found[1][3..], [Value::Int(i64::MIN), Value::Numeric(i128::from(i64::MIN) - 1)]);
    assert_eq!((found[0][2].as_int(), found[0][2].as_i128()), (None, Some(10i128.pow(30))));
    assert_eq!(found[1][4].to_string(), "-9223372036854775809");
    assert!(Value::Null < found[1][4] && found[1][4] < found[1][3] && found[0][0] < found[0][1]);
    assert!(found[0][2] < Value::from("") && Value::Int(5).as_i128() == Some(5));
    let sum = t.execute("SELECT SUM(ONCALL) * 4000 FROM DUTY WHERE ID IN (3, 5, 6)", &[]).unwrap();
    assert_eq!(sum.rows().unwrap()[0], [Value::Numeric(12 * 10i128.pow(18))]);
    let given = t.execute("DELETE FROM DUTY WHERE ID = ?", &[Value::Numeric(10i128.pow(30))]);
    assert_eq!(given, Err(Error::NumberOutOfRange { parameter: 1 }));
}

#[test]
fn several_rows_in_one_insert() {
    let manager = opened();
    let mut t = manager.begin().unwrap();
    let text = "INSERT INTO DUTY VALUES (?, ?, 0), (4, ?, 0);";
    let taken = fault_of(t.execute(text, &values![4, "LEE", "EVE"]));
    assert_eq!(taken, Fault::DuplicateKey { table: "DUTY".into(), key: Value::Int(4) });
    let twice = fault_of(t.execute(text, &values![3, "LEE", "LEE"]));
    assert_eq!(twice, Fault::RuleViolated { rule: "ONCE".into(), root: Root::Of("LEE".into()) });
    assert_eq!(t.execute(text, &values![3, "LEE", "EVE"]), Ok(Answer::Inserted(2)));
    t.commit().unwrap();
    assert_eq!(rows(&manager)[2..], [values![3, "LEE", 0], values![4, "EVE", 0]]);
}

#[test]
fn a_dropped_transaction_is_rolled_back() {
    let manager = opened();
    let mut t = manager.begin().unwrap();
    t.execute("DELETE FROM DUTY WHERE ID = 2", &[]).unwrap();
    drop(t);
    assert_eq!(rows(&manager), beginning());
    let lost = std::panic::catch_unwind(std::panic::AssertUnwindSafe(|| {
        let mut t = manager.begin().unwrap();
        t.execute("DELETE FROM DUTY WHERE ID = 2", &[]).unwrap();
        panic!("in a transaction");
    }));
    assert!(lost.is_err());
    assert_eq!(rows(&manager), beginning());
}

#[test]
fn conflicts_name_what_was_in_the_way() {
    let manager = opened();
    let both = |sql: &str, other: &str| {
        let (mut first, mut second) = (manager.begin().unwrap(), manager.begin().unwrap());
        first.execute(sql, &[]).unwrap();
        second.execute(other, &[]).unwrap();
        first.commit().unwrap();
        let fault = second.commit().unwrap_err();
        assert!(fault.transaction.is_none() && fault.error.is_retryable());
        fault.error.fault().unwrap().clone()
    };
    let conflict = both("UPDATE DUTY SET ONCALL = 2 WHERE ID = 1", "UPDATE DUTY SET ONCALL = 3 WHERE ID = 1");
    assert_eq!(conflict, Fault::WriteConflict { table: "DUTY".into(), key: Value::Int(1), commit: 1 });
    let dangerous = both("INSERT INTO DUTY VALUES (3, 'LEE', 0)", "INSERT INTO DUTY VALUES (4, 'LEE', 0)");
    assert_eq!(dangerous, Fault::Dangerous { reader: Some(2), pivot: None, writer: Some(2) });
}

#[test]
fn run_tries_again_where_others_were_in_the_way() {
    let manager = opened();
    let mut snapshots = Vec::new();
    let add = |t: &mut Transaction<'_>| {
        snapshots.push(t.snapshot());
        t.execute("UPDATE DUTY SET ONCALL = ONCALL + 5 WHERE ID = 1", &[])?;
        if snapshots.len() < 3 {
            let other = |t: &mut Transaction<'_>| t.execute("UPDATE DUTY SET ONCALL = ONCALL + 10 WHERE ID = 1", &[]);
            manager.transaction().run(other)?;
        }
        Ok::<_, Error>("added")
    };
    assert_eq!(manager.transaction().retry(2).run(add), Ok("added"));
    assert_eq!(snapshots, [0, 1, 2]);
    assert_eq!(rows(&manager)[0], values![1, "KIM", 26]);
}

#[test]
fn run_gives_up_after_its_retries() {
    let manager = opened();
    let attempts = AtomicUsize::new(0);
    let lose = |t: &mut Transaction<'_>| {
        attempts.fetch_add(1, Ordering::SeqCst);
        t.execute("UPDATE DUTY SET ONCALL = 9 WHERE ID = 1", &[])?;
        manager.transaction().run(|t| t.execute("UPDATE DUTY SET ONCALL = ONCALL + 1 WHERE ID = 1", &[]))
    };
    assert!(manager.transaction().retry(1).run(lose).unwrap_err().is_retryable());
    assert_eq!(attempts.load(Ordering::SeqCst), 2);
    assert_eq!(rows(&manager)[0], values![1, "KIM", 3]);
}

#[test]
fn an_error_of_the_function_rolls_back() {
    #[derive(Debug)]
    enum Own {
        Skewguard(#[allow(dead_code)] Error),
        Gone,
    }
    impl From<Error> for Own {
        fn from(error: Error) -> Own {
            Own::Skewguard(error)
        }
    }
    let manager = opened();
    let gone = manager.transaction().retry(3).run(|t| {
        t.execute("DELETE FROM DUTY WHERE ID = 2", &[])?;
        Err::<(), Own>(Own::Gone)
    });
    assert!(matches!(gone, Err(Own::Gone)));
    assert_eq!(rows(&manager), beginning());
}

#[test]
fn texts_that_end_a_transaction() {
    let manager = opened();
    let mut t = manager.begin().unwrap();
    assert_eq!(fault_of(t.execute("BEGIN", &[])), Fault::TransactionOpen);
    assert_eq!(t.execute("COMMIT", &[]), Ok(Answer::Committed(1)));
    assert_eq!(t.execute(ALL, &[]), Err(Error::Ended));
    assert_eq!(t.commit().unwrap_err().error, Error::Ended);
    let mut t = manager.begin().unwrap();
    assert_eq!(t.execute("ROLLBACK", &[]), Ok(Answer::RolledBack));
    assert_eq!(t.rollback(), Err(Error::Ended));
    let counted = manager.transaction().run(|t| t.execute("COMMIT", &[]).map(|it| it.count()));
    assert_eq!(counted, Ok(0));
}

#[test]
fn read_only_and_session_names() {
    let manager = opened();
    let mut t = manager.transaction().read_only().session("ann").begin().unwrap();
    assert_eq!(fault_of(t.execute("DELETE FROM DUTY", &[])), Fault::ReadOnlyTransaction);
    assert_eq!(fault_of(manager.transaction().session("ANN").begin()), Fault::TransactionOpen);
    t.commit().unwrap();
    assert!(manager.report().unwrap().contains("1 ANN SNAPSHOT 0 ROWS 0"));
    for name in ["", "A B", "1A", "SELECT", "Ren\u{e9}", "\0"] {
        let wanted = Error::BadSessionName { name: name.to_owned() };
        assert_eq!(manager.transaction().session(name).begin().unwrap_err(), wanted);
    }
    manager.transaction().session("RUST1").begin().unwrap().commit().unwrap();
    manager.begin().unwrap().commit().unwrap();
    let taken = manager.transaction().session("RUST2").begin().unwrap_err();
    assert_eq!(taken, Error::NameTaken { name: "RUST2".to_owned() });
    assert_eq!(manager.checkpoint("", &["NO RULE"]), Err(Error::BadRuleName));
    assert_eq!(fault_of(manager.checkpoint("", &["NORULE"])), Fault::UnknownName { name: "NORULE".into() });
}

#[test]
fn each_error_has_words() {
    let errors = [
        Error::NoMemory,
        Error::ReplyLost,
        Error::WrongCount { wanted: 3, given: 1 },
        Error::NumberOutOfRange { parameter: 2 },
        Error::TextNotPlain { parameter: 2, character: 4 },
        Error::NullNotAllowed { parameter: 2 },
        Error::BadSessionName { name: "A B".into() },
        Error::BadRuleName,
        Error::NameTaken { name: "RUST2".into() },
        Error::Ended,
        Error::OtherLibrary { layout: 7 },
        Error::Library { status: 77 },
    ];
    let words: Vec<String> = errors.iter().map(ToString::to_string).collect();
    assert_eq!(words.iter().collect::<HashSet<_>>().len(), errors.len(), "{words:?}");
    assert_eq!(words[4], "value 2: its character 4 is a control character, which stands in no text");
    assert!(words[6].starts_with("\"A B\" is no name of a session: a name is a letter"), "{}", words[6]);
}

#[test]
fn values_come_back_as_they_were_given() {
    let manager = Manager::open("CREATE TABLE T (ID INTEGER PRIMARY KEY, N INTEGER, S VARCHAR(20));").unwrap();
    let most = 1_000_000_000_000_000_i64;
    let mut t = manager.begin().unwrap();
    let given = [
        values![-most, 0, ""],
        values![-1, -1, "'"],
        values![0, most, "'; DELETE FROM T; --"],
        values![1, -most, "?"],
        values![2, Value::Null, Value::Null],
        values![3, 1, "\u{17d}ofie \u{65e5}\u{672c}\u{8a9e} \u{1f600}"],
        values![4, 1, "\u{e9}".repeat(20)],
        values![most, 7, " \"\\ NULL "],
    ];
    for row in &given {
        t.execute("INSERT INTO T VALUES (?, ?, ?)", row).unwrap();
    }
    let answer = t.execute("SELECT * FROM T WHERE ID BETWEEN ? AND ?", &values![-most, most]).unwrap();
    let found = answer.into_rows().unwrap();
    assert!(found.iter().eq(given.iter()), "{found:?}");
    assert_eq!(t.execute("DELETE FROM T WHERE S = ?", &values!["'; DELETE FROM T; --"]), Ok(Answer::Deleted(1)));
}

#[test]
fn values_that_do_not_suit() {
    let manager = opened();
    let mut t = manager.begin().unwrap();
    for number in [1_000_000_000_000_001, i64::MIN, i64::MAX] {
        let answer = t.execute(INSERT, &values![3, number, 0]);
        assert_eq!(answer, Err(Error::NumberOutOfRange { parameter: 2 }), "{number}");
    }
    for (text, character) in [("Ren\u{e9}\t", 5), ("a\nb", 2), ("\0", 1), ("\u{7f}", 1)] {
        let answer = t.execute(INSERT, &values![3, text, 0]);
        assert_eq!(answer, Err(Error::TextNotPlain { parameter: 2, character }), "{text:?}");
    }
    let null = t.execute("SELECT * FROM DUTY WHERE ID > ? AND DOCTOR = ?", &values![0, Value::Null]);
    assert_eq!(null, Err(Error::NullNotAllowed { parameter: 2 }));
    assert_eq!(t.execute(INSERT, &values![3]), Err(Error::WrongCount { wanted: 3, given: 1 }));
    assert_eq!(t.execute(ALL, &values![3]), Err(Error::WrongCount { wanted: 0, given: 1 }));
    t.commit().unwrap();
    assert_eq!(rows(&manager), beginning());
}

#[test]
fn a_fault_in_a_text_has_its_place() {
    let manager = opened();
    let mut t = manager.begin().unwrap();
    let place = |fault| match fault {
        Fault::Syntax { line, column, .. } | Fault::TooDeep { line, column, .. } => (line, column),
        other => panic!("{other:?}"),
    };
    let error = t.execute("SELECT *\n\tFORM DUTY", &[]).unwrap_err();
    let shown = error.to_string();
    assert!(shown.starts_with("syntax error at line 2, column 2\nfault 2: `FORM` may not stand here\n"), "{shown}");
    assert_eq!(place(fault_of(t.execute("", &[]))), (1, 1));
    assert_eq!(place(fault_of(t.execute("SELECT * FROM DUTY;;", &[]))), (1, 19));
    assert_eq!(place(fault_of(t.execute("SELECT * FROM DUTY WHERE DOCTOR = 'Ren\u{e9}\t'", &[]))), (1, 35));
    let deep = format!("DELETE FROM DUTY WHERE {}", "(".repeat(70));
    assert_eq!(place(fault_of(t.execute(&deep, &[]))), (1, 88));
    let definitions = fault_of(Manager::open("CREATE TABLE T (\n    ID INTEGR PRIMARY KEY\n);"));
    assert_eq!(place(definitions), (2, 8));
}

#[test]
fn checkpoints_and_a_full_epoch() {
    let manager = Options::new().max_commits(1).open(DEFINITIONS).unwrap();
    let change = |t: &mut Transaction<'_>| t.execute("UPDATE DUTY SET ONCALL = 1 - ONCALL WHERE ID = 2", &[]);
    manager.transaction().run(change).unwrap();
    assert_eq!(fault_of(manager.transaction().run(change)), Fault::EpochFull);
    let t = manager.begin().unwrap();
    assert_eq!(fault_of(manager.checkpoint("", &[])), Fault::TransactionOpen);
    drop(t);
    let none = "CREATE ASSERTION NONE CHECK (NOT EXISTS (SELECT * FROM DUTY WHERE ONCALL > 0));";
    let refused = fault_of(manager.checkpoint(none, &[]));
    assert_eq!(refused, Fault::FalseAtCreation { rule: "NONE".into(), root: Root::Of(Value::Int(1)) });
    let ended = manager.checkpoint(&none.replace("> 0", "> 9"), &["ONCE"]).unwrap();
    assert!(ended.starts_with("COMMITS 1\n"), "{ended}");
    manager.transaction().run(|t| t.execute("INSERT INTO DUTY VALUES (3, 'KIM', 1)", &[])).unwrap();
    assert!(manager.report().unwrap().contains("NONE TRUE"));
}

#[test]
fn many_transactions_at_once() {
    let manager = opened();
    let mut held: Vec<_> = (0..256).map(|_| manager.begin().unwrap()).collect();
    assert_eq!(fault_of(manager.begin()), Fault::TooManySessions);
    held.pop();
    manager.begin().unwrap().commit().unwrap();
}

#[test]
fn more_texts_than_are_kept_and_a_reply_beyond_the_buffer() {
    let manager = opened();
    let mut t = manager.begin().unwrap();
    for number in 3..1_000 {
        t.execute(&format!("INSERT INTO DUTY VALUES ({number}, 'D{number}', 0)"), &[]).unwrap();
    }
    let answer = t.execute(ALL, &[]).unwrap();
    let found = answer.rows().unwrap();
    assert_eq!((found.len(), &found[998]), (999, &values![999, "D999", 0][..]));
}

#[test]
fn threads_share_a_manager() {
    fn is_shared<T: Send + Sync>(_: &T) {}
    fn is_sent<T: Send>(_: &T) {}
    let manager =
        Manager::open("CREATE TABLE T (ID INTEGER PRIMARY KEY, V INTEGER); INSERT INTO T VALUES (1, 0);").unwrap();
    is_shared(&manager);
    is_sent(&manager.begin().unwrap());
    let start = Barrier::new(4);
    thread::scope(|scope| {
        for _ in 0..4 {
            scope.spawn(|| {
                start.wait();
                for _ in 0..100 {
                    let add = |t: &mut Transaction<'_>| t.execute("UPDATE T SET V = V + 1 WHERE ID = 1", &[]);
                    manager.transaction().retry(1_000).run(add).unwrap();
                }
            });
        }
    });
    let answer = manager.transaction().run(|t| t.execute("SELECT V FROM T", &[])).unwrap();
    assert_eq!(answer.rows().unwrap()[0], values![400]);
}

/// A statement may end with its `;`, and a second behind it is a fault with its place.
#[test]
fn a_statement_may_have_its_end() {
    let manager = opened();
    let mut t = manager.begin().unwrap();
    for end in [";", " ;", ";\n", " ; -- all of it; really", "--'\n;--'"] {
        let found = t.execute(&format!("SELECT ID FROM DUTY WHERE ID = ?{end}"), &values![2]).unwrap();
        assert_eq!(found.count(), 1);
    }
    for (text, wanted) in
        [("SELECT ID FROM DUTY; DELETE FROM DUTY;", 20_usize), ("SELECT ID FROM DUTY;;", 20), (";", 1)]
    {
        match t.execute(text, &[]).unwrap_err().fault() {
            Some(Fault::Syntax { line: 1, column, .. }) => assert_eq!(*column, wanted, "{text}"),
            fault => panic!("{fault:?}"),
        }
    }
    assert_eq!(t.execute("COMMIT;", &[]), Ok(Answer::Committed(1)));
}

/// One statement with many rows of values: the first that is not done is the last.
#[test]
fn many_rows() {
    let told = Arc::new(Mutex::new(Vec::new()));
    let lines = Arc::clone(&told);
    let trace = move |line: &str| lines.lock().unwrap().push(line.to_owned());
    let manager = Options::new().trace(trace).open("CREATE TABLE T (ID INTEGER PRIMARY KEY, N INTEGER);").unwrap();
    let insert = "INSERT INTO T VALUES (?, ?)";
    let mut t = manager.transaction().session("KIM").begin().unwrap();
    let rows: Vec<[Value; 2]> = (0..1000).map(|place| values![place, 2 * place]).collect();
    assert_eq!(t.run_all(insert, &rows), Ok(vec![Answer::Inserted(1); 1000]));
    assert_eq!(told.lock().unwrap().len(), 1001);
    assert_eq!(t.run_all(insert, &[] as &[[Value; 2]]), Ok(Vec::new()));
    let found = t.run_all("SELECT N FROM T WHERE ID = ?;", &[values![7], values![2000]]).unwrap();
    assert_eq!(found.iter().map(Answer::count).collect::<Vec<u64>>(), [1, 0]);
    assert_eq!(found[0].rows().unwrap()[0], values![14]);

    let fault = t.run_all(insert, &[values![1000, 0], values![7, 0], values![1001, 0]]).unwrap_err();
    assert_eq!((fault.place, fault.answers), (Some(1), vec![Answer::Inserted(1)]));
    assert!(matches!(fault.error.fault(), Some(Fault::DuplicateKey { key: Value::Int(7), .. })));
    let fault = t.run_all(insert, &[vec![1002.into(), 0.into()], vec![1.into()]]).unwrap_err();
    assert_eq!((fault.place, fault.error), (Some(1), Error::WrongCount { wanted: 2, given: 1 }));
    let fault = t.run_all(insert, &[values![1003, "\u{7f}"]]).unwrap_err();
    assert_eq!((fault.place, fault.error), (Some(0), Error::TextNotPlain { parameter: 2, character: 1 }));
    assert_eq!(t.run_all("SELEKT", &[[]]).unwrap_err().place, Some(0));
    assert_eq!(t.execute("SELECT * FROM T", &[]).unwrap().count(), 1002);
    let fault = t.run_all("COMMIT", &[[], []]).unwrap_err();
    assert_eq!((fault.place, fault.answers), (Some(1), vec![Answer::Committed(1)]));
    assert_eq!(t.run_all(insert, &rows).unwrap_err().error, Error::Ended);
}

/// Whole transactions in one call each.
#[test]
fn transactions_of_one_call() {
    let manager = opened();
    let leave = "UPDATE DUTY SET ONCALL = 0 WHERE ID = ?";
    let step = |key: i64| (leave, values![key].into());
    let all = || (ALL, Vec::new());
    let done = manager.transaction().session("KIM").run_steps(&[step(2), all()]).unwrap();
    assert_eq!((done.0, done.1[0].clone(), done.1[1].count()), (1, Answer::Updated(1), 2));
    let fault = manager.transaction().run_steps(&[all(), step(1)]).unwrap_err();
    assert_eq!((fault.place, fault.answers.len()), (Some(1), 1));
    assert!(matches!(fault.error.fault(), Some(Fault::RuleViolated { .. })));
    assert!(fault.to_string().starts_with("statement 1: "));
    let fault = manager.transaction().run_steps(&[step(2), (leave, Vec::new())]).unwrap_err();
    assert_eq!((fault.place, fault.error), (Some(1), Error::WrongCount { wanted: 1, given: 0 }));
    let fault = manager.transaction().read_only().run_steps(&[step(2)]).unwrap_err();
    assert!(matches!(fault.error.fault(), Some(Fault::ReadOnlyTransaction)));

    let open = manager.transaction().session("KIM").begin().unwrap();
    let fault = manager.transaction().session("KIM").run_steps(&[step(2)]).unwrap_err();
    assert!(matches!((fault.place, fault.error.fault()), (None, Some(Fault::TransactionOpen))));
    assert_eq!(open.commit().unwrap(), 2);
    assert_eq!(manager.transaction().run_steps(&[]), Ok((3, Vec::new())));

    let many: Vec<(&str, Vec<Value>)> = (0..300).map(|_| step(2)).collect();
    assert_eq!(manager.transaction().run_steps(&many).unwrap().1.len(), 300);
}

/// Threads that change one row by transactions of one call are never in each other's way.
#[test]
fn transactions_of_one_call_on_threads() {
    let definitions = "CREATE TABLE T (ID INTEGER PRIMARY KEY, N INTEGER); INSERT INTO T VALUES (1, 0);";
    let manager = Manager::open(definitions).unwrap();
    let add = [("UPDATE T SET N = N + 1 WHERE ID = ?", values![1].into())];
    thread::scope(|scope| {
        for _ in 0..4 {
            scope.spawn(|| {
                for _ in 0..100 {
                    manager.transaction().run_steps(&add).unwrap();
                }
            });
        }
    });
    let (number, found) = manager.transaction().run_steps(&[("SELECT N FROM T", Vec::new())]).unwrap();
    assert_eq!((number, found[0].rows().unwrap()[0].to_vec()), (401, values![400].to_vec()));
}
