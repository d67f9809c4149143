//! A journal: what is committed outlives its manager, and what stands in the place of one is refused.

use std::fs;
use std::path::PathBuf;

use skewguard::{values, Error, Fault, JournalFault, Manager, Options};

const LEDGER: &str = "
    CREATE TABLE ENTRY (ID INTEGER PRIMARY KEY, OWNER VARCHAR(10), AMOUNT INTEGER NOT NULL);
    CREATE ASSERTION COVERED CHECK (NOT EXISTS (SELECT OWNER FROM ENTRY GROUP BY OWNER HAVING SUM(AMOUNT) < 0));
    INSERT INTO ENTRY VALUES (1000, '\u{17d}ofie', 5);";

/// A file of this test's own, which is taken away behind it.
struct Ledger(PathBuf);

impl Ledger {
    fn new(name: &str) -> Ledger {
        let path = std::env::temp_dir().join(format!("skewguard-{name}-{}", std::process::id()));
        let _ = fs::remove_file(&path);
        Ledger(path)
    }

    fn open(&self) -> Result<Manager, Error> {
        Options::new().journal(&self.0).open(LEDGER)
    }

    fn fault(&self, definitions: &str) -> JournalFault {
        match Options::new().journal(&self.0).open(definitions) {
            Err(Error::Journal(fault)) => fault,
            Err(error) => panic!("{error:?}"),
            Ok(_) => panic!("it was opened"),
        }
    }
}

impl Drop for Ledger {
    fn drop(&mut self) {
        let _ = fs::remove_file(&self.0);
    }
}

fn insert(manager: &Manager, number: i64) {
    insert_of(manager, number, "KIM");
}

fn insert_of(manager: &Manager, number: i64, owner: &str) {
    let row = values![number, owner, 1];
    manager.transaction().run(|t| t.execute("INSERT INTO ENTRY VALUES (?, ?, ?)", &row)).unwrap();
}

fn rows(manager: &Manager) -> u64 {
    manager.transaction().run(|t| t.execute("SELECT * FROM ENTRY", &[])).unwrap().count()
}

#[test]
fn what_is_committed_is_there_again() {
    let ledger = Ledger::new("again");
    let manager = ledger.open().unwrap();
    insert(&manager, 1);
    let mut lost = manager.begin().unwrap();
    lost.execute("DELETE FROM ENTRY", &[]).unwrap();
    drop(lost);
    assert_eq!(manager.checkpoint("", &["COVERED"]), Err(Error::Journaled));
    assert_eq!(ledger.fault(LEDGER), JournalFault::File { errno: 11 });
    drop(manager);
    for count in 2..5 {
        let manager = ledger.open().unwrap();
        assert_eq!(rows(&manager), count);
        insert(&manager, count as i64);
    }
}

#[test]
fn a_checkpoint_makes_the_file_short() {
    let ledger = Ledger::new("checkpoint");
    let length = || fs::metadata(&ledger.0).unwrap().len();
    let manager = ledger.open().unwrap();
    insert(&manager, 1);
    let open = manager.begin().unwrap();
    let refused = manager.checkpoint("", &[]).unwrap_err();
    assert!(matches!(refused, Error::Refused(ref it) if it.fault == Fault::TransactionOpen), "{refused:?}");
    assert!(length() < 1 << 10);
    insert(&manager, 2);
    drop(open);
    assert!(length() > 1 << 20);
    assert!(manager.checkpoint("", &[]).unwrap().starts_with("COMMITS 2\n"));
    assert!(length() < 1 << 10);
    drop(manager);
    let manager = Options::new().journal(&ledger.0).checkpoint_bytes(100).open(LEDGER).unwrap();
    std::thread::scope(|scope| {
        for first in 3..7 {
            let manager = &manager;
            let owner = format!("T{first}");
            scope.spawn(move || (first..100).step_by(4).for_each(|number| insert_of(manager, number, &owner)));
        }
    });
    drop(manager);
    assert!(lines(&ledger).len() < 90);
    assert_eq!(rows(&ledger.open().unwrap()), 100);
}

#[test]
fn what_is_no_journal_of_these_is_refused() {
    let ledger = Ledger::new("refused");
    insert(&ledger.open().unwrap(), 1);
    assert_eq!(ledger.fault("CREATE TABLE T (ID INTEGER PRIMARY KEY);"), JournalFault::OfOthers);
    let mut bytes = fs::read(&ledger.0).unwrap();
    let at = bytes.windows(4).position(|it| it == b"'KIM").unwrap();
    bytes[at + 1] = b'T';
    fs::write(&ledger.0, &bytes).unwrap();
    let line = bytes[..at].iter().rposition(|byte| *byte == b'\n').unwrap() as u64;
    assert_eq!(ledger.fault(LEDGER), JournalFault::Damaged { commit: 1, byte: line });
    fs::write(&ledger.0, "no journal").unwrap();
    assert_eq!(ledger.fault(LEDGER), JournalFault::NoJournal);
    let nowhere = Ledger(ledger.0.join("below"));
    assert_eq!(nowhere.fault(LEDGER), JournalFault::File { errno: 20 });
}

#[test]
fn a_refused_text_is_explained() {
    let manager = Manager::open(LEDGER).unwrap();
    let mut t = manager.begin().unwrap();
    let Err(Error::Refused(refusal)) = t.execute("UPDATE ENTRY SET AMOUNT = 5,\n    OWNR = 'KIM'", &[]) else {
        panic!("it was taken");
    };
    assert_eq!(refusal.fault, Fault::UnknownName { name: "OWNR".to_owned() });
    assert!(refusal.explanation.contains("\n 2 |     OWNR = 'KIM'\n   |     ^^^^\n"), "{refusal}");
    assert_eq!(refusal.to_string(), format!("nothing has the name OWNR\n{}", refusal.explanation));
    let outside = "CREATE ASSERTION SOME CHECK (EXISTS (SELECT * FROM ENTRY E WHERE AMOUNT > ID));";
    drop(t);
    let refused = manager.checkpoint(outside, &[]).unwrap_err().to_string();
    assert!(refused.contains("  --> rules:1:"), "{refused}");
}

/// The number of each entry, and of the last that was on the disk when it was written.
fn lines(ledger: &Ledger) -> Vec<(u64, u64)> {
    let bytes = fs::read(&ledger.0).unwrap();
    let text: Vec<u8> = bytes.into_iter().filter(|&byte| byte != 0).collect();
    let entries = String::from_utf8(text).unwrap();
    let numbers = |line: &str| -> Option<(u64, u64)> {
        let mut fields = line.split('\t').map(|field| field.parse().ok());
        Some((fields.next()??, fields.next()??))
    };
    entries.lines().skip(1).filter_map(numbers).collect()
}

#[test]
fn threads_share_syncs() {
    const THREADS: i64 = 8;
    for round in 0..10 {
        let ledger = Ledger::new(&format!("threads-{round}"));
        let manager = ledger.open().unwrap();
        std::thread::scope(|scope| {
            for first in 0..THREADS {
                let manager = &manager;
                let owner = format!("T{first}");
                let numbers = (first..400).step_by(THREADS as usize);
                scope.spawn(move || numbers.for_each(|number| insert_of(manager, number, &owner)));
            }
        });
        drop(manager);
        assert_eq!(rows(&ledger.open().unwrap()), 401);
        // (whether they meet is chance)
        if lines(&ledger).iter().any(|(number, durable)| number - durable > 1) {
            return;
        }
    }
    panic!("no two commits have shared a sync");
}
