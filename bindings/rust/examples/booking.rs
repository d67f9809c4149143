//! Guests on threads book rooms of a house, and no room is booked twice at one time.
//!
//!     cargo run --example booking

use std::sync::atomic::{AtomicU32, Ordering};
use std::thread;

use skewguard::{values, Error, Fault, Manager};

/// A slot is one room at one time, written as one number: room 12 at 9 o'clock is 1209.
const DEFINITIONS: &str = "
CREATE TABLE BOOKING (ID INTEGER PRIMARY KEY, SLOT INTEGER NOT NULL, GUEST VARCHAR(20));

CREATE ASSERTION NOTWICE CHECK (NOT EXISTS (
    SELECT SLOT FROM BOOKING GROUP BY SLOT HAVING COUNT(*) > 1
));

INSERT INTO BOOKING VALUES (1, 1209, 'KIM');
";

const GUESTS: [&str; 4] = ["ANN", "BOB", "CLEO", "DAN"];
const SLOTS: [i64; 5] = [1209, 1210, 1211, 1212, 1213];

/// The first slot that a guest gets, from the first on; none where all are taken.
fn look_for_room(manager: &Manager, keys: &AtomicU32, guest: &str) -> Result<Option<i64>, Error> {
    for slot in SLOTS {
        let key = keys.fetch_add(1, Ordering::SeqCst);
        let booked = manager
            .transaction()
            .retry(20)
            .run(|t| t.execute("INSERT INTO BOOKING VALUES (?, ?, ?)", &values![key, slot, guest]));
        match booked {
            Ok(_) => return Ok(Some(slot)),
            Err(error) if matches!(error.fault(), Some(Fault::RuleViolated { .. })) => {} // it is taken: the next
            Err(error) => return Err(error),
        }
    }
    Ok(None)
}

fn main() -> Result<(), Error> {
    let manager = Manager::open(DEFINITIONS)?;
    let keys = AtomicU32::new(2);
    let found = thread::scope(|scope| {
        let looking = GUESTS.map(|guest| scope.spawn(|| look_for_room(&manager, &keys, guest)));
        let found = looking.map(|it| it.join().expect("no thread panics"));
        found.into_iter().collect::<Result<Vec<Option<i64>>, Error>>()
    })?;
    println!("{} guests have a room", found.iter().flatten().count());
    let sql = "SELECT SLOT FROM BOOKING";
    let answer = manager.transaction().read_only().run(|t| t.execute(sql, &[]))?;
    let mut slots: Vec<i64> = answer.rows().into_iter().flatten().filter_map(|row| row[0].as_int()).collect();
    slots.sort_unstable();
    println!("slots: {}", slots.iter().map(i64::to_string).collect::<Vec<_>>().join(" "));
    Ok(())
}
