//! Transactions over SQL-92 assertions and serializable snapshots, in this process.
//!
//! An assertion is a rule over whole tables. No committed tables make one false, and the committed transactions have a
//! serial order, whatever threads do.
//!
//! ```
//! use skewguard::{values, Error, Fault, Manager};
//!
//! let manager = Manager::open(
//!     "CREATE TABLE DUTY (ID INTEGER PRIMARY KEY, DOCTOR VARCHAR(10), ONCALL INTEGER);
//!      CREATE ASSERTION COVERED CHECK ((SELECT SUM(ONCALL) FROM DUTY) >= 1);
//!      INSERT INTO DUTY VALUES (1, 'KIM', 1);
//!      INSERT INTO DUTY VALUES (2, 'LEE', 1);",
//! )?;
//!
//! // Run again where others were in the way, at most three times more.
//! let leave = |doctor: &str| {
//!     manager.transaction().retry(3).run(|t| {
//!         t.execute("UPDATE DUTY SET ONCALL = 0 WHERE DOCTOR = ?", &values![doctor])
//!     })
//! };
//! assert_eq!(leave("KIM")?.count(), 1);
//! match leave("LEE") {
//!     Err(Error::Refused(refusal)) => match refusal.fault {
//!         Fault::RuleViolated { rule, .. } => assert_eq!(rule, "COVERED"),
//!         fault => panic!("{fault:?}"),
//!     },
//!     other => panic!("{other:?}"),
//! }
//! # Ok::<(), Error>(())
//! ```
//!
//! A [`Manager`] may be shared by threads: one call is served after the other, under a lock of its own. A
//! [`Transaction`] that is dropped is rolled back.
//!
//! The crate stands on the C library `libskewguard` (`build.rs` says how it is found) and on nothing else.

#![warn(missing_docs)]

mod answers;
mod errors;
mod layout;
mod library;
mod manager;
mod numbers;
mod values;

pub use answers::{Answer, Rows};
pub use errors::{Error, Fault, JournalFault, Refusal, Root, StepFault};
pub use manager::{CommitFault, Manager, Options, Transaction, TransactionBuilder};
pub use values::Value;
