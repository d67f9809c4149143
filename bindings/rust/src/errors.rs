//! Why something was refused.

use std::fmt;

use crate::answers::Answer;
use crate::values::Value;

/// Where an assertion is false.
#[derive(Clone, Debug, PartialEq, Eq, PartialOrd, Ord, Hash)]
pub enum Root {
    /// As a whole.
    All,
    /// At the key of a row, or at a group; NULLs are one group.
    Of(Value),
}

/// What a fault is of. Each has its number in the report.
#[derive(Clone, Debug, PartialEq, Eq)]
#[non_exhaustive]
pub enum Fault {
    /// 2: the text is none of the language, from this line and column on, both from 1.
    Syntax {
        /// The line, from 1.
        line: usize,
        /// The character in it, from 1.
        column: usize,
    },
    /// 19: too many parentheses are open there.
    TooDeep {
        /// The line, from 1.
        line: usize,
        /// The character in it, from 1.
        column: usize,
    },
    /// 3: nothing has this name.
    UnknownName {
        /// The name.
        name: String,
    },
    /// 4: something has this name already.
    NameTaken {
        /// The name.
        name: String,
    },
    /// 5: values and columns differ in number or type.
    TypeMismatch,
    /// 6: the column takes no NULL.
    NullNotAllowed {
        /// The column.
        column: String,
    },
    /// 7: the table has a row under this key already.
    DuplicateKey {
        /// The table.
        table: String,
        /// The key.
        key: Value,
    },
    /// 8: no UPDATE may set a key.
    KeyUpdate {
        /// The key's column.
        column: String,
    },
    /// 9: a number beyond its range (22003), or a text past its length (22001).
    OutOfRange {
        /// The column.
        column: String,
    },
    /// 10: the assertion would be false. Of a statement (23000) nothing is left; a COMMIT (40002) has ended its
    /// transaction.
    RuleViolated {
        /// The assertion.
        rule: String,
        /// The least root at which it would be false.
        root: Root,
    },
    /// 11: the assertion cannot be deferred.
    NotDeferrable {
        /// The assertion.
        rule: String,
    },
    /// 12: a commit that the transaction has not seen changed a row that it changed too. It may be run again.
    WriteConflict {
        /// The table.
        table: String,
        /// The row's key.
        key: Value,
        /// The commit's number.
        commit: u64,
    },
    /// 13: reads and writes that allow no serial order. Each party is a commit, or none for the transaction itself. It
    /// may be run again.
    Dangerous {
        /// It read what the pivot changed.
        reader: Option<u64>,
        /// It read what the writer changed.
        pivot: Option<u64>,
        /// It was the first of them to commit.
        writer: Option<u64>,
    },
    /// 14: no transaction is open.
    NoTransaction,
    /// 15: a transaction is open.
    TransactionOpen,
    /// 17: the epoch holds as many commits as it may. The transaction has ended.
    EpochFull,
    /// 18: arithmetic could pass the range in which it is exact.
    TooWide,
    /// 20: the condition is outside the class that is taken.
    OutsideClass,
    /// 21: the assertion is false on the rows that are there.
    FalseAtCreation {
        /// The assertion.
        rule: String,
        /// The least root at which it is false.
        root: Root,
    },
    /// 22: the attributes of the assertion exclude each other.
    AttributeClash {
        /// The assertion.
        rule: String,
    },
    /// 23: the transaction is READ ONLY.
    ReadOnlyTransaction,
    /// 24: 256 transactions are open, as many as may be at once.
    TooManySessions,
    /// 25: the commit could not be kept in the journal (58030). Nothing has changed, and its transaction is open.
    NotKept,
    /// A number that this crate does not know.
    Other,
}

/// A refusal, by what the report says of it.
#[derive(Clone, Debug, PartialEq, Eq)]
pub struct Refusal {
    /// The number of the fault.
    pub number: u32,
    /// Five characters, where the fault has an SQLSTATE.
    pub sqlstate: Option<String>,
    /// What it is.
    pub fault: Fault,
    /// The line that `skewguard replay` prints for it.
    pub report: String,
    /// Where in its text the fault lies, and what may stand there or how else to say it, as `skewguard check` shows it.
    /// Empty where the text has no such fault, as where rows or other transactions were in the way.
    pub explanation: String,
}

/// Why a call gave nothing.
#[derive(Clone, Debug, PartialEq, Eq)]
#[non_exhaustive]
pub enum Error {
    /// The manager refused it.
    Refused(Box<Refusal>),
    /// No memory was left, and nothing has changed.
    NoMemory,
    /// The call was answered, but no memory was left for its reply. Its transaction has ended: it is rolled back, or
    /// behind a COMMIT it may have committed, as the report tells. A checkpoint may have begun a new epoch.
    ReplyLost,
    /// The statement has another number of parameters. Nothing was run.
    WrongCount {
        /// So many does it have.
        wanted: u64,
        /// So many values came.
        given: u64,
    },
    /// A number beyond 10^15, which no table holds. Nothing was run.
    NumberOutOfRange {
        /// The parameter, from 1.
        parameter: u64,
    },
    /// A text with a control character of ASCII. Nothing was run.
    TextNotPlain {
        /// The parameter, from 1.
        parameter: u64,
        /// The place of the character in it, from 1.
        character: usize,
    },
    /// NULL where the grammar has none: a condition says IS NULL. Nothing was run.
    NullNotAllowed {
        /// The parameter, from 1.
        parameter: u64,
    },
    /// No name of a session: a letter and then letters, digits and `_`, 128 at most, and no reserved word.
    BadSessionName {
        /// What was given.
        name: String,
    },
    /// A name to drop that no rule can have, for the same reasons. Nothing has changed.
    BadRuleName,
    /// The manager handed the session of this name out by itself.
    NameTaken {
        /// The name.
        name: String,
    },
    /// The transaction has ended: COMMIT or ROLLBACK was run in it as a text.
    Ended,
    /// A journal can't be opened, or a call on its file failed.
    Journal(JournalFault),
    /// The manager keeps a journal, and its rules can't be changed: `skewguard checkpoint` changes those of a file that
    /// is closed.
    Journaled,
    /// The library is another one than this crate was written for.
    OtherLibrary {
        /// The number of its layout.
        layout: u64,
    },
    /// A status that no call of this crate is answered, but by another library.
    Library {
        /// The status of the call.
        status: i32,
    },
}

/// What is wrong with a journal.
#[derive(Clone, Debug, PartialEq, Eq)]
#[non_exhaustive]
pub enum JournalFault {
    /// The system refused a call on the file. Where that was no call that opened it, nothing is answered any more: open
    /// it again. Whether a COMMIT that was answered so was kept is known then.
    File {
        /// Its `errno`, which `std::io::Error::from_raw_os_error` takes.
        errno: i32,
    },
    /// The file does not begin as a journal.
    NoJournal,
    /// It is of other definitions: `skewguard checkpoint` takes these for what it holds.
    OfOthers,
    /// A commit is missing.
    Damaged {
        /// Its number.
        commit: u64,
        /// Where its line begins in the file.
        byte: u64,
    },
    /// A commit is none of these tables.
    NotDue {
        /// Its number.
        commit: u64,
    },
}

impl fmt::Display for JournalFault {
    fn fmt(&self, to: &mut fmt::Formatter<'_>) -> fmt::Result {
        match self {
            JournalFault::File { errno } => std::io::Error::from_raw_os_error(*errno).fmt(to),
            JournalFault::NoJournal => to.write_str("the file is no journal: it does not begin with the line of one"),
            JournalFault::OfOthers => to.write_str("the journal is of other definitions"),
            JournalFault::Damaged { commit, byte } => {
                write!(to, "the journal is damaged at byte {byte}: commit {commit} is missing")
            }
            JournalFault::NotDue { commit } => {
                write!(to, "the journal is damaged: commit {commit} is none of these tables")
            }
        }
    }
}

impl Error {
    /// Whether others were in the way of a COMMIT, so that the transaction may be run again.
    pub fn is_retryable(&self) -> bool {
        matches!(self.fault(), Some(Fault::WriteConflict { .. } | Fault::Dangerous { .. }))
    }

    /// The fault, where the manager refused it.
    pub fn fault(&self) -> Option<&Fault> {
        match self {
            Error::Refused(refusal) => Some(&refusal.fault),
            _ => None,
        }
    }

    /// Whether a transaction has ended by it: a COMMIT that was refused for its rules, for others, or for a full
    /// epoch, or that no disk has taken.
    pub(crate) fn has_ended(&self) -> bool {
        match self {
            Error::Journal(_) => true, // nothing is answered any more
            Error::Refused(refusal) => {
                matches!(refusal.sqlstate.as_deref(), Some("40001" | "40002")) || refusal.fault == Fault::EpochFull
            }
            _ => false,
        }
    }

    /// Whether a COMMIT that is answered so leaves its transaction open: there was no memory, or it could not be kept.
    pub(crate) fn leaves_open(&self) -> bool {
        match self {
            Error::NoMemory => true,
            Error::Refused(refusal) => refusal.fault == Fault::NotKept,
            _ => false,
        }
    }
}

/// What a name is.
const NAMES: &str = "a name is a letter and then letters, digits and _, 128 at most, and no reserved word";

impl std::error::Error for Error {}

impl fmt::Display for Error {
    fn fmt(&self, to: &mut fmt::Formatter<'_>) -> fmt::Result {
        match self {
            Error::Refused(refusal) => refusal.fmt(to),
            Error::NoMemory => to.write_str("no memory is left"),
            Error::ReplyLost => to.write_str("the call was answered, but there was no memory for its reply"),
            Error::WrongCount { wanted, given } => {
                write!(to, "the statement has {wanted} parameters, and {given} values came")
            }
            Error::NumberOutOfRange { parameter } => {
                write!(to, "value {parameter}: it is not from -10^15 to 10^15, as numbers are")
            }
            Error::TextNotPlain { parameter, character } => {
                write!(
                    to,
                    "value {parameter}: its character {character} is a control character, which stands in no text"
                )
            }
            Error::NullNotAllowed { parameter } => {
                write!(to, "value {parameter} may not be NULL there: a condition says IS NULL")
            }
            Error::BadSessionName { name } => write!(to, "{name:?} is no name of a session: {NAMES}"),
            Error::BadRuleName => write!(to, "a name to drop is that of no rule: {NAMES}"),
            Error::Ended => to.write_str("the transaction has ended"),
            Error::Journal(fault) => fault.fmt(to),
            Error::Journaled => to.write_str("the rules of a journal can't be changed while it is open"),
            Error::NameTaken { name } => write!(to, "the manager handed the session {name} out by itself"),
            Error::OtherLibrary { layout } => {
                write!(to, "the library has the layout {layout}: it is another one than this crate was written for")
            }
            Error::Library { status } => write!(to, "the library answers status {status}"),
        }
    }
}

impl fmt::Display for Refusal {
    fn fmt(&self, to: &mut fmt::Formatter<'_>) -> fmt::Result {
        self.say(to)?;
        match self.explanation.as_str() {
            "" => Ok(()),
            shown => write!(to, "\n{shown}"),
        }
    }
}

impl Refusal {
    /// What is wrong, in a few words.
    fn say(&self, to: &mut fmt::Formatter<'_>) -> fmt::Result {
        match &self.fault {
            Fault::Syntax { line, column } => write!(to, "syntax error at line {line}, column {column}"),
            Fault::TooDeep { line, column } => {
                write!(to, "parentheses nest too deep at line {line}, column {column}")
            }
            Fault::UnknownName { name } => write!(to, "nothing has the name {name}"),
            Fault::NameTaken { name } => write!(to, "the name {name} is taken"),
            Fault::TypeMismatch => to.write_str("values and columns differ in number or type"),
            Fault::NullNotAllowed { column } => write!(to, "{column} takes no NULL"),
            Fault::DuplicateKey { table, key } => write!(to, "{table} has a row under the key {key} already"),
            Fault::KeyUpdate { column } => write!(to, "{column} is a key, which no UPDATE may set"),
            Fault::OutOfRange { column } => write!(to, "the value is beyond the range, or the length, of {column}"),
            Fault::RuleViolated { rule, root } => write!(to, "{rule} would be false at {root}"),
            Fault::NotDeferrable { rule } => write!(to, "{rule} is not DEFERRABLE"),
            Fault::WriteConflict { table, key, commit } => {
                write!(to, "commit {commit} has changed the row {key} of {table} since this transaction began")
            }
            Fault::Dangerous { reader, pivot, writer } => {
                let (reader, pivot, writer) = (party(*reader), party(*pivot), party(*writer));
                write!(
                    to,
                    "there would be no serial order: {reader} read what {pivot} changed, and {pivot} read what \
                     {writer} changed, each without seeing the change"
                )
            }
            Fault::NoTransaction => to.write_str("no transaction is open in this session"),
            Fault::TransactionOpen => to.write_str("a transaction is open"),
            Fault::EpochFull => to.write_str("the epoch holds as many commits as it may: begin another by checkpoint"),
            Fault::TooWide => to.write_str("arithmetic could pass the range in which it is exact"),
            Fault::OutsideClass => {
                to.write_str("this is outside the class of assertions and conditions that are taken")
            }
            Fault::FalseAtCreation { rule, root } => {
                write!(to, "{rule} is false at {root} on the rows that are there")
            }
            Fault::AttributeClash { rule } => write!(to, "the attributes of {rule} exclude each other"),
            Fault::ReadOnlyTransaction => to.write_str("the transaction is READ ONLY"),
            Fault::TooManySessions => to.write_str("too many transactions are open at once: there may be 256"),
            Fault::NotKept => to.write_str("the commit could not be kept in the journal: its transaction is open"),
            Fault::Other => to.write_str(&self.report),
        }
    }
}

impl fmt::Display for Root {
    fn fmt(&self, to: &mut fmt::Formatter<'_>) -> fmt::Result {
        match self {
            Root::All => to.write_str("ALL"),
            Root::Of(value) => value.fmt(to),
        }
    }
}

fn party(number: Option<u64>) -> String {
    number.map_or_else(|| "this transaction".to_owned(), |it| format!("commit {it}"))
}

impl Fault {
    pub(crate) fn syntax(text: &str, offset: usize) -> Fault {
        let (line, column) = place_of(text, offset);
        Fault::Syntax { line, column }
    }

    pub(crate) fn too_deep(text: &str, offset: usize) -> Fault {
        let (line, column) = place_of(text, offset);
        Fault::TooDeep { line, column }
    }

    /// Whether it lies in a text by itself, or beside the definitions, so that it can be shown there.
    pub(crate) fn is_of_text(&self) -> bool {
        matches!(
            self,
            Fault::Syntax { .. }
                | Fault::TooDeep { .. }
                | Fault::UnknownName { .. }
                | Fault::NameTaken { .. }
                | Fault::TypeMismatch
                | Fault::KeyUpdate { .. }
                | Fault::NotDeferrable { .. }
                | Fault::TooWide
                | Fault::OutsideClass
                | Fault::AttributeClash { .. }
        )
    }
}

/// Line and column of an offset in bytes, each from 1.
fn place_of(text: &str, offset: usize) -> (usize, usize) {
    let mut at = offset.min(text.len());
    while !text.is_char_boundary(at) {
        at -= 1;
    }
    let before = &text[..at];
    let front = before.rsplit('\n').next().unwrap_or_default();
    (before.matches('\n').count() + 1, front.chars().count() + 1)
}

#[cfg(test)]
mod tests {
    use super::{place_of, Error, Fault, Refusal};

    fn refused(number: u32, sqlstate: &str, fault: Fault) -> Error {
        Error::Refused(Box::new(Refusal {
            number,
            sqlstate: Some(sqlstate.to_string()),
            fault,
            report: String::new(),
            explanation: String::new(),
        }))
    }

    #[test]
    fn a_commit_that_was_not_kept_leaves_its_transaction_open() {
        let not_kept = refused(25, "58030", Fault::NotKept);
        assert!(not_kept.leaves_open() && !not_kept.has_ended());
        assert!(Error::NoMemory.leaves_open());
        let full = refused(17, "54000", Fault::EpochFull);
        assert!(full.has_ended() && !full.leaves_open());
    }

    #[test]
    fn places_are_counted_in_characters() {
        assert_eq!(place_of("SELEKT", 0), (1, 1));
        assert_eq!(place_of("A\n\tB é C\nD", 8), (2, 6));
        assert_eq!(place_of("", 0), (1, 1));
    }
}

/// A statement that was not done, in a call that runs several.
#[derive(Clone, Debug, PartialEq, Eq)]
pub struct StepFault {
    /// Which it is, from 0; none where it is no statement that was refused, as COMMIT.
    pub place: Option<usize>,
    /// The answers to the statements before it.
    pub answers: Vec<Answer>,
    /// Why.
    pub error: Error,
}

impl fmt::Display for StepFault {
    fn fmt(&self, to: &mut fmt::Formatter<'_>) -> fmt::Result {
        match self.place {
            Some(place) => write!(to, "statement {place}: {}", self.error),
            None => self.error.fmt(to),
        }
    }
}

impl std::error::Error for StepFault {}

/// A fault of no statement.
impl From<Error> for StepFault {
    fn from(error: Error) -> StepFault {
        StepFault { place: None, answers: Vec::new(), error }
    }
}

/// The error alone.
impl From<StepFault> for Error {
    fn from(fault: StepFault) -> Error {
        fault.error
    }
}
