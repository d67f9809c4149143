//! The bytes of requests and replies, as `skewguard.h` lays them out.

use crate::errors::{Error, Fault, JournalFault, Refusal, Root};
use crate::numbers::{kind, value_kind};
use crate::values::Value;

pub fn add_number(request: &mut Vec<u8>, number: u64) {
    request.extend_from_slice(&number.to_le_bytes());
}

pub fn add_text(request: &mut Vec<u8>, text: &str) {
    add_number(request, text.len() as u64);
    request.extend_from_slice(text.as_bytes());
}

pub fn add_value(request: &mut Vec<u8>, value: &Value) {
    match value {
        Value::Null => request.push(value_kind::NULL),
        Value::Int(number) => add_number_value(request, *number),
        // (it is past the range of parameters in either case, and the library says so)
        Value::Numeric(number) => add_number_value(request, i64::try_from(*number).unwrap_or(i64::MAX)),
        Value::Text(text) => add_text_value(request, text),
    }
}

fn add_number_value(request: &mut Vec<u8>, number: i64) {
    request.push(value_kind::NUMBER);
    request.extend_from_slice(&number.to_le_bytes());
}

pub fn add_text_value(request: &mut Vec<u8>, text: &str) {
    request.push(value_kind::CHARACTERS);
    add_text(request, text);
}

/// Reads a reply from front to back. Past its end it gives zeros, and stays there.
pub struct Reader<'a> {
    bytes: &'a [u8],
}

impl<'a> Reader<'a> {
    /// A reader of what stands behind the kind.
    pub fn new(reply: &'a [u8]) -> Reader<'a> {
        Reader { bytes: reply.get(1..).unwrap_or_default() }
    }

    /// The reply that comes next, of several, and all behind it.
    pub fn rest(&self) -> &'a [u8] {
        self.bytes
    }

    /// The kind of the reply that comes next.
    pub fn kind(&mut self) -> u8 {
        self.take(1).first().copied().unwrap_or(kind::NOTHING)
    }

    fn take(&mut self, length: usize) -> &'a [u8] {
        let (front, rest) = self.bytes.split_at(length.min(self.bytes.len()));
        self.bytes = rest;
        front
    }

    pub fn number(&mut self) -> u64 {
        let mut bytes = [0; 8];
        let found = self.take(8);
        bytes[..found.len()].copy_from_slice(found);
        u64::from_le_bytes(bytes)
    }

    pub fn text(&mut self) -> String {
        let length = usize::try_from(self.number()).unwrap_or(usize::MAX);
        String::from_utf8_lossy(self.take(length)).into_owned()
    }

    pub fn value(&mut self) -> Value {
        match self.root() {
            Some(Root::Of(value)) => value,
            _ => Value::Null,
        }
    }

    /// A root or a key; none where there is none.
    fn root(&mut self) -> Option<Root> {
        match self.take(1) {
            [value_kind::NULL] => Some(Root::Of(Value::Null)),
            [value_kind::NUMBER] => Some(Root::Of(Value::Int(self.number() as i64))),
            [value_kind::CHARACTERS] => Some(Root::Of(Value::Text(self.text()))),
            [value_kind::ALL] => Some(Root::All),
            // (a number of the library has 128 bits at most)
            [value_kind::NUMERIC] => self.text().parse().ok().map(|number| Root::Of(Value::Numeric(number))),
            _ => None,
        }
    }
}

/// The error of a refusal, with the place of a fault in its text.
pub fn refusal(reply: &[u8], text: &str) -> Error {
    let mut reader = Reader::new(reply);
    let number = reader.number() as u32;
    let sqlstate = reader.text();
    let (name, root) = (reader.text(), reader.root());
    let (commit, first, pivot, last) = (reader.number(), reader.number(), reader.number(), reader.number());
    let offset = usize::try_from(reader.number()).unwrap_or(usize::MAX);
    let report = reader.text().trim_end().to_owned();
    let key = || match &root {
        Some(Root::Of(value)) => value.clone(),
        _ => Value::Null,
    };
    let place = || root.clone().unwrap_or(Root::All);
    let party = |number: u64| (number != 0).then_some(number);
    let fault = match number {
        1 => return Error::NoMemory,
        2 => Fault::syntax(text, offset),
        3 => Fault::UnknownName { name },
        4 => Fault::NameTaken { name },
        5 => Fault::TypeMismatch,
        6 => Fault::NullNotAllowed { column: name },
        7 => Fault::DuplicateKey { table: name, key: key() },
        8 => Fault::KeyUpdate { column: name },
        9 => Fault::OutOfRange { column: name },
        10 => Fault::RuleViolated { rule: name, root: place() },
        11 => Fault::NotDeferrable { rule: name },
        12 => Fault::WriteConflict { table: name, key: key(), commit },
        13 => Fault::Dangerous { reader: party(first), pivot: party(pivot), writer: party(last) },
        14 => Fault::NoTransaction,
        15 => Fault::TransactionOpen,
        17 => Fault::EpochFull,
        18 => Fault::TooWide,
        19 => Fault::too_deep(text, offset),
        20 => Fault::OutsideClass,
        21 => Fault::FalseAtCreation { rule: name, root: place() },
        22 => Fault::AttributeClash { rule: name },
        23 => Fault::ReadOnlyTransaction,
        24 => Fault::TooManySessions,
        25 => Fault::NotKept,
        _ => Fault::Other,
    };
    let sqlstate = (!sqlstate.is_empty()).then_some(sqlstate);
    Error::Refused(Box::new(Refusal { number, sqlstate, fault, report, explanation: String::new() }))
}

/// The fault of a journal that was not opened, by the bytes that say it.
pub fn journal_fault(reply: &[u8]) -> JournalFault {
    let mut reader = Reader::new(reply);
    let (reason, commit, byte) = (reader.number(), reader.number(), reader.number());
    match reason {
        2 => JournalFault::OfOthers,
        3 => JournalFault::Damaged { commit, byte },
        4 => JournalFault::NotDue { commit },
        _ => JournalFault::NoJournal,
    }
}
