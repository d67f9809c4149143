//! What a statement was answered.

use std::ops::Index;
use std::slice::Iter;

use crate::layout::Reader;
use crate::numbers::kind;
use crate::values::Value;

/// The answer to a statement.
#[derive(Clone, Debug, PartialEq, Eq)]
#[non_exhaustive]
pub enum Answer {
    /// An INSERT put so many rows in.
    Inserted(u64),
    /// An UPDATE set so many rows.
    Updated(u64),
    /// A DELETE took so many rows out.
    Deleted(u64),
    /// The rows of a SELECT.
    Rows(Rows),
    /// SET CONSTRAINTS set modes.
    ModesSet,
    /// How an assertion stands on the transaction's own tables; none for unknown.
    Verdict(Option<bool>),
    /// The text was COMMIT, and the transaction has ended with this number.
    Committed(u64),
    /// The text was ROLLBACK, and the transaction has ended.
    RolledBack,
}

impl Answer {
    pub(crate) fn of(reply: &[u8]) -> Answer {
        let kind = reply.first().copied().unwrap_or_default();
        Answer::read(kind, &mut Reader::new(reply))
    }

    /// The answer in a reply of this kind, which the reader leaves behind it.
    pub(crate) fn read(kind: u8, reader: &mut Reader<'_>) -> Answer {
        match kind {
            kind::INSERTED => Answer::Inserted(reader.number()),
            kind::UPDATED => Answer::Updated(reader.number()),
            kind::DELETED => Answer::Deleted(reader.number()),
            kind::ROWS => Answer::Rows(Rows::of(reader)),
            kind::VERDICT => Answer::Verdict(match reader.number() {
                0 => Some(false),
                1 => Some(true),
                _ => None,
            }),
            kind::COMMITTED => Answer::Committed(reader.number()),
            kind::ROLLED_BACK => Answer::RolledBack,
            _ => Answer::ModesSet,
        }
    }

    pub(crate) fn has_ended(&self) -> bool {
        matches!(self, Answer::Committed(_) | Answer::RolledBack)
    }

    /// How many rows an INSERT, UPDATE or DELETE changed, or a SELECT lists; 0 for other statements.
    pub fn count(&self) -> u64 {
        match self {
            Answer::Inserted(count) | Answer::Updated(count) | Answer::Deleted(count) => *count,
            Answer::Rows(rows) => rows.len() as u64,
            _ => 0,
        }
    }

    /// The rows of a SELECT; none for other statements.
    pub fn rows(&self) -> Option<&Rows> {
        match self {
            Answer::Rows(rows) => Some(rows),
            _ => None,
        }
    }

    /// The rows of a SELECT, without a copy; none for other statements.
    pub fn into_rows(self) -> Option<Rows> {
        match self {
            Answer::Rows(rows) => Some(rows),
            _ => None,
        }
    }
}

/// The rows of a SELECT, in the order of their keys. Each has a value for each column, in the order of the columns.
#[derive(Clone, Debug, PartialEq, Eq)]
pub struct Rows {
    columns: Vec<String>,
    rows: Vec<Vec<Value>>,
}

impl Rows {
    fn of(reader: &mut Reader<'_>) -> Rows {
        let columns: Vec<String> = (0..reader.number()).map(|_| reader.text()).collect();
        let rows = (0..reader.number()).map(|_| columns.iter().map(|_| reader.value()).collect()).collect();
        Rows { columns, rows }
    }

    /// The names of the columns: the one that AS gives; else that of the table's column, or `COUNT`, `SUM`, `MIN` or
    /// `MAX` of a set function; else `?column?`.
    pub fn columns(&self) -> &[String] {
        &self.columns
    }

    /// The place of a column, in any case of letters; the first, where it stands twice.
    pub fn column(&self, name: &str) -> Option<usize> {
        self.columns.iter().position(|it| it.eq_ignore_ascii_case(name))
    }

    /// How many rows there are.
    pub fn len(&self) -> usize {
        self.rows.len()
    }

    /// Whether there is none.
    pub fn is_empty(&self) -> bool {
        self.rows.is_empty()
    }

    /// The rows, from the first on.
    pub fn iter(&self) -> Iter<'_, Vec<Value>> {
        self.rows.iter()
    }

    /// The value of a row and a column, both from 0 and by name; none where there is no such.
    pub fn get(&self, row: usize, column: &str) -> Option<&Value> {
        self.rows.get(row)?.get(self.column(column)?)
    }
}

impl Index<usize> for Rows {
    type Output = [Value];

    fn index(&self, row: usize) -> &[Value] {
        &self.rows[row]
    }
}

impl<'a> IntoIterator for &'a Rows {
    type Item = &'a Vec<Value>;
    type IntoIter = Iter<'a, Vec<Value>>;

    fn into_iter(self) -> Iter<'a, Vec<Value>> {
        self.rows.iter()
    }
}

impl IntoIterator for Rows {
    type Item = Vec<Value>;
    type IntoIter = std::vec::IntoIter<Vec<Value>>;

    fn into_iter(self) -> std::vec::IntoIter<Vec<Value>> {
        self.rows.into_iter()
    }
}
