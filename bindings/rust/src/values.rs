//! What stands in a table.

use std::cmp::Ordering;
use std::fmt;

/// A value of a row, or of a parameter. NULL comes before all numbers, and these before all texts.
#[derive(Clone, Debug, PartialEq, Eq, Hash)]
pub enum Value {
    /// NULL.
    Null,
    /// A whole number: in tables and of parameters from -10^15 to 10^15, of a SELECT any of 64 bits.
    Int(i64),
    /// A whole number that passes 64 bits, as a sum or a product that a SELECT lists may. No parameter takes one.
    Numeric(i128),
    /// A text, without control characters of ASCII.
    Text(String),
}

impl Value {
    /// The number, if it is one of 64 bits.
    pub fn as_int(&self) -> Option<i64> {
        match self {
            Value::Int(number) => Some(*number),
            _ => None,
        }
    }

    /// The number, if it is one of whatever size.
    pub fn as_i128(&self) -> Option<i128> {
        match self {
            Value::Int(number) => Some((*number).into()),
            Value::Numeric(number) => Some(*number),
            _ => None,
        }
    }

    /// The text, if it is one.
    pub fn as_text(&self) -> Option<&str> {
        match self {
            Value::Text(text) => Some(text),
            _ => None,
        }
    }
}

impl Ord for Value {
    fn cmp(&self, other: &Value) -> Ordering {
        match (self.as_text(), other.as_text()) {
            (None, None) => {
                // (a number that is of both kinds is two values)
                let is_wide = |value: &Value| matches!(value, Value::Numeric(_));
                self.as_i128().cmp(&other.as_i128()).then(is_wide(self).cmp(&is_wide(other)))
            }
            (text, other) => text.cmp(&other),
        }
    }
}

impl PartialOrd for Value {
    fn partial_cmp(&self, other: &Value) -> Option<Ordering> {
        Some(self.cmp(other))
    }
}

/// As the report writes it: `NULL`, `7`, `'O''HARA'`.
impl fmt::Display for Value {
    fn fmt(&self, to: &mut fmt::Formatter<'_>) -> fmt::Result {
        match self {
            Value::Null => to.write_str("NULL"),
            Value::Int(number) => number.fmt(to),
            Value::Numeric(number) => number.fmt(to),
            Value::Text(text) => write!(to, "'{}'", text.replace('\'', "''")),
        }
    }
}

impl From<i64> for Value {
    fn from(number: i64) -> Value {
        Value::Int(number)
    }
}

impl From<i32> for Value {
    fn from(number: i32) -> Value {
        Value::Int(number.into())
    }
}

impl From<u32> for Value {
    fn from(number: u32) -> Value {
        Value::Int(number.into())
    }
}

impl From<&str> for Value {
    fn from(text: &str) -> Value {
        Value::Text(text.to_owned())
    }
}

impl From<String> for Value {
    fn from(text: String) -> Value {
        Value::Text(text)
    }
}

impl From<&String> for Value {
    fn from(text: &String) -> Value {
        Value::Text(text.clone())
    }
}

impl<T: Into<Value>> From<Option<T>> for Value {
    fn from(value: Option<T>) -> Value {
        value.map_or(Value::Null, Into::into)
    }
}

/// The values of a statement's parameters: `values![7, "KIM", Value::Null]` is an array of [`Value`]s.
///
/// ```
/// use skewguard::{values, Value};
///
/// assert_eq!(values![7, "KIM", None::<i64>], [Value::Int(7), Value::Text("KIM".into()), Value::Null]);
/// let none: [Value; 0] = values![];
/// # let _ = none;
/// ```
///
/// Truth values and fractions are none that a table holds, and do not compile:
///
/// ```compile_fail
/// let _ = skewguard::values![true];
/// ```
///
/// ```compile_fail
/// let _ = skewguard::values![1.5];
/// ```
#[macro_export]
macro_rules! values {
    ($($value:expr),* $(,)?) => {
        [$($crate::Value::from($value)),*]
    };
}
