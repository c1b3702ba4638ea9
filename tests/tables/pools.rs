//! Values of keys that lie close to each other, and how they compare by DynamoDB's rules.
use crate::decimal::compare_numbers;
use crate::words::KINDS;
use dynamo_value::AttributeValue;
use std::alloc::{AllocError, Global};
use std::cmp::Ordering;
use table_keys::{KeyKind, KeyValue, Number, TableError};

/// A value, as the text of a string or of a number, or as bytes.
#[derive(Clone, Copy, Debug)]
pub enum Value {
    S(&'static str),
    N(&'static str),
    B(&'static [u8]),
}

/// How many values of each kind there are.
pub const COUNT: usize = 40;

// In the order of their bytes.
static TEXTS: [&str; 40] = [
    "\0",
    "\0\0",
    "\0\u{10FFFF}",
    "\u{1}",
    " ",
    "0",
    "1",
    "1.0",
    "10",
    "9",
    "A",
    "a",
    "a\0",
    "a\0\0",
    "a\0b",
    "a\u{1}",
    "a ",
    "aa",
    "ab",
    "ab\0",
    "abc",
    "a\u{7F}",
    "a\u{80}",
    "a\u{D7FF}",
    "a\u{D7FF}\0",
    "a\u{D7FF}\u{10FFFF}",
    "a\u{E000}",
    "a\u{E000}\0",
    "a\u{FFFF}",
    "a\u{10000}",
    "a\u{10FFFF}",
    "a\u{10FFFF}\u{10FFFF}",
    "b",
    "\u{7F}",
    "é",
    "\u{D7FF}",
    "\u{E000}",
    "\u{10FFFF}",
    "\u{10FFFF}a",
    "\u{10FFFF}\u{10FFFF}",
];

// In the order of the numbers.
static NUMBERS: [&str; 40] = [
    "-9.9999999999999999999999999999999999999e125",
    "-9.9999999999999999999999999999999999998e125",
    "-1e125",
    "-100000000000000000000000000000000000000",
    "-99999999999999999999999999999999999999",
    "-99999999999999999999999999999999999998",
    "-10",
    "-9.9999999999999999999999999999999999999",
    "-9",
    "-1.0000000000000000000000000000000000001",
    "-1",
    "-0.99999999999999999999999999999999999999",
    "-0.1",
    "-1.0000000000000000000000000000000000001e-130",
    "-1e-130",
    "0",
    "1e-130",
    "1.0000000000000000000000000000000000001e-130",
    "9.9999999999999999999999999999999999999e-130",
    "1e-129",
    "0.09",
    "0.099999999999999999999999999999999999999",
    "0.1",
    "0.10000000000000000000000000000000000001",
    "0.99999999999999999999999999999999999999",
    "1",
    "1.0000000000000000000000000000000000001",
    "1.0000000000000000000000000000000000002",
    "9",
    "9.9999999999999999999999999999999999999",
    "10",
    "10.000000000000000000000000000000000001",
    "12345678901234567890123456789012345678",
    "12345678901234567890123456789012345679",
    "99999999999999999999999999999999999998",
    "99999999999999999999999999999999999999",
    "100000000000000000000000000000000000000",
    "1e125",
    "9.9999999999999999999999999999999999998e125",
    "9.9999999999999999999999999999999999999e125",
];

// Numbers of the pool in another spelling.
static SPELLINGS: [(&str, &str); 10] = [
    ("-10", "-010.00"),
    ("-1", "-1.0"),
    ("-0.1", "-1E-1"),
    ("0", "-0.0"),
    ("0", "0e5"),
    ("1", "1.0"),
    ("1", "+100e-2"),
    ("10", "1e1"),
    ("1e-130", "0.1E-129"),
    ("100000000000000000000000000000000000000", "1e38"),
];

// In the order of their bytes.
static BYTES: [&[u8]; 40] = [
    b"\0",
    b"\0\0",
    b"\0\0\0",
    b"\0\x01",
    b"\0\xFF",
    b"\0\xFF\0",
    b"\x01",
    b"\x01\0",
    b"\x02",
    b"\x02\xFF",
    b"\x03",
    b"0",
    b"10",
    b"9",
    b"a",
    b"a\0",
    b"a\0\0",
    b"a\x01",
    b"ab",
    b"abc",
    b"a\x7F",
    b"a\x80",
    b"a\xED\x9F\xBF",
    b"a\xEE\x80\x80",
    b"a\xFE\xFF",
    b"a\xFF",
    b"a\xFF\0",
    b"a\xFF\xFF",
    b"b",
    b"\x7F",
    b"\x80",
    b"\x80\xFF",
    b"\xC3\xA9",
    b"\xFE",
    b"\xFE\xFF\xFF",
    b"\xFF",
    b"\xFF\0",
    b"\xFF\xFE",
    b"\xFF\xFF",
    b"\xFF\xFF\xFF",
];

/// The value of a kind at a place in its order. After the last comes the empty one, which no table can hold, and of the numbers
/// come those in another spelling.
pub fn pooled(kind: KeyKind, place: usize) -> Value {
    match kind {
        KeyKind::S => Value::S(TEXTS.get(place).copied().unwrap_or("")),
        KeyKind::N => Value::N(match NUMBERS.get(place) {
            Some(text) => *text,
            None => other_spelling(place),
        }),
        KeyKind::B => Value::B(BYTES.get(place).copied().unwrap_or(b"")),
    }
}

fn other_spelling(place: usize) -> &'static str {
    let at = place.saturating_sub(COUNT) % SPELLINGS.len();
    SPELLINGS.get(at).map_or("0", |pair| pair.1)
}

// How two byte strings compare: by the first byte that differs, and where none does the longer one is greater.
fn compare_bytes(bytes: &[u8], other: &[u8]) -> Ordering {
    for (byte, other) in bytes.iter().zip(other.iter()) {
        if *byte < *other {
            return Ordering::Less;
        }
        if *byte > *other {
            return Ordering::Greater;
        }
    }
    bytes.len().cmp(&other.len())
}

impl Value {
    /// The kind.
    pub fn kind(self) -> KeyKind {
        match self {
            Value::S(_) => KeyKind::S,
            Value::N(_) => KeyKind::N,
            Value::B(_) => KeyKind::B,
        }
    }

    /// How two values compare: strings before numbers, and those before byte strings.
    pub fn compare(self, other: Value) -> Ordering {
        match (self, other) {
            (Value::S(text), Value::S(other)) => compare_bytes(text.as_bytes(), other.as_bytes()),
            (Value::N(text), Value::N(other)) => compare_numbers(text, other),
            (Value::B(bytes), Value::B(other)) => compare_bytes(bytes, other),
            (Value::S(_), _) | (_, Value::B(_)) => Ordering::Less,
            _ => Ordering::Greater,
        }
    }

    /// Whether a string or a byte string begins with another of its kind.
    pub fn begins_with(self, prefix: Value) -> bool {
        match (self, prefix) {
            (Value::S(text), Value::S(prefix)) => begins(text.as_bytes(), prefix.as_bytes()),
            (Value::B(bytes), Value::B(prefix)) => begins(bytes, prefix),
            _ => false,
        }
    }

    // The bytes of a string or a byte string.
    fn bytes(self) -> Option<&'static [u8]> {
        match self {
            Value::S(text) => Some(text.as_bytes()),
            Value::N(_) => None,
            Value::B(bytes) => Some(bytes),
        }
    }

    /// Whether this is another string or byte string with a zero byte after it.
    pub fn comes_next_to(self, other: Value) -> bool {
        let (Some(bytes), Some(other)) = (self.bytes(), other.bytes()) else {
            return false;
        };
        match bytes.split_last() {
            Some((last, start)) => *last == 0 && compare_bytes(start, other).is_eq(),
            None => false,
        }
    }

    /// Whether this is the least string or byte string above all that begin with a prefix, whose last byte is below 127.
    pub fn comes_next_to_all_with(self, prefix: Value) -> bool {
        let (Some(bytes), Some(prefix)) = (self.bytes(), prefix.bytes()) else {
            return false;
        };
        match (bytes.split_last(), prefix.split_last()) {
            (Some((last, start)), Some((before, other))) => {
                *last > 0 && *last - 1 == *before && compare_bytes(start, other).is_eq()
            }
            _ => false,
        }
    }

    /// The value of an attribute.
    pub fn attribute(self, alloc: Global) -> Result<AttributeValue, AllocError> {
        Ok(match self {
            Value::S(text) => AttributeValue::S(String::from_str(alloc, text)?),
            Value::N(text) => AttributeValue::N(String::from_str(alloc, text)?),
            Value::B(bytes) => AttributeValue::B(Vec::from_slice(alloc, bytes)?),
        })
    }

    /// The value in a key.
    pub fn key_value(self, alloc: Global) -> Result<KeyValue, TableError> {
        match self {
            Value::S(text) => Ok(KeyValue::S(String::from_str(alloc, text)?)),
            Value::N(text) => match Number::parse(text) {
                Some(number) => Ok(KeyValue::N(number)),
                None => Err(TableError::NotANumber),
            },
            Value::B(bytes) => Ok(KeyValue::B(Vec::from_slice(alloc, bytes)?)),
        }
    }
}

// Whether a byte string begins with another.
fn begins(bytes: &[u8], prefix: &[u8]) -> bool {
    let mut len = 0usize;
    for (byte, other) in bytes.iter().zip(prefix.iter()) {
        if *byte != *other {
            return false;
        }
        len = len.saturating_add(1);
    }
    len == prefix.len()
}

// The first value of a kind that is not below the next one of its pool.
fn unordered(kind: KeyKind) -> Option<Value> {
    for place in 1..COUNT {
        let before = pooled(kind, place.saturating_sub(1));
        if before.compare(pooled(kind, place)).is_ge() {
            return Some(before);
        }
    }
    None
}

/// The first value of a pool that isn't less than the next one, or the first other spelling that isn't equal to its number.
pub fn misplaced() -> Option<Value> {
    for kind in KINDS {
        if let Some(value) = unordered(kind) {
            return Some(value);
        }
    }
    for (text, other) in SPELLINGS {
        if Value::N(text).compare(Value::N(other)).is_ne() {
            return Some(Value::N(other));
        }
    }
    None
}
