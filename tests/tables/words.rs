//! The words of keys: twelve of each kind, in the order in which a table has them. A word after the twelfth is no key's.
use dynamo_value::AttributeValue;
use std::alloc::{AllocError, Global};
use table_keys::{KeyKind, KeyValue, Number, TableError};

/// How many words of each kind there are.
pub const COUNT: usize = 12;

/// The kinds of keys.
pub const KINDS: [KeyKind; 3] = [KeyKind::S, KeyKind::N, KeyKind::B];

/// How many spellings a number has.
pub const SPELLINGS: usize = 3;

static TEXTS: [&str; 12] = [
    "!", "'", "10", "9", "A", "a", "a\0", "ab", "abc", "é", "～", "😀",
];

static NUMBERS: [[&str; 3]; 12] = [
    ["-1e125", "-10E124", "-0.1e126"],
    ["-10", "-1e1", "-010.0"],
    ["-9.5", "-95e-1", "-9.50"],
    ["-0.1", "-1E-1", "-.1"],
    ["0", "-0.0", "0e5"],
    ["1e-130", "0.1e-129", "10E-131"],
    ["0.09", "9e-2", "+.090"],
    ["0.1", "1e-1", "100e-3"],
    ["9", "9.00", "+9"],
    ["10", "1e1", "0010"],
    [
        "99999999999999999999999999999999999999",
        "9999999999999999999999999999999999999.9e1",
        "099999999999999999999999999999999999999.0",
    ],
    ["1e125", "10E124", "+0.1e126"],
];

static BYTES: [&[u8]; 12] = [
    b"\0",
    b"\0\0",
    b"\0\x01",
    b"\x01",
    b"0",
    b"a",
    b"ab",
    b"b",
    b"\x7f",
    b"\x80",
    b"\xff",
    b"\xff\xff",
];

/// A word of a kind, at a place, in a spelling.
#[derive(Clone, Copy, Debug)]
pub struct Word {
    pub kind: KeyKind,
    pub place: usize,
    pub spelling: usize,
}

impl Word {
    fn text(self) -> &'static str {
        TEXTS.get(self.place).copied().unwrap_or("")
    }

    fn number(self) -> &'static str {
        match NUMBERS.get(self.place) {
            Some(spellings) => spellings.get(self.spelling).copied().unwrap_or(""),
            None => "",
        }
    }

    fn bytes(self) -> &'static [u8] {
        match BYTES.get(self.place) {
            Some(bytes) => *bytes,
            None => b"",
        }
    }

    /// The value of an attribute.
    pub fn attribute(self, alloc: Global) -> Result<AttributeValue, AllocError> {
        Ok(match self.kind {
            KeyKind::S => AttributeValue::S(String::from_str(alloc, self.text())?),
            KeyKind::N => AttributeValue::N(String::from_str(alloc, self.number())?),
            KeyKind::B => AttributeValue::B(Vec::from_slice(alloc, self.bytes())?),
        })
    }

    /// The value in a key.
    pub fn key_value(self, alloc: Global) -> Result<KeyValue, TableError> {
        match self.kind {
            KeyKind::S => Ok(KeyValue::S(String::from_str(alloc, self.text())?)),
            KeyKind::N => Number::parse(self.number())
                .map(KeyValue::N)
                .ok_or(TableError::NotANumber),
            KeyKind::B => Ok(KeyValue::B(Vec::from_slice(alloc, self.bytes())?)),
        }
    }

    /// Why no key has the word, where none has.
    pub fn refusal(self) -> Option<TableError> {
        if self.place < COUNT {
            return None;
        }
        match self.kind {
            KeyKind::N => Some(TableError::NotANumber),
            _ => Some(TableError::Empty),
        }
    }

    /// Whether a text or a byte string begins with another of its kind.
    pub fn begins_with(self, prefix: Word) -> bool {
        match self.kind {
            KeyKind::S => { self.text().as_bytes().starts_with(prefix.text().as_bytes()) }
            KeyKind::N => false,
            KeyKind::B => self.bytes().starts_with(prefix.bytes()),
        }
    }
}
