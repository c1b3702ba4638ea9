//! Values, items and keys by words: `n:1.0`, `s:text` and `b:bytes` are values, any other word is none.
use dynamo_value::{AttributeValue, Item};
use std::alloc::{AllocError, Global};
use table_memory::{KeyAttribute, KeyKind, KeySchema, KeyValue, Number, TableError};

/// The value of a word.
pub fn value(alloc: Global, word: &str) -> Result<Option<AttributeValue>, AllocError> {
    match word.split_once(':') {
        Some(("n", text)) => Ok(Some(AttributeValue::N(String::from_str(alloc, text)?))),
        Some(("s", text)) => Ok(Some(AttributeValue::S(String::from_str(alloc, text)?))),
        Some(("b", text)) => {
            let bytes = Vec::from_slice(alloc, text.as_bytes())?;
            Ok(Some(AttributeValue::B(bytes)))
        }
        _ => Ok(None),
    }
}

/// The value of a word in a key.
pub fn key_value(alloc: Global, word: &str) -> Result<KeyValue, TableError> {
    match word.split_once(':') {
        Some(("n", text)) => match Number::parse(text) {
            Some(number) => Ok(KeyValue::N(number)),
            None => Err(TableError::NotANumber),
        },
        Some(("s", text)) => Ok(KeyValue::S(String::from_str(alloc, text)?)),
        Some(("b", text)) => Ok(KeyValue::B(Vec::from_slice(alloc, text.as_bytes())?)),
        _ => Err(TableError::WrongKind),
    }
}

fn set(alloc: Global, item: &mut Item, name: &str, word: &str) -> Result<(), AllocError> {
    if let Some(value) = value(alloc, word)? {
        let name = String::from_str(alloc, name)?;
        drop(item.inner_mut().insert(name, value)?);
    }
    Ok(())
}

/// The item of a reading: its station, its time and a note.
pub fn reading(alloc: Global, station: &str, at: &str, note: &str) -> Result<Item, AllocError> {
    let mut item = Item::new(alloc);
    set(alloc, &mut item, "station", station)?;
    set(alloc, &mut item, "at", at)?;
    set(alloc, &mut item, "note", note)?;
    Ok(item)
}

/// The text of an item's note, empty where there is none.
pub fn note(item: &Item) -> &str {
    match item.get("note") {
        Some(AttributeValue::S(note)) => note.as_str(),
        _ => "",
    }
}

fn attribute(alloc: Global, name: &str, kind: KeyKind) -> Result<KeyAttribute, AllocError> {
    Ok(KeyAttribute {
        name: String::from_str(alloc, name)?,
        kind,
    })
}

/// The keys of readings: `station`, a text, and `at`, of the kind of a word's value.
pub fn schema(alloc: Global, kind: &str) -> Result<KeySchema, AllocError> {
    let kind = match kind {
        "n:" => KeyKind::N,
        "b:" => KeyKind::B,
        _ => KeyKind::S,
    };
    let partition = attribute(alloc, "station", KeyKind::S)?;
    Ok(KeySchema {
        partition,
        sort: Some(attribute(alloc, "at", kind)?),
    })
}
