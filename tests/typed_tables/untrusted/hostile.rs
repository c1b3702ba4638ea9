//! Values that are made to cost much or to be misread, each through every way in.
use crate::untrusted::names;
use dynamo_json::DynamoJson;
use dynamo_value::{AttributeValue, Item};
use exports::Lines;
use serde_json::Value;
use std::alloc::{AllocError, Global};
use std::fmt::Display;
use std::hash::BuildHasher;
use std::process::Abort;
use std::test::Fail;
use table_keys::{KeyAttribute, KeyKind, KeySchema};
use table_store::create_in_memory_file;

// DynamoDB JSON of an attribute value, and how what each way in gives begins: its text and its JSON value,
// a line that has it, and a table in a database of pages.
#[derive(Drop)]
struct Case {
    name: &'static str,
    text: String,
    wanted: [&'static str; 3],
}

// That a call read, or the fault.
fn told<T, E: Display>(alloc: Global, answer: &Result<T, E>) -> Result<String, AllocError> {
    match answer {
        Ok(_) => String::from_str(alloc, "read"),
        Err(error) => error.to_string(alloc),
    }
}

fn list_of(alloc: Global, levels: usize) -> Result<String, AllocError> {
    let open = "{\"L\":[".repeat(alloc, levels)?;
    let close = "]}".repeat(alloc, levels)?;
    format!(in alloc; "{open}{{\"S\":\"\"}}{close}")
}

// The attributes of these names, each with this value, in an `M`.
fn map_of(alloc: Global, names: &[String], value: &str) -> Result<String, AllocError> {
    let mut text = String::from_str(alloc, "{\"M\":{")?;
    for (at, name) in names.iter().enumerate() {
        let comma = if at == 0 { "" } else { "," };
        text.push_str(&format!(in alloc; "{comma}\"{name}\":{value}")?)?;
    }
    text.push_str("}}")?;
    Ok(text)
}

fn numbered(alloc: Global, count: u32, open: &str, close: &str) -> Result<String, AllocError> {
    let mut text = String::from_str(alloc, open)?;
    for at in 0..count {
        let comma = if at == 0 { "" } else { "," };
        text.push_str(&format!(in alloc; "{comma}\"{at}\"")?)?;
    }
    text.push_str(close)?;
    Ok(text)
}

fn cases(alloc: Global) -> Result<Vec<Case>, AllocError> {
    let digits = "9".repeat(alloc, 4_000)?;
    let escapes = "\\u0041".repeat(alloc, 1_000)?;
    let maps = "{\"M\":{\"a\":{\"NULL\":true}}},".repeat(alloc, 300)?;
    let long = "x".repeat(alloc, 4_000)?;
    let read = |name, text| Case {
        name,
        text,
        wanted: ["read", "read", "read"],
    };
    let mut cases = Vec::new(alloc);
    let one_hash = names::names(alloc, 6)?;
    cases.push(read("names of one hash", map_of(alloc, &one_hash, "{\"NULL\":true}")?))?;
    cases.push(read("small maps", format!(in alloc; "{{\"L\":[{maps}{{\"S\":\"\"}}]}}")?))?;
    cases.push(read("a string set", numbered(alloc, 800, "{\"SS\":[", "]}")?))?;
    cases.push(read("a number set", numbered(alloc, 800, "{\"NS\":[", "]}")?))?;
    cases.push(read("a long number", format!(in alloc; "{{\"N\":\"{digits}\"}}")?))?;
    cases.push(read("escapes", format!(in alloc; "{{\"S\":\"{escapes}\"}}")?))?;
    cases.push(read("NUL", String::from_str(alloc, "{\"S\":\"\\u0000\"}")?))?;
    cases.push(read("32 levels", list_of(alloc, 30)?))?;
    cases.push(Case {
        name: "127 levels of JSON",
        text: list_of(alloc, 63)?,
        wanted: ["read", "it is not JSON", "the item nests"],
    })?;
    cases.push(Case {
        name: "129 levels of JSON",
        text: list_of(alloc, 64)?,
        wanted: ["invalid JSON at line 1 column ", "it is not JSON", "-"],
    })?;
    cases.push(Case {
        name: "a fault at the end",
        text: format!(in alloc; "{{\"L\":[{{\"S\":\"{long}\"}},{{\"X\":1}}]}}")?,
        wanted: [UNKNOWN, "v[1]: The key 'X' is not a known DynamoDB prefix", "-"],
    })?;
    cases.push(Case {
        name: "no end",
        text: format!(in alloc; "{{\"S\":\"{long}")?,
        wanted: ["EOF while parsing at line 1 column ", "it is not JSON", "-"],
    })?;
    cases.push(Case {
        name: "a byte order mark",
        text: String::from_str(alloc, "\u{feff}{\"S\":\"\"}")?,
        wanted: ["invalid JSON at line 1 column ", "it is not JSON", "-"],
    })?;
    Ok(cases)
}

const UNKNOWN: &str = "The key 'X' is not a known DynamoDB prefix";

// What a text gives, what its JSON value gives, what a line with it gives, and what a table gives that has
// the item of the first; `-` if there is none.
fn through_each_way(alloc: Global, text: &str) -> anyhow::Result<[String; 4]> {
    let value = AttributeValue::from_json_text(alloc, text);
    let by_json = match Value::from_str(alloc, text) {
        Ok(json) => {
            let again = AttributeValue::from_json(alloc, &json);
            told(alloc, &again)?
        }
        Err(error) => error.to_string(alloc)?,
    };
    let line = format!(in alloc; "{{\"Item\":{{\"v\":{text}}}}}\n")?;
    let in_line = match Lines::with_limit(alloc, line.as_bytes(), line.len()).next_line() {
        Some(Ok(line)) => match (&value, line.item.get("v")) {
            (Ok(value), Some(read)) if value == read => String::from_str(alloc, "read")?,
            _ => String::from_str(alloc, "another value")?,
        },
        Some(Err(broken)) => broken.fault.to_string(alloc)?,
        None => String::from_str(alloc, "no line")?,
    };
    let by_text = told(alloc, &value)?;
    let in_table = match value {
        Ok(value) => through_table(alloc, value)?,
        Err(_) => String::from_str(alloc, "-")?,
    };
    Ok([by_text, by_json, in_line, in_table])
}

// Puts an item with the value into a table, and gets it.
fn through_table(alloc: Global, value: AttributeValue) -> anyhow::Result<String> {
    let partition = KeyAttribute {
        name: String::from_str(alloc, "id")?,
        kind: KeyKind::S,
    };
    let schema = KeySchema {
        partition,
        sort: None,
    };
    let mut table = create_in_memory_file(alloc, "values", schema)?;
    let mut item = Item::new(alloc);
    let id = AttributeValue::S(String::from_str(alloc, "k")?);
    item.inner_mut().insert(String::from_str(alloc, "id")?, id)?;
    item.inner_mut().insert(String::from_str(alloc, "v")?, value)?;
    let key = match table.put_returning_key(&item) {
        Ok(key) => key,
        Err(error) => return Ok(error.to_string(alloc)?),
    };
    Ok(match table.get(&key)? {
        Some(read) if read == item => String::from_str(alloc, "read")?,
        _ => String::from_str(alloc, "another item")?,
    })
}

// The first of the cases that gives anything else than it has to.
fn first_wrong(alloc: Global) -> anyhow::Result<Option<String>> {
    for Case { name, text, wanted } in cases(alloc)? {
        let given = through_each_way(alloc, text.as_str())?;
        let [by_text, in_line, in_table] = wanted;
        for (given, wanted) in given.iter().zip([by_text, by_text, in_line, in_table]) {
            if !given.starts_with(wanted) {
                return Ok(Some(format!(in alloc; "{name}: {given}, not {wanted}")?));
            }
        }
    }
    Ok(None)
}

#[test]
fn each_case_gives_its_value_or_its_fault_by_every_way(rt: HostRuntime) {
    match first_wrong(rt.alloc()) {
        Ok(None) => {}
        Ok(Some(wrong)) => assert!(rt; false, "{wrong}"),
        Err(error) => assert!(rt; false, "{error}"),
    }
}

// The names differ, and a map has each of them.
#[test]
fn names_of_one_hash_are_names_of_their_own(rt: HostRuntime) -> Result<(), Fail> {
    let alloc = rt.alloc();
    let names = names::names(alloc, 6)?;
    let text = map_of(alloc, &names, "{\"NULL\":true}")?;
    let value = AttributeValue::from_json_text(alloc, text.as_str());
    assert!(rt; matches!(&value, Ok(AttributeValue::M(map)) if map.len() == 64));
    let Ok(AttributeValue::M(map)) = value else {
        return Ok(());
    };
    let hashes = map.hasher();
    let first = hashes.hash_one(names[0].as_str());
    for name in &names {
        assert!(rt; map.contains_key(name.as_str()));
        assert!(rt; hashes.hash_one(name.as_str()) == first);
    }
    Ok(())
}
