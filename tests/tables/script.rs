//! A table that follows a script, line by line. Spaces separate the words of a line.
use crate::values::{key_value, note, reading, schema};
use dynamo_value::Item;
use std::alloc::{AllocError, Global};
use table_memory::{Condition, Key, KeyValue, Query, SortCondition, Table, TableError};

/// The word of a line at a place, empty where the line has fewer.
fn word(line: &str, place: usize) -> &str {
    line.split(' ').nth(place).unwrap_or("")
}

/// The table without items whose times are of the kind of a word's value.
pub fn table(alloc: Global, kind: &str) -> Result<Table, AllocError> {
    Ok(Table::new(alloc, schema(alloc, kind)?))
}

/// What a line's call answers: the note of an item, the notes of several, or a count.
pub fn answer(alloc: Global, table: &mut Table, line: &str) -> Result<String, TableError> {
    match word(line, 0) {
        "put" => put(alloc, table, Condition::Always, line),
        "put-new" => put(alloc, table, Condition::NotExists, line),
        "put-there" => put(alloc, table, Condition::Exists, line),
        "put-key" => put_key(alloc, table, line),
        "delete" => delete(alloc, table, line),
        "delete-new" => delete_if(alloc, table, Condition::NotExists, line),
        "delete-there" => delete_if(alloc, table, Condition::Exists, line),
        "update" => update(alloc, table, line),
        "mark" => mark(alloc, table, line),
        "get" => get(alloc, table, line),
        "query" => query(alloc, table, line),
        "scan" => scan(alloc, table, line),
        "pages" => pages(alloc, table, line),
        _ => Ok(format!(in alloc; "{} items", table.len())?),
    }
}

fn told(alloc: Global, item: Option<&Item>) -> Result<String, TableError> {
    match item {
        Some(item) => Ok(String::from_str(alloc, note(item))?),
        None => Ok(String::from_str(alloc, "none")?),
    }
}

fn notes(alloc: Global, found: &[(&Key, &Item)]) -> Result<String, TableError> {
    let mut all = String::from_str(alloc, "found")?;
    for (_, item) in found {
        all.push(' ')?;
        all.push_str(note(*item))?;
    }
    Ok(all)
}

// The item of the station and the time in a line, with the note at a place.
fn item(alloc: Global, line: &str, place: usize) -> Result<Item, AllocError> {
    reading(alloc, word(line, 1), word(line, 2), word(line, place))
}

// The key of the station and the time in a line.
fn key(alloc: Global, table: &Table, line: &str) -> Result<Key, TableError> {
    let item = item(alloc, line, usize::MAX)?;
    table.key_of(&item)
}

fn put(
    alloc: Global,
    table: &mut Table,
    condition: Condition,
    line: &str,
) -> Result<String, TableError> {
    let item = item(alloc, line, 3)?;
    let before = table.put_if(condition, item)?;
    told(alloc, before.as_ref())
}

// What is under the key that the put returns.
fn put_key(alloc: Global, table: &mut Table, line: &str) -> Result<String, TableError> {
    let item = item(alloc, line, 3)?;
    let key = table.put_returning_key(item)?;
    told(alloc, table.get(&key))
}

fn get(alloc: Global, table: &Table, line: &str) -> Result<String, TableError> {
    let key = key(alloc, table, line)?;
    told(alloc, table.get(&key))
}

fn delete(alloc: Global, table: &mut Table, line: &str) -> Result<String, TableError> {
    let key = key(alloc, table, line)?;
    let before = table.delete(&key);
    told(alloc, before.as_ref())
}

fn delete_if(
    alloc: Global,
    table: &mut Table,
    condition: Condition,
    line: &str,
) -> Result<String, TableError> {
    let key = key(alloc, table, line)?;
    let before = table.delete_if(condition, &key)?;
    told(alloc, before.as_ref())
}

// The item under the key is to be the one of the time and the note that follow the key.
fn update(alloc: Global, table: &mut Table, line: &str) -> Result<String, TableError> {
    let key = key(alloc, table, line)?;
    table.update::<TableError, _>(
        &key,
        |_| Ok(reading(alloc, word(line, 1), word(line, 3), word(line, 4))?),
    )?;
    told(alloc, table.get(&key))
}

// Why an item isn't marked: the table refuses it, or it has the mark.
#[derive(Debug, Drop)]
enum Unmarked {
    Refused(TableError),
    Marked,
}

impl From<TableError> for Unmarked {
    fn from(error: TableError) -> Unmarked {
        Unmarked::Refused(error)
    }
}

impl From<AllocError> for Unmarked {
    fn from(error: AllocError) -> Unmarked {
        Unmarked::Refused(TableError::from(error))
    }
}

// Marks the item under the key in its note, but only once.
fn mark(alloc: Global, table: &mut Table, line: &str) -> Result<String, TableError> {
    let key = key(alloc, table, line)?;
    let answer = table.update(&key, |item| {
        if note(item) == "marked" {
            return Err(Unmarked::Marked);
        }
        Ok(reading(alloc, word(line, 1), word(line, 3), "s:marked")?)
    });
    match answer {
        Ok(()) => told(alloc, table.get(&key)),
        Err(Unmarked::Refused(error)) => Err(error),
        Err(Unmarked::Marked) => Ok(String::from_str(alloc, "it has the mark")?),
    }
}

// A page of at most as many items as the line says, after the key in it, if there is one.
fn scan(alloc: Global, table: &Table, line: &str) -> Result<String, TableError> {
    let limit = word(line, 3).parse::<usize>().unwrap_or(0);
    match key(alloc, table, line) {
        Ok(start) => notes(alloc, table.scan(alloc, limit, Some(&start))?.as_slice()),
        Err(_) => notes(alloc, table.scan(alloc, limit, None)?.as_slice()),
    }
}

fn pages(alloc: Global, table: &Table, line: &str) -> Result<String, TableError> {
    let limit = word(line, 1).parse::<usize>().unwrap_or(0);
    notes(alloc, table.scan_all(alloc, limit)?.as_slice())
}

// What a line asks of the sort key.
fn asked<'a>(sign: &str, low: &'a KeyValue, high: &'a KeyValue) -> SortCondition<'a> {
    match sign {
        "=" => SortCondition::Equal(low),
        "<" => SortCondition::Less(low),
        "<=" => SortCondition::LessOrEqual(low),
        ">" => SortCondition::Greater(low),
        ">=" => SortCondition::GreaterOrEqual(low),
        "between" => SortCondition::Between(low, high),
        "begins" => SortCondition::BeginsWith(low),
        _ => SortCondition::Any,
    }
}

// The query of a line: the station, the key after which to start, what is asked with its two values, the direction, the limit.
fn query(alloc: Global, table: &Table, line: &str) -> Result<String, TableError> {
    let partition = key_value(alloc, word(line, 1))?;
    let low = key_value(alloc, word(line, 4))?;
    let high = key_value(alloc, word(line, 5))?;
    let mut query = Query::of(&partition);
    query.sort = asked(word(line, 3), &low, &high);
    query.backward = word(line, 6) == "backward";
    query.limit = word(line, 7).parse::<usize>().unwrap_or(usize::MAX);
    match key(alloc, table, line) {
        Ok(start) => {
            query.start_after = Some(&start);
            notes(alloc, table.query(alloc, &query)?.as_slice())
        }
        Err(_) => notes(alloc, table.query(alloc, &query)?.as_slice()),
    }
}
