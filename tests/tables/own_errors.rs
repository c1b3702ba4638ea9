//! An update in a database by a function with errors of its own.
use dynamo_value::{AttributeValue, Item};
use std::alloc::{AllocError, Global};
use std::io;
use table_keys::KeySchema;
use table_store::{StoreError, create_in_memory_file};

// Why an item isn't marked: the database refuses it, or it has the mark.
#[derive(Debug, Drop)]
enum Unmarked {
    Refused(StoreError),
    Marked,
}

impl From<StoreError> for Unmarked {
    fn from(error: StoreError) -> Unmarked {
        Unmarked::Refused(error)
    }
}

impl From<AllocError> for Unmarked {
    fn from(error: AllocError) -> Unmarked {
        Unmarked::Refused(StoreError::from(error))
    }
}

/// An item with this key.
pub fn item(alloc: Global, id: &str) -> Result<Item, AllocError> {
    let mut item = Item::new(alloc);
    let id = AttributeValue::S(String::from_str(alloc, id)?);
    item.inner_mut().insert(String::from_str(alloc, "id")?, id)?;
    Ok(item)
}

// The item with the mark.
fn with_mark(alloc: Global, item: &Item) -> Result<Item, AllocError> {
    let mut item = item.clone()?;
    let mark = AttributeValue::Bool(true);
    item.inner_mut().insert(String::from_str(alloc, "mark")?, mark)?;
    Ok(item)
}

fn marked(alloc: Global, item: &Item) -> Result<Item, Unmarked> {
    if item.get("mark").is_some() {
        return Err(Unmarked::Marked);
    }
    Ok(with_mark(alloc, item)?)
}

// What an update answers, the same again, and one of a key without an item.
fn answers(alloc: Global) -> Result<[Result<(), Unmarked>; 3], StoreError> {
    let schema = KeySchema::parse(alloc, &["id:S"])?;
    let mut table = create_in_memory_file(alloc, "marks", schema)?;
    let key = table.put_returning_key(&item(alloc, "a")?)?;
    let other = table.key_of(&item(alloc, "b")?)?;
    Ok([
        table.update(&key, |item| marked(alloc, item)),
        table.update(&key, |item| marked(alloc, item)),
        table.update(&other, |item| marked(alloc, item)),
    ])
}

/// Prints what the updates answer.
pub fn print_answers(rt: &HostRuntime) -> io::Result<()> {
    match answers(rt.alloc()) {
        Ok(answers) => println!(rt; "{answers:?}"),
        Err(error) => println!(rt; "{error}"),
    }
}
