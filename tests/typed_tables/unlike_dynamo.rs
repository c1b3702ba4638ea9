//! What DynamoDB refuses, and typed tables take.
use crate::texts::passes;
use dynamo_value::{AttributeValue, Item, Result};
use serde::{Deserialize, Serialize};
use sqlite::{Connection, MemStore};
use std::alloc::{AllocError, Global};
use std::process::Abort;
use std::test::Fail;
use table_memory::{KeySchema, KeyValue, Query, SortCondition, TableError};
use table_typed::{AsItem, Keyed, TypedTable};
use table_typed_store::TypedStore;

// Any attribute value, under a key of two strings.
#[derive(Drop, PartialEq, Serialize, Deserialize)]
struct Note {
    page: String,
    line: String,
    #[serde(with = "dynamo_serde::attribute_value")]
    any: AttributeValue,
}

impl AsItem for Note {
    fn to_item(&self, alloc: Global) -> Result<Item> {
        dynamo_serde::to_item(alloc, self)
    }

    fn read_item(alloc: Global, item: &Item) -> Result<Note> {
        dynamo_serde::read_item(alloc, item)
    }
}

impl Keyed for Note {
    fn key_schema(alloc: Global) -> std::result::Result<KeySchema, AllocError> {
        match KeySchema::parse(alloc, &["page:S", "line:S"]) {
            Ok(schema) => Ok(schema),
            Err(_) => Err(AllocError),
        }
    }
}

fn text(alloc: Global, part: &str, times: usize) -> std::result::Result<String, AllocError> {
    let mut text = String::new(alloc);
    for _ in 0..times {
        text.push_str(part)?;
    }
    Ok(text)
}

// A number, sets and a null that DynamoDB refuses, a number that it writes in another way, and a string of 500,000 bytes.
fn values(alloc: Global) -> std::result::Result<Vec<AttributeValue>, AllocError> {
    let twice = vec![in alloc; text(alloc, "a", 1)?, text(alloc, "a", 1)?]?;
    Ok(vec![in alloc;
        AttributeValue::N(text(alloc, "abc", 1)?),
        AttributeValue::N(text(alloc, "1.50", 1)?),
        AttributeValue::Ss(Vec::new(alloc)),
        AttributeValue::Ns(Vec::new(alloc)),
        AttributeValue::Ss(twice),
        AttributeValue::Null(false),
        AttributeValue::S(text(alloc, "0123456789", 50_000)?),
    ]?)
}

fn keep(rt: &impl Abort, alloc: Global) -> anyhow::Result<()> {
    let conn = Connection::open_in_memory(alloc)?;
    let mut store: TypedStore<Note, MemStore> = TypedStore::create(alloc, conn, "notes")?;
    let mut table: TypedTable<Note> = TypedTable::new(alloc)?;
    // Keys of 3,000 and 2,000 bytes.
    let page = text(alloc, "page.", 600)?;
    let line = text(alloc, "line.", 400)?;
    for any in values(alloc)? {
        let note = Note {
            page: page.clone()?,
            line: line.clone()?,
            any,
        };
        let key = table.put(&note)?;
        assert!(rt; matches!(table.get(&key)?, Some(got) if got == note));
        let key = store.put(&note)?;
        assert!(rt; matches!(store.get(&key)?, Some(got) if got == note));
    }
    let key = table.key_from(page.as_str(), Some(line.as_str()))?;
    assert!(rt; table.scan(0, None)?.is_empty() && store.scan(0, None)?.is_empty());
    let (low, high) = (
        KeyValue::S(text(alloc, "a", 1)?),
        KeyValue::S(text(alloc, "z", 1)?),
    );
    let mut query = Query::of(&key.partition);
    query.sort = SortCondition::Between(&low, &high);
    assert!(rt; table.query(&query)?.len() == 1 && store.query(&query)?.len() == 1);
    query.sort = SortCondition::Between(&high, &low);
    assert!(rt; table.query(&query)?.is_empty() && store.query(&query)?.is_empty());
    query.sort = SortCondition::Any;
    query.limit = 0;
    assert!(rt; table.query(&query)?.is_empty() && store.query(&query)?.is_empty());
    let missing = table.key_from("a", None);
    assert!(rt; matches!(missing, Err(TableError::Missing)));
    Ok(())
}

#[test]
fn what_dynamo_refuses_is_kept(rt: HostRuntime) -> std::result::Result<(), Fail> {
    passes(&rt, keep(&rt, rt.alloc()));
    Ok(())
}
