//! The calls on the table in memory and on the one in a database, as one trait.
use crate::calls::{Asked, Call, Row, Shape, updated};
use dynamo_value::Item;
use sqlite::Alter;
use std::alloc::{AllocError, Global};
use table_keys::{Condition, Key, Query, TableError};
use table_memory::Table;
use table_store::{StoreError, TableStore};

/// A table on which the calls are made.
pub trait Calls {
    fn count(&mut self) -> Result<u64, StoreError>;

    fn key(&self, item: &Item) -> Result<Key, StoreError>;

    fn put(&mut self, item: Item) -> Result<Option<Item>, StoreError>;

    fn put_if(&mut self, condition: Condition, item: Item) -> Result<Option<Item>, StoreError>;

    fn get(&mut self, key: &Key) -> Result<Option<Item>, StoreError>;

    fn delete(&mut self, key: &Key) -> Result<Option<Item>, StoreError>;

    fn delete_if(&mut self, condition: Condition, key: &Key) -> Result<Option<Item>, StoreError>;

    fn update(&mut self, alloc: Global, key: &Key, item: Item) -> Result<(), StoreError>;

    fn query(&mut self, alloc: Global, query: &Query<'_>) -> Result<Vec<Item>, StoreError>;

    fn page(
        &mut self,
        alloc: Global,
        limit: usize,
        start: Option<&Key>,
    ) -> Result<Vec<Item>, StoreError>;
}

// The items, without their keys.
fn items(alloc: Global, found: &[(&Key, &Item)]) -> Result<Vec<Item>, AllocError> {
    let mut items = Vec::new(alloc);
    for (_, item) in found {
        items.push((*item).clone()?)?;
    }
    Ok(items)
}

impl Calls for Table {
    fn count(&mut self) -> Result<u64, StoreError> {
        Ok(self.len() as u64)
    }

    fn key(&self, item: &Item) -> Result<Key, StoreError> {
        Ok(self.key_of(item)?)
    }

    fn put(&mut self, item: Item) -> Result<Option<Item>, StoreError> {
        Ok(Table::put(self, item)?)
    }

    fn put_if(&mut self, condition: Condition, item: Item) -> Result<Option<Item>, StoreError> {
        Ok(Table::put_if(self, condition, item)?)
    }

    fn get(&mut self, key: &Key) -> Result<Option<Item>, StoreError> {
        match Table::get(self, key) {
            Some(item) => Ok(Some(item.clone()?)),
            None => Ok(None),
        }
    }

    fn delete(&mut self, key: &Key) -> Result<Option<Item>, StoreError> {
        Ok(Table::delete(self, key))
    }

    fn delete_if(&mut self, condition: Condition, key: &Key) -> Result<Option<Item>, StoreError> {
        Ok(Table::delete_if(self, condition, key)?)
    }

    fn update(&mut self, alloc: Global, key: &Key, item: Item) -> Result<(), StoreError> {
        Table::update(self, key, |before| Ok(updated(alloc, before, item)?))
    }

    fn query(&mut self, alloc: Global, query: &Query<'_>) -> Result<Vec<Item>, StoreError> {
        Ok(items(alloc, Table::query(self, alloc, query)?.as_slice())?)
    }

    fn page(
        &mut self,
        alloc: Global,
        limit: usize,
        start: Option<&Key>,
    ) -> Result<Vec<Item>, StoreError> {
        Ok(items(alloc, self.scan(alloc, limit, start)?.as_slice())?)
    }
}

impl<S: Alter + Drop> Calls for TableStore<S> {
    fn count(&mut self) -> Result<u64, StoreError> {
        TableStore::count(self)
    }

    fn key(&self, item: &Item) -> Result<Key, StoreError> {
        Ok(self.key_of(item)?)
    }

    fn put(&mut self, item: Item) -> Result<Option<Item>, StoreError> {
        TableStore::put(self, &item)
    }

    fn put_if(&mut self, condition: Condition, item: Item) -> Result<Option<Item>, StoreError> {
        TableStore::put_if(self, condition, &item)
    }

    fn get(&mut self, key: &Key) -> Result<Option<Item>, StoreError> {
        TableStore::get(self, key)
    }

    fn delete(&mut self, key: &Key) -> Result<Option<Item>, StoreError> {
        TableStore::delete(self, key)
    }

    fn delete_if(&mut self, condition: Condition, key: &Key) -> Result<Option<Item>, StoreError> {
        TableStore::delete_if(self, condition, key)
    }

    fn update(&mut self, alloc: Global, key: &Key, item: Item) -> Result<(), StoreError> {
        TableStore::update(self, key, |before| Ok(updated(alloc, before, item)?))
    }

    fn query(&mut self, _alloc: Global, query: &Query<'_>) -> Result<Vec<Item>, StoreError> {
        TableStore::query(self, query)
    }

    fn page(
        &mut self,
        _alloc: Global,
        limit: usize,
        start: Option<&Key>,
    ) -> Result<Vec<Item>, StoreError> {
        self.scan(limit, start)
    }
}

// The key of a row.
fn key<T: Calls>(alloc: Global, table: &T, shape: Shape, row: Row) -> Result<Key, StoreError> {
    table.key(&shape.item(alloc, row)?)
}

fn update<T: Calls>(
    alloc: Global,
    table: &mut T,
    shape: Shape,
    row: Row,
    other: Row,
) -> Result<Option<Item>, StoreError> {
    let key = key(alloc, table, shape, row)?;
    let before = table.get(&key)?;
    table.update(alloc, &key, shape.item(alloc, other)?)?;
    Ok(before)
}

fn query<T: Calls>(
    alloc: Global,
    table: &mut T,
    shape: Shape,
    asked: Asked,
) -> Result<Vec<Item>, StoreError> {
    let partition = asked.partition.key_value(alloc)?;
    let low = asked.low.key_value(alloc)?;
    let high = asked.high.key_value(alloc)?;
    let start = match asked.start {
        Some(row) => Some(key(alloc, table, shape, row)?),
        None => None,
    };
    table.query(
        alloc,
        &Query {
            partition: &partition,
            sort: asked.sign.condition(&low, &high),
            backward: asked.backward,
            limit: asked.limit,
            start_after: start.as_ref(),
        },
    )
}

fn pages<T: Calls>(alloc: Global, table: &mut T, limit: usize) -> Result<Vec<Item>, StoreError> {
    let mut all = Vec::new(alloc);
    let mut start: Option<Key> = None;
    for _ in 0..u64::MAX {
        let mut page = table.page(alloc, limit, start.as_ref())?;
        let Some(last) = page.as_slice().last() else {
            break;
        };
        start = Some(table.key(last)?);
        all.append(&mut page)?;
    }
    Ok(all)
}

fn alone(alloc: Global, item: Option<Item>) -> Result<Vec<Item>, StoreError> {
    match item {
        Some(item) => Ok(vec![in alloc; item]?),
        None => Ok(Vec::new(alloc)),
    }
}

/// The items that a call answers: what was there, or what is found.
pub fn answer<T: Calls>(
    alloc: Global,
    table: &mut T,
    shape: Shape,
    call: Call,
) -> Result<Vec<Item>, StoreError> {
    match call {
        Call::Put(row) => alone(alloc, table.put(shape.item(alloc, row)?)?),
        Call::PutIf(condition, row) => {
            alone(alloc, table.put_if(condition, shape.item(alloc, row)?)?)
        }
        Call::Get(row) => {
            let key = key(alloc, table, shape, row)?;
            alone(alloc, table.get(&key)?)
        }
        Call::Delete(row) => {
            let key = key(alloc, table, shape, row)?;
            alone(alloc, table.delete(&key)?)
        }
        Call::DeleteIf(condition, row) => {
            let key = key(alloc, table, shape, row)?;
            alone(alloc, table.delete_if(condition, &key)?)
        }
        Call::Update(row, other) => alone(alloc, update(alloc, table, shape, row, other)?),
        Call::Query(asked) => query(alloc, table, shape, asked),
        Call::Scan(limit) => pages(alloc, table, limit),
    }
}
