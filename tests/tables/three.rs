//! Three tables that are to be the same.
use crate::calls::{Call, Row, Shape};
use crate::list::List;
use crate::tables::{Calls, answer};
use dynamo_value::Item;
use sqlite::Alter;
use std::alloc::{AllocError, Global};
use table_keys::TableError;
use table_memory::Table;
use table_store::{StoreError, TableStore};

/// A plain list, a table in memory and one in a database.
#[derive(Drop)]
pub struct Three<S: Alter + Drop> {
    shape: Shape,
    list: List,
    memory: Table,
    store: TableStore<S>,
}

/// How the three answered a call.
#[derive(Clone, Copy, Debug, PartialEq, Eq)]
pub enum Outcome {
    /// With the same items.
    Found,

    /// With the same refusal.
    Refused,

    /// Not the same.
    Differs,
}

fn items(alloc: Global, shape: Shape, rows: &[Row]) -> Result<Vec<Item>, AllocError> {
    let mut items = Vec::new(alloc);
    for row in rows {
        items.push(shape.item(alloc, *row)?)?;
    }
    Ok(items)
}

// Whether a table answers the items that it should, or the error, and has so many.
fn agrees<T: Calls>(
    alloc: Global,
    table: &mut T,
    shape: Shape,
    call: Call,
    wanted: &Result<Vec<Item>, StoreError>,
    count: u64,
) -> bool {
    let answer = answer(alloc, table, shape, call);
    answer == *wanted && table.count() == Ok(count)
}

impl<S: Alter + Drop> Three<S> {
    /// The three without items.
    pub fn new(alloc: Global, shape: Shape, store: TableStore<S>) -> Result<Three<S>, StoreError> {
        Ok(Three {
            shape,
            list: List::new(alloc, shape),
            memory: Table::new(alloc, shape.schema(alloc)?),
            store,
        })
    }

    /// The kinds of the keys.
    pub fn shape(&self) -> Shape {
        self.shape
    }

    /// Makes a call on the three.
    pub fn call(&mut self, alloc: Global, call: Call) -> Result<Outcome, StoreError> {
        let wanted = match self.list.answer(call) {
            Ok(rows) => Ok(items(alloc, self.shape, rows.as_slice())?),
            Err(TableError::OutOfMemory) => return Err(StoreError::OutOfMemory),
            Err(error) => Err(StoreError::Key(error)),
        };
        let count = self.list.len() as u64;
        let same = agrees(alloc, &mut self.memory, self.shape, call, &wanted, count)
            && agrees(alloc, &mut self.store, self.shape, call, &wanted, count);
        Ok(match wanted {
            _ if !same => Outcome::Differs,
            Ok(_) => Outcome::Found,
            Err(_) => Outcome::Refused,
        })
    }
}
