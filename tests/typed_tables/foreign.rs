//! Items that another program put into the table of a type.
use dynamo_place::LocatedError;
use dynamo_value::{Error, Item, Result};
use std::alloc::{AllocError, Global};
use table_keys::KeySchema;
use table_typed::{AsItem, Keyed};

/// An item of any form that is put, or a value of the type that is read from one.
#[derive(Drop)]
pub enum Foreign<T> {
    Put(Item),
    Read(T),
}

impl<T: AsItem> AsItem for Foreign<T> {
    fn to_item(&self, alloc: Global) -> Result<Item> {
        match self {
            Foreign::Put(item) => Ok(item.clone()?),
            Foreign::Read(value) => value.to_item(alloc),
        }
    }

    fn read_item(alloc: Global, item: &Item) -> Result<Foreign<T>> {
        Ok(Foreign::Read(T::read_item(alloc, item)?))
    }

    fn read_item_located(
        alloc: Global,
        item: &Item,
    ) -> std::result::Result<Foreign<T>, LocatedError<Error>> {
        Ok(Foreign::Read(T::read_item_located(alloc, item)?))
    }
}

impl<T: Keyed> Keyed for Foreign<T> {
    fn key_schema(alloc: Global) -> std::result::Result<KeySchema, AllocError> {
        T::key_schema(alloc)
    }
}
