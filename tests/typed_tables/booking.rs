//! A booking: a type that derives serde's traits.
use dynamo_place::LocatedError;
use dynamo_value::{Error, Item, Result};
use serde::{Deserialize, Serialize};
use std::alloc::{AllocError, Global};
use table_memory::{KeyAttribute, KeyKind, KeySchema};
use table_typed::{AsItem, Keyed};

#[derive(Drop, PartialEq, Serialize, Deserialize)]
pub enum State {
    Asked,
    Paid { cents: u64 },
}

#[derive(Drop, PartialEq, Serialize, Deserialize)]
#[serde(rename_all = "camelCase")]
pub struct Booking {
    pub room: String,
    pub night: u32,
    pub guest_name: String,
    #[serde(skip_serializing_if = "Option::is_none")]
    pub note: Option<String>,
    pub state: State,
}

impl Booking {
    pub fn new(
        alloc: Global,
        room: &str,
        night: u32,
        guest: &str,
    ) -> std::result::Result<Booking, AllocError> {
        Ok(Booking {
            room: String::from_str(alloc, room)?,
            night,
            guest_name: String::from_str(alloc, guest)?,
            note: None,
            state: State::Asked,
        })
    }
}

impl AsItem for Booking {
    fn to_item(&self, alloc: Global) -> Result<Item> {
        dynamo_serde::to_item(alloc, self)
    }

    fn read_item(alloc: Global, item: &Item) -> Result<Booking> {
        dynamo_serde::read_item(alloc, item)
    }

    fn read_item_located(alloc: Global, item: &Item) -> Result<Booking, LocatedError<Error>> {
        dynamo_serde::read_item_located(alloc, item)
    }
}

impl Keyed for Booking {
    fn key_schema(alloc: Global) -> std::result::Result<KeySchema, AllocError> {
        Ok(KeySchema {
            partition: KeyAttribute {
                name: String::from_str(alloc, "room")?,
                kind: KeyKind::S,
            },
            sort: Some(KeyAttribute {
                name: String::from_str(alloc, "night")?,
                kind: KeyKind::N,
            }),
        })
    }
}
