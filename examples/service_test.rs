//! A service that keeps its bookings in a table, and its test on a table in memory.
//! In crates.txt: `service_test: dynamo_serde dynamo_value serde table_typed table_memory anyhow`
#![tactic(auto)]

use dynamo_value::{Item, Result};
use serde::{Deserialize, Serialize};
use std::alloc::{AllocError, Global};
use table_memory::{Condition, Key, KeySchema, Query, TableError};
use table_typed::{AsItem, Keyed, TypedTable};

#[derive(Drop, Serialize, Deserialize)]
pub struct Booking {
    pub guest: String,
    pub night: u32,
    pub room: u16,
}

impl AsItem for Booking {
    fn to_item(&self, alloc: Global) -> Result<Item> {
        dynamo_serde::to_item(alloc, self)
    }

    fn read_item(alloc: Global, item: &Item) -> Result<Booking> {
        dynamo_serde::read_item(alloc, item)
    }
}

impl Keyed for Booking {
    fn key_schema(alloc: Global) -> std::result::Result<KeySchema, AllocError> {
        // Both are key attributes, so `parse` fails only if memory runs out.
        KeySchema::parse(alloc, &["guest:S", "night:N"]).map_err(|_: TableError| AllocError)
    }
}

/// Books a room for a night in which the guest has none yet.
pub fn book(bookings: &mut TypedTable<Booking>, booking: &Booking) -> anyhow::Result<Key> {
    Ok(bookings.put_if(Condition::NotExists, booking)?)
}

/// Moves a booking to another room.
pub fn move_to(bookings: &mut TypedTable<Booking>, key: &Key, room: u16) -> anyhow::Result<()> {
    bookings.update(key, |mut booking| {
        anyhow::ensure!(booking.room != room, "the booking is in this room");
        booking.room = room;
        Ok(booking)
    })
}

#[cfg(test)]
mod tests {
    use super::*;

    #[test]
    fn a_guest_has_one_room_a_night(rt: HostRuntime) -> anyhow::Result<()> {
        let alloc = rt.alloc();
        let guest = String::from_str(alloc, "Arthur")?;
        let booking = Booking {
            guest,
            night: 12,
            room: 101,
        };
        let mut bookings = TypedTable::new(alloc)?;
        let key = book(&mut bookings, &booking)?;
        assert!(rt; book(&mut bookings, &booking).is_err());
        move_to(&mut bookings, &key, 102)?;
        assert!(rt; move_to(&mut bookings, &key, 102).is_err());
        let found = bookings.query(&Query::of(&key.partition))?;
        assert!(rt; matches!(found.as_slice(), [one] if one.night == 12 && one.room == 102));
        Ok(())
    }
}
