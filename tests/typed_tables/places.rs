//! Items that another program put into the table of a type, in memory and in a database, and the
//! places that are said of them.
use crate::booking::Booking;
use crate::foreign::Foreign;
use crate::guest::Guest;
use crate::texts::{fits, passes};
use dynamo_json::DynamoJson;
use dynamo_place::LocatedError;
use dynamo_value::Item;
use sqlite::{Connection, MemStore};
use std::alloc::{AllocError, Global};
use std::fmt::Display;
use std::process::Abort;
use std::test::Fail;
use table_keys::{Key, Query};
use table_typed::{AsItem, Keyed, TypedTable, place_of_error};
use table_typed_store::TypedStore;

// The table of a type in memory that has these items.
fn table_of<T: AsItem + Keyed>(
    alloc: Global,
    items: &[&str],
) -> anyhow::Result<TypedTable<Foreign<T>>> {
    let mut table: TypedTable<Foreign<T>> = TypedTable::new(alloc)?;
    for text in items {
        table.put(&Foreign::Put(Item::from_json_text(alloc, text)?))?;
    }
    Ok(table)
}

// The table of a type in a database that has these items.
fn store_of<T: AsItem + Keyed>(
    alloc: Global,
    items: &[&str],
) -> anyhow::Result<TypedStore<T, MemStore>> {
    let conn = Connection::open_in_memory(alloc)?;
    let mut store = TypedStore::<T, MemStore>::create(alloc, conn, "values")?.into_items();
    for text in items {
        drop(store.put(&Item::from_json_text(alloc, text)?)?);
    }
    Ok(TypedStore::create(alloc, store.into_connection(), "values")?)
}

// A call of a table.
#[derive(Clone, Copy)]
enum Call {
    // The value of a key.
    Get(&'static str, Option<&'static str>),
    // All values of a partition.
    Query(&'static str, Option<&'static str>),
    // Up to so many values from the first one on.
    Scan(usize),
    // Up to ten values after a key.
    ScanBehind(&'static str, Option<&'static str>),
}

// What is said of a value or none, and of several values.
fn one<T, E: Display>(
    alloc: Global,
    read: &Result<Option<T>, LocatedError<E>>,
) -> Result<String, AllocError> {
    match read {
        Ok(Some(_)) => String::from_str(alloc, "read"),
        Ok(None) => String::from_str(alloc, "none"),
        Err(error) => error.to_string(alloc),
    }
}

fn several<T, E: Display>(
    alloc: Global,
    read: &Result<Vec<T>, LocatedError<E>>,
) -> Result<String, AllocError> {
    match read {
        Ok(values) => format!(in alloc; "{} read", values.len()),
        Err(error) => error.to_string(alloc),
    }
}

// The located calls of a table, and what they say.
trait LocatedCalls {
    fn key(&self, partition: &str, sort: Option<&str>) -> anyhow::Result<Key>;

    fn get(&mut self, alloc: Global, key: &Key) -> Result<String, AllocError>;

    fn query(&mut self, alloc: Global, query: &Query<'_>) -> Result<String, AllocError>;

    fn scan(
        &mut self,
        alloc: Global,
        limit: usize,
        start_after: Option<&Key>,
    ) -> Result<String, AllocError>;
}

impl<T: AsItem + Keyed> LocatedCalls for TypedTable<T> {
    fn key(&self, partition: &str, sort: Option<&str>) -> anyhow::Result<Key> {
        Ok(self.key_from(partition, sort)?)
    }

    fn get(&mut self, alloc: Global, key: &Key) -> Result<String, AllocError> {
        one(alloc, &self.get_located(key))
    }

    fn query(&mut self, alloc: Global, query: &Query<'_>) -> Result<String, AllocError> {
        several(alloc, &self.query_located(query))
    }

    fn scan(
        &mut self,
        alloc: Global,
        limit: usize,
        start_after: Option<&Key>,
    ) -> Result<String, AllocError> {
        several(alloc, &self.scan_located(limit, start_after))
    }
}

impl<T: AsItem + Keyed> LocatedCalls for TypedStore<T, MemStore> {
    fn key(&self, partition: &str, sort: Option<&str>) -> anyhow::Result<Key> {
        Ok(self.key_from(partition, sort)?)
    }

    fn get(&mut self, alloc: Global, key: &Key) -> Result<String, AllocError> {
        one(alloc, &self.get_located(key))
    }

    fn query(&mut self, alloc: Global, query: &Query<'_>) -> Result<String, AllocError> {
        several(alloc, &self.query_located(query))
    }

    fn scan(
        &mut self,
        alloc: Global,
        limit: usize,
        start_after: Option<&Key>,
    ) -> Result<String, AllocError> {
        several(alloc, &self.scan_located(limit, start_after))
    }
}

fn said_of<C: LocatedCalls>(alloc: Global, table: &mut C, call: Call) -> anyhow::Result<String> {
    Ok(match call {
        Call::Get(partition, sort) => {
            let key = table.key(partition, sort)?;
            table.get(alloc, &key)?
        }
        Call::Query(partition, sort) => {
            let key = table.key(partition, sort)?;
            table.query(alloc, &Query::of(&key.partition))?
        }
        Call::Scan(limit) => table.scan(alloc, limit, None)?,
        Call::ScanBehind(partition, sort) => {
            let key = table.key(partition, sort)?;
            table.scan(alloc, 10, Some(&key))?
        }
    })
}

fn says<C: LocatedCalls>(
    rt: &impl Abort,
    alloc: Global,
    table: &mut C,
    rows: &[(Call, &str)],
) -> anyhow::Result<()> {
    for (at, (call, wanted)) in rows.iter().enumerate() {
        let said = said_of(alloc, table, *call)?;
        assert!(rt; fits(said.as_str(), wanted), "row {at}: {said}, not {wanted}");
    }
    Ok(())
}

// The rows hold of the table in memory and of the one in a database.
fn both_say<T: AsItem + Keyed>(
    rt: &impl Abort,
    alloc: Global,
    items: &[&str],
    rows: &[(Call, &str)],
) -> anyhow::Result<()> {
    says(rt, alloc, &mut table_of::<T>(alloc, items)?, rows)?;
    says(rt, alloc, &mut store_of::<T>(alloc, items)?, rows)
}

const GUESTS: [&str; 2] = [
    r#"{"id":{"S":"a1"},"name":{"S":"Arthur"},"visits":{"N":"1"}}"#,
    r#"{"id":{"S":"a2"},"name":{"S":"Ford"},"visits":{"S":"7"}}"#,
];

fn serve(rt: &impl Abort, alloc: Global) -> anyhow::Result<()> {
    both_say::<Guest>(rt, alloc, &GUESTS, &[
        (Call::Get("a1", None), "read"),
        (Call::Get("a2", None), "visits: Expected num"),
        (Call::Get("a3", None), "none"),
        (Call::Query("a1", None), "1 read"),
        (Call::Query("a2", None), "[0].visits: Expected num"),
        (Call::Query("a3", None), "0 read"),
        (Call::Scan(10), "[1].visits: Expected num"),
        (Call::Scan(1), "1 read"),
        (Call::ScanBehind("a1", None), "[0].visits: Expected num"),
        (Call::ScanBehind("a2", None), "0 read"),
    ])
}

#[test]
fn items_of_guests(rt: HostRuntime) -> Result<(), Fail> {
    passes(&rt, serve(&rt, rt.alloc()));
    Ok(())
}

const BOOKINGS: [&str; 2] = [
    r#"{"room":{"S":"blue"},"night":{"N":"9"},"guestName":{"S":"Ford"},"state":{"S":"Asked"}}"#,
    r#"{"room":{"S":"blue"},"night":{"N":"10"},"guestName":{"S":"Arthur"},
        "state":{"M":{"Paid":{"M":{"cents":{"N":"-1"}}}}}}"#,
];

fn book(rt: &impl Abort, alloc: Global) -> anyhow::Result<()> {
    both_say::<Booking>(rt, alloc, &BOOKINGS, &[
        (Call::Get("blue", Some("9")), "read"),
        (Call::Get("blue", Some("10")), "state.Paid.cents: Failed to parse '-1'.."),
        (Call::Get("red", Some("10")), "none"),
        (Call::Query("blue", Some("10")), "[1].state.Paid.cents: Failed to parse '-1'.."),
        (Call::Query("red", Some("10")), "0 read"),
        (Call::Scan(10), "[1].state.Paid.cents: Failed to parse '-1'.."),
        (Call::Scan(1), "1 read"),
        (Call::ScanBehind("blue", Some("9")), "[0].state.Paid.cents: Failed to parse '-1'.."),
        (Call::ScanBehind("blue", Some("10")), "0 read"),
    ])
}

#[test]
fn items_of_bookings(rt: HostRuntime) -> Result<(), Fail> {
    passes(&rt, book(&rt, rt.alloc()));
    Ok(())
}

// The values that the calls read are those that were put.
fn read(rt: &impl Abort, alloc: Global) -> anyhow::Result<()> {
    let table = table_of::<Guest>(alloc, &GUESTS)?;
    let mut store = store_of::<Guest>(alloc, &GUESTS)?;
    let key = store.key_from("a1", None)?;
    let in_memory = table.get_located(&key);
    assert!(rt; matches!(&in_memory, Ok(Some(Foreign::Read(guest))) if guest.visits == 1));
    assert!(rt; matches!(store.get_located(&key), Ok(Some(guest)) if guest.visits == 1));
    let item = Item::from_json_text(alloc, BOOKINGS[1])?;
    let Err(error) = Booking::read_item(alloc, &item) else {
        anyhow::bail!("-1 is no u64");
    };
    let place = place_of_error::<Booking>(alloc, &item, &error);
    assert!(rt; matches!(place, Some(place) if place.steps().len() == 3));
    Ok(())
}

#[test]
fn values_and_places_of_one_item(rt: HostRuntime) -> Result<(), Fail> {
    passes(&rt, read(&rt, rt.alloc()));
    Ok(())
}
