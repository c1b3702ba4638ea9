//! Tables in both kinds of databases in memory: one of pages, and one that keeps its rows in one list.
use crate::booking::{Booking, State};
use crate::guest::Guest;
use crate::texts::{bookings, guests, passes};
use sqlite::{Alter, Connection, MemStore};
use std::alloc::Global;
use std::process::Abort;
use std::test::Fail;
use table_keys::{Condition, Query, TableError};
use table_store::StoreError;
use table_typed::{AsItem, Keyed};
use table_typed_store::{TypedStore, TypedStoreError};

// A table in a database that keeps its rows in one list.
fn listed<T: AsItem + Keyed>(alloc: Global) -> anyhow::Result<TypedStore<T, MemStore>> {
    let conn = Connection::open_in_memory(alloc)?;
    Ok(TypedStore::create(alloc, conn, "values")?)
}

// What a service does with its guests. It has no error type of its own.
fn serve<S: Alter + Drop>(
    rt: &impl Abort,
    alloc: Global,
    mut table: TypedStore<Guest, S>,
) -> anyhow::Result<()> {
    assert!(rt; table.is_empty()?);
    let arthur = Guest::new(alloc, "a1", "Arthur", 1)?;
    let (key, there) = table.put_if(Condition::NotExists, &arthur)?;
    assert!(rt; !there && key == table.key_of(&arthur)?);
    assert!(rt; key == table.key_from("a1", None)?);
    assert!(rt; matches!(table.put_if(Condition::Exists, &arthur)?, (_, true)));
    table.put(&Guest::new(alloc, "a2", "Fort", 6)?)?;
    table.put(&Guest::new(alloc, "a2", "Ford", 7)?)?;
    table.update(&key, |mut guest| {
        guest.visits += 1;
        Ok::<_, anyhow::Error>(guest)
    })?;
    assert_eq!(rt; table.len()?, 2);
    assert!(rt; matches!(table.get(&key)?, Some(guest) if guest.visits == 2));
    let found = table.query(&Query::of(&key.partition))?;
    assert_eq!(rt; guests(alloc, &found)?.as_str(), "a1 Arthur 2,");
    let first = table.scan(1, None)?;
    assert_eq!(rt; guests(alloc, &first)?.as_str(), "a1 Arthur 2,");
    let second = table.scan(1, Some(&key))?;
    assert_eq!(rt; guests(alloc, &second)?.as_str(), "a2 Ford 7,");
    assert!(rt; table.delete_if(Condition::Exists, &key)?);
    assert!(rt; !table.delete(&key)?);
    assert_eq!(rt; guests(alloc, &table.scan_all()?)?.as_str(), "a2 Ford 7,");
    Ok(())
}

fn serve_in_both(rt: &impl Abort, alloc: Global) -> anyhow::Result<()> {
    serve(
        rt,
        alloc,
        TypedStore::create_in_memory_file(alloc, "guests")?,
    )?;
    serve(rt, alloc, listed(alloc)?)
}

#[test]
fn a_service_of_guests(rt: HostRuntime) -> Result<(), Fail> {
    passes(&rt, serve_in_both(&rt, rt.alloc()));
    Ok(())
}

// What a service does with its bookings, which derive serde's traits.
fn book<S: Alter + Drop>(
    rt: &impl Abort,
    alloc: Global,
    mut table: TypedStore<Booking, S>,
) -> anyhow::Result<()> {
    let mut booking = Booking::new(alloc, "blue", 10, "Arthur")?;
    booking.note = Some(String::from_str(alloc, "late")?);
    let key = table.put(&booking)?;
    assert!(rt; key == table.key_from("blue", Some("10"))?);
    assert!(rt; matches!(table.get(&key)?, Some(got) if got == booking));
    table.put(&Booking::new(alloc, "blue", 9, "Ford")?)?;
    table.put_if(
        Condition::NotExists,
        &Booking::new(alloc, "red", 10, "Zaphod")?,
    )?;
    table.update(&key, |mut booking| {
        booking.state = State::Paid { cents: 8000 };
        Ok::<_, TypedStoreError>(booking)
    })?;
    let found = table.query(&Query::of(&key.partition))?;
    assert_eq!(rt;
        bookings(alloc, &found)?.as_str(),
        "blue 9 Ford,blue 10 Arthur 8000,"
    );
    let last = table.scan(2, Some(&key))?;
    assert_eq!(rt; bookings(alloc, &last)?.as_str(), "red 10 Zaphod,");
    assert!(rt; table.delete(&key)?);
    assert_eq!(rt;
        bookings(alloc, &table.scan_all()?)?.as_str(),
        "blue 9 Ford,red 10 Zaphod,"
    );
    assert_eq!(rt; table.len()?, 2);
    Ok(())
}

fn book_in_both(rt: &impl Abort, alloc: Global) -> anyhow::Result<()> {
    book(
        rt,
        alloc,
        TypedStore::create_in_memory_file(alloc, "bookings")?,
    )?;
    book(rt, alloc, listed(alloc)?)
}

#[test]
fn a_service_of_bookings(rt: HostRuntime) -> Result<(), Fail> {
    passes(&rt, book_in_both(&rt, rt.alloc()));
    Ok(())
}

const NIGHTS: u32 = 60;

// Bookings, each of which is put, replaced by another guest's, and paid. Every fourth is deleted. These are more changes than the log
// has pages, and each writes a page at least, so that the log goes into the database between them.
fn book_many(rt: &impl Abort, alloc: Global) -> anyhow::Result<()> {
    let mut table = TypedStore::create_in_memory_file(alloc, "bookings")?;
    for guest in ["Ford", "Arthur"] {
        for night in 0..NIGHTS {
            table.put(&Booking::new(alloc, "blue", night, guest)?)?;
        }
    }
    assert_eq!(rt; table.len()?, u64::from(NIGHTS));
    for night in 0..NIGHTS {
        let key = table.key_of(&Booking::new(alloc, "blue", night, "Arthur")?)?;
        table.update::<anyhow::Error, _>(&key, move |mut booking| {
            booking.state = State::Paid {
                cents: u64::from(night),
            };
            Ok(booking)
        })?;
        if night % 4 == 3 {
            assert!(rt; table.delete(&key)?);
        }
    }
    let key = table.key_from("blue", Some("39"))?;
    let mut query = Query::of(&key.partition);
    query.backward = true;
    query.limit = 3;
    query.start_after = Some(&key);
    let found = table.query(&query)?;
    assert_eq!(rt;
        bookings(alloc, &found)?.as_str(),
        "blue 38 Arthur 38,blue 37 Arthur 37,blue 36 Arthur 36,"
    );
    assert_eq!(rt; table.scan_all()?.len(), 45);
    Ok(())
}

#[test]
fn many_bookings(rt: HostRuntime) -> Result<(), Fail> {
    passes(&rt, book_many(&rt, rt.alloc()));
    Ok(())
}

// The error of the table of items, if it is one of its keys.
fn refused(done: &Result<(), TypedStoreError>) -> Option<TableError> {
    match done {
        Err(TypedStoreError::Store(StoreError::Key(error))) => Some(*error),
        _ => None,
    }
}

// The errors of an update, in their order.
fn fail(rt: &impl Abort, alloc: Global) -> anyhow::Result<()> {
    let mut table: TypedStore<Guest, MemStore> = listed(alloc)?;
    let key = table.key_from("a1", None)?;
    assert!(rt; table.key_from("a1", Some("2")).is_err());
    let none = table.update(&key, |guest| Ok(guest));
    assert!(rt; refused(&none) == Some(TableError::NoItem));
    let arthur = Guest::new(alloc, "a1", "Arthur", 1)?;
    assert!(rt; table.put_if(Condition::Exists, &arthur).is_err());
    table.put(&arthur)?;
    assert!(rt; table.put_if(Condition::NotExists, &arthur).is_err());
    assert!(rt; table.delete_if(Condition::NotExists, &key).is_err());
    let own = table.update(
        &key,
        |_guest| Err(TypedStoreError::Store(StoreError::TooDeep)),
    );
    assert!(rt; matches!(own, Err(TypedStoreError::Store(StoreError::TooDeep))));
    for (id, wanted) in [("", TableError::Empty), ("a2", TableError::KeyChanged)] {
        let failed = table.update(&key, |mut guest| {
            guest.id = String::from_str(alloc, id)?;
            Ok(guest)
        });
        assert!(rt; refused(&failed) == Some(wanted), "{id}");
    }
    assert_eq!(rt; guests(alloc, &table.scan_all()?)?.as_str(), "a1 Arthur 1,");
    Ok(())
}

#[test]
fn updates_that_fail(rt: HostRuntime) -> Result<(), Fail> {
    passes(&rt, fail(&rt, rt.alloc()));
    Ok(())
}
