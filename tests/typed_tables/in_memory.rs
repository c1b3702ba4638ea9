//! Tables in memory.
use crate::booking::{Booking, State};
use crate::guest::Guest;
use crate::texts::{bookings, guests, passes};
use std::alloc::Global;
use std::process::Abort;
use std::test::Fail;
use table_memory::{Condition, Query, TableError};
use table_typed::{AsItem, TypedTable, TypedTableError};

// What a service does with its guests. It has no error type of its own.
fn serve(rt: &impl Abort, alloc: Global) -> anyhow::Result<()> {
    let mut table: TypedTable<Guest> = TypedTable::new(alloc)?;
    assert!(rt; table.is_empty());
    let arthur = Guest::new(alloc, "a1", "Arthur", 1)?;
    let key = table.put_if(Condition::NotExists, &arthur)?;
    assert!(rt; key == table.key_of(&arthur)?);
    assert!(rt; key == table.key_from("a1", None)?);
    table.put(&Guest::new(alloc, "a2", "Ford", 7)?)?;
    table.update(&key, |mut guest| {
        guest.visits += 1;
        Ok::<_, anyhow::Error>(guest)
    })?;
    assert_eq!(rt; table.len(), 2);
    assert!(rt; matches!(table.get(&key)?, Some(guest) if guest.visits == 2));
    let found = table.query(&Query::of(&key.partition))?;
    assert_eq!(rt; guests(alloc, &found)?.as_str(), "a1 Arthur 2,");
    let first = table.scan(1, None)?;
    assert_eq!(rt; guests(alloc, &first)?.as_str(), "a1 Arthur 2,");
    let second = table.scan(1, Some(&key))?;
    assert_eq!(rt; guests(alloc, &second)?.as_str(), "a2 Ford 7,");
    assert!(rt; table.delete_if(Condition::Exists, &key)?);
    assert!(rt; !table.delete(&key));
    assert_eq!(rt; guests(alloc, &table.scan_all()?)?.as_str(), "a2 Ford 7,");
    Ok(())
}

#[test]
fn a_service_of_guests(rt: HostRuntime) -> Result<(), Fail> {
    passes(&rt, serve(&rt, rt.alloc()));
    Ok(())
}

// What a service does with its bookings, which derive serde's traits.
fn book(rt: &impl Abort, alloc: Global) -> anyhow::Result<()> {
    let mut table: TypedTable<Booking> = TypedTable::new(alloc)?;
    let mut booking = Booking::new(alloc, "blue", 10, "Arthur")?;
    booking.note = Some(String::from_str(alloc, "late")?);
    let key = table.put_if(Condition::NotExists, &booking)?;
    assert!(rt; key == table.key_of(&booking)?);
    assert!(rt; key == table.key_from("blue", Some("10"))?);
    assert!(rt; matches!(table.get(&key)?, Some(got) if got == booking));
    table.put(&Booking::new(alloc, "blue", 9, "Ford")?)?;
    table.put(&Booking::new(alloc, "red", 10, "Zaphod")?)?;
    table.update(&key, |mut booking| {
        booking.state = State::Paid { cents: 8000 };
        Ok::<_, TypedTableError>(booking)
    })?;
    let found = table.query(&Query::of(&key.partition))?;
    assert_eq!(rt;
        bookings(alloc, &found)?.as_str(),
        "blue 9 Ford,blue 10 Arthur 8000,"
    );
    let last = table.scan(2, Some(&key))?;
    assert_eq!(rt; bookings(alloc, &last)?.as_str(), "red 10 Zaphod,");
    assert!(rt; table.delete_if(Condition::Exists, &key)?);
    assert_eq!(rt;
        bookings(alloc, &table.scan_all()?)?.as_str(),
        "blue 9 Ford,red 10 Zaphod,"
    );
    assert_eq!(rt; table.len(), 2);
    let item = booking.to_item(alloc)?;
    assert!(rt; Booking::from_item(alloc, item)? == booking);
    Ok(())
}

#[test]
fn a_service_of_bookings(rt: HostRuntime) -> Result<(), Fail> {
    passes(&rt, book(&rt, rt.alloc()));
    Ok(())
}

// The errors of an update, in their order.
fn fail(rt: &impl Abort, alloc: Global) -> anyhow::Result<()> {
    let mut table: TypedTable<Guest> = TypedTable::new(alloc)?;
    let key = table.key_from("a1", None)?;
    let none = table.update(&key, |guest| Ok::<_, TypedTableError>(guest));
    assert!(rt; matches!(none, Err(TypedTableError::Table(TableError::NoItem))));
    table.put(&Guest::new(alloc, "a1", "Arthur", 1)?)?;
    let own = table.update(&key, |_guest| {
        Err(TypedTableError::Table(TableError::ConditionFailed))
    });
    assert!(rt;
        matches!(
            own,
            Err(TypedTableError::Table(TableError::ConditionFailed))
        )
    );
    for (id, wanted) in [("", TableError::Empty), ("a2", TableError::KeyChanged)] {
        let failed = table.update(&key, |mut guest| {
            guest.id = String::from_str(alloc, id).map_err(|_| TableError::OutOfMemory)?;
            Ok::<_, TypedTableError>(guest)
        });
        assert!(rt;
            matches!(failed, Err(TypedTableError::Table(error)) if error == wanted),
            "{id}"
        );
    }
    assert_eq!(rt; guests(alloc, &table.scan_all()?)?.as_str(), "a1 Arthur 1,");
    Ok(())
}

#[test]
fn updates_that_fail(rt: HostRuntime) -> Result<(), Fail> {
    passes(&rt, fail(&rt, rt.alloc()));
    Ok(())
}
