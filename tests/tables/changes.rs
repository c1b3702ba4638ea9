//! Changes of a table of members, and its scans.
use crate::member::Member;
use crate::members::member;
use std::io;
use table_memory::{Condition, Key, TableError};
use table_typed::{TypedTable, TypedTableError};

// Why a member isn't changed.
#[derive(Debug, Drop)]
enum ClubError {
    // The club doesn't allow it.
    NotAllowed,

    // The table refuses it.
    Store(TypedTableError),
}

impl From<TypedTableError> for ClubError {
    fn from(error: TypedTableError) -> ClubError {
        ClubError::Store(error)
    }
}

type Members = TypedTable<Member>;

fn print_put(rt: &HostRuntime, done: Result<Key, TypedTableError>) -> io::Result<()> {
    match done {
        Ok(key) => println!(rt; "put {:?}", key.partition),
        Err(error) => println!(rt; "not put: {error}"),
    }
}

fn print_deleted(rt: &HostRuntime, done: Result<bool, TableError>) -> io::Result<()> {
    match done {
        Ok(there) => println!(rt; "deleted {there}"),
        Err(error) => println!(rt; "not deleted: {error}"),
    }
}

fn print_updated(rt: &HostRuntime, done: Result<(), ClubError>) -> io::Result<()> {
    match done {
        Ok(()) => println!(rt; "updated"),
        Err(ClubError::NotAllowed) => println!(rt; "not updated: not allowed"),
        Err(ClubError::Store(error)) => println!(rt; "not updated: {error}"),
    }
}

fn print_members(rt: &HostRuntime, word: &str, members: &Vec<Member>) -> io::Result<()> {
    print!(rt; "{word}:")?;
    for member in members {
        print!(rt; " {} {} {}", member.id, member.name, member.age)?;
    }
    println!(rt)
}

// Puts on conditions, and what they leave.
fn print_puts(rt: &HostRuntime, table: &mut Members) -> anyhow::Result<()> {
    let alloc = rt.alloc();
    println!(rt; "members {}, none {}", table.len(), table.is_empty())?;
    let arthur = member(alloc, "a1", "Arthur", 42)?;
    let ford = member(alloc, "a1", "Ford", 43)?;
    print_put(rt, table.put_if(Condition::Exists, &arthur))?;
    print_put(rt, table.put_if(Condition::NotExists, &arthur))?;
    print_put(rt, table.put_if(Condition::NotExists, &ford))?;
    print_members(rt, "all", &table.scan_all()?)?;
    print_put(rt, table.put_if(Condition::Exists, &ford))?;
    print_put(rt, table.put_if(Condition::Always, &member(alloc, "a2", "Trillian", 30)?))?;
    print_members(rt, "all", &table.scan_all()?)?;
    println!(rt; "members {}, none {}", table.len(), table.is_empty())?;
    Ok(())
}

// Scans of two members, page by page.
fn print_pages(rt: &HostRuntime, table: &Members) -> anyhow::Result<()> {
    let mut page = table.scan(1, None)?;
    for _ in 0..3 {
        print_members(rt, "page", &page)?;
        let Some(last) = page.as_slice().last() else {
            return Ok(());
        };
        let key = table.key_of(last)?;
        page = table.scan(1, Some(&key))?;
    }
    Ok(())
}

fn grow_older(mut member: Member) -> Result<Member, ClubError> {
    if member.age >= 44 {
        return Err(ClubError::NotAllowed);
    }
    member.age += 1;
    Ok(member)
}

// Updates, and what they leave.
fn print_updates(rt: &HostRuntime, table: &mut Members, key: &Key) -> anyhow::Result<()> {
    let other = String::from_str(rt.alloc(), "a3")?;
    print_updated(rt, table.update(key, grow_older))?;
    print_updated(rt, table.update(key, grow_older))?;
    print_updated(rt, table.update(key, move |mut member: Member| {
        member.id = other;
        Ok(member)
    }))?;
    print_members(rt, "all", &table.scan_all()?)?;
    Ok(())
}

/// Prints what changes of a table of members on conditions, updates and scans return.
///
/// # Errors
///
/// Those of the calls, and of printing.
pub fn print_calls(rt: &HostRuntime) -> anyhow::Result<()> {
    let mut table: Members = TypedTable::new(rt.alloc())?;
    print_puts(rt, &mut table)?;
    print_pages(rt, &table)?;
    let key = table.key_of(&member(rt.alloc(), "a1", "", 0)?)?;
    print_updates(rt, &mut table, &key)?;
    print_deleted(rt, table.delete_if(Condition::NotExists, &key))?;
    print_deleted(rt, table.delete_if(Condition::Exists, &key))?;
    print_deleted(rt, table.delete_if(Condition::Exists, &key))?;
    print_deleted(rt, table.delete_if(Condition::NotExists, &key))?;
    print_updated(rt, table.update(&key, grow_older))?;
    print_members(rt, "all", &table.scan_all()?)?;
    // A key that is empty.
    print_put(rt, table.key_of(&member(rt.alloc(), "", "Nobody", 0)?))?;
    Ok(())
}
