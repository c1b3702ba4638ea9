//! A table of members.
use crate::member::Member;
use std::alloc::{AllocError, Global};
use std::io;
use table_memory::{Key, KeyAttribute, KeyKind, KeySchema, Query};
use table_typed::laws::put_then_get;
use table_typed::{Keyed, TypedTable, TypedTableError};

impl Keyed for Member {
    fn key_schema(alloc: Global) -> Result<KeySchema, AllocError> {
        let name = String::from_str(alloc, "id")?;
        Ok(KeySchema {
            partition: KeyAttribute {
                name,
                kind: KeyKind::S,
            },
            sort: None,
        })
    }
}

/// A member of this id, name and age in years.
pub fn member(alloc: Global, id: &str, name: &str, age: u8) -> Result<Member, AllocError> {
    let id = String::from_str(alloc, id)?;
    let name = String::from_str(alloc, name)?;
    Ok(Member { id, name, age })
}

fn print_got(rt: &HostRuntime, table: &TypedTable<Member>, key: &Key) -> io::Result<()> {
    match table.get(key) {
        Ok(Some(member)) => println!(rt; "got {member:?}"),
        Ok(None) => println!(rt; "got none"),
        Err(error) => println!(rt; "{error}"),
    }
}

fn print_stored(
    rt: &HostRuntime,
    answer: Result<Option<Member>, TypedTableError>,
) -> io::Result<()> {
    match answer {
        Ok(Some(member)) => println!(rt; "stored {member:?}"),
        Ok(None) => println!(rt; "stored none"),
        Err(error) => println!(rt; "{error}"),
    }
}

fn print_found(rt: &HostRuntime, table: &TypedTable<Member>, key: &Key) -> io::Result<()> {
    match table.query(&Query::of(&key.partition)) {
        Ok(members) => {
            for member in &members {
                println!(rt; "found {member:?}")?;
            }
            Ok(())
        }
        Err(error) => println!(rt; "{error}"),
    }
}

// A member that is put, changed, found and taken out.
fn print_life(rt: &HostRuntime, table: &mut TypedTable<Member>, first: &Member) -> io::Result<()> {
    match table.put(first) {
        Ok(key) => {
            print_got(rt, table, &key)?;
            print_stored(
                rt,
                put_then_get(table, &member(rt.alloc(), "a1", "Ford", 43)?),
            )?;
            print_found(rt, table, &key)?;
            println!(rt; "deleted {}", table.delete(&key))?;
            println!(rt; "deleted {}", table.delete(&key))?;
            print_got(rt, table, &key)
        }
        Err(error) => println!(rt; "{error}"),
    }
}

/// Prints what calls on a table of members answer.
pub fn print_calls(rt: &HostRuntime) -> io::Result<()> {
    let mut table: TypedTable<Member> = TypedTable::new(rt.alloc())?;
    let first = member(rt.alloc(), "a1", "Arthur", 42)?;
    print_life(rt, &mut table, &first)?;
    // A key that is empty.
    let nobody = member(rt.alloc(), "", "Nobody", 0)?;
    print_stored(rt, put_then_get(&mut table, &nobody))
}
