//! A table of members in a database.
use crate::member::Member;
use crate::members::member;
use sqlite::{Alter, Connection, MemStore};
use table_keys::Query;
use table_store::create_in_memory_file;
use table_typed::Keyed;
use table_typed_store::TypedStore;

// A member that is put, found and taken out.
fn print_life<S: Alter + Drop>(
    rt: &HostRuntime,
    store: &mut TypedStore<Member, S>,
) -> anyhow::Result<()> {
    let key = store.put(&member(rt.alloc(), "a1", "Ford", 43)?)?;
    println!(rt; "kept {:?}", store.get(&key)?)?;
    for member in &store.query(&Query::of(&key.partition))? {
        println!(rt; "found {member:?}")?;
    }
    println!(rt; "deleted {}", store.delete(&key)?)?;
    println!(rt; "kept {:?}", store.get(&key)?)?;
    Ok(())
}

// How many items there are, by the table that is taken out.
fn print_items<S: Alter + Drop>(
    rt: &HostRuntime,
    mut store: TypedStore<Member, S>,
) -> anyhow::Result<()> {
    store.put(&member(rt.alloc(), "a2", "Arthur", 42)?)?;
    println!(rt; "items {}", store.into_items().count()?)?;
    Ok(())
}

/// Prints what calls on a table of members in a database in memory answer.
///
/// # Errors
///
/// Those of the calls, and of printing.
pub fn print_calls(rt: &HostRuntime) -> anyhow::Result<()> {
    let conn = Connection::open_in_memory(rt.alloc())?;
    let mut store: TypedStore<Member, MemStore> = TypedStore::create(rt.alloc(), conn, "members")?;
    print_life(rt, &mut store)?;
    print_items(rt, store)
}

/// Prints what the same calls answer on a table that is there already, in a database of pages in memory.
///
/// # Errors
///
/// Those of the calls, and of printing.
pub fn print_calls_in_pages(rt: &HostRuntime) -> anyhow::Result<()> {
    let schema = Member::key_schema(rt.alloc())?;
    let items = create_in_memory_file(rt.alloc(), "members", schema)?;
    let mut store = TypedStore::create(rt.alloc(), items.into_connection(), "members")?;
    print_life(rt, &mut store)?;
    print_items(rt, store)
}
