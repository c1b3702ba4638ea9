//! Pages of a table in which another program has written rows, under other keys than those of their items.
use crate::own_errors::item;
use sqlite::MemStore;
use std::alloc::Global;
use std::io;
use table_keys::{Key, KeySchema};
use table_store::{StoreError, TableStore, create_in_memory};

const LAST_FIRST: &str =
    r#"UPDATE dynamo_item SET item = '{"id":{"S":"c"}}' WHERE item = '{"id":{"S":"a"}}'"#;
const NO_KEY: &str =
    r#"UPDATE dynamo_item SET item = '{"name":{"S":"b"}}' WHERE item = '{"id":{"S":"b"}}'"#;

// How many items there are after a key.
fn page(table: &mut TableStore<MemStore>, start_after: Option<&Key>) -> Result<usize, StoreError> {
    Ok(table.scan(10, start_after)?.len())
}

// The table after another program has run this.
fn after(
    alloc: Global,
    table: TableStore<MemStore>,
    sql: &str,
) -> Result<TableStore<MemStore>, StoreError> {
    let mut conn = table.into_connection();
    conn.execute_batch(sql)?;
    TableStore::open(alloc, conn, "letters")
}

// All of three items; the same when the first row has the item of the last; those after the first row then; and those when the
// second row has an item without a key.
fn pages(alloc: Global) -> Result<[Result<usize, StoreError>; 4], StoreError> {
    let mut table = create_in_memory(alloc, "letters", KeySchema::parse(alloc, &["id:S"])?)?;
    let first = table.put_returning_key(&item(alloc, "a")?)?;
    table.write_all(&[item(alloc, "b")?, item(alloc, "c")?])?;
    let whole = page(&mut table, None);
    let mut table = after(alloc, table, LAST_FIRST)?;
    let unordered = page(&mut table, None);
    let behind = page(&mut table, Some(&first));
    let mut table = after(alloc, table, NO_KEY)?;
    Ok([whole, unordered, behind, page(&mut table, Some(&first))])
}

/// Prints how many items each page has, or its error.
pub fn print_pages(rt: &HostRuntime) -> io::Result<()> {
    match pages(rt.alloc()) {
        Ok(pages) => println!(rt; "{pages:?}"),
        Err(error) => println!(rt; "{error}"),
    }
}
