//! Loads items into a table in a file, asks a query, and opens the file once more.
//! In crates.txt: `table_in_file: dynamo_value exports serde_dynamo table_keys table_store anyhow`
#![tactic(auto)]

use dynamo_value::Item;
use exports::Lines;
use serde_dynamo::DynamoJson;
use table_keys::{KeySchema, Query, SortCondition};
use table_store::{create_at, open_at};

// The lines of a full export to S3, or of `dynamo_table export`.
const EXPORT: &str =
    r#"{"Item":{"Artist":{"S":"Acme Band"},"Year":{"N":"2015"},"Song":{"S":"Happy Day"}}}
{"Item":{"Artist":{"S":"Acme Band"},"Year":{"N":"2019"},"Song":{"S":"Blue Hour"}}}
{"Item":{"Artist":{"S":"No One You Know"},"Year":{"N":"2009"},"Song":{"S":"Call Me Today"}}}
"#;

fn main(rt: HostRuntime) -> anyhow::Result<()> {
    let alloc = rt.alloc();
    let schema = KeySchema::parse(alloc, &["Artist:S", "Year:N"])?;
    let mut music = create_at(&rt, "music.db", "Music", schema)?;

    // A file is read by `BufReader::new(alloc, file)?` in place of the bytes.
    let mut lines = Lines::with_limit(alloc, EXPORT.as_bytes(), 4 << 20);
    let mut items: Vec<Item> = Vec::new(alloc);
    for _ in 0..u64::MAX {
        match lines.next_line() {
            Some(Ok(line)) => items.push(line.item)?,
            Some(Err(fault)) => println!(rt; "{fault}")?,
            None => break,
        }
    }
    music.write_all(items.as_slice())?;

    let since = music.schema().key_from(alloc, "Acme Band", Some("2016"))?;
    let mut query = Query::of(&since.partition);
    if let Some(year) = &since.sort {
        query.sort = SortCondition::GreaterOrEqual(year);
    }
    for item in &music.query(&query)? {
        println!(rt; "{}", item.to_json_text(alloc)?)?;
    }
    music.close()?;

    let mut music = open_at(&rt, "music.db", "Music")?;
    println!(rt; "{} items", music.count()?)?;
    music.close()?;
    Ok(())
}
