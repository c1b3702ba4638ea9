//! Checks which lines of an export don't read as a type, before a change of the type is shipped.
//! In crates.txt: `export_check: dynamo_serde exports serde anyhow`
#![tactic(auto)]

use dynamo_serde::from_item_located;
use exports::Lines;
use serde::{Deserialize, Serialize};

#[derive(Drop, Serialize, Deserialize)]
struct User {
    id: String,
    age: u8,
}

const EXPORT: &str = r#"{"Item":{"id":{"S":"a"},"age":{"N":"42"}}}
{"Item":{"id":{"S":"b"}}}

{"Item":{"id":{"S":"c"},"age":{"N":"256"}}}
not JSON
{"Item":{"id":{"S":"d"},"age":{"N":"43"},"name":{"S":"Ford"}}}
"#;

fn main(rt: HostRuntime) -> anyhow::Result<()> {
    let alloc = rt.alloc();
    // Standard input is read by `BufReader::new(alloc, rt.reader())?` in place of the bytes.
    let mut lines = Lines::with_limit(alloc, EXPORT.as_bytes(), 4 << 20);
    let (mut read, mut failed) = (0u32, 0u32);
    for _ in 0..u64::MAX {
        match lines.next_line() {
            Some(Ok(line)) => match from_item_located::<User>(alloc, line.item) {
                Ok(_) => read = read.saturating_add(1),
                Err(error) => {
                    failed = failed.saturating_add(1);
                    println!(rt; "line {}: {error}", line.number)?;
                }
            },
            Some(Err(fault)) => {
                failed = failed.saturating_add(1);
                println!(rt; "{fault}")?;
            }
            None => break,
        }
    }
    println!(rt; "{read} lines read, {failed} failed")?;
    Ok(())
}
