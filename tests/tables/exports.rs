//! The lines of an export.
use dynamo_json::DynamoJson;
use dynamo_value::{AttributeValue, Error, ErrorImpl, Item};
use exports::{Line, LineFault, Lines};
use serde_json::Value;
use std::alloc::{AllocError, Global};
use std::io;
use std::io::BufReader;

// The text of an item after it was written as a text and read from it.
fn text_again(alloc: Global, item: &Item) -> Result<String, Error> {
    let text = item.to_json_text(alloc)?;
    match Value::from_str(alloc, text.as_str()) {
        Ok(json) => Item::from_json(alloc, &json)?.to_json_text(alloc),
        Err(_) => Err(Error::from(ErrorImpl::OutOfMemory)),
    }
}

fn print_line(rt: &HostRuntime, answer: Result<Line, LineFault>) -> io::Result<()> {
    match answer {
        Ok(line) => match text_again(rt.alloc(), &line.item) {
            Ok(text) => println!(rt; "{}: {text}", line.number),
            Err(error) => println!(rt; "{}: {error}", line.number),
        },
        Err(broken) => println!(rt; "{}: {}", broken.number, broken.fault),
    }
}

/// Prints each item of the input, or why there is none.
pub fn print_again(rt: &HostRuntime) -> io::Result<()> {
    let mut lines = Lines::new(rt.alloc(), BufReader::new(rt.alloc(), rt.reader())?);
    for _ in 0..u64::MAX {
        match lines.next_line() {
            Some(answer) => print_line(rt, answer)?,
            None => break,
        }
    }
    Ok(())
}

// The lines of so many bytes each, the line feed with them. A line has attributes that aren't in the order of their names; with
// a member after the item it is one of which a JSON value is made.
fn long_lines(alloc: Global) -> Result<String, AllocError> {
    let mut text = String::new(alloc);
    for len in [32_768, 32_769, 70_000, 400_000, 100] {
        for behind in ["", r#","x":{}"#] {
            let whole = r#"{"Item":{"b":{"S":""},"a":{"N":"1"}}}"#.len() + behind.len() + 1;
            let filled = "x".repeat(alloc, len - whole)?;
            text.push_str(&format!(in alloc;
                r#"{{"Item":{{"b":{{"S":"{filled}"}},"a":{{"N":"1"}}}}{behind}}}"#
            )?)?;
            text.push('\n')?;
        }
    }
    Ok(text)
}

/// Prints the names of each item of some long lines, and the length of its text.
pub fn print_long(rt: &HostRuntime) -> anyhow::Result<()> {
    let text = long_lines(rt.alloc())?;
    let mut lines = Lines::new(rt.alloc(), text.as_bytes());
    for _ in 0..11 {
        match lines.next_line() {
            Some(Ok(line)) => {
                print!(rt; "{}:", line.number)?;
                for (name, value) in line.item.inner().iter() {
                    match value {
                        AttributeValue::S(text) => print!(rt; " {name} {}", text.len())?,
                        _ => print!(rt; " {name}")?,
                    }
                }
                println!(rt)?;
            }
            Some(Err(broken)) => println!(rt; "{broken}")?,
            None => println!(rt; "no more")?,
        }
    }
    Ok(())
}
