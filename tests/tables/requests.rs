//! Request files, one a line.
use dynamo_json::DynamoJson;
use dynamo_value::Item;
use exports::{Request, TableRequests, requests_in_file};
use std::{fs, io};

fn print_item(rt: &HostRuntime, word: &str, item: &Item) -> io::Result<()> {
    match item.to_json_text(rt.alloc()) {
        Ok(text) => println!(rt; "{word} {text}"),
        Err(error) => println!(rt; "{error}"),
    }
}

fn print_table(rt: &HostRuntime, table: &TableRequests) -> io::Result<()> {
    println!(rt; "table {}", table.table)?;
    for request in &table.requests {
        match request {
            Request::Put(item) => print_item(rt, "put", item)?,
            Request::Delete(key) => print_item(rt, "delete", key)?,
        }
    }
    Ok(())
}

fn print_file(rt: &HostRuntime, file: &str) -> io::Result<()> {
    match requests_in_file(rt.alloc(), file.as_bytes()) {
        Ok(tables) => {
            for table in &tables {
                print_table(rt, table)?;
            }
            Ok(())
        }
        Err(fault) => println!(rt; "fault: {fault}"),
    }
}

/// Prints the requests of each file, or its fault.
pub fn print_all(rt: &HostRuntime) -> io::Result<()> {
    let files = fs::read_to_string(rt, "requests.txt")?;
    for file in files.as_str().lines() {
        print_file(rt, file)?;
    }
    Ok(())
}
