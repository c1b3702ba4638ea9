//! Holds the table in memory against what is known of DynamoDB and of Python's decimal.
//!
//! `numbers.tsv` has 2,000 rows: a text, whether it is the text of a number that DynamoDB keeps, another text, whether it is,
//! and how the two compare. The rows that differ are printed, and how many there are. Each line of `calls.txt` is a call on a
//! table, or makes another one, and what it answers is printed. Calls drawn at random are in `drawn`.
use crate::{numbers, script};
use std::alloc::AllocError;
use std::{fs, io};
use table_memory::Table;

fn number_rows(rt: &HostRuntime) -> io::Result<()> {
    let rows = fs::read_to_string(rt, "numbers.tsv")?;
    let mut count = 0u64;
    let mut differing = 0u64;
    for row in rows.as_str().lines() {
        count = count.saturating_add(1);
        if !numbers::agrees(row) {
            differing = differing.saturating_add(1);
            println!(rt; "differs: {row}")?;
        }
    }
    println!(rt; "{count} rows of numbers, {differing} differ")
}

fn call(rt: &HostRuntime, table: &mut Table, line: &str) -> io::Result<()> {
    match script::answer(rt.alloc(), table, line) {
        Ok(answer) => println!(rt; "{answer}"),
        Err(error) => println!(rt; "{error}"),
    }
}

// The table that a line makes, if it makes one.
fn made(rt: &HostRuntime, line: &str) -> Result<Option<Table>, AllocError> {
    match line.split_once(' ') {
        Some(("table", kind)) => Ok(Some(script::table(rt.alloc(), kind)?)),
        _ => Ok(None),
    }
}

fn calls(rt: &HostRuntime) -> io::Result<()> {
    let lines = fs::read_to_string(rt, "calls.txt")?;
    let mut table = script::table(rt.alloc(), "n:")?;
    for line in lines.as_str().lines() {
        match made(rt, line)? {
            Some(other) => {
                table = other;
                println!(rt; "a table")?;
            }
            None => call(rt, &mut table, line)?,
        }
    }
    Ok(())
}

/// Prints the rows of numbers that differ, and what the calls answer.
pub fn print_answers(rt: &HostRuntime) -> io::Result<()> {
    number_rows(rt)?;
    calls(rt)
}
