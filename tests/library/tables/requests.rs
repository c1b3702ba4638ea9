//! Each request to each source shows what the rows say.
use crate::fixtures::answers::{tells, told};
use crate::fixtures::notation;
use crate::fixtures::opener::{Manner, Opener};
use crate::fixtures::readers::ask_value;
use crate::fixtures::requests::{REQUESTS, ask_source};
use crate::fixtures::rows::Row;
use crate::fixtures::teller::Teller;
use crate::tables::content_rows::MORE;
use crate::tables::request_rows::{INSIDE, VALUES};
use serde_dynamo::AttributeValue;
use std::alloc::Global;
use std::process::Abort;
use std::test::Fail;

// A list, a set or a map with the source of this text inside.
fn around(alloc: Global, source: &str) -> Result<AttributeValue, Fail> {
    let text = if let Some(text) = source.strip_prefix("number text ") {
        format!(in alloc; "Ns [\"{text}\"]")
    } else if let Some(text) = source.strip_prefix("plain text ") {
        format!(in alloc; "Ss [\"{text}\"]")
    } else if let Some(text) = source.strip_prefix("key ") {
        format!(in alloc; "M {{\"{text}\": Null(true)}}")
    } else if let Some(text) = source.strip_prefix("byte string ") {
        format!(in alloc; "Bs [{:?}]", text.as_bytes())
    } else {
        format!(in alloc; "L [{source}]")
    };
    notation::value(alloc, text?.as_str())
}

// What the source of this text tells where it is inside of a list, a set or a map.
fn ask_inside(alloc: Global, source: &str, request: &'static str) -> Result<String, Fail> {
    let value = around(alloc, source)?;
    let first = Opener {
        alloc,
        manner: Manner::First(request),
    };
    Ok(told(alloc, ask_value(value, "any", first)?)?)
}

// What is expected at a request; nothing where no row names it. The first line is the text of the source; in
// each of the others requests come before ` = `.
fn expected<'a>(rows: &'a str, request: &str) -> Option<&'a str> {
    for line in rows.lines() {
        if let Some((requests, expected)) = line.split_once(" = ")
            && requests.split(' ').any(|named| named == request)
        {
            return Some(expected);
        }
    }
    None
}

/// The requests that the table names, with their sources and what is expected, which are so many.
pub(crate) fn named(
    alloc: Global,
    table: &'static str,
    count: usize,
) -> Result<Vec<Row<'static>>, Fail> {
    let mut requests = Vec::new(alloc);
    for rows in table.split("\n\n") {
        let head = rows.lines().next().ok_or("no source")?;
        for left in REQUESTS {
            if let Some(right) = expected(rows, left) {
                requests.push(Row { head, left, right })?;
            }
        }
    }
    if requests.len() == count {
        Ok(requests)
    } else {
        Err(Fail::from("another number of requests"))
    }
}

// Makes the request, both ways.
fn compare(rt: &impl Abort, alloc: Global, row: Row<'static>) -> Result<(), Fail> {
    let (source, request) = (row.head, row.left);
    let answer = told(alloc, ask_source(source, request, Teller { alloc })?)?;
    tells(rt, source, request, answer.as_str(), row.right);
    let answer = ask_inside(alloc, source, request)?;
    tells(rt, source, request, answer.as_str(), row.right);
    Ok(())
}

#[test]
fn each_request_to_each_source_shows_its_row(rt: HostRuntime) -> Result<(), Fail> {
    for (table, count) in [(VALUES, 11 * 29), (INSIDE, 4 * 29), (MORE, 332)] {
        for row in named(rt.alloc(), table, count)? {
            compare(&rt, rt.alloc(), row)?;
        }
    }
    Ok(())
}
