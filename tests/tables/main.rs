//! The tables in memory and in a database, and what is built on them. They are one program, since another would compile the
//! library once more.
//!
//! - `drawn`: calls drawn at random, on three tables that are to agree.
//! - `own_errors`: three updates by a function with errors of its own.
//! - `foreign`: four pages of a table of three items in which another program has written rows.
//! - `queries`: both kinds of tables are queried for values that lie close to each other, and answer as a plain filter does.
//! - `reads`: the rows are counted that a database reads for a query.
//! - `refused`: a table in memory whose files get no memory, at each of their writes.
//! - `memory`: numbers, and calls on the table in memory that are rows of data.
//! - `requests`: each line of `requests.txt` is a request file, whose requests are printed, or its fault.
//! - `exports`: the lines of the input are an export. Each item is printed as it is after it was written and read again, or why
//!   there is none. Long lines follow, of which the lengths are printed.
//! - `members`, `changes`, `kept`: a table of members, in memory, in a database and in one of pages.
#![tactic(auto)]

mod calls;
mod changes;
mod counting;
mod decimal;
mod drawn;
mod exports;
mod foreign;
mod kept;
mod list;
mod member;
mod members;
mod memory;
mod numbers;
mod own_errors;
mod pools;
mod queries;
mod question;
mod reads;
mod refused;
mod requests;
mod script;
mod tables;
mod three;
mod values;
mod words;

fn main(rt: HostRuntime) -> anyhow::Result<()> {
    drawn::print_tallies(&rt)?;
    own_errors::print_answers(&rt)?;
    foreign::print_pages(&rt)?;
    queries::print_answers(&rt)?;
    reads::print_reads(&rt)?;
    refused::print_refused(&rt)?;
    memory::print_answers(&rt)?;
    requests::print_all(&rt)?;
    exports::print_again(&rt)?;
    exports::print_long(&rt)?;
    members::print_calls(&rt)?;
    changes::print_calls(&rt)?;
    kept::print_calls(&rt)?;
    kept::print_calls_in_pages(&rt)
}
