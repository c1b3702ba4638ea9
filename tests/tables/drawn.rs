//! Holds tables in a SQLite database and tables in memory against a plain list with the rules.
//!
//! Ten thousand calls are drawn at random, each on one of twelve tables: their partition keys are of each of the three kinds,
//! with a sort key of each kind and without one. What the list answers, items or a refusal, the table in memory and the one in
//! the database have to answer too, and to have as many items afterwards. Printed is how many calls there were of each kind,
//! how many of them were refused, and the first that differs, if any does. Fewer calls follow on tables in a database of pages
//! in memory.
use crate::calls::{Call, Draw, NAMES, Shape, shapes};
use crate::three::{Outcome, Three};
use sqlite::{Alter, MemStore};
use std::alloc::Global;
use std::io;
use table_keys::KeyKind;
use table_store::{MemoryPages, StoreError, create_in_memory, create_in_memory_file};

// How many calls of one kind were made, and how many of them refused.
#[derive(Clone, Copy)]
struct Count {
    made: u64,
    refused: u64,
}

// The counts of all kinds, and the first call that differs.
#[derive(Drop)]
struct Tally {
    counts: [Count; 8],
    differing: Option<Call>,
}

impl Tally {
    fn count(&mut self, name: usize, refused: bool) {
        if let Some(count) = self.counts.get_mut(name) {
            count.made = count.made.saturating_add(1);
            if refused {
                count.refused = count.refused.saturating_add(1);
            }
        }
    }
}

// The tables in a database that keeps its rows in one list.
fn listed(alloc: Global) -> Result<Vec<Three<MemStore>>, StoreError> {
    let mut tables = Vec::new(alloc);
    for shape in shapes(alloc)? {
        let store = create_in_memory(alloc, "table", shape.schema(alloc)?)?;
        tables.push(Three::new(alloc, shape, store)?)?;
    }
    Ok(tables)
}

// Four of the tables, in databases of pages. Each takes the memory of two hundred pages at once.
fn paged(alloc: Global) -> Result<Vec<Three<MemoryPages>>, StoreError> {
    let mut tables = Vec::new(alloc);
    for shape in [
        (KeyKind::S, None),
        (KeyKind::N, Some(KeyKind::S)),
        (KeyKind::B, Some(KeyKind::N)),
        (KeyKind::S, Some(KeyKind::B)),
    ] {
        let shape = Shape {
            partition: shape.0,
            sort: shape.1,
        };
        let store = create_in_memory_file(alloc, "table", shape.schema(alloc)?)?;
        tables.push(Three::new(alloc, shape, store)?)?;
    }
    Ok(tables)
}

// Makes a call on one of the tables: whether all agree on it.
fn call<S: Alter + Drop>(
    alloc: Global,
    tables: &mut [Three<S>],
    draw: &mut Draw,
    tally: &mut Tally,
) -> Result<bool, StoreError> {
    // A put is drawn twice as often as a call of another kind.
    let name = draw.below(10) % 8;
    let Some(three) = tables.get_mut(draw.below(tables.len())) else {
        return Ok(false);
    };
    let call = draw.call(name, three.shape());
    let outcome = three.call(alloc, call)?;
    tally.count(name, outcome == Outcome::Refused);
    if outcome == Outcome::Differs {
        tally.differing = Some(call);
    }
    Ok(outcome != Outcome::Differs)
}

fn run<S: Alter + Drop>(
    alloc: Global,
    tables: &mut [Three<S>],
    calls: u32,
) -> Result<Tally, StoreError> {
    let mut draw = Draw::new(20);
    let mut tally = Tally {
        counts: [Count {
            made: 0,
            refused: 0,
        }; 8],
        differing: None,
    };
    for _ in 0..calls {
        if !call(alloc, tables, &mut draw, &mut tally)? {
            break;
        }
    }
    Ok(tally)
}

fn counted(alloc: Global) -> Result<Tally, StoreError> {
    let mut tables = listed(alloc)?;
    run(alloc, tables.as_mut_slice(), 10_000)
}

fn counted_in_pages(alloc: Global) -> Result<Tally, StoreError> {
    let mut tables = paged(alloc)?;
    run(alloc, tables.as_mut_slice(), 400)
}

fn print(rt: &HostRuntime, tally: &Tally) -> io::Result<()> {
    for (name, count) in NAMES.iter().zip(tally.counts.iter()) {
        println!(rt; "{name}: {} calls, {} refused", count.made, count.refused)?;
    }
    print_all(rt, tally)
}

fn print_all(rt: &HostRuntime, tally: &Tally) -> io::Result<()> {
    let mut all = 0u64;
    for count in tally.counts {
        all = all.saturating_add(count.made);
    }
    match tally.differing {
        Some(call) => println!(rt; "differs: {call:?}"),
        None => println!(rt; "{all} calls agree"),
    }
}

/// Prints how many calls on tables in a database that keeps its rows in one list agree, and how many on tables of pages.
pub fn print_tallies(rt: &HostRuntime) -> io::Result<()> {
    match counted(rt.alloc()) {
        Ok(tally) => print(rt, &tally)?,
        Err(error) => println!(rt; "{error}")?,
    }
    match counted_in_pages(rt.alloc()) {
        Ok(tally) => print_all(rt, &tally),
        Err(error) => println!(rt; "{error}"),
    }
}
