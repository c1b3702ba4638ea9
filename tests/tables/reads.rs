//! How many rows a table in a database reads for a query.
//!
//! What is counted are the answers of the store below: the entries that its cursors give, of the index in which the keys lie,
//! and the rows that it gets by their numbers, one for each entry whose item is looked at. A query reads the rows that it
//! answers. It reads one more where a key of the table lies at the end that its range leaves out, since the database looks at
//! that row and leaves it out: backward that row comes first, and forward last, unless the limit is reached before. The end is
//! the bound of `<`, the least value above those of another condition, or the key after which a query starts backward. And its
//! cursor gives one more entry at most, that after the end.
use crate::calls::{Shape, Sign};
use crate::counting::{Counted, Reads};
use crate::pools::{COUNT, Value, pooled};
use crate::queries::{are_at, found, item, start_of};
use crate::question::{Pair, Question};
use dynamo_value::Item;
use sqlite::{Connection, FileStore, Files, Options};
use sqlite_disk::Memory;
use std::alloc::Global;
use std::cell::Cell;
use std::io;
use std::rc::Rc;
use table_keys::KeyKind;
use table_store::{StoreError, TableStore};

const NONE: Reads = Reads {
    entries: 0,
    rows: 0,
};

const SIGNS: [Sign; 8] = [
    Sign::Any,
    Sign::Equal,
    Sign::Less,
    Sign::LessOrEqual,
    Sign::Greater,
    Sign::GreaterOrEqual,
    Sign::Between,
    Sign::BeginsWith,
];

const LIMITS: [usize; 3] = [1, 10, usize::MAX];

// The places of three partitions, the one that is queried in the middle.
const PARTITIONS: [usize; 3] = [11, 12, 13];

// A table in a database of pages whose reads are counted, and its keys and items in order.
#[derive(Drop)]
struct Watched {
    shape: Shape,
    keys: Vec<Pair>,
    items: Vec<Item>,
    store: TableStore<Counted<FileStore<Memory>>>,
    reads: Rc<Cell<Reads>>,
}

// How many items a query answered, and what was read for it.
#[derive(Clone, Copy, Debug)]
struct Outcome {
    answered: u64,
    reads: Reads,
}

fn database(alloc: Global) -> Result<FileStore<Memory>, StoreError> {
    let files = Files {
        log: Memory::new(alloc),
        db: Memory::new(alloc),
    };
    let options = Options {
        cache_pages: 50,
        ..Options::new(0)
    };
    match Connection::open_files(alloc, files, options) {
        Ok(conn) => Ok(conn.into_store()),
        Err((error, _)) => Err(StoreError::from(error)),
    }
}

fn pair(shape: Shape, partition: usize, place: usize) -> Pair {
    Pair {
        partition: pooled(shape.partition, partition),
        sort: shape.sort.map(|kind| pooled(kind, place)),
    }
}

impl Watched {
    fn empty(alloc: Global, shape: Shape) -> Result<Watched, StoreError> {
        let reads = Rc::new(alloc, Cell::new(NONE))?;
        let counted = Counted::new(database(alloc)?, reads.clone()?);
        match Connection::over(alloc, counted) {
            Ok(conn) => Ok(Watched {
                shape,
                keys: Vec::new(alloc),
                items: Vec::new(alloc),
                store: TableStore::create(alloc, conn, "table", shape.schema(alloc)?)?,
                reads,
            }),
            Err((error, _)) => Err(StoreError::from(error)),
        }
    }

    // Three quarters of the pool in each partition: each place but the fourths.
    fn fill(&mut self, alloc: Global) -> Result<(), StoreError> {
        for partition in PARTITIONS {
            for place in 0..COUNT {
                if place % 4 != 0 {
                    let pair = pair(self.shape, partition, place);
                    self.keys.push(pair)?;
                    self.items.push(item(alloc, pair, place)?)?;
                }
            }
        }
        self.store.write_all(self.items.as_slice())
    }

    fn has(&self, pair: Pair) -> bool {
        self.keys.iter().any(|key| key.compare(pair).is_eq())
    }

    // Whether a key of the table lies at an end that the query leaves out.
    fn is_left_out(&self, asked: &Question) -> bool {
        let is_end = self.keys.iter().any(|key| {
            key.partition.compare(asked.partition).is_eq()
                && key.sort.is_some_and(|sort| is_end(asked, sort))
        });
        let is_start = asked.start.is_some_and(|start| {
            start.partition.compare(asked.partition).is_eq() && self.has(start)
        });
        is_end || (asked.backward && is_start)
    }

    // Asks a query: what came of it, or `None` where it answers other items than the filter.
    fn ask(&mut self, alloc: Global, asked: &Question) -> Result<Option<Outcome>, StoreError> {
        let wanted = asked.answer(alloc, self.keys.as_slice())?;
        let start = start_of(alloc, asked)?;
        self.reads.set(NONE);
        let found = found(alloc, &mut self.store, asked, start.as_ref())?;
        if are_at(self.items.as_slice(), wanted.as_slice(), found.as_slice()) {
            Ok(Some(Outcome {
                answered: wanted.len() as u64,
                reads: self.reads.get(),
            }))
        } else {
            Ok(None)
        }
    }
}

// Whether a value is the first after those that meet what is asked of the sort key. Where all greater ones meet it, none is.
fn is_end(asked: &Question, sort: Value) -> bool {
    match asked.sign {
        Sign::Any | Sign::Greater | Sign::GreaterOrEqual => false,
        Sign::Less => sort.compare(asked.low).is_eq(),
        Sign::Equal | Sign::LessOrEqual => sort.comes_next_to(asked.low),
        Sign::Between => sort.comes_next_to(asked.high),
        Sign::BeginsWith => sort.comes_next_to_all_with(asked.low),
    }
}

impl Outcome {
    // Whether as much was read as has to be. Where a query has a start, the end of its range may be another one than the key
    // that it leaves out, or there may be no range.
    fn is_due(self, asked: &Question, is_left_out: bool) -> bool {
        let Reads { entries, rows } = self.reads;
        let is_full = self.answered == asked.limit as u64;
        let more = u64::from(is_left_out && (asked.backward || !is_full));
        let most = self.answered.saturating_add(more);
        let least = if asked.start.is_none() {
            most
        } else {
            self.answered
        };
        rows >= least && rows <= most && entries >= rows && entries <= rows.saturating_add(1)
    }
}

// No start, a key of the partition, one that isn't there, and one of the partition before and of the one after.
fn starts(shape: Shape) -> [Option<Pair>; 5] {
    [
        None,
        Some(pair(shape, 12, 18)),
        Some(pair(shape, 12, 20)),
        Some(pair(shape, 11, 18)),
        Some(pair(shape, 13, 18)),
    ]
}

// The places of the bounds: first the lower one has an item, and then it has none. No key of the table is one of these bounds
// with a zero byte after it, or comes next to all that begin with the lower one. Of the last pair there are all such keys, but
// none of numbers.
fn bounds(kind: KeyKind) -> [(usize, usize); 3] {
    match kind {
        KeyKind::S => [(11, 30), (16, 30), (12, 26)],
        KeyKind::N => [(14, 30), (16, 30), (25, 33)],
        KeyKind::B => [(35, 38), (16, 38), (0, 4)],
    }
}

// Queries of the partition in the middle with a condition, in both directions, with each start and each limit.
fn push_questions(
    all: &mut Vec<Question>,
    shape: Shape,
    sign: Sign,
    (low, high): (usize, usize),
) -> Result<(), StoreError> {
    let kind = shape.sort.unwrap_or(KeyKind::S);
    for backward in [false, true] {
        for limit in LIMITS {
            for start in starts(shape) {
                all.push(Question {
                    partition: pooled(shape.partition, 12),
                    sign,
                    low: pooled(kind, low),
                    high: pooled(kind, high),
                    backward,
                    limit,
                    start,
                })?;
            }
        }
    }
    Ok(())
}

fn questions(alloc: Global, shape: Shape, kind: KeyKind) -> Result<Vec<Question>, StoreError> {
    let mut all = Vec::new(alloc);
    for sign in SIGNS {
        for bounds in bounds(kind) {
            push_questions(&mut all, shape, sign, bounds)?;
        }
    }
    Ok(all)
}

// Asks all queries of a table, and prints those that read too much or too little: how many don't.
fn run(rt: &HostRuntime, shape: Shape, kind: KeyKind) -> Result<u32, StoreError> {
    let alloc = rt.alloc();
    let mut watched = Watched::empty(alloc, shape)?;
    watched.fill(alloc)?;
    let mut count = 0u32;
    for asked in questions(alloc, shape, kind)?.iter() {
        let is_left_out = watched.is_left_out(asked);
        let outcome = watched.ask(alloc, asked)?;
        if outcome.is_some_and(|it| it.is_due(asked, is_left_out)) {
            count = count.saturating_add(1);
        } else {
            let _ = println!(rt; "{shape:?} {asked:?}: {outcome:?}");
        }
    }
    Ok(count)
}

fn run_all(rt: &HostRuntime) -> Result<u32, StoreError> {
    let mut count = 0u32;
    for (partition, sort) in [
        (KeyKind::S, KeyKind::N),
        (KeyKind::N, KeyKind::B),
        (KeyKind::B, KeyKind::S),
    ] {
        let shape = Shape {
            partition,
            sort: Some(sort),
        };
        count = count.saturating_add(run(rt, shape, sort)?);
    }
    Ok(count)
}

/// Prints how many queries read the rows that they answer, and those that don't.
pub fn print_reads(rt: &HostRuntime) -> io::Result<()> {
    match run_all(rt) {
        Ok(count) => println!(rt;
            "{count} queries in a database: they read the rows that they answer, and one at the end that they leave out"
        ),
        Err(error) => println!(rt; "{error}"),
    }
}
