//! Queries of values that lie close to each other, in a table in memory and in one in a database, held against a plain filter.
use crate::calls::{Draw, Shape, set, shapes};
use crate::pools::{COUNT, Value, misplaced, pooled};
use crate::question::{Pair, Question, draw_one};
use crate::tables::Calls;
use dynamo_value::{AttributeValue, Item};
use sqlite::Connection;
use std::alloc::{AllocError, Global};
use std::io;
use table_keys::{Key, KeyKind, Query};
use table_memory::Table;
use table_store::{MemoryPages, StoreError, TableStore, create_in_memory_file};

// How many queries are asked of each pair of tables.
const QUESTIONS: u32 = 100;

// How many partitions a table with a sort key has.
const PARTITIONS: usize = 5;

// A table in memory and one in a database with the same items, and their keys in order, each with its item.
#[derive(Drop)]
struct Both {
    shape: Shape,
    keys: Vec<Pair>,
    items: Vec<Item>,
    memory: Table,
    store: TableStore<MemoryPages>,
}

/// What came of the queries.
#[derive(Clone, Copy)]
struct Report {
    asked: u32,
    found: u32,
    chained: u32,
    pages: u32,
}

/// A query that a table answers otherwise than the filter.
#[derive(Drop)]
enum Fault {
    Differs(Shape, Question),
    Store(StoreError),
}

impl From<StoreError> for Fault {
    fn from(error: StoreError) -> Fault {
        Fault::Store(error)
    }
}

impl From<AllocError> for Fault {
    fn from(error: AllocError) -> Fault {
        Fault::Store(StoreError::from(error))
    }
}

// The item of a key, with a number of its own.
pub fn item(alloc: Global, pair: Pair, number: usize) -> Result<Item, StoreError> {
    let mut item = Item::new(alloc);
    let own = AttributeValue::N(format!(in alloc; "{number}")?);
    set(
        alloc,
        &mut item,
        "partition",
        pair.partition.attribute(alloc)?,
    )?;
    if let Some(sort) = pair.sort {
        set(alloc, &mut item, "sort", sort.attribute(alloc)?)?;
    }
    set(alloc, &mut item, "note", own)?;
    Ok(item)
}

impl Both {
    fn empty(
        alloc: Global,
        conn: Connection<MemoryPages>,
        shape: Shape,
    ) -> Result<Both, StoreError> {
        let name = format!(in alloc; "{shape:?}")?;
        Ok(Both {
            shape,
            keys: Vec::new(alloc),
            items: Vec::new(alloc),
            memory: Table::new(alloc, shape.schema(alloc)?),
            store: TableStore::create(alloc, conn, name.as_str(), shape.schema(alloc)?)?,
        })
    }

    // Keeps an item for a key, in place of the one that is there.
    fn keep(&mut self, alloc: Global, pair: Pair, number: usize) -> Result<(), StoreError> {
        let item = item(alloc, pair, number)?;
        let place = self
            .keys
            .iter()
            .filter(|key| key.compare(pair).is_lt())
            .count();
        if self
            .keys
            .get(place)
            .is_some_and(|key| key.compare(pair).is_eq())
        {
            self.keys.remove(place);
            self.items.remove(place);
        }
        self.keys.insert(place, pair)?;
        self.items.insert(place, item)?;
        Ok(())
    }

    // Puts the items that are kept into both tables.
    fn put_all(&mut self) -> Result<(), StoreError> {
        for item in self.items.iter() {
            Calls::put(&mut self.memory, item.clone()?)?;
        }
        self.store.write_all(self.items.as_slice())
    }

    // One item for each value of the pool. Some numbers are put again in another spelling.
    fn fill_partitions(&mut self, alloc: Global) -> Result<(), StoreError> {
        for place in 0..COUNT {
            let partition = pooled(self.shape.partition, place);
            let sort = None;
            self.keep(alloc, Pair { partition, sort }, place)?;
        }
        self.put_all()?;
        for place in COUNT..COUNT.saturating_add(10) {
            let partition = pooled(self.shape.partition, place);
            if matches!(partition, Value::N(_)) {
                let sort = None;
                self.keep(alloc, Pair { partition, sort }, place)?;
            }
        }
        self.put_all()
    }

    // Some partitions that lie beside each other, each with about a quarter of the pool.
    fn fill(&mut self, alloc: Global, draw: &mut Draw, sort: KeyKind) -> Result<(), StoreError> {
        let first = draw.below(COUNT.saturating_sub(PARTITIONS));
        for at in 0..PARTITIONS {
            let partition = pooled(self.shape.partition, first.saturating_add(at));
            for place in 0..COUNT {
                if draw.below(4) == 0 {
                    let pair = Pair {
                        partition,
                        sort: Some(pooled(sort, place)),
                    };
                    self.keep(alloc, pair, at.saturating_mul(COUNT).saturating_add(place))?;
                }
            }
        }
        self.put_all()
    }
}

// The items that a table finds.
pub fn found<T: Calls>(
    alloc: Global,
    table: &mut T,
    asked: &Question,
    start: Option<&Key>,
) -> Result<Vec<Item>, StoreError> {
    let partition = asked.partition.key_value(alloc)?;
    let low = asked.low.key_value(alloc)?;
    let high = asked.high.key_value(alloc)?;
    table.query(
        alloc,
        &Query {
            partition: &partition,
            sort: asked.sign.condition(&low, &high),
            backward: asked.backward,
            limit: asked.limit,
            start_after: start,
        },
    )
}

// The items that a table finds in pages, each of which starts after the last item of the one before, and how many pages there
// are.
fn in_pages<T: Calls>(
    alloc: Global,
    table: &mut T,
    asked: &Question,
) -> Result<(Vec<Item>, u32), StoreError> {
    let mut all = Vec::new(alloc);
    let mut start = start_of(alloc, asked)?;
    for pages in 0..1_000u32 {
        let mut page = found(alloc, table, asked, start.as_ref())?;
        let Some(last) = page.as_slice().last() else {
            return Ok((all, pages));
        };
        start = Some(table.key(last)?);
        all.append(&mut page)?;
    }
    Ok((all, 1_000))
}

pub fn start_of(alloc: Global, asked: &Question) -> Result<Option<Key>, StoreError> {
    match asked.start {
        Some(pair) => Ok(Some(pair.key(alloc)?)),
        None => Ok(None),
    }
}

// Whether these are the items at these places.
pub fn are_at(items: &[Item], places: &[usize], found: &[Item]) -> bool {
    for (place, item) in places.iter().zip(found.iter()) {
        if items.get(*place) != Some(item) {
            return false;
        }
    }
    places.len() == found.len()
}

impl Both {
    // Asks both tables a query: how many items it finds, or `None` where a table answers otherwise than the filter.
    fn ask(&mut self, alloc: Global, asked: &Question) -> Result<Option<usize>, StoreError> {
        let wanted = asked.answer(alloc, self.keys.as_slice())?;
        let start = start_of(alloc, asked)?;
        let memory = found(alloc, &mut self.memory, asked, start.as_ref())?;
        let store = found(alloc, &mut self.store, asked, start.as_ref())?;
        let same = are_at(self.items.as_slice(), wanted.as_slice(), memory.as_slice())
            && are_at(self.items.as_slice(), wanted.as_slice(), store.as_slice());
        Ok(if same { Some(wanted.len()) } else { None })
    }

    // Asks both tables a query in pages of its limit: how many pages there are, or `None` where they aren't the whole answer.
    fn ask_in_pages(&mut self, alloc: Global, asked: &Question) -> Result<Option<u32>, StoreError> {
        let whole = Question {
            limit: usize::MAX,
            ..*asked
        };
        let wanted = whole.answer(alloc, self.keys.as_slice())?;
        let (memory, count) = in_pages(alloc, &mut self.memory, asked)?;
        let (store, other) = in_pages(alloc, &mut self.store, asked)?;
        let pages = wanted.len().div_ceil(asked.limit) as u32;
        let same = are_at(self.items.as_slice(), wanted.as_slice(), memory.as_slice())
            && are_at(self.items.as_slice(), wanted.as_slice(), store.as_slice())
            && (count, other) == (pages, pages);
        Ok(if same { Some(pages) } else { None })
    }

    // Draws queries and asks them.
    fn run(&mut self, alloc: Global, draw: &mut Draw, report: &mut Report) -> Result<(), Fault> {
        for _ in 0..QUESTIONS {
            let asked = draw_one(draw, self.shape, self.keys.as_slice());
            let Some(count) = self.ask(alloc, &asked)? else {
                return Err(Fault::Differs(self.shape, asked));
            };
            report.count(count);
            if count > 0 {
                let paged = Question {
                    limit: draw.below(4).saturating_add(1),
                    ..asked
                };
                match self.ask_in_pages(alloc, &paged)? {
                    Some(pages) => report.count_pages(pages),
                    None => return Err(Fault::Differs(self.shape, paged)),
                }
            }
        }
        Ok(())
    }
}

impl Report {
    fn count(&mut self, found: usize) {
        self.asked = self.asked.saturating_add(1);
        if found > 0 {
            self.found = self.found.saturating_add(1);
        }
    }

    fn count_pages(&mut self, pages: u32) {
        self.chained = self.chained.saturating_add(1);
        self.pages = self.pages.saturating_add(pages);
    }

    // Whether the drawn queries test enough: a quarter of them find items, and there are more pages than queries asked in pages.
    fn is_telling(&self) -> bool {
        self.found.saturating_mul(4) >= self.asked && self.pages > self.chained
    }
}

// Asks queries of the tables of these kinds of keys. The database has the tables that were asked before, too.
fn run_at(
    alloc: Global,
    conn: Connection<MemoryPages>,
    shape: Shape,
    draw: &mut Draw,
    report: &mut Report,
) -> Result<Connection<MemoryPages>, Fault> {
    let mut both = Both::empty(alloc, conn, shape)?;
    match shape.sort {
        Some(sort) => both.fill(alloc, draw, sort)?,
        None => both.fill_partitions(alloc)?,
    }
    both.run(alloc, draw, report)?;
    let Both { store, .. } = both;
    Ok(store.into_connection())
}

fn run(alloc: Global) -> Result<Report, Fault> {
    let shape = Shape {
        partition: KeyKind::S,
        sort: None,
    };
    let other = create_in_memory_file(alloc, "other", shape.schema(alloc)?)?;
    let mut conn = other.into_connection();
    let mut draw = Draw::new(38);
    let mut report = Report {
        asked: 0,
        found: 0,
        chained: 0,
        pages: 0,
    };
    for shape in shapes(alloc)? {
        conn = run_at(alloc, conn, shape, &mut draw, &mut report)?;
    }
    Ok(report)
}

/// Prints that both tables answer each query as the filter does, or the first that one of them answers otherwise.
pub fn print_answers(rt: &HostRuntime) -> io::Result<()> {
    if let Some(value) = misplaced() {
        println!(rt; "not in the order of its pool: {value:?}")?;
    }
    match run(rt.alloc()) {
        Ok(report) if report.is_telling() => {
            println!(rt;
                "{} queries in both tables, whole and in pages: as the filter",
                report.asked
            )
        }
        Ok(report) => println!(rt;
            "of {} queries only {} find items",
            report.asked, report.found
        ),
        Err(Fault::Differs(shape, asked)) => println!(rt; "{shape:?} {asked:?}: not as the filter"),
        Err(Fault::Store(error)) => println!(rt; "{error}"),
    }
}
