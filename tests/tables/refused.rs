//! A table in memory whose files get no memory: each write that makes a file longer is refused in turn, alone and with the two
//! after it. No other write takes memory.
//!
//! A call that is refused has to return that memory ran out and to leave the items, and made once more it has to succeed.
//! Printed is how many writes were refused, and each call that did otherwise.
use dynamo_json::DynamoJson;
use dynamo_value::Item;
use sqlite::{Connection, FileStore, Files, Options};
use sqlite_disk::{Disk, Tally};
use std::alloc::Global;
use std::cell::Cell;
use std::io;
use std::rc::Rc;
use table_keys::{Condition, Key, KeySchema};
use table_pages::{InMemory, Memory};
use table_store::{StoreError, TableStore};

// Which writes that make a file longer are refused: those after so many, and how many of them.
#[derive(Clone, Copy, Debug)]
struct Refusals {
    before: u64,
    left: u64,
}

const NONE: Refusals = Refusals { before: 0, left: 0 };

// A file that is refused memory.
#[derive(Drop)]
struct Refusing<D: Disk + Drop> {
    file: D,
    refusals: Rc<Cell<Refusals>>,
}

impl<D: Disk + Drop> Refusing<D> {
    // Asks for the memory of a file of this length.
    fn ask(&mut self, len: usize) -> io::Result<()> {
        if len <= self.file.len()? {
            return Ok(());
        }
        let mut refusals = self.refusals.get();
        let is_refused = refusals.before == 0 && refusals.left > 0;
        if is_refused {
            refusals.left = refusals.left.saturating_sub(1);
        }
        refusals.before = refusals.before.saturating_sub(1);
        self.refusals.set(refusals);
        if is_refused {
            return Err(io::ErrorKind::OutOfMemory.into());
        }
        Ok(())
    }
}

impl<D: Disk + Drop> Disk for Refusing<D> {
    ghost seen = { λ it. D.Disk.seen it.file };

    ghost may_leave = { λ it. D.Disk.may_leave it.file };

    ghost is_usable = { λ it. D.Disk.is_usable it.file };

    ghost faults = { λ it. D.Disk.faults it.file };

    ghost tally_of = { λ it. D.Disk.tally_of it.file };

    ghost is_clean = { λ it. D.Disk.is_clean it.file };

    ghost key_of = { λ it. D.Disk.key_of it.file };

    ghost is_fair = { λ it. D.Disk.is_fair it.file };

    ghost seen_may_stay = { λ it. D.Disk.seen_may_stay it.file };

    ghost fair_if_clean = { λ it. D.Disk.fair_if_clean it.file };

    fn mixes(&self) -> bool {
        false
    }

    fn key(&self) -> u64 {
        self.file.key()
    }

    fn tally(&self) -> Tally {
        self.file.tally()
    }

    fn may_be_used(&self) -> bool {
        self.file.may_be_used()
    }

    fn len(&mut self) -> io::Result<usize> {
        self.file.len()
    }

    fn read_at(&mut self, at: usize, buf: &mut [u8]) -> io::Result<()> {
        self.file.read_at(at, buf)
    }

    fn read_checked(&mut self, key: u64, want: u64, at: usize, buf: &mut [u8]) -> io::Result<()> {
        self.file.read_checked(key, want, at, buf)
    }

    fn write_at(&mut self, at: usize, bytes: &[u8]) -> io::Result<()> {
        self.ask(at.saturating_add(bytes.len()))?;
        self.file.write_at(at, bytes)
    }

    fn set_len(&mut self, len: usize) -> io::Result<()> {
        self.ask(len)?;
        self.file.set_len(len)
    }

    fn sync(&mut self) -> io::Result<()> {
        self.file.sync()
    }
}

type Refused = TableStore<InMemory<FileStore<Refusing<Memory>>>>;

// A table without items. The log goes into the database after a few pages, so that both files are written.
fn table(alloc: Global, refusals: &Rc<Cell<Refusals>>) -> Result<Refused, StoreError> {
    let files = Files {
        log: Refusing {
            file: Memory::new(alloc),
            refusals: refusals.clone()?,
        },
        db: Refusing {
            file: Memory::new(alloc),
            refusals: refusals.clone()?,
        },
    };
    let options = Options {
        cache_pages: 20,
        checkpoint_frames: 12,
        ..Options::new(0)
    };
    let store = match Connection::open_files(alloc, files, options) {
        Ok(conn) => InMemory::new(conn.into_store()),
        Err((error, _)) => return Err(StoreError::from(error)),
    };
    match Connection::over(alloc, store) {
        Ok(conn) => TableStore::create(alloc, conn, "notes", KeySchema::parse(alloc, &["id:N"])?),
        Err((error, _)) => Err(StoreError::from(error)),
    }
}

fn item(alloc: Global, id: u64, length: usize) -> Result<Item, StoreError> {
    let note = "x".repeat(alloc, length)?;
    let text = format!(in alloc; r#"{{"id":{{"N":"{id}"}},"note":{{"S":"{note}"}}}}"#)?;
    Item::from_json_text(alloc, text.as_str()).map_err(|_| StoreError::Unreadable)
}

fn items(alloc: Global, length: usize) -> Result<Vec<Item>, StoreError> {
    let mut items = Vec::new(alloc);
    for id in 10..40 {
        items.push(item(alloc, id, length)?)?;
    }
    Ok(items)
}

fn key(alloc: Global, id: &str) -> Result<Key, StoreError> {
    Ok(KeySchema::parse(alloc, &["id:N"])?.key_from(alloc, id, None)?)
}

// How many calls there are.
const CALLS: u64 = 10;

fn call(alloc: Global, table: &mut Refused, number: u64) -> Result<(), StoreError> {
    match number {
        0 => drop(table.put(&item(alloc, 1, 10)?)?),
        1 => drop(table.put(&item(alloc, 2, 5000)?)?),
        2 => drop(table.put_if(Condition::Exists, &item(alloc, 1, 900)?)?),
        3 => table.write_all(items(alloc, 1500)?.as_slice())?,
        4 => table.update(&key(alloc, "2")?, |_| item(alloc, 2, 20))?,
        5 => drop(table.delete(&key(alloc, "1")?)?),
        6 => table.write_all(items(alloc, 30)?.as_slice())?,
        7 => drop(table.put_returning_key(&item(alloc, 3, 9000)?)?),
        8 => drop(table.delete_if(Condition::Exists, &key(alloc, "11")?)?),
        _ => drop(table.put(&item(alloc, 3, 1)?)?),
    }
    Ok(())
}

// The text of all items.
fn text_of(alloc: Global, table: &mut Refused) -> Result<String, StoreError> {
    let mut text = String::new(alloc);
    for item in table.scan(usize::MAX, None)?.iter() {
        item.push_json_text(&mut text)
            .map_err(|_| StoreError::Unreadable)?;
    }
    Ok(text)
}

// A table on which all calls were made, some with refusals. What went otherwise is printed.
fn run(
    rt: &HostRuntime,
    refusals: &Rc<Cell<Refusals>>,
    run: Refusals,
) -> Result<String, StoreError> {
    let alloc = rt.alloc();
    refusals.set(NONE);
    let mut table = table(alloc, refusals)?;
    refusals.set(run);
    for number in 0..CALLS {
        let before = text_of(alloc, &mut table)?;
        for _ in 0..=run.left {
            match call(alloc, &mut table, number) {
                Ok(()) => break,
                Err(StoreError::OutOfMemory) if text_of(alloc, &mut table)? == before => {}
                Err(error) => {
                    let _ = println!(rt; "{run:?}, call {number}: {error}");
                }
            }
        }
    }
    text_of(alloc, &mut table)
}

fn run_all(rt: &HostRuntime) -> Result<u64, StoreError> {
    let refusals = Rc::new(rt.alloc(), Cell::new(NONE))?;
    let whole = run(rt, &refusals, NONE)?;
    let mut count: u64 = 0;
    for left in [1, 3] {
        for before in 0..u64::MAX {
            let refused = Refusals { before, left };
            if run(rt, &refusals, refused)? != whole {
                let _ = println!(rt; "{refused:?}: other items at the end");
            }
            let refused = left.saturating_sub(refusals.get().left);
            count = count.saturating_add(refused);
            if refused == 0 {
                break;
            }
        }
    }
    Ok(count)
}

/// Prints how many writes were refused, and what went otherwise.
pub fn print_refused(rt: &HostRuntime) -> io::Result<()> {
    match run_all(rt) {
        Ok(count) => println!(rt;
            "{count} writes of files in memory refused: each call left the items, and was made again"
        ),
        Err(error) => println!(rt; "{error}"),
    }
}
