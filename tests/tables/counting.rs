//! A store that counts what is read of it.
use sqlite::Alter;
use sqlite_trees::error::StoreError;
use sqlite_trees::schema::Object;
use sqlite_trees::store::{Direction, Shape, Store};
use sqlite_value::row::Row;
use std::alloc::{AllocError, Global};
use std::cell::Cell;
use std::rc::Rc;

/// How many entries of trees a cursor gave, and how many rows were got by their numbers.
#[derive(Clone, Copy, Debug, PartialEq, Eq)]
pub struct Reads {
    pub entries: u64,
    pub rows: u64,
}

/// A store, and what was read of it so far.
#[derive(Drop)]
pub struct Counted<S: Alter + Drop> {
    inner: S,
    reads: Rc<Cell<Reads>>,
}

impl<S: Alter + Drop> Counted<S> {
    /// The store, which counts into this cell.
    pub fn new(inner: S, reads: Rc<Cell<Reads>>) -> Counted<S> {
        Counted { inner, reads }
    }

    fn count(&self, entries: bool, rows: bool) {
        let reads = self.reads.get();
        self.reads.set(Reads {
            entries: reads.entries.saturating_add(u64::from(entries)),
            rows: reads.rows.saturating_add(u64::from(rows)),
        });
    }
}

impl<S: Alter + Drop> Store for Counted<S> {
    ghost view = { λ c. S.Store.view c.inner };

    ghost faults = { λ c. S.Store.faults c.inner };

    ghost recovers = { λ c. S.Store.recovers c.inner };

    ghost is_shielded = { λ c. S.Store.is_shielded c.inner };

    ghost is_step = { λ a b tree. S.Store.is_step a.inner b.inner tree };

    ghost blamed = { λ c. S.Store.blamed c.inner };

    ghost names = { λ a b e. S.Store.names a.inner b.inner e };

    ghost ordered = { λ c. S.Store.ordered c.inner };

    ghost shut_if_dirty = { λ c. S.Store.shut_if_dirty c.inner };

    ghost empty_if_dirty = { λ c. S.Store.empty_if_dirty c.inner };

    ghost broken_if_shut = { λ c. S.Store.broken_if_shut c.inner };

    ghost settled = { λ c. S.Store.settled c.inner };

    ghost stays = { λ c. S.Store.stays c.inner };

    ghost survives = { λ c. S.Store.survives c.inner };

    ghost unaltered = { λ c. S.Store.unaltered c.inner };

    fn is_broken(&self) -> bool {
        self.inner.is_broken()
    }

    fn shape(&self, tree: u32) -> Shape {
        self.inner.shape(tree)
    }

    fn tree_count(&self) -> u64 {
        self.inner.tree_count()
    }

    fn reals(&self, tree: u32) -> u64 {
        self.inner.reals(tree)
    }

    fn seek(
        &mut self,
        cursor: u16,
        tree: u32,
        key: &Row,
        direction: Direction,
    ) -> Result<(), StoreError> {
        self.inner.seek(cursor, tree, key, direction)
    }

    fn next(&mut self, cursor: u16, row: &mut Row) -> Result<bool, StoreError> {
        let found = self.inner.next(cursor, row)?;
        self.count(found, false);
        Ok(found)
    }

    fn get(&mut self, table: u32, id: i64, row: &mut Row) -> Result<bool, StoreError> {
        let found = self.inner.get(table, id, row)?;
        self.count(false, found);
        Ok(found)
    }

    fn put(&mut self, table: u32, row: &Row) -> Result<(), StoreError> {
        self.inner.put(table, row)
    }

    fn delete(&mut self, table: u32, id: i64) -> Result<(), StoreError> {
        self.inner.delete(table, id)
    }

    fn insert(&mut self, index: u32, entry: &Row) -> Result<(), StoreError> {
        self.inner.insert(index, entry)
    }

    fn remove(&mut self, index: u32, entry: &Row) -> Result<(), StoreError> {
        self.inner.remove(index, entry)
    }

    fn commit(&mut self) -> Result<(), StoreError> {
        self.inner.commit()
    }

    fn rollback(&mut self) {
        self.inner.rollback()
    }

    fn savepoint(&mut self) -> Result<(), StoreError> {
        self.inner.savepoint()
    }

    fn release(&mut self) -> Result<(), StoreError> {
        self.inner.release()
    }

    fn rollback_to(&mut self) -> Result<(), StoreError> {
        self.inner.rollback_to()
    }
}

impl<S: Alter + Drop> Alter for Counted<S> {
    ghost listed = { λ c. S.Alter.listed c.inner };

    fn objects(&self, alloc: Global) -> Result<Vec<Row>, AllocError> {
        self.inner.objects(alloc)
    }

    fn create(&mut self, tree: u32, object: &Object<'_>) -> Result<(), StoreError> {
        self.inner.create(tree, object)
    }

    fn destroy(&mut self, tree: u32) -> Result<(), StoreError> {
        self.inner.destroy(tree)
    }

    fn relist(&mut self, changes: &[(u32, Object<'_>)]) -> Result<(), StoreError> {
        self.inner.relist(changes)
    }

    fn version(&self) -> u32 {
        self.inner.version()
    }

    fn set_version(&mut self, version: u32) -> Result<(), StoreError> {
        self.inner.set_version(version)
    }
}
