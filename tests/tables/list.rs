//! A plain list of rows in no order, and the rules of a table on it.
use crate::calls::{Asked, Call, Row, Shape, Sign};
use crate::words::Word;
use std::alloc::Global;
use table_keys::{Condition, TableError};

/// The rows of a table.
#[derive(Drop)]
pub struct List {
    shape: Shape,
    rows: Vec<Row>,
}

// Whether a row has the key of another.
fn is_at(row: Row, other: Row) -> bool {
    row.partition == other.partition && row.sort == other.sort
}

fn holds(condition: Condition, there: bool) -> bool {
    match condition {
        Condition::Always => true,
        Condition::Exists => there,
        Condition::NotExists => !there,
    }
}

// Whether a word meets what a query asks of the sort key.
fn meets(asked: Asked, word: Word) -> bool {
    if let Sign::Any = asked.sign {
        return true;
    }
    let (place, low) = (word.place, asked.low.place);
    word.kind == asked.low.kind
        && match asked.sign {
            Sign::Any => true,
            Sign::Equal => place == low,
            Sign::Less => place < low,
            Sign::LessOrEqual => place <= low,
            Sign::Greater => place > low,
            Sign::GreaterOrEqual => place >= low,
            Sign::Between => place >= low && place <= asked.high.place,
            Sign::BeginsWith => word.begins_with(asked.low),
        }
}

// Whether a row comes after the one after which a query starts.
fn is_behind(asked: Asked, row: Row) -> bool {
    let Some(start) = asked.start else {
        return true;
    };
    let (own, other) = ((row.partition, row.sort), (start.partition, start.sort));
    if asked.backward {
        own < other
    } else {
        own > other
    }
}

impl List {
    /// The list without rows.
    pub fn new(alloc: Global, shape: Shape) -> List {
        List {
            shape,
            rows: Vec::new(alloc),
        }
    }

    /// How many rows there are.
    pub fn len(&self) -> usize {
        self.rows.len()
    }

    // That a row has a key.
    fn check(&self, row: Row) -> Result<(), TableError> {
        if let Some(error) = self.shape.partition_of(row).refusal() {
            return Err(error);
        }
        match self.shape.sort_of(row) {
            Some(word) => match word.refusal() {
                Some(error) => Err(error),
                None => Ok(()),
            },
            None => Ok(()),
        }
    }

    // The row under a key, alone.
    fn at(&self, row: Row) -> Result<Vec<Row>, TableError> {
        self.check(row)?;
        let mut found = Vec::new(*self.rows.allocator());
        for it in self.rows.iter() {
            if is_at(*it, row) {
                found.push(*it)?;
            }
        }
        Ok(found)
    }

    fn remove(&mut self, row: Row) {
        self.rows.retain(|it| !is_at(*it, row));
    }

    fn replace(&mut self, row: Row) -> Result<(), TableError> {
        self.remove(row);
        self.rows.push(row)?;
        Ok(())
    }

    fn put(&mut self, condition: Condition, row: Row) -> Result<Vec<Row>, TableError> {
        let before = self.at(row)?;
        if !holds(condition, !before.is_empty()) {
            return Err(TableError::ConditionFailed);
        }
        self.replace(row)?;
        Ok(before)
    }

    fn delete(&mut self, condition: Condition, row: Row) -> Result<Vec<Row>, TableError> {
        let before = self.at(row)?;
        if !holds(condition, !before.is_empty()) {
            return Err(TableError::ConditionFailed);
        }
        self.remove(row);
        Ok(before)
    }

    fn update(&mut self, row: Row, mut other: Row) -> Result<Vec<Row>, TableError> {
        let before = self.at(row)?;
        let Some(first) = before.first() else {
            return Err(TableError::NoItem);
        };
        self.check(other)?;
        if !is_at(row, other) {
            return Err(TableError::KeyChanged);
        }
        other.earlier = first.note;
        self.replace(other)?;
        Ok(before)
    }

    fn finds(&self, asked: Asked, row: Row) -> bool {
        let meets = match self.shape.sort_of(row) {
            Some(word) => meets(asked, word),
            None => matches!(asked.sign, Sign::Any),
        };
        row.partition == asked.partition.place && meets && is_behind(asked, row)
    }

    fn query(&self, asked: Asked) -> Result<Vec<Row>, TableError> {
        if let Some(start) = asked.start {
            self.check(start)?;
        }
        let mut found = Vec::new(*self.rows.allocator());
        for row in self.rows.iter() {
            if self.finds(asked, *row) {
                found.push(*row)?;
            }
        }
        found.sort_unstable();
        if asked.backward {
            found.reverse();
        }
        found.truncate(asked.limit);
        Ok(found)
    }

    fn all(&self) -> Result<Vec<Row>, TableError> {
        let mut all = self.rows.clone()?;
        all.sort_unstable();
        Ok(all)
    }

    /// The rows that a call answers: what was there, or what is found.
    pub fn answer(&mut self, call: Call) -> Result<Vec<Row>, TableError> {
        match call {
            Call::Put(row) => self.put(Condition::Always, row),
            Call::PutIf(condition, row) => self.put(condition, row),
            Call::Get(row) => self.at(row),
            Call::Delete(row) => self.delete(Condition::Always, row),
            Call::DeleteIf(condition, row) => self.delete(condition, row),
            Call::Update(row, other) => self.update(row, other),
            Call::Query(asked) => self.query(asked),
            Call::Scan(_) => self.all(),
        }
    }
}
