//! Calls on a table, drawn at random.
use crate::words::{COUNT, KINDS, SPELLINGS, Word};
use dynamo_value::{AttributeValue, Item};
use std::alloc::{AllocError, Global};
use table_keys::{Condition, KeyAttribute, KeyKind, KeySchema, KeyValue, SortCondition};

/// The kinds of a table's keys.
#[derive(Clone, Copy, Debug)]
pub struct Shape {
    pub partition: KeyKind,
    pub sort: Option<KeyKind>,
}

/// An item by the places of its words, which come in the order of the keys. The sort key of a table without one is 0.
#[derive(Clone, Copy, Debug, PartialEq, Eq, PartialOrd, Ord)]
pub struct Row {
    pub partition: usize,
    pub sort: usize,
    pub spelling: usize,
    pub note: usize,
    pub earlier: usize,
}

/// What a query asks of the sort key.
#[derive(Clone, Copy, Debug)]
pub enum Sign {
    Any,
    Equal,
    Less,
    LessOrEqual,
    Greater,
    GreaterOrEqual,
    Between,
    BeginsWith,
}

/// A query of the items under the partition key of a row.
#[derive(Clone, Copy, Debug)]
pub struct Asked {
    pub partition: Word,
    pub sign: Sign,
    pub low: Word,
    pub high: Word,
    pub backward: bool,
    pub limit: usize,
    pub start: Option<Row>,
}

/// A call.
#[derive(Clone, Copy, Debug)]
pub enum Call {
    Put(Row),
    PutIf(Condition, Row),
    Get(Row),
    Delete(Row),
    DeleteIf(Condition, Row),

    /// The item under the key of the first row is to be the second, and to keep the note that it had as its earlier one.
    Update(Row, Row),
    Query(Asked),

    /// All items, in pages of so many.
    Scan(usize),
}

/// The names of the calls, in the order in which they are drawn.
pub const NAMES: [&str; 8] = [
    "put",
    "put_if",
    "get",
    "delete",
    "delete_if",
    "update",
    "query",
    "scan",
];

fn attribute(alloc: Global, name: &str, kind: KeyKind) -> Result<KeyAttribute, AllocError> {
    Ok(KeyAttribute {
        name: String::from_str(alloc, name)?,
        kind,
    })
}

/// Gives an attribute of an item a value.
pub fn set(
    alloc: Global,
    item: &mut Item,
    name: &str,
    value: AttributeValue,
) -> Result<(), AllocError> {
    let name = String::from_str(alloc, name)?;
    drop(item.inner_mut().insert(name, value)?);
    Ok(())
}

fn number(alloc: Global, number: usize) -> Result<AttributeValue, AllocError> {
    Ok(AttributeValue::N(format!(in alloc; "{number}")?))
}

/// The kinds of the keys of twelve tables: partition keys of each kind, with a sort key of each kind and without one.
pub fn shapes(alloc: Global) -> Result<Vec<Shape>, AllocError> {
    let mut shapes = Vec::new(alloc);
    for partition in KINDS {
        shapes.push(Shape {
            partition,
            sort: None,
        })?;
        for sort in KINDS {
            shapes.push(Shape {
                partition,
                sort: Some(sort),
            })?;
        }
    }
    Ok(shapes)
}

impl Shape {
    /// The names and the kinds of the keys.
    pub fn schema(self, alloc: Global) -> Result<KeySchema, AllocError> {
        let partition = attribute(alloc, "partition", self.partition)?;
        let sort = match self.sort {
            Some(kind) => Some(attribute(alloc, "sort", kind)?),
            None => None,
        };
        Ok(KeySchema { partition, sort })
    }

    /// The word of a row's partition key.
    pub fn partition_of(self, row: Row) -> Word {
        Word {
            kind: self.partition,
            place: row.partition,
            spelling: row.spelling,
        }
    }

    /// The word of a row's sort key, where the table has one.
    pub fn sort_of(self, row: Row) -> Option<Word> {
        Some(Word {
            kind: self.sort?,
            place: row.sort,
            spelling: row.spelling,
        })
    }

    /// The item of a row.
    pub fn item(self, alloc: Global, row: Row) -> Result<Item, AllocError> {
        let mut item = Item::new(alloc);
        let partition = self.partition_of(row).attribute(alloc)?;
        set(alloc, &mut item, "partition", partition)?;
        if let Some(word) = self.sort_of(row) {
            set(alloc, &mut item, "sort", word.attribute(alloc)?)?;
        }
        set(alloc, &mut item, "note", number(alloc, row.note)?)?;
        set(alloc, &mut item, "earlier", number(alloc, row.earlier)?)?;
        Ok(item)
    }
}

/// The item of an update, with the note of the item that was there.
pub fn updated(alloc: Global, before: &Item, mut item: Item) -> Result<Item, AllocError> {
    if let Some(note) = before.get("note") {
        set(alloc, &mut item, "earlier", note.clone()?)?;
    }
    Ok(item)
}

impl Sign {
    /// What is asked of the sort key, with two values.
    pub fn condition<'a>(self, low: &'a KeyValue, high: &'a KeyValue) -> SortCondition<'a> {
        match self {
            Sign::Any => SortCondition::Any,
            Sign::Equal => SortCondition::Equal(low),
            Sign::Less => SortCondition::Less(low),
            Sign::LessOrEqual => SortCondition::LessOrEqual(low),
            Sign::Greater => SortCondition::Greater(low),
            Sign::GreaterOrEqual => SortCondition::GreaterOrEqual(low),
            Sign::Between => SortCondition::Between(low, high),
            Sign::BeginsWith => SortCondition::BeginsWith(low),
        }
    }
}

/// Numbers drawn one after another, by a linear congruence.
#[derive(Drop)]
pub struct Draw(u64);

impl Draw {
    /// The draw that begins with this number.
    pub fn new(seed: u64) -> Draw {
        Draw(seed)
    }

    /// A number below a bound, and 0 below 0.
    pub fn below(&mut self, bound: usize) -> usize {
        self.0 = self
            .0
            .wrapping_mul(6_364_136_223_846_793_005)
            .wrapping_add(1);
        let drawn = (self.0 >> 33) as usize;
        drawn.checked_rem(bound).unwrap_or(0)
    }

    fn is_one_of(&mut self, count: usize) -> bool {
        self.below(count) == 0
    }

    // A row whose last word is one of so many.
    fn row_of(&mut self, shape: Shape, count: usize) -> Row {
        let place = self.below(count);
        let (partition, sort) = match shape.sort {
            Some(_) => (self.partition(), place),
            None => (place, 0),
        };
        Row {
            partition,
            sort,
            spelling: self.below(SPELLINGS),
            note: self.below(1_000_000),
            earlier: self.below(1_000_000),
        }
    }

    // One of three partitions.
    fn partition(&mut self) -> usize {
        match self.below(3) {
            0 => 0,
            1 => 6,
            _ => 11,
        }
    }

    // A row, which one time in thirteen has a word that is no key's.
    fn row(&mut self, shape: Shape) -> Row {
        self.row_of(shape, COUNT + 1)
    }

    fn condition(&mut self) -> Condition {
        if self.is_one_of(2) {
            Condition::Exists
        } else {
            Condition::NotExists
        }
    }

    // An update, which one time in four is to change the key.
    fn update(&mut self, shape: Shape) -> Call {
        let row = self.row(shape);
        let mut other = self.row(shape);
        if !self.is_one_of(4) {
            other.partition = row.partition;
            other.sort = row.sort;
        }
        Call::Update(row, other)
    }

    fn sign(&mut self) -> Sign {
        match self.below(9) {
            0 => Sign::Any,
            1 => Sign::Equal,
            2 => Sign::Less,
            3 => Sign::LessOrEqual,
            4 => Sign::Greater,
            5 => Sign::GreaterOrEqual,
            6 => Sign::Between,
            _ => Sign::BeginsWith,
        }
    }

    // The kind of a query's values: the sort key's, but one time in eight any.
    fn kind(&mut self, shape: Shape) -> KeyKind {
        let any = KINDS.get(self.below(3)).copied().unwrap_or(KeyKind::S);
        if self.is_one_of(8) {
            any
        } else {
            shape.sort.unwrap_or(any)
        }
    }

    fn word(&mut self, kind: KeyKind) -> Word {
        Word {
            kind,
            place: self.below(COUNT),
            spelling: self.below(SPELLINGS),
        }
    }

    // None, a key of the partition, or one of any.
    fn start(&mut self, shape: Shape, row: Row) -> Option<Row> {
        let mut start = self.row(shape);
        match self.below(5) {
            0 | 1 => None,
            2 => Some(start),
            _ => {
                start.partition = row.partition;
                Some(start)
            }
        }
    }

    fn query(&mut self, shape: Shape) -> Call {
        let row = self.row_of(shape, COUNT);
        let kind = self.kind(shape);
        Call::Query(Asked {
            partition: shape.partition_of(row),
            sign: self.sign(),
            low: self.word(kind),
            high: self.word(kind),
            backward: self.is_one_of(2),
            limit: self.below(9),
            start: self.start(shape, row),
        })
    }

    fn scan(&mut self) -> Call {
        Call::Scan(self.below(9).max(1))
    }

    /// The call of a name's place.
    pub fn call(&mut self, name: usize, shape: Shape) -> Call {
        match name {
            0 => Call::Put(self.row(shape)),
            1 => Call::PutIf(self.condition(), self.row(shape)),
            2 => Call::Get(self.row(shape)),
            3 => Call::Delete(self.row(shape)),
            4 => Call::DeleteIf(self.condition(), self.row(shape)),
            5 => self.update(shape),
            6 => self.query(shape),
            _ => self.scan(),
        }
    }
}
