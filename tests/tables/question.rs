//! Queries of the values of pools, and a plain filter that says what they find.
use crate::calls::{Draw, Shape, Sign};
use crate::pools::{COUNT, Value, pooled};
use crate::words::KINDS;
use std::alloc::{AllocError, Global};
use std::cmp::Ordering;
use table_keys::{Key, KeyKind, TableError};

/// The values of a key.
#[derive(Clone, Copy, Debug)]
pub struct Pair {
    pub partition: Value,
    pub sort: Option<Value>,
}

/// A query.
#[derive(Clone, Copy, Debug)]
pub struct Question {
    pub partition: Value,
    pub sign: Sign,
    pub low: Value,
    pub high: Value,
    pub backward: bool,
    pub limit: usize,
    pub start: Option<Pair>,
}

impl Pair {
    /// How two keys compare: by the partition keys and then by the sort keys, none before any.
    pub fn compare(self, other: Pair) -> Ordering {
        let partitions = self.partition.compare(other.partition);
        if partitions.is_ne() {
            return partitions;
        }
        match (self.sort, other.sort) {
            (None, None) => Ordering::Equal,
            (None, Some(_)) => Ordering::Less,
            (Some(_), None) => Ordering::Greater,
            (Some(sort), Some(other)) => sort.compare(other),
        }
    }

    /// The key.
    pub fn key(self, alloc: Global) -> Result<Key, TableError> {
        Ok(Key {
            partition: self.partition.key_value(alloc)?,
            sort: match self.sort {
                Some(sort) => Some(sort.key_value(alloc)?),
                None => None,
            },
        })
    }
}

// How a value compares to a bound of its kind.
fn compared(value: Value, bound: Value) -> Option<Ordering> {
    if value.kind() == bound.kind() {
        Some(value.compare(bound))
    } else {
        None
    }
}

impl Question {
    // Whether a sort key meets what is asked of it.
    fn is_met_by(&self, sort: Value) -> bool {
        let low = compared(sort, self.low);
        match self.sign {
            Sign::Any => true,
            Sign::Equal => low.is_some_and(|it| it.is_eq()),
            Sign::Less => low.is_some_and(|it| it.is_lt()),
            Sign::LessOrEqual => low.is_some_and(|it| it.is_le()),
            Sign::Greater => low.is_some_and(|it| it.is_gt()),
            Sign::GreaterOrEqual => low.is_some_and(|it| it.is_ge()),
            Sign::Between => {
                let high = compared(sort, self.high);
                low.is_some_and(|it| it.is_ge()) && high.is_some_and(|it| it.is_le())
            }
            Sign::BeginsWith => sort.begins_with(self.low),
        }
    }

    // Whether a key comes after the one after which the query starts.
    fn starts_before(&self, pair: Pair) -> bool {
        match self.start {
            None => true,
            Some(start) if self.backward => pair.compare(start).is_lt(),
            Some(start) => pair.compare(start).is_gt(),
        }
    }

    /// Whether the query finds the item under a key.
    fn finds(&self, pair: Pair) -> bool {
        let is_met = match pair.sort {
            Some(sort) => self.is_met_by(sort),
            None => matches!(self.sign, Sign::Any),
        };
        pair.partition.compare(self.partition).is_eq() && is_met && self.starts_before(pair)
    }

    /// The places of the keys that the query finds among these, which come in their order.
    pub fn answer(&self, alloc: Global, keys: &[Pair]) -> Result<Vec<usize>, AllocError> {
        let mut found = Vec::new(alloc);
        for (place, pair) in keys.iter().enumerate() {
            if self.finds(*pair) {
                found.push(place)?;
            }
        }
        if self.backward {
            found.reverse();
        }
        found.truncate(self.limit);
        Ok(found)
    }
}

// A value of a kind, which may be the empty one, or a number in another spelling.
fn any_of(draw: &mut Draw, kind: KeyKind) -> Value {
    pooled(kind, draw.below(COUNT.saturating_add(4)))
}

fn any_kind(draw: &mut Draw) -> KeyKind {
    KINDS.get(draw.below(3)).copied().unwrap_or(KeyKind::S)
}

// A value of this kind, but one time in eight of any.
fn mostly_of(draw: &mut Draw, kind: Option<KeyKind>) -> Value {
    let any = any_kind(draw);
    let kind = if draw.below(8) == 0 {
        any
    } else {
        kind.unwrap_or(any)
    };
    any_of(draw, kind)
}

// One of the table's keys.
fn key_of(draw: &mut Draw, keys: &[Pair]) -> Option<Pair> {
    keys.get(draw.below(keys.len())).copied()
}

// What is asked of the sort key: of tables without one mostly nothing.
fn sign(draw: &mut Draw, shape: Shape) -> Sign {
    if shape.sort.is_none() && draw.below(3) > 0 {
        return Sign::Any;
    }
    match draw.below(10) {
        0 => Sign::Any,
        1 => Sign::Equal,
        2 => Sign::Less,
        3 => Sign::LessOrEqual,
        4 => Sign::Greater,
        5 => Sign::GreaterOrEqual,
        6 | 7 => Sign::Between,
        _ => Sign::BeginsWith,
    }
}

// None, a key of the table, one of the partition, one of the table's kinds or one of any kind, with a sort key or without.
fn start(draw: &mut Draw, shape: Shape, keys: &[Pair], partition: Value) -> Option<Pair> {
    let sort = shape.sort.map(|kind| any_of(draw, kind));
    let known = key_of(draw, keys);
    let kind = any_kind(draw);
    match draw.below(10) {
        0..=3 => None,
        4 => known,
        5 => Some(Pair {
            partition,
            sort: known?.sort,
        }),
        6 | 7 => Some(Pair { partition, sort }),
        8 => Some(Pair {
            partition: any_of(draw, shape.partition),
            sort,
        }),
        _ => Some(Pair {
            partition: mostly_of(draw, Some(shape.partition)),
            sort: if draw.below(2) == 0 {
                None
            } else {
                Some(any_of(draw, kind))
            },
        }),
    }
}

fn limit(draw: &mut Draw) -> usize {
    match draw.below(9) {
        0 => 0,
        1 => 1,
        2 => 2,
        3 => 3,
        4 => 7,
        5 => 100,
        _ => usize::MAX,
    }
}

// Two values, the lower first but one time in four.
fn bounds(draw: &mut Draw, shape: Shape) -> (Value, Value) {
    let (low, high) = (mostly_of(draw, shape.sort), mostly_of(draw, shape.sort));
    if low.compare(high).is_gt() && draw.below(2) == 0 {
        (high, low)
    } else {
        (low, high)
    }
}

/// A query of a table that has these keys, most often of one of its partitions.
pub fn draw_one(draw: &mut Draw, shape: Shape, keys: &[Pair]) -> Question {
    let partition = match key_of(draw, keys) {
        Some(pair) if draw.below(8) > 0 => pair.partition,
        _ => mostly_of(draw, Some(shape.partition)),
    };
    let (low, high) = bounds(draw, shape);
    Question {
        partition,
        sign: sign(draw, shape),
        low,
        high,
        backward: draw.below(2) == 0,
        limit: limit(draw),
        start: start(draw, shape, keys, partition),
    }
}
