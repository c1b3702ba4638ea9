//! Types that are read by hand and refuse what they have read, and the place of the refusal.
use super::readers::holds;
use serde_dynamo::de::{Deserialize, Deserializer, Error, Kind, MapAccess, SeqAccess, Visitor};
use std::alloc::Global;
use std::collections::BTreeMap;
use std::test::Fail;

fn read_as<T: Deserialize, D: Deserializer>(
    alloc: Global,
    deserializer: D,
) -> Result<T, D::Error> {
    T::deserialize(alloc, deserializer)
}

// A number up to 100.
#[derive(Drop)]
struct Percent(u8);

impl Deserialize for Percent {
    ghost reads = { ? };

    fn deserialize<D: Deserializer>(alloc: Global, deserializer: D) -> Result<Percent, D::Error> {
        let number = read_as::<u8, D>(alloc, deserializer)?;
        if number > 100 {
            return Err(D::Error::custom(alloc, "more than all"));
        }
        Ok(Percent(number))
    }
}

// Up to two numbers.
#[derive(Drop)]
struct Few(Vec<u8>);

impl Deserialize for Few {
    ghost reads = { ? };

    fn deserialize<D: Deserializer>(alloc: Global, deserializer: D) -> Result<Few, D::Error> {
        let numbers = read_as::<Vec<u8>, D>(alloc, deserializer)?;
        if numbers.len() > 2 {
            return Err(D::Error::custom(alloc, "too many"));
        }
        Ok(Few(numbers))
    }
}

// Two numbers, of which the second isn't less.
#[derive(Drop)]
struct Span(u8, u8);

impl Deserialize for Span {
    ghost reads = { ? };

    fn deserialize<D: Deserializer>(alloc: Global, deserializer: D) -> Result<Span, D::Error> {
        let (start, end) = read_as::<(u8, u8), D>(alloc, deserializer)?;
        if end < start {
            return Err(D::Error::custom(alloc, "a span ends before it begins"));
        }
        Ok(Span(start, end))
    }
}

/// A map whose value is asked for before its key.
#[derive(Drop)]
pub(crate) struct ValueFirst;

#[derive(Drop)]
struct ValueFirstVisitor {
    alloc: Global,
}

impl Visitor for ValueFirstVisitor {
    type Value = ValueFirst;

    ghost claimed = { ? };

    ghost takes = { ? };

    fn expecting(&self) -> &'static str {
        "a map"
    }

    fn alloc(&self) -> Global {
        self.alloc
    }

    fn claims(&self, kind: Kind) -> bool {
        matches!(kind, Kind::Map)
    }

    fn visit_map<A: MapAccess>(self, mut map: A) -> Result<ValueFirst, A::Error> {
        map.next_value::<u8>(self.alloc)?;
        Ok(ValueFirst)
    }
}

impl Deserialize for ValueFirst {
    ghost reads = { ? };

    fn deserialize<D: Deserializer>(
        alloc: Global,
        deserializer: D,
    ) -> Result<ValueFirst, D::Error> {
        deserializer.deserialize_map(ValueFirstVisitor { alloc })
    }
}

// The first two numbers of a list, of which the second isn't less, or the first entry of a map, whose
// key isn't `end` and whose number isn't 0. The rest isn't read.
#[derive(Drop)]
struct Start;

#[derive(Drop)]
struct StartVisitor {
    alloc: Global,
}

impl Visitor for StartVisitor {
    type Value = Start;

    ghost claimed = { ? };

    ghost takes = { ? };

    fn expecting(&self) -> &'static str {
        "a list or a map"
    }

    fn alloc(&self) -> Global {
        self.alloc
    }

    fn claims(&self, kind: Kind) -> bool {
        matches!(kind, Kind::Seq | Kind::Map)
    }

    fn visit_seq<A: SeqAccess>(self, mut seq: A) -> Result<Start, A::Error> {
        let first = seq.next_element::<u8>(self.alloc)?;
        let second = seq.next_element::<u8>(self.alloc)?;
        if second < first {
            return Err(A::Error::custom(self.alloc, "the second is less"));
        }
        Ok(Start)
    }

    fn visit_map<A: MapAccess>(self, mut map: A) -> Result<Start, A::Error> {
        let Some(key) = map.next_key::<String>(self.alloc)? else {
            return Ok(Start);
        };
        if key.as_str() == "end" {
            return Err(A::Error::custom(self.alloc, "it begins with its end"));
        }
        if map.next_value::<u8>(self.alloc)? == 0 {
            return Err(A::Error::custom(self.alloc, "it begins with nothing"));
        }
        Ok(Start)
    }
}

impl Deserialize for Start {
    ghost reads = { ? };

    fn deserialize<D: Deserializer>(alloc: Global, deserializer: D) -> Result<Start, D::Error> {
        deserializer.deserialize_any(StartVisitor { alloc })
    }
}

#[test]
fn a_number_that_its_type_refuses(rt: HostRuntime) -> Result<(), Fail> {
    let alloc = rt.alloc();
    let second = r#"{"M":{"a":{"L":[]},"b":{"L":[{"N":"1"},{"N":"101"},{"N":"x"}]}}}"#;
    holds::<Percent>(&rt, alloc, &[
        (r#"{"N":"100"}"#, "read"),
        (r#"{"N":"101"}"#, "more than all"),
        (r#"{"S":"1"}"#, "Expected num"),
    ])?;
    holds::<BTreeMap<String, Vec<Percent>>>(&rt, alloc, &[
        (second, "b[1]: more than all"),
        (r#"{"M":{"a":{"NS":["101"]}}}"#, "a[0]: more than all"),
    ])
}

// A list is read to its end before it is refused.
#[test]
fn a_list_that_its_type_refuses(rt: HostRuntime) -> Result<(), Fail> {
    holds::<Vec<Few>>(&rt, rt.alloc(), &[
        (r#"{"L":[{"L":[]},{"NS":["1","2"]}]}"#, "read"),
        (r#"{"L":[{"L":[]},{"NS":["1","2","3"]},{"L":[]}]}"#, "[1]: too many"),
        (r#"{"L":[{"L":[{"N":"1"},{"N":"2"},{"S":"3"}]}]}"#, "[0][2]: Expected num"),
    ])
}

// A pair isn't read beyond its second number, and is refused at the pair all the same.
#[test]
fn a_pair_that_its_type_refuses(rt: HostRuntime) -> Result<(), Fail> {
    holds::<Span>(&rt, rt.alloc(), &[
        (r#"{"L":[{"N":"1"},{"N":"2"}]}"#, "read"),
        (r#"{"L":[{"N":"2"},{"N":"1"}]}"#, "a span ends before it begins"),
    ])
}

#[test]
fn a_pair_in_a_list_that_its_type_refuses(rt: HostRuntime) -> Result<(), Fail> {
    holds::<Vec<Span>>(&rt, rt.alloc(), &[
        (r#"{"L":[{"NS":["1","2"]},{"L":[{"N":"1"},{"S":"2"}]}]}"#, "[1][1]: Expected num"),
        (r#"{"L":[{"NS":["1","2"]},{"NS":["2","1"]}]}"#, "[1]: a span ends before it begins"),
    ])
}

// A visitor that stops early refuses the list or the map, not the part that it read last.
#[test]
fn a_list_or_a_map_that_is_refused_early(rt: HostRuntime) -> Result<(), Fail> {
    holds::<Vec<Start>>(&rt, rt.alloc(), &[
        (r#"{"L":[{"L":[{"N":"1"},{"N":"2"},{"S":"3"}]},{"M":{}},{"NS":["1","2"]}]}"#, "read"),
        (r#"{"L":[{"NS":["3","2","1"]}]}"#, "[0]: the second is less"),
        (r#"{"L":[{"L":[{"N":"1"},{"N":"0"},{"N":"2"}]}]}"#, "[0]: the second is less"),
        (r#"{"L":[{"L":[{"N":"1"},{"S":"0"},{"N":"2"}]}]}"#, "[0][1]: Expected num"),
        (r#"{"L":[{"M":{"a":{"N":"0"},"b":{"N":"1"}}}]}"#, "[0]: it begins with nothing"),
        (r#"{"L":[{"M":{"end":{"N":"0"},"f":{"N":"1"}}}]}"#, "[0].end: it begins with its end"),
        (r#"{"L":[{"M":{"a":{"S":"0"},"b":{"N":"1"}}}]}"#, "[0].a: Expected num"),
    ])
}
