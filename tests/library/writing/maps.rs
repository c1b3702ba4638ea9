//! Maps write as maps, whose keys have to be texts.
use crate::fixtures::refuses::Refuses;
use crate::fixtures::writes::writes;
use example_types::forms::UnitStruct;
use example_types::kinds::{Empty, EmptyMap, Pair};
use serde_dynamo::samples::Event;
use serde_dynamo::ser::Serialize;
use serde_dynamo::{ByteBuf, NumberSet};
use std::alloc::Global;
use std::collections::{BTreeMap, HashMap};
use std::hash::Hash;
use std::process::Abort;
use std::test::Fail;

// A map of this key alone, to the number 1, answers this.
fn key_writes<K: Serialize + Eq + Hash + Drop>(
    rt: &impl Abort,
    alloc: Global,
    key: K,
    expected: &str,
) -> Result<(), Fail> {
    let mut map = HashMap::new(alloc);
    map.insert(key, 1_u8).ok().ok_or("no memory")?;
    writes(rt, alloc, map, expected)
}

#[test]
fn a_hashed_map_writes_each_entry(rt: HostRuntime) -> Result<(), Fail> {
    let alloc = rt.alloc();
    let mut hashed = HashMap::new(alloc);
    hashed.insert(1_u8, String::from_str(alloc, "1")?)?;
    hashed.insert(2_u8, String::from_str(alloc, "2")?)?;
    writes(&rt, alloc, hashed, r#"M {"1": S "1", "2": S "2"}"#)?;
    key_writes(&rt, alloc, NumberSet(5_u8), r#"M {"5": N "1"}"#)
}

const REFUSED: &str = "Key must be a string";

#[test]
fn a_list_is_no_key(rt: HostRuntime) -> Result<(), Fail> {
    let alloc = rt.alloc();
    key_writes(&rt, alloc, vec![in alloc; 1_u8]?, REFUSED)?;
    key_writes(&rt, alloc, ByteBuf::from(vec![in alloc; 1_u8]?), REFUSED)?;
    key_writes(&rt, alloc, NumberSet(vec![in alloc; 1_u8]?), REFUSED)?;
    key_writes(&rt, alloc, (1_u8, 2_u8), REFUSED)?;
    let text = || String::from_str(alloc, "a");
    key_writes(&rt, alloc, Pair(text()?, text()?), REFUSED)
}

#[test]
fn nothing_and_something_are_no_keys(rt: HostRuntime) -> Result<(), Fail> {
    let alloc = rt.alloc();
    let none: Option<u8> = None;
    key_writes(&rt, alloc, (), REFUSED)?;
    key_writes(&rt, alloc, none, REFUSED)?;
    key_writes(&rt, alloc, Some(String::from_str(alloc, "a")?), REFUSED)
}

#[test]
fn a_struct_or_a_variant_with_a_content_is_no_key(rt: HostRuntime) -> Result<(), Fail> {
    let alloc = rt.alloc();
    key_writes(&rt, alloc, UnitStruct, REFUSED)?;
    key_writes(&rt, alloc, Empty {}, REFUSED)?;
    key_writes(&rt, alloc, EmptyMap {}, REFUSED)?;
    for event in [
        Event::Newtype(5),
        Event::Tuple(1, 2),
        Event::Structy { one: 1, two: 2 },
    ] {
        key_writes(&rt, alloc, event, REFUSED)?;
    }
    key_writes(&rt, alloc, Refuses, "no")
}

#[test]
fn a_key_is_at_fault_before_its_value(rt: HostRuntime) -> Result<(), Fail> {
    let alloc = rt.alloc();
    let mut map = BTreeMap::new(alloc);
    map.insert((), Refuses)?;
    writes(&rt, alloc, map, REFUSED)?;

    let mut map = BTreeMap::new(alloc);
    map.insert(1_u8, Refuses)?;
    writes(&rt, alloc, map, "no")
}
