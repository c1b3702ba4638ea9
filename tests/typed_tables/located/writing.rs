//! Values with one fault each, and the place that is said of it.
use super::kinds::{Event, KeyByKey, Lenient, Pair, Refuses, Tupled, UnitKey};
use dynamo_place::{LocatedError, Place, to_attribute_value_located, to_item_located};
use dynamo_ser::Serialize;
use dynamo_value::{AttributeValue, Error, ErrorImpl};
use serde_dynamo::{
    BinarySet, Bytes, NumberSet, StringSet, Text, to_attribute_value, to_item,
};
use serde_json::Value;
use std::alloc::{AllocError, Global};
use std::collections::BTreeMap;
use std::process::Abort;

type Located = Result<AttributeValue, LocatedError<Error>>;

// What is said of writing a value: the place and the error. The plain call has to return the same error.
fn told(alloc: Global, located: Located, plain: Result<AttributeValue, Error>) -> Result<String, AllocError> {
    match (located, plain) {
        (Ok(located), Ok(plain)) if located == plain => String::from_str(alloc, "written"),
        (Err(located), Err(plain)) if located.error == plain => located.to_string(alloc),
        _ => String::from_str(alloc, "something else than by the plain call"),
    }
}

fn check(rt: &impl Abort, told: Result<String, AllocError>, wanted: &str) {
    match told {
        Ok(told) => assert!(rt; told.as_str() == wanted, "{told}, not {wanted}"),
        Err(_) => assert!(rt; false, "{wanted}: out of memory"),
    }
}

fn holds<T: Serialize>(rt: &impl Abort, alloc: Global, value: &T, wanted: &str) {
    let located = to_attribute_value_located(alloc, value);
    check(rt, told(alloc, located, to_attribute_value(alloc, value)), wanted);
}

// A map whose key is a list.
fn keyed_by_list(alloc: Global) -> anyhow::Result<BTreeMap<Vec<u8>, u8>> {
    let mut map = BTreeMap::new(alloc);
    map.insert(Vec::new(alloc), 1u8)?;
    Ok(map)
}

// A map of one entry.
fn named<T: Drop>(alloc: Global, name: &str, value: T) -> anyhow::Result<BTreeMap<String, T>> {
    let mut map = BTreeMap::new(alloc);
    map.insert(String::from_str(alloc, name)?, value)?;
    Ok(map)
}

const NO_KEY: &str = "Key must be a string";

#[test]
fn what_is_written_has_no_place(rt: HostRuntime) -> anyhow::Result<()> {
    let alloc = rt.alloc();
    holds(&rt, alloc, &Pair { first: 1, second: Some(true) }, "written");
    holds(&rt, alloc, &Event::Tuple(1, Event::Structy { one: 1, two: Event::Newtype(()) }), "written");
    holds(&rt, alloc, &StringSet(vec![in alloc; Text::new("a"), Text::new("b")]?), "written");
    Ok(())
}

#[test]
fn the_whole_value_has_no_place(rt: HostRuntime) -> anyhow::Result<()> {
    let alloc = rt.alloc();
    holds(&rt, alloc, &Refuses, "no");
    holds(&rt, alloc, &Some(Tupled::One(Box::new(alloc, Refuses)?)), "no");
    holds(&rt, alloc, &keyed_by_list(alloc)?, NO_KEY);
    holds(&rt, alloc, &StringSet(1u8), "Not a set-like sequence");
    holds(&rt, alloc, &NumberSet(Event::Newtype(1u8)), "Not a set-like sequence");
    Ok(())
}

#[test]
fn parts_are_named(rt: HostRuntime) -> anyhow::Result<()> {
    let alloc = rt.alloc();
    holds(&rt, alloc, &Pair { first: 1, second: Refuses }, "second: no");
    holds(&rt, alloc, &(1u8, true, Refuses), "[2]: no");
    holds(&rt, alloc, &vec![in alloc; Some(Refuses), None]?, "[0]: no");
    holds(&rt, alloc, &Tupled::Two(1, Refuses), "[1]: no");
    holds(&rt, alloc, &Tupled::One(Refuses), "no");
    holds(&rt, alloc, &Event::Newtype(Refuses), "Newtype: no");
    holds(&rt, alloc, &Event::Tuple(1, Refuses), "Tuple[1]: no");
    holds(&rt, alloc, &Event::Structy { one: 1, two: Refuses }, "Structy.two: no");
    holds(&rt, alloc, &named(alloc, "unit price", Refuses)?, "\"unit price\": no");
    holds(&rt, alloc, &KeyByKey { value: Refuses, keys: 1 }, "two: no");
    Ok(())
}

#[test]
fn parts_inside_others_are_named(rt: HostRuntime) -> anyhow::Result<()> {
    let alloc = rt.alloc();
    let inner = Pair { first: 1, second: vec![in alloc; Event::Tuple(1, Refuses)]? };
    holds(&rt, alloc, &(true, named(alloc, "a", inner)?), "[1].a.second[0].Tuple[1]: no");
    let inner = Event::Newtype(Event::Structy { one: 1, two: (0u8, Tupled::One(Some(Refuses))) });
    holds(&rt, alloc, &Pair { first: 1, second: inner }, "second.Newtype.Structy.two[1]: no");
    // What comes before is left again.
    let before = (vec![in alloc; Event::Newtype(1u8)]?, Pair { first: 1, second: (1u8, 2u8) });
    let before = Event::Structy { one: 1, two: Event::Tuple(1, before) };
    holds(&rt, alloc, &(before, KeyByKey { value: 1u8, keys: 1 }, Refuses), "[2]: no");
    Ok(())
}

#[test]
fn a_key_is_refused_at_its_map(rt: HostRuntime) -> anyhow::Result<()> {
    let alloc = rt.alloc();
    holds(&rt, alloc, &Pair { first: 1, second: keyed_by_list(alloc)? }, "second: Key must be a string");
    holds(&rt, alloc, &(1u8, Event::Newtype(keyed_by_list(alloc)?)), "[1].Newtype: Key must be a string");
    // The entry before it is left again.
    holds(&rt, alloc, &named(alloc, "a", UnitKey)?, "a: Key must be a string");
    let before = KeyByKey { value: 1u8, keys: 0 };
    let text = "SerializeMap::serialize_value called before SerializeMap::serialize_key";
    holds(&rt, alloc, &(before, 1u8), format!(in alloc; "[0]: {text}")?.as_str());
    let twice = KeyByKey { value: 1u8, keys: 2 };
    holds(&rt, alloc, &(1u8, twice), "[1]: SerializeMap::serialize_key called twice");
    Ok(())
}

#[test]
fn elements_of_sets_are_named(rt: HostRuntime) -> anyhow::Result<()> {
    let alloc = rt.alloc();
    let text = "String set element does not serialize to string";
    let strings = StringSet((Text::new("a"), 'b', 1u8));
    holds(&rt, alloc, &Pair { first: 1, second: strings }, format!(in alloc; "second[2]: {text}")?.as_str());
    let text = "Number set element does not serialize to number";
    let numbers = NumberSet((1u8, (), Some(2u8), true));
    holds(&rt, alloc, &vec![in alloc; numbers]?, format!(in alloc; "[0][1]: {text}")?.as_str());
    let text = "Binary set element does not serialize to binary";
    let blobs = BinarySet((Bytes::new(b"a"), Text::new("a")));
    holds(&rt, alloc, &Event::Newtype(blobs), format!(in alloc; "Newtype[1]: {text}")?.as_str());
    holds(&rt, alloc, &Pair { first: 1, second: StringSet(Text::new("a")) }, "second: Not a set-like sequence");
    // An element may be refused before there is a list.
    holds(&rt, alloc, &(1u8, StringSet((Text::new("a"), Refuses))), "[1][1]: no");
    Ok(())
}

#[test]
fn floats_of_json_are_named(rt: HostRuntime) -> anyhow::Result<()> {
    let alloc = rt.alloc();
    let json: Value = serde_json::from_str(alloc, r#"{"a": 1, "b": [null, {"c": [0.5]}]}"#)?;
    holds(&rt, alloc, &json, "b[1].c[0]: JSON floats are not supported");
    Ok(())
}

#[test]
fn what_is_refused_and_left_out_has_no_place(rt: HostRuntime) -> anyhow::Result<()> {
    let alloc = rt.alloc();
    let pair = |second: Event<Refuses>| Pair { first: 1, second };
    let lenient = |is_refused: bool| Lenient {
        first: pair(Event::Newtype(Refuses)),
        second: pair(Event::Tuple(1, Refuses)),
        is_refused,
    };
    holds(&rt, alloc, &(lenient(false), 1u8), "written");
    holds(&rt, alloc, &(lenient(false), Refuses), "[1]: no");
    holds(&rt, alloc, &(1u8, lenient(true)), "[1][1].second.Tuple[1]: no");
    Ok(())
}

#[test]
fn an_item_is_written_with_places(rt: HostRuntime) -> anyhow::Result<()> {
    let alloc = rt.alloc();
    let pair = Pair { first: 1, second: true };
    let located = to_item_located(alloc, &pair).map_err(|e| e.error)?;
    assert!(rt; located == to_item(alloc, &pair)?);
    let Err(error) = to_item_located(alloc, Pair { first: 1, second: Refuses }) else {
        anyhow::bail!("a part is refused");
    };
    assert_eq!(rt; error.to_string(alloc)?.as_str(), "second: no");
    let Err(error) = to_item_located(alloc, (1u8, pair)) else {
        anyhow::bail!("a list is no item");
    };
    assert!(rt; error.error == Error::from(ErrorImpl::NotMaplike));
    assert!(rt; error.place == Place::new());
    Ok(())
}
