//! Sets of described types with one fault each, and the place that is said of it.
use super::readers::{holds, holds_of};
use example_described::{Roster, Sensor};
use std::collections::{BTreeSet, HashSet};
use std::test::Fail;

// A roster that reads.
const ROSTER: &str = r#"{"M":{"id":{"S":"r"},"names":{"SS":["a","b"]},"badges":{"NS":["1","2"]},
    "hours":{"L":[{"N":"9"},{"N":"10"}]},"seals":{"BS":["AQI="]},"rooms":{"NS":["300"]},
    "skills":{"SS":["c"]},"tokens":{"BS":["Ag=="]}}}"#;

const NO_INTEGER: &str = "invalid digit found in string";

const NAMES: &str = r#"{"SS":["a","b"]}"#;
const SKILLS: &str = r#"{"SS":["c"]}"#;
const BADGES: &str = r#"{"NS":["1","2"]}"#;
const ROOMS: &str = r#"{"NS":["300"]}"#;
const SEALS: &str = r#"{"BS":["AQI="]}"#;
const TOKENS: &str = r#"{"BS":["Ag=="]}"#;
const HOURS: &str = r#"{"L":[{"N":"9"},{"N":"10"}]}"#;

#[test]
fn an_element_of_a_set_is_a_step(rt: HostRuntime) -> Result<(), Fail> {
    let alloc = rt.alloc();
    let badge = format!(in alloc; "badges[1]: Failed to parse 'x' as an integer: {NO_INTEGER}")?;
    let room = format!(in alloc; "rooms[0]: Failed to parse '-1' as an integer: {NO_INTEGER}")?;
    let seals = r#"{"L":[{"B":"AQI="},{"S":"x"}]}"#;
    holds_of::<Roster>(&rt, alloc, ROSTER, &[
        (BADGES, r#"{"NS":["1","x"]}"#, badge.as_str()),
        (ROOMS, r#"{"NS":["-1"]}"#, room.as_str()),
        (HOURS, r#"{"L":[{"N":"9"},{"S":"10"}]}"#, "hours[1]: Expected num"),
        (NAMES, r#"{"L":[{"S":"a"},{"N":"1"}]}"#, "names[1]: Expected string"),
        (SEALS, seals, "seals[1]: Expected binary data"),
    ])
}

// Its first element is what doesn't read.
#[test]
fn a_set_of_another_kind(rt: HostRuntime) -> Result<(), Fail> {
    let numbers = r#"{"NS":["1","2"]}"#;
    let bytes = r#"{"BS":["/w=="]}"#;
    holds_of::<Roster>(&rt, rt.alloc(), ROSTER, &[
        (NAMES, numbers, "names[0]: invalid type: integer, expected a string"),
        (SKILLS, numbers, "skills[0]: invalid type: integer, expected a string"),
        (SKILLS, bytes, "skills[0]: invalid value: byte array, expected a string"),
        (BADGES, r#"{"SS":["1"]}"#, "badges[0]: invalid type: string, expected an integer"),
        (ROOMS, bytes, "rooms[0]: invalid type: byte array, expected an integer"),
        (TOKENS, numbers, "tokens[0]: invalid type: integer, expected byte array"),
        (SEALS, numbers, "seals[0]: invalid type: integer, expected byte array"),
        (HOURS, r#"{"SS":["9"]}"#, "hours[0]: invalid type: string, expected an integer"),
    ])
}

#[test]
fn what_is_no_set(rt: HostRuntime) -> Result<(), Fail> {
    let alloc = rt.alloc();
    holds_of::<Roster>(&rt, alloc, ROSTER, &[
        (NAMES, r#"{"NULL":true}"#, "names: Expected seq"),
        (ROOMS, r#"{"N":"300"}"#, "rooms: Expected seq"),
        (TOKENS, r#"{"B":"Ag=="}"#, "tokens: Expected seq"),
        (r#""names":{"SS":["a","b"]},"#, "", "missing field `names`"),
    ])?;
    holds::<Sensor>(&rt, alloc, &[
        (r#"{"M":{"labels":{"S":"a"}}}"#, "labels: Expected seq"),
        (r#"{"M":{"labels":{"SS":["a"]},"retries":{"N":"1"}}}"#, "missing field `sensorName`"),
    ])
}

#[test]
fn sets_of_rust(rt: HostRuntime) -> Result<(), Fail> {
    let alloc = rt.alloc();
    let no_number = format!(in alloc; "[1]: Failed to parse 'x' as an integer: {NO_INTEGER}")?;
    let rows = [(r#"{"NS":["1","x"]}"#, no_number.as_str()), (r#"{"N":"1"}"#, "Expected seq")];
    holds::<BTreeSet<u8>>(&rt, alloc, &rows)?;
    holds::<HashSet<u8>>(&rt, alloc, &rows)
}
