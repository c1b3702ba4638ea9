//! The plain JSON of values, and what is lost where a value is written by way of it.
use crate::fixtures::answers::{prints, shows};
use serde_dynamo::samples::{Event, Sets, User};
use serde_dynamo::ser::Serialize;
use serde_dynamo::{ByteBuf, StringSet, Text, to_attribute_value_via_json, to_json_value};
use std::alloc::Global;
use std::process::Abort;
use std::test::Fail;

#[test]
fn a_user_is_plain_json(rt: HostRuntime) -> Result<(), Fail> {
    let alloc = rt.alloc();
    let user = User {
        id: String::from_str(alloc, "x")?,
        name: String::from_str(alloc, "Arthur Dent")?,
        age: 42,
    };
    let plain = r#"{"age":42,"id":"x","name":"Arthur Dent"}"#;
    prints(&rt, alloc, &to_json_value(alloc, user)?, plain)
}

#[test]
fn events_are_plain_json(rt: HostRuntime) -> Result<(), Fail> {
    let alloc = rt.alloc();
    for (event, expected) in [
        (Event::Unit, r#""Unit""#),
        (Event::Newtype(5), r#"{"Newtype":5}"#),
        (Event::Tuple(1, 2), r#"{"Tuple":[1,2]}"#),
        (
            Event::Structy { one: 1, two: 2 },
            r#"{"Structy":{"one":1,"two":2}}"#,
        ),
    ] {
        prints(&rt, alloc, &to_json_value(alloc, event)?, expected)?;
    }
    Ok(())
}

// By way of plain JSON the value writes as this.
fn by_json<T: Serialize + Drop>(
    rt: &impl Abort,
    alloc: Global,
    value: T,
    expected: &str,
) -> Result<(), Fail> {
    let written = to_attribute_value_via_json(alloc, value)?;
    Ok(shows(rt, alloc, &written, expected)?)
}

#[test]
fn byte_strings_and_sets_are_lists_by_json(rt: HostRuntime) -> Result<(), Fail> {
    let alloc = rt.alloc();
    let bytes = ByteBuf::from(vec![in alloc; 1, 2]?);
    by_json(&rt, alloc, bytes, r#"L [N "1", N "2"]"#)?;
    let texts = StringSet(vec![in alloc; Text::new("a")]?);
    by_json(&rt, alloc, texts, r#"L [S "a"]"#)?;
    let sets = Sets {
        names: Vec::new(alloc),
        numbers: vec![in alloc; 7]?,
        blobs: Vec::new(alloc),
    };
    let expected = r#"M {"blobs": L [], "names": L [], "numbers": L [N "7"]}"#;
    by_json(&rt, alloc, sets, expected)
}
