use super::Wanted::{self, Anything, Begins, Contains, Is};
use super::refused;
use dynamo_value::AttributeValue;
use std::test::Fail;

const NO_KEY: Wanted = Is("Expected exactly one key in the object, found none");

const SEVERAL: Wanted = Is("Expected exactly one key in the object, found multiple keys");

const UNKNOWN: Wanted = Is("The key 'X' is not a known DynamoDB prefix");

const NOT_AN_OBJECT: Wanted = Contains("expected an object with a single key");

const NOT_BASE64: Wanted = Begins("Failed to decode base64: ");

#[test]
fn keys_are_counted_before_the_prefix_is_looked_at(rt: HostRuntime) -> Result<(), Fail> {
    let rows = [
        ("{}", NO_KEY),
        (r#"{"S":"1","N":"1"}"#, SEVERAL),
        (r#"{"X":"1","Y":"1"}"#, SEVERAL),
        (r#"{"S":1,"X":"1"}"#, SEVERAL),
        (r#"{"X":"1"}"#, UNKNOWN),
        (
            r#"{"bool":true}"#,
            Is("The key 'bool' is not a known DynamoDB prefix"),
        ),
        (
            r#"{"":"1"}"#,
            Is("The key '' is not a known DynamoDB prefix"),
        ),
        ("42", NOT_AN_OBJECT),
        ("null", NOT_AN_OBJECT),
        ("true", NOT_AN_OBJECT),
        (r#""S""#, NOT_AN_OBJECT),
        (r#"[{"S":"1"}]"#, NOT_AN_OBJECT),
    ];
    for (text, wanted) in rows {
        refused::<AttributeValue>(&rt, rt.alloc(), text, wanted)?;
    }
    Ok(())
}

#[test]
fn content_of_another_kind_is_refused(rt: HostRuntime) -> Result<(), Fail> {
    let rows = [
        r#"{"S":1}"#,
        r#"{"N":1}"#,
        r#"{"N":null}"#,
        r#"{"BOOL":"true"}"#,
        r#"{"NULL":null}"#,
        r#"{"NULL":1}"#,
        r#"{"B":[1,2]}"#,
        r#"{"M":[]}"#,
        r#"{"M":"a"}"#,
        r#"{"L":{}}"#,
        r#"{"L":"a"}"#,
        r#"{"SS":"a"}"#,
        r#"{"SS":["a",1]}"#,
        r#"{"NS":[1]}"#,
        r#"{"NS":{}}"#,
        r#"{"BS":["AQI=",[]]}"#,
        r#"{"BS":true}"#,
    ];
    for text in rows {
        refused::<AttributeValue>(&rt, rt.alloc(), text, Anything)?;
    }
    Ok(())
}

#[test]
fn other_spellings_of_bytes_are_refused(rt: HostRuntime) -> Result<(), Fail> {
    let rows = [
        r#"{"B":"X"}"#,
        r#"{"B":"AQI"}"#,
        r#"{"B":"AQJ="}"#,
        r#"{"B":"AQ I="}"#,
        r#"{"B":"-_-_"}"#,
        r#"{"BS":["X"]}"#,
        r#"{"BS":["AQI=","AQI"]}"#,
    ];
    for text in rows {
        refused::<AttributeValue>(&rt, rt.alloc(), text, NOT_BASE64)?;
    }
    Ok(())
}

// Arrays are read in their order, objects in the order of their keys, each content before what follows it.
#[test]
fn the_first_refusal_is_given(rt: HostRuntime) -> Result<(), Fail> {
    let rows = [
        (r#"{"L":[{},{"X":"1"}]}"#, NO_KEY),
        (r#"{"L":[{"X":"1"},{}]}"#, UNKNOWN),
        (r#"{"L":[{"S":"a"},7,{}]}"#, NOT_AN_OBJECT),
        (r#"{"M":{"b":{},"a":{"X":"1"}}}"#, UNKNOWN),
        (r#"{"M":{"a":{}}}"#, NO_KEY),
        (r#"{"M":{"b":7,"a":{"L":[{"B":"X"}]}}}"#, NOT_BASE64),
        (
            r#"{"L":[{"L":[{"M":{"a":{"S":"1","N":"1"}}}]},{}]}"#,
            SEVERAL,
        ),
        (r#"{"BS":["X",1]}"#, NOT_BASE64),
    ];
    for (text, wanted) in rows {
        refused::<AttributeValue>(&rt, rt.alloc(), text, wanted)?;
    }
    Ok(())
}
