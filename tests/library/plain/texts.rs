//! The texts of both JSON forms, made with no value between, beside those that are made by way of one.

use dynamo_json::{DynamoJson, plain_text, stored_text};
use dynamo_value::{AttributeValue, Error};
use serde_dynamo::{from_attribute_value, to_attribute_value};
use serde_json::Value;
use std::alloc::Global;
use std::test::Fail;

// The text of the DynamoDB JSON that a JSON text is written as, by way of the attribute value, or the error.
fn stored_via_value(alloc: Global, text: &str) -> Result<Result<String, Error>, Fail> {
    match to_attribute_value(alloc, Value::from_str(alloc, text)?) {
        Ok(value) => Ok(Ok(value.to_json_text(alloc)?)),
        Err(error) => Ok(Err(error)),
    }
}

// The text of the plain JSON that DynamoDB JSON is read as, by way of the JSON value, or the error.
fn plain_via_json(alloc: Global, text: &str) -> Result<Result<String, Error>, Fail> {
    match from_attribute_value::<Value>(alloc, AttributeValue::from_json_text(alloc, text)?) {
        Ok(json) => Ok(Ok(json.to_string(alloc)?)),
        Err(error) => Ok(Err(error)),
    }
}

// Plain JSON, and what it is written as.
const STORED: [(&str, &str); 14] = [
    ("null", r#"{"NULL":true}"#),
    ("false", r#"{"BOOL":false}"#),
    ("0", r#"{"N":"0"}"#),
    ("9223372036854775807", r#"{"N":"9223372036854775807"}"#),
    ("9223372036854775808", r#"{"N":"9223372036854775808"}"#),
    ("18446744073709551615", r#"{"N":"18446744073709551615"}"#),
    ("-1", r#"{"N":"-1"}"#),
    ("-9223372036854775808", r#"{"N":"-9223372036854775808"}"#),
    (r#""""#, r#"{"S":""}"#),
    (r#""a\"\n\u0000é""#, r#"{"S":"a\"\n\u0000é"}"#),
    ("[ ]", r#"{"L":[]}"#),
    (r#"[1, [null, "a"], {}]"#, r#"{"L":[{"N":"1"},{"L":[{"NULL":true},{"S":"a"}]},{"M":{}}]}"#),
    (r#"{"b": 1, "a": [], "": true}"#, r#"{"M":{"":{"BOOL":true},"a":{"L":[]},"b":{"N":"1"}}}"#),
    (r#"{"a": 1, "b": 2, "a": {"c": 3}}"#, r#"{"M":{"a":{"M":{"c":{"N":"3"}}},"b":{"N":"2"}}}"#),
];

#[test]
fn plain_json_is_written_with_no_attribute_value(rt: HostRuntime) -> Result<(), Fail> {
    let alloc = rt.alloc();
    for (plain, stored) in STORED {
        let text = stored_text(alloc, &Value::from_str(alloc, plain)?)?;
        assert_eq!(rt; text.as_str(), stored, "{plain}");
        assert!(rt; stored_via_value(alloc, plain)? == Ok(text), "{plain}");
    }
    Ok(())
}

#[test]
fn floats_are_not_written(rt: HostRuntime) -> Result<(), Fail> {
    let alloc = rt.alloc();
    for plain in ["1.5", "1e3", "-0", "-0.0", "18446744073709551616", r#"[1, {"a": [2.5]}]"#] {
        let Err(error) = stored_text(alloc, &Value::from_str(alloc, plain)?) else {
            return Err(Fail::from("a float is written"));
        };
        assert_eq!(rt; error.to_string(alloc)?.as_str(), "JSON floats are not supported", "{plain}");
        assert!(rt; stored_via_value(alloc, plain)? == Err(error), "{plain}");
    }
    Ok(())
}

// DynamoDB JSON, and what it is read as.
const PLAIN: [(&str, &str); 15] = [
    (r#"{"NULL":true}"#, "null"),
    (r#"{"BOOL":false}"#, "false"),
    (r#"{"N":"0"}"#, "0"),
    (r#"{"N":"-0"}"#, "0"),
    (r#"{"N":"+007"}"#, "7"),
    (r#"{"N":"-9223372036854775808"}"#, "-9223372036854775808"),
    (r#"{"N":"18446744073709551615"}"#, "18446744073709551615"),
    (r#"{"S":"a\"\n\u0000é"}"#, r#""a\"\n\u0000é""#),
    (r#"{"L":[]}"#, "[]"),
    (r#"{"L":[{"N":"1"},{"L":[{"NULL":true}]},{"M":{}}]}"#, "[1,[null],{}]"),
    (r#"{"M":{"b":{"N":"1"},"a":{"L":[]},"":{"BOOL":true}}}"#, r#"{"":true,"a":[],"b":1}"#),
    (r#"{"M":{"a":{"M":{"c":{"S":"d"},"b":{"NS":["3"]}}}}}"#, r#"{"a":{"b":[3],"c":"d"}}"#),
    (r#"{"SS":["b","a","b"]}"#, r#"["b","a","b"]"#),
    (r#"{"NS":["2","-1"]}"#, "[2,-1]"),
    (r#"{"BS":[]}"#, "[]"),
];

#[test]
fn dynamo_json_is_read_with_no_json_value(rt: HostRuntime) -> Result<(), Fail> {
    let alloc = rt.alloc();
    for (stored, plain) in PLAIN {
        let text = plain_text(alloc, &AttributeValue::from_json_text(alloc, stored)?)?;
        assert_eq!(rt; text.as_str(), plain, "{stored}");
        assert!(rt; plain_via_json(alloc, stored)? == Ok(text), "{stored}");
    }
    Ok(())
}

// What no JSON value is read of, and the message of the error.
const REFUSED: [(&str, &str); 13] = [
    (r#"{"NULL":false}"#, "Expected unit"),
    (r#"{"N":"1.5"}"#, FLOAT),
    (r#"{"N":"abc"}"#, "Failed to parse 'abc' as a float: invalid float literal"),
    (r#"{"N":""}"#, "Failed to parse '' as a float: cannot parse float from empty string"),
    (r#"{"N":"18446744073709551616"}"#, FLOAT),
    (r#"{"N":"-9223372036854775809"}"#, FLOAT),
    (r#"{"B":"AQI="}"#, BYTES),
    (r#"{"BS":["AQI="]}"#, BYTES),
    (r#"{"NS":["1","x"]}"#, "Failed to parse 'x' as a float: invalid float literal"),
    (r#"{"L":[{"N":"1"},{"M":{"a":{"B":""}}}]}"#, BYTES),
    (r#"{"L":[{"NULL":false},{"B":""}]}"#, "Expected unit"),
    (r#"{"M":{"b":{"B":""},"a":{"NULL":false},"c":{"N":"x"}}}"#, "Expected unit"),
    (r#"{"M":{"b":{"L":[{"B":""}]},"a":{"N":"1"},"c":{"NULL":false}}}"#, BYTES),
];

const BYTES: &str = "invalid type: byte array, expected any valid JSON value";

const FLOAT: &str = "invalid type: floating point number, expected any valid JSON value";

#[test]
fn what_no_json_value_is_read_of_is_refused_as_by_way_of_one(rt: HostRuntime) -> Result<(), Fail> {
    let alloc = rt.alloc();
    for (stored, message) in REFUSED {
        let Err(error) = plain_text(alloc, &AttributeValue::from_json_text(alloc, stored)?) else {
            return Err(Fail::from("it is read as JSON"));
        };
        assert_eq!(rt; error.to_string(alloc)?.as_str(), message, "{stored}");
        assert!(rt; plain_via_json(alloc, stored)? == Err(error), "{stored}");
    }
    Ok(())
}
