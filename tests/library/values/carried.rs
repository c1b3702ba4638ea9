//! The library's errors are carried by `?`, as `std::error::Error` allows.
use crate::fixtures::answers::is;
use dynamo_json::DynamoJson;
use serde_dynamo::{AttributeValue, Error, ErrorImpl, from_attribute_value};
use std::alloc::Global;
use std::test::Fail;

// The number in the text of an attribute value.
fn number_of(alloc: Global, text: &str) -> anyhow::Result<u8> {
    let value = AttributeValue::from_json_text(alloc, text)?;
    Ok(from_attribute_value(alloc, value)?)
}

fn refuse(kind: ErrorImpl) -> anyhow::Result<u8> {
    Err(kind)?
}

#[test]
fn errors_are_carried_with_their_texts(rt: HostRuntime) -> Result<(), Fail> {
    let alloc = rt.alloc();
    assert!(rt; matches!(number_of(alloc, r#"{"N":"42"}"#), Ok(42)));
    for (text, message) in [
        (r#"{"S":"42"}"#, "Expected num"),
        (r#"{"S":42}"#, "invalid type under the key 'S': expected a string"),
    ] {
        match number_of(alloc, text) {
            Ok(number) => assert!(rt; false, "{text} is read as {number}"),
            Err(error) => is(&rt, error.to_string(alloc)?.as_str(), message),
        }
    }
    assert!(rt; number_of(alloc, "{").is_err());
    match refuse(ErrorImpl::NotMaplike) {
        Ok(number) => assert!(rt; false, "{number}"),
        Err(error) => is(&rt, error.to_string(alloc)?.as_str(), "Not a map-like object"),
    }
    let kind = Error::from(ErrorImpl::NotSetlike);
    is(&rt, anyhow::Error::from(kind).to_string(alloc)?.as_str(), "Not a set-like sequence");
    Ok(())
}
