//! Rows from DynamoDB's documents, from RFC 4648 and by hand. What is wanted is never our own output.

mod base64_texts;
mod items;
mod json_text;
mod kinds;
mod layout;
mod refusals;
mod texts;
mod vectors;

use dynamo_json::{DynamoJson, TextError};
use dynamo_value::{AttributeValue, Error, ErrorImpl};
use serde_json::Value;
use std::alloc::Global;
use std::process::Abort;
use std::test::Fail;

// This is the text of the DynamoDB JSON of a value or an item: of its JSON value, and straight from it.
fn has_text<T: DynamoJson>(
    rt: &impl Abort,
    alloc: Global,
    value: &T,
    text: &str,
) -> Result<(), Fail> {
    assert_eq!(rt; value.to_json(alloc)?.to_string(alloc)?.as_str(), text);
    assert_eq!(rt; value.to_json_text(alloc)?.as_str(), text);
    Ok(())
}

// The value or item that a text of DynamoDB JSON stands for: by its JSON value, and straight from the text.
fn read<T: DynamoJson + PartialEq>(alloc: Global, text: &str) -> Result<T, Fail> {
    let value = T::from_json(alloc, &Value::from_str(alloc, text)?)?;
    if T::from_json_text(alloc, text)? == value {
        Ok(value)
    } else {
        Err(Fail::from("the text and its JSON value read differently"))
    }
}

// What is written reads back as the value. That it does is proved; a test shows that memory is found for it.
fn through_json(alloc: Global, value: &AttributeValue) -> dynamo_value::Result<AttributeValue>
{
    let json = value.to_json(alloc)?;
    AttributeValue::from_json(alloc, &json)
}

// The value has this text, and the text reads as the value.
fn both_ways(
    rt: &impl Abort,
    alloc: Global,
    value: AttributeValue,
    text: &str,
) -> Result<(), Fail> {
    has_text(rt, alloc, &value, text)?;
    assert!(rt;
        read::<AttributeValue>(alloc, text)? == value,
        "{text} reads as another value"
    );
    Ok(())
}

// What is wanted of the message of a refusal.
#[derive(Clone, Copy)]
enum Wanted {
    Is(&'static str),
    Begins(&'static str),
    Contains(&'static str),
    Anything,
}

// The text is refused by such a message, by its JSON value and straight from the text.
fn refused<T: DynamoJson>(
    rt: &impl Abort,
    alloc: Global,
    text: &str,
    wanted: Wanted,
) -> Result<(), Fail> {
    let by_json = match T::from_json(alloc, &Value::from_str(alloc, text)?) {
        Ok(_) => None,
        Err(error) => Some(error),
    };
    let by_text = match T::from_json_text(alloc, text) {
        Err(TextError::Fault(fault)) => Some(fault),
        _ => None,
    };
    meets(rt, text, by_json, wanted)?;
    meets(rt, text, by_text, wanted)
}

fn meets(
    rt: &impl Abort,
    text: &str,
    refusal: Option<Error>,
    wanted: Wanted,
) -> Result<(), Fail> {
    let refusal = refusal.ok_or("not refused")?;
    let met = match (refusal.kind(), wanted) {
        (ErrorImpl::Message(message), Wanted::Is(whole)) => message.as_str() == whole,
        (ErrorImpl::Message(message), Wanted::Begins(start)) => message.starts_with(start),
        (ErrorImpl::Message(message), Wanted::Contains(part)) => message.contains(part),
        (ErrorImpl::Message(_), Wanted::Anything) => true,
        _ => false,
    };
    assert!(rt; met, "{text} is refused by {refusal}");
    Ok(())
}
