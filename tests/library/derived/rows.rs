// What rows of DynamoDB JSON are read as and written as.
use dynamo_serde::{from_attribute_value, from_attribute_value_located, to_attribute_value};
use dynamo_value::{AttributeValue, Error, Result};
use serde::{DeserializeOwned, Serialize};
use serde_dynamo::DynamoJson;
use serde_json::Value;
use std::alloc::Global;
use std::process::Abort;
use std::test::Fail;

pub(crate) fn text(alloc: Global, text: &str) -> Result<String> {
    Ok(String::from_str(alloc, text)?)
}

// The attribute value of a DynamoDB JSON.
pub(crate) fn value(alloc: Global, json: &str) -> std::result::Result<AttributeValue, Fail> {
    Ok(AttributeValue::from_json(alloc, &serde_json::from_str::<Value>(alloc, json)?)?)
}

// The compact DynamoDB JSON of what was written, or the fault's text.
fn shown(
    alloc: Global,
    written: Result<AttributeValue, Error>,
) -> std::result::Result<String, Fail> {
    match written {
        Ok(written) => {
            let json: Value = written.to_json(alloc)?;
            Ok(json.to_string(alloc)?)
        }
        Err(error) => Ok(error.to_string(alloc)?),
    }
}

// The value is written as this, or refused by this.
pub(crate) fn writes<T: Serialize>(
    rt: &impl Abort,
    alloc: Global,
    value: &T,
    expected: &str,
) -> std::result::Result<(), Fail> {
    let answer = shown(alloc, to_attribute_value(alloc, value))?;
    assert_eq!(rt; answer.as_str(), expected);
    Ok(())
}

// What each JSON is read as is written as this, or reading is refused by this; where nothing is given, as the JSON itself.
pub(crate) fn reads<T: Serialize + DeserializeOwned>(
    rt: &impl Abort,
    alloc: Global,
    rows: &[(&str, &str)],
) -> std::result::Result<(), Fail> {
    for row in rows {
        let read: Result<T> = from_attribute_value(alloc, value(alloc, row.0)?);
        let answer = match read {
            Ok(read) => shown(alloc, to_attribute_value(alloc, &read))?,
            Err(error) => error.to_string(alloc)?,
        };
        let expected = if row.1.is_empty() { row.0 } else { row.1 };
        assert_eq!(rt; answer.as_str(), expected);
    }
    Ok(())
}

// Reading each JSON is refused by this, a place and an error.
pub(crate) fn refused_at<T: DeserializeOwned>(
    rt: &impl Abort,
    alloc: Global,
    rows: &[(&str, &str)],
) -> std::result::Result<(), Fail> {
    for row in rows {
        let answer = match from_attribute_value_located::<T>(alloc, value(alloc, row.0)?) {
            Ok(_) => text(alloc, "read")?,
            Err(error) => error.to_string(alloc)?,
        };
        assert_eq!(rt; answer.as_str(), row.1);
    }
    Ok(())
}
