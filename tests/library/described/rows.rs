use crate::fixtures::readers;
use serde_dynamo::de::Deserialize;
use serde_dynamo::{AttributeValue, DynamoJson, Shaped, from_attribute_value_located, reread};
use serde_json::Value;
use std::alloc::Global;
use std::fmt::Debug;
use std::process::Abort;
use std::test::Fail;

/// What is written of the value has this DynamoDB JSON, and the value that is read back this text.
pub(crate) fn rereads<T: Shaped + Debug>(
    rt: &impl Abort,
    alloc: Global,
    value: T,
    json: &str,
    read: &str,
) -> Result<(), Fail> {
    let (_, written, back) = reread(alloc, &value)?;
    assert_eq!(rt; written.to_string(alloc)?.as_str(), json);
    assert_eq!(rt; format!(in alloc; "{back:?}")?.as_str(), read);
    Ok(())
}

/// The attribute value of this DynamoDB JSON reads as the value of this text, or is refused by it.
pub(crate) fn reads<T: Deserialize + Debug>(
    rt: &impl Abort,
    alloc: Global,
    json: &str,
    expected: &str,
) -> Result<(), Fail> {
    let value = AttributeValue::from_json(alloc, &Value::from_str(alloc, json)?)?;
    let read: serde_dynamo::Result<T> = readers::read(alloc, value)?;
    let answer = match read {
        Ok(value) => format!(in alloc; "{value:?}")?,
        Err(error) => error.to_string(alloc)?,
    };
    assert_eq!(rt; answer.as_str(), expected);
    Ok(())
}

/// Reading the attribute value of this DynamoDB JSON is refused by this, a place and an error.
pub(crate) fn refused_at<T: Deserialize + Drop>(
    rt: &impl Abort,
    alloc: Global,
    json: &str,
    expected: &str,
) -> Result<(), Fail> {
    let value = AttributeValue::from_json(alloc, &Value::from_str(alloc, json)?)?;
    let answer = match from_attribute_value_located::<T>(alloc, value) {
        Ok(_) => String::from_str(alloc, "read")?,
        Err(error) => error.to_string(alloc)?,
    };
    assert_eq!(rt; answer.as_str(), expected);
    Ok(())
}
