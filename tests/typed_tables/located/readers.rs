//! What is said of a value with a fault, the place and the error, by each reader.
use dynamo_json::DynamoJson;
use dynamo_place::{
    LocatedError, from_attribute_value_located, from_item_located, from_item_ref_located,
    read_located,
};
use dynamo_value::{AttributeValue, Error, Item};
use serde_dynamo::de::Deserialize;
use serde_dynamo::{Deserializer, from_attribute_value};
use std::alloc::{AllocError, Global};
use std::process::Abort;
use std::test::Fail;

/// An error and its place, or none where a value is read.
pub(crate) type Fault = Option<LocatedError<Error>>;

// What is said of a value by each reader.
#[derive(Drop)]
struct Said {
    lent: Fault,
    plain: Option<Error>,
    others: Vec<(&'static str, Fault)>,
}

// What all readers say of an attribute value, and of the item of a map, borrowed and owned. This is
// compiled for each type, so it only reads.
fn said_of<T: Deserialize + Drop>(alloc: Global, text: &str) -> anyhow::Result<Said> {
    let value = AttributeValue::from_json_text(alloc, text)?;
    let lent = from_attribute_value_located::<T>(alloc, value.clone()?).err();
    let plain = from_attribute_value::<T>(alloc, value.clone()?).err();
    let mut others = Vec::new(alloc);
    if let AttributeValue::M(map) = &value {
        let item = Item::from(map.clone()?);
        let borrowed = from_item_ref_located::<T>(alloc, &item).err();
        others.push(("of the borrowed item", borrowed))?;
        others.push(("of the item", from_item_located::<T>(alloc, item).err()))?;
    }
    let reader = Deserializer::from_attribute_value(alloc, value);
    let owned = read_located::<T, Deserializer>(alloc, reader).err();
    others.push(("by the owned reader", owned))?;
    Ok(Said { lent, plain, others })
}

/// The place and the error, or that a value is read.
pub(crate) fn print(alloc: Global, fault: &Fault) -> Result<String, AllocError> {
    match fault {
        None => String::from_str(alloc, "read"),
        Some(error) => error.to_string(alloc),
    }
}

// Whether the plain call returns the same error, or a value too.
fn is_plain(plain: &Option<Error>, located: &Fault) -> bool {
    match (plain, located) {
        (None, None) => true,
        (Some(plain), Some(located)) => *plain == located.error,
        _ => false,
    }
}

// What the lent reader says. All others have to say the same.
fn agreed(alloc: Global, said: anyhow::Result<Said>) -> anyhow::Result<String> {
    let said = said?;
    let lent = print(alloc, &said.lent)?;
    if !is_plain(&said.plain, &said.lent) {
        return Ok(format!(in alloc; "{lent}, but something else by the plain call")?);
    }
    for (how, other) in &said.others {
        let other = print(alloc, other)?;
        if other != lent {
            return Ok(format!(in alloc; "{lent}, but {other} {how}")?);
        }
    }
    Ok(lent)
}

// Adds what is wrong with a row, if anything is.
fn check(
    alloc: Global,
    wrong: &mut String,
    text: &str,
    wanted: &str,
    said: anyhow::Result<Said>,
) -> Result<(), AllocError> {
    let said = match agreed(alloc, said) {
        Ok(said) => said,
        Err(error) => format!(in alloc; "{error}")?,
    };
    if !fits(said.as_str(), wanted) {
        let row = format!(in alloc; "\n{text}: {said}, not {wanted}")?;
        wrong.push_str(row.as_str())?;
    }
    Ok(())
}

// Each row is a value as DynamoDB JSON, and what is said of it. All wrong rows are printed.
pub(crate) fn holds<T: Deserialize + Drop>(
    rt: &impl Abort,
    alloc: Global,
    rows: &[(&str, &str)],
) -> Result<(), Fail> {
    let mut wrong = String::new(alloc);
    for (text, wanted) in rows {
        check(alloc, &mut wrong, text, wanted, said_of::<T>(alloc, text))?;
    }
    assert!(rt; wrong.is_empty(), "{wrong}");
    Ok(())
}

// The same of rows that put one text in place of another in a value that reads.
pub(crate) fn holds_of<T: Deserialize + Drop>(
    rt: &impl Abort,
    alloc: Global,
    whole: &str,
    rows: &[(&str, &str, &str)],
) -> Result<(), Fail> {
    let mut wrong = String::new(alloc);
    check(alloc, &mut wrong, whole, "read", said_of::<T>(alloc, whole))?;
    for (from, to, wanted) in rows {
        let text = whole.replace(alloc, *from, *to)?;
        let said = said_of::<T>(alloc, text.as_str());
        check(alloc, &mut wrong, text.as_str(), wanted, said)?;
    }
    assert!(rt; wrong.is_empty(), "{wrong}");
    Ok(())
}

/// Whether this is what is wanted, of which a `..` at the end stands for any text.
pub fn fits(said: &str, wanted: &str) -> bool {
    match wanted.strip_suffix("..") {
        Some(start) => said.starts_with(start),
        None => said == wanted,
    }
}
