//! What reading derived types says of a value with a fault: the place of the fault, and the error that the plain calls return.
use super::readers::{Fault, print};
use dynamo_json::DynamoJson;
use dynamo_serde::{from_attribute_value_located, from_item_located, read_attribute_value, read_item_located};
use dynamo_value::{AttributeValue, Error, Item};
use serde::DeserializeOwned;
use std::alloc::{AllocError, Global};
use std::process::Abort;
use std::test::Fail;

// What is said of an attribute value, and of the item of its map, borrowed and owned, where it is a map.
#[derive(Drop)]
struct Said {
    plain: Option<Error>,
    located: Fault,
    of_items: Option<(Fault, Fault)>,
}

fn said_of<T: DeserializeOwned>(alloc: Global, text: &str) -> anyhow::Result<Said> {
    let value = AttributeValue::from_json_text(alloc, text)?;
    let plain = read_attribute_value::<T>(alloc, &value).err();
    let of_items = match &value {
        AttributeValue::M(map) => {
            let item = Item::from(map.clone()?);
            let borrowed = read_item_located::<T>(alloc, &item).err();
            Some((borrowed, from_item_located::<T>(alloc, item).err()))
        }
        _ => None,
    };
    let located = from_attribute_value_located::<T>(alloc, value).err();
    Ok(Said { plain, located, of_items })
}

// Whether the plain call returns the same error, or a value too.
fn is_plain(alloc: Global, plain: &Option<Error>, located: &Fault) -> Result<bool, AllocError> {
    match (plain, located) {
        (None, None) => Ok(true),
        (Some(plain), Some(located)) => {
            Ok(plain.to_string(alloc)?.as_str() == located.error.to_string(alloc)?.as_str())
        }
        _ => Ok(false),
    }
}

// What reading says of an attribute value. The item of its map has to be read in one way.
fn agreed(alloc: Global, said: Said) -> anyhow::Result<String> {
    if let Some((borrowed, owned)) = &said.of_items {
        let (borrowed, owned) = (print(alloc, borrowed)?, print(alloc, owned)?);
        if owned != borrowed {
            return Ok(format!(in alloc; "{owned}, but {borrowed} of the borrowed item")?);
        }
    }
    if !is_plain(alloc, &said.plain, &said.located)? {
        anyhow::bail!("the plain call returns something else");
    }
    Ok(print(alloc, &said.located)?)
}

// Each row is a value as DynamoDB JSON, and how what is said of it begins.
pub(crate) fn holds<T: DeserializeOwned>(
    rt: &impl Abort,
    alloc: Global,
    rows: &[(&str, &str)],
) -> Result<(), Fail> {
    for (text, wanted) in rows {
        let said = agreed(alloc, said_of::<T>(alloc, text)?)?;
        assert!(rt; said.as_str().starts_with(*wanted), "{text}: {said}, not {wanted}");
    }
    Ok(())
}
