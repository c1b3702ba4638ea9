//! Attribute values and items where values of a program's own types may be: they write as their DynamoDB JSON, and are
//! read from it.
use crate::fixtures::answers::{item, prints, shows, tells};
use crate::fixtures::rows::{Row, counted};
use crate::fixtures::writes::writes;
use crate::fixtures::{notation, show};
use example_types::own_types::{both_item_json, both_json, item_json_and_back, json_and_back};
use serde_dynamo::{
    AttributeValue, DynamoJson, Item, from_attribute_value, from_item, to_attribute_value, to_item,
};
use std::alloc::{AllocError, Global};
use std::collections::HashMap;
use std::process::Abort;
use std::test::Fail;

// Attribute values, what is written of each as a value of a program, and after ` | ` its DynamoDB JSON.
const WRITTEN: &str = r#"  Null(false) = M {"NULL": Bool(false)} | {"NULL":false}
  Null(true) = M {"NULL": Bool(true)} | {"NULL":true}
  Ss [] = M {"SS": L []} | {"SS":[]}
  B [1, 2] = M {"B": S "AQI="} | {"B":"AQI="}
  N "35" = M {"N": S "35"} | {"N":"35"}
  Bool(true) = M {"BOOL": Bool(true)} | {"BOOL":true}
  L [S "Cookies", S "Coffee", N "3.14159"] = M {"L": L [M {"S": S "Cookies"}, M {"S": S "Coffee"}, M {"N": S "3.14159"}]} | {"L":[{"S":"Cookies"},{"S":"Coffee"},{"N":"3.14159"}]}
  M {"Name": S "Joe", "Age": N "35"} = M {"M": M {"Age": M {"N": S "35"}, "Name": M {"S": S "Joe"}}} | {"M":{"Age":{"N":"35"},"Name":{"S":"Joe"}}}
  Ns ["42.2", "-19"] = M {"NS": L [S "42.2", S "-19"]} | {"NS":["42.2","-19"]}
  Bs [[1], [1, 2]] = M {"BS": L [S "AQ==", S "AQI="]} | {"BS":["AQ==","AQI="]}"#;

// Attribute values, and what each is read as, or the text of the fault.
const READ: &str = r#"  M {"SS": Ss ["a"]} = Ss ["a"]
  M {"NS": Ss ["1"]} = Ns ["1"]
  M {"BS": Ss ["AQI="]} = Bs [[1, 2]]
  M {"L": Bs []} = L []
  M {"NULL": Bool(false)} = Null(false)
  N "1" = Expected map
  L [] = Expected map
  M {} = Expected exactly one key in the object, found none
  M {"N": S "1", "S": S "1"} = Expected exactly one key in the object, found multiple keys
  M {"X": S "1"} = The key 'X' is not a known DynamoDB prefix
  M {"n": S "1"} = The key 'n' is not a known DynamoDB prefix
  M {"B": S "AQI"} = Failed to decode base64: ..
  M {"BS": L [S "AQI=", S "A"]} = Failed to decode base64: ..
  M {"N": N "1"} = Expected string
  M {"B": B [1, 2]} = Expected string
  M {"NULL": Null(true)} = Expected bool
  M {"M": L []} = Expected map
  M {"L": M {}} = Expected seq
  M {"SS": S "a"} = Expected seq
  M {"M": M {"a": M {"N": S "1"}, "b": N "1"}} = Expected map
  M {"L": Ns ["x"]} = Failed to parse 'x' as a float: invalid float literal"#;

/// Attribute values inside of other types, and what they write as.
pub(crate) const INSIDE: &str = r#"Vec<AttributeValue>
  [Null(true), Ss(["a"])] = L [M {"NULL": Bool(true)}, M {"SS": L [S "a"]}]

Option<AttributeValue>
  None = Null(true)
  Some(Null(true)) = M {"NULL": Bool(true)}

Vec<Option<AttributeValue>>
  [Some(Null(true)), None] = L [M {"NULL": Bool(true)}, Null(true)]

Kept
  Kept { id: 7, value: Ss(["a"]) } = M {"id": N "7", "value": M {"SS": L [S "a"]}}"#;

/// What is no item.
pub(crate) const NO_ITEMS: &str = r#"Item
  M {"N": S "1"} = Expected map
  M {"a": M {}} = a message
  L [] = Expected map"#;

// The attribute value writes as this, and has this JSON.
fn writes_as(rt: &impl Abort, alloc: Global, source: &str, json: &str) -> Result<(), Fail> {
    let (plain, dynamo) = both_json(alloc, &notation::value(alloc, source)?)?;
    prints(rt, alloc, &plain, json)?;
    prints(rt, alloc, &dynamo, json)
}

// What was read is the attribute value.
fn is_value(rt: &impl Abort, read: &AttributeValue, value: &AttributeValue) {
    assert!(rt; *read == *value, "{value:?} reads back as {read:?}");
}

// The attribute value reads from what is written of it.
fn reads_from(
    rt: &impl Abort,
    alloc: Global,
    value: &AttributeValue,
    written: &str,
) -> Result<(), Fail> {
    let read: AttributeValue = from_attribute_value(alloc, notation::value(alloc, written)?)?;
    is_value(rt, &read, value);
    Ok(())
}

// The attribute value reads back from what it writes, and from its JSON.
fn reads_back(rt: &impl Abort, alloc: Global, value: &AttributeValue) -> Result<(), Fail> {
    let (json, read) = json_and_back(alloc, value)?;
    is_value(rt, &read, value);
    is_value(rt, &AttributeValue::from_json(alloc, &json)?, value);
    Ok(())
}

// The row holds both ways.
fn holds_both_ways(rt: &impl Abort, alloc: Global, row: Row<'_>) -> Result<(), Fail> {
    let (written, json) = row.right.split_once(" | ").ok_or("no JSON")?;
    writes_as(rt, alloc, row.left, json)?;
    let value = notation::value(alloc, row.left)?;
    reads_from(rt, alloc, &value, written)?;
    reads_back(rt, alloc, &value)?;
    writes(rt, alloc, value, written)
}

#[test]
fn attribute_values_write_as_their_dynamodb_json(rt: HostRuntime) -> Result<(), Fail> {
    for row in counted(rt.alloc(), WRITTEN, 10)? {
        holds_both_ways(&rt, rt.alloc(), row)?;
    }
    Ok(())
}

// What the attribute value of this text reads as.
fn read(alloc: Global, source: &str) -> Result<String, Fail> {
    let read = from_attribute_value(alloc, notation::value(alloc, source)?);
    Ok(show::answer(alloc, &read)?)
}

#[test]
fn attribute_values_read_by_dynamodb_json(rt: HostRuntime) -> Result<(), Fail> {
    for row in counted(rt.alloc(), READ, 21)? {
        let answer = read(rt.alloc(), row.left)?;
        tells(&rt, row.left, "reading", answer.as_str(), row.right);
    }
    Ok(())
}

// The item has this JSON, both ways.
fn item_prints(rt: &impl Abort, alloc: Global, item: &Item, json: &str) -> Result<(), Fail> {
    let (plain, dynamo) = both_item_json(alloc, item)?;
    prints(rt, alloc, &plain, json)?;
    prints(rt, alloc, &dynamo, json)
}

#[test]
fn an_item_writes_as_the_map_of_its_attributes(rt: HostRuntime) -> Result<(), Fail> {
    let alloc = rt.alloc();
    let item = Item::from(item(alloc, r#"M {"a": N "1"}"#)?);
    item_prints(&rt, alloc, &item, r#"{"a":{"N":"1"}}"#)?;
    writes(&rt, alloc, item, r#"M {"a": M {"N": S "1"}}"#)
}

// The item that was read is the one that is expected.
fn is_item(rt: &impl Abort, read: &Item, item: &Item) {
    assert!(rt; *read == *item, "{item:?} reads back as {read:?}");
}

#[test]
fn an_item_reads_a_map_of_attribute_values(rt: HostRuntime) -> Result<(), Fail> {
    let alloc = rt.alloc();
    let item = Item::from(item(alloc, r#"M {"a": N "1", "b": Null(false)}"#)?);
    let (_, read) = item_json_and_back(alloc, &item)?;
    is_item(&rt, &read, &item);
    let written = r#"M {"a": M {"N": S "1"}, "b": M {"NULL": Bool(false)}}"#;
    let read: Item = from_attribute_value(alloc, notation::value(alloc, written)?)?;
    is_item(&rt, &read, &item);
    let read: Item = from_item(alloc, to_item(alloc, &item)?)?;
    is_item(&rt, &read, &item);
    Ok(())
}

#[test]
fn a_map_to_attribute_values_reads_back(rt: HostRuntime) -> Result<(), Fail> {
    let alloc = rt.alloc();
    let source = r#"M {"a": Ss ["a"], "b": Null(true)}"#;
    let expected = r#"M {"a": M {"SS": L [S "a"]}, "b": M {"NULL": Bool(true)}}"#;
    let written = to_attribute_value(alloc, &item(alloc, source)?)?;
    shows(&rt, alloc, &written, expected)?;
    let read: HashMap<String, AttributeValue> = from_attribute_value(alloc, written)?;
    is_item(&rt, &Item::from(read), &Item::from(item(alloc, source)?));
    Ok(())
}

// A list in a list, and so on, `depth` of them.
fn nested(alloc: Global, depth: usize) -> Result<AttributeValue, AllocError> {
    let mut value = AttributeValue::L(Vec::new(alloc));
    for _ in 1..depth {
        value = AttributeValue::L(vec![in alloc; value]?);
    }
    Ok(value)
}

// So many elements in a list.
fn wide(alloc: Global, width: usize) -> Result<AttributeValue, AllocError> {
    let mut elements = Vec::new(alloc);
    for _ in 0..width {
        elements.push(AttributeValue::Bool(true))?;
    }
    Ok(AttributeValue::L(elements))
}

// The attribute value reads back from what it writes.
fn is_kept(rt: &impl Abort, alloc: Global, value: &AttributeValue) -> Result<(), Fail> {
    let read: AttributeValue = from_attribute_value(alloc, to_attribute_value(alloc, value)?)?;
    assert!(rt; read == *value);
    Ok(())
}

#[test]
fn a_deep_and_a_wide_value_read_back(rt: HostRuntime) -> Result<(), Fail> {
    let alloc = rt.alloc();
    is_kept(&rt, alloc, &nested(alloc, 127)?)?;
    is_kept(&rt, alloc, &wide(alloc, 100_000)?)
}
