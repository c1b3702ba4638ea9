//! Attribute values, items and lists of items are equal where they are the same by value.
use crate::fixtures::answers::{item, items};
use crate::fixtures::notation;
use serde_dynamo::{AttributeValue, Item};
use std::alloc::Global;
use std::process::Abort;
use std::test::Fail;

// Values of all ten kinds, no two of which are equal.
const DIFFERENT: [&str; 23] = [
    r#"N "a""#,
    r#"S "a""#,
    r#"S "b""#,
    "Bool(true)",
    "Bool(false)",
    "Null(true)",
    "Null(false)",
    "B [1, 2]",
    "B [1]",
    "M {}",
    r#"M {"1": N "1", "2": N "2"}"#,
    r#"M {"1": N "1", "2": N "2", "3": N "3"}"#,
    "L []",
    r#"L [S "a", S "b"]"#,
    r#"L [S "b", S "a"]"#,
    "L [L []]",
    "Ss []",
    r#"Ss ["a", "b"]"#,
    r#"Ss ["b", "a"]"#,
    "Ns []",
    r#"Ns ["a", "b"]"#,
    "Bs []",
    "Bs [[1, 2]]",
];

// The values, and their clones, are equal or not, as is expected.
fn compare(
    rt: &impl Abort,
    value: &AttributeValue,
    other: &AttributeValue,
    equal: bool,
) -> Result<(), Fail> {
    assert!(rt; (*value == *other) == equal, "{value:?} and {other:?}");
    assert!(rt; (value.clone()? == *other) == equal, "a clone of {value:?}");
    Ok(())
}

#[test]
fn values_equal_themselves_and_their_clones_alone(rt: HostRuntime) -> Result<(), Fail> {
    let alloc = rt.alloc();
    let mut values = Vec::new(alloc);
    for text in DIFFERENT {
        values.push(notation::value(alloc, text)?)?;
    }
    for (i, value) in values.iter().enumerate() {
        for (j, other) in values.iter().enumerate() {
            compare(&rt, value, other, i == j)?;
        }
    }
    Ok(())
}

// Two maps are equal or not.
fn maps(rt: &impl Abort, alloc: Global, other: &str, equal: bool) -> Result<(), Fail> {
    let one = notation::value(alloc, r#"M {"1": N "1", "2": N "2", "3": N "3"}"#)?;
    compare(rt, &one, &notation::value(alloc, other)?, equal)
}

#[test]
fn maps_are_equal_in_whatever_order_they_were_filled(rt: HostRuntime) -> Result<(), Fail> {
    let alloc = rt.alloc();
    maps(
        &rt,
        alloc,
        r#"M {"3": N "3", "1": N "1", "2": N "2"}"#,
        true,
    )?;
    maps(&rt, alloc, r#"M {"3": N "3", "1": N "1"}"#, false)?;
    maps(
        &rt,
        alloc,
        r#"M {"3": N "3", "1": N "1", "4": N "4"}"#,
        false,
    )
}

// Items, whether each is equal to the item of the numbers 1 and 2.
const ITEMS: [(&str, bool); 2] = [
    (r#"M {"2": N "2", "1": N "1"}"#, true),
    (r#"M {"1": N "1"}"#, false),
];

#[test]
fn items_are_equal_by_their_attributes(rt: HostRuntime) -> Result<(), Fail> {
    let alloc = rt.alloc();
    let one = Item::from(item(alloc, r#"M {"1": N "1", "2": N "2"}"#)?);
    assert!(rt; one == one.clone()?);
    for (text, equal) in ITEMS {
        let other = Item::from(item(alloc, text)?);
        assert!(rt; (one == other) == equal, "{text}");
    }
    Ok(())
}

// Lists of items, whether each is equal to that of the items of 1 and 2, and of 1.
const LISTS: [(&[&str], bool); 3] = [
    (
        &[r#"M {"1": N "1", "2": N "2"}"#, r#"M {"1": N "1"}"#],
        true,
    ),
    (
        &[r#"M {"1": N "1"}"#, r#"M {"1": N "1", "2": N "2"}"#],
        false,
    ),
    (&[r#"M {"1": N "1", "2": N "2"}"#], false),
];

#[test]
fn lists_of_items_are_equal_item_by_item(rt: HostRuntime) -> Result<(), Fail> {
    let alloc = rt.alloc();
    let one = items(alloc, LISTS[0].0)?;
    for (texts, equal) in LISTS {
        let other = items(alloc, texts)?;
        assert!(rt; (one == other.clone()?) == equal);
    }
    Ok(())
}
