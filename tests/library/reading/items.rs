//! Items and lists of items are read as maps and lists of maps, at a type and at its shape.
use crate::fixtures::answers::{answers, item, items};
use crate::fixtures::notation;
use example_types::at_shapes::{item_at_shape, items_at_shape, value_at_shape};
use example_types::forms::Point;
use example_types::station::Station;
use serde_dynamo::de::Deserialize;
use serde_dynamo::samples::User;
use serde_dynamo::{Item, Items, from_item, from_item_ref, from_items, to_item};
use std::alloc::Global;
use std::fmt::Debug;
use std::process::Abort;
use std::test::Fail;

// Both calls that read an item answer so, the one that is lent it twice. The item that is lent stays as it is.
fn reads<T: Deserialize + Debug>(
    rt: &impl Abort,
    alloc: Global,
    source: &str,
    expected: &str,
) -> Result<(), Fail> {
    let lent = Item::from(item(alloc, source)?);
    answers::<T>(rt, alloc, from_item_ref(alloc, &lent), expected)?;
    answers::<T>(rt, alloc, from_item_ref(alloc, &lent), expected)?;
    assert!(rt; lent == Item::from(item(alloc, source)?));
    Ok(answers::<T>(rt, alloc, from_item(alloc, lent), expected)?)
}

#[test]
fn an_item_reads_as_its_map(rt: HostRuntime) -> Result<(), Fail> {
    let alloc = rt.alloc();
    let source = r#"M {"id": S "x", "name": S "Arthur Dent", "age": N "42"}"#;
    let text = r#"User { id: "x", name: "Arthur Dent", age: 42 }"#;
    reads::<User>(&rt, alloc, source, text)?;
    reads::<u8>(&rt, alloc, source, "Expected num")?;
    reads::<User>(&rt, alloc, "M {}", "a message")?;

    let user: User = from_item(alloc, Item::from(item(alloc, source)?))?;
    let again = from_item(alloc, to_item(alloc, &user)?);
    Ok(answers::<User>(&rt, alloc, again, text)?)
}

const USERS: [&str; 2] = [
    r#"M {"id": S "x", "name": S "Arthur", "age": N "42"}"#,
    r#"M {"id": S "y", "name": S "Ford", "age": N "200"}"#,
];

#[test]
fn items_read_one_by_one_in_order(rt: HostRuntime) -> Result<(), Fail> {
    let alloc = rt.alloc();
    let both =
        r#"[User { id: "x", name: "Arthur", age: 42 }, User { id: "y", name: "Ford", age: 200 }]"#;
    let read = from_items(alloc, items(alloc, &USERS)?);
    answers::<Vec<User>>(&rt, alloc, read, both)?;
    let read = from_items(alloc, items(alloc, &USERS)?);
    answers::<Vec<Vec<User>>>(&rt, alloc, read, "Expected seq")?;
    let read = from_items(alloc, Items::from(Vec::new(alloc)));
    Ok(answers::<Vec<Vec<User>>>(&rt, alloc, read, "[]")?)
}

#[test]
fn a_value_is_read_at_its_shape(rt: HostRuntime) -> Result<(), Fail> {
    let alloc = rt.alloc();
    for (source, expected) in [
        (r#"L [N "1", N "2"]"#, "Point(1, 2)"),
        (r#"L [N "1", S "2"]"#, "Expected num"),
    ] {
        let read = value_at_shape::<Point>(alloc, notation::value(alloc, source)?);
        answers(&rt, alloc, read, expected)?;
    }
    Ok(())
}

#[test]
fn an_item_is_read_at_its_shape(rt: HostRuntime) -> Result<(), Fail> {
    let alloc = rt.alloc();
    for (source, expected) in [
        (
            r#"M {"id": S "a", "reading": N "7"}"#,
            r#"Station { id: "a", reading: Some(7) }"#,
        ),
        (r#"M {"reading": N "7"}"#, "a message"),
    ] {
        let read = item_at_shape::<Station>(alloc, Item::from(item(alloc, source)?));
        answers(&rt, alloc, read, expected)?;
    }
    Ok(())
}

#[test]
fn items_are_read_at_their_shape(rt: HostRuntime) -> Result<(), Fail> {
    let alloc = rt.alloc();
    let one = r#"M {"id": S "a", "reading": N "7"}"#;
    let other = r#"M {"id": S "b"}"#;
    let both = r#"[Station { id: "a", reading: Some(7) }, Station { id: "b", reading: None }]"#;
    let read = items_at_shape::<Station>(alloc, items(alloc, &[one, other])?);
    answers(&rt, alloc, read, both)?;
    let no_number = r#"M {"id": S "c", "reading": S "7"}"#;
    let read = items_at_shape::<Station>(alloc, items(alloc, &[one, no_number, "M {}"])?);
    Ok(answers(&rt, alloc, read, "Expected num")?)
}
