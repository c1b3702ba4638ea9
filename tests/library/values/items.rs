//! Items, byte strings and texts keep what they hold, and have a debug text.
use crate::fixtures::answers::{answers, item, items};
use crate::fixtures::notation;
use crate::fixtures::rows::counted;
use serde_dynamo::{AttributeValue, ByteBuf, Bytes, Item, Text};
use std::collections::HashMap;
use std::test::Fail;

// Whether the value is a number of this text.
fn is_number(value: Option<&AttributeValue>, text: &str) -> bool {
    matches!(value, Some(AttributeValue::N(n)) if n.as_str() == text)
}

#[test]
fn an_item_keeps_its_map(rt: HostRuntime) -> Result<(), Fail> {
    let alloc = rt.alloc();
    assert!(rt; Item::new(alloc).inner().is_empty());
    let item = Item::from(item(alloc, r#"M {"age": N "42"}"#)?);
    assert!(rt; is_number(item.get("age"), "42"));
    assert!(rt; item.get("name").is_none());
    assert!(rt; item.inner().len() == 1);
    Ok(())
}

#[test]
fn the_map_of_an_item_is_lent_and_given(rt: HostRuntime) -> Result<(), Fail> {
    let alloc = rt.alloc();
    let mut item = Item::from(item(alloc, r#"M {"age": N "42"}"#)?);
    let name = notation::value(alloc, r#"S "Arthur""#)?;
    item.inner_mut()
        .insert(String::from_str(alloc, "name")?, name)?;
    assert!(rt; item.inner().len() == 2);
    assert!(rt; is_number(item.get("age"), "42"));
    let map = HashMap::from(item);
    assert!(rt; map.contains_key("name"));
    assert!(rt; Item::from(map).into_inner().len() == 2);
    Ok(())
}

#[test]
fn items_keep_their_maps_in_order(rt: HostRuntime) -> Result<(), Fail> {
    let alloc = rt.alloc();
    let items = items(alloc, &[r#"M {"n": N "1"}"#, r#"M {"n": N "2"}"#])?;
    let maps = Vec::from(items);
    assert!(rt; maps.len() == 2);
    assert!(rt; is_number(maps[0].get("n"), "1"));
    assert!(rt; is_number(maps[1].get("n"), "2"));
    Ok(())
}

#[test]
fn what_is_lent_is_what_is_held(rt: HostRuntime) {
    assert!(rt; *Bytes::new(b"test").as_slice() == *b"test".as_slice());
    assert!(rt; Text::new("test").as_str() == "test");
}

#[test]
fn byte_strings_are_ordered_by_what_they_hold(rt: HostRuntime) -> Result<(), Fail> {
    let alloc = rt.alloc();
    let one = ByteBuf::from(vec![in alloc; 1, 2]?);
    let two = ByteBuf::from(vec![in alloc; 1, 3]?);
    assert!(rt; one == ByteBuf::from(vec![in alloc; 1, 2]?));
    assert!(rt; one < two);
    assert!(rt; *one.as_slice() == *[1, 2].as_slice());
    assert!(rt; *two.into_vec().as_slice() == *[1, 3].as_slice());
    Ok(())
}

// Attribute values and their debug texts.
const DEBUG: &str = r#"  N "1" = N("1")
  S "a" = S("a")
  Bool(true) = Bool(true)
  B [1, 2] = B([1, 2])
  Null(false) = Null(false)
  M {"a": N "1"} = M({"a": N("1")})
  L [Null(true), L []] = L([Null(true), L([])])
  Ss ["a"] = Ss(["a"])
  Ns ["1", "2"] = Ns(["1", "2"])
  Bs [[1], []] = Bs([[1], []])"#;

#[test]
fn attribute_values_have_a_debug_text(rt: HostRuntime) -> Result<(), Fail> {
    let alloc = rt.alloc();
    for row in counted(alloc, DEBUG, 10)? {
        answers(&rt, alloc, Ok(notation::value(alloc, row.left)?), row.right)?;
    }
    Ok(())
}

#[test]
fn items_have_a_debug_text(rt: HostRuntime) -> Result<(), Fail> {
    let alloc = rt.alloc();
    let item = Item::from(item(alloc, r#"M {"n": N "1"}"#)?);
    answers(&rt, alloc, Ok(item), r#"Item { map: {"n": N("1")} }"#)?;
    let items = items(alloc, &[r#"M {"n": N "1"}"#])?;
    let text = r#"Items { maps: [{"n": N("1")}] }"#;
    Ok(answers(&rt, alloc, Ok(items), text)?)
}
