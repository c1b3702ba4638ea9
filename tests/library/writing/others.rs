//! Values that no text makes: what only writes, what loses something, and what refuses.
use crate::fixtures::answers::is;
use crate::fixtures::refuses::Refuses;
use crate::fixtures::writes::{writes, writes_directly};
use example_types::forms::UnitStruct;
use example_types::kinds::{Pair, Twice};
use example_types::tree::Tree;
use serde_dynamo::samples::Event;
use serde_dynamo::{Bytes, Item, Text, to_item};
use std::alloc::Global;
use std::test::Fail;

#[test]
fn what_is_lent_writes_as_itself(rt: HostRuntime) -> Result<(), Fail> {
    let alloc = rt.alloc();
    writes(&rt, alloc, Text::new("Arthur Dent"), r#"S "Arthur Dent""#)?;
    writes(&rt, alloc, Text::new(""), r#"S """#)?;
    writes_directly(&rt, alloc, Bytes::new(&[1, 2]), "B [1, 2]")?;
    writes(&rt, alloc, &7_u8, r#"N "7""#)
}

#[test]
fn structs_of_a_user_write_by_their_forms(rt: HostRuntime) -> Result<(), Fail> {
    let alloc = rt.alloc();
    let some_none: Option<Option<u8>> = Some(None);
    writes(&rt, alloc, some_none, "Null(true)")?;
    let pair = Pair(
        String::from_str(alloc, "one")?,
        String::from_str(alloc, "two")?,
    );
    writes(&rt, alloc, pair, r#"L [S "one", S "two"]"#)?;
    // Of equal names the last value stays.
    let twice = Twice {
        first: 1_u8,
        second: 2_u8,
    };
    writes(&rt, alloc, twice, r#"M {"a": N "2"}"#)
}

// A value that refuses is refused wherever it is, also where another value would stay in its place.
#[test]
fn the_first_faulty_element_is_the_fault(rt: HostRuntime) -> Result<(), Fail> {
    let alloc = rt.alloc();
    writes(&rt, alloc, Refuses, "no")?;
    writes(&rt, alloc, Some(Refuses), "no")?;
    let no_keys = vec![in alloc; (UnitStruct, Refuses)]?;
    writes(&rt, alloc, no_keys, "no")?;
    let twice = Twice {
        first: Refuses,
        second: 2_u8,
    };
    writes(&rt, alloc, twice, "no")
}

#[test]
fn a_type_that_holds_itself_writes(rt: HostRuntime) -> Result<(), Fail> {
    let alloc = rt.alloc();
    let only = Tree::Only(Box::new(alloc, Tree::Leaf(2))?);
    let inner = Tree::Many(vec![in alloc; Tree::Leaf(1), only]?);
    let tree = Tree::Many(vec![in alloc; inner, Tree::Leaf(3)]?);
    writes(&rt, alloc, tree, r#"L [L [N "1", N "2"], N "3"]"#)
}

#[test]
fn an_item_is_a_map(rt: HostRuntime) -> Result<(), Fail> {
    let item = to_item(rt.alloc(), Event::Newtype(5))?;
    assert!(rt; item.inner().len() == 1);
    assert!(rt; item.get("Newtype").is_some());
    Ok(())
}

// The text by which it is refused.
fn refused(alloc: Global, answer: serde_dynamo::Result<Item>) -> Result<String, Fail> {
    match answer {
        Ok(_) => Err(Fail::from("an item")),
        Err(error) => Ok(error.to_string(alloc)?),
    }
}

#[test]
fn what_is_no_map_is_no_item(rt: HostRuntime) -> Result<(), Fail> {
    let alloc = rt.alloc();
    let text = refused(alloc, to_item(alloc, 5_u8))?;
    is(&rt, text.as_str(), "Not a map-like object");
    let text = refused(alloc, to_item(alloc, Refuses))?;
    is(&rt, text.as_str(), "no");
    Ok(())
}
