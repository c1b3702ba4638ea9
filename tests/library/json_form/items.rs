use super::{Wanted, has_text, read, refused};
use dynamo_json::item_under;
use dynamo_value::{AttributeValue, Item};
use json::Scratch;
use std::test::Fail;

// A part of the item of the ProductCatalog sample in DynamoDB's guide.
#[test]
fn an_item_reads_by_its_names(rt: HostRuntime) -> Result<(), Fail> {
    let alloc = rt.alloc();
    let text =
        r#"{"Id":{"N":"103"},"Authors":{"SS":["Author1","Author2"]},"InPublication":{"BOOL":false}}"#;
    let item: Item = read(alloc, text)?;
    assert_eq!(rt; item.inner().len(), 3);
    assert!(rt; matches!(item.get("Id"), Some(AttributeValue::N(text)) if text.as_str() == "103"));
    assert!(rt; matches!(item.get("InPublication"), Some(AttributeValue::Bool(false))));
    assert!(rt; matches!(item.get("Authors"), Some(AttributeValue::Ss(set)) if set.len() == 2));
    let sorted =
        r#"{"Authors":{"SS":["Author1","Author2"]},"Id":{"N":"103"},"InPublication":{"BOOL":false}}"#;
    has_text(&rt, alloc, &item, sorted)
}

#[test]
fn items_are_given_back(rt: HostRuntime) -> Result<(), Fail> {
    let alloc = rt.alloc();
    let texts = [
        "{}",
        r#"{"":{"S":""}}"#,
        r#"{"l":{"L":[{"S":"Cookies"},{"S":"Coffee"},{"N":"3.14159"}]},"m":{"M":{"Age":{"N":"35"},"Name":{"S":"Joe"}}},"ns":{"NS":["42.2","-19","7.5","3.14"]}}"#,
    ];
    for text in texts {
        let item: Item = read(alloc, text)?;
        has_text(&rt, alloc, &item, text)?;
        assert!(rt; read::<Item>(alloc, text)? == item);
    }
    Ok(())
}

#[test]
fn an_item_is_refused_by_its_first_attribute(rt: HostRuntime) -> Result<(), Fail> {
    let rows = [
        ("7", Wanted::Anything),
        ("null", Wanted::Anything),
        ("[]", Wanted::Anything),
        (
            r#"{"S":"a"}"#,
            Wanted::Contains("expected an object with a single key"),
        ),
        (
            r#"{"b":{},"a":{"X":"1"}}"#,
            Wanted::Is("The key 'X' is not a known DynamoDB prefix"),
        ),
        (
            r#"{"a":{"S":"1"},"b":{}}"#,
            Wanted::Is("Expected exactly one key in the object, found none"),
        ),
    ];
    for (text, wanted) in rows {
        refused::<Item>(&rt, rt.alloc(), text, wanted)?;
    }
    Ok(())
}

// The lines are of exports to S3, and the scratch is kept from one to the next.
#[test]
fn an_item_is_found_under_its_name(rt: HostRuntime) -> Result<(), Fail> {
    let alloc = rt.alloc();
    let mut scratch = Scratch::new(alloc);
    let rows = [
        ("Item", r#"{"Item":{}}"#, "{}"),
        (
            "Item",
            r#"{"Item":{"Id":{"N":"103"},"InPublication":{"BOOL":false}}}"#,
            r#"{"Id":{"N":"103"},"InPublication":{"BOOL":false}}"#,
        ),
        (
            "Item",
            r#" { "Item" : { "l" : { "L" : [ { "S" : "\u0041" } ] } } } "#,
            r#"{"l":{"L":[{"S":"A"}]}}"#,
        ),
        ("Key", r#"{"Key":{"m":{"M":{"":{"NULL":true}}}}}"#, r#"{"m":{"M":{"":{"NULL":true}}}}"#),
    ];
    for (name, text, content) in rows {
        let Some(item) = item_under(alloc, &mut scratch, name, text)? else {
            return Err(Fail::from("no item is found in a text that has one"));
        };
        assert!(rt; item == read::<Item>(alloc, content)?, "{text} has another item");
    }
    Ok(())
}

#[test]
fn no_item_is_found_in_other_texts(rt: HostRuntime) -> Result<(), Fail> {
    let alloc = rt.alloc();
    let mut scratch = Scratch::new(alloc);
    let texts = [
        "",
        "7",
        "{}",
        r#"{"Item":{}"#,
        r#"{"Item":{}}}"#,
        r#"{"Key":{}}"#,
        r#"{"Item":[]}"#,
        r#"{"Item":{},"Count":1}"#,
        r#"{"Count":1,"Item":{}}"#,
        r#"{"Item":{"Id":103}}"#,
        r#"{"Item":{"Id":{"N":"103","S":"103"}}}"#,
        r#"{"Item":{"Id":{"X":"103"}}}"#,
    ];
    for text in texts {
        assert!(rt;
            item_under(alloc, &mut scratch, "Item", text)?.is_none(),
            "{text} has an item"
        );
    }
    Ok(())
}
