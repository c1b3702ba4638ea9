// An internally tagged enum: what is written of each variant, and what reads as them.
use super::rows::{reads, rereads};
use example_described::{Customer, Entity};
use std::alloc::Global;
use std::test::Fail;

fn text(alloc: Global, text: &str) -> serde_dynamo::Result<String> {
    Ok(String::from_str(alloc, text)?)
}

#[test]
fn each_variant_is_reread(rt: HostRuntime) -> Result<(), Fail> {
    let alloc = rt.alloc();
    let customer = Customer {
        id: text(alloc, "c-1")?,
        name: text(alloc, "Ann")?,
        email: None,
    };
    rereads(
        &rt,
        alloc,
        Entity::Customer(customer),
        r#"{"M":{"id":{"S":"c-1"},"name":{"S":"Ann"},"type":{"S":"Customer"}}}"#,
        r#"Customer(Customer { id: "c-1", name: "Ann", email: None })"#,
    )?;
    let order = Entity::Order {
        id: text(alloc, "o-1")?,
        customer: text(alloc, "c-1")?,
        note: Some(text(alloc, "today")?),
    };
    rereads(
        &rt,
        alloc,
        order,
        r#"{"M":{"customer":{"S":"c-1"},"id":{"S":"o-1"},"note":{"S":"today"},"type":{"S":"Order"}}}"#,
        r#"Order { id: "o-1", customer: "c-1", note: Some("today") }"#,
    )?;
    rereads(
        &rt,
        alloc,
        Entity::Counter,
        r#"{"M":{"type":{"S":"Counter"}}}"#,
        "Counter",
    )
}

#[test]
fn other_attributes_are_ignored(rt: HostRuntime) -> Result<(), Fail> {
    let alloc = rt.alloc();
    for (json, read) in [
        (
            r#"{"M":{"pk":{"S":"p"},"id":{"S":"c-1"},"name":{"S":"Ann"},"type":{"S":"Customer"},"zip":{"N":"1"}}}"#,
            r#"Customer(Customer { id: "c-1", name: "Ann", email: None })"#,
        ),
        (
            r#"{"M":{"customer":{"S":"c-1"},"id":{"S":"o-1"},"name":{"L":[]},"type":{"S":"Order"},"note":{"NULL":true}}}"#,
            r#"Order { id: "o-1", customer: "c-1", note: None }"#,
        ),
        (
            r#"{"M":{"count":{"N":"7"},"type":{"S":"Counter"},"with":{"M":{"id":{"NS":["1"]}}}}}"#,
            "Counter",
        ),
    ] {
        reads::<Entity>(&rt, alloc, json, read)?;
    }
    Ok(())
}

#[test]
fn an_entity_is_refused(rt: HostRuntime) -> Result<(), Fail> {
    let alloc = rt.alloc();
    for (json, error) in [
        (r#"{"M":{}}"#, "missing field `type`"),
        (r#"{"M":{"id":{"S":"c-1"},"name":{"S":"Ann"}}}"#, "missing field `type`"),
        (
            r#"{"M":{"type":{"S":"Line"}}}"#,
            "unknown variant `Line`, expected one of `Customer`, `Order`, `Counter`",
        ),
        (
            r#"{"M":{"type":{"S":"customer"}}}"#,
            "unknown variant `customer`, expected one of `Customer`, `Order`, `Counter`",
        ),
        // The tag's fault comes before those of the fields.
        (
            r#"{"M":{"id":{"N":"1"},"type":{"S":"Line"}}}"#,
            "unknown variant `Line`, expected one of `Customer`, `Order`, `Counter`",
        ),
        (r#"{"M":{"id":{"N":"1"}}}"#, "missing field `type`"),
        (r#"{"M":{"customer":{"S":"c"},"id":{"NULL":true},"type":{"S":"Order"}}}"#, "Expected string"),
        (r#"{"M":{"type":{"N":"1"}}}"#, "Expected string"),
        (r#"{"M":{"type":{"B":"Q291bnRlcg=="}}}"#, "Expected string"),
        (r#"{"M":{"type":{"NULL":true}}}"#, "Expected string"),
        (r#"{"M":{"type":{"M":{"Counter":{"N":"1"}}}}}"#, "Expected string"),
        (r#"{"M":{"id":{"S":"o-1"},"type":{"S":"Order"}}}"#, "missing field `customer`"),
        (r#"{"M":{"id":{"S":"c-1"},"type":{"S":"Customer"}}}"#, "missing field `name`"),
        (r#"{"M":{"id":{"N":"1"},"type":{"S":"Customer"}}}"#, "Expected string"),
        (r#"{"M":{"id":{"NULL":false},"type":{"S":"Counter"}}}"#, "Expected unit"),
        (r#"{"NULL":true}"#, "Expected map"),
        (r#"{"S":"Counter"}"#, "Expected map"),
        (r#"{"L":[{"S":"Counter"}]}"#, "Expected map"),
    ] {
        reads::<Entity>(&rt, alloc, json, error)?;
    }
    Ok(())
}
