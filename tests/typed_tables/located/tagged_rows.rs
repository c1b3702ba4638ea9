//! Values of an internally tagged enum with one fault each, and the place that is said of it.
use super::readers::holds;
use example_described::Entity;
use std::test::Fail;

const UNKNOWN: &str =
    "type: unknown variant `Line`, expected one of `Customer`, `Order`, `Counter`";

#[test]
fn fields_and_the_tag_are_steps(rt: HostRuntime) -> Result<(), Fail> {
    let alloc = rt.alloc();
    let order = r#"{"M":{"customer":{"S":"c"},"id":{"S":"o"},"type":{"S":"Order"}}}"#;
    let id = r#"{"M":{"customer":{"S":"c"},"id":{"NULL":true},"type":{"S":"Order"}}}"#;
    let customer = r#"{"M":{"customer":{"N":"1"},"id":{"S":"o"},"type":{"S":"Order"}}}"#;
    let email = r#"{"M":{"email":{"N":"1"},"id":{"S":"c"},"name":{"S":"n"},
        "type":{"S":"Customer"}}}"#;
    let other = r#"{"M":{"a":{"L":[{"N":"1"},{"N":"x"}]},"type":{"S":"Counter"}}}"#;
    let second = r#"{"L":[{"M":{"type":{"S":"Counter"}}},{"M":{"id":{"N":"1"},
        "type":{"S":"Customer"}}}]}"#;
    holds::<Entity>(&rt, alloc, &[
        (order, "read"),
        (id, "id: Expected string"),
        (customer, "customer: Expected string"),
        (email, "email: Expected string"),
        (r#"{"M":{"id":{"NULL":false},"type":{"S":"Counter"}}}"#, "id: Expected unit"),
        (other, "a[1]: Failed to parse 'x' as a float: invalid float literal"),
        (r#"{"M":{"type":{"N":"1"},"zz":{"S":"o"}}}"#, "type: Expected string"),
        (r#"{"M":{"id":{"S":"o"}}}"#, "missing field `type`"),
        (r#"{"S":"Counter"}"#, "Expected map"),
    ])?;
    holds::<Vec<Entity>>(&rt, alloc, &[
        (second, "[1].id: Expected string"),
        (r#"{"L":[{"M":{"id":{"S":"o"}}}]}"#, "[0]: missing field `type`"),
    ])
}

#[test]
fn an_unknown_tag_is_at_the_tag(rt: HostRuntime) -> Result<(), Fail> {
    let alloc = rt.alloc();
    let listed = format!(in alloc; "[0].{UNKNOWN}")?;
    holds::<Entity>(&rt, alloc, &[
        (r#"{"M":{"type":{"S":"Line"}}}"#, UNKNOWN),
        (r#"{"M":{"id":{"N":"1"},"type":{"S":"Line"},"zz":{"N":"1"}}}"#, UNKNOWN),
    ])?;
    holds::<Vec<Entity>>(&rt, alloc, &[
        (r#"{"L":[{"M":{"id":{"N":"1"},"type":{"S":"Line"}}}]}"#, listed.as_str()),
    ])
}

#[test]
fn a_missing_field_is_at_the_enum(rt: HostRuntime) -> Result<(), Fail> {
    let ignored = r#"{"M":{"a":{"L":[{"M":{"b":{"N":"1"}}}]},"type":{"S":"Order"}}}"#;
    holds::<Entity>(&rt, rt.alloc(), &[
        (r#"{"M":{"type":{"S":"Order"},"customer":{"S":"c"}}}"#, "missing field `id`"),
        (r#"{"M":{"id":{"S":"c"},"type":{"S":"Customer"}}}"#, "missing field `name`"),
        (r#"{"M":{"type":{"S":"Order"}}}"#, "missing field `id`"),
        (ignored, "missing field `id`"),
    ])
}

#[test]
fn a_missing_field_in_a_list_is_at_its_enum(rt: HostRuntime) -> Result<(), Fail> {
    let order = r#"{"L":[{"M":{"type":{"S":"Order"},"customer":{"S":"c"}}}]}"#;
    let second = r#"{"L":[{"M":{"type":{"S":"Counter"}}},{"M":{"id":{"S":"c"},
        "type":{"S":"Customer"}}}]}"#;
    holds::<Vec<Entity>>(&rt, rt.alloc(), &[
        (order, "[0]: missing field `id`"),
        (second, "[1]: missing field `name`"),
    ])
}
