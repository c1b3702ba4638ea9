//! Enums that derive serde's traits, in each of their representations, with one fault each.
use super::derived_rows::holds;
use serde::Deserialize;
use std::collections::BTreeMap;
use std::test::Fail;

#[derive(Drop, Deserialize)]
enum Shipment {
    Waiting,
    Tracked(String),
    Between(u8, u8),
    Delivered { at: u8, to: Option<String> },
}

#[derive(Drop, Deserialize, PartialEq, Eq, PartialOrd, Ord)]
enum Color {
    Red,
    Green,
}

#[derive(Drop, Deserialize)]
#[serde(tag = "kind")]
enum Shape {
    Point,
    Circle { r: u8 },
    Square(Side),
}

#[derive(Drop, Deserialize)]
struct Side {
    a: u8,
}

#[derive(Drop, Deserialize)]
#[serde(tag = "t", content = "c")]
enum Event {
    Closed,
    Named(String),
    Opened { at: u8 },
    Moved(u8, u8),
}

#[derive(Drop, Deserialize)]
#[serde(untagged)]
enum Any {
    Number(u8),
    Side(Side),
    Numbers(Vec<u8>),
}

#[test]
fn a_variant_is_a_step(rt: HostRuntime) -> Result<(), Fail> {
    let alloc = rt.alloc();
    holds::<Vec<Shipment>>(&rt, alloc, &[
        (r#"{"L":[{"S":"Waiting"},{"M":{"Delivered":{"M":{"at":{"N":"1"}}}}}]}"#, "read"),
        (r#"{"L":[{"S":"Waiting"},{"S":"Lost"},{"S":"Waiting"}]}"#, "[1]: unknown variant `Lost`"),
        (r#"{"L":[{"S":"Waiting"},{"M":{"Lost":{"N":"1"}}}]}"#, "[1]: unknown variant `Lost`"),
        (r#"{"L":[{"S":"Waiting"},{"S":"Tracked"},{"S":"Waiting"}]}"#, "[1]: invalid value"),
        (r#"{"L":[{"S":"Waiting"},{"N":"1"}]}"#, "[1]: Expected enum"),
        (r#"{"L":[{"S":"Waiting"},{"M":{}}]}"#, "[1]: Expected an item with a single key"),
        (r#"{"L":[{"M":{"Tracked":{"S":""},"Waiting":{"NULL":true}}}]}"#, "[0]: Expected an item with a single key"),
        (r#"{"L":[{"M":{"Waiting":{"S":""}}}]}"#, "[0].Waiting: Expected unit"),
        (r#"{"L":[{"M":{"Tracked":{"N":"1"}}}]}"#, "[0].Tracked: Expected string"),
        (r#"{"L":[{"M":{"Between":{"L":[{"N":"1"},{"S":"2"}]}}}]}"#, "[0].Between[1]: Expected num"),
        (r#"{"L":[{"M":{"Between":{"L":[{"N":"1"}]}}}]}"#, "[0].Between: invalid length"),
        (r#"{"L":[{"M":{"Delivered":{"M":{"at":{"S":"1"}}}}}]}"#, "[0].Delivered.at: Expected num"),
        (r#"{"L":[{"M":{"Delivered":{"M":{"at":{"N":"1"},"to":{"N":"2"}}}}}]}"#, "[0].Delivered.to: Expected string"),
        (r#"{"L":[{"M":{"Delivered":{"M":{"to":{"S":"2"}}}}}]}"#, "[0].Delivered: missing field `at`"),
    ])?;
    holds::<BTreeMap<Color, u8>>(&rt, alloc, &[
        (r#"{"M":{"Green":{"N":"1"},"Red":{"N":"2"}}}"#, "read"),
        (r#"{"M":{"Green":{"N":"1"},"Pink":{"N":"2"}}}"#, "Pink: unknown variant `Pink`"),
    ])
}

#[test]
fn a_tag_inside_is_a_field(rt: HostRuntime) -> Result<(), Fail> {
    let alloc = rt.alloc();
    holds::<Vec<Shape>>(&rt, alloc, &[
        (r#"{"L":[{"M":{"kind":{"S":"Point"}}},{"M":{"kind":{"S":"Square"},"a":{"N":"1"}}}]}"#, "read"),
        (r#"{"L":[{"M":{"kind":{"S":"Circle"},"r":{"S":"1"}}}]}"#, "[0].r: Expected num"),
        (r#"{"L":[{"M":{"kind":{"S":"Circle"},"r":{"N":"300"}}}]}"#, "[0].r: Failed to parse '300'"),
        (r#"{"L":[{"M":{"kind":{"S":"Square"},"a":{"L":[]}}}]}"#, "[0].a: Expected num"),
        (r#"{"L":[{"M":{"kind":{"S":"Circle"}}}]}"#, "[0]: missing field `r`"),
        (r#"{"L":[{"M":{"kind":{"N":"1"},"r":{"N":"1"}}}]}"#, "[0].kind: Expected string"),
        (r#"{"L":[{"M":{"r":{"N":"1"}}}]}"#, "[0]: missing field `kind`"),
        (r#"{"L":[{"M":{"kind":{"S":"Point"}}},{"M":{"kind":{"S":"Line"}}}]}"#, "[1]: unknown variant `Line`"),
        (r#"{"L":[{"S":"Point"}]}"#, "[0]: Expected map"),
    ])
}

#[test]
fn a_tag_beside_its_content(rt: HostRuntime) -> Result<(), Fail> {
    let alloc = rt.alloc();
    holds::<Vec<Event>>(&rt, alloc, &[
        (r#"{"L":[{"M":{"t":{"S":"Closed"}}},{"M":{"c":{"M":{"at":{"N":"1"}}},"t":{"S":"Opened"}}}]}"#, "read"),
        (r#"{"L":[{"M":{"c":{"N":"1"},"t":{"S":"Named"}}}]}"#, "[0].c: Expected string"),
        (r#"{"L":[{"M":{"c":{"M":{"at":{"S":""}}},"t":{"S":"Opened"}}}]}"#, "[0].c.at: Expected num"),
        (r#"{"L":[{"M":{"c":{"M":{}},"t":{"S":"Opened"}}}]}"#, "[0].c: missing field `at`"),
        (r#"{"L":[{"M":{"c":{"L":[{"N":"1"},{"S":""}]},"t":{"S":"Moved"}}}]}"#, "[0].c[1]: Expected num"),
        (r#"{"L":[{"M":{"t":{"S":"Named"}}}]}"#, "[0]: missing field `c`"),
        (r#"{"L":[{"M":{"t":{"S":"Opened"}}}]}"#, "[0]: missing content"),
        (r#"{"L":[{"M":{"c":{"N":"1"}}}]}"#, "[0]: missing field `t`"),
        (r#"{"L":[{"M":{"t":{"S":"Closed"}}},{"M":{"c":{"L":[]},"t":{"S":"Lost"}}}]}"#, "[1]: unknown variant `Lost`"),
        (r#"{"L":[{"M":{"t":{"S":"Closed"}}},{"M":{"t":{"S":"Lost"}}}]}"#, "[1]: unknown variant `Lost`"),
        (r#"{"L":[{"M":{"c":{"L":[]},"t":{"N":"1"}}}]}"#, "[0]: Expected string"),
    ])
}

#[test]
fn no_tag_at_all(rt: HostRuntime) -> Result<(), Fail> {
    let alloc = rt.alloc();
    holds::<Vec<Any>>(&rt, alloc, &[
        (r#"{"L":[{"N":"1"},{"M":{"a":{"N":"2"}}},{"NS":["1"]}]}"#, "read"),
        (r#"{"L":[{"N":"1"},{"N":"300"},{"N":"2"}]}"#, "[1]: invalid value"),
        (r#"{"L":[{"N":"1"},{"M":{"a":{"S":"2"}}}]}"#, "[1]: invalid value"),
        (r#"{"L":[{"N":"1"},{"L":[{"N":"1"},{"S":"2"}]},{"N":"3"}]}"#, "[1]: invalid value"),
    ])
}
