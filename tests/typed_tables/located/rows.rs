//! Values and items with one fault each, and the place that is said of it, by both readers.
use super::readers::{holds, holds_of};
use example_described::{Lots, Order, Page, Shelf, Shipment, Station};
use serde_dynamo::de::IgnoredAny;
use std::collections::BTreeMap;
use std::test::Fail;

#[test]
fn the_whole_value_has_no_place(rt: HostRuntime) -> Result<(), Fail> {
    let alloc = rt.alloc();
    let too_large = "Failed to parse '300' as an integer: number too large to fit in target type";
    holds::<String>(&rt, alloc, &[(r#"{"N":"1"}"#, "Expected string")])?;
    holds::<u8>(&rt, alloc, &[(r#"{"N":"300"}"#, too_large)])?;
    holds::<Order>(&rt, alloc, &[(r#"{"M":{}}"#, "missing field `id`")])
}

// An order that reads.
const ORDER: &str = r#"{"M":{"id":{"S":"a"},"count":{"N":"1"},"tags":{"L":[{"S":"x"}]},
    "stock":{"M":{"l":{"N":"2"}}},"home":{"M":{"city":{"S":"b"},"zip":{"N":"10115"}}}}}"#;

const NOT_POSITIVE: &str =
    "stock.l: Failed to parse '-1' as an integer: invalid digit found in string";

#[test]
fn attributes_and_elements_are_named(rt: HostRuntime) -> Result<(), Fail> {
    holds_of::<Order>(&rt, rt.alloc(), ORDER, &[
        (r#""S":"a""#, r#""N":"1""#, "id: Expected string"),
        (r#""N":"1"}"#, r#""S":"1"}"#, "count: Expected num"),
        (r#""S":"x""#, r#""N":"1""#, "tags[0]: Expected string"),
        (r#"{"S":"x"}"#, r#"{"S":"x"},{"S":"y"},{"BOOL":true}"#, "tags[2]: Expected string"),
        (r#""N":"2""#, r#""N":"-1""#, NOT_POSITIVE),
        (r#""N":"10115""#, r#""S":"10115""#, "home.zip: Expected num"),
        (r#""city":{"S":"b"},"#, "", "home: missing field `city`"),
        (r#""M":{"city":{"S":"b"},"zip":{"N":"10115"}}"#, r#""S":"b""#, "home: Expected map"),
    ])
}

#[test]
fn names_that_are_not_plain_are_quoted(rt: HostRuntime) -> Result<(), Fail> {
    let named = r#""l":{"N":"2"}"#;
    holds_of::<Order>(&rt, rt.alloc(), ORDER, &[
        (r#""l""#, r#""a b""#, "read"),
        (named, r#""a b":{"S":"2"}"#, r#"stock."a b": Expected num"#),
        (named, r#""a.b":{"S":"2"}"#, r#"stock."a.b": Expected num"#),
        (named, r#""a[0]":{"S":"2"}"#, r#"stock."a[0]": Expected num"#),
        (named, r#""[0]":{"S":"2"}"#, r#"stock."[0]": Expected num"#),
        (named, r#""":{"S":"2"}"#, r#"stock."": Expected num"#),
        (named, r#""a-b_0":{"S":"2"}"#, "stock.a-b_0: Expected num"),
    ])
}

#[test]
fn structs_inside_others_are_steps(rt: HostRuntime) -> Result<(), Fail> {
    let alloc = rt.alloc();
    let of_tags = r#"{"L":[{"M":{"id":{"S":"a"},"tags":{"L":[]}}},
        {"M":{"id":{"S":"b"},"tags":{"L":[{"S":"x"},{"NULL":true}]}}}]}"#;
    let of_readings = r#"{"M":{"items":{"L":[{"M":{"id":{"S":"a"},"reading":{"N":"256"}}}]}}}"#;
    let too_large = "items[0].reading: Failed to parse '256' as an integer: \
        number too large to fit in target type";
    holds::<Vec<Station>>(&rt, alloc, &[
        (of_tags, "[1].tags[1]: Expected string"),
        (r#"{"L":[{"M":{"tags":{"L":[]}}}]}"#, "[0]: missing field `id`"),
    ])?;
    holds::<Page<Station>>(&rt, alloc, &[(of_readings, too_large)])
}

#[test]
fn keys_of_maps_are_steps(rt: HostRuntime) -> Result<(), Fail> {
    let alloc = rt.alloc();
    let numbered = r#"{"M":{"1":{"L":[]},"2":{"L":[{"N":"1"},{"S":"2"}]}}}"#;
    let of_sides = r#"{"M":{"hashed":{"M":{"Left":{"N":"1"}}},
        "sorted":{"M":{"Right":{"BOOL":true}}}}}"#;
    let no_side = r#"{"M":{"hashed":{"M":{"Left":{"N":"1"},"Lost":{"N":"1"}}}}}"#;
    let articles = r#"{"M":{"name":{"S":"a"},"articles":{"M":{"k":{"L":[]}}}}}"#;
    holds::<BTreeMap<u8, Vec<u8>>>(&rt, alloc, &[(numbered, "2[1]: Expected num")])?;
    holds::<BTreeMap<u8, u8>>(&rt, alloc, &[
        (r#"{"M":{"1":{"N":"1"},"x":{"N":"2"}}}"#, "x: Expected num"),
        (r#"{"M":{"1":{"N":"1"},"256":{"N":"2"}}}"#, "256: Expected num"),
    ])?;
    holds::<Lots>(&rt, alloc, &[
        (of_sides, "sorted.Right: Expected num"),
        (no_side, "hashed.Lost: unknown variant `Lost`, expected `Left` or `Right`"),
    ])?;
    holds::<Shelf>(&rt, alloc, &[(articles, "articles.k: Expected num")])
}

const LOST: &str =
    "[0]: unknown variant `Lost`, expected one of `Waiting`, `Tracked`, `Between`, `Delivered`";

#[test]
fn variants_are_steps(rt: HostRuntime) -> Result<(), Fail> {
    let delivered = r#"{"L":[{"S":"Waiting"},
        {"M":{"Delivered":{"M":{"at":{"S":"1"},"to":{"M":{}}}}}}]}"#;
    let nowhere = r#"{"L":[{"M":{"Delivered":{"M":{"at":{"N":"1"},"to":{"M":{}}}}}}]}"#;
    let between = r#"{"L":[{"M":{"Between":{"L":[{"N":"1"},{"S":"2"}]}}}]}"#;
    let without_end = r#"{"L":[{"M":{"Between":{"L":[{"N":"1"}]}}}]}"#;
    holds::<Vec<Shipment>>(&rt, rt.alloc(), &[
        (delivered, "[1].Delivered.at: Expected num"),
        (nowhere, "[0].Delivered.to: missing field `city`"),
        (r#"{"L":[{"M":{"Delivered":{"M":{}}}}]}"#, "[0].Delivered: missing field `at`"),
        (between, "[0].Between[1]: Expected num"),
        (without_end, "[0].Between: invalid length: too few elements, .."),
        (r#"{"L":[{"M":{"Tracked":{"N":"1"}}}]}"#, "[0].Tracked: Expected string"),
        (r#"{"L":[{"M":{"Waiting":{"N":"x"}}}]}"#, "read"),
        (r#"{"L":[{"S":"Waiting"},{"S":"Tracked"}]}"#, "[1]: invalid type: unit variant, .."),
        (r#"{"L":[{"S":"Lost"}]}"#, LOST),
        (r#"{"L":[{"M":{"Lost":{"N":"1"}}}]}"#, LOST),
    ])
}

#[test]
fn elements_of_sets_are_steps(rt: HostRuntime) -> Result<(), Fail> {
    let alloc = rt.alloc();
    let no_number = "[1]: Failed to parse 'x' as an integer: invalid digit found in string";
    holds::<Vec<u8>>(&rt, alloc, &[(r#"{"NS":["1","x"]}"#, no_number)])
}

const NO_FLOAT: &str = "a[1]: Failed to parse 'x' as a float: invalid float literal";

#[test]
fn what_is_ignored_is_read(rt: HostRuntime) -> Result<(), Fail> {
    let alloc = rt.alloc();
    let sound = r#"{"M":{"aa":{"M":{"b":{"L":[{"SS":["x"]},{"M":{}},{"N":"1"}]}}},
        "id":{"S":"a"},"tags":{"L":[]}}}"#;
    let after = r#"{"M":{"aa":{"L":[{"L":[{"N":"1"},{"S":""}]},{"NS":["1","2"]}]},
        "id":{"N":"1"}}}"#;
    let inside = r#"{"M":{"a":{"L":[{"S":""},{"N":"x"}]},"id":{"S":"a"}}}"#;
    let missing = r#"{"M":{"id":{"S":"a"},"zz":{"M":{"b":{"L":[{"N":"1"}]}}}}}"#;
    holds::<IgnoredAny>(&rt, alloc, &[(r#"{"M":{"a":{"L":[{"S":""},{"N":"x"}]}}}"#, NO_FLOAT)])?;
    holds::<Station>(&rt, alloc, &[
        (sound, "read"),
        (after, "id: Expected string"),
        (inside, NO_FLOAT),
        (r#"{"M":{"a":{"NULL":false},"id":{"S":"a"}}}"#, "a: Expected unit"),
        (missing, "missing field `tags`"),
    ])
}
