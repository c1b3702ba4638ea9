//! Each kind of fault that reading has, with its place.
use super::checks::ValueFirst;
use super::readers::holds;
use example_described::{Order, Page, Parcel, Settings, Shipment};
use serde_dynamo::ByteBuf;
use serde_dynamo::de::IgnoredAny;
use std::collections::BTreeMap;
use std::test::Fail;

#[test]
fn a_value_of_another_kind(rt: HostRuntime) -> Result<(), Fail> {
    let alloc = rt.alloc();
    holds::<Order>(&rt, alloc, &[
        (r#"{"M":{"id":{"BOOL":true}}}"#, "id: Expected string"),
        (r#"{"M":{"count":{"S":"1"}}}"#, "count: Expected num"),
        (r#"{"M":{"stock":{"L":[]}}}"#, "stock: Expected map"),
        (r#"{"M":{"home":{"SS":["a","b"]}}}"#, "home: Expected map"),
        (r#"{"M":{"tags":{"S":"x"}}}"#, "tags: Expected seq"),
        (r#"{"M":{"tags":{"M":{}}}}"#, "tags: Expected seq"),
    ])?;
    holds::<BTreeMap<String, Vec<bool>>>(&rt, alloc, &[
        (r#"{"M":{"a":{"L":[{"BOOL":true},{"S":"true"}]}}}"#, "a[1]: Expected bool"),
    ])?;
    holds::<BTreeMap<String, char>>(&rt, alloc, &[
        (r#"{"M":{"a":{"S":"x"},"b":{"S":""}}}"#, "b: Expected char"),
    ])?;
    holds::<BTreeMap<String, Vec<ByteBuf>>>(&rt, alloc, &[
        (r#"{"M":{"a":{"L":[{"B":"AQI="},{"BS":["AQI="]}]}}}"#, "a[1]: Expected binary data"),
    ])?;
    holds::<Settings>(&rt, alloc, &[
        (r#"{"M":{"picture":{"L":[{"N":"1"}]}}}"#, "picture: Expected binary data"),
        (r#"{"M":{"span":{"L":[{"N":"1"},{"BOOL":true}]}}}"#, "span[1]: Expected char"),
    ])
}

#[test]
fn what_is_not_null(rt: HostRuntime) -> Result<(), Fail> {
    let alloc = rt.alloc();
    holds::<BTreeMap<String, ()>>(&rt, alloc, &[
        (r#"{"M":{"a":{"NULL":true},"b":{"NULL":false}}}"#, "b: Expected unit"),
        (r#"{"M":{"a":{"M":{}}}}"#, "a: Expected unit"),
    ])?;
    holds::<Parcel>(&rt, alloc, &[
        (r#"{"M":{"seal":{"S":"x"},"weight":{"N":"1"}}}"#, "seal: Expected unit struct"),
        (r#"{"M":{"seal":{"NULL":false},"weight":{"N":"1"}}}"#, "seal: Expected unit struct"),
        (r#"{"M":{"seal":{"M":{}}}}"#, "seal: Expected unit struct"),
    ])
}

#[test]
fn what_is_no_variant(rt: HostRuntime) -> Result<(), Fail> {
    let two = r#"{"M":{"items":{"L":[{"M":{"Tracked":{"S":"a"},"Waiting":{"NULL":true}}}]}}}"#;
    holds::<Page<Shipment>>(&rt, rt.alloc(), &[
        (r#"{"M":{"items":{"L":[{"S":"Waiting"},{"N":"1"}]}}}"#, "items[1]: Expected enum"),
        (r#"{"M":{"items":{"L":[{"L":[]}]}}}"#, "items[0]: Expected enum"),
        (r#"{"M":{"items":{"L":[{"M":{}}]}}}"#, "items[0]: Expected an item with a single key"),
        (two, "items[0]: Expected an item with a single key"),
    ])
}

#[test]
fn a_number_that_does_not_parse(rt: HostRuntime) -> Result<(), Fail> {
    let alloc = rt.alloc();
    let empty = "count: Failed to parse '' as an integer: cannot parse integer from empty string";
    let part = "count: Failed to parse '1.5' as an integer: invalid digit found in string";
    let large = "count: Failed to parse '4294967296' as an integer: \
        number too large to fit in target type";
    let small = "[1]: Failed to parse '-129' as an integer: \
        number too small to fit in target type";
    let ignored = "a: Failed to parse '' as a float: cannot parse float from empty string";
    holds::<Order>(&rt, alloc, &[
        (r#"{"M":{"count":{"N":""}}}"#, empty),
        (r#"{"M":{"count":{"N":"1.5"}}}"#, part),
        (r#"{"M":{"count":{"N":"4294967296"}}}"#, large),
    ])?;
    holds::<Vec<i8>>(&rt, alloc, &[(r#"{"NS":["-128","-129"]}"#, small)])?;
    holds::<IgnoredAny>(&rt, alloc, &[(r#"{"M":{"a":{"N":""}}}"#, ignored)])
}

#[test]
fn a_value_that_is_asked_for_before_its_key(rt: HostRuntime) -> Result<(), Fail> {
    let before = "MapAccess::next_value called before MapAccess::next_key";
    let alloc = rt.alloc();
    let listed = format!(in alloc; "[0][1]: {before}")?;
    holds::<ValueFirst>(&rt, alloc, &[(r#"{"M":{"a":{"N":"1"}}}"#, before)])?;
    holds::<Vec<(u8, ValueFirst)>>(&rt, alloc, &[
        (r#"{"L":[{"L":[{"N":"1"},{"M":{"a":{"N":"1"}}}]}]}"#, listed.as_str()),
    ])
}
