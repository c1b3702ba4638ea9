//! Values of several kinds of types with one fault each, and the place that is said of it.
use super::readers::holds;
use example_described::{Contact, Parcel, Reading, Settings};
use example_types::by_hand::Gauge;
use example_types::forms::{Count, Name, Point};
use example_types::tree::Tree;
use serde_dynamo::ByteBuf;
use std::collections::BTreeMap;
use std::test::Fail;

#[test]
fn a_struct_with_a_visitor_by_hand(rt: HostRuntime) -> Result<(), Fail> {
    let alloc = rt.alloc();
    let too_large = "reading: Failed to parse '256' as an integer: \
        number too large to fit in target type";
    let other = r#"{"M":{"extra":{"L":[{"N":"1"},{"N":"x"}]},"id":{"S":"a"}}}"#;
    let second = r#"{"L":[{"M":{"id":{"S":"a"}}},{"M":{"reading":{"N":"7"}}}]}"#;
    holds::<Gauge>(&rt, alloc, &[
        (r#"{"M":{"extra":{"L":[]},"id":{"S":"a"},"reading":{"N":"7"}}}"#, "read"),
        (r#"{"M":{"id":{"N":"1"}}}"#, "id: Expected string"),
        (r#"{"M":{"id":{"S":"a"},"reading":{"N":"256"}}}"#, too_large),
        (r#"{"M":{"reading":{"N":"7"}}}"#, "missing field, expected struct Gauge"),
        (other, "extra[1]: Failed to parse 'x' as a float: invalid float literal"),
        (r#"{"L":[{"S":"a"},{"S":"x"}]}"#, "[1]: Expected num"),
        (r#"{"L":[{"S":"a"}]}"#, "invalid length: too few elements, expected struct Gauge"),
        (r#"{"S":"a"}"#, "Expected map"),
    ])?;
    holds::<Vec<Gauge>>(&rt, alloc, &[(second, "[1]: missing field, expected struct Gauge")])
}

#[test]
fn a_tree_that_is_read_by_hand(rt: HostRuntime) -> Result<(), Fail> {
    holds::<Tree>(&rt, rt.alloc(), &[
        (r#"{"L":[{"N":"1"},{"L":[{"N":"2"}]}]}"#, "read"),
        (r#"{"S":"x"}"#, "neither a leaf nor a node"),
        (r#"{"N":"-1"}"#, "a leaf is below zero"),
        (r#"{"L":[{"N":"1"},{"L":[{"N":"2"},{"S":"x"}]}]}"#, "[1][1]: neither a leaf nor a node"),
        (r#"{"L":[{"L":[]},{"L":[{"N":"-2"}]},{"N":"3"}]}"#, "[1][0]: a leaf is below zero"),
        (r#"{"L":[{"L":[{"N":"1"}]},{"BOOL":true}]}"#, "[1]: neither a leaf nor a node"),
    ])
}

#[test]
fn boxes_and_newtypes_have_the_place_of_what_they_hold(rt: HostRuntime) -> Result<(), Fail> {
    let alloc = rt.alloc();
    let no_number = "[1]: Failed to parse 'x' as an integer: invalid digit found in string";
    holds::<Box<u8>>(&rt, alloc, &[(r#"{"S":"1"}"#, "Expected num")])?;
    holds::<Box<Vec<u8>>>(&rt, alloc, &[(r#"{"L":[{"N":"1"},{"N":"x"}]}"#, no_number)])?;
    holds::<Vec<Box<u8>>>(&rt, alloc, &[(r#"{"L":[{"N":"1"},{"S":"2"}]}"#, "[1]: Expected num")])?;
    holds::<Option<Box<u8>>>(&rt, alloc, &[(r#"{"NULL":false}"#, "Expected num")])?;
    holds::<Settings>(&rt, alloc, &[
        (r#"{"M":{"picture":{"B":"AQI="}}}"#, "read"),
        (r#"{"M":{"picture":{"S":"x"}}}"#, "picture: Expected binary data"),
    ])?;
    holds::<Name>(&rt, alloc, &[(r#"{"N":"1"}"#, "Expected string")])?;
    holds::<Count<Vec<u8>>>(&rt, alloc, &[(r#"{"L":[{"N":"1"},{"N":"x"}]}"#, no_number)])?;
    holds::<Vec<Name>>(&rt, alloc, &[(r#"{"L":[{"S":"a"},{"N":"1"}]}"#, "[1]: Expected string")])?;
    holds::<Parcel>(&rt, alloc, &[
        (r#"{"M":{"seal":{"NULL":true},"weight":{"N":"7"}}}"#, "read"),
        (r#"{"M":{"seal":{"NULL":true},"weight":{"S":"7"}}}"#, "weight: Expected num"),
    ])
}

#[test]
fn tuples_and_tuple_structs(rt: HostRuntime) -> Result<(), Fail> {
    let alloc = rt.alloc();
    let one = "[1]: invalid length: too few elements, expected a tuple";
    holds::<(u8, String)>(&rt, alloc, &[
        (r#"{"L":[{"N":"1"},{"N":"2"}]}"#, "[1]: Expected string"),
        (r#"{"L":[{"S":"1"},{"N":"2"}]}"#, "[0]: Expected num"),
        (r#"{"L":[{"N":"1"}]}"#, "invalid length: too few elements, expected a tuple"),
        (r#"{"M":{}}"#, "Expected seq"),
    ])?;
    holds::<Vec<(u8, u8)>>(&rt, alloc, &[
        (r#"{"L":[{"NS":["1","2"]},{"L":[{"N":"1"}]},{"L":[]}]}"#, one),
        (r#"{"L":[{"NS":["1","2"]},{"NS":["1","2"]},{"N":"3"}]}"#, "[2]: Expected seq"),
    ])?;
    holds::<Point>(&rt, alloc, &[
        (r#"{"L":[{"N":"1"},{"S":"2"}]}"#, "[1]: Expected num"),
        (r#"{"L":[{"N":"1"}]}"#, "invalid length: too few elements, expected tuple struct Point"),
    ])?;
    holds::<Vec<Reading>>(&rt, alloc, &[
        (r#"{"L":[{"L":[{"N":"1"},{"NULL":true},{"L":[]}]}]}"#, "read"),
        (r#"{"L":[{"L":[{"N":"1"},{"N":"2"},{"L":[]}]}]}"#, "[0][1]: Expected string"),
        (r#"{"L":[{"L":[{"N":"1"},{"S":"a"},{"L":[{"S":"b"}]}]}]}"#, "[0][2][0]: Expected num"),
    ])
}

#[test]
fn what_comes_behind_a_tuple_has_its_own_place(rt: HostRuntime) -> Result<(), Fail> {
    let span = r#"{"M":{"span":{"L":[{"N":"1"},{"S":"a"}]},"volumes":{"M":{"v":{"S":"x"}}}}}"#;
    holds::<Settings>(&rt, rt.alloc(), &[
        (r#"{"M":{"span":{"L":[{"N":"1"},{"S":"ab"}]}}}"#, "span[1]: Expected char"),
        (r#"{"M":{"span":{"L":[{"S":"1"},{"S":"a"}]}}}"#, "span[0]: Expected num"),
        (r#"{"M":{"span":{"M":{}}}}"#, "span: Expected seq"),
        (span, "volumes.v: Expected num"),
    ])
}

#[test]
fn scalars(rt: HostRuntime) -> Result<(), Fail> {
    let alloc = rt.alloc();
    let several = "[1]: invalid value: string, expected a character";
    holds::<bool>(&rt, alloc, &[(r#"{"S":"true"}"#, "Expected bool")])?;
    holds::<char>(&rt, alloc, &[(r#"{"S":"ab"}"#, "Expected char")])?;
    holds::<()>(&rt, alloc, &[(r#"{"S":""}"#, "Expected unit")])?;
    holds::<ByteBuf>(&rt, alloc, &[(r#"{"S":"x"}"#, "Expected binary data")])?;
    holds::<Vec<bool>>(&rt, alloc, &[
        (r#"{"L":[{"BOOL":true},{"NULL":true}]}"#, "[1]: Expected bool"),
    ])?;
    holds::<Vec<char>>(&rt, alloc, &[
        (r#"{"L":[{"S":"a"},{"S":"ab"}]}"#, "[1]: Expected char"),
        (r#"{"L":[{"S":"a"},{"N":"1"}]}"#, "[1]: Expected char"),
        (r#"{"SS":["a","bc"]}"#, several),
    ])?;
    holds::<Vec<()>>(&rt, alloc, &[
        (r#"{"L":[{"NULL":true},{"NULL":false}]}"#, "[1]: Expected unit"),
    ])?;
    holds::<BTreeMap<String, bool>>(&rt, alloc, &[
        (r#"{"M":{"a":{"BOOL":true},"b c":{"N":"1"}}}"#, r#""b c": Expected bool"#),
    ])
}

// The fields are `id`, `phone` or `tel`, `email` or `mail`, and `groups`, and no others.
#[test]
fn a_struct_with_rules_of_its_names(rt: HostRuntime) -> Result<(), Fail> {
    let alloc = rt.alloc();
    let groups = r#"{"M":{"groups":{"L":[{"S":"a"},{"N":"1"}]},"id":{"S":"a"}}}"#;
    let listed = r#"{"L":[{"S":"a"},{"S":"7"},{"NULL":true},{"L":[{"N":"1"}]}]}"#;
    let short = r#"{"L":[{"L":[{"S":"a"},{"S":"7"}]}]}"#;
    holds::<Contact>(&rt, alloc, &[
        (r#"{"M":{"id":{"S":"a"},"mail":{"S":"b"},"tel":{"S":"7"}}}"#, "read"),
        (r#"{"M":{"id":{"S":"a"},"tel":{"N":"7"}}}"#, "tel: Expected string"),
        (r#"{"M":{"id":{"S":"a"},"mail":{"N":"7"},"phone":{"S":"7"}}}"#, "mail: Expected string"),
        (groups, "groups[1]: Expected string"),
        (r#"{"M":{"id":{"S":"a"}}}"#, "missing field `phone`"),
        (listed, "[3][0]: Expected string"),
        (r#"{"N":"1"}"#, "Expected map"),
    ])?;
    holds::<Vec<Contact>>(&rt, alloc, &[
        (r#"{"L":[{"M":{"id":{"S":"a"}}}]}"#, "[0]: missing field `phone`"),
        (short, "[0]: invalid length: too few elements, expected struct Contact"),
    ])
}

const UNKNOWN: &str =
    "zip: unknown field `zip`, expected one of `id`, `phone`, `email`, `groups`";

// The entry whose key is refused didn't read.
#[test]
fn a_name_that_is_refused_is_at_its_entry(rt: HostRuntime) -> Result<(), Fail> {
    let twice = r#"{"M":{"id":{"S":"a"},"phone":{"S":"7"},"tel":{"S":"7"}}}"#;
    holds::<Contact>(&rt, rt.alloc(), &[
        (r#"{"M":{"id":{"S":"a"},"phone":{"S":"7"},"zip":{"S":"1"}}}"#, UNKNOWN),
        (r#"{"M":{"zip":{"NS":["x"]}}}"#, UNKNOWN),
        (twice, "tel: duplicate field `phone`"),
        (r#"{"M":{"email":{"NULL":true},"mail":{"N":"1"}}}"#, "mail: duplicate field `email`"),
    ])
}
