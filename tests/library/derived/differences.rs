// What docs/DIFFERENCES.md lists of derived types: a row for each line of it. The comments say what the Rust crate returns.
use crate::derived::rows::{reads, refused_at, text, writes};
use serde::{Deserialize, Serialize};
use std::collections::BTreeMap;
use std::test::Fail;

#[derive(Drop, Serialize, Deserialize)]
#[serde(tag = "t", content = "c")]
enum Beside {
    Unit,
    Rec { n: u8 },
    Pair(u8, u8),
    Sealed(Sealed),
}

#[derive(Drop, PartialEq, Eq, PartialOrd, Ord, Serialize, Deserialize)]
enum Key {
    A,
    B(u8),
}

#[derive(Drop, Serialize, Deserialize)]
#[serde(tag = "t")]
enum Inside {
    Unit,
    Text { s: String },
    Count { n: u8 },
    Double { x: f64 },
    Single { y: f32 },
    Pair { p: (u8, u8) },
    Counts { m: BTreeMap<u8, u8> },
    Flags { k: BTreeMap<bool, u8> },
    Nothing { u: () },
}

#[derive(Drop, Serialize, Deserialize)]
#[serde(untagged)]
enum Untagged {
    Text(String),
    Count(u8),
}

#[derive(Drop, Serialize, Deserialize)]
#[serde(untagged)]
enum Several {
    Float(f64),
    Pair(u8, u8),
    Counts(BTreeMap<u8, u8>),
    Texts(Vec<String>),
}

#[derive(Drop, Serialize, Deserialize)]
enum Outside {
    Unit,
    Empty {},
    One { n: u8 },
    #[serde(skip)]
    Hidden,
}

// Its name is the symbol of string sets.
#[derive(Drop, Serialize, Deserialize)]
enum Symbols {
    #[serde(rename = "\u{37e}STRINGSET\u{37e}")]
    Names(Vec<String>),
}

#[derive(Drop, Serialize, Deserialize)]
struct One {
    a: u8,
}

#[derive(Drop, Serialize, Deserialize)]
struct Two {
    a: u8,
    b: Option<u8>,
}

#[derive(Drop, Serialize, Deserialize)]
struct Newtype(u8);

#[derive(Drop, Default, Serialize, Deserialize)]
struct Sealed;

#[derive(Drop, Serialize, Deserialize)]
struct Parts {
    #[serde(default)]
    s: String,
    #[serde(default, with = "dynamo_serde::bytes")]
    b: Vec<u8>,
    #[serde(default)]
    v: Sealed,
}

#[derive(Drop, Serialize, Deserialize)]
struct Flat {
    #[serde(flatten)]
    parts: Parts,
}

#[derive(Drop, Serialize, Deserialize)]
struct Tagged {
    id: u8,
    #[serde(flatten)]
    rest: Inside,
}

#[derive(Drop, Serialize)]
struct Flattens<T> {
    #[serde(flatten)]
    inner: T,
}

#[derive(Drop, Serialize, Deserialize)]
struct Sets {
    #[serde(with = "dynamo_serde::string_set", default)]
    texts: Vec<String>,
    #[serde(with = "dynamo_serde::binary_set", default)]
    bytes: Vec<Vec<u8>>,
}

#[derive(Drop, Serialize, Deserialize)]
#[serde(rename_all = "PascalCase")]
struct Renamed {
    lots: u8,
}

#[derive(Drop, Deserialize)]
struct Aliases {
    #[serde(alias = "b")]
    a: u8,
    #[serde(alias = "d", default, with = "dynamo_serde::bytes")]
    c: Vec<u8>,
    #[serde(alias = "f", default, deserialize_with = "dynamo_serde::bytes::deserialize")]
    e: Vec<u8>,
}

#[test]
fn enums(rt: HostRuntime) -> Result<(), Fail> {
    let alloc = rt.alloc();
    reads::<Beside>(&rt, alloc, &[
        // missing field `c`
        (r#"{"M":{"t":{"S":"Rec"}}}"#, "missing content"),
        (r#"{"M":{"a":{"N":"1"},"t":{"S":"Pair"}}}"#, "missing content"),
    ])?;
    // a message that names what was expected, too
    reads::<BTreeMap<Key, u8>>(&rt, alloc, &[(r#"{"M":{"B":{"N":"1"}}}"#, "invalid value")])?;
    reads::<Outside>(&rt, alloc, &[
        // ExpectedMap
        (r#"{"M":{"Empty":{"L":[]}}}"#, r#"{"M":{"Empty":{"M":{}}}}"#),
        (r#"{"M":{"One":{"L":[{"N":"1"}]}}}"#, r#"{"M":{"One":{"M":{"n":{"N":"1"}}}}}"#),
    ])?;
    // the enum variant Outside::Hidden cannot be serialized
    writes(&rt, alloc, &Outside::Hidden, "this variant is skipped")?;
    // a map of this one key, which reads back
    let names = vec![in alloc; text(alloc, "a")?]?;
    writes(&rt, alloc, &Symbols::Names(names), r#"{"SS":["a"]}"#)?;
    reads::<Symbols>(&rt, alloc, &[(r#"{"SS":["a"]}"#, "Expected enum")])
}

// A member is read as its type. The Rust crate keeps it as a value of any kind first.
#[test]
fn members_of_another_kind(rt: HostRuntime) -> Result<(), Fail> {
    let alloc = rt.alloc();
    let unread = r#"{"M":{"n":{"N":"1"},"t":{"S":"Count"}}}"#;
    reads::<Inside>(&rt, alloc, &[
        // invalid type: string "x", expected u8
        (r#"{"M":{"n":{"S":"x"},"t":{"S":"Count"}}}"#, "Expected num"),
        // invalid value: integer `300`, expected u8
        (
            r#"{"M":{"n":{"N":"300"},"t":{"S":"Count"}}}"#,
            "Failed to parse '300' as an integer: number too large to fit in target type",
        ),
        // FailedToParseFloat
        (
            r#"{"M":{"n":{"N":"x"},"t":{"S":"Count"}}}"#,
            "Failed to parse 'x' as an integer: invalid digit found in string",
        ),
        // ExpectedUnit
        (r#"{"M":{"n":{"NULL":false},"t":{"S":"Count"}}}"#, "Expected num"),
        // FailedToParseFloat, ExpectedUnit
        (r#"{"M":{"n":{"N":"1"},"t":{"S":"Count"},"w":{"N":"-"}}}"#, unread),
        (r#"{"M":{"n":{"N":"1"},"t":{"S":"Count"},"w":{"NULL":false}}}"#, unread),
        // FailedToParseFloat
        (r#"{"M":{"n":{"N":"x"}}}"#, "missing field `t`"),
        // FailedToParseFloat, or the same where the tag comes first
        (r#"{"M":{"n":{"N":"x"},"t":{"S":"Alien"}}}"#, "unknown variant `Alien`"),
    ])?;
    reads::<Flat>(&rt, alloc, &[
        // invalid type: integer `1`, expected a string
        (r#"{"M":{"s":{"N":"1"}}}"#, "Expected string"),
        // ExpectedUnit
        (r#"{"M":{"s":{"NULL":false}}}"#, "Expected string"),
    ])?;
    reads::<Untagged>(&rt, alloc, &[
        // data did not match any variant of untagged enum Untagged
        (r#"{"BOOL":true}"#, "invalid value"),
        // FailedToParseFloat, ExpectedUnit
        (r#"{"N":"x"}"#, "invalid value"),
        (r#"{"NULL":false}"#, "invalid value"),
    ])?;
    reads::<Beside>(&rt, alloc, &[
        // the same where the tag comes first, or invalid value: integer `300`, expected u8
        (
            r#"{"M":{"c":{"M":{"n":{"N":"300"}}},"t":{"S":"Rec"}}}"#,
            "Failed to parse '300' as an integer: number too large to fit in target type",
        ),
    ])
}

#[test]
fn tagged_enums_that_are_no_map(rt: HostRuntime) -> Result<(), Fail> {
    let alloc = rt.alloc();
    reads::<Inside>(&rt, alloc, &[
        // invalid type: string "Unit", expected internally tagged enum Inside
        (r#"{"S":"Unit"}"#, "Expected map"),
        // the variants `Unit`, `Count` and `Unit`
        (r#"{"L":[{"S":"Unit"}]}"#, "Expected map"),
        (r#"{"L":[{"S":"Count"},{"N":"1"}]}"#, "Expected map"),
        (r#"{"SS":["Unit"]}"#, "Expected map"),
    ])?;
    reads::<Beside>(&rt, alloc, &[
        // the variants `Unit` and `Rec`
        (r#"{"L":[{"S":"Unit"},{"NULL":true}]}"#, "Expected map"),
        (r#"{"L":[{"S":"Rec"},{"M":{"n":{"N":"1"}}}]}"#, "Expected map"),
    ])
}

#[test]
fn values_that_are_read_on_one_side(rt: HostRuntime) -> Result<(), Fail> {
    let alloc = rt.alloc();
    let cut = r#"{"M":{"c":{"L":[{"N":"1"},{"N":"2"}]},"t":{"S":"Pair"}}}"#;
    reads::<Flat>(&rt, alloc, &[
        // the string `a`
        (r#"{"M":{"s":{"B":"YQ=="}}}"#, "Expected string"),
        // the byte 1, the byte `a`
        (r#"{"M":{"b":{"L":[{"N":"1"}]}}}"#, "Expected binary data"),
        (r#"{"M":{"b":{"S":"a"}}}"#, "Expected binary data"),
        // the unit struct
        (r#"{"M":{"v":{"L":[]}}}"#, "Expected unit"),
        (r#"{"M":{"v":{"M":{}}}}"#, "Expected unit"),
    ])?;
    reads::<Inside>(&rt, alloc, &[
        // the string `a`
        (r#"{"M":{"s":{"B":"YQ=="},"t":{"S":"Text"}}}"#, "Expected string"),
        // zero
        (
            r#"{"M":{"n":{"N":"-0"},"t":{"S":"Count"}}}"#,
            "Failed to parse '-0' as an integer: invalid digit found in string",
        ),
        // the unit
        (r#"{"M":{"t":{"S":"Nothing"},"u":{"M":{}}}}"#, "Expected unit"),
        // invalid length 3, expected 2 elements in sequence
        (
            r#"{"M":{"p":{"L":[{"N":"1"},{"N":"2"},{"N":"3"}]},"t":{"S":"Pair"}}}"#,
            r#"{"M":{"p":{"L":[{"N":"1"},{"N":"2"}]},"t":{"S":"Pair"}}}"#,
        ),
        // invalid type: string "1", expected u8
        (r#"{"M":{"m":{"M":{"1":{"N":"2"}}},"t":{"S":"Counts"}}}"#, ""),
        // invalid type: string "true", expected a boolean
        (r#"{"M":{"k":{"M":{"true":{"N":"2"}}},"t":{"S":"Flags"}}}"#, ""),
        // 0.0
        (
            r#"{"M":{"t":{"S":"Double"},"x":{"N":"-0"}}}"#,
            r#"{"M":{"t":{"S":"Double"},"x":{"N":"-0.0"}}}"#,
        ),
        // 1.0, as is the nearest f64
        (
            r#"{"M":{"t":{"S":"Single"},"y":{"N":"1.000000059604644775390626"}}}"#,
            r#"{"M":{"t":{"S":"Single"},"y":{"N":"1.0000001"}}}"#,
        ),
    ])?;
    reads::<Tagged>(&rt, alloc, &[
        // the variant `Unit`
        (r#"{"M":{"id":{"N":"1"},"t":{"B":"VW5pdA=="}}}"#, "Expected string"),
    ])?;
    reads::<Beside>(&rt, alloc, &[
        // the same where the tag comes first, or the message about a length
        (r#"{"M":{"c":{"L":[{"N":"1"},{"N":"2"},{"N":"3"}]},"t":{"S":"Pair"}}}"#, cut),
        // the unit struct, or ExpectedUnitStruct where the tag comes first
        (r#"{"M":{"c":{"L":[]},"t":{"S":"Sealed"}}}"#, "Expected unit"),
    ])?;
    reads::<Untagged>(&rt, alloc, &[
        // the string `a`, and zero
        (r#"{"B":"YQ=="}"#, "invalid value"),
        (r#"{"N":"-0"}"#, "invalid value"),
    ])?;
    reads::<Several>(&rt, alloc, &[
        // 0.0
        (r#"{"N":"-0"}"#, r#"{"N":"-0.0"}"#),
        // no variant
        (r#"{"L":[{"N":"1"},{"N":"2"},{"N":"3"}]}"#, r#"{"L":[{"N":"1"},{"N":"2"}]}"#),
        (r#"{"M":{"1":{"N":"2"}}}"#, ""),
        // the strings `a` and `b`
        (r#"{"BS":["YQ==","Yg=="]}"#, "invalid value"),
    ])
}

// The tag and the field of the variant come last, in the order of the names. The Rust crate reads both.
#[test]
fn a_shared_map_of_many_members(rt: HostRuntime) -> Result<(), Fail> {
    let alloc = rt.alloc();
    for (others, read) in [
        (62, r#"{"M":{"n":{"N":"5"},"t":{"S":"Count"}}}"#),
        (63, "two values that share a map have keys after its 63rd member"),
    ] {
        let mut json = text(alloc, r#"{"M":{"#)?;
        for at in 0..others {
            json.push_str(format!(in alloc; r#""a{at}":{{"BOOL":true}},"#)?.as_str())?;
        }
        json.push_str(r#""n":{"N":"5"},"t":{"S":"Count"}}}"#)?;
        reads::<Inside>(&rt, alloc, &[(json.as_str(), read)])?;
    }
    Ok(())
}

#[test]
fn what_is_flattened(rt: HostRuntime) -> Result<(), Fail> {
    let alloc = rt.alloc();
    // can only flatten structs and maps (got an integer)
    writes(&rt, alloc, &Flattens { inner: 1_u8 }, "can only flatten structs and maps")?;
    // can only flatten structs and maps (got a sequence)
    let inner = Vec::<u8>::new(alloc);
    writes(&rt, alloc, &Flattens { inner }, "can only flatten structs and maps")?;
    // an entry `Unit` that is null, by serde from 1.0.217 on
    writes(&rt, alloc, &Flattens { inner: Outside::Unit }, "can only flatten structs and maps")
}

#[test]
fn structs_and_lists(rt: HostRuntime) -> Result<(), Fail> {
    let alloc = rt.alloc();
    reads::<One>(&rt, alloc, &[
        // ExpectedUnit, FailedToParseFloat
        (r#"{"M":{"a":{"N":"1"},"w":{"NULL":false}}}"#, r#"{"M":{"a":{"N":"1"}}}"#),
        (r#"{"M":{"a":{"N":"1"},"b":{"N":"-"}}}"#, r#"{"M":{"a":{"N":"1"}}}"#),
    ])?;
    reads::<Two>(&rt, alloc, &[
        // invalid length 1, expected struct Two with 2 elements
        (r#"{"L":[{"N":"1"}]}"#, "missing field `b`"),
        // the first two
        (r#"{"L":[{"N":"1"},{"N":"2"},{"N":"3"}]}"#, "invalid length"),
    ])?;
    // messages
    reads::<Vec<Newtype>>(&rt, alloc, &[(r#"{"NS":["0"]}"#, r#"{"L":[{"N":"0"}]}"#)])?;
    reads::<Vec<Option<u8>>>(&rt, alloc, &[(r#"{"NS":["0"]}"#, r#"{"L":[{"N":"0"}]}"#)])?;
    // the string `a`
    reads::<Vec<String>>(&rt, alloc, &[(r#"{"BS":["YQ=="]}"#, "Expected string")])?;
    reads::<Sets>(&rt, alloc, &[
        // the string `a`, the byte `a`
        (r#"{"M":{"texts":{"BS":["YQ=="]}}}"#, "Expected string"),
        (r#"{"M":{"bytes":{"SS":["a"]}}}"#, "Expected binary data"),
    ])?;
    reads::<[u8; 3]>(&rt, alloc, &[
        // the first three
        (r#"{"L":[{"N":"1"},{"N":"2"},{"N":"3"},{"NULL":true}]}"#, "Expected num"),
        (r#"{"L":[{"N":"1"},{"N":"2"},{"N":"3"},{"N":"4"}]}"#, "invalid length"),
    ])?;
    // missing field `Lots`
    reads::<Renamed>(&rt, alloc, &[(r#"{"M":{}}"#, "missing field `lots`")])
}

#[test]
fn halfway_between_two_texts(rt: HostRuntime) -> Result<(), Fail> {
    let alloc = rt.alloc();
    // 138647.13
    writes(&rt, alloc, &138_647.125_f32, r#"{"N":"138647.12"}"#)?;
    reads::<f32>(&rt, alloc, &[
        (r#"{"N":"138647.12"}"#, ""),
        (r#"{"N":"138647.13"}"#, r#"{"N":"138647.12"}"#),
    ])
}

// The places that docs/OWN_TYPES.md lists, where those of described types are others (described/differences.rs).
#[test]
fn places(rt: HostRuntime) -> Result<(), Fail> {
    let alloc = rt.alloc();
    refused_at::<Vec<Inside>>(&rt, alloc, &[
        (r#"{"L":[{"M":{"n":{"N":"1"},"t":{"S":"Alien"}}}]}"#, "[0]: unknown variant `Alien`"),
    ])?;
    refused_at::<Vec<Aliases>>(&rt, alloc, &[
        (r#"{"L":[{"M":{"a":{"N":"1"},"b":{"N":"1"}}}]}"#, "[0]: duplicate field `a`"),
        (r#"{"L":[{"M":{"a":{"N":"1"},"c":{"B":""},"d":{"B":""}}}]}"#, "[0].d: duplicate field `c`"),
        (r#"{"L":[{"M":{"a":{"N":"1"},"e":{"B":""},"f":{"B":""}}}]}"#, "[0].f: duplicate field `e`"),
    ])
}
