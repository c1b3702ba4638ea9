// An enum in each of its representations.
use crate::derived::rows::reads;
use serde::{Deserialize, Serialize};
use std::collections::BTreeMap;
use std::test::Fail;

#[derive(Drop, Serialize, Deserialize)]
#[serde(rename_all_fields = "camelCase")]
enum External {
    #[serde(rename = "unit", alias = "nothing")]
    Unit,
    Newtype(u8),
    Tuple(u8, bool),
    #[serde(rename_all = "SCREAMING_SNAKE_CASE")]
    Named { one: u8, of_two: Option<u8> },
    Other { of_three: u8 },
    #[serde(skip)]
    Hidden,
}

#[derive(Drop, Serialize, Deserialize)]
#[serde(tag = "type", rename_all = "snake_case")]
enum Internal {
    Empty,
    BigBox(Size),
    Named { one: u8 },
    #[serde(other)]
    Unknown,
}

#[derive(Drop, Serialize, Deserialize)]
struct Size {
    width: u16,
    height: u16,
}

#[derive(Drop, Serialize, Deserialize)]
#[serde(tag = "t", content = "c")]
enum Adjacent {
    Unit,
    Newtype(String),
    Tuple(u8, u8),
}

#[derive(Drop, Serialize, Deserialize)]
#[serde(tag = "t")]
enum Tagged {
    One { n: u8 },
}

// Enums of each kind that may name a variant that isn't theirs.
#[derive(Drop, Serialize, Deserialize)]
struct Around {
    a: Option<Tagged>,
    b: Option<Adjacent>,
    c: Option<Internal>,
    d: Option<External>,
}

#[derive(Drop, Serialize, Deserialize)]
#[serde(untagged)]
enum Untagged {
    Nothing,
    Number(i64),
    Text(String),
    Size(Size),
    Counts(BTreeMap<String, u8>),
}

#[derive(Drop, Serialize, Deserialize)]
struct Empty;

#[test]
fn external_tags(rt: HostRuntime) -> Result<(), Fail> {
    let alloc = rt.alloc();
    reads::<External>(&rt, alloc, &[
        (r#"{"S":"unit"}"#, ""),
        (r#"{"S":"nothing"}"#, r#"{"S":"unit"}"#),
        (r#"{"M":{"Newtype":{"N":"7"}}}"#, ""),
        (r#"{"M":{"Tuple":{"L":[{"N":"7"},{"BOOL":true}]}}}"#, ""),
        (r#"{"M":{"Named":{"M":{"OF_TWO":{"NULL":true},"ONE":{"N":"1"}}}}}"#, ""),
        (r#"{"M":{"Other":{"M":{"ofThree":{"N":"3"}}}}}"#, ""),
        (r#"{"M":{"unit":{"NULL":true}}}"#, r#"{"S":"unit"}"#),
        (r#"{"S":"Hidden"}"#, "unknown variant `Hidden`"),
        (r#"{"S":"Newtype"}"#, "invalid value"),
        (r#"{"N":"1"}"#, "Expected enum"),
        (r#"{"L":[]}"#, "Expected enum"),
        (r#"{"M":{}}"#, "Expected an item with a single key"),
        (r#"{"M":{"Newtype":{"N":"7"},"unit":{"NULL":true}}}"#, "Expected an item with a single key"),
        (r#"{"M":{"Alien":{"N":"7"},"unit":{"NULL":true}}}"#, "Expected an item with a single key"),
    ])
}

#[test]
fn tags_inside_and_beside(rt: HostRuntime) -> Result<(), Fail> {
    let alloc = rt.alloc();
    reads::<Internal>(&rt, alloc, &[
        (r#"{"M":{"type":{"S":"empty"}}}"#, ""),
        (r#"{"M":{"height":{"N":"4"},"type":{"S":"big_box"},"width":{"N":"3"}}}"#, ""),
        (r#"{"M":{"one":{"N":"1"},"type":{"S":"named"}}}"#, ""),
        (r#"{"M":{"type":{"S":"alien"}}}"#, r#"{"M":{"type":{"S":"unknown"}}}"#),
        (r#"{"M":{"one":{"N":"1"}}}"#, "missing field `type`"),
        (r#"{"M":{"type":{"B":""}}}"#, "Expected string"),
    ])?;
    reads::<Vec<Around>>(&rt, alloc, &[
        (r#"{"L":[{"M":{"a":{"M":{"t":{"S":"Alien"}}}}}]}"#, "unknown variant `Alien`"),
        (r#"{"L":[{"M":{"a":{"M":{"n":{"S":"x"},"t":{"S":"Alien"}}},"b":{"S":"Unit"}}}]}"#, "unknown variant `Alien`"),
        (r#"{"L":[{"M":{"b":{"M":{"c":{"S":"x"},"t":{"S":"Alien"}}}}}]}"#, "unknown variant `Alien`"),
        (r#"{"L":[{"M":{"b":{"M":{"t":{"S":"Alien"}}}}}]}"#, "unknown variant `Alien`"),
        (r#"{"L":[{"M":{"b":{"M":{"t":{"S":"Unit"}}}}},{"M":{"d":{"S":"Alien"}}}]}"#, "unknown variant `Alien`"),
        (
            r#"{"L":[{"M":{"c":{"M":{"type":{"S":"Alien"}}},"d":{"M":{"Stranger":{"N":"1"}}}}}]}"#,
            "unknown variant `Stranger`",
        ),
    ])?;
    reads::<Adjacent>(&rt, alloc, &[
        (r#"{"M":{"t":{"S":"Unit"}}}"#, ""),
        (r#"{"M":{"c":{"S":"a"},"t":{"S":"Newtype"}}}"#, ""),
        (r#"{"M":{"c":{"L":[{"N":"1"},{"N":"2"}]},"t":{"S":"Tuple"}}}"#, ""),
        (r#"{"M":{"c":{"L":[{"N":"1"}]},"t":{"S":"Tuple"}}}"#, "invalid length"),
        (r#"{"M":{"t":{"B":""}}}"#, "Expected string"),
    ])
}

#[test]
fn without_tags(rt: HostRuntime) -> Result<(), Fail> {
    let alloc = rt.alloc();
    reads::<Untagged>(&rt, alloc, &[
        (r#"{"NULL":true}"#, ""),
        (r#"{"N":"-5"}"#, ""),
        (r#"{"S":"t"}"#, ""),
        (r#"{"M":{"height":{"N":"4"},"width":{"N":"3"}}}"#, ""),
        (r#"{"M":{"a":{"N":"1"},"b":{"N":"2"}}}"#, ""),
        (r#"{"M":{}}"#, ""),
        (r#"{"BOOL":true}"#, "invalid value"),
        (r#"{"M":{"a":{"N":"300"}}}"#, "invalid value"),
    ])?;
    reads::<Empty>(&rt, alloc, &[(r#"{"NULL":true}"#, ""), (r#"{"N":"1"}"#, "Expected unit")])
}
