// The keys of maps.
use crate::derived::rows::{reads, writes};
use serde::{Deserialize, Serialize};
use std::collections::{BTreeMap, HashMap};
use std::test::Fail;

#[derive(Drop, PartialEq, Eq, PartialOrd, Ord, Serialize, Deserialize)]
#[serde(rename_all = "kebab-case")]
enum Color {
    DeepRed,
    Blue,
}

#[test]
fn keys(rt: HostRuntime) -> Result<(), Fail> {
    let alloc = rt.alloc();
    reads::<HashMap<u8, bool>>(&rt, alloc, &[
        (r#"{"M":{"200":{"BOOL":true}}}"#, ""),
        (r#"{"M":{"300":{"BOOL":true}}}"#, "Expected num"),
        (r#"{"M":{"a":{"BOOL":true}}}"#, "Expected num"),
    ])?;
    reads::<BTreeMap<i128, u8>>(&rt, alloc, &[(r#"{"M":{"-3":{"N":"1"},"4":{"N":"2"}}}"#, "")])?;
    reads::<BTreeMap<bool, char>>(&rt, alloc, &[
        (r#"{"M":{"false":{"S":"y"},"true":{"S":"x"}}}"#, ""),
        (r#"{"M":{"no":{"S":"y"}}}"#, "Expected string"),
    ])?;
    reads::<BTreeMap<char, ()>>(&rt, alloc, &[(r#"{"M":{"x":{"NULL":true}}}"#, "")])?;
    reads::<BTreeMap<String, BTreeMap<u64, u8>>>(&rt, alloc, &[(r#"{"M":{"":{"M":{}},"x":{"M":{"18446744073709551615":{"N":"1"}}}}}"#, "")])?;
    reads::<BTreeMap<Color, u8>>(&rt, alloc, &[
        (r#"{"M":{"blue":{"N":"1"},"deep-red":{"N":"2"}}}"#, ""),
        (r#"{"M":{"green":{"N":"1"}}}"#, "unknown variant `green`"),
    ])?;
    let mut pairs = BTreeMap::new(alloc);
    pairs.insert((1_u8, 2_u8), 3_u8)?;
    writes(&rt, alloc, &pairs, "Key must be a string")?;
    // no event tells a key in an option from the key
    let mut optional = BTreeMap::new(alloc);
    optional.insert(Some(1_u8), 3_u8)?;
    writes(&rt, alloc, &optional, r#"{"M":{"1":{"N":"3"}}}"#)?;
    optional.insert(None, 3_u8)?;
    writes(&rt, alloc, &optional, "Key must be a string")
}
