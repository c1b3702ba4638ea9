// Numbers, texts, byte strings, sets, options and lists.
use crate::derived::rows::{reads, text, value, writes};
use dynamo_serde::from_attribute_value;
use dynamo_value::ByteBuf;
use serde::{Deserialize, DeserializeOwned, Deserializer, Format, Serialize};
use serde_json::Value;
use std::alloc::Global;
use std::collections::{BTreeSet, VecDeque};
use std::test::Fail;

#[derive(Drop, Serialize, Deserialize)]
struct Wide {
    low: i128,
    high: u128,
    single: f32,
    #[serde(with = "dynamo_serde::bytes")]
    blob: Vec<u8>,
    #[serde(with = "dynamo_serde::string_set")]
    strings: BTreeSet<String>,
    #[serde(with = "dynamo_serde::number_set")]
    numbers: Vec<i64>,
    #[serde(with = "dynamo_serde::binary_set")]
    blobs: Vec<Vec<u8>>,
    #[serde(with = "dynamo_serde::byte_buf")]
    buffer: ByteBuf,
}

#[derive(Drop, Serialize)]
struct Unsettled<T> {
    #[serde(with = "dynamo_serde::number_set")]
    numbers: T,
}

#[test]
fn wide_numbers_and_sets(rt: HostRuntime) -> Result<(), Fail> {
    let alloc = rt.alloc();
    let mut strings = BTreeSet::new(alloc);
    strings.insert(text(alloc, "b")?)?;
    strings.insert(text(alloc, "a")?)?;
    let wide = Wide {
        low: i128::MIN,
        high: u128::MAX,
        single: 1.5,
        blob: vec![in alloc; 1, 2, 255]?,
        strings,
        numbers: vec![in alloc; -1, 2]?,
        blobs: vec![in alloc; vec![in alloc; 1, 2, 255]?]?,
        buffer: ByteBuf::from(vec![in alloc; 0]?),
    };
    let json = r#"{"M":{"blob":{"B":"AQL/"},"blobs":{"BS":["AQL/"]},"buffer":{"B":"AA=="},"high":{"N":"340282366920938463463374607431768211455"},"low":{"N":"-170141183460469231731687303715884105728"},"numbers":{"NS":["-1","2"]},"single":{"N":"1.5"},"strings":{"SS":["a","b"]}}}"#;
    writes(&rt, alloc, &wide, json)?;
    reads::<Wide>(&rt, alloc, &[
        (json, ""),
        (
            r#"{"M":{"blob":{"B":""},"blobs":{"L":[{"B":""}]},"buffer":{"B":""},"high":{"N":"0"},"low":{"N":"0"},"numbers":{"L":[]},"single":{"N":"-2e-7"},"strings":{"L":[{"S":"b"}]}}}"#,
            r#"{"M":{"blob":{"B":""},"blobs":{"BS":[""]},"buffer":{"B":""},"high":{"N":"0"},"low":{"N":"0"},"numbers":{"NS":[]},"single":{"N":"-2e-7"},"strings":{"SS":["b"]}}}"#,
        ),
        (r#"{"M":{"blob":{"L":[{"N":"1"}]}}}"#, "Expected binary data"),
        (r#"{"M":{"blobs":{"L":[{"N":"1"}]}}}"#, "Expected binary data"),
        (r#"{"M":{"buffer":{"S":"AA=="}}}"#, "Expected binary data"),
    ])?;
    writes(&rt, alloc, &Unsettled { numbers: 1_u8 }, "Not a set-like sequence")?;
    writes(&rt, alloc, &Unsettled { numbers: vec![in alloc; true]? }, "Number set element does not serialize to number")
}

#[test]
fn numbers(rt: HostRuntime) -> Result<(), Fail> {
    let alloc = rt.alloc();
    writes(&rt, alloc, &f64::NAN, "DynamoDB has no infinite numbers, and no NaN")?;
    writes(&rt, alloc, &f32::INFINITY, "DynamoDB has no infinite numbers, and no NaN")?;
    reads::<u8>(&rt, alloc, &[
        (r#"{"N":"255"}"#, ""),
        (r#"{"N":"256"}"#, "Failed to parse '256' as an integer: number too large to fit in target type"),
        (r#"{"N":"-1"}"#, "Failed to parse '-1' as an integer: invalid digit found in string"),
        (r#"{"N":"7.5"}"#, "Failed to parse '7.5' as an integer: invalid digit found in string"),
        (r#"{"S":"7"}"#, "Expected num"),
    ])?;
    reads::<i16>(&rt, alloc, &[
        (r#"{"N":"-32768"}"#, ""),
        (r#"{"N":"-32769"}"#, "Failed to parse '-32769' as an integer: number too small to fit in target type"),
    ])?;
    reads::<(i8, i32, isize)>(&rt, alloc, &[(r#"{"L":[{"N":"-1"},{"N":"-2"},{"N":"-3"}]}"#, "")])?;
    reads::<(u16, u32, usize)>(&rt, alloc, &[(r#"{"NS":["1","2","3"]}"#, r#"{"L":[{"N":"1"},{"N":"2"},{"N":"3"}]}"#)])?;
    reads::<f64>(&rt, alloc, &[
        (r#"{"N":"0.1"}"#, ""),
        (r#"{"N":"12e3"}"#, r#"{"N":"12000.0"}"#),
        (r#"{"N":""}"#, "Failed to parse '' as a float: cannot parse float from empty string"),
    ])
}

#[test]
fn texts_and_lists(rt: HostRuntime) -> Result<(), Fail> {
    let alloc = rt.alloc();
    reads::<String>(&rt, alloc, &[(r#"{"S":""}"#, ""), (r#"{"N":"7"}"#, "Expected string")])?;
    reads::<char>(&rt, alloc, &[(r#"{"S":"é"}"#, ""), (r#"{"S":"ab"}"#, "Expected char"), (r#"{"N":"7"}"#, "Expected char")])?;
    reads::<bool>(&rt, alloc, &[(r#"{"BOOL":false}"#, ""), (r#"{"N":"7"}"#, "Expected bool")])?;
    reads::<()>(&rt, alloc, &[(r#"{"NULL":true}"#, ""), (r#"{"NULL":false}"#, "Expected unit"), (r#"{"N":"7"}"#, "Expected unit")])?;
    reads::<Option<u8>>(&rt, alloc, &[(r#"{"NULL":true}"#, ""), (r#"{"N":"5"}"#, ""), (r#"{"NULL":false}"#, "Expected num")])?;
    reads::<(u8, bool)>(&rt, alloc, &[
        (r#"{"L":[{"N":"9"},{"BOOL":true}]}"#, ""),
        (r#"{"L":[{"N":"9"}]}"#, "invalid length"),
        (r#"{"L":[{"N":"9"},{"BOOL":true},{"M":{"a":{"L":[]}}}]}"#, r#"{"L":[{"N":"9"},{"BOOL":true}]}"#),
    ])?;
    reads::<[u8; 2]>(&rt, alloc, &[(r#"{"L":[{"N":"1"},{"N":"2"}]}"#, "")])?;
    reads::<VecDeque<Box<u8>>>(&rt, alloc, &[(r#"{"L":[{"N":"1"},{"N":"2"}]}"#, ""), (r#"{"N":"7"}"#, "Expected seq")])?;
    reads::<Value>(&rt, alloc, &[(r#"{"L":[{"NULL":true},{"S":"a"},{"M":{"k":{"N":"-2"},"l":{"N":"2"}}},{"BOOL":false}]}"#, "")])
}

// What asks for a borrowed text, as no type that derives `Deserialize` and is read here can.
#[derive(Drop)]
struct Lent;

impl DeserializeOwned for Lent {
    fn deserialize_owned<F: Format>(
        _alloc: Global,
        from: &mut Deserializer<'_, '_, F>,
    ) -> Result<Lent, F::Error> {
        from.borrowed_str()?;
        Ok(Lent)
    }
}

#[test]
fn no_text_is_lent(rt: HostRuntime) -> Result<(), Fail> {
    let alloc = rt.alloc();
    let read: dynamo_value::Result<Lent> = from_attribute_value(alloc, value(alloc, r#"{"S":"a"}"#)?);
    let error = read.err().ok_or("no error")?;
    assert_eq!(rt; error.to_string(alloc)?.as_str(), "a text is not lent: read a String");
    Ok(())
}
