// Fields of attribute values and of items: each is written as what it is, and read back the same.
use crate::derived::rows::{reads, value, writes};
use dynamo_serde::{from_attribute_value, to_attribute_value};
use dynamo_value::{AttributeValue, Item, Result};
use serde::{Deserialize, Serialize};
use std::alloc::Global;
use std::collections::HashMap;
use std::test::Fail;

#[derive(Drop, Serialize, Deserialize)]
struct Any(#[serde(with = "dynamo_serde::attribute_value")] AttributeValue);

#[derive(Drop, Serialize, Deserialize)]
struct Record {
    id: u8,
    #[serde(with = "dynamo_serde::attribute_value")]
    payload: AttributeValue,
    #[serde(with = "dynamo_serde::item")]
    extra: Item,
    #[serde(skip_serializing_if = "Option::is_none")]
    maybe: Option<Any>,
    #[serde(default)]
    several: Vec<Any>,
    #[serde(default)]
    named: HashMap<String, Any>,
}

// Each kind, with the numbers that no integer and no float holds, and maps whose keys are symbols.
static VALUES: [&str; 18] = [
    r#"{"N":"12345678901234567890123456789012345678"}"#,
    r#"{"N":"-0.00000000000000000000000000000000000001"}"#,
    r#"{"N":"1.50"}"#,
    r#"{"S":"é"}"#,
    r#"{"S":"7"}"#,
    r#"{"BOOL":false}"#,
    r#"{"B":"AQL/"}"#,
    r#"{"NULL":true}"#,
    r#"{"NULL":false}"#,
    r#"{"M":{}}"#,
    r#"{"M":{"":{"N":"1"},"a":{"M":{"b":{"SS":["x"]}}}}}"#,
    "{\"M\":{\"\u{37e}NUMBERSET\u{37e}\":{\"L\":[{\"N\":\"1\"}]},\"\u{37e}NUMBER\u{37e}\":{\"S\":\"1\"}}}",
    "{\"M\":{\"\u{37e}N\u{37e}\":{\"S\":\"1\"}}}",
    r#"{"L":[]}"#,
    r#"{"L":[{"NULL":false},{"N":"1e-130"},{"L":[{"BS":[""]}]},{"S":""}]}"#,
    r#"{"SS":["b","a","b"]}"#,
    r#"{"NS":["12345678901234567890123456789012345678","1.0","1"]}"#,
    r#"{"BS":["AQ==","","AQL/"]}"#,
];

fn all(alloc: Global) -> std::result::Result<Vec<AttributeValue>, Fail> {
    let mut values = Vec::new(alloc);
    for json in &VALUES {
        values.push(value(alloc, json)?)?;
    }
    Ok(values)
}

#[test]
fn each_value(rt: HostRuntime) -> std::result::Result<(), Fail> {
    let alloc = rt.alloc();
    for json in &VALUES {
        reads::<Any>(&rt, alloc, &[(*json, "")])?;
        let written = to_attribute_value(alloc, &Any(value(alloc, json)?))?;
        assert!(rt; written == value(alloc, json)?);
    }
    // no set of this service is empty, and still it is kept
    for empty in [
        AttributeValue::Ss(Vec::new(alloc)),
        AttributeValue::Ns(Vec::new(alloc)),
        AttributeValue::Bs(Vec::new(alloc)),
    ] {
        let read: Any = from_attribute_value(alloc, empty.clone()?)?;
        assert!(rt; to_attribute_value(alloc, &read)? == empty);
    }
    Ok(())
}

#[test]
fn in_a_record(rt: HostRuntime) -> std::result::Result<(), Fail> {
    let alloc = rt.alloc();
    for payload in all(alloc)? {
        let mut extra = HashMap::new(alloc);
        let mut several = Vec::new(alloc);
        let mut named = HashMap::new(alloc);
        for (place, other) in all(alloc)?.into_iter().enumerate() {
            extra.insert(place.to_string(alloc)?, other.clone()?)?;
            named.insert(place.to_string(alloc)?, Any(other.clone()?))?;
            several.push(Any(other))?;
        }
        let record = Record {
            id: 7,
            payload: payload.clone()?,
            extra: Item::from(extra),
            maybe: Some(Any(AttributeValue::Ns(Vec::new(alloc)))),
            several,
            named,
        };
        let AttributeValue::M(written) = to_attribute_value(alloc, &record)? else {
            return Err(Fail::from("no map"));
        };
        assert!(rt; written.get("payload") == Some(&payload));
        let kept = AttributeValue::M(record.extra.clone()?.into_inner());
        assert!(rt; written.get("extra") == Some(&kept));
        assert!(rt; written.get("named") == Some(&kept));
        assert!(rt; written.get("several") == Some(&AttributeValue::L(all(alloc)?)));
        let read: Record = from_attribute_value(alloc, AttributeValue::M(written))?;
        assert!(rt; read.payload == payload);
        assert!(rt; read.extra == record.extra);
        assert!(rt; to_attribute_value(alloc, &read)? == to_attribute_value(alloc, &record)?);
    }
    Ok(())
}

#[test]
fn what_is_none(rt: HostRuntime) -> std::result::Result<(), Fail> {
    reads::<Record>(&rt, rt.alloc(), &[
        (
            r#"{"M":{"id":{"N":"1"},"payload":{"S":"a"},"extra":{"M":{}},"maybe":{"NULL":true}}}"#,
            r#"{"M":{"extra":{"M":{}},"id":{"N":"1"},"named":{"M":{}},"payload":{"S":"a"},"several":{"L":[]}}}"#,
        ),
        (r#"{"M":{"id":{"N":"1"},"extra":{"M":{}}}}"#, "missing field `payload`"),
        (r#"{"M":{"payload":{"N":"1"},"extra":{"L":[]}}}"#, "Expected map"),
        (r#"{"M":{"extra":{"N":"1"}}}"#, "Expected map"),
    ])?;
    // a number is no string, although the kind of the one before was asked
    reads::<(Any, String)>(&rt, rt.alloc(), &[
        (r#"{"L":[{"N":"1"},{"S":"1"}]}"#, ""),
        (r#"{"L":[{"N":"1"},{"N":"1"}]}"#, "Expected string"),
    ])
}

fn nested(alloc: Global, levels: u32, innermost: &str) -> std::result::Result<AttributeValue, Fail> {
    let mut nested = value(alloc, innermost)?;
    for level in 0..levels {
        if level % 2 == 0 {
            nested = AttributeValue::L(vec![in alloc; nested]?);
        } else {
            let mut map = HashMap::new(alloc);
            map.insert(String::from_str(alloc, "k")?, nested)?;
            nested = AttributeValue::M(map);
        }
    }
    Ok(nested)
}

// Only lists and maps are levels, not what a symbol stands for.
#[test]
fn levels(rt: HostRuntime) -> std::result::Result<(), Fail> {
    let alloc = rt.alloc();
    for json in &VALUES[..9] {
        kept(&rt, alloc, nested(alloc, 127, json)?)?;
    }
    for json in [r#"{"SS":["a"]}"#, r#"{"NS":["1","2"]}"#, r#"{"BS":[""]}"#] {
        kept(&rt, alloc, nested(alloc, 127, json)?)?;
    }
    for too_deep in [
        nested(alloc, 128, r#"{"N":"1"}"#)?,
        nested(alloc, 127, r#"{"L":[]}"#)?,
        nested(alloc, 127, r#"{"M":{}}"#)?,
        nested(alloc, 127, r#"{"M":{"a":{"N":"1"}}}"#)?,
        nested(alloc, 1000, r#"{"N":"1"}"#)?,
    ] {
        let read: Result<Any> = from_attribute_value(alloc, too_deep.clone()?);
        let error = read.err().ok_or("no error")?;
        assert_eq!(rt; error.to_string(alloc)?.as_str(), "lists and maps nest more than 127 levels");
        writes(&rt, alloc, &Any(too_deep), "lists and maps nest more than 127 levels")?;
    }
    Ok(())
}

fn kept(
    rt: &impl std::process::Abort,
    alloc: Global,
    deepest: AttributeValue,
) -> std::result::Result<(), Fail> {
    let read: Any = from_attribute_value(alloc, deepest.clone()?)?;
    assert!(rt; read.0 == deepest);
    assert!(rt; to_attribute_value(alloc, &read)? == deepest);
    Ok(())
}
