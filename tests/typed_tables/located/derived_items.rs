//! Structs, lists, maps and scalars that derive serde's traits, with one fault each.
use super::derived_rows::holds;
use super::readers::print;
use dynamo_json::DynamoJson;
use dynamo_serde::{from_attribute_value_located, from_items_located};
use dynamo_value::{AttributeValue, Item, Items};
use serde::Deserialize;
use std::collections::{BTreeMap, HashMap};
use std::test::Fail;

#[derive(Drop, Deserialize)]
struct Home {
    city: String,
    zip: Option<u32>,
}

#[derive(Drop, Deserialize)]
#[serde(rename_all = "camelCase")]
struct Order {
    order_id: String,
    #[serde(default)]
    tags: Vec<String>,
    #[serde(default)]
    stock: HashMap<String, u64>,
    home: Option<Home>,
    #[serde(default)]
    pairs: Vec<(u8, String)>,
    #[serde(with = "dynamo_serde::number_set")]
    #[serde(default)]
    lots: Vec<u8>,
    #[serde(with = "dynamo_serde::bytes")]
    #[serde(default)]
    seal: Vec<u8>,
    #[serde(default)]
    parts: Vec<Home>,
}

#[derive(Drop, Deserialize)]
struct Meters(u16);

#[derive(Drop, Deserialize)]
#[serde(deny_unknown_fields)]
struct Strict {
    #[serde(alias = "b")]
    a: u8,
}

#[derive(Drop, Deserialize)]
struct Size {
    w: u8,
    h: u8,
}

#[derive(Drop, Deserialize)]
struct Boxed {
    id: String,
    #[serde(flatten)]
    size: Size,
}

#[derive(Drop, Deserialize)]
#[serde(try_from = "u8")]
struct Percent(u8);

impl TryFrom<u8> for Percent {
    type Error = &'static str;

    fn try_from(n: u8) -> Result<Percent, &'static str> {
        if n > 100 {
            return Err("more than all");
        }
        Ok(Percent(n))
    }
}

#[derive(Drop, Deserialize)]
#[serde(try_from = "Vec<u8>")]
struct Few(Vec<u8>);

impl TryFrom<Vec<u8>> for Few {
    type Error = &'static str;

    fn try_from(numbers: Vec<u8>) -> Result<Few, &'static str> {
        if numbers.len() > 2 {
            return Err("too many");
        }
        Ok(Few(numbers))
    }
}

type Ends = (u8, u8);

#[derive(Drop, Deserialize)]
#[serde(try_from = "Ends")]
struct Span(u8, u8);

impl TryFrom<Ends> for Span {
    type Error = &'static str;

    fn try_from(ends: Ends) -> Result<Span, &'static str> {
        if ends.1 < ends.0 {
            return Err("it ends before it begins");
        }
        Ok(Span(ends.0, ends.1))
    }
}

#[test]
fn fields_and_what_is_in_them(rt: HostRuntime) -> Result<(), Fail> {
    let alloc = rt.alloc();
    holds::<Order>(&rt, alloc, &[
        (r#"{"M":{"orderId":{"S":"a"}}}"#, "read"),
        (r#"{"S":"a"}"#, "Expected map"),
        (r#"{"M":{}}"#, "missing field `order_id`"),
        (r#"{"M":{"orderId":{"N":"1"}}}"#, "orderId: Expected string"),
        (r#"{"M":{"orderId":{"S":"a"},"home":{"NULL":true}}}"#, "read"),
        (r#"{"M":{"orderId":{"S":"a"},"home":{"S":""}}}"#, "home: Expected map"),
        (r#"{"M":{"orderId":{"S":"a"},"home":{"M":{"zip":{"N":"1"}}}}}"#, "home: missing field `city`"),
        (r#"{"M":{"orderId":{"S":"a"},"home":{"M":{"city":{"S":""},"zip":{"S":"1"}}}}}"#, "home.zip: Expected num"),
        (r#"{"M":{"orderId":{"S":"a"},"home":{"L":[{"S":""},{"S":"1"}]}}}"#, "home[1]: Expected num"),
        (r#"{"M":{"orderId":{"S":"a"},"home":{"L":[{"S":""}]}}}"#, "home: missing field `zip`"),
        (r#"{"M":{"orderId":{"S":"a"},"home":{"L":[{"S":""},{"N":"1"},{"N":"2"}]}}}"#, "home: invalid length"),
        (r#"{"M":{"orderId":{"S":"a"},"tags":{"L":[{"S":""},{"N":"1"}]}}}"#, "tags[1]: Expected string"),
        (r#"{"M":{"orderId":{"S":"a"},"tags":{"SS":["a"]}}}"#, "read"),
        (r#"{"M":{"orderId":{"S":"a"},"tags":{"NS":["1"]}}}"#, "tags[0]: Expected string"),
        (r#"{"M":{"orderId":{"S":"a"},"stock":{"M":{"a":{"N":"1"},"b c":{"N":"-1"},"d":{"N":"2"}}}}}"#,
            "stock.\"b c\": Failed to parse '-1' as an integer"),
        (r#"{"M":{"orderId":{"S":"a"},"lots":{"NS":["1","x"]}}}"#, "lots[1]: Failed to parse 'x' as an integer"),
        (r#"{"M":{"orderId":{"S":"a"},"lots":{"NS":["1","300"]}}}"#, "lots[1]: Failed to parse '300' as an integer"),
        (r#"{"M":{"orderId":{"S":"a"},"lots":{"N":"1"}}}"#, "lots: Expected seq"),
        (r#"{"M":{"orderId":{"S":"a"},"seal":{"S":"x"}}}"#, "seal: Expected binary data"),
        (r#"{"M":{"orderId":{"S":"a"},"parts":{"L":[{"M":{"city":{"S":""}}},{"M":{"zip":{"N":"1"}}}]}}}"#,
            "parts[1]: missing field `city`"),
        (r#"{"M":{"orderId":{"S":"a"},"pairs":{"L":[{"L":[{"N":"1"},{"S":""}]},{"L":[{"N":"1"},{"N":"2"}]}]}}}"#,
            "pairs[1][1]: Expected string"),
        (r#"{"M":{"orderId":{"S":"a"},"pairs":{"L":[{"L":[{"N":"1"}]}]}}}"#, "pairs[0]: invalid length"),
    ])
}

#[test]
fn what_is_ignored_counts(rt: HostRuntime) -> Result<(), Fail> {
    let alloc = rt.alloc();
    let nested = r#"{"L":[{"M":{"b":{"L":[]},"c":{"SS":["x"]}}},{"L":[{"N":"1"}]}]}"#;
    let text = format!(in alloc; "{{\"M\":{{\"aa\":{nested},\"orderId\":{{\"N\":\"1\"}}}}}}")?;
    holds::<Order>(&rt, alloc, &[(text.as_str(), "orderId: Expected string")])?;
    let text = format!(in alloc; "{{\"L\":[{{\"L\":[{{\"N\":\"1\"}},{{\"S\":\"\"}},{nested},{nested}]}},{nested}]}}")?;
    holds::<Vec<(u8, String)>>(&rt, alloc, &[(text.as_str(), "[1][0]: Expected num")])
}

#[test]
fn scalars_and_the_elements_before(rt: HostRuntime) -> Result<(), Fail> {
    let alloc = rt.alloc();
    holds::<u8>(&rt, alloc, &[(r#"{"N":"300"}"#, "Failed to parse '300'"), (r#"{"S":"3"}"#, "Expected num")])?;
    holds::<(i64, u64)>(&rt, alloc, &[(r#"{"L":[{"N":"-500"},{"N":"-500"}]}"#, "[1]: Failed to parse '-500'")])?;
    holds::<(i8, u64)>(&rt, alloc, &[(r#"{"L":[{"N":"-500"},{"N":"-500"}]}"#, "[0]: Failed to parse '-500'")])?;
    holds::<(String, char)>(&rt, alloc, &[(r#"{"L":[{"S":"ab"},{"N":"5"}]}"#, "[1]: Expected char")])?;
    holds::<Vec<char>>(&rt, alloc, &[
        (r#"{"L":[{"S":"a"},{"S":"ab"},{"S":"c"}]}"#, "[1]: Expected char"),
        (r#"{"L":[{"S":"a"},{"N":"5"}]}"#, "[1]: Expected char"),
    ])?;
    holds::<Vec<f64>>(&rt, alloc, &[(r#"{"NS":["1","x"]}"#, "[1]: Failed to parse 'x'")])?;
    holds::<Vec<bool>>(&rt, alloc, &[(r#"{"L":[{"BOOL":true},{"NULL":true}]}"#, "[1]: Expected bool")])?;
    holds::<Vec<()>>(&rt, alloc, &[(r#"{"L":[{"NULL":true},{"NULL":false}]}"#, "[1]: Expected unit")])?;
    holds::<Vec<Option<u8>>>(&rt, alloc, &[(r#"{"L":[{"NULL":true},{"NULL":false}]}"#, "[1]: Expected num")])?;
    holds::<Vec<[u8; 2]>>(&rt, alloc, &[
        (r#"{"L":[{"NS":["1","2"]},{"NS":["3"]},{"NS":["4","5"]}]}"#, "[1]: invalid length"),
        (r#"{"L":[{"NS":["1","2"]},{"NS":["3","x"]}]}"#, "[1][1]: Failed to parse 'x'"),
    ])?;
    holds::<Vec<Meters>>(&rt, alloc, &[(r#"{"L":[{"N":"7"},{"N":"70000"}]}"#, "[1]: Failed to parse '70000'")])
}

#[test]
fn a_key_is_at_its_entry(rt: HostRuntime) -> Result<(), Fail> {
    let alloc = rt.alloc();
    holds::<BTreeMap<u8, Vec<u8>>>(&rt, alloc, &[
        (r#"{"M":{"1":{"L":[]},"2":{"L":[{"N":"1"},{"S":"2"}]}}}"#, "2[1]: Expected num"),
        (r#"{"M":{"1":{"L":[]},"x":{"L":[]}}}"#, "x: Expected num"),
        (r#"{"M":{"1":{"L":[]},"300":{"L":[]}}}"#, "300: Expected num"),
    ])?;
    holds::<BTreeMap<bool, u8>>(&rt, alloc, &[(r#"{"M":{"true":{"N":"1"},"yes":{"N":"2"}}}"#, "yes: Expected string")])?;
    holds::<BTreeMap<char, u8>>(&rt, alloc, &[(r#"{"M":{"a":{"N":"1"},"bc":{"N":"2"}}}"#, "bc: Expected char")])
}

#[test]
fn unknown_and_doubled_fields_are_the_structs(rt: HostRuntime) -> Result<(), Fail> {
    let alloc = rt.alloc();
    holds::<Vec<Strict>>(&rt, alloc, &[
        (r#"{"L":[{"M":{"a":{"N":"1"}}},{"M":{"a":{"N":"1"},"x":{"N":"2"}}}]}"#, "[1]: unknown field `x`"),
        (r#"{"L":[{"M":{"a":{"N":"1"},"b":{"N":"2"}}}]}"#, "[0]: duplicate field `a`"),
    ])
}

#[test]
fn flattened_fields_are_the_structs(rt: HostRuntime) -> Result<(), Fail> {
    let alloc = rt.alloc();
    holds::<Vec<Boxed>>(&rt, alloc, &[
        (r#"{"L":[{"M":{"h":{"N":"1"},"id":{"S":""},"w":{"N":"2"}}}]}"#, "read"),
        (r#"{"L":[{"M":{"h":{"N":"1"},"id":{"S":""},"w":{"S":"2"}}}]}"#, "[0].w: Expected num"),
        (r#"{"L":[{"M":{"h":{"N":"1"},"id":{"S":""},"w":{"N":"300"}}}]}"#, "[0].w: Failed to parse '300'"),
        (r#"{"L":[{"M":{"h":{"N":"1"},"id":{"N":"1"},"w":{"N":"2"}}}]}"#, "[0].id: Expected string"),
        (r#"{"L":[{"M":{"h":{"N":"1"},"id":{"S":""}}}]}"#, "[0]: missing field `w`"),
        (r#"{"L":[{"M":{"h":{"N":"1"},"w":{"N":"2"}}}]}"#, "[0]: missing field `id`"),
    ])
}

#[test]
fn a_conversion_that_fails_is_at_its_value(rt: HostRuntime) -> Result<(), Fail> {
    let alloc = rt.alloc();
    holds::<Vec<Percent>>(&rt, alloc, &[(r#"{"L":[{"N":"1"},{"N":"101"},{"N":"2"}]}"#, "[1]: more than all")])?;
    holds::<Vec<Few>>(&rt, alloc, &[
        (r#"{"L":[{"NS":["1"]},{"NS":["1","2","3"]},{"NS":["4"]}]}"#, "[1]: too many"),
        (r#"{"L":[{"NS":["1"]},{"NS":["1","2","x"]}]}"#, "[1][2]: Failed to parse 'x'"),
    ])?;
    holds::<Vec<Span>>(&rt, alloc, &[
        (r#"{"L":[{"NS":["1","2"]},{"L":[{"N":"1"},{"S":"2"}]}]}"#, "[1][1]: Expected num"),
        (r#"{"L":[{"NS":["1","2"]},{"NS":["2","1"]}]}"#, "[1]: it ends before it begins"),
    ])
}

#[test]
fn items_are_elements(rt: HostRuntime) -> Result<(), Fail> {
    let alloc = rt.alloc();
    let rows = [
        (r#"{"city": {"S": "b"}}"#, "read"),
        (r#"{"city": {"N": "1"}}"#, "[2].city: Expected string"),
        (r#"{}"#, "[2]: missing field `city`"),
    ];
    for (text, wanted) in rows.iter() {
        let mut maps = Vec::new(alloc);
        for text in [r#"{"city": {"S": "a"}}"#, r#"{"city": {"S": "b"}}"#, *text].iter() {
            maps.push(Item::from_json_text(alloc, text)?.into_inner())?;
        }
        let read = print(alloc, &from_items_located::<Home>(alloc, Items::from(maps)).err())?;
        assert_eq!(rt; read.as_str(), *wanted);
    }
    Ok(())
}

#[test]
fn a_value_that_is_too_deep_has_no_place(rt: HostRuntime) -> Result<(), Fail> {
    let alloc = rt.alloc();
    let mut value = AttributeValue::Null(true);
    for _ in 0..128 {
        value = AttributeValue::L(vec![in alloc; value]?);
    }
    let read = print(alloc, &from_attribute_value_located::<Vec<u8>>(alloc, value).err())?;
    assert_eq!(rt; read.as_str(), "lists and maps nest more than 127 levels");
    Ok(())
}
