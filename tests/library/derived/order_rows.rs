// An order is written and read.
use dynamo_serde::{from_attribute_value, from_items, to_attribute_value, to_item};
use dynamo_value::{AttributeValue, Items};
use example_derived::known::Any;
use example_derived::{Order, known, known_read};
use serde_dynamo::DynamoJson;
use serde_json::Value;
use std::alloc::Global;
use std::test::Fail;

// What is read, and what is written of it, or the fault; where nothing is given, what was read.
static ROWS: [(&str, &str); 4] = [
    (
        r#"{"M":{"delivery":{"M":{"Express":{"M":{"days":{"N":"2"}}}}},"id":{"S":"a1"},"itemCount":{"N":"3"},"lots":{"NS":["7","8"]},"note":{"S":"n"},"paid":{"BOOL":true},"seal":{"B":"AQL/"},"stock":{"M":{"bolt":{"N":"650"},"nut":{"N":"700"}}},"tags":{"L":[{"S":"x"},{"S":"y"}]}}}"#,
        "",
    ),
    (
        r#"{"M":{"id":{"S":"a"},"itemCount":{"N":"1"},"more":{"L":[{"M":{"a":{"NULL":true}}}]},"delivery":{"S":"Pickup"},"stock":{"M":{}},"seal":{"B":""},"lots":{"L":[{"N":"9"}]},"paid":{"BOOL":false}}}"#,
        r#"{"M":{"delivery":{"S":"Pickup"},"id":{"S":"a"},"itemCount":{"N":"1"},"lots":{"NS":["9"]},"paid":{"BOOL":false},"seal":{"B":""},"stock":{"M":{}},"tags":{"L":[]}}}"#,
    ),
    (r#"{"M":{"id":{"S":"a"}}}"#, "missing field `item_count`"),
    (
        r#"{"M":{"itemCount":{"N":"4294967296"}}}"#,
        "Failed to parse '4294967296' as an integer: number too large to fit in target type",
    ),
];

// The attribute value of a DynamoDB JSON.
fn value(alloc: Global, json: &str) -> Result<AttributeValue, Fail> {
    Ok(AttributeValue::from_json(alloc, &serde_json::from_str::<Value>(alloc, json)?)?)
}

// The compact DynamoDB JSON of what was written, or the fault's text.
fn shown(alloc: Global, written: dynamo_value::Result<AttributeValue>) -> Result<String, Fail> {
    match written {
        Ok(written) => {
            let json: Value = written.to_json(alloc)?;
            Ok(json.to_string(alloc)?)
        }
        Err(error) => Ok(error.to_string(alloc)?),
    }
}

fn reread(alloc: Global, json: &str) -> Result<String, Fail> {
    match from_attribute_value::<Order>(alloc, value(alloc, json)?) {
        Ok(order) => shown(alloc, to_attribute_value(alloc, &order)),
        Err(error) => Ok(error.to_string(alloc)?),
    }
}

#[test]
fn an_order_is_written_and_read(rt: HostRuntime) -> Result<(), Fail> {
    let alloc = rt.alloc();
    let written = shown(alloc, to_attribute_value(alloc, &Order::new(alloc)?))?;
    assert_eq!(rt; written.as_str(), ROWS[0].0);
    for row in &ROWS {
        let answer = reread(alloc, row.0)?;
        assert_eq!(rt;
            answer.as_str(),
            if row.1.is_empty() { row.0 } else { row.1 }
        );
    }
    Ok(())
}

#[test]
fn items_are_read_in_order(rt: HostRuntime) -> Result<(), Fail> {
    let alloc = rt.alloc();
    let mut maps = Vec::new(alloc);
    for count in [5, 6, 7] {
        let mut order = Order::new(alloc)?;
        order.item_count = count;
        maps.push(to_item(alloc, &order)?.into_inner())?;
    }
    let orders: Vec<Order> = from_items(alloc, Items::from(maps))?;
    let mut counts = Vec::new(alloc);
    for order in &orders {
        counts.push(order.item_count)?;
    }
    assert_eq!(rt; counts.as_slice(), [5, 6, 7].as_slice());
    assert!(rt; to_item(alloc, &7_u8).is_err());
    Ok(())
}

#[test]
fn known_values(rt: HostRuntime) -> Result<(), Fail> {
    let alloc = rt.alloc();
    let text = String::from_str(alloc, "a")?;
    let numbers = vec![in alloc; 1, u64::MAX]?;
    let answers = [
        shown(alloc, known::boolean(alloc, true))?,
        shown(alloc, known::integer(alloc, &i64::MIN))?,
        shown(alloc, known::text(alloc, &text))?,
        shown(alloc, known::optional(alloc, None))?,
        shown(alloc, known::numbers(alloc, &numbers))?,
    ];
    let mut all = String::new(alloc);
    for answer in &answers {
        all.push_str(answer)?;
    }
    assert_eq!(rt;
        all.as_str(),
        r#"{"BOOL":true}{"N":"-9223372036854775808"}{"S":"a"}{"NULL":true}{"L":[{"N":"1"},{"N":"18446744073709551615"}]}"#
    );
    Ok(())
}

#[test]
fn known_reads(rt: HostRuntime) -> Result<(), Fail> {
    let alloc = rt.alloc();
    let yes = known_read::boolean(alloc, &value(alloc, r#"{"BOOL":true}"#)?)?;
    assert!(rt; yes);
    let least = known_read::integer(alloc, &value(alloc, r#"{"N":"-9223372036854775808"}"#)?)?;
    assert_eq!(rt; least, i64::MIN);
    let most = known_read::small(alloc, &value(alloc, r#"{"N":"255"}"#)?)?;
    assert_eq!(rt; most, 255);
    assert!(rt; known_read::small(alloc, &value(alloc, r#"{"N":"256"}"#)?).is_err());
    let text = known_read::text(alloc, &value(alloc, r#"{"S":"é"}"#)?)?;
    assert_eq!(rt; text.as_str(), "é");
    assert!(rt; known_read::text(alloc, &value(alloc, r#"{"N":"1"}"#)?).is_err());
    let none = known_read::optional(alloc, &value(alloc, r#"{"NULL":true}"#)?)?;
    assert!(rt; none.is_none());
    let some = known_read::optional(alloc, &value(alloc, r#"{"BOOL":false}"#)?)?;
    assert_eq!(rt; some, Some(false));
    for json in [
        r#"{"N":"1.50"}"#,
        r#"{"NULL":false}"#,
        r#"{"M":{"a":{"NS":["2.0","1"]},"b":{"L":[]}}}"#,
    ] {
        let any = Any(value(alloc, json)?);
        let written = shown(alloc, known::attribute_value(alloc, &any))?;
        assert_eq!(rt; written.as_str(), json);
    }
    Ok(())
}
