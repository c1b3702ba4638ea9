use super::plain;
use dynamo_json::to_attribute_value_via_json;
use dynamo_value::AttributeValue;
use dynamo_write::to_attribute_value;
use serde_json::Value;
use std::test::Fail;

// Compact texts of JSON values, keys sorted.
const VALUES: [&str; 10] = [
    "null",
    "true",
    "0",
    "-9223372036854775808",
    "18446744073709551615",
    r#""1""#,
    "[]",
    "{}",
    r#"[18446744073709551615,-1,"1",null,{}]"#,
    r#"{"a":[{"b":{"c":[[],[null]]}}],"b":"","c":false}"#,
];

#[test]
fn a_json_value_is_its_own_plain_json(rt: HostRuntime) -> Result<(), Fail> {
    let alloc = rt.alloc();
    for text in VALUES {
        plain(&rt, alloc, Value::from_str(alloc, text)?, text)?;
    }
    Ok(())
}

#[test]
fn floats_are_refused(rt: HostRuntime) -> Result<(), Fail> {
    let alloc = rt.alloc();
    let refusal = "JSON floats are not supported";
    for text in [
        "1.5",
        "1e3",
        "-0.0",
        "18446744073709551616",
        r#"[1,{"a":0.5}]"#,
    ] {
        plain(&rt, alloc, Value::from_str(alloc, text)?, refusal)?;
    }
    Ok(())
}

#[test]
fn json_values_write_as_attribute_values(rt: HostRuntime) -> Result<(), Fail> {
    let alloc = rt.alloc();
    let written = to_attribute_value(alloc, Value::from_str(alloc, r#"[-1,"1",null,true]"#)?)?;
    let expected = AttributeValue::L(vec![in alloc;
        AttributeValue::N(String::from_str(alloc, "-1")?),
        AttributeValue::S(String::from_str(alloc, "1")?),
        AttributeValue::Null(true),
        AttributeValue::Bool(true),
    ]?);
    assert!(rt; written == expected);
    for text in VALUES {
        let directly = to_attribute_value(alloc, Value::from_str(alloc, text)?)?;
        let via_json = to_attribute_value_via_json(alloc, Value::from_str(alloc, text)?)?;
        assert!(rt; directly == via_json, "{text} differs");
    }
    Ok(())
}
