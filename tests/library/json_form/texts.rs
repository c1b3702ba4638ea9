use super::{read, through_json};
use dynamo_json::{DynamoJson, TextError};
use dynamo_value::{AttributeValue, Item};
use std::alloc::Global;
use std::test::Fail;

// Neither route reads a text that is no JSON.
#[test]
fn what_is_no_json_is_told_apart(rt: HostRuntime) -> Result<(), Fail> {
    let alloc = rt.alloc();
    let texts = [
        "",
        " ",
        r#"{"S":"a""#,
        r#"{"S":"a"}}"#,
        r#"{"S":"a"} {"S":"b"}"#,
        r#"{"S":"a",}"#,
        r#"{"S" "a"}"#,
        r#"{"L":[{"S":"a"}"#,
        r#"{"L":[{"S":"a"},]}"#,
        r#"{"SS":["a" "b"]}"#,
        r#"{"S":"\q"}"#,
        r#"{"S":"\ud800"}"#,
        "{\"S\":\"a\tb\"}",
        r#"{"X":1e999}"#,
        r#"{S:"a"}"#,
        "\u{feff}{}",
    ];
    for text in texts {
        let value = AttributeValue::from_json_text(alloc, text);
        assert!(rt; matches!(value, Err(TextError::NotJson(_))), "{text}");
        let item = Item::from_json_text(alloc, text);
        assert!(rt; matches!(item, Err(TextError::NotJson(_))), "{text}");
    }
    Ok(())
}

// JSON allows white space between its tokens and escapes in every string, keys too (RFC 8259, sections 2 and 7).
#[test]
fn spellings_of_one_text_read_alike(rt: HostRuntime) -> Result<(), Fail> {
    let alloc = rt.alloc();
    let texts = [
        r#"{"M":{"é":{"L":[{"S":"h/\""},{"N":"1"}]}}}"#,
        " { \"M\" :\r\n\t{ \"é\" : { \"L\" : [ { \"S\" : \"h/\\\"\" } , { \"N\" : \"1\" } ] } } } ",
        r#"{"\u004d":{"\u00e9":{"\u004C":[{"\u0053":"\u0068\/\u0022"},{"N":"\u0031"}]}}}"#,
    ];
    let first = read::<AttributeValue>(alloc, texts[0])?;
    for text in texts {
        assert!(rt; read::<AttributeValue>(alloc, text)? == first, "{text}");
    }
    Ok(())
}

// Of equal keys the last stays, as in serde_json, and what stood under the others isn't looked at.
#[test]
fn the_last_of_equal_keys_stays(rt: HostRuntime) -> Result<(), Fail> {
    let alloc = rt.alloc();
    let last = read::<AttributeValue>(alloc, r#"{"M":{"a":{"S":"y"},"b":{"N":"1"}}}"#)?;
    let texts = [
        r#"{"M":{"a":{"S":"x"},"b":{"N":"1"},"a":{"S":"y"}}}"#,
        r#"{"M":{"a":{"S":7},"b":{"N":"1"},"a":{"S":"y"}}}"#,
        r#"{"M":{"a":[],"b":{"N":"1"},"\u0061":{"S":"y"}}}"#,
        r#"{"S":1,"M":{"a":{"S":"y"},"b":{"N":"1"}},"S":"x"}"#,
    ];
    for text in [texts[0], texts[1], texts[2]] {
        assert!(rt; read::<AttributeValue>(alloc, text)? == last, "{text}");
    }
    assert!(rt; AttributeValue::from_json_text(alloc, texts[3]).is_err());
    let twice = read::<AttributeValue>(alloc, r#"{"S":1,"S":"x"}"#)?;
    assert!(rt; twice == AttributeValue::S(String::from_str(alloc, "x")?));
    Ok(())
}

// Arrays and objects nest 127 levels, as in serde_json: 63 lists, each in the object of its kind, and an object inside.
#[test]
fn texts_nest_as_deep_as_json(rt: HostRuntime) -> Result<(), Fail> {
    let alloc = rt.alloc();
    let deepest = read::<AttributeValue>(alloc, nested(alloc, 63)?.as_str())?;
    assert!(rt; through_json(alloc, &deepest)? == deepest);
    let deeper = AttributeValue::from_json_text(alloc, nested(alloc, 64)?.as_str());
    assert!(rt; matches!(deeper, Err(TextError::NotJson(_))));
    let hostile = AttributeValue::from_json_text(alloc, nested(alloc, 100_000)?.as_str());
    assert!(rt; matches!(hostile, Err(TextError::NotJson(_))));
    Ok(())
}

// A null in so many lists.
fn nested(alloc: Global, lists: usize) -> Result<String, Fail> {
    let mut text = String::new(alloc);
    for _ in 0..lists {
        text.push_str(r#"{"L":["#)?;
    }
    text.push_str(r#"{"NULL":true}"#)?;
    for _ in 0..lists {
        text.push_str("]}")?;
    }
    Ok(text)
}

// Each kind of attribute, as the item of a text and of its JSON value.
#[test]
fn items_of_each_kind(rt: HostRuntime) -> Result<(), Fail> {
    let alloc = rt.alloc();
    let item = read::<Item>(
        alloc,
        r#"{"s":{"S":"a"},"n":{"N":"1.50"},"b":{"B":"AQI="},"t":{"BOOL":true},"z":{"NULL":true},
            "m":{"M":{}},"l":{"L":[]},"ss":{"SS":["a","b"]},"ns":{"NS":["1","2"]},"bs":{"BS":["AQ==","Ag=="]}}"#,
    )?;
    assert_eq!(rt; item.inner().len(), 10);
    assert!(rt; read::<Item>(alloc, item.to_json_text(alloc)?.as_str())? == item);
    assert!(rt; read::<Item>(alloc, "{}")?.inner().is_empty());
    Ok(())
}
