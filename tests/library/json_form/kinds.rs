use super::both_ways;
use dynamo_value::{AttributeValue, Prefix};
use std::alloc::Global;
use std::collections::HashMap;
use std::test::Fail;

fn string(alloc: Global, text: &str) -> Result<AttributeValue, Fail> {
    Ok(AttributeValue::S(String::from_str(alloc, text)?))
}

fn number(alloc: Global, text: &str) -> Result<AttributeValue, Fail> {
    Ok(AttributeValue::N(String::from_str(alloc, text)?))
}

fn bytes(alloc: Global, bytes: &[u8]) -> Result<AttributeValue, Fail> {
    Ok(AttributeValue::B(Vec::from_slice(alloc, bytes)?))
}

fn texts(alloc: Global, texts: &[&str]) -> Result<Vec<String>, Fail> {
    let mut list = Vec::new(alloc);
    for text in texts {
        list.push(String::from_str(alloc, text)?)?;
    }
    Ok(list)
}

#[test]
fn texts_and_flags_go_both_ways(rt: HostRuntime) -> Result<(), Fail> {
    let alloc = rt.alloc();
    both_ways(&rt, alloc, string(alloc, "Hello")?, r#"{"S":"Hello"}"#)?;
    both_ways(&rt, alloc, string(alloc, "")?, r#"{"S":""}"#)?;
    both_ways(&rt, alloc, number(alloc, "123.45")?, r#"{"N":"123.45"}"#)?;
    both_ways(&rt, alloc, AttributeValue::Bool(true), r#"{"BOOL":true}"#)?;
    both_ways(&rt, alloc, AttributeValue::Bool(false), r#"{"BOOL":false}"#)?;
    both_ways(&rt, alloc, AttributeValue::Null(true), r#"{"NULL":true}"#)?;
    both_ways(&rt, alloc, AttributeValue::Null(false), r#"{"NULL":false}"#)
}

// A number is its text, whatever the text is.
#[test]
fn texts_of_numbers_are_not_looked_at(rt: HostRuntime) -> Result<(), Fail> {
    let alloc = rt.alloc();
    both_ways(&rt, alloc, number(alloc, "abc")?, r#"{"N":"abc"}"#)?;
    both_ways(&rt, alloc, number(alloc, "")?, r#"{"N":""}"#)?;
    let set = AttributeValue::Ns(texts(alloc, &["1", "x", "1"])?);
    both_ways(&rt, alloc, set, r#"{"NS":["1","x","1"]}"#)
}

#[test]
fn byte_strings_go_both_ways(rt: HostRuntime) -> Result<(), Fail> {
    let alloc = rt.alloc();
    let text = bytes(alloc, b"this text is base64-encoded")?;
    both_ways(
        &rt,
        alloc,
        text,
        r#"{"B":"dGhpcyB0ZXh0IGlzIGJhc2U2NC1lbmNvZGVk"}"#,
    )?;
    let zeros = bytes(alloc, &[116, 101, 115, 116, 0, 0, 0, 0])?;
    both_ways(&rt, alloc, zeros, r#"{"B":"dGVzdAAAAAA="}"#)?;
    both_ways(&rt, alloc, bytes(alloc, &[1, 2])?, r#"{"B":"AQI="}"#)?;
    both_ways(&rt, alloc, bytes(alloc, &[])?, r#"{"B":""}"#)
}

#[test]
fn sets_go_both_ways(rt: HostRuntime) -> Result<(), Fail> {
    let alloc = rt.alloc();
    let strings = AttributeValue::Ss(texts(alloc, &["Giraffe", "Hippo", "Zebra"])?);
    both_ways(&rt, alloc, strings, r#"{"SS":["Giraffe","Hippo","Zebra"]}"#)?;
    both_ways(
        &rt,
        alloc,
        AttributeValue::Ss(Vec::new(alloc)),
        r#"{"SS":[]}"#,
    )?;
    let numbers = AttributeValue::Ns(texts(alloc, &["42.2", "-19", "7.5", "3.14"])?);
    both_ways(&rt, alloc, numbers, r#"{"NS":["42.2","-19","7.5","3.14"]}"#)?;
    let mut blobs = Vec::new(alloc);
    for word in ["Sunny", "Rainy", "Snowy"] {
        blobs.push(Vec::from_slice(alloc, word.as_bytes())?)?;
    }
    let blobs = AttributeValue::Bs(blobs);
    both_ways(
        &rt,
        alloc,
        blobs,
        r#"{"BS":["U3Vubnk=","UmFpbnk=","U25vd3k="]}"#,
    )
}

#[test]
fn lists_keep_their_order(rt: HostRuntime) -> Result<(), Fail> {
    let alloc = rt.alloc();
    let mut list = Vec::new(alloc);
    list.push(string(alloc, "Cookies")?)?;
    list.push(string(alloc, "Coffee")?)?;
    list.push(number(alloc, "3.14159")?)?;
    let text = r#"{"L":[{"S":"Cookies"},{"S":"Coffee"},{"N":"3.14159"}]}"#;
    both_ways(&rt, alloc, AttributeValue::L(list), text)?;
    both_ways(
        &rt,
        alloc,
        AttributeValue::L(Vec::new(alloc)),
        r#"{"L":[]}"#,
    )
}

// Whatever the order in which they came, the members are written in the order of the bytes of their keys.
#[test]
fn maps_are_written_in_the_order_of_their_keys(rt: HostRuntime) -> Result<(), Fail> {
    let alloc = rt.alloc();
    let mut set = Vec::new(alloc);
    set.push(string(alloc, "x")?)?;
    let mut map = HashMap::new(alloc);
    for (key, value) in [
        ("b", "2"),
        ("a", "1"),
        ("\u{e9}", "4"),
        ("Z", "0"),
        ("ab", "3"),
    ] {
        map.insert(String::from_str(alloc, key)?, number(alloc, value)?)?;
    }
    map.insert(String::from_str(alloc, "")?, AttributeValue::L(set))?;
    map.insert(
        String::from_str(alloc, "ns")?,
        AttributeValue::Ns(texts(alloc, &["7"])?),
    )?;
    let text =
        r#"{"M":{"":{"L":[{"S":"x"}]},"Z":{"N":"0"},"a":{"N":"1"},"ab":{"N":"3"},"b":{"N":"2"},"ns":{"NS":["7"]},"é":{"N":"4"}}}"#;
    both_ways(&rt, alloc, AttributeValue::M(map), text)?;
    both_ways(
        &rt,
        alloc,
        AttributeValue::M(HashMap::new(alloc)),
        r#"{"M":{}}"#,
    )
}

#[test]
fn each_prefix_is_named_by_its_text(rt: HostRuntime) {
    let prefixes = [
        (Prefix::N, "N"),
        (Prefix::S, "S"),
        (Prefix::Bool, "BOOL"),
        (Prefix::B, "B"),
        (Prefix::Null, "NULL"),
        (Prefix::M, "M"),
        (Prefix::L, "L"),
        (Prefix::Ss, "SS"),
        (Prefix::Ns, "NS"),
        (Prefix::Bs, "BS"),
    ];
    for (prefix, text) in prefixes {
        assert_eq!(rt; prefix.as_str(), text);
        assert_eq!(rt; Prefix::named(text), Some(prefix));
    }
    for text in ["", "n", "Bool", "bool", "NN", "X", "LL"] {
        assert_eq!(rt; Prefix::named(text), None, "{text}");
    }
}
