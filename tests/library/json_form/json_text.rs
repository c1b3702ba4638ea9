use super::has_text;
use dynamo_json::DynamoJson;
use dynamo_value::{AttributeValue, Item};
use std::alloc::Global;
use std::collections::HashMap;
use std::test::Fail;

fn string(alloc: Global, text: &str) -> Result<AttributeValue, Fail> {
    Ok(AttributeValue::S(String::from_str(alloc, text)?))
}

// Strings, and what Python's json makes of them where it writes what is not ASCII as it is.
const ESCAPES: [(&str, &str); 8] = [
    ("a\"b\\c/", r#""a\"b\\c/""#),
    (
        "\u{0}\u{1}\u{2}\u{3}\u{4}\u{5}\u{6}\u{7}\u{8}\t\n\u{b}\u{c}\r\u{e}\u{f}",
        r#""\u0000\u0001\u0002\u0003\u0004\u0005\u0006\u0007\b\t\n\u000b\f\r\u000e\u000f""#,
    ),
    (
        "\u{10}\u{11}\u{12}\u{13}\u{14}\u{15}\u{16}\u{17}\u{18}\u{19}\u{1a}\u{1b}\u{1c}\u{1d}\u{1e}\u{1f}",
        r#""\u0010\u0011\u0012\u0013\u0014\u0015\u0016\u0017\u0018\u0019\u001a\u001b\u001c\u001d\u001e\u001f""#,
    ),
    (
        "\u{7f}\u{85}\u{e9}\u{6f22}\u{1f600}",
        "\"\u{7f}\u{85}\u{e9}\u{6f22}\u{1f600}\"",
    ),
    ("\u{2028}\u{2029}", "\"\u{2028}\u{2029}\""),
    ("</script>", r#""</script>""#),
    (
        "a text of more than thirty-two bytes that needs no escape",
        r#""a text of more than thirty-two bytes that needs no escape""#,
    ),
    (
        "a text of more than thirty-two bytes with a line feed\nand one at its end\n",
        r#""a text of more than thirty-two bytes with a line feed\nand one at its end\n""#,
    ),
];

// As a string, as a number, in the sets and as a key.
#[test]
fn texts_are_escaped(rt: HostRuntime) -> Result<(), Fail> {
    let alloc = rt.alloc();
    for (text, json) in ESCAPES {
        let wanted = format!(in alloc; "{{\"S\":{json}}}")?;
        has_text(&rt, alloc, &string(alloc, text)?, wanted.as_str())?;
        let number = AttributeValue::N(String::from_str(alloc, text)?);
        let wanted = format!(in alloc; "{{\"N\":{json}}}")?;
        has_text(&rt, alloc, &number, wanted.as_str())?;
        let mut set = Vec::new(alloc);
        set.push(String::from_str(alloc, text)?)?;
        set.push(String::from_str(alloc, text)?)?;
        let wanted = format!(in alloc; "{{\"SS\":[{json},{json}]}}")?;
        has_text(&rt, alloc, &AttributeValue::Ss(set), wanted.as_str())?;
        let mut map = HashMap::new(alloc);
        map.insert(String::from_str(alloc, text)?, AttributeValue::Null(true))?;
        let wanted = format!(in alloc; "{{\"M\":{{{json}:{{\"NULL\":true}}}}}}")?;
        has_text(&rt, alloc, &AttributeValue::M(map), wanted.as_str())?;
    }
    Ok(())
}

// 1,000 bytes are 333 times three bytes and one byte more.
#[test]
fn byte_strings_follow_one_another(rt: HostRuntime) -> Result<(), Fail> {
    let alloc = rt.alloc();
    let mut long = Vec::new(alloc);
    let mut zeros = String::new(alloc);
    for _ in 0..333u16 {
        long.extend_from_slice(&[0, 0, 0])?;
        zeros.push_str("AAAA")?;
    }
    long.push(0)?;
    zeros.push_str("AA==")?;
    let mut set = Vec::new(alloc);
    set.push(Vec::from_slice(alloc, b"fooba")?)?;
    set.push(Vec::new(alloc))?;
    set.push(long)?;
    set.push(Vec::from_slice(alloc, b"f")?)?;
    let wanted = format!(in alloc; "{{\"BS\":[\"Zm9vYmE=\",\"\",\"{zeros}\",\"Zg==\"]}}")?;
    has_text(&rt, alloc, &AttributeValue::Bs(set), wanted.as_str())
}

// More members than are sorted by insertion, put in from the last to the first.
#[test]
fn many_members_are_sorted(rt: HostRuntime) -> Result<(), Fail> {
    let alloc = rt.alloc();
    let mut map = HashMap::new(alloc);
    for i in 0..90u8 {
        let key = format!(in alloc; "k{}", 99 - i)?;
        map.insert(key, AttributeValue::Bool(false))?;
    }
    let mut wanted = String::from_str(alloc, "{")?;
    for i in 10..100u8 {
        let comma = if i == 10 { "" } else { "," };
        wanted.push_str(format!(in alloc; "{comma}\"k{i}\":{{\"BOOL\":false}}")?.as_str())?;
    }
    wanted.push('}')?;
    has_text(&rt, alloc, &Item::from(map), wanted.as_str())
}

#[test]
fn lists_and_maps_nest(rt: HostRuntime) -> Result<(), Fail> {
    let alloc = rt.alloc();
    let mut value = string(alloc, "x")?;
    let mut begin = String::new(alloc);
    let mut end = String::new(alloc);
    for _ in 0..50u8 {
        let mut map = HashMap::new(alloc);
        map.insert(String::from_str(alloc, "a")?, value)?;
        let mut list = Vec::new(alloc);
        list.push(AttributeValue::M(map))?;
        list.push(AttributeValue::L(Vec::new(alloc)))?;
        value = AttributeValue::L(list);
        begin.push_str("{\"L\":[{\"M\":{\"a\":")?;
        end.push_str("}},{\"L\":[]}]}")?;
    }
    let wanted = format!(in alloc; "{begin}{{\"S\":\"x\"}}{end}")?;
    has_text(&rt, alloc, &value, wanted.as_str())
}

#[test]
fn a_text_is_appended_to(rt: HostRuntime) -> Result<(), Fail> {
    let alloc = rt.alloc();
    let mut map = HashMap::new(alloc);
    map.insert(String::from_str(alloc, "b")?, string(alloc, "\u{e9}\n")?)?;
    map.insert(
        String::from_str(alloc, "a")?,
        AttributeValue::B(Vec::from_slice(alloc, b"foob")?),
    )?;
    let item = Item::from(map);
    let mut text = String::from_str(alloc, "\u{2028}\"")?;
    item.push_json_text(&mut text)?;
    text.push('\n')?;
    Item::new(alloc).push_json_text(&mut text)?;
    text.push(',')?;
    AttributeValue::Null(false).push_json_text(&mut text)?;
    assert_eq!(rt;
        text.as_str(),
        "\u{2028}\"{\"a\":{\"B\":\"Zm9vYg==\"},\"b\":{\"S\":\"\u{e9}\\n\"}}\n{},{\"NULL\":false}"
    );
    Ok(())
}
