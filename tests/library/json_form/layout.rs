//! In which order the attributes of an item are walked, and how much room its lists keep. An item of a line is as if a JSON value
//! had been made of the line, whose members are in the order of their names: so its maps are walked, at every depth.
use dynamo_json::{DynamoJson, item_under};
use dynamo_value::{AttributeValue, Item};
use json::Scratch;
use serde_json::Value;
use std::alloc::Global;
use std::collections::HashMap;
use std::process::Abort;
use std::test::Fail;

type Attributes = HashMap<String, AttributeValue>;

// The item of the text, read under `Item` without a JSON value.
fn item_of(alloc: Global, text: &str) -> Result<Item, Fail> {
    let line = format!(in alloc; r#"{{"Item":{text}}}"#)?;
    match item_under(alloc, &mut Scratch::new(alloc), "Item", line.as_str())? {
        Some(item) => Ok(item),
        None => Err(Fail::from("no item is found in a text that has one")),
    }
}

// The names of a map as it is walked, each with a blank after it.
fn names(alloc: Global, map: &Attributes) -> Result<String, Fail> {
    let mut names = String::new(alloc);
    for (name, _) in map.iter() {
        names.push_str(name)?;
        names.push(' ')?;
    }
    Ok(names)
}

// The map at a name of an item.
fn map_at<'a>(item: &'a Item, name: &str) -> Result<&'a Attributes, Fail> {
    match item.get(name) {
        Some(AttributeValue::M(map)) => Ok(map),
        _ => Err(Fail::from("no map is at the name")),
    }
}

// Whether the two are walked alike, with room for as many, and lists and sets of the first have just the room they need.
fn lie_alike(a: &AttributeValue, b: &AttributeValue) -> bool {
    match (a, b) {
        (AttributeValue::M(a), AttributeValue::M(b)) => maps_lie_alike(a, b),
        (AttributeValue::L(a), AttributeValue::L(b)) => {
            a.capacity() == a.len()
                && a.len() == b.len()
                && a.iter().zip(b.iter()).all(|(a, b)| lie_alike(a, b))
        }
        (AttributeValue::Ss(a), AttributeValue::Ss(b)) => a.capacity() == a.len() && a == b,
        (AttributeValue::Ns(a), AttributeValue::Ns(b)) => a.capacity() == a.len() && a == b,
        (AttributeValue::Bs(a), AttributeValue::Bs(b)) => a.capacity() == a.len() && a == b,
        _ => a == b,
    }
}

fn maps_lie_alike(a: &Attributes, b: &Attributes) -> bool {
    a.capacity() == b.capacity()
        && a.len() == b.len()
        && a.iter()
            .zip(b.iter())
            .all(|((name, a), (other, b))| name == other && lie_alike(a, b))
}

// The item of the text lies as the one that its JSON value gives.
fn lies_as_its_json(rt: &impl Abort, alloc: Global, text: &str) -> Result<(), Fail> {
    let item = item_of(alloc, text)?;
    let other = Item::from_json(alloc, &Value::from_str(alloc, text)?)?;
    assert!(rt; maps_lie_alike(item.inner(), other.inner()), "{item:?} lies otherwise than {other:?}");
    assert_eq!(rt; format!(in alloc; "{item:?}")?, format!(in alloc; "{other:?}")?);
    Ok(())
}

#[test]
fn attributes_are_walked_by_their_names(rt: HostRuntime) -> Result<(), Fail> {
    let alloc = rt.alloc();
    let rows = [
        ("{}", ""),
        (r#"{"a":{"S":"1"},"b":{"S":"2"}}"#, "a b "),
        (r#"{"b":{"S":"2"},"a":{"S":"1"}}"#, "a b "),
        (r#"{"b":{"S":"1"},"a":{"S":"2"},"b":{"S":"3"}}"#, "a b "),
        (r#"{"a":{"S":"1"},"b":{"S":"2"},"a":{"S":"3"}}"#, "a b "),
        // By their bytes: capitals before small letters, a name before those that it begins, and ASCII before all else.
        (r#"{"é":{"S":""},"ab":{"S":""},"a":{"S":""},"B":{"S":""},"":{"S":""}}"#, " B a ab é "),
        // UTF-16 has U+FFFD after U+10000.
        (r#"{"\ud800\udc00":{"S":""},"\ufffd":{"S":""}}"#, "\u{fffd} \u{10000} "),
    ];
    for (text, wanted) in rows {
        assert_eq!(rt; names(alloc, item_of(alloc, text)?.inner())?.as_str(), wanted);
    }
    Ok(())
}

#[test]
fn maps_inside_are_walked_by_their_names(rt: HostRuntime) -> Result<(), Fail> {
    let alloc = rt.alloc();
    let text = r#"{"z":{"M":{"y":{"M":{"d":{"S":""},"c":{"S":""}}},"x":{"S":""}}},"l":{"L":[{"M":{"2":{"S":""},"1":{"S":""}}}]}}"#;
    let item = item_of(alloc, text)?;
    assert_eq!(rt; names(alloc, item.inner())?.as_str(), "l z ");
    let z = map_at(&item, "z")?;
    assert_eq!(rt; names(alloc, z)?.as_str(), "x y ");
    assert!(rt; matches!(z.get("y"), Some(AttributeValue::M(y)) if names(alloc, y)?.as_str() == "c d "));
    match item.get("l") {
        Some(AttributeValue::L(list)) => match list.first() {
            Some(AttributeValue::M(first)) => {
                assert_eq!(rt; names(alloc, first)?.as_str(), "1 2 ");
            }
            _ => return Err(Fail::from("no map is in the list")),
        },
        _ => return Err(Fail::from("no list is at the name")),
    }
    lies_as_its_json(&rt, alloc, text)
}

#[test]
fn the_last_value_of_a_name_stays(rt: HostRuntime) -> Result<(), Fail> {
    let item = item_of(rt.alloc(), r#"{"b":{"N":"1"},"a":{"N":"2"},"b":{"N":"3"}}"#)?;
    assert_eq!(rt; item.inner().len(), 2);
    assert!(rt; matches!(item.get("b"), Some(AttributeValue::N(text)) if text.as_str() == "3"));
    assert!(rt; matches!(item.get("a"), Some(AttributeValue::N(text)) if text.as_str() == "2"));
    Ok(())
}

#[test]
fn lists_and_sets_have_no_unused_room(rt: HostRuntime) -> Result<(), Fail> {
    let alloc = rt.alloc();
    let texts = [
        r#"{"l":{"L":[]},"ss":{"SS":[]},"ns":{"NS":[]},"bs":{"BS":[]},"m":{"M":{}}}"#,
        r#"{"l":{"L":[{"S":"Cookies"}]},"ss":{"SS":["Giraffe"]},"ns":{"NS":["42.2"]},"bs":{"BS":["U3Vubnk="]}}"#,
        r#"{"l":{"L":[{"L":[{"NULL":true}]},{"M":{"s":{"SS":["a","b","c","d","e"]}}}]},"bs":{"BS":["AQ==","AQI=","AQID"]}}"#,
        r#"{"ns":{"NS":["9","8","7","6","5","4","3","2","1"]},"b":{"B":"AQID"}}"#,
    ];
    for text in texts {
        lies_as_its_json(&rt, alloc, text)?;
    }
    Ok(())
}

// The text of a map of so many attributes, from the greatest name down, each of which is this text.
fn falling(alloc: Global, count: usize, value: &str) -> Result<String, Fail> {
    let mut text = String::from_str(alloc, "{")?;
    for i in 0..count {
        let comma = if i == 0 { "" } else { "," };
        let name = count - i;
        text.push_str(&format!(in alloc; r#"{comma}"{name:05}":{value}"#)?)?;
    }
    text.push('}')?;
    Ok(text)
}

// A map of nine attributes fills its first room; of twenty and fewer a sort needs no room of its own.
#[test]
fn maps_of_many_attributes_lie_as_their_json(rt: HostRuntime) -> Result<(), Fail> {
    let alloc = rt.alloc();
    for count in [1, 4, 5, 9, 10, 18, 19, 20, 21, 200] {
        let inside = falling(alloc, count, r#"{"SS":["a","b","c"]}"#)?;
        lies_as_its_json(&rt, alloc, &inside)?;
        let text = falling(alloc, 3, &format!(in alloc; r#"{{"M":{inside}}}"#)?)?;
        lies_as_its_json(&rt, alloc, &text)?;
    }
    Ok(())
}

// An item of a text that isn't a line is walked in the order of the text.
#[test]
fn an_item_of_a_text_is_walked_as_the_text(rt: HostRuntime) -> Result<(), Fail> {
    let alloc = rt.alloc();
    let text = r#"{"b":{"M":{"d":{"S":""},"c":{"S":""}}},"a":{"S":"1"}}"#;
    let item = Item::from_json_text(alloc, text)?;
    assert_eq!(rt; names(alloc, item.inner())?.as_str(), "b a ");
    assert_eq!(rt; names(alloc, map_at(&item, "b")?)?.as_str(), "d c ");
    Ok(())
}
