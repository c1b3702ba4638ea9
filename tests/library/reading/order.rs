//! Maps are read in ascending order of the bytes of their keys.
use crate::fixtures::answers::item;
use crate::fixtures::readers::{ask_value, read};
use crate::fixtures::teller::Teller;
use serde_dynamo::AttributeValue;
use std::alloc::Global;
use std::collections::HashMap;
use std::test::Fail;

// Whether each word comes before the next by its bytes.
fn ascend(words: &str) -> bool {
    let mut before: Option<&str> = None;
    for word in words.split(' ') {
        if let Some(before) = before
            && before.as_bytes() >= word.as_bytes()
        {
            return false;
        }
        before = Some(word);
    }
    true
}

// The map of each number below 1,000 to itself.
fn thousand(alloc: Global) -> Result<AttributeValue, Fail> {
    let mut map = HashMap::new(alloc);
    for number in 0..1000_u16 {
        let text = number.to_string(alloc)?;
        map.insert(number.to_string(alloc)?, AttributeValue::N(text))?;
    }
    Ok(AttributeValue::M(map))
}

#[test]
fn a_thousand_entries_are_read(rt: HostRuntime) -> Result<(), Fail> {
    let alloc = rt.alloc();
    let read: HashMap<u16, u16> = read(alloc, thousand(alloc)?)??;
    assert_eq!(rt; read.len(), 1000);
    for number in 0..1000_u16 {
        assert!(rt; read.get(&number) == Some(&number), "{number}");
    }
    Ok(())
}

#[test]
fn the_keys_come_in_ascending_order_of_their_bytes(rt: HostRuntime) -> Result<(), Fail> {
    let alloc = rt.alloc();
    let told = ask_value(thousand(alloc)?, "map", Teller { alloc })??;
    let keys = told.strip_prefix("map ").ok_or("no keys")?;
    assert_eq!(rt; keys.split(' ').count(), 1000);
    assert!(rt; ascend(keys), "{keys}");
    Ok(())
}

#[test]
fn a_key_comes_before_those_that_it_begins(rt: HostRuntime) -> Result<(), Fail> {
    let alloc = rt.alloc();
    // The bytes of a character past ASCII are greater than those of all letters.
    let source =
        "M {\"b\": N \"1\", \"\u{E9}\": N \"1\", \"a\": N \"1\", \"\": N \"1\", \"B\": N \"1\", \"aa\": N \"1\", \"\u{1F973}\": N \"1\", \"\u{FFFD}\": N \"1\", \"1\": N \"1\", \"10\": N \"1\", \"9\": N \"1\"}";
    let value = AttributeValue::M(item(alloc, source)?);
    let told = ask_value(value, "map", Teller { alloc })??;
    assert_eq!(rt;
        told.as_str(),
        "map  1 10 9 B a aa b \u{E9} \u{FFFD} \u{1F973}"
    );
    Ok(())
}
