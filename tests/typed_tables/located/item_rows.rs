//! Lists of items with one fault each: its place begins with the index of the item.
use super::readers::fits;
use dynamo_json::DynamoJson;
use dynamo_value::{Item, Items};
use example_described::Station;
use serde_dynamo::de::Deserialize;
use serde_dynamo::{from_items, from_items_located};
use std::alloc::Global;
use std::collections::HashMap;
use std::process::Abort;
use std::test::Fail;

// The items of these texts.
fn items(alloc: Global, texts: &[&str]) -> anyhow::Result<Items> {
    let mut maps = Vec::new(alloc);
    for text in texts {
        maps.push(Item::from_json_text(alloc, text)?.into_inner())?;
    }
    Ok(Items::from(maps))
}

// How many items are read, or the place and the error. The plain call has to return the same.
fn said_of<T: Deserialize + Drop>(alloc: Global, texts: &[&str]) -> anyhow::Result<String> {
    let located = from_items_located::<T>(alloc, items(alloc, texts)?);
    match (located, from_items::<T>(alloc, items(alloc, texts)?)) {
        (Ok(values), Ok(plain)) if values.len() == plain.len() => {
            Ok(format!(in alloc; "{} read", values.len())?)
        }
        (Err(located), Err(plain)) if located.error == plain => Ok(located.to_string(alloc)?),
        _ => Ok(String::from_str(alloc, "something else than by the plain call")?),
    }
}

fn holds<T: Deserialize + Drop>(rt: &impl Abort, alloc: Global, texts: &[&str], wanted: &str) {
    match said_of::<T>(alloc, texts) {
        Ok(said) => assert!(rt; fits(said.as_str(), wanted), "{said}, not {wanted}"),
        Err(error) => assert!(rt; false, "{wanted}: {error}"),
    }
}

// The prices of orders.
type Prices = HashMap<String, Vec<HashMap<String, u8>>>;

const SOUND: &str = r#"{"orders":{"L":[{"M":{"price":{"N":"7"}}}]}}"#;

#[test]
fn the_place_begins_with_the_item(rt: HostRuntime) {
    let alloc = rt.alloc();
    let text = r#"{"orders":{"L":[{"M":{"price":{"S":"7"}}}]}}"#;
    let second = r#"{"orders":{"L":[{"M":{}},{"M":{"unit price":{"N":"x"}}}]}}"#;
    let price = "[1].orders[0].price: Expected num";
    let unit_price = "[2].orders[1].\"unit price\": Failed to parse 'x' as an integer: ..";
    holds::<Prices>(&rt, alloc, &[SOUND, text], price);
    holds::<Prices>(&rt, alloc, &[SOUND, text, second], price);
    holds::<Prices>(&rt, alloc, &[SOUND, SOUND, second], unit_price);
    holds::<Prices>(&rt, alloc, &[r#"{"orders":{"S":"x"}}"#, SOUND], "[0].orders: Expected seq");
}

#[test]
fn all_items_are_read(rt: HostRuntime) {
    let alloc = rt.alloc();
    holds::<Prices>(&rt, alloc, &[SOUND, "{}", SOUND], "3 read");
    holds::<Prices>(&rt, alloc, &[], "0 read");
}

#[test]
fn the_item_itself_may_be_the_place(rt: HostRuntime) {
    let alloc = rt.alloc();
    let station = r#"{"id":{"S":"a"},"tags":{"L":[]}}"#;
    let without_tags = r#"{"id":{"S":"b"}}"#;
    holds::<Station>(&rt, alloc, &[station, station], "2 read");
    holds::<Station>(&rt, alloc, &[station, station, without_tags], "[2]: missing field `tags`");
    holds::<u8>(&rt, alloc, &["{}"], "[0]: Expected num");
    holds::<Vec<u8>>(&rt, alloc, &[station], "[0]: Expected seq");
}
