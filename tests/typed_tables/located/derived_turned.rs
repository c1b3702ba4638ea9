//! Items of derived types, each with one part that is turned into something else: the place that an error says is the place
//! that was turned.
use super::turned_texts::{order, page_of_orders};
use super::turning::{At, Done, Told, Turned, Turning, first_wrong, none_wrong, told_place};
use dynamo_serde::{from_item_located, from_items_located, read_item_located};
use dynamo_value::Items;
use serde::{Deserialize, DeserializeOwned};
use std::alloc::Global;
use std::collections::{BTreeMap, HashMap};

#[derive(Drop, Deserialize)]
struct Order {
    id: String,
    count: u32,
    tags: Vec<String>,
    stock: HashMap<String, u64>,
    home: Home,
}

#[derive(Drop, Deserialize)]
struct Home {
    city: String,
    zip: Option<u32>,
}

#[derive(Drop, Deserialize)]
struct Page {
    items: Vec<Order>,
    next: Option<String>,
}

#[derive(Drop, Deserialize)]
struct Parcel {
    name: String,
    #[serde(with = "dynamo_serde::number_set")]
    lots: Vec<u8>,
    #[serde(with = "dynamo_serde::bytes")]
    seal: Vec<u8>,
    shelves: BTreeMap<u8, (u16, String)>,
    ways: Vec<Way>,
    #[serde(flatten)]
    size: Size,
    shape: Shape,
}

#[derive(Drop, Deserialize)]
enum Way {
    Road(u8),
    Rail { cars: u8, owner: String },
    Sea(String, u8),
}

#[derive(Drop, Deserialize)]
struct Size {
    w: u8,
    h: u8,
}

#[derive(Drop, Deserialize)]
#[serde(tag = "kind")]
enum Shape {
    Box { a: u8, b: u8 },
}

fn parcel_text(it: &mut Turning, at: At<'_>) -> Done {
    it.push("{\"M\":{")?;
    it.field(at, "name", |it, at| it.string(at))?;
    it.push(",")?;
    it.field(at, "lots", lots)?;
    it.push(",")?;
    it.field(at, "seal", |it, at| it.part(at, r#"{"B":"AQI="}"#, r#"{"S":"AQI="}"#))?;
    it.push(",")?;
    it.field(at, "shelves", shelves)?;
    it.push(",")?;
    it.field(at, "ways", ways)?;
    it.push(",")?;
    it.field(at, "w", |it, at| it.number(at))?;
    it.push(",")?;
    it.field(at, "h", |it, at| it.number(at))?;
    it.push(",")?;
    it.field(at, "shape", |it, at| {
        it.push(r#"{"M":{"kind":"#)?;
        it.part(At::Attribute(&at, "kind"), r#"{"S":"Box"}"#, r#"{"N":"1"}"#)?;
        it.push(",")?;
        it.field(at, "a", |it, at| it.number(at))?;
        it.push(",")?;
        it.field(at, "b", |it, at| it.number(at))?;
        it.push("}}")
    })?;
    it.push("}}")
}

fn lots(it: &mut Turning, at: At<'_>) -> Done {
    it.push(r#"{"NS":["#)?;
    for number in 0..it.draw.below(4) + 1 {
        let turned = [r#""300""#, r#""-1""#, r#""x""#][it.draw.below(3)];
        it.push(if number == 0 { "" } else { "," })?;
        let text = format!(in it.alloc; "\"{number}\"")?;
        it.in_set(At::Element(&at, number), text.as_str(), turned)?;
    }
    it.push("]}")
}

// The keys are numbers. One that is turned is a number that is too great, or none.
fn shelves(it: &mut Turning, at: At<'_>) -> Done {
    it.push("{\"M\":{")?;
    for number in 0..it.draw.below(4) {
        let name = format!(in it.alloc; "{number}")?;
        let turned = ["256", "x"][it.draw.below(2)];
        let place = At::Attribute(&at, name.as_str());
        it.push(if number == 0 { "" } else { "," })?;
        it.key(at, name.as_str(), turned)?;
        it.push("{\"L\":[")?;
        it.number(At::Element(&place, 0))?;
        it.push(",")?;
        it.string(At::Element(&place, 1))?;
        it.push("]}")?;
    }
    it.push("}}")
}

fn ways(it: &mut Turning, at: At<'_>) -> Done {
    it.push("{\"L\":[")?;
    for number in 0..it.draw.below(4) {
        it.push(if number == 0 { "" } else { "," })?;
        way_text(it, At::Element(&at, number))?;
    }
    it.push("]}")
}

// A variant whose name is turned is unknown, and then the whole enum is what is wrong.
fn way_text(it: &mut Turning, at: At<'_>) -> Done {
    let variant = it.draw.below(3);
    let name = ["Road", "Rail", "Sea"][variant];
    it.push("{\"M\":{")?;
    let inside = At::Attribute(&at, name);
    it.name(at, name)?;
    match variant {
        0 => it.number(inside)?,
        1 => rail(it, inside)?,
        _ => {
            it.push("{\"L\":[")?;
            it.string(At::Element(&inside, 0))?;
            it.push(",")?;
            it.number(At::Element(&inside, 1))?;
            it.push("]}")?;
        }
    }
    it.push("}}")
}

fn rail(it: &mut Turning, at: At<'_>) -> Done {
    it.push("{\"M\":{")?;
    it.field(at, "cars", |it, at| it.number(at))?;
    it.push(",")?;
    it.field(at, "owner", |it, at| it.string(at))?;
    it.push("}}")
}

// The place of the error of reading, where it is the same of the item and of the borrowed item, and
// in the second of two items.
fn place_of<T: DeserializeOwned + Drop>(alloc: Global, it: &Turned) -> anyhow::Result<Told> {
    let lent = told_place(read_item_located::<T>(alloc, &it.turned))?;
    let Some(whole) = &it.whole else {
        return Ok(Ok(lent));
    };
    let taken = told_place(from_item_located::<T>(alloc, it.turned.clone()?))?;
    if taken != lent {
        return Ok(Err(format!(in alloc; "{taken}, but {lent} of the borrowed item")?));
    }
    let maps = vec![in alloc; whole.clone()?.into_inner(), it.turned.clone()?.into_inner()]?;
    let second = told_place(from_items_located::<T>(alloc, Items::from(maps)))?;
    let wanted = taken.in_element(alloc, 1);
    if second != wanted {
        return Ok(Err(format!(in alloc; "{second} of the items, not {wanted}")?));
    }
    Ok(Ok(lent))
}

#[test]
fn derived_orders_say_what_was_turned(rt: HostRuntime) {
    let alloc = rt.alloc();
    none_wrong(&rt, first_wrong(alloc, order, |it| place_of::<Order>(alloc, it)));
}

#[test]
fn derived_pages_of_orders_say_what_was_turned(rt: HostRuntime) {
    let alloc = rt.alloc();
    none_wrong(&rt, first_wrong(alloc, page_of_orders, |it| place_of::<Page>(alloc, it)));
}

#[test]
fn derived_parcels_say_what_was_turned(rt: HostRuntime) {
    let alloc = rt.alloc();
    none_wrong(&rt, first_wrong(alloc, parcel_text, |it| place_of::<Parcel>(alloc, it)));
}
