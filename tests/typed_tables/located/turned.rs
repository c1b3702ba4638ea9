//! Items of described types, each with one part that is turned into something else: the place that
//! an error says is the place that was turned.
use super::turned_texts::{
    order, page_of_entities, page_of_lots, page_of_orders, page_of_shipments, roster,
};
use super::turning::{Told, Turned, first_wrong, none_wrong, told_place};
use dynamo_place::{from_item_located, from_item_ref_located, from_items_located, read_located};
use dynamo_value::{AttributeValue, Items};
use example_described::{Entity, Lots, Order, Page, Roster, Shipment};
use serde_dynamo::Deserializer;
use serde_dynamo::de::Deserialize;
use std::alloc::Global;

// The place of the error of reading. Of one in five both readers have to say the same one, and it has
// to be the same in the second of two items.
fn place_of<T: Deserialize + Drop>(alloc: Global, it: &Turned) -> anyhow::Result<Told> {
    let lent = told_place(from_item_ref_located::<T>(alloc, &it.turned))?;
    let Some(whole) = &it.whole else {
        return Ok(Ok(lent));
    };
    let taken = told_place(from_item_located::<T>(alloc, it.turned.clone()?))?;
    let value = AttributeValue::M(it.turned.clone()?.into_inner());
    let reader = Deserializer::from_attribute_value(alloc, value);
    let owned = told_place(read_located::<T, Deserializer>(alloc, reader))?;
    if taken != lent || owned != lent {
        let said = format!(in alloc; "{lent}, but {taken} and by the owned reader {owned}")?;
        return Ok(Err(said));
    }
    let maps = vec![in alloc; whole.clone()?.into_inner(), it.turned.clone()?.into_inner()]?;
    let second = told_place(from_items_located::<T>(alloc, Items::from(maps)))?;
    let wanted = taken.in_element(alloc, 1);
    if second != wanted {
        return Ok(Err(format!(in alloc; "{second} of the items, not {wanted}")?));
    }
    Ok(Ok(lent))
}

#[test]
fn orders_say_what_was_turned(rt: HostRuntime) {
    let alloc = rt.alloc();
    none_wrong(&rt, first_wrong(alloc, order, |it| place_of::<Order>(alloc, it)));
}

#[test]
fn pages_of_orders_say_what_was_turned(rt: HostRuntime) {
    let alloc = rt.alloc();
    none_wrong(&rt, first_wrong(alloc, page_of_orders, |it| place_of::<Page<Order>>(alloc, it)));
}

#[test]
fn rosters_say_what_was_turned(rt: HostRuntime) {
    let alloc = rt.alloc();
    none_wrong(&rt, first_wrong(alloc, roster, |it| place_of::<Roster>(alloc, it)));
}

#[test]
fn pages_of_lots_say_what_was_turned(rt: HostRuntime) {
    let alloc = rt.alloc();
    none_wrong(&rt, first_wrong(alloc, page_of_lots, |it| place_of::<Page<Lots>>(alloc, it)));
}

#[test]
fn pages_of_entities_say_what_was_turned(rt: HostRuntime) {
    let alloc = rt.alloc();
    let first = first_wrong(alloc, page_of_entities, |it| place_of::<Page<Entity>>(alloc, it));
    none_wrong(&rt, first);
}

#[test]
fn pages_of_shipments_say_what_was_turned(rt: HostRuntime) {
    let alloc = rt.alloc();
    let first = first_wrong(alloc, page_of_shipments, |it| place_of::<Page<Shipment>>(alloc, it));
    none_wrong(&rt, first);
}
