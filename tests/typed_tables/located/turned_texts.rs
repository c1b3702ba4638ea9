//! The texts of items of described types, by their parts.
use super::turning::{At, Done, Turning};

pub(crate) fn order(it: &mut Turning, at: At<'_>) -> Done {
    it.push("{\"M\":{")?;
    it.field(at, "id", |it, at| it.string(at))?;
    it.push(",")?;
    it.field(at, "count", |it, at| it.number(at))?;
    it.push(",")?;
    it.field(at, "tags", |it, at| it.strings(at))?;
    it.push(",")?;
    it.field(at, "stock", stock)?;
    it.push(",")?;
    it.field(at, "home", home)?;
    it.push("}}")
}

fn stock(it: &mut Turning, at: At<'_>) -> Done {
    it.push("{\"M\":{")?;
    for number in 0..it.draw.below(4) {
        let name = ["n0", "n1", "n2"][number];
        it.push(if number == 0 { "" } else { "," })?;
        it.push_key(name)?;
        it.number(At::Attribute(&at, name))?;
    }
    it.push("}}")
}

fn home(it: &mut Turning, at: At<'_>) -> Done {
    it.push("{\"M\":{")?;
    it.field(at, "city", |it, at| it.string(at))?;
    it.optional(at, "zip", |it, at| it.number(at))?;
    it.push("}}")
}

// A list of up to so many parts, and of one at least.
fn list(
    it: &mut Turning,
    at: At<'_>,
    most: usize,
    part: impl Fn(&mut Turning, At<'_>) -> Done,
) -> Done {
    it.push("{\"L\":[")?;
    for number in 0..it.draw.below(most) + 1 {
        it.push(if number == 0 { "" } else { "," })?;
        part(it, At::Element(&at, number))?;
    }
    it.push("]}")
}

// A page of items.
fn page(it: &mut Turning, at: At<'_>, item: impl Fn(&mut Turning, At<'_>) -> Done) -> Done {
    it.push("{\"M\":{")?;
    it.field(at, "items", |it, at| list(it, at, 3, &item))?;
    it.optional(at, "next", |it, at| it.string(at))?;
    it.push("}}")
}

pub(crate) fn page_of_orders(it: &mut Turning, at: At<'_>) -> Done {
    page(it, at, order)
}

pub(crate) fn page_of_lots(it: &mut Turning, at: At<'_>) -> Done {
    page(it, at, lots)
}

pub(crate) fn page_of_entities(it: &mut Turning, at: At<'_>) -> Done {
    page(it, at, entity)
}

pub(crate) fn page_of_shipments(it: &mut Turning, at: At<'_>) -> Done {
    page(it, at, shipment)
}

pub(crate) fn roster(it: &mut Turning, at: At<'_>) -> Done {
    it.push("{\"M\":{")?;
    it.field(at, "id", |it, at| it.string(at))?;
    it.push(",")?;
    it.field(at, "names", string_set)?;
    it.push(",")?;
    it.field(at, "badges", number_set)?;
    it.push(",")?;
    it.field(at, "hours", |it, at| list(it, at, 3, |it, at| it.number(at)))?;
    it.push(",")?;
    it.field(at, "seals", binary_set)?;
    it.optional(at, "skills", string_set)?;
    it.optional(at, "rooms", number_set)?;
    it.optional(at, "tokens", binary_set)?;
    it.optional(at, "zz", ignored)?;
    it.push("}}")
}

// What no field takes is read all the same.
fn ignored(it: &mut Turning, at: At<'_>) -> Done {
    let place = At::Attribute(&At::Element(&at, 1), "number");
    it.push(r#"{"L":[{"SS":["x"]},{"M":{"a":{"NULL":true},"number":"#)?;
    it.part(place, r#"{"N":"7"}"#, r#"{"N":"x"}"#)?;
    it.push("}}]}")
}

fn string_set(it: &mut Turning, at: At<'_>) -> Done {
    let other = [r#"{"NS":["1","2"]}"#, r#"{"BS":["/w=="]}"#][it.draw.below(2)];
    if it.set_turns(at, r#"{"S":"x"}"#, other)? {
        return Ok(());
    }
    let text = [r#"{"SS":["x"]}"#, r#"{"SS":["x","y"]}"#][it.draw.below(2)];
    it.push(text)
}

fn number_set(it: &mut Turning, at: At<'_>) -> Done {
    let other = [r#"{"SS":["1"]}"#, r#"{"BS":["AQI="]}"#][it.draw.below(2)];
    if it.set_turns(at, r#"{"NULL":true}"#, other)? {
        return Ok(());
    }
    it.push("{\"NS\":[")?;
    for number in 0..it.draw.below(4) + 1 {
        let text = format!(in it.alloc; "\"{number}\"")?;
        let turned = [r#""x""#, r#""-1""#, r#""1.5""#][it.draw.below(3)];
        it.push(if number == 0 { "" } else { "," })?;
        it.in_set(At::Element(&at, number), text.as_str(), turned)?;
    }
    it.push("]}")
}

fn binary_set(it: &mut Turning, at: At<'_>) -> Done {
    if it.set_turns(at, r#"{"B":"AQI="}"#, r#"{"NS":["1"]}"#)? {
        return Ok(());
    }
    let text = [r#"{"BS":["AQI="]}"#, r#"{"BS":["AQI=","Ag=="]}"#][it.draw.below(2)];
    it.push(text)
}

// How many there are at each side, twice.
fn lots(it: &mut Turning, at: At<'_>) -> Done {
    it.push("{\"M\":{")?;
    it.field(at, "hashed", sides)?;
    it.push(",")?;
    it.field(at, "sorted", sides)?;
    it.push("}}")
}

// A key that is turned is no side.
fn sides(it: &mut Turning, at: At<'_>) -> Done {
    it.push("{\"M\":{")?;
    for side in ["Left", "Right"] {
        it.push(if side == "Left" { "" } else { "," })?;
        it.key(at, side, "Middle")?;
        it.number(At::Attribute(&at, side))?;
    }
    it.push("}}")
}

// A customer, an order or a counter, with the variant's name among its fields.
fn entity(it: &mut Turning, at: At<'_>) -> Done {
    let variant = it.draw.below(3);
    let tag = [r#"{"S":"Customer"}"#, r#"{"S":"Order"}"#, r#"{"S":"Counter"}"#][variant];
    let turned = [r#"{"S":"Line"}"#, r#"{"N":"1"}"#][it.draw.below(2)];
    let (needed, free) = match variant {
        0 => ("name", "email"),
        1 => ("customer", "note"),
        _ => ("", ""),
    };
    it.push("{\"M\":{")?;
    it.field(at, "type", |it, at| it.part(at, tag, turned))?;
    if !needed.is_empty() {
        it.push(",")?;
        it.field(at, "id", |it, at| it.string(at))?;
        it.push(",")?;
        it.field(at, needed, |it, at| it.string(at))?;
        it.optional(at, free, |it, at| it.string(at))?;
    }
    it.optional(at, "zz", ignored)?;
    it.push("}}")
}

// A variant whose name is turned is unknown, and then the whole enum is what is wrong.
fn shipment(it: &mut Turning, at: At<'_>) -> Done {
    let variant = it.draw.below(4);
    if variant == 0 {
        let turned = [r#"{"S":"Lost"}"#, r#"{"N":"1"}"#, r#"{"M":{}}"#][it.draw.below(3)];
        return it.part(at, r#"{"S":"Waiting"}"#, turned);
    }
    let name = ["Waiting", "Tracked", "Between", "Delivered"][variant];
    it.push("{\"M\":{")?;
    let inside = At::Attribute(&at, name);
    it.name(at, name)?;
    match variant {
        1 => it.string(inside)?,
        2 => between(it, inside)?,
        _ => delivered(it, inside)?,
    }
    it.push("}}")
}

// The numbers of the shelves.
fn between(it: &mut Turning, at: At<'_>) -> Done {
    it.push("{\"L\":[")?;
    for number in 0..2 {
        it.push(if number == 0 { "" } else { "," })?;
        it.number(At::Element(&at, number))?;
    }
    it.push("]}")
}

fn delivered(it: &mut Turning, at: At<'_>) -> Done {
    it.push("{\"M\":{")?;
    it.field(at, "at", |it, at| it.number(at))?;
    it.push(",")?;
    it.field(at, "to", home)?;
    it.push("}}")
}
