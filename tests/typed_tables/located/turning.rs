//! Texts of items, each with one part that is turned into something else, and what is said of it.
use dynamo_json::DynamoJson;
use dynamo_place::{LocatedError, Place};
use dynamo_value::{AttributeValue, Error, Item};
use std::alloc::{AllocError, Global};
use std::fmt;
use std::process::Abort;

// How many items of each type are read: of nine types, of which six are described.
const ITEMS: u64 = 1_150;

// Draws numbers by a linear congruential generator.
#[derive(Drop)]
pub(crate) struct Draw {
    state: u64,
}

impl Draw {
    pub(crate) fn below(&mut self, end: usize) -> usize {
        let state = self.state.wrapping_mul(6_364_136_223_846_793_005);
        self.state = state.wrapping_add(1_442_695_040_888_963_407);
        ((self.state >> 33) as usize) % end.max(1)
    }
}

// Where a part of an item is, as its place is printed.
#[derive(Clone, Copy)]
pub(crate) enum At<'a> {
    Whole,
    Attribute(&'a At<'a>, &'a str),
    Element(&'a At<'a>, usize),
}

impl fmt::Display for At<'_> {
    fn fmt<W: fmt::Write>(&self, f: &mut fmt::Formatter<W>) -> fmt::Result {
        match self {
            At::Whole => Ok(()),
            At::Attribute(At::Whole, name) => f.write_str(name),
            At::Attribute(at, name) => write!(f, "{at}.{name}"),
            At::Element(at, index) => write!(f, "{at}[{index}]"),
        }
    }
}

// What is at the place of a part that was turned.
#[derive(Drop)]
pub(crate) enum Part {
    // The attribute value of this text.
    Value(String),
    // A struct or an enum that lacks a field or a variant of this name.
    Lacking(String),
    // The entry of a key that wasn't there before.
    Entry,
    // No attribute value: an element of a set.
    InSet,
}

// The text of an item, of which one part is turned.
#[derive(Drop)]
pub(crate) struct Turning {
    pub(crate) alloc: Global,
    pub(crate) draw: Draw,
    text: String,
    // Whether the text is written. Otherwise the parts are only counted.
    writes: bool,
    // How many parts there are so far, and which one is turned.
    parts: usize,
    turned: usize,
    // The place of what is wrong with the part that was turned, and what is there.
    at: Option<(String, Part)>,
}

pub(crate) type Done = Result<(), AllocError>;

impl Turning {
    fn new(alloc: Global, seed: u64, turned: usize, writes: bool) -> Turning {
        Turning {
            alloc,
            draw: Draw { state: seed },
            text: String::new(alloc),
            writes,
            parts: 0,
            turned,
            at: None,
        }
    }

    // Whether the next part is the one that is turned.
    fn turns(&mut self) -> bool {
        let turns = self.parts == self.turned;
        self.parts += 1;
        turns
    }

    // Writes the text of the part that is turned, whose place this is.
    fn push_turned(&mut self, at: At<'_>, part: Part, text: &str) -> Done {
        self.at = Some((at.to_string(self.alloc)?, part));
        self.push(text)
    }

    pub(crate) fn push(&mut self, text: &str) -> Done {
        if self.writes {
            self.text.push_str(text)?;
        }
        Ok(())
    }

    // A value with this text, or another one if it is turned.
    pub(crate) fn part(&mut self, at: At<'_>, text: &str, turned: &str) -> Done {
        if self.turns() {
            let part = Part::Value(String::from_str(self.alloc, turned)?);
            return self.push_turned(at, part, turned);
        }
        self.push(text)
    }

    pub(crate) fn string(&mut self, at: At<'_>) -> Done {
        self.part(at, r#"{"S":"x"}"#, r#"{"N":"1"}"#)
    }

    pub(crate) fn number(&mut self, at: At<'_>) -> Done {
        let texts = [r#"{"S":"1"}"#, r#"{"N":"-1"}"#, r#"{"N":"x"}"#, r#"{"L":[]}"#];
        let turned = texts[self.draw.below(4)];
        self.part(at, r#"{"N":"7"}"#, turned)
    }

    // An element of a set with this text, or another one if it is turned.
    pub(crate) fn in_set(&mut self, at: At<'_>, text: &str, turned: &str) -> Done {
        if self.turns() {
            return self.push_turned(at, Part::InSet, turned);
        }
        self.push(text)
    }

    // Whether the set at a place is turned: into what is no set, or into a set of another kind,
    // whose first element is what is wrong then.
    pub(crate) fn set_turns(
        &mut self,
        at: At<'_>,
        no_set: &str,
        other: &str,
    ) -> Result<bool, AllocError> {
        if self.turns() {
            let part = Part::Value(String::from_str(self.alloc, no_set)?);
            self.push_turned(at, part, no_set)?;
            return Ok(true);
        }
        if self.turns() {
            self.push_turned(At::Element(&at, 0), Part::InSet, other)?;
            return Ok(true);
        }
        Ok(false)
    }

    // The key of an entry of the map at a place, or another key if it is turned, and then its entry
    // is what is wrong.
    pub(crate) fn key(&mut self, within: At<'_>, key: &str, turned: &str) -> Done {
        if self.turns() {
            self.push_turned(At::Attribute(&within, turned), Part::Entry, "")?;
            return self.push_key(turned);
        }
        self.push_key(key)
    }

    pub(crate) fn push_key(&mut self, key: &str) -> Done {
        self.push("\"")?;
        self.push(key)?;
        self.push("\":")
    }

    // The name of a field of the struct, or of the variant of the enum, at a place. If it is
    // turned, that one is missing, and the struct or the enum is what is wrong.
    pub(crate) fn name(&mut self, within: At<'_>, name: &str) -> Done {
        if self.turns() {
            let part = Part::Lacking(String::from_str(self.alloc, name)?);
            return self.push_turned(within, part, "\"other\":");
        }
        self.push_key(name)
    }

    // A list of strings.
    pub(crate) fn strings(&mut self, at: At<'_>) -> Done {
        self.push(r#"{"L":["#)?;
        for index in 0..self.draw.below(4) {
            self.push(if index == 0 { "" } else { "," })?;
            self.string(At::Element(&at, index))?;
        }
        self.push("]}")
    }

    // A field, by what writes its value.
    pub(crate) fn field(
        &mut self,
        within: At<'_>,
        field: &str,
        value: impl FnOnce(&mut Turning, At<'_>) -> Done,
    ) -> Done {
        self.name(within, field)?;
        value(self, At::Attribute(&within, field))
    }

    // A field after others that may be left out, so that its name isn't turned.
    pub(crate) fn optional(
        &mut self,
        within: At<'_>,
        field: &str,
        value: impl FnOnce(&mut Turning, At<'_>) -> Done,
    ) -> Done {
        if self.draw.below(2) == 0 {
            return Ok(());
        }
        self.push(",")?;
        self.push_key(field)?;
        value(self, At::Attribute(&within, field))
    }
}

// An item, the same item with one part turned, the place of that part, and what is there. The item as
// it was is there for one in five, which all calls read.
#[derive(Drop)]
pub(crate) struct Turned {
    pub(crate) whole: Option<Item>,
    pub(crate) turned: Item,
    place: String,
    part: Part,
}

// The item of a text, which is the object inside of its `M`.
fn item(alloc: Global, text: &str) -> anyhow::Result<Item> {
    let inner = text.strip_prefix("{\"M\":").and_then(|it| it.strip_suffix("}")).unwrap_or(text);
    Ok(Item::from_json_text(alloc, inner)?)
}

fn turn(
    alloc: Global,
    seed: u64,
    write: &impl Fn(&mut Turning, At<'_>) -> Done,
) -> anyhow::Result<Turned> {
    let is_read_whole = seed % 5 == 0;
    let mut whole = Turning::new(alloc, seed, usize::MAX, is_read_whole);
    write(&mut whole, At::Whole)?;
    let mut turning = Turning::new(alloc, seed, (seed as usize * 7_919) % whole.parts, true);
    write(&mut turning, At::Whole)?;
    let turned = item(alloc, turning.text.as_str())?;
    let Some(at) = turning.at else {
        anyhow::bail!("{}: nothing was turned", turning.text);
    };
    let (place, part) = at;
    let whole = if is_read_whole { Some(item(alloc, whole.text.as_str())?) } else { None };
    Ok(Turned { whole, turned, place, part })
}

// The place that all readers say, or what else they say.
pub(crate) type Told = Result<Place, String>;

// The place of the error of reading.
pub(crate) fn told_place<T: Drop>(read: Result<T, LocatedError<Error>>) -> anyhow::Result<Place> {
    match read {
        Ok(_) => anyhow::bail!("it reads"),
        Err(error) => Ok(error.place),
    }
}

// Whether an item has something at a place, if there is an item.
fn is_found_in(item: Option<Item>, place: &Place) -> Option<bool> {
    item.map(|item| place.find(&AttributeValue::M(item.into_inner())).is_some())
}

// Whether what is found at a place is what the item was turned into there, and not what it was.
fn is_found(
    alloc: Global,
    place: &Place,
    part: &Part,
    turned: &AttributeValue,
    whole: Option<Item>,
) -> anyhow::Result<bool> {
    let was_there = is_found_in(whole, place);
    Ok(match (part, place.find(turned)) {
        (Part::Value(text), Some(found)) => {
            *found == AttributeValue::from_json_text(alloc, text.as_str())?
                && was_there != Some(false)
        }
        (Part::Lacking(name), Some(AttributeValue::M(map))) => map.get(name.as_str()).is_none(),
        (Part::Entry, Some(_)) => was_there != Some(true),
        (Part::InSet, None) => true,
        _ => false,
    })
}

// What is wrong with what is said of an item, if anything is.
fn wrong_of(
    alloc: Global,
    it: Turned,
    told: anyhow::Result<Told>,
) -> anyhow::Result<Option<String>> {
    let turned = AttributeValue::M(it.turned.into_inner());
    let wrong = match told {
        Err(error) => format!(in alloc; "{error}")?,
        Ok(Err(said)) => said,
        Ok(Ok(place)) => {
            if place.to_string(alloc)? != it.place {
                format!(in alloc; "{place}, not {}", it.place)?
            } else if is_found(alloc, &place, &it.part, &turned, it.whole)? {
                return Ok(None);
            } else {
                format!(in alloc; "another part is found at {place}")?
            }
        }
    };
    let text = turned.to_json_text(alloc)?;
    Ok(Some(format!(in alloc; "{text}: {wrong}")?))
}

// The first item whose error has another place than that which was turned, by what reads it and
// says the place.
pub(crate) fn first_wrong(
    alloc: Global,
    write: impl Fn(&mut Turning, At<'_>) -> Done,
    place_of: impl Fn(&Turned) -> anyhow::Result<Told>,
) -> anyhow::Result<Option<String>> {
    for seed in 0..ITEMS {
        let it = turn(alloc, seed, &write)?;
        let told = place_of(&it);
        if let Some(wrong) = wrong_of(alloc, it, told)? {
            return Ok(Some(wrong));
        }
    }
    Ok(None)
}

pub(crate) fn none_wrong(rt: &impl Abort, first: anyhow::Result<Option<String>>) {
    match first {
        Ok(None) => {}
        Ok(Some(wrong)) => assert!(rt; false, "{wrong}"),
        Err(error) => assert!(rt; false, "{error}"),
    }
}
