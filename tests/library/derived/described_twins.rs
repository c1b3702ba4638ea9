// Derived twins of the types of `example_described`, each of a kind of its own.
use crate::derived::random::Random;
use crate::derived::twins::reads_as_twin;
use dynamo_value::Result;
use example_described as own;
use serde::{Deserialize, Serialize};
use std::alloc::Global;
use std::collections::{BTreeMap, HashMap};
use std::test::Fail;

#[derive(Drop, Serialize, Deserialize)]
struct Address {
    city: String,
    zip: Option<u32>,
}

#[derive(Drop, Serialize, Deserialize)]
struct Order {
    id: String,
    count: u32,
    note: Option<String>,
    tags: Vec<String>,
    stock: HashMap<String, u64>,
    home: Address,
}

#[derive(Drop, Serialize, Deserialize)]
struct Page<T> {
    items: Vec<T>,
    next: Option<String>,
}

#[derive(Drop, Serialize, Deserialize)]
struct Reading(u64, Option<String>, Vec<u8>);

#[derive(Drop, Serialize, Deserialize)]
struct Sensor {
    #[serde(rename = "sensorName")]
    name: String,
    #[serde(with = "dynamo_serde::string_set")]
    labels: Vec<String>,
    #[serde(default)]
    retries: u8,
}

#[derive(Clone, Copy, Serialize, Deserialize)]
struct Sealed;

#[derive(Clone, Copy, Serialize, Deserialize)]
struct Weight(u64);

#[derive(Drop, Serialize, Deserialize)]
struct Parcel {
    seal: Sealed,
    weight: Weight,
}

#[derive(Drop, Serialize, Deserialize)]
enum Shipment {
    Waiting,
    Tracked(String),
    Between(u8, u8),
    Delivered { at: u64, to: Address },
}

#[derive(Clone, Copy, PartialEq, Eq, PartialOrd, Ord, Hash, Serialize, Deserialize)]
enum Side {
    Left,
    Right,
}

#[derive(Drop, Serialize, Deserialize)]
struct Lots {
    hashed: HashMap<Side, u8>,
    sorted: BTreeMap<Side, u8>,
}

#[derive(Drop, PartialEq, Eq, PartialOrd, Ord, Serialize, Deserialize)]
struct Code(String);

#[derive(Drop, Serialize, Deserialize)]
struct Shelf {
    name: String,
    articles: BTreeMap<Code, u8>,
}

fn random_address(alloc: Global, random: &mut Random) -> Result<own::Address> {
    let city = random.text(alloc)?;
    let zip = if random.flag() {
        Some((random.next() % 4294967296) as u32)
    } else {
        None
    };
    Ok(own::Address { city, zip })
}

fn random_order(alloc: Global, random: &mut Random) -> Result<own::Order> {
    let mut stock = HashMap::new(alloc);
    for _ in 0..random.count() {
        stock.insert(random.text(alloc)?, random.next())?;
    }
    Ok(own::Order {
        id: random.text(alloc)?,
        count: (random.next() % 4294967296) as u32,
        note: random.maybe_text(alloc)?,
        tags: random.texts(alloc)?,
        stock,
        home: random_address(alloc, random)?,
    })
}

fn random_page(alloc: Global, random: &mut Random) -> Result<own::Page<own::Order>> {
    let mut items = Vec::new(alloc);
    for _ in 0..random.count() {
        items.push(random_order(alloc, random)?)?;
    }
    Ok(own::Page {
        items,
        next: random.maybe_text(alloc)?,
    })
}

fn random_reading(alloc: Global, random: &mut Random) -> Result<own::Reading> {
    Ok(own::Reading(random.next(), random.maybe_text(alloc)?, random.bytes(alloc)?))
}

fn random_sensor(alloc: Global, random: &mut Random) -> Result<own::Sensor> {
    Ok(own::Sensor {
        name: random.text(alloc)?,
        labels: random.texts(alloc)?,
        retries: random.byte(),
    })
}

fn random_parcel(random: &mut Random) -> own::Parcel {
    own::Parcel {
        seal: own::Sealed,
        weight: own::Weight(random.next()),
    }
}

fn random_shipment(alloc: Global, random: &mut Random) -> Result<own::Shipment> {
    Ok(match random.next() % 4 {
        0 => own::Shipment::Waiting,
        1 => own::Shipment::Tracked(random.text(alloc)?),
        2 => own::Shipment::Between(random.byte(), random.byte()),
        _ => own::Shipment::Delivered {
            at: random.next(),
            to: random_address(alloc, random)?,
        },
    })
}

fn random_lots(alloc: Global, random: &mut Random) -> Result<own::Lots> {
    let mut hashed = HashMap::new(alloc);
    let mut sorted = BTreeMap::new(alloc);
    if random.flag() {
        hashed.insert(own::Side::Left, random.byte())?;
        sorted.insert(own::Side::Right, random.byte())?;
    }
    if random.flag() {
        hashed.insert(own::Side::Right, random.byte())?;
        sorted.insert(own::Side::Left, random.byte())?;
    }
    Ok(own::Lots { hashed, sorted })
}

fn random_shelf(alloc: Global, random: &mut Random) -> Result<own::Shelf> {
    let mut articles = BTreeMap::new(alloc);
    for _ in 0..random.count() {
        articles.insert(own::Code(random.text(alloc)?), random.byte())?;
    }
    Ok(own::Shelf {
        name: random.text(alloc)?,
        articles,
    })
}

#[test]
fn a_thousand_structs_of_each(rt: HostRuntime) -> std::result::Result<(), Fail> {
    let alloc = rt.alloc();
    let mut random = Random::new();
    for _ in 0..1000 {
        reads_as_twin::<Address, _>(&rt, alloc, &random_address(alloc, &mut random)?)?;
        reads_as_twin::<Order, _>(&rt, alloc, &random_order(alloc, &mut random)?)?;
        reads_as_twin::<Page<Order>, _>(&rt, alloc, &random_page(alloc, &mut random)?)?;
        reads_as_twin::<Reading, _>(&rt, alloc, &random_reading(alloc, &mut random)?)?;
        reads_as_twin::<Sensor, _>(&rt, alloc, &random_sensor(alloc, &mut random)?)?;
        reads_as_twin::<Parcel, _>(&rt, alloc, &random_parcel(&mut random))?;
    }
    Ok(())
}

#[test]
fn a_thousand_enums_and_maps_of_each(rt: HostRuntime) -> std::result::Result<(), Fail> {
    let alloc = rt.alloc();
    let mut random = Random::new();
    for _ in 0..1000 {
        reads_as_twin::<Shipment, _>(&rt, alloc, &random_shipment(alloc, &mut random)?)?;
        reads_as_twin::<Lots, _>(&rt, alloc, &random_lots(alloc, &mut random)?)?;
        reads_as_twin::<Shelf, _>(&rt, alloc, &random_shelf(alloc, &mut random)?)?;
    }
    Ok(())
}
