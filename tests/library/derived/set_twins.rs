// A derived twin of a described type with sets. The library writes hashed sets in order, so the twin has ordered ones. It has byte
// strings as lists, since that is what the module `binary_set` of `dynamo_serde` takes.
use crate::derived::random::Random;
use crate::derived::twins::{alike, reads_as_twin};
use dynamo_value::{ByteBuf, Result};
use example_described as own;
use serde::{Deserialize, Serialize};
use std::alloc::Global;
use std::collections::{BTreeMap, BTreeSet, HashSet};
use std::test::Fail;

#[derive(Drop, Serialize, Deserialize)]
struct Roster {
    id: String,
    #[serde(with = "dynamo_serde::string_set")]
    names: BTreeSet<String>,
    #[serde(with = "dynamo_serde::number_set")]
    badges: BTreeSet<u32>,
    #[serde(default, skip_serializing_if = "Vec::is_empty", with = "dynamo_serde::binary_set")]
    tokens: Vec<Vec<u8>>,
    hours: BTreeSet<u8>,
    #[serde(default, skip_serializing_if = "BTreeSet::is_empty", with = "dynamo_serde::string_set")]
    skills: BTreeSet<String>,
    #[serde(default, with = "dynamo_serde::number_set")]
    rooms: BTreeSet<u16>,
    #[serde(with = "dynamo_serde::binary_set")]
    seals: Vec<Vec<u8>>,
}

#[derive(Drop, PartialEq, Eq, PartialOrd, Ord, Serialize, Deserialize)]
#[serde(transparent)]
struct Sku(String);

#[derive(Drop, Serialize, Deserialize)]
#[serde(transparent)]
struct Bay(u32);

#[derive(Drop, Serialize, Deserialize)]
#[serde(transparent)]
struct Remark(Option<String>);

#[derive(Drop, Serialize, Deserialize)]
struct Stock {
    remark: Remark,
    #[serde(with = "dynamo_serde::string_set")]
    skus: BTreeSet<Sku>,
    #[serde(with = "dynamo_serde::number_set")]
    bays: Vec<Bay>,
    #[serde(with = "dynamo_serde::binary_set")]
    seals: Vec<Vec<u8>>,
    counts: BTreeMap<Sku, u32>,
}

fn random_roster(alloc: Global, random: &mut Random) -> Result<own::Roster> {
    let mut roster = own::Roster {
        id: random.text(alloc)?,
        names: BTreeSet::new(alloc),
        badges: BTreeSet::new(alloc),
        tokens: BTreeSet::new(alloc),
        hours: BTreeSet::new(alloc),
        skills: HashSet::new(alloc),
        rooms: HashSet::new(alloc),
        seals: HashSet::new(alloc),
    };
    for _ in 0..random.count() {
        roster.names.insert(random.text(alloc)?)?;
    }
    for _ in 0..random.count() {
        roster.badges.insert(u32::from(random.byte()) * 1000)?;
    }
    for _ in 0..random.count() {
        roster.tokens.insert(ByteBuf::from(random.bytes(alloc)?))?;
    }
    for _ in 0..random.count() {
        roster.hours.insert(random.byte())?;
    }
    for _ in 0..random.count() {
        roster.skills.insert(random.text(alloc)?)?;
        roster.rooms.insert(u16::from(random.byte()))?;
        roster.seals.insert(ByteBuf::from(random.bytes(alloc)?))?;
    }
    Ok(roster)
}

#[test]
fn a_thousand_values_with_sets(rt: HostRuntime) -> std::result::Result<(), Fail> {
    let alloc = rt.alloc();
    let mut random = Random::new();
    for _ in 0..1000 {
        reads_as_twin::<Roster, _>(&rt, alloc, &random_roster(alloc, &mut random)?)?;
    }
    Ok(())
}

fn random_stock(alloc: Global, random: &mut Random) -> Result<own::Stock> {
    let mut stock = own::Stock {
        remark: own::Remark(random.maybe_text(alloc)?),
        skus: BTreeSet::new(alloc),
        bays: Vec::new(alloc),
        seals: HashSet::new(alloc),
        counts: BTreeMap::new(alloc),
    };
    for _ in 0..random.count() {
        stock.skus.insert(own::Sku(random.text(alloc)?))?;
        stock.bays.push(own::Bay(u32::from(random.byte()) * 1000))?;
        stock.seals.insert(own::Seal(ByteBuf::from(random.bytes(alloc)?)))?;
        stock.counts.insert(own::Sku(random.text(alloc)?), u32::from(random.byte()))?;
    }
    Ok(stock)
}

#[test]
fn a_thousand_sets_of_transparent_newtypes(rt: HostRuntime) -> std::result::Result<(), Fail> {
    let alloc = rt.alloc();
    let mut random = Random::new();
    for _ in 0..1000 {
        reads_as_twin::<Stock, _>(&rt, alloc, &random_stock(alloc, &mut random)?)?;
    }
    Ok(())
}

#[test]
fn missing_transparent_newtypes_are_alike(rt: HostRuntime) -> std::result::Result<(), Fail> {
    let alloc = rt.alloc();
    alike::<Stock, own::Stock>(&rt, alloc, &[
        r#"{"M":{"bays":{"NS":["1"]},"counts":{"M":{"a":{"N":"1"}}},"seals":{"BS":["AQ=="]},"skus":{"SS":["a"]}}}"#,
        r#"{"M":{"bays":{"NS":[]},"counts":{"M":{}},"remark":{"S":"b"},"seals":{"BS":[]},"skus":{"SS":[]}}}"#,
        r#"{"M":{"skus":{"SS":["a"]}}}"#,
    ])
}
