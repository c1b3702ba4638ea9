// The derived twin of the wide type of `example_described`.
use crate::derived::random::Random;
use crate::derived::twins::reads_as_twin;
use dynamo_value::Result;
use example_described as own;
use serde::{Deserialize, Serialize};
use std::alloc::Global;
use std::test::Fail;

#[derive(Drop, Serialize, Deserialize)]
struct Wide40 {
    id: String,
    version: u8,
    port: u16,
    visits: u32,
    created_at: u64,
    hours_from_utc: i8,
    altitude: i16,
    balance: i32,
    last_seen: i64,
    is_active: bool,
    nickname: Option<String>,
    digest: Vec<u8>,
    city: String,
    floor: u8,
    street_number: u16,
    zip: u32,
    phone: u64,
    winter_low: i8,
    summer_high: i16,
    score: i32,
    expires_at: i64,
    is_verified: bool,
    comment: Option<String>,
    picture: Vec<u8>,
    country: String,
    age: u8,
    height: u16,
    weight: u32,
    updated_at: u64,
    chess_rating: i8,
    longitude: i16,
    latitude: i32,
    deleted_at: i64,
    is_public: bool,
    referrer: Option<String>,
    signature: Vec<u8>,
    language: String,
    level: u8,
    rank: u16,
    points: u32,
}

fn random_wide_40(alloc: Global, random: &mut Random) -> Result<own::Wide40> {
    Ok(own::Wide40 {
        id: random.text(alloc)?,
        version: random.byte(),
        port: (random.next() % 65536) as u16,
        visits: (random.next() % 4294967296) as u32,
        created_at: random.next(),
        hours_from_utc: random.signed(),
        altitude: i16::from(random.signed()),
        balance: i32::from(random.signed()),
        last_seen: i64::from(random.signed()),
        is_active: random.flag(),
        nickname: random.maybe_text(alloc)?,
        digest: random.bytes(alloc)?,
        city: random.text(alloc)?,
        floor: random.byte(),
        street_number: (random.next() % 65536) as u16,
        zip: (random.next() % 4294967296) as u32,
        phone: random.next(),
        winter_low: random.signed(),
        summer_high: i16::from(random.signed()),
        score: i32::from(random.signed()),
        expires_at: i64::from(random.signed()),
        is_verified: random.flag(),
        comment: random.maybe_text(alloc)?,
        picture: random.bytes(alloc)?,
        country: random.text(alloc)?,
        age: random.byte(),
        height: (random.next() % 65536) as u16,
        weight: (random.next() % 4294967296) as u32,
        updated_at: random.next(),
        chess_rating: random.signed(),
        longitude: i16::from(random.signed()),
        latitude: i32::from(random.signed()),
        deleted_at: i64::from(random.signed()),
        is_public: random.flag(),
        referrer: random.maybe_text(alloc)?,
        signature: random.bytes(alloc)?,
        language: random.text(alloc)?,
        level: random.byte(),
        rank: (random.next() % 65536) as u16,
        points: (random.next() % 4294967296) as u32,
    })
}

#[test]
fn a_thousand_wide_values(rt: HostRuntime) -> std::result::Result<(), Fail> {
    let alloc = rt.alloc();
    let mut random = Random::new();
    for _ in 0..1000 {
        reads_as_twin::<Wide40, _>(&rt, alloc, &random_wide_40(alloc, &mut random)?)?;
    }
    Ok(())
}
