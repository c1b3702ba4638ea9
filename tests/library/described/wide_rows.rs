// A struct of many fields: what is written of it, and what reads as it.
use super::rows::{reads, rereads};
use example_described::Wide40;
use std::test::Fail;

const JSON_40: &str =
    r#"{"M":{"age":{"N":"26"},"altitude":{"N":"-700"},"balance":{"N":"-8000"},"chess_rating":{"N":"-30"},"city":{"S":"city 13"},"comment":{"S":"comment 23"},"country":{"S":"country 25"},"created_at":{"N":"50000"},"deleted_at":{"N":"-330000"},"digest":{"L":[{"N":"12"}]},"expires_at":{"N":"-210000"},"floor":{"N":"14"},"height":{"N":"2700"},"hours_from_utc":{"N":"-6"},"id":{"S":"id 1"},"is_active":{"BOOL":true},"is_public":{"BOOL":true},"is_verified":{"BOOL":true},"language":{"S":"language 37"},"last_seen":{"N":"-90000"},"latitude":{"N":"-32000"},"level":{"N":"38"},"longitude":{"N":"-3100"},"nickname":{"S":"nickname 11"},"phone":{"N":"170000"},"picture":{"L":[{"N":"24"}]},"points":{"N":"40000"},"port":{"N":"300"},"rank":{"N":"3900"},"referrer":{"S":"referrer 35"},"score":{"N":"-20000"},"signature":{"L":[{"N":"36"}]},"street_number":{"N":"1500"},"summer_high":{"N":"-1900"},"updated_at":{"N":"290000"},"version":{"N":"2"},"visits":{"N":"4000"},"weight":{"N":"28000"},"winter_low":{"N":"-18"},"zip":{"N":"16000"}}}"#;

#[test]
fn forty_fields_are_reread(rt: HostRuntime) -> Result<(), Fail> {
    let alloc = rt.alloc();
    let account = Wide40 {
        id: String::from_str(alloc, "id 1")?,
        version: 2,
        port: 300,
        visits: 4000,
        created_at: 50_000,
        hours_from_utc: -6,
        altitude: -700,
        balance: -8000,
        last_seen: -90_000,
        is_active: true,
        nickname: Some(String::from_str(alloc, "nickname 11")?),
        digest: vec![in alloc; 12]?,
        city: String::from_str(alloc, "city 13")?,
        floor: 14,
        street_number: 1500,
        zip: 16_000,
        phone: 170_000,
        winter_low: -18,
        summer_high: -1900,
        score: -20_000,
        expires_at: -210_000,
        is_verified: true,
        comment: Some(String::from_str(alloc, "comment 23")?),
        picture: vec![in alloc; 24]?,
        country: String::from_str(alloc, "country 25")?,
        age: 26,
        height: 2700,
        weight: 28_000,
        updated_at: 290_000,
        chess_rating: -30,
        longitude: -3100,
        latitude: -32_000,
        deleted_at: -330_000,
        is_public: true,
        referrer: Some(String::from_str(alloc, "referrer 35")?),
        signature: vec![in alloc; 36]?,
        language: String::from_str(alloc, "language 37")?,
        level: 38,
        rank: 3900,
        points: 40_000,
    };
    rereads(
        &rt,
        alloc,
        account,
        JSON_40,
        r#"Wide40 { id: "id 1", version: 2, port: 300, visits: 4000, created_at: 50000, hours_from_utc: -6, altitude: -700, balance: -8000, last_seen: -90000, is_active: true, nickname: Some("nickname 11"), digest: [12], city: "city 13", floor: 14, street_number: 1500, zip: 16000, phone: 170000, winter_low: -18, summer_high: -1900, score: -20000, expires_at: -210000, is_verified: true, comment: Some("comment 23"), picture: [24], country: "country 25", age: 26, height: 2700, weight: 28000, updated_at: 290000, chess_rating: -30, longitude: -3100, latitude: -32000, deleted_at: -330000, is_public: true, referrer: Some("referrer 35"), signature: [36], language: "language 37", level: 38, rank: 3900, points: 40000 }"#,
    )
}

#[test]
fn one_of_many_fields_is_missed(rt: HostRuntime) -> Result<(), Fail> {
    let alloc = rt.alloc();
    // The first of the missing fields that are no options is named.
    reads::<Wide40>(
        &rt,
        alloc,
        r#"{"M":{"version":{"N":"1"}}}"#,
        "missing field `id`",
    )?;
    reads::<Wide40>(
        &rt,
        alloc,
        r#"{"M":{"age":{"N":"26"},"altitude":{"N":"-700"},"balance":{"N":"-8000"},"chess_rating":{"N":"-30"},"city":{"S":"city 13"},"comment":{"S":"comment 23"},"country":{"S":"country 25"},"created_at":{"N":"50000"},"deleted_at":{"N":"-330000"},"digest":{"L":[{"N":"12"}]},"expires_at":{"N":"-210000"},"floor":{"N":"14"},"height":{"N":"2700"},"hours_from_utc":{"N":"-6"},"id":{"S":"id 1"},"is_active":{"BOOL":true},"is_public":{"BOOL":true},"is_verified":{"BOOL":true},"language":{"S":"language 37"},"last_seen":{"N":"-90000"},"latitude":{"N":"-32000"},"level":{"N":"38"},"longitude":{"N":"-3100"},"nickname":{"S":"nickname 11"},"phone":{"N":"170000"},"picture":{"L":[{"N":"24"}]},"port":{"N":"300"},"rank":{"N":"3900"},"referrer":{"S":"referrer 35"},"score":{"N":"-20000"},"signature":{"L":[{"N":"36"}]},"street_number":{"N":"1500"},"summer_high":{"N":"-1900"},"updated_at":{"N":"290000"},"version":{"N":"2"},"visits":{"N":"4000"},"weight":{"N":"28000"},"winter_low":{"N":"-18"},"zip":{"N":"16000"}}}"#,
        "missing field `points`",
    )?;
    reads::<Wide40>(
        &rt,
        alloc,
        r#"{"M":{"points":{"BOOL":true}}}"#,
        "Expected num",
    )
}
