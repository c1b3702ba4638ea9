// Sets of Rust in described types: what is written of them, and what reads as them.
use super::rows::{reads, rereads};
use example_described::{Bay, Remark, Roster, Seal, Sku, Stock};
use serde_dynamo::ByteBuf;
use std::alloc::Global;
use std::collections::{BTreeMap, BTreeSet, HashSet};
use std::test::Fail;

fn text(alloc: Global, text: &str) -> serde_dynamo::Result<String> {
    Ok(String::from_str(alloc, text)?)
}

fn empty_roster(alloc: Global) -> serde_dynamo::Result<Roster> {
    Ok(Roster {
        id: text(alloc, "r-1")?,
        names: BTreeSet::new(alloc),
        badges: BTreeSet::new(alloc),
        tokens: BTreeSet::new(alloc),
        hours: BTreeSet::new(alloc),
        skills: HashSet::new(alloc),
        rooms: HashSet::new(alloc),
        seals: HashSet::new(alloc),
    })
}

#[test]
fn an_empty_set_is_written_unless_it_is_left_out(rt: HostRuntime) -> Result<(), Fail> {
    let alloc = rt.alloc();
    rereads(
        &rt,
        alloc,
        empty_roster(alloc)?,
        r#"{"M":{"badges":{"NS":[]},"hours":{"L":[]},"id":{"S":"r-1"},"names":{"SS":[]},"rooms":{"NS":[]},"seals":{"BS":[]}}}"#,
        r#"Roster { id: "r-1", names: {}, badges: {}, tokens: {}, hours: {}, skills: {}, rooms: {}, seals: {} }"#,
    )
}

#[test]
fn sets_are_written_in_their_order(rt: HostRuntime) -> Result<(), Fail> {
    let alloc = rt.alloc();
    let mut roster = empty_roster(alloc)?;
    for name in ["b", "", "a", "b"] {
        roster.names.insert(text(alloc, name)?)?;
    }
    for badge in [10, 9, 10] {
        roster.badges.insert(badge)?;
    }
    roster.tokens.insert(ByteBuf::from(vec![in alloc; 2u8]?))?;
    roster.tokens.insert(ByteBuf::from(vec![in alloc; 1u8, 0]?))?;
    for hour in [17, 9] {
        roster.hours.insert(hour)?;
    }
    rereads(
        &rt,
        alloc,
        roster,
        r#"{"M":{"badges":{"NS":["9","10"]},"hours":{"L":[{"N":"9"},{"N":"17"}]},"id":{"S":"r-1"},"names":{"SS":["","a","b"]},"rooms":{"NS":[]},"seals":{"BS":[]},"tokens":{"BS":["AQA=","Ag=="]}}}"#,
        r#"Roster { id: "r-1", names: {"", "a", "b"}, badges: {9, 10}, tokens: {ByteBuf { bytes: [1, 0] }, ByteBuf { bytes: [2] }}, hours: {9, 17}, skills: {}, rooms: {}, seals: {} }"#,
    )
}

#[test]
fn sets_are_read_in_any_order(rt: HostRuntime) -> Result<(), Fail> {
    let alloc = rt.alloc();
    for json in [
        r#"{"M":{"badges":{"NS":["10","9"]},"hours":{"L":[{"N":"9"}]},"id":{"S":"r-1"},"names":{"SS":["b","a"]},"seals":{"BS":[]}}}"#,
        r#"{"M":{"badges":{"NS":["9","10","09"]},"hours":{"L":[{"N":"9"},{"N":"9"}]},"id":{"S":"r-1"},"names":{"L":[{"S":"b"},{"S":"a"},{"S":"b"}]},"rooms":{"NS":[]},"seals":{"L":[]}}}"#,
        r#"{"M":{"badges":{"L":[{"N":"9"},{"N":"10"}]},"hours":{"NS":["9"]},"id":{"S":"r-1"},"names":{"SS":["a","b"]},"seals":{"BS":[]},"skills":{"SS":[]},"tokens":{"BS":[]}}}"#,
    ] {
        let read = r#"Roster { id: "r-1", names: {"a", "b"}, badges: {9, 10}, tokens: {}, hours: {9}, skills: {}, rooms: {}, seals: {} }"#;
        reads::<Roster>(&rt, alloc, json, read)?;
    }
    Ok(())
}

#[test]
fn hashed_sets_are_read_in_any_order(rt: HostRuntime) -> Result<(), Fail> {
    let alloc = rt.alloc();
    let json = r#"{"M":{"badges":{"NS":[]},"hours":{"L":[]},"id":{"S":"r-1"},"names":{"SS":[]},"rooms":{"NS":["9","09"]},"seals":{"L":[{"B":"AQ=="},{"B":"AQ=="}]},"skills":{"L":[{"S":"b"},{"S":"b"}]}}}"#;
    let read = r#"Roster { id: "r-1", names: {}, badges: {}, tokens: {}, hours: {}, skills: {"b"}, rooms: {9}, seals: {ByteBuf { bytes: [1] }} }"#;
    reads::<Roster>(&rt, alloc, json, read)
}

#[test]
fn a_missing_set_and_one_of_another_kind_are_refused(rt: HostRuntime) -> Result<(), Fail> {
    let alloc = rt.alloc();
    for (json, error) in [
        (r#"{"M":{"badges":{"NS":[]},"hours":{"L":[]},"id":{"S":"r-1"}}}"#, "missing field `names`"),
        (r#"{"M":{"badges":{"NS":[]},"id":{"S":"r-1"},"names":{"SS":[]}}}"#, "missing field `hours`"),
        (r#"{"M":{"names":{"NULL":true}}}"#, "Expected seq"),
        (r#"{"M":{"tokens":{"NULL":true}}}"#, "Expected seq"),
        (r#"{"M":{"names":{"S":"a"}}}"#, "Expected seq"),
        (r#"{"M":{"names":{"NS":["1"]}}}"#, "invalid type: integer, expected a string"),
        (r#"{"M":{"skills":{"NULL":true}}}"#, "Expected seq"),
        (r#"{"M":{"rooms":{"SS":["1"]}}}"#, "invalid type: string, expected an integer"),
        (r#"{"M":{"hours":{"L":[{"S":"9"}]}}}"#, "Expected num"),
    ] {
        reads::<Roster>(&rt, alloc, json, error)?;
    }
    Ok(())
}

#[test]
fn hashed_sets_are_written_in_their_order(rt: HostRuntime) -> Result<(), Fail> {
    let alloc = rt.alloc();
    let mut roster = empty_roster(alloc)?;
    for skill in ["d", "b", "", "c", "b", "a"] {
        roster.skills.insert(text(alloc, skill)?)?;
    }
    for room in [300, 9, 10, 9] {
        roster.rooms.insert(room)?;
    }
    let (_, written, back) = serde_dynamo::reread(alloc, &roster)?;
    let json = r#"{"M":{"badges":{"NS":[]},"hours":{"L":[]},"id":{"S":"r-1"},"names":{"SS":[]},"rooms":{"NS":["9","10","300"]},"seals":{"BS":[]},"skills":{"SS":["","a","b","c","d"]}}}"#;
    assert_eq!(rt; written.to_string(alloc)?.as_str(), json);
    assert!(rt; back.skills == roster.skills && back.rooms == roster.rooms);
    Ok(())
}

fn empty_stock(alloc: Global) -> Stock {
    Stock {
        remark: Remark(None),
        skus: BTreeSet::new(alloc),
        bays: Vec::new(alloc),
        seals: HashSet::new(alloc),
        counts: BTreeMap::new(alloc),
    }
}

// A transparent newtype is written and read as its field.
#[test]
fn transparent_newtypes_are_members_of_sets(rt: HostRuntime) -> Result<(), Fail> {
    let alloc = rt.alloc();
    let mut stock = empty_stock(alloc);
    for sku in ["b", "a", "b"] {
        stock.skus.insert(Sku(text(alloc, sku)?))?;
        stock.counts.insert(Sku(text(alloc, sku)?), 3)?;
    }
    stock.bays.push(Bay(10))?;
    stock.bays.push(Bay(9))?;
    stock.seals.insert(Seal(ByteBuf::from(vec![in alloc; 1u8]?)))?;
    rereads(
        &rt,
        alloc,
        stock,
        r#"{"M":{"bays":{"NS":["10","9"]},"counts":{"M":{"a":{"N":"3"},"b":{"N":"3"}}},"remark":{"NULL":true},"seals":{"BS":["AQ=="]},"skus":{"SS":["a","b"]}}}"#,
        r#"Stock { remark: Remark(None), skus: {Sku("a"), Sku("b")}, bays: [Bay(10), Bay(9)], seals: {Seal(ByteBuf { bytes: [1] })}, counts: {Sku("a"): 3, Sku("b"): 3} }"#,
    )
}

#[test]
fn a_missing_transparent_newtype_is_its_missing_field(rt: HostRuntime) -> Result<(), Fail> {
    let alloc = rt.alloc();
    for (json, read) in [
        (
            r#"{"M":{"bays":{"NS":[]},"counts":{"M":{}},"seals":{"BS":[]},"skus":{"SS":[]}}}"#,
            "Stock { remark: Remark(None), skus: {}, bays: [], seals: {}, counts: {} }",
        ),
        (r#"{"M":{"skus":{"SS":["a"]}}}"#, "missing field `bays`"),
        (r#"{"M":{"skus":{"NS":["1"]}}}"#, "invalid type: integer, expected a string"),
        (r#"{"M":{"bays":{"SS":["1"]}}}"#, "invalid type: string, expected an integer"),
    ] {
        reads::<Stock>(&rt, alloc, json, read)?;
    }
    Ok(())
}
