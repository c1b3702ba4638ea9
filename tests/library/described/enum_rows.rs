// Enums, keys of maps, newtypes and unit structs: what is written of them, and what reads as them.
use super::rows::{reads, rereads};
use example_described::{Address, Code, Lots, Parcel, Sealed, Shelf, Shipment, Side, Weight};
use std::collections::{BTreeMap, HashMap};
use std::test::Fail;

#[test]
fn each_variant_is_reread(rt: HostRuntime) -> Result<(), Fail> {
    let alloc = rt.alloc();
    rereads(
        &rt,
        alloc,
        Shipment::Waiting,
        r#"{"S":"Waiting"}"#,
        "Waiting",
    )?;
    rereads(
        &rt,
        alloc,
        Shipment::Tracked(String::from_str(alloc, "t-9")?),
        r#"{"M":{"Tracked":{"S":"t-9"}}}"#,
        r#"Tracked("t-9")"#,
    )?;
    rereads(
        &rt,
        alloc,
        Shipment::Between(4, 5),
        r#"{"M":{"Between":{"L":[{"N":"4"},{"N":"5"}]}}}"#,
        "Between(4, 5)",
    )?;
    let delivered = Shipment::Delivered {
        at: 12,
        to: Address {
            city: String::from_str(alloc, "Bern")?,
            zip: None,
        },
    };
    rereads(
        &rt,
        alloc,
        delivered,
        r#"{"M":{"Delivered":{"M":{"at":{"N":"12"},"to":{"M":{"city":{"S":"Bern"},"zip":{"NULL":true}}}}}}}"#,
        r#"Delivered { at: 12, to: Address { city: "Bern", zip: None } }"#,
    )
}

#[test]
fn a_shipment_is_refused(rt: HostRuntime) -> Result<(), Fail> {
    let alloc = rt.alloc();
    let unknown =
        "unknown variant `Lost`, expected one of `Waiting`, `Tracked`, `Between`, `Delivered`";
    reads::<Shipment>(&rt, alloc, r#"{"S":"Lost"}"#, unknown)?;
    reads::<Shipment>(&rt, alloc, r#"{"M":{"Lost":{"N":"1"}}}"#, unknown)?;
    reads::<Shipment>(&rt, alloc, r#"{"N":"1"}"#, "Expected enum")?;
    reads::<Shipment>(
        &rt,
        alloc,
        r#"{"M":{"Tracked":{"N":"1"}}}"#,
        "Expected string",
    )?;
    reads::<Shipment>(
        &rt,
        alloc,
        r#"{"M":{"Delivered":{"M":{"at":{"N":"12"}}}}}"#,
        "missing field `to`",
    )?;
    reads::<Shipment>(
        &rt,
        alloc,
        r#"{"M":{"Delivered":{"M":{"at":{"N":"12"},"to":{"M":{}}}}}}"#,
        "missing field `city`",
    )
}

#[test]
fn lots_are_reread_by_side(rt: HostRuntime) -> Result<(), Fail> {
    let alloc = rt.alloc();
    let mut hashed = HashMap::new(alloc);
    drop(hashed.insert(Side::Right, 1_u8)?);
    let mut sorted = BTreeMap::new(alloc);
    drop(sorted.insert(Side::Right, 3_u8)?);
    drop(sorted.insert(Side::Left, 2_u8)?);
    rereads(
        &rt,
        alloc,
        Lots { hashed, sorted },
        r#"{"M":{"hashed":{"M":{"Right":{"N":"1"}}},"sorted":{"M":{"Left":{"N":"2"},"Right":{"N":"3"}}}}}"#,
        "Lots { hashed: {Right: 1}, sorted: {Left: 2, Right: 3} }",
    )?;
    reads::<Lots>(
        &rt,
        alloc,
        r#"{"M":{"hashed":{"M":{}},"sorted":{"M":{"Up":{"N":"1"}}}}}"#,
        "unknown variant `Up`, expected `Left` or `Right`",
    )?;
    reads::<Lots>(
        &rt,
        alloc,
        r#"{"M":{"hashed":{"M":{}}}}"#,
        "missing field `sorted`",
    )
}

#[test]
fn a_shelf_is_reread_by_code(rt: HostRuntime) -> Result<(), Fail> {
    let alloc = rt.alloc();
    let mut articles = BTreeMap::new(alloc);
    drop(articles.insert(Code(String::from_str(alloc, "nut")?), 9_u8)?);
    drop(articles.insert(Code(String::from_str(alloc, "bolt")?), 8_u8)?);
    let shelf = Shelf {
        name: String::from_str(alloc, "A3")?,
        articles,
    };
    rereads(
        &rt,
        alloc,
        shelf,
        r#"{"M":{"articles":{"M":{"bolt":{"N":"8"},"nut":{"N":"9"}}},"name":{"S":"A3"}}}"#,
        r#"Shelf { name: "A3", articles: {Code("bolt"): 8, Code("nut"): 9} }"#,
    )?;
    reads::<Shelf>(
        &rt,
        alloc,
        r#"{"M":{"articles":{"L":[]},"name":{"S":"A3"}}}"#,
        "Expected map",
    )
}

#[test]
fn a_parcel_is_reread(rt: HostRuntime) -> Result<(), Fail> {
    let alloc = rt.alloc();
    let parcel = Parcel {
        seal: Sealed,
        weight: Weight(750),
    };
    rereads(
        &rt,
        alloc,
        parcel,
        r#"{"M":{"seal":{"NULL":true},"weight":{"N":"750"}}}"#,
        "Parcel { seal: Sealed, weight: Weight(750) }",
    )?;
    // A unit struct has no value for a missing field.
    reads::<Parcel>(
        &rt,
        alloc,
        r#"{"M":{"weight":{"N":"750"}}}"#,
        "missing field `seal`",
    )?;
    reads::<Parcel>(
        &rt,
        alloc,
        r#"{"M":{"seal":{"NULL":true},"weight":{"S":"750"}}}"#,
        "Expected num",
    )?;
    reads::<Parcel>(
        &rt,
        alloc,
        r#"{"M":{"seal":{"S":"yes"},"weight":{"N":"750"}}}"#,
        "Expected unit struct",
    )
}
