//! A type that derives serde's traits, with attributes: renamed fields, a default, an option that is left out, a set and a tagged enum.
//! In crates.txt: `derived_type: dynamo_serde serde serde_dynamo anyhow`
#![tactic(auto)]

use dynamo_serde::{from_item, to_item};
use serde::{Deserialize, Serialize};
use serde_dynamo::{DynamoJson, Item};

#[derive(Debug, Drop, Serialize, Deserialize)]
#[serde(tag = "kind", rename_all = "snake_case")]
enum Delivery {
    Pickup,
    Express { days: u8 },
}

#[derive(Debug, Drop, Serialize, Deserialize)]
#[serde(rename_all = "camelCase")]
struct Order {
    order_id: String,
    #[serde(default)]
    item_count: u32,
    #[serde(skip_serializing_if = "Option::is_none")]
    note: Option<String>,
    #[serde(with = "dynamo_serde::number_set")]
    lots: Vec<u64>,
    delivery: Delivery,
}

fn main(rt: HostRuntime) -> anyhow::Result<()> {
    let alloc = rt.alloc();
    let order = Order {
        order_id: String::from_str(alloc, "a1")?,
        item_count: 3,
        note: None,
        lots: vec![in alloc; 7, 8]?,
        delivery: Delivery::Express { days: 2 },
    };
    let item = to_item(alloc, &order)?;
    println!(rt; "{}", item.to_json_text(alloc)?)?;

    // The count is missing, so it is zero; the note is there.
    let json = r#"{"orderId":{"S":"a2"},"note":{"S":"ring twice"},"lots":{"NS":["9"]},
        "delivery":{"M":{"kind":{"S":"pickup"}}}}"#;
    let order: Order = from_item(alloc, Item::from_json_text(alloc, json)?)?;
    println!(rt; "{order:?}")?;
    Ok(())
}
