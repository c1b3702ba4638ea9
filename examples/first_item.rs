//! Writes a value as an item, prints the item's DynamoDB JSON, and reads the value back.
//! In crates.txt: `first_item: dynamo_serde serde serde_dynamo anyhow`
#![tactic(auto)]

use dynamo_serde::{from_item, to_item};
use serde::{Deserialize, Serialize};
use serde_dynamo::{DynamoJson, Item};

#[derive(Debug, Drop, Serialize, Deserialize)]
struct User {
    id: String,
    name: String,
    age: u8,
}

fn main(rt: HostRuntime) -> anyhow::Result<()> {
    let alloc = rt.alloc();
    let user = User {
        id: String::from_str(alloc, "fSsgVtal8TpP")?,
        name: String::from_str(alloc, "Arthur Dent")?,
        age: 42,
    };
    let item = to_item(alloc, &user)?;
    println!(rt; "{}", item.to_json_text(alloc)?)?;
    let read: User = from_item(alloc, item)?;
    println!(rt; "{read:?}")?;

    // Items also come from DynamoDB JSON. This one has no name, so it isn't a user.
    let nameless = Item::from_json_text(alloc, r#"{"id":{"S":"a1"},"age":{"N":"42"}}"#)?;
    match from_item::<User>(alloc, nameless) {
        Ok(user) => println!(rt; "{user:?}")?,
        Err(error) => println!(rt; "error: {error}")?,
    }
    Ok(())
}
