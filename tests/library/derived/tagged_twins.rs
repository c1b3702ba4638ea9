// The derived twin of a described enum that is internally tagged.
use crate::derived::random::Random;
use crate::derived::twins::reads_as_twin;
use dynamo_value::Result;
use example_described as own;
use serde::{Deserialize, Serialize};
use std::alloc::Global;
use std::test::Fail;

#[derive(Drop, Serialize, Deserialize)]
struct Customer {
    id: String,
    name: String,
    #[serde(skip_serializing_if = "Option::is_none")]
    email: Option<String>,
}

#[derive(Drop, Serialize, Deserialize)]
#[serde(tag = "type")]
enum Entity {
    Customer(Customer),
    Order {
        id: String,
        customer: String,
        #[serde(skip_serializing_if = "Option::is_none")]
        note: Option<String>,
    },
    Counter,
}

fn random_entity(alloc: Global, random: &mut Random) -> Result<own::Entity> {
    Ok(match random.next() % 3 {
        0 => own::Entity::Customer(own::Customer {
            id: random.text(alloc)?,
            name: random.text(alloc)?,
            email: random.maybe_text(alloc)?,
        }),
        1 => own::Entity::Order {
            id: random.text(alloc)?,
            customer: random.text(alloc)?,
            note: random.maybe_text(alloc)?,
        },
        _ => own::Entity::Counter,
    })
}

#[test]
fn a_thousand_values_under_a_tag(rt: HostRuntime) -> std::result::Result<(), Fail> {
    let alloc = rt.alloc();
    let mut random = Random::new();
    for _ in 0..1000 {
        reads_as_twin::<Entity, _>(&rt, alloc, &random_entity(alloc, &mut random)?)?;
    }
    Ok(())
}
