// Derived twins of described types whose fields are left out if they hold their default.
use crate::derived::random::Random;
use crate::derived::twins::reads_as_twin;
use dynamo_value::Result;
use example_described as own;
use serde::{Deserialize, Serialize};
use std::alloc::Global;
use std::collections::{BTreeMap, HashMap};
use std::test::Fail;

#[derive(Drop, Serialize, Deserialize)]
#[serde(rename_all = "camelCase")]
struct Ticket {
    id: String,
    #[serde(skip_serializing_if = "Option::is_none")]
    assigned_to: Option<String>,
    #[serde(default, skip_serializing_if = "String::is_empty")]
    note: String,
    #[serde(default, skip_serializing_if = "Vec::is_empty")]
    replies: Vec<String>,
    #[serde(default, skip_serializing_if = "Vec::is_empty", with = "dynamo_serde::string_set")]
    labels: Vec<String>,
    #[serde(default, skip_serializing_if = "HashMap::is_empty")]
    minutes: HashMap<String, u32>,
    #[serde(default, skip_serializing_if = "BTreeMap::is_empty")]
    links: BTreeMap<String, String>,
}

#[derive(Drop, Serialize, Deserialize)]
enum Notice {
    Closed,
    Answered {
        by: String,
        #[serde(skip_serializing_if = "Option::is_none")]
        after: Option<u32>,
    },
}

fn random_ticket(alloc: Global, random: &mut Random) -> Result<own::Ticket> {
    let mut minutes = HashMap::new(alloc);
    let mut links = BTreeMap::new(alloc);
    for _ in 0..random.count() {
        minutes.insert(random.text(alloc)?, u32::from(random.byte()))?;
    }
    for _ in 0..random.count() {
        links.insert(random.text(alloc)?, random.text(alloc)?)?;
    }
    Ok(own::Ticket {
        id: random.text(alloc)?,
        assigned_to: random.maybe_text(alloc)?,
        note: random.text(alloc)?,
        replies: random.texts(alloc)?,
        labels: random.texts(alloc)?,
        minutes,
        links,
    })
}

fn random_notice(alloc: Global, random: &mut Random) -> Result<own::Notice> {
    if random.flag() {
        return Ok(own::Notice::Closed);
    }
    let by = random.text(alloc)?;
    let after = if random.flag() {
        Some(u32::from(random.byte()))
    } else {
        None
    };
    Ok(own::Notice::Answered { by, after })
}

#[test]
fn a_thousand_values_with_fields_left_out(rt: HostRuntime) -> std::result::Result<(), Fail> {
    let alloc = rt.alloc();
    let mut random = Random::new();
    for _ in 0..1000 {
        reads_as_twin::<Ticket, _>(&rt, alloc, &random_ticket(alloc, &mut random)?)?;
        reads_as_twin::<Notice, _>(&rt, alloc, &random_notice(alloc, &mut random)?)?;
    }
    Ok(())
}
