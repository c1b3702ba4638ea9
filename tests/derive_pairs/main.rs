//! Draws values of the types, writes them and reads them back.
#![tactic(auto)]

mod draw;
mod printed;

use draw::{Draw, Random};
use dynamo_record::Shaped;
use serde_dynamo::{from_attribute_value, to_attribute_value};

// Returns how many of so many values read back as they were, up to the first that doesn't, which is shown.
fn count<T: Draw + Shaped + PartialEq>(rt: &HostRuntime, random: &mut Random, values: u32, name: &str) -> anyhow::Result<u32> {
    let alloc = rt.alloc();
    for at in 0..values {
        let value = T::draw(alloc, random)?;
        let written = to_attribute_value(alloc, &value)?;
        let shown = format!(in alloc; "{written:?}")?;
        match from_attribute_value::<T>(alloc, written) {
            Ok(back) if back == value => {}
            Ok(back) => {
                let again = to_attribute_value(alloc, &back)?;
                println!(rt; "{name}: {shown} reads back as another value, which is written as {again:?}")?;
                return Ok(at);
            }
            Err(error) => {
                println!(rt; "{name}: {shown} doesn't read back: {error}")?;
                return Ok(at);
            }
        }
    }
    Ok(values)
}

fn main(rt: HostRuntime) -> anyhow::Result<()> {
    let values = printed::count_all(&rt)?;
    println!(rt; "{values}")?;
    Ok(())
}
