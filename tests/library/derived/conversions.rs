// Types that are read and written by another.
use crate::derived::rows::reads;
use serde::{Deserialize, Serialize};
use std::alloc::AllocError;
use std::test::Fail;

#[derive(Drop, Serialize, Deserialize)]
#[serde(from = "u32", into = "u32")]
struct Meters {
    centimeters: u64,
}

impl From<u32> for Meters {
    fn from(meters: u32) -> Meters {
        Meters {
            centimeters: u64::from(meters).saturating_mul(100),
        }
    }
}

impl From<Meters> for u32 {
    fn from(meters: Meters) -> u32 {
        u32::try_from(meters.centimeters / 100).unwrap_or(u32::MAX)
    }
}

impl Clone for Meters {
    fn clone(&self) -> Result<Meters, AllocError> {
        Ok(Meters {
            centimeters: self.centimeters,
        })
    }
}

#[derive(Drop, Serialize, Deserialize)]
#[serde(try_from = "u8")]
struct Percent(u8);

impl TryFrom<u8> for Percent {
    type Error = &'static str;

    fn try_from(n: u8) -> Result<Percent, &'static str> {
        if n > 100 {
            return Err("more than all");
        }
        Ok(Percent(n))
    }
}

#[test]
fn conversions(rt: HostRuntime) -> Result<(), Fail> {
    let alloc = rt.alloc();
    reads::<Meters>(&rt, alloc, &[
        (r#"{"N":"7"}"#, ""),
        (r#"{"N":"-7"}"#, "Failed to parse '-7' as an integer: invalid digit found in string"),
    ])?;
    reads::<Percent>(&rt, alloc, &[(r#"{"N":"100"}"#, ""), (r#"{"N":"101"}"#, "more than all")])
}
