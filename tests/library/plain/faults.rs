use super::kinds::{Both, Fields, Newtype, Nothing, Refuses, Structy, Tuple, Wrapped};
use super::plain;
use dynamo_ser::StringSet;
use std::collections::BTreeMap;
use std::test::Fail;

const NO_KEY: &str = "Key must be a string";

const OUT: &str = "number out of range";

#[test]
fn a_refusal_inside_is_the_refusal_of_the_whole(rt: HostRuntime) -> Result<(), Fail> {
    let alloc = rt.alloc();
    plain(&rt, alloc, Refuses, "no")?;
    plain(&rt, alloc, Some(Refuses), "no")?;
    plain(&rt, alloc, Wrapped(Refuses), "no")?;
    plain(&rt, alloc, StringSet(Refuses), "no")?;
    plain(&rt, alloc, Newtype(Refuses), "no")?;
    plain(&rt, alloc, vec![in alloc; Refuses]?, "no")?;
    plain(&rt, alloc, (1_u8, Refuses), "no")?;
    plain(&rt, alloc, Tuple(1_u8, Refuses), "no")?;
    plain(&rt, alloc, Newtype(u128::MAX), OUT)
}

#[test]
fn the_first_fault_is_given(rt: HostRuntime) -> Result<(), Fail> {
    let alloc = rt.alloc();
    plain(&rt, alloc, Both(Refuses, u128::MAX), "no")?;
    plain(&rt, alloc, Both(u128::MAX, Refuses), OUT)?;
    let structy = Structy {
        one: u128::MAX,
        two: Refuses,
    };
    plain(&rt, alloc, structy, OUT)?;
    // by the order of the calls, not of the names; and a value that would be replaced is refused all the same
    let out_of_order = Fields {
        names: ("b", "a"),
        first: Refuses,
        second: u128::MAX,
    };
    plain(&rt, alloc, out_of_order, "no")?;
    let twice = Fields {
        names: ("a", "a"),
        first: Refuses,
        second: 1_u8,
    };
    plain(&rt, alloc, twice, "no")
}

#[test]
fn what_has_no_text_is_no_key(rt: HostRuntime) -> Result<(), Fail> {
    let alloc = rt.alloc();
    let mut lists: BTreeMap<Vec<u8>, u8> = BTreeMap::new(alloc);
    lists.insert(vec![in alloc; 1_u8]?, 1)?;
    plain(&rt, alloc, lists, NO_KEY)?;
    let mut units: BTreeMap<Nothing, u8> = BTreeMap::new(alloc);
    units.insert(Nothing, 1)?;
    plain(&rt, alloc, units, NO_KEY)?;
    let mut variants: BTreeMap<Newtype<u8>, u8> = BTreeMap::new(alloc);
    variants.insert(Newtype(1), 1)?;
    plain(&rt, alloc, variants, NO_KEY)
}

#[test]
fn in_a_pair_the_key_comes_first(rt: HostRuntime) -> Result<(), Fail> {
    let alloc = rt.alloc();
    let mut no_keys: BTreeMap<Nothing, Refuses> = BTreeMap::new(alloc);
    no_keys.insert(Nothing, Refuses)?;
    plain(&rt, alloc, no_keys, NO_KEY)?;
    let mut refused: BTreeMap<Refuses, u128> = BTreeMap::new(alloc);
    refused.insert(Refuses, u128::MAX)?;
    plain(&rt, alloc, refused, "no")?;
    let mut values: BTreeMap<u8, u128> = BTreeMap::new(alloc);
    values.insert(1, u128::MAX)?;
    plain(&rt, alloc, values, OUT)
}
