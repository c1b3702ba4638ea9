use super::kinds::{Both, Fields, Newtype, Nothing, Structy, Tuple, Unit, Wrapped};
use super::plain;
use std::collections::{BTreeMap, HashMap};
use std::test::Fail;

#[test]
fn lists_are_arrays(rt: HostRuntime) -> Result<(), Fail> {
    let alloc = rt.alloc();
    plain(&rt, alloc, Vec::<u8>::new(alloc), "[]")?;
    plain(&rt, alloc, vec![in alloc; 1_u8, 2]?, "[1,2]")?;
    plain(&rt, alloc, vec![in alloc; Some(1_u8), None]?, "[1,null]")?;
    plain(&rt, alloc, (1_u8, 'a'), r#"[1,"a"]"#)?;
    plain(&rt, alloc, (1_u8, (), true), "[1,null,true]")?;
    plain(&rt, alloc, (1_u8, 2_u8, 3_u8, 4_u8), "[1,2,3,4]")?;
    plain(&rt, alloc, Both(1_u8, Both(2_u8, 3_u8)), "[1,[2,3]]")
}

// The forms of an enum, as serde_json writes them by default.
#[test]
fn variants_with_content_are_objects_of_one_member(rt: HostRuntime) -> Result<(), Fail> {
    let alloc = rt.alloc();
    plain(&rt, alloc, Newtype(5_u8), r#"{"Newtype":5}"#)?;
    plain(&rt, alloc, Newtype(()), r#"{"Newtype":null}"#)?;
    plain(&rt, alloc, Tuple(1_u8, 2_u8), r#"{"Tuple":[1,2]}"#)?;
    let structy = Structy {
        one: 1_u8,
        two: 2_u8,
    };
    plain(&rt, alloc, structy, r#"{"Structy":{"one":1,"two":2}}"#)?;
    plain(
        &rt,
        alloc,
        Newtype(Newtype(Unit)),
        r#"{"Newtype":{"Newtype":"Unit"}}"#,
    )
}

#[test]
fn structs_are_objects_by_their_names(rt: HostRuntime) -> Result<(), Fail> {
    let alloc = rt.alloc();
    let out_of_order = Fields {
        names: ("b", "a"),
        first: 1_u8,
        second: 'x',
    };
    plain(&rt, alloc, out_of_order, r#"{"a":"x","b":1}"#)?;
    let twice = Fields {
        names: ("a", "a"),
        first: 1_u8,
        second: 2_u8,
    };
    plain(&rt, alloc, twice, r#"{"a":2}"#)
}

#[test]
fn maps_are_objects_by_the_texts_of_their_keys(rt: HostRuntime) -> Result<(), Fail> {
    let alloc = rt.alloc();
    plain(&rt, alloc, HashMap::<u8, u8>::new(alloc), "{}")?;
    let mut sorted: BTreeMap<u8, u8> = BTreeMap::new(alloc);
    sorted.insert(9, 1)?;
    sorted.insert(10, 2)?;
    plain(&rt, alloc, sorted, r#"{"10":2,"9":1}"#)?;
    let mut hashed: HashMap<Wrapped<char>, Option<bool>> = HashMap::new(alloc);
    hashed.insert(Wrapped('b'), None)?;
    hashed.insert(Wrapped('a'), Some(true))?;
    plain(&rt, alloc, hashed, r#"{"a":true,"b":null}"#)
}

#[test]
fn keys_are_texts(rt: HostRuntime) -> Result<(), Fail> {
    let alloc = rt.alloc();
    let mut bools: BTreeMap<bool, Nothing> = BTreeMap::new(alloc);
    bools.insert(true, Nothing)?;
    bools.insert(false, Nothing)?;
    plain(&rt, alloc, bools, r#"{"false":null,"true":null}"#)?;
    let mut units: BTreeMap<Unit, u8> = BTreeMap::new(alloc);
    units.insert(Unit, 1)?;
    plain(&rt, alloc, units, r#"{"Unit":1}"#)?;
    // a key may be wider than a value
    let mut wide: BTreeMap<i128, u8> = BTreeMap::new(alloc);
    wide.insert(i128::MIN, 1)?;
    plain(
        &rt,
        alloc,
        wide,
        r#"{"-170141183460469231731687303715884105728":1}"#,
    )
}
