use super::kinds::{Both, Fields, Newtype, Nothing, Refuses, Structy, Tuple, Unit, Wrapped};
use dynamo_json::to_attribute_value_via_json;
use dynamo_ser::{NumberSet, Serialize, StringSet};
use dynamo_value::{AttributeValue, Bytes, Error, Text};
use dynamo_write::to_attribute_value;
use std::alloc::{AllocError, Global};
use std::collections::BTreeMap;
use std::process::Abort;
use std::test::Fail;

// Directly and by way of JSON the value gives the same attribute value, or is refused by the same fault.
fn agrees<T: Serialize + Drop>(rt: &impl Abort, alloc: Global, value: T) -> Result<(), Fail> {
    match (
        to_attribute_value(alloc, &value),
        to_attribute_value_via_json(alloc, value),
    ) {
        (Ok(directly), Ok(via_json)) => assert!(rt; directly == via_json),
        (Err(directly), Err(via_json)) => assert_eq!(rt; directly, via_json),
        _ => assert!(rt; false, "one is refused"),
    }
    Ok(())
}

// By way of JSON the value gives this attribute value.
fn gives<T: Serialize + Drop>(
    rt: &impl Abort,
    alloc: Global,
    value: T,
    expected: AttributeValue,
) -> Result<(), Fail> {
    assert!(rt; to_attribute_value_via_json(alloc, value)? == expected);
    Ok(())
}

fn number(alloc: Global, text: &str) -> Result<AttributeValue, AllocError> {
    Ok(AttributeValue::N(String::from_str(alloc, text)?))
}

#[test]
fn scalars_agree(rt: HostRuntime) -> Result<(), Fail> {
    let alloc = rt.alloc();
    agrees(&rt, alloc, true)?;
    agrees(&rt, alloc, i64::MIN)?;
    agrees(&rt, alloc, u64::MAX)?;
    agrees(&rt, alloc, 5_i128)?;
    agrees(&rt, alloc, -9223372036854775808_i128)?;
    agrees(&rt, alloc, 18446744073709551615_u128)?;
    agrees(&rt, alloc, '\u{1F973}')?;
    agrees(&rt, alloc, Text::new(""))?;
    agrees(&rt, alloc, ())?;
    agrees(&rt, alloc, Nothing)?;
    agrees(&rt, alloc, Unit)?;
    agrees(&rt, alloc, Some(Option::<u8>::None))?;
    agrees(&rt, alloc, Wrapped(Some(1_u8)))
}

#[test]
fn lists_and_maps_agree(rt: HostRuntime) -> Result<(), Fail> {
    let alloc = rt.alloc();
    agrees(&rt, alloc, vec![in alloc; Some('a'), None]?)?;
    agrees(&rt, alloc, (1_u8, Both('b', false), ()))?;
    agrees(&rt, alloc, Newtype(5_u8))?;
    agrees(&rt, alloc, Tuple(1_u8, Newtype('c')))?;
    agrees(
        &rt,
        alloc,
        Structy {
            one: 1_u8,
            two: Unit,
        },
    )?;
    let twice = Fields {
        names: ("a", "a"),
        first: 1_u8,
        second: 2_u8,
    };
    agrees(&rt, alloc, twice)?;
    let mut wide: BTreeMap<u128, u8> = BTreeMap::new(alloc);
    wide.insert(u128::MAX, 1)?;
    wide.insert(1, 2)?;
    agrees(&rt, alloc, wide)
}

#[test]
fn refusals_agree(rt: HostRuntime) -> Result<(), Fail> {
    let alloc = rt.alloc();
    agrees(&rt, alloc, Refuses)?;
    agrees(&rt, alloc, (1_u8, Newtype(Refuses)))?;
    let mut lists: BTreeMap<Vec<u8>, Refuses> = BTreeMap::new(alloc);
    lists.insert(vec![in alloc; 1_u8]?, Refuses)?;
    agrees(&rt, alloc, lists)
}

#[test]
fn byte_strings_and_sets_become_lists(rt: HostRuntime) -> Result<(), Fail> {
    let alloc = rt.alloc();
    let numbers = AttributeValue::L(vec![in alloc; number(alloc, "1")?, number(alloc, "2")?]?);
    gives(&rt, alloc, Bytes::new(&[1, 2]), numbers)?;
    let a = AttributeValue::S(String::from_str(alloc, "a")?);
    gives(
        &rt,
        alloc,
        StringSet(vec![in alloc; 'a']?),
        AttributeValue::L(vec![in alloc; a]?),
    )?;
    gives(&rt, alloc, NumberSet(5_u8), number(alloc, "5")?)
}

#[test]
fn integers_that_no_64_bits_hold_are_refused(rt: HostRuntime) -> Result<(), Fail> {
    let alloc = rt.alloc();
    let refusals = [
        to_attribute_value_via_json(alloc, u128::MAX),
        to_attribute_value_via_json(alloc, -9223372036854775809_i128),
        to_attribute_value_via_json(alloc, vec![in alloc; i128::MIN]?),
    ];
    for refusal in refusals {
        let error: Option<Error> = refusal.err();
        let text = format!(in alloc; "{}", error.ok_or("not refused")?)?;
        assert_eq!(rt; text.as_str(), "number out of range");
    }
    Ok(())
}
