use super::kinds::{Nothing, Unit, Wrapped};
use super::plain;
use dynamo_ser::{BinarySet, NumberSet, StringSet};
use dynamo_value::{ByteBuf, Bytes, Text};
use std::test::Fail;

#[test]
fn integers_are_numbers(rt: HostRuntime) -> Result<(), Fail> {
    let alloc = rt.alloc();
    plain(&rt, alloc, i8::MIN, "-128")?;
    plain(&rt, alloc, i16::MIN, "-32768")?;
    plain(&rt, alloc, i32::MIN, "-2147483648")?;
    plain(&rt, alloc, i64::MIN, "-9223372036854775808")?;
    plain(&rt, alloc, i64::MAX, "9223372036854775807")?;
    plain(&rt, alloc, u8::MAX, "255")?;
    plain(&rt, alloc, u16::MAX, "65535")?;
    plain(&rt, alloc, u32::MAX, "4294967295")?;
    plain(&rt, alloc, u64::MAX, "18446744073709551615")?;
    plain(&rt, alloc, 0_u8, "0")
}

#[test]
fn wide_integers_are_numbers_where_64_bits_hold_them(rt: HostRuntime) -> Result<(), Fail> {
    let alloc = rt.alloc();
    let out = "number out of range";
    plain(&rt, alloc, 5_i128, "5")?;
    plain(&rt, alloc, -5_i128, "-5")?;
    plain(
        &rt,
        alloc,
        -9223372036854775808_i128,
        "-9223372036854775808",
    )?;
    plain(&rt, alloc, -9223372036854775809_i128, out)?;
    plain(
        &rt,
        alloc,
        18446744073709551615_i128,
        "18446744073709551615",
    )?;
    plain(&rt, alloc, 18446744073709551616_i128, out)?;
    plain(&rt, alloc, i128::MIN, out)?;
    plain(&rt, alloc, i128::MAX, out)?;
    plain(
        &rt,
        alloc,
        18446744073709551615_u128,
        "18446744073709551615",
    )?;
    plain(&rt, alloc, 18446744073709551616_u128, out)?;
    plain(&rt, alloc, u128::MAX, out)
}

#[test]
fn other_scalars_are_themselves(rt: HostRuntime) -> Result<(), Fail> {
    let alloc = rt.alloc();
    plain(&rt, alloc, true, "true")?;
    plain(&rt, alloc, false, "false")?;
    plain(&rt, alloc, 'a', r#""a""#)?;
    plain(&rt, alloc, '\u{1F973}', "\"\u{1F973}\"")?;
    plain(&rt, alloc, Text::new("a \"b\"\n"), r#""a \"b\"\n""#)?;
    plain(&rt, alloc, String::from_str(alloc, "1")?, r#""1""#)?;
    plain(&rt, alloc, Unit, r#""Unit""#)
}

#[test]
fn byte_strings_are_arrays_of_numbers(rt: HostRuntime) -> Result<(), Fail> {
    let alloc = rt.alloc();
    plain(&rt, alloc, Bytes::new(&[]), "[]")?;
    plain(
        &rt,
        alloc,
        Bytes::new(&[0, 127, 128, 255]),
        "[0,127,128,255]",
    )?;
    plain(&rt, alloc, ByteBuf::from(vec![in alloc; 1_u8, 2]?), "[1,2]")
}

#[test]
fn what_holds_nothing_is_null(rt: HostRuntime) -> Result<(), Fail> {
    let alloc = rt.alloc();
    plain(&rt, alloc, (), "null")?;
    plain(&rt, alloc, Nothing, "null")?;
    plain(&rt, alloc, Option::<u8>::None, "null")?;
    plain(&rt, alloc, Some(Option::<u8>::None), "null")
}

#[test]
fn options_newtypes_and_boxes_are_their_content(rt: HostRuntime) -> Result<(), Fail> {
    let alloc = rt.alloc();
    plain(&rt, alloc, Some(1_u8), "1")?;
    plain(&rt, alloc, Wrapped(1_u8), "1")?;
    plain(&rt, alloc, Wrapped(Some(Unit)), r#""Unit""#)?;
    plain(&rt, alloc, Box::new(alloc, 1_u8)?, "1")?;
    plain(&rt, alloc, &1_u8, "1")
}

// A newtype struct that is named by the symbol of a kind of sets is a newtype struct like any other.
#[test]
fn sets_are_their_content(rt: HostRuntime) -> Result<(), Fail> {
    let alloc = rt.alloc();
    plain(
        &rt,
        alloc,
        StringSet(vec![in alloc; 'b', 'a', 'a']?),
        r#"["b","a","a"]"#,
    )?;
    plain(&rt, alloc, NumberSet(vec![in alloc; 2_u8, 1]?), "[2,1]")?;
    plain(
        &rt,
        alloc,
        BinarySet(vec![in alloc; Bytes::new(&[1])]?),
        "[[1]]",
    )?;
    plain(&rt, alloc, StringSet(5_u8), "5")?;
    plain(&rt, alloc, NumberSet('x'), r#""x""#)
}
