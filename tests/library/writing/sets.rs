//! Lists write as sets of the three kinds where they are asked to, and are read from them.
use crate::fixtures::answers::{answer, tells};
use crate::fixtures::refuses::Refuses;
use crate::fixtures::rows::{Row, counted};
use crate::fixtures::writes::writes_directly;
use crate::fixtures::{notation, show};
use example_types::forms::Name;
use serde_dynamo::de::Deserialize;
use serde_dynamo::ser::Serialize;
use serde_dynamo::{
    AttributeValue, BinarySet, ByteBuf, Deserializer, NumberSet, Result, Serializer, StringSet,
    binary_set, from_attribute_value, number_set, string_set, to_attribute_value,
};
use std::alloc::Global;
use std::fmt::Debug;
use std::test::Fail;

// What a test answers.
type Checked<T> = std::result::Result<T, Fail>;

// The value of the head's type that reads from the left writes as the right where the head's set holds it. The sets are
// beside the calls that write them, too.
const WRITTEN: &str = r#"StringSet of Vec<String>
  L [S "a", S "a"] = Ss ["a", "a"]
  L [] = Ss []

NumberSet of Vec<u8>
  L [N "85", N "99"] = Ns ["85", "99"]

NumberSet of Vec<u128>
  L [N "18446744073709551616"] = Ns ["18446744073709551616"]

BinarySet of Vec<ByteBuf>
  L [B [116, 101, 115, 116], B [116, 101, 115, 116, 50]] = Bs [[116, 101, 115, 116], [116, 101, 115, 116, 50]]

string_set::StringSet of Vec<String>
  L [S "a"] = Ss ["a"]

number_set::NumberSet of Vec<u8>
  L [N "1"] = Ns ["1"]

binary_set::BinarySet of Vec<ByteBuf>
  L [B [97]] = Bs [[97]]

# The functions of the modules write them too.
string_set::serialize of Vec<Name>
  L [S "a"] = Ss ["a"]

StringSet of Vec<Name>
  L [S "a"] = Ss ["a"]

number_set::serialize of Vec<u8>
  L [N "1"] = Ns ["1"]

binary_set::serialize of Vec<ByteBuf>
  L [B [1]] = Bs [[1]]

# What is no list is no set.
StringSet of u8
  N "5" = Not a set-like sequence

NumberSet of u8
  N "5" = Not a set-like sequence

BinarySet of u8
  N "5" = Not a set-like sequence

# Elements of another kind.
StringSet of Vec<u8>
  L [N "1"] = String set element does not serialize to string

StringSet of (String, u8)
  L [S "x", N "1"] = String set element does not serialize to string

NumberSet of Vec<String>
  L [S "x"] = Number set element does not serialize to number

NumberSet of (u8, bool)
  L [N "1", Bool(true)] = Number set element does not serialize to number

BinarySet of Vec<String>
  L [S "x"] = Binary set element does not serialize to binary

BinarySet of Vec<Vec<u8>>
  L [L [N "1"]] = Binary set element does not serialize to binary"#;

// What the functions of the modules read.
const READ: &str = r#"strings
  Ss ["a", "b"] = ["a", "b"]
  L [S "a", S "b"] = ["a", "b"]

numbers
  Ns ["1", "2"] = [1, 2]
  L [N "1", N "2"] = [1, 2]
  Ns ["1", "256"] = Failed to parse '256' as an integer: ..

byte strings
  Bs [[1], []] = [ByteBuf { bytes: [1] }, ByteBuf { bytes: [] }]
  L [B [1], B []] = [ByteBuf { bytes: [1] }, ByteBuf { bytes: [] }]"#;

// What the value writes as where it is asked for as a set of strings.
fn of_strings<T: Serialize + Drop>(alloc: Global, set: &str, value: T) -> Result<AttributeValue> {
    match set {
        "StringSet" => to_attribute_value(alloc, StringSet(value)),
        "string_set::StringSet" => to_attribute_value(alloc, string_set::StringSet(value)),
        _ => string_set::serialize(&value, Serializer::new(alloc)),
    }
}

// So it is with a set of numbers,
fn of_numbers<T: Serialize + Drop>(alloc: Global, set: &str, value: T) -> Result<AttributeValue> {
    match set {
        "NumberSet" => to_attribute_value(alloc, NumberSet(value)),
        "number_set::NumberSet" => to_attribute_value(alloc, number_set::NumberSet(value)),
        _ => number_set::serialize(&value, Serializer::new(alloc)),
    }
}

// and with a set of byte strings.
fn of_blobs<T: Serialize + Drop>(alloc: Global, set: &str, value: T) -> Result<AttributeValue> {
    match set {
        "BinarySet" => to_attribute_value(alloc, BinarySet(value)),
        "binary_set::BinarySet" => to_attribute_value(alloc, binary_set::BinarySet(value)),
        _ => binary_set::serialize(&value, Serializer::new(alloc)),
    }
}

// What the set of this value writes as.
fn written<T: Serialize + Deserialize>(alloc: Global, set: &str, row: Row<'_>) -> Checked<String> {
    let value: T = from_attribute_value(alloc, notation::value(alloc, row.left)?)?;
    let written = if set.starts_with('S') || set.starts_with('s') {
        of_strings(alloc, set, value)
    } else if set.starts_with('N') || set.starts_with('n') {
        of_numbers(alloc, set, value)
    } else {
        of_blobs(alloc, set, value)
    };
    Ok(show::answer(alloc, &written)?)
}

// What the set of the head's value writes as.
fn written_at(alloc: Global, row: Row<'_>) -> Checked<String> {
    let (set, kind) = row.head.split_once(" of ").ok_or("no set")?;
    match kind {
        "u8" => written::<u8>(alloc, set, row),
        "Vec<u8>" => written::<Vec<u8>>(alloc, set, row),
        "Vec<u128>" => written::<Vec<u128>>(alloc, set, row),
        "Vec<String>" => written::<Vec<String>>(alloc, set, row),
        "Vec<Name>" => written::<Vec<Name>>(alloc, set, row),
        "Vec<ByteBuf>" => written::<Vec<ByteBuf>>(alloc, set, row),
        "Vec<Vec<u8>>" => written::<Vec<Vec<u8>>>(alloc, set, row),
        "(String, u8)" => written::<(String, u8)>(alloc, set, row),
        "(u8, bool)" => written::<(u8, bool)>(alloc, set, row),
        _ => Err(Fail::from("no type of this name")),
    }
}

// What the functions of the head's module read.
fn read_at(alloc: Global, row: Row<'_>) -> Checked<String> {
    let value = notation::value(alloc, row.left)?;
    let reader = Deserializer::from_attribute_value(alloc, value);
    match row.head {
        "strings" => told::<Vec<String>>(alloc, string_set::deserialize(alloc, reader)),
        "numbers" => told::<Vec<u8>>(alloc, number_set::deserialize(alloc, reader)),
        _ => told::<Vec<ByteBuf>>(alloc, binary_set::deserialize(alloc, reader)),
    }
}

fn told<T: Debug + Drop>(alloc: Global, read: Result<T>) -> Checked<String> {
    Ok(answer(alloc, &read)?)
}

#[test]
fn values_write_as_sets(rt: HostRuntime) -> Checked<()> {
    let alloc = rt.alloc();
    for row in counted(alloc, WRITTEN, 21)? {
        tells(
            &rt,
            row.left,
            row.head,
            written_at(alloc, row)?.as_str(),
            row.right,
        );
    }
    Ok(())
}

#[test]
fn sets_read_by_the_functions_of_their_modules(rt: HostRuntime) -> Checked<()> {
    let alloc = rt.alloc();
    for row in counted(alloc, READ, 7)? {
        tells(
            &rt,
            row.left,
            row.head,
            read_at(alloc, row)?.as_str(),
            row.right,
        );
    }
    Ok(())
}

#[test]
fn a_set_is_no_set_of_another(rt: HostRuntime) -> Checked<()> {
    let alloc = rt.alloc();
    let nothing: Vec<String> = Vec::new(alloc);
    let twice = StringSet(StringSet(nothing));
    writes_directly(&rt, alloc, twice, "Not a set-like sequence")?;
    writes_directly(&rt, alloc, StringSet(Refuses), "no")
}

#[test]
fn the_symbols_differ(rt: HostRuntime) {
    assert!(rt; string_set::NEWTYPE_SYMBOL != number_set::NEWTYPE_SYMBOL);
    assert!(rt; string_set::NEWTYPE_SYMBOL != binary_set::NEWTYPE_SYMBOL);
    assert!(rt; number_set::NEWTYPE_SYMBOL != binary_set::NEWTYPE_SYMBOL);
}
