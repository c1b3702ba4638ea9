//! What is stored reads back: the attribute value, its JSON, and the value again.
use crate::fixtures::answers::{answers, is, shows};
use crate::fixtures::at_type::Way;
use crate::fixtures::notation;
use crate::fixtures::types::holds;
use example_types::at_shapes::read_twice;
use serde_dynamo::{Shaped, reread};
use std::alloc::Global;
use std::collections::HashMap;
use std::fmt::Debug;
use std::process::Abort;
use std::test::Fail;

const LIBRARY: &str = r#"u128
  340282366920938463463374607431768211455 = N "340282366920938463463374607431768211455" | {"N":"340282366920938463463374607431768211455"}

bool
  false = Bool(false)

i8
  -128 = N "-128"

i16
  -32768 = N "-32768"

i32
  -2147483648 = N "-2147483648"

i64
  -9223372036854775808 = N "-9223372036854775808"

i128
  -170141183460469231731687303715884105728 = N "-170141183460469231731687303715884105728"

u8
  255 = N "255"

u16
  65535 = N "65535"

u32
  4294967295 = N "4294967295"

u64
  18446744073709551615 = N "18446744073709551615"

char
  '🥳' = S "🥳"

String
  "Arthur Dent" = S "Arthur Dent"

ByteBuf
  ByteBuf { bytes: [0, 255] } = B [0, 255]

()
  () = Null(true)

Option<u8>
  Some(5) = N "5"

Option<Option<u8>>
  Some(Some(1)) = N "1" | {"N":"1"}

Box<u8>
  5 = N "5"

Vec<bool>
  [true, false] = L [Bool(true), Bool(false)]

(u8, bool)
  (1, true) = L [N "1", Bool(true)]

(u8, bool, char)
  (1, true, 'a') = L [N "1", Bool(true), S "a"]

(u8, bool, char, ())
  (1, true, 'a', ()) = L [N "1", Bool(true), S "a", Null(true)]

BTreeMap<i16, char>
  {-10: 'a', 9: '🥳'} = M {"-10": S "a", "9": S "🥳"}"#;

const OWN_TYPES: &str = r#"Count<i64>
  Count(-5) = N "-5"

Count<u8>
  Count(255) = N "255"

Point
  Point(1, 2) = L [N "1", N "2"] | {"L":[{"N":"1"},{"N":"2"}]}

Station
  Station { id: "st-7", reading: Some(7) } = M {"id": S "st-7", "reading": N "7"} | {"M":{"id":{"S":"st-7"},"reading":{"N":"7"}}}
  Station { id: "st-8", reading: None } = M {"id": S "st-8", "reading": Null(true)} | {"M":{"id":{"S":"st-8"},"reading":{"NULL":true}}}

Gauge
  Gauge { id: "st-7", reading: Some(7) } = M {"id": S "st-7", "reading": N "7"} | {"M":{"id":{"S":"st-7"},"reading":{"N":"7"}}}

User
  User { id: "x", name: "Arthur Dent", age: 42 } = M {"age": N "42", "id": S "x", "name": S "Arthur Dent"} | {"M":{"age":{"N":"42"},"id":{"S":"x"},"name":{"S":"Arthur Dent"}}}

Event
  Structy { one: 1, two: 2 } = M {"Structy": M {"one": N "1", "two": N "2"}} | {"M":{"Structy":{"M":{"one":{"N":"1"},"two":{"N":"2"}}}}}
  Unit = S "Unit"
  Newtype(255) = M {"Newtype": N "255"}
  Tuple(0, 7) = M {"Tuple": L [N "0", N "7"]}

Sets
  Sets { names: ["John", "Jane"], numbers: [14, 25, 32], blobs: [ByteBuf { bytes: [104, 101, 108, 108, 111] }, ByteBuf { bytes: [119, 111, 114, 108, 100] }] } = M {"blobs": Bs [[104, 101, 108, 108, 111], [119, 111, 114, 108, 100]], "names": Ss ["John", "Jane"], "numbers": Ns ["14", "25", "32"]} | {"M":{"blobs":{"BS":["aGVsbG8=","d29ybGQ="]},"names":{"SS":["John","Jane"]},"numbers":{"NS":["14","25","32"]}}}"#;

#[test]
fn each_shape_is_reread(rt: HostRuntime) -> Result<(), Fail> {
    let alloc = rt.alloc();
    holds(&rt, alloc, Way::Rereads, LIBRARY, 23)?;
    holds(&rt, alloc, Way::Rereads, OWN_TYPES, 12)
}

#[test]
fn a_hashed_map_is_reread(rt: HostRuntime) -> Result<(), Fail> {
    let alloc = rt.alloc();
    let mut map = HashMap::new(alloc);
    drop(map.insert(1_u8, None)?);
    drop(map.insert(2_u8, Some(true))?);
    let (written, _, read) = reread(alloc, &map)?;
    let expected = r#"M {"1": Null(true), "2": Bool(true)}"#;
    shows(&rt, alloc, &written, expected)?;
    assert!(rt; read == map);
    Ok(())
}

#[test]
fn an_option_of_an_option_loses_the_inner_none(rt: HostRuntime) -> Result<(), Fail> {
    let alloc = rt.alloc();
    let some_none: Option<Option<u8>> = Some(None);
    let (written, json, read) = reread(alloc, &some_none)?;
    let told = format!(in alloc; "{written:?} {json} {read:?}")?;
    is(&rt, told.as_str(), r#"Null(true) {"NULL":true} None"#);
    Ok(())
}

// Two reads of the attribute value of this text answer so.
fn reads_twice<T: Shaped + Debug>(
    rt: &impl Abort,
    alloc: Global,
    source: &str,
    expected: &str,
) -> Result<(), Fail> {
    let first = notation::value(alloc, source)?;
    let second = notation::value(alloc, source)?;
    let (one, other) = read_twice::<T>(alloc, first, second);
    answers(rt, alloc, one, expected)?;
    Ok(answers(rt, alloc, other, expected)?)
}

#[test]
fn two_reads_answer_the_same(rt: HostRuntime) -> Result<(), Fail> {
    let alloc = rt.alloc();
    let equal_keys = r#"M {"01": N "7", "1": N "8"}"#;
    reads_twice::<HashMap<u8, u8>>(&rt, alloc, equal_keys, "{1: 8}")?;
    let no_number = r#"M {"1": S "7"}"#;
    reads_twice::<HashMap<u8, u8>>(&rt, alloc, no_number, "Expected num")
}
