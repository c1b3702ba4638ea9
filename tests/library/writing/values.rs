//! Values that write as an attribute value and read back from it.

pub(crate) const SCALARS: &str = r#"i8
  -128 = N "-128"
  127 = N "127"

i16
  -32768 = N "-32768"
  32767 = N "32767"

i32
  -2147483648 = N "-2147483648"
  2147483647 = N "2147483647"

i64
  -9223372036854775808 = N "-9223372036854775808"
  9223372036854775807 = N "9223372036854775807"

i128
  5 = N "5"

u8
  255 = N "255"
  0 = N "0"

u16
  65535 = N "65535"

u32
  4294967295 = N "4294967295"

u64
  18446744073709551615 = N "18446744073709551615"

bool
  true = Bool(true)
  false = Bool(false)

char
  'a' = S "a"
  '🥳' = S "🥳"

String
  "Arthur Dent" = S "Arthur Dent"

()
  () = Null(true)

UnitStruct
  UnitStruct = Null(true)

Option<u8>
  None = Null(true)
  Some(1) = N "1"

Option<String>
  Some("") = S ""

Box<u8>
  7 = N "7"

Name
  Name("one") = S "one"

Count<i64>
  Count(5) = N "5""#;

/// What plain JSON doesn't hold: integers that no 64 bits hold, byte strings and sets.
pub(crate) const DIRECTLY: &str = r#"i128
  -170141183460469231731687303715884105728 = N "-170141183460469231731687303715884105728"
  170141183460469231731687303715884105727 = N "170141183460469231731687303715884105727"

u128
  340282366920938463463374607431768211455 = N "340282366920938463463374607431768211455"

ByteBuf
  ByteBuf { bytes: [116, 101, 115, 116, 0, 0, 0, 0] } = B [116, 101, 115, 116, 0, 0, 0, 0]

Sets
  Sets { names: ["John", "Jane"], numbers: [14, 25, 32], blobs: [ByteBuf { bytes: [104, 101, 108, 108, 111] }, ByteBuf { bytes: [119, 111, 114, 108, 100] }] } = M {"blobs": Bs [[104, 101, 108, 108, 111], [119, 111, 114, 108, 100]], "names": Ss ["John", "Jane"], "numbers": Ns ["14", "25", "32"]}"#;

pub(crate) const LISTS: &str = r#"Vec<String>
  ["one", "two"] = L [S "one", S "two"]

Vec<Name>
  [Name("a")] = L [S "a"]

Vec<u8>
  [] = L []

(String, String)
  ("one", "two") = L [S "one", S "two"]

(u8, i64)
  (1, 2) = L [N "1", N "2"]

(u8, i64, bool)
  (1, 2, false) = L [N "1", N "2", Bool(false)]

(u8, i64, bool, char)
  (1, 2, false, 'd') = L [N "1", N "2", Bool(false), S "d"]

(u8, bool, char)
  (1, true, 'c') = L [N "1", Bool(true), S "c"]

(u8, u8, u8, u8)
  (1, 2, 3, 4) = L [N "1", N "2", N "3", N "4"]

Point
  Point(0, 255) = L [N "0", N "255"]"#;

pub(crate) const STRUCTS: &str = r#"User
  User { id: "x", name: "Arthur Dent", age: 42 } = M {"age": N "42", "id": S "x", "name": S "Arthur Dent"}

Event
  Unit = S "Unit"
  Newtype(5) = M {"Newtype": N "5"}
  Tuple(1, 2) = M {"Tuple": L [N "1", N "2"]}
  Structy { one: 1, two: 2 } = M {"Structy": M {"one": N "1", "two": N "2"}}"#;

pub(crate) const MAPS: &str = r#"BTreeMap<String, u8>
  {"one": 1, "two": 2} = M {"one": N "1", "two": N "2"}
  {} = M {}

BTreeMap<u8, Option<bool>>
  {1: None, 2: Some(true)} = M {"1": Null(true), "2": Bool(true)}

# Keys write as texts.
HashMap<bool, u8>
  {true: 1} = M {"true": N "1"}
  {false: 1} = M {"false": N "1"}

HashMap<i8, u8> and HashMap<i32, u8> and HashMap<i64, u8> and HashMap<i128, u8> and HashMap<i16, u8>
  {5: 1} = M {"5": N "1"}

HashMap<i16, u8>
  {-5: 1} = M {"-5": N "1"}

HashMap<i128, u8>
  {-170141183460469231731687303715884105728: 1} = M {"-170141183460469231731687303715884105728": N "1"}

HashMap<u8, u8> and HashMap<u16, u8> and HashMap<u32, u8> and HashMap<u64, u8> and HashMap<u128, u8>
  {5: 1} = M {"5": N "1"}

HashMap<u128, u8>
  {340282366920938463463374607431768211455: 1} = M {"340282366920938463463374607431768211455": N "1"}

HashMap<Count<i64>, u8>
  {Count(5): 1} = M {"5": N "1"}

HashMap<char, u8>
  {'a': 1} = M {"a": N "1"}
  {'🥳': 1} = M {"🥳": N "1"}

HashMap<String, u8>
  {"": 1} = M {"": N "1"}

HashMap<Event, u8>
  {Unit: 1} = M {"Unit": N "1"}

HashMap<Name, u8>
  {Name("one"): 1} = M {"one": N "1"}"#;
