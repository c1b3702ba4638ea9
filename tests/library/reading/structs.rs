//! Structs are read from maps by the names of their fields, and from lists in their order.

/// Structs without named fields.
pub(crate) const FORMS: &str = r#"UnitStruct
  Null(true) = UnitStruct
  Null(false) = Expected unit struct
  S "UnitStruct" = Expected unit struct
  M {} = Expected unit struct

# A newtype reads from what its content reads from.
Count<i64> and Count<u8>
  N "1" = Count(1)

Count<u8>
  N "256" = Failed to parse '256' as an integer: ..

Count<i64>
  S "1" = Expected num

Option<Count<i64>>
  N "1" = Some(Count(1))

Vec<Count<i64>>
  L [N "1"] = [Count(1)]

# The elements of a set show no newtype: such a set is written, and is not read. So its shape is not clear.
Vec<Count<i64>>
  Ns ["1"] = a message

Vec<Name>
  Bs [[97]] = a message
  Ss ["a"] = a message

# A tuple struct reads its first elements.
Point
  L [N "1", N "2"] = Point(1, 2)
  L [N "1"] = a message
  L [N "1", N "2", N "3"] = Point(1, 2)
  L [N "1", S "2"] = Expected num
  N "1" = Expected seq"#;

pub(crate) const USERS: &str = r#"User
  M {"age": N "7", "id": S "a", "name": S "b"} = User { id: "a", name: "b", age: 7 }
  M {"": L [N "1"], "age": N "7", "id": S "a", "name": S "b", "z": Null(true)} = User { id: "a", name: "b", age: 7 }
  M {"id": S "a", "name": S "b"} = a message
  M {} = a message
  M {"age": N "256", "id": S "a", "name": S "b"} = Failed to parse '256' as an integer: ..
# In order nothing may be missing.
  L [S "a", S "b", N "7"] = User { id: "a", name: "b", age: 7 }
  L [S "a", S "b", N "7", Null(false)] = User { id: "a", name: "b", age: 7 }
  L [S "a", S "b"] = a message
  L [] = a message
  L [S "a", N "7"] = Expected string
# Nothing else.
  Ss ["a"] = Expected map
  Ns ["1"] = Expected map
  Bs [[1]] = Expected map
  N "1" = Expected map
  S "a" = Expected map
  Bool(true) = Expected map
  Null(true) = Expected map
  Null(false) = Expected map
  B [1] = Expected map
# The first faulty field is the fault. One that is ignored is read in its place, and one that is missing comes last.
  M {"age": S "1", "id": N "2", "name": S "n"} = Expected num
  M {"aa": Null(false), "age": S "1", "id": S "x", "name": S "n"} = Expected unit
  M {"age": N "1", "z": Null(false)} = Expected unit"#;

pub(crate) const SETS: &str = r#"Sets
  M {"blobs": Bs [[1]], "names": Ss ["a"], "numbers": Ns ["1"], "other": Bs []} = Sets { names: ["a"], numbers: [1], blobs: [ByteBuf { bytes: [1] }] }
  L [L [S "a"], L [N "1"], L [B [1]]] = Sets { names: ["a"], numbers: [1], blobs: [ByteBuf { bytes: [1] }] }
  L [L [S "a"], L [N "1"]] = a message
  M {"blobs": Bs [], "names": Ss []} = a message"#;

/// A reading that is missing is none and a name that is missing is refused; in order nothing may be missing.
pub(crate) const STATIONS: &str = r#"Station
  M {"id": S "a"} = Station { id: "a", reading: None }
  M {"id": S "a", "other": N "1"} = Station { id: "a", reading: None }
  M {"reading": N "7"} = a message
  M {"id": S "a", "reading": S "7"} = Expected num
  L [S "a", N "7"] = Station { id: "a", reading: Some(7) }
  L [S "a", Null(true)] = Station { id: "a", reading: None }
  L [S "a"] = a message

# So it is with a struct that is read by hand.
Gauge
  M {"id": S "a"} = Gauge { id: "a", reading: None }
  M {"id": S "a", "other": N "1"} = Gauge { id: "a", reading: None }
  M {"reading": N "7"} = a message
  M {"id": S "a", "reading": S "7"} = Expected num
  L [S "a", N "7"] = Gauge { id: "a", reading: Some(7) }
  L [S "a"] = a message

Valued
  M {"value": S "Value"} = Valued { value: "Value" }
  M {} = a message

Vec<Valued>
  L [M {"value": S "Value 1"}, M {"value": S "Value 2"}, M {"value": S "Value 3"}] = [Valued { value: "Value 1" }, Valued { value: "Value 2" }, Valued { value: "Value 3" }]"#;

pub(crate) const NAMED: &str = r#"Named
  M {"id": S "a", "note": S "b", "value": N "1"} = Named { id: "a", value: 1, note: Some("b") }
  L [S "a", N "1", S "b"] = Named { id: "a", value: 1, note: Some("b") }
  M {"id": S "a", "note": Null(true), "value": N "1"} = Named { id: "a", value: 1, note: None }
  M {"id": S "a", "value": N "1"} = Named { id: "a", value: 1, note: None }
  M {"id": S "a"} = a message
  L [S "a", N "1"] = a message
  M {"id": S "a", "value": S "1"} = Expected num
  Ss ["a"] = Expected map

Vec<Named>
  L [M {"id": S "a", "value": N "1"}, L [S "b", N "2", Null(true)]] = [Named { id: "a", value: 1, note: None }, Named { id: "b", value: 2, note: None }]

# A fault comes in the order of the keys.
Named
  M {"a": Null(false), "id": N "1", "value": N "x"} = Expected unit
  M {"id": N "1", "value": N "x", "z": Null(false)} = Expected string
  M {"id": S "a", "value": N "x", "z": Null(false)} = Failed to parse 'x' as an integer: ..
# Several members that are not known.
  M {"id": S "test-4", "value": N "42", "aws:rep:deleting": Bool(false), "aws:rep:updateregion": S "us-west-2", "aws:rep:updatetime": N "1565723640.315001"} = Named { id: "test-4", value: 42, note: None }"#;

/// A type that holds itself, through a box and through a list.
pub(crate) const TREES: &str = r#"Tree
  L [L [N "1", N "18446744073709551615"], N "3"] = Many([Many([Leaf(1), Leaf(18446744073709551615)]), Leaf(3)])
  Ns ["1", "2"] = Many([Leaf(1), Leaf(2)])
  L [L [N "-1"]] = a message
  L [Null(false)] = Expected unit"#;
