//! An enum is read from the text of a unit variant, or from a map of one key, the variant's name.

pub(crate) const EVENTS: &str = r#"Event
  M {"Tuple": L [N "1", N "2"]} = Tuple(1, 2)
  M {"Tuple": Ns ["1", "2", "3"]} = Tuple(1, 2)
  M {"Structy": M {"one": N "1", "other": S "a", "two": N "2"}} = Structy { one: 1, two: 2 }
# A unit variant takes any content, unread.
  M {"Unit": N "x"} = Unit
  M {"Unit": Null(false)} = Unit
# What names no single variant.
  M {} = Expected an item with a single key
  M {"Newtype": N "5", "Unit": Null(true)} = Expected an item with a single key
  N "1" = Expected enum
  L [S "Unit"] = Expected enum
  Ss ["Unit"] = Expected enum
  Null(true) = Expected enum
  S "Other" = a message
  S "unit" = a message
  M {"Other": N "1"} = a message
# A variant reads its own content.
  S "Newtype" = a message
  S "Tuple" = a message
  S "Structy" = a message
  M {"Newtype": S "5"} = Expected num
  M {"Newtype": N "256"} = Failed to parse '256' as an integer: ..
  M {"Tuple": S "a"} = Expected seq
  M {"Tuple": L [N "1"]} = a message
  M {"Tuple": M {}} = Expected seq
  M {"Structy": L [N "1", N "2"]} = Expected map
  M {"Structy": M {"one": N "1"}} = a message
  M {"Structy": M {"a": Null(false), "one": S "1"}} = Expected unit"#;
