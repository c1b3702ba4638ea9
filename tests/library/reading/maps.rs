//! Maps are read key by key, from maps alone.

pub(crate) const MAPS: &str = r#"BTreeMap<u64, String>
  M {"1": S "one", "2": S "two"} = {1: "one", 2: "two"}

HashMap<u64, String> and BTreeMap<u64, String>
  M {} = {}

BTreeMap<String, BTreeMap<u8, bool>>
  M {"a": M {"1": Bool(true)}, "b": M {}} = {"a": {1: true}, "b": {}}

# Maps alone.
HashMap<String, u8> and BTreeMap<String, u8>
  L [] = Expected map
  Ss [] = Expected map
  Ns [] = Expected map
  Bs [] = Expected map
  Bool(true) = Expected map
  Null(true) = Expected map
  Null(false) = Expected map

HashMap<String, u8>
  N "1" = Expected map
  S "a" = Expected map

# Of texts of one key the greatest stays.
HashMap<u8, u8> and BTreeMap<u8, u8>
  M {"01": N "5", "1": N "6"} = {1: 6}
  M {"+1": N "7", "01": N "5", "1": N "6"} = {1: 6}

HashMap<u8, u8>
  M {"+1": N "7", "01": N "5"} = {1: 5}"#;

pub(crate) const FAULTS: &str = r#"# Keys of another kind.
HashMap<u8, u8>
  M {"x": N "5"} = Expected num
  M {"256": N "5"} = Expected num

HashMap<i128, u8>
  M {"1.5": N "5"} = Expected num

HashMap<bool, u8>
  M {"yes": N "1"} = Expected string

HashMap<char, u8>
  M {"ab": N "1"} = a message
  M {"": N "1"} = a message

HashMap<Count<i64>, u8>
  M {"x": N "1"} = Expected num

HashMap<Event, u8>
  M {"Tuple": N "1"} = a message

HashMap<Option<u8>, u8>
  M {"1": N "1"} = a message

HashMap<(), u8>
  M {"1": N "1"} = a message

HashMap<Vec<u8>, u8>
  M {"1": N "1"} = a message

# A byte string is read from the bytes of a key.
HashMap<ByteBuf, u8>
  M {"a": N "1"} = {ByteBuf { bytes: [97] }: 1}

# The first faulty entry is the fault.
HashMap<String, u8> and BTreeMap<String, u8>
  M {"a": N "x", "b": Null(false)} = Failed to parse 'x' as an integer: ..

HashMap<u8, u8> and BTreeMap<u8, u8>
  M {"x": N "1", "1": N "y"} = Failed to parse 'y' as an integer: ..

# A key is at fault before its value.
HashMap<u8, u8>
  M {"x": N "y"} = Expected num"#;
