//! What each request shows of each source, or the fault, as the documents of the data model and of DynamoDB's kinds have it.
//! Each part begins with its source. Below it are requests, and after ` = ` what is told, or how that begins where it ends
//! in two points.

/// All requests to an attribute value of each kind.
pub(crate) const VALUES: &str = r#"N "5"
  any i64 ignored_any = i64 5
  bool = Expected bool
  i8 = i8 5
  i16 = i16 5
  i32 = i32 5
  i128 = i128 5
  u8 = u8 5
  u16 = u16 5
  u32 = u32 5
  u64 = u64 5
  u128 = u128 5
  char = Expected char
  str string identifier = Expected string
  bytes byte_buf = Expected binary data
  option = some
  unit = Expected unit
  unit_struct = Expected unit struct
  newtype_struct = newtype
  seq tuple tuple_struct = Expected seq
  map struct = Expected map
  enum = Expected enum

S "Unit"
  any str string identifier ignored_any = text Unit
  bool = Expected bool
  i8 i16 i32 i64 i128 u8 u16 u32 u64 u128 = Expected num
  char = Expected char
  bytes byte_buf = Expected binary data
  option = some
  unit = Expected unit
  unit_struct = Expected unit struct
  newtype_struct = newtype
  seq tuple tuple_struct = Expected seq
  map struct = Expected map
  enum = enum Unit

Bool(true)
  any bool ignored_any = bool true
  i8 i16 i32 i64 i128 u8 u16 u32 u64 u128 = Expected num
  char = Expected char
  str string identifier = Expected string
  bytes byte_buf = Expected binary data
  option = some
  unit = Expected unit
  unit_struct = Expected unit struct
  newtype_struct = newtype
  seq tuple tuple_struct = Expected seq
  map struct = Expected map
  enum = Expected enum

B [97]
  any bytes byte_buf ignored_any = bytes [97]
  bool = Expected bool
  i8 i16 i32 i64 i128 u8 u16 u32 u64 u128 = Expected num
  char = Expected char
  str string identifier = Expected string
  option = some
  unit = Expected unit
  unit_struct = Expected unit struct
  newtype_struct = newtype
  seq tuple tuple_struct = Expected seq
  map struct = Expected map
  enum = Expected enum

Null(true)
  any unit unit_struct ignored_any = unit
  bool = Expected bool
  i8 i16 i32 i64 i128 u8 u16 u32 u64 u128 = Expected num
  char = Expected char
  str string identifier = Expected string
  bytes byte_buf = Expected binary data
  option = none
  newtype_struct = newtype
  seq tuple tuple_struct = Expected seq
  map struct = Expected map
  enum = Expected enum

Null(false)
  any unit ignored_any = Expected unit
  bool = Expected bool
  i8 i16 i32 i64 i128 u8 u16 u32 u64 u128 = Expected num
  char = Expected char
  str string identifier = Expected string
  bytes byte_buf = Expected binary data
  option = some
  unit_struct = Expected unit struct
  newtype_struct = newtype
  seq tuple tuple_struct = Expected seq
  map struct = Expected map
  enum = Expected enum

M {"a": N "1", "b": N "2"}
  any map struct ignored_any = map a b
  bool = Expected bool
  i8 i16 i32 i64 i128 u8 u16 u32 u64 u128 = Expected num
  char = Expected char
  str string identifier = Expected string
  bytes byte_buf = Expected binary data
  option = some
  unit = Expected unit
  unit_struct = Expected unit struct
  newtype_struct = newtype
  seq tuple tuple_struct = Expected seq
  enum = Expected an item with a single key

L [N "1", S "a"]
  any seq tuple tuple_struct struct ignored_any = seq 2
  bool = Expected bool
  i8 i16 i32 i64 i128 u8 u16 u32 u64 u128 = Expected num
  char = Expected char
  str string identifier = Expected string
  bytes byte_buf = Expected binary data
  option = some
  unit = Expected unit
  unit_struct = Expected unit struct
  newtype_struct = newtype
  map = Expected map
  enum = Expected enum

Ss ["a", "b"]
  any seq tuple tuple_struct ignored_any = seq 2
  bool = Expected bool
  i8 i16 i32 i64 i128 u8 u16 u32 u64 u128 = Expected num
  char = Expected char
  str string identifier = Expected string
  bytes byte_buf = Expected binary data
  option = some
  unit = Expected unit
  unit_struct = Expected unit struct
  newtype_struct = newtype
  map struct = Expected map
  enum = Expected enum

Ns ["1", "2", "3"]
  any seq tuple tuple_struct ignored_any = seq 3
  bool = Expected bool
  i8 i16 i32 i64 i128 u8 u16 u32 u64 u128 = Expected num
  char = Expected char
  str string identifier = Expected string
  bytes byte_buf = Expected binary data
  option = some
  unit = Expected unit
  unit_struct = Expected unit struct
  newtype_struct = newtype
  map struct = Expected map
  enum = Expected enum

Bs [[97], [], [98]]
  any seq tuple tuple_struct ignored_any = seq 3
  bool = Expected bool
  i8 i16 i32 i64 i128 u8 u16 u32 u64 u128 = Expected num
  char = Expected char
  str string identifier = Expected string
  bytes byte_buf = Expected binary data
  option = some
  unit = Expected unit
  unit_struct = Expected unit struct
  newtype_struct = newtype
  map struct = Expected map
  enum = Expected enum"#;

/// All requests to the sources inside of attribute values: the elements of sets, and the keys of maps.
pub(crate) const INSIDE: &str = r#"number text 5
  any bool i64 char str string bytes byte_buf option unit unit_struct newtype_struct seq tuple tuple_struct map struct enum identifier ignored_any = i64 5
  i8 = i8 5
  i16 = i16 5
  i32 = i32 5
  i128 = i128 5
  u8 = u8 5
  u16 = u16 5
  u32 = u32 5
  u64 = u64 5
  u128 = u128 5

byte string ab
  any bool i8 i16 i32 i64 i128 u8 u16 u32 u64 u128 char str string bytes byte_buf option unit unit_struct newtype_struct seq tuple tuple_struct map struct enum identifier ignored_any = bytes [97, 98]

plain text Unit
  any bool i8 i16 i32 i64 i128 u8 u16 u32 u64 u128 char str string bytes byte_buf option unit unit_struct newtype_struct seq tuple tuple_struct map struct identifier ignored_any = text Unit
  enum = enum Unit

key 5
  any char str string bytes byte_buf option unit unit_struct seq tuple tuple_struct map struct identifier ignored_any = text 5
  bool = Expected string
  i8 = i8 5
  i16 = i16 5
  i32 = i32 5
  i64 = i64 5
  i128 = i128 5
  u8 = u8 5
  u16 = u16 5
  u32 = u32 5
  u64 = u64 5
  u128 = u128 5
  newtype_struct = newtype
  enum = enum 5"#;
