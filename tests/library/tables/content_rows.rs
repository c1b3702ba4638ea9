//! What requests that look at what their source holds show of it, or the fault, in the form of the rows of all requests.

/// Requests that look at what their source holds.
pub(crate) const MORE: &str = r#"N "300"
  any i64 ignored_any = i64 300
  i8 u8 = Failed to parse '300' as an integer: ..
  i16 = i16 300
  i32 = i32 300
  i128 = i128 300
  u16 = u16 300
  u32 = u32 300
  u64 = u64 300
  u128 = u128 300

N "-7"
  any i64 ignored_any = i64 -7
  i8 = i8 -7
  i16 = i16 -7
  i32 = i32 -7
  i128 = i128 -7
  u8 u16 u32 u64 u128 = Failed to parse '-7' as an integer: ..

N "18446744073709551615"
  any u64 ignored_any = u64 18446744073709551615
  i8 i16 i32 i64 u8 u16 u32 = Failed to parse '18446744073709551615' as an integer: ..
  i128 = i128 18446744073709551615
  u128 = u128 18446744073709551615

N "18446744073709551616"
  any ignored_any = number text 18446744073709551616
  i8 i16 i32 i64 u8 u16 u32 u64 = Failed to parse '18446744073709551616' as an integer: ..
  i128 = i128 18446744073709551616
  u128 = u128 18446744073709551616

N "1.5"
  any ignored_any = number text 1.5
  i8 i16 i32 i64 i128 u8 u16 u32 u64 u128 = Failed to parse '1.5' as an integer: ..

N "abc"
  any ignored_any = Failed to parse 'abc' as a float: invalid float literal
  i8 i16 i32 i64 i128 u8 u16 u32 u64 u128 = Failed to parse 'abc' as an integer: ..

N ""
  any ignored_any = Failed to parse '' as a float: cannot parse float from empty string
  i8 i16 i32 i64 i128 u8 u16 u32 u64 u128 = Failed to parse '' as an integer: ..

S ""
  any string = text 
  char = Expected char
  enum = enum 

S "a"
  any string = text a
  char = char a
  enum = enum a

S "7"
  any string = text 7
  char = char 7
  enum = enum 7

Bool(false)
  any bool = bool false

M {}
  any map struct = map
  enum = Expected an item with a single key

M {"Unit": N "1"}
  any map struct = map Unit
  enum = enum Unit

L []
  any seq tuple struct = seq 0

number text -129
  any i64 ignored_any bool string option seq enum = i64 -129
  i8 u8 u16 u32 u64 u128 = Failed to parse '-129' as an integer: ..
  i16 = i16 -129
  i32 = i32 -129
  i128 = i128 -129

number text 18446744073709551615
  any u64 ignored_any bool string option seq enum = u64 18446744073709551615
  i8 i16 i32 i64 u8 u16 u32 = Failed to parse '18446744073709551615' as an integer: ..
  i128 = i128 18446744073709551615
  u128 = u128 18446744073709551615

number text -9223372036854775809
  any ignored_any bool string option seq enum = number text -9223372036854775809
  i8 i16 i32 i64 u8 u16 u32 u64 u128 = Failed to parse '-9223372036854775809' as an integer: ..
  i128 = i128 -9223372036854775809

number text 1e5
  any ignored_any bool string option seq enum = number text 1e5
  i8 i16 i32 i64 i128 u8 u16 u32 u64 u128 = Failed to parse '1e5' as an integer: ..

number text abc
  any ignored_any bool string option seq enum = Failed to parse 'abc' as a float: invalid float literal
  i8 i16 i32 i64 i128 u8 u16 u32 u64 u128 = Failed to parse 'abc' as an integer: ..

number text 
  any ignored_any bool string option seq enum = Failed to parse '' as a float: cannot parse float from empty string
  i8 i16 i32 i64 i128 u8 u16 u32 u64 u128 = Failed to parse '' as an integer: ..

byte string 
  any string bytes u8 = bytes []

plain text 7
  any bool u8 i128 string newtype_struct = text 7
  enum = enum 7

plain text true
  any bool u8 i128 string newtype_struct = text true
  enum = enum true

key true
  any char string identifier = text true
  bool = bool true
  i8 i16 i32 i64 i128 u8 u16 u32 u64 u128 = Expected num
  enum = enum true
  newtype_struct = newtype

key false
  any char string identifier = text false
  bool = bool false
  i8 i16 i32 i64 i128 u8 u16 u32 u64 u128 = Expected num
  enum = enum false
  newtype_struct = newtype

key +7
  any char string identifier = text +7
  bool = Expected string
  i8 = i8 7
  i16 = i16 7
  i32 = i32 7
  i64 = i64 7
  i128 = i128 7
  u8 = u8 7
  u16 = u16 7
  u32 = u32 7
  u64 = u64 7
  u128 = u128 7
  enum = enum +7
  newtype_struct = newtype

key -7
  any char string identifier = text -7
  bool = Expected string
  i8 = i8 -7
  i16 = i16 -7
  i32 = i32 -7
  i64 = i64 -7
  i128 = i128 -7
  u8 u16 u32 u64 u128 = Expected num
  enum = enum -7
  newtype_struct = newtype

key x
  any char string identifier = text x
  bool = Expected string
  i8 i16 i32 i64 i128 u8 u16 u32 u64 u128 = Expected num
  enum = enum x
  newtype_struct = newtype

key 18446744073709551616
  any char string identifier = text 18446744073709551616
  bool = Expected string
  i8 i16 i32 i64 u8 u16 u32 u64 = Expected num
  i128 = i128 18446744073709551616
  u128 = u128 18446744073709551616
  enum = enum 18446744073709551616
  newtype_struct = newtype"#;
