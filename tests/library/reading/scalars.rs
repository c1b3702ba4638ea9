//! Numbers, booleans, characters, texts, byte strings, units and options are read from what their types say, and from nothing
//! else.

/// Integers.
pub(crate) const INTEGERS: &str = r#"# Past the ends of their ranges.
i8
  N "128" = Failed to parse '128' as an integer: ..
  N "-129" = Failed to parse '-129' as an integer: ..

i16
  N "32768" = Failed to parse '32768' as an integer: ..

i32
  N "2147483648" = Failed to parse '2147483648' as an integer: ..

i64
  N "9223372036854775808" = Failed to parse '9223372036854775808' as an integer: ..
  N "18446744073709551615" = Failed to parse '18446744073709551615' as an integer: ..

i128
  N "170141183460469231731687303715884105728" = Failed to parse '170141183460469231731687303715884105728' as an integer: ..

u8
  N "256" = Failed to parse '256' as an integer: ..
  N "-1" = Failed to parse '-1' as an integer: ..

u16
  N "65536" = Failed to parse '65536' as an integer: ..

u32
  N "4294967296" = Failed to parse '4294967296' as an integer: ..

u64
  N "18446744073709551616" = Failed to parse '18446744073709551616' as an integer: ..

u128
  N "340282366920938463463374607431768211456" = Failed to parse '340282366920938463463374607431768211456' as an integer: ..

# Each form of their texts.
u8
  N "+7" = 7
  N "007" = 7
  N "+0" = 0

i8
  N "-0" = 0
  N "-007" = -7

i64
  N "+007" = 7

i128
  N "-007" = -7

u128
  N "+007" = 7

# Texts of no integer.
u8 and i64 and i128
  N "" = Failed to parse '' as an integer: ..
  N "+" = Failed to parse '+' as an integer: ..
  N "-" = Failed to parse '-' as an integer: ..
  N "+-1" = Failed to parse '+-1' as an integer: ..
  N " 1" = Failed to parse ' 1' as an integer: ..
  N "1 " = Failed to parse '1 ' as an integer: ..
  N "1_0" = Failed to parse '1_0' as an integer: ..
  N "0x1" = Failed to parse '0x1' as an integer: ..
  N "x" = Failed to parse 'x' as an integer: ..
  N "1e5" = Failed to parse '1e5' as an integer: ..
  N "1." = Failed to parse '1.' as an integer: ..
  N "1.5" = Failed to parse '1.5' as an integer: ..

# At types without a sign no text begins with a minus.
u8 and u64 and u128
  N "-0" = Failed to parse '-0' as an integer: ..

# Numbers alone.
u8
  S "7" = Expected num
  Ns ["7"] = Expected num

i128
  S "5" = Expected num

u8 and i64 and u128
  Bool(true) = Expected num
  Null(true) = Expected num
  Null(false) = Expected num
  B [7] = Expected num
  L [] = Expected num
  M {} = Expected num"#;

/// The digits are those of ASCII.
pub(crate) const OTHER_DIGITS: &str =
    "u8 and i64 and i128\n  N \"\u{0663}\" = Failed to parse '\u{0663}' as an integer: ..";

/// What is no number.
pub(crate) const SCALARS: &str = r#"bool
  Bool(true) = true
  Bool(false) = false
  S "true" = Expected bool
  N "1" = Expected bool
  Null(true) = Expected bool
  M {} = Expected bool

char
  S "" = Expected char
  S "ab" = Expected char
  N "1" = Expected char
  Ss ["a"] = Expected char

String
  S "Arthur Dent" = "Arthur Dent"
  S "" = ""
  N "1" = Expected string
  B [97] = Expected string
  Null(true) = Expected string

ByteBuf
  B [1, 255] = ByteBuf { bytes: [1, 255] }
  B [] = ByteBuf { bytes: [] }
  S "a" = Expected binary data
  L [N "1"] = Expected binary data
  Bs [[1]] = Expected binary data

()
  Null(true) = ()
  Null(false) = Expected unit
  Bool(true) = Expected unit
  L [] = Expected unit
  M {} = Expected unit"#;

/// Options and boxes.
pub(crate) const OPTIONS: &str = r#"Option<u8>
  N "1" = Some(1)
  S "1" = Expected num

Option<bool>
  Bool(false) = Some(false)

Option<Vec<u8>>
  L [] = Some([])

# Null with false is something.
Option<u8>
  Null(true) = None
  Null(false) = Expected num

Option<()>
  Null(true) = None
  Null(false) = Expected unit

Option<UnitStruct>
  Null(false) = Expected unit struct

# Options of options lose the inner none.
Option<Option<u8>>
  Null(true) = None
  N "1" = Some(Some(1))
  Null(false) = Expected num

# A box reads as its content.
Box<u8>
  N "1" = 1
  S "1" = Expected num

Option<Box<u8>>
  Null(true) = None

Box<Option<u8>>
  Null(true) = None"#;
