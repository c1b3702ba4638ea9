//! Lists, tuples and the three kinds of sets read as lists and as tuples.

pub(crate) const LISTS: &str = r#"Vec<String>
  L [S "1", S "2", S "3"] = ["1", "2", "3"]

Vec<u8>
  L [N "2", N "1", N "2"] = [2, 1, 2]
  L [] = []

Vec<()>
  L [Null(true)] = [()]

Vec<Vec<u8>>
  L [L [N "1"], Ns ["2", "3"], L []] = [[1], [2, 3], []]

Vec<Option<String>>
  L [Null(true), S "a"] = [None, Some("a")]

# The first faulty element is the fault.
Vec<u8>
  L [N "1", S "2"] = Expected num
  L [N "x", S "2"] = Failed to parse 'x' as an integer: ..
  L [S "2", N "x"] = Expected num

# Lists and sets alone.
Vec<u8> and (u8, u8)
  B [1] = Expected seq
  M {} = Expected seq
  Bool(true) = Expected seq
  Null(true) = Expected seq
  Null(false) = Expected seq
  S "a" = Expected seq

Vec<u8>
  N "1" = Expected seq"#;

pub(crate) const SETS_OF_STRINGS: &str = r#"Vec<String>
  Ss ["1", "2"] = ["1", "2"]
  Ss [] = []

Vec<char>
  Ss ["a", "b"] = ['a', 'b']

Vec<Event>
  Ss ["Unit"] = [Unit]

Vec<ByteBuf>
  Ss ["ab"] = [ByteBuf { bytes: [97, 98] }]

# An element is a text, and no other form of data.
Vec<char>
  Ss ["ab"] = a message

Vec<Option<String>>
  Ss ["a"] = a message

Vec<u8>
  Ss ["1"] = a message

Vec<bool>
  Ss ["true"] = a message

Vec<()>
  Ss ["a"] = a message

Vec<Vec<u8>>
  Ss ["a"] = a message

Vec<Event>
  Ss ["Newtype"] = a message"#;

pub(crate) const SETS_OF_NUMBERS: &str = r#"Vec<i8>
  Ns ["1", "-0", "007"] = [1, 0, 7]

Vec<i16>
  Ns ["-32768"] = [-32768]

Vec<i32>
  Ns ["-1"] = [-1]

Vec<i64>
  Ns ["-1"] = [-1]

Vec<i128>
  Ns ["-18446744073709551616"] = [-18446744073709551616]

Vec<u128>
  Ns ["18446744073709551616"] = [18446744073709551616]

Vec<u8>
  Ns ["85", "99"] = [85, 99]

Vec<u16>
  Ns ["65535"] = [65535]

Vec<u32>
  Ns ["1"] = [1]

Vec<u64>
  Ns ["18446744073709551615"] = [18446744073709551615]
  Ns ["18446744073709551616"] = Failed to parse '18446744073709551616' as an integer: ..

Vec<u8>
  Ns ["1", "256"] = Failed to parse '256' as an integer: ..

# Where no integer is asked for, the text is tested first, and then the number is refused.
Vec<String>
  Ns ["1"] = a message

Vec<bool>
  Ns ["1"] = a message

Vec<Option<u8>>
  Ns ["1"] = a message

Vec<Event>
  Ns ["1.5"] = a message

Vec<String>
  Ns ["x"] = Failed to parse 'x' as a float: invalid float literal

Vec<Option<u8>>
  Ns [""] = Failed to parse '' as a float: cannot parse float from empty string"#;

/// A text of bytes is one where they are UTF-8.
pub(crate) const SETS_OF_BYTE_STRINGS: &str = r#"Vec<ByteBuf>
  Bs [[1, 2], [], [1, 2]] = [ByteBuf { bytes: [1, 2] }, ByteBuf { bytes: [] }, ByteBuf { bytes: [1, 2] }]
  L [B [1]] = [ByteBuf { bytes: [1] }]

Vec<String>
  Bs [[97, 195, 169], []] = ["aé", ""]
  Bs [[255]] = a message

Vec<u8>
  Bs [[1]] = a message

Vec<Vec<u8>>
  Bs [[1]] = a message

Vec<char>
  Bs [[97]] = a message

Vec<Option<ByteBuf>>
  Bs [[1]] = a message"#;

/// What is left over isn't read, and a faulty element comes before the end.
pub(crate) const TUPLES: &str = r#"(u8, u8)
  L [N "1", N "2"] = (1, 2)
  L [N "1", N "2", N "3"] = (1, 2)
  L [N "1", N "2", N "x"] = (1, 2)

(u8, bool, char)
  L [N "1", Bool(true), S "c"] = (1, true, 'c')

(u8, u8, u8, u8)
  Ns ["1", "2", "3", "4", "x"] = (1, 2, 3, 4)

(String, String)
  Ss ["one", "two"] = ("one", "two")

(u8, u8)
  L [N "1", S "2"] = Expected num

# Too short.
(u8, u8)
  L [] = a message
  L [N "1"] = a message

(u8, u8, u8)
  L [N "1", N "2"] = a message

(u8, u8, u8, u8)
  Ns ["1", "2", "3"] = a message

(u8, u8)
  L [S "1"] = Expected num"#;
