//! Which integers the strings of numbers hold, for each type.
use dynamo_de::{Integer, IntegerKind, parse_i64, parse_u64, read_integer};

// The least or greatest integer of each type, or one of its spellings.
const READ: [(IntegerKind, &str, Integer); 14] = [
    (IntegerKind::I8, "-128", Integer::I8(-128)),
    (IntegerKind::I16, "32767", Integer::I16(32767)),
    (IntegerKind::I32, "-2147483648", Integer::I32(-2147483648)),
    (IntegerKind::I64, "+9223372036854775807", Integer::I64(9223372036854775807)),
    (
        IntegerKind::I128,
        "-170141183460469231731687303715884105728",
        Integer::I128(-170141183460469231731687303715884105728),
    ),
    (IntegerKind::U8, "255", Integer::U8(255)),
    (IntegerKind::U16, "65535", Integer::U16(65535)),
    (IntegerKind::U32, "4294967295", Integer::U32(4294967295)),
    (IntegerKind::U64, "18446744073709551615", Integer::U64(18446744073709551615)),
    (
        IntegerKind::U128,
        "340282366920938463463374607431768211455",
        Integer::U128(340282366920938463463374607431768211455),
    ),
    (IntegerKind::U8, "+007", Integer::U8(7)),
    (IntegerKind::I8, "-0", Integer::I8(0)),
    (IntegerKind::I64, "-00042", Integer::I64(-42)),
    (IntegerKind::U64, "0", Integer::U64(0)),
];

const REFUSED: [(IntegerKind, &str); 9] = [
    (IntegerKind::I8, "128"),
    (IntegerKind::U8, "256"),
    (IntegerKind::U8, "-0"),
    (IntegerKind::U64, "18446744073709551616"),
    (IntegerKind::I64, "-9223372036854775809"),
    (IntegerKind::I64, ""),
    (IntegerKind::I64, "+"),
    (IntegerKind::I64, "1.0"),
    (IntegerKind::I64, " 1"),
];

#[test]
fn strings_of_integers(rt: HostRuntime) {
    for (kind, text, integer) in READ {
        assert!(rt; read_integer(kind, text) == Ok(integer), "{text}");
    }
    assert!(rt; parse_i64("-42") == Ok(-42));
    assert!(rt; parse_u64("+42") == Ok(42));
}

#[test]
fn strings_of_no_integer(rt: HostRuntime) {
    for (kind, text) in REFUSED {
        assert!(rt; read_integer(kind, text).is_err(), "{text}");
    }
    assert!(rt; parse_i64("9223372036854775808").is_err());
    assert!(rt; parse_u64("-1").is_err());
}
