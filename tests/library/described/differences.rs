// What docs/DIFFERENCES.md lists of described types: a row for each line of it. The comments say what the Rust crate returns.
use super::rows::{reads, refused_at};
use dynamo_record::{Field, Named, NamedFields, TaggedEnum, read_tagged};
use example_described::{Contact, Entity, Reading, Sealed, Shipment};
use serde_dynamo::ByteBuf;
use serde_dynamo::de::{Deserialize, Deserializer};
use std::alloc::Global;
use std::collections::BTreeMap;
use std::test::Fail;

// A variant with fields of several types: `#[serde(tag = "t")]`.
#[derive(Debug, Drop)]
enum Inside {
    Parts {
        b: Option<ByteBuf>,
        m: Option<BTreeMap<u8, u8>>,
        n: Option<u8>,
        p: Option<(u8, u8)>,
        u: Option<Sealed>,
    },
}

struct PartsFields;

impl NamedFields for PartsFields {
    type Fields = (
        (Field<Option<ByteBuf>>, Field<Option<BTreeMap<u8, u8>>>),
        (
            (Field<Option<u8>>, Field<Option<(u8, u8)>>),
            Field<Option<Sealed>>,
        ),
    );

    ghost names = { ? };

    ghost named = { ? };

    fn names() -> &'static [&'static str] {
        &["b", "m", "n", "p", "u"]
    }
}

impl TaggedEnum for Inside {
    type Variants = Named<PartsFields>;

    ghost about = { ? };

    fn tag() -> &'static str {
        "t"
    }

    fn name() -> &'static str {
        "Inside"
    }

    fn expecting() -> &'static str {
        "internally tagged enum Inside"
    }

    fn names() -> &'static [&'static str] {
        &["Parts"]
    }

    fn make(variant: Named<PartsFields>) -> Inside {
        let Named(((Field(b), Field(m)), ((Field(n), Field(p)), Field(u)))) = variant;
        Inside::Parts { b, m, n, p, u }
    }
}

impl Deserialize for Inside {
    ghost reads = { ? };

    fn deserialize<D: Deserializer>(alloc: Global, deserializer: D) -> Result<Inside, D::Error> {
        read_tagged(alloc, deserializer)
    }
}

// A member is read as its type. The Rust crate keeps it as a value of any kind first.
#[test]
fn members_of_another_kind(rt: HostRuntime) -> Result<(), Fail> {
    let alloc = rt.alloc();
    for (json, error) in [
        // invalid type: string "x", expected u8
        (r#"{"M":{"n":{"S":"x"},"t":{"S":"Parts"}}}"#, "Expected num"),
        // invalid value: integer `300`, expected u8
        (
            r#"{"M":{"n":{"N":"300"},"t":{"S":"Parts"}}}"#,
            "Failed to parse '300' as an integer: number too large to fit in target type",
        ),
        // FailedToParseFloat
        (
            r#"{"M":{"n":{"N":"x"},"t":{"S":"Parts"}}}"#,
            "Failed to parse 'x' as an integer: invalid digit found in string",
        ),
        // ExpectedUnit
        (r#"{"M":{"n":{"NULL":false},"t":{"S":"Parts"}}}"#, "Expected num"),
    ] {
        reads::<Inside>(&rt, alloc, json, error)?;
    }
    for (json, error) in [
        // invalid type: integer `1`, expected a string
        (r#"{"M":{"id":{"N":"1"},"type":{"S":"Customer"}}}"#, "Expected string"),
        // ExpectedUnit
        (r#"{"M":{"id":{"NULL":false}}}"#, "missing field `type`"),
        // ExpectedUnit, or the same where the tag comes first
        (
            r#"{"M":{"id":{"NULL":false},"type":{"S":"Line"}}}"#,
            "unknown variant `Line`, expected one of `Customer`, `Order`, `Counter`",
        ),
    ] {
        reads::<Entity>(&rt, alloc, json, error)?;
    }
    Ok(())
}

#[test]
fn tagged_enums_that_are_no_map(rt: HostRuntime) -> Result<(), Fail> {
    let alloc = rt.alloc();
    // invalid type: string "Counter", expected internally tagged enum Entity
    reads::<Entity>(&rt, alloc, r#"{"S":"Counter"}"#, "Expected map")?;
    // the variant `Counter`
    reads::<Entity>(&rt, alloc, r#"{"L":[{"S":"Counter"}]}"#, "Expected map")?;
    reads::<Entity>(&rt, alloc, r#"{"SS":["Counter"]}"#, "Expected map")
}

#[test]
fn values_that_are_read_on_one_side(rt: HostRuntime) -> Result<(), Fail> {
    let alloc = rt.alloc();
    // the string `a`
    let json = r#"{"M":{"id":{"B":"YQ=="},"name":{"S":"n"},"type":{"S":"Customer"}}}"#;
    reads::<Entity>(&rt, alloc, json, "Expected string")?;
    for (json, read) in [
        // the byte 1, the byte `a`
        (r#"{"M":{"b":{"L":[{"N":"1"}]},"t":{"S":"Parts"}}}"#, "Expected binary data"),
        (r#"{"M":{"b":{"S":"a"},"t":{"S":"Parts"}}}"#, "Expected binary data"),
        // zero
        (
            r#"{"M":{"n":{"N":"-0"},"t":{"S":"Parts"}}}"#,
            "Failed to parse '-0' as an integer: invalid digit found in string",
        ),
        // the unit struct
        (r#"{"M":{"t":{"S":"Parts"},"u":{"L":[]}}}"#, "Expected unit struct"),
        (r#"{"M":{"t":{"S":"Parts"},"u":{"M":{}}}}"#, "Expected unit struct"),
        // invalid length 3, expected 2 elements in sequence
        (
            r#"{"M":{"p":{"L":[{"N":"1"},{"N":"2"},{"N":"3"}]},"t":{"S":"Parts"}}}"#,
            "Parts { b: None, m: None, n: None, p: Some((1, 2)), u: None }",
        ),
        // invalid type: string "1", expected u8
        (
            r#"{"M":{"m":{"M":{"1":{"N":"2"}}},"t":{"S":"Parts"}}}"#,
            "Parts { b: None, m: Some({1: 2}), n: None, p: None, u: None }",
        ),
    ] {
        reads::<Inside>(&rt, alloc, json, read)?;
    }
    Ok(())
}

#[test]
fn messages(rt: HostRuntime) -> Result<(), Fail> {
    let alloc = rt.alloc();
    // invalid length 2, expected tuple struct Reading with 3 elements
    let short = "invalid length: too few elements, expected tuple struct Reading";
    reads::<Reading>(&rt, alloc, r#"{"L":[{"N":"1"},{"NULL":true}]}"#, short)?;
    // invalid length 1, expected a tuple of size 2
    let short = "invalid length: too few elements, expected a tuple";
    reads::<(u8, u8)>(&rt, alloc, r#"{"L":[{"N":"1"}]}"#, short)?;
    // invalid length 1, expected tuple variant Shipment::Between with 2 elements
    let short = "invalid length: too few elements, expected tuple variant";
    reads::<Shipment>(&rt, alloc, r#"{"M":{"Between":{"L":[{"N":"1"}]}}}"#, short)?;
    // invalid type: unit variant, expected newtype variant
    let content = "invalid type: unit variant, expected a variant with content";
    reads::<Shipment>(&rt, alloc, r#"{"S":"Tracked"}"#, content)?;
    // invalid type: integer `1`, expected a string
    let element = "invalid type: integer, expected a string";
    reads::<Vec<String>>(&rt, alloc, r#"{"NS":["1"]}"#, element)?;
    // invalid type: string "a", expected u8
    let element = "invalid type: string, expected an integer";
    reads::<Vec<u8>>(&rt, alloc, r#"{"SS":["a"]}"#, element)
}

// The places that docs/OWN_TYPES.md lists, where those of derived types are others (derived/differences.rs).
#[test]
fn places(rt: HostRuntime) -> Result<(), Fail> {
    let alloc = rt.alloc();
    refused_at::<Vec<Entity>>(
        &rt,
        alloc,
        r#"{"L":[{"M":{"id":{"N":"1"},"type":{"S":"Line"}}}]}"#,
        "[0].type: unknown variant `Line`, expected one of `Customer`, `Order`, `Counter`",
    )?;
    for (json, error) in [
        (
            r#"{"L":[{"M":{"id":{"S":"a"},"phone":{"S":"7"},"tel":{"S":"7"}}}]}"#,
            "[0].tel: duplicate field `phone`",
        ),
        (
            r#"{"L":[{"M":{"id":{"S":"a"},"zip":{"S":"1"}}}]}"#,
            "[0].zip: unknown field `zip`, expected one of `id`, `phone`, `email`, `groups`",
        ),
    ] {
        refused_at::<Vec<Contact>>(&rt, alloc, json, error)?;
    }
    Ok(())
}
