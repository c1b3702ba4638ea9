//! What nobody gave a body to is refused by a message that ends with what was expected.

use crate::fixtures::answers::{fault, is_message, tells};
use crate::fixtures::requests::ask_source;
use crate::fixtures::rows::Row;
use crate::tables::request_rows::{INSIDE, VALUES};
use crate::tables::requests::named;
use serde_dynamo::de::{Kind, Visitor};
use std::alloc::Global;
use std::process::Abort;
use std::test::Fail;

// A visitor that gives nothing a body.
#[derive(Clone, Copy)]
struct Nothing {
    alloc: Global,
}

impl Visitor for Nothing {
    type Value = ();

    ghost claimed = { ? };

    ghost takes = { ? };

    fn expecting(&self) -> &'static str {
        "nothing at all"
    }

    fn alloc(&self) -> Global {
        self.alloc
    }

    fn claims(&self, _kind: Kind) -> bool {
        false
    }
}

// Whether the row tells what is shown, or the fault in its place. Where an enum is shown, its variant isn't asked for yet;
// and of several characters the first is shown.
fn shows(source: &str, request: &str, row: &str) -> bool {
    match request {
        "enum" => row != "Expected enum" && !row.starts_with("Failed "),
        "char" if source == r#"S "Unit""# => true,
        _ => !row.starts_with("Expected ") && !row.starts_with("Failed "),
    }
}

// The request is refused, by a message where something is shown.
fn refuses(rt: &impl Abort, alloc: Global, row: Row<'_>) -> Result<(), Fail> {
    let answer = ask_source(row.head, row.left, Nothing { alloc })?;
    if shows(row.head, row.left, row.right) {
        let refused = is_message(&answer, ", expected nothing at all");
        assert!(rt; refused, "{} of {}", row.left, row.head);
        return Ok(());
    }
    match answer {
        Ok(()) => Err(Fail::from("a visitor without bodies takes it")),
        Err(error) => {
            tells(
                rt,
                row.head,
                row.left,
                fault(alloc, &error)?.as_str(),
                row.right,
            );
            Ok(())
        }
    }
}

#[test]
fn a_visitor_without_bodies_refuses_whatever_is_shown(rt: HostRuntime) -> Result<(), Fail> {
    for (table, count) in [(VALUES, 11 * 29), (INSIDE, 4 * 29)] {
        for row in named(rt.alloc(), table, count)? {
            refuses(&rt, rt.alloc(), row)?;
        }
    }
    Ok(())
}

/// The ends of the messages by which types refuse what they don't expect.
pub(crate) const EXPECTED: &str = r#"Vec<bool>
  Ss ["a"] = .., expected a boolean

Vec<u8> and Vec<i128>
  Ss ["a"] = .., expected an integer

Vec<Option<u8>>
  Ss ["a"] = .., expected option

Vec<()>
  Ss ["a"] = .., expected unit

Vec<Vec<u8>>
  Ss ["a"] = .., expected a sequence

Vec<String>
  Ns ["1.5"] = .., expected a string

Vec<char>
  Ns ["1.5"] = .., expected a character

Vec<ByteBuf>
  Ns ["1.5"] = .., expected byte array

Vec<(u8, u8)>
  Ss ["a"] = .., expected a tuple of 2 elements

Vec<(u8, u8, u8)>
  Ss ["a"] = .., expected a tuple of 3 elements

Vec<(u8, u8, u8, u8)>
  Ss ["a"] = .., expected a tuple of 4 elements

Vec<HashMap<u8, u8>> and Vec<BTreeMap<u8, u8>>
  Ss ["a"] = .., expected a map

Value
  B [1] = .., expected any valid JSON value

Vec<AttributeValue>
  Ss ["a"] = .., expected an object with a single key "N", "S", "BOOL", "B", "NULL", "M", "L", "SS", "NS", or "BS"

Vec<Item>
  Ss ["a"] = .., expected a map of attribute values

Vec<User>
  Ss ["a"] = .., expected struct User

Vec<Sets>
  Ss ["a"] = .., expected struct Sets

Vec<Event>
  Bs [[1]] = .., expected enum Event

# Inside of its own JSON too.
AttributeValue
  M {"L": Ss ["a"]} = .., expected an object with a single key "N", "S", "BOOL", "B", "NULL", "M", "L", "SS", "NS", or "BS"
  M {"L": Ns ["1"]} = .., expected an object with a single key "N", "S", "BOOL", "B", "NULL", "M", "L", "SS", "NS", or "BS"
  M {"L": Bs [[1]]} = .., expected an object with a single key "N", "S", "BOOL", "B", "NULL", "M", "L", "SS", "NS", or "BS""#;
