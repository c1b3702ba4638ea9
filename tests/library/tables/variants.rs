//! Each call on a variant and on its content.
use crate::fixtures::answers::{item, tells, told};
use crate::fixtures::calls::{open_content, open_variant};
use crate::fixtures::notation;
use crate::fixtures::opener::{Manner, Opener};
use crate::fixtures::requests::ask_source;
use crate::fixtures::rows::{Row, rows};
use serde_dynamo::{DeserializerEnum, DeserializerVariant};
use std::alloc::Global;
use std::process::Abort;
use std::test::Fail;

// Below each source are calls on its variant, and the answer to each of them.
const MAPS: &str = r#"# A variant of one key has its value as its content.
M {"a": N "5"}
  unit = a unit
  newtype newtype_seed = a 5
  tuple = Expected seq
  struct = Expected map

M {"a": L [N "1"]}
  unit = a unit
  newtype newtype_seed = Expected num
  tuple = a seq 1
  struct = Expected map

M {"a": Ss ["x", "y"]}
  unit = a unit
  newtype newtype_seed = Expected num
  tuple = a seq 2
  struct = Expected map

M {"a": M {"y": N "1", "x": N "2"}}
  unit = a unit
  newtype newtype_seed = Expected num
  tuple = Expected seq
  struct = a map x y

M {"a": Null(false)}
  unit = a unit
  newtype newtype_seed = Expected num
  tuple = Expected seq
  struct = Expected map

# A map of more keys or none names no variant.
M {}
  unit newtype newtype_seed tuple struct = Expected an item with a single key

M {"a": N "1", "b": N "2"}
  unit newtype newtype_seed tuple struct = Expected an item with a single key

# The name of a variant is read as a plain text, which is no number, where a key would be one.
M {"5": N "7"}
  named_by_number = a message
  named_by_char = 5 7"#;

// A variant of a text has no content. Numbers and byte strings show no enum.
const TEXTS: &str = r#"S "a"
  unit = a unit
  newtype newtype_seed tuple struct = a message

plain text a
  unit = a unit
  newtype newtype_seed tuple struct = a message

key a
  unit = a unit
  newtype newtype_seed tuple struct = a message

number text 1
  unit newtype newtype_seed tuple struct = a message

byte string a
  unit newtype newtype_seed tuple struct = a message"#;

// Contents without their variants.
const CONTENTS: &str = r#"N "7"
  unit = unit
  newtype newtype_seed = 7
  tuple = Expected seq
  struct = Expected map"#;

// What is opened.
#[derive(Clone, Copy)]
enum Opened {
    // The variant that a visitor is shown.
    Visited,
    // The access of a map that has a name.
    Named,
    // The content without its variant.
    Content,
}

// What the source answers to the call.
fn open(alloc: Global, source: &str, call: &'static str, opened: Opened) -> Result<String, Fail> {
    let answer = match opened {
        Opened::Visited => {
            let manner = Manner::Variant(call);
            ask_source(source, "enum", Opener { alloc, manner })?
        }
        Opened::Named => {
            let access = DeserializerEnum::from_item(alloc, item(alloc, source)?);
            open_variant(alloc, access, call)
        }
        Opened::Content => {
            let value = notation::value(alloc, source)?;
            let content = DeserializerVariant::from_attribute_value(alloc, value);
            open_content(alloc, content, call)
        }
    };
    Ok(told(alloc, answer)?)
}

// Each call of the row answers so. The number of the calls.
fn compare(
    rt: &impl Abort,
    alloc: Global,
    opened: Opened,
    row: Row<'static>,
) -> Result<usize, Fail> {
    for call in row.left.split(' ') {
        let answer = open(alloc, row.head, call, opened)?;
        tells(rt, row.head, call, answer.as_str(), row.right);
    }
    Ok(row.left.split(' ').count())
}

// Each row of the table answers so, to so many calls.
fn compare_all(
    rt: &impl Abort,
    alloc: Global,
    opened: Opened,
    table: &'static str,
    count: usize,
) -> Result<(), Fail> {
    let mut answers = 0_usize;
    for row in rows(alloc, table)? {
        answers = answers.saturating_add(compare(rt, alloc, opened, row)?);
    }
    assert!(rt; answers == count);
    Ok(())
}

#[test]
fn a_variant_answers_to_each_call(rt: HostRuntime) -> Result<(), Fail> {
    let alloc = rt.alloc();
    compare_all(&rt, alloc, Opened::Visited, MAPS, 37)?;
    compare_all(&rt, alloc, Opened::Named, MAPS, 37)?;
    compare_all(&rt, alloc, Opened::Visited, TEXTS, 25)?;
    compare_all(&rt, alloc, Opened::Content, CONTENTS, 5)
}
