//! Visitors and callers of maps that ask too early, too often or past the end, and go on after a fault.
use crate::fixtures::answers::{item, tells, told};
use crate::fixtures::calls::ask_entries;
use crate::fixtures::opener::{Manner, Opener};
use crate::fixtures::readers::ask_value;
use crate::fixtures::rows::{Row, counted};
use serde_dynamo::{AttributeValue, DeserializerMap};
use std::alloc::Global;
use std::process::Abort;
use std::test::Fail;

// Below each map are calls on its entries, in turn, and the answer to the last of them.
const CALLS: &str = r#"# A value before a key is refused.
M {}
  number = MapAccess::next_value called before MapAccess::next_key

M {"a": N "1"}
  number = MapAccess::next_value called before MapAccess::next_key

M {"a": N "1", "b": N "2"}
  text = MapAccess::next_value called before MapAccess::next_key
# It changes nothing.
  number how_many = Some(2)
  number text_key = a
  number text_key number = 1

# A value that fails is gone.
M {"a": N "x"}
  text_key = a
  text_key number = Failed to parse 'x' as an integer: ..
  text_key number number = MapAccess::next_value called before MapAccess::next_key
  text_key number text_key = none

M {"a": N "x", "b": N "2"}
  text_key number text_key number = 2

# A key that fails leaves its value.
M {"x": S "v"}
  number_key = Expected num
  number_key how_many = Some(0)
  number_key text = v
  number_key text text = MapAccess::next_value called before MapAccess::next_key

# A key that fails drops the value that waited before it.
M {"a": S "v", "b": S "w"}
  text_key number_key text = w

# A second key drops the value of the first.
M {"a": N "1", "b": N "2"}
  text_key text_key = b
  text_key text_key number = 2
  text_key text_key number number = MapAccess::next_value called before MapAccess::next_key

# A value stays where no key is left.
M {"a": N "1"}
  text_key text_key = none
  text_key text_key number = 1
  text_key number_key number_key number = 1

# Past the end there is no key.
M {}
  text_key text_key = none

M {"a": N "1"}
  text_key number text_key text_key = none
  text_key number text_key number = MapAccess::next_value called before MapAccess::next_key

# The entries that are not yet taken are counted.
M {}
  how_many = Some(0)

M {"a": N "1", "b": N "2"}
  how_many = Some(2)
  text_key how_many = Some(1)
  text_key number how_many = Some(1)
  text_key text_key text_key how_many = Some(0)

M {"b": N "2", "a": N "1"}
  how_many = Some(2)
  text_key = a

# An entry is a key and its value; one by one they read the same.
M {"a": N "1"}
  entry = Some(("a", 1))
  entry entry = None
  entry_seed = Some(("a", 1))
  entry_seed entry_seed = None
  key_seed = Some("a")
  key_seed value_seed = 1

# An entry fails by its key and then by its value, which is gone. After a failing key its value waits.
M {"1": S "v", "x": S "w"}
  entry_of_numbers = Expected num
  entry_of_numbers how_many = Some(1)
  entry_of_numbers text = MapAccess::next_value called before MapAccess::next_key
  entry_of_numbers text entry_of_number = Expected num
  entry_of_numbers text entry_of_number text = w
  entry_of_numbers text entry_of_number text how_many = Some(0)"#;

// What the calls answer in a visitor, of a value that is taken and of one that is lent.
fn visit(alloc: Global, source: &str, calls: &'static str) -> Result<String, Fail> {
    let value = AttributeValue::M(item(alloc, source)?);
    let manner = Manner::Entries(calls);
    Ok(told(alloc, ask_value(value, "map", Opener { alloc, manner })?)?)
}

// What they answer on the entries themselves, which leave the item empty while they are read.
fn call(alloc: Global, source: &str, calls: &str) -> Result<String, Fail> {
    let mut map = item(alloc, source)?;
    let mut entries = DeserializerMap::from_item(alloc, &mut map)?;
    if !map.is_empty() {
        return Err(Fail::from("the item keeps its entries"));
    }
    Ok(told(alloc, ask_entries(alloc, &mut entries, calls))?)
}

// The row answers both ways.
fn compare(rt: &impl Abort, alloc: Global, row: Row<'static>) -> Result<(), Fail> {
    let (source, calls) = (row.head, row.left);
    tells(
        rt,
        source,
        calls,
        visit(alloc, source, calls)?.as_str(),
        row.right,
    );
    tells(
        rt,
        source,
        calls,
        call(alloc, source, calls)?.as_str(),
        row.right,
    );
    Ok(())
}

#[test]
fn calls_on_entries_answer_their_rows(rt: HostRuntime) -> Result<(), Fail> {
    for row in counted(rt.alloc(), CALLS, 44)? {
        compare(&rt, rt.alloc(), row)?;
    }
    Ok(())
}
