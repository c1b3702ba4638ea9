//! A visitor that answers to whatever has something inside, and takes nothing of it.
use crate::fixtures::answers::{is_message, tells, told};
use crate::fixtures::opener::{Manner, Opener};
use crate::fixtures::requests::ask_source;
use crate::fixtures::rows::counted;
use std::test::Fail;

// What is told of each source at a request.
const ROWS: &str = r#"Null(false)
  option = some

N "x"
  option = some
  newtype_struct = newtype

Null(true)
  newtype_struct = newtype

key 1
  newtype_struct = newtype

L [N "x", Null(false)]
  any = seq
  struct = seq

Ss ["a"]
  seq = seq

Ns ["x"]
  tuple = seq

Bs [[255]]
  ignored_any = seq

M {"a": N "x", "b": Null(false)}
  any = map

M {"a": N "x"}
  map = map
  struct = map
  enum = enum

# The map of no key names no variant, but nobody asks for it.
M {}
  enum = enum

S "Other"
  enum = enum

key a
  enum = enum

plain text a
  enum = enum"#;

#[test]
fn what_is_not_taken_is_let_go(rt: HostRuntime) -> Result<(), Fail> {
    let alloc = rt.alloc();
    for row in counted(alloc, ROWS, 18)? {
        let manner = Manner::Idle;
        let answer = told(
            alloc,
            ask_source(row.head, row.left, Opener { alloc, manner })?,
        )?;
        tells(&rt, row.head, row.left, answer.as_str(), row.right);
    }
    Ok(())
}

// The first character is refused before it is seen that there is a second; where there is none, that is the fault.
#[test]
fn a_refused_first_character_comes_before_a_second(rt: HostRuntime) -> Result<(), Fail> {
    let alloc = rt.alloc();
    for (source, refused) in [(r#"S "a""#, true), (r#"S "ab""#, true), (r#"S """#, false)] {
        let manner = Manner::Idle;
        let answer = ask_source(source, "char", Opener { alloc, manner })?;
        let is_refused = is_message(&answer, "no character is wanted");
        assert!(rt; is_refused == refused, "{source}");
    }
    Ok(())
}
