//! A struct among members that it doesn't know: each is read and let go, and its fault is the struct's. What is ignored is
//! read too.
use crate::fixtures::answers::answers;
use crate::fixtures::named::Named;
use crate::fixtures::notation;
use crate::fixtures::readers::read;
use crate::fixtures::rows::{Row, counted};
use std::alloc::Global;
use std::process::Abort;
use std::test::Fail;

// The struct of id `test-4` and value 42, whose map has the member on the left too, reads as what is on the right.
const MEMBERS: &str = r#"# What is let go.
  N "1565723640.315001" = Named { id: "test-4", value: 42, note: None }
  N "42" = Named { id: "test-4", value: 42, note: None }
  N "-inf" = Named { id: "test-4", value: 42, note: None }
  S "us-west-2" = Named { id: "test-4", value: 42, note: None }
  Bool(false) = Named { id: "test-4", value: 42, note: None }
  Bool(true) = Named { id: "test-4", value: 42, note: None }
  B [1, 255] = Named { id: "test-4", value: 42, note: None }
  Null(true) = Named { id: "test-4", value: 42, note: None }
  M {} = Named { id: "test-4", value: 42, note: None }
  M {"a": N "1", "b": M {"c": L [S "d"]}} = Named { id: "test-4", value: 42, note: None }
  L [] = Named { id: "test-4", value: 42, note: None }
  L [N "1e5", L [M {}], Bool(true)] = Named { id: "test-4", value: 42, note: None }
  Ss ["a", "b"] = Named { id: "test-4", value: 42, note: None }
  Ns ["1", "2.5"] = Named { id: "test-4", value: 42, note: None }
  Bs [[1], []] = Named { id: "test-4", value: 42, note: None }
# What is at fault.
  N "abc" = Failed to parse 'abc' as a float: invalid float literal
  L [N "1", N "abc"] = Failed to parse 'abc' as a float: invalid float literal
  M {"a": L [M {"b": N "abc"}]} = Failed to parse 'abc' as a float: invalid float literal
  Ns ["1", "abc"] = Failed to parse 'abc' as a float: invalid float literal
  N "" = Failed to parse '' as a float: cannot parse float from empty string
  Null(false) = Expected unit
  L [Null(true), Null(false)] = Expected unit
# Inside of it the first fault is the fault too, in the order of the keys.
  M {"a": N "abc", "b": Null(false)} = Failed to parse 'abc' as a float: invalid float literal
  M {"b": N "abc", "a": Null(false)} = Expected unit"#;

/// What is ignored.
pub(crate) const IGNORED: &str = r#"IgnoredAny
  N "1" = IgnoredAny
  S "a" = IgnoredAny
  Bool(true) = IgnoredAny
  B [1] = IgnoredAny
  Null(true) = IgnoredAny
  M {"a": L [N "1"]} = IgnoredAny
  Ss ["a"] = IgnoredAny
  Ns ["1"] = IgnoredAny
  Bs [[1]] = IgnoredAny

Vec<IgnoredAny>
  Ns ["1", "2"] = [IgnoredAny, IgnoredAny]

# What is no value is no value to be ignored.
IgnoredAny
  Null(false) = Expected unit
  N "1e" = Failed to parse '1e' as a float: invalid float literal

Vec<IgnoredAny>
  Ns ["1", "1e"] = Failed to parse '1e' as a float: invalid float literal"#;

// The struct of this text reads as this.
fn reads(rt: &impl Abort, alloc: Global, source: &str, expected: &str) -> Result<(), Fail> {
    let value = notation::value(alloc, source)?;
    Ok(answers::<Named>(rt, alloc, read(alloc, value)?, expected)?)
}

// The member comes before the fields and after them.
fn among(rt: &impl Abort, alloc: Global, row: Row<'_>) -> Result<(), Fail> {
    let fields = r#""id": S "test-4", "value": N "42""#;
    let member = row.left;
    let before = format!(in alloc; "M {{\"aws:rep:updatetime\": {member}, {fields}}}")?;
    reads(rt, alloc, before.as_str(), row.right)?;
    let after = format!(in alloc; "M {{{fields}, \"zone\": {member}}}")?;
    reads(rt, alloc, after.as_str(), row.right)
}

#[test]
fn unknown_members_are_read_and_let_go(rt: HostRuntime) -> Result<(), Fail> {
    for row in counted(rt.alloc(), MEMBERS, 24)? {
        among(&rt, rt.alloc(), row)?;
    }
    Ok(())
}
