//! JSON values where values of a program's own types may be.
use crate::fixtures::answers::{fault, is, tells};
use crate::fixtures::notation;
use crate::fixtures::rows::counted;
use example_types::own_types::json_value_and_back;
use serde_dynamo::{Result, from_attribute_value, is_without_floats};
use serde_json::Value;
use std::alloc::Global;
use std::test::Fail;

// Attribute values, and the compact JSON text of what a JSON value reads of each, or the fault.
const READ: &str = r#"  N "+5" = 5
  N "-5" = -5
  N "007" = 7
  N "18446744073709551615" = 18446744073709551615
  N "18446744073709551616" = a message
  N "1.5" = a message
  N "x" = Failed to parse 'x' as a float: invalid float literal
  S "1" = "1"
  Bool(true) = true
  Null(true) = null
  Null(false) = Expected unit
  B [1] = a message
  L [] = []
  L [N "1", S "a", Null(true)] = [1,"a",null]
  M {"b": Null(true), "a": L [M {}]} = {"a":[{}],"b":null}
  Ss ["b", "a"] = ["b","a"]
  Ns ["1", "+2"] = [1,2]
  Bs [] = []
  Bs [[1]] = a message
  M {"b": B [1], "a": Null(false)} = Expected unit
  L [B [1], Null(false)] = a message"#;

// JSON values as compact texts with their keys in order, and what each reads back as. A float is found at any depth and refused.
const BACK: &str = r#"  null = null
  -9223372036854775808 = -9223372036854775808
  "18446744073709551615" = "18446744073709551615"
  [18446744073709551615,-1,"1",null,{}] = [18446744073709551615,-1,"1",null,{}]
  {"":[],"a":{"b":[[true]],"c":0},"b":false} = {"":[],"a":{"b":[[true]],"c":0},"b":false}
  [] = []
  1.5 = a message
  [1,2,-1e3] = a message
  {"a":1,"b":{"c":[null,0.1]}} = a message"#;

fn text_of(alloc: Global, answer: Result<Value>) -> std::result::Result<String, Fail> {
    match answer {
        Ok(json) => Ok(json.to_string(alloc)?),
        Err(error) => Ok(fault(alloc, &error)?),
    }
}

#[test]
fn a_json_value_reads_what_json_has_a_form_for(rt: HostRuntime) -> std::result::Result<(), Fail> {
    let alloc = rt.alloc();
    for row in counted(alloc, READ, 21)? {
        let read = from_attribute_value(alloc, notation::value(alloc, row.left)?);
        tells(
            &rt,
            row.left,
            "reading",
            text_of(alloc, read)?.as_str(),
            row.right,
        );
    }
    Ok(())
}

// Whether the JSON value of this text has no floats, and what it reads back as.
fn back(alloc: Global, text: &str) -> std::result::Result<(bool, String), Fail> {
    let json = Value::from_str(alloc, text)?;
    let read = json_value_and_back(alloc, &json);
    Ok((is_without_floats(&json), text_of(alloc, read)?))
}

#[test]
fn a_json_value_without_floats_reads_back(rt: HostRuntime) -> std::result::Result<(), Fail> {
    let alloc = rt.alloc();
    for row in counted(alloc, BACK, 9)? {
        let (without, answer) = back(alloc, row.left)?;
        assert!(rt; without == (row.right != "a message"));
        tells(&rt, row.left, "reading back", answer.as_str(), row.right);
    }
    Ok(())
}

#[test]
fn json_values_stand_inside_of_other_types(rt: HostRuntime) -> std::result::Result<(), Fail> {
    let alloc = rt.alloc();
    let source = notation::value(alloc, r#"L [N "1", Null(true), S "a"]"#)?;
    let read: Vec<Option<Value>> = from_attribute_value(alloc, source)?;
    match read.as_slice() {
        [Some(_), None, Some(Value::String(text))] => is(&rt, text.as_str(), "a"),
        _ => return Err(Fail::from("other values")),
    }
    Ok(())
}
