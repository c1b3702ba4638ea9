//! Visitors and callers of sequences that ask past the end, take nothing, and go on after a fault.
use crate::fixtures::answers::{tells, told};
use crate::fixtures::calls::ask_elements;
use crate::fixtures::notation;
use crate::fixtures::opener::{Manner, Opener};
use crate::fixtures::readers::ask_value;
use crate::fixtures::rows::{Row, counted};
use serde_dynamo::{
    AttributeValue, DeserializerSeq, DeserializerSeqBytes, DeserializerSeqNumbers,
    DeserializerSeqStrings,
};
use std::alloc::Global;
use std::process::Abort;
use std::test::Fail;

// Below each sequence are calls on its elements, in turn, and the answer to the last of them.
const CALLS: &str = r#"# Past the end there is no element.
L [N "1"]
  number = 1
  number number = none
  number number number = none

L []
  number = none
  number number = none

Ns ["1", "2"]
  number = 1
  number number = 2
  number number number = none
  number number number number = none

Ss []
  number = none
  number number = none

Bs []
  number = none
  number number = none

# An element that fails is gone.
L [S "a", N "2"]
  number = Expected num
  number number = 2
  number number number = none

Ns ["x", "2"]
  number = Failed to parse 'x' as an integer: ..
  number number = 2
  number number number = none

Ss ["1"]
  number = a message
  number number = none
  number number number = none

Bs [[1]]
  number = a message
  number number = none
  number number number = none

# The elements of a list are counted, before the first and after each, past the end too.
L [S "a", N "2"]
  how_many = Some(2)
  any how_many = Some(1)
  any any how_many = Some(0)
  any any any how_many = Some(0)

L []
  how_many = Some(0)
  any how_many = Some(0)

# A faulty element is counted as one that was taken.
L [S "a", N "2"]
  number how_many = Some(1)
  number number_seed = 2
  number number_seed how_many = Some(0)
  number number_seed number = none
  number number_seed number how_many = Some(0)

# The elements of a set are read without a count.
Ss ["a", "b"]
  how_many = None
  any how_many = None
  any any how_many = None
  any any any how_many = None

Ns ["1", "2"]
  how_many = None
  any how_many = None
  any any how_many = None
  any any any how_many = None

Bs [[1], [2]]
  how_many = None
  any how_many = None
  any any how_many = None
  any any any how_many = None

Ss []
  how_many = None
  any how_many = None

Ns []
  how_many = None
  any how_many = None

Bs []
  how_many = None
  any how_many = None

Ss ["a"]
  how_many = None
  text = a
  text text = none

Ns ["7"]
  how_many = None
  number = 7
  number number = none

Bs [[97, 98]]
  how_many = None
  text = ab
  text text = none"#;

// What the calls answer in a visitor, of a value that is taken and of one that is lent.
fn visit(alloc: Global, source: &str, calls: &'static str) -> Result<String, Fail> {
    let value = notation::value(alloc, source)?;
    let manner = Manner::Elements(calls);
    Ok(told(alloc, ask_value(value, "seq", Opener { alloc, manner })?)?)
}

// What they answer on the accesses that have a name.
fn call(alloc: Global, source: &str, calls: &str) -> Result<String, Fail> {
    let answer = match notation::value(alloc, source)? {
        AttributeValue::L(all) => {
            ask_elements(alloc, &mut DeserializerSeq::from_vec(alloc, all), calls)
        }
        AttributeValue::Ss(all) => {
            ask_elements(
                alloc,
                &mut DeserializerSeqStrings::from_vec(alloc, all),
                calls,
            )
        }
        AttributeValue::Ns(all) => {
            ask_elements(
                alloc,
                &mut DeserializerSeqNumbers::from_vec(alloc, all),
                calls,
            )
        }
        AttributeValue::Bs(all) => {
            ask_elements(
                alloc,
                &mut DeserializerSeqBytes::from_vec(alloc, all),
                calls,
            )
        }
        _ => return Err(Fail::from("no sequence")),
    };
    Ok(told(alloc, answer)?)
}

// The row answers both ways.
fn compare(rt: &impl Abort, alloc: Global, row: Row<'static>) -> Result<(), Fail> {
    let (source, calls) = (row.head, row.left);
    tells(
        rt,
        source,
        calls,
        visit(alloc, source, calls)?.as_str(),
        row.right,
    );
    tells(
        rt,
        source,
        calls,
        call(alloc, source, calls)?.as_str(),
        row.right,
    );
    Ok(())
}

#[test]
fn calls_on_elements_answer_their_rows(rt: HostRuntime) -> Result<(), Fail> {
    for row in counted(rt.alloc(), CALLS, 63)? {
        compare(&rt, rt.alloc(), row)?;
    }
    Ok(())
}
