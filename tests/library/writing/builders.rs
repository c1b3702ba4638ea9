//! The builder of a map follows its rules, whatever is called in whatever order.
use crate::fixtures::answers::is;
use crate::fixtures::refuses::Refuses;
use crate::fixtures::show;
use serde_dynamo::ser::SerializeMap;
use serde_dynamo::{ErrorImpl, Result, SerializerMap, Text};
use std::alloc::{AllocError, Global};
use std::collections::BTreeMap;
use std::process::Abort;
use std::test::Fail;

// A call of the map's builder. Keys, and the values under them, are the number of the call.
#[derive(Clone, Copy)]
enum Call {
    Key,
    FailingKey,
    Value,
    FailingValue,
    Entry,
}

const CALLS: [Call; 5] = [
    Call::Key,
    Call::FailingKey,
    Call::Value,
    Call::FailingValue,
    Call::Entry,
];

// Makes the call on the builder.
fn make(map: &mut SerializerMap, call: Call, number: u8) -> Result<()> {
    match call {
        Call::Key => map.serialize_key(&number),
        Call::FailingKey => map.serialize_key(&Refuses),
        Call::Value => map.serialize_value(&number),
        Call::FailingValue => map.serialize_value(&Refuses),
        Call::Entry => map.serialize_entry(&number, &number),
    }
}

// What the builder's rules say: the key that waits, and the entries so far.
#[derive(Drop)]
struct Rules {
    waits: Option<u8>,
    entries: BTreeMap<u8, u8>,
}

impl Rules {
    // The text of the fault that the call has; empty where it succeeds.
    fn follow(&mut self, call: Call, number: u8) -> std::result::Result<&'static str, AllocError> {
        match (call, self.waits) {
            (Call::Key | Call::FailingKey, Some(_)) => {
                return Ok("SerializeMap::serialize_key called twice");
            }
            (Call::Value | Call::FailingValue, None) => {
                return Ok(
                    "SerializeMap::serialize_value called before SerializeMap::serialize_key",
                );
            }
            (Call::Key, None) => self.waits = Some(number),
            (Call::FailingKey, None) => return Ok("no"),
            (Call::Value, Some(key)) => {
                self.waits = None;
                self.entries.insert(key, number)?;
            }
            (Call::FailingValue, Some(_)) => {
                self.waits = None;
                return Ok("no");
            }
            (Call::Entry, _) => {
                self.entries.insert(number, number)?;
            }
        }
        Ok("")
    }

    // The text of the map at the end, which drops a key that waits.
    fn end(&self, alloc: Global) -> std::result::Result<String, AllocError> {
        let mut text = String::from_str(alloc, "M {")?;
        for (i, (key, value)) in self.entries.iter().enumerate() {
            if i != 0 {
                text.push_str(", ")?;
            }
            text.push_str(&format!(in alloc; "\"{key}\": N \"{value}\"")?)?;
        }
        text.push_str("}")?;
        Ok(text)
    }
}

// The text of a call's fault; empty where it succeeded.
fn fault(alloc: Global, answer: &Result<()>) -> std::result::Result<String, AllocError> {
    match answer {
        Ok(()) => Ok(String::new(alloc)),
        Err(error) => error.to_string(alloc),
    }
}

// The builder ends in this.
fn ends(
    rt: &impl Abort,
    alloc: Global,
    map: SerializerMap,
    expected: &str,
) -> std::result::Result<(), Fail> {
    is(rt, show::answer(alloc, &map.end())?.as_str(), expected);
    Ok(())
}

// The call on the builder answers as the rules say.
fn step(
    rt: &impl Abort,
    alloc: Global,
    map: &mut SerializerMap,
    rules: &mut Rules,
    call: Call,
    number: u8,
) -> std::result::Result<(), Fail> {
    let answer = fault(alloc, &make(map, call, number))?;
    is(rt, answer.as_str(), rules.follow(call, number)?);
    Ok(())
}

// The calls of the sequence of this number, whose digits to the base of five are the calls, follow the rules.
fn follows(rt: &impl Abort, alloc: Global, sequence: usize) -> std::result::Result<(), Fail> {
    let mut map = SerializerMap::new(alloc, None);
    let mut rules = Rules {
        waits: None,
        entries: BTreeMap::new(alloc),
    };
    let mut left = sequence;
    for number in 0..4_u8 {
        step(rt, alloc, &mut map, &mut rules, CALLS[left % 5], number)?;
        left /= 5;
    }
    ends(rt, alloc, map, rules.end(alloc)?.as_str())
}

#[test]
fn each_sequence_of_four_calls_follows_the_rules(rt: HostRuntime) -> std::result::Result<(), Fail> {
    for sequence in 0..625_usize {
        follows(&rt, rt.alloc(), sequence)?;
    }
    Ok(())
}

#[test]
fn a_second_key_is_refused_and_the_first_goes_on_waiting(
    rt: HostRuntime,
) -> std::result::Result<(), Fail> {
    let alloc = rt.alloc();
    let mut map = SerializerMap::new(alloc, None);
    map.serialize_key(&Text::new("a"))?;
    let second = map.serialize_key(&Text::new("b"));
    assert!(rt; matches!(&second, Err(e) if *e.kind() == ErrorImpl::SerializeMapKeyCalledTwice));
    map.serialize_value(&1_u8)?;
    ends(&rt, alloc, map, r#"M {"a": N "1"}"#)
}

#[test]
fn of_equal_entries_the_last_stays(rt: HostRuntime) -> std::result::Result<(), Fail> {
    let alloc = rt.alloc();
    let mut map = SerializerMap::new(alloc, Some(2));
    map.serialize_entry(&1_u8, &1_u8)?;
    map.serialize_entry(&1_u8, &2_u8)?;
    ends(&rt, alloc, map, r#"M {"1": N "2"}"#)
}
