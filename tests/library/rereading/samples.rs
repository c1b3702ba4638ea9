//! The samples are equal where each part of them is, and equal to what rereading gives.
use crate::fixtures::notation;
use serde_dynamo::de::Deserialize;
use serde_dynamo::from_attribute_value;
use serde_dynamo::samples::{
    Event, Sets, User, events_are_equal, reread_event, reread_sets, reread_user, sets_are_equal,
    users_are_equal,
};
use std::alloc::Global;
use std::test::Fail;

// The value of a type that reads from this text.
fn value<T: Deserialize>(alloc: Global, text: &str) -> Result<T, Fail> {
    Ok(from_attribute_value(alloc, notation::value(alloc, text)?)?)
}

const USERS: [&str; 4] = [
    r#"M {"age": N "42", "id": S "x", "name": S "Arthur"}"#,
    r#"M {"age": N "42", "id": S "y", "name": S "Arthur"}"#,
    r#"M {"age": N "42", "id": S "x", "name": S "Ford"}"#,
    r#"M {"age": N "43", "id": S "x", "name": S "Arthur"}"#,
];

// Whether the first user, and what it is reread as, are equal to the user of this text.
fn is_user(alloc: Global, text: &str) -> Result<(bool, bool), Fail> {
    let arthur: User = value(alloc, USERS[0])?;
    let (_, _, again) = reread_user(alloc, &arthur)?;
    let user: User = value(alloc, text)?;
    Ok((arthur == user, users_are_equal(&again, &user)))
}

// The first is what it was reread as, and no other.
#[test]
fn users_are_equal_where_each_field_is(rt: HostRuntime) -> Result<(), Fail> {
    for (i, text) in USERS.into_iter().enumerate() {
        let equal = is_user(rt.alloc(), text)?;
        assert!(rt; equal == (i == 0, i == 0));
    }
    Ok(())
}

#[test]
fn events_are_equal_where_variant_and_content_are(rt: HostRuntime) -> Result<(), Fail> {
    let alloc = rt.alloc();
    let events = [
        Event::Unit,
        Event::Newtype(1),
        Event::Newtype(2),
        Event::Tuple(1, 2),
        Event::Tuple(2, 2),
        Event::Tuple(1, 1),
        Event::Structy { one: 1, two: 2 },
        Event::Structy { one: 2, two: 2 },
        Event::Structy { one: 1, two: 1 },
    ];
    for (i, event) in events.iter().enumerate() {
        let (_, _, again) = reread_event(alloc, event)?;
        for (k, other) in events.iter().enumerate() {
            assert!(rt; events_are_equal(&again, other) == (i == k));
        }
    }
    Ok(())
}

const SETS: [&str; 5] = [
    r#"M {"blobs": Bs [[98]], "names": Ss ["a"], "numbers": Ns ["1", "2"]}"#,
    r#"M {"blobs": Bs [[98]], "names": Ss ["b"], "numbers": Ns ["1", "2"]}"#,
    r#"M {"blobs": Bs [[98]], "names": Ss ["a"], "numbers": Ns ["2", "1"]}"#,
    r#"M {"blobs": Bs [[98]], "names": Ss ["a"], "numbers": Ns ["1"]}"#,
    r#"M {"blobs": Bs [[]], "names": Ss ["a"], "numbers": Ns ["1", "2"]}"#,
];

// Whether the first value, and what it is reread as, are equal to the value of this text.
fn is_sets(alloc: Global, text: &str) -> Result<(bool, bool), Fail> {
    let three: Sets = value(alloc, SETS[0])?;
    let (_, _, again) = reread_sets(alloc, &three)?;
    let sets: Sets = value(alloc, text)?;
    Ok((three == sets, sets_are_equal(&again, &sets)))
}

// The first is what it was reread as, and no other.
#[test]
fn sets_are_equal_where_their_elements_are_in_order(rt: HostRuntime) -> Result<(), Fail> {
    for (i, text) in SETS.into_iter().enumerate() {
        let equal = is_sets(rt.alloc(), text)?;
        assert!(rt; equal == (i == 0, i == 0));
    }
    Ok(())
}
