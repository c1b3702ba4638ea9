//! DynamoDB JSON with one fault each, and the place that is said of it, of a JSON value and of a text.
use dynamo_json::{DynamoJson, TextError};
use dynamo_place::{DynamoJsonLocated, LocatedError};
use dynamo_value::{AttributeValue, Item};
use serde_json::Value;
use std::alloc::{AllocError, Global};
use std::fmt::Display;
use std::process::Abort;

// What is no attribute value: where the fault is within, and how its message begins.
const FAULTS: [(&str, &str, &str); 24] = [
    ("true", "", "invalid type: expected an object with a single key"),
    (r#""x""#, "", "invalid type: expected an object with a single key"),
    (r#"[{"S":"x"}]"#, "", "invalid type: expected an object with a single key"),
    ("{}", "", "Expected exactly one key in the object, found none"),
    (r#"{"S":"x","N":"1"}"#, "", "Expected exactly one key in the object, found multiple keys"),
    (r#"{"L":[true],"M":{}}"#, "", "Expected exactly one key in the object, found multiple keys"),
    (r#"{"X":{"S":"x"}}"#, "", "The key 'X' is not a known DynamoDB prefix"),
    (r#"{"s":"x"}"#, "", "The key 's' is not a known DynamoDB prefix"),
    (r#"{"S":1}"#, "", "invalid type under the key 'S'"),
    (r#"{"N":1}"#, "", "invalid type under the key 'N'"),
    (r#"{"BOOL":"true"}"#, "", "invalid type under the key 'BOOL'"),
    (r#"{"NULL":null}"#, "", "invalid type under the key 'NULL'"),
    (r#"{"B":[1]}"#, "", "invalid type under the key 'B'"),
    (r#"{"M":[{"S":"x"}]}"#, "", "invalid type under the key 'M'"),
    (r#"{"L":{"a":{"S":"x"}}}"#, "", "invalid type under the key 'L'"),
    (r#"{"SS":"x"}"#, "", "invalid type under the key 'SS'"),
    (r#"{"B":"AQI"}"#, "", "Failed to decode base64: "),
    (r#"{"SS":["x",1,true]}"#, "[1]", "invalid type: expected a string in the array of a set"),
    (r#"{"NS":["1","2",3]}"#, "[2]", "invalid type: expected a string in the array of a set"),
    (r#"{"BS":["AQI=",null]}"#, "[1]", "invalid type: expected a string in the array of a set"),
    (r#"{"BS":["AQI=","AQI"]}"#, "[1]", "Failed to decode base64: "),
    (r#"{"L":[{"S":"x"},{"L":[{"S":true}]}]}"#, "[1][0]", "invalid type under the key 'S'"),
    (r#"{"M":{"b":{"S":"x"},"a":{"N":"1"},"c":{"X":1}}}"#, ".c", "The key 'X' is not a known DynamoDB prefix"),
    (r#"{"M":{"b":{"S":1},"a":{"N":1}}}"#, ".a", "invalid type under the key 'N'"),
];

// Items with a part left open, and the place of that part.
const ITEMS: [(&str, &str); 8] = [
    (r#"{"a":?}"#, "a"),
    (r#"{"a":{"S":"x"},"b":?,"c":{"N":1}}"#, "b"),
    (r#"{"tags":{"SS":["x"]},"unit price":?}"#, r#""unit price""#),
    (r#"{"a":{"B":"AQI="},"list":{"L":[{"N":"1"},?,{"N":1}]}}"#, "list[1]"),
    (r#"{"map":{"M":{"a":{"BOOL":true},"a.b":?}}}"#, r#"map."a.b""#),
    (r#"{"map":{"M":{"":?}}}"#, r#"map."""#),
    (r#"{"größe":{"M":{"Ü":?}}}"#, "größe.Ü"),
    (r#"{"orders":{"L":[{"M":{}},{"M":{"lines":{"L":[{"L":[]},{"L":[?]}]}}}]}}"#, "orders[1].lines[1][0]"),
];

type Printed = Result<String, AllocError>;

fn print<T, E: Display>(alloc: Global, read: &Result<T, LocatedError<E>>) -> Printed {
    match read {
        Ok(_) => String::from_str(alloc, "read"),
        Err(error) => error.to_string(alloc),
    }
}

// What is said of a text and of its JSON value, which have to be the same.
fn said_of<T: DynamoJsonLocated>(alloc: Global, text: &str) -> anyhow::Result<String> {
    let json = Value::from_str(alloc, text)?;
    let of_json = print(alloc, &T::from_json_located(alloc, &json))?;
    let of_text = print(alloc, &T::from_json_text_located(alloc, text))?;
    if of_json == of_text {
        return Ok(of_json);
    }
    Ok(format!(in alloc; "{of_json}, but {of_text} of the text")?)
}

fn says<T: DynamoJsonLocated>(rt: &impl Abort, alloc: Global, text: &str, wanted: &str) {
    match said_of::<T>(alloc, text) {
        Ok(said) => assert!(rt; said.as_str().starts_with(wanted), "{text}: {said}, not {wanted}"),
        Err(error) => assert!(rt; false, "{text}: {error}"),
    }
}

// Each fault in each item, and in the attribute value of the item's map.
fn each_fault_in(rt: &impl Abort, alloc: Global, item: &str, place: &str) -> Result<(), AllocError> {
    for (fault, within, message) in FAULTS {
        let text = item.replace(alloc, "?", fault)?;
        let wanted = format!(in alloc; "{place}{within}: {message}")?;
        says::<Item>(rt, alloc, text.as_str(), wanted.as_str());
        let map = format!(in alloc; "{{\"M\":{text}}}")?;
        says::<AttributeValue>(rt, alloc, map.as_str(), wanted.as_str());
    }
    Ok(())
}

#[test]
fn each_fault_has_its_place(rt: HostRuntime) {
    let alloc = rt.alloc();
    for (item, place) in ITEMS {
        let done = each_fault_in(&rt, alloc, item, place);
        assert!(rt; done.is_ok(), "out of memory");
    }
}

#[test]
fn a_fault_of_the_whole_has_no_place(rt: HostRuntime) {
    let alloc = rt.alloc();
    says::<AttributeValue>(&rt, alloc, r#"{"X":1}"#, "The key 'X' is not a known DynamoDB prefix");
    says::<AttributeValue>(&rt, alloc, "[]", "invalid type: expected an object with a single key");
    says::<AttributeValue>(&rt, alloc, r#"{"SS":[1]}"#, "[0]: invalid type: expected a string in the array of a set");
    says::<Item>(&rt, alloc, r#"[{"S":"x"}]"#, "invalid type: expected an object of attributes");
}

#[test]
fn what_has_no_fault_is_read(rt: HostRuntime) {
    let alloc = rt.alloc();
    says::<AttributeValue>(&rt, alloc, r#"{"L":[{"N":"1"},{"SS":["x"]},{"BS":["AQI="]},{"NULL":true}]}"#, "read");
    says::<Item>(&rt, alloc, r#"{"a":{"M":{"b":{"L":[{"S":"x"}]}}}}"#, "read");
    says::<Item>(&rt, alloc, "{}", "read");
}

#[test]
fn the_last_of_repeated_members_counts(rt: HostRuntime) {
    let alloc = rt.alloc();
    says::<Item>(&rt, alloc, r#"{"a":{"S":1},"b":{"N":1},"a":{"S":"x"}}"#, "b: invalid type under the key 'N'");
    says::<Item>(&rt, alloc, r#"{"a":{"S":1},"a":{"S":"x"}}"#, "read");
}

// What is no JSON says where by its line and column.
fn no_json(rt: &impl Abort, alloc: Global, text: &str) {
    match Item::from_json_text_located(alloc, text) {
        Err(error) => {
            assert!(rt; error.place.steps().is_empty(), "{text}: {error}");
            assert!(rt; matches!(error.error, TextError::NotJson(_)), "{text}: {error}");
            let Err(plain) = Item::from_json_text(alloc, text) else {
                assert!(rt; false, "{text} is read");
                return;
            };
            let (Ok(said), Ok(wanted)) = (error.to_string(alloc), plain.to_string(alloc)) else {
                assert!(rt; false, "out of memory");
                return;
            };
            assert!(rt; said == wanted && said.as_str().contains("line 1 column "), "{said}, not {wanted}");
        }
        Ok(_) => assert!(rt; false, "{text} is read"),
    }
}

#[test]
fn what_is_no_json_has_no_place(rt: HostRuntime) {
    let alloc = rt.alloc();
    no_json(&rt, alloc, r#"{"a":{"S":1},"b":"#);
    no_json(&rt, alloc, r#"{"a":{"S":"x"}} 1"#);
    no_json(&rt, alloc, r#"{"a":{"L":[{"S":"x"}}}"#);
}
