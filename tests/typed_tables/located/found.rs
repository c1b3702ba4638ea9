//! The part of a value at a place.
use dynamo_json::DynamoJson;
use dynamo_place::{Place, Step};
use dynamo_value::AttributeValue;
use std::alloc::{AllocError, Global};
use std::test::Fail;

// A step of a row: an element is its index after a `#`, and an attribute is its name.
fn step_of(alloc: Global, step: &str) -> Result<Step, AllocError> {
    match step {
        "#0" => Ok(Step::Element(0)),
        "#1" => Ok(Step::Element(1)),
        "#2" => Ok(Step::Element(2)),
        name => Ok(Step::Attribute(String::from_str(alloc, name)?)),
    }
}

fn place_of(alloc: Global, steps: &[&str]) -> Result<Place, AllocError> {
    let mut all = Vec::new(alloc);
    for step in steps {
        all.push(step_of(alloc, step)?)?;
    }
    Ok(Place::of_steps(all))
}

const VALUE: &str = r#"{"M":{"id":{"S":"x"},"set":{"SS":["a"]},"unit price":{"N":"2"},
    "orders":{"L":[{"M":{"price":{"N":"7"},"":{"NULL":true}}},{"L":[{"BOOL":true}]}]}}}"#;

// Each row has steps, and the text of the part at their end, or none if there is no part.
const ROWS: [(&[&str], &str); 18] = [
    (&[], VALUE),
    (&["id"], r#"{"S":"x"}"#),
    (&["unit price"], r#"{"N":"2"}"#),
    (&["set"], r#"{"SS":["a"]}"#),
    (&["orders", "#1"], r#"{"L":[{"BOOL":true}]}"#),
    (&["orders", "#0", "price"], r#"{"N":"7"}"#),
    (&["orders", "#0", ""], r#"{"NULL":true}"#),
    (&["orders", "#1", "#0"], r#"{"BOOL":true}"#),
    // A step that is missing.
    (&["other"], ""),
    (&[""], ""),
    (&["orders", "#2"], ""),
    (&["orders", "#0", "cost"], ""),
    (&["other", "#0"], ""),
    // A step of the other kind.
    (&["#0"], ""),
    (&["orders", "price"], ""),
    // A step into a scalar, and one into a set.
    (&["id", "x"], ""),
    (&["unit price", "#0"], ""),
    (&["set", "#0"], ""),
];

#[test]
fn the_part_at_a_place_is_found(rt: HostRuntime) -> Result<(), Fail> {
    let alloc = rt.alloc();
    let value = AttributeValue::from_json_text(alloc, VALUE)?;
    for (steps, wanted) in ROWS {
        let place = place_of(alloc, steps)?;
        let is_right = match place.find(&value) {
            Some(found) => {
                !wanted.is_empty() && *found == AttributeValue::from_json_text(alloc, wanted)?
            }
            None => wanted.is_empty(),
        };
        assert!(rt; is_right, "{place}");
    }
    Ok(())
}

#[test]
fn a_whole_scalar_is_found(rt: HostRuntime) -> Result<(), Fail> {
    let alloc = rt.alloc();
    let value = AttributeValue::Bool(true);
    assert!(rt; matches!(Place::new().find(&value), Some(AttributeValue::Bool(true))));
    assert!(rt; Place::new().in_element(alloc, 0).find(&value).is_none());
    assert!(rt; Place::new().in_attribute(alloc, "a").find(&value).is_none());
    Ok(())
}
