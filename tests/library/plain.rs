//! Rows of plain JSON, from serde_json's documentation and by hand, and what becomes of values by way of it.

mod faults;
mod json_values;
mod kinds;
mod objects;
mod scalars;
mod texts;
mod via_json;

use dynamo_json::to_json_value;
use dynamo_ser::Serialize;
use std::alloc::Global;
use std::process::Abort;
use std::test::Fail;

/// The value's plain JSON has this compact text, or it is refused by a fault that prints so.
fn plain<T: Serialize + Drop>(
    rt: &impl Abort,
    alloc: Global,
    value: T,
    expected: &str,
) -> Result<(), Fail> {
    let text = match to_json_value(alloc, value) {
        Ok(json) => json.to_string(alloc)?,
        Err(error) => format!(in alloc; "{error}")?,
    };
    assert_eq!(rt; text.as_str(), expected);
    Ok(())
}
