//! Values by way of plain JSON, and JSON values and attribute values as values of a type.
pub(crate) mod attribute_values;
mod json_values;
mod plain_json;
