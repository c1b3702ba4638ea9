//! Tests of the library's public calls, on values from outside: DynamoDB's documents, RFC 4648, the Rust crate's tests, and rows
//! worked by hand. Each public call is made here once with ample memory, since a proof lets any call run out of it.
//!
//! - `fixtures`: what the tests are made of: texts of attribute values, visitors, and tables of rows.
//! - `values`: attribute values, items and errors themselves.
//! - `writing`, `reading`, `rereading`: values of a type that are written, read, or both.
//! - `json`, `json_form`, `plain`: values by way of JSON, DynamoDB's form of it, and plain JSON.
//! - `tables`: each request to each source, and each call on what is inside of it.
//! - `tool`: what `dynamo_tool` prints.
//! - `described`: types that are described by their fields; `derived`: types that derive serde's traits, and twins that are described.

mod derived;
mod described;
mod fixtures;
mod json;
mod json_form;
mod plain;
mod reading;
mod rereading;
mod tables;
mod tool;
mod values;
mod writing;
