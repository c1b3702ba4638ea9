//! Types that derive serde's traits, by `dynamo_serde`: each attribute, each kind of enum and of key, and twins of types that
//! are described. What is wanted is given as DynamoDB JSON, which the library reads and writes.

mod attributes;
mod conversions;
mod depth;
mod described_twins;
mod differences;
mod enums;
mod keys;
mod left_out_twins;
mod order_rows;
mod random;
mod rows;
mod rules_twins;
mod scalars;
mod set_twins;
mod tagged_twins;
mod twins;
mod values;
mod wide;
mod wide_twins;
