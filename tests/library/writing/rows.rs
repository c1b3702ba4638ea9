//! What the tables of writing say holds.
use crate::fixtures::at_type::Way;
use crate::fixtures::types::holds;
use crate::json::attribute_values::INSIDE;
use crate::writing::values::{DIRECTLY, LISTS, MAPS, SCALARS, STRUCTS};
use std::test::Fail;

// Each table, and how many answers it has.
const TABLES: [(&str, usize); 5] = [
    (SCALARS, 27),
    (LISTS, 10),
    (STRUCTS, 5),
    (MAPS, 24),
    (INSIDE, 5),
];

#[test]
fn each_value_writes_as_its_row_says_and_reads_back(rt: HostRuntime) -> Result<(), Fail> {
    for (table, count) in TABLES {
        holds(&rt, rt.alloc(), Way::Writes, table, count)?;
    }
    holds(&rt, rt.alloc(), Way::WritesDirectly, DIRECTLY, 5)
}
