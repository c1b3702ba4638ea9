//! What the tables of reading say holds.
use crate::fixtures::at_type::Way;
use crate::fixtures::notation;
use crate::fixtures::readers::read;
use crate::fixtures::types::holds;
use crate::json::attribute_values::NO_ITEMS;
use crate::reading::enums::EVENTS;
use crate::reading::maps::{FAULTS, MAPS};
use crate::reading::scalars::{INTEGERS, OPTIONS, OTHER_DIGITS, SCALARS};
use crate::reading::sequences::{
    LISTS, SETS_OF_BYTE_STRINGS, SETS_OF_NUMBERS, SETS_OF_STRINGS, TUPLES,
};
use crate::reading::structs::{FORMS, NAMED, SETS, STATIONS, TREES, USERS};
use crate::reading::unknown_members::IGNORED;
use crate::tables::refusals::EXPECTED;
use std::collections::HashMap;
use std::test::Fail;

// Each table, and how many answers it has.
const TABLES: [(&str, usize); 20] = [
    (INTEGERS, 81),
    (OTHER_DIGITS, 3),
    (SCALARS, 25),
    (OPTIONS, 16),
    (LISTS, 22),
    (SETS_OF_STRINGS, 12),
    (SETS_OF_NUMBERS, 18),
    (SETS_OF_BYTE_STRINGS, 8),
    (TUPLES, 12),
    (MAPS, 25),
    (FAULTS, 17),
    (FORMS, 18),
    (USERS, 22),
    (SETS, 4),
    (STATIONS, 16),
    (NAMED, 13),
    (TREES, 4),
    (EVENTS, 25),
    (IGNORED, 13),
    (EXPECTED, 23),
];

#[test]
fn each_value_reads_as_its_row_says(rt: HostRuntime) -> Result<(), Fail> {
    for (table, count) in TABLES {
        holds(&rt, rt.alloc(), Way::Reads, table, count)?;
    }
    holds(&rt, rt.alloc(), Way::Reads, NO_ITEMS, 3)
}

#[test]
fn a_hashed_map_has_each_entry(rt: HostRuntime) -> Result<(), Fail> {
    let alloc = rt.alloc();
    let source = notation::value(alloc, r#"M {"1": S "one", "2": S "two"}"#)?;
    let read: HashMap<u64, String> = read(alloc, source)??;
    assert!(rt; read.len() == 2);
    assert!(rt; matches!(read.get(&1), Some(text) if text.as_str() == "one"));
    assert!(rt; matches!(read.get(&2), Some(text) if text.as_str() == "two"));
    Ok(())
}
