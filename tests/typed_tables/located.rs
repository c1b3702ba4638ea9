//! Places of errors of reading and writing values, items and lines: rows for each kind of type, and
//! items with one part turned into something else.

mod checks;
mod derived_enums;
mod derived_items;
mod derived_order;
mod derived_rows;
mod derived_turned;
mod fault_rows;
mod found;
mod item_rows;
mod json;
mod kinds;
mod lines;
mod readers;
mod rows;
mod set_rows;
mod tagged_rows;
mod turned;
mod turned_texts;
mod turning;
mod type_rows;
mod writing;
