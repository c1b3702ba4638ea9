//! Described types, written and read: structs, enums, tagged enums and wide structs.
mod differences;
mod enum_rows;
mod left_out_rows;
mod rows;
mod rules_rows;
mod set_rows;
mod struct_rows;
mod tagged_rows;
mod wide_rows;
