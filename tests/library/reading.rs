//! What values are read from, and which faults are met.
mod enums;
mod items;
mod maps;
mod order;
mod rows;
mod scalars;
mod sequences;
mod structs;
mod unknown_members;
