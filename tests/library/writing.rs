//! What values write as.
mod builders;
mod maps;
mod others;
mod rows;
mod sets;
mod values;
