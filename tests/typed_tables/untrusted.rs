//! Input from strangers: lines that are too long, and values that are made to cost much.

mod hostile;
mod long_lines;
mod names;
