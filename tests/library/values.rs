//! Attribute values, items and errors themselves.
mod carried;
mod equality;
mod faults;
mod floats;
mod integers;
mod items;
