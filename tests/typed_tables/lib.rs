//! Typed tables of a type that is described and of one that derives serde's traits, in memory and
//! in a database: each call with ample memory, its errors by `?`, and the places of errors in items
//! that another program put. `service` is a service of one file. `located` has the places of errors
//! of reading and writing values, items and lines, and `untrusted` has input from strangers; they
//! are here since a crate of their own would compile the library once more.

mod booking;
mod foreign;
mod guest;
mod in_database;
mod in_memory;
mod located;
mod places;
mod service;
mod texts;
mod unlike_dynamo;
mod untrusted;
