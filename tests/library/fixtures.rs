//! What the tests are made of: attribute values as texts, types, visitors, and tables of rows with what reads them.
pub(crate) mod answers;
pub(crate) mod at_type;
pub(crate) mod calls;
pub(crate) mod kept;
pub(crate) mod members;
pub(crate) mod named;
pub(crate) mod notation;
pub(crate) mod opener;
pub(crate) mod readers;
pub(crate) mod refuses;
pub(crate) mod requests;
pub(crate) mod rows;
pub(crate) mod show;
pub(crate) mod teller;
pub(crate) mod types;
pub(crate) mod valued;
pub(crate) mod writes;
