//! What each request to each source shows, and each call on the entries, elements and variants inside.
mod content_rows;
mod elements;
mod entries;
mod idle;
pub(crate) mod refusals;
mod request_rows;
mod requests;
mod variants;
