//! What is stored and read again.
mod rows;
mod samples;
