//! What the words of `dynamo_tool` print and answer, over readers and writers that fail, interrupt, and take little at a time.

mod checks;
mod conversions;
mod failing;
mod streams;
mod words;
