/// The state of a ticket of a help desk: an enum with a field that is left out if it is none.
#[derive(Debug, Drop)]
pub enum Notice {
    Closed,
    Answered { by: String, #[serde(skip_serializing_if = "Option::is_none")] after: Option<u32> },
}
