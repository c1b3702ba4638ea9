/// Where something is.
#[derive(Debug, Drop)]
pub struct Address {
    pub city: String,
    pub zip: Option<u32>,
}
