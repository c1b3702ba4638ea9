/// A station of some network, and what it read last.
#[derive(Debug, Drop)]
pub struct Station {
    pub id: String,
    pub reading: Option<u8>,
    pub tags: Vec<String>,
}
