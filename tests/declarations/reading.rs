/// One reading of a sensor: the second, its unit and its samples.
#[derive(Debug, Drop)]
pub struct Reading(pub u64, pub Option<String>, pub Vec<u8>);
