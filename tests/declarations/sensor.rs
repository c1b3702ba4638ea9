/// A sensor, whose fields are each stored in a way of their own.
#[derive(Debug, Drop)]
pub struct Sensor {
    /// Stored under another name.
    #[serde(rename = "sensorName")]
    pub name: String,
    /// Stored as a set.
    #[serde(with = "serde_dynamo::string_set")]
    pub labels: Vec<String>,
    /// Zero where it is missing.
    #[serde(default)]
    pub retries: u8,
}
