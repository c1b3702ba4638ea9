/// Three lists, each of which is written as a set.
#[derive(Debug, Drop, PartialEq, Eq)]
pub struct Sets {
    #[serde(with = "serde_dynamo::string_set")]
    pub names: Vec<String>,
    #[serde(with = "serde_dynamo::number_set")]
    pub numbers: Vec<u64>,
    #[serde(with = "serde_dynamo::binary_set")]
    pub blobs: Vec<ByteBuf>,
}
