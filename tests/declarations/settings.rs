/// The settings of a user, each of which has a default.
#[derive(Debug, Drop)]
pub struct Settings {
    #[serde(default)]
    pub colors: BTreeMap<String, String>,
    #[serde(default)]
    pub volumes: HashMap<String, u8>,
    #[serde(default, with = "serde_dynamo::string_set")]
    pub tags: Vec<String>,
    #[serde(default, with = "serde_dynamo::number_set")]
    pub channels: Vec<u16>,
    #[serde(default)]
    pub span: (u32, char),
    #[serde(default)]
    pub picture: Box<ByteBuf>,
}
