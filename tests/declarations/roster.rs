/// The roster of a shift. It has each kind of set as an ordered and as a hashed set, of which some
/// are left out if they are empty, and a set that is stored as a list.
#[derive(Debug, Drop)]
pub struct Roster {
    pub id: String,
    #[serde(with = "serde_dynamo::string_set")]
    pub names: BTreeSet<String>,
    #[serde(with = "serde_dynamo::number_set")]
    pub badges: BTreeSet<u32>,
    #[serde(default, skip_serializing_if = "BTreeSet::is_empty", with = "serde_dynamo::binary_set")]
    pub tokens: BTreeSet<ByteBuf>,
    pub hours: BTreeSet<u8>,
    #[serde(default, skip_serializing_if = "HashSet::is_empty", with = "serde_dynamo::string_set")]
    pub skills: HashSet<String>,
    #[serde(default, with = "serde_dynamo::number_set")]
    pub rooms: HashSet<u16>,
    #[serde(with = "serde_dynamo::binary_set")]
    pub seals: HashSet<ByteBuf>,
}
