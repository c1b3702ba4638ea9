/// The code of an article: a transparent newtype, which is stored as its field is.
#[derive(Debug, PartialEq, Eq, PartialOrd, Ord, Hash)]
#[serde(transparent)]
pub struct Sku(pub String);

/// The number of a bay.
#[derive(Clone, Copy, Debug, PartialEq, Eq, PartialOrd, Ord, Hash)]
#[serde(transparent)]
pub struct Bay(pub u32);

/// The bytes of a seal.
#[derive(Debug, PartialEq, Eq, PartialOrd, Ord, Hash)]
#[serde(transparent)]
pub struct Seal(pub ByteBuf);

/// A remark, which may be missing.
#[derive(Debug)]
#[serde(transparent)]
pub struct Remark(pub Option<String>);

/// The stock of a warehouse. It has each kind of set with transparent newtypes as members.
#[derive(Debug)]
pub struct Stock {
    pub remark: Remark,
    #[serde(with = "serde_dynamo::string_set")]
    pub skus: BTreeSet<Sku>,
    #[serde(with = "serde_dynamo::number_set")]
    pub bays: Vec<Bay>,
    #[serde(with = "serde_dynamo::binary_set")]
    pub seals: HashSet<Seal>,
    pub counts: BTreeMap<Sku, u32>,
}
