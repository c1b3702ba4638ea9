/// How many lots there are at each side, as a hashed map and as a sorted one.
#[derive(Debug, Drop)]
pub struct Lots {
    pub hashed: HashMap<Side, u8>,
    pub sorted: BTreeMap<Side, u8>,
}
