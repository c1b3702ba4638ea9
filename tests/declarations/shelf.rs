/// A shelf, with the number of each article that stands on it.
#[derive(Debug, Drop)]
pub struct Shelf {
    pub name: String,
    pub articles: BTreeMap<Code, u8>,
}
