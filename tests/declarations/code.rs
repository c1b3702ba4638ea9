/// The code of an article: a newtype, by which maps are keyed.
#[derive(Debug, Drop, PartialEq, Eq, PartialOrd, Ord, Hash)]
pub struct Code(pub String);
