/// A weight in grams: a newtype.
#[derive(Clone, Copy, Debug)]
pub struct Weight(pub u64);
