/// The mark of a sealed thing: a unit struct.
#[derive(Clone, Copy, Debug)]
pub struct Sealed;
