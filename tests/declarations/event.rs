/// Something that happened, in each form that a variant can have.
#[derive(Debug, Drop, PartialEq, Eq, PartialOrd, Ord, Hash)]
pub enum Event {
    Unit,
    Newtype(u8),
    Tuple(u8, u8),
    Structy { one: u8, two: u8 },
}
