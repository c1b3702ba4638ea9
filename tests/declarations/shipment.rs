/// Where a shipment is: an enum with variants of all four kinds.
#[derive(Debug, Drop)]
pub enum Shipment {
    Waiting,
    Tracked(String),
    Between(u8, u8),
    Delivered { at: u64, to: Address },
}
