/// A sealed parcel.
#[derive(Debug, Drop)]
pub struct Parcel {
    pub seal: Sealed,
    pub weight: Weight,
}
