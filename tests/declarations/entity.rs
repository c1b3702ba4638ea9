/// A customer of a shop.
#[derive(Debug, Drop)]
pub struct Customer {
    pub id: String,
    pub name: String,
    #[serde(skip_serializing_if = "Option::is_none")]
    pub email: Option<String>,
}

/// An item of a table that holds items of several types. The attribute `type` says of which type it
/// is.
#[derive(Debug, Drop)]
#[serde(tag = "type")]
pub enum Entity {
    Customer(Customer),
    Order {
        id: String,
        customer: String,
        #[serde(skip_serializing_if = "Option::is_none")]
        note: Option<String>,
    },
    Counter,
}
