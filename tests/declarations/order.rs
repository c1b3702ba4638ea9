/// An order, with what is in stock for it and where it goes.
#[derive(Debug, Drop)]
pub struct Order {
    pub id: String,
    pub count: u32,
    pub note: Option<String>,
    pub tags: Vec<String>,
    pub stock: HashMap<String, u64>,
    pub home: Address,
}
