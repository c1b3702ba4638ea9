/// A user of some service.
#[derive(Debug, Drop, PartialEq, Eq)]
pub struct User {
    pub id: String,
    pub name: String,
    pub age: u8,
}
