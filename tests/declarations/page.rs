/// A page of what was found, and where the next one begins.
#[derive(Debug, Drop)]
pub struct Page<T> {
    pub items: Vec<T>,
    pub next: Option<String>,
}
