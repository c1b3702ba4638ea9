/// A contact of an address book. Older items have its phone number under other names. An item with
/// any other attribute is refused.
#[derive(Debug, Drop)]
#[serde(deny_unknown_fields)]
pub struct Contact {
    pub id: String,
    #[serde(alias = "telephone", alias = "tel")]
    pub phone: String,
    #[serde(alias = "mail")]
    pub email: Option<String>,
    #[serde(default, skip_serializing_if = "Vec::is_empty")]
    pub groups: Vec<String>,
}
