// Derived twins of described types whose fields have other names, and whose unknown fields are errors.
use crate::derived::random::Random;
use crate::derived::twins::{alike, reads_as_twin};
use dynamo_value::Result;
use example_described as own;
use serde::{Deserialize, Serialize};
use std::alloc::Global;
use std::test::Fail;

#[derive(Drop, Serialize, Deserialize)]
#[serde(deny_unknown_fields)]
struct Contact {
    id: String,
    #[serde(alias = "telephone", alias = "tel")]
    phone: String,
    #[serde(alias = "mail")]
    email: Option<String>,
    #[serde(default, skip_serializing_if = "Vec::is_empty")]
    groups: Vec<String>,
}

fn random_contact(alloc: Global, random: &mut Random) -> Result<own::Contact> {
    Ok(own::Contact {
        id: random.text(alloc)?,
        phone: random.text(alloc)?,
        email: random.maybe_text(alloc)?,
        groups: random.texts(alloc)?,
    })
}

#[test]
fn a_thousand_values_with_other_names(rt: HostRuntime) -> std::result::Result<(), Fail> {
    let alloc = rt.alloc();
    let mut random = Random::new();
    for _ in 0..1000 {
        reads_as_twin::<Contact, _>(&rt, alloc, &random_contact(alloc, &mut random)?)?;
    }
    Ok(())
}

#[test]
fn names_are_taken_alike(rt: HostRuntime) -> std::result::Result<(), Fail> {
    let alloc = rt.alloc();
    alike::<Contact, own::Contact>(&rt, alloc, &[
        r#"{"M":{"id":{"S":"a"},"phone":{"S":"7"}}}"#,
        r#"{"M":{"id":{"S":"a"},"tel":{"S":"7"},"mail":{"S":"a@b"}}}"#,
        r#"{"M":{"id":{"S":"a"},"telephone":{"S":"7"},"groups":{"L":[{"S":"x"}]}}}"#,
        r#"{"M":{"id":{"S":"a"},"phone":{"S":"7"},"tel":{"S":"7"}}}"#,
        r#"{"M":{"id":{"S":"a"},"tel":{"S":"7"},"telephone":{"S":"7"}}}"#,
        r#"{"M":{"id":{"S":"a"},"phone":{"N":"7"},"tel":{"S":"7"}}}"#,
        r#"{"M":{"id":{"S":"a"},"phone":{"S":"7"},"zip":{"S":"1"}}}"#,
        r#"{"M":{"id":{"N":"1"},"zip":{"S":"1"}}}"#,
        r#"{"M":{"about":{"S":"1"},"id":{"N":"1"}}}"#,
        r#"{"M":{"id":{"S":"a"}}}"#,
        r#"{"L":[{"S":"a"},{"S":"7"},{"NULL":true},{"L":[]}]}"#,
    ])
}
