// A struct whose fields have other names, and whose unknown fields are errors: what is written of it, and what reads as it.
use super::rows::{reads, rereads};
use example_described::Contact;
use std::alloc::Global;
use std::test::Fail;

fn text(alloc: Global, text: &str) -> serde_dynamo::Result<String> {
    Ok(String::from_str(alloc, text)?)
}

const ANN: &str = r#"Contact { id: "a", phone: "7", email: None, groups: [] }"#;

#[test]
fn it_is_written_under_the_own_names(rt: HostRuntime) -> Result<(), Fail> {
    let alloc = rt.alloc();
    let mut groups = Vec::new(alloc);
    groups.push(text(alloc, "work")?)?;
    let contact = Contact {
        id: text(alloc, "a")?,
        phone: text(alloc, "7")?,
        email: Some(text(alloc, "a@b")?),
        groups,
    };
    rereads(
        &rt,
        alloc,
        contact,
        r#"{"M":{"email":{"S":"a@b"},"groups":{"L":[{"S":"work"}]},"id":{"S":"a"},"phone":{"S":"7"}}}"#,
        r#"Contact { id: "a", phone: "7", email: Some("a@b"), groups: ["work"] }"#,
    )
}

#[test]
fn a_field_reads_under_each_of_its_names(rt: HostRuntime) -> Result<(), Fail> {
    let alloc = rt.alloc();
    for json in [
        r#"{"M":{"id":{"S":"a"},"phone":{"S":"7"}}}"#,
        r#"{"M":{"id":{"S":"a"},"tel":{"S":"7"}}}"#,
        r#"{"M":{"id":{"S":"a"},"telephone":{"S":"7"}}}"#,
        r#"{"M":{"id":{"S":"a"},"mail":{"NULL":true},"tel":{"S":"7"},"groups":{"L":[]}}}"#,
        r#"{"L":[{"S":"a"},{"S":"7"},{"NULL":true},{"L":[]}]}"#,
    ] {
        reads::<Contact>(&rt, alloc, json, ANN)?;
    }
    reads::<Contact>(
        &rt,
        alloc,
        r#"{"M":{"id":{"S":"a"},"mail":{"S":"a@b"},"tel":{"S":"7"}}}"#,
        r#"Contact { id: "a", phone: "7", email: Some("a@b"), groups: [] }"#,
    )
}

#[test]
fn two_entries_of_one_field_are_refused(rt: HostRuntime) -> Result<(), Fail> {
    let alloc = rt.alloc();
    for (json, error) in [
        (r#"{"M":{"id":{"S":"a"},"phone":{"S":"7"},"tel":{"S":"7"}}}"#, "duplicate field `phone`"),
        (r#"{"M":{"id":{"S":"a"},"tel":{"S":"7"},"telephone":{"S":"7"}}}"#, "duplicate field `phone`"),
        (r#"{"M":{"email":{"NULL":true},"mail":{"NULL":true},"id":{"S":"a"}}}"#, "duplicate field `email`"),
        // The second is refused before its value is read, and the first fault counts.
        (r#"{"M":{"id":{"S":"a"},"phone":{"S":"7"},"tel":{"N":"7"}}}"#, "duplicate field `phone`"),
        (r#"{"M":{"id":{"S":"a"},"phone":{"N":"7"},"tel":{"S":"7"}}}"#, "Expected string"),
    ] {
        reads::<Contact>(&rt, alloc, json, error)?;
    }
    Ok(())
}

#[test]
fn an_unknown_field_is_refused(rt: HostRuntime) -> Result<(), Fail> {
    let alloc = rt.alloc();
    let unknown = "unknown field `zip`, expected one of `id`, `phone`, `email`, `groups`";
    for (json, error) in [
        (r#"{"M":{"id":{"S":"a"},"phone":{"S":"7"},"zip":{"S":"1"}}}"#, unknown),
        (r#"{"M":{"id":{"S":"a"},"zip":{"BS":[""]}}}"#, unknown),
        (r#"{"M":{"id":{"S":"a"}}}"#, "missing field `phone`"),
        (r#"{"M":{"id":{"S":"a"},"phone":{"NULL":true}}}"#, "Expected string"),
        (r#"{"M":{"groups":{"NULL":true},"id":{"S":"a"},"phone":{"S":"7"}}}"#, "Expected seq"),
        (r#"{"M":{"id":{"N":"1"},"zip":{"S":"1"}}}"#, "Expected string"),
        (r#"{"L":[{"S":"a"},{"S":"7"}]}"#, "invalid length: too few elements, expected struct Contact"),
        (r#"{"S":"a"}"#, "Expected map"),
    ] {
        reads::<Contact>(&rt, alloc, json, error)?;
    }
    Ok(())
}
