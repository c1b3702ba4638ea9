// Fields that are left out if they hold their default: what is written of them, and what reads as them.
use super::rows::{reads, rereads};
use example_described::{Notice, Ticket};
use std::alloc::Global;
use std::collections::{BTreeMap, HashMap};
use std::test::Fail;

fn text(alloc: Global, text: &str) -> serde_dynamo::Result<String> {
    Ok(String::from_str(alloc, text)?)
}

fn empty_ticket(alloc: Global) -> serde_dynamo::Result<Ticket> {
    Ok(Ticket {
        id: text(alloc, "t-1")?,
        assigned_to: None,
        note: String::new(alloc),
        replies: Vec::new(alloc),
        labels: Vec::new(alloc),
        minutes: HashMap::new(alloc),
        links: BTreeMap::new(alloc),
    })
}

const EMPTY: &str = r#"Ticket { id: "t-1", assigned_to: None, note: "", replies: [], labels: [], minutes: {}, links: {} }"#;

#[test]
fn an_empty_ticket_is_its_id(rt: HostRuntime) -> Result<(), Fail> {
    let alloc = rt.alloc();
    rereads(&rt, alloc, empty_ticket(alloc)?, r#"{"M":{"id":{"S":"t-1"}}}"#, EMPTY)
}

#[test]
fn a_full_ticket_has_each_attribute(rt: HostRuntime) -> Result<(), Fail> {
    let alloc = rt.alloc();
    let mut ticket = empty_ticket(alloc)?;
    ticket.assigned_to = Some(text(alloc, "Ann")?);
    ticket.note = text(alloc, "n")?;
    ticket.replies.push(text(alloc, "")?)?;
    ticket.labels.push(text(alloc, "disk")?)?;
    ticket.minutes.insert(text(alloc, "Ann")?, 0)?;
    ticket.links.insert(text(alloc, "log")?, text(alloc, "l")?)?;
    rereads(
        &rt,
        alloc,
        ticket,
        r#"{"M":{"assignedTo":{"S":"Ann"},"id":{"S":"t-1"},"labels":{"SS":["disk"]},"links":{"M":{"log":{"S":"l"}}},"minutes":{"M":{"Ann":{"N":"0"}}},"note":{"S":"n"},"replies":{"L":[{"S":""}]}}}"#,
        r#"Ticket { id: "t-1", assigned_to: Some("Ann"), note: "n", replies: [""], labels: ["disk"], minutes: {"Ann": 0}, links: {"log": "l"} }"#,
    )
}

#[test]
fn what_another_program_wrote_reads_as_the_default(rt: HostRuntime) -> Result<(), Fail> {
    let alloc = rt.alloc();
    for json in [
        r#"{"M":{"id":{"S":"t-1"},"assignedTo":{"NULL":true}}}"#,
        r#"{"M":{"id":{"S":"t-1"},"note":{"S":""},"replies":{"L":[]}}}"#,
        r#"{"M":{"id":{"S":"t-1"},"labels":{"SS":[]}}}"#,
        r#"{"M":{"id":{"S":"t-1"},"labels":{"L":[]},"minutes":{"M":{}},"links":{"M":{}}}}"#,
    ] {
        reads::<Ticket>(&rt, alloc, json, EMPTY)?;
    }
    Ok(())
}

#[test]
fn a_field_of_another_kind_is_refused(rt: HostRuntime) -> Result<(), Fail> {
    let alloc = rt.alloc();
    for (json, error) in [
        (r#"{"M":{"note":{"S":"n"}}}"#, "missing field `id`"),
        (r#"{"M":{"id":{"S":"t-1"},"note":{"NULL":true}}}"#, "Expected string"),
        (r#"{"M":{"id":{"S":"t-1"},"replies":{"S":"r"}}}"#, "Expected seq"),
        (r#"{"M":{"id":{"S":"t-1"},"labels":{"NULL":true}}}"#, "Expected seq"),
        (r#"{"M":{"id":{"S":"t-1"},"minutes":{"L":[]}}}"#, "Expected map"),
    ] {
        reads::<Ticket>(&rt, alloc, json, error)?;
    }
    Ok(())
}

#[test]
fn a_field_of_a_variant_is_left_out(rt: HostRuntime) -> Result<(), Fail> {
    let alloc = rt.alloc();
    let by = text(alloc, "Bo")?;
    rereads(
        &rt,
        alloc,
        Notice::Answered { by, after: None },
        r#"{"M":{"Answered":{"M":{"by":{"S":"Bo"}}}}}"#,
        r#"Answered { by: "Bo", after: None }"#,
    )?;
    let by = text(alloc, "Bo")?;
    rereads(
        &rt,
        alloc,
        Notice::Answered { by, after: Some(0) },
        r#"{"M":{"Answered":{"M":{"after":{"N":"0"},"by":{"S":"Bo"}}}}}"#,
        r#"Answered { by: "Bo", after: Some(0) }"#,
    )?;
    rereads(&rt, alloc, Notice::Closed, r#"{"S":"Closed"}"#, "Closed")
}
