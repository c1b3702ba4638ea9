// Derived twins of types that are described: they write the same, read what the other wrote, and refuse alike.
use crate::derived::random::Random;
use crate::derived::rows::value;
use dynamo_value::{AttributeValue, ByteBuf, Error, ErrorImpl, Result};
use serde::{Deserialize, DeserializeOwned, Serialize};
use serde_dynamo::samples;
use std::alloc::Global;
use std::process::Abort;
use std::test::Fail;

#[derive(Drop, Serialize, Deserialize)]
struct User {
    id: String,
    name: String,
    age: u8,
}

#[derive(Drop, Serialize, Deserialize)]
enum Event {
    Unit,
    Newtype(u8),
    Tuple(u8, u8),
    Structy { one: u8, two: u8 },
}

#[derive(Drop, Serialize, Deserialize)]
struct Sets {
    #[serde(with = "dynamo_serde::string_set")]
    names: Vec<String>,
    #[serde(with = "dynamo_serde::number_set")]
    numbers: Vec<u64>,
    #[serde(with = "dynamo_serde::binary_set")]
    blobs: Vec<Vec<u8>>,
}

#[derive(Drop, Serialize, Deserialize)]
struct Station {
    id: String,
    reading: Option<u8>,
    tags: Vec<String>,
}

// Both write the same, and what each reads of what the other wrote is written so again.
fn agree<D, O>(
    rt: &impl Abort,
    alloc: Global,
    derived: &D,
    own: &O,
) -> std::result::Result<(), Fail>
where
    D: Serialize + DeserializeOwned,
    O: serde_dynamo::ser::Serialize + serde_dynamo::de::Deserialize,
{
    let written = dynamo_serde::to_attribute_value(alloc, derived)?;
    assert!(rt; written == serde_dynamo::to_attribute_value(alloc, own)?);
    reads_as_twin::<D, O>(rt, alloc, own)
}

// The twin of a described value is read of what that was written as, and each writes again what the other wrote.
pub(crate) fn reads_as_twin<D, O>(
    rt: &impl Abort,
    alloc: Global,
    own: &O,
) -> std::result::Result<(), Fail>
where
    D: Serialize + DeserializeOwned,
    O: serde_dynamo::ser::Serialize + serde_dynamo::de::Deserialize,
{
    let written = serde_dynamo::to_attribute_value(alloc, own)?;
    let derived: D = dynamo_serde::read_attribute_value(alloc, &written)?;
    let again = dynamo_serde::to_attribute_value(alloc, &derived)?;
    assert!(rt; written == again);
    let own_read: O = serde_dynamo::from_attribute_value(alloc, again)?;
    assert!(rt; written == serde_dynamo::to_attribute_value(alloc, own_read)?);
    Ok(())
}

fn user_pair(alloc: Global, random: &mut Random) -> Result<(User, samples::User)> {
    let (id, name, age) = (random.text(alloc)?, random.text(alloc)?, random.byte());
    let own = samples::User {
        id: id.clone()?,
        name: name.clone()?,
        age,
    };
    Ok((User { id, name, age }, own))
}

fn event_pair(random: &mut Random) -> (Event, samples::Event) {
    let (one, two) = (random.byte(), random.byte());
    match random.next() % 4 {
        0 => (Event::Unit, samples::Event::Unit),
        1 => (Event::Newtype(one), samples::Event::Newtype(one)),
        2 => (Event::Tuple(one, two), samples::Event::Tuple(one, two)),
        _ => (Event::Structy { one, two }, samples::Event::Structy { one, two }),
    }
}

fn sets_pair(alloc: Global, random: &mut Random) -> Result<(Sets, samples::Sets)> {
    let (names, numbers) = (random.texts(alloc)?, random.numbers(alloc)?);
    let mut blobs = Vec::new(alloc);
    let mut own_blobs = Vec::new(alloc);
    for _ in 0..random.count() {
        let blob = random.bytes(alloc)?;
        own_blobs.push(ByteBuf::from(blob.clone()?))?;
        blobs.push(blob)?;
    }
    let own = samples::Sets {
        names: names.clone()?,
        numbers: numbers.clone()?,
        blobs: own_blobs,
    };
    Ok((Sets {
        names,
        numbers,
        blobs,
    }, own))
}

fn station_pair(alloc: Global, random: &mut Random) -> Result<(Station, example_described::Station)> {
    let (id, tags) = (random.text(alloc)?, random.texts(alloc)?);
    let reading = if random.count() == 0 {
        None
    } else {
        Some(random.byte())
    };
    let own = example_described::Station {
        id: id.clone()?,
        reading,
        tags: tags.clone()?,
    };
    Ok((Station { id, reading, tags }, own))
}

#[test]
fn a_thousand_values_of_each(rt: HostRuntime) -> std::result::Result<(), Fail> {
    let alloc = rt.alloc();
    let mut random = Random::new();
    for _ in 0..1000 {
        let (derived, own) = user_pair(alloc, &mut random)?;
        agree(&rt, alloc, &derived, &own)?;
        let (derived, own) = event_pair(&mut random);
        agree(&rt, alloc, &derived, &own)?;
        let (derived, own) = sets_pair(alloc, &mut random)?;
        agree(&rt, alloc, &derived, &own)?;
        let (derived, own) = station_pair(alloc, &mut random)?;
        agree(&rt, alloc, &derived, &own)?;
    }
    Ok(())
}

// What a reading answered: a value as it is written, a fault as its text, but a fault's own message only that it is one.
fn answer(alloc: Global, read: Result<AttributeValue, Error>) -> std::result::Result<String, Fail> {
    match read {
        Ok(written) => Ok(format!(in alloc; "{written:?}")?),
        Err(error) => match error.kind() {
            ErrorImpl::Message(_) => Ok(String::from_str(alloc, "a message")?),
            kind => Ok(format!(in alloc; "{kind}")?),
        },
    }
}

fn read_derived<D: Serialize + DeserializeOwned>(alloc: Global, json: &str) -> std::result::Result<Result<AttributeValue, Error>, Fail> {
    Ok(match dynamo_serde::from_attribute_value::<D>(alloc, value(alloc, json)?) {
        Ok(read) => dynamo_serde::to_attribute_value(alloc, &read),
        Err(error) => Err(error),
    })
}

fn read_own<O: serde_dynamo::ser::Serialize + serde_dynamo::de::Deserialize>(alloc: Global, json: &str) -> std::result::Result<Result<AttributeValue, Error>, Fail> {
    Ok(match serde_dynamo::from_attribute_value::<O>(alloc, value(alloc, json)?) {
        Ok(read) => serde_dynamo::to_attribute_value(alloc, read),
        Err(error) => Err(error),
    })
}

pub(crate) fn alike<D, O>(rt: &impl Abort, alloc: Global, rows: &[&str]) -> std::result::Result<(), Fail>
where
    D: Serialize + DeserializeOwned,
    O: serde_dynamo::ser::Serialize + serde_dynamo::de::Deserialize,
{
    for json in rows {
        let derived = answer(alloc, read_derived::<D>(alloc, json)?)?;
        let own = answer(alloc, read_own::<O>(alloc, json)?)?;
        assert_eq!(rt; derived.as_str(), own.as_str(), "{json}");
    }
    Ok(())
}

#[test]
fn refusals_are_alike(rt: HostRuntime) -> std::result::Result<(), Fail> {
    let alloc = rt.alloc();
    alike::<User, samples::User>(&rt, alloc, &[
        r#"{"M":{"id":{"S":"a"},"name":{"S":"b"},"age":{"N":"1"}}}"#,
        r#"{"M":{"id":{"S":"a"},"name":{"S":"b"},"age":{"N":"1"},"more":{"BS":[""]}}}"#,
        r#"{"L":[{"S":"a"},{"S":"b"},{"N":"1"}]}"#,
        r#"{"L":[{"S":"a"},{"S":"b"}]}"#,
        r#"{"M":{"id":{"S":"a"},"name":{"N":"1"},"age":{"N":"1"}}}"#,
        r#"{"M":{"id":{"N":"1"},"name":{"N":"1"},"age":{"S":"1"}}}"#,
        r#"{"M":{"id":{"S":"a"},"name":{"S":"b"}}}"#,
        r#"{"M":{"id":{"S":"a"},"name":{"S":"b"},"age":{"N":"256"}}}"#,
        r#"{"M":{"id":{"S":"a"},"name":{"S":"b"},"age":{"N":"-1"}}}"#,
        r#"{"M":{"id":{"S":"a"},"name":{"S":"b"},"age":{"N":"1.0"}}}"#,
        r#"{"M":{"id":{"S":"a"},"name":{"S":"b"},"age":{"NULL":true}}}"#,
        r#"{"NULL":true}"#,
        r#"{"S":"a"}"#,
        r#"{"SS":["a","b","c"]}"#,
    ])?;
    alike::<Event, samples::Event>(&rt, alloc, &[
        r#"{"S":"Unit"}"#,
        r#"{"S":"Other"}"#,
        r#"{"S":"Newtype"}"#,
        r#"{"M":{"Other":{"N":"1"}}}"#,
        r#"{"M":{"Newtype":{"N":"1"}}}"#,
        r#"{"M":{"Newtype":{"N":"256"}}}"#,
        r#"{"M":{"Unit":{"NULL":true}}}"#,
        r#"{"M":{"Tuple":{"NS":["1","2"]}}}"#,
        r#"{"M":{"Tuple":{"L":[{"N":"1"}]}}}"#,
        r#"{"M":{"Tuple":{"L":[{"N":"1"},{"N":"2"},{"N":"3"}]}}}"#,
        r#"{"M":{"Structy":{"M":{"one":{"N":"1"}}}}}"#,
        r#"{"M":{}}"#,
        r#"{"M":{"Newtype":{"N":"1"},"Unit":{"NULL":true}}}"#,
        r#"{"M":{"Other":{"N":"1"},"Unit":{"NULL":true}}}"#,
        r#"{"N":"1"}"#,
        r#"{"L":[]}"#,
    ])?;
    alike::<Sets, samples::Sets>(&rt, alloc, &[
        r#"{"M":{"names":{"SS":["a"]},"numbers":{"NS":["1"]},"blobs":{"BS":["AQ=="]}}}"#,
        r#"{"M":{"names":{"L":[{"S":"a"}]},"numbers":{"L":[]},"blobs":{"L":[{"B":""}]}}}"#,
        r#"{"M":{"names":{"L":[{"N":"1"}]},"numbers":{"L":[]},"blobs":{"L":[]}}}"#,
        r#"{"M":{"names":{"SS":[]},"numbers":{"NS":["x"]},"blobs":{"BS":[]}}}"#,
        r#"{"M":{"names":{"SS":[]},"numbers":{"N":"1"},"blobs":{"BS":[]}}}"#,
    ])?;
    alike::<Station, example_described::Station>(&rt, alloc, &[
        r#"{"M":{"id":{"S":"a"},"tags":{"SS":["b"]}}}"#,
        r#"{"M":{"id":{"S":"a"},"reading":{"NULL":true},"tags":{"L":[]}}}"#,
        r#"{"M":{"id":{"S":"a"},"reading":{"NULL":false},"tags":{"L":[]}}}"#,
        r#"{"M":{"reading":{"N":"9"},"tags":{"L":[]}}}"#,
        r#"{"M":{"id":{"S":"a"},"reading":{"N":"9"},"tags":{"M":{}}}}"#,
    ])
}
