// Structs of several fields: what is written of them, and what reads as them.
use super::rows::{reads, rereads};
use example_described::{Address, Order, Page, Reading, Sensor, Settings, Station};
use std::collections::HashMap;
use std::test::Fail;

#[test]
fn a_station_is_reread(rt: HostRuntime) -> Result<(), Fail> {
    let alloc = rt.alloc();
    let station = Station {
        id: String::from_str(alloc, "st-7")?,
        reading: Some(7),
        tags: vec![in alloc; String::from_str(alloc, "hill")?]?,
    };
    rereads(
        &rt,
        alloc,
        station,
        r#"{"M":{"id":{"S":"st-7"},"reading":{"N":"7"},"tags":{"L":[{"S":"hill"}]}}}"#,
        r#"Station { id: "st-7", reading: Some(7), tags: ["hill"] }"#,
    )
}

#[test]
fn the_fields_of_a_station_are_read_by_name(rt: HostRuntime) -> Result<(), Fail> {
    let alloc = rt.alloc();
    let silent = r#"Station { id: "a", reading: None, tags: [] }"#;
    // A missing option is none, and so is one that is null; an unknown field is ignored.
    reads::<Station>(
        &rt,
        alloc,
        r#"{"M":{"tags":{"L":[]},"id":{"S":"a"}}}"#,
        silent,
    )?;
    reads::<Station>(
        &rt,
        alloc,
        r#"{"M":{"id":{"S":"a"},"reading":{"NULL":true},"tags":{"L":[]}}}"#,
        silent,
    )?;
    reads::<Station>(
        &rt,
        alloc,
        r#"{"M":{"id":{"S":"a"},"other":{"M":{"x":{"N":"1"}}},"tags":{"L":[]}}}"#,
        silent,
    )?;
    reads::<Station>(
        &rt,
        alloc,
        r#"{"M":{"id":{"S":"a"}}}"#,
        "missing field `tags`",
    )?;
    reads::<Station>(
        &rt,
        alloc,
        r#"{"M":{"tags":{"L":[]}}}"#,
        "missing field `id`",
    )?;
    reads::<Station>(
        &rt,
        alloc,
        r#"{"M":{"id":{"N":"1"},"tags":{"L":[]}}}"#,
        "Expected string",
    )?;
    reads::<Station>(&rt, alloc, r#"{"S":"a"}"#, "Expected map")
}

#[test]
fn the_elements_of_a_list_are_read_as_fields_in_order(rt: HostRuntime) -> Result<(), Fail> {
    let alloc = rt.alloc();
    reads::<Station>(
        &rt,
        alloc,
        r#"{"L":[{"S":"a"},{"N":"3"},{"L":[{"S":"hill"}]}]}"#,
        r#"Station { id: "a", reading: Some(3), tags: ["hill"] }"#,
    )?;
    reads::<Station>(
        &rt,
        alloc,
        r#"{"L":[{"S":"a"}]}"#,
        "invalid length: too few elements, expected struct Station",
    )
}

#[test]
fn an_order_is_reread(rt: HostRuntime) -> Result<(), Fail> {
    let alloc = rt.alloc();
    let mut stock = HashMap::new(alloc);
    drop(stock.insert(String::from_str(alloc, "nut")?, 70_000_000_000_u64)?);
    let order = Order {
        id: String::from_str(alloc, "o-1")?,
        count: 2,
        note: None,
        tags: Vec::new(alloc),
        stock,
        home: Address {
            city: String::from_str(alloc, "Bern")?,
            zip: Some(3011),
        },
    };
    rereads(
        &rt,
        alloc,
        order,
        r#"{"M":{"count":{"N":"2"},"home":{"M":{"city":{"S":"Bern"},"zip":{"N":"3011"}}},"id":{"S":"o-1"},"note":{"NULL":true},"stock":{"M":{"nut":{"N":"70000000000"}}},"tags":{"L":[]}}}"#,
        r#"Order { id: "o-1", count: 2, note: None, tags: [], stock: {"nut": 70000000000}, home: Address { city: "Bern", zip: Some(3011) } }"#,
    )
}

#[test]
fn the_fields_of_a_record_within_are_wanted_too(rt: HostRuntime) -> Result<(), Fail> {
    let alloc = rt.alloc();
    reads::<Order>(
        &rt,
        alloc,
        r#"{"M":{"count":{"N":"2"},"home":{"M":{"zip":{"N":"3011"}}},"id":{"S":"o-1"},"stock":{"M":{}},"tags":{"L":[]}}}"#,
        "missing field `city`",
    )?;
    reads::<Order>(
        &rt,
        alloc,
        r#"{"M":{"count":{"N":"2"},"home":{"S":"Bern"},"id":{"S":"o-1"},"stock":{"M":{}},"tags":{"L":[]}}}"#,
        "Expected map",
    )?;
    reads::<Address>(
        &rt,
        alloc,
        r#"{"M":{"city":{"S":"Bern"}}}"#,
        r#"Address { city: "Bern", zip: None }"#,
    )
}

#[test]
fn a_page_is_reread_with_its_items(rt: HostRuntime) -> Result<(), Fail> {
    let alloc = rt.alloc();
    let bern = Address {
        city: String::from_str(alloc, "Bern")?,
        zip: None,
    };
    let page = Page {
        items: vec![in alloc; bern]?,
        next: Some(String::from_str(alloc, "o-2")?),
    };
    rereads(
        &rt,
        alloc,
        page,
        r#"{"M":{"items":{"L":[{"M":{"city":{"S":"Bern"},"zip":{"NULL":true}}}]},"next":{"S":"o-2"}}}"#,
        r#"Page { items: [Address { city: "Bern", zip: None }], next: Some("o-2") }"#,
    )?;
    reads::<Page<u8>>(
        &rt,
        alloc,
        r#"{"M":{"items":{"L":[{"N":"1"},{"N":"2"}]}}}"#,
        "Page { items: [1, 2], next: None }",
    )?;
    reads::<Page<u8>>(
        &rt,
        alloc,
        r#"{"M":{"next":{"S":"o-2"}}}"#,
        "missing field `items`",
    )
}

#[test]
fn a_sensor_is_reread(rt: HostRuntime) -> Result<(), Fail> {
    let alloc = rt.alloc();
    let label = String::from_str(alloc, "roof")?;
    let sensor = Sensor {
        name: String::from_str(alloc, "s-1")?,
        labels: vec![in alloc; label, String::from_str(alloc, "dry")?]?,
        retries: 3,
    };
    rereads(
        &rt,
        alloc,
        sensor,
        r#"{"M":{"labels":{"SS":["roof","dry"]},"retries":{"N":"3"},"sensorName":{"S":"s-1"}}}"#,
        r#"Sensor { name: "s-1", labels: ["roof", "dry"], retries: 3 }"#,
    )
}

#[test]
fn settings_that_are_missing_are_empty(rt: HostRuntime) -> Result<(), Fail> {
    let alloc = rt.alloc();
    let empty = "Settings { colors: {}, volumes: {}, tags: [], channels: [], span: (0, '\\0'), \
picture: ByteBuf { bytes: [] } }";
    reads::<Settings>(&rt, alloc, r#"{"M":{}}"#, empty)?;
    reads::<Settings>(
        &rt,
        alloc,
        r#"{"M":{"colors":{"M":{"sky":{"S":"blue"}}},"tags":{"SS":["a","b"]},"channels":{"NS":["7"]}}}"#,
        "Settings { colors: {\"sky\": \"blue\"}, volumes: {}, tags: [\"a\", \"b\"], channels: [7], \
span: (0, '\\0'), picture: ByteBuf { bytes: [] } }",
    )?;
    reads::<Settings>(&rt, alloc, r#"{"M":{"tags":{"S":"a"}}}"#, "Expected seq")?;
    reads::<Settings>(&rt, alloc, r#"{"M":{"span":{"NULL":true}}}"#, "Expected seq")
}

#[test]
fn a_sensor_is_read_by_its_stored_names_and_defaults(rt: HostRuntime) -> Result<(), Fail> {
    let alloc = rt.alloc();
    let reset = r#"Sensor { name: "a", labels: ["dry"], retries: 0 }"#;
    reads::<Sensor>(
        &rt,
        alloc,
        r#"{"M":{"labels":{"SS":["dry"]},"sensorName":{"S":"a"}}}"#,
        reset,
    )?;
    // A list is read as a set is.
    reads::<Sensor>(
        &rt,
        alloc,
        r#"{"M":{"labels":{"L":[{"S":"dry"}]},"sensorName":{"S":"a"}}}"#,
        reset,
    )?;
    reads::<Sensor>(
        &rt,
        alloc,
        r#"{"M":{"labels":{"SS":["dry"]},"name":{"S":"a"}}}"#,
        "missing field `sensorName`",
    )?;
    reads::<Sensor>(
        &rt,
        alloc,
        r#"{"M":{"sensorName":{"S":"a"}}}"#,
        "missing field `labels`",
    )?;
    reads::<Sensor>(
        &rt,
        alloc,
        r#"{"M":{"labels":{"S":"dry"},"sensorName":{"S":"a"}}}"#,
        "Expected seq",
    )
}

#[test]
fn a_reading_is_reread(rt: HostRuntime) -> Result<(), Fail> {
    let alloc = rt.alloc();
    rereads(
        &rt,
        alloc,
        Reading(
            60,
            Some(String::from_str(alloc, "K")?),
            vec![in alloc; 7, 255]?,
        ),
        r#"{"L":[{"N":"60"},{"S":"K"},{"L":[{"N":"7"},{"N":"255"}]}]}"#,
        r#"Reading(60, Some("K"), [7, 255])"#,
    )
}

#[test]
fn a_reading_is_read_by_its_elements(rt: HostRuntime) -> Result<(), Fail> {
    let alloc = rt.alloc();
    reads::<Reading>(
        &rt,
        alloc,
        r#"{"L":[{"N":"60"},{"NULL":true},{"L":[]},{"S":"more"}]}"#,
        "Reading(60, None, [])",
    )?;
    // A missing element is none no more than in serde.
    reads::<Reading>(
        &rt,
        alloc,
        r#"{"L":[{"N":"60"},{"NULL":true}]}"#,
        "invalid length: too few elements, expected tuple struct Reading",
    )?;
    reads::<Reading>(
        &rt,
        alloc,
        r#"{"L":[{"S":"60"},{"NULL":true},{"L":[]}]}"#,
        "Expected num",
    )?;
    reads::<Reading>(&rt, alloc, r#"{"N":"60"}"#, "Expected seq")
}
