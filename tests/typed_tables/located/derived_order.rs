//! An order that derives serde's traits, with a field of each kind, and one fault each.
use super::derived_rows::holds;
use example_derived::Order;
use std::test::Fail;

// An order that reads.
const ORDER: &str = r#"{"M":{"id":{"S":"a"},"itemCount":{"N":"3"},"note":{"S":"n"},
    "stock":{"M":{"nut":{"N":"7"}}},"delivery":{"M":{"Express":{"M":{"days":{"N":"2"}}}}},
    "seal":{"B":"AQI="},"lots":{"NS":["7","8"]},"paid":{"BOOL":true}}}"#;

#[test]
fn each_field_is_a_step(rt: HostRuntime) -> Result<(), Fail> {
    let alloc = rt.alloc();
    let rows = [
        (ORDER, ORDER, "read"),
        (r#""id":{"S":"a"},"#, "", "missing field `id`"),
        (r#"{"N":"3"}"#, r#"{"S":"3"}"#, "itemCount: Expected num"),
        (r#"{"S":"n"}"#, r#"{"L":[]}"#, "note: Expected string"),
        (r#"{"N":"7"}"#, r#"{"N":"7"},"a[0]":{"S":"1"}"#, r#"stock."a[0]": Expected num"#),
        (r#"{"N":"2"}"#, r#"{"N":"300"}"#, "delivery.Express.days: Failed to parse '300'"),
        (r#""days""#, r#""hours""#, "delivery.Express: missing field `days`"),
        (r#""Express""#, r#""Lost""#, "delivery: unknown variant `Lost`"),
        (r#"{"B":"AQI="}"#, r#"{"S":"x"}"#, "seal: Expected binary data"),
        (r#"["7","8"]"#, r#"["7","x"]"#, "lots[1]: Failed to parse 'x' as an integer"),
        (r#"{"BOOL":true}"#, r#"{"S":"yes"}"#, "paid: Expected bool"),
    ];
    for (from, to, wanted) in rows {
        let text = ORDER.replace(alloc, from, to)?;
        holds::<Order>(&rt, alloc, &[(text.as_str(), wanted)])?;
    }
    Ok(())
}
