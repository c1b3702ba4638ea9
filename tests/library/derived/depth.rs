// Lists and maps nest 127 levels deep, and no deeper.
use dynamo_serde::{from_attribute_value, to_attribute_value};
use dynamo_value::{AttributeValue, Result};
use serde_json::Value;
use std::alloc::Global;
use std::collections::HashMap;
use std::test::Fail;

// Lists and maps in turn, nested so deep.
fn nested(alloc: Global, levels: u32) -> Result<AttributeValue> {
    let mut value = AttributeValue::Bool(true);
    for level in 0..levels {
        if level % 2 == 0 {
            value = AttributeValue::L(vec![in alloc; value]?);
        } else {
            let mut map = HashMap::new(alloc);
            map.insert(String::from_str(alloc, "k")?, value)?;
            value = AttributeValue::M(map);
        }
    }
    Ok(value)
}

#[test]
fn levels(rt: HostRuntime) -> Result<(), Fail> {
    let alloc = rt.alloc();
    let deepest: Value = from_attribute_value(alloc, nested(alloc, 127)?)?;
    assert!(rt; to_attribute_value(alloc, &deepest)? == nested(alloc, 127)?);
    let too_deep = vec![in alloc; deepest]?;
    for answer in [
        to_attribute_value(alloc, &too_deep).err(),
        from_attribute_value::<Value>(alloc, nested(alloc, 128)?).err(),
        from_attribute_value::<Value>(alloc, nested(alloc, 1000)?).err(),
    ] {
        let error = answer.ok_or("no error")?;
        assert_eq!(rt;
            error.to_string(alloc)?.as_str(),
            "lists and maps nest more than 127 levels"
        );
    }
    Ok(())
}
