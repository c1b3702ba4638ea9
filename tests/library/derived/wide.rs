// A struct of forty fields.
use crate::derived::rows::reads;
use serde::{Deserialize, Serialize};
use std::test::Fail;

#[derive(Drop, Serialize, Deserialize)]
struct Forty {
    f00: u8,
    f01: String,
    f02: Option<u64>,
    f03: bool,
    f04: Vec<u8>,
    f05: u8,
    f06: String,
    f07: Option<u64>,
    f08: bool,
    f09: Vec<u8>,
    f10: u8,
    f11: String,
    f12: Option<u64>,
    f13: bool,
    f14: Vec<u8>,
    f15: u8,
    f16: String,
    f17: Option<u64>,
    f18: bool,
    f19: Vec<u8>,
    f20: u8,
    f21: String,
    f22: Option<u64>,
    f23: bool,
    f24: Vec<u8>,
    f25: u8,
    f26: String,
    f27: Option<u64>,
    f28: bool,
    f29: Vec<u8>,
    f30: u8,
    f31: String,
    f32: Option<u64>,
    f33: bool,
    f34: Vec<u8>,
    f35: u8,
    f36: String,
    f37: Option<u64>,
    f38: bool,
    f39: Vec<u8>,
}

#[test]
fn forty_fields(rt: HostRuntime) -> Result<(), Fail> {
    reads::<Forty>(&rt, rt.alloc(), &[
        (r#"{"M":{"f00":{"N":"0"},"f01":{"S":"t1"},"f02":{"NULL":true},"f03":{"BOOL":true},"f04":{"L":[{"N":"4"}]},"f05":{"N":"5"},"f06":{"S":"t6"},"f07":{"NULL":true},"f08":{"BOOL":true},"f09":{"L":[{"N":"9"}]},"f10":{"N":"10"},"f11":{"S":"t11"},"f12":{"NULL":true},"f13":{"BOOL":true},"f14":{"L":[{"N":"14"}]},"f15":{"N":"15"},"f16":{"S":"t16"},"f17":{"NULL":true},"f18":{"BOOL":true},"f19":{"L":[{"N":"19"}]},"f20":{"N":"20"},"f21":{"S":"t21"},"f22":{"NULL":true},"f23":{"BOOL":true},"f24":{"L":[{"N":"24"}]},"f25":{"N":"25"},"f26":{"S":"t26"},"f27":{"NULL":true},"f28":{"BOOL":true},"f29":{"L":[{"N":"29"}]},"f30":{"N":"30"},"f31":{"S":"t31"},"f32":{"NULL":true},"f33":{"BOOL":true},"f34":{"L":[{"N":"34"}]},"f35":{"N":"35"},"f36":{"S":"t36"},"f37":{"NULL":true},"f38":{"BOOL":true},"f39":{"L":[{"N":"39"}]}}}"#, ""),
        (r#"{"M":{"f00":{"N":"1"}}}"#, "missing field `f01`"),
    ])
}
