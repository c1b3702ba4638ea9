use super::{has_text, read};
use dynamo_value::AttributeValue;
use std::alloc::Global;
use std::process::Abort;
use std::test::Fail;

// Texts that others wrote, each with the compact text, keys sorted, that Python's json makes of it.

// What boto3's serializer makes of Python values.
const BOTO3: [(&str, &str); 16] = [
    (r#"{"BS": ["eHk=", "8Q=="]}"#, r#"{"BS":["eHk=","8Q=="]}"#),
    (r#"{"NULL": true}"#, r#"{"NULL":true}"#),
    (
        r#"{"N": "9223372036854775807"}"#,
        r#"{"N":"9223372036854775807"}"#,
    ),
    (r#"{"BOOL": false}"#, r#"{"BOOL":false}"#),
    (r#"{"N": "-451927561"}"#, r#"{"N":"-451927561"}"#),
    (
        r#"{"L": [{"N": "777929958"}, {"NULL": true}, {"SS": ["X \u0001\ud83d\ude00/"]}]}"#,
        r#"{"L":[{"N":"777929958"},{"NULL":true},{"SS":["X \u0001😀/"]}]}"#,
    ),
    (r#"{"S": "\\a_\u00e9.9aZ"}"#, r#"{"S":"\\a_é.9aZ"}"#),
    (r#"{"L": [{"B": "iDHC"}]}"#, r#"{"L":[{"B":"iDHC"}]}"#),
    (r#"{"B": "OuqNNxeXBgc="}"#, r#"{"B":"OuqNNxeXBgc="}"#),
    (
        r#"{"S": "\u00e9_\"._.cc_\u00e9\""}"#,
        r#"{"S":"é_\"._.cc_é\""}"#,
    ),
    (
        r#"{"SS": ["_\"", "\\ X/\u00e9\t/X\ud83d\ude00"]}"#,
        r#"{"SS":["_\"","\\ X/é\t/X😀"]}"#,
    ),
    (r#"{"NS": ["1", "2", "3"]}"#, r#"{"NS":["1","2","3"]}"#),
    (
        r#"{"M": {" Z9Y": {"L": [{"S": "\u00011\ud83d\ude00\""}]}}}"#,
        r#"{"M":{" Z9Y":{"L":[{"S":"\u00011😀\""}]}}}"#,
    ),
    (r#"{"SS": ["XaX\u0001"]}"#, r#"{"SS":["XaX\u0001"]}"#),
    (
        r#"{"M": {"\\\u0001X c": {"NULL": true}, "": {"NULL": true}}}"#,
        r#"{"M":{"":{"NULL":true},"\\\u0001X c":{"NULL":true}}}"#,
    ),
    (
        r#"{"M": {"\"._\u6f2211\u6f22\u6f2200": {"NULL": true}}}"#,
        r#"{"M":{"\"._漢11漢漢00":{"NULL":true}}}"#,
    ),
];

// Values in the bodies of requests that boto3 sent to a server.
const REQUESTS: [(&str, &str); 13] = [
    (r#"{"N": "123.45"}"#, r#"{"N":"123.45"}"#),
    (
        r#"{"S": "H\u00e9llo \"x\"\n\ud83d\ude00"}"#,
        r#"{"S":"Héllo \"x\"\n😀"}"#,
    ),
    (r#"{"BOOL": true}"#, r#"{"BOOL":true}"#),
    (
        r#"{"B": "dGhpcyB0ZXh0IGlzIGJhc2U2NC1lbmNvZGVk"}"#,
        r#"{"B":"dGhpcyB0ZXh0IGlzIGJhc2U2NC1lbmNvZGVk"}"#,
    ),
    (
        r#"{"M": {"Name": {"S": "Joe"}, "Age": {"N": "35"}}}"#,
        r#"{"M":{"Age":{"N":"35"},"Name":{"S":"Joe"}}}"#,
    ),
    (
        r#"{"L": [{"S": "Cookies"}, {"S": "Coffee"}, {"N": "3.14159"}]}"#,
        r#"{"L":[{"S":"Cookies"},{"S":"Coffee"},{"N":"3.14159"}]}"#,
    ),
    (
        r#"{"SS": ["Giraffe", "Hippo", "Zebra"]}"#,
        r#"{"SS":["Giraffe","Hippo","Zebra"]}"#,
    ),
    (
        r#"{"NS": ["42.2", "-19", "7.5", "3.14"]}"#,
        r#"{"NS":["42.2","-19","7.5","3.14"]}"#,
    ),
    (
        r#"{"BS": ["U3Vubnk=", "UmFpbnk=", "U25vd3k="]}"#,
        r#"{"BS":["U3Vubnk=","UmFpbnk=","U25vd3k="]}"#,
    ),
    (r#"{"S": "k1"}"#, r#"{"S":"k1"}"#),
    (
        r#"{"L": [{"N": "10000000000000000000000000000000000000"}, {"N": "42"}, {"N": "1"}]}"#,
        r#"{"L":[{"N":"10000000000000000000000000000000000000"},{"N":"42"},{"N":"1"}]}"#,
    ),
    (
        r#"{"L": [{"M": {"_\\\ud83d\ude00": {"BS": ["eHk=", "cw=="]}}}, {"B": "cBgkvA=="}, {"N": "42"}]}"#,
        r#"{"L":[{"M":{"_\\😀":{"BS":["eHk=","cw=="]}}},{"B":"cBgkvA=="},{"N":"42"}]}"#,
    ),
    (
        r#"{"N": "9.9999999999999999999999999999999999999E+125"}"#,
        r#"{"N":"9.9999999999999999999999999999999999999E+125"}"#,
    ),
];

// The values of the item that AWS's guide to exports shows.
const EXPORT: [(&str, &str); 9] = [
    (
        r#"{"SS":["Author1","Author2"]}"#,
        r#"{"SS":["Author1","Author2"]}"#,
    ),
    (r#"{"S":"8.5 x 11.0 x 1.5"}"#, r#"{"S":"8.5 x 11.0 x 1.5"}"#),
    (r#"{"S":"333-3333333333"}"#, r#"{"S":"333-3333333333"}"#),
    (r#"{"N":"103"}"#, r#"{"N":"103"}"#),
    (r#"{"BOOL":false}"#, r#"{"BOOL":false}"#),
    (r#"{"N":"600"}"#, r#"{"N":"600"}"#),
    (r#"{"N":"2000"}"#, r#"{"N":"2000"}"#),
    (r#"{"S":"Book"}"#, r#"{"S":"Book"}"#),
    (r#"{"S":"Book 103 Title"}"#, r#"{"S":"Book 103 Title"}"#),
];

// Each text reads, and the compact text is given back.
fn given_back(rt: &impl Abort, alloc: Global, rows: &[(&str, &str)]) -> Result<(), Fail> {
    for (text, wanted) in rows {
        let value: AttributeValue = read(alloc, text)?;
        has_text(rt, alloc, &value, wanted)?;
    }
    Ok(())
}

#[test]
fn what_others_wrote_is_given_back(rt: HostRuntime) -> Result<(), Fail> {
    let alloc = rt.alloc();
    given_back(&rt, alloc, &BOTO3)?;
    given_back(&rt, alloc, &REQUESTS)?;
    given_back(&rt, alloc, &EXPORT)
}
