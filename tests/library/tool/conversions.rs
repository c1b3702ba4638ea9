// What `dynamo` and `plain` print.
use crate::tool::streams::{Sink, Source, status};
use std::alloc::Global;
use std::process::Abort;
use std::test::Fail;

fn prints(
    rt: &impl Abort,
    alloc: Global,
    word: &str,
    input: &str,
    line: &str,
    wanted: u8,
) -> Result<(), Fail> {
    let mut output = Sink::new(alloc);
    let status = status(alloc, word, &mut Source::new(input.as_bytes()), &mut output)?;
    let printed = String::from_utf8(output.written)?;
    assert_eq!(rt; printed.as_str(), line, "{word} {input}");
    assert_eq!(rt; status, wanted, "{word} {input}");
    Ok(())
}

// Plain JSON, and the DynamoDB JSON that it is written as, which reads as that plain JSON.
const BOTH_WAYS: [(&str, &str); 9] = [
    ("null", "{\"NULL\":true}"),
    ("true", "{\"BOOL\":true}"),
    ("\"a\"", "{\"S\":\"a\"}"),
    ("-1", "{\"N\":\"-1\"}"),
    ("18446744073709551615", "{\"N\":\"18446744073709551615\"}"),
    ("[]", "{\"L\":[]}"),
    ("{}", "{\"M\":{}}"),
    (
        "{\"a\":[1,null]}",
        "{\"M\":{\"a\":{\"L\":[{\"N\":\"1\"},{\"NULL\":true}]}}}",
    ),
    (
        "{\"a\":{\"b\":\"\"},\"c\":false}",
        "{\"M\":{\"a\":{\"M\":{\"b\":{\"S\":\"\"}}},\"c\":{\"BOOL\":false}}}",
    ),
];

#[test]
fn plain_json_becomes_dynamo_json_and_back(rt: HostRuntime) -> Result<(), Fail> {
    let alloc = rt.alloc();
    for (plain, dynamo) in BOTH_WAYS {
        let plain_line = format!(in alloc; "{plain}\n")?;
        let dynamo_line = format!(in alloc; "{dynamo}\n")?;
        prints(&rt, alloc, "|dynamo", plain, dynamo_line.as_str(), 0)?;
        prints(&rt, alloc, "|plain", dynamo, plain_line.as_str(), 0)?;
    }
    Ok(())
}

// Numbers are read by their values, and sets as arrays.
#[test]
fn plain_json_has_numbers_for_texts_and_arrays_for_sets(rt: HostRuntime) -> Result<(), Fail> {
    let alloc = rt.alloc();
    prints(&rt, alloc, "|plain", "{\"N\":\"+5\"}", "5\n", 0)?;
    prints(&rt, alloc, "|plain", "{\"N\":\"007\"}", "7\n", 0)?;
    let texts = "{\"SS\":[\"b\",\"a\"]}";
    prints(&rt, alloc, "|plain", texts, "[\"b\",\"a\"]\n", 0)?;
    prints(
        &rt,
        alloc,
        "|plain",
        "{\"NS\":[\"2\",\"-1\"]}",
        "[2,-1]\n",
        0,
    )
}

#[test]
fn the_faults_of_both_are_printed(rt: HostRuntime) -> Result<(), Fail> {
    let alloc = rt.alloc();
    let floats = "error: JSON floats are not supported\n";
    let no_json = "error: input is not JSON\n";
    let no_key = "error: Expected exactly one key in the object, found none\n";
    let no_number = "error: Failed to parse 'abc' as a float: invalid float literal\n";
    prints(&rt, alloc, "|dynamo", "1.5", floats, 1)?;
    prints(&rt, alloc, "|dynamo", "{\"a\":[1,{\"b\":1e3}]}", floats, 1)?;
    prints(&rt, alloc, "|dynamo", "", no_json, 1)?;
    prints(&rt, alloc, "|dynamo", "[1", no_json, 1)?;
    prints(&rt, alloc, "|plain", "", no_json, 1)?;
    prints(&rt, alloc, "|plain", "{}", no_key, 1)?;
    let null = "{\"NULL\":false}";
    prints(&rt, alloc, "|plain", null, "error: Expected unit\n", 1)?;
    prints(&rt, alloc, "|plain", "{\"N\":\"abc\"}", no_number, 1)
}

#[test]
fn a_hundred_and_twenty_seven_arrays_are_printed(rt: HostRuntime) -> Result<(), Fail> {
    let alloc = rt.alloc();
    let open = "[".repeat(alloc, 127)?;
    let close = "]".repeat(alloc, 127)?;
    let plain = format!(in alloc; "{open}{close}")?;
    let open = "{\"L\":[".repeat(alloc, 126)?;
    let close = "]}".repeat(alloc, 126)?;
    let line = format!(in alloc; "{open}{{\"L\":[]}}{close}\n")?;
    prints(&rt, alloc, "|dynamo", plain.as_str(), line.as_str(), 0)
}
