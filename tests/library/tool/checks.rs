// What `check` prints.
use crate::tool::streams::{Sink, Source, status};
use std::alloc::Global;
use std::process::Abort;
use std::test::Fail;

// What is printed for the input and the status, where the reader fills its room.
fn checked(alloc: Global, input: &[u8]) -> Result<(String, u8), Fail> {
    let mut output = Sink::new(alloc);
    let status = status(alloc, "|check", &mut Source::new(input), &mut output)?;
    Ok((String::from_utf8(output.written)?, status))
}

fn prints(rt: &impl Abort, alloc: Global, input: &str, line: &str, wanted: u8) -> Result<(), Fail> {
    let (printed, status) = checked(alloc, input.as_bytes())?;
    assert_eq!(rt; printed.as_str(), line, "{input}");
    assert_eq!(rt; status, wanted, "{input}");
    Ok(())
}

#[test]
fn dynamo_json_is_printed_in_its_compact_form(rt: HostRuntime) -> Result<(), Fail> {
    let alloc = rt.alloc();
    for (input, line) in [
        ("{ \"BOOL\" : true }", "{\"BOOL\":true}\n"),
        ("\n{\"NULL\":false}\t", "{\"NULL\":false}\n"),
        ("{\"N\":\"abc\"}", "{\"N\":\"abc\"}\n"),
        ("{\"S\":\"\\u0061\"}", "{\"S\":\"a\"}\n"),
        ("{\"SS\": []}", "{\"SS\":[]}\n"),
        (
            "{\"NS\":[\"42.2\", \"-19\"]}",
            "{\"NS\":[\"42.2\",\"-19\"]}\n",
        ),
        ("{\"B\":\"dGVzdAAAAAA=\"}", "{\"B\":\"dGVzdAAAAAA=\"}\n"),
        (
            "{\"BS\":[\"U3Vubnk=\", \"UmFpbnk=\", \"U25vd3k=\"]}",
            "{\"BS\":[\"U3Vubnk=\",\"UmFpbnk=\",\"U25vd3k=\"]}\n",
        ),
        (
            "{\"M\":{\"b\":{\"N\":\"1\"}, \"a\":{\"L\":[{\"S\":\"x\"}]}}}",
            "{\"M\":{\"a\":{\"L\":[{\"S\":\"x\"}]},\"b\":{\"N\":\"1\"}}}\n",
        ),
    ] {
        prints(&rt, alloc, input, line, 0)?;
    }
    Ok(())
}

#[test]
fn a_fault_is_printed(rt: HostRuntime) -> Result<(), Fail> {
    let alloc = rt.alloc();
    let none = "error: Expected exactly one key in the object, found none\n";
    let several = "error: Expected exactly one key in the object, found multiple keys\n";
    let unknown = "error: The key 'X' is not a known DynamoDB prefix\n";
    for (input, line) in [
        ("{}", none),
        ("{\"M\":{\"a\":{}}}", none),
        ("{\"L\":[{},{\"X\":\"1\"}]}", none),
        ("{\"S\":\"1\",\"N\":\"1\"}", several),
        ("{\"X\":\"1\"}", unknown),
        ("{\"M\":{\"b\":{},\"a\":{\"X\":\"1\"}}}", unknown),
    ] {
        prints(&rt, alloc, input, line, 1)?;
    }
    Ok(())
}

// The text of these faults is promised in part.
#[test]
fn a_fault_is_printed_with_its_cause(rt: HostRuntime) -> Result<(), Fail> {
    let alloc = rt.alloc();
    for (input, part) in [
        ("{\"B\":\"X\"}", "error: Failed to decode base64: "),
        ("{\"B\":\"AQI\"}", "error: Failed to decode base64: "),
        ("{\"B\":\"AQJ=\"}", "error: Failed to decode base64: "),
        ("{\"BS\":[\"X\"]}", "error: Failed to decode base64: "),
        ("{\"S\":1}", "error: "),
        ("{\"N\":1.5}", "error: "),
        ("{\"M\":[]}", "error: "),
    ] {
        let (printed, status) = checked(alloc, input.as_bytes())?;
        assert!(rt; printed.starts_with(part), "{input}");
        assert!(rt; printed.ends_with("\n"), "{input}");
        assert_eq!(rt; status, 1, "{input}");
    }
    for input in ["42", "[]", "null", "\"S\""] {
        let (printed, status) = checked(alloc, input.as_bytes())?;
        assert!(rt;
            printed.contains("expected an object with a single key"),
            "{input}"
        );
        assert_eq!(rt; status, 1, "{input}");
    }
    Ok(())
}

#[test]
fn what_is_no_json_is_refused(rt: HostRuntime) -> Result<(), Fail> {
    let alloc = rt.alloc();
    let line = "error: input is not JSON\n";
    let whole = "{\"S\":\"a\"}";
    for end in 0..whole.len() {
        let (printed, status) = checked(alloc, &whole.as_bytes()[..end])?;
        assert_eq!(rt; printed.as_str(), line, "{end}");
        assert_eq!(rt; status, 1, "{end}");
    }
    let (printed, status) = checked(alloc, b"\xff")?;
    assert_eq!(rt; printed.as_str(), line);
    assert_eq!(rt; status, 1);
    let deep = "[".repeat(alloc, 128)?;
    prints(&rt, alloc, deep.as_str(), line, 1)?;
    let closed = format!(in alloc; "{deep}{}", "]".repeat(alloc, 128)?)?;
    prints(&rt, alloc, closed.as_str(), line, 1)?;
    prints(&rt, alloc, "{\"S\":\"a\"} {}", line, 1)
}

// Each value lies two arrays or objects below the one that holds it, and JSON texts nest at most 127 deep.
#[test]
fn a_deep_list_is_printed(rt: HostRuntime) -> Result<(), Fail> {
    let alloc = rt.alloc();
    let line = format!(in alloc;
        "{}{{\"L\":[]}}{}\n",
        "{\"L\":[".repeat(alloc, 62)?,
        "]}".repeat(alloc, 62)?
    )?;
    prints(&rt, alloc, line.as_str(), line.as_str(), 0)
}

#[test]
fn a_long_string_is_printed_back(rt: HostRuntime) -> Result<(), Fail> {
    let alloc = rt.alloc();
    let line = format!(in alloc; "{{\"S\":\"{}\"}}\n", "a".repeat(alloc, 1_100_000)?)?;
    let (printed, status) = checked(alloc, line.as_bytes())?;
    assert!(rt; printed == line);
    assert_eq!(rt; status, 0);
    Ok(())
}
