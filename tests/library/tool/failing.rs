// Readers and writers that fail at each of their calls in turn.
use crate::tool::streams::{Endless, Sink, Source, status};
use std::io::ErrorKind;
use std::test::Fail;

// The words that have an input, each with one, the line that it prints, and the calls of `read` that it takes: one for each
// byte, and one that finds the end.
const RUNS: [(&str, &str, &str, u32); 3] = [
    ("|check", "{\"BOOL\": true}", "{\"BOOL\":true}\n", 15),
    ("|dynamo", "[true]", "{\"L\":[{\"BOOL\":true}]}\n", 7),
    ("|plain", "{\"BOOL\": true}", "true\n", 15),
];

#[test]
fn a_reader_that_fails_is_told(rt: HostRuntime) -> Result<(), Fail> {
    let alloc = rt.alloc();
    for (word, text, _, reads) in RUNS {
        for call in 1..=reads {
            let mut input = Source::troubled(text.as_bytes(), call, ErrorKind::BrokenPipe);
            let mut output = Sink::new(alloc);
            assert_eq!(rt;
                status(alloc, word, &mut input, &mut output)?,
                1,
                "{word} {call}"
            );
            assert_eq!(rt;
                output.written.as_slice(),
                b"error: read failed\n".as_slice(),
                "{word} {call}"
            );
            assert_eq!(rt; input.calls, call);
        }
    }
    Ok(())
}

// Also by an interruption after the last call, which is none.
#[test]
fn an_interrupted_call_is_made_again(rt: HostRuntime) -> Result<(), Fail> {
    let alloc = rt.alloc();
    for (word, text, line, reads) in RUNS {
        for call in 1..=reads.saturating_add(1) {
            let mut input = Source::troubled(text.as_bytes(), call, ErrorKind::Interrupted);
            let mut output = Sink::new(alloc);
            assert_eq!(rt;
                status(alloc, word, &mut input, &mut output)?,
                0,
                "{word} {call}"
            );
            assert_eq!(rt; output.written.as_slice(), line.as_bytes(), "{word} {call}");
            let again = if call > reads { 0 } else { 1 };
            assert_eq!(rt; input.calls, reads.saturating_add(again), "{word} {call}");
        }
    }
    Ok(())
}

#[test]
fn a_reader_that_never_ends_is_left(rt: HostRuntime) -> Result<(), Fail> {
    let alloc = rt.alloc();
    let mut input = Endless { calls: 0 };
    let mut output = Sink::new(alloc);
    assert_eq!(rt; status(alloc, "|check", &mut input, &mut output)?, 1);
    assert_eq!(rt;
        output.written.as_slice(),
        b"error: read failed\n".as_slice()
    );
    assert_eq!(rt; input.calls, 1_048_576);
    Ok(())
}

#[test]
fn a_writer_that_fails_has_a_beginning(rt: HostRuntime) -> Result<(), Fail> {
    let alloc = rt.alloc();
    for (word, text, line, _) in RUNS {
        for call in 1..=line.len() {
            let mut input = Source::new(text.as_bytes());
            let mut output = Sink::troubled(alloc, call as u32, ErrorKind::BrokenPipe);
            assert_eq!(rt;
                status(alloc, word, &mut input, &mut output)?,
                1,
                "{word} {call}"
            );
            assert_eq!(rt;
                output.written.as_slice(),
                &line.as_bytes()[..call - 1],
                "{word} {call}"
            );
        }
    }
    Ok(())
}

#[test]
fn an_interrupted_write_is_made_again(rt: HostRuntime) -> Result<(), Fail> {
    let alloc = rt.alloc();
    for (word, text, line, _) in RUNS {
        for call in 1..=line.len() {
            let mut input = Source::new(text.as_bytes());
            let mut output = Sink::troubled(alloc, call as u32, ErrorKind::Interrupted);
            assert_eq!(rt;
                status(alloc, word, &mut input, &mut output)?,
                0,
                "{word} {call}"
            );
            assert_eq!(rt; output.written.as_slice(), line.as_bytes(), "{word} {call}");
        }
    }
    Ok(())
}
