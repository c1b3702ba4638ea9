// Words that read nothing: a user, and those that are no command.
use crate::tool::streams::{Sink, Source, status};
use std::alloc::Global;
use std::io::ErrorKind;
use std::process::Abort;
use std::test::Fail;

const USAGE: &str = "usage: dynamo_tool user ID NAME AGE | check | dynamo | plain\n";

// The words print the text, and the input isn't touched; where no byte can be written the status is 1.
fn prints(rt: &impl Abort, alloc: Global, line: &str, text: &str, wanted: u8) -> Result<(), Fail> {
    let mut input = Source::new(b"not read");
    let mut output = Sink::new(alloc);
    assert_eq!(rt;
        status(alloc, line, &mut input, &mut output)?,
        wanted,
        "{line}"
    );
    assert_eq!(rt; output.written.as_slice(), text.as_bytes(), "{line}");
    assert_eq!(rt; output.calls, 1, "{line}");
    let mut broken = Sink::troubled(alloc, 1, ErrorKind::BrokenPipe);
    assert_eq!(rt; status(alloc, line, &mut input, &mut broken)?, 1, "{line}");
    assert_eq!(rt; input.calls, 0, "{line}");
    Ok(())
}

#[test]
fn a_user_is_printed(rt: HostRuntime) -> Result<(), Fail> {
    let alloc = rt.alloc();
    let arthur = "age N 42\nid S fSsgVtal8TpP\nname S Arthur Dent\n";
    prints(&rt, alloc, "|user|fSsgVtal8TpP|Arthur Dent|42", arthur, 0)?;
    prints(&rt, alloc, "|user|fSsgVtal8TpP|Arthur Dent|+42", arthur, 0)?;
    prints(&rt, alloc, "|user|||0", "age N 0\nid S \nname S \n", 0)
}

#[test]
fn other_words_print_the_usage(rt: HostRuntime) -> Result<(), Fail> {
    let alloc = rt.alloc();
    for line in [
        "|user|fSsgVtal8TpP|Arthur Dent|256",
        "|user|fSsgVtal8TpP|Arthur Dent|-0",
        "|user|fSsgVtal8TpP|Arthur Dent|",
        "|user|fSsgVtal8TpP|Arthur Dent",
        "|user|fSsgVtal8TpP|Arthur Dent|42|42",
        "|User|fSsgVtal8TpP|Arthur Dent|42",
        "|user",
        "|check|",
        "|check|check",
        "|Check",
        "|dynamo|x",
        "|plain|",
        "",
    ] {
        prints(&rt, alloc, line, USAGE, 2)?;
    }
    Ok(())
}
