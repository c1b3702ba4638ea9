//! Each kind of fault has its text, and an error has its kind.
use crate::fixtures::answers::is;
use serde_dynamo::{Error, ErrorImpl};
use std::alloc::Global;
use std::num::{NonZeroU8, ParseIntError};
use std::process::Abort;
use std::test::Fail;

// The error and its kind print the text.
fn prints(rt: &impl Abort, alloc: Global, kind: ErrorImpl, text: &str) -> Result<(), Fail> {
    is(rt, kind.to_string(alloc)?.as_str(), text);
    is(rt, Error::from(kind).to_string(alloc)?.as_str(), text);
    Ok(())
}

#[test]
fn kinds_of_reading_print_their_texts(rt: HostRuntime) -> Result<(), Fail> {
    for (kind, text) in [
        (ErrorImpl::ExpectedString, "Expected string"),
        (ErrorImpl::ExpectedMap, "Expected map"),
        (ErrorImpl::ExpectedSeq, "Expected seq"),
        (ErrorImpl::ExpectedNum, "Expected num"),
        (ErrorImpl::ExpectedBool, "Expected bool"),
        (ErrorImpl::ExpectedChar, "Expected char"),
        (ErrorImpl::ExpectedUnit, "Expected unit"),
        (ErrorImpl::ExpectedUnitStruct, "Expected unit struct"),
        (ErrorImpl::ExpectedEnum, "Expected enum"),
        (ErrorImpl::ExpectedBytes, "Expected binary data"),
        (
            ErrorImpl::ExpectedSingleKey,
            "Expected an item with a single key",
        ),
        (
            ErrorImpl::MapValueBeforeKey,
            "MapAccess::next_value called before MapAccess::next_key",
        ),
    ] {
        prints(&rt, rt.alloc(), kind, text)?;
    }
    Ok(())
}

#[test]
fn kinds_of_writing_print_their_texts(rt: HostRuntime) -> Result<(), Fail> {
    for (kind, text) in [
        (ErrorImpl::NotMaplike, "Not a map-like object"),
        (ErrorImpl::NotSetlike, "Not a set-like sequence"),
        (ErrorImpl::KeyMustBeAString, "Key must be a string"),
        (
            ErrorImpl::SerializeMapKeyCalledTwice,
            "SerializeMap::serialize_key called twice",
        ),
        (
            ErrorImpl::SerializeMapValueBeforeKey,
            "SerializeMap::serialize_value called before SerializeMap::serialize_key",
        ),
        (
            ErrorImpl::StringSetExpectedType,
            "String set element does not serialize to string",
        ),
        (
            ErrorImpl::NumberSetExpectedType,
            "Number set element does not serialize to number",
        ),
        (
            ErrorImpl::BinarySetExpectedType,
            "Binary set element does not serialize to binary",
        ),
        (ErrorImpl::OutOfMemory, "out of memory"),
    ] {
        prints(&rt, rt.alloc(), kind, text)?;
    }
    Ok(())
}

#[test]
fn messages_print_themselves(rt: HostRuntime) -> Result<(), Fail> {
    let text = "the queue is closed";
    let message = ErrorImpl::Message(String::from_str(rt.alloc(), text)?);
    prints(&rt, rt.alloc(), message, text)
}

// The text is no float, by this cause.
fn no_float(rt: &impl Abort, alloc: Global, text: &str, why: &str) -> Result<(), Fail> {
    let kind = ErrorImpl::FailedToParseFloat(String::from_str(alloc, text)?);
    prints(rt, alloc, kind, why)
}

#[test]
fn a_failed_float_text_is_printed_with_its_cause(rt: HostRuntime) -> Result<(), Fail> {
    let float = "Failed to parse '1e' as a float: invalid float literal";
    no_float(&rt, rt.alloc(), "1e", float)?;
    let empty = "Failed to parse '' as a float: cannot parse float from empty string";
    no_float(&rt, rt.alloc(), "", empty)
}

// The text is no integer of the type, by this cause.
fn no_integer<T: Drop>(
    rt: &impl Abort,
    alloc: Global,
    text: &str,
    parsed: Result<T, ParseIntError>,
    why: &str,
) -> Result<(), Fail> {
    let Err(cause) = parsed else {
        return Err(Fail::from("the text is an integer"));
    };
    let kind = ErrorImpl::FailedToParseInt(String::from_str(alloc, text)?, cause);
    let printed = format!(in alloc; "Failed to parse '{text}' as an integer: {why}")?;
    prints(rt, alloc, kind, printed.as_str())
}

#[test]
fn a_failed_integer_text_is_printed_with_its_cause(rt: HostRuntime) -> Result<(), Fail> {
    let alloc = rt.alloc();
    for (text, why) in [
        ("", "cannot parse integer from empty string"),
        ("seven", "invalid digit found in string"),
        ("256", "number too large to fit in target type"),
    ] {
        no_integer(&rt, alloc, text, text.parse::<u8>(), why)?;
    }
    let small = "number too small to fit in target type";
    no_integer(&rt, alloc, "-129", "-129".parse::<i8>(), small)?;
    let zero = "number would be zero for non-zero type";
    no_integer(&rt, alloc, "0", "0".parse::<NonZeroU8>(), zero)
}

#[test]
fn an_error_has_its_kind(rt: HostRuntime) {
    let error = Error::from(ErrorImpl::ExpectedMap);
    assert!(rt; *error.kind() == ErrorImpl::ExpectedMap);
    assert!(rt; error == Error::from(ErrorImpl::ExpectedMap));
    assert!(rt; error != Error::from(ErrorImpl::ExpectedSeq));
    assert!(rt; *Error::from(std::alloc::AllocError).kind() == ErrorImpl::OutOfMemory);
}

#[test]
fn an_error_has_a_debug_text(rt: HostRuntime) -> Result<(), Fail> {
    let error = Error::from(ErrorImpl::ExpectedMap);
    let debug = format!(in rt.alloc(); "{error:?}")?;
    is(&rt, debug.as_str(), "Error { kind: ExpectedMap }");
    Ok(())
}

#[test]
fn the_contents_of_errors_are_compared(rt: HostRuntime) -> Result<(), Fail> {
    let text = |text| String::from_str(rt.alloc(), text);
    let one = ErrorImpl::FailedToParseFloat(text("1e")?);
    for (other, equal) in [("1e", true), ("2e", false)] {
        let other = ErrorImpl::FailedToParseFloat(text(other)?);
        assert!(rt; (one == other) == equal);
    }
    assert!(rt; one != ErrorImpl::Message(text("1e")?));
    Ok(())
}
