use dynamo_value::{ErrorImpl, base64_text};
use std::test::Fail;

// The test vectors of RFC 4648, section 10.
#[test]
fn vectors_of_the_rfc(rt: HostRuntime) -> Result<(), Fail> {
    let alloc = rt.alloc();
    let vectors = [
        ("", ""),
        ("f", "Zg=="),
        ("fo", "Zm8="),
        ("foo", "Zm9v"),
        ("foob", "Zm9vYg=="),
        ("fooba", "Zm9vYmE="),
        ("foobar", "Zm9vYmFy"),
    ];
    for (bytes, text) in vectors {
        assert_eq!(rt;
            base64_text::encode(alloc, bytes.as_bytes())?.as_str(),
            text
        );
        assert_eq!(rt;
            base64_text::decode(alloc, text)?.as_slice(),
            bytes.as_bytes()
        );
    }
    Ok(())
}

// Without padding, with bits left over, with a blank, with a line break, by the URL alphabet, with too much padding.
#[test]
fn other_spellings_are_refused(rt: HostRuntime) -> Result<(), Fail> {
    let alloc = rt.alloc();
    let texts = [
        "X", "AQI", "AQJ=", "AQ I=", "AQI=\n", "-_-_", "Zm9v====", "=", "Zg==Zg==",
    ];
    for text in texts {
        let refusal = match base64_text::decode(alloc, text) {
            Ok(_) => None,
            Err(error) => Some(error),
        };
        let refusal = refusal.ok_or("not refused")?;
        let begins = match refusal.kind() {
            ErrorImpl::Message(message) => message.starts_with("Failed to decode base64: "),
            _ => false,
        };
        assert!(rt; begins, "{text} is refused by {refusal}");
    }
    assert_eq!(rt;
        base64_text::decode(alloc, "+/+/")?.as_slice(),
        [251, 255, 191].as_slice()
    );
    Ok(())
}
