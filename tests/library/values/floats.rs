//! Which texts are those of floats.
use serde_dynamo::is_float_text;

#[test]
fn texts_of_floats(rt: HostRuntime) {
    for text in [
        "1.",
        ".5",
        "1e5",
        "-INF",
        "+nan",
        "99999999999999999999",
        "0",
        "-0",
        "+1",
        "1.5",
        "-1.5",
        "00.50",
        "1.e5",
        ".5E-3",
        "1e+5",
        "1E400",
        "1e-400",
        "inf",
        "+Infinity",
        "-iNfInItY",
        "NaN",
        "-nan",
    ] {
        assert!(rt; is_float_text(text), "{text}");
    }
}

#[test]
fn texts_of_no_floats(rt: HostRuntime) {
    for text in [
        "",
        ".",
        "1e",
        "0x1",
        "1_0",
        " 1",
        "1 ",
        "+",
        "-",
        "+-1",
        "--1",
        "e5",
        ".e5",
        "1e+",
        "1e5.5",
        "1e 5",
        "1..2",
        "1.2.3",
        "1,5",
        "in",
        "infin",
        "nanx",
        "infinity1",
        "1f",
        "1e5e5",
        "\u{0663}",
        "\u{221E}",
        "\u{2212}1",
    ] {
        assert!(rt; !is_float_text(text), "{text}");
    }
}
