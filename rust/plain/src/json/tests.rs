//! The reader of JSON, form by form.

use super::*;

fn fault(text: impl AsRef<[u8]>) -> Option<Fault> {
    Tree::parse(text.as_ref()).err()
}

fn is_json(text: &str) -> bool {
    fault(text).is_none()
}

fn is_not_json(text: impl AsRef<[u8]>) -> bool {
    fault(text) == Some(Fault::NotJson)
}

fn is_repeated_or_lone(text: &str) -> bool {
    fault(text) == Some(Fault::RepeatedOrLone)
}

fn decoded(text: &str) -> Vec<u8> {
    Tree::parse(text.as_bytes()).unwrap().root().string().unwrap().to_vec()
}

#[test]
fn values_of_every_form_are_read() {
    for good in [
        "0", "-0", "1", "-12", "1.5", "0.0", "1e400", "1E+2", "1e-2", "0e0", "-0.0e-0", "true", "false",
        "null", "\"\"", "[]", "{}", " [ ] ", "\t\r\n{ }\n", "[1,2 , 3]", "{\"a\":1,\"b\":[{}]}",
        "{ \"a\" : 1 , \"b\" : 2 }", "\"\u{7f}\"", "\"\u{feff}\"", "\"\u{ffff}\"", "\"\\u0000\"",
        "\"\u{10ffff}\"",
    ] {
        assert!(is_json(good), "{good:?}");
    }
}

#[test]
fn other_texts_are_no_json() {
    for bad in [
        "", " ", "\u{feff}1", "tru", "truE", "nul", "+1", "01", "-", "-01", ".5", "1.", "1.e1", "1e", "1e+",
        "0x1", "00", "1 2", "[", "]", "[1", "[1,", "[1,]", "[,1]", "[1 2]", "{", "}", "{\"a\"}", "{\"a\":}",
        "{\"a\":1,}", "{,}", "{a:1}", "{1:1}", "{\"a\":1 \"b\":2}", "{\"a\" 1}", "\"", "\"a", "\"\\\"",
        "\"\\x\"", "\"\\u12\"", "\"\\u12g4\"", "\"\\u+123\"", "\"\n\"", "\"\u{1f}\"", "\"\u{0}\"", "'a'",
        "//\n1", "1//", "\u{a0}1", "\u{b}1", "\u{c}1", "NaN", "[1}", "{\"a\":1]", "1\u{0}",
        "\"\\uD800\\u12\"",
    ] {
        assert!(is_not_json(bad), "{bad:?}");
    }
}

#[test]
fn bytes_must_be_utf8_everywhere() {
    for bad in [
        &b"\"\xED\xA0\x80\""[..],
        b"\"\xC0\xAF\"",
        b"\"\xF4\x90\x80\x80\"",
        b"\"\xE2\x82\"",
        b"\"\x80\"",
        b"\"\xFF\"",
        b"\xEF\xBB\xBF1",
        b"1\x80",
        b"\xFE\xFF",
        b"\"\xE0\x80\xAF\"",
    ] {
        assert!(is_not_json(bad), "{bad:?}");
    }
}

#[test]
fn nesting_goes_to_sixteen() {
    let nested = |depth: usize, inner: &str| "[".repeat(depth) + inner + &"]".repeat(depth);
    assert!(is_json(&nested(16, "")));
    assert!(is_json(&nested(16, "1")));
    assert!(is_not_json(nested(17, "")));
    assert!(is_not_json(nested(16, "{}")));
    assert!(is_json(&nested(15, "{}")));
    assert!(is_json(&nested(15, "{},[],{}")));
    assert!(is_not_json("[".repeat(20_000)));
}

#[test]
fn no_name_stands_twice_in_an_object() {
    for bad in [
        r#"{"a":1,"a":1}"#, r#"{"a":1,"b":2,"\u0061":3}"#, r#"[[{"x":{"":1,"":2}}]]"#, r#"{"/":1,"\/":2}"#,
        r#"{"\u00e9":1,"é":2}"#, r#"{"\ud83d\ude00":1,"😀":2}"#,
    ] {
        assert!(is_repeated_or_lone(bad), "{bad}");
    }
    for good in [
        r#"{"a":{"a":1},"b":{"a":1}}"#, r#"[{"a":1},{"a":1}]"#, r#"{"a":1,"A":2}"#,
        r#"{"\u00e9":1,"e\u0301":2}"#, r#"{"a":1,"a\u0000":2}"#, r#"{"a":1,"":2}"#,
    ] {
        assert!(is_json(good), "{good}");
    }
}

#[test]
fn no_name_stands_twice_in_a_large_object() {
    for count in [11, 12, 13, 14, 100] {
        let names: Vec<String> = (0..count).map(|n| format!("\"n{n}\":0")).collect();
        assert!(is_json(&format!("{{{}}}", names.join(","))));
        assert!(is_repeated_or_lone(&format!("{{{},\"n3\":0}}", names.join(","))));
        assert!(is_repeated_or_lone(&format!("{{\"\\u006e{}\":0,{}}}", count - 1, names.join(","))));
    }
}

#[test]
fn surrogate_escapes_have_partners() {
    for bad in [
        r#""\ud800""#, r#""\udc00""#, r#""\udc00\ud800""#, r#""\ud800\ud800\udc00""#, r#""\ud800x""#,
        r#""\ud800\n\udc00""#, r#""\ud800\u0041""#, r#""\uD83D\\uDE00""#, r#"{"\udfff":1}"#,
        r#"[{"a":["\udbff"]}]"#, r#""\ud83d\ude00\ude00""#,
    ] {
        assert!(is_repeated_or_lone(bad), "{bad}");
    }
    for good in
        [r#""\ud800\udc00""#, r#""\uDBFF\uDFFF""#, r#""\ud7ff\ue000""#, r#""\\ud800""#, r#""\\\\ud800""#]
    {
        assert!(is_json(good), "{good}");
    }
}

#[test]
fn a_syntax_error_comes_before_a_repeated_name_or_a_lone_surrogate() {
    assert!(is_not_json(r#"{"a":1,"a":2"#));
    assert!(is_not_json(r#"["\ud800",]"#));
    assert!(is_not_json(b"[{\"a\":1,\"a\":2},\"\xFF\"]"));
}

#[test]
fn strings_stand_for_their_bytes_after_decoding() {
    assert_eq!(decoded(r#""a\"\\\/\b\f\n\r\tz""#), b"a\"\\/\x08\x0C\n\r\tz");
    assert_eq!(decoded(r#""\u0041\u00e9\u20AC\ud83d\uDE00""#), "Aé€😀".as_bytes());
    assert_eq!(decoded("\"é€😀\""), "é€😀".as_bytes());
    assert_eq!(decoded(r#""\ud800\udc00\udbff\udfff""#), "\u{10000}\u{10ffff}".as_bytes());
}

#[test]
fn integers_have_no_sign_fraction_or_exponent() {
    let integer = |text: &str| Tree::parse(text.as_bytes()).unwrap().root().integer(255);
    assert_eq!(integer("0"), Some(0));
    assert_eq!(integer("255"), Some(255));
    for none in [
        "256", "-0", "-1", "1.0", "1e0", "4294967302", "18446744073709551622", "\"1\"", "true", "[1]", "null",
    ] {
        assert_eq!(integer(none), None, "{none}");
    }
}

#[test]
fn lists_of_null_hold_just_one() {
    let is_list = |text: &str| Tree::parse(text.as_bytes()).unwrap().root().is_list_of_null();
    assert!(is_list("[null]"));
    assert!(is_list("[ \n null\t]"));
    for none in ["[]", "[null,null]", "null", "true", "{}", "\"\"", "[[null]]", "[{}]", "[0]", "{\"a\":null}"]
    {
        assert!(!is_list(none), "{none}");
    }
}

#[test]
fn members_are_found_by_their_decoded_names() {
    let tree = Tree::parse(br#"{"x":{"y":1},"\u0079":[2,[3]],"z":4}"#).unwrap();
    let members = tree.root().object().unwrap();
    assert!(members.get("y").unwrap().array().is_some());
    assert_eq!(members.get("z").unwrap().integer(9), Some(4));
    assert!(members.get("w").is_none());
    assert_eq!(members.map(|(name, _)| name.to_vec()).collect::<Vec<_>>(), [b"x", b"y", b"z"]);
}
