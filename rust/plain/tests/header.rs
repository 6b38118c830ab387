//! Numbers 1 to 7: buffers, the order of the first judgements, and the header.

mod common;
use common::*;
use mirokdeul_plain::{build, REPLY_LEN};

#[test]
fn number_1_is_for_buffers_and_clears_the_reply() {
    let good = file(HEADER, "");
    for (length, work_is_right, expected) in [
        (REPLY_LEN, true, 0),
        (REPLY_LEN, false, 1),
        (REPLY_LEN - 1, true, 1),
        (REPLY_LEN + 1, true, 1),
        (0, true, 1),
        (1, false, 1),
    ] {
        let mut reply = vec![1; length];
        assert_eq!(build(good.as_bytes(), b"", &mut reply, work_is_right), (expected, 0));
        assert!(reply.iter().all(|&byte| byte == 0));
        // Number 1 comes before all others.
        let mut reply = vec![1; length];
        let (number, _) = build(b"", b"x", &mut reply, work_is_right);
        assert_eq!(number, if expected == 1 { 1 } else { 3 });
        assert!(reply.iter().all(|&byte| byte == 0));
    }
}

#[test]
fn site_before_file_length_before_json() {
    let long = " ".repeat(32_769);
    assert_eq!(answer(&long, &"\n".repeat(65)).0, 2);
    assert_eq!(answer(&long, "\n").0, 3);
    assert_eq!(answer(&long, "").0, 4);
    assert_eq!(answer(" ".repeat(32_768), "").0, 5);
}

#[test]
fn number_4_is_above_32768_bytes() {
    let good = file(HEADER, "");
    assert_eq!(number(format!("{good}{}", " ".repeat(32_768 - good.len()))), 0);
    assert_eq!(number(format!("{good}{}", " ".repeat(32_769 - good.len()))), 4);
}

#[test]
fn number_5_is_for_what_is_not_json() {
    assert_eq!(number(""), 5);
    assert_eq!(number(" \n"), 5);
    assert_eq!(number("\u{feff}{}"), 5);
    assert_eq!(number(b"{\"\xED\xA0\x80\":1}"), 5);
    let deep = |depth: usize| {
        format!(r#"{{"ietf-mud:mud":{{{HEADER}}},"x":{}{}}}"#, "[".repeat(depth - 1), "]".repeat(depth - 1))
    };
    assert_eq!(number(deep(16)), 0);
    assert_eq!(number(deep(17)), 5);
}

#[test]
fn number_6_is_judged_in_ignored_places_too() {
    let with = |member: &str| number(format!(r#"{{"ietf-mud:mud":{{{HEADER}}},{member}}}"#));
    assert_eq!(with(r#""x":{"a":1,"b":2}"#), 0);
    assert_eq!(with(r#""x":{"a":1,"\u0061":2}"#), 6);
    assert_eq!(with(r#""x":[["\udc00"]]"#), 6);
    assert_eq!(with(r#""x":{"\ud800":1}"#), 6);
    assert_eq!(with(r#""x":{"a":1,"a":2},"#), 5);
    assert_eq!(number(r#"[{"a":1,"a":2}]"#), 6);
    assert_eq!(number(r#"{"ietf-mud:mud":1,"ietf-mud:mud":1}"#), 6);
}

#[test]
fn number_7_is_for_the_outermost_value() {
    for bad in [
        "0", "\"\"", "null", "true", "[]", "{}", r#"{"ietf-mud:mud":[]}"#, r#"{"ietf-mud:mud":null}"#,
        r#"{"mud":{}}"#,
    ] {
        assert_eq!(number(bad), 7, "{bad}");
    }
}

/// The number of a header in which one member has another value, or is left out for none.
fn header_number(member: &str, value: Option<&str>) -> u8 {
    let members = [
        ("mud-version", "1"),
        ("mud-url", "\"https://a.example/x\""),
        ("last-update", "\"\""),
        ("is-supported", "true"),
    ];
    let mut texts: Vec<String> = members
        .iter()
        .filter(|(name, _)| *name != member)
        .map(|(name, value)| format!("\"{name}\":{value}"))
        .collect();
    texts.extend(value.map(|value| format!("\"{member}\":{value}")));
    number(file(&texts.join(","), ""))
}

#[test]
fn mud_version_is_the_integer_1() {
    assert_eq!(header_number("mud-version", Some("1")), 0);
    for bad in [
        "0", "2", "1.0", "1e0", "-1", "10", "\"1\"", "true", "null", "[1]", "4294967297",
        "18446744073709551617",
    ] {
        assert_eq!(header_number("mud-version", Some(bad)), 7, "{bad}");
    }
    assert_eq!(header_number("mud-version", None), 7);
    assert_eq!(header_number("ietf-mud:mud-version", Some("7")), 0);
}

#[test]
fn mud_url_is_a_mud_url_after_decoding() {
    for good in ["https://a", "https:\\/\\/a", "\\u0068ttps://a.example/\\\"", "https://@"] {
        assert_eq!(header_number("mud-url", Some(&format!("\"{good}\""))), 0, "{good}");
    }
    for bad in [
        "\"https://\"", "\"HTTPS://a\"", "\"https://a b\"", "\"https://a\\u0020\"", "\"https://a\\u007f\"",
        "\"\"", "1", "null", "[]", "{}",
    ] {
        assert_eq!(header_number("mud-url", Some(bad)), 7, "{bad}");
    }
    let long = |length: usize| format!("\"https:\\/\\/{}\"", "\\u0061".repeat(length - 8));
    assert_eq!(header_number("mud-url", Some(&long(255))), 0);
    assert_eq!(header_number("mud-url", Some(&long(256))), 7);
    assert_eq!(header_number("mud-url", None), 7);
}

#[test]
fn last_update_is_a_string_and_is_supported_a_boolean() {
    assert_eq!(header_number("last-update", Some("\"whenever\"")), 0);
    for bad in ["0", "null", "[]", "{}", "true"] {
        assert_eq!(header_number("last-update", Some(bad)), 7, "{bad}");
    }
    assert_eq!(header_number("last-update", None), 7);
    assert_eq!(header_number("is-supported", Some("false")), 0);
    for bad in ["0", "null", "[true]", "\"true\""] {
        assert_eq!(header_number("is-supported", Some(bad)), 7, "{bad}");
    }
    assert_eq!(header_number("is-supported", None), 7);
}

#[test]
fn cache_validity_goes_from_1_to_168() {
    for good in ["1", "48", "168"] {
        assert_eq!(header_number("cache-validity", Some(good)), 0, "{good}");
    }
    for bad in
        ["0", "169", "-1", "48.0", "48e0", "\"48\"", "null", "[]", "4294967297", "18446744073709551617"]
    {
        assert_eq!(header_number("cache-validity", Some(bad)), 7, "{bad}");
    }
}

#[test]
fn other_members_are_ignored() {
    assert_eq!(number(format!(r#"{{"ttl":[],"ietf-mud:mud":{{{HEADER},"ttl":{{"x":null}}}}}}"#)), 0);
}

#[test]
fn number_7_comes_before_8() {
    assert_eq!(number(r#"{"ietf-mud:mud":{"from-device-policy":1},"ietf-access-control-list:acls":1}"#), 7);
}
