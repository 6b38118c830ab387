//! Number 8: policies, lists, types and names.

mod common;
use common::*;

/// The number with `policies` behind the header and `acls` in the lists.
fn with(policies: &str, acls: &str) -> u8 {
    number(file(&[HEADER, policies].concat(), acls))
}

#[test]
fn policies_may_be_absent_or_name_nothing() {
    assert_eq!(number(format!(r#"{{"ietf-mud:mud":{{{HEADER}}}}}"#)), 0);
    for direction in ["from", "to"] {
        for good in ["{}", r#"{"access-lists":{}}"#, r#"{"access-lists":{"access-list":[]}}"#, r#"{"x":1}"#] {
            assert_eq!(with(&format!(r#","{direction}-device-policy":{good}"#), ""), 0, "{good}");
        }
        for bad in [
            "null", "[]", "\"\"", r#"{"access-lists":null}"#, r#"{"access-lists":[]}"#,
            r#"{"access-lists":{"access-list":null}}"#, r#"{"access-lists":{"access-list":{}}}"#,
            r#"{"access-lists":{"access-list":[1]}}"#, r#"{"access-lists":{"access-list":[[]]}}"#,
            r#"{"access-lists":{"access-list":[{}]}}"#, r#"{"access-lists":{"access-list":[{"name":1}]}}"#,
            r#"{"access-lists":{"access-list":[{"name":null}]}}"#,
            r#"{"access-lists":{"access-list":["f"]}}"#,
        ] {
            assert_eq!(
                with(
                    &format!(r#","{direction}-device-policy":{bad}"#),
                    &format!(r#""acl":[{}]"#, list("f", &[]))
                ),
                8,
                "{bad}"
            );
        }
    }
}

#[test]
fn named_lists_exist_and_no_name_stands_twice_in_a_policy() {
    let acls =
        format!(r#""acl":[{},{{"name":"v6","type":"ipv6-acl-type"}},{}]"#, list("a", &[]), list("", &[]));
    assert_eq!(with(&policy("from", &["a"]), &acls), 0);
    assert_eq!(with(&policy("from", &["a", "v6", ""]), &acls), 0);
    assert_eq!(with(&policy("from", &["\\u0061"]), &acls), 0);
    assert_eq!(with(&policy("from", &["b"]), &acls), 8);
    assert_eq!(with(&policy("to", &["a", "b"]), &acls), 8);
    assert_eq!(with(&policy("to", &["a", "\\u0061"]), &acls), 8);
    assert_eq!(with(&policy("to", &["v6", "v6"]), &acls), 8);
    assert_eq!(with(&policy("to", &["b", "b"]), &acls), 8);
    let both = policy("from", &["a", "v6"]) + &policy("to", &["v6", "a"]);
    assert_eq!(with(&both, &acls), 0);
}

#[test]
fn lists_may_be_absent() {
    assert_eq!(with("", ""), 0);
    assert_eq!(with("", r#""acl":[]"#), 0);
    assert_eq!(with(&policy("from", &["a"]), ""), 8);
    for bad in ["null", "[]", "1", r#"{"acl":null}"#, r#"{"acl":{}}"#, r#"{"acl":[null]}"#, r#"{"acl":[[]]}"#]
    {
        let text = format!(r#"{{"ietf-mud:mud":{{{HEADER}}},"ietf-access-control-list:acls":{bad}}}"#);
        assert_eq!(number(text), 8, "{bad}");
    }
}

#[test]
fn every_list_has_a_name_of_its_own_named_or_not() {
    assert_eq!(with("", r#""acl":[{"name":"a"},{"name":"b"},{"name":""}]"#), 0);
    for bad in [
        r#"{}"#, r#"{"name":1}"#, r#"{"name":null}"#, r#"{"type":"ipv6-acl-type"}"#,
        r#"{"name":"a"},{"name":"a"}"#, r#"{"name":"a"},{"name":"b"},{"name":"\u0061"}"#,
    ] {
        assert_eq!(with("", &format!(r#""acl":[{bad}]"#)), 8, "{bad}");
    }
}

#[test]
fn many_lists_have_names_of_their_own() {
    let lists: Vec<String> = (0..300).map(|n| format!(r#"{{"name":"l{n}"}}"#)).collect();
    assert_eq!(with("", &format!(r#""acl":[{}]"#, lists.join(","))), 0);
    assert_eq!(with("", &format!(r#""acl":[{},{{"name":"l7"}}]"#, lists.join(","))), 8);
}

#[test]
fn lists_that_nobody_names_are_read_no_further() {
    for good in [
        r#"{"name":"a","type":1,"aces":1}"#,
        r#"{"name":"a","type":"x"}"#,
        r#"{"name":"a","type":"ipv4-acl-type","aces":{"ace":[{"matches":{"ttl":1}}]}}"#,
    ] {
        assert_eq!(with("", &format!(r#""acl":[{good}]"#)), 0, "{good}");
        assert_ne!(with(&policy("to", &["a"]), &format!(r#""acl":[{good}]"#)), 0, "{good}");
    }
}

#[test]
fn a_named_list_has_one_of_two_types() {
    let typed = |text: &str| with(&policy("from", &["a"]), &format!(r#""acl":[{{"name":"a"{text}}}]"#));
    assert_eq!(typed(r#","type":"ipv4-acl-type""#), 0);
    assert_eq!(typed(r#","type":"ipv6-acl-type""#), 0);
    for bad in [
        "", r#","type":null"#, r#","type":4"#, r#","type":"""#, r#","type":"ipv4""#,
        r#","type":"eth-acl-type""#, r#","type":"ietf-access-control-list:ipv4-acl-type""#,
        r#","type":["ipv4-acl-type"]"#, r#","type":"IPV4-acl-type""#, r#","type":"mixed-eth-ipv4-acl-type""#,
    ] {
        assert_eq!(typed(bad), 8, "{bad}");
    }
}

#[test]
fn an_ipv6_list_is_read_no_further_than_its_type() {
    for good in ["1", "null", r#"{"ace":1}"#, r#"{"ace":[{"matches":{"ttl":1}},{"name":"x"},{"name":"x"}]}"#]
    {
        let acls = format!(r#""acl":[{{"name":"a","type":"ipv6-acl-type","aces":{good}}}]"#);
        assert_eq!(with(&policy("from", &["a"]), &acls), 0, "{good}");
    }
}

#[test]
fn entries_of_a_named_ipv4_list_are_objects_with_names() {
    let aces = |text: &str| {
        with(
            &policy("from", &["a"]),
            &format!(r#""acl":[{{"name":"a","type":"ipv4-acl-type","aces":{text}}}]"#),
        )
    };
    for good in [
        "{}",
        r#"{"ace":[]}"#,
        &format!(r#"{{"ace":[{{"name":"",{ACCEPT}}}]}}"#),
        &format!(r#"{{"ace":[{{"name":"a",{ACCEPT}}},{{"name":"b",{ACCEPT}}}]}}"#),
    ] {
        assert_eq!(aces(good), 0, "{good}");
    }
    for bad in [
        "null",
        "[]",
        r#"{"ace":null}"#,
        r#"{"ace":{}}"#,
        r#"{"ace":[1]}"#,
        r#"{"ace":[[]]}"#,
        r#"{"ace":[{}]}"#,
        &format!(r#"{{"ace":[{{{ACCEPT}}}]}}"#),
        &format!(r#"{{"ace":[{{"name":1,{ACCEPT}}}]}}"#),
        &format!(r#"{{"ace":[{{"name":"a",{ACCEPT}}},{{"name":"\u0061",{ACCEPT}}}]}}"#),
    ] {
        assert_eq!(aces(bad), 8, "{bad}");
    }
}

#[test]
fn names_of_entries_need_differ_only_within_their_list() {
    let entry = accept("");
    let acls = format!(r#""acl":[{},{}]"#, list("a", &[&entry]), list("b", &[&entry]));
    assert_eq!(with(&policy("from", &["a", "b"]), &acls), 0);
}

#[test]
fn number_8_comes_before_9_wherever_it_is() {
    let acls = format!(r#""acl":[{}]"#, list("a", &[&accept(r#""ttl":1"#)]));
    assert_eq!(with(&policy("from", &["a"]), &acls), 9);
    assert_eq!(with(&(policy("from", &["a"]) + &policy("to", &["b"])), &acls), 8);
}
