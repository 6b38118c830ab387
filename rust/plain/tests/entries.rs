//! Numbers 9, 10 and 11: the entries.

mod common;
use common::*;

fn is_unlisted(matches: &str) {
    assert_eq!(entry_number(matches), 9, "{matches}");
}

fn is_breach(matches: &str) {
    assert_eq!(entry_number(matches), 10, "{matches}");
}

fn is_taken(matches: &str) {
    assert_eq!(entry_number(matches), 0, "{matches}");
}

#[test]
fn unlisted_members_are_9_in_every_given_object() {
    for unlisted in [
        r#""ttl":1"#, r#""ipv6":{}"#, r#""icmp":{}"#, r#""eth":{}"#, r#""ietf-access-control-list:tcp":{}"#,
        r#""mud":{}"#, r#""":{}"#, r#""tcp ":{}"#, r#""ietf-mud:mud":{"x":1}"#, r#""ipv4":{"ttl":1}"#,
        r#""ipv4":{"dscp":null}"#, r#""tcp":{"flags":1}"#, r#""udp":{"length":1}"#,
        r#""tcp":{"source-port":{"range":1}}"#, r#""udp":{"destination-port":{"ports":1}}"#,
        r#""ipv4":{"src-dnsname":"a"}"#, r#""tcp":{"direction-initiated":"from-device"}"#,
    ] {
        is_unlisted(unlisted);
    }
}

#[test]
fn a_name_listed_for_another_object_is_9() {
    for unlisted in [
        r#""udp":{"ietf-mud:direction-initiated":"from-device"}"#, r#""source-port":{"port":1}"#,
        r#""tcp":{"protocol":6}"#, r#""ipv4":{"tcp":{}}"#, r#""protocol":6"#, r#""controller":"x""#,
        r#""ietf-mud:mud":{"protocol":6}"#, r#""tcp":{"port":1}"#,
        r#""tcp":{"source-port":{"source-port":1}}"#, r#""ietf-mud:mud":{"ietf-mud:mud":{}}"#,
        r#""matches":{}"#,
    ] {
        is_unlisted(unlisted);
    }
}

#[test]
fn an_object_in_place_of_a_plain_value_is_10() {
    for breach in [
        r#""ipv4":{"protocol":{"x":1}}"#,
        r#""tcp":{"source-port":{"port":{"x":1}}}"#,
        r#""ietf-mud:mud":{"manufacturer":{"x":1}}"#,
        r#""ietf-mud:mud":{"my-controller":{"x":1}}"#,
        r#""ietf-mud:mud":{"my-controller":[{"x":1}]}"#,
        r#""tcp":[{"x":1}]"#,
        r#""tcp":{"source-port":[{"x":1}]}"#,
        r#""tcp":{"ietf-mud:direction-initiated":{"x":1}}"#,
        r#""udp":{"source-port":{"lower-port":{"x":1},"upper-port":2}}"#,
        r#""udp":{"source-port":{"port":1,"operator":{"x":1}}}"#,
    ] {
        is_breach(breach);
    }
    let source = r#""ipv4":{"source-ipv4-network":{"x":1}}"#;
    assert_eq!(numbers(source), (10, 10));
}

#[test]
fn another_value_in_place_of_an_object_is_10() {
    for name in ["ietf-mud:mud", "ipv4", "tcp", "udp"] {
        for value in ["null", "[]", "1", "\"\"", "true", "[{}]", "[null]"] {
            is_breach(&format!("\"{name}\":{value}"));
        }
    }
    is_breach(r#""tcp":{"source-port":80}"#);
    is_breach(r#""udp":{"destination-port":null}"#);
    for matches in ["null", "[]", "1", "\"\"", r#"[{"ttl":1}]"#] {
        assert_eq!(number(thing(&[&format!(r#""matches":{matches},{ACCEPT}"#)], &[])), 10, "{matches}");
    }
}

#[test]
fn empty_objects_limit_nothing() {
    for good in [
        "", r#""ietf-mud:mud":{}"#, r#""ipv4":{}"#, r#""tcp":{}"#, r#""udp":{}"#,
        r#""ipv4":{},"ietf-mud:mud":{},"tcp":{}"#,
    ] {
        is_taken(good);
    }
}

#[test]
fn nine_is_judged_over_all_entries_before_ten() {
    let (nine, ten) = (accept(r#""ttl":1"#), accept(r#""tcp":1"#));
    assert_eq!(number(thing(&[&ten], &[])), 10);
    assert_eq!(number(thing(&[&ten, &ten], &[&ten, &nine])), 9);
    assert_eq!(number(thing(&[&nine], &[&ten])), 9);
    assert_eq!(number(thing(&[r#""matches":{"ttl":1}"#], &[])), 9);
    is_unlisted(r#""tcp":{},"udp":{"x":1}"#);
    is_unlisted(r#""tcp":1,"udp":{"source-port":{"x":1}}"#);
    is_unlisted(r#""ipv4":{"protocol":"x"},"x":1"#);
}

#[test]
fn actions_say_what_happens() {
    let with = |text: &str| number(thing(&[text], &[]));
    for good in ["accept", "drop", "reject", "\\u0061ccept"] {
        assert_eq!(with(&format!(r#""actions":{{"forwarding":"{good}"}}"#)), 0, "{good}");
    }
    assert_eq!(with(r#""actions":{"forwarding":"drop","logging":{"x":1}},"statistics":{"y":1}"#), 0);
    for bad in [
        r#""x":1"#,
        r#""actions":null"#,
        r#""actions":[]"#,
        r#""actions":"accept""#,
        r#""actions":{}"#,
        r#""actions":{"forwarding":null}"#,
        r#""actions":{"forwarding":"ACCEPT"}"#,
        r#""actions":{"forwarding":""}"#,
        r#""actions":{"forwarding":["accept"]}"#,
        r#""actions":{"forwarding":"ietf-access-control-list:accept"}"#,
        r#""actions":{"forwarding":{"x":1}}"#,
        r#""actions":{"Forwarding":"accept"}"#,
    ] {
        assert_eq!(with(bad), 10, "{bad}");
    }
}

#[test]
fn members_beside_matches_are_ignored() {
    let beside = format!(r#""matches":{{}},"tcp":{{"x":1}},"ttl":1,{ACCEPT}"#);
    assert_eq!(table(thing(&[&beside], &[]), "").len(), 5);
}

#[test]
fn abstractions_have_strings_or_lists_of_null() {
    for name in ["manufacturer", "model", "controller"] {
        for good in ["\"\"", "\"a/b\"", "\"no url\"", "\"\\u0000é\"", &format!("\"{}\"", "x".repeat(300))] {
            is_taken(&format!(r#""ietf-mud:mud":{{"{name}":{good}}}"#));
        }
        for bad in ["null", "[null]", "1", "[]", "{}", "true", "[\"a\"]"] {
            is_breach(&format!(r#""ietf-mud:mud":{{"{name}":{bad}}}"#));
        }
    }
    for name in ["same-manufacturer", "local-networks", "my-controller"] {
        for good in ["[null]", "[ null\n]"] {
            is_taken(&format!(r#""ietf-mud:mud":{{"{name}":{good}}}"#));
        }
        for bad in ["null", "[]", "[null,null]", "true", "{}", "\"\"", "[0]", "[[null]]", "\"a\""] {
            is_breach(&format!(r#""ietf-mud:mud":{{"{name}":{bad}}}"#));
        }
    }
}

#[test]
fn protocols_go_to_255() {
    for good in ["0", "6", "17", "255"] {
        is_taken(&format!(r#""ipv4":{{"protocol":{good}}}"#));
    }
    for bad in [
        "256", "-0", "-1", "6.0", "6e0", "\"6\"", "null", "[6]", "4294967302", "18446744073709551622", "true",
    ] {
        is_breach(&format!(r#""ipv4":{{"protocol":{bad}}}"#));
        is_breach(&format!(r#""ipv4":{{"protocol":{bad}}},"tcp":{{}}"#));
    }
}

#[test]
fn another_protocol_beside_tcp_or_udp_is_10() {
    is_taken(r#""ipv4":{"protocol":6},"tcp":{}"#);
    is_taken(r#""ipv4":{"protocol":17},"udp":{}"#);
    is_taken(r#""udp":{},"ipv4":{"protocol":17}"#);
    for bad in [
        r#""ipv4":{"protocol":17},"tcp":{}"#, r#""ipv4":{"protocol":6},"udp":{}"#,
        r#""ipv4":{"protocol":0},"tcp":{}"#, r#""tcp":{},"udp":{}"#,
        r#""tcp":{},"udp":{},"ipv4":{"protocol":6}"#, r#""tcp":{},"udp":null"#,
    ] {
        is_breach(bad);
    }
}

#[test]
fn networks_and_names_stand_on_the_remote_side_only() {
    for (member, expected) in [
        (r#""destination-ipv4-network":"10.0.0.0/8""#, (0, 10)),
        (r#""source-ipv4-network":"10.0.0.0/8""#, (10, 0)),
        (r#""ietf-acldns:dst-dnsname":"a""#, (0, 10)),
        (r#""ietf-acldns:src-dnsname":"a""#, (10, 0)),
        (r#""ietf-acldns:src-dnsname":1"#, (10, 10)),
        (r#""source-ipv4-network":"x""#, (10, 10)),
        (r#""destination-ipv4-network":"10.0.0.0/8","source-ipv4-network":"10.0.0.0/8""#, (10, 10)),
    ] {
        assert_eq!(numbers(&format!(r#""ipv4":{{{member}}}"#)), expected, "{member}");
    }
}

#[test]
fn a_list_of_both_directions_with_a_network_is_10() {
    let entry = accept(r#""ipv4":{"destination-ipv4-network":"10.0.0.0/8"}"#);
    let acls = format!(r#""acl":[{}]"#, list("a", &[&entry]));
    assert_eq!(number(file(&[HEADER, &policy("from", &["a"])].concat(), &acls)), 0);
    assert_eq!(number(file(&[HEADER, &policy("from", &["a"]), &policy("to", &["a"])].concat(), &acls)), 10);
}

#[test]
fn networks_of_entries_need_their_length() {
    let with = |text: &str| numbers(&format!(r#""ipv4":{{"destination-ipv4-network":{text}}}"#)).0;
    for good in ["\"10.1.2.3/8\"", "\"0.0.0.0/0\"", "\"255.255.255.255\\/32\""] {
        assert_eq!(with(good), 0, "{good}");
    }
    for bad in [
        "\"10.0.0.0\"", "\"10.0.0.0/\"", "\"10.0.0.0/33\"", "\"10.0.0.0/08\"", "\"010.0.0.0/8\"",
        "\"10.0.0/8\"", "\"\"", "null", "8", "\" 10.0.0.0/8\"", "\"10.0.0.0/8\\u0000\"",
    ] {
        assert_eq!(with(bad), 10, "{bad}");
    }
}

#[test]
fn dns_names_are_any_strings() {
    for good in ["\"\"", "\"a b\"", "\"é\"", &format!("\"{}\"", "x".repeat(300))] {
        assert_eq!(numbers(&format!(r#""ipv4":{{"ietf-acldns:dst-dnsname":{good}}}"#)).0, 0, "{good}");
    }
    for bad in ["null", "1", "[\"a\"]", "[null]", "{}"] {
        assert_eq!(numbers(&format!(r#""ipv4":{{"ietf-acldns:dst-dnsname":{bad}}}"#)).0, 10, "{bad}");
    }
}

#[test]
fn direction_initiated_has_two_values() {
    for good in ["\"from-device\"", "\"to-device\""] {
        is_taken(&format!(r#""tcp":{{"ietf-mud:direction-initiated":{good}}}"#));
    }
    for bad in ["\"\"", "\"from\"", "\"From-device\"", "null", "0", "\"ietf-mud:from-device\""] {
        is_breach(&format!(r#""tcp":{{"ietf-mud:direction-initiated":{bad}}}"#));
    }
}

#[test]
fn port_objects_have_one_of_two_forms() {
    for transport in ["tcp", "udp"] {
        for side in ["source-port", "destination-port"] {
            let with = |text: &str| format!(r#""{transport}":{{"{side}":{{{text}}}}}"#);
            for good in [
                r#""port":0"#, r#""port":65535"#, r#""port":1,"operator":"eq""#,
                r#""operator":"neq","port":1"#, r#""port":1,"operator":"lte""#,
                r#""port":1,"operator":"gte""#, r#""lower-port":0,"upper-port":65535"#,
                r#""upper-port":5,"lower-port":5"#,
            ] {
                is_taken(&with(good));
            }
            for bad in [
                "", r#""lower-port":1"#, r#""upper-port":1"#, r#""operator":"eq""#,
                r#""lower-port":6,"upper-port":5"#, r#""port":65536"#, r#""port":-1"#, r#""port":80.0"#,
                r#""port":"80""#, r#""port":null"#, r#""port":4294967376"#, r#""port":18446744073709551696"#,
                r#""lower-port":0,"upper-port":65536"#, r#""lower-port":1,"upper-port":2,"port":1"#,
                r#""lower-port":1,"port":1"#, r#""upper-port":1,"port":1"#,
                r#""lower-port":1,"upper-port":2,"operator":"range""#,
                r#""lower-port":1,"upper-port":2,"operator":"eq""#,
                r#""lower-port":1,"upper-port":2,"operator":null"#, r#""port":1,"operator":"range""#,
                r#""port":1,"operator":"EQ""#, r#""port":1,"operator":null"#, r#""port":1,"operator":1"#,
                r#""port":1,"operator":"ietf-access-control-list:eq""#,
                r#""lower-port":1,"upper-port":null"#, r#""lower-port":"1","upper-port":2"#,
                r#""port":1,"operator":["eq"]"#,
            ] {
                is_breach(&with(bad));
            }
        }
    }
}

/// A file with lists of these lengths; the first `from` of them are named from the device, the
/// last `to` to it.
fn with_lists(lengths: &[usize], from: usize, to: usize, entry: &str) -> String {
    let names: Vec<String> = (0..lengths.len()).map(|n| format!("l{n}")).collect();
    let names: Vec<&str> = names.iter().map(String::as_str).collect();
    let lists: Vec<String> =
        names.iter().zip(lengths).map(|(name, &length)| list(name, &vec![entry; length])).collect();
    let policies = policy("from", &names[..from]) + &policy("to", &names[names.len() - to..]);
    file(&[HEADER, &policies].concat(), &format!(r#""acl":[{}]"#, lists.join(",")))
}

#[test]
fn sixty_four_entries_are_read_and_no_more() {
    let entry = accept(r#""tcp":{}"#);
    for (lengths, from, to, expected) in [
        (&[64][..], 1, 0, 0),
        (&[65], 1, 0, 11),
        (&[65], 0, 1, 11),
        (&[32], 1, 1, 0),
        (&[33], 1, 1, 11),
        (&[32, 32], 1, 1, 0),
        (&[32, 33], 1, 1, 11),
        (&[20, 20, 24], 3, 0, 0),
        (&[20, 20, 25], 3, 0, 11),
        (&[64, 64], 1, 0, 0),
        (&[30, 4, 30], 2, 1, 0),
        (&[30, 4, 31], 2, 1, 11),
    ] {
        assert_eq!(number(with_lists(lengths, from, to, &entry)), expected, "{lengths:?} {from} {to}");
    }
    // Entries that match nothing count, and those that are never reached do.
    assert_eq!(number(with_lists(&[65], 1, 0, &accept(r#""ietf-mud:mud":{"controller":""}"#))), 11);
    assert_eq!(number(with_lists(&[65], 1, 0, &accept(""))), 11);
}

#[test]
fn numbers_9_and_10_come_before_11() {
    let (good, nine, ten) = (accept(""), accept(r#""ttl":1"#), accept(r#""tcp":1"#));
    let mut entries = vec![good.as_str(); 70];
    assert_eq!(number(thing(&entries, &[])), 11);
    entries.push(&ten);
    assert_eq!(number(thing(&entries, &[])), 10);
    entries.push(&nine);
    assert_eq!(number(thing(&entries, &[])), 9);
}

#[test]
fn entries_of_ipv6_lists_do_not_count() {
    let v6 = list("v6", &vec![accept("").as_str(); 65]).replace("ipv4", "ipv6");
    let text = file(&[HEADER, &policy("from", &["v6"])].concat(), &format!(r#""acl":[{v6}]"#));
    assert_eq!(number(text), 0);
}
