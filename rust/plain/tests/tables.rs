//! Which table a file gives, and number 12.

mod common;
use common::*;
use mirokdeul_plain::{read_rules, stored::Lines, verdict, REPLY_LEN};

const SITE: &str = "class\turn:ietf:params:mud:dns\t192.0.2.53\nhost\tcloud.example.com\t198.51.100.8/31\n";
const CLOUD: &str = r#""ipv4":{"ietf-acldns:dst-dnsname":"cloud.example.com","protocol":6},"tcp":{"destination-port":{"port":443},"ietf-mud:direction-initiated":"from-device"}"#;

#[test]
fn the_program_s_example() {
    assert_eq!(
        from_device(&[CLOUD], SITE),
        [
            "0-0 6-6 0-0 198.51.100.8-198.51.100.9 443-443 0-65535",
            "0-0 17-17 0-0 192.0.2.53-192.0.2.53 53-53 0-65535",
            "1-1 17-17 0-0 192.0.2.53-192.0.2.53 53-53 0-65535",
        ]
    );
}

#[test]
fn a_drop_takes_a_default_away() {
    let (cloud, no_dns) = (accept(CLOUD), drop(r#""udp":{"destination-port":{"port":53}}"#));
    for entries in [[cloud.as_str(), &no_dns], [&no_dns, &cloud]] {
        assert_eq!(
            table(thing(&entries, &[]), SITE),
            [
                "0-0 6-6 0-0 198.51.100.8-198.51.100.9 443-443 0-65535",
                "1-1 17-17 0-0 192.0.2.53-192.0.2.53 53-53 0-65535",
            ]
        );
    }
    let reject = no_dns.replace("drop", "reject");
    assert_eq!(table(thing(&[&cloud, &reject], &[]), SITE).len(), 2);
}

#[test]
fn no_policies_give_no_lines() {
    assert_eq!(answer(file(HEADER, ""), ""), (0, 0, String::new()));
}

fn every_flow(direction: &str) -> Vec<String> {
    ["0-5 0-0", "6-6 0-1", "7-16 0-0", "17-17 0-0", "18-255 0-0"]
        .iter()
        .map(|part| {
            let ports = if part.starts_with("6-6") || part.starts_with("17-17") { "0-65535" } else { "0-0" };
            format!("{direction} {part} 0.0.0.0-255.255.255.255 {ports} {ports}")
        })
        .collect()
}

#[test]
fn an_entry_without_matches_takes_all() {
    assert_eq!(table(thing(&[ACCEPT], &[]), ""), every_flow("0-0"));
    assert_eq!(table(thing(&[], &[ACCEPT]), ""), every_flow("1-1"));
    assert_eq!(table(thing(&[ACCEPT], &[ACCEPT]), ""), every_flow("0-1"));
    assert_eq!(table(thing(&[&accept("")], &[]), ""), every_flow("0-0"));
    assert_eq!(from_device(&[r#""ietf-mud:mud":{},"ipv4":{}"#], ""), every_flow("0-0"));
}

fn udp_range(low: u32, high: u32) -> String {
    format!(r#""udp":{{"destination-port":{{"lower-port":{low},"upper-port":{high}}}}}"#)
}

#[test]
fn ranges_that_overlap_or_touch_are_joined() {
    let lines = |low, high| from_device(&[&udp_range(15_000, 35_000), &udp_range(low, high)], "");
    let joined = ["0-0 17-17 0-0 0.0.0.0-255.255.255.255 15000-55000 0-65535"];
    assert_eq!(lines(25_000, 55_000), joined);
    assert_eq!(lines(35_001, 55_000), joined);
    assert_eq!(
        lines(35_002, 55_000),
        [
            "0-0 17-17 0-0 0.0.0.0-255.255.255.255 15000-35000 0-65535",
            "0-0 17-17 0-0 0.0.0.0-255.255.255.255 35002-55000 0-65535",
        ]
    );
}

fn tcp_to(network: &str, port: u32) -> String {
    format!(
        r#""ipv4":{{"destination-ipv4-network":"{network}"}},"tcp":{{"destination-port":{{"port":{port}}}}}"#
    )
}

#[test]
fn a_covered_network_cuts_the_one_around_it() {
    assert_eq!(
        from_device(&[&tcp_to("10.0.0.0/30", 80), &tcp_to("10.0.0.2/32", 81)], ""),
        [
            "0-0 6-6 0-1 10.0.0.0-10.0.0.1 80-80 0-65535", "0-0 6-6 0-1 10.0.0.2-10.0.0.2 80-81 0-65535",
            "0-0 6-6 0-1 10.0.0.3-10.0.0.3 80-80 0-65535",
        ]
    );
}

#[test]
fn operators_of_ports() {
    let ports = |text: &str| -> Vec<String> {
        from_device(&[&format!(r#""udp":{{"destination-port":{{{text}}}}}"#)], "")
            .iter()
            .map(|line| line.split(' ').nth(4).unwrap().to_owned())
            .collect()
    };
    assert_eq!(ports(r#""port":80"#), ["80-80"]);
    assert_eq!(ports(r#""port":80,"operator":"eq""#), ["80-80"]);
    assert_eq!(ports(r#""port":80,"operator":"neq""#), ["0-79", "81-65535"]);
    assert_eq!(ports(r#""port":0,"operator":"neq""#), ["1-65535"]);
    assert_eq!(ports(r#""port":65535,"operator":"neq""#), ["0-65534"]);
    assert_eq!(ports(r#""port":0,"operator":"lte""#), ["0-0"]);
    assert_eq!(ports(r#""port":80,"operator":"lte""#), ["0-80"]);
    assert_eq!(ports(r#""port":80,"operator":"gte""#), ["80-65535"]);
    assert_eq!(ports(r#""port":0,"operator":"gte""#), ["0-65535"]);
    assert_eq!(ports(r#""lower-port":7,"upper-port":9"#), ["7-9"]);
}

#[test]
fn source_and_destination_follow_the_direction() {
    let entry = accept(
        r#""tcp":{"source-port":{"port":1},"destination-port":{"port":2},"ietf-mud:direction-initiated":"to-device"}"#,
    );
    assert_eq!(
        table(thing(&[&entry], &[&entry]), ""),
        ["0-0 6-6 1-1 0.0.0.0-255.255.255.255 2-2 1-1", "1-1 6-6 1-1 0.0.0.0-255.255.255.255 1-1 2-2",]
    );
    let network = accept(r#""ipv4":{"source-ipv4-network":"10.9.9.9/8","protocol":1}"#);
    assert_eq!(table(thing(&[], &[&network]), ""), ["1-1 1-1 0-0 10.0.0.0-10.255.255.255 0-0 0-0"]);
}

/// The addresses of the lines that accepting entries of protocol 1 give at a site.
fn addresses(mud: &str, ipv4: &str, site: &str) -> Vec<String> {
    let matches = format!(r#""ietf-mud:mud":{{{mud}}},"ipv4":{{"protocol":1{ipv4}}}"#);
    from_device(&[&matches], site).iter().map(|line| line.split(' ').nth(3).unwrap().to_owned()).collect()
}

const NAMES: &str = "host\th\t1.0.0.0\nclass\tc\t2.0.0.0\nclass\tc\t2.0.0.1\nclass\th\t2.0.0.3\nmine\thttps://a.example/x\t3.0.0.0\n\
mine\thttps://a.example/y\t3.0.0.2\nlocal\t-\t4.0.0.0/24\nlocal\t-\t1.0.0.0/8\nthing\thttps://a.example/x\t5.0.0.0\n\
thing\thttps://a.example/y\t5.0.0.2\nthing\thttps://b.example/x\t5.0.0.4\nthing\thttps://u@b.example:8443/x\t5.0.0.6\n";

#[test]
fn names_stand_for_their_site_lines() {
    let one = |mud: &str| addresses(mud, "", NAMES);
    assert_eq!(one(r#""controller":"c""#), ["2.0.0.0-2.0.0.1"]);
    assert_eq!(one(r#""controller":"\u0063""#), ["2.0.0.0-2.0.0.1"]);
    assert_eq!(one(r#""controller":"C""#), [""; 0]);
    assert_eq!(one(r#""my-controller":[null]"#), ["3.0.0.0-3.0.0.0"]);
    assert_eq!(one(r#""local-networks":[null]"#), ["1.0.0.0-1.255.255.255", "4.0.0.0-4.0.0.255"]);
    assert_eq!(one(r#""same-manufacturer":[null]"#), ["5.0.0.0-5.0.0.0", "5.0.0.2-5.0.0.2"]);
    assert_eq!(one(r#""manufacturer":"a.example""#), ["5.0.0.0-5.0.0.0", "5.0.0.2-5.0.0.2"]);
    assert_eq!(one(r#""manufacturer":"b.example""#), ["5.0.0.4-5.0.0.4"]);
    assert_eq!(one(r#""manufacturer":"u@b.example:8443""#), ["5.0.0.6-5.0.0.6"]);
    assert_eq!(one(r#""manufacturer":"https://a.example""#), [""; 0]);
    assert_eq!(one(r#""model":"https://a.example/y""#), ["5.0.0.2-5.0.0.2"]);
    assert_eq!(one(r#""model":"a.example""#), [""; 0]);
    assert_eq!(addresses("", r#","ietf-acldns:dst-dnsname":"h""#, NAMES), ["1.0.0.0-1.0.0.0"]);
    assert_eq!(addresses("", r#","ietf-acldns:dst-dnsname":"c""#, NAMES), [""; 0]);
    assert_eq!(addresses("", r#","ietf-acldns:dst-dnsname":"nobody""#, NAMES), [""; 0]);
}

#[test]
fn all_members_hold_together() {
    assert_eq!(
        addresses(r#""local-networks":[null]"#, r#","ietf-acldns:dst-dnsname":"h""#, NAMES),
        ["1.0.0.0-1.0.0.0"]
    );
    assert_eq!(addresses(r#""local-networks":[null],"controller":"c""#, "", NAMES), [""; 0]);
    assert_eq!(
        addresses(r#""same-manufacturer":[null],"model":"https://a.example/y""#, "", NAMES),
        ["5.0.0.2-5.0.0.2"]
    );
    assert_eq!(
        addresses(r#""local-networks":[null]"#, r#","destination-ipv4-network":"1.128.0.0/9""#, NAMES),
        ["1.128.0.0-1.255.255.255"]
    );
}

#[test]
fn defaults_are_for_two_classes_in_both_directions() {
    let site = "class\turn:ietf:params:mud:ntp\t1.0.0.0\nhost\turn:ietf:params:mud:dns\t2.0.0.0\nclass\turn:ietf:params:mud:DNS\t3.0.0.0\n";
    assert_eq!(table(file(HEADER, ""), site), ["0-1 17-17 0-0 1.0.0.0-1.0.0.0 123-123 0-65535"]);
}

#[test]
fn the_first_match_decides_and_lists_keep_the_policy_s_order() {
    let (yes, no) = (accept(r#""udp":{}"#), drop(r#""udp":{}"#));
    let acls = format!(r#""acl":[{},{}]"#, list("yes", &[&yes]), list("no", &[&no]));
    let lines = |names: &[&str]| table(file(&[HEADER, &policy("from", names)].concat(), &acls), "").len();
    assert_eq!(lines(&["yes", "no"]), 1);
    assert_eq!(lines(&["no", "yes"]), 0);
    // A list of the other direction does not touch a flow.
    let text = file(&[HEADER, &policy("from", &["yes"]), &policy("to", &["no"])].concat(), &acls);
    assert_eq!(table(text, "").len(), 1);
}

#[test]
fn protocols_join_when_only_port_0_is_left() {
    let none = drop(r#""tcp":{"destination-port":{"port":0,"operator":"neq"}}"#);
    let none_back = drop(r#""tcp":{"source-port":{"port":0,"operator":"neq"}}"#);
    let not_remote = drop(r#""tcp":{"ietf-mud:direction-initiated":"to-device"}"#);
    let lines = table(thing(&[&none, &none_back, &not_remote, ACCEPT], &[]), "");
    assert_eq!(lines[0], "0-0 0-16 0-0 0.0.0.0-255.255.255.255 0-0 0-0");
    assert_eq!(lines.len(), 3);
}

/// A site of `count` addresses of class `c`, no two adjacent.
fn scattered(count: usize) -> String {
    (0..count).map(|n| format!("class\tc\t10.0.0.{}\n", 2 * n)).collect()
}

/// Entries for TCP ports, no two adjacent, to class `c`.
fn scattered_ports(count: usize) -> String {
    let entries: Vec<String> = (0..count)
        .map(|n| {
            accept(&format!(
                r#""ietf-mud:mud":{{"controller":"c"}},"tcp":{{"destination-port":{{"port":{}}}}}"#,
                2 * n
            ))
        })
        .collect();
    thing(&entries.iter().map(String::as_str).collect::<Vec<_>>(), &[])
}

#[test]
fn number_12_is_above_512_lines() {
    let count = |addresses, ports| {
        let (number, count, _) = answer(scattered_ports(ports), &scattered(addresses));
        (number, count)
    };
    assert_eq!(count(64, 8), (0, 512));
    assert_eq!(count(64, 9), (12, 0));
    assert_eq!(count(57, 9), (12, 0));
    assert_eq!(count(56, 9), (0, 504));
    assert_eq!(count(8, 64), (0, 512));
    assert_eq!(count(8, 65), (11, 0));
}

#[test]
fn lines_are_counted_after_joining() {
    let entries: Vec<String> = (0..9)
        .map(|n| {
            accept(&format!(
                r#""ietf-mud:mud":{{"controller":"c"}},"tcp":{{"destination-port":{{"port":{n}}}}}"#
            ))
        })
        .collect();
    let text = thing(&entries.iter().map(String::as_str).collect::<Vec<_>>(), &[]);
    assert_eq!(answer(text, &scattered(64)).1, 64);
}

#[test]
fn the_longest_line_has_70_bytes() {
    let entry = r#""ipv4":{"destination-ipv4-network":"255.255.255.128/26"},"udp":{"source-port":{"lower-port":10000,"upper-port":20000},"destination-port":{"lower-port":10000,"upper-port":20000}}"#;
    let to = entry.replace("destination-ipv4", "source-ipv4");
    let text = thing(&[&accept(entry)], &[&accept(&to)]);
    assert_eq!(answer(text, "").2.len(), 70);
}

/// The table of random files holds just the flows that the rules accept, and is read as a table.
/// Since a set has one table, that makes it the right one.
#[test]
fn random_tables_hold_the_flows_that_the_rules_accept() {
    let mut numbers = Numbers(1);
    let site = "class\tc\t10.0.0.0/30\nclass\tc\t10.0.0.6\nhost\th\t10.0.0.2\nlocal\t-\t0.0.0.0/0\nclass\turn:ietf:params:mud:dns\t10.0.0.2/31\n";
    for _ in 0..400 {
        let mut direction = |from: bool| -> Vec<String> {
            (0..numbers.below(6)).map(|_| random_entry(&mut numbers, from)).collect()
        };
        let (from, to) = (direction(true), direction(false));
        let text = thing(
            &from.iter().map(String::as_str).collect::<Vec<_>>(),
            &to.iter().map(String::as_str).collect::<Vec<_>>(),
        );
        let (number, count, lines) = answer(&text, site);
        assert_eq!(number, 0, "{text}");
        let bytes = stored(&lines);
        assert_eq!(Lines::read(&bytes).unwrap().ranges().len(), count);
        let rules = read_rules(text.as_bytes(), site.as_bytes()).unwrap();
        for _ in 0..60 {
            let flow = random_flow(&mut numbers);
            if flow.is_flow() {
                assert_eq!(verdict(&bytes, flow), rules.accepts(flow) as u8, "{flow:?}\n{text}\n{lines}");
            }
        }
    }
}

fn random_entry(numbers: &mut Numbers, from: bool) -> String {
    let side = if from { "destination" } else { "source" };
    let port = |numbers: &mut Numbers| {
        let port = numbers.one(&[0, 1, 2, 3, 65_535]);
        match numbers.below(5) {
            0 => format!(r#"{{"lower-port":{port},"upper-port":65535}}"#),
            1 => format!(r#"{{"port":{port},"operator":"neq"}}"#),
            2 => format!(r#"{{"port":{port},"operator":"lte"}}"#),
            3 => format!(r#"{{"port":{port},"operator":"gte"}}"#),
            _ => format!(r#"{{"port":{port}}}"#),
        }
    };
    let mud = numbers.one(&["", r#""controller":"c""#, r#""local-networks":[null]"#, r#""controller":"x""#]);
    let network = numbers.one(&["0.0.0.0/0", "10.0.0.0/30", "10.0.0.2/32", "10.0.0.4/30"]);
    let transport = match numbers.below(5) {
        0 => r#","tcp":{}"#.to_owned(),
        1 => format!(r#","udp":{{"source-port":{},"destination-port":{}}}"#, port(numbers), port(numbers)),
        2 => format!(
            r#","tcp":{{"source-port":{},"ietf-mud:direction-initiated":"from-device"}}"#,
            port(numbers)
        ),
        3 => format!(
            r#","tcp":{{"destination-port":{},"ietf-mud:direction-initiated":"to-device"}}"#,
            port(numbers)
        ),
        _ => String::new(),
    };
    let matches =
        format!(r#""ietf-mud:mud":{{{mud}}},"ipv4":{{"{side}-ipv4-network":"{network}"}}{transport}"#);
    if numbers.below(3) == 0 {
        drop(&matches)
    } else {
        accept(&matches)
    }
}

fn random_flow(numbers: &mut Numbers) -> mirokdeul_plain::Flow {
    let protocol = numbers.one(&[0, 5, 6, 6, 7, 16, 17, 17, 18, 255]);
    let port = |numbers: &mut Numbers| {
        if protocol == 6 || protocol == 17 {
            numbers.one(&[0, 1, 2, 3, 4, 52, 53, 54, 123, 65_534, 65_535])
        } else {
            0
        }
    };
    let opener = if protocol == 6 { numbers.below(2) } else { 0 };
    let address = numbers.one(&[
        0,
        0x0A00_0000,
        0x0A00_0001,
        0x0A00_0002,
        0x0A00_0003,
        0x0A00_0004,
        0x0A00_0006,
        0x0A00_0007,
        u32::MAX,
    ]);
    flow([numbers.below(2), protocol, opener, address, port(numbers), port(numbers)])
}

#[test]
fn replies_are_stored_tables() {
    let mut reply = vec![9; REPLY_LEN];
    mirokdeul_plain::build(scattered_ports(8).as_bytes(), scattered(64).as_bytes(), &mut reply, true);
    assert_eq!(Lines::read(&reply).unwrap().ranges().len(), 512);
}
