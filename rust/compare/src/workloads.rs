//! Files for the benchmark: usual ones, and the worst that fit the limits.

use std::fmt::Write;

use mirokdeul::REPLY_LEN;

/// A file and a site table to build.
#[derive(Clone, Debug)]
pub struct Workload {
    /// What it is.
    pub name: &'static str,
    /// The MUD file.
    pub file: Vec<u8>,
    /// The site table.
    pub site: Vec<u8>,
    /// The number that a build answers.
    pub number: u8,
}

/// All builds of the benchmark.
pub fn builds() -> Vec<Workload> {
    vec![
        workload("typical: 10 entries, 3 KB", typical(), TYPICAL_SITE.to_owned(), 0),
        workload("64 entries over 64 networks, 15 KB", entry_per_network(), hosts(64), 0),
        workload("512 lines", scattered_ports(8), scattered_class(64), 0),
        workload("32 KB, mostly ignored members", mostly_ignored(), TYPICAL_SITE.to_owned(), 0),
        workload("nested networks and ports, one line", nested(), String::new(), 0),
        workload("crossing classes and ports, one line", crossing(), crossing_site(), 0),
        workload("4,589 names in one object, 32 KB", many_names(), String::new(), 0),
        workload("635 lists named by a policy, 32 KB", many_lists(true), String::new(), 0),
        workload("2,311 lists nobody names, 32 KB", many_lists(false), String::new(), 0),
        workload("690 entries (refused 11), 32 KB", many_entries(), String::new(), 11),
        workload("576 lines (refused 12)", scattered_ports(9), scattered_class(64), 12),
        workload("escapes in strings, 29 KB", many_escapes(), String::new(), 0),
    ]
}

/// The full table of 512 lines, as stored.
pub fn full_table() -> Vec<u8> {
    let mut reply = vec![0; REPLY_LEN];
    let (number, count) = mirokdeul_plain::build(
        scattered_ports(8).as_bytes(),
        scattered_class(64).as_bytes(),
        &mut reply,
        true,
    );
    assert_eq!((number, count), (0, 512));
    reply
}

/// A stored table of 512 lines that is slow to judge: four addresses that touch, with 128 remote ports each,
/// of which the last differs from one address to the next.
pub fn touching_table() -> Vec<u8> {
    let mut text = String::new();
    for address in 0..4 {
        for port in 0..128 {
            let last = 60_000 + if port == 127 { address } else { 2 * port - 300 };
            writeln!(text, "0-0\t6-6\t0-1\t10.0.0.{address}-10.0.0.{address}\t{last}-{last}\t0-65535")
                .unwrap();
        }
    }
    let mut stored = text.into_bytes();
    stored.resize(REPLY_LEN, 0);
    stored
}

/// A workload, tried once: it must be what its name says.
fn workload(name: &'static str, file: String, site: String, number: u8) -> Workload {
    assert!(file.len() <= 32_768, "{name}: {} bytes", file.len());
    let mut reply = vec![0; REPLY_LEN];
    let (answer, _) = mirokdeul_plain::build(file.as_bytes(), site.as_bytes(), &mut reply, true);
    assert_eq!(answer, number, "{name}");
    Workload { name, file: file.into_bytes(), site: site.into_bytes(), number }
}

const HEADER: &str = r#""mud-version":1,"mud-url":"https://lighting.example.com/bulb","last-update":"2018-03-02T11:20:51+01:00","is-supported":true"#;

const TYPICAL_SITE: &str = "class\turn:ietf:params:mud:dns\t192.0.2.53\nclass\turn:ietf:params:mud:ntp\t192.0.2.123\n\
host\tcloud.example.com\t198.51.100.8/31\nhost\tupdate.example.com\t203.0.113.0/28\nlocal\t-\t192.168.0.0/16\nlocal\t-\t10.0.0.0/8\n\
mine\thttps://lighting.example.com/bulb\t192.168.1.2\nthing\thttps://lighting.example.com/bulb\t192.168.1.32/28\n\
thing\thttps://lighting.example.com/switch\t192.168.1.64/28\n";

/// A file with these lists for each direction, given as their entries.
fn file_of(from: &[String], to: &[String]) -> String {
    format!(
        r#"{{"ietf-mud:mud":{{{HEADER},"from-device-policy":{{"access-lists":{{"access-list":[{{"name":"f"}}]}}}},"to-device-policy":{{"access-lists":{{"access-list":[{{"name":"t"}}]}}}}}},"ietf-access-control-list:acls":{{"acl":[{{"name":"f","type":"ipv4-acl-type","aces":{{"ace":[{}]}}}},{{"name":"t","type":"ipv4-acl-type","aces":{{"ace":[{}]}}}}]}}}}"#,
        from.join(","),
        to.join(",")
    )
}

fn entry(name: usize, matches: &str) -> String {
    format!(r#"{{"name":"e{name}","matches":{{{matches}}},"actions":{{"forwarding":"accept"}}}}"#)
}

/// Ten entries, laid out over lines as makers do.
fn typical() -> String {
    let side = |from: bool| -> Vec<String> {
        let (name, port) = if from { ("dst", "destination") } else { ("src", "source") };
        [
            format!(r#""ipv4": {{ "ietf-acldns:{name}-dnsname": "cloud.example.com", "protocol": 6 }}, "tcp": {{ "ietf-mud:direction-initiated": "from-device", "{port}-port": {{ "operator": "eq", "port": 443 }} }}"#),
            format!(r#""ipv4": {{ "ietf-acldns:{name}-dnsname": "update.example.com", "protocol": 6 }}, "tcp": {{ "ietf-mud:direction-initiated": "from-device", "{port}-port": {{ "operator": "eq", "port": 80 }} }}"#),
            r#""ietf-mud:mud": { "local-networks": [ null ] }, "ipv4": { "protocol": 17 }, "udp": { }"#.to_owned(),
            format!(r#""ietf-mud:mud": {{ "same-manufacturer": [ null ] }}, "tcp": {{ "{port}-port": {{ "lower-port": 8000, "upper-port": 8010 }} }}"#),
            format!(r#""ietf-mud:mud": {{ "my-controller": [ null ] }}, "udp": {{ "{port}-port": {{ "port": 5683 }} }}"#),
        ]
        .iter()
        .enumerate()
        .map(|(number, matches)| {
            format!("\n        {{\n          \"name\": \"entry-{number}\",\n          \"matches\": {{ {matches} }},\n          \"actions\": {{ \"forwarding\": \"accept\" }}\n        }}")
        })
        .collect()
    };
    file_of(&side(true), &side(false))
}

fn hosts(count: usize) -> String {
    (0..count).map(|n| format!("host\tserver-{n}.example.com\t198.51.{n}.0/28\n")).collect()
}

fn entry_per_network() -> String {
    let entries: Vec<String> = (0..64)
        .map(|n| {
            entry(n, &format!(
                r#""ipv4":{{"ietf-acldns:dst-dnsname":"server-{n}.example.com","protocol":6}},"tcp":{{"ietf-mud:direction-initiated":"from-device","destination-port":{{"operator":"eq","port":{}}}}}"#,
                8000 + n
            ))
        })
        .collect();
    file_of(&entries, &[])
}

fn scattered_class(count: usize) -> String {
    (0..count).map(|n| format!("class\tc\t10.0.0.{}\n", 2 * n)).collect()
}

fn scattered_ports(count: usize) -> String {
    let entries: Vec<String> = (0..count)
        .map(|n| {
            entry(
                n,
                &format!(
                    r#""ietf-mud:mud":{{"controller":"c"}},"tcp":{{"destination-port":{{"port":{}}}}}"#,
                    2 * n
                ),
            )
        })
        .collect();
    file_of(&entries, &[])
}

/// The typical file, and ignored members of every form up to the full length.
fn mostly_ignored() -> String {
    let mut file = typical();
    file.pop();
    let mut number = 0;
    loop {
        let member = format!(
            r#","extension:ignored-{number}":{{"text":"some words that nobody reads","list":[1,2.5,true,null,{{"a":"b"}}]}}"#
        );
        if file.len() + member.len() + 1 > 32_768 {
            break;
        }
        file += &member;
        number += 1;
    }
    file + "}"
}

/// 63 entries whose networks and ports lie within one another, all within the last: every pair of
/// cells has other live rules, and the table has one line.
fn nested() -> String {
    let mut entries: Vec<String> = (0..63)
        .map(|n| {
            entry(n, &format!(
                r#""ipv4":{{"destination-ipv4-network":"16.0.0.0/{}"}},"tcp":{{"destination-port":{{"lower-port":{n},"upper-port":{}}},"source-port":{{"lower-port":{},"upper-port":{}}}}}"#,
                1 + n % 32,
                65_535 - n,
                63 - n,
                65_535 - 63 + n
            ))
        })
        .collect();
    entries.push(entry(63, r#""tcp":{}"#));
    file_of(&entries, &[])
}

/// 63 entries over four classes of overlapping networks and over ports that cross one another.
fn crossing() -> String {
    let mut entries: Vec<String> = (0..63)
        .map(|n| {
            entry(n, &format!(
                r#""ietf-mud:mud":{{"controller":"c{}"}},"tcp":{{"destination-port":{{"port":{},"operator":"neq"}},"source-port":{{"lower-port":{},"upper-port":{}}}}}"#,
                n % 4,
                10 + 2 * (n * 29 % 63),
                2 * (n * 37 % 63),
                1_000 + 2 * (n * 11 % 63)
            ))
        })
        .collect();
    entries.push(entry(63, r#""tcp":{}"#));
    file_of(&entries, &[])
}

/// Networks within one another, so that the addresses of the four classes overlap in many ways.
fn crossing_site() -> String {
    (0..64).map(|n| format!("class\tc{}\t10.0.{}.0/{}\n", n % 4, n * 5 % 64, 18 + n * 7 % 15)).collect()
}

/// A short name for a number: its digits to the base 64, in letters that need no escape.
fn short_name(mut number: usize) -> String {
    const LETTERS: &[u8; 64] = b"ABCDEFGHIJKLMNOPQRSTUVWXYZabcdefghijklmnopqrstuvwxyz0123456789-_";
    let mut name = String::new();
    loop {
        name.push(char::from(LETTERS[number % 64]));
        number /= 64;
        if number == 0 {
            return name;
        }
    }
}

fn many_names() -> String {
    let mut file = format!(r#"{{"ietf-mud:mud":{{{HEADER}}},"x":{{"A":0"#);
    for number in 1..4_600 {
        let _ = write!(file, r#","{}":0"#, short_name(number));
    }
    file.truncate(file.len().min(32_700));
    // Cutting may have gone through a member; what follows the last comma goes.
    let end = file.rfind(',').unwrap();
    file.truncate(end);
    file + "}}"
}

/// As many lists as fit, each named by the policy or by nobody.
fn many_lists(named: bool) -> String {
    let (mut names, mut lists) = (String::new(), String::new());
    for number in 0.. {
        let name = short_name(number);
        let (in_policy, list) = if named {
            (format!(r#"{{"name":"{name}"}},"#), format!(r#"{{"name":"{name}","type":"ipv4-acl-type"}},"#))
        } else {
            (String::new(), format!(r#"{{"name":"{name}"}},"#))
        };
        if names.len() + lists.len() + in_policy.len() + list.len() > 32_300 {
            break;
        }
        names += &in_policy;
        lists += &list;
    }
    let (names, lists) = (names.trim_end_matches(','), lists.trim_end_matches(','));
    format!(
        r#"{{"ietf-mud:mud":{{{HEADER},"from-device-policy":{{"access-lists":{{"access-list":[{names}]}}}}}},"ietf-access-control-list:acls":{{"acl":[{lists}]}}}}"#
    )
}

fn many_entries() -> String {
    let entries: Vec<String> = (0..690)
        .map(|n| format!(r#"{{"name":"{}","actions":{{"forwarding":"drop"}}}}"#, short_name(n)))
        .collect();
    file_of(&entries, &[])
}

fn many_escapes() -> String {
    let mut file = format!(r#"{{"ietf-mud:mud":{{{HEADER}}}"#);
    for number in 0..300 {
        let _ = write!(file, r#","\u0061{number}":"\ud83d\ude00\u00e9\n\"{}""#, "\\u0041".repeat(10));
    }
    file.truncate(file.len().min(32_000));
    let end = file.rfind(",\"").unwrap();
    file.truncate(end);
    file + "}"
}
