//! One example of each answer, through the wrapper, whichever library it is linked to.

use mirokdeul::{
    build, build_into, verdict, Answer, DevicePort, Flow, NoVerdict, Refusal, RemotePort, Verdict, REPLY_LEN,
    WORK_LEN,
};

const HEADER: &str =
    r#""mud-version":1,"mud-url":"https://a.example/x","last-update":"","is-supported":true"#;

/// A file with these entries from the device.
fn thing(entries: &[String]) -> String {
    let entries: Vec<String> = entries
        .iter()
        .enumerate()
        .map(|(number, entry)| format!(r#"{{"name":"{number}",{entry}}}"#))
        .collect();
    format!(
        r#"{{"ietf-mud:mud":{{{HEADER},"from-device-policy":{{"access-lists":{{"access-list":[{{"name":"l"}}]}}}}}},
        "ietf-access-control-list:acls":{{"acl":[{{"name":"l","type":"ipv4-acl-type","aces":{{"ace":[{}]}}}}]}}}}"#,
        entries.join(",")
    )
}

fn accept(matches: &str) -> String {
    format!(r#""matches":{{{matches}}},"actions":{{"forwarding":"accept"}}"#)
}

fn refusal(file: &str, site: &str) -> u8 {
    build(file.as_bytes(), site.as_bytes()).unwrap_err().number()
}

/// Addresses of class `c` and entries for ports, none adjacent.
fn scattered(addresses: usize, ports: usize) -> (String, String) {
    let entries: Vec<String> = (0..ports)
        .map(|n| {
            accept(&format!(
                r#""ietf-mud:mud":{{"controller":"c"}},"tcp":{{"destination-port":{{"port":{}}}}}"#,
                2 * n
            ))
        })
        .collect();
    (thing(&entries), (0..addresses).map(|n| format!("class\tc\t10.0.0.{}\n", 2 * n)).collect())
}

#[test]
fn each_number_of_a_build() {
    let empty = format!(r#"{{"ietf-mud:mud":{{{HEADER}}}}}"#);
    assert_eq!(build(empty.as_bytes(), b"").unwrap().count(), 0);
    assert_eq!(refusal(&empty, &"\n".repeat(65)), 2);
    assert_eq!(refusal(&empty, "\n"), 3);
    assert_eq!(refusal(&" ".repeat(32_769), ""), 4);
    assert_eq!(refusal("", ""), 5);
    assert_eq!(refusal(r#"{"a":1,"a":2}"#, ""), 6);
    assert_eq!(refusal("{}", ""), 7);
    assert_eq!(refusal(&empty.replace("}}", r#","to-device-policy":1}}"#), ""), 8);
    assert_eq!(refusal(&thing(&[accept(r#""ttl":1"#)]), ""), 9);
    assert_eq!(refusal(&thing(&[accept(r#""tcp":1"#)]), ""), 10);
    assert_eq!(refusal(&thing(&vec![accept(""); 65]), ""), 11);
    let (file, site) = scattered(64, 9);
    assert_eq!(refusal(&file, &site), 12);
    let (file, site) = scattered(64, 8);
    assert_eq!(build(file.as_bytes(), site.as_bytes()).unwrap().count(), 512);
}

#[test]
fn number_1_clears_buffers_of_any_length() {
    for (reply_len, work_len) in
        [(REPLY_LEN - 1, WORK_LEN), (REPLY_LEN, WORK_LEN + 1), (0, WORK_LEN), (REPLY_LEN, 0), (7, 7)]
    {
        let (mut reply, mut work) = (vec![9; reply_len], vec![9; work_len]);
        assert_eq!(build_into(b"", b"", &mut reply, &mut work), Answer::Refused(Refusal::Buffers));
        assert!(reply.iter().all(|&byte| byte == 0) && work.iter().all(|&word| word == 0));
    }
}

#[test]
fn refusals_have_the_numbers_1_to_12() {
    let numbers: Vec<u8> = Refusal::ALL.iter().map(|refusal| refusal.number()).collect();
    assert_eq!(numbers, (1..=12).collect::<Vec<u8>>());
    assert_eq!((NoVerdict::NotATable.number(), NoVerdict::NotAFlow.number()), (13, 14));
}

#[test]
fn each_verdict() {
    let table = build(thing(&[accept(r#""tcp":{}"#)]).as_bytes(), b"").unwrap();
    let flow = Flow::tcp_from_device([192, 0, 2, 1].into(), RemotePort(1), DevicePort(2));
    assert_eq!(table.verdict(&flow), Ok(Verdict::Accept));
    assert_eq!(table.verdict(&flow.answered()), Ok(Verdict::Drop));
    assert_eq!(table.verdict(&Flow { opener: 2, ..flow }), Err(NoVerdict::NotAFlow));
    assert_eq!(verdict(&table.as_bytes()[1..], &flow), Err(NoVerdict::NotATable));
}

#[test]
fn ports_keep_their_ends() {
    let table = build(thing(&[accept(r#""tcp":{"destination-port":{"port":1}}"#)]).as_bytes(), b"").unwrap();
    let flow =
        |remote, device| Flow::tcp_from_device([192, 0, 2, 1].into(), RemotePort(remote), DevicePort(device));
    assert_eq!(table.verdict(&flow(1, 2)), Ok(Verdict::Accept));
    assert_eq!(table.verdict(&flow(2, 1)), Ok(Verdict::Drop));
}

#[test]
fn threads_do_not_meet() {
    let (file, site) = scattered(32, 8);
    let expected = build(file.as_bytes(), site.as_bytes()).unwrap();
    std::thread::scope(|scope| {
        for _ in 0..4 {
            scope.spawn(|| {
                for _ in 0..20 {
                    assert_eq!(build(file.as_bytes(), site.as_bytes()).unwrap(), expected);
                }
            });
        }
    });
}
