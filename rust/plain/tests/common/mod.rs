//! Files and site tables for the tests, put together from their parts.
#![allow(dead_code)]

use mirokdeul_plain::{build, DevicePort, Flow, RemotePort, REPLY_LEN};

/// The header's four members that must be there.
pub const HEADER: &str =
    r#""mud-version":1,"mud-url":"https://a.example/x","last-update":"","is-supported":true"#;
pub const ACCEPT: &str = r#""actions":{"forwarding":"accept"}"#;
pub const DROP: &str = r#""actions":{"forwarding":"drop"}"#;

/// The answer's number, the line count and the text of the lines.
///
/// Holds for every build too: the reply, which was full of noise, has the lines and then zeros.
pub fn answer(file: impl AsRef<[u8]>, site: &str) -> (u8, usize, String) {
    let mut reply = vec![0xA5; REPLY_LEN];
    let (number, count) = build(file.as_ref(), site.as_bytes(), &mut reply, true);
    let end = reply.iter().position(|&byte| byte == 0).unwrap();
    assert!(reply[end..].iter().all(|&byte| byte == 0));
    let text = String::from_utf8(reply[..end].to_vec()).unwrap();
    assert_eq!(text.matches('\n').count(), count);
    if number != 0 {
        assert_eq!(end, 0);
    }
    (number, count, text)
}

pub fn number(file: impl AsRef<[u8]>) -> u8 {
    answer(file, "").0
}

/// The lines of a file that is taken, tabs made blanks.
pub fn table(file: impl AsRef<[u8]>, site: &str) -> Vec<String> {
    let (number, _, text) = answer(file, site);
    assert_eq!(number, 0);
    text.lines().map(|line| line.replace('\t', " ")).collect()
}

/// A file with `mud` as what is in `ietf-mud:mud`, and `acls` as what is in the lists.
pub fn file(mud: &str, acls: &str) -> String {
    format!(r#"{{"ietf-mud:mud":{{{mud}}},"ietf-access-control-list:acls":{{{acls}}}}}"#)
}

/// A policy that names lists.
pub fn policy(direction: &str, names: &[&str]) -> String {
    let names: Vec<String> = names.iter().map(|name| format!(r#"{{"name":"{name}"}}"#)).collect();
    format!(r#","{direction}-device-policy":{{"access-lists":{{"access-list":[{}]}}}}"#, names.join(","))
}

/// An IPv4 list of entries, each given without its name and brackets.
pub fn list(name: &str, entries: &[&str]) -> String {
    let entries: Vec<String> = entries
        .iter()
        .enumerate()
        .map(|(number, entry)| format!(r#"{{"name":"e{number}",{entry}}}"#))
        .collect();
    format!(r#"{{"name":"{name}","type":"ipv4-acl-type","aces":{{"ace":[{}]}}}}"#, entries.join(","))
}

/// A file with a list of entries for each direction.
pub fn thing(from: &[&str], to: &[&str]) -> String {
    file(
        &[HEADER, &policy("from", &["f"]), &policy("to", &["t"])].concat(),
        &format!(r#""acl":[{},{}]"#, list("f", from), list("t", to)),
    )
}

/// An accepting entry with these members in `matches`.
pub fn accept(matches: &str) -> String {
    format!(r#""matches":{{{matches}}},{ACCEPT}"#)
}

/// A dropping entry with these members in `matches`.
pub fn drop(matches: &str) -> String {
    format!(r#""matches":{{{matches}}},{DROP}"#)
}

/// The lines that accepting entries give, all from the device.
pub fn from_device(matches: &[&str], site: &str) -> Vec<String> {
    let entries: Vec<String> = matches.iter().map(|matches| accept(matches)).collect();
    let entries: Vec<&str> = entries.iter().map(String::as_str).collect();
    table(thing(&entries, &[]), site)
}

/// The number for one accepting entry from the device, and for the same to it.
pub fn numbers(matches: &str) -> (u8, u8) {
    let entry = accept(matches);
    (number(thing(&[&entry], &[])), number(thing(&[], &[&entry])))
}

/// The number of an entry that does not mind its direction.
pub fn entry_number(matches: &str) -> u8 {
    let (from, to) = numbers(matches);
    assert_eq!(from, to, "{matches}");
    from
}

pub fn flow(numbers: [u32; 6]) -> Flow {
    Flow {
        direction: numbers[0] as u8,
        protocol: numbers[1] as u8,
        opener: numbers[2] as u8,
        address: numbers[3],
        remote: RemotePort(numbers[4] as u16),
        device: DevicePort(numbers[5] as u16),
    }
}

/// The bytes of a stored table with this text.
pub fn stored(text: &str) -> Vec<u8> {
    let mut bytes = text.replace(' ', "\t").into_bytes();
    bytes.resize(REPLY_LEN, 0);
    bytes
}

/// A small generator of numbers.
pub struct Numbers(pub u64);

impl Numbers {
    pub fn below(&mut self, end: u32) -> u32 {
        self.0 = self.0.wrapping_mul(6_364_136_223_846_793_005).wrapping_add(1_442_695_040_888_963_407);
        ((self.0 >> 33) % u64::from(end)) as u32
    }

    pub fn one<T: Copy>(&mut self, of: &[T]) -> T {
        of[self.below(of.len() as u32) as usize]
    }
}
