//! Site tables, well-formed and damaged.

use crate::dice::Dice;

/// Names that site lines and entries share, so that they often meet.
pub const HOSTS: [&str; 5] = ["cloud.example.com", "h", "a.example", "-", "urn:ietf:params:mud:dns"];
pub const CLASSES: [&str; 6] = [
    "urn:ietf:params:mud:dns", "urn:ietf:params:mud:ntp", "c", "https://a.example/c",
    "urn:ietf:params:mud:dn", "h",
];
pub const URLS: [&str; 8] = [
    "https://a.example/x", "https://a.example/y", "https://a.example", "https://a.example?x",
    "https://b.example/x", "https://u@b.example:8443/x", "https://A.example/x", "https://a.example#/x",
];
pub const MAKERS: [&str; 6] = ["a.example", "b.example", "u@b.example:8443", "A.example", "", "a.example/x"];

/// A line of a site table.
#[derive(Clone, Debug)]
pub struct Line {
    pub kind: String,
    pub name: String,
    pub network: String,
}

impl Line {
    fn new(kind: &str, name: &str, network: String) -> Line {
        Line { kind: kind.to_owned(), name: name.to_owned(), network }
    }
}

/// The text of a site table.
pub fn write(lines: &[Line]) -> Vec<u8> {
    let mut bytes = Vec::new();
    for line in lines {
        bytes.extend_from_slice(format!("{}\t{}\t{}\n", line.kind, line.name, line.network).as_bytes());
    }
    bytes
}

/// An address. Most are from a few neighbouring ones, so that networks overlap and touch.
pub fn address(dice: &mut Dice) -> String {
    match dice.below(10) {
        0 => dice.one(&["0.0.0.0", "255.255.255.255", "128.0.0.0", "127.255.255.255"]).to_owned(),
        1 => std::net::Ipv4Addr::from(dice.bits() as u32).to_string(),
        2 => format!("10.0.{}.255", dice.below(2)),
        _ => format!("10.0.0.{}", dice.below(16)),
    }
}

/// The length of a network.
pub fn length(dice: &mut Dice) -> usize {
    match dice.below(8) {
        0 => dice.below(33),
        1 => dice.one(&[0, 1, 8, 24]),
        _ => dice.between(28, 32),
    }
}

fn network(dice: &mut Dice) -> String {
    let address = address(dice);
    if dice.chance(40) {
        address
    } else {
        format!("{address}/{}", length(dice))
    }
}

/// A well-formed line.
pub fn line(dice: &mut Dice) -> Line {
    let network = network(dice);
    match dice.below(5) {
        0 => Line::new("host", dice.one(&HOSTS), network),
        1 => Line::new("class", dice.one(&CLASSES), network),
        2 => Line::new("mine", dice.one(&URLS), network),
        3 => Line::new("local", "-", network),
        _ => Line::new("thing", dice.one(&URLS), network),
    }
}

/// A well-formed site table.
pub fn site(dice: &mut Dice) -> Vec<u8> {
    let count = match dice.below(6) {
        0 => 0,
        1 => dice.between(20, 64),
        _ => dice.between(1, 12),
    };
    let lines: Vec<Line> = (0..count).map(|_| line(dice)).collect();
    fitting(write(&lines))
}

/// The longest beginning of whole lines that is not too long.
fn fitting(mut bytes: Vec<u8>) -> Vec<u8> {
    while bytes.len() > 8_192 {
        bytes.pop();
        while bytes.last().is_some_and(|&byte| byte != b'\n') {
            bytes.pop();
        }
    }
    bytes
}

/// `count` lines of one class, whose addresses are not adjacent.
pub fn scattered(count: usize, class: &str) -> Vec<Line> {
    (0..count).map(|n| Line::new("class", class, format!("10.1.{}.{}", n / 100, n % 100 * 2))).collect()
}

/// A site table near a limit, or with one thing wrong.
pub fn damaged(dice: &mut Dice) -> Vec<u8> {
    match dice.below(6) {
        0 => of_line_ends(dice),
        1 => of_bytes(dice),
        2 | 3 => with_odd_line(dice),
        4 => crate::damage::bytes(site(dice), dice),
        _ => with_odd_end(dice),
    }
}

/// 63 to 66 LF, in lines that may be malformed.
fn of_line_ends(dice: &mut Dice) -> Vec<u8> {
    let count = dice.between(63, 66);
    if dice.chance(20) {
        return vec![b'\n'; count];
    }
    let mut bytes = write(&scattered(count, "c"));
    if dice.chance(30) {
        bytes.extend_from_slice(dice.one(&[&b"x"[..], b"host\th\t1.2.3.4", b" ", b"\0"]));
    }
    bytes
}

/// 8,191 to 8,193 bytes.
fn of_bytes(dice: &mut Dice) -> Vec<u8> {
    let wanted = dice.between(8_191, 8_193);
    if dice.chance(20) {
        return vec![b'x'; wanted];
    }
    let mut bytes = Vec::new();
    while bytes.len() < wanted {
        // The last line takes what is left; lines before it leave it enough to be one.
        let left = wanted - bytes.len();
        let name = if left > 600 {
            200
        } else if left > 262 {
            left / 2 - 14
        } else {
            left - 14
        };
        bytes.extend_from_slice(format!("host\t{}\t1.2.3.4\n", "a".repeat(name)).as_bytes());
    }
    bytes
}

/// Good lines and one whose kind, name or network is odd.
fn with_odd_line(dice: &mut Dice) -> Vec<u8> {
    let mut lines: Vec<Line> = (0..dice.between(1, 5)).map(|_| line(dice)).collect();
    let place = dice.below(lines.len());
    let line = &mut lines[place];
    match dice.below(4) {
        0 => {
            line.kind = dice
                .one(&[
                    "Host", "hosts", "", "hos", "class ", "mine\t", "host", "thing", "local", "mine", "class",
                ])
                .to_owned()
        }
        1 => line.name = odd_name(dice),
        _ => line.network = odd_network(dice),
    }
    write(&lines)
}

fn odd_name(dice: &mut Dice) -> String {
    match dice.below(4) {
        0 => "n".repeat(dice.one(&[0, 1, 254, 255, 256])),
        1 => format!("https://{}", "a".repeat(dice.one(&[0, 1, 246, 247, 248, 249]))),
        2 => format!(
            "a{}b",
            char::from_u32(dice.one(&[0, 9, 10, 13, 0x1f, 0x20, 0x21, 0x7e, 0x7f, 0x80, 0xe9])).unwrap()
        ),
        _ => dice
            .one(&[
                "-", "--", "https://", "https:///", "https://?", "https://#a", "http://a", "HTTPS://a",
                "https:/a", "https://a b",
            ])
            .to_owned(),
    }
}

/// A network as it may not be written, or just may.
pub fn odd_network(dice: &mut Dice) -> String {
    let address = address(dice);
    match dice.below(6) {
        0 => format!(
            "{address}/{}",
            dice.one(&[
                "", "0", "00", "01", "08", "32", "33", "-1", "+1", "1/1", "320", "4294967296", " 1", "1 "
            ])
        ),
        1 => format!("0{address}"),
        2 => format!("{address}{}", dice.one(&[".", ".0", " ", "\r", "\t", "x", "0", "/"])),
        3 => dice
            .one(&[
                "", "1", "1.2", "1.2.3", "1.2.3.4.5", "1.2.3.256", "1..2.3", ".1.2.3", "a.b.c.d", "1.2.3.-1",
                "::1",
            ])
            .to_owned(),
        4 => format!("1.{}.3.4", dice.one(&["255", "256", "00", "01", "0", "1000", "4294967297", ""])),
        _ => address,
    }
}

/// A good table with an odd end.
fn with_odd_end(dice: &mut Dice) -> Vec<u8> {
    let mut bytes = site(dice);
    match dice.below(4) {
        0 => {
            bytes.pop();
        }
        1 => bytes.push(b'\n'),
        2 => bytes.insert(0, b'\n'),
        _ => bytes.extend_from_slice(b"host\th"),
    }
    bytes
}
