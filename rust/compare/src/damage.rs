//! Damage: one thing in a good file is changed, mostly into what breaks a rule.

use crate::dice::Dice;
use crate::things::odd;
use crate::value::{number, object, text, Value};

/// Every member name that a rule speaks of, and some that look like one.
const NAMES: [&str; 46] = [
    "ietf-mud:mud", "mud-version", "mud-url", "last-update", "is-supported", "cache-validity",
    "from-device-policy", "to-device-policy", "access-lists", "access-list", "name",
    "ietf-access-control-list:acls", "acl", "type", "aces", "ace", "actions", "forwarding", "matches",
    "manufacturer", "model", "controller", "same-manufacturer", "local-networks", "my-controller", "ipv4",
    "protocol", "source-ipv4-network", "destination-ipv4-network", "ietf-acldns:src-dnsname",
    "ietf-acldns:dst-dnsname", "tcp", "udp", "source-port", "destination-port",
    "ietf-mud:direction-initiated", "lower-port", "upper-port", "port", "operator", "ttl", "src-dnsname",
    "direction-initiated", "ipv6", "logging", "",
];

/// Changes one thing, or a few.
pub fn structure(file: &mut Value, dice: &mut Dice) {
    for _ in 0..dice.one(&[1, 1, 1, 2, 3]) {
        match dice.below(10) {
            0 | 1 => change_member(file, dice),
            2 => change_value(file, dice),
            3 => member_operation(file, dice, |members, place, _| {
                members.remove(place);
            }),
            4 => member_operation(file, dice, |members, place, dice| {
                members[place].0 = dice.one(&NAMES).to_owned();
            }),
            5 => member_operation(file, dice, |members, place, dice| {
                let name = members[place].0.clone();
                let value = if dice.chance(50) { members[place].1.clone() } else { odd(dice) };
                let other = dice.below(members.len() + 1);
                members.insert(other, (name, value));
            }),
            6 => add_member(file, dice),
            7 | 8 => in_matches(file, dice),
            _ => element_operation(file, dice),
        }
    }
}

/// A member, of any object, gets a value at the edge of its own rule.
fn change_member(file: &mut Value, dice: &mut Dice) {
    member_operation(file, dice, |members, place, dice| {
        let (name, value) = &mut members[place];
        *value = near_limit(name, dice).unwrap_or_else(|| odd(dice));
    });
}

/// One member gets a value near its own limit, and all else stays right. Its name is chosen first, so
/// that seldom ones are tried as often as others.
pub fn edge(file: &mut Value, dice: &mut Dice) {
    let mut names: Vec<String> = Vec::new();
    file.each_member(&mut |name, _| names.push(name.to_owned()));
    names.retain(|name| near_limit(name, &mut dice.clone()).is_some());
    let mut different = names.clone();
    different.sort();
    different.dedup();
    if different.is_empty() {
        return;
    }
    let chosen = different.swap_remove(dice.below(different.len()));
    let mut left = dice.below(names.iter().filter(|name| **name == chosen).count());
    file.each_member(&mut |name, value| {
        if name == chosen {
            if left == 0 {
                *value = near_limit(name, dice).unwrap_or(Value::Null);
            }
            left = left.wrapping_sub(1);
        }
    });
}

/// A value near the limit of the member called `name`.
pub fn near_limit(name: &str, dice: &mut Dice) -> Option<Value> {
    Some(match name {
        "cache-validity" => number(dice.one(&["0", "1", "168", "169", "-1", "48.0", "168e0", "4294967297"])),
        "mud-version" => {
            number(dice.one(&["0", "1", "2", "1.0", "1e0", "4294967297", "18446744073709551617"]))
        }
        "mud-url" => text(near_url(dice)),
        "protocol" => {
            number(dice.one(&["0", "6", "17", "255", "255", "256", "256", "6.0", "-0", "4294967302"]))
        }
        "port" | "lower-port" | "upper-port" => number(dice.one(&[
            "0", "1", "65535", "65535", "65536", "65536", "80.0", "-1", "4294967376", "18446744073709551696",
        ])),
        "operator" => text(dice.one(&["eq", "neq", "lte", "gte", "range", "EQ", "", "lt"])),
        "forwarding" => {
            text(dice.one(&["accept", "drop", "reject", "Accept", "", "ietf-access-control-list:accept"]))
        }
        "type" => text(dice.one(&[
            "ipv4-acl-type", "ipv6-acl-type", "eth-acl-type", "ipv4", "",
            "ietf-access-control-list:ipv4-acl-type", "ietf-access-control-list:ipv6-acl-type",
            "ipv4-acl-type\u{0}",
        ])),
        "name" => text(dice.one(&["l0", "l1", "e0", "e1", "", "é0", "nobody"])),
        "ietf-mud:direction-initiated" => text(dice.one(&["from-device", "to-device", "from", ""])),
        "source-ipv4-network" | "destination-ipv4-network" => text(dice.one(&[
            "10.0.0.0/30", "10.0.0.0", "10.0.0.0/", "10.0.0.0/32", "10.0.0.0/33", "10.0.0.0/08",
            "10.0.0.256/8", "010.0.0.0/8", "10.0.0/8", "10.0.0.0.0/8", "10.0.0.0/8 ", "1.2.3.4/0",
            "1.2.3.4/00",
        ])),
        _ => return None,
    })
}

fn near_url(dice: &mut Dice) -> String {
    match dice.below(3) {
        0 => format!("https://{}", "a".repeat(dice.one(&[0, 1, 246, 247, 248]))),
        1 => format!("https://a{}", char::from_u32(dice.one(&[0x20, 0x21, 0x7e, 0x7f, 0x80, 0])).unwrap()),
        _ => dice
            .one(&[
                "https://", "https:///x", "https://?", "https://#", "https:/a", "http://a", "HTTPS://a",
                "https://@", " https://a",
            ])
            .to_owned(),
    }
}

/// Any value becomes another.
fn change_value(file: &mut Value, dice: &mut Dice) {
    let new = odd(dice);
    if let Some(value) = file.pick(dice, |_| true) {
        *value = new;
    }
}

/// Does something to a member of an object that has one.
fn member_operation(
    file: &mut Value,
    dice: &mut Dice,
    operation: fn(&mut Vec<(String, Value)>, usize, &mut Dice),
) {
    let has_members = |value: &Value| matches!(value, Value::Object(members) if !members.is_empty());
    if let Some(Value::Object(members)) = file.pick(dice, has_members) {
        let place = dice.below(members.len());
        operation(members, place, dice);
    }
}

/// Any object gets a member more.
fn add_member(file: &mut Value, dice: &mut Dice) {
    let (name, value) = (dice.one(&NAMES), odd(dice));
    if let Some(object) = file.pick(dice, Value::is_object) {
        object.add(name, value);
    }
}

/// Something that must not be in `matches`, or in one of its objects, is put there.
fn in_matches(file: &mut Value, dice: &mut Dice) {
    let extra = (dice.one(&NAMES).to_owned(), odd(dice));
    let has_matches = |value: &Value| matches!(value, Value::Object(members) if members.iter().any(|(name, _)| name == "matches"));
    let Some(Value::Object(members)) = file.pick(dice, has_matches) else {
        return;
    };
    let Some((_, matches)) = members.iter_mut().find(|(name, _)| name == "matches") else {
        return;
    };
    let new = match dice.below(6) {
        0 => object([("tcp", object([])), ("udp", object([]))]),
        1 => odd(dice),
        _ => matches.clone(),
    };
    *matches = new;
    if let Some(Value::Object(inside)) = matches.pick(dice, Value::is_object) {
        inside.push(extra);
    }
}

/// An element of an array is taken away, doubled or changed.
fn element_operation(file: &mut Value, dice: &mut Dice) {
    let new = odd(dice);
    let has_elements = |value: &Value| matches!(value, Value::Array(values) if !values.is_empty());
    if let Some(Value::Array(values)) = file.pick(dice, has_elements) {
        let place = dice.below(values.len());
        match dice.below(3) {
            0 => {
                values.remove(place);
            }
            1 => values.insert(place, values[place].clone()),
            _ => values[place] = new,
        }
    }
}

/// A value, mostly of a member that nobody reads, is written by its own text: JSON or nearly so.
pub fn grammar(file: &mut Value, dice: &mut Dice) {
    let raw = number(dice.one(&TEXTS));
    if dice.chance(70) && file.is_object() {
        file.add("raw", raw);
    } else if let Some(value) = file.pick(dice, |_| true) {
        *value = raw;
    }
}

/// Texts on both sides of each production of the grammar.
const TEXTS: [&str; 96] = [
    "\u{c}1", "\u{b}1", "1\u{c}", "\u{a0}1", "\u{feff}1", "1\u{0}", "/**/1", "1//", "#1", "0", "-0", "1",
    "-1", "10", "-10", "0.0", "1.5", "-0.5", "0e0", "1e5", "1E5", "1e+5", "1e-5", "1.5e05", "0E-0",
    "9007199254740993", "1e99999", "00", "01", "-00", "-01", "-", "+1", "--1", ".5", "-.5", "1.", "1.e5",
    "1e", "1e+", "1e-", "1e5.0", "0x1", "1_0", "1 0", "1e+-5", "1..0", "0-", "1a", "e5", "true", "false",
    "null", "True", "TRUE", "tru", "truee", "nul", "nulll", "fals", "t", "n", "f", "NaN", "Infinity", "\"\"",
    "\"\\\"\"", "\"\\\\\"", "\"\\/\"", "\"\\b\\f\\n\\r\\t\"", "\"\\u00e9\"", "\"\\u00E9\"", "\"\\U00e9\"",
    "\"\\u00g9\"", "\"\\u00e\"", "\"\\\"", "\"\\x\"", "\"\\'\"", "\"\\a\"", "\"\t\"", "\"\u{1f}\"",
    "\"\u{7f}\"", "\"a", "'a'", "[]", "[ ]", "[1,]", "[,1]", "[1 2]", "[1]]", "{}", "{\"a\"}", "{\"a\":}",
    "{\"a\":1,}", "{a:1}", "",
];

/// Changes bytes of a text: each kind of damage that a file can take on its way.
pub fn bytes(mut text: Vec<u8>, dice: &mut Dice) -> Vec<u8> {
    for _ in 0..dice.one(&[1, 1, 2, 4]) {
        let place = dice.below(text.len() + 1);
        match dice.below(8) {
            0 => text.truncate(place),
            1 | 2 if place < text.len() => text[place] = odd_byte(dice),
            3 if place < text.len() => text[place] ^= 1 << dice.below(8),
            4 if place < text.len() => {
                text.remove(place);
            }
            5 => {
                let end = (place + dice.below(20)).min(text.len());
                let piece = text[place..end].to_vec();
                let other = dice.below(text.len() + 1);
                text.splice(other..other, piece);
            }
            6 => {
                let piece = odd_bytes(dice).to_vec();
                text.splice(place..place, piece);
            }
            _ => text.insert(place, odd_byte(dice)),
        }
    }
    text
}

fn odd_byte(dice: &mut Dice) -> u8 {
    match dice.below(3) {
        0 => dice.bits() as u8,
        _ => dice.one(b"\"\\{}[],:0-1.eE+ \t\n\r/u\0\x0b\x0c\x1f\x7f\x80\xc0\xff"),
    }
}

fn odd_bytes(dice: &mut Dice) -> &'static [u8] {
    dice.one(&[
        &b"\xEF\xBB\xBF"[..],
        b"\xED\xA0\x80",
        b"\xED\x9F\xBF",
        b"\xC0\xAF",
        b"\xC2\x80",
        b"\xE0\x80\x80",
        b"\xE0\xA0\x80",
        b"\xF0\x80\x80\x80",
        b"\xF0\x90\x80\x80",
        b"\xF4\x8F\xBF\xBF",
        b"\xF4\x90\x80\x80",
        b"\xE2\x82",
        b"\xF5\x80\x80\x80",
        b"null",
        b"[]",
        b"{}",
        b",",
        b"\\u0041",
        b"\\u",
    ])
}

/// Puts escapes of surrogates behind a quotation mark: half a pair, a whole one, or one that only
/// looks like it.
pub fn surrogates(mut text: Vec<u8>, dice: &mut Dice) -> Vec<u8> {
    let quotes: Vec<usize> = (0..text.len()).filter(|&place| text[place] == b'"').collect();
    if quotes.is_empty() {
        return text;
    }
    // Quotation marks come in pairs unless some are escaped: an even one opens a string.
    let place = quotes[dice.below(quotes.len() / 2) * 2] + 1;
    let piece: &[u8] = dice.one(&[
        &b"\\ud800"[..],
        b"\\uDBFF",
        b"\\udc00",
        b"\\uDFFF",
        b"\\ud800\\udc00",
        b"\\uDBFF\\uDFFF",
        b"\\ud800\\ud800\\udc00",
        b"\\udc00\\ud800",
        b"\\ud800\\u0041",
        b"\\ud800x",
        b"\\\\ud800",
        b"\\ud7ff",
        b"\\ue000",
        b"\\ud800\\n",
        b"\\ud83d\xF0\x9F\x98\x80",
        b"\\ud800\\\\udc00",
        b"\\ud800\\uzzzz",
        b"\\ud80",
        b"\\ud800\\udc0",
        b"\\uDc00\\udC00",
        b"\\ud800\\udc00\\udc00",
        b"\\ud800\xED\xB0\x80",
    ]);
    text.splice(place..place, piece.iter().copied());
    text
}

/// Changes bytes of a text and keeps its length.
pub fn bytes_in_place(mut text: Vec<u8>, dice: &mut Dice) -> Vec<u8> {
    let used = text.iter().position(|&byte| byte == 0).unwrap_or(text.len());
    for _ in 0..dice.one(&[1, 1, 2]) {
        let place = dice.below((used + 2).min(text.len()));
        text[place] = match dice.below(3) {
            0 => dice.bits() as u8,
            1 => text[place] ^ (1 << dice.below(8)),
            _ => dice.one(b"0123456789-.\t\n\0 "),
        };
    }
    text
}
