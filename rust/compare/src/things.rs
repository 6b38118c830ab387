//! MUD files that keep all rules.

use crate::dice::Dice;
use crate::sites::{address, length, CLASSES, HOSTS, MAKERS, URLS};
use crate::value::{list_of_null, number, object, text, Value};

/// Where a list is named.
#[derive(Clone, Copy, Debug, PartialEq)]
pub enum Named {
    From,
    To,
    Both,
    Nowhere,
}

/// The header with the members that must be there, and some that may.
pub fn header(dice: &mut Dice) -> Value {
    let mut mud = object([
        ("mud-version", number(1)),
        ("mud-url", text(dice.one(&URLS))),
        ("last-update", text(dice.one(&["", "2018-03-02T11:20:51+01:00", "é😀\u{0}"]))),
        ("is-supported", Value::Bool(dice.chance(50))),
    ]);
    if dice.chance(50) {
        mud.add("cache-validity", number(dice.one(&[1, 2, 48, 167, 168])));
    }
    if dice.chance(30) {
        mud.add("systeminfo", text("a thing"));
    }
    mud
}

/// A file of some lists.
pub fn thing(dice: &mut Dice) -> Value {
    let most = dice.one(&[1, 2, 4, 8]);
    let count = dice.below(5);
    let lists: Vec<(Named, String, Value)> = (0..count).map(|n| any_list(dice, n, most)).collect();
    assemble(dice, lists)
}

/// A file with one list for each direction, of one or two entries.
pub fn small_thing(dice: &mut Dice) -> Value {
    let lists = [(Named::From, "l0"), (Named::To, "l1")].map(|(named, name)| {
        let entries = (0..dice.between(1, 2)).map(|n| entry(dice, named, n)).collect();
        (named, name.to_owned(), ipv4_list(dice, name, entries))
    });
    assemble(dice, lists.to_vec())
}

fn any_list(dice: &mut Dice, number: usize, most: usize) -> (Named, String, Value) {
    let named = dice.one(&[Named::From, Named::From, Named::To, Named::To, Named::Both, Named::Nowhere]);
    let name = match dice.below(6) {
        0 => format!("é{number}"),
        1 if number == 0 => String::new(),
        // Each place that has this name may write it with other escapes.
        2 => format!("\u{8}\u{c}\n\r\t\"\\/\u{0}😀{number}"),
        _ => format!("l{number}"),
    };
    let list = match dice.below(8) {
        0 => ipv6_list(dice, &name),
        1 if named == Named::Nowhere => object([("name", text(&name)), ("type", odd(dice))]),
        _ => {
            let entries = (0..dice.below(most + 1)).map(|n| entry(dice, named, n)).collect();
            ipv4_list(dice, &name, entries)
        }
    };
    (named, name, list)
}

/// A file of these lists: its header, its policies, and its lists in another order.
pub fn assemble(dice: &mut Dice, lists: Vec<(Named, String, Value)>) -> Value {
    let mut mud = header(dice);
    for (member, other) in [("from-device-policy", Named::To), ("to-device-policy", Named::From)] {
        let names: Vec<&str> = lists
            .iter()
            .filter(|(named, _, _)| *named != other && *named != Named::Nowhere)
            .map(|(_, name, _)| name.as_str())
            .collect();
        if !names.is_empty() || dice.chance(30) {
            mud.add(member, policy(dice, &names));
        }
    }
    let mut acl: Vec<Value> = lists.into_iter().map(|(_, _, list)| list).collect();
    dice.shuffle(&mut acl);
    let mut file = object([("ietf-mud:mud", mud.shuffled(dice))]);
    if !acl.is_empty() || dice.chance(30) {
        file.add("ietf-access-control-list:acls", acls(dice, acl));
    }
    if dice.chance(20) {
        file.add(dice.one(&["x", "ietf-mud:mud2", ""]), odd(dice));
    }
    file.shuffled(dice)
}

fn acls(dice: &mut Dice, acl: Vec<Value>) -> Value {
    if acl.is_empty() && dice.chance(50) {
        return object([]);
    }
    let mut acls = object([("acl", Value::Array(acl))]);
    if dice.chance(20) {
        acls.add("attachment-points", odd(dice));
    }
    acls
}

fn policy(dice: &mut Dice, names: &[&str]) -> Value {
    if names.is_empty() {
        return match dice.below(3) {
            0 => object([]),
            1 => object([("access-lists", object([]))]),
            _ => object([("access-lists", object([("access-list", Value::Array(vec![]))]))]),
        };
    }
    let named = names.iter().map(|name| object([("name", text(name))])).collect();
    object([("access-lists", object([("access-list", Value::Array(named))]))])
}

/// An IPv4 list.
pub fn ipv4_list(dice: &mut Dice, name: &str, entries: Vec<Value>) -> Value {
    let mut list = object([("name", text(name)), ("type", text("ipv4-acl-type"))]);
    if !entries.is_empty() || dice.chance(50) {
        let mut aces = object([]);
        if !entries.is_empty() || dice.chance(50) {
            aces.add("ace", Value::Array(entries));
        }
        list.add("aces", aces);
    }
    list.shuffled(dice)
}

/// An IPv6 list, whose entries nobody reads.
fn ipv6_list(dice: &mut Dice, name: &str) -> Value {
    let mut list = object([("name", text(name)), ("type", text("ipv6-acl-type"))]);
    if dice.chance(60) {
        list.add("aces", odd(dice));
    }
    if dice.chance(30) {
        list = object([
            ("name", text(name)),
            ("type", text("ipv6-acl-type")),
            (
                "aces",
                object([(
                    "ace",
                    Value::Array(vec![entry(dice, Named::From, 0), object([("name", number(1))])]),
                )]),
            ),
        ]);
    }
    list.shuffled(dice)
}

/// An entry of a list that is named there.
pub fn entry(dice: &mut Dice, named: Named, number: usize) -> Value {
    let mut entry = object([("name", text(format!("e{number}"))), ("actions", actions(dice))]);
    if dice.chance(90) {
        entry.add("matches", matches(dice, named));
    }
    if dice.chance(10) {
        entry.add(dice.one(&["statistics", "tcp", "ttl", "ietf-mud:mud"]), odd(dice));
    }
    entry.shuffled(dice)
}

fn actions(dice: &mut Dice) -> Value {
    let forwarding = dice.one(&["accept", "accept", "accept", "drop", "reject"]);
    let mut actions = object([("forwarding", text(forwarding))]);
    if dice.chance(10) {
        actions.add("logging", odd(dice));
    }
    actions
}

fn matches(dice: &mut Dice, named: Named) -> Value {
    let mut matches = object([]);
    if dice.chance(40) {
        matches.add("ietf-mud:mud", abstractions(dice));
    }
    let transport = dice.one(&[None, None, Some("tcp"), Some("tcp"), Some("udp"), Some("udp")]);
    if dice.chance(60) {
        matches.add("ipv4", ipv4(dice, named, transport));
    }
    if let Some(transport) = transport {
        matches.add(transport, transport_match(dice, transport));
    }
    matches.shuffled(dice)
}

/// The abstractions of RFC 8520: mostly one, sometimes more.
fn abstractions(dice: &mut Dice) -> Value {
    let mut members = vec![
        ("manufacturer", text(dice.one(&MAKERS))),
        ("model", text(dice.one(&URLS))),
        ("controller", text(dice.one(&CLASSES))),
        ("same-manufacturer", list_of_null()),
        ("local-networks", list_of_null()),
        ("my-controller", list_of_null()),
    ];
    dice.shuffle(&mut members);
    let count = dice.one(&[0, 1, 1, 1, 1, 1, 2, 3]);
    let mut mud = object([]);
    for (name, value) in members.into_iter().take(count) {
        mud.add(name, value);
    }
    mud
}

fn ipv4(dice: &mut Dice, named: Named, transport: Option<&str>) -> Value {
    let mut ipv4 = object([]);
    if dice.chance(40) {
        ipv4.add(
            "protocol",
            number(match transport {
                Some("tcp") => 6,
                Some(_) => 17,
                None => dice.one(&[0, 1, 5, 6, 6, 7, 16, 17, 17, 18, 254, 255]),
            }),
        );
    }
    let (network, name) = match named {
        Named::From => ("destination-ipv4-network", "ietf-acldns:dst-dnsname"),
        Named::To => ("source-ipv4-network", "ietf-acldns:src-dnsname"),
        // Read in both directions, either would stand on the device's side once.
        Named::Both | Named::Nowhere => return ipv4,
    };
    if dice.chance(50) {
        ipv4.add(network, text(format!("{}/{}", address(dice), length(dice))));
    }
    if dice.chance(25) {
        ipv4.add(name, text(dice.one(&HOSTS)));
    }
    ipv4.shuffled(dice)
}

fn transport_match(dice: &mut Dice, transport: &str) -> Value {
    let mut members = object([]);
    for side in ["source-port", "destination-port"] {
        if dice.chance(40) {
            members.add(side, port(dice));
        }
    }
    if transport == "tcp" && dice.chance(40) {
        members.add("ietf-mud:direction-initiated", text(dice.one(&["from-device", "to-device"])));
    }
    members.shuffled(dice)
}

/// A port number. Most are from a few neighbouring ones.
pub fn port_number(dice: &mut Dice) -> usize {
    match dice.below(6) {
        0 => dice.below(65_536),
        1 => dice.one(&[53, 123, 52, 54, 65_534, 65_535]),
        _ => dice.below(8),
    }
}

fn port(dice: &mut Dice) -> Value {
    let (one, other) = (port_number(dice), port_number(dice));
    if dice.chance(40) {
        return object([("lower-port", number(one.min(other))), ("upper-port", number(one.max(other)))])
            .shuffled(dice);
    }
    let mut port = object([("port", number(one))]);
    if dice.chance(70) {
        port.add("operator", text(dice.one(&["eq", "neq", "lte", "gte"])));
    }
    port.shuffled(dice)
}

/// A value that stands at the edge of some rule.
pub fn odd(dice: &mut Dice) -> Value {
    match dice.below(6) {
        0 => dice.one(&[&Value::Null, &Value::Null, &Value::Bool(true), &Value::Bool(false)]).clone(),
        1 | 2 => number(dice.one(&[
            "0", "1", "-0", "-1", "1.0", "1e0", "6", "17", "6.0", "2", "255", "256", "168", "169", "65535",
            "65536", "80", "4294967297", "4294967302", "18446744073709551617", "18446744073709551622",
            "1e400",
        ])),
        3 => text(dice.one(&[
            "", "x", "accept", "drop", "reject", "ACCEPT", "from-device", "to-device", "eq", "neq", "range",
            "lte", "ipv4-acl-type", "ipv6-acl-type", "ietf-access-control-list:ipv4-acl-type",
            "https://a.example/x", "https://", "https:///", "http://a", "1", "10.0.0.0/8", "10.0.0.0",
            "10.0.0.0/33", "10.0.0.0/08", "010.0.0.0/8", "0.0.0.0/0", "l0", "e0", "a.example", "h",
        ])),
        4 => Value::Array(match dice.below(5) {
            0 => vec![],
            1 => vec![Value::Null],
            2 => vec![Value::Null, Value::Null],
            3 => vec![object([("x", number(1))])],
            _ => vec![text("x")],
        }),
        _ => match dice.below(4) {
            0 => object([]),
            1 => object([("x", number(1))]),
            2 => object([("port", number(1))]),
            _ => object([("name", text("l0"))]),
        },
    }
}
