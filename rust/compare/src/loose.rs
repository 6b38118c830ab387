//! Headers, lists and entries put together without care: every member may be there or not, and each mostly has a value
//! that would do by itself. So the rules about which members go together are tried, in all the ways
//! in which they can be kept and broken.

use crate::damage::near_limit;
use crate::dice::Dice;
use crate::sites::{address, length, odd_network, CLASSES, HOSTS, MAKERS, URLS};
use crate::things::{assemble, ipv4_list, odd, port_number, Named};
use crate::value::{list_of_null, number, object, text, Value};

/// A file of one list, with one or two entries.
pub fn thing(dice: &mut Dice) -> Value {
    let named = dice.one(&[Named::From, Named::From, Named::To, Named::To, Named::Both]);
    let entries = (0..dice.between(1, 2)).map(|number| entry(dice, number)).collect();
    let list = ipv4_list(dice, "l", entries);
    assemble(dice, vec![(named, "l".to_owned(), list)])
}

/// A file of a header, with little else.
pub fn header(dice: &mut Dice) -> Value {
    let mut mud = object([]);
    for (name, percent) in [
        ("mud-version", 99),
        ("mud-url", 99),
        ("last-update", 99),
        ("is-supported", 99),
        ("cache-validity", 50),
    ] {
        if dice.chance(percent) {
            let value = header_value(name, dice);
            mud.add(name, value);
        }
    }
    if dice.chance(10) {
        mud.add(
            dice.one(&["from-device-policy", "to-device-policy", "x", "ietf-mud:mud-version"]),
            odd(dice),
        );
    }
    let mut file = object([("ietf-mud:mud", mud.shuffled(dice))]);
    if dice.chance(10) {
        file.add(dice.one(&["ietf-access-control-list:acls", "x"]), odd(dice));
    }
    file.shuffled(dice)
}

fn header_value(name: &str, dice: &mut Dice) -> Value {
    match dice.below(20) {
        0 => odd(dice),
        1..=3 => near_limit(name, dice).unwrap_or_else(|| odd(dice)),
        _ => match name {
            "mud-version" => number(1),
            "mud-url" => text(dice.one(&URLS)),
            "is-supported" => Value::Bool(dice.chance(50)),
            "cache-validity" => number(dice.between(1, 168)),
            _ => text("2018-03-02T11:20:51+01:00"),
        },
    }
}

/// A file of policies and lists, with few entries: each part may be missing or something else.
pub fn lists(dice: &mut Dice) -> Value {
    const NAMES: [&str; 4] = ["a", "b", "c", ""];
    let mut mud = crate::things::header(dice);
    for policy in ["from-device-policy", "to-device-policy"] {
        if dice.chance(70) {
            let count = dice.below(4);
            let named = some_named(dice, &NAMES, count, |_, _| {});
            let inner = wrapped(dice, "access-list", named);
            let policy_value = wrapped(dice, "access-lists", inner);
            mud.add(policy, policy_value);
        }
    }
    let count = dice.one(&[3, 4, 4, 4, 4]);
    let lists = some_named(dice, &NAMES, count, |list, dice| {
        if dice.chance(97) {
            let kind = if dice.chance(97) {
                text(dice.one(&["ipv4-acl-type", "ipv6-acl-type"]))
            } else {
                near_limit("type", dice).unwrap_or(Value::Null)
            };
            list.add("type", kind);
        }
        if dice.chance(60) {
            let count = dice.below(4);
            let entries = some_named(dice, &NAMES, count, |entry, _| {
                entry.add("actions", object([("forwarding", text("accept"))]))
            });
            let inner = wrapped(dice, "ace", entries);
            list.add("aces", inner);
        }
    });
    let mut file = object([("ietf-mud:mud", mud.shuffled(dice))]);
    if dice.chance(97) {
        let acls = wrapped(dice, "acl", lists);
        file.add("ietf-access-control-list:acls", acls);
    }
    file.shuffled(dice)
}

/// An object with one member; now and then an empty one, or no object at all.
fn wrapped(dice: &mut Dice, name: &str, value: Value) -> Value {
    match dice.below(60) {
        0 => object([]),
        1 => odd(dice),
        _ => object([(name, value)]),
    }
}

/// An array of `count` objects with names, mostly different ones; `more` adds to each.
fn some_named(dice: &mut Dice, names: &[&str], count: usize, more: impl Fn(&mut Value, &mut Dice)) -> Value {
    let mut names = names.to_vec();
    dice.shuffle(&mut names);
    let mut elements = Vec::new();
    for place in 0..count {
        let name = if dice.chance(97) { names[place] } else { names[0] };
        let mut element = match dice.below(80) {
            0 => object([]),
            1 => object([("name", odd(dice))]),
            2 => odd(dice),
            _ => object([("name", text(name))]),
        };
        more(&mut element, dice);
        elements.push(element.shuffled(dice));
    }
    if dice.chance(2) {
        return odd(dice);
    }
    Value::Array(elements)
}

fn entry(dice: &mut Dice, number: usize) -> Value {
    let mut entry = object([("name", text(number))]);
    if dice.chance(98) {
        let actions = members(dice, &["forwarding"], 98, value);
        entry.add("actions", actions);
    }
    if dice.chance(95) {
        entry.add("matches", matches(dice));
    }
    entry.shuffled(dice)
}

fn matches(dice: &mut Dice) -> Value {
    let mut matches = object([]);
    for (name, percent) in [("ietf-mud:mud", 25), ("ipv4", 45), ("tcp", 45), ("udp", 25)] {
        if dice.chance(percent) {
            let inside = if dice.chance(97) { given_object(name, dice) } else { odd(dice) };
            matches.add(name, inside);
        }
    }
    if dice.chance(3) {
        matches.add(dice.one(&["ttl", "icmp", "ipv6", "source-port", "protocol"]), odd(dice));
    }
    matches.shuffled(dice)
}

fn given_object(name: &str, dice: &mut Dice) -> Value {
    let ports = |name: &str, dice: &mut Dice| {
        if name.ends_with("-port") && dice.chance(97) {
            port(dice)
        } else {
            value(name, dice)
        }
    };
    match name {
        "ietf-mud:mud" => members(
            dice,
            &["manufacturer", "model", "controller", "same-manufacturer", "local-networks", "my-controller"],
            25,
            value,
        ),
        "ipv4" => members(
            dice,
            &[
                "protocol", "source-ipv4-network", "destination-ipv4-network", "ietf-acldns:src-dnsname",
                "ietf-acldns:dst-dnsname",
            ],
            25,
            value,
        ),
        "tcp" => {
            members(dice, &["source-port", "destination-port", "ietf-mud:direction-initiated"], 40, ports)
        }
        _ if dice.chance(3) => members(dice, &["source-port", "ietf-mud:direction-initiated"], 70, ports),
        _ => members(dice, &["source-port", "destination-port"], 40, ports),
    }
}

fn port(dice: &mut Dice) -> Value {
    match dice.below(4) {
        0 => members(dice, &["lower-port", "upper-port"], 97, value),
        1 => members(dice, &["port", "operator"], 90, value),
        2 => members(dice, &["port"], 97, value),
        _ => members(dice, &["lower-port", "upper-port", "port", "operator"], 50, value),
    }
}

/// An object with some of these members.
fn members(
    dice: &mut Dice,
    names: &[&str],
    percent: usize,
    value: impl Fn(&str, &mut Dice) -> Value,
) -> Value {
    let mut members = object([]);
    for name in names {
        if dice.chance(percent) {
            let value = value(name, dice);
            members.add(name, value);
        }
    }
    if dice.chance(1) {
        members.add("x", odd(dice));
    }
    members.shuffled(dice)
}

/// A value for a member: mostly one that will do.
fn value(name: &str, dice: &mut Dice) -> Value {
    match dice.below(50) {
        0 => odd(dice),
        1..=5 => near_limit(name, dice).unwrap_or_else(|| odd(dice)),
        _ => proper(name, dice),
    }
}

fn proper(name: &str, dice: &mut Dice) -> Value {
    match name {
        "source-ipv4-network" | "destination-ipv4-network" if dice.chance(20) => text(odd_network(dice)),
        "forwarding" => text(dice.one(&["accept", "accept", "drop", "reject"])),
        "manufacturer" => text(dice.one(&MAKERS)),
        "model" => text(dice.one(&URLS)),
        "controller" => text(dice.one(&CLASSES)),
        "same-manufacturer" | "local-networks" | "my-controller" => list_of_null(),
        "protocol" => number(dice.one(&[0, 6, 6, 17, 17, 255])),
        "source-ipv4-network" | "destination-ipv4-network" => {
            text(format!("{}/{}", address(dice), length(dice)))
        }
        "ietf-acldns:src-dnsname" | "ietf-acldns:dst-dnsname" => text(dice.one(&HOSTS)),
        "ietf-mud:direction-initiated" => text(dice.one(&["from-device", "to-device"])),
        "operator" => text(dice.one(&["eq", "neq", "lte", "gte"])),
        "lower-port" => number(dice.below(6)),
        "upper-port" => number(dice.between(4, 9)),
        _ => number(port_number(dice)),
    }
}
