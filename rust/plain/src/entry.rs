//! The rules of an entry: what its `matches` and `actions` may hold, and the rule they stand for.

use crate::flow::{Range, TCP, UDP};
use crate::json::{Members, Value};
use crate::mud::Header;
use crate::network::{network, Length};
use crate::rules::{Addresses, Ports, Rule};
use crate::site::{Kind, Site};

/// Which way the flows of a policy go.
#[derive(Clone, Copy, Debug, PartialEq, Eq)]
pub enum Direction {
    /// From the device: the destination is the remote and the source the device.
    FromDevice,
    /// To the device: the source is the remote and the destination the device.
    ToDevice,
}

/// The members of `matches` and of each object that the rules give it.
const IN_MATCHES: [&str; 4] = ["ietf-mud:mud", "ipv4", "tcp", "udp"];
const IN_MUD: [&str; 6] =
    ["manufacturer", "model", "controller", "same-manufacturer", "local-networks", "my-controller"];
const IN_IPV4: [&str; 5] = ["protocol", SOURCE_NETWORK, DESTINATION_NETWORK, SOURCE_NAME, DESTINATION_NAME];
const IN_TCP: [&str; 3] = [SOURCE_PORT, DESTINATION_PORT, "ietf-mud:direction-initiated"];
const IN_UDP: [&str; 2] = [SOURCE_PORT, DESTINATION_PORT];
const IN_PORT: [&str; 4] = ["lower-port", "upper-port", "port", "operator"];

const SOURCE_NETWORK: &str = "source-ipv4-network";
const DESTINATION_NETWORK: &str = "destination-ipv4-network";
const SOURCE_NAME: &str = "ietf-acldns:src-dnsname";
const DESTINATION_NAME: &str = "ietf-acldns:dst-dnsname";
const SOURCE_PORT: &str = "source-port";
const DESTINATION_PORT: &str = "destination-port";

const DNS_CLASS: &[u8] = b"urn:ietf:params:mud:dns";
const NTP_CLASS: &[u8] = b"urn:ietf:params:mud:ntp";

/// Whether `matches`, or an object that the rules give it, has a member that is not listed for
/// that object. An object that stands where a plain value belongs is another kind of breach, so it
/// is not looked into.
pub fn has_unlisted_member(entry: &Members) -> bool {
    let Some(matches) = object_at(entry, "matches") else {
        return false;
    };
    let has_other_in = |name: &str, listed: &[&str]| {
        object_at(&matches, name).is_some_and(|object| has_other(&object, listed))
    };
    has_other(&matches, &IN_MATCHES)
        || has_other_in("ietf-mud:mud", &IN_MUD)
        || has_other_in("ipv4", &IN_IPV4)
        || has_other_in("tcp", &IN_TCP)
        || has_other_in("udp", &IN_UDP)
        || ["tcp", "udp"].iter().any(|transport| {
            object_at(&matches, transport).is_some_and(|object| has_unlisted_in_ports(&object))
        })
}

fn has_unlisted_in_ports(transport: &Members) -> bool {
    [SOURCE_PORT, DESTINATION_PORT]
        .iter()
        .any(|side| object_at(transport, side).is_some_and(|port| has_other(&port, &IN_PORT)))
}

/// The member `name`, if it is there and an object.
fn object_at<'t>(holder: &Members<'t>, name: &str) -> Option<Members<'t>> {
    holder.get(name).and_then(Value::object)
}

/// Whether `object` has a member other than the `listed` ones.
fn has_other(object: &Members, listed: &[&str]) -> bool {
    object.clone().any(|(name, _)| !listed.iter().any(|known| known.as_bytes() == name))
}

/// The rule that an entry stands for, or `None` where its `matches` or `actions` are wrong. Called
/// only for entries without unlisted members.
pub fn rule(direction: Direction, entry: &Members, header: Header, site: &Site) -> Option<Rule> {
    let accept = forwarding(entry)?;
    let mut rule = Rule::of_all(accept);
    rule.direction = match direction {
        Direction::FromDevice => Range::only(0),
        Direction::ToDevice => Range::only(1),
    };
    let Some(matches) = entry.get("matches") else {
        return Some(rule);
    };
    let matches = matches.object()?;
    if let Some(mud) = matches.get("ietf-mud:mud") {
        limit_to_abstractions(&mut rule.addresses, &mud.object()?, header, site)?;
    }
    if let Some(ipv4) = matches.get("ipv4") {
        limit_to_ipv4(&mut rule, &ipv4.object()?, direction, site)?;
    }
    match (matches.get("tcp"), matches.get("udp")) {
        (None, None) => {}
        (Some(tcp), None) => limit_to_tcp(&mut rule, &tcp.object()?, direction)?,
        (None, Some(udp)) => limit_to_transport(&mut rule, &udp.object()?, direction, UDP)?,
        (Some(_), Some(_)) => return None,
    }
    Some(rule)
}

/// Whether the entry accepts what it matches.
fn forwarding(entry: &Members) -> Option<bool> {
    match entry.get("actions")?.object()?.get("forwarding")?.string()? {
        b"accept" => Some(true),
        b"drop" | b"reject" => Some(false),
        _ => None,
    }
}

/// The match members of RFC 8520: each limits the remote address to the networks it names.
fn limit_to_abstractions(
    addresses: &mut Addresses,
    mud: &Members,
    header: Header,
    site: &Site,
) -> Option<()> {
    for (name, value) in mud.clone() {
        addresses.limit(match name {
            b"manufacturer" => site.things_of(value.string()?),
            b"model" => site.named(Kind::Thing, value.string()?),
            b"controller" => site.named(Kind::Class, value.string()?),
            _ if !value.is_list_of_null() => return None,
            b"same-manufacturer" => site.things_of(header.maker),
            b"local-networks" => site.named(Kind::Local, b"-"),
            b"my-controller" => site.named(Kind::Mine, header.url),
            _ => return None,
        });
    }
    Some(())
}

/// The members of `ipv4`. A network or DNS name may stand on the remote's side only.
fn limit_to_ipv4(rule: &mut Rule, ipv4: &Members, direction: Direction, site: &Site) -> Option<()> {
    let (remote_network, remote_name) = match direction {
        Direction::FromDevice => (DESTINATION_NETWORK, DESTINATION_NAME),
        Direction::ToDevice => (SOURCE_NETWORK, SOURCE_NAME),
    };
    for (name, value) in ipv4.clone() {
        if name == b"protocol" {
            rule.protocol = Range::only(value.integer(255)?);
        } else if name == remote_network.as_bytes() {
            rule.addresses.limit_to_network(network(value.string()?, Length::Required)?);
        } else if name == remote_name.as_bytes() {
            rule.addresses.limit(site.named(Kind::Host, value.string()?));
        } else {
            return None;
        }
    }
    Some(())
}

/// The members of `tcp`: those of every transport, and who opens the connection.
fn limit_to_tcp(rule: &mut Rule, tcp: &Members, direction: Direction) -> Option<()> {
    if let Some(opener) = tcp.get("ietf-mud:direction-initiated") {
        rule.opener = match opener.string()? {
            b"from-device" => Range::only(0),
            b"to-device" => Range::only(1),
            _ => return None,
        };
    }
    limit_to_transport(rule, tcp, direction, TCP)
}

/// The protocol and the ports of `tcp` or `udp`.
fn limit_to_transport(
    rule: &mut Rule,
    transport: &Members,
    direction: Direction,
    protocol: u8,
) -> Option<()> {
    // Another protocol beside it is malformed. The full range means that none was given.
    if !rule.protocol.holds(protocol.into()) {
        return None;
    }
    rule.protocol = Range::only(protocol.into());
    let source = ports(transport.get(SOURCE_PORT))?;
    let destination = ports(transport.get(DESTINATION_PORT))?;
    (rule.remote, rule.device) = match direction {
        Direction::FromDevice => (destination, source),
        Direction::ToDevice => (source, destination),
    };
    Some(())
}

/// The ports of a port object: the numbers from one to another, or an operator and a number.
fn ports(object: Option<Value>) -> Option<Ports> {
    let Some(object) = object else {
        return Some(Ports::all());
    };
    let object = object.object()?;
    let number = |name| object.get(name).map(|value| value.integer(65_535));
    match (number("lower-port"), number("upper-port"), number("port"), object.get("operator")) {
        (Some(low), Some(high), None, None) => Ports::between(low?, high?),
        (None, None, Some(port), None) => Some(Ports::equal(port?)),
        (None, None, Some(port), Some(operator)) => {
            let port = port?;
            match operator.string()? {
                b"eq" => Some(Ports::equal(port)),
                b"neq" => Some(Ports::other_than(port)),
                b"lte" => Ports::between(0, port),
                b"gte" => Ports::between(port, 65_535),
                _ => None,
            }
        }
        _ => None,
    }
}

/// What every device may do unless an entry says otherwise: ask for names and for the time.
pub fn defaults(site: &Site) -> [Rule; 2] {
    [(DNS_CLASS, 53), (NTP_CLASS, 123)].map(|(class, port)| {
        let mut rule = Rule::of_all(true);
        rule.protocol = Range::only(UDP.into());
        rule.addresses.limit(site.named(Kind::Class, class));
        rule.remote = Ports::equal(port);
        rule
    })
}
