//! Files on both sides of each limit.

use crate::dice::Dice;
use crate::sites::{self, scattered};
use crate::things::{assemble, entry, ipv4_list, Named};
use crate::value::{number, object, text, write, Style, Value};

/// A file and a site table.
pub type Case = (Vec<u8>, Vec<u8>);

/// 62 to 67 entries in one list or several, some of them read twice; now and then with a breach in
/// one that is past the limit.
pub fn entries(dice: &mut Dice) -> Case {
    let mut left = dice.between(62, 67);
    let mut lists = Vec::new();
    while left > 0 {
        let named = dice.one(&[Named::From, Named::To, Named::From, Named::To, Named::Both]);
        let times = if named == Named::Both { 2 } else { 1 };
        let count = match dice.below(3) {
            0 => left / times,
            _ => dice.below(left / times + 1),
        };
        // A last single entry cannot be in a list that is read twice.
        let (named, count) = if count == 0 { (Named::From, 1) } else { (named, count) };
        left -= count * if named == Named::Both { 2 } else { 1 };
        lists.push(list_of(dice, lists.len(), named, count));
    }
    let mut file = assemble(dice, lists);
    if dice.chance(10) {
        crate::damage::structure(&mut file, dice);
    }
    let site = if dice.chance(50) { sites::site(dice) } else { Vec::new() };
    (write(&file, Style::SHORT, dice), site)
}

fn list_of(dice: &mut Dice, place: usize, named: Named, count: usize) -> (Named, String, Value) {
    let name = format!("l{place}");
    let plain = dice.chance(60);
    let entries =
        (0..count).map(|n| if plain { short_entry(dice, n) } else { entry(dice, named, n) }).collect();
    let list = ipv4_list(dice, &name, entries);
    (named, name, list)
}

fn short_entry(dice: &mut Dice, place: usize) -> Value {
    let port = object([("port", number(dice.below(30)))]);
    object([
        ("name", text(place)),
        ("matches", object([(dice.one(&["tcp", "udp"]), object([("source-port", port)]))])),
        ("actions", object([("forwarding", text(dice.one(&["accept", "drop"])))])),
    ])
}

/// Addresses and ports whose lines are about 512: none of either adjacent, or some ports joined.
pub fn lines(dice: &mut Dice) -> Case {
    let (addresses, ports) = dice.one(&[
        (64, 8),
        (64, 9),
        (57, 9),
        (56, 9),
        (51, 10),
        (52, 10),
        (8, 64),
        (9, 57),
        (46, 11),
        (47, 11),
        (27, 19),
        (23, 22),
        (63, 8),
    ]);
    let mut site = scattered(addresses, "c");
    for class in ["urn:ietf:params:mud:dns", "urn:ietf:params:mud:ntp"] {
        if site.len() < 64 && dice.chance(50) {
            let mut line = scattered(1, class).remove(0);
            line.network = dice.one(&["9.9.9.9", "10.1.0.0", "0.0.0.0/0"]).to_owned();
            site.push(line);
        }
    }
    // Joining two ports takes a line from every address.
    let joined = if dice.chance(30) { dice.between(1, ports - 1) } else { ports };
    let entries =
        (0..ports).map(|n| scattered_port(n, if n < joined { 2 * n } else { 2 * n - 1 }, "from")).collect();
    let mut lists = vec![(Named::From, "l0".to_owned(), ipv4_list(dice, "l0", entries))];
    if dice.chance(20) && ports <= 32 {
        let back = (0..ports).map(|n| scattered_port(n, 2 * n, "to")).collect();
        lists.push((Named::To, "l1".to_owned(), ipv4_list(dice, "l1", back)));
    }
    if dice.chance(20) && ports < 64 {
        let more = vec![entry(dice, Named::To, 0)];
        lists.push((Named::To, "l2".to_owned(), ipv4_list(dice, "l2", more)));
    }
    let file = assemble(dice, lists);
    (write(&file, Style::SHORT, dice), sites::write(&site))
}

/// An entry for one TCP port of the remote, at the addresses of class `c`.
fn scattered_port(place: usize, port: usize, direction: &str) -> Value {
    let side = if direction == "from" { "destination-port" } else { "source-port" };
    object([
        ("name", text(place)),
        (
            "matches",
            object([
                ("ietf-mud:mud", object([("controller", text("c"))])),
                ("tcp", object([(side, object([("port", number(port))]))])),
            ]),
        ),
        ("actions", object([("forwarding", text("accept"))])),
    ])
}

/// 32,767 to 32,769 bytes, the rest filled with white space, an ignored string or digits; the whole
/// good, damaged or no JSON at all.
pub fn length(mut file: Value, dice: &mut Dice) -> Vec<u8> {
    let wanted = dice.between(32_767, 32_769);
    if dice.chance(15) {
        return vec![dice.one(b" x[1\""); wanted];
    }
    let kind = dice.below(4);
    let short = write(&file, Style::SHORT, &mut dice.clone()).len();
    if short + 40 > wanted {
        return write(&file, Style::SHORT, dice);
    }
    // What the member adds around its value: a comma, its name in quotation marks and a colon.
    let fill = wanted - short - 8;
    match kind {
        0 if file.is_object() => file.add("fill", text("f".repeat(fill - 2))),
        1 if file.is_object() => file.add("fill", number("7".repeat(fill))),
        _ => {}
    }
    let mut bytes = write(&file, Style::SHORT, dice);
    let blank = dice.one(b" \n\t\r");
    let missing = wanted.saturating_sub(bytes.len());
    if kind == 2 {
        bytes.splice(0..0, std::iter::repeat_n(blank, missing));
    } else {
        bytes.resize(bytes.len() + missing, blank);
    }
    bytes
}

/// Nested 15 to 18 deep, somewhere in the file or in an array of its own.
pub fn depth(mut file: Value, dice: &mut Dice) -> Vec<u8> {
    let depth = dice.between(15, 18);
    let innermost =
        dice.one(&[Value::Null, number(1), text("[[["), Value::Array(vec![]), object([])].each_ref()).clone();
    // The innermost value may be an array itself, and the member stands in the outermost object.
    let own = usize::from(innermost.holds_others());
    let mut nest = innermost;
    for _ in 0..depth - own - 1 {
        nest = if dice.chance(50) { Value::Array(vec![nest]) } else { object([("a", nest)]) };
    }
    if dice.chance(20) {
        return write(&Value::Array(vec![nest]), Style::any(dice), dice);
    }
    let place = if dice.chance(70) { Some(&mut file) } else { file.pick(dice, Value::is_object) };
    if let Some(object) = place {
        object.add("deep", nest);
    }
    write(&file, Style::any(dice), dice)
}

/// Many names in one object, or many lists or entries, all different or two of them the same.
pub fn names(dice: &mut Dice) -> Case {
    let count = dice.one(&[10, 11, 12, 13, 40, 300, 900]);
    let stem = dice.one(&["n", "é", "a-name-that-begins-like-all-the-others-", "\u{0}"]);
    let mut names: Vec<String> =
        (0..count).map(|n| format!("{stem}{n}{}", dice.one(&["", "", "\u{0}", "é"]))).collect();
    if dice.chance(50) {
        let (one, other) = (dice.below(count), dice.below(count));
        names[one] = names[other].clone();
    }
    let file = match dice.below(4) {
        0 => {
            let mut file = crate::things::thing(dice);
            let members = names.into_iter().map(|name| (name, number(0))).collect();
            file.add("many", Value::Object(members));
            file
        }
        1 => {
            // Lists that nobody names must have different names too.
            let lists = names
                .into_iter()
                .take(400)
                .map(|name| (Named::Nowhere, name.clone(), object([("name", text(name))])))
                .collect();
            assemble(dice, lists)
        }
        2 => {
            let lists = names
                .into_iter()
                .take(250)
                .map(|name| {
                    (
                        Named::From,
                        name.clone(),
                        object([("name", text(name)), ("type", text("ipv6-acl-type"))]),
                    )
                })
                .collect();
            assemble(dice, lists)
        }
        _ => {
            let entries = names
                .into_iter()
                .take(64)
                .map(|name| {
                    object([("name", text(name)), ("actions", object([("forwarding", text("drop"))]))])
                })
                .collect();
            let list = ipv4_list(dice, "l", entries);
            assemble(dice, vec![(Named::To, "l".to_owned(), list)])
        }
    };
    let style = if count < 100 { Style::any(dice) } else { Style::SHORT };
    (write(&file, style, dice), Vec::new())
}
