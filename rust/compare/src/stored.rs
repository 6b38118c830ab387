//! Stored tables, good and damaged, and flows to ask them for.

use mirokdeul::{DevicePort, Flow, RemotePort, REPLY_LEN};

use crate::dice::Dice;
use crate::limits;
use crate::sites;
use crate::things;
use crate::value::{write, Style};

/// A line as its six ranges.
type Line = [(u32, u32); 6];

/// Stored bytes of any kind.
pub fn stored(dice: &mut Dice) -> Vec<u8> {
    match dice.below(12) {
        0 => other_length(dice),
        1 => padded(&count_of_lines(dice)),
        2 | 3 => padded(&few_lines(dice)),
        4 => padded(&nested_lines(dice)),
        5 => after_the_lines(dice),
        8 => padded(&one_line(dice)),
        6 => crate::damage::bytes_in_place(padded(&built_lines(dice)), dice),
        7 => padded(&built_lines(dice)),
        _ => padded(&damaged_lines(dice)),
    }
}

/// The text, then zeros to the full length.
fn padded(text: &str) -> Vec<u8> {
    let mut bytes = text.as_bytes().to_vec();
    bytes.resize(REPLY_LEN, 0);
    bytes
}

fn other_length(dice: &mut Dice) -> Vec<u8> {
    let mut bytes = padded(&few_lines(dice));
    bytes.resize(dice.one(&[0, 1, 72, REPLY_LEN - 1, REPLY_LEN + 1]), 0);
    bytes
}

/// A good table with something behind its lines.
fn after_the_lines(dice: &mut Dice) -> Vec<u8> {
    let text = built_lines(dice);
    let mut bytes = padded(&text);
    let place = match dice.below(3) {
        0 => text.len() + 1,
        1 => REPLY_LEN - 1,
        _ => dice.between(text.len(), REPLY_LEN - 1),
    };
    bytes[place.min(REPLY_LEN - 1)] = dice.one(b"\n 0\xff\x01");
    bytes
}

/// The lines of some build's table.
fn built_lines(dice: &mut Dice) -> String {
    let (file, site) = if dice.chance(15) {
        limits::lines(dice)
    } else {
        let thing = things::thing(dice);
        (write(&thing, Style::SHORT, dice), sites::site(dice))
    };
    let mut reply = vec![0; REPLY_LEN];
    mirokdeul_plain::build(&file, &site, &mut reply, true);
    reply.retain(|&byte| byte != 0);
    String::from_utf8(reply).expect("a table is ASCII")
}

/// 511 to 514 lines, each of which could stand in a table.
fn count_of_lines(dice: &mut Dice) -> String {
    let count = dice.between(511, 514);
    let step = dice.one(&[2, 3, 100]);
    let first = dice.below(100);
    let in_ports = dice.chance(50);
    let line = |n: usize| {
        let place = first + n * step;
        if in_ports {
            format!("0-0\t6-6\t0-0\t1.2.3.4-1.2.3.4\t{place}-{place}\t0-0\n")
        } else {
            let address = std::net::Ipv4Addr::from(place as u32);
            format!("0-1\t17-17\t0-0\t{address}-{address}\t0-65535\t7-9\n")
        }
    };
    (0..count).map(line).collect()
}

/// Up to six lines of few values, so that many touch, overlap or are alike; sorted or not.
fn few_lines(dice: &mut Dice) -> String {
    let mut lines: Vec<Line> = (0..dice.below(7)).map(|_| small_line(dice)).collect();
    if dice.chance(80) {
        lines.sort_unstable();
    }
    lines.iter().map(text_of).collect()
}

/// One line, which is a table just when it covers only flows.
fn one_line(dice: &mut Dice) -> String {
    let transport = dice.chance(70);
    let protocols: &[(u32, u32)] = if transport {
        &[(6, 6), (17, 17)]
    } else {
        &[(5, 5), (7, 7), (16, 16), (18, 255), (5, 7), (6, 17), (0, 255), (256, 256)]
    };
    let port = [(0, 0), (0, 0), (0, 1), (1, 1), (0, 65_535), (65_535, 65_535)];
    let line = [
        dice.one(&[(0, 0), (1, 1), (0, 1), (0, 1), (0, 2), (2, 2)]),
        dice.one(protocols),
        dice.one(&[(0, 0), (0, 0), (1, 1), (0, 1), (0, 2)]),
        dice.one(&[(0, u32::MAX), (7, 7)]),
        dice.one(&port),
        dice.one(&port),
    ];
    text_of(&line)
}

fn small_range(dice: &mut Dice, values: &[u32]) -> (u32, u32) {
    let (one, other) = (dice.one(values), dice.one(values));
    (one.min(other), one.max(other))
}

fn small_line(dice: &mut Dice) -> Line {
    let mut line = [
        small_range(dice, &[0, 0, 1]),
        small_range(dice, &[5, 6, 6, 6, 6, 7, 17, 17, 17]),
        small_range(dice, &[0, 0, 1]),
        small_range(dice, &[0, 1, u32::MAX]),
        small_range(dice, &[0, 1, 2]),
        small_range(dice, &[0, 65_535]),
    ];
    // Mostly only flows.
    if dice.chance(95) {
        if line[1] != (6, 6) {
            line[2] = (0, 0);
        }
        if line[1] != (6, 6) && line[1] != (17, 17) {
            (line[4], line[5]) = ((0, 0), (0, 0));
        }
    }
    line
}

/// Rising runs in each dimension, by the definition; two that touch may be alike by chance.
fn nested_lines(dice: &mut Dice) -> String {
    let mut lines = Vec::new();
    add_nested(dice, [(0, 0); 6], 0, &mut lines);
    lines.iter().map(text_of).collect()
}

fn add_nested(dice: &mut Dice, line: Line, dimension: usize, lines: &mut Vec<Line>) {
    if dimension == 6 {
        lines.push(line);
        return;
    }
    for range in rising_runs(dice, line, dimension) {
        let mut line = line;
        line[dimension] = range;
        if lines.len() < 400 {
            add_nested(dice, line, dimension + 1, lines);
        }
    }
}

fn rising_runs(dice: &mut Dice, line: Line, dimension: usize) -> Vec<(u32, u32)> {
    let tcp = line[1] == (6, 6);
    let has_ports = tcp || line[1] == (17, 17);
    match dimension {
        0 => dice.one(&[&[(0, 0)][..], &[(1, 1)], &[(0, 1)], &[(0, 0), (1, 1)]]).to_vec(),
        1 => dice
            .one(&[
                &[(6, 6)][..],
                &[(6, 6), (17, 17)],
                &[(0, 5), (6, 6), (7, 7)],
                &[(17, 17), (18, 255)],
                &[(5, 7), (17, 17)],
            ])
            .to_vec(),
        2 if tcp => dice.one(&[&[(0, 0)][..], &[(1, 1)], &[(0, 1)], &[(0, 0), (1, 1)]]).to_vec(),
        2 => vec![(0, 0)],
        3 => dice
            .one(&[
                &[(0, u32::MAX)][..],
                &[(1, 1), (2, 5)],
                &[(1, 1), (3, 3)],
                &[(0, 0), (u32::MAX, u32::MAX)],
            ])
            .to_vec(),
        _ if has_ports => {
            dice.one(&[&[(0, 65_535)][..], &[(1, 1), (3, 3)], &[(80, 81)], &[(0, 0), (9, 65_535)]]).to_vec()
        }
        _ => vec![(0, 0)],
    }
}

fn text_of(line: &Line) -> String {
    let parts: Vec<String> = (0..6)
        .map(|dimension| {
            let (low, high) = line[dimension];
            if dimension == 3 {
                format!("{}-{}", std::net::Ipv4Addr::from(low), std::net::Ipv4Addr::from(high))
            } else {
                format!("{low}-{high}")
            }
        })
        .collect();
    parts.join("\t") + "\n"
}

/// The ranges of a line, if it is one.
fn parse(line: &str) -> Option<Line> {
    let mut ranges = [(0, 0); 6];
    let mut parts = line.split('\t');
    for (dimension, range) in ranges.iter_mut().enumerate() {
        let (low, high) = parts.next()?.split_once('-')?;
        let value = |text: &str| -> Option<u32> {
            if dimension == 3 {
                text.parse::<std::net::Ipv4Addr>().ok().map(u32::from)
            } else {
                text.parse().ok()
            }
        };
        *range = (value(low)?, value(high)?);
    }
    Some(ranges)
}

/// A built or nested table in which lines or numbers were changed.
fn damaged_lines(dice: &mut Dice) -> String {
    let text = if dice.chance(70) { built_lines(dice) } else { nested_lines(dice) };
    let mut lines: Vec<String> = text.lines().map(|line| format!("{line}\n")).collect();
    if lines.is_empty() {
        return "0-0\t6-6\t0-0\t0.0.0.0-0.0.0.0\t0-0\t0-0\n".to_owned();
    }
    let place = dice.below(lines.len());
    let other = dice.below(lines.len());
    match dice.below(8) {
        0 => lines.swap(place, other),
        1 => {
            lines.remove(place);
        }
        2 => lines.insert(place, lines[other].clone()),
        3 | 4 => split_in_two(&mut lines, place, dice),
        5 => change_number(&mut lines[place], dice),
        6 => odd_text(&mut lines[place], dice),
        _ => {
            lines.rotate_left(place);
        }
    }
    lines.concat()
}

/// One range of a line becomes two that touch, in two lines: the same set, unmerged.
fn split_in_two(lines: &mut Vec<String>, place: usize, dice: &mut Dice) {
    let Some(line) = parse(lines[place].trim_end()) else {
        return;
    };
    let dimension = dice.below(6);
    let (low, high) = line[dimension];
    if low == high {
        return;
    }
    let cut = low + (dice.bits() % u64::from(high - low)) as u32;
    let (mut one, mut other) = (line, line);
    one[dimension] = (low, cut);
    other[dimension] = (cut + 1, high);
    lines[place] = text_of(&one);
    if dice.chance(80) {
        lines.insert(place + 1, text_of(&other));
    }
}

/// One end of one range moves by one, or somewhere else.
fn change_number(line: &mut String, dice: &mut Dice) {
    let Some(mut ranges) = parse(line.trim_end()) else {
        return;
    };
    let range = &mut ranges[dice.below(6)];
    let end = if dice.chance(50) { &mut range.0 } else { &mut range.1 };
    *end = match dice.below(3) {
        0 => end.wrapping_add(1),
        1 => end.wrapping_sub(1),
        _ => dice.one(&[0, 1, 2, 6, 17, 255, 256, 65_535, 65_536]),
    };
    *line = text_of(&ranges);
}

/// The text of a line is written in another way.
fn odd_text(line: &mut String, dice: &mut Dice) {
    let old = dice.one(&["0-", "-", "\t", "\n", ".", "6", "17", "0", "1"]);
    let new = dice.one(&[
        "00-", "-0", "--", " ", "\t\t", "\r\n", "\n\n", "", ".0", "..", "06", "6.", "+1", "0", "-", "\0",
    ]);
    let places: Vec<usize> = line.match_indices(old).map(|(place, _)| place).collect();
    if !places.is_empty() {
        let place = dice.one(&places);
        line.replace_range(place..place + old.len(), new);
    }
}

/// Six numbers, mostly a flow at an edge of some line.
pub fn flow(stored: &[u8], dice: &mut Dice) -> Flow {
    let mut numbers = [
        dice.below(2) as u32,
        dice.one(&[0, 1, 5, 6, 6, 6, 6, 7, 16, 17, 17, 17, 18, 254, 255]),
        dice.below(2) as u32,
        u32::from(sites::address(dice).parse::<std::net::Ipv4Addr>().unwrap_or([0; 4].into())),
        things::port_number(dice) as u32,
        things::port_number(dice) as u32,
    ];
    if let Some(line) = some_line(stored, dice) {
        for (number, (low, high)) in numbers.iter_mut().zip(line) {
            if dice.chance(85) {
                *number = dice.one(&[low, high, low, high, low.wrapping_sub(1), high.wrapping_add(1)]);
            }
        }
    }
    if dice.chance(90) {
        numbers[0] &= 1;
        make_flow(&mut numbers);
    } else if dice.chance(30) {
        numbers[dice.one(&[0, 2])] = dice.one(&[2, 3, 128, 255]);
    }
    of_numbers(numbers)
}

/// Clears what the protocol does not have.
fn make_flow(numbers: &mut [u32; 6]) {
    let protocol = numbers[1] & 255;
    numbers[2] = if protocol == 6 { numbers[2] & 1 } else { 0 };
    if protocol != 6 && protocol != 17 {
        (numbers[4], numbers[5]) = (0, 0);
    }
}

fn of_numbers(numbers: [u32; 6]) -> Flow {
    Flow {
        direction: numbers[0] as u8,
        protocol: numbers[1] as u8,
        opener: numbers[2] as u8,
        address: numbers[3].into(),
        remote: RemotePort(numbers[4] as u16),
        device: DevicePort(numbers[5] as u16),
    }
}

fn some_line(stored: &[u8], dice: &mut Dice) -> Option<Line> {
    if stored.is_empty() {
        return None;
    }
    // A place somewhere in the text; the line that begins behind the LF before it.
    let end = stored.iter().position(|&byte| byte == 0).unwrap_or(stored.len());
    if end == 0 {
        return None;
    }
    let place = dice.below(end);
    let start = stored[..place].iter().rposition(|&byte| byte == b'\n').map_or(0, |lf| lf + 1);
    let length = stored[start..].iter().position(|&byte| byte == b'\n')?;
    parse(std::str::from_utf8(&stored[start..start + length]).ok()?)
}
