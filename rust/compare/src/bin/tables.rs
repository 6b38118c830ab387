//! `tables [rounds]`: from rules to the lines of their table, and to a reply, by the verified builder
//! and by the plain one, as markdown tables.
//!
//! Nothing is read: the rules are put down once in the form that each side takes. The two take turns
//! in one run; medians are compared. Above 1 the library is the slower one. Every call's number of
//! lines is checked, and the replies are compared byte by byte.

use std::hint::black_box;

use compare::timing;
use mirokdeul_measured::{lines, reply, MOST_NETWORKS, MOST_RULES, REPLY_LEN, RULES_AT, RULE_LEN, WORK_LEN};
use mirokdeul_plain::flow::{Range, HIGHEST};
use mirokdeul_plain::rules::{Addresses, Ports, Rule, Rules};
use mirokdeul_plain::site::{LineSet, Site};
use mirokdeul_plain::table::Table;

fn main() {
    let rounds = std::env::args().nth(1).and_then(|text| text.parse().ok()).unwrap_or(101);
    timing::print_head("the library's builder and writer against plain's", rounds);
    println!("| rules | lines | library: lines, µs | plain: lines, µs | ratio | library: reply, µs | plain: reply, µs | ratio |");
    println!("|---|---:|---:|---:|---:|---:|---:|---:|");
    let mut writing = Vec::new();
    for set in sets() {
        let [lines, reply] = bench(&set, rounds);
        writing.push((set.name, set.lines, reply.minus(lines)));
    }
    println!("\nWriting by itself, as what a reply takes more than lines:\n");
    println!("| rules | lines | library, µs | plain, µs | ratio |");
    println!("|---|---:|---:|---:|---:|");
    for (name, lines, times) in writing.iter().filter(|set| set.1 >= 64) {
        println!("| {name} | {lines} | {} |", times.columns());
    }
}

/// The microseconds of both sides.
#[derive(Clone, Copy)]
struct Times {
    library: f64,
    plain: f64,
}

impl Times {
    fn minus(self, other: Times) -> Times {
        Times { library: self.library - other.library, plain: self.plain - other.plain }
    }

    fn columns(self) -> String {
        format!("{:.1} | {:.1} | {:.2}", self.library, self.plain, self.library / self.plain)
    }
}

/// Times a set of rules, to lines and to a reply, and prints a line of the table.
fn bench(set: &Set, rounds: usize) -> [Times; 2] {
    let text = set.site();
    let rules = set.plain(&text);
    let count = set.rules.len();
    let before = set.words();
    let (mut work, mut work_again) = (before.clone(), before.clone());
    let (mut written, mut plain_written) = (vec![1; REPLY_LEN], vec![1; REPLY_LEN]);
    let plain = || Table::of(&black_box(&rules).cells(), rules.accepting()).unwrap();

    let [library_lines, plain_lines, library_reply, plain_reply] = timing::medians(
        rounds,
        [
            &mut || assert_eq!(lines(black_box(&mut work), count), set.lines, "{}", set.name),
            &mut || assert_eq!(plain().lines(), set.lines, "{}", set.name),
            &mut || assert_eq!(reply(black_box(&mut work_again), count, &mut written), set.lines),
            &mut || {
                plain_written.fill(0);
                let table = plain();
                table.write(black_box(&mut plain_written));
                assert_eq!(table.lines(), set.lines);
            },
        ],
    );
    assert!(written == plain_written, "{}: the replies differ", set.name);
    // Every call had the same rules: the builder leaves them alone.
    for after in [work, work_again] {
        assert_eq!(after[..MOST_NETWORKS], before[..MOST_NETWORKS]);
        assert_eq!(after[RULES_AT..][..count * RULE_LEN], before[RULES_AT..][..count * RULE_LEN]);
    }

    let times = [
        Times { library: library_lines, plain: plain_lines },
        Times { library: library_reply, plain: plain_reply },
    ];
    println!("| {} | {} | {} | {} |", set.name, set.lines, times[0].columns(), times[1].columns());
    times
}

/// Rules, and the networks that their names stand for.
struct Set {
    name: &'static str,
    networks: Vec<Net>,
    rules: Vec<Given>,
    /// How many lines their table has.
    lines: usize,
}

/// A network: an address and the number of its leading bits that count.
#[derive(Clone, Copy)]
struct Net(u32, u32);

impl Net {
    fn range(self) -> Range {
        let host_bits = u32::MAX.checked_shr(self.1).unwrap_or(0);
        Range::new(self.0 & !host_bits, self.0 | host_bits)
    }
}

/// Ports, as an entry gives them.
#[derive(Clone, Copy)]
enum GivenPorts {
    All,
    Equal(u32),
    Between(u32, u32),
    OtherThan(u32),
}

/// A rule, as an entry gives it, in the form of neither side.
#[derive(Clone)]
struct Given {
    accept: bool,
    direction: u32,
    protocol: Option<u32>,
    opener: Option<u32>,
    network: Option<Net>,
    /// For each name the networks that it stands for, one bit each.
    names: Vec<u64>,
    remote: GivenPorts,
    device: GivenPorts,
}

/// From the device, TCP, and all else open.
const TCP: Given = Given {
    accept: true,
    direction: 0,
    protocol: Some(6),
    opener: None,
    network: None,
    names: Vec::new(),
    remote: GivenPorts::All,
    device: GivenPorts::All,
};

impl Set {
    /// A work buffer with the networks and the rules, and noise wherever the builder may leave it.
    fn words(&self) -> Vec<u64> {
        assert!(self.networks.len() <= MOST_NETWORKS && self.rules.len() <= MOST_RULES, "{}", self.name);
        let mut work = vec![0xDEAD_BEEF_0BAD_CAFE; WORK_LEN];
        work[..MOST_NETWORKS].fill(NO_RANGE);
        for (word, network) in work.iter_mut().zip(&self.networks) {
            *word = range_word(network.range());
        }
        for (words, rule) in work[RULES_AT..].chunks_exact_mut(RULE_LEN).zip(&self.rules) {
            words.copy_from_slice(&rule.words());
        }
        work
    }

    /// The networks as lines of a site table.
    fn site(&self) -> String {
        let line = |net: &Net| {
            let [a, b, c, d] = net.0.to_be_bytes();
            format!("class\tc\t{a}.{b}.{c}.{d}/{}\n", net.1)
        };
        self.networks.iter().map(line).collect()
    }

    fn plain<'s>(&self, site: &'s str) -> Rules<'s> {
        let site = Site::parse(site.as_bytes()).unwrap();
        Rules::new(site, self.rules.iter().map(Given::plain).collect())
    }
}

/// A range that holds nothing.
const NO_RANGE: u64 = 1 << 32;

fn range_word(range: Range) -> u64 {
    u64::from(range.low) << 32 | u64::from(range.high)
}

/// The values of a dimension: one of them, or all.
fn one_or_all(value: Option<u32>, dimension: usize) -> Range {
    value.map_or(Range::new(0, HIGHEST[dimension]), Range::only)
}

impl GivenPorts {
    /// Two ranges, one of which must hold the port.
    fn words(self) -> [u64; 2] {
        let range = |low, high| range_word(Range::new(low, high));
        match self {
            GivenPorts::All => [range(0, 65_535), NO_RANGE],
            GivenPorts::Equal(port) => [range(port, port), NO_RANGE],
            GivenPorts::Between(low, high) => [range(low, high), NO_RANGE],
            GivenPorts::OtherThan(port) => [range(0, port - 1), range(port + 1, 65_535)],
        }
    }

    fn plain(self) -> Ports {
        match self {
            GivenPorts::All => Ports::all(),
            GivenPorts::Equal(port) => Ports::equal(port),
            GivenPorts::Between(low, high) => Ports::between(low, high).unwrap(),
            GivenPorts::OtherThan(port) => Ports::other_than(port),
        }
    }
}

impl Given {
    fn words(&self) -> [u64; RULE_LEN] {
        let mut words = [0; RULE_LEN];
        words[0] = u64::from(self.accept);
        for (place, range) in [
            Range::only(self.direction),
            one_or_all(self.protocol, 1),
            one_or_all(self.opener, 2),
            self.network.map_or(Range::new(0, u32::MAX), Net::range),
        ]
        .into_iter()
        .enumerate()
        {
            words[1 + 2 * place] = range_word(range);
            words[2 + 2 * place] = NO_RANGE;
        }
        words[9..11].copy_from_slice(&self.remote.words());
        words[11..13].copy_from_slice(&self.device.words());
        words[13] = self.names.len() as u64;
        words[14..][..self.names.len()].copy_from_slice(&self.names);
        words
    }

    fn plain(&self) -> Rule {
        let mut addresses = Addresses::default();
        if let Some(network) = self.network {
            addresses.limit_to_network(network.range());
        }
        for &networks in &self.names {
            addresses.limit(LineSet(networks));
        }
        Rule {
            direction: Range::only(self.direction),
            protocol: one_or_all(self.protocol, 1),
            opener: one_or_all(self.opener, 2),
            addresses,
            remote: self.remote.plain(),
            device: self.device.plain(),
            accept: self.accept,
        }
    }
}

/// Usual rules, and the worst found that a file within the limits can give: at most 64 of them.
fn sets() -> Vec<Set> {
    vec![
        usual(),
        rule_per_network(),
        full(),
        nested(),
        dropped(),
        apart(),
        apart_dropped(),
        by_turns(),
        growing(),
    ]
}

/// An address whose bits alternate, so that each of the networks around it has addresses on both sides
/// of the next.
const PATH: u32 = 0x5555_5555;

/// A rule that leaves out a port of its own at both ends.
fn without_ports(n: u32) -> Given {
    Given { remote: GivenPorts::OtherThan(2 + 2 * n), device: GivenPorts::OtherThan(2 + 2 * (63 - n)), ..TCP }
}

/// 64 addresses, no two of which touch.
fn addresses_apart() -> Vec<Net> {
    (0..64).map(|n| Net(0x0A00_0000 + 2 * n, 32)).collect()
}

/// Ten rules over four networks, as of a file of a usual size.
fn usual() -> Set {
    let networks =
        vec![Net(0xC633_6408, 31), Net(0xCB00_7100, 28), Net(0xC0A8_0000, 16), Net(0xC0A8_0120, 28)];
    let mut rules = Vec::new();
    for direction in [0, 1] {
        let rule = Given { direction, ..TCP };
        let opened = Given { opener: Some(0), ..rule.clone() };
        rules.push(Given { names: vec![1], remote: GivenPorts::Equal(443), ..opened.clone() });
        rules.push(Given { names: vec![2], remote: GivenPorts::Equal(80), ..opened });
        rules.push(Given { names: vec![4], protocol: Some(17), ..rule.clone() });
        rules.push(Given { names: vec![8], remote: GivenPorts::Between(8_000, 8_010), ..rule.clone() });
        rules.push(Given { names: vec![8], protocol: Some(17), remote: GivenPorts::Equal(5_683), ..rule });
    }
    Set { name: "10 rules over 4 networks", networks, rules, lines: 5 }
}

/// Each of 64 rules for a network and a port of its own.
fn rule_per_network() -> Set {
    let networks = (0..64).map(|n| Net(0xC633_0000 + (n << 8), 28)).collect();
    let rule =
        |n: u32| Given { names: vec![1 << n], opener: Some(0), remote: GivenPorts::Equal(8_000 + n), ..TCP };
    Set { name: "64 rules over 64 networks", networks, rules: (0..64).map(rule).collect(), lines: 64 }
}

/// As many lines as a table may have.
fn full() -> Set {
    let rule = |n: u32| Given { names: vec![u64::MAX], remote: GivenPorts::Equal(2 * n), ..TCP };
    let rules = (0..8).map(rule).collect();
    Set { name: "64 addresses apart, 8 ports apart", networks: addresses_apart(), rules, lines: 512 }
}

/// Networks within one another, of the rules and of the site, and ports left out at both ends.
fn nested() -> Set {
    let networks = (0..64).map(|n| Net(if n < 32 { PATH } else { !PATH }, 1 + n % 32)).collect();
    let rules = (0..63)
        .map(|n| Given {
            network: (n % 2 == 0).then_some(Net(PATH, 1 + n / 2)),
            names: if n % 2 == 1 { vec![1 << n] } else { Vec::new() },
            opener: (n == 1).then_some(0),
            ..without_ports(n)
        })
        .chain([TCP])
        .collect();
    Set { name: "nested networks, ports left out", networks, rules, lines: 1 }
}

/// 64 addresses apart within 31 nested networks, and all dropped, which shows only at the device port.
fn dropped() -> Set {
    let networks = (0..64).map(|n| Net((PATH & !0xFF) + 2 * n, 32)).collect();
    let halves = [GivenPorts::Between(0, 99), GivenPorts::Between(100, 65_535)];
    let dropping = halves.map(|device| Given { accept: false, device, ..TCP });
    let accepting = (0..62).map(|n| Given {
        network: (n % 2 == 0).then_some(Net(PATH, 1 + n / 2)),
        names: if n == 0 { vec![u64::MAX] } else { Vec::new() },
        opener: (n == 1).then_some(0),
        ..without_ports(n)
    });
    let rules = dropping.into_iter().chain(accepting).collect();
    Set { name: "64 addresses apart in nested networks, all dropped", networks, rules, lines: 0 }
}

/// One rule is for 64 addresses apart, and each leaves out a port at both ends: the same few sections
/// come again at each address and between any two.
fn apart() -> Set {
    let rules = (0..64)
        .map(|n| Given {
            names: if n == 0 { vec![u64::MAX] } else { Vec::new() },
            opener: (n == 1).then_some(0),
            ..without_ports(n)
        })
        .collect();
    Set { name: "64 addresses apart, ports left out", networks: addresses_apart(), rules, lines: 1 }
}

/// The same few sections again, of more lines: 30 device ports are dropped, by two rules each.
fn apart_dropped() -> Set {
    let dropping = (0..60).map(|n| Given {
        accept: false,
        remote: GivenPorts::OtherThan(2 + 2 * n),
        device: GivenPorts::Equal(2 + 2 * (n / 2)),
        ..TCP
    });
    let accepting = [Given { names: vec![u64::MAX], ..TCP }, Given { opener: Some(0), ..TCP }, TCP];
    let rules = dropping.chain(accepting).collect();
    Set { name: "64 addresses apart, 30 device ports dropped", networks: addresses_apart(), rules, lines: 31 }
}

/// Addresses that touch, of three names by turns, so that no two neighbours have the same live rules.
fn by_turns() -> Set {
    let networks = (0..64).map(|n| Net(0x0A00_0000 + n, 32)).collect();
    let every_third = |first: u32| (first..64).step_by(3).fold(0, |mask, n| mask | 1 << n);
    let rules = (0..64)
        .map(|n| Given {
            names: if n < 3 { vec![every_third(n)] } else { Vec::new() },
            opener: (n == 3).then_some(0),
            ..without_ports(n)
        })
        .collect();
    Set { name: "64 addresses of three names by turns, ports left out", networks, rules, lines: 1 }
}

/// Ports within ever wider ports, and one line for each of 64 addresses apart and for what lies between
/// them: two sections by turns, which are not the same.
fn growing() -> Set {
    let rules = (0..64)
        .map(|n| {
            let ports = GivenPorts::Between(1000 - 2 * n, 1000 + 2 * n);
            Given {
                names: if n == 63 { vec![u64::MAX] } else { Vec::new() },
                opener: (n == 1).then_some(0),
                remote: ports,
                device: ports,
                ..TCP
            }
        })
        .collect();
    Set { name: "64 addresses apart, ports within ports", networks: addresses_apart(), rules, lines: 129 }
}
