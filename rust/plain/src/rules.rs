//! Rules, and the cells into which they cut the six dimensions.

use crate::flow::{Flow, Range, HIGHEST};
use crate::site::{LineSet, Site};

/// A set of ports, of one end: one range, or two around a port that is left out.
#[derive(Clone, Copy, Debug, PartialEq, Eq)]
pub struct Ports {
    first: Range,
    second: Option<Range>,
}

impl Ports {
    /// Every port.
    pub fn all() -> Ports {
        Ports { first: Range::new(0, 65_535), second: None }
    }

    /// The one port `port`.
    pub fn equal(port: u32) -> Ports {
        Ports { first: Range::only(port), second: None }
    }

    /// The ports from `low` to `high`, if `low` is not above `high`.
    pub fn between(low: u32, high: u32) -> Option<Ports> {
        (low <= high).then_some(Ports { first: Range::new(low, high), second: None })
    }

    /// Every port but `port`.
    pub fn other_than(port: u32) -> Ports {
        match port {
            0 => Ports { first: Range::new(1, 65_535), second: None },
            65_535 => Ports { first: Range::new(0, 65_534), second: None },
            _ => Ports { first: Range::new(0, port - 1), second: Some(Range::new(port + 1, 65_535)) },
        }
    }

    fn ranges(&self) -> impl Iterator<Item = Range> {
        [Some(self.first), self.second].into_iter().flatten()
    }

    fn holds(&self, port: u32) -> bool {
        self.ranges().any(|range| range.holds(port))
    }
}

/// The remote addresses of a rule: those in the network, if one is given, and in a network of each
/// of the sets of site lines.
#[derive(Clone, Debug, Default)]
pub struct Addresses {
    network: Option<Range>,
    site_lines: Vec<LineSet>,
}

impl Addresses {
    /// Leaves only the addresses in a network of `lines`. No line leaves no address.
    pub fn limit(&mut self, lines: LineSet) {
        self.site_lines.push(lines);
    }

    /// Leaves only the addresses in `network`. An entry has at most one.
    pub fn limit_to_network(&mut self, network: Range) {
        assert!(self.network.is_none());
        self.network = Some(network);
    }

    /// Whether `address`, which is in the networks of just the lines of `covering`, is left.
    fn holds(&self, address: u32, covering: u64) -> bool {
        self.network.is_none_or(|network| network.holds(address))
            && self.site_lines.iter().all(|lines| lines.0 & covering != 0)
    }
}

/// A rule: the flows that it matches, as a set of values in each dimension, and its verdict.
#[derive(Clone, Debug)]
pub struct Rule {
    /// The directions.
    pub direction: Range,
    /// The protocols.
    pub protocol: Range,
    /// The openers.
    pub opener: Range,
    /// The remote addresses.
    pub addresses: Addresses,
    /// The remote ports.
    pub remote: Ports,
    /// The device ports.
    pub device: Ports,
    /// Whether what it matches is accepted.
    pub accept: bool,
}

impl Rule {
    /// The rule that matches every flow.
    pub fn of_all(accept: bool) -> Rule {
        Rule {
            direction: Range::new(0, HIGHEST[0]),
            protocol: Range::new(0, HIGHEST[1]),
            opener: Range::new(0, HIGHEST[2]),
            addresses: Addresses::default(),
            remote: Ports::all(),
            device: Ports::all(),
            accept,
        }
    }
}

/// Some rules of an ordered list: bit `i` is set for rule `i`. 64 entries and two defaults fit.
pub type RuleSet = u128;

/// A range of values of a dimension in which just the rules of `live` hold.
#[derive(Clone, Copy, Debug, PartialEq, Eq)]
pub struct Cell {
    /// The values.
    pub values: Range,
    /// The rules.
    pub live: RuleSet,
}

/// The cells of each dimension, in rising order and without gaps.
pub type Cells = [Vec<Cell>; 6];

/// The rules of a file under a site table, in the order in which they are tried.
#[derive(Clone, Debug)]
pub struct Rules<'s> {
    site: Site<'s>,
    rules: Vec<Rule>,
}

impl<'s> Rules<'s> {
    /// At most 128 rules, whose site lines are those of `site`.
    pub fn new(site: Site<'s>, rules: Vec<Rule>) -> Rules<'s> {
        assert!(rules.len() <= RuleSet::BITS as usize);
        Rules { site, rules }
    }

    /// The rules that accept.
    pub fn accepting(&self) -> RuleSet {
        self.those(|rule| rule.accept)
    }

    /// The verdict on a flow, straight from the words of the rule: that of the first rule that
    /// matches, and drop where none does.
    pub fn accepts(&self, flow: Flow) -> bool {
        let [direction, protocol, opener, address, remote, device] = flow.numbers();
        let covering = self.covering(address);
        let first = self.rules.iter().find(|rule| {
            rule.direction.holds(direction)
                && rule.protocol.holds(protocol)
                && rule.opener.holds(opener)
                && rule.addresses.holds(address, covering)
                && rule.remote.holds(remote)
                && rule.device.holds(device)
        });
        first.is_some_and(|rule| rule.accept)
    }

    /// Every dimension cut into cells.
    pub fn cells(&self) -> Cells {
        [
            self.cells_of_ranges(0, |rule| [rule.direction].into_iter()),
            self.cells_of_ranges(1, |rule| [rule.protocol].into_iter()),
            self.cells_of_ranges(2, |rule| [rule.opener].into_iter()),
            self.address_cells(),
            self.cells_of_ranges(4, |rule| rule.remote.ranges()),
            self.cells_of_ranges(5, |rule| rule.device.ranges()),
        ]
    }

    fn those(&self, wanted: impl Fn(&Rule) -> bool) -> RuleSet {
        let mut set = 0;
        for (number, rule) in self.rules.iter().enumerate() {
            if wanted(rule) {
                set |= 1 << number;
            }
        }
        set
    }

    /// The cells of a dimension in which a rule holds some ranges, no two of which overlap.
    fn cells_of_ranges<R: Iterator<Item = Range>>(
        &self,
        dimension: usize,
        ranges: impl Fn(&Rule) -> R,
    ) -> Vec<Cell> {
        let mut starts = vec![0];
        for range in self.rules.iter().flat_map(&ranges) {
            add_cuts(&mut starts, range, HIGHEST[dimension]);
        }
        let mut cells = cells_from(starts, HIGHEST[dimension]);
        // A rule's bit is turned over where a range of it begins and behind where it ends; adding
        // up from the left then sets it within its ranges.
        for (number, rule) in self.rules.iter().enumerate() {
            for range in ranges(rule) {
                let begins = cell_at(&cells, range.low);
                cells[begins].live ^= 1 << number;
                if range.high < HIGHEST[dimension] {
                    let behind = cell_at(&cells, range.high + 1);
                    cells[behind].live ^= 1 << number;
                }
            }
        }
        let mut live = 0;
        for cell in &mut cells {
            live ^= cell.live;
            cell.live = live;
        }
        cells
    }

    fn address_cells(&self) -> Vec<Cell> {
        let mut starts = vec![0];
        let mut used = 0;
        for rule in &self.rules {
            used |= rule.addresses.site_lines.iter().fold(0, |used, lines| used | lines.0);
            if let Some(network) = rule.addresses.network {
                add_cuts(&mut starts, network, u32::MAX);
            }
        }
        for (number, line) in self.site.lines().iter().enumerate() {
            if used >> number & 1 == 1 {
                add_cuts(&mut starts, line.network, u32::MAX);
            }
        }
        let mut cells = cells_from(starts, u32::MAX);
        for cell in &mut cells {
            let covering = self.covering(cell.values.low);
            cell.live = self.those(|rule| rule.addresses.holds(cell.values.low, covering));
        }
        cells
    }

    /// The site lines whose network has `address`.
    fn covering(&self, address: u32) -> u64 {
        let mut covering = 0;
        for (number, line) in self.site.lines().iter().enumerate() {
            covering |= u64::from(line.network.holds(address)) << number;
        }
        covering
    }
}

/// Adds where `range` begins, and where what follows it begins.
fn add_cuts(starts: &mut Vec<u32>, range: Range, highest: u32) {
    starts.push(range.low);
    if range.high < highest {
        starts.push(range.high + 1);
    }
}

/// Cells that begin at `starts`, which has 0, with no live rule yet.
fn cells_from(mut starts: Vec<u32>, highest: u32) -> Vec<Cell> {
    starts.sort_unstable();
    starts.dedup();
    let ends = starts[1..].iter().map(|&start| start - 1).chain([highest]);
    starts.iter().zip(ends).map(|(&low, high)| Cell { values: Range { low, high }, live: 0 }).collect()
}

/// The number of the cell that begins at `start`, where one does.
fn cell_at(cells: &[Cell], start: u32) -> usize {
    cells.partition_point(|cell| cell.values.low < start)
}

#[cfg(test)]
mod tests {
    use super::*;

    #[test]
    fn ports_other_than_one() {
        assert_eq!(Ports::other_than(0), Ports::between(1, 65_535).unwrap());
        assert_eq!(Ports::other_than(65_535), Ports::between(0, 65_534).unwrap());
        let around = Ports::other_than(80);
        assert!(around.holds(79) && !around.holds(80) && around.holds(81));
        assert_eq!(Ports::between(5, 4), None);
    }

    #[test]
    fn cells_cover_a_dimension_without_gaps() {
        let mut rule = Rule::of_all(true);
        rule.remote = Ports::other_than(80);
        rule.protocol = Range::only(255);
        let rules = Rules::new(Site::default(), vec![rule, Rule::of_all(false)]);
        let cell = |low, high, live| Cell { values: Range::new(low, high), live };
        let cells = rules.cells();
        assert_eq!(cells[1], [cell(0, 254, 2), cell(255, 255, 3)]);
        assert_eq!(cells[3], [cell(0, u32::MAX, 3)]);
        assert_eq!(cells[4], [cell(0, 79, 3), cell(80, 80, 2), cell(81, 65_535, 3)]);
        assert_eq!(rules.accepting(), 1);
    }
}
