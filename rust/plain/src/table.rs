//! The table of a set of flows, straight from its definition.
//!
//! A section is the set that is left when some dimensions have been given a value. Its table is the
//! list of its runs: the longest ranges of values of the next dimension that have the same section,
//! rising, without those whose section is empty. Every section is kept once, under a number; so two
//! sections are the same set just when they have the same number, and "alike" is one comparison.
//!
//! A section depends only on which rules still hold, so it is also built at most once for each set
//! of such rules.

use std::collections::HashMap;
use std::hash::{BuildHasherDefault, Hash, Hasher};

use crate::flow::{Range, HIGHEST, TCP, UDP};
use crate::rules::{Cell, Cells, RuleSet};
use crate::MOST_LINES;

/// The table has more than 512 lines.
#[derive(Clone, Copy, Debug, PartialEq, Eq)]
pub struct TooLong;

/// The number of a section.
type Number = u32;
/// The section that holds nothing.
const NOTHING: Number = 0;
/// The section that is left of a flow in the set when no dimension is left: one line.
const ONE_LINE: Number = 1;

/// A run of alike values, and their section.
#[derive(Clone, Copy, Debug, PartialEq, Eq, Hash)]
struct Run {
    values: Range,
    section: Number,
}

/// Where a section's runs stand, and how many lines its table has.
#[derive(Clone, Copy, Debug)]
struct Section {
    first: u32,
    count: u32,
    lines: usize,
    /// An earlier section whose runs have the same hash, or `NOTHING`.
    same_hash: Number,
}

/// What the protocol of a flow says about its opener and its ports.
#[derive(Clone, Copy, Debug, PartialEq, Eq, Hash)]
enum Transport {
    Tcp,
    Udp,
    Other,
}

impl Transport {
    fn of(protocol: u32) -> Transport {
        if protocol == u32::from(TCP) {
            Transport::Tcp
        } else if protocol == u32::from(UDP) {
            Transport::Udp
        } else {
            Transport::Other
        }
    }

    /// The highest value that a flow can have in a dimension.
    fn highest(self, dimension: usize) -> u32 {
        let is_always_0 = match dimension {
            2 => self != Transport::Tcp,
            4 | 5 => self == Transport::Other,
            _ => false,
        };
        if is_always_0 {
            0
        } else {
            HIGHEST[dimension]
        }
    }
}

/// The table of a set of flows.
#[derive(Debug)]
pub struct Table {
    runs: Vec<Run>,
    sections: Vec<Section>,
    whole: Number,
}

impl Table {
    /// The table of the flows whose first live rule is one of `accepting`.
    pub fn of(cells: &Cells, accepting: RuleSet) -> Result<Table, TooLong> {
        let mut builder = Builder::new(cells, accepting);
        let whole = builder.section(0, Transport::Other, RuleSet::MAX)?;
        Ok(Table { runs: builder.runs, sections: builder.sections, whole })
    }

    /// The number of lines.
    pub fn lines(&self) -> usize {
        self.sections[self.whole as usize].lines
    }

    /// Writes the lines to the front of `reply`, which is long enough.
    pub fn write(&self, reply: &mut [u8]) {
        let mut writer = Writer { table: self, reply, written: 0, line: [0; LONGEST_LINE] };
        writer.section(self.whole, 0, 0);
    }

    fn runs(&self, section: Number) -> &[Run] {
        runs_of(&self.runs, self.sections[section as usize])
    }
}

fn runs_of(runs: &[Run], section: Section) -> &[Run] {
    &runs[section.first as usize..][..section.count as usize]
}

struct Builder<'c> {
    /// The cells of each dimension, those of the protocol cut also where the transport changes.
    cells: [&'c [Cell]; 6],
    protocols: Vec<Cell>,
    accepting: RuleSet,
    /// For each number of dimensions gone, the rules that match all that can be left.
    matching_all: [RuleSet; 7],
    runs: Vec<Run>,
    sections: Vec<Section>,
    /// The last section under each hash of its runs.
    by_hash: HashMap<u64, Number, Quick>,
    /// The sections that were built, by dimension, transport and live rules.
    built: HashMap<(u8, Transport, RuleSet), Number, Quick>,
    /// The runs of the sections that are being built, those of the innermost last.
    pending: Vec<Run>,
}

impl<'c> Builder<'c> {
    fn new(cells: &'c Cells, accepting: RuleSet) -> Builder<'c> {
        let no_runs = Section { first: 0, count: 0, lines: 0, same_hash: NOTHING };
        Builder {
            cells: cells.each_ref().map(Vec::as_slice),
            protocols: cut_at_transports(&cells[1]),
            accepting,
            matching_all: matching_all(cells),
            runs: Vec::new(),
            sections: vec![no_runs, Section { lines: 1, ..no_runs }],
            by_hash: HashMap::default(),
            built: HashMap::default(),
            pending: Vec::new(),
        }
    }

    /// The section in which the rules of `live` still hold, after `dimension` dimensions.
    fn section(&mut self, dimension: usize, transport: Transport, live: RuleSet) -> Result<Number, TooLong> {
        // What stands behind a rule that matches all that is left is never reached.
        let live = up_to_first(live, self.matching_all[dimension]);
        if live & self.accepting == 0 {
            return Ok(NOTHING);
        }
        if dimension == 6 {
            return Ok(ONE_LINE);
        }
        let key = (dimension as u8, transport, live);
        if let Some(&number) = self.built.get(&key) {
            return Ok(number);
        }
        let number = self.build(dimension, transport, live)?;
        self.built.insert(key, number);
        Ok(number)
    }

    /// Builds a section value by value, or rather cell by cell: within a cell all values are alike.
    fn build(&mut self, dimension: usize, transport: Transport, live: RuleSet) -> Result<Number, TooLong> {
        let start = self.pending.len();
        let highest = transport.highest(dimension);
        let mut place = 0;
        // Neighbouring cells often differ only in rules that are out already.
        let (mut last, mut last_section) = ((transport, 0), NOTHING);
        while let Some(cell) = self.cell(dimension, place, highest) {
            let transport = match dimension {
                1 => Transport::of(cell.values.low),
                _ => transport,
            };
            let left = (transport, live & cell.live);
            if left != last {
                last_section = self.section(dimension + 1, transport, left.1)?;
                last = left;
            }
            self.add(start, Run { values: cell.values, section: last_section });
            place += 1;
        }
        let number = self.number_of_pending(start);
        self.pending.truncate(start);
        // Every section built appears in the table, so its lines alone may be too many.
        if self.sections[number as usize].lines > MOST_LINES {
            return Err(TooLong);
        }
        Ok(number)
    }

    /// A cell of a dimension, as far as its values are not above `highest`.
    fn cell(&self, dimension: usize, place: usize, highest: u32) -> Option<Cell> {
        let cells = if dimension == 1 { &self.protocols[..] } else { self.cells[dimension] };
        let cell = cells.get(place).filter(|cell| cell.values.low <= highest)?;
        let values = Range::new(cell.values.low, cell.values.high.min(highest));
        Some(Cell { values, live: cell.live })
    }

    /// Adds a run to those pending from `start` on: nothing if its section is empty, and as part of
    /// the last run if it touches that and is like it.
    fn add(&mut self, start: usize, run: Run) {
        if run.section == NOTHING {
            return;
        }
        match self.pending[start..].last_mut() {
            Some(last) if last.section == run.section && last.values.high + 1 == run.values.low => {
                last.values.high = run.values.high;
            }
            _ => self.pending.push(run),
        }
    }

    /// The number of the section whose runs are pending from `start` on.
    fn number_of_pending(&mut self, start: usize) -> Number {
        let runs = &self.pending[start..];
        if runs.is_empty() {
            return NOTHING;
        }
        let hash = hash_of(runs);
        let same_hash = self.by_hash.get(&hash).copied().unwrap_or(NOTHING);
        let mut known = same_hash;
        while known != NOTHING {
            let section = self.sections[known as usize];
            if runs_of(&self.runs, section) == runs {
                return known;
            }
            known = section.same_hash;
        }
        let lines = runs.iter().map(|run| self.sections[run.section as usize].lines).sum();
        let number = self.sections.len() as Number;
        let (first, count) = (self.runs.len() as u32, runs.len() as u32);
        self.runs.extend_from_slice(runs);
        self.sections.push(Section { first, count, lines, same_hash });
        self.by_hash.insert(hash, number);
        number
    }
}

/// The rules of `live` down to the first that is in `stop`.
fn up_to_first(live: RuleSet, stop: RuleSet) -> RuleSet {
    let stops = live & stop;
    let first = stops & stops.wrapping_neg();
    if first == 0 {
        live
    } else {
        live & (first | (first - 1))
    }
}

/// For each number of dimensions gone, the rules that hold in every cell of every other.
fn matching_all(cells: &Cells) -> [RuleSet; 7] {
    let mut all = [RuleSet::MAX; 7];
    for dimension in (0..6).rev() {
        all[dimension] = cells[dimension].iter().fold(all[dimension + 1], |all, cell| all & cell.live);
    }
    all
}

/// The protocol's cells, cut around TCP and UDP.
fn cut_at_transports(cells: &[Cell]) -> Vec<Cell> {
    let (tcp, udp) = (u32::from(TCP), u32::from(UDP));
    let mut cut = Vec::with_capacity(cells.len() + 4);
    for cell in cells {
        let mut low = cell.values.low;
        for start in [tcp, tcp + 1, udp, udp + 1] {
            if low < start && start <= cell.values.high {
                cut.push(Cell { values: Range::new(low, start - 1), live: cell.live });
                low = start;
            }
        }
        cut.push(Cell { values: Range::new(low, cell.values.high), live: cell.live });
    }
    cut
}

/// A hash for numbers that nobody chose to make it slow: multiply and turn. Sections are few, since
/// each but the smallest has its lines in the table, so a bad case costs little.
#[derive(Default)]
struct Mixer(u64);

type Quick = BuildHasherDefault<Mixer>;

impl Hasher for Mixer {
    fn write(&mut self, bytes: &[u8]) {
        for &byte in bytes {
            self.write_u64(byte.into());
        }
    }

    fn write_u8(&mut self, value: u8) {
        self.write_u64(value.into());
    }

    fn write_u32(&mut self, value: u32) {
        self.write_u64(value.into());
    }

    fn write_u64(&mut self, value: u64) {
        self.0 = (self.0.rotate_left(5) ^ value).wrapping_mul(0x9E37_79B9_7F4A_7C15);
    }

    fn write_usize(&mut self, value: usize) {
        self.write_u64(value as u64);
    }

    fn write_isize(&mut self, value: isize) {
        self.write_u64(value as u64);
    }

    fn write_u128(&mut self, value: u128) {
        self.write_u64(value as u64);
        self.write_u64((value >> 64) as u64);
    }

    fn finish(&self) -> u64 {
        // The map takes the top seven bits and the low ones, so the good high bits go to both.
        self.0 ^ self.0.rotate_left(26)
    }
}

fn hash_of(runs: &[Run]) -> u64 {
    let mut mixer = Mixer::default();
    runs.hash(&mut mixer);
    mixer.finish()
}

/// No line is longer than 70 bytes.
const LONGEST_LINE: usize = 70;

/// Writes a table's lines, one dimension at a time: the text of the dimensions gone stays in `line`.
struct Writer<'t> {
    table: &'t Table,
    reply: &'t mut [u8],
    written: usize,
    line: [u8; LONGEST_LINE],
}

impl Writer<'_> {
    /// Writes a section's lines, each after the first `before` bytes of `line`.
    fn section(&mut self, section: Number, dimension: usize, before: usize) {
        let table = self.table;
        for run in table.runs(section) {
            let end = self.range(dimension, run.values, before);
            if dimension == 5 {
                self.end_line(end);
            } else {
                self.line[end] = b'\t';
                self.section(run.section, dimension + 1, end + 1);
            }
        }
    }

    fn end_line(&mut self, end: usize) {
        self.line[end] = b'\n';
        let line = &self.line[..=end];
        self.reply[self.written..][..line.len()].copy_from_slice(line);
        self.written += line.len();
    }

    /// Puts `low-high` into the line at `at`; gives where it ends.
    fn range(&mut self, dimension: usize, values: Range, at: usize) -> usize {
        let at = self.value(dimension, values.low, at);
        self.line[at] = b'-';
        self.value(dimension, values.high, at + 1)
    }

    fn value(&mut self, dimension: usize, value: u32, at: usize) -> usize {
        if dimension != 3 {
            return self.decimal(value, at);
        }
        let [a, b, c, d] = value.to_be_bytes();
        let mut at = self.decimal(a.into(), at);
        for byte in [b, c, d] {
            self.line[at] = b'.';
            at = self.decimal(byte.into(), at + 1);
        }
        at
    }

    fn decimal(&mut self, value: u32, at: usize) -> usize {
        let mut end = at + 1;
        let mut rest = value / 10;
        while rest > 0 {
            end += 1;
            rest /= 10;
        }
        let mut rest = value;
        for place in (at..end).rev() {
            self.line[place] = b'0' + (rest % 10) as u8;
            rest /= 10;
        }
        end
    }
}

#[cfg(test)]
mod tests {
    use super::*;

    #[test]
    fn rules_behind_one_that_matches_all_are_left_out() {
        assert_eq!(up_to_first(0b1110, 0), 0b1110);
        assert_eq!(up_to_first(0b1110, 0b0100), 0b0110);
        assert_eq!(up_to_first(0b1110, 0b0001), 0b1110);
        assert_eq!(up_to_first(RuleSet::MAX, 1 << 127), RuleSet::MAX);
    }

    #[test]
    fn protocols_are_cut_around_tcp_and_udp() {
        let cells = [Cell { values: Range::new(0, 255), live: 1 }];
        let lows: Vec<u32> = cut_at_transports(&cells).iter().map(|cell| cell.values.low).collect();
        assert_eq!(lows, [0, 6, 7, 17, 18]);
    }

    #[test]
    fn numbers_are_written_without_extra_zeros() {
        let table = Table { runs: vec![], sections: vec![], whole: NOTHING };
        let mut writer = Writer { table: &table, reply: &mut [], written: 0, line: [0; LONGEST_LINE] };
        for (value, text) in [(0, "0"), (9, "9"), (10, "10"), (100, "100"), (65_535, "65535")] {
            let end = writer.value(4, value, 0);
            assert_eq!(&writer.line[..end], text.as_bytes());
        }
        let end = writer.value(3, 0xC000_02FF, 0);
        assert_eq!(&writer.line[..end], b"192.0.2.255");
    }
}
