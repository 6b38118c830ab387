//! Stored tables: which bytes are a table, and which flows it holds.
//!
//! The table of a set is one text, so the bytes could be judged by building the set's table again
//! and comparing; the tests do that. Here the definition is read the other way round: lines are the
//! table of some set just when their first ranges form rising runs, what follows each run is a table
//! of one dimension fewer, and no two runs that touch are followed by the same.

use crate::flow::{Flow, Range, HIGHEST, TCP, UDP};
use crate::{MOST_LINES, REPLY_LEN};

/// The bytes are not a table.
#[derive(Clone, Copy, Debug, PartialEq, Eq)]
pub struct NotATable;

type Line = [Range; 6];

/// The lines of a table.
#[derive(Clone, Debug)]
pub struct Lines(Vec<Line>);

impl Lines {
    /// Reads a stored table.
    pub fn read(stored: &[u8]) -> Result<Lines, NotATable> {
        if stored.len() != REPLY_LEN {
            return Err(NotATable);
        }
        let lines = split(stored).ok_or(NotATable)?;
        if !lines.iter().all(covers_only_flows) || !is_table(&lines, 0) {
            return Err(NotATable);
        }
        Ok(Lines(lines))
    }

    /// The lines, each as its six ranges.
    pub fn ranges(&self) -> &[[Range; 6]] {
        &self.0
    }

    /// Whether a flow is in the set.
    pub fn hold(&self, flow: Flow) -> bool {
        let numbers = flow.numbers();
        self.0.iter().any(|line| line.iter().zip(numbers).all(|(range, number)| range.holds(number)))
    }
}

/// The lines, at most 512, that stand before nothing but zeros.
fn split(stored: &[u8]) -> Option<Vec<Line>> {
    let mut text = Text { bytes: stored, at: 0 };
    let mut lines = Vec::with_capacity(MOST_LINES);
    while text.peek()? != 0 {
        if lines.len() == MOST_LINES {
            return None;
        }
        lines.push(text.line()?);
    }
    stored[text.at..].iter().all(|&byte| byte == 0).then_some(lines)
}

/// A place in a text.
struct Text<'b> {
    bytes: &'b [u8],
    at: usize,
}

impl Text<'_> {
    fn peek(&self) -> Option<u8> {
        self.bytes.get(self.at).copied()
    }

    fn expect(&mut self, byte: u8) -> Option<()> {
        if self.peek()? != byte {
            return None;
        }
        self.at += 1;
        Some(())
    }

    fn line(&mut self) -> Option<Line> {
        let mut line = [Range::only(0); 6];
        for (dimension, range) in line.iter_mut().enumerate() {
            if dimension > 0 {
                self.expect(b'\t')?;
            }
            let low = self.value(dimension)?;
            self.expect(b'-')?;
            let high = self.value(dimension)?;
            if low > high {
                return None;
            }
            *range = Range { low, high };
        }
        self.expect(b'\n')?;
        Some(line)
    }

    fn value(&mut self, dimension: usize) -> Option<u32> {
        if dimension != 3 {
            return self.decimal(HIGHEST[dimension]);
        }
        let mut address = self.decimal(255)?;
        for _ in 0..3 {
            self.expect(b'.')?;
            address = address << 8 | self.decimal(255)?;
        }
        Some(address)
    }

    /// Reads a number of at most `most`, which is at most 65535, without extra zeros in front.
    fn decimal(&mut self, most: u32) -> Option<u32> {
        let mut value = self.digit()?;
        if value == 0 {
            // A digit after it would be an extra one; then what stands there is not what must follow.
            return Some(0);
        }
        while let Some(digit) = self.digit() {
            value = value * 10 + digit;
            if value > most {
                return None;
            }
        }
        (value <= most).then_some(value)
    }

    /// Steps over a digit, if one is next.
    fn digit(&mut self) -> Option<u32> {
        let digit = self.peek()?.wrapping_sub(b'0');
        if digit > 9 {
            return None;
        }
        self.at += 1;
        Some(digit.into())
    }
}

/// Whether every six numbers that a line covers are a flow.
fn covers_only_flows(line: &Line) -> bool {
    let [_, protocol, opener, _, remote, device] = *line;
    let is_only = |number: u8| protocol == Range::only(number.into());
    let has_opener = is_only(TCP);
    let has_ports = is_only(TCP) || is_only(UDP);
    (has_opener || opener.high == 0) && (has_ports || (remote.high == 0 && device.high == 0))
}

/// Whether `lines`, without their first dimensions, are the table of some set.
fn is_table(lines: &[Line], dimension: usize) -> bool {
    if dimension == 6 {
        return lines.len() == 1;
    }
    let mut last: Option<&[Line]> = None;
    for run in lines.chunk_by(|a, b| a[dimension] == b[dimension]) {
        if !is_table(run, dimension + 1) {
            return false;
        }
        if last.is_some_and(|last| !may_follow(last, run, dimension)) {
            return false;
        }
        last = Some(run);
    }
    true
}

/// Whether the lines of a run may stand right behind those of another.
fn may_follow(last: &[Line], run: &[Line], dimension: usize) -> bool {
    let (last_high, low) = (last[0][dimension].high, run[0][dimension].low);
    if last_high >= low {
        return false;
    }
    let touches = last_high + 1 == low;
    !(touches && has_same_section(last, run, dimension + 1))
}

/// Whether two tables of the dimensions from `dimension` on are the same.
fn has_same_section(one: &[Line], other: &[Line], dimension: usize) -> bool {
    one.len() == other.len()
        && one.iter().zip(other).all(|(one, other)| one[dimension..] == other[dimension..])
}
