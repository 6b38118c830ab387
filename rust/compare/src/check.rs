//! Runs one case on both implementations and compares everything that they give.

use mirokdeul::{Flow, REPLY_LEN};
use mirokdeul_plain as plain;

use crate::case::{Build, Case};
use crate::dice::Dice;
use crate::stored;

/// How often each answer was given.
#[derive(Clone, Debug, Default)]
pub struct Counts {
    /// The answers 0 to 12 of builds, and 13 and 14 of verdicts.
    pub numbers: [u64; 15],
    /// The verdicts drop and accept.
    pub verdicts: [u64; 2],
    /// The lines of all tables taken.
    pub lines: u64,
}

/// The two implementations differ.
#[derive(Clone, Debug)]
pub struct Difference {
    /// In what.
    pub what: String,
    /// What they gave, each with the name of a file for it.
    pub outputs: Vec<(&'static str, Vec<u8>)>,
}

impl Difference {
    /// A difference that its words say all about.
    pub fn of(what: String) -> Difference {
        Difference { what, outputs: Vec::new() }
    }
}

/// Buffers, kept from case to case so that each finds what another left.
#[derive(Debug, Default)]
pub struct Buffers {
    library: Vec<u8>,
    plain: Vec<u8>,
    work: Vec<u64>,
}

impl Buffers {
    /// Sets the lengths and fills all with noise: nothing may depend on what was there.
    fn prepare(&mut self, build: &Build, dice: &mut Dice) {
        self.library.resize(build.reply_len, 0);
        self.plain.resize(build.reply_len, 0);
        self.work.resize(build.work_len, 0);
        self.library.fill(dice.bits() as u8 | 1);
        self.plain.fill(dice.bits() as u8 | 1);
        self.work.fill(dice.bits() | 1);
    }
}

/// Runs a case; the dice choose noise and flows.
pub fn check(
    case: &Case,
    dice: &mut Dice,
    buffers: &mut Buffers,
    counts: &mut Counts,
) -> Result<(), Difference> {
    match case {
        Case::Build(build) => check_build(build, dice, buffers, counts),
        Case::Verdict { stored, flows } => {
            flows.iter().try_for_each(|flow| check_verdict(stored, flow, counts).map(drop))
        }
    }
}

fn check_build(
    build: &Build,
    dice: &mut Dice,
    buffers: &mut Buffers,
    counts: &mut Counts,
) -> Result<(), Difference> {
    buffers.prepare(build, dice);
    let answer = mirokdeul::build_into(&build.file, &build.site, &mut buffers.library, &mut buffers.work);
    let work_is_right = build.work_len == mirokdeul::WORK_LEN;
    let (number, count) = plain::build(&build.file, &build.site, &mut buffers.plain, work_is_right);
    let differ = |what: String| {
        Err(Difference {
            what: format!("{what} (a case of kind '{}')", build.kind),
            outputs: vec![("reply-library", buffers.library.clone()), ("reply-plain", buffers.plain.clone())],
        })
    };
    if answer.number() != number {
        return differ(format!("number: library {}, plain {number}", answer.number()));
    }
    if answer.count() != count {
        return differ(format!("count: library {}, plain {count}", answer.count()));
    }
    if buffers.library != buffers.plain {
        return differ("bytes of the reply".to_owned());
    }
    if buffers.work.iter().any(|&word| word != 0) {
        return differ("the work buffer is not zeros".to_owned());
    }
    counts.numbers[usize::from(number)] += 1;
    counts.lines += count as u64;
    if number == 0 {
        check_table(build, &buffers.library, dice, counts).or_else(|difference| differ(difference.what))?;
    }
    Ok(())
}

/// Asks the table that both built for some flows: both must say what the rules themselves say.
fn check_table(build: &Build, table: &[u8], dice: &mut Dice, counts: &mut Counts) -> Result<(), Difference> {
    let rules = plain::read_rules(&build.file, &build.site).expect("both took the file");
    for _ in 0..3 {
        let flow = stored::flow(table, dice);
        let number = check_verdict(table, &flow, counts)?;
        let plain_flow = of_plain(&flow);
        let expected = if plain_flow.is_flow() { u8::from(rules.accepts(plain_flow)) } else { 14 };
        if number != expected {
            let what = format!("verdict {number} of the table, {expected} of the rules, on {flow:?}");
            return Err(Difference::of(what));
        }
    }
    Ok(())
}

/// Asks both readers for a verdict; gives its number.
fn check_verdict(stored: &[u8], flow: &Flow, counts: &mut Counts) -> Result<u8, Difference> {
    let number = match mirokdeul::verdict(stored, flow) {
        Ok(verdict) => verdict as u8,
        Err(none) => none.number(),
    };
    let expected = plain::verdict(stored, of_plain(flow));
    if number != expected {
        return Err(Difference::of(format!("verdict: library {number}, plain {expected}, on {flow:?}")));
    }
    match number {
        0 | 1 => counts.verdicts[usize::from(number)] += 1,
        _ => counts.numbers[usize::from(number)] += 1,
    }
    Ok(number)
}

/// The same six numbers for the plain implementation. The ports keep their ends.
fn of_plain(flow: &Flow) -> plain::Flow {
    plain::Flow {
        direction: flow.direction,
        protocol: flow.protocol,
        opener: flow.opener,
        address: flow.address.into(),
        remote: plain::RemotePort(flow.remote.0),
        device: plain::DevicePort(flow.device.0),
    }
}

const _: () = assert!(REPLY_LEN == plain::REPLY_LEN);
