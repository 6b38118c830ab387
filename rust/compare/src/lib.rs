//! The verified library and the plain implementation, side by side.
//!
//! Cases are made by a generator that is the same in every run with the same seed: files of every
//! form, damaged files, files on both sides of each limit, site tables, stored tables and flows.
//! Both implementations get the same case, with buffers full of noise, and must give the same
//! number, count, bytes and verdicts. See `src/bin/compare.rs` for how it is run.
#![forbid(unsafe_code)]

pub mod case;
pub mod check;
pub mod damage;
pub mod dice;
pub mod limits;
pub mod loose;
pub mod sites;
pub mod stored;
pub mod things;
pub mod timing;
pub mod value;
pub mod workloads;

use std::panic::AssertUnwindSafe;

use case::Case;
use check::{check, Buffers, Counts, Difference};
use dice::Dice;

/// What was run, for the head of every output: nothing is compared where the plain implementation
/// stands in for the library, and the output must say so.
pub fn sides() -> &'static str {
    if mirokdeul::IS_STAND_IN {
        "plain against itself (plain-only): NOT the library"
    } else {
        "the library against plain"
    }
}

/// A case in which the two implementations differ.
#[derive(Debug)]
pub struct Found {
    /// Its number.
    pub number: u64,
    /// What was asked.
    pub case: Case,
    /// What differs.
    pub difference: Difference,
}

/// Runs `cases` cases from number `first` on; gives the counts, or the first case in which the two
/// implementations differ. `progress` is told the number of each case before it is run.
pub fn run(cases: u64, seed: u64, first: u64, progress: impl Fn(u64)) -> Result<Counts, Box<Found>> {
    let mut counts = Counts::default();
    let mut buffers = Buffers::default();
    for number in first..first + cases {
        progress(number);
        let mut dice = Dice::of_case(seed, number);
        let case = Case::any(&mut dice);
        if let Err(difference) = check_or_catch(&case, &mut dice, &mut buffers, &mut counts) {
            return Err(Box::new(Found { number, case, difference }));
        }
    }
    Ok(counts)
}

/// Checks a case. A panic, be it over a number that no answer has, is a difference too.
fn check_or_catch(
    case: &Case,
    dice: &mut Dice,
    buffers: &mut Buffers,
    counts: &mut Counts,
) -> Result<(), Difference> {
    std::panic::catch_unwind(AssertUnwindSafe(|| check(case, dice, buffers, counts)))
        .unwrap_or_else(|_| Err(Difference::of("a panic, whose message is above".to_owned())))
}
