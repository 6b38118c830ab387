//! Measuring calls that take turns, for the benchmarks.

use std::time::{Duration, Instant, SystemTime};

/// How long a turn lasts at least. Short turns are seldom cut by other work on the machine, and the
/// median does not mind the few that are.
const TURN: Duration = Duration::from_micros(800);

/// Prints what was measured, where and when.
pub fn print_head(sides: &str, rounds: usize) {
    println!(
        "machine: {}, {} cores",
        processor(),
        std::thread::available_parallelism().map_or(0, |count| count.get())
    );
    println!("date: {}", today());
    println!("sides: {sides}");
    println!("rounds: {rounds}, alternating; medians\n");
}

/// The median microseconds of a call of each, over rounds in which each has its turn.
pub fn medians<const N: usize>(rounds: usize, mut calls: [&mut dyn FnMut(); N]) -> [f64; N] {
    let counts = calls.each_mut().map(|call| calls_per_turn(*call));
    let mut times = [const { Vec::new() }; N];
    for _ in 0..rounds {
        for ((call, &count), times) in calls.iter_mut().zip(&counts).zip(&mut times) {
            times.push(time(*call, count));
        }
    }
    times.map(median)
}

/// How many calls fill a turn. Also warms up.
fn calls_per_turn(call: &mut dyn FnMut()) -> u32 {
    let mut calls = 1;
    loop {
        let start = Instant::now();
        for _ in 0..calls {
            call();
        }
        if start.elapsed() >= TURN {
            return calls;
        }
        calls *= 2;
    }
}

/// The microseconds of one call, over `calls` of them.
fn time(call: &mut dyn FnMut(), calls: u32) -> f64 {
    let start = Instant::now();
    for _ in 0..calls {
        call();
    }
    start.elapsed().as_secs_f64() * 1e6 / f64::from(calls)
}

fn median(mut times: Vec<f64>) -> f64 {
    times.sort_by(f64::total_cmp);
    times[times.len() / 2]
}

fn processor() -> String {
    let information = std::fs::read_to_string("/proc/cpuinfo").unwrap_or_default();
    let name = information.lines().find_map(|line| line.strip_prefix("model name"));
    name.map_or("unknown", |name| name.trim_start_matches([' ', '\t', ':'])).to_owned()
}

/// The date of today, from the days since 1970 by the rules of the calendar.
fn today() -> String {
    let seconds = SystemTime::now().duration_since(SystemTime::UNIX_EPOCH).map_or(0, |time| time.as_secs());
    let mut days = seconds / 86_400;
    let mut year = 1970;
    loop {
        let length = if is_leap(year) { 366 } else { 365 };
        if days < length {
            break;
        }
        days -= length;
        year += 1;
    }
    let february = if is_leap(year) { 29 } else { 28 };
    let mut month = 1;
    for length in [31, february, 31, 30, 31, 30, 31, 31, 30, 31, 30, 31] {
        if days < length {
            break;
        }
        days -= length;
        month += 1;
    }
    format!("{year}-{month:02}-{:02}", days + 1)
}

fn is_leap(year: u64) -> bool {
    year.is_multiple_of(4) && (!year.is_multiple_of(100) || year.is_multiple_of(400))
}
