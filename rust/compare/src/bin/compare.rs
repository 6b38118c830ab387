//! `compare [cases] [seed] [first]`: runs cases and compares.
//!
//! Prints how often each answer was given. On a difference prints the seed and the number of the
//! case, writes its inputs and outputs to the folder `difference`, and ends with 1. That case alone
//! is run again by `compare 1 SEED NUMBER`. Says on standard error how far it is, so that a case that
//! ends the whole program can be found again.

use std::process::ExitCode;
use std::time::Instant;

use compare::check::Counts;
use compare::Found;

fn main() -> ExitCode {
    let mut arguments = std::env::args().skip(1).map(|text| text.parse::<u64>());
    let mut next = |default| arguments.next().unwrap_or(Ok(default));
    let (Ok(cases), Ok(seed), Ok(first)) = (next(200_000), next(1), next(0)) else {
        eprintln!("usage: compare [cases] [seed] [first]");
        return ExitCode::from(2);
    };
    println!("sides: {}", compare::sides());
    let start = Instant::now();
    match compare::run(cases, seed, first, say_how_far) {
        Ok(counts) => {
            println!(
                "{cases} cases, seed {seed}, first {first}: no difference, {:.1} s",
                start.elapsed().as_secs_f64()
            );
            print_counts(&counts);
            ExitCode::SUCCESS
        }
        Err(found) => {
            println!("seed {seed}, case {}: {}", found.number, found.difference.what);
            if let Err(error) = keep(&found) {
                eprintln!("difference/: {error}");
            }
            ExitCode::FAILURE
        }
    }
}

fn say_how_far(number: u64) {
    if number > 0 && number.is_multiple_of(50_000) {
        eprintln!("at case {number}");
    }
}

fn print_counts(counts: &Counts) {
    let most = counts.numbers.iter().max().copied().unwrap_or(0).max(1);
    for (number, &count) in counts.numbers.iter().enumerate() {
        println!("{number:>7} {count:>8} {}", "#".repeat((count * 60).div_ceil(most) as usize));
    }
    println!(
        "   drop {:>8}\n accept {:>8}\n  lines {:>8}",
        counts.verdicts[0], counts.verdicts[1], counts.lines
    );
}

/// Writes the case's files.
fn keep(found: &Found) -> std::io::Result<()> {
    std::fs::create_dir_all("difference")?;
    for (name, bytes) in found.case.inputs().iter().chain(&found.difference.outputs) {
        std::fs::write(format!("difference/{name}"), bytes)?;
    }
    println!("its files are in difference/");
    Ok(())
}
