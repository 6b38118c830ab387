//! `bench [rounds]`: the verified library against the plain implementation, as a markdown table.
//!
//! The two take turns in one run, so that whatever else the machine does meets both. Each turn
//! repeats the call for about a millisecond; the medians over all rounds are compared. Above 1 the
//! library is the slower one.

use std::hint::black_box;

use compare::timing;
use compare::workloads::{builds, full_table, touching_table, Workload};
use mirokdeul::{DevicePort, Flow, RemotePort, Verdict, REPLY_LEN, WORK_LEN};

fn main() {
    let rounds = std::env::args().nth(1).and_then(|text| text.parse().ok()).unwrap_or(101);
    timing::print_head(compare::sides(), rounds);
    println!("| workload | library, µs | plain, µs | ratio |");
    println!("|---|---:|---:|---:|");
    for workload in builds() {
        bench_build(&workload, rounds);
    }
    bench_verdicts(rounds);
}

fn bench_build(workload: &Workload, rounds: usize) {
    let Workload { name, file, site, number } = workload;
    let (mut reply, mut work) = (vec![0; REPLY_LEN], vec![0; WORK_LEN]);
    let mut plain_reply = vec![0; REPLY_LEN];
    let library = || {
        let answer = mirokdeul::build_into(black_box(file), black_box(site), &mut reply, &mut work);
        assert_eq!(answer.number(), *number);
    };
    let plain = || {
        let answer = mirokdeul_plain::build(black_box(file), black_box(site), &mut plain_reply, true);
        assert_eq!(answer.0, *number);
    };
    report(&format!("build: {name}"), rounds, library, plain);
}

fn bench_verdicts(rounds: usize) {
    let full = full_table();
    bench_verdict("512 lines, first line", &full, 0x0A00_0000, 0, rounds);
    bench_verdict("512 lines, last line", &full, 0x0A00_007E, 14, rounds);
    bench_verdict("512 lines, no line", &full, 0x0A00_0001, 14, rounds);
    bench_verdict(
        "512 lines of four addresses that touch, last line",
        &touching_table(),
        0x0A00_0003,
        60_003,
        rounds,
    );
}

fn bench_verdict(name: &str, table: &[u8], address: u32, remote: u16, rounds: usize) {
    let flow = Flow {
        direction: 0,
        protocol: 6,
        opener: 0,
        address: address.into(),
        remote: RemotePort(remote),
        device: DevicePort(40_000),
    };
    let plain_flow = mirokdeul_plain::Flow {
        direction: 0,
        protocol: 6,
        opener: 0,
        address,
        remote: mirokdeul_plain::RemotePort(remote),
        device: mirokdeul_plain::DevicePort(40_000),
    };
    let is_line = name.ends_with("first line") || name.ends_with("last line");
    let library = || {
        assert_eq!(mirokdeul::verdict(black_box(table), &flow) == Ok(Verdict::Accept), is_line);
    };
    let plain = || {
        black_box(mirokdeul_plain::verdict(black_box(table), plain_flow));
    };
    report(&format!("verdict: {name}"), rounds, library, plain);
}

/// Times the two in turns and prints a line of the table.
fn report(name: &str, rounds: usize, mut library: impl FnMut(), mut plain: impl FnMut()) {
    let [library, plain] = timing::medians(rounds, [&mut library, &mut plain]);
    println!("| {name} | {library:.1} | {plain:.1} | {:.2} |", library / plain);
}
