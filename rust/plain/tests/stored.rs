//! Numbers 13 and 14, and the verdicts.

mod common;
use common::*;
use mirokdeul_plain::flow::{Range, HIGHEST};
use mirokdeul_plain::rules::Cell;
use mirokdeul_plain::stored::Lines;
use mirokdeul_plain::table::Table;
use mirokdeul_plain::{verdict, REPLY_LEN};

const DNS: &str = "0-0 17-17 0-0 192.0.2.53-192.0.2.53 53-53 0-65535\n";

fn is_table(text: &str) -> bool {
    Lines::read(&stored(text)).is_ok()
}

#[test]
fn stored_bytes_have_one_length() {
    assert!(Lines::read(&[0; REPLY_LEN]).is_ok());
    for length in [0, 1, REPLY_LEN - 1, REPLY_LEN + 1] {
        assert!(Lines::read(&vec![0; length]).is_err());
    }
}

#[test]
fn only_zeros_follow_the_lines() {
    assert!(is_table(""));
    assert!(is_table(DNS));
    for place in [DNS.len(), DNS.len() + 1, REPLY_LEN - 1] {
        let mut bytes = stored(DNS);
        bytes[place] = b'0';
        assert!(Lines::read(&bytes).is_err(), "{place}");
    }
    let mut bytes = stored(DNS);
    bytes[3] = 0;
    assert!(Lines::read(&bytes).is_err());
    assert!(Lines::read(&[b'0'; REPLY_LEN]).is_err());
}

#[test]
fn a_line_has_one_form() {
    for bad in [
        "\n", "0-0\n", "0-0 17-17 0-0 192.0.2.53-192.0.2.53 53-53 0-65535",
        "0 17-17 0-0 192.0.2.53-192.0.2.53 53-53 0-65535\n",
        "00-0 17-17 0-0 192.0.2.53-192.0.2.53 53-53 0-65535\n",
        "0-0 017-17 0-0 192.0.2.53-192.0.2.53 53-53 0-65535\n",
        "0-0 17-17 0-0 192.0.2.53-192.0.02.53 53-53 0-65535\n",
        "0-0 17-17 0-0 192.0.2.53-192.0.2 53-53 0-65535\n",
        "0-0 17-17 0-0 192.0.2.53-192.0.2.256 53-53 0-65535\n",
        "0-0 17-17 0-0 192.0.2.53-192.0.2.53 53-53 0-65536\n",
        "0-0 17-17 0-0 192.0.2.53-192.0.2.53 54-53 0-65535\n",
        "0-0 17-17 0-0 192.0.2.53-192.0.2.52 53-53 0-65535\n",
        "0-0 17-17 0-0 192.0.2.53-192.0.2.53 53-53 0-65535 \n",
        "0-0 17-17 0-0 192.0.2.53-192.0.2.53 53-53\n",
        "0-0 17-17 0-0 192.0.2.53-192.0.2.53 53-53 0-65535\r\n",
        "0-0  17-17 0-0 192.0.2.53-192.0.2.53 53-53 0-65535\n",
        "0-0 17-17 0-0 192.0.2.53-192.0.2.53 53-53 0-65535 0-0\n",
        "0-0 17-17 0-0 192.0.2.53-192.0.2.53 53-53 0-4294967295\n",
        "0-0 17-17 0-0 192.0.2.53-192.0.2.53 53-53 0-+1\n",
    ] {
        assert!(!is_table(bad), "{bad:?}");
        assert!(!is_table(&format!("{DNS}{bad}")), "{bad:?}");
    }
    // Blanks in place of tabs.
    let mut bytes = DNS.as_bytes().to_vec();
    bytes.resize(REPLY_LEN, 0);
    assert!(Lines::read(&bytes).is_err());
}

#[test]
fn lines_cover_only_flows() {
    for good in [
        "0-1 6-6 0-1 0.0.0.0-255.255.255.255 0-65535 0-65535\n", "0-0 6-6 1-1 1.2.3.4-1.2.3.4 7-7 9-9\n",
        "0-0 5-7 0-0 1.2.3.4-1.2.3.4 0-0 0-0\n", "0-0 0-255 0-0 1.2.3.4-1.2.3.4 0-0 0-0\n",
        "1-1 255-255 0-0 1.2.3.4-1.2.3.4 0-0 0-0\n",
    ] {
        assert!(is_table(good), "{good}");
    }
    for bad in [
        "0-2 6-6 0-0 1.2.3.4-1.2.3.4 0-0 0-0\n", "2-2 6-6 0-0 1.2.3.4-1.2.3.4 0-0 0-0\n",
        "0-0 0-256 0-0 1.2.3.4-1.2.3.4 0-0 0-0\n", "0-0 6-6 0-2 1.2.3.4-1.2.3.4 0-0 0-0\n",
        "0-0 17-17 0-1 1.2.3.4-1.2.3.4 0-0 0-0\n", "0-0 17-17 1-1 1.2.3.4-1.2.3.4 0-0 0-0\n",
        "0-0 5-6 0-0 1.2.3.4-1.2.3.4 0-1 0-0\n", "0-0 5-6 0-1 1.2.3.4-1.2.3.4 0-0 0-0\n",
        "0-0 1-1 0-0 1.2.3.4-1.2.3.4 0-0 0-1\n", "0-0 1-1 0-0 1.2.3.4-1.2.3.4 1-1 0-0\n",
        "0-0 6-17 0-0 1.2.3.4-1.2.3.4 0-0 5-5\n",
    ] {
        assert!(!is_table(bad), "{bad}");
    }
}

/// TCP lines with these addresses (last byte) and remote ports.
fn tcp(lines: &[(&str, &str)]) -> String {
    lines
        .iter()
        .map(|(address, remote)| {
            let (low, high) = address.split_once('-').unwrap();
            format!("0-0 6-6 0-1 10.0.0.{low}-10.0.0.{high} {remote} 0-65535\n")
        })
        .collect()
}

#[test]
fn runs_rise_and_are_the_longest() {
    for good in [
        &[("0-1", "80-80"), ("2-2", "80-81"), ("3-3", "80-80")][..],
        &[("0-0", "80-80"), ("2-2", "80-80")],
        &[("0-0", "80-80"), ("0-0", "82-82")],
        &[("0-0", "80-80"), ("1-1", "81-81")],
        &[("0-0", "1-1"), ("0-0", "3-3"), ("1-1", "1-1"), ("2-2", "1-1"), ("2-2", "3-3")],
    ] {
        assert!(is_table(&tcp(good)), "{good:?}");
    }
    for bad in [
        &[("0-1", "80-80"), ("3-3", "80-80"), ("2-2", "80-81")][..],
        &[("0-0", "80-80"), ("1-1", "80-80")],
        &[("0-0", "80-80"), ("0-0", "81-81")],
        &[("0-0", "80-80"), ("0-0", "80-80")],
        &[("0-0", "81-81"), ("0-0", "79-79")],
        &[("0-1", "80-80"), ("1-1", "90-90")],
        &[("0-0", "80-80"), ("0-1", "90-90")],
        &[("0-3", "80-80"), ("2-2", "81-81")],
        &[("0-0", "1-1"), ("0-0", "3-3"), ("1-1", "1-1"), ("1-1", "3-3")],
        &[("0-0", "1-1"), ("2-2", "1-1"), ("0-0", "3-3")],
    ] {
        assert!(!is_table(&tcp(bad)), "{bad:?}");
    }
}

#[test]
fn directions_and_protocols_are_joined_too() {
    let line = "1-1 0-0 1.2.3.4-1.2.3.4 0-0 0-0\n";
    assert!(is_table(&format!("0-1 {line}")));
    assert!(!is_table(&format!("0-0 {line}1-1 {line}")));
    assert!(is_table("0-0 5-7 0-0 1.2.3.4-1.2.3.4 0-0 0-0\n"));
    assert!(!is_table("0-0 5-5 0-0 1.2.3.4-1.2.3.4 0-0 0-0\n0-0 6-6 0-0 1.2.3.4-1.2.3.4 0-0 0-0\n"));
    assert!(!is_table("0-0 6-6 0-0 1.2.3.4-1.2.3.4 0-0 0-0\n0-0 6-6 1-1 1.2.3.4-1.2.3.4 0-0 0-0\n"));
}

#[test]
fn a_table_has_at_most_512_lines() {
    let lines = |count: u32| -> String {
        (0..count).map(|n| format!("0-0 6-6 0-0 1.2.3.4-1.2.3.4 {}-{} 0-0\n", 2 * n, 2 * n)).collect()
    };
    assert!(is_table(&lines(512)));
    assert!(!is_table(&lines(513)));
}

#[test]
fn number_13_comes_before_14() {
    let no_flow = flow([2, 1, 2, 0, 1, 1]);
    assert_eq!(verdict(&stored("x"), no_flow), 13);
    assert_eq!(verdict(&[0; 3], no_flow), 13);
    assert_eq!(verdict(&stored(""), no_flow), 14);
}

#[test]
fn number_14_is_for_what_is_not_a_flow() {
    let of = |numbers| verdict(&stored(""), flow(numbers));
    for good in [
        [0, 0, 0, 0, 0, 0],
        [1, 255, 0, u32::MAX, 0, 0],
        [0, 6, 1, 0, 65_535, 65_535],
        [0, 17, 0, 0, 65_535, 65_535],
    ] {
        assert_eq!(of(good), 0, "{good:?}");
    }
    for bad in [
        [2, 6, 0, 0, 0, 0],
        [255, 6, 0, 0, 0, 0],
        [0, 6, 2, 0, 0, 0],
        [0, 6, 255, 0, 0, 0],
        [0, 17, 1, 0, 0, 0],
        [0, 5, 1, 0, 0, 0],
        [0, 5, 0, 0, 1, 0],
        [0, 7, 0, 0, 0, 1],
        [0, 16, 0, 0, 1, 0],
        [0, 18, 0, 0, 0, 1],
    ] {
        assert_eq!(of(bad), 14, "{bad:?}");
    }
}

#[test]
fn verdicts_are_those_of_the_lines() {
    let bytes = stored(&tcp(&[("0-1", "80-80"), ("2-2", "80-81"), ("3-3", "80-80")]));
    let of = |last: u32, remote: u32| verdict(&bytes, flow([0, 6, 1, 0x0A00_0000 + last, remote, 5]));
    assert_eq!(of(0, 80), 1);
    assert_eq!(of(1, 81), 0);
    assert_eq!(of(2, 81), 1);
    assert_eq!(of(2, 82), 0);
    assert_eq!(of(3, 80), 1);
    assert_eq!(of(4, 80), 0);
    assert_eq!(verdict(&bytes, flow([1, 6, 1, 0x0A00_0000, 80, 5])), 0);
    assert_eq!(verdict(&bytes, flow([0, 17, 0, 0x0A00_0000, 80, 5])), 0);
}

/// The table of the union of the boxes that lines are, built anew.
fn rebuilt(lines: &[[Range; 6]]) -> String {
    let cells = [0, 1, 2, 3, 4, 5].map(|dimension| cells(lines, dimension));
    let table = Table::of(&cells, u128::MAX).unwrap();
    let mut reply = vec![0; REPLY_LEN];
    table.write(&mut reply);
    let end = reply.iter().position(|&byte| byte == 0).unwrap();
    String::from_utf8(reply[..end].to_vec()).unwrap()
}

fn cells(lines: &[[Range; 6]], dimension: usize) -> Vec<Cell> {
    let highest = HIGHEST[dimension];
    let mut starts = vec![0];
    for line in lines {
        starts.extend([Some(line[dimension].low), line[dimension].high.checked_add(1)].into_iter().flatten());
    }
    starts.sort_unstable();
    starts.dedup();
    starts.retain(|&start| start <= highest);
    let live =
        |value| (0..lines.len()).filter(|&n| lines[n][dimension].holds(value)).fold(0, |set, n| set | 1 << n);
    (0..starts.len())
        .map(|n| {
            let high = starts.get(n + 1).map_or(highest, |next| next - 1);
            Cell { values: Range::new(starts[n], high), live: live(starts[n]) }
        })
        .collect()
}

fn text_of(line: &[Range; 6]) -> String {
    let parts: Vec<String> = line
        .iter()
        .enumerate()
        .map(|(dimension, range)| {
            if dimension == 3 {
                format!("{}-{}", std::net::Ipv4Addr::from(range.low), std::net::Ipv4Addr::from(range.high))
            } else {
                format!("{}-{}", range.low, range.high)
            }
        })
        .collect();
    parts.join("\t") + "\n"
}

/// Lines of few values, so that many of them touch, overlap or are alike.
fn random_line(numbers: &mut Numbers) -> [Range; 6] {
    let mut range = |values: &[u32]| {
        let (a, b) = (numbers.one(values), numbers.one(values));
        Range::new(a.min(b), a.max(b))
    };
    let mut line = [
        range(&[0, 0, 1]),
        range(&[5, 6, 6, 6, 7, 17, 17]),
        range(&[0, 0, 1]),
        range(&[0, 1, u32::MAX]),
        range(&[0, 1, 2]),
        range(&[0, 65_535]),
    ];
    let transport = line[1] == Range::only(6) || line[1] == Range::only(17);
    if line[1] != Range::only(6) {
        line[2] = Range::only(0);
    }
    if !transport {
        (line[4], line[5]) = (Range::only(0), Range::only(0));
    }
    line
}

#[test]
fn lines_are_a_table_just_when_building_it_again_gives_them() {
    let mut numbers = Numbers(2);
    let mut tables = 0;
    for _ in 0..40_000 {
        let count = numbers.below(5) as usize;
        let mut lines: Vec<_> = (0..count).map(|_| random_line(&mut numbers)).collect();
        if numbers.below(3) > 0 {
            lines.sort_by_key(|line| line.map(|range| (range.low, range.high)));
        }
        let text: String = lines.iter().map(text_of).collect();
        let is_its_own_table = rebuilt(&lines) == text;
        assert_eq!(is_table(&text), is_its_own_table, "{text}");
        tables += usize::from(is_its_own_table);
        // And the table of any union is one.
        assert!(is_table(&rebuilt(&lines)), "{text}");
    }
    assert!(tables > 4_000, "{tables}");
}
