//! The verified library's builder and writer by themselves: from rules in a work buffer to lines, and
//! to a reply. For measuring only; `crates/measured` has the functions and what they promise.
#![warn(missing_docs)]

/// The words of a work buffer.
pub const WORK_LEN: usize = 16_290;
/// The bytes of a reply.
pub const REPLY_LEN: usize = 36_864;
/// The most rules that a work buffer has room for.
pub const MOST_RULES: usize = 66;
/// The site networks stand at the front of a work buffer; there are at most this many.
pub const MOST_NETWORKS: usize = 64;
/// Where the rules begin in a work buffer, in words.
pub const RULES_AT: usize = 169;
/// The words of a rule.
pub const RULE_LEN: usize = 21;

/// The number of lines of the table of the `rules` rules in `work`; 513 for more than 512, and 1,000,000
/// where a size is wrong.
pub fn lines(work: &mut [u64], rules: usize) -> usize {
    // SAFETY: the pointer is not null and goes with the length of its slice, which is borrowed for
    // as long as the call lasts.
    unsafe { foreign::measured_lines(work.as_mut_ptr(), work.len(), rules) }
}

/// The same, and writes the lines to `reply` unless they are too many or a size is wrong.
pub fn reply(work: &mut [u64], rules: usize, reply: &mut [u8]) -> usize {
    // SAFETY: each pointer is not null and goes with the length of its slice; the borrows keep the
    // two apart and alive for as long as the call lasts.
    unsafe { foreign::measured_reply(work.as_mut_ptr(), work.len(), rules, reply.as_mut_ptr(), reply.len()) }
}

mod foreign {
    extern "C" {
        pub fn measured_lines(work: *mut u64, work_len: usize, rules: usize) -> usize;

        pub fn measured_reply(
            work: *mut u64,
            work_len: usize,
            rules: usize,
            reply: *mut u8,
            reply_len: usize,
        ) -> usize;
    }
}
