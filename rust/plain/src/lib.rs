//! The builder and the reader of stored tables, a second time, in plain Rust.
//!
//! This crate shares no code and no design with the verified library. Both were written from the
//! same rules, so where the two agree on many inputs, a slip would have to have been made twice.
//! It is also the other side of the benchmark.
//!
//! The way of a build:
//!
//! 1. [`site`] reads the site table (numbers 2 and 3),
//! 2. [`json`] makes a tree of the file (4, 5 and 6),
//! 3. [`mud`] judges the header and finds the entries to be read (7, 8 and 11),
//! 4. [`entry`] turns each of them into a rule (9 and 10),
//! 5. [`rules`] cuts every dimension into cells in which the same rules hold,
//! 6. [`table`] builds the table of the accepted flows, straight from its definition (12).
//!
//! [`stored`] reads such a table again and gives a flow's verdict (13 and 14).
#![forbid(unsafe_code)]
#![warn(missing_docs)]

pub mod entry;
pub mod flow;
pub mod json;
pub mod mud;
pub mod network;
pub mod rules;
pub mod site;
pub mod stored;
pub mod table;
pub mod url;

pub use flow::{DevicePort, Flow, RemotePort};

/// The one length of a reply buffer and of a stored table, in bytes: 512 times 72.
pub const REPLY_LEN: usize = 36_864;
/// The most lines that a table may have.
pub const MOST_LINES: usize = 512;
/// The most entries that may be read, both directions together.
pub const MOST_ENTRIES: usize = 64;
/// The longest file that is read, in bytes.
pub const LONGEST_FILE: usize = 32_768;

/// Why no table was built. The numbers are those of the answer.
#[derive(Clone, Copy, Debug, PartialEq, Eq, PartialOrd, Ord)]
#[repr(u8)]
pub enum Refusal {
    /// The reply buffer or the work buffer has another size than the fixed one.
    Buffers = 1,
    /// The site table has more than 8,192 bytes or 64 LF.
    SiteTooLong = 2,
    /// The site table is malformed.
    SiteMalformed = 3,
    /// The file has more than 32,768 bytes.
    FileTooLong = 4,
    /// The file is not UTF-8, or not JSON nested at most 16 deep.
    NotJson = 5,
    /// A member name is repeated, or a surrogate escape stands alone.
    RepeatedOrLone = 6,
    /// The outermost value or a member of the header.
    Header = 7,
    /// Policies, lists, types or names.
    Lists = 8,
    /// A member that is not listed, in the matches of an entry that is read.
    Unlisted = 9,
    /// Any other breach in the matches or actions of an entry that is read.
    Entry = 10,
    /// More than 64 entries are read.
    TooManyEntries = 11,
    /// The table has more than 512 lines.
    TooManyLines = 12,
}

/// Builds the table of `file` under `site` into `reply`, and gives the answer's number and the
/// number of lines.
///
/// On a refusal the count is 0 and every byte of `reply` is zero, whatever its length.
/// `work_is_right` stands for the lent work buffer of the other implementation, which this one
/// does not need: whether it has its fixed size.
pub fn build(file: &[u8], site: &[u8], reply: &mut [u8], work_is_right: bool) -> (u8, usize) {
    reply.fill(0);
    match try_build(file, site, reply, work_is_right) {
        Ok(lines) => (0, lines),
        Err(refusal) => (refusal as u8, 0),
    }
}

/// The steps of a build, each judged only when none before it refused. Writes nothing to `reply`
/// unless the table fits.
fn try_build(file: &[u8], site: &[u8], reply: &mut [u8], work_is_right: bool) -> Result<usize, Refusal> {
    if reply.len() != REPLY_LEN || !work_is_right {
        return Err(Refusal::Buffers);
    }
    let rules = read_rules(file, site)?;
    let table = table::Table::of(&rules.cells(), rules.accepting())
        .map_err(|table::TooLong| Refusal::TooManyLines)?;
    table.write(reply);
    Ok(table.lines())
}

/// The rules that `file` and `site` stand for, in the order in which they are tried.
pub fn read_rules<'s>(file: &[u8], site: &'s [u8]) -> Result<rules::Rules<'s>, Refusal> {
    let site = site::Site::parse(site)?;
    if file.len() > LONGEST_FILE {
        return Err(Refusal::FileTooLong);
    }
    let tree = json::Tree::parse(file).map_err(|fault| match fault {
        json::Fault::NotJson => Refusal::NotJson,
        json::Fault::RepeatedOrLone => Refusal::RepeatedOrLone,
    })?;
    mud::rules(tree.root(), site)
}

/// The verdict of a stored table on a flow: 0 drop, 1 accept, 13 the bytes are not a table,
/// 14 the six numbers are not a flow.
pub fn verdict(stored: &[u8], flow: Flow) -> u8 {
    match stored::Lines::read(stored) {
        Err(stored::NotATable) => 13,
        Ok(_) if !flow.is_flow() => 14,
        Ok(lines) => lines.hold(flow) as u8,
    }
}
