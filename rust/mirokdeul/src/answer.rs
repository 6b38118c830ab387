//! Answers by their numbers.

use std::fmt;

/// Why no table was built: numbers 1 to 12. Each is given only when no lower one holds.
#[derive(Clone, Copy, Debug, PartialEq, Eq, PartialOrd, Ord, Hash)]
#[repr(u8)]
pub enum Refusal {
    /// The reply buffer or the work buffer has not its fixed size.
    Buffers = 1,
    /// The site table has more than 8,192 bytes or more than 64 LF.
    SiteTooLong = 2,
    /// The site table is malformed.
    SiteMalformed = 3,
    /// The file has more than 32,768 bytes.
    FileTooLong = 4,
    /// The file is not well-formed UTF-8, or not JSON nested at most 16 deep.
    NotJson = 5,
    /// An object has two members of one name, or a surrogate escape has no partner.
    RepeatedOrLone = 6,
    /// The outermost value or a member of the header is wrong.
    Header = 7,
    /// A policy, a list, its type or a name is wrong.
    Lists = 8,
    /// An entry has a match member that the rules do not list.
    Unlisted = 9,
    /// An entry's matches or actions are wrong in another way.
    Entry = 10,
    /// More than 64 entries are read.
    TooManyEntries = 11,
    /// The table would have more than 512 lines.
    TooManyLines = 12,
}

impl Refusal {
    /// All refusals, by rising number.
    pub const ALL: [Refusal; 12] = [
        Refusal::Buffers,
        Refusal::SiteTooLong,
        Refusal::SiteMalformed,
        Refusal::FileTooLong,
        Refusal::NotJson,
        Refusal::RepeatedOrLone,
        Refusal::Header,
        Refusal::Lists,
        Refusal::Unlisted,
        Refusal::Entry,
        Refusal::TooManyEntries,
        Refusal::TooManyLines,
    ];

    /// The answer's number, 1 to 12.
    pub fn number(self) -> u8 {
        self as u8
    }
}

impl fmt::Display for Refusal {
    fn fmt(&self, f: &mut fmt::Formatter<'_>) -> fmt::Result {
        f.write_str(match self {
            Refusal::Buffers => "a buffer has not its fixed size",
            Refusal::SiteTooLong => "the site table is too long",
            Refusal::SiteMalformed => "the site table is malformed",
            Refusal::FileTooLong => "the file is too long",
            Refusal::NotJson => "the file is not JSON nested at most 16 deep",
            Refusal::RepeatedOrLone => "the file has a repeated member name or a lone surrogate",
            Refusal::Header => "the file's header is wrong",
            Refusal::Lists => "a policy, list, type or name is wrong",
            Refusal::Unlisted => "an entry has a match member that is not listed",
            Refusal::Entry => "an entry's matches or actions are wrong",
            Refusal::TooManyEntries => "more than 64 entries are read",
            Refusal::TooManyLines => "the table would have more than 512 lines",
        })
    }
}

impl std::error::Error for Refusal {}

/// The answer to a build.
#[derive(Clone, Copy, Debug, PartialEq, Eq, Hash)]
pub enum Answer {
    /// Number 0: the table was written, and has this many lines.
    Taken(usize),
    /// Numbers 1 to 12: nothing was built and the reply is all zeros.
    Refused(Refusal),
}

impl Answer {
    /// The answer that the library gives as a number and a count.
    ///
    /// # Panics
    ///
    /// If the number is none of a build's, which the library's promise rules out.
    pub(crate) fn from_parts(number: u8, count: usize) -> Answer {
        match number {
            0 => Answer::Taken(count),
            1..=12 => Answer::Refused(Refusal::ALL[usize::from(number) - 1]),
            _ => panic!("no build answers {number}"),
        }
    }

    /// The answer's number, 0 to 12.
    pub fn number(self) -> u8 {
        match self {
            Answer::Taken(_) => 0,
            Answer::Refused(refusal) => refusal.number(),
        }
    }

    /// The number of lines, which is 0 for a refusal.
    pub fn count(self) -> usize {
        match self {
            Answer::Taken(count) => count,
            Answer::Refused(_) => 0,
        }
    }

    /// The number of lines, or the refusal.
    pub fn result(self) -> Result<usize, Refusal> {
        match self {
            Answer::Taken(count) => Ok(count),
            Answer::Refused(refusal) => Err(refusal),
        }
    }
}

/// What a table says about a flow.
#[derive(Clone, Copy, Debug, PartialEq, Eq, Hash)]
#[repr(u8)]
pub enum Verdict {
    /// The flow is not in the table.
    Drop = 0,
    /// The flow is in the table.
    Accept = 1,
}

/// Why there is no verdict.
#[derive(Clone, Copy, Debug, PartialEq, Eq, Hash)]
#[repr(u8)]
pub enum NoVerdict {
    /// The stored bytes are not a table.
    NotATable = 13,
    /// The six numbers are not a flow.
    NotAFlow = 14,
}

impl NoVerdict {
    /// The answer's number, 13 or 14.
    pub fn number(self) -> u8 {
        self as u8
    }
}

impl fmt::Display for NoVerdict {
    fn fmt(&self, f: &mut fmt::Formatter<'_>) -> fmt::Result {
        f.write_str(match self {
            NoVerdict::NotATable => "the stored bytes are not a table",
            NoVerdict::NotAFlow => "the six numbers are not a flow",
        })
    }
}

impl std::error::Error for NoVerdict {}

/// The verdict that the library gives as a number.
pub(crate) fn verdict_from_number(number: u8) -> Result<Verdict, NoVerdict> {
    match number {
        0 => Ok(Verdict::Drop),
        1 => Ok(Verdict::Accept),
        13 => Err(NoVerdict::NotATable),
        14 => Err(NoVerdict::NotAFlow),
        _ => panic!("no verdict is {number}"),
    }
}
