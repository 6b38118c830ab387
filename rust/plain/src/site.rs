//! The site table: which networks a name stands for at this site.

use crate::flow::Range;
use crate::network::{network, Length};
use crate::url::{authority, is_visible, LONGEST_NAME};
use crate::Refusal;

/// The longest site table, in bytes.
pub const LONGEST_SITE: usize = 8_192;
/// The most lines of a site table, counted by their LF.
pub const MOST_LINES: usize = 64;

/// What a line's name is.
#[derive(Clone, Copy, Debug, PartialEq, Eq)]
pub enum Kind {
    /// A DNS name.
    Host,
    /// A controller's URI.
    Class,
    /// The MUD URL of the devices whose own controller this is.
    Mine,
    /// A local network, whose name is always `-`.
    Local,
    /// The MUD URL of another device.
    Thing,
}

/// A line of the site table.
#[derive(Clone, Copy, Debug)]
pub struct Line<'s> {
    kind: Kind,
    name: &'s [u8],
    /// The addresses that the name stands for.
    pub network: Range,
}

/// Some lines of a site table: bit `i` is set for line `i`. There are never more than 64.
#[derive(Clone, Copy, Debug, PartialEq, Eq)]
pub struct LineSet(pub u64);

/// A well-formed site table.
#[derive(Clone, Debug, Default)]
pub struct Site<'s> {
    lines: Vec<Line<'s>>,
}

impl<'s> Site<'s> {
    /// Reads a site table, or refuses it.
    pub fn parse(text: &'s [u8]) -> Result<Site<'s>, Refusal> {
        let line_ends = text.iter().filter(|&&byte| byte == b'\n').count();
        if text.len() > LONGEST_SITE || line_ends > MOST_LINES {
            return Err(Refusal::SiteTooLong);
        }
        // Each line ends in LF, so what follows the last LF must be nothing at all.
        let mut lines = Vec::with_capacity(line_ends);
        let mut rest = text;
        while !rest.is_empty() {
            let end = rest.iter().position(|&byte| byte == b'\n').ok_or(Refusal::SiteMalformed)?;
            lines.push(line(&rest[..end]).ok_or(Refusal::SiteMalformed)?);
            rest = &rest[end + 1..];
        }
        Ok(Site { lines })
    }

    /// The lines in their order.
    pub fn lines(&self) -> &[Line<'s>] {
        &self.lines
    }

    /// The lines of `kind` whose name is `name`, byte for byte.
    pub fn named(&self, kind: Kind, name: &[u8]) -> LineSet {
        self.where_line(|line| line.kind == kind && line.name == name)
    }

    /// The lines of things whose authority is `maker`, byte for byte.
    pub fn things_of(&self, maker: &[u8]) -> LineSet {
        self.where_line(|line| line.kind == Kind::Thing && authority(line.name) == Some(maker))
    }

    fn where_line(&self, wanted: impl Fn(&Line) -> bool) -> LineSet {
        let mut set = 0;
        for (number, line) in self.lines.iter().enumerate() {
            if wanted(line) {
                set |= 1 << number;
            }
        }
        LineSet(set)
    }
}

/// Reads one line, without its LF: kind, tab, name, tab, network.
fn line(text: &[u8]) -> Option<Line<'_>> {
    // A tab can stand in no field, so more or fewer than three fields are malformed.
    let mut fields = text.split(|&byte| byte == b'\t');
    let kind = kind(fields.next()?)?;
    let name = fields.next()?;
    let network = network(fields.next()?, Length::Optional)?;
    if fields.next().is_some() || !is_name(name) || !suits(kind, name) {
        return None;
    }
    Some(Line { kind, name, network })
}

fn kind(text: &[u8]) -> Option<Kind> {
    match text {
        b"host" => Some(Kind::Host),
        b"class" => Some(Kind::Class),
        b"mine" => Some(Kind::Mine),
        b"local" => Some(Kind::Local),
        b"thing" => Some(Kind::Thing),
        _ => None,
    }
}

fn is_name(name: &[u8]) -> bool {
    (1..=LONGEST_NAME).contains(&name.len()) && name.iter().all(|&byte| is_visible(byte))
}

/// Whether a name suits its kind. DNS names and controller URIs have no syntax of their own here.
fn suits(kind: Kind, name: &[u8]) -> bool {
    match kind {
        Kind::Host | Kind::Class => true,
        Kind::Mine | Kind::Thing => authority(name).is_some(),
        Kind::Local => name == b"-",
    }
}

#[cfg(test)]
mod tests {
    use super::*;

    fn refusal(text: impl AsRef<[u8]>) -> Option<Refusal> {
        Site::parse(text.as_ref()).err()
    }

    fn malformed(text: impl AsRef<[u8]>) -> bool {
        refusal(text) == Some(Refusal::SiteMalformed)
    }

    #[test]
    fn a_table_may_be_empty() {
        assert_eq!(refusal(""), None);
    }

    #[test]
    fn every_kind_is_read() {
        for good in [
            "host\tcloud.example.com\t198.51.100.8/31\n", "class\turn:ietf:params:mud:dns\t192.0.2.53\n",
            "mine\thttps://a.example/x\t10.0.0.1\n", "local\t-\t192.168.0.0/16\n",
            "thing\thttps://a.example/x\t10.0.0.2\n", "host\t..\t0.0.0.0\n", "host\t/\"-\t0.0.0.0\n",
            "class\t-\t0.0.0.0/0\nclass\t-\t0.0.0.0/0\n",
        ] {
            assert_eq!(refusal(good), None, "{good:?}");
        }
    }

    #[test]
    fn broken_lines_are_malformed() {
        for bad in [
            "\n", "host\ta\t1.2.3.4", "host\ta\t1.2.3.4\r\n", "host\ta\t1.2.3.4\n\n", "host\ta\t1.2.3.4\nx",
            "Host\ta\t1.2.3.4\n", "hosts\ta\t1.2.3.4\n", "host a\t1.2.3.4\n", "host\ta\n", "host\ta\t\n",
            "host\t\t1.2.3.4\n", "host\ta\t1.2.3.4\t\n", "host\ta\t\t1.2.3.4\n", "host\ta b\t1.2.3.4\n",
            "host\ta\u{7f}\t1.2.3.4\n", "host\t\u{e9}\t1.2.3.4\n", "host\ta\t1.2.3.4/33\n",
            "host\ta\t01.2.3.4\n", "host\ta\t 1.2.3.4\n", "local\tx\t1.2.3.4\n", "local\t--\t1.2.3.4\n",
            "mine\ta.example\t1.2.3.4\n", "thing\thttp://a.example\t1.2.3.4\n",
            "thing\thttps:///x\t1.2.3.4\n",
        ] {
            assert!(malformed(bad), "{bad:?}");
        }
    }

    #[test]
    fn names_have_1_to_255_bytes() {
        let with_name = |length: usize| format!("host\t{}\t1.2.3.4\n", "a".repeat(length));
        assert_eq!(refusal(with_name(255)), None);
        assert!(malformed(with_name(256)));
        assert_eq!(refusal("host\t!~\t1.2.3.4\n"), None);
    }

    #[test]
    fn the_limits_of_length_come_before_the_form() {
        let line = "host\ta\t1.2.3.4\n";
        assert_eq!(refusal(line.repeat(64)), None);
        assert_eq!(refusal(line.repeat(65)), Some(Refusal::SiteTooLong));
        assert!(malformed(line.repeat(64) + "x"));
        assert!(malformed("\n".repeat(64)));
        assert_eq!(refusal("\n".repeat(65)), Some(Refusal::SiteTooLong));
        assert!(malformed("x".repeat(8_192)));
        assert_eq!(refusal("x".repeat(8_193)), Some(Refusal::SiteTooLong));
    }

    #[test]
    fn a_table_of_8192_bytes_is_read() {
        // 32 lines of 256 bytes each.
        let line = format!("host\t{}\t1.2.3.4\n", "a".repeat(256 - 14));
        assert_eq!(line.len(), 256);
        assert_eq!(refusal(line.repeat(32)), None);
    }

    #[test]
    fn names_are_compared_byte_for_byte() {
        let site = Site::parse(b"host\ta\t1.0.0.0\nclass\ta\t2.0.0.0\nhost\tA\t3.0.0.0\nhost\ta\t4.0.0.0\n")
            .unwrap();
        assert_eq!(site.named(Kind::Host, b"a"), LineSet(0b1001));
        assert_eq!(site.named(Kind::Class, b"a"), LineSet(0b0010));
        assert_eq!(site.named(Kind::Host, b"b"), LineSet(0));
    }

    #[test]
    fn makers_are_whole_authorities() {
        let text = b"thing\thttps://a.example/1\t1.0.0.0\nthing\thttps://u@a.example/1\t1.0.0.0\nthing\thttps://a.example?2\t1.0.0.0\nmine\thttps://a.example/1\t1.0.0.0\n";
        let site = Site::parse(text).unwrap();
        assert_eq!(site.things_of(b"a.example"), LineSet(0b0101));
        assert_eq!(site.things_of(b"u@a.example"), LineSet(0b0010));
        assert_eq!(site.things_of(b"a.exampl"), LineSet(0));
        assert_eq!(site.things_of(b""), LineSet(0));
    }
}
