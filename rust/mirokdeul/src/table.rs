//! Tables, built or stored.

use std::fmt;

use crate::answer::{NoVerdict, Refusal, Verdict};
use crate::flow::Flow;
use crate::{build_into, verdict, REPLY_LEN, WORK_LEN};

/// Builds the table of a MUD file at a site.
///
/// This lends the library a reply and a work buffer of its own. Where many tables are built, or
/// memory must not be allocated, lend them with [`build_into`].
///
/// ```
/// let site = b"class\turn:ietf:params:mud:dns\t192.0.2.53\n";
/// let file = br#"{"ietf-mud:mud": {"mud-version": 1, "mud-url": "https://a.example/x",
///                  "last-update": "", "is-supported": true}}"#;
/// let table = mirokdeul::build(file, site)?;
/// assert_eq!(table.count(), 1);
/// assert_eq!(table.lines().next(), Some("0-1\t17-17\t0-0\t192.0.2.53-192.0.2.53\t53-53\t0-65535"));
/// # Ok::<(), mirokdeul::Refusal>(())
/// ```
///
/// A refusal says which number it has:
///
/// ```
/// use mirokdeul::Refusal;
/// assert_eq!(mirokdeul::build(b"", b"").unwrap_err(), Refusal::NotJson);
/// assert_eq!(mirokdeul::build(b"7", b"").unwrap_err().number(), 7);
/// ```
pub fn build(file: &[u8], site: &[u8]) -> Result<Table, Refusal> {
    let mut reply = vec![0; REPLY_LEN];
    let mut work = vec![0; WORK_LEN];
    let count = build_into(file, site, &mut reply, &mut work).result()?;
    Ok(Table { bytes: reply, count })
}

/// A table that the library built: its lines, then zeros, 36,864 bytes in all.
#[derive(Clone, PartialEq, Eq)]
pub struct Table {
    bytes: Vec<u8>,
    count: usize,
}

impl Table {
    /// All 36,864 bytes, to be stored.
    pub fn as_bytes(&self) -> &[u8] {
        &self.bytes
    }

    /// The number of lines.
    pub fn count(&self) -> usize {
        self.count
    }

    /// The text of the lines, without the zeros behind them.
    pub fn text(&self) -> &str {
        let end = self.bytes.iter().position(|&byte| byte == 0).unwrap_or(self.bytes.len());
        std::str::from_utf8(&self.bytes[..end]).expect("a table's lines are ASCII")
    }

    /// The lines in their order, without their LF.
    pub fn lines(&self) -> impl Iterator<Item = &str> {
        self.text().lines()
    }

    /// Whether a flow is accepted.
    ///
    /// ```
    /// use mirokdeul::{DevicePort, Flow, NoVerdict, RemotePort, Verdict};
    /// let site = b"class\turn:ietf:params:mud:dns\t192.0.2.53\n";
    /// let file = br#"{"ietf-mud:mud": {"mud-version": 1, "mud-url": "https://a.example/x",
    ///                  "last-update": "", "is-supported": true}}"#;
    /// let table = mirokdeul::build(file, site).unwrap();
    ///
    /// let ask = Flow::udp_from_device([192, 0, 2, 53].into(), RemotePort(53), DevicePort(4000));
    /// assert_eq!(table.verdict(&ask), Ok(Verdict::Accept));
    /// assert_eq!(table.verdict(&ask.answered()), Ok(Verdict::Accept));
    /// assert_eq!(table.verdict(&Flow { remote: RemotePort(54), ..ask }), Ok(Verdict::Drop));
    /// assert_eq!(table.verdict(&Flow { protocol: 1, ..ask }), Err(NoVerdict::NotAFlow));
    /// ```
    pub fn verdict(&self, flow: &Flow) -> Result<Verdict, NoVerdict> {
        verdict(&self.bytes, flow)
    }
}

impl fmt::Debug for Table {
    fn fmt(&self, f: &mut fmt::Formatter<'_>) -> fmt::Result {
        f.debug_list().entries(self.lines()).finish()
    }
}
