//! A MUD file (RFC 8520) and a site table, made into a canonical packet filter table.
//!
//! This crate is a safe wrapper over the C interface of the verified library, described in
//! `include/mirokdeul.h`. It adds types and ownership, and no rules of its own.
//!
//! * [`build`] gives a [`Table`], or the [`Refusal`] with its number.
//! * [`Table::verdict`] says whether a [`Flow`] is accepted; [`verdict`] does so for stored bytes.
//! * [`build_into`] builds into lent buffers and allocates nothing.
//!
//! ```
//! use mirokdeul::{DevicePort, Flow, RemotePort, Verdict};
//!
//! let site = b"host\tcloud.example.com\t198.51.100.8/31\n";
//! let file = br#"{
//!   "ietf-mud:mud": {
//!     "mud-version": 1, "mud-url": "https://lighting.example.com/bulb", "last-update": "", "is-supported": true,
//!     "from-device-policy": {"access-lists": {"access-list": [{"name": "out"}]}}
//!   },
//!   "ietf-access-control-list:acls": {"acl": [{
//!     "name": "out", "type": "ipv4-acl-type",
//!     "aces": {"ace": [{
//!       "name": "cloud",
//!       "matches": {
//!         "ipv4": {"ietf-acldns:dst-dnsname": "cloud.example.com", "protocol": 6},
//!         "tcp": {"ietf-mud:direction-initiated": "from-device", "destination-port": {"port": 443}}
//!       },
//!       "actions": {"forwarding": "accept"}
//!     }]}
//!   }]}
//! }"#;
//!
//! let table = mirokdeul::build(file, site)?;
//! assert_eq!(table.text(), "0-0\t6-6\t0-0\t198.51.100.8-198.51.100.9\t443-443\t0-65535\n");
//!
//! let flow = Flow::tcp_from_device([198, 51, 100, 9].into(), RemotePort(443), DevicePort(40000));
//! assert_eq!(table.verdict(&flow), Ok(Verdict::Accept));
//! assert_eq!(table.verdict(&flow.answered()), Ok(Verdict::Drop));
//! # Ok::<(), mirokdeul::Refusal>(())
//! ```
#![deny(unsafe_op_in_unsafe_fn)]
#![warn(missing_docs)]

mod answer;
mod flow;
mod sys;
mod table;

pub use answer::{Answer, NoVerdict, Refusal, Verdict};
pub use flow::{DevicePort, Flow, RemotePort, DEVICE_OPENED, FROM_DEVICE, REMOTE_OPENED, TO_DEVICE};
pub use table::{build, Table};

/// The one length of a reply buffer and of a stored table, in bytes.
pub const REPLY_LEN: usize = 36_864;
/// The one length of a work buffer, in words of 64 bits.
pub const WORK_LEN: usize = 16_290;

/// Whether the plain implementation stands in the library's place (the feature `plain-only`). What is
/// built or measured then says nothing about the library.
pub const IS_STAND_IN: bool = cfg!(feature = "plain-only");

/// Builds the table of a MUD file at a site into lent buffers.
///
/// `reply` must have [`REPLY_LEN`] bytes and `work` [`WORK_LEN`] words; what they hold before does
/// not matter. At return `work` is all zeros, and `reply` has the table's lines, then zeros; or
/// only zeros, for a refusal. That is so for buffers of wrong lengths too.
///
/// ```
/// use mirokdeul::{build_into, Answer, Refusal, REPLY_LEN, WORK_LEN};
/// let mut reply = vec![7; REPLY_LEN];
/// let mut work = vec![7; WORK_LEN];
/// assert_eq!(build_into(b"", b"", &mut reply, &mut work), Answer::Refused(Refusal::NotJson));
/// assert!(reply.iter().all(|&byte| byte == 0));
/// assert!(work.iter().all(|&word| word == 0));
/// assert_eq!(build_into(b"", b"", &mut reply[1..], &mut work), Answer::Refused(Refusal::Buffers));
/// ```
pub fn build_into(file: &[u8], site: &[u8], reply: &mut [u8], work: &mut [u64]) -> Answer {
    let (number, count) = sys::build(file, site, reply, work);
    Answer::from_parts(number, count)
}

/// The verdict of a stored table on a flow. Nothing is changed or kept.
///
/// ```
/// use mirokdeul::{verdict, DevicePort, Flow, NoVerdict, RemotePort, Verdict, REPLY_LEN};
/// let flow = Flow::udp_from_device([192, 0, 2, 53].into(), RemotePort(53), DevicePort(4000));
/// assert_eq!(verdict(&[0; REPLY_LEN], &flow), Ok(Verdict::Drop));
/// assert_eq!(verdict(&[1; REPLY_LEN], &flow), Err(NoVerdict::NotATable));
/// ```
pub fn verdict(stored: &[u8], flow: &Flow) -> Result<Verdict, NoVerdict> {
    answer::verdict_from_number(sys::verdict(stored, flow))
}

/// The number of words of a work buffer as the linked library says it, which is [`WORK_LEN`].
///
/// ```
/// assert_eq!(mirokdeul::work_len(), mirokdeul::WORK_LEN);
/// ```
pub fn work_len() -> usize {
    sys::work_len()
}
