//! The library call itself, and nothing else: the only unsafe code of the crate.
//!
//! With the feature `plain-only` the plain implementation stands in, so that the crates around
//! this one can be built and tried without the archive.

use crate::flow::Flow;

/// Builds a table: the answer's number and the count of lines.
#[cfg(not(feature = "plain-only"))]
pub fn build(file: &[u8], site: &[u8], reply: &mut [u8], work: &mut [u64]) -> (u8, usize) {
    let mut count = 0;
    // SAFETY: each pointer goes with the length of the slice it comes from, none is null, and the
    // borrows keep the slices alive and the ones that are written apart from all others. `count`
    // is a local of this function.
    let number = unsafe {
        foreign::mirokdeul_build(
            file.as_ptr(),
            file.len(),
            site.as_ptr(),
            site.len(),
            reply.as_mut_ptr(),
            reply.len(),
            work.as_mut_ptr(),
            work.len(),
            &mut count,
        )
    };
    (number, count)
}

/// A verdict's number: 0 drop, 1 accept, 13 or 14.
#[cfg(not(feature = "plain-only"))]
pub fn verdict(stored: &[u8], flow: &Flow) -> u8 {
    // SAFETY: the pointer is not null and goes with the length of its slice, which is only read.
    unsafe {
        foreign::mirokdeul_verdict(
            stored.as_ptr(),
            stored.len(),
            flow.direction,
            flow.protocol,
            flow.opener,
            flow.address.into(),
            flow.remote.0,
            flow.device.0,
        )
    }
}

/// The number of words of a work buffer, as the library says it.
#[cfg(not(feature = "plain-only"))]
pub fn work_len() -> usize {
    // SAFETY: the function takes nothing and gives a constant.
    unsafe { foreign::mirokdeul_work_len() }
}

#[cfg(not(feature = "plain-only"))]
mod foreign {
    extern "C" {
        pub fn mirokdeul_build(
            file: *const u8,
            file_len: usize,
            site: *const u8,
            site_len: usize,
            reply: *mut u8,
            reply_len: usize,
            work: *mut u64,
            work_len: usize,
            count: *mut usize,
        ) -> u8;

        pub fn mirokdeul_verdict(
            stored: *const u8,
            stored_len: usize,
            direction: u8,
            protocol: u8,
            opener: u8,
            address: u32,
            remote_port: u16,
            device_port: u16,
        ) -> u8;

        pub fn mirokdeul_work_len() -> usize;
    }
}

/// Builds a table with the plain implementation, which needs no work buffer and clears it.
#[cfg(feature = "plain-only")]
pub fn build(file: &[u8], site: &[u8], reply: &mut [u8], work: &mut [u64]) -> (u8, usize) {
    work.fill(0);
    mirokdeul_plain::build(file, site, reply, work.len() == crate::WORK_LEN)
}

/// A verdict's number, from the plain implementation.
#[cfg(feature = "plain-only")]
pub fn verdict(stored: &[u8], flow: &Flow) -> u8 {
    let plain = mirokdeul_plain::Flow {
        direction: flow.direction,
        protocol: flow.protocol,
        opener: flow.opener,
        address: flow.address.into(),
        remote: mirokdeul_plain::RemotePort(flow.remote.0),
        device: mirokdeul_plain::DevicePort(flow.device.0),
    };
    mirokdeul_plain::verdict(stored, plain)
}

/// The number of words of a work buffer.
#[cfg(feature = "plain-only")]
pub fn work_len() -> usize {
    crate::WORK_LEN
}
