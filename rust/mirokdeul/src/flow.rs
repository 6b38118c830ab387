//! The six numbers of a flow.

use std::net::Ipv4Addr;

/// A port of the remote end. It has a type of its own, so that no device port can pass for it.
#[derive(Clone, Copy, Debug, PartialEq, Eq, PartialOrd, Ord, Hash)]
pub struct RemotePort(pub u16);

/// A port of the device.
#[derive(Clone, Copy, Debug, PartialEq, Eq, PartialOrd, Ord, Hash)]
pub struct DevicePort(pub u16);

/// The direction of a flow that leaves the device.
pub const FROM_DEVICE: u8 = 0;
/// The direction of a flow that goes to the device.
pub const TO_DEVICE: u8 = 1;
/// The opener of a connection that the device opened, and of every flow that is not TCP.
pub const DEVICE_OPENED: u8 = 0;
/// The opener of a TCP connection that the remote opened.
pub const REMOTE_OPENED: u8 = 1;

/// Six numbers to ask a verdict for.
///
/// Not all of them are flows: the opener is 0 unless the protocol is 6, and both ports are 0 unless
/// it is 6 or 17. The verdict on others is [`NotAFlow`](crate::NoVerdict::NotAFlow).
#[derive(Clone, Copy, Debug, PartialEq, Eq, Hash)]
pub struct Flow {
    /// [`FROM_DEVICE`] or [`TO_DEVICE`].
    pub direction: u8,
    /// The protocol number of the IPv4 header.
    pub protocol: u8,
    /// [`DEVICE_OPENED`] or [`REMOTE_OPENED`].
    pub opener: u8,
    /// The address of the remote end.
    pub address: Ipv4Addr,
    /// The port of the remote end.
    pub remote: RemotePort,
    /// The port of the device.
    pub device: DevicePort,
}

impl Flow {
    /// A TCP packet from the device, in a connection that it opened.
    ///
    /// ```
    /// use mirokdeul::{DevicePort, Flow, RemotePort};
    /// let flow = Flow::tcp_from_device([198, 51, 100, 8].into(), RemotePort(443), DevicePort(50000));
    /// assert_eq!((flow.direction, flow.protocol, flow.opener), (0, 6, 0));
    /// ```
    pub fn tcp_from_device(address: Ipv4Addr, remote: RemotePort, device: DevicePort) -> Flow {
        Flow { direction: FROM_DEVICE, protocol: 6, opener: DEVICE_OPENED, address, remote, device }
    }

    /// A UDP packet from the device.
    pub fn udp_from_device(address: Ipv4Addr, remote: RemotePort, device: DevicePort) -> Flow {
        Flow { direction: FROM_DEVICE, protocol: 17, opener: DEVICE_OPENED, address, remote, device }
    }

    /// The same flow, seen in the other direction: the ends keep their addresses and ports.
    pub fn answered(self) -> Flow {
        Flow { direction: self.direction ^ 1, ..self }
    }
}
