//! Flows: six numbers, and which sixes are flows.

/// The protocol number of TCP.
pub const TCP: u8 = 6;
/// The protocol number of UDP.
pub const UDP: u8 = 17;

/// The highest value of each dimension, in the order of a line.
pub const HIGHEST: [u32; 6] = [1, 255, 1, u32::MAX, 65_535, 65_535];

/// A port of the remote end.
#[derive(Clone, Copy, Debug, PartialEq, Eq)]
pub struct RemotePort(pub u16);

/// A port of the device.
#[derive(Clone, Copy, Debug, PartialEq, Eq)]
pub struct DevicePort(pub u16);

/// Six numbers, which need not be a flow.
#[derive(Clone, Copy, Debug, PartialEq, Eq)]
pub struct Flow {
    /// 0 from the device, 1 to it.
    pub direction: u8,
    /// The protocol number.
    pub protocol: u8,
    /// Who opened the connection: 0 the device, 1 the remote.
    pub opener: u8,
    /// The address of the remote end.
    pub address: u32,
    /// The port of the remote end.
    pub remote: RemotePort,
    /// The port of the device.
    pub device: DevicePort,
}

impl Flow {
    /// Whether the six numbers are a flow.
    pub fn is_flow(&self) -> bool {
        let has_opener = self.protocol == TCP;
        let has_ports = self.protocol == TCP || self.protocol == UDP;
        self.direction <= 1
            && (self.opener == 0 || (self.opener == 1 && has_opener))
            && (has_ports || (self.remote == RemotePort(0) && self.device == DevicePort(0)))
    }

    /// The six numbers in the order of a line.
    pub fn numbers(&self) -> [u32; 6] {
        [
            self.direction.into(),
            self.protocol.into(),
            self.opener.into(),
            self.address,
            self.remote.0.into(),
            self.device.0.into(),
        ]
    }
}

/// All numbers from `low` to `high`, both included; `low` is not above `high`.
#[derive(Clone, Copy, Debug, PartialEq, Eq, Hash)]
pub struct Range {
    /// The lowest number.
    pub low: u32,
    /// The highest number.
    pub high: u32,
}

impl Range {
    /// The numbers from `low` to `high`.
    pub const fn new(low: u32, high: u32) -> Range {
        Range { low, high }
    }

    /// The one number `value`.
    pub const fn only(value: u32) -> Range {
        Range { low: value, high: value }
    }

    /// Whether `value` is in the range.
    pub fn holds(&self, value: u32) -> bool {
        self.low <= value && value <= self.high
    }
}
