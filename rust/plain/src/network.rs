//! Dotted quads and networks, as the site table and the entries write them.

use crate::flow::Range;

/// Reads a decimal number of at most `most`, with no extra zeros in front, that fills `text`.
pub fn decimal(text: &[u8], most: u32) -> Option<u32> {
    let extra_zero = text.len() > 1 && text[0] == b'0';
    if text.is_empty() || extra_zero {
        return None;
    }
    let mut value = 0u32;
    for &byte in text {
        if !byte.is_ascii_digit() {
            return None;
        }
        // Giving up as soon as the number is too large keeps long digit strings from wrapping.
        value = value.checked_mul(10)?.checked_add(u32::from(byte - b'0'))?;
        if value > most {
            return None;
        }
    }
    Some(value)
}

/// Reads an address written as four numbers parted by dots.
pub fn dotted_quad(text: &[u8]) -> Option<u32> {
    let mut parts = text.split(|&byte| byte == b'.');
    let mut address = 0;
    for _ in 0..4 {
        address = address << 8 | decimal(parts.next()?, 255)?;
    }
    match parts.next() {
        None => Some(address),
        Some(_) => None,
    }
}

/// Whether a network must be written with its `/n`.
#[derive(Clone, Copy, Debug, PartialEq, Eq)]
pub enum Length {
    /// As in an entry.
    Required,
    /// As in the site table, where a bare address is a network of one.
    Optional,
}

/// Reads a network and clears its host bits.
pub fn network(text: &[u8], length: Length) -> Option<Range> {
    let (address, bits) = match text.iter().position(|&byte| byte == b'/') {
        Some(slash) => (&text[..slash], decimal(&text[slash + 1..], 32)?),
        None if length == Length::Optional => (text, 32),
        None => return None,
    };
    let host_bits = u32::MAX.checked_shr(bits).unwrap_or(0);
    let address = dotted_quad(address)?;
    Some(Range::new(address & !host_bits, address | host_bits))
}

#[cfg(test)]
mod tests {
    use super::*;

    #[test]
    fn decimals_have_no_extra_zeros_and_do_not_wrap() {
        assert_eq!(decimal(b"0", 0), Some(0));
        assert_eq!(decimal(b"255", 255), Some(255));
        assert_eq!(decimal(b"256", 255), None);
        assert_eq!(decimal(b"4294967295", u32::MAX), Some(u32::MAX));
        for bad in
            ["", "00", "01", "+1", "-0", " 1", "1 ", "4294967296", "4294967302", "18446744073709551617"]
        {
            assert_eq!(decimal(bad.as_bytes(), u32::MAX), None, "{bad}");
        }
    }

    #[test]
    fn quads_have_four_numbers() {
        assert_eq!(dotted_quad(b"0.0.0.0"), Some(0));
        assert_eq!(dotted_quad(b"255.255.255.255"), Some(u32::MAX));
        assert_eq!(dotted_quad(b"192.0.2.53"), Some(0xC000_0235));
        for bad in [
            "", "1", "1.2.3", "1.2.3.4.5", "1.2.3.", ".1.2.3", "1..2.3", "256.0.0.0", "00.0.0.0", "1.2.3.04",
            "1.2.3.4 ", "a.b.c.d",
        ] {
            assert_eq!(dotted_quad(bad.as_bytes()), None, "{bad}");
        }
    }

    #[test]
    fn networks_clear_their_host_bits() {
        let optional = |text: &str| network(text.as_bytes(), Length::Optional);
        assert_eq!(optional("10.1.2.3/8"), Some(Range::new(0x0A00_0000, 0x0AFF_FFFF)));
        assert_eq!(optional("10.1.2.3/0"), Some(Range::new(0, u32::MAX)));
        assert_eq!(optional("255.255.255.255/32"), Some(Range::only(u32::MAX)));
        assert_eq!(optional("198.51.100.9/31"), Some(Range::new(0xC633_6408, 0xC633_6409)));
        assert_eq!(optional("1.2.3.4"), Some(Range::only(0x0102_0304)));
        for bad in [
            "1.2.3.4/", "1.2.3.4/33", "1.2.3.4/00", "1.2.3.4/08", "1.2.3.4/1/1", "/8", "1.2.3.4/-1",
            "1.2.3.4/ 8", "1.2.3.4\r",
        ] {
            assert_eq!(optional(bad), None, "{bad}");
        }
    }

    #[test]
    fn the_length_can_be_required() {
        assert_eq!(network(b"1.2.3.4", Length::Required), None);
        assert_eq!(network(b"1.2.3.4/32", Length::Required), Some(Range::only(0x0102_0304)));
    }
}
