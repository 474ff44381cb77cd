//! Numbers on the wire, most significant byte first.

/// Two bytes as a number.
pub fn be16<const N: usize>(bytes: &[u8; N], at: usize) -> u16 {
    u16::from_be_bytes([bytes[at], bytes[at + 1]])
}

/// Four bytes as a number.
pub fn be32<const N: usize>(bytes: &[u8; N], at: usize) -> u32 {
    u32::from(be16(bytes, at)) << 16 | u32::from(be16(bytes, at + 2))
}

/// Six bytes as a number.
pub fn be48<const N: usize>(bytes: &[u8; N], at: usize) -> u64 {
    u64::from(be16(bytes, at)) << 32 | u64::from(be32(bytes, at + 2))
}

/// Eight bytes as a number.
pub fn be64<const N: usize>(bytes: &[u8; N], at: usize) -> u64 {
    u64::from(be32(bytes, at)) << 32 | u64::from(be32(bytes, at + 4))
}

#[cfg(test)]
mod tests {
    use super::*;

    #[test]
    fn numbers() {
        let bytes = [0xFF, 0x12, 0x34, 0x56, 0x78, 0x9A, 0xBC, 0xDE, 0xF0];
        assert_eq!(be16(&bytes, 1), 0x1234);
        assert_eq!(be32(&bytes, 1), 0x1234_5678);
        assert_eq!(be48(&bytes, 1), 0x1234_5678_9ABC);
        assert_eq!(be64(&bytes, 1), 0x1234_5678_9ABC_DEF0);
        assert_eq!(be64(&bytes, 0), 0xFF12_3456_789A_BCDE);
    }
}
