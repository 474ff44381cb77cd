//! What is asked about one stream of a capture: its id, then the capture.

use std::io::{self, Read};

/// Bytes of a stream id.
const STREAM_ID: usize = 8;

/// Reads the id off the input, in wire order. Where the input ends before it does, the
/// bytes that are missing count as 0.
pub fn read_id(input: &mut impl Read) -> io::Result<u64> {
    let mut bytes = Vec::with_capacity(STREAM_ID);
    input.take(STREAM_ID as u64).read_to_end(&mut bytes)?;
    bytes.resize(STREAM_ID, 0);
    Ok(bytes.iter().fold(0, |id, &byte| id << 8 | u64::from(byte)))
}

#[cfg(test)]
mod tests {
    use super::*;
    use crate::samples::Slow;

    #[test]
    fn ids_of_any_length() {
        let bytes = [1, 2, 3, 4, 5, 6, 7, 8, 9];
        for piece in 1..=9 {
            for (length, id) in [
                (0, 0),
                (1, 0x0100_0000_0000_0000),
                (7, 0x0102_0304_0506_0700),
                (8, 0x0102_0304_0506_0708),
                (9, 0x0102_0304_0506_0708),
            ] {
                let mut input = Slow::new(&bytes[..length], piece);
                assert_eq!(read_id(&mut input).unwrap(), id);
                assert_eq!(input.bytes, &bytes[length.min(8)..length]);
            }
        }
        assert!(read_id(&mut Slow { fails: true, ..Slow::new(&bytes[..7], 3) }).is_err());
    }
}
