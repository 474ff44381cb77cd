//! Captures of any size, read in fixed memory.

use crate::capture::{split_record, LONGEST_RECORD};
use std::io::{self, ErrorKind, Read};

/// Room for the part of a capture at hand, at least one longest record.
pub const BUFFER: usize = 256 * 1024;
const _: () = assert!(BUFFER >= LONGEST_RECORD);

/// Why a capture wasn't read to its end.
#[derive(Debug)]
pub enum Failure {
    Read(io::Error),
    Write(io::Error),
}

/// Where a capture ends.
#[derive(Clone, Copy, Debug, PartialEq, Eq)]
pub enum End {
    AfterRecord,
    InsideRecord,
}

/// Reads what comes next, however often the call is interrupted.
fn read_some(input: &mut impl Read, buffer: &mut [u8]) -> io::Result<usize> {
    loop {
        match input.read(buffer) {
            Err(error) if error.kind() == ErrorKind::Interrupted => {}
            answer => return answer,
        }
    }
}

/// Hands on each whole record of a capture, without its length bytes. What
/// `hand_on` fails with is a failure to write. The buffer has room for at least
/// one longest record.
pub fn read_records(
    input: &mut impl Read,
    buffer: &mut [u8],
    mut hand_on: impl FnMut(&[u8]) -> io::Result<()>,
) -> Result<End, Failure> {
    // The bytes read and not yet handed on are buffer[start..end].
    let (mut start, mut end) = (0, 0);
    loop {
        let read = read_some(input, &mut buffer[end..]).map_err(Failure::Read)?;
        if read == 0 {
            return Ok(if start < end { End::InsideRecord } else { End::AfterRecord });
        }
        end += read;
        while let Some((record, _)) = split_record(&buffer[start..end]) {
            hand_on(record).map_err(Failure::Write)?;
            start += 2 + record.len();
        }
        // Keep room for the longest record, moving what is left only if needed.
        if start == end {
            (start, end) = (0, 0);
        } else if buffer.len() - start < LONGEST_RECORD {
            buffer.copy_within(start..end, 0);
            (start, end) = (0, end - start);
        }
    }
}

#[cfg(test)]
mod tests {
    use super::*;
    use crate::samples::{record, Slow};

    /// The records of a capture, read with the least buffer, and its end.
    fn records(input: &mut impl Read) -> (Vec<Vec<u8>>, Result<End, Failure>) {
        let mut records = Vec::new();
        let end = read_records(input, &mut vec![0; LONGEST_RECORD], |record| {
            records.push(record.to_vec());
            Ok(())
        });
        (records, end)
    }

    #[test]
    fn pieces_of_any_size() {
        let whole = [record(1, &[5; 9]), vec![0, 0], record(2, &[6; 8])];
        let capture = whole.concat();
        let counted: Vec<Vec<u8>> = whole.iter().map(|record| record[2..].to_vec()).collect();
        for piece in 1..=capture.len() {
            for length in 0..=capture.len() {
                let (read, end) = records(&mut Slow::new(&capture[..length], piece));
                let (count, expected) = match length {
                    0 => (0, End::AfterRecord),
                    1..=12 => (0, End::InsideRecord),
                    13 => (1, End::AfterRecord),
                    14 => (1, End::InsideRecord),
                    15 => (2, End::AfterRecord),
                    16..=26 => (2, End::InsideRecord),
                    _ => (3, End::AfterRecord),
                };
                assert_eq!((end.unwrap(), read), (expected, counted[..count].to_vec()));
            }
        }
    }

    #[test]
    fn failures() {
        let capture = [record(1, &[]), record(2, &[])].concat();
        let (read, end) = records(&mut Slow { fails: true, ..Slow::new(&capture, 3) });
        assert!(matches!(end, Err(Failure::Read(_))));
        assert_eq!(read, [[1, 0], [2, 0]]);
        let mut handed = 0;
        let end = read_records(&mut &capture[..], &mut vec![0; BUFFER], |_| {
            handed += 1;
            Err(ErrorKind::BrokenPipe.into())
        });
        assert!(matches!(end, Err(Failure::Write(_))));
        assert_eq!(handed, 1);
    }
}
