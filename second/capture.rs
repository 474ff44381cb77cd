//! A capture's records.

use crate::presentation::LARGEST_LIMIT;
use crate::refusal::Refusal;

const KIND_FRAME: u16 = 1;
const KIND_ADMIT: u16 = 2;
/// Removals are no longer obeyed (request #109).
const KIND_REMOVE: u16 = 3;
const KIND_ADMIT_WITH_LIMIT: u16 = 5;

/// The longest record: its two length bytes and 65,535 bytes after them.
pub const LONGEST_RECORD: usize = 2 + u16::MAX as usize;

/// A sound record of a capture.
#[derive(Clone, Copy, Debug, PartialEq, Eq)]
pub enum CaptureRecord<'a> {
    Frame {
        arrival: u64,
        frame: &'a [u8],
    },
    /// Admits a stream with a transit limit in nanoseconds, which may be too large
    /// (request #107).
    Admit {
        id: u64,
        limit: u32,
    },
}

/// Splits the first record off `bytes`: what its length counts, and the bytes
/// after it. Nothing where `bytes` ends before the record does.
pub fn split_record(bytes: &[u8]) -> Option<(&[u8], &[u8])> {
    let (length, rest) = bytes.split_first_chunk()?;
    rest.split_at_checked(usize::from(u16::from_le_bytes(*length)))
}

/// Reads a whole record, given without its length bytes.
pub fn parse_record(record: &[u8]) -> Result<CaptureRecord<'_>, Refusal> {
    let Some((kind, body)) = record.split_first_chunk() else {
        return Err(Refusal::RecordLength);
    };
    match u16::from_le_bytes(*kind) {
        KIND_FRAME => match body.split_first_chunk() {
            Some((arrival, frame)) => {
                Ok(CaptureRecord::Frame { arrival: u64::from_le_bytes(*arrival), frame })
            }
            None => Err(Refusal::RecordLength),
        },
        KIND_ADMIT => Ok(CaptureRecord::Admit { id: parse_stream_id(body)?, limit: LARGEST_LIMIT }),
        KIND_REMOVE => parse_stream_id(body).and(Err(Refusal::RemovalRetired)),
        KIND_ADMIT_WITH_LIMIT => match body.split_last_chunk() {
            Some((id, limit)) => Ok(CaptureRecord::Admit {
                id: parse_stream_id(id)?,
                limit: u32::from_le_bytes(*limit),
            }),
            None => Err(Refusal::RecordLength),
        },
        _ => Err(Refusal::RecordKind),
    }
}

/// Reads a stream id, which has all of `body`.
fn parse_stream_id(body: &[u8]) -> Result<u64, Refusal> {
    match body.try_into() {
        Ok(id) => Ok(u64::from_be_bytes(id)),
        Err(_) => Err(Refusal::RecordLength),
    }
}

#[cfg(test)]
mod tests {
    use super::*;

    #[test]
    fn record_lengths_and_kinds() {
        let number = |record: &[u8]| parse_record(record).map_or_else(Refusal::number, |_| 0);
        assert_eq!(number(&[]), 42);
        assert_eq!(number(&[1]), 42);
        for (kind, lengths, right) in
            [(1, 10..=65535, 0), (2, 10..=10, 0), (3, 10..=10, 44), (5, 14..=14, 0)]
        {
            for length in [2, 3, 5, 6, 9, 10, 11, 13, 14, 15, 65535] {
                let mut record = vec![0; length];
                record[0] = kind;
                let answer = if lengths.contains(&length) { right } else { 42 };
                assert_eq!(number(&record), answer, "kind {kind}, length {length}");
            }
        }
        for kind in [0, 4, 6, 256, 257, 259, 261, 768, 771, 1280, 65535_u16] {
            for body in [0, 8, 12] {
                let record = [&kind.to_le_bytes()[..], &vec![0; body]].concat();
                assert_eq!(number(&record), 43, "kind {kind}, length {}", body + 2);
            }
        }
        assert_eq!(
            parse_record(&[1, 0, 1, 2, 0, 0, 0, 0, 0, 0]),
            Ok(CaptureRecord::Frame { arrival: 513, frame: &[] })
        );
        assert_eq!(
            parse_record(&[2, 0, 0, 0, 0, 0, 0, 0, 2, 1]),
            Ok(CaptureRecord::Admit { id: 513, limit: 2_147_483_647 })
        );
    }

    #[test]
    fn limits() {
        for (bytes, limit) in [
            ([0, 0, 0, 0], 0),
            ([1, 0, 0, 0], 1),
            ([4, 3, 2, 1], 0x0102_0304),
            ([255, 255, 255, 127], 2_147_483_647),
            ([0, 0, 0, 128], 2_147_483_648),
            ([255, 255, 255, 255], 4_294_967_295),
        ] {
            let record = [&[5, 0, 0, 0, 0, 0, 0, 0, 2, 1][..], &bytes].concat();
            assert_eq!(parse_record(&record), Ok(CaptureRecord::Admit { id: 513, limit }));
        }
    }

    #[test]
    fn first_record() {
        assert_eq!(split_record(&[]), None);
        assert_eq!(split_record(&[0]), None);
        assert_eq!(split_record(&[0, 0]), Some((&[][..], &[][..])));
        assert_eq!(split_record(&[2, 0, 7]), None);
        assert_eq!(split_record(&[2, 0, 7, 8, 9]), Some((&[7, 8][..], &[9][..])));
        assert_eq!(split_record(&[0, 2, 7, 8, 9]), None);
    }
}
