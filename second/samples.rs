//! Frames, records and readers that the tests use.

use std::io::{self, ErrorKind, Read};

/// A sound frame of the stream: group destination, single source, tv 1,
/// DBS 1, and zero in every field that may be zero.
pub fn sound(id: u64, payload: &[u8]) -> Vec<u8> {
    let mut frame = vec![0; 50];
    frame[0] = 0x91;
    frame[12..14].copy_from_slice(&0x8100u16.to_be_bytes());
    frame[16..18].copy_from_slice(&0x22F0u16.to_be_bytes());
    frame[19] = 0x81;
    frame[22..30].copy_from_slice(&id.to_be_bytes());
    frame[38..40].copy_from_slice(&(payload.len() as u16 + 8).to_be_bytes());
    frame[40] = 0x40;
    frame[41] = 0xA0;
    frame[43] = 1;
    frame[46] = 0x80;
    frame.extend_from_slice(payload);
    frame
}

/// A sound frame of the stream with tag 0 (request #108), whose payload has no CIP header
/// before it.
pub fn tagged_0(id: u64, payload: &[u8]) -> Vec<u8> {
    let headers = with(of_length(sound(id, &[]), payload.len() as u16), 40, 0);
    [&headers[..42], payload].concat()
}

/// The frame with one byte set.
pub fn with(mut frame: Vec<u8>, at: usize, byte: u8) -> Vec<u8> {
    frame[at] = byte;
    frame
}

/// The frame with its AVTP timestamp set.
pub fn stamped(mut frame: Vec<u8>, timestamp: u32) -> Vec<u8> {
    frame[30..34].copy_from_slice(&timestamp.to_be_bytes());
    frame
}

/// The frame with its stream_data_length set.
pub fn of_length(mut frame: Vec<u8>, length: u16) -> Vec<u8> {
    frame[38..40].copy_from_slice(&length.to_be_bytes());
    frame
}

/// A record of a capture, with its length.
pub fn record(kind: u16, body: &[u8]) -> Vec<u8> {
    let mut record = (body.len() as u16 + 2).to_le_bytes().to_vec();
    record.extend_from_slice(&kind.to_le_bytes());
    record.extend_from_slice(body);
    record
}

/// The record of a frame and its arrival.
pub fn frame_record(arrival: u64, frame: &[u8]) -> Vec<u8> {
    record(1, &[&arrival.to_le_bytes()[..], frame].concat())
}

/// The record of an admission without a transit limit.
pub fn admit_record(id: u64) -> Vec<u8> {
    record(2, &id.to_be_bytes())
}

/// The record of an admission with a transit limit (request #107).
pub fn limited_record(id: u64, limit: u32) -> Vec<u8> {
    record(5, &[&id.to_be_bytes()[..], &limit.to_le_bytes()].concat())
}

/// The record of a removal, which is no longer obeyed (request #109).
pub fn remove_record(id: u64) -> Vec<u8> {
    record(3, &id.to_be_bytes())
}

/// Gives its bytes a few at a time, then an end or an error.
pub struct Slow<'a> {
    pub bytes: &'a [u8],
    pub piece: usize,
    pub fails: bool,
}

impl<'a> Slow<'a> {
    /// Gives `piece` bytes at a time, then an end.
    pub fn new(bytes: &'a [u8], piece: usize) -> Slow<'a> {
        Slow { bytes, piece, fails: false }
    }
}

impl Read for Slow<'_> {
    fn read(&mut self, buffer: &mut [u8]) -> io::Result<usize> {
        if self.bytes.is_empty() && self.fails {
            return Err(ErrorKind::TimedOut.into());
        }
        let count = self.piece.min(self.bytes.len()).min(buffer.len());
        buffer[..count].copy_from_slice(&self.bytes[..count]);
        self.bytes = &self.bytes[count..];
        Ok(count)
    }
}
