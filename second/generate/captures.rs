//! Captures, put together record by record.

use crate::chance::Chance;
use std::io::{self, Write};

/// Size of most captures.
pub const SMALL: usize = 56_000;

/// A capture being put together.
pub struct Capture {
    pub bytes: Vec<u8>,
    /// No further record is put in once the capture has this many bytes.
    size: usize,
    /// Where the last record put in starts.
    last: usize,
}

impl Capture {
    pub fn new(size: usize) -> Capture {
        Capture { bytes: Vec::new(), size, last: 0 }
    }

    pub fn full(&self) -> bool {
        self.bytes.len() >= self.size
    }

    /// Puts in a record: its length, then what the length counts.
    pub fn record(&mut self, counted: &[u8]) {
        self.last = self.bytes.len();
        self.bytes.extend_from_slice(&(counted.len() as u16).to_le_bytes());
        self.bytes.extend_from_slice(counted);
    }

    pub fn kind(&mut self, kind: u16, body: &[u8]) {
        self.record(&[&kind.to_le_bytes()[..], body].concat());
    }

    pub fn frame(&mut self, arrival: u64, frame: &[u8]) {
        self.kind(1, &[&arrival.to_le_bytes()[..], frame].concat());
    }

    pub fn admit(&mut self, id: u64) {
        self.kind(2, &id.to_be_bytes());
    }

    /// Admits a stream with a transit limit (request #107).
    pub fn admit_limited(&mut self, id: u64, limit: u32) {
        self.kind(5, &[&id.to_be_bytes()[..], &limit.to_le_bytes()].concat());
    }

    /// Puts in a removal, which is no longer obeyed (request #109).
    pub fn remove(&mut self, id: u64) {
        self.kind(3, &id.to_be_bytes());
    }

    /// Writes out what was put in so far, and keeps none of it.
    pub fn write_out(&mut self, out: &mut impl Write) -> io::Result<()> {
        out.write_all(&self.bytes)?;
        self.bytes.clear();
        Ok(())
    }

    /// Takes off the end of the last record, at every kind of place.
    pub fn cut_last(&mut self, chance: &mut Chance) {
        let whole = self.bytes.len() - self.last;
        let kept = match chance.below(4) {
            0 => whole - 1,
            1 => chance.below(whole),
            _ => chance.pick(&[1, 1, 2, 3, 4, 5, 11, 12, 13, 14, 15, 50, 60]).min(whole - 1),
        };
        self.keep_of_last(kept);
    }

    /// Keeps so many bytes of the last record.
    pub fn keep_of_last(&mut self, kept: usize) {
        self.bytes.truncate(self.last + kept);
    }
}
