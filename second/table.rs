//! The stream table: admission and receiving.

use crate::frame::{parse_frame, Frame};
use crate::presentation::{Presentation, LARGEST_LIMIT};
use crate::refusal::Refusal;
use crate::stream::{Flags, StreamRecord};

/// Places in a capture's stream table.
const TABLE_PLACES: usize = 64;

/// The streams admitted while a capture is read.
pub struct StreamTable {
    records: [StreamRecord; TABLE_PLACES],
}

/// The answer to an accepted frame.
#[allow(dead_code)] // a listing prints no field of the frame itself
#[derive(Clone, Copy, Debug, PartialEq, Eq)]
pub struct Reception<'a> {
    pub frame: Frame<'a>,
    pub flags: Flags,
    pub presentation: Presentation,
}

impl StreamTable {
    /// A table with every record unused.
    pub fn new() -> StreamTable {
        StreamTable { records: [StreamRecord::default(); TABLE_PLACES] }
    }

    /// The record of an admitted stream.
    fn find(&mut self, id: u64) -> Option<&mut StreamRecord> {
        self.records.iter_mut().find(|record| record.id == id && record.in_use)
    }

    /// Admits a stream with a transit limit, at the lowest unused place.
    pub fn admit(&mut self, id: u64, limit: u32) -> Result<(), Refusal> {
        if self.find(id).is_some() {
            return Err(Refusal::AlreadyAdmitted);
        }
        if limit > LARGEST_LIMIT {
            return Err(Refusal::LimitTooLarge);
        }
        let Some(unused) = self.records.iter_mut().find(|record| !record.in_use) else {
            return Err(Refusal::NoUnusedRecord);
        };
        *unused = StreamRecord::admitted(id, limit);
        Ok(())
    }

    /// The records of the admitted streams, from the lowest place on.
    #[allow(dead_code)] // a listing prints no record
    pub fn admitted(&self) -> impl Iterator<Item = &StreamRecord> {
        self.records.iter().filter(|record| record.in_use)
    }

    /// Receives a frame that arrived at `arrival` nanoseconds. A refused frame
    /// changes nothing.
    pub fn receive<'a>(&mut self, frame: &'a [u8], arrival: u64) -> Result<Reception<'a>, Refusal> {
        let frame = parse_frame(frame)?;
        let Some(record) = self.find(frame.stream_id) else {
            return Err(Refusal::StreamNotAdmitted);
        };
        let presentation = Presentation::of_frame(&frame, arrival, record.limit);
        let flags = record.step(&frame);
        Ok(Reception { frame, flags, presentation })
    }
}

#[cfg(test)]
mod tests {
    use super::*;
    use crate::presentation::TimeKind;
    use crate::samples::{of_length, sound, stamped, tagged_0, with};

    /// A table with one stream admitted, without a transit limit.
    fn table(id: u64) -> StreamTable {
        let mut table = StreamTable::new();
        table.admit(id, LARGEST_LIMIT).unwrap();
        table
    }

    #[test]
    fn received_frames() {
        let mut streams = table(1);
        let first = stamped(sound(1, &[0; 4]), 16);
        let second = with(first.clone(), 20, 2);
        for (frame, flags) in [
            (first, Flags::default()),
            (second, Flags { sequence: true, block: true, ..Flags::default() }),
        ] {
            assert_eq!(
                streams.receive(&frame, 10),
                Ok(Reception {
                    frame: parse_frame(&frame).unwrap(),
                    flags,
                    presentation: Presentation { kind: TimeKind::Ahead, offset: 6, time: 16 },
                })
            );
        }
        assert_eq!(streams.find(1).unwrap().counts.frames, 2);
    }

    #[test]
    fn stream_not_admitted() {
        let mut streams = StreamTable::new();
        assert_eq!(streams.receive(&sound(1, &[]), 0), Err(Refusal::StreamNotAdmitted));
        // An unused record has id 0 and isn't the record of stream 0.
        assert_eq!(streams.receive(&sound(0, &[]), 0), Err(Refusal::StreamNotAdmitted));
        // Whatever is wrong with the frame itself comes first.
        let qpc = with(sound(1, &[]), 44, 0x18);
        assert_eq!(streams.receive(&qpc, 0), Err(Refusal::PaddingCount));
        let broken = with(sound(1, &[0; 4]), 43, 2);
        assert_eq!(streams.receive(&broken, 0), Err(Refusal::BrokenBlock));
    }

    #[test]
    fn refused_frames_change_nothing() {
        let mut streams = table(1);
        streams.receive(&with(sound(1, &[]), 20, 4), 0).unwrap();
        let before = streams.records;
        for wrong in [
            with(sound(1, &[]), 12, 0),
            of_length(with(sound(1, &[0; 4]), 20, 5), 11),
            with(sound(2, &[]), 20, 5),
        ] {
            assert!(streams.receive(&wrong, 0).is_err());
            assert_eq!(streams.records, before);
        }
        let next = with(sound(1, &[]), 20, 5);
        assert_eq!(streams.receive(&next, 0).unwrap().flags, Flags::default());
    }

    #[test]
    fn frames_with_qpc_change_nothing() {
        // All that a record holds of the frame would be new.
        let qpc = [(19, 0x89), (20, 9), (43, 2), (44, 0x5C), (45, 9), (46, 0x81)]
            .into_iter()
            .fold(sound(1, &[0; 8]), |frame, (at, byte)| with(frame, at, byte));
        let mut streams = table(1);
        // Before the first accepted frame, and after it.
        for sequence in 4..=6 {
            let before = streams.records;
            assert_eq!(streams.receive(&qpc, 0), Err(Refusal::PaddingCount));
            assert_eq!(streams.records, before);
            let next = with(sound(1, &[]), 20, sequence);
            assert_eq!(streams.receive(&next, 0).unwrap().flags, Flags::default());
        }
        assert!(streams.receive(&with(qpc, 44, 0x44), 0).is_ok());
    }

    #[test]
    fn table_places() {
        let mut streams = StreamTable::new();
        // In the order of admission, whatever the ids are.
        let ids: Vec<u64> = (0..64_u64).map(|place| place * 37 % 64).collect();
        for (place, &id) in ids.iter().enumerate() {
            assert_eq!(streams.records[place], StreamRecord::default());
            assert_eq!(streams.admit(id, id as u32), Ok(()));
            assert_eq!(streams.records[place], StreamRecord::admitted(id, id as u32));
        }
        assert!(streams.admitted().map(|record| record.id).eq(ids.iter().copied()));
        let before = streams.records;
        for &id in &ids {
            assert_eq!(streams.admit(id, 0), Err(Refusal::AlreadyAdmitted));
        }
        assert_eq!(streams.admit(64, 0), Err(Refusal::NoUnusedRecord));
        assert_eq!(streams.records, before);
    }

    #[test]
    fn admitted_twice_goes_on() {
        let mut streams = table(0);
        let none = Flags::default();
        streams.receive(&with(sound(0, &[]), 20, 4), 0).unwrap();
        let next = with(sound(0, &[]), 20, 5);
        for flags in [none, Flags { sequence: true, ..none }] {
            assert_eq!(streams.admit(0, 0), Err(Refusal::AlreadyAdmitted));
            assert_eq!(streams.receive(&next, 0).unwrap().flags, flags);
        }
        // One that is admitted later starts by itself.
        assert!(streams.receive(&sound(1, &[]), 0).is_err());
        streams.admit(1, 0).unwrap();
        assert_eq!(streams.receive(&next, 0).unwrap().flags, Flags { sequence: true, ..none });
        assert_eq!(streams.receive(&sound(1, &[]), 0).unwrap().flags, none);
    }

    #[test]
    fn tag_0_of_a_stream_not_admitted() {
        let mut streams = table(1);
        for data in [&[][..], &[0; 3], &[0xFF; 9]] {
            assert_eq!(streams.receive(&tagged_0(2, data), 0), Err(Refusal::StreamNotAdmitted));
            let tag_2 = with(tagged_0(2, data), 40, 0x80);
            assert_eq!(streams.receive(&tag_2, 0), Err(Refusal::Tag));
        }
    }

    /// The kind of time of a frame of the stream that is ahead by this much.
    fn kind_ahead_by(streams: &mut StreamTable, id: u64, by: u32) -> TimeKind {
        let frame = stamped(sound(id, &[]), 1000 + by);
        streams.receive(&frame, 1000).unwrap().presentation.kind
    }

    #[test]
    fn limits_of_admissions() {
        let too_large = LARGEST_LIMIT + 1;
        let mut streams = StreamTable::new();
        assert_eq!(streams.admit(0, too_large), Err(Refusal::LimitTooLarge));
        assert_eq!(streams.admit(0, u32::MAX), Err(Refusal::LimitTooLarge));
        assert_eq!(streams.records, StreamTable::new().records);
        for id in 0..64 {
            assert_eq!(streams.admit(id, LARGEST_LIMIT), Ok(()));
            // Of two refusals, that of the limit comes second.
            assert_eq!(streams.admit(id, too_large), Err(Refusal::AlreadyAdmitted));
            assert_eq!(streams.admit(id, u32::MAX), Err(Refusal::AlreadyAdmitted));
        }
        // And then before that of the full table.
        let before = streams.records;
        assert_eq!(streams.admit(64, LARGEST_LIMIT), Err(Refusal::NoUnusedRecord));
        assert_eq!(streams.admit(64, too_large), Err(Refusal::LimitTooLarge));
        assert_eq!(streams.admit(64, u32::MAX), Err(Refusal::LimitTooLarge));
        assert_eq!(streams.records, before);
    }

    #[test]
    fn each_stream_has_its_own_limit() {
        let mut streams = table(1);
        streams.admit(2, 0).unwrap();
        streams.admit(3, 50).unwrap();
        for _ in 0..2 {
            for (id, limit) in [(3, 50), (2, 0), (1, LARGEST_LIMIT)] {
                assert_eq!(kind_ahead_by(&mut streams, id, limit), TimeKind::Ahead);
                if limit < LARGEST_LIMIT {
                    assert_eq!(kind_ahead_by(&mut streams, id, limit + 1), TimeKind::Far);
                }
            }
        }
    }

    #[test]
    fn limits_are_kept() {
        let mut streams = table(1);
        streams.admit(2, 50).unwrap();
        // Neither refused admissions nor refused frames change them.
        for other in [0, 49, 51, LARGEST_LIMIT, u32::MAX] {
            assert_eq!(streams.admit(2, other), Err(Refusal::AlreadyAdmitted));
            assert!(streams.receive(&with(sound(2, &[]), 44, 0x18), 1000).is_err());
            assert_eq!(kind_ahead_by(&mut streams, 2, 50), TimeKind::Ahead);
            assert_eq!(kind_ahead_by(&mut streams, 2, 51), TimeKind::Far);
        }
    }
}
